"""Calls of several callers, one of them an operator, of the device and the office on one queue, drawn by a fixed rule. Most of them are
taken."""
from __future__ import annotations

from collections.abc import Callable, Sequence
from typing import TypeVar

from ipp import Operation, Tag, attribute, octets, record
from messages import PRINTER, Draft, job_request, request
from second.queue import KeptJob, Queue, can_be_canceled

Chosen = TypeVar("Chosen")

# the last of them has no account; opal is an operator where there is one
CALLERS = ["alice", "bob", "Jürg", "opal", "dora"]
ACCOUNTS = CALLERS[:-1]

# by the state of a job: the kinds of reports that are taken
TAKEN = {3: ["start"], 5: ["stop", "stop", "count", "count", "done", "fail", "halt"], 6: 3 * ["resume"] + ["count", "fail", "halt"]}
KINDS = ["start", "stop", "resume", "count", "done", "fail", "halt"]


class Draws:
    """Numbers drawn by a linear congruential generator, whose multiplier and increment are those of Knuth's MMIX."""

    def __init__(self, state: int):
        self.state = state

    def below(self, count: int) -> int:
        self.state = (6364136223846793005 * self.state + 1442695040888963407) % 2**64
        return (self.state >> 33) % count

    def choice(self, choices: Sequence[Chosen]) -> Chosen:
        return choices[self.below(len(choices))]

    def chance(self, percent: int) -> bool:
        return self.below(100) < percent


class Calls:
    """Draws calls on a queue as it is just then."""

    def __init__(self, draws: Draws, queue: Queue):
        self.draws = draws
        self.queue = queue

    def call(self) -> Draft | bytes:
        """A request, or a line of the device, of the office or of a sweep as a replay has it."""
        calls = 5 * [self.new_job] + 7 * [self.on_job] + [self.cancel_jobs] + 2 * [self.look] + 8 * [self.device] + 2 * [self.office] + [self.expire]
        return self.draws.choice(calls)()

    def a_job(self, caller: str, is_fit: Callable[[KeptJob], bool], takes_any: bool = False) -> int:
        """A job of the caller's that is fit, else another of its own, and at times just any number. An operator's own
        are all jobs, if the operation takes any job."""
        has_any = takes_any and octets(caller) in self.queue.operators
        own = [job for job in self.queue.jobs.values() if has_any or job.owner == octets(caller)]
        fit = [job for job in own if is_fit(job)] or own
        if not fit or self.draws.chance(8):
            return self.draws.below(len(self.queue.jobs) + 2)
        return self.draws.choice(fit).number

    def new_job(self) -> Draft:
        operation = self.draws.choice(2 * [Operation.PRINT_JOB] + 3 * [Operation.CREATE_JOB] + [Operation.VALIDATE_JOB])
        rows, job = [], None
        if self.draws.chance(40):
            rows.append(record(Tag.INTEGER, "job-impressions", self.draws.below(12)))
        if self.draws.chance(20):
            rows.append(record(Tag.NAME, "job-name", self.draws.choice(["memo", "résumé", ""])))
        if self.draws.chance(20):
            rows.append(record(Tag.KEYWORD, "compression", self.draws.choice(["none", "none", "gzip"])))
        if self.draws.chance(20):
            rows.append(record(Tag.BOOLEAN, "ipp-attribute-fidelity", self.draws.chance(50)))
        if self.draws.chance(30):
            job = [record(Tag.INTEGER, "copies", self.draws.below(5)), *self.draws.below(2) * [record(Tag.KEYWORD, "sides", "one-sided")]]
        payload = self.draws.choice([b"hi", b"%PDF", b""])
        return request(operation, *rows, job=job, caller=self.draws.choice(CALLERS), payload=payload)

    def on_job(self) -> Draft:
        seldom = 2 * [Operation.HOLD_JOB, Operation.CANCEL_JOB] + [Operation.GET_JOB_ATTRIBUTES]
        operation = self.draws.choice(4 * [Operation.RELEASE_JOB] + 4 * [Operation.SEND_DOCUMENT] + seldom)
        caller = self.draws.choice(CALLERS)
        # else one that the device has
        is_any_canceled = self.draws.chance(60)
        fit = {
            Operation.RELEASE_JOB: lambda job: job.is_live() and job.is_held,
            Operation.SEND_DOCUMENT: lambda job: job.takes_documents,
            Operation.HOLD_JOB: lambda job: job.is_live() and not job.is_held,
            Operation.CANCEL_JOB: lambda job: can_be_canceled(job) and (job.begun is not None or is_any_canceled),
        }
        number = self.a_job(caller, fit.get(operation, lambda job: job.is_live()), operation in (Operation.CANCEL_JOB, Operation.GET_JOB_ATTRIBUTES))
        rows, payload = [], b""
        if operation == Operation.SEND_DOCUMENT:
            rows.append(record(Tag.BOOLEAN, "last-document", self.draws.chance(60)))
            payload = self.draws.choice([b"a", b"hello", b""])
        if operation == Operation.HOLD_JOB and self.draws.chance(30):
            rows.append(record(Tag.KEYWORD, "job-hold-until", self.draws.choice(["indefinite", "indefinite", "evening"])))
        if self.draws.chance(30):
            uri = record(Tag.URI, "job-uri", f"{PRINTER}/{number}")
            return request(operation, uri, *rows, printer=None, caller=caller, payload=payload)
        return job_request(operation, number, *rows, caller=caller, payload=payload)

    def cancel_jobs(self) -> Draft:
        caller = self.draws.choice(CALLERS)
        numbers = [self.a_job(caller, lambda job: job.is_live()) for _ in range(1 + self.draws.below(3))]
        rows = [] if self.draws.chance(25) else [attribute(Tag.INTEGER, "job-ids", *numbers)]
        return request(Operation.CANCEL_MY_JOBS, *rows, caller=caller)

    def look(self) -> Draft:
        """Asks for the printer, a job that has ended, or a list of jobs."""
        caller = self.draws.choice(CALLERS)
        which = self.draws.below(4)
        if which == 0:
            names = attribute(Tag.KEYWORD, "requested-attributes", "printer-state", "queued-job-count", "printer-up-time")
            return request(Operation.GET_PRINTER_ATTRIBUTES, names, caller=caller)
        if which == 1:
            reasons = self.draws.below(2) * [attribute(Tag.KEYWORD, "requested-attributes", "job-state-reasons")]
            number = self.a_job(caller, lambda job: not job.is_live(), takes_any=True)
            return job_request(Operation.GET_JOB_ATTRIBUTES, number, *reasons, caller=caller)
        names = attribute(Tag.KEYWORD, "requested-attributes", "job-id", "job-state", "job-impressions-completed")
        rows = [record(Tag.KEYWORD, "which-jobs", self.draws.choice(["completed", "not-completed"])), *self.draws.below(2) * [names]]
        if self.draws.chance(50):
            rows.append(record(Tag.BOOLEAN, "my-jobs", self.draws.chance(40)))
        return request(Operation.GET_JOBS, *rows, record(Tag.INTEGER, "limit", 1 + self.draws.below(6)), caller=caller)

    def device(self) -> bytes:
        """A new report, one that came before, one that came before with another count, or no report."""
        which = self.draws.below(20)
        if which == 0:
            no_reports = ["1 1 start", "0 1 start 0", "01 1 count 5", "7 1 halt 100000001", "4711 3 count 5"]
            return b"dev " + octets(self.draws.choice(no_reports))
        if which <= 4 and self.queue.reports:
            report, _ = self.draws.choice(list(self.queue.reports.values()))
            return b"dev %d %d %s %d" % (report.job, report.sequence, report.kind, report.count + (which == 4))
        return b"dev " + octets(self.new_report())

    def new_report(self) -> str:
        jobs = list(self.queue.jobs.values())
        if not jobs:
            return "1 1 start 0"
        # most often of a job that the device has or may start
        fit = [job for job in jobs if job.state in TAKEN]
        job = self.draws.choice(fit if fit and self.draws.chance(90) else jobs)
        # the device halts most of those that are to stop
        taken = TAKEN.get(job.state, KINDS) + 6 * ["halt"] * job.is_stopping()
        kind = self.draws.choice(taken if self.draws.chance(90) else KINDS)
        count = max(job.completed + self.draws.below(9) - 2, 0)
        return f"{job.number} {1 + self.draws.below(1_000_000)} {kind} {count}"

    def expire(self) -> bytes:
        """A sweep, which ends the jobs that have expired."""
        return b"expire"

    def office(self) -> bytes:
        """An account file of one to three rows: new ones, some that came before, and a few that conflict or are none."""
        return b"grant " + b"\r".join(self.row() for _ in range(1 + self.draws.below(3)))

    def row(self) -> bytes:
        which = self.draws.below(10)
        if which == 0:
            return octets(self.draws.choice(["b1,alice,0", "b1,alice", "b 1,alice,5"]))
        if which < 4 and self.queue.granted:
            (batch, account), pages = self.draws.choice(list(self.queue.granted.items()))
            return b"%s,%s,%d" % (batch, account, pages + (which == 1))
        return octets(f"b{self.draws.below(1000)},{self.draws.choice(ACCOUNTS)},{20 * (1 + self.draws.below(5))}")
