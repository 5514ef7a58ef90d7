"""The jobs and the accounts of a printer, and what it answers (docs/dev/queue.md, docs/guide/device.md, docs/guide/accounts.md
and "Replies" in docs/reference/ipp.md)."""
from __future__ import annotations

from collections.abc import Iterable, Mapping, Sequence
from dataclasses import dataclass, replace
from typing import Optional

from ipp import VERSION_1_1, Operation, Tag, Value, attribute, record
from messages import JOB_GROUP, PRINTER, PRINTER_GROUP, Job, reply, unsupported
from second.checks import OPERATIONS, Asked, Listed, Refused, asked, name_of, signed
from second.device import KINDS, RefusedReport, Report, is_taken, read_report
from second.grants import Grants, RefusedFile, new_rows, read_row, records

MOST_LIVE_JOBS = 100
MOST_DOCUMENTS = 16
ESTIMATE = 20
# the seconds for which the queue of a replay keeps a job that is held or open
KEEP = 3600
# the operators of a replay
OPERATORS = frozenset([b"opal"])

HELD = "job-hold-until-specified"
INCOMING = "job-incoming"
STOPPING = "processing-to-stop-point"
BY_USER = "job-canceled-by-user"
BY_OPERATOR = "job-canceled-by-operator"
AT_DEVICE = "job-canceled-at-device"
ABORTED = "aborted-by-system"
COMPLETED = "job-completed-successfully"

WAITING, RUNNING = (3, 4), (5, 6)


@dataclass(frozen=True)
class KeptJob(Job):
    """A job, with the marks that replies show by its state and reasons alone."""

    name: bytes = b""
    owner: bytes = b""
    takes_documents: bool = False
    # the reason with which it is to end, once a cancel was asked while the device has it
    stopping: Optional[str] = None

    def is_live(self) -> bool:
        return self.ended is None

    def is_stopping(self) -> bool:
        return self.stopping is not None

    def told(self) -> KeptJob:
        """The job with the state and the reasons that its marks make, as long as it is live."""
        if not self.is_live():
            return self
        if self.state in RUNNING:
            reasons = ["job-printing" if self.state == 5 else "printer-stopped"] + [STOPPING] * self.is_stopping()
            return replace(self, reasons=tuple(reasons))
        reasons = [INCOMING] * self.takes_documents + [HELD] * self.is_held
        return replace(self, state=4 if reasons else 3, reasons=tuple(reasons or ["none"]))

    def ended_at(self, now: int, state: int, reason: str) -> KeptJob:
        return replace(self, state=state, reasons=(reason,), ended=now, is_held=False, takes_documents=False, stopping=None)

    def estimate(self) -> int:
        return self.impressions * self.copies

    def pages(self) -> int:
        """The pages that are reserved for it or printed."""
        reserved = max(self.estimate() - self.completed, 0) if self.is_live() and not self.is_held else 0
        return reserved + self.completed


def printer_rows(now: int, jobs: Iterable[Job]) -> dict[str, bytes]:
    """All attributes of the printer by their names, in the order of the table."""
    formats = ["application/octet-stream", "application/pdf", "application/postscript"]
    formats += ["image/jpeg", "image/pwg-raster", "image/urf", "text/plain"]
    states = [job.state for job in jobs]
    rows: list[tuple[Tag, str, Sequence[Value]]] = [
        (Tag.URI, "printer-uri-supported", [PRINTER]),
        (Tag.KEYWORD, "uri-authentication-supported", ["requesting-user-name"]),
        (Tag.KEYWORD, "uri-security-supported", ["none"]),
        (Tag.NAME, "printer-name", ["release"]),
        (Tag.ENUM, "printer-state", [4 if 5 in states else 5 if 6 in states else 3]),
        (Tag.KEYWORD, "printer-state-reasons", ["none"]),
        (Tag.KEYWORD, "ipp-versions-supported", ["1.1", "2.0"]),
        (Tag.ENUM, "operations-supported", [*sorted(OPERATIONS)]),
        (Tag.CHARSET, "charset-configured", ["utf-8"]),
        (Tag.CHARSET, "charset-supported", ["utf-8"]),
        (Tag.LANGUAGE, "natural-language-configured", ["en"]),
        (Tag.LANGUAGE, "generated-natural-language-supported", ["en"]),
        (Tag.MEDIA_TYPE, "document-format-default", ["application/octet-stream"]),
        (Tag.MEDIA_TYPE, "document-format-supported", [*formats]),
        (Tag.BOOLEAN, "printer-is-accepting-jobs", [True]),
        (Tag.INTEGER, "queued-job-count", [len(states)]),
        (Tag.KEYWORD, "pdl-override-supported", ["not-attempted"]),
        (Tag.INTEGER, "printer-up-time", [now]),
        (Tag.KEYWORD, "compression-supported", ["none"]),
    ]
    return {name: attribute(tag, name, *values) for tag, name, values in rows}


def selected(rows: Mapping[str, bytes], names: Iterable[bytes], groups: Mapping[bytes, Iterable[str]]) -> bytes:
    """The rows that names select, in the order of the table; a group's name selects its rows."""
    chosen: set[str] = set()
    for name in names:
        chosen.update(groups.get(name, [name.decode("latin-1")]))
    return b"".join(row for name, row in rows.items() if name in chosen)


class Queue:
    """The jobs of a printer in the order of their numbers, the accounts of their owners, and the reports that were accepted."""

    def __init__(self, seconds: int = KEEP, operators: frozenset[bytes] = OPERATORS) -> None:
        # a job that is held or open is kept for this time, and without end if it is 0
        self.seconds = seconds
        self.operators = operators
        self.jobs: dict[int, KeptJob] = {}
        self.granted: Grants = {}
        self.free: dict[bytes, int] = {}
        # by job and sequence number: a report, and its answer
        self.reports: dict[tuple[int, int], tuple[Report, bytes]] = {}

    def live(self, caller: bytes | None = None) -> list[KeptJob]:
        return [job for job in self.jobs.values() if job.is_live() and caller in (None, job.owner)]

    def own(self, caller: bytes, number: int) -> KeptJob:
        job = self.jobs.get(number)
        if job is None or job.owner != caller:
            raise Refused(0x0406)
        return job

    def seen(self, caller: bytes, number: int) -> KeptJob:
        """A job that the caller may look at and cancel: an operator any, others their own."""
        job = self.jobs.get(number)
        if job is None or (job.owner != caller and caller not in self.operators):
            raise Refused(0x0406)
        return job

    def keep(self, job: KeptJob) -> KeptJob:
        """Keeps a job as it is now. The pages that it had reserved and printed, less those that it has now, go back to its owner's account."""
        before, job = self.jobs.get(job.number), job.told()
        if before is not None and job.owner in self.free:
            self.free[job.owner] += before.pages() - job.pages()
        self.jobs[job.number] = job
        return job

    # ---- requests

    def answer(self, octets: bytes, now: int) -> bytes | None:
        """The reply to a request by its bytes, and none under 8 of them."""
        if len(octets) < 8:
            return None
        version, code, request_id = octets[:2], octets[2:4], int.from_bytes(octets[4:8], "big")
        try:
            if version[0] not in (1, 2):
                version = VERSION_1_1
                raise Refused(0x0503)
            if int.from_bytes(code, "big") not in OPERATIONS:
                raise Refused(0x0501)
            request = asked(int.from_bytes(code, "big"), octets[8:])
            groups = self.act(request, now)
            answer = reply(0x0001 if request.listed else 0x0000, listed(request.listed), *groups, version=version)
        except Refused as refusal:
            answer = reply(refusal.code, listed(refusal.listed), version=version)
        return answer.spelled(request_id)

    def act(self, request: Asked, now: int) -> list[bytes]:
        """Does what is asked: the groups that the reply shows."""
        operation = request.operation
        if operation in (Operation.PRINT_JOB, Operation.VALIDATE_JOB, Operation.CREATE_JOB):
            return self.new_job(request, now)
        if operation == Operation.CANCEL_MY_JOBS:
            return self.cancel_jobs(request, now)
        if operation == Operation.GET_JOBS:
            return self.list_jobs(request, now)
        if operation == Operation.GET_PRINTER_ATTRIBUTES:
            rows = printer_rows(now, self.live())
            groups = {b"all": rows, b"printer-description": rows}
            return [PRINTER_GROUP + selected(rows, [b"all"] if request.names is None else request.names, groups)]
        if operation == Operation.GET_JOB_ATTRIBUTES:
            return [job_group(self.seen(request.caller, request.job), now, request.names, [b"all"])]
        if operation == Operation.CANCEL_JOB:
            self.cancel(request.caller, self.seen(request.caller, request.job), now)
            return []
        job = self.own(request.caller, request.job)
        if operation == Operation.SEND_DOCUMENT:
            return self.send_document(request, job)
        if operation == Operation.HOLD_JOB:
            self.hold(job)
        else:
            assert operation == Operation.RELEASE_JOB
            self.release(job)
        return []

    def new_job(self, request: Asked, now: int) -> list[bytes]:
        if len(self.live(request.caller)) >= MOST_LIVE_JOBS:
            raise Refused(0x0404)
        if request.operation == Operation.VALIDATE_JOB:
            return []
        told = [request.values.get(name) for name in (b"job-name", b"document-name")]
        names = [*(name_of(*name) for name in told if name), b"untitled"]
        impressions = request.values.get(b"job-impressions", (None, request.job_values.get(b"job-impressions")))[1]
        job = KeptJob(
            number=len(self.jobs) + 1,
            name=next(name for name in names if name),
            owner=request.caller,
            created=now,
            impressions=ESTIMATE if impressions is None else signed(impressions),
            copies=signed(request.job_values.get(b"copies", b"\x00\x00\x00\x01")),
            octets=0,
            documents=0,
            takes_documents=request.operation == Operation.CREATE_JOB,
        )
        if request.operation == Operation.PRINT_JOB:
            job = with_document(job, request.payload)
        return [self.keep(job).new_group()]

    def send_document(self, request: Asked, job: KeptJob) -> list[bytes]:
        if not job.takes_documents or (request.payload and job.documents == MOST_DOCUMENTS):
            raise Refused(0x0404)
        is_last = request.values[b"last-document"][1] == b"\x01"
        job = replace(with_document(job, request.payload), takes_documents=not is_last)
        return [self.keep(job).new_group()]

    def hold(self, job: KeptJob) -> None:
        if job.state not in WAITING:
            raise Refused(0x0404)
        self.keep(replace(job, is_held=True))

    def release(self, job: KeptJob) -> None:
        if not job.is_live():
            raise Refused(0x0404)
        if not job.is_held:
            return
        if job.owner not in self.free or self.free[job.owner] < job.estimate():
            raise Refused(0x0404)
        self.keep(replace(job, is_held=False))

    def cancel(self, caller: bytes, job: KeptJob, now: int) -> None:
        if not can_be_canceled(job):
            raise Refused(0x0404)
        reason = BY_USER if job.owner == caller else BY_OPERATOR
        if job.state in RUNNING:
            self.keep(replace(job, stopping=reason))
        else:
            self.keep(job.ended_at(now, 7, reason))

    def cancel_jobs(self, request: Asked, now: int) -> list[bytes]:
        if request.jobs is None:
            jobs = [job for job in self.live(request.caller) if can_be_canceled(job)]
        else:
            jobs = [self.own(request.caller, number) for number in dict.fromkeys(request.jobs)]
        if not all(can_be_canceled(job) for job in jobs):
            raise Refused(0x0404)
        for job in jobs:
            self.cancel(request.caller, job, now)
        return []

    def list_jobs(self, request: Asked, now: int) -> list[bytes]:
        asks_for_own = request.values.get(b"my-jobs", (None, b"\x00"))[1] == b"\x01"
        shows_all = request.caller in self.operators and not asks_for_own
        shown = [job for job in self.jobs.values() if shows_all or job.owner == request.caller]
        if request.values.get(b"which-jobs", (None, b""))[1] == b"completed":
            jobs = [job for job in shown if not job.is_live()]
            jobs.sort(key=lambda job: (-(job.ended or 0), -job.number))
        else:
            # those that the device has, those that it may start, those that wait
            ranks = {5: 0, 6: 0, 3: 1, 4: 2}
            jobs = [job for job in shown if job.is_live()]
            jobs.sort(key=lambda job: (ranks[job.state], job.number))
        if b"limit" in request.values:
            jobs = jobs[: signed(request.values[b"limit"][1])]
        return [job_group(job, now, request.names, [b"job-uri", b"job-id"]) for job in jobs]

    # ---- the device, the office and sweeps

    def report(self, text: bytes, now: int) -> bytes:
        """The answer to a line of the device, both without their line feeds."""
        try:
            report = read_report(text)
            job = self.jobs.get(report.job)
            if job is None:
                raise RefusedReport(b"refused 2 no-job")
            key = report.job, report.sequence
            if key not in self.reports:
                if not is_taken(report, job):
                    raise RefusedReport(b"refused 3 state")
                job = self.keep(reported(job, report, now))
                self.reports[key] = report, b"ok %d %d %d" % (job.number, job.state, job.completed)
            accepted, answer = self.reports[key]
            if accepted != report:
                raise RefusedReport(b"refused 5 conflict")
            return answer
        except RefusedReport as refusal:
            return refusal.answer

    def grant(self, text: bytes) -> bytes:
        """The answer to an account file with these rows under its header."""
        try:
            rows = [read_row(fields) for fields in records(text)]
            new = new_rows(rows, self.granted)
        except RefusedFile as refusal:
            return b"refused %d" % refusal.code
        for (_, account), pages in new.items():
            self.free[account] = self.free.get(account, 0) + pages
        self.granted.update(new)
        return b"new %d repeats %d" % (len(new), len(rows) - len(new))

    def expire(self, now: int) -> int:
        """Ends the jobs that are held or open and have been kept for their time, and returns their number."""
        expired = [job for job in self.jobs.values() if job.state == 4 and 0 < self.seconds <= now - job.created]
        for job in expired:
            self.keep(job.ended_at(now, 8, ABORTED))
        return len(expired)


def can_be_canceled(job: KeptJob) -> bool:
    return job.is_live() and not job.is_stopping()


def reported(job: KeptJob, report: Report, now: int) -> KeptJob:
    """The job of a report after the report is taken."""
    job = replace(job, completed=max(job.completed, report.count))
    state = KINDS[report.kind][1]
    if state in RUNNING:
        return replace(job, state=state, begun=now if report.kind == b"start" else job.begun)
    if state is None:
        return job
    reasons = {7: job.stopping or AT_DEVICE, 8: ABORTED, 9: COMPLETED}
    return job.ended_at(now, state, reasons[state])


def with_document(job: KeptJob, payload: bytes) -> KeptJob:
    return replace(job, octets=job.octets + len(payload), documents=job.documents + (1 if payload else 0))


def job_group(job: KeptJob, now: int, names: Iterable[bytes] | None, usual: Iterable[bytes]) -> bytes:
    rows = job.attributes(now)
    template = ["copies", "job-hold-until"]
    groups = {b"all": rows, b"job-template": template, b"job-description": [name for name in rows if name not in template]}
    return JOB_GROUP + selected(rows, usual if names is None else names, groups)


def listed(attributes: Iterable[Listed]) -> bytes:
    """The group of unsupported attributes, if there are any."""
    if not attributes:
        return b""
    return unsupported(
        *(
            record(tag, b"" if place else name, octets)
            for name, values in attributes
            for place, (tag, octets) in enumerate(values)
        )
    )
