"""Jobs in each state with each reason: each operation and each report on them, another's job, and no job."""
from __future__ import annotations

import functools
from collections.abc import Callable
from typing import Any

from ipp import Operation, Tag, attribute, record
from messages import Draft, job_request, request
from worked.case import wants
from worked.played import Play

HELD, INCOMING, STOPPING = "job-hold-until-specified", "job-incoming", "processing-to-stop-point"

# by its name: the steps that bring a job there, its state and its reasons
STATES = {
    "pending": (["print", "release"], 3, ("none",)),
    "held": (["print"], 4, (HELD,)),
    "incoming": (["create", "release"], 4, (INCOMING,)),
    "incoming and held": (["create"], 4, (INCOMING, HELD)),
    "processing": (["print", "release", "start"], 5, ("job-printing",)),
    "processing to its stop point": (["print", "release", "start", "cancel"], 5, ("job-printing", STOPPING)),
    "stopped": (["print", "release", "start", "stop"], 6, ("printer-stopped",)),
    "stopped and to end": (["print", "release", "start", "cancel", "stop"], 6, ("printer-stopped", STOPPING)),
    "processing to its stop point by an operator": (["print", "release", "start", "operator"], 5, ("job-printing", STOPPING)),
    "stopped and to end by an operator": (["print", "release", "start", "operator", "stop"], 6, ("printer-stopped", STOPPING)),
    "canceled while it waited": (["print", "cancel"], 7, ("job-canceled-by-user",)),
    "canceled while it printed": (["print", "release", "start", "cancel", "halt"], 7, ("job-canceled-by-user",)),
    "canceled at the device": (["print", "release", "start", "halt"], 7, ("job-canceled-at-device",)),
    "canceled by an operator while it waited": (["print", "operator"], 7, ("job-canceled-by-operator",)),
    "canceled by an operator while it printed": (["print", "release", "start", "operator", "halt"], 7, ("job-canceled-by-operator",)),
    "aborted": (["print", "release", "start", "fail"], 8, ("aborted-by-system",)),
    "completed": (["print", "release", "start", "done"], 9, ("job-completed-successfully",)),
}
KINDS = ("start", "stop", "resume", "count", "done", "fail", "halt")
COMPLETED = record(Tag.KEYWORD, "which-jobs", "completed")
# the attributes of the two lists of jobs
LISTS: list[list[bytes]] = [[], [COMPLETED]]
SHOWN = (
    "job-state",
    "job-state-reasons",
    "time-at-processing",
    "time-at-completed",
    "job-impressions-completed",
    "number-of-documents",
    "job-hold-until",
)


def bring(play: Play, name: str) -> int:
    """A new job of alice's in this state, by its number. Its operator is opal."""
    steps, state, reasons = STATES[name]
    number = play.print_job() if steps[0] == "print" else play.create_job()
    for step in steps[1:]:
        if step in KINDS:
            assert play.report(number, step).startswith(b"ok"), name
        else:
            asks: dict[str, Callable[[int], int]] = {
                "release": play.release, "cancel": play.cancel, "operator": functools.partial(play.cancel, caller="opal")
            }
            asks[step](number)
    job = play.job(number)
    assert (job.state, job.reasons) == (state, reasons), (name, job)
    return number


def send(number: int, is_last: bool, payload: bytes, **others: Any) -> Draft:
    return job_request(Operation.SEND_DOCUMENT, number, record(Tag.BOOLEAN, "last-document", is_last), payload=payload, **others)


def on_job(number: int, caller: str = "alice") -> list[Draft]:
    """Each operation on one job."""
    return [
        send(number, False, b"a", caller=caller),
        send(number, True, b"", caller=caller),
        job_request(Operation.HOLD_JOB, number, caller=caller),
        job_request(Operation.RELEASE_JOB, number, caller=caller),
        job_request(Operation.CANCEL_JOB, number, caller=caller),
        request(Operation.CANCEL_MY_JOBS, record(Tag.INTEGER, "job-ids", number), caller=caller),
        job_request(Operation.GET_JOB_ATTRIBUTES, number, wants("job-state"), caller=caller),
    ]


def beside_job() -> list[Draft]:
    """Each operation that is about no one job, on alice's jobs."""
    return [
        request(Operation.PRINT_JOB, payload=b"hi"),
        request(Operation.VALIDATE_JOB),
        request(Operation.CREATE_JOB),
        request(Operation.GET_JOBS, wants("job-id", "job-state", "job-state-reasons")),
        request(Operation.GET_JOBS, COMPLETED, wants("job-id", "job-state", "job-state-reasons")),
        request(Operation.GET_PRINTER_ATTRIBUTES, wants("printer-state", "queued-job-count")),
        request(Operation.CANCEL_MY_JOBS),
    ]


for name in STATES:
    with Play(f"each operation on a job that is {name}") as play:
        play.grant("f24,alice,1000")
        place, number = 0, None
        # a job that an operation has changed is looked at, and the next operation gets another one
        while place < len(on_job(0)):
            if number is None:
                number = bring(play, name)
            before = play.job(number)
            play.now(10 * play.exchanges)
            play.ask(on_job(number)[place])
            if play.job(number) != before:
                play.look(number, *SHOWN)
                number = None
            place += 1
        number = number or bring(play, name)
        for message in beside_job():
            play.ask(message)
        play.look(number)
        play.find_free()

    with Play(f"each report on a job that is {name}") as play:
        play.grant("f24,alice,1000")
        number = None
        for kind in KINDS:
            number = number or bring(play, name)
            before = play.job(number)
            play.now(10 * play.exchanges)
            answer = play.report(number, kind, 12)
            if not answer.startswith(b"ok"):
                assert answer == b"refused 3 state" and play.job(number) == before
                continue
            report = play.text.splitlines()[-1][len(b"dev ") :].decode()
            play.look(number, *SHOWN)
            # the same report again, two that are other ones, and one of more pages than were set aside
            play.dev(report, answer)
            play.dev(report.replace(" 12", " 13"), "refused 5 conflict")
            play.dev(report.replace(kind, "halt" if kind == "count" else "count"), "refused 5 conflict")
            assert play.report(number, "count", 25).startswith(b"ok")
            play.look(number, "job-state", "job-impressions-completed")
            number = None
        play.look(number or play.last_job())
        play.find_free()

NO_JOB = 4711
with Play("another's job in each state, and no job") as play:
    play.grant("f24,alice,1000")
    play.grant("f24,bob,1000")
    numbers = [bring(play, name) for name in STATES]
    for number in [*numbers, NO_JOB, 2_147_483_647]:
        for message in on_job(number, "bob"):
            play.ask(message, 0x0406)
    for message in on_job(NO_JOB):
        play.ask(message, 0x0406)
    # of several numbers one that is not the caller's
    play.ask(request(Operation.CANCEL_MY_JOBS, attribute(Tag.INTEGER, "job-ids", numbers[0], NO_JOB)), 0x0406)
    for which in LISTS:
        play.ask(request(Operation.GET_JOBS, *which, caller="bob"), 0x0000)
        play.ask(request(Operation.GET_JOBS, *which), 0x0000)
    for kind in KINDS:
        play.dev(f"{NO_JOB} 1 {kind} 0", "refused 2 no-job")
        play.dev(f"2147483647 2147483647 {kind} 100000000", "refused 2 no-job")

with Play("lists of jobs in each state") as play:
    play.grant("f24,alice,1000")
    for place, name in enumerate([*STATES, *reversed(STATES)]):
        play.now(100 - place // 2)
        bring(play, name)
    play.now(200)
    for which in LISTS:
        play.ask(request(Operation.GET_JOBS, *which, wants("all")), 0x0000)
        play.ask(request(Operation.GET_JOBS, *which, wants("job-id", "job-state", "job-state-reasons")), 0x0000)
        for limit in (1, 3, 2_147_483_647):
            play.ask(request(Operation.GET_JOBS, *which, record(Tag.INTEGER, "limit", limit)), 0x0000)
    play.ask(request(Operation.GET_PRINTER_ATTRIBUTES), 0x0000)
    # all that can be canceled, and then none
    for _ in range(2):
        play.ask(request(Operation.CANCEL_MY_JOBS), 0x0000)
        play.ask(request(Operation.GET_JOBS, wants("job-id", "job-state", "job-state-reasons")), 0x0000)
    play.find_free()
