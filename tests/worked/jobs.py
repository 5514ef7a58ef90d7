"""A caller's own jobs: looked at, held, released and canceled; another's job and no job are one answer."""
from __future__ import annotations

from typing import Any

from ipp import Operation, Tag, attribute, record
from messages import PRINTER, Draft, Job, job_request, reply, request, unsupported
from worked.case import case, done, line, now, print_job, refused, replay, sized, taken, wants

WAITING = Job()


def canceled(number: int = 1, **others: Any) -> Job:
    """A job that its owner has canceled."""
    return Job(number, state=7, reasons=("job-canceled-by-user",), is_held=False, **others)


def look(number: int, *names: str, caller: str = "alice") -> Draft:
    """A Get-Job-Attributes that requests these names."""
    return job_request(Operation.GET_JOB_ATTRIBUTES, number, wants(*names), caller=caller)


def seen(job: Job, *names: str) -> Draft:
    """The reply that shows these attributes."""
    return reply(0x0000, job.group(*names))


ALL = tuple(WAITING.attributes(1))
for name in ALL:
    case(f"{name} alone", (print_job(), taken(1)), (look(1, name), seen(WAITING, name)))
for name, names in [
    ("all", ALL),
    ("job-description", ALL[:-2]),
    ("job-template", ALL[-2:]),
    ("printer-description", ()),
    ("no-such-attribute", ()),
]:
    case(f"what {name} selects of a job", (print_job(), taken(1)), (look(1, name), seen(WAITING, *names)))
case(
    "requested names absent, repeated and unknown",
    (print_job(), taken(1)),
    (job_request(Operation.GET_JOB_ATTRIBUTES, 1), reply(0x0000, WAITING.whole_group())),
    (look(1, "job-id", "no-such-attribute", "job-uri", "job-id"), seen(WAITING, "job-uri", "job-id")),
    (look(1, "job-template", "copies", "job-id"), seen(WAITING, "job-id", "copies", "job-hold-until")),
)

# both with request-id 5: one answer
NOT_FOUND = line(sized(72, refused(0x0406)), 5)
replay(
    "another's job and no job, looked at",
    line(print_job(), 4)
    + line(job_request(Operation.GET_JOB_ATTRIBUTES, 1, caller="bob"), 5)
    + line(job_request(Operation.GET_JOB_ATTRIBUTES, 999, caller="bob"), 5),
    line(taken(1), 4) + NOT_FOUND + NOT_FOUND,
)
for name, operation, others in [
    ("canceled", Operation.CANCEL_JOB, ()),
    ("held", Operation.HOLD_JOB, ()),
    ("released", Operation.RELEASE_JOB, ()),
    ("given a document", Operation.SEND_DOCUMENT, (record(Tag.BOOLEAN, "last-document", True),)),
]:
    case(
        f"another's job and no job, {name}",
        (print_job(), taken(1)),
        (job_request(operation, 1, *others, caller="bob"), refused(0x0406)),
        (job_request(operation, 999, *others, caller="bob"), refused(0x0406)),
        (job_request(operation, 0, *others), refused(0x0406)),
        (look(1, "job-state"), seen(WAITING, "job-state")),
    )

STATE = ("job-state", "job-state-reasons", "time-at-completed", "job-hold-until")
case(
    "canceled once",
    (print_job(), taken(1)),
    (job_request(Operation.CANCEL_JOB, 1), done()),
    (look(1, *STATE), seen(canceled(ended=1), *STATE)),
    (job_request(Operation.CANCEL_JOB, 1), sized(72, refused(0x0404))),
)
case(
    "canceled at a moment",
    (print_job(), taken(1)),
    now(50),
    (job_request(Operation.CANCEL_JOB, 1), done()),
    now(60),
    (job_request(Operation.GET_JOB_ATTRIBUTES, 1), reply(0x0000, canceled(ended=50).whole_group(now=60))),
)


def look_by_uri(uri: str, *more: bytes) -> Draft:
    """A Get-Job-Attributes of the job that a URI names."""
    return request(Operation.GET_JOB_ATTRIBUTES, record(Tag.URI, "job-uri", uri), *more, wants("job-id"), printer=None)


case(
    "targets by job-uri",
    (print_job(), taken(1)),
    (look_by_uri(f"{PRINTER}/1"), seen(WAITING, "job-id")),
    (look_by_uri("http://some.host:631/ipp/print/1?x#y"), seen(WAITING, "job-id")),
    *(
        (look_by_uri(uri), refused(0x0406))
        for uri in [
            f"{PRINTER}/01",
            f"{PRINTER}/+1",
            f"{PRINTER}/0",
            f"{PRINTER}/2",
            f"{PRINTER}/2147483648",
            f"{PRINTER}/1/",
            f"{PRINTER}/",
            PRINTER,
            "ipp://localhost/printers/1",
            "localhost/ipp/print/1",
        ]
    ),
    # beside a job-uri the printer and the number are looked at for their form alone
    (look_by_uri(f"{PRINTER}/1", record(Tag.INTEGER, "job-id", 7)), seen(WAITING, "job-id")),
    (look_by_uri(f"{PRINTER}/1", record(Tag.URI, "printer-uri", "ipp://localhost/printers/x")), seen(WAITING, "job-id")),
    (look_by_uri(f"{PRINTER}/1", record(Tag.INTEGER, "job-id", b"\x07")), refused(0x0400)),
)
case(
    "targets without a job",
    (request(Operation.CANCEL_JOB), refused(0x0400)),
    (request(Operation.CANCEL_JOB, record(Tag.INTEGER, "job-id", b"\x00\x00\x01")), refused(0x0400)),
    (job_request(Operation.CANCEL_JOB, 1, printer=None), refused(0x0400)),
    (job_request(Operation.CANCEL_JOB, b"\xff\xff\xff\xff"), refused(0x0406)),
)

case(
    "released without an account",
    (print_job(), taken(1)),
    (job_request(Operation.RELEASE_JOB, 1), refused(0x0404)),
    (look(1, "job-state"), seen(WAITING, "job-state")),
    (job_request(Operation.CANCEL_JOB, 1), done()),
    (job_request(Operation.RELEASE_JOB, 1), refused(0x0404)),
)
BY_NAME = record(Tag.NAME, "job-hold-until", "indefinite")
LATER = record(Tag.KEYWORD, "job-hold-until", "evening")
case(
    "held until",
    (print_job(), taken(1)),
    (job_request(Operation.HOLD_JOB, 1), done()),
    (job_request(Operation.HOLD_JOB, 1, record(Tag.KEYWORD, "job-hold-until", "indefinite")), done()),
    (job_request(Operation.HOLD_JOB, 1, LATER), refused(0x040B, unsupported(LATER))),
    (job_request(Operation.HOLD_JOB, 1, BY_NAME), refused(0x040B, unsupported(BY_NAME))),
    (job_request(Operation.HOLD_JOB, 1, record(Tag.NAME_WITH_LANGUAGE, "job-hold-until", "indefinite")), refused(0x0400)),
    (look(1, "job-hold-until"), seen(WAITING, "job-hold-until")),
    (job_request(Operation.CANCEL_JOB, 1), done()),
    (job_request(Operation.HOLD_JOB, 1), refused(0x0404)),
)


def cancel_mine(*numbers: int, caller: str = "alice") -> Draft:
    """A Cancel-My-Jobs of these numbers, or without job-ids where there is none."""
    return request(Operation.CANCEL_MY_JOBS, attribute(Tag.INTEGER, "job-ids", *numbers), caller=caller)


case(
    "all of the caller's jobs or none",
    (print_job(), taken(1)),
    (print_job(), taken(2)),
    (print_job(), taken(3)),
    (job_request(Operation.CANCEL_JOB, 3), done()),
    (cancel_mine(1, 2, 3), refused(0x0404)),
    (cancel_mine(1, 4), refused(0x0406)),
    (cancel_mine(1, 0), refused(0x0406)),
    # what is not the caller's comes before what has ended
    (cancel_mine(3, 4), refused(0x0406)),
    (cancel_mine(1, caller="bob"), refused(0x0406)),
    (cancel_mine(caller="bob"), done()),
    (look(1, "job-state"), seen(WAITING, "job-state")),
    (look(2, "job-state"), seen(Job(2), "job-state")),
    now(9),
    (cancel_mine(), done()),
    (look(1, *STATE), seen(canceled(1, ended=9), *STATE)),
    (look(2, *STATE), seen(canceled(2, ended=9), *STATE)),
    (look(3, *STATE), seen(canceled(3, ended=1), *STATE)),
    (cancel_mine(), done()),
)
case(
    "some of the caller's jobs, one of them twice",
    (print_job(), taken(1)),
    (print_job(), taken(2)),
    (cancel_mine(2, 2), done()),
    (look(1, "job-state"), seen(WAITING, "job-state")),
    (look(2, "job-state"), seen(canceled(2), "job-state")),
)
case(
    "numbers that are not of their form",
    (print_job(), taken(1)),
    (request(Operation.CANCEL_MY_JOBS, attribute(Tag.INTEGER, "job-ids", 1, b"\x00\x00\x01")), refused(0x0400)),
    (request(Operation.CANCEL_MY_JOBS, record(Tag.KEYWORD, "job-ids", "1")), refused(0x0400)),
    (look(1, "job-state"), seen(WAITING, "job-state")),
)

# a hundred of one owner, and no more until one has ended
HUNDRED = [(print_job(), taken(number)) for number in range(1, 101)]
case(
    "hundred live jobs of one owner",
    *HUNDRED,
    (print_job(), refused(0x0404)),
    (print_job(caller="bob"), taken(101)),
    (job_request(Operation.CANCEL_JOB, 7), done()),
    (print_job(), taken(102)),
    (print_job(), refused(0x0404)),
)
# more numbers than a caller can have live jobs
case(
    "more numbers than the caller has jobs",
    (print_job(), taken(1)),
    (print_job(caller="bob"), taken(2)),
    (print_job(), taken(3)),
    (cancel_mine(*range(1, 102)), refused(0x0406)),
    (cancel_mine(*range(1, 102), caller="carol"), refused(0x0406)),
    # one number, however often
    (cancel_mine(*(101 * [3])), done()),
    (look(1, "job-state"), seen(WAITING, "job-state")),
    (look(3, "job-state"), seen(canceled(3), "job-state")),
)
case(
    "more numbers than a caller may have live jobs",
    *HUNDRED,
    (job_request(Operation.CANCEL_JOB, 7), done()),
    (print_job(), taken(101)),
    # all are hers, and one has ended
    (cancel_mine(*range(1, 102)), refused(0x0404)),
    (look(1, "job-state"), seen(WAITING, "job-state")),
    (cancel_mine(*(number for number in range(1, 102) if number != 7)), done()),
    (look(1, "job-state"), seen(canceled(1), "job-state")),
)
