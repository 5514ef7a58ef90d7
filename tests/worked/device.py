"""Lines of the device: which are refused, and what becomes of a job and of its owner's pages by the others."""
from __future__ import annotations

from collections.abc import Sequence
from dataclasses import replace

from ipp import Operation, Tag, Value, record
from messages import PRINTER_GROUP, Job, reply, request, unsupported
from worked.accounts import (
    CANCELED,
    HELD,
    RELEASED,
    RELEASED_OPEN,
    are_free,
    cancel,
    has_no_account,
    hold,
    is_seen,
    print_pages,
    release,
)
from worked.case import Step, case, dev, done, grant, now, print_job, refused, replay, taken
from worked.documents import OPEN, created, send
from worked.jobs import HUNDRED, cancel_mine
from worked.printer import ALL_JOBS, COMPLETED, ask_printer, jobs, limit, listed

SYNTAX, NO_JOB, STATE = "refused 1 syntax", "refused 2 no-job", "refused 3 state"
RANGE, CONFLICT = "refused 4 range", "refused 5 conflict"

RUNNING = replace(RELEASED, state=5, reasons=("job-printing",), begun=1)
STOPPED = replace(RUNNING, state=6, reasons=("printer-stopped",))
# the printer still has a job of which its owner has asked the cancel
RUNNING_OUT = replace(RUNNING, reasons=("job-printing", "processing-to-stop-point"))
STOPPED_OUT = replace(STOPPED, reasons=("printer-stopped", "processing-to-stop-point"))
CANCELED_BY_USER = replace(RUNNING, state=7, reasons=("job-canceled-by-user",), ended=1)
CANCELED_AT_DEVICE = replace(RUNNING, state=7, reasons=("job-canceled-at-device",), ended=1)
ABORTED = replace(RUNNING, state=8, reasons=("aborted-by-system",), ended=1)
COMPLETE = replace(RUNNING, state=9, reasons=("job-completed-successfully",), ended=1)

# alice's job 1 of 20 pages is released, and 10 pages of her account are free; then the device begins it
RELEASES = [grant("f24,alice,30"), (print_job(), taken(1)), (release(1), done())]
RUNS = [*RELEASES, dev("1 1 start 0", "ok 1 5 0")]


def are_owed(pages: int, number: int) -> list[Step]:
    """The steps that show how many pages alice's account lacks: a job without pages is released once that number is granted.

    The new job has this number. Then no page is free.
    """
    millions, rest = divmod(pages - 1, 1_000_000)
    grants = millions * [1_000_000] + [rest]
    return [
        (print_pages(0), taken(number)),
        *(grant(f"lack{place},alice,{some}") for place, some in enumerate(grants) if some > 0),
        (release(number), refused(0x0404)),
        grant("last,alice,1"),
        (release(number), done()),
        *are_free(0, number + 1),
    ]


NO_LINES: dict[str, Sequence[Value]] = {
    "leading zeros": ["01 1 start 0", "1 01 start 0", "1 1 start 00", "1 1 start 01", "00 1 start 0", "1 00 start 0"],
    "signs": ["+1 1 start 0", "-1 1 start 0", "1 +1 start 0", "1 -1 start 0", "1 1 start +0", "1 1 start -0"],
    "eleven digits": ["10000000000 1 start 0", "1 10000000000 start 0", "1 1 count 10000000000"],
    "parts missing or too many": [
        "",
        "1",
        "1 1 start",
        "1 1 0",
        "1 start 0",
        "1 1 start ",
        "1 1  0",
        " 1 start 0",
        "1  start 0",
        "1 1 start 0 0",
        "1 1 1 start 0",
    ],
    "spaces": [" ", "   ", " 1 1 start 0", "1 1 start 0 ", "1  1 start 0", "1 1  start 0", "1 1 start  0"],
    "other blanks": [
        *("1\t1 start 0", "1 1\tstart 0", "1 1 start 0\t"),
        *("1 1 start 0\r", "\r", "1 1 start 0\x00", "1\u00a01 start 0"),
    ],
    "no kinds": [
        f"1 1 {kind} 0"
        for kind in ["Start", "START", "begin", "starts", "star", "1", "stopped", "cancel", "abort", "ſtart"]
    ],
    "no digits": [
        *("a 1 start 0", "1 b start 0", "1 1 start c"),
        *("0x1 1 start 0", "1. 1 start 0", "1 1 start 1e1", "1,0 1 start 0"),
    ],
    "digits of another script": ["١ 1 start 0", "1 ١ start 0", "1 1 start ٠", "１ 1 start 0"],
    "bytes that are no text": [b"\xff\xfe", b"1 1 start 0\xff", b"\xff1 1 start 0", b"1 1 st\xffart 0"],
    "mark of the byte order": [b"\xef\xbb\xbf1 1 start 0"],
    "hundred thousand digits": [100_000 * "1"],
}
for name, lines in NO_LINES.items():
    case(
        f"device's line, {name}",
        (print_job(), taken(1)),
        *(dev(text, SYNTAX) for text in lines),
        is_seen(HELD),
    )
replay("device's line without its end", b"dev 7 1 start 0", b"refused 2 no-job\n")

case(
    "device's line, numbers at their limits and past them",
    (print_job(), taken(1)),
    dev("0 1 start 0", RANGE),
    dev("1 0 start 0", RANGE),
    dev("2147483647 1 start 0", NO_JOB),
    dev("2147483648 1 start 0", RANGE),
    dev("1 2147483647 start 0", STATE),
    dev("1 2147483648 start 0", RANGE),
    dev("9999999999 1 start 0", RANGE),
    dev("1 9999999999 start 0", RANGE),
    dev("1 1 count 9999999999", RANGE),
    # 1 and 0 where numbers wrap
    dev("4294967297 1 start 0", RANGE),
    dev("1 4294967297 start 0", RANGE),
    dev("1 1 count 4294967296", RANGE),
    dev("1 1 start 100000000", STATE),
    dev("1 1 start 100000001", RANGE),
    is_seen(HELD),
)
case(
    "last sequence number",
    *RELEASES,
    dev("1 2147483647 start 0", "ok 1 5 0"),
    dev("1 2147483647 stop 0", CONFLICT),
    dev("1 2147483647 start 0", "ok 1 5 0"),
    is_seen(RUNNING),
)
case(
    "device's line, one refusal after the other",
    (print_job(), taken(1)),
    dev("01 1 start 0", SYNTAX),
    dev("1 1 start 100000001", RANGE),
    dev("7 1 start 0", NO_JOB),
    dev("1 1 start 0", STATE),
    is_seen(HELD),
)
case(
    "device's line, refusals in their order",
    *RUNS,
    dev("1 2 count 12", "ok 1 5 12"),
    # the form comes before the range
    dev("0 1 begin 0", SYNTAX),
    dev("0 01 start 0", SYNTAX),
    dev("2147483648 1 start 0 ", SYNTAX),
    # the range before the job
    dev("7 0 start 0", RANGE),
    dev("7 1 count 100000001", RANGE),
    dev("1 2 count 100000001", RANGE),
    # the job before the count
    dev("7 2 count 13", NO_JOB),
    # the count before the state
    dev("1 2 count 13", CONFLICT),
    dev("1 2 count 11", CONFLICT),
    dev("1 2 stop 12", CONFLICT),
    dev("1 2 start 12", CONFLICT),
    dev("1 1 resume 0", CONFLICT),
    dev("1 3 start 12", STATE),
    dev("1 3 resume 12", STATE),
    # and nothing has changed
    dev("1 2 count 12", "ok 1 5 12"),
    is_seen(replace(RUNNING, completed=12)),
    *are_free(10, 2),
)

case(
    "counts, and more pages than were set aside",
    grant("f24,alice,30"),
    (print_job(), taken(1)),
    (print_job(), taken(2)),
    (release(1), done()),
    (release(2), refused(0x0404)),
    is_seen(replace(HELD, number=2)),
    *are_free(10, 3),
    dev("1 1 start 0", "ok 1 5 0"),
    is_seen(RUNNING),
    *are_free(10, 5),
    dev("1 2 count 12", "ok 1 5 12"),
    is_seen(replace(RUNNING, completed=12)),
    *are_free(10, 7),
    dev("1 2 count 12", "ok 1 5 12"),
    is_seen(replace(RUNNING, completed=12)),
    *are_free(10, 9),
    dev("1 3 done 25", "ok 1 9 25"),
    is_seen(replace(COMPLETE, completed=25)),
    *are_free(5, 11),
    # repeats have the first answer, whatever has become of the job
    dev("1 3 done 25", "ok 1 9 25"),
    dev("1 1 start 0", "ok 1 5 0"),
    dev("1 2 count 12", "ok 1 5 12"),
    is_seen(replace(COMPLETE, completed=25)),
    *are_free(5, 13),
)
case(
    "fewer pages than were set aside",
    *RUNS,
    dev("1 2 done 8", "ok 1 9 8"),
    is_seen(replace(COMPLETE, completed=8)),
    *are_free(22, 2),
)
case(
    "just the pages that were set aside",
    *RUNS,
    dev("1 2 count 20", "ok 1 5 20"),
    *are_free(10, 2),
    dev("1 3 count 21", "ok 1 5 21"),
    *are_free(9, 4),
    dev("1 4 done 0", "ok 1 9 21"),
    *are_free(9, 6),
)
case(
    "pages below zero, and new grants",
    *RUNS,
    dev("1 2 done 45", "ok 1 9 45"),
    (print_job(), taken(2)),
    (release(2), refused(0x0404)),
    grant("f25,alice,34"),
    (release(2), refused(0x0404)),
    grant("f26,alice,1"),
    (release(2), done()),
    is_seen(replace(RELEASED, number=2)),
    *are_free(0, 3),
    is_seen(replace(COMPLETE, completed=45)),
)
case("fifteen pages below zero", *RUNS, dev("1 2 done 45", "ok 1 9 45"), *are_owed(15, 2))
case(
    "most pages that are counted",
    *RUNS,
    dev("1 2 count 100000000", "ok 1 5 100000000"),
    is_seen(replace(RUNNING, completed=100_000_000)),
    *are_owed(99_999_970, 2),
    dev("1 3 done 100000000", "ok 1 9 100000000"),
    is_seen(replace(COMPLETE, completed=100_000_000)),
    *are_free(0, 5),
)
case(
    "page past what was granted",
    grant("f24,alice,30"),
    (print_pages(10, 3), taken(1)),
    (release(1), done()),
    *are_free(0, 2),
    dev("1 1 start 0", "ok 1 5 0"),
    dev("1 2 count 31", "ok 1 5 31"),
    *are_owed(1, 4),
)
case(
    "count that comes when the job is done",
    *RUNS,
    dev("1 3 done 5", "ok 1 9 5"),
    *are_free(25, 2),
    now(9),
    dev("1 2 count 7", "ok 1 9 7"),
    is_seen(replace(COMPLETE, completed=7)),
    *are_free(23, 4),
    dev("1 3 done 6", CONFLICT),
    *are_free(23, 6),
    dev("1 3 done 5", "ok 1 9 5"),
    # fewer than are known
    dev("1 4 count 6", "ok 1 9 7"),
    dev("1 2 count 7", "ok 1 9 7"),
    is_seen(replace(COMPLETE, completed=7)),
    *are_free(23, 8),
    dev("1 5 done 9", STATE),
    dev("1 6 count 40", "ok 1 9 40"),
    is_seen(replace(COMPLETE, completed=40)),
    *are_owed(10, 10),
)
case(
    "count that does not rise",
    *RUNS,
    dev("1 2 count 12", "ok 1 5 12"),
    dev("1 3 count 5", "ok 1 5 12"),
    is_seen(replace(RUNNING, completed=12)),
    *are_free(10, 2),
    dev("1 4 stop 0", "ok 1 6 12"),
    is_seen(replace(STOPPED, completed=12)),
    *are_free(10, 4),
    dev("1 3 count 6", CONFLICT),
    dev("1 5 fail 3", "ok 1 8 12"),
    is_seen(replace(ABORTED, completed=12)),
    *are_free(18, 6),
)
case(
    "count of the first line",
    *RELEASES,
    dev("1 1 start 4", "ok 1 5 4"),
    is_seen(replace(RUNNING, completed=4)),
    *are_free(10, 2),
    dev("1 2 done 0", "ok 1 9 4"),
    *are_free(26, 4),
)

STOPS = [*RUNS, dev("1 2 stop 4", "ok 1 6 4"), is_seen(replace(STOPPED, completed=4)), dev("1 3 done 4", STATE)]
case(
    "stopped, resumed and failed",
    *STOPS,
    dev("1 4 resume 4", "ok 1 5 4"),
    is_seen(replace(RUNNING, completed=4)),
    now(8),
    dev("1 5 fail 6", "ok 1 8 6"),
    is_seen(replace(ABORTED, completed=6, ended=8)),
    *are_free(24, 2),
)
case(
    "refused line is not kept",
    *STOPS,
    dev("1 4 resume 4", "ok 1 5 4"),
    dev("1 3 stop 5", "ok 1 6 5"),
    dev("1 5 fail 6", "ok 1 8 6"),
    is_seen(replace(ABORTED, completed=6)),
    *are_free(24, 2),
)

CANCELS = [*RUNS, (cancel(1), done()), is_seen(RUNNING_OUT)]
case(
    "canceled while it prints",
    *CANCELS,
    (cancel(1), refused(0x0404)),
    *are_free(10, 2),
    now(6),
    dev("1 2 halt 3", "ok 1 7 3"),
    is_seen(replace(CANCELED_BY_USER, completed=3, ended=6)),
    *are_free(27, 4),
    (cancel(1), refused(0x0404)),
)
case(
    "canceled while it prints, and a count that comes then",
    *CANCELS,
    dev("1 2 halt 3", "ok 1 7 3"),
    dev("1 3 count 9", "ok 1 7 9"),
    is_seen(replace(CANCELED_BY_USER, completed=9)),
    *are_free(21, 2),
)
case(
    "canceled at the device",
    *RUNS,
    dev("1 2 halt 3", "ok 1 7 3"),
    is_seen(replace(CANCELED_AT_DEVICE, completed=3)),
    *are_free(27, 2),
)
case(
    "canceled at the device that has stopped",
    *RUNS,
    dev("1 2 stop 2", "ok 1 6 2"),
    dev("1 3 halt 3", "ok 1 7 3"),
    is_seen(replace(CANCELED_AT_DEVICE, completed=3)),
    *are_free(27, 2),
)
case(
    "canceled while the device has stopped",
    *RUNS,
    dev("1 2 stop 2", "ok 1 6 2"),
    (cancel(1), done()),
    is_seen(replace(STOPPED_OUT, completed=2)),
    (cancel(1), refused(0x0404)),
    dev("1 3 halt 3", "ok 1 7 3"),
    is_seen(replace(CANCELED_BY_USER, completed=3)),
    *are_free(27, 2),
)
case(
    "canceled while it prints, stopped and resumed",
    *CANCELS,
    dev("1 2 stop 2", "ok 1 6 2"),
    is_seen(replace(STOPPED_OUT, completed=2)),
    dev("1 3 resume 2", "ok 1 5 2"),
    is_seen(replace(RUNNING_OUT, completed=2)),
    (cancel(1), refused(0x0404)),
    dev("1 4 halt 2", "ok 1 7 2"),
    is_seen(replace(CANCELED_BY_USER, completed=2)),
)
case(
    "canceled while it prints, and done all the same",
    *CANCELS,
    dev("1 2 done 8", "ok 1 9 8"),
    is_seen(replace(COMPLETE, completed=8)),
    *are_free(22, 2),
)
case(
    "canceled while it prints, and failed",
    *CANCELS,
    dev("1 2 fail 8", "ok 1 8 8"),
    is_seen(replace(ABORTED, completed=8)),
    *are_free(22, 2),
)
case(
    "canceled with all of the caller's jobs while it prints",
    *RUNS,
    (print_job(), taken(2)),
    (cancel_mine(), done()),
    is_seen(RUNNING_OUT),
    is_seen(replace(CANCELED, number=2)),
    # it is none of those that can be canceled
    (cancel_mine(1), refused(0x0404)),
    (cancel_mine(), done()),
    dev("1 2 halt 3", "ok 1 7 3"),
    is_seen(replace(CANCELED_BY_USER, completed=3)),
    *are_free(27, 3),
)
case(
    "canceled twice, with another job that waits",
    *CANCELS,
    (print_job(), taken(2)),
    (cancel_mine(2, 1), refused(0x0404)),
    is_seen(replace(HELD, number=2)),
    (cancel_mine(), done()),
    is_seen(RUNNING_OUT),
    is_seen(replace(CANCELED, number=2)),
)
case(
    "held and released while it prints",
    *RUNS,
    (hold(1), refused(0x0404)),
    is_seen(RUNNING),
    (release(1), done()),
    is_seen(RUNNING),
    *are_free(10, 2),
    dev("1 2 stop 0", "ok 1 6 0"),
    (hold(1), refused(0x0404)),
    (release(1), done()),
    is_seen(STOPPED),
    *are_free(10, 4),
    dev("1 3 halt 0", "ok 1 7 0"),
    (hold(1), refused(0x0404)),
    (release(1), refused(0x0404)),
    *are_free(30, 6),
)
case(
    "document for a job that prints",
    *RUNS,
    (send(True, b"a"), refused(0x0404)),
    is_seen(RUNNING),
)

# by the state of job 1: the steps to it, the job then, and what it becomes by the kinds that are taken, at moment 5
KINDS = ("start", "stop", "resume", "count", "done", "fail", "halt")
ENDS = {"fail": replace(ABORTED, ended=5), "halt": replace(CANCELED_AT_DEVICE, ended=5)}
TAKEN_OF: list[tuple[str, Sequence[Step], Job, dict[str, Job]]] = [
    ("held", [(print_job(), taken(1))], HELD, {}),
    (
        "released and takes documents",
        [grant("f24,alice,30"), (request(Operation.CREATE_JOB), created(OPEN)), (release(1), done())],
        RELEASED_OPEN,
        {},
    ),
    ("released", RELEASES, RELEASED, {"start": replace(RUNNING, begun=5)}),
    (
        "printed",
        RUNS,
        RUNNING,
        {"stop": STOPPED, "count": RUNNING, "done": replace(COMPLETE, ended=5), **ENDS},
    ),
    (
        "stopped",
        [*RUNS, dev("1 2 stop 0", "ok 1 6 0")],
        STOPPED,
        {"resume": RUNNING, "count": STOPPED, **ENDS},
    ),
    ("canceled before it was printed", [(print_job(), taken(1)), (cancel(1), done())], CANCELED, {}),
    (
        "canceled at the device",
        [*RUNS, dev("1 2 halt 0", "ok 1 7 0")],
        CANCELED_AT_DEVICE,
        {"count": CANCELED_AT_DEVICE},
    ),
    ("aborted", [*RUNS, dev("1 2 fail 0", "ok 1 8 0")], ABORTED, {"count": ABORTED}),
    ("done", [*RUNS, dev("1 2 done 0", "ok 1 9 0")], COMPLETE, {"count": COMPLETE}),
]
for name, steps, job, becomes in TAKEN_OF:
    case(
        f"kinds that are not taken of a job that is {name}",
        *steps,
        now(5),
        *(dev(f"1 9 {kind} 0", STATE) for kind in KINDS if kind not in becomes),
        is_seen(job),
    )
    for kind, after in becomes.items():
        case(
            f"{kind} of a job that is {name}",
            *steps,
            is_seen(job),
            now(5),
            dev(f"1 9 {kind} 0", f"ok 1 {after.state} 0"),
            is_seen(after),
        )

case(
    "repeats at other moments",
    now(5),
    *RELEASES[:1],
    (print_job(), taken(1)),
    (release(1), done()),
    dev("1 7 start 2", "ok 1 5 2"),
    is_seen(replace(RUNNING, begun=5, completed=2)),
    now(9),
    dev("1 7 start 2", "ok 1 5 2"),
    is_seen(replace(RUNNING, begun=5, completed=2)),
    # sequence numbers need not rise
    dev("1 3 stop 2", "ok 1 6 2"),
    dev("1 7 start 2", "ok 1 5 2"),
    is_seen(replace(STOPPED, begun=5, completed=2)),
    dev("1 5 halt 2", "ok 1 7 2"),
    is_seen(replace(CANCELED_AT_DEVICE, begun=5, ended=9, completed=2)),
    *are_free(28, 2),
    now(20),
    dev("1 5 halt 2", "ok 1 7 2"),
    dev("1 3 stop 2", "ok 1 6 2"),
    dev("1 7 start 2", "ok 1 5 2"),
    is_seen(replace(CANCELED_AT_DEVICE, begun=5, ended=9, completed=2)),
    *are_free(28, 4),
)
case(
    "sequence numbers of two jobs",
    grant("f24,alice,100"),
    (print_job(), taken(1)),
    (print_job(), taken(2)),
    (release(1), done()),
    (release(2), done()),
    dev("1 1 start 0", "ok 1 5 0"),
    dev("2 1 start 0", "ok 2 5 0"),
    dev("2 2 count 3", "ok 2 5 3"),
    dev("1 2 count 4", "ok 1 5 4"),
    dev("2 3 done 30", "ok 2 9 30"),
    is_seen(replace(RUNNING, completed=4)),
    is_seen(replace(COMPLETE, number=2, completed=30)),
    *are_free(50, 3),
)
case(
    "refused line is taken later",
    grant("f24,alice,30"),
    (print_job(), taken(1)),
    dev("1 1 start 0", STATE),
    dev("1 1 start 0", STATE),
    (release(1), done()),
    dev("1 1 start 0", "ok 1 5 0"),
    dev("1 1 start 0", "ok 1 5 0"),
    dev("2 1 start 0", NO_JOB),
    (print_job(), taken(2)),
    dev("2 1 start 0", STATE),
)
case(
    "released job is held before the device begins it",
    *RELEASES,
    (hold(1), done()),
    dev("1 1 start 0", STATE),
    (release(1), done()),
    dev("1 1 start 0", "ok 1 5 0"),
)
case(
    "job of a caller without an account is not begun",
    *has_no_account(1, "bob"),
    dev("1 1 start 0", STATE),
    is_seen(HELD, caller="bob"),
)
case(
    "job without pages is printed",
    grant("f24,alice,1"),
    (print_pages(0), taken(1)),
    (release(1), done()),
    dev("1 1 start 0", "ok 1 5 0"),
    *are_free(1, 2),
    dev("1 2 done 1", "ok 1 9 1"),
    is_seen(replace(COMPLETE, completed=1)),
    *are_free(0, 4),
)
case(
    "job without a document is printed",
    grant("f24,alice,30"),
    (request(Operation.CREATE_JOB), created(OPEN)),
    (release(1), done()),
    dev("1 1 start 0", STATE),
    (send(True, b""), created(RELEASED)),
    dev("1 1 start 0", "ok 1 5 0"),
    dev("1 2 done 0", "ok 1 9 0"),
    is_seen(COMPLETE),
    *are_free(30, 2),
)
case(
    "jobs of two callers",
    grant("f24,alice,30"),
    grant("f24,bob,40"),
    (print_job(), taken(1)),
    (print_job(caller="bob"), taken(2)),
    (release(1), done()),
    (release(2, "bob"), done()),
    dev("2 1 start 5", "ok 2 5 5"),
    dev("1 1 start 6", "ok 1 5 6"),
    dev("2 2 done 33", "ok 2 9 33"),
    *are_free(7, 3, "bob"),
    *are_free(10, 5),
    dev("1 2 done 7", "ok 1 9 7"),
    *are_free(7, 7, "bob"),
    *are_free(23, 9),
)
case(
    "printed jobs do not count among a hundred",
    *HUNDRED,
    grant("f24,alice,30"),
    (release(1), done()),
    dev("1 1 start 0", "ok 1 5 0"),
    (print_job(), refused(0x0404)),
    dev("1 2 stop 0", "ok 1 6 0"),
    (print_job(), refused(0x0404)),
    dev("1 3 fail 0", "ok 1 8 0"),
    (print_job(), taken(101)),
    (print_job(), refused(0x0404)),
)

# job 1 is done, 2 is printed, 3 and 5 are released, and 4 is held
FIVE = [
    grant("f24,alice,100"),
    *((print_job(), taken(number)) for number in range(1, 6)),
    *((release(number), done()) for number in [1, 2, 3, 5]),
    dev("1 1 start 0", "ok 1 5 0"),
    dev("1 2 done 0", "ok 1 9 0"),
    dev("2 1 start 0", "ok 2 5 0"),
]
LISTED = [
    (jobs(), listed(2, 3, 5, 4)),
    (jobs(limit(1)), listed(2)),
    (jobs(limit(2)), listed(2, 3)),
    (jobs(limit(3)), listed(2, 3, 5)),
    (jobs(limit(4)), listed(2, 3, 5, 4)),
    (jobs(COMPLETED), listed(1)),
    (jobs(ALL_JOBS), refused(0x040B, unsupported(ALL_JOBS))),
    (jobs(caller="bob"), listed()),
]
case(
    "jobs by their states",
    *FIVE,
    *LISTED,
    dev("2 2 stop 0", "ok 2 6 0"),
    *LISTED,
)
case(
    "jobs that the device has, by number",
    *FIVE,
    dev("2 2 stop 0", "ok 2 6 0"),
    dev("5 1 start 0", "ok 5 5 0"),
    (jobs(), listed(2, 5, 3, 4)),
    dev("5 2 stop 0", "ok 5 6 0"),
    dev("2 3 resume 0", "ok 2 5 0"),
    (jobs(), listed(2, 5, 3, 4)),
    dev("3 1 start 0", "ok 3 5 0"),
    (jobs(), listed(2, 3, 5, 4)),
    (release(4), done()),
    (jobs(), listed(2, 3, 5, 4)),
)
case(
    "ended jobs from the one that ended last",
    *FIVE,
    now(7),
    dev("2 2 fail 0", "ok 2 8 0"),
    now(4),
    dev("3 1 start 0", "ok 3 5 0"),
    dev("3 2 halt 0", "ok 3 7 0"),
    (cancel(4), done()),
    (jobs(COMPLETED), listed(2, 4, 3, 1)),
    (jobs(COMPLETED, limit(2)), listed(2, 4)),
    (jobs(), listed(5)),
    # a count that comes late moves none of them
    now(9),
    dev("1 3 count 1", "ok 1 9 1"),
    (jobs(COMPLETED), listed(2, 4, 3, 1)),
)


def printer_is(state: int, queued: int) -> Step:
    """The step that shows the printer's state and how many jobs it has."""
    rows = record(Tag.ENUM, "printer-state", state) + record(Tag.INTEGER, "queued-job-count", queued)
    return ask_printer("printer-state", "queued-job-count"), reply(0x0000, PRINTER_GROUP + rows)


case(
    "printer's state by its jobs",
    grant("f24,alice,100"),
    printer_is(3, 0),
    (print_job(), taken(1)),
    (print_job(), taken(2)),
    (print_job(), taken(3)),
    (release(1), done()),
    (release(2), done()),
    printer_is(3, 3),
    dev("1 1 start 0", "ok 1 5 0"),
    printer_is(4, 3),
    dev("1 2 stop 0", "ok 1 6 0"),
    printer_is(5, 3),
    dev("2 1 start 0", "ok 2 5 0"),
    printer_is(4, 3),
    (cancel(2), done()),
    printer_is(4, 3),
    dev("2 2 halt 0", "ok 2 7 0"),
    printer_is(5, 2),
    dev("1 3 fail 0", "ok 1 8 0"),
    printer_is(3, 1),
    (cancel(3), done()),
    printer_is(3, 0),
)
