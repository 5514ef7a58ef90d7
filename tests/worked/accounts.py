"""Account files of one row, the pages that they grant, and what releasing and holding jobs does with them."""
from __future__ import annotations

from collections.abc import Sequence
from dataclasses import replace
from typing import Optional

from ipp import Operation, Tag, Value, record
from messages import Draft, Job, job_request, request
from worked.case import Step, case, done, grant, print_job, refused, taken
from worked.documents import COUNTS, OPEN, created, send
from worked.jobs import cancel_mine, look, seen

REPEAT = "new 0 repeats 1"

HELD = Job()
RELEASED = replace(HELD, state=3, reasons=("none",), is_held=False)
RELEASED_OPEN = replace(HELD, reasons=("job-incoming",), is_held=False)
CANCELED = replace(HELD, state=7, reasons=("job-canceled-by-user",), ended=1, is_held=False)

SHOWN = (
    "job-state",
    "job-state-reasons",
    "time-at-processing",
    "time-at-completed",
    "job-impressions-completed",
    "job-hold-until",
)


def is_seen(job: Job, **others: str) -> Step:
    """The step that looks at a job."""
    return look(job.number, *SHOWN, **others), seen(job, *SHOWN)


def release(number: int, caller: Optional[str] = "alice") -> Draft:
    return job_request(Operation.RELEASE_JOB, number, caller=caller)


def hold(number: int, caller: str = "alice") -> Draft:
    return job_request(Operation.HOLD_JOB, number, caller=caller)


def cancel(number: int, caller: Optional[str] = "alice") -> Draft:
    return job_request(Operation.CANCEL_JOB, number, caller=caller)


def print_pages(impressions: int, copies: int = 1, caller: Optional[str] = "alice") -> Draft:
    """A Print-Job of a number of pages and copies."""
    rows = [record(Tag.INTEGER, "copies", copies)]
    return print_job(record(Tag.INTEGER, "job-impressions", impressions), job=rows, caller=caller)


def are_free(pages: int, number: int, caller: Optional[str] = "alice") -> list[Step]:
    """The steps that show how many pages are free: a new job of that number is released, and one of a page more is not.

    They end with the pages as they were. The new jobs have this number and the next.
    """
    return [
        (print_pages(pages, caller=caller), taken(number)),
        (print_pages(pages + 1, caller=caller), taken(number + 1)),
        (release(number + 1, caller), refused(0x0404)),
        (release(number, caller), done()),
        (cancel(number, caller), done()),
        (cancel(number + 1, caller), done()),
    ]


def has_no_account(number: int, caller: Optional[str] = "alice") -> list[Step]:
    """The steps that show that a caller has no account: a new job without pages is not released. It has this number."""
    return [(print_pages(0, caller=caller), taken(number)), (release(number, caller), refused(0x0404))]


case(
    "pages granted, granted again and granted otherwise",
    *has_no_account(1),
    grant("f24,alice,30"),
    *are_free(30, 2),
    grant("f24,alice,30", REPEAT),
    grant('f24,"alice",30', REPEAT),
    *are_free(30, 4),
    grant("f24,alice,31", "refused 4"),
    *are_free(30, 6),
    # a repeat is no conflict after one
    grant("f24,alice,30", REPEAT),
    grant("f25,alice,30"),
    *are_free(60, 8),
    # the same batch for another account
    *has_no_account(10, "bob"),
    grant("f24,bob,31"),
    *are_free(31, 11, "bob"),
    *are_free(60, 13),
)
case(
    "batches and accounts in small and in capital letters",
    grant("f24,alice,30"),
    grant("F24,alice,31"),
    grant("f24,Alice,32"),
    *are_free(61, 1),
    *are_free(32, 3, "Alice"),
)

OUT_OF_FORM: dict[str, Sequence[Value]] = {
    "too few or too many fields": [
        "f24,alice",
        "f24",
        "f24 alice 30",
        "f24;alice;30",
        "f24,alice,30,",
        "f24,alice,30,x",
        ",f24,alice,30",
        ",",
        '""',
        # a quote that is never closed takes what follows
        'f24,"alice,30',
        '"f24,alice,30',
        '"f24,alice,30"',
    ],
    "empty fields": [",alice,30", "f24,,30", "f24,alice,", ",,", '"",alice,30', 'f24,"",30', 'f24,alice,""'],
    "batches of other bytes": [
        *(f"f{other}24,alice,30" for other in " /:@[`{+~\x00\x1f\x7f\tü"),
        " f24,alice,30",
        "f24 ,alice,30",
        '"f,24",alice,30',
        b"\xef\xbb\xbff24,alice,30",
        b"f\xff24,alice,30",
        "batch,account,pages",
    ],
    "batches and accounts that are too long": [
        f"{41 * 'b'},alice,30",
        f"f24,{256 * 'a'},30",
        f"f24,{128 * 'ü'},30",
        f"f24,{127 * 'ü'}ab,30",
    ],
    "accounts with a control byte": [
        *(f"f24,al{other}ice,30" for other in "\t\x00\x01\x1f\x7f"),
        "f24,alice\t,30",
        'f24,"al\rice",30',
    ],
    "accounts that are not UTF-8": [
        b"f24,%s,30" % other for other in [b"\xff", b"\xc3", b"\xc0\x80", b"\xed\xa0\x80", b"\xf4\x90\x80\x80", b"a\x80"]
    ],
    "pages that are no plain number": [
        f"f24,alice,{pages}"
        for pages in ["030", "00", "01", "+30", "-30", "-0", "30.0", "30.", "3e1", "0x1E", "3 0", " 30", "30 ", "thirty"]
        + ["٣٠"]
    ],
    "fields out of form in front of pages out of range": ["f 24,alice,0", "f24,,1000001", "f24,alice,0,"],
}
for name, rows in OUT_OF_FORM.items():
    case(
        f"account file, {name}",
        *(grant(row, "refused 2") for row in rows),
        *has_no_account(1),
        # none of them has taken a batch
        grant("f24,alice,30"),
        *are_free(30, 2),
    )

case(
    "account file, pages out of range",
    *(
        grant(f"f24,alice,{pages}", "refused 3")
        # those in the middle are 0 and 30 where numbers wrap
        for pages in ["0", "1000001", "9999999", "4294967296", "4294967326", "18446744073709551646", 1000 * "9"]
    ),
    *has_no_account(1),
    grant("f24,alice,1"),
    *are_free(1, 2),
)
case(
    "most pages of a row",
    grant("f24,alice,1000001", "refused 3"),
    grant("f24,alice,1000000"),
    (print_pages(100_000, 10), taken(1)),
    (print_pages(1), taken(2)),
    (release(1), done()),
    (release(2), refused(0x0404)),
    (hold(1), done()),
    (release(2), done()),
    (release(1), refused(0x0404)),
)
case(
    "account file without a row",
    grant("", "new 0 repeats 0"),
    grant("\r\r", "new 0 repeats 0"),
    *has_no_account(1),
)
case(
    "batches of every kind of byte, and of 40 bytes",
    grant("A-Z.a_z-09,alice,1"),
    grant(f"{40 * 'b'},alice,2"),
    grant(".,alice,4"),
    grant("-,alice,8"),
    grant("_,alice,16"),
    grant("0,alice,32"),
    *are_free(63, 1),
)

CALLERS: list[tuple[str, Optional[str], str]] = [
    ("a comma", "Babbage, Charles", '"Babbage, Charles"'),
    ("doubled quotes", 'say "hi"', '"say ""hi"""'),
    ("a quote in the middle", 'al"ice', 'al"ice'),
    ("text behind a quoted part", "alicia", '"alic"ia'),
    ("a space in front", " alice", " alice"),
    ("a space alone", " ", " "),
    ("a tilde", "alice~", "alice~"),
    ("letters of two octets", "Jürg", "Jürg"),
    ("255 octets", 255 * "a", 255 * "a"),
    ("255 octets of letters of two", 126 * "ü" + "abc", 126 * "ü" + "abc"),
    ("no name", None, "anonymous"),
]
for name, caller, field in CALLERS:
    case(
        f"account of a caller with {name}",
        *has_no_account(1, caller),
        grant(f"f24,{field},30"),
        *are_free(30, 2, caller),
        *has_no_account(4),
    )

case(
    "several rows between carriage returns",
    grant("f24,alice,30\rf24,bob,50\rf24,carol,20", "new 3 repeats 0"),
    grant("\r\rf24,alice,30\r\rf24,bob,50\r\rf24,carol,20\r", "new 0 repeats 3"),
    grant("f24,dave,5\r", "new 1 repeats 0"),
    *are_free(30, 1),
    *are_free(50, 3, "bob"),
    *are_free(20, 5, "carol"),
    *are_free(5, 7, "dave"),
    # in one file, too, a row again is a repeat
    grant("f25,alice,1\rf25,alice,1\rf24,alice,30", "new 1 repeats 2"),
    *are_free(31, 9),
)
case(
    "one bad row of several refuses all",
    grant("f24,alice,30\rf24,alice,31", "refused 4"),
    grant("f24,alice,30\rf24,bob,1\rf24,alice,30\rf24,alice,29", "refused 4"),
    grant("f24,alice,30\rf24,bob", "refused 2"),
    grant("f24,alice,30\rf24,bob,0", "refused 3"),
    # the first row that is out of form or out of range
    grant("f24,alice,0\rf24,bob", "refused 3"),
    grant("f24,alice\rf24,bob,0", "refused 2"),
    # and only then conflicts
    grant("f24,alice,30\rf24,alice,31\rf24,bob", "refused 2"),
    grant("f24,alice,30\rf24,alice,31\rf24,bob,0", "refused 3"),
    *has_no_account(1),
    *has_no_account(2, "bob"),
    grant("f24,alice,30"),
    grant("f25,alice,10\rf24,bob,5\rf24,alice,31", "refused 4"),
    *are_free(30, 3),
    *has_no_account(5, "bob"),
)

MILLIONS = [f"b{number},alice,1000000" for number in range(1, 1001)]


def all_released(first: int) -> list[Step]:
    """The steps that release jobs of all pages that an account can have, and no further one. The first has this number."""
    pages = [(100_000, 999)] * 10 + [(100_000, 10)]
    last = first + len(pages)
    return [
        *((print_pages(*some), taken(number)) for number, some in enumerate(pages, first)),
        *((release(number), done()) for number in range(first, last)),
        (print_pages(1), taken(last)),
        (release(last), refused(0x0404)),
    ]


case(
    "most pages of an account",
    # one row too many refuses all, and so does a conflict before it
    grant("\r".join([*MILLIONS, "more,alice,1", "b1,alice,5"]), "refused 5"),
    grant("\r".join([*MILLIONS, "b1,alice,5", "more,alice,1"]), "refused 4"),
    *has_no_account(1),
    grant("\r".join(MILLIONS), "new 1000 repeats 0"),
    grant("more,alice,1", "refused 5"),
    grant("more,bob,1\rmore,alice,1", "refused 5"),
    grant("b1,alice,1000000", REPEAT),
    grant("b1,alice,999999", "refused 4"),
    *all_released(2),
    # pages granted are counted, free or not
    grant("more,alice,1", "refused 5"),
    grant("more,bob,1"),
    *are_free(1, 14, "bob"),
)
case(
    "last page of an account",
    grant("\r".join(MILLIONS[:999]), "new 999 repeats 0"),
    grant("near,alice,999999"),
    grant("over,alice,2", "refused 5"),
    grant("last,alice,1"),
    grant("over,alice,1", "refused 5"),
    grant("last,alice,1", REPEAT),
    *all_released(1),
)

case(
    "released, held and released again",
    grant("f24,alice,30"),
    (print_job(), taken(1)),
    is_seen(HELD),
    (release(1), done()),
    is_seen(RELEASED),
    *are_free(10, 2),
    # once more has no effect
    (release(1), done()),
    is_seen(RELEASED),
    *are_free(10, 4),
    (hold(1), done()),
    is_seen(HELD),
    *are_free(30, 6),
    (hold(1), done()),
    is_seen(HELD),
    *are_free(30, 8),
    (release(1), done()),
    is_seen(RELEASED),
    *are_free(10, 10),
)
case(
    "second of two jobs is not released",
    grant("f24,alice,30"),
    (print_job(), taken(1)),
    (print_job(), taken(2)),
    (release(1), done()),
    (release(2), refused(0x0404)),
    is_seen(replace(HELD, number=2)),
    *are_free(10, 3),
    (hold(1), done()),
    (release(2), done()),
    is_seen(replace(RELEASED, number=2)),
    (release(1), refused(0x0404)),
    is_seen(HELD),
    *are_free(10, 5),
)
case(
    "released as soon as there are pages enough",
    (print_job(caller="bob"), taken(1)),
    (release(1, "bob"), refused(0x0404)),
    # another's pages do not help
    grant("f24,alice,100"),
    (release(1, "bob"), refused(0x0404)),
    grant("f24,bob,19"),
    (release(1, "bob"), refused(0x0404)),
    is_seen(HELD, caller="bob"),
    grant("f25,bob,1"),
    (release(1, "bob"), done()),
    is_seen(RELEASED, caller="bob"),
    *are_free(0, 2, "bob"),
    *are_free(100, 4),
)
case(
    "pages granted while some are set aside",
    grant("f24,alice,30"),
    (print_job(), taken(1)),
    (release(1), done()),
    grant("f25,alice,10"),
    *are_free(20, 2),
    grant("f25,alice,10", REPEAT),
    *are_free(20, 4),
    (cancel(1), done()),
    *are_free(40, 6),
)
case(
    "canceled jobs give back their pages",
    grant("f24,alice,70"),
    *((print_job(), taken(number)) for number in range(1, 5)),
    *((release(number), done()) for number in range(1, 4)),
    *are_free(10, 5),
    (cancel(3), done()),
    is_seen(replace(CANCELED, number=3)),
    *are_free(30, 7),
    (release(3), refused(0x0404)),
    # one that was never released gives none
    (cancel_mine(1, 4), done()),
    *are_free(50, 9),
    (cancel_mine(), done()),
    *are_free(70, 11),
)
case(
    "refused Cancel-My-Jobs gives no pages back",
    grant("f24,alice,50"),
    (print_job(), taken(1)),
    (print_job(), taken(2)),
    (release(1), done()),
    (release(2), done()),
    (cancel_mine(1, 2, 3), refused(0x0406)),
    *are_free(10, 3),
    (cancel_mine(1, 2, 3), refused(0x0404)),
    *are_free(10, 5),
    (cancel_mine(2, 1, 2), done()),
    *are_free(50, 7),
)
case(
    "copies count",
    grant("f24,alice,30"),
    (print_pages(10, 3), taken(1)),
    (print_pages(31), taken(2)),
    (release(2), refused(0x0404)),
    (release(1), done()),
    *are_free(0, 3),
)
case(
    "job without pages",
    *has_no_account(1),
    grant("f24,alice,1"),
    (release(1), done()),
    is_seen(RELEASED),
    *are_free(1, 2),
)

case(
    "open job is released, and then its last document comes",
    grant("f24,alice,30"),
    (request(Operation.CREATE_JOB), created(OPEN)),
    (release(1), done()),
    is_seen(RELEASED_OPEN),
    *are_free(10, 2),
    (send(True, b""), created(RELEASED)),
    is_seen(RELEASED),
    (look(1, *COUNTS), seen(Job(octets=0, documents=0), *COUNTS)),
    *are_free(10, 4),
)
case(
    "open job is released and held",
    grant("f24,alice,30"),
    (request(Operation.CREATE_JOB), created(OPEN)),
    (release(1), done()),
    (release(1), done()),
    (hold(1), done()),
    is_seen(OPEN),
    *are_free(30, 2),
    (send(True, b"a"), created(HELD)),
    (release(1), done()),
    is_seen(RELEASED),
    *are_free(10, 4),
)
case(
    "open job is released and canceled",
    grant("f24,alice,30"),
    (request(Operation.CREATE_JOB), created(OPEN)),
    (release(1), done()),
    (cancel(1), done()),
    is_seen(CANCELED),
    *are_free(30, 2),
    (send(True, b"a"), refused(0x0404)),
)
case(
    "sixteen documents of a released job",
    grant("f24,alice,30"),
    (request(Operation.CREATE_JOB), created(OPEN)),
    (send(False, b"a"), created(OPEN)),
    (release(1), done()),
    *((send(False, b"ab"), created(RELEASED_OPEN)) for _ in range(15)),
    (send(False, b"a"), refused(0x0404)),
    (send(True, b"a"), refused(0x0404)),
    is_seen(RELEASED_OPEN),
    (send(True, b""), created(RELEASED)),
    (look(1, *COUNTS), seen(Job(octets=31, documents=16), *COUNTS)),
    *are_free(10, 2),
)
