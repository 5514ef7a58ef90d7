"""Sweeps: `expire` ends the jobs that are held or open and were made 3,600 seconds ago or earlier."""
from dataclasses import replace

from ipp import Operation, Tag, record
from messages import PRINTER_GROUP, Job, job_request, reply, request
from worked.accounts import (
    CANCELED,
    HELD,
    RELEASED,
    RELEASED_OPEN,
    are_free,
    cancel,
    has_no_account,
    hold,
    is_seen,
    release,
)
from worked.case import Step, case, dev, done, expire, grant, now, print_job, refused, replay, taken, wants
from worked.device import RUNNING, STATE, STOPPED
from worked.documents import OPEN, created, send
from worked.jobs import HUNDRED, cancel_mine
from worked.played import Play
from worked.printer import COMPLETED, jobs, listed
from worked.states import LISTS, SHOWN, STATES, bring, on_job

EXPIRED = replace(HELD, state=8, reasons=("aborted-by-system",), ended=3601, is_held=False)
NO_DOCUMENT = replace(EXPIRED, octets=0, documents=0)
ONE_QUEUED = PRINTER_GROUP + record(Tag.INTEGER, "queued-job-count", 1)


def is_whole(job: Job, moment: int, caller: str = "alice") -> Step:
    """The step that looks at all of a job at a moment."""
    return job_request(Operation.GET_JOB_ATTRIBUTES, job.number, caller=caller), reply(0x0000, job.whole_group(now=moment))


case(
    "jobs that expire, one of them released and open",
    grant("f24,alice,30"),
    (request(Operation.CREATE_JOB), created(OPEN)),
    (release(1), done()),
    (print_job(), taken(2)),
    now(3600),
    expire(0),
    is_seen(RELEASED_OPEN),
    is_seen(replace(HELD, number=2)),
    now(3601),
    expire(2),
    is_whole(NO_DOCUMENT, 3601),
    is_whole(replace(EXPIRED, number=2), 3601),
    expire(0),
    dev("1 1 start 0", STATE),
    (cancel(2), refused(0x0404)),
    (jobs(), listed()),
    (jobs(COMPLETED), listed(2, 1)),
    *are_free(30, 3),
)
case(
    "pages that are set aside until a job expires",
    grant("f24,alice,30"),
    (request(Operation.CREATE_JOB), created(OPEN)),
    (release(1), done()),
    *are_free(10, 2),
    now(3600),
    expire(0),
    *are_free(10, 4),
    now(3601),
    expire(1),
    *are_free(30, 6),
)
case(
    "jobs that are not held expire not",
    grant("f24,alice,100"),
    *((print_job(), taken(number)) for number in range(1, 6)),
    *((release(number), done()) for number in range(1, 4)),
    dev("2 1 start 0", "ok 2 5 0"),
    dev("3 1 start 0", "ok 3 5 0"),
    dev("3 2 stop 0", "ok 3 6 0"),
    (cancel(4), done()),
    now(3601),
    expire(1),
    is_seen(RELEASED),
    is_seen(replace(RUNNING, number=2)),
    is_seen(replace(STOPPED, number=3)),
    is_seen(replace(CANCELED, number=4)),
    is_seen(replace(EXPIRED, number=5)),
    *are_free(40, 6),
    now(2_147_483_647),
    expire(0),
    is_seen(RELEASED),
    *are_free(40, 8),
)
# a job expires by the moment at which it was made, also if it was released and held again since
case(
    "jobs of several moments",
    grant("f24,alice,30"),
    (print_job(), taken(1)),
    now(2000),
    (release(1), done()),
    (print_job(), taken(2)),
    now(3000),
    (hold(1), done()),
    now(3600),
    expire(0),
    (print_job(), taken(3)),
    now(3601),
    expire(1),
    is_seen(EXPIRED),
    now(5599),
    expire(0),
    now(5600),
    expire(1),
    is_seen(replace(EXPIRED, number=2, ended=5600)),
    now(7200),
    expire(1),
    is_seen(replace(EXPIRED, number=3, ended=7200)),
    (jobs(COMPLETED), listed(3, 2, 1)),
)
case(
    "a job that is made after the moment of a sweep",
    now(5000),
    (print_job(), taken(1)),
    now(1),
    expire(0),
    now(4999),
    expire(0),
    now(8599),
    expire(0),
    is_seen(HELD),
    now(8600),
    expire(1),
    is_seen(replace(EXPIRED, ended=8600)),
)
case(
    "sweeps at the last moment",
    now(2_147_480_047),
    (print_job(), taken(1)),
    now(2_147_480_048),
    (print_job(), taken(2)),
    now(2_147_483_647),
    (print_job(), taken(3)),
    expire(1),
    is_seen(replace(EXPIRED, ended=2_147_483_647)),
    is_seen(replace(HELD, number=2)),
    is_seen(replace(HELD, number=3)),
    expire(0),
)
case(
    "what is asked of a job that has expired",
    grant("f24,alice,30"),
    (request(Operation.CREATE_JOB), created(OPEN)),
    now(3601),
    expire(1),
    (send(False, b"a"), refused(0x0404)),
    (send(True, b""), refused(0x0404)),
    (hold(1), refused(0x0404)),
    (release(1), refused(0x0404)),
    (cancel(1), refused(0x0404)),
    (cancel_mine(1), refused(0x0404)),
    (cancel_mine(), done()),
    *(dev(f"1 1 {kind} 0", STATE) for kind in ("start", "stop", "resume", "count", "done", "fail", "halt")),
    (cancel(1, "bob"), refused(0x0406)),
    is_whole(NO_DOCUMENT, 3601),
    *are_free(30, 2),
)
# carol has no account
case(
    "jobs of several owners expire together",
    grant("f24,alice,30"),
    grant("f24,bob,50"),
    (request(Operation.CREATE_JOB), created(OPEN)),
    (release(1), done()),
    (print_job(caller="bob"), taken(2)),
    (print_job(caller="carol"), taken(3)),
    (print_job(caller="bob"), taken(4)),
    (release(4, "bob"), done()),
    now(3601),
    expire(3),
    is_seen(EXPIRED),
    is_seen(replace(EXPIRED, number=2), caller="bob"),
    is_seen(replace(EXPIRED, number=3), caller="carol"),
    is_seen(replace(RELEASED, number=4), caller="bob"),
    (request(Operation.GET_PRINTER_ATTRIBUTES, wants("queued-job-count")), reply(0x0000, ONE_QUEUED)),
    *are_free(30, 5),
    *are_free(30, 7, "bob"),
    *has_no_account(9, "carol"),
)
case(
    "hundred jobs of one owner expire",
    *HUNDRED,
    (print_job(), refused(0x0404)),
    (print_job(caller="bob"), taken(101)),
    now(3601),
    expire(101),
    (print_job(), taken(102)),
    (jobs(), listed(102)),
    expire(0),
)
with Play("jobs of each state, some of which expire") as play:
    play.grant("f24,alice,1000")
    numbers = {name: bring(play, name) for name in STATES}
    play.now(3601)
    play.expire(3)
    assert all((play.job(number).ended == 3601) == (STATES[name][1] == 4) for name, number in numbers.items())
    for number in numbers.values():
        play.look(number, *SHOWN)
        for message in on_job(number, "bob"):
            play.ask(message, 0x0406)
    for which in LISTS:
        play.ask(jobs(*which, wants("job-id", "job-state", "job-state-reasons")), 0x0000)
    play.find_free()
    play.expire(0)

replay("no job expires of an empty queue", b"expire\nexpire\n", b"expired 0\nexpired 0\n")
replay("expire without the end of its line", b"expire", b"expired 0\n")
for name, text in {
    "a space behind it": b"expire ",
    "a number": b"expire 1",
    "a space in front": b" expire",
    "capitals": b"EXPIRE",
    "a capital": b"Expire",
    "a letter more": b"expires",
    "a letter less": b"expir",
    "a carriage return": b"expire\r",
}.items():
    replay(f"expire with {name}", text + b"\n", b"bad line 1\n", 1)
