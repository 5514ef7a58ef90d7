"""Operators, who see and cancel any job. That of a replay is opal."""
from dataclasses import replace

from ipp import Operation, Tag, name_with_language, record
from messages import PRINTER, Draft, Job, job_request, reply, request
from worked.accounts import (
    CANCELED,
    HELD,
    RELEASED,
    are_free,
    cancel,
    has_no_account,
    hold,
    is_seen,
    print_pages,
    release,
)
from worked.case import Step, case, dev, done, expire, grant, now, print_job, refused, sized, taken, wants
from worked.device import (
    ABORTED,
    CANCELED_AT_DEVICE,
    CANCELED_BY_USER,
    COMPLETE,
    RUNNING,
    RUNNING_OUT,
    RUNS,
    STATE,
    STOPPED,
    STOPPED_OUT,
)
from worked.documents import OPEN, created, send
from worked.jobs import HUNDRED, cancel_mine, look, seen
from worked.played import Play
from worked.printer import COMPLETED, NOT_COMPLETED, jobs, limit, listed
from worked.states import LISTS, SHOWN, STATES, STOPPING, bring, on_job

OPAL = "opal"
MINE, NOT_MINE = record(Tag.BOOLEAN, "my-jobs", True), record(Tag.BOOLEAN, "my-jobs", False)

BY_OPERATOR = ("job-canceled-by-operator",)
CANCELED_BY_OPERATOR = replace(CANCELED, reasons=BY_OPERATOR)
HALTED_BY_OPERATOR = replace(CANCELED_BY_USER, reasons=BY_OPERATOR)


def lists(*numbers: int, asked: tuple[bytes, ...] = (), caller: str = OPAL) -> tuple[Draft, Draft]:
    """The step of a Get-Jobs that shows these jobs."""
    return jobs(*asked, caller=caller), listed(*numbers)


def lists_none(*asked: bytes, caller: str = OPAL) -> tuple[Draft, Draft]:
    """The step of a Get-Jobs that shows no job, and has nothing but the head of a success."""
    return jobs(*asked, caller=caller), sized(72, done())


case(
    "a job that an operator lists and cancels",
    (print_job(), taken(1)),
    lists(1),
    lists_none(MINE),
    lists_none(caller="bob"),
    (release(1, OPAL), sized(72, refused(0x0406))),
    (cancel(1, "bob"), sized(72, refused(0x0406))),
    (cancel(1, OPAL), done()),
    is_seen(CANCELED_BY_OPERATOR),
    (job_request(Operation.GET_JOB_ATTRIBUTES, 1), reply(0x0000, CANCELED_BY_OPERATOR.whole_group())),
    (cancel(1), sized(72, refused(0x0404))),
    (cancel(1, OPAL), sized(72, refused(0x0404))),
    lists_none(),
    lists(1, asked=(COMPLETED,)),
    lists_none(COMPLETED, MINE),
    lists_none(COMPLETED, caller="bob"),
    lists(1, asked=(COMPLETED,), caller="alice"),
)
case(
    "a job that prints and that an operator cancels",
    *RUNS,
    (cancel(1, OPAL), done()),
    is_seen(RUNNING_OUT),
    is_seen(RUNNING_OUT, caller=OPAL),
    (cancel(1), refused(0x0404)),
    (cancel(1, OPAL), refused(0x0404)),
    is_seen(RUNNING_OUT),
    dev("1 2 halt 3", "ok 1 7 3"),
    is_seen(replace(HALTED_BY_OPERATOR, completed=3)),
    is_seen(replace(HALTED_BY_OPERATOR, completed=3), caller=OPAL),
    *are_free(27, 2),
)

# ---- whose the cause is

case(
    "a job that its owner cancels before an operator",
    *RUNS,
    (cancel(1), done()),
    (cancel(1, OPAL), refused(0x0404)),
    dev("1 2 halt 0", "ok 1 7 0"),
    is_seen(CANCELED_BY_USER),
)
case(
    "a job that prints and that an operator does not cancel",
    *RUNS,
    is_seen(RUNNING, caller=OPAL),
    dev("1 2 halt 0", "ok 1 7 0"),
    is_seen(CANCELED_AT_DEVICE, caller=OPAL),
)
case(
    "a job that has stopped and that an operator cancels",
    *RUNS,
    dev("1 2 stop 4", "ok 1 6 4"),
    is_seen(replace(STOPPED, completed=4), caller=OPAL),
    (cancel(1, OPAL), done()),
    is_seen(replace(STOPPED_OUT, completed=4)),
    dev("1 3 resume 4", "ok 1 5 4"),
    is_seen(replace(RUNNING_OUT, completed=4)),
    dev("1 4 stop 6", "ok 1 6 6"),
    dev("1 5 halt 6", "ok 1 7 6"),
    is_seen(replace(HALTED_BY_OPERATOR, completed=6)),
    *are_free(24, 2),
)
# the device may end it in another way
for kind, job in [("done", COMPLETE), ("fail", ABORTED)]:
    case(
        f"a job that an operator cancels and that ends by {kind}",
        *RUNS,
        (cancel(1, OPAL), done()),
        dev(f"1 2 {kind} 12", f"ok 1 {job.state} 12"),
        is_seen(replace(job, completed=12)),
        *are_free(18, 2),
    )
case(
    "an operator's own jobs",
    grant("f24,opal,30"),
    (print_job(caller=OPAL), taken(1)),
    (print_job(caller=OPAL), taken(2)),
    (release(1, OPAL), done()),
    (hold(1, OPAL), done()),
    (release(1, OPAL), done()),
    dev("1 1 start 0", "ok 1 5 0"),
    (cancel(2, OPAL), done()),
    is_seen(replace(CANCELED, number=2), caller=OPAL),
    (cancel(1, OPAL), done()),
    is_seen(RUNNING_OUT, caller=OPAL),
    (cancel(1, "alice"), refused(0x0406)),
    (look(1, "job-state"), refused(0x0406)),
    dev("1 2 halt 0", "ok 1 7 0"),
    is_seen(CANCELED_BY_USER, caller=OPAL),
    *are_free(30, 3, OPAL),
)
case(
    "each line of the device twice beside an operator's cancel",
    *RUNS,
    (cancel(1, OPAL), done()),
    *2 * [dev("1 1 start 0", "ok 1 5 0")],
    *2 * [dev("1 2 count 3", "ok 1 5 3")],
    *2 * [dev("1 3 halt 3", "ok 1 7 3")],
    dev("1 4 done 3", STATE),
    is_seen(replace(HALTED_BY_OPERATOR, completed=3)),
    *are_free(27, 2),
)

# ---- whose the pages are

case(
    "pages of a job that an operator cancels",
    grant("f24,alice,30"),
    grant("f24,opal,30"),
    (print_job(), taken(1)),
    (release(1), done()),
    *are_free(10, 2),
    *are_free(30, 4, OPAL),
    (cancel(1, OPAL), done()),
    is_seen(CANCELED_BY_OPERATOR),
    *are_free(30, 6),
    *are_free(30, 8, OPAL),
)
case(
    "pages of a job that an operator without an account cancels",
    grant("f24,alice,30"),
    (print_job(), taken(1)),
    (release(1), done()),
    (print_job(caller="bob"), taken(2)),
    (cancel(1, OPAL), done()),
    (cancel(2, OPAL), done()),
    is_seen(replace(CANCELED_BY_OPERATOR, number=2), caller="bob"),
    *are_free(30, 3),
    *has_no_account(5, OPAL),
    *has_no_account(6, "bob"),
)

# ---- several jobs

TWO = [*RUNS, (print_job(), taken(2)), (cancel(1, OPAL), done())]
case(
    "Cancel-My-Jobs of a job that an operator stops",
    *TWO,
    (cancel_mine(1), refused(0x0404)),
    (cancel_mine(2, 1), refused(0x0404)),
    is_seen(RUNNING_OUT),
    is_seen(replace(HELD, number=2)),
    (cancel_mine(2), done()),
    is_seen(replace(CANCELED, number=2)),
    dev("1 2 halt 0", "ok 1 7 0"),
    is_seen(HALTED_BY_OPERATOR),
)
case(
    "Cancel-My-Jobs without numbers beside a job that an operator stops",
    *TWO,
    (cancel_mine(), done()),
    is_seen(RUNNING_OUT),
    is_seen(replace(CANCELED, number=2)),
    (cancel_mine(), done()),
    dev("1 2 halt 0", "ok 1 7 0"),
    is_seen(HALTED_BY_OPERATOR),
)
case(
    "Cancel-My-Jobs of an operator",
    (print_job(), taken(1)),
    (print_job(caller=OPAL), taken(2)),
    (cancel_mine(1, caller=OPAL), refused(0x0406)),
    (cancel_mine(2, 1, caller=OPAL), refused(0x0406)),
    lists(1, 2),
    (cancel_mine(caller=OPAL), done()),
    is_seen(HELD),
    is_seen(replace(CANCELED, number=2), caller=OPAL),
    (cancel_mine(caller=OPAL), done()),
    lists(1),
)
case(
    "what an operator does not do with another's job",
    (request(Operation.CREATE_JOB), created(OPEN)),
    (send(False, b"a", caller=OPAL), refused(0x0406)),
    (send(True, b"", caller=OPAL), refused(0x0406)),
    (hold(1, OPAL), refused(0x0406)),
    (release(1, OPAL), refused(0x0406)),
    grant("f24,opal,30"),
    (release(1, OPAL), refused(0x0406)),
    is_seen(OPEN),
    is_seen(OPEN, caller=OPAL),
    grant("f24,alice,30"),
    (release(1), done()),
    (send(True, b"hi"), created(RELEASED)),
    (hold(1, OPAL), refused(0x0406)),
    is_seen(RELEASED, caller=OPAL),
    (cancel(1, OPAL), done()),
    is_seen(CANCELED_BY_OPERATOR),
    *are_free(30, 2),
    *are_free(30, 4, OPAL),
)
case(
    "no job of an operator's",
    (print_job(), taken(1)),
    *((cancel(number, OPAL), refused(0x0406)) for number in (2, 0, 2_147_483_647)),
    *((look(number, "job-state", caller=OPAL), refused(0x0406)) for number in (2, 0, 2_147_483_647)),
    (look(1, "job-state", caller=OPAL), seen(HELD, "job-state")),
)
case(
    "a job that an operator names by its URI",
    (print_job(), taken(1)),
    (
        request(Operation.GET_JOB_ATTRIBUTES, record(Tag.URI, "job-uri", f"{PRINTER}/1"), printer=None, caller=OPAL),
        reply(0x0000, HELD.whole_group()),
    ),
    (look(1, "job-id", "job-originating-user-name", caller=OPAL), seen(HELD, "job-id", "job-originating-user-name")),
)

# ---- who is an operator

for name in ["Opal", "OPAL", "opal ", " opal", "opa", "opals", "anonymous", ""]:
    case(
        f"caller {name!r}, who is no operator",
        (print_job(), taken(1)),
        lists_none(caller=name),
        lists_none(NOT_MINE, caller=name),
        (look(1, "job-state", caller=name), refused(0x0406)),
        (cancel(1, name), refused(0x0406)),
        is_seen(HELD),
    )
case(
    "callers without a name are no operators",
    (print_job(), taken(1)),
    (request(Operation.GET_JOBS, caller=None), done()),
    (job_request(Operation.GET_JOB_ATTRIBUTES, 1, caller=None), refused(0x0406)),
)
case(
    "an operator whose name has a language",
    (print_job(), taken(1)),
    (
        request(Operation.GET_JOBS, record(Tag.NAME_WITH_LANGUAGE, "requesting-user-name", name_with_language("en", OPAL)), caller=None),
        listed(1),
    ),
    # the first of two names counts
    (request(Operation.GET_JOBS, record(Tag.NAME, "requesting-user-name", "bob"), caller=OPAL), listed(1)),
    (request(Operation.GET_JOBS, record(Tag.NAME, "requesting-user-name", OPAL), caller="bob"), done()),
)

# ---- lists

# alice's jobs 1, 5 and 9, bob's 2 and 7, carol's 3 and opal's 4, 6 and 8: 5 and 6 the device has, 1, 7 and 8 it may start
OWNERS = ["alice", "bob", "carol", OPAL, "alice", OPAL, "bob", OPAL, "alice"]
NINE = [
    *(grant(f"f24,{name},100") for name in ["alice", "bob", OPAL]),
    *((print_job(caller=owner), taken(number)) for number, owner in enumerate(OWNERS, 1)),
    *((release(number, OWNERS[number - 1]), done()) for number in (8, 7, 6, 5, 1)),
    dev("6 1 start 0", "ok 6 5 0"),
    dev("5 1 start 0", "ok 5 5 0"),
    dev("5 2 stop 0", "ok 5 6 0"),
]
ORDER = (5, 6, 1, 7, 8, 2, 3, 4, 9)
case(
    "an operator's list of live jobs in their order",
    *NINE,
    *(lists(*ORDER, asked=asked) for asked in [(), (NOT_COMPLETED,), (NOT_MINE,), (NOT_COMPLETED, NOT_MINE)]),
    *(lists(*ORDER[:count], asked=(limit(count),)) for count in range(1, 11)),
    lists(*ORDER, asked=(limit(2_147_483_647), NOT_MINE)),
    *(lists(6, 8, 4, asked=asked) for asked in [(MINE,), (MINE, NOT_COMPLETED), (limit(3), MINE), (MINE, limit(4))]),
    lists(6, 8, asked=(MINE, limit(2))),
    lists(5, 1, 9, caller="alice"),
    lists(5, 1, 9, asked=(NOT_MINE,), caller="alice"),
    lists(5, 1, 9, asked=(MINE,), caller="alice"),
    lists(7, 2, asked=(NOT_MINE,), caller="bob"),
    lists_none(NOT_MINE, caller="dora"),
    lists_none(COMPLETED),
    (
        jobs(wants("job-originating-user-name", "job-id", "job-state"), limit(4), caller=OPAL),
        reply(
            0x0000,
            *(
                Job(number, owner=OWNERS[number - 1], state=state).group("job-id", "job-originating-user-name", "job-state")
                for number, state in [(5, 6), (6, 5), (1, 3), (7, 3)]
            ),
        ),
    ),
    (jobs(record(Tag.KEYWORD, "my-jobs", "true"), caller=OPAL), refused(0x0400)),
    (jobs(record(Tag.BOOLEAN, "my-jobs", b"\x02"), caller=OPAL), refused(0x0400)),
    (jobs(record(Tag.INTEGER, "my-jobs", 1), caller=OPAL), refused(0x0400)),
    # the first of two counts
    lists(6, 8, 4, asked=(MINE, NOT_MINE)),
    lists(*ORDER, asked=(NOT_MINE, MINE)),
)
# they end at 30, 10, 30, 20, 30 and 10
ENDS = [(2, 30), (9, 10), (8, 30), (3, 20), (1, 30), (4, 10)]
ENDED = (8, 2, 1, 3, 9, 4)
ENDING: list[Step] = []
for number, moment in ENDS:
    ENDING += [now(moment), (cancel(number, OPAL), done())]
case(
    "an operator's list of completed jobs in their order",
    *NINE,
    *ENDING,
    lists(*ENDED, asked=(COMPLETED,)),
    lists(*ENDED, asked=(NOT_MINE, COMPLETED)),
    *(lists(*ENDED[:count], asked=(COMPLETED, limit(count))) for count in range(1, 8)),
    lists(8, 4, asked=(COMPLETED, MINE)),
    lists(8, asked=(COMPLETED, MINE, limit(1))),
    lists(5, 6, 7),
    lists(1, 9, asked=(COMPLETED,), caller="alice"),
    lists(2, asked=(COMPLETED, NOT_MINE), caller="bob"),
    (
        jobs(wants("job-id", "job-state-reasons", "time-at-completed"), COMPLETED, caller=OPAL),
        reply(
            0x0000,
            *(
                Job(
                    number,
                    reasons=("job-canceled-by-user",) if OWNERS[number - 1] == OPAL else BY_OPERATOR,
                    ended=dict(ENDS)[number],
                ).group("job-id", "job-state-reasons", "time-at-completed")
                for number in ENDED
            ),
        ),
    ),
    # a job that ends at an earlier moment is not the last
    now(15),
    dev("5 3 fail 0", "ok 5 8 0"),
    now(40),
    dev("6 2 done 0", "ok 6 9 0"),
    lists(6, 8, 2, 1, 3, 5, 9, 4, asked=(COMPLETED,)),
    lists(6, 8, 2, 1, 3, asked=(COMPLETED, limit(5))),
    lists(6, 8, 4, asked=(COMPLETED, MINE)),
    lists(7),
)
case("an operator's lists of an empty queue", lists_none(), lists_none(COMPLETED), lists_none(MINE), lists_none(limit(1)))
case(
    "an operator's list of more jobs than one owner has",
    *HUNDRED,
    (print_job(), refused(0x0404)),
    (print_job(caller=OPAL), taken(101)),
    (print_job(caller="bob"), taken(102)),
    lists(*range(1, 103)),
    lists(101, asked=(MINE,)),
    (cancel(7, OPAL), done()),
    (print_job(), taken(103)),
    (print_job(), refused(0x0404)),
)
case(
    "another's jobs that expire and that an operator sees",
    (print_job(), taken(1)),
    (print_job(caller=OPAL), taken(2)),
    now(3601),
    expire(2),
    (cancel(1, OPAL), refused(0x0404)),
    is_seen(replace(CANCELED, state=8, reasons=("aborted-by-system",), ended=3601), caller=OPAL),
    lists(2, 1, asked=(COMPLETED,)),
    lists(2, asked=(COMPLETED, MINE)),
)
# the pages of a job that is canceled are its owner's, and no others'
case(
    "jobs of several owners that an operator cancels",
    grant("f24,alice,30"),
    grant("f24,bob,30"),
    (print_pages(30), taken(1)),
    (print_pages(30, caller="bob"), taken(2)),
    (release(1), done()),
    (release(2, "bob"), done()),
    (cancel(2, OPAL), done()),
    *are_free(0, 3),
    *are_free(30, 5, "bob"),
    (cancel(1, OPAL), done()),
    *are_free(30, 7),
    *are_free(30, 9, "bob"),
)

# ---- each state

# the attribute my-jobs, left out and by its values
OWN: list[list[bytes]] = [[], [MINE], [NOT_MINE]]

with Play("an operator and another's job in each state") as play:
    play.grant("f24,alice,1000")
    play.grant("f24,opal,1000")
    for name in STATES:
        number = bring(play, name)
        _, state, reasons = STATES[name]
        canceled = 0x0000 if state <= 6 and STOPPING not in reasons else 0x0404
        # the operator cancels and looks, and does nothing else
        for message, code in zip(on_job(number, OPAL), [*4 * [0x0406], canceled, 0x0406, 0x0000]):
            play.ask(message, code)
        play.look(number, *SHOWN)
        play.look(number, *SHOWN, caller=OPAL)
    for which in LISTS:
        for mine in OWN:
            play.ask(jobs(*which, *mine, wants("job-id", "job-state", "job-state-reasons"), caller=OPAL), 0x0000)
    play.find_free()
    play.find_free(OPAL)

with Play("lists of an operator over jobs of each state and several owners") as play:
    for owner in ("alice", "bob", OPAL):
        play.grant(f"f24,{owner},1000")
    for place, name in enumerate([*STATES, *reversed(STATES)]):
        play.now(100 - place // 2)
        bring(play, name)
        play.print_job(caller="bob")
        play.print_job(caller=OPAL)
        play.cancel(play.last_job() - place % 2, caller=OPAL)
    play.now(200)
    for which in LISTS:
        for mine in OWN:
            play.ask(jobs(*which, *mine, caller=OPAL), 0x0000)
            for count in (1, 5, 30):
                play.ask(jobs(*which, *mine, limit(count), caller=OPAL), 0x0000)
    play.ask(jobs(wants("all"), limit(7), caller=OPAL), 0x0000)
    play.ask(request(Operation.GET_PRINTER_ATTRIBUTES, wants("queued-job-count"), caller=OPAL), 0x0000)
