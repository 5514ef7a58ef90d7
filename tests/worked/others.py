"""Requests of others change nothing for a caller, and a request that comes again is answered again and changes nothing."""
from dataclasses import replace

from worked.accounts import HELD, REPEAT, are_free, is_seen, release
from worked.case import case, dev, done, grant, print_job, refused, taken
from worked.device import COMPLETE, CONFLICT, RUNNING, STATE
from worked.jobs import look
from worked.printer import COMPLETED, jobs, listed

ENDED = replace(COMPLETE, completed=12)

# of two jobs that have 20 pages each, 30 are enough for one alone
FIRST_RELEASE = [grant("f24,alice,30"), (print_job(), taken(1)), (print_job(), taken(2)), (release(1), done())]
SECOND_RELEASE = [(release(2), refused(0x0404)), (jobs(), listed(1, 2))]
case("two releases with nothing of another caller between them", *FIRST_RELEASE, *SECOND_RELEASE)

# alice gets the same answer, to the byte, whoever prints two jobs in between
for other in ["bob", "carol", "Alice", "anonymous"]:
    case(
        f"two jobs of {other} between those of another caller",
        grant("f24,alice,30"),
        (print_job(), taken(1)),
        (print_job(caller=other), taken(2)),
        (print_job(caller=other), taken(3)),
        (jobs(), listed(1)),
        (release(1), done()),
        (look(2, "job-state"), refused(0x0406)),
        (release(3), refused(0x0406)),
        dev("1 1 start 0", "ok 1 5 0"),
        is_seen(RUNNING),
        dev("1 2 done 12", "ok 1 9 12"),
        is_seen(ENDED),
        (jobs(), listed()),
        (jobs(COMPLETED), listed(1)),
        *are_free(18, 4),
    )
    case(
        f"two jobs of {other} between two releases of another caller",
        *FIRST_RELEASE,
        (print_job(caller=other), taken(3)),
        (print_job(caller=other), taken(4)),
        *SECOND_RELEASE,
    )

case(
    "each line of the device twice, and the first again at the end",
    grant("f24,alice,30"),
    (print_job(), taken(1)),
    (release(1), done()),
    *2 * [dev("1 1 start 0", "ok 1 5 0")],
    *2 * [dev("1 2 count 7", "ok 1 5 7")],
    *2 * [dev("1 3 stop 9", "ok 1 6 9")],
    *2 * [dev("1 3 stop 8", CONFLICT)],
    *2 * [dev("1 4 resume 9", "ok 1 5 9")],
    *2 * [dev("1 5 done 12", "ok 1 9 12")],
    *2 * [dev("1 6 halt 12", STATE)],
    dev("1 1 start 0", "ok 1 5 0"),
    is_seen(ENDED),
    *are_free(18, 2),
)
case(
    "more pages than were set aside, each line twice, and the first again at the end",
    grant("f24,alice,30"),
    (print_job(), taken(1)),
    (print_job(), taken(2)),
    (release(1), done()),
    *2 * [dev("1 1 start 0", "ok 1 5 0")],
    *2 * [dev("1 2 count 12", "ok 1 5 12")],
    *2 * [dev("1 3 done 25", "ok 1 9 25")],
    dev("1 1 start 0", "ok 1 5 0"),
    is_seen(replace(COMPLETE, completed=25)),
    is_seen(replace(HELD, number=2)),
    *are_free(5, 3),
)
case(
    "count that comes when the job is done, each line twice, and the first again at the end",
    grant("f24,alice,30"),
    (print_job(), taken(1)),
    (release(1), done()),
    *2 * [dev("1 1 start 0", "ok 1 5 0")],
    *2 * [dev("1 3 done 5", "ok 1 9 5")],
    *2 * [dev("1 2 count 7", "ok 1 9 7")],
    dev("1 1 start 0", "ok 1 5 0"),
    is_seen(replace(COMPLETE, completed=7)),
    *are_free(23, 2),
)
case(
    "an account file three times",
    grant("f24,alice,30"),
    grant("f24,alice,30", REPEAT),
    *are_free(30, 1),
    grant("f24,alice,30", REPEAT),
    *are_free(30, 3),
    # of several rows, some of them again
    grant("f25,alice,1\rf24,alice,30\rf25,bob,5\rf25,alice,1", "new 2 repeats 2"),
    *2 * [grant("f25,alice,1\rf24,alice,30\rf25,bob,5\rf25,alice,1", "new 0 repeats 4")],
    *are_free(31, 5),
    *are_free(5, 7, "bob"),
)
