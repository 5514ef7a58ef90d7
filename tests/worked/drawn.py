"""Five hundred calls in a row over one queue, drawn by a fixed rule: several callers, one of them an operator, the device, the office and
sweeps, at moments that move."""
from typing import Union

from messages import Draft
from second.calls import ACCOUNTS, KINDS, Calls, Draws
from second.checks import OPERATIONS
from second.queue import BY_OPERATOR
from worked.played import Play

CALLS = 500

with Play("five hundred calls in a row") as play:
    draws = Draws(2050)
    calls = Calls(draws, play.queue)
    play.grant("b1,alice,60")
    play.grant("b1,bob,200")
    done: set[Union[int, str]] = set()
    for _ in range(CALLS):
        if draws.chance(25):
            play.now(play.replay.now + 1 + draws.below(90))
        call = calls.call()
        if isinstance(call, Draft):
            if play.ask(call) <= 0x0001:
                done.add(call.code)
            continue
        answer = play.line(call)
        if answer.startswith(b"ok"):
            done.add(call.split()[3].decode())
        elif answer.startswith(b"expired ") and answer != b"expired 0":
            done.add("expire")
    for name in ACCOUNTS:
        play.find_free(name)
    # each operation and each kind of report was taken, jobs expired, and the operator canceled some that waited and some that printed
    assert done >= {*OPERATIONS, *KINDS, "expire"}, done
    assert {job.begun is None for job in play.queue.jobs.values() if BY_OPERATOR in job.reasons} == {True, False}
