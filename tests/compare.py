#!/usr/bin/env python3
"""Compares `printd replay` with a second print queue, written from the protocol's documents alone (tests/second).

It makes random requests of several callers, one of them an operator. Many are crooked: wrong tags, numbers of values and forms, cut and flipped
bytes, second groups, names that come again, other versions, operations and request-ids, collections. Others fit the jobs of the queue, and
there are lines of the device, account files and sweeps. The second queue answers all of them, the program runs over them, and the answers are
compared byte for byte. Run it as `tests/compare.py [RUNS [FIRST]]` at the top of the repository; the program has to be built
(`./printd replay </dev/null` does that). It ends with status 1 at the first answer that differs, and prints the request and both answers.
"""
from __future__ import annotations

import argparse
import collections
import random
import subprocess
import sys
from pathlib import Path

TOP = Path(__file__).resolve().parents[1]
sys.path[:0] = [f"{TOP}/tests/lib", f"{TOP}/tools/lib"]

from messages import Draft  # noqa: E402
from second.calls import Calls, Draws  # noqa: E402
from second.replay import Replay  # noqa: E402
from second.requests import Writer  # noqa: E402
from served import PROGRAM  # noqa: E402

CALLS_PER_RUN = 400


def kind_of(answer: bytes) -> str:
    """The kind by which an answer is counted: the status code of a reply, or the words of another answer."""
    words = answer.decode().split()
    if words[0] == "ipp":
        return words[1] if words[1] == "short" else words[1][4:8]
    if words[0] == "expired":
        return "expired 0" if words[1] == "0" else "expired"
    return words[0] if words[0] == "ok" else " ".join(words[: 2 if "new" in words else 3])


def a_line(choices: random.Random, writer: Writer, calls: Calls) -> bytes:
    """A line with a request, often a crooked one, or with a call that fits the queue as it is."""
    if choices.random() < 0.6:
        message = writer.request()
    else:
        call = calls.call()
        if not isinstance(call, Draft):
            return call
        message = call.spelled(choices.randint(0, 2**32 - 1))
    return b"ipp " + message.hex().encode()


def compare(seed: int, kinds: collections.Counter[str]) -> None:
    """One run of the program against one of the queue; counts the answers by their kind."""
    choices, replay = random.Random(seed), Replay()
    writer, calls = Writer(choices, replay.queue), Calls(Draws(seed), replay.queue)
    lines: list[bytes] = []
    asked: list[bytes] = []
    wanted: list[bytes] = []
    for _ in range(CALLS_PER_RUN):
        if choices.random() < 0.1:
            moments = [choices.randint(1, 50), choices.randint(3_000, 8_000), choices.randint(1, 2_147_483_647)]
            lines.append(b"now %d" % choices.choice(moments))
            replay.answer(lines[-1])
        line = a_line(choices, writer, calls)
        lines.append(line)
        asked.append(line)
        answer = replay.answer(line)
        assert answer is not None
        wanted.append(answer)
        kinds[kind_of(answer)] += 1
    outcome = subprocess.run([PROGRAM, "replay"], input=b"\n".join(lines), stdout=subprocess.PIPE, check=False)
    answers = outcome.stdout.splitlines()
    for place, (line, answer, want) in enumerate(zip(asked, answers, wanted)):
        if answer != want:
            sys.exit(f"run {seed}, answer {place}, to\n  {line.decode()}\ncame:\n  {answer.decode()}\nwanted:\n  {want.decode()}")
    if outcome.returncode != 0 or len(answers) != len(wanted):
        sys.exit(f"run {seed}: status {outcome.returncode}, {len(answers)} answers of {len(wanted)}")


def main() -> None:
    words = argparse.ArgumentParser(description=__doc__, formatter_class=argparse.RawDescriptionHelpFormatter)
    words.add_argument("runs", metavar="RUNS", type=int, nargs="?", default=50, help="how many runs (50)")
    words.add_argument("first", metavar="FIRST", type=int, nargs="?", default=0, help="the number of the first run, which its calls are drawn by (0)")
    asked = words.parse_args()
    if asked.runs < 1:
        words.error("RUNS is at least 1")
    if not PROGRAM.exists():
        sys.exit("tests/compare.py: build the program first: ./printd replay </dev/null")
    kinds: collections.Counter[str] = collections.Counter()
    for seed in range(asked.first, asked.first + asked.runs):
        compare(seed, kinds)
    print(f"{asked.runs} runs of {CALLS_PER_RUN} calls: all answers are the same, byte for byte")
    print("answers by their kind: " + ", ".join(f"{kind} {kinds[kind]}" for kind in sorted(kinds)))


if __name__ == "__main__":
    main()
