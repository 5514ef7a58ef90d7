#!/usr/bin/env python3
"""Measures `printd replay`: requests and reports a second, and peak memory, on input that it makes itself.

It prints figures and judges nothing. A peak below that of this script itself, some 20 MiB, does not show. Run it as
`bench/replay.py` at the top of the repository; the program has to be built (`./printd replay </dev/null` does that).
"""
from __future__ import annotations

import argparse
import os
import subprocess
import sys
import tempfile
import time
from collections.abc import Iterable, Iterator
from pathlib import Path

TOP = Path(__file__).resolve().parents[1]
sys.path[:0] = [f"{TOP}/tests/lib", f"{TOP}/tools/lib"]

from ipp import Operation, Tag, record  # noqa: E402
from messages import job_request, request  # noqa: E402
from served import PROGRAM  # noqa: E402


def print_job(number: int, caller: bytes, document: bytes) -> bytes:
    """The smallest Print-Job with this request-id, caller and document."""
    return request(Operation.PRINT_JOB, caller=caller, payload=document).spelled(number)


def large_print_job(number: int, caller: bytes) -> bytes:
    """A Print-Job with 30 attributes: 12 that the printer knows, and 18 that it lists as unsupported."""
    return request(
        Operation.PRINT_JOB,
        record(Tag.NAME, "job-name", "quarterly report"),
        record(Tag.NAME, "document-name", "report.pdf"),
        record(Tag.BOOLEAN, "ipp-attribute-fidelity", False),
        record(Tag.KEYWORD, "compression", "none"),
        record(Tag.MEDIA_TYPE, "document-format", "application/pdf"),
        record(Tag.INTEGER, "job-impressions", 12),
        caller=caller,
        job=[
            record(Tag.INTEGER, "copies", 2),
            record(Tag.KEYWORD, "job-hold-until", "indefinite"),
            *(record(Tag.KEYWORD, f"x-attribute-{n}", "some-keyword") for n in range(18)),
        ],
        payload=b"hi",
    ).spelled(number)


def get_jobs(number: int, caller: bytes, limit: int) -> bytes:
    """A Get-Jobs with a limit."""
    return request(Operation.GET_JOBS, record(Tag.INTEGER, "limit", limit), caller=caller).spelled(number)


def asked(message: bytes) -> bytes:
    """The line of a request."""
    return b"ipp " + message.hex().encode()


def run(requests: Iterable[bytes]) -> tuple[int, int, float, float]:
    """Runs the program once over these requests: how many there were, how many it took, seconds and MiB."""
    with tempfile.TemporaryFile() as source, tempfile.TemporaryFile() as answers:
        count = 0
        for one in requests:
            source.write(asked(one) + b"\n")
            count += 1
        source.seek(0)
        begin = time.monotonic()
        process = subprocess.Popen([PROGRAM, "replay"], stdin=source, stdout=answers)
        _, status, usage = os.wait4(process.pid, 0)
        seconds = time.monotonic() - begin
        if os.waitstatus_to_exitcode(status) != 0:
            sys.exit("bench/replay.py: the program ended with another status than 0")
        answers.seek(0)
        taken = sum(1 for line in answers if is_taken(line))
    return count, taken, seconds, usage.ru_maxrss / 1024


def is_taken(answer: bytes) -> bool:
    """The answer says that a request, a report or an account file was taken."""
    return answer[8:12] in (b"0000", b"0001") or answer.startswith((b"ok ", b"grant new "))


def run_parts(*parts: Iterable[bytes]) -> tuple[list[float], float]:
    """Runs the program once over lines in parts, all of which it has to take: the seconds that each part took, and MiB.

    A part ends once its last answer is read. The program writes answers some thousand bytes at a time, so parts are long.
    """
    with tempfile.TemporaryFile() as source:
        ends: list[int] = []
        count = 0
        for part in parts:
            for line in part:
                source.write(line + b"\n")
                count += 1
            ends.append(count)
        source.seek(0)
        moments = [time.monotonic()]
        process = subprocess.Popen([PROGRAM, "replay"], stdin=source, stdout=subprocess.PIPE)
        assert process.stdout is not None
        for place, answer in enumerate(process.stdout, 1):
            if not is_taken(answer):
                sys.exit(f"bench/replay.py: line {place} was not taken: {answer.decode()}")
            if place == ends[len(moments) - 1]:
                moments.append(time.monotonic())
        _, _, usage = os.wait4(process.pid, 0)
        if len(moments) <= len(parts):
            sys.exit("bench/replay.py: answers are missing")
    return [after - before for before, after in zip(moments, moments[1:])], usage.ru_maxrss / 1024


def measure(title: str, requests: Iterable[bytes], bytes_of_documents: int) -> None:
    """Prints what one run over these requests took."""
    count, taken, seconds, memory = run(requests)
    print(
        f"{title}: {count} requests, {taken} taken, {seconds:.2f} s, {count / seconds:,.0f} requests/s, "
        f"{bytes_of_documents / seconds / 1e6:,.1f} MB/s of documents, peak memory {memory:,.0f} MiB"
    )


def measure_get_jobs(others: int) -> None:
    """Prints what 1,000 Get-Jobs take in a queue that has jobs of others too: a run with them, less one without them."""

    def jobs() -> Iterator[bytes]:
        for n in range(others):
            yield print_job(n + 1, b"caller%d" % (n % 200), b"hi")
        for n in range(50):
            yield print_job(n + 1, b"alice", b"hi")

    def jobs_and_looks() -> Iterator[bytes]:
        yield from jobs()
        for n in range(1000):
            yield get_jobs(n + 1, b"alice", 10)

    _, _, before, memory_before = run(jobs())
    _, _, after, memory_after = run(jobs_and_looks())
    print(
        f"Get-Jobs with limit 10 for a caller with 50 jobs beside {others:,} of others: "
        f"{(after - before) * 1000:,.0f} µs each, peak memory {memory_before:,.0f} MiB before, {memory_after:,.0f} MiB after"
    )


def jobs_that_end(count: int) -> Iterator[bytes]:
    """The lines by which jobs of 200 callers are printed and canceled."""
    for n in range(count):
        caller = b"caller%d" % (n % 200)
        yield asked(print_job(1, caller, b"hi"))
        yield asked(job_request(Operation.CANCEL_JOB, n + 1, caller=caller).spelled(1))


def requests_after(ended: int) -> Iterator[bytes]:
    """1,000 Print-Jobs of 10 callers after jobs that ended, then as many Get-Job-Attributes and Cancel-Jobs for them."""
    owners = [b"owner%d" % (n % 10) for n in range(1000)]
    for owner in owners:
        yield asked(print_job(1, owner, b"hi"))
    for operation in (Operation.GET_JOB_ATTRIBUTES, Operation.CANCEL_JOB):
        for n, owner in enumerate(owners):
            yield asked(job_request(operation, ended + n + 1, caller=owner).spelled(1))


def begun_job(number: int) -> Iterator[bytes]:
    """The lines by which the next job, of this number, is printed, released and begun."""
    yield b"grant f24,alice,1000000"
    yield asked(print_job(1, b"alice", b"hi"))
    yield asked(job_request(Operation.RELEASE_JOB, number, caller="alice").spelled(1))
    yield b"dev %d 1 start 0" % number


def reports_of(number: int) -> Iterator[bytes]:
    """10,000 reports of the count of a job that was begun."""
    for n in range(10_000):
        yield b"dev %d %d count %d" % (number, n + 2, n + 1)


def measure_after(ended: int) -> None:
    """Prints how many requests and reports a second are answered after jobs that ended."""
    number = ended + 1001
    seconds, memory = run_parts(jobs_that_end(ended), requests_after(ended), begun_job(number), reports_of(number))
    print(
        f"behind {ended:,} jobs that ended: {3000 / seconds[1]:,.0f} requests/s (Print-Job, Get-Job-Attributes, Cancel-Job), "
        f"{10_000 / seconds[3]:,.0f} reports/s, peak memory {memory:,.0f} MiB"
    )


def main() -> None:
    argparse.ArgumentParser(description=__doc__, formatter_class=argparse.RawDescriptionHelpFormatter).parse_args()
    if not PROGRAM.exists():
        sys.exit("bench/replay.py: build the program first: ./printd replay </dev/null")
    for count in (1000, 20000):
        measure(
            f"small jobs, the first {count} of 200 callers",
            (print_job(n + 1, b"caller%d" % (n % 200), b"hi") for n in range(count)),
            2 * count,
        )
    million = b"\x25PDF" + bytes(1_000_000 - 4)
    measure(
        "jobs of 1 MB, 100 each of 2 callers",
        (print_job(n + 1, b"caller%d" % (n % 2), million) for n in range(200)),
        200 * len(million),
    )
    measure(
        "Print-Jobs with 30 attributes, of 10 callers",
        (large_print_job(n + 1, b"caller%d" % (n % 10)) for n in range(1000)),
        2 * 1000,
    )
    for others in (0, 20000):
        measure_get_jobs(others)
    for ended in (1_000, 100_000):
        measure_after(ended)


if __name__ == "__main__":
    main()
