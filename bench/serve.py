#!/usr/bin/env python3
"""Measures a print server over HTTP: requests a second, the speed of documents in and out, and its memory at its peak, also for a
request that is full of empty groups, and one that is full of attributes that it doesn't know.

It makes a store of its own, serves it by `printd serve`, and prints figures; it judges nothing. It sends one request at a time, over one kept
connection after another, with 32 requests on each. So a figure is what one client gets, and it includes the time of this script. Run it as
`bench/serve.py` at the top of the repository; the program has to be built (`./printd --help` does that).

With --port it measures a server that runs already, and --pid names the process whose memory is measured. Never take a server whose store is
in use, or one that a device asks: each job stays in its store for good, canceled, and so do the bytes of the large documents. The account
`bench-0` needs free pages there for these, for each as many as the printer's estimate.
"""
from __future__ import annotations

import argparse
import itertools
import os
import shutil
import signal
import socket
import subprocess
import sys
import tempfile
import time
from collections.abc import Callable, Iterable
from pathlib import Path

TOP = Path(__file__).resolve().parents[1]
sys.path[:0] = [f"{TOP}/tests/lib", f"{TOP}/tools/lib"]

from ipp import Operation, Tag, record  # noqa: E402
from messages import END, Draft, job_request, request  # noqa: E402
from posting import get, head_of, post  # noqa: E402
from served import PROGRAM, Served  # noqa: E402

# How many requests a connection may have, and how many jobs that have not ended a caller may have.
PER_CONNECTION = 32
LIVE_JOBS = 100
# The most bytes of a request, and of a document beside the attributes of its Print-Job.
MOST = 16_777_216
LARGE = MOST - 256
CRLF = b"\r\n"


class Client:
    """Requests of one client, over one kept connection after another."""

    def __init__(self, port: int):
        self.port, self.left, self.rest = port, 0, b""
        self.socket: socket.socket | None = None

    def close(self) -> None:
        if self.socket is not None:
            self.socket.close()
        self.socket, self.rest = None, b""

    def connected(self) -> socket.socket:
        """The connection, or a new one if the last is over."""
        if self.socket is None:
            self.socket = socket.create_connection(("127.0.0.1", self.port))
            self.socket.setsockopt(socket.IPPROTO_TCP, socket.TCP_NODELAY, 1)
            self.left = PER_CONNECTION
        return self.socket

    def exchange(self, asked: bytes) -> bytes:
        """One request and the content of its answer, which has to be a success."""
        connection = self.connected()
        connection.sendall(asked)
        answer = self.rest
        while b"\r\n\r\n" not in answer:
            answer += received(connection)
        lines, _, begun = answer.partition(b"\r\n\r\n")
        head = head_of(lines)
        if head.status != 200:
            sys.exit(f"bench/serve.py: {lines.partition(CRLF)[0].decode()}")
        pieces, come = [begun], len(begun)
        while come < head.length:
            pieces.append(received(connection))
            come += len(pieces[-1])
        content = b"".join(pieces)
        self.rest = content[head.length:]
        self.left -= 1
        if self.left == 0:
            self.close()
        return content[:head.length]

    def post(self, message: Draft, number: int) -> bytes:
        """An IPP request, which has to succeed, and the reply."""
        reply = self.exchange(post(message, number, version="1.1"))
        if reply[2:4] not in (b"\x00\x00", b"\x00\x01"):
            sys.exit(f"bench/serve.py: status 0x{reply[2:4].hex()}")
        return reply

    def get(self, path: str) -> bytes:
        return self.exchange(get(path, version="1.1"))


def received(connection: socket.socket) -> bytes:
    data = connection.recv(1 << 20)
    if not data:
        sys.exit("bench/serve.py: the server has closed a connection too early")
    return data


def job_number(reply: bytes) -> int:
    """The value of job-id in a reply."""
    at = reply.index(b"\x00\x06job-id\x00\x04") + 10
    return int.from_bytes(reply[at:at + 4], "big")


def forget_peak(pid: int) -> None:
    """Has the system take the most memory of a process from now on."""
    with open(f"/proc/{pid}/clear_refs", "w", encoding="ascii") as file:
        file.write("5")


def peak_memory(pid: int) -> float:
    """The most memory that a process has had, in MiB."""
    with open(f"/proc/{pid}/status", encoding="ascii") as file:
        return next(int(line.split()[1]) for line in file if line.startswith("VmHWM:")) / 1024


def measured(name: str, count: int, step: Callable[[int], object]) -> None:
    """Takes a number of steps and prints how many a second there were."""
    begin = time.perf_counter()
    for number in range(count):
        step(number)
    seconds = time.perf_counter() - begin
    print(f"{name:<28} {count:>7} requests {seconds:>8.2f} s {count / seconds:>10.0f} a second", flush=True)


def moved(name: str, size: int, times: int, step: Callable[[int], object]) -> None:
    """Moves bytes again and again and prints the speed."""
    begin = time.perf_counter()
    for number in range(times):
        step(number)
    seconds = time.perf_counter() - begin
    print(f"{name:<28} {times:>3} x {size} bytes {seconds:>8.2f} s {times * size / seconds / 1e6:>8.0f} MB a second", flush=True)


def measure(port: int, count: int, times: int) -> None:
    client = Client(port)
    callers = [f"bench-{place}" for place in range((count + LIVE_JOBS - 1) // LIVE_JOBS)]
    jobs: list[tuple[str, int]] = []

    def print_job(number: int) -> None:
        caller = callers[number // LIVE_JOBS]
        reply = client.post(request(Operation.PRINT_JOB, caller=caller, payload=b"hi"), number + 1)
        jobs.append((caller, job_number(reply)))

    measured("Print-Job", count, print_job)
    measured("Get-Job-Attributes", count, lambda n: client.post(job_request(Operation.GET_JOB_ATTRIBUTES, jobs[n][1], caller=jobs[n][0]), n + 1))
    measured("Get-Jobs, limit 10", count, lambda n: client.post(request(Operation.GET_JOBS, record(Tag.INTEGER, "limit", 10), caller=jobs[n][0]), n + 1))
    measured("Get-Jobs of opal, limit 10", count, lambda n: client.post(request(Operation.GET_JOBS, record(Tag.INTEGER, "limit", 10), caller="opal"), n + 1))
    measured("Cancel-Job", count, lambda n: client.post(job_request(Operation.CANCEL_JOB, jobs[n][1], caller=jobs[n][0]), n + 1))

    document = os.urandom(LARGE)
    large: list[int] = []

    def print_large(number: int) -> None:
        large.append(job_number(client.post(request(Operation.PRINT_JOB, caller="bench-0", payload=document), number + 1)))

    moved("document in", LARGE, times, print_large)
    for number, job in enumerate(large):
        client.post(job_request(Operation.RELEASE_JOB, job, caller="bench-0"), number + 1)
    fetched: list[bool] = []
    moved("document out", LARGE, times, lambda n: fetched.append(client.get(f"/device/document/{large[n]}/1") == document))
    if not all(fetched):
        sys.exit("bench/serve.py: a document came back changed")
    for number, job in enumerate(large):
        client.post(job_request(Operation.CANCEL_JOB, job, caller="bench-0"), number + 1)
    client.close()


def crowded(parts: Iterable[bytes]) -> Draft:
    """A Validate-Job of as many bytes as a request may have, full of these parts."""
    body = bytearray(request(Operation.VALIDATE_JOB).body[:-1])
    room = MOST - 8 - len(body) - 1
    for part in parts:
        if len(part) > room:
            break
        body += part
        room -= len(part)
    return Draft(Operation.VALIDATE_JOB, bytes(body) + END)


def measure_memory(port: int, pid: int) -> None:
    """The memory while requests are answered that take much of it."""
    print(f"memory at its peak {peak_memory(pid):.0f} MiB")
    names = (place.to_bytes(3, "big") for place in itertools.count(1))
    crowds: list[tuple[str, Iterable[bytes]]] = [
        ("empty groups", itertools.repeat(b"\x06" * 4096)),
        ("unknown attributes", (record(Tag.KEYWORD, name, b"") for name in names)),
    ]
    for name, parts in crowds:
        message = crowded(parts)
        # a connection of its own, since making the message takes longer than a server waits
        client = Client(port)
        forget_peak(pid)
        begin = time.perf_counter()
        client.post(message, 1)
        seconds = time.perf_counter() - begin
        client.close()
        print(f"for a request full of {name:<20} {peak_memory(pid):>6.0f} MiB {seconds:>8.2f} s", flush=True)


def serve(program: str, folder: str, callers: int) -> Served:
    """A server over a store in this folder, with pages for these callers."""
    store, file = os.path.join(folder, "queue.db"), os.path.join(folder, "pages.csv")
    with open(file, "w", encoding="utf-8") as out:
        out.write("batch,account,pages\n" + "".join(f"bench,bench-{place},1000000\n" for place in range(callers)))
    subprocess.run([program, "init", "--store", store, "--uri", "ipp://localhost/ipp/print", "--name", "bench"], check=True)
    subprocess.run([program, "import", "--store", store, file], check=True, stdout=subprocess.DEVNULL)
    subprocess.run([program, "operators", "--store", store, "opal"], check=True, stdout=subprocess.DEVNULL)
    return Served(store, program=program).must_listen().drain()


def main() -> None:
    parser = argparse.ArgumentParser(description=__doc__, formatter_class=argparse.RawDescriptionHelpFormatter)
    parser.add_argument("--requests", type=int, default=6400, metavar="N", help="how many of each kind (default: %(default)s)")
    parser.add_argument("--documents", type=int, default=10, metavar="N", help="how many large documents, at most 100 (default: %(default)s)")
    parser.add_argument("--program", default=str(PROGRAM), metavar="PATH", help="the server's program (default: the built one)")
    parser.add_argument("--folder", metavar="FOLDER", help="where the store is made for the time of the run (default: the system's)")
    parser.add_argument("--port", type=int, help="measure a server that already runs")
    parser.add_argument("--pid", type=int, help="the process of that server, for its memory")
    words = parser.parse_args()
    if words.requests < 1 or not 1 <= words.documents <= LIVE_JOBS:
        parser.error("--requests is at least 1, --documents 1 to 100")
    if words.pid is not None and words.port is None:
        parser.error("--pid wants --port: the server that is made here is looked at in any case")
    if words.port is not None:
        measure(words.port, words.requests, words.documents)
        if words.pid is not None:
            measure_memory(words.port, words.pid)
        return
    if shutil.which(words.program) is None:
        sys.exit(f"bench/serve.py: build {words.program} first: ./printd --help")
    with tempfile.TemporaryDirectory(dir=words.folder) as folder:
        server = serve(words.program, folder, 1 + words.requests // LIVE_JOBS)
        try:
            measure(server.port, words.requests, words.documents)
            measure_memory(server.port, server.process.pid)
        finally:
            server.stop(signal.SIGTERM)


if __name__ == "__main__":
    main()
