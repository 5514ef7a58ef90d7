#!/usr/bin/env python3
"""Compares `printd serve` with a second server, written from the documents alone (tests/second), over real connections.

It makes a store, imports account files, and serves random connections. They have good and crooked requests by HTTP one after another, with chunks, odd
spellings of heads, random messages and lines of the device in them, cut and flipped bytes; each is sent in pieces of random lengths. The second server
answers the same bytes, and the answers are compared byte for byte. So are the counts that the program prints of its connections, what it prints of
account files, of sweeps and of operators, and at the end the statement of each account and the moments of all jobs. Between the rounds of a run the
server ends, and is started again on its store, often with other operators. Some stores keep a held job only for a few seconds, so it expires before
the next connection is served.

Run it as `tests/connections.py [RUNS [FIRST]]` at the top of the repository; the program has to be built (`./printd --help` does that). It ends with
status 1 at the first thing that differs, and shows it.
"""
from __future__ import annotations

import argparse
import collections
import copy
import os
import random
import socket
import sqlite3
import subprocess
import sys
import tempfile
import threading
import time
from collections.abc import Callable
from pathlib import Path

TOP = Path(__file__).resolve().parents[1]
sys.path[:0] = [f"{TOP}/tests/lib", f"{TOP}/tools/lib"]

from messages import PRINTER  # noqa: E402
from second.calls import ACCOUNTS, Calls, Draws  # noqa: E402
from second.http import Answered, Shelf, talk  # noqa: E402
from second.queue import BY_OPERATOR, Queue  # noqa: E402
from second.streams import Streams  # noqa: E402
from served import PROGRAM, Served  # noqa: E402

ROUNDS = 3
CONNECTIONS = 150
HEADER = b"batch,account,pages\n"
# for how many seconds a store keeps a job that is held or open
SECONDS = [0, 1, 3]
# the operators that a store may get; a new one has none
OPERATORS = [["opal"], ["opal"], ["zoe", "opal", "alice"], ["Jürg"]]


def command(*words: str | bytes) -> bytes:
    """What the program prints, on standard output or in its refusal."""
    outcome = subprocess.run([PROGRAM, *words], stdout=subprocess.PIPE, stderr=subprocess.PIPE, check=False)
    return outcome.stdout or outcome.stderr


def statement(queue: Queue, account: bytes) -> bytes:
    """The statement of an account ("Sheets and statements" in docs/guide/accounts.md)."""
    if account not in queue.free:
        return b"printd: no account\n"
    jobs = [job for job in queue.jobs.values() if job.owner == account and job.pages()]
    rows = [(job.number, job.state, job.pages() - job.completed, job.completed) for job in jobs]
    granted = sum(pages for (_, owner), pages in queue.granted.items() if owner == account)
    reserved, printed = (sum(row[place] for row in rows) for place in (2, 3))
    text = "".join(
        f"{label:<10}{number:>14}\n"
        for label, number in [("granted", granted), ("free", queue.free[account]), ("reserved", reserved), ("printed", printed)]
    )
    text += f"{'job':>10} {'state':>5} {'reserved':>9} {'printed':>9}\n"
    for row in rows:
        text += "{:>10} {:>5} {:>9} {:>9}\n".format(*row)
    text += f"{'total':>10} {'':>5} {reserved:>9} {printed:>9}\n"
    return b"account %s\n" % account + text.encode()


def converse(port: int, stream: bytes, choices: random.Random) -> bytes:
    """Sends a stream in pieces to a server: what came back."""
    with socket.create_connection(("127.0.0.1", port)) as client:
        client.setsockopt(socket.IPPROTO_TCP, socket.TCP_NODELAY, 1)
        sender = threading.Thread(target=send, args=(client, pieces(stream, choices)))
        sender.start()
        answer = b""
        while data := client.recv(1 << 20):
            answer += data
        sender.join()
    return answer


def lines_at_end(server: Served) -> bytes:
    """The lines that a server has printed of its connections, once it has ended."""
    status, lines, _ = server.end(60)
    if status != 0:
        sys.exit(f"tests/connections.py: the server ended with status {status}")
    return lines


def pieces(stream: bytes, choices: random.Random) -> list[tuple[float, bytes]]:
    """The stream in pieces, each with the time to wait before it."""
    most = choices.choice([7, 100, 4_096, 1 << 20, 1 << 20])
    most = max(most, len(stream) // 200)
    cut: list[tuple[float, bytes]] = []
    while stream:
        size = choices.randint(1, most)
        cut.append((choices.choice([0, 0, 0, 0.001]), stream[:size]))
        stream = stream[size:]
    return cut


def send(client: socket.socket, cut: list[tuple[float, bytes]]) -> None:
    try:
        for wait, piece in cut:
            time.sleep(wait)
            client.sendall(piece)
        client.shutdown(socket.SHUT_WR)
    except OSError:
        # the server has ended the connection, and its client goes on
        pass


class Run:
    """One store of the program, and the queue of the second server. If an answer doesn't show in which of two seconds its connection was
    taken, there are two such queues until a later answer shows which it was."""

    def __init__(self, seed: int, folder: str, kinds: collections.Counter[str]):
        self.seed, self.kinds = seed, kinds
        self.choices = random.Random(seed)
        self.seconds = SECONDS[seed % len(SECONDS)]
        self.queues = [Shelf(self.seconds, frozenset())]
        self.store = os.path.join(folder, f"{seed}.db")
        self.epoch = 0
        while not self.epoch:
            self.make()

    def make(self) -> None:
        """Makes the store within one second, which is its epoch."""
        before = int(time.time())
        printed = command("init", "--store", self.store, "--uri", PRINTER, "--name", "release", "--keep", str(self.seconds))
        if printed:
            sys.exit(f"tests/connections.py: init printed {printed!r}")
        if int(time.time()) == before:
            self.epoch = before
        else:
            os.remove(self.store)

    def check(self, what: str, came: object, wanted: object) -> None:
        if came != wanted:
            sys.exit(f"run {self.seed}: {what}\ncame:\n  {came}\nwanted:\n  {wanted}")

    def grant(self) -> None:
        """Imports an account file of random rows."""
        rows = Calls(Draws(self.choices.getrandbits(64)), self.queues[0]).office()[len(b"grant ") :]
        file = os.path.join(os.path.dirname(self.store), "rows.csv")
        with open(file, "wb") as out:
            out.write(HEADER + rows)
        printed, (wanted, *_) = command("import", "--store", self.store, file), [queue.grant(rows) for queue in self.queues]
        # of a refusal the second queue knows the code alone
        code = b"printd: import fault " + wanted[len(b"refused ") :]
        if wanted.startswith(b"refused "):
            self.check(f"import of {rows!r}", printed[: len(code)], code)
        else:
            self.check(f"import of {rows!r}", printed, wanted + b"\n")

    def set_operators(self) -> None:
        """Sets other operators."""
        names = self.choices.choice(OPERATORS)
        self.check(f"the operators {names}", command("operators", "--store", self.store, *names), b"operators %d\n" % len(names))
        for queue in self.queues:
            queue.operators = frozenset(map(str.encode, names))

    def come(self, what: str, begin: int, came: bytes, act: Callable[[Shelf, int], Answered]) -> int:
        """Keeps the queues that answer this at a second since then, as they are after it. It returns the number of requests that acted."""
        before = self.queues
        queues: list[Shelf] = []
        for second in range(begin, int(time.time()) + 1):
            for queue in copy.deepcopy(before):
                wanted = act(queue, second - self.epoch + 1)
                if wanted.bytes == came and all(vars(queue) != vars(other) for other in queues):
                    queues.append(queue)
                    acted = wanted.acted
        if not queues:
            self.check(what, came, wanted.bytes)
        self.queues = queues
        return acted

    def connect(self, server: Served) -> int:
        """A random connection, whose answer has to be that of a moment at which it was open; and how many of its requests acted."""
        begin = int(time.time())
        stream = Streams(self.choices, self.queues[0]).stream(begin - self.epoch + 1)
        came = converse(server.port, stream, self.choices)
        acted = self.come(f"the answer to\n  {stream!r}", begin, came, lambda queue, now: talk(queue, stream, now))
        for line in came.split(b"\r\n"):
            if line.startswith(b"HTTP/1.1 "):
                self.kinds[line[9:12].decode()] += 1
        return acted

    def expire(self) -> None:
        """A sweep, which prints the number of jobs that it ends."""
        begin = int(time.time())
        came = command("expire", "--store", self.store)
        self.come("a sweep", begin, came, lambda queue, now: Answered(b"expired %d\n" % queue.expire(now)))

    def settle(self) -> None:
        """Keeps the queues whose jobs have the moments of the store."""
        connection = sqlite3.connect(self.store)
        came = connection.execute("SELECT number, created, begun, ended FROM jobs ORDER BY number").fetchall()
        connection.close()
        wanted = [[(job.number, job.created, job.begun, job.ended) for job in queue.jobs.values()] for queue in self.queues]
        if came not in wanted:
            self.check("the moments of the jobs", came, wanted[0])
        self.queues = [queue for queue, moments in zip(self.queues, wanted) if moments == came]

    def round(self) -> None:
        for _ in range(self.choices.randrange(3)):
            self.grant()
        if self.choices.random() < 0.7:
            self.set_operators()
        # after a fault it would wait for the rest of its connections
        with Served(self.store, CONNECTIONS).must_listen() as server:
            acted = [self.connect(server) for _ in range(CONNECTIONS)]
            counts = lines_at_end(server)
        self.check("the counts of connections", counts, b"".join(b"served %d\n" % count for count in acted))
        self.settle()
        if self.choices.random() < 0.5:
            self.expire()
            self.settle()
        for account in map(str.encode, [*ACCOUNTS, "nobody"]):
            self.check(f"the statement of {account!r}", command("statement", "--store", self.store, account), statement(self.queues[0], account))


def main() -> None:
    words = argparse.ArgumentParser(description=__doc__, formatter_class=argparse.RawDescriptionHelpFormatter)
    words.add_argument("runs", metavar="RUNS", type=int, nargs="?", default=10, help=f"how many runs of {ROUNDS} times {CONNECTIONS} connections (10)")
    words.add_argument("first", metavar="FIRST", type=int, nargs="?", default=0, help="the number of the first run, which its connections are drawn by (0)")
    asked = words.parse_args()
    if asked.runs < 1:
        words.error("RUNS is at least 1")
    if not PROGRAM.exists():
        sys.exit("tests/connections.py: build the program first: ./printd --help")
    kinds: collections.Counter[str] = collections.Counter()
    with tempfile.TemporaryDirectory() as folder:
        for seed in range(asked.first, asked.first + asked.runs):
            run = Run(seed, folder, kinds)
            for _ in range(ROUNDS):
                run.round()
            jobs = run.queues[0].jobs.values()
            # those that never began
            kinds["expired jobs"] += sum(job.state == 8 and job.begun is None for job in jobs)
            kinds["jobs canceled by an operator"] += sum(BY_OPERATOR in job.reasons for job in jobs)
    print(f"{asked.runs} runs of {ROUNDS * CONNECTIONS} connections: all answers are the same")
    for kind, count in sorted(kinds.items()):
        print(f"{count:8}  {kind}")


if __name__ == "__main__":
    main()
