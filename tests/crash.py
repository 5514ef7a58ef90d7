#!/usr/bin/env python3
"""Stops a print server after each change of its store's files, and checks what the store then holds.

A store is made, gets an account file and an operator, and is served: clients print, release and cancel, the operator cancels, and a device reports. It
gets another account file and other operators, and its expired jobs end. Then the tables are made those of each earlier release, and a command
takes them to those of today. All of it runs under strace, which records each change of the files. From that come the files that a failure after each
change may leave:

- if the program was killed, everything that it had written;
- if the machine stopped, of what was written to a file since it was last synced each write, or nothing, or some of its blocks of 512 bytes
  and any bytes in place of others; and a file that was made or removed since then, or not (by chance, as often as --images says).

The program opens each of these stores as one does after a failure; one whose making was cut short is made again. Then SQLite itself reads the
tables. They have to hold the queue after just the requests that were answered by then, or after the one under way too. Every tenth store
also takes the first account file once more. A store that holds anything else is left in a folder for a look, and the status is 1.

A store with the tables of an earlier release is also opened under a limit on the bytes of a file, for each limit that is too low: the program answers
`printd: disk`, and without the limit it opens the store to the same queue.

Run it as `tests/crash.py` at the top of the repository, with strace installed and the program built (`./printd --help` does that).
"""
from __future__ import annotations

import argparse
import os
import random
import re
import resource
import shutil
import signal
import sqlite3
import subprocess
import sys
import tempfile
import time
from collections.abc import Iterator
from pathlib import Path
from typing import Optional

TOP = Path(__file__).resolve().parents[1]
sys.path[:0] = [f"{TOP}/tests/lib", f"{TOP}/tools/lib"]

from ipp import Operation, Tag, record  # noqa: E402
from messages import job_request, request  # noqa: E402
from posting import answer_of, exchange, post, report  # noqa: E402
from schemas import OLDER  # noqa: E402
from served import PROGRAM, Served  # noqa: E402

STORE = "queue.db"
FIRST_PAGES = "batch,account,pages\nf24,alice,100\nf24,bob,40\n"
MORE_PAGES = "batch,account,pages\ns25,alice,7\ns25,carol,9\n"
# The calls that strace records: all by which a file is changed, and answers.
CALLS = (
    "open,openat,creat,write,writev,pwrite64,pwritev,pwritev2,truncate,ftruncate,fallocate,fsync,fdatasync,sync_file_range,"
    "unlink,unlinkat,rename,renameat,renameat2,link,linkat,copy_file_range,sendfile,mmap,sendto,sendmsg"
)
CALL = re.compile(r"(\w+)\((.*)\) += (\d+)")
QUOTED = re.compile(r'"([^"]*)"')
OF_A_FILE = re.compile(r"\d<([^>]*)>")
# The bytes of a block of a disk. A block at which the disk was stopped may hold anything.
BLOCK = 512
# For how many seconds the store keeps a job that is held or open: all requests come within them.
SECONDS = 30

# A call in strace's record: its name, its arguments, its file and its answer.
Call = tuple[str, str, str, int]
# A place in a file and what was written there, or None if the file was cut there.
Change = tuple[int, Optional[bytes]]
# All that tables hold, by the table's name; None if they are damaged.
Tables = Optional[dict[str, list[tuple[object, ...]]]]
Files = dict[str, bytes]


def events() -> list[bytes]:
    """The requests of clients and of the device, one after another: each is a whole HTTP request."""
    chance = random.Random(1)
    last, more = record(Tag.BOOLEAN, "last-document", True), record(Tag.BOOLEAN, "last-document", False)
    return [
        post(request(Operation.PRINT_JOB, payload=b"hi")),
        post(request(Operation.PRINT_JOB, payload=chance.randbytes(70_000))),
        post(job_request(Operation.RELEASE_JOB, 1)),
        report("1 1 start 0"),
        post(request(Operation.CREATE_JOB, caller="bob")),
        report("1 2 count 3"),
        post(job_request(Operation.SEND_DOCUMENT, 3, more, caller="bob", payload=chance.randbytes(300_000))),
        post(job_request(Operation.SEND_DOCUMENT, 3, last, caller="bob", payload=b"end")),
        report("1 3 done 20"),
        post(job_request(Operation.RELEASE_JOB, 3, caller="bob")),
        post(job_request(Operation.HOLD_JOB, 3, caller="bob")),
        post(job_request(Operation.RELEASE_JOB, 2)),
        report("2 1 start 0"),
        post(job_request(Operation.CANCEL_JOB, 2)),
        report("2 2 halt 35"),
        post(job_request(Operation.CANCEL_JOB, 3, caller="bob")),
        # these two jobs wait until they expire
        post(request(Operation.PRINT_JOB, payload=b"hi")),
        post(request(Operation.CREATE_JOB, caller="bob")),
        post(job_request(Operation.RELEASE_JOB, 5, caller="bob")),
        # an operator cancels this one while it waits
        post(request(Operation.PRINT_JOB, caller="bob", payload=b"hi")),
        post(job_request(Operation.RELEASE_JOB, 6, caller="bob")),
        post(job_request(Operation.CANCEL_JOB, 6, caller="opal")),
        # the operator and its owner cancel these while they print: of the three one is halted, and two are to stop in the end
        *(
            event
            for number, caller in ((7, "opal"), (8, "opal"), (9, "alice"))
            for event in (
                post(request(Operation.PRINT_JOB, record(Tag.INTEGER, "job-impressions", 5), payload=b"hi")),
                post(job_request(Operation.RELEASE_JOB, number)),
                report(f"{number} 1 start 0"),
                post(job_request(Operation.CANCEL_JOB, number, caller=caller)),
            )
        ),
        report("7 2 halt 1"),
    ]


def is_done(came: bytes) -> bool:
    """Whether an answer says that the request is done."""
    answer = answer_of(came)
    is_message = answer.head.kind == "application/ipp"
    is_told = answer.content[2:4] in (b"\x00\x00", b"\x00\x01") if is_message else answer.content.startswith(b"ok ")
    return answer.head.status == 200 and is_told


def octets(shown: str) -> bytes:
    """The bytes that strace shows so."""
    return bytes.fromhex(shown.replace("\\x", ""))


class Program:
    """The program, and a store in a folder of its own."""

    def __init__(self, path: str, folder: str):
        self.path, self.folder = path, folder
        self.store = os.path.join(folder, STORE)

    def words(self, command: str, *words: str) -> list[str]:
        return [self.path, command, "--store", self.store, *words]

    def init_words(self) -> list[str]:
        return self.words("init", "--uri", "ipp://localhost/ipp/print", "--name", "release", "--keep", str(SECONDS))

    def told(self, words: list[str], room: int | None = None) -> tuple[int, str]:
        """The exit status of the program and what it prints. A file may have no more bytes than there is room for."""

        def leave_room() -> None:
            if room is not None:
                signal.signal(signal.SIGXFSZ, signal.SIG_IGN)
                resource.setrlimit(resource.RLIMIT_FSIZE, (room, room))

        done = subprocess.run(words, capture_output=True, text=True, check=False, restore_signals=False, preexec_fn=leave_room)
        return done.returncode, done.stdout + done.stderr

    def opens(self) -> bool:
        """Whether it opens the store."""
        return self.told(self.words("statement", "alice")) == (1, "printd: no account\n") or self.told(self.words("statement", "bob"))[0] == 0

    def change(self, statements: str) -> None:
        """Changes the tables by statements, as the shell of SQLite does, which leaves the one file of the store."""
        connection = sqlite3.connect(self.store)
        connection.executescript(statements)
        connection.close()

    def files(self) -> Files:
        """The contents of the folder's files, by name."""
        content = {}
        for name in os.listdir(self.folder):
            with open(os.path.join(self.folder, name), "rb") as file:
                content[name] = file.read()
        return content

    def put(self, files: Files) -> None:
        """Puts these files in place of those of the folder."""
        shutil.rmtree(self.folder, ignore_errors=True)
        os.mkdir(self.folder)
        for name, content in files.items():
            with open(os.path.join(self.folder, name), "wb") as file:
                file.write(content)

    def tables(self) -> Tables:
        """All that the tables hold as SQLite reads them, except the moment at which the store was made."""
        connection = sqlite3.connect(self.store)
        try:
            if connection.execute("PRAGMA integrity_check").fetchall() != [("ok",)]:
                return None
            names = [name for (name,) in connection.execute("SELECT name FROM sqlite_master WHERE type = 'table' AND name <> 'meta'")]
            held = {name: sorted(connection.execute(f"SELECT * FROM {name}"), key=repr) for name in names}
            held["meta"] = connection.execute("SELECT schema, uri, name, estimate, next_number FROM meta").fetchall()
            return held
        finally:
            connection.close()


class Trace:
    """The calls of the programs of a run, in turn, with a None where a request was answered."""

    def __init__(self, program: Program, file: str):
        self.program, self.file = program, file
        self.calls: list[Call | None] = []

    def under(self) -> list[str]:
        return ["strace", "-y", "-xx", "-s", "100000000", "-e", f"trace={CALLS}", "-o", self.file]

    def command(self, words: list[str]) -> bytes:
        """A command, with the text that it prints. It has answered as it ends."""
        done = subprocess.run([*self.under(), *words], check=True, stdout=subprocess.PIPE)
        self.take()
        self.calls.append(None)
        return done.stdout

    def serve(self, asked: list[bytes]) -> None:
        """A server. It has answered a request as it begins to write to its connection."""
        server = Served(self.program.store, len(asked), program=self.program.path, under=self.under()).must_listen()
        try:
            for number, one in enumerate(asked):
                answer = exchange(server.port, one)
                if not is_done(answer):
                    sys.exit(f"tests/crash.py: request {number} is answered by {answer!r}")
            server.end()
        except BaseException:
            # it would wait for the rest of its connections
            server.stop(signal.SIGTERM)
            raise
        self.take()

    def take(self) -> None:
        """Reads the record of strace."""
        is_answered = False
        with open(self.file, encoding="ascii") as lines:
            for line in lines:
                call = CALL.match(line)
                if call is None:
                    continue
                name, arguments, answer = call.groups()
                of = OF_A_FILE.search(arguments)
                to = octets(of.group(1)) if of else b""
                if to.startswith(b"socket:"):
                    if not is_answered:
                        self.calls.append(None)
                    is_answered = True
                elif name == "write" and not to.startswith(os.fsencode(self.program.folder)):
                    # The line that is printed for a connection.
                    is_answered = False
                else:
                    self.calls.append((name, arguments, os.fsdecode(to), int(answer)))


class File:
    """The bytes that a file holds for good, and the writes since it was last synced: places and bytes, or None if the file was cut there."""

    def __init__(self, content: bytes = b""):
        self.synced = content
        self.since: list[Change] = []

    def content(self, chance: random.Random | None = None) -> bytes:
        """The bytes of the file, or by chance those that it may hold after the machine stopped."""
        content = bytearray(self.synced)
        for place, written in self.since if chance is None else left(self.since, chance):
            content = content.ljust(place, b"\0")
            content[place:None if written is None else place + len(written)] = written or b""
        return bytes(content)

    def sync(self) -> None:
        self.synced, self.since = self.content(), []


def left(changes: list[Change], chance: random.Random) -> Iterator[Change]:
    """The changes that a machine may have done before it stopped: the first of them, or any, and parts of others."""
    first = chance.randint(0, len(changes)) if chance.random() < 0.5 else None
    for number, change in enumerate(changes):
        if first is not None and number > first:
            return
        if first is not None and number < first or first is None and chance.random() < 0.5:
            yield change
        elif chance.random() < 0.5:
            yield from blocks(change, chance)


def blocks(change: Change, chance: random.Random) -> Iterator[Change]:
    """Some blocks of what was written, and any bytes in place of others."""
    place, written = change
    if written is None:
        return
    begin = 0
    while begin < len(written):
        end = min(len(written), begin + BLOCK - (place + begin) % BLOCK)
        came = chance.choice(["nothing", "block", "anything"])
        if came != "nothing":
            yield place + begin, written[begin:end] if came == "block" else chance.randbytes(end - begin)
        begin = end


class Disk:
    """The files of a folder by their names, as they are now and as they are for good."""

    def __init__(self, folder: str, files: Files):
        self.folder, self.now = folder, {name: File(content) for name, content in files.items()}
        self.kept = dict(self.now)

    def change(self, call: str, arguments: str, of: str, answer: int) -> bool:
        """Takes a call of the record. It is true if a file or the folder was changed."""
        texts = [octets(text) for text in QUOTED.findall(arguments)]
        if call in ("open", "openat", "creat", "unlink", "unlinkat"):
            return self.change_name(call, arguments, os.path.normpath(os.fsdecode(texts[0])))
        if of == self.folder and call in ("fsync", "fdatasync"):
            self.kept = dict(self.now)
            return False
        file = self.now.get(os.path.basename(of)) if os.path.dirname(of) == self.folder else None
        if file is None or call == "mmap" and ("MAP_SHARED" not in arguments or "PROT_WRITE" not in arguments):
            return False
        if call in ("fsync", "fdatasync"):
            file.sync()
            return False
        if call == "pwrite64":
            file.since.append((int(arguments.rsplit(",", 1)[1]), texts[0][:answer]))
        elif call == "ftruncate":
            file.since.append((int(arguments.rsplit(",", 1)[1]), None))
        else:
            sys.exit(f"tests/crash.py: what {call} makes of a file isn't known here")
        return True

    def change_name(self, call: str, arguments: str, path: str) -> bool:
        name = os.path.basename(path)
        if os.path.dirname(path) != self.folder:
            return False
        if call.startswith("unlink"):
            del self.now[name]
            return True
        if name not in self.now:
            self.now[name] = File()
            return True
        if "O_TRUNC" in arguments:
            self.now[name].since.append((0, None))
            return True
        return False

    def killed(self) -> Files:
        """The files that a program leaves that was killed, by name."""
        return {name: file.content() for name, file in self.now.items()}

    def stopped(self, chance: random.Random) -> Files:
        """Files that a machine may leave that stopped, by name."""
        names = {name: chance.choice([self.now, self.kept]).get(name) for name in sorted({*self.now, *self.kept})}
        return {name: file.content(chance) for name, file in names.items() if file is not None}


class Look:
    """Looks at what failures leave in a folder."""

    def __init__(self, program: Program, pages: str, is_new: bool):
        self.program, self.pages, self.is_new = program, pages, is_new
        self.queues: list[Tables] = []
        self.seen: set[int] = set()
        self.count = 0

    def take_queue(self, files: Files) -> None:
        """A request was answered: what these files hold is the queue after it."""
        self.program.put(files)
        if not self.program.opens():
            sys.exit("tests/crash.py: a store can't be opened without any failure")
        self.queues.append(self.program.tables())

    def is_well(self, answered: int, files: Files) -> bool:
        """Whether these files hold the queue after the requests of the run that were answered, or after one more."""
        key = hash((answered, *sorted(files.items())))
        if key in self.seen:
            return True
        self.seen.add(key)
        self.count += 1
        self.program.put(files)
        if not self.program.opens() and (answered > 0 or self.program.told(self.program.init_words()) != (0, "")):
            return False
        held = self.program.tables()
        if held not in self.queues[max(answered - 1, 0):answered + 1]:
            return False
        return self.count % 10 != 0 or self.takes_pages(held)

    def takes_pages(self, held: Tables) -> bool:
        """Whether the first account file brings what it is to bring."""
        is_new = self.is_new and held == self.queues[0]
        told = self.program.told(self.program.words("import", self.pages))
        return told == (0, "new 2 repeats 0\n" if is_new else "new 0 repeats 2\n") and self.program.tables() == (self.queues[1] if is_new else held)


def set_operators(program: Program, trace: Trace, *names: str) -> None:
    """Sets the operators of the store."""
    told = trace.command(program.words("operators", *names))
    if told != b"operators %d\n" % len(names):
        sys.exit(f"tests/crash.py: the operators are answered by {told!r}")


def traced(program: Program, folder: str) -> list[Call | None]:
    """The calls of a run over a new store."""
    trace = Trace(program, os.path.join(folder, "trace"))
    for name, text in (("first.csv", FIRST_PAGES), ("more.csv", MORE_PAGES)):
        with open(os.path.join(folder, name), "w", encoding="ascii") as file:
            file.write(text)
    trace.command(program.init_words())
    trace.command(program.words("import", os.path.join(folder, "first.csv")))
    set_operators(program, trace, "opal")
    trace.serve(events())
    trace.command(program.words("import", os.path.join(folder, "more.csv")))
    set_operators(program, trace, "quartz", "pearl")
    time.sleep(SECONDS)
    expired = trace.command(program.words("expire"))
    if expired != b"expired 2\n":
        sys.exit(f"tests/crash.py: a sweep is answered by {expired!r}")
    return trace.calls


def traced_older(program: Program, folder: str) -> list[Call | None]:
    """The calls of a command that opens the store."""
    trace = Trace(program, os.path.join(folder, "trace"))
    trace.command(program.words("statement", "alice"))
    return trace.calls


def fill_disk(program: Program, files: Files) -> int:
    """Opens the store of these files with each limit on the bytes of a file, and returns how often that was not well."""
    program.put(files)
    wanted, queue = program.told(program.words("statement", "alice")), program.tables()
    rooms, bad = range(0, max(map(len, program.files().values())) + BLOCK, BLOCK), 0
    for room in rooms:
        program.put(files)
        told = program.told(program.words("statement", "alice"), room)
        if told in (wanted, (1, "printd: disk\n")) and program.opens() and program.tables() == queue:
            continue
        bad += 1
        print(f"not well: with room for {room} bytes: {told}", flush=True)
    print(f"{len(rooms)} sizes of a file that may not grow, {bad} not well")
    return bad


def stop_everywhere(calls: list[Call | None], disk: Disk, look: Look, images: int, chance: random.Random) -> int:
    """Looks at what a failure after each change may leave, and says how many stores were not well."""
    answered, changes, bad = 0, 0, 0
    for call in calls:
        if call is None:
            answered += 1
            continue
        if not disk.change(*call):
            continue
        changes += 1
        for files in [disk.killed(), *(disk.stopped(chance) for _ in range(images))]:
            if look.is_well(answered, files):
                continue
            bad += 1
            kept = tempfile.mkdtemp(prefix="printd-crash-")
            look.program.put(files)
            shutil.copytree(look.program.folder, kept, dirs_exist_ok=True)
            print(f"not well: after {answered} requests and {changes} changes: {kept}", flush=True)
    print(f"{changes} changes, {len(look.queues)} requests, {look.count} stores opened, {bad} not well")
    return bad


def look_at(program: Program, folder: str, calls: list[Call | None], files: Files, images: int, chance: random.Random) -> int:
    """Looks at the stores that failures leave of a run that began with these files, and returns how many were not well."""
    look = Look(Program(program.path, os.path.join(folder, "look")), os.path.join(folder, "first.csv"), not files)
    disk = Disk(program.folder, files)
    for call in calls:
        if call is None:
            look.take_queue(disk.killed())
        else:
            disk.change(*call)
    return stop_everywhere(calls, Disk(program.folder, files), look, images, chance)


def main() -> None:
    parser = argparse.ArgumentParser(description=__doc__, formatter_class=argparse.RawDescriptionHelpFormatter)
    parser.add_argument("--images", type=int, default=3, metavar="N", help="stores of a stopped machine after each change (default: %(default)s)")
    parser.add_argument("--seed", type=int, default=0, metavar="N", help="of what is chosen by chance (default: %(default)s)")
    parser.add_argument("--program", default=str(PROGRAM), metavar="PATH", help="the program (default: the built one)")
    words = parser.parse_args()
    if words.images < 0:
        parser.error("--images is at least 0")
    if shutil.which("strace") is None:
        sys.exit("tests/crash.py: the command strace is not on the PATH")
    if shutil.which(words.program) is None:
        sys.exit(f"tests/crash.py: build {words.program} first: ./printd --help")
    with tempfile.TemporaryDirectory() as folder:
        program, chance = Program(words.program, os.path.join(folder, "store")), random.Random(words.seed)
        os.mkdir(program.folder)
        calls = traced(program, folder)
        bad = look_at(program, folder, calls, {}, words.images, chance)
        for schema, statements in OLDER.items():
            program.change(statements)
            older = program.files()
            print(f"tables of schema {schema}", flush=True)
            calls = traced_older(program, folder)
            bad += look_at(program, folder, calls, older, words.images, chance)
            bad += fill_disk(program, older)
            # for the next schema
            program.put(older)
            program.opens()
        sys.exit(1 if bad else 0)


if __name__ == "__main__":
    main()
