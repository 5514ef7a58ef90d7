#!/usr/bin/env python3
"""Refuses a print server each of its allocations in turn, and checks that want of memory is reported as such and changes nothing.

tests/refuse.c is loaded before the C library. It counts the program's allocations and refuses one of them: the k-th from where an
event begins, for k = 1, 2, 3 .. until the event comes to its end with none refused. After each refusal the answer has to be the
fault's own, and the same event is handed in once more. In the end its answer has to be the one that is wanted, and so has that of each
later event. What is wanted comes from tests/worked and tests/second, never from the program.

- replay: the lines of worked examples, over tables in memory. An IPP request is answered by the bare 0x0505, a line of the device by
  `refused 6 fault`, a row of an account file by `grant refused 6`, a sweep by `expire refused`, or the program ends with `printd: memory`;
  then it is started again, and takes the lines up to there once more.
- lists: the same examples over the queue in lists, by the program of crates/replay_cases, which takes an example whole.
- serve: requests over HTTP on a store in a file: 0x0505, `refused 6 fault`, status 503, or a document that is broken off after its head;
  and a server that is just being started.
- commands: `init`, `import`, `statement`, `operators` and `expire` on a store in a file, the last three also on stores of earlier releases:
  `printd: memory`, or `printd: import fault 6 at row 0`.

If a line, a request or a command is refused before the queue is asked, a fault is no answer. Whatever is not as it should be is
printed, and the status is 1. Run it as `tests/memory.py [PART ..]` at the top of the repository, with a C compiler (`cc`) on the PATH and
the programs built: `./printd --help`, and for `lists` also `rt run` in crates/replay_cases.
"""
from __future__ import annotations

import argparse
import collections
import functools
import mmap
import os
import shutil
import sqlite3
import struct
import subprocess
import sys
import tempfile
import time
from collections.abc import Callable, Iterator
from pathlib import Path
from typing import Optional, Union

TOP = Path(__file__).resolve().parents[1]
sys.path[:0] = [f"{TOP}/tests/lib", f"{TOP}/tools/lib"]

from ipp import Operation, Tag, attribute, record  # noqa: E402
from messages import Draft, job_request, reply, request  # noqa: E402
import posting  # noqa: E402
from schemas import OLDER  # noqa: E402
from second.queue import Queue  # noqa: E402
from second.replay import Replay  # noqa: E402
from served import PROGRAM, Served  # noqa: E402
from worked import case, device, documents, expiry, jobs, lines, messages, operators, states  # noqa: E402, F401

# worked examples with each operation, each kind of report and account files, and what they bring about
EXAMPLES = [
    "smallest Print-Job",
    "documents that are refused by their form",
    "open job is released, and then its last document comes",
    "all of the caller's jobs or none",
    "count that comes when the job is done",
    "canceled while it prints, stopped and resumed",
    "jobs by their states",
    "each operation on a job that is pending",
    "each operation on a job that is incoming and held",
    "each operation on a job that is stopped",
    "several rows between carriage returns",
    "device's line, refusals in their order",
    "jobs of several owners expire together",
    "a job that an operator lists and cancels",
    "a job that prints and that an operator cancels",
]
ENDED = (1, "", "printd: memory\n")
# A line and its answer, if anything answers it.
Given = tuple[bytes, Optional[bytes]]
# The status of a program, and what it printed on standard output and on standard error.
Outcome = tuple[int, str, str]
# the seconds of a store are counted from 1970; alice, who has 100 pages, made a job in the first of them, and bob another; a third, of alice's, is to stop
HELD = """
    UPDATE meta SET epoch = 0, next_number = 4;
    UPDATE policy SET keep = 1;
    UPDATE accounts SET free = 60, reserved = 40 WHERE name = 'alice';
    INSERT INTO jobs VALUES (1, 'alice', 'untitled', 1, 20, 0, 1, 0, 0, 0, 0, 1, NULL, NULL), (2, 'bob', 'untitled', 1, 20, 1, 0, 0, 0, 0, 0, 1, NULL, NULL),
        (3, 'alice', 'untitled', 1, 20, 0, 0, 1, 1, 1, 0, 1, 1, NULL);
"""


class Bad(Exception):
    """Something that is not as it should be."""


class Page:
    """The two numbers that tests/refuse.c reads and writes: how many allocations there were, and which is refused."""

    def __init__(self, folder: str):
        self.path = os.path.join(folder, "page")
        with open(self.path, "wb") as file:
            file.write(bytes(16))
        with open(self.path, "r+b") as file:
            self.numbers = mmap.mmap(file.fileno(), 16)
        library = os.path.join(folder, "refuse.so")
        source = os.path.join(TOP, "tests", "refuse.c")
        subprocess.run([os.environ.get("CC", "cc"), "-shared", "-fPIC", "-O1", "-o", library, source], check=True)
        self.environment = {**os.environ, "LD_PRELOAD": library, "REFUSE_PAGE": self.path}

    def asked(self) -> int:
        return int(struct.unpack_from("QQ", self.numbers)[0])

    def refuse(self, place: int) -> None:
        """Refuses the allocation at this place from here on, and none for 0."""
        asked = self.asked()
        struct.pack_into("Q", self.numbers, 8, asked + place if place else 0)

    def restart(self, place: int = 0) -> None:
        """A program is about to start, whose allocation at this place is refused."""
        struct.pack_into("QQ", self.numbers, 0, 0, place)

    def was_refused(self) -> bool:
        asked, refused = struct.unpack_from("QQ", self.numbers)
        return 0 < int(refused) <= int(asked)


class Tally:
    """Counts what the refusals led to."""

    def __init__(self, part: str):
        self.part, self.begin = part, time.perf_counter()
        self.counts: collections.Counter[str] = collections.Counter()

    def add(self, what: str) -> None:
        self.counts[what] += 1

    def tell(self, of: str) -> None:
        seconds = time.perf_counter() - self.begin
        told = ", ".join(f"{count} {what}" for what, count in sorted(self.counts.items()))
        print(f"{self.part}: {of}; {sum(self.counts.values())} allocations refused: {told}; {seconds:.0f} s", flush=True)


def examples(are_all: bool) -> Iterator[tuple[str, list[Given]]]:
    """The examples by their names: the lines that come in, and what is to answer each, if anything."""
    chosen = {name: text for name, text, _, status in case.CASES if status == 0 and (are_all or name in EXAMPLES)}
    assert are_all or len(chosen) == len(EXAMPLES), set(EXAMPLES) - set(chosen)
    for name, text in chosen.items():
        replay = Replay()
        given = text.removesuffix(b"\n").split(b"\n") if text else []
        yield name, [(line, replay.answer(line)) for line in given]


def fault_of(line: bytes, wanted: bytes | None) -> bytes | None:
    """How want of memory is answered on a line, and nothing where the line never reaches the queue."""
    if line.startswith(b"grant "):
        return b"grant refused 6"
    if line == b"expire":
        return b"expire refused"
    if line.startswith(b"dev "):
        return None if wanted in (b"refused 1 syntax", b"refused 4 range") else b"refused 6 fault"
    if wanted is None or wanted == b"ipp short" or wanted[8:12] in (b"0501", b"0503"):
        return None
    message = bytes.fromhex(line[len(b"ipp ") :].decode())
    request_id = int.from_bytes(message[4:8], "big")
    return b"ipp " + reply(0x0505, version=message[:2]).spelled(request_id).hex().encode()


def wait(process: subprocess.Popen[bytes]) -> None:
    """Waits until a program waits for what is to come in."""
    while True:
        with open(f"/proc/{process.pid}/stat", encoding="ascii") as file:
            state = file.read().rpartition(")")[2].split()[0]
        if state == "S":
            return
        if state == "Z":
            raise Bad("the program has ended")
        time.sleep(0.0002)


# ---- a replay over tables


class Lines:
    """A replay that takes a line at a time."""

    def __init__(self, program: str, page: Page):
        self.page = page
        page.restart()
        self.process = subprocess.Popen(
            [program, "replay"], env=page.environment, stdin=subprocess.PIPE, stdout=subprocess.PIPE, stderr=subprocess.PIPE
        )

    def send(self, line: bytes) -> None:
        assert self.process.stdin is not None
        try:
            self.process.stdin.write(line + b"\n")
            self.process.stdin.flush()
        except BrokenPipeError:
            # it has ended, as its status shows
            pass

    def answer(self, line: bytes) -> bytes | None:
        """The answer to a line, and none if the program has ended."""
        self.send(line)
        assert self.process.stdout is not None
        return self.process.stdout.readline().removesuffix(b"\n") or None

    def take(self, given: list[Given]) -> Lines:
        """Takes lines with no allocation refused."""
        self.page.refuse(0)
        for line, wanted in given:
            if wanted is None:
                self.send(line)
            elif self.answer(line) != wanted:
                raise Bad(f"without a refusal, to {line.decode()}")
        return self

    def end(self) -> Outcome:
        """The status of the program and what it said since its last answer."""
        out, said = self.process.communicate()
        return self.process.returncode, out.decode(), said.decode()


def refuse_in_line(program: str, page: Page, given: list[Given], place: int, replay: Lines, tally: Tally) -> Lines:
    """Refuses each allocation of one line: the replay that has taken it."""
    line, wanted = given[place]
    assert wanted is not None
    at = 0
    while True:
        at += 1
        wait(replay.process)
        page.refuse(at)
        came = replay.answer(line)
        if came == wanted and not page.was_refused():
            return replay
        if came == wanted:
            # the program did without, and the line is taken: it is handed in anew to refuse the next
            tally.add("done without")
            replay.end()
        elif came is not None and came == fault_of(line, wanted) and page.was_refused():
            tally.add("told as a fault")
            continue
        elif came is None and page.was_refused() and replay.end() == ENDED:
            tally.add("ended with `printd: memory`")
        else:
            raise Bad(f"allocation {at} of {line.decode()}\nis answered by {came!r}\nwanted: {wanted.decode()}")
        replay = Lines(program, page).take(given[:place])


def refuse_at_start(program: str, page: Page, tally: Tally) -> None:
    """Refuses each allocation of a replay that has no lines."""
    at = 0
    while True:
        at += 1
        page.restart(at)
        done = subprocess.run([program, "replay"], input="", capture_output=True, text=True, env=page.environment, check=False)
        came = done.returncode, done.stdout, done.stderr
        if came != (0, "", "") and (came != ENDED or not page.was_refused()):
            raise Bad(f"allocation {at} of a replay without lines: {came}")
        if not page.was_refused():
            return
        tally.add("done without as it starts" if came != ENDED else "ended with `printd: memory` as it starts")


def sweep_replay(program: str, page: Page, are_all: bool) -> None:
    tally, count = Tally("replay"), 0
    try:
        refuse_at_start(program, page, tally)
    except Bad as bad:
        sys.exit(f"tests/memory.py: {bad}")
    for name, given in examples(are_all):
        try:
            replay = Lines(program, page)
            for place, (line, wanted) in enumerate(given):
                if wanted is None:
                    page.refuse(0)
                    replay.send(line)
                    continue
                replay = refuse_in_line(program, page, given, place, replay, tally)
                count += 1
            page.refuse(0)
            if replay.end() != (0, "", ""):
                raise Bad("the end of the lines")
        except Bad as bad:
            sys.exit(f"tests/memory.py: {name}: {bad}")
    tally.tell(f"the start and {count} lines")


# ---- a replay over lists


class Cases:
    """The program of the worked examples. It runs an example over lists and then over tables, and prints of each the first line that differs
    from what is wanted.
    """

    def __init__(self, program: str, page: Page, folder: str):
        self.program, self.page = program, page
        self.path = os.path.join(folder, "cases")

    def start(self, given: list[Given], at: int, room: int) -> subprocess.Popen[bytes]:
        """Runs lines with an allocation refused. The last line that is wanted is a wrong status, so that all lines before it were right
        if the program prints that one.
        """
        text = b"".join(line + b"\n" for line, _ in given)
        wanted = b"".join(answer + b"\n" for _, answer in given if answer is not None)
        content = b"# a case\n%s=\n%sstatus 9\n" % (text, wanted)
        with open(self.path, "wb") as file:
            # as many bytes each time, so that they are read by the same allocations
            file.write((room - len(content)) * b"." + content)
        self.page.restart(at)
        with open(self.path, "rb") as file:
            return subprocess.Popen(
                [self.program], stdin=file, env=self.page.environment, stdout=subprocess.DEVNULL, stderr=subprocess.PIPE
            )

    def difference(self, process: subprocess.Popen[bytes], book: bytes) -> tuple[bytes, bytes] | None:
        """The first line that differs over a book, as it was wanted and as it came, and none where the program ended before for want of
        memory.
        """
        assert process.stderr is not None
        head = process.stderr.readline()
        if head == b"Error: Memory\n":
            return None
        if head != b"differs over %s: a case\n" % book:
            raise Bad(f"the program says {head!r}")
        wanted, came = process.stderr.readline(), process.stderr.readline()
        return wanted[len("wanted: ") : -1], came[len("came:   ") : -1]

    def over_lists(self, given: list[Given], at: int, room: int) -> tuple[bytes, bytes] | None:
        process = self.start(given, at, room)
        try:
            return self.difference(process, b"lists")
        finally:
            process.kill()
            process.communicate()

    def reaches_tables(self, given: list[Given], at: int, room: int) -> bool:
        """Whether the allocation is one of the run over tables, which comes after the one over lists."""
        process = self.start(given, at, room)
        differences = [self.difference(process, book) for book in (b"lists", b"tables")]
        process.communicate()
        return differences != [LAST_LINE, LAST_LINE]


LAST_LINE = b"status 9", b"status 0"


def refuse_in_lists(cases: Cases, given: list[Given], tally: Tally) -> None:
    """Refuses each allocation of a run of lines over lists."""
    room = 3 * sum(len(line) + len(wanted or b"") + 2 for line, wanted in given) + 1000
    at = 0
    while True:
        at += 1
        told = cases.over_lists(given, at, room)
        if told is None:
            tally.add("ended with `Error: Memory`")
        elif told != LAST_LINE:
            look_behind(cases, given, at, room, *told)
            tally.add("told as a fault")
        elif cases.reaches_tables(given, at, room):
            return
        else:
            tally.add("done without")


def look_behind(cases: Cases, given: list[Given], at: int, room: int, wanted: bytes, came: bytes) -> None:
    """A line was answered by a fault: sees that all is as wanted where it comes once more."""
    for place, (line, answer) in enumerate(given):
        # where several lines have the same answer, one of them was refused
        if answer != wanted or came != fault_of(line, answer):
            continue
        again = [*given[:place], (line, came), *given[place:]]
        if cases.over_lists(again, at, room) == LAST_LINE:
            return
    raise Bad(f"allocation {at}: wanted {wanted.decode()}\ncame {came.decode()}")


def sweep_lists(program: str, page: Page, folder: str, are_all: bool) -> None:
    tally, count = Tally("lists"), 0
    cases = Cases(program, page, folder)
    for name, given in examples(are_all):
        try:
            refuse_in_lists(cases, given, tally)
        except Bad as bad:
            sys.exit(f"tests/memory.py: {name}: over lists: {bad}")
        count += len(given)
    tally.tell(f"{count} lines")


# ---- commands on a store


class Store:
    """The program, and a store in a folder of its own."""

    def __init__(self, program: str, page: Page, folder: str):
        self.program, self.page, self.folder = program, page, folder
        self.path = os.path.join(folder, "queue.db")
        self.saved: dict[str, bytes] = {}
        self.pages = os.path.join(folder, "pages.csv")
        with open(self.pages, "w", encoding="ascii") as file:
            file.write("batch,account,pages\nf24,alice,100\nf24,bob,40\n")

    def words(self, command: str, *words: str) -> list[str]:
        return [self.program, command, "--store", self.path, *words]

    def init_words(self) -> list[str]:
        return self.words("init", "--uri", "ipp://localhost/ipp/print", "--name", "release")

    def files(self) -> list[str]:
        """The store's files, by their names in the folder."""
        return [name for name in os.listdir(self.folder) if name.startswith("queue.db")]

    def clear(self) -> None:
        for name in self.files():
            os.unlink(os.path.join(self.folder, name))

    def save(self) -> None:
        """Keeps what the files hold now."""
        self.saved = {}
        for name in self.files():
            with open(os.path.join(self.folder, name), "rb") as file:
                self.saved[name] = file.read()

    def put_back(self) -> None:
        self.clear()
        for name, content in self.saved.items():
            with open(os.path.join(self.folder, name), "wb") as file:
                file.write(content)

    def run(self, words: list[str], at: int = 0) -> Outcome:
        """The status of the program and what it prints, with an allocation refused."""
        self.page.restart(at)
        done = subprocess.run(words, capture_output=True, text=True, env=self.page.environment, check=False)
        return done.returncode, done.stdout, done.stderr

    def change(self, statements: str) -> None:
        """Changes the tables by statements, as the shell of SQLite does."""
        connection = sqlite3.connect(self.path)
        connection.executescript(statements)
        connection.close()

    def shown(self, query: str) -> list[tuple[object, ...]]:
        """The rows that a query shows, as the shell of SQLite reads them."""
        connection = sqlite3.connect(self.path)
        rows = connection.execute(query).fetchall()
        connection.close()
        return rows

    def must(self, words: list[str], wanted: Outcome) -> None:
        came = self.run(words)
        if came != wanted:
            raise Bad(f"{words[1]} without a refusal: {came}")


def sweep_command(
    store: Store, tally: Tally, words: list[str], wanted: Outcome, faults: list[Outcome], look: Callable[[bool], None]
) -> None:
    """Refuses each allocation of a command, and looks at the store after each run of which one was refused."""
    at = 0
    while True:
        at += 1
        came = store.run(words, at)
        if not store.page.was_refused():
            if came != wanted:
                raise Bad(f"{words[1]}: {came}")
            return
        if came != wanted and came not in faults:
            raise Bad(f"allocation {at} of {words[1]}: {came}")
        tally.add("done without" if came == wanted else f"told as `{came[2].strip()}`")
        look(came == wanted)


def sweep_commands(program: str, page: Page, folder: str) -> None:
    tally = Tally("commands")
    store = Store(program, page, folder)
    no_account = 1, "", "printd: no account\n"
    statement = (
        "account alice\ngranted              100\nfree                 100\nreserved               0\nprinted                0\n"
        "       job state  reserved   printed\n     total               0         0\n"
    )
    reserved = (
        "account alice\ngranted              100\nfree                  60\nreserved              40\nprinted                0\n"
        "       job state  reserved   printed\n         1     4        20         0\n         3     5        20         0\n"
        "     total              40         0\n"
    )

    def look_at_new(is_done: bool) -> None:
        """A store that was made is one. Otherwise it can be made over what is left of it."""
        if is_done:
            store.must(store.words("statement", "alice"), no_account)
        else:
            store.must(store.init_words(), (0, "", ""))
        store.clear()

    def put_back(is_done: bool) -> None:
        """If the file was taken, the store is put back as it was. Else it has to be that already: in the end each row is new."""
        if is_done:
            store.put_back()

    def keep(is_done: bool) -> None:
        pass

    def put_back_operators(is_done: bool) -> None:
        """The store has the operators where they were set, and none else. It is put back."""
        wanted = [("opal",), ("pearl",)] if is_done else []
        if store.shown("SELECT name FROM operators ORDER BY name") != wanted:
            raise Bad("the operators of the store")
        store.put_back()

    def look_at_older(expired: int, is_done: bool) -> None:
        """The older tables hold the same queue, however far they were taken to the newest, except the jobs that a command ends. They are put back."""
        came = store.shown("SELECT count(*) FROM jobs WHERE phase = 8")
        if came != [(expired if is_done else 0,)]:
            raise Bad(f"jobs that have expired: {came}")
        if came == [(0,)]:
            store.must(store.words("statement", "alice"), (0, reserved, ""))
        store.put_back()

    try:
        store.clear()
        sweep_command(store, tally, store.init_words(), (0, "", ""), [ENDED], look_at_new)
        store.save()
        faults = [ENDED, (1, "", "printd: import fault 6 at row 0\n")]
        sweep_command(store, tally, store.words("import", store.pages), (0, "new 2 repeats 0\n", ""), faults, put_back)
        sweep_command(store, tally, store.words("statement", "alice"), (0, statement, ""), [ENDED], keep)
        store.save()
        sweep_command(store, tally, store.words("operators", "pearl", "opal"), (0, "operators 2\n", ""), [ENDED], put_back_operators)
        store.change(HELD)
        store.save()
        sweep_command(store, tally, store.words("expire"), (0, "expired 2\n", ""), [ENDED], put_back)
        for schema, statements in OLDER.items():
            store.put_back()
            store.must(store.words("statement", "alice"), (0, reserved, ""))
            store.change(statements)
            store.save()
            # the first schema has no time for which jobs are kept
            expired = 2 if schema == 2 else 0
            for words, told, count in [
                (store.words("statement", "alice"), reserved, 0),
                (store.words("expire"), f"expired {expired}\n", expired),
                (store.words("operators", "opal"), "operators 1\n", 0),
            ]:
                sweep_command(store, tally, words, (0, told, ""), [ENDED], functools.partial(look_at_older, count))
                store.put_back()
    except Bad as bad:
        sys.exit(f"tests/memory.py: commands: {bad}")
    tally.tell("init, import, statement, operators and expire")


# ---- a server


# What is asked of a server: a message, a line of the device, or a path; and the bytes of the request.
Event = Union[Draft, bytes, str]
Asked = tuple[Event, bytes]
# A status, the content, or None if it is broken off, and how many requests of the connection acted.
Came = tuple[int, Optional[bytes], int]
REQUEST_ID = 7


def post(message: Draft) -> Asked:
    return message, posting.post(message, REQUEST_ID)


def report(line: bytes) -> Asked:
    return line, posting.report(line)


def get(path: str) -> Asked:
    return path, posting.get(path)


def chunked(message: Draft) -> Asked:
    """A request whose body comes in two chunks."""
    body = message.spelled(REQUEST_ID)
    pieces = b"".join(b"%x\r\n%s\r\n" % (len(piece), piece) for piece in (body[:70], body[70:], b""))
    return message, b"POST /ipp/print HTTP/1.0\r\nContent-Type: application/ipp\r\nTransfer-Encoding: chunked\r\n\r\n" + pieces


LARGE = 70_000 * b"a"
SHOWN = attribute(Tag.KEYWORD, "requested-attributes", "job-id", "job-state", "job-state-reasons", "job-impressions-completed")
EVENTS: list[Asked] = [
    post(request(Operation.GET_PRINTER_ATTRIBUTES, attribute(Tag.KEYWORD, "requested-attributes", "printer-state", "queued-job-count"))),
    post(request(Operation.PRINT_JOB, payload=b"hi")),
    post(request(Operation.VALIDATE_JOB)),
    post(job_request(Operation.RELEASE_JOB, 1)),
    get("/device/queue"),
    get("/device/document/1/1"),
    report(b"1 1 start 0"),
    report(b"1 1 start"),
    chunked(request(Operation.CREATE_JOB, caller="bob")),
    chunked(job_request(Operation.SEND_DOCUMENT, 2, record(Tag.BOOLEAN, "last-document", False), caller="bob", payload=LARGE)),
    post(job_request(Operation.SEND_DOCUMENT, 2, record(Tag.BOOLEAN, "last-document", True), caller="bob", payload=b"end")),
    report(b"1 2 count 12"),
    post(job_request(Operation.RELEASE_JOB, 2, caller="bob")),
    post(job_request(Operation.HOLD_JOB, 2, caller="bob")),
    post(job_request(Operation.RELEASE_JOB, 2, caller="bob")),
    report(b"2 1 start 0"),
    get("/device/document/2/1"),
    get("/device/document/2/2"),
    report(b"2 2 stop 1"),
    post(job_request(Operation.CANCEL_JOB, 2, caller="bob")),
    post(job_request(Operation.CANCEL_JOB, 2, caller="bob")),
    report(b"2 3 halt 2"),
    report(b"1 3 done 25"),
    report(b"1 3 done 25"),
    report(b"1 3 done 26"),
    post(request(Operation.PRINT_JOB, record(Tag.INTEGER, "job-impressions", 3), payload=b"hi")),
    post(request(Operation.PRINT_JOB, payload=LARGE)),
    post(request(Operation.CANCEL_MY_JOBS, attribute(Tag.INTEGER, "job-ids", 3, 4))),
    post(request(Operation.CANCEL_MY_JOBS, attribute(Tag.INTEGER, "job-ids", 3, 9))),
    post(request(Operation.GET_JOBS, SHOWN)),
    post(request(Operation.GET_JOBS, record(Tag.KEYWORD, "which-jobs", "completed"), SHOWN)),
    post(job_request(Operation.GET_JOB_ATTRIBUTES, 1, SHOWN)),
    post(job_request(Operation.GET_JOB_ATTRIBUTES, 1, SHOWN, caller="bob")),
    # an operator lists, sees and cancels a job that waits and one that prints
    post(request(Operation.PRINT_JOB, record(Tag.INTEGER, "job-impressions", 3), payload=b"hi")),
    post(request(Operation.PRINT_JOB, record(Tag.INTEGER, "job-impressions", 3), payload=b"hi")),
    post(job_request(Operation.RELEASE_JOB, 5)),
    post(job_request(Operation.RELEASE_JOB, 6)),
    report(b"6 1 start 0"),
    post(request(Operation.GET_JOBS, SHOWN, caller="opal")),
    post(request(Operation.GET_JOBS, record(Tag.BOOLEAN, "my-jobs", True), SHOWN, caller="opal")),
    post(request(Operation.GET_JOBS, record(Tag.KEYWORD, "which-jobs", "completed"), SHOWN, caller="opal")),
    post(job_request(Operation.GET_JOB_ATTRIBUTES, 1, SHOWN, caller="opal")),
    post(job_request(Operation.CANCEL_JOB, 5, caller="opal")),
    post(job_request(Operation.CANCEL_JOB, 6, caller="opal")),
    post(job_request(Operation.CANCEL_JOB, 6)),
    report(b"6 2 halt 1"),
    get("/device/queue"),
    get("/device/document/1/1"),
    get("/nowhere"),
]
DOCUMENTS = {"/device/document/1/1": b"hi", "/device/document/2/1": LARGE, "/device/document/2/2": b"end"}


def wanted_of(queue: Queue, event: Event) -> Came:
    """The status and the content that are to answer an event, by the second queue, and how many requests have acted."""
    if isinstance(event, bytes):
        return 200, queue.report(event, 1) + b"\n", 1
    if not isinstance(event, str):
        return 200, queue.answer(event.spelled(REQUEST_ID), 1), 1
    if event == "/device/queue":
        rows = [(job.number, job.copies, job.documents, job.octets) for job in queue.jobs.values() if job.state == 3]
        return 200, b"".join(b"%d %d %d %d\n" % row for row in rows), 0
    if event in DOCUMENTS and queue.jobs[int(event.split("/")[3])].state in (3, 5, 6):
        return 200, DOCUMENTS[event], 0
    return 404, b"", 0


def faults_of(event: Event, wanted: Came) -> dict[Came, str]:
    """How want of memory is answered on an event, with what is said of it."""
    faults: dict[Came, str] = {(503, b"", 0): "told by status 503"}
    if isinstance(event, bytes) and wanted[1] != b"refused 1 syntax\n":
        faults[200, b"refused 6 fault\n", 1] = "told as a fault"
    if not isinstance(event, (bytes, str)):
        faults[200, reply(0x0505).spelled(REQUEST_ID), 1] = "told as a fault"
    if event in DOCUMENTS and wanted[0] == 200:
        faults[200, None, 0] = "broken off behind the head"
    return faults


def started(store: Store, at: int = 0) -> Served:
    """A server of a store, which was started with an allocation refused."""
    store.page.restart(at)
    return Served(store.path, program=store.program, environment=store.page.environment, keeps_errors=True)


class Server:
    """A server of a store, which is started anew if a request that it has done is to come again."""

    def __init__(self, store: Store):
        self.store, self.served = store, started(store)

    def start_again(self) -> None:
        """Over the store as it was saved."""
        self.served.stop()
        self.store.put_back()
        self.served = started(self.store)


def exchange(server: Served, asked: bytes) -> Came:
    """The answer to a request, by a connection of its own. The status is 0 if the server has ended."""
    try:
        came = posting.exchange(server.port, asked)
    except ConnectionError:
        came = b""
    told = server.line()
    if not told or not came:
        return 0, came, 0
    answer = posting.answer_of(came)
    return answer.head.status, answer.content if answer.is_whole else None, int(told.removeprefix(b"served "))


def refuse_in_event(server: Server, event: Event, asked: bytes, wanted: Came, tally: Tally) -> None:
    """Refuses each allocation of one request."""
    store, at = server.store, 0
    while True:
        at += 1
        wait(server.served.process)
        if at == 1:
            store.save()
        store.page.refuse(at)
        came = exchange(server.served, asked)
        if not store.page.was_refused():
            if came != wanted:
                raise Bad(f"without a refusal: {came}, wanted {wanted}")
            return
        fault = faults_of(event, wanted).get(came)
        if fault is not None:
            tally.add(fault)
            continue
        if came != wanted:
            raise Bad(f"allocation {at}: {came}, wanted {wanted}")
        # the request is done: it is handed in anew to refuse the next
        tally.add("done without")
        server.start_again()


def sweep_start(store: Store, tally: Tally) -> None:
    """Refuses each allocation of a server until it listens."""
    at = 0
    while True:
        at += 1
        server = started(store, at)
        if server.is_listening:
            is_refused = store.page.was_refused()
            server.stop()
            if not is_refused:
                return
            tally.add("done without as it starts")
            continue
        status, out, said = server.end()
        if (status, (server.first_line + out).decode(), said.decode()) != ENDED:
            raise Bad(f"allocation {at} of a server that starts: {status} {out!r} {said!r}")
        tally.add("ended with `printd: memory` as it starts")


def sweep_serve(program: str, page: Page, folder: str) -> None:
    tally = Tally("serve")
    store = Store(program, page, folder)
    store.clear()
    store.must(store.init_words(), (0, "", ""))
    store.must(store.words("import", store.pages), (0, "new 2 repeats 0\n", ""))
    # the operator of the second queue
    store.must(store.words("operators", "opal"), (0, "operators 1\n", ""))
    queue = Queue()
    queue.grant(b"f24,alice,100\nf24,bob,40\n")
    server = Server(store)
    event: Event = "start"
    try:
        for event, asked in EVENTS:
            refuse_in_event(server, event, asked, wanted_of(queue, event), tally)
        server.served.stop()
        event = "start"
        sweep_start(store, tally)
    except Bad as bad:
        sys.exit(f"tests/memory.py: serve: {event!r}: {bad}")
    finally:
        server.served.stop()
    tally.tell(f"{len(EVENTS)} requests and the start")


def main() -> None:
    parser = argparse.ArgumentParser(description=__doc__, formatter_class=argparse.RawDescriptionHelpFormatter)
    parts = ["replay", "lists", "serve", "commands"]
    parser.add_argument("parts", nargs="*", metavar="PART", help="replay, lists, serve or commands (all four)")
    parser.add_argument("--all", action="store_true", help="all worked examples of these modules, for an hour")
    parser.add_argument("--program", default=str(PROGRAM), metavar="PATH", help="printd (the built one)")
    cases = os.path.join(TOP, "crates", "replay_cases", "out", "replay_cases")
    parser.add_argument("--cases", default=cases, metavar="PATH", help="the program of the worked examples (the built one)")
    words = parser.parse_args()
    if not set(words.parts) <= set(parts):
        parser.error(f"the parts are {', '.join(parts)}")
    chosen = words.parts or parts
    for part in chosen:
        path, how = (words.cases, "cd crates/replay_cases && rt run </dev/null") if part == "lists" else (words.program, "./printd --help")
        if not os.path.exists(path):
            sys.exit(f"tests/memory.py: build {path} first: {how}")
    if shutil.which(os.environ.get("CC", "cc")) is None:
        sys.exit("tests/memory.py: no C compiler is on the PATH: cc, or what CC names")
    # in memory where there is such a place: the stores are synced a hundred thousand times
    place = "/dev/shm" if os.path.isdir("/dev/shm") else None
    with tempfile.TemporaryDirectory(dir=place) as folder:
        page = Page(folder)
        if "replay" in chosen:
            sweep_replay(words.program, page, words.all)
        if "lists" in chosen:
            sweep_lists(words.cases, page, folder, words.all)
        if "serve" in chosen:
            sweep_serve(words.program, page, folder)
        if "commands" in chosen:
            sweep_commands(words.program, page, folder)


if __name__ == "__main__":
    main()
