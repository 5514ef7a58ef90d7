#!/usr/bin/env python3
"""The printing device of a print release server: polls its queue, prints each job and reports its pages.

It asks the server for the jobs that it may start, takes the first, fetches its documents and hands each to a command; without
one it writes them to a folder. It reports the start, the pages so far after each document, and the end.

It may be stopped at any moment and started again. Before a report is sent, its line is kept in a file of the device's own
(--journal) with how far the job has come. After a restart the last line is sent again, which the server answers as it did the
first time, and the job goes on behind the documents that were done; a document that was under way is printed from its start. A
report carries the total of a job's pages, so none is charged twice. SIGTERM ends the device with status 143, a hangup with 129 and
Ctrl-C with 130; a command that still runs a second later is killed, with all that it started and left in its process group, and of one that has ended
the pages are kept first.

Where several devices work at one queue, each needs a journal and a range of sequence numbers of its own, such as those from 1 and
those from 1000000001 (--first-sequence). Two that give the same numbers would both print a job that is charged once.

Example, against a server on port 8631, until no job waits:

    tools/device.py --server http://127.0.0.1:8631 --folder printed --once

With a command of one's own. Its last argument is the document's file; the environment has JOB, DOCUMENT, COPIES and FORMAT. If the
last line that it prints is a number of up to nine digits, that is how many pages it printed, all copies together; else each copy
counts as --pages. So nothing that a document may choose belongs on its standard output. A status other than 0 fails the job, and the
document counts as its last line says, without a number as 0. A command that runs for longer than --seconds is killed, and has failed.
At 126 and 127, by which the shell tells that it can't run the command, and where no page was counted, the device ends, and takes the job
up again when it is started; the third time in a row that fails the job, as a document may have brought it about:

    tools/device.py --command 'lp -d floor2 -n "$COPIES"'
"""
from __future__ import annotations

import argparse
import contextlib
import fcntl
import http.client
import json
import math
import os
import re
import select
import shlex
import shutil
import signal
import subprocess
import sys
import tempfile
import time
import urllib.parse
from collections.abc import Callable, Mapping
from types import FrameType, TracebackType
from typing import NoReturn, Optional, TypedDict, cast

# How long to wait for the server's answer. Other clients may hold it up for longer; then the exchange is tried again, which does no
# harm, as a report that comes twice counts once.
ANSWER_SECONDS = 120
# How long to wait before an exchange that failed is tried again.
RETRY_SECONDS = 2
MOST_PAGES = 100_000_000
# A number of more digits is no count of pages.
MOST_DIGITS = 9
# The statuses by which a shell tells that it can't run a command.
NOT_EXECUTABLE, NOT_FOUND = 126, 127
# How many of these in a row fail a job.
MOST_TRIES = 3
# How long a command may run: a week at most.
MOST_SECONDS = 604_800
# How much is kept of what a command prints: its end, where the last line is.
TAIL_BYTES = 4096
# How much of it may lie in a pipe unread.
PIPE_BYTES = 65536
# How often to look whether a command has ended while something that it left behind keeps its output open, and whether a signal came.
LOOK_SECONDS = 1
# What ends the device, and how long a command may still run then.
SIGNALS = (signal.SIGHUP, signal.SIGINT, signal.SIGTERM)
END_SECONDS = 1
# How long to wait for the end of a command that was killed: one that hangs in the system may not end.
KILL_SECONDS = 5
LAST_SEQUENCE = 2_147_483_647
# A job that begins at this number has enough of them up to the last.
MOST_FIRST_SEQUENCE = 2_000_000_000
QUEUE_LINE = re.compile(rb"(\d+) (\d+) (\d+) (\d+)\n")
QUEUE = re.compile(rb"(?:\d+ \d+ \d+ \d+\n)*")
ANSWER = re.compile(r"ok \d+ \d+ \d+|refused \d [a-z-]+")
TYPE_SUFFIXES = {
    "application/pdf": ".pdf",
    "application/postscript": ".ps",
    "image/jpeg": ".jpg",
    "image/pwg-raster": ".pwg",
    "image/urf": ".urf",
    "text/plain": ".txt",
}


# Prints a document: job, document, copies, media type, content. It returns how many pages were printed.
Printer = Callable[[str, int, int, str, bytes], int]


class Entry(TypedDict):
    """A job in the journal: how far it has come, and the report that was kept last."""

    copies: int
    documents: int
    done: int
    pages: int
    sequence: int
    kind: str
    tries: int


class Gone(Exception):
    """The server has no such document any more."""


class Failed(Exception):
    """A document can't be printed, or not to its end. It has the number of pages that came out."""

    def __init__(self, reason: str, pages: int = 0):
        super().__init__(reason)
        self.pages = pages


class NotRun(Exception):
    """The command can't be run. That need be no fault of the document's."""


def is_entry(number: str, job: object) -> bool:
    """Whether a job and what is kept of it have the form that the journal gives them."""
    return (
        number.isascii() and number.isdigit() and isinstance(job, dict)
        and all(type(job.get(name)) is int for name in ("copies", "documents", "done", "pages", "sequence"))
        and type(job.get("tries", 0)) is int and isinstance(job.get("kind"), str)
    )


def say(text: str) -> None:
    print(text, flush=True)


def sync_folder(path: str) -> None:
    """Brings to the disk which files a folder has."""
    folder = os.open(path, os.O_RDONLY)
    try:
        os.fsync(folder)
    finally:
        os.close(folder)


class Signals:
    """What ends the device: by an exception, at once, or while it prints as soon as what came of it is kept."""

    def __init__(self) -> None:
        self.came: int | None = None
        self.are_held, self.latest = False, math.inf
        for number in SIGNALS:
            # one that is ignored, as under nohup, stays so
            if signal.getsignal(number) != signal.SIG_IGN:
                signal.signal(number, self.take)

    def take(self, number: int, _: FrameType | None) -> None:
        self.came, self.latest = number, min(self.latest, time.monotonic() + END_SECONDS)
        if not self.are_held:
            self.end()

    def end(self) -> NoReturn:
        sys.exit(128 + (self.came or 0))

    def __enter__(self) -> None:
        self.are_held = True

    def __exit__(self, fault: Optional[type[BaseException]], _: Optional[BaseException], __: Optional[TracebackType]) -> None:
        self.are_held = False
        # a fault ends the device too, and tells why
        if fault is None and self.came is not None:
            self.end()


class Server:
    """The server's device routes. Each exchange has a connection of its own, since one connection is served at a time."""

    def __init__(self, url: str):
        parts = urllib.parse.urlsplit(url)
        if parts.scheme != "http" or not parts.hostname:
            raise ValueError(f"not an http:// address: {url}")
        self.host, self.port = parts.hostname, parts.port or 80

    def exchange(self, method: str, path: str, body: bytes | None = None) -> tuple[int, str, bytes]:
        """One request and its answer: status, media type and content. It is repeated until there is one."""
        while True:
            connection = http.client.HTTPConnection(self.host, self.port, timeout=ANSWER_SECONDS)
            try:
                headers = {"Connection": "close"}
                if body is not None:
                    headers["Content-Type"] = "text/plain"
                connection.request(method, path, body=body, headers=headers)
                answer = connection.getresponse()
                content = answer.read()
                if answer.status < 500:
                    return answer.status, answer.headers.get_content_type(), content
                reason = f"status {answer.status}"
            except UnicodeError:
                raise RuntimeError(f"the server's name can't be looked up: {self.host}") from None
            except (OSError, http.client.HTTPException) as fault:
                reason = str(fault) or type(fault).__name__
            finally:
                connection.close()
            say(f"{method} {path}: {reason}; again in {RETRY_SECONDS} s")
            time.sleep(RETRY_SECONDS)

    def queue(self) -> list[tuple[int, int, int, int]]:
        """The jobs that may be started, by number: number, copies, documents and octets of each."""
        status, _, content = self.exchange("GET", "/device/queue")
        if status != 200:
            raise RuntimeError(f"the queue was refused: status {status}")
        if not QUEUE.fullmatch(content):
            raise RuntimeError("the queue was answered by what is no answer of a print release server")
        lines = (map(int, line.groups()) for line in QUEUE_LINE.finditer(content))
        return [(number, copies, documents, octets) for number, copies, documents, octets in lines]

    def document(self, job: str, number: int) -> tuple[str, bytes]:
        """The format and the bytes of a job's document, counted from 1."""
        status, media_type, content = self.exchange("GET", f"/device/document/{job}/{number}")
        if status == 404:
            raise Gone
        if status != 200:
            raise RuntimeError(f"document {number} of job {job} was refused: status {status}")
        return media_type, content

    def report(self, line: str) -> str:
        """The answer to a report, which is sent again after a fault of the server's."""
        while True:
            status, _, content = self.exchange("POST", "/device/report", (line + "\n").encode())
            if status != 200:
                raise RuntimeError(f"the report '{line}' was refused: status {status}")
            answer = content.decode("ascii", "replace").strip()
            if not ANSWER.fullmatch(answer):
                raise RuntimeError(f"the report '{line}' was answered by what is no answer of a print release server")
            if answer != "refused 6 fault":
                return answer
            say(f"report {line}: {answer}; again in {RETRY_SECONDS} s")
            time.sleep(RETRY_SECONDS)


class Journal:
    """What the device has begun, in a file: written whole and brought to the disk before it takes the place of the old one."""

    def __init__(self, path: str):
        self.path = os.path.abspath(path)
        # two devices on one journal would give out a sequence number twice
        self.lock = open(self.path + ".lock", "w")
        try:
            fcntl.flock(self.lock, fcntl.LOCK_EX | fcntl.LOCK_NB)
        except BlockingIOError:
            raise RuntimeError(f"another device uses {self.path}") from None
        try:
            with open(self.path, encoding="utf-8") as file:
                jobs = json.load(file)
            if not isinstance(jobs, dict) or not all(is_entry(number, job) for number, job in jobs.items()):
                raise ValueError
            self.jobs = cast("dict[str, Entry]", jobs)
        except FileNotFoundError:
            self.jobs = {}
        except ValueError:
            raise RuntimeError(f"{self.path} is no journal") from None

    def keep(self) -> None:
        with open(self.path + ".new", "w", encoding="utf-8") as file:
            json.dump(self.jobs, file, indent=1)
            file.flush()
            os.fsync(file.fileno())
        os.replace(file.name, self.path)
        sync_folder(os.path.dirname(self.path))


class Device:
    """The device: takes the jobs of the queue one by one."""

    def __init__(self, server: Server, journal: Journal, printer: Printer, signals: Signals, first_sequence: int):
        self.server, self.journal, self.printer, self.signals, self.first_sequence = server, journal, printer, signals, first_sequence

    def note(self, number: str, kind: str) -> None:
        """Keeps a report, which is then to be sent."""
        job = self.journal.jobs[number]
        if job["sequence"] >= LAST_SEQUENCE:
            raise RuntimeError(f"job {number} has used its sequence numbers")
        job["sequence"] += 1
        job["kind"] = kind
        self.journal.keep()

    def send(self, number: str) -> bool:
        """Sends the report that was kept last. Whether it was accepted."""
        job = self.journal.jobs[number]
        while True:
            line = f"{number} {job['sequence']} {job['kind']} {job['pages']}"
            answer = self.server.report(line)
            say(f"report {line}: {answer}")
            if answer != "refused 5 conflict":
                break
            # a journal that was lost gave this number to another report; the pages are a total, so a new number does no harm
            self.note(number, job["kind"])
        return answer.startswith("ok ")

    def settle(self, number: str) -> bool:
        """Sends the report that was kept last. Whether the job goes on; else it is forgotten."""
        job = self.journal.jobs[number]
        accepted = self.send(number)
        if accepted and job["kind"] in ("start", "count"):
            return True
        if not accepted and job["kind"] in ("done", "fail"):
            # a job that was ended by hand meanwhile still takes the pages
            self.note(number, "count")
            accepted = self.send(number)
        if not accepted and job["kind"] == "count":
            say(f"job {number}: its {job['pages']} pages were refused")
        del self.journal.jobs[number]
        self.journal.keep()
        return False

    def do_next(self, number: str) -> None:
        """Prints the next document of a job, or ends the job. What came of it is kept as a report."""
        job = self.journal.jobs[number]
        if job["done"] >= job["documents"]:
            self.note(number, "done")
            return
        place, reason = job["done"] + 1, None
        try:
            media_type, content = self.server.document(number, place)
        except Gone:
            self.note(number, "fail")
            say(f"job {number}: a document is gone")
            return
        # so a journal that can't be written ends the device before it prints, and not after it, again at each start
        self.journal.keep()
        with self.signals:
            try:
                pages = self.printer(number, place, job["copies"], media_type, content)
                job["done"], job["tries"] = place, 0
            except Failed as fault:
                pages, reason = fault.pages, str(fault)
            except NotRun as fault:
                job["tries"] = job.get("tries", 0) + 1
                if job["tries"] < MOST_TRIES:
                    self.journal.keep()
                    raise RuntimeError(f"{fault}; job {number} is left as it is") from None
                pages, reason = 0, f"{fault}, {MOST_TRIES} times in a row"
            # between the printing and this stands nothing that can fail
            job["pages"] = min(job["pages"] + pages, MOST_PAGES)
            self.note(number, "fail" if reason else "count")
        if reason:
            say(f"job {number}: {reason}")

    def carry_out(self, number: str) -> None:
        """Sends the report that was kept last of a job and goes on from there, until the job has ended."""
        while self.settle(number):
            self.do_next(number)

    def begin(self, number: str, copies: int, documents: int) -> None:
        self.journal.jobs[number] = {
            "copies": copies,
            "documents": documents,
            "done": 0,
            "pages": 0,
            "sequence": self.first_sequence - 1,
            "kind": "",
            "tries": 0,
        }
        self.note(number, "start")
        self.carry_out(number)

    def recover(self) -> None:
        """Takes up what was begun before a restart."""
        for number in sorted(self.journal.jobs, key=int):
            job = self.journal.jobs[number]
            say(f"job {number}: taken up after {job['done']} of {job['documents']} documents, {job['pages']} pages")
            self.carry_out(number)

    def run(self, poll_seconds: float, once: bool) -> None:
        self.recover()
        while True:
            waiting = self.server.queue()
            if waiting:
                number, copies, documents, _ = waiting[0]
                self.begin(str(number), copies, documents)
            elif once:
                return
            else:
                time.sleep(poll_seconds)


def into_folder(folder: str, pages: int) -> Printer:
    """Prints by writing a document to a folder, over a file of that name. Nobody else may read it."""
    os.makedirs(folder, mode=0o700, exist_ok=True)

    def printer(job: str, place: int, copies: int, media_type: str, content: bytes) -> int:
        path = os.path.join(folder, f"job-{job}-{place}{TYPE_SUFFIXES.get(media_type, '.bin')}")
        wanted = "1 copy" if copies == 1 else f"{copies} copies"
        # said first, since a line that can't be written ends the device
        say(f"job {job}: {path}, {len(content)} bytes, {wanted}")
        # one that is a link to another file is refused
        with open(path, "wb", opener=lambda name, flags: os.open(name, flags | os.O_NOFOLLOW, 0o600)) as file:
            # one that was there may have another mode
            os.fchmod(file.fileno(), 0o600)
            file.write(content)
            file.flush()
            os.fsync(file.fileno())
        sync_folder(folder)
        return copies * pages

    return printer


def kill(process: subprocess.Popen[bytes]) -> bool:
    """Kills a command with all that it started. Whether it hadn't ended by itself."""
    # one that may not be killed, as under sudo, or that hangs in the system is left, and so is what made a process group of its own
    with contextlib.suppress(OSError, subprocess.TimeoutExpired):
        os.killpg(process.pid, signal.SIGKILL)
        process.wait(KILL_SECONDS)
    return process.returncode in (None, -signal.SIGKILL)


def printed_within(process: subprocess.Popen[bytes], seconds: float) -> bytes | None:
    """What a command prints next, or None where it prints nothing for so long. It is empty where no more comes."""
    assert process.stdout is not None
    readable, _, _ = select.select([process.stdout], [], [], seconds)
    return os.read(process.stdout.fileno(), PIPE_BYTES) if readable else None


def run(command: str, environment: Mapping[str, str], seconds: float, signals: Signals) -> tuple[int | None, bytes]:
    """Runs a command of the shell's. Its status, which is None where it took too long and was killed, and the end of what it printed.

    Where a signal comes and it doesn't end soon, it is killed and the device ends.
    """
    latest, tail, is_open = time.monotonic() + seconds, b"", True
    if signals.came is not None:
        signals.end()
    # in a session of its own, so that what it started is killed with it
    process = subprocess.Popen(
        command, shell=True, env=environment, stdin=subprocess.DEVNULL, stdout=subprocess.PIPE, start_new_session=True
    )
    try:
        while process.poll() is None and (left := min(latest, signals.latest) - time.monotonic()) > 0:
            if is_open:
                part = printed_within(process, min(left, LOOK_SECONDS))
                tail, is_open = (tail + (part or b""))[-TAIL_BYTES:], part != b""
            else:
                with contextlib.suppress(subprocess.TimeoutExpired):
                    process.wait(min(left, LOOK_SECONDS))
    finally:
        was_killed = process.poll() is None and kill(process)
    if was_killed and signals.latest < latest:
        signals.end()
    assert process.stdout is not None
    with process.stdout:
        # what still lies in the pipe, and no more: what it left behind may print for good
        tail = (tail + (printed_within(process, 0) or b""))[-TAIL_BYTES:]
    return None if was_killed else process.returncode, tail


def count_of(printed: bytes) -> int | None:
    """How many pages the last line of what a command printed counts, or None."""
    lines = printed.decode("utf-8", "replace").split("\n")
    last = next((line.strip() for line in reversed(lines) if line.strip()), "")
    return int(last) if last.isascii() and last.isdigit() and len(last) <= MOST_DIGITS else None


def by_command(command: str, pages: int, seconds: int, signals: Signals) -> Printer:
    """Prints by a command, whose last argument is the document's file."""

    def printer(job: str, place: int, copies: int, media_type: str, content: bytes) -> int:
        environment = dict(os.environ, JOB=job, DOCUMENT=str(place), COPIES=str(copies), FORMAT=media_type)
        folder = tempfile.mkdtemp()
        try:
            path = os.path.join(folder, "document" + TYPE_SUFFIXES.get(media_type, ".bin"))
            with open(path, "wb") as file:
                file.write(content)
            status, printed = run(f"{command} {shlex.quote(path)}", environment, seconds, signals)
        finally:
            # no error of this is one of the printing's: a command may take the file away, as lpr -r does
            shutil.rmtree(folder, ignore_errors=True)
        if status is None:
            # a line that was cut counts nothing
            printed = printed[:printed.rfind(b"\n") + 1]
        counted = count_of(printed)
        # one that has counted pages was run
        if status in (NOT_EXECUTABLE, NOT_FOUND) and not counted:
            raise NotRun(f"the command can't be run (status {status})")
        if status is None:
            raise Failed(f"the command took more than {seconds} s", counted or 0)
        if status != 0:
            raise Failed(f"the command ended with status {status}", counted or 0)
        return copies * pages if counted is None else counted

    return printer


def main() -> None:
    parser = argparse.ArgumentParser(description=__doc__, formatter_class=argparse.RawDescriptionHelpFormatter)
    parser.add_argument("--server", default="http://127.0.0.1:8631", metavar="URL", help="the server (default: %(default)s)")
    parser.add_argument("--journal", default="device.journal", metavar="FILE", help="where the device keeps what it has begun (default: %(default)s)")
    parser.add_argument("--folder", default="printed", metavar="FOLDER", help="where documents are written (default: %(default)s)")
    parser.add_argument("--command", metavar="COMMAND", help="a command that prints a document, in place of the folder")
    parser.add_argument("--seconds", type=int, default=3600, metavar="N", help="how long the command may run for a document (default: %(default)s)")
    parser.add_argument("--pages", type=int, default=1, metavar="N", help="the pages of a copy of a document that no command counts (default: %(default)s)")
    parser.add_argument("--first-sequence", type=int, default=1, metavar="N", help="the number of a job's first report: a device has a range of numbers of its own (default: %(default)s)")
    parser.add_argument("--poll", type=float, default=2.0, metavar="SECONDS", help="how often to ask for jobs (default: %(default)s)")
    parser.add_argument("--once", action="store_true", help="end when no job waits")
    words = parser.parse_args()
    if words.command is not None and not words.command.strip():
        parser.error("--command is empty")
    if words.pages < 0 or not 0 < words.poll <= MOST_SECONDS:
        parser.error(f"--pages is at least 0, --poll more than 0 and at most {MOST_SECONDS:,}")
    if not 1 <= words.seconds <= MOST_SECONDS:
        parser.error(f"--seconds is 1 to {MOST_SECONDS:,}")
    if not 1 <= words.first_sequence <= MOST_FIRST_SEQUENCE:
        parser.error(f"--first-sequence is 1 to {MOST_FIRST_SEQUENCE:,}")
    try:
        server = Server(words.server)
    except ValueError as fault:
        parser.error(str(fault))
    signals = Signals()
    try:
        if words.command is not None:
            printer = by_command(words.command, words.pages, words.seconds, signals)
        else:
            printer = into_folder(words.folder, words.pages)
        Device(server, Journal(words.journal), printer, signals, words.first_sequence).run(words.poll, words.once)
    except RuntimeError as fault:
        sys.exit(f"device: {fault}")
    except OSError as fault:
        sys.exit(f"device: {fault.filename}: {fault.strerror}" if fault.filename else f"device: {fault}")


if __name__ == "__main__":
    main()
