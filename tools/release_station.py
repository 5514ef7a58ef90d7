#!/usr/bin/env python3
"""A release station: shows a user's held jobs with their pages, and releases or cancels those that are chosen.

Examples, against a server on port 8631:

    tools/release_station.py alice                  shows the jobs, then asks what to do
    tools/release_station.py alice list
    tools/release_station.py alice release 3 4
    tools/release_station.py alice release all
    tools/release_station.py alice cancel 5
    tools/release_station.py carol list all         shows everybody's jobs with their owners, if carol is an operator
    tools/release_station.py carol cancel 7         an operator may cancel any job

The status is 0 where everything that was asked was done, 130 at Ctrl-C, 2 where the words are wrong, else 1.
Where the station asks, it is 0 once it was left.
"""
from __future__ import annotations

import argparse
import http.client
import io
import os
import sys
import urllib.parse
from collections.abc import Callable
from typing import Optional

# the module is in a clone's tools/lib, or where tools/cups-gateway/setup has put it
sys.path[:0] = [os.path.join(os.path.dirname(os.path.realpath(__file__)), "lib"), "/usr/local/lib/print-release"]
try:
    import ipp
    from ipp import JobState, Operation, Status, Tag
except ImportError as missing:
    sys.exit(f"release-station: {missing}: it is tools/lib/ipp.py of the repository, and may be in /usr/local/lib/print-release")

# How long to wait for the server's answer. Other clients may hold it up for longer.
ANSWER_SECONDS = 120

PRINTER = "ipp://localhost/ipp/print"
SHOWN = ("job-id", "job-name", "job-state", "job-state-reasons", "job-impressions", "copies", "job-hold-until", "job-originating-user-name")
MOST_NAME_OCTETS = 255
STATES: dict[int, str] = {
    JobState.PENDING: "waits to print", JobState.HELD: "held", JobState.PROCESSING: "is printing", JobState.STOPPED: "printing stands still",
    JobState.CANCELED: "canceled", JobState.ABORTED: "failed", JobState.COMPLETED: "printed",
}


class Trouble(Exception):
    """The server can't be asked, or its answer can't be read."""


def printable(text: str) -> str:
    """A text of one line that a screen shows as it is: a job's name is whatever its client chose."""
    return "".join(character if character.isprintable() else "\ufffd" for character in text)


class Job:
    """A job, as the server shows it."""

    def __init__(self, group: ipp.Attributes):
        if not set(SHOWN) <= group.keys():
            raise Trouble("the server's reply can't be read")
        self.number = ipp.number(group, "job-id")
        self.name = printable(ipp.text(group, "job-name"))
        self.owner = printable(ipp.text(group, "job-originating-user-name"))
        self.state = ipp.number(group, "job-state")
        self.reasons = group["job-state-reasons"]
        self.pages = ipp.number(group, "job-impressions") * ipp.number(group, "copies")
        self.is_held = ipp.text(group, "job-hold-until") != "no-hold"

    def words(self) -> str:
        words = STATES.get(self.state, f"state {self.state}")
        if "processing-to-stop-point" in self.reasons:
            words += ", is being canceled"
        if "job-canceled-by-operator" in self.reasons:
            words += " by an operator"
        if self.state == JobState.HELD and "job-incoming" in self.reasons:
            words = f"{'held' if self.is_held else 'released'}, its documents are still coming"
        return words


# What to say of a job once what was asked of it was taken.
Outcome = Callable[[Optional[Job]], str]


class Station:
    """The server, asked in the name of a user."""

    def __init__(self, url: str, user: str):
        parts = urllib.parse.urlsplit(url)
        if parts.scheme != "http" or not parts.hostname:
            raise ValueError(f"not an http:// address: {url}")
        try:
            octets = len(user.encode())
        except UnicodeEncodeError:
            raise ValueError("a user name is UTF-8") from None
        if not 1 <= octets <= MOST_NAME_OCTETS:
            raise ValueError(f"a user name has 1 to {MOST_NAME_OCTETS} octets")
        self.host, self.port, self.user = parts.hostname, parts.port or 80, user

    def ask(self, operation: Operation, *attributes: bytes, job: int | None = None) -> ipp.Message:
        """The reply to a request. The connection ends with it, since one is served at a time."""
        connection = http.client.HTTPConnection(self.host, self.port, timeout=ANSWER_SECONDS)
        doubt = ""
        try:
            connection.connect()
            if operation in (Operation.RELEASE_JOB, Operation.CANCEL_JOB):
                # a request that waits for its turn is read and acted on after its client has gone, too
                doubt = "; what was asked may still be done: look at the list before you go"
            reply = ipp.exchange(connection, "/ipp/print", ipp.request(operation, PRINTER, self.user, *attributes, job=job))
        except ipp.OtherAnswer as fault:
            raise Trouble(f"the server {fault}") from None
        except ipp.NoAnswer as fault:
            raise Trouble(f"the server {fault}{doubt}") from None
        except OSError as fault:
            raise Trouble(f"the server does not answer: {str(fault) or type(fault).__name__}") from None
        except KeyboardInterrupt:
            if doubt:
                print(f"no answer yet{doubt}", file=sys.stderr)
            raise
        finally:
            connection.close()
        if reply.code == Status.TEMPORARY_ERROR:
            raise Trouble("the server can't do it now; look at the list and try again")
        return reply

    def jobs(self, of_all: bool = False) -> list[Job]:
        """The user's jobs that have not ended, or those of all users: these the server shows to operators alone."""
        reply = self.ask(Operation.GET_JOBS, ipp.attribute(Tag.BOOLEAN, "my-jobs", not of_all), ipp.wanted(*SHOWN))
        if not reply.is_success:
            raise Trouble(f"the list of jobs was refused: 0x{reply.code:04x}")
        return sorted((Job(group) for group in reply.all(ipp.Group.JOB)), key=lambda job: job.number)

    def job(self, number: int) -> Job | None:
        """One of the user's jobs, if it is there."""
        reply = self.ask(Operation.GET_JOB_ATTRIBUTES, ipp.wanted(*SHOWN), job=number)
        groups = reply.all(ipp.Group.JOB)
        return Job(groups[0]) if reply.is_success and groups else None

    def refusal(self, number: int, code: int) -> str:
        """What a refusal means, in words."""
        if code == Status.NOT_FOUND:
            return "gone: you have no such job"
        try:
            job = self.job(number) if code == Status.NOT_POSSIBLE else None
        except Trouble as fault:
            return f"refused: 0x{code:04x}; why can't be told: {fault}"
        if job is None:
            return f"refused: 0x{code:04x}"
        if job.state >= JobState.CANCELED:
            return f"too late: the job is {job.words()}"
        if "processing-to-stop-point" in job.reasons:
            return "it is being canceled already"
        if job.state == JobState.HELD and job.is_held:
            return f"your account has fewer than {job.pages} free pages, or you have no account: ask the office"
        return f"not possible now: the job {job.words()}"

    def became(self, number: int, taken: str, outcome: Outcome) -> str:
        """What became of a job, once what was asked of it was taken."""
        try:
            return outcome(self.job(number))
        except Trouble as fault:
            return f"the {taken} was taken; what came of it can't be told: {fault}"

    def do(self, operation: Operation, number: int, taken: str, outcome: Outcome) -> bool:
        """Releases or cancels a job. Whether that was done."""
        try:
            reply = self.ask(operation, job=number)
        except Trouble as fault:
            raise Trouble(f"job {number}: {fault}") from None
        is_done = reply.is_success
        try:
            told = self.became(number, taken, outcome) if is_done else self.refusal(number, reply.code)
        except KeyboardInterrupt:
            # the answer has come: only the second look was still under way
            print(f"job {number}: {f'the {taken} was taken' if is_done else f'refused: 0x{reply.code:04x}'}")
            raise
        print(f"job {number}: {told}")
        return is_done

    def release(self, number: int) -> bool:
        return self.do(Operation.RELEASE_JOB, number, "release", released)

    def cancel(self, number: int) -> bool:
        return self.do(Operation.CANCEL_JOB, number, "cancel", canceled)


def released(job: Job | None) -> str:
    """What became of a job whose release was taken: one whose documents are still coming waits for them."""
    return job.words() if job is not None and job.state == JobState.HELD else "released"


def canceled(job: Job | None) -> str:
    """What became of a job whose cancel was taken: one that the device has begun goes on until the device stops it."""
    if job is not None and job.state in (JobState.PROCESSING, JobState.STOPPED):
        return "the device has begun it, and what it prints of it is charged"
    return "canceled"


def show(jobs: list[Job], with_owners: bool = False) -> list[int]:
    """Shows the jobs. The numbers of those that are held."""
    if not jobs:
        print("No jobs.")
        return []
    print(f"{'job':>5} {'pages':>6}  {'owner: ' if with_owners else ''}name")
    for job in jobs:
        owner = f"{job.owner}: " if with_owners else ""
        print(f"{job.number:>5} {job.pages:>6}  {owner}{job.name}  ({job.words()})")
    return held(jobs)


def held(jobs: list[Job]) -> list[int]:
    return [job.number for job in jobs if job.state == JobState.HELD and job.is_held]


def chosen(station: Station, words: list[str], shown: list[int] | None) -> list[int]:
    """The numbers that are meant by words, or by `all` those of the held jobs: where some were shown, of these alone."""
    if words == ["all"]:
        return [number for number in held(station.jobs()) if shown is None or number in shown]
    if not words or not all(word.isascii() and word.isdigit() and 1 <= int(word) <= 2_147_483_647 for word in words):
        raise ValueError("job numbers are wanted, or `all`")
    return [int(word) for word in words]


def each(station: Station, words: list[str], shown: list[int] | None, do: Callable[[int], bool]) -> bool:
    """Does it to each job that is meant. Whether all of it was done."""
    numbers = chosen(station, words, shown)
    if not numbers:
        print("No held jobs." if shown is None else "No held jobs of those that were shown.")
    done = []
    for place, number in enumerate(numbers):
        try:
            done.append(do(number))
        except (Trouble, KeyboardInterrupt):
            if numbers[place + 1:]:
                print(f"not asked: {' '.join(map(str, numbers[place + 1:]))}", file=sys.stderr)
            raise
    return all(done)


def is_list(words: list[str]) -> bool:
    return not words or words in (["list"], ["l"]) or is_list_of_all(words)


def is_list_of_all(words: list[str]) -> bool:
    return words in (["list", "all"], ["l", "all"])


def show_list(station: Station, words: list[str]) -> list[int]:
    """Shows the list that the words ask for. The numbers of the held jobs in it."""
    of_all = is_list_of_all(words)
    return show(station.jobs(of_all), with_owners=of_all)


def act(station: Station, words: list[str], shown: list[int] | None = None) -> bool:
    """Does what the words say. Whether all of it was done. `shown` are the numbers of the held jobs that the user has seen, where it was asked."""
    if is_list(words):
        show_list(station, words)
        return True
    if words[0] in ("release", "r"):
        return each(station, words[1:], shown, station.release)
    if words[0] in ("cancel", "c"):
        return each(station, words[1:], shown, station.cancel)
    raise ValueError("the words are: list, list all, release NUMBERS, cancel NUMBERS")


def converse(station: Station) -> None:
    """Shows the jobs and does what is asked, until the input ends. A job that comes after the list is shown is not acted on by `all`, unseen."""
    shown = show(station.jobs())
    while True:
        try:
            words = input("release N.., cancel N.., list or quit> ").split()
        except EOFError:
            return
        if words[:1] in (["quit"], ["q"]):
            return
        try:
            if is_list(words):
                shown = show_list(station, words)
            else:
                act(station, words, shown)
        except (ValueError, Trouble) as fault:
            print(fault)


def main() -> None:
    for stream in (sys.stdin, sys.stdout):
        if isinstance(stream, io.TextIOWrapper):
            # a character that the terminal's encoding doesn't have is shown by its number
            stream.reconfigure(errors="backslashreplace")
    parser = argparse.ArgumentParser(description=__doc__, formatter_class=argparse.RawDescriptionHelpFormatter)
    parser.add_argument("--server", default="http://127.0.0.1:8631", metavar="URL", help="the server (default: %(default)s)")
    parser.add_argument("user", help="whose jobs")
    parser.add_argument("words", nargs="*", metavar="WORD", help="list, list all, release NUMBERS or cancel NUMBERS, where `all` stands for the held jobs; nothing: the station asks, and `all` stands for those that it has shown")
    words = parser.parse_args()
    try:
        station = Station(words.server, words.user)
        if words.words:
            sys.exit(0 if act(station, words.words) else 1)
        converse(station)
    except ValueError as fault:
        parser.error(str(fault))
    except Trouble as fault:
        sys.exit(f"release-station: {fault}")
    except BrokenPipeError:
        # who reads the list has seen enough; what is left of it is let go
        os.dup2(os.open(os.devnull, os.O_WRONLY), sys.stdout.fileno())
        sys.exit(1)
    except KeyboardInterrupt:
        sys.exit(130)


if __name__ == "__main__":
    main()
