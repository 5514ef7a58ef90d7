#!/usr/bin/env python3
"""Takes an account file into a print server's store while the server rests.

Nobody else may write the store while it is served, so this stops the server, imports the file, prints what came of it, and starts
the server again, whatever came, also where the stop has failed. At a hangup, Ctrl-C, Ctrl-\\ or SIGTERM it waits for the command that is
under way, begins no other but the start, and then ends; Ctrl-Z does nothing. Handing the same file in twice does no harm: rows that were
taken before are repeats.

Example, where the server is the systemd unit `printd`:

    sudo tools/import_allowances.py --user printd --store /var/lib/printd/queue.db allowances.csv

Without systemd, say how the server is stopped and started:

    tools/import_allowances.py --printd crates/printd/out/printd --store queue.db --stop 'p=$(cat printd.pid); kill "$p" && tail --pid="$p" -f /dev/null' --start './start-printd' allowances.csv

(Name the program itself there and not the launcher ./printd, which may prove and build it first, while the server is stopped.)

The status is that of the import, or 1 where the server can't be stopped or started, or another import or a backup is under way; 2 where the
words are wrong, or name a file, a store, a program or a user that isn't there; 128 and the signal's number where a signal came.
"""
from __future__ import annotations

import argparse
import fcntl
import os
import pwd
import re
import shutil
import signal
import subprocess
import sys
from collections.abc import Mapping
from types import FrameType
from typing import Any

CODES = {
    1: "the first line is not batch,account,pages",
    2: "the row is not of the form",
    3: "the pages are not 1 to 1,000,000, or the file is too long",
    4: "the same batch and account were granted other pages before",
    5: "the account would have more than 1,000,000,000 pages",
    6: "memory ran out, or the store or its disk refused; hand the same file in again, which grants nothing twice",
}
SIGNALS = (signal.SIGHUP, signal.SIGINT, signal.SIGQUIT, signal.SIGTERM)


def put(stream: int, text: str) -> None:
    """Writes a text on a stream, by its number. Where that can't be done, as on a terminal that has gone, the rest goes on."""
    try:
        os.write(stream, text.encode("utf-8", "backslashreplace"))
    except OSError:
        pass


def say(text: str) -> None:
    put(2, f"import-allowances: {text}\n")


def told(line: str) -> str:
    """A line of the program's on standard error; where it tells of an import that was refused, with what its code means."""
    fault = re.search(r"import fault (\d) at row", line)
    return f"{line} ({CODES[int(fault[1])]})" if fault and int(fault[1]) in CODES else line


def identity(user: str | None) -> dict[str, Any]:
    """What a process is to run as: a user with the groups of its own, or who runs this."""
    if user is None:
        return {}
    entry = pwd.getpwnam(user)
    if entry.pw_uid == os.geteuid():
        return {}
    return {"user": entry.pw_uid, "group": entry.pw_gid, "extra_groups": os.getgrouplist(user, entry.pw_gid)}


def lock(store: str) -> None:
    """Makes sure that no other import into a store of that folder is under way, and no backup that holds the lock: this one would start the server beside it."""
    folder = os.open(os.path.dirname(os.path.abspath(store)), os.O_RDONLY | os.O_DIRECTORY)
    try:
        fcntl.flock(folder, fcntl.LOCK_EX | fcntl.LOCK_NB)
    except BlockingIOError:
        say("another import or a backup is under way, and nothing was imported")
        sys.exit(1)


def run(command: str) -> bool:
    """Runs a command of the shell's to its end. Whether it succeeded."""
    # a hangup and what a terminal's keys send reach all its programs: none may cut short a stop or a start (and what is started ignores them too)
    return subprocess.run("trap '' HUP INT QUIT TSTP\n" + command, shell=True, check=False).returncode == 0


def run_import(words: argparse.Namespace, who: Mapping[str, Any]) -> int:
    """Imports the file, and tells what came. The status."""
    # in a session of its own, for the same reason
    ran = subprocess.run(
        [words.printd, "import", "--store", words.store, words.file],
        capture_output=True, text=True, errors="replace", check=False, start_new_session=True, **who,
    )
    put(1, ran.stdout)
    for line in ran.stderr.splitlines():
        put(2, told(line) + "\n")
    if ran.returncode < 0:
        say(f"the import was ended by signal {-ran.returncode}; hand the file in again")
        return 128 - ran.returncode
    return ran.returncode


def import_between(words: argparse.Namespace, who: Mapping[str, Any]) -> int:
    """Stops the server, imports the file and starts the server. The status."""
    came: list[int] = []
    status = 1

    def note(number: int, _: FrameType | None) -> None:
        # no exception, which would leave a stop or an import running beside the start
        came.append(number)
        say("a signal came: what is under way is waited for, then the server is started")

    for number in SIGNALS:
        # one that is ignored, as under nohup, stays so
        if signal.getsignal(number) != signal.SIG_IGN:
            signal.signal(number, note)
    # one that is suspended would leave the server stopped
    signal.signal(signal.SIGTSTP, signal.SIG_IGN)
    try:
        if not run(words.stop):
            say(f"the server could not be stopped, and nothing was imported: {words.stop}")
        elif came:
            say("nothing was imported")
        else:
            status = run_import(words, who)
    except OSError as fault:
        say(f"{words.printd}: {fault.strerror}")
    finally:
        is_started = run(words.start)
        if not is_started and came:
            # a signal that was sent to all of them may have ended the start too
            is_started = run(words.start)
        if not is_started:
            say(f"the server could not be started; look whether it runs: {words.start}")
            status = status or 1
    return 128 + came[0] if came else status


def main() -> None:
    parser = argparse.ArgumentParser(description=__doc__, formatter_class=argparse.RawDescriptionHelpFormatter)
    parser.add_argument("file", metavar="FILE", help="the account file, as docs/guide/accounts.md says")
    parser.add_argument("--store", required=True, metavar="PATH", help="the file that keeps the queue")
    parser.add_argument("--printd", default="printd", metavar="PROGRAM", help="the server's program (default: %(default)s)")
    parser.add_argument("--user", metavar="NAME", help="who owns the store: the import runs as this user (default: who runs this)")
    parser.add_argument("--stop", default="systemctl stop printd", metavar="COMMAND", help="stops the server and waits until it has ended (default: %(default)s)")
    parser.add_argument("--start", default="systemctl start printd", metavar="COMMAND", help="starts it (default: %(default)s)")
    words = parser.parse_args()
    if not os.path.isfile(words.file):
        parser.error(f"no such file: {words.file}")
    if not os.path.isfile(words.store):
        parser.error(f"no such store: {words.store}")
    if shutil.which(words.printd) is None:
        parser.error(f"no such program: {words.printd} (--printd names it)")
    try:
        who = identity(words.user)
    except KeyError:
        parser.error(f"no such user: {words.user}")
    if who and os.geteuid() != 0:
        parser.error(f"only root can import as {words.user}")
    try:
        lock(words.store)
    except OSError as fault:
        parser.error(f"{words.store}: {fault.strerror}")
    sys.exit(import_between(words, who))


if __name__ == "__main__":
    main()
