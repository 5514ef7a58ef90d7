"""tools/cups-gateway/check, where all works and where something doesn't."""
from __future__ import annotations

import os
import stat
import subprocess
from collections.abc import Iterator
from contextlib import contextmanager
from pathlib import Path

import printer as printers
from clients import WholeWay
from machine import CERTIFICATE, CHECK, CUPS_SOCKET, PASSWORDS, run

SECONDS = 120
# a job that won't go on isn't waited for as long
AT_ONCE = ("--seconds", "10")


@contextmanager
def mode(name: str, other: int) -> Iterator[None]:
    """Gives a file another mode for a while."""
    path = Path(name)
    before = stat.S_IMODE(path.stat().st_mode)
    path.chmod(other)
    try:
        yield
    finally:
        path.chmod(before)


@contextmanager
def gone(name: str) -> Iterator[None]:
    """Takes a file away for a while."""
    os.rename(name, name + ".away")
    try:
        yield
    finally:
        os.rename(name + ".away", name)


class Check(WholeWay):
    def check(self, *words: str, user: str = "alice", password: str | None = None) -> tuple[int, str]:
        Path("/tmp/password").write_text((PASSWORDS[user] if password is None else password) + "\n", encoding="utf-8")
        done = subprocess.run(
            [CHECK, "--user", user, "--password-file", "/tmp/password", "--cafile", CERTIFICATE, "--seconds", str(SECONDS), "--fold", *words],
            stdin=subprocess.DEVNULL, stdout=subprocess.PIPE, stderr=subprocess.STDOUT, text=True, check=False,
        )
        return done.returncode, done.stdout

    def wrong(self, reason: str, *words: str, user: str = "alice", password: str | None = None) -> None:
        status, shown = self.check(*words, user=user, password=password)
        self.assertEqual(status, 1, shown)
        self.assertRegex(shown.splitlines()[-1], f"^WRONG  .*{reason}")

    def test_it_prints_a_job_through_the_whole_way(self) -> None:
        before = self.machine.printed("alice")
        status, shown = self.check()
        self.assertEqual((status, shown.splitlines()[-1]), (0, "All of it works."), shown)
        self.assertEqual(self.machine.printed("alice"), before + 4)
        self.transcript.extend(("root# tools/cups-gateway/check --user alice --cafile /etc/print-release/tls.crt", *shown.strip().splitlines()))
        status, shown = self.check("--keep")
        self.assertEqual((status, self.machine.printed("alice")), (0, before + 4), shown)

    def test_it_says_which_program_is_away(self) -> None:
        with self.machine.without(self.machine.printd):
            self.wrong("print release server at 127.0.0.1:8631 does not answer")
        with self.machine.without(self.machine.nginx):
            self.wrong("nobody answers with TLS")
        with self.machine.without(self.machine.cupsd):
            self.wrong("cupsd doesn't answer nginx")
        with self.machine.without(self.machine.device):
            self.wrong("the device doesn't take the job", *AT_ONCE)

    def test_it_says_what_is_out_of_place(self) -> None:
        with mode("/usr/lib/cups/backend/release", 0o775):
            self.wrong("backend/release isn't root's alone to write")
        with mode("/var/spool/print-release", 0o755):
            self.wrong("print-release is lp:print-device 755")
        with gone("/usr/bin/qpdf"):
            self.wrong("qpdf isn't installed")
        with gone("/usr/local/lib/print-release/ipp.py"):
            self.wrong("ipp.py isn't there")
        self.wrong("this machine can't look up the name nowhere.example", "--name", "nowhere.example")

    def test_it_says_that_a_certificate_is_another_one(self) -> None:
        other, key = "/tmp/other.crt", "/tmp/other.key"
        run("openssl", "req", "-x509", "-newkey", "ec", "-pkeyopt", "ec_paramgen_curve:P-256", "-nodes", "-subj", "/CN=localhost", "-keyout", key, "-out", other)
        self.wrong("the certificate isn't accepted", "--cafile", other)
        status, shown = self.check("--cafile", key)
        self.assertEqual((status, shown.startswith("check: /tmp/other.key: ")), (1, True), shown)

    def test_it_says_what_a_user_lacks(self) -> None:
        self.wrong("alice can't log in", password="wrong")
        run("faillock", "--dir", "/run/print-release/guesses", "--user", "alice", "--reset")
        self.wrong("erin has no account, or fewer than 4 free pages", user="erin")

    def test_it_says_what_is_wrong_with_the_queue_and_the_printer(self) -> None:
        run("cupsdisable", "-h", CUPS_SOCKET, "release")
        try:
            self.wrong("waits at CUPS", *AT_ONCE)
        finally:
            run("cupsenable", "-h", CUPS_SOCKET, "release")
        self.machine.printer.behaviour.reports_count, self.machine.printer.behaviour.hides_names = False, True
        self.wrong("the job failed, and 2 of its 4 pages came out.* setup with --count document")
        self.machine.printer.behaviour = printers.Behaviour(jams_after=1)
        self.wrong("the job failed, and 1 of its 4 pages came out")
