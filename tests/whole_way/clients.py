"""What users do over the network and at the station, and what all tests of the whole way share."""
from __future__ import annotations

import base64
import http.client
import ssl
import subprocess
import unittest
from pathlib import Path

import printer as printers
from machine import CERTIFICATE, CUPS_SOCKET, GRANTED, PASSWORDS, Machine, run, wait_for

import ipp
from ipp import JobState, Operation, Tag, attribute


class Client:
    """A client that speaks IPP over TLS to nginx, by whatever name and login it likes."""

    def __init__(self, user: str | None = None, password: str | None = None, port: int = 443):
        self.login = None if user is None else f"{user}:{PASSWORDS.get(user) if password is None else password}"
        self.context = ssl.create_default_context(cafile=CERTIFICATE)
        self.port = port

    def headers(self) -> dict[str, str]:
        return {} if self.login is None else {"Authorization": f"Basic {base64.b64encode(self.login.encode()).decode()}"}

    def connection(self) -> http.client.HTTPSConnection:
        return http.client.HTTPSConnection("localhost", self.port, timeout=60, context=self.context)

    def ask(
        self, operation: int, *attributes: bytes, name: str = "", job: int | None = None, job_attributes: bytes = b"", data: bytes = b"",
        path: str = "/printers/release", printer: str | None = "ipp://localhost/printers/release", headers: dict[str, str] | None = None,
    ) -> ipp.Message:
        text = ipp.request(operation, printer, name or "nobody", *attributes, job=job, job_attributes=job_attributes, version=ipp.VERSION_2_0)
        return ipp.exchange(self.connection(), path, text + data, {**self.headers(), **(headers or {})})

    def status(self, operation: int, *attributes: bytes, **more: object) -> int:
        """The status of HTTP, or the status code of the reply where it is 200."""
        try:
            return self.ask(operation, *attributes, **more).code  # type: ignore[arg-type]
        except ipp.OtherAnswer as fault:
            return fault.status

    def print(self, title: str, document: bytes, *attributes: bytes, job_attributes: bytes = b"", name: str = "") -> ipp.Message:
        return self.ask(Operation.PRINT_JOB, attribute(Tag.NAME, "job-name", title), *attributes, job_attributes=job_attributes, data=document, name=name)


def written(document: bytes, name: str) -> str:
    path = Path("/tmp") / name
    path.write_bytes(document)
    path.chmod(0o644)
    return str(path)


def figure(what: str, seconds: list[float]) -> None:
    ordered = sorted(seconds)
    print(f"figure: {what}: {len(ordered)} requests, median {ordered[len(ordered) // 2]:.3f} s, longest {ordered[-1]:.3f} s", flush=True)


class WholeWay(unittest.TestCase):
    """Tests on the machine, which is made once for all of them."""

    machine: Machine
    # what a user and the office see of a job, as the guide shows it
    transcript: list[str] = []

    def setUp(self) -> None:
        self.machine.printer.behaviour = printers.Behaviour()

    def tearDown(self) -> None:
        for account in GRANTED:
            self.machine.server.cancel_all(account)
        wait_for("CUPS to be done", lambda: self.at_cups() == [])
        for account in GRANTED:
            self.machine.server.cancel_all(account)

    def titles(self, user: str) -> list[str]:
        return [ipp.text(job, "job-name") for job in self.machine.server.jobs(user)]

    def held(self, user: str, title: str) -> ipp.Attributes:
        """The job of a title, once the server holds it."""
        wait_for(f"{user}'s job {title!r}", lambda: title in self.titles(user))
        return next(job for job in self.machine.server.jobs(user) if ipp.text(job, "job-name") == title)

    def at_cups(self) -> list[str]:
        """The jobs that wait in the queue of CUPS."""
        return run("lpstat", "-h", CUPS_SOCKET, "-o", "release").splitlines()

    def station(self, *words: str) -> str:
        return subprocess.run(["release-station", *words], stdout=subprocess.PIPE, text=True, check=False).stdout

    def release(self, user: str, job: ipp.Attributes) -> bool:
        return self.machine.server.ask(Operation.RELEASE_JOB, user, job=ipp.number(job, "job-id")).is_success

    def ended(self, user: str, job: ipp.Attributes) -> ipp.Attributes:
        """A released job, once it has ended."""
        number = ipp.number(job, "job-id")
        wait_for(f"{user}'s job {number} to end", lambda: ipp.number(self.machine.server.job(user, number), "job-state") >= JobState.CANCELED)
        return self.machine.server.job(user, number)
