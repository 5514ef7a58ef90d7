"""A print release server for tests: the built program over a store in a temporary folder, and what is asked of it."""
from __future__ import annotations

import http.client
import os
import shutil
import signal
import subprocess
import tempfile
from pathlib import Path

from runs import TOP

import ipp
from served import PROGRAM, Served, free_port

ANSWER_SECONDS = 300
PRINTER = "ipp://localhost/ipp/print"
SHOWN = ("job-id", "job-name", "job-state", "job-impressions", "copies", "job-impressions-completed", "job-originating-user-name")


def program() -> Path:
    """The built program. PRINTD names another one; else the launcher builds it, if it is missing or older than its sources."""
    named = os.environ.get("PRINTD")
    if named:
        return Path(named).resolve()
    subprocess.run([TOP / "printd", "--help"], stdout=subprocess.DEVNULL, check=True)
    return PROGRAM


class Asked:
    """A server that listens, and what is asked of it."""

    def __init__(self, port: int):
        self.port = port

    @property
    def url(self) -> str:
        return f"http://127.0.0.1:{self.port}"

    @property
    def device_uri(self) -> str:
        return f"release://127.0.0.1:{self.port}/ipp/print"

    def ask(self, operation: int, user: str, *attributes: bytes, job: int | None = None, job_attributes: bytes = b"", data: bytes = b"") -> ipp.Message:
        text = ipp.request(operation, PRINTER, user, *attributes, job=job, job_attributes=job_attributes)
        return ipp.exchange(http.client.HTTPConnection("127.0.0.1", self.port, timeout=ANSWER_SECONDS), "/ipp/print", text + data)

    def jobs(self, user: str) -> list[ipp.Attributes]:
        """The user's jobs that have not ended, the oldest first."""
        groups = self.ask(ipp.Operation.GET_JOBS, user, ipp.wanted(*SHOWN)).all(ipp.Group.JOB)
        return sorted(groups, key=lambda job: ipp.number(job, "job-id"))

    def job(self, user: str, number: int) -> ipp.Attributes:
        return self.ask(ipp.Operation.GET_JOB_ATTRIBUTES, user, ipp.wanted(*SHOWN), job=number).all(ipp.Group.JOB)[0]

    def cancel_all(self, user: str) -> None:
        self.ask(ipp.Operation.CANCEL_MY_JOBS, user)

    def document(self, job: int, number: int = 1) -> bytes:
        """A released job's document, by the device's route."""
        connection = http.client.HTTPConnection("127.0.0.1", self.port, timeout=ANSWER_SECONDS)
        connection.request("GET", f"/device/document/{job}/{number}", headers={"Connection": "close"})
        content = connection.getresponse().read()
        connection.close()
        return content


class Server(Asked):
    """A server with its store. It may be stopped, started again and made to hang."""

    def __init__(self, pages: dict[str, int] | None = None):
        super().__init__(free_port())
        self.printd = program()
        self.folder = Path(tempfile.mkdtemp())
        self.store = self.folder / "queue.db"
        self.served: Served | None = None
        self.run("init", "--store", str(self.store), "--uri", PRINTER, "--name", "release")
        if pages:
            self.grant(pages)
        self.start()

    def run(self, *words: str) -> str:
        return subprocess.run([self.printd, *words], stdout=subprocess.PIPE, check=True, text=True).stdout

    def grant(self, pages: dict[str, int]) -> None:
        """Grants pages to accounts, while the server is stopped."""
        file = self.folder / "allowances.csv"
        file.write_text("batch,account,pages\n" + "".join(f"test,{account},{number}\n" for account, number in pages.items()), encoding="utf-8")
        self.run("import", "--store", str(self.store), str(file))

    def start(self) -> None:
        self.served = Served(self.store, program=self.printd, port=self.port)
        if not self.served.is_listening:
            raise RuntimeError(f"the server doesn't listen: {self.served.first_line!r}, status {self.served.end()[0]}")
        # a line for each connection follows, which nobody needs
        self.served.drain()

    def stop(self) -> None:
        if self.served is not None:
            self.served.stop()
            self.served = None

    def hang(self) -> None:
        assert self.served is not None
        self.served.process.send_signal(signal.SIGSTOP)

    def go_on(self) -> None:
        assert self.served is not None
        self.served.process.send_signal(signal.SIGCONT)

    def close(self) -> None:
        self.stop()
        shutil.rmtree(self.folder)

    def statement(self, account: str) -> str:
        """An account's statement, for which the server is stopped and started again."""
        self.stop()
        try:
            return self.run("statement", "--store", str(self.store), account)
        finally:
            self.start()


def named_values(job: ipp.Attributes, *names: str) -> list[ipp.Value]:
    return [job[name][0] for name in names]
