"""The machine after the guide's commands, with its programs running."""
from __future__ import annotations

import os
import pty
import pwd
import re
import shlex
import socket
import subprocess
import tempfile
import time
from collections.abc import Callable, Iterator
from contextlib import contextmanager
from pathlib import Path

import printer as printers
from runs import TOP
from server import Asked

import gateway

PASSWORDS = {"alice": "wonder-land-7", "mallory": "mal-9-pass", "carol": "few-pages-3", "Dora": "Capital-5", "erin": "3-free-pages"}
GRANTED = {"alice": 1000, "mallory": 1000, "carol": 10, "dora": 20, "erin": 3}
SETUP, CHECK = TOP / "tools" / "cups-gateway" / "setup", TOP / "tools" / "cups-gateway" / "check"
NAME, CERTIFICATE = "print.example.org", "/etc/print-release/tls.crt"
STORE = "/var/lib/printd/queue.db"
PRINTER_PORT, SERVER_PORT = 8690, 8631
CUPS_SOCKET = "/run/cups/cups.sock"
START_SECONDS, WAIT_SECONDS, POLL_SECONDS = 300, 300, 0.1
RETRY_SECONDS = 3
# What an earlier setup may have left on the machine, of which this is a copy.
EARLIER_USERS = ("printd", "print-device", *PASSWORDS)
EARLIER_FILES = ("/etc/cups/printers.conf", "/etc/cups/subscriptions.conf")
EARLIER_FOLDERS = (
    "/var/lib/printd", "/var/lib/print-device", "/var/spool/print-release", "/etc/print-release", "/etc/cups/ppd", "/etc/nginx/sites-enabled",
    "/var/spool/cups", "/var/cache/cups",
)


def wait_for(what: str, look: Callable[[], bool], seconds: float = WAIT_SECONDS) -> None:
    latest = time.monotonic() + seconds
    while not look():
        if time.monotonic() > latest:
            raise AssertionError(f"waited {seconds:g} s for {what}")
        time.sleep(POLL_SECONDS)


def listens(port: int) -> bool:
    with socket.socket() as probe:
        return probe.connect_ex(("127.0.0.1", port)) == 0


def run(*words: str | Path, user: str | None = None) -> str:
    """Runs a command, as a user; what it prints. Raises where its status isn't 0."""
    before = ["runuser", "-u", user, "--"] if user else []
    done = subprocess.run([*before, *words], stdin=subprocess.DEVNULL, stdout=subprocess.PIPE, stderr=subprocess.STDOUT, text=True, check=False)
    if done.returncode != 0:
        raise AssertionError(f"{words} ended with status {done.returncode}: {done.stdout}")
    return done.stdout


def at_terminal(user: str, password: str, *words: str) -> tuple[int, str]:
    """Runs a user's command at a terminal, and types the password where it is asked for: its status, and what the terminal shows."""
    pid, terminal = pty.fork()
    if pid == 0:
        os.execvp("runuser", ["runuser", "-u", user, "--", *words])
    shown, asked = b"", 0
    while True:
        try:
            part = os.read(terminal, 4096)
        except OSError:
            break
        if not part:
            break
        shown += part
        if shown.count(b"Password for ") > asked:
            asked += 1
            # at the third wrong one lp would ask for ever
            os.write(terminal, (password if asked < 3 else "").encode() + b"\n")
    os.close(terminal)
    _, status = os.waitpid(pid, 0)
    return os.waitstatus_to_exitcode(status), shown.decode().replace("\r\n", "\n")


def lp(user: str, *words: str) -> tuple[int, str]:
    """Prints to the users' queue over TLS: the status, and what the terminal shows."""
    return at_terminal(user, PASSWORDS[user], "lp", "-E", "-h", "localhost:443", "-d", "release", *words)


def count(document: bytes) -> int:
    with tempfile.TemporaryFile() as file:
        file.write(document)
        file.flush()
        return gateway.count_pages(file.fileno())


class Program:
    """A program that runs until it is stopped. Its lines go to a file."""

    def __init__(self, name: str, *words: str, user: str | None = None, is_up: Callable[[], bool] = lambda: True):
        self.words, self.is_up, self.log = [*(["runuser", "-u", user, "--"] if user else []), *words], is_up, Path(f"/tmp/{name}.log")
        self.process: subprocess.Popen[bytes] | None = None

    def start(self) -> None:
        with open(self.log, "ab") as log:
            self.process = subprocess.Popen(self.words, stdin=subprocess.DEVNULL, stdout=log, stderr=subprocess.STDOUT, start_new_session=True)
        wait_for(f"{self.words} to be up", self.is_up, START_SECONDS)

    def processor_seconds(self) -> float:
        """The processor time that the program has used, its children aside."""
        assert self.process is not None
        fields = Path(f"/proc/{self.process.pid}/stat").read_text(encoding="ascii").rsplit(")", 1)[1].split()
        return (int(fields[11]) + int(fields[12])) / os.sysconf("SC_CLK_TCK")

    def stop(self, signal: int = 15) -> None:
        if self.process is not None:
            os.killpg(self.process.pid, signal)
            self.process.wait()
            self.process = None


class Machine:
    """The machine after the guide's commands, with its programs running."""

    def __init__(self) -> None:
        self.printer = printers.Printer("/ipp/print", count)
        self.http = printers.serve(self.printer, ("127.0.0.1", PRINTER_PORT))
        self.server = Asked(SERVER_PORT)
        self.printd = Program(
            "printd", "printd", "serve", "--store", STORE, "--port", str(SERVER_PORT), "--connections", "4294967295", user="printd",
            is_up=lambda: listens(SERVER_PORT),
        )
        self.cupsd = Program("cupsd", "cupsd", "-f", is_up=lambda: listens(6310) and os.path.exists(CUPS_SOCKET))
        self.nginx = Program("nginx", "nginx", "-g", "daemon off;", is_up=lambda: listens(443) and listens(631))
        self.remove_earlier()
        self.make_users()
        self.make_server()
        self.make_gateway()
        unit = Path("/etc/systemd/system/print-device.service.d/print-pages.conf").read_text(encoding="utf-8")
        command = re.search(r"^ExecStart=(.+)$", unit, re.MULTILINE)
        assert command is not None
        self.device = Program("device", *shlex.split(command[1]), "--poll", "0.2", user="print-device")
        self.device.start()

    def remove_earlier(self) -> None:
        users = {entry.pw_name for entry in pwd.getpwall()}
        for user in EARLIER_USERS:
            if user in users:
                run("userdel", "--force", user)
        for file in EARLIER_FILES:
            Path(file).unlink(missing_ok=True)
        for folder in EARLIER_FOLDERS:
            if os.path.isdir(folder):
                run("find", folder, "-mindepth", "1", "-delete")

    def make_users(self) -> None:
        run("useradd", "--system", "--home-dir", "/var/lib/printd", "printd")
        for user, password in PASSWORDS.items():
            run("useradd", "--badname", "--create-home", user)
            # cupsd checks a password at each request in its one thread: by a hash that is made to be slow 20 at once take over a second
            hashed = ["--crypt-method", "SHA512"] if user != "Dora" else []
            subprocess.run(["chpasswd", *hashed], input=f"{user}:{password}\n", text=True, check=True)

    def make_server(self) -> None:
        run("install", "-d", "-m", "0700", "-o", "printd", "/var/lib/printd")
        run("printd", "init", "--store", STORE, "--uri", f"ipp://{NAME}/ipp/print", "--name", "release", user="printd")
        allowances = Path("/tmp/allowances.csv")
        allowances.write_text("batch,account,pages\n" + "".join(f"f24,{account},{pages}\n" for account, pages in GRANTED.items()), encoding="utf-8")
        run("printd", "import", "--store", STORE, str(allowances), user="printd")
        self.printd.start()

    def make_gateway(self) -> None:
        self.setup("files")
        # sooner than on a machine in use
        configuration = Path("/etc/cups/cupsd.conf")
        text = re.sub("^JobRetryInterval .*$", f"JobRetryInterval {RETRY_SECONDS}", configuration.read_text(encoding="utf-8"), flags=re.MULTILINE)
        configuration.write_text(text, encoding="utf-8")
        Path("/run/cups").mkdir(exist_ok=True)
        run("install", "-d", "-m", "0700", "-o", "print-device", "/var/lib/print-device")
        self.cupsd.start()
        self.nginx.start()
        self.setup("queues")

    def setup(self, part: str) -> str:
        """Does a part of the setup; what it prints."""
        printer = f"ipp://localhost:{PRINTER_PORT}/ipp/print"
        return run(SETUP, "--name", NAME, "--printer", printer, "--address", "127.0.0.1", "--fold", "--part", part)

    def set_queue(self, more: str = "") -> None:
        """Gives the users' queue its device URI, with more options than `setup` has given it."""
        uri = f"release://127.0.0.1:{SERVER_PORT}/ipp/print?fold=lower&options=/var/spool/print-release{more}"
        run("lpadmin", "-h", CUPS_SOCKET, "-p", "release", "-v", uri)

    def close(self) -> None:
        for program in (self.device, self.nginx, self.cupsd, self.printd):
            program.stop()
        self.http.shutdown()
        self.printer.close()

    @contextmanager
    def without(self, program: Program, signal: int = 15) -> Iterator[None]:
        program.stop(signal)
        try:
            yield
        finally:
            program.start()

    @contextmanager
    def without_printer(self) -> Iterator[None]:
        self.http.shutdown()
        self.http.server_close()
        try:
            yield
        finally:
            self.http = printers.serve(self.printer, ("127.0.0.1", PRINTER_PORT))

    def statement(self, account: str) -> str:
        with self.without(self.printd):
            return run("printd", "statement", "--store", STORE, account, user="printd")

    def printed(self, account: str) -> int:
        line = next(line for line in self.statement(account).splitlines() if line.startswith("printed "))
        return int(line.split()[1])
