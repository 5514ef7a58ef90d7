"""The program for tests and measurements, and a process of it that serves a store."""
from __future__ import annotations

import os
import signal
import socket
import subprocess
import sys
from collections.abc import Mapping, Sequence
from pathlib import Path
from types import TracebackType
from typing import IO, Optional, Union

TOP = Path(__file__).resolve().parents[2]
# the built program
PROGRAM = TOP / "crates" / "printd" / "out" / "printd"
# The greatest number of connections: a server of that number is stopped, and doesn't end by itself.
MOST_CONNECTIONS = 4_294_967_295

Place = Union[str, Path]


def free_port() -> int:
    """A port of 127.0.0.1 on which nobody listens now."""
    with socket.socket() as probe:
        probe.bind(("127.0.0.1", 0))
        return int(probe.getsockname()[1])


class Served:
    """A server that serves a number of connections of a store, on a port of its own. After a `with` it doesn't run any more."""

    def __init__(
        self, store: Place, connections: int = MOST_CONNECTIONS, *, program: Place = PROGRAM, port: Optional[int] = None,
        under: Sequence[str] = (), environment: Optional[Mapping[str, str]] = None, keeps_errors: bool = False,
    ):
        """Starts it, as a program under another one if `under` has the words of that, and waits until it listens or has ended."""
        self.port = free_port() if port is None else port
        words = [program, "serve", "--store", store, "--port", str(self.port), "--connections", str(connections)]
        self.process = subprocess.Popen(
            [*under, *map(str, words)], stdout=subprocess.PIPE, stderr=subprocess.PIPE if keeps_errors else None, env=environment
        )
        self.first_line = self.line()
        self.reader: Optional[subprocess.Popen[bytes]] = None

    @property
    def output(self) -> IO[bytes]:
        assert self.process.stdout is not None
        return self.process.stdout

    @property
    def is_listening(self) -> bool:
        """Whether it listened, once it was started."""
        return self.first_line == b"listening 127.0.0.1:%d\n" % self.port

    def must_listen(self) -> Served:
        """Ends this program with a message if the server didn't listen."""
        if not self.is_listening:
            self.stop()
            sys.exit(f"{os.path.basename(sys.argv[0])}: the server does not listen, but prints {self.first_line!r}")
        return self

    def line(self) -> bytes:
        """The next line that it prints, which is empty once it has ended."""
        return self.output.readline()

    def drain(self) -> Served:
        """Has all further lines read by a program that drops them, so that the server never waits for its reader."""
        self.reader = subprocess.Popen(["cat"], stdin=self.output, stdout=subprocess.DEVNULL)
        return self

    def end(self, seconds: Optional[float] = None) -> tuple[int, bytes, bytes]:
        """Waits for its own end: its status, and what it has printed since, on standard output and on standard error if that is kept."""
        printed, errors = self.process.communicate(timeout=seconds)
        return self.process.returncode, printed, errors

    def stop(self, number: int = signal.SIGKILL) -> None:
        """Ends it by a signal, if it still runs."""
        if self.process.poll() is None:
            self.process.send_signal(number)
        self.process.wait()
        if self.reader is not None:
            self.reader.wait()
        for stream in (self.process.stdout, self.process.stderr):
            if stream is not None:
                stream.close()

    def __enter__(self) -> Served:
        return self

    def __exit__(self, kind: Optional[type[BaseException]], fault: Optional[BaseException], trace: Optional[TracebackType]) -> None:
        self.stop()
