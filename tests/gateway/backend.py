"""Runs the backend `release` as cupsd does, and answers it in the place of a server."""
from __future__ import annotations

import http.server
import subprocess
import tempfile
import threading
from dataclasses import dataclass
from pathlib import Path

from runs import BACKEND, COUNTER_PATH, Run, Word, run

import ipp

HELD, USAGE, STOPS, CANCELS, WAITS = 0, 1, 4, 5, 6


@dataclass
class Backend:
    """The words and the environment with which cupsd would start the backend for a job."""

    device_uri: str | None
    user: str | bytes = "alice"
    title: str | bytes = "report"
    copies: str = "1"
    options: str = ""
    path: str = COUNTER_PATH
    content_type: str = "application/vnd.cups-pdf"

    def environment(self) -> dict[str, str]:
        environment = {"PATH": self.path, "CONTENT_TYPE": self.content_type, "TMPDIR": tempfile.gettempdir()}
        return environment if self.device_uri is None else {**environment, "DEVICE_URI": self.device_uri}

    def words(self) -> list[Word]:
        return [*BACKEND, "17", self.user, self.title, self.copies, self.options]

    def send(self, document: bytes) -> Run:
        """The document comes on standard input, as from a filter."""
        return run(self.words(), self.environment(), document)

    def start(self, path: Path) -> subprocess.Popen[str]:
        """Starts it for a file, and doesn't wait for its end."""
        return subprocess.Popen([*self.words(), path], env=self.environment(), stdin=subprocess.DEVNULL, stderr=subprocess.PIPE, text=True)

    def send_file(self, path: Path) -> Run:
        """The document is a file, as in a raw queue."""
        return run([*self.words(), path], self.environment())


class Stand:
    """Answers each request by the same bytes, in the place of a server."""

    def __init__(self, status: int = 200, body: bytes | None = None, code: int = 0):
        reply = ipp.message(code, 1, [(ipp.Group.OPERATION, ipp.begun())]) if body is None else body

        class Handler(http.server.BaseHTTPRequestHandler):
            def do_POST(self) -> None:
                self.rfile.read(int(self.headers["Content-Length"]))
                self.send_response(status)
                self.send_header("Content-Length", str(len(reply)))
                self.end_headers()
                self.wfile.write(reply)

            def log_message(self, format: str, *args: object) -> None:
                pass

        self.http = http.server.HTTPServer(("127.0.0.1", 0), Handler)
        threading.Thread(target=self.http.serve_forever, args=(0.02,), daemon=True).start()

    @property
    def device_uri(self) -> str:
        return f"release://127.0.0.1:{self.http.server_port}/ipp/print"

    def __enter__(self) -> Stand:
        return self

    def __exit__(self, *_: object) -> None:
        self.http.shutdown()
        self.http.server_close()
