"""Requests of HTTP for tests and measurements: their bytes, their answers, and an exchange by a connection of its own."""
from __future__ import annotations

import socket
from dataclasses import dataclass

from ipp import octets
from messages import Draft

MESSAGE, LINE = "application/ipp", "text/plain"


def posted(target: str, kind: str, body: bytes, version: str = "1.0") -> bytes:
    """A POST of a body of a media type."""
    return f"POST {target} HTTP/{version}\r\nContent-Type: {kind}\r\nContent-Length: {len(body)}\r\n\r\n".encode() + body


def post(message: Draft, request_id: int = 1, version: str = "1.0") -> bytes:
    """An IPP request."""
    return posted("/ipp/print", MESSAGE, message.spelled(request_id), version)


def report(line: str | bytes) -> bytes:
    """A line of the device."""
    return posted("/device/report", LINE, octets(line) + b"\n")


def get(path: str, version: str = "1.0") -> bytes:
    return f"GET {path} HTTP/{version}\r\n\r\n".encode()


@dataclass(frozen=True)
class Head:
    """The head of an answer: its status, its media type and the length of its content."""

    status: int
    kind: str
    length: int


def head_of(lines: bytes) -> Head:
    """The head that these lines are."""
    first, *others = lines.decode("latin-1").split("\r\n")
    fields = {name.lower(): value.strip() for name, _, value in (line.partition(":") for line in others)}
    return Head(int(first.split()[1]), fields.get("content-type", ""), int(fields.get("content-length", "0")))


@dataclass(frozen=True)
class Answer:
    """An answer, or as much of it as came."""

    head: Head
    content: bytes

    @property
    def is_whole(self) -> bool:
        return len(self.content) == self.head.length


def answer_of(came: bytes) -> Answer:
    """The one answer that came on a connection."""
    lines, _, content = came.partition(b"\r\n\r\n")
    return Answer(head_of(lines), content)


def exchange(port: int, asked: bytes) -> bytes:
    """Sends a request by a connection of its own: all that comes back. It raises ConnectionError if the server is away or resets it."""
    with socket.create_connection(("127.0.0.1", port)) as client:
        client.sendall(asked)
        return b"".join(iter(lambda: client.recv(1 << 16), b""))
