"""The answers to the lines of a replay (docs/reference/command-line.md)."""
from __future__ import annotations

import re

from second.queue import Queue

LAST_MOMENT = 2_147_483_647
MOST_BYTES = 16_777_216

NOW = re.compile(rb"now ([1-9][0-9]{0,9})")
MESSAGE = re.compile(rb"ipp ((?:[0-9A-Fa-f]{2})*)")


class BadLine(Exception):
    """A line that is none of a replay."""


class Replay:
    """A queue, and the moment of its next request."""

    def __init__(self) -> None:
        self.queue = Queue()
        self.now = 1

    def answer(self, line: bytes) -> bytes | None:
        """The line that answers a line, both without their line feeds, and none if nothing answers it."""
        now, message = NOW.fullmatch(line), MESSAGE.fullmatch(line)
        if now is not None and int(now[1]) <= LAST_MOMENT:
            self.now = int(now[1])
            return None
        if message is not None and len(message[1]) <= 2 * MOST_BYTES:
            answer = self.queue.answer(bytes.fromhex(message[1].decode()), self.now)
            return b"ipp " + (b"short" if answer is None else answer.hex().encode())
        if line.startswith(b"dev "):
            return self.queue.report(line[len(b"dev ") :], self.now)
        if line.startswith(b"grant "):
            return b"grant " + self.queue.grant(line[len(b"grant ") :])
        if line == b"expire":
            return b"expired %d" % self.queue.expire(self.now)
        raise BadLine


def replay(text: bytes) -> tuple[bytes, int]:
    """The text that answers a text, and the exit status."""
    taken, answers = Replay(), b""
    lines = text.split(b"\n")
    if not lines[-1]:
        lines.pop()
    for place, line in enumerate(lines, 1):
        try:
            answer = taken.answer(line)
        except BadLine:
            return answers + b"bad line %d\n" % place, 1
        answers += b"" if answer is None else answer + b"\n"
    return answers, 0
