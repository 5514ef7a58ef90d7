"""Random bytes for connections: requests by HTTP, good ones and crooked ones, with random messages and lines of the device in them."""
from __future__ import annotations

import copy
from collections.abc import Sequence
from random import Random
from typing import Union

from ipp import octets
from messages import Draft
from second.calls import Calls, Draws
from second.http import MOST_HEAD_BYTES, MOST_REQUESTS, Shelf, talk
from second.requests import Writer

# A text, and the name and the value of a field line.
Text = Union[str, bytes]
Field = tuple[str, Text]

MESSAGE, LINE = "application/ipp", "text/plain"
OTHER_FIELDS: list[Field] = [
    ("Host", "localhost:631"), ("User-Agent", "bench"), ("Accept", "*/*"), ("X-Empty", ""), ("Connection", "keep-alive"), ("Connection", "Keep-Alive, upgrade"),
    ("X-Text", b"caf\xe9 \xc3\xa9"), ("Accept", "a\tb"), ("Expect", "200-ok"), ("Content-Encoding", "identity"), ("Content-Encoding", "Identity"),
]
LAST_FIELDS: list[Field] = [("Connection", "close"), ("Connection", "keep-alive ,\tClose"), ("connection", ",close,")]
EXPECTED: list[Field] = [("Expect", "100-continue"), ("Expect", "a, 100-Continue"), ("Expect", "100-continue;x")]
# fields that some check, or none, refuses
CROOKED_FIELDS: list[Field] = [
    ("Content-Length", "5"), ("Content-Length", "+5"), ("Content-Length", "-1"), ("Content-Length", ""), ("Content-Length", "5,5"),
    ("Content-Length", "0x5"), ("Content-Length", 21 * "0"), ("Content-Length", 20 * "0"), ("Content-Length", "16777217"), ("Content-Length", 20 * "9"),
    ("Transfer-Encoding", "chunked"), ("Transfer-Encoding", "Chunked"), ("Transfer-Encoding", "gzip"), ("Transfer-Encoding", "gzip, chunked"),
    ("Transfer-Encoding", "chunked;q=1"), ("Transfer-Encoding", ""), ("Content-Type", MESSAGE), ("Content-Type", LINE), ("Content-Type", "image/png"),
    ("Content-Type", ""), ("Content-Type", "application/ippx"), ("Content-Encoding", "gzip"), ("Content-Encoding", ""), ("Content-Encoding", "identity, gzip"),
]
CROOKED_TARGETS: list[Text] = [
    "/", "*", "/ipp/print/", "/ipp/print/x/y", "/ipp//print", "//ipp/print", "/IPP/print", "/ipp/print#a", "/ipp/%70rint", "/ipp/printx", "ipp/print",
    "http://localhost/ipp/print", "http://localhost:631/device/queue?x", "HTTP://localhost/ipp/print", "http://localhost", "http:///ipp/print", "https://localhost/ipp/print",
    "/device/queue/", "/device/queue?", "/device/queue?a/b", "/device/report?x", "/device/document/1", "/device/document/1/", "/device/document//1", "/device/document/1/1/1",
    "/device/document/0/1", "/device/document/01/1", "/device/document/1/0", "/device/document/4294967296/1", "/device/document/4294967297/1", "/device/document/1/4294967297",
    "/device/document/-1/1", "/device/document/1/1?x", "/device/document/a/b", "/device/documents/1/1", "/ipp/print/" + 300 * "9", b"/ipp/print/\xc3\xa9", b"/ipp/print/\xe9",
]
METHODS = ["GET", "POST", "HEAD", "PUT", "OPTIONS", "get", "Post", "G", "M-SEARCH", "PRI", "a!#$%&'*+.^_`|~9"]
# lines for a head, in place of a line or between two
LINES = [
    b" folded", b"\tfolded", b"Name : value", b": value", b"Name", b"Name value", b"X\x00: a", b"X: a\x00b", b"X: a\x7fb", b"X: a\rb", b"X: a\x0bb",
    b"\r", b"X:", b"X:\t \t", b"X:a:b",
]
CHUNK_LINES = [
    b"", b"g", b"-1", b"+1", b"0x1", b" 1", b"1 1", b"11111111111111111", b"1000001", b"ffffffffffffffff", b"1\t ;a=\"b\x00\xff\"", b"1;a\rb",
    b"1;" + 1021 * b"e", b"1;" + 1019 * b"e",
]


class Streams:
    """Makes the bytes of connections about a queue."""

    def __init__(self, random: Random, queue: Shelf):
        self.random = random
        self.queue = queue

    def chance(self, probability: float) -> bool:
        return self.random.random() < probability

    def stream(self, now: int) -> bytes:
        """The bytes of a connection: requests, each of which is made for the queue after those before it."""
        draft, stream = copy.deepcopy(self.queue), b""
        count = MOST_REQUESTS + 2 if self.chance(0.02) else self.random.choice([0, 1, 1, 2, 3, 5, 8])
        for _ in range(count):
            request = self.request(draft)
            talk(draft, request, now)
            stream += request
        if stream and self.chance(0.25):
            stream = self.changed(stream)
        return stream

    def changed(self, stream: bytes) -> bytes:
        """The stream cut, or with bytes set, put in or taken out."""
        # most often in a head or in what frames a body
        places = [at for at, byte in enumerate(stream) if byte in b"\r\n :/"] if self.chance(0.5) else None
        at = self.random.choice(places) if places else self.random.randrange(len(stream))
        byte = bytes([self.random.choice([0, 9, 10, 13, 32, 47, 58, 59, 63, 127, 128, 255, self.random.randrange(256)])])
        choices = [stream[:at], stream[:at] + byte + stream[at + 1 :], stream[:at] + byte + stream[at:], stream[:at] + stream[at + 1 :]]
        return self.random.choice(choices)

    def request(self, draft: Shelf) -> bytes:
        """A request, and its body where it has one."""
        kinds = 9 * [self.message] + 4 * [self.report] + 2 * [self.device_queue] + 4 * [self.document] + [self.other]
        return self.random.choice(kinds)(draft)

    def calls(self, draft: Shelf) -> Calls:
        return Calls(Draws(self.random.getrandbits(64)), draft)

    def message(self, draft: Shelf) -> bytes:
        target = self.random.choice(["/ipp/print", "/ipp/print", "/ipp/print/1", "/ipp/print?x/y", "http://localhost:631/ipp/print/any"])
        if self.chance(0.03):
            return self.posted(target, MESSAGE, self.random.randbytes(self.random.randrange(12)))
        if self.chance(0.25):
            return self.posted(target, MESSAGE, Writer(self.random, draft).request())
        while not isinstance(call := self.calls(draft).call(), Draft):
            pass
        # the payload is at the end, so this makes it longer
        more = self.random.randbytes(self.random.choice([4_095, 4_096, 65_537, 300_000])) if self.chance(0.03) else b""
        return self.posted(target, MESSAGE, call.spelled(self.random.getrandbits(32)) + more)

    def report(self, draft: Shelf) -> bytes:
        line = self.calls(draft).device()[len(b"dev ") :]
        end = self.random.choice(20 * [b"\n"] + [b"", b"\r\n", b"\n\n", b" \n"])
        return self.posted("/device/report", LINE, line + end)

    def device_queue(self, draft: Shelf) -> bytes:
        return self.got("/device/queue")

    def document(self, draft: Shelf) -> bytes:
        held = [job for job in draft.jobs.values() if job.state in (3, 5, 6) and job.documents]
        if not held or self.chance(0.1):
            return self.got(f"/device/document/{self.random.randrange(len(draft.jobs) + 2)}/{self.random.randrange(3)}")
        job = self.random.choice(held)
        return self.got(f"/device/document/{job.number}/{self.random.randint(1, job.documents)}")

    def other(self, draft: Shelf) -> bytes:
        """A request of any method to any target."""
        target, method = self.random.choice(CROOKED_TARGETS), self.random.choice(METHODS[:2] + METHODS)
        fields = [("Content-Type", self.random.choice([MESSAGE, LINE])), ("Content-Length", "0")]
        return self.spelled(method, target, fields[: self.random.randrange(3)], b"")

    # ---- the spelling of a request

    def got(self, target: Text) -> bytes:
        fields = [("Content-Length", self.random.choice(["0", "00", "1"]))] if self.chance(0.1) else []
        return self.spelled("GET", target, fields, b"")

    def posted(self, target: Text, kind: str, body: bytes) -> bytes:
        kind += self.random.choice(6 * [""] + ["; charset=utf-8", " ;x", ";"])
        fields = [("Content-Type", self.random.choice([kind, kind, kind.upper(), kind + " "]))]
        if self.chance(0.4):
            fields.append(("Transfer-Encoding", self.random.choice(["chunked", "chunked", "CHUNKED"])))
            body = self.chunked(body)
        else:
            length = self.random.choice(4 * [""] + ["0", "000"]) + str(len(body))
            fields += self.random.choice([1, 1, 1, 2]) * [("Content-Length", length)]
        if self.chance(0.02):
            del fields[self.random.randrange(len(fields))]
        return self.spelled("POST", target, fields, body)

    def spelled(self, method: str, target: Text, told: Sequence[Field], body: bytes) -> bytes:
        fields = [*told, *self.random.sample(OTHER_FIELDS, self.random.randrange(4))]
        for some, probability in [(LAST_FIELDS, 0.05), (EXPECTED, 0.1), (CROOKED_FIELDS, 0.05)]:
            if self.chance(probability):
                fields.append(self.random.choice(some))
        self.random.shuffle(fields)
        if self.chance(0.01):
            fields += self.random.choice([64, 65, 66]) * [("X", "")]
        if self.chance(0.01):
            fields.append(("X-Long", self.random.choice([15_000, MOST_HEAD_BYTES - 200, MOST_HEAD_BYTES]) * "x"))
        version = self.random.choice(30 * ["HTTP/1.1"] + 2 * ["HTTP/1.0"] + ["HTTP/1.2", "HTTP/2.0", "http/1.1", "HTTP/1.", ""]) if self.chance(0.2) else "HTTP/1.1"
        lines = [b" ".join([octets(method), octets(target), octets(version)]), *map(self.field_line, fields)]
        if self.chance(0.02):
            lines.insert(self.random.randrange(len(lines) + 1), self.random.choice(LINES))
        empty = self.random.choice(20 * [0] + [1, 2]) * [b""]
        return b"".join(line + self.line_end() for line in [*empty, *lines, b""]) + body

    def field_line(self, field: Field) -> bytes:
        name, value = map(octets, field)
        name = self.random.choice([name, name, name.lower(), name.upper()])
        return name + b":" + self.random.choice([b" ", b" ", b"", b"\t ", b"  "]) + value + self.random.choice([b"", b"", b"", b" ", b"\t"])

    def line_end(self) -> bytes:
        return self.random.choice(9 * [b"\r\n"] + [b"\n"])

    def chunked(self, body: bytes) -> bytes:
        """A body in chunks."""
        stream = b""
        while body:
            size = self.random.randint(1, len(body)) if self.chance(0.7) else len(body)
            stream += self.chunk_line(size) + body[:size] + (b"\r\n" if self.chance(0.995) else self.random.choice([b"", b"\n", b"\r", b"x\r\n"]))
            body = body[size:]
        return stream + self.chunk_line(0) + self.trailers() + self.line_end()

    def chunk_line(self, size: int) -> bytes:
        if self.chance(0.005):
            return self.random.choice(CHUNK_LINES) + b"\r\n"
        digits = self.random.choice([b"%x", b"%X", b"%04x", b"%016x"]) % size
        return digits + self.random.choice(6 * [b""] + [b" ", b" \t", b";", b" ;a=b", b"; \"\xff\""]) + (b"\r\n" if self.chance(0.998) else b"\n")

    def trailers(self) -> bytes:
        if self.chance(0.9):
            return b""
        lines = [self.field_line(field) for field in self.random.choices(OTHER_FIELDS + CROOKED_FIELDS, k=self.random.choice([1, 2, 64, 65]))]
        if self.chance(0.2):
            lines.append(self.random.choice(LINES))
        return b"".join(line + self.line_end() for line in lines)
