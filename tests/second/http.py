"""The answers of a connection to the server, by the bytes that come in on it (docs/reference/http.md)."""
from __future__ import annotations

import re
from dataclasses import dataclass, field
from typing import Optional

from second.checks import FORMATS, Asked, format_of
from second.queue import Queue

MOST_HEAD_BYTES = 16_384
MOST_FIELD_LINES = 64
MOST_CONTENT_BYTES = 16_777_216
MOST_CHUNK_LINE_BYTES = 1_024
MOST_REQUESTS = 32

TOKEN = frozenset(b"!#$%&'*+-.^_`|~0123456789abcdefghijklmnopqrstuvwxyzABCDEFGHIJKLMNOPQRSTUVWXYZ")
HEX = frozenset(b"0123456789abcdefABCDEF")
NO_TEXT = frozenset([*range(0x20), 0x7F])

PHRASES = {
    400: b"Bad Request",
    404: b"Not Found",
    405: b"Method Not Allowed",
    411: b"Length Required",
    413: b"Payload Too Large",
    415: b"Unsupported Media Type",
    431: b"Request Header Fields Too Large",
}
CONTINUE = b"HTTP/1.1 100 Continue\r\n\r\n"

MESSAGES, REPORTS, QUEUE, DOCUMENTS = "messages", "reports", "queue", "documents"
SEGMENT = rb"([^/]+)"


@dataclass(frozen=True)
class Route:
    """The paths of a route, its name, its method and the media type of its body."""

    paths: re.Pattern[bytes]
    name: str
    method: bytes
    kind: Optional[bytes] = None


ROUTES = [
    Route(re.compile(rb"/ipp/print(?:/%s)?" % SEGMENT, re.DOTALL), MESSAGES, b"POST", b"application/ipp"),
    Route(re.compile(rb"/device/report"), REPORTS, b"POST", b"text/plain"),
    Route(re.compile(rb"/device/queue"), QUEUE, b"GET"),
    Route(re.compile(rb"/device/document/%s/%s" % (SEGMENT, SEGMENT), re.DOTALL), DOCUMENTS, b"GET"),
]
NUMBER = re.compile(rb"[1-9][0-9]{0,9}")


class Refused(Exception):
    """A request that is refused by a status code."""

    def __init__(self, code: int, allow: bytes | None = None):
        super().__init__(code)
        self.code = code
        self.allow = allow

    def spelled(self) -> bytes:
        allow = b"" if self.allow is None else b"Allow: %s\r\n" % self.allow
        return b"HTTP/1.1 %d %s\r\n%sContent-Length: 0\r\nConnection: close\r\n\r\n" % (self.code, PHRASES[self.code], allow)


class Ended(Exception):
    """The input has ended inside a request."""


class Shelf(Queue):
    """A queue that keeps the documents of its jobs, as pairs of a format and content."""

    def __init__(self, seconds: int, operators: frozenset[bytes]) -> None:
        super().__init__(seconds, operators)
        self.documents: dict[int, list[tuple[bytes, bytes]]] = {}

    def act(self, request: Asked, now: int) -> list[bytes]:
        before = {job.number: job.documents for job in self.jobs.values()}
        groups = super().act(request, now)
        named = request.values.get(b"document-format")
        kind = format_of(named[1]) if named else b"application/octet-stream"
        assert kind in FORMATS
        for job in self.jobs.values():
            if job.documents > before.get(job.number, 0):
                self.documents.setdefault(job.number, []).append((kind, request.payload))
        return groups

    def document(self, number: int, place: int) -> tuple[bytes, bytes] | None:
        """A document of a job by its place from 1, as long as the device may have it."""
        job, kept = self.jobs.get(number), self.documents.get(number, [])
        return kept[place - 1] if job is not None and job.state in (3, 5, 6) and 1 <= place <= len(kept) else None

    def text(self) -> bytes:
        """The queue of the device."""
        waiting = [job for job in self.jobs.values() if job.state == 3]
        return b"".join(b"%d %d %d %d\n" % (job.number, job.copies, job.documents, job.octets) for job in waiting)


# The name and the value of a field line.
Field = tuple[bytes, bytes]


@dataclass
class Head:
    method: bytes
    target: bytes
    minor: int
    fields: list[Field] = field(default_factory=list)

    def values(self, name: bytes) -> list[bytes]:
        """The values of the field lines of a name, which is in lower case."""
        return [value for other, value in self.fields if other.lower() == name]

    def members(self, name: bytes) -> set[bytes]:
        return {member.strip(b" \t").lower() for value in self.values(name) for member in value.split(b",")}


class Input:
    """Bytes that are read one by one, up to a limit that is not to be passed."""

    def __init__(self, stream: bytes):
        self.stream = stream
        self.at = 0
        self.limit: int | None = None
        self.beyond = Refused(400)

    def bound(self, count: int, refusal: Refused) -> None:
        """Sets how many bytes may be read from here on, and the refusal if more are wanted."""
        self.limit, self.beyond = self.at + count, refusal

    def byte(self) -> int:
        if self.at == self.limit:
            raise self.beyond
        if self.at == len(self.stream):
            raise Ended
        self.at += 1
        return self.stream[self.at - 1]

    def back(self) -> None:
        self.at -= 1

    def is_over(self) -> bool:
        return self.at == len(self.stream)

    def take(self, count: int) -> bytes:
        self.limit = None
        if len(self.stream) - self.at < count:
            self.at = len(self.stream)
            raise Ended
        self.at += count
        return self.stream[self.at - count : self.at]


def line_ends(reader: Input, byte: int) -> bool:
    """Whether this byte, and the next where it is a CR, end a line. A CR alone can't be read."""
    if byte == 0x0D and reader.byte() != 0x0A:
        raise Refused(400)
    return byte in (0x0A, 0x0D)


def read_fields(reader: Input, too_many: Refused) -> list[Field]:
    """Field lines, to the empty line after them."""
    fields: list[Field] = []
    while True:
        byte = reader.byte()
        if line_ends(reader, byte):
            return fields
        if byte not in TOKEN:
            raise Refused(400)
        name, value = bytearray(), bytearray()
        while byte != 0x3A:
            if byte not in TOKEN:
                raise Refused(400)
            name.append(byte)
            byte = reader.byte()
        while not line_ends(reader, byte := reader.byte()):
            if byte in NO_TEXT and byte != 0x09:
                raise Refused(400)
            value.append(byte)
        if len(fields) == MOST_FIELD_LINES:
            raise too_many
        fields.append((bytes(name), bytes(value).strip(b" \t")))


def read_head(reader: Input) -> Head:
    """A head from its first byte on. The input may end before it."""
    reader.bound(MOST_HEAD_BYTES, Refused(431))
    while line_ends(reader, byte := reader.byte()):
        pass
    method, target = bytearray(), bytearray()
    while byte != 0x20 or not method:
        if byte not in TOKEN:
            raise Refused(400)
        method.append(byte)
        byte = reader.byte()
    while (byte := reader.byte()) != 0x20 or not target:
        if byte == 0x20 or byte in NO_TEXT:
            raise Refused(400)
        target.append(byte)
    try:
        target.decode()
    except UnicodeDecodeError:
        raise Refused(400) from None
    for wanted in b"HTTP/1.":
        if reader.byte() != wanted:
            raise Refused(400)
    minor = reader.byte()
    if minor not in b"01" or not line_ends(reader, reader.byte()):
        raise Refused(400)
    return Head(bytes(method), bytes(target), minor - 0x30, read_fields(reader, Refused(431)))


def length_of(head: Head) -> tuple[int | None, bool]:
    """The length of a body, and whether it is chunked; neither is none."""
    codings, lengths = head.values(b"transfer-encoding"), head.values(b"content-length")
    if codings and (lengths or [coding.lower() for coding in codings] != [b"chunked"]):
        raise Refused(400)
    if any(not re.fullmatch(rb"[0-9]{1,20}", length) for length in lengths) or len(set(lengths)) > 1:
        raise Refused(400)
    return int(lengths[0]) if lengths else None, bool(codings)


def path_of(target: bytes) -> bytes:
    path = target.partition(b"?")[0]
    if path.startswith(b"http://"):
        rest = path[len(b"http://") :]
        return rest[rest.find(b"/") :] if b"/" in rest else b""
    return path


def routed(head: Head) -> tuple[str, re.Match[bytes], int, bool]:
    """The route of a head that no check refuses with what its path names, and its framing: the length of the body, or that it is chunked."""
    length, is_chunked = length_of(head)
    found = [(route, route.paths.fullmatch(path_of(head.target))) for route in ROUTES]
    route, match = next(((route, match) for route, match in found if match), (ROUTES[0], None))
    if match is None:
        raise Refused(404)
    if head.method != route.method:
        raise Refused(405, route.method)
    if route.method == b"GET":
        if is_chunked or length not in (None, 0):
            raise Refused(400)
        return route.name, match, 0, False
    if length is None and not is_chunked:
        raise Refused(411)
    if length is not None and length > MOST_CONTENT_BYTES:
        raise Refused(413)
    kinds = head.values(b"content-type")
    if not kinds or any(kind.partition(b";")[0].strip(b" ").lower() != route.kind for kind in kinds):
        raise Refused(415)
    if any(coding.lower() != b"identity" for coding in head.values(b"content-encoding")):
        raise Refused(415)
    return route.name, match, length or 0, is_chunked


def read_chunk_line(reader: Input) -> int:
    """The size in a chunk line."""
    reader.bound(MOST_CHUNK_LINE_BYTES, Refused(400))
    digits = bytearray()
    while (byte := reader.byte()) in HEX and len(digits) < 16:
        digits.append(byte)
    if not digits:
        raise Refused(400)
    while byte in b" \t":
        byte = reader.byte()
    if byte == 0x3B:
        while byte not in b"\r\n":
            byte = reader.byte()
    if byte != 0x0D or reader.byte() != 0x0A:
        raise Refused(400)
    return int(digits, 16)


def read_chunks(reader: Input) -> bytes:
    """The content of a chunked body."""
    content = b""
    while size := read_chunk_line(reader):
        if len(content) + size > MOST_CONTENT_BYTES:
            raise Refused(413)
        content += reader.take(size)
        for wanted in b"\r\n":
            if reader.byte() != wanted:
                raise Refused(400)
    reader.bound(MOST_HEAD_BYTES, Refused(400))
    read_fields(reader, Refused(400))
    return content


@dataclass
class Answered:
    """The bytes that a connection was answered, and how many of its requests acted."""

    bytes: bytes = b""
    acted: int = 0


def number_of(text: bytes) -> int | None:
    return int(text) if NUMBER.fullmatch(text) and int(text) < 2**32 else None


def act(queue: Shelf, name: str, match: re.Match[bytes], body: bytes, now: int) -> tuple[bytes, bytes, bool]:
    """The type and the content of an answer, and whether the request acted."""
    if name == MESSAGES:
        content = queue.answer(body, now)
        if content is None:
            raise Refused(400)
        return b"application/ipp", content, True
    if name == REPORTS:
        line = body[:-1] if body.endswith(b"\n") else b""
        return b"text/plain", queue.report(line, now) + b"\n", True
    if name == QUEUE:
        return b"text/plain", queue.text(), False
    number, place = number_of(match[1]), number_of(match[2])
    found = None if number is None or place is None else queue.document(number, place)
    if found is None:
        raise Refused(404)
    return *found, False


def talk(queue: Shelf, stream: bytes, now: int) -> Answered:
    """Ends the jobs that have expired, and answers all that comes in on a connection."""
    reader, answered = Input(stream), Answered()
    queue.expire(now)
    try:
        for count in range(1, MOST_REQUESTS + 1):
            if reader.is_over():
                break
            head = read_head(reader)
            name, match, length, is_chunked = routed(head)
            if head.minor == 1 and b"100-continue" in head.members(b"expect"):
                answered.bytes += CONTINUE
            body = read_chunks(reader) if is_chunked else reader.take(length)
            kind, content, has_acted = act(queue, name, match, body, now)
            answered.acted += has_acted
            is_last = count == MOST_REQUESTS or head.minor == 0 or b"close" in head.members(b"connection")
            fields = b"Content-Type: %s\r\nContent-Length: %d\r\n%s\r\n" % (kind, len(content), b"Connection: close\r\n" * is_last)
            answered.bytes += b"HTTP/1.1 200 OK\r\n" + fields + content
            if is_last:
                break
    except Refused as refusal:
        answered.bytes += refusal.spelled()
    except Ended:
        pass
    return answered
