"""Messages of IPP (RFC 8010, section 3): spells requests, reads replies, and exchanges them over HTTP.

The release station, CUPS' backend, the command that prints and the gateway's check use it; so do the tests and the measurements.
"""
from __future__ import annotations

import http.client
import socket
from collections.abc import Iterable, Mapping
from dataclasses import dataclass, field
from enum import IntEnum
from typing import Union


class Operation(IntEnum):
    """Operations (RFC 8011, section 5.4.15; the last two are PWG 5100.11's and CUPS')."""

    PRINT_JOB = 0x0002
    VALIDATE_JOB = 0x0004
    CREATE_JOB = 0x0005
    SEND_DOCUMENT = 0x0006
    CANCEL_JOB = 0x0008
    GET_JOB_ATTRIBUTES = 0x0009
    GET_JOBS = 0x000A
    GET_PRINTER_ATTRIBUTES = 0x000B
    HOLD_JOB = 0x000C
    RELEASE_JOB = 0x000D
    CANCEL_MY_JOBS = 0x0039
    CUPS_GET_PRINTERS = 0x4002


class Status(IntEnum):
    """Status codes that programs look at by name (RFC 8011, appendix B). A code up to LAST_SUCCESS is a success."""

    OK = 0x0000
    LAST_SUCCESS = 0x00FF
    FORBIDDEN = 0x0401
    NOT_AUTHENTICATED = 0x0402
    NOT_AUTHORIZED = 0x0403
    NOT_POSSIBLE = 0x0404
    NOT_FOUND = 0x0406
    FORMAT_NOT_SUPPORTED = 0x040A
    FIRST_SERVER_ERROR = 0x0500
    OPERATION_NOT_SUPPORTED = 0x0501
    TEMPORARY_ERROR = 0x0505
    BUSY = 0x0507


class JobState(IntEnum):
    """States of a job (RFC 8011, section 5.3.7). One from CANCELED on has ended."""

    PENDING = 3
    HELD = 4
    PROCESSING = 5
    STOPPED = 6
    CANCELED = 7
    ABORTED = 8
    COMPLETED = 9


class Group(IntEnum):
    """Delimiter tags (RFC 8010, section 3.5.1). Every tag under FIRST_VALUE is one."""

    OPERATION = 0x01
    JOB = 0x02
    END = 0x03
    PRINTER = 0x04
    UNSUPPORTED = 0x05
    FIRST_VALUE = 0x10


class Tag(IntEnum):
    """Value tags (RFC 8010, section 3.5.2)."""

    UNSUPPORTED = 0x10
    NO_VALUE = 0x13
    INTEGER = 0x21
    BOOLEAN = 0x22
    ENUM = 0x23
    RESOLUTION = 0x32
    RANGE = 0x33
    BEGIN_COLLECTION = 0x34
    TEXT_WITH_LANGUAGE = 0x35
    NAME_WITH_LANGUAGE = 0x36
    END_COLLECTION = 0x37
    TEXT = 0x41
    NAME = 0x42
    KEYWORD = 0x44
    URI = 0x45
    URI_SCHEME = 0x46
    CHARSET = 0x47
    LANGUAGE = 0x48
    MEDIA_TYPE = 0x49
    MEMBER_NAME = 0x4A


Value = Union[int, bool, str, bytes]
Attributes = dict[str, list[Value]]

NUMBERS = (Tag.INTEGER, Tag.ENUM)
WITH_LANGUAGE = (Tag.TEXT_WITH_LANGUAGE, Tag.NAME_WITH_LANGUAGE)
FIRST_TEXT, LAST_TEXT = 0x40, 0x5F
VERSION_1_1, VERSION_2_0 = b"\x01\x01", b"\x02\x00"
CONTENT_TYPE = "application/ipp"
# No reply to a request of these programs is longer.
MOST_REPLY_OCTETS = 16_777_216


class Malformed(ValueError):
    """Bytes are no IPP message."""


class NoAnswer(Exception):
    """A server gave no answer. The text continues a sentence whose subject is the server."""


class TooLate(NoAnswer):
    """A server took the connection and gave no answer in time. It may still act on the request."""


class OtherAnswer(NoAnswer):
    """A server answered without an IPP message. It has the status of the HTTP response."""

    def __init__(self, reason: str, status: int):
        super().__init__(reason)
        self.status = status


@dataclass(frozen=True)
class Message:
    """A message that was read: its operation or status code, its groups in order, and the bytes after them."""

    code: int
    request_id: int
    groups: list[tuple[int, Attributes]] = field(default_factory=list)
    data: bytes = b""

    @property
    def is_success(self) -> bool:
        return self.code <= Status.LAST_SUCCESS

    def all(self, group: Group) -> list[Attributes]:
        """The groups of a kind, as the jobs of a reply."""
        return [attributes for kind, attributes in self.groups if kind == group]

    def only(self, group: Group) -> Attributes:
        """The first group of a kind; without one it has no attributes."""
        groups = self.all(group)
        return groups[0] if groups else {}


def first_of(attributes: Attributes, name: str) -> Value | None:
    values = attributes.get(name)
    return values[0] if values else None


def number(attributes: Attributes, name: str) -> int:
    """The first value of an attribute, if it is there and a number, else 0."""
    value = first_of(attributes, name)
    return value if isinstance(value, int) else 0


def text(attributes: Attributes, name: str) -> str:
    """The first value of an attribute, if it is there and a text, else the empty one."""
    value = first_of(attributes, name)
    return value if isinstance(value, str) else ""


def octets(value: Value) -> bytes:
    """A value as its octets: text in UTF-8, a truth value in one byte, a number in four."""
    if isinstance(value, bytes):
        return value
    if isinstance(value, str):
        return value.encode()
    if isinstance(value, bool):
        return bytes([value])
    return value.to_bytes(4, "big", signed=True)


def unsigned(number: int) -> bytes:
    """A number without a sign in four bytes, as a request-id."""
    return number.to_bytes(4, "big")


def counted(text: bytes) -> bytes:
    """Octets after their number, which has two bytes."""
    return len(text).to_bytes(2, "big") + text


def record(tag: int, name: Value, value: Value) -> bytes:
    """A value with a name. With the empty name it is a further value of the attribute before it."""
    return bytes([tag]) + counted(octets(name)) + counted(octets(value))


def attribute(tag: int, name: Value, *values: Value) -> bytes:
    """An attribute with its values: every further value is a record without a name."""
    return b"".join(record(tag, b"" if place else name, value) for place, value in enumerate(values))


def name_with_language(language: Value, text: Value) -> bytes:
    """The value of a nameWithLanguage."""
    return counted(octets(language)) + counted(octets(text))


def message(code: int, request_id: int, groups: Iterable[tuple[Group, bytes]], data: bytes = b"", version: bytes = VERSION_1_1) -> bytes:
    """A message of groups that are spelled already, each after its delimiter."""
    spelled = b"".join(bytes([group]) + attributes for group, attributes in groups)
    return version + code.to_bytes(2, "big") + unsigned(request_id) + spelled + bytes([Group.END]) + data


def begun(charset: str = "utf-8", language: str = "en") -> bytes:
    """The two attributes with which the operation group of each message begins."""
    return record(Tag.CHARSET, "attributes-charset", charset) + record(Tag.LANGUAGE, "attributes-natural-language", language)


def request(
    operation: int, printer: str | None, user: str | bytes, *attributes: bytes, job: int | None = None, job_attributes: bytes = b"",
    version: bytes = VERSION_1_1,
) -> bytes:
    """A request of a user to a printer, or about a job of it, with further operation attributes. The document follows it."""
    target = b"" if printer is None else attribute(Tag.URI, "printer-uri", printer)
    if job is not None:
        target += attribute(Tag.INTEGER, "job-id", job)
    operation_group = begun() + target + attribute(Tag.NAME, "requesting-user-name", user) + b"".join(attributes)
    groups = [(Group.OPERATION, operation_group)]
    if job_attributes:
        groups.append((Group.JOB, job_attributes))
    return message(operation, 1, groups, version=version)


def wanted(*names: str) -> bytes:
    """The attribute requested-attributes."""
    return attribute(Tag.KEYWORD, "requested-attributes", *names)


def value_of(tag: int, text: bytes) -> Value:
    """A number, a truth value or a text, if the tag is of one; else the octets."""
    if tag in NUMBERS:
        return int.from_bytes(text, "big", signed=True)
    if tag == Tag.BOOLEAN:
        return text != b"\0"
    if tag in WITH_LANGUAGE:
        length = int.from_bytes(text[:2], "big")
        text = text[4 + length:]
    elif not FIRST_TEXT <= tag <= LAST_TEXT:
        return text
    return text.decode("utf-8", "replace")


class Reader:
    """Reads the bytes of a message from their start."""

    def __init__(self, text: bytes):
        self.text, self.at = text, 0

    def take(self, length: int) -> bytes:
        part = self.text[self.at:self.at + length]
        if len(part) < length:
            raise Malformed(f"the message ends after {len(self.text)} bytes")
        self.at += length
        return part

    def number(self, length: int) -> int:
        return int.from_bytes(self.take(length), "big")

    def counted(self) -> bytes:
        return self.take(self.number(2))

    def attributes(self, group: Attributes) -> int:
        """Reads the attributes of a group, and the delimiter after them. The members of a collection are passed over."""
        name, depth = None, 0
        while (tag := self.number(1)) >= Group.FIRST_VALUE:
            own_name, text = self.counted(), self.counted()
            if own_name and depth == 0:
                name = own_name.decode("utf-8", "replace")
                group.setdefault(name, [])
            if name is None:
                raise Malformed("a value has no attribute")
            if tag == Tag.END_COLLECTION:
                depth -= 1
            if depth < 0:
                raise Malformed("a collection ends that has not begun")
            if depth == 0 and tag not in (Tag.BEGIN_COLLECTION, Tag.END_COLLECTION):
                group[name].append(value_of(tag, text))
            if tag == Tag.BEGIN_COLLECTION:
                depth += 1
        if depth > 0:
            raise Malformed("a collection has no end")
        return tag

    def message(self) -> Message:
        self.take(2)
        code, request_id = self.number(2), self.number(4)
        groups: list[tuple[int, Attributes]] = []
        delimiter = self.number(1)
        while delimiter != Group.END:
            if delimiter >= Group.FIRST_VALUE:
                raise Malformed("a value has no group")
            group: Attributes = {}
            groups.append((delimiter, group))
            delimiter = self.attributes(group)
        return Message(code, request_id, groups, self.text[self.at:])


def read(text: bytes) -> Message:
    """The message that bytes spell. Raises Malformed if they spell none."""
    return Reader(text).message()


class UnixConnection(http.client.HTTPConnection):
    """A connection of HTTP over a Unix socket, as cupsd has one."""

    def __init__(self, path: str, timeout: float):
        super().__init__("localhost", timeout=timeout)
        self.path = path

    def connect(self) -> None:
        self.sock = socket.socket(socket.AF_UNIX)
        self.sock.settimeout(self.timeout)
        self.sock.connect(self.path)


def exchange(connection: http.client.HTTPConnection, path: str, text: bytes, headers: Mapping[str, str] | None = None) -> Message:
    """Sends a message, reads the reply and closes the connection. Raises NoAnswer if no IPP message comes."""
    try:
        connection.request("POST", path, body=text, headers={"Content-Type": CONTENT_TYPE, "Connection": "close", **(headers or {})})
        response = connection.getresponse()
        content = response.read(MOST_REPLY_OCTETS)
    except socket.timeout:
        raise TooLate(f"gives no answer in {connection.timeout:g} s") from None
    # a name that can't be one of a host is a UnicodeError
    except (OSError, UnicodeError, http.client.HTTPException) as fault:
        raise NoAnswer(f"does not answer: {str(fault) or type(fault).__name__}") from None
    finally:
        connection.close()
    if response.status != http.HTTPStatus.OK:
        raise OtherAnswer(f"answers {response.status} {response.reason}", response.status)
    try:
        return read(content)
    except Malformed as fault:
        raise OtherAnswer(f"gives an answer that is no IPP message: {fault}", response.status) from None
