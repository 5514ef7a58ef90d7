"""Requests and replies as tests and measurements write them: without a request-id, and crooked ones too.

They are written from the documents alone: RFC 8010, section 3.1, and docs/reference/ipp.md. They share no code with the server. The worked
examples (tests/cases.py) and the second queue (tests/compare.py) are made of them. tools/lib/ipp.py has the tags and spells attributes.
"""
from __future__ import annotations

from collections.abc import Sequence
from dataclasses import dataclass
from typing import Optional, Union

from ipp import VERSION_1_1, Group, Tag, Value, attribute, begun, record, unsigned

PRINTER = "ipp://localhost/ipp/print"

OPERATION_GROUP, JOB_GROUP, END, PRINTER_GROUP, UNSUPPORTED_GROUP = (
    bytes([group]) for group in (Group.OPERATION, Group.JOB, Group.END, Group.PRINTER, Group.UNSUPPORTED)
)


@dataclass(frozen=True)
class Draft:
    """A message without its request-id: version, operation or status code, and what follows the head."""

    code: int
    body: bytes
    version: bytes = VERSION_1_1

    def spelled(self, request_id: int) -> bytes:
        return self.version + self.code.to_bytes(2, "big") + unsigned(request_id) + self.body


def operation_group(charset: str = "utf-8", language: str = "en") -> bytes:
    """The operation group as each message begins it."""
    return OPERATION_GROUP + begun(charset, language)


def request(
    operation: int, *attributes: bytes, caller: Optional[Value] = "alice", printer: Optional[Value] = PRINTER,
    job: Optional[Sequence[bytes]] = None, payload: bytes = b"", version: bytes = VERSION_1_1,
) -> Draft:
    """A request of a caller to a printer, with further operation attributes, and the attributes of a job group if it has one."""
    body = operation_group()
    if printer is not None:
        body += record(Tag.URI, "printer-uri", printer)
    if caller is not None:
        body += record(Tag.NAME, "requesting-user-name", caller)
    body += b"".join(attributes)
    if job is not None:
        body += JOB_GROUP + b"".join(job)
    return Draft(operation, body + END + payload, version)


def job_request(
    operation: int, number: Value, *attributes: bytes, caller: Optional[Value] = "alice", printer: Optional[Value] = PRINTER,
    job: Optional[Sequence[bytes]] = None, payload: bytes = b"", version: bytes = VERSION_1_1,
) -> Draft:
    """A request for the job of a number."""
    job_id = record(Tag.INTEGER, "job-id", number)
    return request(operation, job_id, *attributes, caller=caller, printer=printer, job=job, payload=payload, version=version)


def reply(code: int, *groups: bytes, version: bytes = VERSION_1_1) -> Draft:
    """A reply of a status code, with the groups that follow the operation group."""
    return Draft(code, operation_group() + b"".join(groups) + END, version)


def unsupported(*attributes: bytes) -> bytes:
    """The group of what is unsupported."""
    return UNSUPPORTED_GROUP + b"".join(attributes)


def unknown(name: str) -> bytes:
    """An unknown attribute as that group lists it."""
    return record(Tag.UNSUPPORTED, name, b"")


def job_uri(number: int) -> str:
    return f"{PRINTER}/{number}"


@dataclass(frozen=True)
class Job:
    """A job as replies show it. By default it is the smallest Print-Job's."""

    number: int = 1
    name: Union[str, bytes] = "untitled"
    owner: Union[str, bytes] = "alice"
    state: int = 4
    reasons: tuple[str, ...] = ("job-hold-until-specified",)
    created: int = 1
    begun: Optional[int] = None
    ended: Optional[int] = None
    octets: int = 2
    impressions: int = 20
    completed: int = 0
    documents: int = 1
    copies: int = 1
    is_held: bool = True

    def attributes(self, now: int) -> dict[str, bytes]:
        """All attributes by their names, in the order of the table of replies."""

        def moment(name: str, at: Optional[int]) -> bytes:
            return record(Tag.NO_VALUE, name, b"") if at is None else record(Tag.INTEGER, name, at)

        return {
            "job-uri": record(Tag.URI, "job-uri", job_uri(self.number)),
            "job-id": record(Tag.INTEGER, "job-id", self.number),
            "job-printer-uri": record(Tag.URI, "job-printer-uri", PRINTER),
            "job-name": record(Tag.NAME, "job-name", self.name),
            "job-originating-user-name": record(Tag.NAME, "job-originating-user-name", self.owner),
            "job-state": record(Tag.ENUM, "job-state", self.state),
            "job-state-reasons": attribute(Tag.KEYWORD, "job-state-reasons", *self.reasons),
            "time-at-creation": record(Tag.INTEGER, "time-at-creation", self.created),
            "time-at-processing": moment("time-at-processing", self.begun),
            "time-at-completed": moment("time-at-completed", self.ended),
            "job-printer-up-time": record(Tag.INTEGER, "job-printer-up-time", now),
            "attributes-charset": record(Tag.CHARSET, "attributes-charset", "utf-8"),
            "attributes-natural-language": record(Tag.LANGUAGE, "attributes-natural-language", "en"),
            "job-k-octets": record(Tag.INTEGER, "job-k-octets", (self.octets + 1023) // 1024),
            "job-impressions": record(Tag.INTEGER, "job-impressions", self.impressions),
            "job-impressions-completed": record(Tag.INTEGER, "job-impressions-completed", self.completed),
            "number-of-documents": record(Tag.INTEGER, "number-of-documents", self.documents),
            "copies": record(Tag.INTEGER, "copies", self.copies),
            "job-hold-until": record(Tag.KEYWORD, "job-hold-until", "indefinite" if self.is_held else "no-hold"),
        }

    def group(self, *names: str, now: int = 1) -> bytes:
        """Its group in a reply that shows these attributes."""
        rows = self.attributes(now)
        return JOB_GROUP + b"".join(rows[name] for name in rows if name in names)

    def whole_group(self, now: int = 1) -> bytes:
        """Its group in a reply that shows all."""
        return JOB_GROUP + b"".join(self.attributes(now).values())

    def new_group(self) -> bytes:
        """Its group in the reply to Print-Job, Create-Job and Send-Document."""
        return self.group("job-uri", "job-id", "job-state", "job-state-reasons")

    def listed_group(self) -> bytes:
        """Its group in the reply to a Get-Jobs that requests no attributes."""
        return self.group("job-uri", "job-id")
