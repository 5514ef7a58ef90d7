"""The checks of each operation in their order: a request that fails them all, and is mended check by check."""
from __future__ import annotations

from ipp import VERSION_1_1, Operation, Tag, record
from messages import END, JOB_GROUP, OPERATION_GROUP, Draft
from worked.played import Play
from worked.tags import NEW_JOB, ON_JOB, OPERATIONS, TEXTS

PURGE_JOBS = 0x12
NO_JOB = 4711


class Crooked:
    """A request of an operation that fails all checks from one on. Those before it are mended."""

    def __init__(self, operation: Operation, number: int):
        self.operation = operation
        self.number = number
        # in the order of the checks, each that the operation has with its code
        self.checks = [("version", 0x0503), ("operation", 0x0501), ("bytes", 0x0400), ("order", 0x0400), ("charset", 0x040D)]
        self.checks += [("form", 0x0400), ("limit", 0x0409), ("need", 0x0400), ("target", 0x0406)]
        if self.knows("compression"):
            self.checks.append(("compression", 0x040F))
        if self.knows("document-format"):
            self.checks.append(("format", 0x040A))
        if operation in (*NEW_JOB, Operation.HOLD_JOB, Operation.GET_JOBS):
            self.checks.append(("value", 0x040B))
        if operation in NEW_JOB:
            self.checks.append(("fidelity", 0x040B))
        self.mended: list[str] = []

    def knows(self, name: str) -> bool:
        return self.operation in TEXTS[name][3]

    def fails(self, check: str) -> bool:
        return check not in self.mended

    def message(self) -> Draft:
        charset = record(Tag.CHARSET, "attributes-charset", "latin-1" if self.fails("charset") else "utf-8")
        language = record(Tag.LANGUAGE, "attributes-natural-language", 64 * "e" if self.fails("limit") else "en")
        body = OPERATION_GROUP + (language + charset if self.fails("order") else charset + language)
        body += record(Tag.KEYWORD if self.fails("form") else Tag.NAME, "requesting-user-name", "alice")
        body += record(Tag.KEYWORD, "x-unknown", "a")
        body += self.target()
        if self.knows("compression"):
            body += record(Tag.KEYWORD, "compression", "gzip" if self.fails("compression") else "none")
        if self.knows("document-format"):
            body += record(Tag.MEDIA_TYPE, "document-format", "image/png" if self.fails("format") else "image/urf")
        body += self.values()
        if self.operation in NEW_JOB:
            body += record(Tag.BOOLEAN, "ipp-attribute-fidelity", self.fails("fidelity"))
            body += JOB_GROUP + record(Tag.KEYWORD, "sides", "one-sided") + record(Tag.INTEGER, "copies", 0)
        # a record without a name after a delimiter spells no message
        body += JOB_GROUP + record(Tag.KEYWORD, "", "") if self.fails("bytes") else b""
        version = b"\x03\x01" if self.fails("version") else VERSION_1_1
        return Draft(PURGE_JOBS if self.fails("operation") else self.operation, body + END + b"hi", version)

    def target(self) -> bytes:
        """The attributes that the operation needs, except one as long as that check fails."""
        body = b""
        if self.operation in ON_JOB:
            body += record(Tag.INTEGER, "job-id", self.number)
        if self.operation == Operation.CANCEL_MY_JOBS:
            body += record(Tag.INTEGER, "job-ids", self.number)
        if self.operation == Operation.SEND_DOCUMENT and not self.fails("need"):
            body += record(Tag.BOOLEAN, "last-document", False)
        if self.operation == Operation.SEND_DOCUMENT or not self.fails("need"):
            body += record(Tag.URI, "printer-uri", "ipp://localhost/ipp/" + ("x" if self.fails("target") else "print"))
        return body

    def values(self) -> bytes:
        """The attribute whose value is not supported as long as that check fails."""
        if self.operation in NEW_JOB:
            return record(Tag.INTEGER, "job-impressions", 100_001 if self.fails("value") else 100_000)
        if self.operation == Operation.HOLD_JOB:
            return record(Tag.KEYWORD, "job-hold-until", "evening" if self.fails("value") else "indefinite")
        if self.operation == Operation.GET_JOBS:
            return record(Tag.KEYWORD, "which-jobs", "all" if self.fails("value") else "completed")
        return b""


for title, operation in OPERATIONS.items():
    with Play(f"checks of {title} in their order") as play:
        play.grant("f24,alice,100")
        crooked = Crooked(operation, play.create_job())
        for check, code in crooked.checks:
            play.ask(crooked.message(), code)
            crooked.mended.append(check)
        # nothing is left but what the queue itself refuses, and then what it does
        if operation in (*ON_JOB, Operation.CANCEL_MY_JOBS):
            crooked.number, number = NO_JOB, crooked.number
            play.ask(crooked.message(), 0x0406)
            crooked.number = number
        play.ask(crooked.message(), 0x0001)
        play.look(play.last_job(), "job-state", "job-state-reasons", "number-of-documents")
