"""Each attribute of requests in each of its tags, at its limits and one past them, in each operation that knows it."""
from __future__ import annotations

from collections.abc import Iterable, Iterator, Sequence
from typing import Optional

from ipp import Operation, Tag, Value, attribute, name_with_language, octets, record
from messages import END, JOB_GROUP, OPERATION_GROUP, PRINTER, Draft
from second.checks import KNOWN
from worked.played import Play

# a tag and a value
Tagged = tuple[Tag, Value]

OPERATIONS = {
    "Print-Job": Operation.PRINT_JOB,
    "Validate-Job": Operation.VALIDATE_JOB,
    "Create-Job": Operation.CREATE_JOB,
    "Send-Document": Operation.SEND_DOCUMENT,
    "Cancel-Job": Operation.CANCEL_JOB,
    "Get-Job-Attributes": Operation.GET_JOB_ATTRIBUTES,
    "Get-Jobs": Operation.GET_JOBS,
    "Get-Printer-Attributes": Operation.GET_PRINTER_ATTRIBUTES,
    "Hold-Job": Operation.HOLD_JOB,
    "Release-Job": Operation.RELEASE_JOB,
    "Cancel-My-Jobs": Operation.CANCEL_MY_JOBS,
}
NEW_JOB = (Operation.PRINT_JOB, Operation.VALIDATE_JOB, Operation.CREATE_JOB)
WITH_DOCUMENT = (Operation.PRINT_JOB, Operation.VALIDATE_JOB, Operation.SEND_DOCUMENT)
ON_JOB = (Operation.SEND_DOCUMENT, Operation.CANCEL_JOB, Operation.GET_JOB_ATTRIBUTES, Operation.HOLD_JOB, Operation.RELEASE_JOB)
WITH_NAMES = (Operation.GET_JOB_ATTRIBUTES, Operation.GET_JOBS, Operation.GET_PRINTER_ATTRIBUTES)
EVERY = tuple(OPERATIONS.values())

LAST = 0x7FFFFFFF
NAMES = (Tag.NAME, Tag.NAME_WITH_LANGUAGE)

# texts: the tags, the values that are looked at, the limit in octets, and the operations that know them
TEXTS: dict[str, tuple[tuple[Tag, ...], list[str], int, tuple[Operation, ...]]] = {
    "attributes-natural-language": ((Tag.LANGUAGE,), ["en", ""], 63, EVERY),
    "printer-uri": ((Tag.URI,), ["ipp://some.host:631/ipp/print?"], 1023, EVERY),
    "requesting-user-name": (NAMES, ["alice"], 255, EVERY),
    "job-uri": ((Tag.URI,), [f"{PRINTER}/%d?"], 1023, ON_JOB),
    "job-name": (NAMES, ["memo", ""], 255, NEW_JOB),
    "document-name": (NAMES, ["letter", ""], 255, WITH_DOCUMENT),
    "compression": ((Tag.KEYWORD,), ["none", "gzip"], 255, WITH_DOCUMENT),
    "document-format": ((Tag.MEDIA_TYPE,), ["image/urf", "TEXT/Plain;"], 255, (*WITH_DOCUMENT, Operation.GET_PRINTER_ATTRIBUTES)),
    "job-hold-until": ((Tag.KEYWORD, *NAMES), ["indefinite"], 255, (Operation.HOLD_JOB,)),
    "requested-attributes": ((Tag.KEYWORD,), ["job-id", "printer-name"], 255, WITH_NAMES),
    "which-jobs": ((Tag.KEYWORD,), ["completed", "not-completed"], 255, (Operation.GET_JOBS,)),
}
# numbers and truth values: the tag, the values that are looked at, and the operations that know them
NUMBERS: dict[str, tuple[Tag, list[Value], tuple[Operation, ...]]] = {
    "job-id": (Tag.INTEGER, [LAST], ON_JOB),
    "ipp-attribute-fidelity": (Tag.BOOLEAN, [False, True], NEW_JOB),
    "job-impressions": (Tag.INTEGER, [0, 100_000, 100_001, b"\xff\xff\xff\xff", LAST], NEW_JOB),
    "last-document": (Tag.BOOLEAN, [False, True], (Operation.SEND_DOCUMENT,)),
    "job-ids": (Tag.INTEGER, [LAST], (Operation.CANCEL_MY_JOBS,)),
    "limit": (Tag.INTEGER, [1, LAST], (Operation.GET_JOBS,)),
    "my-jobs": (Tag.BOOLEAN, [False, True], (Operation.GET_JOBS,)),
}
SEVERAL = ("job-ids", "requested-attributes")
# the second queue has the same tags, limits and operations
HERE: dict[str, tuple[set[Tag], Optional[int], set[Operation]]] = {
    **{name: ({*tags}, limit, {*operations}) for name, (tags, _, limit, operations) in TEXTS.items()},
    **{name: ({tag}, None, {*operations}) for name, (tag, _, operations) in NUMBERS.items()},
}
for known, (tags, are_several, form, limit, operations) in KNOWN.items():
    assert HERE[known.decode()] == (tags, limit, operations) and are_several == (known.decode() in SEVERAL), known


def in_tag(tag: Tag, text: str) -> bytes:
    """A text as the value of a tag."""
    return name_with_language("en-us", text) if tag == Tag.NAME_WITH_LANGUAGE else octets(text)


def padded(text: str, length: int) -> str:
    return text + (length - len(text)) * "a"


class Asking:
    """Asks an operation again and again, each time with another attribute of the operation group, on a job that it can be done on."""

    def __init__(self, play: Play, operation: Operation):
        self.play = play
        self.operation = operation
        self.number = 0

    def find_job(self, caller: str) -> None:
        """The number of a job of a caller's on which the operation is no refusal."""
        job = self.play.queue.jobs.get(self.number)
        is_open = self.operation != Operation.SEND_DOCUMENT or (job is not None and job.takes_documents)
        if self.operation not in (*ON_JOB, Operation.CANCEL_MY_JOBS):
            return
        if job is None or not is_open or job.ended is not None or job.owner != octets(caller):
            self.number = self.play.create_job(caller=caller)

    def attributes(self) -> dict[str, Sequence[Tagged]]:
        """The attributes that the operation needs, and one that keeps its reply short, as pairs of a tag and a value by their names."""
        found: dict[str, Sequence[Tagged]] = {
            "attributes-charset": [(Tag.CHARSET, "utf-8")],
            "attributes-natural-language": [(Tag.LANGUAGE, "en")],
            "printer-uri": [(Tag.URI, PRINTER)],
            "requesting-user-name": [(Tag.NAME, "alice")],
        }
        if self.operation in ON_JOB:
            found["job-id"] = [(Tag.INTEGER, self.number)]
        if self.operation == Operation.SEND_DOCUMENT:
            found["last-document"] = [(Tag.BOOLEAN, False)]
        if self.operation in WITH_NAMES:
            found["requested-attributes"] = [(Tag.KEYWORD, "job-id")]
        return found

    def ask(self, name: str | None = None, *values: Tagged, code: int | None = None, more: bytes = b"", job: bytes = b"") -> None:
        """Asks with these values of the attribute of a name, pairs of a tag and a value."""
        found = self.attributes()
        if name is not None:
            found[name] = values
        body = OPERATION_GROUP + b"".join(spelled(name, values) for name, values in found.items()) + more + job + END
        self.play.ask(Draft(self.operation, body), code)

    def ask_text(self, name: str) -> None:
        tags, texts, limit, _ = TEXTS[name]
        for tag in tags:
            for text in [*texts, padded(texts[0], limit)]:
                is_caller = name == "requesting-user-name"
                self.find_job(text if is_caller else "alice")
                if name == "job-uri":
                    text = text.replace("%d?", f"{self.number}??")
                self.ask(name, (tag, in_tag(tag, text)))
            self.find_job("alice")
            self.ask(name, (tag, in_tag(tag, padded(texts[0], limit + 1))), code=0x0409)
        self.ask(name, (Tag.BOOLEAN, in_tag(tags[0], texts[0])), code=0x0400)
        if Tag.NAME_WITH_LANGUAGE in tags:
            self.ask(name, (Tag.NAME_WITH_LANGUAGE, texts[0]), code=0x0400)
        pair = [(tags[0], text) for text in (texts[0], texts[-1])]
        self.ask(name, *pair, code=None if name in SEVERAL else 0x0400)

    def ask_number(self, name: str) -> None:
        tag, numbers, _ = NUMBERS[name]
        for number in numbers:
            self.find_job("alice")
            self.ask(name, (tag, number))
        self.find_job("alice")
        self.ask(name, (Tag.KEYWORD, octets(numbers[-1])), code=0x0400)
        self.ask(name, (tag, b"\x00\x00\x01"), code=0x0400)
        if name == "job-ids":
            self.ask(name, (tag, self.number), (tag, self.number), code=0x0000)
        elif tag == Tag.INTEGER:
            self.ask(name, (tag, 1), (tag, 1), code=0x0400)
        else:
            self.ask(name, (tag, b"\x02"), code=0x0400)
            self.ask(name, (tag, True), (tag, True), code=0x0400)


def spelled(name: str, values: Iterable[Tagged]) -> bytes:
    return b"".join(record(tag, "" if place else name, value) for place, (tag, value) in enumerate(values))


def unknown_to(operation: Operation) -> Iterator[bytes]:
    """Each attribute that some operation knows and this one does not."""
    for name, (tags, texts, _, operations) in TEXTS.items():
        if operation not in operations:
            yield record(tags[0], name, in_tag(tags[0], texts[0]))
    for name, (tag, numbers, operations) in NUMBERS.items():
        if operation not in operations:
            yield record(tag, name, numbers[-1])
    yield record(Tag.INTEGER, "copies", 2)
    yield record(Tag.KEYWORD, "x-unknown", "a")


STRICT = record(Tag.BOOLEAN, "ipp-attribute-fidelity", True)
COPIES: tuple[Value, ...] = (1, 999, 0, 1000, LAST, b"\xff\xff\xff\xff", b"\x01")
IMPRESSIONS: tuple[Value, ...] = (0, 100_000, 100_001, b"\xff\xff\xff\xff")
JOB_ATTRIBUTES = [
    *(record(Tag.INTEGER, "copies", copies) for copies in COPIES),
    record(Tag.KEYWORD, "copies", "two"),
    attribute(Tag.INTEGER, "copies", 1, 1),
    *(record(Tag.INTEGER, "job-impressions", pages) for pages in IMPRESSIONS),
    record(Tag.KEYWORD, "job-impressions", "ten"),
    *(record(Tag.KEYWORD, "job-hold-until", until) for until in ("indefinite", "no-hold", "")),
    record(Tag.NAME, "job-hold-until", "indefinite"),
    record(Tag.NAME_WITH_LANGUAGE, "job-hold-until", name_with_language("en", "indefinite")),
    record(Tag.KEYWORD, "sides", "one-sided"),
    record(Tag.BEGIN_COLLECTION, "media-col", "") + record(Tag.END_COLLECTION, "", ""),
]

for title, operation in OPERATIONS.items():
    with Play(f"attributes of {title} in each tag and at each limit") as play:
        play.grant("f24,alice,100")
        asking = Asking(play, operation)
        asking.find_job("alice")
        asking.ask(code=0x0000)
        for text, text_row in TEXTS.items():
            if operation in text_row[3]:
                asking.ask_text(text)
        for number, number_row in NUMBERS.items():
            if operation in number_row[2]:
                asking.ask_number(number)
        asking.find_job("alice")
        # the first of a name counts, and the charset is compared without case
        asking.ask("attributes-charset", (Tag.CHARSET, "Utf-8"), more=record(Tag.NAME, "requesting-user-name", b"\xff"), code=0x0000)
        asking.find_job("alice")
        asking.ask(more=b"".join(unknown_to(operation)), code=0x0001)
        asking.find_job("alice")
        # none of the others looks at the job group
        if operation not in NEW_JOB:
            asking.ask(job=JOB_GROUP + b"".join(JOB_ATTRIBUTES), code=0x0000)
            continue
        for row in JOB_ATTRIBUTES:
            asking.ask(more=STRICT if operation == Operation.VALIDATE_JOB else b"", job=JOB_GROUP + row)
        asking.ask("job-impressions", (Tag.INTEGER, 7), job=JOB_GROUP + record(Tag.INTEGER, "job-impressions", 9), code=0x0000)
        if operation != Operation.VALIDATE_JOB:
            play.look(play.last_job(), "copies", "job-name", "job-impressions")
