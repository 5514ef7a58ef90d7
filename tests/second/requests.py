"""Random requests: good ones, and crooked ones made of them."""
from __future__ import annotations

from collections.abc import Sequence
from dataclasses import dataclass
from random import Random

from ipp import Operation, Tag, Value, name_with_language, octets, record, unsigned
from messages import PRINTER
from second.queue import Queue

# A tag and a value, an attribute with its values, and a group with its delimiter.
Tagged = tuple[int, Value]
Attribute = tuple[str, list[Tagged]]
Group = tuple[int, list[Attribute]]

CALLERS = ["alice", "bob", "carol", "opal"]
NEW_JOB = [Operation.PRINT_JOB, Operation.VALIDATE_JOB, Operation.CREATE_JOB]
ON_JOB = [Operation.SEND_DOCUMENT, Operation.CANCEL_JOB, Operation.GET_JOB_ATTRIBUTES, Operation.HOLD_JOB, Operation.RELEASE_JOB]

TAGS = [0x10, 0x13, 0x21, 0x22, 0x23, 0x30, 0x34, 0x36, 0x37, 0x41, 0x42, 0x44, 0x45, 0x47, 0x48, 0x49, 0x4A, 0x7F, 0xFF]
DELIMITERS = [0x00, 0x01, 0x02, 0x03, 0x04, 0x05, 0x06, 0x09, 0x0F]
PATHS = ["", "/", "/ipp/print", "/ipp/print/", "/ipp/print/1", "/ipp/print/01", "/ipp/print/0", "/ipp/print/2147483648", "/x"]
FRONTS = ["ipp://localhost", "ipp://some.host:631", "http://h", "ipp://", "://", "localhost", "ipp:/h"]
ENDS = ["", "?a", "#a", "?a#b", "#/ipp/print"]
TEXTS: list[Value] = ["", "a", "memo", "résumé", b"a\x00b", b"\xff", b"a\x7fb", b"a\x1fb", 255 * "a", 256 * "a", 63 * "e", 64 * "e"]
NUMBERS: list[Value] = [0, 1, 2, 3, 16, 999, 1000, 100_000, 100_001, 0x7FFFFFFF, b"\xff\xff\xff\xff", b"\x80\x00\x00\x00", b"\x01", b""]
WORDS: list[Value] = ["", "none", "gzip", "indefinite", "no-hold", "completed", "not-completed", "all", "utf-8", "UTF-8", "latin-1"]
WORDS += ["job-template", "job-description", "printer-description", "job-id", "copies", "queued-job-count", "no-such-name"]
FORMATS: list[Value] = ["text/plain", "text/plain; q=1", "IMAGE/JPEG", "image/png", "image/urf ;", " image/urf", ";", 255 * "a", 256 * "a"]
NAMES = ["printer-uri", "requesting-user-name", "job-uri", "job-id", "job-name", "document-name", "ipp-attribute-fidelity"]
NAMES += ["compression", "document-format", "job-impressions", "last-document", "job-ids", "job-hold-until", "my-jobs"]
NAMES += ["requested-attributes", "which-jobs", "limit", "copies", "sides", "x-thing", "Job-Name", "attributes-charset"]


@dataclass
class Head:
    """The head of a message."""

    version: bytes
    code: int
    request_id: int


class Writer:
    """Makes random requests about a queue."""

    def __init__(self, random: Random, queue: Queue):
        self.random = random
        self.queue = queue

    def chance(self, probability: float) -> bool:
        return self.random.random() < probability

    def any_number(self) -> int:
        """The number of a job, or of none."""
        return self.random.randint(1, len(self.queue.jobs) + 1)

    def request(self) -> bytes:
        """The bytes of a request, often a crooked one."""
        others = 2 * [Operation.GET_JOBS] + [Operation.GET_PRINTER_ATTRIBUTES, Operation.CANCEL_MY_JOBS]
        operation = self.random.choice(3 * NEW_JOB + 2 * [Operation.SEND_DOCUMENT] + ON_JOB + others)
        groups: list[Group] = [(0x01, self.operation_attributes(operation))]
        if operation in NEW_JOB and self.chance(0.5):
            groups.append((0x02, self.job_attributes()))
        payload = self.random.choice([b"", b"hi", b"\x03", bytes(1025)])
        head = Head(b"\x01\x01", operation, self.random.randint(0, 2**32 - 1))
        if self.chance(0.25):
            for _ in range(self.random.randint(1, 3)):
                self.random.choice([self.change_value, self.change_attribute, self.change_group, self.change_head])(head, groups)
        message = head.version + head.code.to_bytes(2, "big") + unsigned(head.request_id) + spelled(groups) + b"\x03" + payload
        if self.chance(0.1):
            return self.change_bytes(message)
        return message

    # ---- good requests, as lists of groups of attributes: a name, and pairs of a tag and a value

    def operation_attributes(self, operation: int) -> list[Attribute]:
        attributes: list[Attribute] = [
            ("attributes-charset", [(Tag.CHARSET, "utf-8")]),
            ("attributes-natural-language", [(Tag.LANGUAGE, "en")]),
        ]
        number = self.any_number()
        if operation in ON_JOB and self.chance(0.3):
            attributes.append(("job-uri", [(Tag.URI, f"ipp://some.host:631/ipp/print/{number}?x")]))
        else:
            attributes.append(("printer-uri", [(Tag.URI, PRINTER)]))
            if operation in ON_JOB:
                attributes.append(("job-id", [(Tag.INTEGER, number)]))
        attributes.append(("requesting-user-name", [(Tag.NAME, self.random.choice(CALLERS))]))
        # now and then more numbers than a caller can have live jobs
        numbers = range(1, 102) if self.chance(0.05) else [self.any_number() for _ in range(self.random.randint(1, 3))]
        choices: dict[int, list[Attribute]] = {
            Operation.SEND_DOCUMENT: [("last-document", [(Tag.BOOLEAN, self.chance(0.3))])],
            Operation.CANCEL_MY_JOBS: [("job-ids", [(Tag.INTEGER, number) for number in numbers])],
        }
        attributes += choices.get(operation, [])
        if operation == Operation.CANCEL_MY_JOBS and self.chance(0.2):
            attributes.pop()
        for name, values in self.more_attributes():
            if self.chance(0.12):
                attributes.append((name, values))
        return attributes

    def more_attributes(self) -> list[Attribute]:
        """Attributes that some operations know."""
        choice = self.random.choice
        names: list[Tagged] = [(Tag.KEYWORD, choice(WORDS)) for _ in range(self.random.randint(1, 4))]
        return [
            ("job-name", [(Tag.NAME, choice(["", "memo", "résumé"]))]),
            ("document-name", [(Tag.NAME_WITH_LANGUAGE, name_with_language("en", choice(["", "letter"])))]),
            ("ipp-attribute-fidelity", [(Tag.BOOLEAN, self.chance(0.5))]),
            ("job-impressions", [(Tag.INTEGER, choice([0, 7, 100_000, 100_001]))]),
            ("compression", [(Tag.KEYWORD, choice(["none", "none", "gzip"]))]),
            ("document-format", [(Tag.MEDIA_TYPE, choice(["text/plain; q=1", "IMAGE/JPEG", "image/png"]))]),
            ("requested-attributes", names),
            ("which-jobs", [(Tag.KEYWORD, choice(["completed", "not-completed", "all"]))]),
            ("limit", [(Tag.INTEGER, choice([1, 3, 1000]))]),
            ("my-jobs", [(Tag.BOOLEAN, self.chance(0.5))]),
            ("job-hold-until", [choice([(Tag.KEYWORD, "indefinite"), (Tag.KEYWORD, "evening"), (Tag.NAME, "indefinite")])]),
            ("x-thing", [(Tag.KEYWORD, "v")]),
        ]

    def job_attributes(self) -> list[Attribute]:
        choice = self.random.choice
        rows: list[Attribute] = [
            ("copies", [(Tag.INTEGER, choice([0, 1, 3, 999, 1000]))]),
            ("sides", [(Tag.KEYWORD, "one-sided")]),
            ("job-impressions", [(Tag.INTEGER, choice([5, 100_001]))]),
            ("job-hold-until", [(Tag.KEYWORD, choice(["indefinite", "no-hold"]))]),
            ("media-col", self.collection(self.random.randint(1, 9))),
        ]
        return [row for row in rows if self.chance(0.3)]

    def collection(self, depth: int) -> list[Tagged]:
        """The records of collections, one in the other."""
        if depth == 0:
            return [(Tag.INTEGER, 7)]
        return [(Tag.BEGIN_COLLECTION, ""), (Tag.MEMBER_NAME, "m"), *self.collection(depth - 1), (Tag.END_COLLECTION, "")]

    # ---- crooked ones

    def any_value(self) -> Tagged:
        choice = self.random.choice
        uri = choice(FRONTS) + choice(PATHS) + choice(ENDS)
        named = name_with_language(choice(["", "en"]), choice(TEXTS)) + choice([b"", b"", b"!"])
        values: list[Tagged] = [
            (Tag.URI, uri),
            (Tag.NAME, choice(TEXTS)),
            (Tag.NAME_WITH_LANGUAGE, named),
            (Tag.INTEGER, choice(NUMBERS)),
            (Tag.BOOLEAN, choice([b"\x00", b"\x01", b"\x02", b"", b"\x00\x00"])),
            (Tag.KEYWORD, choice(WORDS + TEXTS)),
            (Tag.MEDIA_TYPE, choice(FORMATS)),
            (choice(TAGS), choice(TEXTS + NUMBERS)),
        ]
        return choice(values)

    def any_place(self, groups: list[Group]) -> tuple[list[Attribute], int] | None:
        """Some attribute's group and place, and none if there is none."""
        places = [(attributes, place) for _, attributes in groups for place in range(len(attributes))]
        return self.random.choice(places) if places else None

    def change_value(self, head: Head, groups: list[Group]) -> None:
        """Another value, one more, one less, another tag, or another value of the same tag."""
        found = self.any_place(groups)
        if found is None:
            return
        attributes, place = found
        name, values = attributes[place]
        values = list(values)
        at = self.random.randrange(len(values))
        tag, value = values[at]
        kinds: dict[int, Sequence[Value]] = {
            Tag.URI: FRONTS, Tag.NAME: TEXTS, Tag.INTEGER: NUMBERS, Tag.KEYWORD: WORDS, Tag.MEDIA_TYPE: FORMATS, Tag.LANGUAGE: TEXTS,
            Tag.CHARSET: WORDS,
        }
        same = self.random.choice(kinds.get(tag, TEXTS))
        if tag == Tag.URI:
            same = octets(same) + (self.random.choice(PATHS) + self.random.choice(ENDS)).encode()
        # a limit of octets, or one more
        long = octets(value) + (b"?" if tag == Tag.URI else b"")
        long = long.ljust(self.random.choice([63, 64, 255, 256, 1023, 1024, 0x7FFF, 0x8000]), b"a")
        changes = [
            values[:at] + [(tag, long)] + values[at + 1 :],
            values[:at] + [self.any_value()] + values[at + 1 :],
            values[:at] + [(tag, same)] + values[at + 1 :],
            values[:at] + [(self.random.choice(TAGS), value)] + values[at + 1 :],
            values + [(tag, value)],
            values[:at] + values[at + 1 :] or [self.any_value()],
        ]
        attributes[place] = (name, self.random.choice(changes))

    def change_attribute(self, head: Head, groups: list[Group]) -> None:
        """An attribute twice, left out, moved, or under another name; or one more."""
        found = self.any_place(groups)
        if found is None:
            return
        attributes, place = found
        name, values = attributes[place]
        change = self.random.randrange(6)
        if change == 0:
            attributes.insert(self.random.randint(0, len(attributes)), (name, [self.any_value()]))
        elif change == 1:
            del attributes[place]
        elif change == 2:
            attributes.insert(self.random.randint(0, len(attributes)), attributes.pop(place))
        elif change == 3:
            attributes[place] = (self.random.choice([*NAMES, "", name.upper(), 300 * "n"]), values)
        elif change == 4:
            attributes.append((self.random.choice(NAMES), [self.any_value()]))
        else:
            attributes.append(("x-col", self.collection(self.random.randint(1, 10))[self.random.randint(0, 1) :]))

    def change_group(self, head: Head, groups: list[Group]) -> None:
        """A group twice, under another delimiter, left out, moved, or one more."""
        place = self.random.randrange(len(groups)) if groups else None
        change = self.random.randrange(5)
        if place is None or change == 0:
            groups.insert(
                self.random.randint(0, len(groups)),
                (self.random.choice(DELIMITERS), [(self.random.choice(NAMES), [self.any_value()])]),
            )
        elif change == 1:
            groups[place] = (self.random.choice(DELIMITERS), groups[place][1])
        elif change == 2:
            del groups[place]
        elif change == 3:
            groups.insert(self.random.randint(0, len(groups)), groups.pop(place))
        else:
            groups.append((groups[place][0], list(groups[place][1])))

    def change_head(self, head: Head, groups: list[Group]) -> None:
        if self.chance(0.6):
            head.version = bytes([self.random.choice([0, 1, 2, 2, 3, 255]), self.random.choice([0, 1, 2, 255])])
        else:
            head.code = self.random.choice([0, 1, 3, 7, 0x0E, 0x12, 0x3A, 0x0102, 0xFFFF, *NEW_JOB, *ON_JOB, Operation.GET_JOBS])

    def change_bytes(self, message: bytes) -> bytes:
        """The message cut, or with a byte flipped, set, put in or taken out."""
        at = self.random.randrange(len(message))
        byte = bytes([self.random.choice([0, 1, 3, 0x44, 0x7F, 0x80, 0xFF, self.random.randrange(256)])])
        flipped = bytes([message[at] ^ 1 << self.random.randrange(8)])
        return self.random.choice(
            [
                message[:at],
                message[:at] + flipped + message[at + 1 :],
                message[:at] + byte + message[at + 1 :],
                message[:at] + byte + message[at:],
                message[:at] + message[at + 1 :],
            ]
        )


def spelled(groups: list[Group]) -> bytes:
    """Groups as bytes."""
    text = b""
    for tag, attributes in groups:
        text += bytes([tag])
        for name, values in attributes:
            text += b"".join(record(kind, "" if place else name, value) for place, (kind, value) in enumerate(values))
    return text
