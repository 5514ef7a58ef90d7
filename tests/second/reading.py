"""Messages from their bytes (RFC 8010, section 3; "Messages" in docs/reference/ipp.md)."""
from __future__ import annotations

from dataclasses import dataclass, field

from ipp import Tag

# A tag and octets.
Tagged = tuple[int, bytes]

LONGEST = 0x7FFF
MOST_OPEN = 8


class Malformed(Exception):
    """The bytes spell no message."""


@dataclass
class Attribute:
    """A name, and values as pairs of a tag and octets; a collection is the flat row of its records."""

    name: bytes
    values: list[Tagged]


@dataclass
class Group:
    tag: int
    attributes: list[Attribute] = field(default_factory=list)

    def first(self, name: bytes) -> Attribute | None:
        """The first attribute of a name, which is the one that counts."""
        return next((attribute for attribute in self.attributes if attribute.name == name), None)


class Reader:
    def __init__(self, octets: bytes):
        self.octets = octets
        self.at = 0

    def take(self, count: int) -> bytes:
        if len(self.octets) - self.at < count:
            raise Malformed
        self.at += count
        return self.octets[self.at - count : self.at]

    def counted(self) -> bytes:
        length = int.from_bytes(self.take(2), "big")
        if length > LONGEST:
            raise Malformed
        return self.take(length)


def is_balanced(attribute: Attribute) -> bool:
    is_open = 0
    for tag, _ in attribute.values:
        is_open += (tag == Tag.BEGIN_COLLECTION) - (tag == Tag.END_COLLECTION)
        if not 0 <= is_open <= MOST_OPEN:
            return False
    return is_open == 0


def read(octets: bytes) -> tuple[list[Group], bytes]:
    """The groups and the payload of what follows a message's head."""
    reader = Reader(octets)
    groups: list[Group] = []
    while True:
        tag = reader.take(1)[0]
        if tag == 0x03:
            break
        if tag == 0x00:
            raise Malformed
        if tag <= 0x0F:
            groups.append(Group(tag))
            continue
        name, value = reader.counted(), reader.counted()
        if not groups or (not name and not groups[-1].attributes):
            raise Malformed
        if name:
            groups[-1].attributes.append(Attribute(name, []))
        groups[-1].attributes[-1].values.append((tag, value))
    if not all(is_balanced(attribute) for group in groups for attribute in group.attributes):
        raise Malformed
    return groups, octets[reader.at :]
