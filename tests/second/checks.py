"""The call of a request, and the checks that refuse it ("Checks", "Attributes of requests" and "Unsupported attributes" in
docs/reference/ipp.md)."""
from __future__ import annotations

from collections.abc import Callable, Collection, Iterable
from dataclasses import dataclass, field
from typing import Optional

from ipp import Operation, Tag
from second.reading import Attribute, Group, Malformed, Tagged, read

NEW_JOB = {Operation.PRINT_JOB, Operation.VALIDATE_JOB, Operation.CREATE_JOB}
WITH_DOCUMENT = {Operation.PRINT_JOB, Operation.VALIDATE_JOB, Operation.SEND_DOCUMENT}
ON_JOB = {Operation.SEND_DOCUMENT, Operation.CANCEL_JOB, Operation.GET_JOB_ATTRIBUTES, Operation.HOLD_JOB, Operation.RELEASE_JOB}
WITH_NAMES = {Operation.GET_JOB_ATTRIBUTES, Operation.GET_JOBS, Operation.GET_PRINTER_ATTRIBUTES}
OPERATIONS = NEW_JOB | ON_JOB | WITH_NAMES | {Operation.CANCEL_MY_JOBS}

# An unsupported attribute: its name and its values. The known attributes of a request: their values by name.
Listed = tuple[bytes, list[Tagged]]
Known = dict[bytes, list[Tagged]]

LAST_JOB = 2_147_483_647
MOST_IMPRESSIONS = 100_000
FORMATS = {
    b"application/octet-stream",
    b"application/pdf",
    b"application/postscript",
    b"image/jpeg",
    b"image/pwg-raster",
    b"image/urf",
    b"text/plain",
}


class Refused(Exception):
    """A status code, with the unsupported attributes if the code is 0x040B."""

    def __init__(self, code: int, listed: Iterable[Listed] = ()):
        super().__init__(code)
        self.code = code
        self.listed = list(listed)


def signed(octets: bytes) -> int:
    return int.from_bytes(octets, "big", signed=True)


def name_of(tag: int, octets: bytes) -> bytes | None:
    """The text of a name, and none if it is no nameWithLanguage."""
    if tag != Tag.NAME_WITH_LANGUAGE:
        return octets
    rest = octets
    for _ in range(2):
        length = int.from_bytes(rest[:2], "big")
        if len(rest) < 2 + length or len(rest) < 2:
            return None
        text, rest = rest[2 : 2 + length], rest[2 + length :]
    return text if not rest else None


def is_text(octets: bytes, banned: Iterable[int]) -> bool:
    try:
        octets.decode()
    except UnicodeDecodeError:
        return False
    return not set(octets) & set(banned)


def any_form(tag: int, octets: bytes) -> bool:
    return True


def number_form(tag: int, octets: bytes) -> bool:
    return len(octets) == 4


def limit_form(tag: int, octets: bytes) -> bool:
    return len(octets) == 4 and signed(octets) >= 1


def truth_form(tag: int, octets: bytes) -> bool:
    return octets in (b"\x00", b"\x01")


def user_form(tag: int, octets: bytes) -> bool:
    name = name_of(tag, octets)
    return name is not None and is_text(name, [*range(0x20), 0x7F])


def text_form(tag: int, octets: bytes) -> bool:
    name = name_of(tag, octets)
    return name is not None and is_text(name, [0])


def hold_form(tag: int, octets: bytes) -> bool:
    return name_of(tag, octets) is not None


# tags, whether there may be several values, form, limit, operations that know it
KNOWN: dict[bytes, tuple[set[Tag], bool, Callable[[int, bytes], bool], Optional[int], Collection[int]]] = {
    b"printer-uri": ({Tag.URI}, False, any_form, 1023, OPERATIONS),
    b"requesting-user-name": ({Tag.NAME, Tag.NAME_WITH_LANGUAGE}, False, user_form, 255, OPERATIONS),
    b"job-uri": ({Tag.URI}, False, any_form, 1023, ON_JOB),
    b"job-id": ({Tag.INTEGER}, False, number_form, None, ON_JOB),
    b"job-name": ({Tag.NAME, Tag.NAME_WITH_LANGUAGE}, False, text_form, 255, NEW_JOB),
    b"document-name": ({Tag.NAME, Tag.NAME_WITH_LANGUAGE}, False, text_form, 255, WITH_DOCUMENT),
    b"ipp-attribute-fidelity": ({Tag.BOOLEAN}, False, truth_form, None, NEW_JOB),
    b"compression": ({Tag.KEYWORD}, False, any_form, 255, WITH_DOCUMENT),
    b"document-format": ({Tag.MEDIA_TYPE}, False, any_form, 255, WITH_DOCUMENT | {Operation.GET_PRINTER_ATTRIBUTES}),
    b"job-impressions": ({Tag.INTEGER}, False, number_form, None, NEW_JOB),
    b"last-document": ({Tag.BOOLEAN}, False, truth_form, None, {Operation.SEND_DOCUMENT}),
    b"job-ids": ({Tag.INTEGER}, True, number_form, None, {Operation.CANCEL_MY_JOBS}),
    b"job-hold-until": ({Tag.KEYWORD, Tag.NAME, Tag.NAME_WITH_LANGUAGE}, False, hold_form, 255, {Operation.HOLD_JOB}),
    b"requested-attributes": ({Tag.KEYWORD}, True, any_form, 255, WITH_NAMES),
    b"which-jobs": ({Tag.KEYWORD}, False, any_form, 255, {Operation.GET_JOBS}),
    b"limit": ({Tag.INTEGER}, False, limit_form, None, {Operation.GET_JOBS}),
    b"my-jobs": ({Tag.BOOLEAN}, False, truth_form, None, {Operation.GET_JOBS}),
}


def path(uri: bytes) -> bytes | None:
    """The path of a URI, and none if it has none."""
    _, mark, rest = uri.partition(b"://")
    at = rest.find(b"/")
    if not mark or at < 0:
        return None
    ends = [rest.find(end, at) for end in (b"?", b"#")]
    return rest[at : min([end for end in ends if end >= 0], default=None)]


def job_of_uri(uri: bytes) -> int | None:
    """The number of a job that a URI names, and none if it names none."""
    front = b"/ipp/print/"
    own = path(uri) or b""
    digits = own[len(front) :]
    if not own.startswith(front) or not digits.isdigit() or not digits.isascii() or digits.startswith(b"0"):
        return None
    return int(digits) if int(digits) <= LAST_JOB else None


def format_of(octets: bytes) -> bytes:
    return octets.partition(b";")[0].rstrip(b" ").lower()


def is_supported_in_job(attribute: Attribute) -> bool:
    """Whether an attribute of the job group has a supported form."""
    if len(attribute.values) != 1:
        return False
    tag, octets = attribute.values[0]
    if attribute.name == b"copies":
        return tag == Tag.INTEGER and len(octets) == 4 and 1 <= signed(octets) <= 999
    if attribute.name == b"job-impressions":
        return tag == Tag.INTEGER and len(octets) == 4 and 0 <= signed(octets) <= MOST_IMPRESSIONS
    return attribute.name == b"job-hold-until" and (tag, octets) == (Tag.KEYWORD, b"indefinite")


@dataclass
class Asked:
    """A request that no check refuses."""

    operation: int
    caller: bytes
    payload: bytes
    values: dict[bytes, Tagged]
    job_values: dict[bytes, bytes] = field(default_factory=dict)
    # 0 if it is about none
    job: int = 0
    jobs: Optional[list[int]] = None
    names: Optional[list[bytes]] = None
    listed: list[Listed] = field(default_factory=list)


def unknown(attribute: Attribute) -> Listed:
    return attribute.name, [(Tag.UNSUPPORTED, b"")]


def firsts(group: Group) -> list[Attribute]:
    """The attributes of a group that count."""
    return [attribute for attribute in group.attributes if attribute is group.first(attribute.name)]


def asked(operation: int, body: bytes) -> Asked:
    """The call of a request with a supported head."""
    try:
        groups, payload = read(body)
    except Malformed:
        raise Refused(0x0400) from None
    first = groups[0] if groups else None
    if first is None or first.tag != 0x01 or len(first.attributes) < 2:
        raise Refused(0x0400)
    for attribute, name, tag in zip(
        first.attributes, (b"attributes-charset", b"attributes-natural-language"), (Tag.CHARSET, Tag.LANGUAGE)
    ):
        if attribute.name != name or [value[0] for value in attribute.values] != [tag]:
            raise Refused(0x0400)
    if first.attributes[0].values[0][1].lower() != b"utf-8":
        raise Refused(0x040D)
    known = {
        attribute.name: attribute.values
        for attribute in firsts(first)
        if attribute.name in KNOWN and operation in KNOWN[attribute.name][4]
    }
    check_forms(known, first.attributes[1].values[0][1])
    found = Asked(operation, b"anonymous", payload, {name: values[0] for name, values in known.items()})
    check_target(found, known)
    check_values(found, known)
    find_unsupported(found, known, groups)
    caller = found.values.get(b"requesting-user-name")
    found.caller = (name_of(*caller) if caller else b"") or b"anonymous"
    if b"requested-attributes" in known:
        found.names = [octets for _, octets in known[b"requested-attributes"]]
    return found


def check_forms(known: Known, language: bytes) -> None:
    for name, values in known.items():
        tags, are_many, form, _, _ = KNOWN[name]
        if len(values) > 1 and not are_many:
            raise Refused(0x0400)
        if not all(tag in tags and form(tag, octets) for tag, octets in values):
            raise Refused(0x0400)
    if len(language) > 63:
        raise Refused(0x0409)
    for name, values in known.items():
        limit = KNOWN[name][3]
        if limit is not None and any(len(name_of(tag, octets) or b"") > limit for tag, octets in values):
            raise Refused(0x0409)


def check_target(found: Asked, known: Known) -> None:
    needed = [b"printer-uri"]
    if found.operation in ON_JOB:
        needed = [b"job-uri"] if b"job-uri" in known else [b"printer-uri", b"job-id"]
    if found.operation == Operation.SEND_DOCUMENT:
        needed.append(b"last-document")
    if any(name not in known for name in needed):
        raise Refused(0x0400)
    if b"job-uri" in known:
        found.job = job_of_uri(found.values[b"job-uri"][1]) or 0
    else:
        if path(found.values[b"printer-uri"][1]) != b"/ipp/print":
            raise Refused(0x0406)
        if found.operation in ON_JOB:
            found.job = signed(found.values[b"job-id"][1])
    if found.operation in ON_JOB and found.job < 1:
        raise Refused(0x0406)
    if b"job-ids" in known:
        found.jobs = [signed(octets) for _, octets in known[b"job-ids"]]
        if any(number < 1 for number in found.jobs):
            raise Refused(0x0406)


def check_values(found: Asked, known: Known) -> None:
    if found.values.get(b"compression", (Tag.KEYWORD, b"none"))[1] != b"none":
        raise Refused(0x040F)
    if b"document-format" in known and format_of(found.values[b"document-format"][1]) not in FORMATS:
        raise Refused(0x040A)


def is_supported(name: bytes, value: Tagged) -> bool:
    """Whether the value of a known operation attribute is supported."""
    if name == b"which-jobs":
        return value[1] in (b"completed", b"not-completed")
    if name == b"job-impressions":
        return 0 <= signed(value[1]) <= MOST_IMPRESSIONS
    return name != b"job-hold-until" or value == (Tag.KEYWORD, b"indefinite")


def find_unsupported(found: Asked, known: Known, groups: list[Group]) -> None:
    has_refused, has_job_listed = False, False
    for attribute in firsts(groups[0]):
        if attribute.name in known:
            if not is_supported(attribute.name, attribute.values[0]):
                has_refused = True
                found.listed.append((attribute.name, attribute.values))
        elif attribute.name not in (b"attributes-charset", b"attributes-natural-language"):
            found.listed.append(unknown(attribute))
    job_group = next((group for group in groups if group.tag == 0x02), None)
    if found.operation in NEW_JOB and job_group is not None:
        for attribute in firsts(job_group):
            if is_supported_in_job(attribute):
                found.job_values[attribute.name] = attribute.values[0][1]
                continue
            has_job_listed = True
            is_known = attribute.name in (b"copies", b"job-hold-until", b"job-impressions")
            found.listed.append((attribute.name, attribute.values) if is_known else unknown(attribute))
    is_strict = found.values.get(b"ipp-attribute-fidelity", (Tag.BOOLEAN, b"\x00"))[1] == b"\x01"
    if has_refused or (is_strict and has_job_listed):
        raise Refused(0x040B, found.listed)
