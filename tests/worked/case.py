"""The parts of an example."""
from __future__ import annotations

import re
from collections.abc import Sequence
from typing import Optional, Union

from ipp import VERSION_1_1, Operation, Tag, Value, octets, record
from messages import PRINTER, Draft, Job, reply, request

# of each example its name, the text that comes in, the text that answers it and the exit status
CASES: list[tuple[str, bytes, bytes, int]] = []

# the first exchange of an example has this request-id, and each further one the next
FIRST_REQUEST_ID = 0x0A0B0C0D

# a collection media-col with a media-size with an x-dimension of 21000
MEDIA_COL = [
    record(Tag.BEGIN_COLLECTION, "media-col", ""),
    record(Tag.MEMBER_NAME, "", "media-size"),
    record(Tag.BEGIN_COLLECTION, "", ""),
    record(Tag.MEMBER_NAME, "", "x-dimension"),
    record(Tag.INTEGER, "", 21000),
    record(Tag.END_COLLECTION, "", ""),
    record(Tag.END_COLLECTION, "", ""),
]

# the answers that a server gives for want of memory, which no example wants
FAULT = re.compile(rb"^(ipp .{4}0505|refused 6|grant refused 6|expire refused)", re.MULTILINE)

# an exchange: a request and its reply, or a line and its answer
Exchange = tuple[Union[Draft, bytes], Union[Draft, bytes]]
# a step of an example: an exchange, or a line that nothing answers
Step = Union[Exchange, bytes]


def replay(name: str, text: bytes, wanted: bytes, status: int = 0) -> None:
    """An example by its lines: the text that comes in, the text that answers it and the exit status."""
    assert name not in (case[0] for case in CASES), name
    assert not set("#=\n") & set(name) and not set(b"#=") & set(text), name
    assert FAULT.search(wanted) is None, name
    CASES.append((name, text, wanted, status))


def line(message: Draft, request_id: int) -> bytes:
    return b"ipp " + message.spelled(request_id).hex().encode() + b"\n"


def case(name: str, *steps: Step) -> None:
    """An example by its steps: exchanges (a request and its reply, or a line and its answer) and moments (`now`)."""
    text, wanted = b"", b""
    for place, step in enumerate(steps):
        if isinstance(step, bytes):
            text += step
            continue
        asked, answer = step
        if isinstance(asked, bytes) and isinstance(answer, bytes):
            text, wanted = text + asked, wanted + answer
            continue
        assert isinstance(asked, Draft) and isinstance(answer, Draft), name
        text += line(asked, FIRST_REQUEST_ID + place)
        wanted += line(answer, FIRST_REQUEST_ID + place)
    replay(name, text, wanted)


def now(moment: int) -> bytes:
    """The step that sets the moment."""
    return b"now %d\n" % moment


def dev(text: Value, answer: Value) -> Exchange:
    """The step of a line of the device, and what answers it."""
    return b"dev %s\n" % octets(text), octets(answer) + b"\n"


def grant(row: Value, answer: Value = "new 1 repeats 0") -> Exchange:
    """The step of an account file of one row, and what comes of it."""
    return b"grant %s\n" % octets(row), b"grant %s\n" % octets(answer)


def expire(count: int) -> Exchange:
    """The step that ends the jobs that have expired: count of them."""
    return b"expire\n", b"expired %d\n" % count


def sized(length: int, message: Draft) -> Draft:
    """The message, which has to have this length."""
    assert len(message.spelled(1)) == length, (length, len(message.spelled(1)))
    return message


def print_job(
    *attributes: bytes, caller: Optional[Value] = "alice", printer: Optional[Value] = PRINTER, job: Optional[Sequence[bytes]] = None,
    payload: bytes = b"hi", version: bytes = VERSION_1_1,
) -> Draft:
    """A Print-Job of the document `hi`; without more attributes it is the smallest."""
    return request(Operation.PRINT_JOB, *attributes, caller=caller, printer=printer, job=job, payload=payload, version=version)


def taken(number: int = 1, *listed: bytes, version: bytes = VERSION_1_1) -> Draft:
    """The reply to a request that made a job, held in state 4."""
    return reply(0x0001 if listed else 0x0000, *listed, Job(number).new_group(), version=version)


def refused(code: int, *listed: bytes, version: bytes = VERSION_1_1) -> Draft:
    """The reply to a request that was refused."""
    return reply(code, *listed, version=version)


def done() -> Draft:
    """The reply of a success that shows nothing."""
    return sized(72, reply(0x0000))


def refuses(name: str, asked: Draft, code: int, version: bytes = VERSION_1_1) -> None:
    """An example of a request that is refused and makes no job: the next Print-Job gets number 1."""
    case(name, (asked, sized(72, refused(code, version=version))), (print_job(), taken(1)))


def takes(name: str, asked: Draft) -> None:
    """An example of a request that makes job 1."""
    case(name, (asked, taken(1)))


def wants(*names: str) -> bytes:
    """The attribute requested-attributes of these names."""
    return b"".join(record(Tag.KEYWORD, "" if place else "requested-attributes", name) for place, name in enumerate(names))
