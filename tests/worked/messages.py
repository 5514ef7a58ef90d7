"""The smallest Print-Job, its versions, and bytes that spell no message."""
from __future__ import annotations

from ipp import Operation, Tag, record
from messages import Draft, Job, reply, request, unknown, unsupported
from worked.case import case, print_job, refused, refuses, replay, sized, taken

# the bytes as the standard's encoding gives them, record by record
SMALLEST_PRINT_JOB = bytes.fromhex(
    "0101000200000001 01"
    "470012 617474726962757465732d63686172736574 0005 7574662d38"
    "48001b 617474726962757465732d6e61747572616c2d6c616e6775616765 0002 656e"
    "45000b 7072696e7465722d757269 0019 6970703a2f2f6c6f63616c686f73742f6970702f7072696e74"
    "420014 72657175657374696e672d757365722d6e616d65 0005 616c696365"
    "03 6869"
)
SMALLEST_REPLY = bytes.fromhex(
    "0101000000000001 01"
    "470012 617474726962757465732d63686172736574 0005 7574662d38"
    "48001b 617474726962757465732d6e61747572616c2d6c616e6775616765 0002 656e"
    "02"
    "450007 6a6f622d757269 001b 6970703a2f2f6c6f63616c686f73742f6970702f7072696e742f31"
    "210006 6a6f622d6964 0004 00000001"
    "230009 6a6f622d7374617465 0004 00000004"
    "440011 6a6f622d73746174652d726561736f6e73 0018 6a6f622d686f6c642d756e74696c2d737065636966696564"
    "03"
)
assert len(SMALLEST_PRINT_JOB) == 145 and len(SMALLEST_REPLY) == 191
assert print_job().spelled(1) == SMALLEST_PRINT_JOB and taken(1).spelled(1) == SMALLEST_REPLY

replay(
    "smallest Print-Job",
    b"ipp %s\n" % SMALLEST_PRINT_JOB.hex().encode(),
    b"ipp %s\n" % SMALLEST_REPLY.hex().encode(),
)

case(
    "versions of requests",
    (print_job(version=b"\x03\x00"), sized(72, refused(0x0503))),
    (print_job(version=b"\x00\x09"), sized(72, refused(0x0503))),
    (print_job(version=b"\x02\x00"), taken(1, version=b"\x02\x00")),
    (print_job(version=b"\x01\x00"), taken(2, version=b"\x01\x00")),
    (print_job(version=b"\x02\x02"), taken(3, version=b"\x02\x02")),
)

refuses("head and a group without its end", Draft(0x02, b"\x01"), 0x0400)


def edited(message: Draft, at: int, octets: bytes) -> Draft:
    """The message with other bytes from an offset of the whole on."""
    at -= 8
    return Draft(message.code, message.body[:at] + octets + message.body[at + len(octets) :], message.version)


refuses("value length over 0x7fff", edited(print_job(), 30, b"\x80\x00"), 0x0400)
refuses("name length over 0x7fff", edited(print_job(), 10, b"\x80\x12"), 0x0400)
refuses("delimiter zero", edited(print_job(), 8, b"\x00"), 0x0400)
refuses("end in place of the first group", edited(print_job(), 8, b"\x03"), 0x0400)
refuses("record before the first group", Draft(0x02, record(Tag.KEYWORD, "a", "b") + print_job().body), 0x0400)

# in front of the payload each cut is refused, and what is cut of the payload is no matter
case(
    "smallest Print-Job cut at each length",
    *((Draft(0x02, print_job().body[: length - 8]), sized(72, refused(0x0400))) for length in range(8, 143)),
    (Draft(0x02, print_job().body[: 143 - 8]), taken(1)),
    (Draft(0x02, print_job().body[: 144 - 8]), taken(2)),
)
replay(
    "cut within the head",
    b"".join(b"ipp %s\n" % SMALLEST_PRINT_JOB[:length].hex().encode() for length in range(8)),
    8 * b"ipp short\n",
)


def nested(depth: int) -> Draft:
    """A Print-Job whose job group has an attribute of collections, one in the other."""
    values = [(Tag.BEGIN_COLLECTION, "a" if place == 0 else "", b"") for place in range(depth)]
    values += [(Tag.END_COLLECTION, "", b"")] * depth
    return print_job(job=[record(*value) for value in values])


case("collections eight deep", (nested(8), sized(198, taken(1, unsupported(unknown("a"))))))
refuses("collections nine deep", nested(9), 0x0400)
refuses("collection without its end", print_job(job=[record(Tag.BEGIN_COLLECTION, "x", b"")]), 0x0400)
refuses("end of no collection", print_job(job=[record(Tag.END_COLLECTION, "x", b"")]), 0x0400)

# a second job group is not looked at, and of no other group is there anything to see
case(
    "groups that do not count",
    (
        Draft(0x02, print_job(job=[]).body[:-3] + b"\x02" + record(Tag.KEYWORD, "media", "a4") + b"\x09" + b"\x03hi"),
        taken(1),
    ),
    (
        Draft(0x0A, request(Operation.GET_JOBS).body[:-1] + b"\x01" + record(Tag.KEYWORD, "which-jobs", "all") + b"\x03"),
        reply(0x0000, Job(1).listed_group()),
    ),
)
