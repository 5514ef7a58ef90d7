"""Attributes of requests at their limits and one octet past them, and values that are not of their form."""
from __future__ import annotations

from ipp import Operation, Tag, attribute, name_with_language, record
from messages import PRINTER, Draft, request, unsupported
from worked.case import case, done, print_job, refused, refuses, sized, taken, takes, wants


def padded(front: str, octets: int) -> str:
    """A text of a number of octets that begins with this front."""
    return front + (octets - len(front)) * "a"


for name in ["job-name", "document-name"]:
    takes(f"{name} of 255 octets", print_job(record(Tag.NAME, name, padded("", 255))))
    refuses(f"{name} of 256 octets", print_job(record(Tag.NAME, name, padded("", 256))), 0x0409)
    refuses(f"{name} with a zero byte", print_job(record(Tag.NAME, name, b"a\x00b")), 0x0400)
    refuses(f"{name} that is not utf-8", print_job(record(Tag.NAME, name, b"\xc3")), 0x0400)
    refuses(f"{name} of another tag", print_job(record(Tag.KEYWORD, name, "a")), 0x0400)
    refuses(f"{name} of two values", print_job(attribute(Tag.NAME, name, "a", "b")), 0x0400)

# the limit is on the name, and the language has none
for name, caller in [("requesting-user-name", None), ("job-name", "alice"), ("document-name", "alice")]:

    def print_job_named(value: bytes) -> Draft:
        return print_job(record(Tag.NAME_WITH_LANGUAGE, name, value), caller=caller)

    takes(f"{name} of 255 octets with a language", print_job_named(name_with_language(300 * "e", padded("", 255))))
    refuses(f"{name} of 256 octets with a language", print_job_named(name_with_language("en-us", padded("", 256))), 0x0409)
    refuses(f"{name} with half a language", print_job_named(b"\x00\x02e"), 0x0400)

refuses("compression of 255 octets", print_job(record(Tag.KEYWORD, "compression", padded("none", 255))), 0x040F)
refuses("compression of 256 octets", print_job(record(Tag.KEYWORD, "compression", padded("none", 256))), 0x0409)
takes("document format of 255 octets", print_job(record(Tag.MEDIA_TYPE, "document-format", padded("text/plain;", 255))))
refuses("document format of 256 octets", print_job(record(Tag.MEDIA_TYPE, "document-format", padded("text/plain;", 256))), 0x0409)
takes("printer-uri of 1023 octets", print_job(printer=padded("ipp://localhost/ipp/print?", 1023)))
refuses("printer-uri of 1024 octets", print_job(printer=padded("ipp://localhost/ipp/print?", 1024)), 0x0409)


def cancel_by_uri(octets: int) -> Draft:
    """A Cancel-Job of job 1 by a URI of a number of octets."""
    return request(Operation.CANCEL_JOB, record(Tag.URI, "job-uri", padded(f"{PRINTER}/1#", octets)))


case("job-uri of 1023 octets", (print_job(), taken(1)), (cancel_by_uri(1023), done()))
case("job-uri of 1024 octets", (print_job(), taken(1)), (cancel_by_uri(1024), sized(72, refused(0x0409))))

for name, value in [("three", b"\x00\x00\x01"), ("five", b"\x00\x00\x00\x00\x01"), ("no", b"")]:
    refuses(f"number of {name} bytes", print_job(record(Tag.INTEGER, "job-impressions", value)), 0x0400)
refuses("truth value of two", print_job(record(Tag.BOOLEAN, "ipp-attribute-fidelity", b"\x02")), 0x0400)
refuses("truth value without a byte", print_job(record(Tag.BOOLEAN, "ipp-attribute-fidelity", b"")), 0x0400)
refuses("truth value of two bytes", print_job(record(Tag.BOOLEAN, "ipp-attribute-fidelity", b"\x00\x00")), 0x0400)
takes("truth value of one", print_job(record(Tag.BOOLEAN, "ipp-attribute-fidelity", True)))

case(
    "requested names of 255 and 256 octets",
    (request(Operation.GET_JOBS, wants(padded("", 255))), done()),
    (request(Operation.GET_JOBS, wants(padded("", 256))), refused(0x0409)),
    (request(Operation.GET_JOBS, wants("job-id", padded("", 256))), refused(0x0409)),
)
WHICH = record(Tag.KEYWORD, "which-jobs", padded("completed", 255))
case(
    "which-jobs of 255 and 256 octets",
    (request(Operation.GET_JOBS, WHICH), refused(0x040B, unsupported(WHICH))),
    (request(Operation.GET_JOBS, record(Tag.KEYWORD, "which-jobs", padded("completed", 256))), refused(0x0409)),
)
case(
    "limit of no jobs, and one of three bytes",
    (request(Operation.GET_JOBS, record(Tag.INTEGER, "limit", 0)), refused(0x0400)),
    (request(Operation.GET_JOBS, record(Tag.INTEGER, "limit", b"\x00\x00\x01")), refused(0x0400)),
    (request(Operation.GET_JOBS, record(Tag.INTEGER, "limit", b"\xff\xff\xff\xff")), refused(0x0400)),
)
