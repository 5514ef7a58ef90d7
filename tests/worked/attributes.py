"""Attributes of new jobs: those that are used, those that are ignored, and those for which a job is refused."""
from __future__ import annotations

from ipp import Operation, Tag, Value, attribute, name_with_language, record
from messages import Draft, Job, job_request, operation_group, reply, request, unknown, unsupported
from worked.case import MEDIA_COL, case, print_job, refused, refuses, sized, taken, takes, wants

STRICT = record(Tag.BOOLEAN, "ipp-attribute-fidelity", True)

case("media-col is ignored", (print_job(job=MEDIA_COL), sized(206, taken(1, unsupported(unknown("media-col"))))))
case(
    "media-col with fidelity is refused",
    (print_job(STRICT, job=MEDIA_COL), sized(87, refused(0x040B, unsupported(unknown("media-col"))))),
    (print_job(), taken(1)),
)

refuses("compression by gzip", print_job(record(Tag.KEYWORD, "compression", "gzip")), 0x040F)
takes("compression by none", print_job(record(Tag.KEYWORD, "compression", "none")))

for name in [
    "application/octet-stream",
    "application/pdf",
    "application/postscript",
    "image/jpeg",
    "image/pwg-raster",
    "image/urf",
    "text/plain",
    "Text/Plain ;charset=utf-8",
]:
    takes(f"document format {name.replace('=', ' ')}", print_job(record(Tag.MEDIA_TYPE, "document-format", name)))
for name in ["image/png", "text", " text/plain", ""]:
    refuses(f"document format '{name}' is not supported", print_job(record(Tag.MEDIA_TYPE, "document-format", name)), 0x040A)
refuses("document format as a keyword", print_job(record(Tag.KEYWORD, "document-format", "text/plain")), 0x0400)

SEEN = ("job-name", "job-impressions", "copies")
LOOK = job_request(Operation.GET_JOB_ATTRIBUTES, 1, wants("copies", "job-name", "job-impressions"))


def makes(name: str, asked: Draft, job: Job, *listed: bytes) -> None:
    """An example of a request that makes a job, with what is seen of it."""
    case(name, (asked, taken(1, *listed)), (LOOK, reply(0x0000, job.group(*SEEN))))


case(
    "version 2.0 with media and sides",
    (
        Draft(
            0x02,
            operation_group(language="en-us")
            + request(
                0x02,
                record(Tag.NAME, "job-name", "report"),
                record(Tag.MEDIA_TYPE, "document-format", "application/pdf"),
                printer="ipp://localhost:631/ipp/print",
                job=[
                    record(Tag.INTEGER, "copies", 2),
                    record(Tag.KEYWORD, "media", "iso_a4_210x297mm"),
                    record(Tag.KEYWORD, "sides", "two-sided-long-edge"),
                ],
                payload=b"%PDF",
            ).body[len(operation_group()) :],
            b"\x02\x00",
        ),
        sized(212, taken(1, unsupported(unknown("media"), unknown("sides")), version=b"\x02\x00")),
    ),
    (LOOK, reply(0x0000, Job(name="report", copies=2).group(*SEEN))),
)
makes(
    "impressions of the operation group before those of the job group",
    print_job(
        record(Tag.NAME, "document-name", "letter"),
        record(Tag.NAME_WITH_LANGUAGE, "job-name", name_with_language("en", "memo")),
        record(Tag.INTEGER, "job-impressions", 5),
        job=[record(Tag.INTEGER, "job-impressions", 9)],
    ),
    Job(name="memo", impressions=5),
)
makes(
    "empty job-name counts as absent",
    print_job(
        record(Tag.NAME, "job-name", ""),
        record(Tag.NAME, "document-name", "letter"),
        job=[record(Tag.INTEGER, "job-impressions", 9)],
    ),
    Job(name="letter", impressions=9),
)
makes("no impressions at all", print_job(record(Tag.INTEGER, "job-impressions", 0)), Job(impressions=0))
makes("most impressions", print_job(record(Tag.INTEGER, "job-impressions", 100_000)), Job(impressions=100_000))
OUT_OF_RANGE: list[tuple[str, Value]] = [("one more", 100_001), ("fewer than none", b"\xff\xff\xff\xff")]
for name, pages in OUT_OF_RANGE:
    row = record(Tag.INTEGER, "job-impressions", pages)
    case(
        f"impressions, {name}",
        (print_job(row), refused(0x040B, unsupported(row))),
        (print_job(), taken(1)),
    )
    makes(f"impressions of the job group, {name}", print_job(job=[row]), Job(), unsupported(row))
for value in [1, 999]:
    makes(f"copies of {value}", print_job(job=[record(Tag.INTEGER, "copies", value)]), Job(copies=value))
for name, row in [
    ("copies of 0", record(Tag.INTEGER, "copies", 0)),
    ("copies of 1000", record(Tag.INTEGER, "copies", 1000)),
    ("copies of two values", attribute(Tag.INTEGER, "copies", 2, 3)),
    ("copies of another tag", record(Tag.KEYWORD, "copies", "two")),
    ("hold until the evening", record(Tag.KEYWORD, "job-hold-until", "evening")),
    ("hold by a name", record(Tag.NAME, "job-hold-until", "indefinite")),
]:
    makes(f"{name}, ignored", print_job(job=[row]), Job(), unsupported(row))
    case(
        f"{name}, refused with fidelity",
        (print_job(STRICT, job=[row]), refused(0x040B, unsupported(row))),
        (print_job(), taken(1)),
    )
takes("hold that is asked for", print_job(STRICT, job=[record(Tag.KEYWORD, "job-hold-until", "indefinite")]))

# unknown attributes of the operation group are no reason to refuse, and of both groups each is listed
case(
    "what is unsupported in its order",
    (
        print_job(
            STRICT,
            record(Tag.KEYWORD, "x-second", "b"),
            record(Tag.KEYWORD, "x-first", "a"),
            record(Tag.KEYWORD, "x-second", "c"),
        ),
        taken(1, unsupported(unknown("x-second"), unknown("x-first"))),
    ),
    (
        print_job(
            record(Tag.KEYWORD, "x-both", "a"),
            job=[record(Tag.KEYWORD, "sides", "b"), record(Tag.INTEGER, "copies", 0), record(Tag.KEYWORD, "x-both", "a")],
        ),
        taken(
            2,
            unsupported(unknown("x-both"), unknown("sides"), record(Tag.INTEGER, "copies", 0), unknown("x-both")),
        ),
    ),
)
case(
    "attributes that Create-Job does not know",
    (
        request(
            Operation.CREATE_JOB,
            record(Tag.KEYWORD, "compression", "gzip"),
            record(Tag.NAME, "document-name", "letter"),
            record(Tag.MEDIA_TYPE, "document-format", "image/png"),
        ),
        reply(
            0x0001,
            unsupported(unknown("compression"), unknown("document-name"), unknown("document-format")),
            Job(reasons=("job-incoming", "job-hold-until-specified")).new_group(),
        ),
    ),
    (LOOK, reply(0x0000, Job().group(*SEEN))),
)
case(
    "unknown attribute of a Cancel-Job",
    (print_job(), taken(1)),
    (
        job_request(Operation.CANCEL_JOB, 1, record(Tag.NAME, "x-note", "wrong paper"), job=[record(Tag.KEYWORD, "sides", "b")]),
        reply(0x0001, unsupported(unknown("x-note"))),
    ),
)
