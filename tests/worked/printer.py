"""Lists of jobs, and the printer's own attributes."""
from __future__ import annotations

from collections.abc import Sequence

from ipp import Operation, Tag, Value, attribute, record
from messages import PRINTER, PRINTER_GROUP, Draft, Job, job_request, reply, request, unsupported
from worked.case import case, done, now, print_job, refused, sized, taken, wants
from worked.jobs import canceled


def jobs(*attributes: bytes, caller: str = "alice") -> Draft:
    return request(Operation.GET_JOBS, *attributes, caller=caller)


def listed(*numbers: int) -> Draft:
    """The reply to a Get-Jobs that shows these jobs."""
    return reply(0x0000, *(Job(number).listed_group() for number in numbers))


COMPLETED = record(Tag.KEYWORD, "which-jobs", "completed")
NOT_COMPLETED = record(Tag.KEYWORD, "which-jobs", "not-completed")


def limit(count: int) -> bytes:
    return record(Tag.INTEGER, "limit", count)


case(
    "jobs of the caller alone",
    (print_job(), taken(1)),
    (jobs(caller="bob"), done()),
    (jobs(record(Tag.BOOLEAN, "my-jobs", False), caller="bob"), done()),
    (jobs(), listed(1)),
    (jobs(record(Tag.BOOLEAN, "my-jobs", True)), listed(1)),
    (print_job(caller="bob"), taken(2)),
    (jobs(caller="bob"), listed(2)),
)
case(
    "caller without a name",
    (print_job(caller=None), taken(1)),
    (print_job(caller=""), taken(2)),
    (jobs(caller="anonymous"), listed(1, 2)),
)
case(
    "jobs that wait, by number",
    *((print_job(), taken(number)) for number in range(1, 6)),
    (job_request(Operation.CANCEL_JOB, 2), done()),
    (jobs(), listed(1, 3, 4, 5)),
    (jobs(NOT_COMPLETED), listed(1, 3, 4, 5)),
    (jobs(limit(2)), listed(1, 3)),
    (jobs(limit(2_147_483_647)), listed(1, 3, 4, 5)),
    (jobs(COMPLETED), listed(2)),
)
# canceled at 30, 10, 30, 20 and 30, number 4 not at all
case(
    "completed jobs from the one that ended last",
    *((print_job(), taken(number)) for number in range(1, 7)),
    now(30),
    (job_request(Operation.CANCEL_JOB, 6), done()),
    (job_request(Operation.CANCEL_JOB, 1), done()),
    now(10),
    (job_request(Operation.CANCEL_JOB, 2), done()),
    now(30),
    (job_request(Operation.CANCEL_JOB, 3), done()),
    now(20),
    (job_request(Operation.CANCEL_JOB, 5), done()),
    (jobs(COMPLETED), listed(6, 3, 1, 5, 2)),
    (jobs(COMPLETED, limit(3)), listed(6, 3, 1)),
    (jobs(COMPLETED, limit(4)), listed(6, 3, 1, 5)),
    (
        jobs(COMPLETED, limit(4), wants("time-at-completed", "job-id")),
        reply(
            0x0000,
            *(
                canceled(number, ended=ended).group("job-id", "time-at-completed")
                for number, ended in [(6, 30), (3, 30), (1, 30), (5, 20)]
            ),
        ),
    ),
    (jobs(), listed(4)),
    (jobs(COMPLETED, caller="bob"), done()),
)
ALL_JOBS = record(Tag.KEYWORD, "which-jobs", "all")
case(
    "which jobs that are not supported",
    (jobs(ALL_JOBS), refused(0x040B, unsupported(ALL_JOBS))),
    (jobs(limit(0)), refused(0x0400)),
)
case(
    "jobs of which nothing is selected",
    (print_job(), taken(1)),
    (jobs(wants("no-such-attribute")), reply(0x0000, Job().group())),
)


def printer_attributes(now: int = 1, queued: int = 0) -> dict[str, bytes]:
    """All attributes of the printer by their names, in the order of the table."""
    formats = ["application/octet-stream", "application/pdf", "application/postscript"]
    formats += ["image/jpeg", "image/pwg-raster", "image/urf", "text/plain"]
    rows: list[tuple[Tag, str, Sequence[Value]]] = [
        (Tag.URI, "printer-uri-supported", [PRINTER]),
        (Tag.KEYWORD, "uri-authentication-supported", ["requesting-user-name"]),
        (Tag.KEYWORD, "uri-security-supported", ["none"]),
        (Tag.NAME, "printer-name", ["release"]),
        (Tag.ENUM, "printer-state", [3]),
        (Tag.KEYWORD, "printer-state-reasons", ["none"]),
        (Tag.KEYWORD, "ipp-versions-supported", ["1.1", "2.0"]),
        (Tag.ENUM, "operations-supported", [0x02, 0x04, 0x05, 0x06, 0x08, 0x09, 0x0A, 0x0B, 0x0C, 0x0D, 0x39]),
        (Tag.CHARSET, "charset-configured", ["utf-8"]),
        (Tag.CHARSET, "charset-supported", ["utf-8"]),
        (Tag.LANGUAGE, "natural-language-configured", ["en"]),
        (Tag.LANGUAGE, "generated-natural-language-supported", ["en"]),
        (Tag.MEDIA_TYPE, "document-format-default", ["application/octet-stream"]),
        (Tag.MEDIA_TYPE, "document-format-supported", [*formats]),
        (Tag.BOOLEAN, "printer-is-accepting-jobs", [True]),
        (Tag.INTEGER, "queued-job-count", [queued]),
        (Tag.KEYWORD, "pdl-override-supported", ["not-attempted"]),
        (Tag.INTEGER, "printer-up-time", [now]),
        (Tag.KEYWORD, "compression-supported", ["none"]),
    ]
    return {name: attribute(tag, name, *values) for tag, name, values in rows}


def ask_printer(*names: str) -> Draft:
    return request(Operation.GET_PRINTER_ATTRIBUTES, wants(*names))


def shown(*names: str, **others: int) -> Draft:
    """The reply that shows these attributes of the printer."""
    rows = printer_attributes(**others)
    return reply(0x0000, PRINTER_GROUP + b"".join(rows[name] for name in rows if name in names))


EVERY = tuple(printer_attributes())
case("printer state of an empty queue", (ask_printer("printer-state"), sized(95, shown("printer-state"))))
for name in EVERY:
    case(f"{name} alone", (ask_printer(name), shown(name)))
case(
    "printer as a whole",
    (request(Operation.GET_PRINTER_ATTRIBUTES), shown(*EVERY)),
    (ask_printer("all"), shown(*EVERY)),
    (ask_printer("printer-description"), shown(*EVERY)),
    (ask_printer("printer-up-time", "printer-name", "printer-up-time"), shown("printer-name", "printer-up-time")),
    (ask_printer("job-template"), shown()),
)
case(
    "printer with jobs of two callers",
    (print_job(), taken(1)),
    (print_job(caller="bob"), taken(2)),
    (print_job(), taken(3)),
    (job_request(Operation.CANCEL_JOB, 3), done()),
    now(77),
    (request(Operation.GET_PRINTER_ATTRIBUTES, caller="carol"), shown(*EVERY, now=77, queued=2)),
)
case(
    "printer asked for a document format",
    (
        request(
            Operation.GET_PRINTER_ATTRIBUTES,
            record(Tag.MEDIA_TYPE, "document-format", "image/jpeg"),
            wants("pdl-override-supported"),
        ),
        shown("pdl-override-supported"),
    ),
    (request(Operation.GET_PRINTER_ATTRIBUTES, record(Tag.MEDIA_TYPE, "document-format", "image/png")), refused(0x040A)),
)
