"""Jobs that take documents one by one, and jobs that are only validated."""
from __future__ import annotations

from ipp import Operation, Tag, record
from messages import Draft, Job, job_request, reply, request, unknown, unsupported
from worked.case import MEDIA_COL, case, done, print_job, refused, sized, taken
from worked.jobs import HUNDRED, look, seen

OPEN = Job(reasons=("job-incoming", "job-hold-until-specified"))


def send(is_last: bool, payload: bytes, *others: bytes, caller: str = "alice") -> Draft:
    """A Send-Document to job 1."""
    return job_request(
        Operation.SEND_DOCUMENT, 1, record(Tag.BOOLEAN, "last-document", is_last), *others, payload=payload, caller=caller
    )


def created(job: Job) -> Draft:
    """The reply to a Create-Job or a Send-Document."""
    return reply(0x0000, job.new_group())


COUNTS = ("job-k-octets", "number-of-documents")
case(
    "sixteen documents and no more",
    (request(Operation.CREATE_JOB, payload=b"not looked at"), created(OPEN)),
    (look(1, *COUNTS), seen(Job(octets=0, documents=0), *COUNTS)),
    *((send(False, b"a"), created(OPEN)) for _ in range(16)),
    (send(False, b"a"), refused(0x0404)),
    (send(True, b"a"), refused(0x0404)),
    (send(False, b""), created(OPEN)),
    (send(True, b""), created(Job())),
    (look(1, *COUNTS), seen(Job(octets=16, documents=16), *COUNTS)),
    # after the last document the job takes none
    (send(False, b"a"), refused(0x0404)),
    (send(True, b""), refused(0x0404)),
)
case(
    "octets are rounded up",
    (request(Operation.CREATE_JOB), created(OPEN)),
    (send(False, bytes(1024)), created(OPEN)),
    (look(1, *COUNTS), seen(Job(octets=1024, documents=1), *COUNTS)),
    (send(True, b"a"), created(Job())),
    (look(1, *COUNTS), seen(Job(octets=1025, documents=2), *COUNTS)),
)
case(
    "Print-Job without a document",
    (print_job(payload=b""), taken(1)),
    (look(1, *COUNTS), seen(Job(octets=0, documents=0), *COUNTS)),
)
case(
    "documents that are not sent",
    (print_job(), taken(1)),
    (send(True, b"a"), refused(0x0404)),
    (job_request(Operation.SEND_DOCUMENT, 1, payload=b"a"), refused(0x0400)),
    (send(True, b"a", caller="bob"), refused(0x0406)),
    (look(1, *COUNTS), seen(Job(), *COUNTS)),
)
case(
    "documents that are refused by their form",
    (request(Operation.CREATE_JOB), created(OPEN)),
    (send(False, b"a", record(Tag.KEYWORD, "compression", "gzip")), refused(0x040F)),
    (send(False, b"a", record(Tag.MEDIA_TYPE, "document-format", "image/png")), refused(0x040A)),
    (look(1, *COUNTS), seen(Job(octets=0, documents=0), *COUNTS)),
    (
        send(False, b"a", record(Tag.KEYWORD, "job-name", "b")),
        reply(0x0001, unsupported(unknown("job-name")), OPEN.new_group()),
    ),
)

VALIDATED = request(Operation.VALIDATE_JOB)
case("validated without a job", (VALIDATED, done()), (print_job(), taken(1)))
case(
    "validated with a payload",
    (request(Operation.VALIDATE_JOB, payload=b"hi"), done()),
    (request(Operation.GET_JOBS), done()),
    (print_job(), taken(1)),
)
case(
    "validated with an unknown attribute",
    (
        request(Operation.VALIDATE_JOB, job=MEDIA_COL, payload=b"hi"),
        sized(87, reply(0x0001, unsupported(unknown("media-col")))),
    ),
    (print_job(), taken(1)),
)
case(
    "validated with a compression and a document format",
    (request(Operation.VALIDATE_JOB, record(Tag.KEYWORD, "compression", "gzip")), refused(0x040F)),
    (request(Operation.VALIDATE_JOB, record(Tag.MEDIA_TYPE, "document-format", "image/png")), refused(0x040A)),
    (request(Operation.VALIDATE_JOB, record(Tag.MEDIA_TYPE, "document-format", "image/urf")), done()),
)
case(
    "validated beside hundred live jobs",
    *HUNDRED[:99],
    (VALIDATED, done()),
    HUNDRED[99],
    (VALIDATED, refused(0x0404)),
    (request(Operation.VALIDATE_JOB, payload=b"hi", caller="bob"), done()),
)
