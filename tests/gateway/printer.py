"""A small printer that speaks IPP 2.0, over TCP or over a Unix socket as cupsd's queues do. The test says how it behaves.

It counts the pages of the PDFs that come, prints one after the other, may print nothing, be slow, pause or jam after a page, or report no count.
"""
from __future__ import annotations

import http.server
import socketserver
import sys
import threading
import time
import traceback
from collections.abc import Callable
from dataclasses import dataclass, field
from pathlib import Path

sys.path.insert(0, str(Path(__file__).resolve().parents[2] / "tools" / "lib"))
import ipp  # noqa: E402
from ipp import Group, JobState, Operation, Status, Tag, attribute  # noqa: E402

PAUSE_SECONDS = 0.01


@dataclass
class PrintedJob:
    """A job as the printer has it, with what came out of it."""

    number: int
    name: str
    user: str
    copies: int
    options: dict[str, ipp.Value]
    document: bytes = b""
    state: int = JobState.PENDING
    impressions: int = 0
    has_document: bool = False


@dataclass
class Behaviour:
    """What a printer does with the jobs that come from now on."""

    seconds_per_page: float = 0.0
    # it pauses once this many pages of a job have come out, until this is None
    pauses_after: int | None = None
    # it ends a job once this many pages of it have come out, in this state
    jams_after: int | None = None
    jams_as: int = JobState.ABORTED
    # it prints nothing, and keeps jobs as they are
    prints_nothing: bool = False
    reports_count: bool = True
    # it reports sheets too, of which a two-sided one has two pages
    reports_sheets: bool = False
    # status codes with which the next requests of an operation are refused
    refusals: dict[int, list[int]] = field(default_factory=dict)
    # statuses of HTTP with which the next requests of any kind are answered
    http_statuses: list[int] = field(default_factory=list)
    # it takes this many jobs whose replies get lost
    replies_lost: int = 0
    # it lists no job as one that hasn't ended
    forgets_live_jobs: bool = False
    # it names no jobs in its lists
    hides_names: bool = False


class Printer:
    """The printer itself: jobs by their number, and a thread that prints them."""

    def __init__(self, name: str, count: Callable[[bytes], int], device_uri: str = ""):
        self.name, self.count, self.device_uri = name, count, device_uri
        self.behaviour = Behaviour()
        self.jobs: dict[int, PrintedJob] = {}
        self.requests: list[int] = []
        self.headers: list[dict[str, str]] = []
        self.lock = threading.RLock()
        self.is_open = True
        self.engine = threading.Thread(target=self.print_all, daemon=True)
        self.engine.start()

    def close(self) -> None:
        self.is_open = False
        self.engine.join()

    # what it prints

    def print_all(self) -> None:
        while self.is_open:
            job = self.next_job()
            if job is None:
                time.sleep(PAUSE_SECONDS)
            else:
                self.print_job(job)

    def next_job(self) -> PrintedJob | None:
        with self.lock:
            if self.behaviour.prints_nothing:
                return None
            job = next((job for job in self.jobs.values() if job.has_document and job.state == JobState.PENDING), None)
            if job is not None:
                job.state = JobState.PROCESSING
            return job

    def print_job(self, job: PrintedJob) -> None:
        for _ in range(self.count(job.document) * job.copies):
            time.sleep(self.behaviour.seconds_per_page)
            while self.is_open and job.state == JobState.PROCESSING and job.impressions == self.behaviour.pauses_after:
                time.sleep(PAUSE_SECONDS)
            with self.lock:
                if job.state != JobState.PROCESSING or not self.is_open:
                    return
                if job.impressions == self.behaviour.jams_after:
                    job.state = self.behaviour.jams_as
                    return
                job.impressions += 1
        with self.lock:
            if job.state == JobState.PROCESSING:
                job.state = JobState.COMPLETED

    # what it is asked

    def answer(self, text: bytes) -> bytes:
        """The reply to a request."""
        request = ipp.read(text)
        with self.lock:
            self.requests.append(request.code)
            refusals = self.behaviour.refusals.get(request.code, [])
            if refusals:
                return self.reply(request, refusals.pop(0))
            work = {
                Operation.PRINT_JOB: self.take_job,
                Operation.CREATE_JOB: self.take_job,
                Operation.SEND_DOCUMENT: self.take_document,
                Operation.VALIDATE_JOB: self.validate,
                Operation.CANCEL_JOB: self.cancel,
                Operation.GET_JOB_ATTRIBUTES: self.show_job,
                Operation.GET_JOBS: self.show_jobs,
                Operation.GET_PRINTER_ATTRIBUTES: self.show_printer,
            }.get(Operation(request.code)) if request.code in list(Operation) else None
            return self.reply(request, Status.OPERATION_NOT_SUPPORTED) if work is None else work(request)

    def reply(self, request: ipp.Message, code: int, *groups: tuple[Group, bytes]) -> bytes:
        return ipp.message(code, request.request_id, [(Group.OPERATION, ipp.begun()), *groups], version=ipp.VERSION_2_0)

    def job_of(self, request: ipp.Message) -> PrintedJob | None:
        target = request.only(Group.OPERATION)
        last = ipp.text(target, "job-uri").rsplit("/", 1)[-1]
        return self.jobs.get(int(last) if last.isdigit() else ipp.number(target, "job-id"))

    def take_job(self, request: ipp.Message) -> bytes:
        target, chosen = request.only(Group.OPERATION), request.only(Group.JOB)
        options = {name: values[0] for name, values in chosen.items() if values}
        job = PrintedJob(
            len(self.jobs) + 1, ipp.text(target, "job-name"), ipp.text(target, "requesting-user-name"), ipp.number(chosen, "copies") or 1, options,
        )
        self.jobs[job.number] = job
        if request.code == Operation.PRINT_JOB:
            job.document, job.has_document = request.data, True
        return self.reply(request, Status.OK, (Group.JOB, self.shown(job)))

    def take_document(self, request: ipp.Message) -> bytes:
        job = self.job_of(request)
        if job is None:
            return self.reply(request, Status.NOT_FOUND)
        job.document += request.data
        job.has_document = bool(ipp.first_of(request.only(Group.OPERATION), "last-document"))
        return self.reply(request, Status.OK, (Group.JOB, self.shown(job)))

    def validate(self, request: ipp.Message) -> bytes:
        return self.reply(request, Status.OK)

    def cancel(self, request: ipp.Message) -> bytes:
        job = self.job_of(request)
        if job is None:
            return self.reply(request, Status.NOT_FOUND)
        if job.state >= JobState.CANCELED:
            return self.reply(request, Status.NOT_POSSIBLE)
        job.state = JobState.CANCELED
        return self.reply(request, Status.OK)

    def show_job(self, request: ipp.Message) -> bytes:
        job = self.job_of(request)
        if job is None:
            return self.reply(request, Status.NOT_FOUND)
        return self.reply(request, Status.OK, (Group.JOB, self.shown(job)))

    def show_jobs(self, request: ipp.Message) -> bytes:
        which = ipp.text(request.only(Group.OPERATION), "which-jobs") or "not-completed"
        jobs = [job for job in self.jobs.values() if which == "all" or (job.state >= JobState.CANCELED) == (which == "completed")]
        if which == "not-completed" and self.behaviour.forgets_live_jobs:
            jobs = []
        return self.reply(request, Status.OK, *((Group.JOB, self.shown(job, self.behaviour.hides_names)) for job in jobs))

    def shown(self, job: PrintedJob, without_name: bool = False) -> bytes:
        reasons = {JobState.CANCELED: "job-canceled-by-user", JobState.ABORTED: "aborted-by-system", JobState.COMPLETED: "job-completed-successfully"}
        return b"".join((
            attribute(Tag.URI, "job-uri", f"ipp://localhost{self.name}/{job.number}"),
            attribute(Tag.INTEGER, "job-id", job.number),
            attribute(Tag.ENUM, "job-state", job.state),
            attribute(Tag.KEYWORD, "job-state-reasons", reasons.get(JobState(job.state), "none")),
            b"" if without_name else attribute(Tag.NAME, "job-name", job.name),
            attribute(Tag.NAME, "job-originating-user-name", job.user),
            attribute(Tag.INTEGER, "job-impressions-completed", job.impressions) if self.behaviour.reports_count else b"",
            attribute(Tag.INTEGER, "job-media-sheets-completed", self.sheets(job)) if self.behaviour.reports_sheets else b"",
        ))

    def sheets(self, job: PrintedJob) -> int:
        """The sheets that came out of a job: of a two-sided one each copy begins a new sheet."""
        if not str(job.options.get("sides", "one-sided")).startswith("two-sided"):
            return job.impressions
        pages = self.count(job.document) if job.has_document else 1
        copies, rest = divmod(job.impressions, pages)
        return copies * ((pages + 1) // 2) + (rest + 1) // 2

    def show_printer(self, request: ipp.Message) -> bytes:
        state = JobState.PROCESSING if any(job.state == JobState.PROCESSING for job in self.jobs.values()) else JobState.PENDING
        shown = b"".join((
            attribute(Tag.ENUM, "printer-state", 4 if state == JobState.PROCESSING else 3),
            attribute(Tag.INTEGER, "queued-job-count", sum(job.state < JobState.CANCELED for job in self.jobs.values())),
            attribute(Tag.URI, "printer-uri-supported", f"ipp://localhost{self.name}"),
            attribute(Tag.URI, "device-uri", self.device_uri) if self.device_uri else b"",
            PRINTER_ATTRIBUTES,
        ))
        return self.reply(request, Status.OK, (Group.PRINTER, shown))


class Relay(Printer):
    """A queue of CUPS before a printer. It counts as CUPS' backend ipp does: a page for each copy once the printer has the job."""

    def __init__(self, name: str, printer: Printer, device_uri: str):
        self.printer = printer
        super().__init__(name, printer.count, device_uri)

    def print_job(self, job: PrintedJob) -> None:
        with self.printer.lock:
            number = len(self.printer.jobs) + 1
            other = PrintedJob(number, job.name, job.user, job.copies, job.options, job.document, has_document=True)
            self.printer.jobs[number] = other
        job.impressions = job.copies
        while self.is_open and job.state == JobState.PROCESSING and other.state < JobState.CANCELED:
            time.sleep(PAUSE_SECONDS)
        with self.lock:
            if job.state == JobState.PROCESSING:
                # a job that the printer gave up is one that was canceled, or was printed
                job.state = JobState.COMPLETED if other.state == JobState.COMPLETED else self.behaviour.jams_as
            elif other.state < JobState.CANCELED:
                other.state = JobState.CANCELED


def collection(*members: bytes) -> bytes:
    """The records of a collection after its begin: members are attributes, each spelled as RFC 8010, section 3.1.6, has it."""
    return b"".join(members) + attribute(Tag.END_COLLECTION, "", b"")


def member(tag: int, name: str, *values: ipp.Value) -> bytes:
    return attribute(Tag.MEMBER_NAME, "", name) + b"".join(attribute(tag, "", value) for value in values)


def media_size(width: int, height: int) -> bytes:
    """The member media-size, which is a collection itself; lengths are in hundredths of a millimetre."""
    inside = collection(member(Tag.INTEGER, "x-dimension", width), member(Tag.INTEGER, "y-dimension", height))
    return attribute(Tag.MEMBER_NAME, "", "media-size") + attribute(Tag.BEGIN_COLLECTION, "", b"") + inside


def media_column(name: str, size: tuple[int, int]) -> bytes:
    margins = b"".join(member(Tag.INTEGER, f"media-{side}-margin", 423) for side in ("bottom", "left", "right", "top"))
    return collection(media_size(*size), margins)


def media_database(name: str) -> bytes:
    """An attribute of several collections, one for each size."""
    return b"".join(
        attribute(Tag.BEGIN_COLLECTION, "" if place else name, b"") + media_column(*size) for place, size in enumerate(SIZES)
    )


SIZES = [("iso_a4_210x297mm", (21000, 29700)), ("iso_a3_297x420mm", (29700, 42000)), ("na_letter_8.5x11in", (21590, 27940))]
RESOLUTION = (600).to_bytes(4, "big") * 2 + b"\x03"
PRINTER_ATTRIBUTES = b"".join((
    attribute(Tag.CHARSET, "charset-configured", "utf-8"),
    attribute(Tag.CHARSET, "charset-supported", "utf-8"),
    attribute(Tag.KEYWORD, "compression-supported", "none"),
    attribute(Tag.INTEGER, "copies-default", 1),
    attribute(Tag.RANGE, "copies-supported", (1).to_bytes(4, "big") + (999).to_bytes(4, "big")),
    attribute(Tag.MEDIA_TYPE, "document-format-default", "application/pdf"),
    attribute(Tag.MEDIA_TYPE, "document-format-supported", "application/pdf", "image/urf", "image/pwg-raster"),
    attribute(Tag.LANGUAGE, "generated-natural-language-supported", "en"),
    attribute(Tag.KEYWORD, "ipp-features-supported", "ipp-everywhere"),
    attribute(Tag.KEYWORD, "ipp-versions-supported", "1.1", "2.0"),
    attribute(Tag.KEYWORD, "job-creation-attributes-supported", "copies", "media", "media-col", "print-color-mode", "sides"),
    media_database("media-col-database"),
    media_database("media-col-ready"),
    attribute(Tag.BEGIN_COLLECTION, "media-col-default", b"") + media_column(*SIZES[0]),
    attribute(Tag.KEYWORD, "media-col-supported", "media-bottom-margin", "media-left-margin", "media-right-margin", "media-size", "media-top-margin"),
    attribute(Tag.KEYWORD, "media-default", SIZES[0][0]),
    attribute(Tag.KEYWORD, "media-ready", *(name for name, _ in SIZES)),
    attribute(Tag.KEYWORD, "media-supported", *(name for name, _ in SIZES)),
    attribute(Tag.INTEGER, "media-bottom-margin-supported", 423),
    attribute(Tag.INTEGER, "media-left-margin-supported", 423),
    attribute(Tag.INTEGER, "media-right-margin-supported", 423),
    attribute(Tag.INTEGER, "media-top-margin-supported", 423),
    attribute(Tag.BOOLEAN, "multiple-document-jobs-supported", False),
    attribute(Tag.LANGUAGE, "natural-language-configured", "en"),
    attribute(
        Tag.ENUM, "operations-supported", Operation.PRINT_JOB, Operation.VALIDATE_JOB, Operation.CREATE_JOB, Operation.SEND_DOCUMENT,
        Operation.CANCEL_JOB, Operation.GET_JOB_ATTRIBUTES, Operation.GET_JOBS, Operation.GET_PRINTER_ATTRIBUTES,
    ),
    attribute(Tag.KEYWORD, "pdl-override-supported", "attempted"),
    attribute(Tag.KEYWORD, "print-color-mode-supported", "auto", "monochrome", "color"),
    attribute(Tag.KEYWORD, "print-color-mode-default", "auto"),
    attribute(Tag.BOOLEAN, "printer-is-accepting-jobs", True),
    attribute(Tag.TEXT, "printer-make-and-model", "Example Test Printer"),
    attribute(Tag.NAME, "printer-name", "test"),
    attribute(Tag.RESOLUTION, "printer-resolution-default", RESOLUTION),
    attribute(Tag.RESOLUTION, "printer-resolution-supported", RESOLUTION),
    attribute(Tag.KEYWORD, "printer-state-reasons", "none"),
    attribute(Tag.INTEGER, "printer-up-time", 1),
    attribute(Tag.URI, "printer-uuid", "urn:uuid:00000000-0000-1000-8000-000000000001"),
    attribute(Tag.RESOLUTION, "pwg-raster-document-resolution-supported", RESOLUTION),
    attribute(Tag.KEYWORD, "pwg-raster-document-sheet-back", "normal"),
    attribute(Tag.KEYWORD, "pwg-raster-document-type-supported", "sgray_8", "srgb_8"),
    attribute(Tag.KEYWORD, "sides-default", "one-sided"),
    attribute(Tag.KEYWORD, "sides-supported", "one-sided", "two-sided-long-edge", "two-sided-short-edge"),
    attribute(Tag.KEYWORD, "uri-authentication-supported", "none"),
    attribute(Tag.KEYWORD, "uri-security-supported", "none"),
    attribute(Tag.KEYWORD, "urf-supported", "V1.4", "CP1", "W8", "SRGB24", "RS600", "DM1"),
    attribute(Tag.KEYWORD, "which-jobs-supported", "completed", "not-completed", "all"),
))


class Handler(http.server.BaseHTTPRequestHandler):
    """A connection of HTTP to the printer, with bodies by their length or in chunks."""

    protocol_version = "HTTP/1.1"
    printer: Printer

    def do_POST(self) -> None:
        body = self.chunks() if "chunked" in self.headers.get("Transfer-Encoding", "") else self.rfile.read(int(self.headers.get("Content-Length", 0)))
        with self.printer.lock:
            self.printer.headers.append(dict(self.headers))
            status = self.printer.behaviour.http_statuses.pop(0) if self.printer.behaviour.http_statuses else 200
        reply = self.printer.answer(body) if status == 200 else b""
        if status == 200 and ipp.read(body).code == Operation.PRINT_JOB and self.printer.behaviour.replies_lost > 0:
            self.printer.behaviour.replies_lost -= 1
            self.close_connection = True
            return
        self.send_response(status)
        self.send_header("Content-Type", ipp.CONTENT_TYPE)
        self.send_header("Content-Length", str(len(reply)))
        self.end_headers()
        self.wfile.write(reply)

    def chunks(self) -> bytes:
        parts = []
        while (length := int(self.rfile.readline().split(b";")[0], 16)) > 0:
            parts.append(self.rfile.read(length))
            self.rfile.readline()
        while self.rfile.readline().strip():
            pass
        return b"".join(parts)

    def log_message(self, format: str, *args: object) -> None:
        pass


class Quiet(socketserver.ThreadingMixIn):
    daemon_threads, allow_reuse_address = True, True

    def handle_error(self, request: object, client_address: object) -> None:
        # a client that goes away in the midst is no matter
        if not isinstance(sys.exc_info()[1], OSError):
            traceback.print_exc()


class TcpServer(Quiet, socketserver.TCPServer):
    pass


class UnixServer(Quiet, socketserver.UnixStreamServer):
    pass


def serve(printer: Printer, place: tuple[str, int] | str) -> socketserver.BaseServer:
    """Serves a printer at an address, or at the path of a Unix socket, until the server is shut down."""
    handler = type("PrinterHandler", (Handler,), {"printer": printer})
    server: UnixServer | TcpServer = UnixServer(place, handler) if isinstance(place, str) else TcpServer(place, handler)
    threading.Thread(target=server.serve_forever, args=(0.05,), daemon=True).start()
    return server
