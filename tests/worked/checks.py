"""The checks of a request in their order, and what each refuses. A request that is refused leaves the queue as it was."""
from __future__ import annotations

from dataclasses import dataclass, replace
from typing import Any, Optional

from ipp import Operation, Tag, Value, attribute, name_with_language, record
from messages import END, JOB_GROUP, OPERATION_GROUP, PRINTER, Draft, operation_group, request, unknown, unsupported
from worked.case import case, print_job, refused, refuses, taken, takes


@dataclass(frozen=True)
class Parts:
    """The parts of a Print-Job that the checks look at, in the order of the checks. By default it fails them all."""

    major: int = 3
    operation: int = 0x12
    is_whole: bool = False
    charset_is_first: bool = False
    charset: str = "latin-1"
    caller_tag: int = Tag.KEYWORD
    job_name: str = 256 * "n"
    printer: Optional[str] = None
    path: str = "/printers/x"
    compression: str = "gzip"
    document_format: str = "image/png"
    is_strict: bool = True

    def message(self) -> Draft:
        charset = record(Tag.CHARSET, "attributes-charset", self.charset)
        language = record(Tag.LANGUAGE, "attributes-natural-language", "en")
        body = OPERATION_GROUP + (charset + language if self.charset_is_first else language + charset)
        if self.printer is not None:
            body += record(Tag.URI, "printer-uri", self.printer + self.path)
        body += record(self.caller_tag, "requesting-user-name", "alice")
        body += record(Tag.NAME, "job-name", self.job_name)
        body += record(Tag.KEYWORD, "compression", self.compression)
        body += record(Tag.MEDIA_TYPE, "document-format", self.document_format)
        body += record(Tag.BOOLEAN, "ipp-attribute-fidelity", self.is_strict)
        body += JOB_GROUP + record(Tag.KEYWORD, "media", "iso_a4_210x297mm")
        # a record without a name after a delimiter spells no message
        body += b"" if self.is_whole else JOB_GROUP + record(Tag.KEYWORD, "", "")
        return Draft(self.operation, body + END + b"hi", bytes([self.major, 1]))


PARTS = Parts()
MENDED: list[tuple[str, int, dict[str, Any]]] = [
    ("check of the version", 0x0503, {"major": 2}),
    ("check of the operation", 0x0501, {"operation": Operation.PRINT_JOB}),
    ("check of the bytes", 0x0400, {"is_whole": True}),
    ("check of the first attributes", 0x0400, {"charset_is_first": True}),
    ("check of the charset", 0x040D, {"charset": "utf-8"}),
    ("check of tags and forms", 0x0400, {"caller_tag": Tag.NAME}),
    ("check of limits", 0x0409, {"job_name": "report"}),
    ("check of what is needed", 0x0400, {"printer": "ipp://localhost"}),
    ("check of the target", 0x0406, {"path": "/ipp/print"}),
    ("check of the compression", 0x040F, {"compression": "none"}),
    ("check of the document format", 0x040A, {"document_format": "text/plain"}),
]
for name, code, mended in MENDED:
    refuses(name, PARTS.message(), code, version=b"\x01\x01" if PARTS.major == 3 else b"\x02\x01")
    PARTS = replace(PARTS, **mended)
case(
    "check of what is unsupported",
    (PARTS.message(), refused(0x040B, unsupported(unknown("media")), version=b"\x02\x01")),
    (print_job(), taken(1)),
)
PARTS = replace(PARTS, is_strict=False)
case(
    "no check is left",
    (PARTS.message(), taken(1, unsupported(unknown("media")), version=b"\x02\x01")),
)

# Purge-Jobs, and a number that is no operation
refuses("operation that is not there", request(0x12), 0x0501)
refuses("number that is no operation", request(0xFFFF), 0x0501)


def print_job_of(*parts: bytes) -> Draft:
    """A Print-Job whose bytes in front of the payload are these."""
    return Draft(Operation.PRINT_JOB, b"".join(parts) + END + b"hi")


CHARSET_ROW = record(Tag.CHARSET, "attributes-charset", "utf-8")
LANGUAGE_ROW = record(Tag.LANGUAGE, "attributes-natural-language", "en")
PRINTER_ROW = record(Tag.URI, "printer-uri", PRINTER)

refuses("no group at all", print_job_of(), 0x0400)
refuses("empty operation group", print_job_of(OPERATION_GROUP), 0x0400)
refuses("no natural language", print_job_of(OPERATION_GROUP, CHARSET_ROW, PRINTER_ROW), 0x0400)
refuses("no charset", print_job_of(OPERATION_GROUP, LANGUAGE_ROW, PRINTER_ROW), 0x0400)
refuses("group before the operation group", print_job_of(b"\x06", operation_group(), PRINTER_ROW), 0x0400)
refuses("job group before the operation group", print_job_of(JOB_GROUP, operation_group(), PRINTER_ROW), 0x0400)
refuses(
    "charset of two values",
    print_job_of(OPERATION_GROUP, attribute(Tag.CHARSET, "attributes-charset", "utf-8", "utf-8"), LANGUAGE_ROW, PRINTER_ROW),
    0x0400,
)
refuses(
    "charset of another tag",
    print_job_of(OPERATION_GROUP, record(Tag.KEYWORD, "attributes-charset", "utf-8"), LANGUAGE_ROW, PRINTER_ROW),
    0x0400,
)
refuses(
    "natural language of another tag",
    print_job_of(OPERATION_GROUP, CHARSET_ROW, record(Tag.KEYWORD, "attributes-natural-language", "en"), PRINTER_ROW),
    0x0400,
)
refuses("charset that is not utf-8", print_job_of(operation_group(charset="latin-1"), PRINTER_ROW), 0x040D)
takes("charset in capitals", print_job_of(operation_group(charset="UTF-8"), PRINTER_ROW))
takes("charset that comes again", print_job_of(operation_group(), PRINTER_ROW, record(Tag.CHARSET, "attributes-charset", "latin-1")))
takes("language of 63 octets", print_job_of(operation_group(language=63 * "e"), PRINTER_ROW))
refuses("language of 64 octets", print_job_of(operation_group(language=64 * "e"), PRINTER_ROW), 0x0409)

takes("printer on another host", print_job(printer="ipp://127.0.0.1:631/ipp/print?a"))
takes("printer without a host", print_job(printer="ipp:///ipp/print#a"))
refuses("printer of another path", print_job(printer="ipp://localhost/printers/x"), 0x0406)
refuses("printer of a longer path", print_job(printer="ipp://localhost/ipp/print/"), 0x0406)
refuses("printer without a scheme", print_job(printer="localhost/ipp/print"), 0x0406)
refuses("printer without a path", print_job(printer="ipp://localhost"), 0x0406)
refuses("no printer", print_job(printer=None), 0x0400)
refuses("two printers", print_job(record(Tag.URI, "", PRINTER), caller=None), 0x0400)
takes("of two attributes of a name the first counts", print_job(record(Tag.URI, "printer-uri", "ipp://localhost/printers/x")))


def print_job_by(tag: Tag, *values: Value) -> Draft:
    """A Print-Job by a caller's name of this tag."""
    return print_job(attribute(tag, "requesting-user-name", *values), caller=None)


takes("caller of 255 octets", print_job_by(Tag.NAME, 255 * "a"))
refuses("caller of 256 octets", print_job_by(Tag.NAME, 256 * "a"), 0x0409)
refuses("caller with a control byte", print_job_by(Tag.NAME, b"a\x7fb"), 0x0400)
refuses("caller that is not utf-8", print_job_by(Tag.NAME, b"\xff"), 0x0400)
refuses("caller of another tag", print_job_by(Tag.KEYWORD, "alice"), 0x0400)
refuses("two callers", print_job_by(Tag.NAME, "alice", "bob"), 0x0400)
takes("caller with a language", print_job_by(Tag.NAME_WITH_LANGUAGE, name_with_language("en", "alice")))
refuses(
    "caller with a language and a byte more", print_job_by(Tag.NAME_WITH_LANGUAGE, name_with_language("en", "alice") + b"!"), 0x0400
)
