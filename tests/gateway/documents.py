"""PDFs for tests, spelled byte by byte."""
from __future__ import annotations

import re

# An encryption dictionary whose passwords nobody has: the document can't be opened.
LOCK = b"/Encrypt << /Filter /Standard /V 1 /R 2 /P -4 /O <" + b"11" * 32 + b"> /U <" + b"22" * 32 + b"> >> /ID [<00> <00>] "


def pdf(pages: int, title: bytes = b"", claimed: int | None = None, trailer: bytes = b"", padding: int = 0, kids: bytes | None = None) -> bytes:
    """A PDF of empty pages. It may claim another number of them (/Count), have a title, and bytes that nothing refers to."""
    first = 4
    listed = b" ".join(b"%d 0 R" % (first + page) for page in range(pages)) if kids is None else kids
    bodies = [
        b"<< /Type /Catalog /Pages 2 0 R >>",
        b"<< /Type /Pages /Kids [%s] /Count %d >>" % (listed, pages if claimed is None else claimed),
        b"<< /Title (%s) >>" % title,
        *(b"<< /Type /Page /Parent 2 0 R /MediaBox [0 0 595 842] /Resources << >> >>" for _ in range(pages)),
    ]
    parts, places, at = [b"%PDF-1.4\n"], [], 9
    for number, body in enumerate(bodies, 1):
        places.append(at)
        parts.append(b"%d 0 obj\n%s\nendobj\n" % (number, body))
        at += len(parts[-1])
    if padding:
        parts.append(b"%" + b"x" * (padding - 2) + b"\n")
        at += padding
    table = b"".join(b"%010d 00000 n \n" % place for place in places)
    parts.append(b"xref\n0 %d\n0000000000 65535 f \n%s" % (len(bodies) + 1, table))
    parts.append(b"trailer << /Size %d /Root 1 0 R /Info 3 0 R %s>>\nstartxref\n%d\n%%%%EOF\n" % (len(bodies) + 1, trailer, at))
    return b"".join(parts)


def pdf_of(octets: int, pages: int = 1) -> bytes:
    """A PDF of just that length."""
    padding = 1000
    while (over := len(pdf(pages, padding=padding)) - octets) != 0:
        padding -= over
    return pdf(pages, padding=padding)


BROKEN = pdf(3)[:300]
LOCKED = pdf(3, trailer=LOCK)
WITHOUT_PAGES = pdf(0)
# a title in which a line claims a number, as pdfinfo would print it; and a tree of pages that claims fewer than it has
FORGED_TITLE = pdf(3, title=b"x\\nPages:          1\\npage 1: 4 0 R\\n1")
FORGED_COUNT = pdf(3, claimed=1)
# the same page three times: it prints three
SHARED_PAGES = pdf(1, kids=b"4 0 R 4 0 R 4 0 R", claimed=1)
# a tree that goes in a circle
CIRCLE = pdf(1, kids=b"2 0 R")
TEXT = b"no PDF\n"


class NoPages(ValueError):
    """A document that can't be opened."""


def pages_of(document: bytes) -> list[bytes]:
    """The objects of the pages that one of these documents has, as qpdf finds them."""
    kids = re.search(rb"/Type /Pages /Kids \[([^]]*)\]", document)
    references = re.findall(rb"(\d+) 0 R", kids[1]) if kids else []
    if kids is None or b"/Encrypt" in document or not document.endswith(b"%%EOF\n") or b"2" in references:
        raise NoPages
    return references
