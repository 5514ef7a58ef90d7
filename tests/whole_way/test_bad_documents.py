"""Documents and titles that are no good, or that claim what they are not."""
from __future__ import annotations

import os
from pathlib import Path

import documents
from clients import Client, WholeWay, written
from documents import pdf
from machine import run, wait_for
from server import named_values

import ipp
from ipp import Group, JobState, Operation, Tag, attribute


class BadDocuments(WholeWay):
    def test_a_document_that_is_no_good_is_canceled_and_the_next_is_held(self) -> None:
        alice = Client("alice")
        locked = written(pdf(3), "open.pdf")
        run("qpdf", "--encrypt", "secret", "owner", "256", "--", locked, "/tmp/locked.pdf")
        run("qpdf", "--encrypt", "", "owner", "256", "--print=none", "--", locked, "/tmp/unprintable.pdf")
        bad = {
            "locked": Path("/tmp/locked.pdf").read_bytes(), "not to be printed": Path("/tmp/unprintable.pdf").read_bytes(), "broken": documents.BROKEN,
            "without pages": documents.WITHOUT_PAGES, "a forged count": documents.FORGED_COUNT, "too large": large_picture(17_000_000),
        }
        for what, document in bad.items():
            with self.subTest(what=what):
                number = ipp.number(alice.print(what, document).only(Group.JOB), "job-id")
                wait_for("the job to be canceled", lambda: self.state(alice, number) >= JobState.CANCELED)
                self.assertEqual(self.state(alice, number), JobState.CANCELED)
        for what, document in {"raw text": documents.TEXT, "raw and locked": documents.LOCKED}.items():
            with self.subTest(what=what):
                number = ipp.number(alice.print(what, document, attribute(Tag.MEDIA_TYPE, "document-format", "application/vnd.cups-raw")).only(Group.JOB), "job-id")
                wait_for("the job to be canceled", lambda: self.state(alice, number) >= JobState.CANCELED)
        alice.print("good", pdf(2))
        self.held("alice", "good")
        self.assertEqual(self.titles("alice"), ["good"])

    def state(self, client: Client, number: int) -> int:
        reply = client.ask(Operation.GET_JOB_ATTRIBUTES, ipp.wanted("job-state"), job=number)
        return ipp.number(reply.only(Group.JOB), "job-state")

    def test_a_document_cannot_forge_its_pages(self) -> None:
        alice = Client("alice")
        raw = attribute(Tag.MEDIA_TYPE, "document-format", "application/vnd.cups-pdf")
        alice.print("title", documents.FORGED_TITLE)
        alice.print("raw title", documents.FORGED_TITLE, raw)
        alice.print("raw count", documents.FORGED_COUNT, raw)
        alice.print("raw shared", documents.SHARED_PAGES, raw)
        for title in ("title", "raw title", "raw count", "raw shared"):
            self.assertEqual(named_values(self.held("alice", title), "job-impressions"), [3], title)

    def test_too_many_copies_and_an_empty_document_are_refused_by_cups(self) -> None:
        alice = Client("alice")
        self.assertFalse(alice.print("copies", pdf(1), job_attributes=attribute(Tag.INTEGER, "copies", 1000)).is_success)
        self.assertFalse(alice.print("empty", b"").is_success)

    def test_titles_of_all_kinds(self) -> None:
        # CUPS takes no name with control characters, nor one that is longer
        for title, shown in {"é" * 127: "é" * 127, "'; rm -rf / #": "'; rm -rf / #", "a\tb\x1b[31mc": "Untitled", "x" * 300: "Untitled"}.items():
            Client("alice").print(title, pdf(1))
            self.held("alice", shown)
            self.machine.server.cancel_all("alice")


def large_picture(octets: int) -> bytes:
    """A PDF of one page whose picture can't be made smaller."""
    picture = os.urandom(octets)
    width = octets // 1000
    document = pdf(1)
    body = b"9 0 obj\n<< /Type /XObject /Subtype /Image /Width %d /Height 1000 /ColorSpace /DeviceGray /BitsPerComponent 8 /Length %d >>\nstream\n%s\nendstream\nendobj\n"
    page = b"8 0 obj\n<< /Length 6 >>\nstream\n/I Do \nendstream\nendobj\n"
    changed = document.replace(b"/Resources << >>", b"/Resources << /XObject << /I 9 0 R >> >> /Contents 8 0 R")
    # the table of places is left as it is: qpdf makes it anew
    return changed.replace(b"xref\n", page + body % (width, width * 1000, picture[:width * 1000]) + b"xref\n", 1)
