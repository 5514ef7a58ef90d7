"""tools/cups-gateway/setup, run once more on a machine that it has set up."""
from __future__ import annotations

from pathlib import Path

from clients import Client, WholeWay
from documents import pdf
from machine import NAME

CONFIGURATION = Path("/etc/cups/cupsd.conf")
HANDED_ON = '*cupsFilter2: "application/pdf application/pdf 0 -"'


class Setup(WholeWay):
    def test_the_printers_queue_hands_the_pdf_on_also_after_a_second_run(self) -> None:
        for _ in range(2):
            self.machine.setup("queues")
            self.assertIn(HANDED_ON, Path("/etc/cups/ppd/floor2.ppd").read_text(encoding="utf-8").splitlines())
        Client("alice").print("set up again", pdf(2))
        job = self.held("alice", "set up again")
        self.assertTrue(self.release("alice", job))
        self.assertEqual(self.ended("alice", job)["job-impressions-completed"], [2])

    def test_a_file_that_was_there_before_the_first_run_is_kept(self) -> None:
        # the one of Debian's package, whatever the setup has written since
        before, now = CONFIGURATION.with_name("cupsd.conf.before-print-release"), CONFIGURATION.read_text(encoding="utf-8")
        kept = before.read_text(encoding="utf-8")
        self.machine.setup("files")
        self.addCleanup(CONFIGURATION.write_text, now, encoding="utf-8")
        self.assertEqual(before.read_text(encoding="utf-8"), kept)
        self.assertNotIn(NAME, kept)
        self.assertIn(f"ServerAlias {NAME}\n", CONFIGURATION.read_text(encoding="utf-8"))

    def test_without_the_printer_it_says_so(self) -> None:
        with self.machine.without_printer(), self.assertRaisesRegex(AssertionError, "CUPS made no PPD for ipp://localhost:8690/ipp/print: is the printer on"):
            self.machine.setup("queues")
        self.machine.setup("queues")
