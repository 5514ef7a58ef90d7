"""The device's command print-pages against a queue of CUPS, for which there is a small printer at a Unix socket."""
from __future__ import annotations

import os
import pwd
import shutil
import socketserver
import subprocess
import tempfile
import time
import unittest
from collections.abc import Callable
from dataclasses import dataclass
from pathlib import Path

import documents
import printer as printers
from documents import pdf
from runs import COUNTER_PATH, PRINT_PAGES, RUN_SECONDS, run

import gateway
from ipp import JobState, Operation, Status

PRINTED, FAILED, CANT_WORK = 0, 1, 127


def count(document: bytes) -> int:
    """The pages that the printer prints of a document; of one that it can't read one page comes out."""
    try:
        return len(documents.pages_of(document))
    except documents.NoPages:
        return 1


def wait_until(is_so: Callable[[], bool]) -> None:
    latest = time.monotonic() + RUN_SECONDS
    while not is_so():
        if time.monotonic() > latest:
            raise AssertionError(f"not so within {RUN_SECONDS} s")
        time.sleep(0.02)


def stop(server: socketserver.BaseServer) -> None:
    server.shutdown()
    server.server_close()


@dataclass(frozen=True)
class Outcome:
    """A run of the command: its status, the counts that it printed, and its log."""

    status: int
    counts: list[int]
    log: str

    @property
    def pages(self) -> int:
        """The pages that are charged: the last count."""
        return self.counts[-1] if self.counts else 0


class WithQueue(unittest.TestCase):
    """A queue of CUPS: in its place a printer serves the socket."""

    def setUp(self) -> None:
        self.folder = Path(tempfile.mkdtemp())
        self.addCleanup(shutil.rmtree, self.folder)
        self.socket = str(self.folder / "cups.sock")
        (self.folder / "options").mkdir()
        self.environment = {"PATH": COUNTER_PATH, "JOB": "12", "DOCUMENT": "1", "COPIES": "1", "FORMAT": "application/pdf"}
        self.queue = self.make_queue()
        self.addCleanup(self.queue.close)
        self.addCleanup(stop, printers.serve(self.queue, self.socket))

    def make_queue(self) -> printers.Printer:
        return printers.Printer("/printers/floor2", count)

    def words(self, *more: str) -> list[str]:
        return [*PRINT_PAGES, "--socket", self.socket, "--options", str(self.folder / "options"), *more, "floor2"]

    def start(self, document: bytes, *more: str, **environment: str) -> subprocess.Popen[str]:
        path = self.folder / "document.pdf"
        path.write_bytes(document)
        return subprocess.Popen(
            [*self.words(*more), str(path)], stdin=subprocess.DEVNULL, stdout=subprocess.PIPE, stderr=subprocess.PIPE, text=True,
            env={**self.environment, **environment},
        )

    def end(self, process: subprocess.Popen[str], counts: tuple[int, ...] = (), log: str = "") -> Outcome:
        """Waits for the end of a run, of which these counts and this part of the log were read already."""
        more_counts, more_log = process.communicate(timeout=RUN_SECONDS)
        return Outcome(process.returncode, [*counts, *map(int, more_counts.split())], log + more_log)

    def print(self, document: bytes, *more: str, **environment: str) -> Outcome:
        return self.end(self.start(document, *more, **environment))

    def check(self, outcome: Outcome, status: int, pages: int) -> None:
        """Counts are printed as pages come out, and how often depends on the machine: only the last is charged."""
        self.assertEqual((outcome.status, outcome.pages), (status, pages), outcome.log)

    def only_job(self) -> printers.PrintedJob:
        self.assertEqual(len(self.queue.jobs), 1)
        return self.queue.jobs[1]


class Printed(WithQueue):
    def test_a_document_is_printed_with_its_copies_and_counted(self) -> None:
        document = pdf(3)
        self.check(self.print(document, COPIES="2"), PRINTED, 6)
        job, user = self.only_job(), pwd.getpwuid(os.geteuid()).pw_name
        self.assertEqual((job.document, job.copies, job.user), (document, 2, user))
        self.assertTrue(job.name.startswith("release-12-1-"))
        self.assertEqual({headers["Authorization"] for headers in self.queue.headers}, {f"PeerCred {user}"})

    def test_pages_are_counted_as_they_come(self) -> None:
        self.queue.behaviour.pauses_after = 2
        process = self.start(pdf(6))
        assert process.stdout is not None
        counts = [0]
        while counts[-1] < 2:
            counts.append(int(process.stdout.readline()))
        self.queue.behaviour.pauses_after = None
        outcome = self.end(process, tuple(counts))
        self.check(outcome, PRINTED, 6)
        self.assertEqual(outcome.counts, sorted(outcome.counts))

    def test_the_options_that_were_kept_reach_the_printer(self) -> None:
        gateway.keep_options(str(self.folder / "options"), 12, ["media=iso_a4_210x297mm", "sides=two-sided-long-edge"])
        (self.folder / "options" / "13").write_text("sides=two-sided-short-edge\nraw=yes\ncopies=9\n", encoding="ascii")
        self.check(self.print(pdf(1)), PRINTED, 1)
        self.check(self.print(pdf(1), JOB="13"), PRINTED, 1)
        self.assertEqual(self.queue.jobs[1].options, {"copies": 1, "media": "iso_a4_210x297mm", "sides": "two-sided-long-edge"})
        self.assertEqual(self.queue.jobs[2].options, {"copies": 1, "sides": "two-sided-short-edge"})

    def test_a_printer_that_reports_no_pages(self) -> None:
        self.queue.behaviour.reports_count = False
        self.check(self.print(pdf(3), "--count", "document", COPIES="2"), PRINTED, 6)

    def test_a_document_that_is_no_pdf_is_counted_by_the_printer(self) -> None:
        self.check(self.print(documents.TEXT, FORMAT="text/plain"), PRINTED, 1)

    def test_a_document_that_was_handed_over_is_not_handed_over_again(self) -> None:
        document = pdf(3)
        self.check(self.print(document), PRINTED, 3)
        self.check(self.print(document), PRINTED, 3)
        self.only_job()
        # another job with the same document is
        self.check(self.print(document, JOB="13"), PRINTED, 3)
        self.assertEqual(len(self.queue.jobs), 2)

    def test_a_command_that_was_killed_finds_its_job_again(self) -> None:
        self.queue.behaviour.pauses_after = 2
        document = pdf(6)
        process = self.start(document)
        wait_until(lambda: len(self.queue.jobs) == 1)
        process.kill()
        process.communicate()
        self.queue.behaviour.pauses_after = None
        self.check(self.print(document), PRINTED, 6)
        self.assertEqual(self.only_job().impressions, 6)

    def test_a_reply_that_is_lost(self) -> None:
        self.queue.behaviour.replies_lost = 1
        self.check(self.print(pdf(3)), PRINTED, 3)
        self.only_job()


class AtThePrinter(WithQueue):
    """A queue whose printer can be asked: the printer's own count is charged."""

    def make_queue(self) -> printers.Printer:
        self.printer = printers.Printer("/ipp/print", count)
        self.addCleanup(self.printer.close)
        self.tcp = printers.serve(self.printer, ("127.0.0.1", 0))
        self.addCleanup(stop, self.tcp)
        port = self.tcp.socket.getsockname()[1]
        return printers.Relay("/printers/floor2", self.printer, f"ipp://127.0.0.1:{port}/ipp/print")

    def test_a_document_is_printed_and_counted(self) -> None:
        self.check(self.print(pdf(3), COPIES="2"), PRINTED, 6)

    def test_a_jam_counts_what_came_out_whatever_cups_says(self) -> None:
        for jams_after, jams_as in ((0, JobState.CANCELED), (1, JobState.COMPLETED), (3, JobState.ABORTED), (13, JobState.COMPLETED)):
            with self.subTest(jams_after=jams_after):
                self.printer.behaviour.jams_after, self.queue.behaviour.jams_as = jams_after, jams_as
                outcome = self.print(pdf(7), JOB=str(100 + jams_after), COPIES="2")
                self.check(outcome, FAILED, jams_after)
                self.assertIn(f"{jams_after} of 14 pages came out", outcome.log)

    def test_a_printer_that_reports_no_pages_has_printed_all_or_none(self) -> None:
        self.printer.behaviour.reports_count = False
        self.check(self.print(pdf(3), COPIES="2"), PRINTED, 6)
        self.printer.behaviour.jams_after = 2
        self.check(self.print(pdf(3), JOB="13", COPIES="2"), FAILED, 0)

    def test_a_printer_that_goes_on_where_cups_gives_up(self) -> None:
        self.printer.behaviour.pauses_after = 2
        process = self.start(pdf(4))
        wait_until(lambda: len(self.printer.jobs) == 1)
        self.queue.behaviour.forgets_live_jobs = True
        # CUPS lists no live job from now on, so the command asks the printer
        asked = self.printer.requests.count(Operation.GET_JOBS)
        wait_until(lambda: self.printer.requests.count(Operation.GET_JOBS) > asked + 1)
        self.printer.behaviour.pauses_after = None
        self.check(self.end(process), PRINTED, 4)

    def test_a_job_that_cups_has_sent_twice_counts_once(self) -> None:
        document = pdf(3)
        self.print(document)
        name = self.printer.jobs[1].name
        self.printer.jobs[2] = printers.PrintedJob(2, name, "print-device", 1, {}, document, JobState.ABORTED, 2, True)
        self.check(self.print(document), PRINTED, 3)

    def test_a_printer_that_lists_no_names_is_counted_by_cups(self) -> None:
        self.printer.behaviour.hides_names = True
        self.check(self.print(pdf(1), COPIES="2"), PRINTED, 2)
        self.check(self.print(pdf(3), JOB="13", COPIES="2"), FAILED, 2)
        self.check(self.print(pdf(3), "--count", "document", JOB="14", COPIES="2"), PRINTED, 6)

    def test_a_printer_that_is_off_when_it_is_asked(self) -> None:
        stop(self.tcp)
        self.check(self.print(pdf(1)), PRINTED, 1)


class Passing(WithQueue):
    """What passes is waited for."""

    def test_cups_is_busy(self) -> None:
        self.queue.behaviour.refusals[Operation.PRINT_JOB] = [Status.BUSY, 0x0506]
        self.queue.behaviour.refusals[Operation.GET_JOB_ATTRIBUTES] = [Status.BUSY]
        self.check(self.print(pdf(3)), PRINTED, 3)

    def test_cups_answers_by_a_status_of_a_server(self) -> None:
        self.queue.behaviour.http_statuses = [503, 500]
        self.check(self.print(pdf(3)), PRINTED, 3)

    def test_cups_is_away_and_comes_back(self) -> None:
        os.rename(self.socket, self.socket + ".away")
        process = self.start(pdf(3))
        assert process.stderr is not None
        log = process.stderr.readline()
        self.assertIn("CUPS does not answer: ", log)
        os.rename(self.socket + ".away", self.socket)
        self.check(self.end(process, log=log), PRINTED, 3)

    def test_cups_is_away_all_the_time(self) -> None:
        os.unlink(self.socket)
        self.check(self.print(pdf(3), "--seconds", "1"), CANT_WORK, 0)


class Failed(WithQueue):
    def test_a_jam_counts_what_came_out(self) -> None:
        self.queue.behaviour.jams_after = 2
        self.check(self.print(pdf(7)), FAILED, 2)

    def test_a_jam_that_cups_takes_for_an_end_counts_what_came_out(self) -> None:
        self.queue.behaviour.jams_after, self.queue.behaviour.jams_as = 2, JobState.COMPLETED
        outcome = self.print(pdf(7), COPIES="2")
        self.check(outcome, FAILED, 2)
        self.assertIn("2 of 14 pages came out", outcome.log)

    def test_a_job_of_which_nothing_came_out(self) -> None:
        self.queue.behaviour.jams_after = 0
        self.check(self.print(pdf(7)), FAILED, 0)

    def test_a_printer_that_prints_nothing(self) -> None:
        self.queue.behaviour.prints_nothing = True
        self.check(self.print(pdf(7), "--seconds", "1"), FAILED, 0)
        self.assertEqual(self.only_job().state, JobState.CANCELED)

    def test_a_job_that_takes_too_long_counts_what_came_out(self) -> None:
        self.queue.behaviour.pauses_after = 2
        outcome = self.print(pdf(50), "--seconds", "3")
        self.assertEqual(self.only_job().state, JobState.CANCELED)
        self.check(outcome, FAILED, self.only_job().impressions)

    def test_a_format_that_the_queue_does_not_take(self) -> None:
        self.queue.behaviour.refusals[Operation.PRINT_JOB] = [Status.FORMAT_NOT_SUPPORTED]
        self.check(self.print(pdf(1)), FAILED, 0)

    def test_a_job_that_is_gone(self) -> None:
        self.queue.behaviour.refusals[Operation.GET_JOB_ATTRIBUTES] = [Status.NOT_FOUND]
        self.assertEqual(self.print(pdf(1)).status, FAILED)

    def test_a_job_that_cups_lost_when_it_was_stopped(self) -> None:
        # its attributes say that it prints, yet it is none of those that have not ended
        self.queue.behaviour.prints_nothing = self.queue.behaviour.forgets_live_jobs = True
        self.check(self.print(pdf(1)), FAILED, 0)

    def test_a_queue_that_cannot_be_used(self) -> None:
        for code in (Status.FORBIDDEN, Status.NOT_AUTHENTICATED, Status.NOT_AUTHORIZED, Status.NOT_FOUND):
            self.queue.behaviour.refusals[Operation.GET_JOBS] = [code]
            with self.subTest(code=code):
                self.check(self.print(pdf(1)), CANT_WORK, 0)
        for status in (401, 403, 404):
            self.queue.behaviour.http_statuses = [status]
            with self.subTest(status=status):
                self.check(self.print(pdf(1)), CANT_WORK, 0)
        self.assertEqual(self.queue.jobs, {})

    def test_words_and_an_environment_that_are_wrong(self) -> None:
        wrong: list[list[str]] = [[], ["--count", "nothing"], ["--seconds", "x"]]
        for words in wrong:
            done = run([*PRINT_PAGES, *words])
            self.assertEqual((done.status, done.output), (CANT_WORK, ""))
        for name in ("JOB", "DOCUMENT", "COPIES", "FORMAT"):
            value = self.environment.pop(name)
            with self.subTest(without=name):
                self.check(self.print(pdf(1)), CANT_WORK, 0)
            self.environment[name] = value
        self.assertEqual(run([*self.words(), "/nowhere/document.pdf"]).status, CANT_WORK)


if __name__ == "__main__":
    unittest.main()
