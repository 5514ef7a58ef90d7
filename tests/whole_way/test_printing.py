"""Jobs that are printed, and what is charged for them."""
from __future__ import annotations

import os
import shlex
from pathlib import Path

import printer as printers
from clients import Client, WholeWay, written
from documents import pdf
from machine import CUPS_SOCKET, PASSWORDS, at_terminal, count, lp, run, wait_for
from server import named_values

import ipp
from ipp import JobState, Operation, Tag, attribute


class Printing(WholeWay):
    def test_a_password_over_tls_then_held_released_printed_and_charged(self) -> None:
        os.chdir("/tmp")
        written(pdf(7), "seven.pdf")
        words = ["lp", "-E", "-h", "localhost:443", "-d", "release", "-n", "2", "-P", "2-4", "-o", "sides=two-sided-long-edge", "seven.pdf"]
        status, shown = at_terminal("alice", PASSWORDS["alice"], *words)
        self.assertEqual(status, 0, shown)
        self.assertRegex(shown, r"Password for alice on localhost\? .*\nrequest id is release-\d+ \(1 file\(s\)\)\n")
        job = self.held("alice", "seven.pdf")
        self.assertEqual(named_values(job, "job-impressions", "copies"), [3, 2])
        number = ipp.number(job, "job-id")
        listed = self.station("alice", "list")
        before = self.machine.printed("alice")
        answer = self.station("alice", "release", str(number))
        self.assertEqual(answer, f"job {number}: released\n")
        self.assertEqual(ipp.number(self.ended("alice", job), "job-impressions-completed"), 6)
        log = [line for line in self.machine.device.log.read_text(encoding="utf-8").splitlines() if line.startswith(f"report {number} ")]
        self.assertEqual(log[-1], f"report {number} 3 done 6: ok {number} 9 6")
        sheet = self.machine.printer.jobs[len(self.machine.printer.jobs)]
        self.assertEqual((count(sheet.document), sheet.copies, sheet.options["sides"], sheet.impressions), (3, 2, "two-sided-long-edge", 6))
        statement = self.machine.statement("alice")
        self.assertEqual(self.machine.printed("alice"), before + 6)
        self.transcript.extend((
            f"alice$ {shlex.join(words)}", *shown.strip().splitlines(), "alice$ release-station alice", *listed.rstrip().splitlines(),
            f"release N.., cancel N.., list or quit> release {number}", *answer.strip().splitlines(), "root# journalctl -u print-device", *log,
            "root# printd statement --store /var/lib/printd/queue.db alice", *statement.strip().splitlines(),
        ))

    def test_a_release_against_too_few_pages_is_refused_exactly(self) -> None:
        carol = Client("carol")
        carol.print("fourteen", pdf(7), job_attributes=attribute(Tag.INTEGER, "copies", 2))
        carol.print("ten", pdf(5), job_attributes=attribute(Tag.INTEGER, "copies", 2))
        carol.print("one", pdf(1))
        self.assertFalse(self.release("carol", self.held("carol", "fourteen")))
        ten = self.held("carol", "ten")
        self.assertTrue(self.release("carol", ten))
        self.assertFalse(self.release("carol", self.held("carol", "one")))
        self.assertEqual(ipp.number(self.ended("carol", ten), "job-impressions-completed"), 10)
        self.assertRegex(self.machine.statement("carol"), r"(?m)^free +0\nreserved +0\nprinted +10$")

    def test_a_jam_is_charged_what_came_out(self) -> None:
        before = self.machine.printed("alice")
        jams = ((2, 0.5), (0, 0.0), (1, 0.0), (9, 0.1), (13, 0.3))
        for jams_after, seconds_per_page in jams:
            with self.subTest(jams_after=jams_after):
                self.machine.printer.behaviour = printers.Behaviour(jams_after=jams_after, seconds_per_page=seconds_per_page)
                title = f"jam after {jams_after}"
                Client("alice").print(title, pdf(7), job_attributes=attribute(Tag.INTEGER, "copies", 2))
                job = self.held("alice", title)
                self.assertTrue(self.release("alice", job))
                self.assertEqual(named_values(self.ended("alice", job), "job-state", "job-impressions-completed"), [JobState.ABORTED, jams_after])
        self.assertEqual(self.machine.printed("alice"), before + sum(jams_after for jams_after, _ in jams))

    def test_copies_pages_on_a_sheet_and_collating(self) -> None:
        for words, (pages, copies) in {
            ("-n", "2", "-o", "number-up=2"): (4, 2),
            ("-n", "2", "-o", "collate=true"): (7, 2),
            ("-n", "3", "-o", "multiple-document-handling=separate-documents-uncollated-copies"): (7, 3),
            ("-o", "raw", "-n", "3"): (7, 3),
            ("-o", "job-sheets=standard,standard"): (7, 1),
        }.items():
            with self.subTest(words=words):
                status, shown = lp("alice", "-t", "counted", *words, written(pdf(7), "seven.pdf"))
                self.assertEqual(status, 0, shown)
                job = self.held("alice", "counted")
                self.assertEqual(named_values(job, "job-impressions", "copies"), [pages, copies])
                wait_for("CUPS to be done", lambda: self.at_cups() == [])
                self.assertEqual(self.titles("alice"), ["counted"])
                self.machine.server.cancel_all("alice")

    def test_two_files_are_two_jobs(self) -> None:
        lp("alice", "-t", "two", written(pdf(3), "three.pdf"), written(pdf(7), "seven.pdf"))
        wait_for("two jobs", lambda: self.titles("alice") == ["two", "two"])
        self.assertEqual([ipp.number(job, "job-impressions") for job in self.machine.server.jobs("alice")], [3, 7])

    def test_a_text_is_made_a_pdf(self) -> None:
        Client("alice").print("text", b"a line\n" * 100)
        self.assertEqual(named_values(self.held("alice", "text"), "job-impressions"), [2])

    def test_a_login_with_capitals_has_an_account_in_lower_case(self) -> None:
        Client("Dora").print("capital", pdf(3))
        job = self.held("dora", "capital")
        self.assertTrue(self.release("dora", job))
        self.assertEqual(ipp.number(self.ended("dora", job), "job-impressions-completed"), 3)

    def test_a_queue_of_a_clients_own_prints_by_a_login(self) -> None:
        """A driverless queue of a client, which hands the login over. This machine's cupsd has the queue too."""
        run(
            "lpadmin", "-h", CUPS_SOCKET, "-p", "campus", "-E", "-v", "ipps://localhost:631/printers/release", "-m", "everywhere",
            "-o", "auth-info-required=username,password",
        )
        chosen = (
            attribute(Tag.TEXT, "auth-info", "alice", PASSWORDS["alice"]), attribute(Tag.INTEGER, "copies", 3),
            attribute(Tag.KEYWORD, "sides", "two-sided-long-edge"),
        )
        text = ipp.request(
            Operation.PRINT_JOB, "ipp://localhost/printers/campus", "root", attribute(Tag.NAME, "job-name", "from a client"),
            job_attributes=b"".join(chosen), version=ipp.VERSION_2_0,
        )
        self.assertTrue(ipp.exchange(ipp.UnixConnection(CUPS_SOCKET, 60), "/printers/campus", text + pdf(7), {"Authorization": "PeerCred root"}).is_success)
        job = self.held("alice", "from a client")
        self.assertEqual(named_values(job, "job-impressions", "copies"), [7, 3])
        self.assertIn("sides=two-sided-long-edge\n", (Path("/var/spool/print-release") / str(ipp.number(job, "job-id"))).read_text(encoding="ascii"))
        run("lpadmin", "-h", CUPS_SOCKET, "-x", "campus")
