"""Programs that end and come back."""
from __future__ import annotations

import time

from clients import Client, WholeWay, written
from documents import pdf
from machine import lp, wait_for
from server import named_values

import ipp
from ipp import JobState, Operation


class Away(WholeWay):
    def test_the_server_is_away_and_comes_back(self) -> None:
        with self.machine.without(self.machine.printd):
            for user in ("alice", "mallory"):
                self.assertTrue(Client(user).print("while away", pdf(3)).is_success)
            # the backend tries for 20 seconds by itself, and then lets the job wait in CUPS
            time.sleep(25)
            self.assertEqual(len(self.at_cups()), 2)
        for user in ("alice", "mallory"):
            self.assertEqual(named_values(self.held(user, "while away"), "job-impressions"), [3])
        wait_for("CUPS to be done", lambda: self.at_cups() == [])
        self.assertEqual((self.titles("alice"), self.titles("mallory")), (["while away"], ["while away"]))

    def test_two_files_wait_for_a_short_absence(self) -> None:
        # a machine with other work takes more than 20 seconds to start the server
        self.machine.set_queue("&patience=600")
        self.addCleanup(self.machine.set_queue)
        with self.machine.without(self.machine.printd):
            status, shown = lp("alice", "-t", "two", written(pdf(3), "three.pdf"), written(pdf(7), "seven.pdf"))
            self.assertEqual(status, 0, shown)
            time.sleep(1)
        wait_for("two jobs", lambda: self.titles("alice") == ["two", "two"])

    def test_cups_is_killed_with_a_job_that_waits(self) -> None:
        with self.machine.without(self.machine.printd):
            self.assertTrue(Client("alice").print("through a crash", pdf(3)).is_success)
            time.sleep(1)
            with self.machine.without(self.machine.cupsd, 9):
                pass
            self.assertEqual(len(self.at_cups()), 1)
        self.held("alice", "through a crash")

    def test_a_user_with_100_unfinished_jobs_waits_and_others_do_not(self) -> None:
        for _ in range(100):
            self.machine.server.ask(Operation.PRINT_JOB, "mallory", data=b"%PDF")
        Client("mallory").print("one more", pdf(1))
        Client("alice").print("of another", pdf(1))
        self.held("alice", "of another")
        wait_for("one job to wait", lambda: len(self.at_cups()) == 1)
        self.assertNotIn("one more", self.titles("mallory"))
        self.machine.server.cancel_all("mallory")
        self.held("mallory", "one more")

    def test_cups_is_stopped_while_it_prints(self) -> None:
        self.machine.printer.behaviour.seconds_per_page = 0.5
        before = len(self.machine.printer.jobs)
        Client("alice").print("restart", pdf(6))
        job = self.held("alice", "restart")
        self.assertTrue(self.release("alice", job))
        wait_for("the second page", lambda: len(self.machine.printer.jobs) > before and self.machine.printer.jobs[before + 1].impressions >= 2)
        with self.machine.without(self.machine.cupsd):
            pass
        # CUPS prints it anew, or takes it for printed as it stops. The printer has printed it whole, and it is charged once
        self.assertEqual(named_values(self.ended("alice", job), "job-state", "job-impressions-completed"), [JobState.COMPLETED, 6])

    def test_the_device_is_killed_while_it_prints(self) -> None:
        self.machine.printer.behaviour.seconds_per_page = 0.5
        before = len(self.machine.printer.jobs)
        Client("alice").print("device", pdf(6))
        job = self.held("alice", "device")
        self.assertTrue(self.release("alice", job))
        wait_for("the second page", lambda: len(self.machine.printer.jobs) > before and self.machine.printer.jobs[before + 1].impressions >= 2)
        with self.machine.without(self.machine.device, 9):
            pass
        self.assertEqual(ipp.number(self.ended("alice", job), "job-impressions-completed"), 6)
        self.assertEqual(len(self.machine.printer.jobs), before + 1)

    def test_the_printer_is_away_and_comes_back(self) -> None:
        with self.machine.without_printer():
            Client("alice").print("printer", pdf(2))
            job = self.held("alice", "printer")
            self.assertTrue(self.release("alice", job))
            time.sleep(2)
        self.assertEqual(ipp.number(self.ended("alice", job), "job-impressions-completed"), 2)
