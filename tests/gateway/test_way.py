"""The way of a job without CUPS: backend, server, release station, device with print-pages, and a printer at a socket in the place of CUPS."""
from __future__ import annotations

import shlex
import shutil
import tempfile
import unittest
from pathlib import Path

import printer as printers
from backend import HELD, Backend
from documents import pdf
from ipp import JobState
from runs import DEVICE, PRINT_PAGES, STATION, Run, run
from server import Server, named_values
from test_print_pages import count


class Way(unittest.TestCase):
    server: Server

    @classmethod
    def setUpClass(cls) -> None:
        cls.server = Server({"alice": 100, "bob": 10})

    @classmethod
    def tearDownClass(cls) -> None:
        cls.server.close()

    def setUp(self) -> None:
        self.folder = Path(tempfile.mkdtemp())
        self.socket = str(self.folder / "cups.sock")
        self.queue = printers.Printer("/printers/floor2", count)
        self.http = printers.serve(self.queue, self.socket)
        (self.folder / "options").mkdir()

    def tearDown(self) -> None:
        self.http.shutdown()
        self.http.server_close()
        self.queue.close()
        shutil.rmtree(self.folder)
        for user in ("alice", "bob"):
            self.server.cancel_all(user)

    def send(self, document: bytes, user: str, copies: int = 1, options: str = "") -> int:
        sent = Backend(f"{self.server.device_uri}?options={self.folder}/options", user=user, copies=str(copies), options=options).send(document)
        self.assertEqual(sent.status, HELD, sent.log)
        return max(int(named_values(job, "job-id")[0]) for job in self.server.jobs(user))

    def station(self, *words: str) -> Run:
        return run([STATION, "--server", self.server.url, *words])

    def device(self, status: int = 0) -> Run:
        """The device works until no job waits."""
        command = shlex.join([*PRINT_PAGES, "--socket", self.socket, "--options", f"{self.folder}/options", "floor2"])
        done = run([DEVICE, "--server", self.server.url, "--journal", self.folder / "journal", "--once", "--command", command])
        self.assertEqual(done.status, status, done.log)
        return done

    def printed(self, account: str) -> int:
        """The pages that were charged to an account."""
        line = next(line for line in self.server.statement(account).splitlines() if line.startswith("printed "))
        return int(line.split()[1])

    def test_a_job_is_held_released_printed_and_charged(self) -> None:
        before, document = self.printed("alice"), pdf(3)
        number = self.send(document, "alice", copies=2, options="sides=two-sided-long-edge")
        self.assertEqual(self.station("alice", "list").output, f"  job  pages  name\n{number:>5}      6  report  (held)\n")
        self.assertEqual(self.device().output, "")
        self.assertEqual(self.station("alice", "release", str(number)), Run(0, f"job {number}: released\n", ""))
        self.assertIn(f"report {number} 3 done 6: ok {number} 9 6\n", self.device().output)
        job = self.queue.jobs[1]
        self.assertEqual((job.document, job.copies, job.options["sides"], job.impressions), (document, 2, "two-sided-long-edge", 6))
        self.assertEqual(self.printed("alice"), before + 6)

    def test_a_release_is_against_the_exact_number_of_pages(self) -> None:
        too_many = self.send(pdf(7), "bob", copies=2)
        refused = self.station("bob", "release", str(too_many))
        self.assertEqual(refused, Run(1, f"job {too_many}: your account has fewer than 14 free pages, or you have no account: ask the office\n", ""))
        enough = self.send(pdf(5), "bob", copies=2)
        self.assertEqual(self.station("bob", "release", str(enough)).status, 0)
        one_more = self.send(pdf(1), "bob")
        self.assertEqual(self.station("bob", "release", str(one_more)).status, 1)
        self.device()
        self.assertEqual(self.printed("bob"), 10)

    def test_a_jam_is_charged_what_came_out(self) -> None:
        before = self.printed("alice")
        self.queue.behaviour.jams_after = 2
        number = self.send(pdf(7), "alice")
        self.assertEqual(self.station("alice", "release", str(number)).status, 0)
        self.assertIn(f"fail 2: ok {number} 8 2\n", self.device().output)
        self.assertEqual(named_values(self.server.job("alice", number), "job-state", "job-impressions-completed"), [JobState.ABORTED, 2])
        self.assertEqual(self.printed("alice"), before + 2)

    def test_another_cannot_release_it(self) -> None:
        number = self.send(pdf(1), "alice")
        self.assertEqual(self.station("bob", "list").output, "No jobs.\n")
        self.assertEqual(self.station("bob", "release", str(number)), Run(1, f"job {number}: gone: you have no such job\n", ""))
        self.assertEqual(self.station("alice", "cancel", str(number)), Run(0, f"job {number}: canceled\n", ""))

    def test_the_station_says_that_the_server_is_away(self) -> None:
        self.server.stop()
        try:
            asked = self.station("alice", "list")
        finally:
            self.server.start()
        self.assertEqual((asked.status, asked.output), (1, ""))
        self.assertIn("release-station: the server does not answer: ", asked.log)

    def test_a_queue_that_is_not_there_ends_the_device_and_keeps_the_job(self) -> None:
        number = self.send(pdf(1), "alice")
        self.station("alice", "release", str(number))
        self.queue.behaviour.http_statuses = [404]
        self.assertIn("the command can't be run (status 127)", self.device(1).log)
        self.assertIn(f"done 1: ok {number} 9 1\n", self.device().output)


if __name__ == "__main__":
    unittest.main()
