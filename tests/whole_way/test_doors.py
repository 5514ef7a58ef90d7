"""What nginx and cupsd let nobody do."""
from __future__ import annotations

import http.client
import socket
import ssl
import subprocess

from clients import Client, WholeWay, written
from documents import pdf
from machine import CERTIFICATE, CUPS_SOCKET, NAME, PASSWORDS, at_terminal

import ipp
from ipp import Group, Operation, Tag, attribute


class Doors(WholeWay):
    def test_only_the_queue_is_reached(self) -> None:
        alice = Client("alice")
        for path in (
            "/admin/", "/admin/conf/cupsd.conf", "/device/queue", "/device/report", "/ipp/print", "/printers/floor2", "/printers/", "/classes/",
            "/jobs/../admin/", "/printers/release/../floor2",
        ):
            with self.subTest(path=path):
                self.assertEqual(alice.status(Operation.PRINT_JOB, path=path, data=pdf(1)), 404)

    def test_the_printer_is_the_devices_alone(self) -> None:
        there = "ipp://localhost/printers/floor2"
        before = len(self.machine.printer.jobs)
        for user, wanted in (("mallory", 403), ("alice", 403)):
            self.assertEqual(Client(user).status(Operation.PRINT_JOB, name="print-device", printer=there, data=pdf(1)), wanted)
        self.assertEqual(Client().status(Operation.PRINT_JOB, name="print-device", printer=there, data=pdf(1)), 401)
        number = ipp.number(Client("mallory").ask(Operation.CREATE_JOB, name="mallory").only(Group.JOB), "job-id")
        moved = Client("mallory").status(0x400D, name="mallory", job=number, job_attributes=attribute(Tag.URI, "job-printer-uri", there))
        self.assertEqual(moved, 403)
        self.assertTrue(Client("mallory").ask(Operation.CANCEL_JOB, name="mallory", job=number).is_success)
        words = ["runuser", "-u", "mallory", "--", "lp", "-h", CUPS_SOCKET, "-d", "floor2", written(pdf(1), "one.pdf")]
        done = subprocess.run(words, stdin=subprocess.DEVNULL, capture_output=True, check=False)
        self.assertNotEqual(done.returncode, 0)
        self.assertEqual(len(self.machine.printer.jobs), before)

    def test_administration_needs_an_administrator(self) -> None:
        for operation in (0x4003, 0x4004, 0x4028, 0x0010, 0x0012):
            for client in (Client(), Client("mallory")):
                with self.subTest(operation=hex(operation)):
                    self.assertIn(client.status(operation, name="root", path="/"), (401, 403, 0x0400, 0x0401, 0x0403))

    def test_browsers_and_foreign_names_are_refused(self) -> None:
        alice = Client("alice")
        self.assertEqual(alice.status(Operation.VALIDATE_JOB, headers={"Origin": "https://example.com"}), 403)
        self.assertEqual(alice.status(Operation.VALIDATE_JOB, headers={"Host": "evil.example"}), 421)
        self.assertEqual(alice.status(Operation.VALIDATE_JOB, headers={"Host": f"{NAME}:443"}), 0)
        self.assertEqual(Client("alice", port=631).status(Operation.VALIDATE_JOB), 0)

    def test_without_tls_no_password_is_asked_for(self) -> None:
        connection = http.client.HTTPConnection("localhost", 631, timeout=30)
        connection.request("POST", "/printers/release", b"", {"Content-Type": "application/ipp"})
        self.assertEqual(connection.getresponse().status, 400)
        connection.close()
        status, shown = at_terminal("alice", PASSWORDS["alice"], "lp", "-h", "localhost:631", "-d", "release", written(pdf(1), "one.pdf"))
        self.assertNotEqual(status, 0)
        self.assertNotIn("Password", shown)

    def test_old_tls_is_refused(self) -> None:
        context = ssl.create_default_context(cafile=CERTIFICATE)
        context.minimum_version, context.maximum_version = ssl.TLSVersion.TLSv1, ssl.TLSVersion.TLSv1_1
        context.set_ciphers("ALL:@SECLEVEL=0")
        with socket.create_connection(("127.0.0.1", 443)) as plain, self.assertRaises(ssl.SSLError):
            context.wrap_socket(plain, server_hostname="localhost")
