"""Logins, and clients that claim another's name."""
from __future__ import annotations

import subprocess
import time

from clients import Client, WholeWay, figure
from documents import pdf
from machine import run

import ipp
from ipp import Group, Operation, Tag, attribute


class Names(WholeWay):
    FORMS = {
        "requesting-user-name": (b"", b""),
        "a second requesting-user-name": (attribute(Tag.NAME, "requesting-user-name", "alice"), b""),
        "a name with a language": (attribute(Tag.NAME_WITH_LANGUAGE, "requesting-user-name", b"\0\2en\0\5alice"), b""),
        "job-originating-user-name": (attribute(Tag.NAME, "job-originating-user-name", "alice"), attribute(Tag.NAME, "job-originating-user-name", "alice")),
    }

    def test_a_forged_name_is_replaced_by_that_of_the_login_or_refused(self) -> None:
        mallory = Client("mallory")
        for what, (attributes, job_attributes) in self.FORMS.items():
            with self.subTest(what=what):
                claimed = "alice" if what == "requesting-user-name" else "mallory"
                reply = mallory.print(what, pdf(1), attributes, job_attributes=job_attributes, name=claimed)
                if reply.is_success:
                    self.held("mallory", what)
                self.assertNotIn(what, self.titles("alice"))

    def test_without_a_login_nothing_is_done(self) -> None:
        for operation in (Operation.PRINT_JOB, Operation.VALIDATE_JOB, Operation.CREATE_JOB, Operation.GET_JOBS, Operation.CANCEL_MY_JOBS):
            with self.subTest(operation=operation):
                self.assertEqual(Client().status(operation, name="alice", data=pdf(1)), 401)
        for scheme in ("PeerCred alice", "PeerCred root", "Local 0000", "Negotiate AAAA"):
            with self.subTest(scheme=scheme):
                self.assertEqual(Client().status(Operation.PRINT_JOB, name="alice", data=pdf(1), headers={"Authorization": scheme}), 401)
        self.assertEqual(self.titles("alice"), [])

    def test_a_job_is_its_owners(self) -> None:
        alice, mallory = Client("alice"), Client("mallory")
        number = ipp.number(alice.ask(Operation.CREATE_JOB, attribute(Tag.NAME, "job-name", "open"), name="alice").only(Group.JOB), "job-id")
        last = attribute(Tag.BOOLEAN, "last-document", True)
        for what, operation in {"send": Operation.SEND_DOCUMENT, "cancel": Operation.CANCEL_JOB, "look": Operation.GET_JOB_ATTRIBUTES}.items():
            with self.subTest(what=what):
                self.assertEqual(mallory.status(operation, last, name="alice", job=number, data=pdf(1)), 403)
                self.assertEqual(Client().status(operation, last, name="alice", job=number, data=pdf(1)), 401)
        set_attributes = mallory.status(0x0014, name="alice", job=number, job_attributes=attribute(Tag.NAME, "job-originating-user-name", "mallory"))
        self.assertEqual(set_attributes, 403)
        renamed = alice.status(0x0014, name="alice", job=number, job_attributes=attribute(Tag.NAME, "job-originating-user-name", "mallory"))
        self.assertTrue(alice.ask(Operation.SEND_DOCUMENT, last, name="mallory", job=number, data=pdf(1)).is_success)
        self.held("alice", "open")
        self.assertEqual(self.titles("mallory"), [], renamed)

    def test_wrong_passwords_cost_nobody_a_second_and_are_counted(self) -> None:
        seconds = []
        for _ in range(10):
            begun = time.monotonic()
            self.assertEqual(Client("mallory", "guess").status(Operation.VALIDATE_JOB), 401)
            seconds.append(time.monotonic() - begun)
        # pam_unix would wait for two seconds at each
        self.assertLess(min(seconds), 1)
        self.assertEqual(Client("mallory").status(Operation.VALIDATE_JOB), 401)
        self.assertEqual(Client("alice").status(Operation.VALIDATE_JOB), 0)
        run("faillock", "--dir", "/run/print-release/guesses", "--user", "mallory", "--reset")
        self.assertEqual(Client("mallory").status(Operation.VALIDATE_JOB), 0)
        figure("a wrong password", seconds)

    def test_no_password_of_the_systems_users_is_tried(self) -> None:
        subprocess.run(["chpasswd"], input="root:toor-1\n", text=True, check=True)
        self.assertEqual(Client("root", "toor-1").status(Operation.VALIDATE_JOB), 401)
