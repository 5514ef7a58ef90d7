"""Messages of IPP: spelled and read back, and bytes that are none."""
from __future__ import annotations

import unittest

from runs import TOP

import ipp
from ipp import Group, Tag, attribute


class Messages(unittest.TestCase):
    def test_the_example_of_the_documents_is_spelled(self) -> None:
        wanted = bytes.fromhex((TOP / "examples" / "smallest-print-job.hex").read_text(encoding="ascii"))
        self.assertEqual(ipp.request(ipp.Operation.PRINT_JOB, "ipp://localhost/ipp/print", "alice") + b"hi", wanted)

    def test_what_is_spelled_reads_back(self) -> None:
        text = ipp.request(
            ipp.Operation.PRINT_JOB, "ipp://localhost/ipp/print", "älice", attribute(Tag.KEYWORD, "requested-attributes", "a", "b"), job=7,
            job_attributes=attribute(Tag.INTEGER, "copies", -2) + attribute(Tag.BOOLEAN, "fidelity", True) + attribute(Tag.NAME_WITH_LANGUAGE, "job-name", b"\0\2en\0\1x"),
        )
        message = ipp.read(text + b"document")
        self.assertEqual((message.code, message.request_id, message.data), (ipp.Operation.PRINT_JOB, 1, b"document"))
        self.assertEqual(ipp.text(message.only(Group.OPERATION), "requesting-user-name"), "älice")
        self.assertEqual(ipp.number(message.only(Group.OPERATION), "job-id"), 7)
        self.assertEqual(message.all(Group.OPERATION)[0]["requested-attributes"], ["a", "b"])
        self.assertEqual(message.all(Group.JOB), [{"copies": [-2], "fidelity": [True], "job-name": ["x"]}])
        self.assertIsNone(ipp.first_of(message.only(Group.PRINTER), "printer-state"))

    def test_a_collection_is_passed_over(self) -> None:
        inside = attribute(Tag.MEMBER_NAME, "", "x") + attribute(Tag.INTEGER, "", 1)
        nested = attribute(Tag.MEMBER_NAME, "", "y") + attribute(Tag.BEGIN_COLLECTION, "", b"") + inside + attribute(Tag.END_COLLECTION, "", b"")
        value = attribute(Tag.BEGIN_COLLECTION, "media-col", b"") + nested + attribute(Tag.END_COLLECTION, "", b"")
        message = ipp.read(ipp.message(0, 1, [(Group.JOB, value + attribute(Tag.INTEGER, "copies", 3))]))
        self.assertEqual(message.all(Group.JOB), [{"media-col": [], "copies": [3]}])

    def test_a_collection_that_does_not_begin_or_end_is_refused(self) -> None:
        begin, end = attribute(Tag.BEGIN_COLLECTION, "media-col", b""), attribute(Tag.END_COLLECTION, "media-col", b"")
        for value in (begin, end, begin + end + end):
            with self.subTest(value=value), self.assertRaises(ipp.Malformed):
                ipp.read(ipp.message(0, 1, [(Group.JOB, value)]))

    def test_a_message_that_was_cut_is_none(self) -> None:
        text = ipp.request(ipp.Operation.GET_JOBS, "ipp://localhost/ipp/print", "alice")
        for length in range(len(text)):
            with self.subTest(length=length), self.assertRaises(ipp.Malformed):
                ipp.read(text[:length])

    def test_a_value_without_a_group_or_a_name_is_refused(self) -> None:
        for text in (b"\1\1\0\0\0\0\0\1\x21\0\1a\0\0\3", b"\1\1\0\0\0\0\0\1\1\x21\0\0\0\0\3"):
            with self.subTest(text=text), self.assertRaises(ipp.Malformed):
                ipp.read(text)


if __name__ == "__main__":
    unittest.main()
