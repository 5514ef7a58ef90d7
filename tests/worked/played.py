"""Examples whose answers come from the second queue (tests/second), which is written from the documents alone."""
from __future__ import annotations

from typing import Any

import second.replay
from ipp import Operation, Tag, Value, octets, record
from messages import Draft, job_request, request
from second.queue import KeptJob
from worked.case import FIRST_REQUEST_ID, line, replay, wants


class Play:
    """An example that is answered line by line as it is made."""

    def __init__(self, name: str):
        self.name = name
        self.replay = second.replay.Replay()
        self.queue = self.replay.queue
        self.text, self.wanted, self.exchanges = b"", b"", 0

    def __enter__(self) -> Play:
        return self

    def __exit__(self, fault: type[BaseException] | None, *_: object) -> None:
        if fault is None:
            replay(self.name, self.text, self.wanted)

    def line(self, text: bytes) -> bytes:
        """Takes a line without its line feed: the line that answers it."""
        answer = self.replay.answer(text)
        assert answer is not None, (self.name, text)
        self.text += text + b"\n"
        self.wanted += answer + b"\n"
        return answer

    def now(self, moment: int) -> None:
        text = b"now %d" % moment
        assert self.replay.answer(text) is None, (self.name, text)
        self.text += text + b"\n"

    def ask(self, message: Draft, code: int | None = None) -> int:
        """Asks a request under a request-id of its own: the code of its reply, which has to be the wanted one, if there is one."""
        answer = self.line(line(message, FIRST_REQUEST_ID + self.exchanges).strip())
        self.exchanges += 1
        came = int(answer[len("ipp 0101") : len("ipp 01010000")], 16)
        assert code in (None, came), (self.name, self.exchanges, code, hex(came))
        return came

    def dev(self, text: Value, answer: Value | None = None) -> bytes:
        """Takes a line of the device: its answer, which has to begin with the wanted one, if there is one."""
        came = self.line(b"dev " + octets(text))
        assert answer is None or came.startswith(octets(answer)), (self.name, text, came)
        return came

    def grant(self, row: Value, answer: str | None = None) -> bytes:
        """Takes an account file of one row: its answer, which has to be the wanted one, if there is one."""
        came = self.line(b"grant " + octets(row))[len(b"grant ") :]
        assert answer in (None, came.decode()), (self.name, row, came)
        return came

    def expire(self, count: int) -> None:
        """Ends the jobs that have expired: count of them."""
        came = self.line(b"expire")
        assert came == b"expired %d" % count, (self.name, came)

    # ---- what several examples do

    def job(self, number: int) -> KeptJob:
        return self.queue.jobs[number]

    def last_job(self) -> int:
        return len(self.queue.jobs)

    def free(self, caller: Value = "alice") -> int:
        """The pages of a caller that are free."""
        return self.queue.free[octets(caller)]

    def print_job(self, *attributes: bytes, caller: Value = "alice", payload: bytes = b"hi", **others: Any) -> int:
        """Makes a job: its number."""
        self.ask(request(Operation.PRINT_JOB, *attributes, caller=caller, payload=payload, **others), 0x0000)
        return self.last_job()

    def create_job(self, *attributes: bytes, caller: Value = "alice", **others: Any) -> int:
        """Makes a job that takes documents: its number."""
        self.ask(request(Operation.CREATE_JOB, *attributes, caller=caller, **others), 0x0000)
        return self.last_job()

    def do(self, operation: Operation, number: int, *attributes: bytes, code: int | None = 0x0000, **others: Any) -> int:
        """Asks an operation on a job."""
        return self.ask(job_request(operation, number, *attributes, **others), code)

    def release(self, number: int, **others: Any) -> int:
        return self.do(Operation.RELEASE_JOB, number, **others)

    def hold(self, number: int, **others: Any) -> int:
        return self.do(Operation.HOLD_JOB, number, **others)

    def cancel(self, number: int, **others: Any) -> int:
        return self.do(Operation.CANCEL_JOB, number, **others)

    def look(self, number: int, *names: str, **others: Any) -> int:
        """Looks at a job: at all of it, or at the attributes of these names."""
        return self.do(Operation.GET_JOB_ATTRIBUTES, number, *([wants(*names)] if names else []), **others)

    def report(self, number: int, kind: str, count: int | None = None) -> bytes:
        """Takes a new report on a job, whose count does not rise if none is handed in: the answer."""
        sequences = [sequence for job, sequence in self.queue.reports if job == number]
        if count is None:
            count = self.job(number).completed
        return self.dev(f"{number} {max(sequences, default=0) + 1} {kind} {count}")

    def find_free(self, caller: Value = "alice") -> None:
        """Shows how many pages are free: a job of a page more is not released, and one of just these is."""
        pages = self.free(caller)
        rows = [record(Tag.INTEGER, "job-impressions", max(pages + more, 0)) for more in (1, 0)]
        more, just = [self.print_job(row, caller=caller) for row in rows]
        self.release(more, caller=caller, code=0x0404)
        self.release(just, caller=caller, code=0x0000 if pages >= 0 else 0x0404)
