"""Lines of the device (docs/guide/device.md): what a line says, and what its kind does to a job."""
from __future__ import annotations

import re
from dataclasses import dataclass
from typing import Optional

from messages import Job

LAST_NUMBER = 2_147_483_647
MOST_PAGES = 100_000_000

NUMBER = rb"(0|[1-9][0-9]{0,9})"
LINE = re.compile(rb"%s %s (start|stop|resume|count|done|fail|halt) %s" % (NUMBER, NUMBER, NUMBER))

# by the kind: the states that it is taken in, and the state that the job is in then; a count is taken of every job that has begun
KINDS: dict[bytes, tuple[set[int], Optional[int]]] = {
    b"start": ({3}, 5),
    b"stop": ({5}, 6),
    b"resume": ({6}, 5),
    b"count": (set(), None),
    b"done": ({5}, 9),
    b"fail": ({5, 6}, 8),
    b"halt": ({5, 6}, 7),
}


class RefusedReport(Exception):
    """A line that is refused, with the answer."""

    def __init__(self, answer: bytes):
        super().__init__(answer)
        self.answer = answer


@dataclass(frozen=True)
class Report:
    job: int
    sequence: int
    kind: bytes
    count: int


def read_report(text: bytes) -> Report:
    """The report of a line, without its line feed."""
    parts = LINE.fullmatch(text)
    if parts is None:
        raise RefusedReport(b"refused 1 syntax")
    job, sequence, kind, count = parts.groups()
    report = Report(int(job), int(sequence), kind, int(count))
    if not 1 <= report.job <= LAST_NUMBER or not 1 <= report.sequence <= LAST_NUMBER or report.count > MOST_PAGES:
        raise RefusedReport(b"refused 4 range")
    return report


def is_taken(report: Report, job: Job) -> bool:
    """Whether a job takes a report of this kind in its state."""
    if report.kind == b"count":
        return job.begun is not None
    return job.state in KINDS[report.kind][0]
