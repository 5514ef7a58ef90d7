"""Each name of the job table and of the printer table requested alone, and the groups of names, of jobs and a printer at work."""
from __future__ import annotations

from ipp import Operation, Tag, record
from messages import Job, request
from worked.case import wants
from worked.played import Play
from worked.printer import EVERY as PRINTER_NAMES

JOB_NAMES = tuple(Job().attributes(1))
GROUPS = ("all", "job-template", "job-description", "printer-description")
COMPLETED = record(Tag.KEYWORD, "which-jobs", "completed")


def at_work(play: Play) -> None:
    """A queue with a job that prints, one that is done and one that waits."""
    play.grant("f24,alice,1000")
    rows = [record(Tag.NAME, "job-name", "report"), record(Tag.INTEGER, "job-impressions", 7)]
    for moment in (5, 10, 15):
        play.now(moment)
        play.print_job(*rows, job=[record(Tag.INTEGER, "copies", 3)], payload=b"%PDF")
    for number in (1, 2):
        play.release(number)
        play.now(20 + number)
        play.report(number, "start", 4)
    play.now(30)
    play.report(2, "done", 25)
    play.now(77)


with Play("each attribute of a job that prints, alone") as play:
    at_work(play)
    for name in JOB_NAMES:
        play.look(1, name)
    play.look(1)
    play.look(1, *reversed(JOB_NAMES))
    play.look(1, *2 * JOB_NAMES)

with Play("each attribute of a job that is done, alone in its list") as play:
    at_work(play)
    for name in JOB_NAMES:
        play.ask(request(Operation.GET_JOBS, COMPLETED, wants(name)), 0x0000)
    play.ask(request(Operation.GET_JOBS, COMPLETED), 0x0000)

with Play("each attribute of a printer at work, alone") as play:
    at_work(play)
    for name in PRINTER_NAMES:
        play.ask(request(Operation.GET_PRINTER_ATTRIBUTES, wants(name)), 0x0000)
    play.ask(request(Operation.GET_PRINTER_ATTRIBUTES), 0x0000)
    play.ask(request(Operation.GET_PRINTER_ATTRIBUTES, wants(*reversed(PRINTER_NAMES))), 0x0000)

with Play("groups of names, of jobs and of a printer at work") as play:
    at_work(play)
    for names in [
        *((group,) for group in GROUPS),
        ("job-template", "job-description"),
        ("job-description", "job-template", "all", "printer-description"),
        ("job-template", "job-id", "printer-name"),
        ("job-description", "copies", "no-such-attribute"),
        ("printer-description", "printer-state"),
        ("no-such-attribute", "ALL", "Job-Id", "job-id ", ""),
    ]:
        play.look(1, *names)
        play.ask(request(Operation.GET_JOBS, wants(*names)), 0x0000)
        play.ask(request(Operation.GET_PRINTER_ATTRIBUTES, wants(*names)), 0x0000)
