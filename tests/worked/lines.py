"""Lines that are no messages, lines of messages too short for a reply, and moments."""
from ipp import Operation, Tag, record
from messages import PRINTER_GROUP, Job, job_request, reply, request
from worked.case import case, done, now, print_job, replay, taken, wants

replay("no line at all", b"", b"")
replay("half a byte", b"ipp 0\n", b"bad line 1\n", 1)
replay("seven bytes", b"ipp 01010002000000\n", b"ipp short\n")
replay("digits in either case, and no digits", b"now 7\nipp 0A0b\nipp \n", b"ipp short\nipp short\n")
replay("last line without its end", b"ipp FF", b"ipp short\n")
for word in [b"ipp", b"now", b"dev", b"grant"]:
    replay(f"word {word.decode()} without a space", word + b"\n", b"bad line 1\n", 1)
replay("nothing behind a bad line is read", b"ipp 00\n\nipp 00\n", b"ipp short\nbad line 2\n", 1)
replay("last moment and one past it", b"now 2147483647\nnow 2147483648\n", b"bad line 2\n", 1)
replay("moment zero", b"now 0\n", b"bad line 1\n", 1)
replay("moment with a leading zero", b"now 01\n", b"bad line 1\n", 1)
replay("moment with a sign", b"now +1\n", b"bad line 1\n", 1)
replay("moment without a number", b"now \n", b"bad line 1\n", 1)
replay("moment with a space behind it", b"now 1 \n", b"bad line 1\n", 1)
replay("carriage return at the end of a line", b"now 1\r\n", b"bad line 1\n", 1)
replay("byte that is no digit", b"ipp 0\xff\n", b"bad line 1\n", 1)
replay("line that is no text", b"\xff\xfe\n", b"bad line 1\n", 1)
replay("word that is not known", b"print 1\n", b"bad line 1\n", 1)
replay("word with a letter more", b"grants f24,alice,30\n", b"bad line 1\n", 1)
replay("word in capitals", b"DEV 1 1 start 0\n", b"bad line 1\n", 1)
replay("space in front of a word", b" dev 1 1 start 0\n", b"bad line 1\n", 1)
replay("tab behind a word", b"dev\t1 1 start 0\n", b"bad line 1\n", 1)

# each request comes at the moment that the last `now` before it set, and at 1 before the first
case(
    "moments are seen in replies",
    (print_job(), taken(1)),
    now(7),
    (print_job(), taken(2)),
    now(100),
    (job_request(Operation.GET_JOB_ATTRIBUTES, 1), reply(0x0000, Job(1, created=1).whole_group(now=100))),
    (job_request(Operation.GET_JOB_ATTRIBUTES, 2), reply(0x0000, Job(2, created=7).whole_group(now=100))),
    # a moment may lie before the last one
    now(40),
    (job_request(Operation.CANCEL_JOB, 2), done()),
    now(2147483647),
    (
        job_request(Operation.GET_JOB_ATTRIBUTES, 2, wants("time-at-completed", "time-at-creation", "job-printer-up-time")),
        reply(
            0x0000,
            Job(2, created=7, ended=40).group(
                "time-at-creation", "time-at-completed", "job-printer-up-time", now=2147483647
            ),
        ),
    ),
    (
        request(Operation.GET_PRINTER_ATTRIBUTES, wants("printer-up-time")),
        reply(0x0000, PRINTER_GROUP + record(Tag.INTEGER, "printer-up-time", 2147483647)),
    ),
)
