#!/usr/bin/env python3
"""Measures the store: requests a second, documents in and out, the time to open it, and memory, with 100 and 100,000 ended jobs in it; and sweeps.

No socket is in these figures. A program, whose text is below, opens the store as the server does and answers files of requests one after another.
For each file it prints how long the answers took, all together and the longest. Each file is answered by a process of its own, so a peak of
memory is what opening the store and this kind of request took. It prints figures and judges nothing.

Python's sqlite3 writes the ended jobs into a new store of the program's. Each has one document, with as many bytes as --document says, a start, and
a done or (every second job) a halt after a cancel. One owner has 10 of them and one has half. They are a sound queue, and the program checks each row
as it opens the store. That takes memory for the bytes of all documents, so see that JOBS times BYTES fits.

A sweep that ends nothing is measured while jobs wait. Then 1,000 and 100,000 jobs that are held or open, of owners with 100 each, expire at
once in stores of their own (--held takes other numbers): the time, the memory, and the length of the log after it.

Then an operator's lists are measured with 100,000 ended jobs of 1,000 owners (--shown takes other numbers): the first ten jobs, completed and not,
and all of them, with the memory that one such list takes.

Run it as `bench/store.py [JOBS ..]` at the top of the repository; other numbers of ended jobs may be given. It builds the program in a repository of
its own in a temporary folder, over copies of the crates that are proved there (`./printd replay </dev/null` proves them); this takes some
minutes. With --program it takes one that is built already.
"""
from __future__ import annotations

import argparse
import os
import random
import shutil
import sqlite3
import subprocess
import sys
import tempfile
from collections.abc import Sequence
from pathlib import Path

TOP = Path(__file__).resolve().parents[1]
sys.path[:0] = [f"{TOP}/tests/lib", f"{TOP}/tools/lib"]

from building import build  # noqa: E402
from ipp import Operation, Tag, record  # noqa: E402
from messages import Draft, job_request, request  # noqa: E402

CRATES = (
    "ipp_wire", "queue_types", "queue_core", "queue_rows", "queue_tables", "queue_load", "queue_scenes", "queue_shown", "queue_store", "ipp_reply",
    "ipp_request", "ipp_ops", "device_lines",
)
LIBRARIES = ("sqlite", "sqlite_std_file", "sqlite_store", "anyhow")
# How many jobs that have not ended a caller may have.
LIVE_JOBS = 100
# How many ended jobs the owner of few has.
FEW = 10
# How many owners the jobs of no other owner have.
OWNERS = 1_000
# The operator of a store whose lists are measured.
OPERATOR = "opal"
# How often all ended jobs of the owner of many are asked for.
WHOLE_LISTS = 3
# The most bytes of a document, and how many a piece of it has.
MOST, PIECE = 16_777_216, 65_536
# The bytes of a small document that is printed, and of a great one.
SMALL, LARGE = 2_000, MOST - 256
# The moment of all requests.
MOMENT = 1_000_000
# For how many seconds the printer keeps a job that is held or open.
KEEP = 500_000
# How many sweeps that end nothing are measured.
SWEEPS = 3000
# The kind and the bytes of a request.
Asked = tuple[bytes, bytes]

# the program that is timed; the gate does not know it
TEXT = '''\
//! Makes a store, or opens one and answers a file of requests: `storing new STORE` or `storing run STORE FILE`.
//!
//! A file is the number of its requests in 4 bytes, then each as its kind in one byte, its length in 4 bytes, and its bytes. The kinds
//! are `i`, an IPP message, `r`, a report of the device, `d`, the first document of a job, whose number is the 4 bytes, and `e`, a sweep,
//! whose 4 bytes are the number of jobs that it ends.
#![tactic(auto)]

use anyhow::bail;
use device_lines::report;
use ipp_ops::answer;
use queue_core::{QueueBook, sweep};
use queue_store::TableBook;
use queue_types::operators::OperatorNames;
use queue_types::settings::Settings;
use sqlite::Connection;
use sqlite_std_file::Wary;
use std::alloc::Global;
use std::io::{BufReader, Read, sink};
use std::process::ExitCode;
use std::time::{Duration, Instant};
use std::{env, fs};

/// The moment of all requests.
const MOMENT: u32 = 1_000_000;

/// For how many seconds the printer keeps a job that is held or open.
const KEEP: u32 = 500_000;

/// The most bytes of a request.
const MOST: usize = 16_777_216;

fn main(rt: HostRuntime) -> ExitCode {
    match run(&rt) {
        Ok(()) => ExitCode::SUCCESS,
        Err(error) => {
            let _ = eprintln!(rt; "storing: {error}");
            ExitCode::FAILURE
        }
    }
}

/// Does what the words say.
fn run(rt: &HostRuntime) -> Result<(), anyhow::Error> {
    let words: Vec<String> = env::args(rt)?.collect(rt.alloc())?;
    match words.as_slice() {
        [_, word, store] if word.as_str() == "new" => make(rt, store.as_str()),
        [_, word, store, file] if word.as_str() == "run" => {
            time(rt, store.as_str(), file.as_str())
        }
        _ => bail!("wrong words"),
    }
}

/// Makes a store without jobs.
fn make(rt: &HostRuntime, path: &str) -> Result<(), anyhow::Error> {
    let alloc = rt.alloc();
    let operators = OperatorNames::none(alloc);
    let Ok(settings) = Settings::new(alloc, "ipp://localhost/ipp/print", "release", 20, 0, KEEP, operators) else {
        bail!("no settings");
    };
    let Ok(conn) = Connection::open_from(rt, path, false, Wary) else {
        bail!("no file");
    };
    let Ok(_book) = TableBook::create(alloc, conn, settings) else {
        bail!("no tables");
    };
    Ok(())
}

/// Opens a store and answers the requests of a file, and tells the microseconds to open it, of all answers and of the longest.
fn time(rt: &HostRuntime, store: &str, file: &str) -> Result<(), anyhow::Error> {
    let alloc = rt.alloc();
    let begin = Instant::now(rt)?;
    let Ok(mut book) = TableBook::open_from(rt, store, Wary) else {
        bail!("the store was not opened");
    };
    let settings = book.settings()?;
    let opening = begin.elapsed(rt)?;
    let mut requests = BufReader::new(alloc, fs::open(rt, file)?)?;
    let (all, longest) = answer_all(rt, &mut book, &settings, &mut requests)?;
    println!(rt; "{} {} {}", opening.as_micros(), all.as_micros(), longest.as_micros())?;
    Ok(())
}

/// Answers the requests of a file: the time of all answers and of the longest.
fn answer_all<B: QueueBook, R: Read>(
    rt: &HostRuntime,
    book: &mut B,
    settings: &Settings,
    requests: &mut R,
) -> Result<(Duration, Duration), anyhow::Error> {
    let mut bytes = Vec::new(rt.alloc());
    let count = read_number(requests)?;
    let mut all = Duration::from_secs(0);
    let mut longest = Duration::from_secs(0);
    for number in 0..count {
        let kind = read_request(requests, &mut bytes)?;
        let begin = Instant::now(rt)?;
        let is_answered = act(rt.alloc(), book, settings, kind, bytes.as_slice());
        let took = begin.elapsed(rt)?;
        if !is_answered {
            bail!("request {number} was refused");
        }
        all = all.saturating_add(took);
        longest = if longest < took { took } else { longest };
    }
    Ok((all, longest))
}

/// Reads a number of 4 bytes.
fn read_number<R: Read>(requests: &mut R) -> Result<u32, anyhow::Error> {
    let mut bytes = [0; 4];
    requests.read_exact(bytes.as_mut_slice())?;
    Ok(u32::from_be_bytes(bytes))
}

/// Reads the next request: its kind, and its bytes in place of those that are there.
fn read_request<R: Read>(requests: &mut R, bytes: &mut Vec<u8>) -> Result<u8, anyhow::Error> {
    let mut kind = [0; 1];
    requests.read_exact(kind.as_mut_slice())?;
    let length = read_number(requests)? as usize;
    if length > MOST {
        bail!("a request is too long");
    }
    bytes.resize(length, 0)?;
    requests.read_exact(bytes.as_mut_slice())?;
    let [kind] = kind;
    Ok(kind)
}

/// Answers a request. Whether it was a success.
fn act<B: QueueBook>(
    alloc: Global,
    book: &mut B,
    settings: &Settings,
    kind: u8,
    bytes: &[u8],
) -> bool {
    if bytes.len() > MOST {
        return false;
    }
    match kind {
        b'i' => match answer(alloc, book, settings, MOMENT, bytes) {
            Ok(reply) => matches!(reply.bytes(), [_, _, 0, 0 | 1, ..]),
            Err(_) => false,
        },
        b'r' => matches!(report(book, MOMENT, bytes).bytes(), [b'o', b'k', ..]),
        b'e' => expire(book, bytes),
        _ => send(book, bytes),
    }
}

/// Ends the jobs that have expired. Whether their number is the one in these bytes.
fn expire<B: QueueBook>(book: &mut B, bytes: &[u8]) -> bool {
    let [a, b, c, d] = bytes else {
        return false;
    };
    matches!(sweep(book, MOMENT), Ok(ended) if ended == u32::from_be_bytes([*a, *b, *c, *d]))
}

/// Sends the first document of a job to nowhere. Whether it was there.
fn send<B: QueueBook>(book: &mut B, bytes: &[u8]) -> bool {
    let [a, b, c, d] = bytes else {
        return false;
    };
    let job = u32::from_be_bytes([*a, *b, *c, *d]);
    match book.document_head(job, 1) {
        Ok(Some(_)) => book.send_document(job, 1, &mut sink()).is_ok(),
        _ => false,
    }
}
'''


def is_canceled(number: int) -> bool:
    """Whether the ended job of that number was canceled."""
    return number % 2 == 0


def owners_of(ended: int) -> list[str]:
    """The owners of ended jobs: one has ten, one has half, and a thousand have the others."""
    owners = ["few"] * min(FEW, ended // 2) + ["many"] * (ended // 2)
    owners += [f"other-{place % OWNERS}" for place in range(ended - len(owners))]
    # spread as they would come, and the same in each run
    random.Random(1).shuffle(owners)
    return owners


def fill(store: str, owners: list[str], octets: int, callers: list[str]) -> int:
    """Adds an ended job for each of the owners to a new store, with a document of this length, and pages for callers without jobs. It returns the number of
    the next job."""
    printed = dict.fromkeys(callers, 0)
    for owner in owners:
        printed[owner] = printed.get(owner, 0) + 1
    granted = 1_000_000
    document = bytes(octets)
    pieces = [document[begin : begin + PIECE] for begin in range(0, octets, PIECE)]
    jobs = list(enumerate(owners, 1))
    with sqlite3.connect(store) as store_file:
        write = store_file.executemany
        write("INSERT INTO accounts VALUES (?, ?, 0, ?)", ((name, granted - pages, pages) for name, pages in printed.items()))
        write("INSERT INTO grants VALUES ('bench', ?, ?)", ((name, granted) for name in printed))
        write(
            "INSERT INTO jobs VALUES (?, ?, 'report', 1, 1, 0, 0, ?, ?, 0, 1, ?, ?, ?)",
            ((number, owner, *((7, 1) if is_canceled(number) else (9, 0)), number, number, number) for number, owner in jobs),
        )
        write("INSERT INTO documents VALUES (?, 1, 'application/pdf', ?)", ((number, octets) for number, _ in jobs))
        write("INSERT INTO pieces VALUES (?, 1, ?, ?)", ((number, place, piece) for number, _ in jobs for place, piece in enumerate(pieces)))
        write("INSERT INTO reports VALUES (?, 1, 1, 0, 5, 0)", ((number,) for number, _ in jobs))
        write("INSERT INTO reports VALUES (?, 2, ?, 1, ?, 1)", ((number, *((7, 7) if is_canceled(number) else (5, 9))) for number, _ in jobs))
        store_file.execute("UPDATE meta SET next_number = ?", (len(owners) + 1,))
    store_file.close()
    return len(owners) + 1


def set_operator(store: str) -> None:
    """Makes opal the operator of a store."""
    with sqlite3.connect(store) as store_file:
        store_file.execute("INSERT INTO operators VALUES (?)", (OPERATOR,))
    store_file.close()


def fill_held(store: str, held: int, octets: int) -> None:
    """Adds jobs of moment 1 to a new store: every other one is on hold, the rest are released and open. Each has a document of this length."""
    owners = [f"owner-{place // LIVE_JOBS}" for place in range(held)]
    reserved = {owner: 0 for owner in owners}
    for owner in owners[1::2]:
        reserved[owner] += 1
    granted = 1_000_000
    document = bytes(octets)
    jobs = list(enumerate(owners, 1))
    with sqlite3.connect(store) as store_file:
        write = store_file.executemany
        write("INSERT INTO accounts VALUES (?, ?, ?, 0)", ((name, granted - pages, pages) for name, pages in reserved.items()))
        write("INSERT INTO grants VALUES ('bench', ?, ?)", ((name, granted) for name in reserved))
        write(
            "INSERT INTO jobs VALUES (?, ?, 'report', 1, 1, ?, ?, 0, 0, 0, 0, 1, NULL, NULL)",
            ((number, owner, number % 2, 1 - number % 2) for number, owner in jobs),
        )
        write("INSERT INTO documents VALUES (?, 1, 'application/pdf', ?)", ((number, octets) for number, _ in jobs))
        write("INSERT INTO pieces VALUES (?, 1, 0, ?)", ((number, document) for number, _ in jobs))
        store_file.execute("UPDATE meta SET next_number = ?", (held + 1,))
    store_file.close()


def write_requests(path: str, requests: Sequence[Asked]) -> None:
    """A file of requests: the kind and the bytes of each."""
    with open(path, "wb") as file:
        file.write(len(requests).to_bytes(4, "big"))
        for kind, data in requests:
            file.write(kind + len(data).to_bytes(4, "big"))
            file.write(data)


def message(number: int, asked: Draft) -> Asked:
    return b"i", asked.spelled(number)


def sweep(ended: int) -> Asked:
    return b"e", ended.to_bytes(4, "big")


def completed(owner: str) -> Draft:
    """Get-Jobs for the ten jobs of an owner that ended last."""
    return request(Operation.GET_JOBS, record(Tag.INTEGER, "limit", 10), record(Tag.KEYWORD, "which-jobs", "completed"), caller=owner)


def not_completed(owner: str) -> Draft:
    """Get-Jobs for the first ten jobs of an owner that have not ended."""
    return request(Operation.GET_JOBS, record(Tag.INTEGER, "limit", 10), caller=owner)


def all_completed(owner: str) -> Draft:
    """Get-Jobs for all jobs of an owner that have ended, with all their attributes."""
    return request(Operation.GET_JOBS, record(Tag.KEYWORD, "requested-attributes", "all"), record(Tag.KEYWORD, "which-jobs", "completed"), caller=owner)


def everybodys(*attributes: bytes) -> Draft:
    """An operator's Get-Jobs."""
    return request(Operation.GET_JOBS, *attributes, caller=OPERATOR)


class Run:
    """A program over one store."""

    def __init__(self, program: str, folder: str, ended: int):
        self.program, self.folder, self.ended = program, folder, ended
        self.store = os.path.join(folder, "queue.db")

    def call(self, *words: str) -> tuple[list[int], float]:
        """Runs the program once: the numbers that it prints, and the MiB that it had at its peak."""
        with tempfile.TemporaryFile() as told:
            process = subprocess.Popen([self.program, *words], stdin=subprocess.DEVNULL, stdout=told)
            _, status, usage = os.wait4(process.pid, 0)
            if os.waitstatus_to_exitcode(status) != 0:
                sys.exit(f"bench/store.py: the program has failed: {' '.join(words)}")
            told.seek(0)
            return [int(word) for word in told.read().split()], usage.ru_maxrss / 1024

    def time(self, requests: Sequence[Asked]) -> tuple[float, float, float, float]:
        """Answers requests over the store: the seconds to open it, of all answers and of the longest, and the peak in MiB."""
        path = os.path.join(self.folder, "requests")
        write_requests(path, requests)
        micros, memory = self.call("run", self.store, path)
        os.remove(path)
        opening, whole, longest = (number / 1e6 for number in micros)
        return opening, whole, longest, memory

    def measure(self, name: str, requests: Sequence[Asked]) -> None:
        opening, whole, longest, memory = self.time(requests)
        rate = len(requests) / whole
        print(
            f"{self.ended:>9,}  {name:<34} {rate:>9,.0f} a second  longest {longest * 1e3:>8.2f} ms  opened in {opening:>6.3f} s  {memory:>6,.0f} MiB",
            flush=True,
        )

    def move(self, name: str, requests: Sequence[Asked]) -> None:
        _, whole, longest, memory = self.time(requests)
        speed = len(requests) * LARGE / whole / 1e6
        print(f"{self.ended:>9,}  {name:<34} {speed:>9,.0f} MB/s      longest {longest * 1e3:>8.2f} ms  {'':<18}  {memory:>6,.0f} MiB", flush=True)


def callers_of(count: int) -> list[str]:
    """The callers who may have this number of live jobs, and one more."""
    return [f"bench-{place}" for place in range((count + LIVE_JOBS - 1) // LIVE_JOBS + 1)]


def live_jobs(first: int, callers: list[str], count: int) -> list[tuple[int, str]]:
    """The numbers and the owners of new jobs."""
    return [(first + place, callers[place // LIVE_JOBS]) for place in range(count)]


def measure(program: str, folder: str, ended: int, octets: int, count: int, times: int) -> None:
    """Prints the figures of a store with ended jobs, each with a document, in a folder of its own."""
    run = Run(program, folder, ended)
    run.call("new", run.store)
    callers = callers_of(count)
    first = fill(run.store, owners_of(ended), octets, callers)
    opening, _, _, memory = run.time([])
    size = os.path.getsize(run.store) / (1 << 20)
    print(f"{ended:>9,}  the store opened in {opening:.3f} s, {memory:,.0f} MiB; its file has {size:,.0f} MiB", flush=True)

    live = live_jobs(first, callers, count)
    places = random.Random(2)
    document = places.randbytes(SMALL)
    run.measure(f"Print-Job, {SMALL} bytes", [message(number, request(Operation.PRINT_JOB, caller=owner, payload=document)) for number, owner in live])
    run.measure("Get-Job-Attributes", [message(number, job_request(Operation.GET_JOB_ATTRIBUTES, number, caller=owner)) for number, owner in live])
    run.measure(f"Get-Printer-Attributes, {count:,} live", [message(number, request(Operation.GET_PRINTER_ATTRIBUTES)) for number, _ in live])
    run.measure(f"sweep, none of {count:,} held expires", SWEEPS * [sweep(0)])
    run.measure("Release-Job", [message(number, job_request(Operation.RELEASE_JOB, number, caller=owner)) for number, owner in live])
    run.measure("report: start", [(b"r", b"%d 1 start 0\n" % number) for number, _ in live])
    run.measure("report: done", [(b"r", b"%d 2 done 1\n" % number) for number, _ in live])
    run.measure(f"Get-Jobs, 10 of {min(FEW, ended // 2)} ended", [message(number, completed("few")) for number, _ in live])
    run.measure(f"Get-Jobs, 10 of {ended // 2:,} ended", [message(number, completed("many")) for number, _ in live])
    run.measure(f"Get-Jobs, all of {ended // 2:,} ended", [message(number, all_completed("many")) for number, _ in live[:WHOLE_LISTS]])
    # the owner of many has no job that has not ended
    run.measure(f"Validate-Job beside {ended // 2:,} ended", [message(number, request(Operation.VALIDATE_JOB, caller="many")) for number, _ in live])
    run.measure(f"Get-Jobs, none of {ended // 2:,} ended", [message(number, not_completed("many")) for number, _ in live])
    run.measure(f"Cancel-My-Jobs, {ended // 2:,} ended", [message(number, request(Operation.CANCEL_MY_JOBS, caller="many")) for number, _ in live])
    run.measure("Get-Printer-Attributes, none live", [message(number, request(Operation.GET_PRINTER_ATTRIBUTES)) for number, _ in live])

    large = [first + count + place for place in range(times)]
    content = places.randbytes(LARGE)
    run.move("documents in", [message(number, request(Operation.PRINT_JOB, caller=callers[-1], payload=content)) for number in large])
    run.time([message(number, job_request(Operation.RELEASE_JOB, number, caller=callers[-1])) for number in large])
    run.move("documents out", [(b"d", number.to_bytes(4, "big")) for number in large])


def measure_sweep(program: str, folder: str, held: int, octets: int) -> None:
    """Prints the figures of one sweep that ends this number of jobs, in a folder of its own."""
    run = Run(program, folder, 0)
    run.call("new", run.store)
    fill_held(run.store, held, octets)
    opening, _, _, opened = run.time([])
    _, whole, _, memory = run.time([sweep(held)])
    log = os.path.getsize(run.store + "-wal") / (1 << 20)
    print(
        f"{held:>9,}  held jobs that expire at once: {whole:.3f} s, {memory:,.0f} MiB, a log of {log:,.1f} MiB"
        f" (opened in {opening:.3f} s, {opened:,.0f} MiB)",
        flush=True,
    )


def measure_lists(program: str, folder: str, ended: int, octets: int, count: int) -> None:
    """Prints the figures of an operator's lists with ended jobs of a thousand owners, in a folder of its own."""
    run = Run(program, folder, ended)
    run.call("new", run.store)
    set_operator(run.store)
    callers = callers_of(count)
    first = fill(run.store, [f"owner-{place % OWNERS}" for place in range(ended)], octets, callers)
    live = live_jobs(first, callers, count)
    ten, every = record(Tag.INTEGER, "limit", 10), record(Tag.KEYWORD, "requested-attributes", "all")
    is_completed = record(Tag.KEYWORD, "which-jobs", "completed")

    def measure(name: str, *attributes: bytes, times: int = count) -> None:
        run.measure(f"opal: {name}", [message(number, everybodys(*attributes)) for number in range(1, times + 1)])

    opening, _, _, memory = run.time([])
    print(f"{ended:>9,}  of {OWNERS:,} owners: the store opened in {opening:.3f} s, {memory:,.0f} MiB", flush=True)
    measure("10 of none that wait", ten)
    run.time([message(number, request(Operation.PRINT_JOB, caller=owner, payload=b"hi")) for number, owner in live])
    # a third is released, and of these every other one begins
    released = live[::3]
    run.time([message(number, job_request(Operation.RELEASE_JOB, number, caller=owner)) for number, owner in released])
    run.time([(b"r", b"%d 1 start 0\n" % number) for number, _ in released[::2]])
    measure(f"10 of {count:,} live", ten)
    measure(f"10 of {ended:,} ended", ten, is_completed)
    run.measure(f"owner: 10 of {ended // OWNERS:,} ended", [message(number, completed(f"owner-{number % OWNERS}")) for number, _ in live])
    measure(f"all of {count:,} live", times=WHOLE_LISTS)
    measure(f"all of {count:,} live, whole", every, times=WHOLE_LISTS)
    # one each, as a peak is of the greatest
    measure(f"all of {ended:,} ended", is_completed, times=1)
    measure(f"all of {ended:,} ended, whole", is_completed, every, times=1)
    run.measure("opal: Get-Job-Attributes", [message(number, job_request(Operation.GET_JOB_ATTRIBUTES, number, caller=OPERATOR)) for number, _ in live])
    run.measure("opal: Cancel-Job", [message(number, job_request(Operation.CANCEL_JOB, number, caller=OPERATOR)) for number, _ in live])


def main() -> None:
    words = argparse.ArgumentParser(description=__doc__, formatter_class=argparse.RawDescriptionHelpFormatter)
    words.add_argument("jobs", metavar="JOBS", nargs="*", type=int, default=[100, 100_000], help="how many jobs have ended (default: 100 100000)")
    words.add_argument("--held", nargs="*", type=int, default=[1000, 100_000], metavar="N", help="how many held jobs expire at once (default: 1000 100000)")
    words.add_argument("--shown", nargs="*", type=int, default=[100_000], metavar="N", help="beside how many ended jobs an operator's lists are (default: 100000)")
    words.add_argument("--requests", type=int, default=3000, metavar="N", help="how many of each kind (default: %(default)s)")
    words.add_argument("--documents", type=int, default=10, metavar="N", help="how many large documents, at most 100 (default: %(default)s)")
    words.add_argument("--document", type=int, default=200, metavar="BYTES", help="how long the document of an ended job is (default: %(default)s)")
    words.add_argument("--program", metavar="PATH", help="the program whose text is below, built already")
    words.add_argument("--folder", metavar="FOLDER", help="where the stores are made for the time of the run (default: the system's)")
    chosen = words.parse_args()
    if min(chosen.jobs) < 20 or chosen.requests < 1 or not 1 <= chosen.documents <= LIVE_JOBS:
        words.error("JOBS is at least 20, --requests at least 1, --documents 1 to 100")
    if not 1 <= chosen.document <= MOST:
        words.error(f"--document is 1 to {MOST}")
    if any(number < 1 for number in [*chosen.held, *chosen.shown]):
        words.error("--held and --shown are at least 1")
    if chosen.program is None and shutil.which("rt") is None:
        sys.exit("bench/store.py: the toolchain's command rt is not on the PATH")
    with tempfile.TemporaryDirectory() as building:
        program = chosen.program or build(building, "storing", CRATES, LIBRARIES, TEXT)
        for ended in chosen.jobs:
            with tempfile.TemporaryDirectory(dir=chosen.folder) as folder:
                measure(program, folder, ended, chosen.document, chosen.requests, chosen.documents)
        for held in chosen.held:
            with tempfile.TemporaryDirectory(dir=chosen.folder) as folder:
                measure_sweep(program, folder, held, min(chosen.document, PIECE))
        for ended in chosen.shown:
            with tempfile.TemporaryDirectory(dir=chosen.folder) as folder:
                measure_lists(program, folder, ended, chosen.document, chosen.requests)


if __name__ == "__main__":
    main()
