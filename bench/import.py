#!/usr/bin/env python3
"""Measures the import of account files of 1,000, 100,000 and 1,000,000 rows into the queue in memory.

Each file is imported into an empty book, and then into a book that has as many grants already, to the same accounts under
another batch. It prints figures and judges nothing. Run it as `bench/import.py [ROWS ..]` at the top of the repository; other
numbers of rows may be given.

It builds a small program, whose text is below, in a repository of its own in a temporary folder, over copies of the crates that the
program needs. `./printd` and `rt check` in crates/list_book prove these crates; then building it takes a minute or so.
"""
from __future__ import annotations

import argparse
import os
import shutil
import subprocess
import sys
import tempfile
import time
from pathlib import Path

sys.path.insert(0, str(Path(__file__).resolve().parents[1] / "tests" / "lib"))

from building import build  # noqa: E402

CRATES = ("queue_types", "queue_core", "list_book", "grants_csv")
LONGEST = 16_777_216

# the program that is timed; the gate does not know it
TEXT = '''\
//! Imports account files, in turn, into one book in memory.
#![tactic(auto)]

use anyhow::bail;
use grants_csv::import;
use list_book::ListBook;
use queue_types::operators::OperatorNames;
use queue_types::settings::Settings;
use std::process::ExitCode;
use std::rt::{Env, Files};
use std::{env, fs};

fn main(rt: HostRuntime) -> ExitCode {
    match run(&rt) {
        Ok(()) => ExitCode::SUCCESS,
        Err(error) => {
            let _ = eprintln!(rt; "importing: {error}");
            ExitCode::FAILURE
        }
    }
}

/// Imports the file of each word, and prints how many rows were new and how many repeats.
fn run<R: AllocGlobal + Env + Files + Print>(rt: &R) -> Result<(), anyhow::Error> {
    let alloc = rt.alloc();
    let operators = OperatorNames::none(alloc);
    let Ok(settings) = Settings::new(alloc, "ipp://localhost/ipp/print", "release", 20, 0, 0, operators) else {
        bail!("no settings");
    };
    let mut book = ListBook::new(alloc, settings);
    let words: Vec<String> = env::args(rt)?.collect(alloc)?;
    for path in words.iter().skip(1) {
        let file = fs::read(rt, path.as_str())?;
        match import(alloc, &mut book, 1, file.as_slice()) {
            Ok(rows) => println!(rt; "added {} repeats {}", rows.added, rows.repeats)?,
            Err(fault) => println!(rt; "refused {} at row {}", fault.cause.code(), fault.row)?,
        }
    }
    Ok(())
}
'''


def write_file(path: str, batch: str, rows: int) -> None:
    """An account file with a row for each of its accounts, each of one page."""
    with open(path, "w") as file:
        file.write("batch,account,pages\n")
        file.writelines(f"{batch},u{row},1\n" for row in range(rows))
    if os.path.getsize(path) > LONGEST:
        sys.exit(f"bench/import.py: a file of {rows} rows is longer than {LONGEST} bytes")


def run(program: str, rows: int, *files: str) -> tuple[float, float]:
    """Runs the program once over these files, all of whose rows are new: seconds and MiB."""
    with tempfile.TemporaryFile() as answers:
        begin = time.monotonic()
        process = subprocess.Popen([program, *files], stdin=subprocess.DEVNULL, stdout=answers)
        _, status, usage = os.wait4(process.pid, 0)
        seconds = time.monotonic() - begin
        answers.seek(0)
        if os.waitstatus_to_exitcode(status) != 0 or answers.read() != b"added %d repeats 0\n" % rows * len(files):
            sys.exit("bench/import.py: not all rows were taken")
    return seconds, usage.ru_maxrss / 1024


def measure(program: str, folder: str, rows: int) -> None:
    """Prints what the import of a file took, into an empty book and into one with as many grants as it has rows."""
    files = [os.path.join(folder, name) for name in ("first", "second")]
    for batch, path in zip("ab", files):
        write_file(path, batch, rows)
    empty, empty_memory = run(program, rows, files[0])
    both, both_memory = run(program, rows, *files)
    # a file of few rows may take no more time than the clock shows
    gained = max(both - empty, 1e-3)
    print(
        f"{rows:,} rows: {empty:.2f} s into an empty book ({rows / empty:,.0f} rows/s, peak memory {empty_memory:,.0f} MiB), "
        f"{gained:.2f} s into one with {rows:,} grants ({rows / gained:,.0f} rows/s, {both_memory:,.0f} MiB)"
    )


def main() -> None:
    words = argparse.ArgumentParser(description=__doc__, formatter_class=argparse.RawDescriptionHelpFormatter)
    words.add_argument("rows", metavar="ROWS", nargs="*", type=int, default=[1_000, 100_000, 1_000_000], help="how many rows a file has, at least 1")
    numbers = words.parse_args().rows
    if min(numbers) < 1:
        words.error("ROWS is at least 1")
    if shutil.which("rt") is None:
        sys.exit("bench/import.py: the toolchain's command rt is not on the PATH")
    with tempfile.TemporaryDirectory() as folder:
        program = build(folder, "importing", CRATES, ("anyhow",), TEXT)
        for rows in numbers:
            measure(program, folder, rows)


if __name__ == "__main__":
    main()
