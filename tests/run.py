#!/usr/bin/env python3
"""All tests: the gate of the crates, `rt ci`, then the tests of the programs around the server (tests/gateway) and of the documents.

The last line counts both: `N passed, M failed`. The status is 0 only if nothing failed. If the gate fails, the other tests don't run, since
they need the program that it builds. --without-gate runs only them: ./printd builds the program first if need be, and PRINTD=FILE names
another one.
"""
from __future__ import annotations

import argparse
import re
import subprocess
import sys
import unittest
from pathlib import Path

TOP = Path(__file__).resolve().parents[1]
GATEWAY = TOP / "tests" / "gateway"
sys.path.insert(0, str(GATEWAY))
sys.dont_write_bytecode = True
import check_docs  # noqa: E402
from counted import run_counted  # noqa: E402

COUNTED = re.compile(r"(\d+) passed, (\d+) failed\n")


def run_gate() -> tuple[int, int]:
    """Runs the gate and shows its output: how many passed and failed by its last line. A gate with a bad status or no such line failed."""
    last = ""
    try:
        with subprocess.Popen(["rt", "ci"], cwd=TOP, stdout=subprocess.PIPE, text=True, errors="replace") as process:
            assert process.stdout is not None
            for line in process.stdout:
                print(line, end="", flush=True)
                last = line
    except FileNotFoundError:
        print("the toolchain's command 'rt' is not on the PATH")
        return 0, 1
    found = COUNTED.fullmatch(last)
    if found is None:
        return 0, 1
    passed, failed = int(found[1]), int(found[2])
    return passed, max(failed, 1) if process.returncode else failed


def main() -> int:
    words = argparse.ArgumentParser(description=__doc__, formatter_class=argparse.RawDescriptionHelpFormatter)
    words.add_argument("--without-gate", action="store_true", help="run only the tests after the gate")
    passed, failed = (0, 0) if words.parse_args().without_gate else run_gate()
    if failed:
        print("the tests after the gate were not run")
    else:
        loader = unittest.defaultTestLoader
        suite = unittest.TestSuite([loader.loadTestsFromModule(check_docs), loader.discover(str(GATEWAY))])
        more_passed, failed = run_counted(suite)
        passed += more_passed
    print(f"{passed} passed, {failed} failed", flush=True)
    return 1 if failed else 0


if __name__ == "__main__":
    sys.exit(main())
