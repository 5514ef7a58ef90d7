#!/usr/bin/env python3
"""Makes the worked examples of crates/replay_cases from the documents alone (tests/worked), never from the program.

Most are spelled by hand. Of those that reach every corner the answers come from a second queue that is written from the documents
alone (tests/second). `tests/cases.py` checks that the second queue answers the others as they are spelled, compares the files stdin
and stdout of that crate with the examples, and ends with status 1 if anything differs. `tests/cases.py write` writes the files. The
gate runs the crate's program over stdin; docs/dev/tests.md says how an example that fails is shown.
"""
from __future__ import annotations

import argparse
import sys
from pathlib import Path

TOP = Path(__file__).resolve().parents[1]
sys.path[:0] = [f"{TOP}/tests/lib", f"{TOP}/tools/lib"]

from second.replay import replay  # noqa: E402
from worked import accounts, attributes, checks, device, documents, jobs, limits, lines, messages, others, printer  # noqa: E402, F401
from worked import drawn, expiry, most, names, operators, order, states, tags  # noqa: E402, F401
from worked.case import CASES  # noqa: E402

PLACE = TOP / "crates" / "replay_cases"
# The crate has this line as it is: another one would change the input of its program.
TITLE = b"Worked examples, written by `bench/cases write`: change them in bench/worked.\n"


def main() -> None:
    words = argparse.ArgumentParser(description=__doc__, formatter_class=argparse.RawDescriptionHelpFormatter)
    words.add_argument("word", nargs="?", choices=["write"], help="write the files, and don't compare them")
    is_written = words.parse_args().word == "write"
    if not __debug__:
        sys.exit("tests/cases.py: the examples are guarded by asserts: run it without -O and PYTHONOPTIMIZE")
    for name, text, wanted, status in CASES:
        if replay(text) != (wanted, status):
            sys.exit(f"tests/cases.py: the second queue answers another thing than is wanted: {name}")
    files = {
        "stdin": TITLE
        + b"".join(
            b"# %s\n%s=\n%sstatus %d\n" % (name.encode(), text, wanted, status) for name, text, wanted, status in CASES
        ),
        "stdout": b"".join(b"ok %s\n" % name.encode() for name, _, _, _ in CASES),
    }
    for name, content in files.items():
        path = PLACE / name
        if is_written:
            path.write_bytes(content)
        elif path.read_bytes() != content:
            sys.exit(f"tests/cases.py: {path} differs from what tests/worked says")
    print(f"{len(CASES)} examples")


if __name__ == "__main__":
    main()
