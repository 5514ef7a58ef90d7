"""Where the repository's programs and modules are, and how the tests run a program: its words, its environment and its outcome."""
from __future__ import annotations

import os
import subprocess
import sys
from collections.abc import Mapping, Sequence
from dataclasses import dataclass
from pathlib import Path
from typing import Union

TOP = Path(__file__).resolve().parents[2]
# who imports this finds the shared modules of tests and of programs
sys.path[:0] = [f"{TOP}/tests/lib", f"{TOP}/tools/lib"]
# their first lines name Debian's Python, for which this one does as well
BACKEND = (sys.executable, "-I", f"{TOP}/tools/cups-gateway/release")
PRINT_PAGES = (sys.executable, "-I", f"{TOP}/tools/cups-gateway/print-pages")
DEVICE, STATION = TOP / "tools" / "device.py", TOP / "tools" / "release_station.py"
# programs find the tests' qpdf first
COUNTER_PATH = f"{TOP}/tests/gateway/bin:{os.environ['PATH']}"
RUN_SECONDS = 600

Word = Union[str, bytes, Path]


@dataclass
class Run:
    """The outcome of a run of a program."""

    status: int
    output: str
    log: str


def run(words: Sequence[Word], environment: Mapping[str, str] | None = None, document: bytes = b"") -> Run:
    """Runs a program with a document on its standard input."""
    done = subprocess.run(
        words, input=document, capture_output=True, env={**os.environ, "PATH": COUNTER_PATH} if environment is None else environment,
        timeout=RUN_SECONDS, check=False,
    )
    return Run(done.returncode, done.stdout.decode(), done.stderr.decode())
