"""Builds a program of its own over the repository's crates, for the measurements that no command of printd takes."""
from __future__ import annotations

import shutil
import subprocess
import sys
from collections.abc import Sequence
from pathlib import Path

TOP = Path(__file__).resolve().parents[2]


def build(folder: str, name: str, crates: Sequence[str], libraries: Sequence[str], text: str) -> str:
    """Builds a program of this text over copies of these crates and these libraries of the kit, in a repository of its own: its path."""
    below = Path(folder) / "crates"
    place = below / name
    (place / "src").mkdir(parents=True)
    lines = (TOP / "crates.txt").read_text(encoding="utf-8").splitlines(keepends=True)
    kept = [line for line in lines if line.split(":")[0] in crates]
    (Path(folder) / "crates.txt").write_text("".join([*kept, f"{name}: {' '.join([*crates, *libraries])}\n"]), encoding="utf-8")
    for crate in crates:
        shutil.copytree(TOP / "crates" / crate, below / crate, copy_function=shutil.copy2)
    (place / "src" / "main.rt").write_text(text, encoding="utf-8")
    built = subprocess.run(["rt", "run"], cwd=place, stdin=subprocess.DEVNULL, stdout=subprocess.PIPE, stderr=subprocess.STDOUT, check=False)
    # without words it may be refused, after it was built
    program = place / "out" / name
    if not program.exists():
        sys.exit(f"{sys.argv[0]}: the program was not built:\n" + built.stdout.decode()[-4000:])
    return str(program)
