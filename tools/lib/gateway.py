"""For the gateway's backend and its command that prints: counts the pages of a PDF, and keeps a job's options for the printer."""
from __future__ import annotations

import contextlib
import os
import re
import resource
import subprocess
import threading
from collections.abc import Iterable

# The server takes no job of more pages.
MOST_PAGES = 100_000
# What qpdf may use for a document: a small file can unfold to any size.
COUNT_SECONDS, COUNT_OCTETS = 60, 1 << 30
PAGE_LINE = re.compile(rb"page \d+: ")
# An option that is kept is a keyword or the name of a size, so it can't be taken for anything else.
KEPT = re.compile(r"(?:sides|media|media-type|media-source|output-bin|print-color-mode)=[A-Za-z0-9._-]{1,127}")
# The options of release.ppd, which dialogs choose from, and the attributes of IPP that they mean.
BY_PPD = {
    "Duplex=None": "sides=one-sided",
    "Duplex=DuplexNoTumble": "sides=two-sided-long-edge",
    "Duplex=DuplexTumble": "sides=two-sided-short-edge",
    "ColorModel=Gray": "print-color-mode=monochrome",
    "ColorModel=RGB": "print-color-mode=color",
    "PageSize=A3": "media=iso_a3_297x420mm",
    "PageSize=A4": "media=iso_a4_210x297mm",
    "PageSize=Letter": "media=na_letter_8.5x11in",
}


class CantCount(Exception):
    """A document's pages can't be counted: it is damaged, locked by a password, or too large to look at."""


class NoCounter(Exception):
    """qpdf can't be run."""


def limit(process: int) -> None:
    # one that has ended already needs none
    with contextlib.suppress(ProcessLookupError):
        resource.prlimit(process, resource.RLIMIT_AS, (COUNT_OCTETS, COUNT_OCTETS))
        resource.prlimit(process, resource.RLIMIT_CPU, (COUNT_SECONDS, COUNT_SECONDS))


def count_pages(document: int) -> int:
    """The pages of the PDF in an open file, by a walk through its tree of pages; of one that has more than MOST_PAGES, a number above it.

    `qpdf --show-npages` would print the number that the document claims (/Count), and pdfinfo prints lines that the document chooses.
    """
    path = f"/proc/self/fd/{document}"
    try:
        process = subprocess.Popen(
            ["qpdf", "--show-pages", path], stdin=subprocess.DEVNULL, stdout=subprocess.PIPE, stderr=subprocess.DEVNULL,
            pass_fds=(document,),
        )
    except OSError as fault:
        raise NoCounter(f"qpdf can't be run: {fault}") from None
    limit(process.pid)
    timer = threading.Timer(COUNT_SECONDS, process.kill)
    timer.start()
    pages = 0
    try:
        with process:
            assert process.stdout is not None
            for line in process.stdout:
                pages += PAGE_LINE.match(line) is not None
                if pages > MOST_PAGES:
                    process.kill()
                    break
    finally:
        timer.cancel()
    # qpdf ends with status 3 after faults that it could mend
    if pages <= MOST_PAGES and process.returncode not in (0, 3):
        raise CantCount("the PDF is damaged, locked by a password, or too large to look at")
    return pages


def kept(words: Iterable[str]) -> list[str]:
    """The options that reach the printer, of those that CUPS hands to a backend. An option of the PPD overrides the attribute, as it does for CUPS."""
    words = list(words)
    by_name: dict[str, str] = {}
    for word in [BY_PPD[word] for word in words if word in BY_PPD] + [word for word in words if KEPT.fullmatch(word)]:
        by_name.setdefault(word.partition("=")[0], word)
    return sorted(by_name.values())


def keep_options(folder: str, number: int, words: Iterable[str]) -> None:
    """Writes a job's options to the file FOLDER/NUMBER, an empty one if it has none: a job of an older store may have left that file."""
    path = os.path.join(folder, str(number))
    new = os.path.join(folder, f".{number}.new")
    with contextlib.suppress(FileNotFoundError):
        os.unlink(new)
    # the folder's group is that of the command that prints
    with open(os.open(new, os.O_WRONLY | os.O_CREAT | os.O_EXCL | os.O_NOFOLLOW, 0o640), "w", encoding="ascii") as file:
        os.fchmod(file.fileno(), 0o640)
        file.write("".join(word + "\n" for word in words))
        file.flush()
        os.fsync(file.fileno())
    os.replace(new, path)


def kept_options(folder: str, number: str) -> list[tuple[str, str]]:
    """The options that were kept of a job, by name and value. A job without a file has none."""
    try:
        with open(os.path.join(folder, number), encoding="ascii", errors="replace") as file:
            words = file.read(4096).split()
    except OSError:
        return []
    return [(name, value) for name, _, value in (word.partition("=") for word in words if KEPT.fullmatch(word))]
