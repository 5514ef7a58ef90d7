#!/usr/bin/env python3
"""Checks the documents of the repository: README.md, docs/, CHANGELOG.md, CONTRIBUTING.md and crates/*/README.md.

    tests/check_docs.py                        all checks of the repository that this script is in
    tests/check_docs.py FOLDER                 of the repository in another folder
    tests/check_docs.py --without sizes        all checks except one; --only names runs one

The checks:

    links     each relative link names a file that is there, each anchor a heading, and the README leads to each document
    paths     each path in backticks and in commands exists; a file's name alone is one of some folder. Each document that a source or a
              script names exists
    names     each name in backticks with `::`, `_` or two capital letters is one of the code, the tests or the tools; `crate::name`
              is defined in that crate. Under a heading that is a crate's name each word in backticks is one of that crate's, as a
              clause's name is. In a table each name is a worked example's in a column with the word `example` in its head, and in one
              with `definition`, `law`, `function` or `clause` each word is one that some crate defines. In one with `test` each text of
              several words is the name of a case
    commands  each subcommand of printd, and each option of printd and of a script, is one that it takes
    sizes     the README has at most 10,000 bytes, docs/ 230,000, CONTRIBUTING.md 80 lines, a crate's README 60 lines

A name in capital letters, as NAME in crates/NAME/src, stands for any name. The status is 1 if something was found. tests/run.py runs each
check as a test.
"""
from __future__ import annotations

import argparse
import fnmatch
import functools
import os
import re
import shlex
import sys
import unittest
from collections.abc import Callable, Iterable, Iterator
from dataclasses import dataclass, field
from pathlib import Path

TOP = Path(__file__).resolve().parents[1]

MOST_README, MOST_DOCS = 10_000, 230_000
MOST_LINES = {"CONTRIBUTING.md": 80, "crates/*/README.md": 60}

# Folders without a source of the repository.
SKIPPED = {".git", "out", "__pycache__", ".mypy_cache", ".ruff_cache"}
# Files by which a document is recognised, and suffixes of files that are always the repository's own.
DOCUMENTS = ("README.md", "CHANGELOG.md", "CONTRIBUTING.md", "docs/**/*.md", "crates/*/README.md")
OWN_SUFFIXES = (".rt", ".antt", ".py", ".md", ".edit", ".hex", ".replay")
IN_A_CRATE = ("src", "specs", "proofs", "must-fail")

# Names that documents may have and that nothing here defines: of the toolchain and its libraries, of Rust, of standards, of other programs.
FOREIGN_NAMES = {
    # commands and files of the toolchain
    "RT_JOBS", "ANTT.md", "CONTRACTS.md", "CALLING.md", "CRATES.md", "Proof.antt",
    # the kit's libraries, and Rust's
    "http_server", "TheLink", "StatusCode", "HashMap", "TryFrom", "assert_eq", "no_std",
    # SQLite, systemd, nginx, PAM, CUPS, the system
    "json_quote", "LimitAS", "StandardOutput", "ReadWritePaths", "ProtectHome", "ProtectSystem", "MemoryMax", "error_log", "page_log",
    "cached_auth_timeout", "TrustOnFirst", "ValidateCerts", "AllowAnyRoot", "ServerName", "ColorModel", "TCP_NODELAY",
    "worker_connections", "pam_sss",
}
# Words of printd's messages, which the pages of crates name too.
MESSAGES = {"memory", "disk", "damaged", "io"}
# Sources of crates that name documents by paths of before. Changing a comment there proves the crates above once more.
OLD_PATHS = {f"crates/queue_laws/src/{name}.rt" for name in ("reported", "accounting", "fetching")}
# Options in backticks of programs that are not the repository's.
FOREIGN_OPTIONS = {"--cafile", "--foreground", "--anew", "--fail-alloc", "--fold", "--show-npages", "--show-pages"}


@dataclass(frozen=True)
class Finding:
    """Something that is not as it should be."""

    document: str
    line: int
    text: str

    def __str__(self) -> str:
        return f"{self.document}:{self.line}: {self.text}" if self.line else f"{self.document}: {self.text}"


@dataclass(frozen=True)
class Span:
    """Text in backticks: its line, the head of its table's column, if it is in a table, and the heading that it is under."""

    line: int
    text: str
    column: str = ""
    heading: str = ""


FENCE = re.compile(r"^\s*(```+|~~~+)")
HEADING = re.compile(r"^#{1,6}\s+(.*?)\s*#*\s*$")
CODE = re.compile(r"(?<!`)(`+)(?!`)(.+?)(?<!`)\1(?!`)")
LINK = re.compile(r"\[(?:[^\[\]]|\[[^\]]*\])*\]\(\s*<?([^)\s>]+)>?(?:\s+\"[^\"]*\")?\s*\)")
REFERENCE = re.compile(r"^\s*\[[^\]]+\]:\s*<?([^\s>]+)>?")
NAMED_ANCHOR = re.compile(r"<a\s+(?:name|id)=\"([^\"]+)\"")
TABLE_RULE = re.compile(r"^\s*\|?\s*:?-{2,}.*\|")


def slug_of(heading: str) -> str:
    """The anchor of a heading, as GitHub and GitLab make it."""
    text = re.sub(r"\[([^\]]*)\]\([^)]*\)", r"\1", heading).replace("`", "").lower()
    return re.sub(r"[^\w\- ]", "", text).replace(" ", "-")


def cells_of(row: str) -> list[str]:
    """The cells of a table's row. A bar in backticks or after a backslash ends none."""
    cells, is_code = [""], False
    for place, character in enumerate(row.strip().strip("|")):
        if character == "`":
            is_code = not is_code
        if character == "|" and not is_code and row.strip().strip("|")[place - 1] != "\\":
            cells.append("")
        else:
            cells[-1] += character
    return cells


class Document:
    """A document: its anchors, its links, its text in backticks and its commands."""

    def __init__(self, top: Path, path: str):
        self.path = path
        self.bytes = (top / path).read_bytes()
        self.anchors: set[str] = set()
        self.links: list[tuple[int, str]] = []
        self.spans: list[Span] = []
        # lines of fenced and of indented code
        self.code: list[tuple[int, str]] = []
        self.heading = ""
        self.read(self.bytes.decode("utf-8").splitlines())

    def read(self, lines: list[str]) -> None:
        fence, is_list, columns = "", False, []
        before = ""
        for number, line in enumerate(lines, 1):
            mark = FENCE.match(line)
            if mark and (not fence or line.strip().startswith(fence) and line.strip() == mark[1]):
                fence = "" if fence else mark[1]
                before = line
                continue
            if fence:
                self.code.append((number, line))
                continue
            if line.startswith("    ") and not is_list and (not before.strip() or before.startswith("    ")):
                self.code.append((number, line[4:]))
                before = line
                continue
            # an indented line after a list's is a paragraph of it
            is_list = bool(re.match(r"\s*(?:[-*+]|\d+\.)\s", line)) or is_list and (not line.strip() or line.startswith(" "))
            if TABLE_RULE.match(line) and "|" in before:
                columns = cells_of(before)
            elif not line.lstrip().startswith("|"):
                columns = []
            self.take_line(number, line, columns if not TABLE_RULE.match(line) else [])
            before = line

    def take_line(self, number: int, line: str, columns: list[str]) -> None:
        heading = HEADING.match(line)
        if heading:
            self.heading = heading[1].strip("`")
            slug, count = slug_of(heading[1]), 0
            while (f"{slug}-{count}" if count else slug) in self.anchors:
                count += 1
            self.anchors.add(f"{slug}-{count}" if count else slug)
        self.anchors.update(NAMED_ANCHOR.findall(line))
        cells = cells_of(line) if columns else [line]
        for place, cell in enumerate(cells):
            head = columns[place].strip() if place < len(columns) else ""
            self.spans += [Span(number, found[2].strip(), head, self.heading) for found in CODE.finditer(cell)]
        plain = CODE.sub(lambda found: "`" * len(found[0]), line)
        self.links += [(number, found[1]) for found in LINK.finditer(plain)]
        reference = REFERENCE.match(plain)
        if reference:
            self.links.append((number, reference[1]))


COMMENTS = {
    ".rt": re.compile(r"//.*"), ".antt": re.compile(r"--(?= |-|$).*"), ".py": re.compile(r"(?m)^\s*#.*"),
    ".c": re.compile(r"//.*|/\*.*?\*/", re.S), ".conf": re.compile(r"(?m)^\s*#.*"),
}
WORD = re.compile(r"[A-Za-z_][A-Za-z0-9_]*")
CASE = re.compile(r"\bname: \"([^\"]+)\"")
FUNCTION = re.compile(r"\bfn\s+(\w+)")
# What a crate defines: items, fields and variants, what it exports of others, names of clauses; and definitions in its specs.
DEFINED = (
    FUNCTION, re.compile(r"\b(?:struct|enum|trait|const|static|type|mod)\s+(\w+)"),
    re.compile(r"(?m)^\s+(?:pub(?:\([a-z]+\))? )?(\w+)\s*(?:[:,({]|$)"), re.compile(r"\b(?:ensures|requires|invariant)\s+(\w+)\s*\{"),
    re.compile(r"(?m)^(?:\w+ )*?(\w+) :"),
    re.compile(r"(?m)^(?:\w+ )?pub (?:record |data )?(\w+)"), re.compile(r"(?m)^(\w+) .*="),
)
EXPORTED = re.compile(r"\bpub use ([^;]*);")


@dataclass
class Names:
    """Which names there are: all, those of each crate with what it defines, functions, and worked examples and cases of tests."""

    all: set[str] = field(default_factory=set)
    by_crate: dict[str, set[str]] = field(default_factory=dict)
    defined: dict[str, set[str]] = field(default_factory=dict)
    functions: set[str] = field(default_factory=set)
    examples: set[str] = field(default_factory=set)
    cases: set[str] = field(default_factory=set)


class Repository:
    """The files of a repository and the names in them, as they are in the folder, committed or not."""

    def __init__(self, top: Path):
        self.top = top
        self.files = sorted(self.walk())
        self.file_set = set(self.files)
        self.folders = {str(parent) for name in self.files for parent in Path(name).parents} - {"."}
        self.base_names = {os.path.basename(name) for name in self.files}
        self.tops = {name.split("/")[0] for name in self.folders}
        self.crates = {name.split("/")[1] for name in self.folders if name.startswith("crates/")}
        self.documents = [Document(top, name) for name in self.files if any(matches(name, form) for form in DOCUMENTS)]

    def walk(self) -> Iterator[str]:
        for folder, folders, files in os.walk(self.top):
            folders[:] = [name for name in folders if name not in SKIPPED]
            for name in files:
                yield os.path.relpath(os.path.join(folder, name), self.top)

    @functools.cached_property
    def libraries(self) -> set[str]:
        """The kit's libraries that crates.txt names."""
        text = (self.top / "crates.txt").read_text(encoding="utf-8") if "crates.txt" in self.file_set else ""
        lines = [line for line in text.splitlines() if not line.startswith("#")]
        return {word for line in lines for word in line.partition(":")[2].split()} - self.crates

    def text(self, name: str) -> str:
        return (self.top / name).read_text(encoding="utf-8", errors="replace")

    @functools.cached_property
    def sources(self) -> list[str]:
        """The files of code, and of no document."""
        return [name for name in self.files if not name.endswith(".md") and not is_input(name)]

    def is_script(self, name: str) -> bool:
        return os.access(self.top / name, os.X_OK) and not name.startswith("crates/")

    @functools.cached_property
    def names(self) -> Names:
        names = Names()
        for name in filter(is_input, self.files):
            names.examples |= {line[2:] for line in self.text(name).splitlines() if line.startswith("# ")}
        for name in self.sources:
            parts = name.split("/")
            words = {Path(name).stem.split(".")[0]} | {part for part in parts[:-1] if WORD.fullmatch(part)}
            text = self.text(name)
            comment = COMMENTS.get(Path(name).suffix)
            text = comment.sub("", text) if comment else text
            names.cases |= set(CASE.findall(text))
            names.functions |= set(FUNCTION.findall(text))
            if parts[0] == "crates" and name.endswith((".rt", ".antt")):
                names.defined.setdefault(parts[1], {parts[1]}).update(defined_in(text), words)
            words |= set(WORD.findall(text))
            names.all |= words
            if parts[0] == "crates":
                names.by_crate.setdefault(parts[1], {parts[1]}).update(words)
        return names

    @functools.cached_property
    def commands(self) -> set[str]:
        """The words of printd's command line: its subcommands and the names of its options."""
        files = [name for name in self.files if name.startswith("crates/command_words/src/")]
        return {word for name in files for word in re.findall(r"\"([a-z-]+)\"", self.text(name))}

    def exists(self, path: str) -> bool:
        """Whether there is a file or a folder of that path. Words in capital letters and `*` stand for any name."""
        path = path.rstrip("/")
        if set(path.split("/")) & SKIPPED:
            return True
        form = "/".join(re.sub(r"^[A-Z]+(?=\.|$)", "*", part) for part in path.split("/")) if path not in self.file_set else path
        # a file of definitions may be named without its suffix
        forms = [form, f"{form}.antt"]
        if "*" not in form:
            return any(one in self.file_set or one in self.folders for one in forms)
        return any(matches(name, one) for name in [*self.files, *self.folders] for one in forms)


def is_input(name: str) -> bool:
    """Whether a file is what a crate's program reads or prints: worked examples, of which the names count."""
    return name.startswith("crates/") and name.count("/") == 2


def defined_in(text: str) -> set[str]:
    """What a file of a crate defines or exports."""
    return {name for form in DEFINED for name in form.findall(text)} | {name for names in EXPORTED.findall(text) for name in WORD.findall(names)}


def matches(path: str, form: str) -> bool:
    """Whether a path has a form, in which `*` stands for a part of a name and `**/` for any folders."""
    if "**/" in form:
        return any(matches(path, form.replace("**/", deeper, 1)) for deeper in ("", "*/", "*/*/"))
    parts, forms = path.split("/"), form.split("/")
    return len(parts) == len(forms) and all(fnmatch.fnmatchcase(part, one) for part, one in zip(parts, forms))


# ---- links


def check_links(repository: Repository) -> Iterator[Finding]:
    by_path = {document.path: document for document in repository.documents}
    reached: dict[str, set[str]] = {path: set() for path in by_path}
    for document in repository.documents:
        for line, link in document.links:
            if re.match(r"[a-z][a-z0-9+.-]*:", link):
                continue
            path, _, anchor = link.partition("#")
            target = os.path.normpath(os.path.join(os.path.dirname(document.path), path)) if path else document.path
            if target in by_path:
                reached[document.path].add(target)
                if anchor and anchor not in by_path[target].anchors:
                    yield Finding(document.path, line, f"no heading has the anchor: {link}")
            elif target != "." and target not in repository.file_set and target not in repository.folders:
                yield Finding(document.path, line, f"the link leads nowhere: {link}")
    seen, next_ones = {"README.md"}, ["README.md"]
    while next_ones:
        for path in reached.get(next_ones.pop(), set()) - seen:
            seen.add(path)
            next_ones.append(path)
    for path in sorted(by_path.keys() - seen):
        if not path.startswith("crates/"):
            yield Finding(path, 0, "no chain of links leads from the README to this document")


# ---- paths


def is_path_of(repository: Repository, document: Document, path: str) -> bool:
    """Whether a word in backticks names a file or a folder that is there, or is no path of the repository."""
    first, *rest = path.rstrip("/").split("/")
    if not rest:
        is_own = path.endswith(OWN_SUFFIXES) and WORD.fullmatch(path.split(".")[0].replace("-", "_"))
        return not is_own or path in FOREIGN_NAMES or path in repository.base_names or "*" in path
    if first in repository.tops:
        return repository.exists(path)
    if first in repository.crates:
        return repository.exists(f"crates/{path}")
    if first in IN_A_CRATE:
        return repository.exists(f"crates/*/{path}")
    if first in repository.libraries or not first:
        return True
    if path.endswith(OWN_SUFFIXES):
        beside = os.path.normpath(os.path.join(os.path.dirname(document.path), path))
        return repository.exists(beside) or any(name.endswith("/" + path) for name in repository.files)
    return True


def is_one_word(text: str) -> bool:
    """Whether it could be a path: no URI, no variable, no glob of the shell but `*`."""
    return bool(re.fullmatch(r"\.?[\w*][\w./*-]*", text)) and "//" not in text


def check_paths(repository: Repository) -> Iterator[Finding]:
    for document in repository.documents:
        for span in document.spans:
            if is_one_word(span.text):
                if not is_path_of(repository, document, span.text):
                    yield Finding(document.path, span.line, f"no such file or folder: {span.text}")
            else:
                yield from missing_in_command(repository, document, span.line, span.text)
        for line, text in document.code:
            yield from missing_in_command(repository, document, line, text)
    for name in repository.sources:
        for number, text in enumerate(repository.text(name).splitlines(), 1):
            for path in re.findall(r"\bdocs/[\w/-]+\.md\b", text):
                if path not in repository.file_set and name not in OLD_PATHS:
                    yield Finding(name, number, f"no such document: {path}")


def missing_in_command(repository: Repository, document: Document, line: int, text: str) -> Iterator[Finding]:
    """Paths in a command that begin with a folder at the repository's top, or with `./`."""
    for word in re.findall(r"(?<![\w/.$}\"-])(?:\./)?[\w.][\w./*-]*", text):
        path = word.rstrip(".").removeprefix("./")
        if not path:
            continue
        if word.startswith("./") and "/" not in path and path not in repository.file_set and path not in repository.folders:
            yield Finding(document.path, line, f"no such program: {word}")
        elif "/" in path and path.split("/")[0] in repository.tops and not repository.exists(path):
            yield Finding(document.path, line, f"no such file or folder: {path}")


# ---- names


def is_checked(name: str) -> bool:
    """Whether a word is clearly a name of code: with an underscore between letters, or two humps."""
    return bool(re.search(r"[A-Za-z0-9]_[A-Za-z0-9]", name)) or bool(re.fullmatch(r"[A-Z][a-z0-9]+[A-Z]\w*", name))


def unknown_names(repository: Repository, text: str) -> Iterator[str]:
    """Names in backticks that nothing has."""
    names = repository.names
    for qualified in re.findall(r"\w+(?:::\w+)+", text):
        first, *rest = qualified.split("::")
        own = names.defined.get(first)
        if first in repository.libraries or first in FOREIGN_NAMES or first in ("std", "io", "fs", "env", "uri"):
            continue
        if own is not None:
            if not all(name in own for name in rest):
                yield qualified
        elif not all(name in names.all for name in (first, *rest)):
            yield qualified
    for name in WORD.findall(re.sub(r"\w+(?:::\w+)+", " ", text)):
        if is_checked(name) and name not in names.all and name not in FOREIGN_NAMES and name not in repository.libraries:
            yield name


def check_names(repository: Repository) -> Iterator[Finding]:
    names = repository.names
    for document in repository.documents:
        for span in document.spans:
            head = span.column.lower()
            if "example" in head:
                if span.text not in names.examples:
                    yield Finding(document.path, span.line, f"no worked example has the name: {span.text}")
            elif re.search(r"\btests?\b", head) and " " in span.text:
                if span.text not in names.cases:
                    yield Finding(document.path, span.line, f"no case of a test has the name: {span.text}")
            elif not re.search(r"\.[a-z]+$|/", span.text.split(" ")[0]):
                for name in unknown_names(repository, span.text):
                    yield Finding(document.path, span.line, f"nothing has the name: {name}")
                if re.search(r"\b(definition|law|function|clause)s?\b", head) and not is_defined(repository, span.text):
                    yield Finding(document.path, span.line, f"no crate defines: {span.text}")
                if re.fullmatch(r"[a-z]+", span.text) and span.heading in names.by_crate and not is_word_of(repository, span.heading, span.text):
                    yield Finding(document.path, span.line, f"nothing in {span.heading} has the name: {span.text}")


def is_defined(repository: Repository, text: str) -> bool:
    """Whether some crate defines the word that a text is; a text that is no word is taken for something else."""
    return not WORD.fullmatch(text) or any(text in defined for defined in repository.names.defined.values())


def is_word_of(repository: Repository, crate: str, word: str) -> bool:
    """Whether a word is a name of a crate, or of another crate, a function or a word of the command line."""
    names = repository.names
    return any(word in known for known in (names.by_crate[crate], names.functions, repository.crates, repository.commands, MESSAGES))


# ---- commands


def programs_in(text: str) -> Iterator[list[str]]:
    """The words of each program that a line of the shell's runs."""
    for part in re.split(r"&&|\|\||[|;()&]|\bdo\b|\bthen\b", text):
        try:
            words = shlex.split(part, comments=True)
        except ValueError:
            continue
        while words and (re.fullmatch(r"[A-Z_]+=\S*", words[0]) or words[0] in ("sudo", "exec", "-u", "$")):
            words = words[2 if words[0] == "-u" else 1:]
        if words:
            yield words


def script_of(repository: Repository, program: str) -> str | None:
    path = program.removeprefix("./")
    return path if path in repository.file_set and repository.is_script(path) else None


def wrong_words(repository: Repository, words: list[str]) -> Iterator[str]:
    """Words of a command that its program does not take."""
    program, *rest = words
    options = [match[0] for word in rest if (match := re.match(r"--[a-z][a-z-]*", word))]
    script = script_of(repository, program)
    if program in ("printd", "./printd", "/usr/local/bin/printd", "crates/printd/out/printd"):
        taken = {f"--{word}" for word in repository.commands} | {"--help"}
        if rest and re.fullmatch(r"[a-z][a-z-]*", rest[0]) and rest[0] not in repository.commands | {"help"}:
            yield f"printd has no command {rest[0]}"
        yield from (f"printd has no option {option}" for option in options if option not in taken)
    elif script is not None:
        text = repository.text(script)
        yield from (f"{script} has no option {option}" for option in options if option != "--help" and f'"{option}"' not in text)


def check_commands(repository: Repository) -> Iterator[Finding]:
    own = "".join(repository.text(name) for name in repository.files if repository.is_script(name))
    for document in repository.documents:
        for span in document.spans:
            if " " in span.text:
                for words in programs_in(span.text):
                    yield from (Finding(document.path, span.line, text) for text in wrong_words(repository, words))
            option = re.match(r"--[a-z][a-z-]*", span.text)
            if option and option[0] not in FOREIGN_OPTIONS and option[0][2:] not in repository.commands | {"help"} and f'"{option[0]}"' not in own:
                yield Finding(document.path, span.line, f"nothing has the option: {option[0]}")
        for line, text in joined(document.code):
            for words in programs_in(text):
                yield from (Finding(document.path, line, found) for found in wrong_words(repository, words))


def joined(lines: Iterable[tuple[int, str]]) -> Iterator[tuple[int, str]]:
    """Lines of code, with those that a backslash continues in one."""
    begun, first = "", 0
    for number, text in lines:
        first = first if begun else number
        begun += text
        if begun.endswith("\\"):
            begun = begun[:-1] + " "
            continue
        yield first, begun
        begun = ""


# ---- sizes


def check_sizes(repository: Repository) -> Iterator[Finding]:
    sizes = {document.path: len(document.bytes) for document in repository.documents}
    readme, docs = sizes.get("README.md", 0), sum(size for path, size in sizes.items() if path.startswith("docs/"))
    if readme > MOST_README:
        yield Finding("README.md", 0, f"{readme:,} bytes, at most {MOST_README:,}")
    if docs > MOST_DOCS:
        yield Finding("docs/", 0, f"{docs:,} bytes, at most {MOST_DOCS:,}")
    for document in repository.documents:
        for form, most in MOST_LINES.items():
            count = document.bytes.count(b"\n")
            if matches(document.path, form) and count > most:
                yield Finding(document.path, 0, f"{count} lines, at most {most}")


Check = Callable[[Repository], Iterator[Finding]]
CHECKS: dict[str, Check] = {"links": check_links, "paths": check_paths, "names": check_names, "commands": check_commands, "sizes": check_sizes}


class Documents(unittest.TestCase):
    """Each check as a test, for tests/run.py."""

    @functools.cached_property
    def repository(self) -> Repository:
        return Repository(TOP)

    def look(self, name: str) -> None:
        found = list(CHECKS[name](self.repository))
        self.assertFalse(found, "".join(f"\n{finding}" for finding in found))

    def test_links_lead_somewhere(self) -> None:
        self.look("links")

    def test_paths_exist(self) -> None:
        self.look("paths")

    def test_names_are_those_of_the_code(self) -> None:
        self.look("names")

    def test_commands_are_taken(self) -> None:
        self.look("commands")

    def test_documents_have_their_sizes(self) -> None:
        self.look("sizes")


def main() -> int:
    words = argparse.ArgumentParser(description=__doc__, formatter_class=argparse.RawDescriptionHelpFormatter)
    words.add_argument("top", metavar="FOLDER", nargs="?", type=Path, default=TOP, help="the repository (this one)")
    words.add_argument("--only", metavar="CHECK", choices=CHECKS, action="append", help="run this check; may be given again")
    words.add_argument("--without", metavar="CHECK", choices=CHECKS, action="append", default=[], help="leave this check out; may be given again")
    asked = words.parse_args()
    repository = Repository(asked.top.resolve())
    chosen = [name for name in asked.only or CHECKS if name not in asked.without]
    found = [finding for name in chosen for finding in CHECKS[name](repository)]
    for finding in sorted(set(found), key=lambda one: (one.document, one.line)):
        print(finding)
    sizes = {document.path: len(document.bytes) for document in repository.documents}
    docs = sum(size for path, size in sizes.items() if path.startswith("docs/"))
    print(f"{len(sizes)} documents, README {sizes.get('README.md', 0):,} bytes, docs/ {docs:,} bytes; {len(set(found))} findings")
    return 1 if found else 0


if __name__ == "__main__":
    sys.exit(main())
