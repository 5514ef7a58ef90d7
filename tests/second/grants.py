"""Account files (docs/guide/accounts.md): the rows of a file, and which of them are new."""
from __future__ import annotations

import re
from collections import ChainMap
from collections.abc import Iterator

MOST_PAGES_OF_ROW = 1_000_000
MOST_PAGES_OF_ACCOUNT = 1_000_000_000

BATCH = re.compile(rb"[A-Za-z0-9._-]{1,40}")
PAGES = re.compile(rb"0|[1-9][0-9]*")

# a field in quotes, in which two quotes are one and which need not be closed, with the text after it; or a field without quotes
FIELD = re.compile(rb'"((?:[^"]|"")*)(?:"|\Z)([^,\r\n]*)|([^,\r\n]*)')


# A row: batch, account and pages. Grants are the pages by batch and account.
Row = tuple[bytes, bytes, int]
Grants = dict[tuple[bytes, bytes], int]


class RefusedFile(Exception):
    """An account file that is refused, with the code."""

    def __init__(self, code: int):
        super().__init__(code)
        self.code = code


def records(text: bytes) -> Iterator[list[bytes]]:
    """The records of comma-separated text (RFC 4180), as lists of fields. Empty lines are none."""
    at = 0
    fields: list[bytes] = []
    while at < len(text):
        if not fields and text[at : at + 1] in (b"\r", b"\n"):
            at += 1
            continue
        found = FIELD.match(text, at)
        assert found is not None
        quoted, behind, plain = found.groups()
        fields.append(plain if quoted is None else quoted.replace(b'""', b'"') + behind)
        at = found.end() + 1
        if text[found.end() : at] == b"," and at < len(text):
            continue
        if text[found.end() : at] == b",":
            fields.append(b"")
        yield fields
        fields = []


def is_account(name: bytes) -> bool:
    try:
        name.decode()
    except UnicodeDecodeError:
        return False
    return 1 <= len(name) <= 255 and not set(name) & {*range(0x20), 0x7F}


def read_row(fields: list[bytes]) -> Row:
    """A row's batch, account and pages."""
    if len(fields) != 3:
        raise RefusedFile(2)
    batch, account, pages = fields
    if not BATCH.fullmatch(batch) or not is_account(account) or not PAGES.fullmatch(pages):
        raise RefusedFile(2)
    if not 1 <= int(pages) <= MOST_PAGES_OF_ROW:
        raise RefusedFile(3)
    return batch, account, int(pages)


def new_rows(rows: list[Row], granted: Grants) -> Grants:
    """The rows that were not granted before, as pages by batch and account."""
    new: Grants = {}
    known = ChainMap(new, granted)
    for batch, account, pages in rows:
        if (batch, account) in known:
            if known[batch, account] != pages:
                raise RefusedFile(4)
            continue
        sum_of = sum(some for (_, other), some in known.items() if other == account)
        if sum_of + pages > MOST_PAGES_OF_ACCOUNT:
            raise RefusedFile(5)
        new[batch, account] = pages
    return new
