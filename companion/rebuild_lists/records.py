"""Comma-separated records: as the program reads them, and more strictly, as a list to split is read."""

from __future__ import annotations

import csv
import dataclasses
import os
import re
from collections.abc import Iterable, Iterator, Sequence

from .formats import Refused


@dataclasses.dataclass
class Record:
    """A record of a list: the number of its first line, its fields, and whether the list ends inside a quoted field of it."""

    line: int
    fields: list[str]
    unclosed: bool = False


# A field, as the program reads it: a quoted part, in which two quotes are one, and then all up to a comma or a line's end.
FIELD = re.compile('(?:"((?:[^"]|"")*)("?))?([^,\r\n]*)')
LINE_ENDS = re.compile("[\r\n]*")
LINE_END = re.compile("\r\n?|\n")
# What a text may begin with to say that it is UTF-8.
MARK = b"\xef\xbb\xbf"


def as_program(data: bytes) -> Iterator[Record]:
    """The records of a list just as the program reads them, also if a stricter reader would find a fault in the quotes."""
    text = data[len(MARK) if data.startswith(MARK) else 0:].decode("utf-8", "surrogateescape")
    at = LINE_ENDS.match(text).end()
    line = 1 + len(LINE_END.findall(text, 0, at))
    while at < len(text):
        record = Record(line, [])
        begin, at = at, fields_into(record, text, at)
        at = LINE_ENDS.match(text, at).end()
        line += len(LINE_END.findall(text, begin, at))
        yield record


def fields_into(record: Record, text: str, at: int) -> int:
    """Reads the fields of a record that begins at a place of a text, and answers where it ends."""
    while True:
        found = FIELD.match(text, at)
        quoted, closing, rest = found.groups()
        record.fields.append((quoted or "").replace('""', '"') + rest)
        record.unclosed = record.unclosed or (quoted is not None and not closing)
        at = found.end()
        if text[at : at + 1] != ",":
            return at
        at += 1


def records(path: str | os.PathLike) -> Iterator[tuple[int, list[str]]]:
    """The fields of each record of a file, each with the number of its first line. Empty lines are skipped. A list to split may be
    of any length, so it is read as it goes. A doubtful quote, which the program takes, is refused here."""
    with open(path, encoding="utf-8-sig", errors="surrogateescape", newline="") as file:
        reader = csv.reader(file, strict=True)
        line = 1
        while True:
            try:
                record = next(reader)
            except StopIteration:
                return
            except csv.Error as error:
                raise Refused(f"{path}: line {line}: {error}") from None
            if record:
                yield line, record
            line = reader.line_num + 1


def write_records(path: os.PathLike, rows: Iterable[Sequence[str]]) -> None:
    """Writes a new file of these records."""
    with open(path, "x", encoding="utf-8", errors="surrogateescape", newline="") as file:
        csv.writer(file, lineterminator="\n").writerows(rows)
