"""Reports: their answers, and the rebuilt fragments that they name."""

from __future__ import annotations

import dataclasses
import hashlib
import os
import pathlib
import re
from collections.abc import Iterator, Sequence

from .formats import FED_REPORT, NARROW, OUTCOMES, PLACES, REPORT, Refused, counted
from .lists import Request
from .records import records

# The digests of a merged result's files, as sha256sum writes and checks them.
SUMS = "SHA256SUMS"
# What a rebuilt fragment's name begins with in a served folder: its rack and its number.
SERVED_FRAGMENT = re.compile(r"rack(0|[1-9][0-9]*)-(0|[1-9][0-9]*)\.")


@dataclasses.dataclass
class Answer:
    """An answer of a report: its number in the report and its feed, what its other fields say, and the path of its fragment, which is
    there if the outcome is rebuilt. Between the places of the survivors that were left out, `unread`, are spaces."""

    number: int
    feed: int
    stripe: str
    target: str
    length: int
    outcome: str
    digest: str
    unread: str
    code: str
    fragment: pathlib.Path

    @property
    def name(self) -> str:
        """The name of the fragment in a store."""
        return f"{self.stripe}.{self.target}"

    @property
    def rebuilt(self) -> bool:
        return self.outcome == "rebuilt"

    def is_to(self, request: Request) -> bool:
        """Whether it may be the answer to a request."""
        return (self.stripe, self.target, self.length, self.code) == (request.stripe, request.target, request.length, request.code)

    def pieces(self) -> Iterator[bytes]:
        """The fragment's bytes, a piece at a time, since `join` makes long ones. Refused at the end if their number or their
        digest isn't the report's."""
        found, length = hashlib.sha256(), 0
        try:
            with open(self.fragment, "rb") as file:
                for piece in iter(lambda: file.read(2**20), b""):
                    found.update(piece)
                    length += len(piece)
                    yield piece
        except FileNotFoundError:
            raise Refused(f"{self.fragment}: missing, and its report says rebuilt") from None
        if length != self.length or found.hexdigest() != self.digest:
            raise Refused(f"{self.fragment}: not the bytes that its report says")

    def compare(self) -> None:
        """Compares the fragment's length and digest with the report's."""
        for _ in self.pieces():
            pass


class Tally:
    """How many answers there are of each outcome, and how many that left survivors out."""

    def __init__(self) -> None:
        self.outcomes = dict.fromkeys(OUTCOMES, 0)
        self.unread = 0

    def add(self, outcome: str, unread: str) -> None:
        self.outcomes[outcome] += 1
        self.unread += bool(unread)

    @property
    def answers(self) -> int:
        return sum(self.outcomes.values())

    @property
    def not_rebuilt(self) -> int:
        return self.answers - self.outcomes["rebuilt"]

    def __str__(self) -> str:
        counts = ", ".join(f"{count} {outcome}" for outcome, count in self.outcomes.items())
        return f"{counted(self.answers, 'answer')}: {counts}; {self.unread} with unread survivors"


def reports_of(out: pathlib.Path) -> list[pathlib.Path]:
    """The reports of a served folder in the order of its racks, or the one that `merge` or `join` made."""
    named = {re.fullmatch(r"rack(0|[1-9][0-9]*)\.report\.csv", entry.name): entry.name for entry in os.scandir(out)}
    racks = sorted((int(found[1]), name) for found, name in named.items() if found)
    if (out / "report.csv").is_file():
        compare_sum(out / "report.csv")
        return [out / "report.csv"]
    if not racks:
        left = sum(SERVED_FRAGMENT.match(entry.name) is not None for entry in os.scandir(out))
        raise Refused(f"{out}: {counted(left, 'fragment')} and no report: the run that wrote them has not ended, so serve the folder "
                      "again into an empty one" if left else f"{out}: has no report")
    return [out / name for _, name in racks]


def digest_of(path: pathlib.Path) -> str:
    found = hashlib.sha256()
    with open(path, "rb") as file:
        for piece in iter(lambda: file.read(2**20), b""):
            found.update(piece)
    return found.hexdigest()


def write_sums(folder: pathlib.Path, digests: dict[str, str]) -> None:
    """Writes the digest of the report of a merged result, and those of its fragments by their names."""
    with open(folder / SUMS, "x", encoding="ascii") as file:
        for name, digest in {"report.csv": digest_of(folder / "report.csv"), **digests}.items():
            file.write(f"{digest}  {name}\n")


def compare_sum(report: pathlib.Path) -> None:
    """Refuses a merged report that isn't the whole one: a copy that was cut short may end with a line."""
    try:
        sums = report.with_name(SUMS).read_text(encoding="ascii").splitlines()
    except FileNotFoundError:
        raise Refused(f"{report.parent}: has no {SUMS}, which merge makes beside report.csv") from None
    if [line[:64] for line in sums if line[64:] == "  report.csv"] != [digest_of(report)]:
        raise Refused(f"{report}: not the report that {report.with_name(SUMS)} has the digest of")


def read_report(path: pathlib.Path) -> Iterator[Answer]:
    """The answers of a report of one feed or of several, with the paths of their fragments."""
    read = records(path)
    _, header = next(read, (1, []))
    if header not in (REPORT, REPORT + ["code"], FED_REPORT, FED_REPORT + ["code"]):
        raise Refused(f"{path}: line 1: not the header of a report")
    fed = header[1] == "feed"
    rack = path.name.partition(".report.csv")[0]
    for number, (line, row) in enumerate(read):
        if len(row) != len(header) or row[0] != str(number):
            raise Refused(f"{path}: line {line}: not an answer")
        feed = row.pop(1) if fed else "0"
        fields, code = row[1:7], row[7] if row[7:] else NARROW
        if not re.fullmatch("[0-3]", feed) or not is_answer(fields, code):
            raise Refused(f"{path}: line {line}: not an answer")
        stripe, target, length, outcome, digest, unread = fields
        name = f"{stripe}.{target}"
        fragment = path.with_name(name if path.name == "report.csv" else f"{rack}-{number}.{name}")
        yield Answer(number, int(feed), stripe, target, int(length), outcome, digest, unread, code, fragment)


def is_answer(fields: Sequence[str], code: str) -> bool:
    """Whether these are an answer's fields. Its stripe is part of a file's name, also if `join` made the report."""
    stripe, target, length, outcome, digest, _ = fields
    return bool(stripe) and "/" not in stripe and "\0" not in stripe and target in PLACES.get(code, []) \
        and re.fullmatch("[1-9][0-9]*", length) is not None and outcome in OUTCOMES \
        and re.fullmatch("[0-9a-f]{64}" if outcome == "rebuilt" else "", digest) is not None
