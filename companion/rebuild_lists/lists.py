"""Request lists: what is wrong with a record, and the requests of a list."""

from __future__ import annotations

import dataclasses
import pathlib
import re
from collections.abc import Callable, Iterator, Sequence

from .files import contents
from .formats import CODED_HEADER, HEADER, HEADERS, LIST_BYTES, LONGEST, NAME, NARROW, PLACES, STRIPE_NAME, Refused, counted
from .records import as_program, records


@dataclasses.dataclass
class Fault:
    """What is wrong with a record: the number that the program gives for it, and a text that has the field and its value."""

    number: str
    text: str


def survivors_of(record: Sequence[str]) -> list[str]:
    """The places that the record of a request names as survivors."""
    return record[4].split(" ") if record[4] else []


def code_of(record: Sequence[str]) -> str:
    """The code that the record of a request names; a list without the field is of the (6,2,2) code."""
    return record[5] if len(record) > 5 else NARROW


@dataclasses.dataclass(frozen=True)
class Request:
    """A request of a list: a record without a fault, as it is in the list, and what its fields say."""

    record: list[str]
    stripe: str
    target: str
    length: int
    survivors: list[str]
    code: str

    @classmethod
    def of(cls, record: list[str]) -> Request:
        _, stripe, target, length = record[:4]
        return cls(record, stripe, target, int(length), survivors_of(record), code_of(record))

    @property
    def name(self) -> str:
        """The name of the wanted fragment in a store."""
        return self.fragment(self.target)

    def fragment(self, place: str) -> str:
        """The name of the stripe's fragment at a place."""
        return f"{self.stripe}.{place}"


def stripe_fault(stripe: str) -> str | None:
    """What is wrong with a stripe's name, or None."""
    if STRIPE_NAME.fullmatch(stripe):
        return None
    limit = f"1 to {NAME} characters of a to z, 0 to 9 and -"
    if len(stripe) > NAME:
        return f"the stripe {stripe!r} has {len(stripe)} characters, and a name has {limit}"
    return f"the stripe {stripe!r} isn't {limit}"


def close_faults(record: Sequence[str]) -> Iterator[Fault]:
    """What is wrong with a record whose order is close."""
    for name, value in list(zip(CODED_HEADER, record))[1:]:
        if value:
            yield Fault("E20", f"the order is close, and the {name} {value!r} isn't empty")


def form_faults(record: Sequence[str], fields: int) -> Iterator[Fault]:
    """What is wrong with the form of a record of a list of this many fields."""
    if len(record) != fields:
        yield Fault("E20", f"the record {','.join(record)!r} has {counted(len(record), 'field')}, and the header has {fields}")
        return
    order, _, target, length = record[:4]
    if order == "close":
        yield from close_faults(record)
        return
    if order != "rebuild":
        yield Fault("E20", f"the order {order!r} isn't rebuild or close")
    code = code_of(record)
    if code not in PLACES:
        yield Fault("E20", f"the code {code!r} isn't 6-2-2 or 12-2-2")
    else:
        if target not in PLACES[code]:
            yield Fault("E20", f"the target {target!r} isn't a place of the code {code}")
        for place in survivors_of(record):
            if place not in PLACES[code]:
                yield Fault("E20", f"the survivor {place!r} isn't a place of the code {code}")
    if not re.fullmatch("[0-9]{1,7}", length):
        yield Fault("E20", f"the length {length!r} isn't 1 to {LONGEST} in one to seven digits")


def limit_faults(record: Sequence[str]) -> Iterator[Fault]:
    """What is wrong with a request beyond its form."""
    _, stripe, target, length = record[:4]
    wrong = stripe_fault(stripe)
    if wrong:
        yield Fault("E21 E1", wrong)
    if re.fullmatch("[0-9]{1,7}", length) and not 1 <= int(length) <= LONGEST:
        yield Fault("E21 E2", f"the length {length!r} isn't 1 to {LONGEST}")
    places = survivors_of(record)
    for place in dict.fromkeys(places):
        if place in PLACES.get(code_of(record), []) and places.count(place) > 1:
            yield Fault("E21 E3", f"the survivor {place!r} is listed {places.count(place)} times")
    if target in places:
        yield Fault("E21 E4", f"the target {target!r} is among the survivors")


def faults(record: Sequence[str], fields: int) -> list[Fault]:
    """What is wrong with a record, the fault that the program gives first. A good close has none."""
    found = list(form_faults(record, fields))
    if len(record) == fields and record[0] != "close":
        found += limit_faults(record)
    return found


def header_fault(header: list[str]) -> str | None:
    """What is wrong with the first record of a list, or None."""
    if header in HEADERS:
        return None
    return f"the header {','.join(header)!r} isn't {','.join(HEADER)}, with or without ,code"


def rows_of(path: str | pathlib.Path, wrong_with: Callable[[list[str], int], str | None]) -> Iterator[tuple[int, list[str]]]:
    """The header of a long list, and then each of its requests, with the numbers of their lines. `wrong_with` says of a record, by
    its fields and how many fields the header has, what is wrong with it, or None."""
    fields = 0
    for line, record in records(path):
        wrong = wrong_with(record, fields) if fields else header_fault(record)
        if not wrong and fields and record[0] == "close":
            wrong = "a close, which a long list doesn't have"
        if wrong:
            raise Refused(f"{path}: line {line}: {wrong}")
        fields = fields or len(record)
        yield line, record
    if not fields:
        raise Refused(f"{path}: no header, which is {','.join(HEADER)}, with or without ,code")


def requests(path: str | pathlib.Path) -> tuple[list[str], Iterator[tuple[int, Request]]]:
    """The header of a list to split, and its requests, each with the number of its line."""
    def wrong_with(record: list[str], fields: int) -> str | None:
        wrong = faults(record, fields)
        return wrong[0].text if wrong else None
    rows = rows_of(path, wrong_with)
    _, header = next(rows)
    return header, ((line, Request.of(record)) for line, record in rows)


@dataclasses.dataclass
class Served:
    """A list that the program serves: its requests, also those after a close, each with the number of its line, and how many come
    before the first close, or None if there is no close."""

    path: pathlib.Path
    requests: list[tuple[int, Request]]
    closed: int | None


def served_list(path: pathlib.Path) -> Served:
    """A list that the program serves."""
    data = contents(path, LIST_BYTES)
    if data is None:
        raise Refused(f"{path}: not a regular file that can be read")
    read = list(as_program(data))
    if not read or header_fault(read[0].fields) or any(faults(it.fields, len(read[0].fields)) for it in read[1:]):
        raise Refused(f"{path}: has mistakes, which `rebuild-lists check {path.parent}` names")
    orders = [it.fields[0] for it in read[1:]]
    closed = orders.index("close") if "close" in orders else None
    return Served(path, [(it.line, Request.of(it.fields)) for it in read[1:] if it.fields[0] == "rebuild"], closed)
