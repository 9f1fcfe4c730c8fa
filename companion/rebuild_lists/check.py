"""`rebuild-lists check`: what is wrong with the lists of a folder, before it is served."""

from __future__ import annotations

import argparse
import dataclasses
import os
import pathlib
import re

from .files import contents, folder_named, is_there, why_left_out, why_unreadable
from .formats import FEEDS, LIST_BYTES, LIST_NAME, PLACES, RACKS, REQUESTS, WIDE, counted, list_name
from .lists import Request, faults, header_fault, stripe_fault
from .progress import Progress
from .records import Record, as_program


# What helps if a list is too long.
LONG = "; `rebuild-lists split` makes folders of a long list"


@dataclasses.dataclass
class Checked:
    """What was found in a folder. Mistakes are what `rebuild farm` refuses, and notes what it leaves out."""

    folder: pathlib.Path
    shown: Progress
    racks: int = 0
    lists: int = 0
    requests: int = 0
    mistakes: int = 0
    notes: int = 0

    def mistake(self, text: str) -> None:
        self.mistakes += 1
        print(f"mistake: {text}")

    def note(self, text: str) -> None:
        self.notes += 1
        print(f"note: {text}")

    def __str__(self) -> str:
        read = f"{counted(self.racks, 'rack')}, {counted(self.lists, 'list')}, {counted(self.requests, 'request')}"
        found = counted(self.mistakes, "mistake") if self.mistakes else "good"
        return f"{self.folder}: {found}: {read}; {counted(self.notes, 'note')}"


def check_list(found: Checked, name: str) -> bool:
    """Checks a list, and answers whether it has a close."""
    found.lists += 1
    why = why_unreadable(found.folder / name)
    data = None if why else contents(found.folder / name, LIST_BYTES + 1)
    if data is None:
        found.mistake(f"{name}: E24: {why or 'cannot be read'}")
        return False
    if len(data) > LIST_BYTES:
        found.mistake(f"{name}: E25: has {os.stat(found.folder / name).st_size} bytes, and a list at most {LIST_BYTES}{LONG}")
        return False
    read = list(as_program(data)) or [Record(1, [])]
    header = read.pop(0)
    wrong = header_fault(header.fields)
    if wrong:
        found.mistake(f"{name}: line {header.line}: E19: {wrong}")
        return False
    return check_records(found, name, read, len(header.fields))


def check_records(found: Checked, name: str, read: list[Record], fields: int) -> bool:
    """Checks the records of a list after its header, which has this many fields, and answers whether it has a close."""
    is_closed, cut_off = False, 0
    for number, record in enumerate(read, 1):
        where = f"{name}: line {record.line}, record {number}"
        if number == REQUESTS + 1:
            found.mistake(f"{where}: E26: a list has at most {REQUESTS} records, and this one has {len(read)}{LONG}")
        wrong = faults(record.fields, fields)
        for fault in wrong:
            found.mistake(f"{where}: {fault.number}: {fault.text}")
        if record.unclosed:
            found.note(f"{where}: a quote is opened and not closed, so the field goes on to the end of the list")
        if wrong:
            continue
        if record.fields[0] == "close":
            is_closed = True
        elif is_closed:
            cut_off += 1
        else:
            check_survivors(found, where, Request.of(record.fields))
    if cut_off:
        found.note(f"{name}: {counted(cut_off, 'request')} after the first close, not answered")
    return is_closed


def check_survivors(found: Checked, where: str, request: Request) -> None:
    """Notes the survivors of a request that the program leaves out."""
    found.requests += 1
    found.shown(found.requests)
    for name in map(request.fragment, request.survivors):
        why = why_left_out(found.folder / name, request.length)
        if why:
            found.note(f"{where}: the survivor {name} {why}, and is left out")


def check_rack(found: Checked, rack: int) -> set[str]:
    """Checks the lists of a rack, and answers their names."""
    names: list[str] = []
    closed: list[str] = []
    while len(names) < FEEDS and is_there(found.folder / list_name(rack, len(names))):
        names.append(list_name(rack, len(names)))
        if check_list(found, names[-1]):
            closed.append(names[-1])
    if len(names) > 1 and closed:
        found.note(f"{names[0]}: the rack ends with the close of {closed[0]}, so requests of its other feeds may have no answer")
    if len(names) == FEEDS and is_there(found.folder / list_name(rack, FEEDS)):
        names.append(list_name(rack, FEEDS))
        found.mistake(f"{names[-1]}: E28: a rack has at most {FEEDS} feeds, the last of them {list_name(rack, FEEDS - 1)}")
    return set(names)


def check_names(found: Checked, read: set[str]) -> None:
    """Notes the files that look like lists or fragments, and which the program doesn't read; of fragments without any list how many."""
    unlisted = 0
    for name in sorted(entry.name for entry in os.scandir(found.folder)):
        stripe, _, place = name.rpartition(".")
        numbers = LIST_NAME.fullmatch(name)
        if name in read:
            continue
        if numbers and not is_there(found.folder / name):
            found.note(f"{name!r}: is a link to nothing, which is read as if it weren't there")
        elif numbers:
            found.note(f"{name!r}: isn't read, since {why_unread(found.folder, int(numbers[1]), int(numbers[2] or 0))}")
        elif re.fullmatch(r"rack.*\.csv", name, re.IGNORECASE | re.DOTALL):
            found.note(f"{name!r}: isn't read: lists have names such as rack0.csv and rack0.feed1.csv")
        elif place in PLACES[WIDE] and not found.racks:
            unlisted += 1
        elif place in PLACES[WIDE] and stripe_fault(stripe):
            found.note(f"{name!r}: no list can name it: {stripe_fault(stripe)}")
    if unlisted:
        found.note(f"{counted(unlisted, 'fragment')} and no list: `rebuild-store lost` makes one, and `rebuild-store scrub` needs none")


def why_unread(folder: pathlib.Path, rack: int, feed: int) -> str:
    """Why a list with these numbers isn't read: one that comes before it isn't there, or there are too many."""
    for earlier in range(min(rack, RACKS) + 1):
        if not is_there(folder / list_name(earlier, 0)):
            return f"{list_name(earlier, 0)} isn't there"
    for earlier in range(1, min(feed, FEEDS + 1)):
        if not is_there(folder / list_name(rack, earlier)):
            return f"{list_name(rack, earlier)} isn't there"
    return f"a folder has at most {RACKS} racks, and a rack {FEEDS} feeds"


def check_out(found: Checked, out: pathlib.Path) -> None:
    """Checks the folder that the program is to write to, of which a run says only at its end that something is wrong."""
    if not is_there(out):
        found.mistake(f"{out}: E24: isn't there")
    elif not out.is_dir():
        found.mistake(f"{out}: E24: is no folder")
    elif not os.access(out, os.R_OK | os.W_OK | os.X_OK):
        found.mistake(f"{out}: E24: can't be written to")
    elif any(os.scandir(out)):
        found.note(f"{out}: isn't empty: what an earlier run left there stays")


def check(args: argparse.Namespace) -> int:
    """Checks the lists of a folder, in the order in which the program reads them, and the folder that it is to write to."""
    read: set[str] = set()
    with Progress("requests checked") as shown:
        found = Checked(folder_named(args.folder), shown)
        while found.racks < RACKS and is_there(found.folder / list_name(found.racks, 0)):
            read |= check_rack(found, found.racks)
            found.racks += 1
    if not found.racks:
        found.mistake("rack0.csv: E23: isn't there")
    if found.racks == RACKS and is_there(found.folder / list_name(RACKS, 0)):
        read.add(list_name(RACKS, 0))
        found.mistake(f"{list_name(RACKS, 0)}: E18: a folder has at most {RACKS} racks, the last of them {list_name(RACKS - 1, 0)}")
    check_names(found, read)
    if args.out:
        check_out(found, pathlib.Path(args.out))
    print(found)
    return 1 if found.mistakes else 0
