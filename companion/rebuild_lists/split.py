"""`rebuild-lists split`: the folders of a long list."""

from __future__ import annotations

import argparse
import pathlib
import shutil
from collections.abc import Callable, Iterable, Iterator

from .files import folder_named, new_folder
from .formats import BATCHES, counted, list_name
from .lists import Request, requests
from .progress import Progress
from .records import write_records


class Split:
    """What was made of a list: the folders, the fragments that they name and that are there or not, and the bytes that the run of
    the largest one holds in memory."""

    def __init__(self) -> None:
        self.folders = self.there = self.absent = self.held = 0


def fill_folder(made: Split, folder: pathlib.Path, racks: list[list[Request]], header: list[str],
                bring: Callable[[pathlib.Path, str], bool]) -> None:
    """Makes one folder: its lists, and the surviving fragments that they name. `bring` puts a fragment of the store into the
    folder, and answers whether the store has it."""
    folder.mkdir()
    requested = [request for asked in racks for request in asked]
    for rack, asked in enumerate(racks):
        write_records(folder / list_name(rack, 0), [header] + [request.record for request in asked])
    for name in sorted({request.fragment(place) for request in requested for place in request.survivors}):
        if bring(folder, name):
            made.there += 1
        else:
            made.absent += 1
    rebuilt = sum(request.length for request in requested)
    listed = sum(request.length * len(request.survivors) for request in requested)
    made.folders += 1
    made.held = max(made.held, rebuilt + min(listed, BATCHES))


def brought_from(store: pathlib.Path, copy: bool) -> Callable[[pathlib.Path, str], bool]:
    """What brings a fragment of the store into a folder: as a copy, or as a link."""
    def bring(folder: pathlib.Path, name: str) -> bool:
        if not (store / name).is_file():
            return False
        if copy:
            shutil.copyfile(store / name, folder / name)
        else:
            (folder / name).symlink_to(store / name)
        return True
    return bring


def folders(asked: Iterable[Request], racks: int, most: int) -> Iterator[list[list[Request]]]:
    """Requests cut into folders of at most this many racks, each of at most `most` requests."""
    folder: list[list[Request]] = [[]]
    for request in asked:
        if len(folder[-1]) == most:
            if len(folder) == racks:
                yield folder
                folder = []
            folder.append([])
        folder[-1].append(request)
    if folder[-1]:
        yield folder


def counted_requests(path: str) -> int:
    """How many requests a list has, which is refused here if it has a mistake."""
    total = 0
    with Progress("lines read") as shown:
        _, lines = requests(path)
        for line, _ in lines:
            total += 1
            shown(line)
    return total


def split(args: argparse.Namespace) -> int:
    """Reads the whole list once for its mistakes, and then again to cut it, so that a bad list makes no folder."""
    bring = brought_from(folder_named(args.store).resolve(), args.copy)
    total = counted_requests(args.list)
    made = Split()
    with new_folder(args.work) as work, Progress("folders made") as shown:
        (work / "in").mkdir()
        (work / "out").mkdir()
        header, lines = requests(args.list)
        for number, racks in enumerate(folders((request for _, request in lines), args.racks, args.requests)):
            fill_folder(made, work / "in" / str(number), racks, header, bring)
            shown(made.folders)
    print(f"split {counted(total, 'request')} into {counted(made.folders, 'folder')}; "
          f"fragments that they name: {made.there} found, {made.absent} missing")
    print(f"the run of a folder holds at most {-(-made.held // 2**20)} MiB of fragments in memory")
    return 0
