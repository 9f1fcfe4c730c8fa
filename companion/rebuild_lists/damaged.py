"""`rebuild-lists damaged`: the survivor without which a contradiction is rebuilt."""

from __future__ import annotations

import argparse
import pathlib
import tempfile

from .files import folder_named, why_left_out
from .formats import CODED_HEADER, Refused, counted, list_name, report_name
from .lists import Request, served_list
from .merge import folders_of, lists_of
from .program import farm, status_of
from .records import write_records
from .reports import read_report


def damaged(args: argparse.Namespace) -> int:
    """Runs the program on a request without each of its survivors in turn, and names the one without which it is rebuilt."""
    if len(args.numbers) == 1 and args.feed:
        args.wrong("--feed comes with a RACK and a NUMBER")
    folder, request = merged_request(args) if len(args.numbers) == 1 else listed_request(args)
    read = [place for place in request.survivors if not why_left_out(folder / request.fragment(place), request.length)]
    found, *without = outcomes_without(folder, request, read, args.program)
    name = request.name
    if found != "contradiction":
        raise Refused(f"{name}: the answer is {found}, so nothing shows that a survivor is damaged")
    suspects = [request.fragment(place) for place, outcome in zip(read, without) if outcome != "contradiction"]
    if not suspects:
        raise Refused(f"{name}: a contradiction without each single survivor too: several are damaged, "
                      "or the stripe, the length or the code is wrong")
    if len(suspects) > 1 or "several" in without:
        raise Refused(f"{name}: these can't be told apart, since the answer isn't a contradiction without any one of them: "
                      + " ".join(suspects))
    print(f"{suspects[0]}: {name} is rebuilt without it, and is a contradiction without any other")
    return 0


def listed_request(args: argparse.Namespace) -> tuple[pathlib.Path, Request]:
    """The request with a number of a list, and the folder of its survivors."""
    folder = folder_named(args.folder)
    rack, number = args.numbers
    path = folder / list_name(rack, args.feed)
    asked = served_list(path).requests
    if number >= len(asked):
        raise Refused(f"{path}: has no request {number}: it has {counted(len(asked), 'request')}, counted from 0")
    return folder, asked[number][1]


def merged_request(args: argparse.Namespace) -> tuple[pathlib.Path, Request]:
    """The request with a number of the report that merge makes, over all folders that split made, and the folder of its survivors."""
    work = pathlib.Path(args.folder)
    number = args.numbers[0]
    before = 0
    for folder in range(folders_of(work)):
        for path, _ in lists_of(work, folder):
            asked = served_list(path).requests
            if number < before + len(asked):
                return path.parent, asked[number - before][1]
            before += len(asked)
    raise Refused(f"{work}: has no request {number}: its lists have {counted(before, 'request')}, counted from 0")


def outcomes_without(folder: pathlib.Path, request: Request, read: list[str], program: str) -> list[str]:
    """The outcome of a request with all its survivors that can be read, and then without each of them."""
    kept = [read] + [[place for place in read if place != left] for left in read]
    with tempfile.TemporaryDirectory() as scratch:
        given, out = pathlib.Path(scratch, "in"), pathlib.Path(scratch, "out")
        given.mkdir()
        out.mkdir()
        for place in read:
            name = request.fragment(place)
            (given / name).symlink_to((folder / name).resolve())
        rows = [[*request.record[:4], " ".join(places), request.code] for places in kept]
        write_records(given / list_name(0, 0), [CODED_HEADER] + rows)
        ended = farm(program, given, out)
        if ended.returncode:
            raise Refused(f"{program}: ended with status {status_of(ended)}: {ended.stderr.strip()}")
        return [answer.outcome for answer in read_report(out / report_name(0))]
