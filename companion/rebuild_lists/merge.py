"""`rebuild-lists merge`: one report and one folder of fragments of all served folders."""

from __future__ import annotations

import argparse
import csv
import pathlib
from collections.abc import Iterator

from .files import new_folder, same_bytes
from .formats import REPORT, Refused, counted, list_name, report_name
from .lists import requests
from .progress import Progress
from .records import records
from .reports import Answer, Tally, read_report, write_sums


def folders_of(work: pathlib.Path) -> int:
    """How many folders a split made: WORK/in/0, WORK/in/1 and so on."""
    if not (work / "in").is_dir():
        raise Refused(f"{work}/in: not a folder of split lists")
    count = 0
    while (work / "in" / str(count)).is_dir():
        count += 1
    return count


def lists_of(work: pathlib.Path, number: int) -> Iterator[tuple[pathlib.Path, pathlib.Path]]:
    """The lists of a folder in the order of its racks, each with its report."""
    rack = 0
    while (work / "in" / str(number) / list_name(rack, 0)).is_file():
        yield work / "in" / str(number) / list_name(rack, 0), work / "out" / str(number) / report_name(rack)
        rack += 1


def unserved(work: pathlib.Path, count: int) -> list[int]:
    """The numbers of the folders of which a report is missing."""
    return [number for number in range(count) if not all(report.is_file() for _, report in lists_of(work, number))]


def answers(work: pathlib.Path, count: int) -> Iterator[Answer]:
    """Each answer of the served folders in the order of the list that was split."""
    for number in range(count):
        for path, report in lists_of(work, number):
            _, lines = requests(path)
            asked = [request for _, request in lines]
            found = list(read_report(report))
            if len(found) != len(asked):
                raise Refused(f"{report}: {counted(len(found), 'answer')}, and its list has {counted(len(asked), 'request')}")
            for request, answer in zip(asked, found):
                if not answer.is_to(request):
                    raise Refused(f"{report}: line {answer.number + 2}: not the answer to request {answer.number} of {path}")
                yield answer


def is_coded(work: pathlib.Path, count: int) -> bool:
    """Whether a report names the codes; then the merged one does too."""
    return any(next(records(report), (1, [""]))[1][-1] == "code"
               for number in range(count) for _, report in lists_of(work, number))


def earlier(path: pathlib.Path, answer: Answer) -> str:
    """The number of the first answer of a report that rebuilt the place of this one with another digest."""
    return next(row[0] for _, row in records(path)
                if row[1:3] == [answer.stripe, answer.target] and row[4] == "rebuilt" and row[5] != answer.digest)


def keep(answer: Answer, number: int, kept: pathlib.Path, report) -> None:
    """Copies a rebuilt fragment. One that is there already, of another request for the same place, must have the same bytes."""
    if not kept.exists():
        with open(kept, "xb") as file:
            file.writelines(answer.pieces())
        return
    answer.compare()
    if not same_bytes(kept, answer.fragment):
        report.flush()
        first = earlier(pathlib.Path(report.name), answer)
        raise Refused(f"{answer.name}: the requests {first} and {number} rebuild it with different bytes")


def merge_into(part: pathlib.Path, work: pathlib.Path, count: int) -> Tally:
    """Writes the report, the fragments and their digests into a folder, and answers how many there are of each outcome."""
    tally = Tally()
    digests: dict[str, str] = {}
    coded = is_coded(work, count)
    with open(part / "report.csv", "x", encoding="ascii", newline="") as file, Progress("answers merged") as shown:
        rows = csv.writer(file, lineterminator="\n")
        rows.writerow([*REPORT, "code"] if coded else REPORT)
        for number, answer in enumerate(answers(work, count)):
            if answer.rebuilt:
                keep(answer, number, part / answer.name, file)
                digests[answer.name] = answer.digest
            row = [number, answer.stripe, answer.target, answer.length, answer.outcome, answer.digest, answer.unread]
            rows.writerow([*row, answer.code] if coded else row)
            tally.add(answer.outcome, answer.unread)
            shown(number + 1)
    write_sums(part, digests)
    return tally


def merge(args: argparse.Namespace) -> int:
    """Merges the reports of all folders, which must have been served."""
    work = pathlib.Path(args.work)
    count = folders_of(work)
    missing = unserved(work, count)
    if missing:
        raise Refused(f"{work}/out: a report is missing of these folders: {','.join(map(str, missing))}")
    with new_folder(args.result) as part:
        tally = merge_into(part, work, count)
    print(f"merged {tally}")
    return 0
