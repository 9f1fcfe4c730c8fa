"""`rebuild-lists tell`: what came of a run."""

from __future__ import annotations

import argparse
import collections
import os
import pathlib

from .answered import answered_feeds, racks_of
from .files import folder_named
from .formats import Refused, counted, report_name
from .progress import Progress
from .reports import SERVED_FRAGMENT, Tally, read_report, reports_of


def tell(args: argparse.Namespace) -> int:
    """Counts the outcomes of all reports, and names each request that wasn't rebuilt or had a survivor left out. The status says
    whether all were rebuilt."""
    if args.lists and len(args.outs) != 1:
        raise Refused("--lists takes a single OUT, the one that the folder was served into")
    tally = Tally()
    unended = 0
    with Progress("answers read") as shown:
        for name in args.outs:
            unended += tell_folder(tally, folder_named(name), shown)
    missing = tell_unanswered(folder_named(args.lists), pathlib.Path(args.outs[0])) if args.lists else 0
    print(f"{tally}; {counted(missing, 'request')} without an answer" if args.lists else tally)
    return 1 if unended or missing or tally.not_rebuilt else 0


def tell_folder(tally: Tally, out: pathlib.Path, shown: Progress) -> int:
    """Counts the outcomes of a served folder, and answers of how many racks it has fragments and no report."""
    fragments = set()
    reports = reports_of(out)
    for report in reports:
        for answer in read_report(report):
            tally.add(answer.outcome, answer.unread)
            shown(tally.answers)
            if answer.rebuilt:
                fragments.add(answer.fragment.name)
            left = f"; left out: {answer.unread}" if answer.unread else ""
            if left or not answer.rebuilt:
                print(f"{report}: request {answer.number}: {answer.name}: {answer.outcome}{left}")
    return tell_left(out, fragments, {report.name for report in reports})


def tell_left(out: pathlib.Path, fragments: set[str], reports: set[str]) -> int:
    """Names rebuilt fragments that no report names, since an earlier run left them or one that has not ended."""
    unended: collections.Counter[int] = collections.Counter()
    for name in sorted(entry.name for entry in os.scandir(out)):
        found = SERVED_FRAGMENT.match(name)
        if found and report_name(int(found[1])) not in reports:
            unended[int(found[1])] += 1
        elif found and name not in fragments:
            print(f"{out / name}: of an earlier run: no report says that it is rebuilt")
    for rack, count in sorted(unended.items()):
        print(f"{out}: {counted(count, 'fragment')} of rack {rack} and no report of it: the run that wrote them has not ended")
    return len(unended)


def tell_unanswered(folder: pathlib.Path, out: pathlib.Path) -> int:
    """Names the requests of a folder's lists that have no answer, and counts them. Of each feed the first requests are answered."""
    count = 0
    for rack in range(racks_of(folder)):
        for feed in answered_feeds(folder, rack, out / report_name(rack)):
            for line, request in feed.served.requests[feed.answered:]:
                print(f"{feed.served.path}: line {line}: {request.name}: no answer")
                count += 1
    return count
