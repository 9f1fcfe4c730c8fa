"""Reports beside the lists that they answer: which requests have an answer, and whether a report is whole.

The program writes reports in place, so one that is cut short may end with a line: `put` holds those of a run to their lists, and that of
`merge` to the digest beside it."""

from __future__ import annotations

import dataclasses
import pathlib

from .files import is_there
from .formats import FEEDS, Refused, counted, list_name, report_name
from .lists import Served, served_list
from .reports import read_report, reports_of


@dataclasses.dataclass
class Feed:
    """A list of a rack, and how many of its requests are answered, which are its first ones."""

    served: Served
    answered: int = 0

    @property
    def before_close(self) -> int:
        return len(self.served.requests) if self.served.closed is None else self.served.closed


def racks_of(folder: pathlib.Path) -> int:
    """How many racks a folder has lists of."""
    rack = 0
    while is_there(folder / list_name(rack, 0)):
        rack += 1
    return rack


def answered_feeds(folder: pathlib.Path, rack: int, report: pathlib.Path) -> list[Feed]:
    """The lists of a rack, each with how many of its requests a report answers. Refused if an answer is of another request."""
    feeds: list[Feed] = []
    while len(feeds) < FEEDS and is_there(folder / list_name(rack, len(feeds))):
        feeds.append(Feed(served_list(folder / list_name(rack, len(feeds)))))
    for line, answer in enumerate(read_report(report) if report.is_file() else [], 2):
        feed = feeds[answer.feed] if answer.feed < len(feeds) else None
        if feed is None or feed.answered == feed.before_close:
            raise Refused(f"{report}: line {line}: an answer to no request of {folder / list_name(rack, answer.feed)}")
        _, request = feed.served.requests[feed.answered]
        if not answer.is_to(request):
            raise Refused(f"{report}: line {line}: not the answer to request {feed.answered} of {feed.served.path}")
        feed.answered += 1
    return feeds


def hold_to_lists(out: pathlib.Path, folder: pathlib.Path) -> None:
    """Refuses the reports of a served folder that aren't those of its lists, or not all of them: the program writes them in place, so
    one of a run that was ended may end with a line. A close of one feed may leave requests of the others without an answer."""
    for report in reports_of(out)[racks_of(folder):]:
        raise Refused(f"{report}: {folder} has lists of {counted(racks_of(folder), 'rack')}: the report is of an earlier run, "
                      "or of other lists")
    for rack in range(racks_of(folder)):
        report = out / report_name(rack)
        if not report.is_file():
            raise Refused(f"{report}: missing, and {folder / list_name(rack, 0)} is there: the run has not ended, or is of other lists")
        feeds = answered_feeds(folder, rack, report)
        closed = [it for it in feeds if it.served.closed is not None]
        whole = any(it.answered == it.before_close for it in closed) if closed else all(it.answered == it.before_close for it in feeds)
        if not whole:
            least = next(it for it in closed or feeds if it.answered < it.before_close)
            raise Refused(f"{report}: {counted(least.answered, 'answer')} to {least.served.path}, which has "
                          f"{counted(least.before_close, 'request')}: the run has not ended, or is of other lists")
