"""The names and limits of request lists, fragments and reports. rebuild(5) describes them."""

from __future__ import annotations

import re

HEADER = ["order", "stripe", "target", "length", "survivors"]
CODED_HEADER = HEADER + ["code"]
HEADERS = (HEADER, CODED_HEADER)
REPORT = ["number", "stripe", "target", "length", "outcome", "digest", "unread"]
FED_REPORT = REPORT[:1] + ["feed"] + REPORT[1:]
OUTCOMES = ["rebuilt", "contradiction", "several"]
NARROW = "6-2-2"
WIDE = "12-2-2"
PARITIES = ["px", "py", "p0", "p1"]
PLACES = {
    NARROW: ["x0", "x1", "x2", "y0", "y1", "y2"] + PARITIES,
    WIDE: ["x0", "x1", "x2", "x3", "x4", "x5", "y0", "y1", "y2", "y3", "y4", "y5"] + PARITIES,
}
# The limits of a folder, a rack, a list (its requests and its bytes), a fragment, a stripe's name and the program's threads.
RACKS = 16
FEEDS = 4
REQUESTS = 4096
LIST_BYTES = 1048576
LONGEST = 65536
NAME = 32
WORKERS = 16
# A run holds the survivors of two batches of requests at once, which list this many bytes together.
BATCHES = 2 * 16 * 2**20

STRIPE_NAME = re.compile(f"[a-z0-9-]{{1,{NAME}}}")
LIST_NAME = re.compile(r"rack(0|[1-9][0-9]*)(?:\.feed([1-9][0-9]*))?\.csv")


def list_name(rack: int, feed: int) -> str:
    return f"rack{rack}.feed{feed}.csv" if feed else f"rack{rack}.csv"


def report_name(rack: int) -> str:
    return f"rack{rack}.report.csv"


def counted(number: int, noun: str) -> str:
    """A number with its noun, in the plural if it isn't one."""
    return f"{number} {noun}" if number == 1 else f"{number} {noun}s"


class Refused(Exception):
    """What is wrong with a list, a folder or a report, in words."""


class Failed(Exception):
    """What a device didn't do, in words."""
