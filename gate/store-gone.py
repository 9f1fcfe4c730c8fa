#!/usr/bin/env python3
"""Tries rebuild-store over small stores of random states, of which a file goes after a command has listed it: as it opens the file for the
first time, and from then on, the system answers that nothing is there.

    store-gone.py [PROGRAM [TEST [SEED [COUNT]]]]

What a run says of such a store is held to what it says of one in which the file never was. A fault names the seed of the store, the command
and the call. With SEED that store alone is tried, or COUNT from it on."""

import errno
import os
import random
import re
import sys

# No compiled copy of the modules is left beside them.
sys.dont_write_bytecode = True
import drawn_files  # noqa: E402
import drawn_words  # noqa: E402
import faults  # noqa: E402
from failed_runs import Failed, Trial  # noqa: E402
from stores import Fault, Program, hold, try_all  # noqa: E402

# The end of a name that a run gives what it hasn't finished.
UNFINISHED = re.compile(r"[0-9a-f]{16}$")


def named_by(lines, path):
    """The lines that begin with the name of a path, below its store or whole."""
    return [line for line in lines if re.match(rf"(rebuild-store: )?(\S*/)?{re.escape(os.path.basename(path))}\b", line)]


class Gone:
    """A run in which a file goes before a call that opens it."""

    def __init__(self, trial, number):
        self.failed = Failed(trial, number, errno.ENOENT, "path")
        self.trial, self.path = trial, self.failed.paths[0]
        self.entry = trial.before.get(self.path)
        self.is_of_file = self.failed.is_made and self.entry is not None and self.entry.kind == "file" and self.path.startswith("store/")

    def judge(self):
        without, after = self.trial.run({path: entry for path, entry in self.trial.before.items() if path != self.path})
        ran, shown = self.failed.ran, f"{self.failed.text()}; without it: {without.text()}"
        hold(ran.status in (0, 1, 2, 3), f"the status: {shown}")
        hold(ran.status != 0 or without.status == 0, f"nothing is said of what went: {shown}")
        if named_by((without.out + without.err).splitlines(), self.path):
            hold(named_by(self.failed.lines, self.path), f"what went isn't named: {shown}")
        self.hold_bytes(after, shown)

    def hold_bytes(self, after, shown):
        """Each file is what it was, or what the whole run or one without the file that went makes of it."""
        for path, entry in self.trial.before.items():
            if path.startswith("store/") and entry.kind == "file" and not UNFINISHED.search(path):
                found, others = self.failed.found.get(path), (entry, self.trial.after.get(path), after.get(path))
                hold(found in others, f"{path} is {found}: {shown}")


def try_stores(place, name, draw, stores):
    """Tries so many stores with a command."""
    for number in Program.seeds or range(stores):
        choose = random.Random(f"{name} {number}")
        (place / "trial").mkdir()
        try:
            trial = Trial(place / "trial", *draw(choose))
            opened = set()
            for call, kind in enumerate(trial.ended.kinds, 1):
                if kind == "open" and (gone := Gone(trial, call)).is_of_file and gone.path not in opened:
                    opened.add(gone.path)
                    gone.judge()
        except (Fault, faults.Fault) as fault:
            raise Fault(f"seed {number!r} of {name}: {fault}") from None
        trial.take_away()


def test_scrub(place, _choose):
    """Scrubs."""
    try_stores(place, "scrub", drawn_words.spoilt(drawn_words.scrub), 20)


def test_repair(place, _choose):
    """Repairs."""
    try_stores(place, "repair", drawn_words.spoilt(drawn_words.repair), 12)


def test_lost(place, _choose):
    """What is lost, and which files there are."""
    try_stores(place, "lost", drawn_words.spoilt(drawn_words.lost), 30)


def test_verify(place, _choose):
    """Files that are held to their digests."""
    try_stores(place, "verify", drawn_files.verify, 30)


def test_read(place, _choose):
    """Files that are read."""
    try_stores(place, "read", drawn_files.read, 30)


if __name__ == "__main__":
    try_all("store-gone", globals(), *sys.argv[1:])
