"""Runs of a command over a drawn store: one whole, and others one of whose calls fails. Before each the store is laid anew, and after it
what is there is looked at."""

import errno
import functools
import os
import re

import trees
from drawn import UNFINISHED
from faults import CHANGING, LATER, Calls
from stores import Program

# Which errors calls answer that change something, and which others.
CHANGES = {
    "create": (errno.EIO, errno.ENOSPC, errno.EACCES), "write": (errno.EIO, errno.ENOSPC), "sync": (errno.EIO, errno.ENOSPC),
    "link": (errno.EIO, errno.ENOSPC, errno.EPERM), "rename": (errno.EIO, errno.EACCES), "unlink": (errno.EIO, errno.EACCES),
    "chmod": (errno.EIO, errno.EPERM), "chown": (errno.EIO, errno.EPERM), "mkdir": (errno.EIO, errno.ENOSPC, errno.EACCES),
    "output": (errno.EIO, errno.ENOSPC), "rmdir": (errno.EIO, errno.EACCES),
}
LOOKS = (errno.EIO, errno.EIO, errno.EACCES)
# Kinds of calls after each of which a command does something else.
STAGES = {"list", "lock", "create", "link", "rename", "unlink", "rmdir"}
RANDOM = re.compile(r"[0-9a-f]{16}$")


def is_unfinished(path):
    return os.path.basename(path).startswith(UNFINISHED)


@functools.cache
def calls_in(place):
    """The library that fails calls, but not those that read what the system shows of itself, which are others on each machine."""
    return Calls(place, forks=True, but="/proc/")


class Trial:
    """A command, its words, in which PLACE is the folder that has the store, and what is in that folder before."""

    def __init__(self, place, drawn, words, tree, given=None, mounts=""):
        self.place, self.drawn, self.given, self.mounts = place, drawn, given, mounts
        self.command = [Program.path, *(word.replace("PLACE", str(place)) for word in words)]
        self.words, self.before, self.now = words, tree, {}
        self.calls = calls_in(place.parent)
        self.ended, self.after = self.run(tree)
        self.known = {}

    def run(self, tree, number=0, how="", rest="", second=None):
        """Runs the command over a tree. Gives how it ended, and what is there then."""
        trees.change(self.place, self.now, tree)
        ended = self.calls.run(self.command, number, how, rest, given=self.given, second=second, mounts=self.mounts)
        self.now = trees.look(self.place)
        return ended, self.now

    def take_away(self):
        trees.change(self.place, self.now, {})
        self.place.rmdir()

    def again(self, tree):
        """The same over what a run left, once for each such tree: unfinished files have other names in each."""
        there = [(RANDOM.sub("", path) if is_unfinished(path) else path, entry) for path, entry in tree.items()]
        key = hash(frozenset(item for item in there if item[0] not in ("out/report", "out/counters", "out/real")))
        if key not in self.known:
            self.known[key] = self.run(tree)
        return self.known[key]

    def below(self, path):
        """A path below the folder, or the whole one of what is elsewhere."""
        return os.path.normpath(path).removeprefix(f"{self.place}/") if path else ""

    def around(self):
        """What is around each call, by its number: the kinds of the calls just before and after, and which of some were before it."""
        kinds, before, around = ["", "", *self.ended.kinds, "", ""], frozenset(), {}
        for number in range(1, len(kinds) - 3):
            around[number] = (self.words[0], before, *kinds[number - 1:number + 4])
            before |= {kinds[number + 1]} & STAGES
        return around

    def chosen(self, choose, seen, most):
        """The numbers of some calls, first those with calls around them of kinds that were seen least."""
        around = self.around()
        numbers = sorted(around, key=lambda number: (seen[around[number]], choose.random()))
        chosen = []
        for number in numbers:
            if len(chosen) < most and around[number] not in [around[other] for other in chosen]:
                chosen.append(number)
                seen[around[number]] += 1
        return chosen

    def error(self, choose, number):
        """An error for a call, and whether later ones fail too."""
        kind = self.ended.kinds[number - 1]
        rest = choose.choice(["", "", "", "path", "kind"] if kind in CHANGING | {"rmdir"} else ["", "", "path"])
        return choose.choice(CHANGES.get(kind, LOOKS)), rest


class Failed:
    """A run one of whose calls failed; of number 0 the whole run, in which none did."""

    def __init__(self, trial, number=0, how=0, rest=""):
        self.trial, self.number, self.how, self.rest = trial, number, how, rest
        self.ran, self.found = trial.run(trial.before, number, how, rest) if number else (trial.ended, trial.after)
        # The order of names in a folder may be another than it was in the whole run.
        self.is_made = self.ran.failed > 0
        # Paths begin with a slash, and names may have ends of lines.
        paths = re.split("\n(?=/)", "\n".join(self.ran.paths))
        self.kind, self.paths = self.ran.kind, [trial.below(path) for path in paths]
        self.error = os.strerror(how)
        self.lines = self.ran.out.splitlines() + self.ran.err.splitlines()
        self.said = [line for line in self.lines if self.error in line]

    def differing(self):
        """The paths at which something else is than after the whole run."""
        return {path for path in self.found.keys() | self.trial.after.keys() if self.found.get(path) != self.trial.after.get(path)}

    def text(self):
        shown = f"call {self.number}, {self.kind} of {' and '.join(self.paths)}, {errno.errorcode.get(self.how)}{LATER[self.rest]}"
        return f"{' '.join(self.trial.words)!r}: {shown if self.number else 'the whole run'}: {self.ran.text()}"
