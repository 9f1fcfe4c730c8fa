#!/usr/bin/env python3
"""Stops rebuild-store in the middle, over small stores of random states: with each a command is run whole, and then is refused some of its
allocations, or killed before some of its calls, each in a run of its own.

    store-random-stops.py [PROGRAM [TEST [SEED [COUNT]]]]

A run that is refused memory says so, or does and says what the whole one does. Where a run was stopped each path has what it had before or
what it has after the whole run, but for what is unfinished, which the same command again takes away; and then there is what the whole run
leaves. A fault names the seed of the store, the command and where it was stopped. With SEED that store alone is tried, or COUNT from it
on."""

import collections
import functools
import random
import signal
import sys

# No compiled copy of the modules is left beside them.
sys.dont_write_bytecode = True
import drawn_files  # noqa: E402
import drawn_words  # noqa: E402
import refusals  # noqa: E402
import trees  # noqa: E402
from drawn import KEPT, STAGED, SUMS  # noqa: E402
from failed_runs import Trial, is_unfinished  # noqa: E402
from stores import Fault, Program, hold, try_all  # noqa: E402

NO_MEMORY = 4
LINE = "rebuild-store: out of memory"
# Lines that may be left unsaid.
NOTES = ("rebuild-store: ", "named as ")
# So many allocations are refused, and before so many calls it is killed.
ALLOCATIONS, KILLS = 10, 6
# What is written beside the store, by each run anew.
WRITTEN = ("out/report", "out/counters", "out/real")


@functools.cache
def library_in(place):
    return refusals.Library(place, forks=True)


class Ended:
    """How a run ended, in text."""

    def __init__(self, ran):
        self.status, self.allocations = ran.status, ran.allocations
        self.out, self.err = (said.decode(errors="replace") for said in (ran.out, ran.err))

    def text(self):
        return f"status {self.status}: {self.out[-300:]!r} {self.err[-600:]!r}"


def is_settled(tree):
    # Beside what is written elsewhere it stays.
    return not any(not path.startswith("out/") and (is_unfinished(path) or STAGED in path) for path in tree)


def lines_in(entry):
    return set(entry.data.splitlines()) if entry else set()


class Stopped(Trial):
    """A command over a tree that is stopped at a number of its allocations or calls."""

    def judge(self, number):
        ran, found = self.stopped(number)
        what = f"{' '.join(self.words)!r}: {self.where} {number}: {ran.text()}"
        is_stopped = self.is_stopped(ran)
        if not is_stopped:
            hold(ran.status == self.ended.status, f"another status than {self.ended.status}: {what}")
            hold(self.lines(ran) == self.lines(self.ended), f"{sorted(self.lines(self.ended) ^ self.lines(ran))}: {what}")
        for path in found.keys() | self.before.keys() | self.after.keys():
            self.judge_path(path, found, is_stopped, what)
        again, then = self.again(found)
        hold(is_settled(then) or not is_settled(self.after), f"the same command again leaves what is unfinished: {again.text()}: {what}")
        differing = [f"{path} is {then.get(path)}, not {self.after.get(path)}" for path in sorted(then.keys() | self.after.keys())
                     if self.differs(path, then)]
        hold(not differing, f"the same command again, {again.text()}: other than after one run: {differing}: {what}")

    @staticmethod
    def lines(ran):
        """What a run says, but for notes."""
        lines = ran.out.splitlines() + ran.err.splitlines()
        return {line for line in lines if not any(note in line for note in NOTES)}

    def judge_path(self, path, found, is_stopped, what):
        has = found.get(path)
        if has in ((self.before.get(path), self.after.get(path)) if is_stopped else (self.after.get(path),)):
            return
        if path in WRITTEN or path == f"store/{SUMS}" or is_stopped and path == "out/end":
            return
        is_begun = is_unfinished(path) and has and has.mode & ~0o666 == 0 or STAGED in path
        is_kept = path.endswith(KEPT) and has == self.before.get(path.removesuffix(KEPT))
        hold(is_stopped and is_begun or is_kept or self.is_right(path, has), f"{path} is {has}, and was {self.before.get(path)}: {what}")

    def is_right(self, path, has):
        """Whether what is at a path is what should be there."""
        files = [self.drawn.right, self.drawn.newest, self.drawn.begun]
        name = path.removeprefix("store/").removeprefix("to/")
        return has is not None and has.data in [right[name] for right in files if name in right]

    def differs(self, path, then):
        has, will = then.get(path), self.after.get(path)
        is_beside = path in WRITTEN or path.startswith("out/") and is_unfinished(path)
        if has == will or is_beside or self.is_right(path, has):
            return False
        if path == f"store/{SUMS}":
            # Files that a run has encoded which was killed may have no lines.
            return bool(lines_in(has) - lines_in(will))
        # Damage may be seen that wasn't, since more is read.
        return not (path.endswith(KEPT) and has == self.before.get(path.removesuffix(KEPT)))


class Refused(Stopped):
    """It is refused an allocation."""

    where = "allocation"

    def run(self, tree, number=0, how="", rest=""):
        trees.change(self.place, self.now, tree)
        refusal = refusals.Refusal(allocation=number)
        ran = library_in(self.place.parent).run(self.command, given=self.given or b"", refusal=refusal)
        self.now = trees.look(self.place)
        return Ended(ran), self.now

    def numbers(self, choose, _seen):
        """The numbers of some allocations. The first are those of the arguments, which are the same each time."""
        many = self.ended.allocations
        return sorted(choose.sample(range(many // 8, many + 1), min(ALLOCATIONS, many - many // 8)))

    def stopped(self, number):
        return self.run(self.before, number)

    @staticmethod
    def is_stopped(ran):
        return ran.status == NO_MEMORY and LINE in ran.err.splitlines()


class Killed(Stopped):
    """It is killed before a call."""

    where = "killed before call"

    def numbers(self, choose, seen):
        return self.chosen(choose, seen, KILLS)

    def stopped(self, number):
        return self.run(self.before, number, "kill")

    @staticmethod
    def is_stopped(ran):
        return ran.status == -signal.SIGKILL


def try_store(place, seed, draw, kind, seen):
    """Draws a store and a command, and has it stopped."""
    choose = random.Random(seed)
    (place / "trial").mkdir()
    trial = kind(place / "trial", *draw(choose))
    for number in trial.numbers(choose, seen):
        try:
            trial.judge(number)
        except Fault as fault:
            raise Fault(f"seed {seed!r}: {fault}") from None
    trial.take_away()


def try_stores(place, name, draw, stores):
    """Tries so many stores, each once with refused memory and once with kills."""
    seen = collections.Counter()
    for number in Program.seeds or range(stores):
        for kind in (Refused, Killed):
            try_store(place, f"{name} stopped {number}", draw, kind, seen)


def test_repair(place, _choose):
    """Repairs."""
    try_stores(place, "repair", drawn_words.spoilt(drawn_words.repair), 30)


def test_scrub(place, _choose):
    """Scrubs."""
    try_stores(place, "scrub", drawn_words.spoilt(drawn_words.scrub), 15)


def test_lost(place, _choose):
    """What is lost, and which files there are."""
    try_stores(place, "lost", drawn_words.spoilt(drawn_words.lost), 15)


def test_encode(place, _choose):
    """Files that are encoded, some in place of others."""
    try_stores(place, "encode", drawn_files.encode, 30)


def test_read(place, _choose):
    """Files that are read."""
    try_stores(place, "read", drawn_files.read, 20)


def test_verify(place, _choose):
    """Files that are verified."""
    try_stores(place, "verify", drawn_files.verify, 15)


def test_remove(place, _choose):
    """Files that are taken out."""
    try_stores(place, "remove", drawn_files.remove, 25)


if __name__ == "__main__":
    try_all("store-random-stops", globals(), *sys.argv[1:])
