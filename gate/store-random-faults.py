#!/usr/bin/env python3
"""Tries rebuild-store where the system fails, over small stores of random states: with each a command is run whole, and then some of its
calls fail, each in a run of its own, which is held to what the manual pages say of all of them.

    store-random-faults.py [PROGRAM [TEST [SEED [COUNT]]]]

laws.py has what is held, excused.py the calls whose failure may be passed over. A fault names the seed of the store, the command and the
call. With SEED that store alone is tried, or COUNT from it on; the calls that fail in it may be others then."""

import collections
import random
import sys

# No compiled copy of the modules is left beside them.
sys.dont_write_bytecode = True
import drawn_files  # noqa: E402
import drawn_words  # noqa: E402
import faults  # noqa: E402
from failed_runs import Failed, Trial  # noqa: E402
from laws_of_files import judge_of  # noqa: E402
from stores import Fault, Program, try_all  # noqa: E402

CALLS = 10


def try_store(place, seed, draw, calls, seen):
    """Draws a store and a command, and has some calls fail."""
    choose = random.Random(seed)
    (place / "trial").mkdir()
    try:
        trial = Trial(place / "trial", *draw(choose))
        judge_of(Failed(trial)).judge_whole()
        for number in trial.chosen(choose, seen, calls):
            failed = Failed(trial, number, *trial.error(choose, number))
            if failed.is_made:
                judge_of(failed).judge()
    except (Fault, faults.Fault) as fault:
        raise Fault(f"seed {seed!r}: {fault}") from None
    trial.take_away()


def try_stores(place, name, stores, calls=CALLS):
    """Tries so many stores."""
    seen = collections.Counter()
    for number in Program.seeds or range(stores):
        try_store(place, f"{name} {number}", DRAWS[name], calls, seen)


DRAWS = {name: drawn_words.spoilt(getattr(drawn_words, name)) for name in ("repair", "scrub", "lost")}
DRAWS |= {"encode": drawn_files.encode, "read": drawn_files.read, "verify": drawn_files.verify, "remove": drawn_files.remove}


def test_repair(place, _choose):
    """Repairs."""
    try_stores(place, "repair", 60)


def test_encode(place, _choose):
    """Files that are encoded."""
    try_stores(place, "encode", 50)


def test_read(place, _choose):
    """Files that are read."""
    try_stores(place, "read", 40)


def test_verify(place, _choose):
    """Files that are held to their digests."""
    try_stores(place, "verify", 30)


def test_remove(place, _choose):
    """Files that are taken out."""
    try_stores(place, "remove", 40)


def test_scrub(place, _choose):
    """Scrubs."""
    try_stores(place, "scrub", 40)


def test_lost(place, _choose):
    """What is lost, and which files there are."""
    try_stores(place, "lost", 40)


if __name__ == "__main__":
    try_all("store-random-faults", globals(), *sys.argv[1:])
