#!/usr/bin/env python3
"""Tries which fragments rebuild-store takes for damaged: pairs of fragments that are exchanged, changed or torn between two states of a
stripe, and fragments of other lengths, with none, one or two others lost. What it leaves is held to what was there and to the stripe: no
fragment may have got other bytes than the stripe's, unless a row says that no check covers it, and none that was right may be replaced.

    store-damage.py [PROGRAM]

The stripes are those of an independent encoder; nothing is taken from the program's own output."""

import csv
import itertools
import os
import pathlib
import random
import subprocess
import sys
import tempfile

# No compiled copy of the modules is left beside them.
sys.dont_write_bytecode = True
ROOT = pathlib.Path(__file__).resolve().parent.parent
sys.path.append(str(ROOT / "tools"))
import faults  # noqa: E402
import found  # noqa: E402
from reference import CODES, product  # noqa: E402
from store import combined, stripe  # noqa: E402

PROGRAM = ROOT / "crates/rebuild_store/out/rebuild_store"
LENGTH = 24
# Of all sets of fragments so many are tried where there are more.
MOST = 1_500
SECONDS = 300
passed = 0


def hold(holds, what):
    """Counts what holds, and ends with what doesn't."""
    global passed
    if not holds:
        sys.exit(f"store-damage: {what}")
    passed += 1


class Trial:
    """A stripe with some fragments lost and others wrong: the bytes that are there by their places, and the states of the stripe that are
    right."""

    def __init__(self, code, name, there, states):
        self.code, self.name, self.there, self.states = code, name, there, states
        self.right = {place: {state[place] for state in states} for place in states[0]}


def some(sets, choose):
    """All of some sets, or as many as are tried."""
    sets = list(sets)
    return sets if len(sets) <= MOST else choose.sample(sets, MOST)


def losses(places, wrong, many):
    """The sets of lost fragments of this many beside the wrong ones."""
    return itertools.combinations([place for place in places if place not in wrong], many)


def exchanged(code, many, choose):
    """Two fragments have each other's bytes."""
    places = list(stripe(code, 0, choose))
    sets = [(pair, lost) for pair in itertools.combinations(places, 2) for lost in losses(places, pair, many)]
    for (a, b), lost in some(sets, choose):
        right = stripe(code, LENGTH, choose)
        there = {**right, a: right[b], b: right[a]}
        yield f"exchanged-{a}-{b}", there, [right], lost


def changed(code, many, choose):
    """Two fragments have other bytes at some positions, the same ones or others."""
    places = list(stripe(code, 0, choose))
    sets = [(pair, lost) for pair in itertools.combinations(places, 2) for lost in losses(places, pair, many)]
    for (a, b), lost in some(sets, choose):
        right = stripe(code, LENGTH, choose)
        there = dict(right)
        at = choose.randrange(LENGTH)
        for place in (a, b):
            wrong = bytearray(right[place])
            wrong[at if choose.random() < 0.7 else choose.randrange(LENGTH)] ^= choose.randrange(1, 256)
            there[place] = bytes(wrong)
        yield f"changed-{a}-{b}", there, [right], lost


def updated(code, old, place, data):
    """The stripe after a data fragment got these bytes."""
    names, first = CODES[code]
    parts = [data if name == place else old[name] for name in names]
    rows = [[int(p[0] == "x") for p in names], [int(p[0] == "y") for p in names], first, [product(c, c) for c in first]]
    parities = dict(zip(["px", "py", "p0", "p1"], [combined(row, parts, LENGTH) for row in rows]))
    return {**dict(zip(names, parts)), **parities}


def torn(code, many, choose):
    """A data fragment was written, and not all of its parities: of what was to change a part is new. What is right is either state."""
    names, _ = CODES[code]
    sets = []
    for place in names:
        changing = [place, "px" if place[0] == "x" else "py", "p0", "p1"]
        for size in (1, 2, 3):
            for new in itertools.combinations(changing, size):
                sets += [(place, new, lost) for lost in losses(list(stripe(code, 0, choose)), (), many)]
    for place, new, lost in some(sets, choose):
        old = stripe(code, LENGTH, choose)
        after = updated(code, old, place, choose.randbytes(LENGTH))
        there = {name: after[name] if name in new else old[name] for name in old}
        yield f"torn-{'-'.join(new)}", there, [old, after], lost


def cut(code, many, choose):
    """Some fragments, up to all but three, are cut short or empty."""
    places = list(stripe(code, 0, choose))
    for size in range(1, len(places) - 2):
        for length in (0, 5):
            for _ in range(12):
                short = choose.sample(places, size)
                right = stripe(code, LENGTH, choose)
                there = {place: data[:length] if place in short else data for place, data in right.items()}
                lost = choose.sample(places, many)
                yield f"cut-{size}-{length}", there, [right], lost


def lay(folder, code, kind, many, choose):
    """Makes a store of trials, each a stripe of its own, and of a sound stripe, by which the program sees that it is of the code."""
    folder.mkdir()
    faults.lay(folder, {f"a-sound-one.{place}": data for place, data in stripe(code, LENGTH, choose).items()})
    trials = []
    for number, (name, there, states, lost) in enumerate(kind(code, many, choose)):
        kept = {place: data for place, data in there.items() if place not in lost}
        trials.append(Trial(code, f"{name}-without-{'-'.join(lost)}-{number}", kept, states))
        faults.lay(folder, {f"{trials[-1].name}.{place}": data for place, data in kept.items()})
    return trials


def repair(folder, code, report, *options):
    """Repairs the store, and gives the rows of its report by stripe and place."""
    ended = subprocess.run([PROGRAM, "repair", folder, "--code", code, "--report", report, *options], stdin=subprocess.DEVNULL,
                           capture_output=True, text=True, timeout=SECONDS)
    hold(ended.returncode in (0, 1), f"status {ended.returncode}: {ended.stderr[-500:]}")
    with open(report, newline="") as file:
        rows = list(csv.DictReader(file))
    return {(row["stripe"], row["place"]): row for row in rows}


def judge(folder, trials, rows):
    """Holds what a repair left: each fragment is as it was or one of the right ones, or a row says that it is unchecked, and it was not
    replaced if it was right."""
    files = found.Found(folder).files
    for trial in trials:
        for place, right in trial.right.items():
            name = f"{trial.name}.{place}"
            now, before = files.get(name), trial.there.get(place)
            if now == before:
                continue
            row = rows.get((trial.name, place), {"outcome": "", "detail": ""})
            is_guess = row["outcome"] == "rebuilt" and row["detail"] == "unchecked"
            hold(now is not None, f"{name} is gone")
            hold(is_guess or now in right, f"{name} got bytes that aren't the stripe's, and no row says that they are unchecked")
            # Of a torn stripe either state may be restored.
            may_be_replaced = not is_guess and (before not in right or len(trial.states) > 1)
            hold(before is None or may_be_replaced, f"{name} was replaced, though it was right or by a guess")
            hold(before is None or files.get(f"{name}.damaged") == before, f"{name} was replaced and isn't kept")


def main(program):
    global PROGRAM
    PROGRAM = pathlib.Path(program or PROGRAM).resolve()
    choose = random.Random(2026)
    shared = pathlib.Path("/dev/shm")
    place = shared if shared.is_dir() and os.access(shared, os.W_OK) else None
    for code, kind, many in itertools.product(CODES, (exchanged, changed, torn, cut), (0, 1, 2)):
        for options in ((), ("--reads", "all"), ("--replace-damaged",)):
            with tempfile.TemporaryDirectory(dir=place) as scratch:
                folder = pathlib.Path(scratch) / "store"
                trials = lay(folder, code, kind, many, choose)
                judge(folder, trials, repair(folder, code, pathlib.Path(scratch) / "report.csv", *options))
    print(f"store-damage: {passed} passed, 0 failed")


if __name__ == "__main__":
    main(*sys.argv[1:2] or [None])
