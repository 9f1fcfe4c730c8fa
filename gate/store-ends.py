#!/usr/bin/env python3
"""Tries what rebuild-store leaves where it ends by itself, whatever ends it, and whether it does what it said before that it would do.

    store-ends.py [PROGRAM [TEST [SEED [COUNT]]]]

Over small stores of random states, some of which are refused, a command is run whole, with calls that fail, with refused memory, under a
limit on files, and while other files come: no lock, no unfinished file and nothing that was to replace a file is left but what couldn't be
removed, which is named (ends.py). A dry run, a scrub and a list of requests are held to what a repair of the same store then does
(plans.py). A fault names the seed of the store, the command and the call. With SEED that store alone is tried, or COUNT from it on; the
calls that fail in it may be others then."""

import collections
import functools
import os
import random
import resource
import shutil
import subprocess
import sys

# No compiled copy of the modules is left beside them.
sys.dont_write_bytecode = True
import drawn  # noqa: E402
import drawn_files  # noqa: E402
import drawn_words  # noqa: E402
import plans  # noqa: E402
import refusals  # noqa: E402
import trees  # noqa: E402
from ends import WAYS, Ends, unknown  # noqa: E402
from failed_runs import Failed, Trial, is_unfinished  # noqa: E402
from faults import Calls  # noqa: E402
from stores import SECONDS, Fault, Program, hold, source, try_all, while_waiting  # noqa: E402

# How many calls of any kind fail, before how many another file comes, how many allocations are refused, and a limit on files.
CALLS, MEANWHILE, ALLOCATIONS, LIMIT = 2, 2, 3, 300


@functools.cache
def memory_in(place):
    return refusals.Library(place, forks=True)


class Said:
    """How a run ended, in text."""

    def __init__(self, status, out, err, allocations=0):
        self.status, self.allocations = status, allocations
        self.out, self.err = (said.decode(errors="replace") for said in (out, err))

    def text(self):
        return f"status {self.status}: {self.out[-300:]!r} {self.err[-600:]!r}"


def refused(trial, number):
    """Runs a command that is refused an allocation. Gives how it ended, and what is there then."""
    trees.change(trial.place, trial.now, trial.before)
    ran = memory_in(trial.place.parent).run(trial.command, given=trial.given or b"", refusal=refusals.Refusal(allocation=number))
    trial.now = trees.look(trial.place)
    return Said(ran.status, ran.out, ran.err, ran.allocations), trial.now


def limited(trial):
    """Runs a command that may write no long file. Gives how it ended, and what is there then."""
    trees.change(trial.place, trial.now, trial.before)
    limit = functools.partial(resource.setrlimit, resource.RLIMIT_FSIZE, (LIMIT, LIMIT))
    ran = subprocess.run(trial.command, input=trial.given or b"", capture_output=True, timeout=SECONDS, preexec_fn=limit)
    trial.now = trees.look(trial.place)
    return Said(ran.returncode, ran.stdout, ran.stderr), trial.now


def spoilt(words):
    """Draws a store to which much has happened, and a command."""
    def draw(choose):
        store = drawn.spoil(choose, drawn.draw(choose))
        command = words(choose, store)
        return store, command, store.tree()

    return draw


def part(choose, store):
    """A repair of a part."""
    words = drawn_words.repair(choose, store)
    return words if "--part" in words else [words[0], "--part", choose.choice(["1/2", "2/2", "1/1"]), *words[1:]]


def given(choose):
    """Standard input that is encoded."""
    while len(found := drawn_files.encode(choose)) < 4:
        pass
    return found


DRAWS = {name: spoilt(words) for name, words in (("repair", drawn_words.repair), ("part", part), ("scrub", drawn_words.scrub))}
DRAWS |= {"given": given, "encode": drawn_files.encode, "read": drawn_files.read, "remove": drawn_files.remove}


def chosen(trial, choose, seen):
    """The numbers of some calls: one of each kind, those first between kinds that were seen least, and some more."""
    around, first = trial.around(), {}
    for number in sorted(around, key=lambda number: (seen[around[number][0], *around[number][3:6]], choose.random())):
        first.setdefault(trial.ended.kinds[number - 1], number)
    for number in first.values():
        seen[around[number][0], *around[number][3:6]] += 1
    return sorted({*first.values(), *trial.chosen(choose, seen, CALLS)})


def try_store(place, seed, draw, seen):
    """Draws a store and a command, which may be refused, and has some calls fail, and some memory refused."""
    choose = random.Random(seed)
    (place / "trial").mkdir()
    store, words, tree, *given = draw(choose)
    words, tree = choose.choice(WAYS)(choose, store, words, tree)
    trial = Trial(place / "trial", store, words, tree, *given)
    try:
        Ends(trial, trial.ended, trial.after, "the whole run").judge()
        for number in chosen(trial, choose, seen):
            failed = Failed(trial, number, *trial.error(choose, number))
            if failed.is_made:
                Ends(trial, failed.ran, failed.found, failed.text(), failed).judge()
        for number in [number for number, kind in enumerate(trial.ended.kinds, 1) if kind == "link"][:MEANWHILE]:
            Ends(trial, *trial.run(trial.before, number, "meanwhile"), f"another file came before call {number}").judge()
        Ends(trial, *limited(trial), "with a limit on the length of files").judge()
        many = refused(trial, 0)[0].allocations
        for number in sorted(choose.sample(range(many // 8, many + 1), min(ALLOCATIONS, many - many // 8))):
            Ends(trial, *refused(trial, number), f"allocation {number}").judge()
    except Fault as fault:
        raise Fault(f"seed {seed!r}: {fault}") from None
    trial.take_away()


def try_stores(place, name, stores):
    seen = collections.Counter()
    for number in Program.seeds or range(stores):
        try_store(place, f"{name} ends {number}", DRAWS[name], seen)


def try_unknown(place, name, stores):
    """The same where nothing is known of locks."""
    with unknown(place) as folder:
        try_stores(folder, name, stores)


def try_plans(place, name, stores, law):
    """Draws so many stores, and holds what is said of each to what is done."""
    for number in Program.seeds or range(stores):
        choose = random.Random(f"{name} {number}")
        (place / "trial").mkdir()
        store = plans.draw(choose)
        options = plans.options_of(choose, store)
        asked = plans.Asked(place / "trial", store, store.tree())
        try:
            law(asked, [*store.names(), *store.words], options)
        except Fault as fault:
            raise Fault(f"seed {name} {number}: {fault}") from None
        asked.take_away()


def test_plans(place, _choose):
    """Dry runs."""
    try_plans(place, "plans", 120, plans.hold_plan)


def test_requests(place, _choose):
    """Lists of what is lost."""
    try_plans(place, "requests", 60, lambda asked, words, _options: plans.hold_lost(asked, words))


def test_scrubs(place, _choose):
    """Scrubs, and repairs that replace what is damaged."""
    try_plans(place, "scrubs", 60, lambda asked, words, _options: plans.hold_scrub(asked, words))


def test_repair(place, _choose):
    """Repairs."""
    try_stores(place, "repair", 15)


def test_part(place, _choose):
    """Repairs of a part."""
    try_stores(place, "part", 20)


def test_encode(place, _choose):
    try_stores(place, "encode", 20)


def test_given(place, _choose):
    """Standard input."""
    try_stores(place, "given", 15)


def test_taken_meanwhile(place, choose):
    """A file that comes under a name while a file is encoded has it refused, and nothing is left of what was made."""
    calls, store, path = Calls(place), place / "store", source(place, "s", choose.randbytes(600))
    store.mkdir()
    words = [Program.path, "encode", store, path]
    number = calls.run(words).kinds.index("create") + 1
    for name in ("s.x0", "s.y1", "s.p1", "s.file"):
        shutil.rmtree(store)
        store.mkdir()
        status, said = while_waiting(calls, place, words, number, lambda name=name: (store / name).write_bytes(b"other"))
        hold(status == 1 and f"{name}: is there already, with other bytes" in said, f"{name}: status {status}: {said}")
        hold(os.listdir(store) == [name] or name == "s.file", f"{name}: {os.listdir(store)}: {said}")
        hold(not any(is_unfinished(path) for path in os.listdir(store)), f"{name}: {os.listdir(store)}: {said}")


def test_read(place, _choose):
    try_stores(place, "read", 15)


def test_remove(place, _choose):
    try_stores(place, "remove", 15)


def test_scrub(place, _choose):
    try_stores(place, "scrub", 10)


def test_unknown_repair(place, _choose):
    try_unknown(place, "repair", 20)


def test_unknown_part(place, _choose):
    try_unknown(place, "part", 20)


def test_unknown_encode(place, _choose):
    try_unknown(place, "encode", 20)


def test_unknown_remove(place, _choose):
    try_unknown(place, "remove", 20)


if __name__ == "__main__":
    try_all("store-ends", globals(), *sys.argv[1:])
