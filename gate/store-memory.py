#!/usr/bin/env python3
"""Refuses each allocation in turn of commands of rebuild-store over a store in which much is to be said: a run says that it is out of
memory, with the status of that, or it says all that it says without a refusal. So no failure to take memory is passed over.

    store-memory.py [PROGRAM [TEST]]"""

import shutil
import sys

# No compiled copy of the modules is left beside them.
sys.dont_write_bytecode = True
import refusals  # noqa: E402
import stores  # noqa: E402
from stores import Program, hold, lay, run  # noqa: E402

NAMES = ["--names", "disk{shard}/{stripe}"]
CODED = [*NAMES, "--code", "6-2-2"]
NO_MEMORY = 4
# The words of the system for memory that it doesn't have, by which a run may say it too.
WORDS = (b"out of memory", b"Cannot allocate memory")


def odd_store(place, choose):
    """A store of disks in which most of what can be said is to be said: of encoded files, of other stripes, and of what is neither."""
    store = place / "odd"
    for name, length in (("a", 700), ("b", 130)):
        (place / name).write_bytes(choose.randbytes(length))
        run("encode", "--make-folders", *CODED, store, place / name, status=0)
    for name in ("wrong\1", "long", "links", "few"):
        lay(store, choose, (name,), 90, "disk{shard}/{stripe}")
    # Lost fragments, and descriptions that are lost, differ or are no files.
    for name in ("disk3/a", "disk1/a.file", "disk8/b", *(f"disk{number}/few" for number in range(5))):
        (store / name).unlink()
    (store / "disk2/a.file").write_bytes(b"no description\n")
    make_loop(store / "disk4/b.file")
    # A fragment that is damaged, those of other lengths, what can't be looked at, a folder, and what a run has left.
    (store / "disk0/wrong\1").write_bytes(choose.randbytes(90))
    for number in (0, 5, 6):
        (store / f"disk{number}/long").write_bytes(choose.randbytes(91))
    make_loop(store / "disk2/links")
    (store / "disk6/links").unlink()
    (store / "disk6/links").mkdir()
    (store / "disk7/.rebuild-store-0123456789abcdef").write_bytes(b"half")
    make_loop(store / "disk9")
    return store


def make_loop(path):
    """Has a link that leads to itself in the place of what is there."""
    shutil.rmtree(path) if path.is_dir() else path.unlink()
    path.symlink_to(path.name)


class Refused:
    """A command over a store, in which it writes nothing."""

    def __init__(self, place, store, *words):
        self.library, self.words = refusals.Library(place, forks=True), [*words, *CODED, store]

    def __call__(self, number):
        return self.library.run([Program.path, *self.words], refusal=refusals.Refusal(allocation=number))

    def try_all(self, status):
        """Refuses each allocation of its run in turn. A run that goes on may leave out lines that say something by the way."""
        whole, what = self(0), " ".join(map(str, self.words))
        hold(whole.status == status, f"{what}: {whole.text()}")
        passed_over, lines = [], whole.err.splitlines()
        for number in range(1, whole.allocations + 1):
            ran = self(number)
            if ran.status == NO_MEMORY:
                ends = any(words in ran.err for words in WORDS)
            else:
                ends = (ran.status, ran.out) == (status, whole.out) and all(line in lines for line in ran.err.splitlines())
            if not ends:
                passed_over.append(f"allocation {number}: {ran.text()}")
        hold(whole.allocations > 0 and not passed_over, f"{what}: {len(passed_over)} of {whole.allocations}: " + "\n".join(passed_over[:3]))


def test_scrub(place, choose):
    """Scrubbing, with a report."""
    words = ["scrub", "--workers", "1", "--follow-links", "--report", "/dev/stdout"]
    Refused(place, odd_store(place, choose), *words).try_all(3)


def test_plan(place, choose):
    """Planning a repair, with rows as they are known."""
    words = ["repair", "--workers", "1", "--dry-run", "--follow-links", "--json", "--report", "/dev/stdout", "--replace-damaged"]
    Refused(place, odd_store(place, choose), *words).try_all(3)


def main(*words):
    stores.try_all("store-memory", globals(), *words[:2])


if __name__ == "__main__":
    main(*sys.argv[1:])
