#!/usr/bin/env python3
"""Runs the random tests of rebuild-store over further seeds than the gate's own, and says which stores fail.

    more-seeds.py PROGRAM [COUNT [FIRST [SCRIPT [TEST]]]]

Each test tries COUNT stores (100) from the seed FIRST (1000) on, a few at a time in a process for each processor. A store that fails is
named by the words that try it. The status is 1 if one fails."""

import concurrent.futures
import itertools
import os
import pathlib
import re
import subprocess
import sys

ROOT = pathlib.Path(__file__).resolve().parent.parent
SCRIPTS = ("store-model", "store-file-model", "store-random-faults", "store-two-faults", "store-random-stops", "store-ends", "store-gone")
# How many stores a process tries before it says that one of them failed.
AT_ONCE = 25
SHOWN = 600


def tests_of(script):
    return re.findall(r"^def (test_\w+)", (ROOT / f"gate/{script}.py").read_text(), re.M)


def ended(program, script, test, seed, count):
    """Tries stores; gives what was said if one fails."""
    words = [sys.executable, ROOT / f"gate/{script}.py", program, test, str(seed), str(count)]
    none = subprocess.DEVNULL
    ran = subprocess.run(words, stdin=none, stdout=none, stderr=subprocess.PIPE, text=True, errors="replace")
    return ran.stderr or f"status {ran.returncode}" if ran.returncode else ""


def failing(program, script, test, seed, count):
    """What fails of so many stores from a seed on: a seed and how many from it, and what was said. Which calls fail in a store goes by
    those before it, so that one may not fail alone."""
    said = ended(program, script, test, seed, count)
    if not said:
        return []
    half = count // 2
    found = failing(program, script, test, seed, half) + failing(program, script, test, seed + half, count - half) if half else []
    return found or [(script, test, f"{seed} {count}", said)]


def main(program=None, count=100, first=1000, script=None, test=None):
    if program is None:
        sys.exit(__doc__)
    program, end = pathlib.Path(program).resolve(), int(first) + int(count)
    chosen = [(one, name) for one in SCRIPTS if script in (None, one) for name in tests_of(one) if test in (None, name)]
    if not chosen:
        sys.exit("more-seeds: there is no such test")
    starts = range(int(first), end, AT_ONCE)
    parts = [(program, *names, start, min(AT_ONCE, end - start)) for start, names in itertools.product(starts, chosen)]
    failed = 0
    with concurrent.futures.ThreadPoolExecutor(int(os.environ.get("JOBS") or len(os.sched_getaffinity(0)))) as pool:
        for found in pool.map(lambda part: failing(*part), parts):
            for one, name, seed, said in found:
                failed += 1
                print(f"gate/{one}.py PROGRAM {name} {seed}: {' '.join(said.split())[:SHOWN]}", flush=True)
    print(f"more-seeds: {len(chosen)} tests tried {count} stores each, of which {failed} failed")
    return 1 if failed else 0


if __name__ == "__main__":
    sys.exit(main(*sys.argv[1:]))
