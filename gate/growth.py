#!/usr/bin/env python3
"""The time of the program grows with its work and not faster: four times the lines, and four times the requests of a rack with four
feeds, take the processor less than ten times as long. Work that is done anew for each line, reply or row would take it sixteen
times as long. And line mode remembers plans: lines that ask 105 questions in turn take not twice as long as the same lines with equal ones
together. It runs what was built last: crates/rebuild/out/rebuild."""

import itertools
import pathlib
import resource
import subprocess
import sys
import tempfile

ROOT = pathlib.Path(__file__).resolve().parent.parent
PROGRAM = ROOT / "crates/rebuild/out/rebuild"

# How much longer four times the work may take, and how often each run is made: the least time counts.
MOST = 10
RUNS = 12

# How much longer lines may take that ask different questions in turn than with equal ones together.
MOST_IN_TURN = 2

LINES = 100_000
REQUESTS = 4_096
FEEDS = 4


def used():
    """The processor time of all runs so far."""
    usage = resource.getrusage(resource.RUSAGE_CHILDREN)
    return usage.ru_utime + usage.ru_stime


def seconds(words, given, wanted):
    """The least processor time of some runs, each of which writes what is wanted."""
    times = []
    for _ in range(RUNS):
        before = used()
        ran = subprocess.run([str(word) for word in words], input=given, capture_output=True, check=False)
        times.append(used() - before)
        if (ran.returncode, ran.stdout, ran.stderr) != (0, wanted, b""):
            sys.exit(f"growth: {words}: status {ran.returncode}, {ran.stdout[-200:]!r}, {ran.stderr[-200:]!r}")
    return min(times)


def lines(count):
    """So many requests, a line each."""
    return seconds([PROGRAM], b"a x0 1 x1=02 x2=03 px=00\n" * count, b"rebuilt 01\n" * count)


def all_questions():
    """A line for each two places of (12,2,2) that are lost with x0, of a stripe of zeros: 105 lines."""
    places = "x1 x2 x3 x4 x5 y0 y1 y2 y3 y4 y5 px py p0 p1".split()
    survivors = itertools.combinations(places, len(places) - 2)
    return ["code=12-2-2 a x0 1" + "".join(f" {place}=00" for place in left) + "\n" for left in survivors]


def questions(asked):
    """Lines that ask for fragments of zeros."""
    return seconds([PROGRAM], "".join(asked).encode(), b"rebuilt 00\n" * len(asked))


def feeds(count):
    """A rack of four feeds with so many requests each."""
    with tempfile.TemporaryDirectory() as folder:
        served, out = pathlib.Path(folder) / "in", pathlib.Path(folder) / "out"
        served.mkdir()
        out.mkdir()
        # One survivor is absent, so that there is a row for each request and no file.
        rows = "order,stripe,target,length,survivors\n" + "rebuild,a,x0,1,x1 x2 px\n" * count
        for place in ["x1", "x2"]:
            (served / f"a.{place}").write_bytes(b"a")
        for feed in range(FEEDS):
            (served / ("rack0.csv" if feed == 0 else f"rack0.feed{feed}.csv")).write_text(rows)
        words = [PROGRAM, "farm", served, out, "--workers", 2]
        return seconds(words, b"", b"served 1 racks, %d answers\n" % (FEEDS * count))


def compare(what, run, count):
    part, whole = run(count // 4), run(count)
    if whole > MOST * part:
        sys.exit(f"growth: {count} {what} take {whole:.3f} s of the processor, a quarter of them {part:.3f} s")
    print(f"growth: {count} {what} take {whole / part:.1f} times as long as a quarter of them, {whole:.3f} s of the processor")


def compare_questions():
    asked = all_questions()
    times = LINES // 2 // len(asked)
    in_turn, together = questions(asked * times), questions([line for line in asked for _ in range(times)])
    if in_turn > MOST_IN_TURN * together:
        sys.exit(f"growth: {len(asked)} questions in turn take {in_turn:.3f} s of the processor, with equal ones together {together:.3f} s")
    print(f"growth: {len(asked)} questions in turn take {in_turn / together:.2f} times as long as with equal ones together")


def main():
    compare("lines", lines, LINES)
    compare_questions()
    compare(f"requests in each of {FEEDS} feeds", feeds, REQUESTS)


if __name__ == "__main__":
    main()
