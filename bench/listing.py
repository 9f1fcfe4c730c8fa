#!/usr/bin/env python3
"""Measures what it costs to list a store, all of it and a part of ten, by the number of its files: prints the table of docs/SCALE.md.

    listing.py [FOLDER [NUMBER ..]]    in a folder (default: in memory), for stores of so many files (default: 10,000 100,000 1,000,000)

A store of stripes of the (6,2,2) code with fragments of one byte under names as `s0000012345.x0`; of one stripe in ten a fragment is
lost. `rebuild-store lost` is run three times, and the least time, in seconds of a processor, and the greatest peak of memory are shown.
Calls of the system are counted by strace up to 100,000 files. For 1,000,000,000 files each more costs what it costs between the two
largest stores."""

import os
import pathlib
import re
import resource
import shutil
import subprocess
import sys
import tempfile

ROOT = pathlib.Path(__file__).resolve().parent.parent
PROGRAM = ROOT / "crates/rebuild_store/out/rebuild_store"
PLACES = ("x0", "x1", "x2", "y0", "y1", "y2", "px", "py", "p0", "p1")
PART = ["--part", "1/10"]
PASSES = 3
MOST_TRACED = 100_000
ALL = 1_000_000_000


def grow(store, before, number):
    """Makes stripes until the store has so many files, but for those that are lost."""
    for stripe in range(before // 10, number // 10):
        for place in PLACES:
            if stripe % 10 or place != PLACES[stripe // 10 % 10]:
                descriptor = os.open(store / f"s{stripe:010}.{place}", os.O_WRONLY | os.O_CREAT | os.O_EXCL, 0o644)
                os.write(descriptor, b"\0")
                os.close(descriptor)


def run(command, **how):
    """Runs a command that finds something lost, and gives its standard error."""
    done = subprocess.run(command, stdout=subprocess.DEVNULL, stderr=subprocess.PIPE, text=True, **how)
    if done.returncode != 1:
        sys.exit(f"listing: {command}: status {done.returncode}: {done.stderr}")
    return done.stderr


def timed(command, scratch):
    """Seconds of a processor at least and KiB at most."""
    seconds, peak = [], []
    for _ in range(PASSES):
        before = resource.getrusage(resource.RUSAGE_CHILDREN)
        run(["/usr/bin/time", "-o", scratch / "peak", "-f", "%M", *command])
        after = resource.getrusage(resource.RUSAGE_CHILDREN)
        seconds.append(after.ru_utime + after.ru_stime - before.ru_utime - before.ru_stime)
        peak.append(int((scratch / "peak").read_text().split()[-1]))
    return min(seconds), max(peak)


def traced(command, scratch):
    """How many calls of the system were made."""
    run(["strace", "-f", "-c", "-o", scratch / "calls", *command])
    return sum(map(int, re.findall(r"^ *[\d.]+ +[\d.]+ +\d+ +(\d+) +(?:\d+ +)?(?!total)\w+$", (scratch / "calls").read_text(), re.M)))


def number_of(value):
    """A figure with two digits or more."""
    return f"{value:,.0f}" if value >= 100 else f"{value:.1f}" if value >= 10 else f"{value:.2f}" if value >= 1 else f"{value:.3f}"


def print_row(number, figures):
    """The figures of all of a store and of a part beside each other: seconds, calls, and MiB."""
    print(f"    {number:>13,}" + "".join(f"{it:>12}" for pair in zip(*figures) for it in pair), flush=True)


def measure(place, numbers):
    store = place / "store"
    store.mkdir()
    has_strace = shutil.which("strace") is not None
    found, before = {}, 0
    print(" " * 17 + "".join(f"{name:>24}" for name in ("seconds", "calls", "peak MiB")))
    print(f"    {'files':>13}" + f"{'all':>12}{'a tenth':>12}" * 3)
    for number in numbers:
        grow(store, before, number)
        before, figures = number, []
        for part in ([], PART):
            command = [PROGRAM, "lost", *part, store]
            seconds, kib = found[number, bool(part)] = timed(command, place)
            calls = f"{traced(command, place):,}" if has_strace and number <= MOST_TRACED else ""
            figures.append([number_of(seconds), calls, number_of(kib / 1024)])
        print_row(number, figures)
    if len(numbers) > 1:
        print_slope(found, *numbers[-2:])
    if not has_strace:
        print("listing: no calls are counted: strace isn't installed", file=sys.stderr)


def print_slope(found, few, many):
    """The row of 1,000,000,000 files, by what each file between two measured numbers costs."""
    figures = []
    for part in (False, True):
        slope = [(after - first) / (many - few) for first, after in zip(found[few, part], found[many, part])]
        seconds, kib = (at + each * (ALL - many) for at, each in zip(found[many, part], slope))
        figures.append([number_of(seconds), "", number_of(kib / 1024)])
        print(f"listing: {slope[0] * 1e6:.2f} us and {slope[1] * 1024:.1f} bytes a file", file=sys.stderr)
    print_row(ALL, figures)


def main():
    if not PROGRAM.exists():
        sys.exit("listing: the program is not built: make build does it")
    in_memory = os.path.isdir("/dev/shm") and shutil.disk_usage("/dev/shm").free > 6_000_000_000
    folder = sys.argv[1] if sys.argv[1:] else "/dev/shm" if in_memory else None
    numbers = [int(word.replace(",", "")) for word in sys.argv[2:]] or [10_000, 100_000, 1_000_000]
    with tempfile.TemporaryDirectory(dir=folder) as scratch:
        measure(pathlib.Path(scratch), sorted(numbers))
    load = pathlib.Path("/proc/loadavg").read_text().split()[0]
    print(f"listing: in {folder or tempfile.gettempdir()}, {os.cpu_count()} processors, load {load}", file=sys.stderr)


if __name__ == "__main__":
    main()
