#!/usr/bin/env python3
"""The program's memory is that of two batches, of what is rebuilt, and of the lists and their answers. Each run has a bound that it stays
below, which is well above what it was seen to take and well below what it takes where survivors of earlier batches are kept, lists or
feeds aren't cut, batches are cut by bytes and not also by files, or room is taken for the files of all lists at once. It runs what was
built last: crates/rebuild/out/rebuild."""

import os
import pathlib
import random
import resource
import subprocess
import sys
import tempfile

ROOT = pathlib.Path(__file__).resolve().parent.parent
PROGRAM = ROOT / "crates/rebuild/out/rebuild"

HEADER = "order,stripe,target,length,survivors,code\n"
NARROW = "x1 x2 px"
WIDE = "x1 x2 x3 x4 x5 y0 y1 y2 y3 y4 y5 px py p0 p1"
GREATEST = 65_536
MOST_RECORDS = 4_096
FEEDS = ["", ".feed1", ".feed2", ".feed3"]
SECONDS = 300
MEGABYTE = 1_000_000


def rows(count, length, survivors, code):
    return HEADER + f"rebuild,a,x0,{length},{survivors},{code}\n" * count


def fragments(folder, length, survivors, choose):
    """A file of random bytes for each survivor: those of no stripe where more are listed than a group has."""
    for place in survivors.split():
        (folder / f"a.{place}").write_bytes(choose.randbytes(length))


def run(name, words, given, most, wanted, limit=None):
    """Runs the program, with so many KiB of address space where a limit is given, and compares the memory that it took."""
    with tempfile.TemporaryFile() as read, tempfile.TemporaryFile() as written:
        read.write(given)
        read.seek(0)
        process = subprocess.Popen(
            [str(word) for word in words],
            stdin=read,
            stdout=written,
            preexec_fn=limit and (lambda: resource.setrlimit(resource.RLIMIT_AS, (limit * 1024, limit * 1024))),
        )
        _, status, usage = os.wait4(process.pid, 0)
        process.returncode = os.waitstatus_to_exitcode(status)
        written.seek(0)
        said = written.read()
    if (process.returncode, said) != (0, wanted):
        sys.exit(f"memory {name}: status {process.returncode}, {said[-200:]!r}")
    taken = usage.ru_maxrss * 1024
    if taken > most:
        sys.exit(f"memory {name}: {taken / MEGABYTE:.0f} MB, and not {most / MEGABYTE:.0f}")
    print(f"memory {name}: {taken / MEGABYTE:.0f} MB, at most {most / MEGABYTE:.0f}", flush=True)


def farm(name, lists, length, survivors, most, limit=None, workers=4, racks=1):
    """Serves so many racks with these lists, and as many answers as they have requests."""
    with tempfile.TemporaryDirectory() as scratch:
        served, out = pathlib.Path(scratch) / "in", pathlib.Path(scratch) / "out"
        served.mkdir()
        out.mkdir()
        for rack in range(racks):
            for feed, text in zip(FEEDS, lists):
                (served / f"rack{rack}{feed}.csv").write_text(text)
        fragments(served, length, survivors, random.Random(1))
        count = racks * sum(text.count("rebuild") for text in lists)
        words = [PROGRAM, "farm", served, out, "--workers", workers]
        run(name, words, b"", most, b"served %d racks, %d answers\n" % (racks, count), limit)


def lines(name, given, replies, most):
    run(name, [PROGRAM], given, most, replies)


def main():
    # Nothing is kept of a batch but its answers: here they are `several` and `contradiction`, without bytes.
    farm("long list", [rows(MOST_RECORDS, GREATEST, "x1 x2", "6-2-2")], GREATEST, "x1 x2", 60 * MEGABYTE)
    farm("long wide list", [rows(400, GREATEST, WIDE, "12-2-2")], GREATEST, WIDE, 60 * MEGABYTE)
    farm("four feeds", [rows(1_024, GREATEST, "x1 x2", "6-2-2")] * 4, GREATEST, "x1 x2", 60 * MEGABYTE)
    # Of a next rack that is cut no more is read ahead than its first piece.
    farm("two long lists", [rows(MOST_RECORDS, GREATEST, "x1 x2", "6-2-2")], GREATEST, "x1 x2", 60 * MEGABYTE, racks=2)
    # What is rebuilt stays until it is written: 105 MB here.
    farm("four feeds rebuilt", [rows(400, GREATEST, NARROW, "6-2-2")] * 4, GREATEST, NARROW, 200 * MEGABYTE)
    # A fragment takes the room that it lists, and a plan's arena ends with its request.
    farm("small fragments", [rows(MOST_RECORDS, 1, WIDE, "12-2-2")] * 4, 1, WIDE, 60 * MEGABYTE)
    # The folder with the most survivors that there may be: 3,932,160 files to read. Beside a batch are its lists and answers.
    farm("most small fragments", [rows(MOST_RECORDS, 1, WIDE, "12-2-2")] * 4, 1, WIDE, 200 * MEGABYTE, racks=16)
    # Room is taken for the survivors of a batch, also for those that aren't there, and not for all that are listed.
    absent = rows(MOST_RECORDS, GREATEST, WIDE, "12-2-2")
    farm("absent survivors", [absent], 1, "", 60 * MEGABYTE, limit=400_000)
    farm("absent survivors beside an empty feed", [absent, HEADER], 1, "", 60 * MEGABYTE, limit=400_000)
    # Line mode has its input, what it replies, and one line.
    lines("short lines", b"a x0 1 x1=02 x2=03 px=00\n" * 100_000, b"rebuilt 01\n" * 100_000, 30 * MEGABYTE)
    count = 100
    line = b"a x0 10000 x1=%s x2=%s px=%s\n" % tuple([b"00" * 10_000] * 3)
    lines("long lines", line * count, (b"rebuilt " + b"00" * 10_000 + b"\n") * count, 40 * MEGABYTE)


if __name__ == "__main__":
    main()
