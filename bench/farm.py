#!/usr/bin/env python3
"""Times the built program on generated folders, beside three C programs that serve them with ISA-L and OpenSSL at the same number of
threads: a careful one that keeps our promises of reading and writing, one that makes eight digests at once besides, and a careless one
that writes as it goes.

    farm.py LEVEL [SHAPE ..]      for a level of the processor, as x86-64-v3; the shapes by their numbers in the table, else all

All runs of a shape are made in turn, and the shortest time of each is shown (BENCH_PASSES of them, 9). What the C programs leave is
compared with what ours leaves. The folders are in memory where there is room. C programs know no feeds, so a
shape with several is ours alone. OpenSSL takes the processor's instructions for SHA-256, which ours doesn't: where there are such,
two shapes are timed once more with these withheld from the C programs. Called by `chrt -f 5`, all but the shapes beside busy
processes have that realtime priority."""

import dataclasses
import filecmp
import os
import pathlib
import shutil
import subprocess
import sys
import tempfile

ROOT = pathlib.Path(__file__).resolve().parent.parent
PROGRAM = ROOT / "crates/rebuild/out/rebuild"
PASSES = int(os.environ.get("BENCH_PASSES", "9"))
COMPILER = os.environ.get("CC", "gcc")
# Room for the folders of the largest shape and what three farms make of it.
ROOM = 4_000_000_000
PEERS = ("careful", "eight", "careless")
PRIORITY = os.sched_getscheduler(0), os.sched_getparam(0)
# Takes from OpenSSL the bit of the processor's instructions for SHA-256.
WITHHELD = {"OPENSSL_ia32cap": ":~0x20000000"}


@dataclasses.dataclass(frozen=True)
class Shape:
    racks: int
    requests: int
    length: int
    threads: int
    feeds: int = 1
    busy: int = 0
    withheld: bool = False

    def name(self):
        size = f"{self.length // 1024} KiB" if self.length >= 1024 else f"{self.length} B"
        feeds = f"{self.feeds} feeds of " if self.feeds > 1 else ""
        beside = f", beside {self.busy} busy processes" if self.busy else ""
        withheld = ", no SHA instructions" if self.withheld else ""
        return f"{self.racks} x {feeds}{self.requests}, {size}{beside}{withheld}"

    def answers(self):
        return self.racks * self.requests * self.feeds


SHAPES = [
    *(Shape(8, 200, 65536, threads) for threads in (1, 2, 4, 16)),
    *(Shape(8, 200, 65536, threads, busy=4) for threads in (1, 4)),
    Shape(8, 400, 65536, 4),
    Shape(8, 1600, 65536, 4),
    Shape(16, 100, 65536, 6),
    Shape(1, 400, 65536, 4, feeds=4),
    Shape(16, 400, 4096, 4),
    Shape(16, 1000, 64, 4),
    Shape(16, 4096, 1, 4),
    *(Shape(8, 200, 65536, threads, withheld=True) for threads in (1, 4)),
]


def build(scratch, level):
    """The C programs: those that are needed, and the peers where their libraries are installed."""
    for name in ("folder", "measure"):
        subprocess.run([COMPILER, "-O2", "-o", scratch / name, ROOT / f"bench/{name}.c"], check=True)
    made = subprocess.run([COMPILER, "-O3", f"-march={level}", "-D_GNU_SOURCE", "-o", scratch / "serve", ROOT / "bench/serve.c", "-lisal",
                           "-lcrypto", "-pthread"], stderr=subprocess.DEVNULL, check=False)
    if made.returncode != 0:
        print("ISA-L or OpenSSL is not installed (Debian's libisal-dev, libssl-dev): only our figures are shown.")
        return ()
    return PEERS


def command(farm, shape, scratch):
    here, out = scratch / "in", scratch / farm
    if farm == "ours":
        return [PROGRAM, "farm", here, out, "--workers", str(shape.threads)]
    return [scratch / "serve", farm, here, out, str(shape.threads)]


def serve(farm, shape, scratch):
    """Serves the folder anew, and gives what that took: milliseconds, MB, page faults, and how often threads gave a processor away or lost
    it."""
    times, out = scratch / "times", scratch / farm
    shutil.rmtree(out, ignore_errors=True)
    out.mkdir()
    times.unlink(missing_ok=True)
    said = subprocess.run([scratch / "measure", times, farm, *command(farm, shape, scratch)], check=True, capture_output=True, text=True,
                          env=os.environ | (WITHHELD if shape.withheld else {}))
    if said.stdout != f"served {shape.racks} racks, {shape.answers()} answers\n":
        sys.exit(f"bench-farm: {farm} said {said.stdout!r}")
    _, microseconds, kilobytes, faults, switches = times.read_text().split()
    return int(microseconds) / 1000, int(kilobytes) * 1024 / 1e6, int(faults), int(switches)


def futex_calls(farm, shape, scratch):
    """How often threads waited or were woken by the system, in a run that isn't timed; None if perf isn't there to count them."""
    counts, out = scratch / "counts", scratch / farm
    shutil.rmtree(out, ignore_errors=True)
    out.mkdir()
    words = ["perf", "stat", "-x,", "-e", "syscalls:sys_enter_futex", "-o", counts, *command(farm, shape, scratch)]
    try:
        subprocess.run(words, check=True, capture_output=True)
    except (FileNotFoundError, subprocess.CalledProcessError):
        return None
    count = counts.read_text().splitlines()[-1].partition(",")[0]
    return int(count) if count.isdigit() else None


def compare(farm, scratch):
    names = sorted(os.listdir(scratch / "ours"))
    differing = filecmp.cmpfiles(scratch / "ours", scratch / farm, names, shallow=False)[1:]
    if names != sorted(os.listdir(scratch / farm)) or differing != ([], []):
        sys.exit(f"bench-farm: the {farm} program leaves other files")


def time_shape(shape, peers, scratch):
    """What the fastest run of each farm took, and our greatest MB."""
    shutil.rmtree(scratch / "in", ignore_errors=True)
    (scratch / "in").mkdir()
    subprocess.run([scratch / "folder", scratch / "in", *map(str, (shape.racks, shape.requests, shape.length, shape.feeds))], check=True)
    farms = ("ours", *(peers if shape.feeds == 1 else ()))
    # At a realtime priority busy processes would leave the others nothing.
    os.sched_setscheduler(0, *((os.SCHED_OTHER, os.sched_param(0)) if shape.busy else PRIORITY))
    busy = [subprocess.Popen(["sh", "-c", "while :; do :; done"]) for _ in range(shape.busy)]
    try:
        runs = [{farm: serve(farm, shape, scratch) for farm in farms} for _ in range(PASSES)]
    finally:
        for it in busy:
            it.kill()
            it.wait()
    for farm in farms[1:]:
        compare(farm, scratch)
    waits = {farm: futex_calls(farm, shape, scratch) for farm in farms if farm in ("ours", "careless")}
    for farm in farms:
        shutil.rmtree(scratch / farm)
    return {farm: min(run[farm] for run in runs) for farm in farms}, waits, max(run["ours"][1] for run in runs)


def has_sha():
    return "sha_ni" in pathlib.Path("/proc/cpuinfo").read_text().split()


def shown(count):
    return "-" if count is None else f"{count:,}"


def row(number, shape, fastest, waits, peak):
    ours = fastest["ours"][0]
    cells = [str(number), shape.name(), str(shape.threads), f"{ours:.0f}"]
    for peer in PEERS:
        cells += [f"{fastest[peer][0]:.0f}", f"{fastest[peer][0] / ours:.2f}"] if peer in fastest else ["-", "-"]
    counts = [{farm: fastest[farm][column] for farm in fastest} for column in (2, 3)]
    for count in (*counts, waits):
        cells.append(shown(count["ours"]) + (f" ({shown(count['careless'])})" if "careless" in count else ""))
    load = os.getloadavg()[0]
    return f"| {' | '.join(cells)} | {peak:.0f} | {load:.1f} |"


def main(level, numbers):
    if not PROGRAM.exists():
        sys.exit("bench-farm: the program is not built: make build does it")
    shared = pathlib.Path("/dev/shm")
    place = shared if shared.is_dir() and shutil.disk_usage(shared).free > ROOM else None
    with tempfile.TemporaryDirectory(dir=place) as folder:
        scratch = pathlib.Path(folder)
        peers = build(scratch, level)
        print(f"\nFolders of so many racks and requests for fragments of so many bytes, half of them in one group, in {scratch.parent}:")
        print(f"ms from the program's start to its end, the least of {PASSES} runs in turn. A ratio is the C program's time over ours.\n")
        print("| | Folder | Workers | ours | careful C | ratio | batching C | ratio | careless C | ratio | page faults (careless C's) |"
              " switches (careless C's) | futex calls (careless C's) | our peak MB | load |")
        print("|---|---|---|---|---|---|---|---|---|---|---|---|---|---|---|")
        with_sha = has_sha()
        for number, shape in enumerate(SHAPES, 1):
            if (not numbers or number in numbers) and (with_sha or not shape.withheld):
                print(row(number, shape, *time_shape(shape, peers, scratch)), flush=True)
        if not with_sha:
            print("\nThis processor has no instructions for SHA-256: nothing could be withheld from the C programs.")


if __name__ == "__main__":
    if len(sys.argv) < 2:
        sys.exit(__doc__)
    main(sys.argv[1], [int(word) for word in sys.argv[2:]])
