#!/usr/bin/env python3
"""Times rebuild-store beside what else does the same: repairs beside a C program over the C library and mapped files and beside the farm,
scrubbing beside sha256sum, and files beside a C program over ISA-L and OpenSSL. What it takes to list a store is listing.py's.

    store.py LEVEL [ROW ..]      for a level of the processor, as x86-64-v3; the rows by their numbers in the table, else all

The runs of a row are made in turn, and the least time of each is shown (BENCH_PASSES of them, 5). What the C program and the farm
rebuild is compared with what ours does. Page faults and switches of threads are those of the fastest run. The stores are in memory where
6 GB are free. par2 and zfec are timed on one file where they are installed."""

import dataclasses
import filecmp
import os
import pathlib
import random
import shutil
import subprocess
import sys
import tempfile
import time
import typing

ROOT = pathlib.Path(__file__).resolve().parent.parent
PROGRAM = ROOT / "crates/rebuild_store/out/rebuild_store"
FARM = ROOT / "crates/rebuild/out/rebuild"
PASSES = int(os.environ.get("BENCH_PASSES", "5"))
COMPILER = os.environ.get("CC", "gcc")
ROOM = 6_000_000_000
KIB, MIB = 1024, 1024 * 1024
PLACES = ("x0", "x1", "x2", "y0", "y1", "y2", "px", "py", "p0", "p1")
WORKERS = "4"
FILE_BYTES = 120_000_000


def shell(text, folder=None):
    """A command of several processes."""
    return [shutil.which("bash"), "-c", text if folder is None else f"cd {folder} && {text}"]


@dataclasses.dataclass(frozen=True)
class Run:
    """What is timed: its name, its command, what is done before each time, the status that it ends with, and the files that it makes, each
    with the one that it must be like."""

    name: str
    command: list
    before: typing.Callable = lambda: None
    status: int = 0
    made: tuple = ()

    def compare(self):
        for ours, wanted in self.made:
            if not filecmp.cmp(ours, wanted, shallow=False):
                sys.exit(f"bench-store: {self.name} made another {ours}")


@dataclasses.dataclass(frozen=True)
class Row:
    """A row of the table: what is done, ours and the peer's runs, and the ratio that is wanted at least."""

    name: str
    ours: Run
    peer: Run | None
    wanted: str


class Taken(typing.NamedTuple):
    """What a run took: milliseconds, MB at most, page faults, and how often its threads gave a processor away or lost it."""

    ms: float
    peak: float
    faults: int
    switches: int


class Bench:
    """The stores and the programs in a scratch folder."""

    def __init__(self, scratch, level):
        self.scratch = scratch
        self.level = level
        self.build("measure")
        self.build("mapped", "-I", ROOT / "library", ROOT / "crates/lrc_c/out/liblrc_c.a", "-pthread")
        # Where ISA-L or OpenSSL isn't installed, files are encoded beside nothing.
        self.has_encode = self.build("encode", "-lisal", "-lcrypto", "-pthread", is_needed=False)

    def build(self, name, *flags, is_needed=True):
        words = [COMPILER, "-O2", f"-march={self.level}", "-o", self.scratch / name, ROOT / f"bench/{name}.c", *flags]
        ended = subprocess.run([str(it) for it in words], stderr=None if is_needed else subprocess.DEVNULL, check=is_needed)
        return ended.returncode == 0

    def make(self, name, stripes, length):
        folder = self.scratch / name
        folder.mkdir()
        subprocess.run([self.scratch / "mapped", "make", folder, str(stripes), str(length)], check=True)
        return folder

    def time(self, run):
        """What a run takes."""
        run.before()
        times = self.scratch / "times"
        times.unlink(missing_ok=True)
        command = [str(it) for it in [self.scratch / "measure", times, "run", *run.command]]
        ended = subprocess.run(command, stdout=subprocess.PIPE, stderr=subprocess.PIPE, text=True, errors="replace")
        if ended.returncode != run.status:
            sys.exit(f"bench-store: {run.name} ended with {ended.returncode}: {ended.stdout[-300:]}{ended.stderr[-300:]}")
        _, microseconds, kilobytes, faults, switches = times.read_text().split()
        return Taken(int(microseconds) / 1000, int(kilobytes) * 1024 / 1e6, int(faults), int(switches))

    def row(self, row):
        """What the fastest runs of both took, and our greatest MB."""
        runs = [row.ours] + ([row.peer] if row.peer else [])
        taken = {run.name: [] for run in runs}
        for number in range(PASSES):
            for run in runs:
                taken[run.name].append(self.time(run))
                if number == 0:
                    run.compare()
        fastest = {name: min(runs) for name, runs in taken.items()}
        return fastest, max(it.peak for it in taken[row.ours.name])


def remove(paths):
    for path in paths:
        path.unlink(missing_ok=True)


def put_aside(lost, kept):
    """Takes fragments out of a store, and gives each with where it is kept."""
    kept.mkdir()
    for path in lost:
        path.rename(kept / path.name)
    return tuple((path, kept / path.name) for path in lost)


def mapped_row(bench):
    """Repairs of long fragments beside the C program over mapped files."""
    store = bench.make("mapped-store", 6, 64 * MIB)
    lost = [store / f"s{k:06}.{place}" for k in range(6) for place in ("x0", "y1")]
    made = put_aside(lost, bench.scratch / "kept")
    ours = Run("ours", [PROGRAM, "repair", "--reads", "all", store, "--workers", WORKERS], lambda: remove(lost), made=made)
    peer = Run("mapped files", [bench.scratch / "mapped", "repair", store, WORKERS], lambda: remove(lost), made=made)
    return Row("repair of 12 lost fragments of 64 MiB", ours, peer, "0.8")


def farm_row(bench):
    """2,000 stripes, each with a lost fragment and nine that survive, beside the farm with a list of them."""
    store, served, out = bench.make("farm-store", 2_000, 64 * KIB), bench.scratch / "served", bench.scratch / "out"
    lost = [store / f"s{k:06}.{PLACES[k % 6]}" for k in range(2_000)]
    made = put_aside(lost, bench.scratch / "kept")
    served.mkdir()
    rows = ["order,stripe,target,length,survivors"]
    for path in lost:
        stripe, target = path.name.split(".")
        rows.append(f"rebuild,{stripe},{target},{64 * KIB},{' '.join(place for place in PLACES if place != target)}")
    for path in store.iterdir():
        (served / path.name).symlink_to(path)
    (served / "rack0.csv").write_text("\n".join(rows) + "\n")

    def empty():
        shutil.rmtree(out, ignore_errors=True)
        out.mkdir()

    theirs = tuple((out / f"rack0-{k}.{path.name}", kept) for k, (path, kept) in enumerate(made))
    ours = Run("ours", [PROGRAM, "repair", "--reads", "all", store, "--workers", WORKERS], lambda: remove(lost), made=made)
    peer = Run("farm", [FARM, "farm", served, out, "--workers", WORKERS], empty, made=theirs)
    return Row("repair of 2,000 lost fragments of 64 KiB", ours, peer, "1.0")


def scrub_row(bench):
    """Scrubbing of about 1 GiB in fragments of 1 MiB, beside digests of all files by four processes."""
    store = bench.make("scrubbed", 102, MIB)
    ours = Run("ours", [PROGRAM, "scrub", store, "--workers", WORKERS])
    peer = Run("sha256sum x 4", shell("ls | xargs -P 4 -n 64 sha256sum > /dev/null", store))
    return Row("scrub of 1 GiB, four workers", ours, peer, "2.0")


def sums_row(bench):
    """Scrubbing with SHA256SUMS, beside sha256sum -c."""
    store = bench.scratch / "scrubbed"
    if not store.exists():
        bench.make("scrubbed", 102, MIB)
    subprocess.run(["bash", "-c", "sha256sum s*.* > SHA256SUMS"], cwd=store, check=True)
    ours = Run("ours", [PROGRAM, "scrub", store, "--workers", "1", "--sums", store / "SHA256SUMS"])
    peer = Run("sha256sum -c", shell("sha256sum --quiet -c SHA256SUMS", store))
    return Row("scrub of 1 GiB with SHA256SUMS, one worker", ours, peer, "1.0")


def small_row(bench):
    """Repairs of many short fragments beside the C program, for the page faults."""
    store = bench.make("small-store", 300, 64 * KIB)
    lost = [store / f"s{k:06}.{PLACES[k % 10]}" for k in range(300)]
    made = put_aside(lost, bench.scratch / "small-kept")
    ours = Run("ours", [PROGRAM, "repair", "--reads", "all", store, "--workers", WORKERS], lambda: remove(lost), made=made)
    peer = Run("mapped files", [bench.scratch / "mapped", "repair", store, WORKERS], lambda: remove(lost), made=made)
    return Row("repair of 300 lost fragments of 64 KiB", ours, peer, "5,000 page faults")


def long_sums_row(bench):
    """Scrubbing of long fragments with SHA256SUMS, beside digests of all files by four processes."""
    store = bench.make("long", 2, 64 * MIB)
    subprocess.run(["bash", "-c", "sha256sum s*.* > SHA256SUMS"], cwd=store, check=True)
    ours = Run("ours", [PROGRAM, "scrub", store, "--workers", WORKERS, "--sums", store / "SHA256SUMS"])
    peer = Run("sha256sum x 4", shell("ls s* | xargs -P 4 -n 5 sha256sum > /dev/null", store))
    return Row("scrub of 2 stripes of 64 MiB with SHA256SUMS", ours, peer, "1.5")


def new_file(bench):
    """A file of 120 MB, and a folder for what the C program makes of it."""
    file, theirs = bench.scratch / "file", bench.scratch / "theirs"
    file.write_bytes(random.Random(2).randbytes(FILE_BYTES))
    theirs.mkdir()
    return file, theirs


def encode_row(bench):
    """Encoding of a file, beside a C program with the same digests."""
    file, theirs = new_file(bench)
    store = bench.scratch / "encoded"
    made = tuple((theirs / f"file.{place}", store / f"file.{place}") for place in PLACES)
    ours = Run("ours", [PROGRAM, "encode", store, file], lambda: shutil.rmtree(store, ignore_errors=True))
    peer = Run("C, ISA-L and OpenSSL", [bench.scratch / "encode", "write", file, theirs], lambda: remove(theirs.iterdir()), made=made)
    return Row("encode of a file of 120 MB", ours, peer if bench.has_encode else None, "0.8")


def read_row(bench):
    """Reading of a file, beside a C program with the same digest."""
    file, theirs = new_file(bench)
    store, out = bench.scratch / "encoded", bench.scratch / "out"
    subprocess.run([PROGRAM, "encode", store, file], check=True, stdout=subprocess.DEVNULL)
    again = bench.scratch / "again"
    ours = Run("ours", [PROGRAM, "read", store, "file", "-o", out], lambda: remove([out]), made=((out, file),))
    command = [bench.scratch / "encode", "read", store, str(FILE_BYTES), again]
    peer = Run("C and OpenSSL", command, lambda: remove([again]), made=((again, file),))
    return Row("read of a file of 120 MB", ours, peer if bench.has_encode else None, "0.6")


def verify_row(bench):
    """Reading of a file for its digest alone, beside sha256sum of the file."""
    file, _ = new_file(bench)
    store = bench.scratch / "encoded"
    subprocess.run([PROGRAM, "encode", store, file], check=True, stdout=subprocess.DEVNULL)
    ours, peer = Run("ours", [PROGRAM, "verify", store, "file"]), Run("sha256sum", ["/usr/bin/sha256sum", file])
    return Row("verify of a file of 120 MB", ours, peer, "0.6")


ROWS = (
    mapped_row,
    farm_row,
    scrub_row,
    sums_row,
    small_row,
    long_sums_row,
    encode_row,
    read_row,
    verify_row,
)


def has_sums():
    said = subprocess.run([PROGRAM, "scrub", "--help"], capture_output=True, text=True)
    return "--sums" in said.stdout


def line(number, row, fastest, peak):
    ours = fastest[row.ours.name]
    cells = [str(number), row.name, f"{ours.ms:.0f}"]
    waits = [f"{ours.faults:,}", f"{ours.switches:,}"]
    if row.peer:
        theirs = fastest[row.peer.name]
        cells += [row.peer.name, f"{theirs.ms:.0f}", f"{theirs.ms / ours.ms:.2f}"]
        waits = [f"{waits[0]} ({theirs.faults:,})", f"{waits[1]} ({theirs.switches:,})"]
    else:
        cells += ["-", "-", "-"]
    return f"| {' | '.join(cells)} | {row.wanted} | {peak:.0f} | {' | '.join(waits)} | {os.getloadavg()[0]:.1f} |"


# Encodes the file in the folder into 10 shares of which 6 do, and decodes it from the last 6; then again with one of them damaged.
ZFEC = """
import time
from zfec.easyfec import Decoder, Encoder
start = time.time()
data = open("file", "rb").read()
for number, share in enumerate(Encoder(6, 10).encode(data)):
    open(f"share{number}", "wb").write(share)
encoded = time.time()
numbers = list(range(4, 10))
shares = [open(f"share{number}", "rb").read() for number in numbers]
rest = 6 * len(shares[0]) - len(data)
whole = Decoder(6, 10).decode(shares, numbers, rest)
open("again", "wb").write(whole)
decoded = time.time()
assert whole == data
shares[3] = bytes([shares[3][0] ^ 1]) + shares[3][1:]
wrong = Decoder(6, 10).decode(shares, numbers, rest) != data
print(f"{encoded - start:.2f} {decoded - encoded:.2f} {'other bytes, and nothing said' if wrong else 'the same bytes'}")
"""


def seconds_of(*words, folder):
    start = time.monotonic()
    subprocess.run(list(map(str, words)), cwd=folder, check=True, stdout=subprocess.DEVNULL)
    return time.monotonic() - start


def time_par2(folder):
    """Seconds to make and to use 40 percent of recovery data, a quarter of the file being overwritten."""
    file = folder / "file"
    data = file.read_bytes()
    made = seconds_of("par2", "create", "-q", "-q", "-r40", "file.par2", "file", folder=folder)
    file.write_bytes(data[:1000] + bytes(len(data) // 4) + data[1000 + len(data) // 4:])
    repaired = seconds_of("par2", "repair", "-q", "-q", "file.par2", folder=folder)
    return f"| par2 -r40 | {made:.1f} | {repaired:.1f} | {'the same bytes' if file.read_bytes() == data else 'OTHER BYTES'} |"


def time_others(place):
    """par2 and zfec on one file of 60 MB, where they are installed."""
    rows = []
    with tempfile.TemporaryDirectory(dir=place) as scratch:
        folder = pathlib.Path(scratch)
        (folder / "file").write_bytes(random.Random(1).randbytes(60_000_000))
        said = subprocess.run(["/usr/bin/python3", "-c", ZFEC], cwd=folder, capture_output=True, text=True)
        if said.returncode == 0:
            encoded, decoded, damage = said.stdout.strip().split(" ", 2)
            rows.append(f"| zfec 6 of 10 (its Python module) | {encoded} | {decoded} | {damage} |")
        if shutil.which("par2"):
            rows.append(time_par2(folder))
    if not rows:
        print("\npar2 and zfec aren't installed (Debian's par2, python3-zfec): they weren't timed.")
        return
    print(f"\nA file of 60 MB, once, load {os.getloadavg()[0]:.1f}:\n")
    print("| | s to encode | s to repair | with a damaged share or part |\n|---|---|---|---|")
    print("\n".join(rows))


def main(level, numbers):
    for program in (PROGRAM, ROOT / "crates/lrc_c/out/liblrc_c.a", *([FARM] if not numbers or 2 in numbers else [])):
        if not program.exists():
            sys.exit(f"bench-store: {program.relative_to(ROOT)} is not there: make build store library makes it")
    shared = pathlib.Path("/dev/shm")
    place = shared if shared.is_dir() and shutil.disk_usage(shared).free > ROOM else None
    print(f"\nStores of the (6,2,2) code, in {place or tempfile.gettempdir()}: ms from the program's start to its end, the least of")
    print(f"{PASSES} runs in turn, {WORKERS} workers if nothing else is said. A ratio is the peer's time over ours.\n")
    print("| | | ours | peer | its time | ratio | wanted | our peak MB | page faults (peer's) | switches (peer's) | load |")
    print("|---|---|---|---|---|---|---|---|---|---|---|")
    for number, make in enumerate(ROWS, 1):
        if numbers and number not in numbers:
            continue
        if make in (sums_row, long_sums_row) and not has_sums():
            print(f"| {number} | scrub with SHA256SUMS | - | - | - | - | 1.0 | - | - | - | - |")
            continue
        with tempfile.TemporaryDirectory(dir=place) as folder:
            bench = Bench(pathlib.Path(folder), level)
            row = make(bench)
            print(line(number, row, *bench.row(row)), flush=True)
    if not numbers:
        time_others(place)


if __name__ == "__main__":
    if len(sys.argv) < 2:
        sys.exit(__doc__)
    main(sys.argv[1], [int(word) for word in sys.argv[2:]])
