"""What the scripts share that serve folders by the program: lists, fragments and reports, how a run ends, and what was tried. Digests are
those of FIPS 180-2 and of Python's hashlib."""

import contextlib
import dataclasses
import hashlib
import pathlib
import subprocess
import sys
import tempfile

ROOT = pathlib.Path(__file__).resolve().parent.parent
PROGRAM = ROOT / "crates/rebuild/out/rebuild"
TESTS = ROOT / "crates/farm_tests/out/farm_tests_tests"
SECONDS = 300

HEADER = "order,stripe,target,length,survivors\n"
CODED_HEADER = "order,stripe,target,length,survivors,code\n"
CLOSE = "close,,,,\n"
ABC = "rebuild,abc,x0,3,x1 x2 px\n"
WIDE = "rebuild,abc,x0,3,x1 x2 x3 x4 x5 px,12-2-2\n"
# Two requests and two closes, in turn, and one request of the (12,2,2) code.
LIST = HEADER + (ABC + CLOSE) * 2
WIDE_LIST = CODED_HEADER + WIDE
# Requests of one byte, four of them before a close.
LIST_OF_FOUR = HEADER + "".join(f"rebuild,{stripe},x0,1,x1 x2 px\n" for stripe in "abcd") + CLOSE + "rebuild,a,x0,1,x1 x2 px\n"

# The fragments that give 61 62 63 at x0, of the (6,2,2) code and further ones of the (12,2,2) code; and folders with the first list.
ZEROS = b"\0\0\0"
FRAGMENTS = {"abc.x1": ZEROS, "abc.x2": ZEROS, "abc.px": b"abc"}
WIDE_FRAGMENTS = {"abc.x3": ZEROS, "abc.x4": ZEROS, "abc.x5": ZEROS}
ONE = {"rack0.csv": LIST}
LISTED = FRAGMENTS | ONE
WITH_A_FEED = {"rack0.csv": LIST, "rack0.feed1.csv": HEADER}


def zero_stripes(names):
    """The fragments of stripes of one byte whose x0 is the byte of their name."""
    return {f"{name}.{place}": name.encode() if place == "px" else b"\0" for name in names for place in ("x1", "x2", "px")}


def empty_racks(count, feeds=1):
    """So many racks without requests, of so many feeds."""
    return {f"rack{rack}{f'.feed{feed}' if feed else ''}.csv": HEADER for rack in range(count) for feed in range(feeds)}


def report(*rows, feeds=False, codes=False):
    header = f"number,{'feed,' if feeds else ''}stripe,target,length,outcome,digest,unread{',code' if codes else ''}"
    return "".join(f"{line}\n" for line in [header, *rows])


def rebuilt(stripe, text):
    """The middle of the row of a rebuilt x0 that has this text. The digest of `abc` is that in FIPS 180-2."""
    known = "ba7816bf8f01cfea414140de5dae2223b00361a396177a9cb410ff61f20015ad"
    digest = known if text == "abc" else hashlib.sha256(text.encode()).hexdigest()
    return f"{stripe},x0,{len(text)},rebuilt,{digest},"


ROW = rebuilt("abc", "abc")
REPORT = report(f"0,{ROW}")
FED_REPORT = report(f"0,0,{ROW}", feeds=True)
PX_LEFT_OUT = report("0,abc,x0,3,several,,px")
FRAGMENT = {"rack0-0.abc.x0": "abc"}
WHOLE = FRAGMENT | {"rack0.report.csv": REPORT}


@dataclasses.dataclass(frozen=True)
class End:
    """How a run ends: what it says on standard output and standard error, its status, and the files that it writes."""

    out: str
    err: str
    status: int
    files: dict

    def with_files(self, files):
        return dataclasses.replace(self, files=as_bytes(files))


def as_bytes(files):
    return {name: it.encode() if isinstance(it, str) else it for name, it in files.items()}


def served(files, racks=1, answers=1):
    return End(f"served {racks} racks, {answers} answers\n", "", 0, as_bytes(files))


def fault(line, status=1):
    """Where there is a fault nothing is written."""
    return End("", f"{line}\n", status, {})


DEVICE = fault("E24", 3)


class Checks:
    """What was tried, and what came to something else."""

    def __init__(self, name):
        self.name, self.tried, self.wrong = name, 0, []

    def compare(self, what, came, wanted):
        self.tried += 1
        if came != wanted:
            self.wrong.append(f"{self.name} {what}:\n  wanted: {wanted!r:.900}\n  came:   {came!r:.900}")

    def end(self):
        if self.wrong:
            print(*self.wrong, sep="\n")
            sys.exit(f"{self.name}: {len(self.wrong)} of {self.tried} are wrong")
        print(f"{self.name}: {self.tried} checks passed")


def put(folder, files):
    """Makes a folder with these files."""
    folder.mkdir()
    for name, content in as_bytes(files).items():
        (folder / name).write_bytes(content)


def found_in(folder):
    """The regular files of a folder."""
    return {it.name: it.read_bytes() for it in folder.iterdir() if it.is_file() and not it.is_symlink()}


@contextlib.contextmanager
def folders(scratch, given, before=None):
    """Two folders for a run, with the files that are served, and those that were there before in the place that is written to."""
    with tempfile.TemporaryDirectory(dir=scratch) as place:
        from_folder, to_folder = pathlib.Path(place) / "in", pathlib.Path(place) / "out"
        put(from_folder, given)
        put(to_folder, before or {})
        yield from_folder, to_folder


def words(given, out, workers=2, queue=1):
    return [str(it) for it in [PROGRAM, "farm", given, out, "--workers", workers, "--queue", queue]]


def ended(given, out, *settings):
    """How a run ends."""
    ran = subprocess.run(words(given, out, *settings), stdin=subprocess.DEVNULL, capture_output=True, timeout=SECONDS, check=False)
    files = found_in(out) if out.exists() else {}
    return End(ran.stdout.decode(), ran.stderr.decode(), ran.returncode, files)
