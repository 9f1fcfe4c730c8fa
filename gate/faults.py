"""What the scripts share that fail calls of a program, each in a run of its own, by fail-call.c: the runs, and the walk over all calls."""

import collections
import contextlib
import dataclasses
import errno
import functools
import multiprocessing
import os
import pathlib
import struct
import subprocess
import tempfile

import runs

ROOT = pathlib.Path(__file__).resolve().parent.parent
SECONDS = 300
# What fail-call.c records: three numbers, the kinds of so many calls, and the paths of two.
MOST_CALLS = 4_096
COUNTS, KIND, MOST_PATH = struct.Struct("=3Q"), 8, 4_096
PATHS = COUNTS.size + KIND * MOST_CALLS
RECORD_SIZE = PATHS + 2 * MOST_PATH
# Which errors calls answer that only look and read, and those that change something.
READ_ERRORS = (errno.EIO, errno.EACCES)
ERRORS = (errno.EIO, errno.ENOSPC, errno.EACCES, errno.EDQUOT)
CHANGING = {"create", "write", "sync", "chown", "chmod", "link", "rename", "unlink", "mkdir", "output"}
READ_KINDS = {"look", "open", "read"}
# How the calls after the one that fails are called in words.
LATER = {"": "", "kind": " and all after it of its kind", "path": " and all after it at its path"}


class Fault(Exception):
    """A run that ended as none may."""


def hold(holds, what):
    if not holds:
        raise Fault(what)


@dataclasses.dataclass(frozen=True)
class Ended:
    """How a run ended, and what fail-call.c recorded of it, in which the call of this number was to fail."""

    status: int
    out: str
    err: str
    record: bytes = b""
    number: int = 0

    @property
    def failed(self):
        """How many calls failed."""
        return COUNTS.unpack_from(self.record)[2]

    def kind_of(self, number):
        at = COUNTS.size + KIND * (number - 1)
        return self.record[at : at + KIND].rstrip(b"\0").decode()

    @functools.cached_property
    def kinds(self):
        """The kinds of its calls, in their order."""
        return [self.kind_of(number) for number in range(1, COUNTS.unpack_from(self.record)[1] + 1)]

    @functools.cached_property
    def kind(self):
        """That of the first one that failed."""
        return self.kind_of(self.number) if self.record and self.failed else ""

    @functools.cached_property
    def paths(self):
        """Its paths."""
        return self.paths_at(PATHS)

    @functools.cached_property
    def second_paths(self):
        """Those of the second one, where two were to fail."""
        return self.paths_at(PATHS + MOST_PATH)

    def paths_at(self, at):
        return tuple(self.record[at : at + MOST_PATH].split(b"\0")[0].decode(errors="replace").split("\n")) if self.record else ()

    def text(self):
        return f"status {self.status}: {self.out[-300:]!r} {self.err[-600:]!r}"


@functools.cache
def built():
    """The bytes of fail-call.c's library, which is built once for all the folders that get it."""
    compiler, flags = os.environ.get("CC", "gcc"), ["-O2", "-Wall", "-shared", "-fPIC"]
    with tempfile.TemporaryDirectory() as folder:
        library = pathlib.Path(folder) / "fail-call.so"
        subprocess.run([compiler, *flags, "-o", library, ROOT / "gate/fail-call.c"], check=True)
        return library.read_bytes()


class Calls:
    """The library of fail-call.c in a folder. With `forks` the runs of a program share a start, and with `but` calls aren't counted whose
    paths begin so, and there are no threads: the same calls then have the same numbers in each run."""

    def __init__(self, folder, forks=False, but=""):
        self.folder, self.but = folder, but
        self.file = folder / "fail-call.so"
        # One that is there may be in use.
        if not self.file.exists():
            self.file.write_bytes(built())
        self.library = runs.Preloaded(self.file, "FAIL_RECORD", RECORD_SIZE, forks)

    def run(self, words, number=0, how="", rest="", output=None, given=None, second=None, mounts=""):
        """Runs the program to its end, where the call of this number fails in this way, and that of a second number with a second error, if
        there are such. What is given is all of its standard input, and the table of mounts may be another file."""
        numbers, hows = (f",{it}" if second else "" for it in second or ("", ""))
        settings = {"FAIL_NUMBER": f"{number}{numbers}", "FAIL_HOW": f"{how}{hows}", "FAIL_REST": rest, "FAIL_BUT": self.but,
                    "FAIL_MOUNTS": mounts}
        with ending(words):
            ran = self.library.run([str(it) for it in words], settings, SECONDS, given, output)
        counts, calls, _ = COUNTS.unpack_from(ran.record)
        hold(counts == 1, f"nothing counted the calls of {words[0]}")
        hold(calls <= MOST_CALLS, f"{words[0]} makes {calls} calls")
        return Ended(ran.status, ran.out.decode(errors="replace"), ran.err.decode(errors="replace"), ran.record, number)


def lay(folder, files, mode=0o666):
    """Makes files in a folder that is there."""
    for name, data in files.items():
        file = os.open(f"{folder}/{name}", os.O_WRONLY | os.O_CREAT | os.O_TRUNC, mode)
        try:
            hold(os.write(file, data) == len(data), f"{folder} has no room for {name}")
        finally:
            os.close(file)


@contextlib.contextmanager
def ending(words):
    """Says that a program isn't built or doesn't end."""
    try:
        yield
    except FileNotFoundError:
        raise Fault(f"{words[0]} is not built: make store does it") from None
    except subprocess.TimeoutExpired:
        raise Fault(f"{words} had not ended after {SECONDS} seconds") from None


def finished(words):
    """Runs a program to its end."""
    with ending(words):
        ran = subprocess.run([str(it) for it in words], stdin=subprocess.DEVNULL, capture_output=True, timeout=SECONDS)
    return Ended(ran.returncode, ran.stdout.decode(errors="replace"), ran.stderr.decode(errors="replace"))


def errors_of(kind):
    """The errors that a call of this kind answers in turn."""
    return ERRORS if kind in CHANGING else READ_ERRORS


def all_ways(kind):
    """These errors, an interruption, and the end of the program just before the call."""
    return [*errors_of(kind), errno.EINTR, "kill"]


def only(how, *kinds):
    """This way alone, of calls of these kinds."""
    return lambda kind: [how] if kind in kinds else []


# What is called in the processes of a `Processes`.
called = None


def call(item):
    return called(item)


class Processes:
    """Calls a function for each of some items, in a process for each processor: threads of one Python wait for each other."""

    @staticmethod
    def map(function, items):
        global called
        called = function
        with multiprocessing.get_context("fork").Pool() as pool:
            return pool.map(call, items)


def walk(pool, trial, hows, rest="", needed=frozenset()):
    """Has calls of a run fail, each in a run of its own: `hows` gives the ways for a kind. Says how many there were of each kind."""
    kinds = trial.kinds()
    missing = needed - set(kinds)
    hold(not missing, f"{trial.words}: no call is of the kinds {missing}")
    turns = [(number, how) for number, kind in enumerate(kinds, 1) for how in hows(kind)]
    faults = collections.defaultdict(list)

    def one(turn):
        try:
            trial.turn(*turn, rest)
        except Fault as fault:
            return str(fault)
        return None

    for fault in filter(None, pool.map(one, turns)):
        faults[fault.split(":")[0]].append(fault)
    said = collections.Counter(kinds[number - 1] for number, _ in turns)
    shown = ", ".join(f"{count} {kind}" for kind, count in sorted(said.items()))
    print(f"faults: {' '.join(trial.words)}: {len(turns)} runs with a fault in one call{LATER[rest]}: {shown}", flush=True)
    if faults:
        some = [f"  {len(each)} runs, as: {min(each, key=len)}" for each in faults.values()]
        raise Fault(f"{' '.join(trial.words)}: {sum(map(len, faults.values()))} of {len(turns)} runs:\n" + "\n".join(some))
