#!/usr/bin/env python3
"""Tries rebuild-store encode and read where the system fails, as store-faults.py tries repairs: each call fails in a run of its own, or the
run is killed just before it, and each allocation is refused.

    file-faults.py [PROGRAM]

After each fault of `encode` every name has all of its bytes or isn't there, a file's description is there after its fragments alone, and
the same command again ends the work and leaves nothing behind. `read` never writes a byte that isn't the file's."""

import dataclasses
import errno
import functools
import hashlib
import itertools
import os
import pathlib
import random
import signal
import sys
import tempfile

# No compiled copy of the modules is left beside them.
sys.dont_write_bytecode = True
sys.path.append(str(pathlib.Path(__file__).resolve().parent.parent / "tools"))
import refusals  # noqa: E402
from faults import LATER, READ_KINDS, ROOT, Calls, Fault, Processes, all_ways  # noqa: E402
from faults import errors_of, finished, hold, lay, only, walk  # noqa: E402
from found import Found, Known, take_away  # noqa: E402
from reference import CODES, product  # noqa: E402
from store import combined, stripe  # noqa: E402

PROGRAM = ROOT / "crates/rebuild_store/out/rebuild_store"
UNFINISHED = ".rebuild-store-"
# What a run that was killed has left: the digits are at random.
LEFTOVER = UNFINISHED + "0123456789abcdef"
SUMS = "SHA256SUMS"
CODE = "6-2-2"
DEVICE, NO_MEMORY = 3, 4
# Kinds of calls that each command makes.
ENCODING = {"look", "list", "lock", "open", "read", "create", "write", "sync", "link", "unlink", "rename", "output"}
READING = {"look", "open", "read", "output"}


def fragments_of(data):
    """The fragments of a file, worked out here: its bytes cut into six, with zeros after the end, and their parities."""
    places, first = CODES[CODE]
    length = -(-len(data) // len(places))
    parts = [data[k * length:(k + 1) * length].ljust(length, b"\0") for k in range(len(places))]
    rows = [[int(p[0] == "x") for p in places], [int(p[0] == "y") for p in places], first, [product(c, c) for c in first]]
    return dict(zip(places + ["px", "py", "p0", "p1"], parts + [combined(row, parts, length) for row in rows]))


def names_of(name, data):
    """The files of a store that a file becomes."""
    made = {f"{name}.{place}": fragment for place, fragment in fragments_of(data).items()}
    description = f"{len(data)} {hashlib.sha256(data).hexdigest()} {CODE}\n".encode()
    return made | {f"{name}.file": description, f"{name}.file.copy": description}


def sums_of(files):
    return "".join(f"{hashlib.sha256(files[name]).hexdigest()}  {name}\n" for name in sorted(files)).encode()


@dataclasses.dataclass(frozen=True)
class Files:
    """Files that are encoded into a store, and what is in the store before and after it, but for its list of digests."""

    data: dict
    before: dict
    after: dict

    @functools.cached_property
    def sums(self):
        """The list of digests before it."""
        return sums_of({name: data for name, data in self.before.items() if not name.startswith(UNFINISHED)})

    @functools.cached_property
    def names(self):
        """The names of the files of the store that each file becomes."""
        return {name: list(names_of(name, b"")) for name in self.data}

    @functools.cached_property
    def digests(self):
        """Those of all that is there after it."""
        return {name: hashlib.sha256(data).hexdigest() for name, data in self.after.items()}

    def lay(self, place):
        store = place / "store"
        store.mkdir(parents=True)
        lay(place, self.data)
        lay(store, self.before)
        lay(store, {SUMS: self.sums})
        return store

    def hold_names(self, found, ran):
        """Each name has all of its bytes, a description has its fragments beside it, and the list of digests is one of the store's."""
        there = {name: data for name, data in found.files.items() if not name.startswith(UNFINISHED)}
        sums, text = there.pop(SUMS, None), ran.text()
        for name, data in there.items():
            hold(data == self.after.get(name), f"a name has bytes that are no file's: {name}: {text}")
        for name in self.data:
            if f"{name}.file" in there or f"{name}.file.copy" in there:
                missing = [it for it in self.names[name] if it not in there and ".file" not in it]
                hold(not missing, f"a description is there without its fragments: {missing}: {text}")
        known = dict(line.split("  ")[::-1] for line in sums.decode().splitlines())
        for name, digest in known.items():
            hold(digest == self.digests[name], f"a digest in {SUMS} is another: {name}: {text}")
        hold(set(self.before) - {LEFTOVER} <= set(known), f"the list of digests is not whole: {text}")

    def hold_whole(self, found, ran):
        there = dict(found.files)
        sums = there.pop(SUMS, b"").decode().splitlines()
        differing = sorted(name for name in there.keys() | self.after.keys() if there.get(name) != self.after.get(name))
        hold(not differing, f"the same command again doesn't end the work: {differing}: {ran.text()}")
        hold({line.split("  ")[1] for line in sums} == set(self.after), f"the list of digests is not whole: {ran.text()}")

    def hold_ended(self, run, known, place, found):
        """The same command again ends the work. From a state from which it did it isn't run again."""
        def again():
            second = run()
            hold(second.status == 0, f"the same command again ends otherwise than with 0: {second.text()}")
            self.hold_whole(Found(place / "store"), second)

        sums = {SUMS: self.sums}
        given = Found(place, but="store").state(self.data)
        known.see(["encode", given, found.state(self.after, self.before | sums)], again)


class Turns:
    """Folders of which each turn has its own, below that of the runs."""

    def __init__(self, calls, name):
        self.calls, self.name, self.numbers = calls, name, itertools.count()

    def new(self):
        return self.calls.folder / f"{self.name}-{os.getpid()}-{next(self.numbers)}"


def is_no_fault(kind, how):
    """Whether all may be done in spite of it: the other half is written after a half, fragments of other stripes needn't be looked at, and
    who may not give a file away keeps it."""
    return how in ("short", errno.EINTR) or kind in READ_KINDS or (kind, how) == ("chown", errno.EACCES)


def is_of_leftover(ran):
    """Whether the call that failed was of the file that a killed run left. The store is locked, so it is known to be left where its own
    lock can't be had."""
    return any(pathlib.Path(path).name == LEFTOVER for path in ran.paths)


def take_all_away(place):
    take_away(place / "store")
    take_away(place)


class Encoding:
    """Files are encoded, and one call fails."""

    words = ("encode",)
    status = 0

    def __init__(self, calls, known, files):
        self.calls, self.known, self.files, self.turns = calls, known, files, Turns(calls, "encode")

    def command(self, place):
        return [PROGRAM, "encode", place / "store", *(place / name for name in self.files.data)]

    def in_folder(self, do):
        place = self.turns.new()
        try:
            return do(place, self.files.lay(place))
        finally:
            take_all_away(place)

    def kinds(self):
        ran = self.in_folder(lambda place, _store: self.calls.run(self.command(place)))
        hold(ran.status == 0, f"encode without a fault: {ran.text()}")
        return ran.kinds

    def turn(self, number, how, rest=""):
        self.in_folder(lambda place, store: self.judged(place, store, number, how, rest))

    def judged(self, place, store, number, how, rest):
        ran, found = self.calls.run(self.command(place), number, how, rest), Found(store)
        shown = how if isinstance(how, str) else errno.errorcode[how]
        try:
            self.files.hold_names(found, ran)
            if how == "kill":
                hold(ran.status == -signal.SIGKILL, f"it wasn't killed: {ran.text()}")
            elif ran.status == 0 and (is_no_fault(ran.kind, how) or (ran.kind == "lock" and is_of_leftover(ran))):
                self.files.hold_whole(found, ran)
            else:
                self.judge_fault(store, found, ran, how)
            self.files.hold_ended(lambda: self.calls.run(self.command(place)), self.known, place, found)
        except Fault as fault:
            why, _, details = str(fault).partition(": ")
            raise Fault(f"{ran.kind}, {why}: call {number}, {' and '.join(ran.paths)} {shown}{LATER[rest]}: {details}") from None

    @staticmethod
    def judge_fault(store, found, ran, how):
        # Standard error that is closed or full ends nothing.
        if ran.kind == "output" and ran.status == 0 and ran.out and not ran.err:
            return
        hold(ran.status == DEVICE, f"another status than {DEVICE}: {ran.text()}")
        if ran.kind == "output":
            return
        hold(any(os.strerror(how) in line for line in ran.err.splitlines()), f"no line says {os.strerror(how)!r}: {ran.text()}")
        left = found.begins(UNFINISHED)
        is_of_folder = any(path.rstrip("/") == str(store) for path in ran.paths) and ran.kind != "sync"
        # Without the table of mounts nothing is begun, so what was left before stays.
        is_of_mounts = left == [LEFTOVER] and any(path.endswith("/mountinfo") for path in ran.paths)
        may_be_left = ran.kind == "unlink" or is_of_folder or is_of_mounts or (left == [LEFTOVER] and is_of_leftover(ran))
        hold(not left or may_be_left, f"a temporary file is left: {left}: {ran.text()}")


class Reading:
    """A file is read, and one call fails."""

    words = ("read",)

    def __init__(self, calls, files, name):
        self.calls, self.files, self.name = calls, files, name
        self.place = calls.folder / "read"
        self.store = files.lay(self.place)
        # One fragment is lost and one damaged.
        (self.store / f"{name}.x1").unlink()
        damaged = self.store / f"{name}.y0"
        damaged.write_bytes(damaged.read_bytes()[:-1] + b"!")

    def command(self):
        return [PROGRAM, "read", self.store, self.name]

    def run(self, number=0, how="", rest=""):
        """A run, and what it wrote."""
        with tempfile.TemporaryFile(dir=self.calls.folder) as output:
            ran = self.calls.run(self.command(), number, how, rest, output=output)
            output.seek(0)
            return ran, output.read()

    def kinds(self):
        ran, written = self.run()
        hold(ran.status == 0 and written == self.files.data[self.name], f"read without a fault: {ran.text()}")
        return ran.kinds

    def turn(self, number, how, rest=""):
        ran, written = self.run(number, how, rest)
        data = self.files.data[self.name]
        shown = how if isinstance(how, str) else errno.errorcode[how]
        where = f"call {number}, {' and '.join(ran.paths)} {shown}{LATER[rest]}: {ran.text()}"
        hold(data.startswith(written), f"{ran.kind}, wrote what isn't the file's: {where}")
        hold(ran.status != 0 or written == data, f"{ran.kind}, status 0, and a part alone was written: {where}")
        if how == "kill":
            hold(ran.status == -signal.SIGKILL, f"{ran.kind}, it wasn't killed: {where}")
        elif ran.status != 0:
            hold(how != "short", f"{ran.kind}, another status than without: {where}")
            hold(ran.status == DEVICE, f"{ran.kind}, another status than {DEVICE}: {where}")
            hold(any(os.strerror(how) in line for line in ran.err.splitlines()), f"{ran.kind}, no line says why: {where}")


def refuse_all(pool, known, folder, files, encoded, name):
    """Each allocation is refused, and each with all after it."""
    library = refusals.Library(folder, forks=True)
    reading = Reading(Calls(folder), encoded, name)
    turns = Turns(reading.calls, "refused")

    def ended(ran, is_done, refusal):
        if ran.status == 0 and is_done:
            return "answered"
        if ran.status == NO_MEMORY and (b"out of memory" in ran.err or refusal.rest):
            return "out of memory"
        raise refusals.Fault(f"{refusal}: {ran.text()}")

    def read(refusal):
        ran = library.run([str(it) for it in reading.command()], refusal=refusal)
        if not files.data[name].startswith(ran.out):
            raise refusals.Fault(f"{refusal}: wrote what isn't the file's")
        return ran, ended(ran, ran.out == files.data[name], refusal)

    def encode(refusal):
        place = turns.new()
        store = files.lay(place)
        try:
            command = [str(it) for it in Encoding(reading.calls, known, files).command(place)]
            ran, found = library.run(command, refusal=refusal), Found(store)
            files.hold_names(found, ran)
            kind = ended(ran, True, refusal)
            files.hold_ended(lambda: finished(command), known, place, found)
            return ran, kind
        except Fault as fault:
            raise Fault(f"{refusal}: {fault}") from None
        finally:
            take_all_away(place)

    for command in (encode, read):
        for rest in (False, True):
            refusals.make(refusals.Walk(f"rebuild-store {command.__name__}", "allocation", rest, command, {"out of memory"}), pool)


def main():
    if sys.argv[1:]:
        globals()["PROGRAM"] = pathlib.Path(sys.argv[1]).resolve()
    choose = random.Random(2026)
    data = {"long": choose.randbytes(400_001), "short": b"12345", "empty": b""}
    other = {f"other.{place}": fragment for place, fragment in stripe(CODE, 40, choose).items()}
    after = other | {name: bytes_ for file, text in data.items() for name, bytes_ in names_of(file, text).items()}
    files = Files(data, other | {LEFTOVER: b"half"}, after)
    encoded = Files(data, after, after)
    shared = pathlib.Path("/dev/shm")
    place = shared if shared.is_dir() and os.access(shared, os.W_OK) else None
    faults = []
    pool = Processes()
    with tempfile.TemporaryDirectory(dir=place) as scratch:
        folder = pathlib.Path(scratch)
        calls, known = Calls(folder, forks=True), Known(folder / "known")
        encoding, reading = Encoding(calls, known, files), Reading(calls, encoded, "long")
        (folder / "refused").mkdir()
        for part in (
            lambda: walk(pool, encoding, all_ways, needed=ENCODING),
            lambda: walk(pool, encoding, only("short", "read", "write", "output")),
            lambda: walk(pool, reading, lambda kind: [*errors_of(kind), "kill", "short"], needed=READING),
            lambda: walk(pool, reading, only(errno.EIO, "read", "open", "look"), rest="path"),
            lambda: refuse_all(pool, known, folder / "refused", files, encoded, "long"),
        ):
            try:
                part()
            except (Fault, refusals.Fault) as fault:
                faults.append(f"file-faults: {fault}")
    if faults:
        sys.exit("\n".join(faults))


if __name__ == "__main__":
    main()
