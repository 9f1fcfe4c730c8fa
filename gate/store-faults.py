#!/usr/bin/env python3
"""Tries rebuild-store where the system fails: each call that opens, reads, writes, syncs, names or removes a file fails in a run of its
own, by fail-call.c, which is preloaded, or the run is killed just before it; and each allocation and each thread is refused.

    store-faults.py [PROGRAM]

It runs what was built last. After each fault every name has all of its bytes or isn't there, the stripes that the fault didn't meet are
repaired, a line names the file and the fault, and the same command again makes the store whole and leaves nothing behind."""

import dataclasses
import errno
import functools
import hashlib
import itertools
import os
import pathlib
import random
import re
import signal
import subprocess
import sys
import tempfile

# No compiled copy of the modules is left beside them.
sys.dont_write_bytecode = True
sys.path.append(str(pathlib.Path(__file__).resolve().parent.parent / "tools"))
import refusals  # noqa: E402
from faults import LATER, READ_KINDS, ROOT, Calls, Ended, Fault, Processes, all_ways  # noqa: E402
from faults import errors_of, finished, hold, lay, only, walk  # noqa: E402
from found import Found, Known, take_away  # noqa: E402
from store import stripe  # noqa: E402

PROGRAM = ROOT / "crates/rebuild_store/out/rebuild_store"
# The program reads a fragment in windows of so many bytes.
WINDOW = 65_536
UNFINISHED = ".rebuild-store-"
# What a run that was killed has left: the digits are at random.
LEFTOVER = UNFINISHED + "0123456789abcdef"
MODE = 0o640
DEVICE, LEFT, NO_MEMORY = 3, 1, 4
# Who may not give a file away keeps it, for himself alone, so this is no fault.
ALLOWED = {("chown", errno.EACCES), ("chown", errno.EPERM)}
PRIVATE = 0o600
# The kinds of calls of each command; with one that the program stops to make, the preloaded library no longer sees what it should.
LISTING = {"open", "list", "look", "output"}
READING = LISTING | {"read"}
REPAIRING = READING | {"lock", "create", "write", "sync", "chown", "chmod", "link", "unlink"}
REPLACING = REPAIRING | {"rename"}


@dataclasses.dataclass(frozen=True)
class Store:
    """A store before and after a repair: the bytes of its files by their names."""

    before: dict
    after: dict

    def lay(self, folder):
        """Makes the store's folder."""
        folder.mkdir()
        lay(folder, self.before, MODE)

    @functools.cached_property
    def digest(self):
        """A digest of both."""
        named = [(name.encode(), data) for files in (self.before, self.after) for name, data in sorted(files.items())]
        return hashlib.sha256(b"".join(b"%s %d %s" % (name, len(data), data) for name, data in named)).hexdigest()

    def is_whole(self, found, but=()):
        return {name: data for name, data in found.files.items() if name not in but} == self.after

    def unfinished(self, found):
        """The fragments that haven't yet the bytes that they should have, each of a stripe that was not repaired."""
        return {name for name, data in self.after.items() if found.files.get(name) != data}

    def hold_names(self, found, seen):
        """Each name has all of its bytes, old or new, and what was there is there."""
        text, modes = seen.text(), {MODE, PRIVATE if seen.kind == "chown" else MODE}
        there = {name: data for name, data in found.files.items() if not name.startswith(UNFINISHED)}
        for name in found.files.keys() - there.keys() - {LEFTOVER}:
            mode = found.mode(name)
            hold(mode in {PRIVATE, *modes}, f"an unfinished file has other rights: {name}: {mode:o}: {text}")
        for name, data in there.items():
            whole = [self.before.get(name), self.after.get(name)]
            if name.endswith(".damaged"):
                whole.append(self.before.get(name.removesuffix(".damaged")))
            hold(data in whole, f"a name has bytes that are no fragment's: {name}: {text}")
            hold(found.mode(name) in modes, f"a name has another mode: {name}: {text}")
        for name in self.before:
            hold(name in there or name.startswith(UNFINISHED), f"a name is gone: {name}: {text}")

    def hold_repaired(self, run, words, known, folder, found, kept=()):
        """The same command again, with these words, makes the store whole, but for what was kept. From a state from which it did it isn't
        run again."""
        def again():
            second = run()
            hold(second.status == 0, f"the same command again ends otherwise than with 0: {second.text()}")
            hold(self.is_whole(Found(folder), kept), f"isn't whole after the same command again: {second.text()}")

        known.see([self.digest, *words, "", *sorted(kept), "", found.state(self.before, self.after)], again)


def store_of(code, choose, has_damage):
    """Four stripes: one of two windows and two lost fragments, one with a lost parity, one that lost one and may have one damaged, and a
    whole one; and a file that a run that was killed has left."""
    stripes = {f"s{k}": stripe(code, length, choose) for k, length in enumerate((WINDOW + 100, 700, 900, 30))}
    after = {f"{name}.{place}": data for name, fragments in stripes.items() for place, data in fragments.items()}
    before = {name: data for name, data in after.items() if name not in ("s0.x0", "s0.y1", "s1.p0", "s2.y0")}
    before[LEFTOVER] = b"half"
    if has_damage:
        before["s2.x1"] = bytes([before["s2.x1"][0] ^ 8]) + before["s2.x1"][1:]
        after["s2.x1.damaged"] = before["s2.x1"]
    return Store(before, after)


class Trial:
    """A command over a store, one of whose calls fails. Each turn has a folder of its own."""

    def __init__(self, calls, known, store, *words, status=0):
        self.calls, self.known, self.store, self.words, self.status = calls, known, store, words, status
        self.turns = itertools.count()

    @property
    def is_repair(self):
        return self.words[0] == "repair"

    def command(self, folder):
        return [PROGRAM, self.words[0], folder, *self.words[1:]]

    def in_folder(self, do):
        """Does something with a folder that has the store anew, and takes it away."""
        place = self.calls.folder / f"turn-{'-'.join(self.words)}-{os.getpid()}-{next(self.turns)}"
        self.store.lay(place)
        try:
            return do(place)
        finally:
            take_away(place)

    def kinds(self):
        """The kinds of all calls of a run without a fault, in their order."""
        def run(folder):
            ran = self.calls.run(self.command(folder))
            return ran, self.below(folder)(ran.out)

        ran, self.out = self.in_folder(run)
        hold(ran.status == self.status, f"{self.words} without a fault: {ran.text()}")
        return ran.kinds

    def turn(self, number, how, rest=""):
        """One call fails."""
        self.in_folder(lambda folder: self.judged(folder, number, how, rest))

    def judged(self, folder, number, how, rest):
        ran = self.calls.run(self.command(folder), number, how, rest)
        hold(ran.failed == 1, f"call {number} of {self.words} wasn't made: {ran.text()}")
        try:
            self.judge(folder, Found(folder), ran, how, rest)
        except Fault as fault:
            shown = how if isinstance(how, str) else errno.errorcode[how]
            what = f"{ran.kind} of {' and '.join(map(self.below(folder), ran.paths))} {shown}{LATER[rest]}"
            why, _, details = str(fault).partition(": ")
            raise Fault(f"{ran.kind}, {why}: call {number}, {what}: {details}") from None

    @staticmethod
    def below(folder):
        return lambda path: path.replace(str(folder), "STORE")

    def judge(self, folder, found, ran, how, rest):
        if not self.is_repair:
            hold(found.files == self.store.before, f"changed the store: {ran.text()}")
        if how != "meanwhile":
            self.store.hold_names(found, ran)
        if how == "kill":
            hold(ran.status == -signal.SIGKILL, f"it wasn't killed: {ran.text()}")
        elif how == "meanwhile":
            self.judge_meanwhile(folder, ran)
            found = Found(folder)
        elif how == "short" or (how == errno.EINTR and ran.status == self.status):
            hold(ran.status == self.status, f"another status than without: {ran.text()}")
            hold(not self.is_repair or self.store.is_whole(found), f"isn't whole: {ran.text()}")
        elif (ran.kind, how) not in ALLOWED:
            self.judge_fault(folder, found, ran, how, rest)
        if self.is_repair:
            # What could not be read may have been replaced, and kept.
            kept = {f"{pathlib.Path(path).name}.damaged" for path in ran.paths} - set(self.store.after) if ran.kind in READ_KINDS else ()
            self.store.hold_repaired(lambda: self.calls.run(self.command(folder)), self.words, self.known, folder, found, kept)

    def judge_meanwhile(self, folder, ran):
        """What another program put under the name that a link was about to give stays as it is, and is named."""
        came = folder / pathlib.Path(ran.paths[1]).name
        hold(ran.status == LEFT, f"another status than {LEFT}: {ran.text()}")
        hold(came.read_bytes() == b"m", f"what came meanwhile was replaced: {came.name}: {ran.text()}")
        named = any(came.name.removesuffix(".damaged") in line for line in ran.err.splitlines())
        hold(named, f"no line names what came meanwhile: {came.name}: {ran.text()}")
        came.unlink()

    def judge_fault(self, folder, found, ran, how, rest):
        """A fault's status, its line, and what was done all the same. One in reading, or in making a fragment, may be of the first of two
        attempts, of which the second has all."""
        attempted = {*READ_KINDS, "create", "lock", "write"}
        if self.is_repair and ran.kind in attempted and ran.status == self.status and self.store.is_whole(found):
            return
        # The folder is locked, so a leftover whose own lock can't be had is known to be one.
        is_of_leftover = any(pathlib.Path(path).name == LEFTOVER for path in ran.paths)
        if self.is_repair and ran.kind == "lock" and is_of_leftover and ran.status == self.status and self.store.is_whole(found):
            return
        # Standard error that is closed or full ends nothing.
        if ran.kind == "output" and ran.status == self.status and self.below(folder)(ran.out) == self.out:
            return
        hold(ran.status == DEVICE, f"another status than {DEVICE}: {ran.text()}")
        if ran.kind == "output":
            return
        names = {pathlib.Path(path).name for path in ran.paths} - {""}
        unfinished = self.store.unfinished(found) if self.is_repair else set()
        said = [line for line in (ran.out + ran.err).splitlines() if os.strerror(how) in line]
        # Where all further calls of its kind fail too, what is said may be of one of those.
        named = said if rest == "kind" else [line for line in said if any(name in line for name in names | unfinished)]
        # A store whose checksums can't be read isn't repaired, nor is any if the table of mounts can't be.
        if any("SHA256SUMS: " in line or "/proc/self/mountinfo: " in line for line in said):
            return
        hold(named, f"no line names the file and the error: {sorted(names | unfinished)}, {os.strerror(how)!r}: {ran.text()}")
        is_of_folder = str(folder) in ran.paths or f"{folder}/" in ran.paths
        if not self.is_repair or (is_of_folder and ran.kind != "sync") or rest == "kind":
            return
        left = found.begins(UNFINISHED)
        hold(not left or ran.kind == "unlink" or left == [LEFTOVER] and is_of_leftover, f"a temporary file is left: {left}: {ran.text()}")
        # The other survivors of its stripe do, but for one of which it can't be told then which is damaged.
        holds_damage = any(name.endswith(".damaged") for name in self.store.after)
        is_of_new = any(pathlib.Path(path).name.startswith(UNFINISHED) for path in ran.paths)
        is_read = ran.kind in READ_KINDS and not is_of_new
        hold(not is_read or holds_damage or not unfinished, f"left what the other survivors determine: {ran.text()}")
        stripes = {name.split(".")[0] for name in unfinished}
        hold(len(stripes) <= 1, f"left other stripes: {sorted(unfinished)}: {ran.text()}")
        done = len([name for name in self.store.after if name not in self.store.before and not name.endswith(".damaged")])
        done += len([name for name in self.store.after if name.endswith(".damaged")])
        done -= len([name for name in unfinished if not name.endswith(".damaged")])
        more = len([name for name in found.files if name.endswith(".damaged") and name not in self.store.after])
        said = re.search(r"^repaired (\d+) ", ran.out, re.M)
        hold(said and int(said[1]) in (done, done + more), f"didn't say how many fragments were repaired: {done}: {ran.text()}")


class Refused:
    """A command whose memory or threads are refused: it says that it is out of memory, or does all that it does without a refusal."""

    def __init__(self, library, known, store, *words, status=0):
        self.library, self.known, self.store, self.words, self.status = library, known, store, words, status
        self.turns = itertools.count()
        self.wanted = None if store else library.run([PROGRAM, *words])

    def __call__(self, refusal):
        if self.store is None:
            ran = self.library.run([PROGRAM, *self.words], refusal=refusal)
            return ran, self.kind(ran, refusal, (ran.status, ran.out, ran.err) == (self.wanted.status, self.wanted.out, self.wanted.err))
        folder = self.library.folder / f"refused-{os.getpid()}-{next(self.turns)}"
        self.store.lay(folder)
        try:
            return self.in_folder(folder, refusal)
        finally:
            take_away(folder)

    def in_folder(self, folder, refusal):
        command = [str(it) for it in (PROGRAM, self.words[0], folder, *self.words[1:])]
        ran = self.library.run(command, refusal=refusal)
        seen, found = Ended(ran.status, ran.out.decode(), ran.err.decode()), Found(folder)
        self.store.hold_names(found, seen)
        is_repair = self.words[0] == "repair"
        if not is_repair:
            hold(found.files == self.store.before, f"changed the store: {seen.text()}")
        kind = self.kind(ran, refusal, ran.status == self.status and (not is_repair or self.store.is_whole(found)))
        if is_repair:
            try:
                self.store.hold_repaired(lambda: finished(command), self.words, self.known, folder, found)
            except Fault as fault:
                raise Fault(f"{refusal}: {fault}") from None
        return ran, kind

    @staticmethod
    def kind(ran, refusal, is_done):
        if is_done:
            return "answered"
        lines = ran.err.decode().splitlines()
        if ran.status == NO_MEMORY and "rebuild-store: out of memory" in lines:
            return "out of memory"
        if ran.status == NO_MEMORY and refusal.rest:
            return "silent"
        raise refusals.Fault(f"{refusal}: {ran.text()}")


def refuse_all(pool, known, folder, lost, damaged):
    """Each allocation is refused, and each with all after it; and so is each thread."""
    library = refusals.Library(folder, forks=True)
    commands = [
        Refused(library, known, lost, "repair", "--workers", "1"),
        Refused(library, known, damaged, "repair", "--workers", "1", "--replace-damaged"),
        Refused(library, known, lost, "lost", status=1),
        Refused(library, known, damaged, "scrub", "--workers", "1", status=1),
        Refused(library, known, None, "--help"),
        Refused(library, known, None, "repair"),
        Refused(library, known, None, "repair", "absent"),
    ]
    for command in commands:
        for rest in (False, True):
            name = f"rebuild-store {' '.join(command.words)}"
            refusals.make(refusals.Walk(name, "allocation", rest, command, {"out of memory"}), pool)
    several = Refused(library, known, lost, "repair", "--workers", "4")
    for rest in (False, True):
        refusals.make(refusals.Walk("rebuild-store repair --workers 4", "thread", rest, several, set(), {"answered"}), pool)


def hold_memory(folder):
    """The memory of a run is bounded by its workers, and by a KiB for each stripe."""
    stripes = 5_000
    folder.mkdir()
    for k in range(stripes):
        for place in ("x0", "x1", "x2", "y0", "y1", "y2", "px", "py", "p0", "p1"):
            if place != "x0" or k % 5:
                (folder / f"s{k}.{place}").write_bytes(bytes(1))
    long = folder / "long"
    long.mkdir()
    for place, data in stripe("6-2-2", 4 << 20, random.Random(1)).items():
        for k in range(16):
            if place != "x0":
                os.link(folder / "long" / f"0.{place}", long / f"{k}.{place}") if k else (long / f"0.{place}").write_bytes(data)
    measure, times = folder.parent / "measure", folder.parent / "times"
    subprocess.run([os.environ.get("CC", "gcc"), "-O2", "-o", measure, ROOT / "bench/measure.c"], check=True)
    rows = [(folder, "lost", 1, 15), (folder, "scrub", 1, 40), (folder, "repair", 0, 40), (long, "repair", 0, 40)]
    for store, command, status, most in rows:
        times.unlink(missing_ok=True)
        ran = finished([measure, times, "run", PROGRAM, command, store, *(["--workers", "16"] if command != "lost" else [])])
        taken = int(times.read_text().split()[2]) * 1024 / 1e6
        what = f"{command} of {'long fragments' if store == long else f'{stripes} stripes'}"
        hold(ran.status == status, f"{what}: {ran.text()}")
        hold(taken <= most, f"{what} took {taken:.0f} MB, and not {most}")
        print(f"store-faults memory: {what}: {taken:.0f} MB, at most {most}", flush=True)


def main():
    if sys.argv[1:]:
        globals()["PROGRAM"] = pathlib.Path(sys.argv[1]).resolve()
    choose = random.Random(2026)
    shared = pathlib.Path("/dev/shm")
    place = shared if shared.is_dir() and os.access(shared, os.W_OK) else None
    faults = []
    pool = Processes()
    with tempfile.TemporaryDirectory(dir=place) as scratch:
        folder = pathlib.Path(scratch)
        for part in parts(pool, folder, store_of("6-2-2", choose, False), store_of("6-2-2", choose, True)):
            try:
                part()
            except (Fault, refusals.Fault) as fault:
                faults.append(f"store-faults: {fault}")
    if faults:
        sys.exit("\n".join(faults))


def parts(pool, folder, lost, damaged):
    """What is tried, one after the other."""
    calls, known = Calls(folder, forks=True), Known(folder / "known")
    repair = Trial(calls, known, lost, "repair", "--workers", "1")
    replace = Trial(calls, known, damaged, "repair", "--workers", "1", "--replace-damaged")
    for trial, needed in ((repair, REPAIRING), (replace, REPLACING)):
        yield lambda: walk(pool, trial, all_ways, needed=needed)
        yield lambda: walk(pool, trial, only("short", "read", "write", "output"))
        yield lambda: walk(pool, trial, only("meanwhile", "link"))
        yield lambda: walk(pool, trial, only(errno.EIO, "read", "open", "look"), rest="path")
        yield lambda: walk(pool, trial, only(errno.EIO, "read", "open", "look"), rest="kind")
        yield lambda: walk(pool, trial, only(errno.ENOSPC, "create", "write", "sync", "link"), rest="kind")
    yield lambda: walk(pool, Trial(calls, known, lost, "lost", status=1), errors_of, needed=LISTING)
    yield lambda: walk(pool, Trial(calls, known, damaged, "scrub", "--workers", "1", status=1), errors_of, needed=READING)
    yield lambda: refuse_all(pool, known, folder, lost, damaged)
    yield lambda: hold_memory(folder / "memory")


if __name__ == "__main__":
    main()
