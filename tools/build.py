#!/usr/bin/env python3
"""Proves crates with all that they use, and builds them: programs (`rebuild`, `rebuild_store`) or the C library (`lrc_c`).

    build.py NAME.. LEVEL [JOBS]    for a level of the processor, as x86-64-v3, with JOBS processors (all that there are); the library
                                    also for another kind of processor, as aarch64-unknown-linux-gnu
    build.py lrc_c LEVEL [JOBS] by-ci
                                    builds the library over crates as `rt ci` proves them, as the gate does: with PROVED_IN=FOLDER, over
                                    those that a run of it has proved in that folder, of the same files
    build.py NAME.. LEVEL [JOBS] by-lib
                                    proves crates by `rt lib` and `rt run`, so that `rt check` and `rt must-fail` go on from there, and
                                    after an edit only what that changes is proved
    build.py settle                 puts back what a build that was killed has left

What is built is in the crate's out/LEVEL, with the record of its build; what was built last for a level of this processor is in its out/
too. So a level that was built before isn't built again.

Each crate is proved over libraries that hold the statements of those below it, and not their proofs, which have several times as many bytes
to load (lrc_field 104 MB in place of 18). What was checked isn't kept beside such a library, so that a crate is proved whole once it has
changed.

Crates are proved beside each other, each as soon as those that it uses are there. The two with the longest ways to the end, by the time
that their lines take, have half of the processors each, and the others one each at a lower priority: with more jobs a proof takes more of
the processors in all (lrc_field 138 s with one, 152 with two, 202 with four), and at much lower priorities what a crate of the longest way
uses too is late. Where no more than two can be proved, or what else doesn't wait for the first takes less than it, the first has all. One
more is proved than there are processors, so that a crate on a long way doesn't wait for one on a short way. A crate whose sources, and
those of the crates below it, are as they were when it was proved is not proved again, and a build that was interrupted goes on from there.

`rt` locks every crate that it reads, so two crates above a third can't be proved at once in one place. So each is proved in a room
of its own below out/: a copy of its sources and of those below it, with the libraries below it as hard links."""

import fcntl
import functools
import hashlib
import os
import pathlib
import re
import shutil
import signal
import subprocess
import sys
import tempfile
import time

ROOT = pathlib.Path(__file__).resolve().parent.parent
ROOMS = ROOT / "out" / "rooms"
# How many seconds whole builds took here, each on a line after the names of what was built.
TIMES = ROOT / "out" / "build-times"
PARTS = ("src", "specs", "proofs")
# The words by which crates are taken as `rt ci` proves them, or are proved by `rt lib`.
BY_CI, BY_LIB = "by-ci", "by-lib"
# Stands, before a sum, in place of a library's stamp, by which `rt lib` knows its own work.
STATEMENTS = "statements of"
# The variable that names the folder in which a run of `rt ci` has proved the crates below the library, of the same files.
PROVED_IN = "PROVED_IN"
# What is in a crate's out/ beside the record of the build: the prover's work, the library, and what is built.
WORK = ("incremental", "rlib")
# The memory of a proof with one job, and of each further job, about: the most that was seen is 1.4 GB, and 10 with four (farm_core), of
# which a part is shared.
FIRST, FURTHER = 1_400_000_000, 2_000_000_000
# More jobs than this a proof doesn't use.
MOST_JOBS = 8
# The crate with the longest way has rank 0, the next 1, and all after them this rank; by how much each rank's priority is lower.
MOST_RANK = 2
NICER = 2
# The seconds that a proof with one job takes for a line of src, about, and those for loading what a crate uses; a program, which uses more,
# is built too. Lines of proofs say less: a proof that the prover finds has none.
FOR_A_LINE, FOR_A_LIBRARY, FOR_A_PROGRAM = 0.2, 15, 250
# How many more crates are proved at once than there are processors: that takes what is left by those of lower rank.
MORE = 1
# How many lines of what rt said are shown where it fails.
SHOWN = 40


def stop(why):
    print(f"build: {why}", file=sys.stderr)
    sys.exit(1)


class Crate:
    """A crate of crates.txt: its line there, and the crates below it."""

    def __init__(self, name, line, below):
        self.name, self.line, self.below = name, line, below
        self.folder = ROOT / "crates" / name
        self.is_program = (self.folder / "src/main.rt").is_file()
        self.is_static = "staticlib" in line.partition(":")[0].split()

    def all_below(self):
        found = []
        for it in self.below:
            found += [one for one in [*it.all_below(), it] if one not in found]
        return found

    def proof_seconds(self):
        """How many seconds its proof takes with one job, about."""
        lines = sum(file.read_bytes().count(b"\n") for file in (self.folder / "src").rglob("*.rt"))
        return FOR_A_LINE * lines + (FOR_A_PROGRAM if self.is_program else FOR_A_LIBRARY)

    def has_levels(self):
        """Whether what is built depends on the level; a library of Rattle's doesn't."""
        return self.is_program or self.is_static

    def place(self, level):
        """The folder of what is built for a level, or for another kind of processor."""
        return self.folder / "out" / (level if self.has_levels() else "")

    def made(self):
        """The name below out/ of the file that building it makes."""
        return self.name if self.is_program else f"lib{self.name}.a" if self.is_static else "rlib/stamp"

    def built(self, level):
        """The file that building it makes, by which a record is held to what was built."""
        return self.place(level) / self.made()

    def last_built(self, level):
        """Where what was built last is found: for another kind of processor in the place of its own."""
        return self.built(level) if is_target(level) else self.folder / "out" / self.made()

    def option(self, level):
        return f"--target={level}" if is_target(level) else f"--cpu={level}"

    def arguments(self):
        """Those that the gate runs a program with, which is run once it is built."""
        words = self.folder / "args"
        return words.read_text().splitlines() if words.is_file() else []

    def command_by_lib(self, level, jobs):
        """What proves it by `rt`, and builds it."""
        verb = "run" if self.is_program else "lib"
        given = ["--", *self.arguments()] if self.is_program else []
        return ["rt", verb, "--jobs", str(jobs), *([self.option(level)] if self.has_levels() else []), *given]

    def commands(self, level, jobs):
        """What proves it over libraries of statements, and builds it: commands, one after the other."""
        build = self.prover("build", "..", jobs)
        if not self.has_levels():
            return [[*build, "--statements", "-o", f"out/rlib/{self.name}.rlib"]]
        build += ["--toolchain", toolchain() / "toolchain", "--backend", "llvm", self.option(level), "--incremental", "out/incremental"]
        if self.is_static:
            return [[*build, "--crate-type", "staticlib", "-o", f"out/{self.made()}"]]
        made = f"out/{self.made()}"
        return [[*build, "-o", f"{made}.o"], linker(made, f"{made}.o"), [made, *self.arguments()]]

    def uses(self):
        """The crates that it uses, `std` among them."""
        return ["std", *self.line.partition(":")[2].split()]

    def prover(self, verb, crates, jobs):
        """The prover's own words for this crate."""
        root = "src/main.rt" if self.is_program else "src/lib.rt"
        return prover(verb, (self.name, root), self.uses(), self.all_below(), crates, jobs)

    @functools.lru_cache(maxsize=None)
    def inputs(self, root, level, kit):
        """A sum of all that it is made from: the toolchain, its line, its sources and the sums of the crates below it."""
        found = hashlib.sha256(repr((kit, self.line, level if self.has_levels() else "")).encode())
        for part in PARTS:
            for file in sorted(path for path in (root / self.name / part).rglob("*") if path.is_file()):
                found.update(repr((str(file.relative_to(root)), file.read_bytes())).encode())
        for it in self.below:
            found.update(it.inputs(root, level, kit).encode())
        return found.hexdigest()

    def record(self, inputs, level):
        """What the record of a build from these inputs says, or None where nothing is built."""
        return f"{inputs} {sum_of(self.built(level))}\n" if self.built(level).is_file() else None

    def write_record(self, inputs, level):
        (self.place(level) / "built").write_text(self.record(inputs, level))

    def is_built(self, inputs, level):
        file = self.place(level) / "built"
        return file.is_file() and file.read_text() == self.record(inputs, level)


def prover(verb, crate, uses, below, crates, jobs):
    """The prover's own words for a crate, with its root, that uses these, over those below as they were proved in a folder of crates, where
    `rt` would prove them again."""
    kit = toolchain()
    own = {it.name: f"{crates}/{it.name}/out/rlib" for it in below}
    words = [kit / "bin/rattle", verb, "--crate-name", *crate, "--jobs", str(jobs)]
    for name in uses:
        words += ["--extern", f"{name}={own.get(name, kit / 'rlibs')}/{name}.rlib"]
    for folder in [kit / "rlibs", *own.values()]:
        words += ["-L", f"dependency={folder}"]
    return [*words, "--antt-project", kit / "rattle/logic/antt-project.json", "--logic-built", kit / "logic_built"]


def linker(program, *objects):
    """The words that link a program, as `rt run` does."""
    kit = toolchain()
    words = [kit / "bin/rattle-link", "--target", "x86_64-unknown-linux-gnu", "--toolchain", kit / "toolchain", "-o", program, *objects]
    return [*words, kit / "c/libos_c.a", kit / "c/liblibc_c.a"]


@functools.lru_cache(maxsize=None)
def toolchain():
    """The folder of the toolchain."""
    return pathlib.Path(subprocess.run(["rt", "doc"], check=True, capture_output=True, text=True).stdout.strip()).parent


def is_target(level):
    """Whether what is built for is another kind of processor, and no level of this one."""
    return level.endswith("-linux-gnu")


def sum_of(file):
    return hashlib.sha256(file.read_bytes()).hexdigest()


def read_crates():
    """The crates of crates.txt by their names."""
    lines = {}
    for line in (ROOT / "crates.txt").read_text().splitlines():
        line = " ".join(line.partition("#")[0].split())
        if line:
            lines[line.partition(":")[0].split()[0]] = line
    crates = {}

    def crate(name):
        if name not in crates:
            below = lines[name].partition(":")[2].split()
            crates[name] = Crate(name, lines[name], [crate(it) for it in below if it in lines])
        return crates[name]

    for name in lines:
        crate(name)
    return crates


def number_in(file, pattern):
    try:
        return int(re.search(pattern, pathlib.Path(file).read_text())[1])
    except (OSError, TypeError):
        return None


def processors():
    """How many processors there are to use: those of this process, or fewer by the quota of its control group."""
    found = len(os.sched_getaffinity(0))
    quota = number_in("/sys/fs/cgroup/cpu.max", r"^(\d+)")
    period = number_in("/sys/fs/cgroup/cpu.max", r"^\d+ (\d+)")
    return min(found, max(quota // period, 1)) if quota and period else found


def memory():
    """The memory that is free, under the control group's limit too, of which some is left."""
    found = [1024 * number_in("/proc/meminfo", r"MemAvailable:\s+(\d+)")]
    limit, held = number_in("/sys/fs/cgroup/memory.max", r"^(\d+)"), number_in("/sys/fs/cgroup/memory.current", r"^(\d+)")
    if limit and held is not None:
        found.append(limit - held)
    return 0.85 * min(found)


class Run:
    """The proof of a crate in a room of its own."""

    def __init__(self, crate, lock, level, jobs, rank, build):
        self.crate, self.lock, self.level, self.jobs, self.rank, self.start = crate, lock, level, jobs, rank, time.monotonic()
        self.room = ROOMS / crate.name
        make_room(crate, self.room, level)
        self.inputs = crate.inputs(self.room / "crates", level, build.kit)
        self.said = self.room / "said"
        self.commands = [crate.command_by_lib(level, jobs)] if build.is_by_lib else crate.commands(level, jobs)
        self.has_statements = not build.is_by_lib and not crate.has_levels()
        if self.has_statements:
            # What is there isn't a whole library's place, which rt writes anew.
            remove(self.made_in() / "rlib")
            (self.made_in() / "rlib").mkdir()
        self.begin()

    def made_in(self):
        return self.room / "crates" / self.crate.name / "out"

    def begin(self):
        """Starts the next command."""
        # The lock goes to what is started too, so that it is held until that ends, however this process ends.
        how = {"cwd": self.room / "crates" / self.crate.name, "stdin": subprocess.DEVNULL, "pass_fds": [self.lock]}
        with open(self.said, "a") as said:
            how["preexec_fn"] = functools.partial(os.nice, NICER * self.rank)
            self.process = subprocess.Popen(self.commands.pop(0), stdout=said, stderr=subprocess.STDOUT, **how)

    def has_ended(self):
        """Whether all commands have ended, or one has failed; each is started once the one before it has ended well."""
        while self.process.poll() == 0 and self.commands:
            self.begin()
        return self.process.poll() is not None

    def need(self):
        return FIRST + FURTHER * (self.jobs - 1)

    def seconds(self):
        return int(time.monotonic() - self.start)

    def end(self):
        """Takes what was made out of the room, and gives back the lock; whether all is well, and what rt said."""
        said = self.said.read_text(errors="replace")
        is_well = self.process.returncode == 0 and not self.commands
        if is_well and self.crate.has_levels():
            self.crate.place(self.level).mkdir(exist_ok=True)
            os.replace(self.made_in() / self.crate.made(), self.crate.built(self.level))
        elif is_well and self.has_statements:
            (self.made_in() / "rlib/stamp").write_text(f"{STATEMENTS} {self.inputs}\n")
        leave_room(self.crate, self.room)
        if is_well:
            self.crate.write_record(self.inputs, self.level)
        os.close(self.lock)
        return is_well, said

    def stop(self):
        """Ends the proof. The crates that are proved stay so, and the next build goes on from there."""
        self.process.terminate()
        self.process.wait()
        self.end()


def lock_of(folder):
    """Takes the lock by which rt keeps two runs out of one folder, or gives None where another has it."""
    held = os.open(folder, os.O_RDONLY)
    try:
        fcntl.flock(held, fcntl.LOCK_EX | fcntl.LOCK_NB)
    except BlockingIOError:
        os.close(held)
        return None
    return held


def copy_sources(crate, room):
    """Copies a crate's sources into a room, and gives its folder there."""
    to = room / "crates" / crate.name
    for part in PARTS:
        if (crate.folder / part).is_dir():
            shutil.copytree(crate.folder / part, to / part)
    return to


def make_room(crate, room, level):
    """Makes a room for the proof of a crate, and moves into it what earlier proofs have left."""
    leave_room(crate, room)
    room.mkdir(parents=True)
    those = [*crate.all_below(), crate]
    (room / "crates.txt").write_text("".join(f"{it.line}\n" for it in those))
    for it in those:
        to = copy_sources(it, room)
        if it is not crate and (it.folder / "out/rlib").is_dir():
            shutil.copytree(it.folder / "out/rlib", to / "out/rlib", copy_function=os.link)
    out = room / "crates" / crate.name / "out"
    out.mkdir()
    (crate.folder / "out").mkdir(exist_ok=True)
    for name in WORK:
        if (crate.folder / "out" / name).is_dir():
            os.rename(crate.folder / "out" / name, out / name)
    (crate.place(level) / "built").unlink(missing_ok=True)


def leave_room(crate, room):
    """Moves what a proof has made out of its room, and removes the room."""
    made, to = room / "crates" / crate.name / "out", crate.folder / "out"
    if made.is_dir():
        to.mkdir(exist_ok=True)
        for it in made.iterdir():
            remove(to / it.name)
            os.rename(it, to / it.name)
    remove(room)


def remove(path):
    if path.is_dir():
        shutil.rmtree(path)
    else:
        path.unlink(missing_ok=True)


def settle(crates):
    """Puts back what a build that was killed has left in its rooms."""
    for room in ROOMS.iterdir() if ROOMS.is_dir() else []:
        crate = crates.get(room.name)
        lock = lock_of(crate.folder) if crate else None
        if crate and lock is None:
            stop(f"another run works in crates/{crate.name}: wait for its end")
        if crate:
            leave_room(crate, room)
            os.close(lock)
        else:
            remove(room)
    for it in (ROOMS, ROOMS.parent):
        if it.is_dir() and not os.listdir(it):
            it.rmdir()


def proved_by_ci(crates, jobs, room):
    """Has `rt ci` prove these crates, and gives the folder in which it leaves them: one that has these crates alone and none of their wrong
    bodies, so that it tries none; or the one in which the gate's own run, which goes on beside, has proved them."""
    if os.environ.get(PROVED_IN):
        return pathlib.Path(os.environ[PROVED_IN])
    (room / "crates.txt").write_text("".join(f"{it.line}\n" for it in crates))
    shutil.copy(ROOT / "HANDLES", room)
    how = {"stdin": subprocess.DEVNULL, "stdout": subprocess.PIPE, "stderr": subprocess.STDOUT, "text": True, "errors": "replace"}
    ran = subprocess.run(["rt", "ci"], cwd=room, env={**os.environ, "RT_JOBS": str(jobs)}, **how)
    if ran.returncode:
        stop("\n".join(["rt ci has not proved them; what it said last:", *ran.stdout.splitlines()[-SHOWN:]]))
    return room


def take_from_ci(crates, level, jobs, kit):
    """Puts the libraries of these crates that `rt ci` makes where a build looks for them, with records."""
    locks = [lock_of(it.folder) for it in crates]
    if None in locks:
        stop("another run works in these crates: wait for its end")
    with tempfile.TemporaryDirectory() as room:
        room = pathlib.Path(room)
        for it in crates:
            copy_sources(it, room)
        print(f"Taken as rt ci proves them: {', '.join(it.name for it in crates)}", flush=True)
        proved = proved_by_ci(crates, jobs, room)
        for it in crates:
            library = it.folder / "out/rlib"
            remove(library)
            shutil.copytree(proved / "crates" / it.name / "out/rlib", library)
            inputs = it.inputs(room / "crates", level, kit)
            (library / "stamp").write_text(f"{STATEMENTS} {inputs}\n")
            it.write_record(inputs, level)
    for lock in locks:
        os.close(lock)


class Build:
    """The crates that are to be proved, and those that are being proved."""

    def __init__(self, crates, level, jobs, kit, is_by_lib):
        self.level, self.jobs, self.kit, self.is_by_lib = level, jobs, kit, is_by_lib
        self.inputs = {it: it.inputs(ROOT / "crates", level, kit) for it in crates}
        self.left = [it for it in crates if not it.is_built(self.inputs[it], level)]
        self.done = [it for it in crates if it not in self.left]
        self.running, self.memory, self.shown, self.waits = [], memory(), "", set()
        # The seconds from a crate to the end of the build, about.
        self.way = {}
        for it in reversed(crates):
            self.way[it] = it.proof_seconds() + max((self.way[above] for above in crates if it in above.below), default=0)

    def beside(self, crate):
        """The seconds of a processor that the crates still take which don't wait for this one, about."""
        waiting = sum(it.proof_seconds() for it in self.left if it is not crate and crate not in it.all_below())
        return waiting + sum(max(it.crate.proof_seconds() - it.seconds(), 0) for it in self.running)

    def start_all(self):
        """Starts each crate whose libraries are there, as far as processors and memory go."""
        ready = [it for it in self.left if all(below in self.done for below in it.below)]
        are_many = len(ready) + len(self.running) > 2
        for crate in sorted(ready, key=lambda it: -self.way[it]):
            rank = min(sum(self.way[it.crate] >= self.way[crate] for it in self.running), MOST_RANK)
            free = self.memory - sum(it.need() for it in self.running)
            if self.running and (free < FIRST or len(self.running) >= self.jobs + MORE):
                return
            # On two processors the first has both, as it has all where few are left.
            is_last = rank == 0 and self.beside(crate) < crate.proof_seconds()
            share = max(self.jobs // 2, 2 - rank) if are_many and not is_last else self.jobs // 2**rank
            jobs = min(max(share, 1) if rank < MOST_RANK else 1, self.jobs, MOST_JOBS, 1 + int(max(free - FIRST, 0) // FURTHER))
            lock = lock_of(crate.folder)
            if lock is None:
                if crate not in self.waits:
                    self.say(f"crates/{crate.name} is waited for: another run works there")
                self.waits.add(crate)
                continue
            self.left.remove(crate)
            self.running.append(Run(crate, lock, self.level, jobs, rank, self))

    def say(self, line):
        """Says a line, in the place of that on what runs."""
        if sys.stdout.isatty():
            print("\r\033[K", end="")
        print(line, flush=True)

    def say_running(self):
        """Says what runs: once, or in a terminal over and over in one line."""
        if sys.stdout.isatty():
            now = ", ".join(f"{it.crate.name} {it.seconds()} s" for it in self.running)
            print(f"\r\033[Know: {now}", end="", flush=True)
        else:
            now = ", ".join(it.crate.name for it in self.running)
            if now != self.shown and now:
                print(f"  now: {now}", flush=True)
            self.shown = now

    def end(self, run):
        """Takes in a proof that has ended."""
        self.running.remove(run)
        is_well, said = run.end()
        if not is_well:
            self.say(f"{run.crate.name:<13} NOT PROVED; what rt said last:")
            print(*said.splitlines()[-SHOWN:], sep="\n")
            sys.exit(1)
        found = re.findall(r"^logic=proved functions=(\d+)", said, re.M)
        what = f"{int(found[-1]):4} functions proved" if found else "as it was proved"
        self.say(f"{run.crate.name:<13} {what:<21} {run.seconds():4} s")
        self.done.append(run.crate)

    def run(self):
        try:
            while self.left or self.running:
                self.start_all()
                self.say_running()
                ended = [it for it in self.running if it.has_ended()]
                for run in ended:
                    self.end(run)
                if not ended:
                    time.sleep(0.2)
        finally:
            for run in self.running:
                run.stop()


def minutes(seconds):
    return f"{seconds // 60} minutes and {seconds % 60} seconds"


def with_all_below(tops):
    """These crates and all that they use, each after those below it."""
    return list(dict.fromkeys(it for top in tops for it in [*top.all_below(), top]))


def times():
    """How long whole builds took here, by the names of what was built."""
    lines = TIMES.read_text().splitlines() if TIMES.is_file() else []
    return {names: int(seconds) for names, _, seconds in (line.rpartition(" ") for line in lines)}


def keep_time(names, seconds):
    TIMES.parent.mkdir(exist_ok=True)
    TIMES.write_text("".join(f"{names} {seconds}\n" for names, seconds in {**times(), names: seconds}.items()))


def described(tops, level):
    """What is proved and built, in words."""
    below = len(with_all_below(tops)) - len(tops)
    if len(tops) > 1:
        names = ", ".join(it.name for it in tops)
        return f"Proving {names} and the {below} crates that they use, then building them for {level}"
    what = "program" if tops[0].is_program else "library"
    return f"Proving the {what} and the {below} crates that it uses, then building it for {level}"


def show(tops, level):
    """Puts what is built for a level where what was built last is found, and gives the names of these files."""
    for top in tops:
        built, last = top.built(level), top.last_built(level)
        if not last.is_file() or built.read_bytes() != last.read_bytes():
            shutil.copy(built, last.with_name(f"{last.name}.new"))
            os.replace(last.with_name(f"{last.name}.new"), last)
    return " and ".join(str(top.last_built(level).relative_to(ROOT)) for top in tops)


def main(names, level, jobs, how):
    start = time.monotonic()
    crates = read_crates()
    tops = [crates[name] for name in names]
    if how == BY_CI and not all(it.is_static for it in tops):
        stop(f"{BY_CI} is for the library alone")
    lock = lock_of(ROOT / "crates")
    if lock is None:
        stop("another build runs here: wait for its end")
    settle(crates)
    kit = subprocess.run(["rt", "version"], check=True, capture_output=True, text=True).stdout
    # What is built over one kind of libraries is no other build's.
    kit += how
    if how == BY_CI:
        below = [it for it in with_all_below(tops) if it not in tops]
        if not all(it.is_built(it.inputs(ROOT / "crates", level, kit), level) for it in below):
            take_from_ci(below, level, jobs, kit)
    build = Build(with_all_below(tops), level, jobs, kit, how == BY_LIB)
    if not build.left:
        print(f"Nothing has changed since this was built for {level}: {show(tops, level)}")
        return
    print(f"{described(tops, level)}; processors: {jobs}.")
    if build.done:
        print(f"As they were proved before: {', '.join(it.name for it in build.done)}")
    else:
        seen = times().get(" ".join(names))
        print(f"The whole took {minutes(seen)} here before." if seen else "README says how long it was seen to take.",
              "After a change the crates are proved that it changes, and those above them.")
    sys.stdout.flush()
    is_whole = not build.done
    try:
        build.run()
    finally:
        settle(crates)
    took = int(time.monotonic() - start)
    if is_whole:
        keep_time(" ".join(names), took)
    print(f"Built in {minutes(took)}: {show(tops, level)}")


if __name__ == "__main__":
    for number in (signal.SIGTERM, signal.SIGHUP):
        signal.signal(number, lambda *_: sys.exit(1))
    if sys.argv[1:] == ["settle"]:
        settle(read_crates())
        sys.exit()
    how = sys.argv.pop() if sys.argv[-1] in (BY_CI, BY_LIB) else ""
    words = sys.argv[1:]
    jobs = int(words.pop()) if words and words[-1].isdecimal() else processors()
    if len(words) > 1 and all(it in read_crates() for it in words[:-1]):
        try:
            main(words[:-1], words[-1], jobs, how)
        except KeyboardInterrupt:
            print("\nbuild: stopped; the crates that are proved stay so, and the next build goes on from there", file=sys.stderr)
            sys.exit(130)
    else:
        sys.exit(__doc__)
