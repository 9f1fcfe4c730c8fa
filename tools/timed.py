#!/usr/bin/env python3
"""Times what the gate runs, and prints at its end what each crate and each script took.

    timed.py anew                                   forgets what was timed before
    timed.py script COMMAND..                       runs a script
    timed.py proofs [--beside CRATE[,CRATE..] COMMAND].. rt ci
                                                    runs the proofs, and commands beside them, each as soon as they have proved its crates
    timed.py table                                  prints what was timed since `anew`

The status is that of what was run. `rt ci` says when a crate is proved, but not when its proof began nor what it took. So its processes are
looked at once a second: how many seconds of a processor each has had, for which crate and which part of its proof. Left out are processes
of another form, and of each what it had after the last look. Then those get a lower priority for which the longest chain of crates doesn't
wait: the lower the more time there is for them, and the lowest those of tests."""

import collections
import concurrent.futures
import json
import os
import pathlib
import re
import shlex
import signal
import subprocess
import sys
import threading
import time

sys.dont_write_bytecode = True
import build  # noqa: E402

ROOT = pathlib.Path(__file__).resolve().parent.parent
# What was timed, one thing on a line.
TIMES = ROOT / "out" / "gate-times"
# By how much the priority of a script beside the proofs is lower than theirs, so that it takes what these leave. What waits for several
# crates begins where few proofs are left, and has more, so that it ends beside them and within its own time limits.
NICER, LESS_NICER = "15", "5"
# By how much that of a proof is: more by one for each so many seconds, about, by which the chains through it are shorter than the longest,
# up to this; and of the proofs of tests, for which no crate waits. `rt ci` takes first what has the most lines from there on, and gives all
# the same.
FOR_ONE, OTHERS_NICER, TESTS_NICER = 400, 5, 7
# Seconds between two looks at the processes.
BETWEEN = 1
TICKS = os.sysconf("SC_CLK_TCK")
# The lines by which `rt ci` says how far it is, after which it is said how much time has passed.
MARKS = re.compile(r"rt: .* (?:proved|NOT PROVED)$")
# Those that say that a crate was proved by an earlier run.
KNOWN = re.compile(r"rt: (\w+) is kept: ")
# Those from which on what was proved of a crate, or of its tests, is there for others; and what follows the crate's name for the latter.
PROVED = re.compile(r"rt: (\w+)(: its tests are)? (?:proved$|is kept: )")
TESTS = ":tests"
PARTS = ("proof", "tests")
HEAD = """
What the gate took. First rt ci, by crates, in seconds of its processes' processor time, which is looked at once a second:
  proof       the crate's proof, and building it if it is a program
  tests       the proof of its tests, and building them
  from, to    minutes and seconds after rt ci began, when it was first and last at work on the crate, which may have waited in between
How fast the machine is shows in list_members, which has no function: its proof took 4 to 12 s on those seen, and all others in proportion.
"""


def keep(**what):
    """Keeps what was timed; the line is written at once, since several scripts do so side by side."""
    TIMES.parent.mkdir(exist_ok=True)
    with open(TIMES, "a") as file:
        file.write(json.dumps(what) + "\n")


def kept(key):
    """What was timed that has this key, in order."""
    lines = [json.loads(line) for line in TIMES.read_text().splitlines()] if TIMES.is_file() else []
    return [line for line in lines if key in line]


def end(command, process, start):
    """Waits for the end of what was started and keeps how long it took, but of a make, whose scripts are timed; gives its status, as a
    shell has it for what a signal ended."""
    status = process.wait()
    if command[0] != "make":
        keep(script=" ".join(command), seconds=time.monotonic() - start)
    return status if status >= 0 else 128 - status


def script(command):
    """Runs a script; gives its status."""
    start, process = time.monotonic(), subprocess.Popen(command)
    try:
        return end(command, process, start)
    finally:
        process.terminate()


def work_of(words, folder):
    """For which crate and which part of its proof a process with these words works in this folder, or None where it isn't the prover's."""
    if "--crate-name" not in words[:-1]:
        return None
    name = words[words.index("--crate-name") + 1]
    if folder.parent.name != "crates" or folder.name != name:
        return None
    return name, "tests" if "--test" in words else "proof"


def priorities():
    """By how much the priority of each crate's proof is lower than that of the longest chain's."""
    crates = list(build.read_crates().values())
    above = {it: [other for other in crates if it in other.below] for it in crates}

    def way(crate, to):
        return crate.proof_seconds() + max((way(it, to) for it in to(crate)), default=0)

    through = {it: way(it, lambda one: one.below) + way(it, above.get) - it.proof_seconds() for it in crates}
    return {it.name: min(OTHERS_NICER, int((max(through.values()) - through[it]) / FOR_ONE)) for it in crates}


class Seen:
    """What the processes below one have had of the processors."""

    def __init__(self, top):
        self.top, self.start, self.priorities = top, time.monotonic(), priorities()
        # By processes, each with its start, since numbers come again: whose work it is, and its seconds until now.
        self.work, self.seconds = {}, {}
        # By works: when it was first and last seen.
        self.first, self.last = {}, {}

    def look(self):
        """Looks at all processes once."""
        now, below, found = time.monotonic() - self.start, collections.defaultdict(list), {}
        for folder in pathlib.Path("/proc").iterdir():
            if not folder.name.isdigit():
                continue
            try:
                # After the name, which may have spaces: the state, the parent and so on.
                fields = (folder / "stat").read_text(errors="replace").rpartition(")")[2].split()
                found[int(folder.name)] = fields[19], (int(fields[11]) + int(fields[12])) / TICKS
                below[int(fields[1])].append(int(folder.name))
            except (OSError, IndexError, ValueError):
                # It has ended.
                continue
        left = [(it, None) for it in below[self.top]]
        while left:
            number, work = left.pop()
            start, seconds = found[number]
            # What it starts, as a compiler, works for the same, and so do its copies.
            work = self.work_of(number, start) or work
            left += [(it, work) for it in below[number]]
            if work:
                self.seconds[number, start] = work, seconds
                self.first.setdefault(work, now)
                self.last[work] = now

    def work_of(self, number, start):
        """Whose work a process does. One that has only just begun may not yet have the words that say so, so it is looked at again."""
        if (number, start) not in self.work:
            try:
                words = pathlib.Path(f"/proc/{number}/cmdline").read_text(errors="replace").split("\0")
                found = work_of(words, pathlib.Path(os.readlink(f"/proc/{number}/cwd")))
                if found:
                    os.setpriority(os.PRIO_PROCESS, number, TESTS_NICER if found[1] == "tests" else self.priorities[found[0]])
            except OSError:
                return None
            if found is None:
                return None
            self.work[number, start] = found
        return self.work[number, start]

    def keep(self):
        for work, first in self.first.items():
            had = sum(had for its, had in self.seconds.values() if its == work)
            keep(crate=work[0], part=work[1], seconds=had, first=first, last=self.last[work])


def proofs(beside, command):
    """Runs `rt ci`, says after some of its lines how much time has passed, and starts each of these commands beside it, when its crates are
    proved; gives the status of the first that failed."""
    start, scripts, waits, left, there = time.monotonic(), [], [], list(beside), set()
    ran = subprocess.Popen(command, stdout=subprocess.PIPE, text=True, errors="replace")
    seen, ended = Seen(ran.pid), threading.Event()

    def watch():
        while not ended.wait(BETWEEN):
            seen.look()

    with concurrent.futures.ThreadPoolExecutor() as pool:

        def start_beside(those, **proved):
            for crates, words in those:
                left.remove((crates, words))
                nicer = NICER if len(crates) == 1 else LESS_NICER
                scripts.append(subprocess.Popen(["nice", "-n", nicer, *words], env={**os.environ, **proved}))
                waits.append(pool.submit(end, words, scripts[-1], time.monotonic()))

        try:
            pool.submit(watch)
            for line in ran.stdout:
                print(line, end="", flush=True)
                if MARKS.match(line):
                    passed = int(time.monotonic() - start)
                    print(f"timed: {passed // 60} min {passed % 60} s", flush=True)
                if found := KNOWN.match(line):
                    keep(known=found[1])
                if found := PROVED.match(line):
                    there.add(found[1] + (TESTS if found[2] else ""))
                    # What is proved until then is in this folder as long as `rt ci` runs.
                    start_beside([it for it in left if there.issuperset(it[0])], PROVED_IN=str(ROOT))
            statuses = [end(command, ran, start)]
            if statuses == [0]:
                start_beside(list(left))
            statuses += [it.result() for it in waits]
        finally:
            ended.set()
            for it in [ran, *scripts]:
                it.terminate()
    seen.keep()
    return next((it for it in statuses if it), 0)


def clock(seconds):
    return f"{int(seconds) // 60}:{int(seconds) % 60:02}"


def table():
    """Prints what was timed."""
    crates = collections.defaultdict(dict)
    for it in kept("crate"):
        crates[it["crate"]][it["part"]] = it
    print(HEAD)
    rows = [("crate", *PARTS, "from", "to")]
    for name, parts in sorted(crates.items(), key=lambda it: min(part["first"] for part in it[1].values())):
        had = [f"{parts[it]['seconds']:.0f}" if it in parts else "-" for it in PARTS]
        rows.append((name, *had, clock(min(it["first"] for it in parts.values())), clock(max(it["last"] for it in parts.values()))))
    sums = [sum(parts[it]["seconds"] for parts in crates.values() if it in parts) for it in PARTS]
    rows.append(("all", *[f"{it:.0f}" for it in sums], "", ""))
    for name, *others in rows:
        print(f"{name:<20}" + "".join(f"{it:>8}" for it in others).rstrip())
    bodies = sorted(kept("edits"), key=lambda it: -it["seconds"])
    all_seconds = sum(it["seconds"] for it in bodies)
    print(f"\nThe seconds of the wrong bodies, {all_seconds:.0f} in all, how many they are, and in which copies of crates.")
    for it in bodies:
        print(f"{it['seconds']:>8.0f}{it['edits']:>8}  {it['of']}")
    known = [it["known"] for it in kept("known")]
    if known:
        print(f"Proved by an earlier run, and kept: {', '.join(known)}")
    print("\nThen the seconds from the start to the end of each script, several of which run side by side.")
    for it in sorted(kept("script"), key=lambda it: -it["seconds"]):
        print(f"{it['script']:<36}{it['seconds']:>8.0f}")


def main(words):
    if words[:1] == ["anew"] and len(words) == 1:
        TIMES.unlink(missing_ok=True)
    elif words[:1] == ["table"] and len(words) == 1:
        table()
    elif words[:1] == ["script"] and words[1:]:
        sys.exit(script(words[1:]))
    elif words[:1] == ["proofs"] and words[1:]:
        beside, words = [], words[1:]
        while words[:1] == ["--beside"] and words[3:]:
            beside, words = [*beside, (tuple(words[1].split(",")), shlex.split(words[2]))], words[3:]
        sys.exit(proofs(beside, words))
    else:
        sys.exit(__doc__)


if __name__ == "__main__":
    # The Python that runs this is found first: a wrapper of it, as pyenv has, starts a shell in each of some thousand runs.
    os.environ["PATH"] = f"{pathlib.Path(sys.executable).parent}{os.pathsep}{os.environ['PATH']}"
    # What runs is then ended too.
    signal.signal(signal.SIGTERM, lambda *_: sys.exit(143))
    try:
        main(sys.argv[1:])
    except KeyboardInterrupt:
        sys.exit(130)
