#!/usr/bin/env python3
"""Tries the edits of crates/*/wrong-bodies, which the proofs must refuse, also those that the gate leaves out for time.

    try-wrong-bodies.py LEVEL [CRATE..]    those of these crates, or of all; what is built first is built for this level of the processor

The crates are proved first, as tools/build.py proves them. `rt must-fail` then tries a few edits of a crate at a time, beginning with what
that has kept, in a folder of their own, and several such trials run side by side. An edit that was refused is tried again only once its
text, its crate or a crate below that has changed: out/wrong-bodies has a record of each. So a run that was stopped goes on where it was.

Refused only because a proof cites a name that the edit takes away, an edit shows nothing of a contract, and is a bad one. The status is 1
where an edit isn't refused, or is bad, or isn't tried."""

import concurrent.futures
import hashlib
import os
import pathlib
import re
import shutil
import signal
import subprocess
import sys
import tempfile

sys.dont_write_bytecode = True
import build  # noqa: E402

ROOT = pathlib.Path(__file__).resolve().parent.parent
RECORDS = ROOT / "out" / "wrong-bodies"
# How many edits of a crate are tried in turn. Before the first one the crate is checked over what was kept, and after the last once more,
# so fewer take longer; what a run that is stopped loses are those that are being tried.
IN_TURN = 3
# The memory that a trial takes at most, about.
MEMORY = 3_000_000_000
# What can become of an edit.
REFUSED, MISSED, BAD, UNTRIED = "refused", "NOT refused", "bad", "not tried"
# What `rt must-fail` says of an edit, with the lines below where it shows what the prover said.
SAID = re.compile(r"^rt: must-fail \w+/([\w.-]+)\.edit: (refused, as it must be|NOT REFUSED|BAD EDIT|NOT TRIED)(.*(?:\n(?!rt: ).*)*)", re.M)
LOST_NAME = "only because a proof file names what the edit took away"
# How many lines of what rt said are shown where it says nothing of an edit.
SHOWN = 10


def sum_of_trial(inputs, edit):
    """A sum of all that a trial reads: what its crate is made from, and the edit."""
    return hashlib.sha256(f"{inputs} {edit.name} {edit.read_text(encoding='utf-8')}".encode()).hexdigest()


class WrongBody:
    """An edit, with the record of it."""

    def __init__(self, crate, edit, kit):
        self.crate, self.edit, self.name = crate, edit, f"{crate.name}/{edit.stem}"
        self.record = RECORDS / crate.name / edit.stem
        self.sum = sum_of_trial(crate.inputs(ROOT / "crates", "", kit), edit)

    def is_refused(self):
        """Whether it was refused before, and all is as it was then."""
        return self.record.is_file() and self.record.read_text() == self.sum

    def keep_refused(self):
        self.record.parent.mkdir(parents=True, exist_ok=True)
        new = self.record.with_name(f"{self.record.name}.new")
        new.write_text(self.sum)
        os.replace(new, self.record)


def link_or_copy(one, other):
    """Gives a file a second name; a copy where that is on another disk. What is kept is only read here."""
    try:
        os.link(one, other)
    except OSError:
        shutil.copyfile(one, other)


def make_room(crate, edits, room):
    """Makes a folder with a crate, these edits and what was proved of it and of the crates below; gives that in which the edits are."""
    those = [*crate.all_below(), crate]
    (room / "crates.txt").write_text("".join(f"{it.line}\n" for it in those))
    shutil.copy(ROOT / "HANDLES", room / "HANDLES")
    for it in those:
        to = build.copy_sources(it, room)
        kept = "incremental" if it is crate else "rlib"
        if (it.folder / "out" / kept).is_dir():
            shutil.copytree(it.folder / "out" / kept, to / "out" / kept, copy_function=link_or_copy)
    folder = room / "crates" / crate.name / "must-fail"
    folder.mkdir()
    for it in edits:
        shutil.copy(it.edit, folder)
    return folder


def verdicts(said):
    """What rt says of edits, by their names: what has become of each, and why."""
    found = {}
    for name, word, why in SAID.findall(said):
        known = {"NOT REFUSED": MISSED, "BAD EDIT": BAD, "NOT TRIED": UNTRIED}.get(word, REFUSED)
        found[name] = BAD if LOST_NAME in why else known, why.strip(" :\n")
    return found


def prove(names, level):
    """Proves these crates and those below; what is proved stays where it is stopped."""
    process = subprocess.Popen([ROOT / "tools/build.py", *names, level, build.BY_LIB])
    try:
        status = process.wait()
    finally:
        process.terminate()
        process.wait()
    if status:
        sys.exit("wrong bodies: the crates aren't all proved, so none is tried")


class Trials:
    """The trials that run, which end with this process."""

    def __init__(self, kit):
        self.kit, self.running, self.stopped = kit, set(), False

    def run(self, edits):
        """Tries edits of one crate in turn, and gives what has become of each, and why."""
        with tempfile.TemporaryDirectory(prefix="wrong-bodies-") as room:
            try:
                said = "" if self.stopped else self.said_of(edits, pathlib.Path(room))
            except (OSError, shutil.Error) as why:
                said = f"what was proved can't be copied: {why}"
        if self.stopped:
            return []
        found, unknown = verdicts(said), (UNTRIED, "\n".join(said.splitlines()[-SHOWN:]))
        return [(it, *found.get(it.edit.stem, unknown)) for it in edits]

    def said_of(self, edits, room):
        """What rt says of these edits of a crate, tried in this folder."""
        crate = edits[0].crate
        folder = make_room(crate, edits, room)
        inputs = crate.inputs(room / "crates", "", self.kit)
        if any(sum_of_trial(inputs, folder / it.edit.name) != it.sum for it in edits):
            return "it has changed, or its crate has, since this run began"
        how = {"cwd": room, "stdin": subprocess.DEVNULL, "stdout": subprocess.PIPE, "stderr": subprocess.STDOUT, "text": True}
        process = subprocess.Popen(["rt", "must-fail", crate.name], errors="replace", env={**os.environ, "RT_JOBS": "1"}, **how)
        self.running.add(process)
        if self.stopped:
            process.terminate()
        said = process.communicate()[0]
        self.running.remove(process)
        return said

    def stop(self):
        self.stopped = True
        for process in list(self.running):
            process.terminate()


def in_turns(left, jobs):
    """The edits that are left in lists of some of one crate each, so that no processor is without one; of the longest crates first."""
    size = max(1, min(IN_TURN, -(-len(left) // jobs)))
    found = []
    for crate in sorted({it.crate for it in left}, key=lambda it: (-it.proof_seconds(), it.name)):
        own = [it for it in left if it.crate is crate]
        found += [own[at : at + size] for at in range(0, len(own), size)]
    return found


def try_all(left, jobs, kit):
    """Tries the edits, says of each what has become of it, keeps what is refused, and gives what has become of all."""
    trials, ended = Trials(kit), {}
    with concurrent.futures.ThreadPoolExecutor(jobs) as pool:
        try:
            for trial in concurrent.futures.as_completed([pool.submit(trials.run, edits) for edits in in_turns(left, jobs)]):
                for it, what, why in trial.result():
                    ended[it] = what
                    if what == REFUSED:
                        it.keep_refused()
                    print(f"{it.name}: {what}{why and ': '}{why}", flush=True)
        finally:
            trials.stop()
    return ended


def count(ended, what):
    """How many edits have become this, with their names where they aren't refused."""
    names = sorted(it.name for it, its in ended.items() if its == what)
    said = f"{len(names)} {'bad edits' if what == BAD else what}"
    return f"{said} ({', '.join(names)})" if names and what != REFUSED else said


def main(level, names):
    crates = build.read_crates()
    unknown = [it for it in names if it not in crates]
    if unknown:
        sys.exit(f"wrong bodies: crates.txt has no crate {unknown[0]}")
    kit = subprocess.run(["rt", "version"], check=True, capture_output=True, text=True).stdout
    every = []
    for name in names or crates:
        every += [WrongBody(crates[name], edit, kit) for edit in sorted((crates[name].folder / "wrong-bodies").glob("*.edit"))]
    ended = {it: REFUSED for it in every if it.is_refused()}
    left = [it for it in every if it not in ended]
    before = f", {len(ended)} of them in an earlier run" if ended else ""
    if left:
        tops = list(dict.fromkeys(it.crate.name for it in left))
        jobs = max(1, min(build.processors(), int(build.memory() // MEMORY)))
        print(f"Wrong bodies to try: {len(left)} of {len(every)}, of {', '.join(tops)}; trials side by side: {jobs}.", flush=True)
        prove(tops, level)
        ended.update(try_all(left, jobs, kit))
    ends = [REFUSED, MISSED, BAD] + [UNTRIED] * (UNTRIED in ended.values())
    first, *others = [count(ended, it) for it in ends]
    print(f"{len(every)} wrong bodies: {', '.join([first + before, *others])}")
    return 0 if all(it == REFUSED for it in ended.values()) else 1


if __name__ == "__main__":
    for number in (signal.SIGTERM, signal.SIGHUP):
        signal.signal(number, lambda *_: sys.exit(1))
    if len(sys.argv) < 2:
        sys.exit(__doc__)
    try:
        sys.exit(main(sys.argv[1], sys.argv[2:]))
    except KeyboardInterrupt:
        sys.exit("wrong bodies: stopped; what was refused stays so, and the next run goes on from there")
