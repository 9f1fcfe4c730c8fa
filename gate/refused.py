#!/usr/bin/env python3
"""Tries the wrong bodies that published rules of the product's own pages ask for, and some more: the prover has to refuse each.

    refused.py [CRATE..]             those of these crates, or of all
    refused.py unedited [CRATE..]    tries copies without the edits: there none of these functions is to be refused

They are the edits of crates/*/wrong-bodies with a line `refused in: FUNCTION`. They are made in copies of their crate, in which these
functions are proved, and others are taken as proved: their proofs are the same without the edits, and say nothing of them. A function is
judged by the contracts of what it calls, which no edit changes, so edits with different functions are tried in one copy. Each copy has a
name of its own, so that one run of the prover proves several. The crates below are taken as a run of `rt ci` has proved them in the folder
that PROVED_IN names, as the gate does, or else as tools/build.py leaves them here.

Refused is an edit only if the prover reads it and doesn't prove this function, and not because its proof cites a name that the edit takes
away. If anything else is said of one, each of those beside it is tried alone. The status is 1 where one isn't refused."""

import concurrent.futures
import os
import pathlib
import re
import shutil
import subprocess
import sys
import tempfile

sys.dont_write_bytecode = True
ROOT = pathlib.Path(__file__).resolve().parent.parent
sys.path.append(str(ROOT / "tools"))
import build  # noqa: E402
import edits  # noqa: E402
import taken  # noqa: E402
import timed  # noqa: E402

# The folder in which the crates below were proved.
BELOW = pathlib.Path(os.environ.get(build.PROVED_IN) or ROOT)
# What names the function of an edit.
FUNCTION = re.compile(r"^refused in: (\S+)$", re.M)
# How many copies one run of the prover proves at most. What it does before its first function costs as much as some functions.
AT_ONCE = 5
# The crate that uses the copies, which has nothing itself, and its root.
USER, USER_ROOT = "copies", "src/lib.rt"
# What the prover says where an edit can't be read, and of a proof that cites a name that isn't there.
UNREAD_WORDS = re.compile("is not in scope|has no field|is no name|operand is missing|cannot continue")
LOST_NAME = re.compile("has no field|is not in scope|has no `|was not admitted")
# What it says of a function: that it's proved, also by what is taken as proved, or that it isn't, and where it has searched for a proof.
PROVED = re.compile("proved|no holes|depends on a hole")
REFUSED = re.compile("not proved|no proof: expected answers")
SEARCHED = "`search` did not prove"
NOT_REFUSED = "NOT refused"
# How many lines of what the prover said are shown of an edit that isn't refused.
SHOWN = 12


class Copy:
    """A copy of a crate, by its own name, with edits that are tried in it, each with its function."""

    def __init__(self, crate, number, tried, is_edited=True):
        self.crate, self.name, self.tried, self.is_edited = crate, f"{crate.name}_{number}", tried, is_edited

    def functions(self):
        """The functions of the edits, as the prover names them."""
        return [function.replace(self.crate.name, self.name, 1) for _, function in self.tried]

    def make(self, room):
        """Makes it in a folder."""
        place = room / self.name
        for part in build.PARTS:
            if (self.crate.folder / part).is_dir():
                shutil.copytree(self.crate.folder / part, place / part)
        for edit, _ in self.tried if self.is_edited else []:
            edits.edited(edit, place)
        taken.take_others(self.crate.name, place, [function for _, function in self.tried])
        for file in (it for it in place.rglob("*") if it.is_file()):
            text = file.read_text(encoding="utf-8")
            file.write_text(re.sub(rf"\bRattle\.{self.crate.name}\.", f"Rattle.{self.name}.", text), encoding="utf-8")

    def fault(self, function, status, said):
        """Why what the prover said is no refusal of the edit in this function; None if it is one."""
        errors = re.findall(rf"^(?:\./)?{self.name}/(\w+)/(\S+):\d+:\d+: error: (.*)", said, re.M)
        if any(part != "proofs" and UNREAD_WORDS.search(what) for part, _, what in errors):
            return "the prover can't read it"
        if any(pathlib.PurePath(path).name == "Proof.antt" for _, path, _ in errors):
            return "the prover doesn't take what it calls as proved"
        found = re.search(rf"^fn {re.escape(function)}: (.*)", said, re.M)
        if found and PROVED.match(found[1]):
            return NOT_REFUSED
        if status != 1 or not found or not REFUSED.match(found[1]):
            return f"no verdict on {function} (status {status})"
        others = [it for it in self.functions() if it != function]
        its = [what for _, path, what in errors if not any(taken.is_proof_of(pathlib.PurePath(path).parent, it) for it in others)]
        if SEARCHED not in found[1] and all(LOST_NAME.search(it) for it in its):
            return "refused only because its proof cites a name that it takes away"
        return None


def copies_of(crate, is_edited):
    """The copies of a crate in which its edits are tried: none has two of one function."""
    copies = []
    for edit in sorted((crate.folder / "wrong-bodies").glob("*.edit")):
        if name := FUNCTION.search(edit.read_text(encoding="utf-8")):
            fits = next((it for it in copies if name[1] not in [function for _, function in it.tried]), None)
            if fits is None:
                fits = Copy(crate, len(copies) + 1, [], is_edited)
                copies.append(fits)
            fits.tried.append((edit, name[1]))
    return copies


def command(copies):
    """The prover's words for the proof of the functions of copies, in the folder where they are."""
    uses = dict.fromkeys(one for it in copies for one in it.crate.uses())
    below = dict.fromkeys(one for it in copies for one in it.crate.all_below())
    words = build.prover("check", (USER, USER_ROOT), uses, below, BELOW / "crates", 1)
    for copy in copies:
        words += ["--lib", f"{copy.name}:{','.join(copy.crate.uses())}={copy.name}/src/lib.rt"]
        words += [it for function in copy.functions() for it in ("--only", function)]
    return [*words, "--allow-holes"]


def prove(copies):
    """Makes copies and has the prover prove their functions; gives its status, what it said, and its processor seconds."""
    with tempfile.TemporaryDirectory(prefix="refused-") as room:
        room = pathlib.Path(room)
        for copy in copies:
            copy.make(room)
        (room / USER_ROOT).parent.mkdir()
        (room / USER_ROOT).write_text("#![tactic(auto)]\n")
        with open(room / "said", "w") as out:
            process = subprocess.Popen(command(copies), cwd=room, stdin=subprocess.DEVNULL, stdout=out, stderr=subprocess.STDOUT)
            _, status, use = os.wait4(process.pid, 0)
        process.returncode = os.waitstatus_to_exitcode(status)
        return process.returncode, (room / "said").read_text(errors="replace"), use.ru_utime + use.ru_stime


def faults_of(copies):
    """Why the edits of copies aren't refused, for each that isn't; and the seconds of a processor that this took."""
    status, said, seconds = prove(copies)
    faults = {}
    for copy in copies:
        for (edit, _), function in zip(copy.tried, copy.functions()):
            if why := copy.fault(function, status, said):
                faults[edit] = why
    alone = [Copy(it.crate, 1, [one]) for it in copies for one in it.tried]
    if faults and len(alone) > 1:
        found = [faults_of([it]) for it in alone]
        return {edit: why for its, _ in found for edit, why in its.items()}, seconds + sum(its for _, its in found)
    told = [it for it in said.splitlines() if not it.startswith("statements ")]
    return {edit: "\n".join([why, *told[-SHOWN:]]) for edit, why in faults.items()}, seconds


def try_copies(copies):
    """Tries the edits of copies, says what has become of each that isn't refused, and gives how many are and how many aren't."""
    if not copies[0].is_edited:
        return try_unedited(copies)
    faults, seconds = faults_of(copies)
    for edit, why in faults.items():
        print(f"refused: {edit.parent.parent.name}/{edit.stem}: {why}", flush=True)
    count = sum(len(it.tried) for it in copies)
    timed.keep(edits=count, of=" ".join(it.name for it in copies), seconds=seconds)
    return count - len(faults), len(faults)


def try_unedited(copies):
    """Says of which functions of copies without edits the proof is refused, and gives how many are proved and how many aren't."""
    status, said, _ = prove(copies)
    faults = {function: copy.fault(function, status, said) for copy in copies for function in copy.functions()}
    refused = [it for it, why in faults.items() if why != NOT_REFUSED]
    for function in refused:
        print(f"refused: {function} isn't proved without an edit", flush=True)
    return len(faults) - len(refused), len(refused)


def main(names):
    is_edited = names[:1] != ["unedited"]
    names, crates = names if is_edited else names[1:], build.read_crates()
    unknown = [it for it in names if it not in crates]
    if unknown:
        sys.exit(f"refused: crates.txt has no crate {unknown[0]}")
    copies = [copy for it in names or crates for copy in copies_of(crates[it], is_edited)]
    # Those with the most edits are dealt out first, so that the runs take about as long.
    copies.sort(key=lambda it: -len(it.tried))
    runs = -(-len(copies) // AT_ONCE)
    with concurrent.futures.ThreadPoolExecutor(build.processors()) as pool:
        ends = list(pool.map(try_copies, [copies[it::runs] for it in range(runs)]))
    refused, others = (sum(it) for it in zip(*ends, (0, 0)))
    tried = len({it.crate for it in copies})
    if is_edited:
        print(f"refused: {refused} wrong bodies of {tried} crates, each in the function that it names; not refused: {others}")
    else:
        print(f"refused: {refused} functions of {tried} crates are proved without an edit; not proved: {others}")
    return 1 if others or not refused else 0


if __name__ == "__main__":
    sys.exit(main(sys.argv[1:]))
