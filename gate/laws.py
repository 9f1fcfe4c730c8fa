"""What holds of each run one of whose calls fails, by the manual pages: the failure is said, nothing else changes, what it doesn't concern
is done and said all the same, and the same command again ends as a run without the failure would have."""

import collections
import errno
import json
import os
import re

import trees
import watching
from call_classes import class_of
from drawn import KEPT, STAGED, SUMS
from excused import may_be_unnamed, may_be_unsaid
from failed_runs import is_unfinished
from known_faults import meets_fault
from stores import hold

DEVICE, LEFT = 3, 1
# A report, counters, and what a link leads to in place of a report.
WATCHERS = ("out/report", "out/counters", "out/real")
# Files of one stripe, or of what a command leaves, end no command.
OF_PARTS = {"fragment", "description", "kept", "staged", "unfinished", "left over", "of another part", "of another file", "alone"}
# What the last line of each command begins with.
LAST = {
    "repair": re.compile(r"^(?:repaired (\d+) fragments?, .*? \(\d+ unchecked|\d+ stripes? of )", re.M),
    "scrub": re.compile(r"^scrubbed \d+ stripe", re.M),
    "lost": re.compile(r"^\d+ stripes?; \d+ fragments? lost, ", re.M),
    "list": re.compile(r"^\d+ files?; not whole: ", re.M),
    "encode": re.compile(r"^encoded \d+ files?; not ", re.M),
    "verify": re.compile(r"^verified \d+ files?; not ", re.M),
    "remove": re.compile(r"^removed \d+ files?; not ", re.M),
    # A file that is read has no such line.
    "read": re.compile(""),
}
# Of damage, of what would be replaced, and of what else is left.
COUNTS = re.compile(r"(?:; damaged: |^scrubbed \d+ stripes?: )(\d+)[^;\n]*?(?:; left without --replace-damaged: (\d+))?"
                    r"(?:; not possible: | damaged, )(\d+)", re.M)
DAMAGE = (": differs from the checksums", ": is damaged: only without it the others belong together",
          ": is taken for the damaged one, which is a guess: only without it the others belong together")
NO_FINDING = re.compile(r"^(?:rebuild-store: |\{|repaired |scrubbed |\d+ stripes? of )| unchecked: |"
                        r": is named as a fragment, and of no stripe$")
OF_LISTS = re.compile(r"^\d+ stripes?; (\d+) fragments? lost, (\d+) of them|^(\d+) files?; not whole: (\d+)", re.M)
OF_LINKS = re.compile(r"and others are links, |is a link, and isn't followed without ")
ESCAPES = {"\n": "\\n", "\r": "\\r", "\t": "\\t"}


def shown(text):
    """A name as lines show it."""
    return "".join(ESCAPES.get(letter, letter) for letter in text)


def in_store(path):
    """The name of a path in the store, or in the folder that gets what is rebuilt."""
    start, _, name = path.partition("/")
    return name if name and start in ("store", "to") else None


def is_of_description(store, line):
    """Whether a line is about a copy of a description."""
    return line.split(": ")[0] in [shown(path) for stripe in store.data for path in store.descriptions(stripe)]


class Judge:
    """Holds a failed run of a command to the laws."""

    def __init__(self, failed):
        self.failed, self.trial = failed, failed.trial
        self.drawn, self.before, self.after, self.found = self.trial.drawn, self.trial.before, self.trial.after, failed.found
        self.differing = {path for path in failed.differing() if not self.is_of_watchers(path) and not self.is_kept_by_user(path)}
        self.root = "to" if "--to" in self.trial.words else "store"
        worse = {path for path in self.differing if not self.is_better(path)}
        self.is_as_whole = not worse and (failed.ran.status == self.trial.ended.status or self.shows_more_damage())

    @staticmethod
    def is_of_watchers(path):
        """Whether a path is of a report or of counters, which are judged by themselves."""
        return path in WATCHERS

    def is_kept_by_user(self, path):
        """Whether a file is its user's alone, since it couldn't be given away."""
        has, will = self.found.get(path), self.after.get(path)
        is_refused = self.failed.kind == "chown" and self.failed.how in (errno.EPERM, errno.EACCES)
        return is_refused and has and will and has == will._replace(mode=0o600)

    @staticmethod
    def shown(text):
        return shown(text)

    def hold(self, holds, what):
        hold(holds, f"{what}: {self.failed.text()}")

    def judge_whole(self):
        """The run in which no call fails leaves what is right, and says so."""
        watching.hold_watchers(self)
        self.hold_counts()
        left = {path for path in self.found.keys() - self.before.keys() if is_unfinished(path)}
        self.hold(not left, f"{left} are left over")
        for path in [path for path in self.changed() & self.found.keys() if not path.startswith("out/")]:
            has = self.found[path]
            if self.links() and not self.right_at(path):
                # A link may lead to another one.
                continue
            # Of a stripe without a file nobody knows whose its description was.
            is_private = path.endswith((".file", ".file.copy")) and has.mode == 0o600 and has._replace(mode=0o640) in self.right_at(path)
            is_right = has.kind == trees.FOLDER or self.may_be(path, has) or is_private
            self.hold(is_right or self.is_few(), f"{path} is {has}, and not {self.right_at(path)}")

    def is_few(self):
        """Whether as few fragments are read as it takes, so that damage of one may not show, and isn't said for each."""
        return "few" in self.trial.words

    def judge(self):
        self.hold_names()
        watching.hold_watchers(self)
        if self.failed.kind == "output":
            self.hold_output()
        elif not meets_fault(self):
            self.hold_said()
            self.hold_others()
        self.hold_again()

    def hold_output(self):
        """All is done if nothing can be written, which is said of standard output."""
        failed = self.failed
        self.hold(not self.differing, f"something else is done: {sorted(self.differing)}")
        line = f"rebuild-store: standard output: {failed.error}"
        if failed.ran.out == self.trial.ended.out and line not in failed.lines:
            is_same = failed.ran.status == self.trial.ended.status
            self.hold(is_same or failed.rest, "a standard error that can't be written gives another status")
            return
        self.hold(failed.ran.status == DEVICE, f"status {failed.ran.status}, and standard output can't be written")
        self.hold(failed.rest or line in failed.lines, "standard output isn't said")

    def stripes_of(self, paths):
        """The stripes of files of the store, also of those that are kept."""
        names = [name.removesuffix(KEPT) for path in paths if not is_unfinished(path) for name in self.names_of(path)]
        return {self.drawn.of_stripe[name] for name in names if name in self.drawn.of_stripe} or ({None} if names else set())

    def has_several_lengths(self, stripe):
        """Whether files of a stripe have several lengths."""
        paths = [f"store/{self.drawn.path(stripe, place)}" for place in self.drawn.order]
        entries = [self.before.get(self.links().get(path, path)) for path in paths]
        return len({len(entry.data) for entry in entries if entry and entry.kind == trees.FILE}) > 1

    def is_whole(self, stripe):
        """Whether no fragment of a stripe is lost."""
        paths = [f"store/{self.drawn.path(stripe, place)}" for place in self.drawn.order]
        entries = [self.before.get(self.links().get(path, path)) for path in paths]
        return all(entry and entry.kind == trees.FILE for entry in entries) and not self.has_several_lengths(stripe)

    def is_undescribed(self, stripe):
        """Whether nothing but the digests says what is right in the description of a stripe."""
        paths = [f"store/{path}" for path in self.drawn.descriptions(stripe)]
        entries = [self.before.get(self.links().get(path, path)) for path in paths]
        right = [entry for path, entry in zip(paths, entries) if entry in self.right_at(path)]
        return self.drawn.data.get(stripe) is not None and 2 * len(right) <= len([entry for entry in entries if entry])

    # What is under each name.

    def hold_names(self):
        """Each path has what it had, or what it has after the whole run; and what is unfinished is gone, or said."""
        for path in self.found.keys() | self.before.keys() | self.after.keys():
            has = self.found.get(path)
            if has in (self.before.get(path), self.after.get(path)) or self.is_of_watchers(path):
                continue
            if is_unfinished(path):
                self.hold(self.may_be_left(path), f"{path} is left over")
            else:
                self.hold(self.may_be(path, has), f"{path} is {has}, and neither {self.before.get(path)} nor {self.after.get(path)}")

    def may_be_left(self, path):
        """An unfinished file is left only if it couldn't be removed, which is said, and nobody but its user may read it or it has no more
        rights than files of the store."""
        if path in self.before:
            return True
        names = [os.path.basename(other) for other in self.failed.paths]
        if "-part-" in path:
            return (os.path.basename(path) in names or self.failed.rest == "kind") and self.failed.ran.status == DEVICE
        is_met = self.failed.kind == "unlink" and (os.path.basename(path) in names or self.failed.rest)
        return is_met and self.found[path].mode & ~0o666 == 0

    def may_be(self, path, has):
        """Whether something else may be at a path: what is right, if another fragment was left out; a fragment that is kept beside what
        replaced it; or a file that is its user's alone since it couldn't be given away."""
        was = self.before.get(path)
        if has is None:
            return False
        if path.endswith(KEPT):
            return was is None and has == self.before.get(path.removesuffix(KEPT))
        if self.is_kept_by_user(path):
            return True
        is_unchecked = any(f"{shown(name)}: rebuilt unchecked" in self.failed.ran.err for name in self.names_of(path))
        return has in self.right_at(path) or is_unchecked or self.is_narrower(path)

    def is_better(self, path):
        """Whether what is at a path is right, or was kept, though it isn't so after the whole run: damage was seen since more was read."""
        has = self.found.get(path)
        return has is not None and (has in self.right_at(path) or path.endswith(KEPT))

    def right_at(self, path):
        """What is right at a path of a fragment or a description."""
        return [trees.file(self.drawn.right[name], 0o640) for name in self.names_of(path) if name in self.drawn.right]

    def is_narrower(self, path):
        """Whether a copy of a description was made whose rights are fewer, since another copy couldn't be looked at."""
        has, will = self.found[path], self.after.get(path)
        is_read = self.failed.kind in ("look", "open", "read")
        return is_read and will and path.endswith((".file", ".file.copy")) and has == will._replace(mode=0o600)

    # What is said.

    def hold_said(self):
        """The failure has its status and a line that names the file."""
        failed = self.failed
        if self.is_as_whole and not failed.said and may_be_unsaid(self):
            return
        if failed.kind == "chown" and failed.how in (errno.EPERM, errno.EACCES):
            self.hold(self.is_as_whole and not failed.said, "a file that can't be given away isn't its user's")
        self.hold(failed.ran.status == DEVICE, f"status {failed.ran.status}, and {self.trial.ended.status} without a failure")
        self.hold(failed.said, f"no line says {failed.error!r}")
        self.hold_named()
        if self.trial.words[0] == "repair" and failed.kind == "sync" and not self.differing and not failed.rest:
            # Other folders are written to the disk all the same.
            syncs, whole = (ran.kinds.count("sync") for ran in (failed.ran, self.trial.ended))
            self.hold(syncs >= whole, f"{syncs} calls write to the disk, and not {whole}")

    def hold_named(self):
        """The line names the file."""
        failed = self.failed
        if may_be_unnamed(self) or failed.rest == "kind":
            return
        names = self.names()
        lines = [self.with_plain_path(self.row_line(line)).removeprefix("rebuild-store: ") for line in failed.said]
        # A folder may be named by a file in it.
        is_named = any(line.startswith((f"{name}: ", f"{name}/")) or f": {name}: " in line for name in names for line in lines)
        self.hold(is_named, f"no line names {names}: {failed.said}")

    def shows_more_damage(self):
        """Whether damage is left and said that wasn't seen in the whole run, since more was read."""
        if self.failed.ran.status != LEFT:
            return False
        more = set(self.failed.lines) - set(self.trial.ended.err.splitlines())
        return any(text in line for line in more for text in ("differs from the checksums", "is damaged", "contradiction"))

    def row_line(self, line):
        """What a line would say in place of a row."""
        if not line.startswith('{"stripe"'):
            return line
        row = json.loads(line)
        is_of_fragment = row["place"] not in ("", "file")
        path = self.drawn.path(row["stripe"], row["place"]) if is_of_fragment else row["stripe"]
        return shown(row["detail"] if row["place"] == "file" else f"{path}: {row['detail']}")

    @staticmethod
    def with_plain_path(line):
        """A line whose paths have no `..`."""
        while line != (line := re.sub(r"[^/:]+/\.\./", "", line, count=1)):
            pass
        return line

    def names(self):
        """How lines may name the file whose call failed: an unfinished one by the name that it is to get, and a folder by that of a file in
        it that got its name."""
        found = []
        for path in self.failed.paths:
            if is_unfinished(path) or self.failed.kind in ("sync", "open") and path in self.folders():
                found += [path, *self.to_be_made(path if path in self.folders() else os.path.dirname(path))]
                found += WATCHERS if path.startswith("out") else []
            else:
                found += ["out/report", path] if path == "out/real" else [path]
        # A folder in which links end, and what they lead to, is named by these.
        ends = {name: {end, os.path.dirname(end)} if self.failed.kind == "look" else {end} for name, end in self.links().items()}
        found += [name for name, end in ends.items() if end & set(self.failed.paths)]
        named = [shown(name.removesuffix(KEPT)) for path in found for name in self.names_of(path)]
        return named + [shown(str(self.trial.place / path)) for path in found]

    def folders(self):
        return {path for path, entry in self.before.items() if entry.kind == trees.FOLDER}

    def to_be_made(self, folder):
        """The files of the store in a folder, or where links lead, that weren't there or weren't right before."""
        paths = {f"{self.root}/{name}": data for name, data in self.drawn.right.items()}
        made = {path for path, data in paths.items() if self.before.get(path, (0, 0))[1] != data}
        return [path for path in self.differing | made if os.path.dirname(path) == folder or self.links()]

    def links(self):
        """The links below the folder, and where they lead."""
        links = {name: os.fsdecode(entry.data) for name, entry in self.before.items() if entry.kind == trees.LINK}
        return {name: os.path.normpath(os.path.join(os.path.dirname(name), to)) for name, to in links.items()}

    def names_of(self, path):
        """The names in the store of a path: its own, or those of the links that lead there."""
        names = [name + path.removeprefix(end) for name, end in self.links().items() if path == end or path.startswith(f"{end}/")]
        return [in_store(name) for name in [path, *names] if in_store(name) is not None]

    def is_there(self, name):
        """Whether something has a name of the store, or is where a link leads that has it."""
        ends = [end + f"store/{name}".removeprefix(link) for link, end in self.links().items() if f"store/{name}".startswith(link)]
        return any(path in self.found for path in [f"{self.root}/{name}", *ends])

    # What the failure doesn't concern.

    def ended_early(self):
        """Whether the command ended before it worked on a stripe."""
        if "--quiet" in self.trial.words:
            # It has no last line.
            return not self.changed() and not self.is_as_whole and class_of(self) not in OF_PARTS
        return self.is_early(self.failed.ran)

    def is_early(self, ran):
        last = LAST[self.trial.words[0]]
        return not last.search(ran.out) and not last.search(ran.err)

    def changed(self):
        """The paths at which something else is than before, but for what is unfinished."""
        paths = {path for path in self.found.keys() | self.before.keys() if self.found.get(path) != self.before.get(path)}
        return {path for path in paths if not self.is_of_watchers(path) and not is_unfinished(path)}

    def concerned(self):
        """The stripes of the files whose call failed; none, if that is a file which no stripe has."""
        return (self.stripes_of(self.failed.paths) - {None}) or None

    def hold_others(self):
        if self.failed.rest == "kind":
            return
        if self.ended_early():
            self.hold(class_of(self) not in OF_PARTS, f"the {class_of(self)} of one stripe ended the command")
            self.hold(not self.changed(), f"it ended early, and changed {sorted(self.changed())}")
            return
        stripes = self.stripes_of(self.differing)
        if self.concerned():
            self.hold(stripes <= self.concerned(), f"what is done with {stripes} is another")
        elif any(is_unfinished(path) for path in self.failed.paths):
            self.hold(len(stripes) <= 1, f"what is done with {stripes} is another")
        if not set(self.failed.paths) & self.folders() and not self.is_early(self.trial.ended):
            self.hold_other_lines(self.concerned() or stripes)
        self.hold_counts()

    def hold_other_lines(self, concerned):
        """What is said about stripes that it doesn't concern is said, and nothing more."""
        names = [shown(name) for name, stripe in self.drawn.of_stripe.items() if stripe in concerned]
        # A description is named as a fragment too, if names of fragments have the stripe's last.
        names += [shown(name) for stripe in concerned if stripe for name in (stripe, f"{stripe}.file", stripe + STAGED)]
        names += [shown(path) for path in self.failed.paths]
        whole, now = (collections.Counter(self.lines_of(ran)) for ran in (self.trial.ended, self.failed.ran))
        for lines, what in ((whole - now, "isn't said any more"), (now - whole, "is said")):
            for line in lines:
                is_concerned = any(re.search(f"(^|[ ,/]){re.escape(name)}($|[:, ])", line) for name in names)
                self.hold(is_concerned or not concerned or self.failed.error in line, f"{what}: {line!r}")

    def lines_of(self, ran):
        """The lines of a run, but for rows, the last line, and notes that count links."""
        lines = ran.err.splitlines() + ([] if self.trial.words[0] == "read" else ran.out.splitlines())
        last = LAST[self.trial.words[0]]
        lines = [line for line in lines if not last.pattern or not last.search(line)]
        return [line for line in lines if not line.startswith("{") and not OF_LINKS.search(line)]

    def hold_counts(self):
        """The last line counts what is on the disk, and the lines before it."""
        text = f"{self.failed.ran.out}\n{self.failed.ran.err}"
        said = LAST["repair"].search(text) if self.trial.words[0] == "repair" else None
        if said and said[1]:
            made = [path for path, entry in self.found.items() if entry != self.before.get(path) and self.is_fragment(path)]
            right = len(made) + len(self.met_and_right())
            self.hold(len(made) <= int(said[1]) <= right, f"{said[1]} are said to be repaired, and {len(made)} are: {sorted(made)}")
        self.hold_rows_counted(text)
        said = COUNTS.search(text)
        if said and self.has_lines():
            damaged, left = self.findings()
            replaceable, others = int(said[2] or 0), int(said[3])
            self.hold(int(said[1]) == len(damaged), f"{said[0]}, and the lines say {damaged}")
            # A damaged fragment that stays may be counted as left too.
            is_counted = others - len(damaged) <= len(left) and len(self.left_of(left)) <= others + replaceable
            self.hold(is_counted, f"{said[0]}, and the lines say {left}")

    def hold_rows_counted(self, text):
        """The last line of a list counts its lines, and that of requests the requests."""
        rows = self.failed.ran.out.splitlines()
        said = OF_LISTS.search(text)
        if said and self.failed.kind != "output" and said[3]:
            whole = [row for row in rows if row.startswith("whole ") or '"state":"whole"' in row]
            self.hold((int(said[3]), int(said[4])) == (len(rows), len(rows) - len(whole)), f"{said[0]}, and the lines are {rows}")
        elif said and self.failed.kind != "output" and "--json" not in self.trial.words:
            self.hold(int(said[1]) - int(said[2]) == len(rows) - 1, f"{said[0]}, and the requests are {rows}")

    def left_of(self, lines):
        """The lines of what is still left: with --to what can't be read is rebuilt elsewhere, and replaced if it has another length."""
        may_be_rebuilt = {"--to", "--replace-damaged"} & set(self.trial.words)
        return [line for line in lines if not may_be_rebuilt or not re.search(": can't be (?:looked at|read): ", line)]

    def has_lines(self):
        """Whether a repair or a scrub says in lines what it finds."""
        words = self.trial.words
        return self.failed.kind != "output" and (words[0] == "repair" or words[0] == "scrub" and "--json" not in words)

    def findings(self):
        """The lines that say damage, and the others that say what a repair or a scrub found of stripes."""
        lines = [line for line in self.failed.lines if not NO_FINDING.search(line)]
        damaged = [line for line in lines if line.endswith(DAMAGE) and not is_of_description(self.drawn, line)]
        return damaged, [line for line in lines if line not in damaged]

    def met_and_right(self):
        """The fragments that were there, and count as lost since they, or their folder, couldn't be looked at."""
        ends = {path: self.before.get(self.links().get(path, path)) for path in self.before if in_store(path) in self.drawn.right}
        there = [path for path, entry in ends.items() if entry and entry.data == self.drawn.right[in_store(path)]]
        met = [f"store/{name}" for path in self.failed.paths for name in self.names_of(path)]
        return [path for path in there if any(path == other or path.startswith(f"{other}/") for other in [*self.failed.paths, *met])]

    def is_made(self, path):
        """Whether a path is of a file of a stripe, which may be where a link leads."""
        return self.found[path].kind == trees.FILE and bool(self.stripes_of([path]) - {None}) and not path.endswith(KEPT)

    def is_fragment(self, path):
        """Whether a path is of a fragment, which may be where a link leads."""
        names = [path, *self.names_of(path)]
        is_other = any(name.endswith((KEPT, SUMS, ".file", ".file.copy")) for name in names) or is_unfinished(path)
        return self.found[path].kind == trees.FILE and not is_other and not self.is_of_watchers(path)

    # The same command again.

    def hold_again(self):
        ended, tree = self.trial.again(self.found)
        kept = {path for path in tree if path.endswith(KEPT) and path not in self.after}
        other = {path for path in tree.keys() | self.after.keys() if tree.get(path) != self.after.get(path)} - kept
        # Nobody looks for what is left in the folder of an output.
        other = {path for path in other if not self.is_of_watchers(path) and not (path.startswith("out/") and is_unfinished(path))}
        text = f"{ended.text()} after {self.failed.text()}"
        if self.trial.words[0] == "remove" and "is this the store?" in ended.err:
            # Once all is taken out, what is left over isn't looked for any more.
            other = {path for path in other if not is_unfinished(path) and STAGED not in path and tree[path].kind != trees.FOLDER}
        # Folders of what was to replace a file may be somebody else's.
        other = {path for path in other if not (path.endswith(STAGED) and path in tree and tree[path].kind == trees.FOLDER)}
        guessed = self.guessed()
        for path in sorted(other):
            if guessed & self.stripes_of([path]):
                continue
            why = f"{path} is {tree.get(path)} after the same command again, and not {self.after.get(path)}"
            hold(self.may_be_after(path, tree.get(path)), f"{why}: {text}")
        twice, _ = self.trial.again(self.after)
        statuses = {self.trial.ended.status, twice.status, *([] if self.reads_all() else [0])}
        hold(guessed or ended.status in statuses, f"the same command again ends with {ended.status}: {text}")

    def reads_all(self):
        """Whether a repair reads all fragments, so that it finds damage of a stripe that lost nothing."""
        words = self.trial.words
        return words[words.index("--reads") + 1] == "all" if "--reads" in words else "--replace-damaged" in words or words[0] != "repair"

    def guessed(self):
        """The stripes of which something was rebuilt unchecked that would have been checked, or not rebuilt, which is said: damage among
        the other fragments may then look right."""
        lines = set(self.failed.ran.err.splitlines()) - set(self.trial.ended.err.splitlines())
        names = [line.split(": rebuilt unchecked: ")[0] for line in lines if ": rebuilt unchecked: " in line]
        return {stripe for path, stripe in self.drawn.of_stripe.items() if shown(path) in names}

    def may_be_after(self, path, has):
        """Whether something else may be at a path after the same command again."""
        right = self.right_at(path)
        is_narrower = self.failed.kind == "chown" or any(self.is_narrower(other) for other in self.found)
        if self.failed.kind == "chown" and has == self.found.get(path):
            return True
        # Once something is mended, few survivors are read, and damage of others isn't seen.
        if "--reads" in self.trial.words and "--replace-damaged" in self.trial.words and has == self.before.get(path):
            return True
        return has in right or is_narrower and has in [entry._replace(mode=0o600) for entry in right]
