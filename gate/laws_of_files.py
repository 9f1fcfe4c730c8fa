"""What holds besides of commands over files one of whose calls fails: the list of digests is one of the store's, a description is there
after its fragments alone, and what is written to an output is the file."""

import os
import re

import trees
from call_classes import class_of, named_files
from drawn import STAGED, SUMS
from excused import may_be_unsaid
from failed_runs import is_unfinished
from known_faults import READS
from laws import DEVICE, Judge, in_store, shown
from stores import digest

COUNTED = re.compile(r"^(?:encoded|removed|verified) (\d+) files?; not (?:encoded|removed|as described): (\d+)", re.M)
LIST = f"store/{SUMS}"


def digests_in(entry):
    """The lines of a list of digests by what they name."""
    lines = entry.data.decode().splitlines(True) if entry else []
    return {unescaped(line): line for line in lines}


def unescaped(line):
    """What a line of a list of digests names."""
    name = line.rstrip("\n").split("  ", 1)[1]
    return re.sub(r"\\(.)", lambda sign: {"n": "\n", "r": "\r"}.get(sign[1], sign[1]), name) if line.startswith("\\") else name


class FileJudge(Judge):
    """Holds a failed run of a command over files to the laws."""

    @staticmethod
    def is_of_watchers(path):
        """Whether a path is that of the digests, which are judged by themselves."""
        return path == LIST

    def judge_whole(self):
        super().judge_whole()
        if self.failed.ran.status == 0:
            self.hold_done()

    def hold_done(self):
        """A file that is encoded has all of its files, one that is removed none, and one that is read is what was encoded."""
        command, name = self.trial.words[0], self.trial.words[-1]
        if command == "encode":
            lacks = {path for path, data in self.drawn.newest.items() if STAGED not in path and self.data_at(f"store/{path}") != data}
            self.hold(not lacks, f"{lacks} aren't right")
        elif command == "remove":
            stays = {path for path in self.found if self.drawn.of_stripe.get(in_store(path)) in named_files(self)}
            self.hold(not stays, f"{stays} stay")
        elif command == "read":
            written = self.data_at("out/end" if "out/end" in self.found else "out/file")
            written = self.failed.ran.out.encode() if written is None else written
            self.hold(written in (self.drawn.data[name], self.drawn.staged.get(name)), f"{written} was read")

    def judge(self):
        super().judge()
        self.hold_digests()
        self.hold_descriptions()
        if self.trial.words[0] == "read":
            self.hold_output_of_read()

    def right_at(self, path):
        names = [in_store(path)] if self.drawn.newest else self.names_of(path)
        right = [files[name] for name in names for files in (self.drawn.right, self.drawn.newest, self.drawn.begun) if name in files]
        return [trees.file(data, mode) for data in right for mode in (0o640, 0o644)]

    def hold_said(self):
        """Of files that are read also: what can't be read of one is left out, which is said, and it is read from the rest."""
        failed = self.failed
        is_left_out = self.trial.words[0] == "encode" and failed.kind in READS and class_of(self) == "staged"
        if is_left_out and self.is_as_whole and failed.said:
            # So is what can't be read of what replaces a file.
            self.hold_named()
            return
        if self.is_as_whole and not failed.said and self.is_of_a_needless_copy():
            return
        if self.trial.words[0] not in ("read", "verify") or failed.kind not in READS or not self.is_of_files():
            super().hold_said()
            return
        is_whole = self.is_as_whole and failed.ran.out == self.trial.ended.out
        if is_whole and failed.said:
            self.hold_named()
        elif not (is_whole and may_be_unsaid(self)):
            super().hold_said()

    def is_of_a_needless_copy(self):
        """Whether another copy of a description says that another file is there, so that this one isn't read."""
        path = in_store(self.failed.paths[-1])
        is_read = self.trial.words[0] == "encode" and self.failed.kind in ("open", "read") and class_of(self) == "description"
        return is_read and f"{shown(path)}: is there already" not in self.failed.ran.err

    def is_of_files(self):
        """Whether the call that failed is of what a file is read from."""
        return all(in_store(path) is not None or path.startswith("linked") for path in self.failed.paths)

    def names(self):
        found = super().names()
        # A file that is read is named by its name, and an output by the path that is given.
        if self.trial.words[0] in ("read", "verify"):
            names = self.stripes_of(self.failed.paths) - {None}
            found += [shown(name + ending) for name in names for ending in ("", STAGED)]
            # Its folder and those above are looked at too.
            found += [str(self.trial.place / "out/file")] if any(in_store(path) is None for path in self.failed.paths) else []
        for path in self.failed.paths:
            if is_unfinished(path):
                found += [shown(str(self.trial.place / name)) for name in (os.path.dirname(path), "store", LIST)]
        # Of a folder that was made, the name.
        made = [path for path in self.after.keys() - self.before.keys() if self.after[path].kind == trees.FOLDER]
        made += {os.path.dirname(f"store/{name}") for name in self.drawn.newest if STAGED in name}
        found += [shown(in_store(path) or path) for path in made]
        found += ["standard input"] if self.failed.paths[-1].startswith("pipe:") else []
        sources = [*self.drawn.sources.values()]
        return found + [shown(str(self.trial.place / "store" / stripe)) for stripe in sources] + [shown(stripe) for stripe in sources]

    def to_be_made(self, folder):
        changed = {path for path in self.before.keys() | self.after.keys() if self.before.get(path) != self.after.get(path)}
        changed |= {f"store/{name}" for name in self.drawn.newest}
        return [*super().to_be_made(folder), *(path for path in changed if os.path.dirname(path) == folder)]

    def is_early(self, ran):
        """If the digests can't be written, the last line isn't either."""
        is_said = any(f"{SUMS}: " in line for line in ran.err.splitlines())
        return super().is_early(ran) and not is_said

    def changed(self):
        """The store's folder may be made."""
        return super().changed() - {"store"}

    def concerned(self):
        sources = {self.drawn.sources[path] for path in self.failed.paths if path in self.drawn.sources}
        return sources or super().concerned()

    def may_be(self, path, has):
        if path == "out/end":
            return self.failed.ran.status == DEVICE
        if path == "out/file":
            return self.is_kept_by_user(path)
        if has is None and in_store(path) in self.drawn.begun and path.endswith((".file", ".file.copy")):
            # An old copy goes if the new one of what was begun can't be made.
            return True
        is_staged = STAGED in path and self.failed.ran.status == DEVICE and has is not None
        return is_staged and (has in self.right_at(path) or has.kind == trees.FOLDER) or has is not None and super().may_be(path, has)

    def hold_digests(self):
        """Each line of the list is one that was there or that the whole run writes, in their order, and none of another file is gone."""
        has, was, will = (digests_in(tree.get(LIST)) for tree in (self.found, self.before, self.after))
        for name, line in has.items():
            begun = self.drawn.begun.get(name)
            is_begun = begun is not None and digest(begun) == line.removeprefix("\\")[:64]
            is_known = line in (was.get(name), will.get(name)) or STAGED in name or is_begun
            self.hold(is_known, f"{SUMS} has another line: {line!r}")
        gone = {name for name in was.keys() & will.keys() if name not in has}
        gone = {name for name in gone if self.drawn.of_stripe.get(name) not in self.named()}
        self.hold(not gone, f"{SUMS} lacks {sorted(gone)}")
        self.hold([*has] == sorted(has, key=str.encode), f"{SUMS} is in another order")

    def named(self):
        """The names of the files that are encoded or taken out."""
        return named_files(self)

    def hold_descriptions(self):
        """A description that came is there after the fragments that it describes."""
        if self.trial.words[0] != "encode":
            return
        for name in {*self.drawn.sources.values()}:
            new = [f"store/{path}" for path in self.drawn.descriptions(name)]
            came = [path for path in new if self.found.get(path) != self.before.get(path)]
            fragments = [f"store/{self.drawn.path(name, place)}" for place in self.drawn.order]
            staged = [f"store/{self.drawn.path(name + STAGED, place)}" for place in self.drawn.order]
            wanted = {one: self.after.get(one, (0, 1))[1] for one in fragments}
            lacks = [one for one, other in zip(fragments, staged) if wanted[one] not in (self.data_at(one), self.data_at(other))]
            lacks = lacks if came and self.found[came[0]] == self.after.get(came[0]) else []
            self.hold(not lacks, f"{came} are there without {lacks}")

    def data_at(self, path):
        return self.found[path].data if path in self.found else None

    def hold_other_lines(self, concerned):
        if not any(f"{SUMS}: " in line for line in self.failed.said):
            super().hold_other_lines(concerned)

    def hold_counts(self):
        """The last line counts the files that were given."""
        said = COUNTED.search(self.failed.ran.out)
        files = [word for word in self.trial.words if word.startswith("PLACE/sources/")]
        if said and files:
            self.hold(int(said[1]) + int(said[2]) == len(files), f"{said[0]}: of {len(files)} files")

    def hold_output_of_read(self):
        """What is written is the file, and all of it if the status says so."""
        data, written = self.trial.ended.out, self.failed.ran.out
        self.hold(data.startswith(written), "what isn't the file's was written")
        self.hold(self.failed.ran.status != 0 or written == data, "a part alone was written")


def judge_of(failed):
    """The judge of a run, by its command."""
    return (FileJudge if failed.trial.words[0] in ("encode", "read", "verify", "remove") else Judge)(failed)
