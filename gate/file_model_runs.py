"""Commands of rebuild-store as the program carries them out on a disk, and as the model does it in memory, side by side: what both say, how
both end, and what is there afterwards has to be the same."""

import collections
import json
import subprocess

from file_model_reading import listed, read, verify
from file_model_removing import Removing
from file_model_store import Fault, Store
from file_model_tree import difference, seen
from file_model_writing import Encoding
from stores import Program, hold

STORE, SECONDS = "store", 300


class Command:
    """A command with its options, and the names or the paths of files that it is given."""

    def __init__(self, kind, names=(), code=None, flags=(), output=None, name=None, given=None, datas=()):
        self.kind, self.names, self.code, self.flags, self.output = kind, list(names), code, list(flags), output
        self.name, self.given, self.datas, self.store = name, given, list(datas), STORE

    def words(self, naming):
        options = [*naming.words(), *self.flags]
        options += ["--code", self.code] if self.code else []
        options += [f"--as={self.name}"] if self.name is not None else []
        options += ["--output", self.output] if self.output is not None else []
        return [self.kind, *options, "--", self.store, *self.names]

    def targets(self):
        """The names in the store of the files that it is given, with the bytes of those that it encodes."""
        if self.kind != "encode":
            return dict.fromkeys(self.names)
        return {self.name if self.name is not None else path.rpartition("/")[2]: data for path, data in zip(self.names, self.datas)}

    def modelled(self, tree, naming, umask):
        """Has the model carry it out: gives what comes on standard output, and the store with what is said."""
        store = Store(tree, self.store, naming, "--follow-links" in self.flags, umask)
        written = b""
        try:
            written = self.carried_out(store) or b""
        except Fault as fault:
            store.note(fault)
        if "--quiet" in self.flags:
            store.out.clear()
        return written, store

    def carried_out(self, store):
        if self.kind == "encode":
            Encoding(store, self.code or "6-2-2", self.flags, self.name, self.given).run(self.names)
        elif self.kind == "read":
            return read(store, self.names[0], self.output)
        elif self.kind == "list":
            listed(store, self.code, "--json" in self.flags)
        elif self.kind == "verify":
            verify(store, self.names)
        else:
            Removing(store, self.code, self.flags).run(self.names)
        return None


def carry_out(command, tree, naming, umask, where):
    """Carries a command out both ways, and holds the program to what the model says. Gives the status."""
    written, store = command.modelled(tree, naming, umask)
    words = command.words(naming)
    ended = subprocess.run([Program.path, *words], input=command.given or b"", capture_output=True, cwd=tree.place, umask=umask,
                           timeout=SECONDS)
    where = f"{where}: {words}"
    err = ended.stderr.decode(errors="surrogateescape").split("\n")[:-1]
    hold(ended.returncode == store.status, f"{where}: status {ended.returncode}, not {store.status}; said {err}, not {store.err}")
    unsaid = unmatched(store.err, err)
    hold(not unsaid, f"{where}: {unsaid}")
    if command.kind == "read":
        hold(ended.stdout == written, f"{where}: {len(ended.stdout)} bytes came, not the {len(written)} of the file")
    else:
        out = ended.stdout.decode(errors="surrogateescape").split("\n")[:-1]
        out = [json.dumps(json.loads(it), sort_keys=True) for it in out] if "--json" in command.flags else out
        hold(out == store.out, f"{where}: {out} came, not {store.out}")
    wanted, found = tree.shown(), seen(tree.place)
    hold(wanted == found, f"{where}: said {err}\n{difference(wanted, found) if wanted != found else ''}")
    return store.status


def unmatched(wanted, found):
    """How lines differ from those that have to come in any order; of some of these one of several has to come."""
    left = collections.Counter(found)
    missing = []
    for line in sorted(wanted, key=lambda it: isinstance(it, tuple)):
        one = next((it for it in ([line] if isinstance(line, str) else line) if left[it]), None)
        if one is None:
            missing.append(line)
        else:
            left[one] -= 1
    over = [*left.elements()]
    return f"wasn't said: {missing}; was said: {over}" if missing or over else ""

