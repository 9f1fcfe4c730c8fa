"""What rebuild-store(1) promises whatever is in a store, to which the model itself is held: an encoded file is read, and is whole; other
files stay as they were; a file that isn't encoded is what it was; of a file that was taken out nothing is left."""

from file_model_names import CODES, STAGED, digest
from file_model_reading import listed, read
from file_model_runs import STORE
from file_model_store import Fault, Store, Unclear
from stores import hold


class Promises:
    """What can be read before a command, to which it is compared afterwards."""

    def __init__(self, case, command):
        self.case, self.command = case, command
        self.names = [name for name in dict.fromkeys([*case.names, *case.laid]) if not name.endswith(STAGED)]
        self.before = {name: self.read(name) for name in self.names}

    def store(self):
        return Store(self.case.tree, STORE, self.case.naming, "--follow-links" in self.command.flags)

    def read(self, name):
        """The bytes of a file; none if it can't be read."""
        try:
            return read(self.store(), name)
        except (Fault, Unclear):
            return None

    def hold(self, status, where):
        """Holds the store as it is now to them."""
        after = {name: self.read(name) for name in self.names}
        named = self.command.targets()
        for name in self.names:
            of_command = name in named or f"{name}{STAGED}" in named
            hold(of_command or after[name] == self.before[name], f"{where}: {name!r} isn't what it was")
        if self.command.kind == "encode":
            self.hold_encoded(status, after, where)
        elif self.command.kind == "remove" and status == 0:
            for name in named:
                left = [path for path in self.paths(name) if self.case.tree.is_there(path)]
                hold(not left, f"{where}: {left} are left")

    def paths(self, name):
        """Where files of a stripe and of what is to replace it can be."""
        for code in CODES:
            for stripe in (name, name + STAGED):
                yield from (f"{STORE}/{path}" for path in self.case.files_of(stripe, b"", code))

    def hold_encoded(self, status, after, where):
        """Holds files to what they are encoded as, or to what they were if they aren't encoded."""
        for name, data in self.command.targets().items():
            if status:
                is_kept = self.before.get(name) is None or after[name] in (self.before[name], data)
                hold(is_kept, f"{where}: {name!r} isn't encoded, and isn't what it was")
                continue
            hold(self.read(name) == data, f"{where}: {name!r} isn't read as it was encoded")
            left = [path for path in self.paths(name) if f"{name}{STAGED}" in path and self.case.tree.is_there(path)]
            hold(not left, f"{where}: {left} are left")
            self.hold_whole(name, data, where)

    def hold_whole(self, name, data, where):
        """Holds an encoded file to be listed as whole, and its digests to be there."""
        store, case, code = self.store(), self.case, self.command.code or "6-2-2"
        sums = store.read_sums(False)
        for path, content in case.files_of(name, data, code).items():
            hold(sums.get(path.encode()) == digest(content), f"{where}: {path!r} hasn't its digest")
        try:
            listed(store, code, False)
        except Unclear:
            return
        line = f"whole {len(data)} {code} "
        # What has the name of the description that earlier builds made, and is none, counts against the file, and stays.
        is_beside_other = case.tree.is_there(f"{STORE}/{name}.file") and case.naming.depth
        hold(is_beside_other or any(it.startswith(line) for it in store.out), f"{where}: {name!r} isn't whole: {store.out}")
