"""Stores at random in memory: files that are encoded, and what may have become of them."""

import random

from file_model_code import fragments_of
from file_model_names import CODES, PLACES, STAGED, SUMS, Naming, description_of, digest, folder_in, sums_text
from file_model_promises import Promises
from file_model_runs import STORE, Command, carry_out
from file_model_store import Unclear
from file_model_tree import Fifo, File, Folder, Link, Tree

PATTERNS = (("{stripe}.{place}", "plain"), ("{stripe}/{place}", "plain"), ("disk{shard}/{stripe}", "plain"), ("{place}/{stripe}", "plain"),
            ("disk{shard}/a7/{stripe}", "plain"), ("{stripe}.{shard}", "plain"), ("{stripe}.{shard}", "groups"),
            ("disk{shard}/{stripe}", "groups"), ("{stripe}/d{place}/f", "plain"), ("d/{stripe}.{place}", "plain"),
            ("{place}-{stripe}", "plain"))
NAMES = ("a", "b", "c d", "e.f")
ODD_NAMES = (
    "a", "b", "-x", "a\nb", "tab\there", "..a", "a.file", "a.x0", "a.file.copy", "SHA256SUMS", "lost+found", f"a{STAGED}", "x.damaged",
    "a\\b", "a\rb", "\x7f\x1b", "\x85", "é", ".rebuild-store-0123456789abcdef", ".rebuild-store-1@h-0123456789abcdef",
    ".rebuild-store-part-1-of-2", ".rebuild-store-x0123456789abcdef", "...", "{stripe}", "{place}", "#a", " a", "1", "x0", "n" * 200,
    "n" * 221, "n" * 237, "n" * 245, "n" * 246, "n" * 252, "n" * 255, "file", ".file", "a.0", "a.1", "😀", ".", "..", "")
# With the endings of descriptions and of what replaces a file some of these are too long.
LONG_NAMES = tuple("n" * count for count in (200, 221, 227, 230, 232, 237, 240, 245))
MODES = (0o640, 0o640, 0o644, 0o600, 0o664)


class Case:
    """A store at random, with files beside it that can be encoded. What it is comes from its seed alone."""

    def __init__(self, place, seed, names=NAMES, follows=0.15, patterns=PATTERNS):
        self.choose, self.place, self.seed = random.Random(seed), place, seed
        choose = self.choose
        self.tree, self.naming = Tree(place), Naming(*choose.choice(patterns))
        self.code, self.umask = choose.choice([CODES[0], CODES[0], CODES[1]]), choose.choice([0o027, 0o022, 0o077])
        self.follows = choose.random() < follows
        self.naming.is_given = self.naming.text != PATTERNS[0][0] or choose.random() < 0.5
        self.names = self.without_clashes(choose.sample(names, min(len(names), choose.choice([1, 2, 3, 4]))))
        self.focus = choose.choice(self.names)
        self.sums, self.laid, self.datas, self.outputs, self.sums_form, self.count = {}, {}, {}, [], None, 0
        for folder in ("first", "second"):
            self.tree.at[folder] = Folder()
            for name in self.names:
                self.datas[folder, name] = self.bytes()
                if name not in ("", ".", ".."):
                    self.tree.at[f"{folder}/{name}"] = File(self.datas[folder, name])
        self.tree.at |= {"elsewhere": Folder(), "first/link": Link(self.names[0] or "gone"), "first/FIFO": Fifo()}

    def without_clashes(self, names):
        """The names without those whose folders the program takes for something else where files are read, though the pages let files have
        them: a.file, which it takes for the description of a file a that earlier builds made."""
        if not self.naming.text.startswith("{stripe}/"):
            return names
        return [name for name in names if not (name.endswith(".file") and name.removesuffix(".file") in names)] or ["a"]

    def outside(self):
        """A new path beside the store."""
        self.count += 1
        return f"elsewhere/{self.count}"

    def bytes(self):
        """The bytes of a file, seldom many."""
        choose = self.choose
        length = choose.choice([0, 1, 5, 6, 7, 12, 13, 60, 61, choose.randrange(400), choose.randrange(2_000)])
        if choose.random() < 0.01:
            length = choose.randrange(65_000, 140_000)
        return choose.randbytes(length)

    def lay(self, name, data, code=None):
        """Encodes a file as it has to be."""
        code = code or self.code
        self.tree.make_folders(STORE)
        files = self.files_of(name, data, code)
        for path, content in files.items():
            self.tree.make_folders(folder_in(f"{STORE}/{path}"))
            self.put(path, content)
            self.sums[path.encode()] = digest(content)
        self.laid[name] = code, data
        return files

    def files_of(self, name, data, code):
        """The fragments and the descriptions of a file, by their names in the store."""
        made, line = fragments_of(code, data), description_of(data, code).line()
        files = {self.naming.fragment(code, name, place): made[place] for place in PLACES[code]}
        return files | {copy: line for copy in self.naming.descriptions(code, name)}

    def put(self, name, data):
        self.tree.put_where_possible(f"{STORE}/{name}", File(data, self.choose.choice(MODES)))

    def node(self, name):
        return self.tree.at.get(f"{STORE}/{name}")

    def drop(self, name):
        self.tree.at.pop(f"{STORE}/{name}", None)

    def write_sums(self):
        """Writes the digests, unless there are none."""
        if self.sums_form:
            self.tree.put_where_possible(f"{STORE}/{SUMS}", self.sums_form)
        elif self.sums:
            self.put(SUMS, sums_text(self.sums))

    def run(self, commands, is_held):
        """Lays the store, and carries out commands over it one after the other, while the pages say what comes. Holds the model to what
        they promise, if that is asked for."""
        self.tree.lay()
        for number, command in enumerate(commands(self), 1):
            where = f"{self.seed}, {number}"
            promises = Promises(self, command) if is_held and command.kind in ("encode", "remove") else None
            try:
                status = carry_out(command, self.tree, self.naming, self.umask, where)
            except Unclear:
                return
            if promises:
                promises.hold(status, where)


KINDS = ["encode", "encode", "read", "list", "verify", "remove"]
READS = ["read", "read", "read", "verify", "verify", "list", "encode", "remove"]
ENDS = ["encode", "encode", "encode", "encode", "encode", "read", "verify", "list", "remove"]
TO_PATHS = ["read", "read", "read", "encode"]


def commands(kinds, case):
    """Some commands at random, of these kinds."""
    for _ in range(case.choose.choice([1, 1, 2, 3])):
        made = command(case, case.choose.choice(kinds))
        if case.choose.random() < 0.1:
            made.store = case.choose.choice([f"./{STORE}", f"{case.place}/{STORE}"])
        yield made


def chosen_names(case, least, most=2):
    """Names of so many files, mostly that of the file of which the case is."""
    choose, names = case.choose, [*case.names, *(it for it in case.laid if it not in case.names)]
    if choose.random() < 0.13:
        names = [choose.choice(["gone", "", "..", f"{case.focus}/x0", f"{case.focus}{STAGED}", *[f"{case.focus}.file"] * 3])]
    elif choose.random() < 0.6:
        names = [case.focus] + [name for name in names if name != case.focus]
        names = names[:choose.randrange(least, most + 1)]
        return names + names[:1] if most > 1 and choose.random() < 0.05 else names
    return choose.sample(names, min(len(names), choose.randrange(least, most + 1)))


def command(case, kind):
    """A command at random over a store."""
    choose, flags = case.choose, []
    flags += ["--follow-links"] if case.follows and choose.random() < 0.9 else []
    flags += ["--quiet"] if choose.random() < 0.1 and kind != "list" else []
    code = case.code if case.naming.has_shards or choose.random() < 0.3 else None
    code = CODES[case.code == "6-2-2"] if choose.random() < 0.03 else code
    if kind == "encode":
        flags += ["--replace"] if choose.random() < 0.5 else []
        flags += ["--make-folders"] if choose.random() < 0.7 else []
        flags += ["--trust-writers"] if choose.random() < 0.2 else []
        return encode_command(case, flags)
    if kind == "list":
        flags += ["--json"] if choose.random() < 0.4 else []
        return Command(kind, [], code, flags)
    if kind == "read":
        output = choose.choice(case.outputs) if case.outputs and choose.random() < 0.8 else None
        return Command(kind, chosen_names(case, 1, 1), None, flags, output=output)
    if kind == "verify":
        return Command(kind, chosen_names(case, 0), None, flags)
    flags += ["--trust-writers"] if choose.random() < 0.2 else []
    return Command(kind, chosen_names(case, 1), code, flags)


def encode_command(case, flags):
    """An `encode` of some of the files beside the store, or of what standard input has."""
    choose = case.choose
    code = case.code if case.code != "6-2-2" or choose.random() < 0.5 else None
    folder, names = choose.choice(["first", "second"]), choose.sample(case.names, min(len(case.names), choose.choice([1, 1, 2])))
    if case.focus in case.names and choose.random() < 0.6:
        names = [case.focus, *(name for name in names[1:] if name != case.focus)]
    datas = [case.datas[folder, name] for name in names]
    if choose.random() < 0.15:
        return Command("encode", ["-"], code, flags, name=names[0], given=datas[0], datas=datas[:1])
    if choose.random() < 0.15:
        return Command("encode", [f"{folder}/{names[0]}"], code, flags, name=names[-1], datas=datas[:1])
    if choose.random() < 0.08:
        names.append(choose.choice(["", ".", "gone", "a/", "../elsewhere", "FIFO", "link", names[0]]))
        datas.append(case.datas["first", case.names[0]] if names[-1] == "link" else datas[0])
    begin = choose.choice(["", "", "./", f"{case.place}/"])
    return Command("encode", [f"{begin}{folder}/{name}" for name in names], code, flags, datas=datas)
