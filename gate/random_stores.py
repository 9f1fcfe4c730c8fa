"""Random stores for the model of runs: stripes of both codes in the forms that rebuild-store(5) has, with fragments that are lost, damaged
or something else, with digests and descriptions, and what else may be in such a folder."""

import dataclasses
import os
import shutil

from stripe_model_codes import DATA_COUNT, places_of
from stripe_model_listing import NOBODY, WIDE
from stripe_model_names import Pattern
from reference import CODES, product
from store import combined, stripe
from stores import description, digest

PLAIN = ("{stripe}.{place}", "{stripe}.{place}", "{place}-{stripe}", "{stripe}.{shard}", "f/{stripe}.{place}", "{shard}.{stripe}",
         "{stripe}{place}", "{stripe}.{place}.file")
DISKS = ("disk{shard}/{stripe}", "{place}/{stripe}", "d{shard}/a7/{stripe}", "{place}/{stripe}.f")
FOLDERS = ("{stripe}/{place}", "{stripe}/{shard}", "k/{stripe}/{place}", "{stripe}/d/{place}.f", "{stripe}.{place}/data",
           "{place}/{stripe}/data", "{stripe}/{place}.file")
NAMES = ("a", "b-1", "note", "x7", "s", "0")
ODD_NAMES = ("größe €", "a b", "-dash", "two.dots", "tab\there", "new\nline", "back\\slash", "\x1b[2J", "Note", "a,b", 'quo"te', "\x85\x9b",
             "return\r", "123456789-123456789-123456789-123", "x0.x1", ".hidden", "a.damage", "x.damaged", "a.1", "n.file", "\x7f\u2028",
             "\N{SNOWMAN}", "l" * 246)
RIGHTS = (0o644, 0o644, 0o600, 0o640, 0o666, 0o755, 0o4755, 0o444, 0o200)
DIGITS = "0123456789abcdef"
OTHER_CODES = {"6-2-2": "12-2-2", "12-2-2": "6-2-2"}
KINDS_OF_LINES = ("digest", "digest", "digest", "upper", "star", "dot", "return", "more", "twice", "bad", "bad", "two", "two")
LEFT_BY_RUNS = (DIGITS, f"4711@beta-{DIGITS}", f"1-2-4711@beta.example-{DIGITS}", f"2-2-{DIGITS}", f"1-3-7@b-{DIGITS}")


@dataclasses.dataclass
class Mix:
    """What stores of a kind are made of. Numbers are how likely something is."""
    patterns: tuple = PLAIN
    names: tuple = NAMES
    lengths: tuple = (0, 1, 2, 17, 40, 300, 1_500)
    count: tuple = (1, 1, 2, 3, 4)
    # How many fragments of a stripe are harmed, and how.
    many: tuple = (0, 0, 1, 1, 1, 2, 2, 2, 3, 3, 4, 5, 8)
    harms: tuple = ("absent", "absent", "byte")
    described: float = 0
    copies: tuple = ()
    sums: float = 0
    odd_sums: float = 0
    given_code: float = 1
    follow: float = 0
    part: float = 0
    to: float = 0
    strays: float = 0
    leftovers: float = 0
    lost_folders: float = 0
    expected: float = 0
    torn: float = 0.1
    changes: tuple = ("same", "exchanged", "torn", "torn")
    mixed: float = 0
    other_code: float = 0
    first_copies: float = 0
    user: float = 0
    bad_reports: float = 0
    foreign: float = 0
    # How likely links lead to what other names lead to, and folders are links to others.
    shared: float = 0


def encoded(data, code):
    """The fragments of a file, as rebuild-store(5) makes them."""
    names, first = CODES[code]
    length = -(-len(data) // DATA_COUNT[code])
    parts = [data[k * length:(k + 1) * length].ljust(length, b"\0") for k in range(len(names))]
    rows = [[int(p[0] == "x") for p in names], [int(p[0] == "y") for p in names], first, [product(c, c) for c in first]]
    return dict(zip([*names, "px", "py", "p0", "p1"], [*parts, *(combined(row, parts, length) for row in rows)]))


def line_of_sums(name, data):
    """A line as sha256sum writes it."""
    shown = name.replace("\\", "\\\\").replace("\n", "\\n").replace("\r", "\\r")
    return f"{'' if shown == name else chr(92)}{digest(data)}  {shown}\n"


class RandomStore:
    """A store that is laid at random, with what a run over it is given."""

    def __init__(self, place, choose, mix):
        self.place, self.choose, self.mix = place, choose, mix
        self.store, self.elsewhere = place / "store", place / "elsewhere"
        self.code, self.names = choose.choice(("6-2-2", "6-2-2", "12-2-2")), choose.choice(mix.patterns)
        self.layout = choose.choice(("plain", "groups")) if "{shard}" in self.names else "plain"
        self.pattern = Pattern(self.names, self.layout, self.code)
        self.follow, self.files, self.sums_file, self.has_foreign = self.is_so(mix.follow), {}, None, False
        self.user = NOBODY if os.geteuid() == 0 and self.is_so(mix.user) else os.geteuid()
        # Whoever isn't root has to read and write what is laid.
        self.rights = [mode for mode in RIGHTS if os.geteuid() == 0 or mode & 0o600 == 0o600]
        for folder in (self.store, self.elsewhere):
            folder.mkdir()
        stripes = choose.sample(mix.names, min(choose.choice(mix.count), len(mix.names)))
        self.expected = choose.sample(["gone", "stray", "a/b", "..", *stripes], 2) if self.is_so(mix.expected) else None
        for name in stripes:
            self.lay(name, OTHER_CODES[self.code] if "{place}" in self.names and self.is_so(mix.mixed) else self.code)
        self.write_sums()
        self.share_ends()
        self.harm_folders()
        self.add_strays()
        self.given_code = OTHER_CODES[self.code] if self.is_so(mix.other_code) else self.code
        if self.user == NOBODY:
            self.give_away()
        elif os.geteuid() == 0:
            self.open_folders()

    def is_so(self, likely):
        return self.choose.random() < likely

    def write(self, name, data, rights=(0o644, 0, 0)):
        path = self.store / name
        path.parent.mkdir(parents=True, exist_ok=True)
        path.write_bytes(data)
        if os.geteuid() == 0:
            os.chown(path, *rights[1:])
        path.chmod(rights[0])

    def lay(self, name, code):
        """Lays a stripe, with all that is wrong with it."""
        choose, length = self.choose, self.choose.choice(self.mix.lengths)
        rights = (choose.choice(self.rights), *choose.choice(((0, 0), (0, 0), (1, 2))))
        self.has_foreign = self.has_foreign or rights[1] != 0
        # A file of such a name isn't encoded.
        is_refused = len(name) > 200 or not self.pattern.read(self.pattern.name(name, "x0"))
        is_described = self.is_so(self.mix.described) and not is_refused
        # A description of which no copy is left is for its user to read and write, whatever the rights of fragments are.
        rights = (rights[0] | 0o600, *rights[1:]) if is_described else rights
        data = choose.randbytes(choose.randrange(length * DATA_COUNT[code] + 1))
        fragments = encoded(data, code) if is_described else stripe(code, length, choose)
        own = {self.pattern.name(name, place): some for place, some in fragments.items() if place in self.pattern.keys}
        for path, some in own.items():
            self.write(path, some, rights)
        if self.mix.shared or self.is_so(0.2):
            # One of them has rights of its own.
            (self.store / choose.choice(sorted(own))).chmod(choose.choice(self.rights) | (0o600 if is_described else 0))
        if is_described:
            own |= self.lay_copies(name, description(data, code).encode(), rights)
        self.files |= own
        places = [place for place in places_of(code) if place in self.pattern.keys]
        last, many = places_of(code)[-1], min(choose.choice(self.mix.many), len(places))
        places = choose.sample(places, many)
        if places and last in self.pattern.keys and last not in places and self.is_so(0.2):
            places[0] = last
        if self.is_so(self.mix.torn):
            self.change_stripe(name, code, fragments)
        for path in (self.store / self.pattern.name(name, place) for place in places):
            if path.exists():
                self.harm(path, choose.choice(self.mix.harms))

    def lay_copies(self, name, line, rights):
        """Lays the copies of a description, of which some may be harmed."""
        choose, names = self.choose, self.pattern.descriptions(name)
        copies, mode = {path: line for path in names}, choose.choice((0o644, 0o600, 0o640))
        for path, some in copies.items():
            self.write(path, some, (mode, *rights[1:]))
        self.harm_copies(name, copies)
        # Where stripes have folders, the program doesn't find a description in the store's own folder that is the only one, though the page
        # says that it is read: that isn't laid.
        is_looked_for = self.pattern.disks() or any(os.path.lexists(self.store / path) for path in names)
        if f"{name}.file" not in names and is_looked_for and self.is_so(self.mix.first_copies):
            self.write(f"{name}.file", choose.choice((line, line, description(b"x", self.code).encode(), b"no line")), rights)
        return copies

    def change_stripe(self, name, code, fragments):
        """Changes some fragments together: two in the same way, or exchanged, a group cut short, or as by an update that was only begun."""
        choose, kind, length = self.choose, self.choose.choice(self.mix.changes), len(fragments["x0"])
        paths = {place: self.store / self.pattern.name(name, place) for place in fragments if place in self.pattern.keys}
        one, other = choose.sample(sorted(paths), 2)
        if kind == "same":
            at, bit = choose.random(), choose.randrange(1, 256)
            for place in (one, other):
                self.turn(paths[place], at, bit)
        elif kind == "exchanged":
            paths[one].write_bytes(fragments[other])
            paths[other].write_bytes(fragments[one])
        elif kind == "group":
            for place in paths:
                if "x" in place:
                    paths[place].write_bytes(fragments[place][:length // 2])
        elif kind == "narrow":
            for place in WIDE & paths.keys():
                paths[place].unlink()
        elif length:
            data, count = bytearray(length * DATA_COUNT[code]), choose.choice((1, 1, 2))
            for _ in range(count):
                data[choose.randrange(len(data))] = choose.randrange(1, 256)
            changes = {place: change for place, change in encoded(data, code).items() if any(change) and place in paths}
            for place in choose.sample(sorted(changes), choose.randrange(1, len(changes) + 1)):
                both = int.from_bytes(fragments[place], "big") ^ int.from_bytes(changes[place], "big")
                paths[place].write_bytes(both.to_bytes(length, "big"))

    def turn(self, path, at, bit):
        data = bytearray(path.read_bytes())
        if data:
            data[int(at * len(data))] ^= bit
            path.write_bytes(data)

    def harm(self, path, kind):
        """Harms what is at a path."""
        choose, data = self.choose, path.read_bytes()
        if kind == "byte":
            self.turn(path, choose.random(), choose.randrange(1, 256))
        elif kind == "bytes":
            path.write_bytes(choose.randbytes(len(data)))
        elif kind == "short":
            path.write_bytes(data[:choose.randrange(len(data))] if data else b"")
        elif kind == "half":
            path.write_bytes(data[:len(data) // 2])
        elif kind == "empty":
            path.write_bytes(b"")
        elif kind == "longer":
            path.write_bytes(data + choose.randbytes(choose.randrange(1, 9)))
        elif kind == "zeros":
            path.write_bytes(bytes(len(data)))
        elif kind == "long":
            path.write_bytes(data + bytes(100))
        elif kind == "closed":
            path.chmod(0)
        else:
            self.put_under(path, kind)
        is_kept = len(path.name) > 200 or os.path.lexists(path.with_name(path.name + ".damaged"))
        if path.is_file() and not path.is_symlink() and not is_kept and self.is_so(0.15):
            self.keep(path)

    def keep(self, path):
        """What was kept before is beside a file: another file, a folder, or the file itself, as a run leaves it that is killed."""
        kept, kind = path.with_name(path.name + ".damaged"), self.choose.choice(("file", "folder", "same"))
        if kind == "file":
            kept.write_bytes(b"kept")
        elif kind == "folder":
            kept.mkdir()
        else:
            os.link(path, kept)

    def put_under(self, path, kind):
        """Puts something else than a file under a name."""
        data = path.read_bytes()
        path.unlink()
        if kind == "folder":
            path.mkdir()
        elif kind == "fifo":
            os.mkfifo(path)
        elif kind in ("link", "astray"):
            (self.elsewhere / str(len(self.files))).mkdir(exist_ok=True)
            target = self.elsewhere / str(len(self.files)) / f"moved-{digest(str(path).encode())[:8]}"
            target.write_bytes(data if kind == "link" else self.choose.randbytes(len(data)))
            path.symlink_to(target)
        elif kind == "nothing":
            path.symlink_to(self.choose.choice((self.elsewhere / f"to-{digest(str(path).encode())[:8]}", "no-folder/nothing")))
        elif kind == "loop":
            path.symlink_to(path.name)
        elif kind == "chain":
            self.chain(path, data)
        elif kind == "to-folder":
            path.symlink_to(self.elsewhere)

    def chain(self, path, data):
        """A link that leads to links, and these to a file or to nothing. The program refuses to make a file behind 16 or 17 links, of which
        the page has the first lead to no more than 16 others: these aren't laid."""
        count, begin = self.choose.choice((1, 2, 5, 14, 15, 18)), digest(str(path).encode())[:8]
        links = [path, *(self.elsewhere / f"{begin}-{number}" for number in range(count))]
        for link, to in zip(links, links[1:]):
            link.symlink_to(to)
        if self.is_so(0.5):
            links[-1].write_bytes(data)

    def harm_copies(self, name, copies):
        """Harms some copies of a description, but not all where their names are those of fragments too."""
        choose, most = self.choose, len(copies) - any(self.pattern.read(path) for path in copies)
        if not self.mix.copies or self.is_so(0.5):
            return
        for path in choose.sample(sorted(copies), min(choose.choice((1, 1, 2, 3, len(copies))), most)):
            kind = choose.choice(self.mix.copies)
            if kind == "other":
                (self.store / path).write_bytes(description(b"another", self.code).encode())
            elif kind == "long" and self.pattern.read(path):
                self.harm(self.store / path, "byte")
            else:
                self.harm(self.store / path, kind)

    def write_sums(self):
        """Writes digests of what the store should have, or of a part of it, some of them wrong."""
        choose = self.choose
        if not self.is_so(self.mix.sums):
            return
        names = sorted(self.files, key=str.encode)
        if self.is_so(0.5):
            names = choose.sample(names, min(len(names), choose.choice((0, 1, 2, 3, 9, 30))))
        lines = [line_of_sums(name, self.files[name]) for name in names]
        if lines and self.is_so(self.mix.odd_sums):
            lines = self.odd_lines(lines)
        if self.is_so(self.mix.odd_sums / 2):
            lines.append(line_of_sums(self.pattern.name("listed", choose.choice(places_of(self.code))), b""))
        path = self.store / "SHA256SUMS"
        if self.is_so(0.2):
            path = self.sums_file = self.place / "sums"
        path.write_bytes("".join(lines).encode())
        if not self.sums_file and self.is_so(self.mix.odd_sums / 3):
            self.put_under(path, choose.choice(("link", "nothing", "folder", "fifo")))

    def odd_lines(self, lines):
        """Lines in other forms, or with wrong digests."""
        choose, number = self.choose, self.choose.randrange(len(lines))
        line, kind = lines[number], choose.choice(KINDS_OF_LINES)
        escape, text = ("\\", line[1:]) if line[0] == "\\" else ("", line)
        if kind == "digest":
            line = escape + digest(b"another") + text[64:]
        elif kind == "upper":
            line = escape + text[:64].upper() + text[64:]
        elif kind == "star":
            line = escape + text[:65] + "*" + text[66:]
        elif kind == "dot":
            line = escape + text[:66] + "./" + text[66:]
        elif kind == "return":
            line = line[:-1] + "\r\n"
        elif kind == "more":
            line = f"# a comment\n\n{line}{digest(b'')}  unknown/file\n"
        elif kind == "twice":
            line = line + line
        elif kind == "two":
            line = line + escape + digest(b"another") + text[64:]
        elif kind == "bad":
            line = choose.choice(("no digest\n", line[:40] + "\n", text[:64] + " " + text[66:], "g" + text[1:]))
        return [*lines[:number], line, *lines[number + 1:]]

    def share_ends(self):
        """Has some names lead to what others lead to, and the folder of a disk or a stripe be another one."""
        choose, names = self.choose, sorted(self.files)
        if not self.mix.shared or not names:
            return
        (self.elsewhere / "alias").symlink_to(self.store)
        for number in range(choose.choice((1, 1, 2, 3))):
            name, other = choose.choice(names), choose.choice([*names, *names, "SHA256SUMS", "new.x0", f"{choose.choice(names)}.damaged"])
            kind = choose.choice(("name", "alias", "file", "file", "nothing", "nothing"))
            ends = {"name": self.store / other, "alias": self.elsewhere / "alias" / other}
            end = ends.get(kind, self.elsewhere / f"shared-{number}")
            if kind == "file":
                end.write_bytes(choose.choice((self.files[name], self.files.get(other, b"other"), b"another")))
            for path in {self.store / name, self.store / other} if kind in ("file", "nothing") else {self.store / name}:
                if self.is_so(self.mix.shared) and path.parent.is_dir() and path != end and not path.is_dir():
                    path.unlink(missing_ok=True)
                    path.symlink_to(end)
        folders = sorted({os.path.dirname(name) for name in names} - {"", "f"})
        if len(folders) > 1 and self.is_so(self.mix.shared / 3):
            one, other = (self.store / folder for folder in choose.sample(folders, 2))
            if one.is_dir() and other.is_dir() and one not in other.parents and other not in one.parents:
                shutil.rmtree(one)
                one.symlink_to(other)

    def harm_folders(self):
        """Has a disk gone, or another thing in its place, and folders of stripes closed or elsewhere."""
        folders = self.pattern.disks() or sorted({os.path.dirname(name) for name in self.files} - {""})
        kinds = ("gone", "empty", "link", "file", "outer") if self.pattern.disks() else ("link",)
        kinds += ("nothing", "loop", "circle") if self.mix.follow else ()
        kinds += ("closed", "read") if self.user == NOBODY else ()
        for folder in folders:
            path = self.store / folder
            if folder == "f" or not path.is_dir() or not self.is_so(self.mix.lost_folders):
                continue
            kind, moved = self.choose.choice(kinds), self.elsewhere / folder.replace("/", "-")
            path = path.parent if kind == "outer" and path.parent != self.store else path
            if kind in ("closed", "read"):
                path.chmod(0 if kind == "closed" else 0o500)
                continue
            path.rename(moved)
            if kind == "link":
                path.symlink_to(moved)
            elif kind == "file":
                path.write_bytes(b"no folder")
            elif kind in ("nothing", "loop"):
                path.symlink_to("no-folder" if kind == "nothing" else path.name)
            elif kind == "circle":
                # Two links that lead to each other.
                path.symlink_to(self.elsewhere / f"{moved.name}-back")
                (self.elsewhere / f"{moved.name}-back").symlink_to(path)
            elif kind == "empty":
                path.mkdir()

    def add_strays(self):
        """Adds files that are of no stripe, and what runs have left."""
        choose, place = self.choose, self.choose.choice([*self.pattern.keys, [*self.pattern.keys][-1]])
        path = self.store / self.pattern.name("stray", place)
        if self.is_so(self.mix.strays) and (not self.pattern.disks() or path.parent.is_dir() and not path.parent.is_symlink()):
            self.write(self.pattern.name("stray", place), b"stray")
        if self.is_so(self.mix.strays):
            self.write(choose.choice(("README", "lost+found/s.x0", "notes.txt", "s.x9", "s.x1.damaged", ".rebuild-store-x")), b"other")
        if self.is_so(self.mix.strays):
            (self.store / os.fsdecode(b"no-text-\xff.x0")).write_bytes(b"other")
        self.leave_in(self.store)
        self.leave_in(self.elsewhere)

    def leave_in(self, top):
        """Leaves files of runs in some folders."""
        folders = [top, *(folder for folder in sorted(top.rglob("*")) if folder.is_dir() and not folder.is_symlink())]
        for folder in folders:
            if self.is_so(self.mix.leftovers / len(folders)):
                (folder / f".rebuild-store-{self.choose.choice(LEFT_BY_RUNS)}").write_bytes(b"left")
        if self.is_so(self.mix.leftovers / 2):
            lock = top / f".rebuild-store-part-{self.choose.choice(('1-of-2', '2-of-2', '1-of-3', '7-of-9'))}"
            lock.write_bytes(self.choose.choice((b"", bytes(9), b"4711@beta\n", b"no lock\n")))

    def harm_more(self):
        """Harms some fragments and descriptions that are there now."""
        paths = [self.store / name for name in sorted(self.files)]
        paths = [path for path in paths if path.is_file() and not path.is_symlink()]
        for path in self.choose.sample(paths, min(len(paths), self.choose.choice((0, 1, 2)))):
            self.harm(path, self.choose.choice(("absent", "byte", "byte", "half")))

    def open_folders(self):
        """Has others write into some folders."""
        folders = [self.store, self.elsewhere, *sorted(self.store.rglob("*")), *sorted(self.elsewhere.rglob("*"))]
        folders = [folder for folder in folders if folder.is_dir() and not folder.is_symlink()]
        for folder in folders:
            if self.is_so(self.mix.foreign / len(folders)):
                folder.chmod(self.choose.choice((0o777, 0o775, 0o775, 0o755)))
                os.chown(folder, self.choose.choice((0, 0, 7)), self.choose.choice((0, 5)))

    def give_away(self):
        """Gives all that root owns to the user that runs the program."""
        for path in (self.place, *self.place.rglob("*")):
            if os.lstat(path).st_uid == 0:
                os.chown(path, NOBODY, NOBODY, follow_symlinks=False)
