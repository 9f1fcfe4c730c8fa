"""Small stores of random states, which are drawn: stripes of both codes under several patterns of names, with and without descriptions and
digests, of which fragments are lost, damaged, shortened or links, and what runs that were killed have left."""

import dataclasses
import os

import trees
# It says where the modules of tools are.
from stores import description, digest
from reference import CODES, product
from store import combined

ORDERS = {
    ("6-2-2", "plain"): "x0 x1 x2 y0 y1 y2 px py p0 p1".split(),
    ("6-2-2", "groups"): "x0 x1 x2 px y0 y1 y2 py p0 p1".split(),
    ("12-2-2", "plain"): "x0 x1 x2 x3 x4 x5 y0 y1 y2 y3 y4 y5 px py p0 p1".split(),
    ("12-2-2", "groups"): "x0 x1 x2 x3 x4 x5 px y0 y1 y2 y3 y4 y5 py p0 p1".split(),
}
PATTERNS = ["{stripe}.{place}"] * 3 + ["disk{shard}/{stripe}"] * 3 + ["{place}/{stripe}", "{stripe}/{place}", "a/{place}-{stripe}",
            "{stripe}.{shard}", "disk{shard}/f/{stripe}"]
NAMES = ["a", "b c", "note", "\u00e9", "x\\y", "n\nl", "s0", "q\"u,o"]
# The program reads a fragment in windows of 65,536 bytes, of which fragments of a file of the last length have two.
LENGTHS = [0, 1, 5, 40, 240, 700, 2_500] * 5 + [400_001]
UNFINISHED, STAGED, KEPT, SUMS = ".rebuild-store-", ".rebuild-store-new", ".damaged", "SHA256SUMS"
LEFTOVERS = [UNFINISHED + "0123456789abcdef", UNFINISHED + "99999999@host-0123456789abcdef",
             UNFINISHED + "1-2-99999999@host-0123456789abcdef"]
LOCK = UNFINISHED + "part-1-of-2"


def fragments_of(code, data):
    """The fragments of a file by their places: its bytes cut into pieces, with zeros after the end, and their parities."""
    places, first = CODES[code]
    length = -(-len(data) // len(places))
    parts = [data[k * length:(k + 1) * length].ljust(length, b"\0") for k in range(len(places))]
    rows = [[int(p[0] == "x") for p in places], [int(p[0] == "y") for p in places], first, [product(c, c) for c in first]]
    return dict(zip([*places, "px", "py", "p0", "p1"], parts + [combined(row, parts, length) for row in rows]))


@dataclasses.dataclass
class Drawn:
    """A store: how its files are named, the right bytes of the files of its stripes by their paths below it, the files of each stripe, what
    is in it, and what is beside it."""

    code: str
    pattern: str
    layout: str
    right: dict = dataclasses.field(default_factory=dict)
    of_stripe: dict = dataclasses.field(default_factory=dict)
    data: dict = dataclasses.field(default_factory=dict)
    within: dict = dataclasses.field(default_factory=dict)
    beside: dict = dataclasses.field(default_factory=dict)
    words: list = dataclasses.field(default_factory=list)
    # Files that are encoded, by their paths, and the bytes that the files of their stripes are to have.
    sources: dict = dataclasses.field(default_factory=dict)
    newest: dict = dataclasses.field(default_factory=dict)
    # The files that runs which were killed have begun to put in the place of others.
    begun: dict = dataclasses.field(default_factory=dict)
    # The bytes of files that others are to replace.
    staged: dict = dataclasses.field(default_factory=dict)

    @property
    def order(self):
        return ORDERS[self.code, self.layout]

    def path(self, stripe, place):
        return self.pattern.format(stripe=stripe, place=place, shard=self.order.index(place))

    def descriptions(self, stripe):
        """The paths of the copies of a stripe's description."""
        folders = dict.fromkeys(os.path.dirname(self.path(stripe, place)) for place in self.order)
        names = [os.path.join(folder, f"{stripe}.file") for folder in folders]
        return names if len(folders) > 1 else [*names, f"{names[0]}.copy"]

    def folders(self):
        """The folders that the fragments' names have."""
        return {os.path.dirname(path) for path in self.right} - {""}

    def files_of(self, stripe, data):
        """The files that a file becomes, by their paths."""
        files = {self.path(stripe, place): fragment for place, fragment in fragments_of(self.code, data).items()}
        return files | dict.fromkeys(self.descriptions(stripe), description(data, self.code).encode())

    def add(self, stripe, data, is_described):
        """Puts a stripe into the store."""
        files = self.files_of(stripe, data)
        if not is_described:
            files = {path: files[path] for path in files if path not in self.descriptions(stripe)}
        self.data[stripe] = data if is_described else None
        self.right |= files
        self.of_stripe |= dict.fromkeys(files, stripe)
        self.within |= {path: trees.file(bytes_, 0o640) for path, bytes_ in files.items()}

    def names(self):
        """The words that say how files are named."""
        words = [] if self.pattern == "{stripe}.{place}" else ["--names", self.pattern]
        return words + ([] if self.layout == "plain" else ["--layout", self.layout])

    def tree(self):
        below = {f"store/{path}": entry for path, entry in self.within.items()}
        return trees.with_folders(below | self.beside | {"store": trees.folder(), "out": trees.folder()})


def empty(choose):
    """A store of nothing, and the pattern of its names."""
    pattern = choose.choice(PATTERNS)
    layout = choose.choice(["plain", "groups"]) if "shard" in pattern else "plain"
    return Drawn(choose.choice(["6-2-2", "6-2-2", "12-2-2"]), pattern, layout), pattern


def draw(choose, described=0.6, most=3):
    """A store of whole stripes."""
    drawn, pattern = empty(choose)
    length = choose.choice(LENGTHS)
    for name in choose.sample(NAMES, choose.randint(1, most)):
        if choose.random() < 0.3:
            length = choose.choice(LENGTHS)
        is_described = choose.random() < described
        drawn.add(name, choose.randbytes(length if is_described else max(length, 1)), is_described)
    if "shard" in pattern or not any(drawn.data.values()) or choose.random() < 0.4:
        drawn.words += ["--code", drawn.code]
    return drawn


def add_sums(choose, drawn):
    """Lists all files of the store, or some, and maybe others too."""
    kind = choose.choice(["none", "whole", "whole", "some"])
    if kind != "none":
        listed = {path: digest(data) for path, data in drawn.right.items() if kind == "whole" or choose.random() < 0.6}
        if choose.random() < 0.3:
            listed["other/file"] = digest(b"other")
        drawn.within[SUMS] = trees.file(sums_text(listed))


def sums_text(digests):
    """The list of these digests, as `sha256sum` writes it."""
    lines = [(path.encode(), f"{value}  {path}\n") for path, value in digests.items()]
    return "".join(escaped_line(line) for _, line in sorted(lines)).encode()


def escaped_line(line):
    text = line[:-1]
    shown = text.replace("\\", "\\\\").replace("\n", "\\n").replace("\r", "\\r")
    return f"\\{shown}\n" if shown != text else line


def changed(data, choose):
    at = choose.randrange(len(data))
    return data[:at] + bytes([data[at] ^ 1 << choose.randrange(8)]) + data[at + 1:]


def lose(choose, drawn, stripe):
    """Some fragments of a stripe are absent, or something else is in their place."""
    places = choose.sample(drawn.order, choose.choices(range(6), [3, 6, 4, 3, 1, 1])[0])
    for place in places:
        path = drawn.path(stripe, place)
        way = choose.choices(["absent", "folder", "loose link", "shorter", "fifo"], [20, 1, 2, 2, 1])[0]
        data = drawn.within.pop(path).data
        if way == "folder":
            drawn.within[path] = trees.folder()
        elif way == "loose link":
            drawn.within[path] = trees.link(f"none-{place}")
        elif way == "shorter":
            drawn.within[path] = trees.file(data[:len(data) // 2], 0o640)
        elif way == "fifo":
            drawn.within[path] = trees.Entry(trees.OTHER, b"", 0o640)
    return places


def damage(choose, drawn, stripe, lost):
    """Some that are there are damaged, and of some an earlier one is kept."""
    there = [place for place in drawn.order if place not in lost]
    for place in choose.sample(there, choose.choices(range(3), [6, 4, 1])[0]):
        path = drawn.path(stripe, place)
        if data := drawn.within[path].data:
            drawn.within[path] = trees.file(changed(data, choose), 0o640)
            if choose.random() < 0.1:
                drawn.within[path + KEPT] = trees.file(b"kept", 0o640)


def spoil_descriptions(choose, drawn, stripe):
    """Some copies of a stripe's description are absent or differ."""
    if drawn.data[stripe] is None or choose.random() < 0.4:
        return
    for path in drawn.descriptions(stripe):
        way = choose.choices(["", "absent", "odd", "another", "long", "folder"], [60, 12, 5, 4, 1, 1])[0]
        if way == "absent":
            del drawn.within[path]
        elif way == "folder":
            drawn.within[path] = trees.folder()
        elif way:
            text = {"odd": b"odd\n", "another": description(b"another", drawn.code).encode(), "long": b"x" * 120}[way]
            drawn.within[path] = trees.file(text, 0o640)


def take_disk(choose, drawn):
    """A folder that the fragments' names have is gone with all that is in it."""
    gone = choose.choice(sorted(drawn.folders()))
    drawn.within = {path: entry for path, entry in drawn.within.items() if not path.startswith(f"{gone}/")}
    for folder in drawn.folders() - {gone}:
        drawn.within.setdefault(folder, trees.folder())


def make_links(choose, drawn):
    """Some files of the store, and maybe a folder, are links that lead beside it."""
    moved = choose.sample(sorted(path for path, entry in drawn.within.items() if entry.kind == trees.FILE and path in drawn.right),
                          choose.randint(1, 3))
    if drawn.folders() and choose.random() < 0.3:
        folder = choose.choice(sorted(drawn.folders()))
        moved = [path for path in moved if not path.startswith(f"{folder}/")]
        for path in [path for path in drawn.within if path.startswith(f"{folder}/")]:
            drawn.beside[f"linked/{path}"] = drawn.within.pop(path)
        drawn.within.pop(folder, None)
        drawn.beside.setdefault(f"linked/{folder}", trees.folder())
        drawn.within[folder] = trees.link(os.path.relpath(f"linked/{folder}", os.path.dirname(f"store/{folder}")))
    for number, path in enumerate(moved):
        drawn.beside[f"linked/{number}"] = drawn.within[path]
        drawn.within[path] = trees.link(os.path.relpath(f"linked/{number}", os.path.dirname(f"store/{path}")))


def add_strangers(choose, drawn):
    """What runs that were killed have left, files of other programs, and one that is of no stripe."""
    folders = ["", *sorted(folder for folder in drawn.folders() if drawn.within.get(folder, trees.folder()).kind == trees.FOLDER)]
    if choose.random() < 0.3:
        for _ in range(choose.randint(1, 2)):
            drawn.within[os.path.join(choose.choice(folders), choose.choice(LEFTOVERS))] = trees.file(b"half", 0o600)
    if choose.random() < 0.1:
        drawn.within[LOCK] = trees.file(b"", 0o600)
    if choose.random() < 0.2:
        drawn.within["notes.txt"] = trees.file(b"notes")
    if choose.random() < 0.15:
        path = drawn.path("alone", choose.choice(drawn.order))
        if os.path.dirname(path) in folders:
            drawn.within[path] = trees.file(b"alone")


def spoil(choose, drawn):
    """Makes a whole store one to which much has happened."""
    add_sums(choose, drawn)
    for stripe in drawn.data:
        lost = lose(choose, drawn, stripe)
        damage(choose, drawn, stripe, lost)
        spoil_descriptions(choose, drawn, stripe)
    if drawn.folders() and choose.random() < 0.2:
        take_disk(choose, drawn)
    elif choose.random() < 0.2:
        make_links(choose, drawn)
        if choose.random() < 0.8:
            drawn.words.append("--follow-links")
    add_strangers(choose, drawn)
    return drawn
