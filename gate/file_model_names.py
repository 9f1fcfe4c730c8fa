"""The names of a store's files by rebuild-store(5): those of fragments, by a pattern and a layout, of descriptions, and of what runs keep
to themselves; and the lines of SHA256SUMS and of descriptions."""

import functools
import hashlib
import re
import typing

CODES = ("6-2-2", "12-2-2")
PARITIES = ["px", "py", "p0", "p1"]
DATA = {"6-2-2": ["x0", "x1", "x2", "y0", "y1", "y2"],
        "12-2-2": ["x0", "x1", "x2", "x3", "x4", "x5", "y0", "y1", "y2", "y3", "y4", "y5"]}
# The places of a code as the shards of the layout `plain` are numbered, and of the layout `groups`.
PLACES = {code: data + PARITIES for code, data in DATA.items()}
GROUPED = {code: [*(it for it in data if it[0] == "x"), "px", *(it for it in data if it[0] == "y"), "py", "p0", "p1"]
           for code, data in DATA.items()}
# The places of both codes in the order in which fragments are left out in turn: those of the (6,2,2) code first.
EACH = PLACES["6-2-2"] + [place for place in PLACES["12-2-2"] if place not in PLACES["6-2-2"]]
SUMS, STAGED, KEPT = "SHA256SUMS", ".rebuild-store-new", ".damaged"
MOST_OF_DESCRIPTION = 93
RANDOM = re.compile(r"\.rebuild-store-(?:[1-9]\d*-[1-9]\d*-)?(?:[1-9]\d*@[A-Za-z0-9._-]{1,64}-)?[0-9a-f]{16}")
LOCK = re.compile(r"\.rebuild-store-part-[1-9]\d*-of-[1-9]\d*")
# What the file of a lock may have.
LOCKED = re.compile(rb"\0{0,200}|[1-9]\d*@[A-Za-z0-9._-]{1,64}\n")
UNFINISHED = re.compile(r"\.rebuild-store-.*[0-9a-f]{16}", re.S)
DESCRIBED = re.compile(rb"(0|[1-9]\d*) ([0-9a-f]{64}) (6-2-2|12-2-2)\n")


def digest(data):
    return hashlib.sha256(data).hexdigest()


def is_of_runs(name):
    """Whether a name is one of Files of runs."""
    return bool(RANDOM.fullmatch(name) or LOCK.fullmatch(name))


class Described(typing.NamedTuple):
    """What a description says."""

    length: int
    digest: str
    code: str

    def line(self):
        return f"{self.length} {self.digest} {self.code}\n".encode()


def described_by(data):
    """What the bytes of a description say; none where they are no description."""
    found = DESCRIBED.fullmatch(data)
    return Described(int(found[1]), found[2].decode(), found[3].decode()) if found and int(found[1]) < 1 << 64 else None


def description_of(data, code):
    return Described(len(data), digest(data), code)


def described_name(name):
    """The stripe of which a file is the description by the last part of its name."""
    last = name.rpartition("/")[2]
    for end in (".file.copy", ".file"):
        if last.endswith(end):
            return last.removesuffix(end) or None
    return None


def folder_in(name):
    return name.rpartition("/")[0]


class Naming:
    """A pattern of names, with a layout."""

    def __init__(self, text="{stripe}.{place}", layout="plain"):
        self.text, self.layout, self.has_shards = text, layout, "{shard}" in text
        self.depth, self.is_given = text.count("/"), True
        self.key = "{shard}" if self.has_shards else "{place}"

    def words(self):
        """The options that ask for it."""
        names = ["--names", self.text] if self.is_given else []
        return names + (["--layout", self.layout] if self.layout != "plain" else [])

    def key_of(self, code, place):
        """What a place has in a name of a code; none where a shard is to be numbered that the code hasn't."""
        if not self.has_shards:
            return place
        order = (PLACES if self.layout == "plain" else GROUPED)[code]
        return str(order.index(place)) if place in order else None

    @functools.lru_cache(None)
    def name(self, code, stripe, place):
        """The name of a fragment; none where it can't have one."""
        key = self.key_of(code, place)
        if key is None or not stripe or "/" in stripe:
            return None
        name = self.text.replace("{stripe}", "\0").replace(self.key, key).replace("\0", stripe)
        return name if is_for_fragments(name) else None

    def fragment(self, code, stripe, place):
        return self.name(code, stripe, place) or stripe

    def fragments(self, code, stripe):
        """The names of the fragments of a stripe in the order of its places."""
        return [self.fragment(code, stripe, place) for place in PLACES[code]]

    @functools.lru_cache(None)
    def read(self, code, name):
        """The stripe and the place whose fragment has a name; none where it is no fragment's."""
        if not is_for_fragments(name):
            return None
        for place in EACH:
            key = self.key_of(code, place)
            if key is not None:
                before, _, after = self.text.replace(self.key, key).partition("{stripe}")
                stripe = name[len(before):len(name) - len(after)]
                if stripe and "/" not in stripe and name == before + stripe + after:
                    return stripe, place
        return None

    @functools.lru_cache(None)
    def folders(self, code, stripe):
        """The folders that have fragments of a stripe."""
        names = (self.name(code, stripe, place) for place in PLACES[code])
        return list(dict.fromkeys(folder_in(name) for name in names if name))

    def disks(self, code):
        """The folders that have the fragments, if they are the same for each stripe and aren't the store's own."""
        folders = self.folders(code, "a")
        return folders if folders == self.folders(code, "b") and "" not in folders else None

    def descriptions(self, code, stripe):
        """The names of the copies of a stripe's description."""
        folders = self.folders(code, stripe)
        names = [f"{folder}/{stripe}.file" if folder else f"{stripe}.file" for folder in folders]
        return names + [names[0] + ".copy"] if len(names) == 1 else names

    def is_description(self, code, name):
        stripe = described_name(name)
        return stripe is not None and name in self.descriptions(code, stripe)


def is_for_fragments(name):
    parts = name.split("/")
    return not any(part in ("", "..") or UNFINISHED.fullmatch(part) for part in parts) and not name.endswith(KEPT)


def is_name(naming, code, stripe):
    """Whether fragments of a code can have the names that a stripe's name gives them."""
    names = [naming.name(code, stripe, place) for place in PLACES[code]]
    return None not in names and not any(name.split("/")[0] == SUMS for name in names)


def can_encode(naming, code, stripe):
    """Whether a file of this name can be encoded."""
    if stripe in ("", ".", "..", "lost+found") or is_of_runs(stripe) or stripe.endswith(STAGED) or not is_name(naming, code, stripe):
        return False
    return not any(naming.is_description(code, name) for name in naming.fragments(code, stripe))


class BadSums(Exception):
    """Lines that are no digests."""


def sums_by(data):
    """The digests in the bytes of SHA256SUMS, by names."""
    digests, number = {}, 0
    for number, line in enumerate(data.split(b"\n"), 1):
        line = line.removesuffix(b"\r")
        if line and not line.startswith(b"#"):
            found = re.fullmatch(rb"(\\?)([0-9A-Fa-f]{64})(?:  | \*)(.+)", line, re.S)
            name = found and unescaped(found[3].removeprefix(b"./"), bool(found[1]))
            if name is None:
                raise BadSums(f"line {number} isn't as sha256sum writes it: 64 digits, two spaces or ' *', a name")
            value = found[2].decode().lower()
            if digests.setdefault(name, value) != value:
                raise BadSums(f"line {number} has another digest of a file than an earlier line")
    return digests


def unescaped(name, is_escaped):
    if not is_escaped:
        return name
    if not re.fullmatch(rb"(?:[^\\]|\\[\\nr])*", name, re.S):
        return None
    return re.sub(rb"\\(.)", lambda found: {b"n": b"\n", b"r": b"\r"}.get(found[1], found[1]), name)


def sums_text(digests):
    """The lines of SHA256SUMS for digests by names."""
    lines = []
    for name in sorted(digests):
        shown = name.replace(b"\\", b"\\\\").replace(b"\n", b"\\n").replace(b"\r", b"\\r")
        lines.append(b"\\" * (shown != name) + digests[name].encode() + b"  " + shown + b"\n")
    return b"".join(lines)


def escaped(line):
    """A line with its control characters as ls -b writes them."""
    short = {"\n": "\\n", "\r": "\\r", "\t": "\\t", "\a": "\\a", "\b": "\\b", "\v": "\\v", "\f": "\\f"}
    letters = []
    for letter in line:
        is_control = ord(letter) < 32 or 127 <= ord(letter) < 160
        letters.append(short.get(letter) or ("".join(f"\\{byte:03o}" for byte in letter.encode()) if is_control else letter))
    return "".join(letters)
