"""The names of a store's files, as rebuild-store(5) has them: patterns, layouts, descriptions, what runs leave, and parts."""

import re

from stripe_model_codes import ORDER, places_of
from stores import digest

SHARDS = {
    ("6-2-2", "plain"): "x0 x1 x2 y0 y1 y2 px py p0 p1".split(),
    ("6-2-2", "groups"): "x0 x1 x2 px y0 y1 y2 py p0 p1".split(),
    ("12-2-2", "plain"): "x0 x1 x2 x3 x4 x5 y0 y1 y2 y3 y4 y5 px py p0 p1".split(),
    ("12-2-2", "groups"): "x0 x1 x2 x3 x4 x5 px y0 y1 y2 y3 y4 y5 py p0 p1".split(),
}
RUN = r"[0-9]+@[A-Za-z0-9._-]{1,64}"
OF_RUNS = re.compile(rf"\.rebuild-store-(([1-9][0-9]*-[1-9][0-9]*-)?({RUN}-)?[0-9a-f]{{16}}|part-[1-9][0-9]*-of-[1-9][0-9]*)")
UNFINISHED = re.compile(r"\.rebuild-store-.*[0-9a-f]{16}", re.S)
CONTROLS = [chr(code) for code in (*range(32), *range(127, 160))]
ESCAPES = {ord(letter): "".join(f"\\{byte:03o}" for byte in letter.encode()) for letter in CONTROLS}
ESCAPES |= {ord(letter): "\\" + short for letter, short in zip("\n\r\t\a\b\v\f", "nrtabvf")}
KEPT = ".damaged"


def escaped(text):
    """A text with its control characters written as `ls -b` does it."""
    return text.translate(ESCAPES)


def folder_in(name):
    return name.rpartition("/")[0]


def last_of(name):
    return name.rpartition("/")[2]


def described_stripe(name):
    """The stripe of which a file is the description by its name, if it can be one."""
    last = last_of(name)
    for ending in (".file.copy", ".file"):
        if last.endswith(ending):
            return last.removesuffix(ending) or None
    return None


def is_of_part(stripe, part):
    return part is None or int(digest(stripe.encode())[:16], 16) % part[1] == part[0] - 1


class Pattern:
    """A pattern of names with a code: the names of fragments and of descriptions."""

    def __init__(self, text, layout, code):
        self.text, self.code = text, code
        self.keys, self.own = {place: place for place in ORDER}, frozenset(places_of(code))
        if "{shard}" in text:
            self.keys = {place: str(number) for number, place in enumerate(SHARDS[code, layout])}
        self.around = {place: text.replace("{place}", key).replace("{shard}", key).split("{stripe}") for place, key in self.keys.items()}

    def name(self, stripe, place):
        return stripe.join(self.around[place])

    def read(self, name):
        """The stripe and the place of which a name is that of the fragment."""
        parts = name.split("/")
        if name.endswith(KEPT) or any(part in ("", "..") or UNFINISHED.fullmatch(part) for part in parts):
            return None
        for place, (before, after) in self.around.items():
            stripe = name[len(before):len(name) - len(after)]
            if stripe and "/" not in stripe and name == before + stripe + after:
                return stripe, place
        return None

    def folders(self, stripe):
        """The folders that a stripe's fragments are in."""
        return list(dict.fromkeys(folder_in(self.name(stripe, place)) for place in places_of(self.code)))

    def disks(self):
        """The folders of all fragments, if these are the same for each stripe and aren't the store's own."""
        folders = self.folders("a")
        return folders if folders == self.folders("b") and "" not in folders else None

    def descriptions(self, stripe):
        """The names of the copies of a stripe's description."""
        folders = self.folders(stripe)
        names = [f"{folder}/{stripe}.file".lstrip("/") for folder in folders]
        return names + [f"{names[0]}.copy"] if len(folders) == 1 else names
