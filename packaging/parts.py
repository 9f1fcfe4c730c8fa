"""What a program or the C library is made of: crates of the repository, and those of the toolchain with their licences.

The crates of the repository are those of crates.txt. The toolchain has no list of what its crates use, so their sources are read: a crate
is used where a path begins with its name. What is used and left out by the linker is listed too."""

import functools
import pathlib
import re
import subprocess
import sys

ROOT = pathlib.Path(__file__).resolve().parent.parent
sys.path.insert(0, str(ROOT / "tools"))
sys.dont_write_bytecode = True
import build  # noqa: E402

# The toolchain's own libraries that every crate may use.
ALWAYS = ("core", "std")
MIT = "Permission is hereby granted, free of charge"
APACHE = "Apache License"


def said_by_rt(word):
    return subprocess.run(["rt", word], check=True, capture_output=True, text=True).stdout.strip()


class Toolchain:
    """The toolchain that `rt` belongs to."""

    def __init__(self):
        self.identity = said_by_rt("version")
        self.folder = pathlib.Path(said_by_rt("doc")).parent
        self.sources = self.folder / "rattle"

    def has(self, name):
        return (self.sources / name / "src").is_dir()

    @functools.lru_cache(maxsize=None)
    def used_by(self, name):
        """The crates of the toolchain whose names begin paths in this one's sources, comments left out."""
        files = sorted((self.sources / name / "src").rglob("*.rt"))
        own = {name} | {file.stem for file in files} | {file.parent.name for file in files}
        found = set()
        for file in files:
            code = re.sub(r"//[^\n]*", "", file.read_text(errors="replace"))
            found |= set(re.findall(r"(?<![\w:.])([a-z_0-9]+)\s*::", code)) - own
        return sorted(it for it in found if self.has(it))

    def identities(self):
        """What the toolchain says of itself: pairs of a name and a sum."""
        lines = (self.folder / "WHAT").read_text().splitlines()
        return [line.split() for line in lines if len(line.split()) == 2]

    def prover(self):
        return self.folder / "bin/rattle"


class Part:
    """A crate of the toolchain that a built file may have code of."""

    def __init__(self, toolchain, name, uses):
        self.name, self.uses = name, uses
        folder = toolchain.sources / name
        self.texts = [file.read_text(errors="replace") for file in sorted(folder.glob("LICENSE*"))]
        readme = folder / "README.md"
        ported = re.search(r"Rust crates? `?([a-z0-9_-]+)`? (\d+\.\d+\.\d+)", readme.read_text() if readme.is_file() else "")
        # The Rust crate that it is a port of, and its version, where its page says that.
        self.ported, self.version = ported.groups() if ported else (None, None)

    def licence(self):
        """Its licences as SPDX writes them, or None where it has no text of one."""
        found = ["MIT"] * any(MIT in it for it in self.texts) + ["Apache-2.0"] * any(APACHE in it for it in self.texts)
        return " OR ".join(found) or None

    def notice(self):
        """The text that has to go with it: the MIT licence's where it may be had under that, else all of its texts."""
        mit = [it for it in self.texts if MIT in it]
        return "\n".join(mit or self.texts)


def functions_of(crate):
    """How many functions a crate's sources define, those of tests left out."""
    files = [it for it in (crate.folder / "src").rglob("*.rt") if "tests" not in it.parts and it.stem != "tests"]
    return sum(len(re.findall(r"^\s*(?:pub(?:\(crate\))? )?(?:const )?fn \w", it.read_text(), re.M)) for it in files)


def own_crates(tops):
    """The crates of the repository that these are made of, each after those below it."""
    crates = build.read_crates()
    return build.with_all_below([crates[top] for top in tops])


def parts(toolchain, tops):
    """The crates of the toolchain that these crates of the repository are made of."""
    own = {it.name: it for it in own_crates(tops)}
    left = {name for it in own.values() for name in it.line.partition(":")[2].split()} - set(own) | set(ALWAYS)
    found = {}
    while left:
        name = left.pop()
        found[name] = Part(toolchain, name, toolchain.used_by(name))
        left |= set(found[name].uses) - set(found)
    return [found[name] for name in sorted(found)]
