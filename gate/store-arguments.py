#!/usr/bin/env python3
"""Tests what the arguments of rebuild-store ask for: each option of each command makes the difference that the manual page says, written
before the store and after it, with a space and with an equals sign, and by its letter; what holds without options; and the texts of
mistakes, of help and of the version.

    store-arguments.py [PROGRAM [TEST]]

With how many threads a store is worked on is seen from those that are started, and which bytes may be read in a second from how long the
run would have slept. What --allow-unmounted asks for needs disks: gate/store-files.py mounts some; the line that --quiet leaves out is one
on a terminal for `read`: gate/store-strangers.py has one."""

import hashlib
import json
import os
import pathlib
import random
import subprocess
import sys
import tempfile

# No compiled copy of the modules is left beside them.
sys.dont_write_bytecode = True
import refusals  # noqa: E402

ROOT = pathlib.Path(__file__).resolve().parent.parent
sys.path.append(str(ROOT / "tools"))
from store import stripe  # noqa: E402

PROGRAM = ROOT / "crates/rebuild_store/out/rebuild_store"
SECONDS = 300
passed = 0

MORE = "\n\nFor more information, try '--help'.\n"
MISSING = "error: the following required arguments were not provided:\n  "
WORKERS = "error: --workers takes a number from 1 to 16\n"
RATE = "error: --rate takes a number of bytes, from 1, as 500K, 50M or 1G\n"
PART = "error: --part takes I/N, with I from 1 to N\n"
# Arguments that are refused, each with the whole text that is said. Those of the parser are clap's, of whose usage each command's line is
# one.
REFUSED = [
    ("encode s -", "error: - needs a name, --as NAME\n"),
    ("encode s a - --as b", "error: --as and - take one FILE alone\n"),
    ("encode s a --as b/c", "error: --as takes a name without /\n"),
    ("lost s\udcff", "error: an argument is not text\n"),
    ("remove s", f"{MISSING}<NAME>...\n\nUsage: rebuild-store remove <STORE> <NAME>...{MORE}"),
    ("", f"error: rebuild-store takes a command{MORE}"),
    ("mix s", f"error: unrecognized subcommand 'mix'\n\nUsage: rebuild-store [COMMAND]{MORE}"),
    ("lost", f"{MISSING}<STORE>\n\nUsage: rebuild-store lost <STORE>{MORE}"),
    ("encode s", f"{MISSING}<FILE>...\n\nUsage: rebuild-store encode <STORE> <FILE>...{MORE}"),
    ("read s", f"{MISSING}<NAME>\n\nUsage: rebuild-store read <STORE> <NAME>{MORE}"),
    ("scrub --dry-run s", f"error: unexpected argument '--dry-run' found\n\nUsage: rebuild-store scrub [OPTIONS] <STORE>{MORE}"),
    ("lost --workers 2 s", f"error: unexpected argument '--workers' found\n\nUsage: rebuild-store lost [OPTIONS] <STORE>{MORE}"),
    ("repair --code 6-3 s", f"error: invalid value '6-3' for '--code <CODE>'\n  [possible values: 6-2-2, 12-2-2]{MORE}"),
    ("repair --reads any s", f"error: invalid value 'any' for '--reads <WHICH>'\n  [possible values: all, checked, few]{MORE}"),
    ("read --layout zig s n", f"error: invalid value 'zig' for '--layout <LAYOUT>'\n  [possible values: plain, groups]{MORE}"),
    ("repair --workers 0 s", WORKERS),
    ("scrub --workers=17 s", WORKERS),
    ("scrub -j 99999999999999999999 s", WORKERS),
    ("repair --workers=four s", WORKERS),
    ("repair --rate 0 s", RATE),
    ("scrub --rate=17179869184G s", RATE),
    ("repair --report rows --progress=rows s", "error: --report and --progress take two files\n"),
    ("repair --quit s", "error: unexpected argument '--quit' found\n\n  tip: a similar argument exists: '--quiet'\n\n"
     f"Usage: rebuild-store repair --quiet <STORE>{MORE}"),
    ("repair --part 0/3 s", PART),
    ("lost --part 4/3 s", PART),
    ("scrub --part 3 s", PART),
    ("scrub --part a/b s", PART),
    *((f"{line} --names d{{shard}}/{{stripe}}", "error: names with {shard} need --code\n")
      for line in ("repair s", "lost s", "scrub s", "list s", "remove s a")),
    ("repair --names {stripe} s", "error: the pattern of names needs {stripe} once, and {place} or {shard} once\n"),
    ("encode --names /{stripe}.{place} s f", "error: the pattern of names is no name below the store's folder\n"),
    ("read --names {stripe}{shard} s n",
     "error: the pattern of names needs something that is no digit between {stripe} and {shard}\n"),
]


def check(holds, what):
    """Counts what holds, and ends with what doesn't."""
    global passed
    if not holds:
        sys.exit(f"store-arguments: {what}")
    passed += 1


def compare(what, came, wanted):
    check(came == wanted, f"{what}:\n  wanted: {wanted}\n  came:   {came}")


def run(place, line, status):
    """Runs the program in a folder with the words of a line, holds its status to this one, and gives what it says on standard output and
    on standard error."""
    words = line.split() if isinstance(line, str) else line
    done = subprocess.run([PROGRAM, *words], cwd=place, stdin=subprocess.DEVNULL, capture_output=True, timeout=SECONDS)
    out, err = done.stdout.decode(), done.stderr.decode()
    compare(f"{' '.join(words)}: {out}{err}: the status", done.returncode, status)
    return out, err


def there(folder):
    """The bytes of the regular files below a folder, by their paths."""
    return {str(path.relative_to(folder)): path.read_bytes() for path in folder.rglob("*") if path.is_file() and not path.is_symlink()}


def lay(place, choose, names="a", length=60, lost=(), code="6-2-2"):
    """Makes the store `s` of stripes that have lost these places, and gives each one's fragments."""
    store = place / "s"
    store.mkdir()
    stripes = {name: stripe(code, length, choose) for name in names}
    for name, fragments in stripes.items():
        for of, data in fragments.items():
            if of not in lost:
                (store / f"{name}.{of}").write_bytes(data)
    return stripes


def change(path):
    data = path.read_bytes()
    path.write_bytes(bytes([data[0] ^ 1]) + data[1:])


def test_refused(place, _choose):
    for line, text in REFUSED:
        compare(line, run(place, line, 2), ("", text))
    compare("what mistakes leave", list(place.iterdir()), [])


VERSION = "rebuild-store 0.1.0\n"
LOST_HELP = """\
Writes the request list of what is lost

Usage: rebuild-store lost [OPTIONS] <STORE>

Arguments:
  <STORE>  Folder of the fragments

Options:
"""


def test_shown(place, _choose):
    """A text is shown for the version and for help."""
    for line in ("--version", "-V"):
        compare(line, run(place, line, 0), (VERSION, ""))
    for line in ("lost --help", "lost -h", "lost s --help"):
        out, err = run(place, line, 0)
        compare(line, (out.startswith(LOST_HELP), err), (True, ""))


# The options of a repair, each with a space and with an equals sign, or by its name and its letter.
OPTIONS = {
    "code": ("--code 12-2-2", "--code=12-2-2"),
    "names": ("--names d{shard}/{stripe}", "--names=d{shard}/{stripe}"),
    "layout": ("--layout groups", "--layout=groups"),
    "links": ("--follow-links", "--follow-links"),
    "stripes": ("--stripes names", "--stripes=names"),
    "part": ("--part 3/10", "--part=3/10"),
    "workers": ("--workers 16", "-j 16"),
    "rate": ("--rate 50M", "--rate=51200K"),
    "progress": ("--progress rate", "--progress=rate"),
    "sums": ("--sums sums", "--sums=sums"),
    "report": ("--report rows", "--report=rows"),
    "json": ("--json", "--json"),
    "dry run": ("--dry-run", "-n"),
    "replace": ("--replace-damaged", "--replace-damaged"),
    "assume": ("--assume-one-damaged", "--assume-one-damaged"),
    "to": ("--to new", "--to=new"),
    "reads": ("--reads few", "--reads=few"),
    "trust": ("--trust-writers", "--trust-writers"),
    "unmounted": ("--allow-unmounted", "--allow-unmounted"),
    "quiet": ("-q", "--quiet"),
}
FORMS = ("before the store", "after the store")
GROUPS = ["x0", "x1", "x2", "x3", "x4", "x5", "px", "y0", "y1", "y2", "y3", "y4", "y5", "py", "p0", "p1"]
NOTHING_LEFT = "no fragment can be read"


def words_of(form, *without):
    """The words of a repair with all options but some, which are before the store or after it."""
    options = [word for name, forms in OPTIONS.items() if name not in without for word in forms[form].split()]
    return ["repair", *options, "s"] if form == 0 else ["repair", "s", *options]


def part_of(name):
    """Which of ten parts a stripe is of."""
    return int.from_bytes(hashlib.sha256(name.encode()).digest()[:8], "big") % 10 + 1


class Store:
    """A store on which each option of a repair makes a difference: stripes of the third of ten parts and of others, each of which has lost
    px. Of one y0 is a link to its bytes; of another there is a digest of what was lost; of one that is named nothing is there."""

    def __init__(self, place, choose):
        self.place, self.folder, self.to = place, place / "s", place / "new"
        names = [f"n{k}" for k in range(400)]
        self.mine = [name for name in names if part_of(name) == 3][:20]
        self.others = [name for name in names if part_of(name) != 3][:3]
        self.none = next(name for name in (f"none{k}" for k in range(400)) if part_of(name) == 3)
        self.linked, self.listed = self.mine[:2]
        self.lost = {name: self.lay(name, choose) for name in (*self.mine, *self.others)}
        outside = place / "outside"
        (self.folder / "d7" / self.linked).rename(outside)
        (self.folder / "d7" / self.linked).symlink_to(outside)
        (place / "names").write_text(f"{self.none}\n")
        first = (self.folder / "d0" / self.listed).read_bytes()
        sums = {f"d6/{self.listed}": self.lost[self.listed], f"d0/{self.listed}": first}
        (place / "sums").write_text("".join(f"{hashlib.sha256(data).hexdigest()}  {name}\n" for name, data in sums.items()))
        for number in range(len(GROUPS)):
            (self.to / f"d{number}").mkdir(parents=True)
        self.to.chmod(0o777)
        self.before = there(self.folder)

    def lay(self, name, choose):
        """Makes a stripe, and gives what it has lost."""
        fragments = stripe("12-2-2", 24, choose)
        for number, place in enumerate(GROUPS):
            path = self.folder / f"d{number}" / name
            path.parent.mkdir(parents=True, exist_ok=True)
            if place != "px":
                path.write_bytes(fragments[place])
        return fragments["px"]

    def rows(self, word="would be rebuilt", target="px", detail="unchecked", without=()):
        """The rows of a run with all options but these."""
        names = [*self.mine, *(self.others if "part" in without else [])]
        has_digest = {self.listed} if "sums" not in without else set()
        rows = [(name, target, word, "" if name in has_digest else detail) for name in names]
        if "links" in without:
            rows.append((self.linked, "y0", word, detail))
        if "stripes" not in without:
            rows.append((self.none, "", "left", NOTHING_LEFT))
        return sorted(rows)

    def run(self, form, *without, status=1):
        """Runs a repair with all options but these, and gives what it says."""
        for name in ("rows", "rate"):
            (self.place / name).unlink(missing_ok=True)
        return run(self.place, words_of(form, *without), status)


def rows_of(out):
    return sorted(tuple(json.loads(line).values()) for line in out.splitlines())


def test_options_of_a_repair(place, choose):
    """A dry run with all options, and without each one of those that it shows."""
    store = Store(place, choose)
    said = f"{store.none}: {NOTHING_LEFT}\n"
    for form, how in enumerate(FORMS):
        out, err = store.run(form)
        compare(f"all options {how}", (rows_of(out), err), (store.rows(), said))
        compare("the report", (place / "rows").read_text().count("\n"), 1 + len(store.rows()))
        check('\nrebuild_store_status{command="repair",store="s"} 1\n' in (place / "rate").read_text(), "other counters")
        for option, change in (("layout", {"target": "y0"}), ("links", {}), ("stripes", {}), ("part", {}), ("sums", {}),
                               ("reads", {"detail": ""})):
            out, err = store.run(form, option)
            compare(f"without {option}", rows_of(out), store.rows(without=[option], **change))
            check((said in err) == (option != "stripes"), err)
        compare("without code", store.run(form, "code", status=2), ("", "error: names with {shard} need --code\n"))
        out, err = store.run(form, "names")
        wanted = [(store.none, "", "left", NOTHING_LEFT)], f"rebuild-store: sums: names no file of the store\n{said}"
        compare("without names", (rows_of(out), err), wanted)
        for option, name in (("report", "rows"), ("progress", "rate")):
            store.run(form, option)
            check(not (place / name).exists(), f"{name} is written unasked")
        compare("without json", store.run(form, "json"), ("", said))
        _, err = store.run(form, "quiet")
        check(err.startswith(f"{said}{len(store.mine) + 1} stripes of 12-2-2, "), err)
    compare("what dry runs leave", (there(store.folder), there(store.to)), (store.before, {}))


def test_work_of_a_repair(place, choose):
    """The same without --dry-run, into another folder or into the store."""
    for form, how in enumerate(FORMS):
        folder = place / str(form)
        folder.mkdir()
        store = Store(folder, choose)
        if os.geteuid() == 0:
            _, err = store.run(form, "dry run", "trust", status=2)
            check("or give --trust-writers" in err and not there(store.to), err)
        out, _ = store.run(form, "dry run")
        made = {f"d6/{name}": store.lost[name] for name in store.mine}
        compare(f"a repair with options {how}", rows_of(out), store.rows(word="rebuilt"))
        compare("what it leaves", (there(store.folder), there(store.to)), (store.before, made))
        store.run(form, "dry run", "to")
        compare("what one in place leaves", there(store.folder), store.before | made)


def test_replacing_and_assuming(place, choose):
    """A damaged fragment is replaced, and one that may be is taken for it, if that is asked for, before the store or after it."""
    for number, (line, status, replaced, made) in enumerate((
            ("repair --replace-damaged s", 0, True, False), ("repair s --replace-damaged", 0, True, False), ("repair s", 0, False, False),
            ("repair --assume-one-damaged s", 1, False, True), ("repair s --assume-one-damaged", 1, False, True),
            ("repair s --reads=all", 1, False, False))):
        folder = place / str(number)
        folder.mkdir()
        # Of a stripe that lost p1 a line names all that may be damaged.
        may_be_another = "assume" in line or "all" in line
        fragments = lay(folder, choose, lost=["p1"] if may_be_another else [])["a"]
        change(folder / "s/a.x0")
        run(folder, line, status)
        files = there(folder / "s")
        compare(f"{line}: what is replaced", (files["a.x0"] == fragments["x0"], "a.x0.damaged" in files), (replaced, replaced))
        compare(f"{line}: what is made", files.get("a.p1") == fragments["p1"], made or not may_be_another)


# Which survivors a line has a repair read of the nine of a stripe: as few as are checked, if it doesn't say, or all if it looks for damage.
READS = {
    "repair s": 8,
    "repair --reads checked --replace-damaged s": 8,
    "repair --reads=all s": 9,
    "repair --replace-damaged s": 9,
    "repair s --assume-one-damaged": 9,
    "repair --assume-one-damaged --reads few s": 3,
}


def test_reads(place, choose):
    lay(place, choose, length=1_024, lost=["x0"])
    for line, count in READS.items():
        out, _ = run(place, f"{line} --dry-run", 1)
        check(f"; reads {count} KiB, writes 1 KiB\n" in out, f"{line}: {out}")


# Numbers of bytes, and how many each is.
RATES = {
    "scrub --rate 1 s": 1,
    "scrub --rate=1023 s": 1_023,
    "scrub --rate 1K s": 1_024,
    "scrub --rate 3G s": 3_221_225_472,
    "scrub --rate 18446744073709551615 s": 18_446_744_073_709_551_615,
    "repair --reads all --rate 50M s": 52_428_800,
    "repair s --reads=all --rate=51200K": 52_428_800,
}


def slept(place, library, line):
    """How many microseconds a run with one thread would have slept."""
    with tempfile.NamedTemporaryFile(dir=place) as record:
        record.truncate(8)
        words = [PROGRAM, *line.split(), "--workers", "1"]
        done = subprocess.run(words, cwd=place, env={"LD_PRELOAD": str(library), "SLEPT_RECORD": record.name}, capture_output=True,
                              timeout=SECONDS)
        check(done.returncode == 0, f"{line}: {done}")
        return int.from_bytes(record.read(), sys.byteorder) / 1_000


def test_rates(place, choose):
    """After each read a run sleeps until others may be made, by whole microseconds."""
    library, files, length = place / "skip-sleep.so", 10, 60_000
    refusals.build(library, "skip-sleep.c", "-shared", "-fPIC")
    lay(place, choose, length=length)
    compare("what a run sleeps without a rate", slept(place, library, "scrub s"), 0)
    for line, rate in RATES.items():
        (place / "s/a.x0").unlink() if "repair" in line else None
        count = files - 1 if "repair" in line else files
        took, wanted = slept(place, library, line), 1_000_000 * count * length / rate
        check(wanted - count <= took <= wanted, f"{line}: {took} microseconds of sleep, where {wanted} are {rate} bytes a second")


# How many threads a line asks for, of which one is the program's own.
THREADS = {"scrub s": 4, "repair s": 4, "scrub -j 1 s": 1, "repair s -j2": 2, "scrub --workers 7 s": 7, "repair s --workers=16": 16}


def test_threads(place, choose):
    lay(place, choose, [f"a{number}" for number in range(30)], 4)
    library = refusals.Library(place)
    for line, threads in THREADS.items():
        command, *words = [str(place / "s") if word == "s" else word for word in line.split()]
        compare(f"{line}: the threads", library.run([PROGRAM, command, *words]).threads, threads - 1)
    store = Store(place / "all", choose)
    options = [word for word in words_of(1) if word not in ("repair", "s")]
    ran = library.run(["sh", "-c", 'cd "$0" && exec "$@"', store.place, PROGRAM, "repair", "s", *options])
    compare("the threads of all options", ran.threads, 15)


def files_of(folder, name, ending):
    """How many files of a store are of a stripe, by what their names end in or begin with."""
    return sum(path.endswith(f"/{name}") if ending else path.startswith(f"{name}.") for path in there(folder))


def test_encode(place, _choose):
    """A file is encoded under another name, into folders that are made, in place of another, in silence; and without each of these."""
    line = "encode s a --as b --make-folders --replace --allow-unmounted -q --names={place}/{stripe}"
    (place / "a").write_text("some text")
    _, err = run(place, line.replace("--make-folders", ""), 3)
    check("isn't there: make this folder, or give --make-folders" in err, err)
    compare(line, run(place, line, 0), ("", ""))
    compare("what is encoded", files_of(place / "s", "b", True), 10)
    compare("what that is", run(place, "read --names {place}/{stripe} s b", 0), ("some text", ""))
    (place / "a").write_text("another text")
    _, err = run(place, line.replace("--replace", ""), 1)
    check("--replace replaces the file" in err, err)
    compare("what is there then", run(place, "read --names {place}/{stripe} s b", 0), ("some text", ""))
    compare("without -q", run(place, line.replace("-q", ""), 0), ("encoded 1 file; not encoded: 0\n", ""))
    compare("what replaces it", run(place, "read --names {place}/{stripe} s b", 0), ("another text", ""))
    run(place, line.replace("--as b", ""), 0)
    compare("without --as", files_of(place / "s", "a", True), 10)
    for number, (code, count) in enumerate((("--code 12-2-2", 16), ("--code=12-2-2", 16), ("--code 6-2-2", 10))):
        run(place, f"encode t{number} a {code}", 0)
        compare(code, files_of(place / f"t{number}", "a", False), count + 2)


def test_files(place, _choose):
    """A file is read to another, files are listed, verified and taken out; each with its options, and without them."""
    for name in ("a", "b", "c"):
        (place / name).write_text(f"text {name}")
    run(place, "encode --quiet s a b c --code=12-2-2", 0)
    for line in ("read s a -o new --quiet", "read -q --output new s a", "read s --output=new a"):
        compare(line, run(place, line, 0), ("", ""))
        compare(line, (place / "new").read_text(), "text a")
        (place / "new").unlink()
    compare("without -o", run(place, "read s a", 0), ("text a", ""))
    (place / "names").write_text("none\n")
    for line in ("list s --json --stripes names", "list --stripes=names --json s"):
        rows = [json.loads(text)["name"] for text in run(place, line, 0)[0].splitlines()]
        compare(line, rows, ["a", "b", "c", "none"])
    out, _ = run(place, "list s", 0)
    compare("without options", out, "".join(f"whole 6 12-2-2 16/16 {name}\n" for name in "abc"))
    (place / "s/c.x0").unlink()
    for line, said in (("verify s a b --quiet", ""), ("verify -q s a b", ""), ("verify s a b", "verified 2 files; not as described: 0\n")):
        compare(line, run(place, line, 0), (said, ""))
    out, err = run(place, "verify s", 0)
    check(out == "verified 3 files; not as described: 0\n" and "c.x0: left out" in err, out + err)
    (place / "s").chmod(0o777)
    line = "remove s a b --code 12-2-2 --trust-writers -q"
    if os.geteuid() == 0:
        _, err = run(place, line.replace("--trust-writers", ""), 2)
        check("or give --trust-writers" in err and files_of(place / "s", "a", False) == 18, err)
    run(place, line.replace("12-2-2", "6-2-2"), 1)
    compare(line, run(place, line, 0), ("", ""))
    compare("what is left", [files_of(place / "s", name, False) for name in "abc"], [0, 0, 17])
    compare("without -q", run(place, "remove --trust-writers s c", 0), ("removed 1 file; not removed: 0\n", ""))


def test_without_options(place, choose):
    """What holds without options: of a store with lost, linked, damaged and short fragments and checksums, and of files."""
    stripes = lay(place, choose, ["a", "b", "c", "d"], lost=["px"], code="12-2-2")
    store, outside = place / "s", place / "outside"
    (store / "b.x0").rename(outside)
    (store / "b.x0").symlink_to(outside)
    (store / "c.y0").write_bytes(b"short")
    (store / "SHA256SUMS").write_text(f"{'0' * 64}  d.x1\n")
    before = there(store)
    out, _ = run(place, "scrub s", 1)
    lines = ["b.x0: is no regular file", "d.x1: differs from the checksums", *(f"{name}.px: is lost" for name in stripes)]
    check(all(line in out.splitlines() for line in lines), out)
    check(out.endswith("\nscrubbed 4 stripes: 1 damaged, 6 lost or contradictory, 0 stripes without any check\n"), out)
    out, err = run(place, "lost s", 1)
    request = "rebuild,a,px,60,x0 x1 x2 x3 x4 x5 y0 y1 y2 y3 y4 y5 py p0 p1,12-2-2\n"
    check(out.startswith(f"order,stripe,target,length,survivors,code\n{request}"), out)
    check("b.x0: is a link, and isn't followed without --follow-links\n" in err, err)
    out, err = run(place, "repair s", 1)
    made = {f"{name}.px": fragments["px"] for name, fragments in stripes.items()}
    compare("what repair s leaves", there(store), before | made)
    check(out.startswith("repaired 4 fragments, 240 bytes ("), out + err)
    compare("what else it writes", sorted(path.name for path in place.iterdir()), ["outside", "s"])


def test_files_without_options(place, _choose):
    """Files are encoded by the (6,2,2) code, under their names, in a folder that nobody else writes into, and read without links."""
    (place / "a").write_text("text a")
    (place / "b").write_text("text b")
    (place / "s").mkdir(mode=0o700)
    (place / "s").chmod(0o777)
    if os.geteuid() == 0:
        _, err = run(place, "encode s a b", 2)
        check("or give --trust-writers" in err and not there(place / "s"), err)
    (place / "s").chmod(0o700)
    compare("encode s a b", run(place, "encode s a b", 0), ("encoded 2 files; not encoded: 0\n", ""))
    compare("what is encoded", [files_of(place / "s", name, False) for name in "ab"], [12, 12])
    (place / "s/a.x0").rename(place / "outside")
    (place / "s/a.x0").symlink_to(place / "outside")
    out, err = run(place, "read s a", 0)
    check(out == "text a" and "a.x0: left out: is a link" in err, err)
    compare("with links", run(place, "read s a --follow-links", 0), ("text a", ""))


def main(program=None, only=""):
    global PROGRAM
    PROGRAM = pathlib.Path(program or PROGRAM).resolve()
    choose = random.Random(2026)
    tests = [value for name, value in globals().items() if name.startswith("test_") and only in name]
    tests = [globals()[only]] if only in globals() else tests
    with tempfile.TemporaryDirectory() as scratch:
        for test in tests:
            place = pathlib.Path(scratch) / test.__name__
            place.mkdir()
            test(place, choose)
    if os.geteuid() != 0:
        print("store-arguments skipped: only root is refused without --trust-writers")
    print(f"store-arguments: {passed} passed, 0 failed")


if __name__ == "__main__":
    main(*sys.argv[1:3])
