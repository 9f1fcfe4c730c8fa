#!/usr/bin/env python3
"""Tries what rebuild-store says of stripes: rows, lines, last lines and statuses, of what is damaged, lost, unchecked, kept, made again or
of no stripe, and what a dry run says of each kind of thing that is under a lost fragment's name; names with control characters, the
system's words, and requests for what is lost.

    store-results.py [PROGRAM [TEST]]

Stores are made by an independent encoder, and each expected text is that of the manual page. A test of store_tests shows what is said of
errors that no system has."""

import csv
import hashlib
import json
import os
import pathlib
import random
import subprocess
import sys
import tempfile

# No compiled copy of the modules is left beside them.
sys.dont_write_bytecode = True
import refusals  # noqa: E402

ROOT = pathlib.Path(__file__).resolve().parent.parent
sys.path.append(str(ROOT / "tools"))
from faults import Calls  # noqa: E402
from store import stripe  # noqa: E402

PROGRAM = ROOT / "crates/rebuild_store/out/rebuild_store"
WORDS_OF_ERRORS = [ROOT / "crates/store_tests/out/store_tests_tests", "errors::words_of_errors"]
SECONDS = 300
HEADER = ["stripe", "place", "outcome", "detail"]
# Without these and another one as few fragments survive as it takes.
SPARE = ("y0", "p0", "p1")
passed = 0

DAMAGED = "is damaged: only without it the others belong together"
GUESS = "is taken for the damaged one, which is a guess: only without it the others belong together"
NOTHING_LEFT = "no fragment can be read"
DIFFERS = "differs from the checksums"
SHORT = "has another length than the other fragments of the stripe"
NO_FILE = "is no regular file"
NOT_REPLACED = "isn't replaced: no check covers what would be put in its place"
ALONE = "is named as a fragment, and of no stripe"
FEW = "as many fragments survive as it takes, so damage among them can't show"


def check(holds, what):
    """Counts what holds, and ends with what doesn't."""
    global passed
    if not holds:
        sys.exit(f"store-results: {what}")
    passed += 1


def compare(what, came, wanted):
    check(came == wanted, f"{what}:\n  wanted: {wanted}\n  came:   {came}")


def run(*arguments, status):
    """Runs the program, holds its status to this one, and gives what it says on standard output and on standard error."""
    done = subprocess.run([PROGRAM, *map(str, arguments)], stdin=subprocess.DEVNULL, capture_output=True, timeout=SECONDS)
    out, err = done.stdout.decode(), done.stderr.decode()
    compare(f"{' '.join(map(str, arguments))}: {out}{err}: the status", done.returncode, status)
    return out, err


def lay(folder, choose, name, length, lost=(), code="6-2-2"):
    """Makes a store of a stripe that has lost these places."""
    folder.mkdir()
    for place, data in stripe(code, length, choose).items():
        if place not in lost:
            (folder / f"{name}.{place}").write_bytes(data)
    return folder


def change(path):
    """Another byte at a file's beginning."""
    data = path.read_bytes()
    path.write_bytes(bytes([data[0] ^ 1]) + data[1:])


def sums_of(store, *names):
    """Lines of digests of these files, or of all."""
    names = names or sorted(path.name for path in store.iterdir())
    return "".join(f"{hashlib.sha256((store / name).read_bytes()).hexdigest()}  {name}\n" for name in names)


def rows_of(text):
    """The rows of a report."""
    rows = [tuple(row) for row in csv.reader(text.splitlines())]
    compare("a report's header", list(rows[0]), HEADER)
    return rows[1:]


def objects_of(text):
    """The rows of standard output, whose keys have the report's order."""
    objects = [json.loads(line) for line in text.splitlines()]
    check(all(list(row) == HEADER for row in objects), text)
    return [tuple(row.values()) for row in objects]


# A stripe `a,b` of 1,536 bytes lost p1 and the first copy of its description, its x0 may be damaged, of two others nothing is left, and a
# file is of no stripe: the rows, the lines and the last line of a repair into another folder that takes x0 for the damaged one.
ROWS = '''\
stripe,place,outcome,detail
"a,b",x0,rebuilt,unchecked
"a,b",p1,rebuilt,unchecked
"a,b",x0,was,"is taken for the damaged one, which is a guess: only without it the others belong together"
"a,b",file,rebuilt,"a,b.file"
gone,,left,no fragment can be read
none,,left,no fragment can be read
z,y2,alone,"is named as a fragment, and of no stripe"
'''
FIRST_OBJECT = '{"stripe":"a,b","place":"x0","outcome":"rebuilt","detail":"unchecked"}\n'
LINES = f"""\
rebuild-store: z.y2: {ALONE}
a,b.x0: {GUESS}
a,b.x0: rebuilt unchecked: which fragment is damaged was a guess
a,b.p1: rebuilt unchecked: which fragment is damaged was a guess
gone: {NOTHING_LEFT}
none: {NOTHING_LEFT}
"""
REPAIRED = "repaired 2 fragments, 3 KiB (2 unchecked: a,b.x0 a,b.p1); damaged: 1: a,b.x0; not possible: 2; 1 description made\n"


def test_what_became_of_a_stripe(place, choose):
    """What was rebuilt, what no check covers, what was damaged, what is left, made again and alone has its row, its line and its count."""
    store, names, report = (place / name for name in ("store", "names", "report"))
    source = place / "a,b"
    source.write_bytes(choose.randbytes(6 * 1_536))
    run("encode", store, source, status=0)
    for name in ("SHA256SUMS", "a,b.file", "a,b.p1"):
        (store / name).unlink()
    change(store / "a,b.x0")
    (store / "z.y2").write_bytes(b"mine")
    names.write_text("none\ngone\n")
    for name in ("one", "two", "three"):
        (place / name).mkdir()
    words = ["repair", store, "--assume-one-damaged", "--stripes", names]
    compare("a repair", run(*words, "--to", place / "one", "--report", report, status=1), (REPAIRED, LINES))
    compare("the report", report.read_text(), ROWS)
    out, err = run(*words, "--to", place / "two", "--json", status=1)
    check(FIRST_OBJECT in out, out)
    compare("the objects", sorted(objects_of(out)), sorted(rows_of(ROWS)))
    compare("a repair with objects", err, LINES + REPAIRED)
    # A report that can't be written is a fault of a device, whatever is left.
    out, err = run(*words, "--to", place / "three", "--report", "/dev/full", status=3)
    compare("a repair without its report", (out, err.startswith(LINES)), (REPAIRED, True))
    out, err = run(*words, "--dry-run", status=1)
    check("none: no fragment can be read\n" in err and f"\nz.y2: {ALONE}\n" in f"\n{err}", err)


def test_damage_that_is_known(place, choose):
    """The one damaged fragment of a stripe is said to be that, by a scrub and by a repair, which left it or was told to replace it."""
    store, report = lay(place / "store", choose, "a,b", 1_536), place / "report"
    change(store / "a,b.x0")
    found = f"a,b.x0: {DAMAGED}\n"
    last = "scrubbed 1 stripe: 1 damaged, 0 lost or contradictory, 0 stripes without any check\n"
    compare("a scrub", run("scrub", store, "--report", report, status=1), (found + last, ""))
    out, err = run("scrub", store, "--report", "/dev/full", status=3)
    compare(f"a scrub without its report: {err}", (out, "/dev/full: the report can't be written: " in err), (found + last, True))
    compare("the report", rows_of(report.read_text()), [("a,b", "x0", "left", DAMAGED)])
    last = "repaired 1 fragment, 1.5 KiB (0 unchecked); damaged: 1: a,b.x0; not possible: 0\n"
    compare("a repair", run("repair", store, "--replace-damaged", "--report", report, status=0), (last, found))
    rows = f'{",".join(HEADER)}\n"a,b",x0,rebuilt,\n"a,b",x0,was,{DAMAGED}\n'
    compare("its report", report.read_text(), rows)


def test_as_few_as_it_takes(place, choose):
    """Of a stripe of which as few fragments survive as it takes what is rebuilt is unchecked, and no check covers it in a scrub."""
    store, report = lay(place / "store", choose, "a,b", 1_536, ("x0", "x1", "y0", "p1")), place / "report"
    for name in ("x1", "y0"):
        (store / f"a,b.{name}").mkdir()
    last = "repaired 2 fragments, 3 KiB (2 unchecked: a,b.x0 a,b.p1); damaged: 0; not possible: 2\n"
    out, err = run("repair", store, "--report", report, status=1)
    lines = [f"a,b.{name}: {NO_FILE}" for name in ("x1", "y0")] + [f"a,b.{name}: rebuilt unchecked: {FEW}" for name in ("x0", "p1")]
    compare("a repair", (out, sorted(err.splitlines())), (last, sorted(lines)))
    rows = [("a,b", name, "rebuilt", "unchecked") for name in ("x0", "p1")] + [("a,b", name, "left", NO_FILE) for name in ("x1", "y0")]
    compare("the report", sorted(rows_of(report.read_text())), sorted(rows))
    scrubbed = lay(place / "scrubbed", choose, "a,b", 1_536, SPARE)
    (scrubbed / "SHA256SUMS").write_text(f"{'0' * 64}  a,b.x0\n")
    out, _ = run("scrub", scrubbed, status=1)
    last = "scrubbed 1 stripe: 1 damaged, 3 lost or contradictory, 1 stripe without any check\n"
    lines = [f"a,b.x0: {DIFFERS}", *(f"a,b.{name}: is lost" for name in SPARE), last.strip()]
    compare("a scrub", sorted(out.splitlines()), sorted(lines))
    empty = lay(place / "empty", choose, "s", 0, ("x0",))
    last = "repaired 1 fragment, 0 bytes (1 unchecked: s.x0); damaged: 0; not possible: 0\n"
    compare("one without bytes", run("repair", empty, status=0), (last, "s.x0: rebuilt unchecked: fragments without bytes show nothing\n"))


def test_descriptions(place, choose):
    """A copy of a description that is lost is said by its name, and one that is made again is counted."""
    store, source, report = place / "store", place / "a,b", place / "report"
    source.write_bytes(b"some text")
    run("encode", store, source, status=0)
    (store / "SHA256SUMS").unlink()
    (store / "a,b.file.copy").unlink()
    out, _ = run("scrub", store, "--report", report, status=1)
    last = "scrubbed 1 stripe: 0 damaged, 1 lost or contradictory, 0 stripes without any check\n"
    compare("a scrub", out, "a,b.file.copy: is lost\n" + last)
    compare("the report", report.read_text(), f'{",".join(HEADER)}\n"a,b",file,left,"a,b.file.copy: is lost"\n')
    out, _ = run("repair", store, "--dry-run", status=1)
    check(out.endswith("; 1 description can be made\n"), out)
    out, _ = run("repair", store, "--report", report, status=0)
    compare("a repair", out, "repaired 0 fragments, 0 bytes (0 unchecked); damaged: 0; not possible: 0; 1 description made\n")
    compare("its report", report.read_text(), f'{",".join(HEADER)}\n"a,b",file,rebuilt,"a,b.file.copy"\n')


# What is under the name of the lost x0, whether what is rebuilt of it is checked, whether damaged fragments are replaced, whether fragments
# go elsewhere, and whether x0 would be rebuilt; or else what is said of it, and by the repair itself if that says something else.
PLANS = [
    ("nothing", False, False, False, ()),
    ("a link to nothing", False, False, False, ()),
    ("a file", True, False, False, (SHORT, SHORT)),
    ("a file", True, True, False, ()),
    ("a file", False, True, False, (SHORT, NOT_REPLACED)),
    ("a file", False, False, True, ()),
    ("a folder", True, True, False, (NO_FILE, NO_FILE)),
    ("a folder", False, False, True, ()),
    ("a FIFO", True, True, False, (NO_FILE, NO_FILE)),
    ("a FIFO", False, False, True, ()),
]


def put_under(path, what):
    """Puts something of this kind under a name."""
    if what == "a link to nothing":
        path.symlink_to("nowhere")
    elif what == "a file":
        path.write_bytes(b"abc")
    elif what == "a folder":
        path.mkdir()
    elif what == "a FIFO":
        os.mkfifo(path)


def rows_of_x0(out):
    return [row[2:] for row in objects_of(out) if row[1] == "x0"]


def test_plans(place, choose):
    """A dry run says what the repair then does of what is under a lost fragment's name."""
    for number, (under, is_checked, replaces, is_elsewhere, left) in enumerate(PLANS):
        lost = ("x0", *(() if is_checked else SPARE))
        store, to = lay(place / f"store-{number}", choose, "s", 2_048, lost), place / f"to-{number}"
        # A digest says which length is right where so few survive.
        (store / "SHA256SUMS").write_text(sums_of(store, "s.x1"))
        put_under(store / "s.x0", under)
        to.mkdir()
        words = ["repair", store, "--json", "--reads", "all", *(["--replace-damaged"] if replaces else []),
                 *(["--to", to] if is_elsewhere else []), *(["--follow-links"] if "link" in under else [])]
        before = sorted(path.name for path in store.iterdir())
        out, err = run(*words, "--dry-run", status=1)
        detail = "" if is_checked else "unchecked"
        compare(f"a plan with {under}: {err}", rows_of_x0(out), [("left", left[0])] if left else [("would be rebuilt", detail)])
        count = (0 if left else 1) + (0 if is_checked else len(SPARE))
        check(f"; {count} can be rebuilt ({0 if is_checked else count} unchecked)" in err, err)
        compare("what a dry run leaves", (sorted(path.name for path in store.iterdir()), list(to.iterdir())), (before, []))
        out, _ = run(*words, status=1 if left else 0)
        compare(f"a repair with {under}", rows_of_x0(out), [("left", left[1])] if left else [("rebuilt", detail)])
        path = (to if is_elsewhere else store) / "s.x0"
        check(bool(left) != (path.is_file() and path.stat().st_size == 2_048), f"{under} is replaced, or nothing is rebuilt")


def test_plan_of_one_fragment(place, choose):
    """The last line of a dry run over a stripe that lost one, which is rebuilt from few; it has something to do, and the repair nothing
    left."""
    store = lay(place / "store", choose, "s", 2_048, ("x0",))
    words = ["repair", store, "--reads", "few"]
    planned = "1 stripe of 6-2-2, 2 KiB; 1 lost in 1; 1 can be rebuilt (1 unchecked), 0 can't; reads 6 KiB, writes 2 KiB\n"
    compare("a dry run", run(*words, "--dry-run", status=1), (planned, ""))
    repaired = "repaired 1 fragment, 2 KiB (1 unchecked: s.x0); damaged: 0; not possible: 0\n"
    compare("a repair", run(*words, status=0), (repaired, ""))
    last = "1 stripe of 6-2-2, 2 KiB; 0 lost in 0; 0 can be rebuilt (0 unchecked), 0 can't; reads 0 bytes, writes 0 bytes\n"
    compare("a dry run after it", run(*words, "--dry-run", status=0), (last, ""))
    # With digests both open as few by themselves, and say nothing of damage elsewhere.
    (store / "SHA256SUMS").write_text(sums_of(store))
    (store / "s.x0").unlink()
    change(store / "s.y1")
    planned = "1 stripe of 6-2-2, 2 KiB; 1 lost in 1; 1 can be rebuilt (0 unchecked), 0 can't; reads 6 KiB, writes 2 KiB\n"
    compare("a dry run with digests", run("repair", store, "--dry-run", status=1), (planned, ""))
    repaired = "repaired 1 fragment, 2 KiB (0 unchecked); damaged: 0; not possible: 0\n"
    compare("a repair with digests", run("repair", store, status=0), (repaired, ""))


def test_plan_beside_a_stripe_without_a_length(place, choose):
    """The last line of a dry run counts nothing of a stripe whose files have two lengths, but that it can't be repaired."""
    store = lay(place / "store", choose, "s", 600, ("x0",))
    for of, data in stripe("6-2-2", 600, choose).items():
        (store / f"u.{of}").write_bytes(data[:300] if of in ("x0", "x1", "y0", "p0", "p1") else data)
    planned = "2 stripes of 6-2-2, 600 bytes; 1 lost in 1; 1 can be rebuilt (1 unchecked), 1 can't; reads 1.7 KiB, writes 600 bytes\n"
    out, err = run("repair", store, "--reads", "few", "--dry-run", status=1)
    compare(f"a dry run: {err}", (out, err.startswith("u: its fragments have different lengths")), (planned, True))


# How many bytes a fragment has that is rebuilt, and how the last line says it.
SIZES = {1: "1 byte", 1_023: "1023 bytes", 1_024: "1 KiB", 2_047: "1.9 KiB", 2_048: "2 KiB"}


def test_sizes(place, choose):
    for length, shown in SIZES.items():
        store = lay(place / str(length), choose, "s", length, ("x0",))
        last = f"repaired 1 fragment, {shown} (0 unchecked); damaged: 0; not possible: 0\n"
        compare(f"a fragment of {length} bytes", run("repair", store, status=0), (last, ""))


def test_what_is_said_first(place, choose):
    """Of a fragment a dry run says what it says first, and nothing more; it says something of each, and of a stripe as a whole."""
    store, names = lay(place / "store", choose, "s", 600), place / "names"
    (store / "SHA256SUMS").write_text(sums_of(store))
    change(store / "s.p0")
    (store / "s.x1").write_bytes(b"abc")
    names.write_text("none\ngone\n")
    _, err = run("repair", store, "--dry-run", "--quiet", "--reads", "all", "--stripes", names, status=1)
    lines = [f"s.p0: {DIFFERS}", f"s.x1: {SHORT}", f"none: {NOTHING_LEFT}", f"gone: {NOTHING_LEFT}"]
    compare("a dry run", sorted(err.splitlines()), sorted(lines))


def test_what_replacing_would_mend(place, choose):
    """A damaged fragment is left for --replace-damaged alone, unless something else is said of it or no check covers it."""
    store = lay(place / "store", choose, "s", 600)
    sums = sums_of(store)
    (store / "SHA256SUMS").write_text(sums)
    change(store / "s.p0")
    last = "repaired 0 fragments, 0 bytes (0 unchecked); damaged: 1: s.p0; left without --replace-damaged: 1; not possible: 0\n"
    compare("with a check", run("repair", store, "--reads", "all", status=1), (last, f"s.p0: {DIFFERS}\n"))
    (store / "s.p0.damaged").write_bytes(b"kept")
    last = "repaired 0 fragments, 0 bytes (0 unchecked); damaged: 1: s.p0; not possible: 2\n"
    out, err = run("repair", store, "--replace-damaged", status=1)
    kept = "isn't replaced: a fragment that was replaced before is kept beside it"
    compare("with one that is kept", (out, sorted(err.splitlines())), (last, sorted([f"s.p0: {DIFFERS}", f"s.p0: {kept}"])))
    (store / "s.p0.damaged").unlink()
    for name in ("x0", "y0", "p1"):
        (store / f"s.{name}").unlink()
    last = "repaired 3 fragments, 1.7 KiB (0 unchecked); damaged: 1: s.p0; not possible: 1\n"
    compare("without a check", run("repair", store, "--reads", "all", status=1), (last, f"s.p0: {DIFFERS}\n"))


def test_digest_of_what_equations_leave_open(place, choose):
    """A fragment that differs from its digest is replaced if there is a survivor to spare, though two of the others may be damaged as well:
    a repair that isn't asked to replace it says so, and so do dry runs."""
    store = lay(place / "store", choose, "s", 600)
    whole = {path.name: path.read_bytes() for path in store.iterdir()}
    (store / "SHA256SUMS").write_text(sums_of(store))
    change(store / "s.y0")
    words = ["repair", store, "--reads", "all"]
    last = "repaired 2 fragments, 1.1 KiB (0 unchecked); damaged: 1: s.y0; left without --replace-damaged: 1; not possible: 0\n"
    for more, status in ((["--dry-run"], 1), (["--dry-run", "--replace-damaged", "--json"], 1), ([], 1), (["--replace-damaged"], 0)):
        # Six of the seven that are left determine the others.
        for name in ("x0", "x1"):
            (store / f"s.{name}").unlink(missing_ok=True)
        out, err = run(*words, *more, status=status)
        if "--json" in more:
            rows = [row[2:] for row in objects_of(out) if row[1] == "y0"]
            compare("rows of y0", rows, [("would be rebuilt", ""), ("was", DIFFERS)])
        elif "--dry-run" in more:
            check("; 2 can be rebuilt (0 unchecked), with --replace-damaged 1, 0 can't; " in out, out)
        elif not more:
            compare("a repair", (out, err), (last, f"s.y0: {DIFFERS}\n"))
    compare("what is repaired", {name: (store / name).read_bytes() for name in whole}, whole)


# Names, and how `ls -b` of the GNU coreutils writes their control characters.
ESCAPES = {
    "note.x1": "note.x1",
    "a\nb\rc\td": r"a\nb\rc\td",
    "\a\b\v\f": r"\a\b\v\f",
    "\x1b[2J\x7f": r"\033[2J\177",
    "\0": r"\000",
    "\x85\x9b": r"\302\205\302\233",
    "größe €": "größe €",
}


def test_control_characters(place, choose):
    """Control characters of a stripe's name are escaped: of one that files have, and of one that is named and has none."""
    for number, (name, shown) in enumerate(ESCAPES.items()):
        store, names = lay(place / f"store-{number}", choose, "other", 10), place / "names"
        if "\n" not in name:
            names.write_bytes(f"{name}\n".encode())
            line = f"{shown}: {NOTHING_LEFT}\n"
            out, _ = run("scrub", store, "--stripes", names, status=1)
            compare(f"scrub of {name!r}", out.partition("scrubbed")[0], line)
            compare(f"repair of {name!r}", run("repair", "-q", store, "--stripes", names, status=1), ("", line))
            _, err = run("lost", store, "--stripes", names, status=1)
            check(err.startswith(f"rebuild-store: {line}"), err)
        if "\0" not in name:
            for of in ("x0", "x1", "y1"):
                (store / f"{name}.{of}").write_bytes(b"short")
            lost = [f"{shown}.{of}: is lost" for of in ("x2", "y0", "y2", "px", "py", "p0", "p1")]
            out, _ = run("scrub", store, status=1)
            compare(f"scrub of the files of {name!r}", sorted(line for line in out.splitlines() if line.endswith("is lost")), sorted(lost))
            rows = [json.loads(line)["name"] for line in run("list", "--json", store, status=0)[0].split("\n")[:-1]]
            compare(f"list of {name!r} as JSON", sorted(rows), sorted(["other", name]))
            rows = {json.loads(line)["stripe"] for line in run("lost", "--json", store, status=1)[0].split("\n")[:-1]}
            compare(f"lost of {name!r} as JSON", rows, {name})


# Numbers of errors, and what strerror of the C library says of them.
ERRORS = {2: "No such file or directory", 5: "Input/output error", 28: "No space left on device"}


def last_calls(calls, command, *kinds):
    """The number of the last call of these kinds at each file, by its name."""
    last = {}
    for number, kind in enumerate(calls.run(command).kinds, 1):
        if kind in kinds:
            last[pathlib.Path(calls.run(command, number, 5).paths[-1]).name] = number
    return last


def test_errors(place, choose):
    """An error is said in the system's words without its number: of a copy of a description and of a fragment whose names have such a
    number, and of the store's folder, which is a fault of a device."""
    source, store, calls = place / "a (os error 2)", place / "b", Calls(place, forks=True)
    source.write_bytes(b"some text")
    run("encode", store, source, status=0)
    (store / "SHA256SUMS").unlink()
    command = [PROGRAM, "scrub", "-j", "1", store]
    opened, last = last_calls(calls, command, "open")[store.name], last_calls(calls, command, "read")
    for error, words in ERRORS.items():
        ran = calls.run(command, opened, error)
        compare(f"{error} at the store", (ran.status, ran.out, ran.err), (3, "", f"rebuild-store: {store}: {words}\n"))
        for ending in (".x0", ".file", ".file.copy"):
            # A copy that isn't there when it is read is lost.
            status, said = (1, "is lost") if error == 2 and ending != ".x0" else (3, f"can't be read: {words}")
            ran = calls.run(command, last[source.name + ending], error)
            line = f"{source.name}{ending}: {said}\n"
            compare(f"{error} at {ending}: {ran.text()}", (ran.status, line in ran.out), (status, True))
    (store / f"{source.name}.file").unlink()
    command = [PROGRAM, "repair", "-j", "1", store]
    # The call that fails at last is to give the copy its name.
    number = max(number for number, kind in enumerate(calls.run(command).kinds, 1) if kind == "link")
    for error, words in ERRORS.items():
        (store / f"{source.name}.file").unlink(missing_ok=True)
        ran = calls.run(command, number, error)
        line = f"{source.name}.file: can't be put in its place: {words}\n"
        compare(f"{error} at a copy's name", (ran.status, ran.err), (3, line))


def test_copies_that_cannot_be_made(place, _choose):
    """Whichever call fails while a copy of a description is made, nothing is left of it under another name, and the copy isn't there in
    part. The last of the calls writes its name to the disk, which is that of its folder."""
    source, store, calls, names = place / "a", place / "b", Calls(place, forks=True), ["--names", "{stripe}/{place}"]
    source.write_bytes(b"some text")
    run("encode", "--make-folders", *names, store, source, status=0)
    copy = store / "a/a.file.copy"
    line = copy.read_bytes()
    command = [PROGRAM, "repair", "-j", "1", *names, store]
    copy.unlink()
    tried, synced = set(), []
    for number, kind in enumerate(calls.run(command).kinds, 1):
        if kind not in ("create", "write", "chown", "chmod", "sync", "link"):
            continue
        copy.unlink(missing_ok=True)
        ran = calls.run(command, number, 28)
        left = [path.name for path in copy.parent.iterdir() if path.name.startswith(".rebuild-store-")]
        compare(f"what is left after call {number}, {kind}: {ran.text()}", left, [])
        check(not copy.exists() or copy.read_bytes() == line, f"call {number}, {kind}: a part of a copy has its name")
        check(ran.status == 3 and "a.file.copy: can't be put in its place: No space left on device\n" in ran.err, f"{kind}: {ran.text()}")
        tried.add(kind)
        synced += [ran.paths[0]] * (kind == "sync")
    check({"create", "write", "sync", "link"} <= tried and synced[-1:] == [str(copy.parent)], f"only {sorted(tried)} are tried: {synced}")


# Words of errors that aren't the system's, which have no number that is left out.
OTHER_ERRORS = ["is a link", "(os error 2) odd", "odd (os error x)", ")"]


def test_other_errors(_place, _choose):
    given = "".join(f"{words}\n" for words in OTHER_ERRORS)
    ran = subprocess.run(WORDS_OF_ERRORS, input=given.encode(), capture_output=True, env={}, timeout=SECONDS)
    compare("words of errors", (ran.stdout.decode(), ran.returncode), (f"{given}\ntest result: ok\n", 0))


# A stripe's name, the length of its fragments and its code; and the request in a list for x2 or y0, or why no list can ask for them.
OTHER_LENGTH, OTHER_NAME = "it has {} bytes, and lists take 1 to 65536", "lists take other names of stripes"
REQUESTS = [
    ("note", 4, "6-2-2", "rebuild,note,{},4,x0 x1 y1 y2 px py p0 p1\n"),
    ("a-0", 65_536, "12-2-2", "rebuild,a-0,{},65536,x0 x1 x3 x4 x5 y1 y2 y3 y4 y5 px py p0 p1,12-2-2\n"),
    ("note", 65_537, "6-2-2", OTHER_LENGTH.format(65_537)),
    ("note", 0, "6-2-2", OTHER_LENGTH.format(0)),
    ("Note", 4, "6-2-2", OTHER_NAME),
    ("a123456789a123456789a123456789a12", 4, "6-2-2", OTHER_NAME),
]
# The first line of a list.
LIST = {"6-2-2": "order,stripe,target,length,survivors\n", "12-2-2": "order,stripe,target,length,survivors,code\n"}
OBJECT = (r'{"order":"rebuild","stripe":"a \"b","target":"%s","length":4,'
          '"survivors":["x0","x1","y1","y2","px","py","p0","p1"],"code":"6-2-2"}\n')


def test_requests(place, choose):
    """Requests for what is lost have the form of lists, and a line says of which fragments there is none; as JSON there is one of each."""
    lost = ("x2", "y0")
    for number, (name, length, code, wanted) in enumerate(REQUESTS):
        store = lay(place / f"store-{number}", choose, name, length, lost, code)
        is_listed = wanted.endswith("\n")
        lines = LIST[code] + "".join(wanted.format(target) for target in lost if is_listed)
        said = "".join(f"rebuild-store: {name}.{target}: a list can't ask for it: {wanted}\n" for target in lost if not is_listed)
        last = f"1 stripe; 2 fragments lost, {0 if is_listed else 2} of them not in the list\n"
        compare(f"lost of {name}, {length} bytes", run("lost", store, "--code", code, status=1), (lines, said + last))
    store = lay(place / "quoted", choose, 'a "b', 4, lost)
    wanted = "".join(OBJECT % target for target in lost), "1 stripe; 2 fragments lost, 0 of them not in the list\n"
    compare("lost as JSON", run("lost", "--json", store, status=1), wanted)
    # Of a stripe of which nothing is there each fragment is asked for, without a survivor.
    (place / "names").write_text("gone\n")
    rows = [json.loads(line) for line in run("lost", "--json", "--stripes", place / "names", store, status=1)[0].splitlines()]
    rows = [(row["length"], row["survivors"]) for row in rows if row["stripe"] == "gone"]
    compare("lost of nothing as JSON", rows, [(0, [])] * 10)


def test_part_without_stripes(place, choose):
    """What is said of a part of which no stripe is."""
    store = lay(place / "store", choose, "s", 600, ("x0",))
    part = 1 + int.from_bytes(hashlib.sha256(b"s").digest()[:8], "big") % 2
    words = [store, "--part", f"{3 - part}/2"]
    last = "0 stripes of 6-2-2, 0 bytes; 0 lost in 0; 0 can be rebuilt (0 unchecked), 0 can't; reads 0 bytes, writes 0 bytes\n"
    compare("a dry run", run("repair", "--dry-run", *words, status=0), (last, ""))
    last = "scrubbed 0 stripes: 0 damaged, 0 lost or contradictory, 0 stripes without any check\n"
    compare("a scrub", run("scrub", *words, status=0), (last, ""))
    compare("lost", run("lost", *words, status=0), (LIST["6-2-2"], "0 stripes; 0 fragments lost, 0 of them not in the list\n"))


ODD = "isn't a line with a length, a digest and a code"
COPIES = ("a.file", "a.file.copy")


def lay_file(place, data, *words, name="store"):
    """A store of a file `a` with these bytes, and what its descriptions say."""
    source, store = place / "a", place / name
    source.write_bytes(data)
    run("encode", *words, store, source, status=0)
    return store, f"{len(data)} {hashlib.sha256(data).hexdigest()} {'12-2-2' if '12-2-2' in words else '6-2-2'}\n".encode()


def without_copies(store, *more):
    """Takes the copies of the file's description out of a store, and other files."""
    for name in (*COPIES, *more):
        (store / name).unlink()


def copies_of(store):
    return [(store / name).read_bytes() for name in COPIES]


def test_copies_of_which_none_is_believed(place, _choose):
    """Copies of a description of which none is believed aren't said to be left for --replace-damaged: that replaces none of them."""
    store, text = lay_file(place, b"some text")
    other, sums = text.replace(b"9 ", b"8 ", 1), store / "SHA256SUMS"
    undecided = ["a: its descriptions differ, and nothing says which is right"]
    for said, listed, lines in (
            ([b"odd", b"odd"], "", [f"{name}: {ODD}" for name in COPIES]), ([text, other], "", undecided),
            ([text, text], f"{'0' * 64}  a.file\n", [f"{name}: {DIFFERS}" for name in COPIES])):
        sums.write_text(listed)
        for name, data in zip(COPIES, said):
            (store / name).write_bytes(data)
        for words in ([], ["--replace-damaged"]):
            last = f"repaired 0 fragments, 0 bytes (0 unchecked); damaged: 0; not possible: {len(lines)}\n"
            compare(f"a repair {words} of {said}", run("repair", *words, store, status=1), (last, "".join(f"{line}\n" for line in lines)))
            out, _ = run("repair", "--dry-run", *words, store, status=1)
            check(f"; 0 can be rebuilt (0 unchecked), {len(lines)} can't; " in out, out)
            compare("what it leaves", copies_of(store), said)


def test_copies_that_digests_name_in_part(place, _choose):
    """The digest of one copy of a description says which of them is right, whichever it is of; without digests a copy differs from the
    others."""
    store, text = lay_file(place, b"some text")
    other = text.replace(b"9 ", b"8 ", 1)
    for right, wrong in (COPIES, COPIES[::-1]):
        (store / right).write_bytes(text)
        (store / wrong).write_bytes(other)
        (store / "SHA256SUMS").write_text(sums_of(store, right))
        out, _ = run("scrub", store, status=1)
        compare(f"where {right} has its digest", out.splitlines()[:-1], [f"{wrong}: {DIFFERS}"])
        run("repair", "--replace-damaged", store, status=0)
        compare("what is repaired", copies_of(store), [text, text])
        (store / f"{wrong}.damaged").unlink()
    names = ["--names", "disk{shard}/{stripe}"]
    disks, _ = lay_file(place, b"some text", "--make-folders", *names, name="disks")
    (disks / "SHA256SUMS").unlink()
    (disks / "disk4/a.file").write_bytes(other)
    out, _ = run("scrub", "--code", "6-2-2", *names, disks, status=1)
    compare("without digests", out.splitlines()[:-1], ["disk4/a.file: differs from the other descriptions of its stripe"])


def test_descriptions_made_of_fragments(place, choose):
    """A description of which no copy is left is made of the fragments of a (12,2,2) stripe too, and of those that links lead to, whose
    rights it has then."""
    for length in (1, 100, 1_200):
        store, text = lay_file(place, choose.randbytes(length - 1) + b"z", "--code", "12-2-2", name=f"store-{length}")
        without_copies(store, "a.x3")
        run("repair", store, status=0)
        compare(f"the descriptions of {length} bytes", copies_of(store), [text, text])
    outside = place / "outside"
    outside.mkdir()
    for path in [*store.glob("a.[xyp]?")]:
        path.chmod(0o640)
        path.rename(outside / path.name)
        path.symlink_to(outside / path.name)
    without_copies(store)
    run("repair", "--follow-links", store, status=0)
    compare("those of links", copies_of(store), [text, text])
    compare("their rights", [(store / name).lstat().st_mode for name in COPIES], [0o100640] * 2)
    to = place / "to"
    to.mkdir()
    without_copies(store)
    run("repair", "--follow-links", store, "--to", to, status=0)
    compare("those in another folder", copies_of(to), [text, text])
    compare("the rights of these", [(to / name).lstat().st_mode for name in COPIES], [0o100640] * 2)


def test_descriptions_elsewhere_through_a_link(place, _choose):
    """No copy of a description is made where a folder of the other folder is a link; one of the store that is a link is in nobody's way."""
    words = ["--code", "6-2-2", "--names", "disk{shard}/{stripe}"]
    for number, linked in enumerate(("to", "store")):
        store, text = lay_file(place, b"some text", *words, "--make-folders", name=f"store-{number}")
        to, outside = place / f"to-{number}", place / f"outside-{number}"
        outside.mkdir()
        for shard in range(10):
            (to / f"disk{shard}").mkdir(parents=True)
        (store / "disk3/a.file").unlink()
        if linked == "to":
            (to / "disk3").rmdir()
            (to / "disk3").symlink_to(outside)
            _, err = run("repair", *words, store, "--to", to, status=3)
            said = f"rebuild-store: {to}/disk3: is a link, and isn't followed without --follow-links\n"
            said += "disk3/a.file: can't be put in its place: its folder is a link, and links aren't followed\n"
            compare("what is said, and made outside", (err, [*outside.iterdir()]), (said, []))
        else:
            (store / "disk3").rename(outside / "disk3")
            (store / "disk3").symlink_to(outside / "disk3")
            _, err = run("repair", *words, store, "--to", to, status=0)
            there = sorted(str(path.relative_to(to)) for path in to.rglob("*") if path.is_file())
            compare(f"what is made: {err}", there, ["disk3/a", "disk3/a.file"])
            compare("the description", (to / "disk3/a.file").read_bytes(), text)


def test_rights_beside_what_is_no_fragment(place, _choose):
    """Where a fragment can't be looked at, nobody but its user may read a description that is made again; a folder in the place of a
    fragment has no say in who may, and what is no description under the name of one has."""
    for kind, words, status, mode in (("loop", ["--follow-links"], 3, 0o600), ("folder", [], 1, 0o644)):
        store, text = lay_file(place, b"some text", name=kind)
        for path in store.iterdir():
            path.chmod(0o644)
        without_copies(store, "a.p1")
        (store / "a.p1").symlink_to("a.p1") if kind == "loop" else (store / "a.p1").mkdir(mode=0o700)
        run("repair", *words, store, status=status)
        compare(f"the descriptions beside a {kind}", copies_of(store), [text, text])
        compare(f"their rights beside a {kind}", [(store / name).stat().st_mode & 0o7777 for name in COPIES], [mode, mode])
    store, text = lay_file(place, b"some text", name="odd")
    (store / "a.file").write_bytes(b"odd")
    (store / "a.file").chmod(0o600)
    (store / "a.file.copy").unlink()
    run("repair", store, status=1)
    compare("the descriptions beside an odd one", copies_of(store), [b"odd", text])
    compare("the rights beside an odd one", (store / "a.file.copy").stat().st_mode & 0o7777, 0o600)


def test_copies_that_would_not_stay(place, _choose):
    """No copy of a description is made where a link leads to a name of unfinished files, since the next run would take that away; nor is
    what is no regular file in another folder taken for a copy that an earlier run has made there."""
    store, text = lay_file(place, b"some text")
    outside = place / "outside"
    outside.mkdir()
    (store / "a.file").unlink()
    (store / "a.file").symlink_to(outside / ".rebuild-store-0123456789abcdef")
    _, err = run("repair", "--follow-links", store, status=3)
    check(err.startswith("a.file: can't be put in its place: ") and not [*outside.iterdir()], f"{[*outside.iterdir()]}: {err}")
    (store / "a.file").unlink()
    (place / "right").write_bytes(text)
    for number, under in enumerate(("a link to nothing", "a folder", "a FIFO", "a link to a copy")):
        to = place / f"to-{number}"
        to.mkdir()
        (to / "a.file").symlink_to(place / "right") if under == "a link to a copy" else put_under(to / "a.file", under)
        out, err = run("repair", store, "--to", to, status=1)
        check(err.startswith("a.file: has come meanwhile, or one that was replaced is kept beside it"), f"{under}: {out}{err}")
        check(not (to / "a.file").is_file() or (to / "a.file").is_symlink(), f"{under} was replaced")


def test_plan_beside_a_digest_that_differs(place, choose):
    """That a fragment differs from its digest says nothing of another one, which no check covers: a dry run says that this is left, as the
    repair does."""
    store = lay(place / "store", choose, "s", 600, ("x0",))
    (store / "SHA256SUMS").write_text(sums_of(store, "s.y0", "s.y1"))
    change(store / "s.y0")
    (store / "s.x1").write_bytes(b"abc")
    words = ["repair", store, "--reads", "all", "--replace-damaged", "--json"]
    for more, rebuilt, left in ((["--dry-run"], "would be rebuilt", SHORT), ([], "rebuilt", NOT_REPLACED)):
        out, _ = run(*words, *more, status=1)
        rows = [row[1:] for row in objects_of(out)]
        compare(f"rows of x1 {more}", [row for row in rows if row[0] == "x1"], [("x1", "left", left)])
        check(("y0", rebuilt, "") in rows and ("x0", rebuilt, "unchecked") in rows, out)


LOOPS = "can't be looked at: Too many levels of symbolic links"


def test_plan_of_what_cannot_be_looked_at(place, choose):
    """What can't be looked at is rebuilt into another folder alone, as a dry run says."""
    for is_elsewhere in (False, True):
        store, to = lay(place / f"store-{is_elsewhere}", choose, "s", 600, ("x0",)), place / f"to-{is_elsewhere}"
        (store / "s.x0").symlink_to("s.x0")
        to.mkdir()
        words = ["repair", "--follow-links", "--json", "--reads", "all", store, *(["--to", to] if is_elsewhere else [])]
        for more, rebuilt in ((["--dry-run"], "would be rebuilt"), ([], "rebuilt")):
            done = subprocess.run([PROGRAM, *map(str, [*words, *more])], capture_output=True, timeout=SECONDS)
            rows = rows_of_x0(done.stdout.decode())
            check(is_elsewhere or done.returncode == 3, f"{more}: status {done.returncode}: {done.stderr}")
            check(rows[:1] == [(rebuilt, "") if is_elsewhere else ("left", LOOPS)], f"{more}, elsewhere: {is_elsewhere}: {rows}")
        check((to / "s.x0").is_file() == is_elsewhere, f"elsewhere: {is_elsewhere}: {[*to.iterdir()]}")


def test_store_that_fits_by_its_digests(place, choose):
    """A store of which no stripe fits the code is refused by its name, its code and the first such stripe; it isn't, if a stripe does
    without the fragments that differ from their digests."""
    store = lay(place / "store", choose, "s", 600)
    whole, sums = {path.name: path.read_bytes() for path in store.iterdir()}, sums_of(store)
    for name in ("s.x0", "s.y0"):
        change(store / name)
    said = f"rebuild-store: {store}: no stripe fits the code 6-2-2, as s: is this the store? With --code 6-2-2 each is named\n"
    compare("a repair without digests", run("repair", "--replace-damaged", store, status=1), ("", said))
    (store / "SHA256SUMS").write_text(sums)
    run("repair", "--replace-damaged", store, status=0)
    compare("a repair with digests", {name: (store / name).read_bytes() for name in whole}, whole)


def test_descriptions_without_memory(place, _choose):
    """A run that is refused memory while it makes copies of a description ends with that, or with all of them made, with their rights."""
    library = refusals.Library(place, forks=True)
    store, text = lay_file(place, b"some text")
    command = [str(it) for it in (PROGRAM, "repair", "--workers", 1, store)]
    before = library.run(command).allocations
    for gone in (COPIES[:1],):
        def refused(number):
            for name in gone:
                (store / name).unlink(missing_ok=True)
            return library.run(command, refusal=refusals.Refusal(allocation=number))

        ends, many = set(), refused(0).allocations
        # What is asked for before the copies is asked for where none is lost, too.
        for number in range(max(1, 2 * before - many - 60), many + 1):
            ran = refused(number)
            made = [(path.read_bytes(), path.stat().st_mode) for path in (store / name for name in COPIES) if path.exists()]
            is_made = made == [(text, (store / "a.x0").stat().st_mode)] * 2
            check(ran.status == 4 or ran.status == 0 and is_made, f"{gone}, allocation {number} of {many}: {made}: {ran.text()}")
            ends.add(ran.status)
            for path in store.glob(".rebuild-store-*"):
                path.unlink()
        check(4 in ends, f"runs ended with {ends}")


def main(program=None, only=""):
    global PROGRAM
    PROGRAM = pathlib.Path(program or PROGRAM).resolve()
    choose = random.Random(2026)
    tests = [value for name, value in globals().items() if name.startswith("test_") and only in name]
    tests = [globals()[only]] if only in globals() else tests
    with tempfile.TemporaryDirectory() as scratch:
        for test in tests:
            place = pathlib.Path(scratch) / test.__name__
            place.mkdir()
            test(place, choose)
    print(f"store-results: {passed} passed, 0 failed")


if __name__ == "__main__":
    main(*sys.argv[1:3])
