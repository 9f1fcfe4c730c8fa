#!/usr/bin/env python3
"""Tries rebuild-store's options on stores that an independent encoder makes: names by disks and shards, stripes that should be there,
parts, another folder, checksums, reports.

    store-options.py [PROGRAM]

Each expected line, status and file is worked out here; nothing is taken from the program's own output."""

import csv
import fcntl
import hashlib
import io
import json
import os
import pathlib
import random
import re
import shutil
import subprocess
import sys
import tempfile

# No compiled copy of the modules is left beside them.
sys.dont_write_bytecode = True
ROOT = pathlib.Path(__file__).resolve().parent.parent
sys.path.append(str(ROOT / "tools"))
from store import is_covered, stripe

PROGRAM = pathlib.Path(sys.argv[1] if sys.argv[1:] else ROOT / "crates/rebuild_store/out/rebuild_store").resolve()
# The places of each code in the order of their shards, in the two layouts.
DATA = {"6-2-2": 3, "12-2-2": 6}
PARITIES = ["px", "py", "p0", "p1"]
passed = 0


def check(holds, what):
    """Counts what holds, and ends with what doesn't."""
    global passed
    if not holds:
        sys.exit(f"store-options: {what}")
    passed += 1


def run(*arguments, status):
    """Runs the program, holds its status to this one, and gives what it says on standard output and on standard error."""
    done = subprocess.run([PROGRAM, *map(str, arguments)], capture_output=True, text=True, timeout=300)
    asked = " ".join(map(str, arguments))
    check(done.returncode == status, f"{asked}: status {done.returncode}, not {status}:\n{done.stdout}{done.stderr}")
    return done.stdout, done.stderr


def shards(code, layout):
    """The places in the order of the shards' numbers."""
    xs, ys = ([f"{group}{k}" for k in range(DATA[code])] for group in "xy")
    return xs + ys + PARITIES if layout == "plain" else [*xs, "px", *ys, "py", "p0", "p1"]


def stripes_of(code, choose, names, length=300):
    return {name: stripe(code, length, choose) for name in names}


def lay(folder, stripes, name_of):
    """Writes the fragments of stripes under these names."""
    for name, fragments in stripes.items():
        for place, data in fragments.items():
            path = folder / name_of(name, place)
            path.parent.mkdir(parents=True, exist_ok=True)
            path.write_bytes(data)


def plain(name, place):
    return f"{name}.{place}"


def disk(name, place):
    return f"{place}/{name}"


def hold_whole(folder, stripes, name_of):
    """Each fragment has its bytes, and nothing else is there."""
    wanted = {folder / name_of(name, place): data for name, fragments in stripes.items() for place, data in fragments.items()}
    for path, data in wanted.items():
        check(path.is_file() and path.read_bytes() == data, f"{path} isn't what it was")
    others = {path for path in folder.rglob("*") if path.is_file()} - set(wanted)
    check(not others, f"{sorted(others)} are left")


def test_disks(folder, code, choose):
    """A folder for each disk, of which two were emptied."""
    for layout in ("plain", "groups"):
        places = shards(code, layout)
        store = folder / layout
        stripes = stripes_of(code, choose, ["a", "b.x0", "c d"])

        def name_of(name, place):
            return f"disk{places.index(place)}/{name}"

        lay(store, stripes, name_of)
        options = [store, "--code", code, "--names", "disk{shard}/{stripe}", "--layout", layout]
        output, _ = run("scrub", *options, status=0)
        check(output == "scrubbed 3 stripes: 0 damaged, 0 lost or contradictory, 0 stripes without any check\n", output)
        lost = choose.sample(range(len(places)), 2)
        for number in lost:
            for path in (store / f"disk{number}").iterdir():
                path.unlink()
        output, errors = run("repair", *options, status=0)
        unchecked = 0 if is_covered(code, [places[number] for number in lost], places[lost[0]]) else 6
        check(output.startswith(f"repaired 6 fragments, 1.7 KiB ({unchecked} unchecked"), output + errors)
        check(output.endswith("); damaged: 0; not possible: 0\n"), output + errors)
        hold_whole(store, stripes, name_of)
        (store / "disk0/a").unlink()
        (store / "disk0").rename(store / "gone")
        _, errors = run("repair", *options, status=3)
        check("disk0/a: can't be put in its place: No such file or directory" in errors, errors)
    _, errors = run("repair", store, "--names", "disk{shard}/{stripe}", status=2)
    check(errors == "error: names with {shard} need --code\n", errors)
    for wrong in ("{stripe}", "{place}", "{stripe}.{place}.{place}", "/{stripe}.{place}", "../{stripe}.{place}"):
        run("repair", store, "--names", wrong, status=2)


def test_place_first(folder, code, choose):
    """A pattern with the place first, a folder for each stripe, and an ending."""
    for pattern in ("{place}-{stripe}.bin", "{stripe}/{place}", "in/{place}/{stripe}"):
        store = folder / hashlib.sha256(pattern.encode()).hexdigest()[:8]
        stripes = stripes_of(code, choose, ["a", "x0-b"])

        def name_of(name, place):
            return pattern.replace("{stripe}", name).replace("{place}", place)

        lay(store, stripes, name_of)
        (store / name_of("a", "y1")).unlink()
        run("repair", store, "--code", code, "--names", pattern, status=0)
        hold_whole(store, stripes, name_of)


def test_stripes(folder, code, choose):
    """A stripe without any file is named where it is expected."""
    stripes = stripes_of(code, choose, ["a", "b"])
    lay(folder, stripes, plain)
    names = folder.parent / "names"
    names.write_text("a\nb\nnone at all\r\n\n")
    _, errors = run("repair", folder, "--code", code, "--stripes", names, status=1)
    check(errors == "none at all: no fragment can be read\n", errors)
    output, errors = run("lost", folder, "--code", code, "--stripes", names, status=1)
    count = len(shards(code, "plain"))
    said = f"3 stripes; {count} fragments lost, {count} of them not in the list\n"
    check(errors == f"rebuild-store: none at all: no fragment can be read\n{said}", errors)
    check(len(output.splitlines()) == 1, output)
    _, errors = run("repair", folder, "--code", code, "--stripes", names.with_name("absent"), status=3)
    check("absent: No such file or directory" in errors, errors)
    # Spaces round a name are of the name.
    spaces = folder.with_name("spaces")
    lay(spaces, stripes_of(code, choose, [" a ", "b\t"]), plain)
    names.with_name("spaced").write_text(" a \nb\t\r\n")
    run("scrub", spaces, "--code", code, "--stripes", names.with_name("spaced"), status=0)
    # The store's own digests are looked at beside such a list too.
    (folder / "SHA256SUMS").write_text(sums_of(folder))
    (folder / "a.y1").write_bytes(bytes(300))
    output, _ = run("scrub", folder, "--code", code, "--stripes", names, status=1)
    check("a.y1: differs from the checksums\n" in output and "none at all: no fragment can be read\n" in output, output)
    # Each fragment that no list can ask for is named, however few survive.
    odd = stripes_of(code, choose, ["odd name"])
    lay(folder, odd, plain)
    gone = [place for place in odd["odd name"] if place not in ("x0", "y1", "p0")]
    for place in gone:
        (folder / f"odd name.{place}").unlink()
    _, errors = run("lost", folder, "--code", code, status=1)
    check(all(f"odd name.{place}: a list can't ask for it" in errors for place in gone), errors)


def part_of(name, parts):
    """Which part a stripe is of."""
    return int.from_bytes(hashlib.sha256(name.encode()).digest()[:8], "big") % parts + 1


def test_parts(folder, code, choose):
    """Each part is repaired by a run of its own, which leaves the others alone; two runs of one part aren't at work at once."""
    stripes = stripes_of(code, choose, [f"s{k}" for k in range(40)])
    lay(folder, stripes, plain)
    for name in stripes:
        (folder / f"{name}.x1").unlink()
    own, another = (folder / f".rebuild-store-{part}-0123456789abcdef" for part in ("2-3", "12-3"))
    own.write_bytes(b"half")
    another.write_bytes(b"half")
    left = dict.fromkeys(stripes)
    for part in (3, 1, 2):
        mine = [name for name in stripes if part_of(name, 3) == part]
        output, errors = run("repair", folder, "--code", code, "--part", f"{part}/3", status=0)
        check(re.match(rf"repaired {len(mine)} fragments?, ", output), output + errors)
        for name in mine:
            del left[name]
        for name in stripes:
            check((folder / f"{name}.x1").exists() == (name not in left), f"part {part}: {name}")
        check(own.exists() == (part != 2), "a leftover of another part was removed, or the own one wasn't")
    check(another.exists(), "a leftover of another part was removed")
    another.unlink()
    hold_whole(folder, stripes, plain)
    held = os.open(folder, os.O_RDONLY)
    fcntl.flock(held, fcntl.LOCK_EX)
    _, errors = run("repair", folder, "--code", code, "--part", "1/3", status=1)
    check("another run works in this store" in errors, errors)
    fcntl.flock(held, fcntl.LOCK_SH)
    run("repair", folder, "--code", code, "--part", "1/3", status=0)
    _, errors = run("repair", folder, "--code", code, status=1)
    check("another run works in this store" in errors, errors)
    os.close(held)
    # A run divides the store into another number of parts, with its files in one folder or in one for each place.
    for number, (name_of, names) in enumerate(((plain, []), (disk, ["--names", "{place}/{stripe}"]))):
        store = folder.with_name(f"divided-of-{number}")
        lay(store, stripes, name_of)
        lock = store / ".rebuild-store-part-1-of-3"
        lock.write_text("1@here\n")
        held = os.open(lock, os.O_RDWR)
        fcntl.flock(held, fcntl.LOCK_EX)
        for part in ("1/2", "2/2", "1/3"):
            for trust in ([], ["--trust-writers"]):
                _, errors = run("repair", store, "--code", code, *names, "--part", part, *trust, status=1)
                check("another run works in this store" in errors, f"{part}: {errors}")
        run("repair", store, "--code", code, *names, "--part", "2/3", status=0)
        os.close(held)
    for wrong in ("0/3", "4/3", "1", "a/b", "1/0"):
        _, errors = run("repair", folder, "--part", wrong, status=2)
        check(errors == "error: --part takes I/N, with I from 1 to N\n", errors)


def test_another_folder(folder, code, choose):
    """Rebuilt fragments go to another folder, and the store stays as it is."""
    stripes = stripes_of(code, choose, ["a", "b"])
    store, other = folder / "store", folder / "other"
    lay(store, stripes, plain)
    other.mkdir(mode=0o755)
    (store / "a.x0").unlink()
    wrong = bytes(300)
    (store / "b.p1").write_bytes(wrong)
    before = {path.name: path.read_bytes() for path in store.iterdir()}
    for path in store.iterdir():
        path.chmod(0o640)
        if os.geteuid() == 0:
            os.chown(path, 1234, 1235)
    output, errors = run("repair", store, "--code", code, "--reads", "all", "--to", other, status=0)
    for path in other.iterdir():
        made, like = path.stat(), (store / "a.x1").stat()
        check((made.st_mode, made.st_uid, made.st_gid) == (like.st_mode, like.st_uid, like.st_gid), f"{path.name}: {made}")
    check({path.name: path.read_bytes() for path in store.iterdir()} == before, "the store was changed")
    check({path.name: path.read_bytes() for path in other.iterdir()} == {"a.x0": stripes["a"]["x0"], "b.p1": stripes["b"]["p1"]}, errors)
    # With --replace-damaged too: what is damaged is rebuilt there, and nothing is kept.
    (store / "a.y1").write_bytes(wrong)
    before = {path.name: path.read_bytes() for path in store.iterdir()}
    for path in other.iterdir():
        path.unlink()
    output, errors = run("repair", store, "--code", code, "--reads", "all", "--to", other, "--replace-damaged", status=0)
    check({path.name: path.read_bytes() for path in store.iterdir()} == before, "the store was changed")
    wanted = {"a.x0": stripes["a"]["x0"], "a.y1": stripes["a"]["y1"], "b.p1": stripes["b"]["p1"]}
    check({path.name: path.read_bytes() for path in other.iterdir()} == wanted, f"{output}{errors}")
    # What is locked is the folder that is written into.
    for locked, status in ((store, 0), (other, 1)):
        held = os.open(locked, os.O_RDONLY)
        fcntl.flock(held, fcntl.LOCK_EX)
        for part in ([], ["--part", "1/1"]):
            _, errors = run("repair", store, "--code", code, *part, "--to", other, status=status)
            check((f"{other}: another run works in this store" in errors) == (status == 1), errors)
        os.close(held)


def test_another_folder_of_disks(folder, code, choose):
    """Folders of disks in another folder get the rebuilt fragments of theirs, and what a killed run left in them goes."""
    names = ["--code", code, "--names", "{place}/{stripe}"]
    stripes = stripes_of(code, choose, ["a", "b"])
    store, other = folder / "store", folder / "other"
    lay(store, stripes, disk)
    left = {other / place / f".rebuild-store-{number:016x}" for number, place in enumerate(stripes["a"])}
    for path in left:
        path.parent.mkdir(parents=True)
        path.write_bytes(b"half")
    (store / "x0/a").unlink()
    _, errors = run("repair", store, *names, "--to", other, status=0)
    check(all(f"{path}: was left by a run that was killed, and is removed" in errors for path in left), errors)
    there = {path for path in other.rglob("*") if path.is_file()}
    check(there == {other / "x0/a"} and (other / "x0/a").read_bytes() == stripes["a"]["x0"], f"{there}")
    (store / "y0/b").unlink()
    for option in ("--report", "--progress"):
        _, errors = run("repair", store, *names, "--to", other, option, other / "y0/b", status=2)
        check("is a file of the store, and no place for a report" in errors and not (other / "y0/b").exists(), errors)
    # A disk of the store may be gone. A link is none of the other folder's disks, and isn't written through.
    outside = folder / "outside"
    outside.mkdir()
    (other / "y0").rmdir()
    (other / "y0").symlink_to(outside)
    shutil.rmtree(store / "x1")
    _, errors = run("repair", store, *names, "--to", other, status=3)
    check("y0/b: can't be put in its place: its folder is a link, and links aren't followed" in errors, errors)
    check(not list(outside.iterdir()), "a fragment was written through a link")
    there = {path.name: path.read_bytes() for path in (other / "x1").iterdir()}
    check(there == {name: stripes[name]["x1"] for name in "ab"}, f"a disk that is gone wasn't rebuilt elsewhere: {errors}")


def sums_of(folder):
    return "".join(f"{hashlib.sha256(path.read_bytes()).hexdigest()}  {path.name}\n" for path in sorted(folder.iterdir()))


def test_sums(folder, code, choose):
    """Survivors and what is rebuilt are held to checksums: those in the store, or those that are named."""
    stripes = stripes_of(code, choose, ["a", "b"])
    lay(folder, stripes, plain)
    listed = folder.parent / "listed"
    listed.write_text(sums_of(folder))
    # With the bare minimum nothing but the checksums shows a damaged survivor.
    lost = ["x0", "x1", "y0"]
    for place in lost:
        (folder / f"a.{place}").unlink()
    wrong = bytearray(stripes["a"]["y1"])
    wrong[7] ^= 1
    (folder / "a.y1").write_bytes(wrong)
    output, errors = run("scrub", folder, "--code", code, "--sums", listed, status=1)
    check("a.y1: differs from the checksums" in output, output)
    output, errors = run("repair", folder, "--code", code, "--sums", listed, status=1)
    check("a.y1: differs from the checksums" in errors, errors)
    check((folder / "a.y1").read_bytes() == wrong, "a damaged fragment was replaced unasked")
    for place in lost:
        check((folder / f"a.{place}").read_bytes() == stripes["a"][place], f"{place} isn't what it was")
    (folder / "SHA256SUMS").write_text(listed.read_text())
    output, errors = run("repair", folder, "--code", code, "--replace-damaged", status=0)
    check((folder / "a.y1.damaged").read_bytes() == wrong, "the damaged fragment isn't kept")
    (folder / "a.y1.damaged").unlink()
    (folder / "SHA256SUMS").unlink()
    hold_whole(folder, stripes, plain)
    # What is rebuilt has to have its digest too.
    (folder / "b.x2").unlink()
    listed.write_text(f"{'0' * 64}  b.x2\n")
    _, errors = run("repair", folder, "--code", code, "--sums", listed, status=1)
    check("b.x2: was rebuilt, and what was rebuilt differs from the checksums" in errors, errors)
    check(not (folder / "b.x2").exists() and not list(folder.glob(".rebuild*")), "something is left of what was refused")
    listed.write_text("no digest\n")
    _, errors = run("repair", folder, "--code", code, "--sums", listed, status=1)
    check("line 1 isn't as sha256sum writes it" in errors, errors)


def test_requests(folder, code, choose):
    """The requests as JSON: one for each lost fragment, of any name and length, with the survivors."""
    stripes = stripes_of(code, choose, ["a", 'quoted "b", c'], 70_000)
    lay(folder, stripes, plain)
    places = shards(code, "plain")
    wanted = []
    for name, lost in zip(stripes, (["x0", "py"], ["y1"])):
        for place in lost:
            (folder / plain(name, place)).unlink()
            left = {other for other in places if other not in lost}
            wanted.append({"order": "rebuild", "stripe": name, "target": place, "length": 70_000, "survivors": left, "code": code})
    output, errors = run("lost", folder, "--code", code, "--json", status=1)
    said = [json.loads(line) for line in output.splitlines()]
    for row in said:
        check(len(row["survivors"]) == len(set(row["survivors"])), f"{row}")
        row["survivors"] = set(row["survivors"])
    check(len(said) == len(wanted) and all(row in said for row in wanted), f"{said}")
    check(errors == "2 stripes; 3 fragments lost, 0 of them not in the list\n", errors)


def test_reports(folder, code, choose):
    """The report and the JSON lines say what became of each fragment."""
    names = ["a", 'quoted "b", c', "line\nbreak"]
    stripes = stripes_of(code, choose, names)
    lay(folder, stripes, plain)
    for name in names:
        (folder / f"{name}.x0").unlink()
    (folder / "a.y0").write_bytes(b"short")
    output, _ = run("repair", folder, "--code", code, "--dry-run", "--json", status=1)
    planned = [tuple(json.loads(line)[key] for key in ("stripe", "place", "outcome", "detail")) for line in output.splitlines()]
    left = ("a", "y0", "left", "has another length than the other fragments of the stripe")
    check(sorted(planned) == sorted([*((name, "x0", "would be rebuilt", "") for name in names), left]), f"{planned}")
    rows = [(name, "x0", "rebuilt", "") for name in names]
    rows.append(("a", "y0", "left", "has another length than the other fragments of the stripe"))
    report = folder.parent / "report.csv"
    output, _ = run("repair", folder, "--code", code, "--report", report, "--json", status=1)
    said = [tuple(json.loads(line)[key] for key in ("stripe", "place", "outcome", "detail")) for line in output.splitlines()]
    check(sorted(said) == sorted(rows), f"{said}")
    with open(report, newline="") as file:
        written = list(csv.reader(io.StringIO(file.read())))
    check(written[0] == ["stripe", "place", "outcome", "detail"] and sorted(map(tuple, written[1:])) == sorted(rows), f"{written}")
    output, _ = run("repair", folder, "--code", code, "--replace-damaged", "--report", report, status=0)
    with open(report, newline="") as file:
        written = list(csv.reader(io.StringIO(file.read())))
    check(written[1:] == [["a", "y0", "rebuilt", ""]], f"{written}")
    check(not [path for path in report.parent.iterdir() if path.name.startswith(".rebuild")], "the report left something")


def test_rows_of_a_stripe(folder, code, choose):
    """What is said of a stripe as a whole has a row too, whose place is empty."""
    lay(folder, stripes_of(code, choose, ["a"]), plain)
    (folder / "a.x0").unlink()
    for place in ("x1", "y2"):
        data = bytearray((folder / f"a.{place}").read_bytes())
        data[0] ^= 1
        (folder / f"a.{place}").write_bytes(data)
    why, report = "contradiction, and which fragment is damaged can't be told", folder.parent / "report.csv"
    for command in ("repair", "scrub"):
        output, errors = run(command, folder, "--code", code, "--report", report, "--json", status=1)
        rows = [json.loads(line) for line in output.splitlines()]
        check(rows.count({"stripe": "a", "place": "", "outcome": "left", "detail": why}) == 1, output)
        check(f'\na,,left,"{why}"\n' in report.read_text(), report.read_text())


def test_leftovers_of_parts_behind_links(folder, code, choose):
    """A run of a part takes away what runs of that part have left in folders that links lead to, and nothing of others; a folder that isn't
    there has nothing, and isn't said."""
    stripes = stripes_of(code, choose, ["a"])
    store, outside = folder / "store", folder / "outside"
    lay(store, stripes, plain)
    outside.mkdir()
    (store / "a.x0").rename(outside / "x0")
    (store / "a.x0").symlink_to(outside / "x0")
    own = outside / ".rebuild-store-1-1-0123456789abcdef"
    names = (".rebuild-store-0123456789abcdef", ".rebuild-store-2-3-0123456789abcdef", ".rebuild-store-part-2-of-3")
    others = [outside / name for name in names]
    for path in (own, *others):
        path.write_bytes(b"" if "part" in path.name else b"half")
    words = ["repair", store, "--code", code, "--follow-links"]
    _, errors = run(*words, "--part", "1/1", status=0)
    check(errors == f"rebuild-store: {own}: was left by a run that was killed, and is removed\n", errors)
    check(sorted(outside.iterdir()) == sorted([outside / "x0", *others]), f"{sorted(outside.iterdir())}")
    _, errors = run(*words, status=0)
    check(errors.count("was left by a run that was killed, and is removed") == len(others), errors)
    check([*outside.iterdir()] == [outside / "x0"], f"{sorted(outside.iterdir())}")
    (folder / "file").write_bytes(b"")
    for name, said in (("gone", "put in its place: No such file or directory"), ("file", "looked at: Not a directory")):
        (store / "a.y0").unlink()
        (store / "a.y0").symlink_to(folder / name / "y0")
        _, errors = run(*words, status=3)
        check(f"a.y0: can't be {said}\n" in errors and str(folder / name) not in errors, errors)


def test_words_of_a_store_without_fragments(folder, code, choose):
    """A folder in which no file has the name of a fragment is refused with the pattern as it was given."""
    lay(folder, stripes_of(code, choose, ["a"]), plain)
    for names, pattern in (([], "{stripe}.{place}"), (["--names", "{place}-{stripe}"], "{place}-{stripe}")):
        if not names:
            for path in folder.iterdir():
                path.rename(path.with_name(f"b{path.name.replace('.', '-')}"))
        for command in ("repair", "scrub", "lost", "list"):
            _, errors = run(command, folder, "--code", code, *names, status=1)
            said = f"rebuild-store: {folder}: no file is named as a fragment, {pattern}: is this the store?\n"
            check(errors == said, f"{command}: {errors}")


def main():
    choose = random.Random(26)
    for code in DATA:
        for test in (test_disks, test_place_first, test_stripes, test_parts, test_another_folder,
                     test_another_folder_of_disks, test_sums, test_requests, test_reports,
                     test_rows_of_a_stripe, test_leftovers_of_parts_behind_links, test_words_of_a_store_without_fragments):
            with tempfile.TemporaryDirectory() as scratch:
                folder = pathlib.Path(scratch) / "store"
                folder.mkdir()
                test(folder, code, choose)
    print(f"store-options: {passed} passed, 0 failed")


main()
