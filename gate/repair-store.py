#!/usr/bin/env python3
"""Tries rebuild-store on stores that an independent encoder makes: fragments are lost, damaged, cut short or put out of reach, and what
the program leaves is compared byte by byte with what was there.

    repair-store.py [PROGRAM]

Each expected line, status and file is worked out here; nothing is taken from the program's own output."""

import errno
import fcntl
import hashlib
import itertools
import os
import pathlib
import random
import re
import shutil
import subprocess
import sys
import tempfile
import time

# No compiled copy of the modules is left beside them.
sys.dont_write_bytecode = True
ROOT = pathlib.Path(__file__).resolve().parent.parent
sys.path.append(str(ROOT / "tools"))
from faults import Calls
from reference import code_of, eliminated
from store import is_covered, stripe

PROGRAM = pathlib.Path(sys.argv[1] if sys.argv[1:] else ROOT / "crates/rebuild_store/out/rebuild_store").resolve()
CODES = ("6-2-2", "12-2-2")
# The windows in which the program reads fragments have so many bytes; lengths around them are tried.
WINDOW = 65_536
# What is said of a rebuilt fragment that hasn't its digest.
OTHER_DIGEST = "was rebuilt, and what was rebuilt differs from the checksums"
HAS_STRACE = subprocess.run(["sh", "-c", "strace -f -o /dev/null true"], capture_output=True).returncode == 0
# How often a run is killed in each code's store, and after how many seconds at most.
KILLS = 20
LONGEST_BEFORE_KILL = 0.06
passed = 0


def check(holds, what):
    """Counts what holds, and ends with what doesn't."""
    global passed
    if not holds:
        sys.exit(f"repair-store: {what}")
    passed += 1


def run(*arguments, status):
    """Runs the program, holds its status to this one, and gives what it says on standard output and on standard error."""
    done = subprocess.run([PROGRAM, *map(str, arguments)], capture_output=True, text=True, timeout=300)
    asked = " ".join(map(str, arguments))
    check(done.returncode == status, f"{asked}: status {done.returncode}, not {status}:\n{done.stdout}{done.stderr}")
    return done.stdout, done.stderr


def make(folder, code, lengths, choose):
    """Makes a store of stripes with these lengths, and gives each one's fragments by their places."""
    folder.mkdir()
    stripes = {f"s{k:03}": stripe(code, length, choose) for k, length in enumerate(lengths)}
    for name, fragments in stripes.items():
        for place, data in fragments.items():
            (folder / f"{name}.{place}").write_bytes(data)
    return stripes


def is_whole(folder, stripes):
    """Whether the folder holds each fragment with its bytes, and nothing else."""
    there = {path.name: path.read_bytes() for path in folder.iterdir()}
    return there == {f"{name}.{place}": data for name, fragments in stripes.items() for place, data in fragments.items()}


def test_losses(folder, code, choose):
    """Up to three fragments of each stripe are lost, of lengths around a window's; all come back."""
    lengths = [1, 2, 1000, WINDOW - 1, WINDOW, WINDOW + 1, 3 * WINDOW + 7, *(choose.randrange(1, 5000) for _ in range(20))]
    stripes = make(folder, code, lengths, choose)
    lost = open_to_two = 0
    for name, fragments in stripes.items():
        places = choose.sample(list(fragments), choose.randrange(4))
        for place in places:
            (folder / f"{name}.{place}").unlink()
        lost += len(places)
        open_to_two += sum(not is_covered(code, places, place) for place in places)
    before = sorted(path.name for path in folder.iterdir())
    output, _ = run("repair", folder, "--dry-run", "--code", code, status=1)
    held = re.fullmatch(rf"27 stripes of {code}, 1 byte to 192 KiB; {lost} lost in \d+; {lost} can be rebuilt \({open_to_two} unchecked\), "
                        r"0 can't; reads [\d.]+ MiB, writes [\d.]+ [MK]iB\n", output)
    check(held, output)
    check(sorted(path.name for path in folder.iterdir()) == before, "a dry run changed the store")
    output, errors = run("repair", folder, "--code", code, "--workers", choose.choice([1, 4, 16]), status=0)
    check(output.startswith(f"repaired {lost} fragments, ") and f" ({open_to_two} unchecked" in output
          and output.endswith("); damaged: 0; not possible: 0\n"), output + errors)
    check(errors.count(": rebuilt unchecked: so many are lost that") == open_to_two, errors)
    check(is_whole(folder, stripes), "the store isn't what it was")
    run("scrub", folder, "--code", code, status=0)
    output, _ = run("repair", folder, "--code", code, status=0)
    check(output == "repaired 0 fragments, 0 bytes (0 unchecked); damaged: 0; not possible: 0\n", output)


def fewest(code, lost):
    """How many survivors at least determine what is lost: found by trying all sets of them, the smallest first."""
    places, equations = code_of(code)
    wanted = [places.index(place) for place in lost]
    others = [k for k in range(len(places)) if k not in wanted]
    for size in range(len(others) + 1):
        for read in itertools.combinations(others, size):
            unread = [k for k in range(len(places)) if k not in read]
            rows, pivots = eliminated(equations, unread)
            known = {pivot for row, pivot in zip(rows, pivots) if pivot is not None and not any(row[k] for k in unread if k != pivot)}
            if known.issuperset(wanted):
                return size
    return None


def test_fewest(folder, code, choose):
    """With --reads few as few survivors are read as determine what is lost, damage elsewhere isn't looked for, and what can't be read is
    made up for by all the others."""
    places, _ = code_of(code)
    if code == "6-2-2":
        losses = [choose.sample(places, k) for k in (1, 1, 2, 2, 2, 3, 3, 3, 3)] + [["x0", "x1", "y0", "y1"], ["x0", "px", "y0", "y1"]]
        least = [fewest(code, lost) for lost in losses]
    else:
        # A group's fragment takes six others (Huang et al., section 2), and two of two groups twelve.
        losses = [[place] for place in places if place[0] in "xy"] + [["x0", "y3"], ["px", "py"]]
        least = [6] * 12 + [12, 12]
        losses += [["px"], ["py"]]
        least += [6, 6]
    stripes = make(folder, code, [1024] * len(losses), choose)
    for name, lost in zip(stripes, losses):
        for place in lost:
            (folder / f"{name}.{place}").unlink()
    (folder / "whole.x0").write_bytes(b"")
    for place in places:
        (folder / f"whole.{place}").write_bytes(bytes(1024))
    stripes["whole"] = dict.fromkeys(places, bytes(1024))
    many = sum(map(len, losses))
    output, _ = run("repair", folder, "--code", code, "--reads", "few", "--dry-run", status=1)
    check(f"; {many} lost in {len(losses)}; {many} can be rebuilt ({many} unchecked), 0 can't; reads {sum(least)} KiB, "
          f"writes {many} KiB\n" in output, f"{output}, and {sum(least)} KiB are the least")
    wrong = folder / "whole.y1"
    wrong.write_bytes(b"damaged!" * 128)
    output, errors = run("repair", folder, "--code", code, "--reads", "few", status=0)
    check(output.startswith(f"repaired {many} fragments, {many} KiB ({many} unchecked: ") and output.count(" ..") == 1, output)
    check(errors == "", errors)
    _, errors = run("scrub", folder, "--code", code, status=1)
    wrong.write_bytes(bytes(1024))
    check(is_whole(folder, stripes), "the store isn't what it was")
    # Of few, one differs from the digests: all others are read, and the one that differs is named.
    (folder / "s000.x0").unlink()
    (folder / "s000.x1").write_bytes(bytes(1024))
    sums = folder.with_name(folder.name + "-sums")
    sums.write_text(f"{hashlib.sha256(stripes['s000']['x1']).hexdigest()}  s000.x1\n")
    output, errors = run("repair", folder, "--code", code, "--reads", "few", "--sums", sums, status=1)
    check("s000.x1: differs from the checksums\n" in errors, errors)
    # Two of a group are left out, so damage of two others may not show.
    check(output.startswith("repaired 1 fragment, 1 KiB (1 unchecked: s000.x0); damaged: 1: s000.x1;"), output)
    (folder / "s000.x1").write_bytes(stripes["s000"]["x1"])
    check(is_whole(folder, stripes), "the store isn't what it was")


def fewest_covering(code, place):
    """How many survivors at least determine a lost fragment without any two of them: a set that has one that does does too, so that sets
    with one place fewer are tried until none does."""
    places, _ = code_of(code)
    unread = [()]
    while True:
        fewer = [(*some, k) for some in unread for k in places if k != place and (not some or places.index(k) > places.index(some[-1]))]
        left = [some for some in fewer if is_covered(code, [*some, place], place)]
        if not left:
            return len(places) - 1 - len(unread[0])
        unread = left


def traced(folder, *arguments, status):
    """Runs the program, and gives what it says, how many bytes it was to read by its counters, and, if strace is there, how many it reads
    of each fragment and which it opens."""
    trace, counters = folder.with_name(folder.name + "-trace"), folder.with_name(folder.name + "-counters")
    command = [PROGRAM, *map(str, arguments), "--progress", counters]
    if HAS_STRACE:
        # Each thread has a file of its own, so that no line is cut in two.
        command = ["strace", "-ff", "-y", "-qq", "-e", "trace=pread64,openat", "-o", trace, *command]
    done = subprocess.run(command, capture_output=True, text=True, timeout=300)
    check(done.returncode == status, f"{arguments}: status {done.returncode}, not {status}:\n{done.stdout}{done.stderr}")
    meant = int(re.search(r"^rebuild_store_bytes\{.*\} (\d+)$", counters.read_text(), re.M)[1])
    if not HAS_STRACE:
        return done.stdout, done.stderr, meant, None, None
    text = ""
    for path in folder.parent.glob(trace.name + ".*"):
        text += path.read_text()
        path.unlink()
    read = {}
    for name, many in re.findall(rf"pread64\(\d+<{re.escape(str(folder))}/([^>]*)>.* = (\d+)$", text, re.M):
        read[name] = read.get(name, 0) + int(many)
    opened = set(re.findall(rf"openat\(.*\) = \d+<{re.escape(str(folder))}/([^>]*)>$", text, re.M))
    return done.stdout, done.stderr, meant, read, opened


def sums_of(stripes, left_out=()):
    """The checksums of the fragments of stripes, as `sha256sum` writes them."""
    return "".join(f"{hashlib.sha256(data).hexdigest()}  {name}.{place}\n" for name, fragments in stripes.items()
                   for place, data in fragments.items() if f"{name}.{place}" not in left_out)


def test_what_is_read(folder, code, choose):
    """By itself a repair reads as few as determine what is lost, each once, if the store has digests of that; else as few as cover it. A
    stripe that lost nothing isn't opened. The bytes are those that strace counts, and that the counters say before."""
    places, _ = code_of(code)
    length = WINDOW + 100
    group, parity = (3, 6) if code == "6-2-2" else (6, 12)
    # Huang et al., section 2: one of a group takes the others of its group, and a global parity as many as there are data fragments.
    digested = {place: parity if place in ("p0", "p1") else group for place in places}
    covered = {place: len(places) - (1 if place in ("p0", "p1") else 2) for place in places}
    for place in ("x0", "p1"):
        check(fewest(code, [place]) == digested[place], f"the fewest for {place} are others")
    for place in ("x0", "py", "p1"):
        check(fewest_covering(code, place) == covered[place], f"the fewest that cover {place} are others")
    stripes = make(folder, code, [length] * (len(places) + 1), choose)
    whole = f"s{len(places):03}"
    sums = sums_of(stripes)
    for wanted, text in ((digested, sums), (covered, "")):
        if text:
            (folder / "SHA256SUMS").write_text(text)
        for name, place in zip(stripes, places):
            (folder / f"{name}.{place}").unlink()
        (folder / f"{whole}.x1").write_bytes(b"!" * length)
        output, errors, meant, read, opened = traced(folder, "repair", folder, "--code", code, status=0)
        check(output.startswith(f"repaired {len(places)} fragments, ") and "(0 unchecked); damaged: 0; " in output, output)
        check(errors == "", errors)
        check(meant == sum(wanted.values()) * length, f"{meant} bytes were to be read")
        if read is not None:
            of_stripes = {name: sum(many for file, many in read.items() if file.startswith(name)) for name in stripes}
            check(of_stripes == {**{name: wanted[place] * length for name, place in zip(stripes, places)}, whole: 0}, f"{of_stripes}")
            check(all(many == length for file, many in read.items() if file != "SHA256SUMS"), f"{read}")
            check(not any(file.startswith(whole) for file in opened), "a whole stripe was opened")
        (folder / f"{whole}.x1").write_bytes(stripes[whole]["x1"])
        (folder / "SHA256SUMS").unlink(missing_ok=True)
        check(is_whole(folder, stripes), "the store isn't what it was")
    # Two of a group take as many as there are data fragments, and nothing covers them: without digests all are read.
    for text, wanted in ((sums, parity), ("", len(places) - 2)):
        if text:
            (folder / "SHA256SUMS").write_text(text)
        (folder / "s000.x0").unlink()
        (folder / "s000.x1").unlink()
        output, errors, meant, read, _ = traced(folder, "repair", folder, "--code", code, status=0)
        check(meant == wanted * length, f"{meant} bytes were to be read for two")
        check(read is None or sum(many for file, many in read.items() if file[0] == "s") == meant, f"{read}")
        check(f"({0 if text else 2} unchecked" in output and errors.count("rebuilt unchecked") == (0 if text else 2), output + errors)
        (folder / "SHA256SUMS").unlink(missing_ok=True)
        check(is_whole(folder, stripes), "the store isn't what it was")


def test_what_is_read_to_know_the_code(folder, code, choose):
    """Without a code the beginnings of the first stripe's fragments are looked at, and no other stripe's if they fit the code."""
    stripes = make(folder, code, [3 * WINDOW] * 3, choose)
    (folder / "SHA256SUMS").write_text(sums_of(stripes))
    (folder / "s002.x0").unlink()
    _, _, _, read, opened = traced(folder, "repair", folder, status=0)
    if read is not None:
        first = {file: many for file, many in read.items() if file.startswith("s000.")}
        check(first and all(0 < many <= WINDOW for many in first.values()), f"{first}")
        check(not any(file.startswith("s001.") for file in opened), f"{sorted(opened)} are opened")
    (folder / "SHA256SUMS").unlink()
    check(is_whole(folder, stripes), "the store isn't what it was")


def test_damage_of_what_is_read(folder, code, choose):
    """If what is read is damaged, or what is rebuilt differs from its digest, all survivors are read, with all digests: what they say is
    what a repair of all says. Damage elsewhere isn't looked for, unless that is asked for."""
    length = 2_000
    stripes = make(folder, code, [length] * 3, choose)
    name, fragments = "s001", stripes["s001"]
    lost, near, far, whole = folder / f"{name}.x0", folder / f"{name}.x1", folder / f"{name}.y1", folder / "s002.y2"

    def damaged(path, place, stripe_name=name):
        path.write_bytes(bytes(255 - byte for byte in stripes[stripe_name][place]))

    def mended(*paths):
        for path in paths:
            stripe_name, place = path.name.split(".")
            path.write_bytes(stripes[stripe_name][place])

    digests = folder / "SHA256SUMS"
    digests.write_text(sums_of(stripes))
    # One that is read is damaged: its digest says so, and the lost one comes back from the others.
    lost.unlink()
    damaged(near, "x1")
    output, errors, _, read, _ = traced(folder, "repair", folder, "--code", code, status=1)
    check(errors == f"{name}.x1: differs from the checksums\n" and "damaged: 1: s001.x1; " in output, output + errors)
    check(lost.read_bytes() == fragments["x0"], "another fragment came back beside damage")
    check(read is None or set(fragments) == {"x0", *(file.split(".")[1] for file in read if file[0] == "s")}, f"{read}")
    mended(near)
    # Its digest isn't known: that of the lost one is all that shows the damage, and the equations don't say which it is.
    lost.unlink()
    damaged(near, "x1")
    digests.write_text(sums_of(stripes, [f"{name}.{place}" for place in fragments if place != "x0"]))
    _, errors = run("repair", folder, "--code", code, status=1)
    check(f"{name}: contradiction: one of these is damaged: " in errors and not lost.exists(), errors)
    mended(near)
    # One that isn't read is damaged: nothing is said, the lost one comes back; and with --reads all it is named.
    digests.write_text(sums_of(stripes))
    damaged(far, "y1")
    damaged(whole, "y2", "s002")
    output, errors = run("repair", folder, "--code", code, status=0)
    check(errors == "" and lost.read_bytes() == fragments["x0"], output + errors)
    _, errors = run("repair", folder, "--code", code, "--reads", "all", status=1)
    check(errors == f"{name}.y1: differs from the checksums\ns002.y2: differs from the checksums\n", errors)
    _, errors = run("repair", folder, "--code", code, "--reads", "checked", "--replace-damaged", status=0)
    check(errors == "" and not [*folder.glob("*.damaged")], errors)
    output, _, _, read, _ = traced(folder, "repair", folder, "--code", code, "--replace-damaged", status=0)
    check("repaired 2 fragments, " in output and far.read_bytes() == fragments["y1"], output)
    check(read is None or {file for file in read if file[0] == "s"} >= {f"{k}.{place}" for k in stripes for place in fragments}, f"{read}")
    for path in (far, whole):
        path.with_name(path.name + ".damaged").unlink()
    # One has another length: all are read, so that what replaces it is known to be checked.
    (folder / f"{name}.y0").write_bytes(b"short")
    output, errors = run("repair", folder, "--code", code, status=1)
    check("damaged: 0; left without --replace-damaged: 1; not possible: 0" in output and errors.count("\n") == 1, output + errors)
    run("repair", folder, "--code", code, "--reads", "checked", "--replace-damaged", status=0)
    check((folder / f"{name}.y0").read_bytes() == fragments["y0"], "a file of another length wasn't replaced")
    (folder / f"{name}.y0.damaged").unlink()
    # The digest is wrong: nothing gets the name, and no survivor is blamed.
    digests.write_text(sums_of(stripes).replace(hashlib.sha256(fragments["x0"]).hexdigest(), "0" * 64))
    lost.unlink()
    output, errors = run("repair", folder, "--code", code, status=1)
    check(errors == f"{name}.x0: {OTHER_DIGEST}\n" and "damaged: 0; not possible: 1" in output and not lost.exists(), output + errors)
    digests.unlink()
    # Without digests one of those that are read is damaged: the equations say which.
    damaged(far, "y1")
    output, errors = run("repair", folder, "--code", code, status=1)
    check(errors.startswith(f"{name}.y1: is damaged: ") and errors.count("\n") == 1 and "damaged: 1: s001.y1; " in output, output + errors)
    check(lost.read_bytes() == fragments["x0"], "another fragment came back beside damage")
    mended(far)
    check(is_whole(folder, stripes), "the store isn't what it was")


def test_survivors_that_cannot_be_read(folder, code, choose):
    """Each call that opens or reads a fragment fails in turn: all others are read, and the lost one comes back."""
    stripes = make(folder, code, [700], choose)
    calls = Calls(folder.parent)
    lost = folder / "s000.x0"
    for text in (sums_of(stripes), ""):
        if text:
            (folder / "SHA256SUMS").write_text(text)
        command = [PROGRAM, "repair", folder, "--code", code, "--workers", "1"]
        lost.unlink()
        kinds = calls.run(command).kinds
        many = 0
        for number, kind in enumerate(kinds, 1):
            if kind not in ("open", "read"):
                continue
            lost.unlink(missing_ok=True)
            ran = calls.run(command, number, errno.EIO)
            if not any(re.fullmatch(r"s000\.\w+", pathlib.Path(path).name) for path in ran.paths):
                continue
            many += 1
            failed = pathlib.Path(ran.paths[0]).name
            check(lost.read_bytes() == stripes["s000"]["x0"], f"{number}: {ran.text()}")
            check(ran.status in (0, 3) and (ran.status == 0 or f"{failed}: can't be read: " in ran.err), f"{number}: {ran.text()}")
        check(many >= 6, f"{many} calls of fragments fail")
        run("repair", folder, "--code", code, status=0)
        (folder / "SHA256SUMS").unlink(missing_ok=True)
        check(is_whole(folder, stripes), "the store isn't what it was")


def test_damage(folder, code, choose):
    """One survivor of a stripe is changed at one byte, and one of the other group is lost: it is named, stays, and the lost one comes back;
    with --replace-damaged it is replaced, and kept."""
    stripes = make(folder, code, [3 * WINDOW] * 3, choose)
    name, fragments = "s001", stripes["s001"]
    damaged, lost = (choose.choice([place for place in fragments if place[0] == group]) for group in choose.sample("xy", 2))
    path = folder / f"{name}.{damaged}"
    wrong = bytearray(fragments[damaged])
    wrong[choose.randrange(len(wrong))] ^= 1 << choose.randrange(8)
    path.write_bytes(wrong)
    output, _ = run("scrub", folder, "--code", code, status=1)
    check(f"{name}.{damaged}: is damaged" in output, output)
    (folder / f"{name}.{lost}").unlink()
    output, errors = run("repair", folder, "--code", code, status=1)
    check(f"{name}.{damaged}: is damaged" in errors and "damaged: 1" in output, output + errors)
    check(path.read_bytes() == wrong, "a damaged fragment was replaced unasked")
    check((folder / f"{name}.{lost}").read_bytes() == fragments[lost], "a lost fragment didn't come back beside a damaged one")
    output, errors = run("repair", folder, "--code", code, "--replace-damaged", status=0)
    is_said = f"{name}.{damaged}: is damaged" in errors and f"damaged: 1: {name}.{damaged}; " in output
    check(is_said, f"what was replaced isn't said: {output}{errors}")
    kept = folder / f"{name}.{damaged}.damaged"
    check(kept.read_bytes() == wrong, "the damaged fragment wasn't kept")
    kept.unlink()
    check(is_whole(folder, stripes), "the damaged fragment wasn't replaced")


def test_suspects(folder, code, choose):
    """One survivor is changed, and one of its group is lost, so that two others might be instead: those that may be are named, and nothing
    is rebuilt or replaced but by a guess that is asked for, which replaces nothing and is said to be unchecked."""
    stripes = make(folder, code, [WINDOW + 9] * 3, choose)
    name, fragments = "s001", stripes["s001"]
    group = choose.choice("xy")
    damaged, lost = choose.sample([place for place in fragments if place[0] == group], 2)
    path = folder / f"{name}.{damaged}"
    wrong = bytearray(fragments[damaged])
    wrong[choose.randrange(len(wrong))] ^= 1
    path.write_bytes(wrong)
    (folder / f"{name}.{lost}").unlink()
    for options in ((), ("--replace-damaged",)):
        _, errors = run("repair", folder, "--code", code, *options, status=1)
        named = re.search(rf"^{name}: contradiction: one of these is damaged: (.*)$", errors, re.M)
        check(named and damaged in named[1].split(), errors)
        check(path.read_bytes() == wrong and not (folder / f"{name}.{lost}").exists(), "something was made of a contradiction")
    output, errors = run("repair", folder, "--code", code, "--assume-one-damaged", "--replace-damaged", status=1)
    check(f"(1 unchecked: {name}.{lost}); damaged: 1: {name}.{damaged}; " in output, output)
    check(f"{name}.{damaged}: is taken for the damaged one" in errors and "was a guess" in errors, errors)
    check((folder / f"{name}.{lost}").read_bytes() == fragments[lost], "the guess was right, and the lost fragment isn't")
    check(path.read_bytes() == wrong, "a fragment was replaced by a guess")
    run("repair", folder, "--code", code, "--replace-damaged", status=0)
    (folder / f"{name}.{damaged}.damaged").unlink()
    check(is_whole(folder, stripes), "the damaged fragment wasn't replaced")


def test_too_many(folder, code, choose):
    """More is lost than can be rebuilt: what is determined comes back, the rest is named, and other stripes are repaired."""
    stripes = make(folder, code, [100, 200, 300], choose)
    for place in ("y0", "y1", "y2", "py", "x0"):
        (folder / f"s001.{place}").unlink()
    (folder / "s002.x1").unlink()
    _, errors = run("repair", folder, "--code", code, status=1)
    whole = ["x0"]
    for place in ("y0", "y1", "y2", "py"):
        check(f"s001.{place}: can't be rebuilt" in errors and not (folder / f"s001.{place}").exists(), errors)
    for place in whole:
        check((folder / f"s001.{place}").read_bytes() == stripes["s001"][place], f"{place} didn't come back")
    check((folder / "s002.x1").read_bytes() == stripes["s002"]["x1"], "another stripe wasn't repaired")


def test_odd_files(folder, code, choose):
    """Fragments of another length, folders and FIFOs are lost and named, and stay; a FIFO holds nothing up. A link to nothing is lost too:
    where links are followed the fragment is made where the link leads."""
    stripes = make(folder, code, [500] * 5, choose)
    (folder / "s000.x0").write_bytes(b"short")
    (folder / "s001.x1").unlink()
    (folder / "s001.x1").mkdir()
    (folder / "s002.px").unlink()
    os.mkfifo(folder / "s002.px")
    (folder / "s003.p0").unlink()
    (folder / "s003.p0").symlink_to("nowhere")
    (folder / "s004.y2").unlink()
    _, errors = run("repair", folder, "--code", code, status=1)
    for name in ("s000.x0", "s001.x1", "s002.px", "s003.p0"):
        check(f"{name}: " in errors, errors)
    check(not (folder / "nowhere").exists(), "a link was followed unasked")
    run("repair", folder, "--code", code, "--follow-links", status=1)
    check((folder / "s003.p0").is_symlink(), "a link to nothing didn't stay a link")
    check((folder / "nowhere").read_bytes() == stripes["s003"]["p0"], "a fragment wasn't made where its link leads")
    check((folder / "s004.y2").read_bytes() == stripes["s004"]["y2"], "a lost fragment didn't come back beside odd files")
    check((folder / "s000.x0").read_bytes() == b"short", "a file of another length was replaced unasked")
    _, errors = run("repair", folder, "--code", code, "--replace-damaged", status=1)
    check((folder / "s000.x0").read_bytes() == stripes["s000"]["x0"], "a file of another length wasn't replaced")
    check((folder / "s000.x0.damaged").read_bytes() == b"short", "a file of another length wasn't kept")


def test_owner_and_mode(folder, code, choose):
    """A rebuilt fragment has the mode of a neighbour, and no other run's leftovers stay."""
    stripes = make(folder, code, [64], choose)
    for path in folder.iterdir():
        path.chmod(0o640)
    (folder / "s000.x0").unlink()
    (folder / ".rebuild-store-0123456789abcdef").write_bytes(b"half")
    run("repair", folder, "--code", code, status=0)
    check((folder / "s000.x0").stat().st_mode & 0o777 == 0o640, "the mode isn't the neighbour's")
    check(is_whole(folder, stripes), "something is left")


def test_requests(folder, code, choose):
    """The list of what is lost asks for each lost fragment, with all that survive."""
    stripes = make(folder, code, [10, 20], choose)
    places = list(stripes["s000"])
    (folder / "s001.x2").unlink()
    output, _ = run("lost", folder, "--code", code, status=1)
    others = " ".join(place for place in places if place != "x2")
    wide = code == "12-2-2"
    header = "order,stripe,target,length,survivors" + ",code" * wide
    check(output == f"{header}\nrebuild,s001,x2,20,{others}{',12-2-2' * wide}\n", output)


def test_odd_names(folder, code, choose):
    """Stripes with names that files can have come back, and a name that is no UTF-8 is left alone."""
    folder.mkdir()
    names = ["with space", "with,comma", 'with"quote', "with\nline", "with.dots..", "\u00e9t\u00e9", "n" * 250, "-", "a.x0"]
    stripes = {name: stripe(code, 33, choose) for name in names}
    for name, fragments in stripes.items():
        for place, data in fragments.items():
            (folder / f"{name}.{place}").write_bytes(data)
        (folder / f"{name}.y0").unlink()
    odd = os.fsencode(folder) + b"/\xff.x0"
    with open(odd, "wb") as file:
        file.write(b"odd")
    output, errors = run("repair", folder, "--code", code, status=0)
    check(output.startswith(f"repaired {len(names)} fragments, "), output + errors)
    with open(odd, "rb") as file:
        check(file.read() == b"odd", "a name that is no UTF-8 was not left alone")
    os.unlink(odd)
    check(is_whole(folder, stripes), "a stripe with an odd name isn't what it was")


def test_two_at_once(folder, code, choose):
    """While one run works in a store another is refused, unless it writes nothing."""
    make(folder, code, [5], choose)
    held = os.open(folder, os.O_RDONLY)
    fcntl.flock(held, fcntl.LOCK_EX)
    _, errors = run("repair", folder, "--code", code, status=1)
    check("another run works in this store" in errors, errors)
    for words in (["repair", "--dry-run"], ["scrub"], ["lost"], ["list"]):
        run(*words, folder, "--code", code, status=0)
    os.close(held)
    run("repair", folder, "--code", code, status=0)


def test_kills(folder, code, choose):
    """A run that is killed leaves each name absent or whole, and the next one ends the work and removes what it left."""
    stripes = make(folder, code, [2 * WINDOW] * 12, choose)
    wanted = {f"{name}.{place}": data for name, fragments in stripes.items() for place, data in fragments.items()}
    for _turn in range(KILLS):
        for name, fragments in stripes.items():
            for place in choose.sample(list(fragments), 3):
                (folder / f"{name}.{place}").unlink()
        run_that_dies = subprocess.Popen([PROGRAM, "repair", folder, "--code", code], stdout=subprocess.DEVNULL, stderr=subprocess.DEVNULL)
        time.sleep(choose.random() * LONGEST_BEFORE_KILL)
        run_that_dies.kill()
        run_that_dies.wait()
        for path in folder.iterdir():
            if not path.name.startswith(".rebuild-store-"):
                check(path.read_bytes() == wanted.get(path.name), f"{path.name} isn't whole after a kill")
        run("repair", folder, "--code", code, status=0)
        check(is_whole(folder, stripes), "the run after a kill didn't end the work")


def test_other_stores(folder, code, choose):
    """A folder none of whose stripes fits the code is refused, or each is named if the code was given, and nothing in it changes."""
    stripes = make(folder, code, [50, 60], choose)
    for name, fragments in stripes.items():
        for place in fragments:
            (folder / f"{name}.{place}").write_bytes(choose.randbytes(50))
    (folder / "s000.x0").unlink()
    # The first stripe has too few fragments to say anything.
    for place in ("x0", "y1"):
        (folder / f"a.{place}").write_bytes(choose.randbytes(50))
    # The second one has no bytes, and so is of each code.
    for place in stripes["s000"]:
        (folder / f"b.{place}").write_bytes(b"")
    before = {path.name: path.read_bytes() for path in folder.iterdir()}
    _, errors = run("repair", folder, status=1)
    check("is this the store?" in errors and "s000" in errors, errors)
    elsewhere = folder.with_name(folder.name + "-elsewhere")
    elsewhere.mkdir()
    _, errors = run("repair", folder, "--to", elsewhere, status=1)
    check("is this the store?" in errors and not [*elsewhere.iterdir()], errors)
    # Nor does what a killed run left go from there.
    leftover = folder / ".rebuild-store-0123456789abcdef"
    leftover.write_bytes(b"half")
    _, errors = run("repair", folder, status=1)
    check("is this the store?" in errors and leftover.exists(), errors)
    leftover.unlink()
    _, errors = run("repair", folder, "--code", code, "--reads", "all", status=1)
    check(all(f"{name}: contradiction" in errors for name in stripes), errors)
    check({path.name: path.read_bytes() for path in folder.iterdir()} == before, "a folder that is no store was changed")


def test_refusals(folder):
    """Mistakes of arguments, a folder that is no store, and one that isn't there."""
    run(status=2)
    run("repair", status=2)
    run("repair", folder, "--workers", "0", status=2)
    for workers in ("17", "4x", "-2", "", "1.5", "18446744073709551617"):
        _, errors = run("repair", folder, f"--workers={workers}", status=2)
        check("--workers" in errors, errors)
    run("repair", folder, "--code", "8-2-2", status=2)
    run("mend", folder, status=2)
    run("repair", folder / "absent", status=3)
    folder.mkdir()
    (folder / "a.txt").write_text("no fragment")
    for words in ((), ("--part", "1/2"), ("--part", "2/2", "--dry-run")):
        _, errors = run("repair", folder, *words, status=1)
        check("is this the store?" in errors, errors)
    output, _ = run("--version", status=0)
    check(output == "rebuild-store 0.1.0\n", output)


def main():
    choose = random.Random(2026)
    tests = (test_losses, test_fewest, test_what_is_read, test_what_is_read_to_know_the_code, test_damage_of_what_is_read,
             test_survivors_that_cannot_be_read, test_damage, test_suspects, test_too_many, test_odd_files, test_owner_and_mode,
             test_requests, test_odd_names, test_two_at_once, test_kills, test_other_stores)
    with tempfile.TemporaryDirectory() as scratch:
        place = pathlib.Path(scratch)
        for code in CODES:
            for test in tests:
                folder = place / f"{test.__name__}-{code}"
                test(folder, code, choose)
                shutil.rmtree(folder)
        test_refusals(place / "refusals")
    print(f"repair-store: {passed} passed, 0 failed")


main()
