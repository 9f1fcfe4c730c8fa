#!/usr/bin/env python3
"""Tries what rebuild-store may never do to a store, or beside it, with what a stranger may have put there: links, FIFOs, devices, odd
rights, names like the program's own, other runs at the wrong moment.

    store-strangers.py [PROGRAM [TEST]]

Each expected byte, mode and name is worked out here. What root alone can try is said to be skipped where this isn't root."""

import contextlib
import errno
import fcntl
import functools
import hashlib
import json
import multiprocessing
import os
import pathlib
import pty
import random
import re
import resource
import shutil
import signal
import stat
import subprocess
import sys
import tempfile
import threading
import time

# No compiled copy of the modules is left beside them.
sys.dont_write_bytecode = True
import refusals  # noqa: E402

ROOT = pathlib.Path(__file__).resolve().parent.parent
sys.path.append(str(ROOT / "tools"))
from faults import RECORD_SIZE, Calls  # noqa: E402
from store import stripe  # noqa: E402

PROGRAM = ROOT / "crates/rebuild_store/out/rebuild_store"
# What a run names its unfinished files: the digits are at random.
LEFTOVER = ".rebuild-store-0123456789abcdef"
LEFTOVER_OF_PART = ".rebuild-store-2-3-0123456789abcdef"
LOCK_OF_PART = ".rebuild-store-part-1-of-2"
HEADER = "stripe,place,outcome,detail\n"
# F_SETPIPE_SZ, which fcntl of Python 3.9 has not.
SET_PIPE_SIZE = 1_031
USER, OTHER = 65_534, 1_234
SECONDS = 300
passed = 0


class Fault(Exception):
    """A run that did what none may do."""


class Skipped(Exception):
    """What can't be tried here."""


def hold(holds, what):
    global passed
    if not holds:
        raise Fault(what)
    passed += 1


def run(*words, status, **how):
    """Runs the program, holds its status to this one, and gives all that it says."""
    how.setdefault("program", PROGRAM)
    program = how.pop("program")
    try:
        ended = subprocess.run([program, *map(str, words)], stdin=subprocess.DEVNULL, capture_output=True, timeout=SECONDS, **how)
    except subprocess.TimeoutExpired:
        raise Fault(f"{' '.join(map(str, words))} had not ended after {SECONDS} seconds") from None
    said = (ended.stdout + ended.stderr).decode(errors="replace")
    hold(ended.returncode == status, f"{' '.join(map(str, words))}: status {ended.returncode}, not {status}: {said}")
    return said


def lay(folder, choose, names=("s",), length=600, mode=0o644):
    """Makes a store of stripes, and gives the bytes of its files by their names."""
    files = {}
    folder.mkdir()
    for name in names:
        for place, data in stripe("6-2-2", length, choose).items():
            files[f"{name}.{place}"] = data
            (folder / f"{name}.{place}").write_bytes(data)
            (folder / f"{name}.{place}").chmod(mode)
    return files


def there(folder):
    """The bytes of a folder's regular files, by their names."""
    return {path.name: path.read_bytes() for path in folder.iterdir() if path.is_file() and not path.is_symlink()}


def is_root():
    return os.geteuid() == 0


def needs_root():
    if not is_root():
        raise Skipped("only root can try it")


def as_user(place):
    """A copy of the program that each user can run, and how a process becomes such a user."""
    needs_root()
    program = place / PROGRAM.name
    if not program.exists():
        shutil.copy(PROGRAM, program)
        program.chmod(0o755)
    return {"program": program, "user": USER, "group": USER, "extra_groups": []}


def test_report_on_odd_files(place, choose):
    """A report is written into a device, a FIFO or what a link leads to, and these stay what they are."""
    store = place / "odd"
    lay(store, choose)
    for name, kind in (("x0", "fifo"), ("x1", "link"), ("x2", "loose link"), ("y0", "device")):
        report = place / f"report-{kind}"
        (store / f"s.{name}").unlink()
        row = f"s,{name},rebuilt,\n"
        got = []
        if kind == "device":
            if not is_root():
                continue
            try:
                os.mknod(report, stat.S_IFCHR | 0o600, os.makedev(1, 3))
                report.write_bytes(b"")
            except OSError:
                skipped.append("test_report_on_odd_files: no device can be made here")
                run("repair", store, status=0)
                continue
            run("repair", store, "--report", report, status=0)
            hold(stat.S_ISCHR(report.lstat().st_mode), "a device is one no longer")
            continue
        if kind == "fifo":
            os.mkfifo(report)
            reader = threading.Thread(target=lambda: got.append(report.read_text()), daemon=True)
            reader.start()
            run("repair", store, "--report", report, status=0)
            reader.join(SECONDS)
            hold(stat.S_ISFIFO(report.lstat().st_mode), "a FIFO is one no longer")
        else:
            behind = place / f"behind-{kind.replace(' ', '-')}"
            if kind == "link":
                behind.write_bytes(b"x" * 10_000)
            report.symlink_to(behind)
            run("repair", store, "--report", report, status=0)
            hold(report.is_symlink(), "a link is one no longer")
            got.append(behind.read_text())
        hold(got == [HEADER + row], f"the report on a {kind} is {got}")


def test_report_keeps_rights(place, choose):
    """A report that is there is replaced by one with its owner and its rights."""
    store = place / "rights"
    lay(store, choose)
    report = place / "kept.csv"
    report.write_text("old")
    report.chmod(0o600)
    if is_root():
        os.chown(report, OTHER, OTHER + 1)
    run("scrub", store, "--report", report, status=0, umask=0o022)
    about = report.stat()
    hold(about.st_mode & 0o7777 == 0o600, f"a report of mode 600 has now {about.st_mode & 0o7777:o}")
    hold(not is_root() or (about.st_uid, about.st_gid) == (OTHER, OTHER + 1), f"a report has another owner or group now: {about}")
    hold(report.read_text() == HEADER, report.read_text())
    # In a folder in which the user may make no file it is written as it is.
    if is_root():
        (place / "closed").mkdir()
        report = place / "closed/report.csv"
        report.write_text("old" * 100)
        report.chmod(0o666)
        run("scrub", store, "--report", report, status=0, **as_user(place))
        hold(report.read_text() == HEADER, report.read_text())
        # Where he may make one, and not give it to the report's owner, it is written as it is too.
        (place / "open").mkdir()
        (place / "open").chmod(0o777)
        report = place / "open/report.csv"
        report.write_text("old" * 100)
        report.chmod(0o666)
        os.chown(report, OTHER, OTHER)
        run("scrub", store, "--report", report, status=0, **as_user(place))
        about = report.stat()
        hold((about.st_uid, about.st_mode & 0o7777) == (OTHER, 0o666), f"a report has owner {about.st_uid}, mode {about.st_mode:o} now")
        hold(there(place / "open") == {report.name: HEADER.encode()}, f"{there(place / 'open')}")


def test_report_of_a_part_without_stripes(place, choose):
    """A part of a store that has none of its stripes is repaired, also if its report takes the place of what may be a fragment."""
    store = place / "without-stripes"
    lay(store, choose)
    for part in ("1/2", "2/2"):
        report = place / f"part-{part[0]}.csv"
        report.write_bytes(bytes(600))
        run("repair", store, "--part", part, "--report", report, status=0)
        hold(report.read_text() == HEADER, f"{part}: the report is {report.read_text()[:80]!r}")


def test_report_while_it_is_made(place, choose):
    """What is to take the place of a report that nobody else may read can't be read by others before, and what comes at a report's path
    meanwhile is written as it is."""
    store, reports = place / "making", place / "making-reports"
    lay(store, choose)
    reports.mkdir()
    report, calls = reports / "report.csv", Calls(place, forks=True)
    command = [PROGRAM, "scrub", store, "--report", report]
    link = calls.run(command).kinds.index("link") + 1
    report.unlink()
    ran = calls.run(command, link, "meanwhile")
    hold(ran.status == 0 and there(reports) == {report.name: HEADER.encode()}, f"{there(reports)}: {ran.text()}")
    report.chmod(0o600)
    kinds = calls.run(command).kinds
    ran = calls.run(command, len(kinds) - kinds[::-1].index("write"), "kill")
    left = [path.stat().st_mode & 0o7777 for path in reports.iterdir() if path != report]
    hold(ran.status == -signal.SIGKILL and left == [0o600], f"an unfinished report has the rights {[f'{mode:o}' for mode in left]}")


def test_report_in_the_store(place, choose):
    """A report is never written over a file of the store, or of the folder that fragments are written to, however that is named."""
    store, disks, to = place / "in-store", place / "in-disks", place / "in-to"
    files = lay(store, choose)
    (store / "s.x0").unlink()
    (store / "SHA256SUMS").write_bytes(b"")
    del files["s.x0"]
    files["SHA256SUMS"] = b""
    to.mkdir()
    behind = place / "in-link"
    behind.symlink_to(store)
    for report in ("s.x0", "s.x1", "t.p1", "SHA256SUMS", "s.file", "s.x1.damaged", LEFTOVER):
        for path in (store / report, behind / report, f"{store}/../{store.name}/{report}"):
            said = run("repair", store, "--report", path, status=2)
            hold(report in said, f"no line names {report}: {said}")
        run("scrub", store, "--report", store / report, status=2)
        hold(there(store) == files, f"--report {report} changed the store")
    # A link outside the store that leads to the name of a lost fragment, and one that leads to that.
    (place / "in-report").symlink_to(store / "s.x0")
    (place / "in-chain").symlink_to("in-report")
    for path in (place / "in-report", place / "in-chain"):
        run("repair", store, "--report", path, status=2)
        hold(there(store) == files, f"--report {path.name} changed the store")
    # The same by paths from the folder that is worked in.
    (place / "in-here").symlink_to(f"{store.name}/s.x0")
    for path, folder in (("in-here", place), ("../in-here", store), ("s.x0", store)):
        for option in ("--report", "--progress"):
            said = run("repair", store, option, path, status=2, cwd=folder)
            hold(there(store) == files, f"{option} {path} changed the store: {said}")
    run("repair", store, "--to", to, "--report", to / "s.x0", status=2)
    hold(not there(to), "a report was written in place of a fragment")
    run("repair", store, "--report", store / "report.csv", status=0)
    disks.mkdir()
    for number, data in enumerate(stripe("6-2-2", 50, choose).values()):
        (disks / f"disk{number}").mkdir()
        (disks / f"disk{number}/note").write_bytes(data)
    names = ["--code", "6-2-2", "--names", "disk{shard}/{stripe}"]
    kept = (disks / "disk3/note").read_bytes()
    run("repair", disks, *names, "--report", disks / "disk3/note", status=2)
    hold((disks / "disk3/note").read_bytes() == kept, "a fragment was replaced by a report")
    # Nor is it written under a name that the store gives to other files in a disk's folder.
    for name in ("note.file", "note.damaged", LEFTOVER, LEFTOVER_OF_PART):
        for option in ("--report", "--progress"):
            said = run("repair", disks, *names, option, disks / "disk3" / name, status=2)
            hold(sorted(path.name for path in (disks / "disk3").iterdir()) == ["note"], f"{option} {name}: {said}")
    run("repair", disks, *names, "--report", disks / "report.csv", status=0)


def test_reports_beside_each_other(place, choose):
    """Eight runs that write reports into one folder don't meet, and what others have there is in nobody's way."""
    reports = place / "reports"
    reports.mkdir()
    (reports / ".rebuild-store-0").mkdir()
    stores = []
    for number in range(8):
        stores.append(place / f"beside-{number}")
        lay(stores[-1], choose, length=10)
    for turn in range(6):
        runs = [subprocess.Popen([PROGRAM, "scrub", store, "--report", reports / f"{turn}-{store.name}"], stdout=subprocess.DEVNULL,
                                 stderr=subprocess.PIPE) for store in stores]
        for each in runs:
            _, said = each.communicate(timeout=SECONDS)
            hold(each.returncode == 0, f"a report beside others: status {each.returncode}: {said.decode()}")
    left = [path.name for path in reports.iterdir() if path.name.startswith(".rebuild-store-")]
    hold(left == [".rebuild-store-0"], f"left {left}")


def test_report_that_fails(place, choose):
    """Where a report can't be written, what it was stays, nothing is left beside it, and the repair is done and says so."""
    store, reports = place / "fails", place / "fails-reports"
    files = lay(store, choose)
    reports.mkdir()
    report = reports / "report.csv"
    report.write_text("old")
    calls = Calls(place, forks=True)
    command = [PROGRAM, "repair", store, "--report", report]
    ran = calls.run(command)
    hold(ran.status == 0, ran.text())
    last = max(number for number, kind in enumerate(ran.kinds, 1) if kind == "write")
    report.write_text("old")
    ran = calls.run(command, last, 28)
    hold(ran.status == 3 and "No space left on device" in ran.err and str(report) in ran.err, ran.text())
    hold("repaired 0 fragments" in ran.out, f"no summary: {ran.text()}")
    hold(there(reports) == {"report.csv": b"old"}, f"left {sorted(there(reports))}")
    run(*command[1:], status=0)
    hold(there(store) == files, "the store was changed")


def test_rights(place, choose):
    """A rebuilt fragment has no right to be run, and none of its owner's or group's identity, whatever the others have."""
    store = place / "set-id"
    files = lay(store, choose, mode=0o6755)
    (store / "s.px").unlink()
    run("repair", store, status=0)
    mode = (store / "s.px").stat().st_mode & 0o7777
    hold(mode == 0o644, f"a fragment beside others of mode 6755 has {mode:o}")
    hold((store / "s.px").read_bytes() == files["s.px"], "the fragment isn't what it was")


def test_owner_that_cannot_be_given(place, choose):
    """Who may not give a fragment away keeps it for himself alone."""
    how = as_user(place)
    for mode in (0o6755, 0o644):
        store = place / f"not-given-{mode:o}"
        files = lay(store, choose)
        store.chmod(0o777)
        for name in files:
            (store / name).chmod(mode)
        (store / "s.px").unlink()
        run("repair", store, status=0, umask=0, **how)
        about = (store / "s.px").stat()
        hold(about.st_uid == USER and about.st_mode & 0o7777 == 0o600, f"mode {about.st_mode & 0o7777:o} of user {about.st_uid}")
        hold((store / "s.px").read_bytes() == files["s.px"], "the fragment isn't what it was")


def test_links(place, choose):
    """A link in a store is neither read nor written through, unless that is asked for."""
    store, outside = place / "linked", place / "outside"
    outside.mkdir()
    secret = outside / "secret"
    secret.write_bytes(b"p" * 600)
    secret.chmod(0o4755)
    files = lay(store, choose, names=("a", "b"))
    for name, to in (("a.x0", secret), ("b.p0", outside / "made")):
        (store / name).unlink()
        (store / name).symlink_to(to)
    (store / "a.px").unlink()
    said = run("repair", store, "--replace-damaged", status=1)
    hold((store / "a.px").read_bytes() == files["a.px"], f"a fragment isn't what it was: {said}")
    hold((store / "a.px").stat().st_mode & 0o7777 == 0o644, "a fragment has the rights of what a link leads to")
    hold((store / "a.x0").is_symlink() and (store / "b.p0").is_symlink(), f"a link was replaced: {said}")
    hold(there(outside) == {"secret": b"p" * 600}, f"a file was made outside the store: {sorted(there(outside))}")
    hold("--follow-links" in said and "2 in all" in said and "a.x0: is no regular file" in said, said)
    run("scrub", store, status=1)
    run("lost", store, status=1)
    secret.write_bytes(files["a.x0"])
    # What a killed run left where links lead is removed, also beside a name that is no UTF-8.
    (outside / LEFTOVER).write_bytes(b"half")
    with open(os.fsencode(outside) + b"/\xff", "wb"):
        pass
    run("repair", store, "--follow-links", status=0)
    hold(not (outside / LEFTOVER).exists(), "what a killed run left where a link leads stays")
    hold((store / "b.p0").is_symlink() and (outside / "made").read_bytes() == files["b.p0"], "a link wasn't followed")
    hold((outside / "made").stat().st_mode & 0o7000 == 0, "a fragment has the identity of its owner")
    # A link that leads to another one, whose text is meant from where that lies.
    (store / "b.p1").unlink()
    (store / "b.p1").symlink_to(outside / "next")
    (outside / "next").symlink_to("deep down/the end")
    (outside / "deep down").mkdir()
    run("repair", store, "--follow-links", status=0)
    hold((outside / "deep down/the end").read_bytes() == files["b.p1"], "links weren't followed to their end")
    hold((outside / "next").is_symlink(), "a link was replaced")
    hold((store / "b.p1").read_bytes() == files["b.p1"] and not (store / "deep down").exists(), "it lies elsewhere")
    # An encoding says it too.
    source = place / "beside-links"
    source.write_bytes(b"source")
    said = run("encode", store, source, status=0)
    hold("and others are links, 3 in all, and aren't followed without --follow-links\n" in said, said)
    # Of ten links, one after the other, each is followed.
    for number in range(10):
        (outside / f"link{number}").symlink_to(f"link{number + 1}")
    (store / "b.p1").unlink()
    (store / "b.p1").symlink_to(outside / "link0")
    run("repair", store, "--follow-links", status=0)
    hold((outside / "link9").is_symlink() and (outside / "link10").read_bytes() == files["b.p1"], "ten links weren't followed")
    # The folder that the last one leads to is one of those that are written into.
    (outside / "link10").unlink()
    if is_root():
        outside.chmod(0o777)
        said = run("repair", store, "--follow-links", status=2)
        hold(f"{outside}: user 0 or others may write there" in said and not (outside / "link10").exists(), said)
        outside.chmod(0o755)
    run("repair", store, "--follow-links", status=0)
    hold((outside / "link10").read_bytes() == files["b.p1"], "a link wasn't followed where others may not write")


def test_rights_of_linked_fragments(place, choose):
    """Where each fragment of a stripe is a link that is followed, one that is made has the rights of what another leads to."""
    store, behind = place / "all-linked", place / "all-behind"
    files = lay(behind, choose, mode=0o640)
    store.mkdir()
    for name in files:
        (store / name).symlink_to(behind / name)
    (behind / "s.x1").unlink()
    run("repair", "--follow-links", store, status=0)
    mode = (behind / "s.x1").stat().st_mode & 0o7777
    hold(there(behind) == files and mode == 0o640, f"a fragment beside others of mode 640 has {mode:o}")


def test_survivors_that_give_too_little(place, choose):
    """Four survivors that can't be read to their end are left out one after the other, and come back elsewhere from the six others."""
    pages, page = pathlib.Path("/sys/kernel").glob("*"), None
    # Some files of the kernel say that they have 4,096 bytes, and give fewer.
    for path in pages:
        with contextlib.suppress(OSError):
            if path.is_file() and path.stat().st_size == 4_096 and 0 < len(path.read_bytes()) < 4_096:
                page = path
    if page is None:
        raise Skipped("no file gives fewer bytes than it says")
    store, to = place / "too-little", place / "too-little-to"
    files = lay(store, choose, length=4_096)
    to.mkdir()
    left_out = ("s.x0", "s.y0", "s.p0", "s.p1")
    for name in left_out:
        (store / name).unlink()
        (store / name).symlink_to(page)
    said = run("repair", store, "--follow-links", "--reads", "all", "--to", to, status=3)
    hold(all(said.count(f"{name}: can't be read: ") == 1 for name in left_out), said)
    hold(there(to) == {name: files[name] for name in left_out}, f"{sorted(there(to))}: {said}")


def test_linked_fragments_of_a_file(place, choose):
    """A fragment or a description that is a link is left out when a file is read or verified, unless links are followed."""
    store, outside, file = place / "linked-file", place / "outside-file", place / "linked"
    outside.mkdir()
    file.write_bytes(choose.randbytes(3_000))
    run("encode", store, file, status=0)
    (outside / "x0").write_bytes((store / "linked.x0").read_bytes())
    (store / "linked.x0").unlink()
    (store / "linked.x0").symlink_to(outside / "x0")
    for command, words in (("read", ["linked", "-o", place / "linked-read"]), ("verify", ["linked"])):
        said = run(command, store, *words, status=0)
        hold("linked.x0: left out" in said, f"{command} has read a link: {said}")
        said = run(command, "--follow-links", store, *words, status=0)
        hold("left out" not in said, f"{command} has left a link out: {said}")
    hold((place / "linked-read").read_bytes() == file.read_bytes(), "another file was read")


def test_linked_folders(place, choose):
    """A disk's folder that is a link leads nowhere, unless links are followed."""
    store, outside = place / "linked-disks", place / "outside-disk"
    names = ["--code", "6-2-2", "--names", "disk{shard}/{stripe}"]
    store.mkdir()
    outside.mkdir()
    data = stripe("6-2-2", 80, choose)
    for number, fragment in enumerate(data.values()):
        if number == 3:
            (store / "disk3").symlink_to(outside)
        else:
            (store / f"disk{number}").mkdir()
            (store / f"disk{number}/note").write_bytes(fragment)
    said = run("repair", store, *names, status=3)
    hold(not there(outside), "a file was made outside the store")
    hold(str(store / "disk3") in said and "--follow-links" in said, said)
    source = place / "source"
    source.write_bytes(b"source")
    said = run("encode", store, source, *names, status=3)
    hold(not there(outside) and "link" in said, f"a file was encoded outside the store: {said}")
    run("repair", store, *names, "--follow-links", status=0)
    hold(there(outside) == {"note": list(data.values())[3]}, "a link wasn't followed")
    run("scrub", store, *names, status=1)
    run("scrub", store, *names, "--follow-links", status=0)
    # Where links are followed the folder is one of those that are written into.
    if is_root():
        outside.chmod(0o777)
        for command in (["encode", store, source], ["repair", store]):
            hold("--trust-writers" in run(*command, *names, "--follow-links", status=2), f"root ran {command[0]} where others may write")
        outside.chmod(0o755)
    run("encode", store, source, *names, "--follow-links", status=0)
    line = f"6 {hashlib.sha256(b'source').hexdigest()} 6-2-2\n".encode()
    hold(there(outside) == {"note": list(data.values())[3], "source": b"r", "source.file": line}, f"{there(outside)}")


def test_links_above_folders(place, choose):
    """A link on the way to disks' folders isn't gone through either, and one that is given as the store is."""
    store, outside, source = place / "linked-above", place / "outside-above", place / "above-source"
    names = ["--code", "6-2-2", "--names", "in/disk{shard}/{stripe}"]
    store.mkdir()
    files = lay_disks(outside, choose)
    (store / "in").symlink_to(outside)
    source.write_bytes(b"source")
    said = run("scrub", store, *names, status=1)
    hold("is this the store?" in said, "a link above the folders of disks was gone through")
    hold(f"rebuild-store: {store}/in: is a link, and isn't followed without --follow-links\n" in said, f"it isn't said as one link: {said}")
    hold("its folder is a link" in run("encode", store, source, *names, status=3), "a file was encoded through a link")
    hold(below(outside) == files, "something was written through a link")
    said = run("encode", "--make-folders", "--code", "6-2-2", "--names", "in/more{shard}/{stripe}", store, source, status=3)
    hold("its folder is a link" in said and not [*outside.glob("more*")], f"folders were made through a link: {said}")
    run("scrub", store, *names, "--follow-links", status=0)
    # One that leads to itself is said once, and not for each of the folders.
    (store / "in").unlink()
    (store / "in").symlink_to("in")
    wanted = place / "above-wanted"
    wanted.write_text("a\n")
    said = run("scrub", store, *names, "--follow-links", "--stripes", wanted, status=3)
    hold(said.count(f"{store}/in: Too many levels of symbolic links: what should be in it counts as lost\n") == 1, said)
    (outside / "disk3/a").unlink()
    given = place / "given-as-a-link"
    given.symlink_to(outside)
    run("repair", given, *DISKS, status=0)
    hold(below(outside) == files, "a store that is given as a link isn't repaired")


def test_linked_digests(place, choose):
    """Digests that are a link are neither passed over in silence nor replaced."""
    store, outside = place / "linked-sums", place / "sums-outside"
    files = lay(store, choose)
    outside.write_text("")
    outside.chmod(0o4711)
    (store / "SHA256SUMS").symlink_to(outside)
    (store / "s.x0").unlink()
    said = run("repair", store, status=3)
    hold("SHA256SUMS: is a link" in said and not (store / "s.x0").exists(), said)
    source = place / "summed"
    source.write_bytes(b"summed")
    run("encode", store, source, status=3)
    hold((store / "SHA256SUMS").is_symlink() and outside.read_text() == "", "digests were written through a link")
    run("repair", store, "--follow-links", status=0)
    hold((store / "s.x0").read_bytes() == files["s.x0"], "the fragment isn't what it was")
    # Nor are they believed where a file is read: they alone say which three of its fragments are damaged.
    store, outside = place / "read-sums", place / "read-sums-outside"
    source.write_bytes(choose.randbytes(600))
    run("encode", store, source, status=0)
    (store / "SHA256SUMS").rename(outside)
    (store / "SHA256SUMS").symlink_to(outside)
    for name in ("x0", "y0", "y1"):
        (store / f"summed.{name}").write_bytes(bytes(100))
    said = run("read", store, "summed", status=1)
    hold("summed: the fragments that are there don't give the file" in said, said)
    said = run("read", store, "summed", "--follow-links", status=0)
    hold("summed: read without the fragments that differ from SHA256SUMS" in said, said)


def test_digests_that_are_no_file(place, choose):
    """A folder or a FIFO with the name of the digests isn't taken for them, and holds nothing up."""
    for kind, make in (("folder", os.mkdir), ("fifo", os.mkfifo)):
        store = place / kind
        files = lay(store, choose)
        make(store / "SHA256SUMS")
        (store / "s.x0").unlink()
        said = run("scrub", store, status=1)
        hold("SHA256SUMS" not in said and "scrubbed 1 stripe: 0 damaged, 1 lost" in said, f"{kind}: {said}")
        run("repair", store, status=0)
        hold((store / "s.x0").read_bytes() == files["s.x0"], f"{kind}: the fragment isn't what it was")


def test_stores_that_are_no_folders(place, choose):
    """A FIFO, a device or a file that is given as the store is refused, and holds nothing up."""
    fifo, file, source = place / "fifo", place / "file", place / "source"
    os.mkfifo(fifo)
    file.write_bytes(b"no store")
    source.write_bytes(b"source")
    for path in (fifo, file, pathlib.Path("/dev/null")):
        for command in (["repair", path], ["repair", path, "--part", "1/2"], ["repair", path, "--dry-run"], ["scrub", path], ["lost", path],
                        ["list", path], ["remove", path, "source"], ["encode", path, source]):
            said = run(*command, status=3)
            hold(f"{path}: Not a directory\n" in said, f"{command}: {said}")
    hold(file.read_bytes() == b"no store" and stat.S_ISFIFO(fifo.lstat().st_mode), "what was given as a store was changed")


def test_locks(place, choose):
    """A part's lock that is a link makes no file elsewhere, and one that is a FIFO or a folder holds nobody up."""
    outside = place / "lock-outside"
    for kind in ("link", "fifo", "folder"):
        store = place / f"lock-{kind}"
        files = lay(store, choose)
        (store / "s.x0").unlink()
        lock = store / LOCK_OF_PART
        {"link": lambda: lock.symlink_to(outside), "fifo": lambda: os.mkfifo(lock), "folder": lock.mkdir}[kind]()
        said = run("repair", store, "--part", "1/2", status=3)
        hold(LOCK_OF_PART in said, f"no line names the lock that is a {kind}: {said}")
        hold(not outside.exists(), "a lock made a file outside the store")
        hold(os.path.lexists(lock), f"a {kind} with the name of a lock was removed")
        for part in ("1/3", "2/3", "3/3"):
            run("repair", store, "--part", part, status=0)
        hold((store / "s.x0").read_bytes() == files["s.x0"], "the fragment isn't what it was")


def test_files_named_like_locks(place, choose):
    """A file of other software that is named like a part's lock stays as it is, in the store's folder and among the fragments, and a lock
    that a run has left there goes."""
    store = place / "named-like-locks"
    words = ["--names", "{place}/{stripe}"]
    for name, data in stripe("6-2-2", 600, choose).items():
        (store / name).mkdir(parents=True)
        (store / name / "s").write_bytes(data)
    data = (store / "x0/s").read_bytes()
    others = [store / LOCK_OF_PART, store / "x0" / LOCK_OF_PART, store / "x1/.rebuild-store-part-3-of-4"]
    kinds = {"bytes": choose.randbytes(600), "text": b"minutes of a meeting\n", "no line": b"17@host", "long": b"17@host\n" * 100,
             "short": b"\xff\xfe\x00"}
    for kind, bytes_of_it in kinds.items():
        for other in others:
            other.write_bytes(bytes_of_it)
        (store / "x0/s").unlink()
        said = run("repair", store, *words, "--part", "1/2", status=3)
        hold(f"{LOCK_OF_PART}: has the name of a lock and isn't one" in said, said)
        for part in ("1/3", "2/3", "3/3"):
            run("repair", store, *words, "--part", part, status=0)
        said = run("repair", store, *words, status=0)
        named = [it for it in others if f"{it}: has the name of a lock and isn't one" in said]
        hold(named == others, f"{kind}: not each file that is named like a lock and stays is said: {said}")
        hold((store / "x0/s").read_bytes() == data, f"{kind}: the fragment isn't what it was")
        hold([it.read_bytes() for it in others] == [bytes_of_it] * len(others), f"{kind}: a file that is named like a lock has changed")
    # Zeros are what a power failure leaves of a line that wasn't on the disk yet.
    for left in (b"", f"4194304@{os.uname().nodename[:64]}\n".encode(), bytes(14)):
        others[0].write_bytes(left)
        run("repair", store, *words, "--part", "1/2", status=0)
        hold(not others[0].exists(), f"a part's lock with {left} in it stays")
        for other in others:
            other.write_bytes(left)
        said = run("repair", store, *words, status=0)
        hold(not any(it.exists() for it in others), f"a lock that a run left stays: {said}")


def test_locks_that_cannot_be_read(place, choose):
    """An empty lock that a user's run can't read, as one of root's is, goes; another file of that name stays."""
    how = as_user(place)
    store = place / "unread-locks"
    lay(store, choose)
    store.chmod(0o777)
    lock = store / LOCK_OF_PART
    for data in (b"", b"minutes of a meeting\n"):
        lock.write_bytes(data)
        lock.chmod(0o600)
        run("repair", store, status=3 if data else 0, **how)
        hold(lock.exists() == bool(data), f"{data}: {'is gone' if data else 'stays'}")
    # An unfinished file has a name that nobody else gives, so that it goes whatever it has.
    lock.rename(store / LEFTOVER)
    run("repair", store, status=0, **how)
    hold(not (store / LEFTOVER).exists(), "what a killed run left stays, since it can't be read")


def test_leftovers_that_cannot_be_locked(place, choose):
    """Where the system can't lock what a killed run left, it goes if it is in the store, whose folder is locked, and stays where a link
    leads."""
    calls, store, other = Calls(place, forks=True), place / "unlocked", place / "unlocked-other"
    lay(store, choose)
    other.mkdir()
    (store / "s.x0").unlink()
    (store / "s.x0").symlink_to(other / "s.x0")
    command = [PROGRAM, "repair", "--follow-links", store, "--workers", "1"]
    for folder, status in ((store, 0), (other, 3)):
        left = folder / LEFTOVER
        left.write_bytes(b"half")
        for number, kind in enumerate(calls.run(command).kinds, 1):
            if kind == "lock":
                left.write_bytes(b"half")
                ended = calls.run(command, number, errno.ENOLCK, rest="path")
                if ended.paths == (str(left),):
                    break
        hold(ended.paths == (str(left),) and ended.status == status, f"{ended.paths}: {ended.text()}")
        hold(left.exists() == (folder == other), f"{left}: {ended.text()}")
        left.unlink(missing_ok=True)


def test_leftover_of_a_contradiction(place, choose):
    """What was made of a contradiction and can't be taken away is said, with the status of a device."""
    calls, store = Calls(place, forks=True), place / "contradiction"
    files = lay(store, choose)
    (store / "s.x1").write_bytes(bytes(255 - byte for byte in files["s.x1"]))
    (store / "s.x2").unlink()
    command = [PROGRAM, "repair", store, "--code", "6-2-2", "--workers", "1"]
    ended = calls.run(command)
    hold(ended.status == 1 and "contradiction: one of these is damaged" in ended.err, ended.text())
    ended = calls.run(command, ended.kinds.index("unlink") + 1, errno.EIO)
    left = [name for name in there(store) if name not in files]
    hold(ended.status == 3 and len(left) == 1, f"{left}: {ended.text()}")
    hold(f"s: was left over, or isn't known to be on the disk: {store / left[0]}: Input/output error\n" in ended.err, ended.text())
    ended = calls.run(command)
    hold(ended.status == 1 and f"{store / left[0]}: was left by a run that was killed, and is removed" in ended.err, ended.text())


def test_reads_for_what_cannot_be_made(place, choose):
    """For a fragment that can't be made no more is read than for one that can be."""
    calls, store = Calls(place, forks=True), place / "unmade"
    files = lay(store, choose)
    (store / "SHA256SUMS").write_text("".join(f"{digest(data)}  {name}\n" for name, data in files.items()))
    command = [PROGRAM, "repair", store, "--workers", "1"]
    (store / "s.x0").unlink()
    made = calls.run(command)
    (store / "s.x0").unlink()
    ended = calls.run(command, made.kinds.index("create") + 1, errno.ENOSPC, rest="kind")
    hold(made.status == 0 and ended.status == 3, ended.text())
    hold(ended.err == "s.x0: can't be put in its place: No space left on device\n", ended.text())
    hold(ended.kinds.count("read") <= made.kinds.count("read"), f"{made.kinds} and, where nothing can be made, {ended.kinds}")


def test_fragments_that_cannot_be_looked_at(place, choose):
    """A fragment that can't be looked at is said, with the status of a device, also of a stripe that can't be mended, and of one of which
    nothing else is left."""
    store = place / "loops"
    files = lay(store, choose, names=("a", "b"))
    for name in ("a.x1", "a.y2"):
        (store / name).write_bytes(bytes(255 - byte for byte in files[name]))
    # Links that lead to themselves.
    loops = ["a.p0", *(name for name in files if name[0] == "b")]
    for name in loops:
        (store / name).unlink()
        (store / name).symlink_to(name)
    said = run("repair", "--follow-links", "--code", "6-2-2", "--reads", "all", store, status=3)
    hold("a: contradiction" in said and "b: no fragment can be read\n" in said, said)
    wrong = [name for name in loops if said.count(f"{name}: can't be looked at: Too many levels of symbolic links\n") != 1]
    hold(not wrong, f"{wrong}: {said}")


def test_unread_fragment_is_said_once(place, choose):
    """Of a fragment that can't be read nothing more is said where damaged ones are replaced."""
    calls, store, ended = Calls(place, forks=True), place / "unread", None
    files = lay(store, choose)
    command = [PROGRAM, "repair", store, "--code", "6-2-2", "--replace-damaged", "--workers", "1"]
    for number, kind in enumerate(calls.run(command).kinds, 1):
        if kind == "open":
            ended = calls.run(command, number, errno.EIO, rest="path")
            if ended.paths == (str(store / "s.x1"),):
                break
    hold(ended.status == 3 and ended.err == "s.x1: can't be read: Input/output error\n", ended.text())
    hold("damaged: 0; not possible: 1\n" in ended.out and there(store) == files, ended.text())


def test_locks_of_refused_runs(place, choose):
    """A repair that is refused before it begins, by the limit on files' lengths, leaves no lock of its part."""
    store = place / "refused"
    files = lay(store, choose, length=5_000)
    (store / "s.x0").unlink()
    before = there(store)

    def limit():
        resource.setrlimit(resource.RLIMIT_FSIZE, (4_000, 4_000))

    statuses = []
    for part in ("1/2", "2/2"):
        ended = subprocess.run([PROGRAM, "repair", store, "--part", part], capture_output=True, text=True, preexec_fn=limit)
        statuses.append(ended.returncode)
        hold(ended.returncode == 0 or "ulimit -f" in ended.stderr, ended.stderr)
        hold(there(store) == before, f"part {part} left {sorted(there(store))}")
    hold(sorted(statuses) == [0, 1], f"{statuses}")
    for part in ("1/2", "2/2"):
        run("repair", store, "--part", part, status=0)
    hold(there(store) == files, "the store isn't what it was")


def test_lock_that_cannot_be_given_back(place, choose):
    """A run that can't take its part's lock away at its end says so, with the status of a device, and the next run of the part does."""
    store = place / "kept-lock"
    lay(store, choose)
    calls, lock = Calls(place, forks=True), store / ".rebuild-store-part-1-of-1"
    command = [PROGRAM, "repair", store, "--part", "1/1"]
    ran = calls.run(command, calls.run(command).kinds.index("unlink") + 1, errno.EIO)
    hold(ran.status == 3 and f"rebuild-store: {store}: Input/output error\n" in ran.err, ran.text())
    hold(ran.paths == (str(lock),) and lock.exists() and ran.out.startswith("repaired 0 fragments, "), ran.text())
    run(*command[1:], status=0)
    hold(not lock.exists(), "a lock stays")


def test_lock_after_any_fault(place, choose):
    """Whatever call fails in a run of a part, and whatever status that ends with, its lock is taken away, unless that call is the fault."""
    store, tried = place / "store", set()
    files = lay(store, choose)
    calls, lock = Calls(place, forks=True), store / ".rebuild-store-part-1-of-1"
    command = [PROGRAM, "repair", store, "--part", "1/1"]

    def ready():
        (store / "s.x0").unlink(missing_ok=True)
        (store / ".rebuild-store-1-1-0123456789abcdef").write_bytes(b"half")

    ready()
    for number, kind in enumerate(calls.run(command).kinds, 1):
        for error in (errno.EIO, errno.ENOMEM):
            ready()
            ran = calls.run(command, number, error)
            tried.add(ran.status)
            if str(lock) in ran.paths:
                lock.unlink(missing_ok=True)
            hold(not lock.exists(), f"call {number}, {kind}: {ran.paths}: the lock stays: {ran.text()}")
    hold(tried >= {0, 3, 4}, f"no run was refused: {tried}")
    run(*command[1:], status=0)
    hold(there(store) == files, "the store isn't what it was")


@contextlib.contextmanager
def waiting(calls, place, words, number):
    """A run that waits before the call of this number: gives a function that lets it go on and gives its status and what it says."""
    with tempfile.NamedTemporaryFile(dir=place) as record:
        record.truncate(RECORD_SIZE)
        reached, until = pathlib.Path(f"{record.name}-reached"), pathlib.Path(f"{record.name}-until")
        environment = {"LD_PRELOAD": str(calls.file), "FAIL_RECORD": record.name, "FAIL_NUMBER": str(number), "FAIL_HOW": "wait",
                       "FAIL_REACHED": str(reached), "FAIL_UNTIL": str(until)}
        held = subprocess.Popen([str(it) for it in words], stdin=subprocess.DEVNULL, stdout=subprocess.PIPE, stderr=subprocess.STDOUT,
                                env=environment)
        for _ in range(SECONDS * 100):
            if reached.exists() or held.poll() is not None:
                break
            time.sleep(0.01)
        hold(reached.exists(), f"{words} didn't come to call {number}")

        def go_on():
            until.touch()
            said, _ = held.communicate(timeout=SECONDS)
            return held.returncode, said.decode(errors="replace")

        try:
            yield go_on
        finally:
            until.touch()
            held.kill()
            held.wait()


def test_runs_of_one_part(place, choose):
    """A run that opened a part's lock which another then gave back doesn't work on beside a third run."""
    store = place / "one-part"
    files = lay(store, choose)
    lost = store / "s.x0"
    lost.unlink()
    calls = Calls(place, forks=True)
    part = next(part for part in ("1/2", "2/2") if has_lost(store, part))
    command = [PROGRAM, "repair", store, "--part", part]
    lock = store / f".rebuild-store-part-{part.replace('/', '-of-')}"
    # So that the run opens it, as the one does which is to wait once it has.
    lock.touch()
    ran = calls.run(command)
    hold(ran.status == 0 and lost.read_bytes() == files["s.x0"], ran.text())
    locks = [number for number, kind in enumerate(ran.kinds, 1) if kind == "lock"]
    links = [number for number, kind in enumerate(ran.kinds, 1) if kind == "link"]
    hold(len(locks) >= 2 and links, f"no lock of a part: {ran.kinds}")
    # The first run has the lock, which a second opens; the first gives it back; a third takes a new one; the second goes on.
    lost.unlink()
    first = os.open(lock, os.O_CREAT | os.O_RDWR)
    with waiting(calls, place, command, locks[1]) as go_on:
        lock.unlink()
        os.close(first)
        third = os.open(lock, os.O_CREAT | os.O_EXCL | os.O_RDWR)
        fcntl.flock(third, fcntl.LOCK_EX | fcntl.LOCK_NB)
        status, said = go_on()
        hold(status == 1 and "another run works in this store" in said, f"two runs worked on one part: status {status}: {said}")
        hold(lock.exists(), "the lock of another run was removed")
        os.close(third)
    lock.unlink()
    run(*command[1:], status=0)
    hold(there(store) == files, "the store isn't what it was")


def test_read_while_replaced(place, choose):
    """A file that is replaced at any moment of a read is read nevertheless: all of the old one or all of the new one."""
    store, source, output = place / "store", place / "a", place / "read"
    files = [choose.randbytes(900), choose.randbytes(700)]
    source.write_bytes(files[0])
    run("encode", store, source, status=0)
    calls = Calls(place, forks=True)
    command = [PROGRAM, "read", store, "a", "-o", output]
    ran = calls.run(command)
    hold(ran.status == 0 and output.read_bytes() == files[0], ran.text())
    for number in range(1, len(ran.kinds) + 1):
        output.unlink(missing_ok=True)
        with waiting(calls, place, command, number) as go_on:
            source.write_bytes(files[number % 2])
            run("encode", "--replace", store, source, status=0)
            status, said = go_on()
        hold(status == 0 and output.read_bytes() in files, f"call {number}, {ran.kind_of(number)}: status {status}: {said}")


def test_read_while_a_replacement_is_killed(place, choose):
    """So is one whose replacement is killed meanwhile, when some names have the new fragments and none has the new description."""
    first, store, source, output = (place / it for it in ("first", "store", "a", "read"))
    files = [choose.randbytes(900), choose.randbytes(700)]
    source.write_bytes(files[0])
    run("encode", first, source, status=0)
    source.write_bytes(files[1])
    shutil.copytree(first, store)
    calls, read = Calls(place, forks=True), [PROGRAM, "read", store, "a", "-o", output]
    replace = [PROGRAM, "encode", "--replace", store, source]
    renames = [number for number, kind in enumerate(calls.run(replace).kinds, 1) if kind == "rename"]
    shutil.rmtree(store)
    shutil.copytree(first, store)
    ran = calls.run(read)
    hold(ran.status == 0 and output.read_bytes() == files[0], ran.text())
    for number in range(1, len(ran.kinds) + 1, 2):
        output.unlink(missing_ok=True)
        shutil.rmtree(store)
        shutil.copytree(first, store)
        with waiting(calls, place, read, number) as go_on:
            killed = calls.run(replace, renames[1 + number % 9], "kill")
            hold(killed.status == -signal.SIGKILL, killed.text())
            status, said = go_on()
        hold(status == 0 and output.read_bytes() in files, f"call {number}, {ran.kind_of(number)}: status {status}: {said}")


def has_lost(store, part):
    """Whether a dry run of a part has something to do."""
    done = subprocess.run([PROGRAM, "repair", store, "--part", part, "--dry-run"], capture_output=True, text=True)
    return "; 1 lost in 1; " in done.stdout


def test_names_like_ours(place, choose):
    """Only regular files whose names have exactly the form of unfinished ones are removed, and each is named."""
    store = place / "names"
    files = lay(store, choose, names=(".rebuild-store-old", "s"))
    (store / ".rebuild-store-old.y1").unlink()
    kept = {name: b"mine" for name in (".rebuild-store-notes", ".rebuild-store-", ".rebuild-store-7", f"{LEFTOVER}0", f"{LEFTOVER}.x",
                                       LEFTOVER.upper(), ".rebuild-store-0-3-0123456789abcdef", ".rebuild-store-part-1-of-two")}
    for name, data in kept.items():
        (store / name).write_bytes(data)
    odd = [store / f".rebuild-store-{digit * 16}" for digit in "abc"]
    odd[0].mkdir()
    os.mkfifo(odd[1])
    odd[2].symlink_to(store / ".rebuild-store-notes")
    for name in (LEFTOVER, LEFTOVER_OF_PART):
        (store / name).write_bytes(b"half")
    at_work = store / ".rebuild-store-ffffffffffffffff"
    at_work.write_bytes(b"half")
    held = os.open(at_work, os.O_RDWR)
    fcntl.flock(held, fcntl.LOCK_EX)
    said = run("repair", store, "--replace-damaged", status=0)
    hold(there(store) == files | kept | {at_work.name: b"half"}, f"{sorted(there(store).keys() ^ (files | kept).keys())}: {said}")
    hold(all(os.path.lexists(path) for path in odd), "what is no regular file was removed")
    for name in (LEFTOVER, LEFTOVER_OF_PART):
        hold(any(name in line and "removed" in line for line in said.splitlines()), f"no line says that {name} was removed: {said}")
    os.close(held)
    source = place / LEFTOVER
    source.write_bytes(b"source")
    hold("can't have this name" in run("encode", store, source, status=1), "a file of such a name was encoded")
    hold(not at_work.exists(), "what was left isn't removed by encode")


def test_names_of_unfinished_files(place, choose):
    """The name of an unfinished file has its run's part, process and host, so that those of other runs know whose it is."""
    store, calls, host = place / "unfinished", Calls(place, forks=True), re.escape(os.uname().nodename)
    lay(store, choose)
    for words, part in (([], ""), (["--part", "1/1"], "1-1-")):
        command = [PROGRAM, "repair", store, *words]
        (store / "s.x0").unlink()
        link = calls.run(command).kinds.index("link") + 1
        (store / "s.x0").unlink()
        hold(calls.run(command, link, "kill").status == -signal.SIGKILL, "the run wasn't killed")
        left = [name for name in there(store) if name.startswith(".rebuild-store-") and "part" not in name]
        named = re.fullmatch(rf"\.rebuild-store-{part}\d+@{host}-[0-9a-f]{{16}}", " ".join(left))
        hold(named, f"a run of part {words} left {left}")
        run(*command[1:], status=0)


def test_leftovers_of_another_folder(place, choose):
    """With --to what was left in that folder is removed, and nothing in the store, where another run may be at work."""
    store, to = place / "from", place / "to"
    files = lay(store, choose)
    lost = files.pop("s.x0")
    (store / "s.x0").unlink()
    to.mkdir()
    for folder in (store, to):
        (folder / LEFTOVER).write_bytes(b"half")
        (folder / ".rebuild-store-0").write_bytes(b"older")
    said = run("repair", store, "--to", to, status=0)
    hold(there(store) == files | {LEFTOVER: b"half", ".rebuild-store-0": b"older"}, f"the store was changed: {said}")
    hold(there(to) == {"s.x0": lost, ".rebuild-store-0": b"older"}, f"{sorted(there(to))}: {said}")


def test_leftovers_that_cannot_be_removed(place, choose):
    """Each leftover that the system doesn't let a run remove is said, with the status of a device, and the others go."""
    how = as_user(place)
    store = place / "sticky"
    files = lay(store, choose)
    store.chmod(0o1777)
    mine, others = ([store / f".rebuild-store-{number:016x}" for number in range(begin, begin + 4)] for begin in (0, 100))
    for path in [*mine, *others]:
        path.write_bytes(b"half")
        os.chown(path, USER if path in mine else OTHER, -1)
    (store / "s.x0").unlink()
    said = run("repair", store, status=3, **how)
    hold(not any(path.exists() for path in mine), f"leftovers that can be removed stay: {sorted(there(store))}")
    hold(all(path.exists() and f"{path}: " in said for path in others), f"leftovers that stay aren't said: {said}")
    hold((store / "s.x0").read_bytes() == files["s.x0"], "the fragment isn't what it was")


def test_leftovers_where_links_lead(place, choose):
    """What can't be opened where a link leads may be of a run that works in another store: it stays and is said, and the others go."""
    how = as_user(place)
    store, outside = place / "leading", place / "led-to"
    files = lay(store, choose)
    outside.mkdir()
    for folder in (store, outside):
        folder.chmod(0o777)
    (store / "s.x0").rename(outside / "x0")
    (store / "s.x0").symlink_to(outside / "x0")
    (store / "s.y0").unlink()
    closed, left = outside / LEFTOVER, outside / LEFTOVER_OF_PART
    for path, mode in ((closed, 0o600), (left, 0o666)):
        path.write_bytes(b"half")
        path.chmod(mode)
    said = run("repair", store, "--follow-links", status=3, **how)
    hold(closed.read_bytes() == b"half" and not left.exists(), f"{sorted(there(outside))}: {said}")
    hold(f"{closed}: is left over, and can't be removed: Permission denied" in said, said)
    hold((store / "s.y0").read_bytes() == files["s.y0"], "the fragment isn't what it was")


def test_linked_folder_that_cannot_be_listed(place, choose):
    """A folder that a link leads to and that can't be listed is said, with the status of a device, and what runs left there stays."""
    calls, store, outside = Calls(place, forks=True), place / "store", place / "outside"
    files = lay(store, choose)
    outside.mkdir()
    (store / "s.x0").rename(outside / "x0")
    (store / "s.x0").symlink_to(outside / "x0")
    command = [PROGRAM, "repair", store, "--follow-links"]

    def begun(*how):
        (store / "s.y0").unlink(missing_ok=True)
        (outside / LEFTOVER).write_bytes(b"half")
        return calls.run(command, *how)

    for number, kind in enumerate(begun().kinds, 1):
        if kind == "list":
            ended = begun(number, errno.EIO)
            if ended.paths == (str(outside),):
                break
    hold(ended.paths == (str(outside),), ended.text())
    said = f"rebuild-store: {outside}: Input/output error: what runs that were killed have left there stays\n"
    hold(ended.status == 3 and said in ended.err and (outside / LEFTOVER).exists(), ended.text())
    hold((store / "s.y0").read_bytes() == files["s.y0"], "the fragment isn't what it was")
    hold(f"{outside / LEFTOVER}: was left by a run that was killed, and is removed" in run(*command[1:], status=0), "it isn't removed")


def test_kills_elsewhere(place, choose):
    """A run that is killed leaves nothing that stays in the way, also where it writes to another folder or to another disk by links."""
    calls = Calls(place, forks=True)
    for kind in ("to", "links"):
        store, other = place / f"killed-{kind}", place / f"killed-{kind}-other"
        files = lay(store, choose)
        other.mkdir()
        (store / "s.x0").unlink()
        words = ["--to", other] if kind == "to" else ["--follow-links"]
        if kind == "links":
            (store / "s.x0").symlink_to(other / "s.x0")
        command = [PROGRAM, "repair", store, "--workers", "1", *words]
        ran = calls.run(command)
        hold(ran.status == 0 and (other / "s.x0").read_bytes() == files["s.x0"], ran.text())
        for number in [number for number, kind in enumerate(ran.kinds, 1) if kind in ("write", "sync", "link", "unlink")]:
            (other / "s.x0").unlink(missing_ok=True)
            killed = calls.run(command, number, "kill")
            hold(killed.status == -9, killed.text())
            run(*command[1:], status=0)
            hold(there(other) == {"s.x0": files["s.x0"]}, f"killed before call {number}, left {sorted(there(other))}")
        # What earlier runs named otherwise, or a folder of such a name, is in nobody's way.
        (other / "s.x0").unlink()
        for number in range(4):
            (other / f".rebuild-store-{number}").mkdir() if number % 2 else (other / f".rebuild-store-{number}").write_bytes(b"half")
        run(*command[1:], status=0)
        hold((other / "s.x0").read_bytes() == files["s.x0"], "a name like ours is in the way")


def test_root_in_others_folders(place, choose):
    """Root writes into folders that others may write into only if told to."""
    needs_root()
    source = place / "root-source"
    source.write_bytes(b"source")
    names = ["--code", "6-2-2", "--names", "{place}/{stripe}"]
    for kind in ("owner", "mode", "sticky", "group", "disk"):
        store = place / f"others-{kind}"
        if kind == "disk":
            store.mkdir()
            files = stripe("6-2-2", 40, choose)
            for name, data in files.items():
                (store / name).mkdir()
                (store / name / "s").write_bytes(data)
            (store / "p1").chmod(0o777)
            lost, words, folder = store / "x0/s", names, store / "p1"
        else:
            lay(store, choose)
            lost, words, folder = store / "s.x0", [], store
            if kind == "owner":
                os.chown(store, OTHER, 0)
            elif kind == "group":
                os.chown(store, 0, OTHER)
            store.chmod({"owner": 0o755, "mode": 0o777, "sticky": 0o1777, "group": 0o775}[kind])
        data = lost.read_bytes()
        lost.unlink()
        for command in (["repair", store, *words], ["repair", store, *words, "--part", "1/1"], ["encode", store, source, *words],
                        ["encode", "--replace", store, source, *words], ["remove", store, "s", *words],
                        ["repair", "--follow-links", store, *words], ["encode", "--follow-links", store, source, *words],
                        ["remove", "--follow-links", store, "s", *words]):
            said = run(*command, status=2)
            user = OTHER if kind == "owner" else 0
            hold(f"{folder}: user {user} or others may write there" in said and "--trust-writers" in said, said)
        hold(not lost.exists() and not list(store.glob(".rebuild-store-*")), "something was written where others may write")
        run("repair", store, *words, "--dry-run", status=1)
        run("scrub", store, *words, status=1)
        run("repair", store, *words, "--trust-writers", status=0)
        hold(lost.read_bytes() == data, "the fragment isn't what it was")
        run("encode", store, source, *words, "--trust-writers", status=0)
        run("remove", store, "root-source", *words, "--trust-writers", status=0)
    own, to = place / "own", place / "others-to"
    lay(own, choose)
    (own / "s.x0").unlink()
    to.mkdir()
    to.chmod(0o777)
    hold(str(to) in run("repair", own, "--to", to, status=2) and not there(to), "root wrote fragments where others may write")


def test_kept_fragments(place, choose):
    """A fragment that was replaced and is kept is none of another stripe, and no pattern is taken that can't tell names apart."""
    store = place / "kept"
    names = ["--code", "6-2-2", "--names", "disk{shard}/{stripe}"]
    store.mkdir()
    data = list(stripe("6-2-2", 90, choose).values())
    for number, fragment in enumerate(data):
        (store / f"disk{number}").mkdir()
        (store / f"disk{number}/note").write_bytes(fragment if number != 4 else bytes(90))
    run("repair", store, *names, "--replace-damaged", status=0)
    for command in ("repair", "scrub"):
        run(command, store, *names, status=0)
    for number in (1, 2, 3):
        os.link(store / f"disk{number}/note", store / f"disk{number}/note.damaged")
    run("repair", store, *names, status=0)
    hold(sorted(path.name for path in store.glob("disk*/*")) == ["note"] * 10 + ["note.damaged"] * 4, "fragments were made of kept ones")
    # Somebody's file under the name by which a fragment would be kept stays, also if it is as long, and so does the fragment.
    note, other = store / "disk7/note", store / "disk7/note.damaged"
    damaged = bytes([data[7][0] ^ 1]) + data[7][1:]
    for bytes_of_it in (b"other", bytes(90), damaged):
        note.write_bytes(damaged)
        other.write_bytes(bytes_of_it)
        said = run("repair", store, *names, "--replace-damaged", status=1)
        hold(note.read_bytes() == damaged and other.read_bytes() == bytes_of_it, f"a file was replaced: {said}")
    other.unlink()
    note.write_bytes(data[7])
    source = place / "file.damaged"
    source.write_bytes(b"source")
    hold("can't have this name" in run("encode", store, source, *names, status=1), "a file was encoded under names of kept fragments")
    for pattern in ("{stripe}{shard}", "{shard}{stripe}"):
        run("encode", store, source, "--names", pattern, status=2)


DISKS = ["--code", "6-2-2", "--names", "disk{shard}/{stripe}"]


def lay_disks(store, choose, names=("a", "b"), length=80):
    """Makes a store with a folder for each disk, and gives the bytes of its files by their names."""
    files = {}
    store.mkdir()
    for name in names:
        for number, data in enumerate(stripe("6-2-2", length, choose).values()):
            (store / f"disk{number}").mkdir(exist_ok=True)
            (store / f"disk{number}/{name}").write_bytes(data)
            files[f"disk{number}/{name}"] = data
    return files


def below(store):
    """The bytes of the regular files below a folder, by their names in it."""
    return {str(path.relative_to(store)): path.read_bytes() for path in store.rglob("*") if path.is_file() and not path.is_symlink()}


def hold_disk_lost(store, files, bad, said):
    """All but a bad disk has what it should have, and the disk is said once."""
    there = {name: data for name, data in below(store).items() if not name.startswith(f"{bad}/") and name != bad}
    wanted = {name: data for name, data in files.items() if not name.startswith(f"{bad}/")}
    hold(there == wanted, f"{sorted(name for name in wanted if there.get(name) != wanted[name])} didn't come back: {said}")
    named = [line for line in said.splitlines() if line.startswith(f"rebuild-store: {store / bad}: ")]
    hold(len(named) == 1, f"{len(named)} lines name {bad}: {said}")


def test_disks_that_are_gone(place, choose):
    """A disk's folder that isn't there or is no folder is said once, and the same stripes' fragments on other disks come back."""
    for kind in ("missing", "file"):
        store = place / kind
        files = lay_disks(store, choose)
        for name in ("disk1/a", "disk4/b", "disk2/a", "disk2/b"):
            (store / name).unlink()
        (store / "disk2").rmdir()
        if kind == "file":
            (store / "disk2").write_bytes(b"")
        run("scrub", store, *DISKS, status=1)
        run("lost", store, *DISKS, status=1)
        said = run("repair", store, *DISKS, status=3)
        hold_disk_lost(store, files, "disk2", said)
        for name in "ab":
            hold(f"disk2/{name}: can't be put in its place" in said, said)
        hold("repaired 2 fragments" in said, said)
    # A disk that fails is a failed device also if one that is looked at before it or after it is gone.
    for failing in (2, 7):
        store = place / f"failing-{failing}"
        lay_disks(store, choose)
        for number in (2, 7):
            shutil.rmtree(store / f"disk{number}")
        (store / f"disk{failing}").symlink_to(f"disk{failing}")
        for command in ("scrub", "lost", "list"):
            said = run(command, store, "--follow-links", *DISKS, status=3)
            hold(said.count(": what should be in it counts as lost\n") == 2, f"{command}: {said}")


def test_descriptions_on_disks_that_are_gone(place, choose):
    """A description on a disk whose folder isn't there, or is a file, is lost, and no failed device."""
    store, _, _ = encoded_disks(place, choose)
    for kind in ("missing", "file"):
        if kind == "missing":
            shutil.rmtree(store / "disk2")
        else:
            (store / "disk2").write_bytes(b"")
        for command in ("scrub", "lost"):
            hold("disk2/note.file: is lost\n" in run(command, store, *DISKS, status=1), f"{kind}: {command} says something else")


def test_disks_that_fail(place, choose):
    """A disk's folder that can't be listed is a disk whose fragments are lost: it is said once, and the others are repaired."""
    calls = Calls(place, forks=True)
    store = place / "failing"
    files = lay_disks(store, choose)
    lost = ("disk1/a", "disk4/b")
    command = [PROGRAM, "repair", store, *DISKS, "--workers", "1"]
    for name in lost:
        (store / name).unlink()
    ran = calls.run(command)
    lists = [number for number, kind in enumerate(ran.kinds, 1) if kind == "list"]
    tried = 0
    for number in lists:
        for name in lost:
            (store / name).unlink(missing_ok=True)
        ran = calls.run(command, number, errno.EIO)
        bad = pathlib.Path(ran.paths[0])
        if bad == store:
            hold(ran.status == 3, ran.text())
            continue
        hold(ran.status == 3 and below(store) == files, f"{bad.name}: {ran.text()}")
        hold(ran.err.count(f"rebuild-store: {bad}: Input/output error") == 1, ran.text())
        tried += 1
    hold(tried > 0, f"no disk's listing was tried: {ran.kinds}")
    # Nothing else is lost: other commands say that a device failed, too.
    for words in (["lost"], ["scrub", "--workers", "1"], ["list"]):
        command = [PROGRAM, *words, store, *DISKS]
        for number in [number for number, kind in enumerate(calls.run(command).kinds, 1) if kind == "list"]:
            ran = calls.run(command, number, errno.EIO)
            hold(ran.status == 3 and ran.err.count(f"{ran.paths[0]}: Input/output error") == 1, f"{words}: {ran.text()}")


def test_files_that_may_not_be_read(place, choose):
    """What a user may not read of one file keeps no other one from being held to its digest, or from being read."""
    how, store = as_user(place), place / "readable"
    store.mkdir()
    for name in "abc":
        (place / name).write_bytes(choose.randbytes(300))
        run("encode", store, place / name, status=0)
    for path in store.glob("a.*"):
        path.chmod(0)
    for shard in ("x0", "x1", "x2", "y0", "y1"):
        (store / f"b.{shard}").write_bytes(bytes(100))
    said = run("verify", store, status=3, **how)
    hold("a.file: Permission denied" in said and "b: the fragments that are there don't give" in said, said)
    hold("verified 1 file; not as described: 2" in said, said)
    hold(said.count("c: ") == 0, said)
    # A fragment that can't be read is said once.
    for path in store.glob("a.*"):
        path.chmod(0o644)
    (store / "a.y2").chmod(0)
    for words in (["scrub"], ["repair", "--dry-run", "--reads", "all"]):
        said = run(*words, store, status=3, **how)
        hold(said.count("a.y2: can't be read: Permission denied\n") == 1, said)
    # A stripe of which too little can be read says nothing of the code.
    few = place / "readable-few"
    lay(few, choose)
    few.chmod(0o777)
    for shard in ("x0", "x1", "y0", "y1", "p0", "p1"):
        (few / f"s.{shard}").chmod(0)
    (few / "s.x2").unlink()
    for words in ([], ["--reads", "all"]):
        said = run("repair", few, *words, status=3, **how)
        hold("is this the store?" not in said and "s.p0: can't be read: Permission denied\n" in said, said)
    # The status says so too if it is rebuilt elsewhere.
    to = place / "readable-to"
    to.mkdir(mode=0o755)
    os.chown(to, USER, USER)
    counters = place / "readable-counters"
    counters.write_bytes(b"")
    counters.chmod(0o666)
    said = run("repair", store, "--reads", "all", "--to", to, "--progress", counters, status=3, **how)
    hold("a.y2: can't be read: Permission denied\n" in said, said)
    # What is left are the five fragments of b, which have another length.
    hold(re.findall(r"^rebuild_store_left\{.*\} (\d+)$", counters.read_text(), re.M) == ["5"], counters.read_text())
    hold((to / "a.y2").read_bytes() == (store / "a.y2").read_bytes(), f"what couldn't be read wasn't rebuilt: {said}")
    for path in store.glob("a.*"):
        path.chmod(0)
    # A list names all files, and says which descriptions can't be read.
    said = run("list", store, status=3, **how)
    hold(all(f" {name}\n" in said for name in "abc"), said)
    unread = [line for line in said.splitlines() if "can't be read" in line]
    hold(unread == [f"rebuild-store: a.{ending}: can't be read: Permission denied" for ending in ("file", "file.copy")], said)


def test_unknown_beside_what_is_not_determined(place, choose):
    """A fragment that can't be looked at is said, with the status of a device, though others can't be determined, or lengths differ."""
    store = place / "several"
    lay(store, choose)
    for name in ("x0", "x1", "x2", "px", "y0"):
        (store / f"s.{name}").unlink()
    (store / "s.x0").symlink_to("s.x0")
    said = "s.x0: can't be looked at: Too many levels of symbolic links\n"
    for words in (["repair", "-n"], ["repair"], ["repair", "--reads", "all"], ["scrub"], ["lost"], ["list"]):
        hold(said in run(*words, "--follow-links", store, status=3), f"{words}: it isn't said")
    for name in ("y1", "y2", "py"):
        os.truncate(store / f"s.{name}", 300)
    for words in (["repair", "-n"], ["repair"], ["scrub"], ["lost"]):
        found = run(*words, "--follow-links", store, status=3)
        hold(said in found and "300 bytes" in found, f"{words}: {found}")


def test_place_of_another_code(place, choose):
    """A file at a place of the other code, of another length, costs the stripe beside it nothing."""
    store = place / "other-place"
    lay(store, choose, names="stu", length=30)
    (store / "s.x5").write_bytes(b"other")
    said = run("list", store, status=0)
    hold("s.x5: is named as a fragment, and of no stripe\n" in said and "3 files; not whole: 0\n" in said, said)


def lay_file(place, choose, data=None):
    """A store of one file, and its source."""
    store, source = place / "store", place / "a"
    source.write_bytes(choose.randbytes(5_000) if data is None else data)
    run("encode", store, source, status=0)
    return store


def test_description_elsewhere_again(place, choose):
    """A repair into another folder may be run again: a description that it made there is as good as a fragment."""
    store, to = lay_file(place, choose), place / "to"
    to.mkdir()
    text = (store / "a.file").read_bytes()
    for name in ("a.file", "a.x0"):
        (store / name).unlink()
    for _turn in range(2):
        run("repair", store, "--to", to, status=0)
        hold((to / "a.file").read_bytes() == text and sorted(there(to)) == ["a.file", "a.x0"], f"{sorted(there(to))}")
    (to / "a.file").write_bytes(b"other")
    said = run("repair", store, "--to", to, status=1)
    hold("a.file: has come meanwhile" in said and (to / "a.file").read_bytes() == b"other", said)


def test_description_of_a_killed_part(place, choose):
    """What a killed run of a part leaves of a description is removed by the part's next run."""
    store, calls = lay_file(place, choose), Calls(place, forks=True)
    whole = there(store)
    command = [PROGRAM, "repair", "--part", "1/1", store]
    (store / "a.file").unlink()
    number = calls.run(command).kinds.index("link") + 1
    (store / "a.file").unlink()
    calls.run(command, number, "kill")
    hold(set(there(store)) - set(whole) > {".rebuild-store-part-1-of-1"}, "nothing was left")
    said = run(*command[1:], status=0)
    hold(there(store) == whole, f"{sorted(set(there(store)) - set(whole))}: {said}")


def test_description_behind_a_link(place, choose):
    """If links are followed, a description is made again where its link leads, and a damaged one is replaced and kept there."""
    store, outside, calls = lay_file(place, choose), place / "outside", Calls(place, forks=True)
    outside.mkdir()
    text = (store / "a.file").read_bytes()
    (store / "a.file").unlink()
    (store / "a.file").symlink_to(outside / "described")
    command = [PROGRAM, "repair", store, "--follow-links"]
    number = calls.run(command).kinds.index("link") + 1
    hold(there(outside) == {"described": text}, "nothing was made where the link leads")
    (outside / "described").unlink()
    calls.run(command, number, "kill")
    hold(len(there(outside)) == 1, f"{sorted(there(outside))}")
    run(*command[1:], status=0)
    hold(there(outside) == {"described": text}, f"{sorted(there(outside))}")
    (outside / "described").write_bytes(b"other")
    (store / "SHA256SUMS").write_text(f"{digest(text)}  a.file\n")
    run(*command[1:], "--replace-damaged", status=0)
    hold(there(outside) == {"described": text, "described.damaged": b"other"}, f"{sorted(there(outside))}")
    hold((store / "a.file").is_symlink() and not (store / "a.file.damaged").exists(), "the link was replaced")
    if is_root():
        (outside / "described").unlink()
        outside.chmod(0o777)
        hold("--trust-writers" in run(*command[1:], status=2), "root made a file where others may write")


def test_folder_that_is_not_synced(place, choose):
    """A folder whose names can't be written to its disk keeps those of no other folder from being written."""
    store, calls = place / "synced", Calls(place, forks=True)
    lay_disks(store, choose, names=("a",))
    lost = [store / "disk1/a", store / "disk4/a"]
    command = [PROGRAM, "repair", "-j", "1", *DISKS, store]
    for path in lost:
        path.unlink()
    kinds = calls.run(command).kinds
    synced = [number for number, kind in enumerate(kinds, 1) if kind == "sync"]
    for path in lost:
        path.unlink()
    ended = calls.run(command, synced[-2], errno.EIO)
    hold(ended.status == 3 and pathlib.Path(ended.paths[0]).is_dir() and ended.kinds.count("sync") == len(synced), ended.text())
    # Each that can't be written is said, once, of the stripe whose fragments are in it.
    for path in lost:
        path.unlink()
    ended = calls.run(command, synced[-2], errno.EIO, "kind")
    said = sorted(line for line in ended.err.splitlines() if "isn't known to be on the disk" in line)
    want = [f"a: was left over, or isn't known to be on the disk: {path.parent}: Input/output error" for path in lost]
    hold(ended.status == 3 and said == sorted(want), ended.text())


def test_folder_above_a_disk(place, choose):
    """A disk is said as missing whose upper folder is gone, as one is whose own folder is."""
    store, names = place / "above", ["--code", "6-2-2", "--names", "host{shard}/disk/{stripe}"]
    (place / "a").write_bytes(choose.randbytes(500))
    run("encode", "--make-folders", *names, store, place / "a", status=0)
    shutil.rmtree(store / "host3")
    (store / "host5/disk/a").unlink()
    (store / "host5/disk/a.file").unlink()
    (store / "host5/disk").rmdir()
    said = run("scrub", *names, store, status=1)
    for folder in ("host3", "host5/disk"):
        hold(f"rebuild-store: {store}/{folder}: No such file or directory: what should be in it counts as lost\n" in said, said)


def test_fragments_that_fail_while_they_are_read(place, choose):
    """A fragment that a disk fails to give is said as that, and not as one that differs from its digest."""
    calls, store, tried = Calls(place, forks=True), place / "failing", set()
    files = lay(store, choose)
    sums = "".join(f"{digest(data)}  {name}\n" for name, data in files.items())
    (store / "SHA256SUMS").write_text(sums)
    command = [PROGRAM, "scrub", "-j", "1", store]
    for number, kind in enumerate(calls.run(command).kinds, 1):
        if kind != "read":
            continue
        ended = calls.run(command, number, errno.EIO, rest="path")
        name = pathlib.Path(ended.paths[0]).name
        if name in files:
            tried.add(name)
            said = ended.out + ended.err
            hold(ended.status == 3 and f"{name}: can't be read: Input/output error\n" in said, f"{name}: {ended.text()}")
            hold("differs from the checksums" not in said, f"{name}: {ended.text()}")
    hold(tried == set(files), f"only {sorted(tried)} are read")
    # Nor does it say that this is another store.
    (store / "s.x0").unlink()
    command, tried = [PROGRAM, "repair", "-n", "--reads", "all", "-j", "1", store], set()
    for number, kind in enumerate(calls.run(command).kinds, 1):
        if kind == "read":
            ended = calls.run(command, number, errno.EIO, rest="path")
            tried.add(pathlib.Path(ended.paths[0]).name)
            hold(ended.status in (1, 3) and "is this the store?" not in ended.err, ended.text())
    hold(tried >= set(files) - {"s.x0"}, f"only {sorted(tried)} are read")
    # Eight are left, of which the others are still a check.
    (store / "SHA256SUMS").unlink()
    command, failed = [PROGRAM, "repair", store, "--code", "6-2-2", "--reads", "all", "-j", "1"], set()
    for number, kind in enumerate(calls.run(command).kinds, 1):
        if kind == "read":
            (store / "s.x0").unlink(missing_ok=True)
            ended = calls.run(command, number, errno.EIO, rest="path")
            name = pathlib.Path(ended.paths[0]).name
            if name in files:
                failed.add(name)
                hold(ended.status == 3 and "as many fragments survive as it takes" not in ended.err, ended.text())
    hold(failed == set(files) - {"s.x0"}, f"only {sorted(failed)} are read")


def test_read_that_fails_once(place, choose):
    """A fragment of which a disk fails to give one block, and gives the next, is one that can't be read, and doesn't differ."""
    calls, store, tried = Calls(place, forks=True), place / "failing-once", set()
    files = lay(store, choose, length=300_000)
    (store / "SHA256SUMS").write_text("".join(f"{digest(data)}  {name}\n" for name, data in files.items()))
    command = [PROGRAM, "scrub", "-j", "1", store]
    for number, kind in enumerate(calls.run(command).kinds, 1):
        if kind == "read" and len(tried) < 3:
            ended = calls.run(command, number, errno.EIO)
            name = pathlib.Path(ended.paths[0]).name
            if name in files and name not in tried:
                tried.add(name)
                hold(ended.status == 3 and f"{name}: can't be read: Input/output error\n" in ended.out, f"{name}: {ended.text()}")
                hold("differs from the checksums" not in ended.out, f"{name}: {ended.text()}")
    hold(len(tried) == 3, f"only {sorted(tried)} are read")


def test_disks_of_others(place, choose):
    """A disk's folder that the user may not list, and one that is full of rights but one, cost no other disk its fragments."""
    how = as_user(place)
    store = place / "of-others"
    files = lay_disks(store, choose)
    for path in store.iterdir():
        path.chmod(0o777)
    for name in ("disk1/a", "disk4/b", "disk2/a"):
        (store / name).unlink()
    (store / "disk2").chmod(0)
    said = run("repair", store, *DISKS, status=3, **how)
    hold_disk_lost(store, files, "disk2", said)
    run("scrub", store, *DISKS, status=3, **how)
    (store / "disk2").chmod(0o777)
    (store / "disk4/a").unlink()
    (store / "disk2").chmod(0o555)
    said = run("repair", store, *DISKS, status=3, **how)
    hold((store / "disk4/a").read_bytes() == files["disk4/a"] and "disk2/a: can't be put in its place: Permission denied" in said, said)


def test_lost_and_found(place, choose):
    """The folder lost+found of a disk stops nothing, for root and for a user, and is no stripe."""
    store, folders = place / "disks", place / "folders"
    files = lay_disks(store, choose)
    for number in range(10):
        (store / f"disk{number}/lost+found").mkdir()
        (store / f"disk{number}/lost+found").chmod(0o700)
    (store / "lost+found").mkdir(mode=0o700)
    folders.mkdir()
    for name, data in files.items():
        disk, name = name.split("/")
        (folders / name).mkdir(exist_ok=True)
        (folders / name / list(stripe("6-2-2", 1, choose))[int(disk[4:])]).write_bytes(data)
    (folders / "lost+found").mkdir(mode=0o700)
    (folders / "lost+found/x0").write_bytes(b"found")
    # The same below a folder that is a disk.
    above = place / "above"
    shutil.copytree(folders, above / "in")
    inside, below_it = ["--names", "{stripe}/{place}"], ["--names", "in/{stripe}/{place}"]
    for how in ({}, as_user(place) if is_root() else {}):
        for command in ("scrub", "lost", "repair"):
            for words in ([store, *DISKS], [folders, *inside], [above, *below_it]):
                said = run(command, *words, status=0, **how)
                hold("lost+found" not in said, said)
        for path in (store, *store.glob("disk*"), folders, folders / "a", folders / "b", above, above / "in", *above.glob("in/?")):
            path.chmod(0o777)
    source = place / "lost+found"
    source.write_bytes(b"source")
    run("encode", store, source, *DISKS, "--trust-writers", status=1)


def test_what_is_no_stripe(place, choose):
    """A file alone makes no stripe, and doesn't make a store of the other code: it is said once, and named in rows and by a dry run."""
    store = place / "alone"
    files = lay(store, choose, names=("a", "b"))
    for name in ("notes.x3", "todo.p1"):
        (store / name).write_bytes(b"mine")
    (store / "folder.x0").mkdir()
    (store / "folder.x1").mkdir()
    for command in (["scrub"], ["scrub", "--quiet"], ["scrub", "--json"], ["lost"], ["list"], ["repair"], ["repair", "--quiet"]):
        said = run(*command, store, status=0)
        hold(said.count("2 files are named as fragments, and of no stripe: notes.x3 and others") == 1, said)
    # One beside a stripe, at a place that the code hasn't.
    (store / "b.y4").write_bytes(b"mine")
    said = run("scrub", store, "--code", "6-2-2", status=0)
    hold("3 files are named as fragments, and of no stripe: b.y4 and others" in said, said)
    (store / "b.y4").unlink()
    (store / "a.x0").unlink()
    said = run("repair", store, "--dry-run", status=1)
    hold("notes.x3: is named as a fragment, and of no stripe" in said and "todo.p1: is named" in said, said)
    report = place / "alone.csv"
    run("repair", store, "--report", report, status=0)
    rows = report.read_text()
    hold("notes,x3,alone," in rows and "todo,p1,alone," in rows and "a,x0,rebuilt," in rows, rows)
    hold(there(store) == {**files, "notes.x3": b"mine", "todo.p1": b"mine"}, "the store was changed")
    only = place / "only"
    only.mkdir()
    (only / "notes.x3").write_bytes(b"mine")
    hold("is this the store?" in run("repair", only, status=1), "a file alone was taken for a store")


def digest(data):
    return hashlib.sha256(data).hexdigest()


def test_expected(place, choose):
    """What sums and descriptions name has to be there: a stripe of which everything is lost is said to be lost."""
    for kind in ("sums", "given", "description"):
        store = place / f"expected-{kind}"
        lay(store, choose, names=("a", "b", "gone"))
        words = []
        if kind == "description":
            data = choose.randbytes(50)
            (store / "gone.file").write_text(f"50 {digest(data)} 6-2-2\n")
            (store / "gone.file.copy").write_text(f"50 {digest(data)} 6-2-2\n")
        else:
            sums = "".join(f"{digest(path.read_bytes())}  {path.name}\n" for path in sorted(store.iterdir()))
            path = store / "SHA256SUMS" if kind == "sums" else place / "sums"
            # A name that is no UTF-8 is nobody's.
            path.write_bytes(f"{digest(b'')}  b".encode() + b"\xff\n" + sums.encode())
            words = ["--sums", path] if kind == "given" else []
        run("repair", store, *words, status=0)
        one = (store / "gone.x1").read_bytes()
        for path in store.glob("gone.[xyp]*"):
            path.unlink()
        for command in ("scrub", "repair"):
            hold("gone: no fragment can be read" in run(command, store, *words, status=1), f"{kind}: {command} passed over a lost stripe")
        if kind != "given":
            hold("3 stripes; 10 fragments lost" in run("lost", store, status=1), f"{kind}: lost passed over a lost stripe")
        if kind != "description":
            # With one fragment left it is a stripe too, and no file that is of none.
            (store / "gone.x1").write_bytes(one)
            said = run("repair", store, *words, status=1)
            hold(said.count("gone.") == 9 and "not possible: 9" in said, f"{kind}: repair passed over what a stripe has lost: {said}")


def encoded_disks(place, choose, name="note", code="6-2-2"):
    """A store with a folder for each disk, into which a file is encoded: the store, the file's bytes and its description."""
    store, source = place / "encoded", place / name
    store.mkdir()
    for number in range(10):
        (store / f"disk{number}").mkdir()
    data = choose.randbytes(1_001)
    source.write_bytes(data)
    run("encode", store, source, *DISKS, status=0)
    return store, data, f"{len(data)} {digest(data)} {code}\n".encode()


def test_descriptions(place, choose):
    """A file's description is on each disk, is tested and made again, and the file can be read as long as one is there."""
    store, data, line = encoded_disks(place, choose)
    names = ["--names", "disk{shard}/{stripe}"]
    whole = below(store)
    copies = [f"disk{number}/note.file" for number in range(10)]
    hold({name for name in whole if name.endswith(".file")} == set(copies), f"{sorted(whole)}")
    hold(all(whole[name] == line for name in copies), "a description isn't the file's")
    for name in copies:
        (store / name).chmod(0o640)
        if is_root():
            os.chown(store / name, OTHER, -1)
    for command in ("scrub", "lost", "repair"):
        run(command, store, *DISKS, status=0)
    # Digests may lack that of the first fragment: those of the descriptions make no stripe of their own.
    sums = (store / "SHA256SUMS").read_text()
    (store / "SHA256SUMS").write_text("".join(line for line in sums.splitlines(True) if not line.endswith("disk0/note\n")))
    hold("scrubbed 1 stripe: 0 damaged, 0 lost" in run("scrub", store, *DISKS, status=0), "descriptions are taken for a stripe")
    (store / "SHA256SUMS").write_text(sums)
    for lost in (["disk3"], [f"disk{number}" for number in (0, 4, 9)]):
        for disk in lost:
            (store / disk / "note").unlink()
            (store / f"{disk}/note.file").unlink()
        run("read", store, "note", *names, status=0)
        for command in ("scrub", "lost"):
            hold(f"{lost[0]}/note.file: is lost" in run(command, store, *DISKS, status=1), f"{command} passed over a lost description")
        said = run("repair", store, *DISKS, "--dry-run", status=1)
        hold("can be made" in said, said)
        said = run("repair", store, *DISKS, status=0)
        hold(f"; {len(lost)} description{'s' * (len(lost) > 1)} made" in said, said)
        hold(below(store) == whole, f"the store isn't what it was: {said}")
    about = {(it.st_mode & 0o7777, it.st_uid) for it in (os.stat(store / name) for name in copies)}
    hold(about == {(0o640, OTHER if is_root() else os.geteuid())}, f"a copy that was made has other rights than the others: {about}")
    # With --to it is made there, and the store stays as it is.
    to = place / "encoded-to"
    (to / "disk3").mkdir(parents=True)
    for name in ("disk3/note", copies[3]):
        (store / name).unlink()
    before = below(store)
    run("repair", store, *DISKS, "--to", to, status=0)
    hold(below(store) == before, "with --to the store was changed")
    hold(below(to) == {name: whole[name] for name in ("disk3/note", copies[3])}, f"{sorted(below(to))} are there")
    for name in copies[1:]:
        (store / name).unlink(missing_ok=True)
    for disk in ("disk0", "disk5"):
        (store / disk / "note").unlink()
    ended = subprocess.run([PROGRAM, "read", store, "note", *names], capture_output=True)
    hold(ended.returncode == 0 and ended.stdout == data, ended.stderr.decode())
    run("repair", store, *DISKS, status=0)
    hold(below(store) == whole, "the store isn't what it was")


def test_descriptions_that_differ(place, choose):
    """A copy that differs is named and never believed over the others, unless the sums say so; it is replaced only if that is asked for."""
    store, data, line = encoded_disks(place, choose)
    whole = below(store)
    other = line.replace(b"1001", b"2002")
    report = place / "report.csv"
    for wrong in (other, b"", b"no description"):
        (store / "disk4/note.file").write_bytes(wrong)
        said = run("scrub", store, *DISKS, status=1)
        hold("disk4/note.file: " in said, said)
        run("repair", store, *DISKS, "--report", report, status=1)
        hold("disk4/note.file: " in report.read_text(), report.read_text())
        hold((store / "disk4/note.file").read_bytes() == wrong, "a copy was replaced unasked")
        said = run("repair", store, *DISKS, "--dry-run", "--replace-damaged", status=1)
        hold(", 0 can't; " in said and said.endswith("; 1 description can be made\n") and "disk4/" not in said, said)
        ended = subprocess.run([PROGRAM, "read", store, "note", *DISKS[2:]], capture_output=True)
        hold(ended.returncode == 0 and ended.stdout == data, ended.stderr.decode())
        # What most copies say comes first, and nothing is said of fragments that another one would have.
        hold(wrong != other or not ended.stderr, ended.stderr.decode())
        run("repair", store, *DISKS, "--replace-damaged", status=0)
        hold((store / "disk4/note.file.damaged").read_bytes() == wrong, "the copy that differed isn't kept")
        (store / "disk4/note.file.damaged").unlink()
        hold(below(store) == whole, "the copy wasn't replaced")
        # A run that was killed after it had given the copy its second name: the same command goes on.
        (store / "disk4/note.file").write_bytes(wrong)
        os.link(store / "disk4/note.file", store / "disk4/note.file.damaged")
        run("repair", store, *DISKS, "--replace-damaged", status=0)
        hold((store / "disk4/note.file.damaged").read_bytes() == wrong, "the copy that differed isn't kept")
        hold((store / "disk4/note.file").read_bytes() == line, "the copy wasn't replaced")
        # Another one is kept there: both stay.
        (store / "disk4/note.file").write_bytes(other + b"x")
        said = run("repair", store, *DISKS, "--replace-damaged", status=1)
        hold("disk4/note.file: has come meanwhile, or one that was replaced is kept beside it" in said, said)
        hold((store / "disk4/note.file").read_bytes() == other + b"x", "the copy was replaced and isn't kept")
        hold((store / "disk4/note.file.damaged").read_bytes() == wrong, "the copy that was kept is gone")
        (store / "disk4/note.file.damaged").unlink()
        (store / "disk4/note.file").write_bytes(line)
        hold(below(store) == whole, "something else has changed")
    # What is longer than any description, or no regular file, is somebody else's and stays.
    copy, before = store / "disk4/note.file", {"long": bytes(5_000), "link": None, "folder": None, "fifo": None}
    for kind, bytes_of_it in before.items():
        copy.unlink()
        if kind == "long":
            copy.write_bytes(bytes_of_it)
        elif kind == "link":
            copy.symlink_to("../disk5/note.file")
        elif kind == "folder":
            copy.mkdir()
        else:
            os.mkfifo(copy)
        is_there = copy.lstat()
        said = run("repair", store, *DISKS, "--replace-damaged", status=1)
        hold("disk4/note.file: " in said and not copy.with_name("note.file.damaged").exists(), f"{kind}: {said}")
        stays = copy.lstat()
        hold((stays.st_ino, stays.st_mode, stays.st_size) == (is_there.st_ino, is_there.st_mode, is_there.st_size), f"{kind} was replaced")
        copy.rmdir() if kind == "folder" else copy.unlink()
        copy.write_bytes(line)
    hold(below(store) == whole, "something else has changed")
    # Most copies are wrong: the sums know the right one, and nothing is believed without them.
    for number in range(6):
        (store / f"disk{number}/note.file").write_bytes(other)
    said = run("scrub", store, *DISKS, status=1)
    hold("disk0/note.file: differs from the checksums" in said and "disk7/" not in said, said)
    run("repair", store, *DISKS, "--replace-damaged", status=0)
    for number in range(6):
        (store / f"disk{number}/note.file.damaged").unlink()
    hold(below(store) == whole, "the sums didn't decide")
    (store / "SHA256SUMS").unlink()
    for number in range(5):
        (store / f"disk{number}/note.file").write_bytes(other)
    (store / "disk9/note").unlink()
    said = run("repair", store, *DISKS, "--replace-damaged", status=1)
    hold("note: its descriptions differ, and nothing says which is right" in said, said)
    hold(sum(path.read_bytes() == other for path in store.glob("disk*/note.file")) == 5, "a description was replaced by a guess")
    ended = subprocess.run([PROGRAM, "read", store, "note", *DISKS[2:]], capture_output=True)
    hold(ended.returncode == 0 and ended.stdout == data, ended.stderr.decode())


def test_descriptions_through_a_link(place, choose):
    """No copy of a description is made in a folder that a link leads to, unless links are followed."""
    store, _, line = encoded_disks(place, choose)
    outside = place / "outside-descriptions"
    (store / "disk3").rename(outside)
    (store / "disk3").symlink_to(outside)
    (outside / "note.file").unlink()
    before = below(outside)
    said = run("repair", store, *DISKS, status=3)
    hold("disk3/note.file: " in said and below(outside) == before, f"something was made through a link: {said}")
    run("repair", store, *DISKS, "--follow-links", status=0)
    hold(below(outside) == {**before, "note.file": line}, "the description wasn't made")


def test_descriptions_that_differ_made_elsewhere(place, choose):
    """With --to a copy that differs is made in that folder, and what is in the store stays."""
    store, _, line = encoded_disks(place, choose)
    to, wrong = place / "to", line.replace(b"1001", b"1002")
    (to / "disk4").mkdir(parents=True)
    (store / "disk4/note.file").write_bytes(wrong)
    before = below(store)
    said = run("repair", store, *DISKS, "--to", to, "--replace-damaged", status=0)
    hold(below(to) == {"disk4/note.file": line}, f"{below(to)}: {said}")
    hold(below(store) == before, f"with --to the store was changed: {said}")


def test_descriptions_that_cannot_be_replaced(place, choose):
    """What the system refuses while a description is replaced is said in its words, and nothing has changed."""
    how = as_user(place)
    store, _, line = encoded_disks(place, choose)
    for path in [store, *store.rglob("*")]:
        os.chown(path, USER, USER)
    copy = store / "disk4/note.file"
    copy.write_bytes(line.replace(b"1001", b"1002"))
    before = below(store)
    # Nothing can be made there; and something can be made, but what is somebody else's can't be replaced.
    for mode, error in ((0o555, "Permission denied"), (0o1777, "Operation not permitted")):
        os.chown(copy.parent, 0, 0)
        os.chown(copy, OTHER, OTHER)
        copy.chmod(0o666)
        copy.parent.chmod(mode)
        said = run("repair", store, *DISKS, "--replace-damaged", status=3, **how)
        hold("disk4/note.file: " in said and error in said and copy.read_bytes() == before["disk4/note.file"], said)
        for path in copy.parent.glob("*.damaged"):
            path.unlink()
        hold(below(store) == before, sorted(set(below(store)) ^ set(before)))
    os.chown(copy.parent, USER, USER)
    run("repair", store, *DISKS, "--replace-damaged", status=0, **how)
    hold((store / "disk4/note.file").read_bytes() == line, "the description wasn't replaced")


def test_descriptions_of_before(place, choose):
    """A store whose only description is in its own folder is read, and a repair makes the copies."""
    store, data, line = encoded_disks(place, choose)
    whole = below(store)
    for path in store.glob("disk*/note.file"):
        path.unlink()
    sums = {name: data for name, data in whole.items() if name.endswith("/note")} | {"note.file": line}
    (store / "SHA256SUMS").write_text("".join(f"{digest(data)}  {name}\n" for name, data in sums.items()))
    hold("disk0/note.file: is lost" in run("scrub", store, *DISKS, status=1), "a description that the sums name is passed over")
    (store / "note.file").write_bytes(line)
    (store / "SHA256SUMS").unlink()
    ended = subprocess.run([PROGRAM, "read", store, "note", *DISKS[2:]], capture_output=True)
    hold(ended.returncode == 0 and ended.stdout == data, ended.stderr.decode())
    # Another file isn't encoded beside it, and replaces it if that is asked for.
    source, again = place / "note", place / "again"
    shutil.copytree(store, again)
    source.write_bytes(choose.randbytes(2_001))
    said = run("encode", again, source, *DISKS, status=1)
    hold("note.file: is there already, with other bytes" in said, said)
    run("encode", "--replace", again, source, *DISKS, status=0)
    ended = subprocess.run([PROGRAM, "read", again, "note", *DISKS[2:]], capture_output=True)
    hold(ended.stdout == source.read_bytes() and "note.file" not in below(again), ended.stderr.decode())
    run("repair", store, *DISKS, status=0)
    del whole["SHA256SUMS"]
    hold(below(store) == {**whole, "note.file": line}, "the copies weren't made")
    run("scrub", store, *DISKS, status=0)
    # Replacing the file leaves no description of the old one.
    source.write_bytes(choose.randbytes(2_002))
    for words in (["--replace"], []):
        run("encode", *words, store, source, *DISKS, status=0)
        hold("note.file" not in below(store), "the old description stays")
        run("scrub", store, *DISKS, status=0)
    ended = subprocess.run([PROGRAM, "read", store, "note", *DISKS[2:]], capture_output=True)
    hold(ended.returncode == 0 and ended.stdout == source.read_bytes(), ended.stderr.decode())
    # Where it can't be read nothing goes on, since it would stay beside another file, or alone.
    (store / "note.file").write_bytes(line)
    source.write_bytes(choose.randbytes(2_003))
    calls, again = Calls(place, forks=True), place / "once-more"
    for words in (["encode", "--replace", *DISKS, again, source], ["remove", *DISKS, again, "note"]):
        shutil.copytree(store, again)
        for number, kind in enumerate(calls.run([PROGRAM, *words]).kinds, 1):
            if kind == "open":
                shutil.rmtree(again)
                shutil.copytree(store, again)
                ended = calls.run([PROGRAM, *words], number, errno.EIO, rest="path")
                if ended.paths == (str(again / "note.file"),):
                    break
        hold(ended.paths == (str(again / "note.file"),) and ended.status == 3, f"{words[0]}: {ended.paths}: {ended.text()}")
        wanted = {name: data for name, data in below(store).items() if name != "SHA256SUMS"}
        hold("note.file: Input/output error" in ended.err and below(again).items() >= wanted.items(), f"{words[0]}: {ended.text()}")
        shutil.rmtree(again)
    # Neither does removing it leave one.
    run("remove", store, "note", *DISKS, status=0)
    hold(set(below(store)) <= {"SHA256SUMS"}, f"{sorted(below(store))} stay")


def test_files_named_like_descriptions(place, choose):
    """What is named like a description in the store's own folder and says nothing of a file stays there."""
    store, _, line = encoded_disks(place, choose)
    source, other = place / "note", store / "note.file"
    lines = {"text": b"minutes of a meeting\n", "empty": b"", "long": b"7" * 100_000, "two lines": line + line}
    for kind, text in lines.items():
        other.write_bytes(text)
        source.write_bytes(choose.randbytes(2_003))
        run("encode", "--replace", store, source, *DISKS, status=0)
        hold(other.read_bytes() == text, f"{kind}: replacing the file changed it")
    other.unlink()
    # Also a link to a description, if links are followed.
    other.symlink_to("disk0/note.file")
    source.write_bytes(choose.randbytes(2_005))
    run("encode", "--replace", "--follow-links", store, source, *DISKS, status=0)
    hold(os.readlink(other) == "disk0/note.file", "replacing the file changed a link")
    other.unlink()
    for make in (other.mkdir, lambda: other.symlink_to(source), lambda: os.mkfifo(other), lambda: other.write_bytes(b"minutes\n")):
        make()
        before = os.lstat(other)
        source.write_bytes(choose.randbytes(2_004))
        run("encode", "--replace", store, source, *DISKS, status=0)
        run("remove", store, "note", *DISKS, status=0)
        hold(os.lstat(other) == before, "removing the file changed it")
        hold(not list(store.glob("disk*/note*")), "fragments stay")
        other.rmdir() if other.is_dir() and not other.is_symlink() else other.unlink()
        run("encode", store, source, *DISKS, status=0)


def test_long_file_named_like_a_description(place, choose):
    """A file that is named like a description and is longer than memory isn't read, and another copy is."""
    store, data, _ = encoded_disks(place, choose)
    # The rest is a hole, which takes no room on the disk.
    os.truncate(store / "disk0/note.file", 1 << 33)

    def limited():
        resource.setrlimit(resource.RLIMIT_AS, (1 << 32, 1 << 32))

    ended = subprocess.run([PROGRAM, "read", store, "note", *DISKS[2:]], capture_output=True, preexec_fn=limited)
    said = f"rebuild-store: {store}/disk0/note.file: isn't a line with a length, a digest and a code\n"
    hold((ended.returncode, ended.stdout, ended.stderr.decode()) == (0, data, said), f"{ended.returncode}: {ended.stderr.decode()}")


def test_stripe_named_like_descriptions(place, choose):
    """A stripe whose fragments have names of another one's descriptions is a stripe also if one of them is lost or cut short."""
    store, data, _ = encoded_disks(place, choose)
    fragments = list(stripe("6-2-2", 120, choose).values())
    for number, fragment in enumerate(fragments):
        (store / f"disk{number}/other.file").write_bytes(fragment)
    (store / "disk0/other").write_bytes(b"of no stripe")
    for number, fragment in enumerate(stripe("6-2-2", 500, choose).values()):
        (store / f"disk{number}/paper").write_bytes(fragment)
        (store / f"disk{number}/paper.file").write_bytes(fragments[number])
    (store / "disk0/other").unlink()
    (store / "disk3/other.file").unlink()
    (store / "disk8/paper.file").write_bytes(fragments[8][:50])
    said = run("lost", store, *DISKS, status=1)
    hold("4 stripes; 2 fragments lost" in said, said)
    said = run("repair", store, *DISKS, "--replace-damaged", status=0)
    hold((store / "disk3/other.file").read_bytes() == fragments[3], f"a stripe was taken for descriptions: {said}")
    hold((store / "disk8/paper.file").read_bytes() == fragments[8], f"a stripe was taken for descriptions: {said}")


def test_descriptions_that_cannot_be_read(place, choose):
    """A description that the system refuses to read is a failed device for each command, and is said once; where none can be read the file
    can't be either."""
    store, data, _ = encoded_disks(place, choose)
    copies = [store / f"disk{number}/note.file" for number in range(10)]
    for many in (1, 10):
        for copy in copies[:many]:
            copy.unlink()
            copy.symlink_to("note.file")
        for command in ("scrub", "lost", "read"):
            words = ["note", *DISKS[2:]] if command == "read" else DISKS
            ended = subprocess.run([PROGRAM, command, store, *words, "--follow-links"], capture_output=True)
            said = ended.stderr.decode() + ("" if command == "read" else ended.stdout.decode())
            is_read = command == "read" and many == 1
            hold(ended.returncode == (0 if is_read else 3), f"{command}: status {ended.returncode}: {said}")
            hold(command != "read" or ended.stdout == (data if is_read else b""), "other bytes are read")
            for copy in copies[:many]:
                hold(said.count(f"{copy.parent.name}/note.file: ") == 1, said)


def test_descriptions_in_one_folder(place, choose):
    """Where all fragments are in one folder there are two copies, each of which is made again from the other."""
    for pattern in ("{stripe}.{place}", "{stripe}/{place}"):
        store, source = place / f"one-{pattern[8:9] == '/'}", place / "note"
        store.mkdir()
        if "/" in pattern:
            (store / "note").mkdir()
        source.write_bytes(b"some bytes")
        names = ["--names", pattern]
        run("encode", store, source, *names, status=0)
        whole = below(store)
        inside = "note/" * ("/" in pattern)
        copies = [f"{inside}note.file", f"{inside}note.file.copy"]
        hold(all(name in whole for name in copies), f"{sorted(whole)}")
        for name in copies:
            (store / name).unlink()
            run("scrub", store, *names, status=1)
            hold("some bytes" in run("read", store, "note", *names, status=0), "it can't be read")
            run("repair", store, *names, status=0)
            hold(below(store) == whole, f"{name} didn't come back")
        for name in copies:
            (store / name).unlink()
        hold(f"{copies[0]}: is lost" in run("scrub", store, *names, status=1), "lost descriptions that the sums name are passed over")
        # Where no copy says anything, and no sums name one, each is named.
        (store / "SHA256SUMS").unlink()
        for name in copies:
            (store / name).write_bytes(b"odd")
        said = run("scrub", store, *names, status=1)
        hold(all(f"{name}: isn't a line with" in said for name in copies), f"copies that say nothing are passed over: {said}")


def test_short_stripe_named_like_a_description(place, choose):
    """A stripe that has the name of another one's descriptions, and fragments as short as these, is one where they describe nothing."""
    for name, names in (("shards", DISKS), ("places", ["--code", "6-2-2", "--names", "{place}/{stripe}"])):
        store = place / f"short-{name}"
        files = lay_disks(store, choose, ("data.file",), length=40)
        if name == "places":
            for number, one in enumerate(("x0", "x1", "x2", "y0", "y1", "y2", "px", "py", "p0", "p1")):
                (store / f"disk{number}").rename(store / one)
            files = below(store)
        lost = next(iter(files))
        (store / lost).unlink()
        run("repair", store, *names, status=0)
        hold(below(store) == files, f"{lost}: a stripe of such a name wasn't repaired")


def test_names_like_descriptions(place, choose):
    """A stripe whose name ends as a description's is one where it holds no description, and none of its fragments is replaced."""
    store = place / "like-descriptions"
    files = lay_disks(store, choose, ("data", "data.file", "more.file"), length=200)
    (store / "disk3/data.file").unlink()
    (store / "disk2/more.file").unlink()
    run("repair", store, *DISKS, status=0)
    hold(below(store) == files, "a stripe of such a name wasn't repaired")
    # Digests of its fragments are those of no description of a stripe that isn't there.
    (store / "SHA256SUMS").write_text("".join(f"{digest(data)}  {name}\n" for name, data in files.items() if "more" in name))
    said = run("scrub", store, *DISKS, status=0)
    hold("scrubbed 3 stripes: 0 damaged, 0 lost or contradictory" in said, said)
    source = place / "x.file"
    source.write_bytes(b"source")
    hold("can't have this name" in run("encode", store, source, *DISKS, status=1), "a file was encoded under names of descriptions")


def test_names_like_descriptions_in_parts(place, choose):
    """A stripe whose name ends as a description's is repaired with its part, whichever the stripe of such a description would be of."""
    store = place / "in-parts"
    files = lay_disks(store, choose, [f"s{number}.file" for number in range(8)], length=200)
    for path in store.glob("disk3/*"):
        path.unlink()
    for part in ("1/2", "2/2"):
        run("repair", store, *DISKS, "--part", part, status=0)
    hold(below(store) == files, f"not all are repaired: {sorted(files.keys() - below(store).keys())}")


def test_stripe_that_changes_meanwhile(place, choose):
    """Of a stripe that is rewritten while it is read nothing is put in its place, and a scrub says so too."""
    store = place / "rewritten"
    before, after = (stripe("6-2-2", 200_000, choose) for _ in range(2))
    store.mkdir()
    for name, data in before.items():
        (store / f"s.{name}").write_bytes(data)
    calls = Calls(place, forks=True)
    code = ["--code", "6-2-2"]
    for command in (["repair", store, *code], ["repair", store, *code, "--reads", "all"], ["scrub", store],
                    ["repair", store, *code, "--reads", "few"]):
        if command[0] == "repair":
            (store / "s.x1").unlink(missing_ok=True)
        command = [PROGRAM, *command]
        for path in store.iterdir():
            path.write_bytes(before[path.name[2:]])
        reads = [number for number, kind in enumerate(calls.run(command).kinds, 1) if kind == "read"]
        if command[1] == "repair":
            (store / "s.x1").unlink()
        for number in (reads[len(reads) // 3], reads[len(reads) // 2], reads[-1]):
            for path in store.iterdir():
                path.write_bytes(before[path.name[2:]])
            with waiting(calls, place, command, number) as go_on:
                for path in store.glob("s.*"):
                    about = path.stat()
                    with open(path, "r+b") as fragment:
                        fragment.write(after[path.name[2:]])
                    # Also where the files get the times that they had: the system notes when that was.
                    if number == reads[-1]:
                        os.utime(path, ns=(about.st_atime_ns, about.st_mtime_ns))
                status, said = go_on()
            if "few" in command:
                # All are read instead, which by then are those of the new stripe.
                hold(status == 0 and (store / "s.x1").read_bytes() == after["x1"], f"status {status}: {said}")
                (store / "s.x1").unlink()
                continue
            hold(status == 1 and "changed meanwhile" in said, f"status {status}: {said}")
            hold(command[1] == "scrub" or not (store / "s.x1").exists(), "a fragment was made of a stripe that changed")
            left = {path.name for path in store.iterdir()} - {f"s.{name}" for name in before}
            hold(not left, f"left {left}")
    run("repair", store, status=0)
    hold((store / "s.x1").read_bytes() == after["x1"], "what was rebuilt isn't of the new stripe")


def test_counters_of_a_run_without_memory(place, choose):
    """The counters of a run that is refused memory at some moment say the status with which it ends, if they can be written."""
    store, counters, ends = place / "starved", place / "starved-counters", set()
    lay(store, choose)
    library = refusals.Library(place)
    words = [str(it) for it in (PROGRAM, "scrub", "--workers", 1, "--progress", counters, store)]
    for number in range(1, library.run(words).allocations + 1, 5):
        counters.unlink(missing_ok=True)
        ran = library.run(words, refusal=refusals.Refusal(allocation=number))
        if counters.exists():
            said = re.findall(r"^rebuild_store_status\{.*\} (\d)$", counters.read_text(), re.M)
            hold(said == [str(ran.status)], f"allocation {number}: the counters say {said}: {ran.text()}")
            ends.add(ran.status)
    hold(4 in ends, f"runs ended with {ends}")


def test_report_of_a_run_without_memory(place, choose):
    """A report that is written by a run that is refused memory at its end has each row, or isn't there."""
    store, report = place / "starved-rows", place / "starved-report"
    lay(store, choose)
    (store / "s.x1").write_bytes(b"short")
    library = refusals.Library(place)
    words = [str(it) for it in (PROGRAM, "scrub", "--workers", 1, "--report", report, store)]
    many = library.run(words).allocations
    whole, ends = report.read_bytes(), set()
    hold(b"\ns,x1,left," in whole, f"the report is {whole}")
    for number in range(max(many - 80, 1), many + 1):
        report.unlink(missing_ok=True)
        ran = library.run(words, refusal=refusals.Refusal(allocation=number))
        hold(not report.exists() or report.read_bytes() == whole, f"allocation {number}: the report lacks rows: {ran.text()}")
        hold(ran.status == 4 or report.exists(), f"allocation {number}: no report: {ran.text()}")
        ends.add(ran.status)
    hold(4 in ends, f"runs ended with {ends}")


def test_rows_that_nobody_reads_yet(place, choose):
    """While standard output takes no more one thread waits for it, the others go on, and no row is lost."""
    store, names = place / "unread", [f"a{number:03}" for number in range(120)]
    files = lay(store, choose, names=names, length=4)
    for name in names:
        (store / f"{name}.x1").unlink()
    reader, writer = os.pipe()
    # The rows have more bytes than the pipe takes.
    fcntl.fcntl(writer, SET_PIPE_SIZE, 4_096)
    process = subprocess.Popen([PROGRAM, "repair", "--json", "--workers", "3", store], stdout=writer, stderr=subprocess.DEVNULL)
    os.close(writer)
    until, made = time.monotonic() + SECONDS, 0
    while made < len(names) and time.monotonic() < until:
        time.sleep(0.05)
        made = len([*store.glob("*.x1")])
    time.sleep(0.2)
    with open(reader) as output:
        rows = sorted((row["stripe"], row["outcome"]) for row in map(json.loads, output))
    hold(rows == [(name, "rebuilt") for name in names], f"{len(rows)} rows of {len(names)}")
    hold(process.wait(timeout=SECONDS) == 0 and there(store) == files, "the store isn't what it was")
    hold(made == len(names), f"{made} fragments of {len(names)} were made while nobody read")


def test_order_by_what_is_in_the_way(place, choose):
    """What is in the way of a fragment is lost, too, where stripes that have lost most come first: folders, and links to nothing."""
    store = place / "in-the-way"
    lay(store, choose, names=("a", "b", "c"))
    for name in ("a.x0", "b.x0", "b.x1", "c.x0", "c.x1", "c.y0"):
        (store / name).unlink()
    (store / "b.x0").mkdir()
    for name in ("c.x0", "c.x1", "c.y0"):
        (store / name).symlink_to("nowhere")
    said = run("repair", store, "--json", "--workers", 1, "--code", "6-2-2", status=1)
    found = [json.loads(line)["stripe"] for line in said.splitlines() if line.startswith("{")]
    hold(found == ["c", "c", "c", "b", "b", "a"], f"stripes come in this order: {found}")


def test_fragment_that_comes_meanwhile(place, choose):
    """What another program puts under a fragment's name stays, also if it has as many bytes as what was rebuilt."""
    store = place / "came"
    files = lay(store, choose, length=1)
    lost = next(name for name in files if files[name] != b"m")
    (store / lost).unlink()
    calls = Calls(place, forks=True)
    command = [PROGRAM, "repair", store, "--workers", "1"]
    link = calls.run(command).kinds.index("link") + 1
    (store / lost).unlink()
    ran = calls.run(command, link, "meanwhile")
    hold(ran.status == 1 and "has come meanwhile" in ran.err and (store / lost).read_bytes() == b"m", ran.text())


def test_names_that_others_give_meanwhile(place, choose):
    """A link that comes under a fragment's name before this is opened isn't followed, and a new file that is taken away before it is locked
    is made anew."""
    store, other = place / "given", place / "given-other"
    files = lay(store, choose)
    other.write_bytes(bytes(600))
    calls = Calls(place, forks=True)
    command = [PROGRAM, "scrub", store, "--workers", "1"]
    opens = [number for number, kind in enumerate(calls.run(command).kinds, 1) if kind == "open"]
    number = next(number for number in opens if calls.run(command, number, errno.EIO).paths[0].endswith("s.x1"))
    with waiting(calls, place, command, number) as go_on:
        (store / "s.x1").unlink()
        (store / "s.x1").symlink_to(other)
        status, said = go_on()
        hold(status == 3 and "another file came under the name" in said, f"status {status}: {said}")
    (store / "s.x1").unlink()
    command = [PROGRAM, "repair", store, "--workers", "1"]
    kinds = calls.run(command).kinds
    (store / "s.x1").unlink()
    with waiting(calls, place, command, len(kinds) - kinds[::-1].index("lock")) as go_on:
        for path in store.glob(".rebuild-store-*"):
            path.unlink()
        status, said = go_on()
        hold(status == 0 and there(store) == files, f"status {status}: {said}")
    # The digests are asked for what they are twice, too.
    (store / "SHA256SUMS").write_text(f"{digest(files['s.x0'])}  s.x0\n")
    other.write_text(f"{digest(b'other')}  s.x0\n")
    command = [PROGRAM, "scrub", store, "--workers", "1"]
    opens = [number for number, kind in enumerate(calls.run(command).kinds, 1) if kind == "open"]
    number = next(number for number in opens if calls.run(command, number, errno.EIO).paths[0].endswith("/SHA256SUMS"))
    with waiting(calls, place, command, number) as go_on:
        (store / "SHA256SUMS").unlink()
        (store / "SHA256SUMS").symlink_to(other)
        status, said = go_on()
        hold(status == 3 and "SHA256SUMS: another file came under the name" in said, f"status {status}: {said}")


def test_stripe_rewritten_with_its_times(place, choose):
    """A stripe that is rewritten while it is read has changed also if each file gets the time back at which it was written."""
    calls, store = Calls(place, forks=True), place / "same-times"
    lay(store, choose)
    after = {f"s.{name}": data for name, data in stripe("6-2-2", 600, choose).items()}
    command = [PROGRAM, "scrub", store, "--workers", "1"]
    last = max(number for number, kind in enumerate(calls.run(command).kinds, 1) if kind == "read")
    with waiting(calls, place, command, last) as go_on:
        for name, data in after.items():
            about = (store / name).stat()
            (store / name).write_bytes(data)
            os.utime(store / name, ns=(about.st_atime_ns, about.st_mtime_ns))
        status, said = go_on()
        hold(status == 1 and "changed meanwhile" in said, f"status {status}: {said}")


def test_source_that_changes_meanwhile(place, choose):
    """A file that is rewritten while it is encoded is refused, or encoded as it is then, at whichever of its openings that is; and so is
    one in whose place another of its length and its time comes, whenever it is looked at."""
    calls, store, source, other = Calls(place, forks=True), place / "rewriting", place / "rewritten-source", place / "another-source"
    command, numbers = [PROGRAM, "encode", store, source], {"open": [], "look": []}
    source.write_bytes(choose.randbytes(6_000))
    for number, kind in enumerate(calls.run(command).kinds, 1):
        if kind in numbers:
            shutil.rmtree(store, ignore_errors=True)
            numbers[kind] += [number] * (str(source) in calls.run(command, number, errno.EIO).paths)
    refused = set()
    for kind, number in ((kind, number) for kind in numbers for number in numbers[kind]):
        shutil.rmtree(store, ignore_errors=True)
        with waiting(calls, place, command, number) as go_on:
            # What works beside the call that waits comes to its end.
            time.sleep(0.2)
            before, after = source.read_bytes(), choose.randbytes(6_000)
            if kind == "open":
                source.write_bytes(after)
            else:
                about = source.stat()
                other.write_bytes(after)
                os.utime(other, ns=(about.st_atime_ns, about.st_mtime_ns))
                other.rename(source)
            status, said = go_on()
        if status != 0:
            is_said = any(words in said for words in ("changed while it was read", "another file came under the name"))
            hold(is_said and status in (1, 3), f"call {number}, {kind}: status {status}: {said}")
            refused.add(kind)
            continue
        ended = subprocess.run([PROGRAM, "read", store, source.name], capture_output=True)
        # Its length is looked at once more at the end.
        is_one = ended.stdout == after or kind == "look" and ended.stdout == before
        hold(is_one, f"call {number}, {kind}: another file was encoded: {ended.stderr.decode()}")
    hold(refused == set(numbers), f"no changed file was refused, at the calls {numbers}")


def test_source_that_gets_its_time_back(place, choose):
    """A file that is rewritten while it is encoded, and gets its time back, is refused, or encoded as it is then."""
    calls, store, source, refused = Calls(place, forks=True), place / "back", place / "back-source", 0
    command = [PROGRAM, "encode", store, source]
    source.write_bytes(choose.randbytes(6_000))
    for number, kind in enumerate(calls.run(command).kinds, 1):
        shutil.rmtree(store, ignore_errors=True)
        if kind == "open" and calls.run(command, number, errno.EIO).paths == (str(source),):
            shutil.rmtree(store, ignore_errors=True)
            about, after = source.stat(), choose.randbytes(6_000)
            with waiting(calls, place, command, number) as go_on:
                # What works beside the call that waits comes to its end.
                time.sleep(0.2)
                source.write_bytes(after)
                os.utime(source, ns=(about.st_atime_ns, about.st_mtime_ns))
                status, said = go_on()
            is_refused = status == 1 and f"{source}: changed while it was read\n" in said
            ended = subprocess.run([PROGRAM, "read", store, source.name], capture_output=True)
            hold(is_refused or status == 0 and ended.stdout == after, f"call {number}: status {status}: {said}{ended.stderr.decode()}")
            refused += is_refused
    hold(refused > 0, "it is never refused")


def test_source_that_changes_while_it_is_digested(place, choose):
    """A file that was encoded before, and is rewritten while its digest is read, is refused as changed."""
    calls, store, source, data = Calls(place, forks=True), place / "digested", place / "digested-source", choose.randbytes(6_000)
    command, tried = [PROGRAM, "encode", store, source], 0
    source.write_bytes(data)
    run("encode", store, source, status=0)
    for number, kind in enumerate(calls.run(command).kinds, 1):
        if kind == "read" and calls.run(command, number, errno.EIO).paths == (str(source),):
            with waiting(calls, place, command, number) as go_on:
                source.write_bytes(choose.randbytes(6_000))
                status, said = go_on()
            hold(status == 1 and f"{source}: changed while it was read\n" in said, f"call {number}: status {status}: {said}")
            source.write_bytes(data)
            tried += 1
    hold(tried > 0, "it isn't read")


def test_source_that_gets_another_length(place, choose):
    """A file that gets another length before it is opened is encoded as it then is, or refused as changed."""
    calls, store, source, refused = Calls(place, forks=True), place / "longer", place / "longer-source", 0
    command = [PROGRAM, "encode", store, source]
    source.write_bytes(choose.randbytes(6_000))
    for number, kind in enumerate(calls.run(command).kinds, 1):
        shutil.rmtree(store, ignore_errors=True)
        if kind in ("look", "open") and calls.run(command, number, errno.EIO).paths == (str(source),):
            for length in (5_000, 7_000):
                shutil.rmtree(store, ignore_errors=True)
                with waiting(calls, place, command, number) as go_on:
                    source.write_bytes(choose.randbytes(length))
                    status, said = go_on()
                is_refused = status == 1 and f"{source}: changed while it was read\n" in said
                hold(status == 0 or is_refused, f"call {number}, {length} bytes: status {status}: {said}")
                source.write_bytes(choose.randbytes(6_000))
                refused += is_refused
    hold(refused > 0, "it is never refused")


def test_files_that_stay_of_a_source_that_changes(place, choose):
    """Where what was made of a file that changed while it was encoded can't be taken away, each file is said, and a device has failed."""
    calls, store, source, tried = Calls(place, forks=True), place / "staying", place / "staying-source", 0
    command = [PROGRAM, "encode", store, source]
    source.write_bytes(choose.randbytes(1_200_000))
    kinds = calls.run(command).kinds
    for number in range(kinds.index("create") + 1, kinds.index("link") + 1):
        if kinds[number - 1] == "read":
            shutil.rmtree(store, ignore_errors=True)
            with waiting(calls, place, command, number) as go_on:
                # What works beside the call that waits comes to its end.
                time.sleep(0.1)
                made = [*store.glob(".rebuild-store-*")]
                if len(made) == 10 and all(path.stat().st_size == 200_000 for path in made):
                    for path in made:
                        path.unlink()
                        path.mkdir()
                    source.write_bytes(choose.randbytes(1_200_000))
                    status, said = go_on()
                    named = [f"{path}: is left over, and can't be removed: Is a directory\n" in said for path in made]
                    hold(status == 3 and all(named), f"call {number}: status {status}: {said}")
                    tried += 1
    hold(tried > 0, "its fragments aren't made")


def test_lengths_that_nothing_decides(place, choose):
    """A stripe of whose files' lengths no check says which is right is left, and named by each command."""
    store = place / "undecided"
    files = lay(store, choose)
    for name in ("x0", "x1", "y0", "p0", "p1"):
        (store / f"s.{name}").write_bytes(files[f"s.{name}"][:300])
    for command in ("scrub", "repair", "lost"):
        hold("s: its fragments have different lengths" in run(command, store, status=1), f"{command} says something else")
    # All but one were cut to one length, at which they belong together: the longer one says that they aren't whole.
    for name, data in files.items():
        (store / name).write_bytes(data[:300] if name != "s.y1" else data)
    (store / "s.x0").unlink()
    before = there(store)
    for words in ([], ["--reads", "all"], ["--replace-damaged"]):
        said = run("repair", store, *words, status=1)
        hold("s: its fragments have different lengths" in said and there(store) == before, f"{words}: {said}")
    # Each group has a length at which its fragments belong together.
    for name, data in files.items():
        (store / name).write_bytes(data[:300] if name in ("s.x0", "s.x1", "s.x2", "s.px") else data)
    for name in ("s.p0", "s.p1"):
        (store / name).unlink()
    before = there(store)
    for words in ([], ["--reads", "all"], ["--replace-damaged"]):
        said = run("repair", store, *words, status=1)
        hold("s: its fragments have different lengths" in said and there(store) == before, f"{words}: {said}")


def lay_listed(store, choose, listed):
    """A store of one stripe with the digests of these fragments; gives the bytes of its fragments by their names."""
    files = lay(store, choose)
    (store / "SHA256SUMS").write_text("".join(f"{digest(files[name])}  {name}\n" for name in listed))
    return files


def test_length_that_digests_show(place, choose):
    """The files that have their digests say how long the fragments of a stripe are: where a file is longer, where too few survive for
    checks, and where more files were cut, which belong together, too. What is longer is replaced if that is asked for."""
    store = place / "longer"
    files = lay_listed(store, choose, [f"s.{name}" for name in ("x0", "x1", "y0", "px")])
    (store / "s.x1").write_bytes(files["s.x1"] + b"more")
    (store / "s.x0").unlink()
    hold("s.x1: has another length" in run("scrub", store, status=1), "a longer fragment isn't said")
    hold("rebuild,s,x0,600," in run("lost", store, status=1), "a lost fragment beside a longer one isn't listed")
    run("repair", store, status=1)
    hold((store / "s.x0").read_bytes() == files["s.x0"], "what is lost beside a longer fragment isn't rebuilt")
    hold((store / "s.x1").read_bytes() == files["s.x1"] + b"more", "a longer fragment was replaced")
    run("repair", store, "--replace-damaged", status=0)
    now = there(store)
    hold(now.pop("s.x1.damaged") == files["s.x1"] + b"more", "the longer fragment isn't kept")
    hold(all(now[name] == data for name, data in files.items()), "the longer fragment isn't replaced by what it was")

    # Six survivors have no checks; the four others were cut to one length, or are as long as two were.
    for cut in (lambda data: data[:300], lambda data: data + bytes(9)):
        shutil.rmtree(store)
        files = lay_listed(store, choose, ["s.p0", "s.x2"])
        for name in ("s.x0", "s.y1", "s.py", "s.p1"):
            (store / name).write_bytes(cut(files[name]))
        run("repair", store, "--replace-damaged", status=1)
        hold(all((store / name).exists() for name in files), "a fragment is gone")
        odd = {name: (store / name).read_bytes() for name in ("s.x0", "s.y1", "s.py", "s.p1")}
        hold(odd == {name: cut(files[name]) for name in odd}, "a fragment was replaced that no check covers")
        # Three of them are lost: they are rebuilt, unchecked, and the fourth stays.
        for name in ("s.x0", "s.py", "s.p1"):
            (store / name).unlink()
        said = run("repair", store, "--replace-damaged", status=1)
        hold("s.y1: isn't replaced: no check covers" in said, said)
        left = {**files, "s.y1": odd["s.y1"]}
        hold(there(store).items() >= left.items(), "the lost fragments aren't what they were, or another was replaced")

    # Of the other code as few: the one digest may be of any fragment.
    for listed in [name for name in stripe("12-2-2", 1, choose) if name[0] != "p"]:
        shutil.rmtree(store)
        store.mkdir()
        files = {f"s.{name}": data for name, data in stripe("12-2-2", 200, choose).items()}
        for name, data in files.items():
            (store / name).write_bytes(data if name[2] != "p" else data[:100])
        (store / "SHA256SUMS").write_text(f"{digest(files[f's.{listed}'])}  s.{listed}\n")
        said = run("scrub", store, status=1)
        hold("s.p0: has another length" in said and "different lengths" not in said, f"the digest of {listed} shows no length: {said}")

    # All but two were cut: the others belong together, and aren't what is listed.
    shutil.rmtree(store)
    files = lay_listed(store, choose, ["s.x1", "s.x0"])
    for name, data in files.items():
        (store / name).write_bytes(data if name in ("s.x1", "s.x2", "s.px") else data[:100])
    said = run("repair", store, "--replace-damaged", status=1)
    hold("different lengths" not in said and "s.y0: " in said, said)


def test_lengths_that_digests_do_not_decide(place, choose):
    """Digests of files of two lengths decide nothing, nor does one that a file differs from; an empty file may be what is listed."""
    store = place / "two"
    files = lay_listed(store, choose, [])
    (store / "s.x1").write_bytes(files["s.x1"][:300])
    sums = [f"{digest((store / f's.{name}').read_bytes())}  s.{name}\n" for name in ("x1", "y0")]
    (store / "SHA256SUMS").write_text("".join(sums))
    before = there(store)
    for words in (["scrub", store], ["repair", store, "--replace-damaged"]):
        hold("s: its fragments have different lengths" in run(*words, status=1), f"{words} decides between two digests")
    hold(there(store) == before, "a store was changed though two digests say different lengths")
    # Only the one that is no longer what its digest says is longer, and the others have no digest.
    (store / "SHA256SUMS").write_text(f"{digest(b'other')}  s.x1\n")
    for name, data in files.items():
        (store / name).write_bytes(data[:300] if name != "s.x1" else data)
    hold("s: its fragments have different lengths" in run("scrub", store, status=1), "a digest that nothing has shows a length")
    # Nothing but the digest of what is empty says that a stripe has no bytes.
    for name in files:
        (store / name).write_bytes(b"" if name != "s.x1" else b"more")
    hold("s: its fragments have different lengths" in run("scrub", store, status=1), "empty files show a length")
    (store / "SHA256SUMS").write_text(f"{digest(b'')}  s.y0\n")
    hold("s.x1: has another length" in run("scrub", store, status=1), "the digest of an empty file shows no length")


def test_code_that_places_say(place, choose):
    """Without a code the places say it: half of the stripes are enough for 12-2-2, and a file alone says nothing."""
    store, narrow = place / "half", place / "narrow"
    store.mkdir()
    for name in "ab":
        for at, data in stripe("12-2-2", 30, choose).items():
            if name == "a" or at[1:] not in ("3", "4", "5"):
                (store / f"{name}.{at}").write_bytes(data)
    hold("2 stripes; 6 fragments lost" in run("lost", store, status=1), "half of the stripes say nothing")
    lay(narrow, choose)
    (narrow / "notes.x3").write_bytes(b"mine")
    run("scrub", narrow, status=0)


def part_of(name, parts):
    """Which part a stripe is of."""
    return int.from_bytes(hashlib.sha256(name.encode()).digest()[:8], "big") % parts + 1


def test_contradictory_stripes(place, choose):
    """A part of contradictory stripes, and a store whose code was given, aren't refused: each contradiction is named."""
    store = place / "contradictory"
    names = [f"s{number}" for number in range(12)]
    files = lay(store, choose, names=names, length=50)
    bad = [name for name in names if part_of(name, 3) == 2]
    for name in names:
        if name in bad:
            for path in store.glob(f"{name}.*"):
                path.write_bytes(choose.randbytes(50))
        (store / f"{name}.x0").unlink()
    said = run("repair", store, "--part", "2/3", status=1)
    hold(all(f"{name}: contradiction" in said for name in bad), said)
    hold(not list(store.glob(".rebuild-store-*")), "a lock is left behind")
    run("repair", store, "--part", "1/3", status=0)
    for code in ([], ["--code", "6-2-2"]):
        only = place / f"only-{len(code)}"
        only.mkdir()
        for path in store.iterdir():
            if path.name.split(".")[0] in bad:
                (only / path.name).write_bytes(path.read_bytes())
        said = run("repair", only, *code, status=1)
        if code:
            hold("is this the store?" not in said and all(f"{name}: contradiction" in said for name in bad), said)
        else:
            hold("is this the store?" in said and sorted(bad)[0] in said, said)
    for name in set(names) - set(bad):
        hold((store / f"{name}.x0").exists() == (part_of(name, 3) == 1), "another part was repaired")
        files.pop(f"{name}.x0")
    # One that a single damaged fragment explains is no sign of another store.
    suspect = place / "suspect"
    files = lay(suspect, choose)
    (suspect / "s.x1").write_bytes(bytes(255 - byte for byte in files["s.x1"]))
    (suspect / "s.x2").unlink()
    said = run("repair", suspect, status=1)
    hold("contradiction: one of these is damaged" in said and "is this the store?" not in said, said)


def test_other_parts(place, choose):
    """A run of a part is refused while a run works on the store in another number of parts, and only then, also where fragments are in
    folders of their stripes."""
    stores = [place / "other-parts", place / "other-parts-below"]
    lay(stores[0], choose)
    (stores[1] / "s").mkdir(parents=True)
    for name, data in stripe("6-2-2", 600, choose).items():
        (stores[1] / "s" / name).write_bytes(data)
    for store, words in zip(stores, ([], ["--names", "{stripe}/{place}"])):
        (store / LEFTOVER).write_bytes(b"half")
        lock = store / ".rebuild-store-part-1-of-3"
        held = os.open(lock, os.O_CREAT | os.O_RDWR)
        run("repair", store, *words, "--part", "1/2", status=0)
        fcntl.flock(held, fcntl.LOCK_EX)
        said = run("repair", store, *words, "--part", "1/2", status=1)
        hold("another run works in this store" in said, "parts of two divisions were worked on")
        hold(not (store / LOCK_OF_PART).exists() and lock.exists(), "a lock is left, or another run's is gone")
        run("repair", store, *words, "--part", "2/3", status=0)
        os.close(held)
        run("repair", store, *words, "--part", "1/2", status=0)
        run("repair", store, *words, status=0)
        hold(not (store / LEFTOVER).exists() and not lock.exists(), "what was left above the fragments stays")


def test_locks_as_nfs_takes_them(place, choose):
    """Where a file can be locked only if it is open to be written, as by NFS, the lock of another part is seen too."""
    store, library = place / "nfs", place / "nfs-locks.so"
    lay(store, choose)
    refusals.build(library, "nfs-locks.c", "-shared", "-fPIC")
    how = {"env": {**os.environ, "LD_PRELOAD": str(library)}}
    held = os.open(store / ".rebuild-store-part-1-of-3", os.O_CREAT | os.O_RDWR)
    fcntl.flock(held, fcntl.LOCK_EX)
    said = run("repair", store, "--part", "1/2", status=1, **how)
    hold("another run works in this store" in said, f"parts of two divisions were worked on: {said}")
    os.close(held)
    run("repair", store, "--part", "1/2", status=0, **how)


def test_other_parts_of_another_user(place, choose):
    """The lock of a part keeps out other divisions of a user too who may read it and not write into it."""
    how = as_user(place)
    store, lock = place / "shared", place / "shared/.rebuild-store-part-1-of-3"
    lay(store, choose)
    store.chmod(0o777)
    lock.write_bytes(b"")
    lock.chmod(0o644)
    with open(lock, "r+b") as held:
        fcntl.flock(held, fcntl.LOCK_EX)
        for part in ("1/2", "2/2"):
            said = run("repair", store, "--part", part, status=1, **how)
            hold(f"{lock}: another run works in this store" in said, f"parts of two divisions were worked on: {said}")
    run("repair", store, "--part", "1/2", status=0, **how)


def test_wrong_code(place, choose):
    """A code that no stripe is of is refused in the words of encode."""
    for right, wrong in (("6-2-2", "12-2-2"), ("12-2-2", "6-2-2")):
        store, source = place / f"of-{right}", place / "new"
        store.mkdir()
        source.write_bytes(b"new")
        for name in ("a", "b"):
            for at, data in stripe(right, 30, choose).items():
                (store / f"{name}.{at}").write_bytes(data)
        words = f"has fragments of the code {right}"
        hold(words in run("encode", store, source, "--code", wrong, status=1), "encode says something else")
        for command in ("repair", "scrub", "lost"):
            hold(words in run(command, store, "--code", wrong, status=1), f"{command} says something else")
            run(command, store, "--code", right, status=0)
    store, _, _ = encoded_disks(place, choose)
    hold("has fragments of the code 6-2-2" in run("scrub", store, "--code", "12-2-2", *DISKS[2:], status=1), "no description says the code")
    for pattern in ("{stripe}1{shard}", "{shard}2{stripe}", "{stripe}{shard}"):
        run("repair", store, "--code", "6-2-2", "--names", pattern, status=2)


def test_sums_given(place, choose):
    """Digests that are of no file of the store are said, and what they cover isn't called unchecked."""
    store, sums, report = place / "summed", place / "sums", place / "report.csv"
    files = lay(store, choose, names=("a",))
    sums.write_text(f"{digest(b'')}  other\n{digest(b'')}  elsewhere/other.file\n")
    said = run("scrub", store, "--sums", sums, status=0)
    hold(f"{sums}: names no file of the store" in said, said)
    sums.write_text("".join(f"{digest(data)}  {name}\n" for name, data in files.items()))
    hold("names no file" not in run("scrub", store, "--sums", sums, status=0), "digests that fit are called strange")
    (place / "sums-link").symlink_to(sums)
    run("scrub", store, "--sums", place / "sums-link", status=0)
    lost = ("a.x0", "a.x1", "a.y0", "a.p0")
    for name in lost:
        (store / name).unlink()
    said = run("repair", store, "--sums", sums, "--report", report, status=0)
    hold("(0 unchecked)" in said and "rebuilt unchecked" not in said and "unchecked" not in report.read_text(), said)
    for name in lost:
        (store / name).unlink()
    said = run("repair", store, "--report", report, status=0)
    hold("(4 unchecked: a.x0 a.x1 a.y0 ..)" in said and said.count("rebuilt unchecked") == 4, said)
    hold(report.read_text().count("unchecked") == 4, report.read_text())
    hold(there(store) == files, "the store isn't what it was")
    for option in ("--sums", "--stripes"):
        hold("nothere: No such file" in run("scrub", store, option, place / "nothere", status=3), f"{option} isn't named")
    (store / "a.x0").unlink()
    for command in ("scrub", "repair"):
        said = run(command, store, "--report", place / "nowhere/report.csv", status=3)
    hold(not (store / "a.x0").exists(), "a repair was begun whose report has no folder")
    hold("nowhere/report.csv: No such file" in said, said)


def test_control_characters(place, choose):
    """Each control character of a name is written as the octal digits of its bytes."""
    for code in [*range(1, 32), *range(127, 160)]:
        letter = chr(code)
        said = run("scrub", place / f"no{letter}store", status=3)
        shown = {"\n": "\\n", "\r": "\\r", "\t": "\\t", "\a": "\\a", "\b": "\\b", "\v": "\\v", "\f": "\\f"}.get(letter)
        shown = shown or "".join(f"\\{byte:03o}" for byte in letter.encode())
        hold(f"/no{shown}store: No such file or directory\n" in said, f"{code}: {said!r}")


def test_odd_names(place, choose):
    """No name ends a line or steers a terminal."""
    store = place / "odd-names"
    odd = "a\nrebuild-store: forged\x1b[31m\t\x07\u0085"
    lay(store, choose, names=(odd, "b"))
    (store / f"{odd}.x0").write_bytes(b"short")
    for path in store.glob("b.x[01]"):
        path.unlink()
    for command in ("scrub", "repair", "lost"):
        said = run(command, store, status=1)
        hold("\x1b" not in said and "\x07" not in said and "\u0085" not in said, repr(said))
        hold(command == "lost" or r"a\nrebuild-store: forged\033[31m\t\a\302\205.x0: " in said, repr(said))
        hold(not any(line.startswith("rebuild-store: forged") for line in said.splitlines()), repr(said))


def test_standard_error_that_fails(place, choose):
    """A standard error that is closed or full costs neither the summary nor the report."""
    for kind in ("closed", "full"):
        store, report = place / f"stderr-{kind}", place / "report.csv"
        files = lay(store, choose, names=("a", "b"))
        (store / "a.x0").unlink()
        (store / "b.y0").write_bytes(b"short")
        (store / LEFTOVER).write_bytes(b"half")
        with open("/dev/full", "wb") as full:
            how = {"stderr": full} if kind == "full" else {"preexec_fn": lambda: os.close(2)}
            ended = subprocess.run([PROGRAM, "repair", store, "--report", report], stdout=subprocess.PIPE, **how)
        hold(ended.returncode == 1 and b"repaired 1 fragment" in ended.stdout, f"{kind}: status {ended.returncode}: {ended.stdout}")
        hold("a,x0,rebuilt," in report.read_text() and (store / "a.x0").read_bytes() == files["a.x0"], report.read_text())


def test_dry_run(place, choose):
    """A dry run says what the repair does: what this leaves isn't promised."""
    store, report = place / "dry", place / "report.csv"
    lay(store, choose, names=("a", "b"))
    (store / "a.x0").unlink()
    (store / "a.y1").write_bytes(b"short")
    (store / "b.y0").unlink()
    (store / "b.y0").mkdir()
    (store / LEFTOVER).write_bytes(b"half")
    before = below(store)
    for options, count, more in (([], 1, ", with --replace-damaged 1"), (["--replace-damaged"], 2, "")):
        said = run("repair", store, "--dry-run", "--report", report, *options, status=1)
        hold(f"; {count} can be rebuilt (0 unchecked){more}, 1 can't" in said, said)
        rows = report.read_text()
        hold(rows.count(",would be rebuilt,") == count and ",rebuilt," not in rows, rows)
        hold("rebuilt unchecked" not in said, said)
        hold(below(store) == before and LEFTOVER not in said, f"a dry run changed the store, or would have: {said}")
    said = run("repair", store, "--replace-damaged", status=1)
    hold("repaired 2 fragments" in said and "not possible: 1" in said, said)
    many = place / "many-lost"
    lay(many, choose)
    for lost in ("x0", "x1", "y0", "p0"):
        (many / f"s.{lost}").unlink()
    said = run("repair", many, "--dry-run", status=1)
    hold(said.count(": would be rebuilt unchecked: ") == 4 and ": rebuilt unchecked" not in said, said)
    # Fragments of 256 GiB, each of which is a hole.
    holes = place / "holes"
    holes.mkdir()
    for there_is in ("x1", "x2", "y0", "y1", "y2", "px", "py", "p0", "p1"):
        with open(holes / f"s.{there_is}", "wb") as file:
            file.truncate(1 << 38)
    said = run("repair", holes, "--dry-run", status=1)
    hold("256 GiB; 1 lost in 1; 1 can be rebuilt (0 unchecked), 0 can't; reads 2 TiB, writes 256 GiB\n" in said, said)
    empty = place / "of-nothing"
    lay(empty, choose, length=0)
    (empty / "s.x0").unlink()
    (empty / "s.p1").unlink()
    said = run("repair", empty, "--dry-run", status=1)
    hold("1 stripe of 6-2-2, 0 bytes; 2 lost in 1; 2 can be rebuilt (2 unchecked), 0 can't; reads 0 bytes, writes 0 bytes\n" in said, said)
    damaged = place / "damaged"
    lay(damaged, choose)
    (damaged / "s.x0").write_bytes(bytes(600))
    hold("1 damaged, 0 lost or contradictory" in run("scrub", damaged, status=1), "one damaged fragment is counted twice")


def test_file_that_changes_while_it_is_read(place, choose):
    """What is written of a file whose fragment changes after it was tested isn't said to be the file."""
    store, source = place / "changing", place / "changing-file"
    data = choose.randbytes(400_000)
    source.write_bytes(data)
    run("encode", store, source, status=0)
    calls = Calls(place, forks=True)
    command = [PROGRAM, "read", store, source.name]
    ran = calls.run(command)
    first = next(number for number, kind in enumerate(ran.kinds, 1) if kind == "output")
    with waiting(calls, place, command, first) as go_on:
        with open(store / f"{source.name}.y1", "r+b") as fragment:
            fragment.write(bytes(1_000))
        status, said = go_on()
        hold(status == 3 and "changed meanwhile" in said[-200:], f"status {status}: {said[-200:]!r}")


def test_what_replaces_a_private_file(place, choose):
    """Nobody else can read the file that is to replace a private one, however far it is written."""
    store, source, folder = place / "private-store", place / "private-file", place / "private"
    source.write_bytes(choose.randbytes(400_000))
    run("encode", store, source, status=0)
    folder.mkdir()
    out = folder / "out"
    out.write_bytes(b"older")
    out.chmod(0o600)
    calls, command = Calls(place, forks=True), [PROGRAM, "read", store, source.name, "-o", out]
    kinds = calls.run(command).kinds
    for kind in ("write", "sync", "rename"):
        with waiting(calls, place, command, kinds.index(kind) + 1) as go_on:
            modes = [stat.S_IMODE(path.stat().st_mode) for path in folder.glob(".rebuild-store-*")]
            hold(modes == [0o600], f"before its first {kind} there are these rights: {[f'{mode:o}' for mode in modes]}")
            status, said = go_on()
            hold(status == 0 and out.read_bytes() == source.read_bytes(), f"status {status}: {said}")
    hold(stat.S_IMODE(out.stat().st_mode) == 0o600, "the file has other rights now")


def slow_reads(place, milliseconds):
    """The variables with which each read of a run takes so much longer, as from a slow disk, so that work on small files shows lines."""
    calls, record = Calls(place, forks=True), place / "record"
    record.write_bytes(bytes(RECORD_SIZE))
    return {"LD_PRELOAD": str(calls.file), "FAIL_RECORD": str(record), "FAIL_NUMBER": str(milliseconds), "FAIL_HOW": "slow"}


def on_terminal(*words, slow, killed=False):
    """What the program writes to a terminal on its standard error, with these variables, and its status. It may be killed once it has shown
    a line."""
    try:
        ours, theirs = pty.openpty()
    except OSError as error:
        raise Skipped(f"no terminal can be made here: {error}") from None
    command, quiet = [PROGRAM, *map(str, words)], subprocess.DEVNULL
    with subprocess.Popen(command, stdin=quiet, stdout=quiet, stderr=theirs, env={**os.environ, **slow}) as process:
        os.close(theirs)
        said = b""
        # A terminal that nobody writes to any more can't be read.
        with contextlib.suppress(OSError):
            while more := os.read(ours, 4_096):
                said += more
                if killed and b"left" in said:
                    process.send_signal(signal.SIGTERM)
        os.close(ours)
        return said.decode(), process.wait(timeout=SECONDS)


def hold_counted(said, size):
    """Each line on a terminal has the bytes of the units that it says are done, and of a part of the next one at most. Each unit has so
    many MiB, and tenths of one are shown."""
    seen = [(int(done), float(amount)) for done, amount in re.findall(r": (\d+)/\d+ \w+  ([\d.]+)/", said)]
    hold(all(done * size - 0.1 <= amount <= (done + 1) * size + 0.1 for done, amount in seen), f"other bytes than units: {seen}")
    hold(len({done for done, _ in seen}) > 2 and seen == sorted(seen), f"what is done: {seen}")


def lay_zeros(store, names, size):
    """A store of stripes of zeros, each of which is a stripe; those of sparse files take no room."""
    store.mkdir()
    for name in names:
        for shard in ("x0", "x1", "x2", "y0", "y1", "y2", "px", "py", "p0", "p1"):
            with open(store / f"{name}.{shard}", "wb") as file:
                file.truncate(size)


def test_name_that_is_given_beside_another_run(place, choose):
    """A run over the folder of one disk takes nothing away that a run which replaces a file of the store is about to give its name."""
    calls, store, source, other = Calls(place, forks=True), place / "giving", place / "note", place / "other"
    source.write_bytes(choose.randbytes(3_000))
    other.write_bytes(choose.randbytes(300))
    run("encode", "--make-folders", store, source, *DISKS, status=0)
    source.write_bytes(choose.randbytes(2_000))
    shutil.copytree(store, place / "count")
    number = calls.run([PROGRAM, "encode", "--replace", place / "count", source, *DISKS]).kinds.index("rename") + 1
    with waiting(calls, place, [PROGRAM, "encode", "--replace", store, source, *DISKS], number) as go_on:
        # What is to get a name is there by a temporary one.
        hold([*store.glob("disk0/.rebuild-store-*")] != [], f"{sorted(below(store))}")
        run("encode", store / "disk0", other, status=0)
        status, said = go_on()
    hold(status == 0, f"status {status}: {said}")
    ended = subprocess.run([PROGRAM, "read", store, "note", *DISKS[2:]], capture_output=True)
    hold(ended.stdout == source.read_bytes(), ended.stderr.decode())


def test_line_on_a_terminal(place, choose):
    """A repair and a scrub show how far they are on a line that is written anew in its place, and that ends if the run is killed."""
    store = place / "zeros"
    names, size, slow = [f"s{number}" for number in range(80)], 2**17, slow_reads(place, 3)
    lay_zeros(store, names, size)
    line = r"(?:\x1b\[A)?\r\x1b\[K\x1b\[\?7l%s: \d+/%d %s  [\d.]+/%s MiB  \d+ MiB/s  \d+:\d\d left  0 damaged, 0 %s\x1b\[\?7h\r\n"
    scrub = line % ("scrub", len(names), "stripes", re.escape("100.0"), "lost")
    said, status = on_terminal("scrub", store, "--workers", 1, slow=slow)
    hold(status == 0 and re.fullmatch(f"(?:{scrub})+\x1b\\[A\r\x1b\\[K", said), f"status {status}: {said!r}")
    hold_counted(said, 10 / 8)
    said, status = on_terminal("scrub", store, "--workers", 1, slow=slow, killed=True)
    hold(status == -signal.SIGTERM and re.fullmatch(f"(?:{scrub})+", said), f"status {status}: {said!r}")
    for name in names:
        (store / f"{name}.px").unlink()
    repair = line % ("repair", len(names), "fragments", re.escape("90.0"), "given up")
    said, status = on_terminal("repair", store, "--reads", "all", "--workers", 1, slow=slow)
    hold(status == 0 and re.fullmatch(f"(?:{repair})+\x1b\\[A\r\x1b\\[K", said), f"status {status}: {said!r}")
    hold_counted(said, 9 / 8)


def test_numbers_on_a_terminal(place, _choose):
    """By a clock that goes on by what is slept alone as many bytes a second are read as the limit says, and the line says so and how long
    the rest takes. Also of 160 GiB the MiB are exact."""
    store, library, record = place / "timed", place / "skip-sleep.so", place / "slept"
    lay_zeros(store, [f"s{number}" for number in range(80)], 2**17)
    refusals.build(library, "skip-sleep.c", "-shared", "-fPIC")
    record.write_bytes(bytes(8))
    clock = {"LD_PRELOAD": str(library), "SLEPT_RECORD": str(record)}
    said, status = on_terminal("scrub", store, "--workers", 1, "--rate", "4M", slow=clock)
    lines = [[float(it) for it in line] for line in re.findall(r"  ([\d.]+)/100.0 MiB  (\d+) MiB/s  (\d+):(\d\d) left", said)]
    hold(status == 0 and 100 < len(lines) <= 125 and all(speed in (3, 4) for _, speed, _, _ in lines), f"status {status}: {said!r}")
    hold(all(abs((100 - done) / 4 - 60 * minutes - seconds) <= 1.1 for done, _, minutes, seconds in lines), f"{lines}")
    lay_zeros(place / "long-zeros", ["s"], 2**34)
    said, status = on_terminal("scrub", place / "long-zeros", "--workers", 1, slow=slow_reads(place, 3), killed=True)
    hold(status == -signal.SIGTERM and "/163840.0 MiB  " in said, f"status {status}: {said!r}")


def test_line_of_files(place, choose):
    """An encoding shows how many files are done; with -q there is no line."""
    store, sources, size = place / "files", [place / f"f{number}" for number in range(4)], 2**20
    slow = slow_reads(place, 20)
    store.mkdir()
    for source in sources:
        with open(source, "wb") as file:
            file.truncate(size)
    line = r"(?:\x1b\[A)?\r\x1b\[K\x1b\[\?7lencode: \d/4 files  [\d.]+/4.0 MiB  \d+ MiB/s  \d+:\d\d left\x1b\[\?7h\r\n"
    said, status = on_terminal("encode", store, *sources, slow=slow)
    hold(status == 0 and re.fullmatch(f"(?:{line})+\x1b\\[A\r\x1b\\[K", said), f"status {status}: {said!r}")
    hold_counted(said, 1)
    said, status = on_terminal("verify", store, slow=slow_reads(place, 15))
    hold(status == 0 and "verify: " in said, f"status {status}: {said!r}")
    hold_counted(said, 1)
    for command, words in (("encode", sources), ("scrub", []), ("verify", []), ("read", ["f0", "-o", place / "read"])):
        hold(on_terminal(command, store, *words, "-q", slow=slow) == ("", 0), f"{command} -q shows a line")


def hold_even(seen, whole):
    """The MiB that lines say are done of one unit come near to all of them, and aren't all long before the end."""
    hold(any(0.7 * whole < it < whole for it in seen) and seen.count(whole) <= len(seen) // 3, f"of {whole}: {seen}")


def test_line_within_a_file(place, choose):
    """A command over one long file shows how far it is in it, and no line that it says is written over."""
    store, file, size, slow = place / "long", place / "f", 8 * 2**20, slow_reads(place, 10)
    with open(file, "wb") as long:
        long.truncate(size)
    line = r"(?:\x1b\[A)?\r\x1b\[K\x1b\[\?7l%s: 0/1 %s  ([\d.]+)/%s MiB  \d+ MiB/s  \d+:\d\d left[^\n]*\x1b\[\?7h\r\n"
    took = "\x1b[A\r\x1b[K"
    # What is written into a FIFO is read before, too, and held to its digest.
    os.mkfifo(place / "fifo")
    reader = subprocess.Popen(["timeout", str(SECONDS), "cat", place / "fifo"], stdout=subprocess.DEVNULL)
    commands = [("encode", "files", "8.0", [store, file]), ("verify", "files", "8.0", [store]),
                ("read", "files", "8.0", [store, "f", "-o", place / "read"]), ("read", "files", "8.0", [store, "f", "-o", place / "fifo"]),
                # The file that is there by now is replaced, which takes one reading too.
                ("read", "files", "8.0", [store, "f", "-o", place / "read"])]
    for command, unit, all_of_it, words in commands:
        said, status = on_terminal(command, *words, slow=slow)
        seen = [float(it) for it in re.findall(line % (command, unit, re.escape(all_of_it)), said)]
        hold(status == 0 and len(seen) > 1 and seen == sorted(seen) and min(seen) < max(seen), f"{command}: {status}, {said!r}")
        hold(said.endswith(took), f"{command} left its line: {said!r}")
        hold_even(seen, 8)
    hold((place / "read").stat().st_size == size and reader.wait(SECONDS) == 0, "the file isn't what it was")
    # What a link leads to is written as it is, so that the file is tested before it is written: the line goes on while it is read twice.
    (place / "link").symlink_to(place / "read")
    said, status = on_terminal("read", store, "f", "-o", place / "link", slow=slow)
    seen = [float(it) for it in re.findall(line % ("read", "files", re.escape("8.0")), said)]
    hold(status == 0 and len(seen) > 1 and seen == sorted(seen) and 4 * seen.count(8.0) < len(seen), f"read to a link: {status}, {said!r}")
    said, status = on_terminal("encode", store, "--replace", file, place / "nothere", file, slow=slow)
    refused = r"\x1b\[A\r\x1b\[Krebuild-store: \S+nothere: No such file or directory\r\n(?!\x1b\[A)"
    hold(status == 3 and re.search(refused, said), repr(said))
    # Nor is what is said of a file that is verified after the long one.
    (place / "g").write_bytes(b"g")
    run("encode", store, place / "g", status=0)
    (store / "g.x0").unlink()
    said, status = on_terminal("verify", store, slow=slow)
    hold(status == 0 and re.search(r"\x1b\[A\r\x1b\[Krebuild-store: \S*g\.x0: left out[^\r\n]*\r\n", said), repr(said))


def test_line_within_a_stripe(place, choose):
    """A repair and a scrub of one long stripe show how far they are in it, also where its fragments are held to digests."""
    bare, store, file, size = place / "bare", place / "store", place / "f", 6 * 2**20
    slow = slow_reads(place, 6)
    lay_zeros(bare, ["s"], size)
    with open(file, "wb") as long:
        long.truncate(2 * size)
    run("encode", store, file, status=0)
    line = r"(?:\x1b\[A)?\r\x1b\[K\x1b\[\?7l%s: 0/1 %s  ([\d.]+)/%s MiB  \d+ MiB/s  \d+:\d\d left  0 damaged, 0 %s\x1b\[\?7h\r\n"
    commands = [("scrub", "stripes", 10, "lost"), ("repair", "fragments", 9, "given up")]
    for fragment, mebibytes in ((bare / "s.px", 6), (store / "f.px", 2)):
        for command, unit, many, others in commands:
            if command == "repair":
                fragment.unlink()
            all_of_it = many * mebibytes
            words = ["--reads", "all"] if command == "repair" else []
            said, status = on_terminal(command, fragment.parent, *words, slow=slow)
            seen = [float(it) for it in re.findall(line % (command, unit, rf"{all_of_it}\.0", others), said)]
            hold(status == 0 and len({it for it in seen if 0 < it < all_of_it}) > 1 and seen == sorted(seen),
                 f"{command} {fragment.name}: status {status}, {said!r}")
            hold(said.endswith("\x1b[A\r\x1b[K"), f"{command} left its line: {said!r}")
            hold_even(seen, all_of_it)
            # The speed is cut to whole ones, so that one below 1 says nothing about the time.
            for done, speed, minutes, seconds in re.findall(r"([\d.]+)/[\d.]+ MiB  ([1-9]\d*) MiB/s  (\d+):(\d\d) left", said):
                rest, shown = all_of_it - float(done), int(minutes) * 60 + int(seconds)
                hold(rest / (int(speed) + 1) - 2 <= shown <= rest / int(speed) + 2, f"{command} says another time: {said!r}")
        fragment.unlink()
    # By itself a repair reads as few as determine what is lost, each once, since there are digests.
    said, status = on_terminal("repair", store, slow=slow_reads(place, 20))
    seen = [float(it) for it in re.findall(line % ("repair", "fragments", r"6\.0", "given up"), said)]
    hold(status == 0 and seen == sorted(seen), f"status {status}: {said!r}")
    hold_even(seen, 6)


def test_runs_beside_an_encoding(place, choose):
    """While a run encodes into a store, or takes files out of it, no other run writes there, and others read there."""
    calls, store, source = Calls(place, forks=True), place / "encoded-into", place / "encoded"
    source.write_bytes(choose.randbytes(6_000))
    encode, remove = ["encode", store, source], ["remove", store, source.name]
    for words in (encode, remove):
        run(*words, status=0)
    for words, undo, kind in ((encode, remove, "link"), (remove, encode, "unlink")):
        command = [PROGRAM, *words]
        number = calls.run(command).kinds.index(kind) + 1
        run(*undo, status=0)
        with waiting(calls, place, command, number) as go_on:
            for other in (encode, remove, ["repair", "--code", "6-2-2", store],
                          ["repair", "--code", "6-2-2", "--part", "1/2", store]):
                said = run(*other, status=1)
                hold(said == f"rebuild-store: {store}: another run works in this store\n", f"{other[0]} beside {words[0]}: {said}")
            hold("another run" not in run("scrub", "--code", "6-2-2", "-q", store, status=0 if kind == "unlink" else 1), words[0])
            status, said = go_on()
            hold(status == 0, f"{words[0]}: {status}: {said}")
        hold((store / f"{source.name}.x0").exists() == (words[0] == "encode"), words[0])


def test_findings_on_a_terminal(place, _choose):
    """The line says how many fragments are damaged, and how many others aren't as they should be, or are given up."""
    store, size, slow = place / "found", 2**17, slow_reads(place, 3)
    lay_zeros(store, [f"s{number:02}" for number in range(16)], size)
    (store / "s00.x0").write_bytes(b"!" + bytes(size - 1))
    for name in ("s01.px", "s01.p0"):
        (store / name).unlink()
    said, status = on_terminal("scrub", store, "--workers", 1, slow=slow)
    hold(status == 1 and " left  1 damaged, 2 lost\x1b" in said, f"status {status}: {said!r}")
    for name in ("s01.px", "s01.p0"):
        (store / name).mkdir()
    said, status = on_terminal("repair", "--reads", "all", store, "--workers", 1, slow=slow)
    hold(status == 1 and " left  1 damaged, 2 given up\x1b" in said, f"status {status}: {said!r}")


def test_dry_run_on_a_terminal(place, _choose):
    """A dry run shows no line, however long it takes to hold the fragments to their digests."""
    store, size, names = place / "dry-zeros", 2**16, [f"s{number:02}" for number in range(20)]
    lay_zeros(store, names, size)
    (store / "SHA256SUMS").write_text("".join(f"{digest(bytes(size))}  {path.name}\n" for path in sorted(store.iterdir())))
    for name in names:
        (store / f"{name}.x0").unlink()
    words = ["repair", "--reads", "all", store, "--workers", 1]
    hold(on_terminal(*words, "--dry-run", slow=slow_reads(place, 4)) == ("", 1), "a dry run shows a line")
    said, status = on_terminal(*words, slow=slow_reads(place, 4))
    hold(status == 0 and "repair: " in said, f"status {status}: {said!r}")
def hold_locked(folder):
    """Each file in a folder that has a temporary name is locked, and by no lock of this process. Gives how many there are."""
    unfinished = [path for path in folder.iterdir() if path.name.startswith(".rebuild-store-")]
    for path in unfinished:
        with open(path, "rb") as file:
            try:
                fcntl.flock(file, fcntl.LOCK_EX | fcntl.LOCK_NB)
            except BlockingIOError:
                continue
        raise Fault(f"{path.name} isn't locked")
    return len(unfinished)


def test_locks_of_unfinished_files(place, choose):
    """A new file is locked until it has lost its temporary name, also where that is a second one of a file which replaces another, so that
    no run takes it for one that was left."""
    calls, whole, source, store = Calls(place, forks=True), place / "whole", place / "file", place / "unfinished"
    whole.mkdir()
    source.write_bytes(choose.randbytes(900))
    run("encode", whole, source, status=0)
    source.write_bytes(choose.randbytes(1_900))
    flip = bytes(255 - byte for byte in (whole / "file.y1").read_bytes())
    trials = [(["repair", store, "--workers", "1"], ("write", "sync", "link", "unlink")),
              (["repair", store, "--workers", "1", "--replace-damaged"], ("write", "sync", "link", "rename")),
              (["encode", "--replace", store, source], ("link", "rename"))]
    for words, kinds in trials:
        def anew():
            shutil.rmtree(store, ignore_errors=True)
            shutil.copytree(whole, store)
            if words[0] == "repair":
                (store / "file.x1").unlink()
            if "--replace-damaged" in words:
                (store / "file.y1").write_bytes(flip)
            return [PROGRAM, *words]

        made = calls.run(anew()).kinds
        for kind in kinds:
            numbers = [number for number, it in enumerate(made, 1) if it == kind]
            seen = 0
            for number in {numbers[0], numbers[-1]}:
                with waiting(calls, place, anew(), number) as go_on:
                    seen += hold_locked(store)
                    status, said = go_on()
                    hold(status == 0, f"{words}, {kind}: status {status}: {said}")
            hold(seen > 0, f"{words}: no file has a temporary name where one is to {kind}")


def test_new_file_that_another_locks(place, choose):
    """A new file that somebody else locks before its run does is left to them, and another one is made."""
    store = place / "locked-by-another"
    files = lay(store, choose)
    calls, command = Calls(place, forks=True), [PROGRAM, "repair", store, "--workers", "1"]
    (store / "s.x1").unlink()
    kinds = calls.run(command).kinds
    (store / "s.x1").unlink()
    with waiting(calls, place, command, len(kinds) - kinds[::-1].index("lock")) as go_on:
        taken, = store.glob(".rebuild-store-*")
        with open(taken, "rb") as held:
            fcntl.flock(held, fcntl.LOCK_EX)
            status, said = go_on()
    hold(status == 0 and there(store) == {**files, taken.name: b""}, f"status {status}: {sorted(there(store))}: {said}")


def test_temporary_names_that_are_taken(place, choose):
    """Where something has the name that a new file was to get, another is tried; where all that are tried are taken, that is said."""
    store, source = place / "taken", place / "file"
    lay(store, choose)
    source.write_bytes(b"some text")
    run("encode", store, source, status=0)
    files = there(store)
    calls, command = Calls(place, forks=True), [PROGRAM, "repair", store, "--workers", "1"]
    for lost in ("s.x0", "file.file"):
        (store / lost).unlink()
        number = calls.run(command).kinds.index("create") + 1
        hold(there(store) == files, f"{lost} didn't come back")
        (store / lost).unlink()
        ended = calls.run(command, number, errno.EEXIST)
        hold(ended.status == 0 and there(store) == files, f"{lost}: {sorted(there(store))}: {ended.text()}")
        (store / lost).unlink()
        ended = calls.run(command, number, errno.EEXIST, rest="kind")
        hold(ended.status == 3 and f"{lost}: can't be put in its place: " in ended.err and not (store / lost).exists(), ended.text())
        run(*command[1:], status=0)
    for number, kind in enumerate(calls.run([PROGRAM, "encode", place / "other", source]).kinds, 1):
        if kind == "create":
            shutil.rmtree(place / "other")
            ended = calls.run([PROGRAM, "encode", place / "other", source], number, errno.EEXIST)
            hold(ended.kind != "create" or ended.status == 0 and len(there(place / "other")) == 13, f"call {number}: {ended.text()}")


def test_same_fragment_that_comes_meanwhile(place, choose):
    """A file with the same bytes that comes under a lost fragment's name meanwhile, as one that another run has made, is the fragment. A
    link that leads to such a file isn't, nor is a file that goes on after them: they stay, and are said."""
    store, other = place / "same", place / "same-other"
    files = lay(store, choose)
    other.write_bytes(files["s.x1"])
    calls, command = Calls(place, forks=True), [PROGRAM, "repair", store, "--workers", "1"]
    (store / "s.x1").unlink()
    number = calls.run(command).kinds.index("link") + 1
    for kind in ("file", "link", "longer"):
        (store / "s.x1").unlink()
        with waiting(calls, place, command, number) as go_on:
            if kind == "link":
                (store / "s.x1").symlink_to(other)
            else:
                (store / "s.x1").write_bytes(files["s.x1"] + b"more" * (kind == "longer"))
            status, said = go_on()
        if kind == "file":
            hold(status == 0 and "repaired 1 fragment, 600 bytes" in said, f"status {status}: {said}")
        else:
            hold(status == 1 and "s.x1: has come meanwhile, and stays as it is\n" in said, f"{kind}: status {status}: {said}")
            hold((store / "s.x1").is_symlink() == (kind == "link"), f"a {kind} was replaced")
        hold(sorted(path.name for path in store.iterdir()) == sorted(files), f"{kind}: {sorted(store.iterdir())}")


def test_what_is_not_replaced_leaves_nothing(place, choose):
    """What was rebuilt of a fragment that isn't replaced, since one is kept beside it, is taken away."""
    store = place / "not-replaced"
    files = lay(store, choose)
    (store / "s.x1").write_bytes(bytes(255 - byte for byte in files["s.x1"]))
    (store / "s.x1.damaged").write_bytes(b"kept")
    before = there(store)
    said = run("repair", "--code", "6-2-2", "--replace-damaged", store, status=1)
    hold("s.x1: isn't replaced: a fragment that was replaced before is kept beside it\n" in said, said)
    hold(there(store) == before, f"left {sorted(there(store).keys() - before.keys())}")


def test_failed_write_before_a_contradiction(place, choose):
    """Of a fragment that couldn't be written, and of whose stripe the survivors then turn out to contradict each other, nothing is left."""
    store = place / "failed-write"
    files = lay(store, choose, length=140_000)
    (store / "s.x1").write_bytes(files["s.x1"][:-1] + bytes([files["s.x1"][-1] ^ 1]))
    (store / "s.x2").unlink()
    before = there(store)
    calls = Calls(place, forks=True)
    for words in ([], ["--reads", "all"]):
        command = [PROGRAM, "repair", store, "--code", "6-2-2", "--workers", "1", *words]
        number = calls.run(command).kinds.index("write") + 1
        ended = calls.run(command, number, errno.ENOSPC)
        hold(ended.status == 1 and "s: contradiction: one of these is damaged" in ended.err, ended.text())
        hold(there(store) == before, f"left {sorted(there(store).keys() - before.keys())}")


def test_fragment_that_is_cut_while_it_is_read(place, choose):
    """A fragment that is cut while it is read has changed, and isn't one that can't be read."""
    calls, store = Calls(place, forks=True), place / "cut"
    files = lay(store, choose)
    command = [PROGRAM, "scrub", store, "--workers", "1"]
    last = max(number for number, kind in enumerate(calls.run(command).kinds, 1) if kind == "read")
    with waiting(calls, place, command, last) as go_on:
        for name in files:
            os.truncate(store / name, 300)
        status, said = go_on()
    hold(status == 1 and "changed meanwhile: " in said and "can't be read" not in said, f"status {status}: {said}")


def test_folders_are_synced_once(place, choose):
    """The names that a stripe's fragments get are written to the disk once for each folder, and of each folder of which that fails it is
    said."""
    calls, lost = Calls(place, forks=True), (1, 4, 7)
    store, disks = place / "synced-once", place / "synced-disks"
    lay(store, choose)
    lay_disks(disks, choose, names=("a",))
    for folder, words, many in ((store, [], 1), (disks, DISKS, 3)):
        paths = [folder / f"s.{it}" for it in ("x1", "y1", "p1")] if folder == store else [folder / f"disk{it}/a" for it in lost]
        command = [PROGRAM, "repair", "--workers", "1", *words, folder]

        def lose():
            for path in paths:
                path.unlink(missing_ok=True)

        lose()
        synced = [number for number, kind in enumerate(calls.run(command).kinds, 1) if kind == "sync"]
        hold(len(synced) == 3 + many, f"three fragments in {many} folders are written to the disk by {len(synced)} calls")
        lose()
        ended = calls.run(command, synced[3], errno.EIO, rest="kind")
        said = sorted(line for line in ended.err.splitlines() if line.endswith(": Input/output error"))
        name = "s" if folder == store else "a"
        wanted = {f"{name}: was left over, or isn't known to be on the disk: {path.parent}: Input/output error" for path in paths}
        hold(ended.status == 3 and said == sorted(wanted), ended.text())


def test_lock_whose_text_cannot_be_read(place, choose):
    """What has the name of a lock and can't be read stays, and is said, with the status of a device."""
    calls, store = Calls(place, forks=True), place / "unread-lock"
    files = lay(store, choose)
    lock = store / LOCK_OF_PART
    command, tried = [PROGRAM, "repair", store, "--workers", "1"], 0

    def begun(*how):
        lock.write_text("4194304@alpha\n")
        return calls.run(command, *how)

    for number, kind in enumerate(begun().kinds, 1):
        if kind == "read":
            ended = begun(number, errno.EIO)
            if ended.paths == (str(lock),):
                tried += 1
                said = f"rebuild-store: {lock}: is left over, and can't be removed: Input/output error\n"
                hold(ended.status == 3 and said in ended.err and lock.read_text() == "4194304@alpha\n", ended.text())
    hold(tried > 0, "no lock's text is read")
    run(*command[1:], status=0)
    # The longest text that a run writes: no process has a greater number, and no host a longer name.
    for text in (f"4194304@{'h' * 64}\n", "\0" * 73):
        lock.write_text(text)
        said = run(*command[1:], status=0)
        hold(there(store) == files, f"a lock with {text!r} in it stays: {said}")


def test_leftovers_of_other_parts_where_links_lead(place, choose):
    """A run of a part takes away what runs of the part have left in each folder where links lead, and nothing of another part's or of a run
    of all."""
    store, folders = place / "linked-parts", [place / "linked-parts-one", place / "linked-parts-two"]
    names = [next(name for name in map(str, range(100)) if part_of(name, 2) == part) for part in (1, 2)]
    lay(store, choose, names=names)
    for folder, shard in zip(folders, ("x0", "y1")):
        folder.mkdir()
        for name in names:
            (store / f"{name}.{shard}").rename(folder / f"{name}.{shard}")
            (store / f"{name}.{shard}").symlink_to(folder / f"{name}.{shard}")
    left = [".rebuild-store-1-2-0123456789abcdef", ".rebuild-store-2-2-0123456789abcdef", ".rebuild-store-1-3-0123456789abcdef", LEFTOVER]
    for folder in folders:
        for name in left:
            (folder / name).write_bytes(b"half")
    for words, stays in ((["--part", "1/2"], left[1:]), (["--part", "2/2"], left[2:]), ([], [])):
        said = run("repair", "--follow-links", *words, store, status=0)
        found = [[name for name in left if (folder / name).exists()] for folder in folders]
        hold(found == [stays] * 2, f"{words}: {found} stay: {said}")


def test_first_of_several(place, choose):
    """Of links that aren't followed the first is named, with how many there are; and so is the first folder that others may write into, and
    the first path that leads into the store."""
    store, outside = place / "several", place / "several-outside"
    lay_disks(store, choose)
    outside.mkdir()
    for number in (2, 5):
        (store / f"disk{number}").rename(outside / f"disk{number}")
        (store / f"disk{number}").symlink_to(outside / f"disk{number}")
    said = run("scrub", store, *DISKS, status=1)
    line = f"rebuild-store: {store}/disk2 and others are links, 2 in all, and aren't followed without --follow-links\n"
    hold(line in said, said)
    words = ["--progress", store / "disk1/d", "--report", store / "disk1/c"]
    said = run("scrub", store, *DISKS, *words, status=2)
    hold(f"{store}/disk1/c: is a file of the store, and no place for a report\n" in said, said)
    if is_root():
        for number in (3, 7):
            (store / f"disk{number}").chmod(0o777)
        for first in (store / "disk3", store):
            said = run("repair", store, *DISKS, status=2)
            hold(f"{first}: user 0 or others may write there" in said, said)
            store.chmod(0o777)


def test_root_in_folders_of_groups(place, choose):
    """Root writes into a folder that its own group may write into, and into one of another group that may not."""
    needs_root()
    for group, mode, status in ((0, 0o775, 0), (OTHER, 0o755, 0), (OTHER, 0o775, 2), (0, 0o757, 2)):
        store = place / f"group-{group}-{mode:o}"
        files = lay(store, choose)
        os.chown(store, 0, group)
        store.chmod(mode)
        (store / "s.x0").unlink()
        said = run("repair", store, status=status)
        hold((there(store) == files) == (status == 0), f"group {group}, mode {mode:o}: {said}")


def test_folders_after_the_place(place, choose):
    """A pattern may go into folders after the stripe and the place, too: what is there is found, repaired, and taken out."""
    store, source, names = place / "after", place / "file", ["--names", "{stripe}/{place}/deep/data"]
    source.write_bytes(choose.randbytes(900))
    run("encode", "--make-folders", *names, store, source, status=0)
    files = below(store)
    hold("file/y1/deep/data" in files and len([name for name in files if name.endswith("/data")]) == 10, f"{sorted(files)}")
    (store / "file/y1/deep/data").unlink()
    hold("file/y1/deep/data: is lost\n" in run("scrub", *names, store, status=1), "a lost fragment isn't said")
    said = run("repair", *names, store, status=0)
    hold(below(store) == files and "repaired 1 fragment, 150 bytes (0 unchecked)" in said, said)
    hold("whole 900 6-2-2 10/10 file\n" in run("list", *names, store, status=0), "it isn't listed")
    run("remove", *names, store, "file", status=0)
    hold(set(below(store)) <= {"SHA256SUMS"}, f"{sorted(below(store))} stay")


def test_survivor_that_fails_is_said_once(place, choose):
    """A survivor that can't be opened or read is said once, also where few are read first and then all, and in a dry run."""
    calls, store = Calls(place, forks=True), place / "said-once"
    files = lay(store, choose)
    listed = "".join(f"{digest(data)}  {name}\n" for name, data in files.items())
    said = "s.x1: can't be read: Input/output error\n"
    for sums, words in ((None, []), (None, ["--reads", "few"]), (None, ["-n"]), (listed, []), (listed, ["-n", "--reads", "few"])):
        (store / "SHA256SUMS").unlink(missing_ok=True)
        if sums:
            (store / "SHA256SUMS").write_text(sums)
        command, tried = [PROGRAM, "repair", store, "--code", "6-2-2", "--workers", "1", *words], set()
        (store / "s.x0").unlink(missing_ok=True)
        for number, kind in enumerate(calls.run(command).kinds, 1):
            if kind in ("open", "read") and kind not in tried:
                (store / "s.x0").unlink(missing_ok=True)
                ended = calls.run(command, number, errno.EIO, rest="path")
                if ended.paths == (str(store / "s.x1"),):
                    tried.add(kind)
                    hold(ended.status == 3 and (ended.out + ended.err).count(said) == 1, f"{words}, {kind}: {ended.text()}")
                    hold("-n" in words or (store / "s.x0").read_bytes() == files["s.x0"], f"{words}, {kind}: {ended.text()}")
        hold("open" in tried, f"{words}: s.x1 isn't opened")


def test_second_of_two_differs_from_its_digest(place, choose):
    """Of two fragments that few survivors give the second differs from its digest: all are read, and nothing is made of a contradiction."""
    store = place / "second-differs"
    files = lay_listed(store, choose, ["s.x0", "s.y0"])
    (store / "s.y1").write_bytes(bytes(255 - byte for byte in files["s.y1"]))
    for name in ("s.x0", "s.y0"):
        (store / name).unlink()
    before = there(store)
    said = run("repair", store, "--code", "6-2-2", status=1)
    hold("s: contradiction: one of these is damaged: " in said and there(store) == before, f"{sorted(there(store))}: {said}")


def test_leftover_of_a_stripe_that_changes(place, choose):
    """What was made of a stripe that changes meanwhile, and can't be taken away, is said, with the status of a device."""
    calls, store = Calls(place, forks=True), place / "changes"
    lay(store, choose, length=200_000)
    command = [PROGRAM, "repair", store, "--code", "6-2-2", "--reads", "all", "--workers", "1"]
    (store / "s.x1").unlink()
    last = max(number for number, kind in enumerate(calls.run(command).kinds, 1) if kind == "read")
    (store / "s.x1").unlink()
    changed = pathlib.Path(calls.run(command, last, errno.EIO).paths[0])
    (store / "s.x1").unlink()
    with waiting(calls, place, command, last) as go_on:
        made, = store.glob(".rebuild-store-*")
        made.unlink()
        made.mkdir()
        os.utime(changed)
        status, said = go_on()
    hold(f"{changed.name}: changed meanwhile: nothing of its stripe is put in its place\n" in said, said)
    line = f"s: was left over, or isn't known to be on the disk: {made}: Is a directory\n"
    hold(status == 3 and line in said, f"status {status}: {said}")
    hold(not (store / "s.x1").exists(), "a fragment was made of a stripe that changed")


def test_lock_that_is_gone(place, choose):
    """A run of a part whose lock somebody takes away meanwhile ends as it would."""
    calls, store = Calls(place, forks=True), place / "gone-lock"
    files = lay(store, choose)
    command = [PROGRAM, "repair", store, "--workers", "1", "--part", "1/1"]
    (store / "s.x0").unlink()
    number = calls.run(command).kinds.index("link") + 1
    (store / "s.x0").unlink()
    with waiting(calls, place, command, number) as go_on:
        (store / ".rebuild-store-part-1-of-1").unlink()
        status, said = go_on()
    hold(status == 0 and there(store) == files, f"status {status}: {sorted(there(store))}: {said}")


def test_links_below_real_folders(place, choose):
    """A disk's folder that is a link isn't written through either where the folder that it is in is none."""
    store, outside, source = place / "below-real", place / "below-outside", place / "below-source"
    names = ["--code", "6-2-2", "--names", "in/disk{shard}/{stripe}"]
    store.mkdir()
    lay_disks(store / "in", choose)
    source.write_bytes(b"source")
    outside.mkdir()
    shutil.rmtree(store / "in/disk3")
    (store / "in/disk3").symlink_to(outside)
    before = below(store)
    said = run("repair", store, *names, status=3)
    for name in "ab":
        hold(f"in/disk3/{name}: can't be put in its place: its folder is a link, and links aren't followed\n" in said, said)
    said = run("encode", store, source, *names, status=3)
    hold("its folder is a link" in said and not [*outside.iterdir()] and below(store) == before, f"{sorted(below(store))}: {said}")


def test_order_of_what_is_said(place, choose):
    """What is said of fragments of a stripe that differ from their digests comes in the order of their places."""
    store = place / "in-order"
    files = lay_listed(store, choose, [f"s.{name}" for name in ("x1", "y0", "y2", "p0")])
    wrong = ("x1", "y2", "p0")
    for name in wrong:
        (store / f"s.{name}").write_bytes(bytes(255 - byte for byte in files[f"s.{name}"]))
    lines = "".join(f"s.{name}: differs from the checksums\n" for name in wrong)
    for words, status in ((["scrub"], 1), (["repair", "--reads", "all"], 1), (["repair", "-n", "--reads", "all"], 1)):
        said = run(*words, store, status=status)
        hold(lines in said and said.count("\n") == 4, f"{words}: {said}")


def test_limit_met_in_a_later_window(place, choose):
    """A fragment that would pass the limit on files' lengths with a later window of it ends no run, also where each window is shorter."""
    store = place / "limited"
    files = lay(store, choose, length=150_000)
    (store / "s.y1").write_bytes(files["s.y1"][:-1] + bytes([files["s.y1"][-1] ^ 1]))
    before = there(store)

    def limit():
        resource.setrlimit(resource.RLIMIT_FSIZE, (100_000, resource.getrlimit(resource.RLIMIT_FSIZE)[1]))

    said = run("repair", "--replace-damaged", store, status=3, preexec_fn=limit)
    hold("s.y1: can't be put in its place: would be longer than files may get here: ulimit -f\n" in said, said)
    hold(there(store) == before, f"{sorted(there(store))}")


def test_rights_that_groups_have(place, choose):
    """New files have the rights that the user's mask leaves, a group's too. A fragment and a description get all rights to read and write
    that the others of their stripe have, and what replaces a file all rights of this."""
    store, source, report, out = (place / name for name in ("granted", "file", "report", "out"))
    source.write_bytes(choose.randbytes(900))
    run("encode", store, source, status=0, umask=0o002)
    run("scrub", store, "--report", report, status=0, umask=0o002)
    run("read", store, "file", "-o", out, status=0, umask=0o002)
    modes = {path.name: path.stat().st_mode & 0o7777 for path in (*store.iterdir(), report, out)}
    hold(set(modes.values()) == {0o664}, f"{[f'{name}: {mode:o}' for name, mode in modes.items() if mode != 0o664]}")
    for mode, kept in ((0o666, 0o666), (0o662, 0o662), (0o777, 0o666)):
        for path in store.iterdir():
            path.chmod(mode)
        for name in ("file.x0", "file.file"):
            (store / name).unlink()
        run("repair", store, status=0, umask=0o022)
        for name in ("file.x0", "file.file"):
            found = (store / name).stat().st_mode & 0o7777
            hold(found == kept, f"{name} beside others of mode {mode:o} has {found:o}")
    for path, words in ((report, ["scrub", store, "--report", report]), (out, ["read", store, "file", "-o", out])):
        path.chmod(0o777)
        run(*words, status=0, umask=0o022)
        hold(path.stat().st_mode & 0o7777 == 0o777, f"{path.name} has other rights now: {path.stat().st_mode:o}")


def test_nothing_is_left_beside_outputs_that_fail(place, choose):
    """Whichever call fails from the first new file on, nothing is left beside a report, a file that is read, or a description that was to
    be replaced."""
    calls, store, source, folder = Calls(place, forks=True), place / "outputs", place / "file", place / "outputs-folder"
    source.write_bytes(choose.randbytes(900))
    run("encode", store, source, status=0)
    folder.mkdir()
    out, copy = folder / "out", store / "file.file"
    for words, path in ((["scrub", store, "--report", out], out), (["read", store, "file", "-o", out], out),
                        (["repair", "--replace-damaged", "--workers", "1", store], copy)):
        for older in (b"older",) if path == copy else (None, b"older"):
            def anew():
                (store / "file.file.damaged").unlink(missing_ok=True)
                path.unlink(missing_ok=True) if older is None else path.write_bytes(older)
                return [PROGRAM, *words]

            kinds = calls.run(anew()).kinds
            for number in range(kinds.index("create") + 1, len(kinds) + 1):
                kind = kinds[number - 1]
                if kind in ("unlink", "output"):
                    continue
                ended = calls.run(anew(), number, errno.ENOSPC)
                left = [it.name for it in path.parent.iterdir() if it.name.startswith(".rebuild-store-")]
                hold(not left, f"{words[0]}, call {number}, {kind}: left {left}: {ended.text()}")


def test_reading_beside_fragments_of_other_lengths(place, choose):
    """A fragment of another length is left out where a file is read, and so is one on a disk whose folder is a file, of which a description
    is as good as lost."""
    store, data, _ = encoded_disks(place, choose)
    names = DISKS[2:]
    for number, path in ((1, store / "disk1/note"), (4, store / "disk4/note")):
        path.write_bytes(path.read_bytes()[:-1] if number == 1 else path.read_bytes() + b"more")
    shutil.rmtree(store / "disk7")
    (store / "disk7").write_bytes(b"")
    ended = subprocess.run([PROGRAM, "read", store, "note", *names], capture_output=True, timeout=SECONDS)
    said = "".join(f"rebuild-store: disk{number}/note: left out: {why}\n"
                   for number, why in ((1, "unexpected end of file"), (4, "unexpected end of file"), (7, "Not a directory")))
    hold((ended.returncode, ended.stdout, ended.stderr.decode()) == (0, data, said), ended.stderr.decode())
    ended = subprocess.run([PROGRAM, "verify", store, "note", *names], capture_output=True, timeout=SECONDS)
    hold(ended.returncode == 0 and b"verified 1 file; not as described: 0\n" in ended.stdout, f"{ended}")


def test_digests_whose_rights_cannot_be_seen(place, choose):
    """Where the rights of the digests can't be seen they aren't written anew with others."""
    calls, store, source = Calls(place, forks=True), place / "unseen", place / "file"
    source.write_bytes(choose.randbytes(900))
    run("encode", store, source, status=0)
    sums, tried = store / "SHA256SUMS", 0
    sums.chmod(0o604)
    command = [PROGRAM, "encode", "--as", "other", store, source]
    before = there(store)

    def begun(*how):
        shutil.rmtree(store)
        store.mkdir()
        for name, data in before.items():
            (store / name).write_bytes(data)
        sums.chmod(0o604)
        return calls.run(command, *how)

    for number, kind in enumerate(begun().kinds, 1):
        if kind == "look":
            ended = begun(number, errno.EIO)
            if ended.paths == (str(sums),):
                tried += 1
                hold(ended.status == 3 and sums.read_bytes() == before["SHA256SUMS"], f"call {number}: {ended.text()}")
                hold(sums.stat().st_mode & 0o7777 == 0o604, f"call {number}: the digests have other rights")
    hold(tried > 1, f"the digests are looked at {tried} times")


def test_damage_that_is_met_elsewhere(place, choose):
    """What turns out to be damaged, or can't be opened, of the few that are read for a lost fragment is made again in another folder too,
    and a dry run counts it."""
    calls, store, to = Calls(place, forks=True), place / "met", place / "met-to"
    files = lay_listed(store, choose, [f"s.{it}" for it in ("x0", "x1", "x2", "px")])
    (store / "s.x1").write_bytes(bytes(255 - byte for byte in files["s.x1"]))
    (store / "s.x0").unlink()
    to.mkdir()
    said = run("repair", store, "--to", to, status=0)
    hold(there(to) == {name: files[name] for name in ("s.x0", "s.x1")} and "damaged: 1: s.x1; not possible: 0\n" in said, said)
    (store / "s.x1").write_bytes(files["s.x1"])
    (store / "SHA256SUMS").unlink()
    command, tried = [PROGRAM, "repair", store, "--code", "6-2-2", "--to", to, "-n", "--workers", "1"], 0
    for number, kind in enumerate(calls.run(command).kinds, 1):
        if kind == "open":
            ended = calls.run(command, number, errno.EIO, rest="path")
            if ended.paths == (str(store / "s.x1"),):
                tried += 1
                hold(ended.status == 3 and "; 2 can be rebuilt (" in ended.out, ended.text())
    hold(tried > 0, "s.x1 isn't opened")


def test_digests_that_cannot_be_read(place, choose):
    """Digests of which a part can't be read are a failed device for each command that needs them, and nothing is changed: no line of them
    is lost."""
    calls, store, source = Calls(place, forks=True), place / "unread-sums", place / "file"
    source.write_bytes(choose.randbytes(900))
    run("encode", store, source, status=0)
    with open(store / "SHA256SUMS", "a") as sums:
        sums.writelines(f"{digest(b'')}  another-{number}\n" for number in range(500))
    (store / "file.x0").unlink()
    before, tried = there(store), 0
    source.write_bytes(choose.randbytes(901))
    for words in (["scrub", store], ["lost", store], ["repair", store], ["encode", "--replace", store, source], ["remove", store, "file"]):
        def anew():
            shutil.rmtree(store)
            store.mkdir()
            for name, data in before.items():
                (store / name).write_bytes(data)
            return [PROGRAM, *words]

        for number, kind in enumerate(calls.run(anew()).kinds, 1):
            if kind == "read":
                ended = calls.run(anew(), number, errno.EIO)
                if ended.paths == (str(store / "SHA256SUMS"),):
                    tried += 1
                    hold(ended.status == 3 and "SHA256SUMS: Input/output error\n" in ended.err, f"{words[0]}: {ended.text()}")
                    hold(there(store) == before, f"{words[0]} changed the store")
    hold(tried > 10, f"the digests are read {tried} times")


def test_all_that_differ_are_replaced(place, choose):
    """Each fragment of a stripe that differs from its digest is replaced, and kept."""
    store = place / "all-replaced"
    files = lay_listed(store, choose, [f"s.{it}" for it in ("x1", "y0", "y2")])
    wrong = {"s.x1": bytes(255 - byte for byte in files["s.x1"]), "s.y2": bytes(600)}
    for name, data in wrong.items():
        (store / name).write_bytes(data)
    before = there(store)
    said = run("repair", "--replace-damaged", store, status=0)
    hold("repaired 2 fragments, 1.1 KiB (0 unchecked); damaged: 2: s.x1 s.y2; not possible: 0\n" in said, said)
    wanted = {**before, **files, **{f"{name}.damaged": data for name, data in wrong.items()}}
    hold(there(store) == wanted, f"{sorted(name for name in wanted if there(store).get(name) != wanted[name])}: {said}")


def test_folders_of_unfinished_files(place, choose):
    """A new file is in the folder in which it is to get its name, on that disk, also where a link leads there."""
    calls, store, outside = Calls(place, forks=True), place / "folders", place / "folders-outside"
    lay_disks(store, choose, names=("a",))
    outside.mkdir()
    for lost, folder in ((store / "disk3/a", store / "disk3"), (store / "disk5/a", outside)):
        def lose():
            lost.unlink(missing_ok=True)
            if folder == outside:
                (outside / "there").unlink(missing_ok=True)
                lost.symlink_to(outside / "there")
            return [PROGRAM, "repair", store, *DISKS, "--follow-links", "--workers", "1"]

        number = calls.run(lose()).kinds.index("link") + 1
        with waiting(calls, place, lose(), number) as go_on:
            made = [path.parent for path in place.rglob(".rebuild-store-*")]
            status, said = go_on()
        hold(status == 0 and made == [folder], f"{lost}: files in {made}: status {status}: {said}")


def tried(place, name):
    """Runs a test, and gives how many checks passed, why it failed, and why it was left out."""
    global passed
    passed, fault, left_out, folder = 0, "", "", place / name
    folder.mkdir()
    try:
        globals()[name](folder, random.Random(name))
    except Fault as why:
        fault = f"{name}: {why}"
    except Skipped as why:
        left_out = f"{name}: {why}"
    shutil.rmtree(folder)
    return passed, fault, left_out


def main(program=None, only=""):
    global PROGRAM
    PROGRAM = pathlib.Path(program or PROGRAM).resolve()
    tests = [only] if only in globals() else [name for name in globals() if name.startswith("test_") and only in name]
    with tempfile.TemporaryDirectory() as scratch, multiprocessing.get_context("fork").Pool(maxtasksperchild=1) as pool:
        place = pathlib.Path(scratch)
        place.chmod(0o755)
        ended = pool.map(functools.partial(tried, place), tests, chunksize=1)
    faults, skipped = [fault for _, fault, _ in ended if fault], [why for _, _, why in ended if why]
    for why in skipped:
        print(f"store-strangers skipped: {why}")
    for fault in faults:
        print(f"store-strangers: {fault}", file=sys.stderr)
    print(f"store-strangers: {sum(count for count, _, _ in ended)} passed, {len(faults)} failed, {len(skipped)} skipped")
    sys.exit(1 if faults else 0)


if __name__ == "__main__":
    main(*sys.argv[1:3])
