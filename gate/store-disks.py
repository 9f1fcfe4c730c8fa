#!/usr/bin/env python3
"""Tries rebuild-store on disks of its own: one that fills, one that is read-only, one beside the store's to which links lead, and one
that is copied right after the end, as a cut of the power leaves it.

    store-disks.py [PROGRAM]

The disks are in memory, or a file with ext4, in a namespace of mounts that ends with this script. What can't be mounted here, and what root
alone can try, is said to be skipped."""

import errno
import os
import pathlib
import random
import shutil
import subprocess
import sys
import tempfile

# No compiled copy of the modules is left beside them.
sys.dont_write_bytecode = True
ROOT = pathlib.Path(__file__).resolve().parent.parent
sys.path.append(str(ROOT / "tools"))
import refusals  # noqa: E402
from faults import Calls  # noqa: E402
from store import stripe  # noqa: E402

PROGRAM = ROOT / "crates/rebuild_store/out/rebuild_store"
KIB = 1024
NOBODY = 65_534
passed, skipped, faults = 0, [], []


class Fault(Exception):
    """A run that ended as none may."""


class Skipped(Exception):
    """What can't be tried here."""


def hold(holds, what):
    global passed
    if not holds:
        raise Fault(what)
    passed += 1


def run(*words, status, program=None, **how):
    """Runs the program, holds its status to this one, and gives all that it says."""
    ended = subprocess.run([program or PROGRAM, *map(str, words)], stdin=subprocess.DEVNULL, capture_output=True, timeout=300, **how)
    said = (ended.stdout + ended.stderr).decode(errors="replace")
    hold(ended.returncode == status, f"{' '.join(map(str, words))}: status {ended.returncode}, not {status}: {said}")
    return said


def system(*words):
    ended = subprocess.run(list(map(str, words)), capture_output=True, text=True)
    if ended.returncode != 0:
        raise Skipped(f"{words[0]} {words[-1]}: {ended.stderr.strip()}")


def mount(folder, size):
    folder.mkdir()
    system("mount", "-t", "tmpfs", "-o", f"size={size}", "tmpfs", folder)


def lay(folder, stripes, mode=0o644):
    """Writes stripes into a folder, and gives the bytes of its files by their names."""
    files = {f"{name}.{place}": data for name, fragments in stripes.items() for place, data in fragments.items()}
    folder.mkdir(exist_ok=True)
    for name, data in files.items():
        (folder / name).write_bytes(data)
        (folder / name).chmod(mode)
    return files


def bytes_of(path):
    """A file's bytes, or none where there is no file."""
    return path.read_bytes() if path.is_file() else None


def hold_whole(folder, files, but=()):
    there = {path.name: path.read_bytes() for path in folder.iterdir() if path.name not in but}
    hold(there == files, f"isn't whole: {sorted(name for name in there.keys() | files.keys() if there.get(name) != files.get(name))}")


def hold_named(said, name, why):
    hold(any(name in line and why in line for line in said.splitlines()), f"no line names {name} and says {why!r}: {said}")


def test_full(place, choose):
    """A disk with room for three of six rebuilt fragments: these come, and a small one; the others are named, and come with more room."""
    disk = place / "full"
    mount(disk, 2_000 * KIB)
    stripes = {f"s{k}": stripe("6-2-2", 16 * KIB, choose) for k in range(6)} | {"t": stripe("6-2-2", 100, choose)}
    store = disk / "store"
    files = lay(store, stripes)
    lost = [f"s{k}.x{k % 3}" for k in range(6)] + ["t.y1"]
    for name in lost:
        (store / name).unlink()
    taken = shutil.disk_usage(disk).used
    system("mount", "-o", f"remount,size={taken + 3 * 16 * KIB + 4 * KIB}", disk)
    said = run("repair", store, "--workers", 1, status=3)
    there = [name for name in lost if (store / name).exists()]
    hold(len(there) == 4 and "t.y1" in there, f"rebuilt {there}: {said}")
    for name in lost:
        if name in there:
            hold((store / name).read_bytes() == files[name], f"{name} isn't whole")
        else:
            hold_named(said, name, "No space left on device")
    hold("repaired 4 " in said, said)
    hold(len(list(store.iterdir())) == len(files) - 3, f"left {sorted(path.name for path in store.iterdir() if path.name not in files)}")
    system("mount", "-o", f"remount,size={2_000 * KIB}", disk)
    run("repair", store, status=0)
    hold_whole(store, files)


def test_most_lost_first(place, choose):
    """A disk with room for three rebuilt fragments: they are those of the stripe that lost three, and not of the one before it by name."""
    disk = place / "urgent"
    mount(disk, 2_000 * KIB)
    store = disk / "store"
    files = lay(store, {"a": stripe("6-2-2", 16 * KIB, choose), "b": stripe("6-2-2", 16 * KIB, choose)})
    lost = ["a.x0", "b.x0", "b.y1", "b.p0"]
    for name in lost:
        (store / name).unlink()
    taken = shutil.disk_usage(disk).used
    system("mount", "-o", f"remount,size={taken + 3 * 16 * KIB + 4 * KIB}", disk)
    said = run("repair", store, "--workers", 1, status=3)
    there = [name for name in lost if (store / name).exists()]
    hold(there == lost[1:], f"rebuilt {there}: {said}")
    hold_named(said, "a.x0", "No space left on device")
    system("mount", "-o", f"remount,size={2_000 * KIB}", disk)
    run("repair", store, status=0)
    hold_whole(store, files)


def test_read_only(place, choose):
    """A disk that is mounted read-only can be listed and scrubbed; a repair names what it can't write, and changes nothing."""
    disk = place / "read-only"
    mount(disk, 2_000 * KIB)
    store = disk / "store"
    files = lay(store, {"a": stripe("6-2-2", 100, choose), "b": stripe("6-2-2", 100, choose)})
    (store / "a.x0").unlink()
    (store / "b.p1").unlink()
    system("mount", "-o", "remount,ro", disk)
    run("lost", store, status=1)
    run("scrub", store, status=1)
    run("repair", store, "--dry-run", status=1)
    said = run("repair", store, status=3)
    for name in ("a.x0", "b.p1"):
        hold_named(said, name, "Read-only file system")
    system("mount", "-o", "remount,rw", disk)
    run("repair", store, status=0)
    hold_whole(store, files)


def test_links(place, choose):
    """Where a fragment is a link and links are followed, what it leads to is replaced, on its own disk, and the link stays."""
    disk = place / "linked"
    mount(disk, 2_000 * KIB)
    stripes = {f"s{k}": stripe("6-2-2", 3_000, choose) for k in range(5)}
    store = place / "links"
    files = lay(store, stripes)
    (disk / "there").mkdir()
    for name, kept in (("s0.x0", None), ("s1.x1", b"short"), ("s2.y0", bytes(3_000)), ("s3.p0", files["s3.p0"])):
        (store / name).unlink()
        (store / name).symlink_to(disk / "there" / name)
        if kept is not None:
            (disk / "there" / name).write_bytes(kept)
    (store / "s4.x0").unlink()
    (store / "s4.x0").symlink_to(disk / "not-there/s4.x0")
    said = run("repair", store, "--replace-damaged", "--follow-links", status=3)
    hold_named(said, "s4.x0", "")
    hold((store / "s4.x0").is_symlink() and not (store / "s4.x0").exists(), "a link into a folder that isn't there was changed")
    for name in ("s0.x0", "s1.x1", "s2.y0", "s3.p0"):
        hold((store / name).is_symlink(), f"{name} is no link any longer: {said}")
        hold(bytes_of(disk / "there" / name) == files[name], f"what {name} leads to isn't whole: {said}")
    for name, kept in (("s1.x1", b"short"), ("s2.y0", bytes(3_000))):
        both = [path for path in (store / f"{name}.damaged", disk / "there" / f"{name}.damaged") if path.exists()]
        hold(both and bytes_of(both[0]) == kept, f"{name} isn't kept: {said}")
    left = [path for path in disk.rglob("*") if path.is_file() and path.name.removesuffix(".damaged") not in files]
    hold(not left, f"left {left}")


def test_long_names(place, choose):
    """A damaged fragment whose name has no room for an ending is named and left; its stripe's lost one comes back, and so do the others."""
    store = place / "long-names"
    name = "n" * 250
    files = lay(store, {name: stripe("6-2-2", 50, choose), "s": stripe("6-2-2", 50, choose)})
    (store / f"{name}.x1").write_bytes(bytes(50))
    for lost in (f"{name}.y0", "s.x0"):
        (store / lost).unlink()
    for turn in range(2):
        said = run("repair", store, "--replace-damaged", status=3)
        hold_named(said, f"{name}.x1", "its folder takes no name as long as that of a fragment which is kept")
        hold((store / f"{name}.x1").read_bytes() == bytes(50), "it was replaced and isn't kept")
    (store / f"{name}.x1").write_bytes(files[f"{name}.x1"])
    hold_whole(store, files)


def test_leftover_folder(place, choose):
    """A folder with the name of a leftover stays, and keeps no repair from its work."""
    store = place / "leftover"
    files = lay(store, {"s": stripe("6-2-2", 50, choose)})
    (store / "s.x0").unlink()
    (store / ".rebuild-store-0123456789abcdef").mkdir()
    run("repair", store, status=0)
    hold(bytes_of(store / "s.x0") == files["s.x0"], "nothing was repaired beside a folder with the name of a leftover")


def test_unmounted(place, choose):
    """Nothing is made at the mount point of a disk that isn't mounted, also not under a temporary name, which a kill would leave there."""
    words = ["--code", "6-2-2", "--names", "disk{shard}/{stripe}", "-j", "1"]
    source = place / "source"
    source.write_bytes(choose.randbytes(5_000))
    for number in range(10):
        mount(place / f"disk{number}", 512 * KIB)
        (place / f"disk{number}").chmod(0o755)
    run("encode", *words[:4], place, source, status=0)
    system("umount", place / "disk3")
    ended = Calls(place).run([PROGRAM, "repair", *words, place])
    hold(ended.status == 3 and "create" not in ended.kinds, f"a file was made: {ended.text()}")
    # So it is where the store is given by a link that is in another file system.
    mount(place / "of-a-link", 64 * KIB)
    (place / "of-a-link/link").symlink_to(place)
    ended = Calls(place).run([PROGRAM, "repair", *words, place / "of-a-link/link"])
    hold(ended.status == 3 and "create" not in ended.kinds, f"a file was made: {ended.text()}")
    planned = run("repair", "--dry-run", *words, place, status=3)
    hold("2 can't" in planned and "can be made" not in planned, f"a plan makes something there: {planned}")
    for name in ("source", "source.file"):
        hold_named(ended.err, f"disk3/{name}", "No medium found")
        (place / "disk3" / name).write_bytes(b"other")
    said = run("repair", "--replace-damaged", *words, place, status=3)
    there = {path.name: path.read_bytes() for path in (place / "disk3").iterdir()}
    hold(there == {"source": b"other", "source.file": b"other"}, f"{sorted(there)}: {said}")


def test_unmounted_in_a_dry_run(place, choose):
    """A dry run says of fragments and descriptions where no disk is mounted what a repair does: they are left, also damaged ones."""
    words = ["--code", "6-2-2", "--names", "planned{shard}/{stripe}"]
    source = place / "source"
    source.write_bytes(choose.randbytes(5_000))
    for number in range(10):
        mount(place / f"planned{number}", 512 * KIB)
        (place / f"planned{number}").chmod(0o755)
    run("encode", *words, place, source, status=0)
    system("umount", place / "planned3")
    for files in ({}, {"source": b"other", "source.file": b"other"}):
        for name, data in files.items():
            (place / "planned3" / name).write_bytes(data)
        ended = []
        for more in (["--dry-run"], []):
            said = run("repair", "--replace-damaged", *more, *words, place, status=3)
            for name in ("source", "source.file"):
                hold_named(said, f"planned3/{name}", "No medium found")
            ended.append(sorted(line for line in said.splitlines() if "planned3/" in line))
            there = {path.name: path.read_bytes() for path in (place / "planned3").iterdir()}
            hold(there == files and "can be made" not in said and "would be rebuilt" not in said, f"{sorted(there)}: {said}")
        hold(ended[0] == ended[1], f"a dry run says {ended[0]}, and a repair {ended[1]}")


def test_unmounted_behind_links(place, choose):
    """Where links are followed, a disk whose folder is a link is mounted or not where that leads."""
    words = ["--code", "6-2-2", "--names", "disk{shard}/{stripe}"]
    store, source = place / "links-to-disks", place / "source"
    store.mkdir()
    source.write_bytes(choose.randbytes(5_000))
    for number in range(10):
        mount(place / f"behind{number}", 512 * KIB)
        (place / f"behind{number}").chmod(0o755)
        (store / f"disk{number}").symlink_to(place / f"behind{number}")
    run("encode", "--follow-links", *words, store, source, status=0)
    system("umount", place / "behind3")
    said = run("repair", "--follow-links", *words, store, status=3)
    hold_named(said, f"{store}/disk3", "no disk is mounted there")
    said = run("encode", "--follow-links", *words, store, source, status=1)
    hold_named(said, f"{store}/disk3", "no disk is mounted there")
    # Four of ten aren't mounted, and a fifth can't be looked at: most of those that can be are mounted.
    for number in (4, 5, 6):
        system("umount", place / f"behind{number}")
    (store / "disk9").unlink()
    (store / "disk9").symlink_to(store / "disk9")
    for command in (["repair"], ["repair", "--dry-run"]):
        said = run(*command, "--follow-links", *words, store, status=3)
        hold_named(said, f"{store}/disk6", "no disk is mounted there")
    made = [path for number in range(3, 7) for path in (place / f"behind{number}").iterdir()]
    hold(not made, f"something was made where no disk is mounted: {made}: {said}")


def test_unmounted_beside_faults(place, choose):
    """Nothing is made where no disk is mounted, also if a call fails that looks at something, or memory is refused."""
    words = ["--code", "6-2-2", "--names", "faulty{shard}/{stripe}"]
    source, calls, library = place / "source", Calls(place), refusals.Library(place)
    source.write_bytes(choose.randbytes(50))
    for number in range(10):
        mount(place / f"faulty{number}", 512 * KIB)
        (place / f"faulty{number}").chmod(0o755)
    run("encode", *words, place, source, status=0)
    system("umount", place / "faulty3")
    repair = [PROGRAM, "repair", *words, "-j", "1", place]
    for number, kind in enumerate(calls.run(repair).kinds, 1):
        if kind == "look":
            ended = calls.run(repair, number, errno.EIO)
            hold(not [*(place / "faulty3").iterdir()], f"call {number} made something: {ended.text()}")
    many = library.run(repair).allocations
    for number in range(max(1, many - 250), many + 1):
        ended = library.run(repair, refusal=refusals.Refusal(allocation=number))
        hold(not [*(place / "faulty3").iterdir()], f"allocation {number} of {many} made something: {ended.text()}")


def test_memory_beside_another_run(place, choose):
    """Where nothing is known of locks, a run that is refused memory leaves no lock, and what a run of another host may still work on."""
    disk, library, many = place / "unknown", refusals.Library(place), 0
    disk.mkdir()
    system("mount", "-t", "ramfs", "ramfs", disk)
    disk.chmod(0o755)
    lay(disk, {"s": stripe("6-2-2", 40, choose)})
    other, repair = disk / ".rebuild-store-7@beta-0123456789abcdef", [PROGRAM, "repair", "-j", "1", disk]
    for turn in range(-1, 310):
        (disk / "s.x1").unlink(missing_ok=True)
        other.write_bytes(b"half")
        ended = library.run(repair, refusal=refusals.Refusal(allocation=many - turn)) if many else library.run(repair)
        many = many or ended.allocations
        left = sorted(path.name for path in disk.iterdir() if path.name.startswith(".rebuild-store-"))
        hold(left == [other.name], f"allocation {many - turn} of {many} leaves {left}: {ended.text()}")


def test_missing_beside_mounted(place, choose):
    """A disk whose folder isn't there, or is a file, is missing, and none that isn't mounted, as one of the (12,2,2) code's last is."""
    words, places = ["--code", "12-2-2", "--names", "all/{place}/{stripe}"], [*stripe("12-2-2", 1, choose)]
    store, source = place / "some-missing", place / "source"
    (store / "all").mkdir(parents=True)
    source.write_bytes(choose.randbytes(5_000))
    for name in places:
        mount(store / "all" / name, 512 * KIB)
        (store / "all" / name).chmod(0o755)
    try:
        run("encode", *words, store, source, status=0)
        for name in ("x2", "y0", "x5"):
            system("umount", store / "all" / name)
        (store / "all/x2").rmdir()
        (store / "all/y0").rmdir()
        (store / "all/y0").write_bytes(b"")
        for words_of_it, status in ((["scrub"], 1), (["repair", "--dry-run"], 3), (["repair"], 3)):
            said = run(*words_of_it, *words, store, status=status)
            for name, why in (("x2", "No such file or directory"), ("y0", "Not a directory")):
                hold_named(said, f"{store}/all/{name}: ", f"{why}: what should be in it counts as lost")
            unmounted = [line for line in said.splitlines() if "no disk is mounted there" in line]
            hold(len(unmounted) == 1 and unmounted[0].startswith(f"rebuild-store: {store}/all/x5: "), f"{words_of_it}: {unmounted}")
        hold(not [*(store / "all/x5").iterdir()], f"something was made where no disk is mounted: {said}")
        said = run("encode", *words, store, source, status=1)
        hold_named(said, f"{store}/all/x5: ", "no disk is mounted there, as are at most others: mount it, or give --allow-unmounted")
        said = run("encode", "--allow-unmounted", *words, store, source, status=3)
        hold("no disk is mounted" not in said and not (store / "all/x2").exists(), said)
    finally:
        for name in places:
            subprocess.run(["umount", store / "all" / name], capture_output=True)


def is_root():
    """Whether this is root of the whole machine, and not of a namespace of users alone."""
    return os.geteuid() == 0 and pathlib.Path("/proc/self/uid_map").read_text().split()[:2] == ["0", "0"]


def as_nobody(place):
    """A copy of the program that each user can run, and how a process becomes such a user."""
    if os.geteuid() == 0 and not is_root():
        raise Skipped("there is no other user in this namespace")
    program = place / PROGRAM.name
    if not program.exists():
        shutil.copy(PROGRAM, program)
        program.chmod(0o755)
    return {"program": program, **({"user": NOBODY, "group": NOBODY, "extra_groups": []} if os.geteuid() == 0 else {})}


def test_other_users(place, choose):
    """Who may not write into the store, read a survivor or read the folder is told of which file."""
    who = as_nobody(place)
    store = place / "foreign"
    files = lay(store, {"a": stripe("6-2-2", 70, choose), "b": stripe("6-2-2", 70, choose)})
    (store / "a.x0").unlink()
    (store / "b.y1").unlink()
    store.chmod(0o555)
    said = run("repair", store, status=3, **who)
    for name in ("a.x0", "b.y1"):
        hold_named(said, name, "Permission denied")
    hold(len(list(store.iterdir())) == len(files) - 2, "something is left")
    store.chmod(0o300)
    hold_named(run("repair", store, status=3, **who), str(store), "Permission denied")
    store.chmod(0o777)
    (store / "a.px").chmod(0)
    said = run("repair", store, status=3, **who)
    hold_named(said, "a.px", "Permission denied")
    for name in ("a.x0", "b.y1"):
        hold(bytes_of(store / name) == files[name], f"{name} didn't come back: {said}")
    hold_named(run("scrub", store, status=3, **who), "a.px", "Permission denied")
    (store / "a.px").chmod(0o644)
    run("repair", store, status=0, **who)
    hold_whole(store, files)


def test_owner(place, choose):
    """A rebuilt fragment has the owner, the group and the rights of another of its stripe."""
    if not is_root():
        raise Skipped("only root can give files away")
    store = place / "owned"
    files = lay(store, {"a": stripe("6-2-2", 70, choose), "b": stripe("6-2-2", 70, choose)})
    for name in files:
        os.chown(store / name, *((1_234, 5_678) if name[0] == "a" else (0, 0)))
        (store / name).chmod(0o440 if name[0] == "a" else 0o600)
    for name in ("a.x0", "b.x0"):
        (store / name).unlink()
    run("repair", store, status=0)
    for name, wanted in (("a.x0", (1_234, 5_678, 0o440)), ("b.x0", (0, 0, 0o600))):
        about = (store / name).stat()
        hold((about.st_uid, about.st_gid, about.st_mode & 0o777) == wanted, f"{name} has another owner or mode than its stripe: {about}")


def after_a_cut(place, name, choose, environment):
    """Repairs a store on a disk of its own, and gives the bytes of the files that a copy of the disk has right after the end, and the bytes
    that it should have."""
    image, disk = place / f"{name}.image", place / name
    with open(image, "wb") as file:
        file.truncate(24 * KIB * KIB)
    system("mkfs.ext4", "-q", image)
    disk.mkdir()
    system("mount", "-o", "loop", image, disk)
    files = lay(disk / "store", {f"s{k}": stripe("6-2-2", 5_000, choose) for k in range(4)})
    for lost in ("s0.x0", "s1.p0", "s2.y1", "s2.px"):
        (disk / "store" / lost).unlink()
    (disk / "store/s3.x1").write_bytes(bytes(5_000))
    system("umount", disk)
    system("mount", "-o", "loop", image, disk)
    run("repair", disk / "store", "--replace-damaged", status=0, env=environment)
    copy = place / f"{name}.copy"
    shutil.copy(image, copy)
    system("umount", disk)
    system("mount", "-o", "loop", copy, disk)
    there = {path.name: path.read_bytes() for path in (disk / "store").iterdir()}
    system("umount", disk)
    return there, files | {"s3.x1.damaged": bytes(5_000)}


def test_cut(place, choose):
    """A copy of the disk that is taken right after the end, without a sync, holds everything; it doesn't where no sync is made."""
    if not is_root() or not os.path.exists("/dev/loop-control"):
        raise Skipped("no file can be mounted here")
    there, wanted = after_a_cut(place, "cut", choose, None)
    hold(there == wanted, f"the copy lacks {sorted(name for name in wanted if there.get(name) != wanted[name])}")
    library, record = place / "fail-call.so", place / "record"
    subprocess.run([os.environ.get("CC", "gcc"), "-O2", "-shared", "-fPIC", "-o", library, ROOT / "gate/fail-call.c"], check=True)
    record.write_bytes(bytes(65_536))
    unsynced = {"LD_PRELOAD": str(library), "FAIL_RECORD": str(record), "FAIL_HOW": "unsynced"}
    there, wanted = after_a_cut(place, "unsynced", choose, unsynced)
    hold(there != wanted, "a copy of a disk without any sync holds everything too, so this trial shows nothing")


def test_disks_alike(place, choose):
    """What has the numbers of a file and of a folder of the store on another disk is none of the store's: a report may be written there."""
    one, other = place / "one", place / "other"
    for disk in (one, other):
        mount(disk, 512 * KIB)
        disk.chmod(0o755)
    report = other / "s.x0"
    report.write_bytes(b"older")
    lay(one, {"s": stripe("6-2-2", 50, choose)})
    if (one.stat().st_ino, (one / "s.x0").stat().st_ino) != (other.stat().st_ino, report.stat().st_ino):
        raise Skipped("files on two disks have other numbers here")
    run("scrub", one, "--report", report, status=0)
    hold(report.read_text() == "stripe,place,outcome,detail\n", report.read_text())


def clear(place):
    """Takes away the disks of a trial, and lets its folders be removed."""
    for disk in place.iterdir():
        if os.path.ismount(disk):
            subprocess.run(["umount", disk], check=False)
        elif disk.is_dir():
            disk.chmod(0o700)


def main(program):
    global PROGRAM
    PROGRAM = pathlib.Path(program or PROGRAM).resolve()
    choose = random.Random(2026)
    tests = (test_full, test_most_lost_first, test_read_only, test_links, test_long_names, test_leftover_folder, test_unmounted,
             test_unmounted_in_a_dry_run, test_unmounted_behind_links, test_unmounted_beside_faults, test_memory_beside_another_run,
             test_missing_beside_mounted, test_other_users, test_owner, test_cut, test_disks_alike)
    with tempfile.TemporaryDirectory() as scratch:
        place = pathlib.Path(scratch)
        place.chmod(0o755)
        for test in tests:
            try:
                test(place, choose)
            except Fault as fault:
                faults.append(f"{test.__name__}: {fault}")
            except Skipped as why:
                skipped.append(f"{test.__name__}: {why}")
            finally:
                clear(place)
    for why in skipped:
        print(f"store-disks skipped: {why}")
    for fault in faults:
        print(f"store-disks: {fault}", file=sys.stderr)
    print(f"store-disks: {passed} passed, {len(faults)} failed, {len(skipped)} skipped")
    sys.exit(1 if faults else 0)


def in_own_mounts():
    """This script again, in a namespace of mounts that ends with it; where there can be none, in this one, in which nothing is mounted."""
    alone = ["unshare", "--mount", "--propagation", "private", *(["--user", "--map-root-user"] if os.geteuid() else [])]
    if shutil.which("unshare") and subprocess.run([*alone, "true"], capture_output=True).returncode == 0:
        os.execvp("unshare", [*alone, sys.executable, __file__, "--here", *sys.argv[1:]])
    main(*sys.argv[1:2] or [None])


if __name__ == "__main__":
    if sys.argv[1:2] == ["--here"]:
        main(*sys.argv[2:3] or [None])
    else:
        in_own_mounts()
