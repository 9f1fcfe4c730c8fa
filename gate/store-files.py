#!/usr/bin/env python3
"""Tries what keeps files in a store for long: listing, verifying, replacing and taking out, standard input and files that are read to, runs
that are killed at each call meanwhile, the limit on the length of files, disks that aren't mounted, and what is said without a terminal.

    store-files.py [PROGRAM [TEST]]

Each expected byte is worked out here, and what a run that was killed leaves is read by store-decoder.py, which is made from the page of the
form alone."""

import concurrent.futures
import errno
import functools
import hashlib
import json
import multiprocessing
import os
import pathlib
import random
import resource
import runpy
import shutil
import stat
import subprocess
import sys
import tempfile
import threading
import time

# No compiled copy of the modules is left beside them.
sys.dont_write_bytecode = True
ROOT = pathlib.Path(__file__).resolve().parent.parent
import refusals  # noqa: E402
from faults import Calls  # noqa: E402

PROGRAM = ROOT / "crates/rebuild_store/out/rebuild_store"
DECODED = runpy.run_path(str(ROOT / "gate/store-decoder.py"))["decoded"]
DISKS = ["--names", "disk{shard}/{stripe}"]
CODED = [*DISKS, "--code", "6-2-2"]
STAGED = ".rebuild-store-new"
# What a run that was killed has left: the digits are at random.
LEFTOVER = ".rebuild-store-0123456789abcdef"
PLACES = ("x0", "x1", "x2", "y0", "y1", "y2", "px", "py", "p0", "p1")
SECONDS = 300
passed = 0


class Fault(Exception):
    """A run that did what none may."""


class Skipped(Exception):
    """What can't be tried here."""


def hold(holds, what):
    global passed
    if not holds:
        raise Fault(what)
    passed += 1


def ran(*words, given=b"", **how):
    return subprocess.run([PROGRAM, *map(str, words)], input=given, capture_output=True, timeout=SECONDS, **how)


def run(*words, status, **how):
    """Runs the program, holds its status to this one, and gives what it writes to standard output and to standard error."""
    ended = ran(*words, **how)
    said = ended.stderr.decode(errors="replace")
    hold(ended.returncode == status, f"{' '.join(map(str, words))}: status {ended.returncode}, not {status}: {said}{ended.stdout[:300]!r}")
    return ended.stdout, said


def there(folder):
    """The bytes of the regular files below a folder, by their paths."""
    return {str(path.relative_to(folder)): path.read_bytes() for path in folder.rglob("*") if path.is_file() and not path.is_symlink()}


def sums_of(store):
    """The lines of the store's digests, by names."""
    lines = (store / "SHA256SUMS").read_text().splitlines()
    return {line[66:]: line[:64] for line in lines}


def are_right(store):
    """Whether the digests are those of the store's files, of each but themselves."""
    files = there(store)
    files.pop("SHA256SUMS", None)
    return sums_of(store) == {name: hashlib.sha256(data).hexdigest() for name, data in files.items()}


def decoded(store, name, *names):
    """The bytes of a file of the store; none where it can't be read."""
    try:
        return DECODED(store, name, *names)
    except (SystemExit, OSError, ValueError, LookupError):
        return None


def source(place, name, data):
    path = place / name
    path.write_bytes(data)
    return path


def test_list(place, choose):
    """Each file is listed with its bytes, and what is lost of it, as lines and as JSON."""
    store = place / "store"
    lengths = {"a": 0, "b c": 1, "d": 6_001}
    for name, length in lengths.items():
        run("encode", "--make-folders", *CODED, store, source(place, name, choose.randbytes(length)), status=0)
    out, err = run("list", *CODED, store, status=0)
    hold(out.decode() == "".join(f"whole {length} 6-2-2 10/10 {name}\n" for name, length in lengths.items()), out)
    hold(err == "3 files; not whole: 0\n", err)
    (store / "disk5/a.file").unlink()
    out, _ = run("list", *CODED, store, status=0)
    hold(out.startswith(b"degraded 0 6-2-2 10/10 a\nwhole "), out)
    shutil.rmtree(store / "disk3")
    (store / "disk3").symlink_to("disk3")
    _, err = run("list", "--follow-links", *CODED, store, status=3)
    hold("disk3: Too many levels of symbolic links: what should be in it counts as lost" in err, err)
    (store / "disk3").unlink()
    (store / "disk3").mkdir()
    for number in (0, 1, 2, 4, 5):
        (store / f"disk{number}/d").unlink()
    out, err = run("list", *CODED, store, "--json", status=0)
    states = {"a": ("degraded", 9), "b c": ("degraded", 9), "d": ("lost", 4)}
    want = [{"name": name, "bytes": length, "code": "6-2-2", "fragments": states[name][1], "lost": 10 - states[name][1],
             "state": states[name][0]} for name, length in lengths.items()]
    hold([json.loads(line) for line in out.splitlines()] == want, out)
    hold("3 files; not whole: 3" in err, err)
    # Of the four that are lost one can be rebuilt, in its group, and the others can't.
    def states():
        return [line.split()[0] for line in run("list", *CODED, store, status=0)[0].decode().splitlines()]

    whole = there(store)
    for number in (0, 1, 2, 3, 8):
        (store / f"disk{number}/b c").unlink(missing_ok=True)
    hold(states() == ["degraded", "lost", "lost"], states())
    # All fragments were cut to one length, which isn't that of the description.
    for number in range(10):
        (store / f"disk{number}/b c").write_bytes(b"")
    out, _ = run("list", *CODED, store, status=0)
    hold(b"lost 1 6-2-2 0/10 b c\n" in out, out)
    for path in store.glob("disk?/b c"):
        path.write_bytes(whole[str(path.relative_to(store))]) if str(path.relative_to(store)) in whole else path.unlink()
    for path in store.glob("disk*/a.file"):
        path.unlink()
    (store / "SHA256SUMS").unlink()
    out, _ = run("list", *CODED, store, status=0)
    rows = [json.loads(line) for line in run("list", *CODED, store, "--json", status=0)[0].splitlines()]
    hold(rows[0]["name"] == "a" and rows[0]["bytes"] is None and rows[0]["lost"] == 1, rows)
    hold(out.decode().splitlines()[0] == "whole - 6-2-2 9/10 a" or out.decode().splitlines()[0] == "degraded - 6-2-2 9/10 a", out)


def test_code_that_most_stripes_have(place, choose):
    """The code of a store with stripes of both is the one that the descriptions of most stripes say, however many copies these have."""
    names, store, other = ["--names", "{place}/{stripe}"], place / "store", place / "other"
    files = {name: source(place, name, choose.randbytes(100)) for name in ("n0", "n1", "n2", "w0", "w1")}
    for folder, code, letter in ((store, "6-2-2", "n"), (other, "12-2-2", "w")):
        some = [path for name, path in files.items() if name[0] == letter]
        run("encode", "--make-folders", "--code", code, *names, folder, *some, status=0)
        (folder / "SHA256SUMS").unlink()
    shutil.copytree(other, store, dirs_exist_ok=True)
    out, _ = run("list", *names, store, status=0)
    hold(out.startswith(b"".join(b"whole 100 6-2-2 10/10 n%d\n" % number for number in range(3)) + b"lost "), out)


def test_cut_to_nothing(place, choose):
    """A file all of whose fragments were cut to nothing isn't whole: the sums say so."""
    store = place / "store"
    run("encode", store, source(place, "a", choose.randbytes(90)), status=0)
    for path in store.glob("a.[xyp]?"):
        path.write_bytes(b"")
    for command in (["scrub"], ["repair", "--reads", "all"], ["verify"], ["read", "a"]):
        ended = ran(command[0], store, *command[1:])
        hold(ended.returncode == 1, f"{command}: {ended.returncode} {ended.stdout!r} {ended.stderr!r}")
    hold(run("scrub", store, status=1)[0].count(b"differs from the checksums") == 10, "not each fragment is said")


def test_verify(place, choose):
    """Files are held to their digests, all or those that are named, and nothing is written."""
    store, data = place / "store", choose.randbytes(70_000)
    run("encode", store, source(place, "a", data), source(place, "b", b"b"), status=0)
    (store / "a.x0").unlink()
    files = there(store)
    out, err = run("verify", store, status=0)
    hold(out == b"verified 2 files; not as described: 0\n" and "a.x0: left out" in err, out)
    out, err = run("verify", "-q", store, "b", status=0)
    hold(not out and not err, out)
    for place_name in ("x1", "x2", "y0", "p0"):
        with open(store / f"a.{place_name}", "r+b") as file:
            file.write(b"damaged!")
    out, err = run("verify", store, status=1)
    hold(out == b"verified 1 file; not as described: 1\n" and "a: the fragments that are there don't give" in err, err)
    out, err = run("verify", store, "b", "nothere", status=1)
    hold(f"nothere: is no file of the store {store}" in err, err)
    _, err = run("read", place / "nowhere", "a", status=3)
    hold(err == f"rebuild-store: {place}/nowhere: No such file or directory\n", err)
    for name in ("a.file", "a.file.copy"):
        (store / name).unlink()
    _, err = run("verify", store, "a", status=1)
    hold("a: no description is there" in err, err)
    for path in store.glob("a.*"):
        path.write_bytes(files[path.name])
    for name in ("a.file", "a.file.copy"):
        (store / name).write_bytes(files[name])
    hold(set(there(store)) == set(files), "verify changed what is in the store")


def test_verify_beside_a_folder_that_fails(place, choose):
    """Where a folder can't be listed, files may be missing from those that were verified: it is named, with a status that says so."""
    store = place / "store"
    run("encode", "--make-folders", *DISKS, store, source(place, "a", choose.randbytes(500)), status=0)
    shutil.rmtree(store / "disk3")
    run("verify", *DISKS, store, status=0)
    (store / "disk3").symlink_to("disk3")
    out, err = run("verify", "--follow-links", *DISKS, store, status=3)
    hold("disk3: Too many levels of symbolic links: what should be in it counts as lost" in err, err)
    hold(out == b"verified 1 file; not as described: 0\n", out)


def test_verify_what_cannot_be_read(place, choose):
    """A file of which too little can be read isn't taken for another one: what can't be read is named, with a status that says so."""
    store, calls, tried = place / "store", Calls(place, forks=True), set()
    run("encode", store, source(place, "a", choose.randbytes(6_000)), status=0)
    for name in ("x1", "x2", "y1", "p0"):
        (store / f"a.{name}").unlink()
    for command in (["verify", store, "a"], ["read", store, "a"], ["read", store, "a", "-o", place / "out"]):
        for number, kind in enumerate(calls.run([PROGRAM, *command]).kinds, 1):
            ended = calls.run([PROGRAM, *command], number, 5, rest="path") if kind in ("open", "read") else None
            if ended and ended.paths[0].startswith(f"{store}/a.") and ".file" not in ended.paths[0]:
                tried.add((command[0], kind))
                # Where some of it is written by then, the file is named in place of the fragment.
                named = [ended.paths[0], *(["a"] if command == ["read", store, "a"] else [])]
                said = any(f"rebuild-store: {name}: Input/output error" in ended.err for name in named)
                hold(ended.status == 3 and said, f"{kind}: {ended.text()}")
    hold(len(tried) == 4, tried)


def test_read_what_cannot_be_read_beside_another_description(place, choose):
    """That a fragment can't be read is what is said also where a copy of the description says another length, by which none is there."""
    store, calls = place / "store", Calls(place, forks=True)
    run("encode", store, source(place, "a", choose.randbytes(6_000)), status=0)
    for name in ("x1", "x2", "y1", "p0"):
        (store / f"a.{name}").unlink()
    text, command = (store / "a.file").read_bytes(), [PROGRAM, "read", store, "a"]
    for right, other in (("a.file", "a.file.copy"), ("a.file.copy", "a.file")):
        (store / right).write_bytes(text)
        (store / other).write_bytes(text.replace(b"6000 ", b"60000 ", 1))
        hold(run(*command[1:], status=0)[0] == (place / "a").read_bytes(), f"{right}: not the file")
        for number, kind in enumerate(calls.run(command).kinds, 1):
            if kind == "read":
                ended = calls.run(command, number, 5, rest="path")
                if ended.paths == (str(store / "a.x0"),):
                    break
        hold(ended.paths == (str(store / "a.x0"),) and ended.status == 3, f"{right}: {ended.text()}")
        hold(ended.err.endswith(f"rebuild-store: {store}/a.x0: Input/output error\n") and not ended.out, f"{right}: {ended.text()}")


def test_read_to_a_file(place, choose):
    """A file that is read to has its name when it is whole; what is there keeps its rights, a FIFO and a link stay."""
    store, data = place / "store", choose.randbytes(100_001)
    run("encode", store, source(place, "a", data), status=0)
    out = place / "out"
    run("read", store, "a", "-o", out, status=0, umask=0o027)
    hold(out.read_bytes() == data and out.stat().st_mode & 0o7777 == 0o640, "a file that is read isn't what it was")
    out.write_bytes(b"older")
    if os.geteuid() == 0:
        os.chown(out, 1_234, 5_678)
    out.chmod(0o604)
    before = out.stat()
    run("read", store, "a", f"--output={out}", status=0)
    now = out.stat()
    hold(out.read_bytes() == data and (now.st_mode, now.st_uid, now.st_gid) == (before.st_mode, before.st_uid, before.st_gid),
         f"a file that was there has another owner or other rights: {now}")
    for mode, kept in ((0o755, 0o755), (0o4755, 0o755), (0o400, 0o400)):
        out.chmod(mode)
        run("read", store, "a", "-o", out, status=0)
        hold(stat.S_IMODE(out.stat().st_mode) == kept, f"{mode:o}: {out.stat()}")
    link, behind, fifo = place / "link", place / "behind", place / "fifo"
    behind.write_bytes(b"x" * 200_000)
    link.symlink_to(behind)
    run("read", store, "a", "-o", link, status=0)
    hold(link.is_symlink() and behind.read_bytes() == data, "a link isn't written through")
    os.mkfifo(fifo)
    got = []
    reader = threading.Thread(target=lambda: got.append(fifo.read_bytes()), daemon=True)
    reader.start()
    run("read", store, "a", "-o", fifo, status=0)
    reader.join(SECONDS)
    hold(got == [data] and stat.S_ISFIFO(fifo.lstat().st_mode), "a FIFO isn't written")
    files = there(store)
    for name in ("a.x0", "new", "SHA256SUMS"):
        _, err = run("read", store, "a", "-o", store / name, status=2)
        hold("is in a folder of the store" in err and there(store) == files, err)
    disks = place / "disks"
    run("encode", "--make-folders", *DISKS, disks, place / "a", status=0)
    files = there(disks)
    for name in ("SHA256SUMS", "new", "disk3/a", "disk3/new"):
        _, err = run("read", *DISKS, disks, "a", "-o", disks / name, status=2)
        hold("is in a folder of the store" in err and there(disks) == files, err)
    wide, names = place / "wide", ["--names", "{place}/{stripe}"]
    run("encode", "--make-folders", "--code", "12-2-2", *names, wide, place / "a", status=0)
    files = there(wide)
    for folder in sorted(path for path in wide.iterdir() if path.is_dir()):
        _, err = run("read", *names, wide, "a", "-o", folder / "new", status=2)
        hold("is in a folder of the store" in err and there(wide) == files, err)
    hold(len(files) == 16 + 17 and len([*wide.iterdir()]) == 17, sorted(files))
    for path in (place / "nothere/out", "/dev/full"):
        _, err = run("read", store, "a", "-o", path, status=3)
        hold(err.startswith(f"rebuild-store: {path}: "), err)
    for name in ("x0", "x1", "x2", "y0", "y1"):
        (store / f"a.{name}").unlink()
    out.write_bytes(b"older")
    run("read", store, "a", "-o", out, status=1)
    hold(out.read_bytes() == b"older", "a file was replaced by what isn't whole")
    hold(not [*place.glob(".rebuild-store-*")], "a temporary file was left")


def test_read_to_a_path_that_leads_into_the_store(place, choose):
    """No file is read to a path in a folder below the store's, or whose links lead into one; the folder above it and a pipe are none."""
    names, store, data = ["--names", "{stripe}/{place}"], place / "store", choose.randbytes(3_000)
    run("encode", "--make-folders", *names, store, source(place, "a", data), source(place, "b", b"b"), status=0)
    (store / f"a{STAGED}").mkdir()
    (store / "b/deep").mkdir()
    way, link, chain = place / "way", place / "link", place / "chain"
    way.symlink_to(store / "b")
    chain.symlink_to(link.name)
    files = there(store)
    for inside in ("b/x0", "b/new", "b/deep/new", f"a{STAGED}/x0", "SHA256SUMS", "a/x1"):
        link.unlink(missing_ok=True)
        link.symlink_to(f"store/{inside}")
        for path in (store / inside, link, chain, way / "x0"):
            _, err = run("read", *names, store, "a", "-o", path, status=2)
            hold(err == f"rebuild-store: {path}: is in a folder of the store\n" and there(store) == files, f"{path}: {err}")
    # Nor where it can't be seen where a link leads.
    link.unlink()
    link.symlink_to("store/b/x0")
    calls, command = Calls(place, forks=True), [PROGRAM, "read", *names, store, "a", "-o", link]
    for number, kind in enumerate(calls.run(command).kinds, 1):
        if kind == "look":
            ended = calls.run(command, number, 5)
            hold(ended.status in (2, 3) and there(store) == files, f"call {number}: {ended.text()}")
    run("read", *names, ".", "a", "-o", "../out", status=0, cwd=store)
    hold((place / "out").read_bytes() == data, "nothing is read to the folder above the store's")
    gone = subprocess.run(["sh", "-c", 'exec > gone; rm gone; exec "$@"', "sh", PROGRAM, "read", *names, store, "a", "-o", "/dev/stdout"],
                          cwd=place, capture_output=True)
    hold(gone.returncode == 0, f"nothing is read to a file that has no name any more: {gone.stderr}")
    hold(run("read", *names, store, "a", "-o", "/dev/stdout", status=0)[0] == data, "nothing is read to a pipe")
    loop = place / "loop"
    loop.symlink_to(loop.name)
    _, err = run("read", *names, store, "a", "-o", loop, status=3)
    hold(err == f"rebuild-store: {loop}: Too many levels of symbolic links\n", err)
    # The folder of a disk may be elsewhere.
    disks, outside, names = place / "disks", place / "outside", ["--follow-links", "--names", "disk{shard}/all/{stripe}"]
    run("encode", "--make-folders", *names, disks, place / "a", status=0)
    (disks / "disk3").rename(outside)
    (disks / "disk3").symlink_to(outside)
    # What is beside the disks is no folder of the store, if theirs are its only ones.
    (disks / "other/deep").mkdir(parents=True)
    for beside in ("other/a", "other/deep/a"):
        run("read", *names, disks, "a", "-o", disks / beside, status=0)
        hold((disks / beside).read_bytes() == data, f"{beside}: isn't the file")
    for inside in ("all/a", "all/new", "new"):
        _, err = run("read", *names, disks, "a", "-o", outside / inside, status=2)
        hold("is in a folder of the store" in err and not (outside / "new").exists(), f"{inside}: {err}")


def test_read_to_another_name_of_a_fragment(place, choose):
    """No file is read through a link into what is also a file of the stripe; at a second name itself a new file takes that name alone."""
    store, data, link, other = place / "store", choose.randbytes(3_000), place / "link", place / "other"
    run("encode", "--make-folders", *DISKS, store, source(place, "a", data), status=0)
    files = there(store)
    link.symlink_to(other.name)
    for name in ("disk0/a", "disk9/a", "disk3/a.file", "SHA256SUMS"):
        os.link(store / name, other)
        _, err = run("read", *DISKS, store, "a", "-o", link, status=2)
        hold(err == f"rebuild-store: {link}: leads to a file of the store\n" and there(store) == files, f"{name}: {err}")
        with open(link, "r+b") as file:
            ended = subprocess.run([PROGRAM, "read", *DISKS, store, "a", "-o", "/dev/stdout"], stdout=file, stderr=subprocess.PIPE)
        hold(ended.returncode == 2 and there(store) == files, f"{name}: {ended}")
        run("read", *DISKS, store, "a", "-o", other, status=0)
        hold(other.read_bytes() == data and there(store) == files, f"{name}: its second name isn't replaced alone")
        run("read", *DISKS, store, "a", "-o", link, status=0)
        hold(other.read_bytes() == data and there(store) == files, f"{name}: a file that isn't the store's any more isn't written")
        other.unlink()
    # Where links are followed, what one in the store leads to is a file of the store.
    (store / "disk4/a").rename(other)
    (store / "disk4/a").symlink_to(other)
    _, err = run("read", *DISKS, "--follow-links", store, "a", "-o", link, status=2)
    hold(f"{link}: leads to a file of the store" in err and there(store) | {"disk4/a": other.read_bytes()} == files, err)


def test_read_to_another_name_of_a_wide_fragment(place, choose):
    """The same of a file of the (12,2,2) code at the places that it alone has. No file is read to a folder below that of a disk either."""
    names, store, link, other = ["--names", "{place}/{stripe}"], place / "store", place / "link", place / "other"
    run("encode", "--make-folders", "--code", "12-2-2", *names, store, source(place, "a", choose.randbytes(3_000)), status=0)
    (store / "x5/deep").mkdir()
    files = there(store)
    link.symlink_to(other.name)
    for name in ("x3/a", "y5/a", "y4/a.file"):
        os.link(store / name, other)
        _, err = run("read", *names, store, "a", "-o", link, status=2)
        hold(err == f"rebuild-store: {link}: leads to a file of the store\n" and there(store) == files, f"{name}: {err}")
        other.unlink()
    for path in (store / "x5/deep/new", store / "x5/new"):
        _, err = run("read", *names, store, "a", "-o", path, status=2)
        hold(err == f"rebuild-store: {path}: is in a folder of the store\n" and there(store) == files, f"{path}: {err}")


def test_read_to_a_file_once(place, choose):
    """What is written to a new file is read once, and another time only where it isn't the file that is described."""
    store, data, calls, out = place / "store", choose.randbytes(3_000_000), Calls(place, forks=True), place / "out"
    run("encode", store, source(place, "a", data), status=0)

    def reads(*words):
        return sum(kind == "read" for kind in calls.run([PROGRAM, *words]).kinds)

    once = reads("verify", store, "a")
    for _ in range(2):
        # Some calls read what the system says of the process.
        many = reads("read", store, "a", "-o", out)
        hold(once <= many < once * 3 // 2 and out.read_bytes() == data, f"{many} reads, where once is {once}")
    fragment = store / "a.x1"
    whole = bytearray(fragment.read_bytes())
    whole[1_000] ^= 1
    fragment.write_bytes(whole)
    out.write_bytes(b"older")
    _, err = run("read", store, "a", "-o", out, status=0)
    hold("read without the fragments that differ" in err and out.read_bytes() == data, err)
    (store / "SHA256SUMS").unlink()
    out.unlink()
    _, err = run("read", store, "a", "-o", out, status=0)
    hold("a fragment is damaged: read without x1" in err and out.read_bytes() == data, err)
    for shard in ("x0", "x2"):
        (store / f"a.{shard}").write_bytes(bytes(len(whole)))
    out.write_bytes(b"older")
    _, err = run("read", store, "a", "-o", out, status=1)
    hold("don't give the file" in err and out.read_bytes() == b"older", err)
    hold(not [*place.glob(".rebuild-store-*")], "a temporary file was left")


def test_fragment_that_fails_beside_damaged_ones(place, choose):
    """Beside two fragments that differ from their digests one that can't be read is left out, too."""
    store, data, calls, out = place / "store", choose.randbytes(6_000), Calls(place, forks=True), place / "out"
    run("encode", store, source(place, "a", data), status=0)
    for name in ("a.x0", "a.x1"):
        (store / name).write_bytes(bytes(1_000))
    command, tried = [PROGRAM, "read", store, "a", "-o", out], False
    for number, kind in enumerate(calls.run(command).kinds, 1):
        out.unlink(missing_ok=True)
        ended = calls.run(command, number, 5, rest="path") if kind == "read" else None
        if ended and ended.paths == (str(store / "a.y0"),):
            hold(ended.status == 0 and out.read_bytes() == data, f"call {number}: {ended.text()}")
            tried = True
            break
    hold(tried, "the fragment isn't read")


def test_reads_of_what_cannot_be_had(place, choose):
    """Fragments that don't determine a file aren't read for it, and those that were read for it in vain not once more."""
    store, calls = place / "store", Calls(place, forks=True)

    def reads(status, *words):
        ended = calls.run([PROGRAM, "verify", *words, "a"])
        hold(ended.status == status, ended.text())
        return ended.kinds.count("read")

    run("encode", store, source(place, "a", choose.randbytes(6_000)), status=0)
    once = reads(0, store)
    for one in ("y0", "y1", "y2", "py"):
        (store / f"a.{one}").unlink()
    many = reads(1, store)
    hold(many <= 3 * once, f"{many} reads of what determines nothing, where all are read with {once}")
    # Of the ten fragments each one and each two are left out, and of the nine beside which no other file is described. Of these 56 and 46
    # sets 10 leave out parities alone, and 10 are among both, so that 82 are read, with some twelve reads each.
    store = place / "disks"
    run("encode", "--make-folders", *DISKS, store, source(place, "b", choose.randbytes(6_000)), "--as", "a", status=0)
    (store / "SHA256SUMS").unlink()
    (store / "disk0/a.file").write_bytes(description_of(b"another"))
    for number in (1, 2, 3):
        (store / f"disk{number}/a").write_bytes(bytes(1_000))
    many = reads(1, *DISKS, store)
    hold(many <= 1_000, f"{many} reads")


def test_read_to_a_file_killed(place, choose):
    """A run that is killed while it reads to a file, or whose calls fail, leaves it as it was or whole."""
    store, data, calls = place / "store", choose.randbytes(3_000), Calls(place, forks=True)
    run("encode", store, source(place, "a", data), status=0)
    out = place / "to"
    out.mkdir()
    out = out / "out"
    for older in (None, b"older"):
        command = [PROGRAM, "read", store, "a", "-o", out]
        out.unlink(missing_ok=True) if older is None else out.write_bytes(older)
        kinds = calls.run(command).kinds
        hold(out.read_bytes() == data, "the file isn't what it was")
        for number in range(1, len(kinds) + 1):
            for how in ("kill", 28):
                out.unlink(missing_ok=True) if older is None else out.write_bytes(older)
                ended = calls.run(command, number, how)
                found = out.read_bytes() if out.exists() else None
                hold(found in (older, data), f"{how} at call {number}, {kinds[number - 1]}: {found!r}")
                hold(ended.status != 0 or found == data, f"{how} at call {number}, {kinds[number - 1]}: status 0 and {found!r}")


def test_replace(place, choose):
    """A file with other bytes is refused, or replaced by all of the new one if that is asked for."""
    alone = ["--names", "{stripe}/{place}"]
    for names, pattern in ((alone, alone[1:]), ([], []), (CODED, DISKS[1:])):
        store = place / f"store-{len(names)}"
        old, new = choose.randbytes(40_000), choose.randbytes(9_000)
        run("encode", "--make-folders", *names, store, source(place, "a", old), source(place, "b", b"b"), status=0)
        file, before = source(place, "a", new), there(store)
        _, err = run("encode", *names, store, file, status=1)
        hold("--replace replaces the file" in err and there(store) == before, err)
        run("encode", "--replace", *names, store, file, status=0)
        hold(decoded(store, "a", *pattern) == new and decoded(store, "b", *pattern) == b"b", "the new file can't be read")
        hold(are_right(store), "digests aren't those of the files")
        hold(not [path for path in there(store) if STAGED in path or ".rebuild-store" in path], sorted(there(store)))
        run("scrub", *names, store, status=0)
        run("encode", "--replace", *names, store, file, status=0)
        hold(run("read", *names[:2], store, "a", status=0)[0] == new, "not the new file")
        for data in (b"", new):
            run("encode", "--replace", *names, store, source(place, "a", data), status=0)
            hold(decoded(store, "a", *pattern) == data and are_right(store), f"a file isn't replaced by one of {len(data)} bytes")
            hold(f"whole {len(data)} 6-2-2 10/10 a\n".encode() in run("list", *names, store, status=0)[0], "fragments are lost")
    (store / "disk0/a").unlink()
    (store / "disk4/a").unlink()
    run("encode", "--replace", *names, store, source(place, "a", old), status=0)
    hold(decoded(store, "a", *pattern) == old, "a file that had lost fragments can't be replaced")
    _, err = run("encode", *names, store, source(place, f"a{STAGED}", b""), status=1)
    hold("a stripe can't have this name" in err, err)


def test_replace_what_nothing_describes(place, choose):
    """Fragments whose descriptions are all lost are replaced too, where that is asked for, and are refused otherwise."""
    for names, copies in (([], ("a.file", "a.file.copy")), (DISKS, tuple(f"disk{number}/a.file" for number in range(10)))):
        for left in (PLACES, PLACES[4:5]):
            store = place / f"store-{len(names)}-{len(left)}"
            old, new = choose.randbytes(4_000), choose.randbytes(900)
            run("encode", "--make-folders", *names, store, source(place, "a", old), source(place, "b", b"b"), status=0)
            for name in copies:
                (store / name).unlink()
            for number, one in enumerate(PLACES):
                if one not in left:
                    (store / (f"disk{number}/a" if names else f"a.{one}")).unlink()
            file, before = source(place, "a", new), there(store)
            _, err = run("encode", *names, store, file, status=1)
            hold("--replace replaces the file" in err and there(store) == before, err)
            run("encode", "--replace", *names, store, file, status=0)
            hold(decoded(store, "a", *names[1:]) == new and decoded(store, "b", *names[1:]) == b"b", "not the new file")
            hold(are_right(store) and not [it for it in there(store) if ".rebuild-store" in it], sorted(there(store)))
            run("scrub", "--code", "6-2-2", *names, store, status=0)


def test_replace_killed(place, choose):
    """A run that replaces a file and is killed at any call leaves a store of which the old file or the new one can be read, by the name and
    with an exit status that says so; the same command again ends the work, and so does one that encodes the old file."""
    calls = Calls(place, forks=True)
    old, new = choose.randbytes(2_000), choose.randbytes(3_001)
    first = place / "first"
    run("encode", first, source(place, "a", old), status=0)
    source(place, "a", new)
    shutil.copytree(first, place / "count")
    kinds = calls.run([PROGRAM, "encode", "--replace", place / "count", place / "a"]).kinds
    hold(decoded(place / "count", "a") == new, "the file wasn't replaced")

    def one(number):
        store = place / f"killed-{number}"
        shutil.copytree(first, store)
        command = [PROGRAM, "encode", "--replace", store, place / "a"]
        killed = calls.run(command, number, "kill")
        where = f"killed at call {number}, {kinds[number - 1]}"
        hold(killed.status == -9, f"{where}: {killed.text()}")
        read = ran("read", store, "a")
        hold(read.returncode == 0 and read.stdout in (old, new), f"{where}: {read.returncode} {read.stderr!r}")
        hold(old == read.stdout or new in (decoded(store, "a"), decoded(store, f"a{STAGED}")), f"{where}: nothing has the new file")
        # Also where the disk with the first fragments is lost then.
        first_ones = [path for path in (store / "a.x0", store / f"a{STAGED}.x0") if path.exists()]
        kept = [path.rename(path.with_name(f"kept-{path.name}")) for path in first_ones]
        read = ran("read", store, "a")
        hold(read.returncode == 0 and read.stdout in (old, new), f"{where}, without x0: {read.returncode} {read.stderr!r}")
        for path in kept:
            path.rename(path.with_name(path.name.removeprefix("kept-")))
        is_done = goes_on(store, number, where)
        hold(not [it for it in there(store) if "rebuild-store" in it], f"{where}: left {sorted(there(store))}")
        hold(not is_done or are_right(store), f"{where}: digests aren't those of the files")
        hold(not is_done or ran("scrub", store).returncode == (1 if number % 4 == 3 else 0), f"{where}: another store")
        shutil.rmtree(store)

    def goes_on(store, number, where):
        """The next run: the same command, the old file encoded again, with --replace or without it, or the file taken out. Gives whether it
        was done: a plain encoding may be refused."""
        before = store.with_name(f"old-{number}")
        before.mkdir()
        if number % 4 == 0:
            run("encode", "--replace", store, place / "a", status=0)
            hold(decoded(store, "a") == new, f"{where}: not the new file after the same command")
        elif number % 4 == 1:
            run("encode", "--replace", store, source(before, "a", old), status=0)
            hold(decoded(store, "a") == old, f"{where}: not the old file after it was encoded again")
        elif number % 4 == 2:
            ended = ran("encode", store, source(before, "a", old))
            hold(ended.returncode in (0, 1), f"{where}: {ended.returncode} {ended.stderr!r}")
            hold(decoded(store, "a") == (new if ended.returncode else old), f"{where}: a plain encode says {ended.returncode}")
            hold((b"--replace replaces the file" in ended.stderr) == (ended.returncode == 1), f"{where}: {ended.stderr!r}")
            return ended.returncode == 0
        else:
            run("remove", store, "a", status=0)
            hold(not [it for it in there(store) if it != "SHA256SUMS"], f"{where}: {sorted(there(store))} after the file was taken out")
        return True

    with concurrent.futures.ThreadPoolExecutor(os.cpu_count()) as pool:
        [*pool.map(one, range(1, len(kinds) + 1))]


def test_replace_failing(place, choose):
    """Whichever call of a run that replaces a file fails, the old file or the new one can be read, and the same command again ends the
    work."""
    calls = Calls(place, forks=True)
    old, new = choose.randbytes(900), choose.randbytes(1_801)
    first = place / "first"
    run("encode", first, source(place, "a", old), status=0)
    source(place, "a", new)
    shutil.copytree(first, place / "count")
    kinds = calls.run([PROGRAM, "encode", "--replace", place / "count", place / "a"]).kinds

    def one(number):
        store = place / f"failing-{number}"
        shutil.copytree(first, store)
        command = [PROGRAM, "encode", "--replace", store, place / "a"]
        ended = calls.run(command, number, 28)
        where = f"call {number}, {kinds[number - 1]}"
        hold(ended.status in (0, 1, 3), f"{where}: {ended.text()}")
        read = ran("read", store, "a")
        hold(read.returncode == 0 and read.stdout in (old, new), f"{where}: {read.returncode} {read.stderr!r}")
        hold(ended.status != 0 or read.stdout == new, f"{where}: status 0, and not the new file")
        # What was begun is taken away, and so is what has no name yet. Once all fragments have theirs the file is as good as there.
        left = [it for it in there(store) if "rebuild-store" in it]
        is_early = kinds[:number].count("link") < len(PLACES) + 2
        hold(ended.status == 0 or not is_early or read.stdout == old, f"{where}: a run that failed replaced the file")
        hold(kinds[number - 1] == "unlink" or not [it for it in left if is_early or STAGED not in it], f"{where}: left {left}")
        run(*command[1:], status=0)
        hold(decoded(store, "a") == new, f"{where}: not the new file after the same command")
        hold(are_right(store) and not [it for it in there(store) if "rebuild-store" in it], f"{where}: left {sorted(there(store))}")
        shutil.rmtree(store)

    with concurrent.futures.ThreadPoolExecutor(os.cpu_count()) as pool:
        [*pool.map(one, range(1, len(kinds) + 1))]


def test_replace_failing_where_it_clears_up(place, choose):
    """If a run that replaces a file fails, and then can't take away all that it had made, it takes each description that it can, so that
    the old file is read; where one stays, so do all fragments. Both failures are said, and the same command again ends the work."""
    calls, first = Calls(place, forks=True), place / "first"
    old, new = choose.randbytes(900), choose.randbytes(1_801)
    run("encode", "--make-folders", *DISKS, first, source(place, "a", old), status=0)
    source(place, "a", new)
    shutil.copytree(first, place / "count")
    kinds = calls.run([PROGRAM, "encode", "--replace", *DISKS, place / "count", place / "a"]).kinds
    links = [number for number, kind in enumerate(kinds, 1) if kind == "link"]
    # From the first description's name on to that of the first fragment that replaces another one.
    turns = [(number, rest) for number in range(links[10], kinds.index("rename") - 1) for rest in ("path", "kind")
             if kinds[number - 1] in ("create", "write", "sync", "link", "unlink")]
    left_some = set()

    def one(turn):
        number, rest = turn
        store, kind = place / f"failing-{number}-{rest}", kinds[number - 1]
        shutil.copytree(first, store)
        command = [PROGRAM, "encode", "--replace", *DISKS, store, place / "a"]
        ended = calls.run(command, number, 5, rest)
        where = f"call {number}, {kind}, and those after it of one {rest}"
        copies = [it for it in there(store) if it.endswith(f"a{STAGED}.file")]
        fragments = [it for it in there(store) if it.endswith(f"a{STAGED}")]
        read = ran("read", *DISKS, store, "a")
        hold(read.returncode == 0 and read.stdout == (old if ended.status and not copies else new), f"{where}: {ended.text()} {copies}")
        hold(rest == "kind" or len(copies) < 2, f"{where}: more than one description is left: {copies}")
        listed = [name for name in sums_of(store) if STAGED in name]
        hold(copies or not ended.status or not listed, f"{where}: digests of what nothing describes: {listed}")
        hold(not copies or not ended.status or len(fragments) == 10, f"{where}: {copies} is left, and not all fragments: {fragments}")
        if ended.status and (copies or fragments):
            left_some.add((kind, rest))
            lines = ended.err.splitlines()
            hold(ended.status == 3 and sum("Input/output error" in line for line in lines) > 1, f"{where}: {ended.text()}")
        run(*command[1:], status=0)
        hold(decoded(store, "a", DISKS[1]) == new and are_right(store), f"{where}: not the new file after the same command")
        hold(not [it for it in there(store) if "rebuild-store" in it], f"{where}: left {sorted(there(store))}")
        shutil.rmtree(store)

    with concurrent.futures.ThreadPoolExecutor(os.cpu_count()) as pool:
        [*pool.map(one, turns)]
    hold({("sync", "path"), ("sync", "kind"), ("unlink", "kind")} <= left_some, f"something was left after {left_some} alone")


def begun_replacement(place, choose, *names):
    """A store with a file, and beside it all of one that was to replace it: the run was killed before any of that had its name. Gives the
    bytes of both too."""
    calls, store, count = Calls(place, forks=True), place / "store", place / "count"
    old, new = choose.randbytes(2_000), choose.randbytes(3_001)
    run("encode", "--make-folders", *names, store, source(place, "a", old), status=0)
    shutil.copytree(store, count)
    source(place, "a", new)
    number = calls.run([PROGRAM, "encode", "--replace", *names, count, place / "a"]).kinds.index("rename") + 1
    shutil.rmtree(count)
    killed = calls.run([PROGRAM, "encode", "--replace", *names, store, place / "a"], number, "kill")
    hold(killed.status == -9, killed.text())
    hold(decoded(store, "a", *names[1:]) == old and decoded(store, f"a{STAGED}", *names[1:]) == new, f"not both: {sorted(there(store))}")
    return store, old, new


def test_replacement_that_lost_a_fragment(place, choose):
    """If a fragment of the new file is lost before it got its name, the old one goes with its digest, and a repair makes the new one."""
    store, old, new = begun_replacement(place, choose)
    lost = store / f"a{STAGED}.y1"
    whole = lost.read_bytes()
    lost.unlink()
    # Where it can't be seen whether it is lost, that is said.
    calls, again, tried = Calls(place, forks=True), place / "again", 0
    command = [PROGRAM, "encode", "--replace", again, source(place, "a", new)]
    shutil.copytree(store, again)
    for number, kind in enumerate(calls.run(command).kinds, 1):
        if kind == "look":
            shutil.rmtree(again)
            shutil.copytree(store, again)
            ended = calls.run(command, number, 5)
            if ended.paths == (str(again / lost.name),):
                tried += 1
                # Where it is only counted how many are there, it counts as lost.
                hold(ended.status in (0, 3) and "Input/output error" in ended.err, f"call {number}: {ended.text()}")
                could = (new,) if ended.status == 0 else (old, new)
                hold(run("read", again, "a", status=0)[0] in could, f"call {number}: not the file")
                hold(ended.status == 3 or (again / "a.y1").read_bytes() == whole, f"call {number}: an old fragment is beside new ones")
    hold(tried > 1, f"it is looked for {tried} times")
    # The same name again ends what was begun, and then has other bytes.
    _, err = run("encode", store, source(place, "a", old), status=1)
    hold("--replace replaces the file" in err and not (store / "a.y1").exists(), f"an old fragment is beside new ones: {err}")
    files = there(store)
    wrong = [name for name, digest in sums_of(store).items() if digest != hashlib.sha256(files.get(name, b"")).hexdigest()]
    hold(not wrong, f"digests of the old file are left: {wrong}")
    run("repair", store, status=0)
    hold((store / "a.y1").read_bytes() == whole and decoded(store, "a") == new, "the new fragment isn't what it was")
    run("scrub", store, status=0)


def test_replacement_that_lost_its_first_fragments(place, choose):
    """The new file is read, and replaces the old one, whichever fragments of it are lost, as far as the code gives them back."""
    for names, lost in (([], ("x0", "x1")), ([], ("x0", "x1", "y0")), (DISKS, (0, 1)), (DISKS, (0, 1, 9))):
        store, old, new = begun_replacement(place, choose, *names)
        gone = [f"disk{one}/a" if names else f"a.{one}" for one in lost]
        for one in gone:
            (store / (f"{one}{STAGED}" if names else one.replace("a.", f"a{STAGED}."))).unlink()
        for one in gone:
            (store / one).unlink()
        hold(run("read", *names, store, "a", status=0)[0] == new, f"{names}, without {lost}: not the new file is read")
        run("encode", "--replace", *names, store, source(place, "a", new), status=0)
        hold(not [it for it in there(store) if STAGED in it], sorted(there(store)))
        run("repair", "--code", "6-2-2", *names, store, status=0)
        hold(decoded(store, "a", *names[1:]) == new, f"{names}, without {lost}: not the new file")
        shutil.rmtree(store)


def test_replacement_beside_disks_that_fail(place, choose):
    """A file is read where something of it can't be looked at on some disks, also beside what was to replace it."""
    store, old, new = begun_replacement(place, choose, *DISKS)
    for one in (0, 1):
        shutil.rmtree(store / f"disk{one}")
        (store / f"disk{one}").symlink_to(f"disk{one}")
    hold(run("read", "--follow-links", *DISKS, store, "a", status=0)[0] == new, "not the new file is read")
    for path in store.rglob(f"*{STAGED}*"):
        path.unlink()
    for one in (0, 1):
        (store / f"disk{one}").unlink()
        (store / f"disk{one}").mkdir()
    # The old file was to be read where nothing was begun.
    hold(run("read", *DISKS, store, "a", status=0)[0] == old, "not the old file is read")
    for one in (0, 1):
        (store / f"disk{one}").rmdir()
        (store / f"disk{one}").symlink_to(f"disk{one}")
    hold(run("read", "--follow-links", *DISKS, store, "a", status=0)[0] == old, "not the old file is read beside disks that fail")


def test_disk_that_comes_back(place, choose):
    """A disk that comes back with what it had of a replacement takes nothing of the file from the others."""
    store, old, new = begun_replacement(place, choose, *DISKS)
    (store / "disk5").rename(place / "away")
    (store / "disk5").mkdir()
    run("encode", "--replace", *DISKS, store, place / "a", status=0)
    shutil.rmtree(store / "disk5")
    (place / "away").rename(store / "disk5")
    hold(run("read", *DISKS, store, "a", status=0)[0] == new, "not the new file is read")
    before = {path: path.read_bytes() for path in store.rglob("*") if path.is_file()}
    for data in (old, new, b"another"):
        _, err = run("encode", *DISKS, store, source(place, "a", data), status=1)
        hold("a.rebuild-store-new: too little of it is there to replace a file" in err, err)
        hold({path: path.read_bytes() for path in store.rglob("*") if path.is_file()} == before, "something was changed")
    hold(run("read", *DISKS, store, "a", status=0)[0] == new, "not the new file is read after that")
    run("remove", *CODED, store, f"a{STAGED}", status=0)
    run("encode", "--replace", *DISKS, store, source(place, "a", old), status=0)
    hold(run("read", *DISKS, store, "a", status=0)[0] == old, "it can't be replaced then")


def test_disks_that_come_back_with_an_old_file(place, choose):
    """Of a file that was replaced by one as long while disks were away, that one is read if the others have enough of it."""
    old, new = choose.randbytes(3_000), choose.randbytes(3_000)
    for away in ((0, 1, 2), (0, 5, 9), (2, 4, 6)):
        store, out = place / f"store-{sum(away)}", place / "out"
        run("encode", "--make-folders", *DISKS, store, source(place, "a", old), status=0)
        for one in away:
            (store / f"disk{one}").rename(place / f"disk{one}")
            (store / f"disk{one}").mkdir()
        run("encode", "--replace", *DISKS, store, source(place, "a", new), status=0)
        for one in away:
            shutil.rmtree(store / f"disk{one}")
            (place / f"disk{one}").rename(store / f"disk{one}")
        (store / "SHA256SUMS").unlink()
        said = "a: read without the fragments beside which another file is described"
        for words in ([], ["-o", out]):
            got, err = run("read", *DISKS, store, "a", *words, status=0)
            hold(new == (out.read_bytes() if words else got) and said in err, f"without {away}: {err}")
        hold(said in run("verify", *DISKS, store, "a", status=0)[1], f"{away}: not verified so")
        # Also where of one of the others no description is left, and one is damaged.
        (store / "disk3/a.file").unlink()
        hold(run("read", *DISKS, store, "a", status=0)[0] == new, f"without {away}: not without a description")
    (store / "disk0/a").write_bytes(bytes(500))
    _, err = run("read", *DISKS, store, "a", "-o", out, status=0)
    hold(out.read_bytes() == new and said in err and "a fragment is damaged: read without x0" in err, err)


def test_replacement_of_too_few(place, choose):
    """What was to replace a file replaces it if it can be read, and else stays, with the old file, until its disks are back."""
    for lost, is_whole in ((("disk0", "disk4", "disk9"), True), (("disk0", "disk1", "disk2", "disk3", "disk6"), False)):
        store, old, new = begun_replacement(place, choose, *DISKS)
        for one in lost:
            (store / one).rename(place / one)
            (store / one).mkdir()
        ended = ran("encode", *DISKS, store, source(place, "a", new))
        hold(ended.returncode == (0 if is_whole else 1), f"{lost}: {ended.stderr.decode()}")
        if not is_whole:
            for one in lost:
                (store / one).rmdir()
                (place / one).rename(store / one)
            run("encode", *DISKS, store, place / "a", status=0)
        hold(run("read", *DISKS, store, "a", status=0)[0] == new, f"{lost}: not the new file is read")
        hold(not [*store.rglob(f"*{STAGED}*")], f"{lost}: something begun is left")
        shutil.rmtree(store)
        for one in lost:
            shutil.rmtree(place / one, ignore_errors=True)


def test_replacement_that_cannot_be_looked_at(place, choose):
    """What was to replace a file isn't taken for not begun where it can't be looked at."""
    names = ["--names", "{stripe}/{place}"]
    store, old, new = begun_replacement(place, choose, *names)
    staged = store / f"a{STAGED}"
    staged.rename(place / "away")
    staged.symlink_to(staged.name)
    run("encode", *names, store, source(place, "a", old), status=3)
    staged.unlink()
    (place / "away").rename(staged)
    hold(run("read", *names, store, "a", status=0)[0] == new, "not the new file is read")


def test_replace_keeps_what_is_the_same(place, choose):
    """What is there with the same bytes is kept, with its rights, also where nothing describes it and its name is long; what is damaged is
    replaced, and what is no file stays and refuses the file."""
    for name in ("a", "n" * 240):
        store, file = place / f"store-{len(name)}", source(place, name, choose.randbytes(900))
        run("encode", "--replace", store, file, status=0)
        for one in PLACES:
            (store / f"{name}.{one}").chmod(0o600)
        for ending in (".file", ".file.copy"):
            (store / f"{name}{ending}").unlink()
        run("encode", "--replace", store, file, status=0)
        rights = {stat.S_IMODE((store / f"{name}.{one}").stat().st_mode) for one in PLACES}
        hold(rights == {0o600}, f"other rights: {rights}")
    store, fragment = place / "store-1", place / "store-1/a.x0"
    whole = fragment.read_bytes()
    for described in (True, False):
        fragment.write_bytes(bytes(len(whole)))
        run("encode", store, place / "a", status=1)
        if not described:
            for ending in (".file", ".file.copy"):
                (store / f"a{ending}").unlink()
        run("encode", "--replace", store, place / "a", status=0)
        hold(fragment.read_bytes() == whole, f"{described}: a damaged fragment isn't replaced")
    fragment.unlink()
    fragment.symlink_to(place / "a")
    _, err = run("encode", "--replace", store, source(place, "a", choose.randbytes(901)), status=1)
    hold("a.x0: is no regular file, and isn't replaced" in err and fragment.is_symlink(), f"what is no file was replaced: {err}")


def test_replacement_by_one_description(place, choose):
    """Any copy of the new file's description says that all of it is there."""
    for odd in (None, b"odd"):
        store, old, new = begun_replacement(place, choose)
        first = store / f"a{STAGED}.file"
        first.unlink() if odd is None else first.write_bytes(odd)
        hold(run("read", store, "a", status=0)[0] == new, "the old file is read")
        _, err = run("encode", store, source(place, "a", old), status=1)
        hold("is there already" in err and run("read", store, "a", status=0)[0] == new, f"the new file was thrown away: {err}")
        hold(not [it for it in there(store) if STAGED in it], sorted(there(store)))
        if odd is None:
            # No description of the old file is left beside the new fragments, and none is wanting.
            files, text = there(store), description_of(new)
            hold(files["a.file"] == text == files["a.file.copy"], f"{files.get('a.file')} {files.get('a.file.copy')}")
            run("scrub", store, status=0)
        shutil.rmtree(store)


def description_of(data, code="6-2-2"):
    """The description of a file with these bytes."""
    return f"{len(data)} {hashlib.sha256(data).hexdigest()} {code}\n".encode()


def test_replacement_that_lost_its_descriptions(place, choose):
    """Of what replaces a file each disk gets its description again that has a fragment of it, before anything gets its name; where one
    can't be written, the others are, and the old one goes."""
    for full in (None, 3):
        store, old, new = begun_replacement(place, choose, *DISKS)
        for number in range(1, 10):
            (store / f"disk{number}/a{STAGED}.file").unlink()
        # A disk without a fragment may be away, and nothing is written there.
        (store / f"disk7/a{STAGED}").unlink()
        (store / "disk7/a").unlink()
        (store / f"disk0/a{STAGED}.file").chmod(0o640)
        calls, again, copies = Calls(place, forks=True), place / "again", [f"disk{number}/a.file" for number in range(10)]
        command = [PROGRAM, "encode", *DISKS, again, source(place, "a", old)]
        shutil.copytree(store, again)
        ended = calls.run(command)
        if full is not None:
            creates = [number for number, kind in enumerate(ended.kinds, 1) if kind == "create"]
            for number in creates:
                shutil.rmtree(again)
                shutil.copytree(store, again)
                ended = calls.run(command, number, 28)
                if pathlib.Path(ended.paths[0]).parent == again / f"disk{full}":
                    break
            hold("No space left on device" in ended.err, ended.text())
        hold(ended.status == (1 if full is None else 3) and "is there already, with other bytes" in ended.err, ended.text())
        files = there(again)
        wanting = [it for it in copies if files.get(it) != description_of(new)]
        hold(wanting == [f"disk{it}/a.file" for it in (full, 7) if it is not None], f"{full}: {wanting}")
        hold(not set(wanting) & set(files), f"{full}: a description of the old file is left")
        rights = {stat.S_IMODE((again / it).stat().st_mode) for it in copies if it in files}
        hold(rights == {0o640}, f"{full}: other rights than those of the copy that was there: {rights}")
        hold(not [it for it in files if "rebuild-store" in it] and run("read", *DISKS, again, "a", status=0)[0] == new, sorted(files))
        shutil.rmtree(again)
        shutil.rmtree(store)


def test_replacement_killed_while_it_gets_descriptions(place, choose):
    """A run that writes what is lost of the descriptions of what replaces a file, and is killed at any call meanwhile, leaves the new file
    to be read, and the same command ends the work."""
    kept, old, new = begun_replacement(place, choose, *DISKS)
    for number in range(1, 10):
        (kept / f"disk{number}/a{STAGED}.file").unlink()
    calls = Calls(place, forks=True)
    shutil.copytree(kept, place / "count")
    kinds = calls.run([PROGRAM, "encode", "--replace", *DISKS, place / "count", source(place, "a", new)]).kinds
    hold("link" in kinds[: kinds.index("rename") - 2], f"no description is written: {kinds}")

    def one(number):
        store = place / f"killed-{number}"
        shutil.copytree(kept, store)
        command = [PROGRAM, "encode", "--replace", *DISKS, store, place / "a"]
        where = f"killed at call {number}, {kinds[number - 1]}"
        hold(calls.run(command, number, "kill").status == -9, f"{where}: it wasn't")
        hold(run("read", *DISKS, store, "a", status=0)[0] == new, f"{where}: not the new file is read")
        run(*command[1:], status=0)
        hold(decoded(store, "a", DISKS[1]) == new and are_right(store), f"{where}: not the new file after the same command")
        hold(not [it for it in there(store) if "rebuild-store" in it], f"{where}: left {sorted(there(store))}")
        shutil.rmtree(store)

    with concurrent.futures.ThreadPoolExecutor(os.cpu_count()) as pool:
        [*pool.map(one, range(1, kinds.index("rename") + 1))]


def test_replacement_of_a_code_with_more_fragments(place, choose):
    """What was begun by another code, with more fragments than the run's own has, isn't given the names of these alone: it stays."""
    wide, calls, store = ["--code", "12-2-2", *DISKS], Calls(place, forks=True), place / "store"
    old, new = choose.randbytes(2_000), choose.randbytes(3_001)
    run("encode", "--make-folders", *wide, store, source(place, "a", old), status=0)
    shutil.copytree(store, place / "count")
    source(place, "a", new)
    number = calls.run([PROGRAM, "encode", "--replace", *wide, place / "count", place / "a"]).kinds.index("rename") + 1
    hold(calls.run([PROGRAM, "encode", "--replace", *wide, store, place / "a"], number, "kill").status == -9, "it wasn't killed")
    before = lasting(store)
    for words in ([], ["--replace"]):
        ended = ran("encode", *words, *DISKS, store, place / "a")
        hold(ended.returncode in (1, 2) and b"12-2-2" in ended.stderr and lasting(store) == before, f"{ended.returncode} {ended.stderr!r}")
    hold(run("read", *DISKS, store, "a", status=0)[0] == new, "not the new file is read")
    run("encode", *wide, store, place / "a", status=0)
    hold(decoded(store, "a", DISKS[1]) == new and not [it for it in there(store) if STAGED in it], sorted(there(store)))


def test_digests_of_a_replacement_that_was_killed(place, choose):
    """A run that is killed once it has written the digests leaves them right, and so does the next one, which ends what it began."""
    calls, first = Calls(place, forks=True), place / "first"
    old, new = choose.randbytes(2_000), choose.randbytes(3_001)
    run("encode", first, source(place, "a", old), status=0)
    (place / "old").mkdir()
    source(place / "old", "a", old)
    shutil.copytree(first, place / "count")
    kinds = calls.run([PROGRAM, "encode", "--replace", place / "count", source(place, "a", new)]).kinds
    # The fragments, the descriptions and the digests have got their names then.
    given = [number for number, kind in enumerate(kinds, 1) if kind == "rename"][len(PLACES) + 2]
    tried = set()
    for number in [number for number, kind in enumerate(kinds, 1) if kind == "unlink" and given < number]:
        store = place / f"killed-{number}"
        shutil.copytree(first, store)
        killed = calls.run([PROGRAM, "encode", "--replace", store, place / "a"], number, "kill")
        if ".file" not in killed.paths[0]:
            continue
        tried.add(killed.paths[0].partition(STAGED)[2])
        _, err = run("encode", store, place / "old/a", status=1)
        hold("is there already, with other bytes" in err, f"call {number}: {err}")
        files = there(store)
        hold(files["a.file"] == description_of(new) == files["a.file.copy"], f"call {number}: {sorted(files)}")
        hold(are_right(store), f"call {number}: digests are gone that were right: {sorted(set(files) - set(sums_of(store)))}")
        hold(not [it for it in files if "rebuild-store" in it], f"call {number}: left {sorted(files)}")
    hold(tried == {".file", ".file.copy"}, f"tried {tried}")


def test_replacement_that_most_descriptions_say(place, choose):
    """What most copies of its description say is what replaces a file, as it is what is read, whatever the first says."""
    for others in ([0], [0, 1, 2]):
        store, old, new = begun_replacement(place, choose, *DISKS)
        for number in others:
            (store / f"disk{number}/a{STAGED}.file").write_bytes(description_of(b"another"))
        hold(run("read", *DISKS, store, "a", status=0)[0] == new, f"{others}: not the new file is read")
        _, err = run("encode", *DISKS, store, source(place, "a", old), status=1)
        hold("is there already, with other bytes" in err and not [it for it in there(store) if STAGED in it], f"{others}: {err}")
        hold(run("read", *DISKS, store, "a", status=0)[0] == new, f"{others}: not the new file is read after that")
        run("encode", "--replace", *DISKS, store, source(place, "a", new), status=0)
        hold(decoded(store, "a", DISKS[1]) == new and are_right(store), f"{others}: not the new file")
        shutil.rmtree(store)


def test_replacement_with_a_fragment_that_fails(place, choose):
    """What was begun replaces the file though a fragment of it can't be opened or read: the others give the new file."""
    kept, old, new = begun_replacement(place, choose)
    calls, store = Calls(place, forks=True), place / "again"
    command, staged = [PROGRAM, "encode", "--replace", store, source(place, "a", new)], store / f"a{STAGED}.x1"
    shutil.copytree(kept, store)
    kinds, tried = calls.run(command).kinds, set()
    for number, kind in enumerate(kinds[: kinds.index("rename")], 1):
        if kind in ("open", "read"):
            shutil.rmtree(store)
            shutil.copytree(kept, store)
            ended = calls.run(command, number, 5, "path")
            if ended.paths == (str(staged),):
                tried.add(kind)
                hold(ended.status == 0 and decoded(store, "a") == new, f"call {number}, {kind}: {ended.text()}")
                hold("Input/output error" in ended.err or "read without" in ended.err, f"call {number}, {kind}: {ended.text()}")
                hold(are_right(store) and not [it for it in there(store) if STAGED in it], f"call {number}, {kind}: {sorted(there(store))}")
    hold(tried == {"open", "read"}, f"tried {tried}")


def test_replacement_without_memory(place, choose):
    """A run that is refused memory while it ends what was begun throws no fragment away, also where one description alone says that all
    are there."""
    store, old, _ = begun_replacement(place, choose)
    (store / f"a{STAGED}.file.copy").unlink()
    fragments = {path.name: path.read_bytes() for path in store.glob(f"a{STAGED}.[xyp]?")}
    library, file = refusals.Library(place), source(place, "a", old)

    def one(number):
        again = place / f"again-{number}"
        shutil.copytree(store, again)
        ran = library.run([str(it) for it in (PROGRAM, "encode", again, file)], refusal=refusals.Refusal(allocation=number))
        left = there(again)
        shutil.rmtree(again)
        lost = [name for name, data in fragments.items() if data not in (left.get(name), left.get(name.replace(STAGED, "")))]
        hold(not lost, f"allocation {number}: {lost} are gone: {ran.text()}")
        hold(is_for_memory(ran, 1, b"is there already"), f"allocation {number}: {ran.text()}")
        return ran

    with concurrent.futures.ThreadPoolExecutor(os.cpu_count()) as pool:
        ended = [*pool.map(one, range(1, one(0).allocations + 1))]
    hold({4} <= {ran.status for ran in ended}, f"runs ended with {({ran.status for ran in ended})}")


def test_read_of_a_replacement_without_memory(place, choose):
    """A run that is refused memory while it reads a file beside all of what is to replace it writes no byte of the old file."""
    store, _, new = begun_replacement(place, choose)
    library, ends = refusals.Library(place, forks=True), set()
    command = [str(it) for it in (PROGRAM, "read", store, "a")]
    for number in range(1, library.run(command).allocations + 1):
        ran = library.run(command, refusal=refusals.Refusal(allocation=number))
        hold(new.startswith(ran.out) and (ran.status == 4 or ran.status == 0 and ran.out == new), f"allocation {number}: {ran.text()}")
        ends.add(ran.status)
    hold(4 in ends, f"runs ended with {ends}")


def lasting(store):
    """The bytes of the files of a store by their paths, but for those that a killed run hadn't made yet."""
    return {path: data for path, data in there(store).items() if not pathlib.Path(path).name.startswith(".rebuild-store-")}


def test_replacement_whose_description_fails(place, choose):
    """What was begun isn't thrown away, nor the old file read, where the only description of the new one can't be read for a while."""
    kept, _, new = begun_replacement(place, choose)
    calls, store = Calls(place, forks=True), place / "again"
    command, staged = [PROGRAM, "encode", "--replace", store, place / "a"], store / f"a{STAGED}.file"
    subprocess.run(["cp", "-a", kept, store], check=True)
    renames = [number for number, kind in enumerate(calls.run(command).kinds, 1) if kind == "rename"]
    hold(calls.run([*command[:3], kept, place / "a"], renames[3], "kill").status == -9, "the run wasn't killed when it had given names")
    (kept / f"{staged.name}.copy").unlink()
    before, tried = lasting(kept), set()
    for words in (command, [PROGRAM, "read", store, "a"]):
        shutil.rmtree(store)
        subprocess.run(["cp", "-a", kept, store], check=True)
        for number, kind in enumerate(calls.run(words).kinds, 1):
            if kind in ("look", "open", "read"):
                shutil.rmtree(store)
                subprocess.run(["cp", "-a", kept, store], check=True)
                ended = calls.run(words, number, (5, 13, 116)[number % 3], "path")
                if ended.paths == (str(staged),) and not (kind == "look" and ended.status == 0):
                    tried.add((words[1], kind))
                    hold(ended.status == 3 and lasting(store) == before, f"call {number}, {kind}: {ended.text()}")
                    run(*command[1:], status=0)
                    hold(decoded(store, "a") == new and are_right(store), f"call {number}, {kind}: not the new file after that")
            if kind == "rename":
                break
    hold(len(tried) == 6, f"tried {tried}")


def test_replacement_whose_disk_is_away(place, choose):
    """What has been given names isn't thrown away where the disk that describes it is away, also if the store has no digests."""
    for has_sums in (True, False):
        kept, old, new = begun_replacement(place, choose, *DISKS)
        calls, store = Calls(place, forks=True), place / "again"
        for number in range(1, 10):
            (kept / f"disk{number}/a{STAGED}.file").unlink()
        if not has_sums:
            (kept / "SHA256SUMS").unlink()
        shutil.copytree(kept, store)
        command = [PROGRAM, "encode", "--replace", *DISKS, store, place / "a"]
        kinds = calls.run(command).kinds
        renames = [number for number, kind in enumerate(kinds, 1) if kind == "rename"]
        unlinks = [number for number, kind in enumerate(kinds, 1) if kind == "unlink" and number > renames[9]]
        for number in [*renames[2:11], *(it for it in unlinks if it < renames[10])]:
            shutil.rmtree(store)
            shutil.copytree(kept, store)
            hold(calls.run(command, number, "kill").status == -9, f"call {number} isn't made")
            # The other disks had theirs again before the first name was given; as where that could not be.
            for other in range(1, 10):
                (store / f"disk{other}/a{STAGED}.file").unlink()
            (store / "disk0").rename(place / "away")
            (store / "disk0").mkdir()
            before = lasting(store)
            _, err = run(*command[1:], status=1)
            hold("too little of it is there" in err and lasting(store) == before, f"call {number}, {has_sums}: {err}")
            (store / "disk0").rmdir()
            (place / "away").rename(store / "disk0")
            run(*command[1:], status=0)
            hold(run("read", *DISKS, store, "a", status=0)[0] == new, f"call {number}: not the new file")
            hold(not [it for it in there(store) if STAGED in it], f"call {number}: left {sorted(there(store))}")
        shutil.rmtree(store)
        shutil.rmtree(kept)


def test_replacement_given_at_places_of_one_code(place, choose):
    """What has names of the old file already stays, with these, also if they are of places that one code alone has."""
    calls, store, count, code = Calls(place, forks=True), place / "store", place / "count", ["--code", "12-2-2"]
    old, new = choose.randbytes(2_000), choose.randbytes(3_001)
    run("encode", *code, store, source(place, "a", old), status=0)
    shutil.copytree(store, count)
    source(place, "a", new)
    number = calls.run([PROGRAM, "encode", "--replace", *code, count, place / "a"]).kinds.index("rename") + 1
    hold(calls.run([PROGRAM, "encode", "--replace", *code, store, place / "a"], number, "kill").status == -9, "the run wasn't killed")
    given = [f"a{STAGED}.{one}" for one in ("x3", "x4", "x5", "y3", "y4", "y5")]
    for staged in store.glob(f"a{STAGED}.*"):
        name = store / staged.name.replace(STAGED, "")
        if staged.name in given:
            name.unlink()
            os.link(staged, name)
        else:
            staged.unlink()
    before = lasting(store)
    for words, data in (([], old), (["--replace"], choose.randbytes(900))):
        _, err = run("encode", *words, *code, store, source(place, "a", data), status=1)
        hold("too little of it is there" in err and lasting(store) == before, f"{words}: {err}")


def test_read_beside_what_is_not_described(place, choose):
    """Beside what a run has left without a description the old file is read, also if that can't be seen on a disk which fails; and once a
    repair has made again what a killed run had taken away of it, the next run takes all of it away."""
    store, old, new = begun_replacement(place, choose, *DISKS)
    calls, command = Calls(place, forks=True), [PROGRAM, "read", *DISKS, store, "a"]
    for number in range(10):
        (store / f"disk{number}/a{STAGED}.file").unlink()
    failing, tried = store / f"disk3/a{STAGED}.file", 0
    for number, kind in enumerate(calls.run(command).kinds, 1):
        if kind in ("look", "open"):
            ended = calls.run(command, number, 5, "path")
            if ended.paths == (str(failing),):
                tried += 1
                hold(ended.status == 0 and ended.out == old.decode(errors="replace"), f"call {number}, {kind}: {ended.text()}")
    hold(tried > 0, "the description isn't looked for")
    shutil.rmtree(store)
    kept, _, new = begun_replacement(place, choose)
    command = [PROGRAM, "encode", "--replace", kept, place / "a"]
    shutil.copytree(kept, place / "again")
    kinds = calls.run([*command[:3], place / "again", place / "a"]).kinds
    given = [number for number, kind in enumerate(kinds, 1) if kind == "rename"][11]
    # Its two descriptions go first.
    last = [number for number, kind in enumerate(kinds, 1) if kind == "unlink" and number > given][6]
    hold(calls.run(command, last, "kill").status == -9, "the run wasn't killed")
    left = [it for it in there(kept) if STAGED in it]
    hold(0 < len(left) < 10 and not [it for it in left if ".file" in it], f"left {left}")
    lost = next(it for it in PLACES if f"a{STAGED}.{it}" not in left)
    (kept / f"a{STAGED}.{lost}").write_bytes((kept / f"a.{lost}").read_bytes())
    run(*command[1:], status=0)
    hold(decoded(kept, "a") == new and not [it for it in there(kept) if STAGED in it], f"left {sorted(there(kept))}")


def test_replacement_that_was_damaged(place, choose):
    """What was damaged since it was made replaces nothing, unless fragments of its length give the file that is described, also without one
    or two of them."""
    said = b"the fragments that are there don't give the file that a.rebuild-store-new.file describes"
    for damaged, damage, is_read in (("x0 x1 x2 px", b"", False), ("x0 x1 x2 y0 y1 y2", b"cut", False), ("x0 x1 y1", None, False),
                                     ("y1", None, True), ("x0 y1", None, True), ("x0 x1 y0 p1", b"", True)):
        store, old, new = begun_replacement(place, choose)
        for one in damaged.split():
            fragment = store / f"a{STAGED}.{one}"
            fragment.write_bytes(bytes(fragment.stat().st_size) if damage is None else damage)
        before, ended = lasting(store), ran("encode", store, source(place, "a", new))
        if not is_read:
            hold(ended.returncode == 1 and said in ended.stderr and lasting(store) == before, f"{damaged}: {ended.stderr}")
            run("remove", "--code", "6-2-2", store, f"a{STAGED}", status=0)
        hold(run("read", store, "a", status=0)[0] == (new if is_read else old), f"{damaged}: another file is read")
        hold(not [it for it in there(store) if STAGED in it], f"{damaged}: left {sorted(there(store))}")
        shutil.rmtree(store)


def test_replacement_described_as_empty(place, choose):
    """A description of a file without bytes isn't one of fragments that have some: it replaces nothing."""
    store, _, new = begun_replacement(place, choose, *DISKS)
    other = place / "other"
    run("encode", other, source(place, "empty", b""), status=0)
    (store / f"disk9/a{STAGED}.file").write_bytes((other / "empty.file").read_bytes())
    for number in (0, 1, 2, 6):
        fragment = store / f"disk{number}/a{STAGED}"
        fragment.write_bytes(bytes(fragment.stat().st_size))
    before = lasting(store)
    _, err = run("encode", *DISKS, store, source(place, "a", new), status=1)
    hold("don't give the file" in err and lasting(store) == before, err)


def test_replace_leaves_what_is_no_description(place, choose):
    """What has the name of a description and can't be one stays, and refuses the file, also where all of the new one is there."""
    for names, described in (([], "a.file"), ([], "a.file.copy"), (DISKS, "disk3/a.file")):
        for begun in ("", "all", "but one description"):
            for make, said in ((lambda it: it.write_bytes(bytes(100_000)), "is longer than a description, and isn't replaced"),
                               (os.mkfifo, "is no regular file, and isn't replaced"),
                               (lambda it: it.symlink_to(place / "a"), "is no regular file, and isn't replaced")):
                if begun:
                    store, _, _ = begun_replacement(place, choose, *names)
                else:
                    store = place / "store"
                    run("encode", "--make-folders", *names, store, source(place, "a", choose.randbytes(2_000)), status=0)
                other = store / described
                other.unlink()
                if begun == "but one description":
                    (store / described.replace("a.", f"a{STAGED}.")).unlink()
                make(other)
                before, kind = lasting(store), stat.S_IFMT(other.lstat().st_mode)
                _, err = run("encode", "--replace", *names, store, source(place, "a", choose.randbytes(900)), status=1)
                hold(f"{described}: {said}" in err and lasting(store) == before, f"{described}, {begun}: {err}")
                hold(stat.S_IFMT(other.lstat().st_mode) == kind, f"{described}, {begun}: it was replaced")
                shutil.rmtree(store)


def test_names_too_long_to_describe(place, choose):
    """A file of whose description the name would be too long is refused before anything of it is made, and so is what would replace it."""
    for length, words in ((246, []), (250, ["--replace"]), (252, []), (228, ["--replace"]), (232, ["--replace"])):
        store, name = place / f"store-{length}", "n" * length
        store.mkdir()
        if length < 246:
            run("encode", store, source(place, name, b"old"), status=0)
        before = there(store)
        _, err = run("encode", *words, store, source(place, name, choose.randbytes(900)), status=3)
        hold("File name too long" in err and there(store) == before, f"{length}: {err} {sorted(it[-14:] for it in there(store))}")


def test_description_of_what_is_gone(place, choose):
    """A description of a file that was to replace another one, without its fragments, isn't taken for that of a new one: it goes, whether a
    file is encoded with --replace or not."""
    for names, copy in (([], f"a{STAGED}.file.copy"), (DISKS, f"disk4/a{STAGED}.file")):
        store, old, new = place / f"store-{len(names)}", choose.randbytes(2_000), choose.randbytes(900)
        run("encode", "--make-folders", *names, store, source(place, "a", old), status=0)
        before = there(store)
        (store / copy).write_bytes(description_of(b"gone"))
        hold(run("read", *names, store, "a", status=0)[0] == old, f"{names}: not the old file is read")
        run("encode", *names, store, source(place, "a", old), status=0)
        hold(there(store) == before, f"{names}: {sorted(there(store))}")
        (store / copy).write_bytes(description_of(b"gone"))
        run("encode", "--replace", *names, store, source(place, "a", new), status=0)
        hold(decoded(store, "a", *names[1:]) == new and set(there(store)) == set(before), f"{names}: {sorted(there(store))}")


def test_description_of_what_may_be_away(place, choose):
    """A description without fragments stays, and refuses the file, where these may be on disks that are away, where one can't be looked at,
    and where the file itself can't be read, so that the description may be that of what has its name."""
    store, copy = place / "store", f"disk8/a{STAGED}.file"
    run("encode", "--make-folders", *DISKS, store, source(place, "a", b""), status=0)
    (store / copy).write_bytes(description_of(b"gone"))
    for number in range(6):
        (store / f"disk{number}").rename(place / f"away{number}")
        (store / f"disk{number}").mkdir()
    before, said = there(store), "too little of it is there to replace a file"
    for words in ([], ["--replace"]):
        _, err = run("encode", *words, *DISKS, store, place / "a", status=1)
        hold(said in err and there(store) == before, f"disks away: {err}")
    # One of the disks that were away has a fragment of what was begun.
    for number in range(6):
        (store / f"disk{number}").rmdir()
        (place / f"away{number}").rename(store / f"disk{number}")
    (store / f"disk3/a{STAGED}").write_bytes(b"a")
    before = there(store)
    _, err = run("encode", *DISKS, store, place / "a", status=1)
    hold(said in err and there(store) == before, f"a fragment is there: {err}")
    (store / f"disk3/a{STAGED}").unlink()
    (store / "disk3").rename(place / "away")
    (store / "disk3").symlink_to("disk3")
    ended = ran("encode", "--follow-links", *DISKS, store, place / "a")
    hold(ended.returncode in (1, 3) and (store / copy).exists(), f"a disk fails: {ended.stderr}")
    (store / "disk3").unlink()
    (place / "away").rename(store / "disk3")
    # What has the name is not what its own description says.
    shutil.rmtree(store)
    run("encode", "--make-folders", *DISKS, store, source(place, "a", choose.randbytes(3_000)), status=0)
    (store / copy).write_bytes(description_of(b"gone"))
    for number in range(5):
        (store / f"disk{number}/a").write_bytes(bytes(500))
    before = there(store)
    _, err = run("encode", *DISKS, store, place / "a", status=1)
    hold(said in err and there(store) == before, f"what has the name is another file: {err}")


def test_replacement_that_is_taken_out(place, choose):
    """The folders that a file was to be replaced in go with it."""
    names = ["--names", "{stripe}/{place}"]
    store, _, _ = begun_replacement(place, choose, *names)
    run("remove", *names, store, "a", status=0)
    hold([path.name for path in store.iterdir()] == ["SHA256SUMS"], f"left {sorted(store.rglob('*'))}")


def test_replacement_through_a_link(place, choose):
    """What was begun isn't ended through a link in place of a disk's folder, unless links are followed."""
    store, old, new = begun_replacement(place, choose, *DISKS)
    outside = place / "outside"
    (store / "disk3").rename(outside)
    (store / "disk3").symlink_to(outside)
    before = there(outside)
    _, err = run("encode", *DISKS, store, source(place, "a", new), status=3)
    hold("its folder is a link, and links aren't followed" in err and there(outside) == before, f"{err}: {sorted(there(outside))}")
    run("encode", "--follow-links", *DISKS, store, place / "a", status=0)
    hold(run("read", "--follow-links", *DISKS, store, "a", status=0)[0] == new, "not the new file")
    hold(set(there(outside)) == {"a", "a.file"}, f"left {sorted(there(outside))}")
    # Nor is an empty folder taken away there that has the name of one in which a file is replaced.
    store, outside, names = place / "folders", place / "outside-folders", ["--names", "disk{shard}/{stripe}/f"]
    run("encode", "--make-folders", *names, store, place / "a", status=0)
    (store / "disk3").rename(outside)
    (store / "disk3").symlink_to(outside)
    (outside / f"a{STAGED}").mkdir()
    run("encode", "--replace", *names, store, place / "a", status=3)
    hold((outside / f"a{STAGED}").is_dir(), "a folder was taken away through a link")


def test_replacement_that_cannot_be_begun(place, choose):
    """Of a file that can't be replaced, since files may not get as long here, no folder is left in which it was to be."""
    names = ["--names", "{stripe}/{place}"]
    store, old = place / "store", b"old"
    run("encode", "--make-folders", *names, store, source(place, "a", old), status=0)
    before = sorted(store.rglob("*"))
    ended = ran("encode", "--replace", *names, store, source(place, "a", bytes(300_000)),
                preexec_fn=lambda: resource.setrlimit(resource.RLIMIT_FSIZE, (20_480, 20_480)))
    said = b"rebuild-store: a: would have 50000 bytes, and no file may get more than 20480 here: ulimit -f\n"
    hold((ended.returncode, ended.stderr) == (1, said), f"{ended.returncode}: {ended.stderr!r}")
    hold(sorted(store.rglob("*")) == before and decoded(store, "a", *names[1:]) == old, f"left {sorted(store.rglob('*'))}")


def test_folders_of_others_stay(place, choose):
    """A folder that has the name of what is to replace a file, and that no run has made, stays where nothing is put into it."""
    names, store = ["--names", "{stripe}/{place}"], place / "store"
    run("encode", "--make-folders", *names, store, source(place, "a", b"old"), status=0)
    (store / f"a{STAGED}").mkdir()
    limited = {"preexec_fn": lambda: resource.setrlimit(resource.RLIMIT_FSIZE, (20_480, 20_480))}
    for words, status, how in (([], 0, {}), (["--replace"], 0, {}), ([], 1, {}), (["--replace"], 1, limited)):
        run("encode", *words, *names, store, source(place, "a", bytes(300_000) if status else b"old"), status=status, **how)
        hold((store / f"a{STAGED}").is_dir(), f"{words}, {status}: a folder of others is gone")
        hold(decoded(store, "a", *names[1:]) == b"old", f"{words}, {status}: another file")


def test_digests_of_blocks_that_fail(place, choose):
    """A file of whose fragments one can't be read again, for its digest, isn't encoded, also where only its first block can't be read."""
    calls, store, file = Calls(place, forks=True), place / "store", source(place, "a", choose.randbytes(6 * 300_000))
    command, tried = [PROGRAM, "encode", store, file], set()
    kinds = calls.run(command).kinds
    named = kinds.index("link")
    for number in range(named - kinds[named::-1].index("write") + 1, named):
        if kinds[number - 1] != "read":
            continue
        shutil.rmtree(store)
        ended = calls.run(command, number, 5)
        name = pathlib.Path(ended.paths[0]).name
        # The file itself is read beside that.
        if ended.kind == "read" and name.startswith(".rebuild-store-") and name not in tried:
            tried.add(name)
            hold(ended.status == 3 and "Input/output error" in ended.err and not there(store), f"call {number}: {ended.text()}")
        if len(tried) == 3:
            break
    hold(tried, f"no fragment is read again: {kinds}")


def test_what_a_fault_of_encoding_is_of(place, choose):
    """What can't be read is said of the file, and what can't be written of the fragments in the store."""
    calls, store, file = Calls(place, forks=True), place / "store", source(place, "a", choose.randbytes(900))
    command = [PROGRAM, "encode", store, file]
    kinds, said = calls.run(command).kinds, {}
    for number, kind in enumerate(kinds, 1):
        if kind in ("read", "write"):
            shutil.rmtree(store)
            ended = calls.run(command, number, 5)
            # The file is digested beside that, so that the calls aren't in the same order each time.
            if ended.kind == "write" or ended.paths == (str(file),):
                said.setdefault(ended.kind, ended)
    for kind, path in (("read", file), ("write", store / "a")):
        ended = said[kind]
        hold(ended.status == 3 and ended.err == f"rebuild-store: {path}: Input/output error\n", f"{kind}: {ended.text()}")


def test_digests_keep_their_rights(place, choose):
    """The file of the digests keeps its owner and its rights where it is written anew."""
    store = place / "store"
    run("encode", store, source(place, "a", b"a"), status=0)
    sums = store / "SHA256SUMS"
    sums.chmod(0o604)
    owner = (1_234, 5_678) if os.geteuid() == 0 else (os.geteuid(), os.getegid())
    os.chown(sums, *owner)
    for words in (["encode", store, source(place, "b", b"b")], ["encode", "--replace", store, source(place, "a", b"c")],
                  ["remove", store, "b"]):
        before = sums.read_bytes()
        run(*words, status=0)
        about = sums.stat()
        hold(sums.read_bytes() != before, f"{words[0]} doesn't write the digests anew")
        hold((about.st_mode & 0o7777, about.st_uid, about.st_gid) == (0o604, *owner), f"{words[0]}: {about}")


def test_files_that_come_meanwhile(place, choose):
    """What another program puts under one of a file's names while this is encoded stays, and the file isn't said to be encoded."""
    calls, data = Calls(place, forks=True), choose.randbytes(900)
    file = source(place, "a", data)
    kinds = calls.run([PROGRAM, "encode", place / "count", file]).kinds
    links = [number for number, kind in enumerate(kinds, 1) if kind == "link"]
    hold(len(links) == len(PLACES) + 2, f"{kinds}")
    for number in links:
        store = place / f"came-{number}"
        ended = calls.run([PROGRAM, "encode", store, file], number, "meanwhile")
        came = store / pathlib.Path(ended.paths[1]).name
        hold(ended.status == 1 and f"{came.name}: is there already" in ended.err and came.read_bytes() == b"m", ended.text())
        hold(not (store / "SHA256SUMS").exists() or came.name not in sums_of(store), f"{came.name}: what came has a digest")
        came.unlink()
        run("encode", store, file, status=0)
        hold(decoded(store, "a") == data and are_right(store), f"{came.name}: not the file after the same command")


def test_encode_beside_links(place, choose):
    """What has a name of the file's and is a link isn't the file, though it leads to the same bytes, unless links are followed: nothing
    gets a name beside it."""
    store, outside, file = place / "store", place / "outside", source(place, "a", choose.randbytes(900))
    outside.mkdir()
    run("encode", store, file, status=0)
    for name in ("a.y1", "a.p1", "a.file", "a.file.copy"):
        (store / name).rename(outside / name)
        (store / name).symlink_to(outside / name)
        whole = there(place)
        (store / "a.x0").unlink()
        before = there(place)
        _, err = run("encode", store, file, status=1)
        hold(f"{name}: is there already, with other bytes" in err and there(place) == before, f"{name}: {err}")
        run("encode", "--follow-links", store, file, status=0)
        hold((store / name).is_symlink() and there(place) == whole, f"{name}: not the file beside a link that is followed")
        (store / name).unlink()
        (outside / name).rename(store / name)
    hold(are_right(store), "digests aren't those of the files")


def test_encode_again_mends_digests(place, choose):
    """A file that is encoded again has its digests again: those that are wanting, and those that are others than its files have."""
    store, file = place / "store", source(place, "a", choose.randbytes(900))
    run("encode", store, file, status=0)
    hold(are_right(store), "digests aren't those of the files")
    sums = store / "SHA256SUMS"
    whole, other = sums.read_text(), hashlib.sha256(b"other").hexdigest()
    for name in ("a.x0", "a.p1", "a.file.copy"):
        for line in ("", f"{other}  {name}\n"):
            sums.write_text("".join(line if it.endswith(f" {name}\n") else it for it in whole.splitlines(True)))
            run("encode", store, file, status=0)
            hold(sums.read_text() == whole, f"{name}: {line!r}")


def test_replace_through_links(place, choose):
    """A file one of whose names is a link isn't replaced, also where links are followed: the name would be of the new file, and where the
    link leads the old one would stay. Nor is one whose link leads nowhere."""
    store, outside, file = place / "store", place / "outside", source(place, "a", choose.randbytes(900))
    outside.mkdir()
    run("encode", store, file, status=0)
    file.write_bytes(choose.randbytes(800))
    for name in ("a.x0", "a.p1", "a.file", "a.file.copy"):
        for leads in (True, False):
            (store / name).rename(outside / name)
            (store / name).symlink_to(outside / (name if leads else "nothing"))
            before = there(place)
            _, err = run("encode", "--replace", "--follow-links", store, file, status=1)
            hold(f"{name}: is no regular file, and isn't replaced" in err, f"{name}: {err}")
            hold((store / name).is_symlink() and there(place) == before, f"{name}: something is written beside a link")
            (store / name).unlink()
            (outside / name).rename(store / name)
    run("encode", "--replace", "--follow-links", store, file, status=0)
    hold(decoded(store, "a") == file.read_bytes() and are_right(store), "not the new file")


def test_remove_of_another_code(place, choose):
    """In a store of both codes a file goes with all of its fragments, whatever code most files have, and nothing of another file goes."""
    for pattern in ([], DISKS):
        for most, other in (("6-2-2", "12-2-2"), ("12-2-2", "6-2-2")):
            store, beside = place / f"store-{most}-{len(pattern)}", place / f"beside-{most}-{len(pattern)}"
            for name in ("a", "b", "c"):
                run("encode", "--make-folders", "--code", most, *pattern, store, source(place, name, choose.randbytes(900)), status=0)
            before, sums = there(store), (store / "SHA256SUMS").read_text()
            run("encode", "--make-folders", "--code", other, *pattern, beside, source(place, "w", choose.randbytes(700)), status=0)
            more = (beside / "SHA256SUMS").read_text()
            (beside / "SHA256SUMS").unlink()
            # With numbers of disks a code has to be named.
            for code in (["--code", most], ["--code", other], *([] if pattern else [[]])):
                shutil.copytree(beside, store, dirs_exist_ok=True)
                (store / "SHA256SUMS").write_text(sums + more)
                run("remove", *pattern, *code, store, "w", status=0)
                hold(there(store) | {"SHA256SUMS": b""} == before | {"SHA256SUMS": b""}, f"{most} {pattern} {code}: {sorted(there(store))}")
                hold(are_right(store), f"{most} {pattern} {code}: digests aren't those of the files")
            # Also what was to replace a file, where nothing else of it is left.
            for path in [*beside.rglob("w*")]:
                path.rename(path.with_name(path.name.replace("w", f"w{STAGED}", 1)))
            shutil.copytree(beside, store, dirs_exist_ok=True)
            run("remove", *pattern, *(["--code", most] if pattern else []), store, "w", status=0)
            hold(there(store) | {"SHA256SUMS": b""} == before | {"SHA256SUMS": b""}, f"{most} {pattern}: {sorted(there(store))}")


def test_encode_beside_an_own_description(place, choose):
    """In a store that was made before the only description of a file may be in the store's own folder: other bytes are refused beside it,
    and the same ones aren't."""
    store, file = place / "store", source(place, "a", choose.randbytes(900))
    run("encode", "--make-folders", *CODED, store, file, status=0)
    own, copies = store / "a.file", [store / f"disk{number}/a.file" for number in range(10)]
    copies[0].rename(own)
    for path in (*copies[1:], *(store / f"disk{number}/a" for number in range(10))):
        path.unlink()
    left, right = there(store), file.read_bytes()
    file.write_bytes(choose.randbytes(800))
    _, err = run("encode", *CODED, store, file, status=1)
    hold("a.file: is there already, with other bytes" in err and there(store) == left, f"beside another file's description: {err}")
    file.write_bytes(right)
    run("encode", *CODED, store, file, status=0)
    hold(decoded(store, "a", DISKS[1]) == right and own.read_bytes() == left["a.file"], "not the file beside its own description")


def test_begun_of_a_wider_code(place, choose):
    """What is to replace a file has a code with more fragments than the store's has: it stays as it is, and so does the file."""
    store, wide, new = place / "store", place / "wide", f"a{STAGED}"
    run("encode", "--make-folders", *CODED, store, source(place, "a", choose.randbytes(900)), status=0)
    data = choose.randbytes(700)
    run("encode", "--make-folders", "--code", "12-2-2", *DISKS, wide, source(place, "w", data), status=0)
    for path in [*wide.glob("disk*/w*")]:
        path.rename(path.with_name(path.name.replace("w", new)))
    # Its only description is on a disk that no stripe of the store's code has.
    for path in wide.rglob("*.file"):
        if path.parent.name != "disk12":
            path.unlink()
    (wide / "SHA256SUMS").unlink()
    shutil.copytree(wide, store, dirs_exist_ok=True)
    before = there(store)
    _, err = run("encode", *CODED, store, source(place, "a", choose.randbytes(800)), status=1)
    hold("12-2-2" in err and there(store) == before, f"something is written: {err}")
    hold(run("read", *DISKS, store, "a", status=0)[0] == data, "not what is to replace it is read")


def test_a_store_by_a_link(place, choose):
    """The path of the store itself may be a link, whether links in the store are followed or not."""
    store, link, file = place / "store", place / "link", source(place, "a", choose.randbytes(900))
    run("encode", store, file, status=0)
    whole = there(store)
    link.symlink_to("store")
    (store / "a.y1").unlink()
    hold(b"degraded" in run("list", link, status=0)[0], "what is lost isn't seen by a link")
    run("repair", link, status=0)
    hold(there(store) == whole, "not the fragment that was lost")
    run("scrub", link, status=0)
    run("encode", link, source(place, "b", b"b"), status=0)
    run("remove", link, "b", status=0)
    hold(there(store) == whole and link.is_symlink(), "not the store that was")


def test_remove_that_ends_early(place, choose):
    """A run that can't read the digests takes nothing out, and leaves no lock that would keep others from the store."""
    store = place / "store"
    run("encode", store, source(place, "a", choose.randbytes(900)), status=0)
    sums = (store / "SHA256SUMS").read_bytes()
    (store / "SHA256SUMS").unlink()
    before = there(store)
    (store / "SHA256SUMS").mkdir()
    ended = ran("remove", store, "a")
    hold(ended.returncode == 3 and b"SHA256SUMS" in ended.stderr, ended.stderr)
    hold(there(store) == before and {path.name for path in store.iterdir()} == {*before, "SHA256SUMS"}, sorted(store.iterdir()))
    (store / "SHA256SUMS").rmdir()
    (store / "SHA256SUMS").write_bytes(sums)
    run("remove", store, "a", status=0)


def test_few_that_differ(place, choose):
    """What a repair reads is held to its digests also where it reads as few fragments as it takes: one that differs is used for nothing."""
    store = place / "store"
    run("encode", store, source(place, "a", choose.randbytes(900)), status=0)
    right = (store / "a.x0").read_bytes()
    lines = (store / "SHA256SUMS").read_text().splitlines(True)
    (store / "SHA256SUMS").write_text("".join(line for line in lines if not line.endswith("  a.x0\n")))
    (store / "a.x0").unlink()
    (store / "a.x1").write_bytes(bytes(len(right)))
    _, err = run("repair", "--reads", "few", store, status=1)
    hold("a.x1: differs from" in err and (store / "a.x0").read_bytes() == right, f"not the fragment that was lost: {err}")


def test_folder_of_names_that_is_gone(place, choose):
    """The folder that all names of a store have is said where it isn't there."""
    store, names = place / "store", ["--names", "in/{stripe}.{place}", "--code", "6-2-2"]
    store.mkdir()
    for command in ("lost", "scrub", "list", "repair"):
        _, err = run(command, *names, store, status=1)
        hold(f"{store}/in: No such file or directory: what should be in it counts as lost" in err, f"{command}: {err}")


def test_lost_description_that_cannot_be_written(place, choose):
    """Where the lost description of what is to replace a file can't be written, whatever call fails for that, nothing of it stays, and the
    file is replaced nevertheless."""
    kept, _, new = begun_replacement(place, choose)
    (kept / f"a{STAGED}.file").unlink()
    calls, store, tried = Calls(place, forks=True), place / "again", set()
    command = [PROGRAM, "encode", "--replace", store, place / "a"]
    shutil.copytree(kept, store)
    for number, kind in enumerate(calls.run(command).kinds, 1):
        if kind not in ("create", "write", "chmod", "chown", "sync"):
            continue
        shutil.rmtree(store)
        shutil.copytree(kept, store)
        ended = calls.run(command, number, 28)
        tried.add(kind)
        left = {path.name for path in store.iterdir() if path.name.startswith(".rebuild-store-")}
        hold(not left, f"call {number}, {kind}: {left} stay: {ended.text()}")
        hold(decoded(store, "a") == new or decoded(store, f"a{STAGED}") == new, f"call {number}, {kind}: the new file is gone")
    hold({"create", "write", "sync"} <= tried, tried)


def test_remove_beside_a_link_below_a_file(place, choose):
    """A link that leads below what is no folder has no folder in which a run may have left something: that is neither said nor a fault."""
    store = place / "store"
    for name in ("a", "b"):
        run("encode", store, source(place, name, choose.randbytes(900)), status=0)
    (place / "notes").write_bytes(b"notes")
    (store / "a.x0").unlink()
    (store / "a.x0").symlink_to(place / "notes/x0")
    out, err = run("remove", "--follow-links", store, "b", status=0)
    hold("notes" not in err and out == b"removed 1 file; not removed: 0\n", err)


def test_encode_into_a_store_of_both_codes(place, choose):
    """A file is encoded only into a store none of whose stripes is of another code, however few these are."""
    store = place / "store"
    for code, names in (("12-2-2", ("a", "b", "c")), ("6-2-2", ("w",))):
        other = place / code
        for name in names:
            run("encode", "--code", code, other, source(place, name, choose.randbytes(900)), status=0)
        (other / "SHA256SUMS").unlink()
        shutil.copytree(other, store, dirs_exist_ok=True)
    before = there(store)
    for code, other in (("12-2-2", "6-2-2"), ("6-2-2", "12-2-2")):
        _, err = run("encode", "--code", code, store, source(place, "new", choose.randbytes(900)), status=1)
        hold(other in err and there(store) == before, f"{code}: {err}")


def test_replace_what_cannot_be_looked_at(place, choose):
    """Where a name of the file can't be looked at once all of the new one is there, none of its names is given: what has it may be no file.
    The new one stays beside it, and the same command ends the work."""
    first, store, tried = place / "first", place / "store", set()
    old, new = choose.randbytes(900), choose.randbytes(800)
    run("encode", first, source(place, "a", old), status=0)
    names = {str(store / name) for name in there(first)}
    source(place, "a", new)
    calls, command = Calls(place, forks=True), [PROGRAM, "encode", "--replace", store, place / "a"]
    shutil.copytree(first, store)
    kinds = calls.run(command).kinds
    # Each name is given by a link and a rename. Before the first of these the last new file got its own name.
    given = kinds.index("rename") - 1
    made = given - kinds[:given][::-1].index("link")
    for number in [number for number in range(made, given) if kinds[number - 1] == "look"]:
        shutil.rmtree(store)
        shutil.copytree(first, store)
        ended = calls.run(command, number, 5)
        if ended.paths[0] in names:
            tried.add(ended.paths[0])
            hold(ended.status == 3 and f"{ended.paths[0]}: Input/output error" in ended.err, f"look {number}: {ended.text()}")
            hold(decoded(store, "a") == old and decoded(store, f"a{STAGED}") == new, f"look {number}: not both files")
    hold(tried >= {path for path in names if "SHA256SUMS" not in path}, tried)
    run(*command[1:], status=0)
    hold(decoded(store, "a") == new and are_right(store), "not the new file")


def test_digests_of_what_isn_t_there(place, choose):
    """A failed run that replaces a file leaves no digest of a name that it would have given, also none that one before it has left."""
    calls, first, store, tried = Calls(place, forks=True), place / "first", place / "store", 0
    run("encode", first, source(place, "a", choose.randbytes(900)), status=0)
    sums = (first / "SHA256SUMS").read_text()
    lines = [f"{hashlib.sha256(b'').hexdigest()}  a{STAGED}.{place}\n" for place in (*PLACES, "file", "file.copy")]
    (first / "SHA256SUMS").write_text("".join(sorted([*sums.splitlines(True), *lines], key=lambda line: line[66:])))
    source(place, "a", choose.randbytes(800))
    command = [PROGRAM, "encode", "--replace", store, place / "a"]
    shutil.copytree(first, store)
    for number in [number for number, kind in enumerate(calls.run(command).kinds, 1) if kind in ("create", "write")]:
        shutil.rmtree(store)
        shutil.copytree(first, store)
        ended = calls.run(command, number, 28)
        if ended.status and not [name for name in there(store) if STAGED in name]:
            tried += 1
            hold(not [name for name in sums_of(store) if STAGED in name], f"call {number}: {sums_of(store)}")
    hold(tried, "no run took away what it had made")


def test_short_files(place, choose):
    """Of a file that is shorter than its fragments together those are enough that have bytes of it, or determine these."""
    store = place / "store"
    for length, kept in ((1, "x0"), (1, "x1 x2 px"), (7, "x0 x1 x2 y0"), (7, "x0 x2 px y0"), (7, "x0 x1 x2 y1 y2 py"),
                         (25, "x0 x1 x2 y0 y1")):
        data = choose.randbytes(length)
        run("encode", "--replace", store, source(place, "a", data), status=0)
        for one in set(PLACES) - set(kept.split()):
            (store / f"a.{one}").unlink()
        hold(run("read", store, "a", status=0)[0] == data, f"{length} bytes aren't read from {kept}")
        run("verify", store, status=0)
        (store / f"a.{kept[:2]}").unlink()
        hold(run("read", store, "a", status=1)[0] == b"", f"{length} bytes are read from less than {kept}")


def test_order_of_calls(place, choose):
    """What is written is on the disk before it gets a name, and the names are before the run ends: also those of folders that are made."""
    calls, store, file = Calls(place, forks=True), place / "store", source(place, "a", choose.randbytes(900))
    names, ordered = ["--names", "{stripe}/{place}"], []

    def is_ordered(*words):
        """Whether a run that ends well syncs each file between its last write and its name, and something after the last name."""
        ended = calls.run([PROGRAM, *words])
        ordered.append(ended.kinds)
        unsynced, unnamed = False, False
        for kind in ended.kinds:
            if kind in ("link", "rename") and unsynced:
                return False
            unsynced = kind == "write" or unsynced and kind != "sync"
            unnamed = kind in ("link", "rename", "mkdir") or unnamed and kind != "sync"
        return ended.status == 0 and not unnamed

    hold(is_ordered("encode", "--make-folders", *names, store, file), f"encode: {ordered[-1]}")
    # The store's own folder is made first, and then the one in it. If a run is killed before it wrote the name of one to the disk, the next
    # does so, though the folder is there.
    words = [PROGRAM, "encode", "--make-folders", *names, store, file]

    def sync_after(kinds, nth):
        """The number of the call by which the name of the nth folder is written to the disk."""
        made = [number for number, kind in enumerate(kinds, 1) if kind == "mkdir"][nth]
        return made + 1 + kinds[made:].index("sync")

    def cut(nth, how):
        """A run that ends so where that is to be written."""
        shutil.rmtree(store)
        return calls.run(words, sync_after(ordered[0], nth), how)

    for nth, (above, said) in enumerate(((place, place), (store, "a"))):
        ended = cut(nth, 5)
        hold(ended.paths == (str(above),), f"a folder that was made isn't written to the disk: {ended.paths}")
        hold(ended.status == 3 and f"{said}: " in ended.err, ended.text())
        cut(nth, "kill")
        again = calls.run(words)
        hold(again.status == 0, again.text())
        cut(nth, "kill")
        ended = calls.run(words, sync_after(again.kinds, nth), 5)
        hold(ended.paths == (str(above),), f"a folder that a killed run made isn't written to the disk: {ended.paths}")
        run(*words[1:], status=0)
    # By a path that ends with a slash too.
    ended = calls.run([PROGRAM, "encode", f"{place}/slash/", file])
    ended = calls.run([PROGRAM, "encode", f"{place}/slashes//", file], sync_after(ended.kinds, 0), 5)
    hold(ended.paths == (str(place),), f"a folder that was made isn't written to the disk: {ended.paths}")
    # Each folder of the store is, where it is made in another one: there the call that makes that one again comes in between.
    deep = place / "deep"
    words = [PROGRAM, "encode", "--make-folders", "--names", "a/b{shard}/{stripe}", deep, file]
    kinds = calls.run(words).kinds
    for nth, above in ((1, deep), (2, deep / "a"), (4, deep / "a")):
        shutil.rmtree(deep)
        ended = calls.run(words, sync_after(kinds, nth), 5)
        hold(ended.paths == (str(above),), f"a folder that was made isn't written to the disk: {ended.paths}")
    for damaged in (False, True):
        (store / "a/x1").write_bytes(bytes(150)) if damaged else (store / "a/x1").unlink()
        (store / "a/a.file.copy").unlink()
        hold(is_ordered("repair", "--replace-damaged", *names, store), f"repair: {ordered[-1]}")
    file.write_bytes(choose.randbytes(1_000))
    hold(is_ordered("encode", "--replace", *names, store, file), f"encode --replace: {ordered[-1]}")


def test_remove(place, choose):
    """A file is taken out with all that is its, and nothing else; what is no regular file stays, and is named."""
    store = place / "store"
    for name in ("a", "a.x0", "b"):
        run("encode", store, source(place, name, choose.randbytes(500)), status=0)
    before = there(store)
    (store / "a.x1.damaged").write_bytes(b"kept")
    out, err = run("remove", store, "nothere", "a", status=1)
    hold(out == b"removed 1 file; not removed: 1\n" and "nothere: is no file of the store" in err, f"{out} {err}")
    after = {name: data for name, data in before.items() if name.startswith(("a.x0.", "b."))}
    left = there(store)
    hold(left.pop("a.x1.damaged") == b"kept", "a fragment that was kept is gone")
    left.pop("SHA256SUMS")
    hold(left == after, f"left {sorted(left)}")
    (store / "a.x1.damaged").unlink()
    hold(are_right(store), "digests of what is gone are left")
    run("scrub", store, status=0)
    # The digests go also if the last name of the file has none.
    run("encode", store, source(place, "d", b"d"), status=0)
    lines = [line for line in (store / "SHA256SUMS").read_text().splitlines(True) if not line.endswith(" d.p1\n")]
    (store / "SHA256SUMS").write_text("".join(lines))
    run("remove", store, "d", status=0)
    hold(are_right(store), "digests of what is gone are left beside a fragment without one")
    run("encode", store, source(place, "c", b"c"), status=0)
    (store / LEFTOVER).write_bytes(b"half")
    calls = Calls(place, forks=True)
    shutil.copytree(store, place / "count")
    unlink = calls.run([PROGRAM, "remove", place / "count", "c"]).kinds.index("unlink") + 1
    ended = calls.run([PROGRAM, "remove", store, "c"], unlink, 5)
    hold(ended.status == 3 and ended.out == "removed 1 file; not removed: 0\n" and (store / LEFTOVER).exists(), ended.text())
    (store / LEFTOVER).unlink()
    (store / "b.p1").unlink()
    (store / "b.p1").mkdir()
    _, err = run("remove", store, "b", status=1)
    hold("b.p1: is no regular file, and isn't removed" in err and [*store.glob("b.*")] == [store / "b.p1"], err)
    run("list", store, status=0)


def test_remove_folders(place, choose):
    """The folders that have the name of a file that is taken out go with it, if they are empty; those of disks and of others stay."""
    file = source(place, "a", choose.randbytes(500))
    other = source(place, "b", b"b")
    for pattern, own in (("{stripe}/{place}", {"a"}), ("s/{stripe}/d{place}/f", {"s/a", *(f"s/a/d{it}" for it in PLACES)}),
                         ("disk{shard}/{stripe}", set())):
        store = place / f"store-{len(own)}"
        run("encode", "--make-folders", "--names", pattern, store, file, other, status=0)
        before = {str(path.relative_to(store)) for path in store.rglob("*") if path.is_dir()}
        run("encode", "--replace", "--names", pattern, store, source(place, "a", b"another"), status=0)
        hold({str(path.relative_to(store)) for path in store.rglob("*") if path.is_dir()} == before, f"{pattern}: other folders")
        run("remove", "--names", pattern, *([] if own else ["--code", "6-2-2"]), store, "a", status=0)
        after = {str(path.relative_to(store)) for path in store.rglob("*") if path.is_dir()}
        hold(after == before - own, f"{pattern}: {sorted(before ^ after)}")
        hold(decoded(store, "b", pattern) == b"b" and are_right(store), f"{pattern}: another file is gone")
        file = source(place, "a", choose.randbytes(500))
    store = place / "store-1"
    (store / "b/mine").write_bytes(b"kept")
    run("remove", "--names", "{stripe}/{place}", store, "b", status=0)
    hold((store / "b/mine").read_bytes() == b"kept", "a folder that had something else was emptied")
    store = place / "store-0"
    run("remove", "--names", "disk{shard}/{stripe}", "--code", "6-2-2", store, "b", status=0)
    left = {path.name for path in store.iterdir()}
    hold(left == {"SHA256SUMS", *(f"disk{number}" for number in range(10))}, f"folders of disks went with the last file: {left}")


def test_remove_through_a_link(place, choose):
    """Nothing is taken out of a folder that a link leads to, unless links are followed."""
    store, outside = place / "store", place / "outside"
    run("encode", "--make-folders", *DISKS, store, source(place, "a", choose.randbytes(500)), status=0)
    (store / "disk3").rename(outside)
    (store / "disk3").symlink_to(outside)
    before, files = there(outside), there(store)
    for command, more in (("verify", []), ("read", ["-o", place / "read"])):
        _, err = run(command, *DISKS, store, "a", *more, status=0)
        hold("disk3/a: left out: its folder is a link, and links aren't followed" in err, f"{command}: {err}")
        _, err = run(command, "--follow-links", *DISKS, store, "a", *more, status=0)
        hold("left out" not in err, f"{command}: {err}")
    _, err = run("remove", *CODED, store, "a", status=3)
    hold("its folder is a link, and links aren't followed" in err and there(outside) == before and there(store) == files, err)
    run("remove", "--follow-links", *CODED, store, "a", status=0)
    hold(not there(outside) and not [path for path in there(store) if path != "SHA256SUMS"], sorted(there(store)))


def test_names_out_of_the_store(place, choose):
    """A name that no stripe can have leads neither out of the store nor to a fragment of another file."""
    store = place / "store"
    run("encode", "--make-folders", *DISKS, store, source(place, "a", choose.randbytes(500)), status=0)
    (store / "sub").mkdir()
    for path in (place / "mine", place / "mine.file", store / "sub/mine", store / "mine"):
        path.write_bytes(b"mine")
    files, beside = there(store), there(place)
    for names in ([], CODED):
        for name in ("../mine", "sub/mine", "disk3/a", "./mine", "disk3/../disk4/a", "", "..", f"{place}/mine"):
            _, err = run("remove", *names, store, name, status=1)
            hold(("is no file of the store" in err or "is this the store" in err) and there(place) == beside, f"{name}: {err}")
            for command, more in (("read", []), ("verify", []), ("read", ["-o", place / "out"])):
                _, err = run(command, *(DISKS if names else []), store, name, *more, status=1)
                hold("is no file of the store" in err and there(place) == beside, f"{command} {name}: {err}")
    hold(there(store) == files, "the store was changed")


def test_lost_stripe(place, choose):
    """A file all of whose fragments are gone is named once by `lost`, whatever still names it, and the list doesn't ask for it."""
    store = place / "store"
    run("encode", store, source(place, "a", choose.randbytes(600)), source(place, "b", b"b"), status=0)
    for path in store.glob("a.??"):
        path.unlink()
    for gone in ("", "SHA256SUMS"):
        if gone:
            (store / gone).unlink()
        out, err = run("lost", store, status=1)
        hold(out == b"order,stripe,target,length,survivors\n" and err.count("a: no fragment can be read\n") == 1, f"{out} {err}")
        hold("2 stripes; 10 fragments lost, 10 of them not in the list" in err and "a.x0" not in err, err)
    for name in ("b.y0", "b.p1"):
        (store / name).unlink()
    out, err = run("lost", store, status=1)
    hold(len(out.splitlines()) == 3 and "12 fragments lost, 10 of them" in err, f"{out} {err}")


def test_what_lists_take(place, choose):
    """Why a list can't ask for a fragment is said: its length, or the name of its stripe."""
    store = place / "store"
    names = {"empty": 0, "long": 6 * 65_536 + 1, "Name": 60, "fits": 6 * 65_536}
    for name, length in names.items():
        run("encode", store, source(place, name, bytes(length)), status=0)
        (store / f"{name}.x1").unlink()
    out, err = run("lost", store, status=1)
    for line in ("empty.x1: a list can't ask for it: it has 0 bytes, and lists take 1 to 65536",
                 "long.x1: a list can't ask for it: it has 65537 bytes, and lists take 1 to 65536",
                 "Name.x1: a list can't ask for it: lists take other names of stripes"):
        hold(line in err, err)
    hold(out.count(b"rebuild,fits,x1,65536,") == 1 and out.count(b"\n") == 2, out)


def test_remove_killed(place, choose):
    """A run that takes a file out and is killed at any call leaves the others as they are, and the same command ends the work."""
    calls, data = Calls(place, forks=True), choose.randbytes(600)
    first = place / "first"
    run("encode", first, source(place, "a", data), source(place, "b", data), status=0)
    shutil.copytree(first, place / "count")
    kinds = calls.run([PROGRAM, "remove", place / "count", "a"]).kinds
    for number in range(1, len(kinds) + 1):
        store = place / f"killed-{number}"
        shutil.copytree(first, store)
        killed = calls.run([PROGRAM, "remove", store, "a"], number, "kill")
        where = f"killed at call {number}, {kinds[number - 1]}"
        hold(killed.status == -9, f"{where}: {killed.text()}")
        hold(decoded(store, "b") == data, f"{where}: another file is gone")
        described = [it for it in ("a.file", "a.file.copy") if (store / it).exists()]
        hold(not described or decoded(store, "a") == data, f"{where}: {described} are there, and the file isn't")
        again = ran("remove", store, "a")
        hold(again.returncode == 0 or b"is no file of the store" in again.stderr, f"{where}: {again.stderr!r}")
        hold(not [it for it in there(store) if not it.startswith(("b.", "SHA256SUMS"))], f"{where}: left {sorted(there(store))}")
        hold(are_right(store), f"{where}: digests of what is gone are left")
        run("scrub", store, status=0)
        shutil.rmtree(store)


def test_remove_killed_beside_a_replacement(place, choose):
    """A run that takes out a file which was being replaced, and is killed, leaves the new file or none, and the same command ends it."""
    calls = Calls(place, forks=True)
    for names in ([], DISKS):
        begun, old, new = begun_replacement(place, choose, *names)
        words = ["--code", "6-2-2", *names]
        run("encode", *names, begun, source(place, "b", b"b"), status=0)
        shutil.copytree(begun, place / "count")
        kinds = calls.run([PROGRAM, "remove", *words, place / "count", "a"]).kinds

        def one(number):
            store = place / f"killed-{number}"
            shutil.copytree(begun, store)
            killed = calls.run([PROGRAM, "remove", *words, store, "a"], number, "kill")
            where = f"{names}, killed at call {number}, {kinds[number - 1]}"
            hold(killed.status == -9, f"{where}: {killed.text()}")
            read = ran("read", *names, store, "a")
            hold((read.returncode, read.stdout) in ((0, new), (1, b"")), f"{where}: {read.returncode}, the old file: {read.stdout == old}")
            again = ran("remove", *words, store, "a")
            hold(again.returncode == 0 or b"a: is no file of the store" in again.stderr, f"{where}: {again.stderr!r}")
            left = [it for it in there(store) if it.split("/")[-1][0] == "a"]
            hold(not left and are_right(store), f"{where}: left {left}")
            shutil.rmtree(store)

        with concurrent.futures.ThreadPoolExecutor(os.cpu_count()) as pool:
            [*pool.map(one, range(1, len(kinds) + 1))]
        shutil.rmtree(begun)
        shutil.rmtree(place / "count")


def test_remove_by_the_name_of_a_description(place, choose):
    """What has the name of a file's descriptions is no file that could be taken out."""
    store = place / "store"
    run("encode", "--make-folders", *DISKS, store, source(place, "a", choose.randbytes(500)), status=0)
    files, calls = there(store), Calls(place, forks=True)
    command = [PROGRAM, "remove", *CODED, store, "a.file"]
    (store / "disk0/a.file").write_bytes(b"odd")
    files["disk0/a.file"] = b"odd"
    _, err = run(*command[1:], status=1)
    hold("a.file: is no file of the store" in err and there(store) == files, f"{err}: {sorted(there(store))}")
    for number, kind in enumerate(calls.run(command).kinds, 1):
        if kind in ("look", "open", "read"):
            ended = calls.run(command, number, 5)
            hold(ended.status in (1, 3) and there(store) == files, f"call {number}, {kind}: {ended.text()}")
    run("remove", *CODED, store, "a", status=0)
    hold(set(there(store)) == {"SHA256SUMS"}, sorted(there(store)))


def test_remove_beside_an_odd_description(place, choose):
    """What has the name of a description and is none stays, and no digest is left by which a repair would make the file again."""
    store, data = place / "store", choose.randbytes(900)
    run("encode", store, source(place, "a", data), source(place, "b", b"b"), status=0)
    (store / "a.file").unlink()
    (store / "a.file").mkdir()
    _, err = run("remove", store, "a", status=1)
    hold("a.file: is no regular file, and isn't removed" in err and (store / "a.file").is_dir(), err)
    hold(not [name for name in sums_of(store) if name.startswith("a.")], f"digests are left: {sums_of(store)}")
    (store / "a.file").rmdir()
    run("remove", store, "a", status=0)
    hold(not [name for name in there(store) if name.startswith("a.")] and are_right(store), f"left {sorted(there(store))}")


def test_remove_where_the_digests_cannot_be_written(place, choose):
    """A file that stays, since the digests can't be written once, keeps its digests, also where they are written for the next one."""
    calls, first = Calls(place, forks=True), place / "first"
    run("encode", first, source(place, "a", choose.randbytes(600)), source(place, "b", b"b"), status=0)
    shutil.copytree(first, place / "count")
    kinds = calls.run([PROGRAM, "remove", place / "count", "a", "b"]).kinds
    for number in range(1, kinds.index("unlink") + 1):
        if kinds[number - 1] in ("create", "write", "sync", "rename"):
            for names in (["a", "b"], ["a"]):
                store = place / f"failing-{number}-{len(names)}"
                shutil.copytree(first, store)
                ended = calls.run([PROGRAM, "remove", store, *names], number, 28)
                where = f"{names}, call {number}, {kinds[number - 1]}: {ended.text()}"
                said = "removed 1 file; not removed: 1" if "b" in names else "removed 0 files; not removed: 1"
                hold(ended.status == 3 and said in ended.out, where)
                left = {"a", "SHA256SUMS"} if "b" in names else {"a", "b", "SHA256SUMS"}
                hold({it.split(".")[0] for it in there(store)} == left, f"{where}: {sorted(there(store))}")
                hold(are_right(store), f"{where}: {sorted(sums_of(store))}")


def test_remove_beside_an_odd_fragment(place, choose):
    """What has the name of a fragment and is no regular file stays, and keeps nothing else of the file, or of what was to replace it."""
    odd = {"folder": pathlib.Path.mkdir, "link": lambda path: path.symlink_to(place / "none"), "FIFO": os.mkfifo}
    for kind, make in odd.items():
        for pattern, path in (("{stripe}.{place}", "a.y0"), ("{stripe}/{place}", "a/y0")):
            store, _, _ = begun_replacement(place, choose, "--names", pattern)
            run("encode", "--make-folders", "--names", pattern, store, source(place, "b", b"b"), status=0)
            (store / path).unlink()
            make(store / path)
            words = ["--names", pattern, "--code", "6-2-2", store, "a"]
            for _turn in range(2):
                out, err = run("remove", *words, status=1)
                where = f"{kind}, {pattern}: {err}{out}"
                hold(f"{path}: is no regular file, and isn't removed" in err and out == b"removed 0 files; not removed: 1\n", where)
                left = {str(it.relative_to(store)) for it in store.rglob("*")}
                left = {it for it in left if it[0] == "a"}
                hold(left == {path, path.rpartition("/")[0] or path} and are_right(store), f"{where}: left {sorted(left)}")
            shutil.rmtree(store / path) if kind == "folder" else (store / path).unlink()
            _, err = run("remove", *words, status=1)
            hold("a: is no file of the store" in err, f"{kind}, {pattern}: {err}")
            shutil.rmtree(store)


def test_remove_where_a_disk_fails(place, choose):
    """A file that something still describes has its digests: where a description can't be taken out, they are written again. Where only
    fragments stay, what was to replace the file goes too. The same command ends the work once the disk can be written."""
    calls, tried = Calls(place, forks=True), set()
    for begins in (False, True):
        if begins:
            first, _, data = begun_replacement(place, choose, *DISKS)
        else:
            first, data = place / "first", choose.randbytes(600)
            run("encode", "--make-folders", *DISKS, first, source(place, "a", data), status=0)
        run("encode", *DISKS, first, source(place, "b", b"b"), status=0)
        # Also what was to replace the file has its digests.
        whole = {name: data for name, data in there(first).items() if name != "SHA256SUMS"}
        lines = {name: hashlib.sha256(whole[name]).hexdigest() for name in sorted(whole)}
        (first / "SHA256SUMS").write_text("".join(f"{line}  {name}\n" for name, line in lines.items()))
        count = place / "count"
        shutil.copytree(first, count)
        kinds = calls.run([PROGRAM, "remove", *CODED, count, "a"]).kinds
        shutil.rmtree(count)
        for number in range(kinds.index("unlink") + 1, len(kinds) + 1):
            if kinds[number - 1] not in ("unlink", "sync"):
                continue
            store = place / f"failing-{number}"
            shutil.copytree(first, store)
            # What is at that path isn't taken out, whatever else could be.
            ended = calls.run([PROGRAM, "remove", *CODED, store, "a"], number, 30, "path")
            where = f"{begins}, call {number}, {kinds[number - 1]}: {ended.text()}"
            hold(ended.status == 3 and "removed 0 files; not removed: 1" in ended.out, where)
            left = {it for it in there(store) if it.split("/")[-1].startswith("a")}
            for stripe in ("a", f"a{STAGED}"):
                names = {it for it in whole if it.split("/")[-1] in (stripe, f"{stripe}.file")}
                is_described = any(it.endswith(f"{stripe}.file") for it in left & names)
                kept = {name: line for name, line in lines.items() if name in names}
                found = {name: line for name, line in sums_of(store).items() if name in names}
                hold(found == (kept if is_described else {}), f"{where}: {stripe}: lines of {sorted(found)}, left {sorted(left)}")
                tried.add((begins, stripe, is_described, bool(left & names)))
            if any(it.endswith(".file") for it in left):
                hold(run("read", *DISKS, store, "a", status=0)[0] == data, f"{where}: another file is read")
            hold(sums_of(store).keys() >= {it for it in lines if it.endswith(("/b", "/b.file"))}, f"{where}: digests of another are gone")
            again = ran("remove", *CODED, store, "a")
            hold(again.returncode == 0 or (not left and b"a: is no file of the store" in again.stderr), f"{where}: {again.stderr!r}")
            hold({it.split("/")[-1] for it in there(store)} == {"b", "b.file", "SHA256SUMS"} and are_right(store), f"{where}: not ended")
            shutil.rmtree(store)
        shutil.rmtree(first)
    for what in ((False, "a", True, True), (False, "a", False, True), (True, "a", True, True), (True, "a", False, True),
                 (True, f"a{STAGED}", True, True), (True, f"a{STAGED}", False, False)):
        hold(what in tried, f"not tried: {what}: {sorted(tried)}")


def test_standard_input(place, choose):
    """Standard input is encoded under the name that is given, and what it was kept in is gone."""
    store, data = place / "store", choose.randbytes(600_000)
    run("encode", store, "-", "--as", "in", status=0, given=data)
    hold(decoded(store, "in") == data and are_right(store), "standard input isn't what it was")
    run("encode", store, "-", "--as", "empty", status=0)
    hold(decoded(store, "empty") == b"", "nothing isn't what it was")
    # A read that a signal interrupts is made again.
    calls = Calls(place, forks=True)
    command = [PROGRAM, "encode", store, "-", "--as", "empty"]
    reads = [number for number, kind in enumerate(calls.run(command).kinds, 1) if kind == "read"]
    tried = [ended for ended in (calls.run(command, number, 4) for number in reads) if ended.paths == ("/dev/null",)]
    hold(tried and all(ended.status == 0 for ended in tried), [ended.text() for ended in tried])
    run("encode", store, source(place, "file", b"other"), "--as", "name", status=0)
    hold(decoded(store, "name") == b"other" and not (store / "file.x0").exists(), "a file has another name than was given")
    # What it is kept in is nobody else's to read, whatever the mask.
    process = subprocess.Popen([PROGRAM, "encode", store, "-", "--as", "kept"], stdin=subprocess.PIPE, stdout=subprocess.DEVNULL, umask=0)
    process.stdin.write(bytes(300_000))
    process.stdin.flush()
    until, kept = time.monotonic() + SECONDS, []
    while not kept and time.monotonic() < until:
        kept = [path.stat().st_mode for path in store.glob(".rebuild-store-*") if path.exists()]
        time.sleep(0.01)
    process.stdin.close()
    hold(process.wait(SECONDS) == 0 and kept == [stat.S_IFREG | 0o600], f"{kept}")
    before = there(store)
    _, err = run("encode", store, "-", "--as", "in", status=1, given=b"other")
    hold("--replace replaces the file" in err and there(store) == before, f"{err}: {sorted(there(store))}")
    _, err = run("encode", store, "-", status=2)
    hold("--as NAME" in err, err)
    _, err = run("encode", store, place / "file", place / "file", "--as", "c", status=2)
    hold("take one FILE alone" in err, err)
    for name in ("2025/notes", "/notes", "notes/"):
        for words in ([place / "file"], ["-"]):
            _, err = run("encode", place / "new", *words, "--as", name, status=2)
            hold(err == "error: --as takes a name without /\n" and not (place / "new").exists(), err)
    hold(not [it for it in there(store) if it.startswith(".rebuild")], sorted(there(store)))


def test_make_folders(place, choose):
    """Folders that names have are made if that is asked for, and a link in their place is not gone through."""
    data = choose.randbytes(100)
    for pattern in ("disk{shard}/{stripe}", "{stripe}/{place}", "a/b{shard}/{stripe}"):
        store = place / pattern.replace("/", "-")
        run("encode", "--names", pattern, store, source(place, "n", data), status=3)
        hold(not [path for path in there(store) if path != "SHA256SUMS"], sorted(there(store)))
        run("encode", "--make-folders", "--names", pattern, store, place / "n", status=0)
        hold(decoded(store, "n", pattern) == data, f"{pattern}: it can't be read")
    store, outside = place / "linked", place / "outside"
    store.mkdir()
    outside.mkdir()
    (store / "disk4").symlink_to(outside)
    run("encode", "--make-folders", *DISKS, store, place / "n", status=3)
    hold(not there(outside), "a file was made outside the store")
    _, err = run("encode", "--make-folders", "--names", "disk4/{stripe}/{place}", store, place / "n", status=3)
    hold("its folder is a link" in err and not [*outside.iterdir()], f"a folder was made outside the store: {err}")
    # None is made for a file that can't be read.
    calls, store = Calls(place, forks=True), place / "unread"
    words = [PROGRAM, "encode", "--make-folders", *DISKS, store, place / "n"]
    for number, kind in enumerate(calls.run(words).kinds, 1):
        if kind == "open":
            shutil.rmtree(store)
            ended = calls.run(words, number, 13)
            if ended.paths == (str(place / "n"),):
                break
    hold(ended.status == 3 and f"{place / 'n'}: Permission denied" in ended.err, ended.text())
    run("encode", "--make-folders", *DISKS, store, place / "n", "--as", "n.file", status=1)
    hold(not [*store.iterdir()], "folders were made for a file that can't be read, or have its name")


def test_limit_on_length(place, choose):
    """Where files may not get as long as what is to be written, that is said before anything is written."""
    store, data = place / "store", choose.randbytes(300_000)
    file = source(place, "a", data)

    def limited():
        # It is the soft limit that ends a run.
        resource.setrlimit(resource.RLIMIT_FSIZE, (20_480, resource.getrlimit(resource.RLIMIT_FSIZE)[1]))

    _, err = run("encode", store, file, status=1, preexec_fn=limited)
    hold("a: would have 50000 bytes, and no file may get more than 20480 here: ulimit -f" in err and not there(store), err)
    run("encode", store, file, status=0)
    # One with as many bytes as a file may get is written, also beside longer ones of which nothing is lost.
    run("encode", store, source(place, "fits", bytes(6 * 20_480)), status=0, preexec_fn=limited)
    (store / "fits.x0").unlink()
    run("repair", store, status=0, preexec_fn=limited)
    run("remove", store, "fits", status=0)
    (store / "a.x0").unlink()
    files = there(store)
    _, err = run("repair", store, status=1, preexec_fn=limited)
    hold("a: would have 50000 bytes, and no file may get more than 20480 here: ulimit -f" in err and there(store) == files, err)
    run("repair", "--dry-run", store, status=1, preexec_fn=limited)
    _, err = run("read", store, "a", "-o", place / "out", status=1, preexec_fn=limited)
    hold("ulimit -f" in err and not (place / "out").exists(), err)
    ended = ran("encode", store, "-", "--as", "b", given=data, preexec_fn=limited)
    hold(ended.returncode == 3 and there(store) == files, f"{ended.returncode}: {ended.stderr!r} {sorted(there(store))}")
    # A description that no fragments fit is not the file's, however long it says that the file is.
    run("encode", store, source(place, "b", b"short"), status=0)
    (store / "b.file").write_text((store / "b.file").read_text().replace("5 ", "300000 ", 1))
    run("read", store, "b", "-o", place / "out", status=0, preexec_fn=limited)
    hold((place / "out").read_bytes() == b"short", "another file was read")
    # Of standard input just as many bytes are taken as a file may get.
    for many, status in ((20_480, 0), (20_481, 3)):
        ended = ran("encode", store, "-", "--as", f"in{many}", given=bytes(many), preexec_fn=limited)
        hold(ended.returncode == status, f"{many} bytes: {ended.returncode}: {ended.stderr!r}")
        hold(decoded(store, f"in{many}") == (None if status else bytes(many)), f"{many} bytes aren't what they were")
    # Standard output that is a file counts with what it has already.
    for many, status in ((20_475, 0), (20_476, 3)):
        (place / "appended").write_bytes(bytes(many))
        with open(place / "appended", "ab") as output:
            words = [PROGRAM, "read", store, "b"]
            ended = subprocess.run(words, stdout=output, stderr=subprocess.PIPE, preexec_fn=limited, timeout=SECONDS)
        written = bytes(many) + (b"" if status else b"short")
        hold((ended.returncode, (place / "appended").read_bytes()) == (status, written), f"{many}: {ended.returncode} {ended.stderr!r}")


def test_limit_met_by_a_repair(place, choose):
    """A fragment that is damaged, or of a stripe whose files have several lengths, and longer than files may get is named and stays; what
    was begun of it is taken away. Others are repaired beside it."""
    store = place / "store"
    run("encode", store, source(place, "a", choose.randbytes(300_000)), source(place, "b", choose.randbytes(6_000)), status=0)
    files = there(store)

    def limited():
        resource.setrlimit(resource.RLIMIT_FSIZE, (20_480, resource.getrlimit(resource.RLIMIT_FSIZE)[1]))

    damaged = files["a.x1"][:-1] + bytes([files["a.x1"][-1] ^ 1])
    for odd, named in (({"a.x1": damaged}, "x1"), ({"a.y2": b"short", "a.p0": None}, "p0"), ({"a.y2": b"short"}, "y2")):
        for name, data in odd.items():
            (store / name).unlink() if data is None else (store / name).write_bytes(data)
        (store / "b.x0").unlink()
        before = there(store)
        out, err = run("repair", "--replace-damaged", store, status=3, preexec_fn=limited)
        hold(f"a.{named}: can't be put in its place: would be longer than files may get here: ulimit -f\n" in err, f"{odd.keys()}: {err}")
        hold(there(store) == {**before, "b.x0": files["b.x0"]} and b"repaired 1 fragment," in out, f"{odd.keys()}: {sorted(there(store))}")
        # What is lost comes back first: then a check covers what is put in the place of the other.
        ran("repair", store)
        run("repair", "--replace-damaged", store, status=0)
        for name in odd:
            (store / f"{name}.damaged").unlink(missing_ok=True)
        hold(there(store) == files, f"{odd.keys()}: {sorted(there(store))}")


def test_limit_on_other_files(place, choose):
    """The digests, a report and what a file has that is standard output aren't begun where they would get longer than files may."""
    store, limit = place / "store", 400

    def limited():
        resource.setrlimit(resource.RLIMIT_FSIZE, (limit, limit))

    sources = [source(place, name, choose.randbytes(600)) for name in ("a", "b")]
    _, err = run("encode", store, *sources, status=3, preexec_fn=limited)
    said = "would be longer than files may get here: ulimit -f"
    hold(f"SHA256SUMS: {said}" in err and not (store / "SHA256SUMS").exists(), err)
    hold(decoded(store, "a") == sources[0].read_bytes() and not [it for it in there(store) if it.startswith(".")], sorted(there(store)))
    run("encode", store, *sources, status=0)
    hold(are_right(store), "the same command again didn't write the digests")
    files = there(store)
    _, err = run("encode", "--replace", store, source(place, "a", b"another"), status=3, preexec_fn=limited)
    hold("SHA256SUMS" in err and decoded(store, "b") == sources[1].read_bytes(), err)
    run("encode", "--replace", store, source(place, "a", files["a.x0"]), status=0)
    hold(are_right(store) and decoded(store, "a") == files["a.x0"], "the store isn't whole after the limit was raised")
    shutil.rmtree(store)
    run("encode", store, *(source(place, name, choose.randbytes(600)) for name in "abcdefgh"), status=0)
    for name in "abcdefgh":
        for lost in ("x0", "y1", "p0"):
            (store / f"{name}.{lost}").unlink()
    report = place / "report"
    for older in (None, "older"):
        if older:
            report.write_text(older)
        _, err = run("scrub", store, "--report", report, status=3, preexec_fn=limited)
        hold(f"{report}: the report can't be written: {said}" in err, err)
        hold((report.read_text() if report.exists() else None) == older, "a part of a report was written")
    # The same of a file that a link leads to.
    (place / "link").symlink_to(place / "behind")
    (place / "behind").write_text("older")
    _, err = run("scrub", store, "--report", place / "link", status=3, preexec_fn=limited)
    hold(f"{place / 'link'}: the report can't be written: {said}" in err and (place / "behind").read_text() == "older", err)
    _, err = run("scrub", store, "--report", "/dev/null", status=1, preexec_fn=limited)
    for words in (["scrub", store, "--json"], ["read", store, "a"]):
        with open(place / "output", "wb") as output:
            ended = subprocess.run([PROGRAM, *words], stdout=output, stderr=subprocess.PIPE, timeout=SECONDS, preexec_fn=limited)
        hold(ended.returncode == 3 and f"standard output: {said}".encode() in ended.stderr, f"{words}: {ended}")
        # Rows come stripe by stripe, each whole; of a file nothing is written.
        written = (place / "output").read_text()
        hold(not written or "--json" in words and all(json.loads(line)["stripe"] for line in written.splitlines()) and written[-1] == "\n",
             f"{words}: a part was written")
    with subprocess.Popen([PROGRAM, "read", store, "a"], stdout=subprocess.PIPE, stderr=subprocess.DEVNULL, preexec_fn=limited) as process:
        hold(process.stdout.read() == (place / "a").read_bytes() and process.wait() == 0, "a pipe is taken for a file")


def test_unmounted_disk(place, choose):
    """Nothing is written at the mount point of a disk that isn't mounted, unless that is allowed."""
    if os.geteuid() != 0:
        raise Skipped("only root can try it")
    store, data = place / "store", choose.randbytes(5_000)
    source(place, "a", data)
    for number in range(10):
        (store / f"disk{number}").mkdir(parents=True)
    (place / "to/disk3").mkdir(parents=True)
    script = f"""set -e
    for n in 0 1 2 3 4 5 6 7 8 9; do mount -t tmpfs -o size=4m,mode=755 none {store}/disk$n || exit 77; done
    p={PROGRAM}; w="--code 6-2-2 --names disk{{shard}}/{{stripe}}"
    $p encode $w {store} {place}/a
    umount {store}/disk3
    set +e
    $p repair $w {store}; echo "repair $?"
    $p repair -n $w {store}; echo "plan $?"
    $p scrub $w {store}; echo "scrub $?"
    $p lost $w {store} > /dev/null; echo "lost $?"
    $p encode $w {store} {PROGRAM}; echo "encode $?"
    $p repair --to {place}/to $w {store} 2> /dev/null; echo "to $? $(ls -A {place}/to/disk3 | wc -l)"
    echo "left $(ls -A {store}/disk3 | wc -l)"
    $p repair --allow-unmounted $w {store}; echo "allowed $?"
    echo "made $(ls -A {store}/disk3 | wc -l)"
    $p repair $w {store}; echo "kept $?"
    $p encode --allow-unmounted --as b $w {store} {place}/a; echo "encoded $?"
    umount {store}/disk8; umount {store}/disk9
    $p repair $w {store}; echo "two $? $(ls -A {store}/disk8 {store}/disk9 | grep -c '^[ab]')"
    umount {store}/disk6
    echo "most $($p repair -n $w {store} 2>&1 | grep -c 'no disk is mounted')"
    echo "named $($p repair -n --to {place}/to --allow-unmounted $w {store} 2>&1 | grep -c 'no disk is mounted')"
    umount {store}/disk7
    echo "half $($p repair -n $w {store} 2>&1 | grep -c 'no disk is mounted')"
    for n in 4 5; do umount {store}/disk$n; done
    echo "few $($p repair -n $w {store} 2>&1 | grep -c 'no disk is mounted')"
    """
    ended = subprocess.run(["unshare", "--mount", "bash", "-c", script], capture_output=True, text=True, timeout=SECONDS)
    if ended.returncode == 77 or "unshare" in ended.stderr:
        raise Skipped(f"nothing can be mounted here: {ended.stderr.strip()}")
    kinds = ("repair", "plan", "scrub", "lost", "encode", "to", "left", "allowed", "made", "kept", "encoded", "two", "most", "named",
             "half", "few")
    words = [line for line in ended.stdout.splitlines() if line.split()[0] in kinds]
    # What is in the folder of such a disk is looked at as elsewhere. Of ten disks four that are not mounted are fewer than the others, and
    # five are not.
    want = ["repair 3", "plan 3", "scrub 1", "lost 1", "encode 1", "to 0 2", "left 0", "allowed 0", "made 2", "kept 0", "encoded 0",
            "two 3 0", "most 4", "named 4", "half 0", "few 0"]
    hold([line for line in words if not line.startswith(("repaired", "encoded 1 "))] == want, f"{words}: {ended.stdout}{ended.stderr}")
    said = [ended.stderr.count(f"disk{number}: no disk is mounted there") for number in (3, 9)]
    hold(said == [7, 1], ended.stderr)
    # Who writes nothing there says no more of it: a scrub and a list of what is lost; but a repair, and a plan of one, do.
    ends = [ended.stderr.count(f"as are at most others{end}\n") for end in ("", ": nothing is written there without --allow-unmounted")]
    hold(ends == [2, 3 + 3], ended.stderr)


def test_quiet(place, choose):
    """Without summaries only what is wrong is said."""
    store = place / "store"
    hold(run("encode", "-q", store, source(place, "a", b"a"), status=0) == (b"", ""), "encode says something")
    hold(run("scrub", "--quiet", store, "-j", "1", status=0) == (b"", ""), "scrub says something")
    (store / "a.x0").unlink()
    hold(run("repair", "-n", "-q", store, status=1) == (b"", ""), "a dry run says something")
    hold(run("repair", "-q", store, "-j2", status=0) == (b"", ""), "repair says something")
    hold(run("remove", "-q", store, "a", status=0) == (b"", ""), "remove says something")


def test_what_replacing_would_mend(place, choose):
    """What only --replace-damaged would mend is counted as that, and a dry run says of it what is wrong."""
    store = place / "store"
    run("encode", store, source(place, "a", choose.randbytes(6_000)), status=0)
    with open(store / "a.p0", "r+b") as file:
        file.write(b"damaged!")
    (store / "a.file").write_bytes(b"odd")
    out, err = run("repair", "--reads", "all", store, status=1)
    want = b"damaged: 1: a.p0; left without --replace-damaged: 2; not possible: 0"
    hold(want in out and "a.p0: differs from the checksums" in err, out)
    out, err = run("repair", "--reads", "all", "-n", store, status=1)
    hold(b"with --replace-damaged 2, 0 can't" in out and "another length" not in err, f"{out} {err}")
    out, _ = run("repair", "--replace-damaged", store, status=0)
    hold(b"left without" not in out and b"not possible: 0" in out, out)


def test_descriptions_from_digests(place, choose):
    """A description of which no copy is left is made again where the digests determine it, of files of each length of padding."""
    calls = Calls(place, forks=True)

    def reads(store):
        return calls.run([PROGRAM, "scrub", "-j", "1", store]).kinds.count("read")

    for length in (0, 1, 5, 6, 7, 6_000, 6_001, 6_005):
        store = place / f"store-{length}"
        data = choose.randbytes(length // 2) + bytes(length - length // 2)
        run("encode", store, source(place, "a", data), status=0)
        text, many = (store / "a.file").read_bytes(), reads(store)
        for name in ("a.file", "a.file.copy", "a.x1"):
            (store / name).unlink()
        run("scrub", store, status=1)
        hold(reads(store) <= many, "a scrub, which makes no description, reads the fragments once more to know what it said")
        out, err = run("repair", "-n", store, status=1)
        hold(b"2 descriptions can be made" in out and err == "", f"{out} {err}")
        if length > 100:
            # Also where a file was cut short.
            os.truncate(store / "a.y1", length // 12)
        run("repair", "--replace-damaged", store, status=0)
        hold((store / "a.file").read_bytes() == text == (store / "a.file.copy").read_bytes(), f"{length}: another description")
        (store / "a.file").unlink()
        (store / "a.file.copy").unlink()
        lines = [line for line in (store / "SHA256SUMS").read_text().splitlines(True) if ".file" not in line]
        (store / "SHA256SUMS").write_text("".join(lines))
        run("verify", store, "a", status=1)
        run("repair", store, status=0)
        hold(not (store / "a.file").exists(), f"{length}: a description was made of which nothing is known")
    # Beside fragments in another folder it is made of those in the store.
    store, to, data = place / "store", place / "to", choose.randbytes(6_001)
    to.mkdir()
    run("encode", store, source(place, "a", data), status=0)
    lost = {name: (store / name).read_bytes() for name in ("a.x0", "a.file", "a.file.copy")}
    for name in lost:
        (store / name).unlink()
    run("repair", store, "--to", to, status=0)
    hold(there(to) == lost, f"made {sorted(there(to))}")


def test_rights_of_descriptions_from_digests(place, choose):
    """Where no copy of a description is left, what is made has the owner and the rights of the fragments, and none that one of them hasn't;
    and nobody but its user may read it where these aren't of one owner."""
    store, names = place / "store", ("a.file", "a.file.copy")
    run("encode", store, source(place, "a", choose.randbytes(6_000)), status=0)
    owners = [(os.getuid(), os.getgid()), (1_234, 4_321)] if os.getuid() == 0 else [(os.getuid(), os.getgid())]

    def made(modes, owned):
        for number, one in enumerate(PLACES):
            (store / f"a.{one}").chmod(modes[number % len(modes)])
            if os.getuid() == 0:
                os.chown(store / f"a.{one}", *owned[number % len(owned)])
        for name in names:
            (store / name).unlink()
        run("repair", store, status=0)
        rights = [(stat.S_IMODE(it.st_mode), (it.st_uid, it.st_gid)) for it in map(os.stat, (store / name for name in names))]
        hold(rights[0] == rights[1], rights)
        return rights[0]

    for owner in owners:
        for modes, mode in (([0o644], 0o644), ([0o640, 0o644], 0o640), ([0o644, 0o664, 0o604], 0o604), ([0o600], 0o600), ([0o755], 0o644),
                            ([0o644, 0o440], 0o640)):
            hold(made(modes, [owner]) == (mode, owner), f"{modes} {owner}: {made(modes, [owner])}")
    if len(owners) > 1:
        hold(made([0o644], owners) == (0o600, owners[0]), "others may read it, or it was given away")
        hold(made([0o644], [(0, 0), (0, 4_321)]) == (0o600, owners[0]), "another group may read it")


def test_long_names(place, choose):
    """A fragment whose second name would be too long is left, and a line says why."""
    store = place / "store"
    name = "n" * 245
    run("encode", store, source(place, name, choose.randbytes(600)), status=0)
    with open(store / f"{name}.y0", "r+b") as file:
        file.write(b"damaged!")
    files = there(store)
    _, err = run("repair", "--replace-damaged", store, status=3)
    hold("its folder takes no name as long as that of a fragment which is kept" in err and there(store) == files, err)
    # Nothing has a name that no folder takes.
    for command, more in (("read", []), ("read", ["-o", place / "out"]), ("verify", [])):
        _, err = run(command, store, "n" * 300, *more, status=1)
        hold("is no file of the store" in err and "too long" not in err, f"{command}: {err}")


def test_new_file_that_fails_beside_replace(place, choose):
    """A new file of which something can't be written isn't encoded with --replace either: that is said, and it isn't tried another way."""
    calls, store, file = Calls(place, forks=True), place / "store", source(place, "a", choose.randbytes(900))
    command, tried = [PROGRAM, "encode", "--replace", store, file], set()
    kinds = calls.run(command).kinds
    hold(decoded(store, "a") == file.read_bytes(), "the file isn't encoded")
    for number, kind in enumerate(kinds[: kinds.index("link")], 1):
        if kind in ("create", "write"):
            shutil.rmtree(store)
            ended = calls.run(command, number, 28)
            # The file is digested beside that, so that the calls aren't in the same order each time.
            if ended.kind in ("create", "write"):
                tried.add(ended.kind)
                hold(ended.status == 3 and "No space left on device" in ended.err, f"call {number}: {ended.text()}")
                hold(not [it for it in there(store) if it[0] == "a"], f"call {number}: {sorted(there(store))}")
    hold(tried == {"create", "write"}, f"tried {tried}")


def limited_to(most):
    """What has a run that is started so write no file of more bytes than these."""
    return lambda: resource.setrlimit(resource.RLIMIT_FSIZE, (most, resource.getrlimit(resource.RLIMIT_FSIZE)[1]))


def test_folders_that_are_not_the_files_own(place, choose):
    """With a store's last file go the folders that have its name, and not those above them; and a folder of others stays that is one of
    those in which a file is to be replaced, where it can't be."""
    store, names = place / "store", ["--names", "s/{stripe}/d{place}/f"]
    run("encode", "--make-folders", *names, store, source(place, "a", choose.randbytes(500)), status=0)
    theirs = store / f"s/a{STAGED}/dp1"
    theirs.mkdir(parents=True)
    run("encode", "--replace", *names, store, source(place, "a", bytes(300_000)), status=1, preexec_fn=limited_to(20_480))
    hold(theirs.is_dir(), "a folder of others is gone")
    shutil.rmtree(theirs.parent)
    run("remove", "--code", "6-2-2", *names, store, "a", status=0)
    left = sorted(str(it.relative_to(store)) for it in store.rglob("*"))
    hold(left == ["SHA256SUMS", "s"], f"left {left}")


def test_remove_by_the_name_of_the_only_description(place, choose):
    """What has the name of a file's only description is no file that could be taken out, whichever disk has it, also where it can't be
    read."""
    calls = Calls(place, forks=True)
    for only in (0, 4, 9):
        store = place / f"store-{only}"
        run("encode", "--make-folders", *DISKS, store, source(place, "a", choose.randbytes(500)), status=0)
        for number in set(range(10)) - {only}:
            (store / f"disk{number}/a.file").unlink()
        before, command = there(store), [PROGRAM, "remove", *CODED, store, "a.file"]
        _, err = run(*command[1:], status=1)
        hold("a.file: is no file of the store" in err and there(store) == before, f"disk{only}: {err}")
    tried = set()
    for number, kind in enumerate(calls.run(command).kinds, 1):
        if kind in ("look", "open", "read"):
            # The next call at its path is answered.
            ended = calls.run(command, number, 5)
            if ended.paths == (str(store / "disk9/a.file"),):
                tried.add(kind)
                hold(ended.status in (1, 3) and there(store) == before, f"call {number}, {kind}: {ended.text()}")
    hold(tried == {"look", "open", "read"}, f"tried {tried}")


def test_remove_beside_a_linked_folder(place, choose):
    """Nothing is taken out through a link in place of a file's folder, or of the one in which it is to be replaced, unless links are
    followed."""
    names, outside = ["--names", "{stripe}/{place}"], place / "outside"
    for folder in ("a", f"a{STAGED}"):
        store, _, _ = begun_replacement(place, choose, *names)
        (store / folder).rename(outside)
        (store / folder).symlink_to(outside)
        before = there(outside), lasting(store)
        _, err = run("remove", "--code", "6-2-2", *names, store, "a", status=3)
        hold("its folder is a link, and links aren't followed" in err and (there(outside), lasting(store)) == before, f"{folder}: {err}")
        run("remove", "--follow-links", "--code", "6-2-2", *names, store, "a", status=0)
        hold(not lasting(outside) and set(lasting(store)) == {"SHA256SUMS"}, f"{folder}: left {sorted(outside.iterdir())}")
        shutil.rmtree(store)
        shutil.rmtree(outside)


def test_remove_what_is_left_of_a_file(place, choose):
    """Whatever one file is left of a file, or of what was to replace it, goes with the file's name, also beside disks that are gone."""
    first, _, _ = begun_replacement(place, choose)
    run("encode", first, source(place, "b", b"b"), status=0)
    store = place / "one"
    for ending in (".file", ".file.copy", ".x0", ".p1"):
        for name in (f"a{ending}", f"a{STAGED}{ending}"):
            shutil.copytree(first, store)
            for path in store.glob("a.*"):
                path.unlink() if path.name != name else None
            run("remove", store, "a", status=0)
            hold({it.split(".")[0] for it in there(store)} == {"b", "SHA256SUMS"} and are_right(store), f"{name}: {sorted(there(store))}")
            shutil.rmtree(store)
    # Also the only description of a file in a store that was made before.
    run("encode", "--make-folders", *DISKS, store, place / "b", status=0)
    (store / "a.file").write_bytes(description_of(b"gone"))
    run("remove", *CODED, store, "a", status=0)
    hold({it.split("/")[-1].split(".")[0] for it in there(store)} == {"b", "SHA256SUMS"}, f"{sorted(there(store))}")
    run("encode", *DISKS, store, place / "a", status=0)
    shutil.rmtree(store / "disk3")
    run("remove", *CODED, store, "a", status=0)
    hold(not [*store.rglob("a*")], f"beside a disk that is gone: {sorted(there(store))}")


def test_remove_where_one_description_stays(place, choose):
    """A file keeps its digests, and the folders of its disks, where any description of it stays."""
    calls, kept, store = Calls(place, forks=True), place / "kept", place / "store"
    for pattern, first, middle, empty in (("disk{shard}/{stripe}", "disk0/a.file", "disk5/a.file", "disk9/a"),
                                          ("{stripe}/d{place}/f", "a/dx0/a.file", "a/dy2/a.file", "a/dp1/f")):
        words = ["--names", pattern, "--code", "6-2-2"]
        run("encode", "--make-folders", *words, kept, source(place, "a", choose.randbytes(600)), status=0)
        (kept / first).unlink()
        (kept / empty).unlink()
        lines, command = sums_of(kept), [PROGRAM, "remove", *words, store, "a"]
        shutil.copytree(kept, store)
        for number, kind in enumerate(calls.run(command).kinds, 1):
            if kind == "unlink":
                shutil.rmtree(store)
                shutil.copytree(kept, store)
                ended = calls.run(command, number, 30, "path")
                if ended.paths == (str(store / middle),):
                    break
        hold(ended.paths == (str(store / middle),) and ended.status == 3, ended.text())
        hold(sums_of(store) == lines, f"{pattern}: digests of {sorted(lines.keys() - sums_of(store).keys())} are gone")
        hold((store / empty).parent.is_dir(), f"{pattern}: the folder of a lost fragment is gone, and the file isn't")
        run(*command[1:], status=0)
        hold(set(there(store)) == {"SHA256SUMS"} and not sums_of(store), f"{pattern}: {sorted(there(store))}")
        shutil.rmtree(store)
        shutil.rmtree(kept)


def test_remove_what_cannot_be_looked_at(place, choose):
    """A file isn't said to be taken out where it can't be seen whether all of it is gone; of several odd things the first is named."""
    calls, first, store = Calls(place, forks=True), place / "first", place / "store"
    run("encode", first, source(place, "a", choose.randbytes(600)), source(place, "b", b"b"), status=0)
    shutil.copytree(first, store)
    command, tried = [PROGRAM, "remove", store, "a"], set()
    for number, kind in enumerate(calls.run(command).kinds, 1):
        if kind == "look":
            shutil.rmtree(store)
            shutil.copytree(first, store)
            ended = calls.run(command, number, 5)
            left = [it for it in there(store) if it.startswith("a.")]
            is_said = ended.status == 3 and "Input/output error" in ended.err
            hold(is_said or ended.status == 0 and not left and are_right(store), f"call {number}, {ended.paths}: {ended.text()} {left}")
            tried.add(pathlib.Path(ended.paths[0]).name)
    hold(tried >= {"a.file", "a.file.copy", *(f"a.{one}" for one in PLACES)}, f"tried {tried}")
    shutil.rmtree(store)
    shutil.copytree(first, store)
    for one in ("y0", "p1"):
        (store / f"a.{one}").unlink()
        (store / f"a.{one}").mkdir()
    _, err = run(*command[1:], status=1)
    hold("a.y0: is no regular file, and isn't removed" in err, err)


def test_description_beside_a_fragment_of_one_code(place, choose):
    """What was to replace a file stays if a fragment of it is beside its description, also one that the (12,2,2) code alone has."""
    store, code = place / "store", ["--code", "12-2-2"]
    run("encode", *code, store, source(place, "a", choose.randbytes(900)), status=0)
    (store / f"a{STAGED}.file").write_bytes(description_of(b"gone", "12-2-2"))
    (store / f"a{STAGED}.y5").write_bytes(b"g")
    before = there(store)
    for words in ([], ["--replace"]):
        _, err = run("encode", *words, *code, store, place / "a", status=1)
        hold("too little of it is there to replace a file" in err and there(store) == before, f"{words}: {err}")


def test_description_on_a_disk_without_a_fragment(place, choose):
    """A disk that has a description isn't away, so that what was to replace a file is gone where those that may be are too few."""
    store = place / "store"
    run("encode", "--make-folders", *DISKS, store, source(place, "a", b""), status=0)
    whole = there(store)
    (store / f"disk0/a{STAGED}.file").write_bytes(description_of(b"gone"))
    for number in range(6):
        (store / f"disk{number}/a").unlink()
    run("encode", *DISKS, store, place / "a", status=0)
    hold(there(store) == whole, f"{sorted(set(there(store)) ^ set(whole))}")


def test_rights_of_descriptions_of_a_replacement(place, choose):
    """A description that is made again of what replaces a file has the owner of those that are there, and their rights to read and write
    that each of them has; and nobody but its user may read it where they aren't of one owner and one group."""
    if os.geteuid() != 0:
        raise Skipped("only root can give files away")
    kept, old, _ = begun_replacement(place, choose, *DISKS)
    for number in range(2, 10):
        (kept / f"disk{number}/a{STAGED}.file").unlink()
    me, other = (os.geteuid(), os.getegid()), (1_234, 4_321)
    for modes, owners, want in (((0o640, 0o664), (other, other), (0o640, other)), ((0o664, 0o604), (other, other), (0o604, other)),
                                ((0o755, 0o755), (me, me), (0o644, me)), ((0o644, 0o644), (other, (1_235, 4_321)), (0o600, me)),
                                ((0o644, 0o644), (other, (1_234, 4_322)), (0o600, me))):
        store = place / "again"
        shutil.copytree(kept, store)
        for number, (mode, owner) in enumerate(zip(modes, owners)):
            copy = store / f"disk{number}/a{STAGED}.file"
            os.chown(copy, *owner)
            copy.chmod(mode)
        run("encode", *DISKS, store, source(place, "a", old), status=1)
        made = [os.stat(store / f"disk{number}/a.file") for number in range(2, 10)]
        rights = {(stat.S_IMODE(it.st_mode), (it.st_uid, it.st_gid)) for it in made}
        hold(rights == {want}, f"{modes}, {owners}: {rights}")
        shutil.rmtree(store)


def test_description_that_says_the_same_stays(place, choose):
    """A new description that has its name already isn't made once more where the next run ends the work."""
    kept, _, new = begun_replacement(place, choose)
    calls, store = Calls(place, forks=True), place / "again"
    command, staged = [PROGRAM, "encode", "--replace", store, place / "a"], store / f"a{STAGED}.file"
    shutil.copytree(kept, store)
    kinds = calls.run(command).kinds
    given = [number for number, kind in enumerate(kinds, 1) if kind == "rename"][len(PLACES) + 1]
    for number in [number for number, kind in enumerate(kinds, 1) if kind == "unlink" and number > given]:
        shutil.rmtree(store)
        shutil.copytree(kept, store)
        killed = calls.run(command, number, "kill")
        if killed.paths == (str(staged),):
            break
    hold(killed.paths == (str(staged),) and not staged.with_name(f"{staged.name}.copy").exists(), f"{killed.paths}")
    copy = store / "a.file.copy"
    before = copy.stat().st_ino, copy.stat().st_ctime_ns
    run(*command[1:], status=0)
    hold((copy.stat().st_ino, copy.stat().st_ctime_ns) == before, "a description that was right was made again")
    hold(decoded(store, "a") == new and are_right(store), f"not the new file: {sorted(there(store))}")


def test_replacement_that_cannot_be_read_for_a_while(place, choose):
    """What was begun and can't be read, since a fragment fails of the few that it has, isn't called damaged: the fragment is named, and all
    stays. Of fragments that are lost nothing is said where the others give the file."""
    kept, _, new = begun_replacement(place, choose)
    for one in ("x1", "x2", "y1", "p1"):
        (kept / f"a{STAGED}.{one}").unlink()
    calls, store, tried, before = Calls(place, forks=True), place / "again", set(), lasting(kept)
    command, staged = [PROGRAM, "encode", "--replace", store, place / "a"], store / f"a{STAGED}.y0"
    shutil.copytree(kept, store)
    ended = calls.run(command)
    hold(ended.status == 0 and "left out" not in ended.err and run("read", store, "a", status=0)[0] == new, ended.text())
    for number, kind in enumerate(ended.kinds[: ended.kinds.index("rename")], 1):
        if kind in ("open", "read"):
            shutil.rmtree(store)
            shutil.copytree(kept, store)
            ended = calls.run(command, number, 5, "path")
            if ended.paths == (str(staged),):
                tried.add(kind)
                hold(ended.status == 3 and f"{staged}: Input/output error" in ended.err, f"call {number}, {kind}: {ended.text()}")
                hold(lasting(store) == before, f"call {number}, {kind}: {sorted(there(store))}")
    hold(tried == {"open", "read"}, f"tried {tried}")


def test_most_descriptions_are_tried_first(place, choose):
    """A description that says otherwise than most copies costs no reads of fragments."""
    store, calls = place / "store", Calls(place, forks=True)
    run("encode", "--make-folders", *DISKS, store, source(place, "a", choose.randbytes(6_000)), status=0)
    # They would say which is right, and be read for that.
    (store / "SHA256SUMS").unlink()

    def reads():
        ended = calls.run([PROGRAM, "verify", *DISKS, store, "a"])
        hold(ended.status == 0, ended.text())
        return ended.kinds.count("read")

    once = reads()
    (store / "disk0/a.file").write_bytes(description_of(choose.randbytes(6_000)))
    many = reads()
    hold(many <= once, f"{many} reads, where once is {once}")


def test_replacement_given_beside_a_lost_fragment(place, choose):
    """What has a name of the old file already stays while a fragment of it has none yet, also where the old one there is lost."""
    kept, _, _ = begun_replacement(place, choose)
    calls, command = Calls(place, forks=True), [PROGRAM, "encode", "--replace", kept, place / "a"]
    shutil.copytree(kept, place / "count")
    kinds = calls.run([*command[:3], place / "count", place / "a"]).kinds
    second = [number for number, kind in enumerate(kinds, 1) if kind == "rename"][1]
    hold(calls.run(command, second, "kill").status == -9, "the run wasn't killed")
    for path in kept.glob(f"a{STAGED}.*"):
        path.unlink() if path.name not in (f"a{STAGED}.x0", f"a{STAGED}.y1") else None
    hold((kept / "a.x0").samefile(kept / f"a{STAGED}.x0"), "x0 hasn't its name")
    (kept / "a.y1").unlink()
    before = lasting(kept)
    _, err = run(*command[1:], status=1)
    hold("too little of it is there to replace a file" in err and lasting(kept) == before, err)


def test_fragments_beside_no_description(place, choose):
    """Where disks come back with an old file, fragments beside no description are left out if the others give the file, and else are read;
    none of these is called damaged."""
    old, new = choose.randbytes(3_000), choose.randbytes(3_000)
    said = "a: read without the fragments beside which another file is described"
    for undescribed in ((3, 5), (0, 1)):
        store = place / f"store-{undescribed[0]}"
        run("encode", "--make-folders", *DISKS, store, source(place, "a", old), status=0)
        for one in (0, 1, 2):
            (store / f"disk{one}").rename(place / f"disk{one}")
            (store / f"disk{one}").mkdir()
        run("encode", "--replace", *DISKS, store, source(place, "a", new), status=0)
        for one in (0, 1, 2):
            shutil.rmtree(store / f"disk{one}")
            (place / f"disk{one}").rename(store / f"disk{one}")
        (store / "SHA256SUMS").unlink()
        for one in undescribed:
            (store / f"disk{one}/a.file").unlink()
        got, err = run("read", *DISKS, store, "a", status=0)
        hold(got == new and said in err and "damaged" not in err, f"{undescribed}: {err}")
    # Where no other file is described, that isn't said of a fragment which is damaged and has no description.
    store = place / "damaged"
    run("encode", "--make-folders", *DISKS, store, place / "a", status=0)
    (store / "SHA256SUMS").unlink()
    (store / "disk0/a.file").unlink()
    (store / "disk0/a").write_bytes(bytes(500))
    got, err = run("read", *DISKS, store, "a", status=0)
    hold(got == new and said not in err and "a fragment is damaged: read without x0" in err, err)


def test_replace_what_is_as_long_as_a_description(place, choose):
    """What has the name of a description, and as many bytes as one can have, is replaced; with one more it stays."""
    store, data = place / "store", choose.randbytes(900)
    run("encode", store, source(place, "a", data), status=0)
    # 20 digits, 64 digits, the name of a code, two spaces and a line feed.
    for many, status in ((93, 0), (94, 1)):
        (store / "a.file.copy").write_bytes(bytes(many))
        _, err = run("encode", "--replace", store, place / "a", status=status)
        has = (store / "a.file.copy").read_bytes()
        hold(has == (bytes(many) if status else description_of(data)), f"{many}: {err}")


def test_digests_of_what_stays(place, choose):
    """What a failed run that replaces a file can't take away again keeps its digests. Of both failures the first is said first, and of
    several things that can't be taken away the first is named."""
    calls, first, store = Calls(place, forks=True), place / "first", place / "store"
    run("encode", "--make-folders", *DISKS, first, source(place, "a", choose.randbytes(900)), status=0)
    source(place, "a", choose.randbytes(1_801))
    command = [PROGRAM, "encode", "--replace", *DISKS, store, place / "a"]
    shutil.copytree(first, store)
    kinds = calls.run(command).kinds
    links = [number for number, kind in enumerate(kinds, 1) if kind == "link"]
    # The last description has its name then, and what it was made under can't be taken away.
    number = kinds.index("unlink", links[19]) + 1
    shutil.rmtree(store)
    shutil.copytree(first, store)
    ended = calls.run(command, number, 5, "kind")
    lines = [line for line in ended.err.splitlines() if "Input/output error" in line]
    hold(ended.status == 3 and len(lines) == 2, ended.text())
    hold([f"disk{it}/a{STAGED}.file" in line for it, line in zip((9, 0), lines)] == [True, True], ended.text())
    files = {name: data for name, data in lasting(store).items() if name not in ("SHA256SUMS", f"disk9/a{STAGED}.file")}
    hold(len([name for name in files if STAGED in name]) == 19, f"{sorted(files)}")
    wanting = [name for name, data in files.items() if sums_of(store).get(name) != hashlib.sha256(data).hexdigest()]
    hold(not wanting, f"without their digests: {wanting}")


def test_encode_again_beside_a_description_of_before(place, choose):
    """A file whose only description is in the store's own folder is encoded again: the copies are made, and that one stays."""
    store, data = place / "store", choose.randbytes(900)
    run("encode", "--make-folders", *DISKS, store, source(place, "a", data), status=0)
    whole = there(store)
    for path in store.glob("disk*/a.file"):
        path.unlink()
    (store / "a.file").write_bytes(description_of(data))
    run("encode", *DISKS, store, place / "a", status=0)
    hold(there(store) == {**whole, "a.file": description_of(data)}, f"{sorted(set(there(store)) ^ set(whole))}")


def test_standard_input_that_stays(place, choose):
    """What standard input was kept in and can't be taken away is said, with the status of a device."""
    store, calls = place / "store", Calls(place, forks=True)
    command, tried = [PROGRAM, "encode", store, "-", "--as", "empty"], 0
    run(*command[1:], status=0)
    for number, kind in enumerate(calls.run(command).kinds, 1):
        if kind == "unlink":
            for path in store.glob(".rebuild-store-*"):
                path.unlink()
            ended = calls.run(command, number, 5)
            hold(ended.status == 3 and "Input/output error" in ended.err, f"call {number}: {ended.text()}")
            tried += 1
    # Each fragment and each description that is there already was made once more, and the last call is that of standard input's file.
    hold(tried == len(PLACES) + 3, f"{tried} calls")


def is_for_memory(ran, status, said):
    """Whether a run that was refused memory says that, or has ended with this status, and all that it says has these words."""
    lines = [line for line in ran.err.splitlines() if b"was left by a run that was killed" not in line]
    return b"out of memory" in ran.err if ran.status == 4 else ran.status == status and all(said in line for line in lines)


def test_memory_that_is_refused_meanwhile(place, choose):
    """A run that decides what is to be done with what was begun, or reads it, or takes it out, and is refused memory says that."""
    library, (whole, _, _) = refusals.Library(place, forks=True), begun_replacement(place, choose)
    lost, alone, few, again = (place / it for it in ("lost", "alone", "few", "again"))
    for store in (lost, alone, few):
        shutil.copytree(whole, store)
    (lost / f"a{STAGED}.y1").unlink()
    for path in alone.glob(f"a{STAGED}.*"):
        path.unlink() if path.name != f"a{STAGED}.file" else None
    for path in few.glob(f"a{STAGED}.??"):
        path.unlink() if path.name != f"a{STAGED}.x0" else None
    file, none = source(place, "a", choose.randbytes(900)), place / "none"

    def one(store, command, given, number=0):
        shutil.copytree(store, again)
        ran = library.run([PROGRAM, command, again, given], refusal=refusals.Refusal(allocation=number))
        shutil.rmtree(again)
        return ran

    for store, command, given, status, said in ((alone, "encode", file, 1, b"is there already"), (few, "encode", file, 1, b"too little"),
                                                (few, "read", "a", 0, b"none"), (lost, "read", "a", 0, b"No such file"),
                                                (lost, "remove", "a", 0, b"none")):
        # Until then it does what it does for any file.
        begin, end = one(store, command, none.name if given == "a" else none).allocations, one(store, command, given).allocations
        # Of a file that isn't there more names may be looked at before that is said.
        begin = min(begin, end - 50)
        ended = [one(store, command, given, number) for number in range(begin - 10, end + 1)]
        odd = [ran.text() for ran in ended if not is_for_memory(ran, status, said)]
        hold(not odd and 4 in {ran.status for ran in ended}, f"{store.name}, {command}: {len(odd)} of {len(ended)} runs: {odd[:2]}")


def test_remove_what_is_named_like_descriptions(place, choose):
    """A stripe whose fragments have names of descriptions, and are none, is taken out by its name, also if something of it is lost."""
    store = place / "store"
    run("encode", "--make-folders", *DISKS, store, source(place, "a", choose.randbytes(1_200)), status=0)
    whole = there(store)
    for number in range(10):
        shutil.copyfile(store / f"disk{number}/a", store / f"disk{number}/more.file")
    (store / "disk5/more.file").unlink()
    (store / "disk3/more.file").unlink()
    (store / "disk3/more.file").mkdir()
    _, err = run("remove", *CODED, store, "more.file", status=1)
    hold("disk3/more.file: is no regular file, and isn't removed" in err and there(store) == whole, f"{err}: {sorted(there(store))}")
    (store / "disk3/more.file").rmdir()
    for number in (0, 1, 2, 3, 4, 6):
        shutil.copyfile(store / f"disk{number}/a", store / f"disk{number}/more.file")
    run("remove", *CODED, store, "more.file", status=0)
    hold(there(store) == whole, f"{sorted(there(store))}")


def test_what_is_left_of_a_name_that_was_taken(place, choose):
    """Where something comes under one of a file's names while it is encoded, nothing is left of the files that get none."""
    calls, store = Calls(place, forks=True), place / "store"
    command = [PROGRAM, "encode", store, source(place, "a", choose.randbytes(900))]
    links = [number for number, kind in enumerate(calls.run(command).kinds, 1) if kind == "link"]
    for number in (links[0], links[5], links[9], links[11]):
        shutil.rmtree(store)
        ended = calls.run(command, number, "meanwhile")
        hold(ended.status == 1 and "is there already" in ended.err, ended.text())
        hold(not [*store.glob(".rebuild-store-*")], f"call {number}: left {sorted(there(store))}")


def test_only_fragment_of_what_was_begun_fails(place, choose):
    """What was begun isn't taken for not begun where its only fragment can't be looked at, whichever that is."""
    calls, first, store = Calls(place, forks=True), place / "first", place / "store"
    run("encode", first, source(place, "a", choose.randbytes(900)), status=0)
    for one in ("x0", "p1"):
        staged, tried = store / f"a{STAGED}.{one}", 0
        shutil.copytree(first, store)
        staged.write_bytes(b"begun")
        command, before = [PROGRAM, "encode", store, place / "a"], there(store)
        for number, kind in enumerate(calls.run(command).kinds, 1):
            if kind == "look":
                staged.write_bytes(b"begun")
                ended = calls.run(command, number, 5, "path")
                if ended.paths == (str(staged),):
                    tried += 1
                    is_said = ended.status == 3 and f"{staged}: Input/output error" in ended.err
                    hold(is_said and there(store) == before, f"call {number}: {ended.text()}")
        hold(tried > 0, f"{one} isn't looked for")
        shutil.rmtree(store)


def test_replace_through_a_linked_folder(place, choose):
    """No file is replaced through a link in place of its folder, nor is what was begun ended through one, unless links are followed."""
    names, outside = ["--names", "{stripe}/{place}"], place / "outside"
    for is_begun in (False, True):
        if is_begun:
            store, _, new = begun_replacement(place, choose, *names)
        else:
            store, new = place / "store", choose.randbytes(900)
            run("encode", "--make-folders", *names, store, source(place, "a", choose.randbytes(2_000)), status=0)
        (store / "a").rename(outside)
        (store / "a").symlink_to(outside)
        before = there(outside), lasting(store)
        _, err = run("encode", "--replace", *names, store, source(place, "a", new), status=3)
        hold("its folder is a link, and links aren't followed" in err, f"{is_begun}: {err}")
        hold((there(outside), lasting(store)) == before, f"{is_begun}: {sorted(there(outside))}")
        run("encode", "--replace", "--follow-links", *names, store, place / "a", status=0)
        hold(run("read", "--follow-links", *names, store, "a", status=0)[0] == new, f"{is_begun}: not the new file")
        shutil.rmtree(store)
        shutil.rmtree(outside)


def test_standard_input_on_a_disk_that_fails(place, choose):
    """Standard input that can't be kept whole isn't encoded: each write of it that fails is said, and nothing of it is left."""
    first, store, data, tried = place / "first", place / "store", choose.randbytes(60_000), 0
    run("encode", first, source(place, "a", b"other"), status=0)
    shutil.copytree(first, store)
    before, calls, command = there(store), Calls(place, forks=True), [PROGRAM, "encode", store, "-", "--as", "in"]
    kinds = calls.run(command, given=data).kinds
    hold(decoded(store, "in") == data, "standard input isn't what it was")
    for number, kind in enumerate(kinds[: kinds.index("link")], 1):
        if kind in ("create", "write"):
            shutil.rmtree(store)
            shutil.copytree(first, store)
            ended = calls.run(command, number, errno.ENOSPC, given=data)
            if ended.paths[0].startswith(str(store)):
                tried += 1
                hold(ended.status == 3 and "No space left on device" in ended.err, f"call {number}: {ended.text()}")
                hold(there(store) == before, f"call {number}: left {sorted(there(store))}")
    hold(tried > 3, f"{tried} calls")


def test_folders_of_a_replacement_that_fails(place, choose):
    """What replaces a file whose names are in a folder of its own leaves no folder where it fails, and those that were there stay."""
    names, store = ["--names", "{stripe}/{place}"], place / "store"
    run("encode", "--make-folders", *names, store, source(place, "a", choose.randbytes(900)), status=0)
    (store / "empty").mkdir()
    before, folders, calls = there(store), sorted(path for path in store.rglob("*") if path.is_dir()), Calls(place, forks=True)
    command, again = [PROGRAM, "encode", "--replace", *names, store, source(place, "a", choose.randbytes(5_000))], place / "again"
    shutil.copytree(store, again)
    kinds = calls.run([again if it == store else it for it in command]).kinds
    # At the last of these links nine fragments have their names.
    links = [number for number, kind in enumerate(kinds, 1) if kind == "link"][:10]
    writes = [number for number, kind in enumerate(kinds[: links[0]], 1) if kind in ("create", "write", "sync")]
    for number in [*writes[1::5], *links]:
        ended = calls.run(command, number, errno.ENOSPC)
        hold(ended.status == 3, f"call {number}: {ended.text()}")
        hold(there(store) == before, f"call {number}: {sorted(there(store))}")
        hold(sorted(path for path in store.rglob("*") if path.is_dir()) == folders, f"call {number}: {sorted(store.rglob('*'))}")


def test_source_that_is_a_link(place, choose):
    """A file that is given by a link is encoded as what that leads to, under the link's name."""
    store, data, link = place / "store", choose.randbytes(700), place / "link"
    link.symlink_to(source(place, "a", data))
    run("encode", store, link, status=0)
    hold(decoded(store, "link") == data and not (store / "a.file").exists(), f"{sorted(there(store))}")
    link.unlink()
    link.symlink_to(source(place, "a", data + b"more"))
    run("encode", "--replace", store, link, status=0)
    hold(decoded(store, "link") == data + b"more", "not the new file")


def test_file_whose_last_part_is_lost(place, choose):
    """A file is read only if its last part is determined, however few bytes that has; a part that has no bytes of it isn't needed."""
    for length, lost, is_read in ((1_001, ("y2", "py", "p0", "p1"), False), (1_001, ("x0", "px", "p0", "p1"), False),
                                  (1_001, ("px", "py", "p0", "p1"), True), (5, ("y2", "py", "p0", "p1"), True)):
        store, data = place / f"{length}-{lost[0]}", choose.randbytes(length)
        run("encode", store, source(place, "a", data), status=0)
        for name in lost:
            (store / f"a.{name}").unlink()
        out, err = run("read", store, "a", status=0 if is_read else 1)
        hold(out == (data if is_read else b""), f"{length} {lost}: {len(out)} bytes: {err}")


def test_verify_beside_stripes_of_other_software(place, choose):
    """What no description describes is no file: it isn't verified, and neither counted nor named."""
    store, data = place / "store", choose.randbytes(900)
    run("encode", store, source(place, "a", data), status=0)
    for path in [*store.glob("a.??")]:
        shutil.copyfile(path, store / path.name.replace("a.", "other."))
    out, err = run("verify", store, status=0)
    hold(out == b"verified 1 file; not as described: 0\n" and err == "", f"{out!r} {err}")
    for path in store.glob("other.x?"):
        path.unlink()
    out, err = run("verify", store, status=0)
    hold(out == b"verified 1 file; not as described: 0\n" and err == "", f"{out!r} {err}")


def test_replacement_of_which_most_descriptions_say_another_code(place, choose):
    """What was begun is ended by the description whose fragments are all there, whatever other copies say and how many they are."""
    names = ["--names", "disk{shard}/{stripe}"]
    for many in (1, 5, 9):
        store, _, new = begun_replacement(place, choose, *names)
        wide = description_of(choose.randbytes(40), "12-2-2")
        # The first copy alone says which code the store's names are of.
        for number in range(10 - many, 10):
            (store / f"disk{number}/a{STAGED}.file").write_bytes(wide)
        run("encode", "--replace", *names, store, source(place, "a", new), status=0)
        hold(decoded(store, "a", *names[1:]) == new, f"{many}: not the new file")
        hold(not [path for path in there(store) if STAGED in path], f"{many}: {sorted(there(store))}")
        shutil.rmtree(store)


def test_encode_beside_what_cannot_be_removed(place, choose):
    """What a killed run has left and can't be removed is said by a run that encodes, with the status of a device, and the file is there."""
    first, store, calls = place / "first", place / "store", Calls(place, forks=True)
    run("encode", first, source(place, "a", b"other"), status=0)
    (first / LEFTOVER).write_bytes(b"half")
    data, left, tried = choose.randbytes(500), store / LEFTOVER, 0
    command = [PROGRAM, "encode", store, source(place, "b", data)]
    shutil.copytree(first, store)
    for number, kind in enumerate(calls.run(command).kinds, 1):
        if kind == "unlink":
            shutil.rmtree(store)
            shutil.copytree(first, store)
            ended = calls.run(command, number, errno.EIO)
            if ended.paths == (str(left),):
                tried += 1
                said = f"{left}: is left over, and can't be removed: Input/output error\n"
                hold(ended.status == 3 and said in ended.err and left.exists() and decoded(store, "b") == data, ended.text())
    hold(tried == 1, f"{tried} calls")


def tried(place, name):
    """Runs a test, and gives how many checks passed, why it failed, and why it was left out."""
    global passed
    passed, fault, left_out, folder = 0, "", "", place / name
    folder.mkdir()
    try:
        globals()[name](folder, random.Random(name))
    except Fault as why:
        fault = f"{name}: {why}"
    except Skipped as why:
        left_out = f"{name}: {why}"
    shutil.rmtree(folder)
    return passed, fault, left_out


def main(program=None, only=""):
    global PROGRAM
    PROGRAM = pathlib.Path(program or PROGRAM).resolve()
    tests = [only] if only in globals() else [name for name in globals() if name.startswith("test_") and only in name]
    with tempfile.TemporaryDirectory() as scratch, multiprocessing.get_context("fork").Pool(maxtasksperchild=1) as pool:
        place = pathlib.Path(scratch)
        place.chmod(0o755)
        ended = pool.map(functools.partial(tried, place), tests, chunksize=1)
    faults, skipped = [fault for _, fault, _ in ended if fault], [why for _, _, why in ended if why]
    for why in skipped:
        print(f"store-files skipped: {why}")
    for fault in faults:
        print(f"store-files: {fault}", file=sys.stderr)
    print(f"store-files: {sum(count for count, _, _ in ended)} passed, {len(faults)} failed, {len(skipped)} skipped")
    sys.exit(1 if faults else 0)


if __name__ == "__main__":
    main(*sys.argv[1:3])
