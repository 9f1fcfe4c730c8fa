#!/usr/bin/env python3
"""Tries `rebuild-store encode` and `read`: what is encoded is compared with an independent encoder, and what is read with the file, also
after fragments are lost or damaged, after runs that were killed, and beside files that are there already.

    encode-store.py [PROGRAM]

Each expected fragment, line, status and file is worked out here; nothing is taken from the program's own output."""

import fcntl
import hashlib
import itertools
import os
import pathlib
import random
import runpy
import shutil
import subprocess
import sys
import tempfile
import time

# No compiled copy of the modules is left beside them.
sys.dont_write_bytecode = True
ROOT = pathlib.Path(__file__).resolve().parent.parent
sys.path.append(str(ROOT / "tools"))
from reference import CODES, product
from store import combined

PROGRAM = pathlib.Path(sys.argv[1] if sys.argv[1:] else ROOT / "crates/rebuild_store/out/rebuild_store").resolve()
# What reads a file by the manual page of the stores' form alone.
decoded = runpy.run_path(str(ROOT / "gate/store-decoder.py"))["decoded"]
WINDOW = 65_536
# How often a run is killed for each code, and after how many seconds at most.
KILLS = 15
LONGEST_BEFORE_KILL = 0.08
passed = 0


def check(holds, what):
    """Counts what holds, and ends with what doesn't."""
    global passed
    if not holds:
        sys.exit(f"encode-store: {what}")
    passed += 1


def run(*arguments, status, text=True, umask=-1):
    """Runs the program, holds its status to this one, and gives what it says on standard output and on standard error."""
    done = subprocess.run([PROGRAM, *map(str, arguments)], capture_output=True, timeout=300, umask=umask)
    asked = " ".join(map(str, arguments))
    check(done.returncode == status, f"{asked}: status {done.returncode}, not {status}:\n{done.stderr.decode()}")
    return (done.stdout.decode() if text else done.stdout), done.stderr.decode()


def fragments_of(code, data):
    """The fragments of a file's stripe, by the names of their places."""
    places, first = CODES[code]
    length = -(-len(data) // len(places))
    parts = [data[k * length:(k + 1) * length].ljust(length, b"\0") for k in range(len(places))]
    rows = [[int(p[0] == "x") for p in places], [int(p[0] == "y") for p in places], first, [product(c, c) for c in first]]
    return dict(zip(places + ["px", "py", "p0", "p1"], parts + [combined(row, parts, length) for row in rows]))


def digest(data):
    return hashlib.sha256(data).hexdigest()


def files_of(code, name, data):
    """The files that a store has of an encoded file, by their names."""
    there = {f"{name}.{place}": fragment for place, fragment in fragments_of(code, data).items()}
    for ending in ("file", "file.copy"):
        there[f"{name}.{ending}"] = f"{len(data)} {digest(data)} {code}\n".encode()
    return there


def is_store(folder, code, files):
    """Whether the folder has the files of these, with their sums, and nothing else."""
    wanted = {}
    for name, data in files.items():
        wanted |= files_of(code, name, data)
    wanted["SHA256SUMS"] = "".join(f"{digest(wanted[name])}  {name}\n" for name in sorted(wanted)).encode()
    return {path.name: path.read_bytes() for path in folder.iterdir()} == wanted


def encoded(folder, code, choose, lengths):
    """Encodes files of these lengths into a store, and gives their bytes by their names."""
    sources = folder.with_name(folder.name + "-files")
    sources.mkdir()
    files = {f"f{k}": choose.randbytes(length) for k, length in enumerate(lengths)}
    for name, data in files.items():
        (sources / name).write_bytes(data)
    run("encode", folder, *(sources / name for name in files), "--code", code, status=0, umask=0o027)
    return files


def reads(folder, files):
    """Reads each file, and compares it."""
    for name, data in files.items():
        output, _ = run("read", folder, name, status=0, text=False)
        check(output == data, f"{name} of {len(data)} bytes isn't what was encoded")


def test_lengths(folder, code, choose):
    """Files of lengths around those of parts and windows are encoded as an independent encoder does it, and read."""
    many = len(CODES[code][0])
    lengths = [0, 1, 5, 6, 7, many, many + 1, 1000, many * WINDOW - 1, many * WINDOW, many * WINDOW + 1, 3 * many * WINDOW // 2, 1_300_000]
    files = encoded(folder, code, choose, lengths)
    check(is_store(folder, code, files), "the store isn't what an independent encoder makes")
    check({path.stat().st_mode & 0o777 for path in folder.iterdir()} == {0o640}, "a file has other rights than the user's mask leaves")
    done = subprocess.run(["sha256sum", "--check", "--strict", "--quiet", "SHA256SUMS"], cwd=folder, capture_output=True, text=True)
    check(done.returncode == 0 and not done.stdout, done.stdout + done.stderr)
    reads(folder, files)
    run("scrub", folder, "--code", code, status=0)
    (folder / "f3.x1").unlink()
    run("repair", folder, "--code", code, status=0)
    check(is_store(folder, code, files), "a repair didn't bring back an encoded store")


def test_losses(folder, code, choose):
    """A file is read while any one or two of its fragments are lost, and while four are that its code allows."""
    many = len(CODES[code][0])
    files = encoded(folder, code, choose, [many * 37 + 5, 2 * many + 1])
    whole = {path.name: path.read_bytes() for path in folder.iterdir()}
    for name, data in files.items():
        places = list(fragments_of(code, data))
        lost = [*itertools.combinations(places, 1), *itertools.combinations(places, 2)]
        lost += [("x0", "x1", "y0", "y1"), ("x0", "px", "p0", "y2"), ("px", "py", "p0", "p1")]
        for group in lost if name == "f0" else choose.sample(lost, 20):
            for place in group:
                (folder / f"{name}.{place}").unlink()
            output, errors = run("read", folder, name, status=0, text=False)
            check(output == data, f"{name} without {group} isn't what was encoded")
            check(all(f"{name}.{place}: left out" in errors for place in group), errors)
            for place in group:
                (folder / f"{name}.{place}").write_bytes(whole[f"{name}.{place}"])
    for place in ("x0", "x1", "x2", "px", "p0"):
        (folder / f"f0.{place}").unlink()
    output, errors = run("read", folder, "f0", status=1, text=False)
    check(output == b"" and "don't give the file" in errors, errors)
    # Both copies say the same, which is tried once.
    check(all(errors.count(f"f0.{place}: left out") == 1 for place in ("x0", "x1", "x2", "px", "p0")), errors)
    run("encode", folder, folder.with_name(folder.name + "-files") / "f0", "--code", code, status=0)
    check(is_store(folder, code, files), "encoding again didn't bring back what was lost")


def test_decoder(folder, code, choose):
    """A decoder made by the manual page alone reads what was encoded: whole, without each one to three fragments of a file, and beside
    damage."""
    sources = folder.with_name(folder.name + "-files")
    sources.mkdir()
    files = {f"f{k}": choose.randbytes(length) for k, length in enumerate([0, 1, 5, 6, 7, 100_000])} | {"a\\b\n": b"odd"}
    for name, data in files.items():
        (sources / name).write_bytes(data)
    for pattern, layout in (("{stripe}.{place}", "plain"), ("disk{shard}/{stripe}", "plain"), ("disk{shard}/{stripe}", "groups")):
        store = folder.with_name(f"{folder.name}-{len(pattern)}-{layout}")
        for number in range(16 if "disk" in pattern else 0):
            (store / f"disk{number}").mkdir(parents=True)
        run("encode", store, *(sources / name for name in files), "--code", code, "--names", pattern, "--layout", layout, status=0)
        for name, data in files.items():
            check(decoded(store, name, pattern, layout) == data, f"{name} of {store} isn't decoded")
            whole = {path: path.read_bytes() for path in store.glob(f"**/{name}*") if ".file" not in path.name}
            check(len(whole) == len(fragments_of(code, data)), f"{name} has {len(whole)} fragments")
            lost = [it for count in (1, 2, 3) for it in itertools.combinations(whole, count)]
            for paths in lost if name == "f4" else choose.sample(lost, 12):
                for path in paths:
                    path.unlink() if name != "f3" else path.write_bytes(b"x" + whole[path])
                check(decoded(store, name, pattern, layout) == data, f"{name} isn't decoded without {paths}")
                for path in paths:
                    path.write_bytes(whole[path])


def damage(path, choose):
    wrong = bytearray(path.read_bytes())
    wrong[choose.randrange(len(wrong))] ^= 1 << choose.randrange(8)
    path.write_bytes(wrong)


def test_damage(folder, code, choose):
    """Damaged fragments are left out, by the store's sums or, without them, one or two at a time; nothing wrong is written."""
    many = len(CODES[code][0])
    files = encoded(folder, code, choose, [many * 3000])
    data = files["f0"]
    for place in ("x0", "x2", "y1"):
        damage(folder / f"f0.{place}", choose)
    (folder / "f0.y0").unlink()
    sums = folder / "SHA256SUMS"
    named = [line for line in sums.read_text().splitlines(True) if line[66:].strip() in ("f0.x0", "f0.x2", "f0.y1")]
    for text in (sums.read_text(), "".join(named)):
        sums.write_text(text)
        output, errors = run("read", folder, "f0", status=0, text=False)
        check(output == data and "SHA256SUMS" in errors, errors)
    sums.unlink()
    output, errors = run("read", folder, "f0", status=1, text=False)
    check(output == b"", "wrong bytes were written")
    again = folder.with_name(f"{folder.name}-again")
    shutil.copytree(folder, again)
    places = CODES[code][0]
    for damaged in [("x1",), ("y1",), *itertools.combinations(places, 2), ("x0", "px"), ("y2", "p1")]:
        for name, fragment in files_of(code, "f0", data).items():
            (again / name).write_bytes(fragment)
        for place in damaged:
            damage(again / f"f0.{place}", choose)
        output, errors = run("read", again, "f0", status=0, text=False)
        named = damaged if set(damaged) <= set(places) else ()
        check(output == data and "read without" in errors and all(place in errors for place in named), f"{damaged}: {errors}")
    # One is lost, and one of those that are read in its place is damaged, beside sums that can't be read.
    (again / "SHA256SUMS").write_text("no digests\n")
    for lost, damaged in itertools.product(("x0", "y2"), ("px", "py", "p0", "p1")):
        for name, fragment in files_of(code, "f0", data).items():
            (again / name).write_bytes(fragment)
        (again / f"f0.{lost}").unlink()
        damage(again / f"f0.{damaged}", choose)
        output, errors = run("read", again, "f0", status=0, text=False)
        is_read = damaged == f"p{lost[0]}"
        check(output == data and (f"read without {damaged}" in errors) == is_read, f"{lost}, {damaged}: {errors}")
    for ending in ("file", "file.copy"):
        path = folder / f"f0.{ending}"
        path.write_bytes(path.read_bytes().replace(b" ", b"  ", 1))
    _, errors = run("read", folder, "f0", status=1)
    check(errors.count("f0.file: isn't a line with") == errors.count("f0.file.copy: isn't a line with") == 1, errors)
    (folder / "f0.file").unlink()
    (folder / "f0.file.copy").unlink()
    _, errors = run("read", folder, "f0", status=1)
    check("no description is there" in errors, errors)


def test_names_that_are_there(folder, code, choose):
    """What is there stays: other bytes under one of the names refuse the file before anything gets a name, the same bytes are kept."""
    files = encoded(folder, code, choose, [5000, 300])
    source = folder.with_name(folder.name + "-files") / "f0"
    other = folder.with_name(folder.name + "-other")
    other.mkdir()
    (other / "f0").write_bytes(choose.randbytes(5000))
    (other / "new").write_bytes(b"new")
    before = {path.name: (path.read_bytes(), path.stat().st_ino) for path in folder.iterdir()}
    _, errors = run("encode", folder, other / "f0", "--code", code, status=1)
    check("f0.file: is there already, with other bytes" in errors, errors)
    output, _ = run("encode", folder, source, "--code", code, status=0)
    check(output == "encoded 1 file; not encoded: 0\n", output)
    check({path.name: (path.read_bytes(), path.stat().st_ino) for path in folder.iterdir()} == before, "what was there changed")
    for make in (lambda p: p.write_bytes(b"other"), os.mkfifo, os.mkdir, lambda p: p.symlink_to("nowhere")):
        path = folder / "new.p0"
        make(path)
        _, errors = run("encode", folder, other / "new", "--code", code, status=1)
        check("new.p0: is there already" in errors, errors)
        check({it.name for it in folder.iterdir()} == {*before, "new.p0"}, "a name was given beside another file")
        path.rmdir() if path.is_dir() and not path.is_symlink() else path.unlink()
    # The first names are the file's own, with its bytes, and a later one isn't.
    own = fragments_of(code, b"new")
    for place, data in (("x0", own["x0"]), ("y0", own["y0"]), ("p1", b"other")):
        (folder / f"new.{place}").write_bytes(data)
    _, errors = run("encode", folder, other / "new", "--code", code, status=1)
    check("new.p1: is there already, with other bytes" in errors, errors)
    check({it.name for it in folder.iterdir()} == {*before, "new.x0", "new.y0", "new.p1"}, "a name was given beside another file")
    for path in folder.glob("new.*"):
        path.unlink()
    # A copy of the description that is gone is made again, whichever it is.
    for ending in ("file", "file.copy"):
        (folder / f"f0.{ending}").unlink()
        run("encode", folder, source, "--code", code, status=0)
        there = {path.name: path.read_bytes() for path in folder.iterdir()}
        check(there == {name: data for name, (data, _) in before.items()}, f"f0.{ending} wasn't made again")
    if code == "6-2-2":
        (folder / "new.x3").write_bytes(b"")
        _, errors = run("encode", folder, other / "new", "--code", code, status=1)
        check("new.x3: is there already" in errors, errors)
        (folder / "new.x4").write_bytes(b"")
        _, errors = run("encode", folder, other / "new", "--code", code, status=1)
        check("12-2-2" in errors, errors)
        (folder / "new.x3").unlink()
        (folder / "new.x4").unlink()
    else:
        for place in CODES["6-2-2"][0] + ["px", "py", "p0", "p1"]:
            (folder / f"z.{place}").write_bytes(b"")
        _, errors = run("encode", folder, other / "new", "--code", code, status=1)
        check("6-2-2" in errors, errors)
        for path in folder.glob("z.*"):
            path.unlink()
    check(is_store(folder, code, files), "the store isn't what it was")


def test_names(folder, code, choose):
    """Fragments go into a folder for each disk, by the shards' numbers, and are read from there."""
    data = choose.randbytes(5001)
    source = folder.with_name(folder.name + "-file")
    source.write_bytes(data)
    fragments = fragments_of(code, data)
    xs, ys = ([place for place in CODES[code][0] if place[0] == group] for group in "xy")
    for layout, order in (("plain", [*xs, *ys, "px", "py", "p0", "p1"]), ("groups", [*xs, "px", *ys, "py", "p0", "p1"])):
        store = folder.with_name(f"{folder.name}-{layout}")
        store.mkdir()
        names = ["--names", "disk{shard}/{stripe}", "--layout", layout]
        _, errors = run("encode", store, source, "--code", code, *names, status=3)
        check("disk0: isn't there: make this folder, or give --make-folders" in errors and not list(store.glob("**/*")), errors)
        for number in range(len(order)):
            (store / f"disk{number}").mkdir()
        (store / "disk1/.rebuild-store-0123456789abcdef").write_bytes(b"left")
        (store / ".rebuild-store-fedcba9876543210").write_bytes(b"left")
        run("encode", store, source, "--code", code, *names, status=0)
        wanted = {f"disk{number}/{source.name}": fragments[place] for number, place in enumerate(order)}
        wanted |= {f"disk{number}/{source.name}.file": f"{len(data)} {digest(data)} {code}\n".encode() for number in range(len(order))}
        wanted["SHA256SUMS"] = "".join(f"{digest(wanted[name])}  {name}\n" for name in sorted(wanted)).encode()
        there = {str(path.relative_to(store)): path.read_bytes() for path in store.glob("**/*") if path.is_file()}
        check(there == wanted, f"{sorted(there)} are there")
        (store / f"disk0/{source.name}").unlink()
        output, errors = run("read", store, source.name, *names, status=0, text=False)
        check(output == data and f"disk0/{source.name}: left out" in errors, errors)
        run("repair", store, "--code", code, *names, status=0)
        check((store / f"disk0/{source.name}").read_bytes() == wanted[f"disk0/{source.name}"], "a shard isn't what it was")
        # The last disk's copy of the description is enough.
        for number in range(len(order) - 1):
            (store / f"disk{number}/{source.name}.file").unlink()
        output, errors = run("read", store, source.name, *names, status=0, text=False)
        check(output == data and not errors, errors)
    # A folder that is there may have a file of another name, also one that is no text.
    other = folder.with_name(folder.name + "-odd")
    other.mkdir()
    odd = os.fsencode(other) + b"/\xff"
    with open(odd, "wb"):
        pass
    run("encode", other, source, "--code", code, status=0)
    output, _ = run("read", other, source.name, status=0, text=False)
    check(output == data and os.path.exists(odd), "a file isn't encoded beside one whose name is no text")
    # A link to a file is encoded as that file, with its own name, and stays a link.
    link = source.with_name(f"{folder.name}-link")
    link.symlink_to(source.name)
    run("encode", folder, link, "--code", code, status=0)
    output, _ = run("read", folder, link.name, status=0, text=False)
    check(output == data and link.is_symlink() and source.read_bytes() == data, "a link to a file isn't encoded as the file")
    run("encode", folder, source, "--names", "{stripe}", status=2)
    run("read", folder, source.name, "--names", "{place}", status=2)


def test_refusals(folder, code, choose):
    """Each path that is no file to encode, and each line of sums that says nothing, has a clear line; other files are encoded."""
    files = encoded(folder, code, choose, [77])
    other = folder.with_name(folder.name + "-other")
    other.mkdir()
    (other / "good").write_bytes(b"good")
    leftover = other / ".rebuild-store-0123456789abcdef"
    leftover.write_bytes(b"")
    os.mkfifo(other / "fifo")
    paths = [other, other / "fifo", other / "none", leftover, f"{other}/", other / "good"]
    output, errors = run("encode", folder, *paths, "--code", code, status=3)
    check(output == "encoded 1 file; not encoded: 5\n", output)
    for line in ("is no regular file", "fifo: is no regular file", "No such file", "can't have this name"):
        check(line in errors, errors)
    files["good"] = b"good"
    check(is_store(folder, code, files), "a good file wasn't encoded beside others")
    for name in (".", "..", "lost+found", leftover.name):
        _, errors = run("encode", folder, other / "good", "--as", name, "--code", code, status=1)
        check(f"{name}: a stripe can't have this name" in errors and is_store(folder, code, files), errors)
    sums = folder / "SHA256SUMS"
    listed = sums.read_text()
    kept = f"# sums\n\n{digest(b'')} *./empty\r\n\\{digest(b'')}  odd\\\\\\n\\rname\n"
    sums.write_bytes((kept + listed).encode())
    (other / "more").write_bytes(b"more")
    run("encode", folder, other / "more", "--code", code, status=0)
    lines = sums.read_bytes().decode().splitlines()
    check(f"{digest(b'')}  empty" in lines and f"\\{digest(b'')}  odd\\\\\\n\\rname" in lines, "sums of other files were lost")
    none = digest(b"")
    for wrong in ("what\n", f"{none} x\n", f"{none}  \n", f"\\{none}  a\\b\n", f"{digest(b'1')}  empty\n{none}  empty\n"):
        sums.write_text(listed + wrong)
        _, errors = run("encode", folder, other / "more", "--code", code, status=1)
        why = "has another digest of a file than an earlier line" if wrong.count("\n") == 2 else "isn't as sha256sum writes it"
        check(f"line {(listed + wrong).count(chr(10))} {why}" in errors, errors)
    sums.write_text(listed)
    held = os.open(folder, os.O_RDONLY)
    fcntl.flock(held, fcntl.LOCK_EX)
    _, errors = run("encode", folder, other / "more", "--code", code, status=1)
    check("another run works in this store" in errors, errors)
    os.close(held)
    run("encode", folder, status=2)
    run("encode", folder / "a" / "b", other / "good", status=3)
    run("read", folder, status=2)
    run("read", folder, "nothing", status=1)
    full = open("/dev/full", "wb")
    done = subprocess.run([PROGRAM, "read", folder, "good"], stdout=full, stderr=subprocess.PIPE, text=True, timeout=300)
    check(done.returncode == 3 and "standard output" in done.stderr, done.stderr)


def test_kills(folder, code, choose):
    """A run that is killed leaves each name absent or whole, and the same command again ends the work."""
    sources = folder.with_name(folder.name + "-files")
    sources.mkdir()
    files = {f"f{k}": choose.randbytes(200_000 + k) for k in range(3)}
    for name, data in files.items():
        (sources / name).write_bytes(data)
    wanted = {}
    for name, data in files.items():
        wanted |= files_of(code, name, data)
    command = [PROGRAM, "encode", folder, *(sources / name for name in files), "--code", code]
    for _ in range(KILLS):
        started = subprocess.Popen(command, stdout=subprocess.DEVNULL, stderr=subprocess.DEVNULL)
        time.sleep(choose.random() * LONGEST_BEFORE_KILL)
        started.kill()
        started.wait()
        for path in folder.iterdir() if folder.exists() else ():
            if not path.name.startswith(".rebuild-store-") and path.name != "SHA256SUMS":
                check(path.read_bytes() == wanted[path.name], f"{path.name} is half a file")
        if choose.random() < 0.4:
            shutil.rmtree(folder, ignore_errors=True)
    run(*command[1:], status=0)
    check(is_store(folder, code, files), "a run after others that were killed didn't end the work")
    reads(folder, files)


def main():
    check(PROGRAM.exists(), f"{PROGRAM} isn't built: run 'make store' first")
    choose = random.Random(20261126)
    with tempfile.TemporaryDirectory() as scratch:
        for test in (test_lengths, test_losses, test_decoder, test_damage, test_names_that_are_there, test_names, test_refusals,
                     test_kills):
            for code in CODES:
                test(pathlib.Path(scratch) / f"{test.__name__}-{code}", code, choose)
    print(f"encode-store: {passed} checks passed")


if __name__ == "__main__":
    main()
