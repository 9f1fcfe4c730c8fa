#!/usr/bin/env python3
"""Tries how rebuild-store ends, and what it names, where the system refuses something of which it does the rest: memory for a description
that fragments give, a look at a fragment that goes to another folder, folders' names on the disk, counters; and where links lead that
aren't followed, and what else is there that is no fragment.

    store-refusals.py [PROGRAM [TEST]]

Each status and line is that of the manual page, and each expected byte is worked out here."""

import contextlib
import errno
import functools
import hashlib
import multiprocessing
import os
import pathlib
import random
import re
import shutil
import sys
import tempfile

# No compiled copy of the modules is left beside them.
sys.dont_write_bytecode = True
import refusals  # noqa: E402
from faults import ROOT, Calls, Fault, finished, hold  # noqa: E402

PROGRAM = ROOT / "crates/rebuild_store/out/rebuild_store"
LEFT, USAGE, DEVICE, NO_MEMORY = 1, 2, 3, 4
DISKS = ["--names", "disk{shard}/{stripe}"]
CODED = [*DISKS, "--code", "6-2-2"]
LINKED = "its folder is a link, and links aren't followed"
# The errors of a disk that fails and of rights that aren't there, with the system's words.
ERRORS = {number: os.strerror(number) for number in (errno.EIO, errno.EACCES)}


def run(*words, status=0):
    """Runs the program, holds its status to this one, and gives what it writes to standard output and to standard error."""
    ended = finished([PROGRAM, *words])
    hold(ended.status == status, f"{' '.join(map(str, words))}: not status {status}: {ended.text()}")
    return ended.out, ended.err


def there(folder):
    """The bytes of the regular files below a folder, by their paths."""
    return {str(path.relative_to(folder)): path.read_bytes() for path in folder.rglob("*") if path.is_file() and not path.is_symlink()}


def encoded(place, data, *words, name="store"):
    """A new store with a file `a`."""
    (place / "a").write_bytes(data)
    run("encode", *words, place / name, place / "a")
    return place / name


def description(data):
    """The line that describes a file of the (6,2,2) code."""
    return f"{len(data)} {hashlib.sha256(data).hexdigest()} 6-2-2\n".encode()


@contextlib.contextmanager
def behind_a_link(folder, place):
    """Has a link in the place of a folder."""
    folder.rename(place / "outside")
    folder.symlink_to(place / "outside")
    yield
    folder.unlink()
    (place / "outside").rename(folder)


def failing(calls, command, kind, path, how, anew):
    """A run of a command in which the first call of a kind at a path fails, and all after it there; each begins with this done anew."""
    anew()
    for number, found in enumerate(calls.run(command).kinds, 1):
        if found == kind:
            anew()
            ended = calls.run(command, number, how, rest="path")
            if ended.paths == (str(path),):
                return ended
    raise Fault(f"{command}: no call {kind} at {path}")


def test_memory_while_descriptions_are_made_again(place, choose):
    """A repair that is refused memory while it makes descriptions again, which only the fragments and the digests give, ends with that, or
    makes them; it never says that they are lost."""
    data, library, ends = choose.randbytes(700), refusals.Library(place, forks=True), set()
    store = encoded(place, data)
    copies, command = [store / "a.file", store / "a.file.copy"], [PROGRAM, "repair", "--workers", "1", store]

    def refused(number):
        for path in [*copies, *store.glob(".rebuild-store-*")]:
            path.unlink(missing_ok=True)
        return library.run(command, refusal=refusals.Refusal(allocation=number))

    many = refused(0).allocations
    hold([path.read_bytes() for path in copies] == [description(data)] * 2, "descriptions aren't made again")
    for number in range(1, many + 1):
        ran = refused(number)
        ends.add(ran.status)
        if ran.status == 0:
            hold([path.read_bytes() for path in copies] == [description(data)] * 2, f"allocation {number}: not made: {ran.text()}")
        else:
            is_said = ran.status == NO_MEMORY and b"rebuild-store: out of memory" in ran.err.splitlines()
            hold(is_said and b"is lost" not in ran.err, f"allocation {number} of {many}: {ran.text()}")
    hold(ends == {0, NO_MEMORY}, f"runs ended with {ends}")


def test_fragment_that_cannot_be_looked_at_goes_elsewhere(place, choose):
    """A fragment that can't be looked at is named, with the status of a device, also where it is rebuilt into another folder; and so is one
    that can't be read."""
    store, to, calls = encoded(place, choose.randbytes(5_000)), place / "to", Calls(place, forks=True)
    whole = there(store)

    def anew():
        shutil.rmtree(to, ignore_errors=True)
        to.mkdir()

    for how, words in ERRORS.items():
        for more in (["--reads", "all"], ["--reads", "few"], [], ["-n"]):
            said = f"a.x0: can't be looked at: {words}\n"
            command = [PROGRAM, "repair", "--workers", "1", *more, store]
            ended = failing(calls, command, "look", store / "a.x0", how, anew)
            hold(ended.status == DEVICE and ended.err == said and not there(to), f"in its place: {ended.text()}")
            ended = failing(calls, [*command, "--to", to], "look", store / "a.x0", how, anew)
            hold(ended.status == DEVICE and ended.err.startswith(said) and ended.err.count("a.x0: can't") == 1, ended.text())
            hold("repaired 1 fragment, 834 bytes" in ended.out or "; 1 can be rebuilt" in ended.out, ended.text())
            made = {} if more == ["-n"] else {"a.x0": whole["a.x0"]}
            hold(there(to) == made and there(store) == whole, f"{more}: {sorted(there(to))}: {ended.text()}")
        command = [PROGRAM, "repair", "--workers", "1", "--reads", "all", store, "--to", to]
        for kind in ("open", "read"):
            ended = failing(calls, command, kind, store / "a.x0", how, anew)
            hold(ended.status == DEVICE and ended.err == f"a.x0: can't be read: {words}\n", f"{kind}: {ended.text()}")
            hold(there(to) == {"a.x0": whole["a.x0"]}, f"{kind}: {sorted(there(to))}: {ended.text()}")


def test_rows_of_what_cannot_be_looked_at(place, choose):
    """The rows of such a fragment say that it was rebuilt, and what was wrong with it; what isn't there has one row."""
    store, to = encoded(place, choose.randbytes(5_000)), place / "to"
    to.mkdir()
    (store / "a.x0").unlink()
    (store / "a.x0").symlink_to("a.x0")
    (store / "a.y1").unlink()
    words = ["repair", "--follow-links", "--reads", "all", "--json", store, "--to", to]
    for more, rebuilt in ((["-n"], "would be rebuilt"), ([], "rebuilt")):
        out, _ = run(*words, *more, status=DEVICE)
        rows = re.findall(r'"place":"(\w+)","outcome":"([^"]+)","detail":"([^"]*)"', out)
        loops = "can't be looked at: Too many levels of symbolic links"
        hold(rows == [("x0", rebuilt, ""), ("y1", rebuilt, ""), ("x0", "was", loops)], f"{more}: {rows}")


def test_each_folder_that_cannot_be_synced(place, choose):
    """Each folder is named whose names of fragments can't be written to the disk, once, and the file isn't encoded."""
    calls, disks = Calls(place, forks=True), [f"disk{number}" for number in range(10)]
    store = encoded(place, b"other", *CODED, "--make-folders")
    (place / "b").write_bytes(choose.randbytes(3_000))
    command, before, tried = [PROGRAM, "encode", *CODED, store, place / "b"], there(store), 0

    def anew():
        for path in store.glob("disk*/b*"):
            path.unlink()
        (store / "SHA256SUMS").write_bytes(before["SHA256SUMS"])

    for number, kind in enumerate(calls.run(command).kinds, 1):
        anew()
        ended = calls.run(command, number, errno.EIO, rest="kind") if kind == "sync" else None
        # The first ones are of the fragments.
        if ended and pathlib.Path(ended.paths[0]).name in disks:
            tried += 1
            named = re.findall(rf"^rebuild-store: {re.escape(str(store))}/(disk\d): Input/output error$", ended.err, re.M)
            # Those before the first that can't be written were written.
            hold(len(named) == len(set(named)) == len(disks) - tried + 1, f"call {number}: {ended.text()}")
            # And the digests can't be written either.
            sums = f"rebuild-store: {store}/SHA256SUMS: Input/output error\n"
            is_all = ended.err.endswith(sums) and ended.err.count("\n") == len(named) + 1
            hold(ended.status == DEVICE and is_all, f"call {number}: {ended.text()}")
            hold(not [*store.glob("disk*/b.file")], f"call {number}: a description says that the file is there")
            if tried == len(disks):
                return
    raise Fault(f"{tried} folders are written to the disk")


def test_each_unfinished_file_that_cannot_be_removed(place, choose):
    """Where the folder of a disk isn't there, so that no fragment gets its name, each unfinished file that can't be removed is named, and
    so is the folder."""
    calls, store = Calls(place, forks=True), encoded(place, b"other", *CODED, "--make-folders")
    (place / "b").write_bytes(choose.randbytes(3_000))
    shutil.rmtree(store / "disk9")
    command = [PROGRAM, "encode", *CODED, store, place / "b"]
    # Another thread reads the file meanwhile, so the number of the first removal may be another one in the next run.
    for _ in range(100):
        kinds = calls.run(command).kinds
        hold(kinds.count("unlink") == 9, f"{kinds}: not each file is removed")
        first = kinds.index("unlink") + 1
        ended = calls.run(command, first, errno.EIO, rest="kind")
        left = sorted(str(path) for path in store.glob("disk*/.rebuild-store-*"))
        for path in left:
            os.unlink(path)
        if ended.kind == "unlink" and "unlink" not in ended.kinds[:first - 1]:
            lines = ended.err.splitlines()
            absent = f"rebuild-store: {store}/disk9: isn't there: make this folder, or give --make-folders"
            named = sorted(f"rebuild-store: {path}: is left over, and can't be removed: Input/output error" for path in left)
            hold(ended.status == DEVICE and sorted(lines) == sorted([absent, *named]) and len(left) == 9, ended.text())
            return
    raise Fault("the first removal didn't fail")


def counters_of(path):
    return re.findall(r"^rebuild_store_status\{.*\} (\d)$", path.read_text(), re.M)


def test_counters_of_a_refused_run_that_cannot_be_written(place, choose):
    """Of a run that is refused, or fails, and whose counters can't be written, both are said, and the status is the higher one."""
    store, empty, calls = encoded(place, choose.randbytes(500)), place / "empty", Calls(place, forks=True)
    empty.mkdir()
    counters = place / "counters"
    refused = f"rebuild-store: {empty}: no file is named as a fragment, {{stripe}}.{{place}}: is this the store?\n"
    for command in ("scrub", "repair"):
        words = [command, "--progress", counters, empty]
        # Counters of an earlier run of the same.
        shutil.copytree(store, empty, dirs_exist_ok=True)
        run(*words)
        earlier = counters.read_bytes()
        for path in empty.iterdir():
            path.unlink()
        _, err = run(*words, status=LEFT)
        hold(err == refused and counters_of(counters) == [str(LEFT)], f"{command}: {err}: {counters.read_text()}")
        for kind, how in (("create", errno.ENOSPC), ("sync", errno.EIO), ("rename", errno.EACCES), ("open", errno.EACCES),
                          ("read", errno.EIO), ("look", errno.EIO)):
            ended = of_counters(calls, [PROGRAM, *words], kind, how, counters, earlier)
            said = f"rebuild-store: {counters}: the counters can't be written: {os.strerror(how)}\n"
            hold(ended.status == DEVICE and ended.err == refused + said, f"{command}, {kind}: {ended.text()}")
            hold(counters.read_bytes() == earlier, f"{command}, {kind}: the counters have changed")
        # Without any, or with those of another one, none are written and nothing is said.
        for what in (None, b"rebuild_store_other", b""):
            counters.unlink(missing_ok=True)
            if what is not None:
                counters.write_bytes(what)
            _, err = run(*words, status=LEFT)
            hold(err == refused and (counters.read_bytes() if counters.exists() else None) == what, f"{command}, {what}: {err}")
        counters.unlink(missing_ok=True)


def test_counters_of_a_run_that_fails_and_cannot_write_them(place, choose):
    """The same of a run that ends before its first stripe, since a fragment would be longer than files may get."""
    store = encoded(place, choose.randbytes(30_000))
    (store / "a.x0").unlink()
    limited = ["sh", "-c", 'ulimit -f 2; exec "$@"', "sh", PROGRAM, "repair", store]
    lines = [f"rebuild-store: {line}\n" for line in (
        "a: would have 5000 bytes, and no file may get more than [0-9]+ here: ulimit -f",
        "/dev/full: the counters can't be written: No space left on device")]
    for more, status, said in (([], LEFT, lines[0]), (["--progress", "/dev/full"], DEVICE, "".join(lines))):
        ended = finished([*limited, *more])
        hold(ended.status == status and re.fullmatch(said, ended.err), ended.text())


def of_counters(calls, command, kind, how, counters, earlier):
    """A run in which the last call of a kind fails at counters of an earlier one, or at the unfinished file that is to replace them."""
    counters.write_bytes(earlier)
    # How the program watches for files of a store at their path comes before.
    for number in [number for number, found in enumerate(calls.run(command).kinds, 1) if found == kind][::-1]:
        counters.write_bytes(earlier)
        ended = calls.run(command, number, how, rest="path")
        path = pathlib.Path(ended.paths[0])
        for left in counters.parent.glob(".rebuild-store-*"):
            left.unlink()
        if path == counters or path.parent == counters.parent and path.name.startswith(".rebuild-store-"):
            return ended
    raise Fault(f"{command}: no call {kind} of counters")


def test_counters_of_a_refused_run_without_memory(place, _choose):
    """A refused run that is also refused memory says so, or does all that it does with it: its counters say its status then."""
    empty, counters, library, ends = place / "empty", place / "counters", refusals.Library(place, forks=True), set()
    store = encoded(place, b"some text")
    run("scrub", "--progress", counters, store)
    earlier = counters.read_bytes().replace(str(store).encode(), str(empty).encode())
    empty.mkdir()
    command = [PROGRAM, "scrub", "--progress", counters, empty]

    def refused(number):
        counters.write_bytes(earlier)
        return library.run(command, refusal=refusals.Refusal(allocation=number))

    for number in range(1, refused(0).allocations + 1):
        ran = refused(number)
        ends.add(ran.status)
        hold(ran.status == NO_MEMORY or ran.status == LEFT and counters_of(counters) == [str(LEFT)],
             f"allocation {number}: {counters_of(counters)}: {ran.text()}")
    hold(NO_MEMORY in ends, f"runs ended with {ends}")


def test_output_below_a_plain_store(place, choose):
    """A file isn't read into the folder of a plain store, and may be read below it, where a store has nothing."""
    data = choose.randbytes(2_000)
    store = encoded(place, data)
    (store / "sub/deep").mkdir(parents=True)
    (place / "way").symlink_to(store)
    for path in (store / "out", store / "sub/../out", place / "way/out"):
        _, err = run("read", "-o", path, store, "a", status=USAGE)
        hold(err == f"rebuild-store: {path}: is in a folder of the store\n" and not (store / "out").exists(), err)
    for path in (store / "sub/out", store / "sub/deep/out"):
        run("read", "-o", path, store, "a")
        hold(path.read_bytes() == data, f"{path}: isn't the file")


def test_description_behind_a_link(place, choose):
    """A description behind a link in place of a disk's folder counts as lost, as what else is there, unless links are followed."""
    data = choose.randbytes(3_000)
    store = encoded(place, data, *CODED, "--make-folders")
    (store / "SHA256SUMS").unlink()
    with behind_a_link(store / "disk3", place):
        out, _ = run("scrub", *CODED, store, status=LEFT)
        hold(out.startswith("disk3/a: is lost\ndisk3/a.file: is lost\n"), out)
        out, _ = run("list", *CODED, store)
        hold(out == "degraded 3000 6-2-2 9/10 a\n", out)
        _, err = run("repair", *CODED, store, status=DEVICE)
        hold(f"disk3/a.file: can't be put in its place: {LINKED}\n" in err, err)
        run("scrub", "--follow-links", *CODED, store)
        # It is made in another folder, like the fragment.
        to = place / "to"
        for number in range(10):
            (to / f"disk{number}").mkdir(parents=True)
        run("repair", *CODED, store, "--to", to)
        hold(sorted(there(to)) == ["disk3/a", "disk3/a.file"] and there(to)["disk3/a.file"] == description(data), f"{sorted(there(to))}")
        # Nothing is known of the file by it alone.
        for path in store.glob("disk*/a.file"):
            if path.parent.name != "disk3":
                path.unlink()
        out, _ = run("list", *CODED, store)
        hold(out == "degraded - 6-2-2 9/10 a\n", out)
        for command in (["read", *DISKS, store, "a"], ["verify", *DISKS, store, "a"]):
            out, err = run(*command, status=DEVICE)
            hold(f"rebuild-store: {store}/disk3/a.file: {LINKED}\n" in err and data not in out.encode("latin-1", "replace"), err)
        run("verify", "--follow-links", *DISKS, store, "a")


def test_file_of_a_stripe_behind_a_link(place, choose):
    """The same where each stripe has a folder: a file whose folder is a link is none that can be read."""
    names = ["--names", "{stripe}/{place}"]
    store = encoded(place, choose.randbytes(3_000), *names, "--make-folders")
    with behind_a_link(store / "a", place):
        _, err = run("read", *names, store, "a", status=DEVICE)
        hold(f"{store}/a/a.file" in err and LINKED in err, err)
        run("verify", "--follow-links", *names, store, "a")
    run("verify", *names, store, "a")


def test_words_of_the_library(place, choose):
    """What the manual page says in place of the system's words: of a fragment of another length, of names that are no UTF-8, of a link
    that leads to a name which nothing keeps, and of a file that came meanwhile."""
    data, calls = choose.randbytes(900), Calls(place, forks=True)
    store = encoded(place, data)
    names, out = place / "names", place / "out"
    names.write_bytes(b"\xff\n")
    _, err = run("scrub", "--stripes", names, store, status=DEVICE)
    hold(err == f"rebuild-store: {names}: stream did not contain valid UTF-8\n", err)
    command = [PROGRAM, "read", "-o", out, store, "a"]
    for number, kind in enumerate(calls.run(command).kinds, 1):
        if kind == "link":
            out.unlink()
            ended = calls.run(command, number, "meanwhile")
            hold(ended.status == DEVICE and ended.err == f"rebuild-store: {out}: entity already exists\n", ended.text())
            hold(out.read_bytes() == b"m", "what came meanwhile was replaced")
    os.truncate(store / "a.x0", 10)
    _, err = run("read", "-o", place / "again", store, "a")
    hold(err == "rebuild-store: a.x0: left out: unexpected end of file\n", err)
    (store / "a.file").unlink()
    (store / "a.file").symlink_to("../.rebuild-store-0123456789abcdef")
    _, err = run("repair", "--follow-links", store, status=DEVICE)
    hold("a.file: can't be put in its place: invalid input parameter\n" in err, err)


def test_too_few_beside_what_is_no_file(place, choose):
    """Of a file of which more is lost than the code gives back that is said also where what is lost is no regular file, or has another
    length: no disk is at fault."""
    out, lost = place / "out", ["x0", "x1", "x2", "y0", "y1"]
    for kind, make in (("folder", os.mkdir), ("fifo", os.mkfifo), ("link", lambda path: path.symlink_to(place / "a")),
                       ("short", lambda path: path.write_bytes(b"short"))):
        store = encoded(place, choose.randbytes(5_000), name=kind)
        for name in lost:
            (store / f"a.{name}").unlink()
        make(store / "a.x0")
        for words in (["read", store, "a"], ["read", "-o", out, store, "a"], ["verify", "-q", store, "a"]):
            written, err = run(*words, status=LEFT)
            *_, last = err.splitlines()
            hold(re.findall(r"^rebuild-store: a\.(..): left out: ", err, re.M) == lost, f"{words}: {err}")
            hold(last == "rebuild-store: a: the fragments that are there don't give the file that a.file describes", f"{words}: {err}")
            hold(written == "" and not out.exists(), f"{words}: something was written")


def test_each_fragment_that_cannot_be_looked_at(place, choose):
    """Lists name each fragment of a stripe that can't be looked at, with the status of a device."""
    store, unknown = encoded(place, choose.randbytes(5_000)), ["a.x0", "a.y1", "a.p1"]
    for name in unknown:
        (store / name).unlink()
        (store / name).symlink_to(name)
    looped = [f"rebuild-store: {name}: can't be looked at: {os.strerror(errno.ELOOP)}" for name in unknown]
    out, err = run("list", "--follow-links", store, status=DEVICE)
    hold((out, err.splitlines()) == ("degraded 5000 6-2-2 7/10 a\n", [*looped, "1 file; not whole: 1"]), f"list: {out}, {err}")
    out, err = run("lost", "--follow-links", store, status=DEVICE)
    rows = [f"rebuild,a,{name.removeprefix('a.')},834,x1 x2 y0 y2 px py p0" for name in unknown]
    hold(out.splitlines() == ["order,stripe,target,length,survivors", *rows], out)
    hold(err.splitlines() == [*looped, "1 stripe; 3 fragments lost, 0 of them not in the list"], err)
    # Of a stripe whose length isn't known either.
    for path in store.iterdir():
        if path.name not in unknown:
            path.unlink()
    (place / "names").write_text("a\n")
    for command in ("list", "lost"):
        _, err = run(command, "--follow-links", "--stripes", place / "names", store, status=DEVICE)
        hold([line for line in err.splitlines() if "looked at" in line] == looped, f"{command}: {err}")


def test_plan_around_a_stripe_without_a_length(place, choose):
    """The last line of a dry run leaves out a stripe whose fragments have two lengths, and counts those before and after it."""
    names, store = ("a", "b", "c"), place / "store"
    for name in names:
        (place / name).write_bytes(choose.randbytes(6 * 600))
    for without in names:
        shutil.rmtree(store, ignore_errors=True)
        run("encode", store, *[place / name for name in names])
        for path in [*store.glob("*.file*"), store / "SHA256SUMS"]:
            path.unlink()
        for name in names:
            if name != without:
                (store / f"{name}.x0").unlink()
        for short in ("x0", "x1", "y0", "p0", "p1"):
            os.truncate(store / f"{without}.{short}", 300)
        # Three others of its group are read for each of the two that are lost.
        out, err = run("repair", "--reads", "few", "-n", store, status=LEFT)
        hold(out == "3 stripes of 6-2-2, 600 bytes; 2 lost in 2; 2 can be rebuilt (2 unchecked), 1 can't; reads 3.5 KiB, writes 1.1 KiB\n",
             f"{without}: {out}")
        hold(err.startswith(f"{without}: its fragments have different lengths"), f"{without}: {err}")


def tried(place, name):
    """Runs a test, and gives why it failed."""
    folder = place / name
    folder.mkdir()
    try:
        globals()[name](folder, random.Random(name))
    except (Fault, refusals.Fault) as why:
        return f"store-refusals: {name}: {why}"
    finally:
        shutil.rmtree(folder)
    return ""


def main(program=None, only=""):
    global PROGRAM
    PROGRAM = pathlib.Path(program or PROGRAM).resolve()
    tests = [name for name in globals() if name.startswith("test_") and only in name]
    with tempfile.TemporaryDirectory() as scratch, multiprocessing.get_context("fork").Pool(maxtasksperchild=1) as pool:
        ended = pool.map(functools.partial(tried, pathlib.Path(scratch)), tests, chunksize=1)
    faults = [fault for fault in ended if fault]
    print(*faults, sep="\n", end="\n" if faults else "", file=sys.stderr)
    print(f"store-refusals: {len(tests) - len(faults)} passed, {len(faults)} failed")
    sys.exit(1 if faults else 0)


if __name__ == "__main__":
    main(*sys.argv[1:3])
