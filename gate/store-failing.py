#!/usr/bin/env python3
"""Tries rebuild-store where more than one thing fails, or fails at a moment: what can't be read of what is to replace a file, digests that
can't be written, a folder that becomes a link, and copies of a description that aren't as they should be.

    store-failing.py [PROGRAM [TEST]]

Each expected byte, name and status is worked out here by the manual pages."""

import contextlib
import errno
import fcntl
import os
import pty
import re
import resource
import shutil
import stat
import subprocess
import sys
import termios
import time

# No compiled copy of the modules is left beside them.
sys.dont_write_bytecode = True
from faults import RECORD_SIZE, Calls  # noqa: E402
from stores import (  # noqa: E402
    SECONDS, STAGED, Program, Skipped, begin, description, digest, hold, run, source, there, try_all, wait_for, while_waiting,
    write_sums,
)

PLACES = ("x0", "x1", "x2", "y0", "y1", "y2", "px", "py", "p0", "p1")
DISKS = ("--names", "disk{shard}/{stripe}", "--code", "6-2-2")
EIO, ERROR = errno.EIO, os.strerror(errno.EIO)
# What takes the line away that says how far a command is.
TAKEN = "\x1b[A\r\x1b[K"


def wrong_sums(store):
    """The names of files that have another digest in the store than SHA256SUMS says."""
    lines = (store / "SHA256SUMS").read_text().splitlines()
    files = there(store)
    return [line[66:] for line in lines if line[66:] not in files or digest(files[line[66:]]) != line[:64]]


def read_back(store, place, *names):
    run("read", *names, store, "a", "-o", place / "read-back", status=0)
    return (place / "read-back").read_bytes()


def test_descriptions_that_are_no_files(place, choose):
    """A copy of a description that is a link, a folder or a FIFO isn't lost: it is named as what it is, and stays."""
    store, report = place / "store", place / "report"
    run("encode", "--make-folders", *DISKS, store, source(place, "a", choose.randbytes(700)), status=0)
    copy, why = store / "disk4/a.file", "disk4/a.file: is no regular file"
    kinds = {"link": lambda: copy.symlink_to("../disk5/a.file"), "loose link": lambda: copy.symlink_to("none"), "folder": copy.mkdir,
             "FIFO": lambda: os.mkfifo(copy)}
    for kind, make in kinds.items():
        copy.unlink()
        make()
        before, about = there(store), copy.lstat()
        for words in (["scrub"], ["repair"], ["repair", "--replace-damaged"], ["repair", "--dry-run"]):
            said = run(*words, *DISKS[:4], "--report", report, store, status=1)
            rows = f"stripe,place,outcome,detail\na,file,left,{why}\n"
            hold(f"{why}\n" in said and report.read_text() == rows, f"{kind}, {words}: {said}")
        hold(there(store) == before and (copy.lstat().st_ino, copy.lstat().st_mode) == (about.st_ino, about.st_mode), f"{kind} has gone")
        if kind == "folder":
            copy.rmdir()
            copy.touch()


def test_descriptions_of_files_of_two_users(place, choose):
    """Where no copy of a description is left, and the fragments are of one group but not of one user, what is made is the run's user's
    alone."""
    if os.geteuid():
        raise Skipped("only root can give files away")
    store, copies = place / "store", ("a.file", "a.file.copy")
    run("encode", store, source(place, "a", choose.randbytes(700)), status=0)
    for user, others in ((1_234, 0), (0, 1_234)):
        for number, each in enumerate(PLACES):
            os.chown(store / f"a.{each}", user if number == 3 else others, 4_321)
            (store / f"a.{each}").chmod(0o664)
        for copy in copies:
            (store / copy).unlink()
        run("repair", store, status=0)
        found = [(it.st_uid, it.st_gid, stat.S_IMODE(it.st_mode)) for it in (os.stat(store / copy) for copy in copies)]
        hold(found == [(os.geteuid(), os.getegid(), 0o600)] * 2, f"{user}, {others}: {found}")


def test_read_to_a_file_that_was_removed(place, choose):
    """A file is written to standard output by a path that leads there, also where that is a file which was removed, whose folder has become
    a file, or beside what has the name that the system shows for it."""
    store, data = place / "store", choose.randbytes(3_000)
    run("encode", store, source(place, "a", data), status=0)
    for name in ("file", "folder", "beside"):
        folder = place / name
        folder.mkdir()
        with open(folder / "out", "w+b") as output:
            (folder / "out").unlink()
            if name == "folder":
                folder.rmdir()
                folder.write_bytes(b"mine")
            if name == "beside":
                (folder / "out (deleted)").symlink_to("none")
            ended = subprocess.run([Program.path, "read", store, "a", "-o", "/dev/stdout"], stdout=output, stderr=subprocess.PIPE)
            output.seek(0)
            hold(ended.returncode == 0 and output.read() == data, f"{name}: status {ended.returncode}: {ended.stderr.decode()}")
        hold(name != "folder" or folder.read_bytes() == b"mine", "another file was written")
        hold(name != "beside" or os.listdir(folder) == ["out (deleted)"], "what a link leads to was made")


def test_standard_input_that_is_too_long(place, choose):
    """Standard input that is longer than files may get isn't encoded, however its bytes come: the line names it, and nothing stays."""
    store, most, limits = place / "store", 20_480, resource.getrlimit(resource.RLIMIT_FSIZE)
    run("encode", store, source(place, "a", choose.randbytes(700)), status=0)
    before = there(store)

    def limited():
        # It is the soft limit that counts.
        resource.setrlimit(resource.RLIMIT_FSIZE, (most, limits[1]))

    for parts in ([most + 1], [most, 1], [most - 5, 5, 1], [50_000]):
        words = [Program.path, "encode", store, "-", "--as", "in"]
        held = subprocess.Popen(words, stdin=subprocess.PIPE, stdout=subprocess.DEVNULL, stderr=subprocess.PIPE, preexec_fn=limited)
        for many in parts[:-1]:
            held.stdin.write(choose.randbytes(many))
            held.stdin.flush()
            wait_for(lambda: held.poll() is not None or is_taken(held.stdin), "standard input isn't read")
        _, said = held.communicate(choose.randbytes(parts[-1]), timeout=SECONDS)
        line = "rebuild-store: standard input: would be longer than files may get here: ulimit -f\n"
        hold(held.returncode == 3 and line in said.decode(), f"{parts}: status {held.returncode}: {said.decode()}")
        hold(there(store) == before, f"{parts}: {sorted(there(store))}")


def is_taken(pipe):
    """Whether all that was written to a pipe has been read."""
    return int.from_bytes(fcntl.ioctl(pipe, termios.FIONREAD, bytes(4)), sys.byteorder) == 0


def test_read_over_a_file_whose_rights_cannot_be_given(place, choose):
    """A file that is read to the path of another one replaces it only with the owner and the rights of that, or as one that is its user's
    alone if nobody but root may give files away."""
    calls, store, data, output = Calls(place, forks=True), place / "store", choose.randbytes(900), place / "output"
    run("encode", store, source(place, "a", data), status=0)
    for mode in (0o640, 0o604):
        words, tried = [Program.path, "read", store, "a", "-o", output], set()
        lay_old(output, mode)
        for number, kind in enumerate(calls.run(words).kinds, 1):
            for error in (errno.EPERM, errno.EACCES, EIO, errno.ENOSPC) if kind in ("chown", "chmod") else ():
                lay_old(output, mode)
                ended = calls.run(words, number, error)
                has, rights = output.read_bytes(), stat.S_IMODE(output.stat().st_mode)
                is_kept = ended.status == 3 and os.strerror(error) in ended.err and (has, rights) == (b"old", mode)
                is_private = (kind, ended.status, has, rights) == ("chown", 0, data, 0o600) and error in (errno.EPERM, errno.EACCES)
                hold(is_kept or is_private, f"{kind}, {os.strerror(error)}: {rights:o}, {len(has)} bytes: {ended.text()}")
                hold([*place.glob(".rebuild-store-*")] == [], f"{kind}, {os.strerror(error)}: something is left")
                tried.add(kind)
        hold(tried == {"chown", "chmod"}, f"tried {tried}")


def lay_old(path, mode):
    path.unlink(missing_ok=True)
    path.write_bytes(b"old")
    path.chmod(mode)


def test_removal_whose_digests_cannot_be_written(place, choose):
    """A file that stays, since the digests can't be written once, keeps its digests, and so does what is to replace it."""
    calls, first, store = Calls(place, forks=True), place / "first", place / "store"
    run("encode", first, source(place, "a", choose.randbytes(700)), source(place, "b", b"b"), status=0)
    begin(place, first, choose.randbytes(900))
    write_sums(first)
    shutil.copytree(first, store)
    before = there(store)
    kinds, tried = calls.run([Program.path, "remove", store, "a"]).kinds, set()
    hold(sorted(there(store)) == sorted(["SHA256SUMS", *(it for it in before if it.startswith("b."))]), f"{sorted(there(store))}")
    for number, kind in enumerate(kinds[: kinds.index("unlink")], 1):
        if kind in ("create", "write", "sync", "rename"):
            for names in (["a"], ["a", "b"]):
                shutil.rmtree(store)
                shutil.copytree(first, store)
                ended = calls.run([Program.path, "remove", store, *names], number, EIO)
                stay = {name: data for name, data in before.items() if name[0] not in names[1:]}
                stay["SHA256SUMS"] = b"".join(it for it in before["SHA256SUMS"].splitlines(True) if chr(it[66]) not in names[1:])
                hold(ended.status == 3 and there(store) == stay, f"{names}, call {number}, {kind}: {ended.text()}{sorted(there(store))}")
                tried.add(kind)
    hold(len(tried) == 4, f"tried {tried}")


def test_removal_whose_digests_cannot_be_written_again(place, choose):
    """Where a description can't be taken out, and the digests of its file then can't be written again, both failures are said."""
    calls, store = Calls(place), place / "store"
    run("encode", store, source(place, "a", choose.randbytes(700)), status=0)
    write_sums(store, *((f"other/{number:04}", digest(b"")) for number in range(1_000)))
    whole = (store / "SHA256SUMS").read_bytes()
    shutil.copytree(store, place / "count")
    kinds = calls.run([Program.path, "remove", place / "count", "a"]).kinds
    # The lines of others alone may be written, and no line more; it is the soft limit that counts.
    most, limits = (place / "count/SHA256SUMS").stat().st_size, resource.getrlimit(resource.RLIMIT_FSIZE)
    resource.setrlimit(resource.RLIMIT_FSIZE, (most, limits[1]))
    ended = calls.run([Program.path, "remove", store, "a"], kinds.index("unlink") + 1, EIO, "kind")
    resource.setrlimit(resource.RLIMIT_FSIZE, limits)
    hold(ended.status == 3 and f"{store}/a.file" in ended.err and ERROR in ended.err, ended.text())
    hold(f"{store}/SHA256SUMS: would be longer than files may get here: ulimit -f\n" in ended.err, ended.text())
    hold(read_back(store, place) == (place / "a").read_bytes(), "the file can't be read")
    run("remove", store, "a", status=0)
    hold([*there(store)] == ["SHA256SUMS"] and (store / "SHA256SUMS").read_bytes() != whole, f"{sorted(there(store))}")


def test_fragments_without_a_description(place, choose):
    """Where nothing describes a file of which there are fragments, that is said, whichever of these can't be looked at."""
    calls, store, tried = Calls(place, forks=True), place / "store", set()
    run("encode", store, source(place, "a", choose.randbytes(900)), status=0)
    for copy in ("a.file", "a.file.copy"):
        (store / copy).unlink()
    words = [Program.path, "read", store, "a"]
    for number, kind in enumerate(calls.run(words).kinds, 1):
        if kind == "look":
            ended = calls.run(words, number, EIO, "path")
            if ended.paths[0] in [f"{store}/a.{each}" for each in PLACES]:
                line = "rebuild-store: a: no description is there, as a.file, so nothing says how long it is\n"
                hold((ended.status, ended.out, ended.err) == (1, "", line), f"call {number}, {ended.paths}: {ended.text()}")
                tried.add(ended.paths[0])
    hold(f"{store}/a.x0" in tried, f"tried {tried}")


def test_removal_that_is_killed(place, choose):
    """The lines of a file, and of what is to replace it, are no longer in SHA256SUMS when the first of what they name goes, so that nothing
    expects it; the same command takes out the rest."""
    calls, kept, store = Calls(place, forks=True), place / "kept", place / "store"
    run("encode", kept, source(place, "b", b"b"), status=0)
    without = there(kept)
    run("encode", kept, source(place, "a", choose.randbytes(700)), status=0)
    begin(place, kept, choose.randbytes(900))
    write_sums(kept)
    shutil.copytree(kept, store)
    words = [Program.path, "remove", store, "a"]
    unlinks = [number for number, kind in enumerate(calls.run(words).kinds, 1) if kind == "unlink"]
    for number in (*unlinks[:4], *unlinks[-14::6]):
        shutil.rmtree(store)
        shutil.copytree(kept, store)
        hold(calls.run(words, number, "kill").status == -9, f"call {number} isn't made")
        hold((store / "SHA256SUMS").read_bytes() == without["SHA256SUMS"], f"call {number}: {(store / 'SHA256SUMS').read_text()}")
        run("remove", store, "a", status=0)
        hold(there(store) == without, f"call {number}: {sorted(there(store))}")


def test_replacement_that_is_killed_while_names_go(place, choose):
    """Once the names go under which a file was to replace another one, SHA256SUMS has the new file's lines and none of these names."""
    calls, kept, store, new = Calls(place, forks=True), place / "kept", place / "store", choose.randbytes(900)
    run("encode", kept, source(place, "a", choose.randbytes(700)), status=0)
    for has_begun in (False, True):
        if has_begun:
            begin(place, kept, new)
            write_sums(kept)
        words = [Program.path, "encode", "--replace", store, source(place, "a", new)]
        shutil.copytree(kept, store)
        kinds = calls.run(words).kinds
        renamed = [number for number, kind in enumerate(kinds) if kind == "rename"][12]
        unlinks = [number for number, kind in enumerate(kinds, 1) if kind == "unlink" and number > renamed][:12]
        for number in unlinks[::2]:
            shutil.rmtree(store)
            shutil.copytree(kept, store)
            hold(calls.run(words, number, "kill").status == -9, f"call {number} isn't made")
            hold(STAGED not in (store / "SHA256SUMS").read_text() and wrong_sums(store) == [], f"call {number}: {wrong_sums(store)}")
            hold(read_back(store, place) == new, f"call {number}: not the new file")
        shutil.rmtree(store)


def test_folders_whose_names_cannot_be_written(place, choose):
    """The name of each folder that is made is written to the disk: where that fails, the file isn't encoded, and that is said. No folder is
    made for a file that can't be read."""
    calls, store, data = Calls(place, forks=True), place / "store", choose.randbytes(900)
    store.mkdir()
    words = [Program.path, "encode", "--make-folders", "--names", "of/disks/{place}/{stripe}", store, source(place, "a", data)]
    kinds, synced = calls.run(words).kinds, set()
    first = kinds.index("open", kinds.index("lock"))
    for number, kind in enumerate(kinds, 1):
        if kind == "sync" and number < kinds.index("link"):
            shutil.rmtree(store)
            store.mkdir()
            ended = calls.run(words, number, EIO)
            hold(ended.status == 3 and ERROR in ended.err and not [*store.rglob("a.file")], f"call {number}: {ended.text()}")
            synced.add(ended.paths[0])
    hold({str(store), f"{store}/of", f"{store}/of/disks"} <= synced, f"synced {synced}")
    tried = 0
    for number in [number for number, kind in enumerate(kinds, 1) if kind == "open" and number > first]:
        shutil.rmtree(store)
        store.mkdir()
        ended = calls.run(words, number, EIO, "path")
        if ended.paths == (str(place / "a"),):
            tried += 1
            hold(ended.status == 3 and f"{place}/a: {ERROR}" in ended.err, f"call {number}: {ended.text()}")
            hold(tried > 1 or [*store.iterdir()] == [], f"call {number}: {[*store.iterdir()]} were made")
    hold(tried > 0, "the file isn't opened")


def test_numbers_that_make_names_too_long(place, choose):
    """Nothing of a file is put into the store if the names of its last fragments alone would be too long there."""
    store, name = place / "store", "n" * 243
    store.mkdir()
    words = ["--code", "12-2-2", "--names", "{stripe}-and-so-on-{shard}", store, source(place, name, choose.randbytes(700))]
    for more in ([], ["--replace"]):
        said = run("encode", *more, *words, status=3)
        hold("File name too long" in said and [*store.iterdir()] == [], f"{said}{sorted(there(store))}")
    run("encode", "--code", "6-2-2", *words[2:], status=0)
    hold(len(there(store)) == 13, f"{sorted(there(store))}")


def test_line_of_files_without_bytes(place, _choose):
    """On a terminal it is said how many files are verified, also of files without bytes."""
    calls, store, record = Calls(place), place / "store", place / "record"
    run("encode", store, *(source(place, name, b"") for name in "abc"), status=0)
    record.write_bytes(bytes(RECORD_SIZE))
    # Each read of a description takes longer than it is from line to line.
    slow = {"LD_PRELOAD": str(calls.file), "FAIL_RECORD": str(record), "FAIL_NUMBER": "220", "FAIL_HOW": "slow"}
    ours, theirs = terminal()
    ended = subprocess.run([Program.path, "verify", store], stdin=subprocess.DEVNULL, stdout=subprocess.PIPE, stderr=theirs, env=slow)
    said = shown(ours, theirs)
    hold([f"verify: {number}/3 files  0.0/0.0 MiB" in said for number in (1, 2, 3)] == [True] * 3, f"{ended.returncode}: {said!r}")
    hold(ended.returncode == 0 and said.endswith(TAKEN), f"{ended.returncode}: {said!r}")


def terminal():
    try:
        return pty.openpty()
    except OSError as error:
        raise Skipped(f"no terminal can be made here: {error}") from None


def shown(ours, theirs):
    """What was written to a terminal, to which nobody writes any more."""
    os.close(theirs)
    said = b""
    # When all of it is read, it can't be read any more.
    with contextlib.suppress(OSError):
        while more := os.read(ours, 65_536):
            said += more
    os.close(ours)
    return said.decode()


def each_failing(place, kept, chosen):
    """Has another file refused beside one in copies of a store, so that what is begun is ended first, while one open or read after another
    fails, and all later ones at its path, from among the calls whose numbers are chosen by the kinds of all. Gives the names of the paths,
    the kind, and the copy, of each run that did so."""
    calls, store = Calls(place, forks=True), place / "store"
    words = [Program.path, "encode", store, source(place, "a", b"another")]
    shutil.copytree(kept, store)
    kinds = calls.run(words).kinds
    for number in chosen(kinds):
        if kinds[number - 1] in ("open", "read"):
            shutil.rmtree(store)
            shutil.copytree(kept, store)
            ended = calls.run(words, number, EIO, "path")
            is_refused = ended.status == 1 and "is there already, with other bytes" in ended.err
            hold(is_refused or ended.status == 3 and ERROR in ended.err, f"call {number}: {ended.text()}")
            # What can't be read may be what refuses the other file.
            if is_refused or not any(STAGED in name for name in there(store)):
                yield [path.removeprefix(f"{store}/") for path in ended.paths], ended.kind, store
    shutil.rmtree(store)


def while_names_are_given(kinds):
    """The calls while a replacement's fragments get their names."""
    renames = [number for number, kind in enumerate(kinds, 1) if kind == "rename"]
    return range(renames[0], renames[9] + 10)


def before_a_file_is_made(kinds):
    """The calls before the first file is made."""
    made = kinds.index("create") + 1
    return range(made - 30, made)


def test_digests_of_what_cannot_be_read(place, choose):
    """A fragment that can't be read when it replaces an old one isn't listed with the digest of that."""
    kept, new, tried = place / "kept", choose.randbytes(2_000), set()
    run("encode", kept, source(place, "a", choose.randbytes(2_000)), status=0)
    begin(place, kept, new)
    for paths, kind, store in each_failing(place, kept, while_names_are_given):
        tried |= {path for path in paths if STAGED in path}
        wrong = wrong_sums(store)
        hold(read_back(store, place) == new and wrong == [], f"{kind} of {paths}: {wrong} are listed as others")
    hold({f"a{STAGED}.{each}" for each in PLACES} <= tried, f"tried {tried}")


def test_lost_descriptions_beside_old_ones_that_cannot_be_read(place, choose):
    """Where a description is lost of what is to replace a file, the old one doesn't stay in its place because it can't be read."""
    new, tried = choose.randbytes(900), set()
    for lost in ("file", "file.copy"):
        kept = place / lost
        run("encode", kept, source(place, "a", choose.randbytes(2_000)), status=0)
        begin(place, kept, new)
        (kept / f"a{STAGED}.{lost}").unlink()
        for paths, kind, store in each_failing(place, kept, before_a_file_is_made):
            tried |= {(path, kind) for path in paths}
            found = {name: data for name, data in there(store).items() if name.startswith("a.file")}
            hold(found == dict.fromkeys(("a.file", "a.file.copy"), description(new).encode()), f"{kind} of {paths}: {found}")
    hold({(f"a.{lost}", kind) for lost in ("file", "file.copy") for kind in ("open", "read")} <= tried, f"tried {tried}")


def test_lost_descriptions_that_cannot_be_made_again(place, choose):
    """Where a description is lost of what is to replace a file, and can't be made again, that is said in the system's words, the file is
    replaced nevertheless, and no description of it says the old one."""
    old, new = choose.randbytes(2_000), choose.randbytes(900)
    for lost, other in (("a.file.copy", "a.file"), ("a.file", "a.file.copy")):
        where = place / lost
        where.mkdir()
        run("encode", where / "kept", source(where, "a", old), status=0)
        begin(where, where / "kept", new)
        (where / "kept" / lost.replace("a.", f"a{STAGED}.", 1)).unlink()
        hold_one_lost(where, new, lost, {other: description(new).encode()})


def hold_one_lost(place, new, lost, right):
    """The same of this one, where the other is right, for each call that fails."""
    calls, store, kept, tried = Calls(place, forks=True), place / "store", place / "kept", set()
    words = [Program.path, "encode", store, source(place, "a", b"another")]
    shutil.copytree(kept, store)
    kinds = calls.run(words).kinds
    # By the second link a fragment gets its name.
    for number, kind in enumerate(kinds[: kinds.index("link", kinds.index("link") + 1)], 1):
        if kind in ("create", "write", "chown", "chmod", "sync", "link", "unlink"):
            shutil.rmtree(store)
            shutil.copytree(kept, store)
            ended = calls.run(words, number, EIO)
            hold(ended.status == 3 and ERROR in ended.err, f"call {number}, {kind}: {ended.text()}")
            found = {name: data for name, data in there(store).items() if name.startswith("a.file")}
            hold(found in (right, right | dict.fromkeys([lost], *right.values())), f"call {number}, {kind}: {found}")
            hold(read_back(store, place) == new and wrong_sums(store) == [], f"call {number}, {kind}: not the new file")
            hold(kind == "unlink" or [*store.glob(".rebuild-store-*")] == [], f"call {number}, {kind}: something is left")
            tried.add(kind)
    hold(len(tried) == 7, f"tried {tried}")
    for number, kind in enumerate(kinds[: kinds.index("create")], 1):
        if kind == "look":
            shutil.rmtree(store)
            shutil.copytree(kept, store)
            ended, found = calls.run(words, number, EIO), there(store)
            # What can't be looked at is met before anything is written, or isn't needed, or is said.
            is_left = ended.status == 3 and ERROR in ended.err and found == there(kept)
            is_said = ended.status == 1 or ended.status == 3 and ERROR in ended.err
            hold(is_left or is_said and [found.get(lost)] == [*right.values()], f"call {number}: {ended.text()}")


def test_replacement_whose_folders_cannot_be_made(place, choose):
    """A file isn't replaced where the folder can't be made in which it is encoded first, or the name of that isn't written to the disk."""
    calls, kept, store, tried = Calls(place, forks=True), place / "kept", place / "store", set()
    run("encode", "--make-folders", "--names", "of/{stripe}/{place}", kept, source(place, "a", choose.randbytes(700)), status=0)
    before = there(kept)
    shutil.copytree(kept, store)
    words = [Program.path, "encode", "--replace", "--names", "of/{stripe}/{place}", store, source(place, "a", choose.randbytes(900))]
    kinds = calls.run(words).kinds
    for number, kind in enumerate(kinds[: kinds.index("create")], 1):
        if kind in ("mkdir", "sync"):
            shutil.rmtree(store)
            shutil.copytree(kept, store)
            ended = calls.run(words, number, EIO)
            hold(ended.status == 3 and ERROR in ended.err and there(store) == before, f"call {number}, {kind}: {ended.text()}")
            hold(not (store / "of" / f"a{STAGED}").exists(), f"call {number}, {kind}: the folder stays")
            tried.add((kind, ended.paths[0]))
    hold({("mkdir", f"{store}/of/a{STAGED}"), ("sync", f"{store}/of")} <= tried, f"tried {tried}")


def test_folder_that_becomes_a_link(place, choose):
    """If a folder in which a file is replaced becomes a link meanwhile, the run fails, takes nothing away where that leads, and says both
    in place of the line that says how far it is."""
    calls, store, away, names = Calls(place, forks=True), place / "store", place / "away", ["--names", "{stripe}/{place}"]
    run("encode", "--make-folders", *names, store, source(place, "a", choose.randbytes(900)), status=0)
    shutil.copytree(store, place / "count")
    source(place, "a", choose.randbytes(2_000))
    words = [Program.path, "encode", "--replace", *names, place / "count", place / "a"]
    kinds = calls.run(words).kinds
    created = [number for number, kind in enumerate(kinds) if kind == "create"][9]
    folder, copy = store / f"a{STAGED}", f"a{STAGED}.file"
    before = there(store)

    def exchange():
        folder.rename(away)
        (away / copy).write_bytes(b"mine")
        folder.symlink_to(away)
        # From line to line it is a fifth of a second at least.
        time.sleep(0.3)

    words[words.index(place / "count")] = store
    ours, theirs = terminal()
    status, _ = while_waiting(calls, place, words, kinds.index("read", created) + 1, exchange, theirs)
    said = shown(ours, theirs)
    stays = {name: data for name, data in there(store).items() if name != "SHA256SUMS"}
    del before["SHA256SUMS"]
    hold(status == 3 and stays == before, f"status {status}: {sorted(stays)}: {said}")
    hold((away / copy).read_bytes() == b"mine", "a file was taken away where the link leads")
    lines = r"(?:rebuild-store: [^\r\n]*a\.rebuild-store-new[^\r\n]*: its folder is a link, and links aren't followed\r\n){2}"
    hold(re.search(f"left\x1b\\[\\?7h\r\n{re.escape(TAKEN)}{lines}(?:encoded 0 files; not encoded: 1\r\n)?$", said), repr(said))


if __name__ == "__main__":
    try_all("store-failing", globals(), *sys.argv[1:3])
