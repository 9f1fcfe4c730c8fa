#!/usr/bin/env python3
"""Tries what the commands over files choose by: the code of a file that nothing describes, the cause that is said of several, what is the
store's and what somebody else's, and what is done first where a run may be killed.

    store-file-choices.py [PROGRAM [TEST]]

Each expected byte, name and status is worked out here by the manual pages."""

import errno
import os
import shutil
import signal
import stat
import subprocess
import sys

# No compiled copy of the modules is left beside them.
sys.dont_write_bytecode = True
from faults import Calls  # noqa: E402
from stores import STAGED, Program, begin, description, digest, hold, lay_files, run, source, there, try_all, write_sums  # noqa: E402

PLACES = ("x0", "x1", "x2", "y0", "y1", "y2", "px", "py", "p0", "p1")
DISKS = ("--names", "disk{shard}/{stripe}")
NARROW, WIDE = ("--code", "6-2-2"), ("--code", "12-2-2")
EIO, ERROR, LOOP = errno.EIO, os.strerror(errno.EIO), os.strerror(errno.ELOOP)
NO_STORE = "no file is named as a fragment"


def make_loop(path):
    """A link in a circle, which the system refuses to follow."""
    path.unlink(missing_ok=True)
    path.symlink_to(path.name)


def damage(path):
    """Changes a byte of a file."""
    data = path.read_bytes()
    path.write_bytes(bytes([data[0] ^ 1]) + data[1:])


def listed(store):
    """What SHA256SUMS names."""
    return [line[66:] for line in (store / "SHA256SUMS").read_text().splitlines()]


def test_store_of_what_is_left_alone(place, _choose):
    """What a name has of a file, or of what was to replace it, is taken out of a folder that has nothing else of a store; what is no file
    is named and stays."""
    for number, name in enumerate(("a.file", "a.file.copy", f"a{STAGED}.file", f"a{STAGED}.file.copy", f"a{STAGED}.p1", "a.x0")):
        store = place / f"store-{number}"
        lay_files(store, {name: description(b"gone").encode(), "notes": b"mine"})
        run("remove", store, "a", status=0)
        hold(there(store) == {"notes": b"mine"}, f"{name}: {sorted(there(store))}")
        hold(NO_STORE in run("remove", store, "a", status=1), "a folder without stripes is taken for a store")
    for number, name in enumerate(("a.x0", "a.p1", f"a{STAGED}.y1", "a.file", f"a{STAGED}.file.copy")):
        store = place / f"odd-{number}"
        (store / name).mkdir(parents=True)
        said = run("remove", store, "a", status=1)
        hold(f"{name}: is no regular file, and isn't removed\n" in said and (store / name).is_dir(), f"{name}: {said}")
    names = ("--names", "{stripe}/{place}")
    for number, name in enumerate(("a", f"a{STAGED}")):
        store = place / f"folder-{number}"
        (store / name).mkdir(parents=True)
        said = run("remove", *names, store, "a", status=1)
        hold(f"a: is no file of the store {store}\n" in said and not (store / name).exists(), f"{name}: {said}")
        hold(NO_STORE in run("remove", *names, store, "a", status=1), "a folder without stripes is taken for a store")


def test_code_by_the_description_that_digests_name(place, choose):
    """Of two descriptions that say two codes the one counts whose digest SHA256SUMS has: a file is taken out by its code, and what has
    names of the other stays."""
    data, mine = choose.randbytes(900), {"a.x5": b"mine", "a.y4": b"mine"}
    for right in ("a.file", "a.file.copy"):
        store = place / right
        run("encode", store, source(place, "a", data), source(place, "b", b"b"), status=0)
        others = {name: some for name, some in there(store).items() if name.startswith("b.")}
        for copy in ("a.file", "a.file.copy"):
            if copy != right:
                (store / copy).write_text(description(data, "12-2-2"))
        lay_files(store, mine)
        run("remove", *NARROW, store, "a", status=0)
        left = {name: some for name, some in there(store).items() if name != "SHA256SUMS"}
        hold(left == others | mine, f"{right}: {sorted(left)}")


def test_code_by_names(place, choose):
    """A file without a description is of the (12,2,2) code if three names are there that this code alone gives it, also those of copies of
    its description, or if SHA256SUMS has one; two names are somebody else's."""
    run("encode", first := place / "first", source(place, "b", b"b"), status=0)
    others, number = there(first), 0
    for count, more, is_wide in ((2, (), False), (3, (), True), (0, ("a.y5",), True), (1, ("a.x3",), True)):
        for stripe in ("a", f"a{STAGED}"):
            store, number = place / f"store-{number}", number + 1
            names = [f"{stripe}.{each}" for each in ("x4", "y3", "y4")[:count]]
            files = {f"{stripe}.x0": b"own", **dict.fromkeys(names, b"wide")}
            lay_files(store, others | files)
            with open(store / "SHA256SUMS", "a") as sums:
                sums.write("".join(f"{digest(b'wide')}  {name.replace('a.', f'{stripe}.', 1)}\n" for name in more))
            run("remove", store, "a", status=0)
            left = set(there(store)) - set(others)
            hold(left == (set() if is_wide else set(names)), f"{stripe}, {count}, {more}: {sorted(left)}")
            hold(not [name for name in listed(store) if name.startswith("a")], f"{stripe}: {listed(store)}")
    # Copies of descriptions that say nothing, on disks that a file of the other code hasn't.
    for count, is_listed, is_wide in ((2, False, False), (3, False, True), (1, True, True)):
        store, number = place / f"store-{number}", number + 1
        copies = [f"disk{disk}/a.file" for disk in (10, 13, 15)[:count]]
        run("encode", "--make-folders", *DISKS, *NARROW, store, source(place, "b", b"b"), status=0)
        before = set(there(store))
        lay_files(store, dict.fromkeys(copies, b"odd\n") | {"disk2/a": b"own"})
        if is_listed:
            with open(store / "SHA256SUMS", "a") as sums:
                sums.write(f"{digest(b'odd')}  disk12/a.file\n")
        run("remove", *DISKS, *NARROW, store, "a", status=0)
        left = set(there(store)) - before
        hold(left == (set() if is_wide else set(copies)), f"{count}, {is_listed}: {sorted(left)}")


def test_code_of_a_description_that_cannot_be_read(place, choose):
    """Where names show the (12,2,2) code, and a description can't be read that may say the other, nothing is taken out or replaced."""
    for copy in ("a.file", "a.file.copy", f"a{STAGED}.file"):
        store, stripe = place / copy, copy.partition(".file")[0]
        run("encode", store, source(place, "b", b"b"), status=0)
        lay_files(store, {f"{stripe}.{each}": b"wide" for each in ("x3", "y3", "y4", "x0")})
        make_loop(store / copy)
        before = there(store)
        for words in (("remove", "--follow-links", store, "a"), ("remove", "--follow-links", *NARROW, store, "a")):
            said = run(*words, status=3)
            hold(f"{store}/{copy}: {LOOP}\n" in said and there(store) == before and (store / copy).is_symlink(), f"{copy}: {said}")


def wide_file(place, choose, *names):
    """A store with a file of the (12,2,2) code."""
    store = place / "wide"
    run("encode", "--make-folders", *names, *WIDE, store, source(place, "a", choose.randbytes(2_000)), status=0)
    return store


def undescribed(place, choose):
    """A store of disks with a file of the (12,2,2) code that nothing describes, beside which is what is no description."""
    store = wide_file(place, choose, *DISKS)
    for number in range(16):
        (store / f"disk{number}/a.file").unlink()
    for number in (12, 15):
        (store / f"disk{number}/a.file").write_bytes(b"odd\n")
    return store


def test_wide_file_that_is_replaced(place, choose):
    """A file of the (12,2,2) code that is replaced by one of (6,2,2) leaves neither fragments nor descriptions on the disks that this code
    hasn't, and no lines of them, wherever a run is killed that is made again."""
    kept, new, calls, store = undescribed(place, choose), choose.randbytes(1_500), Calls(place, forks=True), place / "store"
    right, path = place / "right", source(place, "a", new)
    run("encode", "--make-folders", *DISKS, *NARROW, right, path, status=0)
    words = [Program.path, "encode", "--replace", *DISKS, *NARROW, store, path]
    shutil.copytree(kept, store)
    ended = calls.run(words)
    hold(ended.status == 0 and there(store) == there(right), f"{ended.text()}: {sorted(set(there(store)) ^ set(there(right)))}")
    changing = [number for number, kind in enumerate(ended.kinds, 1) if kind in ("link", "rename", "unlink")]
    for number in changing[18::3]:
        shutil.rmtree(store)
        shutil.copytree(kept, store)
        hold(calls.run(words, number, "kill").status == -signal.SIGKILL, f"call {number} isn't made")
        run(*words[1:], status=0)
        hold(there(store) == there(right), f"call {number}: {sorted(set(there(store)) ^ set(there(right)))}")
        hold(listed(store) == listed(right), f"call {number}: {sorted(set(listed(store)) ^ set(listed(right)))}")


def test_wide_file_that_is_not_replaced(place, choose):
    """If what has the name of a fragment or a description of the old file is no file, on a disk that the new one hasn't, nothing is
    begun."""
    for name in ("disk12/a", "disk15/a.file"):
        store, path = undescribed(place, choose), source(place, "a", choose.randbytes(1_500))
        (store / name).unlink()
        (store / name).mkdir()
        before = there(store)
        said = run("encode", "--replace", *DISKS, *NARROW, store, path, status=1)
        hold(f"{name}: is no regular file, and isn't replaced\n" in said and there(store) == before, f"{name}: {said}")
        shutil.rmtree(store)


def test_status_of_two_faults(place, choose):
    """Where one thing can't be taken out since the disk fails, and another since it is no file, both are said, and the status is that of
    the disk, whichever comes first."""
    calls, kept, store, odd = Calls(place, forks=True), place / "kept", place / "store", f"a{STAGED}.y1"
    run("encode", kept, source(place, "a", choose.randbytes(700)), status=0)
    begin(place, kept, choose.randbytes(900))
    (kept / odd).unlink()
    (kept / odd).mkdir()
    words, tried = [Program.path, "remove", store, "a"], set()
    shutil.copytree(kept, store)
    kinds = calls.run(words).kinds
    for number in [number for number, kind in enumerate(kinds, 1) if kind == "unlink"][3::3]:
        shutil.rmtree(store)
        shutil.copytree(kept, store)
        ended = calls.run(words, number, EIO, "path")
        name = os.path.basename(ended.paths[0])
        if name.partition(".file")[1]:
            continue
        tried.add(STAGED in name)
        is_said = f"{store}/{name}: {ERROR}\n" in ended.err
        hold(ended.status == 3 and is_said, f"{name}: {ended.text()}")
        hold(STAGED in name or f"{odd}: is no regular file, and isn't removed\n" in ended.err, f"{name}: {ended.text()}")
    hold(False in tried, f"tried {tried}")


def test_gravest_of_descriptions(place, choose):
    """If no description of a file can be read, the status is that of the gravest cause, whichever copy has it; each is said once."""
    store = place / "store"
    run("encode", store, source(place, "a", choose.randbytes(700)), status=0)
    causes = {"odd": (b"minutes of a meeting\n", "isn't a line with a length, a digest and a code"), "folder": (None, "is no regular file"),
              "loop": (None, LOOP)}
    copies = ("a.file", "a.file.copy")

    def make(copy, cause):
        path = store / copy
        if path.is_dir() and not path.is_symlink():
            path.rmdir()
        path.unlink(missing_ok=True)
        if cause == "odd":
            path.write_bytes(causes[cause][0])
        elif cause == "folder":
            path.mkdir()
        else:
            make_loop(path)

    for one in causes:
        for other in causes:
            make(copies[0], one)
            make(copies[1], other)
            status = 1 if one == other == "odd" else 3
            for command in ("read", "verify"):
                said = run(command, "--follow-links", store, "a", status=status)
                for copy, cause in zip(copies, (one, other)):
                    hold(said.count(f"rebuild-store: {store}/{copy}: {causes[cause][1]}\n") == 1, f"{command}, {one}, {other}: {said}")
    for copy in copies:
        make(copy, "odd")


def test_link_named_as_an_old_description(place, choose):
    """A link in the store's own folder under the name that earlier builds gave a description is none that a file of the store has, also
    where links are followed: it stays where the file is replaced or taken out, and so does what it leads to."""
    store, behind, names = place / "store", place / "behind", (*DISKS, *NARROW)
    data = choose.randbytes(700)
    run("encode", "--make-folders", *names, store, source(place, "a", data), status=0)
    behind.write_text(description(data))
    (store / "a.file").symlink_to(behind)
    links = ("--follow-links",)
    run("encode", *links, *names, store, place / "a", status=0)
    run("encode", "--replace", *links, *names, store, source(place, "a", choose.randbytes(800)), status=0)
    hold((store / "a.file").is_symlink() and behind.read_text() == description(data), "the link was replaced")
    run("remove", *links, *names, store, "a", status=0)
    hold((store / "a.file").is_symlink() and behind.read_text() == description(data), "the link is gone")
    left = [path for path in store.glob("disk*/a*")]
    hold(not left, f"left {left}")


def test_fragments_without_lines(place, choose):
    """A fragment that SHA256SUMS doesn't name isn't left out for that where others differ from theirs."""
    store, out, data = place / "store", place / "out", choose.randbytes(900)
    run("encode", store, source(place, "a", data), status=0)
    lines = (store / "SHA256SUMS").read_text().splitlines(True)
    for wrong in (("x1",), ("x0", "y1"), ("x0", "x1", "y0"), ("x2", "px", "p0")):
        lay_files(store, {})
        whole = {name: (store / name).read_bytes() for name in (f"a.{each}" for each in wrong)}
        (store / "SHA256SUMS").write_text("".join(line for line in lines if line[66:].strip() in whole))
        for name in whole:
            damage(store / name)
        out.unlink(missing_ok=True)
        said = run("read", store, "a", "-o", out, status=0)
        # A parity alone isn't read.
        line = "rebuild-store: a: read without the fragments that differ from SHA256SUMS\n"
        hold((said, out.read_bytes()) == (line, data), f"{wrong}: {said}")
        lay_files(store, whole)


def test_encode_beside_folders_of_the_wider_code(place, choose):
    """A file isn't encoded into a store of the other code also where only folders show that which this code hasn't; what killed runs have
    left in these goes."""
    names, leftover = ("--names", "{place}/{stripe}"), ".rebuild-store-0123456789abcdef"
    store = wide_file(place, choose, *names)
    before = there(store)
    (store / "y4" / leftover).write_bytes(b"half")
    for path in (source(place, "new", choose.randbytes(700)), place / "a"):
        said = run("encode", *names, *NARROW, store, path, status=1)
        hold(f"{store}: has fragments of the code 12-2-2: give --code 12-2-2, or another folder\n" in said, said)
        hold(there(store) == before, f"{sorted(set(there(store)) ^ set(before))}: {said}")


def test_begun_that_has_a_name_at_a_place_of_one_code(place, choose):
    """What has a name of the old file already stays if a fragment at a place that the (12,2,2) code alone has isn't the old one's, though
    the old file can be read; with the old one's bytes it goes."""
    data = choose.randbytes(2_000)
    for number, each in enumerate(("x3", "y5")):
        for stays in (True, False):
            store = place / f"store-{number}-{stays}"
            run("encode", *WIDE, store, source(place, "a", data), status=0)
            files = there(store)
            os.link(store / "a.x0", store / f"a{STAGED}.x0")
            (store / f"a{STAGED}.{each}").write_bytes(files[f"a.{each}"][::-1 if stays else 1])
            before = there(store)
            said = run("encode", *WIDE, store, place / "a", status=1 if stays else 0)
            hold(("too little of it is there to replace a file" in said) == stays, f"{each}: {said}")
            hold(there(store) == (before if stays else files), f"{each}: {sorted(there(store))}")


def test_rights_of_what_cannot_be_looked_at(place, choose):
    """A description that is made where no copy is left is its user's alone if a file of the stripe can't be looked at, which may be more
    private than the others."""
    store, copies = place / "store", ("a.file", "a.file.copy")
    run("encode", store, source(place, "a", choose.randbytes(700)), status=0)
    for each in PLACES:
        (store / f"a.{each}").chmod(0o644)
    for each in ("x1", "p1"):
        kept = (store / f"a.{each}").read_bytes()
        for copy in copies:
            (store / copy).unlink(missing_ok=True)
        make_loop(store / f"a.{each}")
        said = run("repair", "--follow-links", store, status=3)
        modes = [stat.S_IMODE((store / copy).stat().st_mode) for copy in copies]
        hold(f"{LOOP}\n" in said and modes == [0o600, 0o600], f"{each}: {modes}: {said}")
        (store / f"a.{each}").unlink()
        (store / f"a.{each}").write_bytes(kept)
        (store / f"a.{each}").chmod(0o644)


def test_rights_of_a_copy_that_cannot_be_looked_at(place, choose):
    """A lost description of what is to replace a file isn't made with the rights of some copies if others can't be looked at, which may be
    more private."""
    kept, store, calls, new = place / "kept", place / "store", Calls(place, forks=True), choose.randbytes(900)
    run("encode", "--make-folders", *DISKS, *NARROW, kept, source(place, "a", choose.randbytes(800)), status=0)
    begin(place, kept, new, *DISKS, *NARROW)
    private, tried = f"disk7/a{STAGED}.file", 0
    for path in kept.rglob(f"a{STAGED}.file"):
        path.chmod(0o644)
    (kept / private).chmod(0o600)
    (kept / f"disk3/a{STAGED}.file").unlink()
    words = [Program.path, "encode", *DISKS, *NARROW, store, source(place, "a", b"another")]
    shutil.copytree(kept, store)
    kinds = calls.run(words).kinds
    hold(stat.S_IMODE((store / "disk3/a.file").stat().st_mode) == 0o600, "it is made with more rights than a copy has")
    for number, kind in enumerate(kinds[: kinds.index("create")], 1):
        if kind == "look":
            shutil.rmtree(store)
            shutil.copytree(kept, store)
            ended = calls.run(words, number, EIO)
            if ended.paths[0] == str(store / private):
                tried += 1
                copy = next(path for path in (store / f"disk3/a{STAGED}.file", store / "disk3/a.file") if path.exists())
                is_made = copy.read_text() == description(new)
                hold(not is_made or stat.S_IMODE(copy.stat().st_mode) == 0o600, f"call {number}: {ended.text()}")
    hold(tried > 0, "it isn't looked at")


def test_all_that_cannot_be_looked_at_are_said(place, choose):
    """Where so few fragments of what is to replace a file are there that it isn't the file, each is said that can't be looked at."""
    store, names, old = place / "store", (*DISKS, "--follow-links"), choose.randbytes(800)
    run("encode", "--make-folders", *DISKS, *NARROW, store, source(place, "a", old), status=0)
    begin(place, store, choose.randbytes(700), *DISKS, *NARROW)
    for number in (0, 1, 2, 6, 9):
        (store / f"disk{number}/a{STAGED}").unlink()
    for number in (3, 4, 8):
        make_loop(store / f"disk{number}/a{STAGED}")
    for command in ("read", "verify"):
        more = ["-o", place / "out"] if command == "read" else []
        said = run(command, *names, store, "a", *more, status=0)
        for number in (3, 4, 8):
            line = f"rebuild-store: {store}/disk{number}/a{STAGED}: {LOOP}\n"
            hold(said.count(line) == 1, f"{command}, disk{number}: {said}")
    hold((place / "out").read_bytes() == old, "another file is read")


def test_unread_fragments_of_what_was_begun_are_said(place, choose):
    """A fragment of what was begun that can't be opened or read while it is ended is said to be left out, once."""
    kept, store, calls, tried = place / "kept", place / "store", Calls(place, forks=True), set()
    run("encode", kept, source(place, "a", choose.randbytes(800)), status=0)
    begin(place, kept, choose.randbytes(900))
    words, name = [Program.path, "encode", store, source(place, "a", b"another")], f"a{STAGED}.x1"
    shutil.copytree(kept, store)
    kinds = calls.run(words).kinds
    for number, kind in enumerate(kinds[: kinds.index("link")], 1):
        if kind in ("open", "read"):
            shutil.rmtree(store)
            shutil.copytree(kept, store)
            ended = calls.run(words, number, EIO)
            if ended.paths[0] == str(store / name):
                tried.add(kind)
                line = f"rebuild-store: {name}: left out: {ERROR}\n"
                hold(ended.status == 1 and ended.err.count(line) == 1, f"call {number}, {kind}: {ended.text()}")
    hold(tried == {"open", "read"}, f"tried {tried}")


def test_reads_of_a_damaged_file(place, choose):
    """What was written to a new file and isn't the file isn't read once more in the same way to see that."""
    calls, store, out = Calls(place, forks=True), place / "store", place / "out"
    run("encode", store, source(place, "a", choose.randbytes(3_000_000)), status=0)

    def reads(*words):
        ended = calls.run([Program.path, *words])
        hold(ended.status == 0, ended.text())
        return ended.kinds.count("read")

    once = reads("verify", store, "a")
    damage(store / "a.x1")
    for has_sums in (True, False):
        if not has_sums:
            (store / "SHA256SUMS").unlink()
        found = reads("verify", store, "a")
        # The right one is read once more as it is written.
        written = reads("read", store, "a", "-o", out)
        hold(found <= written < found + once * 3 // 2, f"{written} reads, where {found} find the fragments, and {once} give the file")
        out.unlink()


def test_folders_that_stay(place, choose):
    """If folders of a file can't be taken away, each is said, the others go, and the status is 3; a file that is replaced is so
    nevertheless."""
    names, calls = ("--names", "of/{stripe}/d{place}/f", *NARROW), Calls(place, but=str(place / "none"))
    store, kept, new = place / "store", place / "kept", choose.randbytes(800)
    run("encode", "--make-folders", *names, kept, source(place, "a", choose.randbytes(700)), status=0)
    others = [f"of/a{STAGED}/d{each}" for each in PLACES]
    own, replace = [it.replace(STAGED, "") for it in others], ("encode", "--replace", *names, store, source(place, "a", new))
    for words, folders, said in ((("remove", *names, store, "a"), own, "removed 0 files; not removed: 1"),
                                 (replace, others, "encoded 1 file; not encoded: 0")):
        shutil.rmtree(store, ignore_errors=True)
        shutil.copytree(kept, store)
        kinds = calls.run([Program.path, *words]).kinds
        for rest in ("", "kind"):
            shutil.rmtree(store)
            shutil.copytree(kept, store)
            numbers = [number for number, kind in enumerate(kinds, 1) if kind == "rmdir"]
            for number in numbers:
                ended = calls.run([Program.path, *words], number, EIO, rest)
                if ended.paths == (f"{store}/{folders[0]}",):
                    break
                shutil.rmtree(store)
                shutil.copytree(kept, store)
            hold(ended.paths == (f"{store}/{folders[0]}",) and ended.status == 3 and ended.out == said + "\n", ended.text())
            left = [it for it in folders if (store / it).exists()]
            hold(left == (folders if rest else folders[:1]), f"{words[0]}, {rest}: left {left}")
            for folder in left:
                hold(ended.err.count(f"rebuild-store: {store}/{folder}: {ERROR}\n") == 1, f"{folder}: {ended.text()}")
            if words[0] == "encode":
                hold(run("verify", *names[:2], store, "a", status=0) and listed(store)[0].startswith("of/a/"), f"{listed(store)}")


def test_disks_that_cannot_be_synced(place, choose):
    """Of all disks whose names can't be written to the disk each is said once, and the file isn't encoded."""
    calls, store = Calls(place, forks=True), place / "store"
    words = [Program.path, "encode", "--make-folders", *DISKS, store, source(place, "a", choose.randbytes(700))]
    for code, disks in ((NARROW, 10), (WIDE, 16)):
        shutil.rmtree(store, ignore_errors=True)
        kinds = calls.run([*words, *code]).kinds
        links = [number for number, kind in enumerate(kinds) if kind == "link"]
        shutil.rmtree(store)
        ended = calls.run([*words, *code], kinds.index("sync", links[disks - 1]) + 1, EIO, "kind")
        for number in range(disks):
            hold(ended.err.count(f"rebuild-store: {store}/disk{number}: {ERROR}\n") == 1, f"disk{number}: {ended.text()}")
        hold(ended.status == 3 and not [*store.rglob("a.file")], ended.text())


def test_standard_output_that_is_full(place, choose):
    """If the last line can't be written, that is said, and the status is 3; the work is done. With -q there is no such line."""
    store, path = place / "store", source(place, "a", choose.randbytes(700))
    for words in (("encode", store, path), ("verify", store), ("remove", store, "a")):
        for quiet in ((), ("-q",)):
            with open("/dev/full", "wb") as full:
                ended = subprocess.run([Program.path, *words, *quiet], stdin=subprocess.DEVNULL, stdout=full, stderr=subprocess.PIPE)
            line = f"rebuild-store: standard output: {os.strerror(errno.ENOSPC)}\n"
            hold((ended.returncode, ended.stderr.decode()) == ((0, "") if quiet else (3, line)), f"{words}: {ended}")
            hold((store / "a.file").exists() == (words[0] != "remove"), f"{words}: {sorted(there(store))}")
            if words[0] == "remove" and not quiet:
                run("encode", store, path, status=0)


def test_folder_of_another_file_that_cannot_be_listed(place, choose):
    """A file is encoded or taken out beside the folder of another one that can't be listed: that is said, and the status is 3, since what
    killed runs have left there may stay."""
    names, store = ("--follow-links", "--names", "{stripe}/{place}"), place / "store"
    for name in ("a", "b", "c"):
        run("encode", "--make-folders", *names, store, source(place, name, choose.randbytes(300)), status=0)
    (store / "b").rename(place / "away")
    make_loop(store / "b")
    said = run("remove", *names, store, "a", status=3)
    hold("removed 1 file; not removed: 0\n" in said and f"{store}/b: {LOOP}" in said and not (store / "a").exists(), said)
    said = run("encode", "--make-folders", *names, store, place / "a", status=3)
    line = f"rebuild-store: {store}/b: {LOOP}: what runs that were killed have left there stays\n"
    hold("encoded 1 file; not encoded: 0\n" in said and said.count(line) == 1, said)
    (store / "b").unlink()
    (place / "away").rename(store / "b")
    hold(run("verify", *names, store, status=0) == "verified 3 files; not as described: 0\n", "a file is another one")


if __name__ == "__main__":
    try_all("store-file-choices", globals(), *sys.argv[1:3])
