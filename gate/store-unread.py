#!/usr/bin/env python3
"""Tries rebuild-store where something can't be read: digests, descriptions, fragments and what is to replace a file. It is said, it counts
neither as damage nor as absent, and what doesn't depend on it is done.

    store-unread.py [PROGRAM [TEST]]

It runs what was built last, or PROGRAM, and of the tests those whose names have TEST in them."""

import errno
import os
import shutil
import sys

# No compiled copy of the modules is left beside them.
sys.dont_write_bytecode = True
from faults import Calls  # noqa: E402
from stores import STAGED, Program, begin, description, hold, lay, run, source, there, try_all  # noqa: E402

PLACES = ("x0", "x1", "x2", "y0", "y1", "y2", "px", "py", "p0", "p1")
DISKS = ("--names", "disk{shard}/{stripe}", "--code", "6-2-2")
NAMES = DISKS[:2]
ERROR = os.strerror(errno.EIO)


def damage(path):
    """Changes a byte of a file."""
    data = path.read_bytes()
    path.write_bytes(bytes([data[0] ^ 1]) + data[1:])


def failing(calls, words, path, kinds, rest, output=None):
    """Runs in each of which a call at a path fails, and with `path` all later ones there. Before each nothing is at an output."""
    tried, ended = 0, calls.run(words)
    for number, kind in enumerate(ended.kinds, 1):
        if kind not in kinds:
            continue
        if output:
            output.unlink(missing_ok=True)
        failed = calls.run(words, number, errno.EIO, rest)
        if failed.failed and failed.paths[-1] == str(path):
            tried += 1
            yield failed
    hold(tried, f"{words} makes no call at {path}: {ended.text()}")


def test_unread_digests(place, choose):
    """A file is read and verified without its digests unless these have to say which fragments or which description is right."""
    calls, store, out = Calls(place, forks=True), place / "store", place / "out"
    data, path = choose.randbytes(900), place / "store/SHA256SUMS"
    run("encode", store, source(place, "a", data), status=0)
    damage(store / "a.x1")
    for command in (["read", "--output", out, store, "a"], ["read", store, "a"], ["verify", store, "a"]):
        words = [Program.path, *command]
        for ended in failing(calls, words, path, ("look", "open", "read"), "path", out):
            line = f"rebuild-store: {path}: {ERROR}\n"
            hold((ended.status, ended.err) == (3, line) and not out.exists(), f"{command}: {ended.text()}")
    # A description of another file.
    run("repair", "--replace-damaged", store, status=0)
    (store / "a.x1.damaged").unlink()
    (store / "a.file.copy").write_text(description(b"another"))
    for ended in failing(calls, [Program.path, "read", store, "a"], path, ("look", "open", "read"), "path"):
        hold((ended.status, ended.out) == (3, "") and f"{path}: {ERROR}\n" in ended.err, ended.text())


def test_unread_fragments(place, choose):
    """A fragment that can't be read is left out, and isn't said to be damaged; if the file isn't given without it, that is why."""
    calls, store, out, data = Calls(place, forks=True), place / "store", place / "out", choose.randbytes(900)
    run("encode", store, source(place, "a", data), status=0)
    line = f"rebuild-store: a.x1: left out: {ERROR}\n"
    commands = (["verify", store, "a"], ["read", "--output", out, store, "a"])
    for command in commands:
        words = [Program.path, *command]
        for ended in failing(calls, words, store / "a.x1", ("open", "read"), "path", out):
            hold((ended.status, ended.err) == (0, line), f"{command}: {ended.text()}")
            hold(out not in command or out.read_bytes() == data, "another file is read")
    for other in ("x0", "y0", "y1", "px"):
        (store / f"a.{other}").unlink()
    # Once, and no more: what couldn't be read might have given the file.
    for command in commands:
        for rest in ("", "path"):
            for ended in failing(calls, [Program.path, *command], store / "a.x1", ("open", "read"), rest):
                is_given = ended.status == 0 and "a.x1" not in ended.err
                is_said = ended.status == 3 and f"{store}/a.x1: {ERROR}\n" in ended.err and "damaged" not in ended.err
                hold(is_said or is_given and not rest, f"{command}: {ended.text()}")


def test_first_try_that_stays(place, choose):
    """If a file that was written first and isn't right can't be removed, that is said."""
    calls, store, out = Calls(place, forks=True), place / "store", place / "out"
    run("encode", store, source(place, "a", choose.randbytes(900)), status=0)
    damage(store / "a.x1")
    words = [Program.path, "read", "--output", out, store, "a"]
    ended = calls.run(words)
    for number, kind in enumerate(ended.kinds, 1):
        if kind == "unlink":
            out.unlink()
            failed = calls.run(words, number, errno.EIO)
            hold(failed.status == 3 and f"{out}: {ERROR}\n" in failed.err and not out.exists(), failed.text())
            return
    hold(False, f"nothing is removed: {ended.kinds}")


def begun(place, choose, *names):
    """A store with a file, and all of another one that is to replace it, with what both have."""
    store, old, new = place / "store", choose.randbytes(800), choose.randbytes(700)
    run("encode", "--make-folders", *names, store, source(place, "a", old), status=0)
    begin(place, store, new, *names)
    return store, old, new


def read_both(names, place, status, store):
    """What `read` gives, and what `read` and `verify` say, which is the same of what is left out."""
    out = place / "out"
    out.unlink(missing_ok=True)
    said = run("read", *names, store, "a", "--output", out, status=status)
    verified = run("verify", "--quiet", *names, store, "a", status=status)
    hold(said == verified, f"read says {said}, and verify {verified}")
    return out.read_bytes() if out.exists() else None, said


def test_verify_reads_what_read_reads(place, choose):
    """While one file is to replace another, `verify` holds that to its digest which `read` gives."""
    store, old, new = begun(place, choose)
    hold(read_both((), place, 0, store)[0] == new, "another file is read")
    # Some of its fragments have their names already.
    for each in ("x0", "x1", "y0", "y1", "y2"):
        (store / f"a.{each}").unlink()
        os.link(store / f"a{STAGED}.{each}", store / f"a.{each}")
    hold(read_both((), place, 0, store)[0] == new, "another file is read")
    hold("verified 2 files; not as described: 0\n" == run("verify", store, status=0), "both aren't verified")
    shutil.rmtree(store)
    store, old, new = begun(place, choose)
    for path in store.glob(f"a{STAGED}.file*"):
        path.unlink()
    hold(read_both((), place, 0, store)[0] == old, "another file is read")


def test_replacement_of_other_lengths(place, choose):
    """What is to replace a file is the file if fragments enough of its length are there to read it, whatever else has their names."""
    for names in ((), NAMES):
        store, old, new = begun(place, choose, *DISKS[:len(names)])
        kept = there(store)
        pattern = "disk{}/a{}" if names else "a{1}.{2}"
        paths = [store / pattern.format(number, STAGED, each) for number, each in enumerate(PLACES)]
        for count, is_new in ((4, True), (5, False)):
            for path in paths[:count]:
                path.write_bytes(b"short")
            data, said = read_both(names, place, 0, store)
            hold(data == (new if is_new else old), f"{count}, {names}: {said}")
            hold(said.count(": left out: unexpected end of file\n") == (count if is_new else 0), said)
        for path in paths[:5]:
            path.unlink()
            path.mkdir()
        hold(read_both(names, place, 0, store)[0] == old, f"{names}: folders are taken for fragments")
        for name, data in kept.items():
            hold(not (store / name).is_file() or STAGED in name or (store / name).read_bytes() == data, f"{name} is other now")
        shutil.rmtree(store)


def test_unread_replacement(place, choose):
    """If it can't be seen whether what is to replace a file is whole, neither is taken for the file; if too little of it can be there in
    any case, as where one disk alone can't be read, the old one is read."""
    calls = Calls(place, forks=True)
    store, old, new = begun(place, choose)
    # One of three groups is lost, so that each fragment matters.
    for each in ("x0", "x1", "y0", "y1"):
        (store / f"a{STAGED}.{each}").unlink()
    out = place / "out"
    for command in (["read", "--output", out, store, "a"], ["verify", "--quiet", store, "a"]):
        for ended in failing(calls, [Program.path, *command], store / f"a{STAGED}.x2", ("look",), "path", out):
            is_said = ended.err.endswith(f"{store}/a{STAGED}.x2: {ERROR}\n")
            hold(ended.status == 3 and is_said and not out.exists(), f"{command}: {ended.text()}")
    shutil.rmtree(store)
    store, old, new = begun(place, choose, *DISKS)
    for number in range(1, 10):
        (store / f"disk{number}/a{STAGED}.file").unlink()
    path = store / f"disk0/a{STAGED}.file"
    words = [Program.path, "read", *NAMES, store, "a"]
    for ended in failing(calls, words, path, ("look", "open", "read"), "path"):
        hold((ended.status, ended.out) == (3, "") and f"{path}: {ERROR}\n" in ended.err, ended.text())
    for number in range(4, 10):
        (store / f"disk{number}/a{STAGED}").unlink()
    for ended in failing(calls, words, path, ("look", "open", "read"), "path"):
        hold(ended.status == 0 and ended.err == "", ended.text())


def test_description_behind_a_folder_that_is_unread(place, choose):
    """A description isn't believed if it isn't known whether a link leads to it."""
    calls, store = Calls(place, forks=True), place / "store"
    run("encode", "--make-folders", *DISKS, store, source(place, "a", choose.randbytes(900)), status=0)
    words = [Program.path, "list", *DISKS, store]
    *_, ended = failing(calls, words, store / "disk3", ("look",), "path")
    hold(ended.status == 3 and f"rebuild-store: disk3/a.file: can't be read: {ERROR}\n" in ended.err, ended.text())


def test_remade_description_and_unread_fragments(place, choose):
    """A description that the digests alone say is made from the fragments that can be read; which can't be is said."""
    calls, store, data = Calls(place, forks=True), place / "store", choose.randbytes(900)
    run("encode", store, source(place, "a", data), status=0)
    kept = there(store)
    for is_lost in (False, True):
        for path in store.iterdir():
            path.unlink()
        for name, bytes_there in kept.items():
            if not name.startswith("a.file") and not (is_lost and name in ("a.x0", "a.y0", "a.y1", "a.px")):
                (store / name).write_bytes(bytes_there)
        words = [Program.path, "repair", "--dry-run", store]
        for ended in failing(calls, words, store / "a.x1", ("open", "read"), "path"):
            hold(ended.status == 3 and f"a.x1: can't be read: {ERROR}\n" in ended.err, ended.text())
            hold(("a.file: is lost\n" in ended.err) == is_lost, ended.text())


def test_own_description_of_files_in_folders(place, choose):
    """If files have folders of their own, the description in the store's own folder is seen by all commands."""
    names, store, data = ("--names", "{stripe}/{place}"), place / "store", choose.randbytes(900)
    for name in ("a", "b.file"):
        run("encode", "--make-folders", *names, store, source(place, name, data), status=0)
    (store / "SHA256SUMS").unlink()
    for copy in ("a/a.file", "a/a.file.copy"):
        (store / copy).unlink()
    (store / "a.file").write_text(description(data))
    hold(run("verify", *names, store, status=0) == "verified 2 files; not as described: 0\n", "a isn't verified")
    lines = "degraded 900 6-2-2 10/10 a\nwhole 900 6-2-2 10/10 b.file\n2 files; not whole: 1\n"
    hold(run("list", *names, store, status=0) == lines, run("list", *names, store, status=0))
    said = run("scrub", *names, store, status=1)
    hold("a/a.file: is lost\na/a.file.copy: is lost\n" in said and "b" not in said.replace("scrubbed", ""), said)
    run("repair", *names, store, status=0)
    hold((store / "a/a.file.copy").read_text() == description(data), "the copies aren't made")


def test_report_whose_folder_is_unread(place, choose):
    """A report isn't written if it isn't known whether its path leads to a file of the store."""
    calls, store, report = Calls(place, forks=True), place / "store", place / "report"
    run("encode", store, source(place, "a", choose.randbytes(900)), status=0)
    (store / "a.x1").unlink()
    report.symlink_to("store/a.x1")
    for command in ("scrub", "repair"):
        for option in ("--report", "--progress"):
            words = [Program.path, command, option, report, "--workers", "1", store]
            for path in (report, store):
                for rest in ("", "path"):
                    for ended in failing(calls, words, path, ("look", "readlink"), rest):
                        hold(not (store / "a.x1").exists(), f"it is written: {ended.text()}")
                        hold(ended.status in (2, 3), f"{words}: {ended.text()}")
    links = [place / f"link{number}" for number in range(20)]
    for link, end in zip(links, [*links[1:], store / "a.x1"]):
        link.symlink_to(end)
    said = run("repair", "--report", links[0], store, status=3)
    hold(said == f"rebuild-store: {links[0]}: invalid input parameter\n" and not (store / "a.x1").exists(), said)


LOOP = os.strerror(errno.ELOOP)


def make_loop(path):
    """A link to itself, which nobody can read."""
    path.unlink(missing_ok=True)
    path.symlink_to(path.name)


def test_descriptions_that_lead_in_a_circle(place, choose):
    """A description that can't be read is said by each command, and what others say holds; if none can be read, that is why."""
    store, out, data = place / "store", place / "out", choose.randbytes(900)
    run("encode", store, source(place, "a", data), status=0)
    (store / "SHA256SUMS").unlink()
    follow = ("--follow-links", store)
    make_loop(store / "a.file")
    said = run("read", "--output", out, *follow, "a", status=0)
    hold((said, out.read_bytes()) == (f"rebuild-store: {store}/a.file: {LOOP}\n", data), said)
    verified = f"rebuild-store: {store}/a.file: {LOOP}\nverified 1 file; not as described: 0\n"
    hold(run("verify", *follow, "a", status=0) == verified and run("verify", *follow, status=0) == verified, "verify doesn't say it")
    for is_last in (False, True):
        line = f"a.file: can't be read: {LOOP}\n"
        size = "-" if is_last else 900
        said = run("list", *follow, status=3)
        hold(f"rebuild-store: {line}" in said and f"degraded {size} 6-2-2 10/10 a\n" in said, said)
        for command in ("scrub", "repair"):
            said = run(command, *follow, status=3)
            hold(line in said and "a.file.copy: is lost" not in said, said)
        make_loop(store / "a.file.copy")
    for command in ("read", "verify"):
        said = run(command, *follow, "a", status=3)
        hold(said.startswith(f"rebuild-store: {store}/a.file: {LOOP}\nrebuild-store: {store}/a.file.copy: {LOOP}\n"), said)
    words = "is a link, and links aren't followed"
    said = run("read", store, "a", status=3)
    hold(said == f"rebuild-store: {store}/a.file: {words}\nrebuild-store: {store}/a.file.copy: {words}\n", said)
    said = run("scrub", store, status=1)
    hold("a.file: is no regular file\na.file.copy: is no regular file\n" in said, said)


def test_unread_descriptions_of_lost_fragments(place, choose):
    """A file isn't passed over if none of its fragments is left and its descriptions can't be read."""
    for others in ((), ("b",)):
        store = place / f"store{len(others)}"
        for name in ("a", *others):
            run("encode", store, source(place, name, choose.randbytes(900)), status=0)
        (store / "SHA256SUMS").unlink()
        for each in PLACES:
            (store / f"a.{each}").unlink()
        make_loop(store / "a.file")
        make_loop(store / "a.file.copy")
        for command in ("list", "scrub", "repair"):
            said = run(command, "--follow-links", store, status=3)
            hold(f"a.file: can't be read: {LOOP}\n" in said and f"a.file.copy: can't be read: {LOOP}\n" in said, said)
        said = run("verify", "--follow-links", store, status=3)
        hold(f"{store}/a.file.copy: {LOOP}\nverified {len(others)} file" in said, said)


def test_removal_beside_a_description_that_is_unread(place, choose):
    """Where what has the name of a description stays, and can't be read, so that it may describe the file, the lines of SHA256SUMS stay."""
    for unread in ("a.file", "a.file.copy"):
        store = place / unread
        run("encode", store, source(place, "a", choose.randbytes(900)), status=0)
        lines = (store / "SHA256SUMS").read_text()
        make_loop(store / unread)
        said = run("remove", "--follow-links", store, "a", status=1)
        hold(f"{unread}: is no regular file, and isn't removed\n" in said and (store / unread).is_symlink(), said)
        hold((store / "SHA256SUMS").read_text() == lines and len(there(store)) == 11, f"{unread}: {sorted(there(store))}: {said}")


def test_chains_of_links(place, choose):
    """What links lead to one after the other is read as what it is, as far as the system follows them."""
    store, out, data = place / "store", place / "out", choose.randbytes(900)
    run("encode", store, source(place, "a", data), status=0)
    whole = run("list", store, status=0)
    for name in ("a.file", "SHA256SUMS"):
        (store / name).rename(place / f"{name}-19")
        for number in range(18, -1, -1):
            (place / f"{name}-{number}").symlink_to(f"{name}-{number + 1}")
        (store / name).symlink_to(f"../{name}-0")
    hold(run("list", "--follow-links", store, status=0) == whole, "list says something else")
    hold("0 damaged, 0 lost" in run("scrub", "--follow-links", store, status=0), "scrub says something else")
    damage(store / "a.x1")
    (store / "a.file.copy").write_text(description(b"another"))
    said = run("read", "--follow-links", "--output", out, store, "a", status=0)
    hold((said, out.read_bytes()) == ("rebuild-store: a: read without the fragments that differ from SHA256SUMS\n", data), said)
    make_loop(store / "SHA256SUMS")
    out.unlink()
    for words in (["read", "--follow-links", "--output", out, store, "a"], ["list", "--follow-links", store],
                  ["scrub", "--follow-links", store], ["verify", "--follow-links", store]):
        said = run(*words, status=3)
        hold(said == f"rebuild-store: {store}/SHA256SUMS: {LOOP}\n" and not out.exists(), said)
    for words in (["list", store], ["scrub", store]):
        hold(f"{store}/SHA256SUMS: is a link, and links aren't followed\n" in run(*words, status=3), "it isn't said")


def test_list_of_other_lengths(place, choose):
    """Of a file that nothing describes `list` says by the lengths what a scrub finds."""
    cases = [({"x0": 5}, "degraded", 9), ({"x0": 5, "y1": 7}, "degraded", 8), ({"x0": 5, "x1": 5, "y0": 5}, "degraded", 7),
             ({"x0": 700}, "lost", 0), (dict.fromkeys(("x0", "x1", "y0", "y1"), 5), "lost", 0)]
    for number, (lengths, state, count) in enumerate(cases):
        store = place / f"store{number}"
        lay(store, choose)
        for each, length in lengths.items():
            (store / f"s.{each}").write_bytes(choose.randbytes(length))
        said = run("list", store, status=0)
        hold(f"{state} - 6-2-2 {count}/10 s\n" in said, f"{lengths}: {said}")
        said = run("scrub", store, status=1)
        is_known = all(f"s.{each}: has another length than the other fragments of the stripe\n" in said for each in lengths)
        hold(is_known == (state == "degraded") and ("have different lengths" in said) != is_known, f"{lengths}: {said}")


if __name__ == "__main__":
    try_all("store-unread", globals(), *sys.argv[1:3])
