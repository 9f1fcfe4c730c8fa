#!/usr/bin/env python3
"""Tries rebuild-store on stores whose links are followed, or whose folders are links: to what other names lead to, in a circle, to nothing;
and beside descriptions of which one is wrong.

    store-links.py [PROGRAM [TEST]]

It runs what was built last, or PROGRAM, and of the tests those whose names have TEST in them."""

import os
import shutil
import sys

# No compiled copy of the modules is left beside them.
sys.dont_write_bytecode = True
from stores import description, digest, hold, lay, run, source, there, try_all, write_sums  # noqa: E402

DISKS = ["--names", "disk{shard}/{stripe}", "--code", "6-2-2"]
FOLDERS = ["--names", "{stripe}/{place}", "--code", "6-2-2"]
LEFTOVER = ".rebuild-store-0123456789abcdef"
SHARED = "another name leads there too"
CIRCLE = os.strerror(40)


def link(path, end):
    """Makes a link in place of what is at a path."""
    path.unlink(missing_ok=True)
    path.symlink_to(end)


def hold_left(store, names, *words, is_known=True):
    """A repair, and its dry run before it if damage is known without reading, leave what these names lead to, say so, and change nothing
    else."""
    before = there(store.parent)
    for more in ([["--dry-run"]] if is_known else []) + [[]]:
        said = run("repair", "--follow-links", "--replace-damaged", *more, *words, store, status=3)
        for name in names:
            hold(f"{name}: can't be put in its place: {SHARED}\n" in said, f"{name} isn't said: {said}")
        hold("would be rebuilt" not in said and there(store.parent) == before, f"something is made: {said}")


def test_link_to_another_fragment(place, choose):
    """A fragment that leads to one of another stripe, or of its own, isn't replaced there, also if the link leads to it through a folder
    that is one, or by others."""
    for number, (name, end) in enumerate((("b.x1", "a.x0"), ("b.x1", "b.y2"), ("b.x1", "../alias/a.x0"), ("b.x1", "../hop"))):
        store = place / str(number) / "store"
        files = lay(store, choose, ("a", "b"))
        (store.parent / "alias").symlink_to(store)
        (store.parent / "hop").symlink_to("alias/a.p1")
        link(store / name, end)
        said = run("scrub", "--follow-links", store, status=1)
        hold(f"{name}: is damaged: only without it the others belong together\n" in said, said)
        hold_left(store, [name], is_known=False)
        write_sums(store, (name, digest(files[name])))
        hold_left(store, [name])
        (store / "SHA256SUMS").unlink()
        hold(there(store) == {other: data for other, data in files.items() if other != name}, f"{sorted(there(store))}")
        # The link is at fault, and without it the fragment is made.
        (store / name).unlink()
        run("repair", "--follow-links", store, status=0)
        hold(there(store) == files, f"{sorted(there(store))}")


def test_link_to_what_is_no_fragment(place, choose):
    """Nor is a description, or the digests, or what is kept of another fragment."""
    for number, end in enumerate(("a.file", "SHA256SUMS", "a.x0.damaged")):
        store = place / str(number) / "store"
        store.parent.mkdir()
        run("encode", store, source(place, "a", choose.randbytes(600)), status=0)
        (store / "a.x0.damaged").write_bytes(bytes(100))
        link(store / "a.x1", end)
        hold_left(store, ["a.x1"])


def test_links_to_one_file(place, choose):
    """What two links lead to is neither replaced nor made, also if one of them is of a stripe that another part works on, or of a
    description; and what a link alone leads to is."""
    for number, (name, other) in enumerate((("a.x1", "b.y0"), ("a.x1", "a.y0"), ("a.x1", "b.file"))):
        for data in (bytes(90), None):
            store = place / f"{number}{data is None}" / "store"
            store.parent.mkdir()
            for file in ("a", "b"):
                run("encode", "--as", file, store, source(place, file, choose.randbytes(600)), status=0)
            parts = {f"{int(digest(file.encode())[:16], 16) % 2 + 1}/2" for file in (name[0], other[0])}
            if data:
                (store.parent / "end").write_bytes(data)
            for path in (store / name, store / other):
                link(path, store.parent / "end")
            hold_left(store, [name, other])
            for part in ("1/2", "2/2"):
                before = there(store.parent)
                said = run("repair", "--follow-links", "--replace-damaged", "--part", part, store, status=3 if part in parts else 0)
                hold(there(store.parent) == before, f"part {part} makes something: {said}")
            (store / other).unlink()
            run("repair", "--follow-links", "--replace-damaged", store, status=0)
            hold((store / name).is_symlink() and run("verify", "--follow-links", store, status=0), "the link is replaced")


def test_folders_of_two_names(place, choose):
    """Two folders of disks that are one: nothing is made in it, as each fragment would be written over by another; and what a killed run
    has left there is named once."""
    store = place / "store"
    run("encode", "--make-folders", *DISKS, store, source(place, "a", choose.randbytes(600)), status=0)
    for number in (2, 3):
        shutil.rmtree(store / f"disk{number}")
        (store / f"disk{number}").symlink_to(place / "both")
    (place / "both").mkdir()
    hold_left(store, ["disk2/a", "disk3/a"], *DISKS)
    (place / "both" / LEFTOVER).write_bytes(b"half")
    said = run("repair", "--follow-links", *DISKS, store, status=3)
    hold(said.count(LEFTOVER) == 1 and "was left by a run that was killed, and is removed" in said, said)
    hold(not [*(place / "both").iterdir()], f"{sorted(there(place))}")


def test_link_to_nothing_in_place_of_a_folder(place, choose):
    """If the folder of a stripe is a link to nothing, that is said, whatever the stripe's name is; of another link it isn't."""
    for name in ("a", "note"):
        store = place / name
        for file in (name, "other"):
            run("encode", "--make-folders", *FOLDERS, "--as", file, store, source(place, "data", choose.randbytes(600)), status=0)
        shutil.rmtree(store / name)
        for path in (store / name, store / "strange"):
            path.symlink_to("nothing")
        said = run("scrub", "--follow-links", *FOLDERS, store, status=1)
        line = f"rebuild-store: {store}/{name}: {os.strerror(2)}: what should be in it counts as lost\n"
        hold(line in said and "strange" not in said, said)


def test_wrong_description_decides_nothing(place, choose):
    """The code of a store is what most descriptions say, or those that have their digests."""
    for pattern, has_sums in (("{place}/{stripe}", False), ("{place}/{stripe}", True), ("{stripe}.{place}", True)):
        for code, other in (("12-2-2", "6-2-2"), ("6-2-2", "12-2-2")):
            store, data = place / f"{pattern[0:3]}-{has_sums}-{code}", choose.randbytes(700)
            names = ["--names", pattern]
            run("encode", "--make-folders", *names, "--code", code, store, source(place, "a", data), status=0)
            first = store / ("x0/a.file" if "/" in pattern else "a.file")
            first.write_text(description(data, other))
            if not has_sums:
                (store / "SHA256SUMS").unlink()
            for words in ([], ["--code", code]):
                said = run("scrub", *names, *words, store, status=1)
                lines = [line for line in said.splitlines() if not line.startswith("scrubbed")]
                hold(len(lines) == 1 and lines[0].startswith(f"{first.relative_to(store)}: "), f"{code} {words}: {said}")
            run("repair", "--replace-damaged", *names, store, status=0)
            hold(first.read_text() == description(data, code), "it isn't replaced")


def test_rights_of_what_links_lead_to(place, choose):
    """What is made beside links gets the rights of what these lead to, as links themselves give all rights to everybody."""
    store, elsewhere = place / "store", place / "elsewhere"
    elsewhere.mkdir()
    run("encode", "--make-folders", *DISKS, store, source(place, "a", choose.randbytes(600)), status=0)
    for number in range(10):
        for name in ("a", "a.file"):
            path, end = store / f"disk{number}" / name, elsewhere / f"{name}{number}"
            path.rename(end)
            end.chmod(0o640)
            path.symlink_to(end)
    for name in ("a", "a.file"):
        for made in (store / "disk3" / name, elsewhere / f"{name}4"):
            made.unlink()
        run("repair", "--follow-links", *DISKS, store, status=0)
        for made in (store / "disk3" / name, elsewhere / f"{name}4"):
            hold(made.lstat().st_mode & 0o7777 == 0o640, f"{made} has the rights {made.lstat().st_mode:o}")
        hold((store / "disk4" / name).is_symlink(), f"disk4/{name} is no link any more")


def test_links_in_a_circle(place, choose):
    """Links that lead to each other are said, and followed without an end by nobody."""
    for names, folder in ((["--code", "6-2-2"], None), (DISKS, "disk3"), (FOLDERS, "a")):
        store = place / f"store-{folder}"
        run("encode", "--make-folders", *names, store, source(place, "a", choose.randbytes(700)), status=0)
        first, second = (store / folder, store / "back") if folder else (store / "a.x1", store / "a.y1")
        for path in (first, second):
            shutil.rmtree(path, ignore_errors=True)
            path.unlink(missing_ok=True)
        first.symlink_to(second)
        second.symlink_to(first)
        before = there(store)
        for command in (["scrub"], ["lost"], ["repair"], ["repair", "--replace-damaged"], ["repair", "--dry-run"]):
            said = run(*command, "--follow-links", *names, store, status=3)
            line = f"a.x1: can't be looked at: {CIRCLE}\n"
            if folder:
                line = f"rebuild-store: {first}: {CIRCLE}: what should be in it counts as lost\n"
            hold(line in said and there(store) == before, f"{command}: {said}")


if __name__ == "__main__":
    try_all("store-links", globals(), *sys.argv[1:3])
