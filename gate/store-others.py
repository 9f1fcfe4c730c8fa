#!/usr/bin/env python3
"""Tries rebuild-store beside what is somebody else's, or is an older file's: files that are named as those of a store are, what links lead
to, descriptions that differ, and what stays in the way.

    store-others.py [PROGRAM [TEST]]

It runs what was built last, or PROGRAM, and of the tests those whose names have TEST in them."""

import errno
import os
import resource
import shutil
import sys
import threading

# No compiled copy of the modules is left beside them.
sys.dont_write_bytecode = True
import refusals  # noqa: E402
from faults import Calls  # noqa: E402
from stores import STAGED, Program, begin, description, digest, hold, lay, lay_files, run, source, there, try_all, write_sums  # noqa: E402

DISKS = ["--names", "disk{shard}/{stripe}", "--code", "6-2-2"]
LEFTOVER = ".rebuild-store-0123456789abcdef"


def make_others(path):
    """What isn't a description and may have the name of one, each made in a turn of its own, and whether it is a file."""
    for bytes_there in (b"", b"minutes of a meeting\n", b"7" * 5_000):
        path.write_bytes(bytes_there)
        yield True
        path.unlink()
    path.mkdir()
    yield False
    path.rmdir()
    os.mkfifo(path)
    yield False
    path.unlink()


def test_file_named_as_an_old_description(place, choose):
    """What is in the own folder of a store of disks under the name that a description had there, and says nothing of a file, is somebody
    else's: it is neither named nor replaced."""
    store, report, other = place / "store", place / "report", place / "store/a.file"
    run("encode", "--make-folders", *DISKS, store, source(place, "a", choose.randbytes(700)), status=0)
    for has_sums in (True, False):
        if not has_sums:
            (store / "SHA256SUMS").unlink()
        for _is_file in make_others(other):
            before, looked = there(store), os.lstat(other)
            for words in (["scrub"], ["repair"], ["repair", "--replace-damaged"], ["repair", "--replace-damaged", "--dry-run"]):
                said = run(*words, *DISKS, "--report", report, store, status=0)
                hold("a.file" not in said and report.read_text() == "stripe,place,outcome,detail\n", f"{words}: {said}")
                hold(there(store) == before and os.lstat(other) == looked, f"{words} has changed {sorted(there(store))}")


def test_old_description_that_digests_name(place, choose):
    """If the digests name it, it is the store's: it is named, and a file is replaced if that is asked for, unless it is longer than a
    description is."""
    store, other, data = place / "store", place / "store/a.file", choose.randbytes(700)
    run("encode", "--make-folders", *DISKS, store, source(place, "a", data), status=0)
    line = description(data).encode()
    with open(store / "SHA256SUMS", "a") as sums:
        sums.write(f"{digest(line)}  a.file\n")
    for is_file in make_others(other):
        why = "isn't a line with a length, a digest and a code" if is_file else "is no regular file"
        hold(f"a.file: {why}\n" in run("scrub", *DISKS, store, status=1), "it isn't named")
        may_be_replaced = is_file and len(other.read_bytes()) <= 93
        before = there(store)
        said = run("repair", "--replace-damaged", *DISKS, store, status=0 if may_be_replaced else 1)
        if not may_be_replaced:
            hold(f"a.file: {why}\n" in said and there(store) == before, said)
            continue
        hold(there(store) == before | {"a.file": line, "a.file.damaged": before["a.file"]}, f"{sorted(there(store))}: {said}")
        (store / "a.file.damaged").unlink()


def test_leftovers_behind_links_of_another_folder(place, choose):
    """What a killed run has left where links of the folder of --to lead is removed by the next one, if links are followed, and only there
    where a fragment or a description may be made."""
    for follows in (True, False):
        store, folder = place / f"store-{follows}", place / f"to-{follows}"
        files = lay(store, choose)
        (store / "s.x1").unlink()
        folder.mkdir()
        behind = {name: place / f"behind-{follows}-{name}" for name in ("s.x1", "s.file", "notes")}
        for name, path in behind.items():
            path.mkdir()
            (path / LEFTOVER).write_bytes(b"half")
            (folder / name).symlink_to(path / "end")
        links = ["--follow-links"] if follows else []
        said = run("repair", *links, "--to", folder, store, status=0 if follows else 1)
        for name, path in behind.items():
            is_removed = follows and name != "notes"
            hold((path / LEFTOVER).exists() != is_removed, f"{name}: {said}")
            line = f"rebuild-store: {path / LEFTOVER}: was left by a run that was killed, and is removed\n"
            hold((line in said) == is_removed, f"{name}: {said}")
        made = {"end": files["s.x1"]} if follows else {}
        hold(there(behind["s.x1"]) == made | ({} if follows else {LEFTOVER: b"half"}), f"{sorted(there(behind['s.x1']))}: {said}")


def test_read_through_a_link_into_the_store(place, choose):
    """A file isn't read through a link to what is in a folder of the store, of whichever kind that is; it is through one to a FIFO that is
    elsewhere."""
    store, link, data = place / "store", place / "link", choose.randbytes(3_000)
    run("encode", store, source(place, "a", data), status=0)
    (store / "folder").mkdir()
    (store / "fifo").symlink_to("pipe")
    os.mkfifo(store / "pipe")
    before = there(store)
    for name in ("fifo", "pipe", "folder", "a.x0", "new"):
        link.symlink_to(store / name)
        said = run("read", "-o", link, store, "a", status=2)
        hold(said == f"rebuild-store: {link}: is in a folder of the store\n" and there(store) == before, said)
        link.unlink()
    os.mkfifo(place / "fifo")
    link.symlink_to("fifo")
    got = []
    reader = threading.Thread(target=lambda: got.append((place / "fifo").read_bytes()))
    reader.start()
    hold(run("read", "-o", link, store, "a", status=0) == "", "it says something")
    reader.join()
    hold(got == [data], "other bytes came")


def test_taken_name_beside_a_file_that_stays(place, choose):
    """A file whose name is taken isn't encoded, and that is said also where what was made of it can't be removed."""
    store, path, calls = place / "store", place / "a", Calls(place, forks=True)
    run("encode", store, source(place, "a", choose.randbytes(700)), status=0)
    for name in ("a.file", "a.file.copy", "SHA256SUMS"):
        (store / name).unlink()
    path.write_bytes(choose.randbytes(700))
    words = [Program.path, "encode", store, path]
    kinds = calls.run(words).kinds
    before = {name: data for name, data in there(store).items() if not name.startswith(".")}
    ended = calls.run(words, kinds.index("unlink") + 1, errno.EIO)
    hold(ended.status == 3, ended.text())
    hold("a.x0: is there already, with other bytes: --replace replaces the file\n" in ended.err, ended.text())
    hold(os.strerror(errno.EIO) in ended.err, ended.text())
    hold({name: data for name, data in there(store).items() if not name.startswith(".")} == before, f"{sorted(there(store))}")
    hold("was left by a run that was killed, and is removed\n" in run("encode", store, path, status=1), "the next run leaves it")
    hold(there(store) == before, f"{sorted(there(store))}")


def test_links_stay_links(place, choose):
    """Where links are followed, a link to a damaged fragment stays one, also if a call fails that looks, or memory is refused."""
    store, behind, calls, library = place / "store", place / "behind", Calls(place, forks=True), refusals.Library(place, forks=True)
    files = lay(store, choose, length=40)
    write_sums(store)
    words = [str(it) for it in (Program.path, "repair", "--replace-damaged", "--follow-links", "--workers", "1", store)]

    def lay_again():
        shutil.rmtree(behind, ignore_errors=True)
        behind.mkdir()
        (behind / "x1").write_bytes(b"damaged")
        (store / "s.x1").unlink(missing_ok=True)
        (store / "s.x1").symlink_to(behind / "x1")

    def hold_link(ended):
        what = {name: data for name, data in there(behind).items() if not name.startswith(".rebuild-store-")}
        hold((store / "s.x1").is_symlink(), f"the link was replaced: {ended.text()}")
        hold(what in ({"x1": b"damaged"}, {"x1": files["s.x1"], "x1.damaged": b"damaged"}, {"x1": b"damaged", "x1.damaged": b"damaged"}),
             f"{what}: {ended.text()}")
        return what

    lay_again()
    whole = calls.run(words)
    hold(whole.status == 0 and len(hold_link(whole)) == 2, whole.text())
    for number, kind in enumerate(whole.kinds, 1):
        if kind == "look":
            lay_again()
            hold_link(calls.run(words, number, errno.EIO))
    lay_again()
    many = library.run(words).allocations
    for number in range(max(1, many - 300), many + 1):
        lay_again()
        hold_link(library.run(words, refusal=refusals.Refusal(allocation=number)))


def test_wrong_description_of_an_empty_file(place, choose):
    """A copy of the description that says an empty file is believed neither against the digests nor without fragments of it."""
    data, empty = choose.randbytes(3_000), description(b"")
    for has_sums in (True, False):
        store, output = place / f"store-{has_sums}", place / f"output-{has_sums}"
        run("encode", store, source(place, "a", data), status=0)
        (store / "a.file").write_text(empty)
        if not has_sums:
            (store / "SHA256SUMS").unlink()
        run("read", "-o", output, store, "a", status=0)
        hold(output.read_bytes() == data, "other bytes are read")
        run("verify", store, "a", status=0)
        # If the file isn't there any more, it isn't an empty one either.
        for name in ("x0", "x1", "x2", "y0", "y1"):
            (store / f"a.{name}").unlink()
        run("read", "-o", output, store, "a", status=1)
        run("verify", store, "a", status=1)
        hold(output.read_bytes() == data, "the output was replaced")


def test_old_empty_file_on_some_disks(place, choose):
    """An older, empty file on three disks isn't read where too few of the newer one's are there."""
    store, old, data = place / "store", place / "old", choose.randbytes(3_000)
    run("encode", "--make-folders", *DISKS, store, source(place, "a", data), status=0)
    run("encode", "--make-folders", *DISKS, old, source(place, "a", b""), status=0)
    for number in (1, 4, 7):
        for name in ("a", "a.file"):
            (store / f"disk{number}/{name}").write_bytes((old / f"disk{number}/{name}").read_bytes())
    output = place / "output"
    run("read", *DISKS[:2], "-o", output, store, "a", status=0)
    hold(output.read_bytes() == data, "other bytes are read")
    for number in (2, 5):
        shutil.rmtree(store / f"disk{number}")
    said = run("read", *DISKS[:2], store, "a", status=1)
    hold("the fragments that are there don't give the file that a.file describes" in said, said)


def test_removal_by_most_descriptions(place, choose):
    """A file goes by the code that the digests, or most copies of its description, say."""
    names, data = ["--names", "disk{shard}/{stripe}"], choose.randbytes(900)
    for has_sums in (True, False):
        store = place / f"store-{has_sums}"
        run("encode", "--make-folders", *names, "--code", "12-2-2", store, source(place, "a", data), status=0)
        run("encode", "--make-folders", *names, "--code", "12-2-2", "--as", "b", store, place / "a", status=0)
        (store / "disk0/a.file").write_text(description(data))
        if not has_sums:
            (store / "SHA256SUMS").unlink()
        run("remove", *names, "--code", "12-2-2", store, "a", status=0)
        hold(not [*store.glob("disk*/a"), *store.glob("disk*/a.file")], f"{sorted(there(store))}")
        hold(len([*store.glob("disk*/b"), *store.glob("disk*/b.file")]) == 32, f"{sorted(there(store))}")


def test_replacement_makes_no_folder_of_a_disk(place, choose):
    """The folder of a disk that is missing isn't made to replace a file, and those of the file are."""
    store, data = place / "store", choose.randbytes(900)
    run("encode", "--make-folders", *DISKS, store, source(place, "a", data), status=0)
    shutil.rmtree(store / "disk3")
    before = there(store)
    said = run("encode", "--replace", *DISKS, store, source(place, "a", choose.randbytes(901)), status=3)
    hold("disk3: isn't there: make this folder, or give --make-folders\n" in said, said)
    hold(not (store / "disk3").exists() and there(store) == before, f"{sorted(there(store))}")
    run("encode", "--replace", "--make-folders", *DISKS, store, place / "a", status=0)
    hold((store / "disk3/a").exists(), f"{sorted(there(store))}")
    names, store = ["--names", "{stripe}/{place}", "--code", "6-2-2"], place / "folders"
    run("encode", "--make-folders", *names, store, source(place, "b", data), status=0)
    run("encode", "--replace", *names, store, source(place, "b", choose.randbytes(700)), status=0)
    hold(sorted(path.name for path in store.iterdir()) == ["SHA256SUMS", "b"], f"{sorted(there(store))}")


def test_unread_file_is_no_other_file(place, choose):
    """What can't be read of a file in the store isn't taken for another file's: it is said, and the file isn't encoded or replaced."""
    first, store, path, calls, tried = place / "first", place / "store", place / "a", Calls(place, forks=True), set()
    old, new = choose.randbytes(700), choose.randbytes(700)
    run("encode", first, source(place, "a", old), status=0)
    for is_described, data, words in ((True, old, []), (False, old, ["--replace"]), (False, new, []), (False, new, ["--replace"])):
        path.write_bytes(data)
        before = {name: data for name, data in there(first).items() if is_described or ".file" not in name}
        command = [Program.path, "encode", *words, store, path]
        shutil.rmtree(store, ignore_errors=True)
        lay_files(store, before)
        kinds = calls.run(command).kinds
        for number in [number for number, kind in enumerate(kinds, 1) if kind == "open"]:
            shutil.rmtree(store)
            lay_files(store, before)
            ended = calls.run(command, number, errno.EIO, "path")
            name = os.path.basename(ended.paths[-1])
            if name in before and name != "SHA256SUMS":
                tried.add(name)
                hold(ended.status == 3 and f"{store}/{name}: {os.strerror(errno.EIO)}\n" in ended.err, ended.text())
                hold(there(store) == before, f"{sorted(there(store))}: {ended.text()}")
    hold(tried == set(there(first)) - {"SHA256SUMS"}, f"{sorted(tried)}")


def test_strangers_of_the_other_code(place, choose):
    """What has a name that the (12,2,2) code alone gives a file isn't a (6,2,2) file's: it stays where that is taken out or replaced, and
    also if nothing describes the file, unless there are three such names."""
    old, new, stranger = choose.randbytes(900), choose.randbytes(800), b"stranger"
    shards = ["--names", "{stripe}.{shard}", "--code", "6-2-2"]
    for names, own in (([], "x5"), (shards, "12")):
        store, strangers = place / f"store-{own}", {f"a.{own}": stranger, f"a{STAGED}.{own}": stranger}
        run("encode", *names, store, source(place, "b", old), status=0)
        others = there(store)
        run("encode", *names, store, source(place, "a", old), status=0)
        begin(place, store, new, *names)
        lay_files(store, strangers)
        run("remove", *names, store, "a", status=0)
        hold(there(store) == others | strangers, f"{own}: {sorted(there(store))}")
        run("remove", *names, store, "a", status=1)
        hold(there(store) == others | strangers, f"{own}: {sorted(there(store))}")
        for name in strangers:
            (store / name).unlink()
    for has_begun in (True, False):
        run("encode", *shards, store, source(place, "a", old), status=0)
        if has_begun:
            begin(place, store, new, *shards)
        lay_files(store, strangers)
        run("encode", "--replace", *shards, store, source(place, "a", new), status=0)
        run("verify", *shards[:2], store, "a", status=0)
        left = {name: data for name, data in there(store).items() if data == stranger}
        hold(left == strangers, f"{sorted(left)}")
        run("remove", *shards, store, "a", status=0)
        run("remove", *shards, store, "a", status=1)
        for name in strangers:
            (store / name).unlink()


def test_all_of_a_file_of_the_other_code(place, choose):
    """In a store of the (6,2,2) code all sixteen fragments of a (12,2,2) file go, also if nothing describes it any more."""
    store, wide, data = place / "store", place / "wide", choose.randbytes(900)
    run("encode", store, source(place, "b", data), status=0)
    before = there(store)
    run("encode", "--code", "12-2-2", wide, source(place, "a", data), status=0)
    (wide / "SHA256SUMS").unlink()
    for is_described in (True, False):
        for ending in ("", STAGED):
            lay_files(store, {name.replace("a.", f"a{ending}.", 1): some for name, some in there(wide).items()})
            run("remove", store, "a", status=0)
            hold(there(store) == before, f"{is_described}, {ending}: {sorted(there(store))}")
        if is_described:
            (wide / "a.file").unlink()
            (wide / "a.file.copy").unlink()


def test_killed_removal_is_ended(place, choose):
    """The same command again takes away what a `remove` has left that was killed, in a store of this file alone too, and ends with 0 if
    that was more than folders."""
    calls = Calls(place, forks=True)
    for number, (pattern, code) in enumerate((("{stripe}.{place}", "6-2-2"), ("{stripe}/{place}", "12-2-2"),
                                              ("{stripe}/d{place}/f", "6-2-2"), ("{place}/{stripe}", "12-2-2"))):
        store, names = place / f"store-{number}", ["--names", pattern, "--code", code]
        run("encode", "--make-folders", *names, store, source(place, "a", choose.randbytes(300)), status=0)
        shutil.copytree(store, whole := place / f"whole-{number}")
        words = [Program.path, "remove", *names, store, "a"]
        kinds = calls.run(words).kinds
        for at, kind in enumerate(kinds, 1):
            if kind in ("rename", "unlink", "rmdir", "sync"):
                shutil.rmtree(store)
                shutil.copytree(whole, store)
                ended = calls.run(words, at, "kill")
                run(*words[1:], status=0 if set(there(store)) - {"SHA256SUMS"} else 1)
                left = [path for path in store.rglob("*") if "a" in path.relative_to(store).parts or path.name.startswith("a.")]
                hold(not left, f"{pattern}: {sorted(left)}: {ended.text()}")


def test_folders_of_other_files(place, choose):
    """The folder of a file isn't the description of another one, and none gets that of the digests."""
    store, names = place / "store", ["--names", "{stripe}/{place}"]
    run("encode", "--make-folders", *names, store, source(place, "a.file", choose.randbytes(300)), status=0)
    run("encode", "--make-folders", *names, store, source(place, "a", choose.randbytes(200)), status=0)
    before = there(store)
    said = run("encode", "--make-folders", *names, store, source(place, "SHA256SUMS", b"digests"), status=1)
    hold("SHA256SUMS: a stripe can't have this name\n" in said and there(store) == before, said)
    hold("SHA256SUMS: is no file of the store" in run("remove", *names, store, "SHA256SUMS", status=1), "it is removed")
    run("encode", *names, store, source(place, "a", choose.randbytes(200)), "--replace", status=0)
    run("remove", *names, store, "a", status=0)
    hold(sorted(path.name for path in store.iterdir()) == ["SHA256SUMS", "a.file"], f"{sorted(there(store))}")


def test_wrong_description_of_a_file_that_would_be_too_long(place, choose):
    """A wrong description doesn't keep a file from being read where what it describes would be longer than files may get, though it is the
    one that is tried first; if the right one says so, nothing is written."""
    store, out, limits = place / "store", place / "out", resource.getrlimit(resource.RLIMIT_FSIZE)
    data = choose.randbytes(897)
    run("encode", store, source(place, "a", data), status=0)
    (store / "SHA256SUMS").unlink()
    # The fragments of both lengths are as long.
    (store / "a.file").write_text(description(data).replace("897 ", "900 ", 1))

    def limited(most):
        # It is the soft limit that counts.
        return lambda: resource.setrlimit(resource.RLIMIT_FSIZE, (most, limits[1]))

    for before in (None, b"older"):
        out.unlink() if out.exists() else None
        out.write_bytes(before) if before else None
        said = run("read", store, "a", "-o", out, status=1, preexec_fn=limited(896))
        line = f"rebuild-store: {out}: would have 897 bytes, and no file may get more than 896 here: ulimit -f\n"
        hold(said == line and (out.read_bytes() == before if before else not out.exists()), said)
        hold(run("read", store, "a", "-o", out, status=0, preexec_fn=limited(898)) == "", "it says something")
        hold(out.read_bytes() == data, "another file is read")


def test_names_like_that_of_the_digests(place, choose):
    """A file whose name begins as that of the digests is one as any other, if none of its fragments has that name or is in a folder of
    it."""
    for number, names in enumerate(((), ("--names", "{stripe}/{place}"), ("--names", "in/{place}/{stripe}"))):
        store = place / f"store-{number}"
        own = () if names == ("--names", "{stripe}/{place}") else ("SHA256SUMS",)
        for name in ("SHA256SUMS.old", "SHA256SUMS2", "SHA256SUM", *own):
            data = choose.randbytes(300)
            run("encode", "--make-folders", *names, store, source(place, name, data), status=0)
            run("read", *names, store, name, "-o", place / "out", status=0)
            hold((place / "out").read_bytes() == data, f"{names}, {name}: another file is read")
            hold(run("remove", *names, store, name, status=0) == "removed 1 file; not removed: 0\n", f"{names}, {name}: it isn't removed")
            hold(there(store) == {"SHA256SUMS": b""}, f"{names}, {name}: {sorted(there(store))}")
    store = place / "of-digests"
    for names in (("--names", "SHA256SUMS/{stripe}.{place}"), ("--names", "{stripe}/d/{place}")):
        said = run("encode", "--make-folders", *names, store, source(place, "SHA256SUMS", b"digests"), status=1)
        hold("SHA256SUMS: a stripe can't have this name\n" in said and not there(store), said)


def test_name_of_what_replaces_a_file(place, choose):
    """No file gets a name of those that replace others, which is said by the name that was given."""
    store, name = place / "store", f"a{STAGED}"
    run("encode", store, source(place, "a", choose.randbytes(300)), status=0)
    before = there(store)
    for given in ("-", place / "a"):
        said = run("encode", "--as", name, store, given, status=1)
        hold(f"rebuild-store: {name}: a stripe can't have this name\n" in said and there(store) == before, said)
    for command in ("read", "verify", "remove"):
        hold(f"{name}: is no file of the store {store}\n" in run(command, store, name, status=1), command)


if __name__ == "__main__":
    try_all("store-others", globals(), *sys.argv[1:3])
