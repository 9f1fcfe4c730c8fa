#!/usr/bin/env python3
"""Tries rebuild-store in states that are rare: what was begun beside what can't be read or looked at, names that no file may have, an old
description that differs, a file that is exchanged for another of the same times, and counters that can't be written for long.

    store-rare.py [PROGRAM [TEST]]

Each expected byte, name and status is worked out here by the manual pages."""

import errno
import hashlib
import os
import shutil
import subprocess
import sys
import time

# No compiled copy of the modules is left beside them.
sys.dont_write_bytecode = True
import refusals  # noqa: E402
from faults import Calls  # noqa: E402
from stores import (  # noqa: E402
    STAGED, Fault, Program, Skipped, begin, description, hold, lay, lay_files, run, source, there, try_all, wait_for, while_waiting,
)

PLACES = ("x0", "x1", "x2", "y0", "y1", "y2", "px", "py", "p0", "p1")
NO_NAME = "a stripe can't have this name"
TOO_LITTLE = "too little of it is there to replace a file"
SECONDS = 300
# Runs a command that sees this table of mounts, and nothing else of what the system says of processes.
WITH_TABLE = ("unshare", "--mount", *(["--user", "--map-root-user"] if os.geteuid() else []), "sh", "-c",
              'mount -t tmpfs tmpfs /proc && mkdir /proc/self && printf %s "$0" > /proc/self/mountinfo || exit 77; exec "$@"')
TABLE = "1 1 0:2 / / rw - rootfs rootfs rw\n21 21 0:21 / {} rw - fuse.sshfs one:/store rw\n"


def all_of(store):
    """The bytes of a store's files, and where its links lead, by their paths."""
    return there(store) | {str(path.relative_to(store)): os.readlink(path) for path in store.rglob("*") if path.is_symlink()}


def test_begun_that_cannot_be_read(place, choose):
    """Of what was begun and has a name of the old file already, nothing goes unless each fragment is known to have the old one's bytes: one
    that can't be read isn't, also where the old one can't be read either. What has no such name goes."""
    data = choose.randbytes(2_000)
    store, file = place / "store", source(place, "a", data)
    for begun, old, stays in (("link", "link", True), ("link", "file", True), ("file", "link", True), ("other", "file", True),
                              ("file", "none", True), ("none", "none", False), ("none", "file", False), ("file", "file", False),
                              ("alone", "none", False), ("alone", "file", False)):
        run("encode", store, file, status=0)
        files = there(store)
        for each in PLACES:
            (store / f"a{STAGED}.{each}").write_bytes(files[f"a.{each}"])
        if begun != "alone":
            (store / f"a{STAGED}.x0").unlink()
            os.link(store / "a.x0", store / f"a{STAGED}.x0")
        for name, what in ((f"a{STAGED}.y1", begun), ("a.y1", old)):
            if what not in ("file", "alone"):
                (store / name).unlink()
            if what == "link":
                (store / name).symlink_to("nothing")
            if what == "other":
                (store / name).write_bytes(files["a.y1"][::-1])
        before = all_of(store)
        said = run("encode", store, file, status=1 if stays else 0)
        hold((TOO_LITTLE in said) == stays, f"{begun}, {old}: {said}")
        hold(all_of(store) == (before if stays else files), f"{begun}, {old}: {sorted(all_of(store))}")
        shutil.rmtree(store)


def test_begun_beside_a_disk_of_the_wider_code(place, choose):
    """Descriptions of what was begun go by the code that they say, also beside a disk that can't be looked at and may have fragments of the
    wider code alone; that is said."""
    names, old, new = ["--names", "{place}/{stripe}", "--code", "6-2-2"], choose.randbytes(1_000), choose.randbytes(1_500)
    store, file = place / "store", source(place, "a", old)
    run("encode", "--make-folders", *names, store, file, status=0)
    files = there(store)
    for each in ("x3", "y5"):
        for disk in ("x0", "y1"):
            (store / disk / f"a{STAGED}.file").write_text(description(new))
        (store / each).symlink_to(each)
        said = run("encode", *names, store, file, status=3)
        (store / each).unlink()
        hold(f"{each}/a: {os.strerror(errno.ELOOP)}\n" in said and all_of(store) == files, f"{each}: {said}{sorted(all_of(store))}")
    run("encode", *names, store, file, status=0)
    hold(all_of(store) == files, f"{sorted(all_of(store))}")


def test_begun_where_the_old_file_cannot_be_looked_at(place, _choose):
    """A description of what was begun stays while the rest of it may be in folders that can't be looked at, also where the little that can
    be gives the old file; once it is seen that the rest can't be there, it goes."""
    names, store, file = ["--names", "{place}/{stripe}/f", "--code", "6-2-2"], place / "store", source(place, "a", b"q")
    run("encode", "--make-folders", *names, store, file, status=0)
    files, begun = there(store), store / f"x0/a{STAGED}"
    for each in PLACES[1:]:
        (store / each / "a").rename(store / each / "away")
        (store / each / "a").symlink_to("a")
    begun.mkdir()
    (begun / f"a{STAGED}.file").write_text(description(b"new"))
    before = all_of(store)
    said = run("encode", *names, store, file, status=3)
    hold(os.strerror(errno.ELOOP) in said and all_of(store) == before, f"{said}{sorted(all_of(store))}")
    # Where a folder has the description, and nothing else of what was begun, the old file isn't seen either.
    for each in PLACES[1:]:
        shutil.copytree(begun, store / each / begun.name)
    before = all_of(store)
    said = run("encode", *names, store, file, status=3)
    hold(os.strerror(errno.ELOOP) in said and all_of(store) == before, f"{said}{sorted(all_of(store))}")
    for each in PLACES[1:]:
        (store / each / "a").unlink()
        (store / each / "away").rename(store / each / "a")
    run("encode", *names, store, file, status=0)
    hold(all_of(store) == files and not begun.exists(), f"{sorted(all_of(store))}")


def test_old_description_that_differs(place, choose):
    """The description in the store's own folder, as earlier builds made it, is missed nowhere, and named where it says something else; it
    is replaced if that is asked for."""
    names = ["--names", "disk{shard}/{stripe}", "--code", "6-2-2"]
    data = choose.randbytes(700)
    for is_listed in (True, False):
        store, report = place / f"store-{is_listed}", place / "report"
        run("encode", "--make-folders", *names, store, source(place, "a", data), status=0)
        if not is_listed:
            (store / "SHA256SUMS").unlink()
        why = "a.file: differs from the checksums" if is_listed else "a.file: differs from the other descriptions of its stripe"
        for command in ("scrub", "repair"):
            run(command, *names, store, status=0)
            hold(not (store / "a.file").exists(), f"{command} has made a description that earlier builds had")
        (store / "a.file").write_text(description(b"other"))
        before = there(store)
        for command in ("scrub", "repair"):
            said = run(command, *names, "--report", report, store, status=1)
            hold(f"{why}\n" in said and there(store) == before, f"{command}: {said}")
            hold(report.read_text() == f"stripe,place,outcome,detail\na,file,left,{why}\n", report.read_text())
        run("repair", "--replace-damaged", *names, store, status=0)
        kept = {"a.file": description(data).encode(), "a.file.damaged": description(b"other").encode()}
        hold(there(store) == before | kept, f"{sorted(there(store))}")
        run("scrub", *names, store, status=0)


def test_read_to_what_is_no_file(place, choose):
    """What isn't the file is written neither to where a link leads nor to a FIFO, and nothing there is emptied for it; by a second copy of
    the description it is the file."""
    data = choose.randbytes(3_000)
    store, link, behind, fifo = place / "store", place / "link", place / "behind", place / "fifo"
    run("encode", store, source(place, "a", data), status=0)
    link.symlink_to(behind)
    os.mkfifo(fifo)
    reader = os.open(fifo, os.O_RDONLY | os.O_NONBLOCK)
    behind.write_bytes(b"older")
    right = (store / "a.file").read_bytes()
    for name in ("a.file", "a.file.copy"):
        (store / name).write_text(description(b"another"))
    for output in (link, fifo):
        said = run("read", store, "a", "-o", output, status=1)
        hold("a: the fragments that are there don't give the file that a.file describes" in said, f"{output}: {said}")
    hold(behind.read_bytes() == b"older" and os.read(reader, 1) == b"", "what isn't the file was written")
    for name in ("a.file", "a.file.copy"):
        for other in ("a.file", "a.file.copy"):
            (store / other).write_bytes(right if other == name else description(b"another").encode())
        behind.write_bytes(b"older")
        run("read", store, "a", "-o", link, status=0)
        run("read", store, "a", "-o", fifo, status=0)
        hold(link.is_symlink() and behind.read_bytes() == data, f"{name}: the link leads to {len(behind.read_bytes())} bytes")
        hold(os.read(reader, 10_000) == data, f"{name}: the FIFO has other bytes")
    os.close(reader)


def same_times(one, other, length):
    """Makes two files of so many bytes whose times are the same, as the clock of files gives them for a moment to what nobody looks at."""
    for _ in range(10_000):
        for path, letter in ((one, b"1"), (other, b"2")):
            file = os.open(path, os.O_WRONLY | os.O_CREAT, 0o644)
            os.write(file, letter * length)
            os.close(file)
        about, of_other = one.stat(), other.stat()
        if (about.st_mtime_ns, about.st_ctime_ns) == (of_other.st_mtime_ns, of_other.st_ctime_ns):
            return
        one.unlink()
        other.unlink()
    raise Skipped("no two files here have the same times")


def test_source_exchanged_for_one_of_its_times(place, _choose):
    """A file whose path leads to another one meanwhile isn't encoded, also if both have the same length and times."""
    calls, store, folder, length = Calls(place), place / "store", place / "folder", 5_000
    for name in ("one", "other"):
        (place / name).mkdir()
    same_times(place / "one/a", place / "other/a", length)
    folder.symlink_to("one")
    store.mkdir()
    words = [Program.path, "encode", store, folder / "a"]
    counted = [Program.path, "encode", place / "count", folder / "a"]
    number = calls.run(counted).kinds.index("create") + 1

    def exchange():
        (place / "next").symlink_to("other")
        (place / "next").rename(folder)

    status, said = while_waiting(calls, place, words, number, exchange)
    hold(status == 1 and "a: changed while it was read" in said and there(store) == {}, f"status {status}: {said}{sorted(there(store))}")
    run("encode", store, folder / "a", status=0)
    run("read", store, "a", "-o", place / "read", status=0)
    hold((place / "read").read_bytes() == b"2" * length, "not the file")


def test_names_that_no_fragment_may_have(place, choose):
    """No file is encoded whose fragments would have second names, or names of unfinished files, and none is taken out by such a name: what
    has the stripe's own name is another's."""
    for number, (pattern, name) in enumerate((("{stripe}.{place}.damaged", "a"), ("{place}-{stripe}0.damaged", "b"),
                                              ("{stripe}{place}0123456789abcdef", ".rebuild-store-"),
                                              ("d/{place}/{stripe}0123456789abcdef", ".rebuild-store-n"),
                                              ("S{stripe}A{shard}56SUMS", "H"))):
        store, names = place / f"store-{number}", ["--names", pattern, "--code", "6-2-2"]
        store.mkdir()
        file = source(place, name, choose.randbytes(100))
        for words in ([], ["--replace"]):
            said = run("encode", "--make-folders", *words, *names, store, file, status=1)
            hold(NO_NAME in said and list(store.iterdir()) == [], f"{pattern}: {said}{list(store.iterdir())}")
        (store / name).write_bytes(b"mine")
        said = run("remove", *names, store, name, status=1)
        hold(there(store) == {name: b"mine"}, f"{pattern}: {said}{sorted(there(store))}")


def test_paths_without_a_name(place, choose):
    """A path that ends with a slash has no name that a stripe may get, whatever is there, and an empty one is none either."""
    store, file = place / "store", source(place, "a", choose.randbytes(100))
    for words in ([store, f"{file}/"], [store, f"{place}/"], ["--as", "", store, file], ["--make-folders", "--as", "", store, file]):
        said = run("encode", *words, status=1)
        hold(NO_NAME in said and there(store) == {}, f"{words}: {said}{sorted(there(store))}")


def test_removal_by_a_code_that_has_no_such_names(place, choose):
    """A file whose description says a code by which its fragments would have names of unfinished files isn't taken out, nor is what has the
    stripe's own name."""
    names, name = ["--names", "{stripe}a{shard}", "--code", "6-2-2"], ".rebuild-store-g0123456789012"
    store = place / "store"
    run("encode", *names, store, source(place, "b", choose.randbytes(90)), status=0)
    others = there(store)
    run("encode", *names, store, source(place, name, choose.randbytes(100)), status=0)
    (store / name).write_bytes(b"mine")
    right = there(store)
    for copy in (f"{name}.file", f"{name}.file.copy"):
        (store / copy).write_text(description(b"another", "12-2-2"))
    before = there(store)
    said = run("remove", *names, store, name, status=1)
    hold("is no file of the store" in said and there(store) == before, f"{said}{sorted(there(store))}")
    for copy in (f"{name}.file", f"{name}.file.copy"):
        (store / copy).write_bytes(right[copy])
    run("remove", *names, store, name, status=0)
    hold(there(store) == others | {name: b"mine"}, f"{sorted(there(store))}")


def test_removal_of_files_of_two_codes(place, choose):
    """Of several files each is taken out by the code that its own description says, and one without a description by that of the store:
    what has another name of its stays."""
    store, wide, narrow = place / "store", place / "wide", place / "narrow"
    run("encode", store, *(source(place, name, choose.randbytes(700)) for name in "cde"), status=0)
    stay = there(store) | {name: b"mine" for name in ("b.x5", "b.y3", "a.x6")}
    run("encode", "--code", "12-2-2", wide, source(place, "a", choose.randbytes(700)), status=0)
    run("encode", narrow, source(place, "b", choose.randbytes(700)), status=0)
    undescribed = {name: data for name, data in there(narrow).items() if name.startswith("b.") and "file" not in name}
    for files in (undescribed, {name: data for name, data in there(narrow).items() if name.startswith("b.")}):
        lay_files(store, {name: data for name, data in there(wide).items() if name.startswith("a.")} | files | stay)
        run("remove", "--code", "6-2-2", store, "a", "b", status=0)
        hold(there(store) == stay, f"{sorted(set(there(store)) ^ set(stay))}")


def test_read_while_a_replacement_is_ended(place, choose):
    """A file that another run replaces while it is read is read again, so that all of the new one is written, wherever the read is by then:
    also where the names are gone under which it was to replace the old one."""
    calls, kept, store, old, new = Calls(place), place / "kept", place / "store", choose.randbytes(2_000), choose.randbytes(1_500)
    run("encode", kept, source(place, "a", old), status=0)
    begin(place, kept, new)
    output, other = place / "output", source(place, "a", b"another")
    words = [Program.path, "read", "-q", store, "a", "-o", output]
    shutil.copytree(kept, store)
    kinds, again = calls.run(words).kinds, 0
    for number in [number for number, kind in enumerate(kinds[: kinds.index("create")], 1) if kind in ("open", "look")][::5]:
        shutil.rmtree(store)
        shutil.copytree(kept, store)
        output.unlink(missing_ok=True)
        status, said = while_waiting(calls, place, words, number, lambda: run("encode", store, other, status=1))
        hold(status == 0 and output.read_bytes() == new, f"call {number}: status {status}: {said}")
        again += "a: was replaced meanwhile, and is read again\n" in said
    hold(again > 0, "it was never read again")


def test_replacement_that_fails_while_names_are_given(place, choose):
    """Where a call fails while what was begun gets the names of the old file, that is said, the new file can be read, and the next run ends
    it. No old fragment stays where the new one is lost."""
    calls, kept, store, new = Calls(place, forks=True), place / "kept", place / "store", choose.randbytes(1_500)
    run("encode", kept, source(place, "a", choose.randbytes(2_000)), status=0)
    begin(place, kept, new)
    right = {name.replace(STAGED, ""): data for name, data in there(kept).items() if STAGED in name and name[-2:] not in ("x1", "p0")}
    for each in ("x1", "p0"):
        (kept / f"a{STAGED}.{each}").unlink()
    shutil.copytree(kept, store)
    words, tried = [Program.path, "encode", store, source(place, "a", b"another")], set()
    kinds = calls.run(words).kinds
    first = kinds.index("link") + 1
    for number, kind in enumerate(kinds, 1):
        if number < first or kind not in ("link", "rename", "unlink", "sync", "create", "write", "look") or (kind == "look" and number % 3):
            continue
        shutil.rmtree(store)
        shutil.copytree(kept, store)
        ended = calls.run(words, number, errno.EIO)
        where = f"call {number}, {kind} of {ended.paths}: {ended.text()}"
        # What the run makes beside a name is taken away by the next one, too.
        is_beside = kind == "unlink" and f"{store}/.rebuild-store-" in ended.paths[0]
        is_said = ended.status == 3 and "Input/output error" in ended.err
        hold(is_said or ended.status == 1 and (kind == "look" or is_beside), where)
        run("read", store, "a", "-o", place / "output", status=0)
        hold((place / "output").read_bytes() == new, f"{where}: not the new file")
        if ended.status == 3:
            tried.add(kind)
            hold("is there already" in run("encode", store, place / "a", status=1), f"{where}: not ended")
        left = {name: data for name, data in there(store).items() if name.startswith("a.")}
        hold(left == right, f"{where}: {sorted(set(left) ^ set(right))}")
    hold({"link", "rename", "unlink", "sync", "create"} <= tried, f"tried {tried}")


def test_counters_beside_another_host(place, choose):
    """A run that is refused since one of another host may work in the store writes its counters over those of a run that has ended, and
    over nothing else: not over those that say no status, however long they are and whatever bytes they have."""
    store, counters = place / "store", place / "counters"
    lay(store, choose)
    (store / ".rebuild-store-part-1-of-1").write_text("4711@beta\n")
    table = TABLE.format(store)
    labels = f'{{command="repair",store="{store}"}}'
    begun, status = f"rebuild_store_units{labels} 3\n".encode(), f"rebuild_store_status{labels} 0\n".encode()
    if subprocess.run([*WITH_TABLE, table, "true"], capture_output=True).returncode:
        raise Skipped("nothing can be mounted over /proc")
    other = begun.replace(b"repair", b"scrub")
    for first, rest, is_over in ((begun, b"", False), (begun, b"a line\n" * 200_000, False), (begun, b"\xff\xfe\n", False),
                                 (other, status, False), (begun, status, True), (begun, b"a line\n" * 90_000 + status, True)):
        counters.write_bytes(first + rest)
        said = run("repair", "--progress", counters, store, status=1, before=(*WITH_TABLE, table))
        hold("process 4711 of the host beta may work in this store" in said, said)
        if is_over:
            hold(f"rebuild_store_status{labels} 1\n" in counters.read_text(), f"{counters.read_bytes()[:300]}")
        else:
            hold(counters.read_bytes() == first + rest, f"counters with {rest[:10]} were written over")


def test_counters_that_cannot_be_written_for_long(place, choose):
    """While one thread writes counters to a FIFO that nobody empties, the others go on, also once the next counters are due. The run's
    clock goes on by what it sleeps alone."""
    store, fifo, library, record = (place / name for name in ("s", "fifo", "skip-sleep.so", "record"))
    refusals.build(library, "skip-sleep.c", "-shared", "-fPIC")
    many = 12
    files = lay(store, choose, [f"a{number}" for number in range(many)], 1_000)
    lost = [store / f"a{number}.x1" for number in range(many)]
    for path in lost:
        path.unlink()
    os.mkfifo(fifo)
    record.write_bytes(bytes(8))
    reader = os.open(fifo, os.O_RDWR | os.O_NONBLOCK)
    fill(reader)
    # Each stripe takes longer than it is from counters to counters.
    words = ["repair", store, "--progress", fifo, "--rate", "1000", "--workers", "2", "--reads", "all"]
    environment = {"LD_PRELOAD": str(library), "SLEPT_RECORD": str(record)}
    process = subprocess.Popen([*map(str, [Program.path, *words])], stdin=subprocess.DEVNULL, stdout=subprocess.DEVNULL,
                               stderr=subprocess.PIPE, env=environment)
    try:
        wait_for(lambda: all(path.exists() for path in lost), "all threads wait for who reads the counters")
        hold(process.poll() is None, "the counters of the end were written to a FIFO that is full")
        said = emptied(reader, process)
    finally:
        process.kill()
        process.communicate()
        os.close(reader)
    hold(process.returncode == 0 and there(store) == files, f"status {process.returncode}: {sorted(there(store))}")
    labels = f'{{command="repair",store="{store}"}}'
    for line in (f"rebuild_store_units_done{labels} {many}\n", f"rebuild_store_status{labels} 0\n"):
        hold(line in said, f"{line} is missing: {said[-2_000:]}")


def test_disks_of_the_wider_code(place, choose):
    """Folders that only the wider code's disks have are nothing to a store of the narrower one: they aren't listed."""
    store, words = place / "store", ["--names", "disk{shard}/{stripe}", "--code", "6-2-2"]
    files = lay(store, choose, ("s",), 60, "disk{shard}/{stripe}")
    (store / "disk12").symlink_to("disk12")
    for links in ([], ["--follow-links"]):
        said = run("scrub", *links, *words, store, status=0)
        hold("disk12" not in said, said)
        said = run("repair", *links, *words, store, status=0)
        hold("disk12" not in said and there(store) == files, said)


def test_outputs_one_of_which_is_a_fragment(place, choose):
    """A report or counters that are a fragment of another part by another name are refused, whatever the other output is."""
    store, other = place / "store", place / "other"
    files = lay(store, choose, "abcdefgh", 40)
    others = [name for name in "abcdefgh" if int.from_bytes(hashlib.sha256(name.encode()).digest()[:8], "big") % 2 == 1]
    os.link(store / f"{others[0]}.x1", other)
    for words in (["--report", other, "--progress", place / "new"], ["--report", place / "new", "--progress", other]):
        said = run("scrub", "--part", "1/2", *words, store, status=2)
        hold(f"{other}: is a file of the store" in said and there(store) == files, said)


def test_names_like_keys(place, choose):
    """Text round a pattern's keys may be as these are without their braces."""
    data = choose.randbytes(500)
    for number, pattern in enumerate(("shards/{stripe}.{place}", "places/{shard}/stripe-{stripe}", "shard{place}-{stripe}")):
        store, words = place / f"store-{number}", ["--names", pattern]
        run("encode", "--make-folders", *words, "--code", "6-2-2", store, source(place, "a", data), status=0)
        names = {pattern.format(stripe="a", place=it, shard=shard) for shard, it in enumerate(PLACES)}
        hold(names <= set(there(store)), f"{pattern}: {sorted(there(store))}")


def test_places_of_the_wider_code_that_cannot_be_looked_at(place, choose):
    """No file is encoded while it isn't known whether there is a fragment of it at a place that its code hasn't: nothing is put into the
    store."""
    names, store = ["--names", "{place}/{stripe}", "--code", "6-2-2"], place / "store"
    run("encode", "--make-folders", *names, store, source(place, "a", choose.randbytes(90)), status=0)
    files, file = there(store), source(place, "b", choose.randbytes(100))
    for each in ("x3", "y5"):
        (store / each).symlink_to(each)
        for words in ([], ["--replace"], ["--follow-links"]):
            said = run("encode", *words, *names, store, file, status=3)
            hold("Too many levels of symbolic links" in said and there(store) == files, f"{each}, {words}: {said}{sorted(there(store))}")
        (store / each).unlink()
    run("encode", *names, store, file, status=0)
    hold(set(there(store)) > set(files), f"{sorted(there(store))}")


def test_files_named_as_descriptions_of_nothing(place, choose):
    """A file that is named as a description and isn't one makes no file of the store that is read back, unless it has fragments."""
    store = place / "store"
    run("encode", store, source(place, "a", choose.randbytes(300)), status=0)
    lay_files(store, {name: b"a line of other software\n" for name in ("b.file", "c.file.copy", "d.file", "d.file.copy", "c.x0")})
    said = run("verify", store, status=0)
    hold(said == "verified 1 file; not as described: 0\n", said)
    lay_files(store, {f"b.{each}": (store / f"a.{each}").read_bytes() for each in PLACES})
    said = run("verify", store, status=1)
    hold("b.file: isn't a line with a length, a digest and a code\nverified 1 file; not as described: 1\n" in said, said)


def test_fragments_that_many_links_lead_to(place, choose):
    """A fragment is made where its links lead, but not if there are more than 16, though the system follows these: nothing changes then."""
    for many in (10, 16, 17):
        store, behind = place / f"store-{many}", place / f"behind-{many}"
        files = lay(store, choose)
        behind.mkdir()
        (store / "s.x1").unlink()
        (store / "s.x1").symlink_to(behind / "1")
        for number in range(1, many):
            (behind / f"{number}").symlink_to(f"{number + 1}")
        before = all_of(store) | all_of(behind)
        said = run("repair", "--follow-links", store, status=0 if many <= 16 else 3)
        hold(("s.x1: can't be put in its place: invalid input parameter\n" in said) == (many == 17), said)
        made = {f"{many}": files["s.x1"]} if many <= 16 else {}
        hold(all_of(store) | all_of(behind) == before | made, f"{many}: {sorted(all_of(behind))}")


def test_read_beside_digests_of_other_bytes(place, choose):
    """Where the digests are those of other bytes for more fragments than the code gives back, a file is read all the same, without the one
    or the two that are damaged."""
    data, store, output = choose.randbytes(3_000), place / "store", place / "output"
    run("encode", store, source(place, "a", data), status=0)
    lines = (store / "SHA256SUMS").read_text().splitlines(keepends=True)
    (store / "SHA256SUMS").write_text("".join(f"{0:064}{line[64:]}" if line[66:69] in ("a.x", "a.y") else line for line in lines))
    for each, why in (("x1", "a fragment is damaged: read without x1"), ("y2", "fragments are damaged: read without x1 and y2")):
        (store / f"a.{each}").write_bytes(choose.randbytes(500))
        said = run("read", "-o", output, store, "a", status=0)
        hold(output.read_bytes() == data and said == f"rebuild-store: a: {why}\n", said)


def fill(fifo):
    """Writes to a FIFO until it takes no more."""
    try:
        while True:
            os.write(fifo, bytes(4_096))
    except BlockingIOError:
        pass


def emptied(reader, process):
    """What comes from a FIFO until a process ends."""
    said = b""
    end = time.monotonic() + SECONDS
    while True:
        is_ended = process.poll() is not None
        try:
            said += os.read(reader, 65_536)
        except BlockingIOError:
            if is_ended:
                return said.decode(errors="replace")
            if time.monotonic() > end:
                raise Fault("a run doesn't end once its counters are read") from None
            time.sleep(0.01)


if __name__ == "__main__":
    try_all("store-rare", globals(), *sys.argv[1:3])
