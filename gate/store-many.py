#!/usr/bin/env python3
"""Tries rebuild-store where two things of one kind meet, in each order and at each place: damaged fragments, runs of other parts, fragments
that can't be read.

    store-many.py [PROGRAM [TEST]]

Each expected byte, name and status is worked out here by the manual pages."""

import errno
import itertools
import os
import re
import shutil
import subprocess
import sys

# No compiled copy of the modules is left beside them.
sys.dont_write_bytecode = True
from faults import Calls  # noqa: E402
from stores import (  # noqa: E402
    SECONDS, STAGED, Program, Skipped, begin, hold, lay, run, source, there, try_all, while_waiting, write_sums,
)

PLACES = ("x0", "x1", "x2", "y0", "y1", "y2", "px", "py", "p0", "p1")
CODE, DISKS = ("--code", "6-2-2"), ("--names", "disk{shard}/{stripe}", "--code", "6-2-2")


def damage(path):
    path.write_bytes(bytes(255 - byte for byte in path.read_bytes()))


def counts_of(file):
    """The counters of a run, by their names."""
    return {name: int(value) for name, value in re.findall(r"^rebuild_store_(\w+)\{.*\} (\d+)$", file.read_text(), re.M)}


def anew(store, kept):
    shutil.rmtree(store, ignore_errors=True)
    shutil.copytree(kept, store)


def encoded(place, choose):
    """Encodes a file into a store that is kept, and gives its bytes, the place of the store, and the store that is kept."""
    data = choose.randbytes(700)
    run("encode", place / "kept", source(place, "a", data), status=0)
    return data, place / "store", place / "kept"


def test_each_two_damaged(place, choose):
    """Without digests a file is read without the two parts of it that are damaged, whichever, which are named."""
    data, store, kept = encoded(place, choose)
    (kept / "SHA256SUMS").unlink()
    for names in itertools.combinations(PLACES[:6], 2):
        anew(store, kept)
        for name in names:
            damage(store / f"a.{name}")
        said = run("read", store, "a", "-o", place / "read", status=0)
        hold(said == f"rebuild-store: a: fragments are damaged: read without {names[0]} and {names[1]}\n", f"{names}: {said}")
        hold((place / "read").read_bytes() == data, f"{names}: other bytes")


def test_descriptions_beside_each_two_damaged(place, choose):
    """Where two fragments are damaged, whichever, and all descriptions lost, these are made again of the other fragments."""
    _, store, kept = encoded(place, choose)
    copies = {name: data for name, data in there(kept).items() if name.startswith("a.file")}
    hold(len(copies) == 2, sorted(copies))
    for name in copies:
        (kept / name).unlink()
    for names in itertools.combinations(PLACES[:7], 2):
        anew(store, kept)
        for name in names:
            damage(store / f"a.{name}")
        said = run("repair", "--replace-damaged", store, status=0)
        hold(there(store).items() >= copies.items(), f"{names}: {said}")


def test_each_fragment_that_cannot_be_read(place, choose):
    """Where too few fragments are there without one that can't be read, whichever, the system's words and that one's path are said."""
    calls = Calls(place, forks=True)
    _, store, kept = encoded(place, choose)
    for name in PLACES:
        anew(store, kept)
        for other in [it for it in PLACES if it != name][4:]:
            (store / f"a.{other}").unlink()
        words = [Program.path, "read", store, "a", "-o", place / "read"]
        path, kinds = str(store / f"a.{name}"), calls.run(words).kinds
        for number, kind in enumerate(kinds, 1):
            ended = calls.run(words, number, errno.EIO, "path") if kind == "open" else None
            if ended and ended.paths[0] == path:
                break
        hold(ended and ended.paths[0] == path, f"{path} isn't opened")
        hold(ended.status == 3 and f"{path}: {os.strerror(errno.EIO)}\n" in ended.err, f"{name}: {ended.text()}")


def test_runs_of_other_parts(place, choose):
    """A run of a part is refused while one works on a part of another number of parts, whichever of their locks was there first."""
    calls, store = Calls(place, forks=True), place / "store"
    lay(store, choose, ("a", "b"))
    own = store / ".rebuild-store-part-2-of-3"
    for count in (1, 2, 5):
        words = [Program.path, "repair", store, *CODE, "--workers", "1", "--part", f"1/{count}"]
        kinds = calls.run(words).kinds
        for is_there in (False, True):
            if is_there:
                own.touch()
            said = []
            status, text = while_waiting(calls, place, words, kinds.index("list") + 1,
                                         lambda: said.append(run("repair", store, *CODE, "--part", "2/3", status=1)))
            hold(status == 0, text)
            line = f"rebuild-store: {store}/.rebuild-store-part-1-of-{count}: another run works in this store\n"
            hold(said == [line], f"{count}: {said}")
            own.unlink(missing_ok=True)


def test_names_and_counts(place, choose):
    """The last line and the counters have each damaged fragment, and each that was rebuilt unchecked, of each stripe."""
    store, counters = place / "store", place / "counters"
    lay(store, choose, "abcde")
    damaged = ["c.x0", "c.y1", "d.x2", "d.p1", "e.y0"]
    unchecked = ["b.x0", "b.x1", "b.y0", "b.p1"]
    write_sums(store)
    lines = (store / "SHA256SUMS").read_text().splitlines(True)
    (store / "SHA256SUMS").write_text("".join(line for line in lines if line[66:67] not in "ab"))
    for name in damaged:
        damage(store / name)
    for name in [*unchecked, "a.p0"]:
        (store / name).unlink()
    said = run("scrub", store, "--progress", counters, status=1)
    hold("scrubbed 5 stripes: 5 damaged, 5 lost or contradictory" in said, said)
    found = counts_of(counters)
    hold((found["damaged"], found["left"]) == (5, 5), f"{found}: {said}")
    hold((found["units"], found["units_done"], found["bytes"], found["bytes_done"]) == (5, 5, 45 * 600, 45 * 600), f"{found}: {said}")
    said = run("repair", "--reads", "all", store, "--progress", counters, status=1)
    # Three are named.
    last = f"repaired 5 fragments, 2.9 KiB (4 unchecked: {' '.join(unchecked[:3])} ..); damaged: 5: {' '.join(damaged[:3])} ..; "
    hold(f"{last}left without --replace-damaged: 5; not possible: 0\n" in said, said)
    found = counts_of(counters)
    hold((found["units"], found["units_done"], found["damaged"], found["left"]) == (5, 5, 5, 0), f"{found}: {said}")


def test_each_description_that_digests_name(place, choose):
    """Each file is missed of which the digests name a description alone, and of which nothing is there."""
    store = place / "store"
    run("encode", store, *(source(place, name, choose.randbytes(700)) for name in "abcd"), status=0)
    for path in store.glob("[abc].*"):
        path.unlink()
    lines = (store / "SHA256SUMS").read_text().splitlines(True)
    (store / "SHA256SUMS").write_text("".join(line for line in lines if line[66] == "d" or line.endswith(".file\n")))
    said = run("scrub", store, status=1)
    hold([name for name in "abcd" if f"{name}.file: is lost\n" in said] == ["a", "b", "c"], said)
    hold("scrubbed 4 stripes: " in said, said)


def test_what_is_beside_the_folders_of_disks(place, choose):
    """Of what is beside the folders of disks each file that a killed run left goes, and each description is one of a file."""
    store, kept = place / "store", place / "kept"
    run("encode", "--make-folders", *DISKS, kept, *(source(place, name, choose.randbytes(700)) for name in "abcd"), status=0)
    for name in "abc":
        shutil.move(kept / f"disk0/{name}.file", kept / f"{name}.file")
        for path in [*kept.glob(f"disk*/{name}"), *kept.glob(f"disk*/{name}.file")]:
            path.unlink()
    (kept / "SHA256SUMS").unlink()
    left = [f".rebuild-store-{number}123456789abcdef" for number in range(4)]
    anew(store, kept)
    for name in left:
        (store / name).write_bytes(b"half")
    said = run("list", *DISKS, store, status=0)
    states = {line.split()[4]: line.split()[0] for line in said.splitlines()[:4]}
    hold(states == {"a": "lost", "b": "lost", "c": "lost", "d": "whole"}, said)
    said = run("encode", *DISKS, store, source(place, "e", b"e"), status=0)
    hold(all(f"rebuild-store: {store}/{name}: was left by a run that was killed, and is removed\n" in said for name in left), said)
    hold(not [*store.glob(".rebuild-store-*")], sorted(there(store)))


def test_copy_that_cannot_be_read_beside_a_lost_one(place, choose):
    """The status is that of a device if one copy of a description can't be read, and another one is lost, whichever comes first."""
    calls, store, kept = Calls(place, forks=True), place / "store", place / "kept"
    run("encode", "--make-folders", *DISKS, kept, source(place, "a", choose.randbytes(700)), status=0)
    for lost, unread in ((0, 5), (5, 0), (8, 9)):
        for command in (("scrub", "--workers", "1"), ("lost",)):
            anew(store, kept)
            (store / f"disk{lost}/a.file").unlink()
            words, path = [Program.path, *command, *DISKS, store], str(store / f"disk{unread}/a.file")
            for number in [number for number, kind in enumerate(calls.run(words).kinds, 1) if kind == "read"]:
                ended = calls.run(words, number, errno.EIO, "path")
                if ended.paths[0] == path and f"disk{unread}/a.file: can't be read" in ended.out + ended.err:
                    break
            said = ended.out + ended.err
            hold(f"disk{unread}/a.file: can't be read: {os.strerror(errno.EIO)}\n" in said, f"{command}: {ended.text()}")
            hold(ended.status == 3 and f"disk{lost}/a.file: is lost\n" in said, f"{command}: {ended.text()}")


def test_just_enough_of_what_replaces_a_file(place, choose):
    """What is to replace a file is read where just so many of its fragments are there as give it, whichever are lost, and the file itself
    where one fewer is."""
    data, store, kept = encoded(place, choose)
    new = choose.randbytes(900)
    begin(place, kept, new)
    for lost in (PLACES[6:], PLACES[0:2] + PLACES[3:5], PLACES[5:9], PLACES[1:4] + PLACES[9:]):
        anew(store, kept)
        for name in lost:
            (store / f"a{STAGED}.{name}").unlink()
        run("read", store, "a", "-o", place / "read", status=0)
        hold((place / "read").read_bytes() == new, f"without {lost} another file is read")
        (store / f"a{STAGED}.{next(name for name in PLACES if name not in lost)}").unlink()
        run("read", store, "a", "-o", place / "read", status=0)
        hold((place / "read").read_bytes() == data, f"without more than {lost} another file is read")


def test_outputs_in_each_folder_of_stripes(place, choose):
    """Where each stripe has a folder of its own, no file is read to the store's folder, to that of a stripe or to one below."""
    names, store = ("--names", "of/{stripe}/{place}"), place / "store"
    run("encode", "--make-folders", *names, store, source(place, "a", choose.randbytes(700)), status=0)
    (store / "of/a/deeper/still").mkdir(parents=True)
    (store / "of/b").mkdir()
    before = there(store)
    for folder in ("", "of", "of/a", "of/b", "of/a/deeper", "of/a/deeper/still"):
        path = store / folder / "new"
        said = run("read", *names, store, "a", "-o", path, status=2)
        hold(said == f"rebuild-store: {path}: is in a folder of the store\n" and there(store) == before, f"{path}: {said}")


def test_each_fragment_of_the_other_code(place, choose):
    """A file isn't encoded where a fragment of its name is at a place that its code hasn't, whichever."""
    store, file = place / "store", source(place, "a", choose.randbytes(700))
    for name in ("x3", "x4", "x5", "y3", "y4", "y5"):
        shutil.rmtree(store, ignore_errors=True)
        store.mkdir()
        (store / f"a.{name}").write_bytes(b"another")
        said = run("encode", *CODE, store, file, status=1)
        hold(f"a.{name}: " in said and there(store) == {f"a.{name}": b"another"}, f"{name}: {said}")


def test_outputs_whose_folder_is_not_there(place, choose):
    """Where the folder of the report or of the counters isn't there, whichever, that is said before anything is done."""
    store, good, bad = place / "store", place / "good", place / "none/file"
    lay(store, choose)
    (store / "s.x0").unlink()
    before = there(store)
    for words in (("--report", bad), ("--progress", bad), ("--report", good, "--progress", bad), ("--report", bad, "--progress", good)):
        for command in ("repair", "scrub"):
            said = run(command, store, *words, status=3)
            hold(said == f"rebuild-store: {bad}: {os.strerror(errno.ENOENT)}\n" and there(store) == before, f"{command} {words}: {said}")


def test_each_disk_that_is_not_mounted(place, choose):
    """Where several disks aren't mounted, nothing is made at the mount point of any, of any file, unless that is allowed."""
    if os.geteuid() != 0:
        raise Skipped("only root can try it")
    store, sources = place / "store", [source(place, name, choose.randbytes(700)) for name in "ab"]
    for number in range(10):
        (store / f"disk{number}").mkdir(parents=True)
    for away in ((0, 4), (3, 9), (0, 5, 9)):
        script = f"""for n in 0 1 2 3 4 5 6 7 8 9; do mount -t tmpfs -o size=4m,mode=755 none {store}/disk$n || exit 77; done
        p={Program.path}; w="--code 6-2-2 --names disk{{shard}}/{{stripe}} {store}"
        $p encode $w {sources[0]} {sources[1]}
        for n in {' '.join(map(str, away))}; do umount {store}/disk$n; done
        $p repair $w; echo "status $?"; find {store} -type f | wc -l
        $p repair --allow-unmounted $w; find {store} -type f | wc -l
        for n in {' '.join(map(str, away))}; do ls -A {store}/disk$n | wc -l; rm {store}/disk$n/*; done"""
        ended = subprocess.run(["unshare", "--mount", "bash", "-c", script], stdin=subprocess.DEVNULL, capture_output=True, text=True,
                               timeout=SECONDS)
        if ended.returncode == 77 or "unshare: " in ended.stderr:
            raise Skipped(f"nothing can be mounted here: {ended.stderr}")
        said, whole = ended.stdout + ended.stderr, 2 * 10 * 2 + 1
        for name in [f"disk{number}/{file}" for number in away for file in ("a", "b", "a.file", "b.file")]:
            hold(re.search(f"^(?:rebuild-store: )?{name}: ", said, re.M), f"{name} isn't said without {away}: {said}")
        numbers = [int(line) for line in ended.stdout.splitlines() if line.isdigit()]
        hold(numbers == [whole - 4 * len(away), whole, *[4] * len(away)] and "status 3\n" in said, f"{away}: {numbers}: {said}")
        (store / "SHA256SUMS").unlink()


if __name__ == "__main__":
    try_all("store-many", globals(), *sys.argv[1:3])
