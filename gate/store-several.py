#!/usr/bin/env python3
"""Tries rebuild-store where there are several of a kind, each of which has to be treated, said and counted: survivors that change while
they are read, folders, copies, leftovers and names.

    store-several.py [PROGRAM [TEST]]

Each expected byte, name and status is worked out here by the manual pages."""

import contextlib
import errno
import os
import pty
import re
import shutil
import subprocess
import sys

# No compiled copy of the modules is left beside them.
sys.dont_write_bytecode = True
from faults import RECORD_SIZE, Calls  # noqa: E402
from stores import (  # noqa: E402
    STAGED, Fault, Program, Skipped, hold, lay, lay_files, run, source, there, try_all, while_waiting, write_sums,
)

CODE, DISKS = ("--code", "6-2-2"), ("--names", "disk{shard}/{stripe}", "--code", "6-2-2")
FOLDERS, ERROR = [f"disk{number}" for number in range(10)], os.strerror(errno.EIO)
CHANGED = "changed meanwhile: nothing of its stripe is put in its place"


def named(said, why):
    """The names of files of which lines say this."""
    return sorted(re.findall(rf"^(\S+): {why}", said, re.M))


def shown(ours, theirs):
    """What was written to a terminal, to which nobody writes any more."""
    os.close(theirs)
    said = b""
    with contextlib.suppress(OSError):
        while more := os.read(ours, 65_536):
            said += more
    os.close(ours)
    return said.decode()


def anew(store, kept):
    shutil.rmtree(store, ignore_errors=True)
    shutil.copytree(kept, store)


def reads_of(calls, words, store, kept):
    """The numbers of a command's calls that read fragments, and of which each does."""
    anew(store, kept)
    reads = []
    for number, kind in enumerate(calls.run(words).kinds, 1):
        if kind == "read":
            anew(store, kept)
            path = calls.run(words, number, errno.EIO).paths[0]
            reads += [(number, path.removeprefix(f"{store}/"))] if path.startswith(f"{store}/s.") else []
    return reads


def test_each_survivor_that_changes(place, choose):
    """Where digests of survivors are tested, each of the eight that are read and change meanwhile is named, also beside one that differs
    from its digest, and nothing of the stripe is made, though all are read again."""
    calls, store, kept = Calls(place, forks=True), place / "store", place / "kept"
    files = lay(kept, choose)
    (kept / "s.x0").unlink()
    write_sums(kept)
    words = [Program.path, "repair", store, *CODE, "--workers", "1"]
    reads = reads_of(calls, words, store, kept)
    few = [path for _, path in reads[:8]]
    hold(len(set(few)) == 8, f"the survivors that are read first are {few}")
    for count in (1, 2, 3, 8, 2, 3):
        changed = sorted(choose.sample(few, count))
        damaged = choose.choice([*(path for path in few if path not in changed), None])
        anew(store, kept)
        if damaged:
            (store / damaged).write_bytes(bytes(255 - byte for byte in files[damaged]))
        before = there(store)

        def change():
            for name in changed:
                os.utime(store / name)

        status, said = while_waiting(calls, place, words, reads[0][0], change)
        hold(status == 1 and named(said, CHANGED) == changed, f"{changed} change beside {damaged}: status {status}: {said}")
        hold(named(said, "differs from the checksums") == [damaged] * bool(damaged), f"{damaged} differs: {said}")
        hold("repaired 0 fragments, 0 bytes (0 unchecked)" in said and there(store) == before, f"{changed} change: {said}")


def of_disks(place, choose, *names):
    """Encodes files into a store with a folder for each disk."""
    sources = [source(place, name, choose.randbytes(700 + 100 * number)) for number, name in enumerate(names)]
    run("encode", "--make-folders", *DISKS, place / "kept", *sources, status=0)
    return place / "store", place / "kept"


def from_first(calls, words, store, kept, kind, path):
    """How a command ends where its first call of a kind at a path fails, and all after it of its kind."""
    anew(store, kept)
    for number, other in enumerate(calls.run(words).kinds, 1):
        if other == kind:
            anew(store, kept)
            ended = calls.run(words, number, errno.EIO, "kind")
            if ended.paths[0] == str(path):
                return ended
    raise Fault(f"{words}: no {kind} is of {path}")


def test_each_folder_that_cannot_be_listed(place, choose):
    """Each folder of a disk that can't be listed is named, with what follows, and the status is that of a device."""
    calls = Calls(place, forks=True)
    store, kept = of_disks(place, choose, "a", "b")
    to, other = place / "to", source(place, "c", choose.randbytes(80))
    for name in FOLDERS:
        (to / name).mkdir(parents=True)
    counts, stays = "what should be in it counts as lost", "what runs that were killed have left there stays"
    alone = ("--workers", "1")
    for words, folder, why in ((("list", *DISKS, store), store, counts), (("lost", *DISKS, store), store, counts),
                               (("scrub", *DISKS, store, *alone), store, counts), (("verify", *DISKS[:2], store), store, counts),
                               (("repair", *DISKS, store, *alone), store, counts), (("repair", *DISKS, store, "--dry-run"), store, counts),
                               (("repair", *DISKS, store, "--to", to, *alone), to, stays),
                               (("encode", *DISKS, store, other), store, stays)):
        ended = from_first(calls, [Program.path, *words], store, kept, "list", folder / "disk0")
        said = [re.escape(f"rebuild-store: {folder}/{name}: {ERROR}: {why}\n") for name in FOLDERS]
        hold(ended.status == 3 and all(len(re.findall(f"^{it}", ended.err, re.M)) == 1 for it in said), f"{words}: {ended.text()}")


def test_each_copy_that_cannot_be_read(place, choose):
    """Each copy of a description that can't be read is named once, of each file."""
    calls = Calls(place, forks=True)
    store, kept = of_disks(place, choose, "a", "b")
    copies = sorted(f"{folder}/{name}.file" for folder in FOLDERS for name in "ab")
    for command in (("list",), ("lost",), ("scrub", "--workers", "1"), ("repair", "--workers", "1"), ("repair", "--dry-run")):
        ended = from_first(calls, [Program.path, *command, *DISKS, store], store, kept, "read", store / "disk0/a.file")
        said = re.findall(rf"^(?:rebuild-store: )?(\S+\.file): can't be read: {ERROR}$", ended.out + ended.err, re.M)
        hold(ended.status == 3 and sorted(said) == copies, f"{command}: {ended.text()}")
        counted = re.search(r"0 damaged, (\d+) lost|not possible: (\d+)", ended.out)
        every = len(re.findall(rf": can't be read: {ERROR}$", ended.out + ended.err, re.M))
        hold(not counted or int(counted[1] or counted[2]) == every, f"{command}: {every} are said: {ended.text()}")


def test_each_leftover(place, choose):
    """What killed runs left is removed and named, each file, in the store's folder and in each that a link leads to; where it can't be
    removed, or such a folder can't be listed, each is named too."""
    calls, store, kept = Calls(place, forks=True), place / "store", place / "kept"
    files = lay(kept, choose)
    outside = {name: place / f"outside-{name}" for name in ("x0", "x2", "p1")}
    left = [folder / f".rebuild-store-{number}123456789abcdef" for folder in (store, *outside.values()) for number in range(3)]
    for name, folder in outside.items():
        folder.mkdir()
        (kept / f"s.{name}").rename(folder / "end")
        (kept / f"s.{name}").symlink_to(folder / "end")
    commands = [("repair", store, *CODE, "--workers", "1"), ("encode", store, source(place, "c", choose.randbytes(80))),
                ("remove", store, "s")]

    def begun():
        shutil.rmtree(store, ignore_errors=True)
        shutil.copytree(kept, store, symlinks=True)
        for name, folder in outside.items():
            lay_files(folder, {"end": files[f"s.{name}"]})
        for path in left:
            path.write_bytes(b"half")

    def is_of_leftover(number):
        begun()
        return calls.run(words, number, errno.EIO).paths[0] in map(str, left)

    for command in commands:
        words = [Program.path, *command, "--follow-links"]
        begun()
        ended = calls.run(words)
        lines = [f"rebuild-store: {path}: was left by a run that was killed, and is removed" for path in left]
        hold(sorted(it for it in ended.err.splitlines() if "was left" in it) == sorted(lines), f"{command}: {ended.text()}")
        hold(not any(path.exists() for path in left), f"{command}: {ended.text()}")
        unlinks, lists = ([number for number, other in enumerate(ended.kinds, 1) if other == kind] for kind in ("unlink", "list"))
        first = next(number for number in unlinks if is_of_leftover(number))
        begun()
        ended = calls.run(words, first, errno.EIO, "kind")
        said = [line for line in ended.err.splitlines() if line.endswith(f": is left over, and can't be removed: {ERROR}")]
        hold(ended.status == 3 and sorted(line.split(": ")[1] for line in said) == sorted(map(str, left)), f"{command}: {ended.text()}")
        for number in lists:
            begun()
            ended = calls.run(words, number, errno.EIO, "kind")
            if ended.paths[0] in map(str, outside.values()):
                break
        said = [line for line in ended.err.splitlines() if line.endswith(f": {ERROR}: what runs that were killed have left there stays")]
        hold(ended.status == 3 and sorted(line.split(": ")[1] for line in said) == sorted(map(str, outside.values())),
             f"{command}: {ended.text()}")


def test_outputs_that_lead_to_each_file(place, choose):
    """No file is read through a link to another name of one of the stripe's files, whichever, of either code, or of the digests; nor into
    the folder of any disk."""
    for code, count in (("6-2-2", 10), ("12-2-2", 16)):
        where = place / code
        where.mkdir()
        store, link, other = where / "store", where / "link", where / "other"
        run("encode", "--make-folders", *DISKS[:2], "--code", code, store, source(where, "a", choose.randbytes(900)), status=0)
        files = there(store)
        hold(len(files) == 2 * count + 1, f"{sorted(files)}")
        link.symlink_to(other.name)
        for name in files:
            os.link(store / name, other)
            said = run("read", *DISKS[:2], store, "a", "-o", link, status=2)
            hold(said == f"rebuild-store: {link}: leads to a file of the store\n" and there(store) == files, f"{name}: {said}")
            other.unlink()
        for number in range(count):
            path = store / f"disk{number}/new"
            said = run("read", *DISKS[:2], store, "a", "-o", path, status=2)
            hold(said == f"rebuild-store: {path}: is in a folder of the store\n" and there(store) == files, f"{path}: {said}")


def test_removal_of_each_file_that_is_left(place, choose):
    """A file of which one fragment or description alone is left, whichever, is taken out, and nothing else."""
    for names in (DISKS, ()):
        where = place / str(len(names))
        store, kept = where / "store", where / "kept"
        where.mkdir()
        run("encode", "--make-folders", *names, kept, *(source(where, name, choose.randbytes(700)) for name in "ab"), status=0)
        files = there(kept)
        own = {name for name in files if name.split("/")[-1].split(".")[0] == "a"}
        hold(len(own) == (20 if names else 12), sorted(own))
        for name in sorted(own):
            shutil.rmtree(store, ignore_errors=True)
            lay_files(store, {other: data for other, data in files.items() if other == name or other not in own})
            said = run("remove", *names, store, "a", status=0)
            left = there(store)
            sums = left.pop("SHA256SUMS").decode()
            hold(left == {other: files[other] for other in files if other not in own | {"SHA256SUMS"}}, f"{name}: {sorted(left)}: {said}")
            hold(sorted(line[66:] for line in sums.splitlines()) == sorted(left), f"{name}: {sums}")


def test_removal_beside_each_description_of_another_file(place, choose):
    """What is named as a fragment of a file, and is a description of another one, on whichever disk, isn't taken out as that file's."""
    store, kept = of_disks(place, choose, "a")
    files = there(kept)
    for kept_at in FOLDERS:
        shutil.rmtree(store, ignore_errors=True)
        lay_files(store, {name: data for name, data in files.items() if not name.endswith("/a.file") or name == f"{kept_at}/a.file"})
        before = there(store)
        said = run("remove", *DISKS, store, "a.file", status=1)
        hold("a.file: is no file of the store" in said and there(store) == before, f"{kept_at}: {said}")


def test_each_folder_that_is_a_link(place, choose):
    """A file isn't taken out, replaced or encoded where the folder of a disk, whichever, is a link that isn't followed."""
    store, kept = of_disks(place, choose, "a")
    new, replacement = source(place, "c", choose.randbytes(80)), source(place, "a", choose.randbytes(800))
    for name in FOLDERS:
        anew(store, kept)
        (store / name).rename(place / "away")
        (store / name).symlink_to(place / "away")
        before = there(store), there(place / "away")
        for words in (("remove", *DISKS, store, "a"), ("encode", *DISKS, store, new),
                      ("encode", "--replace", *DISKS, store, replacement)):
            said = run(*words, status=3)
            hold(re.search(rf"/{name}(/\S+)?: its folder is a link, and links aren't followed$", said, re.M), f"{words}: {said}")
            hold((there(store), there(place / "away")) == before, f"{words}: {sorted(there(store))}: {said}")
        shutil.rmtree(place / "away")


def test_each_name_that_is_taken(place, choose):
    """A file isn't encoded where one of its names, whichever, is that of other bytes, nor replaced where one is that of no regular file;
    and nothing else is made or changed."""
    for names, count in ((DISKS, 20), ((), 12)):
        where = place / str(count)
        where.mkdir()
        store, kept = where / "store", where / "kept"
        old, new = source(where, "a", choose.randbytes(700)), source(where, "other", choose.randbytes(800))
        run("encode", "--make-folders", *names, kept, old, status=0)
        own = sorted(there(kept).keys() - {"SHA256SUMS"})
        hold(len(own) == count, own)
        for name in own:
            shutil.rmtree(store, ignore_errors=True)
            lay_files(store, {name: b"another"})
            said = run("encode", "--make-folders", *names, store, old, status=1)
            hold(f"{name}: is " in said and there(store) == {name: b"another"}, f"{name}: {sorted(there(store))}: {said}")
            anew(store, kept)
            (store / name).unlink()
            (store / name).mkdir()
            before = there(store)
            said = run("encode", "--replace", "--as", "a", *names, store, new, status=1)
            hold(f"{name}: is no regular file, and isn't replaced" in said and there(store) == before, f"{name}: {said}")


def test_rights_by_each_file(place, choose):
    """A description that is made again where no copy is left has the rights that all files of its stripe give, and is its user's alone if
    one of them, whichever, has another owner."""
    store, kept = place / "store", place / "kept"
    run("encode", kept, source(place, "a", choose.randbytes(700)), status=0)
    for name in ("a.file", "a.file.copy"):
        (kept / name).unlink()
    for path in kept.glob("a.*"):
        path.chmod(0o644)
    for name in sorted(path.name for path in kept.glob("a.*")):
        for rights, owner, right in ((0o640, 0, 0o640), (0o644, 1, 0o600)):
            if owner and os.geteuid():
                continue
            anew(store, kept)
            (store / name).chmod(rights)
            os.chown(store / name, owner or -1, -1)
            run("repair", *CODE, store, status=0)
            found = [(store / made).stat().st_mode & 0o777 for made in ("a.file", "a.file.copy")]
            hold(found == [right, right], f"{name} with {rights:o} of {owner}: {[oct(it) for it in found]}")


def test_limit_on_each_stripe(place, choose):
    """A repair is refused where a fragment of one stripe, whichever, can't be written for its length, and of the others none is made."""
    store, kept = place / "store", place / "kept"
    lay(kept, choose, ("a", "b", "c"), length=300)
    limited = ("bash", "-c", 'ulimit -f 1; exec "$@"', "bash")
    for long in "abc":
        anew(store, kept)
        lay(store, choose, (long,), length=1_500)
        for name in "abc":
            (store / f"{name}.x0").unlink()
        before = there(store)
        said = run("repair", *CODE, store, status=1, before=limited)
        hold(said == f"rebuild-store: {long}: would have 1500 bytes, and no file may get more than 1024 here: ulimit -f\n", said)
        hold(there(store) == before, f"{long}: {sorted(there(store))}")


def test_links_to_each_file_of_the_run(place, choose):
    """Where links are followed, nothing is made or replaced through one that leads to the list of stripes or to the digests of the run; and
    the report and the counters, also both, aren't written where one leads."""
    store, end, other = place / "store", place / "end", place / "other"
    files = lay(store, choose, length=40)
    (store / "s.x0").unlink()
    (store / "s.x0").symlink_to(end)
    del files["s.x0"]
    command = ("repair", "--follow-links", "--replace-damaged", *CODE, store)
    for words, text in ((("--stripes", end), "s\n"), (("--sums", end), ""), (("--sums", end, "--stripes", other), ""),
                        (("--stripes", end, "--report", place / "report", "--progress", place / "counters"), "s\n")):
        end.write_text(text)
        other.write_text("s\n")
        said = run(*command, *words, status=3)
        hold("s.x0: can't be put in its place: another name leads there too\n" in said, f"{words}: {said}")
        hold((store / "s.x0").is_symlink() and end.read_text() == text, f"{words}: {said}")
    for words in (("--report", end), ("--progress", end), ("--report", end, "--progress", other), ("--report", other, "--progress", end)):
        end.write_text("")
        said = run(*command, *words, status=2)
        hold(f"{end}: is a file of the store, and no place for a report\n" in said and end.read_text() == "", f"{words}: {said}")
        # Where nothing is yet, the file of the run has the place first.
        end.unlink()
        said = run(*command, *words, status=3)
        hold("s.x0: can't be put in its place: another name leads there too\n" in said, f"{words}: {said}")
        hold({name: data for name, data in there(store).items() if name != "s.x0"} == files, f"{words}: {said}")
        end.unlink(missing_ok=True)
    (store / "s.x0").unlink()
    for words in (("--report", store / "s.x0", "--progress", other), ("--report", other, "--progress", store / "s.x0")):
        said = run(*command, *words, status=2)
        hold("s.x0: is a file of the store, and no place for a report\n" in said and there(store) == files, f"{words}: {said}")


def test_removal_of_each_that_was_begun(place, choose):
    """Of several files that are to be taken out, each of which there is anything is, also if that is what was to replace it, and nothing
    else is in the store."""
    store = place / "store"
    for name in "abc":
        lay_files(store, {f"{name}.rebuild-store-new.x1": choose.randbytes(9)})
        said = run("remove", store, *"abc", status=1)
        others = [f"rebuild-store: {other}: is no file of the store {store}" for other in "abc" if other != name]
        hold(said.splitlines() == [*others, "removed 1 file; not removed: 2"] and there(store) == {}, f"{name}: {said}")


def test_each_link_in_a_circle(place, choose):
    """Each fragment that is a link in a circle is named, and stays, and the others are made."""
    store = place / "store"
    files = lay(store, choose)
    (store / "s.y2").unlink()
    for names in (("s.x0",), ("s.x0", "s.p1"), ("s.x1", "s.y0", "s.p0")):
        for name in names:
            (store / name).unlink()
            (store / name).symlink_to(name)
        said = run("repair", "--follow-links", *CODE, store, status=3)
        hold(named(said, f"can't be looked at: {os.strerror(errno.ELOOP)}") == sorted(names), said)
        hold(all((store / name).is_symlink() for name in names), said)
        hold(len(names) > 2 or (store / "s.y2").read_bytes() == files["s.y2"], f"{names}: {said}")
        for name in names:
            (store / name).unlink()
            (store / name).write_bytes(files[name])
        (store / "s.y2").unlink(missing_ok=True)


def test_each_link_in_a_circle_elsewhere(place, choose):
    """Of fragments that are made in another folder each that would come to a link in a circle there, or in a folder that is one, is named,
    and the others are made."""
    store, to = place / "store", place / "to"
    files = lay(store, choose)
    for name in ("s.x0", "s.y1", "s.p1"):
        (store / name).unlink()
    for names in (("s.x0",), ("s.x0", "s.p1"), ("s.x0", "s.y1", "s.p1")):
        for folder, why in (("", "invalid input parameter"), ("loop/", os.strerror(errno.ELOOP))):
            shutil.rmtree(to, ignore_errors=True)
            to.mkdir()
            (to / "loop").symlink_to("loop")
            for name in names:
                (to / name).symlink_to(folder + name)
            said = run("repair", "--follow-links", *CODE, store, "--to", to, status=3)
            hold(named(said, f"can't be put in its place: {why}") == sorted(names), said)
            hold(there(to) == {name: files[name] for name in ("s.x0", "s.y1", "s.p1") if name not in names}, f"{names}: {said}")


def test_stripe_that_fits_beside_others(place, choose):
    """A store isn't another one if one of its stripes fits the code, whichever."""
    store, kept = place / "store", place / "kept"
    files = lay(kept, choose, ("a", "b", "c"))
    for fits in "abc":
        anew(store, kept)
        for other in "abc":
            if other != fits:
                lay_files(store, {name: choose.randbytes(600) for name in files if name.startswith(f"{other}.")})
        (store / f"{fits}.x0").unlink()
        said = run("repair", store, status=0)
        hold((store / f"{fits}.x0").read_bytes() == files[f"{fits}.x0"], f"{fits}: {said}")
    for name in files:
        (store / name).write_bytes(choose.randbytes(600))
    (store / "b.x0").unlink()
    said = run("repair", store, status=1)
    hold("no stripe fits the code 6-2-2" in said, said)


def test_each_file_of_unread_descriptions_alone(place, choose):
    """Each file of which descriptions alone are left is there, lost, also where none of these can be read."""
    calls, store, kept = Calls(place, forks=True), place / "store", place / "kept"
    run("encode", kept, *(source(place, name, choose.randbytes(700)) for name in "abc"), status=0)
    for path in [*kept.glob("?.??"), kept / "SHA256SUMS"]:
        path.unlink()
    for copies in (("file", "file.copy"), ("file",)):
        ended = from_first(calls, [Program.path, "list", *CODE, store], store, kept, "read", store / "a.file")
        hold(ended.status == 3 and sorted(ended.out.splitlines()) == [f"lost - 6-2-2 0/10 {name}" for name in "abc"], ended.text())
        said = re.findall(rf"^rebuild-store: (\S+): can't be read: {ERROR}$", ended.err, re.M)
        hold(sorted(said) == sorted(f"{name}.{copy}" for name in "abc" for copy in copies), ended.text())
        for name in "abc":
            (kept / f"{name}.file.copy").unlink(missing_ok=True)


def test_bytes_of_each_file(place, choose):
    """The line that shows how far a command is has the bytes of all files that are given."""
    store, record = place / "store", place / "record"
    record.write_bytes(bytes(RECORD_SIZE))
    # As from a slow disk, so that there is a line.
    slow = {"LD_PRELOAD": str(Calls(place).file), "FAIL_RECORD": str(record), "FAIL_NUMBER": "10", "FAIL_HOW": "slow"}
    sources = [source(place, name, bytes(2**17 * size)) for name, size in (("a", 1), ("b", 2), ("c", 5))]
    for words in (("encode", store, *sources), ("verify", store), ("verify", store, "a", "b", "c"), ("verify", store, "c", "a", "b")):
        store.mkdir(exist_ok=True)
        try:
            ours, theirs = pty.openpty()
        except OSError as error:
            raise Skipped(f"no terminal can be made here: {error}") from None
        status = subprocess.run([Program.path, *words], stdout=subprocess.DEVNULL, stderr=theirs, env={**os.environ, **slow}).returncode
        said = shown(ours, theirs)
        hold(status == 0 and set(re.findall(r"\d/3 files  [\d.]+/(\S+ \S+)", said)) == {"1.0 MiB"}, f"{words}: {said!r}")


def test_parts_by_each_digest(place, choose):
    """What describes a file isn't taken for a fragment of another one in any part of the store, if digests name a fragment of the file,
    whichever."""
    store = place / "store"
    run("encode", "--make-folders", *DISKS, store, source(place, "a", choose.randbytes(700)), status=0)
    lines = (store / "SHA256SUMS").read_text().splitlines(True)
    for folder in FOLDERS:
        (store / "SHA256SUMS").write_text("".join(line for line in lines if line.endswith((".file\n", f" {folder}/a\n"))))
        for count in (2, 3):
            said = [run("scrub", *DISKS, store, "--part", f"{part}/{count}", status=0) for part in range(1, count + 1)]
            found = sorted(line.split(":")[0] for text in said for line in text.splitlines())
            hold(found == ["scrubbed 0 stripes"] * (count - 1) + ["scrubbed 1 stripe"], f"{folder}: {said}")


def test_each_name_of_what_was_begun(place, choose):
    """A file isn't read where nobody knows what replaces it, and a fragment of that, whichever, has a name of the file already."""
    for code, count in (("6-2-2", 10), ("12-2-2", 16)):
        where = place / code
        store = where / "store"
        where.mkdir()
        run("encode", "--make-folders", "--code", code, store, source(where, "a", choose.randbytes(1_700)), status=0)
        fragments = [path for path in store.glob("a.??")]
        hold(len(fragments) == count, fragments)
        for copy in ("file", "file.copy"):
            (store / f"a{STAGED}.{copy}").write_bytes(b"odd\n")
        for path in fragments:
            other = store / path.name.replace("a.", f"a{STAGED}.")
            os.link(path, other)
            said = run("read", store, "a", "-o", where / "read", status=1)
            hold("isn't a line with a length, a digest and a code" in said and not (where / "read").exists(), f"{path.name}: {said}")
            other.unlink()
            shutil.copy(path, other)
            run("read", store, "a", "-o", where / "read", status=0)
            (where / "read").unlink()
            other.unlink()


if __name__ == "__main__":
    try_all("store-several", globals(), *sys.argv[1:3])
