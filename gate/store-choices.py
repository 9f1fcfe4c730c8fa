#!/usr/bin/env python3
"""Tries rebuild-store where two of its choices meet: links that are followed beside what a run is given or writes elsewhere, folders that
can't be listed, stores of which no stripe fits, limits on what is there already.

    store-choices.py [PROGRAM [TEST]]

It runs what was built last, or PROGRAM, and of the tests those whose names have TEST in them."""

import contextlib
import errno
import json
import os
import pathlib
import pty
import resource
import shutil
import subprocess
import sys

# No compiled copy of the modules is left beside them.
sys.dont_write_bytecode = True
ROOT = pathlib.Path(__file__).resolve().parent.parent
sys.path.append(str(ROOT / "tools"))
import refusals  # noqa: E402
from faults import Calls  # noqa: E402
from stores import SECONDS, Program, Skipped, digest, hold, lay, lay_files, run, source, there, try_all, write_sums  # noqa: E402

CODE = ["--code", "6-2-2"]
DISKS = ["--names", "disk{shard}/{stripe}", *CODE]
BELOW = ["--names", "disk{shard}/k/{stripe}", *CODE]
DIGITS = "0123456789abcdef"
LEFTOVER = f".rebuild-store-{DIGITS}"
REMOVED = "was left by a run that was killed, and is removed"
SHARED = "can't be put in its place: another name leads there too"
CIRCLE = os.strerror(40)


def link(path, end):
    """Makes a link in place of what is at a path."""
    path.unlink(missing_ok=True)
    path.symlink_to(end)


def part_of(name, count):
    """Of which part of so many a stripe is, from 1."""
    return int(digest(name.encode())[:16], 16) % count + 1


def test_links_to_what_a_run_is_given(place, choose):
    """Nothing is made or replaced where the list of stripes, the digests, a report or counters are."""
    for option in ("--stripes", "--report", "--progress", "--sums", None):
        store = place / str(option) / "store"
        lay(store, choose, ("a", "b"))
        end = store.parent / "end"
        if option == "--stripes":
            end.write_text("a\n")
        elif option in ("--sums", None):
            write_sums(store)
            (store / "SHA256SUMS").rename(end)
        if option is None:
            (store / "SHA256SUMS").symlink_to("../end")
        link(store / "a.x1", "../end")
        bytes_there = end.read_bytes() if end.exists() else None
        for more in (["--dry-run"], []):
            if bytes_there is None:
                end.unlink(missing_ok=True)
            said = run("repair", "--follow-links", "--replace-damaged", *more, *([option, end] if option else []), store, status=3)
            hold(f"a.x1: {SHARED}\n" in said and ("; 0 can be rebuilt" if more else "repaired 0 ") in said, f"{option}: {said}")
            # A report and counters come when the work is done.
            begin = {"--report": b"stripe,place,", "--progress": b"rebuild_store_"}.get(option)
            hold(end.read_bytes().startswith(begin) if begin else end.read_bytes() == bytes_there, f"{option}: {end.read_bytes()[:99]}")
            hold((store / "a.x1").is_symlink() and not (store / "a.x1.damaged").is_symlink(), f"{option}: {sorted(there(store))}")


def test_outputs_in_a_circle(place, choose):
    """A report or counters of which isn't known where they are end a run before it does anything, and a relative path is held to the
    store's names as well."""
    store = place / "store"
    files = lay(store, choose)
    files.pop("s.x1")
    (store / "s.x1").unlink()
    for name, end in (("one", "two"), ("two", "one")):
        (place / name).symlink_to(end)
    for command in ("scrub", "repair"):
        for option in ("--report", "--progress"):
            said = run(command, option, place / "one", store, status=3)
            hold(said.startswith(f"rebuild-store: {place}/one: ") and said.count("\n") == 1, said)
            hold(there(store) == files and (place / "one").is_symlink(), f"{option}: {sorted(there(store))}")
    (store / "s.x1").symlink_to("../end")
    for option in ("--report", "--progress"):
        said = run("repair", "--follow-links", option, "end", store, status=3, cwd=place)
        hold(f"s.x1: {SHARED}\n" in said and "repaired 0 " in said, f"{option}: {said}")
        (place / "end").unlink()


def test_links_of_another_folder(place, choose):
    """What links in the folder of --to lead to is held to the other names there and in the store."""
    store, to, end = place / "store", place / "to", place / "end"
    files = lay(store, choose, ("a", "b"))
    to.mkdir()
    for name in ("a.x1", "b.y1"):
        (store / name).unlink()
        (to / name).symlink_to(end)
    before = there(place)
    said = run("repair", "--follow-links", "--to", to, store, status=3)
    hold(all(f"{name}: {SHARED}\n" in said for name in ("a.x1", "b.y1")) and there(place) == before, said)
    # Nor is a fragment made where it would be another one of the store.
    (to / "b.y1").unlink()
    (store / "b.y1").symlink_to(end)
    said = run("repair", "--follow-links", "--to", to, store, status=3)
    hold(f"a.x1: {SHARED}\n" in said and f"b.y1: {SHARED}\n" not in said, said)
    hold(not end.exists() and there(to) == {"b.y1": files["b.y1"]}, f"{sorted(there(place))}")
    # So it is if its link there leads to one of the store that is lost.
    for path in (to / "a.x1", to / "b.y1", store / "b.y1"):
        path.unlink()
    (to / "a.x1").symlink_to(store / "b.y1")
    said = run("repair", "--follow-links", "--to", to, store, status=3)
    hold(f"a.x1: {SHARED}\n" in said and not (store / "b.y1").exists() and there(to) == {"b.y1": files["b.y1"]}, said)


def test_other_folders_of_two_names(place, choose):
    """Two folders of disks in the folder of --to that are one get no fragments, also if those of the store are several."""
    store, to, both = place / "store", place / "to", place / "both"
    files = lay(store, choose, ("a",), pattern="disk{shard}/{stripe}")
    for folder in (to, both, *(to / f"disk{number}" for number in range(10) if number not in (2, 3))):
        folder.mkdir()
    for number in (2, 3):
        (to / f"disk{number}").symlink_to(both)
        (store / f"disk{number}/a").unlink()
    (store / "disk5/a").unlink()
    said = run("repair", "--follow-links", *DISKS, "--to", to, store, status=3)
    hold(all(f"disk{number}/a: {SHARED}\n" in said for number in (2, 3)), said)
    hold(not [*both.iterdir()] and there(to) == {"disk5/a": files["disk5/a"]}, f"{sorted(there(place))}: {said}")
    # If it is the store's folders that are one, the other folder's get theirs.
    for number in (2, 3):
        (to / f"disk{number}").unlink()
        (to / f"disk{number}").mkdir()
        shutil.rmtree(store / f"disk{number}")
        (store / f"disk{number}").symlink_to(both)
    (to / "disk5/a").unlink()
    run("repair", "--follow-links", *DISKS, "--to", to, store, status=0)
    hold(there(to) == {f"disk{number}/a": files[f"disk{number}/a"] for number in (2, 3, 5)}, f"{sorted(there(to))}")


def test_links_below_files(place, choose):
    """A link that leads below a file has no folder in which runs could have left something: only the fragment is named."""
    store = place / "store"
    lay(store, choose)
    (place / "file").write_bytes(b"no folder")
    link(store / "s.x1", place / "file/x")
    said = run("repair", "--follow-links", store, status=3)
    hold(f"s.x1: can't be looked at: {os.strerror(20)}\n" in said and "stays" not in said, said)


def test_names_beside_linked_fragments(place, choose):
    """In a folder to which links lead a name that is no UTF-8 is left alone, and what a killed run left there goes."""
    store, moved = place / "store", place / "moved"
    files = lay(store, choose)
    moved.mkdir()
    for name in ("s.x1", "s.y2"):
        (store / name).rename(moved / name)
        (store / name).symlink_to(moved / name)
    (moved / "s.y2").unlink()
    odd = os.fsencode(moved) + b"/no-text-\xff"
    for path in (odd, moved / LEFTOVER):
        with open(path, "wb") as file:
            file.write(b"left")
    said = run("repair", "--follow-links", store, status=0)
    hold(f"rebuild-store: {moved}/{LEFTOVER}: {REMOVED}\n" in said and said.count("rebuild-store: ") == 1, said)
    hold(sorted(os.listdir(os.fsencode(moved))) == [os.path.basename(odd), b"s.x1", b"s.y2"], f"{os.listdir(moved)}")
    hold((moved / "s.y2").read_bytes() == files["s.y2"], "another fragment was made")


def test_store_of_which_no_stripe_fits(place, choose):
    """A stripe without bytes says nothing of a store's code, and one that differs in its last bytes doesn't fit; of a part nothing is
    refused, since others may be whole."""
    store = place / "store"
    files = lay(store, choose, ("a",)) | lay(store, choose, ("empty",), length=0)
    files |= lay(store, choose, ("b",))
    names = [f"{name}.{end}" for name in "ab" for end in ("x0", "x2", "y1", "px", "p1")]
    for name in names:
        files[name] = files[name][:-1] + bytes([files[name][-1] ^ choose.randrange(1, 256)])
    files.pop("empty.x0")
    lay_files(store, files)
    (store / "empty.x0").unlink()
    line = f"rebuild-store: {store}: no stripe fits the code 6-2-2, as a: is this the store? With --code 6-2-2 each is named\n"
    for more in ([], ["--dry-run"]):
        said = run("repair", *more, store, status=1)
        hold(said == line and there(store) == files, said)
    more = ["--part", f"{part_of('a', 2)}/2"]
    contradiction = "a: contradiction, and which fragment is damaged can't be told\n"
    for words in (more, CODE):
        said = run("repair", "--reads", "all", *words, store, status=1)
        hold(contradiction in said and "no stripe fits" not in said, said)


def test_highest_status(place, choose):
    """Of several reasons to refuse a store that with the highest status ends the run: before digests that are none, a path that isn't one
    for a report, a folder of another user, and a list of stripes that can't be read."""
    store = place / "store"
    lay(store, choose)
    (store / "SHA256SUMS").write_text("no digest\n")
    bad = f"rebuild-store: {store}/SHA256SUMS: line 1 isn't as sha256sum writes it"
    of_report = f"rebuild-store: {store}/s.x3: is a file of the store, and no place for a report\n"
    of_list = f"rebuild-store: {place}/names: {os.strerror(2)}\n"
    tries = [(command, *case) for command in ("scrub", "repair") for case in (
        ([], bad, 1), (["--report", store / "s.x3"], of_report, 2), (["--progress", store / "s.x3"], of_report, 2),
        (["--stripes", place / "names"], of_list, 3))]
    for command, words, line, status in tries:
        said = run(command, *words, store, status=status)
        hold(said.startswith(line) and said.count("\n") == 1, f"{command} {words}: {said}")
    if os.geteuid() == 0:
        os.chown(store, 7, 7)
        said = run("repair", store, status=2)
        hold(said.startswith(f"rebuild-store: {store}: user 7 or others may write there") and said.count("\n") == 1, said)
        said = run("repair", "--trust-writers", store, status=1)
        hold(said.startswith(bad), said)


def test_disks_whose_folders_cannot_be_listed(place, choose):
    """A folder that can't be listed is said once, and not again for those of disks below it; and so is one of the folder of --to, whose
    others get their fragments."""
    store, to = place / "store", place / "to"
    lay(store, choose, ("a",), pattern="disk{shard}/k/{stripe}")
    shutil.rmtree(store / "disk3")
    (store / "disk3").symlink_to("disk3")
    line = f"rebuild-store: {store}/disk3: {CIRCLE}: what should be in it counts as lost\n"
    for command in (["scrub"], ["repair", "--dry-run"], ["repair"], ["lost"], ["list"]):
        said = run(*command, "--follow-links", *BELOW, store, status=3)
        hold(said.count(line) == 1 and said.count(f"{store}/disk3") == 1, f"{command}: {said}")
    files = lay(place / "other", choose, ("a",), pattern="disk{shard}/{stripe}")
    (place / "other/disk0/a").unlink()
    for number in (0, 1):
        (to / f"disk{number}").mkdir(parents=True)
    (to / "disk7").symlink_to("disk7")
    said = run("repair", "--follow-links", *DISKS, "--to", to, place / "other", status=3)
    line = f"rebuild-store: {to}/disk7: {CIRCLE}: what runs that were killed have left there stays\n"
    hold(said.count(line) == 1 and said.count("rebuild-store: ") == 1, said)
    hold(there(to) == {"disk0/a": files["disk0/a"]}, f"{sorted(there(to))}: {said}")


def test_root_beside_folders_of_others(place, choose):
    """Root is refused where a folder is another user's that the run writes into, and not because of one that it reads, or to which only a
    link leads that no fragment has."""
    if os.geteuid():
        raise Skipped("only root can give a folder away")
    store, to, others = place / "store", place / "to", place / "others"
    files = lay(store, choose)
    (store / "s.x1").unlink()
    for folder in (to, others):
        folder.mkdir()
    (others / "thing").write_bytes(b"of another")
    (to / "notes").symlink_to(others / "thing")
    for folder in (store, others):
        os.chown(folder, 7, 7)
    run("repair", "--follow-links", "--to", to, store, status=0)
    hold(there(to) == {"s.x1": files["s.x1"]}, f"{sorted(there(to))}")
    (to / "s.x1").unlink()
    words = "user 7 or others may write there, and lead root elsewhere: run as that user, or give --trust-writers\n"
    (to / "s.x1").symlink_to(others / "new")
    said = run("repair", "--follow-links", "--to", to, store, status=2)
    hold(said == f"rebuild-store: {others}: {words}" and not (others / "new").exists(), said)
    (to / "s.x1").unlink()
    os.chown(store, 0, 0)
    os.chown(to, 7, 7)
    said = run("repair", "--to", to, store, status=2)
    hold(said == f"rebuild-store: {to}: {words}" and not (to / "s.x1").exists(), said)


def test_rows_behind_what_is_there(place, choose):
    """Rows are added to what a file has that is standard output, unless it would get longer than files may then."""
    store, output, limit = place / "store", place / "output", 4_000
    lay(store, choose)
    (store / "s.x1").unlink()
    row = {"stripe": "s", "place": "x1", "outcome": "left", "detail": "is lost"}
    for before in (limit - 5, limit - 500):
        output.write_bytes(b"-" * (before - 1) + b"\n")
        with open(output, "ab") as file:
            ended = subprocess.run([Program.path, "scrub", "--json", store], stdout=file, stderr=subprocess.PIPE, timeout=SECONDS,
                                   preexec_fn=lambda: resource.setrlimit(resource.RLIMIT_FSIZE, (limit, limit)))
        rows, said = output.read_bytes()[before:], ended.stderr.decode()
        if before == limit - 5:
            hold(ended.returncode == 3 and not rows, f"{ended}")
            hold("rebuild-store: standard output: would be longer than files may get here: ulimit -f\n" in said, said)
        else:
            hold(ended.returncode == 1 and [json.loads(it) for it in rows.splitlines()] == [row], f"{ended}: {rows}")


def on_terminal(*words, how):
    """What the program writes to a terminal on its standard error, with these variables, and its status."""
    try:
        ours, theirs = pty.openpty()
    except OSError as error:
        raise Skipped(f"no terminal can be made here: {error}") from None
    command, said = [Program.path, *map(str, words)], b""
    with subprocess.Popen(command, stdin=subprocess.DEVNULL, stdout=subprocess.DEVNULL, stderr=theirs, env=os.environ | how) as process:
        os.close(theirs)
        # A terminal that nobody writes to any more can't be read.
        with contextlib.suppress(OSError):
            while more := os.read(ours, 4_096):
                said += more
        os.close(ours)
        return said.decode(), process.wait(timeout=SECONDS)


def test_repairs_without_a_line(place, choose):
    """A repair shows no line on a terminal if it is quiet or a dry run. The run's clock goes on by what it sleeps alone."""
    store, library, record = place / "store", place / "skip-sleep.so", place / "slept"
    refusals.build(library, "skip-sleep.c", "-shared", "-fPIC")
    lay(store, choose, [f"s{number}" for number in range(9)], length=1_000)
    how = {"LD_PRELOAD": str(library), "SLEPT_RECORD": str(record)}
    for words, has_line in ((["--dry-run"], False), (["--quiet"], False), ([], True)):
        record.write_bytes(bytes(8))
        for path in store.glob("*.x1"):
            path.unlink()
        said, status = on_terminal("repair", "--reads", "all", "--rate", "1000", "-j", "1", *words, store, how=how)
        hold(status == int("--dry-run" in words) and ("repair: " in said) == has_line, f"{words}: status {status}: {said!r}")


def test_plan_over_the_limit(place, choose):
    """A dry run makes no file, so that it says what a repair would do also where files may not get as long as that; a repair is refused."""
    store, limit = place / "store", 400
    files = lay(store, choose)
    (store / "s.x1").unlink()

    def limited():
        resource.setrlimit(resource.RLIMIT_FSIZE, (limit, limit))

    said = run("repair", "--dry-run", store, status=1, preexec_fn=limited)
    hold("; 1 can be rebuilt (0 unchecked), 0 can't;" in said and "ulimit" not in said, said)
    said = run("repair", store, status=1, preexec_fn=limited)
    hold(said == f"rebuild-store: s: would have 600 bytes, and no file may get more than {limit} here: ulimit -f\n", said)
    # What isn't lost may be as long as it is.
    (store / "s.x1").write_bytes(files["s.x1"])
    run("repair", store, status=0, preexec_fn=limited)


def test_disks_that_cannot_be_looked_at(place, choose):
    """If the system refuses once to show the folder of a disk, that is said and gives the status of a device, wherever in a run it is."""
    calls, store, tried = Calls(place, forks=True), place / "store", 0
    lay(store, choose, ("a",), pattern="disk{shard}/{stripe}")
    for command in (["scrub"], ["lost"], ["list"], ["repair"], ["repair", "--dry-run"]):
        words = [Program.path, *command, *DISKS, *(["-j", "1"] if command[0] in ("scrub", "repair") else []), store]
        for number, kind in enumerate(calls.run(words).kinds, 1):
            ended = calls.run(words, number, errno.EIO) if kind == "look" else None
            if ended and ended.paths[0] == str(store / "disk9"):
                tried += 1
                line = f"rebuild-store: {store}/disk9: {os.strerror(errno.EIO)}: what should be in it counts as lost\n"
                hold(ended.status == 3 and ended.err.count(line) == 1, f"{command}, call {number}: {ended.text()}")
    hold(tried >= 10, f"{tried} calls were tried")


if __name__ == "__main__":
    try_all("store-choices", globals(), *sys.argv[1:3])
