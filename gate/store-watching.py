#!/usr/bin/env python3
"""Tries how a repair and a scrub are watched and held back: rows that come as they are known, counters for Prometheus in a file, a limit on
what is read in a second, and parts that look at nothing but their part.

    store-watching.py [PROGRAM]

Stores are made by an independent encoder, and each expected number is worked out here."""

import fcntl
import hashlib
import json
import os
import pathlib
import random
import re
import resource
import selectors
import signal
import stat
import subprocess
import sys
import tempfile
import time

# No compiled copy of the modules is left beside them.
sys.dont_write_bytecode = True
import refusals  # noqa: E402

ROOT = pathlib.Path(__file__).resolve().parent.parent
sys.path.append(str(ROOT / "tools"))
from store import stripe  # noqa: E402

PROGRAM = pathlib.Path(sys.argv[1] if sys.argv[1:] else ROOT / "crates/rebuild_store/out/rebuild_store").resolve()
# What a file of counters has, in order, while a command runs and at its end.
RUNNING = ["units", "units_done", "bytes", "bytes_done", "damaged", "left", "seconds"]
ENDED = [*RUNNING, "status", "end_seconds"]
LINE = re.compile(r'rebuild_store_(\w+)\{command="(\w+)",store="((?:[^"\\\n]|\\["\\n])*)"\} (\d+)')
passed = 0


def check(holds, what):
    """Counts what holds, and ends with what doesn't."""
    global passed
    if not holds:
        sys.exit(f"store-watching: {what}")
    passed += 1


def run(*arguments, status=0, **how):
    """Runs the program, holds its status to this one, and gives what it says on standard output and on standard error."""
    done = subprocess.run([PROGRAM, *map(str, arguments)], capture_output=True, text=True, timeout=300, **how)
    asked = " ".join(map(str, arguments))
    check(done.returncode == status, f"{asked}: status {done.returncode}, not {status}:\n{done.stdout}{done.stderr}")
    return done.stdout, done.stderr


def start(*arguments):
    """Starts the program."""
    return subprocess.Popen([PROGRAM, *map(str, arguments)], stdout=subprocess.PIPE, stderr=subprocess.PIPE, text=True)


def make(folder, choose, names, length, lost=("x1",)):
    """A store of stripes that have lost these places, and what all of it was."""
    folder.mkdir()
    all_of_it = {}
    for name in names:
        for place, data in stripe("6-2-2", length, choose).items():
            all_of_it[f"{name}.{place}"] = data
            if place not in lost:
                (folder / f"{name}.{place}").write_bytes(data)
    return all_of_it


def is_whole(folder, all_of_it):
    there = {path.name: path.read_bytes() for path in folder.iterdir()}
    return there == all_of_it


def counters(text, command, store):
    """The counters of a file by their names, each of which is there once and of this command over this store."""
    found = {}
    for line in text.splitlines():
        match = LINE.fullmatch(line)
        check(match, f"{line!r} is no counter")
        name, *labels, value = match.groups()
        check(labels == [command, store] and name not in found, f"{line!r} is of something else, or there twice")
        found[name] = int(value)
    check(list(found) in (RUNNING, ENDED) and text.endswith("\n"), f"other counters: {text!r}")
    return found


def rows_of(text):
    return [json.loads(line) for line in text.splitlines()]


def test_counters_at_the_end(place, choose):
    """The counters of a repair and of a scrub say what there was to do, what was done, and the status."""
    store, file, many, length = place / "s", place / "counters.prom", 7, 5_000
    all_of_it = make(store, choose, [f"a{k}" for k in range(many)], length, ("x1", "p0"))
    began = int(time.time())
    run("repair", "--progress", file, store)
    found = counters(file.read_text(), "repair", str(store))
    check(list(found) == ENDED and found["status"] == 0, f"{found}")
    check(found["units"] == found["units_done"] == 2 * many, f"{found}")
    check(found["bytes"] == found["bytes_done"] == 8 * many * length, f"{found}")
    check(found["damaged"] == found["left"] == 0, f"{found}")
    check(began <= found["end_seconds"] <= time.time() and found["seconds"] <= time.time() - began + 1, f"{found}")
    check(is_whole(store, all_of_it), "the store isn't whole")
    damaged = bytearray(all_of_it["a3.x0"])
    damaged[7] ^= 1
    (store / "a3.x0").write_bytes(damaged)
    run("scrub", "--progress", file, store, status=1)
    found = counters(file.read_text(), "scrub", str(store))
    check(found["units"] == found["units_done"] == many and found["damaged"] == 1 and found["status"] == 1, f"{found}")
    check(found["bytes"] == found["bytes_done"] == 10 * many * length, f"{found}")
    run("repair", "--reads", "all", "--replace-damaged", "--progress", file, store)
    found = counters(file.read_text(), "repair", str(store))
    check((found["damaged"], found["left"], found["status"]) == (1, 0, 0), f"{found}")
    (store / "a3.x0.damaged").unlink()
    check(is_whole(store, all_of_it), "the store isn't whole")
    (store / "a2.y1").unlink()
    (store / "a5.px").unlink()
    run("scrub", "--progress", file, store, status=1)
    found = counters(file.read_text(), "scrub", str(store))
    check(found["bytes"] == found["bytes_done"] == (10 * many - 2) * length and found["left"] == 2, f"{found}")
    check(found["damaged"] == 0, f"{found}")
    # What another length shows is left, and no damage, until it is replaced.
    (store / "a1.y0").write_bytes(b"short")
    for words, left in (([], 1), (["--replace-damaged"], 0)):
        run("repair", *words, "--progress", file, store, status=left)
        found = counters(file.read_text(), "repair", str(store))
        check((found["damaged"], found["left"], found["status"]) == (0, left, left), f"{words}: {found}")
        # What is lost of a stripe of files of two lengths counts once it is done.
        check((found["units"], found["units_done"]) == ((2, 2) if left else (0, 1)), f"{words}: {found}")


def test_counters_while_a_run_goes_on(place, choose):
    """Counters are written every five seconds at most, and say after each stripe how many are done, how many bytes these have and what was
    found, with digests or without. The run's clock goes on by what it sleeps alone."""
    store, fifo, library, record = (place / name for name in ("s", "fifo", "skip-sleep.so", "record"))
    refusals.build(library, "skip-sleep.c", "-shared", "-fPIC")
    many, length = 5, 1_000
    all_of_it = make(store, choose, [f"a{k}" for k in range(many)], length)
    os.mkfifo(fifo)
    # A repair reads as few as determine what is lost, which has its digest.
    for command, listed, files, left in (("scrub", (), 9, 1), ("scrub", ("a0.x0",), 9, 1), ("repair", all_of_it, 3, 0)):
        lines = "".join(f"{hashlib.sha256(all_of_it[name]).hexdigest()}  {name}\n" for name in listed)
        (store / "SHA256SUMS").write_text(lines) if lines else None
        record.write_bytes(bytes(8))
        # Who reads the FIFO has it open for all of the run, in which each stripe takes nine seconds.
        reader = os.open(fifo, os.O_RDWR | os.O_NONBLOCK)
        words = [command, "-j", "1", "--rate", files * length // 9, "--progress", fifo, store]
        run(*words, status=left, env={"LD_PRELOAD": library, "SLEPT_RECORD": record})
        sets = re.split(r"^(?=rebuild_store_units\{)", os.read(reader, 1 << 16).decode(), flags=re.M)[1:]
        os.close(reader)
        found = [counters(text, command, str(store)) for text in sets]
        check([list(it) for it in found] == [RUNNING] * many + [ENDED], f"{command}: {found}")
        done = [(it["units_done"], it["bytes_done"], it["left"]) for it in found]
        check(done == [(k, files * k * length, left * k) for k in (1, 2, 3, 4, 5, 5)], f"{command}, {len(listed)} digests: {done}")
        check(all(it["units"] == many and it["bytes"] == files * many * length for it in found), f"{command}: {found}")
        check(all(9 * it["units_done"] <= it["seconds"] <= 9 * it["units_done"] + 2 for it in found), f"{command}: {found}")


def test_counters_of_odd_names(place, choose):
    """A store's name is quoted as the format wants it."""
    store, file = place / 's"\\ \n', place / "counters"
    make(store, choose, ["a"], 10)
    run("scrub", "--progress", file, store, status=1)
    found = counters(file.read_text(), "scrub", str(store).replace("\\", "\\\\").replace('"', '\\"').replace("\n", "\\n"))
    check(found["status"] == 1 and found["left"] == 1, f"{found}")


def test_places_of_counters(place, choose):
    """A file of the store, a folder that isn't there and the report's own file are refused; rights and other things stay."""
    store, file = place / "s", place / "counters"
    all_of_it = make(store, choose, ["a", "b"], 10)
    before = {path.name: path.read_bytes() for path in store.iterdir()}
    for name in ("a.x1", "a.x0", "SHA256SUMS", "c.p1"):
        _, said = run("repair", "--progress", store / name, store, status=2)
        check(said == f"rebuild-store: {store / name}: is a file of the store, and no place for a report\n", said)
    (place / "link").symlink_to(store / "b.x1")
    run("repair", "--progress", place / "link", store, status=2)
    for command in ("repair", "scrub"):
        for option in ("--progress", "--report"):
            out, said = run(command, option, place / "none/counters", store, status=3)
            check(said == f"rebuild-store: {place / 'none/counters'}: No such file or directory\n" and not out, out + said)
    _, said = run("repair", "--report", file, "--progress", file, store, status=2)
    check(said == "error: --report and --progress take two files\n", said)
    check({path.name: path.read_bytes() for path in store.iterdir()} == before and not file.exists(), "something was written")
    file.write_text("old")
    file.chmod(0o640)
    run("repair", "--progress", file, "--report", place / "report", store)
    check(stat.S_IMODE(file.stat().st_mode) == 0o640 and "status" in file.read_text(), "rights or counters are lost")
    check((place / "report").read_text().count("\n") == 3 and is_whole(store, all_of_it), "another report, or another store")
    os.mkfifo(place / "fifo")
    reader = subprocess.Popen(["cat", place / "fifo"], stdout=subprocess.PIPE, text=True)
    run("scrub", "--progress", place / "fifo", store)
    check(counters(reader.communicate(timeout=300)[0], "scrub", str(store))["status"] == 0, "the FIFO has something else")
    check(stat.S_ISFIFO((place / "fifo").stat().st_mode), "the FIFO is gone")
    if os.path.exists("/dev/full"):
        for lost in (False, True):
            if lost:
                (store / "a.x1").unlink()
            _, said = run("scrub", "--progress", "/dev/full", store, status=3)
            check("rebuild-store: /dev/full: the counters can't be written: No space left on device\n" == said, said)


def test_rates(place, choose):
    """A number of bytes from 1, with K, M or G, is taken, and nothing else; the bytes of the limit are read in a second, and no more."""
    store, many, length = place / "s", 16, 64 * 1024
    names = [f"a{k}" for k in range(many)]
    all_of_it = make(store, choose, names, length)
    for text in ("0", "0G", "", "M", "1T", "1m", "5.5M", "-1", " 1", "18446744073709551615K", "99999999999G"):
        _, said = run("repair", f"--rate={text}", store, status=2)
        check(said == "error: --rate takes a number of bytes, from 1, as 500K, 50M or 1G\n", f"{text}: {said}")
    # 16 stripes with nine survivors of 64 KiB are 9 MiB: three seconds and no less.
    for workers in ("1", "8"):
        began = time.monotonic()
        run("repair", "--reads", "all", "--rate", "3M", "-j", workers, store)
        took = time.monotonic() - began
        check(2.9 <= took, f"{took} s with {workers} workers")
        check(is_whole(store, all_of_it), "the store isn't whole")
        for name in names:
            (store / f"{name}.x1").unlink()
    for rate in ("1G", "3221225472", "18446744073709551615"):
        run("repair", "--rate", rate, store)
        check(is_whole(store, all_of_it), "the store isn't whole")
        (store / "a3.x1").unlink()
    began = time.monotonic()
    run("scrub", "--rate=4096K", store, status=1)
    check(2.4 <= time.monotonic() - began, "a scrub isn't held back")
    # While it is stopped it reads nothing, and it doesn't make up for that.
    process, began = start("scrub", "--rate=8M", "-j", "1", store), time.monotonic()
    time.sleep(0.2)
    process.send_signal(signal.SIGSTOP)
    time.sleep(1)
    process.send_signal(signal.SIGCONT)
    process.communicate(timeout=300)
    check(2.1 <= time.monotonic() - began, "a run that was stopped reads faster then")


def part_of(name, parts):
    """The part of a stripe, from 0 on."""
    return int.from_bytes(hashlib.sha256(name.encode()).digest()[:8], "big") % parts


def lines_until_the_end(process):
    """The lines of a process' standard output, each with when it came before the process ended, in seconds."""
    came, waiter = [], selectors.DefaultSelector()
    waiter.register(process.stdout, selectors.EVENT_READ)
    while line := process.stdout.readline():
        came.append((line, time.monotonic()))
    process.wait(timeout=300)
    end = time.monotonic()
    return [(line, end - when) for line, when in came]


def test_rows_as_they_are_known(place, choose):
    """Rows come while the run goes on, and are those of the report."""
    store, report, many = place / "s", place / "report", 12
    names = [f"a{k:02}" for k in range(many)]
    all_of_it = make(store, choose, names, 64 * 1024)
    (store / "b.x0").write_bytes(b"alone")
    # 6.75 MiB take more than three seconds.
    process = start("repair", "--reads", "all", "--json", "--report", report, "--rate", "2M", "-j", "3", store)
    came = lines_until_the_end(process)
    check(process.returncode == 0, f"status {process.returncode}: {process.stderr.read()}")
    rows = rows_of("".join(line for line, _ in came))
    check(came[0][1] > 1.5, f"the first row came {came[0][1]} s before the end")
    check(sum(before > 0.5 for _, before in came) > many // 2, f"most rows came at the end: {[before for _, before in came]}")
    check(rows[-1]["outcome"] == "alone" and all(row["outcome"] == "rebuilt" for row in rows[:-1]), f"{rows}")
    of_report = [line.split(",")[:3] for line in report.read_text().splitlines()[1:]]
    check(sorted([row["stripe"], row["place"], row["outcome"]] for row in rows[:-1]) == of_report[:-1], f"{of_report}")
    check(is_whole(store, {**all_of_it, "b.x0": b"alone"}), "the store isn't whole")


def test_stripes_that_lost_most_come_first(place, choose):
    """One thread works on stripes that have lost most fragments first, whatever their names are; so does that of a part, and a run of many
    threads begins with them. On a busy machine one of these may be late with its stripe, so that such a run is tried a few times."""
    names = [f"{choose.getrandbits(64):016x}" for _ in range(60)]
    losses = {name: k % 4 for k, name in enumerate(names)} | {names[7]: 5}
    begun = []
    for number, options in enumerate((["-j", "1"], ["-j", "1", "--part", "1/2"], *[["-j", "16"]] * 20)):
        store = place / f"s{number}"
        store.mkdir()
        lost = {}
        for name in names:
            fragments = stripe("6-2-2", 100, choose)
            # Of five lost fragments the code gives back none, if they are a group with both global parities.
            lost[name] = ["x0", "x1", "x2", "p0", "p1"] if losses[name] == 5 else choose.sample(list(fragments), losses[name])
            for of, data in fragments.items():
                if of not in lost[name]:
                    (store / f"{name}.{of}").write_bytes(data)
        said, _ = run("repair", "--json", *options, store, status=1 if number != 1 or part_of(names[7], 2) == 0 else 0)
        rows = [row for row in rows_of(said) if row["place"]]
        found = [losses[row["stripe"]] for row in rows]
        mine = [name for name in names if number != 1 or part_of(name, 2) == 0]
        check(sorted(found) == sorted(losses[name] for name in mine for _ in lost[name]), f"{options}: {found}")
        if number < 2:
            check(found == sorted(found, reverse=True), f"{options}: stripes that lost so many come in this order: {found}")
        else:
            begun.append(found)
            if all(many > 1 for many in found[:20]):
                return
    check(not begun, f"{begun}")


def test_what_a_kill_leaves(place, choose):
    """A run that is killed has printed the rows of what it did, and its counters say no status."""
    store, file, many = place / "s", place / "counters", 64
    names = [f"a{k:02}" for k in range(many)]
    all_of_it = make(store, choose, names, 64 * 1024)
    # 36 MiB take twelve seconds; counters are written after five.
    process = start("repair", "--reads", "all", "--json", "--progress", file, "--rate", "3M", store)
    seen = set()
    began = time.monotonic()
    while (time.monotonic() - began < 8 or not seen) and process.poll() is None:
        if file.exists():
            seen.add(file.read_text())
        time.sleep(0.005)
    process.send_signal(signal.SIGKILL)
    said, errors = process.communicate(timeout=300)
    check(process.returncode == -signal.SIGKILL, f"it ended by itself: {process.returncode}")
    check(errors == "", f"standard error, which is no terminal, got a line for one: {errors!r}")
    rows = rows_of(said)
    check(0 < len(rows) < many, f"{len(rows)} rows")
    # Each of the four threads may have made one fragment and not printed its row yet.
    check(len(rows) + 4 >= len([*store.glob("*.x1")]), f"{len(rows)} rows of what was made")
    for row in rows:
        path = f"{row['stripe']}.{row['place']}"
        check(row["outcome"] == "rebuilt" and (store / path).read_bytes() == all_of_it[path], f"{row}")
    check(seen, "no counters were written")
    for text in seen:
        found = counters(text, "repair", str(store))
        check(list(found) == RUNNING and 0 < found["bytes_done"] < found["bytes"] == many * 9 * 64 * 1024, f"{found}")
        check(0 < found["units_done"] < found["units"] == many and found["seconds"] >= 4, f"{found}")
    run("repair", "--progress", file, store)
    check(is_whole(store, all_of_it), "the store isn't whole")
    check(counters(file.read_text(), "repair", str(store))["status"] == 0, "no status")


def test_output_that_ends(place, choose):
    """If nobody reads the rows the repair is done, and the status says so."""
    store = place / "s"
    all_of_it = make(store, choose, [f"a{k}" for k in range(40)], 2_000)
    for target in ("/dev/full",):
        with open(target, "w") as full:
            done = subprocess.run([PROGRAM, "repair", "--json", store], stdout=full, stderr=subprocess.PIPE, text=True, timeout=300)
        check(done.returncode == 3 and done.stderr.count("No space left on device") == 1, f"{target}: {done.returncode} {done.stderr}")
        check(is_whole(store, all_of_it), "the store isn't whole")
        for path in store.glob("*.x1"):
            path.unlink()
        with open(target, "w") as full:
            ended = subprocess.run([PROGRAM, "--help"], stdout=full, timeout=300)
            check(ended.returncode == 3, "help that can't be written is called done")
    for words in (["scrub"], ["repair", "--dry-run"], ["lost"], ["list"], ["verify"], ["repair"], ["repair", "--json"]):
        for path in store.glob("*.x1"):
            path.unlink()
        # Nobody reads from the beginning.
        reader, writer = os.pipe()
        os.close(reader)
        done = subprocess.run([PROGRAM, *words, store], stdout=writer, stderr=subprocess.PIPE, text=True, timeout=300)
        os.close(writer)
        is_said = done.stderr.count("rebuild-store: standard output: Broken pipe\n") == 1
        check(done.returncode == 3 and is_said, f"{words}: {done.returncode}: {done.stderr}")
    check(is_whole(store, all_of_it), "the store isn't whole")


def test_counters_of_a_run_that_fails(place, choose):
    """The counters of a run whose rows can't be written say the status that it ends with, and the run says why."""
    store, file = place / "s", place / "counters"
    make(store, choose, ["a", "b"], 10)
    for command in ("scrub", "repair"):
        for words, whose in ((["--json"], "standard output"), (["--report", "/dev/full"], "/dev/full")):
            file.unlink(missing_ok=True)
            with open("/dev/full", "w") as full:
                done = subprocess.run([PROGRAM, command, *words, "--progress", file, store], stdout=full, stderr=subprocess.PIPE, text=True,
                                      timeout=300)
            said = f"rebuild-store: {whose}: "
            check(done.returncode == 3 and said in done.stderr and "No space left on device" in done.stderr, f"{command}: {done.stderr}")
            found = counters(file.read_text(), command, str(store))
            check(list(found) == ENDED and found["status"] == 3, f"{command}: {found}")


def test_counters_of_lost_descriptions(place, choose):
    """What is lost of descriptions counts as what is lost of fragments does."""
    store, file = place / "s", place / "counters"
    store.mkdir()
    (place / "a").write_bytes(choose.randbytes(500))
    run("encode", store, place / "a")
    for name in ("a.file", "a.x0"):
        (store / name).unlink()
    run("scrub", "--progress", file, store, status=1)
    check(counters(file.read_text(), "scrub", str(store))["left"] == 2, file.read_text())
    run("repair", "--progress", file, store)
    check(counters(file.read_text(), "repair", str(store))["left"] == 0, file.read_text())


def test_counters_of_a_refused_run(place, choose):
    """A run that is refused when its store is opened says its status in place of the counters of an earlier run, and of those alone."""
    store, file = place / "s", place / "counters"
    make(store, choose, ["a"], 10)
    for command in ("repair", "scrub"):
        other = place / "other"
        other.write_bytes(b"rebuild_store_units and more")
        run(command, "--progress", file, store)
        store.rename(place / "away")
        for path in (file, other, place / "none"):
            run(command, "--progress", path, store, status=3)
        (place / "away").rename(store)
        found = counters(file.read_text(), command, str(store))
        check(list(found) == ENDED and found["status"] == 3, f"{command}: {found}")
        check(other.read_bytes() == b"rebuild_store_units and more" and not (place / "none").exists(), f"{command}: others were written")


def test_report_beside_rows_that_fail(place, choose):
    """The report is written also if the rows that are printed as they are known can't be."""
    store, report = place / "s", place / "report.csv"
    all_of_it = make(store, choose, ["a", "b"], 10)
    with open("/dev/full", "w") as full:
        words = [PROGRAM, "repair", "--json", "--report", report, store]
        check(subprocess.run(words, stdout=full, stderr=subprocess.DEVNULL, timeout=300).returncode == 3, "the rows were called written")
    check(report.read_text() == "stripe,place,outcome,detail\na,x1,rebuilt,\nb,x1,rebuilt,\n", report.read_text())
    check(is_whole(store, all_of_it), "the store isn't whole")


def test_many_stripes(place, choose):
    """A thread goes on until all stripes are done, however many there are."""
    store, many = place / "s", 1_300
    store.mkdir()
    stripes = [stripe("6-2-2", 1, choose) for _ in range(many)]
    for number, fragments in enumerate(stripes):
        for shard, data in fragments.items():
            if shard not in ("x1", "p0"):
                (store / f"a{number}.{shard}").write_bytes(data)
    out, _ = run("repair", "-j", "1", store)
    check(out.startswith(f"repaired {2 * many} fragments, "), out)
    check(all((store / f"a{number}.x1").read_bytes() == it["x1"] for number, it in enumerate(stripes)), "a fragment isn't what it was")
    for path in store.glob("*.p1"):
        path.unlink()
    out, _ = run("scrub", "-j", "1", store, status=1)
    check(f"scrubbed {many} stripes: 0 damaged, {many} lost" in out and out.count(".p1: is lost") == many, out[-200:])


def looks(trace):
    """At how many files of a store a run has looked, by what strace wrote."""
    return len(re.findall(r"(?:statx|newfstatat|lstat|stat)\([^)]*/a\d+\.\w\w", trace))


def has_strace():
    return subprocess.run(["sh", "-c", "strace -f -o /dev/null true"], capture_output=True).returncode == 0


def traced(place, calls, *arguments):
    """Runs a command, and gives what strace wrote of these calls, and its output and status."""
    trace = place / "trace"
    done = subprocess.run(["strace", "-f", "-qq", "-e", f"trace={calls}", "-o", trace, PROGRAM, *arguments], capture_output=True, text=True,
                          timeout=300)
    return trace.read_text(), done


def test_parts_look_at_their_part(place, choose):
    """A part of ten looks at some tenth of the files, if strace is there to count it, also one that writes a report and counters where
    nothing is, or where a run wrote others; but at all, if a fragment may be at the report's path. All parts together make the store
    whole."""
    store, many, report, counted = place / "s", 200, place / "report", place / "counters"
    names = [f"a{k}" for k in range(many)]
    all_of_it = make(store, choose, names, 16)
    tenth = ["--part", "1/10"]
    watched = [*tenth, "--report", report, "--progress", counted]
    other = place / "other"
    other.write_text("stripe,place,outcome,details\n")
    if has_strace():
        for options, is_part in (([], False), (tenth, True), ([*tenth, "--code", "6-2-2"], True), (watched, True), (watched, True),
                                 ([*watched, "--json"], True), (watched, True), ([*tenth, "--report", other], False), (watched, True)):
            trace, _ = traced(place, "%stat,statx", "scrub", "-q", *options, store)
            found = looks(trace)
            # Each stripe has nine files, and is looked at once when the store is listed and once when it is read.
            most = 2.5 * 9 * many * (0.25 if is_part else 1)
            check(9 * many * (0.02 if is_part else 0.9) <= found <= most, f"{options}: {found} looks, at most {most}")
        report.write_text("")
        trace, _ = traced(place, "%stat,statx", "scrub", "-q", *watched, store)
        check(looks(trace) <= 2.5 * 9 * many * 0.25, "a part looks at all if its report is empty")
    else:
        print("store-watching: left out: how many files a part looks at (strace isn't installed)")
    for part in range(1, 11):
        run("repair", "--part", f"{part}/10", "--report", report, "--progress", counted, store)
    check(is_whole(store, all_of_it), "the store isn't whole")


def test_descriptions_of_parts(place, choose):
    """A part whose code is given reads the descriptions of its own stripes and no others, if strace is there to see it; and it passes over
    none of these where another part's fragments may have such a name."""
    store, names = place / "s", [f"a{k}" for k in range(40)]
    make(store, choose, names, 16, ())
    for name in names:
        for ending in ("file", "file.copy"):
            (store / f"{name}.{ending}").write_text(f"96 {hashlib.sha256(name.encode()).hexdigest()} 6-2-2\n")
    mine = {name for name in names if part_of(name, 5) == 2}
    if has_strace():
        trace, done = traced(place, "openat", "lost", "--code", "6-2-2", "--part", "3/5", store)
        read = set(re.findall(r'/(a\d+)\.file', trace))
        check(done.returncode == 0 and read == mine, f"descriptions of {sorted(read)} are read, and not of {sorted(mine)}: {done}")
    disks, words = place / "disks", ["--code", "6-2-2", "--names", "disk{shard}/{stripe}"]
    name = next(name for name in names if part_of(name, 2) == 0 and part_of(f"{name}.file", 2) == 1)
    (place / name).write_bytes(b"some bytes")
    run("encode", "--make-folders", *words, disks, place / name)
    # With it the digests would say what has to be there.
    (disks / "SHA256SUMS").unlink()
    (disks / f"disk3/{name}.file").unlink()
    for part, status in ((1, 1), (2, 0)):
        out, _ = run("scrub", *words, "--part", f"{part}/2", disks, status=status)
        check((f"disk3/{name}.file: is lost\n" in out) == (part == 1), f"part {part}: {out}")


def test_reports_at_fragments_of_other_parts(place, choose):
    """A report or counters at a path that leads to a fragment of any part are refused, by each part."""
    store, outside = place / "s", place / "outside"
    all_of_it = make(store, choose, ["a", "b", "c"], 40, ())
    outside.mkdir()
    for name in ("a.x0", "b.p1"):
        os.link(store / name, outside / f"link-{name}")
        (outside / f"moved-{name[0]}.y2").write_bytes(all_of_it[f"{name[0]}.y2"])
        (store / f"{name[0]}.y2").unlink()
        (store / f"{name[0]}.y2").symlink_to(outside / f"moved-{name[0]}.y2")
    for path in sorted(outside.iterdir()):
        before = path.read_bytes()
        for part in range(1, 4):
            for option in ("--report", "--progress"):
                _, said = run("scrub", "--follow-links", "--part", f"{part}/3", option, path, store, status=2)
                check(said == f"rebuild-store: {path}: is a file of the store, and no place for a report\n", said)
        check(path.read_bytes() == before, f"{path} has changed")


def test_folder_by_folder(place, choose):
    """A store whose disks have folders below them is repaired folder by folder: a run whose pattern names one lists no other."""
    store, folders = place / "s", ("00", "a7", "ff")
    all_of_it = {}
    for folder in folders:
        for name in (f"{folder}-{k}" for k in range(5)):
            for of, data in stripe("6-2-2", 24, choose).items():
                path = store / of / folder / name
                all_of_it[path] = data
                path.parent.mkdir(parents=True, exist_ok=True)
                if of not in ("x2", "p0"):
                    path.write_bytes(data)
    for number, folder in enumerate(folders):
        pattern = f"{{place}}/{folder}/{{stripe}}"
        if has_strace():
            trace, done = traced(place, "openat", "lost", "--names", pattern, store)
            check(len(done.stdout.splitlines()) == 11, f"{done}")
            opened = {pathlib.Path(it) for it in re.findall(r'openat\([^"]*"([^"]*)"[^)]*O_DIRECTORY', trace)}
            inside = {it for it in opened if store in it.parents}
            check(inside and all(it.name == folder for it in inside), f"{folder}: {sorted(opened)}")
        said, errors = run("repair", "--names", pattern, store)
        # Of the places that the store's code hasn't no folder is missed.
        check(said.count("\n") == 1 and "10 fragments" in said and "counts as lost" not in errors, said + errors)
        there = {path: path.read_bytes() for path in store.rglob("*") if path.is_file()}
        whole = {path for path in all_of_it if path.parent.name in folders[: number + 1]}
        check(whole <= set(there) and all(there[path] == all_of_it[path] for path in there), f"after {folder}")
    check(set(there) == set(all_of_it), "the store isn't whole")


def test_counters_that_a_refused_run_leaves(place, choose):
    """A run whose store is refused leaves the counters of a run that works there, a file of the store that begins as they do, and those of
    another command or another store."""
    store, file = place / "s", place / "counters"
    make(store, choose, ["a"], 10)

    def begun(command, of):
        labels = f'{{command="{command}",store="{of}"}}'
        return f"rebuild_store_units{labels} 1\nrebuild_store_units_done{labels} 0\n"

    own = begun("repair", store)
    file.write_text(own)
    held = os.open(store, os.O_RDONLY)
    fcntl.flock(held, fcntl.LOCK_EX)
    _, said = run("repair", "--progress", file, store, status=1)
    check("another run works in this store" in said and file.read_text() == own, f"{said}{file.read_text()}")
    os.close(held)
    (store / "c.p1").write_text(own)
    _, said = run("repair", "--progress", store / "c.p1", store, status=2)
    check("is a file of the store" in said and (store / "c.p1").read_text() == own, f"{said}{(store / 'c.p1').read_text()}")
    store.rename(place / "away")
    for text in (begun("scrub", store), begun("repair", place / "other"), begun("repair", f"{store}s")):
        file.write_text(text)
        run("repair", "--progress", file, store, status=3)
        check(file.read_text() == text, f"counters of others were written over: {text}{file.read_text()}")
    file.write_text(own)
    run("repair", "--progress", file, store, status=3)
    check(counters(file.read_text(), "repair", str(store))["status"] == 3, file.read_text())


def test_counters_of_a_run_over_the_limit(place, choose):
    """A repair that is refused, since files may not get as long as what is lost, says that status in its counters."""
    store, file = place / "s", place / "counters"
    make(store, choose, ["a"], 5_000)

    def limited():
        resource.setrlimit(resource.RLIMIT_FSIZE, (4_000, 4_000))

    _, said = run("repair", "--progress", file, store, status=1, preexec_fn=limited)
    found = counters(file.read_text(), "repair", str(store))
    check("ulimit -f" in said and list(found) == ENDED and (found["status"], found["units_done"]) == (1, 0), f"{said}{found}")


def test_rights_of_what_is_made(place, choose):
    """A report and counters that are made have the rights that their user's mask leaves, so that those who watch may read them."""
    store = place / "s"
    make(store, choose, ["a"], 10)
    for mask, mode in ((0o022, 0o644), (0o027, 0o640)):
        files = [place / f"{name}-{mode:o}" for name in ("report", "counters")]
        run("scrub", "--report", files[0], "--progress", files[1], store, status=1, umask=mask)
        modes = [stat.S_IMODE(path.stat().st_mode) for path in files]
        check(modes == [mode, mode], f"a mask of {mask:o} leaves {[f'{it:o}' for it in modes]}")


def main():
    choose = random.Random(2026)
    with tempfile.TemporaryDirectory() as scratch:
        for name, test in list(globals().items()):
            if name.startswith("test_"):
                folder = pathlib.Path(scratch) / name
                folder.mkdir()
                test(folder, choose)
    print(f"store-watching: {passed} checks passed")


if __name__ == "__main__":
    main()
