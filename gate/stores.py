"""What scripts share that try rebuild-store on stores which they lay: runs of the program that are held to their status, the stores, and
tests side by side, each in a folder of its own."""

import functools
import hashlib
import multiprocessing
import os
import pathlib
import random
import shutil
import subprocess
import sys
import tempfile
import time

ROOT = pathlib.Path(__file__).resolve().parent.parent
sys.path.append(str(ROOT / "tools"))
from faults import RECORD_SIZE  # noqa: E402
from store import stripe  # noqa: E402

SECONDS = 300
STAGED = ".rebuild-store-new"


class Fault(Exception):
    """A run that did what none may."""


class Skipped(Exception):
    """What can't be tried here."""


class Program:
    """The program that is tried, how many checks of it have passed, and the seeds that random tests try, if others than their own."""

    path, passed, seeds = ROOT / "crates/rebuild_store/out/rebuild_store", 0, None


def hold(holds, what):
    if not holds:
        raise Fault(what)
    Program.passed += 1


def run(*words, status, before=(), **how):
    """Runs the program, after these words, holds its status to this one, and gives all that it says."""
    command = [*map(str, before), str(Program.path), *map(str, words)]
    ended = subprocess.run(command, stdin=subprocess.DEVNULL, stdout=subprocess.PIPE, stderr=subprocess.STDOUT, timeout=SECONDS, **how)
    said = ended.stdout.decode(errors="replace")
    hold(ended.returncode == status, f"{' '.join(command)}: status {ended.returncode}, not {status}: {said}")
    return said


def lay(store, choose, names=("s",), length=600, pattern="{stripe}.{place}"):
    """Makes a store of stripes, and gives the bytes of its files by their paths."""
    files = {}
    for name in names:
        for shard, (place, data) in enumerate(stripe("6-2-2", length, choose).items()):
            files[pattern.format(stripe=name, place=place, shard=shard)] = data
    lay_files(store, files)
    return files


def lay_files(store, files):
    for name, data in files.items():
        (store / name).parent.mkdir(parents=True, exist_ok=True)
        (store / name).write_bytes(data)


def there(store):
    """The bytes of the regular files below a folder, by their paths."""
    return {str(path.relative_to(store)): path.read_bytes() for path in store.rglob("*") if path.is_file() and not path.is_symlink()}


def digest(data):
    return hashlib.sha256(data).hexdigest()


def source(place, name, data):
    path = place / name
    path.write_bytes(data)
    return path


def description(data, code="6-2-2"):
    return f"{len(data)} {digest(data)} {code}\n"


def write_sums(store, *more):
    """Lists all files of a store, as `sha256sum` does, and gives the lines. Others may be among them."""
    files = {name: digest(data) for name, data in there(store).items() if name != "SHA256SUMS"} | dict(more)
    lines = [f"{files[name]}  {name}\n" for name in sorted(files)]
    (store / "SHA256SUMS").write_text("".join(lines))
    return lines


def begin(place, store, data, *names):
    """Lays all of a file of these bytes beside the file a of a store that it is to replace, as a run does that is killed then."""
    other = place / "begun"
    run("encode", "--make-folders", *names, "--as", "BEGUN", other, source(place, "begun-file", data), status=0)
    lay_files(store, {name.replace("BEGUN", f"a{STAGED}"): data for name, data in there(other).items() if name != "SHA256SUMS"})
    shutil.rmtree(other)


def wait_for(holds, what):
    end = time.monotonic() + SECONDS
    while not holds():
        if time.monotonic() > end:
            raise Fault(what)
        time.sleep(0.01)


def while_waiting(calls, place, words, number, change, errors=subprocess.STDOUT):
    """Changes something while a run waits before the call of this number. Gives its status, and what it says that doesn't go elsewhere."""
    with tempfile.NamedTemporaryFile(dir=place) as record:
        record.truncate(RECORD_SIZE)
        reached, until = place / "reached", place / "until"
        environment = {"LD_PRELOAD": str(calls.file), "FAIL_RECORD": record.name, "FAIL_NUMBER": str(number), "FAIL_HOW": "wait",
                       "FAIL_REACHED": str(reached), "FAIL_UNTIL": str(until)}
        held = subprocess.Popen([*map(str, words)], stdin=subprocess.DEVNULL, stdout=subprocess.PIPE, stderr=errors, env=environment)
        wait_for(lambda: reached.exists() or held.poll() is not None, f"{words} didn't come to call {number}")
        change()
        until.touch()
        said, _ = held.communicate(timeout=SECONDS)
        reached.unlink(missing_ok=True)
        until.unlink()
        return held.returncode, said.decode(errors="replace")


def tried(place, test):
    """Runs a test, and gives how many checks passed, why it failed, and why it was left out."""
    Program.passed, fault, left_out, folder = 0, "", "", place / test.__name__
    folder.mkdir()
    try:
        test(folder, random.Random(test.__name__))
    except Fault as why:
        fault = f"{test.__name__}: {why}"
    except Skipped as why:
        left_out = f"{test.__name__}: {why}"
    shutil.rmtree(folder)
    return Program.passed, fault, left_out


def try_all(script, found, program=None, only="", seed=None, count=1):
    """Runs the tests among what a script has, side by side, and ends with status 1 if one fails. With a seed random ones try so many
    stores from it on."""
    Program.path = pathlib.Path(program or Program.path).resolve()
    if seed is not None:
        Program.seeds = range(int(seed), int(seed) + int(count))
    tests = [found[only]] if only in found else [test for name, test in found.items() if name.startswith("test_") and only in name]
    with tempfile.TemporaryDirectory() as scratch, multiprocessing.get_context("fork").Pool(maxtasksperchild=1) as pool:
        place = pathlib.Path(scratch)
        place.chmod(0o755)
        ended = pool.map(functools.partial(tried, place), tests, chunksize=1)
    for _, fault, left_out in ended:
        if left_out:
            print(f"{script} skipped: {left_out}")
        if fault:
            print(f"{script}: {fault}", file=sys.stderr)
    failed, skipped = sum(bool(fault) for _, fault, _ in ended), sum(bool(why) for _, _, why in ended)
    print(f"{script}: {sum(count for count, _, _ in ended)} passed, {failed} failed, {skipped} skipped")
    sys.exit(1 if failed else 0)
