#!/usr/bin/env python3
"""Works with shelves step by step, each step with what it must give: a folder's, one that reads ahead, and one in memory. Then it reads
files by a device that gives few bytes at a call or fails, and refuses memory to a write that fails.

It runs what was built last: tests of farm_tests, which do the steps that are given and show what comes of each."""

import errno
import os
import pathlib
import signal
import subprocess
import sys
import tempfile

# No compiled copy of the modules is left beside them.
sys.dont_write_bytecode = True
import devices  # noqa: E402
import faults  # noqa: E402
import refusals  # noqa: E402
from served import TESTS, Checks  # noqa: E402

FOLDER, AHEAD, MEMORY = [[str(TESTS), f"files::shelves::{name}"] for name in ("of_a_folder", "read_ahead_of_a_folder", "in_memory")]
SECONDS = 300

# What a test ends its output with.
ENDED = "\ntest result: ok\n"

# A limit that no file comes up to.
ALL = (1 << 64) - 1


# What is done with a shelf: its words, and what has to come of it.
def read(name, limit, text):
    """A file is read, so many bytes of it at most: this text comes, or None where there is no such file, or a fault."""
    came = "none" if text is None else text if text in FAULTS else f"{len(text)} {text}"
    return f"read {name} {limit}", f"{came}\n"


def write(name, text, came="written"):
    return f"write {name} {text}", f"{came}\n"


def failed(count):
    """The device has failed so often."""
    return "failed", f"{count} failures\n"


def put(name, text):
    """Another program puts a file into the folder."""
    return f"put {name} {text}", ""


def ahead(threads, names, limit):
    """Files are named to be read ahead, in so many threads at most."""
    return " ".join([f"ahead {threads} {limit}", *map(str, names)]), ""


def beside(threads, before, names, gives, calls):
    """Files are named to be read beside work that was called so often; it gives this, and was called so often then. It fails at its first
    call."""
    return " ".join([f"beside {threads} {before} 4", *names]), f"{gives} {calls}\n"


def fail(call):
    """Of the calls from now on that of this number fails."""
    return f"fail {call}", ""


def keep(texts):
    """Memory that has these texts is given back."""
    return " ".join(["keep", *texts]), ""


FAULTS = ("Device", "OutOfMemory")
DEVICE, MEMORY_FAULT = FAULTS


def shown(words, lines, cwd, environment=None):
    """What a test shows of these lines."""
    text = "".join(f"{line}\n" for line in lines)
    ran = subprocess.run(words, input=text.encode(), capture_output=True, cwd=cwd, env=environment or {}, timeout=SECONDS, check=False)
    return ran.stdout.decode(), ran.stderr.decode(), ran.returncode


def test_steps(checks, what, words, cwd, steps, path="."):
    lines = [line for line, _ in steps]
    wanted = "".join(came for _, came in steps) + ENDED
    checks.compare(what, shown(words, lines if words == MEMORY else [path, *lines], cwd), (wanted, "", 0))


# The text of the file of a number, of 0 to 6 bytes; number 7 of each ten is absent.
def text_of(number):
    return None if number % 10 == 7 else "abcdef"[:number % 7]


def numbers(first, end):
    """The files of these numbers are read, four bytes of each at most."""
    texts = [(number, text_of(number)) for number in range(first, end)]
    return [read(number, 4, None if text is None else text[:4]) for number, text in texts]


def make_files(folder):
    folder.mkdir()
    for number in range(300):
        if text_of(number) is not None:
            (folder / str(number)).write_text(text_of(number))


def ahead_of(threads, first, end):
    return ahead(threads, range(first, end), 4)


def test_ahead(checks, scratch):
    """Files that are read ahead are given as they are, once, the next one alone, and not after a write; failures are counted once."""
    folder = scratch / "ahead"
    make_files(folder)
    for threads in range(17):
        steps = []
        for end in (0, 1, 5, 300):
            steps += [ahead_of(threads, 0, end), *numbers(0, end), failed(0)]
        test_steps(checks, f"read ahead, {threads} threads", AHEAD, folder, steps)
    for name in ("300", "301"):
        (folder / name).mkdir()
    for threads in (1, 4, 16):
        test_steps(checks, f"folders read ahead, {threads} threads", AHEAD, folder, [
            ahead_of(threads, 290, 302), *numbers(290, 300), failed(0), read("300", 4, DEVICE), failed(1), read("301", 4, DEVICE),
            failed(2)])
    test_steps(checks, "read ahead once", AHEAD, folder, [
        ahead_of(4, 0, 300), *numbers(0, 1), *numbers(2, 3), *numbers(1, 2), *numbers(1, 2), ahead_of(4, 0, 300), write("0", "new"),
        read("0", 4, "new"), ahead_of(4, 1, 2), read("1", 0, ""), failed(0)])


def test_rooms(checks, scratch):
    """Of memory that other files were read into nothing is given, whether the file now read into it is shorter, longer or absent."""
    folder = scratch / "rooms"
    make_files(folder)
    rooms = [text_of(number)[:4] for number in range(290) if text_of(number)]
    for first in range(10):
        test_steps(checks, f"rooms from {first} on", AHEAD, folder, [
            ahead_of(4, 0, 290), *numbers(0, 290), keep(rooms), ahead_of(4, first, first + 290), *numbers(first, first + 290), failed(0),
            keep(["zzz"] * 290), ahead_of(4, first, first + 290), *numbers(first, first + 290), failed(0)])


BOTH = ("a", "b")
# Steps beside work, and in how many threads at most: what was read beside it is what the reads after it give, once, also where it is asked
# for once more (the file has changed since). Of other files nothing is kept, nor after a write. Work that fails while files are read is
# done once more, alone, and what was read is dropped by then; where nothing is read beside it it is done once.
BESIDE = [
    ("work", AHEAD, [
        beside(4, 6, BOTH, "Ok(7)", 7), put("a", "new"), ahead(4, BOTH, 4), beside(4, 7, BOTH, "Ok(8)", 8), beside(4, 8, (), "Ok(9)", 9),
        read("a", 4, "one"), read("b", 4, "two"), read("a", 4, "new"), failed(0)]),
    ("other files", AHEAD, [
        beside(1, 6, BOTH, "Ok(7)", 7), write("a", "new"), read("a", 4, "new"), beside(1, 6, ("a",), "Ok(7)", 7), put("a", "newer"),
        ahead(1, BOTH, 4), read("a", 4, "newe"), read("b", 4, "two"), failed(0)]),
    ("work that fails", AHEAD, [
        beside(4, 0, BOTH, "Ok(2)", 2), put("a", "new"), read("a", 4, "new"), beside(4, 0, (), "Err(AllocError)", 1),
        beside(4, 1, (), "Ok(2)", 2)]),
    # A shelf that reads nothing ahead does it once.
    ("alone", FOLDER, [ahead(4, BOTH, 4), beside(4, 0, BOTH, "Err(AllocError)", 1), put("a", "new"), read("a", 4, "new")]),
]


def test_beside(checks, scratch):
    for name, words, steps in BESIDE:
        folder = scratch / name
        folder.mkdir()
        for file, text in zip(BOTH, ("one", "two")):
            (folder / file).write_text(text)
        test_steps(checks, f"beside {name}", words, folder, steps)


# What is in a folder: the name of each, and what is read of it, two bytes at most: there is something that is no regular file or can't be
# reached, there is nothing, or there is a file.
LINKS = {"to-file": "there", "to-link": "to-file", "to-folder": "folder", "to-nothing": "nowhere", "loop": "loop",
         "below-a-file": "there/file", "to-device": "/dev/zero"}
NAMED = {"there": "ab", "folder": DEVICE, "absent": None, "to-file": "ab", "to-link": "ab", "to-folder": DEVICE, "to-nothing": None,
         "loop": DEVICE, "below-a-file": DEVICE, "to-device": DEVICE}


def named(limit_of_others):
    """Each of these is read, those that are no files with another limit, and failures are counted."""
    steps, count = [], 0
    for name, text in NAMED.items():
        count += text == DEVICE
        steps += [read(name, 2 if text == "ab" else limit_of_others, text), failed(count)]
    return steps


def test_links(checks, scratch):
    """Links are followed to regular files alone, and what is read ahead is read so too."""
    folder = scratch / "links"
    (folder / "folder").mkdir(parents=True)
    (folder / "there").write_text("abc")
    for name, to in LINKS.items():
        (folder / name).symlink_to(to)
    for limit in (2, 4, 1000):
        test_steps(checks, f"links, {limit} bytes", FOLDER, folder, named(limit))
        for threads in range(5):
            steps = [ahead(threads, NAMED, 2), *named(limit)]
            test_steps(checks, f"links read ahead, {limit} bytes, {threads} threads", AHEAD, folder, steps)
    odd = [name for name, text in NAMED.items() if text == DEVICE]
    steps = [step for count, name in enumerate(odd, 1) for step in (write(name, "new", DEVICE), failed(count))]
    test_steps(checks, "writes by links", FOLDER, folder, [
        *steps, write("to-link", "to-link"), read("there", 100, "to-link"), write("to-nothing", "to-nothing"),
        read("nowhere", 100, "to-nothing")])
    checks.compare("links are as they were", {name: os.readlink(folder / name) for name in LINKS}, LINKS)


def test_folders(checks, scratch):
    """A file of an unknown length is read to its end, or up to the limit; a folder that isn't there has no files, and can't be written. A
    file of more bytes than a fragment or a block of the system's has is written whole, and a shorter one in its place leaves none of
    them."""
    test_steps(checks, "a file of an unknown length", FOLDER, scratch, [
        read("ostype", ALL, "Linux\n"), read("ostype", 3, "Lin"), failed(0)], "/proc/sys/kernel")
    test_steps(checks, "no folder", FOLDER, scratch, [
        failed(0), read("a", 1000, None), failed(0), write("a", "x", DEVICE), failed(1)], "no such folder")
    text = "".join("abcdefghijklmnopqrstuvw"[number % 23] for number in range(200_003))
    for length in (200_003, 65_537):
        front = text[:length]
        test_steps(checks, f"{length} bytes", FOLDER, scratch, [
            write("long", front), read("long", ALL, front), read("long", 3, "abc"), failed(0)])
        checks.compare(f"{length} bytes: the file", (scratch / "long").read_text() == front, True)


# How a shelf in memory fails: at the call that is set, of which a write leaves the first half of its bytes; it reads nothing ahead, so
# that its call that fails is the read that it was asked for.
IN_MEMORY = [
    [fail(1000), failed(0), write("a", "four"), fail(1), read("a", 3, "fou"), failed(0), write("a", "later", DEVICE), read("a", 1000, "la"),
     failed(1), read("b", 1000, None), fail(0), failed(1), read("a", 4, DEVICE), read("a", 1000, "la"), failed(2)],
    [write("0", ""), write("1", "a"), fail(1), ahead(4, range(300), 4), *numbers(0, 1), failed(0), read("1", 4, DEVICE), *numbers(1, 2),
     failed(1)],
]


def test_memory(checks, scratch):
    for number, steps in enumerate(IN_MEMORY):
        test_steps(checks, f"in memory {number}", MEMORY, scratch, steps)


# How many bytes a file has, and how many of them are read at most; then how many are read, and in how many calls: a fragment takes one,
# since its length is known, and of one that is longer than listed no more is asked for. A list that outgrows the first room is read on.
CALLS = [(65_536, 65_537, 65_536, 1), (1, 2, 1, 1), (65_537, 65_537, 65_537, 1), (5, 0, 0, 0), (1_048_577, 1_048_577, 1_048_577, 5)]
# The same of a file that gives few bytes at a call; one that gives one at a time is read 16,777,216 times and no more, and it is a failure
# only if more are needed.
TURNS = 16_777_216
DRIPS = [(1_000_000, 65_537, 1_048_577, 1_000_000, 16), (TURNS - 1, 1, ALL, TURNS - 1, TURNS - 1), (TURNS + 1, 1, TURNS, TURNS, TURNS),
         (TURNS + 1, 1, ALL, DEVICE, TURNS)]
# A read that is interrupted is made again, and any other failed read is a fault.
ERRORS = {errno.EINTR: "Linux\n", errno.ENOMEM: MEMORY_FAULT, errno.EISDIR: DEVICE, errno.ENOENT: DEVICE, errno.EIO: DEVICE}


def test_calls(checks, scratch):
    library = faults.Calls(scratch)
    for length, limit, count, calls in CALLS:
        (scratch / "file").write_text("a" * length)
        (scratch / "steps").write_text(f"{scratch}\nread file {limit}\n")
        ran = library.run(["sh", "-c", 'exec "$@" < "$0"', scratch / "steps", *FOLDER])
        checks.compare(f"{length} bytes, {limit} at most", ran.out, f"{count} {'a' * count}\n{ENDED}")
        # Standard input is read too, to its end.
        checks.compare(f"{length} bytes, {limit} at most: the calls", calls_of_file(ran.kinds), calls)


def calls_of_file(kinds):
    """How many reads there are of the file, which is looked at and opened before."""
    return kinds[kinds.index("look"):].count("read")


def test_drips(checks, scratch):
    device = devices.Device(scratch)

    def slowly(path, step, *slow, **failing):
        """What is shown of a file that is the first to be opened, and how often it is read."""
        def run(environment):
            return shown(FOLDER, [path, step], scratch, environment)

        (out, *ended), made, *_ = device.counted(run, *slow, file=3, **failing)
        return out, *ended, made

    for length, most, limit, wanted, reads in DRIPS:
        with open(scratch / "file", "wb") as file:
            file.truncate(length)
        step, came = read("file", limit, wanted if wanted == DEVICE else "\0" * wanted)
        out, *ended = slowly(".", step, most)
        checks.compare(f"{length} bytes, {most} at a call, {limit} at most", (out == came + ENDED, *ended), (True, "", 0, reads))
    for call in range(7):
        for error, text in ERRORS.items():
            step, came = read("ostype", 10, text)
            wanted = (came + ENDED, "", 0, 8 if error == errno.EINTR else call + 1)
            checks.compare(f"{errno.errorcode[error]} at call {call}", slowly("/proc/sys/kernel", step, 1, error, read=call), wanted)


def test_refusals(checks, scratch):
    """A write that the device fails leaves the first half of its bytes; where memory is refused for these it changes nothing."""
    library = refusals.Library(scratch)
    steps = [write("a", "kept"), fail(0), write("a", "other", DEVICE), read("a", 10, "ot"), failed(1)]
    given = "".join(f"{line}\n" for line, _ in steps).encode()
    whole, refused = ["written", DEVICE, "2 ot", "1 failures"], ["written", MEMORY_FAULT, "4 kept", "0 failures"]
    seen = []
    for number in range(1, 1000):
        ran = library.run(MEMORY, given, refusals.Refusal(allocation=number))
        lines = ran.out.decode().splitlines()[:4]
        seen.append(lines)
        if not ran.was_refused:
            checks.compare("memory that isn't refused", lines, whole)
            break
        # Or the test itself is refused memory, or the write before it, or the read.
        told = MEMORY_FAULT in lines or ran.status in (-signal.SIGABRT, 1) or lines == whole
        checks.compare(f"allocation {number} is refused: {ran.text()}", told, True)
        if lines[:2] == refused[:2]:
            checks.compare(f"allocation {number} is refused: what is left", lines, refused)
    checks.compare("a write is refused memory", refused in seen, True)


def main():
    checks = Checks("farm-shelves")
    with tempfile.TemporaryDirectory() as scratch:
        for test in (test_ahead, test_rooms, test_beside, test_links, test_folders, test_memory, test_calls, test_drips, test_refusals):
            test(checks, pathlib.Path(scratch))
    checks.end()


if __name__ == "__main__":
    main()
