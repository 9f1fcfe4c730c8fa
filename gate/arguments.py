#!/usr/bin/env python3
"""Tests what the arguments of rebuild ask for, and the texts of help and of mistakes.

It runs what was built last: crates/rebuild/out/rebuild. With how many workers it serves a folder is seen from its threads, and with which
queue from the memory that the lanes take."""

import os
import pathlib
import subprocess
import sys
import tempfile

# No compiled copy of the modules is left beside them.
sys.dont_write_bytecode = True
import refusals  # noqa: E402

ROOT = pathlib.Path(__file__).resolve().parent.parent
PROGRAM = ROOT / "crates/rebuild/out/rebuild"
SECONDS = 300

HELP = """\
Rebuilds lost fragments of stripes coded by a (6,2,2) or (12,2,2) Local Reconstruction Code.

Usage: rebuild [COMMAND]

Commands:
  farm  Rebuilds the fragments that the request lists of a folder ask for
  help  Print this message or the help of the given subcommand(s)

Options:
  -h, --help     Print help
  -V, --version  Print version

Without a command, rebuild replies to each line of its standard input, as
  [code=<code>] <stripe> <target> <length> <place>=<hexadecimal bytes> ..
The code is 6-2-2, which needs no word, or 12-2-2.
Places: x0 x1 x2 y0 y1 y2 px py p0 p1; 12-2-2 has x3 x4 x5 y3 y4 y5 too.
Example: echo 'a x0 1 x1=02 x2=03 px=00' | rebuild
Exit status: 0 all lines answered, 1 a line refused, 2 usage, 3 I/O error, 4 memory.
Folders of request lists are served by rebuild farm: see rebuild farm --help.
The manual: man rebuild for the program, man 5 rebuild for its files and lines.
"""

FARM_HELP = """\
Rebuilds the fragments that the request lists of a folder ask for

Usage: rebuild farm [OPTIONS] <IN> <OUT>

Arguments:
  <IN>   Folder of request lists and surviving fragments
  <OUT>  Folder for rebuilt fragments and reports, which must exist

Options:
      --workers <N>  Threads that rebuild, 1 to 16 [default: 4]
      --queue <Q>    Room of each queue, 1 to 1024 [default: 16]
  -h, --help         Print help

Files of IN:
  rack<k>.csv                    the request list of rack k, from rack0.csv on
  rack<k>.feed<f>.csv            its further feeds, from feed1 to feed3
  <stripe>.<place>               a surviving fragment, as abc.x1
Files written to OUT, those of these names replaced:
  rack<k>-<n>.<stripe>.<place>   the fragment rebuilt for request n of rack k
  rack<k>.report.csv             the answers of rack k, each with its request
Exit status: 0 served, 1 lists refused, 2 usage, 3 I/O error, 4 memory or threads.
A fault is reported in one line, as 'rack0.csv: record 2: E20':
  E11 the workers are not 1 to 16         E21 a record's request is refused: E1 its
  E12 the queue is not 1 to 1024              stripe's name, E2 its length, E3 a
  E16 out of memory                           survivor listed twice, E4 the target
  E17 a thread was refused                    is among the survivors
  E18 there are more than 16 racks        E23 there is no rack0.csv
  E19 the header is not one of a list     E24 an I/O error
  E20 a record does not have its form     E25 a list is over 1048576 bytes
  E28 a rack has more than 4 feeds        E26 a list has over 4096 records
The manual: man rebuild for the program, man 5 rebuild for its files and lines.
"""

MORE = "\n\nFor more information, try '--help'.\n"

# Arguments, and what they ask for: to serve the folder `a` into the folder `b` with so many workers and a queue of that capacity. Options
# may be anywhere. Numbers out of a farm's limits are read; the settings refuse them.
FARMS = [
    (["farm", "a", "b"], 4, 16),
    (["farm", "a", "b", "--workers", "2"], 2, 16),
    (["farm", "a", "b", "--queue", "3"], 4, 3),
    (["farm", "a", "b", "--workers", "0", "--queue", "1"], 0, 1),
    (["farm", "a", "b", "--queue", "65535"], 4, 65535),
    (["farm", "a", "b", "--workers", "7", "--queue", "9"], 7, 9),
    (["farm", "--queue", "9", "--workers", "7", "a", "b"], 7, 9),
    (["farm", "--workers=7", "a", "--queue=9", "b"], 7, 9),
    (["farm", "a", "--workers", "+7", "b", "--queue=009"], 7, 9),
    (["farm", "--workers=7", "--queue=9", "--", "a", "b"], 7, 9),
]

# Those that are a mistake, which is reported by this text.
MISTAKES = [
    (["farm", "a"],
     "error: the following required arguments were not provided:\n  <OUT>\n\nUsage: rebuild farm [OPTIONS] <IN> <OUT>" + MORE),
    (["farm", "a", "b", "--queue", "65536"],
     "error: --workers takes a number from 1 to 16, and --queue one from 1 to 1024" + MORE),
    (["shelf"], "error: unrecognized subcommand 'shelf'\n\n  tip: a similar subcommand exists: 'help'\n\nUsage: rebuild [COMMAND]" + MORE
     + "The commands for stores, such as repair, are those of rebuild-store.\n"),
    (["--"], "error: rebuild takes the command farm, or no arguments at all" + MORE),
]

# Those that are a mistake, reported by some text.
REFUSED = [
    [""],
    ["farm"],
    ["farm", "a", "b", "c"],
    ["farm", "a", "b", "--workers"],
    ["farm", "a", "b", "--workers", "-1"],
    ["farm", "a", "b", "--workers", "two"],
    ["farm", "a", "b", "--workers", "1", "--workers", "1"],
    ["farm", "a", "b", "--threads", "1"],
    ["Farm", "a", "b"],
]

# Those that ask for a text.
SHOWN = [
    (["--version"], "rebuild 0.1.0\n"),
    (["--help"], HELP),
    (["-h"], HELP),
    (["help"], HELP),
    (["farm", "--help"], FARM_HELP),
    (["farm", "-h"], FARM_HELP),
    (["help", "farm"], FARM_HELP),
    (["farm", "a", "--help", "b"], FARM_HELP),
]

# A list of one request, whose answer has no file; and what is said of it, and what is there then.
LIST = "order,stripe,target,length,survivors\nrebuild,abc,x0,3,\n"
SERVED = "served 1 racks, 1 answers\n"
REPORT = "number,stripe,target,length,outcome,digest,unread\n0,abc,x0,3,several,,\n"

# Beside its workers the farm starts a collector and a feeder for the rack.
OTHER_THREADS = 2

# Each of two lanes takes an allocation of the same size for its items, which grows with the queue; and the greatest queue, with which no
# other allocation that does is greater.
LANES = 2
MOST_QUEUE = refusals.MOST_QUEUE


class Begins(str):
    """A text that is equal to each longer one that begins so."""

    __hash__ = str.__hash__

    def __eq__(self, other):
        return other.startswith(str(self)) and len(other) > len(self)


def rows():
    """Arguments, and the output, standard error and status."""
    yield [], ("", "", 0)
    for arguments, workers, queue in FARMS:
        fault = "refused E11\n" if not 1 <= workers <= 16 else "refused E12\n" if not 1 <= queue <= MOST_QUEUE else ""
        yield arguments, ("", fault, 2) if fault else (SERVED, "", 0)
    for arguments, text in MISTAKES:
        yield arguments, ("", text, 2)
    for arguments in REFUSED:
        yield arguments, ("", Begins("error: "), 2)
    for arguments, text in SHOWN:
        yield arguments, (text, "", 0)


def run(arguments):
    """Runs the program in the folder with the folders `a`, which has a list, and `b`; gives what it says, its status, and what `b` has."""
    report = pathlib.Path("b/rack0.report.csv")
    report.unlink(missing_ok=True)
    ran = subprocess.run([PROGRAM, *arguments], stdin=subprocess.DEVNULL, capture_output=True, text=True, timeout=SECONDS, check=False)
    return ran.stdout, ran.stderr, ran.returncode, report.read_text() if report.exists() else ""


class Settings:
    """What shows the settings that a folder is served with."""

    def __init__(self, folder):
        self.library = refusals.Library(folder)
        # The size of these with the greatest queue, between one that more allocations have than with a queue of 1 and one of which no more.
        met, unmet = refusals.LARGE, 1 << 20
        while unmet - met > 1:
            size = (met + unmet) // 2
            least, most = (self.large(["farm", "a", "b", "--queue", str(queue)], size) for queue in (1, MOST_QUEUE))
            met, unmet = (size, unmet) if least < most else (met, size)
        self.item = met // MOST_QUEUE

    def large(self, arguments, size):
        """How many allocations have so many bytes or more."""
        return self.library.run([PROGRAM, *arguments], large=size).large

    def are(self, arguments, workers, queue):
        """The workers, and how many allocations have the size of a lane's items with this queue."""
        size = self.item * queue
        lanes = self.large(arguments, size) - self.large(arguments, size + 1)
        return self.library.run([PROGRAM, *arguments]).threads - OTHER_THREADS, lanes


def main():
    tried, wrong = 0, []

    def compare(what, came, wanted):
        nonlocal tried
        tried += 1
        if came != wanted:
            wrong.append(f"arguments {what}:\n  wanted: {wanted}\n  came:   {came}")

    with tempfile.TemporaryDirectory() as folder:
        os.chdir(folder)
        os.mkdir("a")
        os.mkdir("b")
        pathlib.Path("a/rack0.csv").write_text(LIST)
        for arguments, wanted in rows():
            compare(arguments, run(arguments), (*wanted, REPORT if wanted[0] == SERVED else ""))
        settings = Settings(pathlib.Path(folder))
        for arguments, workers, queue in FARMS:
            if 1 <= workers <= 16 and 1 <= queue <= MOST_QUEUE:
                compare(f"{arguments}: workers, and lanes of a queue of {queue}", settings.are(arguments, workers, queue), (workers, LANES))
        os.chdir(ROOT)
    if wrong:
        print(*wrong, sep="\n")
        sys.exit(f"arguments: {len(wrong)} of {tried} are wrong")
    print(f"arguments: {tried} runs do what they ask for, and show the texts of help and mistakes")


main()
