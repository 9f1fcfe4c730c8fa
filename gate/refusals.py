#!/usr/bin/env python3
"""Refuses the built program its memory and its threads, and sees that every run ends as it must.

Each allocation is refused in a run of its own, 1, 2, 3 and so on until a run meets no refusal, and so is each thread, by
refuse.c, which is preloaded. The threads of a run are counted, too. Then address space is limited. It runs what was built last:
crates/rebuild/out/rebuild, and the tests out/<crate>_tests of the crates that TESTS names.
"""

import collections
import contextlib
import csv
import dataclasses
import hashlib
import itertools
import os
import pathlib
import re
import resource
import signal
import struct
import subprocess
import sys
import tempfile
import typing
from concurrent.futures import ThreadPoolExecutor

import runs

ROOT = pathlib.Path(__file__).resolve().parent.parent
PROGRAM = ROOT / "crates/rebuild/out/rebuild"
DEMO = ROOT / "demo"
DEMO_ANSWERED = b"served 4 racks, 14 answers\n"

# Requests for tests of lrc_tests: a code, the target, the length, and survivors. By the first x0 is the sum of three, and p1 of the last
# that of twelve, a sum within a sum eleven times. The others are rebuilt by products, are contradictions, or aren't determined.
OF_THREE = "6-2-2 x0 1 x1=02 x2=03 px=00"
OF_TWELVE = "12-2-2 p1 1 x0=01 x1=00 x2=00 x3=00 x4=00 x5=01 y0=02 y1=00 y2=00 y3=00 y4=00 y5=00"
REQUESTS = [
    OF_THREE,
    "6-2-2 y0 1 x0=01 x1=02 x2=03 y1=05 y2=06 px=00 p0=04 p1=6E",
    "6-2-2 x0 1 x1=02 x2=03 y0=04 y1=05 y2=06 px=01 py=07 p0=04 p1=6E",
    "6-2-2 y0 1 x0=01 x1=02 x2=03 px=00 p0=04 p1=6E",
    "6-2-2 x0 3 x2=000000 y0=000000 y1=000000 y2=000000 p0=999591 p1=5E6E7E",
    "12-2-2 x5 1 x1=00 x2=00 x3=00 x4=00 y0=02 y1=00 y2=00 y3=00 y4=00 y5=00 py=02 p0=72 p1=A6",
    OF_TWELVE,
]


@dataclasses.dataclass(frozen=True)
class Tried:
    """A test that ends for lack of memory where an allocation is refused, and else passes: with these lines as its input, and how many
    threads it starts at least. It may start no more than these, and the other threads may do the work where one is refused, so that it
    passes then."""

    crate: str
    name: str
    threads: int = 0
    lines: tuple = ()
    is_exact: bool = False
    passes: bool = False


# Values are evaluated with so many forks; above 4 they count as 4.
TESTS = [
    Tried("lrc_tests", "shown_of_lines", 0, tuple(f"answers 0 {line}" for line in REQUESTS * 2)),
    Tried("lrc_tests", "shown_of_lines", 1, tuple(f"value {forks} {line}" for line in REQUESTS for forks in (0, 2, 255)), passes=True),
    Tried("lrc_tests", "shown_of_lines", 2, (f"value 2 {OF_THREE}",), is_exact=True, passes=True),
    Tried("lrc_tests", "shown_of_lines", 4, (f"value 255 {OF_TWELVE}",), is_exact=True, passes=True),
    Tried("farm_tests", "two_workers_answer_two_racks", 4),
    Tried("farm_tests", "two_workers_answer_six_feeds", 9),
    Tried("farm_tests", "collector_takes_its_room"),
    Tried("farm_lists_tests", "three_threads_make_the_known_digest", 2, is_exact=True, passes=True),
    Tried("store_tests", "each_name_is_as_it_was_or_rebuilt"),
]

# Limits of address space, in KiB: from where the program is hardly loaded to where all of its threads have room.
ROOMS = [6_000, 8_000, 10_000, 12_000, 16_000, 20_000, 30_000, 40_000, 60_000]
ROOMS += [80_000, 100_000, 120_000, 150_000, 200_000, 250_000, 300_000, 400_000]

# From how many bytes on line mode cuts an input into pieces.
LONG_INPUT = 262_144

# How many requests are listed where threads are counted, and how long fragments are of which several threads make the digests; what a
# file is worth that is read ahead, beside its bytes and one more, and a fragment that is digested, beside its bytes; and how much a
# thread reads ahead or digests at least.
COUNTED = 256
DIGESTED = 16_384
OPENING = 16_384
BLOCK = 64
PART = 1_048_576

# The folders where threads are counted: a name, the survivors that are there, their length, and how many racks and batches there are. Two
# racks are one batch where fragments are short.
COUNTED_FOLDERS = [
    ("several", ["x1", "x2"], 1, 1, 1),
    ("rebuilt", ["x1", "x2", "px"], DIGESTED, 1, 1),
    ("two racks", ["x1", "x2"], 1, 2, 1),
    ("two batches", ["x1", "x2", "px"], DIGESTED, 2, 2),
]

# A folder whose survivors are read in three batches, each beside the answering of the one before. The first rack has as many requests of
# the (12,2,2) code for the longest fragments, each with all other places as survivors, a close and a request after it, and a feed without
# requests. 16 of these requests fit into a batch. The survivors of these are absent, and of the last two they are there, of zeros. Two
# racks of a small request are the last batch. With four workers that starts as many threads for its farm as FARM_THREADS: a collector's,
# the workers' and two feeders'.
BATCHED = 18
THERE = range(16, BATCHED)
FARM_THREADS = 7
LONGEST = 65_536
SURVIVORS = "x1 x2 x3 x4 x5 y0 y1 y2 y3 y4 y5 px py p0 p1"

# The greatest queue. A lane of it takes two allocations of LARGE bytes or more, its items and their records, and one of the least queue
# none.
# The demo's folder is one batch, so the farm runs once.
MOST_QUEUE = 1_024
LARGE = 16 * MOST_QUEUE
LARGE_IN_LANE = 2

# A run that takes longer hangs, and a walk that is longer has no end.
SECONDS = 300
MOST = 5_000
BATCH = 32

# What refuse.c counts.
COUNTS = struct.Struct("=7Q")

EXHAUSTED = 4
WITHOUT_MEMORY = b"E16\n"
WITHOUT_THREAD = b"E17\n"


class Fault(Exception):
    """A run that ended as none may."""


@dataclasses.dataclass
class Ended:
    """How a run ended, and what it asked for and was refused since the start of its `main`."""

    status: int
    out: bytes
    err: bytes
    allocations: int
    refused_allocations: int
    threads: int
    refused_threads: int
    large: int = 0

    @property
    def was_refused(self):
        return self.refused_allocations + self.refused_threads > 0

    def text(self):
        return f"status {self.status}, output {self.out[-300:]!r}, standard error {self.err[-300:]!r}"


@dataclasses.dataclass(frozen=True)
class Refusal:
    """What a run is refused: the allocation or the thread of a number, from 1, and perhaps all after it; 0 for none."""

    allocation: int = 0
    thread: int = 0
    rest: bool = False


class Library:
    """refuse.c, built into a folder. With `forks` the runs of a program share a start."""

    def __init__(self, folder, forks=False):
        self.folder = folder
        self.file = folder / "refuse.so"
        build(self.file, "refuse.c", "-shared", "-fPIC")
        self.library = runs.Preloaded(self.file, "REFUSE_COUNTS", COUNTS.size, forks)

    def run(self, words, given=b"", refusal=Refusal(), large=0, late=0):
        """Runs a program to its end under a refusal, and counts its allocations of so many bytes or more. The thread of a number may begin
        late."""
        settings = {
            "REFUSE_ALLOCATION": str(refusal.allocation),
            "REFUSE_THREAD": str(refusal.thread),
            "REFUSE_REST": str(int(refusal.rest)),
            "REFUSE_LARGE": str(large),
            "REFUSE_LATE": str(late),
        }
        with ending(words):
            ran = self.library.run([str(it) for it in words], settings, SECONDS, given)
        asked, refused, counted, threads, refused_threads, _, many = COUNTS.unpack(ran.record)
        if counted != 1:
            raise Fault(f"nothing counted what {words[0]} asks for")
        return Ended(ran.status, ran.out, ran.err, asked, refused, threads, refused_threads, many)


def build(to, source, *flags):
    compiler = os.environ.get("CC", "gcc")
    subprocess.run([compiler, "-O2", "-Wall", *flags, "-o", to, ROOT / "gate" / source, "-pthread"], check=True)


@contextlib.contextmanager
def ending(words):
    """Says that a program isn't built or doesn't end."""
    try:
        yield
    except FileNotFoundError:
        raise Fault(f"{words[0]} is not built: make test and make build do it") from None
    except subprocess.TimeoutExpired:
        raise Fault(f"had not ended after {SECONDS} seconds") from None


def finished(words, given, environment):
    with ending(words):
        return subprocess.run(words, input=given, capture_output=True, env=environment, timeout=SECONDS)


def test_the_library(library):
    """The library refuses exactly what it is asked to, in each of the ways to ask, and counts all."""
    program = library.folder / "control"
    build(program, "refuse-control.c")
    for allocation, thread in itertools.product([*range(7), 100], range(3)):
        ran = library.run([program], refusal=Refusal(allocation, thread))
        wanted = ["y"] * 7
        if 1 <= allocation <= 6:
            wanted[allocation - 1] = "n"
        if thread == 1:
            wanted[6] = "n"
        if ran.out.decode() != "".join(wanted) + "\n" or ran.threads != 1 or ran.allocations < 6:
            raise Fault(f"refuse.c refused others than allocation {allocation} and thread {thread}: {ran.text()}")
    ran = library.run([program], refusal=Refusal(allocation=3, rest=True))
    # What starts a thread takes memory too.
    if ran.out != b"yynnnnn\n":
        raise Fault(f"refuse.c did not refuse allocation 3 and all after it: {ran.text()}")


def kind_without_memory(ran, may_be_silent):
    """How a run that was refused memory said so. Nothing is said where the fault's line itself finds none."""
    if (ran.status, ran.out) == (EXHAUSTED, b""):
        if ran.err == WITHOUT_MEMORY:
            return "E16"
        if ran.err == b"" and may_be_silent:
            return "silent"
    raise Fault(ran.text())


class Text:
    """Line mode, or words that ask for no work: what it says, or E16 and nothing written."""

    def __init__(self, library, words, said, given=b""):
        self.library = library
        self.words = [PROGRAM, *words]
        self.said = said
        self.given = given

    def __call__(self, refusal):
        ran = self.library.run(self.words, self.given, refusal)
        if (ran.status, ran.out, ran.err) == self.said:
            return ran, "answered"
        says_fault = self.said[2].startswith(b"E")
        return ran, kind_without_memory(ran, refusal.rest or says_fault)


def merges(feeds):
    """All merges of some lists, each of which keeps its order."""
    if not any(feeds):
        yield []
    for number, feed in enumerate(feeds):
        if feed:
            for rest in merges([*feeds[:number], feed[1:], *feeds[number + 1 :]]):
                yield [feed[0], *rest]


def rack_files(rack, header, rows):
    """The names and digests of the files of a rack whose report has these rows, in the order of writing."""
    files = []
    lines = [",".join(header)]
    for number, row in enumerate(rows):
        if row["outcome"] == "rebuilt":
            files.append((f"rack{rack}-{number}.{row['stripe']}.{row['target']}", row["digest"]))
        lines.append(",".join([str(number), *list(row.values())[1:]]))
    report = "".join(line + "\n" for line in lines)
    return [*files, (f"rack{rack}.report.csv", hashlib.sha256(report.encode()).hexdigest())]


def served_files():
    """What serving the demo's folder may write: lists of names and digests in the order of writing, by its stored reports.

    Several feeds of a rack may be merged in any way, since none of the demo's has a close."""
    served = [[]]
    for rack in range(len(list(DEMO.glob("farm-reports/*")))):
        text = (DEMO / f"farm-reports/rack{rack}.report.csv").read_text()
        rows = list(csv.DictReader(text.splitlines()))
        feeds = collections.defaultdict(list)
        for row in rows:
            feeds[row.get("feed")].append(row)
        header = text.splitlines()[0].split(",")
        racks = [rack_files(rack, header, merged) for merged in merges(list(feeds.values()))]
        served = [[*files, *others] for files in served for others in racks]
    return served


def batched_folder(folder):
    """Makes the folder of three batches, and gives it with what serving it may write."""
    folder.mkdir()
    zeros = bytes(LONGEST)
    listed, rows = ["order,stripe,target,length,survivors,code"], []
    for number in range(BATCHED):
        is_there = number in THERE
        if is_there:
            for place in SURVIVORS.split():
                (folder / f"s{number}.{place}").write_bytes(zeros)
        listed.append(f"rebuild,s{number},x0,{LONGEST},{SURVIVORS},12-2-2")
        row = {"number": number, "feed": "0"} | report_row(f"s{number}", zeros if is_there else None, LONGEST, SURVIVORS)
        rows.append(row | {"code": "12-2-2"})
    listed += ["close,,,,,", listed[1]]
    (folder / "rack0.csv").write_text("".join(line + "\n" for line in listed))
    (folder / "rack0.feed1.csv").write_text(listed[0] + "\n")
    files = rack_files(0, list(rows[0]), rows)
    for rack in (1, 2):
        (folder / f"rack{rack}.csv").write_text("order,stripe,target,length,survivors\nrebuild,small,x0,1,x1 x2 px\n")
        row = {"number": 0} | report_row("small", b"\0", 1, "")
        files += rack_files(rack, list(row), [row])
    for place in ("x1", "x2", "px"):
        (folder / f"small.{place}").write_bytes(b"\0")
    return folder, [files], b"served 3 racks, %d answers\n" % (BATCHED + 2)


def report_row(stripe, fragment, length, survivors):
    """A report's fields on a request for x0 whose fragment is rebuilt, or of which all survivors are left out."""
    row = {"stripe": stripe, "target": "x0", "length": str(length)}
    if fragment is None:
        return row | {"outcome": "several", "digest": "", "unread": survivors}
    return row | {"outcome": "rebuilt", "digest": hashlib.sha256(fragment).hexdigest(), "unread": ""}


class Farm:
    """The command farm on a folder: all of its files, or E16 or E17 with none.

    Where memory is refused after the first write, the files before it are whole."""

    def __init__(self, library, workers, queue, folder=DEMO / "farm", served=None, answered=DEMO_ANSWERED):
        self.library = library
        self.settings = ["--workers", str(workers), "--queue", str(queue)]
        self.folder, self.answered = folder, answered
        self.served = served_files() if served is None else served

    def __call__(self, refusal):
        with tempfile.TemporaryDirectory(dir=self.library.folder) as out:
            ran = self.library.run(self.words(out), refusal=refusal)
            return ran, self.judged(ran, refusal, out)

    def words(self, out):
        return [str(it) for it in [PROGRAM, "farm", self.folder, out, *self.settings]]

    def judged(self, ran, refusal, out):
        there = {it.name: hashlib.sha256(it.read_bytes()).hexdigest() for it in pathlib.Path(out).iterdir()}
        whole = [files for files in self.served if there == dict(files[: len(there)])]
        if not whole:
            raise Fault(f"wrote {sorted(there)}; {ran.text()}")
        if len(there) == len(whole[0]) and (ran.status, ran.out, ran.err) == (0, self.answered, b""):
            return "answered"
        if not there and (ran.status, ran.out, ran.err) == (EXHAUSTED, b"", WITHOUT_THREAD):
            return "E17"
        return kind_without_memory(ran, refusal.rest) + (" between two writes" if there else "")


class Test:
    """A test: it passes, and shows what it shows where nothing is refused, or it ends for lack of memory."""

    def __init__(self, library, crate, name, lines=()):
        self.library = library
        program = ROOT / f"crates/{crate}/out/{crate}_tests"
        listed = finished([program, "--list"], b"", {}).stdout.decode().split()
        names = [it[:-1] for it in listed if it.endswith(f"::{name}:")]
        if len(names) != 1:
            raise Fault(f"{crate} has no test {name}")
        self.words = [program, names[0]]
        self.given = "".join(f"{line}\n" for line in lines).encode()
        self.whole = self.run()

    def run(self, refusal=Refusal()):
        return self.library.run(self.words, self.given, refusal)

    def __call__(self, refusal):
        ran = self.run(refusal)
        if ran.status == 0:
            if ran.out != self.whole.out:
                raise Fault(f"it shows something else: {ran.text()}")
            return ran, "answered"
        # A test returns its error, or aborts where it expects what it needs.
        if ran.status > 0 or ran.status == -signal.SIGABRT:
            refused = rb": (AllocError|AllocFailed \{ \.\. \}|OutOfMemory|Kind\(OutOfMemory\)|NoThread)$"
            if re.search(refused, ran.err + ran.out, re.M):
                return ran, "AllocError"
            if re.search(rb": starved$", ran.err + ran.out, re.M):
                return ran, "starved"
        raise Fault(ran.text())


def tally(kinds):
    return ", ".join(f"{count} {kind}" for kind, count in sorted(collections.Counter(kinds).items()))


@dataclasses.dataclass
class Walk:
    """Runs in each of which another allocation or thread is refused, and the ends that some of them must come to."""

    name: str
    what: str
    rest: bool
    attempt: typing.Callable
    ends: set
    # All ends that there may be, if not any.
    only: set = None
    # Of some ends how many of the runs come to them, no fewer and no more.
    exact: dict = dataclasses.field(default_factory=dict)


def make(walk, pool):
    """Makes an attempt with each number refused, from 1, until a whole batch of numbers met no refusal."""
    name, what = walk.name, walk.what

    def one(number):
        try:
            return walk.attempt(Refusal(**{what: number}, rest=walk.rest))
        except Fault as fault:
            raise Fault(f"{name}: {what} {number}: {fault}") from None

    whole, kind = one(0)
    if whole.was_refused or kind != "answered":
        raise Fault(f"{name}: {kind} where nothing is refused")
    asked = whole.allocations if what == "allocation" else whole.threads
    kinds, start = [], 1
    # At first as many as were asked for, in one batch.
    for end in range(1 + BATCH * max(1, -(-asked // BATCH)), MOST + BATCH, BATCH):
        ended = list(pool.map(one, range(start, end)))
        if any(kind != "answered" for ran, kind in ended if not ran.was_refused):
            raise Fault(f"{name}: no answer where nothing was refused")
        met = [kind for ran, kind in ended if ran.was_refused]
        kinds += met
        if not met:
            break
        start = end
    else:
        raise Fault(f"{name}: no end after {MOST} numbers")
    if len(kinds) < max(asked // 2, 1):
        raise Fault(f"{name}: {len(kinds)} refused, and {asked} asked for")
    if not walk.ends <= set(kinds):
        raise Fault(f"{name}: no {what} refused led to {walk.ends - set(kinds)}: {tally(kinds)}")
    for kind, count in walk.exact.items():
        if kinds.count(kind) != count:
            raise Fault(f"{name}: {kinds.count(kind)} and not {count} {what}s refused led to {kind}: {tally(kinds)}")
    if walk.only is not None and not set(kinds) <= walk.only:
        raise Fault(f"{name}: {what}s refused led to other ends than {walk.only}: {tally(kinds)}")
    turns = "with all after it" if walk.rest else "in turn"
    print(f"refusals {name}: {len(kinds)} {what}s refused, each {turns}: {tally(kinds)}", flush=True)


def limit_rooms(pool, library):
    """Serves the demo's folder in little address space."""
    farm = Farm(library, 16, 1)

    def one(room):
        with tempfile.TemporaryDirectory(dir=library.folder) as out:
            limited = ["sh", "-c", f'ulimit -c 0; ulimit -v {room}; exec "$@"', "sh", *farm.words(out)]
            try:
                ran = finished(limited, b"", {})
                ended = Ended(ran.returncode, ran.stdout, ran.stderr, 0, 0, 0, 0)
                return farm.judged(ended, Refusal(rest=True), out)
            except Fault as fault:
                raise Fault(f"room: {room} KiB: {fault}") from None

    kinds = list(pool.map(one, ROOMS))
    print(f"refusals room: {len(ROOMS)} limits from {ROOMS[0]} to {ROOMS[-1]} KiB: {tally(kinds)}", flush=True)


def text_walks(library):
    """Runs that write texts alone."""

    def said(*words):
        ran = library.run([PROGRAM, *words])
        return ran.status, ran.out, ran.err

    replies = (DEMO / "replies").read_bytes()
    out_of_memory = {"E16"}
    # The last growth is that of the fault's line, and where it is refused nothing is said.
    out_of_memory_or_silent = {"E16", "silent"}
    for name, text, ends in [
        ("one-line", Text(library, [], (0, b"rebuilt 01\n", b""), b"a x0 1 x1=02 x2=03 px=00\n"), out_of_memory),
        ("lines", Text(library, [], (1, replies, b""), (DEMO / "requests").read_bytes()), out_of_memory),
        ("help", Text(library, ["--help"], said("--help")), out_of_memory),
        ("farm-help", Text(library, ["farm", "--help"], said("farm", "--help")), out_of_memory),
        ("one-folder", Text(library, ["farm", "in"], said("farm", "in")), out_of_memory),
        ("no-workers", Text(library, ["farm", "in", "out", "--workers", "0"], (2, b"", b"refused E11\n")), out_of_memory),
        ("no-queue", Text(library, ["farm", "in", "out", "--queue", "0"], (2, b"", b"refused E12\n")), out_of_memory),
        ("no-lists", Text(library, ["farm", "in", "out"], (1, b"", b"E23\n")), out_of_memory_or_silent),
    ]:
        yield Walk(name, "allocation", False, text, ends)
        yield Walk(name, "allocation", True, text, ends)
    # Over a million bytes, so that lines are replied to in four threads.
    zeros = b"00" * 30_000
    long = Text(library, [], (0, (b"rebuilt %s\n" % zeros) * 6, b""), (b"a x0 30000 x1=%s x2=%s px=%s\n" % (zeros, zeros, zeros)) * 6)
    for rest in [False, True]:
        yield Walk("long-lines", "allocation", rest, long, out_of_memory)
        yield Walk("long-lines", "thread", rest, long, set(), {"answered"})


def paths_of(farm):
    """How often memory is refused between two writes: once for the path of each file but the first, and not for any file's bytes, since
    all of these are made before the first write."""
    return {"E16 between two writes": len(farm.served[0]) - 1}


def farm_walks(library):
    """Served folders."""
    for workers, queue in [(1, 1), (2, 1), (4, 16)]:
        farm = Farm(library, workers, queue)
        name = f"farm-{workers}-{queue}"
        yield Walk(name, "allocation", False, farm, {"E16", "E17", "E16 between two writes"}, exact=paths_of(farm))
        yield Walk(name, "allocation", True, farm, {"E16", "silent", "silent between two writes"})
    for workers, queue in [(1, 1), (4, 16), (16, 1)]:
        for rest in [False, True]:
            yield Walk(f"farm-{workers}-{queue}", "thread", rest, Farm(library, workers, queue), {"E17"})
    # Reading ahead does without what it is refused, and a batch whose farm is refused something beside it is answered once more, alone: so
    # one refused thread is told only of the last batch, beside which nothing is read.
    batched = Farm(library, 4, 16, *batched_folder(library.folder / "batched"))
    yield Walk("farm-batches", "allocation", False, batched, {"answered", "E16", "E16 between two writes"}, exact=paths_of(batched))
    yield Walk("farm-batches", "allocation", True, batched, {"E16"})
    yield Walk("farm-batches", "thread", False, batched, {"answered"}, {"answered", "E17"}, exact={"E17": FARM_THREADS})
    yield Walk("farm-batches", "thread", True, batched, {"E17"})


def test_walks(library):
    """Tests of the libraries. What lrc_tests shows of requests where nothing is refused is tested by answers.py."""
    for tried in TESTS:
        name = tried.name
        test = Test(library, tried.crate, name, tried.lines)
        yield Walk(name, "allocation", False, test, {"AllocError"})
        started = test.whole.threads
        if started < tried.threads or (tried.is_exact and started != tried.threads):
            raise Fault(f"{name}: started {started} threads, and not {tried.threads}")
        if started:
            yield Walk(name, "thread", False, test, set(), {"answered"} if tried.passes else None)


def worker_walks(library):
    """A worker that is refused the memory of its plan's arena, and that of its answer, and nothing else, at each job: one that plans
    elsewhere than in its arena is refused each node of a plan, and one with an arena for all jobs is refused it once."""
    for name, jobs in [("a_worker_without_memory_says_so", 1), ("each_job_has_an_arena_of_its_own", 2)]:
        test = Test(library, "farm_tests", name)
        yield Walk(name, "allocation", False, test, {"AllocError", "starved"}, exact={"starved": 2 * jobs})


def racks_of(folder, survivors, length, racks):
    """So many racks of as many requests as COUNTED, with these survivors of each and no others, all of this length."""
    rows = ["order,stripe,target,length,survivors"]
    for number in range(COUNTED):
        rows.append(f"rebuild,s{number},x0,{length},x1 x2 px")
        for place in survivors:
            (folder / f"s{number}.{place}").write_bytes(bytes([number % 256]) * length)
    for rack in range(racks):
        (folder / f"rack{rack}.csv").write_text("\n".join(rows) + "\n")


def count_threads(library):
    """The program starts as many threads as `--workers` says: for the farm of each batch the collector's, one for each worker and one for
    each rack's feeder; for the survivors of each rack one fewer than workers, since the thread that waits takes a share, and as many as
    have the least part each, with one more where they are read beside the batch before; and so for the digests.
    """
    with tempfile.TemporaryDirectory(dir=library.folder) as folder:
        folder = pathlib.Path(folder)
        (folder / "out").mkdir()
        for name, survivors, length, racks, batches in COUNTED_FOLDERS:
            (folder / name).mkdir()
            racks_of(folder / name, survivors, length, racks)
            for workers in [1, 2, 3, 4, 5, 7, 16]:
                words = [PROGRAM, "farm", folder / name, folder / "out", "--workers", str(workers), "--queue", "6"]
                ran = library.run([str(it) for it in words])
                if (ran.status, ran.out) != (0, b"served %d racks, %d answers\n" % (racks, racks * COUNTED)):
                    raise Fault(f"threads of {name}: {ran.text()}")
                reading = min(workers, 3 * COUNTED * (OPENING + length + 1) // PART)
                digesting = min(workers, racks * COUNTED * (BLOCK + length) // PART) if "px" in survivors else 1
                wanted = batches * (1 + workers) + racks + racks * (reading - 1) + (batches - 1) + (digesting - 1)
                if ran.threads != wanted:
                    raise Fault(f"threads of {name}: {workers} workers started {ran.threads} threads, and not {wanted}")
    print("refusals threads: as many as --workers says, for survivors, requests and digests", flush=True)


def count_threads_of_lines(library):
    """Line mode starts no thread for a short input, and else one fewer than there are pieces, which are halves of halves at most."""
    line = b"a x0 1 x1=02 x2=03 px=00\n"
    for least, threads in [(0, 0), (LONG_INPUT - len(line), 0), (LONG_INPUT, 1), (4 * LONG_INPUT, 3), (16 * LONG_INPUT, 3)]:
        count = -(-least // len(line))
        ran = library.run([PROGRAM], line * count)
        if (ran.status, ran.out, ran.threads) != (0, b"rebuilt 01\n" * count, threads):
            raise Fault(f"{len(line) * count} bytes of lines: {ran.threads} threads, and not {threads}: {ran.text()}")
    print("refusals lines: no thread for a short input, one for a longer, three for a long one", flush=True)


def compare_queues(library):
    """Both lanes of the farm have as much room as `--queue` says: with the greatest queue the large allocations of two lanes are
    there, and with the least of none."""
    counts = {}
    for queue in [1, MOST_QUEUE]:
        with tempfile.TemporaryDirectory(dir=library.folder) as out:
            words = [PROGRAM, "farm", DEMO / "farm", out, "--workers", "2", "--queue", str(queue)]
            ran = library.run([str(it) for it in words], large=LARGE)
            if (ran.status, ran.out) != (0, DEMO_ANSWERED):
                raise Fault(f"a queue of {queue}: {ran.text()}")
            counts[queue] = ran.large
    if counts[MOST_QUEUE] != counts[1] + 2 * LARGE_IN_LANE:
        raise Fault(f"queues: allocations of {LARGE} bytes and more by the queue: {counts}")
    more = counts[MOST_QUEUE] - counts[1]
    print(f"refusals queues: {more} more large allocations with a queue of {MOST_QUEUE} than with one of 1", flush=True)


def main():
    # A test that fails aborts.
    resource.setrlimit(resource.RLIMIT_CORE, (0, 0))
    with tempfile.TemporaryDirectory() as folder, ThreadPoolExecutor(os.cpu_count()) as pool:
        library = Library(pathlib.Path(folder), forks=True)
        try:
            test_the_library(library)
            count_threads(library)
            count_threads_of_lines(library)
            compare_queues(library)
            for walk in itertools.chain(text_walks(library), farm_walks(library), test_walks(library), worker_walks(library)):
                make(walk, pool)
            limit_rooms(pool, library)
        except Fault as fault:
            sys.exit(f"refusals {fault}")


if __name__ == "__main__":
    main()
