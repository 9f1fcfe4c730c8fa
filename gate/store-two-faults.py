#!/usr/bin/env python3
"""Tries rebuild-store where the system fails twice in one run, or once where a run is refused: what was said of the first is still said if
a call fails while something is cleared up, given back or removed.

    store-two-faults.py [PROGRAM [TEST [SEED [COUNT]]]]

The stores and commands are drawn. With each the command is run whole, then with one call that fails, and then with this one and a later one
of that run, above all one that comes only because the first failed. The two answer errors of their own, so that their words differ. What is
held: each line that gives the first error's words when it fails alone is there; so is each line of the second that is there when that call
fails alone; the status is no lower than that of one failure; each path has what it had, what it has after the whole run or after that with
the first failure, or what a run with one failure may leave; what is left over is said; and the same command again does the rest. A fault
names the seed of the store, the command and the calls. With SEED that store alone is tried, or COUNT from it on."""

import collections
import errno
import os
import random
import re
import sys

# No compiled copy of the modules is left beside them.
sys.dont_write_bytecode = True
import drawn  # noqa: E402
import drawn_files  # noqa: E402
import drawn_words  # noqa: E402
import faults  # noqa: E402
import trees  # noqa: E402
from call_classes import class_of  # noqa: E402
from drawn import STAGED, SUMS  # noqa: E402
from failed_runs import RANDOM, Failed, Trial, is_unfinished  # noqa: E402
from known_faults import leaves_status, leaves_unsaid, loses_cause  # noqa: E402
from laws import LAST  # noqa: E402
from laws_of_files import judge_of  # noqa: E402
from stores import Fault, Program, hold, try_all  # noqa: E402

DEVICE = 3
# So many calls fail first in each store, and after each so many.
FIRSTS, SECONDS = 6, 3
# How long files are at most that are encoded beside what was there: reading them in pieces takes many calls.
MOST_BYTES = 10_000
# The errors of the second call, with which nothing else is done than with an I/O error.
ERRORS = (errno.ENXIO, errno.EFBIG)
# Calls by which a run clears up, before others.
READ_AGAIN = ": was replaced meanwhile, and is read again"
OF_FILES = {"encode", "read", "verify", "remove"}
CLEARING = ("unlink", "rmdir", "rename", "look", "sync", "lock", "readlink", "open")


class Both(Failed):
    """A run two of whose calls fail: one that failed alone in another run, and a later one of that run."""

    def __init__(self, first, number, how):
        self.trial, self.first, self.number, self.how, self.rest = first.trial, first, number, how, ""
        self.ran, self.found = self.trial.run(self.trial.before, first.number, first.how, second=(number, how))
        self.is_made = self.ran.failed == 2
        self.kind, self.paths = self.ran.kind_of(number), self.below(self.ran.second_paths)
        self.error = os.strerror(how)
        self.lines = self.ran.out.splitlines() + self.ran.err.splitlines()
        self.said = [line for line in self.lines if self.error in line]

    def below(self, paths):
        return [self.trial.below(path) for path in paths]

    def text(self):
        shown = f"{errno.errorcode[self.how]} of call {self.number}, {self.kind} of {' and '.join(self.paths)}"
        return f"{shown}: {self.ran.text()} after {self.first.text()}"


class Earlier(Failed):
    """The same run, as one whose first call failed."""

    def __init__(self, both):
        first = both.first
        self.trial, self.number, self.how, self.rest, self.error = both.trial, first.number, first.how, "", first.error
        self.ran, self.found, self.lines, self.kind = both.ran, both.found, both.lines, first.kind
        self.paths = both.below(both.ran.paths)
        self.said = [line for line in both.lines if self.error in line]


def plain(line):
    """A line without digits at random."""
    return RANDOM.sub("", line)


def of_first_alone(first):
    """The numbers of the calls that a run makes only because one failed, and those of the others after it with the numbers that they have
    in the whole run, whose last calls are of the same kinds."""
    whole, kinds = first.trial.ended.kinds, first.ran.kinds
    more, end = len(kinds) - len(whole), len(kinds)
    while end > first.number and end > first.number + more and kinds[end - 1] == whole[end - 1 - more]:
        end -= 1
    return [*range(first.number + 1, end + 1)], {number: number - more for number in range(end + 1, len(kinds) + 1)}


def chosen_seconds(choose, first, seen):
    """The calls that fail after the first one, those that come only because of it before others."""
    alone, others = of_first_alone(first)
    kinds = ["", *first.ran.kinds, "", ""]

    def order(number):
        around = (first.trial.words[0], first.kind, number in others, *kinds[number - 1:number + 2])
        rank = CLEARING.index(kinds[number]) if kinds[number] in CLEARING else len(CLEARING)
        return seen[around], rank, choose.random(), around

    chosen = []
    for numbers, most in ((alone, SECONDS), ([*others], 1)):
        for _, _, _, around, number in sorted((*order(number), number) for number in numbers)[:most]:
            seen[around] += 1
            chosen.append((number, others.get(number)))
    return chosen


def is_clearing_up(both):
    """Whether the second call takes away what the run has made."""
    return both.kind in ("unlink", "rmdir") or both.kind == "look" and any("-part-" in path for path in both.paths)


def is_one_fault(both, judges):
    """Whether both failures end one piece of work that isn't clearing up, of which the first to be met is said, or the last: that of the
    command before its stripes, that of a stripe or a file, or that of what is at one path."""
    if set(both.paths) & {*both.first.paths}:
        return True
    if is_clearing_up(both):
        return False
    later, earlier = (judge.concerned() for judge in judges)
    is_of_one = later is None or earlier is None or later & earlier
    return both.trial.words[0] in OF_FILES or is_of_one or any(judge.ended_early() for judge in judges)


def hold_both(both, number_alone):
    """Holds a run with two failures to what is said of it at the head of this script."""
    first, earlier = both.first, Earlier(both)
    if "output" in (both.kind, first.kind) or READ_AGAIN in both.ran.err:
        # What failed at first doesn't fail if a file is read again.
        return
    judges = [judge_of(both), judge_of(earlier)]
    if both.trial.words[0] == "repair" and not judges[0].differing and both.ran.status == both.trial.ended.status:
        # What few fragments give was made again of all.
        return

    def holds(is_so, what):
        hold(is_so, f"{what}: {both.text()}")

    hold_again(both, judges)
    is_one = is_one_fault(both, judges)
    if first.said and not loses_cause(both):
        holds(earlier.said or is_one and both.said, f"{first.error!r} isn't said any more")
    if number_alone and not is_one and not is_clearing_up(both) and not judge_of(first).ended_early():
        alone = Failed(both.trial, number_alone, both.how)
        if alone.is_made and [*map(plain, alone.paths)] == [*map(plain, both.paths)] and alone.said:
            holds(both.said, f"{both.error!r} isn't said any more")
    holds(both.ran.status >= first.ran.status, f"status {both.ran.status}, and {first.ran.status} with the first failure alone")
    hold_left(both, judges, holds)


def hold_again(both, judges):
    """The same command again does the rest, unless it doesn't after the first failure alone: store-random-faults.py tries that. It comes
    at once, while files have what other names they got."""
    if "is this the store?" in both.trial.ended.err:
        # A store that is refused since no stripe fits its code isn't if some can't be read.
        return
    try:
        # A file that couldn't be given away is its user's after the same command again.
        judges[both.first.kind == "chown"].hold_again()
    except Fault:
        if ends_well_again(both.first):
            raise


def ends_well_again(first):
    """Whether the same command again does the rest after the first failure alone, as store-random-faults.py has it in most stores."""
    try:
        judge_of(first).hold_again()
    except Fault:
        return False
    return True


def hold_left(both, judges, holds):
    """Each path has what it may have, and what is left over is said."""
    trial, first = both.trial, both.first
    for path in both.found.keys() | trial.before.keys():
        has = both.found.get(path)
        is_known = has in (trial.before.get(path), trial.after.get(path), first.found.get(path))
        if is_known or any(judge.is_of_watchers(path) for judge in judges):
            continue
        if is_unfinished(path):
            holds(any(judge.may_be_left(path) for judge in judges), f"{path} is left over")
            holds(both.ran.status == DEVICE or leaves_unsaid(both), f"{path} is left over, and the status is {both.ran.status}")
        else:
            holds(any(judge.may_be(path, has) for judge in judges), f"{path} is {has}")


def try_pairs(place, seed, draw, seen):
    """Draws a store and a command, and has pairs of calls fail."""
    choose = random.Random(seed)
    (place / "trial").mkdir()
    try:
        trial = Trial(place / "trial", *draw(choose))
        for number in trial.chosen(choose, seen[0], FIRSTS):
            first = Failed(trial, number, trial.error(choose, number)[0])
            if not first.is_made or first.kind == "output":
                continue
            for second, alone in chosen_seconds(choose, first, seen[1]):
                both = Both(first, second, choose.choice(ERRORS))
                if both.is_made:
                    hold_both(both, alone)
    except (Fault, faults.Fault) as fault:
        raise Fault(f"seed {seed!r}: {fault}") from None
    trial.take_away()


def try_stores(place, name, stores, draw):
    seen = collections.Counter(), collections.Counter()
    for number in Program.seeds or range(stores):
        try_pairs(place, f"{name} {number}", draw, seen)


def test_repair(place, _choose):
    """Repairs."""
    try_stores(place, "two of repair", 35, drawn_words.spoilt(drawn_words.repair))


def test_encode(place, _choose):
    """Files that are encoded."""
    try_stores(place, "two of encode", 35, drawn_files.encode)


def test_read(place, _choose):
    """Files that are read."""
    try_stores(place, "two of read", 40, drawn_files.read)


def test_verify(place, _choose):
    """Files that are held to their digests."""
    try_stores(place, "two of verify", 25, drawn_files.verify)


def test_remove(place, _choose):
    """Files that are taken out."""
    try_stores(place, "two of remove", 40, drawn_files.remove)


def test_scrub(place, _choose):
    """Scrubs."""
    try_stores(place, "two of scrub", 30, drawn_words.spoilt(drawn_words.scrub))


def test_lost(place, _choose):
    """What is lost, and which files there are."""
    try_stores(place, "two of lost", 20, drawn_words.spoilt(drawn_words.lost))


# A table of mounts by which nothing is known of locks, so that a run that writes makes the file of one and removes it.
NO_TABLE = "no line of a table\n"
# What is said once all names of a file were looked at.
NO_FILE = ": is no file of the store "
REFUSALS = (": is there already, with other bytes", ": is no regular file, and isn't removed", ": is a link to nothing, and nothing",
            NO_FILE)
CHANGES = {"create", "write", "link", "rename", "sync", "unlink"}


def unfit(choose, store, words):
    """Has a store be refused, in one of several ways."""
    way, at = choose.choice(("code", "code", "sums", "names", "fits", "report", "writers", "lock", "stripes")), len(words) - 1
    if way == "code" and "--code" in words:
        words[words.index("--code") + 1] = {"6-2-2": "12-2-2", "12-2-2": "6-2-2"}[store.code]
    elif way == "sums":
        store.within[SUMS] = trees.file(b"no digest\n")
    elif way == "names" and "--names" not in words:
        words[1:1] = ["--names", "{stripe}-of-{place}"]
    elif way == "fits":
        wrong = {path: entry for path, entry in store.within.items() if path in store.right and entry.kind == trees.FILE}
        store.within |= {path: entry._replace(data=choose.randbytes(len(entry.data))) for path, entry in wrong.items()}
        store.within.pop(SUMS, None)
    elif way == "report" and "--report" not in words and words[0] in ("repair", "scrub"):
        words[1:1] = ["--report", f"PLACE/store/{choose.choice(sorted(store.right))}"]
    elif way == "writers":
        store.beside["store"] = trees.folder()._replace(mode=0o777)
    elif way == "stripes" and "--stripes" not in words and words[0] in ("repair", "scrub", "lost"):
        words[1:1] = ["--stripes", "PLACE/no-names"]
    elif way == "lock":
        store.within[f"{drawn.UNFINISHED}part-1-of-3"] = trees.file(b"4711@beta\n", 0o600)
    return words if words[at:] else [*words, "PLACE/store"]


def refused(choose):
    """A store that is refused, as most of these are, and a command."""
    store = drawn.draw(choose, most=2)
    if choose.random() < 0.5:
        drawn.add_sums(choose, store)
    for name in [*store.data]:
        drawn.lose(choose, store, name)
    command = choose.choice(("repair", "repair", "repair", "scrub", "encode", "remove"))
    if command in ("repair", "scrub"):
        words = getattr(drawn_words, command)(choose, store)
        if command == "repair" and "--part" not in words and choose.random() < 0.5:
            words[1:1] = ["--part", choose.choice(("1/2", "2/2", "3/5"))]
        if "--progress" not in words and choose.random() < 0.5:
            # Counters of an earlier run of the same command over the same store.
            words[1:1] = ["--progress", "PLACE/out/counters"]
    elif command == "remove":
        words = ["remove", *store.names(), *(store.words or ["--code", store.code]), "PLACE/store", choose.choice([*store.data, "gone"])]
    else:
        store.beside["sources/new"] = trees.file(b"new", 0o640)
        words = ["encode", *store.names(), "--code", store.code, "--make-folders", "PLACE/store", "PLACE/sources/new"]
    words = [word for word in unfit(choose, store, words) if word not in ("--quiet", "--dry-run", "--json")]
    return store, words, trees.with_folders(store.tree() | store.beside)


def is_giving_back(failed, before):
    """Whether the call that failed is of the lock, or of what is written once a store is refused."""
    return any(is_unfinished(path) or path == "out/counters" for path in failed.paths) and not set(failed.paths) & before


def try_refused(place, seed):
    """Draws a store that is refused, and has each call fail by which the run gives back what it has made."""
    choose = random.Random(seed)
    (place / "trial").mkdir()
    mounts = place / "mounts"
    mounts.write_text(NO_TABLE)
    try:
        trial = Trial(place / "trial", *refused(choose), None, str(mounts) if choose.random() < 0.6 else "")
        whole, before = trial.ended, {path for path in trial.before if is_unfinished(path)}
        last = LAST[trial.words[0]]
        is_refused = whole.status in (1, 2, DEVICE) and not last.search(whole.out + whole.err) and whole.err
        left = {path for path in trial.after if is_unfinished(path)} - before
        hold(not left, f"{left} is left: {Failed(trial).text()}")
        kinds = whole.kinds
        first = max((number for number, kind in enumerate(kinds, 1) if kind == "list"), default=0)
        for number in range(max(first, len(kinds) - 30) + 1, len(kinds) + 1) if is_refused else []:
            failed = Failed(trial, number, choose.choice((errno.EIO, errno.EACCES, errno.EROFS)))
            if failed.is_made and is_giving_back(failed, before):
                hold_refused(failed, whole.err.splitlines())
    except (Fault, faults.Fault) as fault:
        raise Fault(f"seed {seed!r}: {fault}") from None
    trial.take_away()


def hold_refused(failed, lines):
    """What is refused is refused for the same reason, also if something else can't be given back or removed."""
    status, whole = failed.ran.status, failed.trial.ended.status
    lacks = [line for line in lines if line not in failed.lines]
    hold(not lacks, f"isn't said any more: {lacks}: {failed.text()}")
    hold(status in (whole, DEVICE), f"status {status}, and {whole} without a failure: {failed.text()}")
    if failed.said and not leaves_status(failed):
        hold(status == DEVICE, f"{failed.said} with status {status}: {failed.text()}")


def try_refused_files(place, seed, draw):
    """Draws a command that refuses a file, and has calls fail by which it then clears up or looks what there is."""
    choose = random.Random(seed)
    (place / "trial").mkdir()
    try:
        trial = Trial(place / "trial", *draw(choose))
        kinds, lines = trial.ended.kinds, [*filter(is_refusal, trial.ended.err.splitlines())]
        last = max((number for number, kind in enumerate(kinds, 1) if kind in CHANGES), default=len(kinds))
        numbers = {*range(last + 1, len(kinds) + 1), *(number for number, kind in enumerate(kinds, 1) if kind in ("unlink", "rmdir"))}
        for number in choose.sample(sorted(numbers), min(len(numbers), 20)) if lines else []:
            failed = Failed(trial, number, choose.choice((errno.EIO, errno.EROFS)))
            is_late = number > last and (failed.kind == "rmdir" or is_of_description(trial, failed))
            if failed.is_made and failed.kind != "output" and (is_late or all(map(is_made_by_run, failed.paths))):
                hold_refused(failed, [line for line in lines if failed.kind == "rmdir" or NO_FILE not in line])
    except (Fault, faults.Fault) as fault:
        raise Fault(f"seed {seed!r}: {fault}") from None
    trial.take_away()


def is_refusal(line):
    """Whether a line says why a file is refused, but by its description, before which nothing is done."""
    return any(words in line and not re.search(r"\.file(\.copy)?$", line.split(words)[0]) for words in REFUSALS)


def is_made_by_run(path):
    return is_unfinished(path) or STAGED in path


def is_of_description(trial, failed):
    """Whether a call that failed is of a description. These go before fragments, so that the file is refused by a fragment then."""
    return all(path.endswith((".file", ".file.copy")) for path in failed.paths) and "unlink" in trial.ended.kinds


def with_taken_names(choose):
    """Files that are encoded, of which some fragments have the names of others."""
    store, words, tree, *given = drawn_files.encode(choose)
    # Which of many fragments are damaged takes many calls to find.
    while store.code == "12-2-2" or any(len(entry.data) > MOST_BYTES for entry in tree.values()):
        store, words, tree, *given = drawn_files.encode(choose)
    for name in store.sources.values():
        data = tree[f"sources/{name}"].data
        if choose.random() < 0.7 and name not in store.data and data:
            files = store.files_of(name, data)
            paths = [path for path in files if path not in store.descriptions(name) and files[path]]
            for path in choose.sample(paths, min(len(paths), 2)):
                tree[f"store/{path}"] = trees.file(bytes(len(files[path])) + b"other", 0o640)
    if given:
        tree.pop(next(iter(store.sources)), None)
    return store, words, trees.with_folders(tree), *given


def with_odd_things(choose):
    """Files that are taken out, of which some fragments are folders or FIFOs."""
    store, words, _ = drawn_files.remove(choose)
    paths = [path for path, entry in store.within.items() if path in store.right and entry.kind == trees.FILE]
    paths = [path for path in paths if not path.endswith((".file", ".file.copy"))]
    for path in choose.sample(paths, min(len(paths), choose.choice((1, 1, 2)))):
        store.within[path] = choose.choice((trees.folder(), trees.Entry(trees.OTHER, b"", 0o640)))
    return store, words, store.tree()


def try_links(place, seed):
    """Draws a file that can't be read since too much is lost, and a folder of a disk that is a link: what is behind that isn't opened."""
    choose = random.Random(seed)
    (place / "trial").mkdir()
    store = drawn_files.with_files(choose)
    while not store.folders():
        store = drawn_files.with_files(choose)
    name, folder = choose.choice([*store.data]), choose.choice(sorted(store.folders()))
    for path in [path for path in store.within if path.startswith(f"{folder}/")]:
        store.beside[f"linked/{path}"] = store.within.pop(path)
    store.within[folder] = trees.link(os.path.relpath(f"linked/{folder}", os.path.dirname(f"store/{folder}")))
    for place_ in choose.sample(store.order, 5):
        store.within.pop(store.path(name, place_), None)
    command = choose.choice((["read"], ["verify"], ["read", "--output", "PLACE/out/file"]))
    words = [*command, *store.names(), "PLACE/store", name]
    try:
        trial = Trial(place / "trial", store, words, store.tree())
        for number in [number for number, kind in enumerate(trial.ended.kinds, 1) if kind == "open"]:
            failed = Failed(trial, number, errno.EIO)
            behind = [path for path in failed.paths if path.startswith(f"store/{folder}/")]
            hold(not behind, f"seed {seed!r}: {behind} was opened, and {folder} is a link: {failed.text()}")
    finally:
        trees.change(place / "trial", trees.look(place / "trial"), {})
    (place / "trial").rmdir()


def test_refused_stores(place, _choose):
    """What is said of a store that is refused is said if a call fails by which the run then gives its lock back or writes counters."""
    for number in Program.seeds or range(90):
        try_refused(place, f"two of refused {number}")


def test_refused_files(place, _choose):
    """The same of a file that is refused, if what the run has made for it can't be removed or the rest not be looked at."""
    for number in Program.seeds or range(50):
        try_refused_files(place, f"two of taken {number}", with_taken_names)
        try_refused_files(place, f"two of odd {number}", with_odd_things)


def test_links(place, _choose):
    """A folder that is a link has no fragments, also where a file can't be given."""
    for number in Program.seeds or range(20):
        try_links(place, f"two of links {number}")


if __name__ == "__main__":
    try_all("store-two-faults", globals(), *sys.argv[1:])
