#!/usr/bin/env python3
"""Answers lists in batches of any size, from one request to all: the answers, what was left out, and what a pause is given; which files are
read ahead, how often, and into what memory. Then it serves folders with a pause, and counts the failures of both devices.

It runs what was built last: tests of farm_tests, which show what the program doesn't, since its batches have one size."""

import collections
import dataclasses
import os
import pathlib
import re
import subprocess
import sys
import tempfile

# No compiled copy of the modules is left beside them.
sys.dont_write_bytecode = True
import faults  # noqa: E402
import refusals  # noqa: E402
from served import (  # noqa: E402
    ABC, CLOSE, FRAGMENTS, HEADER, LIST, LISTED, LIST_OF_FOUR, TESTS, WHOLE, Checks, empty_racks, folders, zero_stripes)

ANSWERED, SERVED, REPORTED = [[str(TESTS), name] for name in (
    "files::batches::answered_in_batches", "files::batches::served_with_a_pause", "files::surface::reports_on_a_list")]
SECONDS = 300
ENDED = "test result: ok"

# The greatest size of a batch.
ALL = (1 << 64) - 1


def of_request(length=1):
    """What a request with three survivors of a length counts in a batch: 512 bytes, and for each survivor 512 more than its own."""
    return 512 + 3 * (512 + length)


ONE = of_request()

# Three racks, of which the second has a feed without requests. Of stripe c one fragment is absent.
THREE = {"rack0.csv": LIST_OF_FOUR, "rack1.csv": LIST_OF_FOUR, "rack1.feed1.csv": HEADER, "rack2.csv": LIST_OF_FOUR}
WITHOUT_C = {name: it for name, it in zero_stripes("abcd").items() if name != "c.px"}
# Sizes of batches: each a request, two, three, a list, two racks or all; a rack with two feeds is cut as one with a list.
SIZES = [0, 1, ONE, 2 * ONE, 3 * ONE, 4 * ONE - 1, 4 * ONE, 5 * ONE, 10 * ONE, 15 * ONE, ALL]


@dataclasses.dataclass
class Shown:
    """What a test shows of lists: the feed and the bytes of each answer of a rack, where it has any, the requests of a rack's feed, each
    with what was left out, and the twelve counts of a pause."""

    answers: dict
    requests: dict
    counts: list


def run(words, folder, text):
    ran = subprocess.run(words, input=text.encode(), capture_output=True, cwd=folder, env={}, timeout=SECONDS, check=False)
    return ran.stdout.decode(), ran.stderr.decode(), ran.returncode


def answered(given, workers, most):
    """What is shown of a folder's lists that are answered by so many workers in batches of a size, or how else that ends."""
    out, err, status = run(ANSWERED, given.parent, f"{workers} {most}\n")
    lines = out.splitlines()
    if (err, status) != ("", 0) or ENDED not in lines:
        return out, err, status
    shown = Shown(collections.defaultdict(list), collections.defaultdict(list), [int(line) for line in lines if line.isdigit()])
    for kind, rack, feed, *rest in (line.split(" ", 4 if line.startswith("request") else 3) for line in lines if " " in line):
        if kind == "answer":
            found = re.fullmatch(r"Rebuilt\(Bytes \{ items: \[([\d, ]+)\] \}\)", rest[0])
            shown.answers[int(rack)].append((int(feed), bytes(map(int, found[1].split(", "))).decode() if found else rest[0]))
        elif kind == "request":
            shown.requests[int(rack), int(feed)].append(tuple(rest))
    return shown


def test_racks(checks, scratch):
    """However the racks are cut, they get the same answers, and a pause is given each request once, by its rack's number and its own, and
    each close."""
    answers = [(0, "a"), (0, "b"), (0, "Several"), (0, "d")]
    requests = [("a", "[]"), ("b", "[]"), ("c", "[Px]"), ("d", "[]")]
    wanted = Shown(dict.fromkeys(range(3), answers), {(rack, 0): requests for rack in range(3)}, [1_111] * 6 + [11_111] * 6)
    with folders(scratch, WITHOUT_C | THREE) as (given, _):
        for workers in (1, 2, 3, 16):
            for most in SIZES:
                checks.compare(f"three racks, {workers} workers, batches of {most} bytes", answered(given, workers, most), wanted)


# A rack whose feeds ask for the stripes of these names, in order; a dot is a close: no close, and feeds of unequal length; a close in a
# later piece, after its feed's last request; a close alone, and requests after a close; two closes.
CUT = [["abcd", "a", ""], ["", "abcdabcd"], ["abcd.", "abcdabcd"], ["abcdabcd", "abc.d", "ab"], [".", "abcd"],
       ["abcd", ".abcd", "dcba", ""], ["ab.cd", "abcd.a", "d"]]
CUT_SIZES = [0, ONE, 2 * ONE, 2 * ONE + 1, 4 * ONE, 6 * ONE, ALL]


def fed(feeds):
    """The lists of a rack with these feeds."""
    names = ["rack0.csv", "rack0.feed1.csv", "rack0.feed2.csv", "rack0.feed3.csv"]
    return {name: HEADER + "".join(CLOSE if it == "." else f"rebuild,{it},x0,1,x1 x2 px\n" for it in feed)
            for name, feed in zip(names, feeds)}


def is_lawful(feeds, answers):
    """Whether these are the answers to a lawful merge: the first requests of each feed before its close; of a feed with a close all of
    them, where one has a close, and otherwise of every feed."""
    before = [feed.partition(".")[0] for feed in feeds]
    of_feeds = ["".join(text for number, text in answers if number == feed) for feed in range(len(feeds))]
    firsts = all(names.startswith(its) for names, its in zip(before, of_feeds))
    closed = any("." in feed and its == names for feed, names, its in zip(feeds, before, of_feeds))
    return firsts and (closed if any("." in feed for feed in feeds) else before == of_feeds)


def merged(checks, scratch, feeds, workers, most):
    """The answers to a rack with these feeds, which are to a lawful merge, and its counts; all of its requests have their survivors."""
    with folders(scratch, zero_stripes("abcd") | fed(feeds)) as (given, _):
        shown = answered(given, workers, most)
    what = f"{feeds}, {workers} workers, batches of {most} bytes"
    if not isinstance(shown, Shown):
        checks.compare(what, shown, "answers")
        return [], []
    checks.compare(f"{what}: {shown.answers}", is_lawful(feeds, shown.answers.get(0, [])), True)
    requests = {(0, feed): [(name, "[]") for name in it.partition(".")[0]] for feed, it in enumerate(feeds) if it.partition(".")[0]}
    checks.compare(f"{what}: the requests", shown.requests, requests)
    return shown.answers.get(0, []), shown.counts


def test_merges(checks, scratch):
    for workers in (1, 4):
        for most in CUT_SIZES:
            for feeds in CUT:
                merged(checks, scratch, feeds, workers, most)
    # A close that a piece ends is not passed: with batches of one position each, no other feed goes on past it by more than that position.
    answers, _ = merged(checks, scratch, ["ab.", "abcdabcd"], 2, 0)
    checks.compare(f"four answers or five: {answers}", len(answers) in (4, 5), True)
    # However a rack of two feeds is cut, a pause is given each number of the rack once, and each position of each feed.
    for most in CUT_SIZES:
        _, counts = merged(checks, scratch, ["abcd", "dcba"], 2, most)
        checks.compare(f"two feeds, batches of {most} bytes: the pause", counts, [11_111_111, 0, 0] * 2 + [1_111, 1_111, 0] * 2)


# A rack lists five requests of which four are before a close, the second rack one more in a second feed. In batches of a size: how many
# batches there are, how many feeders they have together, and beside how many of them the files of a next one are read, by one thread more:
# those of all batches but the first. A batch is whole racks, or of one rack positions, as many as take no more than that together, and one
# at least; so in the smallest batches a close is one of its own, without files.
BESIDE = [(1, 15, 20, 11), (6 * ONE, 3, 4, 2), (11 * ONE, 2, 4, 1), (16 * ONE, 1, 4, 0)]
LISTS = {"rack0.csv": LIST_OF_FOUR, "rack1.csv": LIST_OF_FOUR, "rack1.feed1.csv": HEADER + "rebuild,e,x0,1,x1 x2 px\n",
         "rack2.csv": LIST_OF_FOUR}
# The lists are looked for, and those after each rack's last feed and after the last rack; each of 39 survivors is looked for once, so that
# just those are read ahead that are read.
LOOKS = 4 + 3 + 1 + 39
WORKERS = 2


def preloaded(scratch, given, most):
    """The words that run the test beside a folder, with its standard input."""
    (scratch / "given").write_text(f"{WORKERS} {most}\n")
    return ["sh", "-c", 'cd "$1" && exec "$2" "$3" < "$0"', str(scratch / "given"), str(given.parent), *ANSWERED]


def test_beside(checks, scratch):
    """The files of the next batch are read beside work, and none of another."""
    calls, library = faults.Calls(scratch), refusals.Library(scratch)
    with folders(scratch, LISTS) as (given, _):
        for most, batches, feeders, beside in BESIDE:
            ran = calls.run(preloaded(scratch, given, most))
            checks.compare(f"batches of {most} bytes: the looks", (ran.status, ran.kinds.count("look")), (0, LOOKS))
            ran = library.run(preloaded(scratch, given, most))
            wanted = batches * (1 + WORKERS) + feeders + beside
            checks.compare(f"batches of {most} bytes: the threads", (ran.status, ran.threads), (0, wanted))
    # A request without survivors, and one with three.
    with folders(scratch, FRAGMENTS | {"rack0.csv": HEADER + "rebuild,abc,y0,3,\n" + ABC}) as (given, _):
        ran = calls.run(preloaded(scratch, given, ALL))
        checks.compare("what is read is named ahead", (ran.status, ran.kinds.count("look")), (0, 3 + 3))


# Racks of four requests of a length, in batches of so many racks or requests; and how many files are read into memory of others: the
# survivors that a batch read are what the batch after the next is read into. Each rack lacks one of twelve files.
LENGTH = 1_234
ROOMS = [
    # Batches of a request: three, three and two files of each rack but the last, which has three and three. Each rack ends with a batch of
    # no request, which gives nothing back, so that what the request before it was read into is not read into again.
    (1, 3, 22),
    (4 * of_request(LENGTH), 3, 11),  # of three racks the first
    (8 * of_request(LENGTH), 6, 22),  # of three batches of two racks the first
    (12 * of_request(LENGTH), 3, 0),  # all are one batch
    (ALL, 6, 0),
]


def test_rooms(checks, scratch):
    """The memory of a batch's survivors is read into again: how many allocations have just the size of a fragment and a byte."""
    library = refusals.Library(scratch)
    longer = {name: it * LENGTH for name, it in WITHOUT_C.items()}
    for most, racks, reused in ROOMS:
        lists = {f"rack{rack}.csv": LIST_OF_FOUR.partition(CLOSE)[0].replace(",x0,1,", f",x0,{LENGTH},") for rack in range(racks)}
        with folders(scratch, longer | lists) as (given, _):
            larger, large = (library.run(preloaded(scratch, given, most), large=LENGTH + more).large for more in (2, 1))
            checks.compare(f"{racks} racks, batches of {most} bytes", large - larger, 12 * racks - reused)


# Folders that are served, names of folders in the place of files of each, and how that ends: what is said, how often the devices failed,
# and what the pause is given of the racks.
NONE = [0, 0, 0] * 4
PAUSED = [
    (FRAGMENTS | {"rack0.csv": LIST, "rack1.csv": LIST}, (), (), "2 2", (0, 0), [1, 1, 0] * 2 + [11, 11, 0] * 2),
    (LISTED, (), (), "1 1", (0, 0), [1, 0, 0] * 2 + [11, 0, 0] * 2),
    *((LISTED, (f"abc.{place}",), (), "1 1", (1, 0), [1, 0, 0] * 2 + [11, 0, 0] * 2) for place in ("x1", "x2", "px")),
    *((LISTED, (name,), (), "E24", (1, 0), NONE) for name in ("rack0.csv", "rack0.feed1.csv", "rack1.csv")),
    *((LISTED, (), (name,), "E24", (0, 1), [1, 0, 0] * 2 + [11, 0, 0] * 2) for name in WHOLE),
    (LISTED, ("abc.x1",), ("rack0.report.csv",), "E24", (1, 1), [1, 0, 0] * 2 + [11, 0, 0] * 2),
    (LISTED | {"rack1.csv": "x"}, (), (), "E19", (0, 0), NONE),
    (LISTED | {"rack1.csv": "x"}, ("rack0.feed1.csv",), (), "E24", (1, 0), NONE),
    (LISTED | {"rack1.csv": "x"}, ("rack1.feed1.csv",), (), "E19", (0, 0), NONE),
    (LISTED | {"rack0.feed1.csv": HEADER + CLOSE + "x\n"}, ("rack0.feed2.csv",), (), "E20", (0, 0), NONE),
    (LISTED | {"rack0.feed1.csv": HEADER + "rebuild,a,x0,1,x0\n"}, (), (), "E21", (0, 0), NONE),
    (LISTED | {"rack1.csv": "\n" * 1_048_577}, (), (), "E25", (0, 0), NONE),
    (LISTED | {"rack1.csv": HEADER + CLOSE * 4_097}, (), (), "E26", (0, 0), NONE),
    ({}, (), (), "E23", (0, 0), NONE),
    (empty_racks(17), (), (), "E18", (0, 0), NONE),
    (empty_racks(1, 5), (), (), "E28", (0, 0), NONE),
    (empty_racks(16, 4), (), (), "16 0", (0, 0), NONE),
    (empty_racks(16, 4), ("rack16.csv",), (), "E24", (1, 0), NONE),
]


def test_paused(checks, scratch):
    """The farm is given the pause that serving is given; the requests after each close aren't solved. A failure is counted at its own
    device, and once."""
    for number, (files, odd, odd_out, said, failures, counts) in enumerate(PAUSED):
        with folders(scratch, {name: it for name, it in files.items() if name not in odd}) as (given, out):
            for folder, names in ((given, odd), (out, odd_out)):
                for name in names:
                    (folder / name).mkdir()
            lines = [said, f"{failures[0]} {failures[1]} out", *map(str, counts), ENDED]
            came, *ended = run(SERVED, given.parent, "2\n")
            checks.compare(f"paused {number}: {odd} {odd_out}", ([it for it in came.splitlines() if it], *ended), (lines, "", 0))


def test_reports(checks, _):
    """Either call gives the report on a list."""
    report = "number,stripe,target,length,outcome,digest,unread\n0,abc,x0,3,several,,\n"
    checks.compare("reports on a list", run(REPORTED, os.curdir, LIST), (f"{report * 2}\n{ENDED}\n", "", 0))


def main():
    checks = Checks("farm-batches")
    with tempfile.TemporaryDirectory() as scratch:
        for test in (test_racks, test_merges, test_beside, test_rooms, test_paused, test_reports):
            test(checks, pathlib.Path(scratch))
    checks.end()


if __name__ == "__main__":
    main()
