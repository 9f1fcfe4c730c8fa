#!/usr/bin/env python3
"""Serves folders of all kinds, each with the files, the line and the status that it must come to: lists, feeds, codes and racks, a list
that is longer than a batch, links and what is no regular file, and a feed that closes its rack ahead of another.

It runs what was built last: crates/rebuild/out/rebuild."""

import dataclasses
import pathlib
import sys
import tempfile

# No compiled copy of the modules is left beside them.
sys.dont_write_bytecode = True
import refusals  # noqa: E402
from served import (  # noqa: E402
    ABC, CLOSE, CODED_HEADER, DEVICE, FED_REPORT, FRAGMENT, FRAGMENTS, HEADER, LIST, LISTED, LIST_OF_FOUR, PX_LEFT_OUT, REPORT, ROW, WHOLE,
    WIDE, WIDE_FRAGMENTS, WIDE_LIST, WITH_A_FEED, ZEROS, Checks, End, as_bytes, empty_racks, ended, fault, folders, found_in, rebuilt,
    report, served, words, zero_stripes)

# The list with a byte order mark, and a carriage return before each line feed.
MARKED = "\ufeff" + LIST.replace("\n", "\r\n")
WITHOUT_PX = {"rack0.csv": LIST, "abc.x1": ZEROS, "abc.x2": ZEROS}
FRAGMENT_AND_NEXT = FRAGMENT | {"rack0-1.abc.x0": "abc"}


@dataclasses.dataclass(frozen=True)
class Case:
    """The files that are served, which stay as they are; those that were there before in the place that is written to; the numbers of
    workers and the capacities of the queue, with each of which there is a run; and how each run ends, as one of these."""

    name: str
    given: dict
    ends: list
    before: dict = dataclasses.field(default_factory=dict)
    settings: list = dataclasses.field(default_factory=lambda: [(2, 1)])


# Contradictions and requests of several racks, over a stripe with the data 01 02 03 04 05 06 whose py is altered.
TWO_RACKS = {
    "rack0.csv": HEADER + "rebuild,a,x0,1,y0 y1 y2 py\nrebuild,a,x0,1,px x2 x1\n",
    "rack1.csv": HEADER + "rebuild,a,y0,1,\n",
    "a.y0": b"\4", "a.y1": b"\5", "a.y2": b"\6", "a.py": b"\10", "a.x1": b"\2", "a.x2": b"\3", "a.px": b"\0",
}
FILES_OF_TWO_RACKS = {
    "rack0.report.csv": report("0,a,x0,1,contradiction,,", f"1,{rebuilt('a', chr(1))}"),
    "rack0-1.a.x0": "\1",
    "rack1.report.csv": report("0,a,y0,1,several,,"),
}
# Three racks, of which one has no request.
FIVE_STRIPES = zero_stripes("abcde") | {
    "rack0.csv": HEADER + "".join(f"rebuild,{name},x0,1,x1 x2 px\n" for name in "abc"),
    "rack1.csv": HEADER,
    "rack2.csv": HEADER + "rebuild,d,x0,1,x1 x2 px\nrebuild,a,x0,1,\nrebuild,e,x0,1,x1 x2 px\n",
}
FILES_OF_FIVE_STRIPES = {
    "rack0.report.csv": report(*(f"{number},{rebuilt(name, name)}" for number, name in enumerate("abc"))),
    "rack1.report.csv": report(),
    "rack2.report.csv": report(f"0,{rebuilt('d', 'd')}", "1,a,x0,1,several,,", f"2,{rebuilt('e', 'e')}"),
    "rack0-0.a.x0": "a", "rack0-1.b.x0": "b", "rack0-2.c.x0": "c", "rack2-0.d.x0": "d", "rack2-2.e.x0": "e",
}

SERVING = [
    # Two requests and two closes in turn: one answer.
    Case("a fragment and its report are written with any settings, and the report that is there is replaced", LISTED,
         [served(FRAGMENT | {"rack0.report.csv": REPORT})], {"rack0.csv": "kept", "rack0.report.csv": "replaced"},
         [(2, 1), (1, 1), (16, 1024)]),
    Case("a byte order mark and carriage returns change nothing", FRAGMENTS | {"rack0.csv": MARKED},
         [served(FRAGMENT | {"rack0.report.csv": REPORT})]),
    Case("a survivor that is absent is left out and named", WITHOUT_PX, [served({"rack0.report.csv": PX_LEFT_OUT})]),
    *(Case(f"a survivor of {len(px)} bytes in place of 3 is left out and named", WITHOUT_PX | {"abc.px": px},
           [served({"rack0.report.csv": PX_LEFT_OUT})]) for px in ("", "ab", "abcd")),
    Case("each rack has its own report", TWO_RACKS, [served(FILES_OF_TWO_RACKS, 2, 3)]),
    Case("each digest is in the row of its own fragment, however many workers there are", FIVE_STRIPES,
         [served(FILES_OF_FIVE_STRIPES, 3, 6)], settings=[(1, 1), (2, 1), (3, 1), (5, 1), (16, 1)]),
    Case("without a first list there are no racks", {"rack1.csv": HEADER, "rack00.csv": HEADER}, [fault("E23")]),
    Case("a list without a header is reported", LISTED | {"rack1.csv": ""}, [fault("rack1.csv: E19")]),
    Case("a list with a bad record after its close is reported", LISTED | {"rack1.csv": HEADER + CLOSE + "x\n"},
         [fault("rack1.csv: record 2: E20")]),
    Case("a list with a refused request after its close is reported",
         LISTED | {"rack1.csv": HEADER + CLOSE + "rebuild,a,x0,1,x0\n"}, [fault("rack1.csv: record 2: E21 E4")]),
    Case("a first request without survivors, and one with three",
         FRAGMENTS | {"rack0.csv": HEADER + "rebuild,abc,y0,3,\n" + ABC},
         [served({"rack0.report.csv": report("0,abc,y0,3,several,,", f"1,{ROW}"), "rack0-1.abc.x0": "abc"}, answers=2)]),
]

# The reports where either of two feeds is answered after the other, or one alone: each feed with a request is whole.
MERGED = [
    served(FRAGMENT | {"rack0.report.csv": FED_REPORT}),
    served(FRAGMENT | {"rack0.report.csv": report(f"0,1,{ROW}", feeds=True)}),
    served(FRAGMENT_AND_NEXT | {"rack0.report.csv": report(f"0,0,{ROW}", f"1,1,{ROW}", feeds=True)}, answers=2),
    served(FRAGMENT_AND_NEXT | {"rack0.report.csv": report(f"0,1,{ROW}", f"1,0,{ROW}", feeds=True)}, answers=2),
]


def empty_feeds(*numbers):
    """Lists without requests of further feeds of the first rack."""
    return {f"rack0.feed{number}.csv": HEADER for number in numbers}


def bad_feeds(*numbers):
    """Lists without a header, of feeds of the first rack."""
    return {f"rack0.feed{number}.csv": "x" for number in numbers}


FEEDS = [
    Case("a second feed without requests adds no answers", FRAGMENTS | WITH_A_FEED, [served(FRAGMENT | {"rack0.report.csv": FED_REPORT})]),
    Case("three feeds without requests add no answers", LISTED | empty_feeds(1, 2, 3),
         [served(FRAGMENT | {"rack0.report.csv": FED_REPORT})]),
    Case("feeds after one that is absent aren't read", LISTED | bad_feeds(2, 4),
         [served(FRAGMENT | {"rack0.report.csv": REPORT})]),
    Case("requests of a second feed are answered",
         FRAGMENTS | {"rack0.csv": HEADER, "rack0.feed1.csv": HEADER + ABC + "rebuild,abc,y0,3,x1 x2 px\n"},
         [served(FRAGMENT | {"rack0.report.csv": report(f"0,1,{ROW}", "1,1,abc,y0,3,several,,", feeds=True)}, answers=2)]),
    Case("of two feeds with a close after one request each one is answered whole", LISTED | {"rack0.feed1.csv": LIST}, MERGED,
         settings=[(2, 1)] * 20),
    # A list that is refused is reported before the next feed's, or the next rack's, is read; that of a fifth feed isn't tested.
    Case("a fifth feed is refused, whatever is in it", LISTED | empty_feeds(1, 2, 3) | bad_feeds(4) | {"rack1.csv": "x"},
         [fault("E28")]),
    Case("a refused fourth feed is reported before a fifth", LISTED | empty_feeds(1, 2) | bad_feeds(3, 4) | {"rack1.csv": "x"},
         [fault("rack0.feed3.csv: E19")]),
    Case("a refused second feed is reported before a third is read",
         LISTED | {"rack0.feed1.csv": HEADER + CLOSE + "x\n", "rack0.feed2.csv": "x", "rack1.csv": "x"},
         [fault("rack0.feed1.csv: record 2: E20")]),
    Case("a refused second feed of a second rack is reported", LISTED | {"rack1.csv": LIST, "rack1.feed1.csv": ""},
         [fault("rack1.feed1.csv: E19")]),
]


def of_codes(rows):
    """The report on requests of feeds of both codes, in the order of their answers."""
    return report(*(f"{number},{row}" for number, row in enumerate(rows)), feeds=True, codes=True)


def both_orders(narrow, wide, files):
    """The ends where the one of two answers comes first, and where the other does."""
    return [served(files | {"rack0.report.csv": of_codes(rows)}, answers=2) for rows in ([narrow, wide], [wide, narrow])]


# A list of the (12,2,2) code alone, one of it after one without requests, one of the (6,2,2) code, and one whose request of the (12,2,2)
# code is after its close.
LISTS_OF_CODES = {
    "rack0.csv": WIDE_LIST, "rack1.csv": HEADER, "rack1.feed1.csv": WIDE_LIST, "rack2.csv": LIST,
    "rack3.csv": CODED_HEADER + ABC.replace("\n", ",6-2-2\n") + "close,,,,,\n" + WIDE, "rack3.feed1.csv": HEADER,
}
FILES_OF_CODES = {f"rack{rack}-0.abc.x0": "abc" for rack in range(4)} | {
    "rack0.report.csv": report(f"0,{ROW},12-2-2", codes=True), "rack1.report.csv": report(f"0,1,{ROW},12-2-2", feeds=True, codes=True),
    "rack2.report.csv": REPORT, "rack3.report.csv": FED_REPORT,
}
EITHER_CODE = {"rack0.csv": HEADER + ABC, "rack0.feed1.csv": WIDE_LIST}

CODES = [
    Case("racks of either code are answered", FRAGMENTS | WIDE_FRAGMENTS | LISTS_OF_CODES, [served(FILES_OF_CODES, 4, 4)]),
    Case("requests of feeds of both codes are answered in either order, each in the row of its own code",
         FRAGMENTS | WIDE_FRAGMENTS | EITHER_CODE, both_orders(f"0,{ROW},6-2-2", f"1,{ROW},12-2-2", FRAGMENT_AND_NEXT)),
    Case("a fragment that only the request of the (12,2,2) code lists is left out of that",
         FRAGMENTS | WIDE_FRAGMENTS | {"abc.x4": ""} | EITHER_CODE,
         [served(FRAGMENT | {"rack0.report.csv": of_codes([f"0,{ROW},6-2-2", "1,abc,x0,3,several,,x4,12-2-2"])}, answers=2),
          served({"rack0-1.abc.x0": "abc",
                  "rack0.report.csv": of_codes(["1,abc,x0,3,several,,x4,12-2-2", f"0,{ROW},6-2-2"])}, answers=2)]),
]


def empty_reports(count, feeds=False):
    return served({f"rack{rack}.report.csv": report(feeds=feeds) for rack in range(count)}, count, 0)


RACKS = [
    Case("one rack without requests has an empty report", empty_racks(1), [empty_reports(1)]),
    Case("as many racks without requests as there may be have empty reports", empty_racks(16), [empty_reports(16)]),
    Case("a seventeenth list is refused", empty_racks(17), [fault("E18")]),
    Case("a seventeenth list is refused only once the lists before it are read", empty_racks(17) | {"rack3.csv": "x"},
         [fault("rack3.csv: E19")]),
    Case("sixteen racks of four feeds are served", empty_racks(16, 4), [empty_reports(16, feeds=True)]),
    Case("a seventeenth rack after sixteen of four feeds is refused", empty_racks(16, 4) | {"rack16.csv": HEADER}, [fault("E18")]),
]


def long_list():
    """Twice a hundred requests whose survivors are absent, which list more than a batch, and a small one after each hundred."""
    none = "rebuild,none,x0,65536,x1 x2 px\n" * 100
    rows, files = [], {}
    for number in range(202):
        name = {100: "a", 201: "b"}.get(number)
        rows.append(f"{number},{rebuilt(name, name) if name else 'none,x0,65536,several,,x1 x2 px'}")
        files |= {f"rack0-{number}.{name}.x0": name} if name else {}
    of_four = [rebuilt("a", "a"), rebuilt("b", "b"), "c,x0,1,several,,px", rebuilt("d", "d")]
    files |= {"rack0.report.csv": report(*rows), "rack1.report.csv": report(*(f"{it},{row}" for it, row in enumerate(of_four)))}
    files |= {"rack1-0.a.x0": "a", "rack1-1.b.x0": "b", "rack1-3.d.x0": "d"}
    given = zero_stripes("abd") | {"c.x1": b"\0", "c.x2": b"\0", "rack1.csv": LIST_OF_FOUR}
    given["rack0.csv"] = HEADER + "".join(f"{none}rebuild,{name},x0,1,x1 x2 px\n" for name in "ab")
    return Case("a list longer than a batch is answered", given, [served(files, 2, 206)])


def test_case(checks, scratch, case):
    for workers, queue in case.settings:
        with folders(scratch, case.given, case.before) as (given, out):
            came = ended(given, out, workers, queue)
            wanted = [end.with_files(case.before | end.files) for end in case.ends]
            what = f"{case.name}, {workers} workers, a queue of {queue}"
            checks.compare(what, came, came if came in wanted else wanted)
            checks.compare(f"{what}: what is served stays as it is", found_in(given), as_bytes(case.given))


# What may be under a name, with what a link leads to, and what is found there: the file, nothing, or something that is no regular file or
# that can't be reached.
FILE, NOTHING, ODD = range(3)
NAMED = {
    "a file": (None, FILE), "a folder": (None, ODD), "nothing": (None, NOTHING), "a link to a file": ("there", FILE),
    "a link to a link": ("to-file", FILE), "a link to a folder": ("folder", ODD), "a link to nothing": ("nowhere", NOTHING),
    "a link to itself": ("loop", ODD), "a link below a file": ("there/file", ODD), "a link to a device": ("/dev/zero", ODD),
}


def put_named(path, kind, content):
    """Puts one of these under a name, beside what links lead to."""
    (path.parent / "folder").mkdir()
    (path.parent / "there").write_text(content)
    (path.parent / "to-file").symlink_to("there")
    (path.parent / "loop").symlink_to("loop")
    if NAMED[kind][0]:
        path.symlink_to(NAMED[kind][0])
    elif kind == "a folder":
        path.mkdir()
    elif kind == "a file":
        path.write_text(content)


# Names of what is read, its bytes, and how a run ends that finds the file there, and one that finds nothing. Odd ones end it, but for a
# survivor, which is left out.
READ = [
    ("rack0.csv", LIST, served(WHOLE), fault("E23"), DEVICE),
    ("rack1.csv", LIST, served(WHOLE | {"rack1-0.abc.x0": "abc", "rack1.report.csv": REPORT}, 2, 2), served(WHOLE), DEVICE),
    ("rack0.feed1.csv", HEADER, served(FRAGMENT | {"rack0.report.csv": FED_REPORT}), served(WHOLE), DEVICE),
    ("abc.px", "abc", served(WHOLE), served({"rack0.report.csv": PX_LEFT_OUT}), served({"rack0.report.csv": PX_LEFT_OUT})),
]


def test_read_names(checks, scratch):
    """A file is absent only where nothing is found under its name. Links are followed, and what is no regular file isn't read."""
    for (name, content, *ends), kind in [(row, kind) for row in READ for kind in NAMED]:
        with folders(scratch, {it: content for it, content in LISTED.items() if it != name}) as (given, out):
            put_named(given / name, kind, content)
            checks.compare(f"{name} is {kind}", ended(given, out), ends[NAMED[kind][1]])


def written_by_name(name, kind):
    """How a run ends in which one of these is under the name of a file that is written."""
    target, leads_to = NAMED[kind]
    if leads_to == ODD:
        return DEVICE.with_files({it: content for it, content in FRAGMENT.items() if it != name})
    files = dict(WHOLE)
    if target:
        files["nowhere" if leads_to == NOTHING else "there"] = files.pop(name)
    return served(files)


def test_written_names(checks, scratch):
    """A write goes to a regular file, also by a link, or makes one where a link leads to nothing. Anything else is left alone."""
    for name, kind in [(name, kind) for name in WHOLE for kind in NAMED]:
        with folders(scratch, LISTED) as (given, out):
            put_named(out / name, kind, "old, and longer than what is written, " * 9)
            wanted = written_by_name(name, kind)
            wanted = wanted.with_files(found_in(out) | wanted.files)
            checks.compare(f"{name} that is written is {kind}", ended(given, out), wanted)
            left = [(out / name).is_symlink(), (out / name).is_dir() and not (out / name).is_symlink()]
            checks.compare(f"{name} stays {kind}", left, [bool(NAMED[kind][0]), kind == "a folder"])


# Links in a folder with a list that is served into itself, and how that ends. Racks that follow an absent list are not served.
LINKED = [
    ({"rack0.csv": "list", "rack1.csv": "nowhere"}, served(WHOLE)),
    ({"rack0.csv": "list", "rack1.csv": "list"}, READ[1][2]),
    ({"rack0.csv": "list", "rack1.csv": "loop", "loop": "loop"}, DEVICE),
    ({"rack0.csv": "loop", "rack1.csv": "list", "loop": "loop"}, DEVICE),
    ({"rack0.csv": "to-device", "rack1.csv": "list", "to-device": "/dev/zero"}, DEVICE),
    ({"rack0.csv": "list", "rack1.csv": "folder"}, DEVICE),
    ({"rack0.csv": "nowhere", "rack1.csv": "list"}, fault("E23")),
]


def test_linked_lists(checks, scratch):
    """A folder may be served into itself, and lists that can't be read end the work, wherever they are."""
    for links, end in LINKED:
        with folders(scratch, FRAGMENTS | {"list": LIST}) as (given, _):
            before = found_in(given)
            (given / "folder").mkdir()
            for name, to in links.items():
                (given / name).symlink_to(to)
            checks.compare(f"a folder with the links {links}", ended(given, given, 1, 1), end.with_files(before | end.files))


def test_odd_folders(checks, scratch):
    """A folder that isn't there has no files and can't be written, nor is a file a folder."""
    with folders(scratch, LISTED) as (given, out):
        checks.compare("a folder that isn't there is served", ended(out / "none", out), fault("E23"))
        checks.compare("a file is served", ended(given / "rack0.csv", out), DEVICE)
        checks.compare("a folder that isn't there is written", ended(given, out / "none"), DEVICE)
        checks.compare("and isn't made", (out / "none").exists(), False)


def test_unknown_lengths(checks, scratch):
    """Of a file whose length the system says to be 0, since it is made up as it is read, all is read, or one byte more than is listed."""
    made_up = pathlib.Path("/proc/sys/kernel/ostype")
    text = made_up.read_text()
    for length in (len(text) - 1, len(text), len(text) + 1):
        is_whole = length == len(text)
        row = rebuilt("abc", text) if is_whole else f"abc,x0,{length},several,,px"
        listed = {"rack0.csv": HEADER + f"rebuild,abc,x0,{length},x1 x2 px\n", "abc.x1": bytes(length), "abc.x2": bytes(length)}
        with folders(scratch, listed) as (given, out):
            (given / "abc.px").symlink_to(made_up)
            files = {"rack0.report.csv": report(f"0,{row}")} | ({"rack0-0.abc.x0": text} if is_whole else {})
            checks.compare(f"{length} bytes of {text!r}", ended(given, out), served(files))


# A first feed that has a close alone and a second feed, where the first closes the rack ahead of it: no answers, in a report that says the
# codes if the request that is left has one.
CLOSED = [
    ({"rack0.csv": HEADER + CLOSE, "rack0.feed1.csv": LIST}, report(feeds=True)),
    ({"rack0.csv": HEADER + CLOSE, "rack0.feed1.csv": WIDE_LIST}, report(feeds=True, codes=True)),
]


def test_closed(checks, scratch):
    """The thread of the second feed begins late: it comes after the collector's, the workers' and the first feed's."""
    library = refusals.Library(scratch)
    for lists, empty in CLOSED:
        with folders(scratch, FRAGMENTS | lists) as (given, out):
            ran = library.run(words(given, out, 3), late=1 + 3 + 2)
            came = End(ran.out.decode(), ran.err.decode(), ran.status, found_in(out))
            checks.compare(f"{empty!r}: the threads", ran.threads, 1 + 3 + 2)
            checks.compare(f"{empty!r}: what the first feed closes", came, served({"rack0.report.csv": empty}, answers=0))


def main():
    checks = Checks("farm-folders")
    with tempfile.TemporaryDirectory() as scratch:
        for case in [*SERVING, *FEEDS, *CODES, *RACKS, long_list()]:
            test_case(checks, scratch, case)
        for test in (test_read_names, test_written_names, test_linked_lists, test_odd_folders, test_unknown_lengths, test_closed):
            test(checks, pathlib.Path(scratch))
    checks.end()


if __name__ == "__main__":
    main()
