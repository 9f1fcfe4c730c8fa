#!/usr/bin/env python3
"""Tries how a store's files are named: fragments by a pattern, descriptions, and files of runs; what no file may be named; which stripes
are of a part; and whom locks keep out on a mount.

    store-names.py [PROGRAM [TESTS]]

It runs what was built last: the program, and a test of store_tests that shows what a call gives for each line. What has to come is from
rebuild-store(5), flock(2) and proc(5), and digests from Python's hashlib."""

import hashlib
import itertools
import pathlib
import subprocess
import sys
import tempfile

ROOT = pathlib.Path(__file__).resolve().parent.parent
PROGRAM = ROOT / "crates/rebuild_store/out/rebuild_store"
TESTS = ROOT / "crates/store_tests/out/store_tests_tests"
SECONDS = 300
passed, failed = 0, []


def check(holds, what):
    """Counts what holds, and notes what doesn't."""
    global passed
    passed += bool(holds)
    if not holds:
        failed.append(what)


def ran(words, given=""):
    """What a run says on standard output and standard error, and its status."""
    done = subprocess.run([*map(str, words)], input=given.encode(), capture_output=True, timeout=SECONDS, check=False)
    return done.stdout.decode(), done.stderr.decode(), done.returncode


# In each line a pattern, a layout, a code, a stripe, a place, and the name of the fragment.
FRAGMENTS = """\
{stripe}.{place}|plain|6-2-2|a|x0|a.x0
{stripe}.{place}|plain|12-2-2|a.x1|p0|a.x1.p0
{stripe}.{place}|plain|12-2-2|12|x2|12.x2
{stripe}.{place}|plain|6-2-2|..|x0|...x0
{stripe}.{place}|plain|6-2-2|.|x0|..x0
{stripe}.{place}|plain|6-2-2|x0|x0|x0.x0
{place}-{stripe}|plain|6-2-2|a|x0|x0-a
{place}-{stripe}|plain|12-2-2|a.x1|x2|x2-a.x1
{place}-{stripe}|plain|12-2-2|12|y0|y0-12
{place}-{stripe}|plain|6-2-2|..|x0|x0-..
{place}-{stripe}|plain|6-2-2|.|x0|x0-.
{place}-{stripe}|plain|6-2-2|x0|x0|x0-x0
{stripe}{place}|plain|6-2-2|a|x0|ax0
{stripe}{place}|plain|12-2-2|a.x1|y0|a.x1y0
{stripe}{place}|plain|12-2-2|12|y4|12y4
{stripe}{place}|plain|6-2-2|..|x0|..x0
{stripe}{place}|plain|6-2-2|.|x0|.x0
{stripe}{place}|plain|6-2-2|x0|x0|x0x0
disk{shard}/{stripe}|plain|6-2-2|a|x0|disk0/a
disk{shard}/{stripe}|groups|12-2-2|a|y4|disk11/a
disk{shard}/{stripe}|plain|6-2-2|a.x1|p0|disk8/a.x1
disk{shard}/{stripe}|groups|6-2-2|a.x1|py|disk7/a.x1
disk{shard}/{stripe}|plain|12-2-2|a.x1|p1|disk15/a.x1
disk{shard}/{stripe}|groups|12-2-2|a.x1|p0|disk14/a.x1
disk{shard}/{stripe}|plain|6-2-2|12|py|disk7/12
disk{shard}/{stripe}|groups|6-2-2|12|p1|disk9/12
disk{shard}/{stripe}|plain|12-2-2|12|p0|disk14/12
disk{shard}/{stripe}|groups|12-2-2|12|py|disk13/12
disk{shard}/{stripe}|groups|6-2-2|-3|p0|disk8/-3
disk{shard}/{stripe}|plain|6-2-2|.|x0|disk0/.
disk{shard}/{stripe}|groups|6-2-2|.|y1|disk5/.
disk{shard}/{stripe}|plain|12-2-2|.|y4|disk10/.
disk{shard}/{stripe}|groups|12-2-2|.|p1|disk15/.
disk{shard}/{stripe}|groups|6-2-2|x0|y1|disk5/x0
disk{shard}/{stripe}|plain|6-2-2|ä|x0|disk0/ä
disk{shard}/{stripe}|groups|12-2-2|ä|y0|disk7/ä
disk{shard}/{stripe}|plain|12-2-2|note.tar.gz|y0|disk6/note.tar.gz
{stripe}/{shard}.bin|groups|6-2-2|a|y1|a/5.bin
{stripe}/{shard}.bin|plain|6-2-2|a.x1|x0|a.x1/0.bin
{stripe}/{shard}.bin|groups|6-2-2|a.x1|y1|a.x1/5.bin
{stripe}/{shard}.bin|plain|12-2-2|a.x1|p0|a.x1/14.bin
{stripe}/{shard}.bin|groups|12-2-2|a.x1|x3|a.x1/3.bin
{stripe}/{shard}.bin|plain|6-2-2|12|x0|12/0.bin
{stripe}/{shard}.bin|groups|6-2-2|12|y1|12/5.bin
{stripe}/{shard}.bin|plain|12-2-2|12|x2|12/2.bin
{stripe}/{shard}.bin|groups|12-2-2|12|y0|12/7.bin
{stripe}/{shard}.bin|groups|6-2-2|-3|y1|-3/5.bin
{stripe}/{shard}.bin|plain|6-2-2|.|x0|./0.bin
{stripe}/{shard}.bin|groups|6-2-2|.|y1|./5.bin
{stripe}/{shard}.bin|plain|12-2-2|.|p0|./14.bin
{stripe}/{shard}.bin|groups|12-2-2|.|x3|./3.bin
{stripe}/{shard}.bin|plain|6-2-2|x0|p1|x0/9.bin
{stripe}/{shard}.bin|groups|12-2-2|x0|p1|x0/15.bin
{stripe}/{shard}.bin|plain|12-2-2|ä|p1|ä/15.bin
{stripe}/{shard}.bin|groups|6-2-2|note.tar.gz|p1|note.tar.gz/9.bin
a1b/{stripe}_{shard}|plain|6-2-2|a|p1|a1b/a_9
a1b/{stripe}_{shard}|groups|12-2-2|a|p1|a1b/a_15
a1b/{stripe}_{shard}|plain|6-2-2|a.x1|p0|a1b/a.x1_8
a1b/{stripe}_{shard}|groups|6-2-2|a.x1|py|a1b/a.x1_7
a1b/{stripe}_{shard}|plain|12-2-2|a.x1|p1|a1b/a.x1_15
a1b/{stripe}_{shard}|groups|12-2-2|a.x1|p0|a1b/a.x1_14
a1b/{stripe}_{shard}|plain|6-2-2|12|py|a1b/12_7
a1b/{stripe}_{shard}|groups|6-2-2|12|p1|a1b/12_9
a1b/{stripe}_{shard}|plain|12-2-2|12|p0|a1b/12_14
a1b/{stripe}_{shard}|groups|12-2-2|12|py|a1b/12_13
a1b/{stripe}_{shard}|plain|12-2-2|-3|y4|a1b/-3_10
a1b/{stripe}_{shard}|plain|6-2-2|..|x0|a1b/.._0
a1b/{stripe}_{shard}|groups|6-2-2|..|y1|a1b/.._5
a1b/{stripe}_{shard}|plain|12-2-2|..|p0|a1b/.._14
a1b/{stripe}_{shard}|groups|12-2-2|..|x3|a1b/.._3
a1b/{stripe}_{shard}|plain|6-2-2|.|x0|a1b/._0
a1b/{stripe}_{shard}|groups|6-2-2|.|y1|a1b/._5
a1b/{stripe}_{shard}|plain|12-2-2|.|x2|a1b/._2
a1b/{stripe}_{shard}|groups|12-2-2|.|y0|a1b/._7
a1b/{stripe}_{shard}|plain|6-2-2|x0|p1|a1b/x0_9
a1b/{stripe}_{shard}|groups|12-2-2|x0|p1|a1b/x0_15
a1b/{stripe}_{shard}|plain|12-2-2|ä|p1|a1b/ä_15
a1b/{stripe}_{shard}|groups|6-2-2|note.tar.gz|p1|a1b/note.tar.gz_9
{shard}x2/{stripe}.d|plain|6-2-2|a|p1|9x2/a.d
{shard}x2/{stripe}.d|groups|12-2-2|a|p1|15x2/a.d
{shard}x2/{stripe}.d|plain|6-2-2|a.x1|p0|8x2/a.x1.d
{shard}x2/{stripe}.d|groups|6-2-2|a.x1|py|7x2/a.x1.d
{shard}x2/{stripe}.d|plain|12-2-2|a.x1|p1|15x2/a.x1.d
{shard}x2/{stripe}.d|groups|12-2-2|a.x1|p0|14x2/a.x1.d
{shard}x2/{stripe}.d|plain|6-2-2|12|py|7x2/12.d
{shard}x2/{stripe}.d|groups|6-2-2|12|p1|9x2/12.d
{shard}x2/{stripe}.d|plain|12-2-2|12|p0|14x2/12.d
{shard}x2/{stripe}.d|groups|12-2-2|12|py|13x2/12.d
{shard}x2/{stripe}.d|plain|12-2-2|-3|p0|14x2/-3.d
{shard}x2/{stripe}.d|plain|6-2-2|..|x0|0x2/...d
{shard}x2/{stripe}.d|groups|6-2-2|..|y1|5x2/...d
{shard}x2/{stripe}.d|plain|12-2-2|..|x2|2x2/...d
{shard}x2/{stripe}.d|groups|12-2-2|..|y0|7x2/...d
{shard}x2/{stripe}.d|plain|6-2-2|.|x0|0x2/..d
{shard}x2/{stripe}.d|groups|6-2-2|.|y1|5x2/..d
{shard}x2/{stripe}.d|plain|12-2-2|.|y0|6x2/..d
{shard}x2/{stripe}.d|groups|12-2-2|.|y4|11x2/..d
{shard}x2/{stripe}.d|plain|6-2-2|x0|p1|9x2/x0.d
{shard}x2/{stripe}.d|groups|12-2-2|x0|p1|15x2/x0.d
{shard}x2/{stripe}.d|plain|12-2-2|ä|p1|15x2/ä.d
{shard}x2/{stripe}.d|groups|6-2-2|note.tar.gz|p1|9x2/note.tar.gz.d
disk{shard}/{stripe}|plain|6-2-2|.rebuild-store-0123456789abcde|x0|disk0/.rebuild-store-0123456789abcde
disk{shard}/{stripe}|plain|6-2-2|.rebuild-store-0123456789abcdeg|x0|disk0/.rebuild-store-0123456789abcdeg
{stripe}.{place}|plain|6-2-2|.rebuild-store-0123456789abcdef|x0|.rebuild-store-0123456789abcdef.x0
{stripe}.{place}|plain|6-2-2|a.damaged|x0|a.damaged.x0
"""
# A pattern, a code, and names that are none of a fragment.
NO_FRAGMENTS = [
    ("{stripe}.{place}", "6-2-2", ["", "a", "a.", "a.x", "x0", ".x0", "a.x3x", "a.X0", "a.x6", "a.q0", "d/a.x0", "a.x0 ", "a.x0.damaged",
                                   ".damaged", "/a.x0", "a/.x0"]),
    ("disk{shard}/{stripe}", "6-2-2", ["disk10/a", "disk/a", "disk00/a", "disk01/a", "disk-1/a", "disk1/", "disk1/a/b", "disk1a",
                                       "disk1/..", "Disk1/a", "disk1/a.damaged"]),
    ("disk{shard}/{stripe}", "12-2-2", ["disk16/a", "disk015/a", "disk1 /a"]),
    ("{stripe}/{place}", "12-2-2", ["../x0", "/x0", "a//x0", "a/b/x0", "a/x7"]),
    ("{place}-{stripe}", "6-2-2", ["x0-a.damaged", "x0a", "x0-", "-a"]),
]
DIGITS = "0123456789abcdef"
RUN = ".rebuild-store-"
# A pattern, a code, and a stripe that has no fragment at a place, or none below the store's folder.
UNNAMED = [
    ("{stripe}.{place}", "6-2-2", "", "x0"), ("{stripe}.{place}", "6-2-2", "a/b", "x0"), ("{stripe}.{place}", "6-2-2", "/", "x0"),
    ("{stripe}/{place}", "6-2-2", "..", "x0"), ("disk{shard}/{stripe}", "6-2-2", "..", "x0"), (".{stripe}/{place}", "12-2-2", ".", "p1"),
    ("disk{shard}/{stripe}", "6-2-2", "a", "x3"), ("disk{shard}/{stripe}", "6-2-2", "a", "y5"), ("{shard}/{stripe}", "6-2-2", "../a", "x1"),
    ("disk{shard}/{stripe}", "6-2-2", RUN + DIGITS, "x0"), ("disk{shard}/{stripe}", "6-2-2", f"{RUN}3-16-{DIGITS}", "x0"),
    ("{stripe}/{place}", "6-2-2", RUN + DIGITS, "x0"), ("{place}-{stripe}", "6-2-2", "a.damaged", "x0"),
    ("{place}{stripe}", "6-2-2", ".damaged", "x0"),
]
# A pattern, names that a description of a stripe has, of (6,2,2), and names that none has.
DESCRIPTION_NAMES = {
    "{stripe}.{place}": (["a.file", "a.file.copy", "a.x0.file"], ["a.x0", "d/a.file", ".file", ".file.copy", "a.files", ""]),
    "disk{shard}/{stripe}": (
        ["disk0/a.file", "disk9/a.file.file"], ["disk10/a.file", "disk0/a.file.copy", "disk0/a", "a.file", "disk0/.file"]),
    "disk{shard}/p{stripe}": (["disk0/a.file", "disk1/pa.file"], ["disk0/pa", "disk0/a.file.copy"]),
    "{stripe}/{place}": (["a/a.file", "a/a.file.copy"], ["a/b.file", "a/x0", "a.file", "a/a/a.file"]),
    "{place}-{stripe}": (["x0-b.file", "x0-b.file.copy", "b.file"], ["x0-b", "x0-b.fil"]),
    "{place}-{stripe}e": (["x0-b.file", "b.file"], ["x0-b.fil", "x0-be"]),
}


def calls_of_patterns():
    for line in FRAGMENTS.splitlines():
        *before, stripe, place, name = line.split("|")
        yield ("pattern", "name_of", *before, stripe, place), name
        yield ("pattern", "read", *before, name), f"{stripe}/{place}"
    for pattern, code, names in NO_FRAGMENTS:
        for name in names:
            yield ("pattern", "read", pattern, "plain", code, name), "none"
    for pattern, code, stripe, place in UNNAMED:
        yield ("pattern", "name_of", pattern, "plain", code, stripe, place), "none"
    for pattern, (names, others) in DESCRIPTION_NAMES.items():
        for name in (*names, *others):
            yield ("pattern", "is_description_name", pattern, "plain", "6-2-2", name), said(name in names)


def said(is_so):
    return "true" if is_so else "false"


# What is behind the begin of a name that runs give, and of one that none gives; and other names.
OF_RUNS = [DIGITS, f"1-2-{DIGITS}", "10-16-00000000000000ff", "part-1-of-2", "part-12-of-340", f"4711@alpha-{DIGITS}",
           f"4711@a-b.c_D9-{DIGITS}", f"1-2-4711@3-4-{DIGITS}"]
OF_NO_RUNS = [
    "", DIGITS[:-1], f"{DIGITS}0", f"{DIGITS[:-1]}F", f"{DIGITS[:-1]}g", f"1-{DIGITS}", f"0-2-{DIGITS}", f"01-2-{DIGITS}",
    f"1-2-3-{DIGITS}", f"-2-{DIGITS}", f"1-a-{DIGITS}", "part-1-of-0", "part-1-of-", "part--of-2", "part-1-2", "part-1-of-2.damaged",
    "part-01-of-2", "part-1-of-2-of-3", f"@alpha-{DIGITS}", f"4711@-{DIGITS}", f"4711-{DIGITS}", f"1-4711@alpha-{DIGITS}",
    f"1-2-0@alpha-{DIGITS}", f"4711@a b-{DIGITS}", f"4711@a@b-{DIGITS}", f"4711@alpha-{DIGITS[:-1]}", f"part-1-of-2@alpha-{DIGITS}",
]
OTHERS = ["", f"rebuild-store-{DIGITS}", f"a.rebuild-store-{DIGITS}"]
# A name, a tag, and whether a run with the tag may have left it.
LEFT = [
    (f"{RUN}1-2-{DIGITS}", "1-2-", True), (f"{RUN}1-2-{DIGITS}", "1-3-", False), (RUN + DIGITS, "1-2-", False),
    (f"{RUN}part-1-of-2", "1-2-", False), (f"{RUN}part-1-of-2", "", True), (f"{RUN}1-2-{DIGITS}", "", True),
    (f"{RUN}1-2-{DIGITS[:-1]}", "1-2-", False), ("a.x0", "", False), (f"{RUN}1-2-4711@alpha-{DIGITS}", "1-2-", True),
    (f"{RUN}1-2-4711@alpha-{DIGITS}", "", True), (f"{RUN}1-3-4711@alpha-{DIGITS}", "1-2-", False),
    (f"{RUN}4711@alpha-{DIGITS}", "1-2-", False), (f"{RUN}1-2-4711@alpha-{DIGITS[:-1]}", "1-2-", False),
    (f"{RUN}1-2-@alpha-{DIGITS}", "1-2-", False), (f"{RUN}1-2-3-4711@alpha-{DIGITS}", "1-2-", False),
]
# The name of an unfinished file, and the run that it says.
RUNS = {
    f"{RUN}4711@alpha-{DIGITS}": "4711@alpha", f"{RUN}1-2-4711@a-b-{DIGITS}": "4711@a-b", RUN + DIGITS: "none",
    f"{RUN}1-2-{DIGITS}": "none", f"{RUN}part-1-of-2": "none", f"{RUN}4711@-{DIGITS}": "none", f"4711@alpha-{DIGITS}": "none",
}
# The last part of a name, and the stripe that it describes.
DESCRIBED = {
    "a.file": "a", "a.file.copy": "a", "a.b.file": "a.b", "a.file.file": "a.file", "a.file.copy.file": "a.file.copy", "": "none",
    ".file": "none", ".file.copy": "none", "a.fil": "none", "a.files": "none", "a": "none", "file": "none", "a.copy": "none",
}


def calls_of_runs():
    for name in OF_RUNS:
        yield ("is_of_runs", RUN + name), "true"
    for name in (*(RUN + name for name in OF_NO_RUNS), *OTHERS):
        yield ("is_of_runs", name), "false"
    for name, tag, is_so in LEFT:
        yield ("is_left_by", name, tag), said(is_so)
    for name, run in RUNS.items():
        yield ("run_of", name), run
    for name, stripe in DESCRIBED.items():
        yield ("described_stripe", name), stripe
    yield ("run_named", "17", "a-b.c_D9"), "17@a-b.c_D9"
    yield ("run_named", "17", "a b/c@d"), "17@a_b_c_d"
    yield ("lock_name", 3, 16), f"{RUN}part-3-of-16"
    yield ("tag_of_part", 3, 16), "3-16-"


# A table of mounts as Linux has it: of two at one place the last is seen, a mount hides what was mounted below it before, and a field has
# no space.
MOUNTS = r"""
22 27 0:21 / /proc rw,relatime - proc proc rw
27 1 254:0 / / rw,relatime shared:1 - ext4 /dev/vda rw,discard
28 27 0:30 / /srv rw,relatime shared:2 master:1 - nfs4 one:/srv rw,vers=4.2,local_lock=none,addr=10.0.0.1
29 28 0:31 / /srv/a rw,relatime - nfs one:/a rw,vers=3,local_lock=all,addr=10.0.0.1
30 28 0:39 / /srv/b rw,nosuid,nodev,relatime - fuse.sshfs two:/b rw,user_id=0,group_id=0
31 28 0:40 / /srv/with\040space rw,relatime - tmpfs tmpfs rw
32 28 0:41 / /srv/c rw,relatime - fuse.sshfs two:/c rw
33 32 0:42 / /srv/c rw,relatime - xfs /dev/vdb rw
34 27 0:43 / /old/deep rw,relatime - ext4 /dev/vdc rw
35 27 0:44 / /old rw,relatime - nfs4 one:/old rw,vers=4.2
36 35 0:45 / /old/new rw,relatime - btrfs /dev/vdd rw
37 27 0:46 / /two rw,relatime - nfs4 one:/two rw,vers=4.2
38 27 0:47 / /two rw,relatime - ext4 /dev/vde rw
a line of another form
"""
# That of a host whose first file system is on itself, as one in memory is from which it was started.
MOUNTS_ON_ITSELF = """
1 1 0:2 / / rw - rootfs rootfs rw
21 1 0:30 / /srv rw,relatime - nfs4 one:/srv rw,vers=4.2
22 21 254:0 / /srv/a rw,relatime - ext4 /dev/vda rw
"""
# A path, and whom locks keep out there.
ONE_HOST, SHARED, UNKNOWN = "one host", "shared files", "unknown"
LOCKINGS = {
    "/": ONE_HOST, "/home/store": ONE_HOST, "/proc/self": UNKNOWN, "/process": ONE_HOST, "/srv": SHARED,
    "/srv/store": SHARED, "/srvs": ONE_HOST, "/srv/a": UNKNOWN, "/srv/a/store": UNKNOWN, "/srv/ab": SHARED,
    "/srv/b/store": UNKNOWN, "/srv/with space/store": ONE_HOST, "/srv/with": SHARED, "/srv/c/store": ONE_HOST,
    "/old": SHARED, "/old/deep/store": SHARED, "/old/new/store": ONE_HOST, "/two/store": ONE_HOST, "store": UNKNOWN,
}
LOCKINGS_ON_ITSELF = {"/": UNKNOWN, "/home/store": UNKNOWN, "/srv": SHARED, "/srv/store": SHARED, "/srv/a/store": ONE_HOST}
# A path, its folder, its last part, and the folder in the store of a name.
PATHS = [("a", ".", "a", ""), ("a/b", "a", "b", "a"), ("/a", "/", "a", ""), ("a/b/c", "a/b", "c", "a/b"), ("/a/b", "/a", "b", "/a"),
         ("a/", "a", "", "a"), ("", ".", "", "")]


def calls_of_paths():
    for path, locking in LOCKINGS.items():
        yield ("locking_at", path), locking
    for path, folder, last, inside in PATHS:
        yield ("folder_of", path), folder
        yield ("last_of", path), last
        yield ("folder_in", path), inside
    yield ("path_in", "a/b", "c/d"), "a/b/c/d"


# Stripes, and how many parts there are.
STRIPES = ["", "a", "note", "note.tar.gz", "ä", "stripe-000017", "a.x1", "0"]
COUNTS = [1, 2, 7, 16, 1000, 2 ** 63, 2 ** 64 - 1]


def calls_of_parts():
    """A stripe is of one part, and of none that there isn't."""
    for stripe in STRIPES:
        number = int.from_bytes(hashlib.sha256(stripe.encode()).digest()[:8], "big")
        for count in COUNTS:
            part = number % count + 1
            for index in (part, 0, count + 1, part + 1):
                yield ("is_of_part", index % 2 ** 64, count, stripe), said(index == part)
    yield ("is_of_part", 1, 0, "a"), "false"


def test_calls(_place):
    hold_calls(MOUNTS, [*calls_of_patterns(), *calls_of_runs(), *calls_of_paths(), *calls_of_parts()])
    hold_calls(MOUNTS_ON_ITSELF, [(("locking_at", path), locking) for path, locking in LOCKINGS_ON_ITSELF.items()])


def hold_calls(mounts, calls):
    """Holds calls to what they have to give where this is the table of mounts."""
    given = "".join(f"{'|'.join(map(str, words))}\n" for words, _ in calls)
    out, err, status = ran([TESTS, "names::calls_are_shown"], f"{mounts.strip()}\n\n{given}")
    came = out.split("\n")
    check((came[len(calls):], err, status) == (["", "test result: ok", ""], "", 0), f"the test doesn't end well: {out[-300:]}{err}{status}")
    for (words, wanted), gives in zip(calls, came):
        check(gives == wanted, f"{words}: {gives!r}, not {wanted!r}")


# Texts that are no patterns, by what is said of them, and others that are.
FAULTS = {
    "needs {stripe} once, and {place} or {shard} once": [
        "{stripe}", "{place}", "", "a{stripe}b", "{stripe}{stripe}{place}", "{stripe}{place}{place}", "{stripe}{place}{shard}",
        "{stripe}.{place}}", "{{stripe}.{place}", "{Stripe}.{place}"],
    "is no name below the store's folder": [
        "/{stripe}.{place}", "{stripe}/{place}/", "a//{stripe}.{place}", "../{stripe}.{place}", "{stripe}..{place}",
        "a/../{stripe}{place}"],
    "needs something that is no digit between {stripe} and {shard}": [
        "{stripe}{shard}", "{shard}{stripe}", "{stripe}-1{shard}", "{shard}0-{stripe}", "d7{shard}1/2{stripe}"],
}
PATTERNS = ["{stripe}{place}", "{place}{stripe}", "{shard}/{stripe}", "{stripe}1.{shard}", "{stripe}é{shard}", "d7{shard}-1{stripe}"]


def test_patterns(place):
    for why, texts in FAULTS.items():
        for text in texts:
            came = ran([PROGRAM, "lost", "--code", "6-2-2", f"--names={text}", place])
            check(came == ("", f"error: the pattern of names {why}\n", 2), f"{text}: {came}")
    for text in PATTERNS:
        _, err, status = ran([PROGRAM, "lost", "--code", "6-2-2", f"--names={text}", place])
        check(err.endswith(f"no file is named as a fragment, {text}: is this the store?\n") and status == 1, f"{text}: {status} {err}")


# A pattern, a code, a stripe, and the names of its descriptions.
DESCRIPTIONS = [
    ("{stripe}.{place}", "6-2-2", "a", ["a.file", "a.file.copy"]),
    ("fragments/{stripe}.{place}", "12-2-2", "a", ["fragments/a.file", "fragments/a.file.copy"]),
    ("{stripe}/{place}", "6-2-2", "a", ["a/a.file", "a/a.file.copy"]),
    ("disk{shard}/{stripe}", "6-2-2", "n", [f"disk{number}/n.file" for number in range(10)]),
]


def test_descriptions(place):
    """What is encoded has these descriptions and no others, which are looked for in their order."""
    source = place / "source"
    source.write_bytes(b"a")
    for number, (pattern, code, stripe, names) in enumerate(DESCRIPTIONS):
        store = place / str(number)
        words = ["--make-folders", "--code", code, "--names", pattern, "--as", stripe]
        came = ran([PROGRAM, "encode", *words, store, source])
        found = sorted(str(path.relative_to(store)) for path in store.rglob("*.file*"))
        check(found == names and came == ("encoded 1 file; not encoded: 0\n", "", 0), f"{pattern}: {found} {came}")
        for name in names:
            (store / name).unlink()
        came = ran([PROGRAM, "lost", "--json", "--code", code, "--names", pattern, store])
        lost = "".join(f"rebuild-store: {name}: is lost\n" for name in names)
        check(came == ("", f"{lost}1 stripe; 0 fragments lost, 0 of them not in the list\n", 1), f"{pattern}: {came}")


# A pattern, names of files one of whose fragments would have the name of a description, and names of others.
LIKE_DESCRIPTIONS = {
    "{place}-{stripe}": (["b.file", "b.file.copy"], ["b", "x0-b", "b.files"]),
    "{place}-{stripe}e": (["b.fil"], ["b", "b.file"]),
    "disk{shard}/{stripe}": (["b.file"], ["b", "b.file.copy"]),
    "disk{shard}/p{stripe}": (["b.file"], ["b", "b.file.copy"]),
    "{stripe}/{place}.file": (["x0"], ["a", "x0.file"]),
    "{stripe}.{place}": ([], ["b.file", "x0.file", "b.file.copy"]),
}


def test_fragments_like_descriptions(place):
    """No file is encoded a fragment of which would have the name of a description, and each other file can be made whole again."""
    source = place / "source"
    # Fragments that are longer than a description, and such as might be one.
    for number, (many, (pattern, (refused, others))) in enumerate(itertools.product((3, 1), LIKE_DESCRIPTIONS.items())):
        source.write_bytes(bytes(range(256)) * many)
        store = place / str(number)
        words = ["--code", "6-2-2", "--names", pattern]
        store.mkdir()
        for name in refused:
            _, err, status = ran([PROGRAM, "encode", "--make-folders", *words, "--as", name, store, source])
            check(status == 1 and "a stripe can't have this name" in err, f"{pattern}, {name}: {status} {err}")
            check(not [it for it in store.rglob("*") if it.is_file()], f"{pattern}, {name}: {[*store.rglob('*')]}")
        for name in others:
            ran([PROGRAM, "encode", "--make-folders", *words, "--as", name, store, source])
        files = regular(store)
        for name in others:
            (store / named(pattern, name, "x1", 1)).unlink(missing_ok=True)
        out, err, status = ran([PROGRAM, "repair", *words, store])
        check((regular(store), err, status) == (files, "", 0), f"{pattern}: {out}{err}{status}")
        check(out.startswith(f"repaired {len(others)} fragment"), f"{pattern}: {out}")


def regular(store):
    """The bytes of the files of a store, by their paths."""
    return {str(path.relative_to(store)): path.read_bytes() for path in store.rglob("*") if path.is_file()}


def named(pattern, stripe, place, shard):
    return pattern.format(stripe=stripe, place=place, shard=shard)


def test_stores_with_such_files(place):
    """A store that has a file of such a name, as earlier builds took it, is repaired; so is a description that is named as a fragment."""
    source, words = place / "source", ["--code", "6-2-2", "--names", "{place}-{stripe}"]
    source.write_bytes(bytes(range(256)) * 5)
    for has_sums in (True, False):
        store = place / f"store-{has_sums}"
        ran([PROGRAM, "encode", "--make-folders", "--code", "6-2-2", "--as", "b.file", store, source])
        for fragment in [*store.glob("b.file.??")]:
            fragment.rename(store / f"{fragment.suffix[1:]}-b.file")
        sums = store / "SHA256SUMS"
        lines = [line.split("  ") for line in sums.read_text().splitlines()]
        renamed = sorted((f"{name[-2:]}-b.file" if name[:-2] == "b.file." else name, digest) for digest, name in lines)
        sums.write_text("".join(f"{digest}  {name}\n" for name, digest in renamed))
        if not has_sums:
            sums.unlink()
        files = regular(store)
        (store / "x0-b.file").unlink()
        (store / "py-b.file").unlink()
        out, err, status = ran([PROGRAM, "repair", *words, store])
        check((regular(store), err, status) == (files, "", 0), f"{has_sums}: {sorted(regular(store))} {out}{err}{status}")
    store = place / "store"
    ran([PROGRAM, "encode", "--make-folders", *words, "--as", "x0-c", store, source])
    files = regular(store)
    for name in ("x0-c.file", "x0-c.file.copy"):
        (store / name).write_bytes(b"damaged\n")
        out, err, status = ran([PROGRAM, "repair", "--replace-damaged", *words, store])
        left = {it: data for it, data in regular(store).items() if not it.endswith(".damaged")}
        check((left, status) == (files, 0) and "of no stripe" not in err, f"{name}: {sorted(left)} {out}{err}{status}")
        (store / f"{name}.damaged").unlink(missing_ok=True)


def main(program=None, tests=None):
    global PROGRAM, TESTS
    PROGRAM, TESTS = pathlib.Path(program or PROGRAM).resolve(), pathlib.Path(tests or TESTS).resolve()
    for test in (test_calls, test_patterns, test_descriptions, test_fragments_like_descriptions, test_stores_with_such_files):
        with tempfile.TemporaryDirectory() as scratch:
            test(pathlib.Path(scratch))
    for what in failed:
        print(f"store-names: {what}", file=sys.stderr)
    print(f"store-names: {passed} passed, {len(failed)} failed")
    sys.exit(1 if failed else 0)


if __name__ == "__main__":
    main(*sys.argv[1:3])
