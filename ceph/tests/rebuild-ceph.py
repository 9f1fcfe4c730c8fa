#!/usr/bin/env python3
"""Tries rebuild-ceph over folders that stand for stopped OSDs, by stopped.py in the place of ceph-objectstore-tool: names, both layouts,
what is there already, shards that were changed or are of another write, hosts one after the other, what was written between export and put,
and runs that are killed. It is of the gate; ceph/tests/store.sh tries the command on OSDs.

    rebuild-ceph.py            all tests
    rebuild-ceph.py TEST ..    these, as `hosts`

REBUILD_CEPH names another program to try."""

import hashlib
import json
import lzma
import os
import pathlib
import random
import signal
import subprocess
import sys
import tempfile
import time

sys.dont_write_bytecode = True
HERE = pathlib.Path(__file__).resolve().parent
sys.path.append(str(HERE.parent.parent / "tools"))
import forked  # noqa: E402
from stopped import Stopped, line_of  # noqa: E402

COMMAND = os.environ.get("REBUILD_CEPH", HERE.parent / "rebuild-ceph")
PROGRAM = forked.Program(COMMAND)
PLAIN = ["x0", "x1", "x2", "y0", "y1", "y2", "px", "py", "p0", "p1"]
GROUPS = ["x0", "x1", "x2", "px", "y0", "y1", "y2", "py", "p0", "p1"]
ENVIRONMENT = dict(os.environ)
passed = 0


def check(holds, what):
    global passed
    if not holds:
        sys.exit(f"rebuild-ceph: {what}")
    passed += 1


def words_of(command, store, osds, *more):
    if "--group" not in more and "--pool" not in more:
        more = ("--pool", 2, *more)
    return [sys.executable, COMMAND, command, *map(str, (store, *more, *(word for osd in osds for word in ("--osd", osd.folder))))]


def run(command, store, osds, *more, status):
    """What it says; it has to end with this status, never with a traceback, and to wait for another run where one is at work alone."""
    ended = PROGRAM.run(words_of(command, store, osds, *more)[2:], ENVIRONMENT)
    said = ended.stdout + ended.stderr
    check(ended.returncode == status and "Traceback" not in said, f"{command} {more}: status {ended.returncode}, not {status}: {said}")
    check("waits for" not in said or osds[0].has("slow"), f"{command} {more} waits: {said}")
    return said


def fragments(store):
    """The bytes of the store's fragments, by name."""
    return {path.name: path.read_bytes() for path in store.iterdir() if not path.name.startswith(".")}


def versions(store):
    """Which writes the store's fragments are of, where their bytes say it as `10'5 ...`."""
    return {data.split()[0].decode() for data in fragments(store).values()}


def named(said, text):
    """The shards of which a line says this."""
    return {line.partition(":")[0] for line in said.splitlines() if text in line}


def some(place, count=10, group="2.5"):
    """OSDs with the shards of one number of a group each."""
    place.mkdir(exist_ok=True)
    osds = [Stopped(place / f"osd{number}") for number in range(count)]
    for number, osd in enumerate(osds):
        osd.group(f"{group}s{number}")
    return osds


def write(osds, numbers, oid, version, group="2.5"):
    """Has these OSDs have their shards of an object of a write, which the bytes say too. Gives the lines, by number."""
    return {number: osds[number].shard(f"{group}s{number}", oid, f"{version} {oid} {number}".encode(), version) for number in numbers}


def names(place):
    """Names of objects, both layouts, other groups and pools."""
    odd = [("a/b", {}, "a%2Fb"), (".hidden", {}, "%2Ehidden"), ("50%", {}, "50%25"), ("o", {"namespace": "n"}, "o%nn"),
           ("o", {"snapid": 5}, "o%s5"), ("o", {"key": "k"}, "o%kk"), ("rbd_data.2.1f", {}, "rbd_data.2.1f")]
    osds = some(place)
    for number, osd in enumerate(osds):
        osd.shard(f"2.5s{number}", "o", b"o{}%d" % number)
        for oid, more, _ in odd if number < 2 else []:
            osd.shard(f"2.7s{number}", oid, f"{oid}{more}{number}".encode(), **more)
        osd.shard(f"2.6s{number}", "six", b"six")
        osd.shard(f"3.1s{number}", "other", b"other pool")
        osd.shard(f"2.5s{number}", "", b"the group's own")
    for layout, ends in (("plain", PLAIN), ("groups", GROUPS)):
        store = place / f"store-{layout}"
        for osd in osds:
            osd.profile(layout=layout)
        said = run("export", store, osds, status=0)
        check(said.startswith("exported 34 shards "), said)
        wanted = {f"{stripe}.{ends[number]}": f"{oid}{more}{number}".encode() for oid, more, stripe in odd for number in range(2)}
        wanted |= {f"o.{end}": b"o{}%d" % number for number, end in enumerate(ends)} | {f"six.{end}": b"six" for end in ends}
        check(fragments(store) == wanted, "the store has other files")
    run("export", place / "one", osds, "--group", "2.6", status=0)
    check(len(fragments(place / "one")) == 10, "another group's shards were exported")
    wide = Stopped(place / "wide")
    wide.shard("2.5s12", "w", b"w")
    run("export", place / "wide-store", [wide], status=3)
    wide.profile(code="12-2-2", k="12")
    run("export", place / "wide-store", [wide], status=0)
    check(fragments(place / "wide-store") == {"w.px": b"w"}, "shard 12 of the wide code is not px")
    ended = subprocess.run([sys.executable, COMMAND, "export", place / "x"], capture_output=True, text=True, env=ENVIRONMENT)
    check(ended.returncode == 2, "neither a pool nor a group is asked for")


def odd_names(place):
    """Names that are no UTF-8, that are too long for a file, and that have what ends a line elsewhere."""
    osd = Stopped(place / "osd")
    for oid, data in (("bad\udcff\udcfename", b"bad"), ("bad%FF%FEname", b"good"), ("l" * 600, b"long"), ("l" * 599 + "m", b"other"),
                      ("two\u2028lines", b"two"), ("e" * 253, b"253"), ("e" * 252, b"252"), ("é" * 300, b"e")):
        osd.shard("2.5s0", oid, data)
    run("export", place / "store", [osd], status=0)
    found = fragments(place / "store")
    check({"bad%FF%FEname.x0": b"bad", "bad%25FF%25FEname.x0": b"good", "two\u2028lines.x0": b"two", "e" * 252 + ".x0": b"252"}.items()
          <= found.items(), sorted(found))
    check(sorted(found.values()) == sorted([b"bad", b"good", b"two", b"long", b"other", b"252", b"253", b"e"]), sorted(found))
    check(all(len(os.fsencode(name)) <= 255 and name.endswith(".x0") for name in found), "a name is too long")
    for name in found:
        (place / "store" / name).write_bytes(b"rebuilt " + found[name])
    run("put", place / "store", [osd], status=0)
    check(all(osd.bytes_of(line).startswith(b"rebuilt ") for line in osd.state["shards"]), "not all were put")


def changed(place):
    """What is in the store already, what is put, and what no OSD has."""
    osds, store = some(place, 8), place / "store"
    lines = write(osds, range(8), "o", "9'2")
    run("export", store, osds, status=0)
    (store / "o.x1").write_bytes(b"changed")
    said = run("export", store, osds, status=1)
    check("o.x1: the store's file has other bytes" in said and fragments(store)["o.x1"] == b"changed", said)
    check("exported 0 shards" in said and "8 were there already, 1 of them with other bytes" in said, said)
    (store / "gone.x0").write_bytes(b"no object")
    said = run("put", store, osds, status=1)
    check(named(said, "was exported has an object for it") == {"gone.x0"}, said)
    check("put 1 shards, each read back; 7 were the same, 1 have no object" in said, said)
    check(osds[1].bytes_of(lines[1]) == b"changed", "the shard was not put")
    (store / "gone.x0").unlink()
    run("put", store, osds, status=0)

    damaged = pathlib.Path(f"{osds[3].file(lines[3])}.damaged")
    damaged.touch()
    said = run("export", place / "fewer", osds, status=1)
    check("o.y0: " in said and "exported 7 shards" in said and "; 1 can't be read" in said, said)
    check("o.y0" not in fragments(place / "fewer"), "a shard that can't be read was exported")
    said = run("put", store, osds, "--group", "2.5", status=0)
    check("put 1 shards, each read back; 7 were the same, 0 have no object" in said and not damaged.exists(), said)

    for name in ("o.x2", "o.py"):
        (store / name).write_bytes(b"changed")
    osds[2].mark("ignores")
    said = run("put", store, osds, status=3)
    check("o.x2 has other bytes after set-bytes" in said and "put 1 shards" in said, said)
    check(osds[7].bytes_of(lines[7]) == b"changed", "an OSD that works got nothing")


def unusable(place):
    """OSDs that can't be opened: the others are worked on, all that the tool said is shown, and the status is 3."""
    osds, store = some(place, 6), place / "store"
    write(osds, range(6), "o", "9'2")
    osds[4].mark("runs")
    said = run("export", store, osds, status=3)
    check(f"{osds[4].folder}: ceph-objectstore-tool: Mount failed" in said and "is the OSD stopped?" in said, said)
    check(set(fragments(store)) == {f"o.{end}" for end in PLAIN[:6] if end != "y1"}, "the other OSDs' shards aren't there")
    said = run("export", store, [*osds, Stopped(place / "none")], status=3)
    check("No such file or directory" in said and "5 were there already" in said, said)
    os.remove(osds[4].path("runs"))
    osds[4].mark("aborts")
    said = run("export", store, osds, status=3)
    check("FAILED ceph_assert(r == 0)" in said and "last words" in said and "frame 100" not in said, said)
    os.remove(osds[4].path("aborts"))
    said = run("export", place / "none-store", osds, "--pool", 99, status=1)
    check("no OSD here has a placement group of pool 99" in said and not (place / "none-store").exists(), said)
    said = run("export", store, osds, "--pool", 99, status=2)
    check("was exported with another pool, 2" in said, said)
    said = run("put", store, osds, "--layout", "groups", status=2)
    check("pool 2 is of --layout plain" in said, said)
    for osd in osds:
        osd.profile(layout="groups")
    said = run("put", store, osds, status=2)
    check("was exported with another layout, plain" in said, said)
    for osd in osds:
        osd.profile(layout="plain")
    said = run("export", store, osds, "--group", "2.7", status=1)
    check("no OSD here has placement group 2.7" in said, said)
    run("export", store, osds, status=0)


def maps(place):
    """The code and the layout are those of the map of an OSD that can say it: others are refused, and if none can they are asked for."""
    osds = some(place, 8)
    write(osds, range(8), "o", "9'2")
    osds[0].mark("runs")
    for osd in osds[1:]:
        osd.profile(layout="groups")
    said = run("export", place / "one", osds, status=3)
    check(set(fragments(place / "one")) == {f"o.{end}" for end in GROUPS[1:8]} and "Mount failed" in said, said)
    os.remove(osds[0].path("runs"))
    osds[0].profile(layout="groups")
    for words in (("--layout", "plain"), ("--code", "12-2-2")):
        said = run("export", place / "two", osds, *words, status=2)
        check(f"pool 2 is of {words[0]} " in said and f"by the map of {osds[0].folder}" in said and not (place / "two").exists(), said)
    run("export", place / "two", osds, "--layout", "groups", "--code", "6-2-2", "--group", "2.5", status=0)
    check(fragments(place / "two").keys() == {f"o.{end}" for end in GROUPS[:8]}, sorted(fragments(place / "two")))
    wide = Stopped(place / "wide")
    wide.shard("2.5s15", "w", b"w")
    wide.profile(code=None, layout=None, k="12")
    run("export", place / "three", [wide], status=0)
    check(fragments(place / "three") == {"w.p1": b"w"}, "a profile without the word code, with k of 12, isn't of the wide one")
    for osd in osds:
        osd.mark("mapless")
    said = run("export", place / "four", osds, status=3)
    check("no OSD here says of which code pool 2 is: give --code and --layout" in said and "Failed to get osdmap#38" in said, said)
    run("export", place / "four", osds, "--code", "6-2-2", "--layout", "plain", status=0)
    wide.profile(plugin="jerasure")
    for words in ((), ("--pool", "1")):
        said = run("export", place / "five", [wide], *words, status=2)
        check("isn't one of azure_lrc" in said, said)


def full(place):
    """A disk that takes a part of a shard only, of which Ceph's tool says nothing: no part gets into the store, and the status is 3."""
    osds, store = some(place, 7), place / "store"
    write(osds, range(7), "o", "9'2")
    osds[6].mark("full")
    osds[6].mark("other")    # shards are read one by one
    said = run("export", store, osds, status=3)
    check(set(fragments(store)) == {f"o.{end}" for end in PLAIN[:6]}, f"a part was exported: {said}")
    check("bytes of o.px came: is the disk full?" in said, said)
    os.remove(osds[6].path("full"))
    said = run("export", store, osds, status=0)
    check(len(fragments(store)) == 7 and len(set(map(len, fragments(store).values()))) == 1, said)


def in_one_run(place):
    """A group's shards come by one run of the tool, whatever their names and lengths, and without what goes back to earlier writes; `put`
    looks at them so too."""
    osd, store = Stopped(place / "osd"), place / "store"
    lengths = [0, 1, 1023, 1024, 1025, 5000, *range(40, 4000, 73)]
    data = {f"o{number}": random.Random(number).randbytes(length) for number, length in enumerate(lengths)}
    for oid, of_it in data.items():
        osd.shard("2.5s0", oid, of_it, "10'7")
    osd.shard("2.5s0", "o", b"a clone", "10'8", snapid=5, namespace="n/s", key="k")
    osd.shard("2.5s0", "o1", b"before", "9'1", generation=7)
    osd.shard("2.6s0", "other", b"of another group")
    run("export", store, [osd], status=0)
    found = fragments(store)
    check(found == {f"{oid}.x0": it for oid, it in data.items()} | {"o%nn%2Fs%kk%s5.x0": b"a clone", "other.x0": b"of another group"},
          f"other shards came: {sorted(found)}")
    check(osd.asked("export") == 2 and osd.asked("get-bytes") == osd.asked("dump") == 0, f"{osd.asked('get-bytes')} shards by themselves")
    (store / "o5.x0").write_bytes(b"rebuilt")
    said = run("put", store, [osd], status=0)
    check("put 1 shards, each read back; %d were the same" % (len(data) + 1) in said, said)
    check(osd.bytes_of(line_of("2.5s0", "o5", 0)) == b"rebuilt" and osd.asked("get-bytes") == 1, "put read shards by themselves")


def cut_short(place):
    """An export that ends at a shard that can't be read, within a shard, or is of another form: what it lacks is read by itself, no part of
    a shard comes, and the reason is said."""
    osd, data = Stopped(place / "osd"), {f"o{number}": bytes([number]) * 3000 for number in range(9)}
    lines = {oid: osd.shard("2.5s0", oid, it) for oid, it in data.items()}
    damaged = pathlib.Path(f"{osd.file(lines['o4'])}.damaged")
    damaged.touch()
    said = run("export", place / "damaged", [osd], status=1)
    check(fragments(place / "damaged") == {f"{oid}.x0": it for oid, it in data.items() if oid != "o4"}, said)
    check("its export ends early" in said and "error reading: (5) Input/output error" in said and "o4.x0: " in said, said)
    check(osd.asked("get-bytes") == 5 and "Read" not in said, f"{osd.asked('get-bytes')} shards by themselves: {said}")
    damaged.unlink()
    for mark in ("cut", "other"):
        osd.mark(mark)
        said = run("export", place / mark, [osd], status=0)
        check(fragments(place / mark) == {f"{oid}.x0": it for oid, it in data.items()}, said)
        check(("it isn't whole" if mark == "cut" else "its head is another") in said, said)
        os.remove(osd.path(mark))


# Of a group of OSDs of 16.2.15 and 18.2.7: the file with its `--op export`, its name, its last write, and what `--op list`, `dump` and
# `get-bytes` gave of its shards: name, number of the snapshot, write, and SHA-256 of the bytes.
OF_CEPH = [
    ("group-16.export.xz", "2.1s2", "48'6", [
        ("o3", -2, "44'3", "8a0a9846460872214c6bf47f295bedca0dd55a8a40673ddeaa3f26134c04be2e"),
        ("o0", -2, "44'1", "ad7facb2586fc6e966c004d7d1d16b024f5805ff7cb47c7a85dabd8b48892ca7"),
        ("o2", 1, "48'4", "fd68bae0da84814cff302a01652e9cbcae3cf9041b5dcbcef5baee082c3d8b86"),
        ("o2", -2, "48'5", "ad7facb2586fc6e966c004d7d1d16b024f5805ff7cb47c7a85dabd8b48892ca7"),
        ("later", -2, "48'6", "2cc4649e541368a415e08caeb0c31b9da2a0ed017b8bd6365c4661dad1206d7c"),
    ]),
    ("group-18.export.xz", "2.0s2", "37'9", [    # 1.0s2 there
        ("gone", 1, "37'8", "ad7facb2586fc6e966c004d7d1d16b024f5805ff7cb47c7a85dabd8b48892ca7"),
        ("gone", -2, "37'9", "e3b0c44298fc1c149afbf4c8996fb92427ae41e4649b934ca495991b7852b855"),
        ("o3", -2, "36'2", "0c6de4af79014ddf104b4946ab801876055d87ffe343fa5e5e3637d81bacdbc7"),
        ("o0", -2, "36'1", "ad7facb2586fc6e966c004d7d1d16b024f5805ff7cb47c7a85dabd8b48892ca7"),
        ("o2", 1, "37'5", "3c8b52f449f591adc40e02bd149a95e6237c1eef978b29d9e7f41097c6102612"),
        ("o2", -2, "37'6", "ad7facb2586fc6e966c004d7d1d16b024f5805ff7cb47c7a85dabd8b48892ca7"),
        ("later", -2, "37'7", "0937251d3f23fdb072215ed224bfdc240d2764feacac0790824e5ccc87bce00e"),
    ]),
]


def of_ceph(place):
    """What Ceph's own tools exported."""
    for file, group, last, shards in OF_CEPH:
        of_release(place / group, file, group, last, shards)


def of_release(place, file, group, last, shards):
    osd, store = Stopped(place / "osd"), place / "store"
    osd.group(group, last=last)
    for oid, snapshot, _, _ in shards:
        osd.shard(group, oid, b"not these bytes", "1'1", snapid=snapshot)
    pathlib.Path(osd.path("recorded")).write_bytes(lzma.decompress((HERE / file).read_bytes()))
    said = run("export", store, [osd], status=0)
    wanted = {f"{oid}{'' if snapshot < 0 else f'%s{snapshot}'}.x2": (version, digest) for oid, snapshot, version, digest in shards}
    check({name: hashlib.sha256(data).hexdigest() for name, data in fragments(store).items()}
          == {name: digest for name, (_, digest) in wanted.items()}, said)
    record = json.loads((store / ".rebuild-ceph.json").read_text())
    check({f"{stripe}.x2": version for stripe, (_, version) in record["stripes"].items()}
          == {name: version for name, (version, _) in wanted.items()}, record["stripes"])
    check(osd.asked("get-bytes") == osd.asked("dump") == 0, "shards were read by themselves")


def too_large(place):
    """A store whose disk takes no more: the status is 3, and no part of a shard is in it."""
    osd, store = Stopped(place / "osd"), place / "store"
    osd.shard("2.5s0", "large", bytes(50000))
    words = ["bash", "-c", 'ulimit -f 20; exec "$@"', "bash", *words_of("export", store, [osd])]
    ended = subprocess.run(words, capture_output=True, text=True, env=ENVIRONMENT)
    check(ended.returncode == 3 and "File too large" in ended.stderr and "Traceback" not in ended.stderr, ended.stderr)
    check(not fragments(store) and not [*store.glob(".rebuild-ceph/*/*")], "a part of a shard was exported")
    run("export", store, [osd], status=0)
    check(fragments(store) == {"large.x0": bytes(50000)}, "the next run doesn't export it")


def progress(place):
    """From time to time it says how far it is."""
    osd = Stopped(place / "osd")
    for number in range(30):
        osd.shard("2.5s0", f"o{number}", b"data")
    text = pathlib.Path(COMMAND).read_text().replace("SECONDS_BETWEEN_LINES = 10 ", "SECONDS_BETWEEN_LINES = 0 ")
    (place / "often").write_text(text)
    words = words_of("export", place / "store", [osd])
    ended = subprocess.run([words[0], place / "often", *words[2:]], capture_output=True, text=True, env=ENVIRONMENT)
    check(ended.stderr.splitlines() == [f"rebuild-ceph: {count} of 30 shards" for count in range(1, 31)], ended.stderr)


def hosts(place):
    """One shard a host, in several orders of hosts: three hosts missed the last write of an object, the removal of another, and the making
    of a third one. The store has one write alone at each moment, at the end the newest; each old host is named; and `put`, host by host,
    writes over nothing that is of another write."""
    osds = some(place)
    old, new = {2, 6, 9}, [0, 1, 3, 4, 5, 7, 8]
    lines = write(osds, old, "o", "10'1") | write(osds, new, "o", "12'5")
    write(osds, range(10), "same", "10'2")
    write(osds, old, "removed", "10'3")
    write(osds, new, "made", "12'4")
    for number in new:
        osds[number].group(f"2.5s{number}", started=12, last="12'6")
    mixed = random.Random(1).sample(range(10), 10)
    orders = [[[it] for it in [*old, *new]], [[it] for it in [*new, *old]], [mixed[:4], mixed[4:]], [[*range(5)], [*range(5, 10)]]]
    for count, order in enumerate(orders):
        store, here = place / f"store{count}", []
        for numbers in order:
            here += numbers
            is_mixed = bool(old & {*here}) and bool({*here} - old)
            said = run("export", store, [osds[it] for it in numbers], status=int(is_mixed))
            found = fragments(store)
            wanted = {f"same.{PLAIN[it]}" for it in here}
            wanted |= {f"{oid}.{PLAIN[it]}" for it in here if it not in old for oid in ("o", "made")}
            if not {*here} - old:
                wanted |= {f"{oid}.{PLAIN[it]}" for it in here for oid in ("o", "removed")}
            check(set(found) == wanted, f"after hosts {here}: {sorted(set(found) ^ wanted)} in the store")
            of_object = {data.split()[0] for name, data in found.items() if name.startswith("o.")}
            check(len(of_object) <= 1, f"after hosts {here}: writes {of_object} in the store")
            if is_mixed:
                left = {f"{oid}.{PLAIN[it]}" for it in old & {*here} for oid in ("o", "removed")}
                check(named(said, "is of another write") == left, said)
                check({f"o.{PLAIN[it]}" for it in old & {*here}} == named(said, "write, 10'1, than the one that counts, 12'5"), said)
                check(all(f"{osds[it].folder}: is of another write" in said for it in old & {*here}), said)
    for number in old:
        (store / f"o.{PLAIN[number]}").write_bytes(b"12'5 rebuilt")
    for number in range(10):
        before = osds[number].bytes_of(lines[number])
        said = run("put", store, [osds[number]], status=int(number in old))
        check(osds[number].bytes_of(lines[number]) == before, f"put wrote over {before}")
        if number in old:
            check(f"{osds[number].folder}: is of another write, 10'1, than the store's, 12'5: it is left alone" in said, said)


def together(place):
    """Three hosts that export into one store at once, of which one is old."""
    osds, store = some(place), place / "store"
    write(osds, range(7), "o", "12'5")
    write(osds, [7, 8, 9], "o", "10'1")
    for number in range(7):
        osds[number].group(f"2.5s{number}", started=12, last="12'6")
    runs = [subprocess.Popen(words_of("export", store, part), stdout=subprocess.PIPE, stderr=subprocess.PIPE, env=ENVIRONMENT)
            for part in (osds[7:], osds[:3], osds[3:7])]
    said = [run.communicate()[1].decode() for run in runs]
    check(fragments(store) == {f"o.{PLAIN[it]}": b"12'5 o %d" % it for it in range(7)}, f"{sorted(fragments(store))}: {said}")
    check(any(named(it, "is of another write") == {"o.py", "o.p0", "o.p1"} for it in said), said)


def old_store(place):
    """A store of old shards alone, as where the host of a newer one wasn't exported: `put` doesn't write over the newer one."""
    osds, store = some(place), place / "store"
    lines = write(osds, range(9), "o", "10'1") | write(osds, [9], "o", "12'5")
    osds[9].group("2.5s9", started=12, last="12'6")
    run("export", store, osds[:9], status=0)
    (store / "o.p1").write_bytes(b"10'1 rebuilt")
    said = run("put", store, [osds[9]], status=1)
    check(osds[9].bytes_of(lines[9]) == b"12'5 o 9", "put wrote over the newest shard")
    check("put 0 shards" in said and "12'5 is the write that counts, and the store's is of 10'1: export again" in said, said)
    (store / "o.x3").unlink(missing_ok=True)
    (store / "o.y0").write_bytes(b"10'1 mended")
    said = run("put", store, [osds[3], osds[9]], status=1)
    check(osds[3].bytes_of(lines[3]) == b"10'1 o 3" and named(said, "is the write that counts") == {"o.p1", "o.y0"}, said)


def between(place):
    """What was written between export and put is never written over: on all OSDs, on some, and where the group's info is as before."""
    for count, newer in enumerate(([*range(6)], [0, 2, 4], [3])):
        osds, store = some(place / f"part{count}", 6), place / f"store{count}"
        lines = write(osds, range(6), "o", "100'2")
        line = write(osds, [0], "p", "100'3", group="2.6")[0]
        for number in range(6):
            osds[number].group(f"2.5s{number}", started=100, last="100'3")
        run("export", store, osds, status=0)
        is_told = count != 2
        write(osds, newer, "o", "118'3")
        for number in newer if is_told else []:
            osds[number].group(f"2.5s{number}", started=118, last="118'3")
        (store / "p.x0").write_bytes(b"100'3 rebuilt")
        (store / "o.x1").write_bytes(b"100'2 rebuilt")
        said = run("put", store, osds, status=1)
        for number in range(6):
            wanted = b"118'3" if number in newer else b"100'2"
            check(osds[number].bytes_of(lines[number]) == b"%s o %d" % (wanted, number), f"put wrote over shard {number}: {said}")
        check({f"o.{PLAIN[it]}" for it in newer} <= named(said, "it is left alone") and "put 1 shards" in said, said)
        check(osds[0].bytes_of(line) == b"100'3 rebuilt", "what wasn't written to is put")


def removed(place):
    """An object that was removed between export and put, but for the shard of an OSD that missed it."""
    osds, store = some(place, 4), place / "store"
    lines = write(osds, range(4), "o", "10'1")
    run("export", store, osds, status=0)
    for number in range(3):
        osds[number].drop(lines[number])
        osds[number].group(f"2.5s{number}", started=12, last="12'2")
    (store / "o.y0").write_bytes(b"10'1 rebuilt")
    said = run("put", store, osds, status=1)
    check(osds[3].bytes_of(lines[3]) == b"10'1 o 3" and named(said, "there is no such object any more: export again") == {"o.y0"}, said)
    said = run("export", store, osds, status=1)
    check(not fragments(store) and named(said, "is of another write, 10'1, than any that counts") == {"o.y0"}, said)


def counting(place):
    """Which write counts: that of the last epoch in which the group was active, however few shards are of it; in one epoch the oldest last
    write, which all shards have; of whole copies alone; and by a log the write that an OSD hasn't got yet."""
    osds = some(place / "fewer", 5)
    write(osds, [0, 1, 2], "o", "10'1")
    write(osds, [3, 4], "o", "12'5")
    for number in (3, 4):
        osds[number].group(f"2.5s{number}", started=12, last="12'5")
    said = run("export", place / "fewer-store", osds, status=1)
    check(set(fragments(place / "fewer-store")) == {"o.y0", "o.y1"}, f"the older write was exported: {said}")
    check(named(said, "is of another write, 10'1, than the one that counts, 12'5") == {"o.x0", "o.x1", "o.x2"}, said)

    osds = some(place / "begun", 7)
    write(osds, [0, 1, 2], "o", "12'5")
    write(osds, range(3, 7), "o", "12'6")
    write(osds, range(3, 7), "begun", "12'7")
    for number in range(7):
        osds[number].group(f"2.5s{number}", started=12, last="12'5" if number < 3 else "12'7")
    said = run("export", place / "begun-store", osds, status=1)
    check(set(fragments(place / "begun-store")) == {"o.x0", "o.x1", "o.x2"}, f"a write that not all have was exported: {said}")
    check(named(said, "is of another write") == {f"{oid}.{end}" for oid in ("o", "begun") for end in PLAIN[3:7]}, said)

    osds = some(place / "filled", 6)
    write(osds, range(4), "o", "12'5")
    write(osds, [4], "o", "12'2")
    for number in range(6):
        osds[number].group(f"2.5s{number}", started=12, last="12'5" if number < 4 else "12'3", backfill="MAX" if number < 4 else "2:1::o:0")
    said = run("export", place / "filled-store", osds, status=1)
    check(set(fragments(place / "filled-store")) == {f"o.{end}" for end in PLAIN[:4]}, f"a copy that isn't whole counted: {said}")

    osds = some(place / "missing", 5)
    write(osds, range(5), "o", "10'1")
    write(osds, range(5), "removed", "10'2")
    write(osds, range(4), "o", "12'5")
    for number in range(5):
        missing = [("o", "12'5"), ("removed", None)] if number == 4 else []
        osds[number].group(f"2.5s{number}", started=12, last="12'6", complete="10'2" if missing else None, missing=missing)
        if number != 4:
            osds[number].drop(line_of(f"2.5s{number}", "removed", number))
    said = run("export", place / "missing-store", osds, status=1)
    check(set(fragments(place / "missing-store")) == {f"o.{end}" for end in PLAIN[:4]}, said)
    check(named(said, "is of another write") == {"o.y1", "removed.y1"}, said)
    check("removed.y1" in named(said, "than any that counts"), said)
    said = run("export", place / "alone-store", [osds[4]], status=1)
    check(not fragments(place / "alone-store"), f"an OSD that hasn't got the newest write was believed: {said}")


def untold(place):
    """Where it can't be told which write counts nothing is exported and nothing put, with the reason; other groups are."""
    osds, store = some(place, 6), place / "store"
    lines = write(osds, range(6), "o", "10'1")
    write(osds, range(2), "six", "10'1", group="2.6")
    run("export", store, osds, status=0)
    osds[2].group("2.5s2", started=10, known=14)
    osds[5].group("2.5s5", started=14, backfill="2:1::o:0")
    said = run("export", place / "other", osds, status=1)
    check({*fragments(place / "other")} == {f"six.{end}" for end in PLAIN[:2]}, f"what can't be told was exported: {said}")
    check("group 2.5: it can't be told which writes count" in said and "it was active in epoch 14, of which no whole copy" in said, said)
    for name in ("o.x0", "six.x0"):
        (store / name).write_bytes(b"rebuilt")
    said = run("put", store, osds, status=1)
    check(osds[0].bytes_of(lines[0]) == b"10'1 o 0" and "put 1 shards" in said, f"what can't be told was put: {said}")
    check("group 2.5: it can't be told which writes count" in said and named(said, "it is left alone") == {"o.x0"}, said)
    osds[5].group("2.5s5", started=14)
    write(osds, [5], "o", "14'1")
    said = run("export", place / "other", osds, status=1)
    check(fragments(place / "other")["o.y2"] == b"14'1 o 5", f"what was kept when it couldn't be told isn't there: {said}")
    osds[4].group("2.5s4", started=14)
    said = run("export", place / "other", osds, status=1)
    check("o: it can't be told which write counts" in said and "10'1 and 14'1" in said, said)


def again(place):
    """Which write counts may change twice with the hosts that are exported, and be an older one at the end: what was put aside comes back,
    also what was rebuilt."""
    osds, store = some(place), place / "store"
    write(osds, range(9), "o", "12'1")
    write(osds, [9], "o", "12'8")
    osds[0].group("2.5s0", started=11, last="12'1")
    osds[9].group("2.5s9", started=12, last="12'8")
    for number in range(1, 9):
        osds[number].group(f"2.5s{number}", started=12, last="12'7")
    run("export", store, [osds[0]], status=0)
    (store / "o.px").write_bytes(b"12'1 rebuilt")
    said = run("export", store, [osds[9]], status=1)
    check(fragments(store) == {"o.p1": b"12'8 o 9"} and f"{osds[0].folder}: is of another write" in said, said)
    said = run("export", store, [osds[1]], status=1)
    check(fragments(store) == {"o.x0": b"12'1 o 0", "o.x1": b"12'1 o 1", "o.px": b"12'1 rebuilt"}, said)
    check(named(said, "is of another write, 12'8, than the one that counts, 12'1") == {"o.p1"}, said)
    check(not list((store / ".rebuild-ceph").glob("12'1/*")), "what is in its place is kept twice")


# What the OSDs of a cluster of 16.2.15 held of some objects of a pool of ten shards, by ceph-objectstore-tool: of each group what most
# shards had (the epoch of the last start and the last write by `--op info`, and the objects' writes by `dump`), and what others had, by
# number; in the end the writes that the objects were of on all OSDs, once Ceph had started again and was clean. Two OSDs had missed writes
# when the others were killed while they were written to, one a little earlier than the rest. In the second state of the first group all had
# started again, without recovery: there others are missing objects, by `--op log`, and know of an epoch in which they didn't take part.
KILLED = [
    ("2.0", (39, "39'362", {"a/b": "34'2", "o8": "39'359"}), {
        3: (33, "34'4", {"a/b": "34'2", "gone": "34'4", "o8": "34'1"}),
        4: (37, "37'5", {"a/b": "34'2", "o8": "34'1"}),
        9: (39, "39'356", {"a/b": "34'2", "o8": "39'306"})},
     {"a/b": "34'2", "o8": "39'306"}),
    ("2.1", (39, "39'398", {"o0": "39'10", "o3": "37'8", "o7": "39'383"}), {
        0: (33, "34'6", {"o0": "34'1", "o3": "34'2", "o7": "34'4"}),
        4: (37, "37'9", {"o0": "37'7", "o3": "37'8", "o7": "34'4"}),
        8: (39, "39'386", {"o0": "39'10", "o3": "37'8", "o7": "39'383"})},
     {"o0": "39'10", "o3": "37'8", "o7": "39'383"}),
    ("2.0", (50, "39'356", {"a/b": "34'2", "o8": "39'306"}), {
        3: (33, "39'356", {"a/b": "34'2", "gone": "34'4", "o8": "34'1"}, 50, "34'4", [("gone", None), ("o8", "39'306")]),
        4: (37, "39'356", {"a/b": "34'2", "o8": "34'1"}, 50, "39'6", [("o8", "39'306")])},
     {"a/b": "34'2", "o8": "39'306"}),
]


def recorded(place):
    """Of what Ceph's OSDs held, export gives the writes that Ceph chose."""
    for count, (group, usual, others, after) in enumerate(KILLED):
        osds = some(place / str(count), group=group)
        held = {number: others.get(number, usual) for number in range(10)}
        for number, (started, last, writes, *more) in held.items():
            known, complete, missing = more or (None, None, ())
            osds[number].group(f"{group}s{number}", started, last, complete, known, missing=missing)
            for oid, version in writes.items():
                write(osds, [number], oid, version, group)
        store, said = place / f"store{count}", run("export", place / f"store{count}", osds, status=1)
        found = {name: data.split()[0].decode() for name, data in fragments(store).items()}
        wanted = {f"{oid.replace('/', '%2F')}.{PLAIN[number]}": version for oid, version in after.items()
                  for number, it in held.items() if it[2].get(oid) == version}
        check(found == wanted, f"group {group}: not what Ceph chose: {sorted(found.items() ^ wanted.items())}: {said}")


def generations(place):
    """What is kept to go back to an earlier write is no shard, of an object that is there and of one that was removed; the number of no
    generation is."""
    osds, store = some(place, 3), place / "store"
    for number, osd in enumerate(osds):
        group = f"2.5s{number}"
        osd.shard(group, "o", b"39'359 now", "39'359")
        osd.shard(group, "o", b"39'306 before", "39'306", generation=359)
        osd.shard(group, "removed", b"39'20 before", "39'20", generation=360)
        osd.shard(group, "none", b"39'30 now", "39'30", generation=2**64 - 1)
    said = run("export", store, osds, status=0)
    check(versions(store) == {"39'359", "39'30"} and len(fragments(store)) == 6, f"{sorted(fragments(store))}: {said}")
    (store / "removed.x0").write_bytes(b"39'20 before")
    said = run("put", store, osds, status=1)
    check(named(said, "was exported has an object for it") == {"removed.x0"} and "put 0 shards" in said, said)


def stores(place):
    """Stores that don't say which writes their fragments are of."""
    osds = some(place, 3)
    lines = write(osds, range(3), "o", "10'1")
    for name, record in (("older", '{"2.5": [10, 5]}'), ("none", None)):
        store = place / name
        store.mkdir()
        (store / "o.x0").write_bytes(b"whatever")
        if record:
            (store / ".rebuild-ceph.json").write_text(record)
        said = run("put", store, osds, status=1)
        check(osds[0].bytes_of(lines[0]) == b"10'1 o 0" and "export again, into an empty folder" in said, said)
        said = run("export", store, osds, status=1)
        check(fragments(store) == {"o.x0": b"whatever"} and "into an empty folder" in said, said)
    store = place / "torn"
    run("export", store, osds, status=0)
    for record, status in (('{"form"', 3), ("[]", 1)):
        (store / ".rebuild-ceph.json").write_text(record)
        run("put", store, osds, status=status)
        run("export", store, osds, status=status)
    store = place / "later"
    run("export", store, osds, status=0)
    (store / "other.x0").write_bytes(b"of nobody knows which write")
    line = write(osds, range(3), "other", "10'2")[0]
    said = run("put", store, osds, status=1)
    check(osds[0].bytes_of(line) == b"10'2 other 0" and "other.x0" in named(said, "export again, into an empty folder"), said)
    said = run("export", store, osds, status=1)
    check(fragments(store)["other.x0"] == b"of nobody knows which write" and named(said, "into an empty folder") == {"other"}, said)


def killed(place):
    """A run of `put` that is killed leaves a tool at work: the next run waits for it, says so, and all is put."""
    osds, store = some(place, 2), place / "store"
    lines = write(osds, range(2), "o", "10'1")
    run("export", store, osds, status=0)
    (store / "o.x0").write_bytes(b"10'1 rebuilt")
    osds[0].mark("slow")
    first = subprocess.Popen(words_of("put", store, osds[:1]), stdout=subprocess.DEVNULL, stderr=subprocess.DEVNULL, env=ENVIRONMENT)
    for _ in range(400):
        if osds[0].has("began"):
            break
        time.sleep(0.05)
    first.send_signal(signal.SIGKILL)
    first.wait()
    check(osds[0].bytes_of(lines[0]) == b"10'1 o 0", "the killed run was done")
    said = run("put", store, osds[:1], status=0)
    check("waits for the ceph-objectstore-tool of another run" in said, said)
    check(osds[0].bytes_of(lines[0]) == b"10'1 rebuilt", "the shard was not put")


TESTS = (names, odd_names, changed, unusable, maps, full, in_one_run, cut_short, of_ceph, too_large, progress, hosts, together, old_store,
         between, removed, counting, untold, again, recorded, generations, stores, killed)


def main():
    wanted = sys.argv[1:] or [test.__name__ for test in TESTS]
    with tempfile.TemporaryDirectory() as scratch:
        place = pathlib.Path(scratch)
        ENVIRONMENT["PATH"] = f"{place}:{os.environ['PATH']}"
        ENVIRONMENT["STAND_IN"] = str(place / "socket")
        compiler = os.environ.get("CC", "gcc")
        subprocess.run([compiler, "-O2", "-Wall", "-o", place / "ceph-objectstore-tool", HERE / "stand-in.c"], check=True)
        (place / "osdmaptool").symlink_to("ceph-objectstore-tool")
        with forked.standing(forked.Program(HERE / "stopped.py"), place / "socket"):
            for test in TESTS:
                if test.__name__ in wanted:
                    (place / test.__name__).mkdir()
                    test(place / test.__name__)
    print(f"rebuild-ceph: {passed} passed, 0 failed")


main()
