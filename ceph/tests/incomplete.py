"""What incomplete.sh asks: which groups Ceph must call incomplete, and which of their fragments the equations determine. These are answered
by tools/reference.py, which shares nothing with the plugin. The first word names a job.

    remember POOL FILE FILES             writes for each placement group its OSDs by shard, and for each object its group, and the length of
                                         its file in a folder
    choose FILE OSDS                     five of so many OSDs to be dead, and of these three to be gone and one whose disk is to be damaged,
                                         so that a group is incomplete though one of its lost fragments is determined: GONE, DEAD, DAMAGED
    incomplete FILE DEAD                 the groups with objects that are incomplete without the dead OSDs, a line each
    states POOL FILE DEAD                says which groups with objects are not yet as the equations have it: those whose data aren't
                                         determined without the dead OSDs' shards incomplete, the others not
    compare FILE DEAD LOST TRUTH STORE   of the incomplete groups' stripes STORE must have all fragments but those of the LOST OSDs that
                                         aren't determined, with the bytes of TRUTH, a store of the dead OSDs' shards
    damageable FILE GONE DEAD OSD        a fragment on an OSD, of an incomplete group, that is determined without it and the OSDs that are
                                         gone: its group, its shard and its name; of an object that fills a stripe, since in others shards
                                         may be nothing but zeros, as other parts of the disk are
    damage DISK FRAGMENT                 changes a byte of an OSD's disk wherever it has the bytes of this file, or had them before

DEAD, LOST and GONE are numbers of OSDs, with commas between."""

import functools
import itertools
import json
import os
import pathlib
import subprocess
import sys

sys.dont_write_bytecode = True
sys.path.insert(0, str(pathlib.Path(__file__).resolve().parents[2] / "tools"))
import reference  # noqa: E402

CODE = "6-2-2"
PLACES, EQUATIONS = reference.code_of(CODE)
DATA = set(range(6))
BLOCK = 4096    # of which BlueStore has a checksum each


def ceph(*words):
    return json.loads(subprocess.run(["ceph", *words, "-f", "json"], check=True, capture_output=True, text=True).stdout)


def remember(pool, file, files):
    groups = {it["pgid"]: it["acting"] for it in ceph("pg", "ls-by-pool", pool)["pg_stats"]}
    listed = subprocess.run(["rados", "-p", pool, "ls"], check=True, capture_output=True, text=True).stdout.split()
    objects = {name: ceph("osd", "map", pool, name)["pgid"] for name in sorted(listed)}
    lengths = {name: pathlib.Path(files, name).stat().st_size for name in objects}
    pathlib.Path(file).write_text(json.dumps({"groups": groups, "objects": objects, "lengths": lengths}))


def remembered(file):
    return json.loads(pathlib.Path(file).read_text())


def numbers(words):
    return {int(word) for word in words.split(",")}


@functools.lru_cache(maxsize=None)
def determined(lost):
    """Of lost shards, in the plain layout, those that the others determine."""
    rows, pivots = reference.eliminated(EQUATIONS, sorted(lost))
    return frozenset(column for row, column in zip(rows, pivots)
                     if column is not None and not any(row[it] for it in lost if it != column))


def lost_of(acting, dead):
    return frozenset(shard for shard, osd in enumerate(acting) if osd in dead)


def groups_without(found, dead):
    """The groups that can't be active without these OSDs, since their data aren't determined, each with its lost shards."""
    lost = {group: lost_of(acting, dead) for group, acting in found["groups"].items()}
    return {group: those for group, those in lost.items() if not those & DATA <= determined(those)}


def with_objects(found, dead):
    held = set(found["objects"].values())
    return {group: lost for group, lost in groups_without(found, dead).items() if group in held}


def fit(found, gone, dead, osd):
    for name, group in found["objects"].items():
        acting = found["groups"][group]
        if osd in acting and group in groups_without(found, dead) and found["lengths"][name] >= len(DATA) * BLOCK:
            shard = acting.index(osd)
            lost = lost_of(acting, gone) | {shard}
            if len(lost) == 4 and determined(lost) == lost:
                return group, shard, f"{name}.{PLACES[shard]}"
    return None


def choose(file, osds):
    found = remembered(file)
    for dead in itertools.combinations(range(int(osds)), 5):
        groups = with_objects(found, set(dead))
        if not 2 <= len(groups) <= 4 or not any(determined(lost) for lost in groups.values()):
            continue
        for *gone, damaged, _ in itertools.permutations(dead):
            if fit(found, set(gone), set(dead), damaged):
                print(*(",".join(map(str, sorted(those))) for those in (gone, dead)), damaged)
                return
    sys.exit("there are no such OSDs")


def incomplete(file, dead):
    print(*sorted(with_objects(remembered(file), numbers(dead))), sep="\n")


def states(pool, file, dead):
    found = remembered(file)
    wanted, held = groups_without(found, numbers(dead)), set(found["objects"].values())
    for it in ceph("pg", "ls-by-pool", pool)["pg_stats"]:
        is_settled = "peering" not in it["state"] and not numbers(dead) & set(it["acting"])
        if it["pgid"] in held and (not is_settled or ("incomplete" in it["state"]) != (it["pgid"] in wanted)):
            print(f"group {it['pgid']} is {it['state']}")


def compare(file, dead, lost, truth, store):
    found, lost = remembered(file), numbers(lost)
    held, stripes, rebuilt, left = {path.name for path in pathlib.Path(store).iterdir()}, 0, 0, 0
    groups = groups_without(found, numbers(dead))
    for name, group in found["objects"].items():
        if group not in groups:
            continue
        without = lost_of(found["groups"][group], lost)
        back = determined(without)
        for shard, place in enumerate(PLACES):
            fragment = f"{name}.{place}"
            if (fragment in held) != (shard not in without or shard in back):
                sys.exit(f"{fragment} is {'there' if fragment in held else 'not there'}")
            known = pathlib.Path(truth, fragment)
            if fragment in held and known.exists() and known.read_bytes() != pathlib.Path(store, fragment).read_bytes():
                sys.exit(f"{fragment} has other bytes than Ceph held")
        stripes, rebuilt, left = stripes + 1, rebuilt + len(back), left + len(without - back)
    print(f"{stripes} stripes without {rebuilt + left} fragments: {rebuilt} came back as Ceph held them, {left} aren't determined")


def damageable(file, gone, dead, osd):
    print(*fit(remembered(file), numbers(gone), numbers(dead), int(osd)))


def extents(file):
    """The parts of a file that have been written."""
    stop = 0
    while True:
        try:
            start = os.lseek(file, stop, os.SEEK_DATA)
        except OSError:    # there is no more
            return
        stop = os.lseek(file, start, os.SEEK_HOLE)
        yield start, stop


def damage(disk, fragment):
    wanted = pathlib.Path(fragment).read_bytes()[:BLOCK]
    if not any(wanted):
        sys.exit("zeros are no fragment's alone")
    with open(disk, "r+b") as file:
        count = 0
        for start, stop in extents(file.fileno()):
            held = os.pread(file.fileno(), stop - start, start)
            at = held.find(wanted)
            while at >= 0:
                os.pwrite(file.fileno(), bytes([wanted[17] ^ 1]), start + at + 17)
                count, at = count + 1, held.find(wanted, at + 1)
    if count == 0:
        sys.exit("the disk hasn't these bytes")


if __name__ == "__main__":
    jobs = (remember, choose, incomplete, states, compare, damageable, damage)
    {it.__name__: it for it in jobs}[sys.argv[1]](*sys.argv[2:])
