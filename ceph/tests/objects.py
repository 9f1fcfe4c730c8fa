"""What the scripts beside it ask of a cluster's objects and of Ceph's JSON; it takes the name of a job and its arguments.

    make FOLDER COUNT MOST        files of random bytes, of 1 to MOST bytes
    write POOL FOLDER             each file as an object of its name
    compare POOL FOLDER           reads all objects; ends with status 1 where one is not as its file
    partial POOL FOLDER COUNT     so many reads of parts of the objects: how many are right, have other bytes, and fail
    four POOL FOLDER [LAYOUT]     of (6,2,2) groups with lost shards: those that determine the data are active, with their objects as
                                  written; the others are not active; status 1 where it isn't so
    fill POOL COUNT SIZE          writes so many objects of one size
    degraded POOL                 how many shards are lost, and how many of each number
    fullest POOL                  the OSD that holds the most shards
    sent                          the sum of the bytes that OSDs sent, of their counters on standard input
    acting POOL OBJECT            the placement group of an object, and its OSDs by shard
    racks POOL GROUP              whether each group of GROUP shards is in one rack, of all placement groups, and p0 and p1 in a third
    scrubbed POOL SINCE           how many placement groups were scrubbed since then, and their errors; status 1 until all were
    releases                      of which releases the daemons are, by kind"""

import collections
import json
import os
import random
import subprocess
import sys

NO_OSD = 2147483647    # as Ceph writes that a shard is on none
AT_ONCE = 32    # writes
ODD_SIZES = (1, 31, 4096, 24576, 24577, 65536, 1000003)


def ceph(*words):
    return json.loads(subprocess.run(["ceph", *words, "-f", "json"], check=True, capture_output=True, text=True).stdout)


def groups(pool):
    return ceph("pg", "ls-by-pool", pool)["pg_stats"]


def make(folder, count, most):
    random.seed(1)
    os.makedirs(folder, exist_ok=True)
    for i in range(int(count)):
        size = ODD_SIZES[i] if i < len(ODD_SIZES) else random.randrange(1, int(most))
        with open(f"{folder}/o{i}", "wb") as file:
            file.write(os.urandom(min(size, int(most))))


def opened(pool):
    import rados
    cluster = rados.Rados(conffile=os.environ["CEPH_CONF"])
    cluster.connect()
    return cluster.open_ioctx(pool)


def files(folder):
    for name in sorted(os.listdir(folder)):
        with open(f"{folder}/{name}", "rb") as file:
            yield name, file.read()


def write(pool, folder):
    io = opened(pool)
    for name, data in files(folder):
        io.write_full(name, data)


def compare(pool, folder):
    io, count, size, wrong = opened(pool), 0, 0, []
    for name, data in files(folder):
        try:
            read = io.read(name, length=len(data) + 1)
        except Exception as error:    # of rados, whose errors have no type for all
            read = error
        count, size = count + 1, size + len(data)
        if read != data:
            wrong.append(f"{name}: {read if isinstance(read, Exception) else 'other bytes'}")
    print(f"{count} objects, {size} bytes read, {len(wrong)} not as written {' '.join(wrong[:3])}".rstrip())
    sys.exit(1 if wrong else 0)


def partial(pool, folder, count):
    io, found = opened(pool), collections.Counter(right=0, wrong=0, failed=0)
    held = [(name, data) for name, data in files(folder) if data]
    random.seed(2)
    for _ in range(int(count)):
        name, data = random.choice(held)
        start = random.randrange(len(data))
        length = random.randrange(1, len(data) - start + 1)
        try:
            found["right" if io.read(name, length, start) == data[start:start + length] else "wrong"] += 1
        except Exception:    # of rados, whose errors have no type for all
            found["failed"] += 1
    print(f"{count} parts read: {found['right']} right, {found['wrong']} other bytes, {found['failed']} failed")


def is_determined(lost, layout):
    """Whether the other shards of a (6,2,2) stripe determine these: beside one of each group two more."""
    groups_of = {"plain": ({0, 1, 2, 6}, {3, 4, 5, 7}), "groups": ({0, 1, 2, 3}, {4, 5, 6, 7})}
    return sum(max(len(lost & group) - 1, 0) for group in groups_of[layout]) + len(lost & {8, 9}) <= 2


def four(pool, folder, layout="plain"):
    io, states, read = opened(pool), collections.Counter(), 0
    active = {}
    down = {it["osd"] for it in ceph("osd", "dump")["osds"] if not it["up"]}
    for it in groups(pool):
        if down & set(it["acting"]):
            sys.exit(f"of group {it['pgid']} the manager hasn't heard yet that OSDs are down")
        lost = {shard for shard, osd in enumerate(it["acting"]) if osd == NO_OSD}
        active[it["pgid"]] = "active" in it["state"].split("+")
        states[len(lost), active[it["pgid"]]] += 1
        if active[it["pgid"]] != is_determined(lost, layout):
            sys.exit(f"group {it['pgid']} without the shards {sorted(lost)} is {it['state']}")
    for name, data in files(folder):
        if not active[ceph("osd", "map", pool, name)["pgid"]]:
            continue
        if io.read(name, length=len(data) + 1) != data:
            sys.exit(f"{name} has other bytes")
        read += 1
    said = ", ".join(f"{count} {'active' if works else 'not active'} with {lost} lost" for (lost, works), count in sorted(states.items()))
    print(f"{said}; {read} objects read as written")


def fill(pool, count, size):
    io, data, asked = opened(pool), os.urandom(int(size)), collections.deque()
    for i in range(int(count)):
        asked.append(io.aio_write_full(f"o{i}", data))
        if len(asked) == AT_ONCE:
            written(asked.popleft())
    for it in asked:
        written(it)


def written(asked):
    asked.wait_for_complete()
    if asked.get_return_value() < 0:
        sys.exit(f"an object isn't written: {asked.get_return_value()}")


def degraded(pool):
    lost = collections.Counter()
    for it in groups(pool):
        lost.update({shard: it["stat_sum"]["num_objects"] for shard, osd in enumerate(it["acting"]) if osd == NO_OSD})
    print(sum(lost.values()), ",".join(f"{shard}:{lost[shard]}" for shard in sorted(lost)))


def fullest(pool):
    held = collections.Counter()
    for it in groups(pool):
        held.update({osd: it["stat_sum"]["num_objects"] for osd in it["acting"]})
    print(held.most_common(1)[0][0])


def sent():
    text, total, decoder = sys.stdin.read().strip(), 0, json.JSONDecoder()
    while text:
        counters, end = decoder.raw_decode(text)
        text = text[end:].strip()
        total += sum(it["msgr_send_bytes"] for name, it in counters.items() if name.startswith("AsyncMessenger::Worker"))
    print(total)


def acting(pool, name):
    found = ceph("osd", "map", pool, name)
    print(found["pgid"], *found["acting"])


def racks(pool, group):
    rack_of, group = {}, int(group)
    nodes = {node["id"]: node for node in ceph("osd", "tree")["nodes"]}
    for node in nodes.values():
        for host in node.get("children", []) if node["type"] == "rack" else []:
            rack_of.update({osd: node["name"] for osd in nodes[host]["children"]})
    stats, whole = groups(pool), 0
    for it in stats:
        seen = [{rack_of.get(osd) for osd in it["acting"][at:at + group]} for at in (0, group, 2 * group)]
        whole += all(len(found) == 1 for found in seen) and len(set.union(*seen)) == 3
    print(f"{whole} of {len(stats)} placement groups have each group in one rack, and p0 and p1 in a third")
    sys.exit(0 if whole == len(stats) else 1)


def scrubbed(pool, since):
    stats = groups(pool)
    done = [it for it in stats if it["last_deep_scrub_stamp"][:19] >= since]
    print(f"{len(done)} of {len(stats)} placement groups scrubbed, {sum(it['stat_sum']['num_scrub_errors'] for it in done)} errors")
    sys.exit(0 if len(done) == len(stats) else 1)


def releases():
    found = ceph("versions")
    print("; ".join(f"{kind}: " + ", ".join(f"{count} of {name.split()[2]}" for name, count in sorted(found[kind].items()))
                    for kind in ("mon", "mgr", "osd")))


def main(name, *words):
    jobs = (make, write, compare, partial, four, fill, degraded, fullest, sent, acting, racks, scrubbed, releases)
    status = 0
    try:
        {it.__name__: it for it in jobs}[name](*words)
    except SystemExit as end:
        status = end.code if isinstance(end.code, int) else 1
        if isinstance(end.code, str):
            print(end.code, file=sys.stderr)
    sys.stdout.flush()
    sys.stderr.flush()
    # At once, since the interpreter was seen to end by a fault where threads of librados still ran.
    os._exit(status)


if __name__ == "__main__":
    main(*sys.argv[1:])
