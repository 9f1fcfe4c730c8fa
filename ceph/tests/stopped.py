#!/usr/bin/env -S python3 -S -E
"""Folders that stand for stopped OSDs, and a program that answers of them as ceph-objectstore-tool 16.2.15 does of an OSD. rebuild-ceph.py
makes the folders with it, and runs it in the place of that tool.

Called as osdmaptool it says a map that it wrote.

What it prints has the names and the forms that Debian's 16.2.15 printed of the OSDs of a cluster whose daemons were killed while they
were written to (`--op list`, `list-pgs`, `info`, `log`, `dump`), without the statistics of a group and what BlueStore says of an object.
It refuses what that one refused, in its words: an OSD that another tool has opened or that runs, a group and an object that aren't there,
bytes whose checksum is wrong, and for `get-bytes` a file that is there. `set-bytes` changes the bytes alone."""

import fcntl
import hashlib
import json
import os
import signal
import struct
import sys
import time

# What osdmaptool said of a pool's code, of much else. `azure_lrc` in the place of the plugin that the cluster had.
PROFILE = {"plugin": "azure_lrc", "code": "6-2-2", "layout": "plain", "k": "6", "m": "4", "crush-device-class": "",
           "crush-failure-domain": "osd", "crush-root": "default"}
HISTORY = {
    "epoch_created": 1, "epoch_pool_created": 1, "last_epoch_started": 0, "last_interval_started": 0, "last_epoch_clean": 1,
    "last_interval_clean": 1, "last_epoch_split": 0, "last_epoch_marked_full": 0, "same_up_since": 1, "same_interval_since": 1,
    "same_primary_since": 1, "last_scrub": "0'0", "last_scrub_stamp": "2026-11-26T18:52:13.016653+0000", "last_deep_scrub": "0'0",
    "last_deep_scrub_stamp": "2026-11-26T18:52:13.016653+0000", "last_clean_scrub_stamp": "2026-11-26T18:52:13.016653+0000",
    "prior_readable_until_ub": 0}
INFO = {
    "pgid": "", "last_update": "10'5", "last_complete": "10'5", "log_tail": "0'0", "last_user_version": 5, "last_backfill": "MAX",
    "purged_snaps": [], "history": HISTORY, "stats": {}, "empty": 0, "dne": 0, "incomplete": 0, "last_epoch_started": 10,
    "hit_set_history": {"current_last_update": "0'0", "history": []}}


def read(path):
    with open(path, "rb") as file:
        return file.read()


def write(path, data):
    with open(path, "wb") as file:
        file.write(data)


def text(data):
    """JSON as the tool prints it: bytes of a name that are no ASCII stay as they are."""
    return json.dumps(data, indent=4, ensure_ascii=False).encode("utf-8", "surrogateescape")


def line_of(group, oid, number, key="", snapid=-2, namespace="", generation=None):
    """What `--op list` prints of a shard, without the end of the line."""
    oid, key, namespace = (json.dumps(it, ensure_ascii=False) for it in (oid, key, namespace))
    made = "" if generation is None else f'"generation":{generation},'
    pool = group.partition(".")[0]
    return (f'["{group}",{{"oid":{oid},"key":{key},"snapid":{snapid},"hash":712074574,"max":0,"pool":{pool},"namespace":{namespace},{made}'
            f'"shard_id":{number},"max":0}}]')


class Stopped:
    """A stopped OSD in a folder: its groups, each with what is other than usual in its info, and its shards, each with its write. Bytes are
    in files."""

    def __init__(self, folder):
        self.folder = str(folder)
        self.state = {"groups": {}, "shards": {}, "profile": PROFILE}
        if self.has("osd.json"):
            self.state = json.loads(read(self.path("osd.json")))

    def path(self, name):
        return f"{self.folder}/{name}"

    def has(self, name):
        return os.path.exists(self.path(name))

    def mark(self, name):
        """Makes a file that changes what the tool does: `runs`, `aborts`, `ignores`, `slow`, `full`."""
        write(self.path(name), b"")

    def note(self, words):
        """Keeps what the tool was asked for, a line each."""
        with open(self.path("asked"), "a", encoding="utf-8", errors="surrogateescape") as file:
            file.write(" ".join(words[-2:] if words[0] != "--op" else words[:2]) + "\n")

    def asked(self, word):
        """How often the tool was asked for something."""
        return sum(word in line for line in read(self.path("asked")).decode(errors="replace").splitlines())

    def save(self):
        os.makedirs(self.folder, exist_ok=True)
        write(self.path("fsid"), hashlib.sha1(self.folder.encode()).hexdigest().encode())
        write(self.path("osd.json"), json.dumps(self.state).encode())

    def profile(self, **words):
        """Changes words of the pool's profile; None takes one away."""
        self.state["profile"] = {word: value for word, value in {**self.state["profile"], **words}.items() if value is not None}
        self.save()

    def map(self):
        pools = [{"pool": 1, "pool_name": "device_health_metrics", "type": 1, "size": 3, "erasure_code_profile": ""},
                 {"pool": 2, "pool_name": "coded", "type": 3, "size": 10, "min_size": 7, "erasure_code_profile": "words"}]
        default = {"k": "2", "m": "2", "plugin": "jerasure", "technique": "reed_sol_van"}
        return {"epoch": 38, "pools": pools, "erasure_code_profiles": {"default": default, "words": self.state["profile"]}}

    def group(self, name, started=10, last="10'5", complete=None, known=None, backfill="MAX", missing=()):
        """A group: the epochs of its own start and of the last that it knows of, its last write, and the objects that it hasn't got yet,
        each with the write that it needs, or None for one that is to be removed."""
        self.state["groups"][name] = {
            "started": started, "known": started if known is None else known, "last": last, "complete": complete or last,
            "backfill": backfill, "missing": list(missing)}
        self.save()

    def shard(self, group, oid, data, version="9'2", **more):
        """A shard, with its bytes; gives its line. It may be there already."""
        if group not in self.state["groups"]:
            self.group(group)
        line = line_of(group, oid, group.partition("s")[2], **more)
        self.state["shards"][line] = version
        self.save()
        write(self.file(line), data)
        return line

    def drop(self, line):
        del self.state["shards"][line]
        self.save()

    def file(self, line):
        return self.path(hashlib.sha1(line.encode("utf-8", "surrogateescape")).hexdigest())

    def bytes_of(self, line):
        return read(self.file(line))

    def info(self, name):
        it = self.state["groups"][name]
        return {**INFO, "pgid": name, "last_update": it["last"], "last_complete": it["complete"], "last_backfill": it["backfill"],
                "history": {**HISTORY, "last_epoch_started": it["known"]}, "last_epoch_started": it["started"]}

    def log(self, name):
        it = self.state["groups"][name]
        missing = [{"object": f"2:3691bfeb:::{oid}:head", "need": need or "1'1", "have": "0'0", "flags": "none" if need else "delete",
                    "clean_regions": "clean_offsets: [], clean_omap: 0, new_object: 1"} for oid, need in it["missing"]]
        return {"pg_log_t": {"head": it["last"], "tail": "0'0", "log": [], "dups": []},
                "pg_missing_t": {"missing": missing, "may_include_deletes": True}}

    def dump(self, line):
        shard = json.loads(line)[1]
        whole = {it: value for it, value in shard.items() if it not in ("shard_id", "generation")}
        return {"id": shard,
                "info": {"oid": whole, "version": self.state["shards"][line], "prior_version": "0'0", "last_reqid": "client.4439.0:1",
                         "user_version": 359, "size": 100000, "lost": 0, "flags": ["dirty", "data_digest"]},
                "stat": {"size": len(self.bytes_of(line)), "blksize": 4096, "blocks": 5, "nlink": 1}, "SnapSet": {"seq": 0, "clones": []}}


def say(data):
    sys.stdout.buffer.write(data + b"\n")


def group_named(osd, name):
    return name if name in osd.state["groups"] else sys.exit(f"PG '{name}' not found")


def get_bytes(osd, line, file):
    if os.path.exists(file):
        sys.exit("open: File exists")
    if os.path.exists(f"{osd.file(line)}.damaged"):
        sys.exit("get-bytes: (5) Input/output error")
    data = osd.bytes_of(line)
    write(file, data[:len(data) // 2] if osd.has("full") else data)    # 16.2.15 answers 0 where the disk takes a part of a write


def framed(version, oldest, data):
    return struct.pack("<BBI", version, oldest, len(data)) + data


def counted(data):
    return struct.pack("<I", len(data)) + data


def section(kind, data):
    """A section of an export; only one that has bytes has a mark after it."""
    head = framed(1, 1, struct.pack("<BBBBQ", 0xCE, 0xFF, kind, kind, len(data)))
    return head + data + (framed(1, 1, bytes.fromhex("ceffffec")) if data else b"")


def exported(line, version):
    """The section with which an object begins: its name, and its info with the write that it is of."""
    shard = json.loads(line)[1]
    key, oid, space = (counted(shard[it].encode("utf-8", "surrogateescape")) for it in ("key", "oid", "namespace"))
    name = framed(4, 3, key + oid + struct.pack("<qIB", shard["snapid"], shard["hash"], 0) + space + struct.pack("<q", shard["pool"]))
    epoch, number = map(int, version.split("'"))
    place = framed(6, 3, struct.pack("<qi", shard["pool"], -1) + 3 * counted(b""))
    info = framed(17, 8, name + place + counted(b"") + struct.pack("<QI", number, epoch) + b"what else it has")
    return framed(3, 1, name + struct.pack("<Qb", shard.get("generation", 2**64 - 1), shard["shard_id"]) + info)


def export(osd, name):
    """Says a group as `--op export` does: bytes come in sections of no more than a mebibyte, which here is a kibibyte. It ends at the first
    shard that can't be read."""
    signal.signal(signal.SIGPIPE, signal.SIG_DFL)
    out = sys.stdout.buffer
    if osd.has("recorded"):
        out.write(read(osd.path("recorded")))
        return
    out.write(bytes.fromhex("ceffceff") + struct.pack("<3I", 3 if osd.has("other") else 2, 18, 10))
    out.write(section(1, b"the group") + section(9, b"its log"))
    for line, version in osd.state["shards"].items():
        if json.loads(line)[0] != name or not json.loads(line)[1]["oid"]:
            continue
        print("Read", json.loads(line)[1]["oid"].encode(errors="replace"), file=sys.stderr)
        data = osd.bytes_of(line)
        out.write(section(3, exported(line, version)))
        if os.path.exists(f"{osd.file(line)}.damaged"):
            sys.exit("export_file: error reading: (5) Input/output error")
        for at in range(0, len(data), 1024):
            piece = data[at:at + 1024]
            out.write(section(5, framed(1, 1, struct.pack("<QQ", at, len(piece)) + counted(piece))))
            if osd.has("cut"):
                out.flush()
                os.kill(os.getpid(), signal.SIGKILL)
        out.write(section(6, b"its attributes") + section(7, b"its head") + section(4, b""))
    out.write(section(2, b""))
    print("Export successful", file=sys.stderr)


def set_bytes(osd, line, file):
    """Also says that it has begun, for a run that is to be killed meanwhile."""
    data = read(file)
    if osd.has("slow"):
        osd.mark("began")
        time.sleep(1)
    if not osd.has("ignores"):
        write(osd.file(line), data)
        if os.path.exists(f"{osd.file(line)}.damaged"):
            os.remove(f"{osd.file(line)}.damaged")


def abort():
    """Ends as a daemon does that finds its disk wrong: with many lines, of which the first and the last tell something."""
    print("FAILED ceph_assert(r == 0)", *(f" frame {number}" for number in range(200)), "last words", sep="\n", file=sys.stderr, flush=True)
    os.kill(os.getpid(), signal.SIGKILL)


def work(osd, words):
    if osd.has("aborts"):
        abort()
    if words == ["--op", "list-pgs"]:
        say("\n".join([*osd.state["groups"], "1.0"]).encode())
    elif words == ["--op", "list"]:
        for line in osd.state["shards"]:
            say(line.encode("utf-8", "surrogateescape"))
    elif words[:3] == ["--op", "info", "--pgid"]:
        say(text(osd.info(group_named(osd, words[3]))))
    elif words[:3] == ["--op", "log", "--pgid"]:
        say(text(osd.log(group_named(osd, words[3]))))
    elif words[:3] == ["--op", "get-osdmap", "--file"]:
        if osd.has("mapless"):
            sys.exit("Failed to get osdmap#38: (2) No such file or directory")
        write(words[3], json.dumps(osd.map()).encode())
        say(b"osdmap#38 exported.")
    elif words[:3] == ["--op", "export", "--pgid"] and words[4:] == ["--file", "-"]:
        export(osd, group_named(osd, words[3]))
    elif words[0] not in osd.state["shards"]:
        sys.exit(f"{words[1]}: (2) No such file or directory")
    elif words[1] == "dump":
        say(text(osd.dump(words[0])))
    else:
        {"get-bytes": get_bytes, "set-bytes": set_bytes}[words[1]](osd, words[0], words[2])


def main():
    words = [os.fsencode(word).decode("utf-8", "surrogateescape") for word in sys.argv[1:]]
    if os.path.basename(sys.argv[0]) == "osdmaptool":
        print(f"osdmaptool: osdmap file '{words[0]}'", file=sys.stderr)
        say(read(words[0]))
        return
    if words[:2] != ["--no-mon-config", "--data-path"]:
        sys.exit("it asks the monitors")
    osd = Stopped(words[2])
    if not osd.has("osd.json"):
        sys.exit(f"data-path: {osd.folder}: No such file or directory")
    with open(osd.path("fsid"), "a+") as lock:
        try:
            if osd.has("runs"):
                raise BlockingIOError
            fcntl.lockf(lock, fcntl.LOCK_EX | fcntl.LOCK_NB)
        except BlockingIOError:
            sys.exit("Mount failed with '(11) Resource temporarily unavailable'")
        osd.note(words[3:])
        work(osd, words[3:])


if __name__ == "__main__":
    main()
