#!/usr/bin/env python3
"""Tries runs of rebuild-store that share a store, on each file system that can be mounted here, and by tables of mounts: two at once, what
a killed one has left, locks and unfinished files that are another host's.

    store-sharing.py [PROGRAM [KIND..]]

The mounts are in memory, in files by a loop device, or of this host by sshfs, in a namespace of mounts that ends with this script; another
host is a namespace with another name. What can't be mounted here, or what root alone can try, is said to be skipped."""

import errno
import fcntl
import os
import pathlib
import random
import shutil
import signal
import socket
import subprocess
import sys
import tempfile
import time

# No compiled copy of the modules is left beside them.
sys.dont_write_bytecode = True
ROOT = pathlib.Path(__file__).resolve().parent.parent
sys.path.append(str(ROOT / "tools"))
from faults import Calls  # noqa: E402
from store import stripe  # noqa: E402

# What this script says to itself, once it is in a namespace of its own.
MOUNTED = "--mounted"
GIVEN = [word for word in sys.argv[1:] if word != MOUNTED]
PROGRAM = pathlib.Path(GIVEN[0] if GIVEN else ROOT / "crates/rebuild_store/out/rebuild_store").resolve()
# The tools that make a file system in a file, with how many MiB it has to have.
IN_FILES = {"ext4": 16, "xfs": 320, "btrfs": 128}
# On these other hosts may be, and nothing is known of their locks; ramfs stands for all of which nothing is known.
UNKNOWN = ("ramfs", "over", "sshfs")
SFTP = "/usr/lib/openssh/sftp-server"
PREFIX = ".rebuild-store-"
DIGITS = "0123456789abcdef"
HELD = "another run works in this store"
MAYBE = "may work in this store: if it has ended, remove this file"
STAYS = "which may still work: remove it if that has ended"
REMOVED = "was left by a run that was killed, and is removed"
SECONDS = 300
# A name may have dots.
OTHER_HOST = "beta.example"
passed, skipped = 0, []


class Skipped(Exception):
    """What can't be tried here."""


def check(holds, what):
    """Counts what holds, and ends with what doesn't."""
    global passed
    if not holds:
        raise SystemExit(f"store-sharing: {what}")
    passed += 1


def ended(*words, cwd=None):
    """Runs the program, and gives its status and all that it says."""
    command = [PROGRAM, *map(str, words)]
    done = subprocess.run(command, cwd=cwd, stdin=subprocess.DEVNULL, capture_output=True, text=True, timeout=SECONDS)
    return done.returncode, done.stdout + done.stderr


def run(*words, status):
    """Runs the program, holds its status to this one, and gives all that it says."""
    found, said = ended(*words)
    check(found == status, f"{' '.join(map(str, words))}: status {found}, not {status}: {said}")
    return said


def ended_process():
    """The number of a process that is gone."""
    gone = subprocess.Popen(["true"])
    gone.wait()
    return gone.pid


def there(folder):
    """The bytes of a folder's files by their names."""
    return {path.name: path.read_bytes() for path in folder.iterdir()}


def as_host(name):
    """What begins a command that runs on a host of this name."""
    return [] if name is None else ["unshare", "--uts", "sh", "-c", f'echo {name} > /proc/sys/kernel/hostname; exec "$@"', "sh"]


def system(*words):
    ended = subprocess.run(list(map(str, words)), capture_output=True, text=True)
    if ended.returncode != 0:
        raise Skipped(f"{words[0]}: {(ended.stderr or ended.stdout).strip()}")


def runs_there(folder):
    """The names that runs have given in a folder."""
    return sorted(path.name for path in folder.iterdir() if path.name.startswith(PREFIX))


def lay(folder, choose, names=("a", "b"), length=3_000):
    """A store of stripes that have lost a fragment each, and what all of it was."""
    shutil.rmtree(folder, ignore_errors=True)
    folder.mkdir()
    whole = {f"{name}.{place}": data for name in names for place, data in stripe("6-2-2", length, choose).items()}
    for name, data in whole.items():
        if not name.endswith(".x1"):
            (folder / name).write_bytes(data)
    return whole


def is_whole(folder, whole):
    found = there(folder)
    check(found == whole, f"{sorted(set(found) ^ set(whole)) or 'other bytes'}")


def begun(folder, *words, host=None, rate=200):
    """A run that has begun to write and goes on for long, since it may read few bytes a second."""
    process = subprocess.Popen(
        [*as_host(host), PROGRAM, "repair", folder, "--rate", str(rate), "--workers", "1", *words],
        stdin=subprocess.DEVNULL, stdout=subprocess.DEVNULL, stderr=subprocess.DEVNULL,
    )
    until = time.monotonic() + SECONDS
    while not any(name[-16:].strip(DIGITS) == "" for name in runs_there(folder)):
        if process.poll() is not None or time.monotonic() > until:
            raise SystemExit("store-sharing: a slow run wrote nothing")
        time.sleep(0.02)
    return process


def killed(process):
    process.send_signal(signal.SIGKILL)
    process.wait()


def try_two(kind, one, other, choose):
    """While a run works, no other of the same part does, by whichever mount; once it is killed, another goes on."""
    for words in ((), ("--part", "1/1")):
        whole = lay(one / "store", choose)
        process = begun(one / "store", *words)
        before = runs_there(one / "store")
        said = run("repair", other / "store", *words, status=1)
        check(MAYBE in said if kind == "sshfs" else HELD in said, f"two runs worked at once: {said}")
        for command in (("remove", other / "store", "a"), ("repair", other / "store", "--part", "1/2")):
            said = run(*command, status=1)
            check(HELD in said or MAYBE in said, f"{command[0]} worked beside a repair: {said}")
        check(process.poll() is None and runs_there(one / "store") == before, "what a run works on was taken away")
        killed(process)
        check(runs_there(one / "store") == before, "what was killed has removed something")
        said = run("repair", other / "store", *words, status=0)
        check(REMOVED in said, f"nothing was left by what was killed: {said}")
        is_whole(one / "store", whole)


def try_other_host(kind, one, other, choose):
    """The same with a run of another host: if nothing is known of locks it is asked to be removed by hand, else it is as before."""
    for words in ((), ("--part", "1/1")):
        whole = lay(one / "store", choose)
        process = begun(one / "store", *words, host=OTHER_HOST)
        said = run("repair", other / "store", *words, status=1)
        check(HELD in said or (kind in UNKNOWN and MAYBE in said), f"two hosts worked at once: {said}")
        killed(process)
        left = runs_there(one / "store")
        unfinished = [name for name in left if f"@{OTHER_HOST}-" in name]
        check(len(unfinished) == 1, f"no unfinished file names its host: {left}")
        if kind in UNKNOWN:
            said = run("repair", other / "store", *words, status=1)
            check(f"process {unfinished[0].split('@')[0].rpartition('-')[2]} of the host {OTHER_HOST} {MAYBE}" in said, said)
            check(runs_there(one / "store") == left, "what another host may work on was taken away")
            (one / "store" / f"{PREFIX}part-1-of-1").unlink()
            said = run("repair", other / "store", *words, status=0)
            check(STAYS in said and f"of the host {OTHER_HOST}" in said, said)
            check(runs_there(one / "store") == unfinished, f"{runs_there(one / 'store')}")
            (one / "store" / unfinished[0]).unlink()
        else:
            run("repair", other / "store", *words, status=0)
        is_whole(one / "store", whole)


def try_leftovers(kind, one, _other, choose):
    """Unfinished files: those of a process of this host that is gone go, and so do all on a file system of one host; others stay if nothing
    is known of locks."""
    host, gone = socket.gethostname(), ended_process()
    for part, tag in ((), ""), (("--part", "1/1"), "1-1-"):
        whole = lay(one / "store", choose, names=("a",))
        names = {
            f"{PREFIX}{tag}{gone}@{host}-{DIGITS}": False,
            f"{PREFIX}{tag}{os.getpid()}@{host}-{DIGITS}": True,
            f"{PREFIX}{tag}{gone}@beta-{DIGITS}": True,
            f"{PREFIX}{tag}{DIGITS}": True,
        }
        for name in names:
            (one / "store" / name).write_bytes(b"half")
        said = run("repair", one / "store", *part, status=0)
        kept = {name for name, stays in names.items() if stays and kind in UNKNOWN}
        check(set(runs_there(one / "store")) == kept, f"{runs_there(one / 'store')}, not {sorted(kept)}: {said}")
        check(said.count(STAYS) == len(kept) and said.count(REMOVED) == len(names) - len(kept), said)
        for name in kept:
            check((one / "store" / name).read_bytes() == b"half", "what may be another run's was written to")
            (one / "store" / name).unlink()
        is_whole(one / "store", whole)


# A text that no run writes into its lock.
NO_LOCK = "x" * 1_000
# The lock that is there, and the commands that it keeps out.
KEPT_OUT = {
    "part-1-of-1": [("repair",), ("repair", "--part", "1/1"), ("repair", "--part", "1/2"), ("remove", "a")],
    "part-1-of-3": [("repair",), ("repair", "--part", "1/2"), ("remove", "a")],
    "part-2-of-2": [("repair",), ("repair", "--part", "2/2"), ("repair", "--part", "1/3"), ("remove", "a")],
}


def try_locks(kind, one, _other, choose):
    """The file of a lock that nobody has locked here: another host's, one of a process here that works or is gone, or of nobody known; and
    a file that is no lock, which refuses the runs that need its name."""
    host, gone = socket.gethostname(), ended_process()
    texts = {f"{gone}@{host}\n": False, f"{os.getpid()}@{host}\n": True, f"{gone}@beta\n": True, "": True, "\0" * 14: True, NO_LOCK: True}
    for text, may_work in texts.items():
        for name, commands in KEPT_OUT.items():
            for verb, *words in commands:
                lay(one / "store", choose)
                lock = one / "store" / f"{PREFIX}{name}"
                lock.write_text(text)
                before = there(one / "store")
                status, said = ended(verb, one / "store", *words)
                what = f"{verb} {words}, {name}, {text[:99]!r}: {status}: {said}"
                part = words[1] if "--part" in words else "1/1" if kind in UNKNOWN else ""
                if text == NO_LOCK and name == f"part-{part.replace('/', '-of-')}":
                    check(status == 3 and "isn't one" in said and there(one / "store") == before, what)
                elif may_work and kind in UNKNOWN:
                    process, _, of = text.strip().partition("@")
                    run_of_it = f"process {process} of the host {of}" if of else "a run that isn't known"
                    check(status == 1 and f"{lock}: {run_of_it} {MAYBE}" in said and there(one / "store") == before, what)
                else:
                    check(MAYBE not in said and HELD not in said and (verb == "remove" or status == 0), what)


def try_unwritten_lock(one, choose, lock, left):
    """A run that can't write into its lock who it is ends, and takes the lock away: no other gets past one that names no run."""
    calls, command = Calls(one), [PROGRAM, "repair", one / "store", "--part", "1/1"]
    for text in ("", left):
        number = 0
        for _turn in range(2):
            lay(one / "store", choose)
            if text:
                lock.write_text(text)
            ended = calls.run(command, number, errno.ENOSPC)
            number = number or ended.kinds.index("write") + 1
        check(ended.status == 3 and ended.paths[0] == str(lock) and ended.kind == "write", f"{ended.paths}: {ended.text()}")
        check(not lock.exists(), f"after a lock couldn't be written, in which {text!r} was: {runs_there(one / 'store')}")
        run(*command[1:], status=0)
    # Killed there, a run leaves the lock to the next one: the line of an ended run, which has no more digits than its own, is written over.
    lay(one / "store", choose)
    lock.write_text(left)
    killed = calls.run(command, number, "kill")
    check(killed.kind == "write" and killed.paths[0] == str(lock) and lock.read_text() == left, f"{killed.text()}: {lock.read_text()!r}")
    check(MAYBE not in run(*command[1:], status=0), "a killed run keeps the next one out")


def try_own_locks(kind, one, _other, choose):
    """A run that takes over what an ended one has locked says there who it is, if nothing is known of locks, and at its end it takes away
    no lock but its own."""
    store, lock, host = one / "store", one / "store" / f"{PREFIX}part-1-of-1", socket.gethostname()
    lay(store, choose)
    # Of more digits than this run has: proc(5) says that no process gets this number, and what is written over is longer.
    lock.write_text(f"{2 ** 22}@{host}\n")
    process = begun(store, "--part", "1/1")
    check(lock.read_text() == f"{process.pid if kind in UNKNOWN else 2 ** 22}@{host}\n", f"the lock says {lock.read_text()!r}")
    killed(process)
    if kind in UNKNOWN:
        try_unwritten_lock(one, choose, lock, f"{ended_process()}@{host}\n")
    # By a link from another file system, and by a path from the folder that is worked in.
    with tempfile.TemporaryDirectory() as outside:
        link = pathlib.Path(outside) / "link"
        link.symlink_to(store)
        for path, folder in ((link, None), ("store", one), ("../store", store)):
            lay(store, choose)
            lock.write_text("4711@beta\n")
            found, said = ended("repair", path, "--part", "1/1", cwd=folder)
            check((found, MAYBE in said) == ((1, True) if kind in UNKNOWN else (0, False)), f"{path}: {found} {said}")
    whole = lay(store, choose)
    process = begun(store, "--part", "1/1", rate=5_000)
    lock.unlink()
    lock.write_text("4711@beta\n")
    check(process.wait(SECONDS) == 0 and lock.read_text() == "4711@beta\n", "another run's lock was taken away")
    lock.unlink()
    is_whole(store, whole)


def try_encode(kind, one, other, choose):
    """A run that encodes has the lock of all of the store while it works, and takes it away."""
    source = one / "source"
    source.write_bytes(choose.randbytes(5_000))
    shutil.rmtree(one / "files", ignore_errors=True)
    run("encode", one / "files", source, status=0)
    check(not runs_there(one / "files"), f"a lock is left: {runs_there(one / 'files')}")
    for part in ("1-of-1", "2-of-3"):
        lock = one / "files" / f"{PREFIX}part-{part}"
        lock.write_text("4711@beta\n")
        run("verify", other / "files", status=0)
        said = run("encode", other / "files", source, "--replace", status=1 if kind in UNKNOWN else 0)
        check((MAYBE in said) == (kind in UNKNOWN), f"{part}: {said}")
        lock.unlink(missing_ok=True)
    run("encode", other / "files", source, "--replace", status=0)
    run("remove", other / "files", "source", status=0)
    check(not runs_there(one / "files"), f"a lock is left: {runs_there(one / 'files')}")


def try_counters(kind, one, _other, choose):
    """A run that is refused since one of another host may work there leaves the counters of one that goes on, and says its status in place
    of those of one that has ended."""
    if kind not in UNKNOWN:
        return
    store, file = one / "store", one / "counters"
    lay(store, choose)
    (store / f"{PREFIX}part-1-of-1").write_text("4711@beta\n")
    labels = f'{{command="repair",store="{store}"}}'
    going = f"rebuild_store_units{labels} 2\nrebuild_store_units_done{labels} 1\n"
    for end in ("", f"rebuild_store_status{labels} 0\nrebuild_store_end_seconds{labels} 1\n"):
        file.write_text(going + end)
        check(MAYBE in run("repair", store, "--progress", file, status=1), "a run isn't refused beside another host's")
        found = file.read_text()
        check(f"rebuild_store_status{labels} 1\n" in found if end else found == going, f"counters of a refused run: {found!r}")


TRIES = [try_two, try_other_host, try_leftovers, try_locks, try_own_locks, try_encode, try_counters]
# A table of mounts whose first one is on itself, as that of a host which was started from a file system in memory; and the kinds of those
# that are on it at one place, of which the last is seen, with whether nothing is known of locks there.
TABLE = "1 1 0:2 / / rw - rootfs rootfs rw\n"
MOUNT = "{} 1 0:{} / {} rw - {} one:/store rw,vers=4.2\n"
KINDS = {("nfs4",): False, ("ext4",): False, ("fuse.sshfs",): True, ("fuse.sshfs", "ext4"): False, ("ext4", "fuse.sshfs"): True}
# Runs a command that sees this table, and nothing else of what the system says of processes.
WITH_TABLE = ["unshare", "--mount", "sh", "-c",
              'mount -t tmpfs tmpfs /proc && mkdir /proc/self && printf %s "$0" > /proc/self/mountinfo || exit 77; exec "$@"']


def by_table(store, kinds):
    """A repair that sees mounts of these kinds at its store: its status and what it says."""
    table = TABLE + "".join(MOUNT.format(number, number, store, kind) for number, kind in enumerate(kinds, 21))
    done = subprocess.run([*WITH_TABLE, table, PROGRAM, "repair", store], stdin=subprocess.DEVNULL, capture_output=True, text=True,
                          timeout=SECONDS)
    if done.returncode == 77:
        raise Skipped(f"nothing can be mounted over /proc: {done.stderr.strip()}")
    return done.returncode, done.stdout + done.stderr


def try_table(place):
    """Whom locks keep out is said by the table of mounts, in which a mount is found that is on the first one: what another host has left
    keeps a run out where nothing is known, and the lock of all of the store is a file's wherever other hosts may be."""
    store, choose = place / "by-table", random.Random(1)
    for kinds, is_unknown in KINDS.items():
        whole = lay(store, choose)
        lock = store / f"{PREFIX}part-1-of-1"
        lock.write_text("4711@beta\n")
        status, said = by_table(store, kinds)
        check((status, MAYBE in said) == ((1, True) if is_unknown else (0, False)), f"by {kinds}: {status}: {said}")
        if not is_unknown:
            is_whole(store, whole)
        lock.write_text("")
        with open(lock, "r+b") as held:
            fcntl.flock(held, fcntl.LOCK_EX)
            status, said = by_table(store, kinds)
        check((status, HELD in said) == ((0, False) if kinds[-1] == "ext4" else (1, True)), f"by {kinds}: {status}: {said}")
        lock.unlink()


def in_memory(kind, place):
    """A file system in memory, by one mount."""
    folder = place / kind
    folder.mkdir()
    system("mount", "-t", kind, kind, folder)
    return folder, folder


def over_hidden(_kind, place):
    """A file system in memory of which nothing is known, over the mount of a local one, which is hidden by it."""
    folder = place / "over"
    hidden = folder / "hidden"
    hidden.mkdir(parents=True)
    system("mount", "-t", "tmpfs", "tmpfs", hidden)
    system("mount", "-t", "ramfs", "ramfs", folder)
    hidden.mkdir()
    return hidden, hidden


def in_file(kind, place):
    """A file system in a file, by one mount."""
    if not shutil.which(f"mkfs.{kind}"):
        raise Skipped(f"no mkfs.{kind} here")
    image, folder = place / f"{kind}.image", place / kind
    with open(image, "wb") as file:
        file.truncate(IN_FILES[kind] << 20)
    system(f"mkfs.{kind}", "-q", image)
    folder.mkdir()
    system("mount", "-o", "loop", image, folder)
    return folder, folder


def by_sshfs(_kind, place):
    """A folder of this host by two mounts, as two hosts have it."""
    if not shutil.which("sshfs") or not os.path.exists("/dev/fuse"):
        raise Skipped("no sshfs here")
    hosts = place / "hosts"
    system(ROOT / "tools/ssh-hosts.sh", "start", hosts)
    behind = place / "behind"
    behind.mkdir()
    mounts = []
    for name in ("host-a", "host-b"):
        folder = place / name
        folder.mkdir()
        how = ["-F", hosts / "config", "-o", f"sftp_server={SFTP}", "-o", "attr_timeout=0,entry_timeout=0,dir_cache=no"]
        system("sshfs", *how, f"{name}:{behind}", folder)
        mounts.append(folder)
    return tuple(mounts)


def by_nfs(_kind, place):
    """A folder of this host by NFS, as two hosts have it: the second one is a namespace of networks with a name of its own."""
    if "nfs4" not in pathlib.Path("/proc/filesystems").read_text() or not shutil.which("exportfs"):
        raise Skipped("this kernel has no NFS, or no exportfs is here")
    behind = place / "exported"
    behind.mkdir()
    system("mount", "-t", "tmpfs", "tmpfs", behind)
    system("mount", "-t", "nfsd", "nfsd", "/proc/fs/nfsd")
    system("rpc.mountd", "-N", "3")
    system("rpc.nfsd", "-N", "3", "4")
    system("exportfs", "-o", "rw,no_root_squash,insecure,fsid=0", f"*:{behind}")
    for words in ("netns add beta", "link add to-beta type veth peer name eth0 netns beta", "addr add 10.99.0.1/24 dev to-beta",
                  "link set to-beta up", "link set lo up", "-n beta addr add 10.99.0.2/24 dev eth0", "-n beta link set eth0 up"):
        system("ip", *words.split())
    mounts = [place / "nfs-here", place / "nfs-beta"]
    for folder in mounts:
        folder.mkdir()
    # Attributes aren't kept for a while by these clients, so that what one writes the other sees at once.
    how = ["mount", "-t", "nfs4", "-o", "vers=4.2,noac", "10.99.0.1:/"]
    system(*how, mounts[0])
    system("nsenter", "--net=/run/netns/beta", *as_host("beta"), *how, mounts[1])
    return tuple(mounts)


MOUNTS = {"tmpfs": in_memory, "ext4": in_file, "xfs": in_file, "btrfs": in_file, "ramfs": in_memory, "over": over_hidden,
          "sshfs": by_sshfs, "nfs": by_nfs}


def try_all(place):
    for kind, mounted in MOUNTS.items():
        if kind not in (GIVEN[1:] or MOUNTS):
            continue
        choose = random.Random(1)
        before = passed
        try:
            one, other = mounted(kind, place)
            for it in TRIES:
                if it is try_other_host and os.geteuid():
                    raise Skipped("only root can be another host")
                it(kind, one, other, choose)
        except Skipped as why:
            skipped.append(f"{kind}: {why}")
        print(f"{kind}: {passed - before} checks")


def in_own_mounts():
    """This script again, in a namespace of mounts that ends with it; where there can be none, nothing is tried."""
    alone = ["unshare", "--mount", "--propagation", "private", *(["--user", "--map-root-user"] if os.geteuid() else [])]
    if subprocess.run([*alone, "true"], capture_output=True).returncode:
        print("store-sharing: skipped, since nothing can be mounted here")
        sys.exit(0)
    os.execvp(alone[0], [*alone, sys.executable, __file__, *GIVEN, MOUNTED])


def main():
    if MOUNTED not in sys.argv:
        in_own_mounts()
    with tempfile.TemporaryDirectory() as place:
        place = pathlib.Path(place)
        try:
            try_table(place)
        except Skipped as why:
            skipped.append(f"a table of mounts: {why}")
        try:
            try_all(place)
        finally:
            mounts = [line.split()[4] for line in pathlib.Path("/proc/self/mountinfo").read_text().splitlines()]
            for folder in reversed([it for it in mounts if it.startswith(f"{place}/")]):
                subprocess.run(["umount", "--lazy", folder], check=False)
            if (place / "hosts").exists():
                subprocess.run([ROOT / "tools/ssh-hosts.sh", "stop", place / "hosts"], check=False)
    for it in skipped:
        print(f"store-sharing: skipped: {it}")
    print(f"store-sharing: {passed} checks passed")


main()
