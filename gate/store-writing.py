#!/usr/bin/env python3
"""Tries how rebuild-store writes and what it reads for it: rights and owners of what is replaced, links above the folder that is written
into, disks whose names begin alike, names and rights of unfinished files, fragments that are longer than what is digested at once, all that
may be damaged, what can't get its name, limits that are met, and help.

    store-writing.py [PROGRAM [TEST]]

What has to come is from rebuild-store(1) and rebuild-store(5)."""

import errno
import os
import pathlib
import re
import resource
import shutil
import stat
import subprocess
import sys

# No compiled copy of the modules is left beside them.
sys.dont_write_bytecode = True
from faults import Calls  # noqa: E402
from stores import (  # noqa: E402
    Program, Skipped, digest, hold, lay, lay_files, run, source, there, try_all, while_waiting, write_sums,
)

PLACES = ("x0", "x1", "x2", "y0", "y1", "y2", "px", "py", "p0", "p1")
LINKED = "can't be put in its place: its folder is a link, and links aren't followed"
# How many bytes are digested at once.
BLOCK = 262_144
ALONE = ["unshare", "--mount", "--propagation", "private", *(["--user", "--map-root-user"] if os.geteuid() else [])]


def wrong(data):
    return bytes(255 - byte for byte in data)


def rights(path):
    """Who owns a file, and what the others may do with it."""
    about = path.lstat()
    return about.st_uid, about.st_gid, stat.S_IMODE(about.st_mode)


def test_rights_of_what_is_replaced(place, choose):
    """What replaces a fragment gets the owner and the rights of the others of its stripe, and not those of the one that it replaces, which
    keeps them under its second name; and so does a description."""
    store, is_root = place / "store", os.geteuid() == 0
    own, others = ((4_321, 4_322), (1_234, 1_235)) if is_root else ((os.geteuid(), os.getegid()),) * 2
    run("encode", store, source(place, "a", choose.randbytes(3_000)), status=0)
    files = there(store)
    for name in (*(f"a.{one}" for one in PLACES), "a.file", "a.file.copy"):
        for path in store.glob("a.*"):
            os.chown(path, *others)
            path.chmod(0o640)
        damaged = store / name
        damaged.write_bytes(wrong(files[name]))
        os.chown(damaged, *own)
        damaged.chmod(0o606)
        run("repair", "--replace-damaged", store, status=0)
        kept = store / f"{name}.damaged"
        hold(damaged.read_bytes() == files[name] and kept.read_bytes() == wrong(files[name]), f"{name} isn't replaced")
        hold(rights(damaged) == (*others, 0o640), f"{name}: {rights(damaged)}")
        hold(rights(kept) == (*own, 0o606), f"{name}: what is kept has {rights(kept)}")
        kept.unlink()


def test_links_above_what_is_written(place, choose):
    """Nothing is written through a link that any of the folders is in which a fragment's name is, neither into a store nor into another
    folder."""
    words, data = ["--code", "6-2-2", "--names", "all/disk{shard}/in/{stripe}"], choose.randbytes(3_000)
    for number, link in enumerate(("all", "all/disk3", "all/disk3/in")):
        store, to, outside, file = (place / f"{name}{number}" for name in ("store", "to", "outside", "file"))
        file.write_bytes(data)
        run("encode", "--make-folders", *words, "--as", "a", store, file, status=0)
        right = (store / "all/disk3/in/a").read_bytes()
        shutil.copytree(store, to)
        for path in [path for path in to.rglob("*") if path.is_file()]:
            path.unlink()
        (to / link).rename(outside)
        (to / link).symlink_to(outside)
        (store / "all/disk3/in/a").unlink()
        # Whose folder is no link is put in its place beside the other.
        (store / "all/disk5/in/a").unlink()
        said = run("repair", *words, "--to", to, store, status=3)
        hold(f"all/disk3/in/a: {LINKED}\n" in said and not there(outside), f"{link}: {sorted(there(outside))}: {said}")
        hold((to / "all/disk5/in/a").exists() == (number > 0), f"{link}: {said}")
        run("repair", "--follow-links", *words, "--to", to, store, status=0)
        hold((to / "all/disk3/in/a").read_bytes() == right, f"{link}: the link isn't followed")
        if number:
            shutil.rmtree(outside)
            (store / link).rename(outside)
            (store / link).symlink_to(outside)
            before = there(outside)
            said = run("repair", *words, store, status=3)
            hold(f"all/disk3/in/a: {LINKED}\n" in said and there(outside) == before, f"{link}: {sorted(there(outside))}: {said}")
            hold((store / "all/disk5/in/a").exists(), f"{link}: {said}")


def test_name_to_which_the_link_of_another_leads(place, choose):
    """A fragment to whose own name the link of another one leads is made there if nothing is, and isn't replaced; by the link nothing is
    made or replaced."""
    store, words = place / "store", ["--follow-links", "--code", "6-2-2", "--reads", "all"]
    files = lay(store, choose)
    (store / "s.x1").unlink()
    (store / "s.x1").symlink_to("s.x0")
    (store / "s.x0").unlink()
    said = run("repair", *words, store, status=3)
    hold((store / "s.x0").read_bytes() == files["s.x0"] and (store / "s.x1").is_symlink(), said)
    hold("s.x1: can't be put in its place: another name leads there too\n" in said and "s.x0: can't" not in said, said)
    # The link is taken for the fragment that is elsewhere, which two digests show to be another one.
    write_sums(store, ("s.x1", digest(files["s.x1"])))
    (store / "s.x0").write_bytes(wrong(files["s.x0"]))
    before = there(store)
    said = run("repair", *words, "--replace-damaged", store, status=3)
    for name in ("s.x0", "s.x1"):
        hold(f"{name}: can't be put in its place: another name leads there too\n" in said, said)
    hold(there(store) == before and (store / "s.x1").is_symlink(), f"{sorted(there(store))}: {said}")


IN_MOUNTS = """
set -e
program=$1 file=$2 gone=$3
for number in $(seq 0 15); do
    mkdir -p store/disk$number
    mount -t tmpfs -o size=64k,mode=755 tmpfs store/disk$number
done
names='--code 12-2-2 --names disk{shard}/{stripe}'
"$program" encode $names store "$file"
cp store/disk$gone/file right
umount store/disk1
rm store/disk$gone/*
status=0
"$program" repair $names store > said 2>&1 || status=$?
echo $status > status
cp store/disk$gone/file made || :
ls store/disk1 > unmounted
"""


def test_disks_whose_names_begin_alike(place, choose):
    """Where disk1 isn't mounted, what was lost of each of the disks whose names begin so comes back there, and nothing is written to it."""
    if not shutil.which("unshare") or subprocess.run([*ALONE, "mount", "-t", "tmpfs", "tmpfs", place], capture_output=True).returncode:
        raise Skipped("nothing can be mounted")
    source(place, "file", choose.randbytes(3_000))
    for gone in (10, 15):
        folder = place / f"{gone}"
        folder.mkdir()
        words = [*ALONE, "sh", "-c", IN_MOUNTS, "sh", Program.path, place / "file", str(gone)]
        ended = subprocess.run(words, cwd=folder, capture_output=True, text=True)
        hold(ended.returncode == 0, f"{gone}: {ended.stdout}{ended.stderr}")
        said = (folder / "said").read_text()
        hold((folder / "status").read_text() == "3\n" and (folder / "unmounted").read_text() == "", said)
        hold((folder / "made").read_bytes() == (folder / "right").read_bytes(), said)
        hold(f"disk{gone}/file: " not in said and re.search("^disk1/file: can't be .*: No medium found$", said, re.M), said)


def test_file_in_the_place_of_a_disk(place, choose):
    """A file in the place of a disk's folder is said once, and counts as a disk whose fragments are lost, by each command; it stays."""
    store, out, data, coded = place / "store", place / "out", choose.randbytes(3_000), ["--code", "6-2-2"]
    line = f"rebuild-store: {store}/disk3: Not a directory: what should be in it counts as lost\n"
    lost, unplaced = ("is lost\n", "can't be put in its place: Not a directory\n")
    for words, status, more in (
        (["scrub", *coded, store], 1, [f"disk3/a: {lost}", f"disk3/a.file: {lost}"]),
        (["list", *coded, store], 0, ["degraded 3000 6-2-2 9/10 a\n"]),
        (["lost", *coded, store], 1, ["rebuild,a,y0,500,x0 x1 x2 y1 y2 px py p0 p1\n", f"disk3/a.file: {lost}"]),
        (["verify", store], 0, ["verified 1 file; not as described: 0\n", "disk3/a: left out: Not a directory\n"]),
        (["read", "-o", out, store, "a"], 0, ["disk3/a: left out: Not a directory\n"]),
        (["repair", *coded, store], 3, [f"disk3/a: {unplaced}", f"disk3/a.file: {unplaced}"]),
        (["remove", *coded, store, "a"], 0, ["removed 1 file; not removed: 0\n"]),
    ):
        if not store.exists():
            run("encode", "--make-folders", *coded, "--names", "disk{shard}/{stripe}", store, source(place, "a", data), status=0)
            shutil.rmtree(store / "disk3")
            (store / "disk3").write_bytes(b"file")
        said = run(words[0], "--names", "disk{shard}/{stripe}", *words[1:], status=status)
        hold(said.count(line) == (words[0] != "read") and all(said.count(it) == 1 for it in more), f"{words}: {said}")
        hold((store / "disk3").read_bytes() == b"file" and "can't be looked at" not in said, f"{words}: {said}")
    hold(out.read_bytes() == data and not [*store.glob("disk*/*")], f"{sorted(there(store))}")


def test_names_and_rights_of_unfinished_files(place, choose):
    """What a run writes has a name of the form of the manual page until it is whole, and nobody else may read a fragment meanwhile."""
    calls, store, digits = Calls(place, forks=True), place / "store", "[0-9a-f]{16}"
    host = re.sub("[^A-Za-z0-9._-]", "_", os.uname().nodename)
    for path, name in zip((store / "s.x1", store / "s.p0"), (rf"[0-9]+@{re.escape(host)}-{digits}",) * 2):
        for part, before in (((), ""), (("--part", "1/1"), "1-1-")):
            lay(store, choose, length=100)
            path.unlink()
            command = [Program.path, "repair", "--workers", "1", *part, store]
            number = calls.run(command).kinds.index("link") + 1
            path.unlink()
            seen = []

            def look():
                # A lock of a part is no unfinished file.
                seen.extend((it.name, rights(it)) for it in store.glob(".rebuild-store-*") if "-of-" not in it.name)

            status, said = while_waiting(calls, place, command, number, look)
            hold(status == 0 and len(seen) == 1, f"{part}: status {status}: {seen}: {said}")
            hold(re.fullmatch(rf"\.rebuild-store-{before}{name}", seen[0][0]), f"{part}: {seen}")
    # Before it has the rights of the others it has none.
    path.unlink()
    number, seen = calls.run(command).kinds.index("write") + 1, []
    path.unlink()
    status, said = while_waiting(calls, place, command, number, look)
    hold(status == 0 and [it[1][2] for it in seen] == [0o600], f"status {status}: {seen}: {said}")


def test_long_fragments_with_digests(place, choose):
    """Fragments as long as what is digested at once, and a byte longer, are held to their digests to the last byte, by themselves and
    beside others."""
    for number, length in enumerate((BLOCK, BLOCK + 1)):
        store = place / f"store{number}"
        files = lay(store, choose, length=length)
        lines = write_sums(store)
        run("scrub", store, status=0)
        for listed in (("s.x1",), ("s.x1", "s.y0"), tuple(files)):
            (store / "SHA256SUMS").write_text("".join(line for line in lines if line.split()[1] in listed))
            run("scrub", store, status=0)
            for at in (0, length - 1):
                data = bytearray(files["s.x1"])
                data[at] ^= 1
                (store / "s.x1").write_bytes(data)
                said = run("scrub", store, status=1)
                hold("s.x1: differs from the checksums\n" in said and said.count("\n") == 2, f"{length}, {listed}: {said}")
            (store / "s.x1").write_bytes(files["s.x1"])


def test_unread_fragments_of_several_lengths(place, choose):
    """Where no check says which length is right, fragments of it that can't be opened or read are said too, with the status of a device."""
    calls, store = Calls(place, forks=True), place / "store"
    files = lay(store, choose)
    for name in ("s.x0", "s.y1"):
        files[name] = choose.randbytes(600)
    files["s.p1"] = files["s.p1"][:300]
    lay_files(store, files)
    for words in (["scrub"], ["repair"], ["repair", "-n"]):
        command, tried = [Program.path, *words, "--code", "6-2-2", "--workers", "1", store], set()
        for number, kind in enumerate(calls.run(command).kinds, 1):
            if kind in ("open", "read") and len(tried) < 4:
                ended = calls.run(command, number, errno.EIO, rest="path")
                name = pathlib.Path(ended.paths[0]).name
                if name in ("s.x1", "s.y2") and (name, kind) not in tried:
                    tried.add((name, kind))
                    said = ended.out + ended.err
                    hold(ended.status == 3 and f"{name}: can't be read: Input/output error\n" in said, f"{words}: {ended.text()}")
                    hold("s: its fragments have different lengths" in said, f"{words}: {ended.text()}")
        hold(len(tried) == 4 and there(store) == files, f"{words}: {tried}")


def test_unread_fragments_beside_another_length(place, choose):
    """Where digests show which length is right, a fragment that can't be opened is said once, as that, whichever of the lengths it has."""
    calls, store = Calls(place, forks=True), place / "store"
    files = lay(store, choose)
    write_sums(store)
    (store / "s.p1").write_bytes(files["s.p1"][:300])
    before = there(store)
    for words in (["scrub"], ["repair", "--reads", "all"], ["repair", "-n", "--reads", "all"], ["repair", "-n"]):
        command, tried = [Program.path, *words, "--workers", "1", store], set()
        for number, kind in enumerate(calls.run(command).kinds, 1):
            if kind == "open" and len(tried) < 3:
                ended = calls.run(command, number, errno.EIO, rest="path")
                name = pathlib.Path(ended.paths[0]).name
                if name in ("s.x1", "s.y2", "s.p1") and name not in tried:
                    tried.add(name)
                    said = [line for line in (ended.out + ended.err).splitlines() if line.startswith(f"{name}: ")]
                    is_once = said == [f"{name}: can't be read: Input/output error"]
                    # A repair rebuilds what can't be read, and leaves the file that is there.
                    hold(ended.status == 3 and is_once, f"{words}, {name}: {ended.text()}")
        hold(len(tried) == 3 and there(store) == before, f"{words}: {tried}")


def test_all_that_may_be_damaged(place, choose):
    """Where so much is lost that one of a group alone shows that one of it is damaged, a line names each of the group."""
    for group, others in (("xp", "y"), ("yp", "x")):
        one, other = group[0], others[0]
        for damaged in (f"{one}0", f"{one}1", f"{one}2", f"p{one}"):
            store = place / damaged
            files = lay(store, choose)
            for name in (f"s.{other}1", "s.p0", "s.p1"):
                (store / name).unlink()
            (store / f"s.{damaged}").write_bytes(wrong(files[f"s.{damaged}"]))
            before = there(store)
            for words, status in ((["scrub"], 1), (["repair"], 1), (["repair", "--assume-one-damaged", "--replace-damaged"], 1)):
                said = run(*words, "--code", "6-2-2", store, status=status)
                named = re.search("^s: contradiction: one of these is damaged: (.*)$", said, re.M)
                hold(named and {f"{one}0", f"{one}1", f"{one}2", f"p{one}"} <= set(named[1].split()), f"{damaged}, {words}: {said}")
                # They come in the order of the places, each once.
                order = [name for name in PLACES if name in named[1].split()]
                hold(named[1].split() == order and there(store) == before, f"{damaged}, {words}: {said}")


def test_what_cannot_get_its_name_leaves_nothing(place, choose):
    """Where a new file can't be locked, written to the disk or given its name, or a name can't be given again, nothing of it is left under
    a temporary name, and each fragment is the old one or the new one."""
    calls, store, file, tried = Calls(place, forks=True), place / "store", source(place, "a", choose.randbytes(700)), set()
    run("encode", store, file, status=0)
    old = there(store)
    for words, lost in ((["repair"], ("a.x1", "a.file")), (["repair", "--replace-damaged"], ()), (["encode", "--replace"], ())):
        command = [Program.path, *words, *(["--workers", "1", store] if words[0] == "repair" else [store, file])]

        def anew():
            shutil.rmtree(store)
            lay_files(store, old)
            for name in lost:
                (store / name).unlink()
            if "--replace-damaged" in words:
                for name in ("a.y0", "a.file.copy"):
                    (store / name).write_bytes(wrong(old[name]))

        file.write_bytes(choose.randbytes(900 if words[0] == "encode" else 700))
        anew()
        for number, kind in enumerate(calls.run(command).kinds, 1):
            if kind in ("lock", "sync", "link", "rename"):
                anew()
                ended = calls.run(command, number, errno.EIO)
                tried.add((*words, kind))
                left = [path.name for path in store.glob(".rebuild-store-*")]
                hold(not left and ended.status in (0, 3), f"{words}, call {number}, {kind} of {ended.paths}: {left}: {ended.text()}")
        run(*command[1:], status=0)
    hold(len(tried) == 11, f"{tried} were tried")


def test_limits_that_are_met(place, choose):
    """What has just as many bytes as a file may get is written, and what has one more isn't."""
    store, out, hard = place / "store", place / "out", resource.getrlimit(resource.RLIMIT_FSIZE)[1]
    file = source(place, "a", choose.randbytes(6 * 4_321))
    run("encode", store, file, status=0)
    files = there(store)
    for most, status in ((4_321, 0), (4_320, 1)):

        def limit(most=most):
            resource.setrlimit(resource.RLIMIT_FSIZE, (most, hard))

        (store / "a.x1").unlink()
        said = run("repair", store, status=status, preexec_fn=limit)
        line = "a: would have 4321 bytes, and no file may get more than 4320 here: ulimit -f\n"
        hold((line in said) == bool(status) and there(store).get("a.x1") == (None if status else files["a.x1"]), said)
        run("repair", store, status=0)
    for most, status in ((6 * 4_321, 0), (6 * 4_321 - 1, 1)):

        def limit_of_file(most=most):
            resource.setrlimit(resource.RLIMIT_FSIZE, (most, hard))

        said = run("read", "-o", out, store, "a", status=status, preexec_fn=limit_of_file)
        line = f": would have {6 * 4_321} bytes, and no file may get more than {most} here: ulimit -f\n"
        hold((line in said) == bool(status) and out.exists() == (not status), said)
        out.unlink(missing_ok=True)


# The options of each command by the synopsis, with the words for their values; letters, defaults and choices.
OF_STORE = {"--code": "<CODE>", "--names": "<PATTERN>", "--layout": "<LAYOUT>", "--follow-links": ""}
OF_ALL = {**OF_STORE, "--stripes": "<FILE>", "--part": "<I/N>"}
OF_TESTS = {**OF_ALL, "--workers": "<N>", "--rate": "<BYTES>", "--sums": "<FILE>", "--report": "<FILE>", "--json": "",
            "--progress": "<FILE>", "--quiet": ""}
OF_READS = {"--names": "<PATTERN>", "--layout": "<LAYOUT>", "--follow-links": "", "--quiet": ""}
OF_COMMANDS = {
    "repair": ("<STORE>", {**OF_TESTS, "--dry-run": "", "--replace-damaged": "", "--assume-one-damaged": "", "--to": "<FOLDER>",
                           "--reads": "<WHICH>", "--trust-writers": "", "--allow-unmounted": ""}),
    "lost": ("<STORE>", {**OF_ALL, "--json": ""}),
    "scrub": ("<STORE>", OF_TESTS),
    "encode": ("<STORE> <FILE>...", {**OF_STORE, "--trust-writers": "", "--allow-unmounted": "", "--as": "<NAME>", "--make-folders": "",
                                     "--replace": "", "--quiet": ""}),
    "read": ("<STORE> <NAME>", {**OF_READS, "--output": "<FILE>"}),
    "list": ("<STORE>", {**OF_ALL, "--json": ""}),
    "verify": ("<STORE> [NAME]...", OF_READS),
    "remove": ("<STORE> <NAME>...", {**OF_STORE, "--trust-writers": "", "--quiet": ""}),
}
LETTERS = {"--workers": "-j", "--dry-run": "-n", "--quiet": "-q", "--output": "-o", "--help": "-h"}
DEFAULTS = {"--names": "{stripe}.{place}", "--layout": "plain", "--workers": "4", "--rate": "no limit", "--sums": "SHA256SUMS there"}
CHOICES = {"--code": "6-2-2, 12-2-2", "--layout": "plain, groups", "--reads": "all, checked, few"}
# What is said of some options in the manual page, too.
WORDS = {"--workers": "1 to 16", "--part": "3/10", "--rate": "500K, 50M or 1G", "--replace-damaged": "<name>.damaged",
         "--layout": "px py p0 p1", "--reads": "as few as show damage (the default)", "--code": "code", "--stripes": "name on each line"}
PLACES_OF_WIDE = "Places: x0 x1 x2 y0 y1 y2 px py p0 p1; 12-2-2 has x3 x4 x5 y3 y4 y5 too."
STATUSES = "Exit status: 0 done, 1 something is left, 2 usage, 3 I/O error, 4 memory."


def test_help(_place, _choose):
    """Help lists each command with what it says of itself, its arguments, and its options with their letters, values, defaults and
    choices."""
    whole = run("--help", status=0)
    hold(run("-h", status=0) == run("help", status=0) == whole, "help differs by how it is asked for")
    listed = dict(re.findall(r"^  (\w+) +(\S.*)$", whole.partition("\nCommands:\n")[2].partition("\n\n")[0], re.M))
    hold([*listed] == [*OF_COMMANDS, "help"] and f"\n{PLACES_OF_WIDE}\n{STATUSES}\n" in whole, whole)
    for command, (arguments, options) in OF_COMMANDS.items():
        said = run(command, "--help", status=0)
        hold(run(command, "-h", status=0) == run("help", command, status=0) == said, f"{command}: help differs by how it is asked for")
        hold(said.startswith(f"{listed[command]}\n\nUsage: rebuild-store {command} [OPTIONS] {arguments}\n\nArguments:\n  <STORE>"), said)
        found = re.findall(r"^ +(?:(-\w), )?(--[a-z-]+) ?(<\S+>)? +(\S.*)$", said, re.M)
        hold({name: value for _, name, value, _ in found} == {**options, "--help": ""}, f"{command}: {found}")
        for letter, name, _, text in found:
            default = "6-2-2" if (command, name) == ("encode", "--code") else DEFAULTS.get(name)
            hold(letter == LETTERS.get(name, ""), f"{command} {name}: {letter}")
            hold(re.findall(r"\[default: (.*?)\]", text) == ([default] if default else []), f"{command} {name}: {text}")
            choices = [CHOICES[name]] if name in CHOICES else []
            hold(re.findall(r"\[possible values: (.*?)\]", text) == choices, f"{command} {name}: {text}")
            hold(WORDS.get(name, "") in text.lower() or WORDS.get(name, "") in text, f"{command} {name}: {text}")


if __name__ == "__main__":
    try_all("store-writing", globals(), *sys.argv[1:3])
