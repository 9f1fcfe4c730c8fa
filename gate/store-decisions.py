#!/usr/bin/env python3
"""Tries what rebuild-store decides in states of a store that are rare: names nearly like those of runs, tables of mounts, lengths that no
check shows, links to nothing, a system that has no memory, leftovers each of which stays in turn.

    store-decisions.py [PROGRAM [TEST]]

What has to come is from rebuild-store(1) and rebuild-store(5)."""

import errno
import os
import pathlib
import shutil
import subprocess
import sys

# No compiled copy of the modules is left beside them.
sys.dont_write_bytecode = True
import refusals  # noqa: E402
import stores  # noqa: E402
from faults import Calls  # noqa: E402
from store import stripe  # noqa: E402
from stores import Program, Skipped, digest, hold, lay, run, there  # noqa: E402

DISKS = ["--code", "6-2-2", "--names", "disk{shard}/{stripe}"]
# In the order in which lines name them.
PLACES = ["x0", "x1", "x2", "y0", "y1", "y2", "px", "py", "p0", "p1", "x3", "x4", "x5", "y3", "y4", "y5"]
PREFIX, DIGITS = ".rebuild-store-", "0123456789abcdef"
REMOVED = "was left by a run that was killed, and is removed"
# What may follow the prefix in the names of runs' files, and what is like it, which nobody may take for theirs.
OF_RUNS = [DIGITS, f"7@host-{DIGITS}", f"1-2-7@a.b-c_D-{DIGITS}", "part-1-of-2"]
OF_NOBODY = [f"x-{DIGITS}", f"part-{DIGITS}", f"1x2-{DIGITS}", f"-{DIGITS}", f"0-2-7@host-{DIGITS}", f"1-02-7@host-{DIGITS}",
             f"1-7@host-{DIGITS}", f"x-7@host-{DIGITS}", f"7@-{DIGITS}", f"@host-{DIGITS}", f"7x@host-{DIGITS}", f"7@ho+st-{DIGITS}",
             DIGITS[1:], f"{DIGITS}0", DIGITS.upper(), "part-1", "part-1-2", "part-1-of-", "part--of-2", "part-1-of2",
             "part-1-of-2-3", "part-01-of-2", "part-1-of-0", "part-of-2", "parts-1-of-2"]


def test_names_that_are_like_those_of_runs(place, choose):
    """What runs that were killed have left is removed and named, and what has another name stays and isn't, whoever writes there."""
    store, source = place / "store", place / "file"
    files = lay(store, choose)
    source.write_bytes(b"file")
    for name in OF_NOBODY:
        files[PREFIX + name] = b""
        (store / (PREFIX + name)).write_bytes(b"")
    for words in (["repair", store], ["repair", "--part", "1/2", store], ["repair", "--part", "2/2", store], ["encode", store, source],
                  ["remove", store, "file"]):
        said = run(*words, status=0)
        hold(PREFIX not in said, f"{words}: {said}")
        hold({name: data for name, data in there(store).items() if not name.startswith(("file.", "SHA"))} == files, f"{words}: {said}")
    (store / "s.x0").unlink()
    for name in OF_RUNS:
        (store / (PREFIX + name)).write_bytes(b"")
    said = run("repair", store, status=0)
    found = {name: data for name, data in there(store).items() if name != "SHA256SUMS"}
    hold(found == files, f"{set(found) ^ set(files)}: {said}")
    hold(said.count(REMOVED) == len(OF_RUNS) and all(f"{store / (PREFIX + name)}: {REMOVED}\n" in said for name in OF_RUNS), said)


# A table of mounts of which the first is on itself, another one that is mounted on it, and which options of NFS have locks at one host.
TABLE, MOUNT = "1 1 0:2 / / rw - {kind} root rw\n", "21 1 0:30 / {point} rw,relatime shared:1 - {kind} one:/store rw,{options}\n"
AT_ONE_HOST = ("nolock", "local_lock=all", "local_lock=flock")
AT_ALL_HOSTS = ("local_lock=none", "local_lock=posix", "lock", "hard")
WITH_TABLE = ["sh", "-c", 'mount -t tmpfs tmpfs /proc && mkdir /proc/self && printf %s "$0" > /proc/self/mountinfo || exit 77; exec "$@"']


def tables(store):
    """Tables of mounts, each with whether nothing is known of the locks at the store by it."""
    yield "", True
    yield "no line of a table\n", True
    yield MOUNT.format(point=f"{store}-beside", kind="ext4", options="x"), True
    for kind, is_unknown in (("rootfs", True), ("ext4", False)):
        yield TABLE.format(kind=kind), is_unknown
        yield TABLE.format(kind=kind) + MOUNT.format(point=f"{store}-beside", kind="nfs4", options="local_lock=none"), is_unknown
        for of, options, has_local in (("nfs", AT_ONE_HOST, True), ("nfs4", AT_ALL_HOSTS, False), ("cifs", ("local_lock=none",), True)):
            for option in options:
                yield TABLE.format(kind=kind) + MOUNT.format(point=store, kind=of, options=f"vers=4.2,{option},addr=10.0.0.1"), has_local


def test_tables_of_mounts(place, choose):
    """A run of another host keeps a run out where nothing is known of locks: where the table of mounts has no mount for the store, and by
    NFS where its options have locks taken at one host."""
    alone = ["unshare", "--mount", *(["--user", "--map-root-user"] if os.geteuid() else [])]
    store = place / "store"
    lock, whole = store / f"{PREFIX}part-1-of-1", lay(store, choose)
    if not shutil.which("unshare") or subprocess.run([*alone, *WITH_TABLE, "", "true"], capture_output=True).returncode:
        raise Skipped("nothing can be mounted over /proc")
    for table, is_unknown in tables(store):
        lock.write_text("4711@beta\n")
        (store / "s.y1").unlink(missing_ok=True)
        said = run("repair", store, before=[*alone, *WITH_TABLE, table], status=int(is_unknown))
        line = f"{lock}: process 4711 of the host beta may work in this store: if it has ended, remove this file\n"
        hold((line in said) == is_unknown, f"{table!r}: {said}")
        hold(is_unknown or there(store) == whole, f"{table!r}: {said}")


def test_lengths_that_no_check_shows(place, choose):
    """Where the files of a stripe have several lengths, and those of the greatest one contradict each other, none is taken for right."""
    store = place / "store"
    files = lay(store, choose)
    for name in ("s.x0", "s.y1"):
        files[name] = choose.randbytes(600)
    files["s.p1"] = files["s.p1"][:300]
    stores.lay_files(store, files)
    line = "s: its fragments have different lengths, and no check says which is right: "
    wanted = [[{"x0", "x1", "x2", "y0", "y1", "y2", "px", "py", "p0", "with", "600", "bytes"}, {"p1", "with", "300", "bytes"}]]
    for words in (["scrub"], ["repair"], ["repair", "--replace-damaged"], ["repair", "--reads", "few", "--assume-one-damaged"]):
        said = run(*words, store, "--code", "6-2-2", status=1)
        named = [it.removeprefix(line).split(", ") for it in said.splitlines() if it.startswith(line)]
        hold([[set(it.split()) for it in lengths] for lengths in named] == wanted and "contradiction" not in said, f"{words}: {said}")
        hold(there(store) == files, f"{words} changed the store: {said}")


def test_scrub_of_links_to_nothing(place, choose):
    """A fragment that is a link to nothing is said to be that if links are followed, in each form, and nothing else is."""
    store, report = place / "store", place / "report"
    lay(store, choose)
    (store / "s.y0").rename(place / "elsewhere")
    (store / "s.y0").symlink_to(place / "elsewhere")
    for name, to in (("s.x0", place / "nowhere"), ("s.p1", "s.p1"[::-1])):
        (store / name).unlink()
        (store / name).symlink_to(to)
    (store / "s.y2").unlink()
    (store / "s.y2").mkdir()
    wanted = {"x0": "is a link to nothing", "p1": "is a link to nothing", "y2": "is no regular file"}
    said = run("scrub", "--follow-links", "--report", report, store, status=1)
    hold(sorted(said.splitlines()[:3]) == sorted(f"s.{name}: {what}" for name, what in wanted.items()), said)
    hold(sorted(report.read_text().splitlines()[1:]) == sorted(f"s,{name},left,{what}" for name, what in wanted.items()), said)
    said = run("scrub", store, status=1)
    hold([name for name in ("x0", "p1", "y0", "y2") if f"s.{name}: is no regular file\n" not in said] == [], said)


def test_system_that_has_no_memory(place, choose):
    """A command that only looks ends as out of memory where the system has no memory for one of its calls, whichever that is, and takes
    nothing for lost."""
    calls, store, tried = Calls(place, forks=True), place / "store", set()
    files = lay(store, choose, pattern="disk{shard}/{stripe}")
    (store / "SHA256SUMS").write_text("".join(f"{digest(data)}  {name}\n" for name, data in sorted(files.items())))
    before = there(store)
    for words in (["scrub", *DISKS, "--workers", "1"], ["lost", *DISKS], ["list", *DISKS]):
        command = [Program.path, *words, store]
        for number, kind in enumerate(calls.run(command).kinds, 1):
            if kind in ("open", "list", "read"):
                ended = calls.run(command, number, errno.ENOMEM)
                if ended.paths[0].startswith(str(store)):
                    tried.add((words[0], kind, ended.paths[0]))
                    hold(ended.status == 4 and "rebuild-store: out of memory\n" in ended.err, f"{words[0]}, {ended.paths}: {ended.text()}")
                    hold("lost" not in ended.err and "disk" not in ended.out, f"{words[0]}, {ended.paths}: {ended.text()}")
    wanted = {(words, "list", str(path)) for words in ("scrub", "lost", "list") for path in (store, store / "disk0", store / "disk9")}
    wanted |= {("scrub", kind, str(store / path)) for kind in ("open", "read") for path in ("disk3/s", "SHA256SUMS")}
    hold(wanted <= tried, f"not tried: {wanted - tried}")
    hold(there(store) == before, "the store was changed")


def test_digests_of_fragments_like_descriptions(place, choose):
    """A fragment that is named as another stripe's description has to be there if the digests name it, also where this other stripe has to
    be there too."""
    store, names, pattern = place / "store", place / "names", "{stripe}/{place}.file"
    lay(store, choose, pattern=pattern)
    sums, words = store / "SHA256SUMS", ["--code", "6-2-2", "--names", pattern, "--stripes", names, store]
    for place_name in ("x0", "p1"):
        sums.write_text(f"{digest(b'')}  z/{place_name}.file\n")
        for stripes in ([], [place_name], ["s", place_name, "y0"]):
            names.write_text("".join(f"{name}\n" for name in stripes))
            gone = {"z", *stripes} - {"s"}
            for command in (["scrub"], ["scrub", "--sums", sums], ["repair"], ["lost"]):
                said = run(*command, *words, status=1)
                hold(all(f"{name}: no fragment can be read\n" in said for name in gone), f"{command}, {stripes}: {said}")
                hold(said.count("no fragment can be read") == len(gone), f"{command}, {stripes}: {said}")
                hold("names no file of the store" not in said, f"{command}, {stripes}: {said}")


def part_of(stripe):
    return int(digest(stripe.encode())[:16], 16) % 2 + 1


def test_reports_that_cannot_be_read(place, choose):
    """A report at another name of a fragment is refused, whichever part this is of, and also where its bytes can't be read."""
    calls, store, report, tried = Calls(place, forks=True), place / "store", place / "report", 0
    names = ["a", "b", "c", "d", "e"]
    files = lay(store, choose, names=names)
    os.link(store / "a.x1", report)
    for option in ("--report", "--progress"):
        for part in (1, 2):
            command = [Program.path, "repair", "--part", f"{part}/2", option, report, store]
            for number, kind in enumerate(calls.run(command).kinds, 1):
                ended = calls.run(command, number, errno.EIO) if kind in ("read", "open") else None
                if ended and ended.paths == (str(report),):
                    tried += part != part_of("a")
                    hold(ended.status == 2 and "is a file of the store, and no place for a report\n" in ended.err, ended.text())
                    hold(report.samefile(store / "a.x1") and there(store) == files, ended.text())
    hold(tried >= 4, f"{tried} calls were tried")


def test_leftovers_each_of_which_stays_in_turn(place, choose):
    """A leftover that can't be opened or removed gives the status of a device, whichever of them it is, and the others go."""
    calls, store, folders = Calls(place, forks=True), place / "store", [place / name for name in ("store", "linked", "other")]
    files = lay(store, choose)
    for folder, name in zip(folders[1:], ("s.x1", "s.y1")):
        folder.mkdir()
        (store / name).rename(folder / name)
        (store / name).symlink_to(folder / name)
    paths = [str(folder / f"{PREFIX}{DIGITS[number:]}{DIGITS[:number]}") for folder in folders for number in range(3)]

    def anew():
        for path in map(pathlib.Path, paths):
            path.unlink(missing_ok=True)
            path.write_bytes(b"left")
        return [Program.path, "repair", "--follow-links", "--workers", "1", store]

    tried, whole = [], calls.run(anew())
    hold(whole.status == 0 and whole.err.count(REMOVED) == len(paths) and not any(map(os.path.exists, paths)), whole.text())
    for number, kind in enumerate(whole.kinds, 1):
        ended = calls.run(anew(), number, errno.EIO) if kind in ("unlink", "open") else None
        left = [path for path in paths if os.path.exists(path)]
        if ended and ended.paths[0] in paths and (left or kind == "unlink"):
            tried.append((kind, *ended.paths))
            hold(ended.status == 3 and left == list(ended.paths), f"{left}: {ended.text()}")
            hold(f"{left[0]}: is left over, and can't be removed: Input/output error\n" in ended.err, ended.text())
            hold(ended.err.count(REMOVED) == len(paths) - 1, ended.text())
    hold(sorted(tried) == sorted((kind, path) for kind in ("unlink", "open") for path in paths), f"tried: {tried}")
    hold({name: (store / name).read_bytes() for name in files} == files, "the store was changed")


def test_leftovers_where_descriptions_lead(place, choose):
    """What a run has left where the link of a description alone leads is removed if links are followed, by the run that makes one there."""
    store, elsewhere, source = place / "store", place / "elsewhere", place / "note"
    source.write_bytes(choose.randbytes(900))
    run("encode", store, source, status=0)
    line, left = (store / "note.file").read_bytes(), elsewhere / (PREFIX + DIGITS)
    elsewhere.mkdir()
    (store / "note.file").unlink()
    (store / "note.file").symlink_to(elsewhere / "is")
    for is_there in (True, False):
        (elsewhere / "is").write_bytes(line) if is_there else (elsewhere / "is").unlink()
        left.write_bytes(b"left")
        said = run("scrub", store, status=1)
        hold("note.file: is no regular file\n" in said and left.exists(), said)
        said = run("repair", "--follow-links", store, status=0)
        hold(f"{left}: {REMOVED}\n" in said and not left.exists(), said)
        hold((elsewhere / "is").read_bytes() == line and (store / "note.file").is_symlink(), said)


def test_replaced_descriptions_without_memory(place, choose):
    """A run that is refused memory while it replaces a description leaves no unfinished file, and at each name what was there or what is
    right."""
    library, store, source = refusals.Library(place, forks=True), place / "store", place / "note"
    source.write_bytes(choose.randbytes(900))
    run("encode", store, source, status=0)
    right, wrong, ends = there(store), b"damaged\n", set()

    def anew():
        (store / "note.file.damaged").unlink(missing_ok=True)
        (store / "note.file").write_bytes(wrong)
        return [str(Program.path), "repair", "--replace-damaged", "--workers", "1", str(store)]

    many = library.run(anew()).allocations
    hold(there(store) == {**right, "note.file.damaged": wrong}, f"{sorted(there(store))}")
    # Descriptions come last.
    for number in range(max(1, many - 120), many + 1):
        ran = library.run(anew(), refusal=refusals.Refusal(allocation=number))
        found = there(store)
        kept = {"note.file.damaged": wrong} if "note.file.damaged" in found else {}
        is_new = found.get("note.file") == right["note.file"]
        hold(found == {**right, **kept, "note.file": right["note.file"] if is_new else wrong}, f"{number}: {sorted(found)}: {ran.text()}")
        hold(kept or not is_new, f"{number}: what was replaced isn't kept: {ran.text()}")
        ends.add((ran.status, is_new))
    hold({(4, False), (4, True)} <= ends, f"runs ended with {ends}")


NOT_ONCE = "the pattern of names needs {stripe} once, and {place} or {shard} once"
NOT_BELOW = "the pattern of names is no name below the store's folder"
ADJOINING = "the pattern of names needs something that is no digit between {stripe} and {shard}"
NO_PATTERNS = {
    NOT_ONCE: ["", "{stripe}", "{place}", "{stripe}.{place}.{stripe}", "{stripe}.{place}.{place}", "{stripe}.{shard}.{place}",
               "{{stripe}.{place}", "{}{stripe}.{place}", "{stripe}{.{place}", "{stripe}.}{place}", "{stripe}.{place}}",
               "{stripe}.{place}{", "{place}{disk}{stripe}", "{stripe}/{place}.{x}", "{x}/{stripe}.{place}", "{place}/{shard}/{stripe}",
               "{Stripe}.{place}"],
    NOT_BELOW: ["/{stripe}.{place}", "{stripe}.{place}/", "a//{stripe}.{place}", "{stripe}//{place}", "{place}/{stripe}//a",
                "../{stripe}.{place}", "a/../{stripe}.{place}", "{stripe}..{place}", "{place}/{stripe}/..", "/{shard}/{stripe}",
                "{shard}/{stripe}/"],
    ADJOINING: ["{stripe}{shard}", "{shard}{stripe}", "{stripe}.0{shard}", "{shard}9/{stripe}", "a{stripe}1{shard}", "{shard}0.{stripe}b"],
}
PATTERNS = ["{stripe}{place}", "{place}{stripe}", "{stripe}0{place}", "{stripe}0.{shard}", "{shard}.0{stripe}", "a.{stripe}/.b/{shard}.c",
            "1{shard}-{stripe}"]


def test_patterns(place, choose):
    """What is no pattern is refused, with the line that says why; and what is one names a store."""
    store = place / "store"
    lay(store, choose, names=["a"], length=40)
    for line, patterns in NO_PATTERNS.items():
        for pattern in patterns:
            for command in ("lost", "encode"):
                said = run(command, "--code", "6-2-2", "--names", pattern, store, *([store] if command == "encode" else []), status=2)
                hold(f"error: {line}\n" in said, f"{pattern}: {said}")
    for number, pattern in enumerate(PATTERNS):
        store = place / f"by-{number}"
        files = lay(store, choose, names=["a"], length=40, pattern=pattern)
        said = run("scrub", "--code", "6-2-2", "--names", pattern, store, status=0)
        hold("scrubbed 1 stripe: 0 damaged, 0 lost" in said, f"{pattern}: {said}")
        gone = next(iter(files))
        (store / gone).unlink()
        run("repair", "--code", "6-2-2", "--names", pattern, store, status=0)
        hold(there(store) == files, f"{pattern}: {gone} isn't back")


def test_what_stays_where_nothing_is_replaced(place, choose):
    """What a run has made, and then neither puts in its place nor can remove, gives the status of a device."""
    calls, store, source = Calls(place, forks=True), place / "store", place / "note"
    source.write_bytes(choose.randbytes(900))
    run("encode", store, source, status=0)
    for name in ("note.file", "note.x1"):
        (store / name).write_bytes(b"damaged\n")
        (store / f"{name}.damaged").write_bytes(b"kept")
    before, command, tried = there(store), [Program.path, "repair", "--replace-damaged", "--workers", "1", store], 0
    whole = calls.run(command)
    lines = ["note.file: has come meanwhile, or one that was replaced is kept beside it: it stays as it is\n",
             "note.x1: isn't replaced: a fragment that was replaced before is kept beside it\n"]
    hold(whole.status == 1 and all(line in whole.err for line in lines) and there(store) == before, whole.text())
    for number, kind in enumerate(whole.kinds, 1):
        ended = calls.run(command, number, errno.EIO) if kind == "unlink" else None
        if ended and pathlib.Path(ended.paths[0]).name.startswith(PREFIX):
            tried += 1
            left = set(there(store)) - set(before)
            hold(left == {pathlib.Path(ended.paths[0]).name}, f"left: {left}: {ended.text()}")
            hold(ended.status == 3 and "Input/output error" in ended.err, ended.text())
            (store / left.pop()).unlink()
            hold(there(store) == before, f"the store was changed: {ended.text()}")
    hold(tried == 2, f"{tried} files that were made were tried")


def test_longest_descriptions(place, choose):
    """A description may have 93 bytes, and a wrong file of so many is replaced; a longer one stays."""
    store, source, names = place / "store", place / "note", ["--code", "6-2-2", "--names", "disk{shard}/{stripe}"]
    store.mkdir()
    (store / "x.file").write_text(f"{2**64 - 1} {digest(b'')} 12-2-2\n")
    said = run("list", store, status=0)
    hold(said.splitlines()[0] == f"lost {2**64 - 1} 12-2-2 0/16 x", said)
    source.write_bytes(choose.randbytes(900))
    run("encode", "--make-folders", *names[2:], place / "disks", source, status=0)
    whole = there(place / "disks")
    wrong = {"disk1/note.file": b"x" * 93, "disk2/note.file": b"x" * 94}
    stores.lay_files(place / "disks", wrong)
    said = run("repair", "--replace-damaged", *names, place / "disks", status=1)
    wanted = whole | {"disk1/note.file.damaged": wrong["disk1/note.file"], "disk2/note.file": wrong["disk2/note.file"]}
    hold(there(place / "disks") == wanted, said)
    hold("disk2/note.file: isn't a line with a length, a digest and a code\n" in said and "disk1/note.file: " not in said, said)


def test_sums_of_one_kind(place, choose):
    """Digests that name descriptions alone, or fragments alone, name files of the store, and others don't."""
    store, source, sums = place / "store", place / "note", place / "sums"
    source.write_bytes(choose.randbytes(900))
    run("encode", store, source, status=0)
    lines = (store / "SHA256SUMS").read_text().splitlines(keepends=True)
    described = [line for line in lines if ".file" in line]
    others = [f"{digest(b'')}  {name}\n" for name in ("store/note.x0", "SHA256SUMS", "note", "a/note.file", "note.x0/x0", ".x0")]
    for given, is_of_store in ((described, True), (described[:1], True), (lines[:1], True), (others, False), (others + lines[3:4], True)):
        sums.write_text("".join(given))
        for command in (["scrub"], ["scrub", "--code", "6-2-2"], ["repair"]):
            said = run(*command, "--sums", sums, store, status=0)
            hold((f"{sums}: names no file of the store\n" in said) != is_of_store, f"{given}: {said}")


def test_parts_find_what_all_find(place, choose):
    """The code of a store is what most descriptions say, also those of other parts, so that a part says of its stripes what all would."""
    store, described = place / "store", [name for name in "abcdefgh" if part_of(name) == 1][:2]
    other = next(name for name in "stuvwxyz" if part_of(name) == 2)
    for name in described:
        (place / name).write_bytes(choose.randbytes(90))
        run("encode", "--code", "12-2-2", store, place / name, status=0)
    # Its digests would say the code too.
    (store / "SHA256SUMS").unlink()
    lay(store, choose, names=[other], length=40)
    for command in (["scrub"], ["repair", "--dry-run"], ["lost"], ["list"]):
        each = [run(*command, *words, store, status=0 if command == ["list"] else 1).splitlines()
                for words in ([], ["--part", "2/2"])]
        of_other = [[line for line in lines if line.startswith((f"{other}.", f"{other}:", f"rebuild-store: {other}"))
                     or f",{other}," in line or line.endswith(f" {other}")] for lines in each]
        hold(of_other[0] == of_other[1] and (of_other[0] or "--dry-run" in command), f"{command}: {of_other}")
        hold("12-2-2" in "".join(each[1]) or command[0] in ("scrub", "lost"), f"{command}: {each[1]}")


def test_reads_of_stripes_with_another_length(place, choose):
    """Of a stripe of which a file has another length all are read, which shows damage that few don't; of one that has lost a file few."""
    store = place / "store"
    files = lay(store, choose)
    (store / "SHA256SUMS").write_text("".join(f"{digest(data)}  {name}\n" for name, data in files.items()))
    (store / "s.y1").write_bytes(files["s.y1"][::-1])
    damaged = there(store)
    (store / "s.x0").write_bytes(b"short")
    for words in ([], ["--dry-run"]):
        said = run("repair", *words, store, status=1)
        hold("s.x0: has another length than the other fragments of the stripe\n" in said, said)
        hold("s.y1: differs from the checksums\n" in said, said)
        hold(there(store) == damaged | {"s.x0": b"short"}, said)
    (store / "s.x0").unlink()
    said = run("repair", store, status=0)
    hold("s.y1" not in said and there(store) == damaged, said)


def test_stripe_named_as_descriptions_of_another(place, choose):
    """A stripe whose fragments have the names of another one's descriptions is listed, also where a description of that one is there."""
    store = place / "store"
    files = lay(store, choose, names=["a", "a.file"], pattern="disk{shard}/{stripe}")
    data = b"".join(files[f"disk{number}/a"] for number in range(6))
    (store / "a.file").write_text(f"{len(data)} {digest(data)} 6-2-2\n")
    said = run("list", *DISKS, store, status=0)
    hold("whole - 6-2-2 10/10 a.file\n" in said and "3600 6-2-2 10/10 a\n" in said, said)
    (store / "disk4/a.file").unlink()
    hold("degraded - 6-2-2 9/10 a.file\n" in run("list", *DISKS, store, status=0), "a fragment isn't missed")


def test_folder_above_disks(place, choose):
    """A folder above those of all disks that isn't there, or is none, is said once, as is one disk's that isn't there."""
    store, source, names = place / "store", place / "note", ["--code", "6-2-2", "--names", "cabinets/e/{shard}/{stripe}"]
    source.write_bytes(choose.randbytes(900))
    run("encode", "--make-folders", *names[2:], store, source, status=0)
    above, lost = store / "cabinets/e", "what should be in it counts as lost"
    shutil.rmtree(above / "3")
    states = [(above / "3", lambda: None, "No such file or directory", []),
              (above, lambda: shutil.rmtree(above), "No such file or directory", []),
              (above, lambda: above.write_bytes(b""), "Not a directory", []),
              (above, lambda: (above.unlink(), above.symlink_to("e")), "Too many levels of symbolic links", ["--follow-links"]),
              (above, lambda: (above.unlink(), (place / "empty").mkdir(), above.symlink_to(place / "empty")),
               "is a link, and isn't followed without --follow-links", [])]
    for folder, change, why, words in states:
        change()
        for command in (["scrub"], ["lost"], ["list"], ["repair", "--dry-run"]):
            said = run(*command, *names, *words, store, status=3 if words else 0 if command == ["list"] else 1)
            lines = [line for line in said.splitlines() if line.startswith(f"rebuild-store: {store}/")]
            end = "" if why.startswith("is a link") else f": {lost}"
            hold(lines == [f"rebuild-store: {folder}: {why}{end}"], f"{command}: {said}")


def test_last_place_of_the_wider_code(place, choose):
    """What is to be said of a stripe is said of its last place too."""
    wide = {f"s.{name}": data for name, data in stripe("12-2-2", 600, choose).items()}
    turned, short = wide["s.y5"][::-1], {name: data[:300] for name, data in wide.items()}
    lengths = "s: its fragments have different lengths, and no check says which is right: "
    sums = {"SHA256SUMS": f"{digest(wide['s.y5'])}  s.y5\n".encode()}
    without = {name: data for name, data in wide.items() if name != "s.y5"}
    states = {
        "whole": (wide, []),
        "lost": (without, ["s.y5: is lost"]),
        "damaged": (wide | {"s.y5": turned}, ["s.y5: is damaged: only without it the others belong together"]),
        "lengths": (wide | {"s.x0": wide["s.x1"], "s.y1": wide["s.y2"], "s.y5": b"short"},
                    [f"{lengths}{' '.join(PLACES[:-1])} with 600 bytes, y5 with 5 bytes"]),
        "digest": (short | {"s.y5": wide["s.y5"]} | sums,
                   [f"s.{name}: has another length than the other fragments of the stripe" for name in PLACES[:-1]]),
        "alone": (wide | {"t.y5": b"alone"}, ["rebuild-store: t.y5: is named as a fragment, and of no stripe"]),
    }
    for name, (files, lines) in states.items():
        stores.lay_files(place / name, files)
        said = run("scrub", "--code", "12-2-2", place / name, status=0 if name in ("whole", "alone") else 1)
        hold(sorted(line for line in said.splitlines() if not line.startswith("scrubbed ")) == sorted(lines), said)
        if name not in ("lengths", "digest"):
            said = run("list", "--code", "12-2-2", place / name, status=0)
            hold(f" 12-2-2 {16 - (name == 'lost')}/16 s\n" in said, said)
    said = run("repair", place / "lost", status=0)
    hold(there(place / "lost") == wide, said)
    lay(place / "narrow", choose, names=("s", "t"))
    stores.lay_files(place / "narrow", {"s.y5": b"of another code"})
    said = run("scrub", "--code", "6-2-2", place / "narrow", status=0)
    hold("rebuild-store: s.y5: is named as a fragment, and of no stripe\n" in said and "2 stripes: 0 damaged, 0 lost" in said, said)


def test_descriptions_of_another_part(place, choose):
    """Descriptions of another part's files are no stripe of this one, which by their names they would be of."""
    store, names = place / "store", [name for name in map(str, range(40)) if part_of(name) == 1 and part_of(f"{name}.file") == 2][:2]
    for name in names:
        (place / name).write_bytes(choose.randbytes(90))
        run("encode", "--make-folders", *DISKS[2:], store, place / name, status=0)
    for part, many in (("1/2", 2), ("2/2", 0)):
        said = run("list", *DISKS, "--part", part, store, status=0)
        lines = [f"whole 90 6-2-2 10/10 {name}" for name in names[:many]]
        hold(sorted(said.splitlines()) == sorted([*lines, f"{many} files; not whole: 0"]), said)
        for command in ("scrub", "lost", "repair"):
            said = run(command, *DISKS, "--part", part, store, status=0)
            hold(".file" not in said and (f"{many} stripes" in said or command == "repair"), said)


def test_what_a_part_looks_at(place, choose):
    """A part's run looks at its own fragments alone, also where a report of another run is replaced."""
    calls, store, report = Calls(place, forks=True), place / "store", place / "report"
    names = [name for name in "abcdefghijklmnopqrstuvwxyz" if part_of(name) == 2][:8]
    lay(store, choose, names=[*names, next(name for name in "abcdefgh" if part_of(name) == 1)], length=40)
    looks = []
    for _ in range(2):
        ended = calls.run([Program.path, "scrub", "--part", "1/2", "--report", report, "--workers", "1", store])
        hold(ended.status == 0 and report.exists(), ended.text())
        looks.append(ended.kinds.count("look"))
    hold(0 < looks[1] < looks[0] + 10 * len(names) // 2, f"looks without and with a report that is there: {looks}")


if __name__ == "__main__":
    stores.try_all("store-decisions", globals(), *sys.argv[1:3])
