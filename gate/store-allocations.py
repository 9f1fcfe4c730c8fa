#!/usr/bin/env python3
"""Refuses commands of rebuild-store their memory, each allocation in a run of its own, over small stores of one kind each: of lengths and
bytes that contradict each other, links, disks that are gone, names that are alike, files that are in the way.

    store-allocations.py [PROGRAM [TEST]]

A run that is refused memory ends as out of memory, or does and says all that it does otherwise: it takes nothing for absent, and leaves
nothing unsaid but notes."""

import collections
import errno
import os
import re
import shutil
import sys

# No compiled copy of the modules is left beside them.
sys.dont_write_bytecode = True
import refusals  # noqa: E402
import runs  # noqa: E402
import stores  # noqa: E402
from faults import RECORD_SIZE, Calls  # noqa: E402
from stores import Program, digest, hold, lay, run, there  # noqa: E402

NO_MEMORY, LINE = 4, "rebuild-store: out of memory\n"
ALONE, CODE = ["--workers", "1"], ["--code", "6-2-2"]
LOOP = "can't be looked at: Too many levels of symbolic links"
LEFT = ".rebuild-store-0123456789abcdef"
# The names of unfinished files are at random, and which fragment a fault meets depends on the calls before.
VARYING = re.compile(r"/\.rebuild-store-[^:]*-[0-9a-f]{16}|^s\.\w\w(?=: changed|: can't be read)", re.M)


def is_note(line):
    """Whether a line is one that may be left unsaid."""
    return line.startswith("rebuild-store: ") or line.endswith(": is named as a fragment, and of no stripe")


def ended(ran, report):
    """How a run ended, what it said but for notes, and what its report says, which no other run may have left; and its notes."""
    lines = VARYING.sub("", (ran.out + ran.err).decode()).splitlines()
    written = report.read_bytes() if report.exists() else b""
    report.unlink(missing_ok=True)
    return (ran.status, [line for line in lines if not is_note(line)], written), set(filter(is_note, lines))


class Both(runs.Preloaded):
    """refuse.c beside fail-call.c, by which the call of a number fails in each run."""

    def __init__(self, file, calls, number, error):
        super().__init__(file, "REFUSE_COUNTS", refusals.COUNTS.size, forks=True)
        self.calls, self.recorded_calls = calls, file.with_name("calls")
        self.failing = {"FAIL_NUMBER": str(number), "FAIL_HOW": str(error), "FAIL_REST": ""}
        self.recorded_calls.write_bytes(bytes(RECORD_SIZE))

    def recorded(self):
        path, record, environment = super().recorded()
        both = {"LD_PRELOAD": f"{self.file} {self.calls.file}", "FAIL_RECORD": str(self.recorded_calls)}
        return path, record, environment | both

    def run(self, words, settings, seconds, given=None, output=None):
        with open(self.recorded_calls, "r+b") as record:
            record.write(bytes(RECORD_SIZE))
        return super().run(words, settings | self.failing, seconds, given, output)


def beside_fault(place, command, kind, nth, error):
    """refuse.c beside a fault: the nth call of a kind fails, counted from 0, or from the end where that is negative."""
    calls, library = Calls(place, forks=True), refusals.Library(place)
    numbers = [number for number, other in enumerate(calls.run(command).kinds, 1) if other == kind]
    library.library = Both(library.file, calls, numbers[nth], error)
    return library


def refuse_each(place, words, store, anew=lambda: None, judge=lambda is_out, what: None, last=None, library=None, after=()):
    """Runs a command over a store whole, and then for each of its last allocations with that one refused, or for all but those that it
    makes over no store; gives what it says when whole, and how often each note was left unsaid. Each run is held to the end of the whole
    one or to that of a lack of memory; `judge` looks at what it left."""
    # Beside a fault the call that fails may be the one that says it.
    line, library = "" if library else LINE, library or refusals.Library(place, forks=True)
    report, unsaid = place / "report", collections.Counter()
    command = [str(it) for it in (Program.path, *words)]
    first = library.run([*command, str(place / "no/store"), *after]).allocations
    command += [str(store), *after]
    anew()
    whole = library.run(command)
    hold(whole.status != NO_MEMORY and whole.allocations > first, f"{words}: {whole.text()}")
    (wanted, notes), refused = ended(whole, report), 0
    numbers = range(whole.allocations + 1 - last if last else first - 40, whole.allocations + 1)
    for number in numbers:
        anew()
        ran = library.run(command, refusal=refusals.Refusal(allocation=number))
        what = f"{words}: allocation {number} of {whole.allocations}: {ran.text()}"
        is_out, (end, said) = ran.status == NO_MEMORY and line in ran.err.decode(), ended(ran, report)
        refused += is_out
        unsaid.update([] if is_out else notes - said)
        hold(is_out or end == wanted, f"{what} {end} {wanted}")
        judge(is_out, what)
    hold(refused > len(numbers) // 3, f"{words}: of {len(numbers)} runs {refused} were out of memory")
    return whole.out.decode() + whole.err.decode(), unsaid


def hold_lines(said, lines):
    missing = [line for line in lines if f"{line}\n" not in said]
    hold(not missing, f"not said: {missing}: {said}")


def test_report_that_leads_to_a_lost_fragment(place, choose):
    """A report, or counters, whose path leads to the name of a lost fragment are refused, and nothing is written there."""
    store, link = place / "store", place / "link"
    lay(store, choose, length=40)
    (store / "s.x1").unlink()
    link.symlink_to(place / "further")
    (place / "further").symlink_to(store / "s.x1")

    def judge(_is_out, what):
        hold(not (store / "s.x1").exists(), f"written into the store: {what}")

    for command, option in (("scrub", "--report"), ("repair", "--progress"), ("repair", "--report")):
        said, _ = refuse_each(place, [command, *ALONE, option, link], store, judge=judge, last=120)
        hold(said == f"rebuild-store: {link}: is a file of the store, and no place for a report\n", said)


def test_what_contradicts(place, choose):
    """Lengths that contradict each other, what can't be looked at, and what isn't determined, are said whole."""
    store, names = place / "store", place / "names"
    files = lay(store, choose, names=["lengths", "few"], length=40)
    stores.lay_files(store, {f"lengths.{name}": files[f"lengths.{name}"][:20] for name in ("x1", "x2")})
    for name in ("lengths.y0", "lengths.p0", "few.x0", "few.x1", "few.y0", "few.y1", "few.p1"):
        (store / name).unlink()
    links = ["lengths.y0", "few.y1", *(f"none.{name}" for name in ("x0", "x1", "y0", "px", "p1"))]
    for name in links:
        (store / name).symlink_to(name)
    (store / "few.p1").symlink_to("nothing")
    (store / "few.x1").mkdir()
    (store / "alone.x0").write_bytes(b"alone")
    (store / "few.file").write_bytes(b"bad\n")
    names.write_text("gone\n")
    before = there(store)
    both = [*(f"{name}: {LOOP}" for name in links), *(f"{name}: no fragment can be read" for name in ("none", "gone")),
            "few.file: isn't a line with a length, a digest and a code",
            "lengths: its fragments have different lengths, and no check says which is right: "
            "x0 y1 y2 px py p1 with 40 bytes, x1 x2 with 20 bytes"]
    wanted = {"scrub": [*both, "few.x1: is no regular file", "few.p1: is a link to nothing", "few.x0: is lost"],
              "repair": [*both, "few.x0: can't be rebuilt: the fragments that survive don't determine it"]}
    for words in (["scrub", "--report", place / "report"], ["repair", "--dry-run"]):
        said, _ = refuse_each(place, [*words, *ALONE, *CODE, "--follow-links", "--stripes", names], store)
        hold_lines(said, wanted[words[0]])
        hold(there(store) == before, f"{words} changed the store")


def test_what_disks_lack(place, choose):
    """What disks lack, and what is wrong on the others, is said whole."""
    # The lengths are such that a text which grows is full before a slash and before a backslash.
    store, name, shelf = place / "store", "abc\\", "cabinets/e"
    pattern = ["--names", shelf + "/{shard}/{stripe}"]
    (place / name).write_bytes(choose.randbytes(60))
    run("encode", "--make-folders", *pattern, store, place / name, status=0)
    disk = {number: store / shelf / str(number) for number in range(10)}
    for number in (3, 5):
        shutil.rmtree(disk[number])
    disk[3].write_bytes(b"no folder")
    (disk[1] / f"{name}.file").write_bytes(b"damaged\n")
    (disk[2] / f"{name}.file").unlink()
    (disk[4] / name).write_bytes(b"damaged!!!")
    (disk[6] / name).unlink()
    (disk[6] / name).mkdir()
    (store / LEFT).write_bytes(b"")
    before = there(store)
    said, unsaid = refuse_each(place, ["scrub", "--report", place / "report", *ALONE, *CODE, *pattern], store)
    missing = [unsaid[f"rebuild-store: {disk[number]}: {why}: what should be in it counts as lost"]
               for number, why in ((3, "Not a directory"), (5, "No such file or directory"))]
    # The shorter line takes no more allocations.
    hold(missing[0] <= missing[1], f"unsaid: {unsaid}")
    hold_lines(said, [f"{shelf}/3/{name}: is lost", f"{shelf}/5/{name}: is lost", f"{shelf}/6/{name}: is no regular file",
                      f"{shelf}/4/{name}: differs from the checksums", f"{shelf}/2/{name}.file: is lost",
                      f"{shelf}/1/{name}.file: isn't a line with a length, a digest and a code"])
    hold(there(store) == before, "the store was changed")


def test_stripe_that_alone_should_be_there(place, _choose):
    """The one stripe that should be in a folder is named though nothing is there."""
    store, names = place / "store", place / "names"
    store.mkdir()
    names.write_text("gone\n")
    hold_lines(refuse_each(place, ["list", *CODE, "--stripes", names], store)[0], ["lost - 6-2-2 0/10 gone"])


def test_sums_of_escaped_names(place, choose):
    """The digests of files whose names are escaped are written whole."""
    store, source, whole = place / "store", place / "\\", {}
    source.write_bytes(choose.randbytes(60))

    def anew():
        if store.exists() and not whole:
            whole.update(there(store))
        shutil.rmtree(store, ignore_errors=True)
        store.mkdir()

    def judge(is_out, what):
        hold(is_out or there(store) == whole, what)

    refuse_each(place, ["encode"], store, anew, judge, last=200, after=[str(source)])
    lines = sorted(f"{digest(data)}  {name}" for name, data in whole.items() if name != "SHA256SUMS")
    hold(sorted(line.removeprefix("\\").replace("\\\\", "\\") for line in whole["SHA256SUMS"].decode().splitlines()) == lines, f"{whole}")


def changed(files, *names):
    """The files with a bit of these turned."""
    return files | {name: bytes([files[name][0] ^ 1]) + files[name][1:] for name in names}


def without(files, *names):
    return {name: data for name, data in files.items() if name not in names}


def repaired(place, words, files, lines, last=90, fault=None):
    """Repairs a store of these files, which is laid for each run, without each of the last allocations, also where a call fails: each name
    has what it had or what it gets by the whole run, and what was there is there."""
    store, kept = place / "store", []
    shutil.rmtree(store, ignore_errors=True)

    def anew():
        if store.exists() and not kept:
            kept.append(there(store))
        shutil.rmtree(store, ignore_errors=True)
        stores.lay_files(store, files)

    def judge(_, what):
        found = {name: data for name, data in there(store).items() if not name.startswith(LEFT[:15])}
        hold(all(data in (files.get(name), kept[0].get(name)) for name, data in found.items()), what)
        hold(set(files) <= set(found), what)

    words, library = ["repair", *ALONE, *CODE, *words], None
    if fault:
        anew()
        library = beside_fault(place, [Program.path, *words, store], *fault)
        shutil.rmtree(store)
    said, _ = refuse_each(place, words, store, anew, judge, last, library)
    hold_lines(said, lines)


def test_what_repairs_find(place, choose):
    """What repairs find, and don't mend, is said whole; what they make is right."""
    files = lay(place / "whole", choose, length=40)
    other = files | {"s.x1": files["s.x1"][:20]}
    repaired(place, ["--replace-damaged"], other | {"s.x1.damaged": b"kept"},
             ["s.x1: isn't replaced: a fragment that was replaced before is kept beside it"])
    repaired(place, ["--reads", "all"], changed(files, "s.x0", "s.y0"), ["s: contradiction, and which fragment is damaged can't be told"])
    repaired(place, ["--reads", "all"], changed(files, "s.y1"), ["s.y1: is damaged: only without it the others belong together"])
    sums = "".join(f"{digest(data)}  {name}\n" for name, data in files.items()).encode()
    repaired(place, ["--reads", "all"], changed(files, "s.y1") | {"SHA256SUMS": sums}, ["s.y1: differs from the checksums"])
    lost = without(changed(files, "s.y1"), "s.x0", "s.y0")
    repaired(place, [], lost, ["s: contradiction: one of these is damaged: x1 x2 y1 y2 px py p0 p1"])
    repaired(place, ["--assume-one-damaged"], lost,
             ["s.y1: is taken for the damaged one, which is a guess: only without it the others belong together"], last=250)
    repaired(place, [], without(files, "s.x0", "s.x1", "s.y0", "s.y1", "s.p0"),
             ["s.x0: can't be rebuilt: the fragments that survive don't determine it"])
    repaired(place, [], without(files, "s.x0") | {"s.x0/in": b"the way"}, ["s.x0: is no regular file"])
    repaired(place, ["--names", "{place}/{stripe}"], {f"{name[2:]}/s": data for name, data in files.items() if name != "s.x0"},
             ["x0/s: can't be put in its place: No such file or directory"])


def test_what_repairs_find_beside_a_fault(place, choose):
    """What was written to while it was read, and what is left over, is said whole."""
    files = without(lay(place / "whole", choose, length=40), "s.x1")
    repaired(place, [], files, ["changed meanwhile: nothing of its stripe is put in its place"], 120, ("read", -8, errno.EBUSY))
    # Of the first of the other group, after which another of this group comes.
    for kind, number in (("open", -9), ("read", -7)):
        repaired(place, ["--reads", "all"], files, ["s.y0: can't be read: Input/output error"], 130, (kind, number, errno.EIO))
    repaired(place, [], files, ["Input/output error"], 45, ("unlink", -1, errno.EIO))


def test_leftovers(place, choose):
    """What runs that were killed have left is gone when a repair ends: beside fragments, where links lead, and beside the folders of
    disks."""
    linked = place / "linked"
    linked.mkdir()
    for pattern, words in (("{stripe}.{place}", ["--follow-links"]), ("{place}/{stripe}", [])):
        store = place / f"store{len(words)}"
        files = lay(store, choose, length=40, pattern=pattern)
        left = [store / LEFT, *([linked / LEFT] if words else [store / "y1" / LEFT])]
        if words:
            (store / "s.x0").rename(linked / "s.x0")
            (store / "s.x0").symlink_to(linked / "s.x0")

        def anew(left=left):
            for path in left:
                path.write_bytes(b"left")

        def judge(is_out, what, store=store, files=files, left=left):
            hold(is_out or not any(path.exists() for path in left), what)
            hold({name: (store / name).read_bytes() for name in files} == files, what)

        said, _ = refuse_each(place, ["repair", *words, *ALONE, *CODE, "--names", pattern], store, anew, judge)
        hold_lines(said, [f"rebuild-store: {path}: was left by a run that was killed, and is removed" for path in left])


def test_folders_of_others(place, choose):
    """Root doesn't work in a folder that others may write into: the store's, one of a disk, or one that a link leads to."""
    if os.geteuid():
        raise stores.Skipped("only root is refused")
    linked = place / "linked"
    linked.mkdir()
    for number, pattern in enumerate(("{stripe}.{place}", "{place}/{stripe}", "{stripe}.{place}")):
        store = place / f"store{number}"
        lay(store, choose, length=40, pattern=pattern)
        (store / "s.x0").unlink(missing_ok=True)
        folder = (store, store / "y1", linked)[number]
        folder.chmod(0o777)
        if folder == linked:
            (store / "s.x0").symlink_to(linked / "s.x0")
        before = set(place.rglob("*"))

        def judge(_, what, before=before):
            hold({path for path in place.rglob("*") if not path.name.startswith(("refuse.so", "report"))} <= before, what)

        words = ["repair", "--follow-links", *ALONE, *CODE, "--names", pattern]
        said, _ = refuse_each(place, words, store, judge=judge)
        hold_lines(said, [f"rebuild-store: {folder}: user 0 or others may write there, and lead root elsewhere: "
                          "run as that user, or give --trust-writers"])


def test_reports_in_the_store(place, choose):
    """A path that is a name of the store's, or another one of a fragment, gets no report."""
    store, other = place / "store", place / "other"
    files = lay(store, choose, length=40)
    os.link(store / "s.x1", other)
    for path in (other, store / "t.x1"):
        def judge(_, what):
            hold(there(store) == files and other.samefile(store / "s.x1"), what)

        said, _ = refuse_each(place, ["scrub", "--report", path, *ALONE, *CODE], store, judge=judge)
        hold_lines(said, [f"rebuild-store: {path}: is a file of the store, and no place for a report"])


def test_names_that_are_like_descriptions(place, choose):
    """Fragments whose names are like descriptions' are looked for, each of those that the digests name."""
    store, pattern = place / "store", "{stripe}/{place}.file"
    files = lay(store, choose, pattern=pattern, length=40)
    (store / "s/x1.file").unlink()
    sums = {name: digest(files.get(name, b"")) for name in ("a/x0.file", "s/x0.file", "s/x1.file")}
    (store / "SHA256SUMS").write_text("".join(f"{data}  {name}\n" for name, data in sums.items()))
    for words in (["scrub"], ["lost"]):
        said, _ = refuse_each(place, [*words, *CODE, "--names", pattern], store)
        hold_lines(said, ["rebuild-store: a: no fragment can be read" if words == ["lost"] else "a: no fragment can be read"])


if __name__ == "__main__":
    stores.try_all("store-allocations", globals(), *sys.argv[1:3])
