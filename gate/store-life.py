#!/usr/bin/env python3
"""Keeps forty files in a store of ten disks as its manual page says: they are encoded, two of them replaced and one taken out, a disk is
lost and a fragment damaged, and each file is read again at each step.

    store-life.py [PROGRAM [LARGEST]]

LARGEST is the length of the longest file in bytes, 3,000,000 if it isn't given. Commands that take more than a second are printed. The
expected bytes are those of the files, and store-decoder.py reads the store at the end, by the page of its form alone."""

import hashlib
import pathlib
import random
import re
import shutil
import subprocess
import sys
import tempfile
import time

ROOT = pathlib.Path(__file__).resolve().parent.parent
PROGRAM = ROOT / "crates/rebuild_store/out/rebuild_store"
DECODER = ROOT / "gate/store-decoder.py"
PAGE = ROOT / "man/rebuild-store.1"
FILES, DISKS, LARGEST = 40, 10, 3_000_000
NAMES = ["--names", "disk{shard}/{stripe}"]
CODED = ["--code", "6-2-2", *NAMES]
# The decoder is made to be read, and takes a second for a megabyte.
MOST_DECODED = 100_000
BLOCK = 1 << 20
checks = 0


def hold(holds, what):
    global checks
    if not holds:
        sys.exit(f"store-life: {what}")
    checks += 1


def shown_options():
    """The options of each command in the page's synopsis."""
    synopsis = PAGE.read_text(encoding="ascii").partition("\n.Sh DESCRIPTION\n")[0]
    parts = [part for part in synopsis.split("\n.Nm")[1:] if "\n.Cm " in part]
    return {part.split("\n")[1].removeprefix(".Cm "): {f"-{it}" for it in re.findall(r"^\.Op Fl (-[a-z-]+)", part, re.M)} for part in parts}


class Store:
    def __init__(self, place, program):
        self.place, self.program, self.shown = place, program, shown_options()
        self.folder = place / "store"

    def run(self, command, *words, status=0, output=None):
        """Runs a command whose options the page shows, and gives what it writes; its standard output may go to a file."""
        given = {str(word) for word in words if str(word).startswith("--")}
        hold(given <= self.shown[command], f"the page doesn't show {command} with {sorted(given - self.shown[command])}")
        begin = time.monotonic()
        ended = subprocess.run([self.program, command, *map(str, words)], stdin=subprocess.DEVNULL, stdout=output or subprocess.PIPE,
                               stderr=subprocess.PIPE)
        said = ended.stderr.decode()
        hold(ended.returncode == status, f"{command}: status {ended.returncode}, not {status}: {said}")
        if time.monotonic() - begin > 1:
            print(f"store-life: {command}: {time.monotonic() - begin:.1f} s")
        return (ended.stdout or b"").decode(), said


def digest_of(path):
    digest = hashlib.sha256()
    with open(path, "rb") as file:
        while block := file.read(BLOCK):
            digest.update(block)
    return digest.hexdigest()


def write(path, length, choose):
    with open(path, "wb") as file:
        for begin in range(0, length, BLOCK):
            file.write(choose.randbytes(min(BLOCK, length - begin)))


def lengths(largest):
    """Forty lengths from 0 to the largest, each next one about half as long again, and some at the ends of blocks of six."""
    found = [0, 1, 5, 6, 7, 12, 65_535, 65_536]
    ratio = (largest / 8) ** (1 / (FILES - len(found) - 1))
    return [*found, *(round(8 * ratio**number) for number in range(FILES - len(found)))]


def hold_read(store, sources, names):
    """Each file can be read, to a file and to standard output."""
    for number, name in enumerate(names):
        read = store.place / "read"
        if number % 2:
            with open(read, "wb") as output:
                store.run("read", *NAMES, store.folder, name, output=output)
        else:
            store.run("read", "--output", read, *NAMES, store.folder, name)
        hold(digest_of(read) == digest_of(sources / name), f"{name} isn't what it was")
        read.unlink()


def hold_listed(store, sources, names, state, many):
    out, _ = store.run("list", *CODED, store.folder)
    want = [f"{state} {(sources / name).stat().st_size} 6-2-2 {many}/10 {name}" for name in sorted(names)]
    hold(out.splitlines() == want, f"listed {out}")


def make(store, sources, sizes, choose):
    """A store of ten disks is made, and the files are encoded into it."""
    for number in range(DISKS):
        (store.folder / f"disk{number}").mkdir(parents=True)
    for name, size in sizes.items():
        write(sources / name, size, choose)
    out, _ = store.run("encode", *NAMES, store.folder, *(sources / name for name in sizes))
    hold(out == f"encoded {len(sizes)} files; not encoded: 0\n", out)
    hold_listed(store, sources, sizes, "whole", 10)


def change(store, sources, sizes, choose):
    """Two files are changed, which is refused without --replace, and one is taken out."""
    changed = [max(sizes, key=sizes.get), sorted(sizes)[3]]
    for name in changed:
        write(sources / name, sizes[name] // 2 + 100, choose)
    paths = [sources / name for name in changed]
    _, err = store.run("encode", *NAMES, store.folder, *paths, status=1)
    hold(err.count("--replace replaces the file") == len(changed), err)
    out, _ = store.run("encode", "--replace", *NAMES, store.folder, *paths)
    hold(out == "encoded 2 files; not encoded: 0\n", out)
    gone = sorted(sizes)[7]
    out, _ = store.run("remove", *CODED, store.folder, gone)
    hold(out == "removed 1 file; not removed: 0\n", out)
    _, err = store.run("read", *NAMES, store.folder, gone, status=1)
    hold("is no file of the store" in err, err)
    del sizes[gone]
    out, _ = store.run("verify", *NAMES, store.folder)
    hold(out == f"verified {len(sizes)} files; not as described: 0\n", out)


def lose_disk(store, sources, sizes):
    """A disk is lost: all can be read, and is whole again after a repair."""
    shutil.rmtree(store.folder / "disk7")
    out, _ = store.run("scrub", *CODED, store.folder, status=1)
    hold(out.count(": is lost\n") == 2 * len(sizes), out)
    hold_listed(store, sources, sizes, "degraded", 9)
    hold_read(store, sources, sizes)
    (store.folder / "disk7").mkdir()
    out, _ = store.run("repair", *CODED, store.folder)
    end = f"(0 unchecked); damaged: 0; not possible: 0; {len(sizes)} descriptions made\n"
    hold(out.startswith(f"repaired {len(sizes)} fragments, ") and out.endswith(end), out)
    store.run("scrub", *CODED, store.folder)
    hold_listed(store, sources, sizes, "whole", 10)


def damage(store, sources, sizes):
    """A fragment is damaged: it is named, the file can be read, and the fragment is replaced if that is asked for."""
    name = max(sizes, key=lambda it: (sources / it).stat().st_size)
    path = store.folder / "disk2" / name
    right = digest_of(path)
    with open(path, "r+b") as file:
        file.seek(path.stat().st_size // 2)
        byte = file.read(1)
        file.seek(-1, 1)
        file.write(bytes([byte[0] ^ 1]))
    wrong = digest_of(path)
    out, _ = store.run("scrub", *CODED, store.folder, status=1)
    hold(out.startswith(f"disk2/{name}: differs from the checksums\n"), out)
    _, err = store.run("verify", *NAMES, store.folder, name)
    hold("read without" in err, err)
    out, _ = store.run("repair", "--reads", "all", *CODED, store.folder, status=1)
    hold("left without --replace-damaged: 1" in out and digest_of(path) == wrong, out)
    store.run("repair", "--replace-damaged", *CODED, store.folder)
    kept = path.with_name(f"{name}.damaged")
    hold(digest_of(path) == right and digest_of(kept) == wrong, "the fragment isn't replaced, or the old one isn't kept")
    kept.unlink()
    store.run("scrub", *CODED, store.folder)


def end(store, sources, sizes):
    """Each file is what it was, also by the page of the form alone, and nothing else is there."""
    hold_read(store, sources, sizes)
    for name in sizes:
        if (sources / name).stat().st_size <= MOST_DECODED:
            ended = subprocess.run([sys.executable, DECODER, store.folder, name, NAMES[1]], capture_output=True)
            hold(ended.returncode == 0 and ended.stdout == (sources / name).read_bytes(), f"the decoder reads {name} otherwise")
    want = {f"disk{number}/{name}{ending}" for number in range(DISKS) for name in sizes for ending in ("", ".file")} | {"SHA256SUMS"}
    there = {str(path.relative_to(store.folder)) for path in store.folder.rglob("*") if path.is_file()}
    hold(there == want, f"left {sorted(there ^ want)[:5]}")
    lines = (line.split("  ", 1) for line in (store.folder / "SHA256SUMS").read_text().splitlines())
    hold({name: digest for digest, name in lines} == {name: digest_of(store.folder / name) for name in want - {"SHA256SUMS"}},
         "digests aren't those of the files")


def main(program=PROGRAM, largest=LARGEST):
    begin, choose = time.monotonic(), random.Random(2026)
    with tempfile.TemporaryDirectory() as scratch:
        store = Store(pathlib.Path(scratch), pathlib.Path(program).resolve())
        sources = store.place / "files"
        sources.mkdir()
        sizes = {f"file-{number:02}": length for number, length in enumerate(lengths(int(largest)))}
        whole = sum(sizes.values())
        make(store, sources, sizes, choose)
        change(store, sources, sizes, choose)
        lose_disk(store, sources, sizes)
        damage(store, sources, sizes)
        end(store, sources, sizes)
    print(f"store-life: {checks} checks passed of {FILES} files, {whole} bytes, in {time.monotonic() - begin:.0f} s")


main(*sys.argv[1:3])
