#!/usr/bin/env python3
"""Reads a file out of a store as the manual pages rebuild-store(5) and rebuild(5) say, and shares nothing with the program or with other
scripts; encode-store.py runs it over stores that the program made.

    store-decoder.py STORE NAME [PATTERN [LAYOUT]]    writes the file to standard output"""

import functools
import hashlib
import pathlib
import re
import sys

FIRST = {"6-2-2": "04 08 0C 01 02 03", "12-2-2": "10 20 30 40 50 60 01 02 03 04 05 06"}


def product(a, b):
    """The product of two bytes: that of their polynomials, without the multiples of 11D in it."""
    total = functools.reduce(lambda found, bit: found ^ (a << bit) * (b >> bit & 1), range(8), 0)
    return functools.reduce(lambda rest, bit: rest ^ (0x11D << bit) * (rest >> bit + 8 & 1), range(6, -1, -1), total)


@functools.lru_cache
def products(a):
    return bytes(product(a, b) for b in range(256))


def places_of(code, layout="plain"):
    xs, ys = ([f"{group}{k}" for k in range(int(code.split("-")[0]) // 2)] for group in "xy")
    return [*xs, *ys, "px", "py", "p0", "p1"] if layout == "plain" else [*xs, "px", *ys, "py", "p0", "p1"]


def equations_of(code):
    """Of each equation the coefficients of the places."""
    data, first = places_of(code)[:-4], [*bytes.fromhex(FIRST[code])]
    rows = [[int(it[0] == "x") for it in data], [int(it[0] == "y") for it in data], first, [product(c, c) for c in first]]
    return [[*row, *(int(k == parity) for parity in range(4))] for k, row in enumerate(rows)]


def worked_out(code, fragments, length):
    """The fragments that are lost, each with its place: the equations are solved for one after the other."""
    places, open_rows, solved = places_of(code), equations_of(code), {}
    for column in (k for k, place in enumerate(places) if place not in fragments):
        open_rows.sort(key=lambda row: row[column] == 0)
        own = open_rows.pop(0)
        own = [product(products(own[column]).index(1), c) for c in own]
        reduced = lambda row: [c ^ product(row[column], d) for c, d in zip(row, own)]
        open_rows, solved = [reduced(row) for row in open_rows], {k: reduced(row) for k, row in solved.items()} | {column: own}
    for column, row in solved.items():
        terms = (fragments[place].translate(products(c)) for place, c in zip(places, row) if place in fragments)
        yield places[column], functools.reduce(lambda total, it: total ^ int.from_bytes(it, "big"), terms, 0).to_bytes(length, "big")


def names_of(code, name, pattern, layout):
    """The name in the store of each fragment, by its place."""
    filled = lambda place, number: pattern.replace("{place}", place).replace("{shard}", number).replace("{stripe}", name)
    return {place: filled(place, str(number)) for number, place in enumerate(places_of(code, layout))}


def described(store, name, pattern, layout):
    """What most copies of the description say: the length of the file, its digest and the code."""
    folders = {store, *((store / it).parent for it in names_of("12-2-2", name, pattern, layout).values())}
    copies = [folder / (name + ending) for folder in folders for ending in (".file", ".file.copy")]
    said = [copy.read_text() for copy in copies if copy.is_file()]
    length, digest, code = max(said, key=said.count).split()
    return int(length), digest, code


def digests_of(store):
    """The digests of SHA256SUMS, by the names of files."""
    sums = store / "SHA256SUMS"
    text = sums.read_bytes().decode(errors="surrogateescape") if sums.exists() else ""
    lines = re.findall(r"^(\\?)(\w{64})  (.*)$", text, re.M)
    unescaped = lambda name: re.sub(r"\\(.)", lambda it: {"n": "\n", "r": "\r"}.get(it[1], it[1]), name)
    return {unescaped(name) if mark else name: digest for mark, digest, name in lines}


def decoded(store, name, pattern="{stripe}.{place}", layout="plain"):
    """The bytes of the file of this name. A fragment that has another length or another digest than it should have counts as lost."""
    length, digest, code = described(store, name, pattern, layout)
    names, sums = names_of(code, name, pattern, layout), digests_of(store)
    size = -(-length // (len(names) - 4))
    there = {place: (store / it).read_bytes() for place, it in names.items() if (store / it).is_file()}
    fits = lambda place, data: len(data) == size and sums.get(names[place]) in (None, hashlib.sha256(data).hexdigest())
    fragments = {place: data for place, data in there.items() if fits(place, data)}
    fragments |= dict(worked_out(code, fragments, size))
    data = b"".join(fragments[place] for place in places_of(code)[:-4])[:length]
    if hashlib.sha256(data).hexdigest() != digest:
        sys.exit("store-decoder: the fragments don't give the file")
    return data


if __name__ == "__main__":
    sys.stdout.buffer.write(decoded(pathlib.Path(sys.argv[1]), *sys.argv[2:]))
