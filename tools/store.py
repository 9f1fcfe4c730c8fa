#!/usr/bin/env python3
"""Makes a store to try the farm on: fragments of stripes of both codes with a long request list, and the same requests as
lines.

    store.py FOLDER REQUESTS LENGTH SEED

makes FOLDER/store, FOLDER/list.csv and FOLDER/lines, with fragments of 1 to LENGTH bytes, or of LENGTH alone where SEED is
0. Each request is of a stripe of its own with one to five lost fragments. Some have a damaged survivor, and some name one
that the store hasn't.

    store.py FOLDER STRIPES LENGTH SEED CODE

makes FOLDER/store with stripes of this code, 6-2-2 or 12-2-2, each of which has lost up to three fragments, and FOLDER/whole, the same
stripes with all fragments.

    store.py FOLDER STRIPES LENGTH SEED CODE GROUPS

makes so many whole stores, FOLDER/g00 and so on, each with a folder for each place, a disk, whose folder `fragments` has a fragment under
its stripe's name."""

import itertools
import pathlib
import random
import sys

# No compiled copy of the module is left beside it.
sys.dont_write_bytecode = True
from reference import CODES, code_of, eliminated, product

PRODUCTS = [bytes(product(a, b) for b in range(256)) for a in range(256)]


def combined(coefficients, data, length):
    """The sum of fragments times coefficients."""
    total = 0
    for c, fragment in zip(coefficients, data):
        total ^= int.from_bytes(fragment.translate(PRODUCTS[c]), "big")
    return total.to_bytes(length, "big")


def stripe(code, length, choose):
    """A stripe of the code with random data, by the names of its places."""
    places, first = CODES[code]
    data = [choose.randbytes(length) for _ in places]
    rows = [[int(p[0] == "x") for p in places], [int(p[0] == "y") for p in places], first, [product(c, c) for c in first]]
    return dict(zip(places + ["px", "py", "p0", "p1"], data + [combined(row, data, length) for row in rows]))


def is_covered(code, lost, place):
    """Whether without each two of the fragments that aren't lost the others determine the one at a lost place."""
    places, equations = code_of(code)
    numbers = [places.index(name) for name in lost if name != place]
    others = [k for k, name in enumerate(places) if name not in lost]
    pairs = itertools.combinations(others, 2) if len(others) > 1 else [others]
    return all(places.index(place) in eliminated(equations, [*numbers, *pair, places.index(place)])[1] for pair in pairs)


def make_lossy(folder, number, greatest, code, choose):
    """Stripes that have lost up to three fragments, beside the whole ones."""
    store, whole = folder / "store", folder / "whole"
    store.mkdir()
    whole.mkdir()
    for k in range(number):
        fragments = stripe(code, choose.randrange(1, greatest + 1), choose)
        lost = choose.sample(list(fragments), choose.randrange(4))
        for place, data in fragments.items():
            (whole / f"s{k:03}.{place}").write_bytes(data)
            if place not in lost:
                (store / f"s{k:03}.{place}").write_bytes(data)


def make_groups(folder, groups, number, greatest, code, choose):
    """Whole stores of so many stripes each, with a folder for each place."""
    for group in (folder / f"g{k:02}" for k in range(groups)):
        for place in code_of(code)[0]:
            (group / place / "fragments").mkdir(parents=True)
        for k in range(number):
            for place, data in stripe(code, choose.randrange(1, greatest + 1), choose).items():
                (group / place / "fragments" / f"{group.name}-{k:03}").write_bytes(data)


def make_listed(folder, number, greatest, seed):
    """Stripes of both codes, with requests for fragments that they have lost."""
    choose = random.Random(seed)
    store = folder / "store"
    store.mkdir()
    with open(folder / "list.csv", "x") as rows, open(folder / "lines", "x") as lines:
        rows.write("order,stripe,target,length,survivors,code\n")
        for k in range(number):
            code = choose.choice(list(CODES))
            length = choose.randrange(1, greatest + 1) if seed else greatest
            fragments = stripe(code, length, choose)
            lost = choose.sample(list(fragments), choose.choice([1, 1, 1, 2, 3, 4, 5]))
            survivors = [place for place in fragments if place not in lost]
            fault = choose.randrange(20) if seed else 20
            if fault == 0:
                damaged = choose.choice(survivors)
                fragments[damaged] = bytes([fragments[damaged][0] ^ 1]) + fragments[damaged][1:]
            there = [place for place in survivors if fault != 1 or place != survivors[k % len(survivors)]]
            for place in there:
                (store / f"s{k}.{place}").write_bytes(fragments[place])
            rows.write(f"rebuild,s{k},{lost[0]},{length},{' '.join(survivors)},{code}\n")
            lines.write(f"code={code} s{k} {lost[0]} {length} {' '.join(p + '=' + fragments[p].hex() for p in there)}\n")


def main():
    folder, number, greatest, seed = pathlib.Path(sys.argv[1]), *map(int, sys.argv[2:5])
    folder.mkdir(exist_ok=True)
    if sys.argv[6:]:
        make_groups(folder, int(sys.argv[6]), number, greatest, sys.argv[5], random.Random(seed))
    elif sys.argv[5:]:
        make_lossy(folder, number, greatest, sys.argv[5], random.Random(seed))
    else:
        make_listed(folder, number, greatest, seed)


if __name__ == "__main__":
    main()
