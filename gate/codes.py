#!/usr/bin/env python3
"""Tests elements of the field, rooms and windows of sums, places, numbers, codes and requests: against known vectors, products by shifts,
and values from the papers.

It runs what was built last: tests of lrc_tests, which show what the calls give. Products, sums and codes of the C library are in
library/test-sums.c and library/test.c."""

import itertools
import re
import sys

# No compiled copy of the modules is left beside them.
sys.dont_write_bytecode = True
from served import Checks  # noqa: E402
from shown import PLACES, ROOT, element, numbers, option, reference, set_text, shown  # noqa: E402

# Two elements and their product, and elements with their inverses: 00 has none.
PRODUCTS = [
    (0x02, 0x80, 0x1D), (0x04, 0x80, 0x3A), (0x10, 0x80, 0xE8), (0x80, 0x80, 0x13), (0x04, 0x08, 0x20), (0x0C, 0x03, 0x14),
    (0xFF, 0x02, 0xE3), (0xFF, 0xFF, 0xE2), (0x04, 0x61, 0x99), (0x10, 0x61, 0x5E), (0x02, 0x8E, 0x01), (0x04, 0x47, 0x01),
    (0x04, 0x04, 0x10), (0x08, 0x08, 0x40), (0x0C, 0x0C, 0x50), (0x00, 0xFF, 0x00),
]
INVERSES = [(0x01, 0x01), (0x02, 0x8E), (0x04, 0x47), (0x8E, 0x02), (0x00, None)]
SUM = (0x61, 0x99, 0xF8)


def test_elements(checks):
    """The sum and the product of all elements, and the inverse of each."""
    pairs = list(itertools.product(range(256), repeat=2))
    came = shown([f"elements {a} {b}" for a, b in pairs])
    checks.compare("how many elements there are", len(came), len(pairs))
    sums, products, inverses = {}, {}, {}
    for (a, b), line in zip(pairs, came):
        sums[a, b], products[a, b], *inverse = numbers(line)
        inverses[a] = inverse[0] if inverse else None
    checks.compare("sums", sums, {(a, b): a ^ b for a, b in pairs})
    checks.compare("products by shifts", products, {(a, b): reference.product(a, b) for a, b in pairs})
    for a, b, known in PRODUCTS:
        checks.compare(f"{a:02X} times {b:02X}", (products[a, b], reference.product(a, b)), (known, known))
    for a, known in INVERSES:
        checks.compare(f"the inverse of {a:02X}", inverses[a], known)
    for a in range(1, 256):
        checks.compare(f"{a:02X} times its inverse", reference.product(a, inverses[a]), 1)
    checks.compare("a known sum", sums[SUM[:2]], SUM[2])


# What rooms have at first, and then: the second source is empty, the last coefficient has no source, and no coefficient of a term is 00.
ROOMS = [([0], [])] * 16 + [([0, 0], [])] * 16
ROOMS += [([2], [255, 12]), ([16], [97, 97])]
ROOMS += [([0, 4], [128, 4]), ([2, 0], [255, 12]), ([16, 1], [97, 97])]


def test_rooms(checks):
    checks.compare("rooms", shown(test="field::shown_of_rooms"), [f"{' '.join(map(element, scalars))} {found}" for scalars, found in ROOMS])


def constant(file, name):
    """How many sums are made or tested at once, as a source of lrc_field says."""
    return int(re.search(rf"const {name}: usize = (\d+);", (ROOT / "crates/lrc_field/src" / file).read_text())[1])


def generated(seed, count):
    """Bytes of the generator by which the tests fill slices."""
    found, state = [], seed
    for _ in range(count):
        state = (state * 1_664_525 + 1_013_904_223) % 2 ** 32
        found.append(state >> 24)
    return bytes(found)


SOURCE = 4_200
SOURCES = [generated(seed, SOURCE) for seed in (5, 11, 17)]
# The scalars of the three sources: of sums, and of the first and of the second sum of pairs.
SCALARS = [(0x01, 0x01, 0x01), (0x01, 0x53, 0x00)]
PAIRED = [(0x01, 0x53, 0x00), (0x01, 0x8E, 0x04)]
# The shortest window of pairs.
LEAST_PAIRED = 96
FROM = [0, 1, 33, 100]


def windows(summed, tested):
    """Lengths of windows: around the blocks of 32 bytes, the two of 128 of a sum of three, and those of 192 of other sums; and those of
    pairs around the blocks of 96 bytes, of which one is the least. Then those of slices that are tested for zeros."""
    found = [0, 1, 31, 32, 33, 96, 97, 127, 128, 129, 160, summed - 1, summed, summed + 1, 255, 256, 257, 2 * summed - 1, 2 * summed]
    return found + [2 * summed + 33, 1_025, 4_097] + [64, tested + 1, 4_100]


def sums_of(scalars, start, length):
    """The sums of the sources in a window, by shifts."""
    found = bytes(length)
    for scalar, source in zip(scalars, SOURCES):
        products = bytes(reference.product(scalar, byte) for byte in range(256))
        scaled = source[start:start + length].translate(products)
        found = bytes(a ^ b for a, b in zip(found, scaled))
    return [*found]


def test_windows(checks, summed, tested):
    """Sums of three terms and of pairs in windows are those by shifts. Those of all positions are zero only where there are none, and those
    of two equal terms are zero."""
    rows = list(itertools.product(FROM, windows(summed, tested)))
    came = iter(shown([f"sums {start} {length}" for start, length in rows]))
    for start, length in rows:
        checks.compare(f"zeros of {length}", next(came), f"{str(length == 0).lower()} true")
        for scalars in SCALARS + (PAIRED if length >= LEAST_PAIRED else []):
            what = f"sums by {scalars} from {start} on, {length} bytes"
            checks.compare(what, next(came), f"{sums_of(scalars, start, length)}")
    checks.compare("no more sums", next(came, None), None)


def test_differences(checks, summed, tested):
    """Two terms that differ at one index have zero sums in just the windows without it."""
    starts = [0, 1, 33, 100, tested]
    ends = [0, 32, summed, summed + 5, tested, tested + 1, 2 * tested, 2 * tested + 1, SOURCE]
    changes = [0, 31, 32, summed - 1, summed, tested - 1, tested, 2 * tested - 1, 2 * tested, SOURCE - 1]
    rows = list(itertools.product((0x01, 0x53), changes, starts, ends))
    came = shown([" ".join(map(str, ["difference", *row])) for row in rows])
    for (scalar, change, start, end), line in itertools.zip_longest(rows, came):
        are_zero = change < start or end <= change
        checks.compare(f"{scalar:02X} times a difference at {change} from {start} to {end}", line, str(are_zero).lower())


# The group of each place, in the order of their indexes.
GROUPS = ["X"] * 3 + ["Y"] * 3 + ["X", "Y", None, None] + ["X"] * 3 + ["Y"] * 3

# Texts with their numbers, of one to seven digits, and those that are none; names of no place, and those of codes.
NUMBERS = [("0", 0), ("7", 7), ("0000003", 3), ("65536", 65_536), ("9999999", 9_999_999), ("", None), ("00000003", None), ("+3", None),
           ("-3", None), ("3 ", None), ("3a", None), ("\u0663", None)]
NO_NAMES = ["", "x", "x6", "X0", "x0 ", "px0", "z9"]
CODES = {"6-2-2": "Narrow", "12-2-2": "Wide", "7-2-2": None, "6-2-2 ": None}


def variant(name):
    """How a place is shown that isn't shown by its name."""
    return name.capitalize()


def test_texts(checks):
    """Each index has its place, with its name and its group; no place has the index after the last, or bytes that are no text as its name.
    Texts are numbers, places and codes, or none."""
    wanted = [f"{index} {name} {option(GROUPS[index])}" for index, name in enumerate(PLACES)]
    checks.compare("places", shown(test="code::shown_of_each_place"), [*wanted, "None"])
    rows = [(text, option(number), "None", "None") for text, number in NUMBERS]
    rows += [(name, "None", option(variant(name)), "None") for name in PLACES]
    rows += [(name, "None", "None", "None") for name in NO_NAMES]
    rows += [(name, "None", "None", option(code)) for name, code in CODES.items()]
    came = shown([f"written {text}" for text, *_ in rows])
    for (text, *wanted), line in itertools.zip_longest(rows, came):
        checks.compare(f"what is written by {text!r}", line, f"({', '.join(wanted)})")


# The places of each code in its order, how many data it has, and how many others a set of x0 and x3 leaves. Its coefficients are compared
# by library/test.c, with those of library/stripes.h.
NARROW_PLACES = "x0 x1 x2 y0 y1 y2 px py p0 p1".split()
WIDE_PLACES = "x0 x1 x2 x3 x4 x5 y0 y1 y2 y3 y4 y5 px py p0 p1".split()
SHOWN_CODES = [(NARROW_PLACES, 6, 9), (WIDE_PLACES, 12, 14)]


def test_codes(checks):
    """Each code has its own places. With x5 lost alone in the (12,2,2) code one row has a pivot, which is x5; in the other it plays no
    part."""
    came = shown(test="code::shown_of_each_code")
    checks.compare("how much is shown of codes", len(came), 10)
    for number, (places, data, others) in enumerate(SHOWN_CODES):
        own = came[5 * number:5 * number + 5]
        left = set_text({*places} - {"x0", "x3"})
        checks.compare("its places", own[0], f"[{', '.join(map(variant, places))}] {data} {others} {left}")
        if number == 0:
            checks.compare("rows without x5", own[1:], [f"None {element(0)}"] * 4)
        else:
            checks.compare("rows with x5", sum(line.startswith("Some(X5) ") for line in own[1:]), 1)


# Names of a stripe, and requests, each a code, or - for none, the target, the length and the survivors; and the refusal of each.
ACCEPTED = None
LAST_NAME = "abcdefghijklmnopqrstuvwxyz012345"
REFUSALS = [
    ("a", "- x0 1", ACCEPTED), ("a", "- x0 65536", ACCEPTED), ("a", "- x0 1 x1=07 x2=07 px=07", ACCEPTED), ("z9-", "- x0 1", ACCEPTED),
    ("-", "- x0 1", ACCEPTED), (LAST_NAME, "- x0 1", ACCEPTED),
    ("", "- x0 1", 1), ("A", "- x0 1", 1), ("a b", "- x0 1", 1), ("a_b", "- x0 1", 1), ("\u00e4", "- x0 1", 1),
    (LAST_NAME + "6", "- x0 1", 1), ("A", "- x0 0 x0=07 x0=07", 1), ("a", "- x0 0 x0=07 x0=07", 2), ("a", "- x0 65537", 2),
    ("a", "- x3 1", 29), ("a", "- x3 0", 2), ("a", "- x0 1 x1=07 y5=07", 29), ("a", "- x0 2 y5=07 y5=07", 29),
    ("a", "- x0 1 x1=07 x1=07", 3), ("a", "- x0 2 x0=07 x0=07", 3), ("a", "- x0 1 x0=07", 4), ("a", "- x0 2 x0=07", 4),
    ("a", "- x0 2 x1=07", 5),
    # E5 comes of the second survivor too.
    ("a", "- x0 1 x1=07 x2=0707", 5),
]
NAMES = {1: "BadStripe", 2: "BadLength", 3: "Repeated", 4: "NotLost", 5: "WrongLength", 29: "WrongCode"}


def made_of(code, stripe, line):
    """What a request shows of what it was made of."""
    _, target, length, *words = line.split()
    survivors = {name: [*bytes.fromhex(digits)] for name, digits in (word.split("=") for word in words)}
    yield f"{code} {stripe} {variant(target)} {length}"
    yield f"{len(survivors)} {set_text(survivors)} {[survivors.get(place, []) for place in PLACES]}"
    yield f"{option(survivors.get('x0'))} {option(survivors.get('x1'))}"
    fragments = [f"Fragment {{ place: {variant(place)}, bytes: {found} }}" for place, found in survivors.items()]
    yield f"[{', '.join(fragments)}]"


def test_requests(checks):
    """Refusals come in their order, and a request gives what it was made of, its survivors in their order."""
    rows = []
    for stripe, line, fault in REFUSALS:
        rows.append((stripe, line, [f"{NAMES[fault]} {fault}"] if fault else made_of("Narrow", stripe, line)))
    for code, line in [("Narrow", "- p0 1 y2=07 x1=07"), ("Narrow", "6-2-2 p0 1 y2=07 x1=07"), ("Wide", "12-2-2 y5 1 x3=07 x1=08 x0=09")]:
        rows.append(("a-1", line, made_of(code, "a-1", line)))
    came = iter(shown([f"request {stripe},{line}" for stripe, line, _ in rows]))
    for stripe, line, wanted in rows:
        for one in wanted:
            checks.compare(f"a request: {stripe!r} {line}", next(came, None), one)
    checks.compare("no more requests", next(came, None), None)


def main():
    checks = Checks("codes")
    for test in (test_elements, test_rooms, test_texts, test_codes, test_requests):
        test(checks)
    for test in (test_windows, test_differences):
        test(checks, constant("term_sums.rt", "SUMMED_AT_ONCE"), constant("zero_sums.rt", "TESTED_AT_ONCE"))
    checks.end()


if __name__ == "__main__":
    main()
