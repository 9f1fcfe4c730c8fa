#!/usr/bin/env python3
"""Tests the inline calls of library/lrc.h: writes rows for library/inline.c, which has a library in place of the real one that says what
it is given, and runs it. Each argument is at, below and above its limit; what must come is what the header's comments and
docs/LIBRARY.md say of the call, over the places of tools/reference.py.

    inline-calls.py [FOLDER]    with the header of this folder in place of library/
    inline-calls.py rows        prints the rows"""

import os
import pathlib
import random
import subprocess
import sys
import tempfile

sys.dont_write_bytecode = True
ROOT = pathlib.Path(__file__).resolve().parent.parent
sys.path.append(str(ROOT / "tools"))
import reference  # noqa: E402

FLAGS = ["-std=c11", "-Wall", "-Wextra", "-Wpedantic", "-Wconversion", "-Werror", "-Wno-overlength-strings"]
# Once as programs are built, and once with what finds a read beyond a table.
BUILDS = [["-O2"], ["-O1", "-g", "-fsanitize=address,undefined", "-fno-sanitize-recover=all"]]

NARROW, WIDE = (reference.CODES[name][0] for name in ("6-2-2", "12-2-2"))
# The names of the places by their numbers: those of the narrow code, and then the others of the wide one.
NAMES = NARROW + reference.PARITIES + [name for name in WIDE if name not in NARROW]
DATA = {0: [NAMES.index(name) for name in NARROW], 1: [NAMES.index(name) for name in WIDE]}
PARITIES = [NAMES.index(name) for name in reference.PARITIES]
NONE = len(NAMES)
ALL = {code: sum(1 << p for p in data + PARITIES) for code, data in DATA.items()}
LAYOUTS = {
    0: {code: data + PARITIES for code, data in DATA.items()},
    1: {code: [*data[:len(data) // 2], PARITIES[0], *data[len(data) // 2:], *PARITIES[1:]] for code, data in DATA.items()},
}
OK, CONTRADICTION, SEVERAL, BAD = range(4)
TEXTS = ["done", "no stripe has these fragments", "the fragments that are left do not determine the lost one", "invalid argument"]
NO_TARGET = 255

GREATEST = 2**64 - 1
NO_CODES = [2, 3, 255, 256, 257, 2**32 - 1]
CODES = [0, 1, *NO_CODES]
NO_PLACES = [16, 17, 255, 256, 257, 2**31, 2**32 - 1]
PLACES = [*range(16), *NO_PLACES]
LENGTHS = [0, 1, 2, 100, 2**16, 2**32 - 1, 2**32, GREATEST]
COUNTS = [*range(14), 16, 17, 255, 256, 257, 260]


def table(there, length):
    return f" {there:x}" + "".join(f" f{p}:{length}" if there >> p & 1 else " -:0" for p in range(16))


# ---- what each call must answer, and hand on where it doesn't refuse: the answer and the text, or BAD and nothing

def encode(code, there, length, told):
    if code not in DATA or any(not there >> p & 1 for p in DATA[code] + PARITIES):
        return BAD, None
    data, parities = ("".join(f" f{p}:{length}" for p in places) for places in (DATA[code], PARITIES))
    return told[0], f"encode {code}{data} |{parities}"


def update(code, there, length, place, without, told):
    if code not in DATA or place not in DATA[code] or without == 0:
        return BAD, None
    parities = "".join(f" f{k}:{length}" if there >> k & 1 else " -:0" for k in range(4))
    return told[0], f"update {code} {place} d:{length}{parities}"


def is_asked(code, there, length, target):
    """Whether a place may be rebuilt: it is the code's, and lost, no fragment is of the other code, and there is a length."""
    return code in DATA and target < 16 and ALL[code] >> target & 1 and not there >> target & 1 and not there & ~ALL[code] and length > 0


def rebuild(code, there, length, target, without, told):
    if not is_asked(code, there, length, target) or without == 0:
        return BAD, None
    return told[0], f"rebuild {code}{table(there, length)} {target} r0:{length}"


def rebuild_many(code, there, length, targets, without, told):
    if not targets or 0 <= without < len(targets) or not all(is_asked(code, there, length, it) for it in targets):
        return BAD, None
    passes = ""
    for begin in range(0, len(targets), 4):
        passes += f"many {code}{table(there, length)} {length}"
        for k in range(begin, begin + 4):
            passes += f" {targets[k]} r{k}:{length}" if k < len(targets) else f" {NO_TARGET} -:0"
    return max(told), passes


def verify(code, there, length, told):
    if code not in DATA or there & ~ALL[code]:
        return BAD, None
    return told[0], f"verify {code}{table(there, length)} {length}"


# ---- the rows of the calls that take fragments

def sets(code, lost):
    """Sets of fragments that are there, without these: whole, of the other code too, few, none, some at random."""
    whole = ALL.get(code, 0xffff)
    choose = random.Random(code)
    found = [whole, 0xffff, 0, 1 << 9, 1 << 10, 1 << 15, *(whole & choose.getrandbits(16) for _ in range(4)), whole | 1 << 10]
    return [there & ~sum(1 << p for p in set(lost) if p < 16) for there in found]


def encodes():
    for code in CODES:
        whole = ALL.get(code, 0x3ff)
        for length in LENGTHS:
            yield "ENCODE", code, whole, length, [], -1, [OK]
        for length in (0, 100):
            for there in (0xffff, 0, *(there & ~(1 << p) for there in (whole, 0xffff) for p in range(16) if code < 2)):
                yield "ENCODE", code, there, length, [], -1, [OK]
        yield "ENCODE", code, 0xffff, 100, [], -1, [BAD]


def updates():
    for code in CODES:
        for place in PLACES:
            for there in range(16) if code < 2 and place in (0, 5, 15) else (0, 15):
                yield "UPDATE", code, there, 100, [place], -1, [OK]
        for length in LENGTHS:
            yield "UPDATE", code, 10, length, [4], -1, [OK]
            yield "UPDATE", code, 15, length, [4], 0, [OK]
    yield "UPDATE", 0, 15, 100, [0], -1, [BAD]


def rebuilds():
    for code in CODES:
        for place in PLACES:
            for there in sets(code, [place])[:11 if code < 2 else 1]:
                yield "REBUILD", code, there, 100, [place], -1, [(there + place) % 3]
            yield "REBUILD", code, ALL.get(code, 0x3ff), 100, [place], -1, [OK]
        for length in LENGTHS:
            yield "REBUILD", code, sets(code, [4])[0], length, [4], -1, [OK]
            yield "REBUILD", code, sets(code, [4])[0], length, [4], 0, [OK]


def rebuild_manies():
    for code in CODES:
        places = [p for p in (0, 4, 7, 9, 12) if ALL.get(code, 0x3ff) >> p & 1]
        for count in COUNTS if code < 2 else (0, 1, 5):
            targets = [places[k % len(places)] for k in range(count)]
            whole = sets(code, targets)[0]
            for told in statuses_of(count):
                yield "REBUILD_MANY", code, whole, 100, targets, -1, told
            yield "REBUILD_MANY", code, whole, 100, [4] * count, -1, [OK] * count
            for at in sorted({0, 3, 4, 7, 8, count - 1} & set(range(count)) if code < 2 else ()):
                yield "REBUILD_MANY", code, whole, 100, targets, at, [OK] * count
                for other in (1, 10, *NO_PLACES) if count in (1, 5, 9) else (1, 16, 256):
                    changed = [other if k == at else target for k, target in enumerate(targets)]
                    yield "REBUILD_MANY", code, whole, 100, changed, -1, [OK] * count
        targets = [places[k % len(places)] for k in range(5)]
        for there in sets(code, targets):
            yield "REBUILD_MANY", code, there, 100, targets, -1, [SEVERAL, OK, OK, OK, OK]
            yield "REBUILD_MANY", code, there, 100, targets[:1], -1, [CONTRADICTION]
        for length in LENGTHS:
            yield "REBUILD_MANY", code, sets(code, targets)[0], length, targets, -1, [OK] * 5
        # Rooms and statuses after the last target are not looked at.
        yield "REBUILD_MANY", code, sets(code, targets)[0], 100, targets, 5, [OK] * 5


def statuses_of(count):
    """Statuses of so many targets: all the same, one that isn't determined, some at random."""
    choose = random.Random(count)
    yield from ([OK] * count, [CONTRADICTION] * count, [choose.choice([OK, SEVERAL]) for _ in range(count)])
    yield from ([SEVERAL if k == at else OK for k in range(count)] for at in (0, 3, 4, count - 1) if 0 <= at < count)


def verifies():
    for code in CODES:
        for there in (*sets(code, []), *(1 << p for p in range(16)), 0x3ff, 0x7ff):
            for length in (0, 100):
                yield "VERIFY", code, there, length, [], -1, [there % 2]
        for length in LENGTHS:
            yield "VERIFY", code, ALL.get(code, 0x3ff), length, [], -1, [OK]


def expected(call, code, there, length, places, without, told):
    if call == "ENCODE":
        return encode(code, there, length, told)
    if call == "VERIFY":
        return verify(code, there, length, told)
    if call == "REBUILD_MANY":
        return rebuild_many(code, there, length, places, without, told)
    return (update if call == "UPDATE" else rebuild)(code, there, length, places[0], without, told)


# ---- the rows in C

def array(kind, values):
    return f"(const {kind}[]){{{', '.join(f'{value}u' for value in values) or '0'}}}"


def size(value):
    return f"{value}u" if value < 2**32 else f"UINT64_C({value})"


def rows_of(name, kind, rows):
    yield f"static const struct {kind} {name}[] = {{"
    yield from (f"    {{{row}}}," for row in rows)
    yield "};"


def all_calls():
    for row in (*encodes(), *updates(), *rebuilds(), *rebuild_manies(), *verifies()):
        call, code, there, length, places, without, told = row
        wanted, handed_on = expected(*row)
        text = "NULL" if handed_on is None else f'"{handed_on}"'
        yield (f"{call}, {code}u, {there}, {size(length)}, {array('unsigned', places)}, {len(places)}, {without}, "
               f"{array('uint32_t', told)}, {wanted}, {text}")


def numbers(rows):
    return (", ".join(map(size, row)) for row in rows)


def least_length(code, count, alignment):
    """The least multiple of an alignment at which the data fragments hold so many bytes."""
    if code not in DATA or count == 0 or alignment == 0:
        return 0
    return -(-count // (len(DATA[code]) * alignment)) * alignment


def by_number(values, number):
    return values[number] if number < len(values) else NONE


def number_rows():
    """The rows of the calls that count."""
    some = [*range(20), 255, 256, 2**32, GREATEST]
    yield "counts_of_code", ((code, len(DATA.get(code, [])), 0, len(DATA[code]) + 4 if code in DATA else 0) for code in CODES)
    yield "data_places", ((code, k, 0, by_number(DATA.get(code, []), k)) for code in CODES for k in some)
    yield "has_places", ((code, p, 0, int(p < 16 and ALL.get(code, 0) >> p & 1)) for code in CODES for p in PLACES)
    layouts = [0, 1, *NO_CODES]
    yield "shard_places", ((code, layout, k, by_number(LAYOUTS.get(layout, {}).get(code, []), k))
                           for code in CODES for layout in (layouts if code < 2 else (0, 1, 2)) for k in some)
    yield "place_shards", ((code, layout, p, dict(zip(shards, range(16))).get(p, NONE))
                           for code in CODES for layout in (layouts if code < 2 else (0, 1, 2))
                           for shards in [LAYOUTS.get(layout, {}).get(code, [])] for p in PLACES)
    counts = [*range(40), 4095, 4096, 4097, 100000, 2**32, 2**63, GREATEST - 1, GREATEST]
    alignments = [0, 1, 2, 3, 4, 7, 8, 4096, 2**32, 2**63, GREATEST - 1, GREATEST]
    yield "fragment_lengths", ((code, count, alignment, least_length(code, count, alignment))
                               for code in CODES for count in (counts if code < 2 else (1, 100)) for alignment in alignments)


def name_rows():
    """The rows of names, places and statuses."""
    yield "place_names", [(NAMES[p] if p < 16 else "", p) for p in PLACES]
    marks = "pxyPXY0123456789 a"
    texts = ["", *marks, *(one + two for one in marks for two in marks), *(name + mark for name in NAMES for mark in "0x ")]
    yield "named_places", [(text, NAMES.index(text) if text in NAMES else NONE) for text in texts]
    yield "status_texts", [(TEXTS[k] if k < 4 else "unknown status", k) for k in (0, 1, 2, 3, 4, 5, 255, 256, 257, 2**31, 2**32 - 1)]


def plan_rows():
    """Coefficients that aren't 0: each one alone, and rows of several."""
    rows = [[1 << p if r == k else 0 for r in range(5)] for k in range(5) for p in range(16)]
    rows += [[value] + [0x3ff if some >> r & 1 else 0 for r in range(4)] for some in range(16) for value in (0, 1, 0x8001, 0xffff)]
    for row in rows:
        yield f"{{{', '.join(map(str, row))}}}, {bin(row[0]).count('1')}, {sum(map(bool, row[1:]))}"


def all_rows():
    yield "/* Written by gate/inline-calls.py. */"
    for name, rows in number_rows():
        yield from rows_of(name, "number", numbers(rows))
    for name, rows in name_rows():
        yield from rows_of(name, "name", (f'"{text}", {number}u' for text, number in rows))
    yield from rows_of("plan_counts", "counts", plan_rows())
    filled = [(there, length) for there in (*sets(0, []), *(1 << p for p in range(16))) for length in (0, 1, GREATEST)]
    yield from rows_of("filled_tables", "filled", (f'{there}, {size(length)}, "{table(there, length)}"' for there, length in filled))
    yield from rows_of("all_calls", "row", all_calls())


def main():
    words = sys.argv[1:]
    if words == ["rows"]:
        print(*all_rows(), sep="\n")
        return
    include = pathlib.Path(words[0]) if words else ROOT / "library"
    compiler = os.environ.get("CC", "gcc")
    with tempfile.TemporaryDirectory() as scratch:
        (pathlib.Path(scratch) / "inline-rows.h").write_text("\n".join([*all_rows(), ""]))
        for flags in BUILDS:
            program = f"{scratch}/inline"
            built = subprocess.run([compiler, *FLAGS, *flags, f"-I{include}", f"-I{scratch}", "-o", program, ROOT / "library/inline.c"])
            if built.returncode:
                sys.exit("inline calls: the test isn't built")
            ran = subprocess.run([program], capture_output=True, text=True, errors="replace")
            if ran.returncode:
                sys.exit(f"inline calls: {ran.stdout}{ran.stderr}")
    print(f"inline calls: {ran.stdout.strip()}")


if __name__ == "__main__":
    main()
