#!/usr/bin/env python3
"""Compares the numbers that the documents say with those of the sources: the coefficients of both codes, the field's polynomial, and
the limits. The coefficients are those of lrc_code/src/tables.rt and of the independent computation reference.py; the manual page of the
formats is compared with docs/FORMATS.md by format-page.py."""

import pathlib
import re
import sys

sys.dont_write_bytecode = True
ROOT = pathlib.Path(__file__).resolve().parent.parent
sys.path.append(str(ROOT / "tools"))
import reference  # noqa: E402

CODES = {"(6,2,2)": ("6-2-2", "NARROW_PARITIES"), "(12,2,2)": ("12-2-2", "WIDE_PARITIES")}
ROWS = ["local X", "local Y", "global 0", "global 1"]
compared = 0


def text(path):
    return (ROOT / path).read_text(encoding="utf-8")


def compare(what, found, wanted):
    global compared
    compared += 1
    if found != wanted:
        sys.exit(f"numbers: {what}: {found}, and not {wanted}")


def constant(path, name):
    """The number that a source gives a constant."""
    found = re.search(rf"const {name}: \w+ = ([0-9_]+);", text(path))
    if not found:
        sys.exit(f"numbers: crates/{path} has no constant {name}")
    return int(found[1].replace("_", ""))


def tables(document):
    """The tables of a document whose head has all places: each as its places and its rows by name."""
    found, rows = [], None
    for line in text(document).splitlines():
        cells = line.split()
        if not line.startswith("    "):
            rows = None
        elif cells[:2] == ["x0", "x1"] and cells[-1] == "p1":
            rows = {}
            found.append((cells, rows))
        elif rows is not None:
            rows[" ".join(cells[:2])] = [int(cell, 16) for cell in cells[2:]]
    return found


def compare_codes():
    equations = tables("docs/FORMATS.md")
    compare("how many codes docs/FORMATS.md has", len(equations), len(CODES))
    for (heading, (name, table)), (places, rows) in zip(CODES.items(), equations):
        body = re.search(rf"{table}: [^=]*= \[(.*?)\n\];", text("crates/lrc_code/src/tables.rt"), re.S)[1]
        numbers = [int(number, 0) for number in re.findall(r"0x[0-9a-f]+|\d+", body)]
        count = len(numbers) // 4
        source = [numbers[count * k : count * (k + 1)] for k in range(4)]
        all_places, all_rows = reference.code_of(name)
        compare(f"{heading} in reference.py", [row[:count] for row in all_rows], source)
        compare(f"the places of {heading} in docs/FORMATS.md", places, all_places)
        compare(f"the equations of {heading} in docs/FORMATS.md", [rows[row] for row in ROWS], all_rows)


def compare_polynomial():
    """The polynomial in which reference.py reduces: a product whose factors have the degrees 7 and 1."""
    number = 0x100 ^ reference.product(0x80, 2)
    powers = {0: "1", 1: "x"}
    written = " + ".join(powers.get(k, f"x^{k}") for k in reversed(range(9)) if number >> k & 1)
    for path in ("README.md", "docs/FORMATS.md"):
        page = " ".join(text(path).split())
        compare(f"the polynomial of {path}", re.search(r"polynomial ([x^0-9 +]*) \((\w+) in hexadecimal\)", page).groups(),
                (written, f"{number:X}"))
    compare("the polynomial of lrc.h", f"polynomial {number:X};" in text("library/lrc.h"), True)


def limits():
    """What each document says of the limits, one line each."""
    farm, lists = "crates/farm_orders/src/limits.rt", "crates/farm_lists/src/listing.rt"
    racks, feeds = constant(farm, "MOST_RACKS"), constant(farm, "MOST_FEEDS")
    workers, queue = constant(farm, "MOST_WORKERS"), constant(farm, "MOST_QUEUE")
    records, list_bytes = constant(lists, "MOST_RECORDS"), constant(lists, "MOST_LIST_BYTES")
    length = constant("crates/lrc_code/src/requests.rt", "MOST_LENGTH")
    name = constant("crates/lrc_code/src/requests.rt", "MOST_NAME_CHARACTERS")
    lines = constant("crates/line_mode/src/input.rt", "INPUT_LIMIT")
    batch = constant("crates/farm_files/src/batches.rt", "MOST_BATCH_BYTES")
    plans = constant("crates/lrc_plan/src/plans/remembered.rt", "MOST_PLANS")
    compare("orders of a rack", constant(farm, "MOST_ORDERS"), records)
    return {
        "README.md": [
            f"| racks in a folder, feeds of a rack | {racks}, {feeds} |",
            f"| records in a list; bytes of a list | {records:,}; {list_bytes:,} |",
            f"| bytes of a fragment | of a list 1 to {length:,}, else any length |",
            f"| bytes of line mode's input | {lines:,} |",
            f"| 1 to {workers} (4 if not given), 1 to {queue:,} (16; more for short fragments) |",
            f"Fragments then have at most {length:,} bytes, and stripes' names 1 to {name} characters",
            f"two batches of {batch // 2**20} MiB",
        ],
        "docs/DECISIONS.md": [f"batches of {batch // 2**20} MiB of survivors", f"of which it remembers up to {plans:,}."],
        "docs/FORMATS.md": [
            f"A stripe's name has 1 to {name} characters",
            f"A fragment has 1 to {length:,} bytes",
            f"An input holds at most {lines:,} bytes",
            f"A folder has 1 to {racks} racks",
            f"A list holds at most {list_bytes:,} bytes",
            f"{length + 1:,} bytes of it are read",
            f"`E2`: a length isn't 1 to {length:,}.",
            f"`E11`: the number of workers isn't 1 to {workers}.",
            f"`E12`: the capacity of the queues isn't 1 to {queue:,}.",
            f"`E18`: there are more than {racks} racks.",
            f"`E25`: a list is longer than {list_bytes:,} bytes, or the input of line mode is longer than {lines:,} bytes.",
            f"`E26`: a list has more than {records:,} records.",
            f"`E28`: a rack has no feed, or more than {feeds}.",
        ],
        "docs/SCALE.md": [f"the survivors of two batches, {batch // 2**20} MiB each at most"],
        "man/rebuild.1": [
            f"1 to {racks} racks",
            f"threads that rebuild fragments, 1 to {workers}.",
            f"1 to {queue:,}.",
            f"An input holds at most {lines:,} bytes.",
        ],
    }


def main():
    compare_codes()
    compare_polynomial()
    for path, sentences in limits().items():
        said = " ".join(text(path).split())
        for sentence in sentences:
            compare(f"{path} says {sentence!r}", sentence in said, True)
    print(f"numbers: {compared} of the documents are those of the sources")


if __name__ == "__main__":
    main()
