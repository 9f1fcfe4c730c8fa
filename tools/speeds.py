#!/usr/bin/env python3
"""Draws docs/speeds.svg, a bar for each ratio of two tables of docs/BENCHMARKS.md: those of the farm and of stores.

    speeds.py          tests that the plot is what the tables give, and so are the speeds and the memory that README says, with that of a
                       million files, which docs/SCALE.md has
    speeds.py write    draws it"""

import html
import pathlib
import re
import sys

ROOT = pathlib.Path(__file__).resolve().parent.parent
PAGE, PLOT = ROOT / "docs/BENCHMARKS.md", ROOT / "docs/speeds.svg"
# Whose times the farm's bars are of, and the bytes that are rebuilt.
SHAPE = "8 x 200, 64 KiB"
SHAPE_BYTES = 8 * 200 * 64 * 2**10
# What README says of rows of the table of stores: bytes of one unit, the bytes of the row, and the words.
STORES = {
    "repair of 12 lost fragments of 64 MiB, 4 workers": (1e6, 12 * 64 * 2**20, "repair stores at {:.0f} MB/s"),
    "scrub of 1 GiB, 4 workers": (1e9, 2**30, "scrub {:.1f} GB/s"),
    "encode of 120 MB": (1e6, 120e6, "encode {:.0f} MB/s"),
}
# The row of SCALE's table of listings that says what a million files take, its last column but one in MiB.
SCALE, LISTING = ROOT / "docs/SCALE.md", re.compile(r"^ +1,000,000 .* (\d+), \d+$", re.M)
WIDTH, LEFT, STEP, TOP = 980, 640, 24, 66
# The ratio at the right end of the axis.
END = 3.0


def farm_cells(lines):
    """The farm's rows of SHAPE: its table's lines have the shape, if it isn't that of the line before, the workers and our time, and then
    each peer's time and ratio."""
    first = next(number for number, line in enumerate(lines) if line.startswith("    racks x requests"))
    shape = ""
    for line in lines[first + 1 :]:
        if not line.startswith("    "):
            return
        cells = re.split(r"\s{2,}", line.strip())
        shape, cells = (cells[0], cells[1:]) if len(cells) > 8 else (shape, cells)
        if shape == SHAPE:
            yield cells


def store_cells(lines):
    """The rows of the table of stores: what is done, our time, the peer, its time, the ratio and our memory."""
    first = next(number for number, line in enumerate(lines) if line.startswith("| | ours |"))
    for line in lines[first + 2 :]:
        if not line.startswith("|"):
            return
        yield [cell.strip().replace("`", "") for cell in line.strip("|").split("|")]


def rows():
    """What is timed, beside what, and the ratio."""
    lines = PAGE.read_text(encoding="utf-8").splitlines()
    farm = [
        (f"lists, 64 KiB, workers: {cells[0]}", f"{peer} C program", float(ratio))
        for cells in farm_cells(lines)
        if cells[0] in ("1", "4")
        for peer, ratio in zip(("the careful", "the batching", "the careless"), cells[3::2])
    ]
    return farm + [(what, beside, float(ratio)) for what, _, beside, _, ratio, _ in store_cells(lines) if ratio]


def number(text):
    return int(text.replace(",", ""))


def sentences():
    """What README says of the same tables."""
    lines = PAGE.read_text(encoding="utf-8").splitlines()
    rates = {cells[0]: SHAPE_BYTES / number(cells[1]) * 1e3 for cells in farm_cells(lines)}
    yield f"rebuild {rates['4'] / 1e6:.0f} MB/s of lists' fragments"
    yield f"about {('one', 'two', 'three')[round(2**30 / rates['4']) - 1]} seconds for each GiB with 4 workers"
    stores = {cells[0]: (number(cells[1]), number(cells[-1])) for cells in store_cells(lines)}
    for what, (unit, size, words) in STORES.items():
        yield words.format(size / stores[what][0] * 1e3 / unit)
    most = [memory for _, memory in stores.values()]
    listing = int(LISTING.search(SCALE.read_text(encoding="utf-8"))[1]) * 2**20 / 1e6
    yield f"takes {min(most)} to {max(most)} MB, and {listing:.0f} to list a million files"


def text(x, y, words, more=""):
    return f'<text x="{x:.1f}" y="{y:.1f}"{more}>{html.escape(words)}</text>'


def plot():
    table = rows()
    height = TOP + STEP * len(table) + 34
    # A bar beyond the axis ends there; its number is beside it.
    scale = (WIDTH - LEFT - 60) / END
    one, bottom = LEFT + scale, TOP + STEP * len(table)
    made = [
        f'<svg xmlns="http://www.w3.org/2000/svg" width="{WIDTH}" height="{height}" viewBox="0 0 {WIDTH} {height}" '
        'font-family="sans-serif" font-size="13" role="img">',
        "<title>How fast the programs are beside others</title>",
        f'<rect width="{WIDTH}" height="{height}" fill="white"/>',
        text(16, 26, "How fast, beside other programs", ' font-size="17" font-weight="bold"'),
        text(16, 48, "the other program's time over ours: right of the line ours is faster"),
    ]
    for number, (what, beside, ratio) in enumerate(table):
        y = TOP + STEP * number
        colour = "#2a6f97" if ratio >= 1 else "#b5651d"
        made.append(text(LEFT - 10, y + 15, f"{what}, beside {beside}", ' text-anchor="end"'))
        made.append(f'<rect x="{LEFT}" y="{y + 3}" width="{min(ratio, END) * scale:.1f}" height="{STEP - 8}" fill="{colour}"/>')
        made.append(text(LEFT + min(ratio, END) * scale + 6, y + 15, f"{ratio:.2f}"))
    made.append(f'<path d="M{one:.1f} {TOP - 4}V{bottom + 4}" stroke="#333" stroke-width="1"/>')
    made.append(text(one, bottom + 20, "1", ' text-anchor="middle"'))
    return "\n".join([*made, "</svg>"]) + "\n"


def main():
    if sys.argv[1:] == ["write"]:
        PLOT.write_text(plot(), encoding="utf-8")
    elif not PLOT.exists() or PLOT.read_text(encoding="utf-8") != plot():
        sys.exit("speeds: docs/speeds.svg isn't what docs/BENCHMARKS.md gives: tools/speeds.py write makes it")
    readme = " ".join((ROOT / "README.md").read_text(encoding="utf-8").split())
    for sentence in sentences():
        if sentence not in readme:
            sys.exit(f"speeds: docs/BENCHMARKS.md gives, and README.md doesn't say: {sentence}")
    print(f"speeds: {len(rows())} bars of docs/speeds.svg and {len([*sentences()])} figures of README.md are those of the tables")


main()
