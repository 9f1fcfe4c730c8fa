#!/usr/bin/env python3
"""Tests tools/lifetime.py: what it counts by the codes' equations against a rule of groups and the reads of docs/CEPH.md, its chain against
formulas by hand and equations solved in fractions, also those of the chain that repairs one fragment at a time, and its simulation against
the chain. Also that docs/lifetime.svg is what it draws, and that docs/SCALE.md says what it computes."""

import dataclasses
import math
import pathlib
import re
import shlex
import subprocess
import sys
import tempfile
import xml.etree.ElementTree

sys.dont_write_bytecode = True
ROOT = pathlib.Path(__file__).resolve().parent.parent
# In place of gate/, whose numbers.py would be taken for Python's, which fractions needs.
sys.path[0] = str(ROOT / "tools")
import fractions  # noqa: E402
import lifetime  # noqa: E402

# By codes: how many data fragments a group has, the sets of four that README gives, and the reads that docs/CEPH.md gives, for one lost
# (on average) and for more.
BY_EQUATIONS = {"6-2-2": (3, 180, 3.6, 6), "12-2-2": (6, 1568, 6.75, 12)}
# The defaults: how long each of 400 disks lives, what it holds, and what repairs read a second from those that are left.
LIFE, DISK, RATE = 4 * 365.25 * 86400, 16e12, 399 * 0.1 * 1e9 / 8
# How many stripes are simulated, of disks that live 0.001 years, and how many standard errors the mean may be from the chain's.
RUNS, SEED, MOST_ERRORS = 2000, 1, 3
# How much longer the times are at most than where a repair rebuilds one fragment.
ONE_AT_A_TIME = 0.004
compared = 0


def close(what, found, wanted, part=1e-9):
    global compared
    compared += 1
    if not abs(found - wanted) <= part * abs(wanted):
        sys.exit(f"lifetime: {what}: {found}, and not {wanted}")


def sets_by_groups(data, lost):
    """How many sets of so many places come back: each group gives one lost place back by itself, and each global parity one more."""
    group = data + 1
    return sum(math.comb(group, x) * math.comb(group, y) * math.comb(2, lost - x - y)
               for x in range(group + 1) for y in range(group + 1)
               if 0 <= lost - x - y <= 2 and max(x - 1, 0) + max(y - 1, 0) + lost - x - y <= 2)


def test_counts(codes):
    for name, (data, four, one, more) in BY_EQUATIONS.items():
        code, places = codes[name], 2 * data + 4
        close(f"the sets of {name}", code.counts == tuple(sets_by_groups(data, lost) for lost in range(5)), True)
        close(f"the sets of four of {name}", code.counts[4], four)
        close(f"the sets of five of {name}", sets_by_groups(data, 5), 0)
        close(f"a fifth place lost of {name}", code.kept(4), 0)
        close(f"a fourth place lost of {name}", code.kept(3), four / math.comb(places, 4))
        close(f"the reads of {name}", code.reads == (0, one, more, more, more), True)
        # x0 x1 x2 and px of (6,2,2) are a group with three more equations than it has; x0 and x1 with two of the other group come back.
        close(f"one group of {name}", code.comes_back(lifetime.bits([0, 1, 2, places - 4]), 4), False)
        close(f"two of each group of {name}", code.comes_back(lifetime.bits([0, 1, data, data + 1]), 4), True)


def solved(rows):
    """The solution of linear equations in fractions, each with what its sum is at its end."""
    rows = [[fractions.Fraction(it) for it in row] for row in rows]
    for column in range(len(rows)):
        at = next(row for row in range(column, len(rows)) if rows[row][column])
        rows[column], rows[at] = rows[at], rows[column]
        rows[column] = [it / rows[column][column] for it in rows[column]]
        for row in range(len(rows)):
            if row != column and rows[row][column]:
                rows[row] = [a - rows[row][column] * b for a, b in zip(rows[row], rows[column])]
    return [row[-1] for row in rows]


def mean_time(places, kept, life, repairs, is_whole):
    """The mean time until a stripe is lost, by an equation for each number of lost fragments: the rates out of it times its time are 1 and
    the rates times the times of where they lead. A repair leads to none lost, or to one less."""
    rows = []
    for count in range(len(kept)):
        row = [0] * (len(kept) + 1)
        dying, repaired = fractions.Fraction(places - count) / fractions.Fraction(life), fractions.Fraction(0)
        if count:
            repaired = 1 / fractions.Fraction(repairs[count - 1])
            row[0 if is_whole else count - 1] -= repaired
        if count + 1 < len(kept):
            row[count + 1] -= dying * fractions.Fraction(kept[count])
        row[count] += dying + repaired
        row[-1] = 1
        rows.append(row)
    return float(solved(rows)[0])


def repairs_by_hand(places, reads, most):
    """The mean times of repairs with the defaults: half an hour, and reading of each disk what shares as many dead disks."""
    two, three = (places - 1) / 399, (places - 1) * (places - 2) / (399 * 398)
    read = [reads[0], two * reads[1], three * reads[1], three * (places - 3) / 397 * reads[1]]
    return [1800 + it * DISK / RATE for it in read[:most]]


def test_chain(codes, store):
    death, repair = 1 / LIFE, 1 / (1800 + DISK / RATE)
    two = lifetime.chain(lifetime.code_named("copies-2"), store)
    close("two copies", two[0], (3 * death + repair) / (2 * death**2))
    close("reads of two copies", two[1], 2 * death * repair / (3 * death + repair))
    four_of_ten = 1 - fractions.Fraction(180, 210), 1 - fractions.Fraction(1568, 1820)
    for name, places, reads, kept in (("6-2-2", 10, (3.6, 6), [1, 1, 1, 1 - four_of_ten[0], 0]),
                                      ("12-2-2", 16, (6.75, 12), [1, 1, 1, 1 - four_of_ten[1], 0]),
                                      ("rs-6-4", 10, (6, 6), [1, 1, 1, 1, 0]), ("copies-3", 3, (1, 1), [1, 1, 0])):
        repairs = repairs_by_hand(places, reads, len(kept) - 1)
        found = lifetime.chain(codes[name], store)[0]
        # Also of disks that die so often that each number of lost fragments counts.
        for life in (LIFE, LIFE / 4000):
            time = lifetime.chain(codes[name], dataclasses.replace(store, life=life))[0]
            close(f"the chain of {name} with disks that live {life} seconds", time, mean_time(places, kept, life, repairs, True))
        close(f"the chain of {name} that repairs one at a time", found, mean_time(places, kept, LIFE, repairs, False), ONE_AT_A_TIME)
        # Where repairs are much faster than deaths, the time is 1 over the product of the rates of deaths and the repairs' times.
        first = next(count for count, it in enumerate(kept) if it != 1)
        product = math.prod((places - count) * death for count in range(first + 1)) * math.prod(repairs[:first]) * float(1 - kept[first])
        close(f"the formula of {name}", found, 1 / product, 0.01)
        close(f"the reads of {name}", lifetime.chain(codes[name], store)[1], places * death * reads[0], 0.01)


def test_simulation(codes, store):
    """The simulated mean is the chain's, but for its standard errors; it isn't that of a chain that takes every four for sets that come
    back."""
    for name, code in codes.items():
        time, reads = lifetime.chain(code, store)
        mean, error, found = lifetime.simulated(code, store, RUNS, SEED)
        close(f"the simulated time of {name}, whose standard error is {error}", mean, time, MOST_ERRORS * error / time)
        close(f"the standard error of {name}", error, 0.025 * mean, 0.5)
        close(f"the simulated reads of {name}", found, reads, 0.02)
        every = tuple(math.comb(code.fragments, count) for count in range(len(code.counts)))
        other = lifetime.chain(dataclasses.replace(code, counts=every), store)[0]
        if every != code.counts and abs(mean - other) < 2 * MOST_ERRORS * error:
            sys.exit(f"lifetime: what is simulated of {name} doesn't tell which sets come back")


def test_plot(scratch):
    drawn = scratch / "drawn.svg"
    subprocess.run([ROOT / "tools/lifetime.py", "--svg", drawn], check=True, stdout=subprocess.DEVNULL)
    kept = (ROOT / "docs/lifetime.svg").read_bytes()
    if drawn.read_bytes() != kept:
        sys.exit("lifetime: docs/lifetime.svg isn't what tools/lifetime.py draws: make lifetime draws it")
    parts = list(xml.etree.ElementTree.fromstring(kept).iter())
    lines = [it for it in parts if it.tag.endswith("polyline")]
    texts = [it.text for it in parts if it.tag.endswith("text")]
    close("the lines of the plot", len({it.get("stroke-dasharray") for it in lines}), 4)
    close("the names of the lines", set(lifetime.CODES.split(",")) <= set(texts), True)


def test_page(codes, store):
    """The page says what repairs read, and how much less a chain gives that repairs one at a time; the command that it shows runs."""
    page = (ROOT / "docs/SCALE.md").read_text()
    section = page[page.index("## How long data last"):].split("\n## ")[0]
    day = [lifetime.chain(code, store)[1] * 86400 * store.stripes(code) * store.fragment_bytes / 1e12 for code in codes.values()]
    read = "repairs read {:.0f} TB a day of (6,2,2), {:.0f} of (12,2,2), {:.0f} of Reed-Solomon 6+4, {:.0f} of three copies".format(*day)
    for sentence in (f"noticed after 30 minutes, {read}.", f"gives up to {ONE_AT_A_TIME:.1%} less"):
        close(f"docs/SCALE.md says {sentence!r}", sentence in " ".join(section.split()), True)
    shown = re.findall(r"^    (tools/lifetime\.py.*)$", section, re.M)
    close("how many commands docs/SCALE.md shows", len(shown), 1)
    subprocess.run(shlex.split(shown[0]), cwd=ROOT, check=True, stdout=subprocess.DEVNULL)


def main():
    codes = {name: lifetime.code_named(name) for name in lifetime.CODES.split(",")}
    store = lifetime.store_of(lifetime.arguments([])[1])
    test_counts(codes)
    test_chain(codes, store)
    test_simulation(codes, dataclasses.replace(store, life=0.001 * lifetime.YEAR))
    with tempfile.TemporaryDirectory() as scratch:
        test_plot(pathlib.Path(scratch))
    test_page(codes, store)
    print(f"lifetime: {compared} comparisons with what is worked out by hand, with the simulation, and of the plot and the page")


if __name__ == "__main__":
    main()
