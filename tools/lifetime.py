#!/usr/bin/env python3
"""Says how long the data of a store last, and how much its repairs read: both codes, Reed-Solomon and copies, by a Markov chain.

The states are how many fragments a stripe has lost, each on a disk of its own. Each disk dies at the same rate, whatever happened before.
A repair ends at random and has then rebuilt all that the stripe lost. Its mean time is that until a loss is noticed, and that in which all
disks together read what repairs of a dead disk's stripes take. Stripes that lost most go first, so for several losses only those stripes
are read that have a fragment on each of so many dead disks. How many sets of lost places a code gives back is counted by its equations, and
so is how few survivors a repair reads, on average over these sets.

Left out are causes that several disks share (power, racks, software), damage that nobody sees, disks that age, and repairs that wait for
those of other disks, as they do where they have to read most of what they may. A store's years are a stripe's divided by its stripes, as
if these were lost independently of each other. Those that share disks are lost together, so the first is lost later.

    lifetime.py                   prints a table
    lifetime.py --svg FILE        also draws the store's years by the time until a loss is noticed
    lifetime.py --simulate RUNS   also simulates stripes place by place until they are lost, where disks die often enough for that:
                                  --disk-years 0.001"""

import argparse
import dataclasses
import functools
import itertools
import math
import pathlib
import random
import sys

# No compiled copy of the module is left beside it.
sys.dont_write_bytecode = True
import reference

# The inverse of a byte is looked for among all bytes, so what was found is kept.
reference.inverse = functools.lru_cache(None)(reference.inverse)

MINUTE, DAY, YEAR = 60, 86400, 365.25 * 86400
CODES = "6-2-2,12-2-2,rs-6-4,copies-3"
# Simulations in which repairs read more fragments than this are refused: they would take minutes.
MOST_READS = 100_000_000


@dataclasses.dataclass(frozen=True)
class Code:
    """A code. `counts` has by the number of lost places, from none to the most that may come back, how many sets of so many do; `reads` how
    many survivors their repair reads at least, on average. `sets` are those that come back, a bit a place; None if all these do."""
    name: str
    fragments: int
    data: int
    counts: tuple
    reads: tuple
    sets: frozenset = None

    def comes_back(self, lost, count):
        return count < len(self.counts) if self.sets is None else lost in self.sets

    def kept(self, count):
        """Of the sets of so many lost places that come back, each with any place more, the part that still does."""
        if count + 1 == len(self.counts):
            return 0.0
        return self.counts[count + 1] * (count + 1) / (self.counts[count] * (self.fragments - count))


def any_of(name, fragments, data):
    """A code of which any `data` fragments give back all: Reed-Solomon, or copies, of which one does."""
    lost = range(fragments - data + 1)
    return Code(name, fragments, data, tuple(math.comb(fragments, count) for count in lost), tuple(data if count else 0 for count in lost))


def bits(places):
    return sum(1 << place for place in places)


def fewest_reads(lost, places, parities, sets):
    """How many survivors give back these lost places at least. The equations' columns of the lost places have to be independent of each
    other and of those that stay unread. So these are the survivors in the span of some columns, as many as there are more equations than
    lost places, and the best choice of them is looked for."""
    left = [place for place in range(places) if place not in lost]
    unread = 0
    for some in itertools.combinations(left, parities - len(lost)):
        base = bits(some)
        if base | bits(lost) in sets:
            unread = max(unread, sum(base >> place & 1 or base | 1 << place not in sets for place in left))
    return len(left) - unread


def by_equations(name):
    """A code of reference.py. A set of lost places comes back where its columns of the equations are independent."""
    places, rows = reference.code_of(name)
    sets, counts, reads = set(), [], []
    for count in range(len(rows) + 1):
        for lost in itertools.combinations(range(len(places)), count):
            columns = [[row[place] for place in lost] for row in rows]
            pivots = reference.eliminated(columns, range(count))[1]
            if len(rows) - pivots.count(None) == count:
                sets.add(bits(lost))
    for count in range(len(rows) + 1):
        back = [lost for lost in itertools.combinations(range(len(places)), count) if bits(lost) in sets]
        counts.append(len(back))
        reads.append(sum(fewest_reads(lost, len(places), len(rows), sets) for lost in back) / len(back))
    return Code(name, len(places), len(places) - len(rows), tuple(counts), tuple(reads), frozenset(sets))


def code_named(name):
    """The code of a name as `6-2-2`, `rs-6-4` or `copies-3`; None if there is none."""
    if name in reference.CODES:
        return by_equations(name)
    kind, *numbers = name.split("-")
    if all(number.isdigit() and 0 < int(number) < 100 for number in numbers):
        if kind == "rs" and len(numbers) == 2:
            return any_of(name, int(numbers[0]) + int(numbers[1]), int(numbers[0]))
        if kind == "copies" and len(numbers) == 1 and int(numbers[0]) > 1:
            return any_of(name, int(numbers[0]), 1)
    return None


@dataclasses.dataclass(frozen=True)
class Store:
    """A store, and its repairs: in bytes and seconds, `rate` what all of them may read a second, and `which` survivors they read."""
    disks: int
    disk_bytes: float
    fragment_bytes: float
    life: float
    notice: float
    rate: float
    which: object = "few"

    def __str__(self):
        return (f"{self.disks:,} disks of {self.disk_bytes / 1e12:g} TB that live {self.life / YEAR:g} years; repairs read "
                f"{self.rate / 1e9:.3g} GB a second; fragments of {self.fragment_bytes / 1e6:g} MB")

    def stripes(self, code):
        return self.disks * self.disk_bytes / (code.fragments * self.fragment_bytes)

    def reads(self, code, count):
        """How many fragments a repair of a stripe reads that lost so many."""
        if self.which == "all":
            return code.fragments - count
        return code.reads[count] if self.which == "few" else max(self.which, code.reads[count])

    def repair(self, code, count):
        """The mean time until a stripe that lost so many fragments is repaired."""
        share = math.prod((code.fragments - other) / (self.disks - other) for other in range(1, count))
        return self.notice + share * self.disk_bytes * self.reads(code, count) / self.rate


def chain(code, store):
    """The mean time until a stripe is lost, and how many fragments its repairs read a second."""
    # From so many lost fragments until the stripe is repaired or lost: how likely it is lost, the mean time, how many fragments are read.
    # Sums of what isn't negative alone, so that nothing cancels however much faster repairs are than deaths.
    loss = time = reads = 0.0
    for count in reversed(range(len(code.counts))):
        dying, kept = (code.fragments - count) / store.life, code.kept(count)
        repaired = 1 / store.repair(code, count) if count else 0
        both = dying + repaired
        loss = (dying * (1 - kept) + dying * kept * loss) / both
        time = (1 + dying * kept * time) / both
        reads = (repaired * store.reads(code, count) + dying * kept * reads) / both
    return time / loss, reads / time


def simulated(code, store, runs, seed):
    """The mean time until a stripe is lost, its standard error, and how many fragments its repairs read a second."""
    choose = random.Random(seed)
    times, reads, places = [], 0, range(code.fragments)
    for _ in range(runs):
        deaths = [choose.expovariate(1 / store.life) for _ in places]
        lost, repaired = [], math.inf
        while True:
            place = min(places, key=deaths.__getitem__)
            now = min(repaired, deaths[place])
            if now == repaired:
                reads += store.reads(code, len(lost))
                for place in lost:
                    deaths[place] = now + choose.expovariate(1 / store.life)
                lost, repaired = [], math.inf
                continue
            lost.append(place)
            deaths[place] = math.inf
            if not code.comes_back(bits(lost), len(lost)):
                break
            repaired = now + choose.expovariate(1 / store.repair(code, len(lost)))
        times.append(now)
    mean = sum(times) / runs
    return mean, math.sqrt(sum((it - mean) ** 2 for it in times) / (runs - 1) / runs), reads / sum(times)


# Of the plot: its size, the frame in it, the least and most minutes until a loss is noticed, and their marks.
WIDTH, HEIGHT = 760, 480
LEFT, RIGHT, TOP, BOTTOM = 70, 740, 62, 420
MARKS = {1: "1 minute", 10: "10 minutes", 60: "1 hour", 360: "6 hours", 1440: "1 day", 10080: "1 week"}
# Of each line: how it is dashed, and the sign on it.
STYLES = (("none", "M-5 0a5 5 0 1 0 10 0a5 5 0 1 0 -10 0z"), ("9 4", "M-5 -5h10v10h-10z"), ("2 3", "M0 -6l6 11h-12z"),
          ("12 3 2 3", "M0 -7l6 7l-6 7l-6 -7z"))


def years(code, store):
    """Mean years until a stripe is lost, and at least how many until the first of the store's is."""
    one = chain(code, store)[0] / YEAR
    return one, one / store.stripes(code)


def across(minutes):
    """Where in the plot a time is."""
    return LEFT + (RIGHT - LEFT) * math.log10(minutes) / math.log10(max(MARKS))


def text(x, y, words, anchor="start", more=""):
    return f'<text x="{x:.1f}" y="{y:.1f}" text-anchor="{anchor}"{more}>{words}</text>'


def frame(least, most, down, store):
    """The plot's titles, axes and their marks, for years from one power of ten to another."""
    gray = 'stroke="#bbb" stroke-width="1"'
    yield text(LEFT, 24, "Years until a store loses its first stripe, at least", more=' font-size="17" font-weight="bold"')
    yield text(LEFT, 46, store)
    for power in range(least, most + 1, max(1, (most - least) // 8)):
        yield f'<path d="M{LEFT} {down(power):.1f}H{RIGHT}" {gray}/>'
        yield text(LEFT - 8, down(power) + 4, f'10<tspan dy="-5" font-size="10">{power}</tspan>', "end")
    for minutes, words in MARKS.items():
        yield f'<path d="M{across(minutes):.1f} {TOP}V{BOTTOM}" {gray}/>'
        yield text(across(minutes), BOTTOM + 20, words, "end" if minutes == max(MARKS) else "start" if minutes == 1 else "middle")
    yield f'<rect x="{LEFT}" y="{TOP}" width="{RIGHT - LEFT}" height="{BOTTOM - TOP}" fill="none" stroke="black"/>'
    yield text((LEFT + RIGHT) / 2, HEIGHT - 16, "mean time until a loss is noticed", "middle")


def plot(codes, store):
    """The plot, as the text of an SVG file."""
    steps = sorted({max(MARKS) ** (step / 48) for step in range(49)} | {float(it) for it in MARKS})
    lines = {code: {it: math.log10(years(code, dataclasses.replace(store, notice=it * MINUTE))[1]) for it in steps} for code in codes}
    powers = [power for line in lines.values() for power in line.values()]
    least, most = math.floor(min(powers)), math.ceil(max(powers)) + 1

    def down(power):
        return BOTTOM - (BOTTOM - TOP) * (power - least) / (most - least)

    made = [*frame(least, most, down, store)]
    label = 0
    for (code, line), (dashes, sign) in zip(sorted(lines.items(), key=lambda it: -it[1][1.0]), itertools.cycle(STYLES)):
        points = " ".join(f"{across(it):.1f},{down(power):.1f}" for it, power in line.items())
        made.append(f'<polyline points="{points}" fill="none" stroke="black" stroke-width="2" stroke-dasharray="{dashes}"/>')
        for it in MARKS:
            made.append(f'<path d="{sign}" transform="translate({across(it):.1f} {down(line[it]):.1f})" fill="white" stroke="black"/>')
        # Labels of lines that begin close to each other are kept apart.
        label = max(label + 15, down(line[1.0]) - 9)
        made.append(text(LEFT + 10, label, code.name, more=' font-weight="bold"'))
    head = (f'<svg xmlns="http://www.w3.org/2000/svg" width="{WIDTH}" height="{HEIGHT}" viewBox="0 0 {WIDTH} {HEIGHT}" '
            'font-family="sans-serif" font-size="13" role="img">')
    title = f"<title>Years until a store loses its first stripe: {', '.join(code.name for code in codes)}</title>"
    return "\n".join([head, title, f'<rect width="{WIDTH}" height="{HEIGHT}" fill="white"/>', *made, "</svg>"]) + "\n"


def number(value):
    return f"{value:.1e}".replace("e+", "e")


def table(codes, store):
    """The lines of the table."""
    yield f"{store}; a loss is noticed after {store.notice / MINUTE:g} minutes"
    yield "code       bytes  read for  TB read  of what      years of  of the store,      times"
    yield "          stored  one lost    a day they may      a stripe       at least   copies-3"
    copies = years(any_of("copies-3", 3, 1), store)[1]
    for code in codes:
        one, whole = years(code, store)
        day = chain(code, store)[1] * store.stripes(code) * store.fragment_bytes * DAY
        yield (f"{code.name:<9} {code.fragments / code.data:>6.2f} {store.reads(code, 1):>9.2f} {day / 1e12:>8.2f} "
               f"{day / store.rate / DAY:>8.1%} {number(one):>13} {number(whole):>14} {number(whole / copies):>10}")


def simulations(codes, store, runs, seed):
    """The lines that say what was simulated beside what the chain says."""
    yield f"{'code':<9} days of a stripe, by the chain   simulated   standard error   fragments read a day, by the chain   simulated"
    for code in codes:
        time, reads = chain(code, store)
        if runs * time * reads > MOST_READS:
            sys.exit(f"lifetime: a stripe of {code.name} is repaired too often before it is lost: give fewer --disk-years, or fewer runs")
        mean, error, found = simulated(code, store, runs, seed)
        yield (f"{code.name:<9} {time / DAY:>30.3f} {mean / DAY:>11.3f} {error / DAY:>16.3f} {reads * DAY:>36.2f} {found * DAY:>11.2f}")


def positive(kind):
    """What reads a word as a number of this kind that is above 0."""
    def number_above(word):
        value = kind(word)
        if not 0 < value < math.inf:
            raise argparse.ArgumentTypeError(f"{word} isn't above 0")
        return value
    return number_above


def reads_named(word):
    return word if word in ("few", "all") else positive(float)(word)


def arguments(words):
    parser = argparse.ArgumentParser(description=__doc__, formatter_class=argparse.RawDescriptionHelpFormatter, allow_abbrev=False)
    parser.add_argument("--codes", default=CODES, help=f"{CODES} if not given; rs-DATA-PARITIES and copies-NUMBER are others")
    for name, kind, value, meaning in (
            ("hosts", int, 400, "how many hosts"), ("disks", int, 1, "how many disks a host has"),
            ("disk-terabytes", float, 16, "what a disk holds"), ("disk-years", float, 4, "the mean life of a disk"),
            ("fragment-megabytes", float, 256, "what a fragment holds"),
            ("network-gigabits", float, 1, "what the network of a host carries a second"),
            ("disk-megabytes", float, 150, "what a disk reads a second"),
            ("share", float, 0.1, "the part of these that repairs may take, of the slower for all hosts"),
            ("notice-minutes", float, 30, "the mean time until a loss is noticed")):
        parser.add_argument(f"--{name}", type=positive(kind), default=value, metavar="N", help=f"{meaning} ({value})")
    parser.add_argument("--reads", type=reads_named, default="few", metavar="WHICH",
                        help="how many survivors a repair reads: few, all, or a number for one lost fragment, such as one measured (few)")
    parser.add_argument("--svg", type=pathlib.Path, metavar="FILE", help="where the plot is written")
    parser.add_argument("--simulate", type=positive(int), metavar="RUNS", help="simulate so many stripes of each code, two or more")
    parser.add_argument("--seed", type=int, default=1, metavar="N", help="of the simulation (1)")
    return parser, parser.parse_args(words)


def store_of(given):
    disks = given.hosts * given.disks
    most = min(given.hosts * given.network_gigabits * 1e9 / 8, disks * given.disk_megabytes * 1e6)
    return Store(disks, given.disk_terabytes * 1e12, given.fragment_megabytes * 1e6, given.disk_years * YEAR, given.notice_minutes * MINUTE,
                 given.share * most * (disks - 1) / disks, given.reads)


def main():
    parser, given = arguments(sys.argv[1:])
    codes = [code_named(name) or parser.error(f"--codes: there is no code {name}") for name in given.codes.split(",")]
    store = store_of(given)
    if store.disks < max(code.fragments for code in codes):
        parser.error(f"a stripe has more fragments than there are disks, {store.disks}")
    if given.share > 1 or given.simulate == 1:
        parser.error("--share is at most 1, and --simulate at least 2")
    print(*table(codes, store), sep="\n")
    if given.simulate:
        print("", *simulations(codes, store, given.simulate, given.seed), sep="\n")
    if given.svg:
        given.svg.write_text(plot(codes, store), encoding="ascii")


if __name__ == "__main__":
    main()
