"""The codes as rebuild(5) has them: what survivors of a stripe determine, whether they belong together, which of them may be damaged, and
how few of them are enough. Damage is found as rebuild-store(1) defines it: by each one and each two of the survivors in turn."""

import functools
import itertools
import pathlib
import sys

sys.path.append(str(pathlib.Path(__file__).resolve().parent.parent / "tools"))
from reference import code_of  # noqa: E402
from store import PRODUCTS, combined  # noqa: E402

INVERSES = [0, *(PRODUCTS[a].index(1) for a in range(1, 256))]
# The order in which lines name places.
ORDER = ["x0", "x1", "x2", "y0", "y1", "y2", "px", "py", "p0", "p1", "x3", "x4", "x5", "y3", "y4", "y5"]
DATA_COUNT = {"6-2-2": 6, "12-2-2": 12}


@functools.lru_cache(maxsize=None)
def places_of(code):
    """The places of a code in the order in which lines name them."""
    return tuple(place for place in ORDER if place in code_of(code)[0])


def times(factor, row):
    return [PRODUCTS[factor][value] for value in row]


@functools.lru_cache(maxsize=200_000)
def solved(code, lost):
    """The equations of a code solved for the lost places: of each its coefficients, the sum of equations that it is, and the place that it
    is solved for, or none."""
    places, equations = code_of(code)
    rows = [row + [int(k == number) for k in range(4)] for number, row in enumerate(equations)]
    done, pivots = 0, []
    for place in (place for place in places if place in lost):
        column = places.index(place)
        at = next((k for k in range(done, 4) if rows[k][column]), None)
        if at is None:
            continue
        rows[done], rows[at] = rows[at], rows[done]
        rows[done] = times(INVERSES[rows[done][column]], rows[done])
        for k in range(4):
            if k != done and rows[k][column]:
                rows[k] = [a ^ b for a, b in zip(rows[k], times(rows[k][column], rows[done]))]
        pivots.append(place)
        done += 1
    return [(dict(zip(places, row)), row[-4:], pivots[k] if k < done else None) for k, row in enumerate(rows)]


@functools.lru_cache(maxsize=200_000)
def checks_of(code, lost):
    """The sums of equations that have no lost place."""
    return [total for _, total, place in solved(code, lost) if place is None]


@functools.lru_cache(maxsize=200_000)
def determined(code, lost):
    """The lost places that the others determine."""
    if len(lost) == len(places_of(code)):
        return frozenset()
    return frozenset(place for row, _, place in solved(code, lost) if place and not any(row[other] for other in lost if other != place))


@functools.lru_cache(maxsize=200_000)
def is_covered(code, lost, place):
    """Whether without any two of the survivors the others determine a lost place."""
    others = [other for other in places_of(code) if other not in lost]
    pairs = itertools.combinations(others, 2) if len(others) > 1 else [others]
    return all(place in determined(code, lost | set(pair)) for pair in pairs)


def are_enough(code, read, wanted, covered):
    """Whether the fragments at some places determine those at the wanted ones, or cover them."""
    lost = frozenset(places_of(code)) - read
    if not covered:
        return wanted <= determined(code, lost)
    return bool(checks_of(code, lost)) and all(is_covered(code, lost, place) for place in wanted)


def fewest_covering(code, survivors, wanted):
    """The sets of as few survivors as cover the wanted places: what has one that does does too, so that sets with one fewer are tried."""
    sets = {survivors}
    while True:
        fewer = {some - {place} for some in sets for place in some}
        fewer = {some for some in fewer if are_enough(code, some, wanted, True)}
        if not fewer:
            return sorted(sets, key=sorted)
        sets = fewer


@functools.lru_cache(maxsize=10_000)
def fewest(code, survivors, wanted, covered):
    """The sets of as few survivors as determine the wanted places, or cover them."""
    if covered:
        return fewest_covering(code, survivors, wanted)
    if not wanted:
        return [frozenset()]
    groups = [frozenset(place for place in places_of(code) if place[0] == group or place == f"p{group}") for group in "xy"]
    local = [group for group in groups if group & wanted]
    if all(len(group & wanted) == 1 and group - wanted <= survivors for group in local) and wanted <= frozenset().union(*local):
        local = frozenset().union(*local) - wanted
        # One of a group takes the others of its group, and no others are as few.
        if len(local) < DATA_COUNT[code]:
            return [local]
    # Each sum of equations with a global one has more places than a stripe has data fragments.
    for size in range(DATA_COUNT[code], len(survivors) + 1):
        sets = [frozenset(some) for some in itertools.combinations(sorted(survivors), size)]
        sets = [some for some in sets if are_enough(code, some, wanted, False)]
        if sets:
            return sets
    raise ValueError(f"{sorted(survivors)} of {code} don't determine {sorted(wanted)}")


def span_of(sums):
    """Columns of which all columns of some texts of one length are sums."""
    sums, span = list(sums), []
    for row in range(len(sums)):
        at = len(sums[row]) - len(sums[row].lstrip(b"\0"))
        if at == len(sums[row]):
            continue
        column = [text[at] for text in sums]
        span.append(column)
        # What is left has 00 in this row.
        factors = times(INVERSES[column[row]], column)
        sums = [combined([1, factor], [text, sums[row]], len(text)) for factor, text in zip(factors, sums)]
    return span


def product_of(row, column):
    total = 0
    for a, b in zip(row, column):
        total ^= PRODUCTS[a][b]
    return total


class Survivors:
    """Fragments of a stripe: their bytes by their places."""

    def __init__(self, code, data, length):
        self.code, self.data, self.length = code, data, length
        self.lost = frozenset(places_of(code)) - frozenset(data)
        places, equations = code_of(code)
        zeros = bytes(length)
        sums = [combined(row, [data.get(place, zeros) for place in places], length) for row in equations]
        self.span = span_of(sums)

    def fit(self, without=()):
        """Whether they belong together without some."""
        checks = checks_of(self.code, self.lost | set(without))
        return not any(product_of(row, column) for row in checks for column in self.span)

    def may_differ(self, without, place):
        """Whether a stripe that has the others has other bytes at a place of those that are left out."""
        return place not in determined(self.code, self.lost | set(without)) or not self.fit(set(without) - {place})

    def damage(self):
        """Without which single ones the others belong together, and which may be damaged; `known` if the damaged one is known."""
        singles = [place for place in self.data if self.fit([place])]
        if not singles:
            return [], set(), False
        pairs = [pair for pair in itertools.combinations(self.data, 2) if self.fit(pair)]
        sets = [*([place] for place in singles), *pairs]
        suspects = {place for some in sets for place in some if self.may_differ(some, place)}
        return singles, suspects, len(singles) == 1 and all(singles[0] in pair for pair in pairs)

    def rebuilt(self, place):
        """The bytes that they determine at a lost place."""
        row = next(row for row, _, solved_for in solved(self.code, self.lost) if solved_for == place)
        return combined([row[other] for other in self.data], self.data.values(), self.length)
