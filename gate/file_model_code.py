"""The fragments of a file, and the file that some fragments give, by the equations of rebuild(5). Products are those of reference.py."""

import functools
import pathlib
import sys

sys.path.append(str(pathlib.Path(__file__).resolve().parent.parent / "tools"))
from file_model_names import DATA, EACH, PLACES  # noqa: E402
from reference import code_of, inverse, product  # noqa: E402
from store import combined  # noqa: E402


def fragment_length(code, length):
    return -(-length // len(DATA[code]))


@functools.lru_cache(64)
def fragments_of(code, data):
    """The fragments of a file, by places."""
    length, places = fragment_length(code, len(data)), DATA[code]
    parts = [data[k * length:(k + 1) * length].ljust(length, b"\0") for k in range(len(places))]
    rows = [row[:len(places)] for row in code_of(code)[1]]
    return dict(zip(PLACES[code], parts + [combined(row, parts, length) for row in rows]))


@functools.lru_cache(4096)
def solved(code, there):
    """Of each lost place that the fragments at some places determine, what each of these is multiplied by: the equations are cleared of the
    lost places in their order, and the first equation that has one gives it."""
    places, equations = code_of(code)
    rows, pivots = [dict(zip(places, row)) for row in equations], {}
    lost = [place for place in EACH if place in places and place not in there]
    for place in lost:
        at = next((k for k in range(4) if k not in pivots and rows[k][place]), None)
        if at is not None:
            factor = inverse(rows[at][place])
            rows[at] = {other: product(factor, c) for other, c in rows[at].items()}
            pivots[at] = place
            for k in range(4):
                if k != at and rows[k][place]:
                    factor = rows[k][place]
                    rows[k] = {other: c ^ product(factor, rows[at][other]) for other, c in rows[k].items()}
    return {place: {other: c for other, c in rows[at].items() if c and other != place} for at, place in pivots.items()
            if not any(rows[at][other] for other in lost if other != place)}


def determine_all(code, there):
    """Whether fragments at some places determine all of them. None determine nothing."""
    there = frozenset(there) & frozenset(PLACES[code])
    return bool(there) and len(solved(code, there)) + len(there) == len(PLACES[code])


def have_checks(code, there):
    """Whether one of the fragments at some places is determined by the others, so that they are more than determine a stripe."""
    return any(place in solved(code, frozenset(there) - {place}) for place in there)


def parts_of(code, length):
    """The places of a file's parts that have bytes of it."""
    size = fragment_length(code, length)
    return DATA[code][:-(-length // size)] if size else []


def file_of(code, length, fragments):
    """The file of so many bytes that fragments give, by places; none where they don't determine it. What isn't needed for that isn't
    looked at."""
    size, parts, there = fragment_length(code, length), [], frozenset(fragments)
    for place in parts_of(code, length):
        if place in fragments:
            parts.append(fragments[place])
            continue
        row = solved(code, there).get(place)
        if row is None:
            return None
        parts.append(combined(row.values(), [fragments[other] for other in row], size))
    return b"".join(parts)[:length]
