"""What the scripts share that test what tests of lrc_tests show: how these are run, and the trees of plans that they show."""

import pathlib
import re
import subprocess
import sys

# No compiled copy of the modules is left beside them.
sys.dont_write_bytecode = True
ROOT = pathlib.Path(__file__).resolve().parent.parent
sys.path.append(str(ROOT / "tools"))
import reference  # noqa: E402

TESTS = ROOT / "crates/lrc_tests/out/lrc_tests_tests"
SECONDS = 300

# What a test ends its output with.
ENDED = "\ntest result: ok\n"

# The places in the order of their indexes.
PLACES = "x0 x1 x2 y0 y1 y2 px py p0 p1 x3 x4 x5 y3 y4 y5".split()


def shown(lines=(), test="lines::shown_of_lines"):
    """The lines that a test shows, of these lines if it is the one that takes some."""
    text = "".join(f"{line}\n" for line in lines)
    ran = subprocess.run([TESTS, test], input=text.encode(), capture_output=True, timeout=SECONDS, check=False)
    out = ran.stdout.decode()
    if ran.returncode != 0 or ran.stderr or not out.endswith(ENDED):
        sys.exit(f"{test}: status {ran.returncode}, {ran.stderr[-300:]!r}, output {out[-300:]!r}")
    return out.removesuffix(ENDED).splitlines()


def element(value):
    """How an element is shown."""
    return f"Gf {{ value: {value} }}"


def option(value):
    """How an option is shown."""
    return "None" if value is None else f"Some({value})"


def set_text(places):
    """How a set of places is shown."""
    return f"PlaceSet {{ has: [{', '.join(str(place in places).lower() for place in PLACES)}] }}"


def numbers(text):
    """The numbers of a list, as it is shown: of bytes, or of elements with their name."""
    return [int(it) for it in re.findall(r"\d+", text)]


def set_of(text):
    """The names of the places of a set, which is shown as whether each place is in it."""
    flags = re.findall(r"true|false", text)
    assert len(flags) == len(PLACES), text
    return {place for place, flag in zip(PLACES, flags) if flag == "true"}


def read_tree(words):
    """Takes a tree from the start of words, each node before those below it; gives its coefficients by places, its leaves in their order,
    and how many nodes it has."""
    word = words.pop(0)
    if word == "+":
        (left, *of_left), (right, *of_right) = read_tree(words), read_tree(words)
        sums = {place: left.get(place, 0) ^ right.get(place, 0) for place in left | right}
        return sums, of_left[0] + of_right[0], of_left[1] + of_right[1] + 1
    if word == "*":
        scalar = int(words.pop(0))
        below, leaves, nodes = read_tree(words)
        return {place: reference.product(scalar, it) for place, it in below.items()}, leaves, nodes + 1
    assert word in PLACES, word
    return {word: 1}, [word], 1
