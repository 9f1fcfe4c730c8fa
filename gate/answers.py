#!/usr/bin/env python3
"""Asks for fragments whose bytes were worked out by hand: of line mode, of `solve` with its plan in the heap and in an arena, and of plans
that are remembered; long ones of each length around those that are written at once; and looks at the plans, their trees and values, and
at what is left where a plan, a copy or a graft is refused memory.

It runs what was built last: crates/rebuild/out/rebuild, and tests of lrc_tests, which show what the program doesn't. More lines are in
line-mode.py and reference-lines.sh."""

import itertools
import re
import subprocess
import sys

# No compiled copy of the modules is left beside them.
sys.dont_write_bytecode = True
from served import PROGRAM, SECONDS, Checks  # noqa: E402
from shown import PLACES, element, numbers, read_tree, reference, set_of, set_text, shown  # noqa: E402

NARROW, WIDE = "6-2-2", "12-2-2"
CONTRADICTION, SEVERAL = "contradiction", "several"

# Requests, as a name, a code, the target, the length and survivors, and the answer. Most are over the stripe with x 01 02 03, y 04 05 06,
# px 00, py 07, p0 04 and p1 6E, or over that of the other code with x0 = x5 = 01, y0 = 02, px 00, py 02, p0 72, p1 A6 and no other data;
# both were worked out by hand.
CASES = [
    ("the three others of the group alone", NARROW, "x0 1 x1=02 x2=03 px=00", "01"),
    ("the three others of the group, and data of the other group that nothing shows to be altered", NARROW,
     "x0 1 x1=02 x2=03 px=00 y0=05 y1=05 y2=06", "01"),
    ("the same with the other group's parity, which shows it", NARROW, "x0 1 x1=02 x2=03 px=00 y0=05 y1=05 y2=06 py=07", CONTRADICTION),
    ("the local parity lost too", NARROW, "y0 1 x0=01 x1=02 x2=03 y1=05 y2=06 px=00 p0=04 p1=6E", "04"),
    ("two lost in each group", NARROW, "x0 1 x2=03 y2=06 px=00 py=07 p0=04 p1=6E", "01"),
    ("a global parity from all data", NARROW, "p1 1 x0=01 x1=02 x2=03 y0=04 y1=05 y2=06", "6E"),
    ("a product reduced by the polynomial", NARROW, "p0 1 x0=80 x1=00 x2=00 y0=00 y1=00 y2=00", "3A"),
    ("the same for the other global parity", NARROW, "p1 1 x0=80 x1=00 x2=00 y0=00 y1=00 y2=00", "E8"),
    ("an altered local parity that a global one shows", NARROW, "x0 1 x1=02 x2=03 y0=04 y1=05 y2=06 px=01 py=07 p0=04 p1=6E",
     CONTRADICTION),
    ("an altered local parity that nothing shows", NARROW, "x0 1 x1=02 x2=03 px=01", "00"),
    ("too few survivors, and wrong", NARROW, "x0 1 y0=04 y1=05 y2=06 py=08", CONTRADICTION),
    ("a whole group lost, a member of it wanted", NARROW, "y0 1 x0=01 x1=02 x2=03 px=00 p0=04 p1=6E", SEVERAL),
    ("a whole group lost, a member of the other wanted", NARROW, "x0 1 x1=02 x2=03 px=00 p0=04 p1=6E", "01"),
    ("no survivors", NARROW, "x0 1", SEVERAL),
    ("three positions, both members of a group and both local parities lost", NARROW,
     "x0 3 x2=000000 y0=000000 y1=000000 y2=000000 p0=999591 p1=5E6E7E", "616263"),
    ("the second position alone is wrong", NARROW, "x0 2 y0=0404 y1=0505 y2=0606 py=0708", CONTRADICTION),
    ("the greatest length", NARROW, "x0 65536", SEVERAL),
    ("the six others of the group alone", WIDE, "x0 1 x1=00 x2=00 x3=00 x4=00 x5=01 px=00", "01"),
    ("a global parity from all data", WIDE,
     "p1 1 x0=01 x1=00 x2=00 x3=00 x4=00 x5=01 y0=02 y1=00 y2=00 y3=00 y4=00 y5=00", "A6"),
    ("the other global parity from all data", WIDE,
     "p0 1 x0=01 x1=00 x2=00 x3=00 x4=00 x5=01 y0=02 y1=00 y2=00 y3=00 y4=00 y5=00", "72"),
    ("a group with two lost and its local parity", WIDE,
     "x5 1 x1=00 x2=00 x3=00 x4=00 y0=02 y1=00 y2=00 y3=00 y4=00 y5=00 py=02 p0=72 p1=A6", "01"),
    ("an altered local parity that others show", WIDE,
     "x0 1 x1=00 x2=00 x3=00 x4=00 x5=01 y0=02 y1=00 y2=00 y3=00 y4=00 y5=00 px=01 py=02 p0=72 p1=A6", CONTRADICTION),
    ("an altered local parity that nothing shows", WIDE, "x0 1 x1=00 x2=00 x3=00 x4=00 x5=01 px=01", "00"),
    ("the second position of the other group alone is wrong", WIDE,
     "x0 2 y0=0202 y1=0000 y2=0000 y3=0000 y4=0000 y5=0000 py=0203", CONTRADICTION),
    ("a whole group lost, a member of it wanted", WIDE, "y0 1 x0=01 x1=00 x2=00 x3=00 x4=00 x5=01 px=00 p0=72 p1=A6", SEVERAL),
    ("no survivors at the greatest length", WIDE, "x0 65536", SEVERAL),
]

# How many of the cases of each code are rebuilt.
REBUILT = {NARROW: 10, WIDE: 5}

# Whole stripes but for the target, whose last survivor is altered at its last byte, so that all positions have to be looked at.
WHOLE = [(NARROW, "x0 1 x1=02 x2=03 y0=04 y1=05 y2=06 px=00 py=07 p0=04 p1=6E", "01"),
         (WIDE, "x0 1 x1=00 x2=00 x3=00 x4=00 x5=01 y0=02 y1=00 y2=00 y3=00 y4=00 y5=00 px=00 py=02 p0=72 p1=A6", "01")]

# Lengths around the parts in which an answer's vector is written, of 4,096 bytes, and up to 8,191 for the last.
LENGTHS = [1, 31, 32, 33, 4_095, 4_096, 4_097, 8_191, 8_192, 8_193, 12_288, 65_536]
# And around those in which sums are made and tested.
TESTED = [1, 31, 32, 33, 64, 1_153, 4_100, 65_536]
# The cases that are asked for at each length: the sum of three as they are, a sum of products, the sum of six, products of the other code.
LONG = [CASES[number] for number in (0, 4, 17, 20)]

# How many forks a value is evaluated with; above 4 they count as 4.
FORKS = [0, 2, 255]

# Plans of x0 over a code from these survivors, and how many checks there are. The value has the others of its group as leaves, each once.
GROUPS = {NARROW: ["x1", "x2", "px"], WIDE: ["x1", "x2", "x3", "x4", "x5", "px"]}
LOCAL_CHECKS = {"the group alone": 0, "all others": 3}

# Places of the (6,2,2) code that survive, or else are lost; a target, whether it has a value, and how many checks there are.
CHECKS = [
    ("left", "x1 x2 px", "x0", True, 0),
    ("lost", "y0 py", "y0", True, 2),
    ("lost", "y0 y1 y2 py", "y0", False, 1),
    ("lost", "y0 y1 y2 py x0", "x0", True, 0),
    ("left", "", "x0", False, 0),
]

# A code, how many are lost, how many such sets there are, and in how many of them all lost ones have values.
RECOVERED = [(NARROW, 3, 120, 120), (NARROW, 4, 210, 180), (WIDE, 3, 560, 560)]

# How many bytes of a heap a node of a tree takes, which has 40: whole units of 16; and the first allocation of a call, a vector of so many
# trees, or of none a node.
TREE, NODE = 40, 48
FIRST = [NODE, 48, 80, 128, 160]


def heap_for(allocations, trees):
    """The size of a heap that has room for so many allocations of a call, of which the first is a vector of so many trees, if of any."""
    return NODE * (allocations - 1) + FIRST[trees] if allocations else 0


def places_of(code):
    """The places of a code; its data come first."""
    data, _ = reference.CODES[code]
    return data + reference.PARITIES


def reply(answer):
    """What line mode replies to a request with this answer."""
    return answer if answer in (CONTRADICTION, SEVERAL) else f"rebuilt {answer}"


def outcome(answer):
    """And what tests show of it: the vector has no room to spare."""
    if answer in (CONTRADICTION, SEVERAL):
        return answer
    found = bytes.fromhex(answer)
    return f"rebuilt {len(found)} {[*found]}"


def spread(digits, length):
    """A byte at every third position, so that no two parts of an answer are alike, and 00 elsewhere."""
    return (f"{digits}0000" * (length // 3 + 1))[:2 * length]


def long_request(request, length):
    """A request of one byte, spread over a length."""
    target, _, *survivors = request.split()
    words = [f"{name}={spread(digits, length)}" for name, digits in (it.split("=") for it in survivors)]
    return " ".join([target, str(length), *words])


def altered(request):
    """A request whose last survivor has another last byte."""
    return f"{request[:-2]}{int(request[-2:], 16) ^ 1:02X}"


def long_cases():
    """Requests with their answers that are spread over lengths."""
    return [(code, long_request(request, length), spread(answer, length))
            for length, (_, code, request, answer) in itertools.product(LENGTHS, LONG)]


def long_stripes():
    """Whole stripes of each length, as they are and altered."""
    for length, (code, request, answer) in itertools.product(TESTED, WHOLE):
        long = long_request(request, length)
        yield code, long, spread(answer, length)
        yield code, altered(long), CONTRADICTION


def test_lines(checks, rows):
    """Requests are answered by the program, in one run, and by the test, which shows each answer four times: of `solve` with its plan in
    the heap, and in an arena, of plans that are remembered, and of those once more."""
    lines = "".join(f"code={code} a {request}\n" for code, request, _ in rows)
    ran = subprocess.run([PROGRAM], input=lines.encode(), capture_output=True, timeout=SECONDS, check=False)
    checks.compare("the program's end", (ran.returncode, ran.stderr), (0, b""))
    for (code, request, answer), came in itertools.zip_longest(rows, ran.stdout.decode().splitlines()):
        checks.compare(f"line mode: {code} {request[:200]}", came, reply(answer))
    came = shown([f"answers 0 {code} {request}" for code, request, _ in rows])
    checks.compare("how many outcomes there are", len(came), 4 * len(rows))
    for number, (code, request, answer) in enumerate(rows):
        checks.compare(f"solve: {code} {request[:200]}", came[4 * number:4 * number + 4], [outcome(answer)] * 4)


def values_of(case):
    """What is shown of a case's value, if there is one: at each number of forks how many leaves it has, and its bytes, without forks and
    with so many."""
    _, code, request, _ = case
    for line in shown([f"value {forks} {code} {request}" for forks in FORKS]):
        leaves, alone, forked = re.fullmatch(r"(\d+) (\[.*\]) (\[.*\])", line).groups()
        yield int(leaves), numbers(alone), numbers(forked)


def test_values(checks):
    """The value of each case that is rebuilt gives its bytes at any forks, and that of another the same at all."""
    counts = dict.fromkeys(REBUILT, 0)
    for case in CASES:
        name, code, _, answer = case
        came = list(values_of(case))
        if answer in (CONTRADICTION, SEVERAL):
            checks.compare(f"values at any forks: {code} {name}", [forked for _, _, forked in came], [alone for _, alone, _ in came])
            continue
        found = [*bytes.fromhex(answer)]
        checks.compare(f"the value: {code} {name}", [row[1:] for row in came], [(found, found)] * len(FORKS))
        counts[code] += came[0][0] > 0
    checks.compare("how many are rebuilt by values", counts, REBUILT)
    first_wide = [case[1] for case in CASES].index(WIDE)
    for number, leaves in (0, 3), (first_wide + 1, 12):
        checks.compare(f"leaves of {CASES[number]}", {row[0] for row in values_of(CASES[number])}, {leaves})


class Plan:
    """A plan as it is shown: its checks, and its value, if there is one, with the number of its leaves and their places."""

    def __init__(self, line):
        words = line.split()
        self.checks, self.value, self.nodes = [], None, 0
        while words:
            kind = words.pop(0)
            if kind == "value":
                self.count = int(words.pop(0))
                end = words.index("}") + 1
                self.places = set_of(" ".join(words[:end]))
                del words[:end]
            row, leaves, nodes = read_tree(words)
            self.nodes += nodes
            if kind == "value":
                self.value, self.leaves = row, leaves
            else:
                self.checks.append(row)

    def roots(self):
        return len(self.checks) + (self.value is not None)

    def allocations(self):
        """A vector for the checks, if there are any, and the nodes below the roots."""
        return self.nodes - self.roots() + (len(self.checks) > 0)

    def is_short(self, code):
        """Whether there is a value that reads no more fragments than the code has data."""
        return self.value is not None and 0 < self.count <= len(places_of(code)) - len(reference.PARITIES)


def plans_of(checks, asked):
    """The plans of requests, as code, survivors and target: the same in the heap and in an arena, by the call that names a code and by the
    other."""
    lines = [" ".join(["plans 0", code, target, "1", *(f"{place}=00" for place in survivors)]) for code, survivors, target in asked]
    came = shown(lines)
    checks.compare("how many plans there are", len(came), 4 * len(asked))
    plans = []
    for number, line in enumerate(lines):
        first, *others = came[4 * number:4 * number + 4]
        checks.compare(f"the four plans of {line}", others, [first] * 3)
        plan = Plan(first)
        if plan.value is not None:
            checks.compare(f"leaves of {line}", (len(plan.leaves), set(plan.leaves)), (plan.count, plan.places))
        plans.append(plan)
    return plans


def test_local(checks):
    asked, wanted = [], []
    for (code, group), (which, count) in itertools.product(GROUPS.items(), LOCAL_CHECKS.items()):
        survivors = group if which == "the group alone" else [it for it in places_of(code) if it != "x0"]
        asked.append((code, survivors, "x0"))
        wanted.append((group, count))
    for plan, (group, count) in zip(plans_of(checks, asked), wanted):
        came = plan.count, plan.places, plan.value, len(plan.checks)
        checks.compare(f"x0 of {group}, {count} checks", came, (len(group), set(group), dict.fromkeys(group, 1), count))


def test_checks(checks):
    asked = []
    for which, places, target, *_ in CHECKS:
        survivors = places.split() if which == "left" else [it for it in places_of(NARROW) if it not in places.split()]
        asked.append((NARROW, survivors, target))
    for plan, row in zip(plans_of(checks, asked), CHECKS):
        checks.compare(f"checks of {row}", (plan.is_short(NARROW), len(plan.checks)), row[3:])


def test_recovered(checks):
    """Each three lost places have plans, and most four of the (6,2,2) code."""
    for code, many, sets, whole in RECOVERED:
        places = places_of(code)
        losses = list(itertools.combinations(places, many))
        asked = [(code, [it for it in places if it not in lost], target) for lost in losses for target in lost]
        plans = iter(plans_of(checks, asked))
        came = sum([all([next(plans).is_short(code) for _ in lost]) for lost in losses])
        checks.compare(f"{code}: sets of {many}, and those of which all have values", (len(losses), came), (sets, whole))


def test_heaps(checks):
    """A plan is refused at each of its allocations in turn, and its request at the same ones; else it is the same as in the heap, and the
    request is answered. A plan that is made elsewhere than it is asked for meets fewer refusals than it has allocations."""
    lines, wanted = [], []
    made = shown([f"plans 0 {code} {request}" for _, code, request, _ in CASES])
    for (_, code, request, answer), line in zip(CASES, made[::4]):
        plan = Plan(line)
        for number in range(plan.allocations() + 1):
            lines.append(f"heap {heap_for(number, len(plan.checks))} {code} {request}")
            is_granted = number == plan.allocations()
            wanted += [line, outcome(answer)] if is_granted else [" refused", "refused"]
    came = shown(lines)
    for line, ended, whole in itertools.zip_longest([it for it in lines for _ in range(2)], came, wanted):
        checks.compare(f"in a heap of few bytes: {line}", ended, whole)


# 03 * (x1 + x2), and x1 + x1 before and after 02 * x2 is put in the place of each x1.
SAMPLE = " * 3 + x1 x2"
HOST, SCION, GRAFTED = " + x1 x1", " * 2 x2", " + * 2 x2 * 2 x2"


def coefficients(rows):
    """How coefficients are shown, of which some places have others than 00."""
    return f"[{', '.join(element(rows.get(place, 0)) for place in PLACES)}]"


def test_trees(checks):
    """A copy outlives its arena. Copies and grafts are refused at each of three allocations in turn; then the source stays as it is, and
    both trees come back. Leaves of a place that isn't there are left; those of another are all replaced, and the sum of two equal is 00."""
    came = shown(test="plan::trees::copied_out_of_an_arena")
    checks.compare("a copy out of an arena", came, [SAMPLE + SAMPLE, f"{coefficients({'x1': 3, 'x2': 3})} {TREE}"])
    came = shown([f"copies {heap_for(number, 0)}" for number in range(4)])
    checks.compare("copies in heaps", came, [f" refused{SAMPLE}"] * 3 + [SAMPLE + SAMPLE])
    grafted = f"{GRAFTED} 2 {set_text(['x2'])} {coefficients({})}"
    left = f"{HOST} 2 {set_text(['x1'])} {coefficients({})}"
    came = shown([f"grafts {heap_for(number, 2)} x1" for number in range(4)] + ["grafts 0 y0"])
    checks.compare("grafts", came, [grafted, grafted, f" refused{HOST}{SCION}"] * 3 + [grafted] * 3 + [left] * 3)


def main():
    checks = Checks("answers")
    # Each of the cases comes twice, as a question that plans are remembered for.
    for rows in ([case[1:] for case in CASES] * 2, long_cases(), list(long_stripes())):
        test_lines(checks, rows)
    for test in (test_values, test_local, test_checks, test_recovered, test_heaps, test_trees):
        test(checks)
    checks.end()


if __name__ == "__main__":
    main()
