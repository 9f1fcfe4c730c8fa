#!/usr/bin/env python3
"""Reads request lists of all kinds, each with the records or the fault that it must have.

It runs what was built last: a test of farm_lists_tests, which shows the records of a list, also those after a close, and
crates/rebuild/out/rebuild, which serves a folder that has the list."""

import pathlib
import re
import subprocess
import sys
import tempfile

ROOT = pathlib.Path(__file__).resolve().parent.parent
PROGRAM = ROOT / "crates/rebuild/out/rebuild"
TEST = [ROOT / "crates/farm_lists_tests/out/farm_lists_tests_tests", "lists::read_of_standard_input"]
SECONDS = 300

# What a test ends its output with.
ENDED = "\ntest result: ok\n"

HEADER = b"order,stripe,target,length,survivors\n"
CODED_HEADER = b"order,stripe,target,length,survivors,code\n"

# The faults of lists and of requests by their names, with their numbers.
NUMBERS = {"BadHeader": 19, "BadRecord": 20, "Refused": 21, "InputTooLong": 25, "TooManyOrders": 26}
REQUEST_NUMBERS = {"BadStripe": 1, "BadLength": 2, "Repeated": 3, "NotLost": 4}

BAD_HEADER = "BadHeader"
BAD_FIRST = "BadRecord { number: 1 }"
BAD_SECOND = "BadRecord { number: 2 }"
BAD_STRIPE = "Refused { number: 1, fault: BadStripe }"
BAD_LENGTH = "Refused { number: 1, fault: BadLength }"
REPEATED = "Refused { number: 1, fault: Repeated }"
NOT_LOST = "Refused { number: 1, fault: NotLost }"

# Headers and records after them, and their fault: records without codes; with codes, where each has six fields and each name is one of
# its code's; and headers that a list may not have.
FAULTS = [
    (HEADER, b"rebuild,abc,x0,3", BAD_FIRST),
    (HEADER, b"rebuild,abc,x3,3,", BAD_FIRST),
    (HEADER, b"rebuild,abc,x0,3,x1 x3", BAD_FIRST),
    (HEADER, b"rebuild,abc,x0,3,x1,6-2-2", BAD_FIRST),
    (HEADER, b"close,,,,\nbuild,abc,x0,3,", BAD_SECOND),
    (HEADER, b"rebuild,abc,q0,3,x1", BAD_FIRST),
    (HEADER, b"rebuild,abc,x0,3,x1  x2", BAD_FIRST),
    (HEADER, b"rebuild,abc,x0,3, x1", BAD_FIRST),
    (HEADER, b"rebuild,abc,x0,3,x1 ", BAD_FIRST),
    (HEADER, b"rebuild,abc,x0,3,x1,", BAD_FIRST),
    (HEADER, b"rebuild,abc,x0,,", BAD_FIRST),
    (HEADER, b"rebuild,abc,x0,00000003,", BAD_FIRST),
    (HEADER, b"rebuild,abc,x0,+3,", BAD_FIRST),
    (HEADER, b"rebuild,abc,X0,3,", BAD_FIRST),
    (HEADER, b"Close,,,,", BAD_FIRST),
    (HEADER, b"close,a,,,", BAD_FIRST),
    (HEADER, b"close,,,, ", BAD_FIRST),
    (HEADER, b"close\x00,,,,", BAD_FIRST),
    (HEADER, b"\"rebuild,abc,x0,3,", BAD_FIRST),
    (HEADER, b"rebuild,ABC,x0,0,x1 x1", BAD_STRIPE),
    (HEADER, b"rebuild,\xff,x0,0,x1 x1", BAD_STRIPE),
    (HEADER, b"rebuild,a\x00,x0,3,", BAD_STRIPE),
    (HEADER, b"rebuild,abc,x0,0,x1 x1", BAD_LENGTH),
    (HEADER, b"rebuild,abc,x0,65537,", BAD_LENGTH),
    (HEADER, b"rebuild,abc,x0,3,x0 x0", REPEATED),
    (HEADER, b"rebuild,abc,x0,3,x0", NOT_LOST),
    (HEADER, b"rebuild,,x0,3,", BAD_STRIPE),
    (CODED_HEADER, b"rebuild,abc,x0,3,x1", BAD_FIRST),
    (CODED_HEADER, b"rebuild,abc,x0,3,x1,", BAD_FIRST),
    (CODED_HEADER, b"rebuild,abc,x0,3,x1,6-2-2,", BAD_FIRST),
    (CODED_HEADER, b"rebuild,abc,x0,3,x1,7-2-2", BAD_FIRST),
    (CODED_HEADER, b"rebuild,abc,x0,3,x1,12-2-2 ", BAD_FIRST),
    (CODED_HEADER, b"rebuild,abc,x0,3,x1, 12-2-2", BAD_FIRST),
    (CODED_HEADER, b"rebuild,abc,x0,3,x1,code=6-2-2", BAD_FIRST),
    (CODED_HEADER, b"rebuild,abc,x3,3,,6-2-2", BAD_FIRST),
    (CODED_HEADER, b"rebuild,abc,x0,3,x1 y5,6-2-2", BAD_FIRST),
    (CODED_HEADER, b"rebuild,abc,x6,3,,12-2-2", BAD_FIRST),
    (CODED_HEADER, b"rebuild,abc,x0,3,x1 y6,12-2-2", BAD_FIRST),
    (CODED_HEADER, b"close,,,,", BAD_FIRST),
    (CODED_HEADER, b"close,,,,,6-2-2", BAD_FIRST),
    (CODED_HEADER, b"close,,,,,\nrebuild,abc,x0,3,x3,6-2-2", BAD_SECOND),
    (CODED_HEADER, b"rebuild,abc,x0,3,x3,12-2-2\nrebuild,abc,x0,3,x3,6-2-2", BAD_SECOND),
    (CODED_HEADER, b"rebuild,ABC,x3,0,x3 x3,12-2-2", BAD_STRIPE),
    (CODED_HEADER, b"rebuild,abc,x3,0,x3 x3,12-2-2", BAD_LENGTH),
    (CODED_HEADER, b"rebuild,abc,x3,3,x3 x3,12-2-2", REPEATED),
    (CODED_HEADER, b"rebuild,abc,x3,3,x3,12-2-2", NOT_LOST),
    (CODED_HEADER, b"rebuild,abc,x0,3,x0,6-2-2", NOT_LOST),
    (b"", b"", BAD_HEADER),
    (b"", b"order,stripe,target,length,survivors,Code\n", BAD_HEADER),
    (b"", b"order,stripe,target,length,code,survivors\n", BAD_HEADER),
    (b"", b"order,stripe,target,length,survivors,code,code\n", BAD_HEADER),
    (b"", b"\n\n", BAD_HEADER),
    (b"", b"order,stripe,target,length", BAD_HEADER),
    (b"", b"order,stripe,target,length,survivors,\n", BAD_HEADER),
    (b"", b"Order,stripe,target,length,survivors\n", BAD_HEADER),
    (b"", b" order,stripe,target,length,survivors\n", BAD_HEADER),
]

# Records as they are shown; the request of the list below, with so many first survivors.
CLOSE = "close"
WIDE = "Wide abc X0 3 [X1, X2, X3, X4, X5, Px]"


def abc(survivors):
    return f"Narrow abc X0 3 [{', '.join(['X1', 'X2', 'Px'][:survivors])}]"


# A request and a close, twice.
LIST = HEADER + b"rebuild,abc,x0,3,x1 x2 px\nclose,,,,\n" * 2

# A list without codes is of the (6,2,2) code, and in one with codes each record has its own.
CODED = CODED_HEADER + b"rebuild,abc,x0,3,x1 x2 x3 x4 x5 px,12-2-2\nclose,,,,,\nrebuild,abc,x0,3,x1 x2 px,6-2-2\n"

# Lists and their records. Line ends and quotes change no record, and survivors keep their order.
READ = [
    (CODED, [WIDE, CLOSE, abc(3)]),
    (LIST, [abc(3), CLOSE, abc(3), CLOSE]),
    (HEADER + b"rebuild,a-1,p1,65536,py x0 p0\nclose,,,,\n", ["Narrow a-1 P1 65536 [Py, X0, P0]", CLOSE]),
    (HEADER + b"rebuild,abc,x0,0000003,\n", [abc(0)]),
    (b"\xef\xbb\xbforder,stripe,target,length,survivors\r\nrebuild,abc,x0,3,\r\n", [abc(0)]),
    (b"order,stripe,target,length,survivors\rrebuild,abc,x0,3,\r", [abc(0)]),
    (b"\n\norder,stripe,target,length,survivors\n\n\nrebuild,abc,x0,3,", [abc(0)]),
    (b"\"order\",stripe,target,length,survivors\n\"rebuild\",\"abc\",x0,\"3\",\"\"\n", [abc(0)]),
    (HEADER + b"rebuild,abc,x0,3,\"", [abc(0)]),
]

# What comes after the header of 37 bytes, and what is read. A list has 1,048,576 bytes at most, and 4,096 records: the record after them is
# one too many, whatever it is.
LIMITS = [
    (b"\n" * 1_048_539, []),
    (b"\n" * 1_048_540, "InputTooLong"),
    (b"close,,,,\n" * 4_096, [CLOSE] * 4_096),
    (b"close,,,,\n" * 4_097, "TooManyOrders"),
    (b"close,,,,\n" * 4_096 + b"x\n", "TooManyOrders"),
]

# How many bytes of the list of four records end a record, or begin one that has so many first survivors: what is read of them. The header
# has 36 bytes, and with its line feed each record ends as named. Of others the record that was begun is no record.
CUT = {36: [], 37: [], 54: [abc(0)], 56: [abc(1)], 59: [abc(2)]}
CUT |= dict.fromkeys([62, 63], [abc(3)]) | dict.fromkeys([72, 73], [abc(3), CLOSE])
CUT |= {90: [abc(3), CLOSE, abc(0)], 92: [abc(3), CLOSE, abc(1)], 95: [abc(3), CLOSE, abc(2)]}
CUT |= dict.fromkeys([98, 99], [abc(3), CLOSE, abc(3)]) | dict.fromkeys([108, 109], [abc(3), CLOSE, abc(3), CLOSE])


def read_of_first(length):
    """What is read of so many first bytes of the list of four records."""
    if length in CUT:
        return CUT[length]
    if length < 36:
        return BAD_HEADER
    return f"BadRecord {{ number: {1 if length < 62 else 2 if length < 72 else 3 if length < 98 else 4} }}"


def rows():
    """Lists, each with its records or its fault."""
    for header, records, fault in FAULTS:
        yield header + records, fault
    yield from READ
    for records, read in LIMITS:
        yield HEADER + records, read
    for length in range(len(LIST) + 1):
        yield LIST[:length], read_of_first(length)


def shown(read):
    """What the test shows of a list with these records or this fault."""
    if isinstance(read, str):
        return f"{read}\n"
    before_close = read.index(CLOSE) if CLOSE in read else len(read)
    return "".join(f"{line}\n" for line in [f"{before_close} requests", *read])


def served(read):
    """And what the program says, on standard output and standard error, and its status."""
    if isinstance(read, list):
        return f"served 1 racks, {shown(read).split()[0]} answers\n", "", 0
    name, *others = re.findall(r"[A-Z]\w+|\d+", read)
    number = f"E{NUMBERS[name]}" + "".join(f" E{REQUEST_NUMBERS[it]}" for it in others[1:])
    return "", f"rack0.csv: {f'record {others[0]}: ' if others else ''}{number}\n", 1


def run(words, **how):
    ran = subprocess.run(words, capture_output=True, timeout=SECONDS, check=False, **how)
    return ran.stdout.decode(), ran.stderr.decode(), ran.returncode


def main():
    tried, wrong = 0, []
    assert len(LIST) == 109
    with tempfile.TemporaryDirectory() as folder:
        for given, read in rows():
            (pathlib.Path(folder) / "rack0.csv").write_bytes(given)
            for what, came, wanted in [("is read", run(TEST, input=given), (shown(read) + ENDED, "", 0)),
                                       ("is served", run([PROGRAM, "farm", folder, folder], input=b""), served(read))]:
                tried += 1
                if came != wanted:
                    wrong.append(f"lists: {given[-200:]} {what}:\n  wanted: {str(wanted)[-400:]}\n  came:   {str(came)[-400:]}")
    if wrong:
        print(*wrong, sep="\n")
        sys.exit(f"lists: {len(wrong)} of {tried} are wrong")
    print(f"lists: {tried // 2} lists have the records or the fault that they must have, read and served")


main()
