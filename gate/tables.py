#!/usr/bin/env python3
"""Compares the tables that stand in sources as literals with what defines them: the powers and exponents of the field, its products of
half bytes, the values of hexadecimal digits.

    tables.py          compares
    tables.py NAME     prints the rows of a table, as of POWERS"""

import pathlib
import re
import sys

ROOT = pathlib.Path(__file__).resolve().parent.parent
MODULUS = 0x11D


def product(a, b):
    """The product of two polynomials over GF(2), less the multiple of the modulus that leaves a degree below 8."""
    found = 0
    for bit in range(8):
        if b >> bit & 1:
            found ^= a << bit
    for bit in range(14, 7, -1):
        if found >> bit & 1:
            found ^= MODULUS << bit - 8
    return found


def powers():
    found = [1]
    while len(found) < 510:
        found.append(product(found[-1], 2))
    return found


def exponents():
    """Of each element the exponent of x that gives it; 00, which has none, has 0."""
    return [0] + [powers().index(element) for element in range(1, 256)]


def digit_value(byte):
    digit = chr(byte)
    return int(digit, 16) if digit in "0123456789abcdefABCDEF" else 255


TABLES = {
    "POWERS": ("lrc_field/src/tables.rt", powers),
    "EXPONENTS": ("lrc_field/src/tables.rt", exponents),
    "LOW_PRODUCTS": ("lrc_field/src/low_products.rt", lambda: [product(a, b) for a in range(256) for b in range(16)]),
    "HIGH_PRODUCTS": ("lrc_field/src/high_products.rt", lambda: [product(a, 16 * b) for a in range(256) for b in range(16)]),
    "DIGIT_VALUES": ("line_mode/src/hexadecimal.rt", lambda: [digit_value(byte) for byte in range(256)]),
}


def literals(source, name):
    rows = re.search(rf"static {name}: \[u8; \d+\] = \[(.*?)\];", (ROOT / "crates" / source).read_text(), re.S)
    return [int(number, 0) for number in re.findall(r"\w+", rows[1])]


def main():
    if sys.argv[1:]:
        numbers = TABLES[sys.argv[1]][1]()
        for start in range(0, len(numbers), 16):
            print("    " + ", ".join(f"{number:#04x}" for number in numbers[start:start + 16]) + ",")
        return
    for name, (source, made) in TABLES.items():
        if literals(source, name) != made():
            sys.exit(f"tables: {name} of {source} isn't what defines it")
    print(f"tables: {', '.join(TABLES)} are what defines them")


main()
