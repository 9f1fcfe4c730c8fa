#!/usr/bin/env python3
"""Replies to the lines of standard input as the program must: an independent computation, which shares nothing with it.

Products are carry-less products reduced by x^8 + x^4 + x^3 + x^2 + 1, and a request is answered by Gaussian elimination of
the code's equations over its lost places, position by position. It is slow, and meant for comparison alone.

With the arguments `lines NUMBER SEED` it writes so many random lines instead: whole and damaged stripes of both codes, and
lines that are refused. With `questions SEED` it writes a line for each question where one to four fragments are lost, as many as the
codes have parities, and for each other one of the (6,2,2) code, in random order."""

import itertools
import random
import re
import sys

CODES = {
    '6-2-2': (['x0', 'x1', 'x2', 'y0', 'y1', 'y2'], [0x04, 0x08, 0x0C, 0x01, 0x02, 0x03]),
    '12-2-2': (['x0', 'x1', 'x2', 'x3', 'x4', 'x5', 'y0', 'y1', 'y2', 'y3', 'y4', 'y5'],
               [0x10, 0x20, 0x30, 0x40, 0x50, 0x60, 0x01, 0x02, 0x03, 0x04, 0x05, 0x06]),
}
PARITIES = ['px', 'py', 'p0', 'p1']


def product(a, b):
    """The product of two bytes in GF(256)."""
    r = 0
    while b:
        if b & 1:
            r ^= a
        a <<= 1
        if a & 0x100:
            a ^= 0x11D
        b >>= 1
    return r


def inverse(a):
    """The byte whose product with this one is 1."""
    return next(b for b in range(256) if product(a, b) == 1)


def code_of(name):
    """The places of a code, and its equations: of each the coefficients of the places."""
    data, first = CODES[name]
    places = data + PARITIES
    coefficients = [
        [1 if place[0] == 'x' else 0 for place in data],
        [1 if place[0] == 'y' else 0 for place in data],
        first,
        [product(c, c) for c in first],
    ]
    rows = [row + [1 if parity == k else 0 for parity in range(4)] for k, row in enumerate(coefficients)]
    return places, rows


def eliminated(rows, lost):
    """The rows brought to a reduced form over the lost columns: of each its pivot's column or none."""
    rows = [list(row) for row in rows]
    pivots = []
    done = 0
    for column in lost:
        at = next((k for k in range(done, len(rows)) if rows[k][column]), None)
        if at is None:
            continue
        rows[done], rows[at] = rows[at], rows[done]
        factor = inverse(rows[done][column])
        rows[done] = [product(factor, c) for c in rows[done]]
        for k in range(len(rows)):
            if k != done and rows[k][column]:
                factor = rows[k][column]
                rows[k] = [c ^ product(factor, d) for c, d in zip(rows[k], rows[done])]
        pivots.append(column)
        done += 1
    return rows, pivots + [None] * (len(rows) - done)


def answer(name, target, length, survivors):
    """The reply to an accepted request; survivors are bytes by the names of their places."""
    places, equations = code_of(name)
    lost = [k for k, place in enumerate(places) if place not in survivors]
    wanted = places.index(target)
    rows, pivots = eliminated(equations, lost)
    given = [survivors.get(place, bytes(length)) for place in places]
    sums = []
    for row in rows:
        total = bytearray(length)
        for place in range(len(places)):
            if place not in lost and row[place]:
                for k, byte in enumerate(given[place]):
                    total[k] ^= product(row[place], byte)
        sums.append(total)
    if any(pivot is None and any(total) for pivot, total in zip(pivots, sums)):
        return 'contradiction'
    for row, pivot, total in zip(rows, pivots, sums):
        if pivot == wanted and not any(row[k] for k in lost if k != wanted):
            return 'rebuilt ' + total.hex().upper()
    return 'several'


def reply(line):
    """The reply to a line, which is bytes without its line end; none for a line of spaces."""
    if not line.strip(b' '):
        return None
    if any(byte < 0x20 or byte > 0x7E for byte in line):
        return 'refused E22'
    words = line.decode().split()
    name = '6-2-2'
    if words[0] in ('code=6-2-2', 'code=12-2-2'):
        name = words[0][5:]
        words = words[1:]
    places = CODES[name][0] + PARITIES
    if len(words) < 3 or words[1] not in places or not re.fullmatch('[0-9]{1,7}', words[2]):
        return 'refused E22'
    survivors = []
    for word in words[3:]:
        place, equals, digits = word.partition('=')
        if not equals or place not in places or len(digits) % 2 or not re.fullmatch('[0-9a-fA-F]*', digits):
            return 'refused E22'
        survivors.append((place, bytes.fromhex(digits)))
    length = int(words[2])
    names = [place for place, _ in survivors]
    if not re.fullmatch('[a-z0-9-]{1,32}', words[0]):
        return 'refused E1'
    if not 1 <= length <= 65536:
        return 'refused E2'
    if len(set(names)) != len(names):
        return 'refused E3'
    if words[1] in names:
        return 'refused E4'
    if any(len(data) != length for _, data in survivors):
        return 'refused E5'
    return answer(name, words[1], length, dict(survivors))


def stripe(name, length, choose):
    """A stripe of the code with random data, by the names of its places."""
    places, rows = code_of(name)
    data = [bytes(choose.choice([0, 1, choose.randrange(256)]) for _ in range(length)) for _ in places[:-4]]
    parities = []
    for row in rows:
        total = bytearray(length)
        for c, source in zip(row, data):
            for k, byte in enumerate(source):
                total[k] ^= product(c, byte)
        parities.append(bytes(total))
    return dict(zip(places, data + parities))


def random_line(choose):
    """A line of either code: mostly an accepted one, of a stripe that is whole or has a few bytes altered."""
    name = choose.choice(['6-2-2', '12-2-2', '12-2-2'])
    length = choose.choice([1, 1, 2, 3, 4, choose.randrange(1, 48)])
    fragments = stripe(name, length, choose)
    places = list(fragments)
    lost = choose.sample(places, choose.choice([1, 2, 3, 3, 4, 4, 5, choose.randrange(1, len(places) + 1)]))
    target = choose.choice(lost)
    survivors = [place for place in places if place not in lost]
    choose.shuffle(survivors)
    for place in choose.sample(survivors, min(len(survivors), choose.choice([0, 0, 0, 1, 2]))):
        altered = bytearray(fragments[place])
        altered[choose.randrange(length)] ^= choose.randrange(1, 256)
        fragments[place] = bytes(altered)
    words = [place + '=' + ''.join(choose.choice([d.upper(), d]) for d in fragments[place].hex()) for place in survivors]
    fault = choose.randrange(40)
    if fault == 0:
        words.append(choose.choice(['x3=00', 'y5=00', 'x6=' + '00' * length, 'q', '=00', 'x1=0', 'x1=0g', 'code=12-2-2']))
    elif fault == 1:
        words.append(choose.choice(words or ['x0=']))
    elif fault == 2:
        words.append(target + '=' + '00' * length)
    elif fault == 3:
        words.append(choose.choice([p for p in lost if p != target] or ['p0']) + '=' + '00' * (length + 1))
    elif fault == 4:
        target = choose.choice(['x3', 'y4', 'x6', 'X0', ''])
    stripe_word = choose.choice(['a', 'b', 'abc', 'disk-7', 'z9' * 16] * 6 + ['A', 'z9' * 16 + 'z'])
    length_word = choose.choice([str(length), '%07d' % length] * 18 + ['0', '65537', '%08d' % length])
    front = ['code=' + name] if name == '12-2-2' or choose.randrange(2) else []
    if choose.randrange(60) == 0:
        front = [choose.choice(['code=7-2-2', 'code=', 'code=12-2-2 code=12-2-2', 'code=6-2-2'])]
    line = front + [stripe_word, target, length_word] + words
    if choose.randrange(80) == 0:
        line = line[:choose.randrange(1, 4)]
    return choose.choice(['', '', ' ', '  ']) + choose.choice([' ', ' ', '  ']).join(line) + choose.choice(['', '', ' '])


def all_questions(choose):
    """A line for each lost fragment of each set of survivors: of the (6,2,2) code, and of the (12,2,2) code where up to four are lost."""
    lines = []
    for name, most in [('6-2-2', 10), ('12-2-2', 4)]:
        fragments = stripe(name, 1, choose)
        for count in range(1, most + 1):
            for lost in itertools.combinations(fragments, count):
                words = [place + '=' + fragments[place].hex() for place in fragments if place not in lost]
                lines += [' '.join(['code=' + name, 'a', target, '1'] + words) for target in lost]
    choose.shuffle(lines)
    return lines


def main():
    if sys.argv[1:2] == ['questions']:
        print(*all_questions(random.Random(int(sys.argv[2]))), sep='\n')
        return
    if sys.argv[1:2] == ['lines']:
        choose = random.Random(int(sys.argv[3]))
        for _ in range(int(sys.argv[2])):
            print(random_line(choose))
        return
    text = sys.stdin.buffer.read()
    lines = text.split(b'\n')
    if not lines[-1]:
        lines.pop()
    else:
        # A last line without a line feed keeps its carriage return.
        lines[-1] += b'\r'
    for line in lines:
        answer = reply(line[:-1] if line.endswith(b'\r') else line)
        if answer is not None:
            print(answer)


if __name__ == '__main__':
    main()
