#!/usr/bin/env python3
"""Runs line mode over inputs whose replies were worked out by hand: lines of all kinds, long ones, the greatest input and one byte more;
and by devices that give and take few bytes at a call, or fail.

It runs what was built last: crates/rebuild/out/rebuild, and two tests of farm_lists_tests, which show what the program doesn't: how many
lines were answered and refused, when the output was flushed, a fault's text, and the replies of `line_mode`, which starts no threads."""

import dataclasses
import errno
import itertools
import os
import pathlib
import subprocess
import sys
import tempfile
from concurrent.futures import ThreadPoolExecutor

# No compiled copy of the modules is left beside them.
sys.dont_write_bytecode = True
import devices  # noqa: E402
import refusals  # noqa: E402

ROOT = pathlib.Path(__file__).resolve().parent.parent
TESTS = ROOT / "crates/farm_lists_tests/out/farm_lists_tests_tests"
SECONDS = 300

# What a test ends its output with.
ENDED = b"\ntest result: ok\n"

# How each fault is told: its text, its number and its status.
FAULTS = {"too long": ("the input is too long", 25, 1), "device": ("a read or a write failed", 24, 3),
          "memory": ("memory was refused", 16, 4)}

# Inputs, what is written for them, and how many lines are answered and refused.
WORKED = [
    # Lines that are answered, and their answers. Stripe a has the data 01 02 03 04 05 06.
    # The other three of a group give the lost one.
    (b"a x0 1 x1=02 x2=03 px=00\n", b"rebuilt 01\n", 1, 0),
    # The local parity is lost too: the global parities give it, and two equations are left to check.
    (b"a y0 1 x0=01 x1=02 x2=03 y1=05 y2=06 px=00 p0=04 p1=6E\n", b"rebuilt 04\n", 1, 0),
    # Four lost, two in each group.
    (b"a x0 1 x2=03 y2=06 px=00 py=07 p0=04 p1=6E\n", b"rebuilt 01\n", 1, 0),
    (b"a p1 1 x0=01 x1=02 x2=03 y0=04 y1=05 y2=06\n", b"rebuilt 6E\n", 1, 0),
    # The products pass x^8.
    (b"e p0 1 x0=80 x1=00 x2=00 y0=00 y1=00 y2=00\n", b"rebuilt 3A\n", 1, 0),
    (b"e p1 1 x0=80 x1=00 x2=00 y0=00 y1=00 y2=00\n", b"rebuilt E8\n", 1, 0),
    # px is altered, and p0 shows it.
    (b"a x0 1 x1=02 x2=03 y0=04 y1=05 y2=06 px=01 py=07 p0=04 p1=6E\n", b"contradiction\n", 1, 0),
    # px is altered, and nothing shows it.
    (b"a x0 1 x1=02 x2=03 px=01\n", b"rebuilt 00\n", 1, 0),
    # Too few survivors for the target, and one of them is wrong.
    (b"a x0 1 y0=04 y1=05 y2=06 py=08\n", b"contradiction\n", 1, 0),
    # A whole group of four is lost.
    (b"a y0 1 x0=01 x1=02 x2=03 px=00 p0=04 p1=6E\n", b"several\n", 1, 0),
    # The target is determined, though the other group isn't.
    (b"a x0 1 x1=02 x2=03 px=00 p0=04 p1=6E\n", b"rebuilt 01\n", 1, 0),
    (b"a x0 1\n", b"several\n", 1, 0),
    # x1, px and py are lost too.
    (b"abc x0 3 x2=000000 y0=000000 y1=000000 y2=000000 p0=999591 p1=5E6E7E\n", b"rebuilt 616263\n", 1, 0),
    # Only the second position is wrong.
    (b"a x0 2 y0=0404 y1=0505 y2=0606 py=0708\n", b"contradiction\n", 1, 0),
    # The greatest length.
    (b"a x0 65536\n", b"several\n", 1, 0),
    (b"a x0 0000001\n", b"several\n", 1, 0),
    # Digits in lower case and in both, spaces before, after and between.
    (b"   abc  x0   3 x1=0a0B0c  x2=0A0b0C px=ffFFfF   \n", b"rebuilt FFFFFF\n", 1, 0),
    (b"0-z p1 1 p0=ff\n", b"several\n", 1, 0),
    # The (12,2,2) code: stripe b has the data x0 = x5 = 01, y0 = 02 and 00 elsewhere. The six others of a group.
    (b"code=12-2-2 b x0 1 x1=00 x2=00 x3=00 x4=00 x5=01 px=00\n", b"rebuilt 01\n", 1, 0),
    (b"code=12-2-2 b p1 1 x0=01 x1=00 x2=00 x3=00 x4=00 x5=01 y0=02 y1=00 y2=00 y3=00 y4=00 y5=00\n", b"rebuilt A6\n", 1, 0),
    (b"code=12-2-2 b p0 1 x0=01 x1=00 x2=00 x3=00 x4=00 x5=01 y0=02 y1=00 y2=00 y3=00 y4=00 y5=00\n", b"rebuilt 72\n", 1, 0),
    # x0, x5 and px are lost.
    (b"code=12-2-2 b x5 1 x1=00 x2=00 x3=00 x4=00 y0=02 y1=00 y2=00 y3=00 y4=00 y5=00 py=02 p0=72 p1=A6\n", b"rebuilt 01\n", 1, 0),
    # px is altered.
    (b"code=12-2-2 b x0 1 x1=00 x2=00 x3=00 x4=00 x5=01 y0=02 y1=00 y2=00 y3=00 y4=00 y5=00 px=01 py=02 p0=72 p1=A6\n",
     b"contradiction\n", 1, 0),
    (b"code=6-2-2 a x0 1 x1=02 x2=03 px=00\n", b"rebuilt 01\n", 1, 0),
    # Lines that are refused, and by which number.
    (b"b x3 1\n", b"refused E22\n", 0, 1),
    (b"code=6-2-2 b x3 1\n", b"refused E22\n", 0, 1),
    (b"code=12-2-2 b x6 1\n", b"refused E22\n", 0, 1),
    (b"code=12-2-2\n", b"refused E22\n", 0, 1),
    (b"code=6-2-2 x0 1\n", b"refused E22\n", 0, 1),
    (b"code=7-2-2 x0 1\n", b"refused E1\n", 0, 1),
    (b"a x0 0\n", b"refused E2\n", 0, 1),
    (b"a x0 65537\n", b"refused E2\n", 0, 1),
    (b"a x0 1 x0=01\n", b"refused E4\n", 0, 1),
    (b"a x0 1 x1=02 x1=02\n", b"refused E3\n", 0, 1),
    (b"a x0 1 x0=01 x0=01\n", b"refused E3\n", 0, 1),
    (b"A x0 1\n", b"refused E1\n", 0, 1),
    (b"a x0 2 x1=02\n", b"refused E5\n", 0, 1),
    (b"a z9 1\n", b"refused E22\n", 0, 1),
    (b"a x0 1 x1=0\n", b"refused E22\n", 0, 1),
    (b"a x0\n", b"refused E22\n", 0, 1),
    # The name of a stripe.
    (b"abcdefghijklmnopqrstuvwxyz012345 x0 1 x0=\n", b"refused E4\n", 0, 1),
    (b"abcdefghijklmnopqrstuvwxyz0123456 x0 1 x0=\n", b"refused E1\n", 0, 1),
    (b"a.b x0 0\n", b"refused E1\n", 0, 1),
    (b"x1=00 x0 0\n", b"refused E1\n", 0, 1),
    # The form of a line comes before all that is said of its request.
    (b"A x0 0 x0=01 x0=02 x1=0G\n", b"refused E22\n", 0, 1),
    (b"A x0 0 x0=01 x0=02\n", b"refused E1\n", 0, 1),
    (b"a x0 0 x0=01 x0=02\n", b"refused E2\n", 0, 1),
    (b"a x0 1 x0=01 x0=02 x1=0000\n", b"refused E3\n", 0, 1),
    (b"a x0 1 x0=01 x1=0000\n", b"refused E4\n", 0, 1),
    # Words that are missing or of another form.
    (b"a\n", b"refused E22\n", 0, 1),
    (b"a X0 1\n", b"refused E22\n", 0, 1),
    (b"a x0x0 1\n", b"refused E22\n", 0, 1),
    (b"a x0 1 x1\n", b"refused E22\n", 0, 1),
    (b"a x0 1 =00\n", b"refused E22\n", 0, 1),
    (b"a x0 1 x3=00\n", b"refused E22\n", 0, 1),
    (b"a x0 1 x1=00=00\n", b"refused E22\n", 0, 1),
    (b"a x0 1 x1= 00\n", b"refused E22\n", 0, 1),
    (b"a x0 1 x1=0x\n", b"refused E22\n", 0, 1),
    (b"a x0 1 x1=\n", b"refused E5\n", 0, 1),
    # Lengths.
    (b"a x0 -1\n", b"refused E22\n", 0, 1),
    (b"a x0 +1\n", b"refused E22\n", 0, 1),
    (b"a x0 1.0\n", b"refused E22\n", 0, 1),
    (b"a x0 00000001\n", b"refused E22\n", 0, 1),
    (b"a x0 9999999\n", b"refused E2\n", 0, 1),
    (b"a x0 x1=00\n", b"refused E22\n", 0, 1),
    # Bytes that aren't printable.
    (b"a x0 1\x00\n", b"refused E22\n", 0, 1),
    (b"a\tx0 1\n", b"refused E22\n", 0, 1),
    (b"a\x1f x0 1\n", b"refused E22\n", 0, 1),
    (b"a x0 1\x7f\n", b"refused E22\n", 0, 1),
    (b"\xc3\xa4 x0 1\n", b"refused E22\n", 0, 1),
    (b"a x0 1\r\r\n", b"refused E22\n", 0, 1),
    # How an input is cut into lines, and which of them get a reply.
    # The last line needs no line feed.
    (b"", b"", 0, 0),
    (b"a x0 1 x1=02 x2=03 px=00", b"rebuilt 01\n", 1, 0),
    # One carriage return before a line feed is dropped, and no other.
    (b"a x0 1\r\na x0 1\r\r\na x0 1\r", b"several\nrefused E22\nrefused E22\n", 1, 2),
    # Blank lines give nothing; a lone carriage return at the end is no blank line.
    (b"\n\n  \n\r\n   \r\n a x0 1\n   ", b"several\n", 1, 0),
    (b"\r", b"refused E22\n", 0, 1),
    (b" \r\r\n", b"refused E22\n", 0, 1),
]

# The digits in either case, and as they are written.
GIVEN, WRITTEN = b"0123456789abcdefABCDEF" * 12, b"0123456789ABCDEFABCDEF" * 12

# The numbers of bytes of fragments: around those that are read at once.
LENGTHS = [1, 2, 7, 8, 9, 15, 16, 17, 31, 32, 33, 64, 65, 127]

# Long inputs, whose last line has no line feed.
LONG = [
    # Fragments of the greatest length: A5 + 5A + FF is 00 at each position.
    (b"a x0 65536 x1=%s x2=%s px=%s" % (b"A5" * 65_536, b"5a" * 65_536, b"fF" * 65_536), b"rebuilt %s\n" % (b"00" * 65_536), 1, 0),
    # Lines that are refused.
    (b"a x0 1" + b" x1=02" * 300, b"refused E3\n", 0, 1),
    (b"a x0 1 x2=03" + b" x1=" * 100_000, b"refused E3\n", 0, 1),
    (b"a x0 1 x1=" + b"02" * 65_537, b"refused E5\n", 0, 1),
    (b"x0 x0 1" + b" x0" * 100_000, b"refused E22\n", 0, 1),
    (b"a x0 " + b"1" * 100_000, b"refused E22\n", 0, 1),
    (b"a " + b" " * 1_000_000, b"refused E22\n", 0, 1),
    (b"a" * 1_000_000, b"refused E22\n", 0, 1),
    (b"a x0 1" + b"\0" * 1_000_000, b"refused E22\n", 0, 1),
    # A line that goes on past the middle of a long input, to its end or almost.
    (b"a x0 1\n" + b"a" * 300_000, b"several\nrefused E22\n", 1, 1),
    (b"a x0 1\n" + b"a" * 300_000 + b"\na x0 1", b"several\nrefused E22\nseveral\n", 2, 1),
]

# So many lines each have their replies in order, a third of them refusals: in one piece, two, three or four.
THIRDS = [100, 5_000, 10_000, 20_000]

# The input of the program's stored run, whose ten lines are all answered.
TEN_LINES = (ROOT / "crates/rebuild/stdin").read_bytes()
TEN_REPLIES = (ROOT / "crates/rebuild/stdout").read_bytes()

# How many bytes a device moves at a call, how many reads give the 376 bytes of the ten lines and then their end, and the read or the write
# that is interrupted, if one is. It is made again.
WHOLE = [(1, 377, {}), (2, 189, {}), (7, 55, {}), (100, 5, {}), (1_000, 2, {}),
         (200, 4, {"read": 0}), (200, 4, {"read": 1}), (200, 4, {"read": 2}), (1_000, 2, {"write": 0})]

# How many bytes a device moves at a call, and of which calls each fails in a run of its own. A test's flushes are writes.
FAILING = [(1, "read"), (100, "read"), (1_000, "read"), (1, "write"), (10, "write"), (1_000, "write")]

# The greatest length of an input, and how often a reader is asked at most.
LIMIT = 8_388_608
READ_TURNS = 16_777_216


@dataclasses.dataclass(frozen=True)
class Way:
    """A way to run line mode: by the program, or by a test that shows more of it."""

    name: str
    words: tuple
    is_test: bool = True

    def replied(self, text, answered, refused):
        """How it ends where it replies by a text: its output, standard error and status."""
        status = 1 if refused else 0
        if self.is_test:
            return text + ENDED, b"%d answered, %d refused: status %d\n" % (answered, refused, status), 0
        return text, b"", status

    def failed(self, fault, text=b""):
        """How it ends for a fault after it wrote a text."""
        said, number, status = FAULTS[fault]
        if self.is_test:
            return text + ENDED, f"E{number}: {said}: status {status}\n".encode(), 0
        return text, b"E%d\n" % number, status

    def text(self, output):
        """What line mode wrote of an output."""
        return output.removesuffix(ENDED) if self.is_test else output


PROGRAM = Way("rebuild", (ROOT / "crates/rebuild/out/rebuild",), False)
ALONE = Way("line_mode", (TESTS, "lines::replied_to_in_one_thread"))
THREADS = Way("line_mode_in_threads", (TESTS, "lines::replied_to_in_threads"))
WAYS = (PROGRAM, ALONE, THREADS)


@dataclasses.dataclass
class Found:
    """What was tried, and what came to something else."""

    tried: int = 0
    wrong: list = dataclasses.field(default_factory=list)

    def compare(self, what, came, wanted):
        self.tried += 1
        if came != wanted:
            self.wrong.append(f"line-mode {what}\n  wanted: {short(wanted)}\n  came:   {short(came)}")


def short(value):
    """A value, and of a long one both ends."""
    shown = repr(value)
    return shown if len(shown) <= 400 else f"{shown[:250]} .. {shown[-150:]}"


def run(way, given, environment=None):
    """Runs line mode on an input, in bytes or a file, and gives its output, standard error and status."""
    how = {"input": given} if isinstance(given, bytes) else {"stdin": given}
    try:
        ran = subprocess.run(way.words, capture_output=True, env=environment or {}, timeout=SECONDS, check=False, **how)
    except subprocess.TimeoutExpired:
        return b"", b"had not ended after %d seconds" % SECONDS, None
    return ran.stdout, ran.stderr, ran.returncode


class Device(devices.Device):
    """slow-device.c, by which line mode is run."""

    def run(self, way, given, most="", error=0, **failing):
        """How line mode ends on an input, and the numbers of reads, writes and flushed bytes."""
        return self.counted(lambda environment: run(way, given, environment), most, error, **failing)


def test_lines(found, pool):
    """Each input in a run of its own."""
    rows = [(way, *row) for row in WORKED + LONG for way in WAYS]
    for (way, given, *wanted), ended in zip(rows, pool.map(lambda row: run(*row[:2]), rows)):
        found.compare(f"{way.name}: {short(given)}", ended, way.replied(*wanted))


def digit_lines():
    """Lines with the digits of px, each with its reply: where x1 and x2 are 00 everywhere, x0 is px."""
    for count in LENGTHS:
        zeros, size = b"00" * count, 2 * count
        yield b"a x0 %d x1=%s x2=%s px=%s\n" % (count, zeros, zeros, GIVEN[:size]), b"rebuilt %s\n" % WRITTEN[:size]
    # A character that is no digit is found at each index.
    for place in range(80):
        yield b"a x0 40 px=%sG%s\n" % (GIVEN[:place], GIVEN[place + 1:80]), b"refused E22\n"
    # Of all bytes the 22 digits are digits, and no other.
    for byte in map(bytes, zip(range(256))):
        yield b"a x0 1 x1=00 x2=00 px=0%s\n" % byte, b"rebuilt 0%s\n" % byte.upper() if byte in GIVEN else b"refused E22\n"


def test_digits(found):
    """All lines in one run, since each has one reply."""
    lines, replies = zip(*digit_lines())
    refused = replies.count(b"refused E22\n")
    for way in WAYS:
        output, *ended = run(way, b"".join(lines))
        came = way.text(output).splitlines(keepends=True)
        for line, reply, its in itertools.zip_longest(lines, replies, came):
            found.compare(f"{way.name}: {line}", its, reply)
        wanted = way.replied(b"".join(replies), len(replies) - refused, refused)
        found.compare(f"{way.name}: {len(lines)} lines with digits", (output, *ended), wanted)


def numbered(count, refused, front, end):
    """So many lines or replies: every third is of a refused line, and the others have a byte between a front and an end. Each differs from
    the next."""
    return b"".join(refused if number % 3 == 0 else b"%s%02X%s" % (front, number % 251, end) for number in range(count))


def test_threads(found):
    """Long inputs keep the order of their lines."""
    for way, thirds in itertools.product((PROGRAM, THREADS), THIRDS):
        lines = numbered(3 * thirds, b"a x0 0\n", b"a x0 1 x1=", b" x2=00 px=00\n")
        replies = numbered(3 * thirds, b"refused E2\n", b"rebuilt ", b"\n")
        found.compare(f"{way.name}: {3 * thirds} lines", run(way, lines), way.replied(replies, 2 * thirds, thirds))


def test_pieces(found, device):
    """Small pieces are taken, and interrupted calls made again; all is flushed, and nothing is read but the pieces and the end."""
    for way, (most, reads, interrupted) in itertools.product(WAYS, WHOLE):
        ended, *counts = device.run(way, TEN_LINES, most, errno.EINTR, **interrupted)
        what = f"{way.name}: {most} bytes at a call, interrupted {interrupted}"
        found.compare(what, ended, way.replied(TEN_REPLIES, 10, 0))
        found.compare(f"{what}: reads, flushed bytes", (counts[0], counts[2]), (reads, len(TEN_REPLIES) if way.is_test else 0))


def test_failures(found, device, pool):
    """Whichever read or write fails, line mode ends there and doesn't make it again; after a failed read nothing is written."""
    for way, (most, kind) in itertools.product(WAYS, FAILING):
        which = 0 if kind == "read" else 1

        def one(number):
            ended, *counts = device.run(way, TEN_LINES, most, errno.EIO, **{kind: number})
            return ended, counts[:which + 1] if which else counts[:2]

        _, *counts = device.run(way, TEN_LINES, most)
        *failed, whole = pool.map(one, range(counts[which] + 1))
        what = f"{way.name}: {most} bytes at a call"
        found.compare(f"{what}: there are several {kind}s", len(failed) > int(way.is_test or kind == "read"), True)
        found.compare(f"{what}: no {kind} fails", whole, (way.replied(TEN_REPLIES, 10, 0), counts[:2]))
        for number, came in enumerate(failed):
            text = way.text(came[0][0])
            may_be = kind == "write" and TEN_REPLIES.startswith(text)
            wanted = way.failed("device", text if may_be else b""), [number + 1, 0] if kind == "read" else [counts[0], number + 1]
            found.compare(f"{what}: {kind} {number} fails", came, wanted)


def test_limits(found, device, folder):
    """The greatest input is read, and one byte more refused, however few bytes a call gives, and by no more calls than whole blocks of
    65,536 bytes ask for."""
    for byte, most, reads, ways in [(b"\n", 1, LIMIT + 1, (PROGRAM, ALONE)), (b" ", 1_000_000, LIMIT // 65_536 + 1, (PROGRAM, THREADS))]:
        for length, way in itertools.product((LIMIT, LIMIT + 1), ways):
            (folder / "input").write_bytes(byte * length)
            with open(folder / "input", "rb") as given:
                ended, made, *_ = device.run(way, given, most)
            what = f"{way.name}: {length} bytes {byte}, {most} at a call"
            found.compare(what, ended, way.replied(b"", 0, 0) if length == LIMIT else way.failed("too long"))
            found.compare(f"{what}: no more than {reads} reads", min(made, reads), made)


def test_interruptions(found, device):
    """Line mode ends for a reader that never gives anything, after so many reads and no more."""
    ended, reads, *_ = device.run(PROGRAM, b"", error=errno.EINTR, read="all")
    found.compare("rebuild: each read interrupted", (ended, reads), (PROGRAM.failed("device"), READ_TURNS))


def test_memory(found, library):
    """Refused memory is told so; that it is so at each allocation of the program is tested by refusals.py."""
    for way in (ALONE, THREADS):
        ran = library.run(way.words, TEN_LINES, refusals.Refusal(allocation=1))
        found.compare(f"{way.name}: memory is refused", (ran.out, ran.err, ran.status), way.failed("memory"))


def main():
    found = Found()
    with tempfile.TemporaryDirectory() as folder, ThreadPoolExecutor(os.cpu_count()) as pool:
        folder = pathlib.Path(folder)
        device = Device(folder)
        test_lines(found, pool)
        test_digits(found)
        test_threads(found)
        test_pieces(found, device)
        test_failures(found, device, pool)
        test_limits(found, device, folder)
        test_interruptions(found, device)
        test_memory(found, refusals.Library(folder))
    if found.wrong:
        print(*found.wrong, sep="\n")
        sys.exit(f"line-mode: {len(found.wrong)} of {found.tried} are wrong")
    print(f"line-mode: {found.tried} inputs, replies and ends are as they must be")


if __name__ == "__main__":
    main()
