#!/usr/bin/env python3
"""The C library through ctypes: encodes a stripe, loses three fragments, says what to read for them, rebuilds them, and changes one.

    lrc.py [LIBRARY]

LIBRARY is the shared object, liblrc.so.0 where no argument names it."""

import ctypes
import os
import sys
from functools import reduce
from operator import xor

PLACES = ["x0", "x1", "x2", "y0", "y1", "y2", "px", "py", "p0", "p1", "x3", "x4", "x5", "y3", "y4", "y5"]
PARITIES = ["px", "py", "p0", "p1"]
DATA = {0: ["x0", "x1", "x2", "y0", "y1", "y2"], 1: [f"{g}{i}" for g in "xy" for i in range(6)]}
OK, CONTRADICTION, SEVERAL, BAD_ARGUMENT = range(4)


class Bytes(ctypes.Structure):
    _fields_ = [("at", ctypes.c_void_p), ("length", ctypes.c_size_t)]


class Plan(ctypes.Structure):
    _fields_ = [("value", ctypes.c_uint8 * 16), ("checks", ctypes.c_uint8 * 16 * 4)]


class Library:
    """The functions of the shared object, over dictionaries of bytes by places' names."""

    def __init__(self, name):
        self.lrc = ctypes.CDLL(name)
        room = [ctypes.c_void_p, ctypes.c_size_t]
        table = ctypes.POINTER(Bytes)
        for function, words in {
            "lrc_version": [],
            "lrc_encode_into": [ctypes.c_uint8, table, ctypes.c_size_t] + room * 4,
            "lrc_update_into": [ctypes.c_uint8, ctypes.c_uint8] + room * 5,
            "lrc_reads_into": [ctypes.c_uint8, ctypes.c_uint32, ctypes.c_uint32, ctypes.POINTER(ctypes.c_uint32)],
            "lrc_plan_into": [ctypes.c_uint8, ctypes.c_uint32, ctypes.c_uint8, ctypes.POINTER(Plan)],
            "lrc_rebuild_into": [ctypes.c_uint8, ctypes.c_uint32, table, ctypes.c_uint8] + room,
            "lrc_verify_at": [ctypes.c_uint8, ctypes.c_uint32, table, ctypes.c_size_t],
        }.items():
            getattr(self.lrc, function).argtypes = words
            getattr(self.lrc, function).restype = ctypes.c_uint32

    @staticmethod
    def known(code):
        """The number of a code; ctypes would pass 256 as 0."""
        if code not in DATA:
            raise ValueError("no number of a code")
        return code

    @staticmethod
    def table(fragments):
        """The table of all places and the survivors' bits. The bytes are borrowed: keep `fragments` as long as the table."""
        nothing = ctypes.cast(ctypes.c_char_p(b"\0"), ctypes.c_void_p).value
        table = (Bytes * 16)(*[Bytes(nothing, 0)] * 16)
        survivors = 0
        for name, fragment in fragments.items():
            place = PLACES.index(name)
            table[place] = Bytes(ctypes.cast(ctypes.c_char_p(fragment), ctypes.c_void_p).value, len(fragment))
            survivors |= 1 << place
        return table, survivors

    def encode(self, code, data):
        """The parities of the data fragments, which are bytes by name."""
        self.known(code)
        length = len(data["x0"])
        kept = [data[name] for name in DATA[code]]
        sources = (Bytes * len(kept))(*[Bytes(ctypes.cast(ctypes.c_char_p(one), ctypes.c_void_p).value, len(one)) for one in kept])
        rooms = {name: ctypes.create_string_buffer(length) for name in PARITIES}
        words = [word for room in rooms.values() for word in (ctypes.addressof(room), length)]
        if self.lrc.lrc_encode_into(code, sources, len(kept), *words) != OK:
            raise ValueError("data fragments of one length, as many as the code has")
        return {name: room.raw for name, room in rooms.items()}

    def update(self, code, parities, place, difference):
        """The parities, which are bytes by name, after the data fragment at the place changed by the difference."""
        rooms = {name: ctypes.create_string_buffer(parities.get(name, b"\0"), max(len(parities.get(name, b"")), 1)) for name in PARITIES}
        words = [word for name, room in rooms.items() for word in (ctypes.addressof(room), len(parities.get(name, b"")))]
        difference_at = ctypes.cast(ctypes.c_char_p(difference), ctypes.c_void_p)
        if self.lrc.lrc_update_into(self.known(code), PLACES.index(place), difference_at, len(difference), *words) != OK:
            raise ValueError("a data place of the code, and parities as long as the difference")
        return {name: rooms[name].raw for name in parities}

    def reads(self, code, wanted, available):
        """The names of available places that determine all wanted ones: those that are wanted, and the fewest others that do. None where
        they don't."""
        found = ctypes.c_uint32()
        status = self.lrc.lrc_reads_into(self.known(code), self.bits(wanted), self.bits(available), found)
        if status == BAD_ARGUMENT:
            raise ValueError("places of the code")
        return [name for p, name in enumerate(PLACES) if found.value >> p & 1] if status == OK else None

    @staticmethod
    def bits(names):
        return sum(1 << PLACES.index(name) for name in names)

    def plan(self, code, survivors, target):
        """The coefficients of the survivors that give the target, by name; none where they don't determine it."""
        plan = Plan()
        status = self.lrc.lrc_plan_into(self.known(code), self.bits(survivors), PLACES.index(target), plan)
        if status == BAD_ARGUMENT:
            raise ValueError("a lost place of the code")
        return {PLACES[p]: c for p, c in enumerate(plan.value) if c} if status == OK else None

    def rebuild(self, code, fragments, target):
        """A status, and the bytes at the target, which are those of each stripe with these fragments where it is OK. Without fragments
        there is no length, and the status is BAD_ARGUMENT."""
        length = self.length_of(fragments)
        table, survivors = self.table(fragments)
        room = ctypes.create_string_buffer(max(length, 1))
        return self.lrc.lrc_rebuild_into(self.known(code), survivors, table, PLACES.index(target), room, length), room.raw[:length]

    def verify(self, code, fragments):
        """A status: whether these fragments are those of a stripe. Of none there is nothing to say, and the status is OK."""
        table, survivors = self.table(fragments)
        return self.lrc.lrc_verify_at(self.known(code), survivors, table, self.length_of(fragments))

    @staticmethod
    def length_of(fragments):
        return len(next(iter(fragments.values()), b""))


def main():
    library = Library(sys.argv[1] if len(sys.argv) > 1 else "liblrc.so.0")
    for code in (0, 1):
        data = {name: os.urandom(70_000) for name in DATA[code]}
        stripe = data | library.encode(code, data)
        assert stripe["px"] == bytes(reduce(xor, column) for column in zip(*(data[name] for name in data if name[0] == "x")))
        assert library.verify(code, stripe) == OK
        lost = ["x0", "x2", "p1"]
        left = {name: fragment for name, fragment in stripe.items() if name not in lost}
        for name in lost:
            read = library.plan(code, left, name)
            status, rebuilt = library.rebuild(code, left, name)
            assert status == OK and rebuilt == stripe[name]
            print(f"{name}: rebuilt from {len(read)} of {len(left)} survivors")
        fewest = library.reads(code, lost, left)
        for name in lost:
            assert library.rebuild(code, {one: left[one] for one in fewest}, name) == (OK, stripe[name])
        assert set(library.reads(code, ["x0"], set(stripe) - {"x0"})) == {name for name in data if name[0] == "x"} - {"x0"} | {"px"}
        assert library.reads(code, lost, ["x1", "p0"]) is None
        difference = os.urandom(70_000)
        after = data | {"y1": bytes(map(xor, data["y1"], difference))}
        parities = {name: stripe[name] for name in PARITIES}
        assert library.update(code, parities, "y1", difference) == library.encode(code, after)
        assert library.update(code, {"p1": stripe["p1"]}, "y1", difference) == {"p1": library.encode(code, after)["p1"]}
        changed = left | {"y1": bytes([left["y1"][0] ^ 1]) + left["y1"][1:]}
        assert library.rebuild(code, changed, "x0")[0] == CONTRADICTION
        assert library.rebuild(code, {}, "x0") == (BAD_ARGUMENT, b"") and library.verify(code, {}) == OK
        few = {name: left[name] for name in ("x1", "y0", "p0")}
        assert library.plan(code, few, "x0") is None and library.rebuild(code, few, "x0")[0] == SEVERAL


if __name__ == "__main__":
    main()
