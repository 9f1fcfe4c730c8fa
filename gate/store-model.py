#!/usr/bin/env python3
"""Holds scrub, repair and lost to a model: random stores of both codes in many states at once, with random options. Of each run the model
says each line of both streams, the status, the rows of a report, and the bytes, the rights and the owner of each file then.

    store-model.py [PROGRAM [TEST [SEED [COUNT]]]]

With SEED that store alone is tried, or COUNT from it on; it is printed if a store fails. The model is made from rebuild-store(1),
rebuild-store(5) and rebuild(5)."""

import os
import sys

# No compiled copy of the modules is left beside them.
sys.dont_write_bytecode = True
from stripe_model_cases import try_cases  # noqa: E402
from random_stores import DISKS, FOLDERS, ODD_NAMES, PLAIN, Mix  # noqa: E402
from stores import Program, Skipped, try_all  # noqa: E402


# What there may be instead of a fragment, or of a copy of a description.
DAMAGED = ("byte", "byte", "bytes", "zeros")
OTHER = ("folder", "fifo", "nothing", "link")
LENGTHS = ("short", "half", "half", "empty", "longer")
LINKS = ("link", "link", "astray", "nothing", "loop", "chain", "to-folder", "absent", "byte", "bytes")
COPIES = ("absent", "byte", "empty", "long", "other", "folder", "short")
# By the names of tests: what stores are made of, and how many are tried.
MIXES = {
    "plain_stripes": (Mix(torn=0.3, foreign=0.4), 13),
    "other_things": (Mix(harms=("absent", *DAMAGED, *OTHER, *LENGTHS), to=0.3, expected=0.3, strays=0.3, bad_reports=0.3), 13),
    "lengths": (Mix(harms=(*LENGTHS, *LENGTHS, "absent", "byte"), sums=0.4, many=(1, 2, 3, 4, 5, 6, 7, 8), torn=0.3,
                    changes=("group", "torn")), 13),
    "digests": (Mix(harms=("absent", "absent", *DAMAGED, *LENGTHS), sums=1, odd_sums=0.7, to=0.2), 16),
    "descriptions": (Mix(harms=("absent", "byte"), described=0.8, copies=COPIES, sums=0.3, to=0.2, strays=0.3), 13),
    "disks": (Mix(patterns=DISKS, harms=("absent", "byte", "folder", "half"), described=0.6, copies=COPIES, sums=0.4, lost_folders=0.1,
                  to=0.2, strays=0.3, leftovers=0.5, first_copies=0.3, bad_reports=0.15, foreign=0.1), 13),
    "folders": (Mix(patterns=FOLDERS, harms=("absent", "byte", "folder", "half"), described=0.6, copies=COPIES, sums=0.4, to=0.2,
                    strays=0.3, leftovers=0.5, lost_folders=0.1, first_copies=0.3, bad_reports=0.15, foreign=0.1), 13),
    "links": (Mix(patterns=(*PLAIN, *DISKS, *FOLDERS), harms=LINKS, described=0.4, copies=(*COPIES, *LINKS), sums=0.3, follow=0.7, to=0.3,
                  lost_folders=0.05, leftovers=0.3, foreign=0.2), 13),
    "shared": (Mix(patterns=(*PLAIN, *DISKS, *FOLDERS), harms=("absent", "byte", "bytes", "link", "nothing"), described=0.4,
                   copies=("absent", "byte", "nothing"), sums=0.4, follow=0.95, to=0.2, part=0.15, leftovers=0.3, strays=0.2, shared=0.8,
                   many=(0, 1, 1, 2, 3)), 26),
    "parts": (Mix(patterns=(*PLAIN, *DISKS, *FOLDERS), harms=("absent", "byte", "half", "link"), part=0.8, described=0.4, copies=COPIES,
                  given_code=0.8, sums=0.3, leftovers=0.6, expected=0.5, strays=0.5), 13),
    "codes": (Mix(patterns=("{stripe}.{place}", "{place}/{stripe}", "{stripe}/{place}", "{stripe}.{shard}"), mixed=0.15, other_code=0.3,
                  harms=("absent", "absent", "byte"), described=0.3, sums=0.5, given_code=0.3, strays=0.4, count=(0, 1, 2, 3, 4, 5),
                  many=(0, 0, 1, 2, 3), changes=("narrow", "narrow", "torn"), torn=0.25), 13),
    "names": (Mix(names=ODD_NAMES, patterns=(*PLAIN, *DISKS, *FOLDERS), harms=("absent", "byte", "half", "nothing"), described=0.4,
                  copies=COPIES, sums=0.5, strays=0.2), 13),
    "long_names": (Mix(names=("l" * 246,), harms=("half", "byte", "absent"), many=(1, 1, 2)), 4),
    "users": (Mix(patterns=(*PLAIN, *DISKS, *FOLDERS), harms=("absent", "closed", "closed", "byte", "half"), described=0.4,
                  copies=(*COPIES, "closed"), sums=0.3, user=1, to=0.3, lost_folders=0.08, leftovers=0.6), 13),
    "long": (Mix(lengths=(65_535, 65_536, 65_537, 140_000, 262_150), names=("a", "b"), harms=("absent", "byte", "half"), described=0.3,
                 sums=0.3), 5),
}


def try_mix(place, name):
    mix, count = MIXES[name]
    try_cases(place, name, mix, Program.seeds or range(count))


def test_plain_stripes(place, _choose):
    """Stripes with fragments that are lost or damaged in a byte."""
    try_mix(place, "plain_stripes")


def test_other_things(place, _choose):
    """Folders, FIFOs, links and files of other lengths under the names of fragments, and files of no stripe."""
    try_mix(place, "other_things")


def test_lengths(place, _choose):
    """Fragments of several lengths, of which digests and checks say which is right."""
    try_mix(place, "lengths")


def test_digests(place, _choose):
    """Digests of all fragments or of some, in all forms that are read, and wrong ones."""
    try_mix(place, "digests")


def test_descriptions(place, _choose):
    """Copies of descriptions that are lost, damaged, of another file, or something else."""
    try_mix(place, "descriptions")


def test_disks(place, _choose):
    """A folder for each disk, some of which are gone, empty, links or files."""
    try_mix(place, "disks")


def test_folders(place, _choose):
    """A folder for each stripe."""
    try_mix(place, "folders")


def test_links(place, _choose):
    """Links to fragments, to nothing, to each other and to folders, which are followed or not."""
    try_mix(place, "links")


def test_shared(place, _choose):
    """Links that lead to what other names lead to, which are followed."""
    try_mix(place, "shared")


def test_parts(place, _choose):
    """Runs on a part of a store, with what runs have left, and stripes that have to be there."""
    try_mix(place, "parts")


def test_codes(place, _choose):
    """Stores whose code isn't given."""
    try_mix(place, "codes")


def test_names(place, _choose):
    """Names with spaces, control characters, backslashes and other signs."""
    try_mix(place, "names")


def test_long_names(place, _choose):
    """Names to which nothing can be added."""
    try_mix(place, "long_names")


def test_users(place, _choose):
    """Runs of a user who may not read some files, and who may not give files to those who own others."""
    if os.geteuid():
        raise Skipped("only root can run the program as another user")
    try_mix(place, "users")


def test_long(place, _choose):
    """Fragments as long as the window in which they are read, and longer."""
    try_mix(place, "long")


if __name__ == "__main__":
    try_all("store-model", globals(), *sys.argv[1:])
