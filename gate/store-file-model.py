#!/usr/bin/env python3
"""Holds rebuild-store to a model of its commands over files: encode, read, list, verify and remove, over stores at random.

    store-file-model.py [PROGRAM [TEST [SEED [COUNT]]]]

A model in memory, made by rebuild-store(1) and rebuild-store(5), works out what a command has to say, with which status it has to end,
and what each path below the store and beside it has to have afterwards. Each test makes a fixed number of stores from fixed seeds, mixes
into them what may become of a store's files, and carries out some commands over each. With SEED that store alone is tried, or COUNT from it
on; it is printed if a store fails: test_whole_files:17."""

import functools
import sys

# No compiled copy of the modules is left beside them.
sys.dont_write_bytecode = True
import file_model_damage as damage  # noqa: E402
import file_model_others as others  # noqa: E402
import file_model_remains as remains  # noqa: E402
import file_model_states as states  # noqa: E402
from file_model_names import can_encode  # noqa: E402
from stores import Program, try_all  # noqa: E402

# The model itself is held to what the pages promise in one of so many stores.
HELD = 3


def each(place, test, count, lay, kinds=states.KINDS, **how):
    """Tries so many stores."""
    for number in Program.seeds or range(count):
        folder = place / str(number)
        folder.mkdir()
        case = states.Case(folder, f"{test}:{number}", **how)
        lay(case)
        case.run(functools.partial(states.commands, kinds), number % HELD == 0)


def test_whole_files(place, _choose):
    """Files that are whole, in stores that are there or aren't yet, and some of the fragments of others."""
    each(place, "test_whole_files", 60, lay_files)


def test_fragments(place, _choose):
    """Fragments that are lost, damaged, of another length, or no files."""
    each(place, "test_fragments", 80, functools.partial(lay_spoiled, damage.FRAGMENTS, [1, 2, 3, 4]), states.READS)


def test_descriptions(place, _choose):
    """Descriptions that are lost, damaged, of other files, or no files."""
    each(place, "test_descriptions", 80, functools.partial(lay_spoiled, damage.DESCRIPTIONS, [1, 2, 3, 4]), states.READS)


def test_digests(place, _choose):
    """Digests that are lost, wrong or of other files, beside damaged fragments."""
    spoilers = damage.SUMS + damage.SUMS + [damage.damage_fragments]
    each(place, "test_digests", 60, functools.partial(lay_spoiled, spoilers, [1, 2, 3, 4]), states.READS)


def test_disks(place, _choose):
    """Folders that are gone, or links, or files; disks that come back with an older file."""
    each(place, "test_disks", 80, functools.partial(lay_spoiled, damage.DISKS, [1, 2, 3, 4]), states.READS)


def test_killed_runs(place, _choose):
    """What runs that were killed have left."""
    each(place, "test_killed_runs", 80, functools.partial(lay_spoiled, remains.KILLED, [1, 2, 3]))


def test_begun_replacements(place, _choose):
    """Files that a killed run was to replace, of which something is lost or other by now."""
    each(place, "test_begun_replacements", 120, lay_begun, states.ENDS)


def test_links(place, _choose):
    """Links, mostly followed: to fragments, descriptions and folders elsewhere, and to nothing."""
    each(place, "test_links", 80, functools.partial(lay_spoiled, remains.LINKS, [1, 2, 3]), follows=0.7)


def test_outputs(place, _choose):
    """Files that are read to a path, beside the store, in it, or by links into it."""
    each(place, "test_outputs", 80, lay_outputs, states.TO_PATHS)


def test_odd_names(place, _choose):
    """Names of files that are odd, and such as no file of a store can have."""
    each(place, "test_odd_names", 100, lay_odd, names=states.ODD_NAMES)


def test_long_names(place, _choose):
    """Names of which some are too long for a file that replaces another."""
    own_folders = [it for it in states.PATTERNS if it[0].startswith("{stripe}/")] + [states.PATTERNS[0]]
    each(place, "test_long_names", 40, lay_odd, states.ENDS, names=states.LONG_NAMES, patterns=own_folders)


def test_files_of_others(place, _choose):
    """Files and folders of others in the store, stripes of the other code or of other software, rights."""
    each(place, "test_files_of_others", 80, functools.partial(lay_spoiled, others.OTHERS, [1, 2, 3]))


def test_all_together(place, _choose):
    """All of that together, beside files of others."""
    several = damage.FRAGMENTS + damage.DESCRIPTIONS + damage.SUMS + damage.DISKS + remains.KILLED + others.OTHERS
    each(place, "test_all_together", 120, functools.partial(lay_spoiled, several, [2, 3, 4, 6]))


def lay_files(case):
    for name in case.names:
        if case.choose.random() < 0.7:
            case.lay(name, case.datas["first", name])
    if case.choose.random() < 0.4:
        remains.leave_encoded(case)
    case.write_sums()


def lay_spoiled(spoilers, counts, case):
    """Lays files, and has some things become of them."""
    for name in case.names:
        if case.choose.random() < 0.8 or not case.laid:
            case.lay(name, case.datas["first", name])
    for _ in range(case.choose.choice(counts)):
        case.choose.choice(spoilers)(case)
    case.write_sums()


def lay_outputs(case):
    """Lays files, some of them damaged, and paths to read to."""
    lay_spoiled(damage.FRAGMENTS + damage.DESCRIPTIONS + remains.LINKS, [0, 0, 1, 2], case)
    others.add_outputs(case)


def lay_odd(case):
    """Lays files under those of their names that files can have."""
    for name in case.names:
        if can_encode(case.naming, case.code, name) and len(name) < 240 and case.choose.random() < 0.6:
            case.lay(name, case.datas["first", name])
    for _ in range(case.choose.choice([0, 0, 1, 2])):
        case.choose.choice(damage.FRAGMENTS + damage.DESCRIPTIONS + damage.SUMS + remains.KILLED)(case)
    case.write_sums()


def lay_begun(case):
    """Lays files, of which one was to be replaced, and has some things become of both."""
    for name in case.names:
        case.lay(name, case.datas["first", name] if case.choose.random() < 0.85 else b"")
    remains.leave_replaced(case)
    for _ in range(case.choose.choice([0, 1, 2, 3])):
        case.choose.choice(remains.BEGUN)(case)
    case.write_sums()


if __name__ == "__main__":
    try_all("store-file-model", globals(), *sys.argv[1:])
