#!/usr/bin/env python3
"""Writes PROVED, which goes with the packages: proved.py VERSION LIBRARY_VERSION COMMIT SECONDS LEVEL.. FILE.. Each line is what was read,
counted or run here. Where a crate has no record of a proof from its sources, it names the crate and ends with status 1."""

import datetime
import pathlib
import sys
import textwrap

import parts

PROGRAMS = ("rebuild", "rebuild_store", "lrc_c")
HEAD = """\
Bucketuntil {version}, liblrc {library}: what was proved, and what these files are

commit      {commit}
date        {date:%Y-%m-%dT%H:%M:%SZ}, that of the commit
toolchain   {identity}
"""
SAID = """\
Each crate below was proved by that toolchain from the sources of that commit. With it are the number of functions that its sources define,
and a sum of its sources, of the toolchain's identity and of the crates below it, which the record of its proof has. `main`, which joins the
others to the system, is proved only to be memory-safe. The toolchain, the C library, the system and the processor are trusted;
docs/PROOFS.md of the sources says more. `rebuild-lists` (Python), the completions, the launcher of the programs (C) and the plugin for Ceph
(C++) are tested, and not proved.
"""
SHOWN = """\
This page can't show that its sums are those of what the proofs left: it is a text, and the records that it was made from are files of the
machine where it was made, which anybody could write. A second builder shows it: in a new clone at that commit, on another machine with that
toolchain and the same release of Debian, `make packages` proves all of it from nothing and gives the same SHA256SUMS, byte by byte. Whoever
has seen that may sign SHA256SUMS with a key of theirs. A signature, SHA256SUMS.asc, says whose word these sums are, and no more.
"""


def proved_crates(levels, kit):
    """The lines on all crates, and the names of those that have no record of a proof."""
    lines, missing, total = [], [], 0
    crates = parts.build.read_crates()
    for crate in parts.build.with_all_below([crates[name] for name in PROGRAMS]):
        inputs = [crate.inputs(parts.build.ROOT / "crates", level, kit) for level in levels]
        if not all(crate.is_built(it, level) for it, level in zip(inputs, levels)):
            missing.append(crate.name)
        count = parts.functions_of(crate)
        total += count
        lines.append(f"  {crate.name:<14} {count:>4} functions  {inputs[0]}")
    return [*lines, f"  {'in all':<14} {total:>4} functions"], missing


def main():
    version, library, commit, seconds, *words = sys.argv[1:]
    levels = [it for it in words if it.startswith("x86-64-")]
    toolchain = parts.Toolchain()
    date = datetime.datetime.fromtimestamp(int(seconds), datetime.timezone.utc)
    print(HEAD.format(version=version, library=library, commit=commit, date=date, identity=toolchain.identity), end="")
    for key, value in [*toolchain.identities(), ("prover", parts.build.sum_of(toolchain.prover()))]:
        print(f"            {key:<9} {value}")
    print("\n" + textwrap.fill(SAID, 100) + "\n")
    lines, missing = proved_crates(levels, toolchain.identity + "\n")
    print(*lines, sep="\n")
    print("\nSHA-256 of what was built:")
    for file in map(pathlib.Path, words[len(levels):]):
        print(f"  {parts.build.sum_of(file)}  {'/'.join(file.parts[-2:])}")
    print("\n" + textwrap.fill(SHOWN, 100))
    if missing:
        sys.exit(f"packages: no record of a proof from these sources: {' '.join(missing)}")


main()
