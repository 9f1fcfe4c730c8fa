#!/usr/bin/env python3
"""Proves a crate of crates/, a library, and prints what each of its functions cost, the dearest first.

    proof-costs.py CRATE [tests] [ROWS]    the crate's own functions, or with `tests` those of its tests; the 40 dearest, or so many

The crates below it are taken as a run of `rt ci` has proved them in the folder that PROVED_IN names, or as tools/build.py leaves them.
The prover works with one job, and writes a file for each part of a function's proof as soon as that is checked: what is between two files
is what the later one took. So the seconds are right only if the processor is its own. `steps` is what the function's code is for the
prover (its part Lts), in megabytes, with which nearly all of its cost grows; `searched` is how many of the seconds went into goals that
have no answer in a file (its part Proof)."""

import collections
import os
import pathlib
import re
import subprocess
import sys
import tempfile

sys.dont_write_bytecode = True
import build  # noqa: E402

ROWS = 40
# A file of a function's proof: the function, and the part.
PART = re.compile(r"Rattle-\w+-proofs\.(.+?)\.(Code\.Mir|[A-Z]\w*)(?:\.decls)?\.oantt")


def prove(crate, words, folder):
    """Proves a crate, with what is checked kept in a folder; says what the prover said if that fails."""
    below = pathlib.Path(os.environ.get(build.PROVED_IN) or build.ROOT) / "crates"
    command = [*crate.prover("check", below, 1), *words, "--incremental", folder]
    ran = subprocess.run(command, cwd=crate.folder, stdout=subprocess.PIPE, stderr=subprocess.STDOUT, text=True, errors="replace")
    if ran.returncode != 0:
        print("\n".join(ran.stdout.splitlines()[-build.SHOWN:]), file=sys.stderr)
        sys.exit(1)


def costs(folder):
    """By functions: the seconds of all parts, those of searching, and the megabytes of its steps."""
    files = sorted((file.stat().st_mtime, file) for file in pathlib.Path(folder).rglob("*.oantt"))
    found, before = collections.defaultdict(lambda: [0.0, 0.0, 0.0]), files[0][0]
    for now, file in files:
        parts = PART.fullmatch(file.name)
        function, part = parts.groups() if parts else (file.stem, "")
        row = found[function]
        row[0] += now - before
        row[1] += now - before if part == "Proof" else 0
        row[2] += file.stat().st_size / 1e6 if part == "Lts" else 0
        before = now
    return found


def main(name, *rest):
    words = ["--test"] if "tests" in rest else []
    rows = next((int(it) for it in rest if it.isdigit()), ROWS)
    with tempfile.TemporaryDirectory() as folder:
        prove(build.read_crates()[name], words, folder)
        found = costs(folder)
    print("seconds  searched  steps  function")
    for function, row in sorted(found.items(), key=lambda it: -it[1][0])[:rows]:
        print("{:7.1f}  {:8.1f}  {:5.2f}  {}".format(*row, function))
    print("{:7.1f}  {:8.1f}  {:5.2f}  all of {}".format(*map(sum, zip(*found.values())), len(found)))


if __name__ == "__main__":
    main(*sys.argv[1:])
