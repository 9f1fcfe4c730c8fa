#!/usr/bin/env python3
"""Runs the tests over each wrong body of crates/*/wrong-bodies, in a copy of the repository and without a
proof, and says which of them the tests notice too. With names of crates it tries theirs.

An edit that no test notices may still change an answer: a proof says more than tests. CONTRIBUTING.md says which those are.
"""

import pathlib
import subprocess
import sys
import tempfile

sys.dont_write_bytecode = True
from edits import edited  # noqa: E402

ROOT = pathlib.Path(__file__).resolve().parent.parent

# The crates in which the tests of a crate's calls are, if not in the crate itself; those of lrc_c are in C, and those of line_mode,
# command_line, farm_shelves, farm_files, and most of lrc_field, lrc_code, lrc_plan, farm_lists and farm_reading, are scripts over what is
# built.
TESTS = {
    "lrc_field": ["lrc_tests"],
    "lrc_code": ["lrc_tests"],
    "lrc_plan": ["lrc_tests"],
    "lrc_c": [],
    "farm_lanes": ["farm_lists_tests"],
    "farm_orders": ["farm_tests"],
    "farm_threads": ["farm_tests"],
    "farm_core": ["farm_tests"],
    "sha256_lanes": ["farm_lists_tests"],
    "farm_lists": ["farm_lists_tests"],
    "farm_reports": ["farm_lists_tests"],
    "farm_shelves": [],
    "farm_reading": ["farm_lists_tests"],
    "farm_files": [],
    "store_repair": ["store_tests"],
    "stores": ["store_tests"],
    "line_mode": [],
    "command_line": [],
}

# Tests that a wrong body keeps from ending are stopped after so many seconds, and have noticed it.
SECONDS = 300


class NotRun(Exception):
    """The tests of a crate don't run, as where an edit doesn't compile; with the last of what was said."""


def failed(folder):
    """The tests of the crate in this folder that fail."""
    ran = subprocess.run(["rt", "try", "--test"], cwd=folder, capture_output=True, text=True, timeout=SECONDS)
    tests = {line.split()[1] for line in ran.stdout.splitlines() if line.startswith("test ") and line.endswith("FAILED")}
    if not tests and ran.returncode != 0:
        raise NotRun(*(ran.stdout + ran.stderr).strip().splitlines()[-1:])
    return tests


def ended(folders, without):
    """How the tests of the crates in these folders end, beside those that fail without an edit, up to the first crate that notices."""
    for folder in folders:
        try:
            tests = failed(folder) - without[folder]
        except subprocess.TimeoutExpired:
            return "noticed: the tests did not end"
        except NotRun as why:
            return f"NOT RUN: {why}"
        if tests:
            return f"noticed: {' '.join(sorted(tests))}"
    return "not noticed"


def main():
    crates = sys.argv[1:] or sorted(it.parent.name for it in ROOT.glob("crates/*/wrong-bodies"))
    with tempfile.TemporaryDirectory() as copy:
        copy = pathlib.Path(copy)
        subprocess.run([ROOT / "tools/copy-tree.sh", copy], check=True)
        without = {}
        for crate in crates:
            folders = [copy / "crates" / it for it in TESTS.get(crate, [crate])]
            for folder in folders:
                if folder not in without:
                    # A test of millions of steps may fail without an edit: here they are interpreted.
                    without[folder] = failed(folder)
            for edit in sorted(ROOT.glob(f"crates/{crate}/wrong-bodies/*.edit")):
                kept = edited(edit, copy / "crates" / crate)
                print(f"{crate}/{edit.stem}: {ended(folders, without)}", flush=True)
                for path, text in kept.items():
                    path.write_text(text)


if __name__ == "__main__":
    main()
