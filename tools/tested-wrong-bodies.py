#!/usr/bin/env python3
"""Tries the wrong bodies of library/wrong-bodies and companion/wrong-bodies, which tests alone can see: each in a copy, in which its tests
must fail. Those of the header are tried by gate/inline-calls.py, and those of the companion, over the built program, by the test of
companion/tests that the edit's line `tests:` names. With the arguments `library` or `companion` it tries those. SHOW=1 in the environment
shows why tests fail."""

import concurrent.futures
import os
import pathlib
import re
import shutil
import subprocess
import sys
import tempfile

sys.dont_write_bytecode = True
from edits import edited  # noqa: E402

ROOT = pathlib.Path(__file__).resolve().parent.parent
PROGRAM = "crates/rebuild/out/rebuild"
# What a copy for the tests has.
COPIED = {"library": ["library", "gate", "tools"], "companion": ["companion", "gate", "tools"]}
# Tests that a wrong body keeps from ending are stopped after so many seconds, and have noticed it.
SECONDS = 120


def tests_of(kind, edits):
    """What runs the tests that notice these edits."""
    if kind == "library":
        return ["gate/inline-calls.py"]
    named = [re.search(r"^tests: (.*)$", edit.read_text(), re.M) for edit in edits]
    return ["gate/companion.py", *sorted({found[1] for found in named})]


def why_failed(command, folder):
    """The last line of what the tests say where they fail, and None where they pass."""
    try:
        ran = subprocess.run(command, cwd=folder, capture_output=True, text=True, errors="replace", timeout=SECONDS)
    except subprocess.TimeoutExpired:
        return "the tests did not end"
    return None if ran.returncode == 0 else ((ran.stdout + ran.stderr).strip().splitlines() or ["no word"])[-1]


def tried(kind, edits, edit=None):
    """Why the tests of these edits fail in a copy, in which one of them is made or none; None where they pass."""
    with tempfile.TemporaryDirectory() as scratch:
        copy = pathlib.Path(scratch)
        for name in COPIED[kind]:
            shutil.copytree(ROOT / name, copy / name, ignore=shutil.ignore_patterns("examples", "__pycache__"))
        if kind == "companion":
            (copy / PROGRAM).parent.mkdir(parents=True)
            (copy / PROGRAM).symlink_to(ROOT / PROGRAM)
        if edit:
            edited(edit, copy)
        return why_failed(tests_of(kind, edits), copy)


def unnoticed(kind, edits, threads):
    """The edits with which the tests pass, or aren't built."""
    for edit, why in zip(edits, threads.map(lambda it: tried(kind, [it], it), edits)):
        if os.environ.get("SHOW"):
            print(f"{edit.stem}: {why}", flush=True)
        if why is None or "isn't built" in why:
            yield edit.stem


def main():
    with concurrent.futures.ThreadPoolExecutor(os.cpu_count()) as threads:
        for kind in sys.argv[1:] or ["library", "companion"]:
            edits = sorted((ROOT / kind / "wrong-bodies").glob("*.edit"))
            if kind == "companion" and not (ROOT / PROGRAM).exists():
                sys.exit(f"{kind}: {PROGRAM} isn't there: make build makes it")
            why = tried(kind, edits)
            if not edits or why:
                sys.exit(f"{kind}: the tests fail without an edit: {why}" if edits else f"{kind}: there are no wrong bodies")
            names = list(unnoticed(kind, edits, threads))
            if names:
                sys.exit(f"{kind}: no test notices {' '.join(names)}")
            print(f"{kind}: tests notice each of {len(edits)} wrong bodies", flush=True)


if __name__ == "__main__":
    main()
