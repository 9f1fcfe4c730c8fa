#!/usr/bin/env python3
"""Edits that must not compile, which the gate takes none of: the first line of each crate's no-compile/*.edit names the compiler's error,
and the edit is then in the form of a wrong body. Each is made in a copy of its crate, with its tests, over the crates below as they were
proved here.

    no-compile.py

The status is 1 where one is taken, or refused with another error."""

import concurrent.futures
import pathlib
import re
import shutil
import subprocess
import sys
import tempfile

sys.dont_write_bytecode = True
ROOT = pathlib.Path(__file__).resolve().parent.parent
sys.path.append(str(ROOT / "tools"))
import build  # noqa: E402
import edits  # noqa: E402

# How many lines of what the compiler said are shown of an edit that isn't refused.
SHOWN = 20


def try_edit(crate, edit):
    """Makes an edit in a copy of its crate and compiles that; says whether it is refused with the error that it names."""
    expected = re.match(r"error: (\S+)", edit.read_text(encoding="utf-8"))[1]
    with tempfile.TemporaryDirectory(prefix="no-compile-") as room:
        place = pathlib.Path(room)
        for part in (it for it in build.PARTS if (crate.folder / it).is_dir()):
            shutil.copytree(crate.folder / part, place / part)
        edits.edited(edit, place)
        # No function has that name, so that nothing is proved.
        words = [*crate.prover("check", ROOT / "crates", 1), "--test", "--only", ""]
        said = subprocess.run(words, cwd=place, stdin=subprocess.DEVNULL, capture_output=True, text=True, errors="replace")
    told = said.stdout + said.stderr
    is_refused = f"error[{expected}]" in told
    print(f"no-compile {edit.relative_to(ROOT)}: {'' if is_refused else 'NOT '}refused with {expected}", flush=True)
    if not is_refused:
        print("\n".join(told.splitlines()[:SHOWN]), flush=True)
    return is_refused


def main():
    crates = build.read_crates().values()
    found = [(crate, edit) for crate in crates for edit in sorted((crate.folder / "no-compile").glob("*.edit"))]
    with concurrent.futures.ThreadPoolExecutor(build.processors()) as pool:
        refused = list(pool.map(lambda it: try_edit(*it), found))
    print(f"{sum(refused)} passed, {len(refused) - sum(refused)} failed")
    return 0 if found and all(refused) else 1


if __name__ == "__main__":
    sys.exit(main())
