"""Runs of the program `rebuild`."""

from __future__ import annotations

import os
import pathlib
import subprocess
import sys

from .formats import Refused


def found() -> str:
    """The program that lies beside this one, links to this one followed; if none does, its name, which is then looked for on PATH."""
    beside = os.path.join(os.path.dirname(os.path.realpath(sys.argv[0])), "rebuild")
    return beside if os.path.isfile(beside) and os.access(beside, os.X_OK) else "rebuild"


def farm(program: str, given: pathlib.Path, out: pathlib.Path, *options: str) -> subprocess.CompletedProcess:
    """Serves a folder into another. It ends if this program is ended."""
    try:
        return subprocess.run([program, "farm", str(given), str(out), *options], stdin=subprocess.DEVNULL, capture_output=True,
                              encoding="utf-8", errors="replace", check=False)
    except OSError as error:
        raise Refused(f"{program}: can't be run ({error.strerror}); --program names the program") from None


def status_of(ended: subprocess.CompletedProcess) -> int:
    """The exit status, as a shell gives it if a signal ended the run."""
    return ended.returncode if ended.returncode >= 0 else 128 - ended.returncode
