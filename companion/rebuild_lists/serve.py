"""`rebuild-lists serve`: the job of one folder that `split` made."""

from __future__ import annotations

import argparse
import os
import pathlib
import shutil
import sys
import tempfile

from .files import folder_named, name_folder
from .program import farm, status_of


def serve(args: argparse.Namespace) -> int:
    """Serves WORK/in/NUMBER into a folder of its own, which gets the name WORK/out/NUMBER at the end. So what has that name is
    whole, and two runs never write one file. A folder that is served already is left as it is."""
    given = folder_named(os.path.join(args.work, "in", str(args.number)))
    out = folder_named(os.path.join(args.work, "out")) / str(args.number)
    if out.exists():
        print(f"folder {args.number}: already served")
        return 0
    part = pathlib.Path(tempfile.mkdtemp(prefix=f"{args.number}.", dir=out.parent))
    try:
        ended = farm(args.program, given, part, "--workers", str(args.workers))
        if ended.returncode:
            print(f"folder {args.number}: {ended.stderr.strip() or f'status {status_of(ended)}'}", file=sys.stderr)
            return status_of(ended)
        # Another run that came first has the name already, with the same files.
        said = ended.stdout.strip() if name_folder(part, out) else "already served"
    finally:
        shutil.rmtree(part, ignore_errors=True)
    print(f"folder {args.number}: {said}")
    return 0
