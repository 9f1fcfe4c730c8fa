"""What the tests share: a scratch folder with a store, calls of the companion, and what they must say."""

import os
import pathlib
import subprocess
import sys
import tempfile
import unittest

ROOT = pathlib.Path(__file__).resolve().parent.parent.parent
sys.path.append(str(ROOT / "tools"))
import forked  # noqa: E402

COMPANION = ROOT / "companion/rebuild-lists"
FORKED = forked.Program(COMPANION)
PROGRAM = ROOT / "crates/rebuild/out/rebuild"
FIVE = "order,stripe,target,length,survivors\n"
SIX = "order,stripe,target,length,survivors,code\n"
HEADER_WANTED = "isn't order,stripe,target,length,survivors, with or without ,code"


class Store(unittest.TestCase):
    """A scratch folder with the store of two stripes."""

    STORE = "store"

    def setUp(self):
        scratch = tempfile.TemporaryDirectory()
        self.addCleanup(scratch.cleanup)
        self.at = pathlib.Path(scratch.name)
        self.store = self.at / self.STORE
        self.store.mkdir()
        # The sum of the data fragments of a group and its local parity is 0 at each byte: abc of (6,2,2), wide of (12,2,2).
        self.fragments(x1=b"\0\0\0", x2=b"\0\0\0", px=b"abc")
        self.fragments("wide", x1=b"\1\0", x2=b"\2\0", x3=b"\0\0", x4=b"\0\0", x5=b"\0\0", px=b"\0\7")

    def fragments(self, stripe="abc", **fragments):
        for place, data in fragments.items():
            (self.store / f"{stripe}.{place}").write_bytes(data)

    def call(self, *words, program=PROGRAM, **how):
        """Runs the companion in the scratch folder, with the built program where the command needs it: by a start of its own where `how`
        says more of it."""
        words = [str(word) for word in words]
        if words[0] in ("serve", "damaged") and "--program" not in words:
            words += ["--program", str(program)]
        if not how:
            return FORKED.run(words, os.environ, self.at)
        return subprocess.run([COMPANION, *words], cwd=self.at, capture_output=True, text=True, **how)

    def done(self, ended, said, status=0):
        self.assertEqual((ended.stderr, ended.stdout, ended.returncode), ("", said + "\n", status))

    def refused(self, ended, said, status=1):
        self.assertEqual((ended.stdout, ended.stderr, ended.returncode), ("", said + "\n", status))

    def names(self, folder):
        return sorted(path.name for path in (self.at / folder).iterdir())

    def text(self, name):
        return (self.at / name).read_bytes().decode()


class SplitStore(Store):
    """A store whose list is split into work/."""

    def split(self, text, *options):
        (self.at / "list.csv").write_bytes(text if isinstance(text, bytes) else text.encode())
        return self.call("split", "list.csv", "store", "work", *options)

    def serve(self):
        for folder in sorted((self.at / "work/in").iterdir()):
            self.assertEqual(self.call("serve", "work", folder.name).returncode, 0)


class Folder(Store):
    """A folder to serve, in/, and what `rebuild farm` makes of it."""

    STORE = "in"

    def list(self, text, name="rack0.csv"):
        (self.store / name).write_bytes(text if isinstance(text, bytes) else text.encode())

    def farm(self, out="out"):
        (self.at / out).mkdir()
        return subprocess.run([PROGRAM, "farm", "in", out], cwd=self.at, capture_output=True, text=True, timeout=60, check=False)


def slow(folder, before="", after=""):
    """A program that does this before it serves a folder and after it."""
    program = folder / "slow"
    program.write_text(f"#!/usr/bin/env bash\n{before}\n{PROGRAM} \"$@\"\n{after}\n")
    program.chmod(0o755)
    return program


def folders_to_try():
    """How many random folders are tried: 200, or as many as the environment's FOLDERS says."""
    return int(os.environ.get("FOLDERS", 200))
