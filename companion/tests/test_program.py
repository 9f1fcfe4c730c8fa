"""Which program `rebuild` the companion runs."""

import os
import shutil
import subprocess

from .base import COMPANION, SplitStore


class Program(SplitStore):
    """The companion in a folder `bin`, as the packages have it, with programs that say where they lie."""

    def setUp(self):
        super().setUp()
        (self.at / "work/in/0").mkdir(parents=True)
        (self.at / "work/out").mkdir()
        (self.at / "bin").mkdir()
        shutil.copy(COMPANION, self.at / "bin")
        shutil.copytree(COMPANION.parent / "rebuild_lists", self.at / "share/rebuild-lists/rebuild_lists")

    def program(self, folder):
        (self.at / folder).mkdir(exist_ok=True)
        (self.at / folder / "rebuild").write_text(f"#!/bin/sh\necho from {folder}\n")
        (self.at / folder / "rebuild").chmod(0o755)

    def served(self, command):
        there = {**os.environ, "PATH": f"{self.at / 'path'}:{os.environ['PATH']}"}
        return subprocess.run([command, "serve", "work", "0"], cwd=self.at, capture_output=True, text=True, env=there)

    def test_it_is_the_one_beside_it(self):
        self.program("bin")
        self.program("path")
        self.done(self.served("bin/rebuild-lists"), "folder 0: from bin")

    def test_a_link_is_followed(self):
        self.program("bin")
        (self.at / "other").mkdir()
        (self.at / "other/rebuild-lists").symlink_to(self.at / "bin/rebuild-lists")
        self.done(self.served("other/rebuild-lists"), "folder 0: from bin")

    def test_with_none_beside_it_is_the_one_on_path(self):
        self.program("path")
        (self.at / "bin/rebuild").mkdir()
        self.done(self.served("bin/rebuild-lists"), "folder 0: from path")
