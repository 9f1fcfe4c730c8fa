"""Tests of what is shown on a terminal, and of the arguments."""

import os
import pty
import subprocess

from .base import COMPANION, FIVE, SplitStore, slow


class Terminal(SplitStore):
    def on_terminal(self, *words):
        """What a run writes to standard error where that is a terminal, as long as it lasts half a second or more."""
        terminal, its = pty.openpty()
        # Each look at the clock is a second later than the one before, so that the run seems long.
        clock = "import itertools, runpy, sys, time; time.monotonic = itertools.count().__next__; " \
                "sys.argv = sys.argv[1:]; runpy.run_path(sys.argv[0], run_name='__main__')"
        ended = subprocess.run(["python3", "-c", clock, COMPANION, *words], cwd=self.at, stdout=subprocess.PIPE, stderr=its,
                               check=True)
        os.close(its)
        shown = b""
        try:
            while piece := os.read(terminal, 4096):
                shown += piece
        except OSError:
            pass
        os.close(terminal)
        return ended.stdout, shown

    def test_progress_is_shown_and_cleared(self):
        (self.at / "list.csv").write_text(FIVE + "rebuild,abc,x0,3,x1 x2 px\n" * 3)
        (self.at / "store/rack0.csv").write_text(FIVE + "rebuild,abc,x0,3,x1 x2 px\n" * 3)
        cases = [(["check", "store"], "requests checked: 3"),
                 (["split", "list.csv", "store", "work", "--requests", "1"], "folders made: 1"),
                 (["merge", "work", "result"], "answers merged: 3"), (["tell", "result"], "answers read: 3"),
                 (["put", "store", "result"], "fragments put: 1")]
        for words, last in cases:
            with self.subTest(words):
                said, shown = self.on_terminal(*words)
                self.assertIn(f"\r{last}\033[K".encode(), shown)
                self.assertTrue(shown.endswith(b"\r\033[K"), shown)
                self.assertTrue(said.endswith(b"\n"))
            if words[0] == "split":
                self.serve()

    def test_no_progress_is_shown_without_a_terminal(self):
        ended = self.call("check", "store")
        self.assertEqual(ended.stderr, "")

    def test_wrong_arguments_are_refused(self):
        for words, said in [([], "the following arguments are required: COMMAND"), (["other"], "invalid choice: 'other'"),
                            (["check"], "the following arguments are required: IN"),
                            (["serve", "work", "-1"], "'-1' isn't a number from 0 to"),
                            (["serve", "work", "x"], "'x' isn't a number from 0 to"),
                            (["serve", "work", "0", "--workers", "17"], "'17' isn't a number from 1 to 16"),
                            (["damaged", "in", "16", "0"], "'16' isn't a number from 0 to 15"),
                            (["damaged", "in", "0", "0", "--feed", "4"], "'4' isn't a number from 0 to 3"),
                            (["put", "store"], "the following arguments are required: OUT"),
                            (["tell", "work", "--list", "in"], "unrecognized arguments: --list")]:
            with self.subTest(words):
                ended = subprocess.run([COMPANION, *words], cwd=self.at, capture_output=True, text=True, check=False)
                self.assertEqual((ended.returncode, ended.stdout), (2, ""))
                self.assertIn(said, ended.stderr)

    def test_output_that_cannot_be_written_is_said(self):
        (self.at / "store/rack0.csv").write_text(FIVE)
        with open("/dev/full", "w", encoding="ascii") as full:
            ended = subprocess.run([COMPANION, "check", "store"], cwd=self.at, stdout=full, stderr=subprocess.PIPE, text=True, check=False)
        self.assertEqual((ended.returncode, ended.stderr), (3, "No space left on device\n"))
        ended = subprocess.run(f"{COMPANION} check store | true; exit ${{PIPESTATUS[0]}}", cwd=self.at, shell=True, executable="/bin/bash",
                               stderr=subprocess.PIPE, text=True, check=False)
        self.assertEqual(ended.stderr, "")
        self.assertIn(ended.returncode, (0, 3))

    def test_a_program_that_fails_is_said(self):
        (self.at / "store/rack0.csv").write_text(FIVE + "rebuild,abc,x0,3,x1 x2 px\n")
        program = slow(self.at, before="echo E16 >&2; exit 4")
        self.refused(self.call("damaged", "store", "0", "0", program=program), f"{program}: ended with status 4: E16")
