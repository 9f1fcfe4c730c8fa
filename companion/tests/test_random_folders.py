"""Random folders, good and wrong."""

import argparse
import contextlib
import io
import os
import random
import re
import shutil

from rebuild_lists.check import check

from .base import FIVE, Folder, folders_to_try


class RandomFolders(Folder):
    """Random folders, good and damaged: `check` finds a mistake just where the program refuses, and its first is the program's."""

    FOLDERS = folders_to_try()
    SIX_PLACES = "x0 x1 x2 y0 y1 y2 px py p0 p1".split()
    TWELVE_PLACES = "x0 x1 x2 x3 x4 x5 y0 y1 y2 y3 y4 y5 px py p0 p1".split()

    def request(self, chance, coded):
        code = chance.choice(["6-2-2", "12-2-2"]) if coded else "6-2-2"
        places = self.SIX_PLACES if code == "6-2-2" else self.TWELVE_PLACES
        target, *others = chance.sample(places, chance.randint(1, 8))
        row = ["rebuild", chance.choice(["abc", "wide", "a-1", "z" * 32]), target,
               chance.choice(["3", "2", "0065536", "0003", "1"]), " ".join(others)]
        return row + [code] * coded

    def damage(self, chance, row):
        """Puts a value into a field that may be a mistake or none."""
        value = chance.choice(["", "x0", "x5", "px px", " ", "x1  x2", "A", "z" * 33, "0", "65537", "00000001", "+1", "\xe9", "close",
                               "6-2-2", "7", "a\"b", "\u00b2", "12-2-2", "x1 x0", "x1 ", "a\nb", "rebuild"])
        row[chance.randrange(len(row))] = value
        if chance.random() < 0.1:
            row.append("")

    def written(self, chance, field):
        """A field as a list may have it: with quotes where it needs them or not."""
        if any(mark in field for mark in ',"\r\n') and chance.random() < 0.9 or chance.random() < 0.1:
            half = chance.choice([0, len(field)]) if '"' not in field else 0
            return '"' + field[half:].replace('"', '""') + '"' + field[:half]
        return field

    def random_list(self, chance, wrong):
        coded = chance.random() < 0.5
        rows = [[*FIVE.strip().split(","), *["code"] * coded]]
        for _ in range(chance.choice([0, 1, 3, 10])):
            rows.append(self.request(chance, coded) if chance.random() < 0.9 else ["close"] + [""] * (4 + coded))
        if chance.random() < wrong:
            self.damage(chance, chance.choice(rows))
        end = chance.choice(["\n", "\r\n", "\r"])
        lines = [",".join(self.written(chance, field) for field in row) + end * chance.choice([1, 1, 1, 2]) for row in rows]
        text = chance.choice(["", "", "\ufeff", end]) + "".join(lines)
        if chance.random() < 0.2:
            text = text.rstrip(end)
        if chance.random() < wrong / 4:
            text += chance.choice(['"', "x", ",", "\ufeff", "\n \n", "\0", '"rebuild", "abc'])
        return text.encode(chance.choice(["utf-8", "utf-8", "latin-1"]), "ignore")

    def random_folder(self, chance):
        wrong = chance.choice([0, 0, 0.2, 0.6])
        for rack in range(chance.choice([1, 1, 2, 3, 17 if wrong else 16])):
            for feed in range(chance.choice([1, 1, 2, 4, 5 if chance.random() < wrong else 4])):
                if chance.random() < 0.95:
                    self.list(self.random_list(chance, wrong), f"rack{rack}.feed{feed}.csv" if feed else f"rack{rack}.csv")
        if chance.random() < wrong / 3:
            name = self.store / chance.choice(["rack0.csv", "rack1.csv", "rack0.feed1.csv"])
            if name.exists():
                name.unlink()
            chance.choice([name.mkdir, lambda: name.symlink_to(name.name), lambda: name.symlink_to("nothing"),
                           lambda: os.mkfifo(name)])()
        first = self.store / "rack0.csv"
        if chance.random() < wrong / 6 and (first.is_file() or not os.path.lexists(first)):
            self.list(FIVE + chance.choice(["close,,,,\n" * 4097, "\n" * 1048576, "close,,,,\n" * 4096,
                                            "\n" * (1048576 - len(FIVE))]))

    def test_check_agrees_with_the_program(self):
        refused = 0
        for seed in range(self.FOLDERS):
            with self.subTest(seed=seed):
                shutil.rmtree(self.store)
                self.store.mkdir()
                self.random_folder(random.Random(seed))
                farm = self.farm(f"out{seed}")
                with contextlib.redirect_stdout(io.StringIO()) as said:
                    status = check(argparse.Namespace(folder=str(self.store), out=None))
                self.assertEqual(status, int(farm.returncode != 0), (farm.stderr, said.getvalue()))
                mistakes = [line[9:] for line in said.getvalue().splitlines() if line.startswith("mistake: ")]
                refused += bool(mistakes)
                if mistakes:
                    found = re.match(r"(\S+csv: )(?:line \d+)?(?:, )?(record \d+: )?(?:: )?(E\d+(?: E\d+)?):", mistakes[0])
                    name, record, number = found.groups(default="")
                    place = "" if number in ("E18", "E23", "E24", "E28") else name if number == "E26" else name + record
                    self.assertEqual(farm.stderr, f"{place}{number}\n")
                shutil.rmtree(self.at / f"out{seed}")
        self.assertTrue(self.FOLDERS / 5 < refused < self.FOLDERS * 4 / 5, refused)
