"""Wrong folders, a mistake in each: `check` names it by file, line, field and value, or by file and reason, and ends with status 1,
and the program refuses the folder with the same number."""

import os

from .base import FIVE, HEADER_WANTED, SIX, Folder

GOOD = "rebuild,abc,x0,3,x1 x2 px\n"
NAME = "1 to 32 characters of a to z, 0 to 9 and -"
LINE = "rack0.csv: line 3, record 2"
LONG = "; `rebuild-lists split` makes folders of a long list"
# The second record of a list with five fields whose first is good; the number and the text of its mistake.
RECORDS = [
    ("rebuild,abc,x3,3,", "E20", "the target 'x3' isn't a place of the code 6-2-2"),
    ("rebuild,abc,,3,", "E20", "the target '' isn't a place of the code 6-2-2"),
    ("rebuild,abc,X0,3,", "E20", "the target 'X0' isn't a place of the code 6-2-2"),
    ("rebuild,abc,x0,3,x1 x5", "E20", "the survivor 'x5' isn't a place of the code 6-2-2"),
    ("rebuild,abc,x0,3,x1  x2", "E20", "the survivor '' isn't a place of the code 6-2-2"),
    ("rebuild,abc,x0,3,x1;x2", "E20", "the survivor 'x1;x2' isn't a place of the code 6-2-2"),
    ("rebuild,abc,x0,,", "E20", "the length '' isn't 1 to 65536 in one to seven digits"),
    ("rebuild,abc,x0,-1,", "E20", "the length '-1' isn't 1 to 65536 in one to seven digits"),
    ("rebuild,abc,x0, 3,", "E20", "the length ' 3' isn't 1 to 65536 in one to seven digits"),
    ("rebuild,abc,x0,00000003,", "E20", "the length '00000003' isn't 1 to 65536 in one to seven digits"),
    ("rebuild,abc,x0,3.0,", "E20", "the length '3.0' isn't 1 to 65536 in one to seven digits"),
    ("rebuild,abc,x0,64K,", "E20", "the length '64K' isn't 1 to 65536 in one to seven digits"),
    ("rebuild,abc,x0,3", "E20", "the record 'rebuild,abc,x0,3' has 4 fields, and the header has 5"),
    ("rebuild,abc,x0,3,,6-2-2", "E20", "the record 'rebuild,abc,x0,3,,6-2-2' has 6 fields, and the header has 5"),
    ("rebuild", "E20", "the record 'rebuild' has 1 field, and the header has 5"),
    ("Rebuild,abc,x0,3,", "E20", "the order 'Rebuild' isn't rebuild or close"),
    (",abc,x0,3,", "E20", "the order '' isn't rebuild or close"),
    ("close,abc,,,", "E20", "the order is close, and the stripe 'abc' isn't empty"),
    ("close,,,3,", "E20", "the order is close, and the length '3' isn't empty"),
    ("close", "E20", "the record 'close' has 1 field, and the header has 5"),
    ("rebuild,Abc,x0,3,", "E21 E1", f"the stripe 'Abc' isn't {NAME}"),
    ("rebuild,,x0,3,", "E21 E1", f"the stripe '' isn't {NAME}"),
    ("rebuild,a.b,x0,3,", "E21 E1", f"the stripe 'a.b' isn't {NAME}"),
    ("rebuild,../a,x0,3,", "E21 E1", f"the stripe '../a' isn't {NAME}"),
    ("rebuild," + "z" * 33 + ",x0,3,", "E21 E1", f"the stripe '{'z' * 33}' has 33 characters, and a name has {NAME}"),
    ("rebuild,abc,x0,0,", "E21 E2", "the length '0' isn't 1 to 65536"),
    ("rebuild,abc,x0,65537,", "E21 E2", "the length '65537' isn't 1 to 65536"),
    ("rebuild,abc,x0,3,x1 x2 x1", "E21 E3", "the survivor 'x1' is listed 2 times"),
    ("rebuild,abc,x0,3,x1 x0", "E21 E4", "the target 'x0' is among the survivors"),
    ('rebuild,"abc,x0,3,', "E20", "the record 'rebuild,abc,x0,3,\\n' has 2 fields, and the header has 5"),
]
CODED_RECORDS = [
    ("rebuild,abc,x0,3,,", "E20", "the code '' isn't 6-2-2 or 12-2-2"),
    ("rebuild,abc,x0,3,,(6,2,2)", "E20", "the record 'rebuild,abc,x0,3,,(6,2,2)' has 8 fields, and the header has 6"),
    ("rebuild,abc,x5,3,,6-2-2", "E20", "the target 'x5' isn't a place of the code 6-2-2"),
    ("rebuild,abc,x6,3,,12-2-2", "E20", "the target 'x6' isn't a place of the code 12-2-2"),
    ("close,,,,,6-2-2", "E20", "the order is close, and the code '6-2-2' isn't empty"),
]
HEADERS = [
    ("", "rack0.csv: line 1: E19: the header ''"),
    (GOOD, "rack0.csv: line 1: E19: the header 'rebuild,abc,x0,3,x1 x2 px'"),
    ("order;stripe;target;length;survivors\n", "rack0.csv: line 1: E19: the header 'order;stripe;target;length;survivors'"),
    ("\n\n" + FIVE.upper(), "rack0.csv: line 3: E19: the header 'ORDER,STRIPE,TARGET,LENGTH,SURVIVORS'"),
]


class WrongFolders(Folder):
    def setUp(self):
        super().setUp()
        self.tried = 0

    def wrong(self, mistake, program):
        """The folder's only mistake, and the line by which the program refuses it."""
        self.tried += 1
        ended = self.call("check", "in")
        self.assertEqual((ended.stderr, ended.returncode), ("", 1))
        self.assertEqual([line[9:] for line in ended.stdout.splitlines() if line.startswith("mistake: ")], [mistake])
        self.assertEqual(self.farm(f"out{self.tried}").stderr, program + "\n")

    def test_each_wrong_list_is_refused_by_both(self):
        for header, records in (FIVE + GOOD, RECORDS), (SIX + GOOD[:-1] + ",6-2-2\n", CODED_RECORDS):
            for record, number, text in records:
                with self.subTest(record):
                    self.list(f"{header}{record}\n")
                    self.wrong(f"{LINE}: {number}: {text}", f"rack0.csv: record 2: {number}")
        for text, mistake in HEADERS:
            with self.subTest(text):
                self.list(text)
                self.wrong(f"{mistake} {HEADER_WANTED}", "rack0.csv: E19")
        self.assertEqual(self.tried, len(RECORDS) + len(CODED_RECORDS) + len(HEADERS))

    def test_a_folder_without_a_list_is_refused_by_both(self):
        self.wrong("rack0.csv: E23: isn't there", "E23")

    def test_a_list_that_is_too_long_is_refused_by_both(self):
        self.list(FIVE + "\n" * (1048577 - len(FIVE)))
        self.wrong("rack0.csv: E25: has 1048577 bytes, and a list at most 1048576" + LONG, "rack0.csv: E25")

    def test_a_list_of_too_many_records_is_refused_by_both(self):
        self.list(FIVE + GOOD * 4097)
        self.wrong("rack0.csv: line 4098, record 4097: E26: a list has at most 4096 records, and this one has 4097" + LONG,
                   "rack0.csv: E26")

    def test_too_many_feeds_are_refused_by_both(self):
        for name in "rack0.csv", "rack0.feed1.csv", "rack0.feed2.csv", "rack0.feed3.csv", "rack0.feed4.csv":
            self.list(FIVE, name)
        self.wrong("rack0.feed4.csv: E28: a rack has at most 4 feeds, the last of them rack0.feed3.csv", "E28")

    def test_too_many_racks_are_refused_by_both(self):
        for rack in range(17):
            self.list(FIVE, f"rack{rack}.csv")
        self.wrong("rack16.csv: E18: a folder has at most 16 racks, the last of them rack15.csv", "E18")

    def test_a_mistake_of_a_further_feed_is_refused_by_both(self):
        self.list(FIVE + GOOD)
        self.list(FIVE + "rebuild,abc,x9,3,\n", "rack0.feed1.csv")
        self.wrong("rack0.feed1.csv: line 2, record 1: E20: the target 'x9' isn't a place of the code 6-2-2",
                   "rack0.feed1.csv: record 1: E20")

    def test_what_is_no_regular_file_is_refused_by_both(self):
        name = self.store / "rack0.csv"
        for make, kind in [(name.mkdir, "is a folder and not a regular file"),
                           (lambda: os.mkfifo(name), "is a FIFO and not a regular file"),
                           (lambda: name.symlink_to("/dev/null"), "is a device and not a regular file"),
                           (lambda: name.symlink_to("rack0.csv"), "can't be read (Too many levels of symbolic links)")]:
            make()
            with self.subTest(kind):
                self.wrong(f"rack0.csv: E24: {kind}", "E24")
            (name.rmdir if name.is_dir() else name.unlink)()
