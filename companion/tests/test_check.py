"""Tests of `check` on single folders: its mistakes by file, line, field and value, and its notes."""

import os

from .base import FIVE, SIX, Folder


class Check(Folder):
    def test_a_good_folder_is_said_to_be_good(self):
        self.list(FIVE + "rebuild,abc,x0,3,x1 x2 px\n")
        self.done(self.call("check", "in"), "in: good: 1 rack, 1 list, 1 request; 0 notes")

    def test_each_mistake_of_a_list_is_named(self):
        self.list(FIVE + "rebuild,A,x9,0,x1 x1 z\n\n" + 'Rebuild,"a\nb",x0,3,x0\nrebuild,abc,x0\nclose,a,,,\n')
        self.done(self.call("check", "in"), """\
mistake: rack0.csv: line 2, record 1: E20: the target 'x9' isn't a place of the code 6-2-2
mistake: rack0.csv: line 2, record 1: E20: the survivor 'z' isn't a place of the code 6-2-2
mistake: rack0.csv: line 2, record 1: E21 E1: the stripe 'A' isn't 1 to 32 characters of a to z, 0 to 9 and -
mistake: rack0.csv: line 2, record 1: E21 E2: the length '0' isn't 1 to 65536
mistake: rack0.csv: line 2, record 1: E21 E3: the survivor 'x1' is listed 2 times
mistake: rack0.csv: line 4, record 2: E20: the order 'Rebuild' isn't rebuild or close
mistake: rack0.csv: line 4, record 2: E21 E1: the stripe 'a\\nb' isn't 1 to 32 characters of a to z, 0 to 9 and -
mistake: rack0.csv: line 4, record 2: E21 E4: the target 'x0' is among the survivors
mistake: rack0.csv: line 6, record 3: E20: the record 'rebuild,abc,x0' has 3 fields, and the header has 5
mistake: rack0.csv: line 7, record 4: E20: the order is close, and the stripe 'a' isn't empty
in: 10 mistakes: 1 rack, 1 list, 0 requests; 0 notes""", 1)

    def test_what_is_left_out_is_noted(self):
        self.list(FIVE + "rebuild,abc,x0,4,x1 x2\nrebuild,no,x0,4,px py p0 p1\nclose,,,,\nrebuild,abc,x0,3,\n")
        for name in "rack2.csv", "rack0.feed2.csv", "rack00.csv", "My.Name.x1", "3f2504e0-4f89-11d3-9a0c-0305e82c3301.x1":
            self.list(FIVE, name)
        (self.store / "rack1.csv").symlink_to("nothing")
        (self.store / "abc.x2").unlink()
        (self.store / "no.px").mkdir()
        os.mkfifo(self.store / "no.py")
        (self.store / "no.p0").symlink_to("no.p0")
        (self.store / "no.p1").symlink_to("nothing")
        self.done(self.call("check", "in"), """\
note: rack0.csv: line 2, record 1: the survivor abc.x1 has 3 bytes and not 4, and is left out
note: rack0.csv: line 2, record 1: the survivor abc.x2 isn't there, and is left out
note: rack0.csv: line 3, record 2: the survivor no.px is a folder and not a regular file, and is left out
note: rack0.csv: line 3, record 2: the survivor no.py is a FIFO and not a regular file, and is left out
note: rack0.csv: line 3, record 2: the survivor no.p0 can't be read (Too many levels of symbolic links), and is left out
note: rack0.csv: line 3, record 2: the survivor no.p1 is a link to nothing, and is left out
note: rack0.csv: 1 request after the first close, not answered
note: '3f2504e0-4f89-11d3-9a0c-0305e82c3301.x1': no list can name it: the stripe '3f2504e0-4f89-11d3-9a0c-0305e82c3301' \
has 36 characters, and a name has 1 to 32 characters of a to z, 0 to 9 and -
note: 'My.Name.x1': no list can name it: the stripe 'My.Name' isn't 1 to 32 characters of a to z, 0 to 9 and -
note: 'rack0.feed2.csv': isn't read, since rack0.feed1.csv isn't there
note: 'rack00.csv': isn't read: lists have names such as rack0.csv and rack0.feed1.csv
note: 'rack1.csv': is a link to nothing, which is read as if it weren't there
note: 'rack2.csv': isn't read, since rack1.csv isn't there
in: good: 1 rack, 1 list, 2 requests; 13 notes""")

    def test_the_folder_to_write_to_is_checked_too(self):
        self.list(FIVE)
        good = "in: good: 1 rack, 1 list, 0 requests; 0 notes"
        wrong = "in: 1 mistake: 1 rack, 1 list, 0 requests; 0 notes"
        out = self.at / "out"
        self.done(self.call("check", "in", "out"), f"mistake: out: E24: isn't there\n{wrong}", 1)
        out.write_bytes(b"")
        self.done(self.call("check", "in", "out"), f"mistake: out: E24: is no folder\n{wrong}", 1)
        out.unlink()
        out.mkdir()
        self.done(self.call("check", "in", "out"), good)
        (out / "rack0.report.csv").write_bytes(b"")
        self.done(self.call("check", "in", "out"), "note: out: isn't empty: what an earlier run left there stays\n"
                  "in: good: 1 rack, 1 list, 0 requests; 1 note")
        if os.geteuid():
            out.chmod(0o500)
            self.done(self.call("check", "in", "out"), f"mistake: out: E24: can't be written to\n{wrong}", 1)

    def test_a_store_without_lists_has_one_mistake(self):
        for name in "My.Name.x1", "3f2504e0-4f89-11d3-9a0c-0305e82c3301.x1", "notes.txt":
            self.list("", name)
        self.done(self.call("check", "in"), """\
mistake: rack0.csv: E23: isn't there
note: 11 fragments and no list: `rebuild-store lost` makes one, and `rebuild-store scrub` needs none
in: 1 mistake: 0 racks, 0 lists, 0 requests; 1 note""", 1)

    def test_each_limit_is_a_mistake_beyond_it(self):
        self.list(FIVE + "close,,,,\n" * 4097 + "rebuild,A,x0,1,\n")
        for feed in 1, 2, 3, 4:
            self.list(FIVE, f"rack0.feed{feed}.csv")
        for rack in range(1, 17):
            self.list(FIVE, f"rack{rack}.csv")
        self.list(FIVE + "\n" * 1048576, "rack1.csv")
        (self.store / "rack2.csv").unlink()
        (self.store / "rack2.csv").mkdir()
        mistakes = [line for line in self.call("check", "in").stdout.splitlines() if line.startswith("mistake: ")]
        self.assertEqual(mistakes, [
            "mistake: rack0.csv: line 4098, record 4097: E26: a list has at most 4096 records, and this one has 4098"
            "; `rebuild-lists split` makes folders of a long list",
            "mistake: rack0.csv: line 4099, record 4098: E21 E1: the stripe 'A' isn't 1 to 32 characters of a to z, 0 to 9 and -",
            "mistake: rack0.feed4.csv: E28: a rack has at most 4 feeds, the last of them rack0.feed3.csv",
            "mistake: rack1.csv: E25: has 1048613 bytes, and a list at most 1048576"
            "; `rebuild-lists split` makes folders of a long list",
            "mistake: rack2.csv: E24: is a folder and not a regular file",
            "mistake: rack16.csv: E18: a folder has at most 16 racks, the last of them rack15.csv"])

    def test_a_close_of_a_feed_is_noted(self):
        self.list(FIVE + "rebuild,abc,x0,3,\n")
        self.list(FIVE + "close,,,,\n", "rack0.feed1.csv")
        self.done(self.call("check", "in"), """\
note: rack0.csv: the rack ends with the close of rack0.feed1.csv, so requests of its other feeds may have no answer
in: good: 1 rack, 2 lists, 1 request; 1 note""")

    def test_what_is_no_folder_is_refused(self):
        self.refused(self.call("check", "none"), "none: not a folder")

    def test_a_list_of_both_codes_is_good(self):
        self.list(SIX + "rebuild,wide,x0,2,x1 x2 x3 x4 x5 px,12-2-2\nrebuild,abc,x0,3,x1 x2 px,6-2-2\nclose,,,,,\n")
        self.done(self.call("check", "in"), "in: good: 1 rack, 1 list, 2 requests; 0 notes")
