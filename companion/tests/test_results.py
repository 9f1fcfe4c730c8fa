"""Tests of `tell`, `put` and `damaged`."""

import hashlib

from .base import FIVE, SIX, Folder


class Tell(Folder):
    def test_what_was_not_rebuilt_is_named_and_counted(self):
        self.list(FIVE + "rebuild,abc,x0,3,x1 x2 px\nrebuild,abc,y0,3,y1 px\nclose,,,,\nrebuild,abc,py,3,\n")
        self.farm()
        (self.at / "out/rack0-1.abc.y0").touch()
        self.done(self.call("tell", "out", "--lists", "in"), """\
out/rack0.report.csv: request 1: abc.y0: several; left out: y1
out/rack0-1.abc.y0: of an earlier run: no report says that it is rebuilt
in/rack0.csv: line 5: abc.py: no answer
2 answers: 1 rebuilt, 0 contradiction, 1 several; 1 with unread survivors; 1 request without an answer""", 1)
        self.done(self.call("tell", "out", "out"), """\
out/rack0.report.csv: request 1: abc.y0: several; left out: y1
out/rack0-1.abc.y0: of an earlier run: no report says that it is rebuilt
out/rack0.report.csv: request 1: abc.y0: several; left out: y1
out/rack0-1.abc.y0: of an earlier run: no report says that it is rebuilt
4 answers: 2 rebuilt, 0 contradiction, 2 several; 2 with unread survivors""", 1)

    def test_feeds_of_both_codes_are_counted(self):
        self.list(FIVE + "rebuild,abc,x0,3,x1 x2 px\n")
        self.list(SIX + "rebuild,wide,x0,2,x1 x2 x3 x4 x5 px,12-2-2\n", "rack0.feed1.csv")
        self.farm()
        self.done(self.call("tell", "out", "--lists", "in"),
                  "2 answers: 2 rebuilt, 0 contradiction, 0 several; 0 with unread survivors; 0 requests without an answer")

    def test_requests_before_a_close_without_an_answer_are_named(self):
        self.list(FIVE + "rebuild,abc,x0,3,x1 x2 px\n")
        self.list(FIVE + "rebuild,abc,x0,3,x1 x2 px\n" * 2 + "close,,,,\nrebuild,abc,p1,3,\n", "rack1.csv")
        self.list(FIVE + "rebuild,abc,x0,3,x1 x2 px\n" * 3, "rack1.feed1.csv")
        self.list(FIVE + "rebuild,abc,p0,3,\n", "rack2.csv")
        self.list(FIVE, "rack3.csv")
        (self.at / "out").mkdir()
        rebuilt = f"abc,x0,3,rebuilt,{hashlib.sha256(b'abc').hexdigest()},\n"
        header = "number,stripe,target,length,outcome,digest,unread\n"
        fed = header.replace("number,", "number,feed,")
        for name, text in [("rack0", f"{header}0,{rebuilt}"), ("rack1", f"{fed}0,1,{rebuilt}1,0,{rebuilt}2,0,{rebuilt}"),
                           ("rack2", f"{header}0,abc,p0,3,several,,\n"), ("rack3", header)]:
            (self.at / f"out/{name}.report.csv").write_text(text)
        self.done(self.call("tell", "out", "--lists", "in"), """\
out/rack2.report.csv: request 0: abc.p0: several
in/rack1.csv: line 5: abc.p1: no answer
in/rack1.feed1.csv: line 3: abc.x0: no answer
in/rack1.feed1.csv: line 4: abc.x0: no answer
5 answers: 4 rebuilt, 0 contradiction, 1 several; 0 with unread survivors; 3 requests without an answer""", 1)
        (self.at / "out/rack2.report.csv").unlink()
        self.done(self.call("tell", "out"), "4 answers: 4 rebuilt, 0 contradiction, 0 several; 0 with unread survivors")
        self.assertEqual(self.call("tell", "out", "--lists", "in").stdout.splitlines()[-2:], [
            "in/rack2.csv: line 2: abc.p0: no answer",
            "4 answers: 4 rebuilt, 0 contradiction, 0 several; 0 with unread survivors; 4 requests without an answer"])
        self.refused(self.call("tell", "out", "out", "--lists", "in"),
                     "--lists takes a single OUT, the one that the folder was served into")

    def test_fragments_of_a_run_that_has_not_ended_are_named(self):
        (self.at / "out").mkdir()
        (self.at / "out/rack0-0.abc.x0").write_bytes(b"a")
        self.refused(self.call("tell", "out"), "out: 1 fragment and no report: the run that wrote them has not ended, so serve the folder "
                     "again into an empty one")
        (self.at / "out/rack0.report.csv").write_text("number,stripe,target,length,outcome,digest,unread\n")
        for name in "rack1-0.abc.x0", "rack1-11.abc.y0", "rack12-3.abc.x0", "rack1-x.abc.x0", "other":
            (self.at / "out" / name).touch()
        self.done(self.call("tell", "out"), """\
out/rack0-0.abc.x0: of an earlier run: no report says that it is rebuilt
out: 2 fragments of rack 1 and no report of it: the run that wrote them has not ended
out: 1 fragment of rack 12 and no report of it: the run that wrote them has not ended
0 answers: 0 rebuilt, 0 contradiction, 0 several; 0 with unread survivors""", 1)

    def test_reports_that_are_none_are_refused(self):
        (self.at / "out").mkdir()
        self.refused(self.call("tell", "out"), "out: has no report")
        header = "number,stripe,target,length,outcome,digest,unread\n"
        for text, said in [("", "line 1: not the header of a report"), (header + "0,a,x0,3,several,\n", "line 2: not an answer"),
                           (header + "0,../a,x0,3,several,,\n", "line 2: not an answer"),
                           (header + "0,a,x0,3,rebuilt,,\n", "line 2: not an answer")]:
            (self.at / "out/rack0.report.csv").write_text(text)
            self.refused(self.call("tell", "out"), f"out/rack0.report.csv: {said}")


class Put(Folder):
    def served(self):
        self.list(FIVE + "rebuild,abc,x0,3,x1 x2 px\nrebuild,abc,y0,3,\n")
        self.farm()

    def left(self, said):
        """The fragment of the store has other bytes, and is left."""
        ended = self.call("put", "in", "out")
        self.assertEqual((ended.stdout, ended.stderr, ended.returncode),
                         (said + "\n", "in/abc.x0: exists with different contents; not overwritten (--overwrite replaces it)\n", 1))

    def test_other_bytes_are_replaced_where_it_is_asked_for(self):
        self.served()
        self.done(self.call("put", "in", "out"),
                  "wrote 1 fragment to in (0 replaced, 0 already present); 1 request not rebuilt", 1)
        self.assertEqual((self.store / "abc.x0").read_bytes(), b"abc")
        self.done(self.call("put", "in", "out"),
                  "wrote 0 fragments to in (0 replaced, 1 already present); 1 request not rebuilt", 1)
        (self.store / "abc.x0").write_bytes(b"abd")
        self.left("wrote 0 fragments to in (0 replaced, 0 already present, 1 with different contents); 1 request not rebuilt")
        self.assertEqual((self.store / "abc.x0").read_bytes(), b"abd")
        self.done(self.call("put", "in", "out", "--overwrite"),
                  "wrote 1 fragment to in (1 replaced, 0 already present); 1 request not rebuilt", 1)
        self.assertEqual((self.store / "abc.x0").read_bytes(), b"abc")
        self.assertEqual([name for name in self.names("in") if name.startswith(".")], [])

    def test_other_bytes_than_the_report_says_are_refused(self):
        self.served()
        (self.at / "out/rack0-0.abc.x0").write_bytes(b"abd")
        self.refused(self.call("put", "in", "out"), "out/rack0-0.abc.x0: not the bytes that its report says")
        self.assertFalse((self.store / "abc.x0").exists())

    def test_fragments_that_differ_are_refused(self):
        self.served()
        (self.at / "again").mkdir()
        for path in (self.at / "out").iterdir():
            (self.at / "again" / path.name).write_bytes(path.read_bytes())
        report = self.at / "again/rack0.report.csv"
        (self.at / "again/rack0-0.abc.x0").write_bytes(b"abd")
        report.write_text(report.read_text().replace(hashlib.sha256(b"abc").hexdigest(), hashlib.sha256(b"abd").hexdigest()))
        self.refused(self.call("put", "in", "out", "again"),
                     "abc.x0: out/rack0-0.abc.x0 and again/rack0-0.abc.x0 have different bytes")
        self.assertFalse((self.store / "abc.x0").exists())

    def test_links_are_replaced_where_it_is_asked_for(self):
        self.served()
        (self.store / "abc.x0").symlink_to("nothing")
        self.left("wrote 0 fragments to in (0 replaced, 0 already present, 1 with different contents); 1 request not rebuilt")
        self.done(self.call("put", "in", "out", "--overwrite"),
                  "wrote 1 fragment to in (1 replaced, 0 already present); 1 request not rebuilt", 1)
        self.assertEqual((self.store / "abc.x0").read_bytes(), b"abc")
        self.assertFalse((self.store / "abc.x0").is_symlink())


class Damaged(Folder):
    def test_one_damaged_survivor_is_named(self):
        # A stripe of zeros, of which one survivor is damaged.
        self.fragments("z", **{place: b"\0" for place in "x1 x2 y0 y1 y2 px py p1".split()}, p0=b"\7")
        self.list(FIVE + "close,,,,\nrebuild,z,x0,1,x1 x2 y0 y1 y2 px py p0 p1\nrebuild,abc,x0,3,x1 x2 px\n")
        self.done(self.call("damaged", "in", "0", "0"),
                  "z.p0: z.x0 is rebuilt without it, and is a contradiction without any other")
        self.refused(self.call("damaged", "in", "0", "1"),
                     "abc.x0: the answer is rebuilt, so nothing shows that a survivor is damaged")
        self.refused(self.call("damaged", "in", "0", "2"), "in/rack0.csv: has no request 2: it has 2 requests, counted from 0")
        self.refused(self.call("damaged", "in", "0", "0", "--program", "./none"),
                     "./none: can't be run (No such file or directory); --program names the program")

    def test_a_survivor_of_a_further_feed_or_a_split_list_is_named(self):
        places = "x0 x1 x2 x3 x4 x5 y0 y1 y2 y3 y4 y5 px py p0 p1".split()
        self.fragments("w", **{place: b"\0" for place in places[1:]})
        self.fragments("w", y3=b"\5")
        self.list(FIVE + "rebuild,abc,x0,3,x1 x2 px\n")
        self.list(SIX + f"rebuild,abc,x0,3,x1 x2 px,6-2-2\nrebuild,w,x0,1,{' '.join(places[1:])},12-2-2\n", "rack0.feed1.csv")
        self.list(FIVE, "rack1.csv")
        said = "w.y3: w.x0 is rebuilt without it, and is a contradiction without any other"
        self.done(self.call("damaged", "in", "0", "1", "--feed", "1"), said)
        self.refused(self.call("damaged", "in", "0", "1"), "in/rack0.csv: has no request 1: it has 1 request, counted from 0")
        self.refused(self.call("damaged", "in", "1", "1"), "in/rack1.csv: has no request 1: it has 0 requests, counted from 0")
        # The same request among those of a split list.
        (self.at / "list.csv").write_text(SIX + "rebuild,abc,x0,3,x1 x2 px,6-2-2\n" * 5
                                          + f"rebuild,w,x0,1,{' '.join(places[1:])},12-2-2\n")
        self.call("split", "list.csv", "in", "work", "--racks", "2", "--requests", "2")
        self.done(self.call("damaged", "work", "5"), said)
        self.refused(self.call("damaged", "work", "4"), "abc.x0: the answer is rebuilt, so nothing shows that a survivor is damaged")
        self.refused(self.call("damaged", "work", "6"), "work: has no request 6: its lists have 6 requests, counted from 0")
        self.refused(self.call("damaged", "in", "6"), "in/in: not a folder of split lists")
        for words, wrong in (["work", "6", "--feed", "1"], "--feed comes with a RACK and a NUMBER"), \
                (["work", "1", "2", "3"], "RACK and NUMBER, or NUMBER alone, come after the folder"):
            ended = self.call("damaged", *words)
            self.assertEqual((ended.returncode, ended.stderr.splitlines()[-1]), (2, f"rebuild-lists damaged: error: {wrong}"))

    def test_an_undetermined_target_tells_no_survivors_apart(self):
        # The target isn't determined with any of them: the only check is that of the other group.
        self.fragments("z", x1=b"\0", x2=b"\0", px=b"\7", x0=b"\0")
        self.list(FIVE + "rebuild,z,y0,1,x0 x1 x2 px\n")
        self.refused(self.call("damaged", "in", "0", "0"),
                     "z.y0: these can't be told apart, since the answer isn't a contradiction without any one of them: z.x0 z.x1 z.x2 z.px")

    def test_survivors_that_cannot_be_told_apart_are_all_named(self):
        self.fragments("z", x1=b"\0", x2=b"\0", px=b"\0", y0=b"\0", y1=b"\0", y2=b"\0", p0=b"\7")
        self.list(FIVE + "rebuild,z,x0,1,x1 x2 y0 y1 y2 px p0\n")
        self.refused(self.call("damaged", "in", "0", "0"),
                     "z.x0: these can't be told apart, since the answer isn't a contradiction without any one of them: "
                     "z.x1 z.x2 z.y0 z.y1 z.y2 z.px z.p0")

    def test_several_damaged_survivors_are_said_to_be_several(self):
        self.fragments("z", **{place: b"\0" for place in "x1 x2 y1 y2 px py".split()}, y0=b"\7", p0=b"\7", p1=b"\1")
        self.list(FIVE + "rebuild,z,x0,1,x1 x2 y0 y1 y2 px py p0 p1\n")
        self.refused(self.call("damaged", "in", "0", "0"),
                     "z.x0: a contradiction without each single survivor too: several are damaged, "
                     "or the stripe, the length or the code is wrong")

    def test_a_list_with_mistakes_is_refused(self):
        self.list(FIVE + "rebuild,z,x9,1,\n")
        self.refused(self.call("damaged", "in", "0", "0"), "in/rack0.csv: has mistakes, which `rebuild-lists check in` names")
        self.refused(self.call("damaged", "in", "1", "0"), "in/rack1.csv: not a regular file that can be read")
