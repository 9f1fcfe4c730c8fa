"""Tests of `split`: how lists are cut, and what is refused and where."""

from .base import FIVE, HEADER_WANTED, SIX, SplitStore


class Split(SplitStore):
    def cut(self, ended, said, mebibytes):
        self.done(ended, f"{said}\nthe run of a folder holds at most {mebibytes} MiB of fragments in memory")

    def refused_list(self, text, said):
        self.refused(self.split(text), "list.csv: " + said)
        self.assertEqual(self.names("."), ["list.csv", "store"])

    def test_an_empty_list_makes_no_folders(self):
        self.cut(self.split(FIVE), "split 0 requests into 0 folders; fragments that they name: 0 found, 0 missing", 0)
        self.assertEqual((self.names("work/in"), self.names("work/out")), ([], []))
        self.done(self.call("merge", "work", "result"),
                  "merged 0 answers: 0 rebuilt, 0 contradiction, 0 several; 0 with unread survivors")
        self.assertEqual(self.text("result/report.csv"), "number,stripe,target,length,outcome,digest,unread\n")

    def test_as_many_requests_as_a_folder_has_make_one(self):
        rows = [f"rebuild,s{k},x0,3,\n" for k in range(6)]
        self.cut(self.split(FIVE + "".join(rows), "--racks", "2", "--requests", "3"),
                 "split 6 requests into 1 folder; fragments that they name: 0 found, 0 missing", 1)
        self.assertEqual(self.names("work/in"), ["0"])
        self.assertEqual(self.names("work/in/0"), ["rack0.csv", "rack1.csv"])
        self.assertEqual(self.text("work/in/0/rack0.csv"), FIVE + "".join(rows[:3]))
        self.assertEqual(self.text("work/in/0/rack1.csv"), FIVE + "".join(rows[3:]))

    def test_one_request_more_than_a_folder_makes_a_second(self):
        rows = [f"rebuild,s{k},x0,3,\n" for k in range(7)]
        self.split(FIVE + "".join(rows), "--racks", "2", "--requests", "3")
        self.assertEqual(self.names("work/in"), ["0", "1"])
        self.assertEqual(self.names("work/in/1"), ["rack0.csv"])
        self.assertEqual(self.text("work/in/1/rack0.csv"), FIVE + rows[6])

    def test_the_greatest_folder_is_served_and_merged(self):
        self.split(FIVE + "".join(f"rebuild,s{k},x0,1,\n" for k in range(16 * 4096 + 1)))
        self.assertEqual(self.names("work/in"), ["0", "1"])
        self.assertEqual(len(self.names("work/in/0")), 16)
        self.assertEqual(self.text("work/in/0/rack15.csv").count("\n"), 4097)
        self.assertEqual(self.text("work/in/1/rack0.csv"), FIVE + "rebuild,s65536,x0,1,\n")
        self.serve()
        self.done(self.call("merge", "work", "result"),
                  "merged 65537 answers: 0 rebuilt, 0 contradiction, 65537 several; 0 with unread survivors")

    def test_a_list_of_both_codes_keeps_its_codes(self):
        self.cut(self.split(SIX + "rebuild,abc,x0,3,x1 x2 px,6-2-2\nrebuild,wide,x0,2,x1 x2 x3 x4 x5 px,12-2-2\n", "--requests", "1"),
                 "split 2 requests into 1 folder; fragments that they name: 9 found, 0 missing", 1)
        self.assertEqual(self.text("work/in/0/rack1.csv"), SIX + "rebuild,wide,x0,2,x1 x2 x3 x4 x5 px,12-2-2\n")

    def test_fragments_are_linked_or_copied(self):
        for options, linked in ([], True), (["--copy"], False):
            self.split(FIVE + "rebuild,abc,x0,3,x1\n", *options)
            fragment = self.at / "work/in/0/abc.x1"
            self.assertEqual((fragment.is_symlink(), fragment.read_bytes()), (linked, b"\0\0\0"))
            (self.at / "work").rename(self.at / f"work-{linked}")

    def test_survivors_of_another_length_are_brought_as_they_are(self):
        # They are brought as they are: the program leaves them out, and its report names them.
        self.fragments(x1=b"\0\0\0\0", px=b"ab")
        for options in [], ["--copy"]:
            self.split(FIVE + "rebuild,abc,x0,3,x1 x2 px\n", *options)
            self.assertEqual([(self.at / f"work/in/0/abc.{place}").read_bytes() for place in ("x1", "x2", "px")],
                             [b"\0\0\0\0", b"\0\0\0", b"ab"])
            self.serve()
            self.assertEqual(self.text("work/out/0/rack0.report.csv").splitlines()[1], "0,abc,x0,3,several,,x1 px")
            (self.at / "work").rename(self.at / f"work-{len(options)}")

    def test_missing_fragments_are_counted(self):
        self.cut(self.split(FIVE + "rebuild,abc,x0,65536,x1 x2 p0\nrebuild,abc,px,65536," + "x0 x1 x2 y0 y1 y2 py p0 p1\n"),
                 "split 2 requests into 1 folder; fragments that they name: 2 found, 7 missing", 1)

        self.assertEqual(self.names("work/in/0"), ["abc.x1", "abc.x2", "rack0.csv"])

    def test_the_memory_of_the_greatest_folder_is_said(self):
        nine = "x0 x1 x2 y0 y1 y2 py p0 p1"
        ended = self.split(FIVE + "rebuild,abc,x0,1,\n" + f"rebuild,abc,px,65536,{nine}\n" * 2 + "rebuild,abc,x0,1,\n",
                           "--racks", "1", "--requests", "2")
        self.assertEqual(ended.stdout.splitlines()[1], "the run of a folder holds at most 1 MiB of fragments in memory")
        (self.at / "work").rename(self.at / "aside")
        ended = self.split(FIVE + f"rebuild,abc,px,65536,{nine}\n" * 2)
        self.assertEqual(ended.stdout.splitlines()[1], "the run of a folder holds at most 2 MiB of fragments in memory")

    def test_the_memory_of_a_run_in_batches_is_said(self):
        # 64 requests of 64 KiB rebuild 4 MiB; of the 36 MiB that they list no more than 32 are held at once.
        nine = "x0 x1 x2 y0 y1 y2 py p0 p1"
        ended = self.split(FIVE + f"rebuild,abc,px,65536,{nine}\n" * 64)
        self.assertEqual(ended.stdout.splitlines()[1], "the run of a folder holds at most 36 MiB of fragments in memory")

    def test_quotes_line_ends_and_a_mark_change_nothing(self):
        self.split('\ufefforder,stripe,target,length,survivors\r\n\r\n"rebuild","abc",x0,"3","x1 x2"\r\nrebuild,"a",x0,1,'.encode())
        self.assertEqual(self.text("work/in/0/rack0.csv"), FIVE + "rebuild,abc,x0,3,x1 x2\nrebuild,a,x0,1,\n")

    def test_nothing_is_overwritten(self):
        (self.at / "work").mkdir()
        self.refused(self.split(FIVE), "work: already exists; not overwritten")
        self.assertEqual(self.names("work"), [])

    def test_wrong_lists_are_refused_by_line(self):
        good = "rebuild,abc,x0,3,x1 x2 px\n"
        for text, said in [
            ("", "no header, which is order,stripe,target,length,survivors, with or without ,code"),
            (good, f"line 1: the header 'rebuild,abc,x0,3,x1 x2 px' {HEADER_WANTED}"),
            (FIVE + good + "close,,,,\n", "line 3: a close, which a long list doesn't have"),
            (FIVE + good + "\r\n\r\n" + "rebuild,abc,x0,3\n", "line 5: the record 'rebuild,abc,x0,3' has 4 fields, and the header has 5"),
            (FIVE + "rebuild,abc,x0,3,,6-2-2\n", "line 2: the record 'rebuild,abc,x0,3,,6-2-2' has 6 fields, and the header has 5"),
            (FIVE + "Rebuild,abc,x0,3,\n", "line 2: the order 'Rebuild' isn't rebuild or close"),
            (FIVE + "rebuild,Abc,x0,3,\n", "line 2: the stripe 'Abc' isn't 1 to 32 characters of a to z, 0 to 9 and -"),
            (FIVE + "rebuild,\xe9,x0,3,\n", "line 2: the stripe '\xe9' isn't 1 to 32 characters of a to z, 0 to 9 and -"),
            (FIVE + 'rebuild,"a\nb",x0,3,\n' + good, "line 2: the stripe 'a\\nb' isn't 1 to 32 characters of a to z, 0 to 9 and -"),
            (FIVE + "rebuild,abc,x3,3,\n", "line 2: the target 'x3' isn't a place of the code 6-2-2"),
            (FIVE + "rebuild,abc,x0,65537,\n", "line 2: the length '65537' isn't 1 to 65536"),
            (FIVE + "rebuild,abc,x0,00000003,\n", "line 2: the length '00000003' isn't 1 to 65536 in one to seven digits"),
            (FIVE + "rebuild,abc,x0,3,x1  x2\n", "line 2: the survivor '' isn't a place of the code 6-2-2"),
            (FIVE + "rebuild,abc,x0,3,x1 x1\n", "line 2: the survivor 'x1' is listed 2 times"),
            (FIVE + "rebuild,abc,x0,3,x1 x0\n", "line 2: the target 'x0' is among the survivors"),
            (SIX + "rebuild,abc,x0,3,x1,7-2-2\n", "line 2: the code '7-2-2' isn't 6-2-2 or 12-2-2"),
            (FIVE + good + 'rebuild,"abc,x0,3,\n', "line 3: unexpected end of data"),
        ]:
            with self.subTest(said):
                self.refused_list(text, said)

    def test_wrong_arguments_are_refused(self):
        for words in ["--racks", "17"], ["--racks", "0"], ["--requests", "4097"], ["--requests", "x"]:
            ended = self.split(FIVE, *words)
            self.assertEqual(ended.returncode, 2)
            self.assertIn("isn't a number from 1 to", ended.stderr)
        ended = self.call("split", "none.csv", "store", "work")
        self.assertEqual((ended.returncode, self.names(".")), (3, ["list.csv", "store"]))
        self.refused(self.call("split", "list.csv", "none", "work"), "none: not a folder")
