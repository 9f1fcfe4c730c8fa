"""Tests of `serve` and `merge`: jobs that are killed or run twice, and reports that are merged or refused."""

import hashlib
import os
import signal
import subprocess
import time

from .base import COMPANION, FIVE, SIX, SplitStore, slow


class Merge(SplitStore):
    # Three requests of the first code and one of the second: rebuilt, unread and so several, rebuilt, and the first again.
    LIST = SIX + "rebuild,abc,x0,3,x1 x2 px,6-2-2\nrebuild,abc,y0,3,y1,6-2-2\n" \
        "rebuild,wide,x0,2,x1 x2 x3 x4 x5 px,12-2-2\nrebuild,abc,x0,03,px x1 x2,6-2-2\n"

    def served(self, text=LIST, options=("--racks", "1", "--requests", "1")):
        self.split(text, *options)
        self.serve()

    def test_answers_of_both_codes_are_in_the_order_of_the_list(self):
        self.served()
        self.done(self.call("merge", "work", "result"),
                  "merged 4 answers: 3 rebuilt, 0 contradiction, 1 several; 1 with unread survivors")
        abc, wide = (hashlib.sha256(data).hexdigest() for data in (b"abc", b"\3\7"))
        self.assertEqual(self.text("result/report.csv"),
                         "number,stripe,target,length,outcome,digest,unread,code\n"
                         f"0,abc,x0,3,rebuilt,{abc},,6-2-2\n1,abc,y0,3,several,,y1,6-2-2\n"
                         f"2,wide,x0,2,rebuilt,{wide},,12-2-2\n3,abc,x0,3,rebuilt,{abc},,6-2-2\n")
        self.assertEqual(self.names("result"), ["SHA256SUMS", "abc.x0", "report.csv", "wide.x0"])
        self.assertEqual((self.text("result/abc.x0"), self.text("result/wide.x0")), ("abc", "\3\7"))

    def test_the_report_is_that_of_one_run(self):
        self.served()
        (self.at / "work").rename(self.at / "four")
        self.served(options=())
        self.call("merge", "four", "result")
        self.assertEqual(self.text("result/report.csv"), self.text("work/out/0/rack0.report.csv"))

    def test_folders_without_a_report_are_named(self):
        self.served()
        (self.at / "work/out/1/rack0.report.csv").unlink()
        for path in (self.at / "work/out/3").iterdir():
            path.unlink()
        (self.at / "work/out/3").rmdir()
        self.refused(self.call("merge", "work", "result"), "work/out: a report is missing of these folders: 1,3")
        self.assertEqual(self.names("."), ["list.csv", "store", "work"])

    def test_different_bytes_for_one_place_are_refused(self):
        # By px the fragment is abc, and by the global parities, which are damaged, it is another.
        self.fragments(y0=b"\0\0\0", y1=b"\0\0\0", y2=b"\0\0\0", p0=b"\1\2\3")
        self.served(FIVE + "rebuild,abc,x1,3,\nrebuild,abc,x0,3,x1 x2 px\nrebuild,abc,x0,3,x1 x2 y0 y1 y2 p0\n")
        self.refused(self.call("merge", "work", "result"), "abc.x0: the requests 1 and 2 rebuild it with different bytes")
        self.assertEqual(self.names("."), ["list.csv", "store", "work"])

    def test_damaged_outputs_are_refused(self):
        self.served()
        fragment = self.at / "work/out/2/rack0-0.wide.x0"
        fragment.write_bytes(b"\3\6")
        self.refused(self.call("merge", "work", "result"), "work/out/2/rack0-0.wide.x0: not the bytes that its report says")
        fragment.unlink()
        self.refused(self.call("merge", "work", "result"), "work/out/2/rack0-0.wide.x0: missing, and its report says rebuilt")
        report = self.at / "work/out/2/rack0.report.csv"
        whole = report.read_text()
        for text, said in [
            ("", "line 1: not the header of a report"),
            (whole.splitlines()[0] + "\n", "0 answers, and its list has 1 request"),
            (whole.replace("wide", "abc"), "line 2: not the answer to request 0 of work/in/2/rack0.csv"),
            (whole.replace("12-2-2", "6-2-2"), "line 2: not the answer to request 0 of work/in/2/rack0.csv"),
        ]:
            report.write_text(text)
            self.refused(self.call("merge", "work", "result"), f"work/out/2/rack0.report.csv: {said}")
        self.assertEqual(self.names("."), ["list.csv", "store", "work"])

    def test_an_answer_of_another_request_is_refused(self):
        """An answer of another request isn't taken, nor one with another number."""
        self.served(self.LIST, ["--racks", "1", "--requests", "2"])
        report = self.at / "work/out/0/rack0.report.csv"
        header, first, second = report.read_text().splitlines(keepends=True)
        not_the = "line 2: not the answer to request 0 of work/in/0/rack0.csv"
        for text, said in [
            ([first.replace(",abc,", ",abd,"), second], not_the), ([first.replace(",x0,", ",x1,"), second], not_the),
            ([first.replace(",3,", ",2,"), second], not_the), ([first.replace("0,", "1,", 1), second], "line 2: not an answer"),
            ([first, second.replace("1,", "0,", 1)], "line 3: not an answer"),
            ([second.replace("1,", "0,", 1), first.replace("0,", "1,", 1)], not_the),
            ([first], "1 answer, and its list has 2 requests"),
            ([first, second, second.replace("1,", "2,", 1)], "3 answers, and its list has 2 requests"),
            ([first, second.replace(",y0,", ",y1,")], "line 3: not the answer to request 1 of work/in/0/rack0.csv")]:
            with self.subTest(text):
                report.write_text(header + "".join(text))
                self.refused(self.call("merge", "work", "result"), f"work/out/0/rack0.report.csv: {said}")
        self.assertEqual(self.names("."), ["list.csv", "store", "work"])

    def test_a_second_fragment_is_compared(self):
        self.served(FIVE + "rebuild,abc,x0,3,x1 x2 px\n" * 2, ())
        (self.at / "work/out/0/rack0-1.abc.x0").write_bytes(b"abd")
        self.refused(self.call("merge", "work", "result"), "work/out/0/rack0-1.abc.x0: not the bytes that its report says")
        (self.at / "work/out/0/rack0-1.abc.x0").unlink()
        self.refused(self.call("merge", "work", "result"), "work/out/0/rack0-1.abc.x0: missing, and its report says rebuilt")

    def test_survivors_that_were_left_out_are_counted(self):
        self.fragments(p0=b"longer")
        self.served(FIVE + "rebuild,abc,x0,3,x1 x2 px p0\nrebuild,abc,x1,3,p0\n")
        self.done(self.call("merge", "work", "result"), "merged 2 answers: 1 rebuilt, 0 contradiction, 1 several; 2 with unread survivors")
        self.assertEqual(self.names("result"), ["SHA256SUMS", "abc.x0", "report.csv"])
        self.assertEqual([row.split(",")[-1] for row in self.text("result/report.csv").splitlines()[1:]], ["p0", "p0"])

    def test_the_program_gets_the_number_of_workers(self):
        self.split(self.LIST)
        program = self.at / "program"
        program.write_text("#!/bin/sh\necho \"$@\"\n")
        program.chmod(0o755)
        ended = self.call("serve", "work", 0, "--workers", 7, "--program", program)
        self.assertRegex(ended.stdout, r"^folder 0: farm work/in/0 work/out/0\.\w+ --workers 7\n$")
        (self.at / "work/out/0").rmdir()
        ended = self.call("serve", "work", 0, "--program", program)
        self.assertRegex(ended.stdout, r"--workers 1\n$")

    def test_nothing_is_overwritten(self):
        self.served()
        (self.at / "result").mkdir()
        self.refused(self.call("merge", "work", "result"), "result: already exists; not overwritten")

    def test_a_folder_is_served_once(self):
        self.served()
        self.done(self.call("serve", "work", 2), "folder 2: already served")
        (self.at / "work/in/2/rack0.csv").write_text("order\n")
        (self.at / "work/out/2").rename(self.at / "aside")
        self.refused(self.call("serve", "work", 2), "folder 2: rack0.csv: E19")
        self.refused(self.call("serve", "work", 4), "work/in/4: not a folder")
        self.refused(self.call("serve", "work", 2, "--program", "./none"),
                     "./none: can't be run (No such file or directory); --program names the program")
        self.assertEqual(self.names("work/out"), ["0", "1", "3"])

    def test_the_status_of_the_program_is_handed_on(self):
        self.served()
        (self.at / "work/out/2").rename(self.at / "aside")
        for ending, status in ("exit 4", 4), ("kill -KILL $$", 137):
            self.refused(self.call("serve", "work", 2, program=slow(self.at, before=ending)), f"folder 2: status {status}", status)
        self.assertEqual(self.names("work/out"), ["0", "1", "3"])

    def waited(self, holds):
        for _ in range(1000):
            if holds():
                return
            time.sleep(0.02)
        self.fail("not within 20 seconds")

    def job(self, number, program, **how):
        return subprocess.Popen([COMPANION, "serve", "work", str(number), "--program", program], cwd=self.at, text=True, **how)

    def ended_job(self, ending):
        """A job that a signal ends after its program has served; answers what is then in work/out beside the others' folders."""
        self.served()
        (self.at / "work/out/2").rename(self.at / "aside")
        kept = {path: path.stat().st_mtime_ns for path in (self.at / "work/out").rglob("*")}
        job = self.job(2, slow(self.at, after="sleep 60"), start_new_session=True)
        self.waited(lambda: list((self.at / "work/out").glob("2.*/rack0.report.csv")))
        os.killpg(job.pid, ending)
        job.wait()
        self.refused(self.call("merge", "work", "result"), "work/out: a report is missing of these folders: 2")
        for path, written in kept.items():
            self.assertEqual(path.stat().st_mtime_ns, written)
        left = [name for name in self.names("work/out") if name not in ("0", "1", "3")]
        self.serve()
        self.done(self.call("merge", "work", "result"),
                  "merged 4 answers: 3 rebuilt, 0 contradiction, 1 several; 1 with unread survivors")
        return left

    def test_a_killed_job_leaves_its_folder_aside(self):
        self.assertEqual(len(self.ended_job(signal.SIGKILL)), 1)

    def test_a_job_that_is_asked_to_end_leaves_nothing(self):
        self.assertEqual(self.ended_job(signal.SIGTERM), [])

    def test_of_two_jobs_of_one_folder_one_serves_it(self):
        self.split(self.LIST)
        ready = self.at / "ready"
        program = slow(self.at, before=f"until [ -e {ready} ]; do sleep 0.01; done")
        jobs = [self.job(0, program, stdout=subprocess.PIPE) for _ in range(2)]
        self.waited(lambda: len(self.names("work/out")) == 2)
        ready.touch()
        said = sorted(job.communicate()[0] for job in jobs)
        self.assertEqual(said, ["folder 0: already served\n", "folder 0: served 1 racks, 4 answers\n"])
        self.assertEqual([job.returncode for job in jobs], [0, 0])
        self.assertEqual(self.names("work/out"), ["0"])
