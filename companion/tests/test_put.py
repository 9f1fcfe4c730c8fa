"""Tests of `put`: what it compares before it writes, what it leaves, owners and rights, and what stays after each failure."""

import contextlib
import fcntl
import hashlib
import io
import os
import pathlib
import resource
import shutil
import signal
import stat
import subprocess
import time
from unittest import mock

from rebuild_lists import files
from rebuild_lists.command import parser, run
from rebuild_lists.files import UNNAMED, same_bytes, write_whole

from .base import COMPANION, FIVE, SIX, Folder

# Fragments of two stripes, of which x0 and y0 are lost: both are their local parity's bytes.
ABC = {"x1": b"\0\0\0", "x2": b"\0\0\0", "px": b"abc", "y1": b"\0\0\0", "y2": b"\0\0\0", "py": b"xyz"}
UNENDED = "the run has not ended, or is of other lists"
TWO = "rebuild,abc,x0,3,x1 x2 px\nrebuild,abc,y0,3,y1 y2 py\n"


class Put(Folder):
    def setUp(self):
        super().setUp()
        self.fragments(**ABC)

    def served(self, text=TWO, header=FIVE):
        self.list(header + text)
        self.assertEqual(self.farm().returncode, 0)

    def wrote(self, written, of, status=0, **counts):
        said = f"wrote {written} to in ({counts.get('replaced', 0)} replaced, {counts.get('same', 0)} already present" \
            f"{counts.get('others', '')}); {counts.get('missed', '0 requests')} not rebuilt\n"
        self.assertEqual((of.stdout, of.returncode), (said, status), of.stderr)

    def in_process(self, *words):
        """The same command without a process of its own, so that its calls can be seen."""
        said = io.StringIO()
        with contextlib.redirect_stdout(said), contextlib.redirect_stderr(said):
            return run(parser().parse_args([str(word) for word in words])), said.getvalue()

    # ---- what is compared first

    def test_digests_are_compared_before_anything_is_written(self):
        self.served()
        (self.at / "out/rack0-1.abc.y0").write_bytes(b"xyw")
        before = self.names("in")
        self.refused(self.call("put", "in", "out"), "out/rack0-1.abc.y0: not the bytes that its report says")
        self.assertEqual(self.names("in"), before)

    def test_a_fragment_that_is_cut_short_is_refused(self):
        self.served()
        (self.at / "out/rack0-1.abc.y0").write_bytes(b"xy")
        self.refused(self.call("put", "in", "out"), "out/rack0-1.abc.y0: not the bytes that its report says")
        (self.at / "out/rack0-1.abc.y0").unlink()
        self.refused(self.call("put", "in", "out"), "out/rack0-1.abc.y0: missing, and its report says rebuilt")

    def test_fragments_of_all_racks_are_put(self):
        self.list(FIVE + "rebuild,abc,x0,3,x1 x2 px\n")
        self.list(FIVE + "rebuild,abc,y0,3,y1 y2 py\n", "rack1.csv")
        self.farm()
        self.wrote("2 fragments", self.call("put", "in", "out"))
        self.assertEqual((self.text("in/abc.x0"), self.text("in/abc.y0")), ("abc", "xyz"))

    def test_fragments_without_a_survivor_are_put(self):
        self.fragments(p0=b"longer")
        self.served("rebuild,abc,x0,3,x1 x2 px p0\nrebuild,abc,x0,3,x1 x2 px\nrebuild,abc,p1,3,\nrebuild,abc,y0,3,y1 y2 py p0\n")
        ended = self.call("put", "in", "out")
        self.wrote("2 fragments", ended, 1, missed="1 request")
        self.assertEqual((self.text("in/abc.x0"), self.text("in/abc.y0")), ("abc", "xyz"))
        self.wrote("0 fragments", self.call("put", "in", "out"), 1, same=2, missed="1 request")

    # ---- reports that aren't whole

    def test_reports_are_held_to_their_lists(self):
        self.served()
        report = self.at / "out/rack0.report.csv"
        whole = report.read_text().splitlines(keepends=True)
        for text, said in [
            (whole[:2], f"out/rack0.report.csv: 1 answer to in/rack0.csv, which has 2 requests: {UNENDED}"),
            (whole[:1], f"out/rack0.report.csv: 0 answers to in/rack0.csv, which has 2 requests: {UNENDED}"),
            ([*whole, "2,abc,x0,3,several,,\n"], "out/rack0.report.csv: line 4: an answer to no request of in/rack0.csv"),
            ([whole[0], whole[1].replace("x0", "x1")], "out/rack0.report.csv: line 2: not the answer to request 0 of in/rack0.csv"),
            ([whole[0], whole[1].replace("abc", "abd")], "out/rack0.report.csv: line 2: not the answer to request 0 of in/rack0.csv"),
            ([whole[0], whole[1].replace(",3,", ",4,")], "out/rack0.report.csv: line 2: not the answer to request 0 of in/rack0.csv"),
            ([whole[0][:-1] + ",code\n", whole[1][:-1] + ",12-2-2\n"],
             "out/rack0.report.csv: line 2: not the answer to request 0 of in/rack0.csv")]:
            with self.subTest(said):
                report.write_text("".join(text))
                self.refused(self.call("put", "in", "out", "--lists", "in"), said)
        report.unlink()
        self.refused(self.call("put", "in", "out"), "out: 2 fragments and no report: the run that wrote them has not ended, so serve the "
                     "folder again into an empty one")
        self.assertFalse((self.store / "abc.x0").exists())

    def test_reports_of_other_racks_are_refused(self):
        self.served()
        shutil.copy(self.at / "out/rack0.report.csv", self.at / "out/rack1.report.csv")
        self.refused(self.call("put", "in", "out"), "out/rack1.report.csv: in has lists of 1 rack: the report is of an earlier run, or of "
                     "other lists")
        self.list(FIVE, "rack1.csv")
        self.list(FIVE, "rack2.csv")
        (self.at / "out/rack1.report.csv").write_text("number,stripe,target,length,outcome,digest,unread\n")
        self.refused(self.call("put", "in", "out"), f"out/rack2.report.csv: missing, and in/rack2.csv is there: {UNENDED}")

    def test_feeds_up_to_a_close_are_put(self):
        self.list(FIVE + "rebuild,abc,x0,3,x1 x2 px\n" * 3)
        self.list(FIVE + "rebuild,abc,y0,3,y1 y2 py\nclose,,,,\nrebuild,abc,p0,3,\n", "rack0.feed1.csv")
        (self.at / "out").mkdir()
        header = "number,feed,stripe,target,length,outcome,digest,unread\n"
        (self.at / "out/rack0-0.abc.y0").write_bytes(b"xyz")
        (self.at / "out/rack0-1.abc.x0").write_bytes(b"abc")
        answers = [f"0,1,abc,y0,3,rebuilt,{hashlib.sha256(b'xyz').hexdigest()},\n",
                   f"1,0,abc,x0,3,rebuilt,{hashlib.sha256(b'abc').hexdigest()},\n"]
        (self.at / "out/rack0.report.csv").write_text(header + "".join(answers))
        self.wrote("2 fragments", self.call("put", "in", "out"))
        (self.at / "out/rack0.report.csv").write_text(header + answers[1].replace("1,0", "0,0", 1))
        self.refused(self.call("put", "in", "out"),
                     f"out/rack0.report.csv: 0 answers to in/rack0.feed1.csv, which has 1 request: {UNENDED}")
        (self.at / "out/rack0.report.csv").write_text(header + answers[0] + "1,1,abc,p0,3,several,,\n")
        self.refused(self.call("put", "in", "out"), "out/rack0.report.csv: line 3: an answer to no request of in/rack0.feed1.csv")
        (self.at / "out/rack0.report.csv").write_text(header + answers[0] + "1,2,abc,p0,3,several,,\n")
        self.refused(self.call("put", "in", "out"), "out/rack0.report.csv: line 3: an answer to no request of in/rack0.feed2.csv")

    def test_lists_are_found_or_named(self):
        self.served()
        (self.at / "store").mkdir()
        for name, data in ABC.items():
            (self.at / f"store/abc.{name}").write_bytes(data)
        self.refused(self.call("put", "store", "out"), "out: --lists names the folder of its lists, with which its reports are compared")
        self.refused(self.call("put", "store", "out", "out", "--lists", "in"),
                     "--lists is given 1 times for 2 OUT: once for each, in their order, or never")
        self.assertEqual(self.names("store"), sorted(f"abc.{name}" for name in ABC))
        self.assertEqual(self.call("put", "store", "out", "out", "--lists", "in", "--lists", "in").returncode, 0)
        self.assertEqual(self.text("store/abc.y0"), "xyz")
        # The folders of split have their lists beside them.
        (self.at / "list.csv").write_text(FIVE + TWO)
        self.call("split", "list.csv", "store", "work")
        self.call("serve", "work", 0)
        self.done(self.call("put", "store", "work/out/0"),
                  "wrote 0 fragments to store (0 replaced, 2 already present); 0 requests not rebuilt")

    def test_merged_results_are_held_to_their_digests(self):
        (self.at / "list.csv").write_text(FIVE + TWO)
        self.call("split", "list.csv", "in", "work")
        self.call("serve", "work", 0)
        self.call("merge", "work", "result")
        sums, report = self.at / "result/SHA256SUMS", self.at / "result/report.csv"
        checked = subprocess.run(["sha256sum", "-c", "SHA256SUMS"], cwd=self.at / "result", capture_output=True, text=True, check=False)
        self.assertEqual((checked.stdout, checked.returncode), ("report.csv: OK\nabc.x0: OK\nabc.y0: OK\n", 0))
        whole = report.read_text()
        report.write_text("".join(whole.splitlines(keepends=True)[:2]))
        for word in ["put", "in"], ["tell"]:
            self.refused(self.call(*word, "result"), "result/report.csv: not the report that result/SHA256SUMS has the digest of")
        report.write_text(whole)
        sums.rename(self.at / "aside")
        self.refused(self.call("put", "in", "result"), "result: has no SHA256SUMS, which merge makes beside report.csv")
        (self.at / "aside").rename(sums)
        self.wrote("2 fragments", self.call("put", "in", "result"))

    # ---- the store

    def test_another_folder_is_no_store(self):
        self.served()
        (self.at / "other").mkdir()
        (self.at / "other/abd.x1").write_bytes(b"\0\0\0")
        (self.at / "other/abc.x1").write_bytes(b"\0\0")
        (self.at / "other/abc.px").mkdir()
        before = self.names("other")
        self.refused(self.call("put", "other", "out", "--lists", "in"),
                     "other: has no other fragment of the stripe abc, so it isn't the store that was rebuilt; nothing was written")
        self.assertEqual(self.names("other"), before)

    def test_one_with_other_bytes_keeps_none_back(self):
        self.served()
        (self.store / "abc.x0").write_bytes(b"abd")
        ended = self.call("put", "in", "out")
        self.wrote("1 fragment", ended, 1, others=", 1 with different contents")
        self.assertEqual(ended.stderr, "in/abc.x0: exists with different contents; not overwritten (--overwrite replaces it)\n")
        self.assertEqual((self.text("in/abc.x0"), self.text("in/abc.y0")), ("abd", "xyz"))
        self.wrote("1 fragment", self.call("put", "in", "out", "--overwrite"), replaced=1, same=1)
        self.assertEqual(self.text("in/abc.x0"), "abc")

    def test_what_is_no_file_is_left(self):
        self.served()
        os.mkfifo(self.store / "abc.x0")
        (self.store / "abc.y0").mkdir()
        ended = self.call("put", "in", "out", timeout=30)
        self.wrote("0 fragments", ended, 1, others=", 2 with different contents")
        ended = self.call("put", "in", "out", "--overwrite", timeout=30)
        self.assertEqual((ended.stdout, ended.stderr, ended.returncode),
                         ("", "in/abc.y0: Is a directory; wrote 1 of 2 fragments\n", 3))
        self.assertEqual(self.text("in/abc.x0"), "abc")

    def test_new_fragments_have_the_rights_of_the_others(self):
        self.served()
        for number, place in enumerate(ABC):
            os.chmod(self.store / f"abc.{place}", 0o640 if place != "x1" else 0o4604)
            if os.geteuid() == 0:
                os.chown(self.store / f"abc.{place}", 1000 + number, 2000 + number)
        # An own one that is replaced keeps its own.
        (self.store / "abc.y0").write_bytes(b"old")
        os.chmod(self.store / "abc.y0", 0o600)
        self.wrote("2 fragments", self.call("put", "in", "out", "--overwrite", umask=0o022), replaced=1)
        found = [os.stat(self.store / f"abc.{place}") for place in ("x0", "y0")]
        self.assertEqual([stat.S_IMODE(it.st_mode) for it in found], [0o604, 0o600])
        if os.geteuid() == 0:
            self.assertEqual([(it.st_uid, it.st_gid) for it in found], [(1000, 2000), (0, 0)])

    def test_new_folders_have_the_rights_of_the_umask(self):
        (self.at / "list.csv").write_text(FIVE + TWO)
        for umask, folder, file in (0o022, 0o755, 0o644), (0o027, 0o750, 0o640):
            self.call("split", "list.csv", "in", "work", umask=umask)
            self.call("serve", "work", 0, umask=umask)
            self.call("merge", "work", "result", umask=umask)
            for name in "work", "work/in/0", "work/out", "work/out/0", "result":
                self.assertEqual(stat.S_IMODE(os.stat(self.at / name).st_mode), folder, name)
            for name in "work/in/0/rack0.csv", "result/report.csv", "result/abc.x0", "result/SHA256SUMS":
                self.assertEqual(stat.S_IMODE(os.stat(self.at / name).st_mode), file, name)
            shutil.rmtree(self.at / "work")
            shutil.rmtree(self.at / "result")

    # ---- failures

    def test_what_killed_runs_left_is_removed(self):
        self.served()
        (self.store / f"{UNNAMED}abcd1234").write_bytes(b"ab")
        self.wrote("2 fragments", self.call("put", "in", "out"))
        self.assertEqual([name for name in self.names("in") if name.startswith(".")], [])

    def test_a_killed_run_leaves_no_name(self):
        self.served()
        hold = self.at / "hold"
        hold.write_text("import os, signal, sys\nfrom rebuild_lists import files\n"
                        "files.os.link = lambda *_: os.kill(os.getpid(), signal.SIGKILL)\n"
                        "from rebuild_lists.command import main\nsys.exit(main())\n")
        ended = subprocess.run(["python3", hold, "put", "in", "out"], cwd=self.at, capture_output=True, check=False,
                               env={**os.environ, "PYTHONPATH": str(pathlib.Path(COMPANION).parent), "PYTHONDONTWRITEBYTECODE": "1"})
        self.assertEqual(ended.returncode, -signal.SIGKILL, ended.stderr)
        self.assertEqual(len([name for name in self.names("in") if name.startswith(UNNAMED)]), 1)
        self.assertFalse((self.store / "abc.x0").exists())
        self.wrote("2 fragments", self.call("put", "in", "out"))
        self.assertEqual([name for name in self.names("in") if name.startswith(".")], [])

    def test_of_two_runs_at_once_one_is_refused(self):
        self.served()
        handle = os.open(self.store, os.O_RDONLY)
        fcntl.flock(handle, fcntl.LOCK_EX)
        (self.store / f"{UNNAMED}abcd1234").write_bytes(b"ab")
        self.refused(self.call("put", "in", "out"), "in: another run writes into it; try again when that has ended")
        self.assertTrue((self.store / f"{UNNAMED}abcd1234").exists())
        os.close(handle)
        self.wrote("2 fragments", self.call("put", "in", "out"))

    def test_a_file_system_without_locks_is_written(self):
        self.served()
        (self.store / f"{UNNAMED}abcd1234").write_bytes(b"ab")
        with mock.patch.object(files.fcntl, "flock", side_effect=OSError(95, "Operation not supported")):
            status, said = self.in_process("put", self.store, self.at / "out")
        self.assertEqual((status, said),
                         (0, f"wrote 2 fragments to {self.store} (0 replaced, 0 already present); 0 requests not rebuilt\n"))
        self.assertTrue((self.store / f"{UNNAMED}abcd1234").exists())

    def test_a_name_that_comes_meanwhile_is_left(self):
        self.served()
        link = os.link

        def slow_link(part, path):
            if path.name == "abc.x0":
                path.write_bytes(came)
            return link(part, path)

        for came, written, others in (b"abd", "1 fragment", ", 1 with different contents"), (b"abc", "0 fragments", ""):
            with mock.patch.object(files.os, "link", slow_link):
                status, said = self.in_process("put", self.store, self.at / "out")
            same = 0 if others else 2
            self.assertEqual(said.splitlines()[-1], f"wrote {written} to {self.store} (0 replaced, {same} already present{others}); "
                             "0 requests not rebuilt")
            self.assertEqual(status, int(bool(others)))
            self.assertEqual((self.store / "abc.x0").read_bytes(), came)
            (self.store / "abc.x0").unlink()

    def test_write_whole_replaces_nothing(self):
        path = self.store / "abc.x1"
        with self.assertRaises(FileExistsError):
            write_whole(path, [b"new"], False)
        self.assertEqual(path.read_bytes(), b"\0\0\0")
        write_whole(path, [b"n", b"ew"], True)
        self.assertEqual(path.read_bytes(), b"new")
        self.assertEqual([name for name in self.names("in") if name.startswith(".")], [])

    def test_a_full_disk_leaves_whole_fragments(self):
        self.fragments("long", x1=bytes(9000), x2=bytes(9000), px=b"long" * 2250)
        self.served(TWO + "rebuild,long,x0,9000,x1 x2 px\n")
        ended = self.call("put", "in", "out", preexec_fn=lambda: resource.setrlimit(resource.RLIMIT_FSIZE, (8192, 8192)))
        self.assertEqual((ended.stdout, ended.stderr, ended.returncode), ("", "in/long.x0: File too large; wrote 2 of 3 fragments\n", 3))
        self.assertEqual(self.text("in/abc.y0"), "xyz")
        self.assertEqual([name for name in self.names("in") if name.startswith(".") or name == "long.x0"], [])

    def test_files_have_their_names_once_they_are_on_their_disk(self):
        """A file is given its rights, and is on its disk, before it has its name, and the folder is after all names."""
        self.served()
        calls = []

        def note(name, real):
            def noted(*words, **more):
                what = words[0]
                if name in ("fsync", "fchmod"):
                    what = "folder" if stat.S_ISDIR(os.fstat(what).st_mode) else "file"
                elif name in ("link", "replace"):
                    what = pathlib.Path(words[1]).name
                calls.append(f"{name} {what}")
                return real(*words, **more)
            return noted

        for option, naming in ([], "link"), (["--overwrite"], "replace"):
            calls.clear()
            with contextlib.ExitStack() as patched:
                for name in "fsync", "link", "replace", "fchmod":
                    patched.enter_context(mock.patch.object(files.os, name, note(name, getattr(os, name))))
                self.assertEqual(self.in_process("put", self.store, self.at / "out", *option)[0], 0)
            one = ["fchmod file", "fsync file"]
            self.assertEqual(calls, [*one, f"{naming} abc.x0", *one, f"{naming} abc.y0", "fsync folder"])
            for name in "abc.x0", "abc.y0":
                (self.store / name).unlink()

    def test_long_files_are_compared_whole(self):
        for length in 2**20 + 1, 2**21:
            one, two = self.at / "one", self.at / "two"
            one.write_bytes(bytes(length))
            two.write_bytes(bytes(length - 1) + b"\1")
            self.assertFalse(same_bytes(one, two))
            self.assertTrue(same_bytes(one, one))
            two.write_bytes(bytes(length - 1))
            self.assertFalse(same_bytes(one, two) or same_bytes(two, one))


class Durable(Folder):
    """Folders get their names when all that is in them is on its disk, and the name is on the disk at the end."""

    def calls_of(self, *words):
        calls = []
        real = {"run": subprocess.run, "rename": os.rename, "fsync": os.fsync, "chmod": os.chmod}

        def ran(command, **more):
            if command[:2] == ["sync", "-f"]:
                calls.append("sync " + pathlib.Path(command[2]).name.partition(".")[0])
            return real["run"](command, **more)

        def renamed(part, path):
            calls.append("rename " + pathlib.Path(path).name)
            return real["rename"](part, path)

        def synced(handle):
            calls.append("fsync " + pathlib.Path(os.readlink(f"/proc/self/fd/{handle}")).name)
            return real["fsync"](handle)

        def given_rights(path, mode):
            calls.append("chmod " + pathlib.Path(path).name.partition(".")[0])
            return real["chmod"](path, mode)

        with mock.patch.object(files.subprocess, "run", ran), mock.patch.object(files.os, "rename", renamed), \
                mock.patch.object(files.os, "fsync", synced), mock.patch.object(files.os, "chmod", given_rights), \
                contextlib.redirect_stdout(io.StringIO()):
            self.assertEqual(run(parser().parse_args([str(word) for word in words])), 0)
        return calls

    def test_folders_have_their_names_once_they_are_on_their_disk(self):
        (self.at / "list.csv").write_text(FIVE + "rebuild,abc,x0,3,x1 x2 px\n")
        here = self.at.name
        program = pathlib.Path(__file__).resolve().parents[2] / "crates/rebuild/out/rebuild"
        self.assertEqual(self.calls_of("split", self.at / "list.csv", self.store, self.at / "work"),
                         ["chmod work", "sync work", "rename work", f"fsync {here}"])
        self.assertEqual(self.calls_of("serve", self.at / "work", 0, "--program", program),
                         ["chmod 0", "sync 0", "rename 0", "fsync out"])
        self.assertEqual(self.calls_of("merge", self.at / "work", self.at / "result"),
                         ["chmod result", "sync result", "rename result", f"fsync {here}"])

    def test_a_disk_that_fails_leaves_no_folder(self):
        (self.at / "list.csv").write_text(FIVE + "rebuild,abc,x0,3,x1 x2 px\n")
        false = self.at / "bin"
        false.mkdir()
        (false / "sync").symlink_to("/bin/false")
        ended = self.call("split", "list.csv", "in", "work", env={**os.environ, "PATH": f"{false}:{os.environ['PATH']}"})
        self.assertEqual((ended.stdout, ended.returncode), ("", 3))
        self.assertRegex(ended.stderr, r"^work: not made: work\.\w+: can't be brought to its disk\n$")
        self.assertEqual(self.names("."), ["bin", "in", "list.csv"])

    def test_a_full_disk_leaves_no_folder(self):
        (self.at / "list.csv").write_text(FIVE + "rebuild,abc,x0,3,x1 x2 px\n" * 1000)
        ended = self.call("split", "list.csv", "in", "work", preexec_fn=lambda: resource.setrlimit(resource.RLIMIT_FSIZE, (4096, 4096)))
        self.assertEqual((ended.stdout, ended.stderr, ended.returncode), ("", "work: not made: File too large\n", 3))
        self.assertEqual(self.names("."), ["in", "list.csv"])

    def test_killed_runs_are_in_nobodys_way(self):
        (self.at / "list.csv").write_text(FIVE + "rebuild,abc,x0,3,x1 x2 px\n")
        (self.at / "bin").mkdir()
        (self.at / "bin/sync").write_text("#!/bin/sh\ntouch reached\nsleep 60\n")
        (self.at / "bin/sync").chmod(0o755)
        slow = {**os.environ, "PATH": f"{self.at / 'bin'}:{os.environ['PATH']}"}
        for words, name in (["split", "list.csv", "in", "work"], "work"), (["merge", "work", "result"], "result"):
            with subprocess.Popen([COMPANION, *words], cwd=self.at, env=slow, start_new_session=True) as killed:
                for _ in range(1000):
                    if (self.at / "reached").exists():
                        break
                    time.sleep(0.02)
                os.killpg(killed.pid, signal.SIGKILL)
            (self.at / "reached").unlink()
            self.assertFalse((self.at / name).exists())
            self.assertEqual(self.call(*words).returncode, 0)
            if name == "work":
                self.call("serve", "work", 0)

    def test_a_folder_that_comes_meanwhile_is_left(self):
        (self.at / "list.csv").write_text(FIVE + "rebuild,abc,x0,3,x1 x2 px\n")
        real = subprocess.run

        def ran(command, **more):
            (self.at / "work").mkdir()
            (self.at / "work/theirs").touch()
            return real(command, **more)

        said = io.StringIO()
        with mock.patch.object(files.subprocess, "run", ran), contextlib.redirect_stderr(said):
            status = run(parser().parse_args(["split", str(self.at / "list.csv"), str(self.store), str(self.at / "work")]))
        self.assertEqual((status, said.getvalue()), (1, f"{self.at / 'work'}: already exists; not overwritten\n"))
        self.assertEqual(self.names("work"), ["theirs"])
        self.assertEqual(self.names("."), ["in", "list.csv", "work"])


class Wide(Folder):
    def test_a_wide_stripe_is_put(self):
        self.list(SIX + "rebuild,wide,x0,2,x1 x2 x3 x4 x5 px,12-2-2\n")
        self.farm()
        self.done(self.call("put", "in", "out"), "wrote 1 fragment to in (0 replaced, 0 already present); 0 requests not rebuilt")
        self.assertEqual((self.store / "wide.x0").read_bytes(), b"\3\7")
