#!/usr/bin/env python3
"""Has each call of the file system fail that a run of the farm makes, one in each run, and sees that the run ends as it must: what is
written, what is left out, and what is called after it. It also sees that no other call is made.

It runs what was built last: crates/rebuild/out/rebuild."""

import errno
import pathlib
import sys
import tempfile

# No compiled copy of the modules is left beside them.
sys.dont_write_bytecode = True
import faults  # noqa: E402
from served import (  # noqa: E402
    DEVICE, FED_REPORT, FRAGMENT, FRAGMENTS, LISTED, WHOLE, WITH_A_FEED, Checks, End, empty_racks, ended, fault, folders, found_in, report,
    served, words)

ERRORS = (errno.EIO, errno.EACCES, errno.EISDIR, errno.ENOMEM)


# The calls of a run over the first list, each with the name of its file: those on a file that is read, and on one that is written.
def read_calls(*names):
    return [(kind, name) for name in names for kind in ("look", "open", "read")]


def written_calls(*names):
    return [(kind, name) for name in names for kind in ("create", "write")]


SAID = [("output", "")]
SURVIVORS = ("abc.x1", "abc.x2", "abc.px")
OF_FRAGMENTS = [*read_calls(*SURVIVORS), *written_calls("rack0-0.abc.x0", "rack0.report.csv"), *SAID]
OF_ONE = [*read_calls("rack0.csv"), ("look", "rack0.feed1.csv"), ("look", "rack1.csv"), *OF_FRAGMENTS]
OF_FEEDS = [*read_calls("rack0.csv", "rack0.feed1.csv"), ("look", "rack0.feed2.csv"), ("look", "rack1.csv"), *OF_FRAGMENTS]
# The list of rack 1 is refused, and nothing is read after it.
OF_REFUSED = [*read_calls("rack0.csv"), ("look", "rack0.feed1.csv"), *read_calls("rack1.csv"), *SAID]
# Each of sixteen racks of four feeds is asked for a fifth feed, and then there is asked for a seventeenth rack.
OF_MOST = [call for rack in range(16) for call in [*read_calls(*(it for it in empty_racks(16, 4) if it.startswith(f"rack{rack}."))),
                                                   ("look", f"rack{rack}.feed4.csv")]] + [("look", "rack16.csv")]


# Folders whose runs have each call fail: their files, the calls, the report where a survivor of a place is left out, and how a run ends.
CALLED = [
    ("one list", LISTED, OF_ONE, report("0,abc,x0,3,several,,{}"), served(WHOLE)),
    ("two feeds", FRAGMENTS | WITH_A_FEED, OF_FEEDS, report("0,0,abc,x0,3,several,,{}", feeds=True),
     served(FRAGMENT | {"rack0.report.csv": FED_REPORT})),
    ("a refused list", LISTED | {"rack1.csv": "x"}, OF_REFUSED, "", fault("rack1.csv: E19")),
]


class Failing:
    """Runs over a folder in which a call fails."""

    def __init__(self, checks, scratch, name, given, calls):
        self.checks, self.scratch, self.name, self.given, self.calls = checks, scratch, name, given, calls
        self.library = faults.Calls(scratch)
        self.seen = []

    def run(self, number=0, how="", rest="", before=None):
        """What a run calls, and how it ends."""
        with folders(self.scratch, self.given, before) as (given, out):
            ran = self.library.run(words(given, out), number, how, rest)
            return ran, End(ran.out, ran.err, ran.status, found_in(out))

    def test_calls(self, end):
        """Without a failure it makes just these calls."""
        ran, came = self.run()
        self.checks.compare(f"{self.name}: the calls", ran.kinds, [kind for kind, _ in self.calls])
        self.checks.compare(f"{self.name} without a failure", came, end)

    def test_failure(self, number, how, left_out, end):
        """A call fails, and all later ones of its kind at its path. The survivors are read in any order."""
        kind, name = self.calls[number - 1]
        ran, came = self.run(number, how, "path")
        found = pathlib.Path(ran.paths[0]).name
        is_survivor = name in SURVIVORS and found in SURVIVORS
        what = f"{self.name}: call {number}, a {kind} of {found}, answers {errno.errorcode[how]}"
        self.checks.compare(f"{what}: the kind and the file", (ran.kind, found), (kind, found if is_survivor else name))
        self.seen.append((how, kind, found))
        wanted, unknown = end_of_failure(kind, found, how, left_out, end)
        self.checks.compare(what, came.with_files({it: content for it, content in came.files.items() if it != unknown}), wanted)

    def test_all_seen(self):
        """Each call failed by each error, at whichever number a survivor's was."""
        wanted = sorted((how, *call) for how in ERRORS for call in self.calls if call not in SAID)
        self.checks.compare(f"{self.name}: the calls that failed", sorted(self.seen), wanted)

    def test_interruption(self, number, end):
        """An interrupted read or write is made again."""
        ran, came = self.run(number, errno.EINTR)
        kinds = [kind for kind, _ in self.calls]
        what = f"{self.name}: call {number} is interrupted"
        self.checks.compare(f"{what}: the calls", ran.kinds, [*kinds[:number], *kinds[number - 1:]])
        self.checks.compare(what, came, end)


def end_of_failure(kind, name, how, left_out, end):
    """How a run ends in which calls of this kind on this file fail, and the file of which nothing is known then: a failed read of a list
    ends it before anything is written, that of a survivor leaves it out, and a failed write leaves the files before it whole and those
    after it untouched."""
    is_written = kind in ("create", "write")
    # Refused memory is told so, but for a write of a file, which has changed by then.
    stopped = fault("E16", 4) if how == errno.ENOMEM and kind != "write" else DEVICE
    if name in SURVIVORS and how != errno.ENOMEM:
        return served({"rack0.report.csv": left_out.format(name.split(".")[1])}), ""
    before = {it: content for it, content in end.files.items() if it != name and name == "rack0.report.csv"}
    return (stopped.with_files(before), name if kind == "write" else "") if is_written else (stopped, "")


def test_failures(checks, scratch):
    for name, given, calls, left_out, end in CALLED:
        failing = Failing(checks, scratch, name, given, calls)
        failing.test_calls(end)
        for number, call in enumerate(calls, 1):
            if call in SAID:
                continue
            for how in ERRORS:
                failing.test_failure(number, how, left_out, end)
            if call[0] in ("read", "write"):
                failing.test_interruption(number, end)
        failing.test_all_seen()


def test_said(checks, scratch):
    """What can't be said on standard output leaves the files as they are."""
    _, came = Failing(checks, scratch, "said", LISTED, OF_ONE).run(len(OF_ONE), errno.EIO)
    checks.compare("nothing can be said", came, End("", "", 3, served(WHOLE).files))


def test_kept(checks, scratch):
    """A failed read of a list leaves what was there, and nothing is called after it; nor is another file written where the report can't
    be, though a survivor couldn't be read either."""
    failing = Failing(checks, scratch, "kept", LISTED, OF_ONE)
    kept = {"rack0.report.csv": "kept"}
    for number in range(1, 6):
        ran, came = failing.run(number, errno.EIO, before=kept)
        checks.compare(f"kept: call {number} fails", came, DEVICE.with_files(kept))
        checks.compare(f"kept: the calls where call {number} fails", ran.kinds, [kind for kind, _ in [*OF_ONE[:number], *SAID]])
    with folders(scratch, {name: it for name, it in LISTED.items() if name != "abc.x1"}, {"other": "kept"}) as (given, out):
        (given / "abc.x1").mkdir()
        (out / "rack0.report.csv").mkdir()
        checks.compare("a survivor and the report are folders", ended(given, out), DEVICE.with_files({"other": "kept"}))


def test_most_lists(checks, scratch):
    """The lists of sixteen racks of four feeds take 81 looks, and the last of them may fail too."""
    failing = Failing(checks, scratch, "most lists", empty_racks(16, 4), OF_MOST)
    files = {f"rack{rack}.report.csv": report(feeds=True) for rack in range(16)}
    ran, came = failing.run()
    checks.compare("most lists: the calls", ran.kinds, [kind for kind, _ in [*OF_MOST, *written_calls(*files), *SAID]])
    checks.compare("most lists: the looks", ran.kinds.count("look"), 81)
    checks.compare("most lists without a failure", came, served(files, 16, 0))
    ran, came = failing.run(len(OF_MOST), errno.EIO)
    checks.compare("most lists: the last look fails", (ran.kind, pathlib.Path(ran.paths[0]).name, came), ("look", "rack16.csv", DEVICE))


def main():
    checks = Checks("farm-calls")
    with tempfile.TemporaryDirectory() as scratch:
        for test in (test_failures, test_said, test_kept, test_most_lists):
            test(checks, pathlib.Path(scratch))
    checks.end()


if __name__ == "__main__":
    main()
