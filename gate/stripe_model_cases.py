"""Cases of the model: a run of the program over a random store is held to all that the model expects of it."""

import csv
import dataclasses
import io
import json
import os
import pathlib
import random
import re
import stat
import subprocess

from stripe_model_listing import NOBODY, Listing, has_right
from stripe_model_lists import finish_list
from stripe_model_names import KEPT, OF_RUNS, RUN, escaped
from stripe_model_runs import REMOVED, Options, Run, finish, finish_lost
from stripe_model_stripes import File, file_at
from random_stores import RandomStore
from stores import SECONDS, Fault, Program

SUM = re.compile(rb"(\\?)([0-9a-fA-F]{64})(?:  | \*)(?:\./)?(.+)", re.S)
IS_LOCK = re.compile(rf"\0*|{RUN}\n".encode())
COUNTERS = {"units", "units_done", "bytes", "bytes_done", "damaged", "left", "seconds", "status", "end_seconds"}
# What says what is there, and writes nothing but that.
LOOKS = ("lost", "list")
KEYS = ["stripe", "place", "outcome", "detail"]


def snapshot(folder):
    """All that is below a folder, by its paths."""
    found = {}
    for root, folders, names in os.walk(folder):
        for name in folders + names:
            path = os.path.join(root, name)
            there = os.lstat(path)
            if stat.S_ISREG(there.st_mode):
                found[path] = file_at(path)
            else:
                found[path] = (there.st_mode, there.st_uid, os.readlink(path) if stat.S_ISLNK(there.st_mode) else "")
    return found


def marks_of(found):
    """Which file is at each path, and when it was written."""
    return {path: (os.lstat(path).st_ino, os.lstat(path).st_mtime_ns) for path in found}


def read_sums(path):
    """What digests say by the names of files, and why they can't be taken."""
    sums = {}
    with open(path, "rb") as file:
        lines = file.read().split(b"\n")
    for number, line in enumerate(lines, 1):
        line = line.removesuffix(b"\r")
        if not line or line.startswith(b"#"):
            continue
        found = SUM.fullmatch(line)
        if not found:
            return None, f"{path}: line {number} isn't as sha256sum writes it: 64 digits, two spaces or ' *', a name"
        name, wanted = found[3].decode(), found[2].decode().lower()
        if found[1]:
            name = re.sub(r"\\(.)", lambda it: {"n": "\n", "r": "\r"}.get(it[1], it[1]), name)
        if sums.setdefault(name, wanted) != wanted:
            return None, f"{path}: line {number} has another digest of a file than an earlier line"
    return sums, None


def words_of(options, place):
    """The words of a command with these options, with the files that they name."""
    words, short = [], {"--quiet": "-q", "--dry-run": "-n", "--workers": "-j"}
    pairs = [("--code", options.code), ("--names", options.names), ("--layout", options.layout), ("--sums", options.sums),
             ("--report", options.report), ("--progress", options.progress), ("--to", options.to), ("--workers", options.workers),
             ("--reads", options.reads_word)]
    defaults = {"--names": "{stripe}.{place}", "--layout": "plain"}
    for option, value in pairs:
        if value is not None and value != defaults.get(option):
            words += [f"{option}={value}"] if options.form == "=" else [short.get(option, option) if options.form else option, str(value)]
    flags = [("--follow-links", options.follow), ("--json", options.json), ("--quiet", options.quiet), ("--dry-run", options.dry),
             ("--replace-damaged", options.replace), ("--assume-one-damaged", options.assume), ("--trust-writers", options.trusts)]
    words += [short.get(flag, flag) if options.form else flag for flag, is_set in flags if is_set] + options.others
    if options.part:
        words += ["--part", f"{options.part[0]}/{options.part[1]}"]
    words += ["--stripes", str(place / "names")] if options.stripes is not None else []
    return [options.command, *words, options.store] if options.form else [options.command, options.store, *words]


def rows_of(options, out):
    """The rows that a run wrote, in their order."""
    if options.json:
        try:
            objects = [json.loads(line) for line in out.split("\n")[:-1]]
        except ValueError as why:
            raise Fault(f"{why}: {out}") from None
        if any(list(row) != KEYS for row in objects):
            raise Fault(f"objects with other keys: {out}")
        return [tuple(row.values()) for row in objects]
    with open(options.report, newline="") as file:
        text = file.read()
    rows = [tuple(row) for row in csv.reader(io.StringIO(text, newline=""))]
    if not rows or list(rows[0]) != KEYS or text != "".join(map(line_of_row, rows)):
        raise Fault(f"a report of another form: {text}")
    return rows[1:]


def is_full(report):
    return report is not None and os.path.realpath(report) == "/dev/full"


def line_of_row(row):
    """A row as comma-separated values, which are in quotes only if they have to be."""
    quoted = ['"' + value.replace('"', '""') + '"' if set(value) & set(',"\r\n') else value for value in row]
    return ",".join(quoted) + "\n"


def without_choice(came, wanted):
    """Lines, of which those are replaced by the first that may be said in several ways."""
    came = list(came)
    for lines in wanted:
        said = [line for line in came if line in lines]
        if len(lines) > 1 and said:
            came[came.index(said[0])] = min(lines)
    return sorted(came), sorted(min(lines) for lines in wanted)


class Case:
    """A random store, and runs over it."""

    def __init__(self, place, name, seed, mix):
        self.place, self.seed, self.mix, self.choose = place / str(seed), seed, mix, random.Random(f"{name} {seed}")
        self.place.mkdir()
        self.laid = RandomStore(self.place, self.choose, mix)
        if self.laid.expected:
            names = "".join(f"{name}\n" for name in self.laid.expected).replace("gone\n", "gone\r\n\n")
            (self.place / "names").write_bytes(names.encode())
        if self.choose.random() < 0.2:
            (self.place / "report").write_bytes(self.choose.choice((b"", b"of another program\n")))
            if self.laid.user == NOBODY:
                os.chown(self.place / "report", NOBODY, NOBODY)
        # What is there, as long as it is known, and what a run was asked for.
        self.now, self.what = None, ""

    def hold(self, what, came, wanted):
        if came != wanted:
            raise Fault(f"case {self.seed}: {self.what}: {what}:\n  wanted: {wanted}\n  came:   {came}")
        Program.passed += 1

    def options(self, command, **given):
        """Options at random for a command."""
        laid, choose = self.laid, self.choose
        is_given = "{shard}" in laid.names or choose.random() < self.mix.given_code
        sums = str(laid.sums_file) if laid.sums_file and command not in LOOKS else None
        options = Options(command, str(laid.store), laid.given_code if is_given else None, laid.names, laid.layout, laid.follow, sums=sums,
                          stripes=laid.expected, user=laid.user)
        if choose.random() < self.mix.part:
            count = choose.choice((2, 2, 3))
            options.part = (choose.randrange(1, count + 1), count)
        if command not in LOOKS and choose.random() < 0.4:
            options.report = str(self.place / "report")
        if options.report and choose.random() < self.mix.bad_reports:
            options.report = str(self.report_in_store())
        if command not in LOOKS and choose.random() < 0.3:
            options.progress = str(self.place / "counters")
        if choose.random() < 0.3:
            options.json = True
        if command not in LOOKS:
            options.quiet, options.workers = choose.random() < 0.1, choose.choice((1, 2, None))
        options.reads_word, options.others, options.form = None, [], choose.choice(("", "", "=", "short"))
        for name, value in given.items():
            setattr(options, name, value)
        return options

    def report_in_store(self):
        """A path in the store's folder: that of one of its files, which may be lost, another one, or a link to one."""
        laid, choose = self.laid, self.choose
        names = [name for name in sorted(laid.files) if (laid.store / name).parent.resolve() == (laid.store / name).parent]
        names = [name for name in names if os.path.isdir((laid.store / name).parent)]
        paths = [laid.store / name for name in (choose.choice(names), "SHA256SUMS", "report.csv")] if names else [laid.store / "report.csv"]
        paths += [laid.store / f"{path.name}.file" for path in paths[:-2]] + [laid.store / ".rebuild-store-fedcba9876543210"]
        path = choose.choice([*paths, pathlib.Path("/dev/full")])
        if path in paths[:1] and len(names) > 0:
            path = path.with_name(path.name + choose.choice(("", "", ".damaged")))
        if choose.random() < 0.3:
            link = self.place / f"alias-{choose.randrange(10**9)}"
            link.symlink_to(path)
            self.now = None
            return link
        return path

    def repair_options(self):
        """Options of repairs: a dry run with the same as the repair after it."""
        choose, given = self.choose, {}
        given["replace"], given["assume"] = choose.random() < 0.4, choose.random() < 0.2
        # Whether a user may give another's file a second name depends on the system.
        given["replace"] = given["replace"] and not (self.laid.user == NOBODY and self.laid.has_foreign)
        given["trusts"], given["others"] = choose.random() < 0.3, choose.choice(([], [], [], ["--rate", "1G"], ["--allow-unmounted"]))
        given["reads_word"] = choose.choice((None, None, "all", "all", "checked", "few"))
        given["reads"] = given["reads_word"] or ("all" if given["replace"] or given["assume"] else "checked")
        if choose.random() < self.mix.to:
            given["to"] = str(self.make_target())
        return given

    def make_target(self):
        """A folder for rebuilt fragments, in which some of the names may be taken already."""
        laid, choose, to = self.laid, self.choose, self.place / f"to-{self.choose.randrange(10**9)}"
        to.mkdir()
        self.now = None
        for folder in sorted({os.path.dirname(path) for path in laid.files}):
            if choose.random() < 0.9:
                (to / folder).mkdir(parents=True, exist_ok=True)
        for path in sorted(laid.files):
            if choose.random() < 0.1 and (to / path).parent.is_dir():
                self.take(to / path, laid.files[path], choose.choice(("same", "same", "other", "folder", "link")))
        laid.leave_in(to)
        for path in (to, *to.rglob("*")):
            if laid.user == NOBODY and os.lstat(path).st_uid == 0:
                os.chown(path, NOBODY, NOBODY, follow_symlinks=False)
        return to

    @staticmethod
    def take(path, data, kind):
        if kind == "folder":
            path.mkdir()
        elif kind == "link":
            path.symlink_to("nowhere")
        else:
            path.write_bytes(data if kind == "same" else b"another")

    def try_all(self):
        """A scrub, a list of what is lost, one of the files, a dry run, the repair, and a scrub and a repair of what is there then."""
        self.run(self.options("scrub"))
        self.run(self.options("lost"))
        # With a choice of its own it leaves the others as they are.
        choose, self.choose = self.choose, random.Random(f"{self.seed} list")
        self.run(self.options("list"))
        self.choose = choose
        for _ in range(2):
            given = self.repair_options()
            self.run(self.options("repair", dry=True, **given))
            self.run(self.options("repair", **given))
            self.laid.harm_more()
            self.now = None
        self.run(self.options("scrub"))

    def run(self, options):
        words = words_of(options, self.place)
        self.what = " ".join(map(escaped, words))
        sums, fault = self.sums_of(options)
        before, run = self.now or snapshot(self.place), Run(options, sums, fault)
        marks = marks_of(before)
        is_open = is_listed = self.expect_lock(run, options) and self.expect_outputs(run, options) and run.open()
        if is_open and options.command == "repair" and not options.code and not options.part and run.is_of_other_store():
            is_open = False
        ended = self.begin(words, run, options, is_open)
        after = snapshot(self.place)
        self.now = dict(after)
        report = os.path.realpath(options.report) if options.report else None
        if report in before and report in after:
            self.hold("the rights of the report", after[report][1:], before[report][1:])
        self.compare(run.expected, options, is_open, *ended)
        # A store that is refused has no report, and one that is refused before it is open no counters.
        for path in [report] * is_open + [options.progress] * is_listed:
            before.pop(path, None)
            after.pop(path, None)
        if options.progress and run.expected.counters is not None:
            self.compare_counters(options, run.expected.counters)
        elif options.progress and not is_listed and run.writes_counters:
            self.compare_refused(options, before, after, run.expected.status)
        self.compare_files(before, after, run.expected)
        self.compare_marks(before, after, marks, run.expected)

    def expect_outputs(self, run, options):
        """Whether the report isn't to be written over a file of the store."""
        if is_full(options.report):
            run.full = f"{options.report}: the report can't be written: {os.strerror(28)}"
        name = os.path.relpath(os.path.realpath(options.report), options.store) if options.report else ".."
        if name.startswith("..") or name == "report.csv":
            return True
        run.say_links(run.list())
        run.writes_counters = False
        run.expected.refuse(f"{options.report}: is a file of the store, and no place for a report", 2)
        return False

    @staticmethod
    def sums_of(options):
        """The digests that a run is given, and why they can't be taken, with the status for that."""
        path = options.sums or os.path.join(options.store, "SHA256SUMS")
        if not options.sums and not options.follow and os.path.islink(path):
            return None, (f"{path}: is a link, and links aren't followed", 3)
        sums, fault = read_sums(path) if os.path.isfile(path) else (None, None)
        return sums, (fault, 1) if fault else None

    def begin(self, words, run, options, is_open):
        """Runs the program. What is expected of it is worked out before, and of several ways that which it took is chosen."""
        works, self.there = [], {}
        if is_open:
            # How many files a stripe has, if its fragments have one length.
            self.there = {stripe.name: len(stripe.files) for stripe in run.stripes}
        if is_open and options.command not in LOOKS:
            run.say_alone(options.dry)
            self.expect_leftovers(run, options)
            works = list(run.work())
        elif is_open:
            (finish_lost if options.command == "lost" else finish_list)(run)
        before = {path: file_at(path) if os.path.isfile(path) else None for works_of in works for done in works_of for path in done.files}
        ended = subprocess.run([Program.path, *words], stdin=subprocess.DEVNULL, capture_output=True, timeout=SECONDS, **self.as_user())
        err = ended.stderr.decode()
        if is_open and options.command not in LOOKS:
            finish(run, [self.chosen(dones, before, err) for dones in works])
        return ended.returncode, ended.stdout.decode(), err

    def as_user(self):
        """Has the program run as a user without rights, if the case is of one."""
        return {"user": NOBODY, "group": NOBODY, "extra_groups": []} if self.laid.user == NOBODY else {}

    @staticmethod
    def chosen(dones, before, err):
        """Of what may become of a stripe that by which the files are as they are, and of which all lines were said."""
        paths = {path for done in dones for path in done.files}
        now = {path: file_at(path) if os.path.isfile(path) else None for path in paths} if len(dones) > 1 else {}
        are = [done for done in dones if all(done.files.get(path, before[path]) == now[path] for path in now)]
        said = [done for done in are if all(f"{line}\n" in err for line in done.lines())]
        return max(said or are or dones, key=lambda done: len(done.lines()))

    def expect_leftovers(self, run, options):
        """What killed runs have left, which a run that writes there removes and names."""
        if options.command != "repair" or options.dry:
            return
        listing = Listing(dataclasses.replace(options, store=options.to)) if options.to else run.listing
        paths = [path for path in listing.leftovers if self.is_left(os.path.basename(path), options)]
        for folder in listing.linked if not options.to else ():
            names = os.listdir(folder) if os.path.isdir(folder) else []
            own = [f"{folder}/{name}" for name in names if OF_RUNS.fullmatch(name) and self.is_left(name, options)]
            paths += [path for path in own if os.path.realpath(path) not in map(os.path.realpath, paths)]
        others = {}
        for path in paths:
            others.setdefault(os.path.realpath(path), []).append(path)
        for same in others.values():
            self.expect_removed(run, same, options)

    def expect_removed(self, run, paths, options):
        """What has the name of a lock and other bytes stays, and what can't be removed. A file is named by one of its paths."""
        path = paths[0]
        is_lock = "part-" not in os.path.basename(path) or IS_LOCK.fullmatch(file_at(path).data)
        if not is_lock:
            run.expected.say(*(f"{path}: has the name of a lock and isn't one" for path in paths))
        elif not has_right(os.path.dirname(path), options.user, 3):
            run.expected.say(*(f"{path}: is left over, and can't be removed: {os.strerror(13)}" for path in paths))
            run.has_left = True
        else:
            run.expected.say(*(f"{path}: {REMOVED}" for path in paths))
            run.expected.removed.add(path)

    def expect_lock(self, run, options):
        """Whether a run gets the lock of its part. One that is there already goes with the run."""
        if options.command != "repair" or options.dry or not options.part:
            return True
        path = f"{options.to or options.store}/.rebuild-store-part-{options.part[0]}-of-{options.part[1]}"
        if os.path.exists(path) and not IS_LOCK.fullmatch(file_at(path).data):
            run.expected.refuse(f"{path}: has the name of a lock and isn't one", 3)
            return False
        run.expected.removed.add(path)
        return True

    @staticmethod
    def is_left(name, options):
        """Whether a run removes what has such a name: with a part, what one of the same part has left."""
        if not options.part:
            return True
        tag = f"{options.part[0]}-{options.part[1]}-"
        rest = name.removeprefix(".rebuild-store-")
        return rest.startswith(tag) and bool(OF_RUNS.fullmatch(f".rebuild-store-{rest.removeprefix(tag)}")) and "part-" not in rest

    def compare(self, expected, options, is_open, status, out, err):
        out_lines, err_lines = out.split("\n")[:-1], err.split("\n")[:-1]
        if expected.last is not None:
            # With --json, and of `lost` and `list`, the last line is on standard error.
            lines = err_lines if options.json or options.command in LOOKS else out_lines
            self.hold(f"the last line of {out}{err}", lines.pop() if lines else None, expected.last)
        self.hold(f"standard error {err}", *without_choice(err_lines, expected.err))
        if expected.first is not None:
            self.hold("the first line", out_lines[:1], [expected.first])
        if options.command == "list":
            self.hold("standard output", [json.loads(line) for line in out_lines] if options.json else out_lines, expected.out)
        elif is_open and options.json and options.command != "lost":
            self.compare_rows(options, out, expected)
        else:
            came, wanted = without_choice(out_lines, expected.out)
            are_objects = options.json and options.command == "lost" and wanted
            self.hold(f"standard output {out}", *(sorted(map(as_object, it)) if are_objects else it for it in (came, wanted)))
        if is_open and options.report and not is_full(options.report):
            self.compare_rows(options, None, expected)
        self.hold(f"the status: {out}{err}", status, expected.status)

    def compare_counters(self, options, wanted):
        label, found = re.escape(f'{{command="{options.command}",store="{options.store}"}}'), {}
        with open(options.progress) as file:
            for line in file:
                name, value = re.fullmatch(f"rebuild_store_(\\w+){label} (\\d+)\n", line).groups()
                found[name] = int(value)
        self.hold("names of counters", set(found), COUNTERS)
        self.hold("counters", {name: found[name] for name in wanted}, wanted)

    def compare_refused(self, options, before, after, status):
        """A run whose store is refused writes its counters only over those of the same command over it."""
        begin = f'rebuild_store_units{{command="{options.command}",store="{options.store}"}} '.encode()
        if options.progress in before and before[options.progress].data.startswith(begin):
            self.compare_counters(options, {"status": status})
            before.pop(options.progress)
            after.pop(options.progress)

    def compare_rows(self, options, out, expected):
        rows = rows_of(options, out) if out is not None else rows_of(Options("", "", report=options.report), None)
        if out is not None and options.command == "repair" and options.workers == 1:
            there = [self.there[row[0]] for row in rows if row[2] != "alone"]
            self.hold("the stripes that have lost most come first", there, sorted(there))
        self.hold("rows", sorted(rows), sorted(expected.rows))
        is_alone = [row[2] == "alone" for row in rows]
        self.hold("rows of alone come last", is_alone, sorted(is_alone))
        if out is None:
            names = [row[0].encode() for row in rows if row[2] != "alone"]
            self.hold("the order of rows", names, sorted(names))

    def compare_files(self, before, after, expected):
        removed = {real(path) for path in expected.removed}
        wanted = {path: there for path, there in before.items() if path not in removed}
        wanted |= {real(path): there for path, there in expected.files.items()}
        for path in sorted(wanted.keys() | after.keys()):
            self.hold(f"the file at {path}", shortened(after.get(path)), shortened(wanted.get(path)))

    def compare_marks(self, before, after, marks, expected):
        """What isn't made is the same file as before, and what is kept is the one that was replaced."""
        made, now = {real(path) for path in expected.files}, marks_of(after)
        files = [path for path in after if path in before and path not in made and isinstance(before[path], File)]
        self.hold("files that stay", [path for path in files if now[path] != marks[path]], [])
        kept = [path for path in made if path.endswith(KEPT) and path.removesuffix(KEPT) in made]
        self.hold("files that are kept", [path for path in kept if now[path] != marks[path.removesuffix(KEPT)]], [])


def as_object(line):
    """An object of JSON in one form."""
    try:
        return json.dumps(json.loads(line))
    except ValueError as why:
        raise Fault(f"{why}: {line}") from None


def real(path):
    """A path whose folders are no links."""
    return os.path.join(os.path.realpath(os.path.dirname(path)), os.path.basename(path))


def shortened(there):
    return there if not there or len(there[0] if isinstance(there[0], bytes) else b"") < 100 else (hash(there[0]), *there[1:])


def try_cases(place, name, mix, seeds):
    """Tries the cases of these seeds of a mix of this name. That of one that fails is in what is said."""
    for seed in seeds:
        Case(pathlib.Path(place), name, seed, mix).try_all()
