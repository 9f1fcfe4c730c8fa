"""What holds of reports and counters after a run one of whose calls failed: they are whole or what was there before, and say what was
done."""

import csv
import io
import json
import re

import trees

COUNTER = re.compile(r'^rebuild_store_(\w+)\{command="(\w+)",store="((?:[^"\\]|\\.)*)"\} (\d+)$')
COUNTED = ["units", "units_done", "bytes", "bytes_done", "damaged", "left", "seconds"]
ENDED = ["status", "end_seconds"]
HEADER = ["stripe", "place", "outcome", "detail"]
UNWRITTEN = {"--report": "the report can't be written: ", "--progress": "the counters can't be written: "}
OUTCOMES = {"rebuilt", "would be rebuilt", "was", "left", "alone"}


def option(words, name):
    """The path below the folder that an option is given."""
    return words[words.index(name) + 1].removeprefix("PLACE/") if name in words else None


def hold_watchers(judge):
    """What is said of the watchers of a command: rows, a report and counters."""
    words = judge.trial.words
    if "--json" in words and words[0] in ("repair", "scrub") and judge.failed.kind != "output":
        hold_rows(judge, [json.loads(line) for line in judge.failed.ran.out.splitlines() if line.startswith("{")])
    for name in UNWRITTEN:
        if name in words:
            hold_watcher(judge, name, option(words, name))


def hold_watcher(judge, name, path):
    """A report or counters at a path are whole or what was there before, if they are no file that is written as it is. Else they are said
    not to be written."""
    is_said = any(UNWRITTEN[name] in line and (judge.failed.error in line or judge.failed.rest) for line in judge.failed.lines)
    if path in judge.before and judge.before[path].kind == trees.LINK:
        judge.hold(judge.found.get(path) == judge.before[path], f"{path} is no link any more")
        path = "out/real"
    has, was = judge.found.get(path), judge.before.get(path)
    if has != was and not (path == "out/real" and is_said):
        judge.hold(has is not None, f"{path} is gone")
        judge.hold(has.mode == (was or judge.after.get(path, has)).mode, f"{path} has other rights: {has.mode:o}")
        hold_new = hold_report if name == "--report" else hold_counters
        hold_new(judge, has.data.decode())
    elif "--quiet" not in judge.trial.words and not judge.ended_early() and judge.after.get(path) != was:
        judge.hold(is_said or judge.failed.kind == "output", f"{path} isn't written, and that isn't said")


def hold_report(judge, text):
    """A report is whole."""
    rows = list(csv.reader(io.StringIO(text, newline="")))
    judge.hold(rows[:1] == [HEADER] and all(len(row) == 4 for row in rows), f"the report isn't whole: {text!r}")
    names = [row[0] for row in rows[1:] if row[2] != "alone"]
    judge.hold(names == sorted(names, key=str.encode), f"the report's rows are in another order: {names}")
    hold_rows(judge, [dict(zip(HEADER, row)) for row in rows[1:]])


def hold_rows(judge, rows):
    """Rows say what lines do, and no more is rebuilt than is there."""
    drawn, said, rebuilt = judge.drawn, [], set()
    for row in rows:
        judge.hold(row["outcome"] in OUTCOMES, f"no outcome: {row}")
        path = row["detail"] if row["place"] == "file" else drawn.path(row["stripe"], row["place"]) if row["place"] else row["stripe"]
        if row["outcome"] == "rebuilt":
            judge.hold(judge.is_there(path), f"{path} isn't there, and is said to be rebuilt")
            rebuilt.add(path)
        elif row["outcome"] in ("was", "left"):
            said.append(row["detail"] if row["place"] == "file" else f"{path}: {row['detail']}")
    made = [path for path in judge.changed() & judge.found.keys() if judge.is_made(path)]
    # What has its name is said not to be put in its place if the name can't be written to the disk.
    rebuilt |= {line.split(": can't be put in its place: ")[0] for line in said}
    lacks = [path for path in made if not rebuilt & {*judge.names_of(path)}]
    judge.hold(judge.trial.words[0] != "repair" or not lacks, f"no row says that {lacks} were rebuilt")
    if judge.has_lines():
        damaged, left = judge.findings()
        lines = {*damaged, *left}
        judge.hold({judge.shown(line) for line in said} == lines, f"rows say {sorted(said)}, and lines {sorted(lines)}")


def hold_counters(judge, text):
    """Counters are whole, and say how the run ended, unless they couldn't be written at its end."""
    found = [COUNTER.match(line) for line in text.splitlines() if not line.startswith("#")]
    judge.hold(text.endswith("\n") and all(found), f"no counters: {text!r}")
    values = {match[1]: int(match[4]) for match in found}
    is_unwritten = any(UNWRITTEN["--progress"] in line for line in judge.failed.lines)
    names = [match[1] for match in found]
    judge.hold(names == COUNTED + ENDED or is_unwritten and names == COUNTED, f"other counters: {names}")
    is_of_run = values.get("status") in (None, judge.failed.ran.status)
    judge.hold(is_of_run or is_unwritten, f"counters of another status: {values}")
    if judge.has_lines() and not is_unwritten:
        damaged, left = judge.findings()
        is_counted = values["damaged"] == len(damaged) and len(judge.left_of(left)) <= values["left"] <= len(left)
        judge.hold(is_counted, f"{values}, and lines say {damaged} and {left}")
    judge.hold({match[2] for match in found} == {judge.trial.words[0]}, f"counters of another command: {text!r}")
