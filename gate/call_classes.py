"""What the file is at whose path a call failed: a class of files that have the same laws."""

import os

import trees
from drawn import KEPT, STAGED, SUMS
from failed_runs import is_unfinished
from stores import digest


def is_of_another_part(words, stripe):
    """Whether a stripe is of another part than the one that a command works on."""
    if "--part" not in words:
        return False
    part, count = map(int, words[words.index("--part") + 1].split("/"))
    return int(digest(stripe.encode())[:16], 16) % count + 1 != part


def named_files(judge):
    """The names of the files that are encoded, or of those that are taken out."""
    words = judge.trial.words
    return [*judge.drawn.sources.values()] or words[words.index("PLACE/store") + 1:]


def class_of(judge):
    """The class of the file whose call failed; of two, of the one that was to get a name."""
    path = judge.failed.paths[-1]
    if judge.failed.kind == "output":
        return "standard output" if judge.failed.ran.out != judge.trial.ended.out else "standard error"
    if "--follow-links" not in judge.trial.words and any(path == link or path.startswith(f"{link}/") for link in judge.links()):
        return "link"
    if path == "out" or path.startswith("out/"):
        return "unfinished output" if is_unfinished(path) else "output"
    if is_unfinished(path):
        return "left over" if path in judge.before else "lock" if "-part-" in path else "unfinished"
    return "store" if path == "store" else class_of_stripe(judge, path) or class_of_entry(judge, path)


def class_of_stripe(judge, path):
    """The class of a file of a stripe; none, if a path is of no stripe."""
    name, words = path.removeprefix("store/"), judge.trial.words
    stripes = judge.stripes_of([path]) - {None}
    if STAGED in path and (path in judge.before or words[0] == "encode"):
        return "staged"
    if words[0] in ("encode", "remove") and judge.drawn.of_stripe.get(name, named_files(judge)[0]) not in named_files(judge):
        return "of another file"
    if any(is_of_another_part(words, stripe) for stripe in stripes):
        return "of another part"
    if words[0] == "repair" and stripes and not {"--code", "--part", "--replace-damaged"} & set(words):
        return "of a store without a code"
    is_there = path in judge.before or words[0] == "encode"
    if is_there and name in judge.drawn.right | judge.drawn.newest and STAGED not in name:
        return "description" if name in judge.drawn.descriptions(judge.drawn.of_stripe[name]) else "fragment"
    return None


def class_of_entry(judge, path):
    """The class of a file that is of no stripe."""
    name, entry = path.removeprefix("store/"), judge.before.get(path)
    named = {SUMS: "digests", "notes.txt": "strange"} | {judge.drawn.path("alone", place): "alone" for place in judge.drawn.order}
    if path in judge.drawn.sources:
        return "source"
    if name in named:
        return named[name]
    if name.endswith(KEPT):
        return "kept"
    if entry is None:
        return "nothing"
    if entry.kind == trees.FOLDER:
        return "folder" if path.startswith("store/") else "folder beside"
    return "beside" if os.path.dirname(path) in ("linked", "") else "other"
