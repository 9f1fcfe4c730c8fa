"""Words of commands, drawn for a store: options, and the files that these name, which are laid beside it."""

import os

import trees
from drawn import draw, spoil, sums_text
from stores import digest

REPORT = b"stripe,place,outcome,detail\n"


def watchers(choose, drawn):
    """A report and counters, some over those of an earlier run, or a report over what a link leads to."""
    words = []
    for name, path, old in (("--report", "out/report", REPORT), ("--progress", "out/counters", b"")):
        if choose.random() < 0.3:
            words += [name, f"PLACE/{path}"]
            way = choose.random()
            if way < 0.4:
                drawn.beside[path] = trees.file(old, 0o604)
            elif way < 0.5 and name == "--report":
                drawn.beside |= {path: trees.link("real"), "out/real": trees.file(old, 0o604)}
    return words


def listed(choose, drawn):
    """Digests and names of stripes that are beside the store."""
    words = []
    if choose.random() < 0.15:
        listed_files = {path: digest(data) for path, data in drawn.right.items() if choose.random() < 0.8}
        drawn.beside["sums"] = trees.file(sums_text(listed_files))
        words += ["--sums", "PLACE/sums"]
    if choose.random() < 0.15:
        names = [name for name in [*drawn.data, "gone"] if "\n" not in name]
        drawn.beside["names"] = trees.file("".join(f"{name}\n" for name in names).encode())
        words += ["--stripes", "PLACE/names"]
    return words


def parts(choose):
    return ["--part", choose.choice(["1/2", "2/2"])] if choose.random() < 0.1 else []


def repair(choose, drawn):
    """A repair."""
    words = ["repair", "--workers", "1", *drawn.names(), *drawn.words, *watchers(choose, drawn), *listed(choose, drawn), *parts(choose)]
    for word, share in (("--replace-damaged", 0.45), ("--assume-one-damaged", 0.1), ("--json", 0.15), ("--quiet", 0.1), ("--dry-run", 0.1)):
        if choose.random() < share:
            words.append(word)
    if choose.random() < 0.25:
        words += ["--reads", choose.choice(["checked", "all", "few"])]
    if choose.random() < 0.12:
        words += ["--to", "PLACE/to"]
        drawn.beside |= {os.path.join("to", folder): trees.folder() for folder in drawn.folders() | {""}}
        drawn.beside["to"] = drawn.beside.pop("to/", trees.folder())
    return [*words, "PLACE/store"]


def scrub(choose, drawn):
    """A scrub."""
    words = ["scrub", "--workers", "1", *drawn.names(), *drawn.words, *watchers(choose, drawn), *listed(choose, drawn), *parts(choose)]
    return [*words, *(word for word, share in (("--json", 0.15), ("--quiet", 0.1)) if choose.random() < share), "PLACE/store"]


def lost(choose, drawn):
    """The request list of what is lost, or the list of files."""
    words = [choose.choice(["lost", "list"]), *drawn.names(), *drawn.words, *parts(choose)]
    named = listed(choose, drawn)
    if "--stripes" in named:
        words += named[-2:]
    return [*words, *(["--json"] if choose.random() < 0.3 else []), "PLACE/store"]


def spoilt(words):
    """Draws a store to which much has happened, and a command."""
    def drawn_with(choose):
        store = spoil(choose, draw(choose))
        command = words(choose, store)
        return store, command, store.tree()

    return drawn_with
