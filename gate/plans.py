"""What a dry run, a scrub and a list of requests say of a store, held to what a repair of the same store then does."""

import collections
import json
import os
import re
import subprocess

import drawn
import trees
from drawn import KEPT, SUMS
from laws import shown
from stores import SECONDS, Program, hold

NOBODY = 65534
PLANNED = re.compile(r"^\d+ stripes? of \S+, .*?; \d+ lost in \d+; (\d+) can be rebuilt \((\d+) unchecked\)"
                     r"(?:, with --replace-damaged (\d+))?, (\d+) can't; reads .*?, writes (.*?)"
                     r"(?:; (\d+) descriptions? can be made)?$", re.M)
REPAIRED = re.compile(r"^repaired (?P<rebuilt>\d+) fragments?, (?P<bytes>.*?) \((?P<unchecked>\d+) unchecked[^)]*?\); damaged: \d+.*?"
                      r"(?:; left without --replace-damaged: (?P<more>\d+))?; not possible: (?P<left>\d+)"
                      r"(?:; (?P<made>\d+) descriptions? made)?$", re.M | re.S)
UNCOVERED = "isn't replaced: no check covers what would be put in its place"
REQUEST = ("stripe", "target")


def reads_all(options):
    """Whether a repair reads each fragment."""
    if "--reads" in options:
        return "all" in options
    return bool({"--replace-damaged", "--assume-one-damaged"} & set(options))


class Asked:
    """A store that is laid anew for each command, whose fragments its user may not all read."""

    def __init__(self, place, drawn, tree):
        self.place, self.drawn, self.tree, self.now = place, drawn, tree, {}

    def run(self, *words):
        """Runs a command over the store, and gives how it ended and what is there then."""
        trees.change(self.place, self.now, self.tree)
        who = {}
        if os.geteuid() == 0:
            who = {"user": NOBODY, "group": NOBODY, "extra_groups": ()}
            for path in [self.place, *(self.place / path for path in self.tree)]:
                os.chown(path, NOBODY, NOBODY, follow_symlinks=False)
        words = [str(word).replace("PLACE", str(self.place)) for word in words]
        ended = subprocess.run([Program.path, *words], stdin=subprocess.DEVNULL, capture_output=True, text=True, timeout=SECONDS, **who)
        self.now = trees.look(self.place)
        return Answer(words, ended, self.now)

    def take_away(self):
        trees.change(self.place, self.now, {})
        self.place.rmdir()

    # What is in the store.

    def entry(self, name, follows):
        """What is under a name of the store, or where a link leads that has it."""
        path = f"store/{name}"
        for _link in range(40):
            parts = path.split("/")
            ends = ["/".join(parts[:count]) for count in range(1, len(parts) + 1)]
            link = next((end for end in ends if end in self.tree and self.tree[end].kind == trees.LINK), None)
            if link is None or not follows:
                return None if link else self.tree.get(path)
            to = os.path.join(os.path.dirname(link), os.fsdecode(self.tree[link].data))
            path = os.path.normpath(to + path.removeprefix(link))
        return None

    def listed(self):
        """The digests that the store has."""
        lines = self.tree[f"store/{SUMS}"].data.decode().splitlines() if f"store/{SUMS}" in self.tree else []
        names = [line.split("  ", 1) for line in lines]
        return {re.sub(r"\\(.)", lambda sign: {"n": "\n", "r": "\r"}.get(sign[1], sign[1]), name) if value[0] == "\\" else name
                for value, name in names}

    def is_foreseen(self, stripe, follows, options):
        """Whether a dry run, which reads nothing but what has digests, sees what is wrong in a stripe: each fragment is right, or isn't
        there as a file, or has a digest and is read."""
        listed, right = self.listed() if reads_all(options) else (), self.drawn.right
        for place in self.drawn.order:
            name = self.drawn.path(stripe, place)
            has = self.entry(name, follows)
            if has and has.kind == trees.FILE and has.data != right[name] and name not in listed:
                return False
        return True

    def is_known(self, stripe):
        """Whether digests or files say that a stripe should be there."""
        names, listed = [self.drawn.path(stripe, place) for place in self.drawn.order], self.listed()
        there = [name for name in names if (entry := self.entry(name, False)) and entry.kind == trees.FILE]
        return len(there) > 1 or any(name in listed for name in names)

    def is_described(self, stripe, follows):
        """Whether a copy of a stripe's description is right."""
        has = [(self.entry(name, follows), self.drawn.right.get(name)) for name in self.drawn.descriptions(stripe)]
        return any(entry and entry.kind == trees.FILE and entry.data == right for entry, right in has)

    def is_placed(self, name, root, follows):
        """Whether a file can get a name: its folder is there, its user may enter it if nothing has the name, and no file is kept beside it
        that was replaced before."""
        folder, path = os.path.dirname(name), f"{root}/{name}"
        has = (self.tree.get(f"{root}/{folder}") if root != "store" else self.entry(folder, follows)) if folder else self.tree[root]
        may_enter = has is not None and has.kind == trees.FOLDER and (has.mode & 0o100 or has.mode and path in self.tree)
        return may_enter and path + KEPT not in self.tree


class Answer:
    """How a command ended, the rows that it wrote, and what is there after it."""

    def __init__(self, words, ended, found):
        self.status, self.out, self.err, self.found = ended.returncode, ended.stdout, ended.stderr, found
        self.words, self.rows = words, [json.loads(line) for line in self.out.splitlines() if line.startswith("{")]

    def text(self):
        return f"{' '.join(self.words)!r}: status {self.status}: {self.out[-900:]!r} {self.err[-900:]!r}"

    def rows_by_stripe(self):
        """The rows of each stripe, of which those of a dry run are as those of a repair."""
        found = collections.defaultdict(collections.Counter)
        for row in self.rows:
            outcome = "rebuilt" if row["outcome"] == "would be rebuilt" else row["outcome"]
            found[row["stripe"]][row["place"], outcome, row["detail"]] += 1
        return found

    def places(self, *outcomes):
        return {(row["stripe"], row["place"]) for row in self.rows if row["outcome"] in outcomes and row["place"] not in ("", "file")}


def hold_plan(asked, words, options):
    """A repair does what its dry run says, row by row, of all stripes in which damage can be foreseen, and counts the same."""
    plan = asked.run("repair", "--dry-run", "--json", *options, *words, "PLACE/store")
    hold(plan.found == asked.tree, f"a dry run has changed the store: {plan.text()}")
    done = asked.run("repair", "--json", *options, *words, "PLACE/store")
    said, did = plan.rows_by_stripe(), done.rows_by_stripe()
    follows, root = "--follow-links" in words, "to" if "--to" in options else "store"
    foreseen = {stripe for stripe in asked.drawn.data if asked.is_foreseen(stripe, follows, options)}
    is_other = False
    for stripe in foreseen:
        differing = (said[stripe] - did[stripe]) + (did[stripe] - said[stripe])
        for place in {place for place, _, detail in did[stripe] if detail == UNCOVERED}:
            # A dry run says alone what is wrong with it.
            lefts = [row for row in said[stripe] if row[0] == place and row[1] == "left"]
            hold(lefts, f"{place} of {stripe!r} is left, and a dry run says something else: {plan.text()} and {done.text()}")
            is_other |= [differing.pop(row) for row in list(differing) if row[0] == place and row[1] == "left"] != []
        for row in list(differing):
            name = row[2].split(": ")[0] if row[0] == "file" else asked.drawn.path(stripe, row[0]) if row[0] else ""
            if not asked.is_placed(name, root, follows) or row[0] == "file" and not asked.is_described(stripe, follows):
                # It isn't said before whether what is rebuilt can get its name, and what descriptions are that rebuilt fragments give.
                is_other |= bool(differing.pop(row))
        hold(not differing, f"of {stripe!r} a dry run says something else: {dict(differing)}: {plan.text()} and {done.text()}")
    for stripe, place in done.places("rebuilt"):
        name = asked.drawn.path(stripe, place)
        hold(follows or f"{root}/{name}" in done.found, f"{name} isn't there: {done.text()}")
    if PLANNED.search(plan.err) and REPAIRED.search(done.err):
        hold_rows_counted(plan, done)
    if foreseen == set(asked.drawn.data) and not is_other:
        hold_counted(plan, done)
    return plan, done


def hold_rows_counted(plan, done):
    """Each last line counts the rows of what is left, of which some would be replaced."""
    for answer, more, left in ((plan, *PLANNED.search(plan.err).group(3, 4)), (done, *REPAIRED.search(done.err).group("more", "left"))):
        rows = [row for row in answer.rows if row["outcome"] == "left"]
        hold(len(rows) == int(more or 0) + int(left), f"{len(rows)} rows say what is left: {answer.text()}")


def hold_counted(plan, done):
    """The last lines of a dry run and of the repair count the same, and so do their statuses."""
    said, did = PLANNED.search(plan.err), REPAIRED.search(done.err)
    hold((said is None) == (did is None), f"one of them has no last line: {plan.text()} and {done.text()}")
    if said:
        rebuilt, unchecked, more, left, size, made = said.groups()
        counts = [rebuilt, unchecked, more, left, size, made]
        hold(counts == [did[name] for name in ("rebuilt", "unchecked", "more", "left", "bytes", "made")],
             f"they count another thing: {plan.text()} and {done.text()}")
        is_nothing = rebuilt == "0" and made is None and not any(row["outcome"] == "left" for row in plan.rows)
        hold(is_nothing == (plan.status == 0) or plan.status == 3, f"status {plan.status} of a dry run: {plan.text()}")
    hold((plan.status == 3) == (done.status == 3), f"one alone has status 3: {plan.text()} and {done.text()}")


def draw(choose):
    """A store to which much has happened, in which a stripe may have lost all, and a link may lead to another fragment's name."""
    store = drawn.spoil(choose, drawn.draw(choose))
    if choose.random() < 0.2:
        gone = choose.choice(sorted(store.data))
        for name in [name for name, stripe in store.of_stripe.items() if stripe == gone]:
            if store.within.get(name, trees.folder()).kind == trees.FILE:
                del store.within[name]
    if choose.random() < 0.3:
        share(choose, store)
    close(choose, store)
    return store


def share(choose, store):
    """Where two fragments are absent, the name of one is a link to that of the other."""
    of_copies = {path for stripe in store.data for path in store.descriptions(stripe)}
    folders = {name for name, entry in store.within.items() if entry.kind == trees.LINK}
    there = [name for name in store.right if name not in store.within and name not in of_copies and os.path.dirname(name) not in folders]
    if len(there) > 1:
        name, other = choose.sample(sorted(there), 2)
        store.within[name] = trees.link(os.path.relpath(other, os.path.dirname(name)))
        for folder in {os.path.dirname(other)} - {""}:
            store.within.setdefault(folder, trees.folder())
        store.words += [] if "--follow-links" in store.words else ["--follow-links"]


def close(choose, store):
    """Some fragments can't be read, if it isn't root who lays them for another user."""
    there = sorted(name for name, entry in store.within.items() if entry.kind == trees.FILE and name in store.right)
    if os.geteuid() == 0 and choose.random() < 0.6:
        for name in choose.sample(there, min(len(there), choose.choice((1, 1, 2, 3)))):
            store.within[name] = store.within[name]._replace(mode=0)
    if os.geteuid() == 0 and store.folders() and choose.random() < 0.25:
        folder = choose.choice(sorted(store.folders()))
        if store.within.get(folder, trees.folder()).kind == trees.FOLDER:
            store.within[folder] = trees.folder(choose.choice((0, 0o600, 0o600)))


def options_of(choose, store):
    """What a repair is given."""
    options = [word for word, share in (("--replace-damaged", 0.5), ("--assume-one-damaged", 0.15)) if choose.random() < share]
    if choose.random() < 0.3:
        options += ["--reads", choose.choice(("checked", "all", "few"))]
    if choose.random() < 0.3:
        options += ["--to", "PLACE/to"]
        store.beside |= {os.path.join("to", folder): trees.folder() for folder in store.folders()} | {"to": trees.folder()}
    return options


def hold_lost(asked, words):
    """A list asks for what a repair makes, or names as what it can't make; and a repair makes nothing else."""
    asks = asked.run("lost", "--json", *words, "PLACE/store")
    done = asked.run("repair", "--json", *words, "PLACE/store")
    asked_for = {tuple(row[key] for key in REQUEST) for row in asks.rows}
    made, left = done.places("rebuilt"), done.places("left")
    for stripe in asked.drawn.data:
        if asked.is_known(stripe) and f"{shown(stripe)}: its fragments have different lengths" not in asks.err and asks.rows:
            names = [(place, asked.entry(asked.drawn.path(stripe, place), "--follow-links" in words)) for place in asked.drawn.order]
            absent = {(stripe, place) for place, entry in names if entry is None or entry.kind != trees.FILE}
            hold(absent <= asked_for, f"{absent - asked_for} aren't asked for: {asks.text()}")
    whole = {row["stripe"] for row in done.rows if row["outcome"] == "left" and row["place"] == ""}
    hold(made <= asked_for, f"{made - asked_for} are made, and weren't asked for: {asks.text()} and {done.text()}")
    if "is this the store?" in done.err:
        return
    lacks = {(stripe, place) for stripe, place in asked_for - made - left if stripe not in whole}
    hold(not lacks, f"{lacks} are asked for, and neither made nor named: {asks.text()} and {done.text()}")


def hold_scrub(asked, words):
    """What a repair replaces a scrub has named, and what a scrub names a repair mends, or names too."""
    said = asked.run("scrub", "--json", *words, "PLACE/store")
    hold(said.found == asked.tree, f"a scrub has changed the store: {said.text()}")
    done = asked.run("repair", "--replace-damaged", "--json", *words, "PLACE/store")
    named, made = said.places("left"), done.places("rebuilt")
    hold(made <= named, f"{made - named} are made, and weren't named: {said.text()} and {done.text()}")
    whole = {row["stripe"] for row in done.rows if row["outcome"] == "left" and row["place"] == ""}
    if "is this the store?" in done.err:
        return
    lacks = {pair for pair in named - made - done.places("left") if pair[0] not in whole}
    hold(not lacks, f"{lacks} are named, and neither mended nor named by a repair: {said.text()} and {done.text()}")
    again = {(row["stripe"], row["place"], row["detail"]) for row in said.rows if row["outcome"] == "left"}
    was = {(row["stripe"], row["place"], row["detail"]) for row in done.rows if row["outcome"] == "was" and row["place"] != "file"}
    hold(was <= again, f"{was - again} were replaced for another reason: {said.text()} and {done.text()}")
    hold_replaceable(asked, words, done)


def hold_replaceable(asked, words, done):
    """What a repair says that --replace-damaged would replace is what it replaces."""
    left = asked.run("repair", "--reads", "all", "--json", *words, "PLACE/store")
    counts = REPAIRED.search(left.err)
    if counts and REPAIRED.search(done.err) and not any(path.endswith(KEPT) for path in asked.tree):
        rows = [row for row in done.rows if row["outcome"] == "rebuilt"]
        names = [row["detail"] if row["place"] == "file" else asked.drawn.path(row["stripe"], row["place"]) for row in rows]
        were = [name for name in names if (entry := asked.entry(name, "--follow-links" in words)) and entry.kind == trees.FILE]
        hold(int(counts["more"] or 0) == len(were), f"{were} are replaced: {left.text()} and {done.text()}")
