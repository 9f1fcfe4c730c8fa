"""A store in memory, what is asked of its files, and which stripes it has, by rebuild-store(1) and rebuild-store(5)."""

import os

from file_model_code import determine_all
from file_model_names import (
    CODES, EACH, LOCK, LOCKED, MOST_OF_DESCRIPTION, PLACES, SUMS, BadSums, described_by, described_name, digest, escaped, folder_in,
    is_of_runs, sums_by, sums_text,
)
from file_model_tree import ABSENT, NO_FOLDER, File, Folder, Link, System, below

DONE, LEFT, USAGE, DEVICE = 0, 1, 2, 3
NO_FILE, IS_LINK = "is no regular file", "is a link, and links aren't followed"
LINKED_FOLDER, SHORT = "its folder is a link, and links aren't followed", "unexpected end of file"
# What says that a fragment isn't there, or isn't one.
OF_LOST = (NO_FILE, IS_LINK, LINKED_FOLDER, SHORT)


class Fault(Exception):
    """Why a command, or its work on a file, ends: a line and a status."""

    def __init__(self, line, status=LEFT):
        super().__init__(line)
        self.line, self.status = line, status


class Unclear(Exception):
    """A state in which the pages don't say what comes."""


class Store:
    """A store in a tree as a run sees it, and what the run says."""

    def __init__(self, tree, folder, naming, follows=False, umask=0o027):
        self.tree, self.folder, self.naming, self.follows, self.umask = tree, folder, naming, follows, umask
        self.out, self.err, self.status = [], [], DONE
        self.sums, self.is_changed = {}, False

    def say(self, line):
        self.err.append("rebuild-store: " + escaped(line))

    def say_one_of(self, lines):
        """Says one of some lines: which is met first isn't known."""
        self.err.append(tuple(sorted("rebuild-store: " + escaped(line) for line in lines)))

    def note(self, fault):
        """Says why something wasn't done, and goes on."""
        self.say(fault.line)
        self.status = max(self.status, fault.status)

    def path(self, name):
        return below(self.folder, name)

    def look(self, name):
        return self.tree.look(self.path(name), self.follows)

    def is_there(self, name):
        try:
            return self.tree.is_there(self.path(name))
        except System as refused:
            raise Fault(f"{self.path(name)}: {refused.words}", DEVICE) from None

    def is_known(self, name):
        """The same, where what can't be looked at counts as not there."""
        try:
            return self.is_there(name)
        except Fault:
            return False

    def refuse_linked(self, name):
        """Refuses a name one of whose folders is a link, or isn't there."""
        folder = self.folder
        for part in [] if self.follows else name.split("/")[:-1]:
            folder = below(folder, part)
            if isinstance(self.tree.look(folder), Link):
                raise System(LINKED_FOLDER)

    def refuse_linked_names(self, names):
        for name in names:
            try:
                self.refuse_linked(name)
            except System as refused:
                if not refused.is_absent:
                    raise Fault(f"{self.path(name)}: {refused.words}", DEVICE) from None

    def file(self, name, follows=None):
        """The regular file of a name."""
        node = self.tree.look(self.path(name), self.follows if follows is None else follows)
        if not isinstance(node, File):
            raise System(IS_LINK if isinstance(node, Link) else NO_FILE)
        return node

    def described(self, name, follows=None):
        """What the description of a name says; none where it isn't one."""
        data = self.file(name, follows).data
        return described_by(data) if len(data) <= MOST_OF_DESCRIPTION else None

    def fragment(self, name, length):
        """The bytes of the fragment of a name, which has to have so many."""
        self.refuse_linked(name)
        data = self.file(name).data
        if len(data) != length:
            raise System(SHORT)
        return data

    def make(self, name, data, like=None):
        """Makes a file, with the rights that the mask leaves, or those of another one."""
        self.tree.put(self.path(name), File(data, 0o666 & ~self.umask) if like is None else File(data, like[0], like[1]))

    def read_sums(self, follows):
        """The digests that the store has, by names; none where it has no file of them."""
        return sums_by(self.file(SUMS, follows).data)

    def take_sums(self):
        """Reads the digests that a run which writes goes on with."""
        try:
            self.sums = self.read_sums(False)
        except BadSums as why:
            raise Fault(f"{self.path(SUMS)}: {why}") from None
        except System as refused:
            if refused.words != ABSENT:
                raise Fault(f"{self.path(SUMS)}: {refused.words}", DEVICE) from None

    def set_sum(self, name, data):
        self.is_changed |= self.sums.get(name.encode()) != digest(data)
        self.sums[name.encode()] = digest(data)

    def forget(self, names):
        for name in names:
            self.is_changed |= self.sums.pop(name.encode(), None) is not None

    def write_sums(self):
        if self.is_changed:
            path = self.path(SUMS)
            before = self.tree.look(path) if self.tree.is_there(path) else File(b"", 0o666 & ~self.umask)
            self.tree.put(path, File(sums_text(self.sums), before.mode & 0o666, before.owner))


class Listing:
    """What is in a store: what is under the names of fragments, which stripes are described, and what runs have left."""

    def __init__(self, store, code):
        self.store, self.code, self.naming = store, code, store.naming
        self.files, self.blocked, self.named = {}, [], 0
        self.described, self.expected, self.doubtful, self.votes, self.voted = set(), set(), set(), [], {}
        self.leftovers, self.links, self.linked, self.unlisted, self.foreign = [], [], [], {}, []
        self.unread = []
        self.add_all()
        # Another copy may say more.
        for stripe in self.unread:
            if stripe not in self.described:
                self.expect_described(stripe)

    def add_all(self):
        """Adds all that is in the store's folder, and below it where fragments are."""
        own, self.disks = self.entries(""), self.naming.disks(self.code)
        if self.disks is None:
            self.add_below(own)
            return
        for name in own:
            if is_of_runs(name):
                self.leftovers.append(self.store.path(name))
            else:
                self.is_description(name)
        for disk in self.disks:
            parts = disk.split("/")
            if all(self.enters("/".join(parts[:count])) for count in range(1, len(parts))):
                for name in self.entries(disk):
                    self.add(name)

    def add_below(self, names):
        for depth in range(self.naming.depth + 1):
            found = []
            for name in names:
                last = name.rpartition("/")[2]
                if depth == self.naming.depth or is_of_runs(last):
                    self.add(name)
                elif last != "lost+found":
                    self.add_first(name)
                    found += self.entries(name)
            names = found

    def add_first(self, name):
        """Notes the description that an earlier build made, if what has the name of one is no folder."""
        try:
            if folder_in(name) or described_name(name) is None or isinstance(self.store.look(name), Folder):
                return
        except System:
            pass
        self.is_description(name)

    def entries(self, inside):
        if not self.enters(inside):
            return []
        names = self.store.tree.names(self.store.path(inside) if inside else self.store.folder)
        # A name that is no UTF-8 is left alone.
        return [below(inside, name) for name in names if name.isprintable() or is_text(name)]

    def enters(self, inside):
        path = self.store.path(inside) if inside else self.store.folder
        try:
            node = self.store.tree.look(path, not inside or self.store.follows)
        except System as refused:
            if not inside:
                raise Fault(f"{path}: {refused.words}", DEVICE) from None
            if self.naming.disks(self.code) is None and refused.is_absent:
                raise Unclear("that a file's own folder isn't there should be said, and the program says it of a file named a alone")
            self.unlisted.setdefault(inside, refused.words)
            return False
        if isinstance(node, Link):
            self.links += [path] * (path not in self.links)
            return False
        if not isinstance(node, Folder):
            if not inside:
                raise Fault(f"{path}: {NO_FOLDER}", DEVICE)
            if self.naming.disks(self.code) is not None:
                self.unlisted.setdefault(inside, NO_FOLDER)
            return False
        self.note_writers(path, node)
        return True

    def note_writers(self, path, folder):
        """Notes a folder into which others than root may write."""
        if folder.owner[0] or folder.mode & 0o002 or folder.mode & 0o020 and folder.owner[1]:
            self.foreign.append((path, folder.owner[0]))

    def refuse_foreign(self):
        if self.foreign and not os.geteuid():
            path, user = self.foreign[0]
            what = "others may write there, and lead root elsewhere: run as that user, or give --trust-writers"
            raise Fault(f"{path}: user {user} or {what}", USAGE)

    def add(self, name):
        """Adds what is under a name."""
        if is_of_runs(name.rpartition("/")[2]):
            self.leftovers.append(self.store.path(name))
        elif not self.is_description(name):
            read = self.naming.read(self.code, name)
            if read:
                self.note(*read, self.found(name))

    def note(self, stripe, place, found):
        if found == "folder":
            self.blocked.append((stripe, place))
            return
        self.named += 1
        self.files.setdefault(stripe, {})[place] = found

    def found(self, name):
        """What is under the name of a fragment: the length of a file, or a word."""
        path, tree = self.store.path(name), self.store.tree
        node = tree.look(path)
        if isinstance(node, Link):
            if not self.store.follows:
                self.links.append(path)
                return "other"
            self.add_linked(path)
            try:
                node = tree.look(path, True)
            except System as refused:
                return "nothing" if refused.words == ABSENT else ("unknown", refused.words)
        if isinstance(node, Folder):
            return "folder"
        return len(node.data) if isinstance(node, File) else "other"

    def add_linked(self, path):
        """Adds the folder that a link leads to."""
        for _ in range(16):
            try:
                node = self.store.tree.look(path)
            except System:
                node = None
            if not isinstance(node, Link):
                self.add_linked_folder(path.rpartition("/")[0])
                return
            path = node.to if node.to.startswith("/") else path.rpartition("/")[0] + "/" + node.to

    def add_linked_folder(self, folder):
        if folder not in self.linked:
            self.linked.append(folder)
            try:
                self.note_writers(folder, self.store.tree.look(folder, True))
            except System:
                pass

    def is_description(self, name):
        """Whether a name is that of a description, which then is noted."""
        stripe, inside = described_name(name), folder_in(name)
        if stripe is None or inside and inside not in self.naming.folders(self.code, stripe):
            return False
        may_be_fragment, path = self.naming.read(self.code, name) is not None, self.store.path(name)
        if self.store.follows and isinstance(self.store.tree.look(path), Link):
            self.add_linked(path)
        said, is_unread = None, False
        try:
            said = self.store.described(name)
        except System as refused:
            is_unread = not refused.is_absent and refused.words not in OF_LOST
        if said:
            if self.voted.setdefault(stripe, said.code) != said.code:
                # The code of a stripe should be what its right description says, and here is what the one says that is met first.
                raise Unclear("descriptions of a stripe say both codes")
            if stripe not in self.described:
                self.votes.append(said.code)
            self.expect_described(stripe)
            return True
        if stripe in self.described and not may_be_fragment:
            return True
        if is_unread and not may_be_fragment:
            self.unread.append(stripe)
            return True
        if is_unread or not may_be_fragment:
            self.doubtful.add(stripe)
        return not may_be_fragment

    def expect(self, stripe):
        self.named += 1
        self.expected.add(stripe)

    def expect_described(self, stripe):
        self.described.add(stripe)
        self.expect(stripe)

    def expect_listed(self, sums):
        """Notes that what digests name has to be there. Gives the codes that the places of the fragments say."""
        names, votes = [], []
        for name in sorted(sums):
            try:
                names.append(name.decode())
            except UnicodeDecodeError:
                continue
        for name in names:
            read = self.naming.read(self.code, name) if described_name(name) is None else None
            if read:
                votes.append("6-2-2" if read[1] in PLACES["6-2-2"] else "12-2-2")
                self.expect(read[0])
        for name in names:
            if described_name(name) is not None:
                self.expect_listed_description(sums, name, votes)
        return votes

    def expect_listed_description(self, sums, name, votes):
        """Notes what a name that ends as a description's stands for: that of a fragment, unless something is known of the stripe."""
        stripe, inside, read = described_name(name), folder_in(name), self.naming.read(self.code, name)
        is_of_stripe = not inside or inside in self.naming.folders(self.code, stripe)
        fragments = (self.naming.name(self.code, stripe, place) for place in PLACES[self.code])
        is_known = stripe in self.expected or any(it and it.encode() in sums for it in fragments)
        if read and not (is_of_stripe and is_known):
            votes.append("6-2-2" if read[1] in PLACES["6-2-2"] else "12-2-2")
            self.expect(read[0])
        elif is_of_stripe:
            self.expect_described(stripe)

    def by_places(self, doubtful_is):
        """The codes that the places of the stripes say."""
        votes = []
        for found in self.files.values():
            if len(found) > 1:
                is_wide = any(place not in PLACES["6-2-2"] for place in found)
                votes.append("12-2-2" if is_wide else "6-2-2" if len(found) == 10 else doubtful_is)
        return votes

    def code_of_most(self, by_sums):
        """The code of the store where none is given."""
        if self.votes:
            return "12-2-2" if self.votes.count("12-2-2") > self.votes.count("6-2-2") else "6-2-2"
        placed = self.by_places("6-2-2")
        are_wide = "12-2-2" in placed and 2 * placed.count("12-2-2") >= len(placed)
        return "12-2-2" if are_wide or 5 * by_sums.count("12-2-2") > len(by_sums) else "6-2-2"

    def others(self, code):
        """How many of the stripes are of another code: `none`, `some` or `all`."""
        other, placed = CODES[code == "6-2-2"], self.by_places(code)
        if other not in self.votes and other not in placed:
            return "none"
        return "all" if code not in self.votes and (other in self.votes or code not in placed) else "some"

    def settled(self, code):
        """The stripes of a code, each with what is under the names of its fragments, and what is of no stripe."""
        stripes, alone = {}, []
        for name in sorted(self.files, key=str.encode):
            found = self.files[name]
            if self.are_descriptions(code, name, found):
                continue
            own = {place: it for place, it in found.items() if place in PLACES[code]}
            is_stripe = name in self.expected or len(own) > 1
            alone += [(name, place) for place in EACH if place in found and not (is_stripe and place in own)]
            if is_stripe:
                stripes[name] = own
        for name in self.expected:
            stripes.setdefault(name, {})
        self.described |= self.doubtful & set(stripes)
        for name, place in self.blocked:
            if name in stripes:
                stripes[name][place] = "other"
        return stripes, alone

    def are_descriptions(self, code, name, found):
        """Whether the files of a name are descriptions of stripes, and no stripe."""
        if any(isinstance(it, int) and it > MOST_OF_DESCRIPTION for it in found.values()):
            return False
        names = [self.naming.name(code, name, place) for place in found]
        return all(it and self.naming.is_description(code, it) and described_name(it) in self.described for it in names)

    def say_links(self):
        if len(self.links) == 1:
            self.store.say(f"{self.links[0]}: is a link, and isn't followed without --follow-links")
        elif self.links:
            rest = f"and others are links, {len(self.links)} in all, and aren't followed without --follow-links"
            self.store.say_one_of(f"{link} {rest}" for link in self.links)

    def say_unlisted(self, code):
        """Says which folders couldn't be listed. Whether one of them is there is given."""
        are_there, disks = False, self.naming.disks(code)
        for inside, words in self.unlisted.items():
            is_gone = words in (ABSENT, NO_FOLDER)
            if is_gone and not any(it == inside or it.startswith(inside + "/") for it in disks or ()):
                continue
            are_there |= not is_gone
            self.store.say(f"{self.store.path(inside)}: {words}: what should be in it counts as lost")
        return are_there

    def remove_leftovers(self):
        """Takes away what killed runs have left, and says so."""
        tree = self.store.tree
        for path in self.leftovers:
            self.remove_leftover(path)
        for folder in self.linked:
            try:
                names = tree.names(folder) if isinstance(tree.look(folder, True), Folder) else []
            except System:
                continue
            for name in filter(is_of_runs, names):
                self.remove_leftover(f"{folder}/{name}")

    def remove_leftover(self, path):
        node, name = self.store.tree.look(path), path.rpartition("/")[2]
        if isinstance(node, File) and LOCK.fullmatch(name) and not LOCKED.fullmatch(node.data):
            self.store.say(f"{path}: has the name of a lock and isn't one")
        elif isinstance(node, File):
            self.store.tree.take(path)
            self.store.say(f"{path}: was left by a run that was killed, and is removed")


def is_text(name):
    try:
        return bool(name.encode())
    except UnicodeEncodeError:
        return False


class Opened:
    """A store that a command has opened which works on what is there."""

    def __init__(self, store, code, writes=False, needs_stripes=True):
        self.listing = listing = Listing(store, code or "12-2-2")
        listing.say_links()
        if writes:
            listing.refuse_foreign()
        self.sums, by_sums = None, []
        try:
            node = store.look(SUMS)
            if isinstance(node, (File, Link)):
                self.sums = store.read_sums(store.follows)
                by_sums = listing.expect_listed(self.sums)
        except BadSums as why:
            raise Fault(f"{store.path(SUMS)}: {why}") from None
        except System as refused:
            if refused.words != ABSENT:
                raise Fault(f"{store.path(SUMS)}: {refused.words}", DEVICE) from None
        self.code = code or listing.code_of_most(by_sums)
        if code and listing.others(code) == "all":
            other = CODES[code == "6-2-2"]
            raise Fault(f"{store.folder}: has fragments of the code {other}: give --code {other}, or another folder")
        self.has_unlisted = listing.say_unlisted(self.code)
        is_empty = not listing.named
        self.store, (self.stripes, self.alone) = store, listing.settled(self.code)
        if needs_stripes and (is_empty or not self.stripes):
            raise self.no_stripes()

    def no_stripes(self):
        return Fault(f"{self.store.folder}: no file is named as a fragment, {self.store.naming.text}: is this the store?")


def survivors_of(found, length):
    """The places that have files of so many bytes."""
    return [place for place, it in found.items() if isinstance(it, int) and it == length]


def state_of(code, there, are_described):
    """Whether a file is whole, degraded or lost, by the places that are there."""
    if not determine_all(code, there):
        return "lost"
    return "whole" if len(there) == len(PLACES[code]) and are_described else "degraded"
