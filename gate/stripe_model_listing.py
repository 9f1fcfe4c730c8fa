"""What a store has by its names, as rebuild-store(1) and rebuild-store(5) say it: which stripes, what is under the names of their
fragments, which files are of none, which folders and links are named. It is found in the folders as they are, without the program."""

import collections
import os
import re
import stat

from stores import digest
from stripe_model_names import OF_RUNS, Pattern, described_stripe, folder_in, is_of_part, last_of

DESCRIPTION = re.compile(rb"(0|[1-9][0-9]*) ([0-9a-f]{64}) (6-2-2|12-2-2)\n")
MOST_OF_DESCRIPTION = 93
ABSENT, DANGLING, OTHER = ("absent", None), ("dangling", None), ("other", None)
Description = collections.namedtuple("Description", "length digest code")
# The number of a user without rights, and of its group.
NOBODY = 65_534
WIDE = frozenset(["x3", "x4", "x5", "y3", "y4", "y5"])


def group_of(user):
    """The group of a user who runs the program."""
    return NOBODY if user == NOBODY else os.getegid()


def has_right(path, user, bits):
    """Whether a user has rights to a file or a folder: some of those to read (4), to write (2) and to search (1)."""
    there = os.stat(path)
    shift = 6 if there.st_uid == user else 3 if there.st_gid == group_of(user) else 0
    return user == 0 or there.st_mode >> shift & bits == bits


def look(path, is_followed):
    """What is at a path: a file of a length, something else, nothing, a link to nothing, or what can't be looked at, with why."""
    try:
        there = os.stat(path) if is_followed else os.lstat(path)
    except FileNotFoundError:
        return DANGLING if os.path.islink(path) else ABSENT
    except OSError as error:
        return ("unknown", error.strerror)
    if stat.S_ISDIR(there.st_mode):
        return ("folder", None)
    return ("file", there.st_size) if stat.S_ISREG(there.st_mode) else OTHER


def read_description(data):
    found = DESCRIPTION.fullmatch(data) if len(data) <= MOST_OF_DESCRIPTION else None
    return Description(int(found[1]), found[2].decode(), found[3].decode()) if found else None


def description_at(path, is_followed, user):
    """What a regular file at a path says, if it is a description that a user may read."""
    if look(path, is_followed)[0] != "file" or not has_right(path, user, 4):
        return None
    with open(path, "rb") as file:
        return read_description(file.read(MOST_OF_DESCRIPTION + 1))


def end_of_links(path):
    """The path that the links at a path lead to, as far as there are links; none if the first leads to more than 16 others."""
    for _ in range(18):
        if not os.path.islink(path):
            return path
        path = os.path.join(os.path.dirname(path), os.readlink(path))
    return None


def is_text(name):
    """Whether a name is UTF-8: a file of another name is left alone."""
    return name.isascii() or not any("\udc80" <= letter <= "\udcff" for letter in name)


class Listing:
    """What is in a store's folder, by the options of a run."""

    def __init__(self, options):
        self.options, self.pattern = options, Pattern(options.names, options.layout, options.code or "12-2-2")
        self.found, self.folders, self.described, self.doubtful, self.expected = collections.defaultdict(dict), [], set(), set(), set()
        # What descriptions say, by their names, and the digests that some of them should have.
        self.says, self.sums = {}, {}
        self.sum_votes, self.named = collections.Counter(), 0
        self.leftovers, self.links, self.linked, self.unlisted, self.entered, self.unread = [], [], set(), [], [], []
        # The names that are links, if these are followed.
        self.linked_names = set()
        own = self.entries("")
        disks = self.pattern.disks()
        if disks:
            for name in own:
                self.add_own(name)
            for disk in disks:
                for name in self.entries_of_disk(disk):
                    self.add(name)
        else:
            self.add_below(own)
        # Another copy may say more.
        for stripe in self.unread:
            if stripe not in self.described:
                self.expect_description(stripe)

    def path(self, name):
        return os.path.join(self.options.store, name) if name else self.options.store

    def looks_at_all(self):
        """Whether fragments of other parts are looked at too, since links are followed, or a file is at the path of the report that no run
        wrote."""
        if self.options.follow:
            return True
        report = self.options.report
        if not report or not os.path.exists(report):
            return False
        if not os.path.isfile(report):
            return True
        with open(report, "rb") as file:
            begin = file.read(64)
        return bool(begin) and not begin.startswith((b"stripe,place,outcome,detail\n", b'{"stripe":', b"rebuild_store_"))

    def is_wanted(self, stripe):
        return is_of_part(stripe, self.options.part)

    def enters(self, inside):
        """Whether a folder can be gone into; why not is noted."""
        path = self.path(inside)
        if inside and not self.options.follow and os.path.islink(path):
            if path not in self.links:
                self.links.append(path)
            return False
        try:
            there = os.stat(path)
        except OSError as error:
            return self.note_unlisted(inside, error.strerror)
        if not stat.S_ISDIR(there.st_mode):
            return bool(self.pattern.disks()) and self.note_unlisted(inside, os.strerror(20))
        self.entered.append(path)
        return has_right(path, self.options.user, 4) or self.note_unlisted(inside, os.strerror(13))

    def note_unlisted(self, inside, why):
        if inside not in [name for name, _ in self.unlisted]:
            self.unlisted.append((inside, why))
        return False

    def foreign(self):
        """The folders that others than root may write into, each with its owner."""
        folders = [*self.entered, *(folder for folder in self.linked if os.path.isdir(folder))]
        found = [(folder, os.stat(folder)) for folder in folders]
        return [(folder, it.st_uid) for folder, it in found if it.st_uid or it.st_mode & 0o002 or (it.st_mode & 0o020 and it.st_gid)]

    def entries(self, inside):
        names = [name for name in os.listdir(self.path(inside)) if is_text(name)] if self.enters(inside) else []
        return [f"{inside}/{name}" if inside else name for name in names]

    def entries_of_disk(self, disk):
        parts = disk.split("/")
        if not all(self.enters("/".join(parts[:count])) for count in range(1, len(parts))):
            return []
        return self.entries(disk)

    def add_own(self, name):
        """Adds what is in the store's own folder beside those of disks."""
        if OF_RUNS.fullmatch(name):
            self.leftovers.append(self.path(name))
        else:
            self.is_description(name)

    def add_below(self, names):
        for _ in range(self.options.names.count("/")):
            for name in names:
                if OF_RUNS.fullmatch(last_of(name)):
                    self.leftovers.append(self.path(name))
            inside = [name for name in names if not OF_RUNS.fullmatch(last_of(name)) and last_of(name) != "lost+found"]
            for name in inside:
                # The description that an earlier build made; a folder may be a stripe's own.
                if not folder_in(name) and look(self.path(name), self.options.follow)[0] != "folder":
                    self.is_description(name)
            names = [entry for name in inside for entry in self.entries(name)]
        for name in names:
            self.add(name)

    def add(self, name):
        """Adds what is under a name as deep as those of fragments are."""
        if OF_RUNS.fullmatch(last_of(name)):
            self.leftovers.append(self.path(name))
            return
        read = self.pattern.read(name)
        if read and not described_stripe(name) and not self.is_wanted(read[0]) and not self.looks_at_all():
            self.named += 1
            return
        if self.is_description(name) or not read:
            return
        stripe, place = read
        path = self.path(name)
        if os.path.islink(path):
            if not self.options.follow:
                self.links.append(path)
            elif end_of_links(path):
                self.linked.add(os.path.dirname(end_of_links(path)))
                self.linked_names.add(name)
        found = look(path, self.options.follow)
        if found[0] == "folder":
            self.folders.append((stripe, place))
            return
        self.named += 1
        if self.is_wanted(stripe):
            self.found[stripe][place] = found

    def is_description(self, name):
        """Whether a name is that of a description, which then is noted: what is in the file says it where it may be a fragment's too."""
        stripe, inside, path = described_stripe(name), folder_in(name), self.path(name)
        if not stripe or (inside and inside not in self.pattern.folders(stripe)):
            return False
        if self.options.follow and os.path.islink(path) and end_of_links(path):
            self.linked.add(os.path.dirname(end_of_links(path)))
            self.linked_names.add(name)
        says = description_at(path, self.options.follow, self.options.user)
        if says:
            self.says[name] = says
            self.expect_description(stripe)
            return True
        may_be_fragment, is_unread = bool(self.pattern.read(name)), self.is_unread(path)
        if is_unread and not may_be_fragment:
            self.unread.append(stripe)
        elif (is_unread or not may_be_fragment) and self.is_wanted(stripe):
            self.doubtful.add(stripe)
        return not may_be_fragment

    def is_unread(self, path):
        """Whether the system refuses to read the file at a path."""
        kind, user = look(path, self.options.follow)[0], self.options.user
        return kind == "unknown" or not has_right(os.path.dirname(path), user, 1) or kind == "file" and not has_right(path, user, 4)

    def expect(self, stripe):
        self.named += 1
        if self.is_wanted(stripe):
            self.expected.add(stripe)

    def expect_description(self, stripe):
        if self.is_wanted(stripe):
            self.described.add(stripe)
        self.expect(stripe)

    @property
    def votes(self):
        """How many stripes are of each code by most copies of their descriptions, but for those that differ from their digests. Those of
        other parts count each."""
        votes, of_stripes = collections.Counter(), collections.defaultdict(collections.Counter)
        for name, says in self.says.items():
            line, stripe = f"{says.length} {says.digest} {says.code}\n".encode(), described_stripe(name)
            if not self.is_wanted(stripe):
                votes[says.code] += 1
            else:
                of_stripes[stripe][says.code] += self.sums.get(name) in (None, digest(line))
        for stripe, codes in of_stripes.items():
            first = next(says.code for name, says in self.says.items() if described_stripe(name) == stripe)
            votes[max(("6-2-2", "12-2-2"), key=lambda code: codes[code]) if codes.total() else first] += 1
        return votes

    def expect_sums(self, sums):
        """Notes what digests name, and gives how many of the store's files that are."""
        self.sums = sums
        count, descriptions = 0, []
        for name in sums:
            read = self.pattern.read(name)
            if described_stripe(name):
                descriptions.append(name)
            elif read:
                self.expect_fragment(*read)
                count += 1
        for name in descriptions:
            stripe, read, inside = described_stripe(name), self.pattern.read(name), folder_in(name)
            is_of_stripe = not inside or inside in self.pattern.folders(stripe)
            is_known = stripe in self.expected or any(self.pattern.name(stripe, place) in sums for place in self.pattern.keys)
            if read and not (is_of_stripe and is_known):
                self.expect_fragment(*read)
            elif is_of_stripe:
                self.expect_description(stripe)
            count += bool(is_of_stripe or read)
        return count

    def expect_fragment(self, stripe, place):
        self.sum_votes["12-2-2" if place in WIDE else "6-2-2"] += 1
        self.expect(stripe)

    def code(self):
        """The code by what is in the store, if none is given."""
        if self.votes:
            return max(("6-2-2", "12-2-2"), key=lambda code: self.votes[code])
        stripes = [found for found in self.found.values() if len(found) >= 2]
        wide = sum(bool(WIDE & found.keys()) for found in stripes)
        if wide and 2 * wide >= len(stripes) or 5 * self.sum_votes["12-2-2"] > self.sum_votes.total():
            return "12-2-2"
        return "6-2-2"

    def is_of_other(self, code):
        """Whether all stripes are of the other code than the one that is given."""
        other = {"6-2-2": "12-2-2", "12-2-2": "6-2-2"}[code]
        stripes = [found for found in self.found.values() if len(found) >= 2]
        kinds = [("12-2-2" if WIDE & found.keys() else "6-2-2" if len(found) == 10 else code) for found in stripes]
        if self.votes:
            return self.votes[other] > 0 and not self.votes[code]
        return other in kinds and code not in kinds

    def settled(self, pattern):
        """What is under the names of each stripe's fragments, of a code, and what is alone."""
        stripes, alone = {}, []
        for stripe, found in self.found.items():
            if self.are_descriptions(pattern, stripe, found):
                continue
            own = {place: what for place, what in found.items() if place in pattern.own}
            is_stripe = stripe in self.expected or len(own) >= 2
            alone += [(stripe, place) for place in found if not (is_stripe and place in own)]
            if is_stripe:
                stripes[stripe] = own
        for stripe in self.expected:
            stripes.setdefault(stripe, {})
        for stripe, place in self.folders:
            if stripe in stripes and place in pattern.own:
                stripes[stripe][place] = OTHER
        described = self.described | (self.doubtful & stripes.keys())
        return dict(sorted(stripes.items(), key=lambda it: it[0].encode())), alone, described

    def are_descriptions(self, pattern, stripe, found):
        """Whether the files of a name are descriptions of another stripe."""
        names = [pattern.name(stripe, place) for place in found]
        others = [described_stripe(name) for name in names]
        are_short = all(kind != "file" or length <= MOST_OF_DESCRIPTION for kind, length in found.values())
        return are_short and all(other in self.described and name in pattern.descriptions(other) for name, other in zip(names, others))
