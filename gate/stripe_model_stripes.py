"""What scrub, repair and its dry run find of a stripe, and what a repair does, as rebuild-store(1) says it."""

import collections
import dataclasses
import os
import stat

import stripe_model_codes as codes
from stripe_model_listing import ABSENT, DANGLING, end_of_links, group_of, has_right
from stripe_model_names import KEPT, escaped
from stripe_model_shared import SHARED
from stores import digest

LOST = "is lost"
OTHER_LENGTH = "has another length than the other fragments of the stripe"
TO_NOTHING = "is a link to nothing"
NO_FILE = "is no regular file"
NOT_SHOWN = "can't be looked at: "
NO_SURVIVOR = "no fragment can be read"
LENGTHS = "its fragments have different lengths, and no check says which is right: "
SEVERAL = "can't be rebuilt: the fragments that survive don't determine it"
DAMAGED = "is damaged: only without it the others belong together"
GUESS = "is taken for the damaged one, which is a guess: only without it the others belong together"
SUSPECTED = "contradiction: one of these is damaged: "
CONTRADICTION = "contradiction, and which fragment is damaged can't be told"
DIFFERS = "differs from the checksums"
REBUILT_DIFFERS = "was rebuilt, and what was rebuilt differs from the checksums"
UNWRITTEN = "can't be put in its place: "
CAME = "has come meanwhile, and stays as it is"
NOT_COVERED = "isn't replaced: no check covers what would be put in its place"
IS_KEPT = "isn't replaced: a fragment that was replaced before is kept beside it"
TOO_LONG = "its folder takes no name as long as that of a fragment which is kept, or of an unfinished file"
# The bytes of a name that folders take.
MOST_OF_NAME = 255
BEHIND_LINK = "its folder is a link, and links aren't followed"
UNREAD = "can't be read: "
OF_DEVICE = (NOT_SHOWN, UNWRITTEN, UNREAD)
DAMAGE = (DAMAGED, GUESS, DIFFERS)

# A place, or none for the stripe, what is said, and how it ends.
Finding = collections.namedtuple("Finding", "place reason more", defaults=[""])
# A regular file: its bytes, its rights, and its owner and group.
File = collections.namedtuple("File", "data mode user group")


@dataclasses.dataclass
class Outcome:
    """What becomes of a stripe: the places that are rebuilt, what is found, and the files that the folders have then, by their paths."""
    length: int = 0
    survivors: frozenset = frozenset()
    is_checked: bool = False
    rebuilt: list = dataclasses.field(default_factory=list)
    findings: list = dataclasses.field(default_factory=list)
    files: dict = dataclasses.field(default_factory=dict)

    def note(self, place, reason, more=""):
        self.findings.append(Finding(place, reason, more))

    def copy(self):
        """The same before anything is done."""
        return Outcome(self.length, findings=[*self.findings])

    def is_named(self, place, *reasons):
        return any(it.place == place and (not reasons or it.reason in reasons) for it in self.findings)


def file_at(path):
    there = os.stat(path)
    with open(path, "rb") as file:
        return File(file.read(), stat.S_IMODE(there.st_mode), there.st_uid, there.st_gid)


def refused_folder(options, folder, inside):
    """Why a folder below another one isn't gone into, if it isn't."""
    path = folder
    for part in inside.split("/") if inside else []:
        if os.path.isdir(path) and not has_right(path, options.user, 1):
            return os.strerror(13)
        path = f"{path}/{part}"
        try:
            there = os.lstat(path)
        except OSError as error:
            return error.strerror
        if stat.S_ISLNK(there.st_mode) and not options.follow:
            return BEHIND_LINK
    return None


def place_for(options, folder, name):
    """The path at which a file of a name in a folder is to be made, or why it can't be."""
    refused, path = refused_folder(options, folder, os.path.dirname(name)), os.path.join(folder, name)
    if refused:
        return None, refused
    path = end_of_links(path) if options.follow else path
    if not path:
        return None, "invalid input parameter"
    inside = os.path.dirname(path)
    try:
        os.stat(inside)
    except OSError as error:
        return None, error.strerror
    if not os.path.isdir(inside):
        return None, os.strerror(20)
    return (path, None) if has_right(inside, options.user, 3) else (None, os.strerror(13))


def given(options, data, mode, user, group):
    """A new file with the rights and of the owner of another one. Who may not give it away keeps it, and alone may read it."""
    own = (options.user, group_of(options.user))
    if options.user and (user, group) != own:
        return File(data, 0o600, *own)
    return File(data, mode & 0o666, user, group)


class Stripe:
    """A stripe as it is in a store, and what the options of a run have done with it."""

    def __init__(self, options, pattern, name, found, sums):
        self.options, self.pattern, self.name, self.code = options, pattern, name, pattern.code
        self.places = codes.places_of(self.code)
        self.found = {place: found.get(place, ABSENT) for place in self.places}
        self.sums = {place: sums.get(pattern.name(name, place)) for place in self.places}
        self.files = {place: file_at(self.path(place)) for place, (kind, _) in self.found.items() if kind == "file"}
        self.closed = {place for place in self.files if not has_right(self.path(place), options.user, 4)}
        # Under which names nothing is written, if that is known.
        self.shared = None

    def path(self, place, folder=None):
        return os.path.join(folder or self.options.store, self.pattern.name(self.name, place))

    def differs(self, place, data):
        return self.sums[place] is not None and digest(data) != self.sums[place]

    def of_length(self, length):
        return {place: file.data for place, file in self.files.items() if len(file.data) == length}

    def is_held(self, place, data):
        """Whether a fragment can be read and doesn't differ from its digest."""
        return place not in self.closed and not self.differs(place, data)

    def held(self, length):
        return {place: data for place, data in self.of_length(length).items() if self.is_held(place, data)}

    def length(self):
        """How many bytes each fragment has, if that is known."""
        lengths = {len(file.data) for file in self.files.values()}
        if len(lengths) == 1:
            return max(lengths)
        digested = [length for length in lengths if any(self.sums[place] for place in self.held(length))]
        if digested:
            return digested[0] if len(digested) == 1 else None
        checked = [length for length in lengths if self.is_sound(length)]
        return checked[0] if checked == [max(lengths)] else None

    def is_sound(self, length):
        survivors = codes.Survivors(self.code, self.held(length), length)
        return length > 0 and bool(codes.checks_of(self.code, survivors.lost)) and survivors.fit()

    def begin(self):
        """What is found before any fragment is read: nothing more, if it isn't known how long the fragments are."""
        outcome, length = Outcome(), self.length() if self.files else None
        if length is None and self.files:
            lengths = collections.defaultdict(list)
            for place, file in self.files.items():
                lengths[len(file.data)].append(place)
            groups = [f"{' '.join(places)} with {length} byte{'s' if length != 1 else ''}" for length, places in lengths.items()]
            outcome.note(None, LENGTHS, ", ".join(groups))
        elif length is None:
            outcome.note(None, NO_SURVIVOR)
        if len({len(file.data) for file in self.files.values()}) > 1:
            # Those of the stripe's own length are read again.
            for place in self.places:
                if place in self.closed and len(self.files[place].data) != length:
                    outcome.note(place, UNREAD, os.strerror(13))
        if length is None:
            self.note_not_shown(outcome, self.places)
        outcome.length = length or 0
        return outcome, length

    def note_not_shown(self, outcome, places):
        for place in places:
            if self.found[place][0] == "unknown":
                outcome.note(place, NOT_SHOWN, self.found[place][1])

    def reason(self, place):
        """Why what is under a fragment's name isn't one."""
        kind, words = self.found[place]
        if kind == "unknown":
            return NOT_SHOWN, words
        return {"absent": LOST, "file": OTHER_LENGTH, "dangling": TO_NOTHING, "other": NO_FILE}[kind], ""

    def opened(self, outcome, data):
        """Those of some survivors that can be read and don't differ from their digests. The others are noted."""
        for place in data:
            if place in self.closed:
                outcome.note(place, UNREAD, os.strerror(13))
        for place in data:
            if place not in self.closed and self.differs(place, data[place]):
                outcome.note(place, DIFFERS)
        return {place: some for place, some in data.items() if self.is_held(place, some)}

    def scrub(self):
        outcome, length = self.begin()
        if length is None:
            return outcome
        of_length = self.of_length(length)
        for place in self.places:
            if place not in of_length and not outcome.is_named(place):
                outcome.note(place, *self.reason(place))
        survivors = codes.Survivors(self.code, self.opened(outcome, of_length), length)
        outcome.survivors = frozenset(survivors.data)
        outcome.is_checked = bool(codes.checks_of(self.code, survivors.lost))
        if not survivors.fit():
            singles, suspects, is_known = survivors.damage()
            if is_known:
                outcome.note(singles[0], DAMAGED)
            else:
                self.note_contradiction(outcome, suspects)
        return outcome

    def note_contradiction(self, outcome, suspects):
        if suspects:
            outcome.note(None, SUSPECTED, " ".join(place for place in self.places if place in suspects))
        else:
            outcome.note(None, CONTRADICTION)

    def few(self, length):
        """The sets of few survivors that may be read, and whether these are held to their digests; none if all are read."""
        if self.options.reads == "all":
            return [], False
        survivors = frozenset(self.of_length(length))
        wanted = codes.determined(self.code, frozenset(self.places) - survivors)
        if self.options.reads == "few":
            return codes.fewest(self.code, survivors, wanted, False), True
        if len(self.files) > len(survivors):
            return [], False
        if all(self.sums[place] for place in wanted):
            return codes.fewest(self.code, survivors, wanted, False), False
        if not codes.are_enough(self.code, survivors, wanted, True):
            return [], False
        return codes.fewest(self.code, survivors, wanted, True), True

    def size_read(self, length):
        """How many bytes a repair is to read."""
        sets, _ = self.few(length)
        return length * len(sets[0] if sets else self.files)

    def is_refused(self, data, are_held):
        """Whether one of some survivors can't be read, or differs from its digest if it is held to that."""
        return any(place in self.closed or (are_held and self.differs(place, some)) for place, some in data.items())

    def is_sound_whole(self, length):
        """Whether all survivors are as they should be, so that it doesn't matter which of them are read."""
        data = self.of_length(length)
        survivors = codes.Survivors(self.code, data, length)
        places = codes.determined(self.code, survivors.lost)
        are_listed = all(self.is_held(place, some) for place, some in data.items())
        return are_listed and survivors.fit() and not any(self.differs(place, survivors.rebuilt(place)) for place in places)

    def repairs(self):
        """What a repair may come to: which of the survivors it reads, where it reads few, isn't promised."""
        outcome, length = self.begin()
        if length is None:
            return [outcome]
        sets, are_held = self.few(length)
        if len(sets) > 1 and self.is_sound_whole(length):
            sets = sets[:1]
        reads = [(read, are_held) for read in sets] or [(None, False)]
        return [self.repaired_from(outcome.copy(), read, are_held) for read, are_held in reads]

    def repaired_from(self, outcome, read, are_held):
        """What a repair comes to that reads these survivors, or all."""
        length, data = outcome.length, self.of_length(outcome.length)
        wanted = frozenset(self.places) - frozenset(data)
        if read is not None:
            survivors = codes.Survivors(self.code, {place: data[place] for place in data if place in read}, length)
            is_refused = self.is_refused(survivors.data, are_held)
            made = {place: survivors.rebuilt(place) for place in codes.determined(self.code, survivors.lost) & wanted}
            is_other = self.options.reads == "checked" and any(self.differs(place, some) for place, some in made.items())
            if not is_refused and survivors.fit() and not is_other:
                return self.put(outcome, survivors, made, wanted, False)
        survivors = codes.Survivors(self.code, self.opened(outcome, data), length)
        is_guess = False
        if not survivors.fit():
            singles, suspects, is_known = survivors.damage()
            is_guess = not is_known and self.options.assume and len(singles) == 1
            if not is_known and not is_guess:
                self.note_contradiction(outcome, suspects)
                self.note_not_shown(outcome, self.places)
                return Outcome(findings=outcome.findings)
            outcome.note(singles[0], GUESS if is_guess else DAMAGED)
            rest = {place: some for place, some in survivors.data.items() if place != singles[0]}
            survivors = codes.Survivors(self.code, rest, length)
        made = {place: survivors.rebuilt(place) for place in codes.determined(self.code, survivors.lost)}
        return self.put(outcome, survivors, made, survivors.lost, is_guess)

    def put(self, outcome, survivors, made, wanted, is_guess):
        """What becomes of the fragments that were made."""
        outcome.survivors = frozenset(survivors.data)
        outcome.is_checked = outcome.length > 0 and bool(codes.checks_of(self.code, survivors.lost)) and not is_guess
        for place in self.places:
            if place in wanted and place not in made:
                is_unknown = self.found[place][0] == "unknown"
                outcome.note(place, *(self.reason(place) if is_unknown else (SEVERAL,)))
        known = list(outcome.findings)
        for place, data in made.items():
            later = self.put_one(outcome, Outcome(findings=known), place, data)
            outcome.findings += [Finding(place, *later)] if later else []
        outcome.rebuilt = [place for place in self.places if place in outcome.rebuilt]
        if self.options.to:
            self.note_not_shown(outcome, outcome.rebuilt)
        return outcome

    def put_one(self, outcome, known, place, data):
        """Puts a fragment in its place, or says why it isn't put there."""
        kind, _ = self.found[place]
        is_free = self.options.to is not None or self.found[place] in (ABSENT, DANGLING)
        if not is_free and not self.may_replace(outcome, known, place):
            if self.options.replace and kind == "file" and not known.is_named(place, UNREAD):
                return (NOT_COVERED,)
            return None if known.is_named(place) else self.reason(place)
        name = self.pattern.name(self.name, place)
        if self.shared and self.shared.refuses(name, not is_free):
            return UNWRITTEN, SHARED
        path, refused = place_for(self.options, self.options.to or self.options.store, name)
        if refused:
            return UNWRITTEN, refused
        if self.differs(place, data):
            return (REBUILT_DIFFERS,)
        if is_free and os.path.lexists(path):
            is_same = not os.path.islink(path) and os.path.isfile(path) and file_at(path).data == data
            outcome.rebuilt += [place] if is_same else []
            return None if is_same else (CAME,)
        return self.give(outcome, place, path, data, is_free)

    def give(self, outcome, place, path, data, is_free):
        """Gives a fragment its name. What is replaced is kept."""
        if not is_free and os.path.lexists(path + KEPT) and not os.path.samefile(path, path + KEPT):
            return (IS_KEPT,)
        if not is_free and len(os.fsencode(os.path.basename(path) + KEPT)) > MOST_OF_NAME:
            return UNWRITTEN, TOO_LONG
        if not is_free:
            outcome.files[path + KEPT] = file_at(path)
        like = next(file for other, file in self.files.items() if other != place)
        outcome.files[path] = given(self.options, data, *like[1:])
        outcome.rebuilt.append(place)
        return None

    def may_replace(self, outcome, known, place):
        if not self.options.replace or not outcome.is_checked:
            return False
        if known.is_named(place, DIFFERS):
            return True
        is_other = self.found[place][0] == "file" and self.found[place][1] != outcome.length
        lost = frozenset(self.places) - outcome.survivors
        return (is_other or known.is_named(place, DAMAGED)) and codes.is_covered(self.code, lost, place)

    def is_covered(self, outcome, place):
        """Whether a check covers what is rebuilt."""
        lost = frozenset(self.places) - outcome.survivors
        return bool(self.sums[place]) or (outcome.is_checked and codes.is_covered(self.code, lost, place))

    def is_replaceable(self, outcome, finding):
        """Whether a fragment is left that would be replaced if that were asked for."""
        place, lost = finding.place, frozenset(self.places) - outcome.survivors
        if finding.reason not in (DAMAGED, DIFFERS, OTHER_LENGTH) or place in outcome.rebuilt or not outcome.is_checked:
            return False
        is_alone = sum(it.place == place for it in outcome.findings) == 1
        return is_alone and (finding.reason == DIFFERS or codes.is_covered(self.code, lost, place))

    def plans(self):
        """What a dry run may say that a repair would do: but for digests, and where lengths differ, no fragment is read."""
        outcome, length = self.begin()
        if length is None:
            return [outcome]
        data, (sets, are_held) = self.of_length(length), self.few(length)
        if not self.is_refused(data, are_held):
            sets = sets[:1]
        reads = [(read, are_held) for read in sets] or [(None, False)]
        return [self.planned_from(outcome.copy(), read, are_held) for read, are_held in reads]

    def planned_from(self, outcome, read, are_held):
        """What a dry run says of a repair that reads these survivors, or all."""
        length, data = outcome.length, self.of_length(outcome.length)
        is_few = read is not None and not self.is_refused({place: data[place] for place in read}, are_held)
        used = {place: data[place] for place in read} if is_few else self.opened(outcome, data)
        outcome.survivors, lost = frozenset(used), frozenset(self.places) - frozenset(used)
        outcome.is_checked = length > 0 and bool(codes.checks_of(self.code, lost))
        wanted, made = lost - data.keys() if is_few else lost, codes.determined(self.code, lost)
        for place in self.places:
            if place in wanted - made:
                is_unknown = self.found[place][0] == "unknown"
                outcome.note(place, *(self.reason(place) if is_unknown else (SEVERAL,)))
        for place in self.places:
            if place in wanted & made:
                self.plan_one(outcome, place)
        if self.options.to:
            self.note_not_shown(outcome, outcome.rebuilt)
        return outcome

    def plan_one(self, outcome, place):
        kind, _ = self.found[place]
        lost = frozenset(self.places) - outcome.survivors
        is_other = kind == "file" and self.found[place][1] != outcome.length
        is_sure = outcome.is_named(place, DIFFERS) or (is_other and codes.is_covered(self.code, lost, place))
        may_replace = kind == "file" and self.options.replace and outcome.is_checked and is_sure
        is_free = self.options.to or self.found[place] in (ABSENT, DANGLING)
        if is_free or may_replace:
            if self.shared and self.shared.refuses(self.pattern.name(self.name, place), not is_free):
                outcome.note(place, UNWRITTEN, SHARED)
                return
            outcome.rebuilt.append(place)
        elif not outcome.is_named(place):
            outcome.note(place, *self.reason(place))

    def line(self, finding):
        """The line of a finding."""
        name = self.pattern.name(self.name, finding.place) if finding.place else self.name
        return escaped(f"{name}: {finding.reason}{finding.more}")
