"""What becomes of the copies of a stripe's description, as rebuild-store(1) and rebuild-store(5) say it."""

import collections
import dataclasses
import os

import stripe_model_codes as codes
from stripe_model_listing import MOST_OF_DESCRIPTION, Description, description_at, group_of, has_right, look
from stripe_model_names import KEPT, folder_in
from stripe_model_shared import SHARED
from stripe_model_stripes import BEHIND_LINK, DIFFERS, LOST, NO_FILE, UNREAD, UNWRITTEN, file_at, given, place_for, refused_folder
from stores import digest

NO_LINE = "isn't a line with a length, a digest and a code"
DIFFERS_FROM_OTHERS = "differs from the other descriptions of its stripe"
UNDECIDED = "its descriptions differ, and nothing says which is right"
OTHER_CODE = "contradiction: its description says that it is of the code "
CAME_OR_KEPT = "has come meanwhile, or one that was replaced is kept beside it: it stays as it is"
# What is under the name of a copy: nothing, something else than a file, an odd file, what can't be read, or what it says.
Copy = collections.namedtuple("Copy", "name path kind says is_wanted")


@dataclasses.dataclass
class Descriptions:
    """The copies that are made, what is found, how many would be replaced, and the files that the folders have then."""
    made: list = dataclasses.field(default_factory=list)
    findings: list = dataclasses.field(default_factory=list)
    replaceable: int = 0
    is_of_device: bool = False
    files: dict = dataclasses.field(default_factory=dict)

    def note(self, name, reason):
        self.findings.append(f"{name}: {reason}")
        self.is_of_device = self.is_of_device or reason.startswith((UNREAD, UNWRITTEN))


def text_of(described):
    return f"{described.length} {described.digest} {described.code}\n".encode()


class Copies:
    """The copies of a stripe's description as they are in a store."""

    def __init__(self, stripe, sums):
        self.stripe, self.options, self.code = stripe, stripe.options, stripe.code
        names = stripe.pattern.descriptions(stripe.name)
        first = f"{stripe.name}.file"
        self.all = [self.copy(name, True) for name in names] + [self.copy(first, False)] * (first not in names)
        # What isn't one and has the name of the one that earlier builds made is somebody else's, unless the digests name it.
        self.all = [copy for copy in self.all if copy.is_wanted or copy.name in sums or copy.kind not in ("odd", "long", "other")]
        self.listed = next((sums[copy.name] for copy in self.all if copy.name in sums), None)

    def copy(self, name, is_wanted):
        path, user = os.path.join(self.options.store, name), self.options.user
        refused = refused_folder(self.options, self.options.store, folder_in(name))
        if refused == BEHIND_LINK:
            return Copy(name, path, "absent", None, is_wanted)
        kind, more = look(path, self.options.follow)
        if refused == os.strerror(13) or (os.path.isdir(os.path.dirname(path)) and not has_right(os.path.dirname(path), user, 1)):
            return Copy(name, path, "unread", os.strerror(13), is_wanted)
        if kind == "file" and not has_right(path, user, 4):
            return Copy(name, path, "unread", os.strerror(13), is_wanted)
        says = description_at(path, self.options.follow, user)
        if kind == "file":
            return Copy(name, path, "says" if says else "odd" if more <= MOST_OF_DESCRIPTION else "long", says, is_wanted)
        if kind == "unknown":
            return Copy(name, path, "absent" if more == os.strerror(20) else "unread", more, is_wanted)
        # A link to nothing is lost, if links are followed.
        return Copy(name, path, "absent" if kind in ("absent", "dangling") else "other", None, is_wanted)

    def said(self):
        return [copy.says for copy in self.all if copy.kind == "says"]

    def believed(self):
        """What is believed of the file."""
        if self.listed:
            return next((says for says in self.said() if digest(text_of(says)) == self.listed), None)
        return next((says for says in self.said() if 2 * self.said().count(says) > len(self.said())), None)

    def from_fragments(self, outcome):
        """The description that has the listed digest, of a file that the fragments give."""
        stripe, length, count = self.stripe, outcome.length, codes.DATA_COUNT[self.code]
        after = {} if self.options.to else outcome.files
        data = {place: after[stripe.path(place)].data for place in stripe.places if stripe.path(place) in after}
        own = {place: some for place, some in stripe.of_length(length).items() if place not in stripe.closed}
        data = own | data
        survivors = codes.Survivors(self.code, data, length)
        wanted = [place for place in codes.code_of(self.code)[0] if place[0] in "xy"]
        if length and not set(wanted) <= data.keys() | codes.determined(self.code, survivors.lost):
            return None
        whole = b"" if not length else b"".join(data[place] if place in data else survivors.rebuilt(place) for place in wanted)
        for less in range(min(count, len(whole)) + 1):
            described = Description(len(whole) - less, digest(whole[:len(whole) - less]), self.code)
            if digest(text_of(described)) == self.listed:
                return described
        return None

    def reason(self, copy, believed):
        """Why a copy isn't as it should be, if it isn't."""
        if copy.kind == "says":
            if copy.says == believed:
                return None
            return DIFFERS if self.listed else DIFFERS_FROM_OTHERS if believed else None
        words = {"absent": LOST, "odd": NO_LINE, "long": NO_LINE, "other": NO_FILE}
        return UNREAD + copy.says if copy.kind == "unread" else words[copy.kind]

    def tend(self, work, outcome):
        """What becomes of the copies: with `name` they are named, with `plan` it is said what would be made, and with `make` it is made."""
        done, believed = Descriptions(), self.believed()
        if believed and believed.code != self.code:
            done.note(self.stripe.name, OTHER_CODE + believed.code)
        elif not believed and self.said() and not self.listed:
            done.note(self.stripe.name, UNDECIDED)
        if not believed and self.listed and work != "name":
            believed = self.from_fragments(outcome)
        for copy in self.all:
            reason = self.reason(copy, believed)
            if reason and (copy.is_wanted or reason != LOST):
                self.tend_one(done, copy, believed, reason, work)
        return done

    def tend_one(self, done, copy, believed, reason, work):
        may_replace = copy.kind in ("says", "odd")
        is_made = believed and work != "name" and (reason == LOST or (self.options.replace and may_replace))
        if is_made and work == "make":
            reason = self.make(done, copy, believed, reason != LOST)
        elif is_made:
            reason = UNWRITTEN + SHARED if self.is_shared(copy, reason != LOST) else None
        if is_made and not reason:
            done.made.append(copy.name)
            return
        done.note(copy.name, reason)
        done.replaceable += bool(work != "name" and may_replace and not self.options.replace and believed)

    def is_shared(self, copy, replaces):
        return bool(self.stripe.shared) and self.stripe.shared.refuses(copy.name, replaces and not self.options.to)

    def make(self, done, copy, believed, replaces):
        """Makes a copy, or says why it isn't made."""
        if self.is_shared(copy, replaces):
            return UNWRITTEN + SHARED
        path, refused = place_for(self.options, self.options.to or self.options.store, copy.name)
        if refused:
            return UNWRITTEN + refused
        if os.path.lexists(path) and not (replaces and not self.options.to):
            return None if description_at(path, False, self.options.user) == believed else CAME_OR_KEPT
        if os.path.lexists(path):
            if os.path.lexists(path + KEPT) and not os.path.samefile(path, path + KEPT):
                return CAME_OR_KEPT
            done.files[path + KEPT] = file_at(path)
        done.files[path] = given(self.options, text_of(believed), *self.rights())
        return None

    def rights(self):
        """The rights, the owner and the group of a copy that is made: those of another copy, or those that all files of the stripe give."""
        copies = [file_at(copy.path) for copy in self.all if copy.kind == "says"]
        if copies:
            return copies[0][1:]
        files = [file_at(copy.path) for copy in self.all if copy.is_wanted and copy.kind in ("odd", "long")]
        files += [file_at(copy.path) for copy in self.all if copy.is_wanted and copy.kind == "unread" and os.path.isfile(copy.path)]
        files += self.stripe.files.values()
        mode = 0o666
        for file in files:
            mode &= file.mode
        if len({(file.user, file.group) for file in files}) > 1:
            return 0o600, self.options.user, group_of(self.options.user)
        return mode, files[0].user, files[0].group
