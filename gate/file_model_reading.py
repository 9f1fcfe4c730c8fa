"""What `read`, `verify` and `list` have to say of a store in memory, and what `read` writes, by rebuild-store(1) and READING A FILE of
rebuild-store(5)."""

import json

from file_model_code import determine_all, file_of, fragment_length, have_checks, parts_of
from file_model_names import CODES, EACH, PLACES, STAGED, SUMS, BadSums, digest, escaped, folder_in
from file_model_output import write_to
from file_model_store import DEVICE, IS_LINK, LINKED_FOLDER, NO_FILE, OF_LOST, USAGE, Fault, Opened, Unclear, state_of, survivors_of
from file_model_tree import ABSENT, NO_FOLDER, System

NOT_DESCRIBED = "isn't a line with a length, a digest and a code"


def no_file(store, name):
    return Fault(f"{name}: is no file of the store {store.folder}")


def not_given(name):
    return Fault(f"{name}: the fragments that are there don't give the file that {name}.file describes")


def copies_of(store, name, has_first):
    """The names of the copies of a description, of either code; with that of the one that earlier builds made."""
    names = store.naming.descriptions("12-2-2", name)
    return names + [f"{name}.file"] * (has_first and f"{name}.file" not in names)


class Unread(Fault):
    """Why a copy can't be read that may be a description."""


def grave(fault):
    """How grave it is that a copy says nothing."""
    return fault.status, isinstance(fault, Unread)


def said_by(store, copy):
    """What a copy says; none where none is there."""
    try:
        store.refuse_linked(copy)
        said = store.described(copy)
    except System as refused:
        if refused.is_absent:
            return None
        raise (Fault if refused.words in OF_LOST else Unread)(f"{store.path(copy)}: {refused.words}", DEVICE) from None
    if said is None:
        raise Fault(f"{store.path(copy)}: {NOT_DESCRIBED}")
    return said


def said_of(store, copies):
    """What copies say, each once, first what most say; and why those that can't be read can't, last the gravest."""
    said, faults = [], []
    for copy in copies:
        try:
            said.append(said_by(store, copy))
        except Fault as fault:
            faults.append(fault)
    said = [it for it in said if it]
    if faults:
        last = max(range(len(faults)), key=lambda number: (grave(faults[number]), number))
        faults.append(faults.pop(last))
    return sorted(dict.fromkeys(said), key=lambda it: -said.count(it)), faults


def own_sums(store):
    """The digests that the store has; none where it has no file of them, or one of another form."""
    try:
        return store.read_sums(store.follows)
    except BadSums:
        return {}
    except System as refused:
        if refused.is_absent or refused.words in OF_LOST:
            return {}
        raise Fault(f"{store.path(SUMS)}: {refused.words}", DEVICE) from None


def listed_first(store, copies, said):
    """What copies say, first what the digests name."""
    sums = own_sums(store) if len(said) > 1 else {}
    listed = {sums[copy.encode()] for copy in copies if copy.encode() in sums}
    return sorted(said, key=lambda it: digest(it.line()) not in listed)


def believed(store, name):
    """What is believed of the copies of a description that can be read."""
    copies = copies_of(store, name, False)
    return next(iter(listed_first(store, copies, said_of(store, copies)[0])), None)


def said_or_none(store, copy):
    try:
        return said_by(store, copy)
    except Fault:
        return None


def said_for_sure(store, name):
    """What copies say, first what most say. If none says anything, one that can't be read isn't taken for nothing."""
    said, faults = said_of(store, copies_of(store, name, False))
    if faults and not said:
        raise faults[-1]
    return said


def has_some(store, code, name):
    """Whether there is anything under the name of a fragment."""
    refused = None
    for place in EACH if code == "12-2-2" else PLACES[code]:
        try:
            if store.is_there(store.naming.fragment(code, name, place)):
                return True
        except Fault as fault:
            refused = fault
    if refused:
        raise refused
    return False


def is_whole(store, code, name):
    """Whether so many fragments of a stripe are there that they give the others."""
    there = []
    for place in PLACES[code]:
        try:
            there += [place] * store.is_there(store.naming.fragment(code, name, place))
        except Fault as fault:
            store.say(fault.line)
    return determine_all(code, there)


class Sought:
    """A file that is read as one of its descriptions has it."""

    def __init__(self, store, name, described, says=True):
        self.store, self.name, self.described, self.code = store, name, described, described.code
        self.length, self.fragments, self.tried = fragment_length(self.code, described.length), {}, []
        self.parts, self.refused = frozenset(parts_of(self.code, described.length)), None
        for place in (place for place in EACH if place in PLACES[self.code]):
            fragment = self.path_of(place)
            try:
                self.fragments[place] = store.fragment(fragment, self.length)
            except System as refused:
                is_lost = refused.is_absent or refused.words in OF_LOST
                if says or not is_lost:
                    store.say(f"{fragment}: left out: {refused.words}")
                if not is_lost and not self.refused:
                    self.refused = Fault(f"{store.path(fragment)}: {refused.words}", DEVICE)

    def path_of(self, place):
        return self.store.naming.fragment(self.code, self.name, place)

    def gives(self, places):
        """Whether the fragments at some places give the file. Those that are read as others were that don't aren't read once more."""
        places = frozenset(places)
        read = self.parts if self.parts <= places else places
        if read in self.tried:
            return None
        self.tried.append(read)
        found = file_of(self.code, self.described.length, {place: self.fragments[place] for place in places})
        return found if found is not None and digest(found) == self.described.digest else None

    def file(self):
        """The file that the fragments give, or some of them; it is said which. None where none do."""
        everything = list(self.fragments)
        found = self.gives(everything)
        if found is not None:
            return found
        found = self.gives(self.with_digests())
        if found is not None:
            self.store.say(f"{self.name}: read without the fragments that differ from {SUMS}")
            return found
        found = self.beside_descriptions()
        return found if found is not None else self.without_some(everything)

    def with_digests(self):
        """The fragments that have their digests, or none."""
        sums = own_sums(self.store)
        return [place for place, data in self.fragments.items() if sums.get(self.path_of(place).encode(), digest(data)) == digest(data)]

    def beside_descriptions(self):
        """The file that those fragments give beside which it is described, or no other file is, also without one or two of these."""
        copies = self.store.naming.descriptions(self.code, self.name)
        beside, others = [], []
        for place in self.fragments:
            copy = next((it for it in copies if folder_in(it) == folder_in(self.path_of(place))), None)
            try:
                said = copy and self.store.described(copy)
            except System:
                said = None
            (beside if said == self.described else others).append((place, said))
        unopposed = [place for place in self.fragments if (place, None) in others or (place, self.described) in beside]
        if len(unopposed) == len(self.fragments):
            return None
        found = self.gives(place for place, _ in beside)
        found = self.gives(unopposed) if found is None else found
        found = self.without_some(unopposed) if found is None else found
        if found is not None:
            self.store.say(f"{self.name}: read without the fragments beside which another file is described")
        return found

    def without_some(self, some):
        """The file that some fragments give without one or two of them."""
        for first in some:
            found = self.gives(set(some) - {first})
            if found is not None:
                self.store.say(f"{self.name}: a fragment is damaged: read without {first}")
                return found
        for number, first in enumerate(some):
            for second in some[number + 1:]:
                found = self.gives(set(some) - {first, second})
                if found is not None:
                    self.store.say(f"{self.name}: fragments are damaged: read without {first} and {second}")
                    return found
        return None


def read_stripe(store, name, write=lambda sought: sought.file()):
    """Reads the file of a stripe by the first of its descriptions that is right."""
    said = described_of(store, name)
    right, refused = right_of(store, name), None
    for described in said:
        sought = Sought(store, name, described)
        # Any fragments, and none, would give a file without bytes.
        may_be = len(said) == 1 or described.length or determine_all(described.code, list(sought.fragments))
        found = write(sought) if may_be else None
        if found is not None:
            if right and described != right:
                # The right description should be gone by, and here another one is that the fragments give too, or of a file without bytes.
                raise Unclear("a file is read by another description than the right one")
            return found
        refused = refused or sought.refused
    raise refused or not_given(name)


def right_of(store, name):
    """What the right description says: that with the digest that SHA256SUMS has, or without such a digest what more than half say."""
    copies = {copy: said_or_none(store, copy) for copy in copies_of(store, name, True)}
    said = [it for it in copies.values() if it]
    try:
        sums = store.read_sums(store.follows)
    except (BadSums, System):
        sums = {}
    listed = {sums[copy.encode()] for copy in copies if copy.encode() in sums}
    if listed:
        return next((it for it in said if digest(it.line()) in listed), None)
    return next((it for it in said if 2 * said.count(it) > len(said)), None)


def described_of(store, name):
    """What describes the file of a name, first what most copies say."""
    if store.naming.name("12-2-2", name, "x0") is None:
        raise no_file(store, name)
    said, faults = said_of(store, copies_of(store, name, True))
    for fault in faults if said else faults[:-1]:
        store.say(fault.line)
    if said:
        return listed_first(store, copies_of(store, name, True), said)
    if faults:
        raise faults[-1]
    try:
        store.tree.look(store.folder, True)
    except System as refused:
        raise Fault(f"{store.folder}: {refused.words}", DEVICE) from None
    if not has_some(store, "12-2-2", name):
        raise no_file(store, name)
    raise Fault(f"{name}: no description is there, as {name}.file, so nothing says how long it is")


def inode(store, name):
    """What is under a name, without following it; none where that can't be looked at."""
    try:
        return store.tree.look(store.path(name))
    except System:
        return None


def shares_fragment(store, one, other):
    """Whether a fragment of a stripe has a name of another stripe's too."""
    for code in PLACES:
        for place in PLACES[code]:
            node = inode(store, store.naming.fragment(code, one, place))
            if node is not None and node is inode(store, store.naming.fragment(code, other, place)):
                return True
    return False


def has_enough(store, code, name, length=None):
    """Whether so many fragments are there, of a length if one is given, that they give the others."""
    there, faults = [], []
    for place in PLACES[code]:
        fragment = store.naming.fragment(code, name, place)
        try:
            store.refuse_linked(fragment)
            data = store.file(fragment).data
            there += [(place, True)] * (length in (None, len(data)))
        except System as refused:
            if not refused.is_absent and refused.words not in OF_LOST:
                there.append((place, False))
                faults.append(Fault(f"{store.path(fragment)}: {refused.words}", DEVICE))
    if determine_all(code, [place for place, is_sure in there if is_sure]):
        return True
    is_unknown = determine_all(code, [place for place, _ in there])
    for fault in faults[:-1] if is_unknown else faults:
        store.say(fault.line)
    if is_unknown:
        raise faults[-1]
    return False


def is_newer(store, name):
    """Whether a stripe that is to replace the one of a name is described, and fragments enough to read it are there."""
    said, faults = said_of(store, copies_of(store, name + STAGED, False))
    unknown = None
    for described in said:
        try:
            if has_enough(store, described.code, name + STAGED, fragment_length(described.code, described.length)):
                return True
        except Fault as fault:
            unknown = fault
    if unknown:
        raise unknown
    if faults and not said:
        # A run makes the copies in their order.
        is_begun = not is_absent(store, copies_of(store, name + STAGED, False)[0])
        may_be = isinstance(faults[-1], Unread) and is_begun and may_be_there(store, name + STAGED)
        if may_be or shares_fragment(store, name + STAGED, name):
            raise faults[-1]
    return False


def is_absent(store, copy):
    try:
        return said_by(store, copy) is None
    except Fault:
        return False


def may_be_there(store, name):
    """Whether fragments enough of a stripe may be there that nothing describes."""
    for code in CODES:
        try:
            if has_enough(store, code, name):
                return True
        except Fault:
            return True
    return False


def newest_of(store, name):
    """The name under which the file is."""
    return name + STAGED if is_newer(store, name) else name


def read(store, name, output=None):
    """The command `read`: gives what is written to standard output."""
    newest = newest_of(store, name)
    if output is None:
        try:
            return read_stripe(store, newest)
        except Fault:
            # What is seen of the newer one is looked at again: a run may have replaced the file meanwhile.
            is_newer(store, name)
            raise
    try:
        read_stripe(store, newest, lambda sought: write_to(sought, output))
    except Fault as fault:
        if fault.status != USAGE and not fault.line.startswith(f"{output}: "):
            is_newer(store, name)
        raise
    return b""


def verify(store, names):
    """The command `verify`."""
    done = 0
    if not names:
        opened = Opened(store, None)
        names = sorted(opened.listing.described, key=str.encode)
        store.status = DEVICE if opened.has_unlisted else store.status
    for name in names:
        try:
            verify_file(store, name)
            done += 1
        except Fault as fault:
            store.note(fault)
    store.out.append(f"verified {counted(done)}; not as described: {len(names) - done}")


def verify_file(store, name):
    """Holds a file to its digest, as `read` would give it."""
    newest = newest_of(store, name)
    try:
        read_stripe(store, newest)
    except Fault:
        # What is seen of the newer one is looked at again.
        is_newer(store, name)
        raise


def counted(files):
    return f"{files} file" if files == 1 else f"{files} files"


class Copies:
    """The copies of a stripe's description as a code has them, and what is believed of the file."""

    def __init__(self, store, sums, code, name):
        self.store, self.code, self.is_unread = store, code, False
        wanted = store.naming.descriptions(code, name)
        names = wanted + [f"{name}.file"] * (f"{name}.file" not in wanted)
        # What isn't one and has the name of the one that earlier builds made is somebody else's, unless the digests name it.
        names = [copy for copy in names if copy in wanted or copy.encode() in (sums or {}) or self.state(copy) != "odd"]
        states = [self.state(copy) for copy in names]
        listed = next((sums[copy.encode()] for copy in names if copy.encode() in (sums or {})), None)
        said = [state for state in states if isinstance(state, tuple)]
        if listed is None:
            self.believed = next((it for it in said if 2 * said.count(it) > len(said)), None)
        else:
            self.believed = next((it for it in said if digest(it.line()) == listed), None)
        self.are_whole = not (self.believed and self.believed.code != code or said and not self.believed)
        for copy, state in zip(names, states):
            if isinstance(state, System):
                store.say(f"{copy}: can't be read: {state.words}")
                self.is_unread = True
            is_right = state == self.believed if isinstance(state, tuple) else state == "lost" and copy not in wanted
            self.are_whole &= is_right

    def state(self, copy):
        """What a copy says, or that it is `lost` or `odd`, or why it can't be read."""
        try:
            try:
                self.store.refuse_linked(copy)
            except System as refused:
                if refused.words == LINKED_FOLDER:
                    return "lost"
            return self.store.described(copy) or "odd"
        except System as refused:
            if refused.words in (ABSENT, NO_FOLDER):
                return "lost"
            return "odd" if refused.words in (NO_FILE, IS_LINK) else refused


def length_of(code, found):
    """The length of a stripe's fragments, by their lengths alone: of several the greatest, if those that have it have checks."""
    lengths = {it for it in found.values() if isinstance(it, int)}
    greatest = max(lengths, default=None)
    return greatest if len(lengths) < 2 or have_checks(code, survivors_of(found, greatest)) else None


def listed(store, code, as_objects):
    """The command `list`."""
    opened, broken = Opened(store, code), 0
    is_device = opened.has_unlisted
    for name in sorted(opened.stripes, key=str.encode):
        found, size, are_whole = opened.stripes[name], None, True
        if name in opened.listing.described:
            copies = Copies(store, opened.sums, opened.code, name)
            size, are_whole = copies.believed and copies.believed.length, copies.are_whole
            is_device |= copies.is_unread
        for place in (place for place in PLACES[opened.code] if isinstance(found.get(place), tuple)):
            store.say(f"{store.naming.fragment(opened.code, name, place)}: can't be looked at: {found[place][1]}")
            is_device = True
        length = fragment_length(opened.code, size) if size is not None else length_of(opened.code, found)
        there = survivors_of(found, length)
        state = state_of(opened.code, there, are_whole)
        broken += state != "whole"
        lost = len(PLACES[opened.code]) - len(there)
        if as_objects:
            row = {"name": name, "bytes": size, "code": opened.code, "fragments": len(there), "lost": lost, "state": state}
            store.out.append(json.dumps(row, sort_keys=True))
        else:
            shown = "-" if size is None else size
            store.out.append(escaped(f"{state} {shown} {opened.code} {len(there)}/{len(there) + lost} {name}"))
    if len(opened.alone) == 1:
        store.say(f"{store.naming.fragment(opened.code, *opened.alone[0])}: is named as a fragment, and of no stripe")
    elif opened.alone:
        first = store.naming.fragment(opened.code, *opened.alone[0])
        store.say(f"{len(opened.alone)} files are named as fragments, and of no stripe: {first} and others")
    store.err.append(f"{counted(len(opened.stripes))}; not whole: {broken}")
    store.status = DEVICE if is_device else store.status
