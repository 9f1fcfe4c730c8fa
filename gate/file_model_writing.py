"""What `encode` has to make of a store in memory, and to say, by rebuild-store(1) and rebuild-store(5)."""

from file_model_code import determine_all, fragments_of
from file_model_names import (
    CODES, DATA, EACH, MOST_OF_DESCRIPTION, PLACES, STAGED, can_encode, description_of, digest, folder_in, is_of_runs,
)
from file_model_reading import Sought, believed, counted, has_some, inode, is_whole, not_given, said_for_sure, shares_fragment
from file_model_store import DEVICE, Fault, Listing, Unclear
from file_model_tree import ABSENT, NO_FOLDER, File, Folder, System, below

NO_NAME, NO_FOLDERS = "a stripe can't have this name", "isn't there: make this folder, or give --make-folders"
TAKEN = "is there already, with other bytes: --replace replaces the file"


class Encoding:
    """A run of `encode`."""

    def __init__(self, store, code, flags=(), name=None, given=None):
        self.store, self.naming, self.code, self.tree = store, store.naming, code, store.tree
        self.replaces, self.makes_folders, self.trusts = ("--" + it in flags for it in ("replace", "make-folders", "trust-writers"))
        self.name, self.given = name, given

    def run(self, files):
        """Encodes files by their paths."""
        store, done = self.store, 0
        if not self.tree.is_there(store.folder):
            self.tree.put(store.folder, Folder(0o777 & ~store.umask))
        listing = Listing(store, self.code if self.naming.has_shards else "12-2-2")
        listing.say_links()
        if not self.trusts:
            listing.refuse_foreign()
        listing.remove_leftovers()
        for inside, words in listing.unlisted.items():
            if words not in (ABSENT, NO_FOLDER):
                store.note(Fault(f"{store.path(inside)}: {words}: what runs that were killed have left there stays", DEVICE))
        if listing.others(self.code) != "none":
            self.refuse_code(CODES[self.code == "6-2-2"])
        store.take_sums()
        for path in files:
            try:
                self.encode(path)
                done += 1
            except Fault as fault:
                store.note(fault)
        store.write_sums()
        store.out.append(f"encoded {counted(done)}; not encoded: {len(files) - done}")

    def refuse_code(self, other):
        raise Fault(f"{self.store.folder}: has fragments of the code {other}: give --code {other}, or another folder")

    def encode(self, path):
        """Encodes a file; what is there already stays, unless it is replaced."""
        name = self.name if self.name is not None else path.rpartition("/")[2]
        if name in ("", ".", "..", "lost+found") or is_of_runs(name):
            raise Fault(f"{path if self.name is None else name}: {NO_NAME}")
        data = self.source(path)
        if not can_encode(self.naming, self.code, name):
            raise Fault(f"{path if self.name is None else self.name}: {NO_NAME}")
        if self.makes_folders:
            self.make_folders(name)
        self.finish(name, False)
        try:
            self.refuse_others(name, data)
            self.encode_as(name, data)
        except Fault as fault:
            if not self.replaces or fault.status == DEVICE:
                raise
            self.refuse_irregular(self.code, name)
            self.refuse_irregular_names(self.beyond(name, self.code))
            self.replace(name, data)

    def source(self, path):
        """The bytes of a file that is encoded."""
        if self.given is not None:
            return self.given
        try:
            node = self.tree.look(path, True)
        except System as refused:
            raise Fault(f"{path}: {refused.words}", DEVICE) from None
        if not isinstance(node, File):
            raise Fault(f"{path}: is no regular file")
        return node.data

    def make_folders(self, stripe, but=()):
        """Makes the folders of a stripe's fragments, but for some and those that these are in."""
        for folder in self.naming.folders(self.code, stripe):
            made = ""
            for part in folder.split("/") if folder else []:
                made = below(made, part)
                if any(it == made or it.startswith(f"{made}/") for it in but):
                    continue
                try:
                    self.store.refuse_linked(made)
                    path = self.store.path(made)
                    if self.tree.is_there(path):
                        if not isinstance(self.tree.look(path, True), Folder):
                            raise System(NO_FOLDER)
                    else:
                        self.tree.put(path, Folder(0o777 & ~self.store.umask))
                except System as refused:
                    raise Fault(f"{made}: {refused.words}", DEVICE) from None

    def refuse_others(self, name, data):
        """Refuses a file beside another description, or a fragment at a place that the code hasn't."""
        store, described = self.store, description_of(data, self.code)
        own = self.own_description(name)
        for copy in self.copies(name) + [own] * bool(own):
            if store.is_there(copy):
                try:
                    said = store.described(copy)
                except System:
                    said = None
                if said != described:
                    raise Fault(f"{copy}: {TAKEN}")
        for place in [] if self.naming.has_shards else [place for place in EACH if place not in PLACES[self.code]]:
            fragment = self.naming.fragment("12-2-2", name, place)
            if store.is_there(fragment):
                raise Fault(f"{fragment}: {TAKEN}")

    def copies(self, stripe):
        return self.naming.descriptions(self.code, stripe)

    def encode_as(self, stripe, data):
        """Makes the fragments and descriptions of a stripe, unless other bytes have one of the names."""
        store, line = self.store, description_of(data, self.code).line()
        names = self.naming.fragments(self.code, stripe)
        for name in names + self.copies(stripe):
            self.refuse_long(name)
        made = dict(zip(names, (fragments_of(self.code, data)[place] for place in PLACES[self.code])))
        for name in names:
            self.refuse_folder(name)
        for name in names:
            if store.is_there(name) and not self.has(name, made[name]):
                if store.follows and self.leads_to_nothing(name):
                    raise Fault(f"{name}: is a link to nothing, and nothing is encoded where it leads")
                raise Fault(f"{name}: {TAKEN}")
        for name, content in [*made.items(), *((copy, line) for copy in self.copies(stripe))]:
            if not store.is_there(name):
                store.make(name, content)
            store.set_sum(name, content)

    def refuse_long(self, name):
        try:
            self.tree.look(self.store.path(name))
        except System as refused:
            if refused.words not in (ABSENT, NO_FOLDER) and refused.is_absent:
                raise Fault(f"{self.store.path(name)}: {refused.words}", DEVICE) from None

    def refuse_folder(self, name):
        """Refuses a fragment whose folder isn't there."""
        folder = folder_in(self.store.path(name))
        try:
            self.store.refuse_linked(name)
            if not isinstance(self.tree.look(folder, True), Folder):
                raise System(NO_FOLDER)
        except System as refused:
            raise Fault(f"{folder}: {NO_FOLDERS if refused.words == ABSENT else refused.words}", DEVICE) from None

    def leads_to_nothing(self, name):
        """Whether a name is that of a link which leads to nothing."""
        try:
            self.store.look(name)
        except System as refused:
            return refused.is_absent
        return False

    def has(self, name, data):
        """Whether these bytes are under a name."""
        try:
            return self.store.file(name).data == data
        except System:
            return False

    def refuse_irregular(self, code, stripe):
        """Refuses to replace what is no file, or too long for a description."""
        self.refuse_irregular_names((self.naming.fragments(code, stripe), self.naming.descriptions(code, stripe)))

    def refuse_irregular_names(self, names):
        store, (fragments, copies) = self.store, names
        store.refuse_linked_names(fragments)
        store.refuse_linked_names(copies)
        for name in fragments + copies:
            if store.is_there(name):
                node = self.tree.look(store.path(name))
                if not isinstance(node, File):
                    raise Fault(f"{name}: is no regular file, and isn't replaced")
                if name in copies and len(node.data) > MOST_OF_DESCRIPTION:
                    raise Fault(f"{name}: is longer than a description, and isn't replaced")

    def replace(self, name, data):
        """Encodes a file under the name of what replaces another, and replaces that."""
        staged, disks = name + STAGED, self.naming.disks(self.code)
        if not self.makes_folders and not all(self.store.is_there(disk) for disk in disks or ()):
            raise Unclear("the folders of disks must be there, and which of them is said to be missing depends on the order of calls")
        had_folders = any([self.store.is_there(folder) for folder in self.own_folders(self.code, staged, name)])
        try:
            self.make_folders(staged, self.naming.folders(self.code, name))
            self.encode_as(staged, data)
        except Fault:
            self.discard(staged)
            if not had_folders:
                self.remove_own_folders(self.code, staged, name)
            raise
        self.finish(name, True)

    def discard(self, staged):
        """Takes away what was made of a file that was to replace another."""
        names = self.copies(staged) + self.naming.fragments(self.code, staged)
        for name in names:
            if self.store.is_known(name) and isinstance(inode(self.store, name), File):
                self.tree.take(self.store.path(name))
        self.store.forget(names)

    def finish(self, name, is_new):
        """Ends what was begun to replace the file of a name, or takes it away."""
        store, naming, staged = self.store, self.naming, name + STAGED
        code, folders = (self.code, self.code) if is_new else self.own_code(staged)
        if has_some(store, code, staged) or any([store.is_there(copy) for copy in naming.descriptions(code, staged)]):
            self.end(name, staged, code, is_new)
            self.remove_own_folders(folders, staged, name)

    def end(self, name, staged, code, is_new):
        """The same where something was begun, which has this code."""
        store, naming = self.store, self.naming
        store.refuse_linked_names(naming.descriptions(code, staged))
        store.refuse_linked_names(naming.fragments(code, staged))
        described = self.to_replace(name, staged, is_new)
        if described:
            code = described.code
            if len(DATA[code]) > len(DATA[self.code]):
                self.refuse_code(code)
        own, beyond = self.own_description(name), self.beyond(name, code) if described else ([], [])
        pairs = list(zip(naming.fragments(code, staged), naming.fragments(code, name))) + [(f"{staged}.file", own)] * bool(own)
        copies = naming.descriptions(code, staged)
        if described:
            self.refuse_irregular(code, name)
            self.refuse_irregular_names(beyond)
            lost = self.mended(described, staged, name, pairs)
            self.take(beyond[1])
            self.take(beyond[0])
            self.give(pairs + lost, copies, naming.descriptions(code, name))
        self.take(copies)
        self.take(it for it, _ in pairs)

    def own_code(self, stripe):
        """The code of a stripe by its description, or by the names that are there; and the one by which it may have folders."""
        described = believed(self.store, stripe)
        if described:
            return described.code, described.code
        narrow, wide = (self.naming.fragments(code, stripe) + self.naming.descriptions(code, stripe) for code in CODES)
        wide = [it for it in wide if it not in narrow]
        # Fewer than three may be somebody else's.
        is_wide = any(it.encode() in self.store.sums for it in wide) or 3 <= sum(map(self.store.is_there, wide))
        return "12-2-2" if is_wide else self.code, "12-2-2"

    def beyond(self, name, code):
        """The names of a stripe's fragments and descriptions by its own code that it hasn't by another one."""
        own, naming = self.own_code(name)[0], self.naming
        fragments, copies = ([it for it in names(own, name) if it not in names(code, name)]
                             for names in (naming.fragments, naming.descriptions))
        return fragments, copies

    def own_description(self, stripe):
        """The description in the store's own folder that earlier builds made beside those of now, if it is one."""
        name = f"{stripe}.file"
        if name in self.copies(stripe):
            return None
        try:
            return name if self.store.described(name, False) else None
        except System as refused:
            if refused.is_absent or refused.words.startswith("is "):
                return None
            raise Fault(f"{self.store.path(name)}: {refused.words}", DEVICE) from None

    def to_replace(self, name, staged, is_new):
        """What describes what was begun, if it is to replace the file of a name; none where it is to go."""
        said = said_for_sure(self.store, staged)
        whole = [described for described in said if is_whole(self.store, described.code, staged)]
        if not whole:
            if self.is_nothing(name, staged, said) if said else not self.is_half_given(name, staged):
                return None
            raise Fault(f"{staged}: too little of it is there to replace a file: bring its disks back, or remove it")
        fitting = whole[0] if is_new else self.fitting(staged, whole)
        if fitting is None:
            raise not_given(staged)
        return fitting

    def fitting(self, stripe, said):
        """The first of some descriptions that the fragments which are there give."""
        refused = None
        for described in said:
            sought = Sought(self.store, stripe, described, False)
            if sought.fragments and sought.file() is not None:
                return described
            refused = refused or sought.refused
        if refused:
            raise refused
        return None

    def is_half_given(self, name, staged):
        """Whether what was begun, of which nothing is said, may be all that there is of the file: fragments of it have names of that one
        already, and that one isn't whole by itself."""
        store = self.store
        if not shares_fragment(store, staged, name):
            return False
        for code in PLACES:
            for place in PLACES[code]:
                begun = inode(store, self.naming.fragment(code, staged, place))
                other = inode(store, self.naming.fragment(code, name, place))
                if begun is not None and begun is not other and not self.are_same(code, place, name, staged):
                    return True
        return self.fitting(name, said_for_sure(store, name)) is None

    def are_same(self, code, place, name, staged):
        """Whether the fragments of two stripes at a place have the same bytes."""
        try:
            return self.store.file(self.naming.fragment(code, staged, place)).data == self.store.file(
                self.naming.fragment(code, name, place)).data
        except System:
            return False

    def is_nothing(self, name, staged, said):
        """Whether descriptions are all that there is of what was begun, and can be: too few disks can be away to have the rest. The file
        itself can be read."""
        for described in said:
            if has_some(self.store, described.code, staged):
                return False
            away = [place for place in PLACES[described.code] if self.may_be_away(described.code, place, name, staged)]
            if determine_all(described.code, away):
                return False
        return self.fitting(name, said_for_sure(self.store, name)) is not None

    def may_be_away(self, code, place, name, staged):
        """Whether a disk may be away: its folder has neither a fragment of the file nor a description of what was to replace it."""
        copies, folder = self.naming.descriptions(code, staged), folder_in(self.naming.fragment(code, staged, place))
        if self.store.is_known(self.naming.fragment(code, name, place)):
            return False
        return not any(folder_in(copy) == folder and self.store.is_known(copy) for copy in copies)

    def mended(self, described, staged, name, pairs):
        """Writes the copies of a description that are lost. Gives those that stay lost, with those that go for that."""
        store, lost = self.store, []
        code, naming = described.code, self.naming
        copies = naming.descriptions(code, staged)
        rights = self.rights_of(copies)
        for copy, old in zip(copies, naming.descriptions(code, name)):
            if store.is_there(copy) or self.says(old, described):
                continue
            if any(folder_in(fragment) == folder_in(copy) and store.is_known(fragment) for fragment, _ in pairs):
                store.make(copy, described.line(), rights)
                store.set_sum(copy, described.line())
            else:
                lost.append((copy, old))
        return lost

    def says(self, copy, described):
        try:
            return self.store.described(copy) == described
        except System:
            return False

    def rights_of(self, copies):
        """The rights that copies have in common; those of the user alone where they have several owners."""
        found = []
        for copy in copies:
            try:
                node = self.store.look(copy)
            except System:
                continue
            found += [node] * isinstance(node, File)
        if len({node.owner for node in found}) != 1:
            return 0o600, File(b"").owner
        mode = 0o666
        for node in found:
            mode &= node.mode
        return mode, found[0].owner

    def give(self, pairs, copies, old_copies):
        """Gives the files of what was begun the names of the old one's, the descriptions last, and writes the digests."""
        store = self.store
        for begun, old in pairs:
            if store.is_there(begun):
                self.give_one(begun, old)
            else:
                self.take([old])
        for begun, old in zip(copies, old_copies):
            if store.is_there(begun):
                self.give_one(begun, old)
        store.forget([*copies, *(begun for begun, _ in pairs)])
        store.write_sums()

    def give_one(self, begun, old):
        store = self.store
        node = self.tree.look(store.path(begun))
        if isinstance(node, Folder):
            raise Unclear("a folder has the name of a fragment that is to replace another")
        self.tree.put(store.path(old), node)
        if begun.encode() in store.sums:
            store.sums[old.encode()] = store.sums[begun.encode()]
            store.is_changed = True
        elif old.encode() in store.sums and not (isinstance(node, File) and digest(node.data) == store.sums[old.encode()]):
            store.forget([old])

    def take(self, names):
        """Takes away the regular files of some names; another thing stays, and is said."""
        odd = None
        for name in list(names)[::-1]:
            self.store.forget([name])
            if self.store.is_there(name):
                if isinstance(self.tree.look(self.store.path(name)), File):
                    self.tree.take(self.store.path(name))
                else:
                    odd = name
        if odd is not None:
            raise Fault(f"{odd}: is no regular file, and isn't removed")

    def own_folders(self, code, stripe, other):
        """The folders that a stripe has and another one hasn't, each after those in it."""
        others = self.naming.folders(code, other)
        for folder in self.naming.folders(code, stripe):
            while folder and not any(it == folder or it.startswith(folder + "/") for it in others):
                yield folder
                folder = folder_in(folder)

    def remove_own_folders(self, code, stripe, other):
        """Takes away the folders that are a stripe's own, if nothing is in them."""
        for folder in self.own_folders(code, stripe, other):
            path = self.store.path(folder)
            try:
                self.store.refuse_linked(folder)
                is_folder = isinstance(self.tree.look(path), Folder)
            except System:
                is_folder = False
            if is_folder and not self.tree.names(path):
                self.tree.take(path)
