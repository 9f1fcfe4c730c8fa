"""What `remove` has to take out of a store in memory, and to say, by rebuild-store(1) and rebuild-store(5)."""

from file_model_names import STAGED, is_name
from file_model_reading import counted, no_file
from file_model_store import DEVICE, Fault, Opened
from file_model_tree import System
from file_model_writing import Encoding


class Removing(Encoding):
    """A run of `remove`."""

    def run(self, files):
        """Takes files out of the store by their names."""
        opened, store, done = Opened(self.store, self.code, not self.trusts, False), self.store, 0
        store.take_sums()
        self.code = opened.code
        if not opened.stripes and not opened.has_unlisted and not any([self.has_left(name) for name in files]):
            raise opened.no_stripes()
        opened.listing.remove_leftovers()
        store.status = max(store.status, DEVICE * opened.has_unlisted)
        for name in files:
            self.code = opened.code
            try:
                self.remove(name)
                done += 1
            except Fault as fault:
                store.note(fault)
        store.out.append(f"removed {counted(done)}; not removed: {len(files) - done}")

    def has_left(self, name):
        """Whether there is something of a file, of what was to replace it, or a folder that one of them has alone."""
        if not is_name(self.naming, self.code, name):
            return False
        for stripe, other in ((name, name + STAGED), (name + STAGED, name)):
            code, folders = self.own_code(stripe)
            files = Files(self, stripe, code)
            if any([self.store.is_there(it) for it in files.copies + files.fragments]):
                return True
            if any([self.tree.is_there(self.store.path(it)) for it in self.own_folders(folders, stripe, other)]):
                return True
        return False

    def remove(self, name):
        """Takes the file of a name out, by the code that its description says, with what was to replace it."""
        staged = name + STAGED
        if not is_name(self.naming, self.code, name):
            raise no_file(self.store, name)
        codes = {stripe: self.own_code(stripe) for stripe in (name, staged)}
        self.code = codes[name][0]
        fragments = self.naming.fragments(self.code, name)
        if not is_name(self.naming, self.code, name) or any(self.is_of_another(it) for it in fragments):
            raise no_file(self.store, name)
        both = [Files(self, stripe, codes[stripe][0]) for stripe in (name, staged)]
        lists = [names for files in both for names in (files.copies, files.fragments)]
        for names in lists:
            self.store.refuse_linked_names(names)
        if not any([self.store.is_there(it) for names in lists for it in names]):
            self.remove_folders(codes, name, staged)
            raise no_file(self.store, name)
        fault = self.take_both(both)
        if not fault or not any(files.may_be_described() for files in both):
            self.remove_folders(codes, name, staged)
        if fault:
            raise fault

    def remove_folders(self, codes, name, staged):
        self.remove_own_folders(codes[staged][1], staged, name)
        self.remove_own_folders(codes[name][1], name, staged)

    def is_of_another(self, fragment):
        """Whether the description of another file has the name of a fragment."""
        return self.naming.is_description(self.code, fragment) and self.is_description(fragment)

    def is_description(self, name):
        try:
            return self.store.described(name) is not None
        except System as refused:
            if refused.is_absent or refused.words.startswith("is "):
                return False
            raise Fault(f"{self.store.path(name)}: {refused.words}", DEVICE) from None

    def take_both(self, both):
        """Takes the lines of a file and of what was to replace it out, then their files. Gives why one stays, if one does."""
        faults, store = [], self.store
        for files in both:
            store.forget(files.copies + files.fragments)
        self.write_sums()
        for files in both:
            try:
                self.take(files.copies)
            except Fault as stays:
                faults.append(stays)
                break
            try:
                self.take(files.fragments)
            except Fault as stays:
                faults.append(stays)
        for files in both if faults else []:
            if files.is_described():
                store.sums |= files.digests
                store.is_changed |= bool(files.digests)
        self.write_sums()
        for fault in faults[:-1]:
            store.note(fault)
        return faults[-1] if faults else None

    def write_sums(self):
        self.store.write_sums()
        self.store.is_changed = False


class Files:
    """The names of a stripe's files, and their digests."""

    def __init__(self, run, stripe, code):
        own, naming = run.own_description(stripe), run.naming
        self.run, self.copies, self.fragments = run, naming.descriptions(code, stripe) + [own] * bool(own), naming.fragments(code, stripe)
        names = [it.encode() for it in self.copies + self.fragments]
        self.digests = {it: run.store.sums[it] for it in names if it in run.store.sums}

    def may_be_described(self):
        for copy in self.copies:
            try:
                if self.run.store.is_there(copy):
                    return True
            except Fault:
                return True
        return False

    def is_described(self):
        """Whether a description is there, or may be, since it can't be read."""
        for copy in self.copies:
            try:
                if self.run.is_description(copy):
                    return True
            except Fault:
                return True
        return False
