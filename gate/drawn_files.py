"""Stores of files, and commands over these, drawn: files that are encoded, read, held to their digests and removed."""

import os

import drawn
import trees
from drawn import KEPT, STAGED, SUMS, sums_text
from stores import digest

NEW = ["new", "a", "b c", "\u00e9"]


def text_of(choose, length):
    """Bytes that are shown as they are."""
    return bytes(32 + byte % 95 for byte in choose.randbytes(length))


def list_all(store, share, choose):
    """Lists the files of a store, or a share of them."""
    listed = {path: digest(entry.data) for path, entry in store.within.items() if entry.kind == trees.FILE and choose.random() < share}
    store.within[SUMS] = trees.file(sums_text(listed))


def with_files(choose, most=2):
    """A store of whole files, all of which are listed."""
    store, pattern = drawn.empty(choose)
    for name in choose.sample(drawn.NAMES[:6], choose.randint(1, most)):
        store.add(name, text_of(choose, choose.choice(drawn.LENGTHS)), True)
    store.words = ["--code", store.code] if "shard" in pattern or store.code == "12-2-2" or choose.random() < 0.4 else []
    return store


def lay_begun(choose, store, name, data):
    """Lays what a killed run has left of a file: some fragments, or all and some descriptions."""
    files = store.files_of(name, data)
    descriptions = store.descriptions(name)
    fragments = [path for path in files if path not in descriptions]
    there = choose.choice([choose.sample(fragments, 3), fragments, [*fragments, descriptions[0]], list(files)])
    store.within |= {path: trees.file(files[path], 0o640) for path in there}


def add_source(choose, store, name):
    """A file that is to be encoded: the same as one of the store, or another."""
    old = store.data.get(name)
    data = old if old is not None and choose.random() < 0.3 else text_of(choose, choose.choice(drawn.LENGTHS))
    files = store.files_of(name, data)
    store.sources[f"sources/{name}"] = name
    store.beside[f"sources/{name}"] = trees.file(data, 0o640)
    staged = store.files_of(name + STAGED, data)
    store.newest |= files | staged
    store.of_stripe |= dict.fromkeys([*files, *staged], name)
    way = choose.random()
    if old is None and way < 0.35:
        lay_begun(choose, store, name, data)
    elif old not in (None, data) and way < 0.35:
        begun = choose.choice([data, text_of(choose, 50)])
        store.begun |= store.files_of(name, begun) | store.files_of(name + STAGED, begun)
        lay_begun(choose, store, name + STAGED, begun)


def encode(choose):
    """Files that are encoded into a store that is there or not."""
    store = with_files(choose)
    if choose.random() < 0.25:
        store.data, store.right, store.of_stripe, store.within = {}, {}, {}, {}
    elif choose.random() < 0.85:
        list_all(store, 1, choose)
    names = choose.sample(list(dict.fromkeys([*NEW, *store.data])), choose.randint(1, 2))
    for name in names:
        add_source(choose, store, name)
    if choose.random() < 0.2:
        drawn.add_strangers(choose, store)
    words = ["encode", *store.names(), *store.words]
    words += ["--replace"] if choose.random() < 0.6 else []
    words += ["--quiet"] if choose.random() < 0.1 else []
    if choose.random() < 0.75 or "{stripe}/" in store.pattern:
        words.append("--make-folders")
    else:
        folders = {os.path.dirname(path) for name in names for path in store.files_of(name, b"")} - {""}
        store.within = {folder: trees.folder() for folder in folders} | store.within
    tree = store.tree()
    if not store.within and choose.random() < 0.5:
        del tree["store"]
    if len(names) == 1 and choose.random() < 0.25:
        # Standard input is what the file has, which isn't there.
        return store, [*words, "--as", names[0], "PLACE/store", "-"], tree, tree[f"sources/{names[0]}"].data
    absent = ["absent"] if choose.random() < 0.1 else []
    return store, [*words, "PLACE/store", *(f"PLACE/sources/{name}" for name in [*absent, *names])], tree


def spoilt_files(choose):
    """A store of files to which something has happened."""
    store = with_files(choose, 3)
    if choose.random() < 0.8:
        list_all(store, choose.choice([1, 1, 0.7]), choose)
    for name in store.data:
        if choose.random() < 0.7:
            lost = drawn.lose(choose, store, name)
            drawn.damage(choose, store, name, lost)
            drawn.spoil_descriptions(choose, store, name)
        if choose.random() < 0.15:
            store.staged[name] = new = text_of(choose, choose.choice(drawn.LENGTHS))
            store.newest |= (files := store.files_of(name + STAGED, new))
            store.of_stripe |= dict.fromkeys(files, name)
            lay_begun(choose, store, name + STAGED, new)
    if store.folders() and choose.random() < 0.15:
        drawn.take_disk(choose, store)
    elif choose.random() < 0.15:
        drawn.make_links(choose, store)
        store.words += ["--follow-links"] if choose.random() < 0.8 else []
    if store.code == "12-2-2" and SUMS not in store.within:
        # Which two fragments of many are damaged takes many calls to find.
        list_all(store, 1, choose)
    return store


def without_code(words):
    """The words without the code, which not all commands take."""
    return words[:words.index("--code")] + words[words.index("--code") + 2:] if "--code" in words else words


def read(choose):
    """A file that is read."""
    store = spoilt_files(choose)
    words = ["read", *store.names(), *without_code(store.words)]
    way = choose.choice(["", "new", "old", "link"])
    if way:
        words += ["--output", "PLACE/out/file"]
        if way == "old":
            store.beside["out/file"] = trees.file(b"old", choose.choice([0o604, 0o640]))
        elif way == "link":
            store.beside |= {"out/file": trees.link("end"), "out/end": trees.file(b"old")}
    return store, [*words, "PLACE/store", choose.choice(list(store.data))], store.tree()


def verify(choose):
    """Files that are held to their digests."""
    store = spoilt_files(choose)
    names = choose.choice([[], choose.sample(list(store.data), 1), [*store.data, "gone"]])
    return store, ["verify", *store.names(), *without_code(store.words), "PLACE/store", *names], store.tree()


def remove(choose):
    """Files that are taken out."""
    store = spoilt_files(choose)
    if choose.random() < 0.2:
        drawn.add_strangers(choose, store)
    if choose.random() < 0.2:
        path = choose.choice(list(store.right))
        store.within[path + KEPT] = trees.file(b"kept", 0o640)
    names = choose.sample(list(store.data), choose.randint(1, len(store.data))) + (["gone"] if choose.random() < 0.15 else [])
    return store, ["remove", *store.names(), *store.words, "PLACE/store", *names], store.tree()
