"""Where a file that is read is written, and which paths are refused, by rebuild-store(1)."""

from file_model_names import PLACES, SUMS
from file_model_store import DEVICE, USAGE, Fault
from file_model_tree import ABSENT, File, Folder, Link, System, above


def write_to(sought, output):
    """Writes a file that is read to a path, unless that is the store's."""
    store, tree = sought.store, sought.store.tree
    try:
        if is_in_store(sought, above(output)) or is_linked_into_store(sought, output):
            raise Fault(f"{output}: is in a folder of the store", USAGE)
        end = tree.look(output, True) if tree.is_there(output) and isinstance(tree.look(output), Link) and leads(tree, output) else None
        if isinstance(end, File) and any(end is node for node in own_files(sought)):
            raise Fault(f"{output}: leads to a file of the store", USAGE)
        there = tree.look(output) if tree.is_there(output) else None
        found = sought.file()
        if found is None:
            return None
        if isinstance(there, Folder):
            raise System("Is a directory")
        if isinstance(there, Link):
            node = tree.look(output, True)
            if isinstance(node, Folder):
                raise System("Is a directory")
            node.data = found
        else:
            mode, owner = (there.mode & 0o777, there.owner) if there else (0o666 & ~store.umask, None)
            tree.put(output, File(found, mode, owner) if there else File(found, mode))
    except System as refused:
        raise Fault(f"{output}: {refused.words}", DEVICE) from None
    return found


def leads(tree, path):
    try:
        return tree.look(path, True) is not None
    except System as refused:
        if refused.words != ABSENT:
            raise
        return False


def is_linked_into_store(sought, output):
    """Whether the links of a path lead into the store."""
    tree = sought.store.tree
    if not tree.is_there(output) or not isinstance(tree.look(output), Link):
        return False
    end = tree.real(output, True)
    node = tree.at.get(end)
    return (node is None or isinstance(node, File)) and is_in_store(sought, above(end))


def is_in_store(sought, folder):
    """Whether a folder is one of the store, or below one that may have fragments anywhere."""
    store, tree, naming = sought.store, sought.store.tree, sought.store.naming
    real, disks = tree.real(folder, True), naming.disks("12-2-2")
    tree.look(folder, True)
    inside, roots = [], []
    (inside if disks is not None or naming.depth == 0 else roots).append(tree.real(store.folder, True))
    for name in disks if disks is not None else naming.folders("12-2-2", sought.name):
        parts = name.split("/") if name else []
        for level, count in enumerate(range(len(parts), 0, -1)):
            try:
                path = tree.real(store.path("/".join(parts[:count])), True)
                tree.look(path)
            except System:
                continue
            (inside if disks is not None and level else roots).append(path)
    return real in inside or any(real == it or real.startswith(it + "/") for it in roots)


def own_files(sought):
    """The files that the store has of a stripe, and its digests."""
    store, naming = sought.store, sought.store.naming
    names = [SUMS]
    for code in PLACES:
        names += [*naming.fragments(code, sought.name), *naming.descriptions(code, sought.name)]
    for name in names:
        try:
            yield store.look(name)
        except System:
            pass
