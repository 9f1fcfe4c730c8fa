"""What runs that were killed have left in a store, at random, and what may have become of that."""

from file_model_damage import (
    DIGITS, add_own_description, cut_fragments, damage_descriptions, damage_fragments, exchange_descriptions, link_folders, link_fragments,
    lose_all_fragments, lose_descriptions, lose_folders, lose_fragments, lose_some_sums, lose_sums, older_disks, some_file,
)
from file_model_names import PLACES, STAGED, can_encode, digest, folder_in
from file_model_others import IS_ROOT, give_away
from file_model_runs import STORE
from file_model_tree import MINE, File, Folder


def leave_unfinished(case):
    """Files that weren't whole when a run was killed."""
    choose = case.choose
    folders = sorted(it for it, node in case.tree.at.items() if it.startswith(STORE) and isinstance(node, Folder))
    for folder in choose.sample(folders, min(len(folders), 2)):
        begin = choose.choice(["", "", "7@host-", "1-2-7@a.b-"])
        case.tree.at[f"{folder}/.rebuild-store-{begin}{DIGITS}"] = File(choose.randbytes(20))
        if choose.random() < 0.3:
            text = choose.choice([b"", bytes(9), b"7@host\n", b"7@host", b"other\n"])
            case.tree.at[f"{folder}/.rebuild-store-part-1-of-2"] = File(text)


def leave_encoded(case):
    """What an `encode` leaves that is killed: some of the fragments, or all and some descriptions; no digests."""
    choose = case.choose
    name = choose.choice(case.names)
    if name in case.laid or not can_encode(case.naming, case.code, name):
        return
    files = list(case.files_of(name, case.datas[choose.choice(["first", "second"]), name], case.code).items())
    files = files[:choose.randrange(1, len(files) + 1)]
    for path, data in files if choose.random() < 0.6 else choose.sample(files, (len(files) + 1) // 2):
        case.tree.make_folders(folder_in(f"{STORE}/{path}"))
        case.put(path, data)


def leave_removed(case):
    """What a `remove` leaves that is killed: the digests are gone, and the last of the descriptions, or all of these and fragments."""
    choose, name = case.choose, some_file(case)
    if name is None:
        return
    code, _ = case.laid.pop(name)
    descriptions, names = case.naming.descriptions(code, name), case.naming.fragments(code, name)
    for path in descriptions + names:
        case.sums.pop(path.encode(), None)
    gone = descriptions[::-1] + names[::-1]
    for path in gone[:choose.randrange(len(gone) + 1)]:
        case.drop(path)


def leave_replaced(case):
    """What an `encode --replace` leaves that is killed: of what is to replace a file some fragments, or all and some descriptions, or
    all, of which some have names of the old one already; or what is left when its own names go."""
    choose, name = case.choose, some_file(case)
    if name is None or name not in case.names:
        return
    case.focus = name
    code, _ = case.laid[name]
    new, old = f"{name}{STAGED}", case.naming.fragments(code, name) + case.naming.descriptions(code, name)
    data = case.datas[choose.choice(["first", "second", "second"]), name]
    files = case.files_of(new, data, code)
    begun = case.naming.fragments(code, new) + case.naming.descriptions(code, new)
    many = choose.choice([choose.randrange(1, len(begun) + 1), len(begun), len(begun)])
    for path in begun[:many]:
        case.tree.make_folders(folder_in(f"{STORE}/{path}"))
        case.put(path, files[path])
        if choose.random() < 0.1:
            case.sums[path.encode()] = digest(files[path])
    case.laid[new] = code, data
    if many < len(begun) or choose.random() < 0.4:
        return
    given = choose.choice([choose.randrange(len(begun) + 1), len(begun)])
    for path, to in list(zip(begun, old))[:given]:
        if isinstance(case.tree.at.get(folder_in(f"{STORE}/{to}")), Folder) and case.node(path):
            case.tree.at[f"{STORE}/{to}"] = case.node(path)
    if given == len(begun) and choose.random() < 0.6:
        leave_given(case, begun, old, files)


def leave_given(case, begun, old, files):
    """Of what has replaced a file: the digests are written, and the last of its own names are gone, first those of the descriptions."""
    descriptions = [it for it in begun if files[it] == files[begun[-1]] and it.rpartition("/")[2].find(".file") > 0]
    for path, to in zip(begun, old):
        case.sums[to.encode()] = digest(files[path])
    gone = descriptions[::-1] + [it for it in begun if it not in descriptions][::-1]
    for path in gone[:case.choose.randrange(len(gone))]:
        case.drop(path)


def begun_file(case):
    """What was to replace a file; none where there is no such thing."""
    names = [name for name in sorted(case.laid) if name.endswith(STAGED)]
    return case.choose.choice(names) if names else None


def leave_descriptions_alone(case):
    """Of what was to replace a file descriptions alone are left, and of the file maybe not all."""
    choose, name = case.choose, begun_file(case)
    if name is None:
        return
    code, _ = case.laid[name]
    for path in case.naming.fragments(code, name):
        case.drop(path)
    said = case.naming.descriptions(code, name)
    for path in choose.sample(said, choose.choice([0, 1, len(said) // 2, len(said) - 1])):
        case.drop(path)
    old = name.removesuffix(STAGED)
    for path in choose.sample(case.naming.fragments(code, old), choose.choice([0, 0, 1, 3, 5, len(PLACES[code])])):
        case.drop(path)


def miss_disks(case):
    """Disks that were away while a file was to be replaced: they have nothing of what replaces it, or no description of that."""
    choose, name = case.choose, begun_file(case)
    if name is None:
        return
    code, _ = case.laid[name]
    paths = case.naming.fragments(code, name) + case.naming.descriptions(code, name)
    folders = sorted({folder_in(path) for path in paths})
    for folder in choose.sample(folders, min(len(folders) - 1, choose.choice([1, 2, 3, 4]))):
        only_descriptions = choose.random() < 0.4
        for path in paths:
            if folder_in(path) == folder and (not only_descriptions or path not in case.naming.fragments(code, name)):
                case.drop(path)


def give_begun_away(case):
    """Of what was to replace a file a description is lost, and the others have any owners and rights."""
    choose, name = case.choose, begun_file(case)
    if name is None:
        return
    said = [it for it in case.naming.descriptions(case.laid[name][0], name) if isinstance(case.node(it), File)]
    owners = choose.choice([[MINE], [MINE, (1_234, 5_678)], [(1_234, 5_678)], [(1_234, 0), (1_234, 5_678)]])
    for copy in said:
        node = case.node(copy)
        node.mode, node.owner = choose.choice([0o644, 0o640, 0o660, 0o4755]), choose.choice(owners) if IS_ROOT else MINE
    for copy in choose.sample(said, min(len(said), choose.choice([1, 1, 2]))):
        case.drop(copy)


BEGUN = [lose_fragments, lose_fragments, damage_fragments, cut_fragments, lose_descriptions, damage_descriptions, exchange_descriptions,
         lose_folders, lose_sums, lose_some_sums, older_disks, give_away, add_own_description, leave_removed, leave_descriptions_alone,
         leave_descriptions_alone, miss_disks, miss_disks, give_begun_away, give_begun_away, lose_all_fragments]
KILLED = [leave_unfinished, leave_encoded, leave_removed, leave_replaced, leave_replaced]
LINKS = [link_fragments, link_fragments, link_folders, leave_unfinished]
