"""What else may be in a store or beside it, at random: files and folders of others, stripes of the other code or of other software, owners
and rights, and paths to which files are read."""

from file_model_damage import copies, fragments, lose_sums
from file_model_names import CODES, KEPT, PLACES, STAGED, digest, folder_in
from file_model_runs import STORE
from file_model_tree import MINE, File, Folder, Link

IS_ROOT = MINE[0] == 0


def keep_damaged(case):
    for name in fragments(case, 2) + copies(case)[:1]:
        case.put(name + KEPT, b"damaged")


def leave_strangers(case):
    """Files of others in the store, of which some have names as fragments or descriptions have."""
    choose, naming = case.choose, case.naming
    for _ in range(choose.choice([1, 2, 3])):
        stripe = choose.choice(["alone", "s", "t"])
        names = [naming.fragment("12-2-2", stripe, place) for place in PLACES[case.code]]
        many = choose.choice([1, 1, 2, 4, 6, len(names)])
        length = choose.choice([0, 5, 93, 94, 100])
        for name in choose.sample(names, many) + ["notes", "some.text"]:
            if isinstance(case.tree.at.get(folder_in(f"{STORE}/{name}")), Folder) and not case.node(name):
                case.put(name, choose.randbytes(length if choose.random() < 0.9 else length + 1))


def leave_of_other_code(case):
    """Files of others whose names the (12,2,2) code alone gives a file of the store, or what was to replace one; or so many that they show
    that it is of this code, as one does that SHA256SUMS names."""
    choose, naming = case.choose, case.naming
    stripe = choose.choice([*case.names, *case.names, *case.laid]) + choose.choice(["", "", STAGED])
    narrow, wide = (naming.fragments(code, stripe) + naming.descriptions(code, stripe) for code in CODES)
    beyond = [name for name in wide if name not in narrow]
    for name in choose.sample(beyond, choose.choice([1, 1, 2, 3, 4])):
        if isinstance(case.tree.at.get(folder_in(f"{STORE}/{name}")), Folder) and not case.node(name):
            case.put(name, choose.randbytes(5))
        if choose.random() < 0.1:
            case.sums[name.encode()] = digest(b"other")
    if choose.random() < 0.2:
        for copy in naming.descriptions("12-2-2", stripe):
            case.drop(copy)


def lay_other_code(case):
    """A file of the other code beside those of the store's."""
    if not case.naming.has_shards:
        name = case.choose.choice(["o", "p"])
        case.lay(name, case.bytes(), CODES[case.code == "6-2-2"])
        if case.choose.random() < 0.5:
            lose_sums(case)


def lay_undescribed(case):
    """A stripe that other software made: no description, and digests or none."""
    name = case.choose.choice(["u", "v"])
    files = case.lay(name, case.bytes())
    for copy in case.naming.descriptions(case.code, name):
        case.drop(copy)
    if case.choose.random() < 0.5:
        for path in files:
            case.sums.pop(path.encode(), None)


def open_folder(case):
    """A folder of the store into which others may write, or that is another user's."""
    folders = [it for it, node in case.tree.at.items() if it.startswith(STORE) and isinstance(node, Folder)]
    for folder in case.choose.sample(folders, min(1, len(folders))):
        mode, group = case.choose.choice([(0o777, 0), (0o702, 0), (0o770, 0), (0o770, 1_234), (0o750, 1_234)])
        case.tree.at[folder] = Folder(mode, (case.choose.choice([0, 0, 1_234]), group) if IS_ROOT else MINE)


def give_away(case):
    """Files that are other users', with any rights."""
    paths = [it for it, node in case.tree.at.items() if it.startswith(STORE + "/") and isinstance(node, File)]
    for path in case.choose.sample(paths, min(len(paths), case.choose.choice([1, 2, len(paths)]))):
        node = case.tree.at[path]
        node.mode = case.choose.choice([0o666, 0o604, 0o400, 0o755, 0o4755, 0o640])
        node.owner = case.choose.choice([(1_234, 5_678), (0, 5_678), (0, 0)]) if IS_ROOT else MINE


def add_unreadable_name(case):
    """A name that is no UTF-8."""
    folders = [it for it, node in case.tree.at.items() if it.startswith(STORE) and isinstance(node, Folder)]
    if folders:
        case.tree.at[f"{case.choose.choice(folders)}/\udcff.x0"] = File(b"odd")


def add_folders(case):
    """Folders of others in the store."""
    for name in case.choose.sample(["lost+found", "other/deep", "disk99", "a.x0", "notes.file"], 2):
        if STORE in case.tree.at and f"{STORE}/{name}" not in case.tree.at:
            case.tree.make_folders(f"{STORE}/{name}")


def add_outputs(case):
    """Paths to which files are read: new ones, files with any rights, links, folders, and paths in the store."""
    choose, at = case.choose, case.tree.at
    at |= {"out": Folder(), "out/folder": Folder(), "out/old": File(b"older", choose.choice([0o600, 0o755, 0o4755, 0o444])),
           "out/linked": File(b"x" * 3_000), "out/link": Link("linked"), "out/chain": Link("link"), "out/nothing": Link("nowhere"),
           "out/into": Link(f"../{STORE}"), "out/self": Link("self"), "out/to-folder": Link("folder"), "out/gone": Link("gone/new")}
    if IS_ROOT:
        at["out/old"].owner = choose.choice([(1_234, 5_678), (0, 0)])
    case.outputs += ["out/new", "out/new", "out/old", "out/old", "out/link", "out/chain", "out/nothing", "out/folder", "out/self",
                     "out/into/new", "out/to-folder", "out/gone", "gone/new", "new"]
    paths = [it.removeprefix(STORE + "/") for it in at if it.startswith(STORE + "/")]
    if paths:
        name = choose.choice(paths)
        at["out/way"], at["out/way-beside"] = Link(f"../{STORE}/{name}"), Link(f"../{STORE}/{name}-new")
        case.outputs += [f"{STORE}/{it}" for it in ("new", name, f"{folder_in(name)}/new", "other/new")] + ["out/way", "out/way-beside"]
    files = [it for it in at if it.startswith(STORE + "/") and isinstance(at[it], File)]
    if files:
        at["out/second"], at["out/to-second"] = at[choose.choice(files)], Link("second")
        case.outputs += ["out/second", "out/to-second", "out/to-second"]
    if STORE in at and choose.random() < 0.3:
        case.tree.make_folders(f"{STORE}/other")


OTHERS = [keep_damaged, leave_strangers, leave_of_other_code, leave_of_other_code, lay_other_code, lay_undescribed, open_folder, give_away,
          add_unreadable_name, add_folders]
