"""What may become of a store's files, at random: fragments, descriptions, folders and digests that are lost, damaged or others, or no files
at all."""

from file_model_names import CODES, STAGED, description_of, digest, folder_in, sums_text
from file_model_runs import STORE
from file_model_tree import Fifo, File, Folder, Link

DIGITS = "0123456789abcdef"


def changed(choose, data):
    """Other bytes, as many; one where there are none."""
    if not data:
        return b"x"
    at = choose.randrange(len(data))
    return data[:at] + bytes([data[at] ^ choose.randrange(1, 256)]) + data[at + 1:]


def some_file(case):
    """A file of the store, mostly the one of which the case is, or what is to replace it; none where there is none."""
    names = [name for name in (case.focus, case.focus, f"{case.focus}{STAGED}") if name in case.laid]
    if names and case.choose.random() < 0.6:
        return case.choose.choice(names)
    return case.choose.choice(sorted(case.laid)) if case.laid else None


def fragments(case, most=5):
    """Names of some fragments of a file."""
    name = some_file(case)
    if name is None:
        return []
    names = case.naming.fragments(case.laid[name][0], name)
    return [it for it in case.choose.sample(names, case.choose.choice([1, 1, 2, 2, 3, most])) if isinstance(case.node(it), File)]


def copies(case):
    """Names of some copies of a file's description: one, some or all."""
    name = some_file(case)
    if name is None:
        return []
    names = [it for it in case.naming.descriptions(case.laid[name][0], name) if isinstance(case.node(it), File)]
    return case.choose.sample(names, case.choose.choice([0, 1, len(names) // 2, len(names)]) if len(names) > 1 else len(names))


def lose_fragments(case):
    for name in fragments(case):
        case.drop(name)


def damage_fragments(case):
    for name in fragments(case, 3):
        case.put(name, changed(case.choose, case.node(name).data))


def cut_fragments(case):
    for name in fragments(case, 3):
        data = case.node(name).data
        case.put(name, case.choose.choice([data[:-1], data + b"\0", b"", data + data]))


def obstruct(case, name):
    """Puts something that is no regular file in the place of a file."""
    choose, data = case.choose, case.node(name).data
    kind = choose.choice(["folder", "FIFO", "link", "link", "to nothing", "to other bytes", "to itself"])
    outside = case.outside()
    way = "../" * (1 + name.count("/")) if choose.random() < 0.8 else case.tree.place + "/"
    if kind in ("link", "to other bytes"):
        case.tree.at[outside] = File(data if kind == "link" else changed(choose, data))
    to = name.rpartition("/")[2] if kind == "to itself" else way + outside
    case.tree.at[f"{STORE}/{name}"] = Folder() if kind == "folder" else Fifo() if kind == "FIFO" else Link(to)


def obstruct_fragments(case):
    for name in fragments(case, 2):
        obstruct(case, name)


def lose_descriptions(case):
    for name in copies(case):
        case.drop(name)


def damage_descriptions(case):
    choose = case.choose
    for name in copies(case):
        data = case.node(name).data
        spaced, zeroed = data.replace(b" ", b"  ", 1), b"0" + data
        other = [changed(choose, data), data[:-1], data + b"\n", b"", data * 2, spaced, zeroed, data.upper(), b"x" * 93, b"x" * 94]
        case.put(name, choose.choice(other))


def exchange_descriptions(case):
    """Copies of an older file, on disks that were away, or of the other code."""
    choose, name = case.choose, some_file(case)
    if name is None:
        return
    code, data = case.laid[name]
    other = description_of(choose.choice([b"", b"older", data + b"x"]), code)
    other = choose.choice([other, other, other._replace(length=len(data)), other._replace(code=CODES[code == "6-2-2"])])
    for copy in copies(case):
        if copy in case.naming.descriptions(code, name):
            case.put(copy, other.line())


def obstruct_descriptions(case):
    for name in copies(case)[:2]:
        obstruct(case, name)


def older_disks(case):
    """Disks that were away bring back fragments and descriptions of an older file."""
    choose, name = case.choose, some_file(case)
    if name is None:
        return
    code, data = case.laid[name]
    older = case.files_of(name, choose.choice([case.datas.get(("second", name), b""), data[::-1], b"o"]), code)
    folders = sorted({folder_in(it) for it in older})
    for folder in choose.sample(folders, min(len(folders), choose.choice([1, 1, 2, 3]))):
        for path in (it for it in older if folder_in(it) == folder and isinstance(case.node(it), File)):
            if len(folders) > 1 or choose.random() < 0.3:
                case.put(path, older[path])


def lose_folders(case):
    """Folders of disks, or of a file, that are gone, links or files."""
    choose = case.choose
    folders = sorted(it for it, node in case.tree.at.items() if it.startswith(STORE + "/") and isinstance(node, Folder))
    disks = case.naming.disks(case.code)
    for folder in choose.sample(folders, min(len(folders), choose.choice([1, 1, 2, 4]))):
        kind = choose.choice(["gone", "gone", "file", "link", "to nothing"])
        within = {it: node for it, node in case.tree.at.items() if it == folder or it.startswith(folder + "/")}
        # A link to nothing in place of a file's own folder isn't tried: only for a file named a is said that it isn't there.
        if not within or kind == "to nothing" and disks is None and case.follows:
            continue
        for it in within:
            del case.tree.at[it]
        if kind == "file":
            case.tree.at[folder] = File(b"no folder")
        elif kind != "gone":
            outside = case.outside()
            case.tree.at[folder] = Link("../" * folder.count("/") + outside)
            if kind == "link":
                case.tree.at |= {outside + it.removeprefix(folder): node for it, node in within.items()}


def lose_sums(case):
    case.sums.clear()


def lose_some_sums(case):
    for name in case.choose.sample(sorted(case.sums), case.choose.randrange(len(case.sums) + 1)):
        del case.sums[name]


def wrong_sums(case):
    for name in case.choose.sample(sorted(case.sums), min(len(case.sums), case.choose.choice([1, 2, 4]))):
        case.sums[name] = digest(b"another")


def strange_sums(case):
    """Digests of what isn't the store's, or isn't there."""
    choose = case.choose
    names = [b"other/file", b"notes", b"\xff\xfe", b"gone.x1", b"gone.file", b"gone/x1", b"disk0/gone", b"disk1/gone.file", b"x4/gone",
             b"a\\b", b"a\nb.x0"]
    for name in choose.sample(names, choose.randrange(1, 3)):
        case.sums[name] = digest(name)


def form_sums(case):
    """Digests as other programs write them, or that are none."""
    choose, forms = case.choose, []
    for line in sums_text(case.sums).splitlines(True):
        digits, name = line[:64], line[66:]
        if line[:1] != b"\\" and choose.random() < 0.3:
            line = choose.choice([digits.upper() + b"  " + name, digits + b" *" + name, digits + b"  ./" + name, line[:-1] + b"\r\n",
                                  line * 2, line + b"\n", b"# " + line + line])
        forms.append(line)
    bad = choose.choice([b"", b"", b"", b"no digest\n", b"0" * 64 + b"  \n", b"0" * 63 + b"  a\n", b"\\" + b"0" * 64 + b"  a\\x\n",
                         b"0" * 64 + b"  n\n" + b"1" * 64 + b"  n\n", b"0" * 64 + b" n\n"])
    text = b"".join(forms[:len(forms) // 2] + [bad] + forms[len(forms) // 2:])
    case.sums_form = File(choose.choice([text, text, text, text[:-1], b""]), 0o604)
    if choose.random() < 0.15:
        case.tree.at["elsewhere/sums"] = case.sums_form
        # Where links are followed, `encode` and `remove` should read what a link leads to, and refuse it.
        case.sums_form = Folder() if case.follows or choose.random() < 0.5 else Link("../elsewhere/sums")


def link_fragments(case):
    """Fragments and descriptions that are links, some to links, to folders in which runs that were killed have left something."""
    choose = case.choose
    for name in fragments(case, 3) + copies(case)[:2]:
        outside = case.outside()
        case.tree.make_folders(outside)
        case.tree.at[f"{outside}/f"] = case.node(name) if choose.random() < 0.8 else File(changed(choose, case.node(name).data))
        to = "../" * (1 + name.count("/")) + outside
        if choose.random() < 0.2:
            case.tree.at[f"{outside}/g"] = Link("f")
            to += "/g"
        else:
            to += choose.choice(["/f", "/f", "/f", "/nothing"])
        if choose.random() < 0.3:
            case.tree.at[f"{outside}/.rebuild-store-{DIGITS[::-1]}"] = File(b"left")
        case.tree.at[f"{STORE}/{name}"] = Link(to)


def link_folders(case):
    """Folders that are links to others, or the store's own."""
    choose = case.choose
    folders = sorted(it for it, node in case.tree.at.items() if it.startswith(STORE) and isinstance(node, Folder))
    for folder in choose.sample(folders, min(len(folders), choose.choice([1, 1, 2, 3]))):
        within = {it: node for it, node in case.tree.at.items() if it == folder or it.startswith(folder + "/")}
        outside = case.outside()
        for it in within:
            del case.tree.at[it]
        if within:
            case.tree.at[folder] = Link("../" * folder.count("/") + outside)
            case.tree.at |= {outside + it.removeprefix(folder): node for it, node in within.items()}


def lose_all_fragments(case):
    name = some_file(case)
    for path in case.naming.fragments(case.laid[name][0], name) if name is not None else []:
        case.drop(path)


def add_own_description(case):
    """A description in the store's own folder, as earlier builds made it, or what has its name."""
    choose, name = case.choose, some_file(case)
    if name is None or not case.naming.depth:
        return
    code, data = case.laid[name]
    line = choose.choice([description_of(data, code).line()] * 3 + [description_of(b"older", code).line(), b"no line", b"x" * 94])
    case.put(f"{name}.file", line)
    if choose.random() < 0.4:
        case.sums[f"{name}.file".encode()] = digest(line)
    if choose.random() < 0.15 and case.node(f"{name}.file"):
        obstruct(case, f"{name}.file")
    if choose.random() < 0.5:
        for copy in copies(case):
            case.drop(copy)


FRAGMENTS = [lose_fragments, damage_fragments, cut_fragments, obstruct_fragments]
DESCRIPTIONS = [lose_descriptions, damage_descriptions, exchange_descriptions, obstruct_descriptions, add_own_description]
SUMS = [lose_sums, lose_some_sums, wrong_sums, strange_sums, form_sums]
DISKS = [lose_folders, lose_folders, older_disks, older_disks, lose_sums, damage_fragments, lose_descriptions, lose_fragments]
