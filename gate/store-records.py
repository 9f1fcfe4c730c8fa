#!/usr/bin/env python3
"""Tries what rebuild-store keeps beside fragments: lines of SHA256SUMS, descriptions, which copy of these is believed; and the lines that
say which files are in a store.

    store-records.py [PROGRAM]

What each line says is worked out here by rebuild-store(5) and sha256sum(1), with digests of FIPS 180-2's function by Python's hashlib;
nothing is taken from the program's own output."""

import hashlib
import json
import pathlib
import subprocess
import sys
import tempfile

PROGRAM = "crates/rebuild_store/out/rebuild_store"
SECONDS = 300
PLACES = {code: [*(f"{group}{number}" for group in "xy" for number in range(many)), "px", "py", "p0", "p1"]
          for code, many in (("6-2-2", 3), ("12-2-2", 6))}
DISKS = ["--names", "disk{shard}/{stripe}", "--code", "6-2-2"]
# The digests of `a` and `b`.
A = "ca978112ca1bbdcafac231b39a23dc4da786eff8147c4e72b9807785afee48bb"
B = "3e23e8160039594a33894f6564e1b1348bbd7a0088d42c4acb73eeaed59c009d"
passed, failed = 0, []


def check(holds, what):
    """Counts what holds, and notes what doesn't."""
    global passed
    passed += bool(holds)
    if not holds:
        failed.append(what)


def ran(*words):
    """What a run says on standard output and standard error, and its status."""
    done = subprocess.run([PROGRAM, *map(str, words)], stdin=subprocess.DEVNULL, capture_output=True, timeout=SECONDS)
    return done.stdout.decode(), done.stderr.decode(), done.returncode


def says(words, *wanted):
    """Holds a run to what it has to say, and to its status."""
    came = ran(*words)
    check(came == wanted, f"{' '.join(map(str, words))}:\n  wanted: {wanted!r}\n  came:   {came!r}")


def digest(data):
    return hashlib.sha256(data).hexdigest()


def description(length, of, code="6-2-2"):
    return f"{length} {of} {code}\n"


def lay(store, stripe, code="6-2-2", places=None, length=1):
    """A stripe of zeros, which satisfy each equation: all of its fragments, or those at these places."""
    store.mkdir(exist_ok=True)
    for place in places or PLACES[code]:
        (store / f"{stripe}.{place}").write_bytes(bytes(length))


def encode(place, store, name, data, *words):
    """Encodes a file, and gives the command that does it again."""
    source = place / f"source of {store.name}"
    source.write_bytes(data)
    command = ["encode", "--as", name, *words, store, source]
    says(command, "encoded 1 file; not encoded: 0\n", "", 0)
    return command


def sum_line(name, of):
    """The line of a file as sha256sum writes it."""
    text = name.replace("\\", "\\\\").replace("\n", "\\n").replace("\r", "\\r")
    return f"{'' if text == name else chr(92)}{of}  {text}\n"


def sum_lines(digests):
    """The lines of files, in the order of the bytes of their names."""
    return "".join(sum_line(name, digests[name]) for name in sorted(digests, key=str.encode))


def digests_of(store):
    """The digests of a store's files by their names."""
    files = [path for path in store.rglob("*") if path.is_file() and path.name != "SHA256SUMS"]
    return {str(path.relative_to(store)): digest(path.read_bytes()) for path in files}


# A line, and the name of the file of which it has the digest of `a`.
LINES = [
    (f"{A}  a.x0", "a.x0"), (f"{A}  disk1/a b", "disk1/a b"), (f"{A}   a", " a"), (f"{A}  *a", "*a"), (f"\\{A}  a\\\\b", "a\\b"),
    (f"\\{A}  a\\nb", "a\nb"), (f"\\{A}  a\\rb", "a\rb"), (f"\\{A}  \\\\", "\\"), (f"{A}  ä", "ä"), (f"{A}  #a", "#a"),
    (f"{A}  a ", "a "), (f"{A} *a.x0", "a.x0"), (f"{A}  ./a.x0", "a.x0"), (f"{A.upper()}  a", "a"), (f"{A}  a\r", "a"), (f"\\{A}  a", "a"),
    (f"\\{A} *./a\\\\", "a\\"),
]
# Lines that say nothing, and those that are none of sums.
SILENT = ["", "\r", "#", "# a  b", "#\r"]
NO_SUMS = [
    A, f"{A}  ", f"{A} a", f"{A}\t a", f"{A} -a", f"{A[:-1]}  aa", f"{A}0  a", f"g{A[1:]}  a", f" {A}  a", f"\\{A}  a\\", f"\\{A}  a\\t",
    f"\\{A}  ", "MD5 (a) = 0123", f"\\\\{A}  a",
]


def test_lines_of_sums(place):
    """What lines of other files say is kept when the store's own are written anew; one that says nothing sums up to nothing."""
    store = place / "store"
    command = encode(place, store, "own", b"a")
    sums, own = store / "SHA256SUMS", digests_of(store)
    check(sums.read_text() == sum_lines(own) and own["own.x0"] == A == digest(b"a"), "the digest of a isn't as it should be")
    for line, name in [*LINES, *((line, None) for line in SILENT)]:
        sums.write_bytes(f"{line}\n".encode())
        says(command, "encoded 1 file; not encoded: 0\n", "", 0)
        wanted = own if name is None else own | {name: A}
        check(sums.read_bytes() == sum_lines(wanted).encode(), f"{line!r}: {sums.read_bytes()!r}")


def test_what_are_no_sums(place):
    store = place / "store"
    lay(store, "note")
    sums, why = store / "SHA256SUMS", "line 7 isn't as sha256sum writes it: 64 digits, two spaces or ' *', a name"
    for line in NO_SUMS:
        sums.write_text("#\n" * 6 + f"{line}\n")
        says(["list", store], "", f"rebuild-store: {sums}: {why}\n", 1)
    sums.write_text(f"{B}  a.x0\n{LINES[0][0]}\n")
    says(["list", store], "", f"rebuild-store: {sums}: line 2 has another digest of a file than an earlier line\n", 1)


# Lines of sums, as they are written and read. They come in another order and form, and names are as files may have them.
TEXT = [f"{A}  a.x0", f"\\{B}  a\\\\b", f"\\{A}  b\\nc", f"\\{B}  d\\re", f"{A}  disk1/a b"]
OTHER_FORM = [f"{A} *./disk1/a b", f"\\{B.upper()}  ./d\\re", f"\\{A} *b\\nc\r", "# others", f"\\{B}  a\\\\b", f"\\{A}  a.x0"]
NAMED = {"a.x0": A, "a\\b": B, "b\nc": A, "d\re": B, "disk1/a b": A}


def test_sums_are_written_and_read(place):
    store = place / "store"
    command = encode(place, store, "own", b"a")
    sums, own = store / "SHA256SUMS", digests_of(store)
    check(sum_lines(NAMED) == "".join(f"{line}\n" for line in TEXT), "the table isn't as sha256sum writes it")
    for lines in (OTHER_FORM, TEXT):
        sums.write_bytes("".join(f"{line}\n" for line in lines).encode())
        says(command, "encoded 1 file; not encoded: 0\n", "", 0)
        check(sums.read_bytes().decode() == sum_lines(own | NAMED), f"{lines}: {sums.read_bytes()!r}")
        check([line for line in sums.read_bytes().decode().split("\n") if "own." not in line] == [*TEXT, ""], f"{lines}")
    for name in ("a\\b", "b\nc", "d\re"):
        encode(place, place / "odd", name, b"b")
    disks = place / "disks"
    encode(place, disks, "a b", b"a", *DISKS, "--make-folders")
    for folder in (place / "odd", disks):
        check((folder / "SHA256SUMS").read_bytes().decode() == sum_lines(digests_of(folder)), f"the sums of {folder.name}")


# What is in the file of a description: its length, its digest and its code; and what no description is.
DESCRIPTIONS = [(0, A, "6-2-2"), (1, B, "12-2-2"), (4096, A, "12-2-2"), (2 ** 64 - 1, B, "6-2-2"), (2 ** 64 - 1, A, "12-2-2")]
NO_DESCRIPTIONS = [
    "", f"4096 {A} 6-2-2", f"4096 {A} 6-2-2\n\n", f"4096 {A} 6-2-2 \n", f" 4096 {A} 6-2-2\n", f"04096 {A} 6-2-2\n", f"+4096 {A} 6-2-2\n",
    f"-1 {A} 6-2-2\n", f"4096  {A} 6-2-2\n", f"4096 {A}  6-2-2\n", f"4096\t{A} 6-2-2\n", f"4096 {A.upper()} 6-2-2\n",
    f"4096 {A[:-2]} 6-2-2\n", f"4096 {A}00 6-2-2\n", f"4096 {A} 6-2-3\n", f"4096 {A} 12-2-2 \n", f"4096 {A}\n", f"{2 ** 64} {A} 6-2-2\n",
    f"4096 {A} 6-2-2\r\n", f" {A} 6-2-2\n", f"a {A} 6-2-2\n", f"4096 {A} 6-2-2\n\0",
]
# No description is longer.
MOST_BYTES = 93


def test_descriptions(place):
    """A description says the length and the code of its file, and its lost copy is made again; anything else is none."""
    for number, said in enumerate(DESCRIPTIONS):
        store, (length, _, code) = place / str(number), said
        store.mkdir()
        line = description(*said)
        (store / "a.file").write_text(line)
        row = {"name": "a", "bytes": length, "code": code, "fragments": 0, "lost": len(PLACES[code]), "state": "lost"}
        out, _, status = ran("list", "--json", store)
        check([json.loads(it) for it in out.splitlines()] == [row] and status == 0, f"{line}: {out}")
        ran("repair", store)
        copy = store / "a.file.copy"
        check(copy.is_file() and copy.read_text() == line and len(line) <= MOST_BYTES, f"{line}: no copy is made")
    store = place / "none"
    lay(store, "a")
    for text in NO_DESCRIPTIONS:
        (store / "a.file").write_bytes(text.encode())
        (store / "a.file.copy").write_bytes(text.encode())
        said = "".join(f"rebuild-store: {name}: isn't a line with a length, a digest and a code\n" for name in ("a.file", "a.file.copy"))
        said += "1 stripe; 0 fragments lost, 0 of them not in the list\n"
        says(["lost", "--code", "6-2-2", "--json", store], "", said, 1)


# What copies of a description say, as digits for files of so many bytes; `-` where nothing is, `o` where no description is. Then the one
# whose digest the store's sums list; which is believed; and whether a line says that none is.
COPIES = [
    ("111", None, 1, False), ("112", None, 1, False), ("12", None, None, True), ("1-", None, 1, False), ("--", None, None, False),
    ("o-", None, None, False), ("122", 1, 1, False), ("222", 1, None, False), ("1122", None, None, True),
]
DIFFER = "rebuild-store: note: its descriptions differ, and nothing says which is right\n"


def lay_copies(store, said, listed):
    """A store of ten disks, of which the first have these copies."""
    for number in range(10):
        (store / f"disk{number}").mkdir(parents=True)
        (store / f"disk{number}/note").write_bytes(b"\0")
    for number, letter in enumerate(said):
        if letter != "-":
            (store / f"disk{number}/note.file").write_text("odd" if letter == "o" else description(letter, "0" * 64))
    if listed is not None:
        of = digest(description(listed, "0" * 64).encode())
        (store / "SHA256SUMS").write_text("".join(f"{of}  disk{number}/note.file\n" for number in range(10)))


def test_most_copies_or_the_sums_are_believed(place):
    for number, (said, listed, believed, is_undecided) in enumerate(COPIES):
        store = place / str(number)
        lay_copies(store, said, listed)
        out, _, status = ran("list", *DISKS, "--json", store)
        rows = [json.loads(line) for line in out.splitlines()]
        check([(row["name"], row["bytes"]) for row in rows] == [("note", believed)] and status == 0, f"{said} {listed}: {out}")
        _, err, _ = ran("lost", *DISKS, store)
        check(err.count(DIFFER) == is_undecided and err.count("rebuild-store: note:") == is_undecided, f"{said} {listed}: {err}")


def test_another_code(place):
    """The code of a description that is believed is the stripe's."""
    store = place / "store"
    for stripe, code in (("note", "6-2-2"), ("other", "12-2-2")):
        lay(store, stripe, "12-2-2")
        for ending in ("file", "file.copy"):
            (store / f"{stripe}.{ending}").write_text(description(1, A, code))
    line = "rebuild-store: note: contradiction: its description says that it is of the code 6-2-2\n"
    says(["lost", "--code", "12-2-2", "--json", store], "", f"{line}2 stripes; 0 fragments lost, 0 of them not in the list\n", 1)


def test_digests_of_descriptions_alone(place):
    """Digests that name nothing but descriptions are the store's too."""
    store, sums = place / "store", place / "sums"
    encode(place, store, "a", b"a")
    sums.write_text(sum_lines({name: of for name, of in digests_of(store).items() if ".file" in name}))
    says(["scrub", "--sums", sums, store], "scrubbed 1 stripe: 0 damaged, 0 lost or contradictory, 0 stripes without any check\n", "", 0)


def test_descriptions_in_other_folders(place):
    """A description says nothing in the folder of another stripe: a folder of another name has the stripe of that name alone."""
    store, names = place / "store", ["--names", "{stripe}/{place}"]
    encode(place, store, "a", b"a", "--make-folders", *names)
    (store / "SHA256SUMS").unlink()
    (store / "a").rename(store / "b")
    says(["list", *names, store], "whole - 6-2-2 10/10 b\n", "1 file; not whole: 0\n", 0)


def test_description_of_a_lost_stripe(place):
    """What is named as a description and isn't one is said of a stripe that the sums name, though it has no fragment."""
    store = place / "store"
    lay(store, "a")
    (store / "SHA256SUMS").write_text(sum_lines({f"{stripe}.{it}": digest(b"\0") for stripe in ("a", "gone") for it in PLACES["6-2-2"]}))
    for name in ("gone.file", "gone.file.copy"):
        (store / name).write_bytes(b"odd")
    said = "".join(f"rebuild-store: {name}: isn't a line with a length, a digest and a code\n" for name in ("gone.file", "gone.file.copy"))
    said += "rebuild-store: gone: no fragment can be read\n2 stripes; 10 fragments lost, 10 of them not in the list\n"
    says(["lost", store], "order,stripe,target,length,survivors\n", said, 1)


def part_of(stripe):
    """Which of two parts a stripe is of."""
    return int.from_bytes(hashlib.sha256(stripe.encode()).digest()[:8], "big") % 2 + 1


def test_code_of_a_part(place):
    """The code of a part is that which the descriptions of all parts say."""
    store, (one, other) = place / "store", (next(it for it in "abcdefgh" if part_of(it) == part) for part in (1, 2))
    encode(place, store, one, b"a", "--code", "12-2-2")
    (store / "SHA256SUMS").unlink()
    # All that this stripe has left are places that (6,2,2) has too.
    lay(store, other, places=PLACES["6-2-2"])
    says(["list", "--part", "2/2", store], f"lost - 12-2-2 10/16 {other}\n", "1 file; not whole: 1\n", 0)
    says(["list", "--part", "1/2", store], f"whole 1 12-2-2 16/16 {one}\n", "1 file; not whole: 0\n", 0)


def test_code_that_sums_say(place):
    """Where no description is left and no fragment, the places that the sums name say the code."""
    for code, places in PLACES.items():
        store = place / code
        store.mkdir()
        (store / "SHA256SUMS").write_text(sum_lines({f"a.{it}": A for it in places}))
        says(["list", store], f"lost - {code} 0/{len(places)} a\n", "1 file; not whole: 1\n", 0)


# The files of two stores, each with its line and its object.
FILES = {
    "6-2-2": [
        ('whole 70000 6-2-2 10/10 a "b"',
         '{"name":"a \\"b\\"","bytes":70000,"code":"6-2-2","fragments":10,"lost":0,"state":"whole"}'),
        ("lost 0 6-2-2 4/10 d", '{"name":"d","bytes":0,"code":"6-2-2","fragments":4,"lost":6,"state":"lost"}'),
    ],
    "12-2-2": [
        ("degraded - 12-2-2 13/16 c", '{"name":"c","bytes":null,"code":"12-2-2","fragments":13,"lost":3,"state":"degraded"}'),
    ],
}


def test_files_are_listed(place):
    narrow, wide = place / "6-2-2", place / "12-2-2"
    encode(place, narrow, 'a "b"', bytes(70_000))
    encode(place, narrow, "d", b"")
    for lost in ("x1", "y0", "y1", "py", "p0", "p1"):
        (narrow / f"d.{lost}").unlink()
    lay(wide, "c", "12-2-2", [it for it in PLACES["12-2-2"] if it not in ("x0", "y3", "p1")])
    for code, files in FILES.items():
        for form, words in enumerate(([], ["--json"])):
            broken = sum(not line.startswith("whole") for line, _ in files)
            counted = f"{len(files)} file{'s' * (len(files) > 1)}; not whole: {broken}\n"
            says(["list", *words, place / code], "".join(f"{it[form]}\n" for it in files), counted, 0)


def test_files_are_counted(place):
    """The last lines of commands on files."""
    store = place / "store"
    encode(place, store, "a", b"a")
    out, err, _ = ran("list", store)
    check((out, err) == ("whole 1 6-2-2 10/10 a\n", "1 file; not whole: 0\n"), f"{out}{err}")
    for name in ("b", "c"):
        encode(place, store, name, name.encode())
    for path in store.glob("c.[xyp]?"):
        path.write_bytes(b"z")
    out, _, status = ran("verify", store)
    check((out, status) == ("verified 2 files; not as described: 1\n", 1), f"{out}{status}")
    out, _, status = ran("remove", store, "d", "e", "f")
    check((out, status) == ("removed 0 files; not removed: 3\n", 1), f"{out}{status}")


def main(program=None):
    global PROGRAM
    PROGRAM = pathlib.Path(program or pathlib.Path(__file__).resolve().parent.parent / PROGRAM).resolve()
    for name, test in list(globals().items()):
        if name.startswith("test_"):
            with tempfile.TemporaryDirectory() as scratch:
                test(pathlib.Path(scratch))
    for what in failed:
        print(f"store-records: {what}", file=sys.stderr)
    print(f"store-records: {passed} passed, {len(failed)} failed")
    sys.exit(1 if failed else 0)


if __name__ == "__main__":
    main(*sys.argv[1:2])
