"""Takes functions of a copy of a crate as proved, so that a proof of others over it goes by their contracts alone.

Each has a hole in the place of its proof, and a body that says nothing, so that what it calls isn't proved either."""

import pathlib
import re

# The files of a function's proof.
PROOF_FILES = ("Answers.antt", "Invariants.antt", "Proof.antt")
# A proof by a hole. Functions that call each other in a circle have one statement, in no module of its own.
HOLE = """use Rattle.{crate}.proofs.{stated} as stated

pub {name}_spec : {{M : Type 1}} → stated.statement M
{name}_spec = ?
"""
BODY = "    unreachable!()"
# What begins an item that has functions; one that has a type's own, by this name; and a function, perhaps one of these.
BLOCK = re.compile(r"(?:pub )?(?:unsafe )?(?:impl|trait)\b")
OWN = re.compile(r"impl(?:<.*>)? (\w+)(?:<.*>)?(?: \{)?$")
FUNCTION = re.compile(r"( {4})?(?:pub(?:\(\w+\))? )?fn (\w+)")
# What gives a circle of calls its name, and is refused where there is none.
CIRCLE = "#[cycle("


def is_proof_of(path, function):
    """Whether the folder at a path below proofs is that of a function, or of the circle of calls that it is in."""
    *module, name = function.split("::")[1:]
    *parents, last = path.parts or ("",)
    return parents == module and (last == name or last.startswith("+") and name in last.split("+"))


def body_of(lines, number, pad):
    """The numbers of the lines that open and close the body of the function that begins at a line, with this before it; None if it has no
    body, or one of no lines."""
    for close in range(number, len(lines)):
        if lines[close] in (f"{pad}}}", f"{pad}{{}}") or close == number and lines[close].endswith((";", "}")):
            break
    # After clauses the brace has a line of its own.
    opens = [it for it in range(number, close) if lines[it] == f"{pad}{{"]
    opens += [it for it in range(number, close) if lines[it].endswith(" {")]
    return (opens[0], close) if opens and lines[close] == f"{pad}}}" else None


def bodies(lines):
    """The functions in the lines of a file that is laid out, but for those of traits and of circles that have a name: of each the type that
    it is of, or none, its name, and the numbers of the lines that open and close its body."""
    owner = ""
    for number, line in enumerate(lines):
        if BLOCK.match(line):
            found = OWN.match(line)
            owner = found[1] if found else None
        elif line == "}":
            owner = ""
        found = FUNCTION.match(line)
        if found and owner is not None and bool(found[1]) == bool(owner) and CIRCLE not in lines[number - 1]:
            if body := body_of(lines, number, found[1] or ""):
                yield owner, found[2], *body


def write_hole(crate, folder, path):
    """Puts a hole in the place of the proof in the folder at a path below proofs."""
    for name in PROOF_FILES:
        (folder / name).unlink(missing_ok=True)
    folder.mkdir(parents=True, exist_ok=True)
    stated = ".".join(path.parts if path.name.startswith("+") else (*path.parts, "Statement"))
    (folder / "Proof.antt").write_text(HOLE.format(crate=crate, stated=stated, name=path.name))


def proof_of(owner, name, module, paths):
    """The path below proofs for a function of a module, or of a type of which some proof is at one of these paths; None if none is."""
    if not owner:
        return pathlib.PurePath(*module, name)
    found = {it.parent / name for it in paths if it.parent.name == owner and name in it.name.split("+")}
    return found.pop() if len(found) == 1 else None


def take_others(crate, place, functions):
    """Takes each function as proved in a copy of a crate but for these: each of a module, and of the others those whose proof has files."""
    proofs = place / "proofs"
    paths = {it.parent.relative_to(proofs) for it in proofs.rglob("*.antt") if it.name in PROOF_FILES}
    for path in paths:
        if not any(is_proof_of(path, it) for it in functions):
            write_hole(crate, proofs / path, path)
    for file in (place / "src").rglob("*.rt"):
        lines = file.read_text(encoding="utf-8").split("\n")
        module = [it for it in file.relative_to(place / "src").with_suffix("").parts if it != "lib"]
        for owner, name, opens, close in reversed(list(bodies(lines))):
            path = proof_of(owner, name, module, paths)
            if path and not any(is_proof_of(path, it) for it in functions):
                lines[opens + 1 : close] = [f"{'    ' if owner else ''}{BODY}"]
                # It calls nothing, and so is in no circle.
                for other in paths:
                    if other.parent == path.parent and name in other.name.split("+")[1:]:
                        (proofs / other / "Proof.antt").unlink(missing_ok=True)
                write_hole(crate, proofs / path, path)
        file.write_text("\n".join(lines), encoding="utf-8")
