"""Plants mistakes in the sources of crates, each behind a switch: `planted::on(N)` is true while the mistake N is made. A mistake is one
that a programmer could make in one line: a condition the other way round, an operand left out, a bound one off, a call or an assignment
left out, a failure passed over, a loop without its turns, without its first one or with that alone, another truth, variant or status. Some
mean the same as before; no test can tell those."""

import dataclasses
import re

import taken

# What is left alone: what isn't run, and what is no code.
NO_CODE = re.compile(r"\b(?:const|ghost|static)\b")
FUNCTION = re.compile(r"( *)(?:pub(?:\(\w+\))? )?(?:unsafe )?fn (\w+)")
ENUM = re.compile(r"^(?:pub(?:\(\w+\))? )?enum (\w+)[^{]*\{(.*?)^\}", re.S | re.M)
OTHER_BOUNDS = {"<": "<=", "<=": "<", ">": ">=", ">=": ">"}
COMPARED = re.compile(r"(\S.*?) (<=|>=|<|>) (\S.*)")
# What an expression may stand after and before, in a line of its own, within calls that say that it went well.
BEFORE, AFTER = r"((?:.*=> |return |(?:let [\w: ]+|[\w.]+) = )?(?:Ok\(|Some\(|Err\()*)", r"(\)*[,;]?)"
TRUTH = re.compile(BEFORE + "(true|false)" + AFTER)
VARIANT = re.compile(BEFORE + r"([A-Z]\w+)::([A-Z]\w+)" + AFTER)
STATUS = re.compile(BEFORE + "(DONE|LEFT|DEVICE|NO_MEMORY|USAGE)" + AFTER)
TEST = re.compile(BEFORE + r"(!?[\w.&]+\.\w*(?:any|all|is_\w+|contains\w*|starts_with|ends_with|has_\w+)\(.*?\))" + AFTER)
JOINED = re.compile(BEFORE + r"(.+ (?:&&|\|\||==|!=|<=|>=|<|>) .+?)" + AFTER)
CONDITION = re.compile(r"(\} else )?if (.*) \{")
GUARD = re.compile(r'([^"]+) if (.+) => (.*)')
OPERAND = re.compile(r"(&&|\|\|) (.*?)(\)?;|,)?")
CALL = re.compile(r"((?:[\w.*]+(?:::\w+)*|[\w.]+\.\w+)\(.*\))(\?)?;")
ASSIGNED = re.compile(r"(\*?[\w.]+(?:\[\w+\])?) (?:\+=|-=|=|\|=|&=) .+;")
LOOP = re.compile(r"( *)(?:'\w+: )?for .* in .* \{")
COUNTED = re.compile(r"(for \w+ in 0\.\.)(\w[\w.()]*)( \{)")
MACRO = re.compile(r"(?:write|writeln|print|println|format|assert\w*|prove)!")


@dataclasses.dataclass(frozen=True)
class Mistake:
    """A mistake: its number, the file below crates and the line of that, the function, of what kind it is, and in what text."""

    number: int
    file: str
    line: int
    function: str
    kind: str
    text: str


def is_closed(text):
    """Whether each bracket of a text has its other one there."""
    text = re.sub(r'"(\\.|[^"\\])*"|b?\'(\\.|[^\'\\])\'', " ", text)
    return all(text.count(opens) == text.count(closes) for opens, closes in ("()", "[]", "{}"))


def operands(text, joint):
    """The parts of a text between the joints that are in no brackets."""
    parts, depth, start, at = [], 0, 0, 0
    while at < len(text):
        depth += (text[at] in "([{") - (text[at] in ")]}")
        if depth == 0 and text.startswith(f" {joint} ", at):
            parts.append(text[start:at])
            at = start = at + len(joint) + 2
        else:
            at += 1
    return [*parts, text[start:]]


class Planting:
    """Plants in one crate after the other. Mistakes whose keys are in `left_out` aren't planted, as those that the compiler refuses, nor
    are those of other kinds than `kinds`, if there are any."""

    def __init__(self, left_out=(), kinds=()):
        self.left_out, self.kinds, self.mistakes, self.keys, self.variants, self.place = set(left_out), kinds, [], {}, {}, None

    def switch(self, kind, text):
        """The switch of a new mistake here, or None where it's left out."""
        of_line = f"{self.place[0]}:{self.place[1]}:{kind}:{text}"
        key = f"{of_line}:{sum(it.startswith(of_line) for it in self.keys)}"
        self.keys[key] = None
        if key in self.left_out or self.kinds and kind not in self.kinds:
            return None
        self.keys[key] = len(self.mistakes) + 1
        self.mistakes.append(Mistake(self.keys[key], *self.place, kind, text))
        return f"planted::on({self.keys[key]})"

    def condition(self, text):
        """A condition in which each operand is left out in turn, or the bound moved of what it compares."""
        if not is_closed(text) or re.search(r"\blet\b|\|\w+\||\|\(", text):
            return text
        for joint in ("||", "&&"):
            parts = operands(text, joint)
            if len(parts) > 1:
                return f" {joint} ".join(self.operand(joint, it) for it in parts)
        found = COMPARED.fullmatch(text)
        if found and is_closed(found[1]) and is_closed(found[3]) and "::<" not in text:
            if on := self.switch("bound moved", text):
                return f"(if {on} {{ {found[1]} {OTHER_BOUNDS[found[2]]} {found[3]} }} else {{ {text} }})"
        return text

    def operand(self, joint, text):
        """An operand of && or ||, which is left out."""
        inner, on = self.condition(text), self.switch("operand left out", text)
        return inner if on is None else f"({inner} || {on})" if joint == "&&" else f"({inner} && !{on})"

    def turned(self, text):
        """A condition, and the other way round."""
        inner, on = self.condition(text), self.switch("the other way round", text)
        return f"({on} != ({inner}))" if on else inner

    def line(self, line):
        """A line of a function's body with what can be planted there."""
        text = line.strip()
        if text.startswith(("//", "#", '"')) or NO_CODE.search(text) or MACRO.match(text):
            return line
        pad = line[: len(line) - len(line.lstrip())]
        for planted in (self.of_condition, self.of_value, self.of_statement):
            changed = planted(text)
            if changed != text:
                return pad + changed
        return line

    def of_condition(self, text):
        """The line of an `if`, of an arm's guard, or of an operand."""
        if found := CONDITION.fullmatch(text):
            return f"{found[1] or ''}if {self.turned(found[2])} {{" if "let " not in found[2] else text
        if (found := GUARD.fullmatch(text)) and is_closed(found[1]) and is_closed(found[2]) and "let " not in found[2]:
            return f"{found[1]} if {self.turned(found[2])} => {found[3]}"
        if (found := OPERAND.fullmatch(text)) and is_closed(found[2]):
            return f"{found[1]} {self.operand(found[1], found[2])}{found[3] or ''}"
        return text

    def of_value(self, text):
        """The line of a value: a truth, a variant, a status or a test."""
        if found := TRUTH.fullmatch(text):
            on = self.switch("another truth", text)
            return f"{found[1]}({found[2]} != {on}){found[3]}" if on else text
        if (found := VARIANT.fullmatch(text)) and found[3] in self.variants.get(found[2], ()):
            names = self.variants[found[2]]
            other = names[(names.index(found[3]) + 1) % len(names)]
            on = self.switch("another variant", text)
            return f"{found[1]}(if {on} {{ {found[2]}::{other} }} else {{ {found[2]}::{found[3]} }}){found[4]}" if on else text
        if (found := STATUS.fullmatch(text)) and "const" not in text:
            on = self.switch("another status", text)
            return f"{found[1]}(if {on} {{ 1u8 + {found[2]} }} else {{ {found[2]} }}){found[3]}" if on else text
        for form in (JOINED, TEST):
            found = form.fullmatch(text)
            if found and is_closed(found[2]) and not re.search(r"[{}]|=>|::<|->|\b(?:if|match|let|for)\b|\|\w*\||\|\(|<\w+>", found[2]):
                return f"{found[1]}{self.turned(found[2])}{found[3]}"
        return text

    def of_statement(self, text):
        """The line of a call, of an assignment, or of a counted loop."""
        if (found := CALL.fullmatch(text)) and is_closed(found[1]) and not text.startswith(("return", "let ")):
            over = self.switch("failure passed over", text) if found[2] else None
            inner = f"if {over} {{ let _ = {found[1]}; }} else {{ {text} }}" if over else text
            on = self.switch("call left out", text)
            return f"if !{on} {{ {inner} }}" if on else inner
        if (found := ASSIGNED.fullmatch(text)) and is_closed(text) and not text.startswith("let "):
            on = self.switch("assignment left out", text)
            return f"if !{on} {{ {text} }}" if on else text
        if found := COUNTED.fullmatch(text):
            on = self.switch("one turn fewer", text)
            return f"{found[1]}({found[2]} - {on} as usize){found[3]}" if on else text
        return text

    def loop(self, line):
        """What is planted before and after the line that opens a loop: it has no turn, ends after its first, or begins with the second."""
        found, text, before, after = LOOP.fullmatch(line), line.strip(), [], []
        if not found:
            return before, after
        pad, later = found[1], f"later_{self.place[1]}"
        if on := self.switch("loop left out", text):
            after.append(f"{pad}    if {on} {{ break; }}")
        if only := self.switch("only the first turn", text):
            after.append(f"{pad}    if {later} && {only} {{ break; }}")
        without = self.switch("without the first turn", text)
        if only or without:
            before.append(f"{pad}let mut {later} = false;")
            passed_over = f" if {without} {{ continue; }}" if without else ""
            after.append(f"{pad}    if !{later} {{ {later} = true;{passed_over} }}")
        return before, after

    def learn(self, files):
        """Learns the variants without fields of the enums in files."""
        for file in files:
            for name, body in ENUM.findall(file.read_text(encoding="utf-8")):
                names = re.findall(r"^    (\w+),", body, re.M)
                if len(names) > 1:
                    self.variants[name] = names

    def plant(self, file, path):
        """Plants in a file, which has this path below crates."""
        lines, planted = file.read_text(encoding="utf-8").split("\n"), {}
        for number, line in enumerate(lines):
            found = FUNCTION.match(line)
            body = taken.body_of(lines, number, found[1]) if found else None
            if not body or any(it.endswith(";") for it in lines[number : body[0]]) or "#[test]" in lines[max(0, number - 2) : number]:
                continue
            for at in range(body[0] + 1, body[1]):
                self.place = path, at + 1, found[2]
                line, (before, after) = self.line(lines[at]), self.loop(lines[at])
                planted[at] = [*before, line, *after]
        text = "\n".join(it for at, line in enumerate(lines) for it in planted.get(at, [line]))
        file.write_text(text, encoding="utf-8")
