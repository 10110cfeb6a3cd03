"""Reads the tables of tests/rules: bundles that differ from one base in a few lines, each with the answer that `check` has to give.

A table is tests/rules/NAME.cases. Before its first heading it says what it is about. Its blocks are a base and cases:

    == base
    [domains]
    domain D: T {
        fn f {
            @body
            @end: ret
        }
    }

    == refused by rule 31: the object in r1 would be lost
    @body
    new r1, P
    ! copy r1, r0

    == accepted: a number may be written over
    @body each
    const r0, 1
    copy r0, r0

In the base `@NAME` is a place for lines, and `@NAME: LINE` a place that has this line where a case doesn't name it. A case names places,
and gives the lines of each. `! ` stands before the line that is refused; a `!` alone is no line, and stands where the refused number is that
of the line which would come there. Behind `@NAME each` every line is a case of its own: the refused line, unless another one is marked.

In a case `*N LINE` is the line N times, with its number in place of `#`; a `\\n` in it ends a line. `\\t`, `\\r`, `\\xHH` are bytes, `\\{N TEXT}` is the
text N times over, and a line that ends with `\\;` has no line feed.
"""

import dataclasses
import re

HEADING = re.compile(r"(?:accepted|refused by rule (\d+)): (\S.*)")
PLACE = re.compile(r"\s*@(\w+)(?:: (.*))?")
SECTION = re.compile(r"@(\w+)( each)?")
REPEATED = re.compile(r"\*(\d+) (.*)")
TIMES = re.compile(r"\\\{(\d+) (.*?)\}")
BYTE = re.compile(r"\\x([0-9a-f]{2})")


@dataclasses.dataclass
class Case:
    """A case: its title, the rule that refuses it, None where it is accepted, and the lines that it gives to places."""

    title: str
    rule: int
    given: dict


def trimmed(lines):
    """Lines without the empty ones at their end."""
    count = len(lines)
    while count and not lines[count - 1]:
        count -= 1
    return lines[:count]


def sections(lines):
    """What a case gives: for each place its lines, and the place whose lines are a case each, None if there is none."""
    given, each, name = {}, None, None
    for line in lines:
        found = SECTION.fullmatch(line)
        if found:
            name = found[1]
            given[name] = []
            each = name if found[2] else each
        elif line or name:
            given.setdefault(name, []).append(line)
    return {name: trimmed(lines) for name, lines in given.items()}, each


def as_bytes(text):
    """The bytes that a text of a case stands for."""
    text = TIMES.sub(lambda found: found[2] * int(found[1]), text).replace("\\t", "\t").replace("\\r", "\r").replace("\\;\n", "")
    return BYTE.sub(lambda found: chr(int(found[1], 16)), text).encode("latin-1")


def repeated(code):
    """The lines that a line of a case stands for."""
    found = REPEATED.fullmatch(code)
    if not found:
        return [code]
    return [line for n in range(int(found[1])) for line in found[2].replace("#", str(n + 1)).split("\\n")]


def bundle(base, given):
    """The bundle of a case, and the numbers of its marked lines."""
    lines, marked = [], []
    for line in base:
        place = PLACE.fullmatch(line)
        if not place:
            lines.append(line)
            continue
        for code in given.get(place[1], [place[2]] if place[2] else []):
            if code.startswith("!"):
                marked.append(len(lines) + 1)
            if code != "!":
                lines += repeated(code.removeprefix("! "))
    return as_bytes("".join(line + "\n" for line in lines)), marked


class Table:
    """A table, and what is wrong with it."""

    def __init__(self, path):
        self.name, self.base, self.cases, self.faults = path.stem, [], [], []
        _, *blocks = re.split(r"^== ", path.read_text(), flags=re.M)
        for block in blocks:
            heading, *lines = block.split("\n")
            found = HEADING.fullmatch(heading)
            if heading == "base" and not self.base:
                self.base = trimmed(lines)
            elif found:
                self.cases += self.cases_of(found[2], found[1] and int(found[1]), *sections(lines))
            else:
                self.faults.append(f"no heading: {heading}")
        self.faults += self.faults_of_cases()

    def cases_of(self, title, rule, given, each):
        """The cases of one block."""
        if not each:
            return [Case(title, rule, given)]
        is_marked = rule is None or any(line.startswith("!") for lines in given.values() for line in lines)
        mark = "" if is_marked else "! "
        return [Case(f"{title}: {line.strip()}", rule, given | {each: [mark + line]}) for line in given[each]]

    def faults_of_cases(self):
        """What is wrong with the cases: there are none; a place is unknown, or named by none; a refused case has not one marked line."""
        places = {found[1] for line in self.base if (found := PLACE.fullmatch(line))}
        named = {name for case in self.cases for name in case.given}
        if not self.cases:
            yield "there is no case"
        yield from (f"unknown place: {name}" for name in sorted(map(str, named - places)))
        yield from (f"no case names the place {name}" for name in sorted(places - named))
        for case in self.cases:
            wanted = 0 if case.rule is None else 1
            if len(bundle(self.base, case.given)[1]) != wanted:
                yield f"{case.title}: not {wanted} marked lines"

    def answers(self):
        """Each case's name, its bundle, the answer that is wanted, and the status."""
        for case in self.cases:
            name = f"tests/rules/{self.name}.cases: {case.title}"
            text, marked = bundle(self.base, case.given)
            if case.rule is None:
                yield name, text, b"accepted\n", 0
            else:
                yield name, text, f"refused line {marked[0] if marked else 0} rule {case.rule}\n".encode(), 1
