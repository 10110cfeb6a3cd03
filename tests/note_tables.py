"""Reads the tables of tests/notes: bundles that `check` refuses, each with the whole text that stands on standard error then.

A table is tests/notes/NAME.notes. Before its first heading it says what it is about. Its cases are

    == rule 20: no result
    [idl]
    pub trait T {
        fn f(&self, a: u64);
    }
    ---
    3:24: rule 20: ..

Behind `== file PATH` no bundle stands: it is the file of this path. In a bundle `\\t` and `\\r` are bytes, and `\\{N TEXT}` is the text N times over.
"""

import re

import rule_tables

PLACE = re.compile(r"(\d+):\d+: rule (\d+): ")


class Note:
    """A case: its title, its bundle, and the text that is wanted on standard error."""

    def __init__(self, top, lines):
        self.title = lines[0].removeprefix("== ")
        cut = lines.index("---")
        if self.title.startswith("file "):
            self.bundle = (top / self.title.removeprefix("file ")).read_bytes()
        else:
            self.bundle = b"".join(as_bytes(line + "\n") for line in lines[1:cut])
        self.wanted = "".join(line + "\n" for line in lines[cut + 1 :]).encode()

    def answer(self):
        """What standard output says, by the first line of the note."""
        line, rule = PLACE.match(self.wanted.decode()).groups()
        return f"refused line {line} rule {rule}\n".encode()


def as_bytes(line):
    """The bytes of a line of a bundle, which may have letters that aren't ASCII."""
    return rule_tables.as_bytes(line) if line.isascii() else line.encode()


def trimmed(lines):
    """Lines without the empty ones at their end."""
    while lines and not lines[-1]:
        lines = lines[:-1]
    return lines


def notes(top, path):
    """The cases of a table."""
    lines = path.read_text().split("\n")
    heads = [place for place, line in enumerate(lines) if line.startswith("== ")]
    for start, stop in zip(heads, heads[1:] + [len(lines)]):
        yield Note(top, trimmed(lines[start:stop]))
