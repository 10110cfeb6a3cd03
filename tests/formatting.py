"""What is tested of the formatter, and of docs/TUTORIAL.md.

Each bundle that `check` reads in tests/run is formatted too. Where rule 1 or 2 refuses it, the formatter answers so. Else `check` answers to
what was written as to the bundle, and formatting it again changes no byte. A long bundle of short lines may become too long: a line gets eight
blanks more at most.
"""

import re
import subprocess

SECONDS = 120
LONGEST = 1048576
# What the tutorial shows beside the lines of its bundles: commands, refusals and histories.
PRINTED = re.compile(r"\$ |accepted$|refused line|c\d+ |free o")


def answer(program, words, data):
    """What a program writes, and its status."""
    done = subprocess.run([program, *words], input=data, stdout=subprocess.PIPE, stderr=subprocess.PIPE, timeout=SECONDS)
    return done.stdout, done.returncode


def unformatted(program, formatter, data, wanted, status):
    """What is wrong with a bundle as it is formatted, an empty list if nothing is. `wanted` and `status` are what `check` answers to it."""
    text, ended = answer(formatter, [], data)
    if status == 7 or (status == 1 and wanted.endswith((b" rule 1\n", b" rule 2\n"))):
        return [] if (text, ended) == (wanted, status) else [f"    formatted: status {ended}, {text[:80]}"]
    if ended == 8 and len(data) + 8 * data.count(b"\n") > LONGEST:
        return []
    if ended:
        return [f"    formatted: status {ended}"]
    if answer(program, ["check"], text) != (wanted, status):
        return ["    `check` answers otherwise to what was formatted"]
    return [] if answer(formatter, [], text) == (text, 0) else ["    formatted twice, it is another text"]


def unshown(top):
    """The lines that docs/TUTORIAL.md shows of a step and that stand in no file of the step."""
    text = (top / "docs" / "TUTORIAL.md").read_text()
    for number, step in re.findall(r"^## (\d)\. (.*?)(?=^## )", text, flags=re.MULTILINE | re.DOTALL):
        files = [path.read_text() for path in (top / "examples" / "tutorial").glob(f"{number}-*")]
        shown = {line.strip() for text in files for line in text.split("\n")}
        for line in re.findall(r"^    +(.*)", step, flags=re.MULTILINE):
            if line not in shown and not PRINTED.match(line):
                yield f"step {number}: {line}"
