"""Lines of histories, changed byte by byte, and which of them are entries.

A line of a history is an entry exactly if it is written as docs/FORMATS.md says: with the names of the bundle, numbers in decimal without
leading zeros and no wider than the program holds them, one blank before each word, and nothing after the last. `Bundle.is_entry` tells that by
patterns alone. `changed` gives each line with a byte left out, doubled or replaced by each of a few others, and some lines that are as good
as entries.
"""

import re

NUMBER = r"(?:0|[1-9][0-9]*)"
WORD = r"[A-Za-z_][A-Za-z0-9_]{0,23}"
RESERVED = set("pub struct trait fn self RRef RpcResult dyn mut const Box Vec String bool u8 u16 u32 u64 num".split())
CODES = "(?:gone|unwound|deep|order)"
CAUSES = "(?:divide|bounds|range|empty|full|device|heapfull|fuel|asked|io)"
OTHERS = [b" ", b"0", b"9", b"x", b"o", b"/", b"\x00", b"\x80", b"\xff"]
LONGEST = 4096


def narrow(name):
    """A number of 32 bits."""
    return f"(?P<n32_{name}>{NUMBER})"


class Bundle:
    """What the lines of a bundle's histories name."""

    def __init__(self, text):
        self.structs = re.findall(rf"struct ({WORD})", text)
        methods = {name: re.findall(rf"fn ({WORD})", body) for name, body in re.findall(rf"trait ({WORD}) {{(.*?)\n}}", text, re.DOTALL)}
        traits = dict(re.findall(rf"^domain ({WORD}): ({WORD})", text, re.MULTILINE))
        loads = dict(re.findall(rf"^load ({WORD}) = ({WORD})", text, re.MULTILINE))
        shadows = dict(re.findall(rf"^shadow ({WORD}) = ({WORD})", text, re.MULTILINE))
        domains = loads | {name: loads[load] for name, load in shadows.items()}
        self.methods = {name: methods[traits[domain]] for name, domain in domains.items()}
        self.forms = [re.compile(form) for form in self.written()]

    def written(self):
        """The patterns of entries."""
        targets, structs = "|".join(self.methods), "|".join(self.structs) or "(?!)"
        wide, thread, instance = rf"({NUMBER})", "c" + narrow("thread"), "i" + narrow("instance")
        value = rf" (?:{NUMBER}|o{NUMBER}|@(?:{targets}))"
        arg = rf" (?:{NUMBER}|&?o{NUMBER}|@(?:{targets}))"
        called = rf"(?P<target>{targets})"
        acts = [
            rf"call {narrow('call')} {called}/{instance} (?P<method>{WORD})(?P<args>(?:{arg}){{0,8}})",
            rf"refuse {narrow('call')} {CODES} {called} (?P<method>{WORD})(?P<args>(?:{arg}){{0,8}})",
            rf"ret {narrow('call')}(?P<args>(?:{value}){{0,4}})",
            rf"unwound {narrow('call')}",
            rf"reload (?:{targets}) {instance} {narrow('left')}",
            rf"again {narrow('call')} (?:{targets})/{instance}",
            rf"trap {instance} {CAUSES}",
            rf"kill {instance}",
            rf"new [ci]{narrow('owner')} o{wide} (?:{structs})(?P<args>(?: {NUMBER})*)",
            rf"drop o{wide}",
            rf"set o{wide} {narrow('place')}(?P<args>(?: {NUMBER})*)",
            rf"wput {instance} {narrow('place')} {wide}",
            rf"(?:take|put) {instance} (?P<slot>{WORD}) o{wide}",
            rf"devget o{wide} {wide}",
            rf"devput {wide} o{wide}",
            rf"(?:un)?hang o{wide} {narrow('place')} o{wide}",
            rf"show o{wide}(?P<args>(?:{value})*)",
            rf"skip {narrow('command')}",
            "done",
        ]
        return [rf"free o{wide}", *(f"{thread} {act}" for act in acts)]

    def is_entry(self, line):
        """Whether a line, without its line feed, is the text of an entry."""
        try:
            text = line.decode("ascii")
        except UnicodeDecodeError:
            return False
        return any(self.fits(found) for form in self.forms if (found := form.fullmatch(text)))

    def fits(self, found):
        """Whether the parts of a line are no wider than they may be, and its names stand for something."""
        parts = {name: part for name, part in found.groupdict().items() if part is not None}
        narrows = [int(part) for name, part in parts.items() if name.startswith("n32_")]
        wides = [int(number) for number in re.findall(NUMBER, found[0])]
        return (
            all(number < 2**32 for number in narrows)
            and all(number < 2**64 for number in wides)
            and parts.get("slot") not in RESERVED
            and ("method" not in parts or parts["method"] in self.methods[parts["target"]])
        )


def changed(line):
    """A line with each of its bytes left out, doubled and replaced; with a blank behind it; and with a leading zero in each number."""
    for at in range(len(line)):
        yield line[:at] + line[at + 1 :]
        yield line[:at] + line[at : at + 1] + line[at:]
        for other in OTHERS:
            yield line[:at] + other + line[at + 1 :]
    yield line + b" "
    yield b""
    for found in re.finditer(rb"[0-9]+", line):
        for number in (b"0" + found[0], str(2**32 - 1).encode(), str(2**32).encode(), str(2**64 - 1).encode(), str(2**64).encode()):
            yield line[: found.start()] + number + line[found.end() :]
    yield line + b" 1" * ((LONGEST - len(line)) // 2)
