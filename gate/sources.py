"""What .antt and .rt files bring in and say, by words: enough to hold imports against their uses."""

import re
from typing import NamedTuple

# `use M.{a, b as c}` and `use M as A` of an .antt file, `ghost use ..;` and `use m::f;` of an .rt file.
USE = re.compile(
    r"^(?P<marks>(?:ghost |pub |unfoldable )*)use (?P<path>[^\s{;]+)"
    r"(?:\{(?P<group>[^}]*)\})?(?: as (?P<alias>[^\s;]+))?;?$",
    re.MULTILINE,
)
QUOTED = re.compile(r""""(?:[^"\\\n]|\\.)*"|b'(?:[^'\\]|\\.)'""")
COMMENT = {".antt": re.compile(r"--.*"), ".rt": re.compile(r"//.*")}
# A name may have any character but these; what stands behind a point is a member of what is before it.
WORD = re.compile(r"(?<!\.)(?:\[\]|[^\s(){}\[\],;.⌜⌝⟦⟧]+)")
# A clause, or the ghost member of an impl, which says what its methods give.
CLAUSE = re.compile(r"^ *(?:(?:requires|ensures)\*?(?: \w+)?|ghost \w+ =) (?={)", re.MULTILINE)


class Import(NamedTuple):
    start: int
    end: int
    marks: str
    path: str
    # Each name of a group as it is written and as the file calls it; of a line without a group, its one name.
    names: list


def blanked(pattern, text):
    return pattern.sub(lambda found: re.sub(r"[^\n]", " ", found.group()), text)


def plain(file):
    """The text of a file with blanks for what is quoted and for comments."""
    return blanked(COMMENT[file.suffix], blanked(QUOTED, file.read_text()))


def called(written):
    """What the file calls a name of a group: `c` of `b as c`, the end of a path."""
    return written.split(" as ")[-1].split(".")[-1]


def imports(text):
    found = []
    for use in USE.finditer(text):
        path, group, alias = use["path"], use["group"], use["alias"]
        if group is None:
            names = [("", alias or re.split(r"\.|::", path)[-1])]
        else:
            written = [" ".join(name.split()) for name in group.split(",") if name.strip()]
            names = [(name, called(name)) for name in written]
        found.append(Import(use.start(), use.end(), use["marks"], path.rstrip("."), names))
    return found


def words(text):
    return set(WORD.findall(text))


def says(said, name):
    """Is a name among the words? An operator `◌+◌` is `+` between two others, and may have one beside it: `◌+`."""
    if name in said:
        return True
    parts = [part for part in name.split("◌") if part]
    return "◌" in name and all(said & {part, "◌" + part, part + "◌"} for part in parts)


def clause_end(text, at):
    """The place behind the brace that closes the one at a place."""
    depth = 0
    for place in range(at, len(text)):
        depth += {"{": 1, "}": -1}.get(text[place], 0)
        if depth == 0:
            return place + 1
    return len(text)


def clauses(text):
    """The places of the contracts' clauses in a source."""
    return [(found.end(), clause_end(text, found.end())) for found in CLAUSE.finditer(text)]
