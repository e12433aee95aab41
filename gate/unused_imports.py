#!/usr/bin/env python3
"""Names that a file under crates/ brings in and never says; --fix takes them out, then run `rt fmt`.

`rt tidy` takes out what no proof uses too, but only in a crate that proves, and it refuses nothing.

A search by words: a name counts as said wherever the file has a word of that spelling, a
comment, a quoted text and a member behind a point aside. So each that is named can go, and one
that shares its spelling with a parameter may stay.
"""

import pathlib
import re
import sys

from sources import clauses, imports, plain, says, words

CODE_WORD = re.compile(r"\w+")


def without(text, places):
    """The text with blanks at some places."""
    for start, end in places:
        text = text[:start] + " " * (end - start) + text[end:]
    return text


def said_by(file, text, found):
    """The words of an .antt file, or of an .rt file's contracts; and the words of its code."""
    body = without(text, [(line.start, line.end) for line in found])
    if file.suffix == ".antt":
        return words(body) | {line.path.split(".")[0] for line in found}, set()
    parts = clauses(body)
    contracts = " ".join(body[start:end] for start, end in parts)
    return words(contracts), set(CODE_WORD.findall(without(body, parts)))


def unused(file):
    """The imports that bring in a name which the file never says, each with these names as written."""
    text = plain(file)
    found = imports(text)
    proved, code = said_by(file, text, found)
    lines = []
    for line in found:
        said = proved if file.suffix == ".antt" or "ghost" in line.marks else code
        names = [pair for pair in line.names if "pub" not in line.marks and not says(said, pair[1])]
        if names:
            lines.append((line, names))
    return lines


def rest(text, line, names):
    """An import without some of its names, or nothing."""
    kept = [written for written, called in line.names if (written, called) not in names]
    whole = text[line.start : line.end]
    return whole[: whole.index("{")] + "{" + ", ".join(kept) + whole[whole.index("}") :] if kept else ""


def fix(file, lines):
    text = file.read_text()
    for line, names in reversed(lines):
        kept = rest(text, line, names)
        end = line.end if kept else line.end + 1
        text = text[: line.start] + kept + text[end:]
    file.write_text(text)


def sources(root):
    """The sources of the crates, without what `rt` keeps in their out/."""
    found = [file for part in ("src", "specs", "proofs") for file in root.glob(f"crates/*/{part}/**/*")]
    return sorted(file for file in found if file.suffix in (".antt", ".rt"))


def main(root, fixes=False):
    count = 0
    for file in sources(root):
        while lines := unused(file):
            text = file.read_text()
            for line, names in lines:
                count += len(names)
                number = text.count("\n", 0, line.start) + 1
                print(f"unused import: {file.relative_to(root)}:{number}: {', '.join(name for _, name in names)}")
            if not fixes:
                break
            fix(file, lines)
    if not count:
        print("every import is used")
    elif fixes:
        print(f"{count} names taken out: run `rt fmt`")
    return 1 if count and not fixes else 0


if __name__ == "__main__":
    sys.exit(main(pathlib.Path(__file__).resolve().parent.parent, sys.argv[1:] == ["--fix"]))
