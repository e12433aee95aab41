#!/usr/bin/env python3
"""Does docs/READING.md keep what it promises to whoever reads the definitions alone?

Its table names the files of specs/ in an order in which each uses only those above it, and the
paragraph behind it those that state theorems: together all of specs/ outside specs/code/. And no
contract of a public function outside a module `inner` cites anything but these.
"""

import pathlib
import re
import sys

from sources import clause_end, clauses, imports, plain, says, words

HEADING = "## The files, in the order to read them"
THEOREMS = "The theorems are stated beside them"
# A file; a name that is said to stand in one is none.
NAMED = re.compile(r"`([\w/]+)`(?! in `)")
STATED = re.compile(r"`(\w+)` in `([\w/]+)`")
# A module of a crate's specs/ or proofs/; the library's crates have no files here.
MODULE = re.compile(r"Rattle\.(\w+)\.(specs|proofs)\.([\w.-]+)")
# Of `extern "C"` the quoted text is blanks by then.
FUNCTION = re.compile(r"^ *(pub(?:\(crate\))? )?(?:extern +)?fn (\w+)", re.MULTILINE)
# What an impl of From or TryFrom says that it gives: a caller elsewhere has no other contract.
GIVES = re.compile(r"^ *ghost (\w+_gives) = (?={)", re.MULTILINE)
# specs/Lib.antt and specs/code.antt only list modules.
LISTS = ("Lib", "code")
# What Rattle makes of src/: enums and structs, and the contracts of functions.
MADE = ("declared", "contracts")


def in_order(text):
    """The files that a text names, as crate/specs/File: a name without a path is beside the one before it."""
    files = []
    for name in NAMED.findall(text):
        folder = "" if "/" in name or not files else files[-1].rpartition("/")[0] + "/"
        files.append(folder + name)
    return files


def read_page(page):
    """The files of the table, in order, and the paragraph behind it."""
    lines = page.partition(HEADING)[2].partition("\n## ")[0].splitlines()
    cells = [line.split("|")[1] for line in lines if line.startswith("| `")]
    table = [file for cell in cells for file in in_order(cell)]
    return table, "\n".join(line for line in lines if line.startswith(THEOREMS))


def path_of(root, file):
    crate, _, name = file.partition("/")
    return root / "crates" / crate / f"{name}.antt"


def cited(root, text):
    """The files of specs/ whose modules a text names; enums and structs are declared in src/."""
    files = []
    for crate, folder, name in MODULE.findall(text):
        parts = [part for part in name.split(".") if part]
        if not (root / "crates" / crate).is_dir():
            continue
        if folder == "proofs":
            files.append(f"{crate}/proofs/{'/'.join(parts)}")
        elif parts[0] not in MADE:
            files.append(file_of(root, f"{crate}/specs", parts))
    return files


def file_of(root, folder, parts):
    """The file that a path of modules begins with: what follows is a name in it."""
    for count in range(len(parts), 1, -1):
        file = f"{folder}/{'/'.join(parts[:count])}"
        if path_of(root, file).exists():
            return file
    return f"{folder}/{parts[0]}"


def all_files(root):
    """Every file of specs/ outside specs/code/."""
    found = []
    for file in sorted(root.glob("crates/*/specs/**/*.antt")):
        crate, *parts = file.relative_to(root / "crates").with_suffix("").parts
        if "code" not in parts[1:-1] and parts[-1] not in LISTS:
            found.append("/".join([crate, *parts]))
    return found


def page_faults(root, table, theorems, there):
    """Where the files that the page names aren't those of specs/, or lack a theorem."""
    named = table + in_order(theorems)
    lines = [f"{file}: docs/READING.md does not name it" for file in there if file not in named]
    lines += [f"{file}: docs/READING.md names it, and there is no such file" for file in named if file not in there]
    lines += [f"{file}: it stands twice in the table" for file in set(table) if table.count(file) > 1]
    for name, file in STATED.findall(theorems):
        if file in there and name not in words(plain(path_of(root, file))):
            lines.append(f"{file}: it has no {name}")
    return lines


def order_faults(root, table, there):
    """Where a file uses one that isn't above it; a theorem's file may use all that are to be read."""
    lines = []
    for file in there:
        above = table[: table.index(file)] if file in table else there
        for other in dict.fromkeys(cited(root, plain(path_of(root, file)))):
            if other != file and other not in above:
                lines.append(f"{file}: it uses {other}, which is not above it")
    return lines


def contracts(text):
    """The public functions of a source, and what its conversions give, each with the text of its contract."""
    given = {found.end(): found[1] for found in GIVES.finditer(text)}
    for at, name in given.items():
        yield name, text[at : clause_end(text, at)]
    found = list(FUNCTION.finditer(text))
    ends = [other.start() for other in found[1:]] + [len(text)]
    parts = [part for part in clauses(text) if part[0] not in given]
    for function, end in zip(found, ends):
        if function[1] == "pub ":
            yield function[2], " ".join(text[at:to] for at, to in parts if function.start() < at < end)


def contract_faults(root, file, there):
    """Where a public contract of a source cites what is not among the files to read."""
    text = plain(file)
    ghosts = [line for line in imports(text) if "ghost" in line.marks]
    lines = []
    for function, contract in contracts(text):
        said = words(contract)
        paths = [line.path for line in ghosts if any(says(said, name) for _, name in line.names)]
        for other in dict.fromkeys(cited(root, " ".join([contract, *paths]))):
            if other not in there:
                lines.append(f"{file.relative_to(root)}: the contract of {function} cites {other}")
    return lines


def public_sources(root):
    """The sources outside modules `inner`."""
    found = sorted(root.glob("crates/*/src/**/*.rt"))
    return [file for file in found if "inner" not in file.relative_to(root).with_suffix("").parts]


def main(root):
    table, theorems = read_page((root / "docs/READING.md").read_text())
    there = all_files(root)
    lines = page_faults(root, table, theorems, there) + order_faults(root, table, there)
    for file in public_sources(root):
        lines += contract_faults(root, file, there)
    for line in lines:
        print(f"reading order: {line}")
    if not lines:
        print(f"{len(there)} files to read, each below those that it uses; no public contract cites another")
    return 1 if lines or not there else 0


if __name__ == "__main__":
    sys.exit(main(pathlib.Path(__file__).resolve().parent.parent))
