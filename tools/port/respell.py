#!/usr/bin/env python3
"""Spells the repository's own definitions and lemmas as today's Rattle does: words in snake case.

usage: tools/port/respell.py [--check]     at the top of the repository, once, after the kit's port.py

A name that specs/ or a lemma file of proofs/ declares turns where it has a capital inside or a dash:
`nodeCount` is `node_count`, `distinct-start` is `distinct_start`. Types and modules keep their camel
case, and what src/ declares keeps its name. The kit's snake.py turns the files by the table that is
made here. Where two names would fall together, the one of a lemma gets `_lem`. --check only counts.
"""

import collections
import pathlib
import re
import subprocess
import sys
import tempfile

SNAKE = "port/notes/2026-11-18-names-are-in-snake-case/snake.py"
NAME = r'[^\s(){}.;,@"«»]+'
DECLARED = re.compile(rf"(?m)^ *((?:(?:abbrev|unfoldable|pub|data|record|ruleset) +)*)({NAME})(?: +[({{][^:=\n]*[)}}])* +:(?= |$)")
COMMENT = {".antt": re.compile(r"--[^\n]*"), ".rt": re.compile(r"//[^\n]*")}
# A word that stands behind no dot and before none: a name or a variable, and no part of a path.
ALONE = re.compile(rf"(?<![^\s(){{}};,@«»]){NAME}(?!\.)")
# What would be spelled as a tactic.
OTHERWISE = {
    "first_of": "first_word_of",
}


def plain(file):
    return COMMENT[file.suffix].sub("", file.read_text())


def of_a_function(file):
    """A printed proof of one function: its answers have the names that Rattle gives them."""
    return file.name == "Proof.antt"


def snake(name):
    name = re.sub(r"(?<=[a-z0-9])(?=[A-Z])|(?<=[A-Z])(?=[A-Z][a-z])", "_", name)
    return name.lower().replace("get_d", "get_or").replace("-", "_")


def declared(files):
    found = collections.defaultdict(set)
    for file, text in files.items():
        if file.suffix == ".antt" and not of_a_function(file):
            for marks, name in DECLARED.findall(text):
                found[name].add("lemma" if not re.search("abbrev|unfoldable|data|record", marks) else "word")
    return found


def turns(name):
    return bool(re.match(r"[a-zμ]", name)) and bool(re.search(r"[A-Z]|.-", name)) or name in OTHERWISE


def table(files):
    names = declared(files)
    behind = set()
    for file, text in files.items():
        if of_a_function(file):
            behind |= set(re.findall(r"\.([^\s(){}.;,@\"«»]+-[^\s(){}.;,@\"«»]+)", text))
    rows = {}
    for name in sorted(names):
        if turns(name) and name not in behind:
            rows[name] = OTHERWISE.get(name, OTHERWISE.get(snake(name), snake(name)))
    by_new = collections.defaultdict(list)
    for old, new in rows.items():
        by_new[new].append(old)
    for new, olds in by_new.items():
        olds = olds + ([new] if new in names and new not in rows else [])
        if len(olds) > 1:
            lemmas = [old for old in olds if old in rows and names[old] == {"lemma"}]
            for at, old in enumerate(lemmas[0 if len(lemmas) < len(olds) else 1 :]):
                rows[old] = f"{new}_lem" + (f"_{at + 1}" if at else "")
    return rows


def meetings(files, rows):
    """Where a new name stands already, as a lemma or a variable, in a file that has the old one."""
    found = []
    for file, text in files.items():
        alone = set(ALONE.findall(text))
        if file.suffix == ".rt":
            there = set(re.findall(r"(?<![\w:.])(\w+)(?=\s*:(?!:))", text)) | set(re.findall(r"\blet (?:mut )?(\w+)", text))
        else:
            there = set() if of_a_function(file) else alone
        found += [(file, rows[old]) for old in alone & rows.keys() if rows[old] in there]
    return found


def make_way(files, file, name):
    """Gives a lemma or a variable that has a name already `_lem`: in its file, or in its crate where it is `pub`."""
    word = re.compile(rf"(?<![^\s(){{}};,@«»]){re.escape(name)}(?![^\s(){{}};,@«»])")
    of_crate = [other for other in files if other.suffix == ".antt" and other.parts[1] == file.parts[1]]
    for other in of_crate if re.search(rf"(?m)^ *pub {re.escape(name)} :", files[file]) else [file]:
        other.write_text(word.sub(f"{name}_lem", other.read_text()))


def main(words):
    files = {file: plain(file) for file in sorted(pathlib.Path("crates").rglob("*")) if file.suffix in COMMENT and "out" not in file.parts}
    rows = table(files)
    found = meetings(files, rows)
    for file, name in found:
        print(f"{file}: {name} is {name}_lem")
    if "--check" in words:
        print(f"{len(rows)} names")
        return 0
    for file, name in found:
        make_way(files, file, name)
    kit = pathlib.Path(subprocess.run(["rt", "doc"], capture_output=True, text=True, check=True).stdout.strip()).parent
    with tempfile.NamedTemporaryFile("w", suffix=".tsv") as tsv:
        tsv.write("".join(f"{old}\t{new}\n" for old, new in rows.items()))
        tsv.flush()
        subprocess.run([sys.executable, str(kit / SNAKE), "--table", tsv.name, "--only", "antt,rt,md", "crates", "docs", "README.md"], check=True)
    return 0


if __name__ == "__main__":
    sys.exit(main(sys.argv[1:]))
