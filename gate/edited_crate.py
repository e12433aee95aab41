"""Checks a crate with a must-fail edit, in a copy of the repository, and gives what the check said.

The copy lies outside the repository, since `rt ci` refuses sources that no crate of crates.txt reads.
It takes along what `rt check` kept in out/, so that little is proved again.
"""

import hashlib
import os
import pathlib
import re
import shutil
import subprocess
import tempfile

PARTS = ("src", "specs", "proofs")
# A goal that no search proves and no answer is written for is told by its place in the source alone.
OPEN = re.compile(r"^note: (src/\S+\.rt):(\d+):\d+: it is not proved that .*?\(`([^`]+)`\)", re.MULTILINE)
FUNCTION = re.compile(r"""^ *(?:pub(?:\(\w+\))? )?(?:unsafe )?(?:extern +"C" )?fn (\w+)""")


def listed(root):
    """The lines of crates.txt by crate, and the crates that each names."""
    lines = [line.partition("#")[0].strip() for line in (root / "crates.txt").read_text().splitlines()]
    rows = {line.partition(":")[0].split()[0]: line for line in lines if line}
    return rows, {crate: line.partition(":")[2].split() for crate, line in rows.items()}


def below(names, crate):
    """The crates of the repository that a crate stands on, and itself."""
    found = [crate]
    for one in found:
        found += [name for name in names[one] if name in names and name not in found]
    return found


def link_or_copy(one, other):
    """A second name for what a check replaces and never writes into, as `rt` itself does it."""
    if one.endswith(".oantt") or "/out/rlib/" in one:
        try:
            return os.link(one, other)
        except OSError:
            pass
    return shutil.copy2(one, other)


def copy_crate(source, to, kept):
    for part in (*PARTS, kept):
        if (source / part).is_dir():
            shutil.copytree(source / part, to / part, copy_function=link_or_copy)


def copy_repository(root, crate, to):
    """A repository of a crate and those below it, these with their libraries as they are built."""
    rows, names = listed(root)
    crates = below(names, crate)
    (to / ".git").mkdir(parents=True)
    (to / "crates.txt").write_text("".join(rows[name] + "\n" for name in rows if name in crates))
    for name in crates:
        copy_crate(root / "crates" / name, to / "crates" / name, "out/incremental" if name == crate else "out/rlib")


def apply(edit, folder):
    """Makes an edit's changes in a crate's folder: each `old:` text stands once in what the pairs before it left."""
    file = old = None
    for line in edit.splitlines():
        key, _, text = line.partition(":")
        text = text.removeprefix(" ")
        if key == "file":
            file = folder / text.strip()
        elif key == "old":
            old = text
        elif key == "new":
            whole = file.read_text()
            if whole.count(old) != 1:
                raise ValueError(f"{file.relative_to(folder)} has {whole.count(old)} times: {old}")
            file.write_text(whole.replace(old, text))


def function_at(folder, path, line):
    """The function in whose text a line of a source stands, by its path in the crate."""
    heads = [FUNCTION.match(text) for text in (folder / path).read_text().splitlines()[:line]]
    names = [head[1] for head in heads if head]
    modules = [part for part in pathlib.PurePath(path).with_suffix("").parts[1:] if part not in ("lib", "main")]
    return "::".join([*modules, *names[-1:]])


def with_open_goals(said, folder):
    """What a check said, and a line for each goal that it told by a place in the source."""
    goals = [(function_at(folder, path, int(line)), goal) for path, line, goal in OPEN.findall(said)]
    return said + "".join(f"open {folder.name}::{function}: {goal}\n" for function, goal in goals)


def rt(folder, *words):
    """What a command says, and whether it ends well."""
    how = {"cwd": folder, "stdin": subprocess.DEVNULL, "stdout": subprocess.PIPE, "stderr": subprocess.STDOUT}
    run = subprocess.run(["rt", *words], **how)
    return run.stdout.decode(errors="replace"), run.returncode == 0


def prove(root, crates):
    """Has crates checked where they stand, so that the checks of their copies begin with what that keeps; those that fail."""
    return [crate for crate in crates if not rt(root / "crates" / crate, "check")[1]]


def sum_of(root, edit):
    """A sum over all that decides what the check of a crate with an edit says."""
    files = [edit]
    for crate in below(listed(root)[1], edit.parent.parent.name):
        found = [file for part in PARTS for file in (root / "crates" / crate / part).glob("**/*")]
        files += sorted(file for file in found if file.is_file())
    made = hashlib.sha256(rt(root, "version")[0].encode())
    for file in files:
        made.update(repr((str(file.relative_to(root)), file.read_bytes())).encode())
    return made.hexdigest()


def log_of(root, edit):
    crate = edit.parent.parent.name
    with tempfile.TemporaryDirectory(prefix="must-fail-") as room:
        top = pathlib.Path(room).resolve() / "repository"
        folder = top / "crates" / crate
        copy_repository(root, crate, top)
        try:
            apply(edit.read_text(), folder)
        except (OSError, ValueError) as error:
            return f"the edit does not apply: {error}\n"
        return with_open_goals(rt(folder, "check", "--jobs", "1")[0], folder)
