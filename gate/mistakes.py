#!/usr/bin/env python3
"""Is each mistake of the must-fail edits refused in the function that it changes?

An edit (crates/NAME/must-fail/*.edit) holds several mistakes, each under a line

    mistake: NAME in FUNCTION[ at GOAL][, FUNCTION ..]: what it would do[ (false: a requirement)]

`rt ci` asks only that the crate with the whole edit is refused, and says one line of it. This
checks a copy of the crate with the edit (edited_crate.py) and reads what the prover said of each
function: its own proof must fail, whatever becomes of the functions that it calls, and for a
fact: none is found, or another is given. Two mistakes in one function are told apart by the goals
of its proof that fail.

What a called function requires may stay true though the prover finds no proof of it, and its log
does not tell the two apart. So an error at such a goal (NAME-requires) counts only where the line
says which requirement the mistake makes false.

What a check said is kept in target/must-fail/CRATE/EDIT/.log, and read again where nothing that it
stands on has changed. That trusts whoever can write to target/, as `rt`'s own stamps do. Arguments
are crates or edits (NAME, NAME/EDIT) to try in place of all; --logs reads the logs as they are.
"""

import concurrent.futures
import pathlib
import re
import sys

import edited_crate

MISTAKE = re.compile(r"^mistake: (\w+) in ([\w:, -]+?): (.*)$", re.MULTILINE)
# What a called function requires, and the words that say which part of it is false.
REQUIRES = re.compile(r"-requires(-|$)")
FALSE = re.compile(r" \(false: [^()]+\)$")
# No proof is found, the goal does not follow, or the fact that is given is not the one asked for.
NO_FACT = re.compile(
    r"`search`: no proof of|`(omega|grind)`: (the goal|the part `[^`]*` of the goal) does not follow"
    r"|the two types (first differ|differ only) where"
)
# The same of a fact that is told whole: the definition is the one asked for, of other values.
OTHER_FACT = re.compile(
    r"expected type `(\S+) [^`]*`\s+but this has type (?:`\1 |.*, the found one begins `\1 )", re.DOTALL
)
# Nor is one found by a `search` that has tried all it had and breaks off at its last resort.
BROKE_OFF = re.compile(r"\n  `search` broke off: .*What the searches had come to: `search`: no proof of", re.DOTALL)
# The goals that a proof without answers of its own leaves open.
UNCLOSED = re.compile(r"no proof: expected answers in [^;]*; `search` did not prove ([^;]*)")
# What follows from another error: a part of this proof that failed, or the proof of a function that it calls.
FOLLOWS = re.compile(r" was not admitted ")
# An answer to a goal whose name the edit took away: a goal is named by the text of its tests (returns-then-x-eq5).
RENAMED = re.compile(r"module `[^`]*\.(Goals|Given)`\s+has\s+no\s+`")
# The edits that are checked at once: each takes one processor, and 1 to 4 GB.
AT_ONCE = 3


def mistakes(edit):
    """The mistakes of an edit's text: a name, its functions, each with a goal or "", and is a requirement called false?"""
    return [
        (name, [place(part) for part in re.split(r", *", where)], bool(FALSE.search(does)))
        for name, where, does in MISTAKE.findall(edit)
    ]


def place(text):
    function, _, goal = text.partition(" at ")
    return function, goal


def own_errors(log, function):
    """The errors in the proof of a function, each with its goal.

    Functions that call one another share a proof, in a folder +NAME: there a goal begins with its function's name.
    """
    *modules, name = function.split("::")
    proofs = "/".join(["proofs", *modules])
    own = rf"{proofs}/({name}|\+\w+)/(?:Answers|Invariants|Proof)\.antt"
    errors = []
    for folder, text in re.findall(rf"^\S*/{own}:\S*: error: (.*(?:\n  .*)*)$", log, re.MULTILINE):
        said = re.match(r"`([^`]+)`: ", text)
        goal = said.group(1) if said else ""
        if folder.startswith("+"):
            if goal and not goal.startswith(name + "-"):
                continue
            goal = goal.removeprefix(name + "-")
        errors.append((goal, text))
    return errors


def open_goals(log, crate, function, said):
    """The goals of a function that no search proves and no answer is written for."""
    found = UNCLOSED.match(said)
    goals = re.findall(r"`([^`]*)`", found.group(1)) if found else []
    goals += re.findall(rf"^open {crate}::{re.escape(function)}: (.*)$", log, re.MULTILINE)
    return {goal.removeprefix(function.split("::")[-1] + "-") for goal in goals} | set(goals)


def is_aside(error):
    return FOLLOWS.search(error.split("\n")[0]) or RENAMED.search(error)


def of_a_fact(error):
    return NO_FACT.search(error.split("\n")[0]) or OTHER_FACT.search(error) or BROKE_OFF.search(error)


def is_at(goal, of):
    """Is a goal of the log the one that a mistake names, or one of its clauses?"""
    return goal in ("", of) or of.startswith(f"{goal}-clause-")


def counts(goal, says_false):
    return says_false or not REQUIRES.search(goal)


def fault(log, crate, function, goal="", says_false=False):
    """Why a function doesn't count as refused for a fact, or None."""
    if not counts(goal, says_false):
        return f"at {goal}, and its line doesn't say which requirement is false"
    said = re.search(rf"^fn {crate}::{re.escape(function)}: (.*)$", log, re.MULTILINE)
    if not said:
        return "the prover says nothing of it"
    if said.group(1) == "proved":
        return "it is proved"
    found = own_errors(log, function)
    errors = [text for of, text in found if is_at(goal, of) and counts(of, says_false) and not is_aside(text)]
    if errors:
        return None if of_a_fact(errors[0]) else f"its first error: {errors[0][:200]}"
    renamed = [of for of, text in found if RENAMED.search(text)]
    if renamed:
        return f"its answer to {renamed[0]} was not tried, since the edit renames the goal: change the answer's name too"
    if any(is_at(goal, of) and counts(of, says_false) for of in open_goals(log, crate, function, said.group(1))):
        return None
    return f"its own proof has no error{goal and ' at '}{goal}: {said.group(1)}"


def not_apart(listed):
    """The functions that two mistakes change with nothing to tell their errors apart."""
    goals = {}
    for _, places, _ in listed:
        for function, goal in places:
            goals.setdefault(function, []).append(goal)
    return sorted(
        function for function, of in goals.items() if len(of) > 1 and ("" in of or len(set(of)) < len(of))
    )


def log_file(root, edit):
    return root / "target" / "must-fail" / edit.parent.parent.name / edit.stem / ".log"


def faults(root, edit):
    """The faults of an edit file, a line each, and how many mistakes it holds."""
    crate = edit.parent.parent.name
    label = f"{crate}/{edit.stem}"
    listed = mistakes(edit.read_text())
    if not listed:
        return [f"{label}: it names no mistake"], 0
    file = log_file(root, edit)
    log = file.read_text(errors="replace") if file.exists() else ""
    lines = [f"{label}: two mistakes in {function}" for function in not_apart(listed)]
    for name, places, says_false in listed:
        for function, goal in places:
            why = fault(log, crate, function, goal, says_false)
            if why:
                lines.append(f"{label}: {name} in {function}: {why}")
    return lines, len(listed)


def stamp_file(root, edit):
    return log_file(root, edit).with_name(".stamp")


def is_tried(root, edit):
    stamp = stamp_file(root, edit)
    return log_file(root, edit).exists() and stamp.exists() and stamp.read_text() == edited_crate.sum_of(root, edit)


def try_edit(root, edit):
    """Keeps what the check of the crate with an edit says in the edit's log."""
    sum_before = edited_crate.sum_of(root, edit)
    file = log_file(root, edit)
    file.parent.mkdir(parents=True, exist_ok=True)
    stamp_file(root, edit).unlink(missing_ok=True)
    file.write_text(edited_crate.log_of(root, edit))
    stamp_file(root, edit).write_text(sum_before)


def try_edits(root, edits):
    """Tries edits, and gives the crates that the prover refuses without any."""
    unproved = edited_crate.prove(root, list(dict.fromkeys(edit.parent.parent.name for edit in edits)))
    with concurrent.futures.ThreadPoolExecutor(AT_ONCE) as pool:
        list(pool.map(lambda edit: try_edit(root, edit), [it for it in edits if it.parent.parent.name not in unproved]))
    return unproved


def is_named(edit, names):
    crate = edit.parent.parent.name
    return not names or crate in names or f"{crate}/{edit.stem}" in names


def main(root, *arguments):
    names = [name for name in arguments if name != "--logs"]
    edits = [edit for edit in sorted(root.glob("crates/*/must-fail/*.edit")) if is_named(edit, names)]
    unproved = []
    if "--logs" not in arguments:
        unproved = try_edits(root, [edit for edit in edits if not is_tried(root, edit)])
    count = 0
    lines = [f"{crate} is not proved without an edit" for crate in unproved]
    for edit in edits:
        more, listed = faults(root, edit) if edit.parent.parent.name not in unproved else ([], 0)
        lines += more
        count += listed
    for line in lines:
        print(f"mistake not refused for a fact: {line}")
    if not lines:
        print(f"{count} mistakes, each refused for a fact in the function that it changes")
    return 1 if lines or not count else 0


if __name__ == "__main__":
    sys.exit(main(pathlib.Path(__file__).resolve().parent.parent, *sys.argv[1:]))
