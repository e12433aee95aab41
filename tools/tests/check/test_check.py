"""Files of rules, checked by the command."""

import re
import tempfile
import unittest
from pathlib import Path

from rules.check.lines import Line, read_lines
from rules.command import NO_RULE
from tests.planners import ROOT, planner_of_answers, run, with_library

TRIALS = ROOT / "tools" / "trials.rules"

# Lines that can't be read, and how what is said of each begins.
UNREADABLE = {
    "[x y] => planned": "bad rule text: expected `,` or `]`, found `y`",
    "x = 1": "this line has no `=>` and what is expected behind it",
    "x => any": "what may be expected: planned, ",
    "x => Match": "did you mean `match`?",
    "x => match w=y": "here stands a name, which no value has",
    "x => match --on '[1'": "bad value: ",
    "x => planned --bound y": "--bound: the rule has no name `y` ",
    "x => planned --as": "argument --as: expected one argument",
    "x => planned --json": "unrecognized arguments: --json",
    "x => match": "`match` is the answer of a run: add --on VALUE",
    "x => pattern --run": "--run is for =, := and some .. in; one expression is run on a value: ",
    "x = 1 => match --on 1": "--on is for one expression or some .. in; ",
    "some x in 3 => match": "a collection is an array, an object or a set, and here stands 3",
}


def other(expected: bytes) -> bytes:
    """What can't be expected as well: no rule text leads to 4."""
    return {b"match": b"no match", b"no": b"match"}.get(expected.split()[0], b"refused 4")


def checked(content: str | bytes) -> tuple[int, list[str]]:
    """Exit status and lines of a check of standard input."""
    text = content.encode() if isinstance(content, str) else content
    status, printed, error = run("--check", "-", text=text)
    assert error == "", error
    return status, printed.splitlines()


@with_library
class Check(unittest.TestCase):
    def test_nothing_differs(self) -> None:
        self.assertEqual(checked("[w, w] = [18, 18] => match w=18\n"), (0, ["1 rule, 0 differ"]))
        self.assertEqual(checked("x => planned\nx = y => refused 18"), (0, ["2 rules, 0 differ"]))
        none = (2, "0 rules, 0 differ\n", f"{NO_RULE}\n")
        self.assertEqual(run("--check", "-", text=b"# no rule\n"), none)

    def test_what_differs(self) -> None:
        content = """\
[w, w] = [18, 16] => match
[w, w] => match w=18 --on '[18, 16]'
[x] := [1, 2] => planned
x = 1 => pairs
_ => match w=1 --on 2
x => match --on y
"""
        lines = """\
-:1:15: expected match, found no match
    [w, w] = [18, 16]
                  ^^ `w` is 18 (column 11), and 16 stands here
-:2:33: expected match w=18, found no match
    [w, w]
    [18, 16]
         ^^ `w` is 18 (column 2), and 16 stands here
-:3:8: expected planned, found refused 13 at [1, 2]
    [x] := [1, 2]
           ^^^^^^ ArrayLengthMismatch
-:4:10: expected pairs, found bind left
    x = 1
-:5:6: expected match w=1, found match
    _
    on 2
-:6:17: expected match, found refused 22 at y
    x
    y
    ^ not a value
6 rules, 6 differ
"""
        self.assertEqual(checked(content), (1, lines.splitlines()))

    def test_columns_of_values(self) -> None:
        """That of the place where the value is written as it is read, else of what is expected."""
        columns = {
            "[w, w] => match --on '[1, 2]'": 27,
            "[w, w] => match --on '[1, \u00e4]'": 27,
            '[w, w] => match --on "[1, \\"a\\"]"': 11,
            "x => match --on ''": 6,
            "x => match --on '[1' --bound x": 20,
            "  [w, 1] => match --on [1,2] --given w=2": 25,
            "[w] => match --on [1] --given 'w=[y]'": 35,
        }
        for line, place in columns.items():
            with self.subTest(line=line):
                self.assertEqual(checked(line)[1][0].split(":")[2], str(place))

    def test_match_of_an_assignment(self) -> None:
        lines = ["-:1:22: expected no match, found match w=18", "    [w, w] = [18, 18]"]
        self.assertEqual(checked("[w, w] = [18, 18] => no match\n")[1][:-1], lines)

    def test_what_meets_is_told(self) -> None:
        _, lines = checked("x = y => planned\n")
        meets = "    ^ IncompatibleDestructuringPatterns: neither `x` nor `y` has a value yet"
        self.assertEqual(lines[2], meets)

    def test_long_rule(self) -> None:
        status, lines = checked("[" + "x, " * 99 + "x] => index")
        self.assertEqual((status, len(lines[1]), lines[1][-6:]), (1, 4 + 100 + 3, "x, ..."))
        self.assertEqual(checked("x" * 100 + " => index")[1][1], "    " + "x" * 100)

    def test_lines_that_cannot_be_read(self) -> None:
        status, found = checked("".join(f"{line}\n" for line in UNREADABLE))
        said = [line for line in found if line.startswith("-:")]
        for number, (line, start) in enumerate(zip(said, UNREADABLE.values()), 1):
            self.assertRegex(line, f"^-:{number}:[0-9]+: {re.escape(start)}")
        tally = f"0 rules, 0 differ, {len(UNREADABLE)} lines can't be read"
        self.assertEqual((status, len(said), found[-1]), (2, len(UNREADABLE), tally))
        self.assertEqual(checked("x")[1][-1], "0 rules, 0 differ, 1 line can't be read")

    def test_bytes_that_are_no_text(self) -> None:
        _, found = checked(b'"\xff" => planned\nx => \xff\n')
        self.assertEqual(found[0], "-:1:2: bad rule text: rule text is UTF-8, this is not")
        self.assertTrue(found[3].startswith("-:2:6: what may be expected: planned, "))

    def test_places_of_lines_that_cannot_be_read(self) -> None:
        carets = {
            "[x y] => planned": "       ^",
            "x = 1": "    ^^^^^",
            "x => bind": "         ^^^^",
            "x => match w=y": "                 ^",
            "x => planned --bound y": "    " + "^" * 22,
        }
        for line, caret in carets.items():
            with self.subTest(line=line):
                self.assertEqual(checked(line)[1][2], caret)

    def test_a_line_that_differs_beside_one_that_cannot_be_read(self) -> None:
        status, found = checked("x => bind left\nx\n")
        self.assertEqual((status, found[0]), (2, "-:1:6: expected bind left, found pattern"))
        self.assertEqual(found[-1], "1 rule, 1 differs, 1 line can't be read")

    def test_options_for_the_lines_that_follow(self) -> None:
        content = """\
--bound w,v --careful
w => no match --given w=1 --on 2
[x, [y]] := [1, [1, 2]] => refused 13
x = f(w) => bind left
--on 2 --given w=1
w => no match
x => match x=2
w => match w=2 --unbound w
w => match w=3 --on 3 --scoping shadow
--
w => match w=2 --on 2
"""
        self.assertEqual(checked(content), (0, ["8 rules, 0 differ"]))
        self.assertEqual(checked("--bound w\nx => pattern --bound y")[0], 2)
        self.assertEqual(checked("--given w=1\nx => pattern --given y=1")[0], 2)

    def test_options_that_cannot_be_read(self) -> None:
        status, lines = checked("--bonud w\nw => index\n--\nw => pattern\n")
        unknown = "unrecognized arguments: --bonud w (did you mean --bound?)"
        message = f"{unknown}; the rules below it are not checked"
        self.assertEqual(lines[:3], [f"-:1:1: {message}", "    --bonud w", "    ^^^^^^^^^"])
        self.assertEqual((status, lines[3:]), (2, ["1 rule, 0 differ, 1 line can't be read"]))

    def test_run_of_an_assignment(self) -> None:
        self.assertEqual(checked("x := 1 => match x=1\nx := y => refused 22\n")[0], 0)
        self.assertEqual(checked("x := 1 => match --run\n1 = 1 => match\n")[0], 0)
        self.assertEqual(checked("x := 1 => match --on 1\n")[0], 2)


@with_library
class Usage(unittest.TestCase):
    def complaint(self, *arguments: str, text: bytes = b"", **variables: str) -> str:
        status, printed, error = run(*arguments, text=text, **variables)
        self.assertEqual((status, printed), (2, ""))
        return error

    def test_file(self) -> None:
        with tempfile.TemporaryDirectory() as folder:
            file = Path(folder) / "flush.rules"
            file.write_text("x => index\n")
            status, printed, _ = run("--check", str(file))
            self.assertEqual(status, 1)
            self.assertEqual(printed.splitlines()[0], f"{file}:1:6: expected index, found pattern")
        missing = "/nowhere/flush.rules can't be read: No such file or directory\n"
        self.assertEqual(self.complaint("--check", "/nowhere/flush.rules"), missing)

    def test_options_beside_check(self) -> None:
        for other in (["--bound", "x"], ["--careful"], ["--on", "1"], ["--sheet"]):
            for arguments in (["--check", "-", *other], ["x", "--check", "-"]):
                error = self.complaint(*arguments)
                self.assertEqual(error[:52], "--check FILE goes without a rule and its options: th")
        expected = "--html FILE goes with --check FILE or --parts FILE\n"
        self.assertEqual(self.complaint("--html", "x", "y"), expected)
        for option in ("--watch", "--accept", "--strict", "--notes", "--weak", "--format=junit"):
            said = f"{option.replace('=', ' ')} goes with --check FILE\n"
            self.assertEqual(self.complaint("x", option), said)
        self.assertEqual(self.complaint()[:18], "a rule is asked fo")

    def test_planner_of_sheets(self) -> None:
        line = "     0     0     0     0"
        with planner_of_answers(line, line) as planner:
            said = f"{planner} plans sheets and runs nothing: --check goes without it\n"
            self.assertEqual(self.complaint("--check", "-", "--plansheet", planner), said)
            self.assertEqual(self.complaint("--check", "-", PLANSHEET=planner), said)

    def test_no_library(self) -> None:
        error = self.complaint("--check", "-", "--library", "/nowhere/libteluddru.so")
        self.assertIn("tools/build_library", error)


@with_library
class Trials(unittest.TestCase):
    def test_rules_on_trial(self) -> None:
        status, printed, error = run("--check", str(TRIALS), "--strict", "--weak")
        self.assertEqual((status, error), (0, ""))
        self.assertRegex(printed, r"^1[0-9][0-9] rules, 0 differ\n$")

    def test_every_expectation_counts(self) -> None:
        lines = TRIALS.read_bytes().splitlines()
        rules = list(read_lines(TRIALS.read_bytes()))
        for rule in rules:
            assert isinstance(rule, Line)
            expected, start = rule.expected
            changed = rule.text[:start] + other(expected) + rule.text[start + len(expected) :]
            lines[rule.number - 1] = changed
        status, found = checked(b"\n".join(lines))
        self.assertEqual((status, found[-1]), (1, f"{len(rules)} rules, {len(rules)} differ"))

    def test_a_changed_expectation_is_found(self) -> None:
        changes = {
            "[x, x] => no match": "[x, x] => match",
            "x := 1 => refused 17 at x": "x := 1 => refused 18 at x",
            "{1: x} := {": "{2: x} := {",
            " => match x=18 ": " => match x=16 ",
            "--entries 5": "--entries 4",
            "\n--careful\n": "\n--\n",
        }
        trials = TRIALS.read_text()
        for before, after in changes.items():
            with self.subTest(before=before):
                self.assertIn(before, trials)
                status, lines = checked(trials.replace(before, after, 1))
                self.assertEqual((status, lines[-1][-8:] != "0 differ"), (1, True))


if __name__ == "__main__":
    unittest.main()
