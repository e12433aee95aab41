"""Runs the command."""

import json
import os
import subprocess
import sys
import unittest
from typing import BinaryIO
from unittest import mock

from rules.check.checking import ONE_VALUE
from rules.command import PLANNED_WITHOUT, standard_input
from rules.no_answer import NoAnswer
from rules.words.conclusions import NEVER
from tests.planners import (
    COMMAND,
    LIBRARY,
    PLANSHEET,
    planner_of_answers,
    run,
    with_library,
    with_plansheet,
)
from tests.tables.test_sheet import EXAMPLE


def script_run(
    *arguments: str,
    stdout: BinaryIO,
    stderr: BinaryIO | int = subprocess.PIPE,
    environment: dict[str, str],
) -> subprocess.CompletedProcess[bytes]:
    """Runs the script itself, in an environment of these variables and the PATH."""
    path = {"PATH": os.environ["PATH"]}
    command = [sys.executable, COMMAND, *arguments]
    return subprocess.run(command, stdout=stdout, stderr=stderr, env=path | environment)


def careful_lines(present: str, careful: str, rule: str) -> list[str]:
    """What is said with --careful where the planner has these answers."""
    with planner_of_answers(present, careful) as planner:
        return run("--plansheet", planner, "--careful", rule)[1].splitlines()


class WithoutPlanner(unittest.TestCase):
    def test_sheet(self) -> None:
        arguments = ["--sheet", "--as", "index", "[x, x]"]
        self.assertEqual(run(*arguments), (0, EXAMPLE.decode(), ""))
        script = subprocess.run([sys.executable, COMMAND, *arguments], capture_output=True)
        self.assertEqual((script.returncode, script.stdout), (0, EXAMPLE))

    def test_scope(self) -> None:
        scope = ["--bound", "a,b", "--bound-here", "c", "--unbound", "d", "--local", "b"]
        more = ["--global", "d", "--scheduler", "--scoping", "shadow"]
        _, printed, _ = run("--sheet", *scope, *more, "-", text=b"[a, b, c, d, e]\n")
        lines = printed.splitlines()
        self.assertEqual(lines[1], "     1     1     2     6     0     0")
        marks = [int(line[12:]) for line in lines[-6:-1]]
        self.assertEqual(marks, [1, 9, 3, 20, 0])

    def test_bad_rule_text(self) -> None:
        expected = "bad rule text: expected `,` or `]`, found `y`\n    [x y]\n       ^\n"
        self.assertEqual(run("[x y]"), (2, "", expected))

    def test_missing_planner(self) -> None:
        status, _, error = run("--plansheet", "/nowhere/plansheet", "x")
        self.assertEqual(status, 2)
        self.assertIn("`rt run` in crates/plansheet", error)

    def test_library_and_version(self) -> None:
        status, _, error = run("--library", "/nowhere/libteluddru.so", "x")
        self.assertEqual(status, 2)
        self.assertIn("tools/build_library", error)
        status, _, error = run("--library", "/bin/cat", "x")
        self.assertEqual((status, error[:26]), (2, "/bin/cat can't be called: "))
        self.assertEqual(run("--sheet", "--rego", "v1", "x")[0], 2)
        self.assertEqual(run("--sheet", "--rego", "v0", "x")[0], 0)
        self.assertEqual(run("--rego", "v2", "x")[0], 2)

    def test_careful(self) -> None:
        rule = "[x, [y]] := [1, [1, 2]]"
        for scoping, numbers in (("respect", (1, 3)), ("shadow", (2, 4))):
            for careful, number in zip(([], ["--careful"]), numbers):
                printed = run("--sheet", "--scoping", scoping, *careful, rule)[1]
                line = f"     2     0     {number}     4     9     0"
                self.assertEqual(printed.splitlines()[1], line)
        plan = "     0     1     0     0"
        refusal = "    13     8     1     2"
        lines = careful_lines(plan, refusal, rule)
        self.assertEqual(lines[2], "                    ^^^^^^ the value's array")
        self.assertEqual(lines[4:], [NEVER, PLANNED_WITHOUT])
        self.assertEqual(len(careful_lines(refusal, refusal, rule)), 5)
        self.assertEqual(len(careful_lines(plan, "    17     1     0     0", rule)), 3)
        self.assertEqual(careful_lines(refusal, plan, rule)[1][:15], "planned as `:=`")

    def test_planner_that_does_not_know_careful(self) -> None:
        unreadable = "     7     0     0     0"
        with planner_of_answers(unreadable, unreadable) as planner:
            status, printed, error = run("--plansheet", planner, "--careful", "x := 1")
            self.assertEqual((status, printed), (2, ""))
            self.assertEqual(error, f"{planner} doesn't know --careful: build it anew\n")
            self.assertEqual(run("--plansheet", planner, "x := 1")[0], 1)

    def test_planner_that_does_not_run(self) -> None:
        status, _, error = run("--plansheet", str(COMMAND.parent), "x")
        self.assertEqual(status, 2)
        self.assertIn("did not run", error)

    def test_input_that_cannot_be_read(self) -> None:
        unreadable = mock.Mock()
        unreadable.buffer.read.side_effect = OSError(5, "Input/output error")
        with mock.patch.object(sys, "stdin", unreadable):
            with self.assertRaisesRegex(NoAnswer, "can't be read: Input/output error"):
                standard_input()

    def test_planner_without_an_answer(self) -> None:
        status, _, error = run("--plansheet", "/bin/cat", "x")
        self.assertEqual(status, 2)
        self.assertIn("listing of /bin/cat", error)

    def test_unwritable_output(self) -> None:
        unwritable = "the output can't be written: No space left on device\n"
        for buffered in ({}, {"PYTHONUNBUFFERED": "1"}):
            with self.subTest(buffered=buffered), open("/dev/full", "wb") as full:
                script = script_run("--sheet", "x", stdout=full, environment=buffered)
                self.assertEqual((script.returncode, script.stderr.decode()), (2, unwritable))
                script = script_run("[x y]", stdout=full, stderr=full, environment=buffered)
                self.assertEqual(script.returncode, 2)

    def test_closed_output(self) -> None:
        closed = ["sh", "-c", '"$@" >&-', "sh", sys.executable, COMMAND, "--sheet", "x"]
        script = subprocess.run(closed, capture_output=True)
        self.assertEqual(script.returncode, 2)
        self.assertEqual(script.stderr, b"the output can't be written: standard output is closed\n")

    def test_names_that_the_rule_has_not(self) -> None:
        for option in ("--bound", "--bound-here", "--unbound", "--local", "--global"):
            for text, name in (("x", "y"), ("[x, f(y)]", "y"), ("[x, true]", "true"), ("x", "")):
                with self.subTest(option=option, text=text, name=name):
                    status, printed, error = run("--sheet", option, f"x,{name}", text)
                    self.assertEqual((status, printed), (2, ""))
                    self.assertTrue(error.startswith(f"{option}: the rule has no name `{name}` "))

    def test_rule_that_begins_with_a_minus(self) -> None:
        status, printed, _ = run("--sheet", "--bound", "x", "--", "-1=x")
        self.assertEqual((status, printed[-4:]), (0, "-1=x"))
        self.assertIn("begins with - stands behind --", run("--help")[1])

    def test_lines_of_comment(self) -> None:
        lines = b"# flush sides\n\n[w, w] = [18, 16] # both\r\n  # no more\n"
        status, printed, _ = run("--sheet", "-", text=lines)
        self.assertEqual((status, printed[-24:]), (0, "[w, w] = [18, 16] # both"))
        status, _, error = run("--sheet", "-", text=b"# two\nx = 1\ny = 1\n")
        self.assertEqual((status, error.splitlines()[0][-12:]), (2, "it ends here"))
        self.assertEqual(run("--sheet", "# none")[0], 2)

    def test_hint_at_a_comparison(self) -> None:
        hint = "hint: `==` compares and binds nothing; to match both sides, write: {}\n"
        self.assertEqual(run("--sheet", "x == [y]")[2], hint.format("x = [y]"))
        for text in ("f(x == y)", "[x == y]", "x", "x = y == z", "x != y"):
            self.assertEqual(run("--sheet", text)[2], "")
        self.assertEqual(run("--sheet", "--as", "index", "x == y")[2], "")

    def test_usage(self) -> None:
        self.assertEqual(run("--as", "index", "x = 1")[0], 2)
        self.assertEqual(run("--scoping", "none", "x")[0], 2)
        self.assertEqual(run("--help")[0], 0)
        self.assertEqual(run()[0], 2)


class Planned:
    """Plans that both planners have to give."""

    planner: tuple[str, ...] = ()

    def plan(self, *arguments: str) -> tuple[int, list[str]]:
        status, words, error = run(*self.planner, *arguments)
        self.assertEqual(error, "")
        return status, words.splitlines()

    def test_flush_sides(self) -> None:
        status, lines = self.plan("[w, w] = [18, 16]")
        self.assertEqual(status, 0)
        self.assertEqual(lines[4:6], ["     2    bind w", "     5    compare w, bound at column 2"])

    def test_scope(self) -> None:
        self.assertEqual(self.plan("x := 1", "--bound", "x")[0], 0)
        status, lines = self.plan("x := 1", "--bound-here", "x")
        self.assertEqual((status, lines[0][:36]), (1, "refused, 17 VariableAlreadyDefined: "))
        self.assertEqual(lines[2], "    ^ the name")

    def test_pattern_parameter_index(self) -> None:
        bound = ("x", "--bound", "x")
        self.assertEqual(self.plan(*bound)[1][-1], "     1  compare x, which has a value")
        self.assertEqual(self.plan(*bound, "--scoping", "shadow")[1][-1], "     1  bind x")
        self.assertEqual(self.plan(*bound, "--as", "parameter")[1][1], "planned as a parameter")
        self.assertEqual(self.plan(*bound, "--as", "index")[1][1], "planned as an index")

    def test_refusal_of_tables(self) -> None:
        expected = "refused, 3 too deep: more than 32 levels, the innermost item counted"
        for text, width in (("[" * 33 + "]" * 33, 2), ("[" * 32 + "x" + "]" * 32, 1)):
            caret = " " * (4 + 32) + "^" * width + " level 33"
            self.assertEqual(self.plan(text), (1, [expected, f"    {text}", caret]))
        self.assertEqual(self.plan("[" * 31 + "x" + "]" * 31)[0], 0)

    def test_name_that_is_too_long(self) -> None:
        status, lines = self.plan(f"[x, {'n' * 256}]")
        self.assertEqual((status, lines[0][:26]), (1, "refused, 2 tables broken: "))
        self.assertTrue(lines[2].startswith("        ^"))
        self.assertTrue(lines[2].endswith("^ this name has 256 bytes, at most 255"))
        self.assertEqual(self.plan("n" * 255)[0], 0)

    def test_careful(self) -> None:
        mismatches = {
            "[x, [y]] := [1, [1, 2]]": ("13", 16, 6),
            "[x, [y]] = [1, [1, 2]]": ("13", 15, 6),
            "[1, [1, 2]] = [x, [y]]": ("13", 4, 6),
            "some [x, [y]] in [[1, [1, 2]]]": ("13", 22, 6),
            '[x, {"a": y}] := [1, {"b": 2}]': ("14", 21, 8),
            "[{k: x}, [y]] := [{}, [1, 2]]": ("13", 22, 6),
            '{"a": x, "b": [y]} := {"a": 1, "b": []}': ("13", 36, 2),
        }
        for text, (number, place, width) in mismatches.items():
            with self.subTest(text=text):
                self.assertEqual(self.plan(text)[0], 0)
                status, lines = self.plan(text, "--careful")
                self.assertEqual((status, lines[0][:11]), (1, f"refused, {number}"))
                self.assertEqual(lines[2].split(" the")[0], " " * (4 + place) + "^" * width)
                self.assertEqual(lines[-1], PLANNED_WITHOUT)

    def test_careful_where_the_present_reading_refuses(self) -> None:
        refused = self.plan("[x] := [1, 2]")
        self.assertEqual(refused[0], 1)
        self.assertEqual(self.plan("[x] := [1, 2]", "--careful"), refused)
        moved = '{"b": [x], "a": [y]} := {"b": [1, 2], "a": [1, 2, 3]}'
        self.assertEqual(self.plan(moved)[1][3][-1], "2")
        self.assertEqual(self.plan(moved, "--careful")[1][3][-1], "3")
        self.assertEqual(len(self.plan(moved, "--careful")[1]), 5)

    def test_careful_makes_no_difference_else(self) -> None:
        rules = ["[x, [y]] := [1, [2]]", "[w, w] = [18, 16]", "[x, 1] = [1, x]", "x = y"]
        rules += ["x := f(x)", "some x in [[1, [1, 2]]]", "[x, {y}]", "[" * 33 + "]" * 33]
        for text in rules:
            with self.subTest(text=text):
                self.assertEqual(self.plan(text, "--careful"), self.plan(text))
        for operation in ("pattern", "parameter", "index"):
            for scoping in ("respect", "shadow"):
                rule = ("[x, y]", "--as", operation, "--scoping", scoping, "--bound", "x")
                self.assertEqual(self.plan(*rule, "--careful"), self.plan(*rule))


@with_library
class ByLibrary(Planned, unittest.TestCase):
    pass


@with_plansheet
class ByPlansheet(Planned, unittest.TestCase):
    planner = ("--plansheet", str(PLANSHEET))


@with_library
class SeveralValues(unittest.TestCase):
    def test_a_verdict_for_each(self) -> None:
        status, printed, _ = run("[w, w]", "--on", "[18, 18]", "--on", "[18, 16]")
        lines = printed.splitlines()
        self.assertEqual(status, 1)
        self.assertEqual(lines[:6], run("[w, w]")[1].splitlines())
        self.assertEqual(lines[6:8], ["run on [18, 18]: match", "    w = 18"])
        self.assertEqual(lines[8], "run on [18, 16]: no match")
        self.assertEqual(run("[w, w]", "--on", "[1, 1]", "--on", "[2, 2]")[0], 0)

    def test_a_value_that_is_too_large(self) -> None:
        large = f"[{', '.join(['7'] * 300)}]"
        for values in (("--on", large, "--on", "1"), ("--on", "1", "--on", large)):
            status, printed, _ = run("x", *values)
            self.assertEqual(status, 1)
            self.assertIn("planned as a pattern\n", printed)
            self.assertIn("run on 1: match\n", printed)
            self.assertIn(": refused, 1 over a limit: ", printed)
        runs = json.loads(run("x", "--on", "1", "--on", large, "--json")[1])["runs"]
        self.assertEqual([each["answer"] for each in runs], ["match", "refused"])

    def test_lines_of_files(self) -> None:
        """A line's own value counts, beside one for all lines; a line has one."""
        content = b"--on 1\nx => match x=2 --on 2\n"
        self.assertEqual(run("--check", "-", text=content)[0], 0)
        status, printed, _ = run("--check", "-", text=b"x => match --on 1 --on 2\n")
        self.assertEqual((status, printed.splitlines()[0]), (2, f"-:1:1: {ONE_VALUE}"))


class Version(unittest.TestCase):
    def test_version(self) -> None:
        status, printed, _ = run("--version", TELUDDRU_SHARED="/nowhere/l.so")
        self.assertEqual(status, 0)
        lines = printed.splitlines()
        self.assertRegex(lines[0], r"^plan_rule [0-9]+\.[0-9]+\.[0-9]+$")
        not_built = "library: /nowhere/l.so (not built: tools/build_library)"
        self.assertEqual(lines[1:], [not_built, "Rego: v0, v1"])
        named = run("--version", "--library", "/bin/cat")[1].splitlines()[1]
        self.assertEqual(named, "library: /bin/cat")


@with_library
class Hints(unittest.TestCase):
    def test_of_the_rule_alone(self) -> None:
        """The value that a rule is run on is no comparison of the rule."""
        hint = "hint: `==` compares and binds nothing; to match both sides, write: x = 1\n"
        self.assertEqual(run("x == 1", "--on", "1")[2], hint)
        self.assertEqual(run("[x == 1]", "--on", "x == 1")[2], "")


@with_library
class RegoV1(unittest.TestCase):
    def plan(self, *arguments: str) -> tuple[int, list[str]]:
        status, words, error = run("--rego", "v1", "--library", str(LIBRARY), *arguments)
        self.assertEqual(error, "")
        return status, words.splitlines()

    def test_reserved_names(self) -> None:
        carets = {
            "input := 1": "^^^^^ the name",
            "[x, {\"a\": data}] = [1, 2]": "          ^^^^ the name",
            "_ = input": "    ^^^^^ the name",
            "input = data": "^^^^^ the name",
            "some input, data in xs": "     ^^^^^ the name",
            "some _, data in xs": "        ^^^^ the name",
            "{\"a\": input, \"a\": x}": "      ^^^^^ the name",
        }
        for text, caret in carets.items():
            with self.subTest(text=text):
                status, lines = self.plan(text)
                self.assertEqual((status, lines[0][:26]), (1, "refused, 31 reserved name:"))
                self.assertEqual(lines[2], "    " + caret)
        for operation in ("index", "parameter"):
            self.assertEqual(self.plan("input", "--as", operation)[0], 1)

    def test_planned_as_by_v0(self) -> None:
        lines = self.plan("[w, w] = [18, 16]")[1]
        self.assertEqual(lines[4:6], ["     2    bind w", "     5    compare w, bound at column 2"])
        for text in ("{input}", "{input: x}", "f(input)", "x := input", "some x in input"):
            self.assertEqual(self.plan(text)[0], 0)
        self.assertEqual(self.plan("input = 1", "--bound", "input")[0], 0)
        self.assertEqual(self.plan("--", "-3 = x")[0], 0)

    def test_careful(self) -> None:
        rule = "[x, [y]] := [1, [1, 2]]"
        self.assertEqual(self.plan(rule)[0], 0)
        status, lines = self.plan(rule, "--careful")
        self.assertEqual((status, lines[-1]), (1, PLANNED_WITHOUT))
        status, lines = self.plan("[input, [y]] := [1, [1, 2]]", "--careful")
        self.assertEqual((status, lines[0][:11]), (1, "refused, 31"))

    def test_refusals_of_v0(self) -> None:
        status, lines = self.plan("x := 1", "--bound-here", "x")
        self.assertEqual((status, lines[0][:34]), (1, "refused, 17 VariableAlreadyDefined"))
        self.assertEqual(self.plan("[" * 33 + "]" * 33)[1][0][:10], "refused, 3")


if __name__ == "__main__":
    unittest.main()
