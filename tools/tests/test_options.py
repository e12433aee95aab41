import unittest
from unittest import mock

from rules.no_answer import NoAnswer
from rules.options import command_parser, planner_of, question_from
from rules.question import Question, sheet_for
from rules.tables.library import Library
from rules.tables.plansheet import Plansheet
from tests.planners import LIBRARY, run, with_library


def of_options(*options: str) -> Question:
    return question_from(list(options), b"[w, x]")


class Questions(unittest.TestCase):
    def test_defaults(self) -> None:
        self.assertEqual(of_options(), Question(b"[w, x]"))

    def test_all(self) -> None:
        scope = ["--bound", "w", "--local", "w, x", "--scheduler", "--scoping", "shadow"]
        others = ["--careful", "--rego", "v1", "--as", "index", "--entries", "3"]
        runs = ["--on", "[1]", "--run", "--given", "w = 1", "--given", 'x={"a": "="}']
        question = of_options(*scope, *others, *runs)
        self.assertEqual(
            question,
            Question(
                b"[w, x]",
                operation="index",
                marks={b"w": 9, b"x": 8},
                named={b"w": "--bound", b"x": "--local"},
                scheduler=True,
                scoping="shadow",
                careful=True,
                rego="v1",
                on=b"[1]",
                given={b"w": b" 1", b"x": b'{"a": "="}'},
                run=True,
                entries=3,
            ),
        )

    def test_marks_of_given_names(self) -> None:
        self.assertEqual(of_options("--given", "w=1").scope().marks, {b"w": 1})
        unbound = of_options("--given", "w=1", "--unbound", "w", "--given", "x=1")
        self.assertEqual(unbound.scope().marks, {b"w": 4, b"x": 1})

    def test_bad_options(self) -> None:
        messages = {
            ("--given", "w"): "--given: NAME=VALUE is asked for, found `w`",
            ("--given", "w=1", "--given", "w =2"): "--given: `w` is given twice",
            ("--entries", "-1"): "a number from 0 to 262144 is asked for",
            ("--entries", "262145"): "a number from 0 to 262144 is asked for",
            ("--entries", "9" * 5000): "a number from 0 to 262144 is asked for",
            ("--entries", "x"): "a number from 0 to 262144 is asked for",
            ("--rego", "v2"): "invalid choice: 'v2'",
            ("--json",): "unrecognized arguments: --json",
            ("--sheet",): "unrecognized arguments: --sheet",
            ("--library", "x"): "unrecognized arguments: --library x",
            ("--help",): "unrecognized arguments: --help",
            ("y",): "unrecognized arguments: y",
        }
        for options, message in messages.items():
            with self.subTest(options=options), self.assertRaises(NoAnswer) as caught:
                of_options(*options)
            self.assertIn(message, str(caught.exception))
        self.assertEqual(of_options("--entries", "262144").entries, 262144)
        self.assertEqual(of_options("--entries", "0").entries, 0)


class Names(unittest.TestCase):
    def check(self, message: str, *options: str) -> None:
        with self.subTest(options=options), self.assertRaises(NoAnswer) as caught:
            sheet_for(of_options(*options))
        self.assertEqual(str(caught.exception)[: len(message)], message)

    def test_names_that_the_rule_has_not(self) -> None:
        self.check("--given: the rule has no name `y`", "--given", "y=1", "--on", "[y]")
        self.check("--given: the rule has no name ``", "--given", "=1")
        self.check("--given: `_` is no name", "--given", "_=1")
        self.check("--bound: the rule has no name `y`", "--bound", "y", "--on", "[y]")

    def test_bad_values(self) -> None:
        end = "the end of the text"
        messages = {
            ("--on", "[1 2]"): "bad value: expected `,` or `]`, found `2`\n    [1 2]\n       ^\n",
            ("--on", ""): "bad value: the value is empty\n",
            ("--given", "w="): "bad value of `w`: the value is empty\n",
            ("--on", "1 = 2"): f"bad value: expected {end}, found `=`\n    1 = 2\n      ^\n",
            ("--on", "1.5"): "bad value: this number is not written as a whole one: write 15 and"
            " count in a unit 10 times smaller\n    1.5\n    ^^^\n",
            ("--given", "w=[x"): f"bad value of `w`: expected `,` or `]`, found {end}\n"
            "    [x\n      ^\n",
            ("--given", "w= 007"): "bad value of `w`: a number has no leading zeros\n"
            "     007\n     ^^^\n",
        }
        for options, message in messages.items():
            with self.subTest(options=options):
                status, printed, error = run("[w]", *options, TELUDDRU_SHARED=str(LIBRARY))
                self.assertEqual((status, printed, error), (2, "", message))


@with_library
class Planners(unittest.TestCase):
    def planner(self, *options: str, **variables: str) -> Library | Plansheet:
        named = {"TELUDDRU_SHARED": str(LIBRARY), "PLANSHEET": ""} | variables
        with mock.patch.dict("os.environ", named):
            return planner_of(command_parser().parse_args(["x", *options]))

    def test_named(self) -> None:
        self.assertEqual(self.planner().path, LIBRARY)
        self.assertIsInstance(self.planner("--library", str(LIBRARY), PLANSHEET="p"), Library)
        self.assertIsInstance(self.planner(PLANSHEET="p"), Plansheet)
        self.assertEqual(str(self.planner("--plansheet", "q", PLANSHEET="p").path), "q")
        self.assertEqual(run("--plansheet", "p", "--library", "l", "x")[0], 2)

    def test_a_planner_of_sheets_runs_nothing(self) -> None:
        options = {
            ("x", "--on", "1"): "--on",
            ("x = 1", "--run"): "--run",
            ("x", "--given", "x=1"): "--given",
            ("x", "--rego", "v1"): "--rego v1",
            ("x", "--entries", "1"): "--entries",
            ("x", "--on", "1", "--rego", "v1"): "--on, --rego v1",
        }
        for arguments, named in options.items():
            with self.subTest(arguments=arguments):
                error = f"/bin/cat plans sheets, which have no place for {named}\n"
                self.assertEqual(run(*arguments, PLANSHEET="/bin/cat"), (2, "", error))
                error = f"a sheet has no place for {named}: --sheet goes without\n"
                self.assertEqual(run(*arguments, "--sheet"), (2, "", error))


if __name__ == "__main__":
    unittest.main()
