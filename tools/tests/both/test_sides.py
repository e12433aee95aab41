"""The options of two patterns: whose name is meant, and what goes without --both."""

import unittest

from rules.no_answer import NoAnswer
from tests.both.asked import sides, told
from tests.planners import PLANSHEET, run, with_library, with_plansheet

MARKS = ["--bound", "x,2:w", "--local", "1:w, v", "--unbound", "v"]


class Names(unittest.TestCase):
    def test_whose_name_it_is(self) -> None:
        first, second = sides("[w, x]", "[w, v]", *MARKS, "--given", "1:w=1", "--given", "v = 2")
        self.assertEqual(first.question.marks, {b"x": 1, b"w": 8})
        self.assertEqual(second.question.marks, {b"w": 1, b"v": 12})
        self.assertEqual(first.question.given, {b"w": b"1"})
        self.assertEqual(second.question.given, {b"v": b" 2"})
        self.assertEqual((first.lent().marks, second.lent().marks), ([8, 1, 0], [1, 0, 12]))
        self.assertEqual((first.lent().values, second.lent().values), ([7, 0, 0], [0, 0, 8]))

    def test_a_name_in_both_ways(self) -> None:
        first, _ = sides("w", "1", "--bound", "w", "--local", "1:w")
        self.assertEqual(first.question.marks, {b"w": 9})

    def test_names_that_are_none(self) -> None:
        messages = {
            ("--given", "w=1"): "--given: both patterns have a name `w`, and these are two names:"
            " say 1:w or 2:w",
            ("--bound", "y"): "--bound: neither pattern has a name `y` (names inside",
            ("--given", "y=1"): "--given: neither pattern has a name `y` (names inside",
            ("--local", "1:v"): "--local: the first pattern has no name `v` (names inside",
            ("--given", "2:x=1"): "--given: the second pattern has no name `x` (names inside",
            ("--given", "3:x=1"): "--given: 1:NAME or 2:NAME is asked for, found `3:x`",
            ("--given", ":x=1"): "--given: 1:NAME or 2:NAME is asked for, found `:x`",
            ("--given", "x=1", "--given", "1:x=1"): "--given: `x` is given twice to one pattern",
            ("--given", "1:_=1"): "--given: `_` is no name",
            ("--given", "x=17..19"): "--given: an example is exact, so --both takes no range",
        }
        for options, message in messages.items():
            with self.subTest(options=options), self.assertRaises(NoAnswer) as caught:
                sides("[w, x, _]", "[w, v]", *options)
            self.assertEqual(str(caught.exception)[: len(message)], message)


@with_library
class Usage(unittest.TestCase):
    def test_bad_text(self) -> None:
        end = "the end of the text"
        texts = {
            ("[w", "x"): f"bad first pattern: expected `,` or `]`, found {end}\n    [w\n      ^\n",
            ("w", "[1.5]"): "bad second pattern: this number is not written as a whole one: write"
            " 15 and count in a unit 10 times smaller, or write (1.5), which is compared whole\n"
            "    [1.5]\n     ^^^\n",
            ("w", "w", "--given", "2:w=[1"): f"bad value of `2:w`: expected `,` or `]`, found"
            f" {end}\n    [1\n      ^\n",
        }
        for arguments, message in texts.items():
            with self.subTest(arguments=arguments):
                self.assertEqual(run("--both", *arguments), (2, "", message))

    def test_what_goes_without(self) -> None:
        options = (["x"], ["--sheet"], ["--careful"], ["--rego", "v1"], ["--on", "1"], ["--run"])
        more = (["--as", "index"], ["--entries", "3"], ["--html", "x"])
        files = (["--check", "-"], ["--body", "-"])
        for wrong in (*options, *more, *files):
            with self.subTest(options=wrong):
                self.assertEqual(run("--both", "1", "1", *wrong)[:2], (2, ""))
        self.assertEqual(run("--both", "1")[0], 2)

    def test_rules(self) -> None:
        for rule in ("x = 1", "x := 1", "some x in y"):
            message = (
                "--both takes two patterns; the {} is a rule with =, := or some: give its pattern"
            )
            self.assertEqual(told(rule, "1"), (2, [message.format("first")]))
            self.assertEqual(told("1", rule), (2, [message.format("second")]))


@with_plansheet
class BySheets(unittest.TestCase):
    def test_a_planner_of_sheets_has_no_examples(self) -> None:
        status, _, error = run("--both", "1", "1", "--plansheet", str(PLANSHEET))
        self.assertEqual(status, 2)
        said = "plans sheets and gives no examples: --both goes without it\n"
        self.assertTrue(error.endswith(said))


if __name__ == "__main__":
    unittest.main()
