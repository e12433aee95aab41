"""Where it is said that the sides never match, and where not."""

import unittest

from rules.run.values import not_simple
from rules.tables.listing import Refusal
from rules.words.conclusions import NEVER, NO_ITEM, conclusions_in_words, is_never
from tests.planners import asked, run, with_library

PROVED = {
    "[w, w] := [18, 16, 18]": NEVER,
    "[[x], 1] = [[1, 2], y]": NEVER,
    '{"a": x} := {"b": 1}': NEVER,
    '{1: x, "1": y} := {"1": 2}': NEVER,
    '{"a": x} = {"a": 1, "b": y}': NEVER,
    '[{"a": x}, 1] = [{"b": 2}, z]': NEVER,
    "some [x] in [[1, 2], []]": NO_ITEM,
    "some k, [x] in [[1, 2]]": NO_ITEM,
}
# With the caret below the part of which nothing is proved.
UNPROVED = {
    '{"a": x} := {"a": 1, "a": 1}': ("a repeated key", "                     ^^^"),
    '{"a": x} = {"a": 1, "a": y}': ("a repeated key", "                    ^^^"),
    "[x, {y}] := [1, {2}, 3]": ("a set", "    ^^^"),
    "[x] := [1, f(y)]": ("an expression that is taken whole", "           ^^^^"),
    "[{k: x}] := [1, 2]": ("a computed key", "  ^"),
    "some [x] in [[1, 2], [1, {2}]]": ("a set", "                         ^^^"),
}


def last_lines(rule: str, *options: str) -> list[str]:
    answer = asked(rule, *options)
    assert isinstance(answer.outcome, Refusal), rule
    return conclusions_in_words(answer.sheet, answer.outcome)


@with_library
class Shapes(unittest.TestCase):
    def test_proved(self) -> None:
        numbers = set()
        for rule, words in PROVED.items():
            for careful in ((), ("--careful",)):
                with self.subTest(rule=rule, careful=careful):
                    answer = asked(rule, *careful)
                    numbers.add(answer.outcome.number)
                    self.assertEqual(last_lines(rule, *careful), [words])
                    self.assertTrue(is_never(answer.sheet, answer.outcome))
        self.assertEqual(numbers, {12, 13, 14, 15, 16})

    def test_not_proved(self) -> None:
        for rule, (what, caret) in UNPROVED.items():
            with self.subTest(rule=rule):
                answer = asked(rule)
                said = f"whether the sides can match is not proved, as here stands {what}"
                self.assertEqual(last_lines(rule), [said, f"    {rule}\n    {caret}"])
                self.assertFalse(is_never(answer.sheet, answer.outcome))

    def test_sides_that_are_proved_are_simple(self) -> None:
        """The promise speaks of sides that a run takes as patterns."""
        for rule in PROVED:
            sheet = asked(rule).sheet
            self.assertEqual([not_simple(sheet, root) for root in sheet.roots[:2]], [None, None])

    def test_other_refusals(self) -> None:
        for rule, options in (("1 := 1", ()), ("x := 1", ("--bound-here", "x"))):
            self.assertEqual(last_lines(rule, *options), [])


@with_library
class Values(unittest.TestCase):
    def test_strings_without_quotes(self) -> None:
        quotes = "a string stands in double quotes:"
        lines = {
            ("--on", "oak"): f"""{quotes} --on '"oak"'""",
            ("--on", "[oak]"): f'{quotes} "oak"',
            ("--on", "[True]"): "the value is written true",
            ("--on", "1", "--given", "x=oak"): f"""{quotes} --given x='"oak"'""",
        }
        for options, line in lines.items():
            with self.subTest(options=options):
                status, printed, _ = run("x", *options)
                self.assertEqual((status, printed.splitlines()[-1]), (1, line))

    def test_what_is_no_string(self) -> None:
        for value in ("[_]", "{1}", "f(x)"):
            self.assertIn("^", run("x", "--on", value)[1].splitlines()[-1])
        self.assertIn("^", run("x := y", "--run")[1].splitlines()[-1])


if __name__ == "__main__":
    unittest.main()
