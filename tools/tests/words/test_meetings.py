"""What is said of a refusal 18, and that the advice helps."""

import unittest

from rules.tables.listing import Plan, Refusal
from rules.words.conclusions import conclusions_of
from rules.words.meetings import BOTH_SHAPES, NO_NAME
from rules.words.refusals import places_of
from tests.planners import asked, run, with_library

# Rules that are refused with 18: the words at the place, and the names to be given values.
MEET = {
    "x = y": ("neither `x` nor `y` has a value yet", "y"),
    "x = x": ("`x` stands on both sides, and has no value yet", "x"),
    "[1, x] = [1, y]": ("neither `x` nor `y` has a value yet", "y"),
    "[x, y] = [y, x]": ("neither `x` nor `y` has a value yet", "y"),
    "[_] = [x]": ("`_` and `x` both bind", "x"),
    "x = {k: y}": ("`x` and {k: y} both bind", "y"),
    "[[x, y], 1] = [z, w]": ("[x, y] and `z` both bind", "z"),
    "[z, 1] = [[x, y], w]": ("`z` and [x, y] both bind", "z"),
    '{k: [x, y]} = {"a": [u, v]}': (
        "{k: [x, y]} has a computed key, and both sides bind",
        "u,v",
    ),
    '{k: x} = {"a": y}': ("{k: x} has a computed key, and both sides bind", "y"),
    '{"a": x} = {k: [y]}': ("{k: [y]} has a computed key, and both sides bind", "y"),
    '{"a": _, "b": 1} = {"a": 1, "a": x}': ("`_` and `x` both bind", "x"),
    '{"a": x, "b": [y]} = {"b": [z], "a": 1}': ("neither `y` nor `z` has a value yet", "z"),
}
OPPOSED = {
    "[x] := {}": "an array stands here against an object, {}",
    "{} = [x]": "an array stands here against an object, {}",
    '{"a": x} = [1]': "an object stands here against an array, [1]",
    "[{}, x, 1] = [[y], 2, z]": "an object stands here against an array, [y]",
}


def label(rule: str, *options: str) -> str:
    """The words at the place of a refusal."""
    answer = asked(rule, *options)
    assert isinstance(answer.outcome, Refusal) and answer.outcome.number == 18, rule
    ((_, words),) = places_of(answer.sheet, answer.outcome)
    return words


def advice(rule: str, *options: str) -> str:
    answer = asked(rule, *options)
    (conclusion,) = conclusions_of(answer.sheet, answer.outcome)
    return conclusion.words


@with_library
class Meetings(unittest.TestCase):
    def test_what_meets(self) -> None:
        for rule, (words, _) in MEET.items():
            with self.subTest(rule=rule):
                self.assertEqual(label(rule), words)
        for rule, words in OPPOSED.items():
            with self.subTest(rule=rule):
                self.assertEqual((label(rule), advice(rule)), (words, BOTH_SHAPES))

    def test_advice_helps(self) -> None:
        """With the names that are told the rule is planned, or its shape is found wrong."""
        for rule, (_, names) in MEET.items():
            with self.subTest(rule=rule):
                self.assertTrue(advice(rule).endswith(f"by a line before it or --bound {names}"))
                outcome = asked(rule, "--bound", names).outcome
                self.assertTrue(isinstance(outcome, Plan) or outcome.number == 14, outcome)
        planned = [isinstance(asked(rule, "--bound", MEET[rule][1]).outcome, Plan) for rule in MEET]
        self.assertEqual(planned.count(False), 2)

    def test_words_of_advice(self) -> None:
        whom = {
            "x = y": "one of them a value, by a line before it or --bound y",
            "[_] = [x]": "`x` a value, by a line before it or --bound x",
            '{k: [x, y]} = {"a": [u, v]}': "`u` and `v` values, by a line before it or --bound u,v",
        }
        for rule, words in whom.items():
            self.assertEqual(advice(rule), f"the rule may be right: give {words}")
        self.assertEqual(advice("[_] = [_]"), NO_NAME)

    def test_no_value_holds_itself(self) -> None:
        """No scope helps: the two are never equal."""
        said = "no value holds itself, as `x` would: take another name at one place"
        for rule in ('x = {"a": x}', "[[[x]], 1] = [x, y]", '{"a": x} = {"a": [1, {"b": x}]}'):
            with self.subTest(rule=rule):
                self.assertEqual(advice(rule), said)
        self.assertEqual(label('x = {"a": x}'), '`x` and {"a": x} both bind')
        for rule in ("[_] = [[_]]", "x = [y, {x: y}]", "x = [y, {x}]"):
            self.assertNotEqual(advice(rule), said)

    def test_names_that_options_mark(self) -> None:
        """--bound would not help where another option says unbound."""
        said = "the rule may be right: give one of them a value, by a line before it"
        self.assertEqual(advice("x = y", "--unbound", "y"), said)

    def test_in_a_body(self) -> None:
        """What an earlier line binds has a value: only `y` is left on the side of `x`."""
        rule = '{k: [x, y]} = {"a": [u, v]}'
        lines = run("--body", "-", text=f"x := 1\n{rule}\n".encode())[1].splitlines()
        said = "the rule may be right: give `y` a value, by a line before it or --bound y"
        self.assertEqual(lines[-1], said)


if __name__ == "__main__":
    unittest.main()
