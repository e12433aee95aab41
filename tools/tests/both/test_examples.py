"""Examples that both patterns match, the runs on them, and libraries that are wrong."""

import unittest
from unittest import mock

from rules.both.asking import NoExample
from rules.no_answer import NoAnswer
from rules.run.verdict import Match
from rules.tables.library import ExampleAnswer, Library
from rules.tables.sheet import Node
from rules.text.rule_text import Kind
from tests.both.asked import outcome, told
from tests.planners import LIBRARY, library, run, with_library


@with_library
class Examples(unittest.TestCase):
    def test_example_and_runs(self) -> None:
        status, lines = told("[w, w, 3]", "[18, t, _]")
        self.assertEqual((status, lines[0]), (0, "both match [18, 18, 3]"))
        plan, verdict = run("[w, w, 3]", "--on", "[18, 18, 3]")[1], "    w = 18"
        second = run("[18, t, _]", "--on", "[18, 18, 3]")[1]
        runs = f"first pattern: {plan}second pattern: {second}".splitlines()
        self.assertEqual(lines[1:], runs)
        self.assertIn(verdict, runs)

    def test_texts(self) -> None:
        texts = {
            ("x", "y"): "null",
            ("[x, x, y]", "[z, 1, _]"): "[1, 1, null]",
            ("[]", "[]"): "[]",
            ('{2: x, "b": []}', '{"b": y, 2: {null: 1}}'): '{2: {null: 1}, "b": []}',
            ("[x, `a`]", '[true, "a"]'): '[true, "a"]',
            ('[`"`]', "[x]"): '["\\""]',
            ("x", '"\\u00e9\\n\\u2028\\\\"'): '"é\\n\\u2028\\\\"',
            ("18446744073709551615", "x"): "18446744073709551615",
            ("-3", "-3"): "-3",
        }
        for patterns, text in texts.items():
            with self.subTest(patterns=patterns):
                found = outcome(*patterns)
                self.assertEqual(found.text, text)
                self.assertEqual([type(answer.verdict) for answer in found.runs], [Match, Match])

    def test_names_of_two_patterns_differ(self) -> None:
        self.assertEqual(outcome("[x, 1]", "[2, x]").text, "[2, 1]")
        self.assertIsInstance(outcome("[x, 1, x]", "[2, x, x]"), NoExample)

    def test_given_values(self) -> None:
        self.assertEqual(outcome("[w, v]", "[x, x]", "--given", "w=18").text, "[18, 18]")
        both = outcome("[w, v]", "[w, w]", "--given", "2:w=[16]")
        self.assertEqual(both.text, "[[16], [16]]")
        names = [answer.verdict.values for answer in both.runs]
        self.assertEqual([list(found) for found in names], [[b"w", b"v"], []])
        known = ("w", "18", "--given", "w=16")
        self.assertIsInstance(outcome(*known), NoExample)
        self.assertEqual(outcome(*known, "--unbound", "w").text, "18")
        self.assertEqual(outcome(*known, "--scoping", "shadow").text, "18")
        local = ("--local", "w", "--bound", "w")
        self.assertIsInstance(outcome(*known, *local), NoExample)
        self.assertEqual(outcome(*known, *local, "--scheduler").text, "18")

    def test_a_run_that_the_limits_do_not_allow(self) -> None:
        status, lines = told("[" + "x, " * 109 + "x]", "[[1, 1, 1]" + ", _" * 109 + "]")
        self.assertEqual((status, lines[0][:32]), (0, "both match [[1, 1, 1], [1, 1, 1]"))
        self.assertEqual(lines[1][:53], "first pattern: not run on it: refused, 1 over a limit")
        self.assertEqual(lines[2], "nodes: 552, at most 512")


class Wrong(Library):
    """A library whose examples are something else."""

    def __init__(self, **changes: object) -> None:
        super().__init__(LIBRARY)
        self.changes = changes

    def common_example(self, *arguments: object) -> ExampleAnswer:
        return super().common_example(*arguments)._replace(**self.changes)


@with_library
class Disagreement(unittest.TestCase):
    def check(self, message: str, *arguments: str, **changes: object) -> None:
        with self.subTest(message=message), self.assertRaises(NoAnswer) as caught:
            outcome(*arguments, planner=Wrong(**changes))
        self.assertIn(message, str(caught.exception))

    def test_refusals(self) -> None:
        self.check(
            "the proved call, which answers an example; the tool reads refusal 21",
            *("{x}", "y"),
            answer=[0, 3, 1, 0],
        )
        self.check(
            "the proved call, which answers no example; the tool reads refusal 23",
            *("y", "x", "--bound", "x"),
            answer=[100, 0, 0, 0],
        )
        self.check(
            "the proved call, which answers refusal 36; the tool reads refusal 22",
            *("y", "x", "--given", "x=z"),
            answer=[36, 0, 0, 0],
        )
        self.check(
            "the proved call, which answers refusal 21; the tool finds nothing in the way",
            *("x", "y"),
            answer=[21, 0, 0, 0],
        )

    def test_an_example_that_is_none(self) -> None:
        wrong = [Node(Kind.NUMBER, 0, 0, 0, 0)]
        message = "a run of the second pattern on the example found doesn't match"
        self.check(message, "1", "2", answer=[0, 3, 1, 0], nodes=wrong)

    def test_no_place_is_no_other_verdict(self) -> None:
        self.assertEqual(outcome("x", "1", planner=Wrong(answer=[100, 0, 0, 0])), NoExample(None))
        wrong = mock.patch("rules.options.Library", lambda path: Wrong(answer=[100, 0, 0, 0]))
        with wrong:
            status, lines = told("x", "1")
        self.assertEqual(status, 1)
        self.assertEqual(lines[1], "the place where they can't agree was not found")

    def test_words_that_are_no_nodes(self) -> None:
        def kinds(*arguments: object) -> None:
            raise ValueError("11 is not a valid Kind")

        with mock.patch("rules.tables.library.Kind", kinds):
            with self.assertRaisesRegex(NoAnswer, "the example of .* can't be read: 11 is not"):
                outcome("x", "y")

    def test_an_old_library(self) -> None:
        with mock.patch("rules.tables.library.example_called", side_effect=AttributeError):
            with self.assertRaisesRegex(NoAnswer, "doesn't know --both: build it anew"):
                library().example_call()


if __name__ == "__main__":
    unittest.main()
