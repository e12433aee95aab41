"""Runs on measured numbers: what is read and said, held against the runs of all choices."""

import itertools
import random
import re
import unittest
from unittest import mock

from rules.no_answer import NoAnswer
from rules.run.choices import Pair, chosen, chosen_text, differing_choice
from rules.run.verdict import Always, Match, Never, NoMatch, Sometimes, verdict_of
from rules.tables.listing import RunRefusal
from rules.text.ranges import read_value
from rules.text.tokens import RuleTextError
from rules.words.verdicts import verdict_in_words
from tests.planners import asked, library, run, with_library
from tests.run.test_agreement import NAMES, Wrong, text_of

RUNS = 1_000
MOST_CHOICES = 60
LEAVES = ["0..1", "0..0", "-1..1", "1", "0", '"a"', "true"]
PATTERN_LEAVES = ["0", "1", *NAMES]
RANGE = re.compile(r"-?[0-9]+\.\.[0-9]+")
KINDS = {Always: "always", Sometimes: "sometimes", Never: "never", RunRefusal: "refused"}


def said(rule: str, *options: str) -> list[str]:
    return verdict_in_words(asked(rule, *options)).splitlines()


def like(chance: random.Random, value: str) -> str:
    """A pattern of a value's shape, with names and numbers for its ranges."""
    return RANGE.sub(lambda found: chance.choice(PATTERN_LEAVES), value)


class Texts(unittest.TestCase):
    def items(self, text: str) -> list[str]:
        ends = read_value(text.encode()).items
        return [text[end.start : end.end] for end in ends]

    def test_ranges(self) -> None:
        self.assertEqual(self.items("17..19"), ["17", "19"])
        self.assertEqual(self.items("-3..-1"), ["-3", "-1"])
        self.assertEqual(self.items("[1..2, 3]"), ["1..2", "3"])
        self.assertEqual(self.items("17"), [])

    def test_what_is_none(self) -> None:
        wrong = {
            "1..": "expected a range's highest number, found the end of the text",
            "1..x": "expected a range's highest number, found `x`",
            "1..- 2": "expected a range's highest number, found `2`",
            "1 ..2": "expected the end of the text, found `.`",
            "1. .2": "expected the end of the text, found `.`",
            "{1..2: 3}": "a key is exact, it has no range",
            "[{1..2: 3}]": "a key is exact, it has no range",
        }
        for text, message in wrong.items():
            with self.subTest(text=text), self.assertRaises(RuleTextError) as caught:
                read_value(text.encode())
            self.assertEqual(str(caught.exception), message)

    def test_a_rule_has_no_ranges(self) -> None:
        status, _, error = run("[w, w] = [17..19, 18]")
        self.assertEqual(status, 2)
        self.assertIn("expected `,` or `]`, found `.`", error)


@with_library
class Words(unittest.TestCase):
    def test_always(self) -> None:
        lines = ["run on [17..19, 18]: always", "    w = 17..19"]
        self.assertEqual(said("[w, 18]", "--on", "[17..19, 18]"), lines)

    def test_sometimes_by_a_literal(self) -> None:
        lines = [
            "run on [17..19]: sometimes",
            "    [17..19]",
            "     ^^^^^^ 18 is asked for (column 2), and 17..19 stands here",
            "    match on [18]",
            "    no match on [17]",
        ]
        self.assertEqual(said("[18]", "--on", "[17..19]"), lines)

    def test_sometimes_inside_a_name(self) -> None:
        lines = said("[w, w]", "--on", '[{"a": 1..2}, {"a": 2}]')
        self.assertEqual(lines[2].strip(" ^"), "`w` has 1..2 (column 8), and 2 stands here")
        given = said("w", "--on", "[1, 2]", "--given", "w=[1, 2..3]")
        self.assertEqual(given[2].strip(" ^"), "`w` has 2..3 (given), and 2 stands here")
        self.assertEqual(given[3], "    match on [1, 2], given w = [1, 2]")
        self.assertEqual(given[4], "    no match on [1, 2], given w = [1, 3]")

    def test_one_number_at_both_places(self) -> None:
        """The node that a name is bound to is chosen once."""
        lines = said("[w, [w, 18]]", "--on", "[17..19, [18, 17..18]]")
        choices = ["    match on [18, [18, 18]]", "    no match on [17, [18, 17]]"]
        self.assertEqual(lines[3:], choices)

    def test_never(self) -> None:
        lines = said("[w, w, w]", "--on", "[1..10, 1..3, 5..7]")
        self.assertEqual(lines[0], "run on [1..10, 1..3, 5..7]: never")
        words = "`w` is 1..10 (column 2), and 5..7 stands here; of 1..10 only 1..3 is left by then"
        self.assertEqual(lines[2].strip(" ^"), words)

    def test_never_by_a_shape(self) -> None:
        """A miss behind numbers that may be equal, told by the proved call."""
        lines = said("[w, w, [x]]", "--on", "[1..2, 2, [3, 4]]")
        words = "an array of 1 is asked for (column 8), and an array of 2 stands here"
        self.assertEqual(lines[2], f"              ^^^^^^ {words}")
        lines = said('[18, {"a": w}]', "--on", '[17..19, {"b": 1}]')
        self.assertIn('key "a" is asked for (column 7)', lines[2])
        lines = said("[w, w]", "--on", "[[1..2], [2, 3]]")
        words = "`w` is [1..2] (column 2), and [2, 3] stands here"
        self.assertEqual(lines[2].strip(" ^"), words)

    def test_wrong_range(self) -> None:
        lines = said("[w, w]", "--on", "[19..17, 18]")
        self.assertIn("refused, 32 range wrong: a range's lowest number is above", lines[0])
        self.assertEqual(lines[2], "     ^^^^^^ the range")

    def test_a_note_on_what_is_given(self) -> None:
        _, printed, _ = run("w = 16", "--given", "w=17..19")
        self.assertIn("note: with the values given this rule never matches: `w` is 17..19", printed)
        self.assertNotIn("note", run("w = 18", "--given", "w=17..19")[1])

    def test_exit_status(self) -> None:
        for value, status in (("[18..18, 18]", 0), ("[17..19, 18]", 1), ("[16..17, 18]", 1)):
            self.assertEqual(run("[w, w]", "--on", value)[0], status)


@with_library
class Agreement(unittest.TestCase):
    def test_random_runs(self) -> None:
        """The verdict is that of all choices, each run by the library."""
        chance = random.Random(4)
        met: dict[str, int] = {}
        for _ in range(RUNS):
            value = text_of(chance, LEAVES, 3)
            pattern = chance.choice([like(chance, value), text_of(chance, PATTERN_LEAVES, 2)])
            given = [f"--given=g={text_of(chance, LEAVES, 1)}"] if "g" in pattern else []
            if ".." not in value + "".join(given):
                continue
            answer = asked(pattern, f"--on={value}", *given)
            kind = KINDS[type(answer.verdict)]
            met[kind] = met.get(kind, 0) + 1
            if kind != "refused":
                self.check_choices(answer, kind)
        for kind in ("always", "sometimes", "never"):
            self.assertGreater(met[kind], 10, met)

    def check_choices(self, answer: object, kind: str) -> None:
        sheet, task = answer.sheet, answer.task
        spans = [range(ends.lowest, ends.highest + 1) for ends in sheet.ranges.values()]
        choices = itertools.islice(itertools.product(*spans), MOST_CHOICES)
        found = set()
        for choice in choices:
            numbers = dict(zip(sheet.ranges, choice))
            verdict = verdict_of(chosen(sheet, numbers), task, library(), 1536)
            found.add(isinstance(verdict, Match))
        allowed = {"always": [{True}], "never": [{False}]}
        self.assertIn(found, allowed.get(kind, [{True}, {False}, {True, False}]))

    def test_a_wrong_library(self) -> None:
        """Which says of sometimes that it is never, and of never that it is sometimes."""
        wrong = {
            ("[17..19, 18]", 100): "answers no match and tells no miss: 0",
            ("[16..17, 18]", 101): "the tool's choice of numbers is none",
            ("[17..19, true]", 101): "the tool finds nothing that decides",
        }
        for (value, number), message in wrong.items():
            with self.subTest(value=value), self.assertRaises(NoAnswer) as caught:
                asked("[w, w]", "--on", value, planner=Wrong(answer=[number, 0, 0, 0]))
            self.assertIn(message, str(caught.exception))

    def test_a_wrong_choice(self) -> None:
        with mock.patch("rules.run.verdict.differing_choice", lambda sheet, pair: {4: 18}):
            with self.assertRaises(NoAnswer) as caught:
                asked("[w, w]", "--on", "[17..19, 18]")
        self.assertIn("the tool's choice of numbers is none", str(caught.exception))

    def test_an_old_library(self) -> None:
        with mock.patch("rules.tables.library.called", side_effect=AttributeError):
            with self.assertRaises(NoAnswer) as caught:
                library().tolerance_call()
        self.assertIn("doesn't know ranges: build it anew", str(caught.exception))


@with_library
class Choices(unittest.TestCase):
    def test_differing(self) -> None:
        for value, numbers in (
            ("[1..2, 1]", [2]),
            ("[1, 1..2]", [2]),
            ("[1..2, 2]", [1]),
            ("[1..2, 1..3]", [2, 1]),
        ):
            sheet = asked("[_, _]", "--on", value).sheet
            pair = Pair(*sheet.items_of(len(sheet.nodes)))
            self.assertEqual(list(differing_choice(sheet, pair).values()), numbers)

    def test_text(self) -> None:
        sheet = asked("_", "--on", '[1..2, {"a": -3..-1}]').sheet
        nodes = sorted(sheet.ranges)
        text = chosen_text(sheet, sheet.parts[1], dict(zip(nodes, (2, -3))))
        self.assertEqual(text, b'[2, {"a": -3}]')
        self.assertIsInstance(asked("_", "--on", "1").verdict, Match)
        self.assertNotIsInstance(asked("2", "--on", "1").verdict, Never)
        self.assertIsInstance(asked("2", "--on", "1").verdict, NoMatch)


if __name__ == "__main__":
    unittest.main()
