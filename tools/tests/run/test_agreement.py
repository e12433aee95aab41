"""What is told of runs, tried by runs on it; libraries that don't agree."""

import random
import re
import unittest
from unittest import mock

from rules.answer import Answer
from rules.no_answer import NoAnswer
from rules.run.verdict import Match, NoMatch
from rules.tables.library import Library, Ran
from rules.tables.listing import RunRefusal
from rules.tables.places import node_text
from tests.planners import LIBRARY, asked, run, with_library

RUNS = 2_000
LITERALS = ["0", "7", "-3", '"a"', "`a`", '"b"', "true", "null"]
NAMES = ["x", "y", "g", "_"]
# Of a name or a literal: what should stand at the place.
ASKED = re.compile(r"(?:(.+) is asked for|`\w` is (.+)) \([^()]*\), and .* stands here")


def text_of(chance: random.Random, leaves: list[str], depth: int) -> str:
    """A random expression of these leaves."""
    kind = chance.randrange(4) if depth else 0
    if kind < 2:
        return chance.choice(leaves)
    items = [text_of(chance, leaves, depth - 1) for _ in range(chance.randrange(3))]
    if kind == 2:
        return "[" + ", ".join(items) + "]"
    keys = chance.sample(['"a"', '"b"', "1", "`1`"], len(items))
    return "{" + ", ".join(f"{key}: {item}" for key, item in zip(keys, items)) + "}"


def blurred(chance: random.Random, value: str) -> str:
    """A pattern that is often like the value."""
    for _ in range(chance.randrange(4)):
        value = value.replace(chance.choice(LITERALS), chance.choice(NAMES), 1)
    return value


@with_library
class Agreement(unittest.TestCase):
    def test_random_runs(self) -> None:
        chance = random.Random(28)
        met: dict[type, int] = {}
        for _ in range(RUNS):
            value = text_of(chance, LITERALS, 3)
            leaves = LITERALS + NAMES
            pattern = chance.choice([blurred(chance, value), text_of(chance, leaves, 2)])
            given = ["--given", f"g={text_of(chance, LITERALS, 1)}"] if "g" in pattern else []
            answer = asked(pattern, "--on", value, *given)
            met[type(answer.verdict)] = met.get(type(answer.verdict), 0) + 1
            self.check_told(answer, pattern, value, given)
        for verdict in (Match, NoMatch, RunRefusal):
            self.assertGreater(met[verdict], RUNS // 200)

    def check_told(self, answer: Answer, pattern: str, value: str, given: list[str]) -> None:
        with self.subTest(pattern=pattern, value=value, given=given):
            if isinstance(answer.verdict, Match):
                self.check_values(answer, pattern, value, given)
            elif isinstance(answer.verdict, NoMatch):
                self.check_miss(answer, pattern, value, given)

    def check_values(self, answer: Answer, pattern: str, value: str, given: list[str]) -> None:
        """With the names given what they are said to have been set to, all is compared."""
        values = answer.verdict.values.items()
        told = [f"--given={name.decode()}={node_text(answer.sheet, node)}" for name, node in values]
        self.assertEqual(asked(pattern, f"--on={value}", *given, *told).verdict, Match({}))

    def check_miss(self, answer: Answer, pattern: str, value: str, given: list[str]) -> None:
        """With what is asked for at the place, the run misses elsewhere, or matches."""
        told = ASKED.fullmatch(answer.verdict.miss.words)
        if told is None or "array of" in told[0] or "an object" in told[0]:
            return
        place = place_of_miss(answer)
        mended = value[: place.start] + (told[1] or told[2]) + value[place.stop :]
        again = asked(pattern, f"--on={mended}", *given)
        self.assertIsInstance(again.verdict, (Match, NoMatch))
        if isinstance(again.verdict, NoMatch):
            self.assertNotEqual(place_of_miss(again).start, place.start)


def place_of_miss(answer: Answer) -> range:
    """The bytes of the value's text."""
    node = answer.sheet.node(answer.verdict.miss.node)
    part = answer.sheet.part_of(node.start)
    return range(node.start - part.start, node.end - part.start)


class Wrong(Library):
    """A library whose runs answer something else."""

    def __init__(self, **changes: object) -> None:
        super().__init__(LIBRARY)
        self.changes = changes

    def run(self, *arguments: object) -> Ran:
        return super().run(*arguments)._replace(**self.changes)


@with_library
class Disagreement(unittest.TestCase):
    def check(self, message: str, rule: str, *options: str, **changes: object) -> None:
        with self.subTest(message=message):
            with self.assertRaises(NoAnswer) as caught:
                asked(rule, *options, planner=Wrong(**changes))
            said = str(caught.exception)
            self.assertEqual(said, f"the tool's reading disagrees with the proved run, {message}")

    def test_refusals(self) -> None:
        self.check(
            "which answers refusal 22; the tool finds nothing in the way",
            *("[w, w]", "--on", "[18, 16]"),
            answer=[22, 0, 0, 0],
            entries=[],
        )
        self.check(
            "which answers match; the tool reads refusal 22",
            *("x", "--on", "y"),
            answer=[0, 0, 0, 0],
        )
        self.check(
            "which answers refusal 21; the tool reads refusal 23",
            *("x", "--on", "1", "--bound", "x"),
            answer=[21, 0, 0, 0],
        )
        self.check(
            "which answers refusal 6; the tool reads refusal 22",
            *("x", "--on", "y"),
            answer=[6, 0, 1, 0],
        )

    def test_no_miss_is_told(self) -> None:
        with mock.patch("rules.options.Library", lambda path: Wrong(answer=[100, 0, 0, 0])):
            status, printed, error = run("[w, w]", "--on", "[18, 18]")
            self.assertEqual((status, printed), (2, ""))
            self.assertIn("answers no match and tells no miss: 0", error)


if __name__ == "__main__":
    unittest.main()
