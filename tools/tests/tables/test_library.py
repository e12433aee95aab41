import tempfile
import unittest
from pathlib import Path

from rules.no_answer import NoAnswer
from rules.question import Question, sheet_for
from rules.tables.library import Library
from rules.tables.listing import Plan, Refusal
from rules.tables.plansheet import Plansheet
from tests.planners import LIBRARY, PLANSHEET, library, with_library, with_plansheet

LARGE = b"[" + b", ".join(b"x%d" % number for number in range(100)) + b"]"
RULES = [
    "[x, x]",
    "[-9223372036854775808, 18446744073709551615, 0]",
    '{"b": `é`, "a": "\\u00e9", null: true, 1: _, k: f(x)} = y',
    "some k, [v] in xs",
    "[x, 1] = [1, x]",
    "[x, [y]] := [1, [1, 2]]",
    "[x] := [1, 2]",
    "1 := 1",
    "[]",
    "[" * 33 + "]" * 33,
]


@with_library
class Plans(unittest.TestCase):
    @with_plansheet
    def test_as_plansheet_has_them(self) -> None:
        plansheet = Plansheet(PLANSHEET)
        for rule in RULES:
            for marks in ({}, {b"x": 1, b"y": 1}, {b"x": 3}):
                with self.subTest(rule=rule, marks=marks):
                    sheet = sheet_for(Question(rule.encode(), marks=marks))
                    found = library().plan(sheet, 0, 1536)
                    self.assertEqual(found, plansheet.plan(sheet, 0, 1536))

    def test_space_for_the_plan(self) -> None:
        sheet = sheet_for(Question(LARGE))
        self.assertEqual(library().plan(sheet, 0, 100), Refusal(6, 0, (101, 0)))
        self.assertIsInstance(library().plan(sheet, 0, 101), Plan)
        self.assertIsInstance(library().plan(sheet, 0, 10_000), Plan)


@with_library
class Runs(unittest.TestCase):
    def test_a_plan_that_fills_its_space(self) -> None:
        """What a larger plan has left behind in the buffer is no part of it."""
        library().plan(sheet_for(Question(LARGE)), 0, 1536)
        sheet = sheet_for(Question(b"[w, w]", on=b"[18, 18]"))
        ran = library().run(sheet, sheet.roots[0], sheet.value, 1, [0], 3)
        self.assertEqual((ran.answer[0], len(ran.entries), ran.values), (0, 3, [4]))

    def test_a_list_that_is_too_short(self) -> None:
        sheet = sheet_for(Question(b"x", on=b"1"))
        self.assertEqual(library().run(sheet, 1, 2, 1, [], 9).answer, [20, 0, 0, 0])


class Missing(unittest.TestCase):
    def test_no_library(self) -> None:
        with self.assertRaisesRegex(NoAnswer, "there is no /nowhere: .* tools/build_library"):
            Library(Path("/nowhere"))

    def test_no_such_calls(self) -> None:
        with tempfile.NamedTemporaryFile() as empty:
            with self.assertRaisesRegex(NoAnswer, "can't be called"):
                Library(Path(empty.name))


@with_library
class Unreadable(unittest.TestCase):
    """A library whose plan is none is no answer."""

    def wrong(self) -> Library:
        loaded = Library(LIBRARY)
        loaded.rows = lambda entries: [[9, 1, 0, 0, 0]]
        return loaded

    def test_plan(self) -> None:
        with self.assertRaisesRegex(NoAnswer, "the plan of .* can't be read"):
            self.wrong().plan(sheet_for(Question(b"x")), 0, 9)

    def test_run(self) -> None:
        with self.assertRaisesRegex(NoAnswer, "the run's plan of .* can't be read"):
            self.wrong().run(sheet_for(Question(b"x", on=b"1")), 1, 2, 1, [0], 9)


if __name__ == "__main__":
    unittest.main()
