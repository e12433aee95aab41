"""Colours, on a terminal alone."""

import io
import os
import re
import unittest
from unittest import mock

from rules.words.colours import BLUE, DIM, GREEN, RED, YELLOW, coloured, has_colours, paint
from tests.planners import run, with_library


class Terminal(io.StringIO):
    def isatty(self) -> bool:
        return True


class Streams(unittest.TestCase):
    def test_terminals(self) -> None:
        plain = {"NO_COLOR": "", "TERM": "xterm"}
        for more, expected in (({}, True), ({"NO_COLOR": "1"}, False), ({"TERM": "dumb"}, False)):
            with mock.patch.dict(os.environ, plain | more):
                self.assertEqual(has_colours(Terminal()), expected)
                self.assertFalse(has_colours(io.StringIO()))


@with_library
class Colours(unittest.TestCase):
    def check(self, *arguments: str, text: bytes = b"") -> list[str]:
        """The lines in colours; without them they are what is said elsewhere."""
        printed = run(*arguments, text=text)[1]
        self.assertNotIn("\x1b", printed)
        with_colours = coloured(printed)
        self.assertEqual(re.sub("\x1b\\[[0-9]+m", "", with_colours), printed)
        return with_colours.splitlines()

    def test_plan_and_miss(self) -> None:
        lines = self.check('{"a": w, "b: bind x": [w, _]}', "--on", '{"a": 1, "b: bind x": [2, 3]}')
        self.assertIn('     7    field 1, "a": ' + paint(GREEN, "bind w"), lines)
        self.assertIn("    24      " + paint(BLUE, "compare w, bound at column 7"), lines)
        self.assertIn("    27      " + paint(DIM, "ignore _"), lines)
        self.assertTrue(lines[-3].endswith(": " + paint(RED, "no match")))
        miss = paint(RED, "^ `w` is 1 (column 7), and 2 stands here")
        self.assertEqual(lines[-1].lstrip(" "), miss)

    def test_verdicts(self) -> None:
        self.assertIn("run on 1: " + paint(GREEN, "match"), self.check("x", "--on", "1"))
        self.assertTrue(self.check("x = y")[0].startswith(f"\x1b[{RED}mrefused, 18"))
        self.assertTrue(self.check("18", "--on", "17..19")[-5].endswith(paint(RED, "sometimes")))

    def test_two_patterns(self) -> None:
        self.assertEqual(self.check("--both", "x", "1")[0], paint(GREEN, "both match 1"))
        none = paint(RED, "no value matches both patterns")
        self.assertEqual(self.check("--both", "[1]", "[2]")[0], none)
        refused = self.check("--both", "x", "{y}")[0]
        self.assertTrue(refused.startswith(f"second pattern: \x1b[{RED}mrefused, 21"))

    def test_notes(self) -> None:
        lines = self.check("_ = y")
        note = paint(YELLOW, "note: `y` is read here, and nothing gives it a value")
        self.assertEqual(lines[-3:], [note, "    _ = y", "        " + paint(YELLOW, "^")])

    def test_files(self) -> None:
        lines = self.check("--check", "-", text=b"[w, w] = [18, 16] => match\n")
        self.assertEqual(lines[0], "-:1:15: " + paint(RED, "expected match, found no match"))
        self.assertEqual(lines[-1], "1 rule, " + paint(RED, "1 differs"))
        lines = self.check("--check", "-", text=b"x => pattern\n")
        self.assertEqual(lines, ["1 rule, " + paint(GREEN, "0 differ")])


if __name__ == "__main__":
    unittest.main()
