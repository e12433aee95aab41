import json
import unittest
from typing import Any

from rules.command import NO_RULE
from tests.planners import run, with_library


@with_library
class Json(unittest.TestCase):
    def check(self, content: str) -> tuple[int, dict[str, Any]]:
        status, printed, error = run("--check", "-", "--json", text=content.encode())
        self.assertIn(error, ("", f"{NO_RULE}\n"))
        self.assertEqual((printed.count("\n"), printed.isascii()), (1, True))
        return status, json.loads(printed)

    def test_tally(self) -> None:
        status, found = self.check("x => pattern\nx => index\n[x y] => planned\n")
        lines = found.pop("lines")
        self.assertEqual(status, 2)
        counts = {"rules": 2, "differ": 1, "notes": 0, "untested": [], "unreadable": 1}
        self.assertEqual(found, {"file": "-", **counts})
        self.assertEqual([line["line"] for line in lines], [1, 2, 3])
        counts = {"rules": 0, "differ": 0, "notes": 0, "untested": [], "unreadable": 0}
        none = {"file": "-", **counts, "lines": []}
        self.assertEqual(self.check("# none\n"), (2, none))

    def test_rules(self) -> None:
        status, found = self.check("# \n[w, w] = [18, 18]  => match  w=16 --careful\n")
        (line,) = found["lines"]
        self.assertEqual(status, 1)
        answer = run("--run", "--careful", "--json", "[w, w] = [18, 18]")[1]
        self.assertEqual(line.pop("answer"), json.loads(answer))
        words = {"line": 2, "expected": "match  w=16", "found": "match w=18", "agrees": False}
        self.assertEqual(line, words)

    def test_notes_and_refusals(self) -> None:
        content = "_ = y => wildcard left\n[x, [y]] := [1, [1, 2]] => refused 13 --careful\n"
        status, found = self.check(content)
        note, refusal = found["lines"]
        self.assertEqual((status, note["agrees"], refusal["agrees"]), (0, True, True))
        self.assertEqual(note["answer"]["notes"][0]["text"], "y")
        self.assertTrue(refusal["answer"]["careful_alone"])

    def test_line_that_cannot_be_read(self) -> None:
        _, found = self.check('["\u00e4" y] => planned\n')
        message = "bad rule text: expected `,` or `]`, found `y`"
        line = {"line": 1, "column": 6, "error": message, "text": '["\u00e4" y]'}
        line |= {"start": 6, "end": 7}
        self.assertEqual(found["lines"], [line])


if __name__ == "__main__":
    unittest.main()
