"""Two patterns, as JSON."""

import json
import unittest

from tests.both.asked import told
from tests.planners import run, with_library

FIELDS = ["first", "second", "answer", "example", "runs", "clash", "refused"]


def found(*arguments: str) -> dict[str, object]:
    _, (line,) = told(*arguments, "--json")
    return json.loads(line)


@with_library
class Json(unittest.TestCase):
    def test_example(self) -> None:
        answer = found("[w, w]", "[18, _]")
        self.assertEqual(list(answer), FIELDS)
        self.assertEqual((answer["first"], answer["second"]), ("[w, w]", "[18, _]"))
        self.assertEqual(answer["answer"], "example")
        self.assertEqual(answer["example"], {"text": "[18, 18]", "value": [18, 18]})
        alone = json.loads(run("[w, w]", "--on", "[18, 18]", "--json")[1])
        self.assertEqual(answer["runs"][0], alone)
        self.assertEqual(answer["runs"][1]["run"]["answer"], "match")
        self.assertEqual((answer["clash"], answer["refused"]), (None, None))

    def test_a_value_that_json_cannot_say(self) -> None:
        text = '{1: true, "1": null}'
        self.assertEqual(found('{"1": x, 1: true}', "_")["example"], {"text": text})

    def test_none(self) -> None:
        answer = found("[x, x]", "[w, 16]", "--given", "w=18")
        self.assertEqual((list(answer), answer["answer"]), (FIELDS, "none"))
        self.assertEqual((answer["example"], answer["runs"], answer["refused"]), (None, [], None))
        first, second = answer["clash"]
        words = "the first asks for `x`, which is 18 (given to 2:w)"
        place = {"part": "first", "start": 4, "end": 5, "column": 5, "text": "x"}
        self.assertEqual(first, {"words": words, **place})
        self.assertEqual((second["part"], second["column"], second["text"]), ("second", 5, "16"))

    def test_refused(self) -> None:
        answer = found("[x]", "[x]", "--given", "2:x=[1, y]")
        self.assertEqual((list(answer), answer["answer"]), (FIELDS, "refused"))
        refused = answer["refused"]
        self.assertEqual((refused["side"], refused["number"]), ("second", 22))
        self.assertEqual((refused["place"]["part"], refused["place"]["column"]), ("given 2:x", 5))
        large = found(f"[{'[' * 20}x{']' * 20}, x]", f"[y, {'[' * 20}{']' * 20}]")["refused"]
        self.assertEqual((large["side"], large["number"], large["place"]), (None, 36, None))
        self.assertEqual(large["name"], "value too large")


if __name__ == "__main__":
    unittest.main()
