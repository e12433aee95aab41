import unittest

from rules.words.refusals import LIMITS, MEANINGS
from tests.tables.listings import sheet, words


class Refusals(unittest.TestCase):
    def test_every_number_has_words(self) -> None:
        numbers = {*range(1, 8), *range(11, 19), *range(20, 24), 31, 32, 36, 37, 38}
        self.assertEqual(set(MEANINGS), numbers)

    def test_place_and_counts(self) -> None:
        self.assertEqual(
            words("[x] := [1, 2]", "13 5 1 2"),
            [
                "refused, 13 ArrayLengthMismatch: an array of the value hasn't the length that the"
                " pattern asks for",
                "    [x] := [1, 2]",
                "           ^^^^^^ the value's array",
                "items expected by the pattern: 1, items of the value: 2",
                "so the sides never match, whatever values the names have",
            ],
        )

    def test_counts(self) -> None:
        rules = {
            ("[[x]] = [[1, y]]", "12 2 1 2"): "items of the left array: 1, of the right array: 2",
            ("[{}, 1] = [{1: 2}, z]", "15 1 0 1"): "different keys of the left object: 0,"
            " fields of the right object: 1",
            ("x", "6 0 1537 0"): "entries needed: 1537",
            ("x", "99 1 2 3"): "counts 2 and 3",
        }
        for (text, lines), counts in rules.items():
            with self.subTest(text=text):
                self.assertIn(counts, words(text, lines)[-2:])

    def test_pattern_object_of_14(self) -> None:
        self.assertEqual(
            words('{"a": x} := {"b": 1}', "14 6 3 0")[1:],
            [
                '    {"a": x} := {"b": 1}',
                "                ^^^^^^^^ the value's object",
                '    {"a": x} := {"b": 1}',
                "    ^^^^^^^^ the pattern's object",
                "so the sides never match, whatever values the names have",
            ],
        )

    def test_over_a_limit(self) -> None:
        text = "[" + "x," * 512 + "]"
        self.assertEqual(words(text, "1 0 0 0")[1:], ["nodes: 513, at most 512"])
        self.assertEqual(list(sheet("x").counts()), list(LIMITS))


if __name__ == "__main__":
    unittest.main()
