import unittest

from rules.tables.listing import ListingError
from rules.text.rule_text import Operation
from tests.tables.listings import words


class Plans(unittest.TestCase):
    def test_flush_sides(self) -> None:
        self.assertEqual(
            words("[w, w] = [18, 16]", "0 2 0 3, 5 3 2 0 0, 1 1 0 0 1, 3 2 0 0 2"),
            [
                "[w, w] = [18, 16]",
                "planned as bind left: the left side is matched with the value of [18, 16]",
                "column  plan",
                "     1  array of 2 [w, w]",
                "     2    bind w",
                "     5    compare w, bound at column 2",
            ],
        )

    def test_pairs(self) -> None:
        self.assertEqual(
            words("[x, 1] = [1, x]", "0 4 0 4, 7 4 1 0 0, 1 1 0 0 1, 7 5 1 0 0, 3 2 0 0 1")[1:],
            [
                "planned as pairs: both sides bind, and are matched part by part in this order",
                "column  plan",
                "    11  pair: value side 1",
                "     2    bind x",
                "    14  pair: value side x",
                "     5    compare 1",
            ],
        )

    def test_objects(self) -> None:
        text = '{k: [_], "b": 18, "a": x, "b": f(y)}'
        self.assertEqual(
            words(text, "0 0 0 5, 6 10 3 0 0, 1 7 0 6 3, 3 9 0 8 4, 5 3 1 1 1, 2 2 0 0 1")[1:],
            [
                "planned as a pattern",
                "column  plan",
                f"     1  object of 3, 4 written (a repeated key keeps its last field) {text}",
                '    24    field 3, "a": bind x',
                '    32    field 4, "b": compare f(y), taken whole',
                "     5    field 1, computed key k: array of 1 [_]",
                "     6      ignore _",
            ],
        )

    def test_literals(self) -> None:
        self.assertEqual(words("18", "0 0 0 1, 4 1 0 0 0")[3], "     1  compare literal 18")

    def test_some_in(self) -> None:
        self.assertEqual(
            words("some k, [v] in xs", "0 1 0 3, 1 1 0 0 0, 5 3 1 0 0, 1 2 0 0 1")[1:],
            [
                "planned as some-in with key: key and value are matched with those of xs",
                "column  plan",
                "     6  key: bind k",
                "     9  value: array of 1 [v]",
                "    10    bind v",
            ],
        )
        self.assertEqual(
            words("some v in xs", "0 0 0 1, 1 1 0 0 0")[1:],
            [
                "planned as some-in: the pattern is matched with the items of xs",
                "column  plan",
                "     6  bind v",
            ],
        )

    def test_forms(self) -> None:
        forms = {
            ("x := 1", "0 1 0 1, 1 1 0 0 0"): "`:=`",
            ("1 = x", "0 3 0 1, 1 2 0 0 0"): "bind right",
            ("1 = 1", "0 5 0 0"): "equality check",
            ("_ = y", "0 6 1 0"): "wildcard left",
            ("x = _", "0 6 2 0"): "wildcard right",
            ("_ = _", "0 6 3 0"): "wildcard both",
        }
        for (text, lines), form in forms.items():
            with self.subTest(text=text):
                self.assertTrue(words(text, lines)[1].startswith(f"planned as {form}: "))
        index = words("x", "0 0 0 1, 1 1 0 0 0", Operation.INDEX)
        self.assertEqual(index[1], "planned as an index")
        parameter = words("x", "0 0 0 1, 1 1 0 0 0", Operation.PARAMETER)
        self.assertEqual(parameter[1], "planned as a parameter")

    def test_long_text_is_cut(self) -> None:
        text = f'"{"a" * 100}"'
        line = words(text, "0 0 0 1, 4 1 0 0 0")[3]
        self.assertEqual(line, '     1  compare literal "' + "a" * 56 + "...")

    def test_form_of_another_operation(self) -> None:
        with self.assertRaisesRegex(ListingError, "form 2 with side 0"):
            words("x", "0 2 0 0")


if __name__ == "__main__":
    unittest.main()
