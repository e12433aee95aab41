"""Values of parts as rule text."""

import unittest

from rules.parts.files.items import NoValue, Number
from rules.parts.files.laying_out import BadValue, Layout, whole
from rules.parts.files.naming import only_named, shape_of
from rules.tables.paths import path_in_words
from rules.text.ranges import read_value
from tests.tables.listings import sheet


def laid_out(value: object, scale: int = 1) -> str:
    """The text, whose expressions are those that reading it gives."""
    layout = Layout(scale)
    found = layout.value(value)
    assert found == read_value(bytes(layout.text)), found
    return layout.text.decode()


class Numbers(unittest.TestCase):
    def test_whole(self) -> None:
        for text, scale, number in (
            ("18", 1, 18),
            ("18.0", 1, 18),
            ("18.5", 10, 185),
            ("-0.125", 1000, -125),
            ("1e3", 1, 1000),
            ("1.25e2", 1, 125),
            ("120e-1", 1, 12),
            ("-0", 1, 0),
            ("-0.000", 10, 0),
            ("0e999999999", 1, 0),
            ("1844674407370955161.5", 10, 2**64 - 1),
            ("-9223372036854775808", 1, -(2**63)),
            ("1" + "0" * 30 + "e-30", 1, 1),
        ):
            with self.subTest(text=text, scale=scale):
                self.assertEqual(whole(text, scale), number)

    def test_no_number_of_a_rule(self) -> None:
        for text, scale, words in (
            ("18.5", 1, "18.5 is not whole: --scale 10 counts in a smaller unit"),
            ("18.25", 10, "18.25 is not whole: --scale 100 counts in a smaller unit"),
            ("18.0625", 1000, "18.0625 is not whole, in thousandths either"),
            ("1." + "0" * 40 + "1", 1, " is not whole, in thousandths either"),
            ("1e-999999999", 1, "1e-999999999 is not whole, in thousandths either"),
            ("18446744073709551616", 1, "is outside of a rule's numbers, -9223372036854775808 to"),
            ("1844674407370955161.6", 10, "is outside of a rule's numbers"),
            ("-9223372036854775809", 1, "is outside of a rule's numbers"),
            ("1e999999999", 1, "is outside of a rule's numbers"),
            ("1" * 5000, 1, "is outside of a rule's numbers"),
        ):
            with self.subTest(text=text[:30]), self.assertRaisesRegex(BadValue, words):
                whole(text, scale)


class Values(unittest.TestCase):
    def test_values(self) -> None:
        words = [Number("18.0"), None, True, False]
        value = {"a": words, "b\n": {"\u00e9\"": "x\\"}, "c": [], "d": {}}
        text = '{"a": [18, null, true, false], "b\\n": {"\u00e9\\"": "x\\\\"}, "c": [], "d": {}}'
        self.assertEqual(laid_out(value), text)
        self.assertEqual(laid_out(Number("18.5"), 10), "185")
        self.assertEqual(laid_out("18"), '"18"')

    def test_ranges(self) -> None:
        self.assertEqual(laid_out(["17..19", "-1.5..0"], 10), "[170..190, -15..0]")
        for text in ("17..", "..19", "17...19", "a..b", "17..19 mm", "1e1..2"):
            self.assertEqual(laid_out(text), f'"{text}"')

    def test_paths(self) -> None:
        for value, path, words in (
            ({"a": [Number("1"), {"b c": Number("1.5")}]}, 'a[1]["b c"]', "1.5 is not whole"),
            ([NoValue("NaN is no number")], "[0]", "NaN is no number"),
            ({"a": "\ud800"}, "a", "half of a .u pair stands in a string"),
            ({"a": "1..2.5"}, "a", "2.5 is not whole"),
        ):
            with self.subTest(path=path), self.assertRaisesRegex(BadValue, words) as caught:
                laid_out(value)
            self.assertEqual(path_in_words(tuple(caught.exception.path)), path)
        with self.assertRaisesRegex(BadValue, "half of a .u pair stands in a string"):
            laid_out({"\ud800": None})

    def test_levels(self) -> None:
        value: object = None
        for _ in range(63):
            value = [value]
        self.assertEqual(laid_out(value).count("["), 63)
        with self.assertRaisesRegex(BadValue, "this tool reads 64 levels, here is one more"):
            laid_out([value])


class Named(unittest.TestCase):
    def left_of(self, pattern: str, value: object) -> object:
        tables = sheet(pattern)
        return only_named(shape_of(tables, tables.roots[0]), value)

    def test_at_every_depth(self) -> None:
        value = {"a": [{"t": 1, "u": 2}, {"t": 3}], "b": {"c": 4, "d": 5}, "e": 6}
        pattern = '{"a": [{"t": x}, y], "b": {"c": _}}'
        expected = {"a": [{"t": 1}, {"t": 3}], "b": {"c": 4}}
        self.assertEqual(self.left_of(pattern, value), expected)

    def test_what_the_pattern_takes_whole(self) -> None:
        self.assertEqual(self.left_of("x", {"a": 1}), {"a": 1})
        self.assertEqual(self.left_of('{"a": x}', {"a": {"b": 1}}), {"a": {"b": 1}})
        self.assertEqual(self.left_of("{}", {"a": 1}), {})

    def test_another_shape(self) -> None:
        self.assertEqual(self.left_of('[{"a": x}]', [{"b": 1}, {"b": 2}]), [{"b": 1}, {"b": 2}])
        self.assertEqual(self.left_of('{"a": x}', [1]), [1])
        self.assertEqual(self.left_of('["x"]', {"a": 1}), {"a": 1})

    def test_keys(self) -> None:
        left = self.left_of('{`a`: x, "\\u0062": y}', {"a": 1, "b": 2, "c": 3})
        self.assertEqual(left, {"a": 1, "b": 2})


if __name__ == "__main__":
    unittest.main()
