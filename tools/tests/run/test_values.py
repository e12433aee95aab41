import unittest

from rules.question import Question, sheet_for
from rules.run.measuring import pairs_of
from rules.run.values import Fault, key_text, literal_of, names_below, no_value, not_simple
from rules.tables.sheet import Sheet


def sheet(text: str) -> Sheet:
    return sheet_for(Question(text.encode()))


def equal(left: str, right: str) -> bool:
    tables = sheet(f"{left} = {right}")
    pairs = pairs_of(tables, *tables.roots[:2])
    return pairs is not None and all(
        literal_of(tables, one) == literal_of(tables, other) for one, other in pairs
    )


class Equality(unittest.TestCase):
    def test_equal(self) -> None:
        pairs = [
            ("1", "1"),
            ('"a"', "`a`"),
            ('"\\u0061"', "`a`"),
            ("[]", "[]"),
            ("{}", "{}"),
            ('{"a": 1, 2: [null]}', '{2: [null], `a`: 1}'),
        ]
        for left, right in pairs:
            self.assertTrue(equal(left, right), (left, right))

    def test_not_equal(self) -> None:
        values = ["0", "1", "-1", '"1"', "true", "false", "null", "[]", "[1]", "[2]", "[1, 1]"]
        values += ["{}", '{"a": 1}', '{"a": 2}', '{"b": 1}', '{"a": 1, "b": 1}', "{1: 1}"]
        for place, left in enumerate(values):
            for right in values[place + 1 :]:
                self.assertFalse(equal(left, right), (left, right))
                self.assertFalse(equal(right, left), (left, right))


class Faults(unittest.TestCase):
    def test_values(self) -> None:
        for text in ("1", "[]", '[[1], {"a": {`b`: null}}]', "{}", '{1: 1, "1": 1}'):
            tables = sheet(text)
            self.assertIsNone(no_value(tables, tables.roots[0]))

    def test_names_in_patterns_alone(self) -> None:
        tables = sheet('[x, {"a": _}]')
        self.assertIsNone(not_simple(tables, tables.roots[0]))
        self.assertEqual(no_value(tables, tables.roots[0]), Fault(1, "a name"))
        self.assertEqual(no_value(tables, 3), Fault(3, "a wildcard"))

    def test_the_first_as_written(self) -> None:
        tables = sheet("[1, {2: {3}, k: f(x)}]")
        self.assertEqual(not_simple(tables, tables.roots[0]), Fault(4, "a set"))


class Names(unittest.TestCase):
    def test_below(self) -> None:
        tables = sheet("[a, {b, _}, {c: [d], 1: f(e)}]")
        names = [tables.name_of(node) for node in names_below(tables, tables.roots[0])]
        self.assertEqual(names, [b"a", b"b", b"_", b"c", b"d"])


class Keys(unittest.TestCase):
    def test_text(self) -> None:
        texts = {'"é\\n"': "é\n", "`r`": "r", "-5": "-5", "true": "true", "false": "false"}
        for text, expected in (texts | {"null": "null"}).items():
            self.assertEqual(key_text(literal_of(sheet(text), 1)), expected)


if __name__ == "__main__":
    unittest.main()
