import time
import unittest
from dataclasses import replace

from rules.question import Question, sheet_for
from rules.tables.sheet import ALLOW_SHADOWING, RESPECT_PARENT, Scope, Sheet, Writer, sheet_of
from rules.text.rule_text import Kind, Operation, read_rule
from rules.text.tokens import RuleTextError

# Document 01, "Sheet".
EXAMPLE = b"""\
     3     2     0     1     0     6
     5     0     1     3     0     0
     6     1     2     1     0
     6     4     5     1     0
     7     0     6     0     2
     1
     2
     1     1     0
[x, x]"""


def sheet(text: str, scope: Scope = Scope()) -> Sheet:
    return sheet_of(read_rule(text.encode()), scope)


class Sheets(unittest.TestCase):
    maxDiff = None

    def test_example_of_document_01(self) -> None:
        index = replace(read_rule(b"[x, x]"), operation=Operation.INDEX)
        self.assertEqual(sheet_of(index, Scope()).to_bytes(), EXAMPLE)

    def test_leaves(self) -> None:
        self.assertEqual(
            sheet('["\\u00e9\\n", `\u00e9`, -7, true, null, f(x), _]').to_bytes().decode(),
            "     8     7     1     1     3    43\n"
            "     1     0     1     8     0     0\n"
            "     1     1    11     0     3\n"
            "     2    13    17    14     2\n"
            "     3    19    21     0     0\n"
            "     4    23    27     1     0\n"
            "     5    29    33     0     0\n"
            "    10    35    39     0     0\n"
            "     6    41    42     1     0\n"
            "     7     0    43     0     7\n"
            "     1\n     2\n     3\n     4\n     5\n     6\n     7\n"
            "                  -7\n"
            "    41     1     0\n"
            "\u00e9\n"
            '["\\u00e9\\n", `\u00e9`, -7, true, null, f(x), _]',
        )

    def test_names_of_sets_and_keys(self) -> None:
        self.assertEqual(
            sheet("{{b}: [a, b], k: {}}").to_bytes().decode(),
            "     8     7     0     3     0    20\n"
            "     1     0     1     8     0     0\n"
            "     6     2     3     1     0\n"
            "     8     1     4     0     1\n"
            "     6     7     8     2     0\n"
            "     6    10    11     1     0\n"
            "     7     6    12     1     2\n"
            "     6    14    15     3     0\n"
            "     9    17    19     3     0\n"
            "     9     0    20     3     2\n"
            "     1\n     3\n     4\n     2\n     5\n     6\n     7\n"
            "     2     1     0\n"
            "     7     1     0\n"
            "    14     1     0\n"
            "{{b}: [a, b], k: {}}",
        )

    def test_scope_and_roots_of_some_in(self) -> None:
        scope = Scope({b"xs": 16, b"k": 3}, scheduler=True, scoping=ALLOW_SHADOWING)
        self.assertEqual(
            sheet("some k, [v] in xs", scope).to_bytes().decode(),
            "     4     1     0     3     0    17\n"
            "     4     1     2     3     4     1\n"
            "     6     5     6     1     0\n"
            "     6     9    10     2     0\n"
            "     7     8    11     0     1\n"
            "     6    15    17     3     0\n"
            "     2\n"
            "     5     1     3\n"
            "     9     1     0\n"
            "    15     2    16\n"
            "some k, [v] in xs",
        )

    def test_text_without_a_column(self) -> None:
        blanks = " " * 10**6
        with self.assertRaisesRegex(RuleTextError, "no column for more than 999999 bytes"):
            sheet("x" + blanks)

    def test_parts_of_a_run(self) -> None:
        """One table for all: each text behind a line feed, nodes that point into the whole."""
        question = Question(b"[w, x]", on=b"`a`", given={b"w": b"[1]"})
        tables = sheet_for(question)
        self.assertEqual(tables.text, b"[w, x]\n`a`\n[1]")
        self.assertEqual((tables.value, tables.given), (4, {b"w": 6}))
        self.assertEqual(tables.node(4), (Kind.RAW_STRING, 7, 10, 8, 1))
        self.assertEqual(tables.node(6), (Kind.ARRAY, 11, 14, 2, 1))
        places = {0: "rule", 6: "rule", 7: "value", 10: "value", 11: "given", 14: "given"}
        for place, what in places.items():
            self.assertEqual(tables.part_of(place).what, what)
        self.assertEqual(tables.part_of(12).name, b"w")

    def test_known_names(self) -> None:
        """Document 01, "Scope"."""
        known = {
            (0, False): False,
            (1, False): True,
            (2, False): False,
            (16, False): True,
            (5, False): False,
            (9, False): True,
            (9, True): False,
            (20, False): False,
        }
        for (marks, scheduler), expected in known.items():
            scope = Scope({b"x": marks, b"_": marks}, scheduler)
            self.assertEqual(scope.is_known(b"x", RESPECT_PARENT), expected)
            self.assertFalse(scope.is_known(b"x", ALLOW_SHADOWING))
            self.assertFalse(scope.is_known(b"_", RESPECT_PARENT))

    def test_roots_of_an_assignment(self) -> None:
        self.assertEqual(sheet("[x] = 1").roots, (2, 3, 0))
        self.assertEqual(sheet("x := [y]").roots, (1, 3, 0))


class Numbers(unittest.TestCase):
    def test_range(self) -> None:
        ends = sheet("[-9223372036854775808, 18446744073709551615, 9223372036854775808, 0]")
        self.assertEqual(ends.numbers, [-(2**63), 2**64 - 1, 2**63, 0])
        self.assertIn(b"\n-9223372036854775808\n18446744073709551615\n", ends.to_bytes())

    def test_others(self) -> None:
        messages = {
            "18446744073709551616": "above the highest, 18446744073709551615",
            "-9223372036854775809": "below the lowest, -9223372036854775808",
            "1" * 5000: "above the highest",
            "-" + "1" * 5000: "below the lowest",
            "1.5": "whole",
            "1e3": "whole",
            "007": "leading zeros",
            "-0": "minus zero",
        }
        for text, message in messages.items():
            with self.subTest(text=text), self.assertRaisesRegex(RuleTextError, message) as caught:
                sheet(f"[{text}]")
            self.assertEqual((caught.exception.start, caught.exception.end), (1, 1 + len(text)))


    def test_hint_at_a_number_that_is_not_whole(self) -> None:
        hints = {
            "18.5": ("write 185 and count in a unit 10 times smaller", "(18.5)"),
            "-0.50": ("write -5 and count in a unit 10 times smaller", "(-0.50)"),
            "18.00": ("write 18", ""),
            "1e3": ("write it without point and exponent", ""),
            "1." + "5" * 5000: ("write it without point and exponent", ""),
        }
        for text, (hint, whole) in hints.items():
            with self.subTest(text=text), self.assertRaises(RuleTextError) as caught:
                sheet(f"[{text}]")
            found = f"this number is not written as a whole one: {hint}"
            planned = f", or write {whole}, which is compared whole" if whole else ""
            self.assertEqual(str(caught.exception), found)
            self.assertEqual(caught.exception.if_planned, planned)
        self.assertEqual(sheet("(18.5)").nodes[0].kind, Kind.OTHER)


class Strings(unittest.TestCase):
    def test_many_strings_take_linear_time(self) -> None:
        """Some 10 ms; where each string copies all before it, several seconds."""
        writer = Writer(Sheet(b"", Operation.PATTERN, Scope()))
        start = time.process_time()
        for _ in range(40_000):
            writer.string(b"x" * 100)
        self.assertLess(time.process_time() - start, 1)

    def test_escapes(self) -> None:
        found = sheet(r'"\"\\\/\b\f\n\r\t\u0041\ud83d\ude00"').strings
        self.assertEqual(found, '"\\/\b\f\n\r\tA\U0001f600'.encode())

    def test_bad_escape(self) -> None:
        with self.assertRaisesRegex(RuleTextError, "Invalid .escape") as caught:
            sheet('["é\\q"]')
        self.assertEqual((caught.exception.start, caught.exception.end), (4, 5))

    def test_half_of_a_pair(self) -> None:
        with self.assertRaisesRegex(RuleTextError, "half"):
            sheet('"\\ud83d"')


if __name__ == "__main__":
    unittest.main()
