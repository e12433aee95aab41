"""Usual slips, and what is said of each."""

import unittest

from rules.text.rule_text import RESERVED_V1, read_expression, read_rule
from rules.text.slips import ALL, EITHER, ONE_LINE, SEVERAL_LINES
from rules.text.source import shown, width
from rules.text.tokens import RuleTextError
from tests.planners import run, with_library

NAMES = "names are made of a-z, A-Z, 0-9 and _"
# The text that is to blame, and what is said of it.
SLIPS = {
    "'oak'": ("'oak'", 'strings stand in double quotes: "oak"'),
    "x = 'oak": ("'oak", 'strings stand in double quotes: "oak"'),
    "größe = 3": ("größe", f'{NAMES}: groesse; a key may be "größe"'),
    "x = [Ärger]": ("Ärger", f'{NAMES}: Aerger; a key may be "Ärger"'),
    "x = été_1": ("été_1", f'{NAMES}: ete_1; a key may be "été_1"'),
    "板 = 3": ("板", f'{NAMES}; a key may be "板"'),
    "x && y": ("&", ALL),
    "x and y": ("and", ALL),
    "x || y": ("|", EITHER),
    "x or y": ("or", EITHER),
    "x := 1; y := x": (";", SEVERAL_LINES),
    "x := 18 mm": ("mm", "a number has no unit: write 18"),
    "[18mm, 16]": ("mm", "a number has no unit: write 18"),
    "[-18 cm]": ("cm", "a number has no unit: write 18"),
    '{"a" x}': ("x", "expected `:`, `,` or `}`, found `x`"),
    "{x, y z}": ("z", "expected `,` or `}`, found `z`"),
    "flush { x }": ("{", ONE_LINE),
    "flush if { x }": ("if", ONE_LINE),
    "flush contains x if { y }": ("contains", ONE_LINE),
    "f(x) = y { z }": ("{", ONE_LINE),
    "x := 1 with input as y": ("with", ONE_LINE),
    "package a": ("package", ONE_LINE),
    "import a": ("import", ONE_LINE),
    "default x = 3": ("default", ONE_LINE),
    "not x": ("not", ONE_LINE),
    "every x in xs { y }": ("x", ONE_LINE),
}


class Slips(unittest.TestCase):
    def blamed(self, text: str, read: object = read_rule) -> tuple[str, str]:
        with self.assertRaises(RuleTextError) as caught:
            read(text.encode())
        error = caught.exception
        return text.encode()[error.start : error.end].decode(), str(error)

    def test_rules(self) -> None:
        for text, slip in SLIPS.items():
            with self.subTest(text=text):
                self.assertEqual(self.blamed(text), slip)

    def test_no_slips(self) -> None:
        """Other mistakes keep their words, and what is right is read."""
        self.assertEqual(self.blamed("[x {y}]")[1], "expected `,` or `]`, found `{`")
        self.assertEqual(self.blamed("x y")[1], "expected the end of the text, found `y`")
        self.assertEqual(self.blamed("[1 x]")[1], "expected `,` or `]`, found `x`")
        for text in (b"x | y", b"x & y", b"and = or", b"mm = 18", b"every = 1", b"if = 1"):
            read_rule(text)

    def test_values_are_no_rules(self) -> None:
        self.assertEqual(self.blamed("[1] { }", read_expression)[1][:19], "expected the end of")
        self.assertEqual(self.blamed("not", read_expression)[1][:21], "`not` is a reserved w")
        self.assertEqual(self.blamed("18 mm", read_expression)[1][:20], "a number has no unit")

    def test_reserved_words_of_v1(self) -> None:
        for word in RESERVED_V1:
            for text in (word + b" = 3", b"[" + word + b"]", b"some " + word + b" in xs"):
                read_rule(text)
                with self.assertRaisesRegex(RuleTextError, "is a reserved word of Rego v1"):
                    read_rule(text, v1=True)
        read_rule(b"x := a.if", v1=True)


@with_library
class Said(unittest.TestCase):
    def test_rego_v1(self) -> None:
        error = "bad rule text: `if` is a reserved word of Rego v1, not a name"
        said = (2, "", f"{error}\n    if = 3\n    ^^\n")
        self.assertEqual(run("if = 3", "--rego", "v1"), said)
        self.assertEqual(run("if = 3")[0], 0)

    def test_empty(self) -> None:
        for text in ("", "  ", "# x"):
            self.assertEqual(run(text), (2, "", "bad rule text: the rule is empty\n"))

    def test_numbers_with_a_point(self) -> None:
        """(18.5) helps where nothing is run, and is refused in a run."""
        whole = ", or write (18.5), which is compared whole"
        self.assertIn(whole, run("[18.5]")[2])
        for arguments in (("[18.5]", "--on", "[1]"), ("x = 18.5", "--run"), ("x", "--on", "18.5")):
            self.assertEqual(run(*arguments)[0], 2)
            self.assertNotIn("whole,", run(*arguments)[2])
            self.assertTrue(run(*arguments)[2].splitlines()[0].endswith("10 times smaller"))
        self.assertIn(whole, run("--body", "-", text=b"x := 18.5")[2])

    def test_values_of_several_lines(self) -> None:
        value = '{\n  "left": 18,\r\n  "right": "a\\n"\n}\n'
        status, printed, _ = run('{"left": w, "right": v}', "--on", value)
        self.assertEqual(status, 0)
        self.assertIn('run on { "left": 18, "right": "a\\n" }: match\n', printed)
        self.assertEqual(run("[w]", "--on", "[1]", "--given", "w=\n1\n")[0], 0)
        self.assertEqual(run("w", "--on", "`a\nb`")[0], 2)

    def test_hints(self) -> None:
        hints = {
            "False = x": "`False` is a name here; the value is written false",
            "[x, None]": "`None` is a name here; the value is written null",
            "x in [1, 2]": "`in` asks and binds nothing; to take items, write: some x in [1, 2]",
            "[x in xs]": "",
            "(x) in xs": "`in` asks and binds nothing; to take items, write: some (x) in xs",
            "x == 1": "`==` compares and binds nothing; to match both sides, write: x = 1",
        }
        for rule, hint in hints.items():
            with self.subTest(rule=rule):
                self.assertEqual(run(rule)[2], f"hint: {hint}\n" if hint else "")


class Shown(unittest.TestCase):
    def test_joined_characters(self) -> None:
        worker = "\U0001f469\u200d\U0001f527"
        self.assertEqual((shown(worker), width(worker)), (worker, 4))
        self.assertEqual(shown("a\u202eb\u2066"), "a?b?")


if __name__ == "__main__":
    unittest.main()
