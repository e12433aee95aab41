import unittest

from rules.text.rule_text import Expression, Kind, Operation, read_rule
from rules.text.source import marked
from rules.text.tokens import RuleTextError


def outline(text: bytes, expression: Expression | None) -> object:
    """An expression as its kind and text, with its items."""
    if expression is None:
        return None
    here = (expression.kind.name, text[expression.start : expression.end].decode())
    return (*here, [outline(text, item) for item in expression.items]) if expression.items else here


def outline_of(text: str) -> object:
    rule = read_rule(text.encode())
    return outline(rule.text, rule.first)


class Expressions(unittest.TestCase):
    def test_leaves(self) -> None:
        leaves = {
            "w": "NAME",
            "_": "NAME",
            "set": "NAME",
            "18": "NUMBER",
            "-18": "NUMBER",
            '"a \\" b"': "STRING",
            "`a \\ b`": "RAW_STRING",
            "true": "BOOL",
            "false": "BOOL",
            "null": "NULL",
            "[]": "ARRAY",
            "{}": "OBJECT",
            "set()": "SET",
        }
        for text, kind in leaves.items():
            with self.subTest(text=text):
                self.assertEqual(outline_of(f" {text}\t"), (kind, text))

    def test_any_other_is_taken_whole(self) -> None:
        others = [
            "f(x)",
            "set(x)",
            "a.b[c]",
            "a.in",
            "x + 1.5",
            "x -1",
            "- 1",
            "-x",
            "x in xs",
            "x == [y]",
            "(x)",
            "[1, 2][0]",
            "x | y",
            "[x | some x in xs; x = 1]",
            "{x | xs[x]}",
            '{x: y | y := f("]", `)`)}',
        ]
        for text in others:
            with self.subTest(text=text):
                self.assertEqual(outline_of(f" {text} "), ("OTHER", text))

    def test_items(self) -> None:
        self.assertEqual(
            outline_of("[a, {b, -1}, f(c),]"),
            (
                "ARRAY",
                "[a, {b, -1}, f(c),]",
                [
                    ("NAME", "a"),
                    ("SET", "{b, -1}", [("NAME", "b"), ("NUMBER", "-1")]),
                    ("OTHER", "f(c)"),
                ],
            ),
        )

    def test_fields(self) -> None:
        self.assertEqual(
            outline_of('{"a": x, k: [1]}'),
            (
                "OBJECT",
                '{"a": x, k: [1]}',
                [
                    ("STRING", '"a"'),
                    ("NAME", "x"),
                    ("NAME", "k"),
                    ("ARRAY", "[1]", [("NUMBER", "1")]),
                ],
            ),
        )


class Rules(unittest.TestCase):
    def check(self, text: str, operation: Operation, *parts: str | None) -> None:
        rule = read_rule(text.encode())
        self.assertEqual(rule.operation, operation)
        roots = (rule.first, rule.second, rule.key)
        found = [root and rule.text[root.start : root.end].decode() for root in roots]
        self.assertEqual(found, list(parts))

    def test_operations(self) -> None:
        self.check("[x, x]", Operation.PATTERN, "[x, x]", None, None)
        self.check("x == 1", Operation.PATTERN, "x == 1", None, None)
        self.check("[x, x] = [1, y]", Operation.EQUALS, "[x, x]", "[1, y]", None)
        self.check('x:={"a": _}', Operation.COLON_EQUALS, "x", '{"a": _}', None)
        self.check("some v in [1, 2]", Operation.SOME_IN, "v", "[1, 2]", None)
        self.check("some k, [v] in xs", Operation.SOME_IN, "[v]", "xs", "k")

    def test_comments(self) -> None:
        self.check('x = "#" # = 1 [', Operation.EQUALS, "x", '"#"', None)
        self.check("[x, `#`]#", Operation.PATTERN, "[x, `#`]", None, None)

    def test_depth(self) -> None:
        self.assertEqual(read_rule(b"[" * 63 + b"x" + b"]" * 63).first.kind, Kind.ARRAY)
        with self.assertRaisesRegex(RuleTextError, "64 levels"):
            read_rule(b"[" * 10_000)
        with self.assertRaisesRegex(RuleTextError, "64 levels"):
            read_rule(b"- " * 10_000)


class BadRuleText(unittest.TestCase):
    def check(self, text: str, carets: str, message: str) -> None:
        with self.subTest(text=text):
            with self.assertRaises(RuleTextError) as caught:
                read_rule(text.encode())
            error = caught.exception
            lines = marked(text.encode(), error.start, error.end).split("\n")
            self.assertEqual((lines[1].removeprefix("    "), str(error)), (carets, message))

    def test_places(self) -> None:
        end = "the end of the text"
        self.check("", "^", "the rule is empty")
        self.check(" # x", " ^", "the rule is empty")
        self.check("x = ", "    ^", f"expected an expression, found {end}")
        self.check("[x y]", "   ^", "expected `,` or `]`, found `y`")
        self.check("[x, y", "     ^", f"expected `,` or `]`, found {end}")
        self.check("{x, y: 1}", "     ^", "expected `,` or `}`, found `:`")
        self.check("{x: 1, y}", "        ^", "expected `:`, found `}`")
        self.check("x = 1 = 2", "      ^", f"expected {end}, found `=`")
        self.check("x [1]", "  ^", f"expected {end}, found `[`")
        self.check('"a"[0]', "   ^", f"expected {end}, found `[`")
        self.check("some x", "      ^", f"expected `in`, found {end}")
        self.check("[not, x]", " ^^^", "`not` is a reserved word, not a name")
        self.check("a.1", "  ^", "expected a field's name, found `1`")
        self.check("x + ", "    ^", f"expected an expression, found {end}")

    def test_brackets(self) -> None:
        self.check("f(x", " ^", "this has no closing `)` before the end of the text")
        self.check("f(x]", " ^", "this has no closing `)` before `]`")
        self.check("[f(x[1)]", "    ^", "this has no closing `]` before `)`")

    def test_characters(self) -> None:
        self.check('x = "abc', "    ^^^^", 'this string has no closing "')
        self.check("x = `abc", "    ^^^^", "this string has no closing `")
        self.check("x = \\a", "    ^", "no token starts here")
        self.check("x\ny", " ^", "rule text is one line, and it ends here")

    def test_text_that_is_no_utf_8(self) -> None:
        with self.assertRaisesRegex(RuleTextError, "UTF-8") as caught:
            read_rule(b'"\xff"')
        self.assertEqual((caught.exception.start, caught.exception.end), (1, 2))

    def test_comments(self) -> None:
        self.check("x = # 1", "    ^", "expected an expression, found the end of the text")
        self.check("f(# x)", " ^", "this has no closing `)` before the end of the text")

    def test_tabs_and_wide_characters(self) -> None:
        self.check("\t[x\ty]", "    ^", "expected `,` or `]`, found `y`")
        self.check('["é" y]', "     ^", "expected `,` or `]`, found `y`")
        self.check('["e\u0301" y]', "     ^", "expected `,` or `]`, found `y`")
        self.check('["板" y]', "      ^", "expected `,` or `]`, found `y`")
        self.check("[x \u3001]", "   ^^", "no token starts here")


class LongLines(unittest.TestCase):
    def test_only_the_surroundings_are_shown(self) -> None:
        text = b"a" * 200 + b"!" + b"b" * 200
        line, carets = marked(text, 200, 201, "here").split("\n")
        self.assertEqual(line, "    ..." + "a" * 30 + "!" + "b" * 69 + "...")
        self.assertEqual(carets, " " * 37 + "^ here")


if __name__ == "__main__":
    unittest.main()
