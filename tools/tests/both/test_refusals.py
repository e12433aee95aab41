"""What is refused of two patterns: which of them, and where."""

import unittest

from tests.both.asked import told
from tests.planners import with_library

LARGE = "refused, 36 value too large: "


def nested(levels: int, inner: str) -> str:
    return "[" * levels + inner + "]" * levels


def doubled(levels: int) -> list[str]:
    """Patterns whose example has so many levels of arrays of two equal items."""
    first, second = ["a0"], []
    for level in range(levels):
        second += [f"[b{level}, b{level}]", f"b{level}"]
        first += [f"a{level + 1}", f"a{level + 1}"]
    return [f"[{', '.join(first)}]", f"[{', '.join([*second, '_'])}]"]


@with_library
class Refused(unittest.TestCase):
    def check(self, head: str, caret: str, *arguments: str) -> None:
        status, lines = told(*arguments)
        with self.subTest(arguments=arguments):
            self.assertEqual((status, lines[0][: len(head)]), (1, head))
            self.assertEqual(lines[2:3], [f"    {caret}"] if caret else [])

    def test_sides_and_places(self) -> None:
        simple, value, name = "21 pattern not simple:", "22 not a value:", "23 name without value:"
        self.check(f"first pattern: refused, {simple}", "    ^^^ a set", "[x, {x}]", "{y}")
        self.check(f"second pattern: refused, {simple}", " ^ a computed key", "x", "{k: 1}")
        whole = "^^^^ an expression that is taken whole"
        self.check(f"second pattern: refused, {simple}", whole, "x", "f(x)")
        self.check(
            f"first pattern: refused, {value}",
            " ^ a name, in the value given to `x`",
            *("x", "{y}", "--given", "x=[y]"),
        )
        self.check(
            f"second pattern: refused, {value}",
            "^^^ a set, in the value given to `x`",
            *("x", "[x]", "--given", "2:x={1}"),
        )
        self.check(f"first pattern: refused, {name}", " ^ the name", "[x]", "{y}", "--bound", "x")
        self.check(f"second pattern: refused, {name}", " ^ the name", "x", "[x]", "--bound", "2:x")

    def test_order(self) -> None:
        """All of the first side's refusals come before the second's."""
        self.check("first pattern: refused, 23", "^ the name", "x", "{y}", "--bound", "x")
        self.check("first pattern: refused, 21", "^^^ a set", "{x}", "y", "--bound", "x,y")

    def test_tables(self) -> None:
        deep = nested(33, "")
        level = " " * 32 + "^^ level 33"
        self.check("first pattern: refused, 3 too deep", level, deep, "x")
        self.check("second pattern: refused, 3 too deep", level, "x", deep)
        long = "^" * 100 + " this name has 256 bytes, at most 255"
        self.check("second pattern: refused, 2 tables broken", long, "x", "y" * 256)
        together = "the patterns together: refused, 1 over a limit:"
        status, lines = told(*[f"[{'_, ' * 300}]"] * 2)
        self.assertEqual((status, lines[0][: len(together)]), (1, together))
        self.assertEqual(lines[1], "nodes: 602, at most 512")
        status, lines = told("x", f"[{'_, ' * 600}]")
        self.assertEqual((status, lines[1]), (1, "nodes: 601, at most 512"))
        self.assertEqual(lines[0][:27], "second pattern: refused, 1 ")

    def test_value_too_large(self) -> None:
        large = f"the patterns together: {LARGE}"
        self.check(large, "", *doubled(8))
        self.assertEqual(told(*doubled(6))[0], 0)
        deep = [f"[{nested(20, 'x')}, x]", f"[y, {nested(11, '1')}]"]
        self.check(large, "", *deep)
        self.assertEqual(told(deep[0], f"[y, {nested(10, '1')}]")[0], 0)


if __name__ == "__main__":
    unittest.main()
