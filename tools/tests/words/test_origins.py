"""What a compare compares with."""

import unittest

from rules.words.plans import rows_of
from tests.planners import asked, run, with_library


def compares(rule: str, *options: str) -> list[str]:
    """What is said of each compare, as the plan lists them."""
    answer = asked(rule, *options)
    words = [row.words for row in rows_of(answer.sheet, answer.outcome)]
    return [said.split("compare ")[1] for said in words if "compare " in said]


@with_library
class Origins(unittest.TestCase):
    def test_bound_in_the_plan(self) -> None:
        self.assertEqual(compares("[w, [w], w]"), ["w, bound at column 2"] * 2)
        self.assertEqual(compares('{"right": w, "left": w}'), ["w, bound at column 11"])
        self.assertEqual(compares('["é", w, w]'), ['literal "é"', "w, bound at column 7"])

    def test_roots(self) -> None:
        """Key and value of some-in are planned apart; a pair goes on from the pairs before it."""
        self.assertEqual(compares("some x, [x, x] in xs"), ["x, bound at column 10"])
        pairs = compares("[x, [x, y], 1] = [1, z, y]", "--bound", "z")
        self.assertEqual(pairs, ["x, bound at column 2", "1"])

    def test_known(self) -> None:
        self.assertEqual(compares("[w, w]", "--bound", "w"), ["w, which has a value"] * 2)
        self.assertEqual(compares("w", "--global", "w"), ["w, which has a value"])
        self.assertEqual(compares("[w]", "--given", "w=[18, 16]"), ["w, given as [18, 16]"])
        shadowed = compares("[w, w]", "--given", "w=18", "--scoping", "shadow")
        self.assertEqual(shadowed, ["w, bound at column 2"])

    def test_neither(self) -> None:
        """The field that bound it is replaced by a later one of the same key."""
        rule = '{"a": x, "a": 1, "b": x}'
        self.assertEqual(compares(rule), ["literal 1", "x"])
        self.assertEqual(compares(rule, "--bound", "x", "--scoping", "shadow"), ["literal 1", "x"])

    def test_whole(self) -> None:
        whole = ["f(w), taken whole", "{w}, taken whole"]
        self.assertEqual(compares("[f(w), {w}]"), whole)

    def test_bound_in_a_line_above(self) -> None:
        body = b"# \nx := 1\n[x, y, y] = [1, 2, 2]\n[x, y] = [1, 2]\n"
        said = run("--body", "-", text=body)[1]
        found = [line.split("compare ")[1] for line in said.splitlines() if "compare " in line]
        self.assertEqual(found, ["x, bound in line 2", "y, bound at column 5"])


if __name__ == "__main__":
    unittest.main()
