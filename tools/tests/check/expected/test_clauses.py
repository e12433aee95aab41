"""What may be expected of a plan beside its form."""

import unittest
from dataclasses import replace

from rules.check.expectations import FORM_NAMES, Planned, agrees, read_expected
from rules.check.expected.clauses import MAY_STAND, Clause
from rules.tables.listing import read_listing
from rules.text.tokens import RuleTextError
from tests.tables.listings import listing
from tests.planners import asked, run, with_library


def checked(*lines: str, options: tuple[str, ...] = ()) -> tuple[int, list[str]]:
    content = "".join(f"{line}\n" for line in lines).encode()
    status, printed, error = run("--check", "-", *options, text=content)
    assert error == "", error
    return status, printed.splitlines()


class Reading(unittest.TestCase):
    def test_clauses(self) -> None:
        text = b"some-in with key,binds x ,  binds x, compares nothing, reads xs, never, whole"
        clauses = [Clause("binds", b"x")] * 2
        clauses += [Clause("compares"), Clause("reads", b"xs"), Clause("never"), Clause("whole")]
        self.assertEqual(read_expected(text), Planned("some-in with key", tuple(clauses)))
        self.assertEqual(read_expected(b"planned, never"), Planned(None, (Clause("never"),)))
        for form in FORM_NAMES:
            found = read_expected(f"{form}, binds w".encode())
            self.assertEqual(found, Planned(form, (Clause("binds", b"w"),)))

    def test_what_is_none(self) -> None:
        none = (b"", b" ", b"bind w", b"binds", b"binds w v", b"binds 1", b"never w", b"reads")
        for rest in none:
            with self.subTest(rest=rest), self.assertRaises(RuleTextError) as caught:
                read_expected(b"pattern," + rest)
            error = caught.exception
            self.assertEqual((str(error), error.start), (MAY_STAND, len(b"pattern,")))


@with_library
class Binds(unittest.TestCase):
    def found(self, rule: str, expected: str, options: str = "") -> str:
        """What differs, or nothing."""
        status, lines = checked(f"{rule} => {expected} {options}")
        self.assertEqual(status, 1 if len(lines) > 1 else 0, lines)
        return lines[0].split(", found ")[1] if status else ""

    def test_a_name_that_is_bound_twice(self) -> None:
        """The mission's fear: a planner that binds `w` at both places is found."""
        right = asked("[w, w]")
        wrong = read_listing(listing("0 0 0 3, 5 3 2 0 0, 1 1 0 0 1, 1 2 0 0 2"), 3)
        said = read_expected(b"pattern, binds w, compares w")
        self.assertTrue(agrees(said, right))
        self.assertFalse(agrees(said, replace(right, outcome=wrong)))
        self.assertTrue(agrees(read_expected(b"pattern"), replace(right, outcome=wrong)))
        for other in ("binds w, binds w", "compares nothing", "compares w, compares w"):
            self.assertNotEqual(self.found("[w, w]", f"pattern, {other}"), "")

    def test_written_order(self) -> None:
        rule = '{"right": w, "left": [v, w, v]}'
        said = "pattern, binds w, binds v, compares w, compares v"
        self.assertEqual(self.found(rule, said), "")
        swapped = "pattern, binds v, binds w, compares w, compares v"
        self.assertEqual(self.found(rule, swapped), said)

    def test_only_what_is_said_counts(self) -> None:
        self.assertEqual(self.found("[w, w, v]", "pattern, binds w, binds v"), "")
        self.assertEqual(self.found("[w, w, v]", "planned, compares w"), "")
        self.assertEqual(self.found("[w, w, v]", "index, compares w"), "pattern, compares w")

    def test_nothing(self) -> None:
        self.assertEqual(self.found("[18, _]", "pattern, binds nothing, compares nothing"), "")
        self.assertEqual(self.found("[x]", "pattern, binds nothing"), "pattern, binds x")
        same = self.found("[nothing]", "pattern, binds nothing")
        self.assertEqual(same, "pattern, binds nothing")

    def test_sides(self) -> None:
        self.assertEqual(self.found("[x, 1] = [1, x]", "pairs, binds x, compares x"), "")
        given = "--given w=18"
        said = "equality check, compares w, binds nothing"
        self.assertEqual(self.found("w = 18", said, given), "")
        self.assertEqual(self.found("[w, {v}]", "pattern, compares w", "--bound w,v"), "")
        self.assertEqual(self.found("some x, x in xs", "planned, binds x, binds x"), "")


@with_library
class Notes(unittest.TestCase):
    NEVER = "[x, [y]] := [1, [1, 2]]"

    def test_tally(self) -> None:
        rules = (f"{self.NEVER} => :=", "{k: v} => pattern", "f(x) => pattern", "x => pattern")
        self.assertEqual(checked(*rules), (0, ["4 rules, 0 differ, 3 notes"]))
        tally = checked(rules[0], "[x y] => pattern")[1][-1]
        self.assertEqual(tally, "1 rule, 0 differ, 1 note, 1 line can't be read")

    def test_expected(self) -> None:
        never, reads = f"{self.NEVER} => :=, never", "{k: v} => pattern, reads k"
        rules = (never, reads, "f(x) => pattern, whole")
        self.assertEqual(checked(*rules), (0, ["3 rules, 0 differ"]))
        self.assertEqual(checked(*rules, options=("--strict",)), (0, ["3 rules, 0 differ"]))

    def test_expected_and_not_there(self) -> None:
        rules = (
            "[x, [y]] := [1, [1]] => :=, never",
            "{k: v} => pattern, reads k --bound k",
            "x => pattern, whole",
        )
        status, lines = checked(*rules)
        self.assertEqual((status, lines[-1]), (1, "3 rules, 3 differ"))
        found = [line.split("found ")[1] for line in lines if "found " in line]
        self.assertEqual(found, [":=", "pattern, reads nothing", "pattern"])
        self.assertEqual(checked("_ = y => planned, reads nothing")[0], 1)

    def test_strict(self) -> None:
        status, lines = checked(f"{self.NEVER} => :=", "_ = y => planned", options=("--strict",))
        self.assertEqual(status, 1)
        lengths = "an array of 1 is asked for (column 5), and an array of 2 stands here"
        self.assertEqual(
            lines,
            [
                "-:1:17: expected :=, found :=, never",
                f"    {self.NEVER}",
                f"                    ^^^^^^ this rule never matches: {lengths}",
                "-:2:5: expected planned, found wildcard left, reads y",
                "    _ = y",
                "        ^ `y` is read here, and nothing gives it a value",
                "2 rules, 2 differ, 2 notes",
            ],
        )

    def test_told(self) -> None:
        status, lines = checked("x => pattern", "  _ = y => planned", options=("--notes",))
        note = "-:2:7: note: `y` is read here, and nothing gives it a value"
        self.assertEqual((status, lines[:3]), (0, [note, "    _ = y", "        ^"]))
        self.assertEqual(lines[3:], ["2 rules, 0 differ, 1 note"])

    def test_of_runs(self) -> None:
        """Where a run's answer is expected, it is that which counts."""
        never = "[w, w] := [1, 2] => never"
        rules = ("x := y => refused 22", "{k: v} => refused 21 --on '{}'", never)
        self.assertEqual(checked(*rules, options=("--strict",)), (0, ["3 rules, 0 differ"]))


class Near(unittest.TestCase):
    def test_did_you_mean(self) -> None:
        meant = {
            b"Match": "match",
            b"Match w=18": "match w=18",
            b"nomatch": "no match",
            b"refuse 13": "refused 13",
            b"refuse 13 at [1]": "refused 13 at [1]",
            b"equality chek": "equality check",
            b"patern": "pattern",
            b"some in": "some-in",
        }
        for text, instead in meant.items():
            with self.subTest(text=text), self.assertRaises(RuleTextError) as caught:
                read_expected(text)
            self.assertEqual(str(caught.exception), f"did you mean `{instead}`?")
        for text in (b"", b"any", b"no match w=1", b"bind"):
            with self.assertRaisesRegex(RuleTextError, "^what may be expected: "):
                read_expected(text)


if __name__ == "__main__":
    unittest.main()
