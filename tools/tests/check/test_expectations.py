import unittest

from rules.answer import ask
from rules.check.expectations import (
    EXPECTED,
    FORM_NAMES,
    Matched,
    NotMatched,
    Planned,
    Refused,
    agrees,
    asks_for_run,
    found_in_words,
    read_expected,
)
from rules.options import question_from
from rules.text.tokens import RuleTextError
from tests.planners import library, with_library


class Reading(unittest.TestCase):
    def test_what_may_be_expected(self) -> None:
        self.assertEqual(read_expected(b"planned"), Planned())
        for form in FORM_NAMES:
            self.assertEqual(read_expected(form.encode()), Planned(form))
        self.assertEqual(read_expected(b"wildcard  both"), Planned("wildcard both"))
        self.assertEqual(read_expected(b"refused 17"), Refused(17))
        self.assertEqual(read_expected(b"refused 13 at [1,  2]"), Refused(13, b"[1,  2]"))
        self.assertEqual(read_expected(b"match"), Matched())
        self.assertEqual(read_expected(b"no match"), NotMatched())

    def test_values(self) -> None:
        expected = read_expected(b'match w=18, v = {"a": [-1, "x, y=2"]},u=`=`')
        values = {b"w": b"18", b"v": b'{"a": [-1, "x, y=2"]}', b"u": b"`=`"}
        self.assertEqual(expected, Matched(values))

    def test_what_asks_for_a_run(self) -> None:
        for text in (b"match", b"match w=1", b"no match", b"refused 20", b"refused 23"):
            self.assertTrue(asks_for_run(read_expected(text)))
        for text in (b"planned", b"pairs", b"refused 17", b"refused 31"):
            self.assertFalse(asks_for_run(read_expected(text)))

    def test_unreadable(self) -> None:
        faults = {
            b"": (EXPECTED, 0, 0),
            b"bind": (EXPECTED, 0, 4),
            b"no match w=1": (EXPECTED, 0, 12),
            b"refused 17 x": ("behind the number may stand: at TEXT", 0, 12),
            b"refused 17 at": ("behind the number may stand: at TEXT", 0, 13),
            b"match w": ("expected `=`, found the end of the text", 7, 7),
            b"match w=1 v=2": ("expected `,`, found `v`", 10, 11),
            b"match w=1,": ("expected a name that has not stood before", 10, 10),
            b"match w=1, w=2": ("expected a name that has not stood before", 11, 12),
            b"match 1=w": ("expected a name that has not stood before", 6, 7),
            b"match w=[1, x]": ("here stands a name, which no value has", 12, 13),
            b"match w={1}": ("here stands a set, which no value has", 8, 11),
            b"match w=01": ("a number has no leading zeros", 8, 10),
        }
        for text, (message, start, end) in faults.items():
            with self.subTest(text=text), self.assertRaises(RuleTextError) as caught:
                read_expected(text)
            error = caught.exception
            self.assertEqual((str(error), error.start, error.end), (message, start, end))

    def test_numbers_of_refusals(self) -> None:
        for text in (b"refused", b"refused x", b"refused 0", b"refused 8", b"refused 30"):
            with self.subTest(text=text), self.assertRaises(RuleTextError) as caught:
                read_expected(text)
            self.assertEqual(str(caught.exception)[:37], "the numbers of refusals are 1, 2, 3, ")


@with_library
class Answers(unittest.TestCase):
    def check(self, rule: str, options: str, found: str, *others: str) -> None:
        """What is found is what the answer agrees with, and it agrees with none of the others."""
        answer = ask(question_from(options.split(), rule.encode()), library())
        self.assertEqual(found_in_words(read_expected(found.encode()), answer), found)
        self.assertTrue(agrees(read_expected(found.encode()), answer))
        for other in others:
            with self.subTest(rule=rule, other=other):
                self.assertFalse(agrees(read_expected(other.encode()), answer))

    def test_forms(self) -> None:
        rules = {
            "[x]": "pattern",
            "some x in xs": "some-in",
            "some x, y in xs": "some-in with key",
            "x := 1": ":=",
            "x = 1": "bind left",
            "1 = x": "bind right",
            "[x, 1] = [1, y]": "pairs",
            "1 = 1": "equality check",
            "_ = x": "wildcard left",
            "x = _": "wildcard right",
            "_ = _": "wildcard both",
        }
        for rule, form in rules.items():
            others = [other for other in FORM_NAMES if other != form]
            self.check(rule, "", form, *others, "refused 18", "match", "no match")
        self.check("x", "--as index", "index", "pattern", "parameter")
        self.check("x", "--as parameter", "parameter", "pattern", "index")

    def test_planned(self) -> None:
        answer = ask(question_from([], b"x = y"), library())
        self.assertFalse(agrees(Planned(), answer))
        answer = ask(question_from(["--run"], b"[w, w] = [18, 16]"), library())
        self.assertTrue(agrees(Planned(), answer))
        self.assertEqual(found_in_words(Planned(), answer), "bind left")

    def test_refusals(self) -> None:
        others = ("refused 18", "refused 13 at [1,2]", "refused 13 at 2", "planned", ":=", "match")
        self.check("[x] := [1, 2]", "", "refused 13 at [1, 2]", *others)
        self.check("[" * 32 + "x" + "]" * 32, "", "refused 3", "refused 3 at x", "refused 1")
        self.check("x", "--on y", "refused 22 at y", "refused 23", "match", "no match")
        answer = ask(question_from([], b"[x] := [1, 2]"), library())
        self.assertTrue(agrees(Refused(13), answer))

    def test_match(self) -> None:
        self.check("[w, v]", "--on [18,[1]]", "match w=18, v=[1]", "no match", "refused 17")
        on = ["--on", '[18, {"a": 1, "b": `x`}, 2]']
        answer = ask(question_from(on, b"[w, v, _]"), library())
        for text in (b"match", b"match w=18", b'match v={"b": "x", "a": 1}, w=18', b"planned"):
            self.assertTrue(agrees(read_expected(text), answer))
        for text in (b"match w=16", b"match x=18", b'match v={"a": 1}', b'match w="18"'):
            self.assertFalse(agrees(read_expected(text), answer))
        self.check("_", "--on 1", "match", "match w=1")
        self.check("w", "--on 1 --given w=1", "match", "match w=1")

    def test_no_match(self) -> None:
        self.check("[w, w] = [18, 16]", "--run", "no match", "match", "refused 13")


if __name__ == "__main__":
    unittest.main()
