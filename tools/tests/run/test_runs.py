"""Runs by the library, and what is said of them."""

import json
import unittest

from rules.run.verdict import Match
from rules.tables.listing import Refusal
from rules.words.verdicts import verdict_in_words
from tests.planners import asked, run, with_library


def said(rule: str, *options: str) -> list[str]:
    return verdict_in_words(asked(rule, *options)).splitlines()


def matched(rule: str, *options: str) -> dict[str, str]:
    """The names that a match sets, with their values' text."""
    answer = asked(rule, *options)
    assert isinstance(answer.verdict, Match), answer.verdict
    nodes = {name: answer.sheet.node(node) for name, node in answer.verdict.values.items()}
    text = answer.sheet.text
    return {name.decode(): text[node.start : node.end].decode() for name, node in nodes.items()}


@with_library
class Matches(unittest.TestCase):
    def test_flush_sides(self) -> None:
        lines = ["run on [18, 18]: match", "    w = 18"]
        self.assertEqual(said("[w, w]", "--on", "[18, 18]"), lines)
        self.assertEqual(said("[w, w] = [18, 18]", "--run")[0], "run on [18, 18]: match")

    def test_names_and_values(self) -> None:
        self.assertEqual(matched("x", "--on", "[1, 2]"), {"x": "[1, 2]"})
        self.assertEqual(matched("[x, _, _]", "--on", "[1, 2, 3]"), {"x": "1"})
        self.assertEqual(matched('[`a`, -1]', "--on", '["a", -1]'), {})
        self.assertEqual(matched('{"b": x, "a": x}', "--on", '{"a": 1, "b": 1}'), {"x": "1"})
        self.assertEqual(matched("18446744073709551615", "--on", "18446744073709551615"), {})
        self.assertEqual(matched("{}", "--on", "{}"), {})
        whole = '[[1, {"a": null, "b": true}], [1, {"b": true, "a": null}]]'
        self.assertEqual(list(matched("[x, x]", "--on", whole)), ["x"])

    def test_given(self) -> None:
        self.assertEqual(matched("[w, x]", "--on", "[18, 16]", "--given", "w=18"), {"x": "16"})
        self.assertEqual(matched("w", "--on", "[1]", "--given", "w=[1]"), {})

    def test_a_given_name_that_another_option_names(self) -> None:
        """It isn't bound by being given, and has a value only where it is known."""
        unbound = ("--on", "16", "--given", "w=18", "--unbound", "w")
        self.assertEqual(matched("w", *unbound), {"w": "16"})
        twice = ("--on", "[16, 16]", "--given", "w=18", "--unbound", "w")
        self.assertEqual(matched("[w, w]", *twice), {"w": "16"})
        known = ("--on", "16", "--given", "w=18", "--global", "w")
        self.assertEqual(said("w", *known)[0], "run on 16: no match")
        local = ("--on", "16", "--given", "w=18", "--local", "w", "--scheduler")
        self.assertEqual(matched("w", *local), {"w": "16"})

    def test_scoping_of_the_operation(self) -> None:
        known = ("--on", "16", "--given", "w=18", "--scoping", "shadow")
        self.assertEqual(matched("w", *known), {"w": "16"})
        self.assertEqual(matched("w", *known, "--as", "parameter"), {"w": "16"})
        self.assertEqual(said("w", *known, "--as", "index")[0], "run on 16: no match")

    def test_assignments(self) -> None:
        self.assertEqual(matched("x := [1]", "--run"), {"x": "[1]"})
        self.assertEqual(matched("x := 1", "--run", "--bound", "x"), {"x": "1"})
        self.assertEqual(matched("x = 1", "--run"), {"x": "1"})
        self.assertEqual(matched("1 = x", "--run"), {"x": "1"})
        self.assertEqual(matched("1 = 1", "--run"), {})
        self.assertEqual(matched("1 = x", "--run", "--given", "x=1"), {})
        self.assertEqual(matched("x = 1", "--run", "--given", "x=1"), {})
        self.assertEqual(matched("_ = 1", "--run"), {})
        self.assertEqual(matched("[1] = _", "--run"), {})

    def test_rego_v1_and_careful(self) -> None:
        self.assertEqual(matched("[x]", "--on", "[1]", "--rego", "v1"), {"x": "1"})
        self.assertEqual(matched("[x] := [1]", "--run", "--careful"), {"x": "1"})


@with_library
class Misses(unittest.TestCase):
    def miss(self, value: str, carets: str, words: str, pattern: str, *options: str) -> None:
        with self.subTest(pattern=pattern, value=value):
            expected = [f"run on {value}: no match", f"    {value}", f"    {carets} {words}"]
            self.assertEqual(said(pattern, "--on", value, *options), expected)

    def test_compared_names(self) -> None:
        words = "`w` is 18 (column 2), and 16 stands here"
        self.miss("[18, 16]", "     ^^", words, "[w, w]")
        words = "`w` is 18 (given), and 16 stands here"
        self.miss("[16, 18]", " ^^", words, "[w, w]", "--given", "w=18")
        words = "`w` is [1] (column 2), and [2] stands here"
        self.miss("[[1], [2]]", "      ^^^", words, "[w, w]")

    def test_first_miss_as_written(self) -> None:
        """The plan lists `a` first, which is written last."""
        words = "`x` is 3 (column 15), and 2 stands here"
        self.miss('{"a": 2, "b": 3}', "      ^", words, '{"b": x, "a": x}')
        words = "1 is asked for (column 7), and 3 stands here"
        self.miss('{"a": 2, "b": 3}', "              ^", words, '{"b": 1, "a": 1}')

    def test_literals(self) -> None:
        self.miss("[1, 16]", "    ^^", "18 is asked for (column 5), and 16 stands here", "[x, 18]")
        self.miss("[1]", " ^", "-1 is asked for (column 2), and 1 stands here", "[-1]")
        self.miss('["1"]', " ^^^", '1 is asked for (column 2), and "1" stands here', "[1]")
        words = "false is asked for (column 2), and null stands here"
        self.miss("[null]", " ^^^^", words, "[false]")

    def test_arrays(self) -> None:
        asked_for = "an array of 2 is asked for (column 1), and"
        self.miss("[1, 2, 3]", "^^^^^^^^^", f"{asked_for} an array of 3 stands here", "[x, y]")
        self.miss("16", "^^", f"{asked_for} 16 stands here", "[x, y]")

    def test_objects(self) -> None:
        self.miss("[]", "^^", "an object is asked for (column 1), and [] stands here", "{}")
        words = 'key "b" is asked for (column 10), and this object has none'
        self.miss('{"a": 1}', "^^^^^^^^", words, '{"a": x, "b": y}')
        self.miss('{"a": 1, "c": 2}', "^^^^^^^^^^^^^^^^", words, '{"a": x, "b": y}')
        none = "is too many: the object asked for (column 1) has none"
        words = f'key "c" {none}; write "c": _ to let it pass'
        self.miss('{"a": 1, "c": 2}', "         ^^^", words, '{"a": x}')
        words = f"key 1 {none}; write 1: _ to let it pass"
        self.miss("{1: 1}", " ^", words, "{}")

    def test_assignments(self) -> None:
        self.assertEqual(
            said("[w, w] = [18, 16]", "--run"),
            [
                "run on [18, 16]: no match",
                "    [w, w] = [18, 16]",
                "                  ^^ `w` is 18 (column 11), and 16 stands here",
            ],
        )
        line = "        ^ 2 is asked for (column 1), and 1 stands here"
        self.assertEqual(said("2 = 1", "--run")[2], line)


@with_library
class Refused(unittest.TestCase):
    def check(self, number: str, caret: str, rule: str, *options: str) -> None:
        with self.subTest(rule=rule, options=options):
            lines = said(rule, *options)
            self.assertIn(f": refused, {number}: ", lines[0])
            self.assertEqual(lines[2], f"    {caret}")

    def test_pattern_not_simple(self) -> None:
        number = "21 pattern not simple"
        self.check(number, "    ^^^ a set", "[x, {x}, {1}]", "--on", "[1]")
        self.check(number, "    ^^^^ an expression that is taken whole", "[x, f(x)]", "--on", "[1]")
        self.check(number, " ^ a computed key", "{k: f(x)}", "--on", "[1]")
        self.check(number, "         ^^^ a repeated key", "{`a`: 1, \"a\": 1}", "--on", "[1]")
        self.check(number, "^^^ a set", "{x} = 1", "--run")

    def test_no_value(self) -> None:
        number = "22 not a value"
        self.check(number, "    ^ a name", "x", "--on", "[1, y, z]")
        self.check(number, " ^ a wildcard", "x", "--on", "[_]")
        self.check(number, "^^^^^ a set", "x", "--on", "set()")
        self.check(number, "^^^ an expression that is taken whole", "x", "--on", "(1)")
        self.check(number, " ^ a computed key", "x", "--on", "{y: 1}")
        self.check(number, "       ^ a repeated key", "x", "--on", "{1: 2, 1: 3}")
        words = "`y` has no value: --given y=.."
        self.check(number, f"      ^ {words}", "x := [y]", "--run")
        self.check(number, f"    ^ {words}", "x = y", "--run", "--bound", "y")
        self.check(number, f"    ^ {words}", "x = y", "--run", "--bound", "x,y")
        self.check(number, f"    ^ {words}", "_ = y", "--run")
        self.check(number, f"^ {words}", "y = _", "--run")
        unbound = ("--run", "--given", "y=1", "--unbound", "y")
        words = "`y` is unbound here, and so has no value"
        self.check(number, f"     ^ {words}", "x := y", *unbound)
        self.check(number, "    ^ a wildcard", "_ = _", "--run")
        given = "^^^ a set, in the value given to `x`"
        self.check(number, given, "[x, y]", "--on", "[1]", "--given", "y=1", "--given", "x={1}")

    def test_name_without_value(self) -> None:
        number = "23 name without value"
        words = "`y` has no value: --given y=.."
        self.check(number, f"    ^ {words}", "[x, y, z]", "--on", "[1]", "--bound", "z,y")
        self.check(number, f"^ {words}", "y = 1", "--run", "--bound", "y")

    def test_order(self) -> None:
        on_a_name = ("--on", "z", "--bound", "y")
        self.check("21 pattern not simple", "    ^^^ a set", "[y, {1}]", *on_a_name)
        self.check("22 not a value", "^ a name", "y", *on_a_name)

    def test_plan_too_large(self) -> None:
        lines = said("[1] = [1]", "--run", "--entries", "1")
        self.assertEqual(lines[1], "entries needed: 2")
        self.assertIn(": refused, 6 plan too large: ", lines[0])
        self.assertEqual(said("[1] = [1]", "--run", "--entries", "2"), ["run on [1]: match"])

    def test_a_rule_that_is_refused_is_not_run(self) -> None:
        answer = asked("[x] := [1, 2]", "--run")
        self.assertEqual((answer.outcome, answer.verdict), (Refusal(13, 5, (1, 2)), None))


@with_library
class NotForARun(unittest.TestCase):
    """The plan is said, then why there is no run; there is an answer."""

    def check(self, message: str, rule: str, *options: str) -> None:
        with self.subTest(rule=rule):
            status, printed, error = run(rule, *options)
            self.assertEqual((status, error), (1, ""))
            self.assertEqual(printed.splitlines()[1][:11], "planned as ")
            self.assertIn(f"not run: {message}", printed)
            told = json.loads(run(rule, *options, "--json")[1])["run"]
            self.assertEqual((told["on"], told["answer"]), (None, "not run"))
            self.assertIn(message, told["words"])

    def test_usage(self) -> None:
        words = "--on is for one expression or some .. in; an assignment is run as it stands: --run"
        self.check(words, "x = 1", "--on", "1")
        words = "--run is for =, := and some .. in; one expression is run on a value: --on VALUE"
        self.check(words, "x", "--run")
        words = "--on gives a value, --run takes the rule's own: one of them is for a rule"
        self.check(words, "x", "--on", "1", "--run")
        words = "a collection is an array, an object or a set, and here stands"
        self.check(f"{words} 1", "some x in xs", "--on", "1")
        self.check(f'{words} "a"', 'some x in "a"', "--run")


if __name__ == "__main__":
    unittest.main()
