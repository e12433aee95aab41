"""Rules run as they are written: names of the value side, pairs, items of a collection."""

import json
import random
import unittest
from itertools import product

from rules.run.verdict import Always, Match, NoMatch, NotRun, Sometimes
from rules.tables.listing import Plan, RunRefusal
from rules.tables.places import text_of as text_of_node
from rules.tables.sheet import Sheet
from rules.words.as_json import NoJson, json_value
from rules.words.verdicts import verdict_in_words
from tests.check.page.pages import Page, page_html
from tests.planners import asked, run, with_library
from tests.run.test_agreement import LITERALS, text_of

RUNS = 600
# Items on each side of a random pair of sides.
PAIRS = 4
GIVEN = ("ga", "gb")
NAMES = ("x", "y", "_")
CHOICES = list(product("01", repeat=2))


def said(rule: str, *options: str) -> list[str]:
    return verdict_in_words(asked(rule, *options)).splitlines()


def values_of(answer: object) -> dict[str, object]:
    """The names that a match or a step sets, with their values."""
    found = answer.verdict.values
    return {name.decode(): value_of(answer.sheet, node) for name, node in found.items()}


def value_of(sheet: Sheet, node: int) -> object:
    """The text where JSON can't say it."""
    try:
        return json_value(sheet, node)
    except NoJson:
        return text_of_node(sheet, node)


@with_library
class ValueSides(unittest.TestCase):
    def test_a_side_that_is_a_name(self) -> None:
        sides = ("--run", "--given", "sides=[18, 16]")
        lines = [
            "run on [18, 16]: no match",
            "    [18, 16]",
            "         ^^ `w` is 18 (column 2), and 16 stands here",
        ]
        self.assertEqual(said("[w, w] = sides", *sides), lines)
        self.assertEqual(said("sides = [w, w]", *sides), lines)
        self.assertEqual(said("[w, w] := sides", *sides), lines)
        flush = asked("[w, w] = sides", "--run", "--given", "sides=[18, 18]")
        self.assertEqual(values_of(flush), {"w": 18})
        self.assertEqual(said("w = w", "--run", "--given", "w=3"), ["run on 3: match"])
        lines = ["run on 3: match", "    x = 3"]
        self.assertEqual(said("x := x", "--run", "--given", "x=3"), lines)

    def test_names_in_a_side(self) -> None:
        lines = ["run on [1, 3]: match", "    x = 1", "    y = 3"]
        self.assertEqual(said("[x, y] = [1, z]", "--run", "--given", "z=3"), lines)
        deep = '[x, {"a": y}] := [[z, z], {"a": {"b": z}}]'
        found = asked(deep, "--run", "--given", 'z={"c": null}')
        self.assertEqual(values_of(found), {"x": [{"c": None}] * 2, "y": {"b": {"c": None}}})
        lines = said("x := [z, {z: [2]}]", "--run", "--given", "z=1")
        self.assertEqual(lines, ["run on [1, {1: [2]}]: match", "    x = [1, {1: [2]}]"])

    def test_places(self) -> None:
        """A value that stands for a name is told at the name."""
        given = ("--run", "--given", "a=1", "--given", "b=2")
        lines = said("[w, w] = [a, b]", *given)
        self.assertEqual(lines[1], "    [w, w] = [a, b]")
        self.assertEqual(lines[2].strip(), "^ `w` is 1 (given a), and `b` is 2 (given)")
        self.assertEqual(lines[2].index("^"), lines[1].index("b"))
        lines = said("[w, [w]] = [a, b]", "--run", "--given", "a=1", "--given", "b=[2]")
        self.assertEqual(lines[1:], ["    [2]", "     ^ `w` is 1 (given a), and 2 stands here"])
        lines = said("[[w], w] = [a, b]", "--run", "--given", "a=[1]", "--given", "b=2")
        self.assertTrue(lines[2].endswith("`w` is 1 (given a, column 2), and `b` is 2 (given)"))
        lines = said("[w] = sides", "--run", "--given", "sides=3")
        words = "an array of 1 is asked for (column 1), and `sides` is 3 (given)"
        self.assertEqual(lines[2].strip(), f"^^^^^ {words}")

    def test_names_without_a_value(self) -> None:
        lines = said("[x, y] = [a, b]", "--run", "--given", "a=1", "--bound", "b")
        self.assertIn("run on [1, b]: refused, 22 not a value: ", lines[0])
        self.assertEqual(lines[1], "    [x, y] = [a, b]")
        self.assertEqual(lines[2].strip(), "^ `b` has no value: --given b=..")
        # The refusal says it, and no note does again.
        self.assertNotIn("note: ", run("x := [a]", "--run")[1])

    def test_over_a_limit(self) -> None:
        """The value's nodes stand in the tables again for each place."""
        value = f"z={[0] * 200}"
        lines = said("x := [z, z, z]", "--run", "--given", value)
        self.assertIn(": refused, 1 over a limit: ", lines[0])
        self.assertIn("nodes: 609, at most 512", lines)

    def test_measured(self) -> None:
        measured = ("--run", "--given", "w=17..19")
        self.assertEqual(said("w = w", *measured), ["run on 17..19: always"])
        self.assertIsInstance(asked("[x, w] = [w, 18]", *measured).verdict, Sometimes)
        self.assertIsInstance(asked("[x, 18] = [w, 18]", *measured).verdict, Always)
        words = "not run: `w` is measured and read at two places, each of which would be a"
        lines = said("[x, x] = [w, w]", *measured)
        self.assertEqual(lines, [f"{words} measurement of its own"])
        lines = said("x := {w: 1}", *measured)
        self.assertEqual(lines, ["not run: `w` is measured, and a key is exact"])

    def test_random(self) -> None:
        """As the rule in whose text the values stand."""
        chance = random.Random(42)
        met: dict[type, int] = {}
        for _ in range(RUNS):
            given = {name: text_of(chance, LITERALS, 1) for name in GIVEN}
            rule = f"{text_of(chance, [*NAMES, '7'], 2)} = [{text_of(chance, [*GIVEN, '7'], 2)}]"
            rule = chance.choice([rule, f"[x, [y]] := {rule.split(' = ')[1]}"])
            written = rule
            for name, value in given.items():
                written = written.replace(name, value)
            options = [f"--given={name}={value}" for name, value in given.items() if name in rule]
            found, expected = asked(rule, "--run", *options), asked(written, "--run")
            met[type(found.verdict)] = met.get(type(found.verdict), 0) + 1
            if isinstance(expected.outcome, Plan):
                self.assertEqual(answer_of(found), answer_of(expected), f"{rule} {given}")
            else:
                self.assertNotIsInstance(found.verdict, Match, f"{rule} {given}")
        self.assertGreater(min(met[Match], met[NoMatch]), RUNS // 20)


    def test_random_measured(self) -> None:
        """As all choices of the numbers have it, each made once for a name."""
        chance = random.Random(45)
        met: dict[str, int] = {}
        while sum(met.values()) < RUNS // 3:
            side = f"[{chance.choice(GIVEN)}, {text_of(chance, [*GIVEN, '0'], 1)}]"
            rule = f"[{chance.choice('x_')}, {text_of(chance, ['x', *GIVEN, '0'], 1)}] = {side}"
            answer = asked(rule, "--run", *given_as(rule, "0..1", "0..1"))
            if isinstance(answer.verdict, RunRefusal | NotRun | None):
                continue
            choices = [asked(rule, "--run", *given_as(rule, *choice)) for choice in CHOICES]
            matches = sum(isinstance(choice.verdict, Match) for choice in choices)
            expected = {0: "never", len(CHOICES): "always"}.get(matches, "sometimes")
            self.assertEqual(answer.verdict.said, expected, rule)
            met[expected] = met.get(expected, 0) + 1
        self.assertEqual(met.keys(), {"never", "sometimes", "always"})


def given_as(rule: str, *values: str) -> list[str]:
    given = zip(GIVEN, values)
    return [f"--given={name}={value}" for name, value in given if name in rule]


def answer_of(answer: object) -> object:
    return values_of(answer) if isinstance(answer.verdict, Match) else type(answer.verdict)


@with_library
class Pairs(unittest.TestCase):
    def test_in_plan_order(self) -> None:
        lines = ["run pair by pair: match", "    pair 1: x = 1", "    pair 2: match"]
        self.assertEqual(said("[x, 1] = [1, x]", "--run"), lines)
        lines = [
            "run pair by pair: no match",
            "    pair 1: x = 1",
            "    pair 2: no match",
            "        [x, 2] = [1, x]",
            "                     ^ 2 is asked for (column 5), and `x` is 1 (column 11)",
        ]
        self.assertEqual(said("[x, 2] = [1, x]", "--run"), lines)

    def test_what_one_binds_is_given_to_the_next(self) -> None:
        rule = "[x, y, z] = [1, [x, x], {\"a\": y}]"
        found = asked(rule, "--run", "--given", "z={\"a\": [1, 1]}")
        self.assertEqual(values_of(found), {"x": 1, "y": [1, 1]})
        self.assertEqual(status("[x, 1] = [1, x]", "--unbound", "x"), 0)
        self.assertEqual(status("[x, 1] = [1, x]", "--local", "x", "--scheduler"), 0)
        self.assertEqual(status("[x, y, 2] = [1, [x], y]"), 1)
        self.assertEqual(status("[x, y, [1]] = [1, [x], y]"), 0)
        self.assertEqual(said("[x, 1] = [z, x]", "--run", "--given", "z=1")[1], "    pair 1: x = 1")

    def test_up_to_the_first_that_misses(self) -> None:
        lines = said("[x, 2, y] = [1, x, 3]", "--run")
        self.assertEqual([line for line in lines if "pair 3" in line], [])

    def test_names_without_a_value(self) -> None:
        lines = said("[x, 1] = [z, x]", "--run", "--bound", "z")
        self.assertEqual(lines[0], "run pair by pair: refused")
        self.assertTrue(lines[1].startswith("    pair 1: refused, 22 not a value: "))
        self.assertEqual(lines[3].strip(), "^ `z` has no value: --given z=..")

    def test_not_simple(self) -> None:
        lines = said("[x, {1}] = [{2}, x]", "--run")
        self.assertTrue(lines[1].startswith("    pair 1: refused, 22 "), lines)

    def test_measured(self) -> None:
        measured = ("--run", "--given", "w=17..19")
        self.assertEqual(said("[x, 18] = [w, x]", *measured)[0], "run pair by pair: sometimes")
        self.assertEqual(said("[x, 16] = [w, x]", *measured)[0], "run pair by pair: never")
        always = asked("[x, 1, y] = [w, y, 1]", *measured)
        self.assertIsInstance(always.verdict, Always)
        lines = said("[x, 18, y] = [w, x, 1]", *measured)
        self.assertEqual(lines[0], "run pair by pair: not to the end")
        words = "the pairs behind one that matches sometimes: what it binds isn't settled"
        self.assertEqual(lines[-1], f"not run: {words}")
        self.assertEqual(status("[x, 18, y] = [w, x, 1]", "--given", "w=17..19"), 1)

    def test_random(self) -> None:
        """As unification of the two sides has it."""
        chance = random.Random(43)
        met: dict[type, int] = {}
        while sum(met.values()) < RUNS:
            sides = [pair_side(chance) for _ in range(2)]
            answer = asked(" = ".join(map(text_of_term, sides)), "--run")
            if not answer.steps or isinstance(answer.verdict, RunRefusal):
                continue
            met[type(answer.verdict)] = met.get(type(answer.verdict), 0) + 1
            names: dict[str, object] = {}
            self.assertEqual(isinstance(answer.verdict, Match), unified(*sides, names), sides)
            if isinstance(answer.verdict, Match):
                found = {name: resolved(value, names) for name, value in names.items()}
                self.assertEqual(values_of(answer), found, sides)
        self.assertGreater(min(met[Match], met[NoMatch]), RUNS // 20)


class Name(str):
    """A name of a rule; an int is a literal, a list an array."""


def pair_side(chance: random.Random) -> list[object]:
    leaves = [Name("x"), Name("y"), Name("z"), 1, 2, 1, 2]
    deeper = [chance.choice(leaves), [chance.choice(leaves)], [1, chance.choice(leaves)]]
    return [chance.choice(leaves + deeper) for _ in range(PAIRS)]


def text_of_term(term: object) -> str:
    return f"[{', '.join(map(text_of_term, term))}]" if isinstance(term, list) else str(term)


def resolved(term: object, names: dict[str, object]) -> object:
    if isinstance(term, Name) and term in names:
        return resolved(names[term], names)
    return [resolved(item, names) for item in term] if isinstance(term, list) else term


def unified(left: object, right: object, names: dict[str, object]) -> bool:
    left, right = resolved(left, names), resolved(right, names)
    if isinstance(right, Name):
        left, right = right, left
    if isinstance(left, Name):
        names[left] = right
        return True
    if isinstance(left, list) and isinstance(right, list) and len(left) == len(right):
        return all(unified(*pair, names) for pair in zip(left, right))
    return left == right


@with_library
class Items(unittest.TestCase):
    def test_each_item(self) -> None:
        lines = [
            "run on the items of [[18, 18], [18, 16]]: 1 of 2 matches",
            "    item 1: w = 18",
            "    item 2: no match",
            "        some [w, w] in [[18, 18], [18, 16]]",
            "                                       ^^ `w` is 18 (column 28), and 16 stands here",
        ]
        self.assertEqual(said("some [w, w] in [[18, 18], [18, 16]]", "--run"), lines)

    def test_collections(self) -> None:
        value = "[[18, 18], [18, 16]]"
        head = f"run on the items of {value}: 1 of 2 matches"
        given = ("--run", "--given", f"sides={value}")
        self.assertEqual(said("some [w, w] in sides", *given)[0], head)
        self.assertEqual(said("some [w, w] in sides", "--on", value)[0], head)
        self.assertNotIn("note: ", run("some [w, w] in sides", "--on", value)[1])
        self.assertEqual(said("some [w, w] in input.sides", "--on", value)[0], head)
        lines = said("some x in {1, 2}", "--run")
        self.assertEqual(lines[1:], ["    item 1: x = 1", "    item 2: x = 2"])
        lines = said("some [w, w] in [[a, 1], [a, b]]", "--run", "--given", "a=1", "--given", "b=2")
        self.assertEqual(lines[0], "run on the items of [[1, 1], [1, 2]]: 1 of 2 matches")
        self.assertEqual(lines[1], "    item 1: w = 1")

    def test_keys(self) -> None:
        lines = said("some k, [x] in {\"a\": [1], \"b\": 2}", "--run")
        self.assertEqual(lines[1], "    key \"a\": k = \"a\", x = 1")
        self.assertEqual(lines[2], "    key \"b\": no match")
        lines = said("some i, x in [5, 6]", "--run")
        self.assertEqual(lines[1:], ["    item 1: i = 0, x = 5", "    item 2: i = 1, x = 6"])
        lines = said("some 1, x in [5, 6]", "--run")
        self.assertEqual(lines[1:3], ["    item 1: no match", "        0"])
        self.assertEqual(lines[4], "    item 2: x = 6")
        lines = said("some \"b\", x in parts", "--on", "{\"a\": 1, \"b\": 2}")
        self.assertEqual(lines[0], "run on the items of {\"a\": 1, \"b\": 2}: 1 of 2 matches")
        # Key and value are planned, and run, apart.
        self.assertEqual(said("some x, x in [5]", "--run")[1], "    item 1: x = 5")

    def test_status(self) -> None:
        """Some item that matches is enough."""
        self.assertEqual(status("some 3 in [1, 3]"), 0)
        self.assertEqual(status("some 3 in [1, 2]"), 1)
        self.assertEqual(status("some x in []"), 1)
        self.assertEqual(said("some x in []", "--run")[0], "run on []: no match")

    def test_refusals(self) -> None:
        lines = said("some w in parts", "--run")
        self.assertTrue(lines[0].startswith("run on parts: refused, 22 not a value: "))
        self.assertEqual(lines[2].strip(), "^^^^^ `parts` has no value: --given parts=..")
        lines = said("some w in f(x)", "--run")
        self.assertEqual(lines[2].strip(), "^^^^ an expression that is taken whole")
        lines = said("some w in {\"a\": 1, \"a\": 2}", "--run")
        self.assertEqual(lines[2].strip(), "^^^ a repeated key")
        self.assertTrue(said("some {1} in [1]", "--run")[1].startswith("    item 1: refused, 21 "))
        # One item that can't be run doesn't hide one that matches.
        self.assertEqual(status("some x in [y, 1]"), 0)
        self.assertEqual(status("some 2 in [y, 1]"), 1)
        self.assertIsInstance(asked("some 2 in [y, 1]", "--run").verdict, RunRefusal)

    def test_measured(self) -> None:
        lines = said("some [w, w] in sides", "--on", "[[17..19, 18], [16, 18]]")
        self.assertEqual(lines[0].split(": ")[1], "0 of 2 match, 1 sometimes")
        self.assertIsInstance(asked("some 18 in xs", "--on", "[17..19, 18]").verdict, Always)

    def test_as_each_alone(self) -> None:
        chance = random.Random(44)
        for _ in range(RUNS // 10):
            items = [text_of(chance, LITERALS, 2) for _ in range(3)]
            pattern = text_of(chance, ["x", "y", "_", "7"], 2)
            answer = asked(f"some {pattern} in xs", "--on", f"[{', '.join(items)}]")
            alone = [answer_of(asked(pattern, "--on", item)) for item in items]
            self.assertEqual([answer_of(step) for step in answer.steps], alone)

    def test_the_note(self) -> None:
        """Without --run a note says that no item matches, with the values given too."""
        printed = run("some [w, w] in sides", "--given", "sides=[[1, 2], [1, 3]]")[1]
        words = "no item does; in the first `w` is 1 (column 3), and 2 stands here"
        self.assertIn(f"note: with the values given this rule never matches: {words}", printed)
        self.assertIn("note: this rule never matches: 2 is asked for", run("[x, 2] = [1, x]")[1])
        self.assertNotIn("note: ", run("some \"a\", x in {\"a\": 1}")[1])
        words = "5 is asked for (column 6), and 0 stands here"
        self.assertIn(f"note: this rule never matches: {words}", run("some 5, x in [1]")[1])


def status(rule: str, *options: str) -> int:
    return run(rule, "--run", *options)[0]


@with_library
class Json(unittest.TestCase):
    def steps(self, rule: str, *options: str) -> list[dict[str, object]]:
        return json.loads(run(rule, "--json", *options)[1])["run"]["steps"]

    def test_pairs(self) -> None:
        first, second = self.steps("[x, 2] = [1, x]", "--run")
        self.assertEqual((first["step"], first["names"]["x"]["value"]), ("pair 1", 1))
        self.assertEqual((second["step"], second["answer"]), ("pair 2", "no match"))
        self.assertEqual(second["miss"]["text"], "x")

    def test_items(self) -> None:
        first, second = self.steps("some i, 6 in [5, 6]", "--run")
        self.assertEqual((first["step"], first["answer"]), ("item 1", "no match"))
        index = {"part": "key", "start": 0, "end": 1, "column": 1, "text": "1", "value": 1}
        self.assertEqual(second["names"]["i"], index)

    def test_no_steps(self) -> None:
        self.assertNotIn("steps", json.loads(run("x = 1", "--run", "--json")[1])["run"])


@with_library
class Files(unittest.TestCase):
    def checked(self, *lines: str) -> list[str]:
        return run("--check", "-", text="\n".join(lines).encode())[1].splitlines()

    def test_as_expected(self) -> None:
        lines = (
            "[w, w] = sides => no match --given sides=[18,16]",
            "[w, w] = sides => match w=18 --given sides=[18,18]",
            "[x, y] = [1, z] => match y=[3] --given z=[3]",
            "[x, 1] = [1, x] => match x=1",
            "[x, 2] = [1, x] => no match",
            "[x, 18] = [w, x] => sometimes --given w=17..19",
            "some [w, w] in [[1, 1], [2, 2], [1, 2]] => match w=2",
            "some [w, w] in [[1, 1], [2, 2], [1, 2]] => 2 match",
            "some [w, w] in sides => none match --on '[[1, 2]]'",
            "some [w, w] in sides => all match --on '[[1, 1]]'",
            "some k, 1 in {\"a\": 1, \"b\": 2} => match k=\"a\"",
            "some x in [] => no match",
            "some x in [] => none match",
            "some x in [] => 0 match",
            "some x in xs => refused 22 at xs",
            "some [w, w] in xs => sometimes --on '[[17..19, 18], 1]'",
        )
        self.assertEqual(self.checked(*lines), [f"{len(lines)} rules, 0 differ"])

    def test_what_differs(self) -> None:
        found = self.checked(
            "some [w, w] in [[1, 1], [1, 2]] => all match",
            "some [w, w] in [[1, 1], [1, 2]] => match w=2",
            "some [w, w] in [[1, 2]] => match",
            "some x in [] => all match",
            "[x, 1] = [1, x] => all match",
            "some {1} in [1] => none match",
        )
        said = [line.split(", found ")[1] for line in found if ", found " in line]
        counted = ["1 of 2 match", "1 of 2 match", "0 of 1 match", "0 of 0 match"]
        self.assertEqual(said, [*counted, "match x=1", "refused 21 at {1}"])

    def test_page(self) -> None:
        items = "some i, [w, w] in [[1, 1], [1, 2]] => 1 match"
        page = Page(page_html(f"{items}\n[x, 2] = [1, x] => match"))
        self.assertEqual(page.faults, [])
        first, second = page.cards["line-1"], page.cards["line-2"]
        self.assertIn("item 1: i = 0, w = 1", first)
        self.assertIn("item 2: no match: `w` is 1 (column 29), and 2 stands here", first)
        self.assertIn("pair 1: x = 1", second)
        self.assertIn(("miss", "x"), page.classes)


if __name__ == "__main__":
    unittest.main()
