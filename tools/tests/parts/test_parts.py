"""Rules run on files of parts by the command."""

import io
import unittest
from unittest import mock

from rules.parts.progress import Progress
from tests.parts.files import object_of, ran_on, told_of
from tests.planners import PLANSHEET, run, with_library

FLUSH = '{"left": w, "right": w}'
KITCHEN = """\
name,left,right,wood
sink,18,18,oak
oven,18,16,oak
larder,16.0,16,
"""
SIDES = """\
[
  {"sides": [{"t": 18.0}, {"t": 18, "edge": 1}]},
  {"sides": [{"t": 18}, {"t": 18.5}]}
]
"""
NAMED = '{"sink": [18, 18], "oven": [18, 16]}'
BAD_PART = "kitchen.csv:5: hob: left: 1.5 is not whole: --scale 10 counts in a smaller unit"


@with_library
class Parts(unittest.TestCase):
    def test_plan_misses_and_tally(self) -> None:
        status, printed, error = ran_on("kitchen.csv", KITCHEN, FLUSH, "--open")
        plan = run(FLUSH)[1].splitlines()
        miss = "no match at right: `w` is 18 (at left), and 16 stands here"
        told = [f"kitchen.csv:3: oven: {miss}", "3 parts: 2 match, 1 doesn't"]
        self.assertEqual((status, printed, error), (1, plan + told, ""))

    def test_all_match(self) -> None:
        status, printed, _ = ran_on("kitchen.csv", KITCHEN, '{"right": w}', "--open")
        self.assertEqual((status, printed[-1]), (0, "3 parts: 3 match, 0 don't"))
        status, printed, _ = ran_on("a.jsonl", "18", "w")
        self.assertEqual((status, printed[-1]), (0, "1 part: 1 matches, 0 don't"))

    def test_open(self) -> None:
        """Without it objects are closed; the first key that is too many says what leaves it out."""
        too_many = 'key "name" is too many: the object asked for (column 1) has none'
        too_many += '; write "name": _ to let it pass'
        told = told_of("kitchen.csv", KITCHEN, FLUSH)
        hint = " (--open leaves it out)"
        self.assertEqual(told[0], f"kitchen.csv:2: sink: no match at name: {too_many}{hint}")
        self.assertEqual(told[1], f"kitchen.csv:3: oven: no match at name: {too_many}")
        self.assertEqual(told[-1], "3 parts: 0 match, 3 don't")

    def test_scale(self) -> None:
        rule = 'some {"sides": [{"t": w}, {"t": w}]} in input.parts'
        words = "no match at sides[1].t: `w` is 180 (at sides[0].t), and 185 stands here"
        told = told_of("parts.json", SIDES, rule, "--open", "--scale", "10")
        self.assertEqual(told, [f"parts.json:3: part 2: {words}", "2 parts: 1 matches, 1 doesn't"])
        told = told_of("parts.json", SIDES, rule, "--open")
        words = "sides[1].t: 18.5 is not whole: --scale 10 counts in a smaller unit"
        tally = "1 part: 1 matches, 0 don't; 1 more can't be read"
        self.assertEqual(told, [f"parts.json:3: part 2: {words}", tally])

    def test_separators(self) -> None:
        for name, separator in (("a.csv", ","), ("a.csv", ";"), ("a.tsv", "\t")):
            told = told_of(name, KITCHEN.replace(",", separator), FLUSH, "--open")
            self.assertEqual(told[-1], "3 parts: 2 match, 1 doesn't")

    def test_paths(self) -> None:
        parts = '[{"a b": [1, {"c": 2}]}]'
        for rule, words in (
            ('{"a b": [1, {"c": 3}]}', 'at ["a b"][1].c: 3 is asked for (column 19), and 2 stands'),
            ('{"a b": [x, {"d": y}]}', 'at ["a b"][1]: key "d" is asked for (column 14), and this'),
            ('{"a b": [1, {}]}', 'at ["a b"][1].c: key "c" is too many: '),
            ('{"a b": [x]}', 'at ["a b"]: an array of 1 is asked for (column 9), and an array '),
            ("[x]", "no match: an array of 1 is asked for (column 1), and {"),
        ):
            with self.subTest(rule=rule):
                self.assertIn(words, told_of("a.json", parts, rule)[0])

    def test_given(self) -> None:
        told = told_of("a.jsonl", "[18]\n[16]\n", "[w]", "--given", "w=18")
        words = "no match at [0]: `w` is 18 (given), and 16 stands here"
        self.assertEqual(told, [f"a.jsonl:2: part 2: {words}", "2 parts: 1 matches, 1 doesn't"])


@with_library
class Rules(unittest.TestCase):
    """What is run on a part."""

    def test_the_side_that_names_the_parts(self) -> None:
        for rule in (
            "[w, w]",
            "[w, w] = sides",
            "sides = [w, w]",
            "[w, w] = input.sides",
            "[w, w] := sides",
            "some [w, w] in sides",
            "some [w, w] in input.sides[_]",
            "some [w, w] in [[1, 1]]",
        ):
            with self.subTest(rule=rule):
                tally = told_of("a.json", NAMED, rule)[-1]
                self.assertEqual(tally, "2 parts: 1 matches, 1 doesn't")

    def test_no_such_side(self) -> None:
        status, printed, _ = ran_on("a.json", NAMED, "[w, w] = [1, 1]")
        words = "not run: one side has to name the parts, as in `[w, w] = sides`"
        self.assertEqual((status, printed[-1]), (1, words))
        self.assertEqual(printed[1][:20], "planned as bind left")
        told = object_of("a.json", NAMED, "[w, w] := [1, 1]")
        self.assertEqual(told["run"], {"on": None, "answer": "not run", "words": words[9:]})

    def test_the_name_of_the_parts_has_a_value(self) -> None:
        """So that it is read without a note, and `=` binds the other side."""
        printed = ran_on("a.json", NAMED, "x = parts")[1]
        self.assertEqual(printed[1][:20], "planned as bind left")
        self.assertFalse([line for line in printed if line.startswith("note: ")])
        self.assertEqual(ran_on("a.json", NAMED, "x = parts", "--unbound", "parts")[0], 1)

    def test_keys(self) -> None:
        results = object_of("a.json", NAMED, "some k, [w, _] in parts")["results"]
        self.assertEqual(results[1]["names"], {"k": "oven", "w": 18})
        results = object_of("a.jsonl", "5\n6\n", "some i, t in parts")["results"]
        self.assertEqual([part["names"] for part in results], [{"i": 0, "t": 5}, {"i": 1, "t": 6}])
        told = told_of("a.json", NAMED, 'some "sink", x in parts')
        words = 'no match at its key: "sink" is asked for (column 6), and "oven" stands here'
        self.assertEqual(told[0], f"a.json:1: oven: {words}")

    def test_scoping(self) -> None:
        """`:=` gives its names values of their own; a parameter as --scoping says."""
        given = ("--given", "w=3")
        self.assertEqual(ran_on("a.jsonl", "18", "w := parts", *given)[0], 0)
        self.assertEqual(ran_on("a.jsonl", "18", "w = parts", *given)[0], 1)
        self.assertEqual(ran_on("a.jsonl", "18", "w", *given, "--scoping", "shadow")[0], 0)
        index = ("--as", "index", "--scoping", "shadow")
        self.assertEqual(ran_on("a.jsonl", "18", "w", *given, *index)[0], 1)

    def test_refused_plan(self) -> None:
        status, printed, _ = ran_on("a.json", NAMED, "[w] := [1, 2]")
        self.assertEqual((status, printed[0][:30]), (1, "refused, 13 ArrayLengthMismatc"))

    def test_refusals_that_all_parts_would_have(self) -> None:
        for number, rule, *options in (
            ("21 pattern not simple", "[w, f(w)]"),
            ("22 not a value", "[w, w]", "--given", "w={1}"),
            ("23 name without value", "[w, w]", "--bound", "w"),
            ("32 range wrong", "[w, w]", "--given", "w=19..17"),
        ):
            with self.subTest(number=number):
                status, printed, _ = ran_on("a.json", NAMED, rule, *options)
                refused = [line for line in printed if f"a.json: refused, {number}: " in line]
                self.assertEqual((status, len(refused)), (1, 1))
                told = object_of("a.json", NAMED, rule, *options)
                self.assertEqual((told["refusal"]["number"], told["parts"]), (int(number[:2]), 0))

    def test_refusals_of_one_part(self) -> None:
        parts = '["19..17", ' + "[" * 40 + "]" * 40 + f", {[0] * 600}, 18]"
        told = told_of("a.json", parts, "x")
        words = "refused, 32 range wrong: a range's lowest number is above its highest"
        self.assertEqual(told[0], f"a.json:1: part 1: {words}; the range: 19..17")
        self.assertTrue(told[1].startswith("a.json:1: part 2: refused, 3 too deep: "), told)
        self.assertTrue(told[2].startswith("a.json:1: part 3: refused, 1 over a limit: "), told)
        self.assertIn("; nodes: 602, at most 512", told[2])
        self.assertEqual(told[3], "4 parts: 1 matches, 0 don't, 3 refused")


@with_library
class Measured(unittest.TestCase):
    def told(self, row: str, rule: str = FLUSH, *options: str) -> str:
        return told_of("a.csv", f"left,right\n{row}\n", rule, *options)[0].split(": ", 2)[2]

    def test_sometimes(self) -> None:
        told = self.told("17..19,18")
        decides = "sometimes at right: `w` is 17..19 (at left), and 18 stands here"
        self.assertEqual(told, f"{decides}; match with left 18, no match with left 17")
        told = self.told("18,17..19", '{"left": _, "right": 18}')
        decides = "sometimes at right: 18 is asked for (column 22), and 17..19 stands here"
        self.assertEqual(told, f"{decides}; match with right 18, no match with right 17")

    def test_never(self) -> None:
        told = self.told("17..18,19")
        self.assertEqual(told, "never at right: `w` is 17..18 (at left), and 19 stands here")

    def test_always(self) -> None:
        told = object_of("a.csv", "left,right\n17..19,18\n", '{"left": w, "right": 18}')
        result = {"line": 2, "part": "part 1", "answer": "always", "names": {"w": "17..19"}}
        self.assertEqual(told["results"], [result])
        self.assertEqual((told["match"], told["sometimes"]), (1, 0))

    def test_json_string_and_scale(self) -> None:
        told = told_of("a.jsonl", '["17.5..18.5", 18]', "[w, w]", "--scale", "10")
        decides = "sometimes at [1]: `w` is 175..185 (at [0]), and 180 stands here"
        choices = "match with [0] 180, no match with [0] 175"
        self.assertEqual(told[0], f"a.jsonl:1: part 1: {decides}; {choices}")
        told = told_of("a.jsonl", '"17..19"', "18")
        self.assertTrue(told[0].endswith("; match with 18, no match with 17"), told)

    def test_given(self) -> None:
        told = told_of("a.jsonl", "[[18]]", "[w]", "--given", "w=[17..19]")
        self.assertTrue(told[0].endswith("; match with given w[0] 18, no match with given w[0] 17"))

    def test_json(self) -> None:
        told = object_of("a.csv", "left,right\n17..19,18\n17,18\n", FLUSH)
        first = {
            "line": 2,
            "part": "part 1",
            "answer": "sometimes",
            "path": "right",
            "words": "`w` is 17..19 (at left), and 18 stands here",
            "matching": {"left": 18},
            "missing": {"left": 17},
        }
        self.assertEqual(told["results"][0], first)
        self.assertEqual(told["results"][1]["answer"], "no match")


@with_library
class Unreadable(unittest.TestCase):
    def test_parts_that_cannot_be_read(self) -> None:
        """They are told, the others are run, and there is no answer for all."""
        content = KITCHEN.replace("larder,16.0", "hob,1.5") + "larder,18,16,oak\n"
        status, printed, _ = ran_on("kitchen.csv", content, FLUSH, "--open")
        self.assertEqual((status, printed[-3]), (2, BAD_PART.replace(":5:", ":4:")))
        self.assertEqual(printed[-1], "3 parts: 1 matches, 2 don't; 1 more can't be read")

    def test_broken_file(self) -> None:
        status, printed, _ = ran_on("a.json", "[[18, 18],\n [18", "[w, w]")
        said = ["a.json:2: no JSON: Expecting ',' delimiter (column 5)"]
        self.assertEqual((status, printed[-2:-1]), (2, said))
        told = object_of("a.csv", "a,a\n", "x")
        heading = "no table: the heading `a` stands twice"
        self.assertEqual(told["results"], [{"line": 1, "part": None, "error": heading}])
        self.assertEqual((told["parts"], told["unreadable"]), (0, 1))

    def test_no_parts(self) -> None:
        contents = (("a.csv", ""), ("a.csv", "left\n"), ("a.json", "[]"), ("a.jsonl", "\n"))
        for name, content in contents:
            self.assertEqual(ran_on(name, content, "x"), (2, [], f"{name} has no parts\n"))

    def test_usage(self) -> None:
        for arguments, message in (
            (["--open"], "--open and --scale go with --parts FILE"),
            (["--scale", "10"], "--open and --scale go with --parts FILE"),
            (["--parts", "a.csv", "--on", "1"], "--parts FILE has the values: --on and --run go"),
            (["--parts", "a.csv", "--run"], "--parts FILE has the values: --on and --run go"),
            (["--parts", "a.csv", "--sheet"], "a sheet has no place for --parts"),
            (["--parts", "a.csv", "--plansheet", str(PLANSHEET)], " have no place for --parts"),
            (["--parts", "a.csv"], "a.csv can't be read: No such file"),
        ):
            with self.subTest(arguments=arguments):
                status, printed, error = run("x", *arguments)
                self.assertEqual((status, printed), (2, ""))
                self.assertIn(message, error)
        self.assertEqual(run("x", "--parts", "a.csv", "--scale", "7")[0], 2)
        self.assertEqual(run("--check", "-", "--parts", "a.csv")[0], 2)
        self.assertEqual(run("--body", "-", "--parts", "a.csv")[0], 2)

    def test_standard_input(self) -> None:
        status, printed, _ = run("[w, w]", "--parts", "-", text=b"[1, 1]\n[1, 2]\n")
        words = "-:2: part 2: no match at [1]: `w` is 1 (at [0]), and 2 stands here"
        self.assertEqual((status, printed.splitlines()[-2]), (1, words))


@with_library
class Json(unittest.TestCase):
    def test_fields(self) -> None:
        told = object_of("kitchen.csv", KITCHEN, FLUSH, "--open")
        self.assertEqual(told["rule"]["form"], "pattern")
        miss = {
            "line": 3,
            "part": "oven",
            "answer": "no match",
            "path": "right",
            "words": "`w` is 18 (at left), and 16 stands here",
        }
        self.assertEqual(told["results"][1], miss)
        first = {"line": 2, "part": "sink", "answer": "match", "names": {"w": 18}}
        self.assertEqual(told["results"][0], first)
        counts = {"parts": 3, "match": 2, "sometimes": 0, "no_match": 1, "refused": 0}
        rest = {"file", "rule", "results", "unreadable", "refusal"}
        self.assertEqual({key: told[key] for key in counts}, counts)
        self.assertEqual(told.keys(), counts.keys() | rest)

    def test_refused_part(self) -> None:
        part = object_of("a.jsonl", '"19..17"', "x")["results"][0]
        self.assertEqual((part["answer"], part["number"]), ("refused", 32))


class Terminal(io.StringIO):
    def isatty(self) -> bool:
        return True


class ProgressLine(unittest.TestCase):
    def test_a_line_that_goes_away(self) -> None:
        terminal = Terminal()
        with mock.patch("rules.parts.progress.SECONDS", 0):
            progress = Progress(terminal)
            progress.one_more(told=False)
            progress.one_more(told=True)
            progress.one_more(told=True)
        self.assertEqual(terminal.getvalue(), "\r1 parts\r       \r")

    def test_no_terminal(self) -> None:
        output = io.StringIO()
        with mock.patch("rules.parts.progress.SECONDS", 0):
            for progress in (Progress(output), Progress(None)):
                progress.one_more(told=False)
                progress.clear()
        self.assertEqual(output.getvalue(), "")


if __name__ == "__main__":
    unittest.main()
