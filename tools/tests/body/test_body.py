"""Rule bodies: plans line by line, names that are not ready, refusals, JSON."""

import json
import unittest

from rules.body.lines import read_body
from rules.body.planning import binds_alone, plan_body
from rules.options import question_from
from rules.tables.listing import Plan
from tests.planners import PLANSHEET, library, run, with_library, with_plansheet

NOT_READY = "refused, 38 name not ready: "
ABOVE = "line 2 binds it, which has to stand above this one"
NOTHING = "nothing in this body binds it: "
ITSELF = "this line itself binds it, which is too late"


def told(body: str, *options: str) -> tuple[int, list[str]]:
    """Exit status and what is said of a body from standard input."""
    status, words, errors = run("--body", "-", *options, text=body.encode())
    return status, (words or errors).splitlines()


@with_library
class Accepted(unittest.TestCase):
    def test_lines_and_what_they_bind(self) -> None:
        status, lines = told("# a comment\n\n  x := [1, `#`]  # another\n[x, y] = [x, 2]\n")
        self.assertEqual(status, 0)
        self.assertEqual(lines[0], "line 3: x := [1, `#`]")
        self.assertEqual(lines[3:5], ["     1  bind x", "binds: x"])
        self.assertEqual(lines[5], "line 4: [x, y] = [x, 2]")
        self.assertEqual(lines[6][:21], "planned as bind left:")
        self.assertEqual(lines[-2:], ["binds: y", "the body binds: x, y"])

    def test_operations(self) -> None:
        body = "x := 1\nx = y\nsome k, v in y\n[v, z]\n_ = z\nx = k\n"
        lines = told(body)[1]
        forms = [line.split(": ")[0].removeprefix("planned as ") for line in lines]
        found = [form for line, form in zip(lines, forms) if line.startswith("planned")]
        wanted = ["`:=`", "bind right", "some-in with key", "an index", "wildcard left"]
        self.assertEqual(found, [*wanted, "equality check"])
        self.assertEqual(lines[-1], "the body binds: x, y, k, v, z")

    def test_nothing_bound(self) -> None:
        self.assertEqual(told("1 = 1\n")[1][-1], "the body binds: nothing")

    def test_pairs_bind_for_later_pairs(self) -> None:
        self.assertEqual(told("[x, {x}, 1] = [1, y, z]\n")[0], 0)
        status, lines = told("[{x}, x, 1] = [y, 1, z]\n")
        self.assertEqual((status, lines[2]), (1, f"      ^ {ITSELF}"))

    def test_scope_at_the_start(self) -> None:
        for options in (["--bound", "y"], ["--given", "y=1"], ["--global", "y"]):
            self.assertEqual(told("x := y\n", *options)[0], 0)
        self.assertEqual(told("x := y\n", "--bound", "y", "--local", "y")[0], 0)
        scheduled = told("x := y\n", "--bound", "y", "--local", "y", "--scheduler")
        self.assertEqual(scheduled[0], 1)

    def test_plans_are_those_of_the_lines_alone(self) -> None:
        """Planned one by one, each from the scope that the lines before leave."""
        content = b"[x, {x}, 1] = [1, y, z]\nsome x2, {y: v} in [x, z]\n{v: [w, w]} := y\n_ = w\n"
        question = question_from([], b"")
        body = read_body(content, question)
        outcome = plan_body(body, library(), 1536)
        self.assertEqual(len(outcome.planned), 4)
        bound: dict[bytes, int] = {}
        for planned in outcome.planned:
            scope = read_body(content, question_from(marked(bound), b"")).tables.scope
            alone = binds_alone(planned.line, scope, library(), 1536)
            self.assertEqual(sorted(alone), sorted(planned.binds))
            bound |= dict.fromkeys(alone, 3)
            self.assertIsInstance(planned.plan, Plan)


def marked(bound: dict[bytes, int]) -> list[str]:
    return [f"--bound-here={name.decode()}" for name in bound]


@with_library
class NotReady(unittest.TestCase):
    def check(self, body: str, caret: str, *options: str) -> None:
        status, lines = told(body, *options)
        with self.subTest(body=body):
            self.assertEqual((status, lines[-3][8:36]), (1, NOT_READY))
            self.assertEqual(lines[-1][: 4 + len(caret)], "    " + caret)

    def test_bound_by_a_later_line(self) -> None:
        self.check("x := [1, y]\ny := 2\n", f"         ^ {ABOVE}")
        self.check("some x in y\n[y, y]\n", f"          ^ {ABOVE}")
        self.check("x := y\ny := z\n", f"     ^ {ABOVE}")

    def test_bound_by_nothing(self) -> None:
        self.check("x := y\n", f"     ^ {NOTHING}")
        self.check("x := input\n", f"     ^^^^^ {NOTHING}")
        self.check("x := 1\n{y: z}\n", f" ^ {NOTHING}")
        self.check("x := {[{y}]: 1}\nf(y)\n", f"        ^ {NOTHING}")

    def test_bound_by_the_line_itself(self) -> None:
        self.check("x := x\n", f"     ^ {ITSELF}")
        self.check('{"a": x, x: y}\n', f"         ^ {ITSELF}")

    def test_place_in_its_line(self) -> None:
        lines = told("\n# one\nx := 1\n\n  z := [x,\ty]\n")[1]
        self.assertEqual(lines[5][:36], f"line 5: {NOT_READY}")
        self.assertEqual(lines[6:8], ["    z := [x, y]", lines[7]])
        self.assertEqual(lines[7].index("^"), 4 + len("z := [x, "))


@with_library
class Refused(unittest.TestCase):
    def test_own_refusals(self) -> None:
        status, lines = told("x := 1\n[y] := [1, 2]\n")
        self.assertEqual((status, lines[5][:32]), (1, "line 2: refused, 13 ArrayLengthM"))
        self.assertEqual(lines[7], "           ^^^^^^ the value's array")
        self.assertEqual(lines[8], "items expected by the pattern: 1, items of the value: 2")
        status, lines = told("x := 1\nx := 2\n")
        self.assertEqual((status, lines[5][:19]), (1, "line 2: refused, 17"))
        status, lines = told("x := 1\n[y, z] := x\n", "--entries", "1")
        self.assertEqual((status, lines[-1]), (1, "entries needed: 3"))

    def test_number_of_lines(self) -> None:
        self.assertEqual(told("_ = 1\n" * 64)[0], 0)
        for count in (0, 65):
            status, lines = told("_ = 1\n" * count)
            self.assertEqual((status, lines[0][:22]), (1, "refused, 37 not a body"))
            self.assertTrue(lines[0].endswith(f"here are {count}"))

    def test_tables(self) -> None:
        deep = "[" * 33 + "]" * 33
        status, lines = told(f"_ = 1\n_ = {deep}\n")
        self.assertEqual((status, lines[0][:38]), (1, "the lines together: refused, 3 too dee"))
        long = ", ".join(["1"] * 300)
        status, lines = told(f"_ = [{long}]\n" * 2)
        self.assertEqual((status, lines[1]), (1, "nodes: 604, at most 512"))


@with_library
class Json(unittest.TestCase):
    def test_accepted(self) -> None:
        found = json.loads(told("x := 1\n[x, y]\n", "--json")[1][0])
        self.assertEqual((found["file"], found["answer"]), ("-", "accepted"))
        self.assertIsNone(found["refused"])
        self.assertEqual(found["binds"], ["x", "y"])
        first, second = found["lines"]
        self.assertEqual((first["line"], first["operation"], first["binds"]), (1, ":=", ["x"]))
        self.assertEqual([entry["column"] for entry in second["entries"]], [1, 2, 5])

    def test_refused(self) -> None:
        refused = json.loads(told("\nx := y\ny := 1\n", "--json")[1][0])["refused"]
        self.assertEqual((refused["line"], refused["number"]), (2, 38))
        self.assertEqual((refused["place"]["column"], refused["bound_by_line"]), (6, 3))
        found = json.loads(told("", "--json")[1][0])
        self.assertEqual((found["refused"]["line"], found["refused"]["number"]), (None, 37))
        self.assertEqual((found["lines"], found["binds"]), ([], []))


@with_library
class NoAnswer(unittest.TestCase):
    def test_line_that_cannot_be_read(self) -> None:
        status, words, errors = run("--body", "-", text=b"x := 1\n\ny := [1 2]\n")
        self.assertEqual((status, words), (2, ""))
        self.assertEqual(errors.splitlines()[0][:22], "-:3:9: bad rule text: ")
        self.assertEqual(errors.splitlines()[2], "            ^")
        _, words, errors = run("--body", "-", "--json", text=b"x := 1\n\n  y := [1 2]\n")
        found = json.loads(words)
        self.assertEqual((errors, found["answer"], found["file"]), ("", "none", "-"))
        self.assertEqual((found["line"], found["column"], found["text"]), (3, 11, "y := [1 2]"))

    def test_usage(self) -> None:
        options = (["x"], ["--sheet"], ["--careful"], ["--rego", "v1"], ["--on", "1"], ["--run"])
        more = (["--scoping", "shadow"], ["--as", "index"], ["--check", "-"], ["--html", "x"])
        for wrong in (*options, *more, ["--bound", "q"]):
            with self.subTest(options=wrong):
                self.assertEqual(run("--body", "-", *wrong, text=b"x := 1\n")[:2], (2, ""))
        self.assertEqual(run("--body", "/nowhere/at_all")[0], 2)


@with_plansheet
class BySheets(unittest.TestCase):
    def test_a_planner_of_sheets_has_no_bodies(self) -> None:
        status, _, error = run("--body", "-", "--plansheet", str(PLANSHEET), text=b"x := 1\n")
        self.assertEqual(status, 2)
        self.assertTrue(error.endswith("plans sheets and no bodies: --body goes without it\n"))


if __name__ == "__main__":
    unittest.main()
