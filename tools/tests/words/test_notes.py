import unittest

from rules.run.verdict import NoMatch
from rules.tables.plansheet import Plansheet
from rules.text.rule_text import Kind
from rules.words.notes import (
    AS_KEY,
    AS_VALUE,
    WHOLE,
    Note,
    NoteKind,
    notes_in_words,
    notes_of,
)
from tests.planners import PLANSHEET, asked, library, run, with_library, with_plansheet

NEVER = "this rule never matches: "


def notes(rule: str, *options: str) -> list[Note]:
    return notes_of(asked(rule, *options), library())


def read(rule: str, *options: str) -> dict[str, int]:
    """The names that are noted as read without a value, with the byte of the place."""
    found = notes(rule, *options)
    reads = [note for note in found if note.kind is NoteKind.READS]
    return {note.words.split("`")[1]: note.start for note in reads}


def never(rule: str, *options: str) -> tuple[str, str] | None:
    """Why a rule never matches, and the text that the note is about."""
    found = [note for note in notes(rule, *options) if NEVER in note.words]
    assert len(found) <= 1
    return (found[0].words, rule[found[0].start : found[0].end]) if found else None


@with_library
class Reads(unittest.TestCase):
    def test_value_sides(self) -> None:
        places = {
            "x := y": {"y": 5},
            "x := f(y)": {},
            "_ = y": {"y": 4},
            "y = _": {"y": 0},
            "_ = _": {},
            "some x in xs": {"xs": 10},
            "some k, x in [xs, k]": {"xs": 14, "k": 18},
            "x := [{y, 1}, {z: w}, input.a]": {"y": 7, "z": 15, "w": 18},
            "x := [input, data, _, y, y]": {"y": 22},
        }
        for rule, expected in places.items():
            with self.subTest(rule=rule):
                self.assertEqual(read(rule), expected)

    def test_known_names(self) -> None:
        self.assertEqual(read("x := y", "--bound", "y"), {})
        self.assertEqual(read("x := y", "--global", "y"), {})
        self.assertEqual(read("x := y", "--given", "y=1"), {})
        self.assertEqual(read("x := y", "--local", "y", "--bound", "y"), {})
        self.assertEqual(read("x := y", "--local", "y", "--bound", "y", "--scheduler"), {"y": 5})
        self.assertEqual(read("x := y", "--unbound", "y", "--bound", "y"), {"y": 5})

    def test_sides_of_an_equation(self) -> None:
        self.assertEqual(read("x = [y, z]", "--bound", "y,z"), {})
        self.assertEqual(read("{y} = {z}"), {"y": 1, "z": 7})
        self.assertEqual(read("x = {y}"), {"y": 5})
        self.assertEqual(read("{y} = x"), {"y": 1})

    def test_pairs(self) -> None:
        self.assertEqual(read("[x, 1] = [1, x]"), {})
        self.assertEqual(read("[x, {y}] = [1, z]"), {"y": 5})
        self.assertEqual(read("[x, {x}, 1] = [1, z, w]"), {})
        self.assertEqual(read("[{x}, x] = [z, 1]"), {"x": 2})

    def test_compared_expressions(self) -> None:
        self.assertEqual(read("[x, {x, y}]"), {"y": 8})
        self.assertEqual(read("[{x}, x]"), {"x": 2})
        self.assertEqual(read('{"b": x, "a": {x}}'), {})
        self.assertEqual(read("[x, x]"), {})
        self.assertEqual(read('{"a": x, "a": 1, "b": x}'), {"x": 22})
        self.assertEqual(read("[x, f(y)]"), {})

    def test_computed_keys(self) -> None:
        self.assertEqual(read("{k: v}"), {"k": 1})
        self.assertEqual(read("{[k]: v, 1: w}"), {"k": 2})
        self.assertEqual(read("[k, {k: v}]"), {"k": 5})
        self.assertEqual(read("[k, {k: v}] = [1, z]"), {})
        self.assertEqual(read("{k: v}", "--bound", "k"), {})

    def test_words(self) -> None:
        self.assertEqual(notes("_ = y"), [Note(NoteKind.READS, f"`y` {AS_VALUE}", 4, 5)])
        self.assertEqual(notes("{k: v}"), [Note(NoteKind.READS, f"`k` {AS_KEY}", 1, 2)])
        self.assertEqual(notes("x = y"), [])


@with_library
class Whole(unittest.TestCase):
    def whole(self, rule: str, *options: str) -> list[Note]:
        return [note for note in notes(rule, *options) if note.kind is NoteKind.WHOLE]

    def test_no_pattern(self) -> None:
        for rule in ("part.thickness >= 16", "count(parts) > 2", "walk(x, [p, v])", "(x)", "-x"):
            for operation in ("pattern", "index", "parameter"):
                note = Note(NoteKind.WHOLE, WHOLE[Kind.OTHER], 0, len(rule))
                self.assertEqual(self.whole(rule, "--as", operation), [note])
        note = Note(NoteKind.WHOLE, WHOLE[Kind.SET], 0, 3)
        self.assertEqual(self.whole("{x}", "--bound", "x"), [note])

    def test_patterns_and_assignments(self) -> None:
        for rule in ("[f(x)]", "x", "18", "f(x) = y", "{1} = {2}", "some x in f(y)", "x := f(y)"):
            self.assertEqual(self.whole(rule), [])


@with_library
class Never(unittest.TestCase):
    def test_assignments(self) -> None:
        flush = f"{NEVER}`w` is 18 (column 12), and 16 stands here"
        self.assertEqual(never("[w, w] := [18, 16]"), (flush, "16"))
        self.assertIsNone(never("[w, w] := [18, 18]"))
        length = f"{NEVER}an array of 1 is asked for (column 5), and an array of 2 stands here"
        self.assertEqual(never("[x, [y]] := [1, [1, 2]]"), (length, "[1, 2]"))
        self.assertEqual(never("[18, 16] = [w, w]")[1], "16")
        self.assertEqual(never("1 = 2")[1], "2")
        self.assertIsNone(never("_ = 2"))

    def test_no_such_run(self) -> None:
        for rule in ("[w, w] = [18, y]", "[w, w, {1}] = [18, 16, 1]", "[x, 1] = [1, x]", "[w, w]"):
            self.assertIsNone(never(rule))
        self.assertIsNone(never("[w, 1] = [18, 2]", "--bound", "w"))
        self.assertIsNone(never("[w, w] = [18, 16]", "--entries", "2"))

    def test_values_given(self) -> None:
        given = f"with the values given {NEVER}`w` is 18 (given), and 16 stands here"
        self.assertEqual(never("w = 16", "--given", "w=18"), (given, "16"))
        self.assertIsNone(never("w = 16", "--given", "w=16"))
        self.assertIsNone(never("w = 16", "--given", "w={16}"))

    def test_some_in(self) -> None:
        one = f"{NEVER}`w` is 1 (column 18), and 2 stands here"
        self.assertEqual(never("some [w, w] in [[1, 2]]"), (one, "2"))
        all_items = f"{NEVER}no item does; in the first `w` is 1 (column 18), and 2 stands here"
        self.assertEqual(never("some [w, w] in [[1, 2], [3, 4]]"), (all_items, "2"))
        self.assertEqual(never("some i, 3 in [1, 2]")[1], "1")
        self.assertEqual(never("some w in []"), (f"{NEVER}the collection is empty", "[]"))
        self.assertIsNone(never("some [w, w] in [[1, 2], [4, 4]]"))
        self.assertIsNone(never("some [w, w] in [[1, 2], y]"))
        self.assertEqual(never("some [w, w] in {[1, 2]}"), (one, "2"))

    def test_where_it_is_said_already(self) -> None:
        answer = asked("[w, w] = [18, 16]", "--run")
        self.assertIsInstance(answer.verdict, NoMatch)
        self.assertEqual(notes_of(answer, library()), [])

    def test_a_refused_rule_has_none(self) -> None:
        self.assertEqual(notes("x = y", "--unbound", "x,y"), [])


@with_plansheet
class WithoutRuns(unittest.TestCase):
    def test_only_names(self) -> None:
        planner = Plansheet(PLANSHEET)
        self.assertEqual(notes_of(asked("[w, w] = [18, 16]", planner=planner), planner), [])
        found = notes_of(asked("_ = y", planner=planner), planner)
        self.assertEqual([note.start for note in found], [4])


@with_library
class Said(unittest.TestCase):
    def test_after_the_plan(self) -> None:
        status, printed, _ = run("[w, w] := [y, 16]")
        self.assertEqual(status, 0)
        self.assertEqual(
            printed.splitlines()[5:],
            [
                "     5    compare w, bound at column 2",
                "note: `y` is read here, and nothing gives it a value",
                "    [w, w] := [y, 16]",
                "               ^",
            ],
        )
        self.assertEqual(notes_in_words(asked("x").sheet, []), "")

    def test_after_the_verdict(self) -> None:
        printed = run("{k: v}", "--on", "{}")[1].splitlines()
        self.assertEqual([line.split(":")[0] for line in printed[-6::3]], ["run on {}", "note"])


if __name__ == "__main__":
    unittest.main()
