import json
import re
import unittest
from collections.abc import Iterator

from tests.planners import ROOT, run, with_library


def found(*arguments: str, text: bytes = b"") -> dict[str, object]:
    status, printed, error = run("--json", *arguments, text=text)
    assert error == "" and printed.isascii() and printed.count("\n") == 1
    return json.loads(printed)


def place(part: str, start: int, end: int, text: str) -> dict[str, object]:
    return {"part": part, "start": start, "end": end, "column": start + 1, "text": text}


def keys(found: object) -> Iterator[str]:
    """The fields at all levels, but for names and values of the rule's own."""
    if isinstance(found, list):
        yield from (key for item in found for key in keys(item))
    elif isinstance(found, dict):
        yield from found
        inner = found["names"].values() if "names" in found else ()
        yield from keys([*inner, *(found[key] for key in found if key not in ("names", "value"))])


def documented() -> set[str]:
    """The fields that tools/README.md lists, those of a place among them."""
    page = (ROOT / "tools" / "README.md").read_text()
    section = page.split("## Machine-readable\n")[1].split("\n## ")[0]
    listed = re.findall(r"^ {4,6}(\w+)(?=  | \.\.)", section, re.MULTILINE)
    place = section.split("A place is told by ")[1].split("\n")[0]
    return {*listed, *re.findall(r"`(\w+)`", place)}


@with_library
class Documented(unittest.TestCase):
    def test_fields(self) -> None:
        answers = [
            found("[w, x]", "--on", "[18, 16]", "--given", "w=18"),
            found("[w, w] = [18, 16]", "--run"),
            found("x", "--on", "y"),
            found("[x, 1] = [1, x]", "--run"),
            found("_ = y"),
            found("18", "--on", "17..19"),
            found("x", "--on", "1", "--on", "2"),
            found("[x y]"),
            found('{"a": x} := {"b": 1}'),
            found("--check", "-", text=b"x => pattern\nx y => planned\n"),
        ]
        self.assertEqual(set(keys(answers)), documented())


@with_library
class Plans(unittest.TestCase):
    def test_plan(self) -> None:
        entry = {"depth": 1, "key": None}
        self.assertEqual(
            found("[w, 18] = y", "--bound", "y", "--rego", "v1"),
            {
                "text": "[w, 18] = y",
                "operation": "=",
                "version": "v1",
                "answer": "planned",
                "form": "bind left",
                "side": None,
                "entries": [
                    {"kind": "array", **place("rule", 0, 7, "[w, 18]"), "depth": 0, "key": None}
                    | {"position": 0},
                    {"kind": "bind", **place("rule", 1, 2, "w"), **entry, "position": 1},
                    {"kind": "literal", **place("rule", 4, 6, "18"), **entry, "position": 2},
                ],
                "run": None,
                "notes": [],
            },
        )

    def test_fields(self) -> None:
        entries = found('{"b": _, "a": f(x)}')["entries"]
        self.assertEqual([entry["kind"] for entry in entries], ["object", "expression", "ignore"])
        self.assertEqual([entry["position"] for entry in entries], [0, 2, 1])
        self.assertEqual(entries[1]["key"], place("rule", 9, 12, '"a"'))

    def test_forms(self) -> None:
        forms = {
            "x": ("pattern", "pattern", None),
            "x := 1": (":=", ":=", None),
            "some x in [1]": ("some-in", "some-in", None),
            "some k, x in [1]": ("some-in", "some-in with key", None),
            "1 = x": ("=", "bind right", None),
            "[x, 1] = [1, x]": ("=", "pairs", None),
            "1 = 1": ("=", "equality check", None),
            "_ = 1": ("=", "wildcard", "left"),
            "1 = _": ("=", "wildcard", "right"),
            "_ = _": ("=", "wildcard", "both"),
        }
        for rule, expected in forms.items():
            with self.subTest(rule=rule):
                answer = found(rule)
                said = (answer["operation"], answer["form"], answer["side"])
                self.assertEqual(said, expected)
        self.assertEqual(found("x", "--as", "index")["operation"], "index")
        self.assertEqual(found("x", "--as", "parameter")["form"], "parameter")
        self.assertEqual(found("[x, 1] = [1, x]")["entries"][0]["kind"], "pair")

    def test_notes(self) -> None:
        words = "`y` is read here, and nothing gives it a value"
        note = {"kind": "reads", "words": words, **place("rule", 4, 5, "y")}
        self.assertEqual(found("_ = y")["notes"], [note])
        for rule, kind in {"[w, w] := [1, 2]": "never", "f(x)": "whole"}.items():
            self.assertEqual([note["kind"] for note in found(rule)["notes"]], [kind])

    def test_characters(self) -> None:
        """A place in bytes and a column in characters."""
        entry = found('["é", x]')["entries"][2]
        self.assertEqual((entry["start"], entry["end"], entry["column"]), (7, 8, 7))
        self.assertEqual(found('["é", x]')["text"], '["é", x]')


@with_library
class Refusals(unittest.TestCase):
    def test_refusal(self) -> None:
        self.assertEqual(
            found("[x] := [1, 2]"),
            {
                "text": "[x] := [1, 2]",
                "operation": ":=",
                "version": "v0",
                "answer": "refused",
                "number": 13,
                "name": "ArrayLengthMismatch",
                "place": place("rule", 7, 13, "[1, 2]"),
                "pattern_place": None,
                "counts": [1, 2],
                "never": True,
                "careful_alone": False,
            },
        )

    def test_the_pattern_of_14(self) -> None:
        answer = found('{"a": x} := {"b": 1}')
        self.assertEqual(answer["pattern_place"], place("rule", 0, 8, '{"a": x}'))
        self.assertEqual(answer["counts"], [0, 0])

    def test_never(self) -> None:
        self.assertFalse(found('{"a": x} := {"a": 1, "a": 1}')["never"])
        self.assertFalse(found("x = y")["never"])
        self.assertTrue(found("some [x] in [[1, 2]]")["never"])

    def test_careful_alone(self) -> None:
        self.assertTrue(found("--careful", "[x, [y]] := [1, [1, 2]]")["careful_alone"])
        self.assertFalse(found("--careful", "[x] := [1, 2]")["careful_alone"])

    def test_no_place(self) -> None:
        answer = found("x", "--entries", "0")
        self.assertEqual((answer["number"], answer["place"], answer["counts"]), (6, None, [1, 0]))


@with_library
class Runs(unittest.TestCase):
    def test_match(self) -> None:
        self.assertEqual(
            found("[w, x]", "--on", "[18, 16]", "--given", "w=18")["run"],
            {
                "on": place("value", 0, 8, "[18, 16]"),
                "answer": "match",
                "names": {"x": {**place("value", 5, 7, "16"), "value": 16}},
            },
        )

    def test_values(self) -> None:
        values = {
            '[true, false, null, "\\u00e9", `r`]': [True, False, None, "é", "r"],
            '{"a": {1: [], true: -1, null: {}}}': {"a": {"1": [], "true": -1, "null": {}}},
            "18446744073709551615": 2**64 - 1,
        }
        for text, value in values.items():
            told = found("x", "--on", text)["run"]["names"]["x"]["value"]
            self.assertEqual(json.dumps(told), json.dumps(value))
        twice = found("x", "--on", '[{1: 2, "1": 3}]')["run"]["names"]["x"]
        self.assertEqual(twice, place("value", 0, 16, '[{1: 2, "1": 3}]'))

    def test_no_match(self) -> None:
        words = "`w` is 18 (column 11), and 16 stands here"
        self.assertEqual(
            found("[w, w] = [18, 16]", "--run")["run"],
            {
                "on": place("rule", 9, 17, "[18, 16]"),
                "answer": "no match",
                "miss": {"words": words, **place("rule", 14, 16, "16")},
            },
        )

    def test_refused(self) -> None:
        self.assertEqual(
            found("x", "--on", "1", "--given", "x=[y]")["run"],
            {
                "on": place("value", 0, 1, "1"),
                "answer": "refused",
                "number": 22,
                "name": "not a value",
                "place": place("given x", 1, 2, "y"),
                "pattern_place": None,
                "counts": [0, 0],
            },
        )

    def test_several_values(self) -> None:
        arguments = ("[w, w]", "--on", "[18, 18]", "--on", "[18, 16]", "--on", "[y, 1]")
        answer = found(*arguments)
        alone = [found("[w, w]", "--on", value)["run"] for value in arguments[2::2]]
        self.assertEqual(answer["runs"], alone)
        self.assertEqual(answer["run"], alone[0])
        self.assertNotIn("runs", found("[w, w]", "--on", "[18, 18]"))

    def test_text_that_cannot_be_read(self) -> None:
        status, printed, error = run("--json", '["\u00e4" y]')
        self.assertEqual((status, error), (2, ""))
        told = {"answer": "none", "error": "bad rule text: expected `,` or `]`, found `y`"}
        place = {"part": "rule", "start": 6, "end": 7, "column": 6, "text": '["\u00e4" y]'}
        self.assertEqual(json.loads(printed), told | place)
        for arguments, part in ((("--on", "["), "value"), (("--given", "w=["), "given w")):
            _, printed, _ = run("w", "--json", *arguments)
            told = json.loads(printed)
            self.assertEqual((told["part"], told["text"]), (part, "["))

    def test_exit_status(self) -> None:
        statuses = {
            ("x",): 0,
            ("x", "--on", "1"): 0,
            ("1", "--on", "2"): 1,
            ("x", "--on", "y"): 1,
            ("1 := 1",): 1,
        }
        for arguments, status in statuses.items():
            self.assertEqual(run("--json", *arguments)[0], status)
            self.assertEqual(run(*arguments)[0], status)
        self.assertEqual(run("--json", "--sheet", "x")[:2], (2, ""))


if __name__ == "__main__":
    unittest.main()
