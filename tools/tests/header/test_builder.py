"""The tables that include/teluddru_tables.h makes against plan_rule's, and the calls over both."""

import random
import tempfile
import unittest
from dataclasses import replace
from itertools import chain
from pathlib import Path

from rules.check.lines import read_lines
from rules.options import question_from
from rules.question import Question, sheet_for
from rules.tables.library import sign_and_size
from rules.tables.sheet import Sheet
from rules.text.tokens import RuleTextError
from rules.words.refusals import LIMITS
from tests.header.compiled import CXX11, HERE, compiled, output_of, with_compiler
from tests.header.drawn import drawn_bytes, drawn_expression, drawn_rule, spoiled
from tests.planners import ROOT, library, with_library
from tests.test_readme import blocks

TRIALS = ROOT / "tools" / "trials.rules"
DRAWN = 4_000
LONGEST_NAME = 255
VALUES = ["[1, 2]", "7", '{"a": 1}', "[]", "[[7], `raw [`]", "null", '["a", "a"]']
ENTRIES = 1536
ENTRY_WORDS = 5
RANGE = "numbers go from -9223372036854775808 to 18446744073709551615"
CODE = "\\u asks for four hexadecimal digits, and half of a pair for the other half"
WRONG = {
    "": "0: an expression has to stand here",
    " [w, ": "5: an expression has to stand here",
    "[w": "2: `,` or `]` has to stand here",
    "{w: 1 2": "6: `,` or `}` has to stand here",
    "{1: 2, 3}": "8: `:` has to stand here",
    "x y": "2: the end of the text has to stand here",
    "some x": "6: `in` has to stand here",
    "in": "0: a reserved word is no name",
    "a.1": "2: a field's name has to stand here",
    "f(x": "1: this bracket is not closed",
    "f([x)": "2: this bracket is not closed",
    "[é]": "1: no token starts here",
    '["a]': "1: this string has no end",
    "`a": "0: this string has no end",
    '"\\q"': "1: no such escape",
    '"a\t"': "2: a control character: a string has it as an escape",
    '"\\u12"': f"1: {CODE}",
    '"\\ud800\\u0041"': f"1: {CODE}",
    '"\\udc00"': f"1: {CODE}",
    "[18.5]": "1: numbers are whole, without point and exponent",
    "1e3": "0: numbers are whole, without point and exponent",
    "[1, 007]": "4: a number has no leading zeros",
    "-0": "0: there is no minus zero: write 0",
    "18446744073709551616": f"0: {RANGE}",
    "-9223372036854775809": f"0: {RANGE}",
    "n" * 256: "0: a name has at most 255 bytes",
    "[" * 65: "64: more levels than are read",
    "f" + "(" * 65: "64: more levels than are read",
    "[" + "7, " * 257 + "]": "769: the tables have no space for this",
    "x" * 16381: "0: the tables have no space for the text",
}


def command(name: str, text: bytes, marks: int = 0) -> bytes:
    return b"%s %d %d\n%s\n" % (name.encode(), len(text), marks, text)


def reading_commands(question: Question, sheet: Sheet | None) -> list[bytes]:
    """The rule, its values and the marks of its names."""
    values = [*([] if question.on is None else [question.on]), *question.given.values()]
    marked = [] if sheet is None else sheet.names.items()
    return [
        b"clear\n",
        command("rule", question.rule),
        *(command("value", value) for value in values),
        *(command("mark", name, of.marks) for name, of in marked if of.marks),
    ]


def fits(sheet: Sheet) -> bool:
    counts = sheet.counts()
    longest = max(map(len, sheet.names), default=0)
    return longest <= LONGEST_NAME and all(counts[what] <= most for what, most in LIMITS.items())


def words(name: str, numbers: "chain[int] | list[int]") -> str:
    return " ".join([name, *map(str, numbers)])


def tables_line(sheet: Sheet) -> str:
    """The tables as builder.c prints them."""
    names = list(sheet.names.values())
    lists = [
        words("nodes", chain.from_iterable(sheet.nodes)),
        words("children", sheet.children),
        words("numbers", chain.from_iterable(map(sign_and_size, sheet.numbers))),
        words("names", chain.from_iterable(name[:2] for name in names)),
    ]
    marks = bytes(name.marks for name in names)
    stored = {"strings": sheet.strings, "text": sheet.text, "marks": marks}
    return " ".join([*lists, *(f"{name} {content.hex()}" for name, content in stored.items())])


def read_line(sheet: Sheet) -> str:
    first, second, key = sheet.roots
    return words("read", [sheet.operation, first, second, key])


def plan_line(sheet: Sheet) -> str:
    """The library's plan as builder.c prints it."""
    library().plan(sheet, 0, ENTRIES)
    answer = library().answer.tolist()
    planned = answer[3] * ENTRY_WORDS if answer[0] == 0 else 0
    return " ".join([words("answer", answer), words("plan", library().entries[:planned].tolist())])


def run_line(sheet: Sheet) -> str:
    ran = library().run(sheet, sheet.roots[0], sheet.value, 1, [0] * len(sheet.names), ENTRIES)
    return " ".join([words("answer", ran.answer), words("values", ran.values)])


def sheet_or_none(question: Question) -> Sheet | None:
    """None of a text that can't be read."""
    try:
        return sheet_for(question)
    except RuleTextError:
        return None


def trials() -> list[Question]:
    """The rules on trial, without what no text says (--as) or the builder doesn't read (ranges)."""
    lines = read_lines(TRIALS.read_bytes())
    asked = [question_from([*line.shared, *line.own], line.rule.text) for line in lines]
    return [replace(each, operation=None, **without_ranges(each)) for each in asked]


def without_ranges(question: Question) -> dict[str, object]:
    return {"on": None, "given": {}} if sheet_for(question).ranges else {}


@with_library
@with_compiler("cc")
class Builder(unittest.TestCase):
    @classmethod
    def setUpClass(cls) -> None:
        cls.folder = Path(cls.enterClassContext(tempfile.TemporaryDirectory()))
        cls.program = compiled(HERE / "builder.c", cls.folder / "builder")

    def lines_of(self, cases: list[list[bytes]]) -> list[list[str]]:
        """The lines that answer the commands of each case."""
        lines = iter(output_of(self.program, b"".join(chain.from_iterable(cases))).splitlines())
        return [[next(lines) for _ in case] for case in cases]

    def check_tables(self, questions: list[Question]) -> int:
        """Reads each; how many were read. plan_rule can't read the others, or they don't fit."""
        sheets = list(map(sheet_or_none, questions))
        cases = [[*reading_commands(*asked), b"tables\n"] for asked in zip(questions, sheets)]
        for question, sheet, lines in zip(questions, sheets, self.lines_of(cases)):
            with self.subTest(rule=question.rule, on=question.on):
                if sheet is None or not fits(sheet):
                    self.assertTrue(any(line.startswith("wrong at ") for line in lines), lines)
                else:
                    self.assertEqual((lines[1], lines[-1]), (read_line(sheet), tables_line(sheet)))
        return sum(sheet is not None and fits(sheet) for sheet in sheets)

    def test_the_rules_on_trial(self) -> None:
        asked = trials()
        self.assertGreater(self.check_tables(asked), 150)
        self.assertGreater(len(asked), 170)

    def test_drawn_rules(self) -> None:
        chance = random.Random(41)
        drawn = [Question(drawn_rule(chance).encode()) for _ in range(DRAWN)]
        self.assertGreater(self.check_tables(drawn), DRAWN * 99 // 100)

    def test_text_that_is_nearly_a_rule(self) -> None:
        chance = random.Random(42)
        texts = [spoiled(chance, drawn_rule(chance)) for _ in range(DRAWN)]
        read = self.check_tables([Question(text.encode()) for text in texts])
        self.assertTrue(DRAWN // 10 < read < DRAWN * 9 // 10, read)

    def test_any_bytes(self) -> None:
        """Whatever is read, the calls take the tables: 1, 2 and 4 are of broken ones."""
        chance = random.Random(44)
        texts = [drawn_bytes(chance) for _ in range(DRAWN)]
        cases = [[b"clear\n", command("rule", text), b"plan\n"] for text in texts]
        read = [lines for lines in self.lines_of(cases) if lines[1].startswith("read ")]
        self.assertGreater(len(read), DRAWN // 100)
        self.assertFalse([lines for lines in read if lines[2].split()[1] in ("1", "2", "4")])

    def test_answers(self) -> None:
        """By the calls: on the tables that were read, and on those that are put node by node."""
        chance = random.Random(43)
        drawn = [drawn_expression(chance, 3).encode() for _ in range(DRAWN // 4)]
        questions = [Question(text, on=chance.choice(VALUES).encode()) for text in drawn]
        sheets = [sheet_for(question) for question in questions]
        calls = [b"plan\n", b"run\n", b"put\n", b"plan\n", b"run\n"]
        cases = [[*reading_commands(*asked), *calls] for asked in zip(questions, sheets)]
        met = set()
        for sheet, lines in zip(sheets, self.lines_of(cases)):
            with self.subTest(text=sheet.text):
                answers = [plan_line(sheet), run_line(sheet)]
                self.assertEqual(lines[-5:], [*answers, "put", *answers])
                met.add(answers[1].split()[1])
        self.assertLessEqual({"0", "100", "21"}, met)

    def test_wrong_text(self) -> None:
        """Place and reason; the tables stay as they were."""
        before = [b"clear\n", command("rule", b"[w]"), b"tables\n"]
        cases = [[*before, command("rule", text.encode()), b"tables\n"] for text in WRONG]
        for (text, wrong), lines in zip(WRONG.items(), self.lines_of(cases)):
            with self.subTest(text=text):
                _, _, tables, found, after = lines
                self.assertEqual((found, after), (f"wrong at {wrong}", tables))

    def test_lines(self) -> None:
        """A value may have lines, as JSON has them, and comments."""
        text = b'{\r\n\t"a": [1, # a comment }\n 2]\n}\n'
        _, read, tables = self.lines_of([[b"clear\n", command("value", text), b"tables\n"]])[0]
        nodes = "nodes 1 4 7 0 1 3 10 11 0 0 3 28 29 1 0 7 9 30 0 2 9 0 32 2 1 children 2 3 1 4 "
        self.assertEqual((read, tables[: len(nodes)]), ("read 1 5 0 0", nodes))

    @with_compiler("c++")
    def test_limits_in_cxx(self) -> None:
        program = compiled(HERE / "limits.c", self.folder / "limits", CXX11)
        self.assertEqual(output_of(program), "kept\n")

    def test_limits(self) -> None:
        self.assertEqual(output_of(compiled(HERE / "limits.c", self.folder / "limits")), "kept\n")


@with_library
@with_compiler("cc")
class FirstPage(unittest.TestCase):
    def test_program(self) -> None:
        """README.md's program prints what the page says."""
        page = (ROOT / "README.md").read_text()
        program = next(block for block in blocks(page) if block[0] == "#include <stdio.h>")
        with tempfile.TemporaryDirectory() as folder:
            source = Path(folder) / "part.c"
            source.write_text("\n".join(program) + "\n")
            said = output_of(compiled(source, Path(folder) / "part"))
        self.assertEqual(said, "no match\n")
        self.assertIn("it prints `no match`", page)


if __name__ == "__main__":
    unittest.main()
