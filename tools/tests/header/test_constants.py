"""include/teluddru.json against the header, as the compiler reads it, and against the library."""

import ctypes
import json
import re
import subprocess
import tempfile
import unittest
from pathlib import Path

from rules.constants import as_json, groups_of
from tests.header.compiled import C99, HERE, INCLUDE, compiled, output_of, with_compiler
from tests.planners import LIBRARY, with_library

HEADER = INCLUDE / "teluddru.h"
GUARD = "TELUDDRU_H"
# A call with the comment above it.
CALL = re.compile(r"/\*((?:(?!\*/).)*)\*/\n(?:uint32_t|size_t) (\w+)\(", re.DOTALL)
UNKNOWN = "a number that this header doesn't know"
NULLS = ["plan 5", "plan_body 37", "run 5", "run_with_tolerance 5", "common_example 5"]
NULLS += ["names_report 5", "add_name 2", "plan of a rule 0", "its second entry 1"]
NULLS += ["store_set_up 34", "store_keep 35", "store_read 0", "store_empty 35"]
NULLS += ["plan_sheet 0", "pages 7"]
PROGRAM = """\
#include <stdio.h>
#include "teluddru.h"
int main(void) {
PRINTED
return 0;
}
"""


def listed() -> dict[str, dict[str, str | int]]:
    return json.loads((INCLUDE / "teluddru.json").read_text())


def constants() -> dict[str, str | int]:
    return {name: value for group in listed().values() for name, value in group.items()}


def preprocessed(*options: str) -> str:
    command = [*C99, "-E", *options, str(HEADER)]
    return subprocess.run(command, stdout=subprocess.PIPE, text=True, check=True).stdout


class Listed(unittest.TestCase):
    def test_as_the_script_writes_it(self) -> None:
        self.assertEqual((INCLUDE / "teluddru.json").read_text(), as_json(HEADER.read_text()))

    def test_groups(self) -> None:
        macro = '#define TELUDDRU_A "x"\n'
        header = macro + "enum e {\n    TELUDDRU_B = 2, /* 3 */\n    TELUDDRU_C = 4\n};\n"
        found = {"macros": {"TELUDDRU_A": "x"}, "e": {"TELUDDRU_B": 2, "TELUDDRU_C": 4}}
        self.assertEqual(groups_of(header), found)

    def test_version(self) -> None:
        version = constants()["TELUDDRU_VERSION"]
        first, second, third = map(int, str(version).split("."))
        number = constants()["TELUDDRU_VERSION_NUMBER"]
        self.assertEqual(number, first * 10_000 + second * 100 + third)


class Costs(unittest.TestCase):
    def test_each_call_ends_with_its_cost(self) -> None:
        """But the one that computes nothing, and the former name of another."""
        header = HEADER.read_text()
        calls = {name: comment for comment, name in CALL.findall(header)}
        declared = re.findall(r"^(?:uint32_t|size_t) (\w+)\(", header, re.MULTILINE)
        self.assertEqual(list(calls), declared)
        for name in calls.keys() - {"teluddru_version", "plan_sheet"}:
            with self.subTest(call=name):
                last = calls[name].strip().splitlines()[-1]
                self.assertRegex(last, r"^ \* Cost: .*\bmicroseconds\b")


@with_library
@with_compiler("cc")
class ByTheCompiler(unittest.TestCase):
    def test_every_name_is_listed(self) -> None:
        macros = set(re.findall(r"^#define (TELUDDRU_\w+)", preprocessed("-dM"), re.MULTILINE))
        enumerators = set(re.findall(r"\bTELUDDRU_\w+", preprocessed("-P")))
        self.assertEqual(macros - {GUARD} | enumerators, set(constants()))

    def test_every_number(self) -> None:
        numbers = {name: value for name, value in constants().items() if isinstance(value, int)}
        printed = "".join(f'printf("{name} %ld\\n", (long){name});\n' for name in numbers)
        with tempfile.TemporaryDirectory() as folder:
            source = Path(folder) / "numbers.c"
            source.write_text(PROGRAM.replace("PRINTED", printed))
            found = output_of(compiled(source, Path(folder) / "numbers"))
        self.assertEqual(found.splitlines(), [f"{name} {value}" for name, value in numbers.items()])

    def test_words(self) -> None:
        """Answers, entries, rules and misses have words, and no other number has."""
        with tempfile.TemporaryDirectory() as folder:
            said = output_of(compiled(HERE / "words.c", Path(folder) / "words")).splitlines()
        for kind in ("answer", "entry", "rule", "miss"):
            known = [line for line in said if line.startswith(kind) and UNKNOWN not in line]
            numbers = {int(line.split()[1]) for line in known}
            self.assertEqual(numbers, set(listed()[f"teluddru_{kind}"].values()))


@with_library
class ByTheLibrary(unittest.TestCase):
    def test_version(self) -> None:
        call = ctypes.CDLL(str(LIBRARY.resolve())).teluddru_version
        call.restype = ctypes.c_uint32
        self.assertEqual(call(), constants()["TELUDDRU_VERSION_NUMBER"])

    @with_compiler("cc")
    def test_null_with_length_0(self) -> None:
        """Under the sanitizers."""
        with tempfile.TemporaryDirectory() as folder:
            said = output_of(compiled(HERE / "nulls.c", Path(folder) / "nulls")).splitlines()
        self.assertEqual(said, NULLS)


if __name__ == "__main__":
    unittest.main()
