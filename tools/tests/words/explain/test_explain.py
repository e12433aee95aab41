"""The pages of --explain: every command on them is run."""

import re
import subprocess
import unittest

from rules.words.explain.words import COMMANDS, PAGES
from rules.words.refusals import MEANINGS
from tests.planners import LIBRARY, ROOT, run, with_library

HEADER = ROOT / "include" / "teluddru.h"
# Answers that are none of a refusal: no match, sometimes.
ANSWERS = {0, 100, 101}


def shell(command: str) -> tuple[int, str]:
    named = {"TELUDDRU_SHARED": str(LIBRARY), "PATH": "/usr/bin:/bin"}
    shell = ["sh", "-c", command]
    done = subprocess.run(shell, cwd=ROOT, env=named, capture_output=True, text=True)
    return done.returncode, done.stdout + done.stderr


class Pages(unittest.TestCase):
    def test_every_refusal_has_one(self) -> None:
        self.assertLessEqual(set(MEANINGS), set(PAGES))
        answers = HEADER.read_text().split("enum teluddru_answer {")[1].split("}")[0]
        numbers = {int(number) for number in re.findall(r" = (\d+)", answers)}
        self.assertGreater(len(numbers), 25)
        self.assertLessEqual(numbers - ANSWERS, set(PAGES))

    def test_list(self) -> None:
        status, printed, _ = run("--explain")
        numbers = [int(line.split()[0]) for line in printed.splitlines()]
        self.assertEqual((status, numbers), (0, sorted(PAGES)))

    def test_page(self) -> None:
        status, printed, _ = run("--explain", "18")
        parts = [line for line in printed.splitlines() if line.endswith(":")]
        self.assertEqual(
            parts,
            ["What it means:", "An example:", "What to write instead:", "What one may conclude:"],
        )
        self.assertEqual(status, 0)
        self.assertIn("\n    tools/plan_rule 'x = y'\n", printed)
        self.assertIn("no reason to delete the rule", " ".join(printed.split()))
        self.assertLessEqual(max(map(len, printed.splitlines())), 92)

    def test_no_such_number(self) -> None:
        for number in ("99", "x", "-1", "0"):
            status, printed, error = run(f"--explain={number}")
            self.assertEqual((status, printed), (2, ""))
            self.assertTrue(error.startswith("--explain: the numbers of refusals are 1, 2, 3, "))


@with_library
class Examples(unittest.TestCase):
    def test_examples_are_refused_so(self) -> None:
        examples = {number: page.example for number, page in PAGES.items() if page.example}
        self.assertGreaterEqual(len(examples), 19)
        for number, command in examples.items():
            with self.subTest(number=number):
                status, said = shell(command)
                self.assertEqual(status, 1, said)
                self.assertIn(f"refused, {number} ", said)

    def test_what_is_written_instead_is_not_refused(self) -> None:
        commands = {
            number: page.instead
            for number, page in PAGES.items()
            if page.instead.startswith(COMMANDS)
        }
        self.assertGreaterEqual(len(commands), 17)
        for number, command in commands.items():
            with self.subTest(number=number):
                status, said = shell(command)
                self.assertEqual(status, 0, said)


if __name__ == "__main__":
    unittest.main()
