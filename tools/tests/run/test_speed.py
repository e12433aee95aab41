"""10,000 questions in one process are to take some seconds."""

import time
import unittest

from rules.answer import ask
from rules.options import question_from
from rules.words.notes import notes_of
from tests.planners import library, with_library

QUESTIONS = 500
RULES = {
    "[w, w] = [18, 16]": ["--run"],
    '{"left": {"thickness": w}, "right": {"thickness": w}}': [
        "--on",
        '{"right": {"thickness": 18}, "left": {"thickness": 18}}',
    ],
    'some i, {"thickness": w, "edges": [e, e]} in parts': ["--bound", "parts"],
    "[x, 1] = [1, x]": [],
}


@with_library
class Speed(unittest.TestCase):
    def test_questions(self) -> None:
        """Some 0.3 ms each, with reading the options and the notes; ten times that is too much."""
        start = time.process_time()
        for _ in range(QUESTIONS // len(RULES)):
            for rule, options in RULES.items():
                notes_of(ask(question_from(options, rule.encode()), library()), library())
        self.assertLess(time.process_time() - start, QUESTIONS * 0.003)


if __name__ == "__main__":
    unittest.main()
