"""Options that are none."""

import unittest

from rules.no_answer import NoAnswer
from rules.options import question_from
from tests.planners import run


class Usage(unittest.TestCase):
    def test_command_line(self) -> None:
        complaints = {
            ("--rego", "v2"): "argument --rego: invalid choice: 'v2' (choose from 'v0', 'v1')",
            ("--bogus",): "unrecognized arguments: --bogus",
            ("--chek", "f"): "unrecognized arguments: --chek f (did you mean --check?)",
            ("--gven=w=1",): "unrecognized arguments: --gven=w=1 (did you mean --given?)",
            ("--on", "[18,", "18]"): "quote the value: --on '[18, 18]'",
            ("--on", '{"a":', "1,", "2}"): """quote the value: --on '{"a": 1, 2}'""",
            ("--on", "[18]", "18]"): "unrecognized arguments: 18]",
        }
        for options, complaint in complaints.items():
            with self.subTest(options=options):
                self.assertEqual(run("x", *options), (2, "", f"{complaint}; see --help\n"))

    def test_lines(self) -> None:
        with self.assertRaises(NoAnswer) as caught:
            question_from(["--on", "[18,", "18]"], b"x")
        self.assertEqual(str(caught.exception), "quote the value: --on '[18, 18]'")


if __name__ == "__main__":
    unittest.main()
