"""Compares that no line would miss."""

import json
import unittest

from tests.planners import run, with_library


def told(*lines: str) -> list[str]:
    """What is told before the tally, and that nothing differs."""
    content = "".join(f"{line}\n" for line in lines).encode()
    _, printed, error = run("--check", "-", "--weak", text=content)
    assert error == "", error
    *rest, tally = printed.splitlines()
    assert " 0 differ" in tally, printed
    return rest


def suggested(*lines: str) -> list[str]:
    """The lines that are told to be missing."""
    return [line.strip() for line in told(*lines) if " => no match " in line]


@with_library
class Weak(unittest.TestCase):
    def test_a_compare_that_nothing_tests(self) -> None:
        self.assertEqual(
            told("# flush", "  [w, w] => match --on '[18, 18]'"),
            [
                "-:2:7: no line would notice if `w` were not compared; this one would:",
                "    [w, w]",
                "        ^",
                "    [w, w] => no match --on '[18, 16]'",
            ],
        )

    def test_the_line_that_is_told_helps(self) -> None:
        files = [
            ["[w, w] => match --on '[18, 18]'"],
            ["[w, v, 3] => match --on '[18, 4, 3]' --given w=18"],
            ['{"a": x, "b": [x, "oak", _]} := {"a": 1, "b": [1, "oak", 3]} => match'],
            ["[w,w] := [18,18] => match --bound w"],
            ["[18, 18] = [w, w] => match"],
            ["[w, w] => match --on '[\"a b\", \"a b\"]'"],
            ["[w, w] => always --on '[18..18, 18]'"],
            ["[w, [w]] => match --on '[[1], [[1]]]' --as index --entries 9"],
            ["{-2: w, `k`: w} => match --on '{-2: null, \"k\": null}'"],
            ["[w, true] = [18, true] => match --given w=18"],
            ["[w, w, 5] => sometimes --on '[17..19, 18, 5]' --given w=17..19"],
        ]
        for lines in files:
            with self.subTest(lines=lines):
                places = [line for line in told(*lines) if line.startswith("-:1:")]
                more = suggested(*lines)
                self.assertEqual(len(more), len(places))
                self.assertGreater(len(more), 0)
                self.assertEqual(told(*lines, *more), [])

    def test_lines_that_notice(self) -> None:
        match = "[w, w] => match --on '[18, 18]'"
        noticing = [
            "[w, w] => no match --on '[18, 16]'",
            "[w, w] = [18, 16] => no match",
            "[18, 16] = [w, w] => no match",
            "[w, w] := [18, 16] => no match",
            "[w, w] => pattern, binds w, compares w",
            "[w, w] = y => bind left, compares w --bound y",
            "[w, w] => sometimes --on '[17..19, 18]'",
        ]
        for line in noticing:
            with self.subTest(line=line):
                self.assertEqual(told(match, line), [])
        other = "[v, v] => no match --on [1,2]"
        for line in ("[w, w] => pattern", other, "[w, w] => planned, binds w"):
            with self.subTest(line=line):
                self.assertEqual(len(told(match, line)), 4)

    def test_literals(self) -> None:
        lines = told("[_, 3, {1}] => pattern", '[_, 3, "a"] => match --on \'[1, 3, "a"]\'')
        places = [line.split(" were")[0] for line in lines if line.startswith("-:")]
        notice = "no line would notice if"
        self.assertEqual(places, [f"-:2:5: {notice} `3`", f'-:2:8: {notice} `"a"`'])

    def test_rules_that_are_refused(self) -> None:
        self.assertEqual(told("[x] := [1, 2] => refused 13", "x = y => refused 18"), [])

    def test_lines_that_differ_do_not_count(self) -> None:
        content = b"[w, w] => match --on '[18, 18]'\n[w, w] => match --on '[18, 16]'\n"
        printed = run("--check", "-", "--weak", text=content)[1]
        self.assertIn("1 differs", printed)
        self.assertIn("no line would notice", printed)

    def test_names_that_are_known(self) -> None:
        own = suggested("w = 18 => match --given w=18")
        self.assertEqual(own, ["w => no match --on 16 --given w=18"])
        shared = suggested("--given w=18", "[w, _] => match --on '[18, 3]'")
        self.assertEqual(shared, ["[w, _] => no match --on '[16, null]'"])

    def test_what_is_not_run(self) -> None:
        refused = "x => refused 23 --on 1 --bound x"
        for line in ("[w, w] => pattern", "[x, 1] = [1, x] => pairs", refused):
            self.assertEqual(told(line), [])

    def test_json(self) -> None:
        content = b"# \n [w, w] => match --on [1,1]\n"
        found = json.loads(run("--check", "-", "--weak", "--json", text=content)[1])
        missing = "[w, w] => no match --on '[1, 2]'"
        place = {"line": 2, "column": 6, "text": "w", "missing": missing}
        self.assertEqual(found["untested"], [place])

    def test_status(self) -> None:
        self.assertEqual(run("--check", "-", "--weak", text=b"[w, w] => match --on [1,1]")[0], 1)
        self.assertEqual(run("--check", "-", text=b"[w, w] => match --on [1,1]")[0], 0)
        self.assertEqual(run("--check", "-", "--weak", text=b"[w, w] => no match --on [1,2]")[0], 0)


if __name__ == "__main__":
    unittest.main()
