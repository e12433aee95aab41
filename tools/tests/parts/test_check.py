"""Lines of files of rules that are run on files of parts."""

import json
import tempfile
import unittest
from pathlib import Path

from tests.check.page.pages import Page
from tests.planners import run, with_library

KITCHEN = "left,right\n18,18\n18,16\n16,16\n18,16\n18,3\n18,4\n"
FLUSH = '{"left": w, "right": w}'


def checked(*lines: str, parts: str = KITCHEN, options: tuple[str, ...] = ()) -> tuple[int, str]:
    """Exit status and output of a check of these lines, which stand beside a file a.csv."""
    with tempfile.TemporaryDirectory() as folder:
        rules = Path(folder) / "a.rules"
        rules.write_text("\n".join(lines))
        (Path(folder) / "a.csv").write_text(parts)
        status, printed, error = run("--check", str(rules), *options)
        assert error == "", error
    return status, printed.replace(f"{folder}/", "")


@with_library
class Counted(unittest.TestCase):
    def test_as_expected(self) -> None:
        for expected in ("2 match", "02  match", "pattern", "planned"):
            self.assertEqual(checked(f"{FLUSH} => {expected} --parts a.csv")[0], 0, expected)
        self.assertEqual(checked('{"left": w, "right": _} => all match --parts a.csv')[0], 0)
        self.assertEqual(checked('{"left": 22} => none match --parts a.csv')[0], 0)
        self.assertEqual(checked('{"left": 22} => 0 match --parts a.csv')[0], 0)

    def test_what_differs(self) -> None:
        for expected in ("all match", "none match", "3 match", "match", "no match", "refused 23"):
            status, printed = checked(f"{FLUSH} => {expected} --parts a.csv")
            said = f"a.rules:1:28: expected {expected}, found 2 of 6 match"
            self.assertEqual((status, printed.splitlines()[0]), (1, said))

    def test_the_first_that_miss(self) -> None:
        _, printed = checked(f"{FLUSH} => all match --parts a.csv")
        words = "no match at right: `w` is 18 (at left), and 16 stands here"
        lines = printed.splitlines()
        self.assertEqual(lines[1:3], [f"    {FLUSH}", f"    a.csv:3: part 2: {words}"])
        self.assertEqual(lines[5:], ["    and 1 more", "1 rule, 1 differs"])

    def test_options_of_several_lines(self) -> None:
        shared = "--open --scale 10 --parts a.csv"
        lines = ('{"left": w} => all match', '{"left": 160} => 1 match')
        self.assertEqual(checked(shared, *lines)[0], 0)

    def test_measured(self) -> None:
        parts = "left,right\n17..19,18\n18,18\n"
        self.assertEqual(checked(f"{FLUSH} => 1 match --parts a.csv", parts=parts)[0], 0)
        line = '{"left": w, "right": 17} => none match --parts a.csv'
        _, printed = checked(line, parts="left,right\n1,17..18\n")
        self.assertIn("expected none match, found 0 of 1 match, 1 sometimes", printed)

    def test_refusals(self) -> None:
        self.assertEqual(checked("w => refused 23 at w --parts a.csv --bound w")[0], 0)
        self.assertEqual(checked("[w] := [1, 2] => refused 13 --parts a.csv")[0], 0)
        _, printed = checked("w => all match --parts a.csv --bound w")
        self.assertIn("expected all match, found refused 23 at w", printed)

    def test_lines_that_cannot_be_read(self) -> None:
        for line, message in (
            ("w => all match --parts b.csv", "b.csv can't be read: No such file"),
            ("w => all match --parts -", "in a file of rules --parts names a file"),
            ("w => all match --parts a.csv --on 1", "--parts FILE has the values"),
            ("w => all the match --parts a.csv", "of parts all match, none match or NUMBER"),
        ):
            with self.subTest(line=line):
                status, printed = checked(line)
                self.assertEqual(status, 2)
                self.assertIn(message, printed)
        status, printed = checked("w => all match --parts a.csv", parts="left\n1.5\n")
        said = "a.rules:1:1: a.csv:2: part 1: left: 1.5 is not whole: --scale 10 counts in a small"
        self.assertEqual((status, printed[: len(said)]), (2, said))

    def test_accept(self) -> None:
        with tempfile.TemporaryDirectory() as folder:
            (Path(folder) / "a.csv").write_text(KITCHEN)
            rules = Path(folder) / "a.rules"
            rules.write_text(f"{FLUSH} => all match --parts a.csv\nsome 1 in [1, 2] => all match\n")
            self.assertEqual(run("--check", str(rules), "--accept")[0], 0)
            now = f"{FLUSH} => 2 match --parts a.csv\nsome 1 in [1, 2] => 1 match\n"
            self.assertEqual(rules.read_text(), now)

    def test_weak(self) -> None:
        """Parts test compares as values do; a line that would notice has a value of its own."""
        left = '{"left": 18, "right": _} => 5 match --parts a.csv'
        printed = checked(f"{FLUSH} => 2 match --parts a.csv", left, options=("--weak",))[1]
        self.assertEqual(printed, "2 rules, 0 differ\n")
        flush, parts = f"{FLUSH} => all match --parts a.csv", "left,right\n18,18\n"
        status, printed = checked(flush, parts=parts, options=("--weak",))
        missing = FLUSH + """ => no match --on '{"left": 1, "right": 2}'"""
        self.assertEqual((status, printed.splitlines()[3]), (1, f"    {missing}"))
        shared = checked("--parts a.csv", flush, parts=parts, options=("--weak",))[1]
        self.assertIn("`w` were not compared: add a value that it has to turn back", shared)

    def test_json_and_page(self) -> None:
        with tempfile.TemporaryDirectory() as folder:
            file = Path(folder) / "page.html"
            options = ("--json", "--html", str(file))
            _, printed = checked(f"{FLUSH} => all match --parts a.csv", options=options)
            page = Page(file.read_text(encoding="utf-8"))
        found = json.loads(printed)["lines"][0]
        self.assertEqual(found["found"], "2 of 6 match")
        run_of_parts = found["answer"]["run"]
        self.assertEqual((run_of_parts["parts"], run_of_parts["no_match"]), (6, 4))
        self.assertEqual(page.faults, [])
        self.assertIn("a.csv:3: part 2: no match at right: ", page.cards["line-1"])


if __name__ == "__main__":
    unittest.main()
