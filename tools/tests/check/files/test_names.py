"""Several files, and folders."""

import unittest

from rules.check.files.names import file_names
from rules.no_answer import NoAnswer
from tests.check.files.folders import DOORS, Folder
from tests.planners import run, with_library


class Names(Folder):
    def test_folder(self) -> None:
        files = [str(self.doors), str(self.flush)]
        self.assertEqual(file_names([str(self.folder)]), files)
        self.assertEqual(file_names([str(self.flush), str(self.folder)]), files[::-1])
        self.assertEqual(file_names(["-", "x.rules"]), ["-", "x.rules"])

    def test_folder_without_rules(self) -> None:
        empty = self.folder / "empty"
        empty.mkdir()
        with self.assertRaisesRegex(NoAnswer, r"empty has no file \*\.rules$"):
            file_names([str(empty)])


@with_library
class Said(Folder):
    def test_tallies(self) -> None:
        status, printed, _ = run("--check", str(self.folder))
        lines = printed.splitlines()
        self.assertEqual(status, 1)
        self.assertEqual(lines[0], f"{self.doors}: 2 rules, 0 differ, 1 note")
        self.assertEqual(lines[1], f"{self.flush}:3:15: expected match, found no match")
        self.assertEqual(lines[4], f"{self.flush}: 2 rules, 1 differs")
        self.assertEqual(lines[5:], ["2 files: 4 rules, 1 differs, 1 note"])

    def test_one_file(self) -> None:
        for names in ([str(self.doors)], [str(self.doors.parent)], [str(self.doors)] * 2):
            printed = run("--check", *names)[1]
            self.assertEqual(printed, "2 rules, 0 differ, 1 note\n")

    def test_standard_input_beside_a_file(self) -> None:
        status, printed, _ = run("--check", "-", str(self.flush), text=DOORS.encode())
        self.assertEqual((status, printed.splitlines()[0]), (1, "-: 2 rules, 0 differ, 1 note"))

    def test_statuses(self) -> None:
        bad = self.folder / "bad.rules"
        bad.write_text("x y => pattern\n")
        self.assertEqual(run("--check", str(self.doors), str(bad))[0], 2)
        bad.write_text("# none\n")
        self.assertEqual(run("--check", str(self.doors), str(bad))[0], 0)
        self.assertEqual(run("--check", str(bad))[0], 2)
        status, printed, error = run("--check", str(self.doors), "/nowhere")
        self.assertEqual((status, printed), (2, ""))
        self.assertEqual(error, "/nowhere can't be read: No such file or directory\n")

    def test_page_is_of_one_file(self) -> None:
        page = str(self.folder / "page.html")
        status, _, error = run("--check", str(self.folder), "--html", page)
        said = "--html FILE is a page of one file of rules, here are 2\n"
        self.assertEqual((status, error), (2, said))
        self.assertEqual(run("--check", str(self.doors.parent), "--html", page)[0], 0)


if __name__ == "__main__":
    unittest.main()
