"""What is found, written in place of what was expected."""

import unittest

from tests.check.files.folders import FLUSH, Folder
from tests.planners import run, with_library


@with_library
class Accept(Folder):
    def accepted(self, content: str | bytes, *options: str) -> bytes:
        """The file afterwards, of which nothing differs then."""
        text = content.encode() if isinstance(content, str) else content
        self.flush.write_bytes(text)
        status, _, error = run("--check", str(self.flush), "--accept", *options)
        self.assertEqual((status, error), (0, ""))
        self.assertEqual(run("--check", str(self.flush), *options)[0], 0)
        return self.flush.read_bytes()

    def test_what_is_said(self) -> None:
        status, printed, _ = run("--check", str(self.flush), "--accept")
        now = f"{self.flush}:3:22: expected match, now no match\n    [w, w] = [18, 16]\n"
        self.assertEqual((status, printed), (0, f"{now}2 rules, 0 differ\n"))
        self.assertEqual(self.flush.read_text(), FLUSH.replace("16] => match ", "16] => no match "))
        again = (0, "2 rules, 0 differ\n", "")
        self.assertEqual(run("--check", str(self.flush), "--accept"), again)

    def test_lines(self) -> None:
        changes = {
            "[x] := [1, 2] => planned # c\n": "[x] := [1, 2] => refused 13 at [1, 2] # c\n",
            "x => index --bound x\r\n# c\r\n": "x => pattern --bound x\r\n# c\r\n",
            "  [w, w]  =>   match  --on '[1, 2]'": "  [w, w]  =>   no match  --on '[1, 2]'",
            "[w] => match w=2 --on '[\"#\"]'": "[w] => match w=\"#\" --on '[\"#\"]'",
            "[w, w] => pattern, binds w, binds w\n": "[w, w] => pattern, binds w\n",
            "\ufeffx => index\n": "\ufeffx => pattern\n",
            "18 => never --on 17..19\n": "18 => sometimes --on 17..19\n",
        }
        for before, after in changes.items():
            with self.subTest(before=before):
                self.assertEqual(self.accepted(before).decode(), after)

    def test_notes(self) -> None:
        strict = self.accepted("_ = y => planned\n", "--strict")
        self.assertEqual(strict, b"_ = y => wildcard left, reads y\n")
        refused = self.accepted("{k: v} => refused 13\n", "--strict")
        self.assertEqual(refused, b"{k: v} => pattern, reads k\n")

    def test_what_is_too_long_is_left_out(self) -> None:
        long = f"[{', '.join(['7'] * 40)}]"
        refused = self.accepted(f"[x] := {long} => planned\n")
        self.assertEqual(refused, f"[x] := {long} => refused 13\n".encode())
        matched = self.accepted(f"x := {long} => no match\n")
        self.assertEqual(matched, f"x := {long} => match\n".encode())

    def test_what_can_not_stand_in_a_line(self) -> None:
        """`--` would begin the options."""
        self.assertEqual(self.accepted("x := [y--1] => match\n"), b"x := [y--1] => refused 22\n")

    def test_lines_that_can_not_be_read_stay(self) -> None:
        content = "x y => planned\nx => index\n"
        self.flush.write_text(content)
        self.assertEqual(run("--check", str(self.flush), "--accept")[0], 2)
        self.assertEqual(self.flush.read_text(), content.replace("index", "pattern"))

    def test_formats(self) -> None:
        """What is changed is said in words."""
        for name in ("json", "junit", "github"):
            status, printed, error = run("--check", str(self.flush), "--accept", "--format", name)
            self.assertEqual((status, printed), (2, ""))
            self.assertTrue(error.endswith(f"goes without --format {name}\n"))
        self.assertEqual(self.flush.read_text(), FLUSH)

    def test_no_file(self) -> None:
        status, printed, error = run("--check", "-", "--accept", text=b"x => index\n")
        self.assertEqual((status, printed), (2, ""))
        self.assertIn("standard input is none", error)

    def test_file_that_can_not_be_written(self) -> None:
        status, _, error = run("--check", "/proc/self/environ", "--accept")
        self.assertEqual(status, 2)
        self.assertNotIn("Traceback", error)


if __name__ == "__main__":
    unittest.main()
