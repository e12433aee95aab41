"""Tests of edited_crate.py and of a run of mistakes.py over it, with a stub for `rt`."""

import contextlib
import io
import os
import pathlib
import tempfile
import unittest
from unittest import mock

import edited_crate
import mistakes

# It says of the crate what its source has, so that each check shows what it was given.
RT = """\
#!/bin/sh
[ "$1" != version ] || exec cat kit
[ "$1" = check ] || exit 2
echo "$PWD" >>"$CHECKED"
grep -q '    b' src/keys.rt || exec [ ! -e broken ]
cat src/keys.rt
ls ../*/out/rlib 2>/dev/null
echo "fn high::keys::order: not proved"
echo 'note: src/keys.rt:6:5: it is not proved that what the function ensures holds when it returns (`returns`); more'
"""
SOURCE = """\
fn first() -> u32 {
    1
}

pub fn order() -> u32 {
    a
}
"""
EDIT = "mistake: swapped in keys::order: the other way round\nfile: src/keys.rt\nold:     a\nnew:     b\n"


class EditedCrate(unittest.TestCase):
    def setUp(self):
        folder = tempfile.TemporaryDirectory()
        self.addCleanup(folder.cleanup)
        self.root = pathlib.Path(folder.name)
        self.write("bin/rt", RT).chmod(0o755)
        self.write("crates.txt", "low:\nhigh staticlib: low io\nother: low\n")
        for crate in ("low", "high", "other"):
            self.write(f"crates/{crate}/src/keys.rt", SOURCE)
            self.write(f"crates/{crate}/out/rlib/{crate}.rlib/format", crate)
            self.write(f"crates/{crate}/out/incremental/made.oantt", crate)
        self.edit = self.write("crates/high/must-fail/first.edit", EDIT)
        self.write("kit", "kit 1")
        path = f"{self.root / 'bin'}:{os.environ['PATH']}"
        variables = mock.patch.dict(os.environ, {"PATH": path, "CHECKED": str(self.write("checked", ""))})
        variables.start()
        self.addCleanup(variables.stop)

    def write(self, path, text):
        file = self.root / path
        file.parent.mkdir(parents=True, exist_ok=True)
        file.write_text(text)
        return file

    def test_copy(self):
        to = self.root / "copy"
        edited_crate.copy_repository(self.root, "high", to)
        files = sorted(str(file.relative_to(to)) for file in to.glob("**/*") if file.is_file())
        high = ["crates/high/out/incremental/made.oantt", "crates/high/src/keys.rt"]
        low = ["crates/low/out/rlib/low.rlib/format", "crates/low/src/keys.rt"]
        self.assertEqual(files, ["crates.txt", *high, *low])
        self.assertEqual((to / "crates.txt").read_text(), "low:\nhigh staticlib: low io\n")

    def test_log(self):
        log = edited_crate.log_of(self.root, self.edit)
        self.assertIn("    b\n", log)
        self.assertIn("low.rlib", log)
        self.assertTrue(log.endswith("open high::keys::order: returns\n"))
        self.assertEqual((self.root / "crates/high/src/keys.rt").read_text(), SOURCE)

    def test_edit_that_does_not_apply(self):
        for text in (EDIT.replace("old:     a", "old: return"), EDIT.replace("keys.rt", "no.rt"), EDIT.replace("  a", "")):
            self.edit.write_text(text)
            self.assertIn("does not apply", edited_crate.log_of(self.root, self.edit))

    def test_pairs_in_turn(self):
        folder = self.root / "crates/low"
        edited_crate.apply("file: src/keys.rt\nold:     a\nnew:     b\nold:     b\nnew:\n", folder)
        self.assertEqual((folder / "src/keys.rt").read_text(), SOURCE.replace("    a", ""))

    def test_function_of_the_root(self):
        self.write("crates/low/src/lib.rt", SOURCE)
        self.assertEqual(edited_crate.function_at(self.root / "crates/low", "src/lib.rt", 6), "order")
        self.assertEqual(edited_crate.function_at(self.root / "crates/low", "src/keys.rt", 2), "keys::first")

    def mistakes(self, *arguments):
        """The exit status and the lines of output, and how many checks were run."""
        checked = self.write("checked", "")
        said = io.StringIO()
        with contextlib.redirect_stdout(said):
            status = mistakes.main(self.root, *arguments)
        return status, said.getvalue().splitlines(), len(checked.read_text().splitlines())

    def test_mistakes(self):
        refused = ["1 mistakes, each refused for a fact in the function that it changes"]
        self.assertEqual(self.mistakes(), (0, refused, 2))
        self.assertEqual(self.mistakes("high/first"), (0, refused, 0))
        self.assertTrue((self.root / "target/must-fail/high/first/.log").exists())
        for file in ("crates/low/src/keys.rt", "crates/high/proofs/Lib.antt", "kit"):
            self.write(file, "changed")
            self.assertEqual(self.mistakes("high"), (0, refused, 2))
        self.write("crates/other/src/keys.rt", "changed")
        self.assertEqual(self.mistakes(), (0, refused, 0))
        self.edit.write_text(EDIT.replace("order:", "first:"))
        self.assertEqual(self.mistakes()[0], 1)

    def test_crate_that_is_not_proved(self):
        self.write("crates/high/broken", "")
        said = ["mistake not refused for a fact: high is not proved without an edit"]
        self.assertEqual(self.mistakes(), (1, said, 1))


if __name__ == "__main__":
    unittest.main()
