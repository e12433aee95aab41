"""Runs tools/static_library in a small repository with a stub for `rt`, which notes what it is asked to make."""

import os
import pathlib
import shutil
import subprocess
import tempfile
import unittest

SCRIPT = pathlib.Path(__file__).resolve().parent.parent.parent / "tools" / "static_library"
RT = """\
#!/bin/sh
[ "$1" != version ] || exec cat kit
[ "$*" = lib ] && [ ! -e ../../broken ] || exit 1
crate=$(basename "$PWD")
echo "$crate" >>../../asked
mkdir -p out
date +%N >"out/lib$crate.a"
"""
CRATES = """\
low:
middle: low
middle_c staticlib: middle low
high staticlib: middle io
other staticlib: low
"""


class StaticLibrary(unittest.TestCase):
    def setUp(self):
        folder = tempfile.TemporaryDirectory()
        self.addCleanup(folder.cleanup)
        self.root = pathlib.Path(folder.name)
        self.write("bin/rt", RT).chmod(0o755)
        self.write("kit", "kit 1\n")
        self.write("crates.txt", CRATES)
        for crate in ("low", "middle", "high", "other", "middle_c"):
            self.write(f"crates/{crate}/src/lib.rt", crate)
        self.write("tools/static_library", "")
        shutil.copy(SCRIPT, self.root / "tools")

    def write(self, path, text):
        file = self.root / path
        file.parent.mkdir(parents=True, exist_ok=True)
        file.write_text(text)
        return file

    def asked(self, *crates):
        """What rt was asked to make, and the exit status."""
        asked = self.write("asked", "")
        path = f"{self.root / 'bin'}:{os.environ['PATH']}"
        command = [self.root / "tools/static_library", *crates]
        run = subprocess.run(command, env=os.environ | {"PATH": path}, stderr=subprocess.DEVNULL)
        return asked.read_text().split(), run.returncode

    def test_made_once(self):
        self.assertEqual(self.asked("high", "other"), (["high", "other"], 0))
        self.assertEqual(self.asked("high", "other"), ([], 0))

    def test_what_decides(self):
        self.asked("high", "other")
        changes = {
            "crates/high/src/lib.rt": ["high"],
            "crates/middle/proofs/Lib.antt": ["high"],
            "crates/low/specs/Lib.antt": ["high", "other"],
            "crates/other/src/lib.rt": ["other"],
            "crates/low/must-fail/a.edit": [],
            "target/staticlib/libother.a": ["other"],
            "kit": ["high", "other"],
        }
        for path, made in changes.items():
            with self.subTest(path=path):
                self.write(path, "changed")
                self.assertEqual(self.asked("high", "other"), (made, 0))
                self.assertEqual(self.asked("high", "other"), ([], 0))

    def test_static_library_over_a_library(self):
        self.assertEqual(self.asked("middle"), (["middle_c"], 0))
        self.assertEqual(self.asked("middle"), ([], 0))
        made = self.root / "target/staticlib/libmiddle.a"
        self.assertEqual(made.read_text(), (self.root / "crates/middle_c/out/libmiddle_c.a").read_text())
        for crate in ("middle_c", "middle", "low"):
            with self.subTest(crate=crate):
                self.write(f"crates/{crate}/src/lib.rt", "changed")
                self.assertEqual(self.asked("middle"), (["middle_c"], 0))

    def test_not_proved(self):
        self.asked("high")
        self.write("crates/high/src/lib.rt", "changed")
        self.write("broken", "")
        self.assertEqual(self.asked("high"), ([], 1))
        (self.root / "broken").unlink()
        self.assertEqual(self.asked("high"), (["high"], 0))


if __name__ == "__main__":
    unittest.main()
