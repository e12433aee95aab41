"""Runs ./test in a small repository whose `rt` and parts are stubs."""

import os
import pathlib
import shutil
import subprocess
import sys
import tempfile
import unittest

SCRIPT = pathlib.Path(__file__).resolve().parent.parent.parent / "test"
OK = "rt: ok; handles allowed: none; must-fail edits: 2 refused; done in this run: 1 of the 3 proofs"
GREEN = f"[ \"$*\" = ci ] || exit 2; echo proving; echo '{OK}'; echo '3 passed, 0 failed'"
RED = "echo '2 passed, 1 failed'; exit 1"
# The comparisons by running, with how many cases each, and the libraries that they are given.
COMPARISONS = {"compare": 20000, "bodies": 5000, "store": 5000, "parties": 5000}
COMPARISONS |= {"tolerance": 20000, "common_example": 20000, "misses": 20000, "faults": 20000}
LIBRARIES = ("PLAN_SHEET_LIBRARY", "RUN_LIBRARY", "STORE_LIBRARY")
GIVEN = " ".join(f"$(basename ${name})" for name in LIBRARIES)
COMPARED = [f"{name} {count} with libsheet.a libc_calls.a libstore_calls.a" for name, count in COMPARISONS.items()]
CHECKED = "checked by target/tools/libteluddru.so: tools/trials.rules"
MEASURED = "stack measured with target/examples/prefix/lib/libteluddru.a"
UNITTEST = """\
import os, unittest
class Stub(unittest.TestCase):
    def test(self):
        for name in ("PLANSHEET", "TELUDDRU_SHARED"):
            self.assertEqual(os.path.basename(os.environ.get(name, "")), {planners!r}.get(name, ""))
"""
PLANNERS = {"TELUDDRU_SHARED": "libteluddru.so"}
VARIABLES = ("PLANSHEET", "TELUDDRU_SHARED", "REGORUS_SOURCE")


class Gate(unittest.TestCase):
    def setUp(self):
        folder = tempfile.TemporaryDirectory()
        self.addCleanup(folder.cleanup)
        self.outside = pathlib.Path(folder.name)
        self.root = self.outside / "repository"
        self.root.mkdir()
        shutil.copy(SCRIPT, self.root / "test")
        self.write("crates.txt", "c:\nlent staticlib: c\n")
        self.write("crates/c/src/lib.rt", "")
        self.write("crates/lent/src/lib.rt", "")
        self.write("gate/mistakes.py", "print('mistakes read')")
        self.write("gate/reading_order.py", "print('order read')")
        self.write("gate/unused_imports.py", "print('imports read')")
        self.write("gate/test_gate.py", UNITTEST.format(planners={}))
        self.write("tools/test_tools.py", UNITTEST.format(planners=PLANNERS))
        self.command("tools/build_library", "echo library built")
        self.command("tools/plan_rule", 'echo "checked by $2: $4"')
        self.command("examples/run", "echo example run")
        self.command("examples/stack", 'echo "stack measured with $TELUDDRU_LIBRARY"')
        for name in COMPARISONS:
            self.command(f"oracle/{name}", f'echo "{name} $1 with {GIVEN}"')
        self.command("../bin/rt", GREEN)
        self.command("../bin/cargo", "exit 1")
        (self.outside / "bin/python3").symlink_to(sys.executable)

    def write(self, path, text):
        file = self.root / path
        file.parent.mkdir(parents=True, exist_ok=True)
        file.write_text(text)
        return file

    def command(self, path, text):
        self.write(path, f"#!/bin/sh\n{text}\n").chmod(0o755)

    def sources(self):
        (self.outside / "shared/docs/src/src").mkdir(parents=True)

    def gate(self):
        """The exit status and the lines of output."""
        path = f"{self.outside / 'bin'}:/usr/bin:/bin"
        names = {name: value for name, value in os.environ.items() if name not in VARIABLES}
        run = subprocess.run(
            [self.root / "test"], env=names | {"PATH": path}, stdout=subprocess.PIPE, stderr=subprocess.DEVNULL
        )
        return run.returncode, run.stdout.decode().splitlines()

    def test_all_passes(self):
        self.sources()
        status, lines = self.gate()
        self.assertEqual((status, lines[-1]), (0, "3 passed, 0 failed"))
        for line in ("proving", "mistakes read", "order read", "imports read", "library built", CHECKED):
            self.assertIn(line, lines)
        for line in ("example run", MEASURED, *COMPARED):
            self.assertIn(line, lines)
        self.assertFalse([line for line in lines if line.startswith(("failed", "not run"))])

    def test_no_rust_sources(self):
        status, lines = self.gate()
        self.assertEqual((status, lines[-1]), (0, "3 passed, 0 failed"))
        self.assertEqual(len([line for line in lines if line.startswith("not run: oracle/compare 20000")]), 1)
        self.assertFalse(set(COMPARED) & set(lines))

    def test_each_part_that_fails_is_one_failed(self):
        self.sources()
        parts = {
            "gate/mistakes.py": "raise SystemExit(1)",
            "gate/reading_order.py": "raise SystemExit(1)",
            "gate/unused_imports.py": "raise SystemExit(1)",
            "gate/test_gate.py": UNITTEST.format(planners=PLANNERS),
            "tools/build_library": "#!/bin/sh\nexit 1\n",
            "tools/plan_rule": "#!/bin/sh\nexit 1\n",
            "tools/test_tools.py": UNITTEST.format(planners={}),
            "examples/run": "#!/bin/sh\nexit 3\n",
            "examples/stack": "#!/bin/sh\nexit 1\n",
        }
        parts |= {f"oracle/{name}": "#!/bin/sh\nexit 1\n" for name in COMPARISONS}
        for path, text in parts.items():
            with self.subTest(path=path):
                before = (self.root / path).read_text()
                self.write(path, text)
                status, lines = self.gate()
                self.assertEqual((status, lines[-1]), (1, "3 passed, 1 failed"))
                self.assertEqual(len([line for line in lines if line.startswith("failed: ")]), 1)
                self.write(path, before)
        for path in ("examples/run", "oracle/compare"):
            self.write(path, parts[path])
        self.assertEqual(self.gate()[1][-1], "3 passed, 2 failed")

    def test_refused_by_rt(self):
        self.command("../bin/rt", RED)
        status, lines = self.gate()
        self.assertEqual((status, lines), (1, ["2 passed, 1 failed", "2 passed, 1 failed"]))

    def test_bad_edit(self):
        for bad in ("2 refused, 1 bad", "2 refused, 1 of them only by a limit, 12 bad"):
            self.command("../bin/rt", GREEN.replace("2 refused", bad))
            status, lines = self.gate()
            self.assertEqual((status, lines[-1]), (1, "3 passed, 1 failed"))
            self.assertNotIn("mistakes read", lines)

    def test_crate_that_is_not_listed(self):
        self.write("crates/d/src/lib.rt", "")
        self.assertEqual(self.gate(), (1, []))


if __name__ == "__main__":
    unittest.main()
