"""Tests of unused_imports.py, on small files."""

import contextlib
import io
import pathlib
import tempfile
import unittest

import unused_imports

PROOF = "crates/c/proofs/P.antt"
SOURCE = "crates/c/src/lib.rt"


class UnusedImports(unittest.TestCase):
    def setUp(self):
        folder = tempfile.TemporaryDirectory()
        self.addCleanup(folder.cleanup)
        self.root = pathlib.Path(folder.name)

    def names(self, path, text):
        """The names that are found unused in a file of this text."""
        file = self.root / path
        file.parent.mkdir(parents=True, exist_ok=True)
        file.write_text(text)
        return [name for _, names in unused_imports.unused(file) for _, name in names]

    def run_main(self, *arguments):
        said = io.StringIO()
        with contextlib.redirect_stdout(said):
            status = unused_imports.main(self.root, *arguments)
        return status, said.getvalue().splitlines()

    def test_names_of_a_group(self):
        self.assertEqual(self.names(PROOF, "use a.B.{one, two, three}\nx : one\nx = three\n"), ["two"])
        self.assertEqual(self.names(PROOF, "use a.B.{one as two}\nx = one\n"), ["two"])
        self.assertEqual(self.names(PROOF, "use a.B.{one as two}\nx = two\n"), [])
        self.assertEqual(self.names(PROOF, "use a.B.{\n  one,\n  two,\n}\nx = one\n"), ["two"])

    def test_module(self):
        self.assertEqual(self.names(PROOF, "use a.B as Q\nx = y\n"), ["Q"])
        self.assertEqual(self.names(PROOF, "use a.B\nx = y\n"), ["B"])
        self.assertEqual(self.names(PROOF, "use a.B as Q\nx = Q.y\n"), [])
        self.assertEqual(self.names(PROOF, "use a.B as Q\nuse Q.{y}\nx = y\n"), [])

    def test_operator(self):
        for body in ("a + b", "◌+◌ a b", "(◌+ 1)", "(1 +◌)"):
            self.assertEqual(self.names(PROOF, f"use a.B.{{◌+◌}}\nx = {body}\n"), [])
        self.assertEqual(self.names(PROOF, "use a.B.{◌+◌}\nx = a-+b\n"), ["◌+◌"])
        self.assertEqual(self.names(PROOF, "use a.B.{[], ◌∷◌}\nx = (a ∷ [])\n"), [])
        self.assertEqual(self.names(PROOF, "use a.B.{if◌then◌else◌}\nx = if a then b\n"), ["if◌then◌else◌"])

    def test_comment_quoted_text_and_member_are_no_use(self):
        for body in ("y -- one", '"one"', "t .one", "t.one"):
            self.assertEqual(self.names(PROOF, f"use a.B.{{one}}\nx = {body}\n"), ["one"])

    def test_passed_on(self):
        self.assertEqual(self.names(PROOF, "pub use a.B.{one}\nunfoldable pub use a.C.{two}\n"), [])

    def test_source(self):
        uses = "ghost use a.B.{one, two};\nuse m::f;\nuse m::g;\n"
        contract = uses + "\nfn h()\n    ensures { result ≡ one }\n{\n    f() // g\n}\n"
        self.assertEqual(self.names(SOURCE, contract), ["two", "g"])
        # What only the code says is no use in a contract, nor the other way round.
        self.assertEqual(self.names(SOURCE, contract.replace("f()", "two(g())")), ["two", "f"])
        self.assertEqual(self.names(SOURCE, contract.replace("one }", "one f g }")), ["two", "g"])

    def test_named_clauses(self):
        uses = "ghost use a.B.{one, two, three};\n"
        contract = uses + "\nfn h(x: &u8)\n    requires low { one x.now }\n    ensures* high {\n        two\n    }\n{\n}\n"
        self.assertEqual(self.names(SOURCE, contract), ["three"])

    def test_ghost_members(self):
        uses = "ghost use a.B.{one, two};\n"
        member = uses + "\nimpl From<A> for B {\n    ghost from_gives = { λ a b. b ≡ one a };\n}\n"
        self.assertEqual(self.names(SOURCE, member), ["two"])

    def test_what_rt_keeps_is_no_source(self):
        self.names("crates/c/out/rlib/c.rlib/lang/antt/P.antt", "use a.B.{one}\nx = two\n")
        self.assertEqual(self.run_main(), (0, ["every import is used"]))

    def test_said_with_its_line(self):
        self.names(PROOF, "use a.B.{one}\nuse a.C.{two}\nx = one\n")
        self.assertEqual(self.run_main(), (1, [f"unused import: {PROOF}:2: two"]))

    def test_all_used(self):
        self.names(PROOF, "use a.B.{one}\nx = one\n")
        self.assertEqual(self.run_main(), (0, ["every import is used"]))

    def test_fix(self):
        text = "-- one\nuse a.A.{one}\nuse a.B.{two, three as four, five}\nuse a.C as Q\nuse Q.{six}\nx = two five\n"
        self.names(PROOF, text)
        self.names(SOURCE, "ghost use a.B.{one, two};\nuse m::f;\n\nfn h()\n    ensures { result ≡ two }\n{\n}\n")
        self.assertEqual(self.run_main(True)[0], 0)
        self.assertEqual((self.root / PROOF).read_text(), "-- one\nuse a.B.{two, five}\nx = two five\n")
        fixed = "ghost use a.B.{two};\n\nfn h()\n    ensures { result ≡ two }\n{\n}\n"
        self.assertEqual((self.root / SOURCE).read_text(), fixed)
        self.assertEqual(self.run_main(), (0, ["every import is used"]))


if __name__ == "__main__":
    unittest.main()
