"""Tests of reading_order.py, on a small repository."""

import contextlib
import io
import pathlib
import tempfile
import unittest

import reading_order

PAGE = """\
Read `a/specs/Other` never.

## The files, in the order to read them

| File | What it says |
|---|---|
| `a/specs/First` | `what` |
| `a/specs/Second`, `Third` | it says |
| `b/specs/Top` | it says |

The theorems are stated beside them, and are proved: `a/specs/Laws`, `TopLaws` in `b/specs/Top`, `b/specs/Promise`.

## One rule

`a/specs/Other`
"""
FILES = {
    "docs/READING.md": PAGE,
    "crates/a/specs/Lib.antt": "pub mod First\npub mod code\n",
    "crates/a/specs/code.antt": "pub mod Post\n",
    "crates/a/specs/code/Post.antt": "pub hidden : T\n",
    "crates/a/specs/First.antt": "use Rattle.std.specs.Prelude.{List}\npub first : List\n",
    "crates/a/specs/Second.antt": "use Rattle.a.specs.First.{f}\nuse Rattle.a.specs.declared.E.{E}\n",
    "crates/a/specs/Third.antt": "use Rattle.a.specs.Second.{second}\n",
    "crates/a/specs/Laws.antt": "use Rattle.a.specs.Third.{third}\n",
    "crates/b/specs/Top.antt": "use Rattle.a.specs.Third as Third\npub record TopLaws : Type 0 where\n",
    "crates/b/specs/Promise.antt": "use Rattle.a.specs.Laws.{law}\n",
    "crates/b/src/lib.rt": """\
ghost use Rattle.std.specs.Prelude.{◌≡◌};
ghost use Rattle.a.specs.First.{first};
ghost use Rattle.a.specs.code.Post.{hidden};

fn helper() -> u32
    ensures { hidden result }
{
    1
}

pub extern "C" fn call(x: u32) -> u32
    ensures { result ≡ first x }
{
    helper()
}

pub(crate) fn shared() -> u32
    ensures { hidden result }
{
    1
}

impl S {
    pub fn ask(self) -> u32
        ensures known { result ≡ first self }
    {
        2
    }
}
""",
    "crates/b/src/inner.rt": "ghost use Rattle.a.specs.code.Post.{h};\n\npub fn f()\n    requires { h }\n{\n}\n",
}


class ReadingOrder(unittest.TestCase):
    def setUp(self):
        folder = tempfile.TemporaryDirectory()
        self.addCleanup(folder.cleanup)
        self.root = pathlib.Path(folder.name)
        for path, text in FILES.items():
            self.write(path, text)

    def write(self, path, text):
        file = self.root / path
        file.parent.mkdir(parents=True, exist_ok=True)
        file.write_text(text)

    def edit(self, path, old, new):
        text = (self.root / path).read_text()
        self.assertIn(old, text)
        self.write(path, text.replace(old, new, 1))

    def faults(self):
        """The faults that are said, with the exit status held against them."""
        said = io.StringIO()
        with contextlib.redirect_stdout(said):
            status = reading_order.main(self.root)
        lines = [line for line in said.getvalue().splitlines() if line.startswith("reading order: ")]
        self.assertEqual(status, 1 if lines else 0)
        return [line.removeprefix("reading order: ") for line in lines]

    def test_all_in_order(self):
        self.assertEqual(self.faults(), [])

    def test_used_before_it_is_listed(self):
        self.edit("docs/READING.md", "`a/specs/Second`, `Third`", "`a/specs/Third`, `Second`")
        self.assertEqual(self.faults(), ["a/specs/Third: it uses a/specs/Second, which is not above it"])

    def test_a_path_without_an_import(self):
        self.edit("crates/a/specs/First.antt", ": List", ": Rattle.b.specs.Top.top")
        self.assertEqual(self.faults(), ["a/specs/First: it uses b/specs/Top, which is not above it"])
        self.edit("crates/a/specs/First.antt", ": Rattle", ": List -- Rattle")
        self.assertEqual(self.faults(), [])

    def test_file_that_the_page_does_not_name(self):
        self.write("crates/b/specs/More.antt", "pub more : T\n")
        self.assertEqual(self.faults(), ["b/specs/More: docs/READING.md does not name it"])

    def test_file_that_is_not_there(self):
        (self.root / "crates/b/specs/Promise.antt").unlink()
        self.edit("docs/READING.md", "| `b/specs/Top`", "| `b/specs/Top`, `Bottom`")
        names = ("Bottom", "Promise")
        lines = [f"b/specs/{name}: docs/READING.md names it, and there is no such file" for name in names]
        self.assertEqual(self.faults(), lines)

    def test_listed_twice(self):
        self.edit("docs/READING.md", "| `b/specs/Top`", "| `b/specs/Top`, `Top`")
        self.assertIn("b/specs/Top: it stands twice in the table", self.faults())

    def test_theorem_that_is_not_there(self):
        self.edit("crates/b/specs/Top.antt", "TopLaws", "Laws")
        self.assertEqual(self.faults(), ["b/specs/Top: it has no TopLaws"])

    def test_definition_that_uses_what_is_not_to_be_read(self):
        for path in ("specs.code.Post", "proofs.Law"):
            before = (self.root / "crates/b/specs/Promise.antt").read_text()
            self.edit("crates/b/specs/Promise.antt", "specs.Laws", path)
            other = "a/" + path.replace(".", "/")
            self.assertEqual(self.faults(), [f"b/specs/Promise: it uses {other}, which is not above it"])
            self.write("crates/b/specs/Promise.antt", before)

    def test_contract_of_a_public_function(self):
        for function, old in (("call", "≡ first x"), ("ask", "≡ first self")):
            before = (self.root / "crates/b/src/lib.rt").read_text()
            self.edit("crates/b/src/lib.rt", old, "≡ hidden x")
            said = f"crates/b/src/lib.rt: the contract of {function} cites a/specs/code/Post"
            self.assertEqual(self.faults(), [said])
            self.write("crates/b/src/lib.rt", before)

    def test_what_a_conversion_gives(self):
        source = (self.root / "crates/b/src/lib.rt").read_text()
        self.write("crates/b/src/lib.rt", source + "\nimpl From<A> for B {\n    ghost from_gives = { λ a b. b ≡ hidden a };\n}\n")
        said = "crates/b/src/lib.rt: the contract of from_gives cites a/specs/code/Post"
        self.assertEqual(self.faults(), [said])

    def test_contract_with_an_alias_and_with_a_path(self):
        self.edit("crates/b/src/lib.rt", "Post.{hidden}", "Post as Post")
        for said in ("Post.hidden x", "Rattle.a.specs.code.Post.hidden x"):
            before = (self.root / "crates/b/src/lib.rt").read_text()
            self.edit("crates/b/src/lib.rt", "first x", said)
            self.assertEqual(self.faults(), ["crates/b/src/lib.rt: the contract of call cites a/specs/code/Post"])
            self.write("crates/b/src/lib.rt", before)

    def test_page_without_a_table(self):
        self.edit("docs/READING.md", reading_order.HEADING, "## Files")
        self.assertIn("a/specs/First: docs/READING.md does not name it", self.faults())


if __name__ == "__main__":
    unittest.main()
