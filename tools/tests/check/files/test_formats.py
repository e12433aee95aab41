"""JUnit's XML, GitHub's annotations, JSON of several files."""

import json
import unittest
from xml.etree import ElementTree

from tests.check.files.folders import Folder
from tests.planners import run, with_library


@with_library
class Formats(Folder):
    def said(self, name: str, *options: str) -> str:
        files = (str(self.flush), str(self.doors))
        return run("--check", *files, "--format", name, *options)[1]

    def test_text_and_json(self) -> None:
        self.assertEqual(self.said("text"), run("--check", str(self.flush), str(self.doors))[1])
        found = json.loads(self.said("json"))
        files = found.pop("files")
        counts = {"rules": 4, "differ": 1, "notes": 1, "untested": 0, "unreadable": 0}
        self.assertEqual(found, counts)
        alone = [run("--check", file["file"], "--json")[1] for file in files]
        self.assertEqual(files, list(map(json.loads, alone)))

    def test_junit(self) -> None:
        suites = ElementTree.fromstring(self.said("junit"))
        flush, doors = suites
        counts = {"name": str(self.flush), "tests": "2", "failures": "1", "errors": "0"}
        self.assertEqual(flush.attrib, counts)
        self.assertEqual(doors.attrib["failures"], "0")
        names = [case.attrib["name"] for case in flush]
        self.assertEqual(names, ["line 2: both of 18", 'line 3: "wrong" <on> purpose & 1'])
        self.assertEqual([case.attrib["name"] for case in doors], ["line 1: x", "line 2: _ = y"])
        self.assertEqual([len(case) for case in flush], [0, 1])
        (failure,) = flush[1]
        self.assertEqual(failure.tag, "failure")
        self.assertEqual(failure.attrib["message"], "expected match, found no match")
        self.assertIn("^^ `w` is 18 (column 11), and 16 stands here", failure.text)

    def test_junit_of_other_lines(self) -> None:
        self.doors.write_bytes(b'["<\x01", y z] => planned\n[w, w] => match --on [1,1]\n')
        _, doors = ElementTree.fromstring(self.said("junit", "--weak"))
        counts = [doors.attrib[name] for name in ("tests", "failures", "errors")]
        self.assertEqual(counts, ["3", "1", "1"])
        faults = [[fault.tag for fault in case] for case in doors]
        self.assertEqual(faults, [["error"], [], ["failure"]])
        self.assertEqual(doors[0].attrib["name"], 'line 1: ["<?", y z]')
        self.assertIn("[w, w] => no match --on '[1, 2]'", doors[2][0].text)

    def test_github(self) -> None:
        lines = self.said("github", "--notes").splitlines()
        caret = "                  ^^ `w` is 18 (column 11), and 16 stands here"
        text = f"    [w, w] = [18, 16]%0A{caret}"
        place = f"file={self.flush},line=3,col=15"
        self.assertEqual(lines[0], f"::error {place}::expected match, found no match%0A{text}")
        note = "note: `y` is read here, and nothing gives it a value%0A    _ = y%0A        ^"
        self.assertEqual(lines[1], f"::warning file={self.doors},line=2,col=5::{note}")
        self.assertEqual(lines[2:], ["2 files: 4 rules, 1 differs, 1 note"])

    def test_github_escapes(self) -> None:
        odd = self.folder / "a,b:c%.rules"
        odd.write_text('"%" => index\n')
        lines = run("--check", str(odd), "--format", "github")[1].splitlines()
        name = str(odd).replace("%", "%25").replace(":", "%3A").replace(",", "%2C")
        said = "expected index, found pattern%0A    \"%25\""
        self.assertEqual(lines, [f"::error file={name},line=1,col=8::{said}", "1 rule, 1 differs"])

    def test_a_rule_alone(self) -> None:
        self.assertEqual(run("x", "--format", "json"), run("x", "--json"))
        self.assertEqual(run("x", "--format", "text"), run("x"))
        self.assertEqual(run("x", "--format", "xml")[0], 2)


if __name__ == "__main__":
    unittest.main()
