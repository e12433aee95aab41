"""Files of rules with measured numbers: expectations, the report, JSON, the page."""

import json
import unittest

from rules.check.expectations import Matched, NotMatched, Undecided, asks_for_run, read_expected
from rules.text.tokens import RuleTextError
from tests.check.page.pages import Page, page_html
from tests.planners import run, with_library

RULES = """\
[w, w] => sometimes --on '[17..19, 18]'
[w, w] => always --on '[17..19, 18]'
[w, _] => always w=17..19 --on '[17..19, 18]'
[w, _] => always w=17 --on '[17..19, 18]'
w => never --on 16 --given w=17..19
w => sometimes --on 16 --given w=16
18 => refused 32 --on 19..17
"""
REPORT = """\
-:2:33: expected always, found sometimes
    [w, w]
    [17..19, 18]
             ^^ `w` is 17..19 (column 2), and 18 stands here
-:4:11: expected always w=17, found always w=17..19
    [w, _]
    on [17..19, 18]
-:6:6: expected sometimes, found match
    w
    on 16
7 rules, 3 differ
"""


class Reading(unittest.TestCase):
    def test_what_may_be_expected(self) -> None:
        self.assertEqual(read_expected(b"always"), Matched())
        self.assertEqual(read_expected(b"always w=17..19"), Matched({b"w": b"17..19"}))
        self.assertEqual(read_expected(b"never"), NotMatched())
        self.assertEqual(read_expected(b"sometimes"), Undecided())
        for text in (b"always", b"never", b"sometimes", b"refused 32"):
            self.assertTrue(asks_for_run(read_expected(text)))

    def test_unreadable(self) -> None:
        for text in (b"sometimes w=1", b"never w=1", b"always w={1..2: 3}"):
            with self.assertRaises(RuleTextError):
                read_expected(text)


@with_library
class Checks(unittest.TestCase):
    maxDiff = None

    def test_report(self) -> None:
        status, printed, _ = run("--check", "-", text=RULES.encode())
        self.assertEqual((status, printed), (1, REPORT))

    def test_json(self) -> None:
        _, printed, _ = run("--check", "-", "--json", text=RULES.encode())
        first, _, third, _, fifth, *_ = json.loads(printed)["lines"]
        found = first["answer"]["run"]
        self.assertEqual((found["answer"], found["undecided"]["column"]), ("sometimes", 10))
        self.assertEqual(found["matching"], {"value": "[18, 18]", "given": {}})
        self.assertEqual(found["missing"], {"value": "[17, 18]", "given": {}})
        bound = third["answer"]["run"]["names"]["w"]
        self.assertEqual(bound["text"], "17..19")
        self.assertNotIn("value", bound)
        self.assertEqual(fifth["answer"]["run"]["answer"], "never")

    def test_page(self) -> None:
        html = page_html(RULES)
        self.assertEqual(Page(html).faults, [])
        self.assertIn('<li><span class="range">range</span> a number that is measured', html)
        self.assertIn('<span class="range" title="a number that is measured: ', html)
        self.assertIn("<p>sometimes: `w` is 17..19 (column 2), and 18 stands here</p>", html)
        self.assertIn("<p>match on [18, 18]</p>\n<p>no match on [17, 18]</p>", html)
        self.assertIn("<p>never: `w` is 17..19 (given), and 16 stands here</p>", html)
        self.assertNotIn('class="range">range', page_html("[w, w] => match --on '[18, 18]'"))


if __name__ == "__main__":
    unittest.main()
