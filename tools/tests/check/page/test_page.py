import re
import tempfile
import unittest
from pathlib import Path

from rules.words.conclusions import NEVER
from tests.check.page.pages import HOSTILE, RULES, Page, page_html
from tests.planners import run, with_library


@with_library
class Frame(unittest.TestCase):
    def test_well_formed(self) -> None:
        html = page_html(RULES)
        page = Page(html)
        self.assertEqual(page.faults, [])
        self.assertTrue(html.startswith('<!DOCTYPE html>\n<html lang="en">\n'))
        self.assertEqual(page.title, "-: 9 rules, 2 differ, 1 note, 1 line can't be read")

    def test_legend(self) -> None:
        html = page_html(RULES)
        says = {
            "bound": "a name that is given a value",
            "compared": "a name or expression that is compared with its value",
            "ignored": "a place that is ignored",
            "place": "the place of a refusal or a note",
            "miss": "the first miss of a run",
        }
        for kind, what in says.items():
            self.assertIn(f'<li><span class="{kind}">{kind}</span> {what}</li>\n', html)

    def test_alone(self) -> None:
        html = page_html(RULES)
        for word in ("http", "src=", "<script", "@import", "url(", "<link", "<img"):
            self.assertNotIn(word, html)
        attributes = {"charset", "class", "content", "href", "id", "lang", "name", "title"}
        self.assertEqual(Page(html).attributes, attributes)
        links = set(re.findall(r'href="([^"]*)"', html))
        self.assertEqual({link[:6] for link in links}, {"#line-"})

    def test_what_differs_stands_first(self) -> None:
        html = page_html(RULES)
        page = Page(html)
        self.assertEqual(page.headings, ["What differs", "What can\u2019t be read", "As expected"])
        lines = [int(card.removeprefix("line-")) for card in page.cards]
        self.assertEqual(lines, [3, 10, 9, 2, 4, 5, 6, 7, 8, 11])
        for card in ("agrees\" id=\"line-2", "differs\" id=\"line-3", "unreadable\" id=\"line-9"):
            self.assertIn(f'<article class="rule {card}">\n', html)
        page = Page(page_html("x => pattern"))
        self.assertEqual((page.headings, page.title), (["As expected"], "-: 1 rule, 0 differ"))
        self.assertEqual(Page(page_html("x")).headings, ["What can\u2019t be read"])

    def test_page_that_cannot_be_written(self) -> None:
        with tempfile.TemporaryDirectory() as folder:
            status, printed, error = run("--check", "-", "--html", folder, text=b"x => pattern")
            self.assertEqual((status, printed), (2, ""))
            self.assertEqual(error, f"{folder} can't be written: Is a directory\n")

    def test_report_beside_the_page(self) -> None:
        with tempfile.TemporaryDirectory() as folder:
            page = Path(folder) / "page.html"
            status, printed, _ = run("--check", "-", "--html", str(page), text=b"x => index")
            self.assertEqual((status, printed.splitlines()[-1]), (1, "1 rule, 1 differs"))
            self.assertTrue(page.exists())


@with_library
class Cards(unittest.TestCase):
    def card(self, rule: str) -> list[str]:
        """The lines of the card of a rule."""
        (card,) = Page(page_html(rule)).cards.values()
        return [line for line in card.splitlines() if line]

    def marks(self, rule: str) -> list[tuple[str, str]]:
        return Page(page_html(rule)).classes

    def test_rule(self) -> None:
        lines = [
            "line 1 \u2713 as expected",
            '{"b": [w], "a": {w}} = parts',
            "with --bound parts --careful",
            "expectedplanned",
            "foundbind left",
            "planned as bind left: the left side is matched with the value of parts",
            'object of 2 {"b": [w], "a": {w}} column 1',
            'field 2, "a": compare {w}, taken whole column 17',
            'field 1, "b": array of 1 [w] column 7',
            "bind w column 8",
        ]
        rule = '{"b": [w], "a": {w}} = parts => planned --bound parts --careful'
        self.assertEqual(self.card(rule), lines)

    def test_lists_in_lists(self) -> None:
        plan = """\
<ul>
<li>array of 2 [[[x]], y] <small>column 1</small><ul>
<li>array of 1 [[x]] <small>column 2</small><ul>
<li>array of 1 [x] <small>column 3</small><ul>
<li>bind x <small>column 4</small></li>
</ul>
</li>
</ul>
</li>
<li>bind y <small>column 9</small></li>
</ul>
</li>
</ul>
</div>
"""
        self.assertIn(plan, page_html("[[[x]], y] => pattern"))

    def test_run(self) -> None:
        lines = self.card("[w, v, w] => match --on '[18, 3, 16]' --given v=3 --bound v")
        self.assertEqual(lines[0], "line 1 \u2717 differs")
        texts = ["[w, v, w]", "on [18, 3, 16]", "given v = 3", "with --bound v"]
        self.assertEqual(lines[1:5], texts)
        self.assertEqual(lines[5:7], ["expectedmatch", "foundno match"])
        self.assertEqual(lines[-1], "no match: `w` is 18 (column 2), and 16 stands here")
        self.assertIn("foundmatch w=18", self.card("[w, w] = [18, 18] => match"))
        refused = self.card("x => refused 22 --on '[y]'")
        self.assertEqual(refused[-3][:24], "refused, 22 not a value:")
        string = 'a string stands in double quotes: "y"'
        self.assertEqual(refused[-2:], ["a name: y", string])

    def test_refusals(self) -> None:
        lines = self.card('{"a": x} := {"b": 1} => refused 14')
        self.assertEqual(lines[4][:39], "refused, 14 ObjectLiteralKeysMismatch: ")
        objects = ['the value\'s object: {"b": 1}', 'the pattern\'s object: {"a": x}']
        self.assertEqual(lines[5:], [*objects, NEVER])
        lines = self.card('{"a": x} := {"a": 1, "a": 1} => refused 14')
        unproved = "whether the sides can match is not proved, as here stands a repeated key"
        self.assertEqual(lines[-1], f'{unproved}: "a"')
        lines = self.card("[" + "1, " * 512 + "1] => refused 1")
        self.assertEqual(lines[-1], "numbers: 513, at most 256")
        lines = self.card("[x] := [] => refused 13")
        self.assertEqual(lines[-2], "items expected by the pattern: 1, items of the value: 0")

    def test_notes(self) -> None:
        lines = self.card("_ = thickness => wildcard left")
        self.assertIn("note: `thickness` is read here, and nothing gives it a value", lines)

    def test_line_that_cannot_be_read(self) -> None:
        message = "bad rule text: expected `,` or `]`, found `y`"
        lines = ["line 1 \u2717 can\u2019t be read", "[x y]", message]
        self.assertEqual(self.card("[x y] => planned"), lines)

    def test_marks(self) -> None:
        bound, compared, ignored, place, miss = "bound", "compared", "ignored", "place", "miss"
        self.assertEqual(
            self.marks("[w, _, w, {w}, 1] => pattern"),
            [(bound, "w"), (ignored, "_"), (compared, "w"), (compared, "{w}")],
        )
        self.assertEqual(
            self.marks("[x, 1] = [1, x] => pairs"), [(bound, "x"), (compared, "1"), (compared, "x")]
        )
        self.assertEqual(
            self.marks("[x, {f(y)}, 1] = {\"a\": x} => equality check --bound x"),
            [(compared, "x"), (compared, "f(y)"), (compared, "x")],
        )
        self.assertEqual(
            self.marks("[x, 1] = [w, y] => pairs --bound w"), [(bound, "x"), (bound, "y")]
        )
        self.assertEqual(self.marks("_ = y => planned"), [(ignored, "_"), (place, "y")])
        self.assertEqual(self.marks("_ = _ => planned"), [(ignored, "_"), (ignored, "_")])
        self.assertEqual(
            self.marks("[w, w] = [18, 16] => no match"),
            [(bound, "w"), (compared, "w"), (miss, "16")],
        )
        self.assertEqual(
            self.marks('{"a": x} := {"b": 1} => refused 14'),
            [(place, '{"a": x}'), (place, '{"b": 1}')],
        )
        self.assertEqual(self.marks("x => match --on '[y]'"), [(bound, "x"), (place, "y")])
        self.assertEqual(self.marks("[x y] => planned"), [(place, "y")])
        self.assertEqual(self.marks("[x => planned"), [(place, " ")])

    def test_marks_are_spoken(self) -> None:
        html = page_html("[w, _] => pattern")
        spoken = '<span class="spoken"> ({}) </span></span>'
        self.assertIn('title="a name that is given a value">w' + spoken.format("bound"), html)
        self.assertIn('title="a place that is ignored">_' + spoken.format("ignored"), html)


@with_library
class Escapes(unittest.TestCase):
    def test_hostile_rules(self) -> None:
        html = page_html(HOSTILE)
        page = Page(html)
        self.assertEqual(page.faults, [])
        self.assertEqual(page.tags, Page(page_html(RULES)).tags | {"bdi"})
        self.assertIn('["<script>alert(1)</script>", "&amp;", \'x\']', page.cards["line-1"])
        self.assertIn("[\"</code><b title='\", \"\\\"\", `<`]", page.cards["line-2"])
        self.assertIn('on ["<u>", 1]\ngiven w = 1\n', page.cards["line-4"])
        self.assertIn("\"\ufffd<\"", page.cards["line-5"])
        self.assertIn("with --bound '\ufffd<'", page.cards["line-7"])
        self.assertIn("unrecognized arguments: --?", page.cards["line-8"])

    def test_scripts_from_right_to_left(self) -> None:
        html = page_html(HOSTILE)
        for text in ("\u05e9\u05dc\u05d5\u05dd", "\u05d0\u05d1 \u05d2\u05d3"):
            self.assertIn(f'"<bdi>{text}</bdi>"', html)
        self.assertNotIn("\u202e", html)

    def test_name_of_the_file(self) -> None:
        with tempfile.TemporaryDirectory() as folder:
            file, page = Path(folder) / "<b>&\"'.rules", Path(folder) / "page.html"
            file.write_text("x => pattern")
            self.assertEqual(run("--check", str(file), "--html", str(page))[0], 0)
            html = page.read_text(encoding="utf-8")
            self.assertIn("/&lt;b&gt;&amp;&quot;&#x27;.rules</h1>", html)
            self.assertEqual(Page(html).faults, [])


if __name__ == "__main__":
    unittest.main()
