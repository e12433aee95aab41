"""Files of parts, read into items."""

import io
import json
import tempfile
import unittest
from collections.abc import Iterator
from pathlib import Path
from unittest import mock

from rules.no_answer import NoAnswer
from rules.parts.files import documents
from rules.parts.files.documents import items_of_document, items_of_lines
from rules.parts.files.items import BadItem, Item, NoValue, Number
from rules.parts.files.reading import read_items
from rules.parts.files.table import items_of_table

ROWS = "name,left,right\nsink,18,16\n"


def table(text: str | bytes) -> list[Item | BadItem]:
    data = text.encode() if isinstance(text, str) else text
    return list(items_of_table(io.BytesIO(data)))


def document(text: str | bytes, piece: int = documents.PIECE) -> list[Item | BadItem]:
    data = text.encode() if isinstance(text, str) else text
    with mock.patch.object(documents, "PIECE", piece):
        return list(items_of_document(io.BytesIO(data)))


def lines(text: str | bytes) -> list[Item | BadItem]:
    data = text.encode() if isinstance(text, str) else text
    return list(items_of_lines(io.BytesIO(data)))


def values(items: list[Item | BadItem]) -> list[object]:
    return [item.value for item in items if isinstance(item, Item)]


def bad(items: list[Item | BadItem]) -> list[tuple[int, str]]:
    return [(item.line, item.message) for item in items if isinstance(item, BadItem)]


class Tables(unittest.TestCase):
    def test_separators(self) -> None:
        expected = [{"name": "sink", "left": Number("18"), "right": Number("16")}]
        for separator in (",", ";", "\t", ", "):
            with self.subTest(separator=separator):
                self.assertEqual(values(table(ROWS.replace(",", separator))), expected)
        quoted = table('"a,b,c";d\n"1,2";3\n')
        self.assertEqual(values(quoted), [{"a,b,c": "1,2", "d": Number("3")}])
        self.assertEqual(values(table("left\n18\n")), [{"left": Number("18")}])

    def test_cells(self) -> None:
        row = 'a,b,c,d,e,f,g,h,i\ntrue,false,null,-3,18.50,007,17..19,"x ""y""",\n'
        expected = {
            "a": True,
            "b": False,
            "c": None,
            "d": Number("-3"),
            "e": Number("18.50"),
            "f": "007",
            "g": "17..19",
            "h": 'x "y"',
        }
        self.assertEqual(values(table(row)), [expected])

    def test_places_and_names(self) -> None:
        text = '\ufeffid,left\r\n"a\r\nb",1\r\n\r\n,,\r\n7,2\r\n,3\r\n'
        found = [(item.line, item.number, item.name, item.key) for item in table(text)]
        self.assertEqual(found, [(2, 1, "a\r\nb", 0), (6, 2, "7", 1), (7, 3, "", 2)])
        self.assertEqual(table("left\n1\n")[0].title(), "part 1")
        self.assertEqual(table("part,name\nx,y\n")[0].title(), "y")

    def test_broken(self) -> None:
        self.assertEqual(bad(table("a,b\n1,2,3\n4,5\n")), [(2, "the cell `3` has no heading")])
        self.assertEqual(values(table("a,b\n1,2,\n")), [{"a": Number("1"), "b": Number("2")}])
        self.assertEqual(bad(table("a,,c\n1,2,3\n")), [(2, "the cell `2` has no heading")])
        self.assertEqual(bad(table("a,a\n1,2\n")), [(1, "no table: the heading `a` stands twice")])
        self.assertEqual(bad(table('a\n1\n"2\n3\n')), [(3, "no table: unexpected end of data")])
        self.assertEqual(bad(table(b"a\n1\n\xff\n")), [(3, "parts are UTF-8, this line is not")])
        self.assertEqual(table(""), [])


class Documents(unittest.TestCase):
    def test_lists(self) -> None:
        text = '[\n{"name": "a", "t": [18, 2.50]},\n null, "x",\n\n -1e3]\n'
        items = document(text)
        found = [{"name": "a", "t": [Number("18"), Number("2.50")]}, None, "x", Number("-1e3")]
        self.assertEqual(values(items), found)
        self.assertEqual([item.line for item in items], [2, 3, 3, 5])
        self.assertEqual([item.key for item in items], [0, 1, 2, 3])
        self.assertEqual([item.title() for item in items], ["a", "part 2", "part 3", "part 4"])
        self.assertEqual(document(" [ ] "), [])

    def test_objects(self) -> None:
        items = document('{"sink": {"name": "x"},\n"oven" : 2}')
        found = [(item.line, item.name, item.key) for item in items]
        self.assertEqual(found, [(1, "sink", "sink"), (2, "oven", "oven")])
        self.assertEqual(document("{}"), [])

    def test_what_is_no_value(self) -> None:
        found = values(document('[{"a": 1, "b": 2, "a": 3}, NaN]'))
        twice = NoValue('the key "a" stands twice in an object')
        self.assertEqual(found, [twice, NoValue("NaN is no number of a rule")])

    def test_broken(self) -> None:
        comma = "no JSON: `,` or `]` is asked for"
        for text, line, message in (
            ("[1,\n2 3]", 2, f"{comma} (column 3)"),
            ("[1,\n 2", 2, f"{comma} (column 3)"),
            ("[1,]", 1, "no JSON: Expecting value (column 4)"),
            ('[1,\n{"a": tru}]', 2, "no JSON: Expecting value (column 7)"),
            ('["a', 1, "no JSON: Unterminated string starting at (column 2)"),
            ('{"a" 1}', 1, "no JSON: `:` is asked for (column 6)"),
            ("{1: 2}", 1, "no JSON: a part's name is asked for (column 2)"),
            ("18", 1, "a list or an object of parts is asked for (column 1)"),
            ("", 1, "a list or an object of parts is asked for (column 1)"),
            ("[1]\n[2]", 2, f"{documents.LINES} (column 1)"),
            ("[" * 100_000, 1, "no JSON of a part: too many levels (column 2)"),
        ):
            for piece in (1, 5, documents.PIECE):
                with self.subTest(text=text[:20], piece=piece):
                    self.assertEqual(bad(document(text, piece)), [(line, message)])
        broken = bad(document(b'[1,\n"a\n\xff"]'))
        self.assertEqual(broken, [(3, "parts are UTF-8, this line is not")])

    def test_pieces(self) -> None:
        """Wherever a piece ends, the items are the same."""
        parts = [{"name": f"p{n}", "t": [n, 1.5, True, None, "\u00e9\n\"", {}]} for n in range(30)]
        numbers = json.dumps([123456.75] * 30)
        for text in (numbers, json.dumps(parts), json.dumps(parts, indent=2, ensure_ascii=False)):
            whole = document(text)
            self.assertEqual(len(whole), 30)
            for piece in (1, 2, 3, 17, 100):
                self.assertEqual(document(text, piece), whole)

    def test_a_piece_is_held(self) -> None:
        """The first item is given before much more than it is read."""
        file = io.BytesIO(b"[" + b"18, " * 1_000_000 + b"18]")
        next(iter(items_of_document(file)))
        self.assertLessEqual(file.tell(), 2 * documents.PIECE)


class Lines(unittest.TestCase):
    def test_lines(self) -> None:
        items = lines('\ufeff{"id": 7}\r\n\n[18]\n')
        self.assertEqual(values(items), [{"id": Number("7")}, [Number("18")]])
        self.assertEqual([(item.line, item.title()) for item in items], [(1, "7"), (3, "part 2")])

    def test_broken(self) -> None:
        items = lines(b'{"a": }\n1 2\n\xff\n' + b"[" * 100_000 + b"\n5\n")
        self.assertEqual(values(items), [Number("5")])
        messages = [
            (1, "no JSON: Expecting value (column 7)"),
            (2, "no JSON: Extra data (column 3)"),
            (3, "parts are UTF-8, this line is not"),
            (4, "no JSON of a part: too many levels"),
        ]
        self.assertEqual(bad(items), messages)

    def test_a_line_is_held(self) -> None:
        read: list[int] = []

        def endless() -> Iterator[bytes]:
            while True:
                read.append(1)
                yield b"[18, 18]\n"

        items = items_of_lines(endless())
        self.assertEqual([next(items).line for _ in range(3)], [1, 2, 3])
        self.assertEqual(len(read), 3)


class Files(unittest.TestCase):
    def test_by_the_ending(self) -> None:
        contents = {
            "a.csv": ROWS,
            "a.TSV": ROWS.replace(",", "\t"),
            "a.json": '[{"name": "sink", "left": 18, "right": 16}]',
            "a.jsonl": '{"name": "sink", "left": 18, "right": 16}\n',
            "a.ndjson": '{"name": "sink", "left": 18, "right": 16}\n',
        }
        with tempfile.TemporaryDirectory() as folder:
            for name, content in contents.items():
                path = Path(folder) / name
                path.write_text(content)
                found = [dict(item.value) for item in read_items(str(path))]
                self.assertEqual(found, values(table(ROWS)), name)

    def test_files_that_cannot_be_read(self) -> None:
        for name, message in (
            ("/nowhere/a.csv", "can't be read: No such file"),
            ("a.xlsx", "parts are read from a file .csv, "),
            ("parts", "parts are read from a file .csv, "),
        ):
            with self.subTest(name=name), self.assertRaisesRegex(NoAnswer, message):
                list(read_items(name))


if __name__ == "__main__":
    unittest.main()
