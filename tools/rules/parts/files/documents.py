"""Parts from JSON: a list of them, an object of named ones, or lines; read piece by piece."""

import codecs
import json
import re
from collections.abc import Iterable, Iterator
from typing import BinaryIO

from rules.parts.files.items import BadItem, Item, NoValue, Number, item_of

PIECE = 2**16
# No word of JSON is longer: a mistake that is nearer to the end of a piece may be none.
LONGEST_WORD = 16
BLANKS = re.compile(r"[ \t\r\n]*")
CLOSING = {"[": "]", "{": "}"}
LINES = "another value stands behind the first one; JSON lines are read from a file .jsonl"


class NoDocument(Exception):
    """Why this is no JSON, and the line."""

    def __init__(self, line: int, message: str) -> None:
        super().__init__(message)
        self.line = line


def fields_of(pairs: list[tuple[str, object]]) -> object:
    found = dict(pairs)
    if len(found) == len(pairs):
        return found
    keys = [key for key, _ in pairs]
    twice = next(key for place, key in enumerate(keys) if key in keys[:place])
    return NoValue(f"the key {json.dumps(twice, ensure_ascii=False)} stands twice in an object")


def constant(text: str) -> NoValue:
    return NoValue(f"{text} is no number of a rule")


DECODER = json.JSONDecoder(
    object_pairs_hook=fields_of, parse_float=Number, parse_int=Number, parse_constant=constant
)


def items_of_lines(lines: Iterable[bytes]) -> Iterator[Item | BadItem]:
    """A part a line; blank lines are passed over."""
    number = 0
    for place, line in enumerate(lines, 1):
        if line.strip():
            number += 1
            yield item_of_line(place, number, line)


def item_of_line(place: int, number: int, line: bytes) -> Item | BadItem:
    try:
        return item_of(place, number, DECODER.decode(line.decode("utf-8-sig")))
    except UnicodeDecodeError:
        return BadItem(place, "parts are UTF-8, this line is not")
    except json.JSONDecodeError as error:
        return BadItem(place, f"no JSON: {error.msg} (column {error.colno})")
    except RecursionError:
        return BadItem(place, "no JSON of a part: too many levels")


def items_of_document(file: BinaryIO) -> Iterator[Item | BadItem]:
    """What is no JSON ends the parts."""
    try:
        yield from Document(file).items()
    except NoDocument as error:
        yield BadItem(error.line, str(error))


class Document:
    """A JSON text of which a piece is held: what stands behind `place` is still to be read."""

    def __init__(self, file: BinaryIO) -> None:
        self.file = file
        self.decoder = codecs.getincrementaldecoder("utf-8-sig")()
        self.text = ""
        self.place = 0
        self.line = 1
        self.column = 1

    def items(self) -> Iterator[Item]:
        opening = self.next()
        if opening not in CLOSING:
            raise self.error("a list or an object of parts is asked for")
        self.go(self.place + 1)
        ended = self.next() == CLOSING[opening]
        number = 0
        while not ended:
            number += 1
            yield self.named_item(number) if opening == "{" else self.listed_item(number)
            ended = self.ends(CLOSING[opening])
        self.go(self.place + 1)
        if self.next():
            raise self.error(LINES)

    def listed_item(self, number: int) -> Item:
        line = self.line
        return item_of(line, number, self.value())

    def named_item(self, number: int) -> Item:
        line = self.line
        if self.next() != '"':
            raise self.error("no JSON: a part's name is asked for")
        name = str(self.value())
        self.expect(":")
        return Item(line, number, name, name, self.value())

    def ends(self, closing: str) -> bool:
        """Whether the list or object ends here; else a comma leads to its next item."""
        ended = self.next() == closing
        if not ended:
            self.expect(",", f" or `{closing}`")
        return ended

    def expect(self, character: str, instead: str = "") -> None:
        """Goes over the character and the blanks around it."""
        if self.next() != character:
            raise self.error(f"no JSON: `{character}`{instead} is asked for")
        self.go(self.place + 1)
        self.next()

    def next(self) -> str:
        """Goes over blanks to the next character, which is none at the end."""
        while True:
            blanks = BLANKS.match(self.text, self.place)
            self.go(blanks.end() if blanks else self.place)
            if self.place < len(self.text) or not self.more():
                return self.text[self.place : self.place + 1]

    def value(self) -> object:
        while True:
            try:
                value, end = DECODER.raw_decode(self.text, self.place)
            except json.JSONDecodeError as error:
                before = error.pos - self.place
                if self.is_cut(error) and self.more():
                    continue
                self.go(self.place + before)
                raise self.error(f"no JSON: {error.msg}") from None
            except RecursionError:
                raise self.error("no JSON of a part: too many levels") from None
            length = end - self.place
            if end + LONGEST_WORD <= len(self.text) or not self.more():
                self.go(self.place + length)
                return value

    def is_cut(self, error: json.JSONDecodeError) -> bool:
        """It may be that the piece ends too early."""
        unended = error.msg.startswith("Unterminated string")
        return unended or error.pos + LONGEST_WORD > len(self.text)

    def more(self) -> bool:
        """Reads on, as much again as is held; whether there was more."""
        held = self.text[self.place :]
        piece = self.file.read(max(PIECE, len(held)))
        try:
            read = self.decoder.decode(piece, final=not piece)
        except UnicodeDecodeError as error:
            line = self.line + held.count("\n") + error.object[: error.start].count(b"\n")
            raise NoDocument(line, "parts are UTF-8, this line is not") from None
        self.text, self.place = held + read, 0
        return bool(piece)

    def go(self, place: int) -> None:
        lines = self.text.count("\n", self.place, place)
        start = self.text.rfind("\n", self.place, place)
        self.line += lines
        self.column = place - start if lines else self.column + place - self.place
        self.place = place

    def error(self, message: str) -> NoDocument:
        return NoDocument(self.line, f"{message} (column {self.column})")
