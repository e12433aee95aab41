"""Characters with which no token starts, and what to write instead."""

import re
import unicodedata
from typing import NamedTuple

NAMES = "names are made of a-z, A-Z, 0-9 and _"
WORD = re.compile(r"\w+")
# As German writes them without their dots; other letters lose their marks.
SPELT = str.maketrans({"ä": "ae", "ö": "oe", "ü": "ue", "ß": "ss", "Ä": "Ae", "Ö": "Oe", "Ü": "Ue"})


class Strange(NamedTuple):
    """What is wrong, and the bytes that are to blame."""

    message: str
    start: int
    end: int


def strange_at(text: bytes, place: int) -> Strange:
    rest = text[place:].decode()
    character = rest[0]
    if character in "\"`":
        return Strange(f"this string has no closing {character}", place, len(text))
    if character == "'":
        return single_quotes(rest, place)
    if character.isalpha():
        return foreign_word(text, place)
    return Strange("no token starts here", place, place + len(character.encode()))


def single_quotes(rest: str, place: int) -> Strange:
    inside = rest[1:].partition("'")[0]
    quoted = rest[: len(inside) + 2]
    message = f'strings stand in double quotes: "{inside}"'
    return Strange(message, place, place + len(quoted.encode()))


def foreign_word(text: bytes, place: int) -> Strange:
    """A word with a letter that no name has."""
    before = re.search(rb"[A-Za-z0-9_]*\Z", text[:place])
    start = before.start() if before else place
    found = WORD.match(text[start:].decode())
    word = found.group() if found else text[place:].decode()[0]
    return Strange(
        f'{NAMES}{spelt(word)}; a key may be "{word}"', start, start + len(word.encode())
    )


def spelt(word: str) -> str:
    """How the word may be spelt instead, if it may."""
    plain = unicodedata.normalize("NFKD", word.translate(SPELT))
    name = "".join(letter for letter in plain if not unicodedata.combining(letter))
    return f": {name}" if name.isascii() and name.isidentifier() else ""
