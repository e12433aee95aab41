"""Rule text as a terminal shows it: one column for a tab, a place marked by carets below."""

import unicodedata

LONGEST_LINE = 100
LONGEST_PART = 60
BEFORE_MARK = 30
CUT = "..."
JOINERS = "\u200c\u200d"


def shown(text: str) -> str:
    """A tab as one blank, other characters that don't print as a question mark."""
    visible = text.replace("\t", " ")
    return "".join(character if is_shown(character) else "?" for character in visible)


def is_shown(character: str) -> bool:
    """Those that join others, as in an emoji of several, are no characters to be seen."""
    return character.isprintable() or character in JOINERS


def width(text: str) -> int:
    """The columns that shown text takes in a terminal."""
    return sum(character_width(character) for character in text)


def character_width(character: str) -> int:
    if unicodedata.category(character) in ("Mn", "Me") or character in JOINERS:
        return 0
    return 2 if unicodedata.east_asian_width(character) in "WF" else 1


def decoded(text: bytes) -> str:
    return text.decode(errors="replace")


def column(text: bytes, place: int) -> int:
    """The place in characters, from 1."""
    return len(decoded(text[:place])) + 1


def part(text: bytes, start: int, end: int) -> str:
    """A part of the rule text, cut if it is long."""
    whole = shown(decoded(text[start:end]))
    return whole if len(whole) <= LONGEST_PART else whole[: LONGEST_PART - len(CUT)] + CUT


def marked(text: bytes, start: int, end: int, label: str = "") -> str:
    """The rule text, or what stands around the place if it is long, and carets below the place."""
    line = decoded(text)
    first = column(text, start) - 1
    last = column(text, end) - 1
    left, right = 0, len(line)
    if len(line) > LONGEST_LINE:
        left = max(0, first - BEFORE_MARK)
        right = min(left + LONGEST_LINE, len(line))
    head = CUT if left > 0 else ""
    tail = CUT if right < len(line) else ""
    blanks = " " * width(head + shown(line[left:first]))
    carets = "^" * max(1, width(shown(line[first : min(last, right)])))
    excerpt = head + shown(line[left:right]) + tail
    return f"    {excerpt}\n    {blanks}{carets} {label}".rstrip()


def below(text: bytes, start: int, end: int) -> str:
    """What stands below a message about text: the text with the place, if there is any."""
    return f"\n{marked(text, start, end)}" if text.strip() else ""
