"""What was meant by an expectation that is none."""

from collections.abc import Sequence
from difflib import SequenceMatcher

LIKENESS = 0.7


def did_you_mean(said: str, known: Sequence[str]) -> str:
    """A question, or nothing; what stands behind the words that are meant is kept."""
    words = said.split()
    found = [
        (likeness(" ".join(words[:count]), meant), meant, count)
        for count in range(1, len(words) + 1)
        for meant in known
    ]
    best, meant, count = max(found, default=(0.0, "", 0))
    instead = " ".join([meant, *words[count:]])
    return f"did you mean `{instead}`?" if best >= LIKENESS and instead != said else ""


def likeness(said: str, meant: str) -> float:
    return SequenceMatcher(None, said.lower(), meant).ratio()
