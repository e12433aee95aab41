"""How the items of a file of parts came out."""

from dataclasses import dataclass, field

from rules.parts.files.items import BadItem
from rules.parts.running import Result
from rules.run.verdict import Match, NoMatch, Sometimes, Verdict
from rules.tables.listing import RunRefusal

COUNTS = ("parts", "match", "sometimes", "no_match", "refused", "unreadable")


@dataclass
class PartsTally:
    """Counts; `match` has those that match always, `no_match` those that never do.

    A refusal that any item would have ends the run.
    """

    parts: int = 0
    match: int = 0
    sometimes: int = 0
    no_match: int = 0
    refused: int = 0
    unreadable: int = 0
    refusal: RunRefusal | None = None
    # What is said of the first that don't match.
    told: list[str] = field(default_factory=list)

    def add(self, result: Result) -> None:
        if isinstance(result, BadItem):
            self.unreadable += 1
        else:
            self.count(result.verdict)

    def count(self, verdict: Verdict) -> None:
        self.parts += 1
        match verdict:
            case Match():
                self.match += 1
            case Sometimes():
                self.sometimes += 1
            case NoMatch():
                self.no_match += 1
            case _:
                self.refused += 1

    def all_match(self) -> bool:
        return self.match == self.parts and self.refusal is None

    def found(self) -> str:
        """As a line of a file of rules would expect it, with the count of all."""
        others = {"sometimes": self.sometimes, "refused": self.refused}
        said = [f"{count} {word}" for word, count in others.items() if count]
        return ", ".join([f"{self.match} of {self.parts} match", *said])

    def counts(self) -> dict[str, int]:
        return {name: vars(self)[name] for name in COUNTS}

    def in_words(self) -> str:
        doesnt = "doesn't" if self.no_match == 1 else "don't"
        said = [
            f"{self.match} {'matches' if self.match == 1 else 'match'}",
            f"{self.sometimes} sometimes" if self.sometimes else "",
            f"{self.no_match} {doesnt}",
            f"{self.refused} refused" if self.refused else "",
        ]
        parts = f"{self.parts} {'part' if self.parts == 1 else 'parts'}"
        more = f"; {self.unreadable} more can't be read" if self.unreadable else ""
        return f"{parts}: {', '.join(filter(None, said))}{more}"
