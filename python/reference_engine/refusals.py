"""Refusal numbers, and what they mean in words."""

from __future__ import annotations

from dataclasses import dataclass

#: What each refusal number means (docs/RULES.md has the table).
MEANINGS: dict[int, str] = {
    1: "settings or price beyond their bounds",
    2: "call not accepted in this phase",
    3: "number outside 1 to 32, or a developer that is used, unknown or of the wrong kind",
    4: "bad kind or levels, or developers that a project may not have",
    5: "C below the floor or not below the opening price",
    6: "price and level lists of unequal length, over 8 steps, or a bad price",
    7: "a level neither declared nor 0, or not below the last",
    8: "second offer in the round",
    9: "first opening with A not covered",
    10: "choices above the limit",
    11: "lent buffer too short",
    12: "malformed line",
    13: "lent buffer too short for the frame",
    14: "call that no frame can say",
    15: "lodging for a number that is no registered existing plant",
    16: "cancellation where no offer of this developer stands in this round",
    17: "a pair or a price list that is not as the question asks",
    18: "over 16 offers, lists of different lengths, or a number out of its bounds",
    19: "an offered price above the ceiling",
    20: "a call that the seat has no right to make",
}


@dataclass(frozen=True)
class Refusal:
    """A refusal: its number, and what it means."""

    number: int

    @property
    def meaning(self) -> str:
        """The refusal in words."""
        return MEANINGS.get(self.number, "no number of the reference")

    def __str__(self) -> str:
        return f"refused by {self.number}: {self.meaning}"


class Refused(Exception):
    """Raised where a call of the library is refused; `refusal` has number and meaning."""

    def __init__(self, number: int) -> None:
        self.refusal = Refusal(number)
        super().__init__(str(self.refusal))
