"""Replies as values with named fields, and a reply's text read field by field (docs/FORMAT.md)."""

from __future__ import annotations

from dataclasses import dataclass, field
from functools import lru_cache

from .refusals import Refusal

_DIGITS = frozenset("0123456789ABCDEF")


@dataclass(frozen=True)
class Reply:
    """A reply: the frame's kind (FF for a malformed line), and 0 or the refusal's number."""

    kind: int
    number: int

    @property
    def refusal(self) -> Refusal | None:
        """The refusal, or None where the call is accepted."""
        return Refusal(self.number) if self.number else None

    @property
    def ended(self) -> bool | None:
        """Whether this call ended the auction; None where the reply's bytes alone are known."""
        return False


@dataclass(frozen=True)
class Closed(Reply):
    """An accepted closing: supply less Dem(C), the remainder of Dem(C), and what the bytes lack."""

    excess: int
    remainder: int
    ended: bool | None = field(default=None, compare=False)


@dataclass(frozen=True)
class Award:
    """What a developer of a project is awarded."""

    project: int
    developer: int
    quantity: int


@dataclass(frozen=True)
class Settled(Reply):
    """An accepted settling; its figures have the names of live.Settlement."""

    price: int
    demand: int
    total: int
    choices: int
    covering: int
    awards: tuple[Award, ...]
    remainder: int
    second_price: int
    short: bool
    insufficient: bool
    price_paid: int


class _Fields:
    """Reads fields of hexadecimal digits, one behind the other."""

    def __init__(self, text: str) -> None:
        self.rest = text

    def number(self, digits: int) -> int:
        field, self.rest = self.rest[:digits], self.rest[digits:]
        if len(field) < digits or not _DIGITS.issuperset(field):
            raise ValueError("not the digits of a reply")
        return int(field, 16)

    def mark(self) -> bool:
        number = self.number(2)
        if number > 1:
            raise ValueError(f"a mark of {number:02X}")
        return number == 1


@lru_cache(maxsize=1_024)  # a long record has few different replies
def reply_in(text: str) -> Reply:
    """The reply that a line says. Raises ValueError where it is none."""
    fields = _Fields(text)
    reply = _reply(fields)
    if fields.rest:
        raise ValueError("more digits than the reply has")
    return reply


def _reply(fields: _Fields) -> Reply:
    kind, number = fields.number(2), fields.number(2)
    if number == 0 and kind == 0x05:
        excess = fields.number(16)
        excess -= 2**64 if excess >= 2**63 else 0
        return Closed(kind, number, excess, fields.number(8))
    if number == 0 and kind == 0x06:
        price, demand, total, choices, covering = map(fields.number, (8, 10, 10, 8, 8))
        awards = tuple(
            Award(fields.number(2), fields.number(2), fields.number(8))
            for _ in range(fields.number(2))
        )
        return Settled(
            kind,
            number,
            price,
            demand,
            total,
            choices,
            covering,
            awards,
            fields.number(8),
            fields.number(8),
            fields.mark(),
            fields.mark(),
            fields.number(8),
        )
    return Reply(kind, number)
