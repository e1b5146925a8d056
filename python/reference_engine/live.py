"""What a live auction shows: its state, a preview of closing, its supply curve and settlement.

The figures are the library's, in the order of include/reference_engine.h.
"""

from __future__ import annotations

import enum
from collections.abc import Sequence
from dataclasses import dataclass

from .library import signed
from .replies import Award


class Phase(enum.IntEnum):
    """The phase of an auction: READY is set up without a round yet, BETWEEN between rounds."""

    FRESH = 0
    READY = 1
    ROUND = 2
    BETWEEN = 3
    CLOSED = 4


@dataclass(frozen=True)
class State:
    """The state of an auction.

    Opening and closing price are those of the open round, or else of the latest one; the excess is
    that of the latest accepted closing. All are 0 before there is any.
    """

    phase: Phase
    opening: int
    closing: int
    excess: int
    closings: int

    @classmethod
    def of(cls, figures: Sequence[int]) -> State:
        """The state by the library's figures."""
        phase, opening, closing, excess, closings = figures
        return cls(Phase(phase), opening, closing, signed(excess), closings)


@dataclass(frozen=True)
class Preview:
    """What closing the open round now would answer, and whether it would close the auction."""

    excess: int
    remainder: int
    closes: bool

    @classmethod
    def of(cls, figures: Sequence[int]) -> Preview:
        """The preview by the library's figures."""
        excess, remainder, closes = figures
        return cls(signed(excess), remainder, closes == 1)


@dataclass(frozen=True)
class CurvePoint:
    """A withdrawal price, with total supply before and after it."""

    price: int
    before: int
    after: int


def curve_of(numbers: Sequence[int]) -> tuple[CurvePoint, ...]:
    """The points of a supply curve, by falling price."""
    return tuple(CurvePoint(*point) for point in zip(numbers[::3], numbers[1::3], numbers[2::3]))


@dataclass(frozen=True)
class Settlement:
    """What settling a closed auction gives.

    `kept` counts the covering choices that the search keeps, `short` marks the second price,
    `insufficient` participation, and the price paid is that to existing plants.
    """

    price: int
    demand: int
    remainder: int
    total: int
    choices: int
    covering: int
    kept: int
    second_price: int
    short: bool
    insufficient: bool
    price_paid: int
    awards: tuple[Award, ...]

    @classmethod
    def of(cls, settled: tuple[Sequence[int], bytes]) -> Settlement:
        """The settlement by the library's figures and award records."""
        figures, records = settled
        price, demand, remainder, total, choices, covering, kept = figures[:7]
        second_price, short, insufficient, price_paid, _ = figures[7:]
        awards = tuple(
            Award(records[at], records[at + 1], int.from_bytes(records[at + 2 : at + 6], "big"))
            for at in range(0, len(records), 6)
        )
        return cls(
            price,
            demand,
            remainder,
            total,
            choices,
            covering,
            kept,
            second_price,
            short == 1,
            insufficient == 1,
            price_paid,
            awards,
        )
