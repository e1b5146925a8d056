"""The record of an auction: built call by call by the library's writers, or read from a file."""

from __future__ import annotations

from collections.abc import Iterable
from dataclasses import dataclass
from typing import SupportsIndex

from . import library
from .calls import Call, call_in
from .library import Forced, whole
from .lines import Bytes, Lines
from .live import CurvePoint, Phase, Preview, Settlement, State, curve_of
from .replies import Reply
from .writing import Calls


@dataclass(frozen=True)
class Line:
    """A line of a record, counted from 1: its bytes, what it asks, and the reply to it."""

    number: int
    text: bytes
    call: Call
    reply: Reply
    reply_text: str


class Record(Lines, Calls["Record"]):
    """The calls of an auction, one frame a line. A method that adds a call returns the record."""

    def _add(self, frame: bytes) -> Record:
        self._append(frame)
        return self

    def lines(self) -> list[Line]:
        """Each line with what it asks and its reply; an empty rest behind the last 0A is none."""
        return [
            Line(number, text, call_in(text, reply.kind), reply, reply_text)
            for number, (text, reply_text, reply) in enumerate(self._replied(), 1)
        ]

    def _replayed(self) -> bytes:
        return library.replies_to(bytes(self))

    def _phase(self) -> Phase:
        return self.state().phase

    # ---- a live auction: what the calls so far leave behind

    def state(self) -> State:
        """The auction's state."""
        return State.of(library.record_state(bytes(self)))

    def preview(self) -> Preview:
        """What closing the open round now would answer. Raises Refused(2): no round is open."""
        return Preview.of(library.record_preview(bytes(self)))

    def supply_curve(self) -> tuple[CurvePoint, ...]:
        """The withdrawal prices up to the latest closing, falling, with the supply at each."""
        return curve_of(library.record_curve(bytes(self)))

    def settlement(self, limit: SupportsIndex = 65_536) -> Settlement:
        """What settling gives; `settle` adds the call. Raises Refused(2), (10)."""
        return Settlement.of(library.record_settlement(bytes(self), whole("limit", limit)))


def as_record(record: Record | Bytes) -> Record:
    """The record itself, or that of these bytes. Raises TypeError for all else."""
    return record if isinstance(record, Record) else Record(record)


def replay(record: Record | Bytes) -> list[Reply]:
    """The replies to a record, one a line."""
    return as_record(record).replies()


def who_can_force(
    record: Record | Bytes,
    first: SupportsIndex,
    second: SupportsIndex,
    prices: Iterable[SupportsIndex],
) -> Forced:
    """Who can force the price in the auction that a record leaves. Raises Refused(2), (17)."""
    return library.forced(bytes(as_record(record)), first, second, prices)
