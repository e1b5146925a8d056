"""A session: the calls that the seats of an auction hall make, one line each (docs/FORMAT.md)."""

from __future__ import annotations

from collections.abc import Iterable
from dataclasses import dataclass
from typing import SupportsIndex

from . import library
from .calls import Call, Malformed, Step, call_in
from .library import Forced, signed, whole
from .lines import Bytes, Lines
from .live import CurvePoint, Phase, Preview, Settlement, curve_of
from .record import Record
from .replies import Reply
from .writing import Calls

_DEVELOPER = 2
_KINDS = {0: "auctioneer", 1: "auditor", _DEVELOPER: "developer"}
_SEAT = 4  # digits of a seat, with which a line begins


@dataclass(frozen=True)
class Seat:
    """A seat: its kind (0 auctioneer, 1 auditor, 2 developer), and 0 or the developer's number.

    Any other numbers are no seat, which the library refuses by 20.
    """

    kind: int
    number: int = 0

    def __post_init__(self) -> None:
        object.__setattr__(self, "kind", whole("kind", self.kind))
        object.__setattr__(self, "number", whole("number", self.number))

    @classmethod
    def developer(cls, number: SupportsIndex) -> Seat:
        """The seat of a developer."""
        return cls(_DEVELOPER, whole("number", number))

    def __str__(self) -> str:
        if self.kind == _DEVELOPER:
            return f"developer {self.number}"
        if self.kind in _KINDS and self.number == 0:
            return _KINDS[self.kind]
        return f"no seat (kind {self.kind}, number {self.number})"


AUCTIONEER, AUDITOR = Seat(0), Seat(1)


def _numbers(seat: Seat) -> tuple[int, int]:
    if not isinstance(seat, Seat):
        raise TypeError(f"seat must be a Seat, not {type(seat).__name__}")
    return seat.kind, seat.number


@dataclass(frozen=True)
class Reading:
    """What a seat reads: the published values, and of a developer its own levels and offer.

    The prices are those of the open round, or else of the latest one, and the excess that of the
    latest closing; 0 before there is any. `levels` is None for a seat that is no developer's, and
    `offer` where no offer of the developer stands. `numbers` are all of these as the library gives
    them.
    """

    opening: int
    closing: int
    excess: int
    phase: Phase
    levels: tuple[int, ...] | None
    offer: tuple[Step, ...] | None
    numbers: tuple[int, ...]

    @classmethod
    def of(cls, numbers: tuple[int, ...]) -> Reading:
        """The reading by the library's numbers."""
        opening, closing, excess, phase, *own = numbers
        levels, offer = None, None
        if own:
            count = own[0]
            levels = tuple(own[1 : 1 + count])
            stands, _, *steps = own[1 + count :]
            if stands:
                offer = tuple(Step(*step) for step in zip(steps[::2], steps[1::2]))
        return cls(opening, closing, signed(excess), Phase(phase), levels, offer, numbers)


@dataclass(frozen=True)
class SessionLine:
    """A line of a session, counted from 1: its seat, bytes, what it asks, and the reply to it.

    Of a malformed line the seat is None.
    """

    number: int
    seat: Seat | None
    text: bytes
    call: Call
    reply: Reply
    reply_text: str


class Session(Lines):
    """Calls through seats, one line each.

    Every question is asked through a seat; one that has no right to it raises Refused(20) first.
    """

    # ---- lines added

    def at(self, seat: Seat) -> SeatCalls:
        """The calls of a seat: each adds a line, also where the seat has no right to the call."""
        return SeatCalls(self, seat)

    def append(self, seat: Seat, frame: Bytes) -> Session:
        """Adds a line of the seat with a frame of any bytes, with its 0A or without.

        Raises ValueError where these are several lines, Refused(14) where no line names the seat.
        """
        digits = library.write_seat(*_numbers(seat))
        if not isinstance(frame, (bytes, bytearray, memoryview)):
            raise TypeError(f"a frame is made of bytes, not {type(frame).__name__}")
        line = bytes(frame).removesuffix(b"\n")
        if b"\n" in line:
            raise ValueError("a frame is one line, with no 0A in it")
        self._append(digits + line + b"\n")
        return self

    # ---- replies

    def lines(self) -> list[SessionLine]:
        """Each line with its seat, what it asks and its reply."""
        return [
            _line(number, text, reply, reply_text)
            for number, (text, reply_text, reply) in enumerate(self._replied(), 1)
        ]

    def _replayed(self) -> bytes:
        return library.session_replay(bytes(self))

    def _phase(self) -> Phase:
        return self.reading(AUCTIONEER).phase

    def record(self) -> Record:
        """The plain record: the frames of all lines but malformed ones and those refused by 20."""
        return Record(library.session_record(bytes(self)))

    # ---- what a seat sees behind the last line

    def reading(self, seat: Seat) -> Reading:
        """What a seat reads. Raises Refused(20) where there is no such seat."""
        return Reading.of(library.session_reading(bytes(self), *_numbers(seat)))

    def preview(self, seat: Seat) -> Preview:
        """What closing would answer, for the auctioneer. Raises Refused(20), (2)."""
        return Preview.of(library.session_preview(bytes(self), *_numbers(seat)))

    def supply_curve(self, seat: Seat) -> tuple[CurvePoint, ...]:
        """The supply curve, for the auctioneer. Raises Refused(20)."""
        return curve_of(library.session_curve(bytes(self), *_numbers(seat)))

    def settlement(self, seat: Seat, limit: SupportsIndex = 65_536) -> Settlement:
        """What settling gives, for auctioneer and auditor. Raises Refused(20), (2), (10)."""
        numbers = *_numbers(seat), whole("limit", limit)
        return Settlement.of(library.session_settlement(bytes(self), *numbers))

    def who_can_force(
        self,
        seat: Seat,
        first: SupportsIndex,
        second: SupportsIndex,
        prices: Iterable[SupportsIndex],
    ) -> Forced:
        """Who can force the price, for the auctioneer. Raises Refused(20), (2), (17)."""
        return library.session_forcing(bytes(self), *_numbers(seat), first, second, prices)


class SeatCalls(Calls[Session]):
    """The calls of one seat of a session; each adds a line and returns the session."""

    def __init__(self, session: Session, seat: Seat) -> None:
        _numbers(seat)
        self._session, self._seat = session, seat

    def _add(self, frame: bytes) -> Session:
        return self._session.append(self._seat, frame)


def _line(number: int, text: bytes, reply: Reply, reply_text: str) -> SessionLine:
    if reply.kind == 0xFF:
        return SessionLine(number, None, text, Malformed(text), reply, reply_text)
    seat = Seat(int(text[:2], 16), int(text[2:_SEAT], 16))
    call = call_in(text[_SEAT:], reply.kind)
    return SessionLine(number, seat, text, call, reply, reply_text)
