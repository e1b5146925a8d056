"""What happened in an auction: its record's lines and replies by rounds, and what they leave."""

from __future__ import annotations

from dataclasses import dataclass, field

from . import library
from .calls import Opening, Registration, SetUp
from .library import Engine
from .lines import Bytes
from .live import CurvePoint, Phase, Preview, Settlement, State
from .mending import mended
from .record import Line, Record, as_record
from .replies import Closed, Settled


@dataclass
class Round:
    """A round that was opened: its prices, the accepted lines in it, and, once closed, its figures.

    Supply is the excess plus Dem(C), both the library's. `ended` says whether closing the round
    ended the auction.
    """

    number: int
    opening: int
    c: int
    opened: Line
    moves: list[Line] = field(default_factory=list)
    closed: Line | None = None
    excess: int | None = None
    demand: int | None = None
    remainder: int | None = None
    supply: int | None = None
    ended: bool | None = None


@dataclass
class Auction:
    """An auction as its record tells it, with what the library says of all of the record.

    `preview` is there while a round is open, and `settlement` where a settling was accepted: a
    closed auction never changes, so all of its settlings have the same figures. `faults` says in
    words what is wrong with the record's bytes and can be mended, and `mended` is the record
    without that.
    """

    lines: list[Line]
    engine: Engine
    record_sha256: str
    mended: bytes
    faults: list[str]
    state: State
    curve: tuple[CurvePoint, ...]
    preview: Preview | None
    settlement: Settlement | None
    settings: SetUp | None = None
    registrations: list[Line] = field(default_factory=list)
    lodgings: list[Line] = field(default_factory=list)
    rounds: list[Round] = field(default_factory=list)
    settled: list[Line] = field(default_factory=list)
    refused: list[Line] = field(default_factory=list)

    def registration_of(self, developer: int) -> Registration | None:
        """The accepted registration of a developer."""
        for line in self.registrations:
            if isinstance(line.call, Registration) and line.call.developer == developer:
                return line.call
        return None

    @property
    def source(self) -> dict[str, str]:
        """What the auction's figures are traced to, by name."""
        return {**self.engine.source, "record SHA-256": self.record_sha256}

    @property
    def settling_failed(self) -> bool:
        """Whether settling was asked for, if only by a malformed line, and none was made."""
        return not self.settled and any(map(_asks_settling, self.lines))

    @property
    def trouble(self) -> str:
        """Why no line was accepted, or no settling made that was asked for; else empty."""
        if not self.lines:
            return "the record has no line"
        if len(self.refused) < len(self.lines) and not self.settling_failed:
            return ""
        what = "not settled" if len(self.refused) < len(self.lines) else "no line was accepted"
        first = self.refused[0]
        settlings = [line for line in self.refused if line.reply.kind == 0x06]
        said = [f"line {first.number} was {first.reply.refusal}"]
        if settlings and settlings[-1].reply != first.reply:
            last = settlings[-1]
            said.append(f"settling on line {last.number} was {last.reply.refusal}")
        if self.mended.split(b"\n")[first.number - 1 : first.number] != [first.text]:
            said = []  # what is wrong with the line is among the faults
        return f"{what}: {'; '.join([*said, *self.faults])}"

    def demand_at(self, price: int) -> int:
        """Dem(price) with the auction's settings, by the library. Raises Refused(1), ValueError."""
        if self.settings is None:
            raise ValueError("the record has no accepted set-up")
        known = self.settings
        return library.demand(known.ce, known.d, known.m1, known.m2, price)


def read_auction(record: Record | Bytes) -> Auction:
    """The auction of a record, whatever bytes it holds."""
    record = as_record(record)
    lines, content, state = record.lines(), bytes(record), record.state()
    settled = [line for line in lines if isinstance(line.reply, Settled)]
    auction = Auction(
        lines,
        library.engine(),
        library.sha256(content),
        *mended(content),
        state,
        record.supply_curve(),
        record.preview() if state.phase is Phase.ROUND else None,
        record.settlement() if settled else None,
        settled=settled,
    )
    for line in lines:
        enter(auction, line)
    return auction


def _asks_settling(line: Line) -> bool:
    """Whether a line is a settling, or begins like one and is malformed."""
    return line.reply.kind == 0x06 or line.text.replace(b"\0", b"").startswith(b"06")


def enter(auction: Auction, line: Line) -> None:
    """Enters an accepted line where it belongs, a refused one among the refused."""
    call, reply = line.call, line.reply
    if reply.refusal:
        auction.refused.append(line)
    elif isinstance(call, SetUp):
        auction.settings = call
    elif isinstance(call, Registration):
        auction.registrations.append(line)
    elif isinstance(call, Opening):
        auction.rounds.append(_opened(auction, line, call))
    elif isinstance(reply, Closed):
        _close(auction, line, reply)
    elif reply.kind == 0x07:
        auction.lodgings.append(line)
    elif not isinstance(reply, Settled):
        auction.rounds[-1].moves.append(line)


def _opened(auction: Auction, line: Line, call: Opening) -> Round:
    """A round opens at A, or at the C before; both stand in the record."""
    assert auction.settings is not None, "the library opens no round before set-up"
    before = auction.rounds[-1].c if auction.rounds else auction.settings.a
    return Round(len(auction.rounds) + 1, before, call.c, line)


def _close(auction: Auction, line: Line, reply: Closed) -> None:
    now = auction.rounds[-1]
    now.closed = line
    now.excess = reply.excess
    now.remainder = reply.remainder
    now.demand = auction.demand_at(now.c)
    now.supply = reply.excess + now.demand
    now.ended = reply.ended
