"""The calls of a record: what each line asks, field by field, where the library can read it."""

from __future__ import annotations

from dataclasses import dataclass
from typing import Union


@dataclass(frozen=True)
class Step:
    """A step of an offer or of a lodged list: at a price, down to a level."""

    price: int
    level: int


@dataclass(frozen=True)
class SetUp:
    """Frame 01: entrant's cost, target demand, margins, opening price."""

    ce: int
    d: int
    m1: int
    m2: int
    a: int


@dataclass(frozen=True)
class Registration:
    """Frame 02, or 08 where the agent is named."""

    project: int
    developer: int
    kind: int
    agent: int | None
    study: int
    day: int
    levels: tuple[int, ...]


@dataclass(frozen=True)
class Opening:
    """Frame 03: a round down to the closing price C."""

    c: int


@dataclass(frozen=True)
class Offer:
    """Frame 04."""

    developer: int
    steps: tuple[Step, ...]


@dataclass(frozen=True)
class Closing:
    """Frame 05."""


@dataclass(frozen=True)
class Settling:
    """Frame 06, with its limit on admissible choices."""

    limit: int


@dataclass(frozen=True)
class Lodging:
    """Frame 07: an existing plant's withdrawal list."""

    developer: int
    steps: tuple[Step, ...]


@dataclass(frozen=True)
class Cancellation:
    """Frame 09."""

    developer: int


@dataclass(frozen=True)
class Malformed:
    """A line that the library cannot read."""

    text: bytes


Call = Union[
    SetUp, Registration, Opening, Offer, Closing, Settling, Lodging, Cancellation, Malformed
]

#: The name of each kind of plant.
KINDS: dict[int, str] = {1: "existing", 2: "new"}

#: The name of each frame kind; FF is a malformed line.
NAMES: dict[int, str] = {
    0x01: "set-up",
    0x02: "registration",
    0x03: "opening",
    0x04: "offer",
    0x05: "close",
    0x06: "settling",
    0x07: "lodging",
    0x08: "registration with agent",
    0x09: "cancellation",
    0xFF: "malformed line",
}

# Fixed fields of each kind in hexadecimal digits, behind the kind (docs/FORMAT.md).
_WIDTHS: dict[int, tuple[int, ...]] = {
    0x01: (8, 10, 10, 10, 8),
    0x02: (2, 2, 2, 8, 8, 2),
    0x03: (8,),
    0x04: (2, 2),
    0x05: (),
    0x06: (8,),
    0x07: (2, 2),
    0x08: (2, 2, 2, 2, 8, 8, 2),
    0x09: (2,),
}


def call_in(line: bytes, kind: int) -> Call:
    """What a line asks, by the kind of the library's reply: a line answered FF is malformed."""
    if kind == 0xFF:
        return Malformed(line)
    fields: list[int] = []
    at = 2
    for width in _WIDTHS[kind]:
        fields.append(int(line[at : at + width], 16))
        at += width
    words = [int(line[place : place + 8], 16) for place in range(at, len(line), 8)]
    steps = tuple(Step(*pair) for pair in zip(words[::2], words[1::2]))
    if kind == 0x01:
        return SetUp(*fields)
    if kind in (0x02, 0x08):
        project, developer, plant, *agent, study, day, _ = fields
        named = agent[0] if agent else None
        return Registration(project, developer, plant, named, study, day, tuple(words))
    if kind == 0x03:
        return Opening(*fields)
    if kind == 0x04:
        return Offer(fields[0], steps)
    if kind == 0x05:
        return Closing()
    if kind == 0x06:
        return Settling(*fields)
    if kind == 0x07:
        return Lodging(fields[0], steps)
    return Cancellation(*fields)
