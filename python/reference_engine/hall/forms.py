"""What people type into the forms, as lines of their seat; what is unclear is said by field."""

from __future__ import annotations

import re
from collections.abc import Callable, Mapping
from dataclasses import dataclass

from ..calls import KINDS
from ..refusals import Refused
from ..session import Seat, SeatCalls, Session
from .roster import Plant

#: Steps of an offer or a lodged list that a form takes.
STEPS = 8

_PRICE = re.compile(r"([0-9]{1,7})(?:\.([0-9]{1,3}))?")
_WHOLE = re.compile(r"[0-9]{1,12}|[0-9]{1,3}(?:,[0-9]{3}){1,3}")

Fields = Mapping[str, str]


class Unclear(Exception):
    """What was typed is no call; `faults` says why, by field ("" is the whole form)."""

    def __init__(self, faults: Mapping[str, str]) -> None:
        super().__init__("; ".join(faults.values()))
        self.faults = dict(faults)


@dataclass(frozen=True)
class Typed:
    """A form as it was sent, with what is wrong with it."""

    form: str
    fields: Fields
    faults: Mapping[str, str]


class _Reader:
    """Reads the fields of a form, and keeps what is unclear until all are read."""

    def __init__(self, fields: Fields) -> None:
        self._fields = fields
        self.faults: dict[str, str] = {}

    def text(self, name: str) -> str:
        return self._fields.get(name, "").strip()

    def price(self, name: str) -> int:
        """A price in US$ per MWh, as thousandths. A comma is unclear: some write it as a point."""
        found = _PRICE.fullmatch(self.text(name))
        if not found:
            return self._unclear(
                name,
                "Write a price in US$ per MWh such as 26.5, with a point, no comma and at most"
                " three digits behind the point.",
            )
        return int(found[1]) * 1_000 + int((found[2] or "").ljust(3, "0"))

    def whole(self, name: str, absent: int | None = None) -> int:
        """A whole number; commas between thousands are as the pages show them."""
        text = self.text(name)
        if not text and absent is not None:
            return absent
        if not _WHOLE.fullmatch(text):
            return self._unclear(name, "Write a whole number, such as 250000 or 250,000.")
        return int(text.replace(",", ""))

    def wholes(self, name: str) -> list[int]:
        """Whole numbers between blanks or semicolons."""
        texts = self.text(name).replace(";", " ").split()
        if not texts or not all(_WHOLE.fullmatch(text) for text in texts):
            return [
                self._unclear(name, "Write whole numbers with blanks between, such as 100 200.")
            ]
        return [int(text.replace(",", "")) for text in texts]

    def prices(self, name: str) -> list[int]:
        """Prices between blanks or semicolons."""
        texts = self.text(name).replace(";", " ").split()
        found = [_PRICE.fullmatch(text) for text in texts]
        if not texts or not all(found):
            return [self._unclear(name, "Write prices with blanks between, such as 24 22.5 20.")]
        return [int(each[1]) * 1_000 + int((each[2] or "").ljust(3, "0")) for each in found if each]

    def steps(self) -> list[tuple[int, int]]:
        """The steps whose price or level is filled in."""
        steps = []
        for number in range(1, STEPS + 1):
            names = f"price{number}", f"level{number}"
            if any(self.text(name) for name in names):
                steps.append((self.price(names[0]), self.whole(names[1])))
        return steps

    def _unclear(self, name: str, words: str) -> int:
        self.faults[name] = words
        return 0


def _set_up(calls: SeatCalls, seat: Seat, read: _Reader) -> Callable[[], Session]:
    a, ce = read.price("a"), read.price("ce")
    d, m1, m2 = read.whole("d"), read.whole("m1"), read.whole("m2")
    return lambda: calls.set_up(ce, d, m1, m2, a)


def _register(calls: SeatCalls, seat: Seat, read: _Reader) -> Callable[[], Session]:
    project, developer = read.whole("project"), read.whole("developer")
    kind, levels = read.whole("kind"), read.wholes("levels")
    study, day = read.whole("study", 0), read.whole("day", 0)
    agent = read.whole("agent") if read.text("agent") else None
    return lambda: calls.register(project, developer, kind, levels, study, day, agent)


def _lodge(calls: SeatCalls, seat: Seat, read: _Reader) -> Callable[[], Session]:
    developer, steps = read.whole("developer"), read.steps()
    return lambda: calls.lodge(developer, steps)


def _open(calls: SeatCalls, seat: Seat, read: _Reader) -> Callable[[], Session]:
    c = read.price("c")
    return lambda: calls.open(c)


def _close(calls: SeatCalls, seat: Seat, read: _Reader) -> Callable[[], Session]:
    return calls.close


def _settle(calls: SeatCalls, seat: Seat, read: _Reader) -> Callable[[], Session]:
    limit = read.whole("limit", 65_536)
    return lambda: calls.settle(limit)


def _offer(calls: SeatCalls, seat: Seat, read: _Reader) -> Callable[[], Session]:
    developer, steps = read.whole("developer", seat.number), read.steps()
    if not steps and not read.faults:
        read.faults["price1"] = "Fill in a step, or keep the whole quantity by the other button."
    return lambda: calls.offer(developer, steps)


def _keep(calls: SeatCalls, seat: Seat, read: _Reader) -> Callable[[], Session]:
    developer = read.whole("developer", seat.number)
    return lambda: calls.offer(developer, [])


def _cancel(calls: SeatCalls, seat: Seat, read: _Reader) -> Callable[[], Session]:
    developer = read.whole("developer", seat.number)
    return lambda: calls.cancel(developer)


#: The forms by which a seat calls. Whether it may is the library's answer (refusal 20).
_FORMS: dict[str, Callable[[SeatCalls, Seat, _Reader], Callable[[], Session]]] = {
    "set_up": _set_up,
    "register": _register,
    "lodge": _lodge,
    "open": _open,
    "close": _close,
    "settle": _settle,
    "offer": _offer,
    "keep": _keep,
    "cancel": _cancel,
}
FORMS = frozenset(_FORMS)


def line_of(form: str, seat: Seat, fields: Fields) -> bytes:
    """The line of the seat that a form asks, as the library writes it. Raises Unclear."""
    read = _Reader(fields)
    write = _FORMS[form](Session().at(seat), seat, read)
    if read.faults:
        raise Unclear(read.faults)
    try:
        return bytes(write())
    except (ValueError, Refused):  # a number beyond its field, or a line that is too long
        raise Unclear(
            {"": "A number is larger than a call can say, or there are too many."}
        ) from None


def line_of_plant(seat: Seat, developer: int, plant: Plant) -> bytes:
    """The line by which the seat registers a plant of the class list."""
    calls = Session().at(seat)
    return bytes(
        calls.register(
            plant.project, developer, plant.kind, plant.levels, plant.study, plant.day, plant.agent
        )
    )


@dataclass(frozen=True)
class Game:
    """The question who can force the price."""

    first: int
    second: int
    prices: tuple[int, ...]


def game_of(fields: Fields) -> Game:
    """The question that a form asks. Raises Unclear."""
    read = _Reader(fields)
    game = Game(read.whole("first"), read.whole("second"), tuple(read.prices("prices")))
    if read.faults:
        raise Unclear(read.faults)
    return game


#: Kinds of plant as a form offers them.
PLANTS = {str(number): words for number, words in KINDS.items()}
