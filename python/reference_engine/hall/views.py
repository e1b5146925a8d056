"""What a seat may see: what it reads, its own calls with their replies, and looks it may take."""

from __future__ import annotations

from collections.abc import Mapping
from dataclasses import dataclass

from .. import library
from ..calls import (
    Call,
    Cancellation,
    Closing,
    Lodging,
    Offer,
    Opening,
    Registration,
    SetUp,
    Settling,
)
from ..live import CurvePoint, Preview, Settlement
from ..markup import pointed
from ..refusals import Refused
from ..session import Seat
from .forms import Typed
from .hall import Asked, Known
from .words import refused


@dataclass(frozen=True)
class View:
    """A seat with what it knows, where its forms are sent, and a form that it sent unclear."""

    seat: Seat
    known: Known
    place: str
    typed: Typed | None = None

    @property
    def latest(self) -> Asked | None:
        """The seat's latest call."""
        return self.known.asked[-1] if self.known.asked else None

    def accepted(self) -> list[Asked]:
        """The seat's accepted calls."""
        return [each for each in self.known.asked if each.reply.number == 0]

    def settlement(self) -> Settlement | None:
        """What settling gives, once a settling of this seat was accepted."""
        found = [each.call for each in self.accepted() if isinstance(each.call, Settling)]
        return self.known.session.settlement(self.seat, found[-1].limit) if found else None

    def preview(self) -> Preview | None:
        """What closing would answer, where the library tells this seat."""
        try:
            return self.known.session.preview(self.seat)
        except Refused:
            return None

    def supply_curve(self) -> tuple[CurvePoint, ...]:
        """The supply curve, where the library tells this seat."""
        try:
            return self.known.session.supply_curve(self.seat)
        except Refused:
            return ()

    # ---- forms

    def in_form(self, form: str) -> tuple[Mapping[str, str], Mapping[str, str]]:
        """What stands in a form's fields, and what is wrong with them.

        It is what was sent unclear, or the seat's latest call if that was refused and nothing was
        published since.
        """
        if self.typed and self.typed.form == form:
            return self.typed.fields, self.typed.faults
        latest = self.latest
        if not latest or not latest.reply.number or latest.published != self.known.published:
            return {}, {}
        if self.typed or form_of(latest.call) != form:
            return {}, {}
        return _fields(latest.call), self._faults(latest)

    def _faults(self, asked: Asked) -> dict[str, str]:
        field, words = refused(asked.reply)
        if field in ("price", "level") and isinstance(asked.call, (Offer, Lodging)):
            field += str(self._step_at_fault(asked.call, asked.reply_text))
        return {field: words}

    def _step_at_fault(self, call: Offer | Lodging, reply: str) -> int:
        """The first step with which the library refuses the call so."""
        for count in range(1, len(call.steps)):
            calls = self.known.session.copy().at(self.seat)
            ask = calls.offer if isinstance(call, Offer) else calls.lodge
            asked = bytes(ask(call.developer, call.steps[:count]))
            if library.session_replay(asked).split()[-1].decode("ascii") == reply:
                return count
        return max(len(call.steps), 1)


_FORMS: dict[type[Call], str] = {
    SetUp: "set_up",
    Registration: "register",
    Opening: "open",
    Offer: "offer",
    Closing: "close",
    Settling: "settle",
    Lodging: "lodge",
    Cancellation: "cancel",
}


def form_of(call: Call) -> str:
    """The form that a call comes from; none for a malformed line."""
    return _FORMS.get(type(call), "")


def _price(thousandths: int) -> str:
    return pointed(thousandths, 3, separated=False)


def _fields(call: Call) -> dict[str, str]:
    """A call as it would be typed."""
    if isinstance(call, SetUp):
        prices = {"ce": _price(call.ce), "a": _price(call.a)}
        return {**prices, "d": str(call.d), "m1": str(call.m1), "m2": str(call.m2)}
    if isinstance(call, Registration):
        numbers = {name: str(getattr(call, name)) for name in _REGISTERED}
        agent = {} if call.agent is None else {"agent": str(call.agent)}
        return {**numbers, **agent, "levels": " ".join(map(str, call.levels))}
    if isinstance(call, Opening):
        return {"c": _price(call.c)}
    if isinstance(call, Settling):
        return {"limit": str(call.limit)}
    if isinstance(call, (Offer, Lodging)):
        fields = {"developer": str(call.developer)} if isinstance(call, Lodging) else {}
        for number, step in enumerate(call.steps, 1):
            fields |= {f"price{number}": _price(step.price), f"level{number}": str(step.level)}
        return fields
    return {}


_REGISTERED = ("project", "developer", "kind", "study", "day")
