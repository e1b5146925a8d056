"""A developer's page: what its seat reads, its own calls, and the form of an offer."""

from __future__ import annotations

from ..live import Phase
from ..markup import element, price, quantity
from . import common
from .common import form, step_fields
from .drawing import Part, button, buttons, note, part, table
from .forms import STEPS
from .views import View
from .words import PRICE, QUANTITY


def parts(view: View) -> list[Part]:
    """The parts of the page."""
    offer = _offer(view)
    own = _own(view, whole=not offer.content)
    return [common.state(view), common.answer(view), offer, own, common.calls(view)]


def _own(view: View, whole: bool) -> Part:
    """Declared levels and the standing offer."""
    reading = view.known.reading
    if not reading.levels:
        return part("own", "Your plant", note("You are not registered yet."), whole=whole)
    levels = " · ".join(quantity(level) for level in reading.levels)
    shown: list[str] = [element("p", "Declared levels: ", element("b", levels), f" {QUANTITY}")]
    if reading.phase is Phase.ROUND:
        shown.append(element("h3", "Your standing offer"))
        if reading.offer is None:
            shown.append(element("p", "None stands in this round."))
        elif not reading.offer:
            shown.append(element("p", "You keep your whole quantity in this round."))
        else:
            rows = [(price(step.price), quantity(step.level)) for step in reading.offer]
            heads = (f"At price, {PRICE}", f"down to, {QUANTITY}")
            shown.append(table("Steps of the standing offer", heads, rows, "nn"))
    return part("own", "Your plant", *shown, whole=whole)


def _offer(view: View) -> Part:
    """The form of an offer, or of its cancellation."""
    reading = view.known.reading
    if reading.phase is not Phase.ROUND or not reading.levels:
        return Part("offer")
    if reading.offer is not None:
        given = form(view, "cancel")
        drawn = given.drawn(buttons(button("Cancel the offer")))
        words = "Cancelled, it is as if never made, and you can make another."
        return part("offer", "Your offer stands", note(words), drawn)
    given = form(view, "offer")
    levels = {
        "": "choose",
        **{str(level): quantity(level) for level in (*reversed(reading.levels), 0)},
    }
    drawn = given.drawn(
        step_fields(
            given,
            min(len(reading.levels), STEPS),
            lambda name, label: given.choice(name, label, levels, beside=False),
        ),
        buttons(
            button("Hand in the offer"),
            button("Keep my whole quantity", second=True, formaction=f"{view.place}/keep"),
        ),
    )
    hint = (
        f"Say at which prices you reduce your quantity, and down to which level: prices below"
        f" {price(reading.opening)} and not below {price(reading.closing)} {PRICE}, falling, with"
        " falling levels. A new plant that makes no offer in a round withdraws all it has; existing"
        " plants make none."
    )
    return part("offer", "Make an offer", note(hint), drawn)
