"""The parts that the pages of several seats have."""

from __future__ import annotations

from collections.abc import Callable, Mapping, Sequence

from ..live import Phase, Settlement
from ..markup import Markup, element, joined, price, quantity
from ..session import Seat
from .drawing import Form, Part, button, buttons, figures, note, part, row, table
from .views import View
from .words import PHASES, PRICE, QUANTITY, answer_in_words, call_in_words

_CALLS = 12  # latest own calls on a page


def state(view: View) -> Part:
    """The published values."""
    reading = view.known.reading
    steps = []
    for phase, (name, _) in PHASES.items():
        current = {"aria_current": "step"} if phase is reading.phase else {}
        steps.append(element("li", name, **current))
    shown: list[str] = [
        element("ol", *steps, class_="phases"),
        element("p", PHASES[reading.phase][1]),
    ]
    if reading.phase >= Phase.ROUND:
        shown.append(
            figures(
                [
                    ("Opening price of the round", price(reading.opening), PRICE),
                    ("Closing price of the round", price(reading.closing), PRICE),
                    ("Excess at the latest closing", *_excess(view)),
                ]
            )
        )
    return part("state", "Published", *shown, whole=True, said=_said(view))


def _said(view: View) -> str:
    """The published values in a sentence or two."""
    reading = view.known.reading
    words = PHASES[reading.phase][1]
    if reading.phase < Phase.ROUND:
        return words
    excess = " ".join(_excess(view)).strip()
    prices = f"from {price(reading.opening)} down to {price(reading.closing)} {PRICE}"
    return f"{words} The round goes {prices}. Excess at the latest closing: {excess}."


def _excess(view: View) -> tuple[str, str]:
    """The excess. Set-up and opening are published before the first closing; it then reads 0."""
    if view.known.published <= 2:
        return "none yet", ""
    return quantity(view.known.reading.excess), QUANTITY


def answer(view: View) -> Part:
    """The seat's latest call, and what it was answered."""
    if view.typed:
        faults = element(
            "p",
            element("b", "Not sent"),
            " ".join(view.typed.faults.values()),
            class_="answer refused",
        )
        return part("answer", "Your latest call", faults, whole=True)
    latest = view.latest
    if latest is None:
        return Part("answer", whole=True)
    looks = "answer refused" if latest.reply.number else "answer"
    words = element(
        "p", element("b", call_in_words(latest.call)), answer_in_words(latest.reply), class_=looks
    )
    said = f"{call_in_words(latest.call)}. {answer_in_words(latest.reply)}"
    return part("answer", "Your latest call", words, whole=True, said=said)


def calls(view: View) -> Part:
    """The seat's calls, the latest first."""
    asked = view.known.asked
    if len(asked) < 2:
        return Part("calls", whole=True)
    first = max(len(asked) - _CALLS, 0)
    rows = []
    for number in range(len(asked), first, -1):
        each = asked[number - 1]
        looks = "refused" if each.reply.number else "accepted"
        answered = element("span", answer_in_words(each.reply), class_=looks)
        rows.append((quantity(number), call_in_words(each.call), answered))
    heads = ("", "Call", "Answer")
    shown: list[str] = [table("Your calls and their answers", heads, rows, "n--")]
    if first:
        shown.append(note(f"The latest {_CALLS} of {quantity(len(asked))} calls."))
    return part("calls", "Your calls", *shown, whole=True)


def form(view: View, name: str) -> Form:
    """A form of the page, filled as the view says."""
    values, faults = view.in_form(name)
    return Form(name, f"{view.place}/{name}", values, faults)


def step_fields(given: Form, count: int, level: Callable[[str, str], Markup]) -> Markup:
    """The fields of so many steps; `level` draws the field of a level by name and label.

    What is wrong with a step stands below it.
    """
    rows = []
    for number in range(1, count + 1):
        names = f"price{number}", f"level{number}"
        fields = (
            element("b", f"Step {number}"),
            given.field(names[0], f"at price, {PRICE}", "decimal", beside=False),
            level(names[1], f"down to, {QUANTITY}"),
            *map(given.fault, names),
        )
        described = {"role": "group", "aria_label": f"Step {number}"}
        rows.append(element("div", *fields, class_="row step", **described))
    return joined(*rows)


def settling(view: View) -> Part:
    """The form that settles the closed auction."""
    if view.known.reading.phase is not Phase.CLOSED:
        return Part("settle", whole=True)
    given = form(view, "settle")
    drawn = given.drawn(
        row(given.field("limit", "Most admissible choices", value="65536")),
        buttons(button("Settle")),
    )
    return part("settle", "Settle the auction", drawn, whole=True)


def settlement(view: View, names: Mapping[Seat, str]) -> Part:
    """What settling answered this seat, with names where the seat has the class list."""
    found = view.settlement()
    if found is None:
        return Part("settlement", whole=True)
    return part("settlement", "Settlement", _settled(found), _awards(found, names), whole=True)


def _settled(found: Settlement) -> Markup:
    short = ", marked short" if found.short else ""
    participation = "insufficient" if found.insufficient else "sufficient"
    return figures(
        [
            ("Closing price", price(found.price), PRICE),
            ("Second price, for new plants", price(found.second_price), f"{PRICE}{short}"),
            ("Paid to existing plants", price(found.price_paid), PRICE),
            ("Demand at that price", quantity(found.demand), QUANTITY),
            ("Award's total", quantity(found.total), QUANTITY),
            ("Participation", participation, ""),
            ("Admissible choices", quantity(found.choices), ""),
            ("Covering choices", quantity(found.covering), ""),
            ("Choices kept by search", quantity(found.kept), ""),
        ]
    )


def _awards(found: Settlement, names: Mapping[Seat, str]) -> Markup:
    if not found.awards:
        return note("Nothing is awarded.")
    heads: Sequence[str] = ("Project", "Developer", f"Award, {QUANTITY}")
    rows = [
        (
            quantity(each.project),
            with_name(each.developer, names),
            quantity(each.quantity),
        )
        for each in found.awards
    ]
    return joined(element("h3", "Award"), table("Award by project", heads, rows, "n-n"))


def with_name(developer: int, names: Mapping[Seat, str]) -> str:
    """A developer's number, with the name where it is known."""
    name = names.get(Seat.developer(developer), "")
    return f"{developer}, {name}" if name else str(developer)
