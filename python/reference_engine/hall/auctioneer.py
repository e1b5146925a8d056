"""The auctioneer's page: set-up, registrations, rounds and their looks, settling, and seats."""

from __future__ import annotations

from collections.abc import Mapping, Sequence

from .. import library
from ..auction import Auction, enter
from ..calls import KINDS, Lodging, Registration
from ..figures import BROAD, NARROW, demand_and_supply
from ..live import Phase, State
from ..markup import Markup, element, joined, price, quantity
from ..record import Line
from ..refusals import Refused
from ..session import AUCTIONEER, Seat
from . import common
from .common import form, step_fields, with_name
from .drawing import Form, Part, button, buttons, figures, note, part, row, table
from .forms import PLANTS, STEPS, Game
from .seats import Seated
from .views import View
from .words import PRICE, QUANTITY, step_in_words


def parts(view: View, seated: Sequence[Seated], game: Game | None) -> list[Part]:
    """The parts of the page; `game` is a question who can force the price."""
    names = {each.seat: each.name for each in seated}
    return [
        common.state(view),
        common.answer(view),
        _set_up(view),
        _listed(view, seated),
        _register(view),
        _opening(view),
        _lodge(view),
        _closing(view),
        common.settling(view),
        _forcing(view, game),
        common.settlement(view, names),
        _curve(view),
        _plants(view, names),
        _seats(view, seated),
        common.calls(view),
    ]


# ---- set-up and registrations


def _set_up(view: View) -> Part:
    if view.known.reading.phase is not Phase.FRESH:
        return Part("set_up", whole=True)
    given = form(view, "set_up")
    drawn = given.drawn(
        given.group(
            "settings",
            "Settings",
            row(
                given.field("ce", f"CE, the entrant's cost, {PRICE}", "decimal"),
                given.field("a", f"A, the opening price, {PRICE}", "decimal"),
            ),
            row(
                given.field("m1", f"M1, lower margin, {QUANTITY}"),
                given.field("d", f"D, target demand, {QUANTITY}"),
                given.field("m2", f"M2, upper margin, {QUANTITY}"),
            ),
        ),
        buttons(button("Set the auction up")),
    )
    return part("set_up", "Set the auction up", drawn, whole=True)


def unregistered(view: View, seated: Sequence[Seated]) -> list[Seated]:
    """The seats whose plant the class list names and no accepted registration of this seat has."""
    done = {each.developer for each in _registrations(view)}
    return [each for each in seated if each.plant and each.seat.number not in done]


def _registrations(view: View) -> list[Registration]:
    return [each.call for each in view.accepted() if isinstance(each.call, Registration)]


def _listed(view: View, seated: Sequence[Seated]) -> Part:
    """The plants of the class list that are still to be registered."""
    waiting = unregistered(view, seated)
    if view.known.reading.phase is not Phase.READY or not waiting:
        return Part("listed", whole=True)
    rows = [
        (
            with_name(each.seat.number, {each.seat: each.name}),
            *_plant(each.plant.project, each.plant.kind, each.plant.levels),
        )
        for each in waiting
        if each.plant
    ]
    heads = ("Developer", "Project", "Plant", f"Levels, {QUANTITY}")
    given = Form("listed", f"{view.place}/listed", {}, {})
    words = f"Register {'all' if len(waiting) > 1 else 'it'}"
    return part(
        "listed",
        "Plants of the class list",
        table("Plants to be registered", heads, rows, "-n-n"),
        given.drawn(buttons(button(words))),
        whole=True,
    )


def _plant(project: int, kind: int, levels: Sequence[int]) -> tuple[str, str, str]:
    return quantity(project), KINDS.get(kind, str(kind)), " · ".join(map(quantity, levels))


def _register(view: View) -> Part:
    if view.known.reading.phase is not Phase.READY:
        return Part("register")
    given = form(view, "register")
    drawn = given.drawn(
        given.group(
            "numbers",
            "Numbers, 1 to 32",
            row(
                given.field("project", "Project"),
                given.field("developer", "Developer"),
                given.field("agent", "Agent, if another"),
            ),
        ),
        given.group(
            "plant",
            "Plant",
            row(
                given.choice("kind", "Kind", PLANTS),
                given.field("levels", f"Levels, rising, {QUANTITY}", "text"),
            ),
            row(given.field("study", "Study value"), given.field("day", "Start day")),
        ),
        buttons(button("Register")),
    )
    return part("register", "Register a plant", drawn)


def _lodge(view: View) -> Part:
    existing = [each for each in _registrations(view) if each.kind == 1]
    if view.known.reading.phase is not Phase.READY or not existing:
        return Part("lodge")
    given = form(view, "lodge")
    steps = max(len(each.levels) for each in existing)
    drawn = given.drawn(
        row(given.field("developer", "Developer")),
        step_fields(
            given, min(steps, STEPS), lambda name, label: given.field(name, label, beside=False)
        ),
        buttons(button("Lodge the list")),
    )
    words = "Existing plants may lodge withdrawals for later. A list replaces the one before."
    return part("lodge", "Lodge a list", note(words), drawn)


def _plants(view: View, names: Mapping[Seat, str]) -> Part:
    """The registrations and lodgings that this seat made."""
    lodged = {
        each.call.developer: each.call.steps
        for each in view.accepted()
        if isinstance(each.call, Lodging)
    }
    rows: list[Sequence[str]] = [
        (
            with_name(each.developer, names),
            *_plant(each.project, each.kind, each.levels),
            quantity(each.study),
            quantity(each.day),
            quantity(each.developer if each.agent is None else each.agent),
            "; ".join(map(step_in_words, lodged.get(each.developer, ()))),
        )
        for each in _registrations(view)
    ]
    if not rows:
        return Part("plants", whole=True)
    heads = [
        "Developer",
        "Project",
        "Plant",
        f"Levels, {QUANTITY}",
        "Study value",
        "Start day",
        "Agent",
        "Lodged",
    ]
    marks = "-n-nnnn-"
    if not any(lodged.values()):
        rows, heads, marks = [each[:-1] for each in rows], heads[:-1], marks[:-1]
    drawn = table("Registered plants", heads, rows, marks)
    return part("plants", "Registered plants", drawn, whole=True)


# ---- rounds


def _opening(view: View) -> Part:
    phase = view.known.reading.phase
    if phase not in (Phase.READY, Phase.BETWEEN):
        return Part("open")
    given = form(view, "open")
    drawn = given.drawn(
        row(given.field("c", f"Closing price of the round, {PRICE}", "decimal")),
        buttons(button("Open the round")),
    )
    start = "the opening price A"
    if phase is Phase.BETWEEN:
        start = f"{price(view.known.reading.closing)} {PRICE}, where the last one closed"
    return part("open", "Open a round", note(f"It starts at {start}."), drawn)


def _closing(view: View) -> Part:
    """What closing now would answer, and the button that closes."""
    preview = view.preview()
    if preview is None:
        return Part("close", whole=True)
    given = form(view, "close")
    outcome = "is closed" if preview.closes else "goes on"
    return part(
        "close",
        "Close the round",
        figures(
            [
                ("Preview: excess if closed now", quantity(preview.excess), QUANTITY),
                ("Then the auction", outcome, ""),
            ]
        ),
        given.drawn(buttons(button("Close the round"))),
        whole=True,
        said=f"Preview: excess {quantity(preview.excess)}; then the auction {outcome}.",
    )


def _forcing(view: View, game: Game | None) -> Part:
    """Who can force the price: a look between rounds."""
    if view.known.reading.phase is not Phase.BETWEEN:
        return Part("forcing")
    values: dict[str, str] = {}
    faults: dict[str, str] = {}
    said = Markup()
    if view.typed and view.typed.form == "forcing":
        values, faults = dict(view.typed.fields), dict(view.typed.faults)
    elif game:
        values = {"first": str(game.first), "second": str(game.second)}
        values["prices"] = " ".join(price(each) for each in game.prices)
        try:
            found = view.known.session.who_can_force(
                view.seat, game.first, game.second, game.prices
            )
            move = "withdraw" if found.withdraws else "keep its quantity"
            words = f"Developer {game.first} can force {price(found.outcome)} {PRICE}."
            said = element(
                "p", element("b", words), f"A best first move is to {move}.", class_="answer"
            )
        except Refused as error:
            faults = {"": f"{error.refusal.meaning[:1].upper()}{error.refusal.meaning[1:]}."}
    given = Form("forcing", view.place, values, faults)
    drawn = given.drawn(
        row(given.field("first", "First developer"), given.field("second", "Second developer")),
        row(given.field("prices", f"1 to 10 falling prices, {PRICE}", "text")),
        buttons(button("Who can force the price?", second=True)),
        method="get",
    )
    words = (
        "Two new plants of different projects move in turn down the prices; each stays or leaves."
        " The first wants a high price, the second a low one."
    )
    return part("forcing", "Who can force the price", note(words), drawn, said)


# ---- the supply curve


def _curve(view: View) -> Part:
    auction = _told(view)
    if not any(each.closed for each in auction.rounds):
        return Part("curve", whole=True)
    drawn = joined(
        element("div", demand_and_supply(auction, BROAD), class_="broad"),
        element("div", demand_and_supply(auction, NARROW), class_="narrow"),
    )
    listed = note("Nobody has withdrawn yet.")
    if auction.curve:
        rows = [
            (price(each.price), quantity(each.before), quantity(each.after))
            for each in auction.curve
        ]
        heads = (f"Price, {PRICE}", f"Supply before, {QUANTITY}", f"Supply after, {QUANTITY}")
        points = table("Points of the supply curve", heads, rows, "nnn")
        listed = element("details", element("summary", "Withdrawal prices"), points)
    return part("curve", "Supply curve", drawn, listed, whole=True)


def _told(view: View) -> Auction:
    """The auction as far as this seat's own calls and its looks tell it, for the figure."""
    reading = view.known.reading
    lines = [
        Line(number, b"", each.call, each.reply, each.reply_text)
        for number, each in enumerate(view.accepted(), 1)
    ]
    closings = sum(line.reply.kind == 0x05 for line in lines)
    state = State(reading.phase, reading.opening, reading.closing, reading.excess, closings)
    looks = view.supply_curve(), None, view.settlement()
    auction = Auction(lines, library.engine(), "", b"", [], state, *looks)
    for line in lines:
        enter(auction, line)
    return auction


# ---- seats


def _seats(view: View, seated: Sequence[Seated]) -> Part:
    """Who sits where, and the renewal of a link; links themselves are on no page."""
    rows = []
    for each in seated:
        if each.seat == AUCTIONEER:
            continue
        numbers = {"kind": str(each.seat.kind), "number": str(each.seat.number)}
        hidden = [
            element("input", type="hidden", name=name, value=value)
            for name, value in numbers.items()
        ]
        given = Form(f"renew-{each.seat.kind}-{each.seat.number}", f"{view.place}/renew", {}, {})
        sent = button("Renew the link", True, True, aria_label=f"Renew the link of {each.words}")
        rows.append((str(each.seat).capitalize(), each.name, given.drawn(*hidden, sent)))
    words = (
        "A renewed link ends the one before. The new one is printed where the hall was started, and"
        " is for who sits there alone: links are on no page."
    )
    listed = table("Seats", ("Seat", "Name", "Link"), rows, "---")
    return part("seats", "Seats", note(words), listed, whole=True)
