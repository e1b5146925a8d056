"""The command report: an auction as one self-contained HTML page, with figures as inline SVG."""

from __future__ import annotations

import argparse
from collections.abc import Callable, Iterable, Sequence
from pathlib import Path

from . import figures
from .auction import Auction, Round
from .calls import KINDS, NAMES, Cancellation, Lodging, Malformed, Offer, Registration, Step
from .command import STATUS, Commands, add_output, auction_of, keep, parser_of, status_of, write
from .figures import BROAD, NARROW, Layout
from .live import Settlement
from .markup import Markup, element, escaped, joined, price, quantity
from .record import Line
from .replies import Award
from .show import answer

_STEPS = "steps: US$ per MWh, kWh per day"
_SHOWN = 200  # characters of a line; a frame has at most 160

_DESCRIPTION = """\
Writes an auction as one self-contained HTML page: settings, registrations, rounds, supply curve,
settlement, refused lines.

"""

_STYLE = """
body { font: 16px/1.45 sans-serif; color: #000; background: #fff; max-width: 56rem;
  margin: 0 auto; padding: 1rem; overflow-wrap: anywhere; }
h1 { font-size: 1.5rem; line-height: 1.2; }
h2 { font-size: 1.2rem; margin-top: 2.2rem; border-bottom: 1px solid #000; }
h3 { font-size: 1rem; margin-bottom: 0.3rem; }
.answer { display: flex; flex-wrap: wrap; gap: 0.8rem 2rem; margin: 1rem 0; padding: 0.8rem 1rem;
  border: 2px solid #000; }
.answer dt { font-size: 0.9rem; }
.answer dd { margin: 0; font-size: 1.3rem; font-weight: bold; line-height: 1.2; }
.answer span { font-size: 0.9rem; font-weight: normal; }
.trouble { border-left: 0.4rem solid #000; padding-left: 0.6rem; }
nav ul { display: flex; flex-wrap: wrap; gap: 0.2rem 1.2rem; padding: 0; list-style: none; }
a { color: #00c; }
.wide { overflow-x: auto; }
table { border-collapse: collapse; margin: 0.5rem 0; overflow-wrap: normal; }
th, td { padding: 0.2rem 0.7rem; border-bottom: 1px solid #bbb; text-align: left;
  vertical-align: top; }
thead th { border-bottom: 2px solid #000; vertical-align: bottom; font-size: 0.9rem; }
tbody th { font-weight: normal; }
.number { text-align: right; font-variant-numeric: tabular-nums; white-space: nowrap; }
thead .number { white-space: normal; }
.together { white-space: nowrap; }
.mark { position: absolute; }
code { font-size: 0.85rem; white-space: pre-wrap; overflow-wrap: anywhere; }
td code { display: block; min-width: 8rem; }
figure { margin: 1rem 0; }
svg { display: block; width: 100%; height: auto; }
.narrow { display: none; }
figcaption { font-size: 0.9rem; }
.note { font-size: 0.9rem; }
@media screen and (max-width: 40rem) { body { padding: 0.5rem; font-size: 15px; }
  .broad { display: none; } .narrow { display: block; }
  table { font-size: 0.9rem; } th, td { padding: 0.2rem 0.25rem; } thead th { font-size: 0.8rem; }
  td .together { white-space: normal; } td code { min-width: 6rem; }
  .answer { display: block; } .answer dd { margin-bottom: 0.5rem; }
  .cards thead { display: none; } .cards, .cards tbody, .cards tr { display: block; }
  .cards tr { padding: 0.3rem 0; border-bottom: 2px solid #000; }
  .cards td { display: block; border: 0; padding: 0.05rem 0.3rem; text-align: right; }
  .cards td::before { content: attr(data-name); float: left; margin-right: 1rem; }
  .cards td:empty { display: none; } .cards .mark { position: static; } }
@media print { body { font-size: 10pt; max-width: none; padding: 0; }
  .wide { overflow-x: visible; } nav { display: none; }
  figure, tr { break-inside: avoid; } h2, h3 { break-after: avoid; } }
"""


def add_to(commands: Commands) -> None:
    """Adds the command to the command line."""
    summary = "an auction as one HTML page with figures"
    parser = parser_of(run, commands, "report", summary, _DESCRIPTION + STATUS)
    add_output(parser, "PAGE", "the page's file")


def run(chosen: argparse.Namespace) -> int:
    """Runs the command and gives its exit status."""
    keep([chosen.record], chosen.output)
    auction = auction_of(chosen)
    name = "standard input" if chosen.record == "-" else Path(chosen.record).name
    write(chosen.output, page(auction, name).encode("utf-8"))
    return status_of(auction, chosen.record)


def page(auction: Auction, name: str) -> str:
    """The page of an auction whose record has the name."""
    title = f"Auction report: {name}"
    head = element(
        "head",
        element("meta", charset="utf-8"),
        element("meta", name="viewport", content="width=device-width, initial-scale=1"),
        element("title", title),
        element("style", Markup(_STYLE)),
    )
    sections = {
        "Settings": _settings,
        "Registrations": _registrations,
        "Rounds": _rounds,
        "Withdrawals and supply curve": _curve,
        "Settlement": _settlements,
        "Refused and malformed lines": _refused,
        "Source": _source,
    }
    body = element(
        "body",
        element("h1", title),
        _answer(auction),
        _summary(auction),
        _contents(sections),
        *(part for name in sections for part in _section(name, sections[name](auction))),
    )
    root = element("html", head, "\n", body, xmlns="http://www.w3.org/1999/xhtml", lang="en")
    return f"<!DOCTYPE html>\n{root}\n"


# ---- parts of a page


def _section(heading: str, parts: Iterable[Markup]) -> list[Markup]:
    return [Markup("\n"), element("h2", heading, id=_anchor(heading)), *parts]


def _anchor(heading: str) -> str:
    return heading.lower().replace(" ", "-")


def _contents(headings: Iterable[str]) -> Markup:
    links = (element("a", heading, href=f"#{_anchor(heading)}") for heading in headings)
    return element("nav", element("ul", *(element("li", link) for link in links)))


def _said(*words: str) -> Markup:
    return element("p", *words)


def _note(*words: str) -> Markup:
    return element("p", *words, class_="note")


def _cell(name: str, content: str, column: str, **attributes: str) -> Markup:
    """A cell; numbers stand in the columns whose heading starts with #."""
    if column.startswith("#"):
        attributes["class_"] = "number"
    return element(name, content, **attributes)


def _table(columns: Sequence[str], rows: Iterable[Sequence[str]]) -> Markup:
    """A table. A column whose heading starts with # is one of numbers, on the right.

    Where it has more columns than a phone is wide, a row is a card there, with names in it.
    """
    names = [column.lstrip("#") for column in columns]
    heads = (_cell("th", *pair) for pair in zip(names, columns))
    cards = len(columns) > 5
    body = (
        joined(
            "\n",
            element(
                "tr",
                *(
                    _cell("td", content, column, **({"data_name": name} if cards else {}))
                    for content, column, name in zip(row, columns, names)
                ),
            ),
        )
        for row in rows
    )
    table = element(
        "table",
        element("thead", element("tr", *heads)),
        element("tbody", *body),
        **({"class_": "cards"} if cards else {}),
    )
    return element("div", table, class_="wide")


def _named(rows: Iterable[tuple[str, str, str]]) -> Markup:
    """A table of names, figures and units."""
    body = (
        joined(
            "\n",
            element(
                "tr",
                element("th", name, scope="row"),
                element("td", figure, class_="number"),
                element("td", unit),
            ),
        )
        for name, figure, unit in rows
    )
    return element("div", element("table", element("tbody", *body)), class_="wide")


def _drawn(auction: Auction, draw: Callable[[Auction, Layout], Markup], caption: str) -> Markup:
    """A figure, drawn for a page and for a phone."""
    broad = element("div", draw(auction, BROAD), class_="broad")
    narrow = element("div", draw(auction, NARROW), class_="narrow")
    return element("figure", broad, narrow, element("figcaption", caption))


def _together(parts: Iterable[str]) -> Markup:
    """A list that breaks its line only between its parts."""
    listed = list(parts)
    spans = [
        element("span", part, ";" if place < len(listed) - 1 else "", class_="together")
        for place, part in enumerate(listed)
    ]
    return Markup(" ".join(spans))


def _steps(steps: Sequence[Step]) -> Markup:
    if not steps:
        return escaped("no steps")
    return _together(f"at {price(step.price)} down to {quantity(step.level)}" for step in steps)


def _yes(mark: bool | None) -> str:
    return "yes" if mark else "no"


def _plural(number: int, one: str, many: str) -> str:
    return f"{quantity(number)} {one if number == 1 else many}"


def shown(line: bytes) -> Markup:
    """A line's bytes, readable: what is no printable ASCII as \\xNN, a backslash doubled."""
    if not line:
        return element("em", "blank")
    text = "".join(
        "\\\\" if byte == 0x5C else chr(byte) if 0x20 <= byte < 0x7F else f"\\x{byte:02X}"
        for byte in line[:_SHOWN]
    )
    if len(line) <= _SHOWN:
        return element("code", text)
    more = _plural(len(line) - _SHOWN, "byte", "bytes")
    return joined(element("code", text), element("em", f"and {more} more"))


# ---- sections


def _answer(auction: Auction) -> Markup:
    """What came out, in a box."""
    items = (
        element("div", element("dt", name), element("dd", figure, " ", element("span", unit)))
        for name, figure, unit in answer(auction)
    )
    return element("dl", *items, class_="answer")


def _summary(auction: Auction) -> Markup:
    malformed = sum(isinstance(line.call, Malformed) for line in auction.refused)
    counts = (
        f"The record has {_plural(len(auction.lines), 'line', 'lines')}; "
        f"{quantity(len(auction.refused) - malformed)} refused, {quantity(malformed)} malformed."
    )
    if not auction.lines:
        counts = "The record is empty."
    units = (
        "Prices are in US$ per MWh, with a point before the thousandths; quantities in whole kWh "
        "per day, with commas between thousands."
    )
    said = auction.trouble or "; ".join(auction.faults)
    trouble = [element("p", f"{said[0].upper()}{said[1:]}.", class_="trouble")] if said else []
    swapped = (_said("Swapped in: ", element("code", each)) for each in auction.engine.swapped_in)
    return joined(*trouble, *swapped, _said(counts), _note(units))


def _settings(auction: Auction) -> list[Markup]:
    known = auction.settings
    if known is None:
        return [_said("No set-up was accepted.")]
    return [
        _named(
            [
                ("Entrant's cost CE", price(known.ce), "US$ per MWh"),
                ("Target demand D", quantity(known.d), "kWh per day"),
                ("Lower margin M1", quantity(known.m1), "kWh per day"),
                ("Upper margin M2", quantity(known.m2), "kWh per day"),
                ("Opening price A", price(known.a), "US$ per MWh"),
            ]
        )
    ]


def _agent(call: Registration) -> Markup:
    """The agent, marked where the registration names none and it has the developer's number."""
    if call.agent is None:
        return joined(str(call.developer), element("span", "*", class_="mark"))
    return escaped(str(call.agent))


def _agent_note(calls: Iterable[Registration | None]) -> list[Markup]:
    if not any(call and call.agent is None for call in calls):
        return []
    return [_note("* The registration's agent is the one with the developer's number.")]


def _registrations(auction: Auction) -> list[Markup]:
    if not auction.registrations:
        return [_said("No registration was accepted.")]
    calls = [line.call for line in auction.registrations if isinstance(line.call, Registration)]
    columns = [
        "#project",
        "#developer",
        "kind",
        "#agent",
        "#study value",
        "#start day",
        "levels, kWh per day",
    ]
    rows = (
        [
            str(call.project),
            str(call.developer),
            KINDS[call.kind],
            _agent(call),
            quantity(call.study),
            quantity(call.day),
            _together(quantity(level) for level in call.levels),
        ]
        for call in calls
    )
    return [_table(columns, rows), *_agent_note(calls), *_lodgings(auction)]


def _lodgings(auction: Auction) -> list[Markup]:
    if not auction.lodgings:
        return [_said("No list was lodged.")]
    rows = (
        [quantity(line.number), str(line.call.developer), _steps(line.call.steps)]
        for line in auction.lodgings
        if isinstance(line.call, Lodging)
    )
    return [
        element("h3", "Lodged lists"),
        _table(["#line", "#developer", _STEPS], rows),
        _note("A list replaces the one that the plant lodged before."),
    ]


def _closing_cells(now: Round) -> list[str]:
    if now.supply is None or now.demand is None or now.remainder is None or now.excess is None:
        return ["", "", "", "", "not closed"]
    figures_shown = [quantity(each) for each in (now.supply, now.demand, now.remainder, now.excess)]
    return [*figures_shown, _yes(now.ended)]


def _rounds(auction: Auction) -> list[Markup]:
    if not auction.rounds:
        return [_said("No round was opened.")]
    columns = [
        "#round", "#opening price", "#C", "#supply", "#demand", "#remainder", "#excess",
        "closes the auction",
    ]
    rows = (
        [quantity(now.number), price(now.opening), price(now.c), *_closing_cells(now)]
        for now in auction.rounds
    )
    parts = [
        _table(columns, rows),
        _note(
            "Prices are in US$ per MWh. Supply, demand and excess (supply less demand) are those "
            "at C, in kWh per day; the remainder is what rounding adds to exact demand, in CE-ths "
            "of a kWh per day."
        ),
    ]
    if sum(now.closed is not None for now in auction.rounds) > 1:
        caption = "Supply, demand and excess by round; the excess in kWh per day."
        parts.append(_drawn(auction, figures.supply_by_round, caption))
    return [*parts, *_moves(auction)]


def _moves(auction: Auction) -> list[Markup]:
    """The accepted offers and cancellations of each round that has any; empty offers in a line."""
    moved = [now for now in auction.rounds if now.moves]
    parts: list[Markup] = []
    for now in moved:
        prices = f"from {price(now.opening)} down to C {price(now.c)}"
        parts.append(element("h3", f"Round {quantity(now.number)}, {prices}"))
        empty, rows = [], []
        for line in now.moves:
            assert isinstance(line.call, (Offer, Cancellation))
            if isinstance(line.call, Offer) and not line.call.steps:
                empty.append(f"{line.call.developer} ({quantity(line.number)})")
            else:
                steps = _steps(line.call.steps) if isinstance(line.call, Offer) else ""
                developer, call = str(line.call.developer), NAMES[line.reply.kind]
                rows.append([quantity(line.number), developer, call, steps])
        if rows:
            parts.append(_table(["#line", "#developer", "call", _STEPS], rows))
        if empty:
            words = "Offers without steps, by developer (line): "
            parts.append(element("p", words, _together(empty), class_="empty"))
    if len(moved) < len(auction.rounds):
        where = "in the other rounds" if moved else "in any round"
        parts.append(_said(f"No offer was accepted {where}."))
    return parts


def _curve(auction: Auction) -> list[Markup]:
    parts: list[Markup] = []
    if auction.settings is not None:
        parts.append(_drawn(auction, figures.demand_and_supply, _caption(auction)))
    if not any(now.closed for now in auction.rounds):
        return [*parts, _said("No round was closed, so there is no supply curve.")]
    if not auction.curve:
        return [*parts, _said("Nobody has withdrawn.")]
    rows = (
        [price(point.price), quantity(point.before), quantity(point.after)]
        for point in auction.curve
    )
    columns = [
        "#withdrawal price, US$ per MWh",
        "#supply before, kWh per day",
        "#supply after, kWh per day",
    ]
    return [*parts, _table(columns, rows)]


def _caption(auction: Auction) -> str:
    if any(now.closed for now in auction.rounds):
        return "Demand, and supply after the withdrawals down to the C of the latest closing."
    return "Demand; there is no supply curve to show."


def _settlements(auction: Auction) -> list[Markup]:
    """The settlement, with the lines that got it."""
    if auction.settlement is None:
        failed = auction.settling_failed
        return [_said("No settling was made." if failed else "No settling was asked for.")]
    numbers = [quantity(line.number) for line in auction.settled]
    where = f"line {numbers[0]}" if len(numbers) == 1 else f"lines {'; '.join(numbers)}"
    return [_said(f"Settled by {where}."), *_settlement(auction, auction.settlement)]


def _settlement(auction: Auction, final: Settlement) -> list[Markup]:
    assert auction.settings is not None, "the library settles no auction before set-up"
    participation = "insufficient" if final.insufficient else "sufficient"
    return [
        _named(
            [
                ("Closing price P", price(final.price), "US$ per MWh"),
                ("Second price, for new plants", price(final.second_price), "US$ per MWh"),
                ("Second price is short", _yes(final.short), ""),
                ("Demand at P", quantity(final.demand), "kWh per day"),
                (
                    "Remainder of demand",
                    quantity(final.remainder),
                    f"CE-ths of a kWh per day, with CE {quantity(auction.settings.ce)}",
                ),
                ("Award's total", quantity(final.total), "kWh per day"),
                ("Admissible choices", quantity(final.choices), ""),
                ("Covering choices", quantity(final.covering), ""),
                ("Covering choices kept by the search", quantity(final.kept), ""),
                ("Participation", participation, ""),
                ("Price paid to existing plants", price(final.price_paid), "US$ per MWh"),
            ]
        ),
        *_awards(auction, final.awards),
    ]


def _awards(auction: Auction, awards: Sequence[Award]) -> list[Markup]:
    if not awards:
        return [_said("Nothing is awarded.")]
    calls = [auction.registration_of(award.developer) for award in awards]
    rows = (
        [
            str(award.project),
            str(award.developer),
            _agent(call) if call else "",
            KINDS[call.kind] if call else "",
            quantity(award.quantity),
        ]
        for award, call in zip(awards, calls)
    )
    columns = ["#project", "#developer", "#agent", "kind", "#quantity, kWh per day"]
    return [element("h3", "Award"), _table(columns, rows), *_agent_note(calls)]


def _source(auction: Auction) -> list[Markup]:
    return [_said(f"{name}: ", element("code", value)) for name, value in auction.source.items()]


def _refused(auction: Auction) -> list[Markup]:
    if not auction.refused:
        return [_said("None.")]
    rows = (
        [quantity(line.number), shown(line.text), _asked(line), _refusal(line)]
        for line in auction.refused
    )
    return [
        _table(["#line", "text", "call", "refusal"], rows),
        _note("Bytes other than printable ASCII are shown as \\xNN, a backslash as \\\\."),
    ]


def _asked(line: Line) -> str:
    return "none" if isinstance(line.call, Malformed) else NAMES[line.reply.kind]


def _refusal(line: Line) -> str:
    refusal = line.reply.refusal
    assert refusal is not None
    return f"{refusal.number}: {refusal.meaning}"
