"""The report's figures as SVG, and the command figure, which writes them as files for papers.

Line styles and markers tell the curves apart, not colours.
"""

from __future__ import annotations

import argparse
import shutil
import subprocess
from collections.abc import Callable, Iterable, Sequence
from dataclasses import dataclass
from typing import TypeAlias

from .auction import Auction, Round
from .command import (
    STATUS,
    BadInput,
    Commands,
    add_output,
    auction_of,
    keep,
    parser_of,
    status_of,
    write,
)
from .markup import Markup, element, joined, pointed, price, quantity

_TOP, _BOTTOM = 46, 420
_CHARACTER = 7.2  # about the width of a digit at 13 px
_LINE = 17  # from one label to the next below it
_SAMPLES = 240
_LABELLED_ROUNDS = 16
_MARKED_ROUNDS = 60

_Points: TypeAlias = Sequence[tuple[float, float]]
_Style: TypeAlias = "dict[str, str | float]"

_SOLID: _Style = {"stroke": "#000", "stroke_width": 2.4, "fill": "none"}
_DASHED: _Style = {**_SOLID, "stroke_dasharray": "8 4"}
_CLOSING: _Style = {**_SOLID, "stroke_width": 1.3, "stroke_dasharray": "14 4 2 4"}
_SECOND: _Style = {**_SOLID, "stroke_width": 1.3, "stroke_dasharray": "4 4"}
_ROUND: _Style = {**_SOLID, "stroke": "#333", "stroke_width": 1.2, "stroke_dasharray": "1.5 4"}
_THIN: _Style = {**_SOLID, "stroke": "#555", "stroke_width": 1.0}
_GRID: _Style = {**_SOLID, "stroke": "#ddd", "stroke_width": 1.0}


@dataclass(frozen=True)
class Layout:
    """How wide a picture is, where its legend begins, and what stays free on the curves' right.

    The marked prices are labelled there, or else in the legend.
    """

    width: int
    legend: int
    right: int
    labelled: bool
    suffix: str


BROAD = Layout(840, 68, 214, True, "")
NARROW = Layout(380, 8, 36, False, "-narrow")  # a phone's


@dataclass(frozen=True)
class Scale:
    """Places the numbers from low to high between two ends, in pixels."""

    low: int
    high: int
    start: float
    end: float

    def at(self, number: int) -> float:
        """Where a number stands."""
        return self.start + (number - self.low) * (self.end - self.start) / (self.high - self.low)


def _scale(numbers: Iterable[int], start: float, end: float) -> Scale:
    """A scale that the numbers fill but for a small edge."""
    known = list(numbers)
    low, high = min(known), max(known)
    edge = max((high - low) // 25, 1)
    return Scale(max(low - edge, 0), high + edge, start, end)


def ticks(low: int, high: int, most: int) -> list[int]:
    """Multiples of 1, 2 or 5 times a power of ten from low to high, at most so many."""
    unit = 1
    while True:
        for step in (unit, 2 * unit, 5 * unit):
            first = -(-low // step) * step
            if (high - first) // step + 1 <= most:
                return list(range(first, high + 1, step))
        unit *= 10


def spread(wanted: Sequence[float], low: float, high: float, gap: float) -> list[float]:
    """Places for labels by rising place, at least the gap apart and near to the wanted ones."""
    # Labels that would overlap stand together, with their middle at the mean of what they want.
    groups: list[list[float]] = []
    for place, want in enumerate(wanted):
        groups.append([want - place * gap])
        while len(groups) > 1 and _mean(groups[-2]) > _mean(groups[-1]):
            later = groups.pop()
            groups[-1] += later
    last = high - (len(wanted) - 1) * gap
    starts = [min(max(_mean(group), low), last) for group in groups for _ in group]
    return [start + place * gap for place, start in enumerate(starts)]


def _mean(numbers: Sequence[float]) -> float:
    return sum(numbers) / len(numbers)


def thinned(count: int, most: int) -> list[int]:
    """Which of so many things get one of the most labels: evenly, the first and the last too."""
    if count <= most:
        return list(range(count))
    return sorted({place * (count - 1) // (most - 1) for place in range(most)})


def _text(x: float, y: float, words: str, anchor: str = "start") -> Markup:
    return element("text", words, x=float(x), y=float(y), text_anchor=anchor)


def _line(x1: float, y1: float, x2: float, y2: float, style: _Style) -> Markup:
    return element("line", x1=float(x1), y1=float(y1), x2=float(x2), y2=float(y2), **style)


def _path(points: _Points, style: _Style) -> Markup:
    return element("polyline", points=" ".join(f"{x:.1f},{y:.1f}" for x, y in points), **style)


def _diamond(x: float, y: float) -> Markup:
    corners = f"M{x:.1f} {y - 7:.1f}l7 7l-7 7l-7 -7z"
    return element("path", d=corners, fill="#fff", stroke="#000", stroke_width=2)


def _disc(x: float, y: float) -> Markup:
    return element("circle", cx=float(x), cy=float(y), r=4, fill="#000")


def _square(x: float, y: float) -> Markup:
    return element(
        "rect", x=x - 4, y=y - 4, width=8, height=8, fill="#fff", stroke="#000", stroke_width=1.6
    )


def _picture(
    layout: Layout, name: str, title: str, description: str, height: float, *parts: str
) -> Markup:
    """A picture that says in words what it shows."""
    name += layout.suffix
    return element(
        "svg",
        element("title", title, id=f"{name}-title"),
        element("desc", description, id=f"{name}-desc"),
        *parts,
        xmlns="http://www.w3.org/2000/svg",
        role="img",
        aria_labelledby=f"{name}-title {name}-desc",
        viewBox=f"0 0 {layout.width} {int(height)}",
        font_family="sans-serif",
        font_size=13,
    )


_Sample: TypeAlias = Callable[[float, float], Markup]


def _stroke(style: _Style, marker: _Sample | None = None) -> _Sample:
    """The legend's sample of a line, with its marker."""

    def sample(x: float, y: float) -> Markup:
        drawn = _line(x, y, x + 38, y, style)
        return joined(drawn, marker(x + 19, y)) if marker else drawn

    return sample


def _legend(
    layout: Layout, top: float, items: Sequence[tuple[_Sample, str]]
) -> tuple[Markup, float]:
    """The legend in rows from `top` on, and the height down to its end."""
    drawn: list[str] = []
    start = float(layout.legend)
    x, y = start, top
    for sample, words in items:
        width = 46 + len(words) * _CHARACTER
        if x > start and x + width > layout.width:
            x, y = start, y + 22
        drawn += [sample(x, y - 4), _text(x + 46, y, words)]
        x += width + 22
    return joined(*drawn), y + 14


def _frame(across: Scale, up: Scale) -> Markup:
    return element(
        "rect", x=across.start, y=up.end, width=across.end - across.start,
        height=up.start - up.end, fill="none", stroke="#000",
    )


def quantity_labels(marks: Sequence[int]) -> tuple[list[str], str]:
    """Labels of quantities with their unit: GWh where kWh are long, and no digit is lost."""
    if marks and marks[-1] >= 10**7 and all(mark % 1_000 == 0 for mark in marks):
        decimals = 3
        while decimals and not any(mark % 10 ** (7 - decimals) for mark in marks):
            decimals -= 1
        return [pointed(mark // 10 ** (6 - decimals), decimals) for mark in marks], "GWh per day"
    return [quantity(mark) for mark in marks], "kWh per day"


def _left_of(labels: Sequence[str]) -> float:
    """Where a picture begins behind the labels of its vertical axis."""
    return max(len(label) for label in labels) * _CHARACTER + 20


def _side_axis(
    across: Scale, up: Scale, marks: Sequence[int], labels: Sequence[str], unit: str
) -> Markup:
    """The vertical axis: ticks with a faint line across, and the unit above."""
    parts: list[str] = [_text(8, up.end - 28, unit)]
    for mark, label in zip(marks, labels):
        y = up.at(mark)
        parts += [_line(across.start - 5, y, across.end, y, _GRID)]
        parts += [_text(across.start - 9, y + 4.5, label, "end")]
    return joined(*parts)


def _foot_axis(across: Scale, up: Scale) -> Markup:
    """The horizontal axis: as many ticks as their labels leave room for, and the unit below."""
    wide = (across.end - across.start) / _CHARACTER
    for most in range(9, 1, -1):
        marks = ticks(across.low, across.high, most)
        labels, unit = quantity_labels(marks)
        if sum(len(label) + 3 for label in labels) <= wide:
            break
    parts: list[str] = []
    for mark, label in zip(marks, labels):
        x = across.at(mark)
        parts += [_line(x, up.start, x, up.start + 5, _THIN)]
        parts += [_text(x, up.start + 20, label, "middle")]
    middle = (across.start + across.end) / 2
    parts.append(_text(middle, up.start + 42, f"quantity, {unit}", "middle"))
    return joined(*parts)


# ---- demand and supply


def _marked_prices(auction: Auction) -> list[tuple[int, str, _Style]]:
    """The prices that get a line and a label: of settling, then A and the C of rounds."""
    assert auction.settings is not None
    marks: list[tuple[int, str, _Style]] = []
    final = auction.settlement
    if final:
        marks.append((final.price, "closing price", _CLOSING))
        if final.second_price != final.price:
            marks.append((final.second_price, "second price", _SECOND))
    marks.append((auction.settings.a, "opening price A", _ROUND))
    for place in thinned(len(auction.rounds), _LABELLED_ROUNDS):
        now = auction.rounds[place]
        marks.append((now.c, f"C of round {now.number}", _ROUND))
    return marks


def _demand_points(auction: Auction) -> list[tuple[int, int]]:
    """Demand and price from the floor to 2 CE, by the library, the marked prices among them."""
    assert auction.settings is not None
    ce = auction.settings.ce
    low, high = ce // 2, 2 * ce
    prices = {low + (high - low) * part // _SAMPLES for part in range(_SAMPLES + 1)} | {ce}
    prices |= {marked for marked, _, _ in _marked_prices(auction)}
    return [(auction.demand_at(each), each) for each in sorted(prices)]


def _supply_points(auction: Auction) -> list[tuple[int, int]]:
    """The corners of the supply curve, from A down to the C of the latest closing."""
    closed = [now for now in auction.rounds if now.closed]
    if not closed or auction.settings is None:
        return []
    last = closed[-1]
    assert last.supply is not None
    steps = auction.curve
    corners = [(steps[0].before if steps else last.supply, auction.settings.a)]
    for step in steps:
        corners += [(step.before, step.price), (step.after, step.price)]
    return [*corners, (corners[-1][0], last.c)]


def _price_marks(layout: Layout, auction: Auction, across: Scale, up: Scale) -> Markup:
    """A line across for each marked price, with its label on the right where there is room."""
    marks = sorted(_marked_prices(auction), key=lambda mark: -mark[0])
    wanted = [up.at(marked) for marked, _, _ in marks]
    if not layout.labelled:
        heights = zip(wanted, marks)
        return joined(*(_line(across.start, y, across.end, y, mark[2]) for y, mark in heights))
    places = spread(wanted, up.end, up.start, _LINE)
    parts: list[str] = []
    for (marked, words, style), y, place in zip(marks, wanted, places):
        parts.append(_line(across.start, y, across.end, y, style))
        ends = [(across.end, y), (across.end + 14, place), (across.end + 20, place)]
        parts.append(_path(ends, _THIN))
        parts.append(_text(across.end + 24, place + 4.5, f"{words}: {price(marked)}"))
    return joined(*parts)


def _round_ticks(auction: Auction, across: Scale, up: Scale) -> Markup:
    """A tick at the C of each round, where not every C has its line; equal heights share one."""
    if len(auction.rounds) <= _LABELLED_ROUNDS:
        return Markup()
    heights = {round(up.at(now.c)) for now in auction.rounds}
    ends = across.end - 10, across.end
    return joined(*(_line(ends[0], y, ends[1], y, _THIN) for y in sorted(heights)))


def _award_mark(auction: Auction, across: Scale, up: Scale) -> Markup:
    """The award's total: a diamond at the closing price, and a line up to its label."""
    final = auction.settlement
    if final is None:
        return Markup()
    x, y = across.at(final.total), up.at(final.price)
    words = f"award's total: {quantity(final.total)} kWh"
    half = len(words) * _CHARACTER / 2
    middle = min(max(x, across.start + half), across.end - half)
    label = _text(middle, up.end - 10, words, "middle")
    return joined(_line(x, up.end - 6, x, y, _THIN), _diamond(x, y), label)


def _curves_legend(
    layout: Layout, auction: Auction, supplied: bool
) -> list[tuple[_Sample, str]]:
    """What each line is; with its price where no label stands beside it."""
    items: list[tuple[_Sample, str]] = [(_stroke(_DASHED), "demand")]
    if supplied:
        items.append((_stroke(_SOLID), "supply"))
    priced = [mark for mark in _marked_prices(auction) if mark[2] is not _ROUND]
    for marked, words, style in priced:
        items.append((_stroke(style), words if layout.labelled else f"{words}: {price(marked)}"))
    if auction.settlement:
        items.append((lambda x, y: _diamond(x + 30, y), "award's total at the closing price"))
    some = len(auction.rounds) > _LABELLED_ROUNDS
    words = "A, and C of some rounds (ticks: of each)" if some else "A, and C of each round"
    return [*items, (_stroke(_ROUND), words)]


def demand_and_supply(auction: Auction, layout: Layout = BROAD) -> Markup:
    """Demand and supply by price, with prices and the award's total. Needs an accepted set-up."""
    demand, supply = _demand_points(auction), _supply_points(auction)
    quantities = [each for each, _ in demand + supply]
    quantities += [auction.settlement.total] if auction.settlement else []
    up = _scale([each for _, each in demand], float(_BOTTOM), float(_TOP))
    marks = ticks(up.low, up.high, 10)
    labels = [price(mark) for mark in marks]
    across = _scale(quantities, _left_of(labels), float(layout.width - layout.right))
    curves = [_path([(across.at(x), up.at(y)) for x, y in demand], _DASHED)]
    if supply:
        curves.append(_path([(across.at(x), up.at(y)) for x, y in supply], _SOLID))
    legend, height = _legend(
        layout, _BOTTOM + 72.0, _curves_legend(layout, auction, bool(supply))
    )
    title = "Demand curve and supply curve" if supply else "Demand curve"
    return _picture(
        layout,
        "curves",
        title,
        f"{title}: quantity across, price in US$ per MWh upwards.",
        height,
        _side_axis(across, up, marks, labels, "price, US$ per MWh"),
        _foot_axis(across, up),
        _frame(across, up),
        _price_marks(layout, auction, across, up),
        _round_ticks(auction, across, up),
        *curves,
        _award_mark(auction, across, up),
        legend,
    )


# ---- rounds


def _closed(auction: Auction) -> list[tuple[Round, int, int, int]]:
    """The closed rounds with supply, demand and excess."""
    return [
        (now, now.supply, now.demand, now.excess)
        for now in auction.rounds
        if now.supply is not None and now.demand is not None and now.excess is not None
    ]


def _round_labels(
    rounds: list[tuple[Round, int, int, int]], across: Scale, up: Scale
) -> Markup:
    """The rounds' numbers below, the excess of each above, as many as there is room for."""
    numbers = [(now.number, quantity(now.number)) for now, *_ in rounds]
    excesses = [(now.number, quantity(excess)) for now, _, _, excess in rounds]
    parts: list[str] = [_text(8, up.end - 10, "excess:")]
    for number, words in _with_room(numbers, across):
        x = across.at(number)
        parts += [_line(x, up.start, x, up.start + 5, _THIN)]
        parts += [_text(x, up.start + 20, words, "middle")]
    for number, words in _with_room(excesses, across):
        parts.append(_text(across.at(number), up.end - 10, words, "middle"))
    parts.append(_text((across.start + across.end) / 2, up.start + 42, "round", "middle"))
    return joined(*parts)


def _with_room(labels: list[tuple[int, str]], across: Scale) -> list[tuple[int, str]]:
    """As many of the labels as there is room for, the first and the last among them."""
    room = (max(len(words) for _, words in labels) + 2) * _CHARACTER
    first, *between, last = labels
    kept = [first]
    for label in between:
        x = across.at(label[0])
        if x - across.at(kept[-1][0]) >= room and across.at(last[0]) - x >= room:
            kept.append(label)
    return [*kept, last]


def _round_curves(supplied: _Points, demanded: _Points, marked: bool) -> Markup:
    """Both curves, and where they are marked a dotted line for each excess."""
    curves = [_path(demanded, _DASHED), _path(supplied, _SOLID)]
    if not marked:
        return joined(*curves)
    gaps = [_line(*first, *second, _ROUND) for first, second in zip(supplied, demanded)]
    markers = [_square(*point) for point in demanded] + [_disc(*point) for point in supplied]
    return joined(*gaps, *curves, *markers)


def supply_by_round(auction: Auction, layout: Layout = BROAD) -> Markup:
    """Supply and demand by round, with the excess. Needs two closed rounds."""
    rounds = _closed(auction)
    quantities = [each for _, supply, demand, _ in rounds for each in (supply, demand)]
    up = _scale(quantities, float(_BOTTOM), _TOP + 8.0)
    marks = ticks(up.low, up.high, 10)
    labels, unit = quantity_labels(marks)
    wide = Scale(0, 1, max(_left_of(labels), 66.0), float(layout.width - 10))
    edge = max(len(quantity(excess)) for _, _, _, excess in rounds) * _CHARACTER / 2 + 8
    first, last = rounds[0][0].number, rounds[-1][0].number
    across = Scale(first, last, wide.start + edge, wide.end - edge)
    supplied = [(across.at(now.number), up.at(supply)) for now, supply, _, _ in rounds]
    demanded = [(across.at(now.number), up.at(demand)) for now, _, demand, _ in rounds]
    marked = len(rounds) <= _MARKED_ROUNDS
    items = [
        (_stroke(_SOLID, _disc if marked else None), "supply"),
        (_stroke(_DASHED, _square if marked else None), "demand"),
    ]
    if marked:
        items.append((_stroke(_ROUND), "excess: supply less demand"))
    legend, height = _legend(layout, _BOTTOM + 72.0, items)
    return _picture(
        layout,
        "rounds",
        "Supply and demand by round",
        "Quantity upwards, rounds across; the excess of each, in kWh per day, stands above.",
        height,
        _side_axis(wide, up, marks, labels, f"quantity, {unit}, at C of each round"),
        _round_labels(rounds, across, up),
        _frame(wide, up),
        _round_curves(supplied, demanded, marked),
        legend,
    )


# ---- the command

_DESCRIPTION = """\
Writes a figure of the report as a file: demand and supply by price (curve), or supply and demand by
round (rounds). A file that ends with .pdf is made by rsvg-convert or inkscape, where one of them is
installed. The figure's source stands in its metadata.

"""

# Programs that read SVG and write PDF
_CONVERTERS = (
    ("rsvg-convert", "--format=pdf"),
    ("inkscape", "--pipe", "--export-type=pdf", "--export-filename=-"),
)


def add_to(commands: Commands) -> None:
    """Adds the command to the command line."""
    parser = parser_of(run, commands, "figure", "a figure for papers", _DESCRIPTION + STATUS)
    parser.add_argument("--which", choices=("curve", "rounds"), required=True)
    add_output(parser, "FILE.svg|FILE.pdf", "the figure's file")


def run(chosen: argparse.Namespace) -> int:
    """Runs the command and gives its exit status."""
    kind = "svg" if chosen.output == "-" else chosen.output.rpartition(".")[2].lower()
    if kind not in ("svg", "pdf"):
        raise BadInput(f"{chosen.output} ends with neither .svg nor .pdf")
    keep([chosen.record], chosen.output)
    auction = auction_of(chosen)
    content = f"{_alone(auction, chosen.which)}\n".encode("utf-8")
    write(chosen.output, content if kind == "svg" else _as_pdf(content))
    return status_of(auction, chosen.record)


def _alone(auction: Auction, which: str) -> Markup:
    """A figure with its source."""
    if which == "curve" and auction.settings is None:
        raise BadInput("there is no curve: no set-up was accepted")
    if which == "rounds" and len(_closed(auction)) < 2:
        raise BadInput("there is no figure of rounds: fewer than two were closed")
    drawn = demand_and_supply(auction) if which == "curve" else supply_by_round(auction)
    source = "; ".join(f"{name}: {value}" for name, value in auction.source.items())
    return Markup(f"{drawn.removesuffix('</svg>')}{element('metadata', source)}</svg>")


def _as_pdf(content: bytes) -> bytes:
    for program, *options in _CONVERTERS:
        if shutil.which(program):
            command = [program, *options]
            return subprocess.run(command, input=content, stdout=subprocess.PIPE, check=True).stdout
    names = " and ".join(program for program, *_ in _CONVERTERS)
    raise BadInput(f"no converter to PDF is installed ({names} are known); .svg needs none")
