"""The command explain: each line of a record in words, with its reply."""

from __future__ import annotations

import argparse
import sys
from collections.abc import Iterator

from .auction import Auction
from .calls import (
    KINDS,
    NAMES,
    Call,
    Cancellation,
    Lodging,
    Malformed,
    Offer,
    Opening,
    Registration,
    SetUp,
    Settling,
    Step,
)
from .command import STATUS, Commands, auction_of, parser_of, status_of
from .live import Settlement
from .record import Line
from .replies import Closed, Settled

_UNITS = (
    "Prices in thousandths of US$ per MWh, quantities in kWh per day,"
    " remainders in CE-ths of a kWh per day."
)
_SHOWN = 40  # bytes of a malformed line that are shown

_DESCRIPTION = """\
Writes each line of a record in words with its reply: its number, what it asks, and behind -> what
the reference answers. The figures and awards of a settling stand below its line, an item a line.
Bytes that are not printable are shown escaped, as in '05\\r'; a long malformed line is cut, and its
length said. A record without lines gives "no line".

"""


# ---- what a line asks


def call_in_words(line: Line) -> str:
    """What a line asks, the name of its frame first."""
    if isinstance(line.call, Malformed):
        return f"malformed line {_shown(line.call.text)}"
    name, asked = NAMES[line.reply.kind], _asked(line.call)
    return f"{name}: {asked}" if asked else name


def _shown(text: bytes) -> str:
    """Bytes between quotes, escaped where they are not printable, and cut where they are many."""
    shown = repr(text[:_SHOWN])[1:]
    return shown if len(text) <= _SHOWN else f"{shown}... ({len(text):,} bytes)"


def _asked(call: Call) -> str:
    """The fields of a call in words; none for a closing."""
    if isinstance(call, SetUp):
        return f"CE {call.ce:,}, D {call.d:,}, M1 {call.m1:,}, M2 {call.m2:,}, A {call.a:,}"
    if isinstance(call, Registration):
        return _registered(call)
    if isinstance(call, Opening):
        return f"a round down to C {call.c:,}"
    if isinstance(call, (Offer, Lodging)):
        return f"developer {call.developer}, {_steps(call.steps)}"
    if isinstance(call, Settling):
        return f"at most {call.limit:,} choices"
    if isinstance(call, Cancellation):
        return f"developer {call.developer}"
    return ""


def _registered(call: Registration) -> str:
    kind = KINDS.get(call.kind, f"kind {call.kind}")
    agent = "" if call.agent is None else f" agent {call.agent},"
    return (
        f"project {call.project}, developer {call.developer},{agent} {kind},"
        f" study value {call.study:,}, start day {call.day:,}, {_levels(call.levels)}"
    )


def _levels(levels: tuple[int, ...]) -> str:
    if not levels:
        return "no level"
    return ("level " if len(levels) == 1 else "levels ") + ", ".join(f"{each:,}" for each in levels)


def _steps(steps: tuple[Step, ...]) -> str:
    if not steps:
        return "no step"
    return ", ".join(f"at {step.price:,} down to {step.level:,}" for step in steps)


# ---- what it is answered


def closing_in_words(closed: Closed) -> str:
    """A closing's figures, and what it does to the auction."""
    then = "the auction is closed" if closed.ended else "the auction goes on"
    return f"excess {closed.excess:,}, remainder {closed.remainder:,}; {then}"


def settlement_in_words(figures: Settlement) -> list[str]:
    """A settling's figures and awards, an item a line."""
    short = "short" if figures.short else "not short"
    participation = "insufficient" if figures.insufficient else "sufficient"
    awards = [
        f"award: project {award.project}, developer {award.developer}, {award.quantity:,}"
        for award in figures.awards
    ]
    return [
        f"closing price {figures.price:,}",
        f"demand {figures.demand:,}, remainder {figures.remainder:,}",
        f"total {figures.total:,}",
        f"choices: {figures.choices:,} admissible, {figures.covering:,} covering,"
        f" {figures.kept:,} kept by the search",
        *awards,
        f"second price {figures.second_price:,}, {short}",
        f"participation {participation}",
        f"price paid to existing plants {figures.price_paid:,}",
    ]


def explained(auction: Auction) -> Iterator[str]:
    """The auction's lines in words; `no line` where it has none."""
    for swapped in auction.engine.swapped_in:
        yield f"Swapped in: {swapped}"
    if not auction.lines:
        yield "no line"
        return
    yield _UNITS
    width = len(str(len(auction.lines)))
    for line in auction.lines:
        answer = "accepted"
        if line.reply.refusal:
            answer = str(line.reply.refusal)
        elif isinstance(line.reply, Closed):
            answer = closing_in_words(line.reply)
        yield f"{line.number:<{width}} {call_in_words(line)} -> {answer}"
        if isinstance(line.reply, Settled) and auction.settlement:
            for item in settlement_in_words(auction.settlement):
                yield f"{'':{width}} {item}"


# ---- the command


def add_to(commands: Commands) -> None:
    """Adds the command to the command line."""
    summary = "each line of a record in words, with its reply"
    parser_of(run, commands, "explain", summary, _DESCRIPTION + STATUS)


def run(chosen: argparse.Namespace) -> int:
    """Runs the command and gives its exit status."""
    auction = auction_of(chosen)
    sys.stdout.write("".join(f"{text}\n" for text in explained(auction)))
    return status_of(auction, chosen.record)
