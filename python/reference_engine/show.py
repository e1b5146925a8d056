"""The command show: an auction's answer in a few lines, all of it as JSON, or its calls as CSV."""

from __future__ import annotations

import argparse

from .auction import Auction
from .book import as_csv, as_json
from .command import STATUS, Commands, add_output, auction_of, keep, parser_of, status_of, write
from .markup import price, quantity

_DESCRIPTION = """\
Says what came out of an auction: prices, total, rounds, participation, and the source of these
figures. With --json it writes the whole auction, with --csv its calls; build makes a record of
either (docs/PYTHON.md).

"""


def answer(auction: Auction) -> list[tuple[str, str, str]]:
    """What came out of an auction: names, figures and units."""
    rounds = ("Rounds", quantity(len(auction.rounds)), "")
    final = auction.settlement
    if final is None:
        return [("Settlement", "none", ""), rounds]
    short = ", marked short" if final.short else ""
    participation = "insufficient" if final.insufficient else "sufficient"
    return [
        ("Closing price", price(final.price), "US$ per MWh"),
        ("Second price, for new plants", price(final.second_price), f"US$ per MWh{short}"),
        ("Price paid to existing plants", price(final.price_paid), "US$ per MWh"),
        ("Award's total", quantity(final.total), "kWh per day"),
        rounds,
        ("Participation", participation, ""),
    ]


def _words(auction: Auction) -> str:
    items = [*answer(auction), *((name, value, "") for name, value in auction.source.items())]
    return "".join(f"{name}: {' '.join(filter(None, rest))}\n" for name, *rest in items)


def add_to(commands: Commands) -> None:
    """Adds the command to the command line."""
    summary = "what came out of an auction; all of it as JSON, or its calls as CSV"
    parser = parser_of(run, commands, "show", summary, _DESCRIPTION + STATUS)
    formats = parser.add_mutually_exclusive_group()
    for name, shown, what in (
        ("json", as_json, "calls, replies, rounds, state, supply curve and settlement as JSON"),
        ("csv", as_csv, "the calls as CSV, a row each"),
    ):
        formats.add_argument(
            f"--{name}", dest="shown", action="store_const", const=shown, default=_words, help=what
        )
    add_output(parser, "FILE", "where it is written", default="-")


def run(chosen: argparse.Namespace) -> int:
    """Runs the command and gives its exit status."""
    keep([chosen.record], chosen.output)
    auction = auction_of(chosen)
    write(chosen.output, chosen.shown(auction).encode("utf-8", "backslashreplace"))
    return status_of(auction, chosen.record)
