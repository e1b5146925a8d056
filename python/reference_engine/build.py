"""The command build: a record of a book, its calls in JSON or CSV."""

from __future__ import annotations

import argparse
import sys

from .book import built
from .command import BadInput, Commands, add_output, parser_of, read, write_new

_DESCRIPTION = """\
Builds a record of a book: calls in JSON or CSV, in the forms that show --json and show --csv write
(docs/PYTHON.md). Each call is written by the library, also one that the auction refuses; that is
said. The record must not be there before. Exit status: 0, or 2 for bad usage and a bad book.
"""


def add_to(commands: Commands) -> None:
    """Adds the command to the command line."""
    summary = "a record of calls in JSON or CSV"
    parser = parser_of(run, commands, "build", summary, _DESCRIPTION, "book")
    add_output(parser, "RECORD", "the new record")


def run(chosen: argparse.Namespace) -> int:
    """Runs the command and gives its exit status."""
    try:
        record = built(read(chosen.book))
    except BadInput as error:
        raise BadInput(f"{chosen.book}: {error}") from None
    lines = record.lines()
    refused = [line for line in lines if line.reply.refusal]
    write_new(chosen.output, bytes(record))
    said = f"{len(lines):,} calls, {len(refused):,} refused"
    if refused:
        said += f"; the first is line {refused[0].number}, {refused[0].reply.refusal}"
    print(said, file=sys.stderr if chosen.output == "-" else sys.stdout)
    return 0
