"""The command fix: a record with the line ends, encoding and letters that the format has."""

from __future__ import annotations

import argparse
import sys

from .command import Commands, add_output, parser_of, read, write_new
from .mending import mended

_DESCRIPTION = """\
Writes a record anew with 0A behind each line, without a byte order mark, in one byte a character
and in capital digits, and says what it changed. Nothing else is changed: a line that is no frame
stays as it is. The new file must not be there before. Exit status: 0, or 2 for bad usage.
"""


def add_to(commands: Commands) -> None:
    """Adds the command to the command line."""
    summary = "a record with line ends, encoding and letters mended"
    parser = parser_of(run, commands, "fix", summary, _DESCRIPTION)
    add_output(parser, "NEW", "the new record")


def run(chosen: argparse.Namespace) -> int:
    """Runs the command and gives its exit status."""
    content, changes = mended(read(chosen.record))
    write_new(chosen.output, content)
    said = f"mended: {'; '.join(changes)}" if changes else "nothing to mend"
    print(said, file=sys.stderr if chosen.output == "-" else sys.stdout)
    return 0
