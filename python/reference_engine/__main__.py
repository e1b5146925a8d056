"""The commands: python3 -m reference_engine COMMAND, or reference-engine COMMAND where installed.

Exit status 0; 1 for a difference, or where no line was accepted or no settling made that was asked
for; 2 for bad usage and where a command cannot go on; 130 where it is interrupted or not read on.
"""

from __future__ import annotations

import argparse
import io
import os
import sys
from pathlib import Path
from subprocess import CalledProcessError
from typing import Any

from . import build, compare, explain, figures, fix, plain_record, report, show, table
from .command import BadInput, in_words
from .hall import command as hall
from .library import NotBuilt, engine


class _Version(argparse.Action):
    """Says the engine's version and ends."""

    def __call__(self, parser: argparse.ArgumentParser, *_: Any) -> None:
        known = engine()
        swapped = "".join(f", {each}" for each in known.swapped_in)
        print(f"reference_engine {known.version}, library SHA-256 {known.library_sha256}{swapped}")
        parser.exit()


def _parser() -> argparse.ArgumentParser:
    installed = Path(sys.argv[0]).name == "reference-engine"
    parser = argparse.ArgumentParser(
        prog="reference-engine" if installed else "python3 -m reference_engine",
        description="The reference clearing of a firm-energy clock auction. In place of a file,"
        " - is standard input or standard output.",
    )
    about = "say the version of the engine and the SHA-256 of its library"
    parser.add_argument("--version", action=_Version, nargs=0, help=about)
    commands = parser.add_subparsers(dest="command", required=True, metavar="COMMAND")
    for command in (
        compare, report, table, figures, explain, show, build, fix, plain_record, hall,
    ):
        command.add_to(commands)
    return parser


def main(arguments: list[str] | None = None) -> int:
    """Runs a command and gives its exit status."""
    parser = _parser()
    if isinstance(sys.stdout, io.TextIOWrapper):
        # A file's name can be printed whatever its bytes, as on standard error.
        sys.stdout.reconfigure(errors="backslashreplace")
    try:
        chosen = parser.parse_args(arguments)
        status: int = chosen.run(chosen)
        sys.stdout.flush()
        return status
    except BrokenPipeError:
        # Nobody reads on. Not 0, which would say that there is no difference.
        os.dup2(os.open(os.devnull, os.O_WRONLY), sys.stdout.fileno())
        print(f"{parser.prog}: nobody reads standard output on", file=sys.stderr)
        return 130
    except KeyboardInterrupt:
        print(f"{parser.prog}: interrupted", file=sys.stderr)
        return 130
    except (OSError, NotBuilt, CalledProcessError, BadInput) as error:
        print(f"{parser.prog}: {in_words(error)}", file=sys.stderr)
        return 2


if __name__ == "__main__":
    sys.exit(main())
