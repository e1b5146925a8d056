"""What the commands share: files that they read, write and keep; the exit status for one auction.

In place of a file, - is standard input or standard output.
"""

from __future__ import annotations

import argparse
import sys
from collections.abc import Callable, Iterable
from pathlib import Path
from shutil import SameFileError
from typing import TypeAlias

from .auction import Auction, read_auction
from .mending import mends
from .record import Record
from .session import Session

Commands: TypeAlias = "argparse._SubParsersAction[argparse.ArgumentParser]"

#: The exit status of a command that shows one auction.
STATUS = """\
Exit status: 0, also where lines are refused; 1 where no line was accepted, or settling was asked
for and none was made; 2 for bad usage.
"""


class BadInput(Exception):
    """What is read is not what the command reads; the error says in words why."""


def parser_of(
    run: Callable[[argparse.Namespace], int],
    commands: Commands,
    name: str,
    summary: str,
    description: str,
    read_what: str = "record",
) -> argparse.ArgumentParser:
    """Adds a command that reads one file, and gives its parser."""
    parser = commands.add_parser(
        name,
        help=summary,
        description=description,
        formatter_class=argparse.RawDescriptionHelpFormatter,
    )
    metavar, words = read_what.upper(), f"the file of the {read_what}; - is standard input"
    parser.add_argument(read_what, metavar=metavar, help=words)
    parser.set_defaults(run=run)
    return parser


def add_output(
    parser: argparse.ArgumentParser, metavar: str, what: str, default: str | None = None
) -> None:
    """Adds the option of the file that is written; it has to be given if it has no default."""
    parser.add_argument(
        "-o",
        "--output",
        metavar=metavar,
        required=default is None,
        default=default,
        help=f"{what}; - is standard output" + (", and the default" if default else ""),
    )


# ---- files


def read(path: str) -> bytes:
    """The bytes of a file. Raises OSError."""
    return sys.stdin.buffer.read() if path == "-" else Path(path).read_bytes()


def write(path: str, content: bytes) -> None:
    """Writes a file. Raises OSError."""
    if path != "-":
        Path(path).write_bytes(content)
    elif hasattr(sys.stdout, "buffer"):
        sys.stdout.flush()
        sys.stdout.buffer.write(content)
        sys.stdout.buffer.flush()
    else:  # a notebook's, or another that takes text alone
        sys.stdout.write(content.decode("utf-8"))


def write_new(path: str, content: bytes) -> None:
    """Writes a file that is not there yet: a record is not written over. Raises OSError."""
    if path == "-":
        write(path, content)
        return
    try:
        with open(path, "xb") as file:
            file.write(content)
    except FileExistsError:
        raise FileExistsError(f"{path} is there already, and is not written over") from None


def in_words(error: Exception) -> str:
    """An error in a line; that of a file with the file's name and no number."""
    if isinstance(error, OSError) and error.filename is not None:
        return f"{error.filename}: {error.strerror}"
    return " ".join(str(error).split())


def keep(files: Iterable[str], *outputs: str | None) -> None:
    """Raises SameFileError, an OSError, where an output would replace a file that is read."""
    paths = [Path(path) for path in files if path != "-"]
    for output in outputs:
        if output in (None, "-") or not Path(str(output)).exists():
            continue
        for path in paths:
            if path.exists() and path.samefile(str(output)):
                raise SameFileError(f"the output would replace {path}")


# ---- one auction


def auction_of(chosen: argparse.Namespace) -> Auction:
    """The auction of the record that was chosen."""
    return read_auction(Record(read(chosen.record)))


def status_of(auction: Auction, record: str) -> int:
    """The exit status, with a line on stderr where something is wrong with the record."""
    said = auction.trouble or "; ".join(auction.faults)
    if auction.faults:
        said += f"; {mends(record)}"
    elif len(auction.refused) == len(auction.lines) and _is_session(auction):
        said += f'; it is a session, of which "record {record} -o NEW" writes the record'
    if said:
        print(said, file=sys.stderr)
    return 1 if auction.trouble else 0


def _is_session(auction: Auction) -> bool:
    """Whether lines that are refused in a record are accepted in a session."""
    session = Session(b"\n".join(line.text for line in auction.lines))
    return any(not reply.number for reply in session.replies())
