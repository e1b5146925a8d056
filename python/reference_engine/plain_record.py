"""The command record: the plain record of a session, for all commands that read records."""

from __future__ import annotations

import argparse
import sys

from .command import Commands, add_output, parser_of, read, write_new
from .mending import mended, mends
from .record import Record
from .session import Session, SessionLine

_DESCRIPTION = """\
Writes the plain record of a session, whose lines name the seat that asks (docs/FORMAT.md): the
frames of all its lines but malformed ones and those refused by 20, and says how many these are.
The record must not be there before. Exit status: 0; 1 where no line is left, and no record is
written; 2 for bad usage.
"""


def add_to(commands: Commands) -> None:
    """Adds the command to the command line."""
    summary = "the plain record of a session"
    parser = parser_of(run, commands, "record", summary, _DESCRIPTION, "session")
    add_output(parser, "RECORD", "the new record")


def run(chosen: argparse.Namespace) -> int:
    """Runs the command and gives its exit status."""
    session = Session(read(chosen.session))
    record = session.record()
    said = "; ".join([_left_out(session.lines()), *_causes(session, chosen.session)])
    if not record:
        print(f"no record is written: {said}", file=sys.stderr)
        return 1
    write_new(chosen.output, bytes(record))
    print(said, file=sys.stderr if chosen.output == "-" else sys.stdout)
    return 0


def _left_out(lines: list[SessionLine]) -> str:
    """How many lines there are and are left out, and the first of these."""
    malformed = [line.number for line in lines if line.reply.kind == 0xFF]
    barred = [line.number for line in lines if line.reply.number == 20]
    said = f"{len(lines):,} line{'' if len(lines) == 1 else 's'}"
    said += f", {len(malformed) + len(barred):,} left out"
    if not malformed and not barred:
        return said
    counted = f"{len(malformed):,} malformed, {len(barred):,} refused by 20"
    return f"{said}: {counted}; the first is line {min(malformed + barred)}"


def _causes(session: Session, path: str) -> list[str]:
    """What lines can be malformed by, where it can be told."""
    faults = mended(bytes(session))[1]
    if faults:
        return [*faults, mends(path)]
    accepted = any(not reply.number for reply in Record(bytes(session)).replies())
    return ["it is a record already, whose lines name no seat"] if accepted else []
