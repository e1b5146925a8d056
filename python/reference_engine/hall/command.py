"""The command hall: serves the pages of a class until it is interrupted."""

from __future__ import annotations

import argparse
import socket
from collections.abc import Iterable

from ..command import BadInput, Commands, read
from .application import Application
from .hall import Hall
from .roster import Listed, read_roster
from .server import Server

_DESCRIPTION = """\
Holds an auction in class: prints a link for each seat, auctioneer, auditor and each developer, and
serves their pages until Ctrl-C. Each call is a line of SESSION, synced before it is answered;
started again on the same file, the hall goes on where it stopped. Links and names stand in
SESSION.seats, which its owner alone reads, and stay the same. docs/HALL.md is for teachers.

The command record makes the session's record, for report and table. With --links the links are
printed, and nothing is served. Exit status: 0, or 2 for bad usage and where it cannot go on.
"""


def add_to(commands: Commands) -> None:
    """Adds the command to the command line."""
    parser = commands.add_parser(
        "hall",
        help="an auction in class: a page for each seat",
        description=_DESCRIPTION,
        formatter_class=argparse.RawDescriptionHelpFormatter,
    )
    parser.add_argument("session", metavar="SESSION", help="the file of the session; made if new")
    parser.add_argument("--seats", metavar="CSV", help="the class list: names, numbers and plants")
    parser.add_argument(
        "--host",
        default="127.0.0.1",
        help="the address to listen on; 127.0.0.1 is this machine alone",
    )
    parser.add_argument("--port", type=int, default=8000, help="the port, 8000 if not given")
    parser.add_argument("--url", help="what links begin with, such as http://192.168.1.5:8000")
    parser.add_argument("--links", action="store_true", help="print the links and end")
    parser.set_defaults(run=run)


def run(chosen: argparse.Namespace) -> int:
    """Runs the command and gives its exit status."""
    listed = read_roster(read(chosen.seats), chosen.seats) if chosen.seats else []
    if not 0 <= chosen.port < 2**16:
        raise BadInput(f"--port is {chosen.port}, and must be from 0 to {2**16 - 1}")
    if chosen.links:
        hall = Hall(chosen.session, listed, _say, _url(chosen, chosen.port))
        _print_links(hall)
        hall.close()
        return 0
    return _serve(chosen, listed)


def _serve(chosen: argparse.Namespace, listed: Iterable[Listed]) -> int:
    hall = Hall(chosen.session, listed, _say)
    try:
        server = Server((chosen.host, chosen.port), Application(hall))
    except OSError as error:
        hall.close()
        why = error.strerror or str(error)
        raise BadInput(
            f"{chosen.host}, port {chosen.port}: {why}; --host or --port give another"
        ) from None
    with server:
        hall.url = _url(chosen, server.server_address[1])
        _print_links(hall)
        _say("Ctrl-C ends it; started again on the same file, it goes on.")
        try:
            server.serve_forever()
        except KeyboardInterrupt:
            _say("The hall is closed.")
    hall.close()
    return 0


def _print_links(hall: Hall) -> None:
    seated = hall.seats.all()
    width = max(len(each.words) for each in seated)
    for each in seated:
        _say(f"{each.words:{width}}  {hall.link(each)}")


def _url(chosen: argparse.Namespace, port: object) -> str:
    """What links begin with; an address that is all of a machine's is named by the machine."""
    if chosen.url:
        return str(chosen.url).rstrip("/")
    host = socket.gethostname() if chosen.host in ("", "0.0.0.0", "::") else chosen.host
    return f"http://[{host}]:{port}" if ":" in host else f"http://{host}:{port}"


def _say(words: str) -> None:
    print(words, flush=True)
