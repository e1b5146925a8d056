"""The hall as a WSGI application: a link is a seat's, and a wrong one finds nothing.

`hall_of(session)` makes one for a server of your own. One process serves a session; a page that
waits for a change holds a thread for at most `WAIT` seconds.
"""

from __future__ import annotations

import sys
import time
import traceback
from collections.abc import Callable, Iterable, Sequence
from dataclasses import dataclass
from typing import Any
from urllib.parse import parse_qsl

from ..session import AUCTIONEER, Seat
from .auctioneer import unregistered
from .forms import FORMS, Fields, Game, Typed, Unclear, game_of, line_of, line_of_plant
from .hall import Asked, Hall
from .pages import POLICY, fingerprint, page, parts, plain_page
from .seats import Seated
from .store import NotKept
from .views import View

WAIT = 20.0
LONGEST_BODY = 16_384
_FIELDS = 64
_SHOWN = 200  # characters of a field that are shown again

StartResponse = Callable[..., Any]

_HEADERS = [
    ("Content-Security-Policy", POLICY),
    ("Referrer-Policy", "no-referrer"),
    ("X-Content-Type-Options", "nosniff"),
    ("X-Frame-Options", "DENY"),
    ("Cross-Origin-Resource-Policy", "same-origin"),
    ("Cache-Control", "no-store"),
]
_REASONS = {
    200: "OK",
    204: "No Content",
    303: "See Other",
    400: "Bad Request",
    404: "Not Found",
    405: "Method Not Allowed",
    413: "Content Too Large",
    415: "Unsupported Media Type",
    422: "Unprocessable Content",
    500: "Internal Server Error",
    503: "Service Unavailable",
}


@dataclass(frozen=True)
class Response:
    """An answer: status, page or text, and headers of its own."""

    status: int
    text: str = ""
    headers: tuple[tuple[str, str], ...] = ()


class _Bad(Exception):
    """A request that is answered by a page that says why."""

    def __init__(self, status: int, heading: str, *words: str) -> None:
        super().__init__(heading)
        self.response = Response(status, plain_page(heading, *words))


_NOTHING = Response(404, plain_page("There is nothing here", "Ask for your link."))


class Application:
    """Serves a hall. Any number of threads may call it at once."""

    def __init__(self, hall: Hall, wait: float = WAIT) -> None:
        self.hall = hall
        self._wait = wait

    def __call__(self, environ: dict[str, Any], start_response: StartResponse) -> Iterable[bytes]:
        try:
            response = self._response(environ)
        except _Bad as bad:
            response = bad.response
        except NotKept as error:
            response = _not_kept(str(error))
        except Exception:
            # Nothing of it is for the page; the traceback shows code and no link.
            traceback.print_exc(file=environ["wsgi.errors"])
            response = Response(500, plain_page("Something went wrong in the hall"))
        content = response.text.encode("utf-8", "backslashreplace")
        headers = [*_HEADERS, *response.headers]
        if response.status != 204:
            headers += [("Content-Type", "text/html; charset=utf-8")]
            headers += [("Content-Length", str(len(content)))]
        start_response(f"{response.status} {_REASONS[response.status]}", headers)
        return [b"" if environ["REQUEST_METHOD"] == "HEAD" else content]

    def _response(self, environ: dict[str, Any]) -> Response:
        pieces = environ.get("PATH_INFO", "").split("/")
        seated = self.hall.seats.of_key(pieces[1] if len(pieces) > 1 else "")
        action = pieces[2] if len(pieces) == 3 else ""
        if seated is None or pieces[0] or len(pieces) > 3 or (len(pieces) == 3 and not action):
            return _NOTHING
        request = _Request(self.hall, seated, f"{environ.get('SCRIPT_NAME', '')}/{seated.key}")
        method = environ["REQUEST_METHOD"]
        if method in ("GET", "HEAD"):
            if action == "changes":
                return request.changes(_query(environ).get("shown", ""), self._wait)
            return _NOTHING if action else request.page(_query(environ))
        if method != "POST":
            raise _Bad(405, "This is no way to ask the hall")
        if action not in {*FORMS, "listed", "renew"}:
            return _NOTHING
        return request.sent(action, _body(environ))


class _Request:
    """A request of one seat."""

    def __init__(self, hall: Hall, seated: Seated, place: str) -> None:
        self._hall, self._seated, self._place = hall, seated, place

    # ---- looking

    def page(self, query: Fields) -> Response:
        """The seat's page; with a question in the address, its answer too."""
        game, typed = None, None
        if self._seated.seat == AUCTIONEER and "first" in query:
            try:
                game = game_of(query)
            except Unclear as unclear:
                typed = Typed("forcing", query, unclear.faults)
        return self._page(200, typed, game)

    def _page(self, status: int, typed: Typed | None = None, game: Game | None = None) -> Response:
        known, seats = self._hall.known(self._seated.seat), self._hall.seats.all()
        plain = parts(self._seated, known, self._place, seats)
        drawn = plain
        if typed or game:
            drawn = parts(self._seated, known, self._place, seats, typed, game)
        return Response(status, page(self._seated, known, self._place, plain, drawn))

    def changes(self, shown: str, wait: float) -> Response:
        """200 as soon as the seat's page is another than the one shown; 204 if it stays so long."""
        end = time.monotonic() + wait
        with self._hall.watching(self._seated.seat) as changed:
            if changed is None:
                raise _Bad(503, "Too many pages of this seat are open")
            while True:
                changed.clear()
                if self._hall.seats.of_key(self._seated.key) is None:
                    return _NOTHING
                if self._fingerprint() != shown:
                    return Response(200, "changed")
                if not changed.wait(max(0.0, end - time.monotonic())):
                    return Response(204)

    def _fingerprint(self) -> str:
        known = self._hall.known(self._seated.seat)
        return fingerprint(parts(self._seated, known, self._place, self._hall.seats.all()))

    # ---- calling

    def sent(self, action: str, fields: Fields) -> Response:
        """What a form asks. Raises NotKept."""
        if action == "renew":
            return self._renewed(fields)
        if action == "listed":
            return self._listed()
        try:
            line = line_of(action, self._seated.seat, fields)
        except Unclear as unclear:
            form = "offer" if action == "keep" else action
            shown = {name: value[:_SHOWN] for name, value in fields.items()}
            return self._page(422, Typed(form, shown, unclear.faults))
        return self._answered([self._hall.ask(self._seated.seat, line)])

    def _listed(self) -> Response:
        """Registers the plants of the class list, up to the first that is refused."""
        seat = self._seated.seat
        if seat != AUCTIONEER:
            return _NOTHING
        view = View(seat, self._hall.known(seat), self._place)
        asked: list[Asked] = []
        for each in unregistered(view, self._hall.seats.all()):
            if each.plant and not (asked and asked[-1].reply.number):
                line = line_of_plant(seat, each.seat.number, each.plant)
                asked.append(self._hall.ask(seat, line))
        return self._answered(asked)

    def _answered(self, asked: Sequence[Asked]) -> Response:
        """Back to the page: where a call is refused, to the field, else to the answer."""
        refused = any(each.reply.number for each in asked)
        headers = [("Location", self._place if refused else f"{self._place}#answer")]
        headers += [("X-Reply", each.reply_text) for each in asked[-1:]]
        return Response(303, headers=tuple(headers))

    def _renewed(self, fields: Fields) -> Response:
        if self._seated.seat != AUCTIONEER:
            return _NOTHING
        try:
            seat = Seat(int(fields.get("kind", "")[:3]), int(fields.get("number", "")[:3]))
        except (ValueError, TypeError):
            raise _Bad(400, "There is no such seat") from None
        try:
            renewed = self._hall.renew(seat)
        except OSError as error:
            return _not_kept(error.strerror or "the file of seats could not be written")
        if renewed is None:
            raise _Bad(400, "There is no such seat")
        return Response(303, headers=(("Location", f"{self._place}#seats"),))


def _not_kept(why: str) -> Response:
    words = f"The hall could not keep it ({why}), so it was not made. Go back and try again."
    return Response(503, plain_page("Not made", words), (("Retry-After", "5"),))


def _query(environ: dict[str, Any]) -> Fields:
    return _fields(environ.get("QUERY_STRING", "").encode("latin-1", "replace"))


def _body(environ: dict[str, Any]) -> Fields:
    """The fields of a form that is sent."""
    kind = environ.get("CONTENT_TYPE", "").partition(";")[0].strip().lower()
    length = environ.get("CONTENT_LENGTH") or "0"
    if not (length.isascii() and length.isdigit()) or int(length[:9]) > LONGEST_BODY:
        raise _Bad(413, "Too much was sent")
    if kind != "application/x-www-form-urlencoded":
        raise _Bad(415, "Only the page's own forms are read")
    content: bytes = environ["wsgi.input"].read(int(length))
    if len(content) != int(length):
        raise _Bad(400, "The form came in part")
    return _fields(content)


def _fields(content: bytes) -> Fields:
    try:
        text = content.decode("ascii")
        pairs = parse_qsl(text, keep_blank_values=True, errors="strict", max_num_fields=_FIELDS)
    except ValueError:
        raise _Bad(400, "The form cannot be read") from None
    return dict(pairs)


def hall_of(session: str, url: str = "") -> Application:
    """The application of a session's file, for a WSGI server; what is said goes to stderr.

    Raises OSError, BadInput.
    """
    return Application(Hall(session, say=lambda words: print(words, file=sys.stderr), url=url))
