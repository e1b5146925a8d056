"""A hall: a session and its seats, asked line by line, and the pages that wait for a change."""

from __future__ import annotations

import threading
from collections.abc import Callable, Iterable, Iterator
from contextlib import contextmanager
from dataclasses import dataclass
from pathlib import Path

from .. import library
from ..calls import Call, Registration, call_in
from ..replies import Reply, reply_in
from ..session import AUCTIONEER, Reading, Seat, Session
from .roster import Listed
from .seats import Seated, Seats
from .store import SessionFile

# Set-up, opening and closing: accepted, they change what is published (docs/RULES.md, 10)
_PUBLISHING = (0x01, 0x03, 0x05)
_WATCHERS = 8  # pages of one seat that wait at once


@dataclass(frozen=True)
class Asked:
    """A call of a seat with the library's reply, and how often values were published before it."""

    call: Call
    reply: Reply
    reply_text: str
    published: int


@dataclass(frozen=True)
class Known:
    """What the page of a seat is made from: its own calls, and the session, to ask the library."""

    session: Session
    reading: Reading
    asked: tuple[Asked, ...]
    published: int


class Hall:
    """The one writer of a session, for any number of threads.

    `say` is told what is for the teacher alone: new links, and a line that was dropped.
    """

    def __init__(
        self,
        path: str | Path,
        listed: Iterable[Listed] = (),
        say: Callable[[str], None] = lambda words: None,
        url: str = "",
    ) -> None:
        """Opens the session, or begins it; links begin with the URL. Raises OSError, BadInput."""
        self._say, self.url = say, url
        self._turn = threading.Lock()
        self._watchers: dict[Seat, list[threading.Event]] = {}
        self._asked: dict[bytes, list[Asked]] = {}
        self._published = 0
        self._file = SessionFile(path)
        try:
            if self._file.dropped:
                say(f"{path}: {_dropped(self._file.dropped)}")
            lines = self._file.content.split(b"\n")[:-1]
            texts = library.session_replay(self._file.content).decode("ascii").split()
            for line, text in zip(lines, texts, strict=True):
                self._note(line, text)
            self.seats = Seats(Path(f"{path}.seats"), listed, self._registered())
        except BaseException:
            self._file.close()
            raise

    def close(self) -> None:
        """Ends the hall, behind a line that is being written."""
        with self._turn:
            self._file.close()

    def link(self, seated: Seated) -> str:
        """The link of a seat."""
        return f"{self.url}/{seated.key}"

    # ---- asking

    def ask(self, seat: Seat, line: bytes) -> Asked:
        """Keeps a line of the seat, synced, and gives the library's reply to it. Raises NotKept."""
        with self._turn:
            # The replies to the lines before stay what they were (docs/PROOF.md): the last is new.
            text = library.session_replay(self._file.content + line).split()[-1].decode("ascii")
            self._file.append(line)
            asked = self._note(line.rstrip(b"\n"), text)
        registered = _registers(asked)
        for number in registered:
            self._seat(number)
        if asked.reply.number == 0 and asked.reply.kind in _PUBLISHING:
            self._stir()
        else:
            self._stir([seat, AUCTIONEER, *(Seat.developer(number) for number in registered)])
        return asked

    def _note(self, line: bytes, text: str) -> Asked:
        reply = reply_in(text)
        asked = Asked(call_in(line[4:], reply.kind), reply, text, self._published)
        self._asked.setdefault(line[:4], []).append(asked)
        if reply.number == 0 and reply.kind in _PUBLISHING:
            self._published += 1
        return asked

    def _registered(self) -> list[int]:
        return [
            number
            for calls in self._asked.values()
            for each in calls
            for number in _registers(each)
        ]

    # ---- seats

    def _seat(self, developer: int) -> None:
        """Makes the seat of a registered developer that was not in the list."""
        try:
            made = self.seats.add(developer)
        except OSError as error:
            self._say(f"no link of developer {developer} could be kept: {error.strerror}")
            return
        if made:
            self._say(f"{made.words}: {self.link(made)}")

    def renew(self, seat: Seat) -> Seated | None:
        """Gives a seat another link, which the teacher is told; None without such a seat.

        Raises OSError, and the link stays.
        """
        renewed = self.seats.renew(seat)
        if renewed:
            self._say(f"{renewed.words}, renewed: {self.link(renewed)}")
            self._stir([seat])
        return renewed

    # ---- looking

    def known(self, seat: Seat) -> Known:
        """What the seat's page is made from, all of one moment."""
        digits = library.write_seat(seat.kind, seat.number)
        with self._turn:
            content, published = self._file.content, self._published
            asked = tuple(self._asked.get(digits, ()))
        session = Session(content)
        return Known(session, session.reading(seat), asked, published)

    @contextmanager
    def watching(self, seat: Seat) -> Iterator[threading.Event | None]:
        """An event that is set where the seat's page may have changed; None where many wait."""
        event = threading.Event()
        with self._turn:
            watchers = self._watchers.setdefault(seat, [])
            full = len(watchers) >= _WATCHERS
            if not full:
                watchers.append(event)
        try:
            yield None if full else event
        finally:
            if not full:
                with self._turn:
                    watchers.remove(event)

    def _stir(self, seats: Iterable[Seat] | None = None) -> None:
        """Wakes the pages of these seats, or all pages, to see whether they have changed."""
        with self._turn:
            seats = list(self._watchers) if seats is None else seats
            stirred = [
                event for seat in dict.fromkeys(seats) for event in self._watchers.get(seat, ())
            ]
        for event in stirred:
            event.set()


def _registers(asked: Asked) -> list[int]:
    """The developer that a call has registered, if it has."""
    if asked.reply.number == 0 and isinstance(asked.call, Registration):
        return [asked.call.developer]
    return []


def _dropped(rest: bytes) -> str:
    return (
        f"the last line was unfinished, so nobody was told of it; its {len(rest)} bytes are dropped"
    )
