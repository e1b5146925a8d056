"""The seats of a hall and their links, in a file beside the session that its owner alone reads."""

from __future__ import annotations

import hmac
import json
import secrets
import threading
from collections.abc import Iterable
from dataclasses import asdict, dataclass, replace
from pathlib import Path
from typing import Any

from ..command import BadInput
from ..session import AUCTIONEER, AUDITOR, Seat
from .roster import Listed, Plant
from .store import write_private

_BYTES = 16  # 128 random bits of a link


@dataclass(frozen=True)
class Seated:
    """A seat with its link's key, the name of who sits there, and the plant of the class list."""

    seat: Seat
    key: str
    name: str = ""
    plant: Plant | None = None

    @property
    def words(self) -> str:
        """The seat and the name, for people."""
        return f"{self.seat}, {self.name}" if self.name else str(self.seat)


class Seats:
    """Who sits where. A change is in the file before it holds; any thread may make it."""

    def __init__(self, path: Path, listed: Iterable[Listed], developers: Iterable[int]) -> None:
        """Reads the file, or makes it; each developer that is listed or registered has a seat.

        Raises OSError, and BadInput where the file is none of seats.
        """
        self._path = path
        self._change = threading.Lock()
        self._seated = {each.seat: each for each in _read(path)}
        seats = [AUCTIONEER, AUDITOR, *(Seat.developer(number) for number in developers)]
        self._keep(_with_listed(_with_seats(self._seated, seats), listed))

    def all(self) -> list[Seated]:
        """All seats, the developers' by number."""
        seated = self._seated
        return [seated[seat] for seat in sorted(seated, key=lambda seat: (seat.kind, seat.number))]

    def of_key(self, key: str) -> Seated | None:
        """The seat whose link has the key. Every key is compared, each in constant time."""
        given, found = key.encode("utf-8", "surrogateescape"), None
        for each in self._seated.values():
            if hmac.compare_digest(each.key.encode("ascii"), given):
                found = each
        return found

    def named(self, seat: Seat) -> str:
        """The name of who sits there, or nothing."""
        return self._seated[seat].name if seat in self._seated else ""

    def add(self, developer: int) -> Seated | None:
        """Makes a seat for a developer; None where it has one. Raises OSError."""
        seat = Seat.developer(developer)
        with self._change:
            if seat in self._seated:
                return None
            self._keep(_with_seats(self._seated, [seat]))
            return self._seated[seat]

    def renew(self, seat: Seat) -> Seated | None:
        """Gives a seat another link; None where there is no such seat. Raises OSError."""
        with self._change:
            if seat not in self._seated:
                return None
            renewed = replace(self._seated[seat], key=secrets.token_urlsafe(_BYTES))
            self._keep({**self._seated, seat: renewed})
            return renewed

    def _keep(self, seated: dict[Seat, Seated]) -> None:
        if seated != self._seated:
            rows = [asdict(each) for each in seated.values()]
            content = json.dumps({"seats": rows}, indent=1, ensure_ascii=True)
            write_private(self._path, f"{content}\n".encode("ascii"))
            self._seated = seated


def _with_seats(seated: dict[Seat, Seated], seats: Iterable[Seat]) -> dict[Seat, Seated]:
    """The seats, and those that were missing with links of their own."""
    missing = [seat for seat in dict.fromkeys(seats) if seat not in seated]
    made = {seat: Seated(seat, secrets.token_urlsafe(_BYTES)) for seat in missing}
    return {**seated, **made}


def _with_listed(seated: dict[Seat, Seated], listed: Iterable[Listed]) -> dict[Seat, Seated]:
    """The seats with the names and plants of a list; links stay."""
    for each in listed:
        seat = Seat.developer(each.developer)
        known = _with_seats(seated, [seat])
        seated = {**known, seat: replace(known[seat], name=each.name, plant=each.plant)}
    return seated


def _read(path: Path) -> list[Seated]:
    try:
        content = path.read_bytes()
    except FileNotFoundError:
        return []
    try:
        return [_seated(row) for row in json.loads(content)["seats"]]
    except (ValueError, KeyError, TypeError, AttributeError):
        raise BadInput(f"{path} is no file of seats; moved away, new links are made") from None


def _seated(row: dict[str, Any]) -> Seated:
    plant: Plant | None = None
    if row["plant"] is not None:
        fields: dict[str, Any] = dict(row["plant"])
        fields["levels"] = tuple(fields["levels"])
        plant = Plant(**fields)
    if not (isinstance(row["key"], str) and row["key"].isascii() and len(row["key"]) >= 22):
        raise ValueError("not a key")
    return Seated(Seat(**row["seat"]), row["key"], str(row["name"]), plant)
