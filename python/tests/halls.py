"""What the tests of the hall share: a hall served on this machine, and its clients."""

from __future__ import annotations

import http.client
import tempfile
import threading
import unittest
from collections.abc import Iterable
from dataclasses import dataclass
from pathlib import Path
from urllib.parse import urlencode

from reference_engine.hall.application import Application
from reference_engine.hall.hall import Hall
from reference_engine.hall.roster import Listed, Plant
from reference_engine.hall.server import Server
from reference_engine.session import AUCTIONEER, Seat

PATIENCE = 900.0  # seconds that a client waits: a starved machine is no failure

SETTINGS = {"ce": "20", "d": "1,000,000", "m1": "900000", "m2": "1200000", "a": "40.000"}

#: A class of four: two existing plants, two new ones, as in docs/FORMAT.md's lodged list.
CLASS = [
    Listed(1, "Ana Gómez", Plant(1, 1, (300_000, 500_000))),
    Listed(2, "Bruno Díaz", Plant(2, 1, (400_000,))),
    Listed(3, "Carla Ruiz", Plant(3, 2, (275_000, 550_000), 400, 10)),
    Listed(4, "<script>alert(4)</script>", Plant(4, 2, (123_457,), 500, 20, 5)),
]


@dataclass(frozen=True)
class Answer:
    """What a client gets."""

    status: int
    headers: dict[str, str]
    text: str

    @property
    def reply(self) -> str:
        """The library's reply to the call that was made."""
        return self.headers["x-reply"]


class Client:
    """A browser without scripts at one seat's link; redirections are not followed."""

    def __init__(self, port: int, key: str) -> None:
        self.port, self.key = port, key

    def get(self, rest: str = "", method: str = "GET") -> Answer:
        return self._ask(method, rest, None)

    def post(self, form: str, fields: dict[str, str] | None = None, **more: str) -> Answer:
        return self._ask("POST", f"/{form}", urlencode({**(fields or {}), **more}))

    def _ask(self, method: str, rest: str, body: str | None) -> Answer:
        connection = http.client.HTTPConnection("127.0.0.1", self.port, timeout=PATIENCE)
        try:
            kind = {"Content-Type": "application/x-www-form-urlencoded"} if body is not None else {}
            connection.request(method, f"/{self.key}{rest}", body, kind)
            response = connection.getresponse()
            headers = {name.lower(): value for name, value in response.getheaders()}
            return Answer(response.status, headers, response.read().decode())
        finally:
            connection.close()


class Served:
    """A hall, served on a free port of this machine until it is ended."""

    def __init__(
        self,
        path: Path,
        listed: Iterable[Listed] = (),
        wait: float = 20.0,
        patience: float = PATIENCE,
    ) -> None:
        self.said: list[str] = []
        self.hall = Hall(path, listed, self.said.append, "http://hall")
        self.server = Server(("127.0.0.1", 0), Application(self.hall, wait), patience)
        self.port = int(self.server.server_address[1])
        self._thread = threading.Thread(target=self.server.serve_forever, args=(0.05,))
        self._thread.start()

    def at(self, seat: Seat) -> Client:
        (key,) = [each.key for each in self.hall.seats.all() if each.seat == seat]
        return Client(self.port, key)

    def end(self) -> None:
        self.server.shutdown()
        self._thread.join()
        self.server.server_close()
        self.hall.close()


class HallTest(unittest.TestCase):
    """A folder of its own, and halls that are ended behind the test."""

    def setUp(self) -> None:
        folder = tempfile.TemporaryDirectory()
        self.addCleanup(folder.cleanup)
        self.path = Path(folder.name, "class.session")

    def served(self, listed: Iterable[Listed] = CLASS, **options: float) -> Served:
        served = Served(self.path, listed, **options)
        self.addCleanup(served.end)
        return served

    def assertReplies(self, answer: Answer, reply: str) -> None:
        """A call that was made, answered so, and leads back to the page."""
        self.assertEqual((answer.status, answer.headers.get("x-reply")), (303, reply))


def in_round(served: Served) -> None:
    """The class of four, set up and registered, with a round open from 40 down to 30."""
    auctioneer = served.at(AUCTIONEER)
    for form, fields in (("set_up", SETTINGS), ("listed", {}), ("open", {"c": "30"})):
        assert auctioneer.post(form, fields).headers["x-reply"][2:] == "00", form
