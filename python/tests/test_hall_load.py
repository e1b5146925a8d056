"""The hall under load: 35 clients at its seats, each answer the engine's, and how long it takes.

HALL_LOAD_SECONDS=60 paces 50 calls a second for a minute; without it the gate's calls come as fast
as they are answered. What is printed is measured; no bound on the clock is part of the test.
"""

from __future__ import annotations

import os
import threading
import time
import unittest

from halls import SETTINGS, Client, HallTest
from reference_engine import library
from reference_engine.hall.forms import line_of
from reference_engine.hall.roster import Listed, Plant
from reference_engine.session import AUCTIONEER, AUDITOR, Seat
from test_hall_store import kept, unfit

SECONDS = int(os.environ.get("HALL_LOAD_SECONDS", "0"))
A_SECOND = 50
CALLS = 1_050  # of the gate
DEVELOPERS = 32
# Every seat that a hall can have, and a second page at the first: 35 clients.
SEATS = [AUCTIONEER, AUDITOR, *map(Seat.developer, range(1, DEVELOPERS + 1)), AUDITOR]


def _call(seat: Seat, number: int) -> tuple[str, dict[str, str]]:
    """The call of that number: offers and cancellations, closings, openings, settlings."""
    if seat == AUCTIONEER:
        return ("close", {}) if number % 5 == 4 else ("open", {"c": f"{39 - number // 5 % 20}"})
    if seat == AUDITOR:
        return "settle", {"limit": str(number)}
    steps = {"price1": f"{39 - number % 20}.5", "level1": "20000"}
    return [("keep", {}), ("cancel", {}), ("offer", steps)][number % 3]


class _Seat(threading.Thread):
    """A client of a seat, one call at a time; `times` has the seconds of each."""

    def __init__(
        self, client: Client, seat: Seat, numbers: range, pause: float, first: float
    ) -> None:
        super().__init__()
        self.client, self.seat, self.numbers = client, seat, numbers
        self.pause, self.first = pause, first
        self.asked: list[tuple[bytes, str | None]] = []
        self.times: list[float] = []

    def run(self) -> None:
        begun = time.monotonic() + self.first
        for count, number in enumerate(self.numbers):
            time.sleep(max(0.0, begun + count * self.pause - time.monotonic()))
            form, fields = _call(self.seat, number)
            line, start = line_of(form, self.seat, fields), time.monotonic()
            reply = self.client.post(form, fields).reply
            self.times.append(time.monotonic() - start)
            self.asked.append((line, reply))


class Load(HallTest):
    def test_load(self) -> None:
        listed = [
            Listed(number, "", Plant(number, 1 if number <= 16 else 2, (20_000, 60_000)))
            for number in range(1, DEVELOPERS + 1)
        ]
        served = self.served(listed)
        auctioneer = served.at(AUCTIONEER)
        for form, fields in (("set_up", SETTINGS), ("listed", {})):
            self.assertEqual(auctioneer.post(form, fields).reply[2:], "00")
        begun = {seat: kept(self.path, seat) for seat in SEATS}
        calls = SECONDS * A_SECOND or CALLS
        each = calls // len(SEATS)
        first = 1 / A_SECOND if SECONDS else 0.0
        pause = len(SEATS) * first
        clients = [
            _Seat(
                served.at(seat), seat, range(place * each, (place + 1) * each), pause, place * first
            )
            for place, seat in enumerate(SEATS)
        ]
        start = time.monotonic()
        for client in clients:
            client.start()
        for client in clients:
            client.join()
        taken = time.monotonic() - start
        for client in clients[1:-1]:
            if client.seat != AUDITOR:
                asked = [*begun[client.seat], *client.asked]
                self.assertEqual(unfit(kept(self.path, client.seat), asked), "")
        # The two of one seat mix their lines; each still is answered as the engine replies.
        both = [*clients[1].asked, *clients[-1].asked]
        self.assertEqual(sorted(kept(self.path, AUDITOR)), sorted(both))
        self.assertEqual(
            unfit(kept(self.path, AUCTIONEER), [*begun[AUCTIONEER], *clients[0].asked]), ""
        )
        self.assertEqual(sum(len(client.asked) for client in clients), each * len(SEATS))
        self._say([time for client in clients for time in client.times], taken)

    def _say(self, times: list[float], taken: float) -> None:
        content = self.path.read_bytes()
        start = time.monotonic()
        for _ in range(20):
            library.session_replay(content)
        bare = (time.monotonic() - start) / 20
        times.sort()
        median, high = times[len(times) // 2], times[len(times) * 99 // 100]
        print(
            f"{len(times)} calls of {len(SEATS)} clients in {taken:.1f} s: median"
            f" {1e3 * median:.1f} ms, 99th percentile {1e3 * high:.1f} ms; one session_replay of the"
            f" whole, {len(content):,} bytes: {1e3 * bare:.2f} ms, ratio {high / bare:.0f}"
        )


if __name__ == "__main__":
    unittest.main()
