"""Nobody where they do not belong: damaged requests, slow clients, and bounds on all."""

from __future__ import annotations

import collections
import http.client
import io
import random
import socket
import time
import unittest
from unittest import mock
from urllib.parse import quote, urlencode

from halls import PATIENCE, SETTINGS, Client, HallTest, Served, in_round
from reference_engine import library
from reference_engine.hall import server
from reference_engine.hall.forms import FORMS
from reference_engine.session import AUCTIONEER, AUDITOR, Seat

REQUESTS = 2_000
CARLA, FOURTH = Seat.developer(3), Seat.developer(4)
# What the fourth developer alone may see: its level and the price of its offer.
SECRETS = (b"123457", b"123,457", b"31.337", b"31337")
EXPECTED = {200, 204, 303, 400, 404, 405, 413, 415, 422, 431, 501, 503}
NASTY = [
    "", " ", "0", "-1", "1e9", "NaN", "9" * 400, "0x10", "\u0663", "\x00", "\r\nX: y", "%", "%zz", "26,5",
    "<script>alert(1)</script>", "\"><img src=x onerror=alert(1)>", "'; DROP TABLE seats; --", "{{7*7}}",
    "../../../etc/passwd", "\ud7ff\u202e", "a" * 3_000, "1 " * 200,
]  # fmt: skip


def answered(port: int, content: bytes) -> bytes:
    """What the server sends to these bytes, down to its end; the client sends nothing else."""
    with socket.create_connection(("127.0.0.1", port), timeout=PATIENCE) as connection:
        try:
            connection.sendall(content)
            connection.shutdown(socket.SHUT_WR)
        except OSError:
            pass  # it was answered before all was sent
        found = b""
        while True:
            try:
                chunk = connection.recv(65_536)
            except ConnectionResetError:
                return found
            if not chunk:
                return found
            found += chunk


class _Damaged:
    """Requests that no browser would send, or only a wicked one's."""

    def __init__(self, choice: random.Random, keys: list[str]) -> None:
        self.choice, self.keys = choice, keys
        self.makers = [
            self.noise,
            self.cut,
            self.bent,
            self.long,
            self.mistyped,
            self.traversing,
            self.typed,
            self.asked_otherwise,
            self.wrong_key,
            self.framed,
        ]

    def one(self) -> bytes:
        return self.choice.choice(self.makers)()

    def key(self) -> str:
        return self.choice.choice(self.keys)

    def request(self, method: str, path: str, body: bytes = b"", *headers: str) -> bytes:
        lines = [f"{method} {path} HTTP/1.1", "Host: hall", *headers]
        return "\r\n".join([*lines, "", ""]).encode("utf-8", "surrogatepass") + body

    def form(self, path: str, fields: dict[str, str]) -> bytes:
        body = urlencode(fields, errors="surrogatepass").encode()
        kind = "Content-Type: application/x-www-form-urlencoded"
        return self.request("POST", path, body, kind, f"Content-Length: {len(body)}")

    def sound(self) -> bytes:
        path = f"/{self.key()}"
        if self.choice.random() < 0.5:
            return self.request("GET", path)
        return self.form(
            f"{path}/{self.choice.choice(sorted(FORMS))}",
            {"c": "30", "price1": "33", "level1": "0"},
        )

    # ---- kinds of damage

    def noise(self) -> bytes:
        return self.choice.randbytes(
            self.choice.randint(0, 400)
        ) + b"\r\n\r\n" * self.choice.randint(0, 1)

    def cut(self) -> bytes:
        whole = self.sound()
        return whole[: self.choice.randint(0, len(whole) - 1)]

    def bent(self) -> bytes:
        content = bytearray(self.sound())
        for _ in range(self.choice.randint(1, 6)):
            content[self.choice.randrange(len(content))] = self.choice.randrange(256)
        return bytes(content)

    def long(self) -> bytes:
        many = self.choice.choice([5_000, 20_000, 70_000])
        return self.choice.choice(
            [
                self.request("GET", "/" + "a" * many),
                self.request("GET", f"/{self.key()}", b"", f"X: {'b' * many}"),
                self.request(
                    "GET", f"/{self.key()}", b"", *[f"X{each}: y" for each in range(many // 40)]
                ),
                self.request("GET", f"/{self.key()}?shown={'c' * many}"),
                self.form(f"/{self.key()}/offer", {"price1": "1" * many}),
                self.form(f"/{self.key()}/offer", {f"p{each}": "1" for each in range(many // 50)}),
            ]
        )

    def mistyped(self) -> bytes:
        kind = self.choice.choice(
            ["application/json", "multipart/form-data; boundary=x", "text/plain", "", "é"]
        )
        length = self.choice.choice(
            ["-1", "abc", "1e3", "99999999999", "0x10", "5, 5", " ", "+4", "16385"]
        )
        path = f"/{self.key()}/{self.choice.choice(sorted(FORMS))}"
        body = self.choice.choice([b"{}", b"--x\r\n", b"a=b&c", b"%ff%fe=1", b"\xff\xfe"])
        if self.choice.random() < 0.5:
            return self.request(
                "POST", path, body, f"Content-Type: {kind}", f"Content-Length: {len(body)}"
            )
        return self.request(
            "POST", path, body, f"Content-Type: {kind}", f"Content-Length: {length}"
        )

    def traversing(self) -> bytes:
        up = self.choice.choice(["..", "%2e%2e", "..%2f..", "....", ".", "%00", "..\\", "%c0%ae"])
        first, second = self.choice.choice(["", self.key()]), self.choice.choice(["", self.key()])
        file = self.choice.choice(
            ["etc/passwd", "class.session", "class.session.seats", "hall.py", ""]
        )
        path = f"/{first}/{up}/{second}/{up}/{file}".replace("//", self.choice.choice(["/", "//"]))
        return self.request(self.choice.choice(["GET", "POST"]), path)

    def typed(self) -> bytes:
        names = [
            "price1",
            "level1",
            "price2",
            "level2",
            "developer",
            "c",
            "ce",
            "d",
            "m1",
            "m2",
            "a",
        ]
        names += [
            "project",
            "kind",
            "levels",
            "study",
            "day",
            "agent",
            "limit",
            "number",
            "first",
            "prices",
        ]
        fields = {name: self.choice.choice(NASTY) for name in self.choice.sample(names, 6)}
        if self.choice.random() < 0.2:
            query = urlencode(fields, errors="surrogatepass")
            return self.request("GET", f"/{self.key()}?{query}")
        form = self.choice.choice(
            [*sorted(FORMS), "listed", "renew", "changes", quote(self.choice.choice(NASTY))]
        )
        return self.form(f"/{self.key()}/{form}", fields)

    def asked_otherwise(self) -> bytes:
        methods = [
            "PUT",
            "DELETE",
            "OPTIONS",
            "TRACE",
            "CONNECT",
            "PATCH",
            "get",
            "HEAD",
            "G" * 30,
            "GET\t",
        ]
        path = f"/{self.choice.choice([self.key(), 'x'])}/{self.choice.choice(['', 'close', 'changes'])}"
        return self.request(self.choice.choice(methods), path, b"", "Content-Length: 0")

    def wrong_key(self) -> bytes:
        key = list(self.key())
        key[self.choice.randrange(len(key))] = self.choice.choice("abcXYZ019-_.~")
        wrong = "".join(key) + self.choice.choice(["", "x", "%20", "/"])
        if wrong.rstrip("/") in self.keys:
            wrong = "x"
        if self.choice.random() < 0.5:
            return self.request("GET", f"/{wrong}")
        return self.form(f"/{wrong}/close", {})

    def framed(self) -> bytes:
        """HTTP that two servers could read in two ways."""
        head = self.choice.choice(
            [
                ["Transfer-Encoding: chunked"],
                ["Content-Length: 3", "Content-Length: 4"],
                ["Content-Length: 3", "Transfer-Encoding: chunked"],
                ["X: y", " folded: z"],
                ["Bad Header: z"],
                [": z"],
                ["X:\x01"],
                ["Expect: 100-continue", "Content-Length: 900"],
            ]
        )
        start = self.choice.choice(["HTTP/1.1", "HTTP/0.9", "HTTP/2", "", "http/1.1"])
        lines = [f"POST /{self.key()}/keep {start}", "Host: hall", *head, "", ""]
        return (
            self.choice.choice(["\r\n", "\n"]).join(lines).encode()
            + b"0\r\n\r\nGET / HTTP/1.1\r\n\r\n"
        )


class Damaged(HallTest):
    def test_damaged_requests(self) -> None:
        """None ends the server, shows a traceback, a link, or what is another seat's alone."""
        served = self.served(wait=0.0)
        in_round(served)
        self.assertReplies(served.at(FOURTH).post("offer", price1="31.337", level1="0"), "0400")
        keys = {seat: served.at(seat).key for seat in (AUCTIONEER, AUDITOR, CARLA)}
        others = [each.key.encode() for each in served.hall.seats.all() if each.seat not in keys]
        damaged = _Damaged(random.Random(40), [keys[CARLA], keys[CARLA], keys[AUDITOR]])
        statuses: collections.Counter[int] = collections.Counter()
        with mock.patch("sys.stderr", io.StringIO()) as said:
            for _ in range(REQUESTS):
                request = damaged.one()
                found = answered(served.port, request)
                statuses[self.seen(request, found, others)] += 1
        self.assertEqual(said.getvalue(), "")
        self.assertEqual(statuses.total(), REQUESTS)
        for status in (200, 303, 400, 404, 405, 413, 415, 422, 431, 501):
            self.assertGreater(statuses[status], 0, status)
        self.assertIn("31.337", served.at(FOURTH).get().text)
        content = self.path.read_bytes()
        replies = library.session_replay(content).split()
        self.assertEqual(len(replies), content.count(b"\n"))
        self.assertNotIn(b"FF0C", replies)
        self.assertEqual(bytes(served.hall.known(AUDITOR).session), content)
        print(", ".join(f"{status or 'none'}: {statuses[status]}" for status in sorted(statuses)))

    def seen(self, request: bytes, found: bytes, others: list[bytes]) -> int:
        """The status of an answer that tells nothing; 0 where there is none."""
        for wrong in (
            b"Traceback",
            b'File "',
            b"reference_engine",
            b"<script>alert",
            b"<img",
            b"root:",
            *others,
        ):
            self.assertNotIn(wrong, found, request)
        for secret in SECRETS:
            self.assertNotIn(secret, found, request)
        if not found:
            return 0
        if found.startswith(b"HTTP/1.1 100 Continue\r\n\r\n"):
            found = found[25:]
        head, _, body = found.partition(b"\r\n\r\n")
        self.assertRegex(head, rb"^HTTP/1.1 [0-9]{3} [A-Za-z ]+\r\n", request)
        status = int(head[9:12])
        self.assertIn(status, EXPECTED, request)
        if status == 404:
            self.assertNotIn(b"data-page", body)
        return status


class Bounds(HallTest):
    def test_slow_clients(self) -> None:
        """Who does not send on is closed on, and others are served meanwhile."""
        served = self.served(patience=1.0)
        key = served.at(CARLA).key.encode()
        starts = [
            b"",
            b"G",
            b"GET /" + key,
            b"POST /" + key + b"/keep HTTP/1.1\r\nContent-Length: 9\r\n\r\na",
        ]
        slow = [
            socket.create_connection(("127.0.0.1", served.port), timeout=PATIENCE)
            for _ in range(20)
        ]
        for place, connection in enumerate(slow):
            self.addCleanup(connection.close)
            connection.sendall(starts[place % len(starts)])
        kept = self.path.read_bytes()
        self.assertEqual(self.status_at_last(served), 200)
        for connection in slow:
            self.assertEqual(connection.recv(100), b"")
        self.assertEqual(self.path.read_bytes(), kept)

    def test_dripping_clients(self) -> None:
        """The time is that of a whole request: a byte now and then does not prolong it."""
        served = self.served(patience=0.5)
        with socket.create_connection(("127.0.0.1", served.port), timeout=PATIENCE) as connection:
            connection.settimeout(0.05)
            sent = 0
            while sent < 10_000:
                try:
                    connection.sendall(b"a")
                    sent += 1
                    if not connection.recv(100):
                        break
                except TimeoutError:
                    continue
                except OSError:
                    break
            self.assertLess(sent, 10_000)

    def test_many_connections(self) -> None:
        """Beyond the bound they are closed at once, and served again when others have ended."""
        with mock.patch.object(server, "_CONNECTIONS", 3):
            served = self.served()
        held = [
            socket.create_connection(("127.0.0.1", served.port), timeout=PATIENCE) for _ in range(3)
        ]
        refused = socket.create_connection(("127.0.0.1", served.port), timeout=PATIENCE)
        self.assertEqual(refused.recv(100), b"")
        refused.close()
        for connection in held:
            connection.close()
        self.assertEqual(self.status_at_last(served), 200)

    def status_at_last(self, served: Served) -> int:
        """The status of a page, tried again while the server closes on it."""
        for _ in range(200):
            try:
                return served.at(CARLA).get().status
            except (OSError, http.client.HTTPException):
                time.sleep(0.05)
        return 0

    def test_post_alone_changes(self) -> None:
        served = self.served()
        auctioneer = served.at(AUCTIONEER)
        kept = self.path.read_bytes()
        query = urlencode(SETTINGS)
        self.assertEqual(auctioneer.get(f"/set_up?{query}").status, 404)
        self.assertEqual(auctioneer.get(f"?{query}").status, 200)
        self.assertEqual(Client(served.port, "x").post("set_up", SETTINGS).status, 404)
        self.assertEqual(self.path.read_bytes(), kept)

    def test_longest_that_is_read(self) -> None:
        served = self.served()
        client = served.at(CARLA)
        self.assertEqual(client.post("offer", price1="1" * 16_300).status, 422)
        self.assertEqual(client.post("offer", price1="1" * 16_400).status, 413)
        self.assertEqual(client.post("offer", {f"x{each}": "" for each in range(65)}).status, 400)

    def test_listens_here_alone(self) -> None:
        served = Served(self.path)
        self.addCleanup(served.end)
        self.assertEqual(served.server.server_address[0], "127.0.0.1")


if __name__ == "__main__":
    unittest.main()
