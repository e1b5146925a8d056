"""Nothing is lost: halls killed under load, torn lines, a full disk, a second writer."""

from __future__ import annotations

import errno
import http.client
import os
import random
import subprocess
import sys
import threading
import unittest
from pathlib import Path
from unittest import mock

from halls import CLASS, SETTINGS, Client, HallTest, Served, in_round
from reference_engine import library
from reference_engine.command import BadInput
from reference_engine.hall import store
from reference_engine.hall.forms import line_of
from reference_engine.hall.hall import Hall
from reference_engine.hall.store import NotKept, SessionFile
from reference_engine.session import AUCTIONEER, AUDITOR, Seat, Session

KILLS = 200
SEATS = [AUCTIONEER, AUDITOR, Seat.developer(3), Seat.developer(4)]


class Keeper:
    """The process that starts halls and kills them."""

    def __init__(self, path: Path) -> None:
        keeper = Path(__file__).with_name("hall_keeper.py")
        self._process = subprocess.Popen(
            [sys.executable, str(keeper), str(path)],
            stdin=subprocess.PIPE,
            stdout=subprocess.PIPE,
            text=True,
        )

    def start(self, limit: int = 0) -> tuple[int, int]:
        """Starts a hall: its port, and how many bytes it dropped."""
        port, dropped = self._ask(f"start {limit}").split()
        return int(port), int(dropped)

    def kill(self) -> int:
        """Kills the hall, and gives its exit status."""
        return int(self._ask("kill"))

    def _ask(self, command: str) -> str:
        assert self._process.stdin and self._process.stdout
        self._process.stdin.write(f"{command}\n")
        self._process.stdin.flush()
        return self._process.stdout.readline()

    def end(self) -> None:
        self._process.communicate()


class _Load:
    """Clients of some seats, one call at a time each, over the lives of a hall."""

    def __init__(self, keys: dict[Seat, str]) -> None:
        self._keys = keys
        self._changed = threading.Condition()
        self._port = 0
        self._life = 0
        self._waiting = 0
        self._answered = 0
        self._ended = False
        #: What each seat has asked: the line, and its reply if it was answered.
        self.asked: dict[Seat, list[tuple[bytes, str | None]]] = {seat: [] for seat in keys}
        self._threads = [threading.Thread(target=self._client, args=(seat,)) for seat in keys]
        for thread in self._threads:
            thread.start()

    def live(self, port: int, calls: int) -> bool:
        """Lets the clients call until so many are answered; False if the hall went before."""
        with self._changed:
            self._port, self._life, self._waiting = port, self._life + 1, 0
            target = self._answered + calls
            self._changed.notify_all()
            self._changed.wait_for(
                lambda: self._answered >= target or self._waiting == len(self._threads)
            )
            return self._answered >= target

    def gone(self) -> None:
        """Waits until every client has seen that the hall is gone."""
        with self._changed:
            self._changed.wait_for(lambda: self._waiting == len(self._threads))

    def end(self) -> None:
        with self._changed:
            self._ended = True
            self._changed.notify_all()
        for thread in self._threads:
            thread.join()

    def _client(self, seat: Seat) -> None:
        life = 0
        while True:
            with self._changed:
                self._waiting += life > 0
                self._changed.notify_all()
                self._changed.wait_for(lambda: self._life > life or self._ended)
                if self._ended:
                    return
                life, port = self._life, self._port
            while not self._ended and self._call(seat, port):
                pass

    def _call(self, seat: Seat, port: int) -> bool:
        """Makes the seat's next call; False where there is no answer."""
        form, fields = _next(seat, len(self.asked[seat]))
        line = line_of(form, seat, fields)
        try:
            reply = Client(port, self._keys[seat]).post(form, fields).reply
        except (OSError, http.client.HTTPException):
            self.asked[seat].append((line, None))
            return False
        self.asked[seat].append((line, reply))
        with self._changed:
            self._answered += 1
            self._changed.notify_all()
        return True


def _next(seat: Seat, number: int) -> tuple[str, dict[str, str]]:
    """The call of that number: offers of prices that differ, and cancellations between them."""
    if seat == AUCTIONEER:
        return "open", {"c": str(number)}
    if seat == AUDITOR:
        return "settle", {"limit": str(number)}
    if number % 2:
        return "cancel", {}
    return "offer", {
        "price1": f"{30 + number // 2_000 % 10}.{number // 2 % 1_000:03}",
        "level1": "0",
    }


def unfit(lines: list[tuple[bytes, str]], asked: list[tuple[bytes, str | None]]) -> str:
    """Why a file's lines of a seat, with their replies, are not what it asked; empty if they are.

    Every answered line is there, with its reply, in the seat's order; one that was not answered is
    there or not; there is no other.
    """
    places = {0}  # how many of the file's lines what was asked so far may be
    for line, reply in asked:
        found = {
            place + 1
            for place in places
            if place < len(lines) and lines[place] == (line, reply or lines[place][1])
        }
        if reply is None:
            found |= places
        if not found:
            return f"answered and not kept: {line!r} {reply}"
        places = found
    return "" if len(lines) in places else f"never asked: {lines[max(places):]}"


def kept(path: Path, seat: Seat) -> list[tuple[bytes, str]]:
    """The lines of a seat in a file, with the library's replies."""
    content = path.read_bytes()
    digits = library.write_seat(seat.kind, seat.number)
    replies = library.session_replay(content).decode().split()
    lines = content.splitlines(keepends=True)
    return [(line, reply) for line, reply in zip(lines, replies, strict=True) if line[:4] == digits]


class Killed(HallTest):
    def test_killed_under_load(self) -> None:
        """Killed at any moment, the file replays to exactly the answers that were given."""
        served = Served(self.path, CLASS)
        in_round(served)
        keys = {seat: served.at(seat).key for seat in SEATS}
        served.end()
        begun = {seat: kept(self.path, seat) for seat in SEATS}
        choice = random.Random(9)
        keeper, load = Keeper(self.path), _Load(keys)
        torn = dropped = 0
        try:
            for _ in range(KILLS):
                port, found = keeper.start()
                self.assertEqual(found, torn)
                self.assertTrue(self.path.read_bytes().endswith(b"\n"))
                dropped += found > 0
                self.assertTrue(load.live(port, choice.randint(1, 12)), "it went by itself")
                self.assertEqual(keeper.kill(), -9)
                load.gone()
                torn = 0
                if choice.random() < 0.3:
                    # As a machine that goes down in the middle of a line may leave it.
                    line = line_of("offer", SEATS[2], {"price1": "31", "level1": "0"})
                    torn = choice.randint(1, len(line) - 1)
                    with self.path.open("ab") as file:
                        file.write(line[:torn])
        finally:
            load.end()
            keeper.end()
        hall = Hall(self.path)
        hall.close()
        unanswered = lost = 0
        for seat in SEATS:
            asked = [*begun[seat], *load.asked[seat]]
            self.assertEqual(unfit(kept(self.path, seat), asked), "")
            unanswered += sum(reply is None for _, reply in asked)
            lost += len(asked) - len(kept(self.path, seat))
        calls = sum(map(len, load.asked.values()))
        self.assertGreater(calls, KILLS)
        print(
            f"{KILLS} kills, {calls} calls, {unanswered} unanswered, of which"
            f" {unanswered - lost} were kept; {dropped} torn lines dropped"
        )

    def test_the_comparison_sees_faults(self) -> None:
        lines = [(b"a", "0400"), (b"b", "0900")]
        self.assertEqual(unfit(lines, [(b"a", "0400"), (b"x", None), (b"b", None)]), "")
        self.assertIn("answered and not kept", unfit(lines[:1], [*lines]))
        self.assertIn("answered and not kept", unfit(lines, [(b"a", "0408"), (b"b", "0900")]))
        self.assertIn("never asked", unfit(lines, [(b"a", "0400")]))
        self.assertIn("answered and not kept", unfit(lines, [lines[1], lines[0]]))


class FullDisk(HallTest):
    def test_file_that_cannot_grow(self) -> None:
        """The kernel writes a part of a line and no more: 503, and the session is what it was."""
        served = Served(self.path, CLASS)
        in_round(served)
        key = served.at(SEATS[2]).key
        served.end()
        before = self.path.read_bytes()
        keeper = Keeper(self.path)
        self.addCleanup(keeper.end)
        port, _ = keeper.start(len(before) + 25)
        client = Client(port, key)
        self.assertReplies(client.post("cancel"), "0910")
        after = self.path.read_bytes()
        for _ in range(3):
            page = client.get().text
            answer = client.post("offer", price1="31", level1="0")
            self.assertEqual(answer.status, 503)
            self.assertIn("so it was not made", answer.text)
            self.assertEqual(self.path.read_bytes(), after)
            self.assertEqual(client.get().text, page)
        self.assertReplies(client.post("cancel"), "0910")
        self.assertEqual(keeper.kill(), -9)
        port, _ = keeper.start()
        self.assertReplies(Client(port, key).post("offer", price1="31", level1="0"), "0400")
        self.assertEqual(keeper.kill(), -9)

    def test_no_space_left(self) -> None:
        served = self.served()
        in_round(served)
        client, before = served.at(SEATS[2]), self.path.read_bytes()
        write = os.pwrite

        def full(file: int, content: bytes, at: int) -> int:
            if len(content) < 10:
                raise OSError(errno.ENOSPC, os.strerror(errno.ENOSPC))
            return write(file, content[:10], at)

        for name, failing in (
            ("pwrite", full),
            (
                "fsync",
                mock.Mock(side_effect=[OSError(errno.ENOSPC, "No space left on device"), None] * 9),
            ),
        ):
            with mock.patch.object(store.os, name, failing):
                answer = client.post("keep")
            self.assertEqual(answer.status, 503)
            self.assertIn("No space left on device", answer.text)
            self.assertEqual(answer.headers["retry-after"], "5")
            self.assertEqual(self.path.read_bytes(), before)
        self.assertReplies(client.post("keep"), "0400")

    def test_what_cannot_be_taken_back(self) -> None:
        """Where a written part cannot be cut off, no line is taken until the hall starts again."""
        served = self.served()
        in_round(served)
        client, before = served.at(SEATS[2]), self.path.read_bytes()
        failing = mock.Mock(side_effect=OSError(errno.EIO, "Input/output error"))
        with mock.patch.object(store.os, "fsync", failing):
            self.assertEqual(client.post("keep").status, 503)
        self.assertEqual(client.post("keep").status, 503)
        self.assertEqual(client.get().status, 200)
        self.assertEqual(self.path.read_bytes(), before)

    def test_links_that_cannot_be_kept(self) -> None:
        served = self.served()
        old = served.at(SEATS[2])
        with mock.patch.object(store.os, "replace", side_effect=OSError(errno.ENOSPC, "full")):
            self.assertEqual(served.at(AUCTIONEER).post("renew", kind="2", number="3").status, 503)
        self.assertEqual(old.get().status, 200)
        self.assertEqual([each.name for each in self.path.parent.glob("*.new")], [])

    def test_longest_session(self) -> None:
        with mock.patch.object(store, "LONGEST", 60):
            served = self.served()
            auctioneer = served.at(AUCTIONEER)
            self.assertReplies(auctioneer.post("set_up", SETTINGS), "0100")
            self.assertEqual(auctioneer.post("open", c="30").status, 503)
            self.assertIn("at most 60 bytes", auctioneer.post("open", c="30").text)


class Synced(HallTest):
    def test_synced_before_the_answer(self) -> None:
        """Each line, a refused one too, is whole in the file when it is synced, once."""
        hall = Hall(self.path)
        self.addCleanup(hall.close)
        seen: list[bytes] = []
        sync = os.fsync

        def synced(file: int) -> None:
            seen.append(self.path.read_bytes())
            sync(file)

        expected = b""
        with mock.patch.object(store.os, "fsync", synced):
            for form, fields in (("open", {"c": "1"}), ("set_up", SETTINGS), ("close", {})):
                line = line_of(form, AUCTIONEER, fields)
                expected += line
                hall.ask(AUCTIONEER, line)
                self.assertEqual(seen[-1], expected)
        self.assertEqual(len(seen), 3)


class Files(HallTest):
    def test_one_writer(self) -> None:
        served = self.served()
        with self.assertRaisesRegex(BadInput, "another hall serves"):
            Hall(self.path)
        self.assertEqual(served.at(AUCTIONEER).get().status, 200)

    def test_unfinished_line_is_said(self) -> None:
        self.path.write_bytes(b"00000300007530\n0000030000")
        said: list[str] = []
        hall = Hall(self.path, (), said.append)
        hall.close()
        self.assertEqual(self.path.read_bytes(), b"00000300007530\n")
        self.assertEqual(len(said), 1)
        self.assertIn("unfinished, so nobody was told of it; its 10 bytes are dropped", said[0])

    def test_any_bytes(self) -> None:
        """A file that is no session is served, and its lines are malformed."""
        self.path.write_bytes(bytes(range(256)) * 3 + b"\n\r\n00\n")
        hall = Hall(self.path)
        self.addCleanup(hall.close)
        line = line_of("open", AUCTIONEER, {"c": "1"})
        self.assertEqual(hall.ask(AUCTIONEER, line).reply_text, "0302")

    def test_too_long(self) -> None:
        with mock.patch.object(store, "LONGEST", 8):
            self.path.write_bytes(b"00000505\n")
            with self.assertRaisesRegex(BadInput, "has more than 8 bytes"):
                SessionFile(self.path)

    def test_bad_file_of_seats(self) -> None:
        for content in (
            "",
            "{}",
            "[]",
            '{"seats": [{}]}',
            '{"seats": [{"seat": {"kind": 0, "number": 0}, "key": "a", "name": "", "plant": null}]}',
        ):
            Path(f"{self.path}.seats").write_text(content)
            with self.assertRaisesRegex(BadInput, "is no file of seats"):
                Hall(self.path)

    def test_not_kept_is_not_answered(self) -> None:
        """The session that is asked, pages too, has no line that is not in the file."""
        served = self.served()
        in_round(served)
        known = served.hall.known(SEATS[2])
        with mock.patch.object(served.hall._file, "append", side_effect=NotKept("full")):
            self.assertEqual(served.at(SEATS[2]).post("keep").status, 503)
        self.assertEqual(bytes(served.hall.known(SEATS[2]).session), bytes(known.session))
        self.assertEqual(bytes(known.session), self.path.read_bytes())
        self.assertEqual(Session(self.path.read_bytes()).reading(SEATS[2]), known.reading)


if __name__ == "__main__":
    unittest.main()
