"""Sessions: calls through seats, what each seat may ask, reads and is answered."""

from __future__ import annotations

import contextlib
import copy
import io
import random
import tempfile
import unittest
from collections.abc import Callable
from pathlib import Path

from records import ROOT, Index, lodged, long_record, processor_seconds, random_record, sample
from reference_engine import (
    AUCTIONEER,
    AUDITOR,
    Closed,
    CurvePoint,
    Forced,
    Phase,
    Preview,
    Reading,
    Record,
    Refused,
    Reply,
    Seat,
    Session,
    Settled,
    Step,
    library,
    who_can_force,
)
from reference_engine.__main__ import main
from reference_engine.calls import Call, Cancellation, Malformed, Offer

TWO, THREE = Seat.developer(2), Seat.developer(3)
NO_SEATS = (Seat(0, 1), Seat(1, 2), Seat(3), Seat(2**64 - 1), Seat(0, 2**64 - 1))


def prepared() -> Session:
    """An auction of an existing plant and two new ones, before its first round."""
    hall = Session()
    auctioneer = hall.at(AUCTIONEER)
    auctioneer.set_up(20_000, 1_000_000, 900_000, 1_200_000, 40_000)
    auctioneer.register(1, 1, 1, [700_000, 800_000]).at(AUCTIONEER).lodge(1, [(29_000, 700_000)])
    auctioneer.register(2, 2, 2, [100_000, 200_000], study=400, day=10)
    return auctioneer.register(3, 3, 2, [150_000])


def four_seats() -> Session:
    """Four seats over two rounds: what they may ask, and some that they may not."""
    hall = prepared()
    hall.at(TWO).register(4, 4, 2, [1])  # barred
    hall.at(AUCTIONEER).open(35_000)
    hall.at(TWO).offer(2, [(36_000, 100_000)])
    hall.at(TWO).offer(3)  # barred
    hall.at(THREE).offer(3)
    hall.at(THREE).cancel(2)  # barred
    hall.at(THREE).cancel(3)
    hall.at(THREE).offer(3)
    hall.at(AUDITOR).close()  # barred
    hall.at(AUCTIONEER).close().append(AUDITOR, b"0g")  # malformed
    hall.at(AUDITOR).settle()  # refused by 2
    hall.at(AUCTIONEER).open(25_000)
    hall.at(AUCTIONEER).offer(2)  # barred
    hall.at(TWO).offer(2, [(28_000, 0)])
    hall.at(THREE).offer(3, [(27_000, 0)])
    hall.at(AUCTIONEER).close()
    hall.at(THREE).settle()  # barred
    return hall.at(AUDITOR).settle()


def permitted() -> Record:
    """The calls of `four_seats` that are made, without what is barred or malformed."""
    record = Record().set_up(20_000, 1_000_000, 900_000, 1_200_000, 40_000)
    record.register(1, 1, 1, [700_000, 800_000]).lodge(1, [(29_000, 700_000)])
    record.register(2, 2, 2, [100_000, 200_000], study=400, day=10).register(3, 3, 2, [150_000])
    record.open(35_000).offer(2, [(36_000, 100_000)]).offer(3).cancel(3).offer(3).close().settle()
    return record.open(25_000).offer(2, [(28_000, 0)]).offer(3, [(27_000, 0)]).close().settle()


def seated(record: Record, choice: random.Random) -> Session:
    """The record's calls through the seats that may make them, with barred ones between."""
    session = Session()
    for line in record.lines():
        if choice.random() < 0.2:
            barred = choice.choice((AUDITOR, Seat.developer(choice.randint(1, 32))))
            session.at(barred).close()
        session.append(_seat(line.call), line.text)
    return session


def first_lines(session: Session, count: int) -> Session:
    """So many lines of a session."""
    return Session(b"".join(bytes(session).splitlines(True)[:count]))


def _seat(call: Call) -> Seat:
    moved = isinstance(call, (Offer, Cancellation))
    return Seat.developer(call.developer) if moved else AUCTIONEER


class Case(unittest.TestCase):
    def assert_refused(self, number: int, call: Callable[..., object], *arguments: object) -> None:
        with self.assertRaises(Refused) as raised:
            call(*arguments)
        self.assertEqual(raised.exception.refusal.number, number)


class Seats(Case):
    def test_in_words(self) -> None:
        words = [str(each) for each in (AUCTIONEER, AUDITOR, TWO, Seat(0, 1), Seat(3))]
        none = ["no seat (kind 0, number 1)", "no seat (kind 3, number 0)"]
        self.assertEqual(words, ["auctioneer", "auditor", "developer 2", *none])

    def test_values(self) -> None:
        self.assertEqual(Seat.developer(Index(2)), Seat(Index(2), Index(2)))
        self.assertEqual(len({Seat(0), AUCTIONEER, Seat(1), AUDITOR, TWO, Seat(2, 2)}), 3)

    def test_wrong_types(self) -> None:
        for wrong in (1.0, "1", True, None, TWO):
            for made in (Seat, Seat.developer, lambda number: Seat(2, number)):
                with self.assertRaises(TypeError):
                    made(wrong)
        for wrong in (-1, 2**64):
            with self.assertRaises(ValueError):
                Seat.developer(wrong)

    def test_digits(self) -> None:
        for seat, digits in ((AUCTIONEER, b"0000"), (AUDITOR, b"0100"), (Seat(2, 255), b"02FF")):
            self.assertEqual(library.write_seat(seat.kind, seat.number), digits)
        session = Session(b"000005\n")
        for seat in (*NO_SEATS, Seat(2, 256)):
            self.assert_refused(14, library.write_seat, seat.kind, seat.number)
            self.assert_refused(14, session.at(seat).close)
            self.assert_refused(14, session.append, seat, b"05")
        self.assertEqual(session, Session(b"000005\n"))


class Lines(Case):
    def test_session_of_the_format(self) -> None:
        """The table of docs/FORMAT.md, line by line."""
        page = (ROOT / "docs/FORMAT.md").read_text(encoding="utf-8")
        table = page.split("## Sessions\n")[1].split("| Line | Says | Reply |\n")[1]
        table = table.split("\n\n")[0]
        rows = [row.strip("|").split("|") for row in table.splitlines()[1:]]
        lines = [row[0].strip().strip("`").replace(" ", "") for row in rows]
        replies = [row[2].strip().strip("`").replace(" ", "") for row in rows]
        session = Session("\n".join(lines).encode())
        self.assertEqual([line.reply_text for line in session.lines()], replies)
        self.assertEqual(len(lines), 13)
        reading = Session("\n".join(lines[:9]).encode()).reading(TWO)
        self.assertEqual(reading.numbers, (40_000, 25_000, 0, 2, 2, 100, 200, 1, 1, 26_000, 100))

    def test_four_seats(self) -> None:
        lines = four_seats().lines()
        barred = [line.number for line in lines if line.reply.number == 20]
        self.assertEqual(barred, [6, 9, 11, 14, 19, 23])
        self.assertEqual([lines[each - 1].seat for each in barred[:3]], [TWO, TWO, THREE])
        (malformed,) = (line for line in lines if line.reply.kind == 0xFF)
        self.assertEqual((malformed.seat, malformed.call), (None, Malformed(b"01000g")))
        others = [line for line in lines if line.reply.number not in (12, 20)]
        calls = [line.call for line in permitted().lines()]
        self.assertEqual([line.call for line in others], calls)
        self.assertEqual([line.reply for line in others], permitted().replies())
        self.assertEqual([reply.ended for reply in four_seats().replies() if reply.ended], [True])
        words = "refused by 20: a call that the seat has no right to make"
        self.assertEqual(str(lines[5].reply.refusal), words)

    def test_append(self) -> None:
        for frame in (b"05", b"05\n", bytearray(b"05"), memoryview(b"05\n")):
            self.assertEqual(Session().append(TWO, frame), Session(b"020205\n"))
        session = Session(b"000005")  # without its 0A
        for frame in (b"05\n000005", b"\n\n", b"05\n05\n"):
            with self.assertRaisesRegex(ValueError, "^a frame is one line"):
                session.append(TWO, frame)
        for wrong in ("05", None, [5], Record(b"05")):
            with self.assertRaisesRegex(TypeError, "^a frame is made of bytes"):
                session.append(TWO, wrong)
        for wrong in (2, "developer 2", None, (2, 2)):
            with self.assertRaisesRegex(TypeError, "^seat must be a Seat"):
                session.append(wrong, b"05")
            with self.assertRaisesRegex(TypeError, "^seat must be a Seat"):
                session.at(wrong)
        self.assertEqual(bytes(session), b"000005")
        odd = [b"", b"\x00\xff\r", b"0" * 200]
        for frame in odd:
            session.append(AUDITOR, frame)
        self.assertEqual(bytes(session), b"000005\n" + b"".join(b"0100%s\n" % each for each in odd))
        self.assertEqual(session.replies(), [Reply(5, 2), *[Reply(255, 12)] * 3])

    def test_read_written_and_copied(self) -> None:
        session = four_seats()
        with tempfile.TemporaryDirectory() as folder:
            session.write(Path(folder, "session"))
            self.assertEqual(Session.read(Path(folder, "session")), session)
        for other in (session.copy(), copy.copy(session), copy.deepcopy(session)):
            self.assertEqual((other, len(other)), (session, len(bytes(session))))
            other.at(AUDITOR).settle()
            self.assertNotEqual(other, session)
        self.assertEqual(eval(repr(session)), session)
        self.assertNotEqual(Session(), Record())
        with self.assertRaisesRegex(TypeError, "^a session is made of bytes"):
            Session("000005")

    def test_round_trip_of_lines(self) -> None:
        choice = random.Random(60)
        for _ in range(10):
            session = seated(random_record(choice), choice)
            again = Session()
            for line in session.lines():
                seat = line.seat or Seat(int(line.text[:2], 16), int(line.text[2:4], 16))
                again.append(seat, line.text[4:])
            self.assertEqual(again, session)

    def test_any_bytes(self) -> None:
        choice = random.Random(61)
        for _ in range(300):
            content = bytes(choice.choices(b"0123456\n\n", k=choice.randrange(200)))
            session = Session(content)
            self.assertEqual(len(session.lines()), len(Record(content).lines()))
            self.assertLessEqual(len(session.record()), len(session))

    def test_longest_replies(self) -> None:
        """Settlings of 32 awards, as many as there are lines behind the closing."""
        session = Session()
        auctioneer = session.at(AUCTIONEER)
        auctioneer.set_up(20_000, 1_000_000, 900_000, 1_200_000, 40_000)
        for number in range(1, 33):
            auctioneer.register(number, number, 1, [40_000])
        auctioneer.open(10_000).at(AUCTIONEER).close()
        content = bytes(session) + b"01000600000001\n" * 1_000
        settled = [each for each in Session(content).replies() if isinstance(each, Settled)]
        self.assertEqual({len(reply.awards) for reply in settled}, {32})
        self.assertEqual(len(settled), 1_000)

    def test_long_sessions_in_time(self) -> None:
        session = seated(long_record(), random.Random(62))
        began = processor_seconds()
        lines = session.lines()
        self.assertGreater(len(lines), 4_000)
        self.assertEqual(session.record(), long_record())
        session.reading(Seat.developer(20))
        self.assertLess(processor_seconds() - began, 30)


class Records(Case):
    def test_of_what_was_permitted(self) -> None:
        self.assertEqual(four_seats().record(), permitted())
        self.assertEqual(Session().record(), Record())

    def test_random(self) -> None:
        """Figures and replies are those of the plain record, at the end of random sessions."""
        choice = random.Random(63)
        settled = left_out = 0
        for _ in range(30):
            record = random_record(choice)
            session = seated(record, choice)
            made = [line for line in session.lines() if line.reply.number not in (12, 20)]
            plain = session.record()
            self.assertEqual([line.reply for line in made], plain.replies())
            self.assertEqual([line.call for line in made], [line.call for line in plain.lines()])
            well_formed = [line.text for line in record.lines() if line.reply.kind != 0xFF]
            self.assertEqual(bytes(plain).splitlines(), well_formed)
            self.assertEqual(session.supply_curve(AUCTIONEER), plain.supply_curve())
            reading, state = session.reading(AUDITOR), plain.state()
            self.assertEqual(
                (reading.opening, reading.closing, reading.excess, reading.phase),
                (state.opening, state.closing, state.excess, state.phase),
            )
            if state.phase is Phase.CLOSED:
                self.assertEqual(session.settlement(AUDITOR), plain.settlement())
                settled += 1
            if state.phase is Phase.ROUND:
                self.assertEqual(session.preview(AUCTIONEER), plain.preview())
            left_out += len(session.lines()) - len(plain.lines())
        self.assertGreater(settled, 10)
        self.assertGreater(left_out, 30)


class Asking(Case):
    def rights(self, session: Session) -> tuple[tuple[Callable[..., object], set[Seat]], ...]:
        """Each question, and the seats that may ask it."""
        every = {AUCTIONEER, AUDITOR, TWO, THREE}
        return (
            (session.reading, every),
            (session.preview, {AUCTIONEER}),
            (session.supply_curve, {AUCTIONEER}),
            (session.settlement, {AUCTIONEER, AUDITOR}),
            (lambda seat: session.who_can_force(seat, 2, 3, [30_000]), {AUCTIONEER}),
        )

    def test_20_comes_first(self) -> None:
        """Without the right 20, in every phase; with it an answer, or another refusal."""
        opened = prepared().at(AUCTIONEER).open(35_000)
        for session in (Session(), prepared(), opened, four_seats()):
            before = bytes(session)
            for asked, seats in self.rights(session):
                for seat in (AUCTIONEER, AUDITOR, TWO, THREE, *NO_SEATS):
                    if seat not in seats:
                        self.assert_refused(20, asked, seat)
                        continue
                    try:
                        asked(seat)
                    except Refused as error:
                        self.assertEqual(error.refusal.number, 2)
            self.assertEqual(bytes(session), before)

    def test_wrong_types(self) -> None:
        for asked, _ in self.rights(Session()):
            for wrong in (0, None, "auctioneer", (0, 0)):
                with self.assertRaisesRegex(TypeError, "^seat must be a Seat"):
                    asked(wrong)

    def test_readings(self) -> None:
        hall, levels = prepared(), (100_000, 200_000)
        numbers = (0, 0, 0, 1, 2, *levels, 0, 0)
        expected = Reading(0, 0, 0, Phase.READY, levels, None, numbers)
        self.assertEqual(hall.reading(TWO), expected)
        none = Reading(0, 0, 0, Phase.READY, None, None, (0, 0, 0, 1))
        self.assertEqual((hall.reading(AUCTIONEER), hall.reading(AUDITOR)), (none, none))
        stranger = hall.reading(Seat.developer(2**64 - 1))
        self.assertEqual((stranger.levels, stranger.offer), ((), None))
        hall.at(AUCTIONEER).open(35_000)
        hall.at(TWO).offer(2, [(36_000, 100_000), (35_500, 0)])
        hall.at(THREE).offer(3)
        offered = hall.reading(TWO)
        self.assertEqual((offered.opening, offered.closing), (40_000, 35_000))
        self.assertEqual(offered.offer, (Step(36_000, 100_000), Step(35_500, 0)))
        self.assertEqual(hall.reading(THREE).offer, ())  # an offer stands, without a step
        hall.at(AUCTIONEER).close()
        for seat in (TWO, AUDITOR):
            reading = hall.reading(seat)
            self.assertEqual((reading.excess, reading.phase), (25_000, Phase.BETWEEN))
            self.assertIsNone(reading.offer)
        self.assertEqual(four_seats().reading(AUDITOR).excess, 700_000 - 975_000)

    def test_eight_levels_and_steps(self) -> None:
        """The longest reading, 31 numbers."""
        levels = [100_000 * level for level in range(1, 9)]
        steps = [(39_000 - step, 700_000 - 100_000 * step) for step in range(8)]
        hall = Session()
        hall.at(AUCTIONEER).set_up(20_000, 1_000_000, 900_000, 1_200_000, 40_000)
        hall.at(AUCTIONEER).register(1, 1, 1, [500_000])
        hall.at(AUCTIONEER).register(2, 2, 2, levels).at(AUCTIONEER).open(30_000)
        reading = hall.at(TWO).offer(2, steps).reading(TWO)
        self.assertEqual((len(reading.numbers), reading.levels), (31, tuple(levels)))
        self.assertEqual(reading.offer, tuple(Step(*each) for each in steps))

    def test_preview_curve_and_settlement(self) -> None:
        hall = prepared().at(AUCTIONEER).open(25_000)
        hall.at(TWO).offer(2, [(28_000, 100_000)])
        self.assertEqual(hall.preview(AUCTIONEER), Preview(800_000 - 975_000, 0, True))
        self.assertEqual(hall.supply_curve(AUCTIONEER), ())
        self.assert_refused(2, hall.settlement, AUDITOR)
        hall.at(AUCTIONEER).close()
        self.assert_refused(2, hall.preview, AUCTIONEER)
        self.assertEqual(hall.supply_curve(AUCTIONEER), hall.record().supply_curve())
        self.assertIn(CurvePoint(29_000, 1_000_000, 900_000), hall.supply_curve(AUCTIONEER))
        self.assertEqual(hall.settlement(AUCTIONEER), hall.record().settlement())
        choices = hall.settlement(AUDITOR).choices
        self.assertEqual(hall.settlement(AUDITOR, choices), hall.settlement(AUDITOR))
        self.assert_refused(10, hall.settlement, AUDITOR, choices - 1)
        for wrong in (1.0, "4", True, None):
            with self.assertRaisesRegex(TypeError, "^limit must be"):
                hall.settlement(AUDITOR, wrong)

    def test_who_can_force(self) -> None:
        hall = prepared().at(AUCTIONEER).open(35_000)
        self.assert_refused(2, hall.who_can_force, AUCTIONEER, 2, 3, [30_000])
        hall.at(TWO).offer(2)
        hall.at(THREE).offer(3)
        hall.at(AUCTIONEER).close()
        prices = [34_000, 30_000, 28_000]
        forced = hall.who_can_force(AUCTIONEER, 2, 3, prices)
        self.assertIsInstance(forced, Forced)
        self.assertEqual(forced, who_can_force(hall.record(), 2, 3, prices))
        self.assert_refused(17, hall.who_can_force, AUCTIONEER, 2, 2, prices)
        with self.assertRaisesRegex(TypeError, "^first must be"):
            hall.who_can_force(AUCTIONEER, "2", 3, prices)
        with self.assertRaisesRegex(TypeError, "^prices must be a list"):
            hall.who_can_force(AUCTIONEER, 2, 3, 30_000)

    def test_too_short_buffers(self) -> None:
        content = bytes(four_seats())
        for name, room, seat in (
            ("session_reading", 3, (0, 0)),
            ("session_reading", 8, (2, 2)),
            ("session_curve", 2, (0, 0)),
        ):
            self.assert_refused(11, library._numbers_of, name, room, 0, content, *seat)
        for name in ("session_replay", "session_record"):
            self.assert_refused(11, library._bytes_of, name, 100, content)


class Views(Case):
    """What a developer is sent tells it nothing of what others offer."""

    def two(self, steps: list[tuple[int, int]], limit: int) -> Session:
        """A session in which what developer 2 does not see differs: the offer of developer 3."""
        hall = prepared().at(AUCTIONEER).open(35_000)
        hall.at(TWO).offer(2, [(36_000, 100_000)])
        hall.at(THREE).offer(3, steps)
        hall.at(TWO).offer(2)  # refused by 8
        hall.at(Seat.developer(limit)).offer(2)  # another's attempt
        hall.at(AUDITOR).settle(limit)
        return hall.at(TWO).cancel(3)

    def test_equal_views_equal_readings(self) -> None:
        first, second = self.two([], 4), self.two([(39_000, 0)], 9)
        self.assertNotEqual(first.record(), second.record())
        self.assertNotEqual(first.preview(AUCTIONEER), second.preview(AUCTIONEER))
        for count in range(1, len(first.lines()) + 1):
            before = [first_lines(each, count) for each in (first, second)]
            readings = [each.reading(TWO) for each in before]
            self.assertEqual(readings[0], readings[1])
            own = [[line.reply for line in each.lines() if line.seat == TWO] for each in before]
            self.assertEqual(own[0], own[1])
        self.assertNotEqual(first.reading(THREE), second.reading(THREE))
        self.assertTrue(own[0])

    def test_until_it_is_published(self) -> None:
        """The excess of the closing is for everybody, and so the views then differ."""
        first, second = self.two([], 4), self.two([(39_000, 0)], 9)
        for hall in (first, second):
            hall.at(AUCTIONEER).close()
        self.assertNotEqual(first.reading(TWO), second.reading(TWO))


class Refusals(Case):
    def test_every_call_through_every_seat(self) -> None:
        """20 in the reply exactly where the header gives the seat no right."""
        rights = {AUCTIONEER: {1, 2, 3, 5, 6, 7, 8}, AUDITOR: {6}, TWO: {4, 9}, THREE: set()}
        for seat, kinds in rights.items():
            hall = Session()
            calls = hall.at(seat)
            calls.set_up(20_000, 1_000, 900, 1_200, 40_000)
            calls.register(1, 2, 1, [1]).at(seat).register(1, 2, 1, [1], agent=1)
            calls.open(30_000).at(seat).offer(2).at(seat).close().at(seat).settle()
            calls.lodge(2).at(seat).cancel(2)
            found = {reply.kind for reply in hall.replies() if reply.number != 20}
            self.assertEqual((found, len(hall.replies())), (kinds, 9))

    def test_sample_through_the_auctioneer(self) -> None:
        """Its replies are the record's, but for offers, which are developers'."""
        hall = Session()
        for line in sample().lines():
            hall.append(AUCTIONEER, line.text)
        numbers = [reply.number for reply in hall.replies()]
        self.assertEqual(numbers, [0] * 6 + [20] * 3 + [0, 0])
        closed = hall.replies()[9]
        self.assertTrue(isinstance(closed, Closed) and closed.ended and closed.excess == -155)

    def test_lodged_record(self) -> None:
        hall = seated(lodged(550_000), random.Random(64))
        self.assertEqual(hall.record(), lodged(550_000))


class Command(unittest.TestCase):
    """The command record, and sessions where a record is read."""

    def setUp(self) -> None:
        folder = tempfile.TemporaryDirectory()
        self.addCleanup(folder.cleanup)
        self.path, self.new = Path(folder.name, "session"), Path(folder.name, "new")

    def run_on(self, content: bytes, *arguments: str) -> tuple[int, str, str]:
        """Exit status, standard output and standard error."""
        self.path.write_bytes(content)
        out, err = io.StringIO(), io.StringIO()
        with contextlib.redirect_stdout(out), contextlib.redirect_stderr(err):
            status = main([arguments[0], str(self.path), *arguments[1:]])
        return status, out.getvalue(), err.getvalue()

    def test_the_record_and_what_is_left_out(self) -> None:
        said = "24 lines, 7 left out: 1 malformed, 6 refused by 20; the first is line 6\n"
        content = bytes(four_seats())
        self.assertEqual(self.run_on(content, "record", "-o", str(self.new)), (0, said, ""))
        self.assertEqual(Record.read(self.new), permitted())
        streamed = self.run_on(content, "record", "-o", "-")
        self.assertEqual(streamed, (0, bytes(permitted()).decode(), said))
        self.assertEqual(self.run_on(bytes(permitted()), "table")[0], 0)
        alone = self.run_on(bytes(prepared()), "record", "-o", "-")
        self.assertEqual(alone[::2], (0, "5 lines, 0 left out\n"))

    def test_nothing_is_written_over(self) -> None:
        for output in (self.path, self.new):
            self.new.write_bytes(b"older\n")
            status, out, err = self.run_on(bytes(four_seats()), "record", "-o", str(output))
            self.assertEqual((status, out), (2, ""))
            self.assertIn(f"{output} is there already, and is not written over\n", err)
        self.assertEqual(self.new.read_bytes(), b"older\n")

    def test_no_line_is_left(self) -> None:
        malformed = "11 malformed, 0 refused by 20; the first is line 1; "
        already = f"11 lines, 11 left out: {malformed}it is a record already, whose lines name no seat"
        spoiled = "5 lines, 5 left out: 5 malformed, 0 refused by 20; the first is line 1;"
        mends = f'every line ends with 0D 0A; "fix {self.path} -o NEW" mends it'
        barred = "1 line, 1 left out: 0 malformed, 1 refused by 20; the first is line 1"
        for content, said in (
            (b"", "0 lines, 0 left out"),
            (bytes(sample()), already),
            (bytes(prepared()).replace(b"\n", b"\r\n"), f"{spoiled} {mends}"),
            (b"010005", barred),
        ):
            left = self.run_on(content, "record", "-o", str(self.new))
            self.assertEqual(left, (1, "", f"no record is written: {said}\n"))
            self.assertFalse(self.new.exists())

    def test_a_session_that_is_read_as_a_record(self) -> None:
        for command in (("table",), ("explain",), ("show", "--json"), ("report", "-o", "-")):
            status, _, err = self.run_on(bytes(four_seats()), *command)
            refused = "no line was accepted: line 1 was refused by 12: malformed line"
            hint = f'it is a session, of which "record {self.path} -o NEW" writes the record'
            self.assertEqual((status, err), (1, f"{refused}; {hint}\n"))


if __name__ == "__main__":
    unittest.main()
