"""Records built call by call, read, written and replayed; figures of docs/FORMAT.md."""

from __future__ import annotations

import copy
import inspect
import tempfile
import unittest
from pathlib import Path
from unittest import mock

from records import (
    ROOT,
    Flag,
    Index,
    first_lines,
    lodged,
    processor_seconds,
    ready,
    rules_table,
    with_agents,
)
import reference_engine
from reference_engine import (
    AUCTIONEER,
    MEANINGS,
    Award,
    Closed,
    CurvePoint,
    Record,
    Refused,
    Reply,
    Seat,
    Session,
    Settled,
    Step,
)
from reference_engine import library, replay
from reference_engine.auction import read_auction
from reference_engine.calls import (
    Cancellation,
    Closing,
    Lodging,
    Malformed,
    Offer,
    Opening,
    Registration,
    SetUp,
    Settling,
)

SAMPLE = (ROOT / "crates/replay/stdin").read_bytes()
REPLIES = (ROOT / "crates/replay/stdout").read_bytes()


def sample() -> Record:
    """The sample, built as tests/c/build_sample.c does."""
    return (
        Record()
        .set_up(ce=20_000, d=1_000, m1=900, m2=1_200, a=40_000)
        .register(project=1, developer=1, kind=1, levels=[820])
        .register(2, 2, 2, [100, 200], study=400, day=10)
        .register(2, 3, 2, [200], study=500, day=20)
        .register(3, 4, 2, [150])
        .open(25_000)
        .offer(2, [Step(26_000, 100)])
        .offer(3, [(26_000, 0)])
        .offer(4, ([26_000, 0],))
        .close()
        .settle(100)
    )


class Building(unittest.TestCase):
    def test_sample_byte_for_byte(self) -> None:
        self.assertEqual(bytes(sample()), SAMPLE)
        self.assertEqual(library.replies_to(SAMPLE), REPLIES)

    def test_every_call_is_read_back(self) -> None:
        record = ready().register(1, 2, 3, [4, 5], 6, 7).register(1, 2, 3, [4], 5, 6, agent=7)
        record.lodge(1, [(9, 8), (7, 6)]).open(5).offer(4, [Step(3, 2)]).offer(1).cancel(255)
        record.close().settle(2**32 - 1)
        self.assertEqual(
            [line.call for line in record.lines()],
            [
                SetUp(20_000, 1_000_000, 900_000, 1_200_000, 40_000),
                Registration(1, 2, 3, None, 6, 7, (4, 5)),
                Registration(1, 2, 3, 7, 5, 6, (4,)),
                Lodging(1, (Step(9, 8), Step(7, 6))),
                Opening(5),
                Offer(4, (Step(3, 2),)),
                Offer(1, ()),
                Cancellation(255),
                Closing(),
                Settling(2**32 - 1),
            ],
        )

    def test_widths(self) -> None:
        byte, word, long = 2**8, 2**32, 2**40
        fields = (
            ("ce", word, lambda n: Record().set_up(n, 0, 0, 0, 0)),
            ("d", long, lambda n: Record().set_up(0, n, 0, 0, 0)),
            ("m1", long, lambda n: Record().set_up(0, 0, n, 0, 0)),
            ("m2", long, lambda n: Record().set_up(0, 0, 0, n, 0)),
            ("a", word, lambda n: Record().set_up(0, 0, 0, 0, n)),
            ("project", byte, lambda n: Record().register(n, 0, 0, [])),
            ("developer", byte, lambda n: Record().register(0, n, 0, [])),
            ("kind", byte, lambda n: Record().register(0, 0, n, [])),
            ("agent", byte, lambda n: Record().register(0, 0, 0, [], agent=n)),
            ("study", word, lambda n: Record().register(0, 0, 0, [], study=n)),
            ("day", word, lambda n: Record().register(0, 0, 0, [], day=n)),
            ("levels[1]", word, lambda n: Record().register(0, 0, 0, [1, n])),
            ("c", word, lambda n: Record().open(n)),
            ("developer", byte, lambda n: Record().offer(n)),
            ("prices[0]", word, lambda n: Record().offer(0, [(n, 0)])),
            ("levels[0]", word, lambda n: Record().offer(0, [Step(0, n)])),
            ("developer", byte, lambda n: Record().lodge(n)),
            ("developer", byte, lambda n: Record().cancel(n)),
            ("limit", word, lambda n: Record().settle(n)),
        )
        for name, bound, add in fields:
            with self.subTest(name=name):
                self.assertNotEqual(add(bound - 1).replies()[0].kind, 0xFF)
                with mock.patch.object(library, "_call", side_effect=AssertionError("called")):
                    for value in (-1, bound, bound + 1, 2**64, 2**64 + 1):
                        with self.assertRaises(ValueError) as raised:
                            add(value)
                        self.assertTrue(str(raised.exception).startswith(f"{name} is {value}"))
                    for value in (1.0, "1", True, Flag(1), None if name != "agent" else b"1"):
                        with self.assertRaises(TypeError) as raised:
                            add(value)
                        self.assertTrue(str(raised.exception).startswith(f"{name} must be"))

    def test_wrong_lists(self) -> None:
        record = ready()
        for levels in (5, None, "12", b"\x01\x02", bytearray(2), {1, 2}, {1: 2}):
            with self.assertRaisesRegex(TypeError, "^levels must be a list"):
                record.register(1, 1, 1, levels)
        for steps in (5, None, "", b"", {26_000: 100}):
            with self.assertRaisesRegex(TypeError, "^steps must be a list"):
                record.offer(1, steps)
        for step in (5, "ab", b"ab", (1,), (1, 2, 3), {1, 2}, None):
            with self.assertRaisesRegex(TypeError, r"^steps\[1\] must be"):
                record.lodge(1, [(1, 2), step])
        self.assertEqual(record, ready())

    def test_whole_numbers_of_other_types(self) -> None:
        built = (
            Record()
            .set_up(*map(Index, (20_000, 1_000, 900, 1_200, 40_000)))
            .register(Index(1), Index(1), Index(1), [Index(820)])
            .register(2, 2, 2, map(Index, (100, 200)), study=Index(400), day=Index(10))
            .register(2, 3, 2, [200], study=500, day=20)
            .register(3, 4, 2, [150])
            .open(Index(25_000))
            .offer(Index(2), [(Index(26_000), Index(100))])
            .offer(3, [iter([26_000, 0])])
            .offer(4, [Step(Index(26_000), Index(0))])
            .close()
            .settle(Index(100))
        )
        self.assertEqual(bytes(built), SAMPLE)

    def test_iterators_are_lists_too(self) -> None:
        record = Record().register(1, 1, 1, iter([4, 5])).offer(1, ((n, 0) for n in (3, 2)))
        self.assertEqual(record, Record().register(1, 1, 1, [4, 5]).offer(1, [(3, 0), (2, 0)]))

    def test_what_no_frame_can_say_leaves_the_record(self) -> None:
        self.assertEqual(len(Record().register(1, 1, 1, [1] * 16)), 155)
        self.assertEqual(len(Record().offer(1, [(1, 1)] * 9)), 151)
        record = Record(b"05")  # without its 0A
        for add in (
            lambda: record.register(1, 1, 1, [1] * 17),
            lambda: record.register(1, 1, 1, [1] * 17, agent=1),
            lambda: record.register(1, 1, 1, [1] * 300_000),
            lambda: record.offer(1, [(1, 1)] * 10),
            lambda: record.lodge(1, [(1, 1)] * 10),
        ):
            with self.assertRaises(Refused) as raised:
                add()
            self.assertEqual(raised.exception.refusal.number, 14)
            self.assertEqual(str(raised.exception), "refused by 14: call that no frame can say")
            self.assertEqual(bytes(record), b"05")
        self.assertEqual(bytes(record.close()), b"05\n05\n")


class WrongTypes(unittest.TestCase):
    right = {
        "record": b"",
        "replies": "",
        "prices": [1],
        "offers": [],
        "levels": [1],
        "steps": [],
        "seat": AUCTIONEER,
        "frame": b"05",
    }

    def test_every_public_function(self) -> None:
        """One argument that is none, beside others that are right, raises TypeError."""
        named = [getattr(reference_engine, name) for name in reference_engine.__all__]
        calls = [each for each in named if inspect.isfunction(each)]
        record, session = Record(), Session()
        for each in (record, session, session.at(AUCTIONEER)):
            methods = inspect.getmembers(each, inspect.ismethod)
            calls += [method for name, method in methods if not name.startswith("_")]
        calls += [Seat, Seat.developer]
        tried = 0
        for call in calls:
            names = list(inspect.signature(call).parameters)
            for wrong in names:
                arguments = {name: self.right.get(name, 1) for name in names} | {wrong: object()}
                with self.subTest(call=call.__name__, wrong=wrong):
                    with self.assertRaises(TypeError):
                        call(**arguments)
                    tried += 1
        self.assertEqual((tried, record, session), (42 + 36, Record(), Session()))


class Files(unittest.TestCase):
    def test_read_and_written(self) -> None:
        with tempfile.TemporaryDirectory() as folder:
            path = Path(folder, "record")
            for content in (SAMPLE, b"", b"\n", b"0g\r\n\xff\x00", b"05", bytes(range(256))):
                Record(content).write(path)
                self.assertEqual(path.read_bytes(), content)
                self.assertEqual(Record.read(path), Record(content))
                self.assertEqual(bytes(Record.read(str(path))), content)
            with self.assertRaises(FileNotFoundError):
                Record.read(Path(folder, "nothing"))

    def test_bytes_alone_are_a_record(self) -> None:
        for content in (bytearray(SAMPLE), memoryview(SAMPLE)):
            self.assertEqual(Record(content), sample())
        for wrong in (5, "05", None, [48, 53], Path("record")):
            with self.assertRaisesRegex(TypeError, "a record is made of bytes"):
                Record(wrong)
            with self.assertRaisesRegex(TypeError, "a record is made of bytes"):
                replay(wrong)

    def test_copies_are_independent(self) -> None:
        for copied in (copy.copy, copy.deepcopy, Record.copy):
            record = Record(b"05\n")
            other = copied(record)
            self.assertEqual(other, record)
            other.close()
            self.assertEqual((bytes(record), bytes(other)), (b"05\n", b"05\n05\n"))

    def test_a_record_keeps_its_own_bytes(self) -> None:
        content = bytearray(b"05\n")
        record = Record(content)
        content[:] = b""
        before = bytes(record)
        record.close()
        self.assertEqual((before, bytes(record)), (b"05\n", b"05\n05\n"))


class Replaying(unittest.TestCase):
    def test_sample(self) -> None:
        expected = [Reply(kind, 0) for kind in (1, 2, 2, 2, 2, 3, 4, 4, 4)]
        expected.append(Closed(5, 0, -55, 0))
        awards = (Award(1, 1, 820), Award(2, 3, 200))
        expected.append(
            Settled(
                6, 0, 26_000, 970, 1_020, 4, 3, awards, 0, 26_000, False, False, 26_000
            )
        )
        for record in (SAMPLE, bytearray(SAMPLE), memoryview(SAMPLE), sample(), SAMPLE[:-1]):
            self.assertEqual(replay(record), expected)
        self.assertEqual(sample().replies(), expected)

    def test_sample_by_rounds(self) -> None:
        auction = read_auction(SAMPLE)
        (only,) = auction.rounds
        self.assertEqual((only.opening, only.c), (40_000, 25_000))
        self.assertEqual((only.supply, only.demand), (920, 975))
        self.assertEqual((only.excess, only.remainder, only.ended), (-55, 0, True))
        self.assertEqual(auction.curve, (CurvePoint(26_000, 1_170, 920),))
        self.assertEqual([line.number for line in auction.settled], [11])
        self.assertEqual(auction.settlement.kept, 2)
        self.assertEqual([len(only.moves), len(auction.registrations)], [3, 4])
        self.assertEqual((auction.refused, auction.settling_failed), ([], False))

    def test_lodging(self) -> None:
        found = lodged(550_000).replies()[-1]
        self.assertEqual((found.price, found.total), (29_990, 1_250_000))
        self.assertEqual((found.second_price, found.short), (30_000, False))
        found = lodged(499_999).replies()[-1]
        self.assertEqual((found.second_price, found.short), (40_000, True))

    def test_agents(self) -> None:
        for new, insufficient, paid in ((300_001, True, 22_000), (300_000, False, 30_000)):
            record = with_agents(new)
            found = record.replies()[-1]
            self.assertEqual((found.price, found.demand), (30_000, 950_000))
            self.assertEqual(found.insufficient, insufficient)
            self.assertEqual(found.price_paid, paid)
        self.assertTrue(bytes(record).split(b"\n")[1].startswith(b"0801010105"))

    def test_cancellation(self) -> None:
        before = first_lines(6)
        numbers = [reply.number for reply in before.cancel(2).replies()[6:]]
        self.assertEqual(numbers, [16])
        before.offer(2, [(26_000, 100)]).cancel(2).cancel(2).offer(2).offer(2).cancel(1)
        numbers = [reply.number for reply in before.replies()[7:]]
        self.assertEqual(numbers, [0, 0, 16, 0, 8, 3])

    def test_refusals_of_the_rules(self) -> None:
        """The examples of docs/RULES.md, each behind the first so many lines of the sample."""
        tried = 0
        for number, reply, example, behind, why in rules_table("Reply", "Example", "Behind", "Why"):
            lines = SAMPLE.split(b"\n")[: int(behind)] + [example.strip("`").encode()]
            replies = library.replies_to(b"\n".join(lines))
            self.assertEqual(replies.split(b"\n")[-2].decode(), reply.strip("`"), why)
            refusal = replay(b"\n".join(lines))[-1].refusal
            self.assertEqual(str(refusal), f"refused by {number}: {MEANINGS[int(number)]}")
            tried += 1
        self.assertEqual(tried, 13)

    def test_malformed_lines(self) -> None:
        content = SAMPLE.replace(b"\n", b"\n0g\r\n\n", 1) + b"\xff\x00"
        auction = read_auction(content)
        malformed = [(line.number, line.call) for line in auction.refused]
        self.assertEqual(
            malformed,
            [(2, Malformed(b"0g\r")), (3, Malformed(b"")), (14, Malformed(b"\xff\x00"))],
        )
        self.assertEqual(auction.settlement.price, 26_000)

    def test_empty(self) -> None:
        self.assertEqual((replay(b""), Record().lines(), read_auction(b"").rounds), ([], [], []))

    def test_longest_replies(self) -> None:
        """Settlings of 32 awards, one behind the other: 463 bytes for each 10 of the record."""
        record = ready()
        for number in range(1, 33):
            record.register(number, number, 1, [40_000])
        record.open(10_000).close()
        while len(record) <= 65_536 - 11:
            record.settle(1)
        began = processor_seconds()
        replies = record.replies()
        settled = [reply for reply in replies if isinstance(reply, Settled)]
        self.assertEqual({len(reply.awards) for reply in settled}, {32})
        self.assertEqual(len(settled), len(replies) - 35)
        self.assertGreater(len(settled), 5_000)
        alone = Record(b"0600000001\n" * 10).replies()
        self.assertEqual(alone, [Reply(6, 2)] * 10)
        self.assertLess(processor_seconds() - began, 30)

    def test_thousands_of_lines(self) -> None:
        record = Record(b"05\n" * 21_845)
        began = processor_seconds()
        auction = read_auction(record)
        self.assertEqual(len(auction.refused), 21_845)
        self.assertLess(processor_seconds() - began, 30)

    def test_beyond_64_kib(self) -> None:
        auction, known = read_auction(SAMPLE + b"05\n" * 22_000), read_auction(SAMPLE)
        self.assertEqual((len(auction.refused), auction.rounds[0].supply), (22_000, 920))
        self.assertEqual((auction.curve, auction.rounds[0].ended), (known.curve, True))
        self.assertEqual(auction.settlement, known.settlement)


if __name__ == "__main__":
    unittest.main()
