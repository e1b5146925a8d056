"""A live auction: state, preview, supply curve and settlement, beside the replies."""

from __future__ import annotations

import random
import unittest
from collections.abc import Callable, Iterator
from dataclasses import asdict

from records import (
    Index,
    first_lines,
    lodged,
    long_record,
    processor_seconds,
    random_record,
    sample,
    with_agents,
)
from reference_engine import (
    Award,
    Closed,
    CurvePoint,
    Phase,
    Preview,
    Record,
    Refused,
    Reply,
    Settled,
    Settlement,
    State,
    library,
)
from reference_engine.auction import read_auction
from reference_engine.calls import Opening
from reference_engine.replies import reply_in


def prefixes(record: Record) -> Iterator[Record]:
    """The record after each of its lines, and before the first."""
    lines = bytes(record).splitlines(True)
    for count in range(len(lines) + 1):
        yield Record(b"".join(lines[:count]))


def random_prefixes(seed: int, records: int) -> Iterator[Record]:
    """Random records after each of their lines."""
    choice = random.Random(seed)
    for _ in range(records):
        yield from prefixes(random_record(choice))


class Case(unittest.TestCase):
    def assert_refused(self, number: int, call: Callable[..., object], *arguments: object) -> None:
        with self.assertRaises(Refused) as raised:
            call(*arguments)
        self.assertEqual(raised.exception.refusal.number, number)


class States(Case):
    def test_sample(self) -> None:
        ready, open_ = State(Phase.READY, 0, 0, 0, 0), State(Phase.ROUND, 40_000, 25_000, 0, 0)
        closed = State(Phase.CLOSED, 40_000, 25_000, -55, 1)
        expected = [State(Phase.FRESH, 0, 0, 0, 0), *[ready] * 5, *[open_] * 4, *[closed] * 2]
        self.assertEqual([record.state() for record in prefixes(sample())], expected)

    def test_two_rounds(self) -> None:
        states = [record.state() for record in prefixes(lodged(550_000))]
        self.assertEqual(
            states[6:],
            [
                State(Phase.ROUND, 40_000, 30_000, 0, 0),
                State(Phase.ROUND, 40_000, 30_000, 0, 0),
                State(Phase.BETWEEN, 40_000, 30_000, 300_000, 1),
                State(Phase.ROUND, 30_000, 29_990, 300_000, 1),
                State(Phase.ROUND, 30_000, 29_990, 300_000, 1),
                State(Phase.CLOSED, 30_000, 29_990, -50, 2),
                State(Phase.CLOSED, 30_000, 29_990, -50, 2),
            ],
        )

    def test_beside_the_replies(self) -> None:
        """Excess, closings and prices are those of accepted lines; phases say what is taken."""
        phases = set()
        for record in random_prefixes(41, 12):
            state, lines = record.state(), record.lines()
            closings = [line.reply for line in lines if isinstance(line.reply, Closed)]
            self.assertEqual(state.closings, len(closings))
            self.assertEqual(state.excess, closings[-1].excess if closings else 0)
            opened = [
                line.call.c
                for line in lines
                if isinstance(line.call, Opening) and not line.reply.refusal
            ]
            self.assertEqual(state.closing, opened[-1] if opened else 0)
            taken = [not reply.number for reply in record.copy().close().settle().replies()[-2:]]
            if state.phase is Phase.ROUND:
                self.assertTrue(taken[0])
            else:
                self.assertEqual(taken, [False, state.phase is Phase.CLOSED])
            phases.add(state.phase)
        self.assertEqual(phases, set(Phase))


class Previews(Case):
    def test_sample(self) -> None:
        """820 less 975 where no new plant has offered, and 100 more behind all offers."""
        before = first_lines(6)
        self.assertEqual(before.preview(), Preview(820 - 975, 0, True))
        self.assertEqual(first_lines(9).preview(), Preview(-55, 0, True))
        self.assertEqual(before, first_lines(6))

    def test_is_what_closing_answers(self) -> None:
        seen: dict[bool, int] = {False: 0, True: 0}
        refused = 0
        for record in random_prefixes(42, 20):
            reply = record.copy().close().replies()[-1]
            if not isinstance(reply, Closed):
                self.assertEqual(reply.number, 2)
                self.assert_refused(2, record.preview)
                refused += 1
                continue
            assert reply.ended is not None
            expected = Preview(reply.excess, reply.remainder, reply.ended)
            self.assertEqual(record.preview(), expected)
            seen[reply.ended] += 1
        self.assertGreater(min(*seen.values(), refused), 20)


class Curves(Case):
    def test_sample(self) -> None:
        self.assertEqual(sample().supply_curve(), (CurvePoint(26_000, 1_170, 920),))
        self.assertEqual(first_lines(9).supply_curve(), ())
        self.assertEqual(Record().supply_curve(), ())

    def test_falls_from_point_to_point(self) -> None:
        """Prices fall; supply goes on where it was, down to that of the latest closing."""
        points = 0
        for record in random_prefixes(43, 12):
            curve = record.supply_curve()
            prices = [point.price for point in curve]
            self.assertEqual(prices, sorted(set(prices), reverse=True))
            for point, following in zip(curve, curve[1:]):
                self.assertEqual(point.after, following.before)
            if curve:
                closed = [now for now in read_auction(record).rounds if now.closed]
                self.assertEqual(curve[-1].after, closed[-1].supply)
            points += len(curve)
        self.assertGreater(points, 100)

    def test_the_longest(self) -> None:
        """32 developers of 8 levels, each withdrawn from at a price of its own: 256 points."""
        record = Record().set_up(20_000, 1_000_000, 900_000, 1_200_000, 40_000)
        record.register(32, 32, 1, [20_000 * level for level in range(50, 58)])
        lowered = [(10_100 - step, 20_000 * (56 - step)) for step in range(7)]
        record.lodge(32, [*lowered, (10_000, 0)])
        for number in range(1, 32):
            record.register(number, number, 2, [1_000 * level for level in range(1, 9)])
        record.open(10_000)
        for number in range(1, 32):
            highest = 39_000 - 100 * number
            record.offer(number, [(highest - step, 7_000 - 1_000 * step) for step in range(8)])
        record.close()
        self.assertEqual({reply.number for reply in record.replies()}, {0})
        curve = record.supply_curve()
        self.assertEqual((len(curve), curve[-1]), (256, CurvePoint(10_000, 1_000_000, 0)))


class Settlements(Case):
    def test_sample(self) -> None:
        awards = (Award(1, 1, 820), Award(2, 3, 200))
        figures = (26_000, 970, 0, 1_020, 4, 3, 2, 26_000, False, False, 26_000)
        for record in (sample(), first_lines(10)):
            before = bytes(record)
            self.assertEqual(record.settlement(), Settlement(*figures, awards))
            self.assertEqual(bytes(record), before)

    def test_marks(self) -> None:
        self.assertFalse(lodged(550_000).settlement().short)
        self.assertTrue(lodged(499_999).settlement().short)
        self.assertTrue(with_agents(300_001).settlement().insufficient)
        self.assertFalse(with_agents(300_000).settlement().insufficient)

    def test_is_what_settling_answers(self) -> None:
        """Each figure of the reply; of a closed auction also where nobody settled it."""
        settled = refused = 0
        choice = random.Random(44)
        for _ in range(80):
            record = random_record(choice)
            reply = record.copy().settle().replies()[-1]
            if not isinstance(reply, Settled):
                self.assert_refused(reply.number, record.settlement)
                refused += 1
                continue
            found = asdict(record.settlement())
            self.assertLessEqual(found.pop("kept"), found["covering"])
            said = asdict(reply)
            self.assertEqual({name: said[name] for name in said if name in found}, found)
            settled += 1
        self.assertGreater(settled, 20)
        self.assertGreater(refused, 5)

    def test_limit(self) -> None:
        for limit in (4, Index(4), 65_537, 2**64 - 1):
            self.assertEqual(sample().settlement(limit), sample().settlement())
        for limit in (0, 3):
            self.assert_refused(10, sample().settlement, limit)
            self.assert_refused(2, first_lines(9).settlement, limit)
        for limit in (-1, 2**64):
            with self.assertRaisesRegex(ValueError, "^limit is "):
                sample().settlement(limit)
        for limit in (1.0, "4", True, None):
            with self.assertRaisesRegex(TypeError, "^limit must be"):
                sample().settlement(limit)


class Ended(Case):
    def test_which_closing_ends(self) -> None:
        ended = [reply.ended for reply in lodged(550_000).settle().close().replies()]
        self.assertEqual([place for place, each in enumerate(ended) if each], [10])
        self.assertEqual(set(ended), {False, True})
        self.assertFalse(any(reply.ended for reply in first_lines(9).replies()))

    def test_what_no_record_says(self) -> None:
        closed = reply_in("0500FFFFFFFFFFFFFFC900000000")
        self.assertIsNone(closed.ended)
        self.assertEqual(closed, sample().replies()[9])  # its bytes do not say it
        self.assertFalse(Reply(3, 0).ended)

    def test_by_each_line(self) -> None:
        """As the state behind the line says it, in random records."""
        ends = 0
        choice = random.Random(45)
        for _ in range(12):
            record = random_record(choice)
            states = [each.state() for each in prefixes(record)]
            for reply, before, after in zip(record.replies(), states, states[1:]):
                ends_here = before.phase is not Phase.CLOSED and after.phase is Phase.CLOSED
                self.assertEqual(reply.ended, ends_here)
                ends += ends_here
        self.assertGreater(ends, 5)


class Buffers(Case):
    def test_too_short(self) -> None:
        """The library's own refusal; the package lends what always fits."""
        for name, room in (("record_state", 5), ("record_curve", 3)):
            self.assert_refused(11, library._numbers_of, name, room - 1, 0, bytes(sample()))
        self.assert_refused(11, library._numbers_of, "record_preview", 2, 0, bytes(first_lines(9)))
        self.assert_refused(11, library._bytes_of, "replay", 100, bytes(sample()))

    def test_arguments_that_are_none(self) -> None:
        for wrong in (bytearray(b"05"), memoryview(b"05"), "05", None, 1.5):
            with self.assertRaises(TypeError):
                library.record_state(wrong)
        with self.assertRaises(ValueError):
            library.record_settlement(b"", 2**64)

    def test_signed(self) -> None:
        for number in (0, 1, 2**63 - 1, -1, -55, -(2**63)):
            self.assertEqual(library.signed(number % 2**64), number)

    def test_long_records_in_time(self) -> None:
        record = long_record()
        began = processor_seconds()
        for asked in (record.state, record.supply_curve, record.settlement, record.replies):
            for _ in range(5):
                asked()
        self.assertLess(processor_seconds() - began, 30)


if __name__ == "__main__":
    unittest.main()
