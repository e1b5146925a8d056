"""Demand, the sealed auction and who can force the price, by figures that stand elsewhere."""

from __future__ import annotations

import importlib
import importlib.util
import os
import subprocess
import sys
import threading
import unittest
from concurrent.futures import ThreadPoolExecutor
from pathlib import Path
from unittest import mock

from records import ROOT, Flag, Index, ready, rules_table
from reference_engine import (
    MEANINGS,
    Forced,
    NotBuilt,
    Record,
    Refused,
    SealedAwards,
    SealedOffer,
    demand,
    demand_remainder,
    library,
    sealed_auction,
    who_can_force,
)

SETTINGS = (20_000, 1_000, 900, 1_200)

# The paper's ten marked cases: price, Dem, remainder (tests/c/demand_host.c).
MARKED = (
    (40_000, 900, 0),
    (30_001, 950, 100),
    (30_000, 950, 0),
    (29_999, 951, 19_900),
    (25_999, 971, 19_900),
    (20_000, 1_000, 0),
    (19_999, 1_001, 19_600),
    (19_950, 1_001, 0),
    (19_949, 1_002, 19_600),
    (10_000, 1_200, 0),
)
WRONG_TYPES = (1.0, "1", True, None, b"1", [1], complex(1), Flag(1))
OUT_OF_WIDTH = (-1, 2**64, 2**64 + 20_000, 10**30)


def refusal_of(call, *arguments) -> int:
    """The number by which a call is refused, or 0."""
    try:
        call(*arguments)
    except Refused as refused:
        return refused.refusal.number
    return 0


class Untouched(unittest.TestCase):
    """Tests of errors that are raised before the library is called."""

    def assertRaisesBefore(self, error: type[Exception], call, *arguments) -> str:
        with mock.patch.object(library, "_call", side_effect=AssertionError("called")):
            with self.assertRaises(error) as raised:
                call(*arguments)
        return str(raised.exception)


class Demand(Untouched):
    def test_marked_cases(self) -> None:
        for price, quantity, remainder in MARKED:
            with self.subTest(price=price):
                self.assertEqual(demand(*SETTINGS, price), quantity)
                self.assertEqual(demand_remainder(*SETTINGS, price), remainder)

    def test_bounds(self) -> None:
        beyond = (
            (0, 1_000, 900, 1_200, 0),
            (3, 1_000, 900, 1_200, 3),
            (500_002, 1_000, 900, 1_200, 500_002),
            (20_000, 1_000, 0, 1_200, 20_000),
            (20_000, 1_000, 1_000, 1_200, 20_000),
            (20_000, 1_200, 900, 1_200, 20_000),
            (20_000, 1_000, 900, 10**11 + 1, 20_000),
            (*SETTINGS, 9_999),
            (*SETTINGS, 40_001),
            (*SETTINGS, 2**64 - 1),
        )
        for arguments in beyond:
            with self.subTest(arguments=arguments):
                self.assertEqual(refusal_of(demand, *arguments), 1)
                self.assertEqual(refusal_of(demand_remainder, *arguments), 1)

    def test_refusal_in_words(self) -> None:
        with self.assertRaises(Refused) as raised:
            demand(*SETTINGS, 9_999)
        self.assertEqual(
            str(raised.exception), "refused by 1: settings or price beyond their bounds"
        )

    def test_errors_before_the_call(self) -> None:
        for place, name in enumerate(("ce", "d", "m1", "m2", "p")):
            for error, values in ((TypeError, WRONG_TYPES), (ValueError, OUT_OF_WIDTH)):
                for value in values:
                    arguments = [*SETTINGS, 20_000]
                    arguments[place] = value
                    for call in (demand, demand_remainder):
                        said = self.assertRaisesBefore(error, call, *arguments)
                        self.assertTrue(said.startswith(f"{name} "), said)

    def test_whole_numbers_of_other_types(self) -> None:
        self.assertEqual(demand(*map(Index, (*SETTINGS, 29_999))), 951)
        self.assertEqual(demand_remainder(*map(Index, (*SETTINGS, 29_999))), 19_900)

    @unittest.skipUnless(importlib.util.find_spec("numpy"), "NumPy is not installed")
    def test_numpy(self) -> None:
        numpy = importlib.import_module("numpy")
        self.assertEqual(demand(*numpy.array([*SETTINGS, 29_999])), 951)
        steps = numpy.array([[26_000, 100]], dtype=numpy.uint32)
        self.assertEqual(Record().offer(numpy.int8(2), steps), Record().offer(2, [(26_000, 100)]))
        for wrong in (numpy.float64(1), numpy.bool_(True), numpy.array([1])):
            self.assertRaisesBefore(TypeError, demand, *SETTINGS, wrong)

    def test_a_number_too_long_to_print(self) -> None:
        said = self.assertRaisesBefore(ValueError, demand, 10**5_000, 1_000, 900, 1_200, 20_000)
        self.assertTrue(said.startswith("ce is a number of 16610 bits, and must be"), said)

    def test_threads(self) -> None:
        prices = [price for price, _, _ in MARKED] * 200
        with ThreadPoolExecutor(8) as threads:
            found = list(threads.map(lambda price: demand(*SETTINGS, price), prices))
        self.assertEqual(found, [quantity for _, quantity, _ in MARKED] * 200)


    def test_thread_with_a_small_stack(self) -> None:
        """What docs/PYTHON.md says of a thread's stack, with as much for Python itself."""
        content = (ROOT / "crates/replay/stdin").read_bytes()
        before = threading.stack_size(2 * 128 * 1_024)
        try:
            with ThreadPoolExecutor(1) as thread:
                replies = thread.submit(library.replies_to, content).result()
        finally:
            threading.stack_size(before)
        self.assertEqual(replies, (ROOT / "crates/replay/stdout").read_bytes())


class Sealed(Untouched):
    # docs/PYTHON.md's example.
    offers = (
        SealedOffer(21_000, 400, 100, 2),
        SealedOffer(19_000, 500, 500, 5),
        SealedOffer(18_000, 300, 200, 2),
        SealedOffer(18_000, 250, 50, 2),
        SealedOffer(17_000, 60, 50, 0),
    )

    def test_readme(self) -> None:
        expected = SealedAwards((0, 500, 300, 250, 60), 20)
        self.assertEqual(sealed_auction(30_000, 1_130, self.offers), expected)
        self.assertEqual(sealed_auction(30_000, 1_130, iter(self.offers)), expected)

    def test_no_offer(self) -> None:
        self.assertEqual(sealed_auction(1, 7, []), SealedAwards((), 7))

    def test_refusals(self) -> None:
        one = SealedOffer(1, 1, 1, 0)
        self.assertEqual(sealed_auction(1, 3, [one] * 16).awards, (1,) * 3 + (0,) * 13)
        self.assertEqual(refusal_of(sealed_auction, 1, 3, [one] * 17), 18)
        self.assertEqual(refusal_of(sealed_auction, 1, 3, [one] * 100_000), 18)
        self.assertEqual(refusal_of(sealed_auction, 1, 10**11 + 1, [one]), 18)
        self.assertEqual(refusal_of(sealed_auction, 1, 1, [SealedOffer(1, 1, 2, 0)]), 18)
        self.assertEqual(refusal_of(sealed_auction, 1, 1, [SealedOffer(2, 1, 1, 0)]), 19)

    def test_errors_before_the_call(self) -> None:
        one = SealedOffer(1, 1, 1, 0)
        for value in OUT_OF_WIDTH:
            self.assertRaisesBefore(ValueError, sealed_auction, value, 1, [one])
            self.assertRaisesBefore(ValueError, sealed_auction, 1, value, [one])
            names = ("prices", "quantities", "minimums", "ages")
            for name, field in zip(names, vars(one)):
                wrong = SealedOffer(**{**vars(one), field: value})
                said = self.assertRaisesBefore(ValueError, sealed_auction, 1, 1, [one, wrong])
                self.assertTrue(said.startswith(f"{name}[1] is {value}"), said)
        for offers in (5, None, "1", {one}, [(1, 1, 1, 0)], [one, None]):
            said = self.assertRaisesBefore(TypeError, sealed_auction, 1, 1, offers)
            self.assertTrue(said.startswith("offers"), said)


    def test_whole_numbers_of_other_types(self) -> None:
        offers = [SealedOffer(*map(Index, vars(offer).values())) for offer in self.offers]
        expected = SealedAwards((0, 500, 300, 250, 60), 20)
        self.assertEqual(sealed_auction(Index(30_000), Index(1_130), offers), expected)


class Forcing(Untouched):
    """Games of tests/c/force_host.c, worked out by hand there."""

    three = (18_000, 16_000, 14_000)

    @staticmethod
    def between() -> Record:
        record = ready().register(1, 1, 1, [500_000, 900_000]).lodge(1, [(15_000, 500_000)])
        record.register(2, 2, 2, [100_000]).register(3, 3, 2, [150_000])
        record.register(2, 4, 2, [60_000]).register(4, 5, 2, [50_000])
        return record.open(20_000).offer(2).offer(3).offer(4).close()

    def test_the_record_is_the_hosts(self) -> None:
        source = (ROOT / "tests/c/force_host.c").read_text()
        for line in bytes(self.between()).decode().splitlines():
            self.assertIn(f"{line}\\n", source)

    def test_games(self) -> None:
        games = (
            (2, 3, self.three, Forced(16_000, True)),
            (Index(2), Index(3), map(Index, self.three), Forced(16_000, True)),
            (3, 2, self.three, Forced(18_000, True)),
            (3, 4, self.three, Forced(18_000, True)),
            (4, 3, self.three, Forced(14_000, False)),
            (5, 2, self.three, Forced(14_000, False)),
            (2, 3, (19_000, 18_000, 17_000, 14_000), Forced(17_000, False)),
            (2, 3, (12_000,), Forced(20_000, False)),
            (3, 2, tuple(range(19_900, 18_900, -100)), Forced(19_900, True)),
        )
        for first, second, prices, expected in games:
            with self.subTest(first=first, second=second, prices=prices):
                listed = list(prices)
                self.assertEqual(who_can_force(self.between(), first, second, listed), expected)
                forced = who_can_force(bytes(self.between()), first, second, iter(listed))
                self.assertEqual(forced, expected)

    def test_refusals(self) -> None:
        record = self.between()
        self.assertEqual(refusal_of(who_can_force, b"", 2, 3, self.three), 2)
        self.assertEqual(refusal_of(who_can_force, record, 2, 2, self.three), 17)
        self.assertEqual(refusal_of(who_can_force, record, 2**32 + 2, 3, self.three), 17)
        self.assertEqual(refusal_of(who_can_force, record, 2, 3, []), 17)
        self.assertEqual(refusal_of(who_can_force, record, 2, 3, [2**32 + 18_000]), 17)
        self.assertEqual(refusal_of(who_can_force, record, 2, 3, range(10**5, 0, -1)), 17)
        self.assertEqual(refusal_of(who_can_force, record.open(19_000), 2, 3, self.three), 2)

    def test_errors_before_the_call(self) -> None:
        record = self.between()
        for wrong in (5, None, "05\n", [5], Path("record")):
            self.assertRaisesBefore(TypeError, who_can_force, wrong, 2, 3, self.three)
        for value in OUT_OF_WIDTH:
            self.assertRaisesBefore(ValueError, who_can_force, record, value, 3, self.three)
            self.assertRaisesBefore(ValueError, who_can_force, record, 2, value, self.three)
            said = self.assertRaisesBefore(ValueError, who_can_force, record, 2, 3, [18_000, value])
            self.assertTrue(said.startswith("prices[1]"), said)
        for prices in (18_000, None, "18000", b"\x01", bytearray(1), {18_000}, {18_000: 1}):
            said = self.assertRaisesBefore(TypeError, who_can_force, record, 2, 3, prices)
            self.assertTrue(said.startswith("prices must be a list"), said)


class Built(unittest.TestCase):
    def test_what_is_missing_is_named(self) -> None:
        script = "from reference_engine import *; demand(20000, 1000, 900, 1200, 20000)"
        done = subprocess.run(
            [sys.executable, "-c", script],
            env={**os.environ, "REFERENCE_ENGINE_LIBRARY": "/nowhere/to/be/found"},
            capture_output=True,
            text=True,
        )
        self.assertIn(NotBuilt.__name__, done.stderr)
        self.assertIn("/nowhere/to/be/found is missing", done.stderr)
        self.assertIn("python/build", done.stderr)


class Meanings(unittest.TestCase):
    def test_every_refusal_of_the_rules(self) -> None:
        """Each means what the table says before its first semicolon."""
        table = rules_table("Hex", "Name", "When")
        self.assertEqual(MEANINGS, {int(n): when.partition("; ")[0] for n, _, _, when in table})


if __name__ == "__main__":
    unittest.main()
