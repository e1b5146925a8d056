"""Replies read field by field, and what is no reply refused."""

from __future__ import annotations

import random
import unittest

from reference_engine import Award, Closed, Reply, Settled
from reference_engine.replies import reply_in

CLOSED = "0500FFFFFFFFFFFFFFC900000000"
SETTLED = (
    "06000000752600000E7F2200001312D00000000200000001030101000493E0020200061A80"
    "0303000864700000000000007530000000007526"
)


class Reading(unittest.TestCase):
    def test_accepted_and_refused(self) -> None:
        for kind in (*range(1, 10), 0xFF):
            for number in range(1, 21):
                reply = reply_in(f"{kind:02X}{number:02X}")
                self.assertEqual(reply, Reply(kind, number))
                self.assertEqual(reply.refusal.number, number)
        for kind in (1, 2, 3, 4, 7, 8, 9):
            self.assertEqual(reply_in(f"{kind:02X}00"), Reply(kind, 0))
            self.assertIsNone(reply_in(f"{kind:02X}00").refusal)

    def test_closed(self) -> None:
        for text, excess in (
            ("FFFFFFFFFFFFFFC9", -55),
            ("0000000000000000", 0),
            ("7FFFFFFFFFFFFFFF", 2**63 - 1),
            ("8000000000000000", -(2**63)),
        ):
            self.assertEqual(reply_in(f"0500{text}00004E1F"), Closed(5, 0, excess, 19_999))

    def test_settled(self) -> None:
        """The reply of docs/FORMAT.md's lodged list."""
        awards = (Award(1, 1, 300_000), Award(2, 2, 400_000), Award(3, 3, 550_000))
        self.assertEqual(
            reply_in(SETTLED),
            Settled(
                kind=6,
                number=0,
                price=29_990,
                demand=950_050,
                total=1_250_000,
                choices=2,
                covering=1,
                awards=awards,
                remainder=0,
                second_price=30_000,
                short=False,
                insufficient=False,
                price_paid=29_990,
            ),
        )
        marked = SETTLED[:-12] + "0101" + SETTLED[-8:]
        reply = reply_in(marked)
        self.assertTrue(reply.short and reply.insufficient)

    def test_cut_or_longer(self) -> None:
        for text in ("0100", "FF0C", CLOSED, SETTLED):
            for length in range(len(text)):
                with self.assertRaises(ValueError):
                    reply_in(text[:length])
            for rest in ("0", "00", "\n", " ", text):
                with self.assertRaises(ValueError):
                    reply_in(text + rest)

    def test_bad_digits(self) -> None:
        for text in ("0100", CLOSED, SETTLED):
            for place in range(len(text)):
                for digit in ("a", "G", " ", "+", "_", "-", "\u0661", "\x00"):
                    with self.assertRaises(ValueError):
                        reply_in(text[:place] + digit + text[place + 1 :])

    def test_bad_marks_and_counts(self) -> None:
        for mark in (-12, -10):
            place = len(SETTLED) + mark
            with self.assertRaisesRegex(ValueError, "a mark of 02"):
                reply_in(SETTLED[:place] + "02" + SETTLED[place + 2 :])
        for count in ("00", "02", "04", "FF"):
            with self.assertRaises(ValueError):
                reply_in(SETTLED[:48] + count + SETTLED[50:])

    def test_garbage(self) -> None:
        choice = random.Random(25)
        for _ in range(2_000):
            length = choice.randrange(60)
            text = "".join(chr(choice.randrange(0x300)) for _ in range(length))
            with self.assertRaises(ValueError):
                reply_in(text)
        for _ in range(2_000):
            digits = choice.choices("0123456789ABCDEF", k=choice.choice((3, *range(5, 28))))
            with self.assertRaises(ValueError):
                reply_in("".join(digits))


if __name__ == "__main__":
    unittest.main()
