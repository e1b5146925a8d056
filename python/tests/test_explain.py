"""Records in words: the sample's text, odd records, the command's exit status."""

from __future__ import annotations

import contextlib
import io
import random
import re
import tempfile
import unittest
from pathlib import Path
from unittest import mock

from records import (
    first_lines,
    lodged,
    long_record,
    processor_seconds,
    random_record,
    sample,
    lengthened,
    with_agents,
)
from reference_engine import MEANINGS, Record, command
from reference_engine.__main__ import main
from reference_engine.auction import Auction, read_auction
from reference_engine.calls import NAMES

UNITS = (
    "Prices in thousandths of US$ per MWh, quantities in kWh per day,"
    " remainders in CE-ths of a kWh per day."
)

SAMPLE = f"""\
{UNITS}
1  set-up: CE 20,000, D 1,000, M1 900, M2 1,200, A 40,000 -> accepted
2  registration: project 1, developer 1, existing, study value 0, start day 0, level 820 -> accepted
3  registration: project 2, developer 2, new, study value 400, start day 10, levels 100, 200\
 -> accepted
4  registration: project 2, developer 3, new, study value 500, start day 20, level 200 -> accepted
5  registration: project 3, developer 4, new, study value 0, start day 0, level 150 -> accepted
6  opening: a round down to C 25,000 -> accepted
7  offer: developer 2, at 26,000 down to 100 -> accepted
8  offer: developer 3, at 26,000 down to 0 -> accepted
9  offer: developer 4, at 26,000 down to 0 -> accepted
10 close -> excess -55, remainder 0; the auction is closed
11 settling: at most 100 choices -> accepted
   closing price 26,000
   demand 970, remainder 0
   total 1,020
   choices: 4 admissible, 3 covering, 2 kept by the search
   award: project 1, developer 1, 820
   award: project 2, developer 3, 200
   second price 26,000, not short
   participation sufficient
   price paid to existing plants 26,000
"""


class ExplainTest(unittest.TestCase):
    def setUp(self) -> None:
        folder = tempfile.TemporaryDirectory()
        self.addCleanup(folder.cleanup)
        self.path = Path(folder.name) / "record"

    def run_on(self, record: Record | bytes) -> tuple[int, str, str]:
        """Exit status, standard output and standard error of the command."""
        self.path.write_bytes(bytes(record))
        out, err = io.StringIO(), io.StringIO()
        with contextlib.redirect_stdout(out), contextlib.redirect_stderr(err):
            status = main(["explain", str(self.path)])
        return status, out.getvalue(), err.getvalue()

    def last_of(self, content: Record | bytes) -> str:
        """The last line that is explained, without its number."""
        return self.run_on(content)[1].splitlines()[-1].partition(" ")[2].strip()

    # ---- lines in words

    def test_sample(self) -> None:
        self.assertEqual(self.run_on(sample()), (0, SAMPLE, ""))

    def test_lodged_list(self) -> None:
        text = self.run_on(lodged(550_000))[1]
        for line in (
            "5  lodging: developer 1, at 30,000 down to 300,000, at 29,990 down to 0 -> accepted",
            "7  offer: developer 3, no step -> accepted",
            "8  close -> excess 300,000, remainder 0; the auction goes on",
            "11 close -> excess -50, remainder 0; the auction is closed",
            "   closing price 29,990",
            "   second price 30,000, not short",
        ):
            self.assertIn(f"{line}\n", text)
        self.assertIn("   second price 40,000, short\n", self.run_on(lodged(499_999))[1])

    def test_agents_and_participation(self) -> None:
        text = self.run_on(with_agents(300_001))[1]
        self.assertIn(
            "2  registration with agent: project 1, developer 1, agent 5, existing,"
            " study value 0, start day 0, level 150,000 -> accepted\n",
            text,
        )
        self.assertIn("   participation insufficient\n", text)
        self.assertIn("   price paid to existing plants 22,000\n", text)

    def test_refused_lines(self) -> None:
        """The examples of docs/FORMAT.md, behind the first so many lines of the sample."""
        for number, line, behind, words in (
            (1, b"010000000300000003E8000000038400000004B000000006", 0, "set-up: CE 3, D 1,000,"),
            (2, b"0402010000659000000064", 5, "offer: developer 2, at 26,000 down to 100"),
            (3, b"0201210100000000000000000100000334", 1, "registration: project 1, developer 33,"),
            (4, b"020101020000000000000000020000000500000005", 1, "registration: project 1,"),
            (5, b"0300009C40", 5, "opening: a round down to C 40,000"),
            (6, b"040201000061A700000064", 6, "offer: developer 2, at 24,999 down to 100"),
            (
                7,
                b"04020200007530000000640000714800000064",
                6,
                "offer: developer 2, at 30,000 down to 100, at 29,000 down to 100",
            ),
            (8, b"0402010000659000000064", 7, "offer: developer 2, at 26,000 down to 100"),
            (9, b"03000061A8", 1, "opening: a round down to C 25,000"),
            (10, b"0600000000", 10, "settling: at most 0 choices"),
            (15, b"0702010000659000000064", 5, "lodging: developer 2, at 26,000 down to 100"),
            (16, b"0902", 6, "cancellation: developer 2"),
            (2, b"05", 5, "close"),
        ):
            with self.subTest(line=line):
                said, _, answer = self.last_of(bytes(first_lines(behind)) + line).partition(" -> ")
                self.assertTrue(said.startswith(words), said)
                self.assertEqual(answer, f"refused by {number}: {MEANINGS[number]}")

    def test_kinds_and_levels_that_are_none(self) -> None:
        record = first_lines(1).register(1, 1, 7, [])
        said = self.last_of(record)
        self.assertIn("developer 1, kind 7, study value 0, start day 0, no level", said)

    def test_cancellation_accepted(self) -> None:
        self.assertEqual(
            self.last_of(first_lines(7).cancel(2)), "cancellation: developer 2 -> accepted"
        )

    # ---- malformed lines and odd records

    def test_malformed_lines(self) -> None:
        for line, shown in (
            (b"0g", "'0g'"),
            (b" 05", "' 05'"),
            (b"05\r", r"'05\r'"),
            (b"\xff\x00\x1b[2J\\", r"'\xff\x00\x1b[2J\\'"),
            (b"it's", '"it\'s"'),
            (b"", "''"),
            (b"0" * 40, f"'{'0' * 40}'"),
            (b"0" * 41, f"'{'0' * 40}'... (41 bytes)"),
            (b"\x80" * 2_000, "'" + r"\x80" * 40 + "'... (2,000 bytes)"),
        ):
            with self.subTest(line=line):
                words = f"1 malformed line {shown} -> refused by 12: malformed line"
                status, text, err = self.run_on(line + b"\n")
                self.assertEqual((status, text), (1, f"{UNITS}\n{words}\n"))
                self.assertTrue(err.startswith("no line was accepted: "), err)

    def test_output_is_printable(self) -> None:
        content = bytes(random.Random(1).randrange(256) for _ in range(5_000))
        text = self.run_on(content)[1]
        self.assertTrue(text.isascii())
        self.assertTrue(text.replace("\n", "").isprintable())
        self.assertEqual(len(text.splitlines()) - 1, len(read_auction(content).lines))

    def test_empty_record(self) -> None:
        self.assertEqual(self.run_on(b""), (1, "no line\n", "the record has no line\n"))

    def test_beyond_64_kib(self) -> None:
        status, text, err = self.run_on(lengthened())
        self.assertEqual((status, err), (0, ""))
        self.assertIn("\n10  close -> excess -55, remainder 0; the auction is closed\n", text)
        self.assertIn("    choices: 4 admissible, 3 covering, 2 kept by the search\n", text)

    # ---- random records

    def check_lines(self, auction: Auction, text: str) -> None:
        """Each line once and in order, with its kind and its refusal or acceptance."""
        numbered = [line for line in text.splitlines()[1:] if not line.startswith(" ")]
        self.assertEqual(len(numbered), len(auction.lines))
        for line, said in zip(auction.lines, numbered):
            number, _, words = said.partition(" ")
            self.assertEqual(int(number), line.number)
            self.assertTrue(words.strip().startswith(NAMES[line.reply.kind]), said)
            refused = re.search(r" -> refused by (\d+): ", said)
            self.assertEqual(int(refused[1]) if refused else 0, line.reply.number)

    def check_figures(self, auction: Auction, text: str) -> None:
        """Closings and awards read back to the auction's numbers."""
        plain = text.replace(",", "")
        closings = re.findall(r"excess (\S+) remainder (\d+); the auction (is|goes)", plain)
        self.assertEqual(
            [(int(excess), int(remainder), end == "is") for excess, remainder, end in closings],
            [
                (each.excess, each.remainder, each.ended)
                for each in auction.rounds
                if each.closed
            ],
        )
        awards = re.findall(r"^ +award: project (\d+) developer (\d+) (\d+)$", plain, re.MULTILINE)
        self.assertEqual(
            [tuple(map(int, award)) for award in awards],
            [
                (award.project, award.developer, award.quantity)
                for _ in auction.settled
                for award in auction.settlement.awards
            ],
        )

    def test_random_records(self) -> None:
        choice = random.Random(26)
        settled = failed = 0
        for _ in range(80):
            record = random_record(choice)
            auction = read_auction(record)
            with mock.patch.object(command, "read_auction", return_value=auction) as read:
                status, text, _ = self.run_on(record)
            read.assert_called_once_with(record)
            self.check_lines(auction, text)
            self.check_figures(auction, text)
            self.assertEqual(status, 1 if auction.trouble else 0)
            settled += len(auction.settled)
            failed += status
        self.assertGreater(settled, 20)
        self.assertGreater(failed, 2)

    # ---- the command

    def test_each_settling_refused_is_1(self) -> None:
        unsettled = first_lines(10).settle(0)
        status, text, err = self.run_on(unsettled)
        self.assertEqual(status, 1)
        self.assertIn("11 settling: at most 0 choices -> refused by 10: choices above the", text)
        self.assertEqual(err, "not settled: line 11 was refused by 10: choices above the limit\n")
        self.assertIn("settled: line 11 was", self.run_on(unsettled.settle(1))[2])
        self.assertEqual(self.run_on(unsettled.settle())[0], 0)

    def test_bad_usage_is_2(self) -> None:
        err = io.StringIO()
        with contextlib.redirect_stderr(err):
            self.assertEqual(main(["explain", str(self.path.with_name("missing"))]), 2)
            with self.assertRaises(SystemExit) as raised:
                main(["explain"])
        self.assertEqual(raised.exception.code, 2)
        self.assertIn("missing", err.getvalue())

    def test_long_records_are_fast(self) -> None:
        record = long_record()
        began = processor_seconds()
        self.assertGreater(len(self.run_on(record)[1].splitlines()), 2_000)
        self.assertEqual(len(self.run_on(b"\n" * 65_536)[1].splitlines()), 65_537)
        self.assertLess(processor_seconds() - began, 30)


if __name__ == "__main__":
    unittest.main()
