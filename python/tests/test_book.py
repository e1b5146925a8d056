"""Calls as JSON and CSV: read back to the same record, and what is said of bad books."""

from __future__ import annotations

import contextlib
import csv
import hashlib
import io
import json
import random
import tempfile
import unittest
from pathlib import Path
from unittest import mock

from records import first_lines, lodged, random_record, sample, lengthened, with_agents
from reference_engine import Phase, Record, Settled, __version__
from reference_engine.__main__ import main
from reference_engine.auction import read_auction
from reference_engine.book import as_csv, as_json, built
from reference_engine.command import BadInput

# The sample as a user writes it, with nothing beside what is needed.
JSON_BOOK = """{"calls": [
 {"call": "set_up", "ce": 20000, "d": 1000, "m1": 900, "m2": 1200, "a": 40000},
 {"call": "register", "project": 1, "developer": 1, "kind": 1, "levels": [820]},
 {"call": "register", "project": 2, "developer": 2, "kind": 2, "levels": [100, 200], "study": 400, "day": 10},
 {"call": "register", "project": 2, "developer": 3, "kind": 2, "levels": [200], "study": 500, "day": 20},
 {"call": "register", "project": 3, "developer": 4, "kind": 2, "levels": [150]},
 {"call": "open", "c": 25000},
 {"call": "offer", "developer": 2, "steps": [{"price": 26000, "level": 100}]},
 {"call": "offer", "developer": 3, "steps": [[26000, 0]]},
 {"call": "offer", "developer": 4, "steps": [[26000, 0]]},
 {"call": "close"},
 {"call": "settle", "limit": 100}
]}
"""
CSV_BOOK = """\
call,project,developer,kind,levels,study,day,ce,d,m1,m2,a,c,steps,limit
set_up,,,,,,,20000,1000,900,1200,40000,,,
register,1,1,1,820,,,,,,,,,,
register,2,2,2,100;200,400,10,,,,,,,,
register,2,3,2,200,500,20,,,,,,,,
register,3,4,2,150,,,,,,,,,,
open,,,,,,,,,,,,25000,,

offer,,2,,,,,,,,,,,26000>100,
offer,,3,,,,,,,,,,,26000>0,
offer,,4,,,,,,,,,,,26000 > 0,
close,,,,,,,,,,,,,,
settle,,,,,,,,,,,,,,100
"""


def ended(record: Record) -> Record:
    """The record with an 0A behind its last line too."""
    return Record(b"".join(line.text + b"\n" for line in record.lines()))


class RoundTrip(unittest.TestCase):
    """What is shown of a record builds it again, whatever lines it has."""

    def records(self) -> list[Record]:
        choice = random.Random(39)
        odd = Record(b"\n\xff\x00\r\n0g\n" + b"0" * 200)
        listless = Record().register(1, 1, 7, []).offer(1).lodge(1).lodge(2, [(1, 2)] * 9)
        records = [sample(), lodged(550_000), with_agents(300_000), odd, listless, Record()]
        return records + [random_record(choice) for _ in range(40)]

    def test_json(self) -> None:
        for record in self.records():
            self.assertEqual(built(as_json(read_auction(record)).encode()), ended(record))

    def test_csv(self) -> None:
        for record in self.records():
            self.assertEqual(built(as_csv(read_auction(record)).encode()), ended(record))

    def test_as_spreadsheets_write_it(self) -> None:
        """A byte order mark, semicolons between cells, Windows line ends."""
        text = io.StringIO()
        rows = csv.reader(as_csv(read_auction(sample())).splitlines())
        csv.writer(text, delimiter=";").writerows(rows)
        self.assertIn("\r\n", text.getvalue())
        self.assertEqual(built(b"\xef\xbb\xbf" + text.getvalue().encode()), sample())


class Shown(unittest.TestCase):
    def shown(self, record: Record) -> dict[str, object]:
        return json.loads(as_json(read_auction(record)))

    def test_sample(self) -> None:
        shown = self.shown(sample())
        self.assertEqual(shown["source"]["engine_version"], __version__)
        digest = hashlib.sha256(bytes(sample())).hexdigest()
        self.assertEqual(shown["source"]["record_sha256"], digest)
        self.assertEqual(len(shown["source"]["library_sha256"]), 64)
        self.assertEqual(shown["curve"], [{"price": 26_000, "before": 1_170, "after": 920}])
        (only,) = shown["rounds"]
        self.assertEqual((only["opening"], only["supply"], only["excess"]), (40_000, 920, -55))
        self.assertEqual((only["opened"], only["closed"], only["ended"]), (6, 10, True))
        settled = shown["settlement"]
        self.assertEqual((settled["line"], settled["price"], settled["kept"]), (11, 26_000, 2))
        self.assertEqual(settled["awards"][1], {"project": 2, "developer": 3, "quantity": 200})
        calls = shown["calls"]
        self.assertEqual(calls[6]["steps"], [{"price": 26_000, "level": 100}])
        self.assertEqual(calls[9]["reply"]["excess"], -55)
        self.assertEqual(calls[10]["reply"]["text"], sample().lines()[10].reply_text)

    def test_every_figure_is_a_replys(self) -> None:
        choice = random.Random(40)
        for _ in range(20):
            record = random_record(choice)
            shown, lines = self.shown(record), record.lines()
            for call, line in zip(shown["calls"], lines, strict=True):
                self.assertEqual(call["reply"]["text"], line.reply_text)
                self.assertEqual(call["reply"]["refusal"] or 0, line.reply.number)
            settled = [line.reply for line in lines if isinstance(line.reply, Settled)]
            if not settled:
                self.assertIsNone(shown["settlement"])
                continue
            for name, value in vars(settled[-1]).items():
                if name not in ("kind", "number", "awards"):
                    self.assertEqual(shown["settlement"][name], value)

    def test_refused_and_malformed(self) -> None:
        refused, malformed = self.shown(Record(b"05\n0g\r\n"))["calls"]
        self.assertEqual(refused["reply"]["meaning"], "call not accepted in this phase")
        self.assertEqual((malformed["call"], malformed["hex"]), ("malformed", "30670D"))

    def test_the_latest_settlement(self) -> None:
        self.assertEqual(self.shown(sample().settle(50).settle(0))["settlement"]["line"], 12)

    def test_what_is_left_behind(self) -> None:
        """State, preview, curve and settlement, as the methods of Record give them."""
        phases = set()
        for count in range(12):
            record = first_lines(count)
            shown, state = self.shown(record), record.state()
            phases.add(shown["state"].pop("phase"))
            self.assertEqual(list(shown["state"].values()), list(vars(state).values())[1:])
            self.assertEqual(shown["preview"] is not None, state.phase is Phase.ROUND)
            if state.phase is Phase.ROUND:
                self.assertEqual(shown["preview"], vars(record.preview()))
            self.assertEqual(shown["curve"], [vars(point) for point in record.supply_curve()])
        self.assertEqual(phases, {"fresh", "ready", "round", "closed"})
        replies = [call["reply"].get("ended") for call in shown["calls"]]
        self.assertEqual(replies, [None] * 9 + [True, None])

    def test_beyond_64_kib(self) -> None:
        shown, known = self.shown(lengthened()), self.shown(sample())
        for name in ("state", "curve", "settlement"):
            self.assertEqual(shown[name], known[name])


class Books(unittest.TestCase):
    def test_by_hand(self) -> None:
        for book in (JSON_BOOK, CSV_BOOK):
            self.assertEqual(built(book.encode()), sample())

    def test_bad_books(self) -> None:
        heading = "call,developer,steps,levels,kind,project\n"
        called = '{"calls": [{"call": "close"}, %s]}'
        for book, said in (
            ("", "it has no column 'call' of a book"),
            ("y,x\n1,2\n", "'x' is no column of a book"),
            ("{", "it is no JSON: Expecting property name enclosed in double quotes: line 1"),
            ('{"calls": [{"call": "close", "call": "close"}]}', "it is no JSON: an object says call"),
            ("[" * 100_000, "it is no JSON: "),
            ("[]", 'it is no object with a list "calls"'),
            ('{"calls": {}}', 'it is no object with a list "calls"'),
            ('{"calls": [5]}', "calls[0] is no object"),
            (called % '{"call": "bid"}', "calls[1] (bid): call is one of set_up, register, "),
            (called % '{"line": 2}', "calls[1] (None): call is one of set_up, "),
            (called % '{"call": "open"}', "calls[1] (open): c is missing"),
            (called % '{"call": "open", "c": 1, "d": 1}', "calls[1] (open): d is no field of open"),
            (called % '{"call": "open", "c": 1.5}', "calls[1] (open): c must be a whole number, not"),
            (called % '{"call": "open", "c": true}', "calls[1] (open): c must be a whole number, not"),
            (called % '{"call": "open", "c": -1}', "calls[1] (open): c is -1, and must be from 0"),
            (called % '{"call": "offer", "developer": 1, "steps": 5}', "calls[1] (offer): steps must"),
            (
                called % '{"call": "offer", "developer": 1, "steps": [{"price": 1}]}',
                "calls[1] (offer): steps[0] must be a Step or a pair of a price and a level",
            ),
            (
                called % f'{{"call": "lodge", "developer": 1, "steps": {[[1, 1]] * 10}}}',
                "calls[1] (lodge): refused by 14: call that no frame can say",
            ),
            (called % '{"call": "malformed", "hex": "0A"}', "calls[1] (malformed): a line has no 0A"),
            (called % '{"call": "malformed", "hex": "x"}', "calls[1] (malformed): non-hexadecimal"),
            (called % '{"call": "malformed", "hex": 5}', "calls[1] (malformed): "),
            (heading + "bid\n", "row 2 (bid): call is one of"),
            (heading + "close\nclose,2\n", "row 3 (close): developer is no field of close"),
            (heading + "cancel\n", "row 2 (cancel): developer is missing"),
            (heading + 'cancel,"2,000"\n', "row 2: developer: '2,000' is no whole number"),
            (heading + "cancel,2.0\n", "row 2: developer: '2.0' is no whole number"),
            (heading + "cancel,2E+11\n", "row 2: developer: '2E+11' is no whole number"),
            (heading + "cancel,256\n", "row 2 (cancel): developer is 256, and must be from 0 to 255"),
            (heading + "offer,1,26000\n", "row 2 (offer): steps[0] must be a Step or a pair"),
            (heading + "offer,1,26000>\n", "row 2: steps: '' is no whole number"),
            (heading + "close,,,,,,5\n", "row 2 has more cells than the heading"),
            (heading + '"close\n', "it is no CSV: unexpected end of data"),
        ):
            with self.subTest(book=book[:80]):
                with self.assertRaises(BadInput) as raised:
                    built(book.encode())
                message = str(raised.exception)
                self.assertTrue(message.startswith(said), message)
                self.assertNotIn("\n", message)
        for content in (b"\xff\xfe{\x00}\x00", b"call\n\xe9\n"):
            with self.assertRaisesRegex(BadInput, "^it is no UTF-8: "):
                built(content)

    def test_random_bytes(self) -> None:
        """A spoiled book is built or refused in words, and nothing else happens."""
        choice = random.Random(41)
        refused = 0
        for book in (JSON_BOOK, CSV_BOOK) * 100:
            content = bytearray(book.encode())
            for _ in range(choice.randint(1, 4)):
                content[choice.randrange(len(content))] = choice.randrange(256)
            try:
                built(bytes(content))
            except BadInput:
                refused += 1
        self.assertGreater(refused, 100)


class Commands(unittest.TestCase):
    def setUp(self) -> None:
        folder = tempfile.TemporaryDirectory()
        self.addCleanup(folder.cleanup)
        self.folder = Path(folder.name)
        self.record = self.folder / "record"
        sample().write(self.record)

    def run_main(self, *arguments: object, fed: bytes = b"") -> tuple[int, str, str]:
        """Exit status, standard output and standard error."""
        out, err = io.StringIO(), io.StringIO()
        stdin = io.TextIOWrapper(io.BytesIO(fed))
        with contextlib.redirect_stdout(out), contextlib.redirect_stderr(err):
            with mock.patch("sys.stdin", stdin):
                status = main([*map(str, arguments)])
        return status, out.getvalue(), err.getvalue()

    def test_show_and_build(self) -> None:
        for name in ("json", "csv"):
            book, new = self.folder / f"book.{name}", self.folder / f"new.{name}"
            said = self.run_main("show", self.record, f"--{name}", "-o", book)
            self.assertEqual(said, (0, "", ""))
            said = self.run_main("build", book, "-o", new)
            self.assertEqual(said, (0, "11 calls, 0 refused\n", ""))
            self.assertEqual(Record.read(new), sample())
            shown = self.run_main("show", "-", f"--{name}", fed=bytes(sample()))
            self.assertEqual(shown, (0, book.read_text(), ""))
            said = self.run_main("build", "-", "-o", "-", fed=book.read_bytes())
            self.assertEqual(said, (0, bytes(sample()).decode(), "11 calls, 0 refused\n"))

    def test_answer(self) -> None:
        status, out, err = self.run_main("show", self.record)
        self.assertEqual((status, err), (0, ""))
        self.assertEqual(out.splitlines()[0], "Closing price: 26.000 US$ per MWh")
        self.assertIn("Award's total: 1,020 kWh per day\nRounds: 1\n", out)
        digest = hashlib.sha256(bytes(sample())).hexdigest()
        self.assertTrue(out.endswith(f"record SHA-256: {digest}\n"))
        first_lines(10).settle(0).write(self.record)
        status, out, err = self.run_main("show", self.record)
        self.assertEqual((status, out.splitlines()[0]), (1, "Settlement: none"))
        self.assertIn("not settled: line 11 was refused by 10", err)

    def test_refused_calls_are_said(self) -> None:
        said = self.run_main("build", "-", "-o", self.folder / "new", fed=b"call\nclose\nclose\n")
        refused = "2 calls, 2 refused; the first is line 1, refused by 2: call not accepted in this phase"
        self.assertEqual(said, (0, f"{refused}\n", ""))

    def test_bad_book(self) -> None:
        book, new = self.folder / "book.csv", self.folder / "new"
        book.write_text("call\nbid\n")
        status, out, err = self.run_main("build", book, "-o", new)
        self.assertEqual((status, out, err.count("\n")), (2, "", 1))
        self.assertIn(f"{book}: row 2 (bid): call is one of set_up, ", err)
        self.assertFalse(new.exists())

    def test_nothing_is_written_over(self) -> None:
        book = self.folder / "book.json"
        book.write_text(JSON_BOOK)
        for output in (self.record, book):
            before = output.read_bytes()
            status, out, err = self.run_main("build", book, "-o", output)
            self.assertEqual((status, out), (2, ""))
            self.assertIn(f"{output} is there already, and is not written over\n", err)
            self.assertEqual(output.read_bytes(), before)
        status, out, err = self.run_main("show", self.record, "--json", "-o", self.record)
        self.assertEqual((status, out), (2, ""))
        self.assertEqual(Record.read(self.record), sample())


if __name__ == "__main__":
    unittest.main()
