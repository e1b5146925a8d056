"""The command report: pages read back as XML, beside the library's replies."""

from __future__ import annotations

import contextlib
import io
import random
import re
import shutil
import subprocess
import sys
import tempfile
import unittest
import xml.etree.ElementTree as ET
from pathlib import Path
from unittest import mock

from records import (
    ROOT,
    first_lines,
    lodged,
    long_record,
    processor_seconds,
    random_record,
    sample,
    with_agents,
)
from reference_engine import Record, Settled
from reference_engine.__main__ import main
from reference_engine.auction import read_auction
from reference_engine.calls import Offer
from reference_engine.figures import quantity_labels, spread, thinned, ticks
from reference_engine.report import page

_HTML = "{http://www.w3.org/1999/xhtml}"
_SVG = "{http://www.w3.org/2000/svg}"
_CURVE = "withdrawal price, US$ per MWh"  # the curve's first column


class Page:
    """A page read back."""

    def __init__(self, record: Record | bytes, name: str = "record") -> None:
        self.auction = read_auction(record)
        self.text = page(self.auction, name)
        self.root = ET.fromstring(self.text)
        self.words = "\n".join(self.root.itertext())

    def rows(self, *columns: str) -> list[list[str]]:
        """The rows of all tables whose headings start with these."""
        found: list[list[str]] = []
        for table in self.root.iter(_HTML + "table"):
            heads = ["".join(head.itertext()) for head in table.findall(f"{_HTML}thead//{_HTML}th")]
            if heads[: len(columns)] == list(columns):
                found += _cells(table)
        return found

    def figures(self) -> dict[str, str]:
        """The figures of settings and settlement by name."""
        tables = self.root.iter(_HTML + "table")
        named = [table for table in tables if table.find(f"{_HTML}thead") is None]
        return {row[0]: row[1] for table in named for row in _cells(table)}

    def pictures(self, kind: str = "broad") -> list[ET.Element]:
        """The pictures for a page, or those for a phone."""
        return self.root.findall(f".//{_HTML}div[@class='{kind}']/{_SVG}svg")

    def answer(self) -> dict[str, str]:
        """What stands in the box."""
        items = self.root.findall(f"{_HTML}body/{_HTML}dl/{_HTML}div")
        return {"".join(name.itertext()): "".join(figure.itertext()).strip() for name, figure in items}


def _cells(table: ET.Element) -> list[list[str]]:
    rows = table.findall(f"{_HTML}tbody/{_HTML}tr")
    return [["".join(cell.itertext()) for cell in row] for row in rows]


def _whole(shown: str) -> int:
    """The number that a cell shows; a price in thousandths."""
    return int(shown.replace(",", "").replace(".", ""))


def _boxes(picture: ET.Element) -> list[tuple[float, float, float, float, str]]:
    """About where each text stands: left, right, top, bottom."""
    boxes = []
    for text in picture.iter(_SVG + "text"):
        words = text.text or ""
        width = 7.0 * len(words)
        x, y = float(text.attrib["x"]), float(text.attrib["y"])
        left = x - {"start": 0.0, "middle": width / 2, "end": width}[text.attrib["text-anchor"]]
        boxes.append((left, left + width, y - 10, y + 3, words))
    return boxes


def _many_rounds(count: int) -> Record:
    """Large numbers, in so many rounds."""
    record = Record().set_up(500_000, 20 * 10**9, 19 * 10**9, 31 * 10**9, 1_000_000)
    for number in range(1, 33):
        record.register(number, number, 1, [10**9])
    for place in range(1, count + 1):
        record.open(1_000_000 - 700_000 * place // count).close()
    return record


class SamplePage(unittest.TestCase):
    """Every figure of the sample is on its page."""

    @classmethod
    def setUpClass(cls) -> None:
        cls.page = Page(sample(), "sample")

    def test_settings_and_settlement(self) -> None:
        self.assertEqual(
            self.page.figures(),
            {
                "Entrant's cost CE": "20.000",
                "Target demand D": "1,000",
                "Lower margin M1": "900",
                "Upper margin M2": "1,200",
                "Opening price A": "40.000",
                "Closing price P": "26.000",
                "Second price, for new plants": "26.000",
                "Second price is short": "no",
                "Demand at P": "970",
                "Remainder of demand": "0",
                "Award's total": "1,020",
                "Admissible choices": "4",
                "Covering choices": "3",
                "Covering choices kept by the search": "2",
                "Participation": "sufficient",
                "Price paid to existing plants": "26.000",
            },
        )

    def test_registrations(self) -> None:
        rows = self.page.rows("project", "developer", "kind")
        self.assertEqual(rows[0], ["1", "1", "existing", "1*", "0", "0", "820"])
        self.assertEqual(rows[1], ["2", "2", "new", "2*", "400", "10", "100; 200"])
        self.assertEqual(len(rows), 4)
        note = "* The registration's agent is the one with the developer's number."
        self.assertIn(note, self.page.words)
        self.assertIn("No list was lodged.", self.page.words)

    def test_round_with_its_offers(self) -> None:
        self.assertEqual(
            self.page.rows("round"), [["1", "40.000", "25.000", "920", "975", "0", "-55", "yes"]]
        )
        offers = self.page.rows("line", "developer", "call")
        self.assertEqual(offers[0], ["7", "2", "offer", "at 26.000 down to 100"])
        self.assertEqual([row[0] for row in offers], ["7", "8", "9"])

    def test_curve_and_award(self) -> None:
        self.assertEqual(self.page.rows(_CURVE), [["26.000", "1,170", "920"]])
        self.assertEqual(
            self.page.rows("project", "developer", "agent"),
            [["1", "1", "1*", "existing", "820"], ["2", "3", "3*", "new", "200"]],
        )

    def test_one_figure_with_its_marks(self) -> None:
        (picture,) = self.page.pictures()
        words = [box[4] for box in _boxes(picture)]
        for expected in (
            "closing price: 26.000",
            "opening price A: 40.000",
            "C of round 1: 25.000",
            "award's total: 1,020 kWh",
            "price, US$ per MWh",
            "quantity, kWh per day",
        ):
            self.assertIn(expected, words)
        self.assertNotIn("second price", " ".join(words))

    def test_curves_are_the_librarys(self) -> None:
        """Read back by the axis ticks, both curves have the numbers of the library."""
        (picture,) = self.page.pictures()
        boxes = {box[4]: box for box in _boxes(picture)}
        x = {1_000: _middle(boxes["1,000"]), 1_200: _middle(boxes["1,200"])}
        y = {number: boxes[f"{number // 1000}.000"][3] - 7.5 for number in (10_000, 40_000)}
        demand, supply = _curves(picture)
        across = lambda at: 1_000 + (at - x[1_000]) * 200 / (x[1_200] - x[1_000])
        up = lambda at: 10_000 + (at - y[10_000]) * 30_000 / (y[40_000] - y[10_000])
        corners = [(1_170, 40_000), (1_170, 26_000), (920, 26_000), (920, 25_000)]
        for point, expected in zip(supply, corners, strict=True):
            self.assertAlmostEqual(across(point[0]), expected[0], delta=1)
            self.assertAlmostEqual(up(point[1]), expected[1], delta=60)
        self.assertGreater(len(demand), 200)
        for point in demand[::20]:
            asked = min(max(round(up(point[1])), 10_000), 40_000)
            self.assertAlmostEqual(across(point[0]), self.page.auction.demand_at(asked), delta=3)

    def test_needs_nothing_else(self) -> None:
        self.assertEqual(len(list(self.page.root.iter(_HTML + "style"))), 1)
        for each in self.page.root.iter():
            self.assertNotIn(each.tag.split("}")[1], ("script", "link", "img", "iframe"))
            self.assertNotIn("src", each.attrib)
            self.assertTrue(each.get("href", "#").startswith("#"))
        self.assertNotIn("url(", self.page.text)

    def test_the_answer_comes_first(self) -> None:
        self.assertEqual(
            self.page.answer(),
            {
                "Closing price": "26.000 US$ per MWh",
                "Second price, for new plants": "26.000 US$ per MWh",
                "Price paid to existing plants": "26.000 US$ per MWh",
                "Award's total": "1,020 kWh per day",
                "Rounds": "1",
                "Participation": "sufficient",
            },
        )
        body = self.page.root.find(f"{_HTML}body")
        self.assertEqual([each.tag for each in body[:2]], [_HTML + "h1", _HTML + "dl"])
        marked = Page(lodged(499_999)).answer()
        self.assertEqual(marked["Second price, for new plants"], "40.000 US$ per MWh, marked short")
        paid = Page(with_agents(300_001)).answer()
        self.assertEqual(paid["Participation"], "insufficient")
        self.assertEqual(paid["Price paid to existing plants"], "22.000 US$ per MWh")
        self.assertEqual(Page(first_lines(9)).answer(), {"Settlement": "none", "Rounds": "1"})

    def test_contents_lead_to_the_sections(self) -> None:
        links = self.page.root.findall(f"{_HTML}body/{_HTML}nav//{_HTML}a")
        headings = self.page.root.findall(f"{_HTML}body/{_HTML}h2")
        self.assertEqual(
            [(link.text, link.attrib["href"]) for link in links],
            [(heading.text, f"#{heading.attrib['id']}") for heading in headings],
        )
        named = [each.attrib["id"] for each in self.page.root.iter() if "id" in each.attrib]
        self.assertEqual(len(set(named)), len(named))

    def test_source(self) -> None:
        for name, value in self.page.auction.source.items():
            self.assertIn(f"<p>{name}: <code>{value}</code></p>", self.page.text)

    def test_wide_tables_are_cards_on_a_phone(self) -> None:
        """Each cell of a table with more than five columns has the name of its column."""
        seen = 0
        for table in self.page.root.iter(_HTML + "table"):
            heads = ["".join(head.itertext()) for head in table.findall(f"{_HTML}thead//{_HTML}th")]
            for row in table.findall(f"{_HTML}tbody/{_HTML}tr"):
                names = [cell.get("data-name") for cell in row]
                self.assertEqual(names, heads if len(heads) > 5 else [None] * len(row))
                seen += len(heads) > 5
            self.assertEqual(table.get("class"), "cards" if len(heads) > 5 else None)
        self.assertEqual(seen, 5)  # four registrations and a round


def _middle(box: tuple[float, float, float, float, str]) -> float:
    return (box[0] + box[1]) / 2


def _curves(picture: ET.Element) -> tuple[list[tuple[float, float]], list[tuple[float, float]]]:
    """The points of demand and supply: the two thick lines."""
    lines = picture.iter(_SVG + "polyline")
    demand, supply = (line for line in lines if line.attrib["stroke-width"] == "2.4")
    return _points(demand), _points(supply)


def _points(line: ET.Element) -> list[tuple[float, float]]:
    pairs = (pair.split(",") for pair in line.attrib["points"].split())
    return [(float(x), float(y)) for x, y in pairs]


class RandomPages(unittest.TestCase):
    """Pages of random auctions, with refused and malformed lines in them."""

    def test_pages_say_what_the_replies_say(self) -> None:
        choice = random.Random(25)
        settled = several = self.seen_empty = 0
        for _ in range(60):
            read = Page(random_record(choice))
            auction = read.auction
            settled += bool(auction.settled)
            several += len(auction.rounds) > 1
            self._rounds(read)
            self._refused(read)
            self._settlement(read)
            self._curve(read)
        self.assertGreater(settled, 10)
        self.assertGreater(several, 10)
        self.assertGreater(self.seen_empty, 100)

    def _rounds(self, read: Page) -> None:
        rows = read.rows("round")
        self.assertEqual(len(rows), len(read.auction.rounds))
        for row, now in zip(rows, read.auction.rounds):
            self.assertEqual([_whole(each) for each in row[:3]], [now.number, now.opening, now.c])
            if now.closed:
                expected = [now.supply, now.demand, now.remainder, now.excess]
                self.assertEqual([_whole(each) for each in row[3:7]], expected)
                self.assertEqual(row[7], "yes" if now.ended else "no")
            else:
                self.assertEqual(row[7], "not closed")
        self._moves(read)

    def _moves(self, read: Page) -> None:
        """Offers with steps and cancellations have a row, offers without any one line a round."""
        moves = [line for now in read.auction.rounds for line in now.moves]
        empty = [line for line in moves if isinstance(line.call, Offer) and not line.call.steps]
        rows = [_whole(row[0]) for row in read.rows("line", "developer", "call")]
        self.assertEqual(rows, [line.number for line in moves if line not in empty])
        folded = read.root.findall(f".//{_HTML}p[@class='empty']")
        self.assertEqual(
            len(folded), sum(any(line in empty for line in now.moves) for now in read.auction.rounds)
        )
        words = " ".join("".join(each.itertext()) for each in folded)
        found = [(int(pair[0]), int(pair[1])) for pair in re.findall(r"(\d+) \((\d+)\)", words)]
        self.assertEqual(found, [(line.call.developer, line.number) for line in empty])
        self.seen_empty += len(empty)

    def _refused(self, read: Page) -> None:
        rows = read.rows("line", "text")
        refused = [line for line in read.auction.lines if line.reply.refusal]
        self.assertEqual([_whole(row[0]) for row in rows], [line.number for line in refused])
        for row, line in zip(rows, refused):
            self.assertEqual(row[3], f"{line.reply.number}: {line.reply.refusal.meaning}")

    def _settlement(self, read: Page) -> None:
        replies = [line.reply for line in read.auction.lines if isinstance(line.reply, Settled)]
        if not replies:
            self.assertNotIn("Closing price P", read.figures())
            return
        final, shown = replies[-1], read.figures()
        self.assertEqual(_whole(shown["Closing price P"]), final.price)
        self.assertEqual(_whole(shown["Second price, for new plants"]), final.second_price)
        self.assertEqual(_whole(shown["Price paid to existing plants"]), final.price_paid)
        self.assertEqual(_whole(shown["Demand at P"]), final.demand)
        self.assertEqual(_whole(shown["Award's total"]), final.total)
        self.assertEqual(_whole(shown["Covering choices"]), final.covering)
        marks = shown["Second price is short"] == "yes", shown["Participation"] == "insufficient"
        self.assertEqual(marks, (final.short, final.insufficient))
        rows = read.rows("project", "developer", "agent")
        awards = [(award.project, award.developer, award.quantity) for award in final.awards]
        self.assertEqual([(int(row[0]), int(row[1]), _whole(row[4])) for row in rows], awards)

    def _curve(self, read: Page) -> None:
        points = [(point.price, point.before, point.after) for point in read.auction.curve]
        rows = read.rows(_CURVE)
        self.assertEqual([tuple(_whole(each) for each in row) for row in rows], points)


class Figures(unittest.TestCase):
    def test_labels_stand_apart_and_inside(self) -> None:
        choice = random.Random(7)
        records = [random_record(choice) for _ in range(40)]
        records += [sample(), long_record(), _many_rounds(2), _many_rounds(16), _many_rounds(300)]
        seen = 0
        for record in records:
            read = Page(record)
            for picture in read.pictures() + read.pictures("narrow"):
                seen += 1
                self._check(picture)
        self.assertGreater(seen, 120)

    def _check(self, picture: ET.Element) -> None:
        width, height = map(float, picture.attrib["viewBox"].split()[2:])
        self.assertEqual([each.tag for each in picture[:2]], [_SVG + "title", _SVG + "desc"])
        boxes = _boxes(picture)
        for place, (left, right, top, bottom, words) in enumerate(boxes):
            self.assertTrue(0 <= left and right <= width and 0 <= top and bottom <= height, words)
            for other in boxes[:place]:
                beside = right <= other[0] or other[1] <= left
                above = bottom <= other[2] or other[3] <= top
                self.assertTrue(beside or above, (words, other[4]))

    def test_rounds_figure_shows_each_excess(self) -> None:
        read = Page(_many_rounds(4))
        words = {box[4] for box in _boxes(read.pictures()[0])}
        self.assertEqual(len(read.pictures()), 2)
        for now in read.auction.rounds:
            self.assertIn(f"{now.excess:,}", words)
        self.assertLess({"1", "2", "3", "4"}, {box[4] for box in _boxes(read.pictures("narrow")[0])})

    def test_long_quantities_in_gwh(self) -> None:
        words = {box[4] for box in _boxes(Page(_many_rounds(4)).pictures()[0])}
        self.assertLess({"quantity, GWh per day, at C of each round", "32,000"}, words)
        words = {box[4] for box in _boxes(Page(_many_rounds(4)).pictures()[1])}
        self.assertLess({"quantity, GWh per day", "20,000"}, words)
        for marks, labels, unit in (
            ([180_000_000, 185_000_000], ["180", "185"], "GWh"),
            ([18_000_000, 18_500_000], ["18.0", "18.5"], "GWh"),
            ([18_001_000, 18_002_000], ["18.001", "18.002"], "GWh"),
            ([18_000_100, 18_000_200], ["18,000,100", "18,000,200"], "kWh"),
            ([8_000_000, 9_000_000], ["8,000,000", "9,000,000"], "kWh"),
            ([], [], "kWh"),
        ):
            self.assertEqual(quantity_labels(marks), (labels, f"{unit} per day"))

    def test_second_price_is_marked_where_it_differs(self) -> None:
        read = Page(lodged(550_000))
        words = {box[4] for box in _boxes(read.pictures()[1])}
        self.assertLessEqual({"closing price: 29.990", "second price: 30.000"}, words)
        self.assertEqual(words & {"closing price", "second price"}, {"closing price", "second price"})
        phone = {box[4] for box in _boxes(read.pictures("narrow")[1])}
        self.assertLessEqual({"closing price: 29.990", "second price: 30.000"}, phone)
        self.assertNotIn("closing price", phone)
        rows = read.rows("line", "developer", "steps: US$ per MWh, kWh per day")
        self.assertEqual(rows, [["5", "1", "at 30.000 down to 300,000; at 29.990 down to 0"]])

    def test_ticks(self) -> None:
        self.assertEqual(ticks(9_100, 41_000, 10), list(range(10_000, 41_000, 5_000)))
        self.assertEqual(ticks(3, 5, 10), [3, 4, 5])
        choice = random.Random(3)
        for _ in range(300):
            low = choice.randrange(10**11)
            marks = ticks(low, low + choice.randrange(1, 10 ** choice.randint(1, 11)), 8)
            self.assertLessEqual(len(marks), 8)
            self.assertLessEqual(len({after - now for now, after in zip(marks, marks[1:])}), 1)

    def test_spread_and_thinned(self) -> None:
        self.assertEqual(spread([10, 50], 0, 100, 20), [10, 50])
        self.assertEqual(spread([50, 50], 0, 100, 20), [40, 60])
        self.assertEqual(spread([99, 99, 99], 0, 100, 20), [60, 80, 100])
        self.assertEqual(spread([], 0, 100, 20), [])
        self.assertEqual(thinned(3, 5), [0, 1, 2])
        self.assertEqual(thinned(100, 4), [0, 33, 66, 99])


class Damaged(unittest.TestCase):
    def test_empty_record(self) -> None:
        read = Page(b"")
        for words in (
            "The record is empty.",
            "No set-up was accepted.",
            "No registration was accepted.",
            "No round was opened.",
            "No round was closed, so there is no supply curve.",
            "No settling was asked for.",
        ):
            self.assertIn(words, read.words)
        self.assertEqual(read.pictures(), [])

    def test_each_beginning_of_the_sample(self) -> None:
        content = bytes(sample())
        for length in range(0, len(content), 7):
            read = Page(content[:length])
            self.assertEqual(len(read.rows("line", "text")), len(read.auction.refused))

    def test_malformed_lines_are_readable(self) -> None:
        read = Page(b"<b>&\"'\n\xff\x00caf\xc3\xa9\\\n\n" + b"]]>" * 100)
        self.assertEqual(
            [row[1] for row in read.rows("line", "text")],
            [
                "<b>&\"'",
                "\\xFF\\x00caf\\xC3\\xA9\\\\",
                "blank",
                "]]>" * 66 + "]]" + "and 100 bytes more",
            ],
        )
        self.assertNotIn("<b>", read.text)

    def test_file_name_is_escaped(self) -> None:
        read = Page(b"", "a<b>&\x01\udcff\u00e9.txt")
        title = read.root.findtext(f"{_HTML}head/{_HTML}title")
        self.assertEqual(title, "Auction report: a<b>&\\x01\\xDCFF\u00e9.txt")

    def test_random_bytes(self) -> None:
        choice = random.Random(1)
        for _ in range(50):
            content = bytearray(bytes(sample()))
            for _ in range(choice.randint(1, 20)):
                content[choice.randrange(len(content))] = choice.randrange(256)
            Page(bytes(content))

    def test_one_settlement_for_equal_settlings(self) -> None:
        read = Page(sample().settle(1).settle(50))
        self.assertIn("Settled by lines 11; 13.", read.words)
        self.assertEqual(len(read.rows("project", "developer", "agent")), 2)


class LongRecords(unittest.TestCase):
    def test_64_kib_in_time(self) -> None:
        record = long_record()
        started = processor_seconds()
        page(read_auction(record), "long")
        self.assertLess(processor_seconds() - started, 30)

    def test_beyond_64_kib(self) -> None:
        """Nothing is left out of the report of a longer record."""
        read, known = Page(bytes(long_record()) + b"0600010000\n" * 200), Page(long_record())
        for name in ("Closing price P", "Covering choices kept by the search"):
            self.assertEqual(read.figures()[name], known.figures()[name])
        self.assertEqual(read.rows("round"), known.rows("round"))
        self.assertEqual(read.rows(_CURVE), known.rows(_CURVE))
        self.assertTrue(read.rows(_CURVE))
        words = {box[4] for box in _boxes(read.pictures()[0])}
        self.assertLess({"demand", "supply"}, words)


class Command(unittest.TestCase):
    def setUp(self) -> None:
        folder = tempfile.TemporaryDirectory()
        self.addCleanup(folder.cleanup)
        self.folder = Path(folder.name)

    def report(self, content: bytes, output: str = "page.html") -> tuple[int, str]:
        """Exit status, and what stands on standard error."""
        record = self.folder / "record"
        record.write_bytes(content)
        errors = io.StringIO()
        with contextlib.redirect_stderr(errors):
            status = main(["report", str(record), "-o", str(self.folder / output)])
        return status, errors.getvalue()

    def test_settled(self) -> None:
        self.assertEqual(self.report(bytes(sample())), (0, ""))
        written = (self.folder / "page.html").read_bytes()
        self.assertEqual(written.decode("utf-8"), Page(sample(), "record").text)

    def test_no_settling_asked_for(self) -> None:
        self.assertEqual(self.report(bytes(first_lines(10))), (0, ""))
        self.assertEqual(self.report(b""), (1, "the record has no line\n"))
        said = "no line was accepted: line 1 was refused by 12: malformed line\n"
        self.assertEqual(self.report(b"0g\n"), (1, said))

    def test_settling_refused(self) -> None:
        status, errors = self.report(b"0600000001\n0600000001\n")
        self.assertEqual(status, 1)
        refused = "line 1 was refused by 2: call not accepted in this phase"
        self.assertEqual(errors, f"no line was accepted: {refused}\n")
        self.assertIn("No settling was made.", (self.folder / "page.html").read_text())

    def test_refused_once_then_settled(self) -> None:
        self.assertEqual(self.report(b"0600000001\n" + bytes(sample()))[0], 0)

    def test_record_is_not_replaced(self) -> None:
        status, errors = self.report(b"05\n", "record")
        self.assertEqual(status, 2)
        self.assertIn(f"the output would replace {self.folder / 'record'}\n", errors)
        self.assertEqual((self.folder / "record").read_bytes(), b"05\n")

    def test_bad_usage(self) -> None:
        self.assertEqual(self.report(b"", "missing/page.html")[0], 2)
        with contextlib.redirect_stderr(io.StringIO()):
            self.assertEqual(main(["report", str(self.folder / "none"), "-o", "-"]), 2)
            with self.assertRaises(SystemExit) as stopped:
                main(["report", str(self.folder / "record")])
        self.assertEqual(stopped.exception.code, 2)

    def test_standard_output(self) -> None:
        record = ROOT / "crates" / "replay" / "stdin"
        command = [sys.executable, "-m", "reference_engine", "report", str(record), "-o", "-"]
        done = subprocess.run(
            command, capture_output=True, cwd=ROOT / "python", env={"PYTHONIOENCODING": "ascii"}
        )
        self.assertEqual((done.returncode, done.stderr), (0, b""))
        self.assertEqual(done.stdout.decode("utf-8"), Page(sample(), "stdin").text)


class FigureCommand(unittest.TestCase):
    """The report's figures as files."""

    def setUp(self) -> None:
        folder = tempfile.TemporaryDirectory()
        self.addCleanup(folder.cleanup)
        self.folder = Path(folder.name)

    def figure(self, record: Record, which: str, output: str) -> tuple[int, str]:
        """Exit status, and what stands on standard error."""
        record.write(self.folder / "record")
        command = ["figure", str(self.folder / "record"), "--which", which]
        with contextlib.redirect_stderr(io.StringIO()) as err:
            status = main([*command, "-o", str(self.folder / output)])
        return status, err.getvalue()

    def test_svg(self) -> None:
        for place, which in enumerate(("rounds", "curve")):
            self.assertEqual(self.figure(lodged(550_000), which, "figure.svg"), (0, ""))
            picture = ET.parse(self.folder / "figure.svg").getroot()
            *parts, source = picture
            shown = Page(lodged(550_000)).pictures()[place]
            self.assertEqual([ET.tostring(part) for part in parts], [ET.tostring(part) for part in shown])
            self.assertEqual(source.tag, _SVG + "metadata")
            for name, value in read_auction(lodged(550_000)).source.items():
                self.assertIn(f"{name}: {value}", source.text)

    @unittest.skipUnless(shutil.which("rsvg-convert"), "rsvg-convert is not installed")
    def test_pdf(self) -> None:
        self.assertEqual(self.figure(sample(), "curve", "figure.pdf"), (0, ""))
        self.assertTrue((self.folder / "figure.pdf").read_bytes().startswith(b"%PDF-"))

    def test_no_converter(self) -> None:
        with mock.patch.object(shutil, "which", return_value=None):
            status, err = self.figure(sample(), "curve", "figure.pdf")
        self.assertEqual((status, err.count("\n")), (2, 1))
        self.assertIn("no converter to PDF is installed (rsvg-convert and inkscape are known)", err)
        self.assertFalse((self.folder / "figure.pdf").exists())

    def test_nothing_to_draw(self) -> None:
        for record, which, said in (
            (Record().close(), "curve", "there is no curve: no set-up was accepted"),
            (sample(), "rounds", "there is no figure of rounds: fewer than two were closed"),
        ):
            status, err = self.figure(record, which, "figure.svg")
            self.assertEqual((status, err), (2, f"python3 -m reference_engine: {said}\n"))
            self.assertFalse((self.folder / "figure.svg").exists())

    def test_other_endings_and_the_record(self) -> None:
        for output, said in (("figure.png", "neither .svg nor .pdf"), ("record", "neither .svg nor")):
            status, err = self.figure(sample(), "curve", output)
            self.assertEqual(status, 2)
            self.assertIn(said, err)
        self.assertEqual((self.folder / "record").read_bytes(), bytes(sample()))


if __name__ == "__main__":
    unittest.main()
