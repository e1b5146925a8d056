"""Tables read back to the numbers of the auction, in each format, and the command's exit status."""

from __future__ import annotations

import contextlib
import csv
import hashlib
import importlib
import importlib.util
import io
import random
import re
import shutil
import subprocess
import tempfile
import unittest
from pathlib import Path
from typing import Union
from unittest import mock

from records import (
    first_lines,
    lodged,
    long_record,
    processor_seconds,
    random_record,
    ready,
    sample,
    lengthened,
    with_agents,
)
from reference_engine import Record, __version__, command
from reference_engine.__main__ import main
from reference_engine.auction import Auction, read_auction
from reference_engine.table import latex_escaped

Cell = Union[int, str, None]
Tables = dict[str, list[list[Cell]]]  # the rows of each table, its headings first

PRICE = "(thousandths of US$ per MWh)"
QUANTITY = "(kWh per day)"
REMAINDER = "(CE-ths of a kWh per day)"
HEADINGS = {
    "rounds": [
        "round",
        f"opening price {PRICE}",
        f"C {PRICE}",
        f"supply {QUANTITY}",
        f"demand {QUANTITY}",
        f"remainder {REMAINDER}",
        f"excess {QUANTITY}",
    ],
    "curve": [f"price {PRICE}", f"supply before {QUANTITY}", f"supply after {QUANTITY}"],
    "award": ["project", "developer", "agent", "kind", f"quantity {QUANTITY}"],
    "settlement": ["item", "value"],
}


def cell_in(text: str) -> Cell:
    """A number, words, or None for an empty cell."""
    if re.fullmatch(r"-?[0-9]{1,3}(,[0-9]{3})*|-?[0-9]+", text):
        return int(text.replace(",", ""))
    return text or None


def tables_in_csv(text: str) -> Tables:
    """As the command's help says."""
    tables: Tables = {}
    for row in csv.reader(io.StringIO(text)):
        tables.setdefault(row[0], []).append([cell_in(cell) for cell in row[1:]])
    return tables


def tables_in_latex(text: str) -> Tables:
    """The heading's rows joined by column, a unit set between brackets as in the other formats."""
    comments, begin, rest = text.partition("\\begingroup")
    source = [line.removeprefix("% ").split(": ", 1) for line in comments.splitlines()]
    tables: Tables = {"source": [["item", "value"], *map(list, source)]}
    for name, kind, columns, content in tabulars_in(begin + rest):
        heading, _, body = content.partition("\\hline\n")
        names, *units = latex_rows(heading)
        headings: list[Cell] = []
        for first, *unit in zip(names, *units):
            words = " ".join(word for word in unit if word)
            headings.append(f"{first} ({words})" if words else first)
        if kind == "longtable":
            assert body.startswith("\\endhead\n\\hline\n\\endfoot\n")
            body = body.partition("\\endfoot\n")[2]
        rows = [[cell_in(cell) for cell in row] for row in latex_rows(body)]
        assert all(len(row) == len(columns) for row in [headings, *rows])
        assert (kind == "longtable") == (len(rows) > 32)
        tables[name] = [headings, *rows]
    return tables


def tabulars_in(text: str) -> list[tuple[str, str, str, str]]:
    """Of each tabular the name of its table, its kind, its columns' alignment, what it holds."""
    return re.findall(
        r"^% (\w+)(?:; needs \\usepackage\{longtable\})?\n"
        r"\\begin\{(\w+)\}(?:\[l\])?\{@\{\}([lr]+)@\{\}\}\n\\hline\n"
        r"((?:.*\n)*?)\\end\{\2\}\n",
        text,
        re.MULTILINE,
    )


def latex_rows(text: str) -> list[list[str]]:
    rows = []
    for line in text.splitlines():
        if line != r"\hline":
            assert line.endswith(r" \\"), line
            rows.append([latex_read(cell.strip()) for cell in line[:-3].split(" & ")])
    return rows


def latex_read(cell: str) -> str:
    """A cell as it is read: a negative number stands in math, and no other."""
    found = re.fullmatch(r"\$(-[0-9]{1,3}(\{,\}[0-9]{3})*)\$", cell)
    assert found or not cell.startswith("-"), cell
    return found[1].replace("{,}", ",") if found else cell.replace(r"\$", "$")


def tables_in_markdown(text: str) -> Tables:
    tables: Tables = {}
    name = ""
    for line in text.splitlines():
        if line.startswith("### "):
            name = line[4:].lower()
        elif line.startswith("|") and not re.fullmatch(r"[|:\- ]+", line):
            cells = [cell_in(cell.strip()) for cell in line[1:-1].split("|")]
            tables.setdefault(name, []).append(cells)
    return tables


READERS = {"csv": tables_in_csv, "latex": tables_in_latex, "markdown": tables_in_markdown}


def tables_of(auction: Auction) -> Tables:
    """What the tables must say, from the auction's own figures."""
    tables: Tables = {name: [list(headings)] for name, headings in HEADINGS.items()}
    tables["source"] = [["item", "value"], *map(list, auction.source.items())]
    for each in auction.rounds:
        figures = [each.supply, each.demand, each.remainder, each.excess]
        tables["rounds"].append([each.number, each.opening, each.c, *figures])
    tables["curve"] += [[point.price, point.before, point.after] for point in auction.curve]
    last = auction.settlement
    if last is None:
        return tables
    for award in last.awards:
        plant = auction.registration_of(award.developer)
        assert plant is not None
        agent = plant.agent or plant.developer
        kind = {1: "existing", 2: "new"}[plant.kind]
        tables["award"].append([award.project, award.developer, agent, kind, award.quantity])
    tables["settlement"] += [
        [f"closing price {PRICE}", last.price],
        [f"second price {PRICE}", last.second_price],
        ["second price is short", ["no", "yes"][last.short]],
        [f"demand {QUANTITY}", last.demand],
        [f"remainder {REMAINDER}", last.remainder],
        [f"total {QUANTITY}", last.total],
        ["admissible choices", last.choices],
        ["covering choices", last.covering],
        ["choices that the search keeps", last.kept],
        ["participation is insufficient", ["no", "yes"][last.insufficient]],
        [f"price paid to existing plants {PRICE}", last.price_paid],
    ]
    return tables


def unsettled() -> Record:
    """The sample with a limit that its settling goes beyond."""
    return first_lines(10).settle(0)


class TableTest(unittest.TestCase):
    def setUp(self) -> None:
        folder = tempfile.TemporaryDirectory()
        self.addCleanup(folder.cleanup)
        self.path = Path(folder.name) / "record"

    def run_on(self, record: Record, *options: str) -> tuple[int, str, str]:
        """Exit status, standard output and standard error of the command."""
        record.write(self.path)
        out, err = io.StringIO(), io.StringIO()
        with contextlib.redirect_stdout(out), contextlib.redirect_stderr(err):
            status = main(["table", str(self.path), *options])
        return status, out.getvalue(), err.getvalue()

    def check_read_back(self, record: Record) -> Tables:
        """Each format reads back to the auction's numbers; the auction is read but once."""
        auction = read_auction(record)
        expected = tables_of(auction)
        with mock.patch.object(command, "read_auction", return_value=auction) as read:
            for name, reader in READERS.items():
                status, text, _ = self.run_on(record, "--format", name)
                self.assertEqual(reader(text), expected, name)
                self.assertEqual(status, 1 if auction.trouble else 0)
        self.assertEqual(read.mock_calls, [mock.call(record)] * len(READERS))
        return expected

    # ---- the tables

    def test_sample_reads_back(self) -> None:
        tables = self.check_read_back(sample())
        self.assertEqual(tables["rounds"][1:], [[1, 40_000, 25_000, 920, 975, 0, -55]])
        self.assertEqual(tables["curve"][1:], [[26_000, 1_170, 920]])
        self.assertEqual(
            tables["award"][1:], [[1, 1, 1, "existing", 820], [2, 3, 3, "new", 200]]
        )
        values = [row[1] for row in tables["settlement"][1:]]
        self.assertEqual(values, [26_000, 26_000, "no", 970, 0, 1_020, 4, 3, 2, "no", 26_000])

    def test_random_records_read_back(self) -> None:
        choice = random.Random(25)
        rows = dict.fromkeys(HEADINGS, 0)
        for _ in range(60):
            tables = self.check_read_back(random_record(choice))
            for name in rows:
                rows[name] += len(tables[name]) - 1
        for name, count in rows.items():
            self.assertGreater(count, 60, f"the random records have few rows of {name}")

    def test_marks_and_named_agents(self) -> None:
        tables = self.check_read_back(with_agents(300_001))
        self.assertEqual([row[2] for row in tables["award"][1:]], [5, 5, 3, 4])
        self.assertIn(["participation is insufficient", "yes"], tables["settlement"])
        self.assertIn([f"price paid to existing plants {PRICE}", 22_000], tables["settlement"])

    def test_second_price_marked_short(self) -> None:
        tables = self.check_read_back(lodged(499_999))
        self.assertIn([f"second price {PRICE}", 40_000], tables["settlement"])
        self.assertIn(["second price is short", "yes"], tables["settlement"])

    def test_round_that_is_not_closed_has_its_prices_alone(self) -> None:
        tables = self.check_read_back(first_lines(7))
        self.assertEqual(tables["rounds"][1:], [[1, 40_000, 25_000, None, None, None, None]])

    def test_odd_records(self) -> None:
        for content in (b"", b"\n", b"0g", b"\xff\x00&%|\\\r\n", b"0600000064", b"A" * 70_000):
            tables = self.check_read_back(Record(content))
            self.assertEqual([len(tables[name]) for name in HEADINGS], [1, 1, 1, 1])
            content_sha256 = hashlib.sha256(content).hexdigest()
            self.assertEqual(tables["source"][3], ["record SHA-256", content_sha256])

    # ---- the formats

    def test_empty_tables_say_so(self) -> None:
        for name, mark in (("latex", "\nNo round was opened.\n"), ("markdown", "No round")):
            self.assertIn(mark, self.run_on(Record(), "--format", name)[1])
            self.assertNotIn(mark, self.run_on(sample(), "--format", name)[1])

    def test_markdown_columns_are_aligned(self) -> None:
        text = self.run_on(random_record(random.Random(3)))[1]
        blocks = [block for block in text.split("\n\n") if block.startswith("|")]
        self.assertEqual(len(blocks), 5)
        for block in blocks:
            bars = {
                tuple(found.start() for found in re.finditer(r"\|", line))
                for line in block.splitlines()
            }
            self.assertEqual(len(bars), 1, block)

    def test_latex_special_characters_are_escaped(self) -> None:
        self.assertEqual(latex_escaped("a & 5% of US$ #_{}"), r"a \& 5\% of US\$ \#\_\{\}")
        self.assertEqual(
            latex_escaped("\\~^"), r"\textbackslash{}\textasciitilde{}\textasciicircum{}"
        )
        text = self.run_on(sample(), "--format", "latex")[1].replace("$-55$", "")
        self.assertEqual(re.findall(r"(?<!\\)[$#_^~]", text), [])

    def test_latex_needs_no_package(self) -> None:
        text = self.run_on(sample(), "--format", "latex")[1]
        commands = set(re.findall(r"\\([a-z]+)", text))
        layout = {"footnotesize", "setlength", "renewcommand", "arraystretch", "parindent"}
        layout |= {"tabcolsep", "bigskip", "par", "begingroup", "endgroup"}
        self.assertEqual(commands, {"begin", "end", "hline", *layout})
        self.assertEqual(text.splitlines()[0], f"% engine version: {__version__}")
        self.assertTrue(text.endswith("\\end{tabular}\n\\par\\endgroup\n"))

    @staticmethod
    def rounds(number: int) -> Record:
        record = ready().register(1, 1, 1, [1_200_000])
        for c in range(39_999, 39_999 - number, -1):
            record.open(c).close()
        return record

    def test_long_tables_in_latex_break_over_pages(self) -> None:
        for number, kind in ((32, "tabular"), (33, "longtable")):
            tables = self.check_read_back(self.rounds(number))
            self.assertEqual(len(tables["rounds"]), number + 1)
            text = self.run_on(self.rounds(number), "--format", "latex", "--part", "rounds")[1]
            self.assertEqual([each[1] for each in tabulars_in(text)], [kind])

    @unittest.skipUnless(shutil.which("pdflatex"), "LaTeX is not installed")
    def test_latex_is_set(self) -> None:
        folder = self.path.parent
        self.run_on(self.rounds(120), "--format", "latex", "-o", str(folder / "tables.tex"))
        (folder / "paper.tex").write_text(
            "\\documentclass{article}\\usepackage{longtable}\\begin{document}\n"
            "\\input{tables}\n\\end{document}\n"
        )
        command = ["pdflatex", "-interaction=nonstopmode", "-halt-on-error", "paper.tex"]
        done = subprocess.run(command, cwd=folder, capture_output=True, text=True)
        self.assertEqual(done.returncode, 0, done.stdout)
        self.assertRegex(done.stdout, r"Output written on paper.pdf \([3-9] pages")
        self.assertNotIn("Overfull", done.stdout)

    def test_thousands_separators(self) -> None:
        for name, shown in (("markdown", " 1,170 |"), ("latex", "& 1,170 &"), ("csv", ",1170,")):
            self.assertIn(shown, self.run_on(sample(), "--format", name)[1])
        text = self.run_on(lodged(550_000), "--format", "latex", "--part", "rounds")[1]
        self.assertIn("& 1,250,000 & 950,000 & 0 & 300,000 ", text)

    def test_units(self) -> None:
        """The point is moved, and every digit stays."""
        for chosen, decimals, plain in (("kWh", 0, "kwh"), ("MWh", 3, "mwh"), ("GWh", 6, "gwh")):
            for format_, cell in (("csv", ""), ("markdown", ",")):
                options = ("--quantities", chosen, "--prices", "dollars", "--format", format_)
                text = self.run_on(lodged(550_000), *options, "--part", "award")[1]
                digits = f"{1_250_000 / 10**decimals:{cell}.{decimals}f}"
                self.assertRegex(text, rf"total \({chosen} per day\)[ |,]+{digits}\b")
                self.assertRegex(text, r"closing price \(US\$ per MWh\)[ |,]+29.990\b")
            folder = self.path.with_name(plain)
            self.run_on(sample(), "--quantities", chosen, "--split", str(folder))
            heads, row = csv.reader((folder / "rounds.csv").read_text().splitlines())
            excess = -55 / 10**decimals
            self.assertEqual((heads[-1], row[-1]), (f"excess_{plain}", f"{excess:.{decimals}f}"))

    def test_one_table_a_file(self) -> None:
        folder = self.path.with_name("tables")
        self.assertEqual(self.run_on(sample(), "--split", str(folder)), (0, "", ""))
        read = {path.stem: path.read_text() for path in folder.iterdir()}
        self.assertEqual(sorted(read), ["award", "curve", "rounds", "settlement", "source"])
        self.assertEqual(read["curve"], "price_thousandths,supply_before_kwh,supply_after_kwh\n26000,1170,920\n")
        (rounds,) = csv.DictReader(io.StringIO(read["rounds"]))
        self.assertEqual((rounds["opening_price_thousandths"], rounds["excess_kwh"]), ("40000", "-55"))
        (figures,) = csv.DictReader(io.StringIO(read["settlement"]))
        self.assertEqual((figures["total_kwh"], figures["second_price_is_short"]), ("1020", "false"))
        (source,) = csv.DictReader(io.StringIO(read["source"]))
        expected = hashlib.sha256(bytes(sample())).hexdigest()
        self.assertEqual((source["engine_version"], source["record_sha256"]), (__version__, expected))
        for text in read.values():
            self.assertRegex(text.splitlines()[0], r"^[a-z0-9_]+(,[a-z0-9_]+)*$")

    @unittest.skipUnless(importlib.util.find_spec("pandas"), "pandas is not installed")
    def test_pandas(self) -> None:
        pandas = importlib.import_module("pandas")
        folder = self.path.with_name("tables")
        self.run_on(lodged(550_000).open(29_980), "--split", str(folder))
        figures = pandas.read_csv(folder / "settlement.csv")
        self.assertEqual(str(figures["participation_is_insufficient"].dtype), "bool")
        self.assertEqual(pandas.read_csv(folder / "rounds.csv")["excess_kwh"].sum(), 299_950)

    def test_split_goes_with_no_other_output(self) -> None:
        folder = self.path.with_name("tables")
        for options in (("-o", "x"), ("--format", "latex")):
            status, out, err = self.run_on(sample(), "--split", str(folder), *options)
            self.assertEqual((status, out), (2, ""))
            self.assertIn("--split writes csv files to its folder", err)
            self.assertFalse(folder.exists())
        record = folder / "rounds.csv"
        folder.mkdir()
        sample().write(record)
        with contextlib.redirect_stderr(io.StringIO()) as err:
            self.assertEqual(main(["table", str(record), "--split", str(folder)]), 2)
        self.assertIn(f"the output would replace {record}\n", err.getvalue())
        self.assertEqual([*folder.iterdir()], [record])

    def test_parts(self) -> None:
        parts = {"rounds": ["rounds"], "curve": ["curve"], "award": ["award", "settlement"]}
        parts["settlement"] = ["settlement"]
        expected = tables_of(read_auction(sample()))
        for part, names in parts.items():
            for name, reader in READERS.items():
                tables = reader(self.run_on(sample(), "--part", part, "--format", name)[1])
                self.assertEqual(tables, {each: expected[each] for each in (*names, "source")})

    # ---- the command

    def test_markdown_and_all_are_the_default(self) -> None:
        status, text, err = self.run_on(sample())
        chosen = self.run_on(sample(), "--format", "markdown", "--part", "all")
        self.assertEqual((status, text, err), chosen)
        self.assertEqual((status, err), (0, ""))

    def test_output_to_a_file(self) -> None:
        target = self.path.with_name("tables.csv")
        for record, expected in ((sample(), 0), (unsettled(), 1)):
            status, text, _ = self.run_on(record, "--format", "csv", "-o", str(target))
            self.assertEqual((status, text), (expected, ""))
            shown = self.run_on(record, "--format", "csv")[1]
            self.assertEqual(target.read_bytes(), shown.encode("ascii"))

    def test_record_is_not_replaced(self) -> None:
        link = self.path.with_name("link")
        for name in ("symlink_to", "hardlink_to"):
            getattr(link, name)(self.path)
            for output in (self.path, link):
                status, text, err = self.run_on(sample(), "-o", str(output))
                self.assertEqual((status, text), (2, ""))
                self.assertIn(f"the output would replace {self.path}\n", err)
                self.assertEqual(self.path.read_bytes(), bytes(sample()))
            link.unlink()

    def test_each_settling_refused_is_1(self) -> None:
        status, text, err = self.run_on(unsettled())
        self.assertEqual(status, 1)
        self.assertEqual(err, "not settled: line 11 was refused by 10: choices above the limit\n")
        self.assertIn("Not settled.", text)

    def test_a_settling_accepted_later_is_0(self) -> None:
        status, _, err = self.run_on(unsettled().settle())
        self.assertEqual((status, err), (0, ""))

    def test_bad_usage_is_2(self) -> None:
        with self.assertRaises(SystemExit) as raised:
            self.run_on(sample(), "--format", "xml")
        self.assertEqual(raised.exception.code, 2)
        err = io.StringIO()
        with contextlib.redirect_stderr(err):
            self.assertEqual(main(["table", str(self.path.with_name("missing"))]), 2)
        self.assertIn("missing", err.getvalue())

    def test_beyond_64_kib(self) -> None:
        tables, known = self.check_read_back(lengthened()), self.check_read_back(sample())
        for name in ("rounds", "curve", "award", "settlement"):
            self.assertEqual(tables[name], known[name])
        self.assertEqual(self.run_on(lengthened())[::2], (0, ""))

    def test_long_record_is_fast(self) -> None:
        record = long_record()
        began = processor_seconds()
        status, text, _ = self.run_on(record, "--format", "csv")
        self.assertEqual(status, 0)
        self.assertGreater(len(tables_in_csv(text)["award"]), 16)
        self.run_on(Record(b"\n" * 65_536))
        self.assertLess(processor_seconds() - began, 30)


if __name__ == "__main__":
    unittest.main()
