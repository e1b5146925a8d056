"""The command table: rounds, supply curve, award and settlement, for papers and spreadsheets."""

from __future__ import annotations

import argparse
import csv
import io
import re
from collections.abc import Callable, Iterable, Sequence
from dataclasses import dataclass
from itertools import zip_longest
from pathlib import Path
from typing import Union

from .auction import Auction
from .calls import KINDS, Registration
from .command import (
    STATUS,
    BadInput,
    Commands,
    add_output,
    auction_of,
    keep,
    parser_of,
    status_of,
    write,
)
from .live import Settlement
from .markup import pointed
from .replies import Award

_DESCRIPTION = """\
Writes the tables of an auction: rounds, supply curve (curve), award and settlement, and the source:
the engine's version, the SHA-256 of its library and of the record. Prices are thousandths of US$
per MWh, quantities kWh per day, unless other units are chosen; then they have a point, and no digit
is lost. Remainders are CE-ths of a kWh per day. A round that is not closed has its prices alone.

csv       Each row begins with the name of its table, and the first row of a table has its
          headings: tables.setdefault(row[0], []).append(row[1:]) for each row of csv.reader.
          Numbers have no thousands separators.
latex     Tabulars to be read by \\input, in small print so that they fit a page of the class
          article, with the source in comments. No package is needed, but for a table of more than
          32 rows: that is a longtable, which breaks over pages (\\usepackage{longtable}).
markdown  Tables with aligned columns.

--split DIR writes each table to a csv file of its own (DIR/rounds.csv and so on) with plain names
of columns, as excess_kwh, which pandas and R read as they are; settlement and source have one row.

"""

Value = Union[int, str, None]  # a bool is a mark


@dataclass(frozen=True)
class Unit:
    """A unit: its name in the lines of a narrow heading, and in the name of a plain column.

    A number has so many of its digits behind the point.
    """

    words: tuple[str, ...] = ()
    plain: str = ""
    decimals: int = 0


_PRICES = {
    "thousandths": Unit(("thousandths", "of US$", "per MWh"), "thousandths"),
    "dollars": Unit(("US$", "per MWh"), "usd_per_mwh", 3),
}
_QUANTITIES = {
    "kWh": Unit(("kWh", "per day"), "kwh"),
    "MWh": Unit(("MWh", "per day"), "mwh", 3),
    "GWh": Unit(("GWh", "per day"), "gwh", 6),
}
_REMAINDER = Unit(("CE-ths", "of a kWh", "per day"), "ce_ths")


@dataclass(frozen=True)
class Units:
    """The units of prices and quantities."""

    price: Unit = _PRICES["thousandths"]
    quantity: Unit = _QUANTITIES["kWh"]


@dataclass(frozen=True)
class Column:
    """A column: its name, its unit, and whether it holds words."""

    name: str
    unit: Unit = Unit()
    words: bool = False

    @property
    def heading(self) -> str:
        """Name and unit in one line."""
        return f"{self.name} ({' '.join(self.unit.words)})" if self.unit.words else self.name

    @property
    def plain(self) -> str:
        """Name and unit as one word, as excess_kwh."""
        return plain(f"{self.name} {self.unit.plain}".strip())


def plain(name: str) -> str:
    """A name in words as one word of small letters."""
    return re.sub("[^a-z0-9]+", "_", name.lower().replace("sha-256", "sha256"))


@dataclass(frozen=True)
class Table:
    """A table, and what to say where it has no row. A value that is not known is None.

    One that is `upright` has one row, and is shown with an item a row.
    """

    name: str
    columns: tuple[Column, ...]
    rows: list[tuple[Value, ...]]
    empty: str
    upright: bool = False


# ---- the tables of an auction


def rounds_table(auction: Auction, units: Units) -> Table:
    """The rounds that were opened; one that is not closed has its prices alone."""
    columns = (
        Column("round"),
        Column("opening price", units.price),
        Column("C", units.price),
        Column("supply", units.quantity),
        Column("demand", units.quantity),
        Column("remainder", _REMAINDER),
        Column("excess", units.quantity),
    )
    rows: list[tuple[Value, ...]] = [
        (
            each.number,
            each.opening,
            each.c,
            each.supply,
            each.demand,
            each.remainder,
            each.excess,
        )
        for each in auction.rounds
    ]
    return Table("rounds", columns, rows, "no round was opened")


def curve_table(auction: Auction, units: Units) -> Table:
    """The supply curve behind the latest closing, by falling price."""
    columns = (
        Column("price", units.price),
        Column("supply before", units.quantity),
        Column("supply after", units.quantity),
    )
    rows: list[tuple[Value, ...]] = [
        (point.price, point.before, point.after) for point in auction.curve
    ]
    return Table("curve", columns, rows, "no withdrawal up to the latest closing")


def award_table(auction: Auction, units: Units) -> Table:
    """The award of the latest settling, by rising project."""
    columns = (
        Column("project"),
        Column("developer"),
        Column("agent"),
        Column("kind", words=True),
        Column("quantity", units.quantity),
    )
    awards = auction.settlement.awards if auction.settlement else ()
    rows = [_award_row(award, auction.registration_of(award.developer)) for award in awards]
    return Table("award", columns, rows, "not settled")


def _award_row(award: Award, registered: Registration | None) -> tuple[Value, ...]:
    """An award with its agent: the one that is named, else that of the developer's number."""
    assert registered is not None, "the library awards registered developers alone"
    agent = award.developer if registered.agent is None else registered.agent
    return (award.project, award.developer, agent, KINDS[registered.kind], award.quantity)


def settlement_table(auction: Auction, units: Units) -> Table:
    """The figures of the latest settling."""
    columns = (
        Column("closing price", units.price),
        Column("second price", units.price),
        Column("second price is short"),
        Column("demand", units.quantity),
        Column("remainder", _REMAINDER),
        Column("total", units.quantity),
        Column("admissible choices"),
        Column("covering choices"),
        Column("choices that the search keeps"),
        Column("participation is insufficient"),
        Column("price paid to existing plants", units.price),
    )
    rows = [_settlement_row(auction.settlement)] if auction.settlement else []
    return Table("settlement", columns, rows, "not settled", upright=True)


def _settlement_row(figures: Settlement) -> tuple[Value, ...]:
    return (
        figures.price,
        figures.second_price,
        figures.short,
        figures.demand,
        figures.remainder,
        figures.total,
        figures.choices,
        figures.covering,
        figures.kept,
        figures.insufficient,
        figures.price_paid,
    )


def source_table(auction: Auction) -> Table:
    """What the figures are traced to."""
    columns = tuple(Column(name, words=True) for name in auction.source)
    return Table("source", columns, [tuple(auction.source.values())], "", upright=True)


_PARTS: dict[str, tuple[Callable[[Auction, Units], Table], ...]] = {
    "rounds": (rounds_table,),
    "curve": (curve_table,),
    "award": (award_table, settlement_table),
    "settlement": (settlement_table,),
    "all": (rounds_table, curve_table, award_table, settlement_table),
}


# ---- the formats


def _cell(value: Value, unit: Unit, separated: bool = True) -> str:
    if value is None:
        return ""
    if isinstance(value, bool):
        return "yes" if value else "no"
    return value if isinstance(value, str) else pointed(value, unit.decimals, separated)


@dataclass(frozen=True)
class _Text:
    """A table as text: its columns, an item a row where it is upright, and its cells."""

    name: str
    columns: Sequence[Column]
    rows: list[list[str]]
    empty: str


def _text(table: Table, separated: bool) -> _Text:
    units = [column.unit for column in table.columns]
    rows = [[_cell(*pair, separated) for pair in zip(row, units)] for row in table.rows]
    if not table.upright:
        return _Text(table.name, table.columns, rows, table.empty)
    words = all(column.words for column in table.columns)
    items = [[column.heading for column in table.columns], *rows]
    upright = [list(item) for item in zip(*items)] if rows else []
    columns = (Column("item", words=True), Column("value", words=words))
    return _Text(table.name, columns, upright, table.empty)


def _sentence(words: str) -> str:
    return f"{words.capitalize()}."


def _csv(rows: Iterable[Sequence[str]]) -> str:
    text = io.StringIO()
    csv.writer(text, lineterminator="\n").writerows(rows)
    return text.getvalue()


def as_csv(tables: Sequence[Table], source: Table) -> str:
    """The tables as CSV: a row begins with its table's name, a table's first row has headings."""
    rows: list[list[str]] = []
    for table in (_text(table, separated=False) for table in (*tables, source)):
        rows.append([table.name, *(column.heading for column in table.columns)])
        rows += [[table.name, *row] for row in table.rows]
    return _csv(rows)


def as_plain_csv(table: Table) -> str:
    """One table as CSV for pandas and R: plain names, marks true and false, no separators."""
    rows = [[column.plain for column in table.columns]]
    for row in table.rows:
        marked = [str(each).lower() if isinstance(each, bool) else each for each in row]
        units = (column.unit for column in table.columns)
        rows.append([_cell(*pair, separated=False) for pair in zip(marked, units)])
    return _csv(rows)


# The largest numbers fit the width of an article, and so many rows its height.
_LATEX_BEGIN = (
    "\\begingroup\\footnotesize\\setlength{\\parindent}{0pt}\n"
    "\\setlength{\\tabcolsep}{3pt}\\renewcommand{\\arraystretch}{1.1}\n"
)
_LATEX_GAP = "\n\\bigskip\n"
_LATEX_END = "\\par\\endgroup\n"
_LATEX_ROWS = 32

_LATEX_SPECIAL = str.maketrans(
    {
        "\\": r"\textbackslash{}",
        "~": r"\textasciitilde{}",
        "^": r"\textasciicircum{}",
        **{special: f"\\{special}" for special in "&%$#_{}"},
    }
)


def latex_escaped(text: str) -> str:
    """The text with LaTeX's special characters escaped."""
    return text.translate(_LATEX_SPECIAL)


def _latex_cell(text: str) -> str:
    """A cell; a negative number in math, where the sign is no hyphen and a comma no punctuation."""
    if text.startswith("-"):
        return f"${text.replace(',', '{,}')}$"
    return latex_escaped(text)


def _latex_row(cells: Sequence[str]) -> str:
    return " & ".join(map(_latex_cell, cells)) + r" \\"


def _latex_table(table: _Text) -> str:
    """The table, with a comment of its name: a tabular, or where it is long one that breaks."""
    long = len(table.rows) > _LATEX_ROWS
    kind, place = ("longtable", "[l]") if long else ("tabular", "")
    alignment = "".join("l" if column.words else "r" for column in table.columns)
    names = ((column.name, *column.unit.words) for column in table.columns)
    headings = zip_longest(*names, fillvalue="")
    lines = [
        f"% {table.name}" + (r"; needs \usepackage{longtable}" if long else ""),
        rf"\begin{{{kind}}}{place}{{@{{}}{alignment}@{{}}}}",
        r"\hline",
        *map(_latex_row, headings),
        r"\hline",
        *([r"\endhead", r"\hline", r"\endfoot"] if long else []),
        *map(_latex_row, table.rows),
        *([r"\hline"] if table.rows and not long else []),
        rf"\end{{{kind}}}",
        *([] if table.rows else ["", latex_escaped(_sentence(table.empty))]),
    ]
    return "\n".join(lines) + "\n"


def as_latex(tables: Sequence[Table], source: Table) -> str:
    """The tables in a group that sets them small, below comments with their source."""
    comments = "".join(f"% {': '.join(row)}\n" for row in _text(source, separated=False).rows)
    drawn = (_latex_table(_text(table, separated=True)) for table in tables)
    return comments + _LATEX_BEGIN + _LATEX_GAP.join(drawn) + _LATEX_END


def _markdown_table(table: _Text) -> str:
    rows = [[column.heading for column in table.columns], *table.rows]
    widths = [max(map(len, cells)) for cells in zip(*rows)]
    rows.insert(
        1,
        [
            ":" + "-" * (width - 1) if column.words else "-" * (width - 1) + ":"
            for column, width in zip(table.columns, widths)
        ],
    )
    lines = [
        f"### {table.name.capitalize()}",
        "",
        *(_markdown_row(row, table.columns, widths) for row in rows),
    ]
    if not table.rows:
        lines += ["", _sentence(table.empty)]
    return "\n".join(lines) + "\n"


def _markdown_row(cells: Sequence[str], columns: Sequence[Column], widths: Sequence[int]) -> str:
    padded = [
        cell.ljust(width) if column.words else cell.rjust(width)
        for cell, column, width in zip(cells, columns, widths)
    ]
    return f"| {' | '.join(padded)} |"


def as_markdown(tables: Sequence[Table], source: Table) -> str:
    """The tables in Markdown with aligned columns, a heading above each."""
    texts = (_text(table, separated=True) for table in (*tables, source))
    return "\n".join(map(_markdown_table, texts))


_FORMATS: dict[str, Callable[[Sequence[Table], Table], str]] = {
    "csv": as_csv,
    "latex": as_latex,
    "markdown": as_markdown,
}


# ---- the command


def add_to(commands: Commands) -> None:
    """Adds the command to the command line."""
    summary = "rounds, supply curve and award as CSV, LaTeX or Markdown"
    parser = parser_of(run, commands, "table", summary, _DESCRIPTION + STATUS)
    parser.add_argument("--format", choices=_FORMATS, help="default: markdown, with --split csv")
    parser.add_argument(
        "--part",
        choices=_PARTS,
        default="all",
        help="award has the award and the settlement; default: %(default)s",
    )
    for name, units in (("prices", _PRICES), ("quantities", _QUANTITIES)):
        default = next(iter(units))
        parser.add_argument(
            f"--{name}", choices=units, default=default, help="unit; default: %(default)s"
        )
    parser.add_argument("--split", metavar="DIR", help="a folder for one csv file a table")
    add_output(parser, "FILE", "where the tables are written", default="-")


def run(chosen: argparse.Namespace) -> int:
    """Runs the command and gives its exit status."""
    if chosen.split is not None and (chosen.output != "-" or chosen.format not in (None, "csv")):
        raise BadInput("--split writes csv files to its folder, and goes with no other output")
    auction = auction_of(chosen)
    units = Units(_PRICES[chosen.prices], _QUANTITIES[chosen.quantities])
    tables = [part(auction, units) for part in _PARTS[chosen.part]]
    source = source_table(auction)
    if chosen.split is None:
        keep([chosen.record], chosen.output)
        text = _FORMATS[chosen.format or "markdown"](tables, source)
        write(chosen.output, text.encode("utf-8", "backslashreplace"))
    else:
        _split(chosen.record, Path(chosen.split), [*tables, source])
    return status_of(auction, chosen.record)


def _split(record: str, folder: Path, tables: Sequence[Table]) -> None:
    """Writes each table to a file of the folder."""
    files = {str(folder / f"{table.name}.csv"): as_plain_csv(table) for table in tables}
    keep([record], *files)
    folder.mkdir(exist_ok=True)
    for path, text in files.items():
        write(path, text.encode("utf-8", "backslashreplace"))
