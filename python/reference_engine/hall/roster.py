"""The list of a class: a CSV file with developers' names, numbers and, if wanted, their plants."""

from __future__ import annotations

import csv
import io
from collections.abc import Iterator, Mapping
from dataclasses import dataclass

from ..calls import KINDS
from ..command import BadInput

_MOST = 32  # developers of an auction
_NAME = 80  # characters of a name
_COLUMNS = ("name", "developer", "project", "kind", "levels", "study", "day", "agent")
_NEEDED = ("name", "developer")
_PLANT = ("project", "kind", "levels")
_BYTE, _WORD = 2**8, 2**32


@dataclass(frozen=True)
class Plant:
    """The registration that a list names for a developer."""

    project: int
    kind: int
    levels: tuple[int, ...]
    study: int = 0
    day: int = 0
    agent: int | None = None


@dataclass(frozen=True)
class Listed:
    """A row of the list."""

    developer: int
    name: str
    plant: Plant | None = None


def read_roster(content: bytes, path: str) -> list[Listed]:
    """The rows of a list, by developer. Raises BadInput with line and column of what is wrong."""
    try:
        text = content.decode("utf-8-sig")
    except UnicodeDecodeError as error:
        line = content[: error.start].count(b"\n") + 1
        raise BadInput(f"{path}, line {line}: not UTF-8; save the list as CSV in UTF-8") from None
    head = text.partition("\n")[0]
    separator = ";" if ";" in head and "," not in head else ","
    rows = csv.reader(io.StringIO(text, newline=""), delimiter=separator, strict=True)
    found: dict[int, Listed] = {}
    try:
        names = _heads(next(rows, []), path)
        for cells in rows:
            row = _Row(f"{path}, line {rows.line_num}", names, cells)
            if not any(cell.strip() for cell in cells):
                continue
            listed = row.listed()
            if listed.developer in found:
                raise row.wrong("developer", f"{listed.developer} stands in the list twice")
            found[listed.developer] = listed
    except csv.Error as error:
        raise BadInput(f"{path}, line {rows.line_num}: {error}") from None
    if not found:
        raise BadInput(f"{path}: no developer is listed")
    return [found[number] for number in sorted(found)]


def _heads(cells: list[str], path: str) -> list[str]:
    """The names of the columns."""
    names = [cell.strip().lower() for cell in cells]
    for name in names:
        if name not in _COLUMNS:
            known = ", ".join(_COLUMNS)
            raise BadInput(f"{path}, line 1: no column is named {name!r}; columns are {known}")
        if names.count(name) > 1:
            raise BadInput(f"{path}, line 1: column {name} stands there twice")
    for name in _NEEDED:
        if name not in names:
            raise BadInput(f"{path}, line 1: column {name} is missing")
    return names


class _Row:
    """The cells of a row by column, and what is wrong with them."""

    def __init__(self, place: str, names: list[str], cells: list[str]) -> None:
        self._place = place
        if len(cells) > len(names):
            raise BadInput(f"{place}: {len(cells)} cells, and the list has {len(names)} columns")
        pairs: Iterator[tuple[str, str]] = zip(names, (cell.strip() for cell in cells))
        self._cells: Mapping[str, str] = {name: cell for name, cell in pairs if cell}

    def wrong(self, column: str, words: str) -> BadInput:
        return BadInput(f"{self._place}, column {column}: {words}")

    def listed(self) -> Listed:
        """What the row lists."""
        name = self._cells.get("name", "")
        if len(name) > _NAME or not name.isprintable():
            raise self.wrong("name", f"a name is at most {_NAME} printable characters")
        developer = self._number("developer", 1, _MOST + 1)
        if not any(column in self._cells for column in _COLUMNS[2:]):
            return Listed(developer, name)
        for column in _PLANT:
            if column not in self._cells:
                raise self.wrong(column, "empty, though the row names a plant")
        agent = self._number("agent", 0, _BYTE) if "agent" in self._cells else None
        plant = Plant(
            self._number("project", 0, _BYTE),
            self._kind(),
            self._levels(),
            self._number("study", 0, _WORD, 0),
            self._number("day", 0, _WORD, 0),
            agent,
        )
        return Listed(developer, name, plant)

    def _number(self, column: str, least: int, below: int, absent: int | None = None) -> int:
        text = self._cells.get(column)
        if text is None:
            if absent is None:
                raise self.wrong(column, "empty")
            return absent
        return self._whole(column, text, least, below)

    def _whole(self, column: str, text: str, least: int, below: int) -> int:
        if not (text.isascii() and text.isdigit() and least <= int(text[:20]) < below):
            raise self.wrong(
                column, f"{text[:40]!r} is no whole number from {least:,} to {below - 1:,}"
            )
        return int(text)

    def _kind(self) -> int:
        text = self._cells["kind"].lower()
        for number, word in KINDS.items():
            if text in (str(number), word):
                return number
        raise self.wrong("kind", f"{text[:40]!r} is neither 1 (existing) nor 2 (new)")

    def _levels(self) -> tuple[int, ...]:
        texts = self._cells["levels"].split(";")
        levels = tuple(self._whole("levels", text.strip(), 0, _WORD) for text in texts)
        if len(levels) > 8:
            raise self.wrong("levels", f"{len(levels)} levels, and a plant has at most 8")
        return levels
