"""An auction's calls as JSON and as CSV, and a record built of either: a book.

docs/PYTHON.md has both forms. A call has the name and the fields of the method of Record that
writes it; a malformed line is the call `malformed`, with its bytes in hexadecimal digits.
"""

from __future__ import annotations

import csv
import inspect
import io
import json
import re
from collections.abc import Iterable, Iterator
from dataclasses import asdict
from typing import Any

from .auction import Auction
from .calls import (
    Call,
    Cancellation,
    Closing,
    Lodging,
    Malformed,
    Offer,
    Opening,
    Registration,
    SetUp,
    Settling,
)
from .command import BadInput
from .record import Line, Record
from .refusals import Refused
from .table import plain

_NAMES: dict[type[Call], str] = {
    SetUp: "set_up",
    Registration: "register",
    Lodging: "lodge",
    Opening: "open",
    Offer: "offer",
    Cancellation: "cancel",
    Closing: "close",
    Settling: "settle",
}
_MALFORMED = "malformed"

# The fields of each call, with True for those that have to be given
_FIELDS: dict[str, dict[str, bool]] = {
    name: {
        field.name: field.default is field.empty
        for field in list(inspect.signature(getattr(Record, name)).parameters.values())[1:]
    }
    for name in _NAMES.values()
}
_FIELDS[_MALFORMED] = {"hex": True}
_SHOWN = ("line", "refusal", "reply")  # what is shown beside a call, and not read

_UNITS = {
    "price": "thousandths of US$ per MWh",
    "quantity": "kWh per day",
    "remainder": "CE-ths of a kWh per day",
}


def _asked(line: Line) -> dict[str, Any]:
    """The call of a line: its name and its fields."""
    if isinstance(line.call, Malformed):
        return {"call": _MALFORMED, "hex": line.text.hex().upper()}
    return {"call": _NAMES[type(line.call)], **asdict(line.call)}


# ---- JSON


def as_json(auction: Auction) -> str:
    """All of an auction: its calls with their replies, its rounds, and what they leave behind."""
    rounds = [
        {
            **{name: value for name, value in vars(now).items() if name != "moves"},
            "opened": now.opened.number,
            "closed": now.closed and now.closed.number,
        }
        for now in auction.rounds
    ]
    settled: dict[str, Any] | None = None
    if auction.settlement:
        settled = {"line": auction.settled[-1].number, **asdict(auction.settlement)}
    whole: dict[str, Any] = {
        "source": {plain(name): value for name, value in auction.source.items()},
        "units": _UNITS,
        "faults": auction.faults,
        "calls": [_answered(line) for line in auction.lines],
        "rounds": rounds,
        "state": {**asdict(auction.state), "phase": auction.state.phase.name.lower()},
        "preview": auction.preview and asdict(auction.preview),
        "curve": [asdict(point) for point in auction.curve],
        "settlement": settled,
    }
    return json.dumps(whole, indent=1) + "\n"


def _answered(line: Line) -> dict[str, Any]:
    refusal = line.reply.refusal
    reply = {
        "text": line.reply_text,
        "refusal": refusal and refusal.number,
        "meaning": refusal and refusal.meaning,
        **_figures(line),
    }
    return {"line": line.number, **_asked(line), "reply": reply}


def _figures(line: Line) -> dict[str, Any]:
    """The figures of a reply."""
    said = asdict(line.reply)
    return {name: value for name, value in said.items() if name not in ("kind", "number")}


def _in_json(text: str) -> Iterator[tuple[str, dict[str, Any]]]:
    """The calls of a book in JSON, each with where it stands."""
    try:
        book = json.loads(text, object_pairs_hook=_once)
    except (ValueError, RecursionError) as error:
        raise BadInput(f"it is no JSON: {error}") from None
    calls = book.get("calls") if isinstance(book, dict) else None
    if not isinstance(calls, list):
        raise BadInput('it is no object with a list "calls"')
    for place, call in enumerate(calls):
        if not isinstance(call, dict):
            raise BadInput(f"calls[{place}] is no object")
        steps = call.get("steps")
        if isinstance(steps, list):
            call["steps"] = [_pair(step) for step in steps]
        yield f"calls[{place}]", call


def _once(pairs: list[tuple[str, Any]]) -> dict[str, Any]:
    names = [name for name, _ in pairs]
    if len(set(names)) < len(names):
        raise ValueError(f"an object says {max(names, key=names.count)} twice")
    return dict(pairs)


def _pair(step: Any) -> Any:
    """A step of an object with price and level as a pair; all else is the record's to refuse."""
    if isinstance(step, dict) and set(step) == {"price", "level"}:
        return step["price"], step["level"]
    return step


# ---- CSV


def _columns() -> list[str]:
    fields = dict.fromkeys(field for fields in _FIELDS.values() for field in fields)
    return ["line", "call", "refusal", *fields]


def as_csv(auction: Auction) -> str:
    """The calls of an auction, a row each, with the number of the refusal of each that has one."""
    text = io.StringIO()
    rows = csv.DictWriter(text, _columns(), lineterminator="\n")
    rows.writeheader()
    for line in auction.lines:
        asked = {name: _cell(value) for name, value in _asked(line).items()}
        rows.writerow({"line": line.number, "refusal": line.reply.number or "", **asked})
    return text.getvalue()


def _cell(value: Any) -> Any:
    """Levels as 100;200 and steps as 26000>100;25000>0."""
    if not isinstance(value, (list, tuple)):
        return value
    return ";".join(f"{v['price']}>{v['level']}" if isinstance(v, dict) else str(v) for v in value)


def _in_csv(text: str) -> Iterator[tuple[str, dict[str, Any]]]:
    """The calls of a book in CSV, each with where it stands."""
    heading = text.partition("\n")[0]
    # Some spreadsheets write a semicolon between cells.
    comma = ";" if ";" in heading and "," not in heading else ","
    rows = csv.DictReader(io.StringIO(text, newline=""), delimiter=comma, strict=True)
    try:
        unknown = set(rows.fieldnames or ()) - set(_columns())
        if unknown or "call" not in (rows.fieldnames or ()):
            wrong = f"{min(unknown)!r} is no column" if unknown else "it has no column 'call'"
            raise BadInput(f"{wrong} of a book")
        for row in rows:
            where = f"row {rows.line_num}"
            if None in row:
                raise BadInput(f"{where} has more cells than the heading")
            cells = {name: (cell or "").strip() for name, cell in row.items()}
            if any(cells.values()):
                yield where, _read(where, cells)
    except csv.Error as error:
        raise BadInput(f"it is no CSV: {error}") from None


def _read(where: str, cells: dict[str, str]) -> dict[str, Any]:
    """The call of a row: an empty cell is a field that is not given, an empty list or line."""
    call: dict[str, Any] = {name: cell for name, cell in cells.items() if cell}
    for name in {"levels", "steps", "hex"} & set(_FIELDS.get(cells["call"], ())):
        call.setdefault(name, "")
    for name, cell in call.items():
        parts = cell.split(";") if cell else []
        if name == "steps":
            steps = [part.split(">") for part in parts]
            call[name] = [[_number(where, name, each) for each in step] for step in steps]
        elif name == "levels":
            call[name] = [_number(where, name, part) for part in parts]
        elif name not in ("call", "hex", *_SHOWN):
            call[name] = _number(where, name, cell)
    return call


def _number(where: str, name: str, text: str) -> int:
    if not re.fullmatch(" *[0-9]{1,20} *", text):
        raise BadInput(f"{where}: {name}: {text!r} is no whole number")
    return int(text)


# ---- a record


def built(content: bytes) -> Record:
    """The record of a book, in JSON or CSV. Raises BadInput, with where it is wrong."""
    try:
        text = content.decode("utf-8-sig")
    except UnicodeDecodeError as error:
        raise BadInput(f"it is no UTF-8: {error}") from None
    calls = _in_json(text) if text.lstrip().startswith(("{", "[")) else _in_csv(text)
    return Record(b"".join(_frames(calls)))


def _frames(calls: Iterable[tuple[str, dict[str, Any]]]) -> Iterator[bytes]:
    """The line of each call."""
    for where, call in calls:
        fields = {name: value for name, value in call.items() if name not in ("call", *_SHOWN)}
        try:
            yield _frame(call.get("call"), fields)
        except (TypeError, ValueError, Refused) as error:
            raise BadInput(f"{where} ({call.get('call')}): {error}") from None


def _frame(name: Any, fields: dict[str, Any]) -> bytes:
    if not isinstance(name, str) or name not in _FIELDS:
        raise ValueError(f"call is one of {', '.join(_FIELDS)}")
    for field in fields:
        if field not in _FIELDS[name]:
            raise ValueError(f"{field} is no field of {name}")
    for field, needed in _FIELDS[name].items():
        if needed and field not in fields:
            raise ValueError(f"{field} is missing")
    if name != _MALFORMED:
        return bytes(getattr(Record(), name)(**fields))
    line = bytes.fromhex(fields["hex"])
    if b"\n" in line:
        raise ValueError("a line has no 0A in it")
    return line + b"\n"
