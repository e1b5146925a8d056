"""The command compare: another program's replies measured against the reference, field by field."""

from __future__ import annotations

import argparse
import csv
import io
import os
import signal
import sys
from collections import defaultdict
from collections.abc import Iterator, Sequence
from concurrent.futures import ProcessPoolExecutor
from concurrent.futures.process import BrokenProcessPool
from dataclasses import dataclass, fields
from itertools import zip_longest
from pathlib import Path
from typing import Any, Union

from .calls import NAMES
from .command import BadInput, Commands, in_words, keep, read, write
from .library import engine
from .markup import Markup, element, joined
from .mending import mended, mends
from .record import Line, Record, as_record
from .refusals import Refusal
from .replies import Award, Reply, reply_in

_SHOWN = 120  # characters of a line that are shown in words; the csv file has all of them
_LISTED = 100  # differences of a pair in the junit file; the csv file has all of them
_COLUMNS = ("record", "replies", "line", "call", "field", "value", "reference")

Value = Union[int, str, None]
Found = tuple[str, Value, Value]
Row = tuple[Union[int, str], ...]


@dataclass(frozen=True)
class Difference:
    """Where a reply is not the reference's. None stands for what is missing.

    `line` is counted from 1; `call` names the call on it, and is empty behind the record's last.
    `field` is a field's name in words, `award 2: quantity` in an award; or `award 2` for one that
    is missing or too many, `line` for such a line, `reply` for a line that is no reply, and
    `line end` for a carriage return.
    """

    line: int
    call: str
    field: str
    value: Value
    reference: Value

    def words(self) -> str:
        """The difference in words."""
        call = f" ({self.call})" if self.call else ""
        return f"line {self.line}{call}: {self._fault()}"

    def _fault(self) -> str:
        value, reference = self.value, self.reference
        if self.field in ("line", "reply", "line end"):
            return self._fault_of_line()
        if self.field == "kind":
            return f"kind is {_kind(value)}, the reference has {_kind(reference)}"
        if self.field == "number":
            said = f"refused by {_refusal(value)}" if value else "accepted"
            has = f"refuses it by {_refusal(reference)}" if reference else "accepts it"
            return f"{said}, the reference {has}"
        if value is None:
            return f"the reference's {self.field} ({reference}) is missing"
        if reference is None:
            return f"{self.field} ({value}) is one too many"
        if isinstance(reference, bool):
            return f"{self.field}: {_yes(value)}, the reference has {_yes(reference)}"
        return f"{self.field} is {value}, the reference has {reference}"

    def _fault_of_line(self) -> str:
        if self.value is None:
            return f"the line is missing, the reference has {_cut(self.reference)}"
        said = f"'{_cut(self.value)}'"
        if self.reference is None:
            return f"{said} is behind the last line of the record"
        if self.field == "reply":
            return f"{said} is no reply, the reference has {_cut(self.reference)}"
        alone = ", its only fault" if self.value == f"{self.reference}\\r" else ""
        return f"{said} ends with a carriage return (0D){alone}"


def _kind(digits: Value) -> str:
    return f"{digits} ({NAMES.get(int(str(digits), 16), 'no kind of the reference')})"


def _refusal(number: Value) -> str:
    return f"{number} ({Refusal(int(number or 0)).meaning})"


def _yes(mark: Value) -> str:
    return "yes" if mark else "no"


def _cut(text: Value) -> str:
    shown = str(text)
    return shown if len(shown) <= _SHOWN else f"{shown[:_SHOWN]}... ({len(shown)} characters)"


def differences(record: Record | bytes, replies: str) -> list[Difference]:
    """All differences of the replies, one a line, from the reference's to the record, by line.

    The last line may lack its 0A. Raises TypeError where the record or the replies are none.
    """
    if not isinstance(replies, str):
        raise TypeError(f"replies are text, not {type(replies).__name__}")
    return _between(as_record(record).lines(), _lines(replies))


def _between(lines: list[Line], texts: list[str]) -> list[Difference]:
    found: list[Difference] = []
    for number, (line, text) in enumerate(zip_longest(lines, texts), 1):
        if line is not None and text == line.reply_text:
            continue
        call = NAMES[line.reply.kind] if line else ""
        found += [Difference(number, call, *each) for each in _in_line(line, text)]
    return found


def _lines(text: str) -> list[str]:
    """Lines end with 0A alone: a carriage return is part of its line."""
    lines = text.split("\n")
    return lines if lines[-1] else lines[:-1]


def _in_line(line: Line | None, text: str | None) -> Iterator[Found]:
    """The differences of one line that is not the reference's."""
    if line is None:
        yield "line", _printable(text or ""), None
        return
    if text is None:
        yield "line", None, line.reply_text
        return
    try:
        reply = reply_in(text.removesuffix("\r"))
    except ValueError:
        yield "reply", _printable(text), line.reply_text
        return
    yield from _in_reply(reply, line.reply)
    if text.endswith("\r"):
        yield "line end", _printable(text), line.reply_text


def _printable(text: str) -> str:
    return text.encode("unicode_escape").decode("ascii")


def _in_reply(reply: Reply, reference: Reply) -> Iterator[Found]:
    """Fields that both have. Where kind or answer differ, one of the two has no others."""
    if reply.kind != reference.kind:
        yield "kind", f"{reply.kind:02X}", f"{reference.kind:02X}"
    if reply.number != reference.number:
        yield "number", reply.number, reference.number
    if type(reply) is not type(reference):
        return
    for name, value, expected in _fields(reply, reference):
        if name == "awards":
            yield from _in_awards(value, expected)
        elif name not in ("kind", "number") and value != expected:
            yield name, value, expected


def _fields(value: Any, reference: Any) -> Iterator[tuple[str, Any, Any]]:
    """The fields of two values of one dataclass that bytes say, with their names in words."""
    for each in (each for each in fields(reference) if each.compare):
        name = each.name
        yield name.replace("_", " "), getattr(value, name), getattr(reference, name)


def _in_awards(awards: Sequence[Award], reference: Sequence[Award]) -> Iterator[Found]:
    for place, (award, expected) in _beside(awards, reference):
        if award is None:
            yield f"award {place}", None, _award(expected)
        elif expected is None:
            yield f"award {place}", _award(award), None
        else:
            for name, value, should in _fields(award, expected):
                if value != should:
                    yield f"award {place}: {name}", value, should


def _beside(
    awards: Sequence[Award], reference: Sequence[Award]
) -> Iterator[tuple[int, tuple[Award | None, Award | None]]]:
    """Places, and awards beside the reference's: by place if there are as many, else by project.

    By project one award too few or too many is one difference, not one in each award behind it.
    """
    if len(awards) == len(reference):
        yield from enumerate(zip(awards, reference), 1)
        return
    rest = list(enumerate(awards, 1))
    for place, expected in enumerate(reference, 1):
        same = next((each for each in rest if each[1].project == expected.project), None)
        if same:
            rest.remove(same)
        yield place, (same[1] if same else None, expected)
    for place, award in rest:
        yield place, (award, None)


def _award(award: Award | None) -> str:
    return ", ".join(f"{name} {value}" for name, value, _ in _fields(award, award))


# ---- pairs of files


@dataclass(frozen=True)
class Compared:
    """A pair of files with its differences and what is said of it, or why it was not compared."""

    record: str
    replies: str
    found: tuple[Difference, ...] = ()
    said: str = ""
    error: str = ""


def _compared(pair: tuple[str, str]) -> Compared:
    """The differences of a pair of files, with the first and their number in words."""
    record, path = pair
    try:
        content = read(record)
        # Latin-1 has a character for each byte, so that any file can be read and shown.
        replies = read(path).decode("latin-1")
    except OSError as error:
        return Compared(record, path, error=f"{record}, {path}: not compared: {in_words(error)}")
    lines, texts = Record(content).lines(), _lines(replies)
    found = _between(lines, texts)
    number = _count(max(len(lines), len(texts)), "line")
    said = f"{path}: no difference, {number}"
    if found:
        wrong = len({each.line for each in found})
        said = f"{path}: {_count(len(found), 'difference')} in {wrong} of {number}"
        said = f"{found[0].words()}\n{said}"
    if replies and not replies.endswith("\n"):
        said += "; the last reply has no 0A behind it"
    faults = mended(content)[1]
    if faults and all(line.reply.kind == 0xFF for line in lines):
        said = f"{record}: {'; '.join(faults)}; {mends(record)}\n{said}"
    return Compared(record, path, tuple(found), said)


def _in_folders(records: str, replies: str) -> tuple[list[tuple[str, str]], list[Compared]]:
    """Files of two folders in pairs, of one name, if only but for the ending; and the rest."""
    named, answered = _files(records), _files(replies)
    if not named:
        raise BadInput(f"{records} has no file")
    stems: dict[Path, list[Path]] = defaultdict(list)
    for name in answered:
        stems[name.with_suffix("")].append(name)
    pairs: list[tuple[str, str]] = []
    rest: list[Compared] = []
    for name, record in named.items():
        alike = [name] if name in answered else stems[name.with_suffix("")]
        if len(alike) == 1:
            pairs.append((record, answered[alike[0]]))
        else:
            why = "several files of its name" if alike else "no file of its name"
            rest.append(Compared(record, replies, error=f"{record}: {why} in {replies}"))
    taken = {path for _, path in pairs}
    for path in answered.values():
        if path not in taken:
            why = f"{path}: no record of its name in {records}"
            rest.append(Compared(records, path, error=why))
    return pairs, rest


def _files(folder: str) -> dict[Path, str]:
    """The files below a folder by their names there, hidden ones left out."""
    if not os.path.isdir(folder):
        raise NotADirectoryError(f"{folder} is no folder")
    names = (path.relative_to(folder) for path in Path(folder).rglob("*") if path.is_file())
    seen = sorted(name for name in names if not any(part.startswith(".") for part in name.parts))
    return {name: str(Path(folder, name)) for name in seen}


def _each(pairs: Sequence[tuple[str, str]], jobs: int) -> Iterator[Compared]:
    """The pairs compared, in their order, by so many processes; this one has standard input."""
    if jobs == 1 or any("-" in pair for pair in pairs):
        yield from map(_compared, pairs)
        return
    with ProcessPoolExecutor(jobs, initializer=_uninterrupted) as pool:
        try:
            yield from pool.map(_compared, pairs, chunksize=-(-len(pairs) // (8 * jobs)))
        except BrokenProcessPool:
            raise BadInput("a process that compared was ended from outside") from None
        except BaseException:  # Ctrl-C among them
            pool.shutdown(wait=False, cancel_futures=True)
            raise


def _uninterrupted() -> None:
    """Ctrl-C ends the process that waits for this one."""
    signal.signal(signal.SIGINT, signal.SIG_IGN)


# ---- the command


def add_to(commands: Commands) -> None:
    """Adds the command to the command line."""
    parser = commands.add_parser(
        "compare",
        help="measure another program's replies against the reference",
        description="Measures the replies of another program against the reference's replies to"
        " the same record: the first difference and the number of differences. Exit status 0 where"
        " nothing differs, 1 where anything does, 2 for bad usage or where a pair could not be"
        " compared; the others are compared then too.",
    )
    pairs = parser.add_mutually_exclusive_group(required=True)
    pairs.add_argument(
        "files",
        nargs="*",
        default=[],
        action=_Pairs,
        metavar="RECORD REPLIES",
        help="a record, and the replies to it (docs/FORMAT.md); any number of pairs; one file may"
        " be -, standard input",
    )
    pairs.add_argument(
        "--dir",
        nargs=2,
        metavar=("RECORDS", "REPLIES"),
        help="folders instead of files: each record with the replies of its name, whatever the"
        " ending of both",
    )
    parser.add_argument(
        "--jobs",
        type=_jobs,
        metavar="N",
        help="processes that compare; default: with --dir one for each processor, else 1",
    )
    parser.add_argument(
        "--quiet", action="store_true", help="say nothing of pairs without a difference"
    )
    for name, what in (
        ("csv", "write all differences to a csv file"),
        ("junit", "write each pair as a test case to an XML file in JUnit's form"),
    ):
        parser.add_argument(
            f"--{name}",
            metavar="FILE",
            help=f"{what}; - is standard output, and the words then go to standard error",
        )
    parser.set_defaults(run=run)


class _Pairs(argparse.Action):
    """Files that come in pairs."""

    def __call__(
        self, parser: Any, chosen: argparse.Namespace, files: Any, option: Any = None
    ) -> None:
        if len(files) % 2:
            raise argparse.ArgumentError(self, f"{files[-1]} is a record without replies")
        if files.count("-") > 1:
            raise argparse.ArgumentError(self, "- can be one of the files only")
        setattr(chosen, self.dest, list(zip(files[::2], files[1::2])))


def _jobs(text: str) -> int:
    if not text.isdecimal() or int(text) < 1:
        raise argparse.ArgumentTypeError(f"{text} is no number of processes")
    return int(text)


def run(chosen: argparse.Namespace) -> int:
    """Runs the command and gives its exit status."""
    pairs, compared = _in_folders(*chosen.dir) if chosen.dir else (chosen.files, [])
    written = [path for path in (chosen.csv, chosen.junit) if path is not None]
    keep((path for pair in pairs for path in pair), *written)
    if len(set(written)) < len(written):
        raise BadInput(f"--csv and --junit are one file, {written[0]}")
    words = sys.stderr if "-" in written else sys.stdout
    for swapped in engine().swapped_in:
        print(f"swapped in: {swapped}", file=words)
    for each in compared:
        print(each.error, file=sys.stderr)
    cores = len(os.sched_getaffinity(0)) if chosen.dir else 1
    results = _each(pairs, max(min(chosen.jobs or cores, len(pairs)), 1))
    progress = _Progress(len(pairs))
    for done in range(len(pairs)):
        progress.show(done)
        try:
            each = next(results)
        finally:
            progress.clear()
        compared.append(each)
        if each.error:
            print(each.error, file=sys.stderr, flush=True)
        elif each.found or not chosen.quiet:
            print(each.said, file=words, flush=True)
    if chosen.csv is not None:
        write(chosen.csv, _csv(compared))
    if chosen.junit is not None:
        write(chosen.junit, _junit(compared))
    if len(compared) > 1:
        print(_sum(compared), file=words, flush=True)
    if any(each.error for each in compared):
        return 2
    return 1 if any(each.found for each in compared) else 0


def _csv(compared: Sequence[Compared]) -> bytes:
    """All differences, a row each."""
    text = io.StringIO()
    writer = csv.writer(text, lineterminator="\n")
    writer.writerow(_COLUMNS)
    for pair in compared:
        writer.writerows(_row(pair, found) for found in pair.found)
    return text.getvalue().encode("utf-8", "backslashreplace")


def _row(pair: Compared, found: Difference) -> Row:
    value, reference = (_cell(each) for each in (found.value, found.reference))
    return pair.record, pair.replies, found.line, found.call, found.field, value, reference


def _cell(value: Value) -> str | int:
    """Marks are 1 and 0, as in docs/FORMAT.md, and what is missing is empty."""
    if value is None:
        return ""
    return int(value) if isinstance(value, bool) else value


def _junit(compared: Sequence[Compared]) -> bytes:
    """Each pair as a test case: differences fail it, and what is not compared is an error."""
    about = engine().source.items()
    properties = (element("property", name=name, value=value) for name, value in about)
    suite = element(
        "testsuite",
        element("properties", *properties),
        *(joined("\n", _case(pair)) for pair in compared),
        name="reference_engine compare",
        tests=len(compared),
        failures=sum(1 for pair in compared if pair.found),
        errors=sum(1 for pair in compared if pair.error),
    )
    return f'<?xml version="1.0" encoding="UTF-8"?>\n{suite}\n'.encode("utf-8")


def _case(pair: Compared) -> Markup:
    content: list[Markup] = []
    if pair.error:
        content.append(element("error", message=pair.error))
    if pair.found:
        listed = [each.words() for each in pair.found[:_LISTED]]
        more = len(pair.found) - len(listed)
        listed += [f"and {_count(more, 'difference')} more"] if more else []
        content.append(element("failure", "\n".join(listed), message=listed[0]))
    return element("testcase", *content, classname=pair.record, name=pair.replies)


def _count(number: int, name: str) -> str:
    return f"{number} {name}" if number == 1 else f"{number} {name}s"


def _sum(compared: Sequence[Compared]) -> str:
    pairs = _count(len(compared), "pair")
    counts = [len(pair.found) for pair in compared]
    wrong = sum(1 for count in counts if count)
    said = f"all: {_count(sum(counts), 'difference')} in {wrong} of {pairs}"
    if not wrong:
        said = f"all: no difference, {pairs}"
    failed = sum(1 for pair in compared if pair.error)
    return f"{said}; {failed} not compared" if failed else said


class _Progress:
    """A bar on standard error, on a terminal and for several pairs only.

    It is cleared before anything is printed, since both may go to one terminal.
    """

    _WIDTH = 24

    def __init__(self, pairs: int) -> None:
        self.pairs = pairs
        self.shown = ""
        self.wanted = pairs > 1 and sys.stderr.isatty()

    def show(self, done: int) -> None:
        """Shows how many pairs are done."""
        if self.wanted:
            full = self._WIDTH * done // self.pairs
            bar = "#" * full + "." * (self._WIDTH - full)
            self.shown = f"[{bar}] {done} of {self.pairs} pairs"
            self._write(f"\r{self.shown}")

    def clear(self) -> None:
        """Takes the bar away, so that the line is free."""
        if self.shown:
            self._write("\r" + " " * len(self.shown) + "\r")
            self.shown = ""

    def _write(self, text: str) -> None:
        sys.stderr.write(text)
        sys.stderr.flush()
