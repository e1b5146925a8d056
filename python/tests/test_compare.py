"""compare: planted differences are found and named, and odd files of replies are told in words."""

from __future__ import annotations

import contextlib
import csv
import io
import random
import re
import tempfile
import unittest
import xml.etree.ElementTree as ET
from collections.abc import Iterator
from dataclasses import dataclass, replace
from pathlib import Path
from unittest import mock

from records import ROOT, long_record, processor_seconds, random_record, sample
from reference_engine import Award, Closed, Record, Reply, Settled, differences, engine
from reference_engine.__main__ import main
from reference_engine.record import Line

SAMPLE = ROOT / "crates" / "replay" / "stdin"
SAMPLE_REPLIES = ROOT / "crates" / "replay" / "stdout"

IN_SETTLING = (
    "number",
    "price",
    "demand",
    "total",
    "choices",
    "covering",
    "award",
    "award: project",
    "award: developer",
    "award: quantity",
    "remainder",
    "second price",
    "short",
    "insufficient",
    "price paid",
    "reply",
)


def text_of(reply: Reply) -> str:
    """A reply as docs/FORMAT.md writes it, without its 0A."""
    text = f"{reply.kind:02X}{reply.number:02X}"
    if isinstance(reply, Closed):
        return f"{text}{reply.excess % 2**64:016X}{reply.remainder:08X}"
    if not isinstance(reply, Settled):
        return text
    text += f"{reply.price:08X}{reply.demand:010X}{reply.total:010X}"
    text += f"{reply.choices:08X}{reply.covering:08X}{len(reply.awards):02X}"
    for award in reply.awards:
        text += f"{award.project:02X}{award.developer:02X}{award.quantity:08X}"
    text += f"{reply.remainder:08X}{reply.second_price:08X}{reply.short:02X}"
    return f"{text}{reply.insufficient:02X}{reply.price_paid:08X}"


@dataclass(frozen=True)
class Planted:
    """A line with one fault: its text, and the difference that must be found."""

    text: str
    field: str
    value: object
    reference: object


def plantings(line: Line, choice: random.Random) -> Iterator[Planted]:
    """A fault in each field of a reply."""
    reply = line.reply
    kind = choice.choice([each for each in (1, 2, 3, 4, 7, 8, 9, 0xFF) if each != reply.kind])
    if type(reply) is Reply:
        wrong = replace(reply, kind=kind)
        yield Planted(text_of(wrong), "kind", f"{kind:02X}", f"{reply.kind:02X}")
    number = choice.choice([each for each in range(1, 17) if each != reply.number])
    yield Planted(text_of(Reply(reply.kind, number)), "number", number, reply.number)
    if reply.number and reply.kind not in (5, 6):
        yield Planted(text_of(replace(reply, number=0)), "number", 0, reply.number)
    if isinstance(reply, Closed):
        yield from wrong_numbers(reply, ("excess", "remainder"), choice)
    if isinstance(reply, Settled):
        yield from in_settlement(reply, choice)
    digits = choice.choice([text_of(reply) + "0", text_of(reply)[:-1], "", " " + text_of(reply)])
    yield Planted(digits, "reply", digits, text_of(reply))


def wrong_numbers(
    reply: Closed | Settled, names: tuple[str, ...], choice: random.Random
) -> Iterator[Planted]:
    for name in names:
        right = getattr(reply, name)
        wrong = right + 1 if right < 1 else right + choice.choice([-1, 1])
        text = text_of(replace(reply, **{name: wrong}))
        yield Planted(text, name.replace("_", " "), wrong, right)


def in_settlement(reply: Settled, choice: random.Random) -> Iterator[Planted]:
    names = ("price", "demand", "total", "choices", "covering")
    yield from wrong_numbers(reply, (*names, "remainder", "second_price", "price_paid"), choice)
    for name in ("short", "insufficient"):
        right = getattr(reply, name)
        text = text_of(replace(reply, **{name: not right}))
        yield Planted(text, name.replace("_", " "), not right, right)
    yield from in_awards(reply, choice)


def in_awards(reply: Settled, choice: random.Random) -> Iterator[Planted]:
    awards = list(reply.awards)
    place = choice.randrange(len(awards))
    for name in ("project", "developer", "quantity"):
        right = getattr(awards[place], name)
        wrong = [*awards]
        wrong[place] = replace(awards[place], **{name: right + 1})
        text = text_of(replace(reply, awards=tuple(wrong)))
        yield Planted(text, f"award {place + 1}: {name}", right + 1, right)
    fewer = (*awards[:place], *awards[place + 1 :])
    text = text_of(replace(reply, awards=fewer))
    yield Planted(text, f"award {place + 1}", None, words_of(awards[place]))
    extra = Award(40, 7, 1_234)
    text = text_of(replace(reply, awards=(*awards[:place], extra, *awards[place:])))
    yield Planted(text, f"award {place + 1}", words_of(extra), None)


def words_of(award: Award) -> str:
    return f"project {award.project}, developer {award.developer}, quantity {award.quantity}"


def replies_of(lines: list[Line]) -> list[str]:
    return [line.reply_text for line in lines]


def joined(texts: list[str]) -> str:
    return "".join(f"{text}\n" for text in texts)


class Plantings(unittest.TestCase):
    """Differences planted in random records."""

    def records(self) -> Iterator[tuple[random.Random, Record, list[Line]]]:
        for seed in range(12):
            choice = random.Random(seed)
            record = random_record(choice)
            yield choice, record, record.lines()

    def test_the_reference_has_none(self) -> None:
        for _, record, lines in self.records():
            self.assertEqual(replies_of(lines), [text_of(line.reply) for line in lines])
            self.assertEqual(differences(record, joined(replies_of(lines))), [])

    def test_each_is_found_alone(self) -> None:
        planted = 0
        fields: set[tuple[int, str]] = set()
        for choice, record, lines in self.records():
            for line in lines:
                for fault in plantings(line, choice):
                    planted += 1
                    fields.add((line.reply.kind, re.sub(r" \d+", "", fault.field)))
                    self.assert_found(record, lines, {line.number: fault})
        self.assertGreater(planted, 1_000)
        for kind in (1, 2, 3, 4, 7, 8, 9, 0xFF):
            self.assertLessEqual({(kind, "kind"), (kind, "number"), (kind, "reply")}, fields)
        self.assertLessEqual({(5, "number"), (5, "excess"), (5, "remainder")}, fields)
        self.assertLessEqual({(6, name) for name in IN_SETTLING}, fields)

    def test_a_hundred_at_once(self) -> None:
        planted = 0
        for choice, record, lines in self.records():
            chosen = choice.sample(lines, len(lines) // 3)
            faults = {line.number: choice.choice([*plantings(line, choice)]) for line in chosen}
            planted += len(faults)
            self.assert_found(record, lines, faults)
        self.assertGreater(planted, 100)

    def assert_found(self, record: Record, lines: list[Line], faults: dict[int, Planted]) -> None:
        texts = replies_of(lines)
        for number, fault in faults.items():
            texts[number - 1] = fault.text
        found = [
            (each.line, each.field, each.value, each.reference)
            for each in differences(record, joined(texts))
        ]
        expected = [
            (number, fault.field, fault.value, fault.reference)
            for number, fault in sorted(faults.items())
        ]
        self.assertEqual(found, expected)


class Words(unittest.TestCase):
    """What is said of the sample's replies with faults."""

    def setUp(self) -> None:
        self.texts = replies_of(sample().lines())

    def said(self, number: int, text: str) -> list[str]:
        self.texts[number - 1] = text
        return [each.words() for each in differences(sample(), joined(self.texts))]

    def settled(self, **wrong: object) -> list[str]:
        settlement = sample().replies()[-1]
        return self.said(11, text_of(replace(settlement, **wrong)))

    def test_excess(self) -> None:
        said = self.said(10, "0500FFFFFFFFFFFFFFCA00000000")
        self.assertEqual(said, ["line 10 (close): excess is -54, the reference has -55"])

    def test_refused(self) -> None:
        said = self.said(2, "0204")
        meaning = "bad kind or levels, or developers that a project may not have"
        expected = f"line 2 (registration): refused by 4 ({meaning}), the reference accepts it"
        self.assertEqual(said, [expected])

    def test_accepted(self) -> None:
        record = Record(b"05\n0g\n")
        said = [each.words() for each in differences(record, f"0500{0:024X}\nFF0B\n")]
        expected = [
            "line 1 (close): accepted, the reference refuses it by 2"
            " (call not accepted in this phase)",
            "line 2 (malformed line): refused by 11 (lent buffer too short),"
            " the reference refuses it by 12 (malformed line)",
        ]
        self.assertEqual(said, expected)

    def test_kind(self) -> None:
        said = self.said(6, "0400")
        expected = "line 6 (opening): kind is 04 (offer), the reference has 03 (opening)"
        self.assertEqual(said, [expected])
        expected = "kind is 77 (no kind of the reference), the reference has 03 (opening)"
        self.assertEqual(self.said(6, "7700"), [f"line 6 (opening): {expected}"])

    def test_marks(self) -> None:
        said = self.settled(short=True)
        self.assertEqual(said, ["line 11 (settling): short: yes, the reference has no"])

    def test_price_paid(self) -> None:
        said = self.settled(price_paid=22_000)
        expected = "line 11 (settling): price paid is 22000, the reference has 26000"
        self.assertEqual(said, [expected])

    def test_award(self) -> None:
        said = self.settled(awards=(Award(1, 1, 820), Award(2, 3, 150)))
        expected = "line 11 (settling): award 2: quantity is 150, the reference has 200"
        self.assertEqual(said, [expected])

    def test_awards_missing_and_too_many(self) -> None:
        said = self.settled(awards=(Award(2, 3, 150),))
        gone = "the reference's award 1 (project 1, developer 1, quantity 820) is missing"
        less = "award 2: quantity is 150, the reference has 200"
        self.assertEqual(said, [f"line 11 (settling): {each}" for each in (gone, less)])
        said = self.settled(awards=(Award(1, 1, 820), Award(1, 1, 820), Award(2, 3, 200)))
        many = "award 2 (project 1, developer 1, quantity 820) is one too many"
        self.assertEqual(said, [f"line 11 (settling): {many}"])

    def test_no_reply(self) -> None:
        for text, shown in (
            ("02 00", "02 00"),
            ("020", "020"),
            ("", ""),
            ("ff0c", "ff0c"),
            ("0500", "0500"),
            ("0200\r\r", r"0200\r\r"),
            ("02\xff\x00", r"02\xff\x00"),
            ("0200\u2028", r"0200\u2028"),
        ):
            expected = f"line 2 (registration): '{shown}' is no reply, the reference has 0200"
            self.assertEqual(self.said(2, text), [expected])

    def test_a_long_line_is_shown_in_part(self) -> None:
        said = self.said(2, "0" * 5_000)[0]
        self.assertIn("0... (5000 characters)' is no reply, the reference has 0200", said)
        self.assertLess(len(said), 300)

    def test_carriage_return(self) -> None:
        said = self.said(2, "0200\r")
        end = r"ends with a carriage return (0D)"
        expected = rf"line 2 (registration): '0200\r' {end}, its only fault"
        self.assertEqual(said, [expected])
        said = self.said(2, "0100\r")
        self.assertEqual(len(said), 2)
        self.assertIn("kind is 01 (set-up)", said[0])
        self.assertEqual(said[1], rf"line 2 (registration): '0100\r' {end}")

    def test_every_line_with_a_carriage_return(self) -> None:
        found = differences(sample(), joined([f"{text}\r" for text in self.texts]))
        self.assertEqual([each.line for each in found], list(range(1, 12)))
        self.assertEqual({each.field for each in found}, {"line end"})
        self.assertTrue(all(each.words().endswith("its only fault") for each in found))

    def test_lines_missing_and_too_many(self) -> None:
        found = differences(sample(), joined(self.texts[:9]))
        said = [each.words() for each in found]
        missing = f"the line is missing, the reference has {self.texts[9]}"
        self.assertEqual(said[0], f"line 10 (close): {missing}")
        self.assertEqual([each.line for each in found], [10, 11])
        found = differences(sample(), joined([*self.texts, "0500", ""]))
        self.assertEqual(
            [each.words() for each in found],
            [
                "line 12: '0500' is behind the last line of the record",
                "line 13: '' is behind the last line of the record",
            ],
        )

    def test_empty_and_last_newline(self) -> None:
        self.assertEqual(len(differences(sample(), "")), 11)
        self.assertEqual(differences(Record(), ""), [])
        self.assertEqual(len(differences(Record(), "\n")), 1)
        self.assertEqual(differences(sample(), joined(self.texts).rstrip("\n")), [])

    def test_wrong_types(self) -> None:
        for record, replies in ((sample(), b"0100\n"), (sample(), None), (5, ""), ("05\n", "")):
            with self.assertRaises(TypeError):
                differences(record, replies)  # type: ignore[arg-type]
        self.assertEqual(len(differences(bytes(sample()), "")), 11)


class _Terminal(io.StringIO):
    def isatty(self) -> bool:
        return True


class Command(unittest.TestCase):
    """The command on files: what it prints, its csv file and its exit status."""

    def setUp(self) -> None:
        folder = tempfile.TemporaryDirectory()
        self.addCleanup(folder.cleanup)
        self.folder = Path(folder.name)
        self.right = SAMPLE_REPLIES.read_text()
        wrong = self.right.replace("FFC9", "FFCA").replace("0203000000C8", "020400000096")
        self.wrong = self.file("wrong.replies", wrong)

    def file(self, name: str, content: str | bytes) -> str:
        path = self.folder / name
        path.write_bytes(content if isinstance(content, bytes) else content.encode("ascii"))
        return str(path)

    def run_main(
        self, *arguments: object, error: io.StringIO | None = None
    ) -> tuple[int, str, str]:
        """Exit status, standard output and standard error."""
        output, error = io.StringIO(), error or io.StringIO()
        with contextlib.redirect_stdout(output), contextlib.redirect_stderr(error):
            try:
                status = main(["compare", *map(str, arguments)])
            except SystemExit as left:
                status = left.code
        return status, output.getvalue(), error.getvalue()

    def test_equal(self) -> None:
        said = self.run_main(SAMPLE, SAMPLE_REPLIES)
        self.assertEqual(said, (0, f"{SAMPLE_REPLIES}: no difference, 11 lines\n", ""))

    def test_different(self) -> None:
        expected = (
            "line 10 (close): excess is -54, the reference has -55\n"
            f"{self.wrong}: 3 differences in 2 of 11 lines\n"
        )
        self.assertEqual(self.run_main(SAMPLE, self.wrong), (1, expected, ""))

    def test_one_difference(self) -> None:
        path = self.file("one", self.right.replace("FFC9", "FFCA"))
        self.assertIn("one: 1 difference in 1 of 11 lines\n", self.run_main(SAMPLE, path)[1])

    def test_several_pairs(self) -> None:
        status, output, error = self.run_main(SAMPLE, SAMPLE_REPLIES, SAMPLE, self.wrong)
        lines = output.splitlines()
        self.assertEqual((status, error, len(lines)), (1, "", 4))
        self.assertEqual(lines[-1], "all: 3 differences in 1 of 2 pairs")
        status, output, _ = self.run_main(SAMPLE, SAMPLE_REPLIES, SAMPLE, SAMPLE_REPLIES)
        self.assertEqual((status, output.splitlines()[-1]), (0, "all: no difference, 2 pairs"))

    def test_no_last_newline(self) -> None:
        path = self.file("short", self.right.rstrip("\n"))
        status, output, _ = self.run_main(SAMPLE, path)
        expected = f"{path}: no difference, 11 lines; the last reply has no 0A behind it\n"
        self.assertEqual((status, output), (0, expected))

    def test_odd_files(self) -> None:
        crlf = self.file("crlf", self.right.replace("\n", "\r\n"))
        self.assertIn("11 differences in 11 of 11 lines", self.run_main(SAMPLE, crlf)[1])
        empty = self.file("empty", "")
        self.assertIn("11 differences in 11 of 11 lines\n", self.run_main(SAMPLE, empty)[1])
        status, output, _ = self.run_main(empty, empty)
        self.assertEqual((status, output), (0, f"{empty}: no difference, 0 lines\n"))
        other = self.file("bytes", b"0100\n\xc3\xa9\x0c\x85\n" + self.right[10:].encode())
        status, output, _ = self.run_main(SAMPLE, other)
        self.assertIn(r"'\xc3\xa9\x0c\x85' is no reply, the reference has 0200", output)
        self.assertIn("1 difference in 1 of 11 lines\n", output)
        damaged = self.file("damaged", b"\xff\xfe\r\n\x00")
        status, output, _ = self.run_main(damaged, self.file("replies", "FF0C\nFF0C\n"))
        note = f'{damaged}: every line ends with 0D 0A; "fix {damaged} -o NEW" mends it\n'
        self.assertTrue(output.startswith(note), output)
        self.assertEqual((status, output.split(": ")[-1]), (0, "no difference, 2 lines\n"))

    def test_bad_usage(self) -> None:
        for files in ((), (SAMPLE,), (SAMPLE, SAMPLE_REPLIES, SAMPLE)):
            status, output, error = self.run_main(*files)
            self.assertEqual((status, output), (2, ""))
            self.assertIn("usage:", error)
        self.assertEqual(self.run_main("--help")[0], 0)

    def test_unreadable(self) -> None:
        nothing = self.folder / "nothing"
        for pair in ((SAMPLE, nothing), (nothing, SAMPLE_REPLIES), (SAMPLE, self.folder)):
            status, output, error = self.run_main(*pair)
            self.assertEqual((status, output), (2, ""))
            self.assertIn(str(self.folder), error)
        csv_file = self.folder / "no" / "folder"
        self.assertEqual(self.run_main(SAMPLE, self.wrong, "--csv", csv_file)[0], 2)

    def read_back(self, text: str) -> list[dict[str, str]]:
        return list(csv.DictReader(io.StringIO(text, newline="")))

    def test_csv(self) -> None:
        path = self.folder / "differences.csv"
        names = {"record": str(SAMPLE), "replies": self.wrong}
        status, output, _ = self.run_main(SAMPLE, SAMPLE_REPLIES, SAMPLE, self.wrong, "--csv", path)
        self.assertEqual((status, len(output.splitlines())), (1, 4))
        found = differences(sample(), Path(self.wrong).read_text())
        expected = [
            {
                **names,
                "line": str(each.line),
                "call": each.call,
                "field": each.field,
                "value": str(each.value),
                "reference": str(each.reference),
            }
            for each in found
        ]
        rows = self.read_back(path.read_text())
        self.assertEqual(rows, expected)
        self.assertEqual(rows[0]["field"], "excess")
        self.assertEqual((rows[0]["value"], rows[0]["reference"]), ("-54", "-55"))
        self.assertEqual(rows[1]["field"], "award 2: developer")

    def test_csv_over_a_compared_file(self) -> None:
        before = Path(self.wrong).read_bytes()
        status, output, error = self.run_main(SAMPLE, self.wrong, "--csv", self.wrong)
        self.assertEqual((status, output), (2, ""))
        self.assertIn(f"the output would replace {self.wrong}\n", error)
        self.assertEqual(Path(self.wrong).read_bytes(), before)

    def test_goes_on_where_a_file_cannot_be_read(self) -> None:
        path = self.folder / "differences.csv"
        for record in (self.folder, self.folder / "nothing"):
            pairs = (record, SAMPLE_REPLIES, SAMPLE, self.wrong)
            status, output, error = self.run_main(*pairs, "--csv", path)
            self.assertEqual((status, error.count("\n")), (2, 1))
            self.assertIn(f"{record}, {SAMPLE_REPLIES}: not compared: ", error)
            last = output.splitlines()[-1]
            self.assertEqual(last, "all: 3 differences in 1 of 2 pairs; 1 not compared")
            self.assertEqual([row["line"] for row in self.read_back(path.read_text())], ["10", "11", "11"])
            path.unlink()

    def test_csv_to_standard_output(self) -> None:
        status, output, error = self.run_main(SAMPLE, self.wrong, "--csv", "-")
        self.assertEqual(status, 1)
        self.assertEqual([row["line"] for row in self.read_back(output)], ["10", "11", "11"])
        self.assertIn("line 10 (close): excess is -54", error)
        status, output, _ = self.run_main(SAMPLE, SAMPLE_REPLIES, "--csv", "-")
        self.assertEqual(output, "record,replies,line,call,field,value,reference\n")

    def test_csv_of_marks_and_odd_lines(self) -> None:
        settlement = replace(sample().replies()[-1], short=True)
        lines = self.right.splitlines()
        texts = [lines[0], 'a,"b"\x00\r', *lines[2:10], text_of(settlement), "0500"]
        _, output, _ = self.run_main(SAMPLE, self.file("odd", joined(texts)), "--csv", "-")
        rows = [(row["field"], row["value"], row["reference"]) for row in self.read_back(output)]
        expected = [
            ("reply", r'a,"b"\x00\r', "0200"),
            ("short", "1", "0"),
            ("line", "0500", ""),
        ]
        self.assertEqual(rows, expected)

    def test_progress_on_a_terminal_only(self) -> None:
        pairs = [SAMPLE, self.wrong] * 3
        self.assertEqual(self.run_main(*pairs)[2], "")
        status, output, error = self.run_main(*pairs, error=_Terminal())
        self.assertIn("2 of 3 pairs", error)
        self.assertNotIn("\r", output)
        self.assertEqual(self.run_main(SAMPLE, self.wrong, error=_Terminal())[2], "")

    def test_progress_does_not_mix(self) -> None:
        """On one terminal for both, every printed line begins on a line that is blank."""
        screen = _Terminal()
        with mock.patch("sys.stdout", screen), mock.patch("sys.stderr", screen):
            main(["compare", *map(str, [SAMPLE, self.wrong] * 3)])
        seen = [shown(line) for line in screen.getvalue().split("\n")]
        said = ["line 10 (close): excess is -54, the reference has -55"]
        said += [f"{self.wrong}: 3 differences in 2 of 11 lines"]
        self.assertEqual(seen, [*said * 3, "all: 9 differences in 3 of 3 pairs", ""])

    # ---- whole folders

    def folders(self) -> tuple[Path, Path]:
        """Records with replies of the same name, of another ending, wrong ones, and none."""
        records, replies = self.folder / "records", self.folder / "replies"
        for folder in (records, replies):
            (folder / "deep").mkdir(parents=True)
            (folder / ".hidden").write_text("no record")
        for name in ("same", "one.rec", "deep/two.rec", "wrong.rec", "run.1", "run.2", "alone"):
            sample().write(records / name)
        for name in ("same", "one.out", "deep/two.out", "run.1", "run.2", "left.out"):
            (replies / name).write_text(self.right)
        (replies / "wrong.out").write_bytes(Path(self.wrong).read_bytes())
        return records, replies

    def test_folders(self) -> None:
        records, replies = self.folders()
        status, output, error = self.run_main("--dir", records, replies, "--jobs", 1)
        self.assertEqual(status, 2)
        self.assertEqual(
            error.splitlines(),
            [
                f"{records / 'alone'}: no file of its name in {replies}",
                f"{replies / 'left.out'}: no record of its name in {records}",
            ],
        )
        lines = output.splitlines()
        self.assertEqual(lines[-1], "all: 3 differences in 1 of 8 pairs; 2 not compared")
        names = ["deep/two.out", "one.out", "run.1", "run.2", "same"]
        said = [f"{replies / name}: no difference, 11 lines" for name in names]
        self.assertEqual([line for line in lines if "no difference" in line], said)
        (records / "alone").unlink()
        (replies / "left.out").unlink()
        self.assertEqual(self.run_main("--dir", records, replies, "--jobs", 1)[::2], (1, ""))
        (records / "wrong.rec").unlink()
        (replies / "wrong.out").unlink()
        status, output, _ = self.run_main("--dir", records, replies, "--jobs", 1, "--quiet")
        self.assertEqual((status, output), (0, "all: no difference, 5 pairs\n"))

    def test_several_processes_say_the_same(self) -> None:
        folders = self.folders()
        one, two = (self.run_main("--dir", *folders, "--jobs", jobs, "--csv", "-") for jobs in (1, 2))
        self.assertEqual(one, two)
        self.assertEqual(len(self.read_back(one[1])), 3)

    def test_several_files_of_a_name(self) -> None:
        records, replies = self.folders()
        (replies / "one.txt").write_text(self.right)
        error = self.run_main("--dir", records, replies, "--jobs", 1)[2]
        self.assertIn(f"{records / 'one.rec'}: several files of its name in {replies}\n", error)
        self.assertIn(f"{replies / 'one.txt'}: no record of its name in {records}\n", error)

    def test_quiet(self) -> None:
        status, output, error = self.run_main("--quiet", SAMPLE, SAMPLE_REPLIES, SAMPLE, self.wrong)
        said = "line 10 (close): excess is -54, the reference has -55\n"
        said += f"{self.wrong}: 3 differences in 2 of 11 lines\n"
        self.assertEqual((status, error), (1, ""))
        self.assertEqual(output, f"{said}all: 3 differences in 1 of 2 pairs\n")

    def test_bad_folders(self) -> None:
        nothing = self.folder / "nothing"
        nothing.mkdir()
        for folders, said in (
            ((nothing, nothing), f"{nothing} has no file\n"),
            ((self.wrong, nothing), f"{self.wrong} is no folder\n"),
            ((nothing, self.folder / "no"), f"{self.folder / 'no'} is no folder\n"),
        ):
            status, output, error = self.run_main("--dir", *folders)
            self.assertEqual((status, output), (2, ""))
            self.assertIn(said, error)
        for wrong in (("--dir", nothing), ("--dir", nothing, nothing, SAMPLE, SAMPLE_REPLIES)):
            self.assertIn("usage:", self.run_main(*wrong)[2])
        for jobs in ("0", "-1", "two", "1.5"):
            error = self.run_main(SAMPLE, SAMPLE_REPLIES, "--jobs", jobs)[2]
            self.assertIn("usage:", error)

    def test_junit(self) -> None:
        path = self.folder / "tests.xml"
        nothing = self.folder / "nothing"
        pairs = (SAMPLE, SAMPLE_REPLIES, SAMPLE, self.wrong, nothing, SAMPLE_REPLIES, SAMPLE, nothing)
        self.assertEqual(self.run_main(*pairs, "--junit", path)[0], 2)
        suite = ET.parse(path).getroot()
        counts = {name: suite.attrib[name] for name in ("tests", "failures", "errors")}
        self.assertEqual(counts, {"tests": "4", "failures": "1", "errors": "2"})
        right, wrong, unread, _ = suite.findall("testcase")
        self.assertEqual((right.attrib["classname"], len(right)), (str(SAMPLE), 0))
        (failure,) = wrong
        found = [each.words() for each in differences(sample(), Path(self.wrong).read_text())]
        self.assertEqual((failure.tag, failure.attrib["message"]), ("failure", found[0]))
        self.assertEqual(failure.text.splitlines(), found)
        self.assertEqual(unread[0].tag, "error")
        self.assertIn(str(nothing), unread[0].attrib["message"])
        known = {each.attrib["name"]: each.attrib["value"] for each in suite.iter("property")}
        self.assertEqual(known["engine version"], engine().version)
        self.assertEqual(known["library SHA-256"], engine().library_sha256)

    def test_junit_of_many_and_odd_differences(self) -> None:
        replies = self.file("odd", b"\x00\xff<&]]>\n" * 300)
        status, output, _ = self.run_main(SAMPLE, replies, "--junit", "-")
        (failure,) = ET.fromstring(output.encode()).iter("failure")
        lines = failure.text.splitlines()
        self.assertEqual((status, len(lines), lines[-1]), (1, 101, "and 200 differences more"))

    def test_outputs_are_two_files(self) -> None:
        one = self.folder / "one"
        for path in ("-", one):
            status, output, error = self.run_main(SAMPLE, self.wrong, "--csv", path, "--junit", path)
            self.assertEqual((status, output), (2, ""))
            self.assertIn(f"--csv and --junit are one file, {path}\n", error)

    def test_a_long_record_takes_a_second_or_two(self) -> None:
        record = self.folder / "long"
        long_record().write(record)
        self.assertGreater(record.stat().st_size, 64_000)
        texts = [f"{text}\r" for text in replies_of(long_record().lines())]
        replies = self.file("long.replies", joined(texts))
        began = processor_seconds()
        status, output, _ = self.run_main(record, replies, "--csv", self.folder / "long.csv")
        self.assertLess(processor_seconds() - began, 30)
        self.assertEqual(status, 1)
        self.assertIn(f"{len(texts)} differences in {len(texts)} of {len(texts)} lines", output)


def shown(line: str) -> str:
    """A line as a terminal shows it: what follows a carriage return is written over the rest."""
    seen = ""
    for part in line.split("\r"):
        seen = part + seen[len(part) :]
    return seen.rstrip(" ")


if __name__ == "__main__":
    unittest.main()
