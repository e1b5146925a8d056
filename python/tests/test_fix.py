"""Files that are no records for their line ends, encoding or letters: what is said, and fix."""

from __future__ import annotations

import contextlib
import io
import random
import tempfile
import unittest
from pathlib import Path

from records import first_lines, random_record, sample
from reference_engine import Record
from reference_engine.__main__ import main
from reference_engine.mending import mended

SAMPLE = bytes(sample())
# What a file can be spoiled by, and what is then said of it.
SPOILED = {
    "crlf": (SAMPLE.replace(b"\n", b"\r\n"), "every line ends with 0D 0A"),
    "cr": (SAMPLE.replace(b"\n", b"\r"), "every line ends with 0D"),
    "utf-16": (SAMPLE.decode().encode("utf-16"), "it is UTF-16, two bytes a character"),
    "utf-16-le": (SAMPLE.decode().encode("utf-16-le"), "it is UTF-16, two bytes a character"),
    "utf-16-be": (SAMPLE.decode().encode("utf-16-be"), "it is UTF-16, two bytes a character"),
}
# These leave lines that are accepted.
PARTLY = {
    "mark": (b"\xef\xbb\xbf" + SAMPLE, "it begins with a byte order mark (EF BB BF)"),
    "small": (SAMPLE.lower(), "4 lines, the first of them line 1, have small letters"),
    "one": (SAMPLE.replace(b"05\n", b"05\r\n"), "line 10 ends with 0D 0A"),
    "letter": (SAMPLE.replace(b"03000061A8", b"03000061a8"), "line 6 has small letters"),
}


class Mending(unittest.TestCase):
    def test_what_is_wrong_and_where(self) -> None:
        for name, (content, words) in {**SPOILED, **PARTLY}.items():
            with self.subTest(name=name):
                self.assertEqual(mended(content), (SAMPLE, [words]))

    def test_all_at_once(self) -> None:
        text = "\ufeff" + SAMPLE.decode().lower().replace("\n", "\r\n")
        content, changes = mended(text.encode("utf-16-le"))
        self.assertEqual((content, len(changes)), (SAMPLE, 3))

    def test_nothing_else(self) -> None:
        """What a line says stays: words, blanks, a lone carriage return, half a UTF-16 file."""
        for content in (
            b"",
            b"\n",
            b"settle at once\n",
            b" 05\n05 \n",
            b"05\r05\n",
            b"0g\n",
            b"\xff\xfe0\n",
            b"\x00",
            bytes(range(256)),
        ):
            self.assertEqual(mended(content), (content, []))

    def test_records_that_are_right_stay(self) -> None:
        choice = random.Random(39)
        for _ in range(20):
            lines = random_record(choice).lines()
            content = b"".join(line.text + b"\n" for line in lines if line.reply.kind != 0xFF)
            self.assertEqual(mended(content), (content, []))


class Commands(unittest.TestCase):
    def setUp(self) -> None:
        folder = tempfile.TemporaryDirectory()
        self.addCleanup(folder.cleanup)
        self.record = Path(folder.name) / "record"
        self.new = Path(folder.name) / "new"

    def run_on(self, content: bytes, *command: str) -> tuple[int, str, str]:
        """Exit status, standard output and standard error; the record stands behind the name."""
        self.record.write_bytes(content)
        out, err = io.StringIO(), io.StringIO()
        with contextlib.redirect_stdout(out), contextlib.redirect_stderr(err):
            status = main([command[0], str(self.record), *command[1:]])
        self.assertEqual(self.record.read_bytes(), content)
        return status, out.getvalue(), err.getvalue()

    # ---- what the other commands say

    def test_one_line_and_1(self) -> None:
        fix = f'; "fix {self.record} -o NEW" mends it\n'
        for name, (content, words) in SPOILED.items():
            for command in (("table",), ("explain",), ("report", "-o", "-")):
                with self.subTest(name=name, command=command):
                    status, _, err = self.run_on(content, *command)
                    self.assertEqual((status, err), (1, f"no line was accepted: {words}{fix}"))
        for name, (content, words) in PARTLY.items():
            with self.subTest(name=name):
                status, _, err = self.run_on(content, "table")
                what = "no line was accepted" if name in ("mark", "small") else "not settled"
                self.assertEqual((status, err), (1, f"{what}: {words}{fix}"))

    def test_said_where_it_is_settled_too(self) -> None:
        status, _, err = self.run_on(SAMPLE + b"05\r\n", "table")
        said = f'line 12 ends with 0D 0A; "fix {self.record} -o NEW" mends it\n'
        self.assertEqual((status, err), (0, said))

    def test_no_frame_at_all(self) -> None:
        for content in (b"hello\n", b"<html>\n</html>\n", b"\x89PNG\x1a", b"\n\n"):
            status, _, err = self.run_on(content, "table")
            said = "no line was accepted: line 1 was refused by 12: malformed line\n"
            self.assertEqual((status, err), (1, said))
        self.assertEqual(self.run_on(b"", "table")[::2], (1, "the record has no line\n"))

    def test_the_first_line_that_went_wrong(self) -> None:
        """Without its set-up the sample is refused line by line, its settling by 2."""
        early, late = (f"was refused by {words}" for words in (
            "12: malformed line", "2: call not accepted in this phase"
        ))
        content = SAMPLE.replace(b"01", b"0g", 1)
        said = f"no line was accepted: line 1 {early}; settling on line 11 {late}\n"
        self.assertEqual(self.run_on(content, "table")[::2], (1, said))
        content = SAMPLE.replace(b"05\n", b"5\n")
        said = f"not settled: line 10 {early}; settling on line 11 {late}\n"
        self.assertEqual(self.run_on(content, "explain")[::2], (1, said))
        unsettled = first_lines(10).settle(0).settle(1)
        said = "not settled: line 11 was refused by 10: choices above the limit\n"
        self.assertEqual(self.run_on(bytes(unsettled), "table")[::2], (1, said))

    def test_the_first_line_and_what_can_be_mended(self) -> None:
        """A line that was refused before the one with small letters is not left out."""
        content = SAMPLE.replace(b"02", b"05\n02", 1).replace(b"03000061A8", b"03000061a8")
        status, _, err = self.run_on(content, "table")
        refused = "refused by 2: call not accepted in this phase"
        said = f"not settled: line 2 was {refused}; settling on line 12 was {refused}"
        mends = f'line 7 has small letters; "fix {self.record} -o NEW" mends it\n'
        self.assertEqual((status, err), (1, f"{said}; {mends}"))
        status, _, err = self.run_on(content.replace(b"05\n02", b"0g\n02"), "table")
        said = said.replace("line 2 was " + refused, "line 2 was refused by 12: malformed line")
        self.assertEqual((status, err), (1, f"{said}; {mends}"))

    def test_settling_that_is_malformed(self) -> None:
        content = bytes(first_lines(10)) + b"06000064\n"
        said = "not settled: line 11 was refused by 12: malformed line\n"
        self.assertEqual(self.run_on(content, "table")[::2], (1, said))

    # ---- fix

    def test_fix(self) -> None:
        for name, (content, words) in {**SPOILED, **PARTLY}.items():
            with self.subTest(name=name):
                status, out, err = self.run_on(content, "fix", "-o", str(self.new))
                self.assertEqual((status, out, err), (0, f"mended: {words}\n", ""))
                self.assertEqual(self.new.read_bytes(), SAMPLE)
                self.new.unlink()
        said = self.run_on(SAMPLE, "fix", "-o", str(self.new))
        self.assertEqual(said, (0, "nothing to mend\n", ""))
        self.assertEqual(Record.read(self.new), sample())

    def test_standard_output(self) -> None:
        status, out, err = self.run_on(SPOILED["crlf"][0], "fix", "-o", "-")
        self.assertEqual((status, out), (0, SAMPLE.decode()))
        self.assertEqual(err, "mended: every line ends with 0D 0A\n")

    def test_nothing_is_written_over(self) -> None:
        self.new.write_bytes(b"older\n")
        for output in (self.record, self.new):
            status, out, err = self.run_on(SPOILED["crlf"][0], "fix", "-o", str(output))
            self.assertEqual((status, out), (2, ""))
            self.assertIn(f"{output} is there already, and is not written over\n", err)
        self.assertEqual(self.new.read_bytes(), b"older\n")


if __name__ == "__main__":
    unittest.main()
