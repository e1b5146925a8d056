"""The published calibration set, measured by the command that laboratories measure by."""

from __future__ import annotations

import contextlib
import io
import shutil
import tempfile
import unittest
from pathlib import Path

from records import ROOT
from reference_engine.__main__ import main

SET = ROOT / "calibration"


class Calibration(unittest.TestCase):
    def compare(self, replies: Path) -> tuple[int, str]:
        said = io.StringIO()
        with contextlib.redirect_stdout(said):
            folders = ("--dir", str(SET / "records"), str(replies))
            status = main(["compare", *folders, "--jobs", "1", "--quiet"])
        return status, said.getvalue()

    def test_the_reference_has_no_difference(self) -> None:
        number = len(list((SET / "records").iterdir()))
        said = f"all: no difference, {number} pairs\n"
        self.assertEqual(self.compare(SET / "replies"), (0, said))

    def test_a_difference_is_told(self) -> None:
        with tempfile.TemporaryDirectory() as folder:
            replies = Path(shutil.copytree(SET / "replies", Path(folder, "replies")))
            (sample,) = replies.glob("001-*")
            sample.write_text(sample.read_text().replace("C900000000", "CA00000000"))
            status, said = self.compare(replies)
        self.assertEqual(status, 1)
        self.assertIn("line 10 (close): excess is -54, the reference has -55", said)


if __name__ == "__main__":
    unittest.main()
