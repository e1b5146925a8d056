"""The commands and examples of the pages for users, run as they stand."""

from __future__ import annotations

import os
import re
import shutil
import subprocess
import sys
import tempfile
import textwrap
import unittest
from pathlib import Path

from records import ROOT
from reference_engine.book import _FIELDS
from test_main import COMMANDS

BLOCK = re.compile(r"^```(sh|python|text|c)\n(.*?)^```$", re.MULTILINE | re.DOTALL)


class Shown(unittest.TestCase):
    """A folder with what the commands read, so that nothing is written into the checkout."""

    def setUp(self) -> None:
        folder = tempfile.TemporaryDirectory()
        self.addCleanup(folder.cleanup)
        self.folder = Path(folder.name)
        for name in ("crates/replay", "calibration"):
            shutil.copytree(ROOT / name, self.folder / name)

    def read(self, name: str) -> None:
        self.page = (ROOT / name).read_text(encoding="utf-8")
        self.blocks = BLOCK.findall(self.page)

    def run_here(self, command: str | list[str], status: int = 0) -> str:
        """What a command prints. It must end with the status, and say nothing else."""
        done = subprocess.run(
            command,
            shell=isinstance(command, str),
            cwd=self.folder,
            env={**os.environ, "PYTHONPATH": str(ROOT / "python"), "PYTHONDONTWRITEBYTECODE": "1"},
            capture_output=True,
            text=True,
        )
        self.assertEqual((done.returncode, done.stderr), (status, ""), command)
        return done.stdout

    def printed(self) -> list[tuple[str, str]]:
        """Each text block, with what the block before it prints."""
        pairs, printed = [], ""
        for language, content in self.blocks:
            if language == "text":
                pairs.append((content, printed))
            elif language == "python":
                printed = self.run_here([sys.executable, "-c", content])
            elif language == "sh":
                for command in content.splitlines():
                    self.assertRegex(command, "^(PYTHONPATH=python )?python3 -m reference_engine ")
                    printed = self.run_here(command)
        return pairs

    def assertPrinted(self, number: int) -> None:
        """So many text blocks, each the end of what the block before it prints."""
        pairs = self.printed()
        self.assertEqual(len(pairs), number)
        for text, printed in pairs:
            self.assertEqual(printed[-len(text) :], text)


class C(Shown):
    def test_lines_of_the_example(self) -> None:
        self.read("docs/C.md")
        quoted = [content for language, content in self.blocks if language == "c"]
        self.assertEqual(len(quoted), 1)
        self.assertIn(textwrap.indent(quoted[0], "    "), (ROOT / "tests/c/example.c").read_text())

    def test_every_call_is_named(self) -> None:
        """By its name, or by that of its group."""
        self.read("docs/C.md")
        header = (ROOT / "include/reference_engine.h").read_text(encoding="utf-8")
        groups = {"write_": "`write_set_up` to `write_cancellation`", "session_": "`session_*`"}
        for name in re.findall(r"^uint64_t (\w+)\(", header, re.MULTILINE):
            named = [said for start, said in groups.items() if name.startswith(start)]
            self.assertTrue(any(said in self.page for said in [f"`{name}`", *named]), name)


class Publishing(Shown):
    def test_blocks(self) -> None:
        self.read("docs/PUBLISHING.md")
        self.assertPrinted(1)
        self.assertIn("</svg>", (self.folder / "report.html").read_text(encoding="utf-8"))


class Calibrating(Shown):
    def setUp(self) -> None:
        super().setUp()
        self.read("docs/CALIBRATING.md")

    def test_blocks(self) -> None:
        self.assertPrinted(2)

    def test_difference_in_words(self) -> None:
        """The sentence that the page quotes, of a program that has -54."""
        path = self.folder / "crates/replay/stdout"
        path.write_text(path.read_text().replace("C900000000", "CA00000000"))
        compare = next(content for _, content in self.blocks if " compare " in content)
        quoted = re.search(r"`(line 10 \(close\): .*?)`", self.page)
        self.assertIsNotNone(quoted)
        self.assertIn(quoted[1], self.run_here(compare, status=1))


class PythonPage(Shown):
    def setUp(self) -> None:
        super().setUp()
        self.read("docs/PYTHON.md")

    def test_blocks(self) -> None:
        self.assertPrinted(6)
        sample = self.folder / "sample.record"
        self.assertEqual(sample.read_bytes(), (ROOT / "crates/replay/stdin").read_bytes())
        for name in ("book.record", "fixed.record"):
            self.assertEqual((self.folder / name).read_bytes(), sample.read_bytes())

    def test_fields_of_books(self) -> None:
        """The table has every call with its fields, and brackets what may be left out."""
        rows = re.findall(r"^\| (`[a-z_`, ]+`) \|(.*)\|$", self.page, re.MULTILINE)
        shown = {}
        for names, fields in rows:
            needed, _, other = fields.partition("[")
            listed = [re.findall(r"`([a-z0-9]+)`", part) for part in (needed, other)]
            for name in re.findall(r"`([a-z_]+)`", names):
                shown[name] = {**dict.fromkeys(listed[0], True), **dict.fromkeys(listed[1], False)}
        self.assertEqual(shown, _FIELDS)


class Pages(Shown):
    def test_every_command_is_shown(self) -> None:
        shown = set()
        for name in ("docs/PYTHON.md", "docs/PUBLISHING.md", "docs/CALIBRATING.md"):
            self.read(name)
            commands = "".join(content for language, content in self.blocks if language == "sh")
            shown |= set(re.findall(r"-m reference_engine (\w+)", commands))
        self.assertEqual(shown, set(COMMANDS))


if __name__ == "__main__":
    unittest.main()
