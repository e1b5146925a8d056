"""The wheel that pip installs, made without pip and used from where it is unpacked."""

from __future__ import annotations

import base64
import hashlib
import os
import re
import shutil
import subprocess
import sys
import tempfile
import unittest
import venv
import zipfile
from pathlib import Path
from unittest import mock

from records import ROOT

sys.path.insert(0, str(ROOT / "python"))
import backend  # noqa: E402  beside the package, not in it
import reference_engine  # noqa: E402
from reference_engine import library  # noqa: E402


# A user's program with one wrong type.
PROGRAM = """\
from reference_engine import AUCTIONEER, Award, Phase, Record, Session, Settled, Step
from reference_engine import demand, engine

record = Record().set_up(20_000, 1_000, 900, 1_200, 40_000).offer(2, [(1, 2), Step(1, 2)])
for reply in record.copy().replies():
    if isinstance(reply, Settled):
        awards: tuple[Award, ...] = reply.awards
hall: Session = Session().at(AUCTIONEER).close().copy()
phases: list[Phase] = [record.state().phase, hall.reading(AUCTIONEER).phase]
version: str = engine().version
found: str = demand(1, 2, 3, 4, 5)
"""


class Version(unittest.TestCase):
    """The header has it, and all else says the same."""

    def test_everywhere_the_headers(self) -> None:
        header = (ROOT / "include/reference_engine.h").read_text(encoding="utf-8")
        (version,) = re.findall(r'^#define REFERENCE_ENGINE_VERSION "(.*)"', header, re.MULTILINE)
        self.assertEqual(reference_engine.__version__, version)
        self.assertEqual(reference_engine.engine().version, version)
        cited = (ROOT / "CITATION.cff").read_text(encoding="utf-8")
        self.assertIn(f"\nversion: {version}\n", cited)
        self.assertNotIn("license", cited)

    def test_what_the_library_says(self) -> None:
        """Its own version, whichever; one without the call says none."""
        for number, version in ((1_002_003, "1.2.3"), (9_000_045, "9.0.45"), (999_000, "0.999.0")):
            other = mock.Mock(engine_version=mock.Mock(return_value=number))
            with mock.patch.object(library, "_library", return_value=other):
                self.assertEqual(reference_engine.engine().version, version)
        with mock.patch.object(library, "_library", return_value=object()):
            self.assertEqual(reference_engine.engine().version, "not known")

    def test_changelog(self) -> None:
        """A line for each note, the newest first, and the version is the newest landing's."""
        changes = (ROOT / "CHANGELOG.md").read_text(encoding="utf-8")
        lines = re.findall(r"^- \[(\d+)\]\((docs/landings/\S+\.md)\): .+\.$", changes, re.MULTILINE)
        notes = sorted(path.name for path in (ROOT / "docs/landings").glob("[0-9]*.md"))
        self.assertEqual([Path(note).name for _, note in lines], notes[::-1])
        self.assertEqual([int(number) for number, _ in lines], [int(each[:2]) for each in notes[::-1]])
        self.assertEqual(reference_engine.__version__, f"0.{lines[0][0]}.0")


class Wheel(unittest.TestCase):
    def setUp(self) -> None:
        folder = tempfile.TemporaryDirectory()
        self.addCleanup(folder.cleanup)
        self.folder = Path(folder.name)
        self.name = backend.build_wheel(folder.name)
        self.about = f"reference_engine-{reference_engine.__version__}.dist-info"

    def test_name_and_version(self) -> None:
        self.assertRegex(self.name, r"^reference_engine-[0-9.]+-py3-none-linux_\w+\.whl$")
        with zipfile.ZipFile(self.folder / self.name) as wheel:
            metadata = wheel.read(f"{self.about}/METADATA").decode()
            made = wheel.read(f"{self.about}/WHEEL").decode()
        self.assertIn("\nName: reference-engine\n", metadata)
        self.assertIn(f"\nVersion: {reference_engine.__version__}\n", metadata)
        self.assertIn("\nRequires-Python: >=3.10\n", metadata)
        self.assertTrue(metadata.endswith((ROOT / "python/README.md").read_text(encoding="utf-8")))
        self.assertIn("\nClassifier: Typing :: Typed\n", metadata)
        self.assertNotIn("\nLicense", metadata)
        self.assertIn("-".join(self.name.removesuffix(".whl").split("-")[2:]), made)

    def test_every_file_is_recorded(self) -> None:
        with zipfile.ZipFile(self.folder / self.name) as wheel:
            rows = wheel.read(f"{self.about}/RECORD").decode().splitlines()
            recorded = {row.split(",")[0]: row.split(",")[1:] for row in rows}
            self.assertEqual(sorted(recorded), sorted(wheel.namelist()))
            self.assertEqual(recorded.pop(f"{self.about}/RECORD"), ["", ""])
            for name, (digest, length) in recorded.items():
                content = wheel.read(name)
                found = base64.urlsafe_b64encode(hashlib.sha256(content).digest()).decode()
                self.assertEqual(digest, "sha256=" + found.rstrip("="))
                self.assertEqual(int(length), len(content))
        sources = {path.relative_to(ROOT / "python").as_posix() for path in backend._PACKAGE.rglob("*.py")}
        self.assertIn("reference_engine/hall/application.py", sources)
        self.assertLess({*sources, "reference_engine/py.typed"}, set(recorded))

    def test_console_command(self) -> None:
        with zipfile.ZipFile(self.folder / self.name) as wheel:
            scripts = wheel.read(f"{self.about}/entry_points.txt").decode()
        self.assertEqual(
            scripts, "[console_scripts]\nreference-engine = reference_engine.__main__:main\n"
        )

    @unittest.skipUnless(shutil.which("mypy"), "mypy is not installed")
    def test_types_are_found(self) -> None:
        """mypy --strict of a user's program, with the package installed where it is untouched."""
        environment = self.folder / "environment"
        venv.create(environment, symlinks=True)
        (site,) = environment.glob("lib/python*/site-packages")
        with zipfile.ZipFile(self.folder / self.name) as wheel:
            wheel.extractall(site)
        program = self.folder / "program.py"
        program.write_text(PROGRAM, encoding="utf-8")
        where = f"--python-executable={environment / 'bin/python3'}"
        done = subprocess.run(
            ["mypy", "--strict", where, "--cache-dir=/dev/null", program.name],
            cwd=self.folder,
            capture_output=True,
            text=True,
        )
        if "Traceback" in done.stderr:
            self.skipTest("this mypy does not run with this Python")
        said = re.findall(r"^program.py:(\d+): .*: (.*)$", done.stdout, re.MULTILINE)
        wrong = PROGRAM.splitlines().index("found: str = demand(1, 2, 3, 4, 5)") + 1
        self.assertEqual([int(line) for line, _ in said], [wrong], done.stdout + done.stderr)

    def test_unpacked(self) -> None:
        script = (
            "import reference_engine as r; "
            "print(r.__file__, r.demand(20000, 1000, 900, 1200, 29999), r.replay(b'0g'))"
        )
        with zipfile.ZipFile(self.folder / self.name) as wheel:
            wheel.extractall(self.folder)
        done = subprocess.run(
            [sys.executable, "-c", script],
            cwd=self.folder,
            env={**os.environ, "PYTHONPATH": str(self.folder)},
            capture_output=True,
            text=True,
            check=True,
        )
        place = self.folder / "reference_engine/__init__.py"
        self.assertEqual(done.stdout, f"{place} 951 [Reply(kind=255, number=12)]\n")

    def test_not_built(self) -> None:
        with mock.patch.object(backend, "_NATIVE", ("nothing.so",)):
            with self.assertRaisesRegex(RuntimeError, "nothing.so is missing: run python/build"):
                backend.build_wheel(str(self.folder))

    def test_no_source_distribution(self) -> None:
        with self.assertRaisesRegex(RuntimeError, "no source distribution"):
            backend.build_sdist(str(self.folder))


if __name__ == "__main__":
    unittest.main()
