"""The command line: its exit status, and what it says where it cannot go on."""

from __future__ import annotations

import _ctypes
import contextlib
import io
import os
import shutil
import subprocess
import sys
import tempfile
import unittest
from pathlib import Path
from unittest import mock

from records import ROOT
from reference_engine import library
from reference_engine.__main__ import main

SAMPLE = str(ROOT / "crates/replay/stdin")
LIBRARY = ROOT / "python/reference_engine/native/libreference_engine.so"
COMMANDS = (
    "compare", "report", "table", "figure", "explain", "show", "build", "fix", "record", "hall",
)


def run(*arguments: str, **options: object) -> subprocess.CompletedProcess[str]:
    """The commands as a process of their own."""
    command = [sys.executable, "-m", "reference_engine", *arguments]
    options = {"stdout": subprocess.PIPE, **options}
    return subprocess.run(command, stderr=subprocess.PIPE, text=True, **options)


def left(*arguments: str) -> tuple[object, str, str]:
    """Exit status, standard output and standard error of a command in this process."""
    out, err = io.StringIO(), io.StringIO()
    with contextlib.redirect_stdout(out), contextlib.redirect_stderr(err):
        try:
            status: object = main([*arguments])
        except SystemExit as stopped:
            status = stopped.code
    return status, out.getvalue(), err.getvalue()


class CommandLine(unittest.TestCase):
    def test_help(self) -> None:
        done = run("--help")
        self.assertEqual((done.returncode, done.stderr), (0, ""))
        for command in COMMANDS:
            status, out, err = left(command, "--help")
            self.assertEqual((status, err), (0, ""))
            self.assertIn(f"reference_engine {command}", out)
            self.assertIn(command, done.stdout)

    def test_bad_usage(self) -> None:
        done = run()
        self.assertEqual((done.returncode, done.stdout), (2, ""))
        self.assertIn("usage:", done.stderr)
        for arguments in ((), ("settle",), *((command,) for command in COMMANDS)):
            status, out, err = left(*arguments)
            self.assertEqual((status, out), (2, ""))
            self.assertIn("usage:", err)

    def test_no_such_file(self) -> None:
        for command in ("explain", "table", "show"):
            said = "python3 -m reference_engine: nowhere/to/be/found: No such file or directory\n"
            self.assertEqual(left(command, "nowhere/to/be/found"), (2, "", said))

    def test_not_built(self) -> None:
        done = run("explain", SAMPLE, env={**os.environ, "REFERENCE_ENGINE_LIBRARY": "nowhere.so"})
        self.assertEqual(done.returncode, 2)
        self.assertIn("nowhere.so is missing; in the checkout, python/build makes it", done.stderr)
        self.assertEqual(done.stderr.count("\n"), 1)
        for path, said in ((SAMPLE, "stdin: "), (_ctypes.__file__, " has no demand: it is not the")):
            done = run("explain", SAMPLE, env={**os.environ, "REFERENCE_ENGINE_LIBRARY": path})
            self.assertEqual((done.returncode, done.stderr.count("\n")), (2, 1))
            self.assertIn(said, done.stderr)

    def test_names_that_cannot_be_printed(self) -> None:
        with tempfile.TemporaryDirectory() as folder:
            for name, encoding, shown in (
                ("\xe9.rec", "ascii", r"\xe9.rec"),
                ("\xe9.rec", "utf-8", "\xe9.rec"),
                (os.fsdecode(b"\xff.rec"), "utf-8", r"\udcff.rec"),
            ):
                replies = os.path.join(folder, name)
                shutil.copy(ROOT / "crates/replay/stdout", replies)
                env = {**os.environ, "PYTHONIOENCODING": encoding}
                done = run("compare", SAMPLE, replies, env=env, encoding="utf-8")
                self.assertEqual((done.returncode, done.stderr), (0, ""))
                said = f"{os.path.join(folder, shown)}: no difference, 11 lines\n"
                self.assertEqual(done.stdout, said)
                with open(replies, "a") as behind:
                    behind.write("0500\n")
                done = run("compare", SAMPLE, replies, "--csv", "-", env=env, encoding="utf-8")
                self.assertEqual(done.returncode, 1)
                written = os.path.join(folder, os.path.basename(replies).replace("\udcff", r"\udcff"))
                self.assertIn(f",{written},12,,line,0500,\n", done.stdout)  # UTF-8 as in a file

    def test_nobody_reads_on(self) -> None:
        """A closed pipe is no success: 0 from compare would say that nothing differs."""
        reading, writing = os.pipe()
        os.close(reading)
        try:
            done = run("explain", SAMPLE, stdout=writing)
        finally:
            os.close(writing)
        said = "python3 -m reference_engine: nobody reads standard output on\n"
        self.assertEqual((done.returncode, done.stderr), (130, said))

    def test_interrupted(self) -> None:
        for command in ("explain", "table"):
            with mock.patch.object(library, "replies_to", side_effect=KeyboardInterrupt):
                said = (130, "", "python3 -m reference_engine: interrupted\n")
                self.assertEqual(left(command, SAMPLE), said)

    def test_version(self) -> None:
        known = library.engine()
        said = f"reference_engine {known.version}, library SHA-256 {known.library_sha256}\n"
        self.assertEqual(left("--version"), (0, said, ""))
        self.assertEqual(known.library_sha256, library.sha256(LIBRARY.read_bytes()))


class StandardStreams(unittest.TestCase):
    """- is standard input and standard output in every command."""

    def fed(self, content: bytes, *arguments: str) -> tuple[object, str, str]:
        with mock.patch("sys.stdin", io.TextIOWrapper(io.BytesIO(content))):
            return left(*arguments)

    def test_input(self) -> None:
        content = Path(SAMPLE).read_bytes()
        for command in ("explain", "table"):
            self.assertEqual(self.fed(content, command, "-"), left(command, SAMPLE))
        status, out, _ = self.fed(content, "report", "-", "-o", "-")
        self.assertIn("<title>Auction report: standard input</title>", out)
        replies = SAMPLE.replace("stdin", "stdout")
        self.assertEqual(self.fed(content, "compare", "-", replies), left("compare", SAMPLE, replies))
        answered = Path(replies).read_bytes()
        said = (0, "-: no difference, 11 lines\n", "")
        self.assertEqual(self.fed(answered, "compare", SAMPLE, "-"), said)
        pairs = (SAMPLE, "-", SAMPLE, replies, "--jobs", "2", "--quiet")
        said = (0, "all: no difference, 2 pairs\n", "")
        self.assertEqual(self.fed(answered, "compare", *pairs), said)
        self.assertEqual(self.fed(b"05\r\n", "fix", "-", "-o", "-")[:2], (0, "05\n"))

    def test_once_in_compare(self) -> None:
        status, out, err = left("compare", "-", "-")
        self.assertEqual((status, out), (2, ""))
        self.assertIn("- can be one of the files only", err)

    def test_output(self) -> None:
        self.assertEqual(left("table", SAMPLE, "-o", "-"), left("table", SAMPLE))


class SwappedIn(unittest.TestCase):
    """An engine that an environment variable swaps in is named in every output."""

    def test_every_command(self) -> None:
        with tempfile.TemporaryDirectory() as folder:
            other = Path(shutil.copy(LIBRARY, folder))
            swapped = f"REFERENCE_ENGINE_LIBRARY={other}"
            replies = SAMPLE.replace("stdin", "stdout")
            junit = ("compare", SAMPLE, replies, "--junit", "-")
            table = [("table", SAMPLE, "--format", name) for name in ("csv", "latex", "markdown")]
            commands = [("explain", SAMPLE), ("compare", SAMPLE, replies), junit, *table]
            commands += [("show", SAMPLE), ("show", SAMPLE, "--json"), ("--version",)]
            commands += [("report", SAMPLE, "-o", "-")]
            commands += [("figure", SAMPLE, "--which", "curve", "-o", "-")]
            for arguments in commands:
                with self.subTest(arguments=arguments):
                    self.assertNotIn("REFERENCE_ENGINE", left(*arguments)[1])
                    with mock.patch.object(library, "_library_path", return_value=other):
                        out = left(*arguments)[1]
                    self.assertIn(swapped, out.replace(r"\_", "_"))
            done = run("--version", env={**os.environ, "REFERENCE_ENGINE_LIBRARY": str(other)})
            version = library.VERSION  # what the copy says of itself
            self.assertIn(f"reference_engine {version}, library SHA-256 ", done.stdout)
            self.assertIn(swapped, done.stdout)


if __name__ == "__main__":
    unittest.main()
