"""The command hall, as a teacher gives it."""

from __future__ import annotations

import os
import signal
import socket
import subprocess
import sys
import unittest
from pathlib import Path

from halls import SETTINGS, Client, HallTest
from records import ROOT

# A shell that starts the tests in the background lets them ignore Ctrl-C; a teacher's does not.
PROGRAM = """\
import signal
import sys
from reference_engine.__main__ import main
signal.signal(signal.SIGINT, signal.default_int_handler)
sys.exit(main())
"""
CLASS = """\
name,developer,project,kind,levels
Ana Gómez,1,1,existing,500000
Carla Ruiz,3,3,new,275000;550000
"""


class Command(HallTest):
    def setUp(self) -> None:
        super().setUp()
        self.folder = self.path.parent
        (self.folder / "class.csv").write_text(CLASS, encoding="utf-8")

    def started(self, *arguments: str) -> subprocess.Popen[str]:
        command = [sys.executable, "-c", PROGRAM, "hall", "class.session", *arguments]
        process = subprocess.Popen(
            command,
            cwd=self.folder,
            env={**os.environ, "PYTHONPATH": str(ROOT / "python"), "PYTHONDONTWRITEBYTECODE": "1"},
            stdout=subprocess.PIPE,
            stderr=subprocess.PIPE,
            text=True,
            encoding="utf-8",
        )
        self.addCleanup(process.communicate)
        self.addCleanup(process.kill)
        return process

    def links(self, process: subprocess.Popen[str]) -> dict[str, str]:
        """The links that it prints, by seat."""
        assert process.stdout
        found = {}
        for line in process.stdout:
            if "http" not in line:
                break
            words, link = line.split("  ", 1)
            found[words] = link.strip()
        return found

    def test_from_start_to_report(self) -> None:
        first = self.started("--seats", "class.csv", "--port", "0")
        links = self.links(first)
        seats = ["auctioneer", "auditor", "developer 1, Ana Gómez", "developer 3, Carla Ruiz"]
        self.assertEqual(list(links), seats)
        host, key = links["auctioneer"].removeprefix("http://").split("/")
        self.assertEqual(host.split(":")[0], "127.0.0.1")
        client = Client(int(host.split(":")[1]), key)
        for form, fields in (("set_up", SETTINGS), ("listed", {}), ("open", {"c": "30"})):
            self.assertEqual(client.post(form, fields).reply[2:], "00")
        first.send_signal(signal.SIGINT)
        out, err = first.communicate()
        self.assertEqual((first.returncode, out, err), (0, "The hall is closed.\n", ""))
        second = self.started("--port", "0")
        again = self.links(second)
        keys = [link.rpartition("/")[2] for link in links.values()]
        self.assertEqual([link.rpartition("/")[2] for link in again.values()], keys)
        client = Client(int(again["auctioneer"].split(":")[2].split("/")[0]), key)
        self.assertEqual(client.post("close").reply[:4], "0500")
        second.send_signal(signal.SIGKILL)
        second.communicate()
        for command in (["record", "class.session"], ["report", "class.record"]):
            output = "class.record" if command[0] == "record" else "class.html"
            done = subprocess.run(
                [sys.executable, "-m", "reference_engine", *command, "-o", output],
                cwd=self.folder,
                env={**os.environ, "PYTHONPATH": str(ROOT / "python")},
                capture_output=True,
                text=True,
            )
            self.assertEqual((done.returncode, done.stderr), (0, ""))
        self.assertIn("30.000", (self.folder / "class.html").read_text(encoding="utf-8"))

    def test_links_alone(self) -> None:
        url = "https://class.example/auction/"
        printed = self.started("--seats", "class.csv", "--links", "--url", url)
        links = self.links(printed)
        self.assertEqual(printed.wait(), 0)
        for link in links.values():
            self.assertRegex(link, r"^https://class\.example/auction/[A-Za-z0-9_-]{22}$")
        self.assertEqual(len(set(links.values())), 4)

    def test_said_in_a_line(self) -> None:
        """What is wrong is said in one line, and nothing is served."""
        Path(self.folder, "bad.csv").write_text("name,developer\nAna,x\n")
        Path(self.folder, "folder").mkdir()
        with socket.create_server(("127.0.0.1", 0)) as taken:
            port = str(taken.getsockname()[1])
            for arguments, said in (
                (["--seats", "bad.csv"], "bad.csv, line 2, column developer: 'x' is no whole"),
                (["--seats", "no.csv"], "no.csv: No such file or directory"),
                (["--port", port], f"127.0.0.1, port {port}: Address already in use; --host or"),
                (["--port", "65536"], "--port is 65536, and must be from 0 to 65535"),
                (["--host", "no.such.host.invalid"], "no.such.host.invalid, port 8000: "),
            ):
                out, err = self.started(*arguments).communicate()
                self.assertEqual((out, err.count("\n")), ("", 1), err)
                self.assertIn(said, err)

    def test_a_second_hall(self) -> None:
        first = self.started("--port", "0")
        self.links(first)
        second = self.started("--port", "0")
        out, err = second.communicate()
        self.assertEqual((second.returncode, out), (2, ""))
        self.assertIn("another hall serves class.session already", err)


if __name__ == "__main__":
    unittest.main()
