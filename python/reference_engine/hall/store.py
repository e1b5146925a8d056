"""The file of a session: one writer, and each line synced before anyone is told of it."""

from __future__ import annotations

import fcntl
import os
from pathlib import Path

from ..command import BadInput

#: Bytes of the longest session: some hundred thousand lines, each answered from all before it.
LONGEST = 4 * 2**20


class NotKept(Exception):
    """A line could not be kept: the session is what it was, and the line must not be answered."""


class SessionFile:
    """The lines of a session, in memory and in a file that holds the same bytes.

    An unfinished last line, as a killed writer leaves it, is cut off when the file is opened;
    `dropped` has its bytes. Nobody was told of it: an answer leaves behind a whole synced line.
    """

    def __init__(self, path: str | Path) -> None:
        """Opens the file, or makes it. Raises OSError, and BadInput where it has a writer."""
        self.path = Path(path)
        made = not self.path.exists()
        self._file = os.open(self.path, os.O_RDWR | os.O_CREAT | os.O_CLOEXEC, 0o600)
        try:
            self._lock()
            content = self.path.read_bytes()
            end = content.rfind(b"\n") + 1
            self.content, self.dropped = content[:end], content[end:]
            self._broken = False
            if len(self.content) > LONGEST:
                raise BadInput(f"{self.path} has more than {LONGEST:,} bytes")
            if self.dropped:
                self._cut()
            if made:
                _sync_folder(self.path.parent)
        except BaseException:
            os.close(self._file)
            raise

    def _lock(self) -> None:
        try:
            fcntl.flock(self._file, fcntl.LOCK_EX | fcntl.LOCK_NB)
        except BlockingIOError:
            raise BadInput(f"another hall serves {self.path} already") from None

    def append(self, line: bytes) -> None:
        """Adds a line and syncs it. Raises NotKept, and the session is then what it was."""
        if self._broken:
            raise NotKept("the session's file could not be mended")
        if len(self.content) + len(line) > LONGEST:
            raise NotKept(f"a session has at most {LONGEST:,} bytes")
        try:
            self._write(line)
            os.fsync(self._file)
        except OSError as error:
            self._take_back()
            raise NotKept(error.strerror or "the line could not be written") from None
        self.content += line

    def _write(self, line: bytes) -> None:
        at = len(self.content)
        while line:
            written = os.pwrite(self._file, line, at)
            at, line = at + written, line[written:]

    def _take_back(self) -> None:
        """Cuts off what was written of a line; where even that fails, no line is taken any more."""
        try:
            self._cut()
        except OSError:
            self._broken = True

    def _cut(self) -> None:
        os.ftruncate(self._file, len(self.content))
        os.fsync(self._file)

    def close(self) -> None:
        """Closes the file, for another writer to open."""
        os.close(self._file)


def _sync_folder(folder: Path) -> None:
    """Syncs a folder, so that a file made in it is found again."""
    descriptor = os.open(folder, os.O_RDONLY)
    try:
        os.fsync(descriptor)
    finally:
        os.close(descriptor)


def write_private(path: Path, content: bytes) -> None:
    """Writes a file that its owner alone reads, whole or not at all. Raises OSError."""
    beside = path.with_name(path.name + ".new")
    beside.unlink(missing_ok=True)
    descriptor = os.open(beside, os.O_WRONLY | os.O_CREAT | os.O_EXCL, 0o600)
    try:
        with os.fdopen(descriptor, "wb") as file:
            file.write(content)
            file.flush()
            os.fsync(file.fileno())
        os.replace(beside, path)
    except OSError:
        beside.unlink(missing_ok=True)
        raise
    _sync_folder(path.parent)
