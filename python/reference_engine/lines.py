"""What a record and a session share: lines of bytes, and the reply to each."""

from __future__ import annotations

from abc import ABC, abstractmethod
from collections.abc import Iterator
from dataclasses import replace
from pathlib import Path
from typing import TypeAlias, TypeVar, Union

from .live import Phase
from .replies import Closed, Reply, reply_in

_Lines = TypeVar("_Lines", bound="Lines")

#: Bytes of any type.
Bytes: TypeAlias = Union[bytes, bytearray, memoryview]


class Lines(ABC):
    """Lines of bytes, of which each has one reply."""

    def __init__(self, content: Bytes = b"") -> None:
        if not isinstance(content, (bytes, bytearray, memoryview)):
            name = type(self).__name__.lower()
            raise TypeError(f"a {name} is made of bytes, not {type(content).__name__}")
        self._content = bytearray(content)

    @classmethod
    def read(cls: type[_Lines], path: str | Path) -> _Lines:
        """What a file holds, whatever bytes these are."""
        return cls(Path(path).read_bytes())

    def write(self, path: str | Path) -> None:
        """Writes the bytes to a file."""
        Path(path).write_bytes(self._content)

    def copy(self: _Lines) -> _Lines:
        """One of the same bytes; what is added to one is not added to the other."""
        return type(self)(self._content)

    __copy__ = copy

    def __bytes__(self) -> bytes:
        return bytes(self._content)

    def __len__(self) -> int:
        return len(self._content)

    def __eq__(self, other: object) -> bool:
        return isinstance(other, Lines) and (type(self), self._content) == (
            type(other),
            other._content,
        )

    def __repr__(self) -> str:
        return f"{type(self).__name__}({bytes(self)!r})"

    def _append(self, line: bytes) -> None:
        """Adds a line that has its 0A, behind one that may lack it."""
        if self._content and not self._content.endswith(b"\n"):
            self._content += b"\n"
        self._content += line

    def replies(self) -> list[Reply]:
        """The reply to each line, from a fresh auction."""
        return [reply for _, _, reply in self._replied()]

    def _replied(self) -> Iterator[tuple[bytes, str, Reply]]:
        """Each line with its reply's text and value; an empty rest behind the last 0A is none."""
        texts = bytes(self).split(b"\n")
        if not texts[-1]:
            texts.pop()
        reply_texts = self._replayed().decode("ascii").splitlines()
        replies = self._with_ending([reply_in(text) for text in reply_texts])
        return zip(texts, reply_texts, replies, strict=True)

    def _with_ending(self, replies: list[Reply]) -> list[Reply]:
        """The replies, in which each accepted closing says whether it ended the auction.

        The bytes of a reply do not say it. A closed auction opens no other round: it was ended by
        the latest accepted closing, if it is closed behind the last line.
        """
        closings = {
            place: reply for place, reply in enumerate(replies) if isinstance(reply, Closed)
        }
        closed = bool(closings) and self._phase() is Phase.CLOSED
        latest = max(closings, default=0)
        for place, reply in closings.items():
            replies[place] = replace(reply, ended=closed and place == latest)
        return replies

    @abstractmethod
    def _replayed(self) -> bytes:
        """The library's replies."""

    @abstractmethod
    def _phase(self) -> Phase:
        """The phase behind the last line."""
