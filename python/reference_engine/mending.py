"""What keeps a file with right frames from being a record, and its bytes without that.

Line ends, a byte order mark, UTF-16 and small letters are mended, and nothing else: what a line
says is never guessed.
"""

from __future__ import annotations

import re
from collections.abc import Sequence

_MARK = b"\xef\xbb\xbf"  # UTF-8's byte order mark
_DIGITS = re.compile(rb"[0-9A-Fa-f]+")


def mended(content: bytes) -> tuple[bytes, list[str]]:
    """The bytes without what can be mended, and in words what that was and where."""
    changes: list[str] = []
    text = _of_utf16(content)
    if text is not None:
        content = text
        changes.append("it is UTF-16, two bytes a character")
    if content.startswith(_MARK):
        content = content[len(_MARK) :]
        changes.append("it begins with a byte order mark (EF BB BF)")
    if b"\r" in content and b"\n" not in content:
        content = content.replace(b"\r", b"\n")
        changes.append("every line ends with 0D")
    lines = content.split(b"\n")
    ended = [number for number, line in enumerate(lines, 1) if line.endswith(b"\r")]
    if ended:
        lines = [line.rstrip(b"\r") for line in lines]
        changes.append(_where(ended, content.count(b"\n"), "ends with 0D 0A", "end with 0D 0A"))
    small = [number for number, line in enumerate(lines, 1) if _is_small(line)]
    for number in small:
        lines[number - 1] = lines[number - 1].upper()
    if small:
        changes.append(_where(small, len(lines), "has small letters", "have small letters"))
    return b"\n".join(lines), changes


def mends(record: str) -> str:
    """What to do about a record that can be mended."""
    return f'"fix {record} -o NEW" mends it'


def _of_utf16(content: bytes) -> bytes | None:
    """The characters of UTF-16, a byte each; None where it is none, or no text of frames."""
    little, big = ("le", b"\xff\xfe", content[1::2]), ("be", b"\xfe\xff", content[::2])
    for order, mark, zeros in (little, big):
        if content.startswith(mark) or (zeros and not any(zeros)):
            try:
                return content.removeprefix(mark).decode(f"utf-16-{order}").encode("ascii")
            except UnicodeError:
                return None
    return None


def _is_small(line: bytes) -> bool:
    return line != line.upper() and _DIGITS.fullmatch(line) is not None


def _where(numbers: Sequence[int], lines: int, one: str, many: str) -> str:
    """Which of so many lines it is that something is said of."""
    if len(numbers) >= lines:
        return f"every line {one}"
    if len(numbers) == 1:
        return f"line {numbers[0]} {one}"
    return f"{len(numbers):,} lines, the first of them line {numbers[0]}, {many}"
