"""HTML and SVG that is well-formed XML too: text is escaped, and every element is closed."""

from __future__ import annotations

import html
import re

# What XML forbids, and control characters that no reader sees.
_UNSEEN = re.compile("[^\\t\\n\\x20-\\x7e\\xa0-\\ud7ff\\ue000-\\ufffd\\U00010000-\\U0010ffff]")
# Elements without content; HTML reads any other one that closes itself as left open.
_EMPTY = {"meta", "link", "input", "line", "path", "polyline", "rect", "circle"}


class Markup(str):
    """Text that is markup already."""


def escaped(text: str) -> Markup:
    """Text as markup; a character that cannot stand in XML is shown as \\xNN."""
    seen = _UNSEEN.sub(lambda found: f"\\x{ord(found.group()):02X}", text)
    return Markup(html.escape(seen))


def joined(*parts: str) -> Markup:
    """The parts one behind the other, escaped where they are no markup."""
    return Markup("".join(part if isinstance(part, Markup) else escaped(part) for part in parts))


def element(name: str, /, *content: str, **attributes: str | int | float) -> Markup:
    """An element. In attribute names `_` stands for `-`; one at the end is left out (`class_`)."""
    opened = [name]
    for key, value in attributes.items():
        shown = f"{value:.1f}" if isinstance(value, float) else str(value)
        opened.append(f'{key.rstrip("_").replace("_", "-")}="{escaped(shown)}"')
    start = " ".join(opened)
    if name in _EMPTY:
        return Markup(f"<{start}/>")
    return Markup(f"<{start}>{joined(*content)}</{name}>")


def pointed(number: int, decimals: int, separated: bool = True) -> str:
    """A number with so many of its digits behind the point, and commas between thousands."""
    whole, rest = divmod(abs(number), 10**decimals)
    behind = f".{rest:0{decimals}}" if decimals else ""
    return f"{'-' if number < 0 else ''}{whole:{',' if separated else ''}}{behind}"


def quantity(number: int) -> str:
    """A whole number with thousands separators."""
    return pointed(number, 0)


def price(thousandths: int) -> str:
    """A price in US$ per MWh: 26000 thousandths are 26.000."""
    return pointed(thousandths, 3)
