"""Whole pages: the parts of a seat's page, their fingerprints, and the page of nothing."""

from __future__ import annotations

import base64
import hashlib
from collections.abc import Sequence

from ..markup import Markup, element, joined
from ..session import AUCTIONEER, AUDITOR
from . import auctioneer, auditor, developer
from .drawing import Part
from .forms import Game, Typed
from .hall import Known
from .seats import Seated
from .style import SCRIPT, STYLE
from .views import View
from .words import PHASES


def _hashed(text: str) -> str:
    return base64.b64encode(hashlib.sha256(text.encode()).digest()).decode()


#: What a page may load: its own style and script, by their SHA-256, and its own answers.
POLICY = "; ".join(
    [
        "default-src 'none'",
        f"style-src 'sha256-{_hashed(STYLE)}'",
        f"script-src 'sha256-{_hashed(SCRIPT)}'",
        "connect-src 'self'",
        "img-src data:",
        "form-action 'self'",
        "base-uri 'none'",
        "frame-ancestors 'none'",
    ]
)


def parts(
    seated: Seated,
    known: Known,
    place: str,
    hall_seats: Sequence[Seated],
    typed: Typed | None = None,
    game: Game | None = None,
) -> list[Part]:
    """The parts of a seat's page. Who is no auctioneer gets nothing of the other seats."""
    view = View(seated.seat, known, place, typed)
    if seated.seat == AUCTIONEER:
        return auctioneer.parts(view, hall_seats, game)
    return auditor.parts(view) if seated.seat == AUDITOR else developer.parts(view)


def fingerprint(drawn: Sequence[Part]) -> str:
    """What tells a page from another of the same seat."""
    text = "\n".join(f"{each.name}\n{each.content}" for each in drawn)
    return hashlib.sha256(text.encode("utf-8", "replace")).hexdigest()[:32]


def page(
    seated: Seated, known: Known, place: str, plain: Sequence[Part], drawn: Sequence[Part]
) -> str:
    """A seat's page. Its fingerprints are of the plain parts, those without anything typed."""
    title = str(seated.seat).capitalize()
    phase = PHASES[known.reading.phase][0]
    name = element("p", seated.name) if seated.name else Markup()
    header = element(
        "header",
        element("div", element("h1", title), name, element("a", "Reload", href=place)),
    )
    sections = [
        _section(each, fingerprint([base])) for base, each in zip(plain, drawn, strict=True)
    ]
    offline = "No answer from the hall; this page may be out of date."
    body = element(
        "body",
        header,
        element("p", offline, class_="offline", id="offline", role="status", hidden="hidden"),
        element("p", class_="unseen", id="said", aria_live="polite"),
        element("main", *sections, data_page=place, data_shown=fingerprint(plain)),
        element("script", Markup(SCRIPT)),
    )
    return _document(f"{title} · {phase} · Auction hall", body)


def _section(drawn: Part, known: str) -> Markup:
    attributes = {"class_": "whole"} if drawn.whole else {}
    if drawn.said:
        attributes["data_said"] = drawn.said
    return element(
        "section", drawn.content, id=drawn.name, tabindex="-1", data_part=known, **attributes
    )


def plain_page(heading: str, *words: str) -> str:
    """A page that says something and nothing else."""
    said = element(
        "section", element("h2", heading), *(element("p", each) for each in words), class_="whole"
    )
    return _document(heading, element("body", element("main", said)))


def _document(title: str, body: Markup) -> str:
    head = element(
        "head",
        element("meta", charset="utf-8"),
        element("meta", name="viewport", content="width=device-width, initial-scale=1"),
        element("link", rel="icon", href="data:,"),
        element("title", title),
        element("style", Markup(STYLE)),
    )
    root = element("html", head, body, lang="en")
    return f"<!DOCTYPE html>\n{joined(root)}\n"
