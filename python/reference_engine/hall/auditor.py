"""The auditor's page: published values, settling and what it answers."""

from __future__ import annotations

from . import common
from .drawing import Part
from .views import View


def parts(view: View) -> list[Part]:
    """The parts of the page."""
    return [
        common.state(view),
        common.answer(view),
        common.settling(view),
        common.settlement(view, {}),
        common.calls(view),
    ]
