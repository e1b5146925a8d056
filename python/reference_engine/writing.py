"""The calls of an auction, each written by the library's writer and added somewhere."""

from __future__ import annotations

from abc import ABC, abstractmethod
from collections.abc import Iterable
from typing import Generic, SupportsIndex, TypeAlias, TypeVar, Union

from . import library
from .calls import Step
from .library import listed, whole, wholes

_BYTE, _WORD, _LONG = 2**8, 2**32, 2**40

#: Steps of an offer or of a lodged list: a price, and the level that it falls to.
Steps: TypeAlias = Iterable[Union[Step, Iterable[SupportsIndex]]]

_Added = TypeVar("_Added")


class Calls(ABC, Generic[_Added]):
    """A method for each call. It adds the call's frame, and returns what the frame is added to.

    Each raises Refused(14), and adds nothing, where no frame can say the call.
    """

    def set_up(
        self,
        ce: SupportsIndex,
        d: SupportsIndex,
        m1: SupportsIndex,
        m2: SupportsIndex,
        a: SupportsIndex,
    ) -> _Added:
        """Set-up: entrant's cost, target demand, lower and upper margin, opening price."""
        return self._written(
            "write_set_up",
            whole("ce", ce, _WORD),
            whole("d", d, _LONG),
            whole("m1", m1, _LONG),
            whole("m2", m2, _LONG),
            whole("a", a, _WORD),
        )

    def register(
        self,
        project: SupportsIndex,
        developer: SupportsIndex,
        kind: SupportsIndex,
        levels: Iterable[SupportsIndex],
        study: SupportsIndex = 0,
        day: SupportsIndex = 0,
        agent: SupportsIndex | None = None,
    ) -> _Added:
        """A registration; kind 1 is an existing plant, 2 a new one. An agent makes it frame 08."""
        numbers = [
            whole("project", project, _BYTE),
            whole("developer", developer, _BYTE),
            whole("kind", kind, _BYTE),
        ]
        if agent is not None:
            numbers.append(whole("agent", agent, _BYTE))
        return self._written(
            "write_registration" if agent is None else "write_registration_for",
            *numbers,
            whole("study", study, _WORD),
            whole("day", day, _WORD),
            wholes("levels", levels, _WORD),
        )

    def open(self, c: SupportsIndex) -> _Added:
        """The opening of a round down to C."""
        return self._written("write_opening", whole("c", c, _WORD))

    def offer(self, developer: SupportsIndex, steps: Steps = ()) -> _Added:
        """A developer's offer: steps of a price and the level that it falls to."""
        number = whole("developer", developer, _BYTE)
        return self._written("write_offer", number, *_columns(steps))

    def lodge(self, developer: SupportsIndex, steps: Steps = ()) -> _Added:
        """The withdrawal list of an existing plant, before the first round."""
        number = whole("developer", developer, _BYTE)
        return self._written("write_lodging", number, *_columns(steps))

    def cancel(self, developer: SupportsIndex) -> _Added:
        """A developer takes back its offer of the open round."""
        return self._written("write_cancellation", whole("developer", developer, _BYTE))

    def close(self) -> _Added:
        """The closing of the round."""
        return self._written("write_closing")

    def settle(self, limit: SupportsIndex = 65_536) -> _Added:
        """Settling, with its limit on admissible choices."""
        return self._written("write_settling", whole("limit", limit, _WORD))

    def _written(self, writer: str, *arguments: int | list[int]) -> _Added:
        return self._add(library.written(writer, *arguments))

    @abstractmethod
    def _add(self, frame: bytes) -> _Added:
        """Adds a frame, which has its 0A."""


def _columns(steps: Steps) -> tuple[list[int], list[int]]:
    """The steps' prices and their levels."""
    prices: list[SupportsIndex] = []
    levels: list[SupportsIndex] = []
    for place, step in enumerate(listed("steps", steps)):
        price, level = (step.price, step.level) if isinstance(step, Step) else _pair(place, step)
        prices.append(price)
        levels.append(level)
    return wholes("prices", prices, _WORD), wholes("levels", levels, _WORD)


def _pair(place: int, step: Iterable[SupportsIndex]) -> tuple[SupportsIndex, SupportsIndex]:
    try:
        price, level = listed("step", step)
    except (TypeError, ValueError):
        wrong = f"steps[{place}] must be a Step or a pair of a price and a level"
        raise TypeError(wrong) from None
    return price, level
