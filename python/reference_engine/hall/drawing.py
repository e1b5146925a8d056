"""Pieces that pages are drawn of: parts, figures, tables, and forms with their faults."""

from __future__ import annotations

from collections.abc import Iterable, Mapping, Sequence
from dataclasses import dataclass

from ..markup import Markup, element, joined


@dataclass(frozen=True)
class Part:
    """A part of a page, which is refreshed by itself; without content it is not seen."""

    name: str
    content: Markup = Markup()
    whole: bool = False  # over the page's whole width
    said: str = ""  # what a screen reader says where the part has changed


def part(name: str, heading: str, *content: str, whole: bool = False, said: str = "") -> Part:
    """A part with its heading."""
    return Part(name, joined(element("h2", heading), *content), whole, said)


def figures(items: Iterable[tuple[str, str, str]]) -> Markup:
    """Figures with their names and units."""
    drawn = [
        element("div", element("dt", name), element("dd", value, *_unit(unit)))
        for name, value, unit in items
    ]
    return element("dl", *drawn, class_="figures")


def _unit(unit: str) -> list[Markup]:
    return [joined(" ", element("small", unit))] if unit else []


def table(
    caption: str, heads: Sequence[str], rows: Iterable[Sequence[str]], numbers: str
) -> Markup:
    """A table; `numbers` has a mark for each column, "n" for one of numbers.

    One of more than three columns is drawn on a phone as cards, a row each.
    """
    classes: list[dict[str, str]] = [
        {"class_": "number"} if mark == "n" else {} for mark in numbers
    ]
    head = [element("th", name, scope="col", **given) for name, given in zip(heads, classes)]
    looks = {"class_": "cards"} if len(heads) > 3 else {}
    body = [
        element(
            "tr",
            *(
                element("td", cell, data_name=name, **given)
                for name, cell, given in zip(heads, cells, classes)
            ),
        )
        for cells in rows
    ]
    drawn = element(
        "table",
        element("caption", caption, class_="unseen"),
        element("thead", element("tr", *head)),
        element("tbody", *body),
        **looks,
    )
    return element("div", drawn, class_="scroll")


@dataclass(frozen=True)
class Form:
    """A form: where it is sent, what stands in its fields, and what is wrong with them."""

    name: str
    action: str
    values: Mapping[str, str]
    faults: Mapping[str, str]

    def drawn(self, *content: str, method: str = "post") -> Markup:
        """The form, with what is wrong with all of it above its content."""
        attributes = {"method": method, "action": self.action, "novalidate": "novalidate"}
        return element("form", self.fault(""), *content, id=f"form-{self.name}", **attributes)

    def fault(self, field: str) -> Markup:
        """What is wrong with a field, a group of fields or the form, beside it."""
        if field not in self.faults:
            return Markup()
        return element("p", self.faults[field], class_="fault", id=self._id(f"{field}-fault"))

    def group(self, field: str, legend: str, *content: str) -> Markup:
        """Fields that one refusal is about."""
        described = {**self._described(field), "tabindex": "-1"} if field in self.faults else {}
        return element(
            "fieldset", element("legend", legend), *content, self.fault(field), **described
        )

    def field(
        self, name: str, label: str, mode: str = "numeric", value: str = "", beside: bool = True
    ) -> Markup:
        """A field with its label, and what is wrong with it unless that stands elsewhere."""
        given = element(
            "input",
            id=self._id(name),
            name=name,
            inputmode=mode,
            autocomplete="off",
            maxlength=200,
            value=self.values.get(name, value),
            **self._described(name),
        )
        return self._labelled(name, label, given, beside)

    def choice(
        self, name: str, label: str, options: Mapping[str, str], beside: bool = True
    ) -> Markup:
        """A field whose value is one of the options, each with what is shown for it."""
        chosen = self.values.get(name, "")
        drawn = []
        for value, words in options.items():
            selected = {"selected": "selected"} if value == chosen else {}
            drawn.append(element("option", words, value=value, **selected))
        given = element("select", *drawn, id=self._id(name), name=name, **self._described(name))
        return self._labelled(name, label, given, beside)

    def _labelled(self, name: str, label: str, given: Markup, beside: bool) -> Markup:
        fault = self.fault(name) if beside else Markup()
        return element("div", element("label", label, for_=self._id(name)), given, fault)

    def _described(self, name: str) -> dict[str, str]:
        if name not in self.faults:
            return {}
        described = {"aria_invalid": "true", "aria_describedby": self._id(f"{name}-fault")}
        first = next((field for field in self.faults if field), None)
        return {**described, "autofocus": "autofocus"} if name == first else described

    def _id(self, name: str) -> str:
        return f"{self.name}-{name or 'form'}"


def button(words: str, second: bool = False, small: bool = False, **attributes: str) -> Markup:
    """A button that sends its form."""
    looks = " ".join(["second"] * second + ["small"] * small)
    return element(
        "button", words, type="submit", **({"class_": looks} if looks else {}), **attributes
    )


def buttons(*drawn: str) -> Markup:
    """Buttons beside each other."""
    return element("div", *drawn, class_="buttons")


def row(*fields: str) -> Markup:
    """Fields beside each other, where there is room."""
    return element("div", *fields, class_="row")


def note(*words: str) -> Markup:
    """A remark."""
    return element("p", *words, class_="note")
