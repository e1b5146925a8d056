"""What the hall says: phases, calls and refusals in words, and the field that each is about."""

from __future__ import annotations

from ..calls import (
    Call,
    Cancellation,
    Closing,
    Lodging,
    Malformed,
    Offer,
    Opening,
    Registration,
    SetUp,
    Settling,
    Step,
)
from ..live import Phase
from ..markup import price, quantity
from ..refusals import Refusal
from ..replies import Closed, Reply, Settled

#: Each phase, in a word or two and in a sentence.
PHASES: dict[Phase, tuple[str, str]] = {
    Phase.FRESH: ("Before set-up", "The auctioneer has not set the auction up yet."),
    Phase.READY: ("Registration", "Plants are registered; no round has been opened yet."),
    Phase.ROUND: ("Round open", "A round is open: offers are taken."),
    Phase.BETWEEN: ("Between rounds", "The round is closed; the auction goes on."),
    Phase.CLOSED: ("Closed", "The auction is closed."),
}

PRICE = "US$ per MWh"
QUANTITY = "kWh per day"

# What a refusal of a call is about: a field of its form, or "" for the whole form, and words.
_OFFERED: dict[int, tuple[str, str]] = {
    6: (
        "price",
        "Prices fall from step to step; they are below the opening price and not below the"
        " closing price.",
    ),
    7: (
        "level",
        "A level is one of those declared, or 0, and below the one before; the first is below"
        " the quantity held now.",
    ),
}
_WORDS: dict[int, dict[int, tuple[str, str]]] = {
    0x01: {
        1: (
            "settings",
            "CE is even in thousandths, 0.002 to 500.000; M1 is above 0 and below D, D below M2,"
            " M2 at most 100,000,000,000; A is above half of CE and at most twice CE.",
        ),
        2: ("", "The auction is set up already."),
    },
    0x02: {
        2: ("", "Plants are registered between set-up and the first round."),
        3: (
            "numbers",
            "Project, developer and agent are numbers from 1 to 32, and no developer registers"
            " twice.",
        ),
        4: (
            "plant",
            "A plant has 1 to 8 levels, each above the one before, from 1 to 1,000,000,000. A"
            " project with an existing plant has no other developer.",
        ),
    },
    0x03: {
        2: ("", "A round is opened behind set-up, while none is open and the auction goes on."),
        5: ("c", "The closing price is below the opening price, and at least half of CE."),
        9: ("", "The registered plants do not cover demand at the opening price A."),
    },
    0x04: {
        2: ("", "Offers are taken while a round is open."),
        3: ("", "Only a developer that is registered with a new plant makes offers."),
        8: ("", "An offer stands already in this round; cancel it to make another."),
        **_OFFERED,
    },
    0x05: {2: ("", "No round is open.")},
    0x06: {
        2: ("", "The auction is settled once it is closed."),
        10: ("limit", "There are more admissible choices than the limit, or than 65,536."),
    },
    0x07: {
        2: ("", "Lists are lodged between set-up and the first round."),
        6: ("price", "Prices fall from step to step, from below A to half of CE."),
        7: (
            "level",
            "A level is one of those declared, or 0, and below the one before; the first is below"
            " the highest.",
        ),
        15: ("developer", "Only a developer that is registered with an existing plant lodges."),
    },
    0x09: {
        2: ("", "Offers are taken back while the round is open."),
        3: ("", "Only a developer that is registered with a new plant makes offers."),
        16: ("", "No offer of this developer stands in this round."),
    },
}
_WORDS[0x08] = _WORDS[0x02]


def refused(reply: Reply) -> tuple[str, str]:
    """The field that a refusal is about, or "", and the refusal in words."""
    if reply.number == 20:
        return "", "This seat has no right to that call."
    meaning = Refusal(reply.number).meaning
    return _WORDS.get(reply.kind, {}).get(
        reply.number, ("", f"{meaning[:1].upper()}{meaning[1:]}.")
    )


def step_in_words(step: Step) -> str:
    """A step of an offer or a lodged list."""
    return f"at {price(step.price)} down to {quantity(step.level)}"


def call_in_words(call: Call) -> str:
    """What a call asks."""
    if isinstance(call, SetUp):
        return "Set-up"
    if isinstance(call, Registration):
        return f"Registration of developer {call.developer}"
    if isinstance(call, Opening):
        return f"Opening of a round down to {price(call.c)}"
    if isinstance(call, Closing):
        return "Closing of the round"
    if isinstance(call, Settling):
        return f"Settling, at most {quantity(call.limit)} choices"
    if isinstance(call, (Offer, Lodging)):
        return f"{_listed(call)}: {'; '.join(map(step_in_words, call.steps)) or 'no step'}"
    if isinstance(call, Cancellation):
        return "Cancellation of the offer"
    assert isinstance(call, Malformed)
    return "Malformed line"


def _listed(call: Offer | Lodging) -> str:
    return "Offer" if isinstance(call, Offer) else f"Lodged list of developer {call.developer}"


def answer_in_words(reply: Reply) -> str:
    """What a call was answered."""
    if reply.number:
        return f"Refused ({reply.number}). {refused(reply)[1]}"
    if isinstance(reply, Closed):
        return f"Accepted: the excess is {quantity(reply.excess)} {QUANTITY}."
    if isinstance(reply, Settled):
        return f"Accepted: the closing price is {price(reply.price)} {PRICE}."
    return "Accepted."
