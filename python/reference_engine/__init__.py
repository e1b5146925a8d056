"""The reference clearing of a firm-energy clock auction: figures of the proved library."""

from .calls import Step
from .compare import Difference, differences
from .library import VERSION as __version__
from .library import (
    Engine,
    Forced,
    NotBuilt,
    SealedAwards,
    SealedOffer,
    demand,
    demand_remainder,
    engine,
    sealed_auction,
)
from .live import CurvePoint, Phase, Preview, Settlement, State
from .record import Line, Record, replay, who_can_force
from .refusals import MEANINGS, Refusal, Refused
from .replies import Award, Closed, Reply, Settled
from .session import AUCTIONEER, AUDITOR, Reading, Seat, SeatCalls, Session, SessionLine

__all__ = [
    "AUCTIONEER",
    "AUDITOR",
    "MEANINGS",
    "Award",
    "Closed",
    "CurvePoint",
    "Difference",
    "Engine",
    "Forced",
    "Line",
    "NotBuilt",
    "Phase",
    "Preview",
    "Reading",
    "Record",
    "Refusal",
    "Refused",
    "Reply",
    "SealedAwards",
    "SealedOffer",
    "Seat",
    "SeatCalls",
    "Session",
    "SessionLine",
    "Settled",
    "Settlement",
    "State",
    "Step",
    "__version__",
    "demand",
    "demand_remainder",
    "differences",
    "engine",
    "replay",
    "sealed_auction",
    "who_can_force",
]
