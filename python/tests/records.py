"""What tests read: records (the sample, FORMAT's, random ones, a long one), and tables of RULES."""

from __future__ import annotations

import os
import random
from dataclasses import dataclass
from functools import cache
from pathlib import Path

from reference_engine import Record

ROOT = Path(__file__).resolve().parents[2]
LONGEST = 65_536  # bytes of the longest record that the programs read

_MALFORMED = (
    b"",
    b"0g",
    b" 05",
    b"05\r",
    b"0505",
    b"0A",
    b"FF",
    b"03000061a8",
    b"03000061A",
    b"0402FF",
    b"0402010000659000000064FF",
    b"\xff\xfe<&>\x00",
    b"0" * 200,
)


class Index:
    """A whole number of another type, as NumPy has them."""

    def __init__(self, number: int) -> None:
        self.number = number

    def __index__(self) -> int:
        return self.number


class Flag(Index):
    """A mark of another type, as NumPy's bools."""

    dtype = bool


def processor_seconds() -> float:
    """Processor time that this process and the programs that it ran took.

    A bound on it, far above what is needed and below what all lines for each line would take, says
    the same on a busy machine; one on the clock does not.
    """
    return sum(os.times()[:4])


def sample() -> Record:
    """The sample record of docs/FORMAT.md: eleven lines, all accepted."""
    return Record.read(ROOT / "crates" / "replay" / "stdin")


def first_lines(count: int) -> Record:
    """So many lines of the sample."""
    return Record(b"".join(bytes(sample()).splitlines(True)[:count]))


def rules_table(*heads: str) -> list[list[str]]:
    """The rows of the table of docs/RULES.md that has these heads behind the refusal's number."""
    page = (ROOT / "docs/RULES.md").read_text(encoding="utf-8")
    table = page.split(f"| Number | {' | '.join(heads)} |\n")[1].split("\n\n")[0]
    return [[cell.strip() for cell in row.strip("|").split("|")] for row in table.splitlines()[1:]]


def ready() -> Record:
    """The settings of FORMAT's examples of lodging and agents."""
    return Record().set_up(20_000, 1_000_000, 900_000, 1_200_000, 40_000)


def lodged(new: int) -> Record:
    """The lodged list of docs/FORMAT.md, with a new plant of that level."""
    record = ready().register(1, 1, 1, [300_000, 500_000]).register(2, 2, 1, [400_000])
    record.register(3, 3, 2, [new]).lodge(1, [(30_000, 300_000), (29_990, 0)])
    return record.open(30_000).offer(3).close().open(29_990).offer(3).close().settle()


def with_agents(new: int) -> Record:
    """The agents of docs/FORMAT.md, with a new plant of that level for agent 5."""
    record = ready().register(1, 1, 1, [150_000], agent=5).register(2, 2, 2, [new], agent=5)
    record.register(3, 3, 2, [600_000 - new]).register(4, 4, 1, [200_000], agent=4)
    return record.open(29_990).offer(2).offer(3).close().settle()


def lengthened() -> Record:
    """The sample and some hundreds of malformed lines: more bytes than the programs read."""
    return Record(bytes(sample()) + (b"0" * 99 + b"\n") * (LONGEST // 100 + 1))


def random_record(choice: random.Random) -> Record:
    """An auction with refused and malformed lines among the others, often closed and settled."""
    auction = _RandomAuction(choice)
    auction.prepare()
    if choice.random() < 0.95:
        auction.run_rounds()
    if choice.random() < 0.95:
        auction.settle()
    return auction.record


def long_record() -> Record:
    """A settled auction of 32 developers, thousands of lines and just below 64 KiB."""
    return Record(_long())


@cache
def _long() -> bytes:
    choice = random.Random(64)
    record = Record().set_up(20_000, 1_000_000, 900_000, 1_200_000, 40_000)
    for number in range(1, 33):
        kind = 1 if number <= 16 else 2
        record.register(number, number, kind, [20_000, 40_000], study=number, agent=number)
    record.open(10_000)
    while len(record) < LONGEST - 1_000:
        developer = choice.randint(15, 32)
        record.offer(developer)
        if choice.random() < 0.7:
            record.cancel(developer)
    for developer in range(17, 33):
        record.cancel(developer)
        record.offer(developer, [(30_000 + developer, 20_000)] if developer < 21 else [])
    return bytes(record.close().settle())


@dataclass
class _Plant:
    """A registered developer and the quantity that its own offers have left it."""

    developer: int
    kind: int
    levels: list[int]
    quantity: int


class _RandomAuction:
    """Writes an auction from random numbers, a call at a time."""

    def __init__(self, choice: random.Random) -> None:
        self.choice = choice
        self.record = Record()
        self.ce = 2 * choice.randint(2_500, 25_000)
        self.d = choice.randint(200_000, 2_000_000)
        self.a = choice.choice([2 * self.ce, self.ce * 3 // 2])
        self.plants: list[_Plant] = []

    def prepare(self) -> None:
        """Set-up, registrations and lodgings."""
        self.disturb()
        self.record.set_up(self.ce, self.d, self.d * 9 // 10, self.d * 12 // 10, self.a)
        self.register()
        for plant in self.plants:
            if plant.kind == 1 and self.choice.random() < 0.5:
                self.disturb()
                self.record.lodge(plant.developer, self.steps(plant, self.ce // 2, self.a))

    def register(self) -> None:
        """Existing plants for two thirds of the demand, then new ones, some in one project."""
        existing = self.choice.randint(1, 4)
        project = 0
        for developer in range(1, existing + self.choice.randint(3, 8)):
            kind = 1 if developer <= existing else 2
            if kind == 1 or project <= existing or self.choice.random() < 0.8:
                project += 1
            highest = self.d * 2 // (3 * existing) if kind == 1 else self.d // 5
            levels = self.levels(highest)
            agent = self.choice.choice([None, developer, self.choice.randint(1, 6)])
            study, day = self.choice.randint(0, 999), self.choice.randint(0, 99)
            self.disturb()
            self.record.register(project, developer, kind, levels, study, day, agent)
            self.plants.append(_Plant(developer, kind, levels, levels[-1]))

    def levels(self, highest: int) -> list[int]:
        """One to three rising levels, the last near the highest."""
        last = highest + self.choice.randint(-highest // 20, highest // 20)
        lower = {last * self.choice.randint(1, 9) // 10 for _ in range(self.choice.randint(0, 2))}
        return sorted(lower | {last})

    def run_rounds(self) -> None:
        """Rounds down to the floor, or until the auction takes no other."""
        opening = self.a
        floor = self.ce // 2
        for _ in range(6):
            c = max(floor, opening - self.choice.randint(1, self.ce // 3))
            self.disturb()
            self.record.open(c)
            if self.record.replies()[-1].number:
                return
            self.offers(opening, c)
            self.disturb()
            self.record.close()
            opening = c

    def offers(self, opening: int, c: int) -> None:
        """Offers of nearly all new plants, some cancelled and some of these made again."""
        for plant in self.plants:
            if plant.kind == 1 or self.choice.random() < 0.05:
                continue
            steps = self.steps(plant, c, opening)
            self.disturb()
            self.record.offer(plant.developer, steps)
            if self.choice.random() < 0.15:
                self.record.cancel(plant.developer)
                self.record.offer(plant.developer, steps)
            if steps:
                plant.quantity = steps[-1][1]

    def steps(self, plant: _Plant, lowest: int, below: int) -> list[tuple[int, int]]:
        """Steps by falling prices and levels, mostly none."""
        levels = [level for level in [0, *plant.levels] if level < plant.quantity]
        if not levels or self.choice.random() < 0.7:
            return []
        count = min(self.choice.randint(1, 2), len(levels), below - lowest)
        prices = sorted(self.choice.sample(range(lowest, below), count), reverse=True)
        return list(zip(prices, sorted(self.choice.sample(levels, count), reverse=True)))

    def settle(self) -> None:
        """A settling, sometimes with a limit that is too low, and sometimes lines behind it."""
        if self.choice.random() < 0.2:
            self.record.settle(0)
        self.disturb()
        self.record.settle()
        self.disturb()

    def disturb(self) -> None:
        """Now and then a malformed line, or a call that is refused almost anywhere."""
        if self.choice.random() < 0.85:
            return
        if self.choice.random() < 0.4:
            line = self.choice.choice(_MALFORMED)
            self.record = Record(bytes(self.record) + line + b"\n")
            return
        self.choice.choice(
            [
                lambda: self.record.set_up(3, 1_000, 900, 1_200, 6),
                lambda: self.record.register(33, 40, 1, [5]),
                lambda: self.record.register(32, 32, 3, [5, 5], agent=1),
                lambda: self.record.open(self.a),
                lambda: self.record.offer(1, [(self.ce, 1)]),
                lambda: self.record.offer(len(self.plants), [(1, 1)]),
                lambda: self.record.lodge(32, [(self.ce, 1)]),
                lambda: self.record.cancel(1),
                lambda: self.record.settle(0),
            ]
        )()
