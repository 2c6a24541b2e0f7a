"""How often each address comes, and what it takes: whole numbers, in parts of one run."""
from collections import defaultdict
from collections.abc import Iterable
from fractions import Fraction

from simulator.flows import Move, System

LISTED, WALK, NOTHING = "listed", "walk", "nothing"  # where counts come from


class Counts:
    """The moves of all that is reached, with parts for each: of the flow that a report lists, of a walk, or none at all."""

    def __init__(self, system: System, parts: dict[tuple[int, int], int], unit: int, origin: str) -> None:
        self.unit, self.origin = unit, origin
        self.moves: dict[int, list[tuple[Move, int]]] = defaultdict(list)
        self.at: dict[int, int] = {}
        self.cycles: dict[int, int] = {}
        self.costs: dict[int, tuple[int, ...]] = {}
        for at, moves in system.reached.items():
            costs = tuple(system.cost(move) for move in moves)
            counts = [parts.get((at, move.number), 0) for move in moves]
            self.moves[at] = list(zip(moves, counts))
            self.costs[at] = costs
            self.at[at] = sum(counts)
            self.cycles[at] = sum(cost * count for cost, count in zip(costs, counts))
        self.total = sum(self.cycles.values())

    def is_known(self) -> bool:
        return self.origin != NOTHING

    def of(self, places: Iterable[int]) -> int:
        return sum(self.at.get(at, 0) for at in places)

    def real(self, parts: int) -> int | Fraction:
        """So many parts as a number of visits or of cycles of one run."""
        return parts if self.unit == 1 else Fraction(parts, self.unit)
