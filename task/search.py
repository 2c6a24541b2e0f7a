"""Which options give the least bound, or the least image within a budget: points that are tried side by side.

First a wide grid, then, from the best point on, all that differ from it in one option, until none of them is better.
"""
from collections.abc import Callable, Iterable, Iterator
from concurrent.futures import ThreadPoolExecutor
from dataclasses import dataclass, field
from itertools import product

INLINES = (0, 200, 20, 50, 100, 500, 1000, 3000, 10000)
UNROLLS = (1, 4, 2, 8, 3, 6, 16, 32, 64)
# What is tried of one option beside the best point.
MORE_INLINES = (5, 10, 15, 30, 40, 65, 80, 125, 150, 175, 250, 300, 400, 600, 800, 1500, 2000, 5000)
MORE_UNROLLS = (5, 7, *range(9, 16), 18, 20, 22, 24, 28, 30, 40, 48, 50, 60)
HALVINGS = 5


@dataclass(frozen=True, order=True)
class Point:
    inline: int = 0
    unroll: int = 1
    spm: int = 0


@dataclass(frozen=True)
class Tried:
    """What a point gives: the bound with its kind, and the bytes of code and constants."""
    point: Point
    cycles: int
    kind: str
    size: int
    image: str

    def rank(self, at_most: int | None) -> tuple[int, ...]:
        """The least is the best."""
        if at_most is None:
            numbers: tuple[int, ...] = (self.cycles, self.size)
        else:
            numbers = (1, self.cycles, self.size) if self.cycles > at_most else (0, self.size, self.cycles)
        return (*numbers, self.point.inline, self.point.unroll, self.point.spm)


@dataclass
class Search:
    """`attempt` tries a point, and answers None where nothing comes of it; `better` is called with each that is the best so far."""
    attempt: Callable[[Point], Tried | None]
    better: Callable[[Tried, int], None]
    room: tuple[int, ...]
    at_most: int | None
    jobs: int
    tried: dict[Point, Tried | None] = field(default_factory=dict)
    best: Tried | None = None

    def run(self) -> None:
        self.go(Point(*it) for it in product(INLINES, UNROLLS, self.room[:1]))
        around = None
        while self.best and around != self.best.point:
            around = self.best.point
            self.go(self.beside(around))

    def beside(self, it: Point) -> Iterator[Point]:
        yield from (Point(it.inline, unroll, it.spm) for unroll in (*UNROLLS, *MORE_UNROLLS))
        yield from (Point(inline, it.unroll, it.spm) for inline in (*INLINES, *MORE_INLINES))
        yield from (Point(it.inline, it.unroll, spm) for spm in self.room)

    def go(self, points: Iterable[Point]) -> None:
        """Tries those that were not tried yet, so many at once."""
        new = [it for it in dict.fromkeys(points) if it not in self.tried]
        pool = ThreadPoolExecutor(self.jobs)
        try:
            # In their order, so that the same is told whichever is done first.
            for point, found in [(it, pool.submit(self.attempt, it)) for it in new]:
                self.note(point, found.result())
        finally:
            pool.shutdown(wait=False, cancel_futures=True)

    def note(self, point: Point, found: Tried | None) -> None:
        self.tried[point] = found
        if found and (self.best is None or found.rank(self.at_most) < self.best.rank(self.at_most)):
            shown = self.best is None or found.image != self.best.image
            self.best = found
            if shown:
                self.better(found, len(self.tried))


def rooms(given: Iterable[int]) -> tuple[int, ...]:
    """The bytes of scratchpad that are tried, the most that is given first: of less another choice may be the better one."""
    found = {it >> halving for it in given for halving in range(HALVINGS + 1)} | {0}
    return tuple(sorted(found, reverse=True))
