"""What the runs of a source on some inputs show: starts of loops by their entries, calls, markers and restrictions.

Where the program's `eval` comes to a value, quick.py has the counts; else the second evaluator runs. There a run that breaks an annotation
goes on, and one that is undefined is counted up to there.
"""
import resource
import time
from collections.abc import Iterator
from dataclasses import dataclass
from typing import Any

from counts.quick import Counted, Quick
from evaluator import tree
from evaluator.answer import checked, value_line
from evaluator.facts import MOST_FACTOR, MOST_STARTS, Facts, Relation
from evaluator.kinds import Undefined
from evaluator.meaning import Broken, Program
from evaluator.rules import Checker

# A run is left behind so many starts and calls, or seconds of a processor: a loop without a bound need not end, and what stands between
# two starts may take long.
MOST_STEPS, MOST_SECONDS = 10_000_000, 8


class Endless(Exception):
    """The run doesn't end within the steps that are followed: how far it came."""

    def __init__(self, at: int, after: str) -> None:
        super().__init__(at)
        self.at, self.after = at, after


# What ends a run before its end.
Stop = Undefined | Endless


@dataclass
class Range:
    """The fewest and the most of some numbers. No number may be the fewest yet, where what is counted never came to its end."""
    fewest: int | None = None
    most: int = 0

    def add(self, number: int) -> None:
        self.fewest = number if self.fewest is None else min(self.fewest, number)
        self.most = max(self.most, number)

    def __str__(self) -> str:
        if self.fewest is None:
            return f"up to {self.most}"
        return f"{self.most}" if self.fewest == self.most else f"{self.fewest} to {self.most}"


@dataclass
class Entries(Range):
    """The starts of a loop's body, by its entries. No bound can be said of it where a run was left in it."""
    count: int = 0
    is_open: bool = False
    is_endless: bool = False


class Counting(Program):
    """A run that counts the starts of loops, notes the first annotation that it breaks, and goes on."""

    def __init__(self, checker: Checker, facts: Facts, data: bytes, loops: dict[tree.Loop, Entries], seconds: float = MOST_SECONDS) -> None:
        self.loops, self.gone, self.broken, self.ends_at = loops, 0, None, time.process_time() + seconds
        # The values of both sides of the restrictions.
        self.sides = []
        super().__init__(checker, facts, data)

    def step_at(self, at: int) -> None:
        self.gone += 1
        if self.gone > MOST_STEPS:
            raise Endless(at, f"{MOST_STEPS} starts and calls")
        if self.gone % 16 == 0 and time.process_time() > self.ends_at:
            raise Endless(at, f"{MOST_SECONDS} seconds")

    def breaks(self, *event: Any) -> None:
        if self.broken is None:
            self.broken = Broken(*event), list(self.calls)

    def enters(self, call: tree.Call) -> None:
        self.step_at(call.at)
        super().enters(call)

    def starts_body(self, loop: tree.Loop, starts: int) -> None:
        self.step_at(loop.at)
        seen = self.loops[loop]
        seen.count += not starts
        seen.is_open = True
        seen.most = max(seen.most, starts + 1)
        if loop.limits and starts == loop.limits[1]:
            self.breaks(loop.at, loop, starts)

    def leaves(self, loop: tree.Loop, starts: int) -> None:
        seen = self.loops[loop]
        seen.count += not starts
        seen.is_open = False
        seen.add(starts)
        if loop.limits and starts < loop.limits[0]:
            self.breaks(loop.at, loop, starts)

    def ends(self, relation: Relation) -> None:
        self.sides.append(relation.sides(self.counts))
        if not relation.holds(self.counts):
            self.breaks(relation.at)


class Whole:
    """A run that ended and kept its annotations, of which no more is known than its counts."""

    def __init__(self, counts: dict[str, int], relations: list[Relation]) -> None:
        self.counts, self.broken, self.calls = counts, None, []
        self.sides = [it.sides(counts) for it in relations]


def used() -> float:
    """The seconds of a processor that programs which were called have taken."""
    taken = resource.getrusage(resource.RUSAGE_CHILDREN)
    return taken.ru_utime + taken.ru_stime


class Seen:
    """What the runs of a source on its inputs showed: by a built wcc, if one is given, where it can tell."""

    def __init__(self, source: bytes, derive: bool = False, program: str | None = None) -> None:
        self.checker, self.facts = checked(source, need_bounds=False, derive=derive)
        self.quick = Quick(program, source) if program else None
        nodes = list(tree.nodes_of(self.checker.unit))
        self.loops = {it: Entries() for it in nodes if isinstance(it, tree.Loop)}
        # The counts of the runs that ended.
        self.runs = []
        self.functions = {it.name: (it.node.name_at, Range()) for it in self.facts.functions}
        marked = [it for it in nodes if isinstance(it, tree.Marker)]
        self.markers = {name: (it.at, Range()) for name, it in zip(self.facts.markers, marked)}
        # For each restriction its values on both sides, by the input.
        self.sides = [[] for _ in self.facts.relations]

    def run(self, name: str, data: bytes) -> tuple[Counting | Whole, str | Stop]:
        """Runs on an input. Answers the run, its line where it ended, and else what ended it."""
        for loop in self.loops.values():
            loop.is_open = False
        begun = used()
        counted = self.quick.run(data) if self.quick else None
        run, ended = self.whole(counted) if counted else self.followed(data, MOST_SECONDS - (used() - begun))
        if isinstance(ended, str):
            self.runs.append(dict(run.counts))
        for count in run.counts:
            (self.functions.get(count) or self.markers[count])[1].add(run.counts[count])
        for sides, both in zip(self.sides, run.sides):
            sides.append((*both, name))
        return run, ended

    def whole(self, counted: Counted) -> tuple[Whole, str]:
        """By `eval`."""
        for seen, (entries, fewest, most) in zip(self.loops.values(), counted.loops):
            if entries:
                seen.count += entries
                seen.add(fewest)
                seen.add(most)
        return Whole(dict(zip([*self.functions, *self.markers], counted.calls)), self.facts.relations), counted.line

    def followed(self, data: bytes, seconds: float) -> tuple[Counting, str | Stop]:
        """By the second evaluator."""
        run = Counting(self.checker, self.facts, data, self.loops, seconds)
        try:
            ended = value_line(*run.run())
        except (Undefined, Endless) as event:
            ended = event
        for loop in self.loops.values():
            loop.is_endless |= loop.is_open and isinstance(ended, Endless)
        return run, ended

    def bounds(self) -> Iterator[tuple[tree.Loop, int, int]]:
        """Each loop that was entered, with the bound that says what was seen of it; but for those that their form bounds."""
        for loop, seen in self.loops.items():
            if seen.count and not seen.is_endless and seen.most <= MOST_STARTS and not is_by_form(loop):
                yield loop, seen.fewest or 0, seen.most

    def missing(self) -> list[tuple[tree.Loop, int, int]]:
        """The bounds of loops that have none."""
        return [(loop, least, most) for loop, least, most in self.bounds() if loop.limits is None]

    def names(self) -> Iterator[tuple[int, str]]:
        """The place and the name of functions and markers, but for `main`, which comes once."""
        for name, (at, seen) in [*self.functions.items(), *self.markers.items()]:
            if name != "main" and seen.most <= MOST_FACTOR:
                yield at, name


def is_by_form(loop: tree.Loop) -> bool:
    """Whether a loop has no pragma and its form bounds it."""
    return loop.limits is not None and loop.bound_at is None
