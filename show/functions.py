"""The functions of an image: their ranges of code, who calls whom, and what each takes with all that it calls."""
from bisect import bisect_right
from collections import defaultdict
from collections.abc import Iterator
from dataclasses import dataclass, field
from fractions import Fraction

from simulator.flows import System
from simulator.images import X, Segment
from simulator.reports import Report
from tally import Counts

START = "-"  # the name of code that belongs to no function
FINEST = 1 << 64  # of shares of shares no finer parts are kept


class OddReport(Exception):
    """A report that `check` accepts, and that can't be shown, with the line that is odd."""


@dataclass
class Code:
    """Code from an address up to another, left out: its cycles and its calls, in parts of a run, and with all that it calls."""
    name: str
    first: int
    end: int
    cycles: int = 0
    calls: int = 0
    inclusive: Fraction = Fraction(0)
    callees: dict[int, int] = field(default_factory=lambda: defaultdict(int))  # from the first address of a function to calls
    is_other: bool = False

    def title(self) -> str:
        return self.name if self.name != START else "other code" if self.is_other else "start code"


def ranges_of(report: Report, system: System, segments: list[Segment]) -> list[Code]:
    """The functions with their ranges: by the share lines, or by what is called where there are none; and what lies in none."""
    codes = shared(report, segments) if report.shares else called(report, system)
    firsts = [it.first for it in codes]
    outside = [at for at in sorted(system.reached) if not is_in(codes, firsts, at)]
    runs: list[Code] = []
    for at in outside:
        if runs and runs[-1].end == at:
            runs[-1].end = at + 4
        else:
            runs.append(Code(START, at, at + 4, is_other=True))
    return sorted(codes + runs, key=lambda it: it.first)


def is_in(codes: list[Code], firsts: list[int], at: int) -> bool:
    index = bisect_right(firsts, at) - 1
    return index >= 0 and codes[index].first <= at < codes[index].end


def shared(report: Report, segments: list[Segment]) -> list[Code]:
    """The ranges of the share lines, which lie in code."""
    code = [it for it in segments if it.rights & X]
    for name, first, end, _ in report.shares:
        if first % 4 or end % 4 or not any(it.holds(first, end - first) for it in code):
            raise OddReport(f"its line `share {name or START} {first:08x} {end:08x} ..` speaks of addresses where the image has no code")
    return [Code(name or START, first, end) for name, first, end, _ in report.shares]


def called(report: Report, system: System) -> list[Code]:
    """What is called, from each first address to the next one."""
    named = {places[0]: name for name, places in reversed(report.copies) if places}
    firsts = sorted({move.to for move in system.moves if move.behind is not None} | {system.entry})
    ends = [*firsts[1:], max(system.reached) + 4]
    return [Code(named.get(first, START if first == system.entry else f"f_{first:08x}"), first, end) for first, end in zip(firsts, ends)]


class Functions:
    """All functions of an image, with what the counts make of them."""

    def __init__(self, codes: list[Code], counts: Counts, entry: int) -> None:
        self.codes, self.counts = codes, counts
        self.firsts = [it.first for it in codes]
        self.by_first = {it.first: it for it in codes}
        for at, cycles in counts.cycles.items():
            self.at(at).cycles += cycles
        # What enters the start code from outside is the unit.
        self.at(entry).calls = counts.unit if counts.is_known() else 0
        self.count_calls()
        self.add_callees()

    def at(self, address: int) -> Code | None:
        index = bisect_right(self.firsts, address) - 1
        code = self.codes[index] if index >= 0 else None
        return code if code is not None and address < code.end else None

    def count_calls(self) -> None:
        for at, moves in self.counts.moves.items():
            for move, part in moves:
                if move.behind is not None and move.to in self.by_first:
                    self.at(at).callees[move.to] += part
                    self.by_first[move.to].calls += part

    def callees_first(self) -> Iterator[Code]:
        """Each function behind those that it calls, but for one that calls itself by a way."""
        seen: set[int] = set()
        for top in self.codes:
            stack = [] if top.first in seen else [(top, iter(top.callees))]
            seen.add(top.first)
            while stack:
                code, left = stack[-1]
                inner = next((it for it in left if it not in seen), None)
                if inner is None:
                    stack.pop()
                    yield code
                else:
                    seen.add(inner)
                    stack.append((self.by_first[inner], iter(self.by_first[inner].callees)))

    def add_callees(self) -> None:
        for code in self.callees_first():
            code.inclusive = kept(code.cycles + sum((self.part_of(first, calls) for first, calls in code.callees.items()), Fraction(0)))

    def part_of(self, first: int, calls: int) -> Fraction:
        """What so many of all calls of a function take, with what it calls: of the flow nothing more is known."""
        callee = self.by_first.get(first)
        return callee.inclusive * calls / callee.calls if callee and callee.calls else Fraction(0)


def kept(value: Fraction) -> Fraction:
    """A number in parts that don't get ever finer."""
    return value if value.denominator <= FINEST else Fraction(round(value * FINEST), FINEST)
