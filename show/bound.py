"""A report that was accepted and its image: counts and cycles by address, function, loop and claim."""
from collections import defaultdict
from collections.abc import Iterator
from dataclasses import dataclass
from fractions import Fraction

from functions import Code, Functions, ranges_of
from nest import Nest, Order
from simulator import reports
from simulator.costs import Costs
from simulator.decoder import decode, text_of
from simulator.flows import System
from simulator.images import X, read_image, region_of
from source import Part, Source
from tally import LISTED, NOTHING, WALK, Counts
from walk import walked

REGION_NAMES = {"flash": "flash", "spm": "scratchpad", "ram": "RAM"}


@dataclass(eq=False)
class Loop:
    """A loop line, with what the counts make of it. `own` are the cycles of its code without loops and functions within."""
    claim: int
    number: int
    factor: int
    least: int
    most: int
    header: int
    back: int
    by: tuple[int, int]
    code: Code | None = None
    around: "Loop | None" = None
    starts: int = 0
    entries: int = 0
    own: int = 0
    inclusive: Fraction = Fraction(0)
    part: Part | None = None  # of the source

    def title(self) -> str:
        return f"loop {self.number}" + (f" ({self.part.name})" if self.part else "")


@dataclass
class Fact:
    claim: int
    text: str
    left: int
    sign: str
    right: int
    by: int
    place: object = None


@dataclass
class Row:
    """An instruction, or a word that is none or isn't reached. `visit` has the cycles of a visit for each move."""
    at: int
    word: int
    name: str
    operands: str
    count: int
    visit: tuple[int, ...]
    total: int
    region: str


class Bound:
    def __init__(self, image: bytes, report: reports.Report, costs: Costs, source: Source | None = None) -> None:
        self.entry, self.segments = read_image(image)
        self.report, self.costs, self.source = report, costs, source
        self.system = System(self.entry, self.segments, report, costs)
        self.kind = report.kind[0]
        self.counts = self.counted()
        self.functions = Functions(ranges_of(report, self.system, self.segments), self.counts, self.entry)
        self.codes = self.functions.codes
        self.read_loops()
        self.name_places()
        self.facts = list(self.read_facts())

    def counted(self) -> Counts:
        """By the listed flow, where there is one; else by a walk at the prices of the report, where one is found."""
        if self.kind == reports.GREATEST:
            return Counts(self.system, {(at, number): part for at, number, part in self.report.flow}, self.report.unit, LISTED)
        parts = walked(self.system, self.report) if self.kind != reports.EMPTY else None
        return Counts(self.system, parts or {}, 1, WALK if parts else NOTHING)

    def share(self, cycles: int | Fraction) -> float:
        """A part of all cycles, from 0 to 1."""
        return float(cycles / self.counts.total) if self.counts.total else 0.0

    def code_of(self, at: int) -> Code | None:
        return self.functions.at(at)

    # Loops

    def read_loops(self) -> None:
        """The loop lines in their order, each with what stands in it."""
        first = len(self.report.exits) + len(self.report.nevers) + len(self.report.regions)
        self.loops = [self.loop(claim, line, by) for claim, (line, by) in
                      enumerate(zip(self.report.loops, self.report.loop_by), first)]
        firsts = [self.entry, *(it.first for it in self.codes), *sorted(self.counts.moves)]
        nest = Nest(Order(firsts, self.counts.moves), [(it.header, it.back) for it in self.loops])
        self.innermost = {at: self.loops[index] for at, index in nest.innermost.items()}
        for at, loop in self.innermost.items():
            loop.own += self.counts.cycles.get(at, 0)
            loop.inclusive += self.called_at(at)
        for index in nest.inner_first:
            loop, around = self.loops[index], nest.around[index]
            loop.inclusive += loop.own
            if around is not None:
                loop.around = self.loops[around]
                loop.around.inclusive += loop.inclusive

    def own_of(self, code: Code) -> int:
        """The cycles of a function's code without those of its loops."""
        if not hasattr(self, "in_loops"):
            self.in_loops: dict[int, int] = defaultdict(int)
            for it in self.loops:
                self.in_loops[it.code.first if it.code else -1] += it.own
        return code.cycles - self.in_loops[code.first]

    def loop(self, claim: int, line: tuple[int, ...], by: tuple[int, int]) -> Loop:
        it = Loop(claim, *line, by)
        it.code = self.code_of(it.header)
        it.starts = self.counts.at.get(it.header, 0)
        it.entries = it.starts - self.counts.at.get(it.back, 0)
        if self.source and 0 < it.number <= len(self.source.loops):
            it.part = self.source.loops[it.number - 1]
        return it

    def called_at(self, at: int) -> Fraction | int:
        """What the functions take that are called at an address."""
        return sum(self.functions.part_of(move.to, part) for move, part in self.counts.moves.get(at, ()) if move.behind is not None)

    # Names

    def name_places(self) -> None:
        """Functions and markers with their addresses, in the order of the report."""
        known = [name for name, places in self.report.copies]
        coded = {it.name for it in self.codes}
        last = max((at for at, name in enumerate(known) if name in coded), default=-1)
        is_function = (self.source.functions if self.source else set(known[:last + 1])).__contains__
        self.markers = [it for it in self.report.copies if not is_function(it[0])]
        self.inlined = [(name, [at for at in places if at not in self.functions.by_first]) for name, places in self.report.copies if is_function(name)]
        self.loop_at = {it.header: it for it in self.loops}
        self.labels: dict[int, list[str]] = defaultdict(list)
        for name, places in self.inlined:
            for at in places:
                self.labels[at].append(f"{name}, in the code around it")
        for name, places in self.markers:
            for at in places:
                self.labels[at].append(f"marker {name}")
        for it in self.loops:
            self.labels[it.header].append(it.title())

    # Restrictions

    def read_facts(self) -> Iterator[Fact]:
        first = self.report.claim_count() - len(self.report.facts)
        relations = self.source.restrictions if self.source else []
        matched = relations if len(relations) == len(self.report.facts) else [None] * len(self.report.facts)
        named = {places[0]: (name, places) for name, places in reversed(self.report.copies) if places}
        for claim, ((left, sign, right), by, relation) in enumerate(zip(self.report.facts, self.report.fact_by, matched), first):
            values = [sum(number * self.counts.at.get(at, 0) for number, at in side) for side in (left, right)]
            yield Fact(claim, f"{sum_text(left, named)} {sign} {sum_text(right, named)}", values[0], sign, values[1], by,
                       relation and relation[0])

    # The listing

    def rows(self, code: Code) -> Iterator[Row]:
        segment = next(it for it in self.segments if it.rights & X and it.holds(code.first, 4))
        for at in range(code.first, min(code.end, segment.end - 3), 4):
            place = at - segment.start
            word = int.from_bytes(segment.memory[place:place + 4], "little")
            parts = decode(word)
            name, operands = text_of(parts, at) if parts else (".word", f"0x{word:08x}")
            yield Row(at, word, name, operands + self.callee_text(at), self.counts.at.get(at, 0), self.counts.costs.get(at, ()),
                      self.counts.cycles.get(at, 0), REGION_NAMES[region_of(at, 4)])

    def callee_text(self, at: int) -> str:
        """The name of what is called at an address."""
        called = next((move.to for move, _ in self.counts.moves.get(at, ()) if move.behind is not None), None)
        return f" <{self.functions.by_first[called].name}>" if called in self.functions.by_first else ""


def sum_text(terms: list[tuple[int, int]], named: dict[int, tuple[str, list[int]]]) -> str:
    """A sum over names, where all addresses of a name have one number, and else over addresses."""
    left, words = {at: number for number, at in terms}, []
    for number, at in terms:
        name, places = named.get(at, ("", []))
        if at in left and 0 < len(places) <= len(left) and all(left.get(it) == number for it in places):
            words.append(f"{number}*{name}")
            for it in places:
                del left[it]
    return " + ".join(words + [f"{number}*{at:08x}" for at, number in left.items()]) or "0"
