"""Runs an image and looks whether the run keeps the claims of a report, as docs/CHECKING.md says."""
from collections import Counter
from collections.abc import Iterator
from dataclasses import dataclass

from bound import Bound, Fact, Loop
from simulator.flows import LETTERS, Move, limits, moves_of
from simulator.images import Segment, region_of
from simulator.machine import DONE, LIMIT, Ending, Machine


@dataclass
class Break:
    """The claim that a run breaks first: the cycles up to there, the address, and what is wrong. The loop, where it is one's."""
    cycles: int
    at: int
    what: str
    loop: Loop | None = None
    fact: Fact | None = None


class Following(Machine):
    """A run that counts visits, and notes what breaks a claim on its way. Counts are judged at its end."""

    def __init__(self, bound: Bound, data: bytes, limit: int = LIMIT) -> None:
        super().__init__(bound.entry, bound.segments, data, limit, bound.costs)
        self.bound, self.visits, self.breaks = bound, Counter(), []
        self.exits, self.nevers = set(bound.report.exits), {it[2] for it in bound.report.nevers}
        self.headers = {it.header: it for it in bound.loops}
        # Of each loop the starts in the entry that it is in, and the first entry that was too long or too short.
        self.starts, self.passed, self.short = Counter(), {}, {}
        self.before, self.returns, self.moves = None, [], {}

    def note(self, what: str, **of: Fact) -> None:
        self.breaks.append(Break(self.cycles, self.pc, what, **of))

    def move_of(self, at: int) -> Move | None:
        """The first move of an address, or None where it has none."""
        if at not in self.moves:
            self.moves[at] = next(iter(moves_of(self.bound.system.code, self.exits, at)), None)
        return self.moves[at]

    def access(self, kind: str, address: int, size: int, right: int, trap: int) -> tuple[Segment, int]:
        place = super().access(kind, address, size, right, trap)
        letters = next((it for first, end, it in self.bound.report.regions if first <= self.pc < end), "fsr")
        if LETTERS[region_of(address)] not in letters:
            self.note(f"it touches {region_of(address)} at {address:08x}, and the report claims that it touches {letters} alone")
        return place

    def step(self) -> None:
        at, is_exit = self.pc, self.pc in self.exits
        self.visits[at] += 1
        if at in self.nevers:
            self.note("it is visited, and the report claims that it never is")
        if at in self.headers:
            self.start(self.headers[at])
        super().step()
        if is_exit:
            self.note("it goes on, and the report claims that it exits")
        self.before = at
        move = self.move_of(at)
        if move is None:
            return
        if move.behind is not None:
            self.returns.append(move.behind)
        elif move.to is None and (not self.returns or self.returns.pop() != self.pc):
            self.note("it returns to another place than behind the latest call")

    def start(self, loop: Loop) -> None:
        """The loop's header is visited: from its back jump again, and from elsewhere for a new entry."""
        if self.before != loop.back:
            self.leave(loop)
            self.starts[loop.header] = 0
        self.starts[loop.header] += 1
        if self.starts[loop.header] == loop.most + 1:
            self.passed.setdefault(loop.header, (self.cycles, self.entry_of(loop)))

    def entry_of(self, loop: Loop) -> int:
        return self.visits[loop.header] - self.visits[loop.back]

    def leave(self, loop: Loop) -> None:
        if 0 < self.starts[loop.header] < loop.least:
            self.short.setdefault(loop.header, (self.cycles, self.starts[loop.header]))

    def run(self) -> Ending:
        """The run's ending."""
        try:
            while True:
                self.step()
        except Ending as ending:
            if ending.status == DONE and self.pc not in self.exits:
                self.note("the run exits here, and the report doesn't claim that it may")
            if ending.status == DONE and self.returns:
                self.note("the run exits with a call that hasn't returned")
            for loop in self.bound.loops:
                self.leave(loop)
            self.judge(ending.status == DONE)
            return ending

    def judge(self, is_whole: bool) -> None:
        """Notes which claims the counts break. Of a run that has no end only what went too far is broken."""
        first = len(self.bound.report.exits) + len(self.bound.report.nevers) + len(self.bound.report.regions)
        loops = dict(enumerate(self.bound.loops, first))
        facts = {it.claim: it for it in self.bound.facts}
        told = set()
        for limit in limits(self.bound.report):
            total = sum(number * self.visits[at] for at, number in limit.terms)
            keeps = {"<=": total <= 0, ">=": total >= 0, "=": total == 0}[limit.sign]
            if keeps or limit.claim in told:
                continue
            if limit.claim in loops and (is_whole or loops[limit.claim].header in self.passed):
                told.add(limit.claim)
                self.breaks.append(self.of_loop(loops[limit.claim]))
            elif limit.claim in facts and is_whole:
                told.add(limit.claim)
                self.note(f"{facts[limit.claim].text} doesn't hold", fact=facts[limit.claim])

    def of_loop(self, loop: Loop) -> Break:
        visits, entries = self.visits[loop.header], self.entry_of(loop)
        said = f"{visits} starts in {entries} {'entry' if entries == 1 else 'entries'}, and the report claims {loop.least} to {loop.most} for each"
        if visits > loop.most * entries:
            cycles, entry = self.passed.get(loop.header, (self.cycles, entries))
            return Break(cycles, loop.header, f"{said}; entry {entry} began a start too many at cycle {cycles}", loop=loop)
        cycles, starts = self.short.get(loop.header, (self.cycles, 0))
        return Break(cycles, loop.header, f"{said}; an entry ended after {starts} at cycle {cycles}", loop=loop)


def told(bound: Bound, follow: Following, ending: Ending) -> Iterator[str]:
    """The lines on a run, and whether it keeps the claims and the bound."""
    is_done = ending.status == DONE
    over = follow.cycles > bound.report.cycles
    yield f"The run: {ending.line}, {'above' if over else 'within'} the bound of {bound.report.cycles}."
    if not is_done:
        yield "  It has no end of its own, and a bound speaks of runs that exit."
    first = min(follow.breaks, key=lambda it: it.cycles, default=None)
    if first is None:
        yield "  It keeps every claim of the report." if is_done else "  Up to there it keeps the claims."
        return
    code = bound.code_of(first.at)
    inside = f" of {code.title()}" if code else ""
    if first.loop is not None:
        place = f" at {first.loop.part.place}" if first.loop.part else ""
        yield f"  It breaks the bound of {first.loop.title()}{place}, at {first.at:08x}{inside}: {first.what}."
        yield from (f"  {it}" for it in (first.loop.part.place.shown() if first.loop.part else ()))
    elif first.fact is not None:
        place = f" at {first.fact.place}" if first.fact.place else ""
        yield f"  It breaks a restriction{place}: {first.what}."
    else:
        yield f"  It breaks the claims at {first.at:08x}{inside}, after {first.cycles} cycles: {first.what}."
    if more := len(follow.breaks) - 1:
        yield f"  {more} more {'is' if more == 1 else 'are'} broken after it."


def keeps(bound: Bound, follow: Following, ending: Ending) -> bool:
    return ending.status == DONE and not follow.breaks and follow.cycles <= bound.report.cycles
