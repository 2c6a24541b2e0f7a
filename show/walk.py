"""The dearest walk at the prices of a certificate: what is counted where a report lists no flow.

The multipliers of a report are prices: of a loop's claim what one more start costs, of a restriction what one more on its right side
would. At these prices the potentials say what is left from each address on, and a move is *tight* where its row holds with equality. What
goes by tight moves alone, and turns each loop as often as its price wants, takes the potential of the entry, charges among it: no
other way is dearer. So it is found from the entry on, a function behind its callers and an address behind those before it. It keeps what is
claimed of loops, and may break restrictions: these are only paid for.

Where a certificate isn't tight, or its code isn't made of loops in each other, no walk is found.
"""
from collections import defaultdict
from collections.abc import Iterator

from nest import Nest, Order, following
from simulator.flows import Move, System, coefficients, limits, multipliers
from simulator.reports import Report

Parts = dict[tuple[int, int], int]
END = 0  # the goal of what leaves the function; a loop of depth d has the goal d


class NoWalk(Exception):
    """No walk is found."""


def walked(system: System, report: Report) -> Parts | None:
    """How often each move is made, or None."""
    try:
        return Walk(system, report).found()
    except NoWalk:
        return None


class Walk:
    def __init__(self, system: System, report: Report) -> None:
        self.system, self.report = system, report
        self.potential = dict(report.potentials)
        self.charge: dict[int, int] = defaultdict(int)
        for limit, by in zip(limits(report), multipliers(report)):
            for at, number in coefficients(limit).items():
                self.charge[at] += by * number
        nevers = {it[2] for it in report.nevers}
        self.tight = {at: [it for it in moves if at not in nevers and self.is_tight(it)] for at, moves in system.reached.items()}
        self.parts: Parts = defaultdict(int)

    def is_tight(self, move: Move) -> bool:
        left = sum(self.potential[it] for it in (move.to, move.behind) if it is not None)
        return self.system.cost(move) * self.report.scale == self.potential[move.at] - left + self.charge[move.at]

    def found(self) -> Parts:
        firsts = self.functions()
        moves = {at: [(it, 0) for it in found] for at, found in self.system.reached.items()}
        order = Order(firsts, moves)
        self.nest = Nest(order, [(it[4], it[5]) for it in self.report.loops])
        self.depths()
        entered = {first: 0 for first in firsts}
        entered[self.system.entry] = 1
        for first in firsts:
            if entered[first]:
                for callee, calls in self.function(first, entered[first]).items():
                    entered[callee] += calls
        self.verify()
        return dict(self.parts)

    # Functions and their loops

    def functions(self) -> list[int]:
        """The first addresses of functions, each behind those of its callers."""
        callees: dict[int, list[int]] = {}
        left = [self.system.entry]
        self.members: dict[int, list[int]] = {}
        while left:
            first = left.pop()
            if first in callees:
                continue
            self.members[first] = self.addresses(first)
            callees[first] = [move.to for at in self.members[first] for move in self.system.reached[at] if move.behind is not None]
            left += callees[first]
        return sorted_behind(callees)

    def addresses(self, first: int) -> list[int]:
        """The addresses of a function, each behind those from which it is reached, but for ways back."""
        seen, done, stack = {first}, [], [(first, self.leaves(first))]
        while stack:
            at, leaves = stack[-1]
            to = next((it for it in leaves if it not in seen), None)
            if to is None:
                done.append(at)
                stack.pop()
            else:
                seen.add(to)
                stack.append((to, self.leaves(to)))
        return done[::-1]

    def leaves(self, at: int) -> Iterator[int]:
        return iter([to for move in self.system.reached[at] if (to := following(move)) is not None])

    def depths(self) -> None:
        """Of each loop how many are around it and itself, and those around it, from the outermost on."""
        self.chain: list[list[int]] = [[] for _ in self.report.loops]
        for index in reversed(self.nest.inner_first):
            around = self.nest.around[index]
            self.chain[index] = [*(self.chain[around] if around is not None else []), index]

    def loops_at(self, at: int) -> list[int]:
        index = self.nest.innermost.get(at)
        return self.chain[index] if index is not None else []

    # One function

    def function(self, first: int, calls: int) -> dict[int, int]:
        """Makes the moves of a function that is called so often, and answers what it calls how often."""
        members = self.members[first]
        place = {at: number for number, at in enumerate(members)}
        ways = self.ways(members, place)
        units: dict[int, dict[int, int]] = defaultdict(lambda: defaultdict(int))
        units[first][END] += calls
        called: dict[int, int] = defaultdict(int)
        for at in members:
            for goal, count in self.turned(at, units.pop(at, {})).items():
                move = ways[at].get(goal)
                if move is None:
                    raise NoWalk
                self.parts[at, move.number] += count
                if move.behind is not None:
                    called[move.to] += count
                to = following(move)
                if to is not None and not self.is_back(at, to, goal):
                    units[to][goal] += count
        return called

    def is_back(self, at: int, to: int, goal: int) -> bool:
        """Whether a move is the jump back of the loop that is the goal: what turns there has arrived."""
        chain = self.loops_at(at)
        return goal != END and goal <= len(chain) and self.report.loops[chain[goal - 1]][4:] == (to, at)

    def turned(self, at: int, units: dict[int, int]) -> dict[int, int]:
        """What arrives at an address by its goals; at the head of a loop the turns come besides."""
        chain = self.loops_at(at)
        if not chain or self.report.loops[chain[-1]][4] != at or not units:
            return {goal: count for goal, count in units.items() if count}
        entries = sum(units.values())
        turns = entries * self.turns(chain[-1]) - entries
        return {goal: count for goal, count in {**units, len(chain): turns}.items() if count}

    def turns(self, index: int) -> int:
        """How often a loop is started in each entry."""
        _, _, least, most, header, back = self.report.loops[index]
        lower, upper = self.report.loop_by[index]
        if lower and upper and least != most or header == back:
            raise NoWalk
        return max(most if upper else least, 1)

    def ways(self, members: list[int], place: dict[int, int]) -> dict[int, dict[int, Move]]:
        """Of each address a tight move towards each goal that can be had from it."""
        ways: dict[int, dict[int, Move]] = {}
        for at in reversed(members):
            ways[at] = {}
            depth = len(self.loops_at(at))
            for move in self.tight[at]:
                to = following(move)
                if to is None:
                    ways[at].setdefault(END, move)
                    continue
                if place[to] <= place[at]:
                    self.back_way(ways[at], at, to, move)
                    continue
                shared = common(self.loops_at(at), self.loops_at(to))
                for goal in ways[to]:
                    if goal <= min(depth, shared):
                        ways[at].setdefault(goal, move)
        return ways

    def back_way(self, ways: dict[int, Move], at: int, to: int, move: Move) -> None:
        """A move back leads to the goal that is the loop whose jump back it is."""
        for goal, index in enumerate(self.loops_at(at), 1):
            if self.report.loops[index][4:] == (to, at):
                ways.setdefault(goal, move)

    # What is found

    def verify(self) -> None:
        """Looks whether the walk is one that the prices are those of: else it isn't shown."""
        counts: dict[int, int] = defaultdict(int)
        arrived: dict[int, int] = defaultdict(int)
        arrived[self.system.entry] = 1
        worth = 0
        for move in self.system.moves:
            part = self.parts.get((move.at, move.number), 0)
            counts[move.at] += part
            worth += part * (self.system.cost(move) * self.report.scale - self.charge[move.at])
            for to in (move.to, move.behind):
                if to is not None:
                    arrived[to] += part
        is_flow = all(counts[at] == arrived[at] for at in self.system.reached)
        facts = self.report.claim_count() - len(self.report.facts)
        keeps = all(sum(number * counts[at] for at, number in it.terms) <= 0 for it in limits(self.report) if it.claim < facts)
        if not is_flow or not keeps or worth != self.potential[self.system.entry]:
            raise NoWalk


def common(one: list[int], other: list[int]) -> int:
    """How many loops two places are both in."""
    return next((number for number, (a, b) in enumerate(zip(one, other)) if a != b), min(len(one), len(other)))


def sorted_behind(callees: dict[int, list[int]]) -> list[int]:
    """The functions, each behind its callers; no order is one where a function calls itself."""
    callers: dict[int, int] = defaultdict(int)
    for found in callees.values():
        for it in found:
            callers[it] += 1
    ready, done = [it for it in callees if not callers[it]], []
    while ready:
        first = ready.pop()
        done.append(first)
        for it in callees[first]:
            callers[it] -= 1
            if not callers[it]:
                ready.append(it)
    if len(done) != len(callees):
        raise NoWalk
    return done
