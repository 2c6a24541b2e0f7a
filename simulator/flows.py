"""The flow system of an image and claims, written from docs/CHECKING.md and docs/MACHINE.md alone."""
from bisect import bisect_right
from collections import defaultdict, namedtuple

from .costs import DEFAULT
from .decoder import MASK, decode, reads
from .images import X, region_of

Move = namedtuple("Move", "at number to behind")  # a call goes to one address and arrives behind itself too
LETTERS = {"flash": "f", "spm": "s", "ram": "r"}


class CodeFault(Exception):
    """A claim is bad, or a reached address is no code."""


class Code:
    """The words of an image that can be fetched."""

    def __init__(self, segments):
        self.segments = [it for it in segments if it.rights & X]
        self.decoded = {}

    def at(self, address):
        """What the instruction at an address is, or None."""
        if address not in self.decoded:
            self.decoded[address] = self.fetch(address)
        return self.decoded[address]

    def fetch(self, address):
        segment = next((it for it in self.segments if it.holds(address, 4)), None)
        if address % 4 or segment is None:
            return None
        place = address - segment.start
        return decode(int.from_bytes(segment.memory[place:place + 4], "little"))

    def upper(self, address):
        """The number that the AUIPC before a JALR gives, where it gives it to the register that the JALR reads."""
        before, jump = self.at(address - 4), self.at(address)
        if jump is None or jump[0] != "jump" or jump[2] is None or before is None or before[0] != "upper":
            return None
        _, rd, relative, imm = before
        return address - 4 + imm if relative and rd != 0 and rd == jump[2] else None


def moves_of(code, exits, at):
    """The moves of an address; none where it isn't the code that a flow system knows."""
    parts, following = code.at(at), at + 4 & MASK
    match parts:
        case None:
            return []
        case ("branch", _, _, _, offset):
            return [Move(at, 0, following, None), Move(at, 1, at + offset & MASK, None)]
        case ("ecall",) if at in exits:
            return [Move(at, 0, None, None)]
        case ("jump", rd, rs1, offset):
            upper = code.upper(at) if rs1 is not None else at
            if upper is None:
                return [Move(at, 0, None, None)] if (rd, rs1, offset) == (0, 1, 0) else []
            target = upper + offset & MASK & (~1 if rs1 is not None else ~0)
            if rd > 1:
                return []
            return [Move(at, 0, target, following if rd else None)]
    return [Move(at, 0, following, None)]


def destinations(move):
    return [it for it in (move.to, move.behind) if it is not None]


def walk(code, exits, entry):
    """The moves of each address that is reached from the entry."""
    reached, left = {}, [entry]
    while left:
        at = left.pop()
        if at not in reached:
            reached[at] = moves_of(code, exits, at)
            left += [to for move in reached[at] for to in destinations(move)]
    return reached


def bad_by_itself(report):
    """Whether each claim is bad by itself, in the order of their numbers."""
    def each(items, addresses, fits=lambda before, it: True):
        for before, it in zip([None, *items], items):
            yield any(at % 4 for at in addresses(it)) or not fits(before, it)

    yield from each(report.exits, lambda it: [it], lambda before, it: before is None or before < it)
    yield from each(report.nevers, lambda it: [it[2]], lambda before, it: before is None or before[2] < it[2])
    yield from each(report.regions, lambda it: it[:2], lambda before, it: it[0] < it[1] and it[2] and
                    (before is None or before[1] <= it[0]))
    yield from each(report.loops, lambda it: it[4:], lambda before, it: before is None or before[4] < it[4])
    yield from each(report.facts, lambda it: [at for _, at in it[0] + it[2]])


def no_code(code, entry, reached):
    """The addresses that are reached and are no code."""
    entered = defaultdict(set)
    for at, moves in reached.items():
        for to in (to for move in moves for to in destinations(move)):
            entered[to].add(at)
    for at, moves in reached.items():
        if not moves or code.upper(at) is not None and (at == entry or entered[at] - {at - 4}):
            yield at


class System:
    """The moves of all that is reached, by address and number, and what each of them costs."""

    def __init__(self, entry, segments, report, costs=DEFAULT):
        self.entry, self.code, self.costs = entry, Code(segments), costs
        self.regions = [it for it in report.regions if it[0] < it[1]]
        self.region_firsts = [it[0] for it in self.regions]
        exits = set(report.exits)
        reached = walk(self.code, exits, entry)
        bad = [number for number, it in enumerate(bad_by_itself(report)) if it]
        bad += [number for number, at in enumerate(report.exits) if at in reached and self.code.at(at) != ("ecall",)]
        if bad:
            raise CodeFault(f"claim {min(bad)}")
        for at in sorted(no_code(self.code, entry, reached))[:1]:
            raise CodeFault(f"code {at:08x}")
        self.moves = [move for at in sorted(reached) for move in reached[at]]
        self.reached = reached

    def access(self, at):
        """The greatest cost of an access over the regions that its line names, over all where it has none."""
        index = bisect_right(self.region_firsts, at) - 1
        letters = self.regions[index][2] if index >= 0 and at < self.regions[index][1] else "fsr"
        return max(cost for name, cost in self.costs.access.items() if LETTERS[name] in letters)

    def cost(self, move):
        """The cycles of a move, those for which the next instruction waits for a load included."""
        parts = self.code.at(move.at)
        kind = {"immediate": "alu", "upper": "alu"}.get(parts[0], parts[0])
        kind = "branch_taken" if move.number else kind
        cost = self.costs.fetch[region_of(move.at)] + self.costs.of[kind]
        if kind in ("load", "store"):
            cost += self.access(move.at)
        if kind == "load" and parts[1] and parts[1] in reads(self.code.at(move.at + 4)):
            cost += self.costs.stall
        return cost


# Claims as limits: sums of counts that are at most 0, at least 0, or 0


Limit = namedtuple("Limit", "claim terms sign")  # the number of the claim; pairs of an address and a coefficient


def limits(report):
    """The limits of the claims in order: one of a never line, two of a loop line, one of a fact."""
    number = len(report.exits)
    for number, (_, _, at) in enumerate(report.nevers, number):
        yield Limit(number, [(at, 1)], "<=")
    number = len(report.exits) + len(report.nevers) + len(report.regions)
    for number, (_, _, least, most, header, back) in enumerate(report.loops, number):
        yield Limit(number, [(header, least - 1), (back, -least)], "<=")
        yield Limit(number, [(header, 1 - most), (back, most)], "<=")
    number = report.claim_count() - len(report.facts)
    for number, (left, sign, right) in enumerate(report.facts, number):
        yield Limit(number, [(at, it) for it, at in left] + [(at, -it) for it, at in right], sign)


def multipliers(report):
    """The multipliers of the limits, in the same order."""
    return [*report.never_by, *(it for pair in report.loop_by for it in pair), *report.fact_by]


def coefficients(limit):
    """One coefficient for each address."""
    found = defaultdict(int)
    for at, number in limit.terms:
        found[at] += number
    return found
