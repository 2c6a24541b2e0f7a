#!/usr/bin/env python3
"""Tries the search under restrictions: random nests of loops with restrictions, against an exact linear program.

    restricted.py SEED COUNT PROGRAM     PROGRAM is the built crates/path_fact_cases

Each nest has 1 to 8 restrictions of all operators. The program answers each line of its input by

    greatest BOUND
    empty
    wide PIVOT, bound BOUND, columns COLUMN; COLUMN; ..       COLUMN is a value and the totals of the restrictions
    spent COLUMNS PIVOTS, bound BOUND, columns COLUMN; ..

The first two must be what the linear program of ../certificates finds. Of the others the cause is checked: each column must be
the best answer at the multipliers that the round over those before it ends with, and improve on that round (rounds.py); the
last round must end where the answer says. It ends with status 1 if an answer differs, or 2 in 100 are not greatest or empty.
"""
import itertools
import random
import subprocess
import sys
from collections import Counter
from fractions import Fraction
from pathlib import Path

HERE = Path(__file__).resolve().parent
sys.path.insert(0, str(HERE.parent))
import certify  # noqa: E402
import machine  # noqa: E402
import nests  # noqa: E402
import rounds  # noqa: E402
from cases import hexes, rows  # noqa: E402
from certificates import finding, linear  # noqa: E402
from simulator import flows  # noqa: E402

MOST_FACTS, MOST_TERMS, MOST_NUMBER = 8, 3, 1024
KEPT = 0.85  # of the nests have restrictions that one flow keeps together, if there is one
BALANCED = 0.6  # of these restrictions have numbers by which both sides are equal
NOT_ANSWERED = 0.02


# Restrictions


def side(draw, addresses, least):
    """Numbers with their addresses."""
    count = min(len(addresses), draw.randint(least, MOST_TERMS))
    return [(draw.choice((1, 1, 2, 7, draw.randint(1, MOST_NUMBER))), at) for at in sorted(draw.sample(addresses, count))]


def fact(draw, addresses):
    return side(draw, addresses, 1), draw.choice(("<=", ">=", "=")), side(draw, addresses, 0)


def number_at(fact, at):
    """What the left side of a restriction has at an address, less what its right side has."""
    left, _, right = fact
    return sum(number for number, x in left if x == at) - sum(number for number, x in right if x == at)


def line_of(nest, facts, multipliers=()):
    """The line of the program of cases that asks for the answer at multipliers, or without any for the search."""
    loops = [(x.least, x.most, x.header, x.back) for x in sorted(nest.loops, key=lambda x: x.header)]
    sides = ",".join(f"{sign} {hexes(x for term in left for x in term)}/{hexes(x for term in right for x in term)}" for left, sign, right in facts)
    parts = (f"{nest.entry:x}", hexes(nest.words), f"{nest.exit:x}", hexes(sorted(nest.nevers)), rows(loops), rows(nest.spans), sides)
    return ";".join((*parts, " ".join(map(str, multipliers))))


class Restricted:
    """The flows of a nest, and restrictions of them."""

    def __init__(self, nest):
        self.nest = nest
        self.report = certify.read_claims(nests.text_of(nests.claims_of(nest)))
        self.system = flows.System(*machine.read_image(nests.image_of(nest)), self.report, machine.DEFAULT)
        self.values = [self.system.cost(it) for it in self.system.moves]
        self.lines, self.signs = finding.rows_of(self.system, self.report)
        self.rights = [int(it == self.system.entry) for it in finding.places(self.system)]
        self.rights += [0] * (len(self.lines) - len(self.rights))
        self.facts = []

    def totals(self, fact):
        """What each move adds to a restriction."""
        return [number_at(fact, it.at) for it in self.system.moves]

    def restrict(self, draw):
        """Draws restrictions."""
        flow = self.best([draw.randint(-9, 3) for _ in self.values])[1] if draw.random() < KEPT else None
        greatest = self.best(self.values)[1] or [1] * len(self.values)
        addresses = sorted({move.at for it, move in zip(greatest, self.system.moves) if it})
        draw_one = (lambda: self.kept(draw, addresses, flow)) if flow else (lambda: fact(draw, addresses))
        self.facts = [draw_one() for _ in range(draw.randint(1, MOST_FACTS))]

    def kept(self, draw, addresses, flow):
        """A restriction that a flow keeps."""
        if draw.random() < BALANCED:
            one, other = draw.sample(addresses, 2)
            counts = self.count(flow, one), self.count(flow, other)
            ratio = Fraction(*counts) if all(counts) else Fraction(0)
            if 0 < ratio.numerator <= MOST_NUMBER and ratio.denominator <= MOST_NUMBER:
                return [(ratio.denominator, one)], draw.choice(("<=", ">=", "=", "=")), [(ratio.numerator, other)]
        left, _, right = fact(draw, addresses)
        total = sum(x * y for x, y in zip(self.totals((left, None, right)), flow))
        return left, "=" if total == 0 else "<=" if total < 0 else ">=", right

    def count(self, flow, at):
        """How often a flow visits an address."""
        return sum(it for it, move in zip(flow, self.system.moves) if move.at == at)

    # Exact linear programs

    def best(self, costs, more=()):
        """The greatest sum of costs over the flows without the restrictions that keep more rows, and a flow that has it."""
        lines, signs, rights = list(self.lines), list(self.signs), list(self.rights)
        for row, sign, right in more:
            turn = -1 if right < 0 else 1
            lines.append({at: turn * it for at, it in enumerate(row) if it})
            signs.append(sign)
            rights.append(turn * right)
        found = linear.solve(costs, lines, signs, rights)
        if found.values is None:
            return None, None
        return sum(x * y for x, y in zip(costs, found.values)), found.values

    def greatest(self):
        """The greatest value under the restrictions, None where no flow keeps them."""
        return self.best(self.values, [(self.totals(it), it[1], 0) for it in self.facts])[0]

    def prices(self, scale, multipliers):
        held = [self.totals(it) for it in self.facts]
        return [scale * value - sum(y * each[at] for y, each in zip(multipliers, held)) for at, value in enumerate(self.values)]

    def is_best(self, scale, multipliers, column):
        """Whether a column is that of a flow, and none is worth more at these prices."""
        value, totals = column
        weighed = scale * value - sum(y * it for y, it in zip(multipliers, totals))
        rows_of_column = [(self.values, "=", value), *((self.totals(fact), "=", total) for fact, total in zip(self.facts, totals))]
        return self.best(self.prices(scale, multipliers))[0] == weighed and self.best([0] * len(self.values), rows_of_column)[0] is not None


def restricted(seed, count):
    """That many nests that have a flow, with restrictions."""
    found = filter(lambda it: it.best([0] * len(it.values))[1], map(Restricted, nests.nests(seed, 10 * count)))
    for number, it in enumerate(itertools.islice(found, count)):
        it.restrict(random.Random(f"{seed} {number} restricted"))
        yield it


# Answers


def said(value):
    return "empty" if value is None else f"greatest {value // 1}"


def columns_of(text):
    """Columns as an answer has them."""
    numbers = [list(map(int, it.split())) for it in text.split(";") if it]
    return [(it[0], it[1:]) for it in numbers]


def fault_of_columns(nest, columns):
    """Why columns aren't those of a search, with their rounds."""
    signs = [it[1] for it in nest.facts]
    found = rounds.rounds(signs, columns)
    if not nest.is_best(1, [0] * len(signs), columns[0]):
        return "the first column isn't a best one", found
    for number, (round_before, column) in enumerate(zip(found, columns[1:]), 2):
        if not round_before.improves(column):
            return f"column {number} doesn't improve", found
        if not nest.is_best(*round_before.scaled(), column):
            return f"column {number} isn't a best one", found
    return None, found


def least_bound(nest, columns, found):
    """The least bound of the rounds: the first column's value, and that at the multipliers of each round with an optimum."""
    bounds = [columns[0][0]]
    for it in found:
        if it.ending == rounds.SECOND and not rounds.are_wide(it.asked_numbers(), len(nest.nest.loops)):
            scale, multipliers = it.scaled()
            bounds.append(nest.best(nest.prices(scale, multipliers))[0] // scale)
    return min(bounds)


def fault_of_cause(nest, kind, bound, columns):
    """Why an answer without an optimum has no cause."""
    fault, found = fault_of_columns(nest, columns)
    if fault:
        return fault
    last, least = found[-1], least_bound(nest, columns, found)
    if bound > least:
        return f"a round's bound is {least}"
    match kind.split():
        case "wide", pivot:
            if last.made != int(pivot):
                return f"{last.made} pivots are made"
            return None if last.is_wide(len(nest.nest.loops)) else "nothing is wide"
        case "spent", count, pivots:
            if (len(columns), last.made) != (int(count), int(pivots)):
                return f"{len(columns)} columns and {last.made} pivots are made"
            return None if len(columns) == rounds.MOST_COLUMNS or last.ending == rounds.SPENT else "the search could go on"
    return "no such answer"


def fault_of(nest, answer):
    """Why an answer is wrong, or None."""
    value = nest.greatest()
    parts = answer.split(", ")
    if len(parts) == 1:
        return None if answer == said(value) else f"it is {said(value)}"
    kind, bound, columns = parts
    bound, columns = int(bound.removeprefix("bound ")), columns_of(columns.removeprefix("columns "))
    if value is not None and bound < value // 1:
        return f"the bound is below {value}"
    return fault_of_cause(nest, kind, bound, columns)


def main(words):
    if len(words) != 3:
        sys.exit(__doc__)
    seed, count, program = words
    found = list(restricted(seed, int(count)))
    lines = "".join(f"{line_of(it.nest, it.facts)}\n" for it in found)
    answers = subprocess.run([program], input=lines, capture_output=True, text=True, check=True).stdout.splitlines()
    assert len(answers) == len(found), f"{len(answers)} answers"
    faults, kinds = 0, Counter()
    for number, (it, answer) in enumerate(zip(found, answers)):
        kinds[answer.split()[0]] += 1
        if fault := fault_of(it, answer):
            faults += 1
            print(f"{number}: {answer}: {fault}", flush=True)
    print(f"{len(found)} nests: {', '.join(f'{number} {kind}' for kind, number in sorted(kinds.items()))}; {faults} differ")
    others = len(found) - kinds["greatest"] - kinds["empty"]
    return int(faults > 0 or others >= NOT_ANSWERED * len(found))


if __name__ == "__main__":
    sys.exit(main(sys.argv[1:]))
