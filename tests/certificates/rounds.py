"""Why a search under restrictions was stopped, played through by the columns of its report, as docs/CHECKING.md says."""
from functools import reduce
from math import gcd, lcm
from operator import mul

PIVOTS, COLUMNS = 10_000, 200
WIDEST, NARROW = 1 << 120, 1 << 44
SIGNS = {"<=": (1,), ">=": (-1,), "=": (1, -1)}
# How the pivots of a round end.
WIDE, OUT, DONE = "wide", "out", "done"


class Wide(Exception):
    """A product of a pivot is too wide."""


class Round:
    """The table of a round over some columns, and its pivots."""

    def __init__(self, columns, operators):
        self.sides = [(fact, sign) for fact, operator in enumerate(operators) for sign in SIGNS[operator]]
        self.count, slacks = len(columns), len(self.sides)
        unit = [[int(i == j) for j in range(slacks)] for i in range(slacks)]
        self.rows = [[0, *(sign * totals[fact] for _, totals in columns), *unit[i], 0, 0, 0] for i, (fact, sign) in enumerate(self.sides)]
        self.rows.append([1] * (self.count + 1) + [0] * slacks + [0, 0, 1])
        self.owns = [*range(self.count + 1, self.count + 1 + slacks), 0]
        self.first = [0] + [-1] * self.count + [0] * slacks + [1, 0, -1]
        self.second = [0, *(-value for value, _ in columns)] + [0] * slacks + [0, 1, 0]

    def is_first(self):
        return 0 in self.owns

    def entering(self):
        objective = self.first if self.is_first() else self.second
        return next((at for at in range(1, self.count + 1 + len(self.sides)) if objective[at] < 0), None)

    def leaving(self, at):
        """The row of the least quotient, and of equal ones that of the least variable."""
        best = None
        for number, (own, row) in enumerate(zip(self.owns, self.rows)):
            if row[at] > 0 and (best is None or self.goes_first(number, best, at)):
                best = number
        return best

    def goes_first(self, one, other, at):
        left, right = self.rows[one][-1] * self.rows[other][at], self.rows[other][-1] * self.rows[one][at]
        return (left, self.owns[one]) < (right, self.owns[other])

    def pivot(self, at, number):
        by = self.rows[number]
        self.owns[number] = at
        self.rows = [row if other == number else turned(row, by, at) for other, row in enumerate(self.rows)]
        if self.is_first():
            self.first = turned(self.first, by, at)
        self.second = turned(self.second, by, at)

    def run(self, made):
        """How many pivots are made in all, and how it ends."""
        while (at := self.entering()) is not None:
            if made == PIVOTS:
                return made, OUT
            made += 1
            try:
                self.pivot(at, self.leaving(at))
            except Wide:
                return made, WIDE
        return made, DONE

    def duals(self):
        """The objective's row with its own number, and what it says of each fact."""
        row, own = (self.first, -3) if self.is_first() else (self.second, -2)
        by_fact = [0] * (1 + max(fact for fact, _ in self.sides))
        for slack, (fact, sign) in enumerate(self.sides):
            by_fact[fact] += sign * row[self.count + 1 + slack]
        return row, row[own], by_fact

    def is_improved_by(self, column):
        row, own, by_fact = self.duals()
        value, totals = column
        paid = sum(map(mul, by_fact, totals))
        return row[-1] < (-paid if self.is_first() else own * value - paid)

    def multipliers(self, value):
        """The scale and the multipliers of the facts at the end of the round; the value is that of the first column."""
        _, own, by_fact = self.duals()
        divisor = reduce(gcd, by_fact, own)
        if self.is_first():
            return 1, [(value + 1) * (it // divisor) for it in by_fact]
        return own // divisor, [it // divisor for it in by_fact]

    def weights(self):
        """The common denominator of the weights of the columns, and their numerators over it."""
        shares = [(row[-1], row[own]) for own, row in zip(self.owns, self.rows) if 0 < own <= self.count]
        whole = reduce(lcm, (bottom // gcd(top, bottom) for top, bottom in shares), 1)
        return whole, [top * whole // bottom for top, bottom in shares]

    def numbers(self, value):
        """The numbers at the end of the round that have to be narrow."""
        scale, by_fact = self.multipliers(value)
        if self.is_first():
            return by_fact
        whole, tops = self.weights()
        return [scale, *by_fact, whole, *tops]


def turned(row, by, at):
    """The row without the variable at that place, by the row of a pivot."""
    products = [(by[at] * a, row[at] * b) for a, b in zip(row, by)]
    if any(abs(it) > WIDEST for pair in products for it in pair):
        raise Wide
    made = [one - other for one, other in products]
    divisor = reduce(gcd, made)
    return [it // divisor for it in made] if divisor else made


def fault_of(report):
    """What is wrong with the kind of a report, where that is wide or spent, or None: of best answers nothing is known here."""
    operators = [sign for _, sign, _ in report.facts]
    if not operators or not report.columns:
        return "it has no restriction, or no column"
    made = 0
    for count in range(1, len(report.columns) + 1):
        last = Round(report.columns[:count], operators)
        made, ending = last.run(made)
        if count < len(report.columns) and (ending != DONE or not last.is_improved_by(report.columns[count])):
            return f"the round over {count} columns should be the last"
    factor, value = len(report.loops) + 1, report.columns[0][0]
    is_wide = ending == WIDE or ending == DONE and any(abs(it) * factor > NARROW for it in last.numbers(value))
    word, *numbers = report.kind
    if word == "wide":
        return None if is_wide and numbers == [made] else f"{made} pivots are made, and the numbers are {'wide' if is_wide else 'narrow'}"
    is_spent = made == PIVOTS or len(report.columns) == COLUMNS
    wanted = [len(report.columns), made]
    return None if is_spent and numbers == wanted else f"{wanted[0]} columns and {made} pivots are made"
