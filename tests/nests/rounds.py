"""The rounds of a search under restrictions, over columns that are given (docs/groups/path.md, 'Rounds under facts'; Bland 1977).

A column is the value of a flow that need not keep the restrictions, and for each restriction what its left side exceeds its
right one by. A round weights the columns by pivots over whole numbers, with the least-number rule: its variables are an
artificial one, number 0, then one for the weight of each column, then a slack for each side of a restriction, where `=` has
two. Behind them stand the numbers of the two objectives and the right side.
"""
from fractions import Fraction
from math import gcd, lcm

MOST_COLUMNS, MOST_PIVOTS = 200, 10_000
WIDEST_PRODUCT, WIDEST_NUMBER = 2**120, 2**44
SIDES = {"<=": (1,), ">=": (-1,), "=": (1, -1)}
FIRST, SECOND, WIDE, SPENT = "first", "second", "wide", "spent"  # how a round ends: in a phase, or before the end of one


class TooWide(Exception):
    """A product passes the limit."""


def reduced(row):
    """A row without a common divisor above 1."""
    divisor = gcd(*row)
    return [it // divisor for it in row] if divisor else row


def turned(place, base, row):
    """A row after a pivot at a place of another one, which takes that place out of it."""
    products = [(base[place] * here, row[place] * there) for here, there in zip(row, base)]
    if any(abs(it) > WIDEST_PRODUCT for pair in products for it in pair):
        raise TooWide
    return reduced([one - other for one, other in products])


def are_wide(numbers, loops):
    """Whether one of the numbers, times one more than the number of loops, passes the limit."""
    return any(abs(it) * (loops + 1) > WIDEST_NUMBER for it in numbers)


class Round:
    """A round over columns, after so many pivots of the rounds before."""

    def __init__(self, signs, columns, made):
        self.signs, self.columns, self.made = signs, columns, made
        sides = [(fact, sign) for fact, op in enumerate(signs) for sign in SIDES[op]]
        self.first_slack = len(columns) + 1
        self.variables = self.first_slack + len(sides)
        ones, none = [1] * len(columns), [0] * len(sides)
        self.rows = [[0, *(sign * totals[fact] for _, totals in columns), *(int(at == it) for at in range(len(sides))), 0, 0, 0]
                     for it, (fact, sign) in enumerate(sides)]
        self.rows.append([1, *ones, *none, 0, 0, 1])
        self.owns = [*range(self.first_slack, self.variables), 0]
        self.one = [0, *(-it for it in ones), *none, 1, 0, -1]
        self.two = [0, *(-value for value, _ in columns), *none, 0, 1, 0]
        self.ending = self.run()

    def in_first(self):
        return 0 in self.owns

    def entering(self):
        objective = self.one if self.in_first() else self.two
        return next((it for it in range(1, self.variables) if objective[it] < 0), None)

    def run(self):
        while (place := self.entering()) is not None:
            if self.made == MOST_PIVOTS:
                return SPENT
            self.made += 1
            try:
                self.pivot(place)
            except TooWide:
                return WIDE
        return FIRST if self.in_first() else SECOND

    def pivot(self, place):
        rows = enumerate(zip(self.rows, self.owns))
        _, _, at = min((Fraction(row[-1], row[place]), own, at) for at, (row, own) in rows if row[place] > 0)
        base = self.rows[at]
        self.owns[at] = place
        self.rows = [row if it == at else turned(place, base, row) for it, row in enumerate(self.rows)]
        if self.in_first():
            self.one = turned(place, base, self.one)
        self.two = turned(place, base, self.two)

    # What a round ends with

    def duals(self, row):
        """The dual value of each restriction; that of `=` is the difference of its two."""
        at, found = self.first_slack, []
        for op in self.signs:
            signs = SIDES[op]
            found.append(sum(sign * row[at + it] for it, sign in enumerate(signs)))
            at += len(signs)
        return found

    def own(self, row, which):
        """The objective's own number in its row."""
        return row[self.variables + which]

    def scaled(self):
        """A scale and the multipliers of the restrictions, without a common divisor; in the first phase of the totals alone."""
        row, which = (self.one, 0) if self.ending == FIRST else (self.two, 1)
        scale, *multipliers = reduced([self.own(row, which), *self.duals(row)])
        return (0 if self.ending == FIRST else scale), multipliers

    def asked(self):
        """The scale and the multipliers that walks are asked for: in the first phase times one more than the first value."""
        scale, multipliers = self.scaled()
        return (1, [(self.columns[0][0] + 1) * it for it in multipliers]) if self.ending == FIRST else (scale, multipliers)

    def weights(self):
        return [Fraction(row[-1], row[own]) for row, own in zip(self.rows, self.owns) if 0 < own < self.first_slack]

    def asked_numbers(self):
        """The scale and the multipliers together."""
        scale, multipliers = self.asked()
        return [scale, *multipliers]

    def weighed_numbers(self):
        """The common denominator of the weights and their numerators, at the end of the second phase."""
        weights = self.weights() if self.ending == SECOND else []
        denominator = lcm(*(it.denominator for it in weights))
        return [denominator, *(int(it * denominator) for it in weights)]

    def is_wide(self, loops):
        """Whether a product is wide, or a number of the end."""
        return self.ending == WIDE or self.ending != SPENT and are_wide(self.asked_numbers() + self.weighed_numbers(), loops)

    def improves(self, column):
        """Whether a further column improves on the weighted ones."""
        value, totals = column
        if self.ending not in (FIRST, SECOND):
            return False
        row = self.one if self.ending == FIRST else self.two
        gained = 0 if self.ending == FIRST else self.own(row, 1) * value
        return row[-1] < gained - sum(y * it for y, it in zip(self.duals(row), totals))


def rounds(signs, columns):
    """The rounds over the first column, over the first two, and so on."""
    made, found = 0, []
    for count in range(1, len(columns) + 1):
        found.append(Round(signs, columns[:count], made))
        made = found[-1].made
    return found
