"""Linear programs over fractions, solved exactly by the simplex method with Bland's rule, which always ends."""
from fractions import Fraction


class Solution:
    """The greatest value, the variables that give it, and the dual value of each row.

    Where no variables keep the rows, `values` is None, and the dual values prove it: their sum of the rows has no
    coefficient below 0 and a negative right side.
    """

    def __init__(self, values, duals):
        self.values, self.duals = values, duals


class Unbounded(Exception):
    """There is no greatest value."""


class Tableau:
    """The rows, each with one basic variable: the given variables come first, then a slack or none for each row, then an
    artificial variable for each row, whose column tells the dual value and which is never taken in."""

    def __init__(self, rows, signs, rights, width):
        count = len(rows)
        assert all(it >= 0 for it in rights) and all(it == 0 or sign == "=" for it, sign in zip(rights, signs))
        self.width, self.room = width, width + 2 * count
        self.turned = [-1 if sign == ">=" else 1 for sign in signs]
        self.rows, self.basis = [], []
        for at, (row, sign, right) in enumerate(zip(rows, signs, rights)):
            dense = [Fraction(0)] * (self.room + 1)
            for column, number in row.items():
                dense[column] = Fraction(number * self.turned[at])
            if sign != "=":
                dense[width + at] = Fraction(1)
            dense[width + count + at] = Fraction(1)
            dense[-1] = Fraction(right)
            self.rows.append(dense)
            self.basis.append(width + at if sign != "=" else width + count + at)

    def artificial(self, at):
        return at >= self.room - len(self.rows)

    def pivot(self, objective, place, column):
        row = self.rows[place]
        inverse = 1 / row[column]
        row[:] = [it * inverse if it else it for it in row]
        filled = [at for at, it in enumerate(row) if it]
        for other in (*(it for it in self.rows if it is not row), objective):
            factor = other[column]
            if factor:
                for at in filled:
                    other[at] -= factor * row[at]
        self.basis[place] = column

    def raise_value(self, objective):
        """Pivots until no variable improves. The objective's row holds what each variable would add, negated."""
        while True:
            usable = range(self.room - len(self.rows))
            column = next((it for it in usable if objective[it] < 0), None)
            if column is None:
                return
            self.pivot(objective, self.place_out(column), column)

    def place_out(self, column):
        """The row whose variable goes out for the one that comes in."""
        numbered = list(enumerate(self.rows))
        # An artificial variable that is left in the basis at 0 must stay at 0: it goes out first.
        for place, row in numbered:
            if self.artificial(self.basis[place]) and row[column] and not row[-1]:
                return place
        quotients = [(row[-1] / row[column], self.basis[place], place) for place, row in numbered if row[column] > 0]
        if not quotients:
            raise Unbounded
        return min(quotients)[2]

    def priced(self, costs):
        """The objective's row for the basis."""
        row = [-Fraction(costs.get(at, 0)) for at in range(self.room)] + [Fraction(0)]
        for place, column in enumerate(self.basis):
            factor = row[column]
            if factor:
                row = [a - factor * b if b else a for a, b in zip(row, self.rows[place])]
        return row

    def duals(self, objective, costs):
        """Each row's dual value, told by its artificial variable."""
        first = self.room - len(self.rows)
        return [turn * (objective[first + at] + costs.get(first + at, 0)) for at, turn in enumerate(self.turned)]


def solve(costs, rows, signs, rights):
    """The greatest sum of costs over variables that aren't negative, where each row has its sign to its right side.

    A row is a dictionary from variables, which are numbers from 0, to coefficients. A right side is at least 0, and 0
    for an inequality.
    """
    tableau = Tableau(rows, signs, rights, len(costs))
    first = tableau.room - len(rows)
    lessened = {first + at: -1 for at in range(len(rows))}
    objective = tableau.priced(lessened)
    tableau.raise_value(objective)
    if objective[-1] < 0:
        return Solution(None, tableau.duals(objective, lessened))
    wanted = dict(enumerate(costs))
    objective = tableau.priced(wanted)
    tableau.raise_value(objective)
    values = [Fraction(0)] * len(costs)
    for place, column in enumerate(tableau.basis):
        if column < len(costs):
            values[column] = tableau.rows[place][-1]
    return Solution(values, tableau.duals(objective, wanted))
