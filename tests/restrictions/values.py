"""The greatest value of the flows that keep the claims of a report, by its linear program: from the image and the report alone."""
import re
import shutil
import subprocess
import tempfile
from fractions import Fraction
from pathlib import Path

from certificates import finding, linear
from simulator.flows import System

GLPSOL = "glpsol"
NEAR = 1e-7  # how far glpsol's value may be from the exact one, in parts of it


class Program:
    """The linear program of a flow system, where counts that are equal are one variable."""

    def __init__(self, entry, segments, report):
        system = System(entry, segments, report)
        costs = [system.cost(it) for it in system.moves]
        rows, self.signs = finding.rows_of(system, report)
        self.rights = [int(it == entry) for it in finding.places(system)] + [0] * (len(rows) - len(system.reached))
        self.costs, self.rows = costs, rows
        while self.merge():
            pass
        self.number()

    def merge(self):
        """Makes one variable of each two that a row says are equal; whether there were any."""
        into = list(range(len(self.costs)))

        def root(at):
            while into[at] != at:
                into[at] = at = into[into[at]]
            return at
        for row, sign, right in zip(self.rows, self.signs, self.rights):
            numbers = {}
            for at, it in row.items():
                numbers[root(at)] = numbers.get(root(at), 0) + it
            pair = [at for at, it in numbers.items() if it]
            if sign == "=" and not right and len(pair) == 2 and sum(numbers.values()) == 0:
                into[pair[0]] = pair[1]
        if all(root(at) == at for at in range(len(into))):
            return False
        costs = [0] * len(into)
        for at, it in enumerate(self.costs):
            costs[root(at)] += it
        self.costs, rows = costs, []
        for row in self.rows:
            rows.append({})
            for at, it in row.items():
                rows[-1][root(at)] = rows[-1].get(root(at), 0) + it
        kept = [({at: it for at, it in row.items() if it}, sign, right) for row, sign, right in zip(rows, self.signs, self.rights)]
        kept = [it for it in kept if it[0] or it[2]]
        self.rows, self.signs, self.rights = map(list, zip(*kept))
        return True

    def number(self):
        """Numbers the variables that are left anew."""
        used = sorted({at for row in self.rows for at in row})
        self.costs = [self.costs[at] for at in used]
        names = {at: number for number, at in enumerate(used)}
        self.rows = [{names[at]: it for at, it in row.items()} for row in self.rows]

    def exactly(self):
        """The greatest value as a fraction, or None where there is no flow."""
        found = linear.solve(self.costs, self.rows, self.signs, self.rights)
        return None if found.values is None else sum(Fraction(a) * b for a, b in zip(self.costs, found.values))

    def by_glpsol(self, *options):
        """The greatest value as a float by glpsol, or None where there is no flow."""
        with tempfile.TemporaryDirectory(prefix="wcc-restrictions-") as folder:
            path, answer = Path(folder, "a.lp"), Path(folder, "a.sol")
            path.write_text(self.text())
            ran = subprocess.run([GLPSOL, "--lp", path, "-w", answer, *options], capture_output=True, text=True, timeout=600)
            if "PROBLEM HAS NO PRIMAL FEASIBLE SOLUTION" in ran.stdout or "PROBLEM HAS NO FEASIBLE SOLUTION" in ran.stdout:
                return None
            status = re.search(r"^s bas \d+ \d+ (\w) (\w) (\S+)$", answer.read_text(), re.M)
            if status and status[1] in "nio":
                return None
            assert status and status[1] == status[2] == "f", ran.stdout[-2000:]
            return float(status[3])

    def text(self):
        def total(terms):
            return " ".join(f"{'+' if it > 0 else '-'} {abs(it)} x{at}" for at, it in terms) or "0 x0"
        lines = ["Maximize", f" v: {total((at, it) for at, it in enumerate(self.costs) if it)}", "Subject To"]
        lines += [f" {total(row.items())} {sign} {right}" for row, sign, right in zip(self.rows, self.signs, self.rights)]
        return "\n".join([*lines, "End", ""])


def has_glpsol():
    return shutil.which(GLPSOL) is not None


def greatest(entry, segments, report, rows):
    """Numbers between which the greatest value lies, exactly where there are few rows; None where nothing can find it, or there
    is no flow."""
    program = Program(entry, segments, report)
    if len(program.rows) <= rows:
        value = program.exactly()
        return value if value is None else (value, value)
    if not has_glpsol():
        return None
    value = program.by_glpsol()
    return None if value is None else (value - abs(value) * NEAR - NEAR, value + abs(value) * NEAR + NEAR)
