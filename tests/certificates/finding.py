"""Finds the certificate of a flow system: its linear program, solved over fractions and scaled to whole numbers."""
from fractions import Fraction
from math import lcm

from simulator import reports
from simulator.costs import DEFAULT
from simulator.flows import System, destinations, limits

from . import linear
from .rows import sums


class NoBound(Exception):
    """The claims let a flow have any value, or numbers become too large for a report."""


def certify(entry, segments, report, costs=DEFAULT):
    """Fills a report that has its claims with the certificate: the kind is greatest or empty."""
    system = System(entry, segments, report, costs)
    rows, signs = rows_of(system, report)
    costs = [system.cost(it) for it in system.moves]
    rights = [int(it == entry) for it in places(system)] + [0] * (len(rows) - len(system.reached))
    try:
        found = linear.solve(costs, rows, signs, rights)
        duals = found.duals if found.values else emptying(costs, rows, signs, system, found.duals)
    except linear.Unbounded:
        raise NoBound("no claim bounds the greatest value") from None
    report.kind = (reports.GREATEST if found.values else reports.EMPTY,)
    put_duals(report, system, duals)
    put_flow(report, system, found.values)


def places(system):
    return sorted(system.reached)


def rows_of(system, report):
    """For each address 'the count less what arrives' (the unit at the entry is its right side), then each limit."""
    out, by_address = {at: {} for at in places(system)}, {}
    for column, move in enumerate(system.moves):
        by_address.setdefault(move.at, []).append(column)
        for at, number in [(move.at, 1), *((it, -1) for it in destinations(move))]:
            out[at][column] = out[at].get(column, 0) + number
    rows, signs = list(out.values()), ["="] * len(out)
    for limit in limits(report):
        row = {}
        for at, number in limit.terms:
            for column in by_address.get(at, []):
                row[column] = row.get(column, 0) + number
        rows.append(row)
        signs.append(limit.sign)
    return rows, signs


def emptying(costs, rows, signs, system, ray):
    """Dual values with a negative value, where there is no flow: those that keep any circulation from gaining, and the
    proof that there is no flow, so often that the entry's potential is below 0."""
    base = linear.solve(costs, rows, signs, [0] * len(rows)).duals
    at = places(system).index(system.entry)
    times = max(base[at], Fraction(0)) // -ray[at] + 1
    return [one + times * other for one, other in zip(base, ray)]


def common(numbers):
    """The least number that makes all of them whole."""
    found = lcm(*(it.denominator for it in numbers))
    if found > 1 << 48:
        raise NoBound(f"the common denominator is {found}")
    return found


def put_duals(report, system, duals):
    report.scale = common(duals)
    whole = [int(it * report.scale) for it in duals]
    count = len(system.reached)
    report.potentials = list(zip(places(system), whole))
    # A move's column has 1 in the row of its address, -1 where it arrives, and its coefficients in the limits: so that the
    # dual values add up to its cost or more is just its row of the checker.
    by = iter(whole[count:])
    report.never_by = [next(by) for _ in report.nevers]
    report.loop_by = [(next(by), next(by)) for _ in report.loops]
    report.fact_by = [next(by) for _ in report.facts]
    report.cycles = max(dict(report.potentials)[system.entry] // report.scale, 0)


def put_flow(report, system, values):
    report.unit = common(values) if values else 0
    report.flow = [(move.at, move.number, int(it * report.unit)) for move, it in zip(system.moves, values or []) if it]
    listed = {(at, number): part for at, number, part in report.flow}
    ranges = [range(first, end) for _, first, end, _ in report.shares]
    names = [it[:3] for it in report.shares] if values else []
    report.shares = [(*it, part) for it, part in zip(names, sums(system, listed, ranges))]
