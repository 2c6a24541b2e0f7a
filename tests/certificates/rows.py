"""The rows of the checker, evaluated over whole numbers without end: written from docs/CHECKING.md alone."""
from collections import defaultdict
from fractions import Fraction

from simulator import reports
from simulator.costs import DEFAULT
from simulator.flows import CodeFault, System, coefficients, destinations, limits, multipliers

NARROW = 1 << 126  # what the absolute values of a sum must stay below


class No(Exception):
    """The row that fails."""


def check(entry, segments, report, costs=DEFAULT):
    """What stands behind `yes`, or No."""
    try:
        system = System(entry, segments, report, costs)
    except CodeFault as fault:
        raise No(str(fault)) from None
    held = by_address(report)
    potentials = dict(report.potentials)
    missing(system, potentials)
    signs(report)
    moves(system, report, potentials, held)
    value(system, report, potentials)
    if report.kind[0] == reports.GREATEST:
        greatest(system, report, potentials)
        if report.version == 2:
            shares(system, report)
        return f"{report.cycles} greatest"
    if report.kind[0] == reports.EMPTY and potentials[system.entry] >= 0:
        raise No("empty")
    return str(report.cycles)


def by_address(report):
    """At each address each multiplier times its limit's coefficient there."""
    held = defaultdict(list)
    for limit, by in zip(limits(report), multipliers(report)):
        for at, number in coefficients(limit).items():
            held[at].append(number * by)
    return held


def missing(system, potentials):
    for at in sorted(system.reached.keys() ^ potentials.keys())[:1]:
        raise No(f"missing {at:08x}")


def signs(report):
    for limit, by in zip(limits(report), multipliers(report)):
        if limit.sign == "<=" and by < 0 or limit.sign == ">=" and by > 0:
            raise No(f"sign {limit.claim}")


def moves(system, report, potentials, held):
    for move in system.moves:
        price = system.cost(move) * report.scale
        falls = [potentials[move.at], *(-potentials[it] for it in destinations(move))]
        terms = falls + held.get(move.at, [])
        if price + sum(map(abs, terms)) >= NARROW:
            raise No(f"wide {move.at:08x}")
        if price > sum(terms):
            raise No(f"move {move.at:08x} {move.number}")


def value(system, report, potentials):
    if report.cycles != max(potentials[system.entry] // report.scale, 0):
        raise No("value")


def greatest(system, report, potentials):
    listed = {(at, number): part for at, number, part in report.flow}
    known = {(it.at, it.number) for it in system.moves}
    counts, arriving = defaultdict(int), defaultdict(int)
    arriving[system.entry] += report.unit
    for move in system.moves:
        part = listed.get((move.at, move.number), 0)
        counts[move.at] += part
        for to in destinations(move):
            arriving[to] += part
    bad = {at for at, number in listed if (at, number) not in known}
    bad |= {at for at in system.reached if counts[at] != arriving[at] or counts[at] + arriving[at] >= NARROW}
    if bad:
        raise No(f"flow {min(bad):08x}")
    for limit in limits(report):
        terms = [counts[at] * number for at, number in limit.terms]
        total = sum(terms)
        fits = total <= 0 if limit.sign == "<=" else total >= 0 if limit.sign == ">=" else total == 0
        if not fits or sum(map(abs, terms)) >= NARROW:
            raise No(f"unmet {limit.claim}")
    total = sum(listed.get((it.at, it.number), 0) * system.cost(it) for it in system.moves)
    if total >= NARROW or Fraction(total, report.unit) != Fraction(potentials[system.entry], report.scale):
        raise No("greatest")


def shares(system, report):
    listed = {(at, number): part for at, number, part in report.flow}
    ranges = [range(first, end) for _, first, end, _ in report.shares]
    places = iter(ranges)
    place = next(places, range(0))
    for at in sorted({at for at, _ in listed}):
        while place and place.stop <= at:
            place = next(places, range(0))
        if at not in place:
            raise No(f"share {at:08x}")
    named = {first for name, first, _, _ in report.shares if name}
    for at in sorted({it.to for it in system.moves if it.behind is not None} - named)[:1]:
        raise No(f"share {at:08x}")
    for (_, first, _, part), fitting in zip(report.shares, sums(system, listed, ranges)):
        if part != fitting or fitting >= NARROW:
            raise No(f"share {first:08x}")


def sums(system, listed, ranges):
    """What each range has of the flow's value times its unit: the moves and the ranges ascend."""
    found, place = [0] * len(ranges), 0
    for move in system.moves:
        while place < len(ranges) and ranges[place].stop <= move.at:
            place += 1
        if place < len(ranges) and move.at in ranges[place]:
            found[place] += listed.get((move.at, move.number), 0) * system.cost(move)
    return found
