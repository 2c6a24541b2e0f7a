"""Restrictions that the runs kept, and that would lower the bound: what `compile` says of each decides.

The report of a bound lists the path that it is of, and so how often each function and marker comes there. A restriction that the
runs kept and that path doesn't may lower the bound; of these the one with the least bound is taken, and then the next one beside it.
"""
import re
import subprocess
import tempfile
from collections import defaultdict
from collections.abc import Callable, Iterator, Mapping
from concurrent.futures import ThreadPoolExecutor
from fractions import Fraction
from itertools import combinations, permutations, product
from os import sched_getaffinity
from pathlib import Path
from subprocess import DEVNULL, PIPE
from typing import NamedTuple

from evaluator.facts import MOST_FACTOR
from simulator import reports

# How often functions and markers came: on a path, and in each run.
Counts = Mapping[str, int | Fraction]
Runs = list[dict[str, int]]
Terms = tuple[tuple[int, str], ...]
MAIN = "main"
MOST_PROPOSED, MOST_ASKED, MOST_TERMS = 6, 24, 8
# How many of another one the first name of a budget takes.
TIMES = (*range(1, 9), 10, 12, 16, 24, 32, 64)
SECONDS = 60
# One that lowers the bound by less than one in so many isn't told, and one that gains less than the best by one in so many is as good.
WORTH, NEAR = 100, 50


def said(terms: Terms) -> str:
    return " + ".join(f"{number}*{name}" for number, name in terms)


def value(terms: Terms, counts: Counts) -> int | Fraction:
    return sum(number * counts.get(name, 0) for number, name in terms)


class Relation(NamedTuple):
    """A sum that is at most another one."""
    left: Terms
    right: Terms

    def __str__(self) -> str:
        return f"{said(self.left)} <= {said(self.right)}"

    def excess(self, counts: Counts) -> int | Fraction:
        """By how much counts break it."""
        return value(self.left, counts) - value(self.right, counts)

    def is_of_main(self) -> bool:
        return self.right[0][1] == MAIN

    def is_sum(self) -> bool:
        return len(self.left) + len(self.right) > 2

    def weight(self) -> tuple[int, int]:
        """The sum of its numbers, and the greatest: a restriction by small ones is more likely to be true of every input."""
        numbers = [number for number, _ in (*self.left, *self.right)]
        return sum(numbers), max(numbers)

    def is_known(self) -> bool:
        """Whether a source may have its numbers."""
        return all(number <= MOST_FACTOR for number, _ in (*self.left, *self.right))


class Answered(NamedTuple):
    """What `compile` made of a source: the bound, and the counts on its path, or None where no path is listed."""
    cycles: int
    counts: Counts | None


# What may be asked

def quotient(one: int, other: int) -> int:
    return -(-one // other)


def over_main(names: list[str], runs: Runs) -> Iterator[Relation]:
    """How often each came at most."""
    for name in names:
        yield Relation(((1, name),), ((max(it[name] for it in runs), MAIN),))


def between(names: list[str], runs: Runs) -> Iterator[Relation]:
    """How often one came at most for each time that another did, and how many times another came at least for each of it."""
    for one, other in permutations(names, 2):
        if any(it[one] and not it[other] for it in runs) or not any(it[one] for it in runs):
            continue
        met = [it for it in runs if it[one]]
        most, least = max(quotient(it[one], it[other]) for it in met), min(it[other] // it[one] for it in met)
        yield Relation(((least, one),), ((1, other),)) if least > 1 else Relation(((1, one),), ((most, other),))


def gathered(names: list[str], runs: Runs) -> Iterator[Relation]:
    """How often one came at most, as each time one of two others did, where neither of these is enough."""
    for one in names:
        others = [it for it in names if any(run[one] > run[it] for run in runs)]
        for pair in combinations(others, 2):
            relation = Relation(((1, one),), tuple((1, it) for it in pair))
            if all(relation.excess(run) <= 0 for run in runs):
                yield relation


def budgets(names: list[str], runs: Runs, path: Counts) -> Iterator[Relation]:
    """Sums of several: at most what another one gives, each with as many of it as it takes, or at most so many in a run."""
    for first in names:
        rest = [it for it in names if it != first]
        yield from grown(first, rest, path, lambda them: unit_sum(them, runs))
        for other, times in product(rest, TIMES):
            yield from grown(first, [it for it in rest if it != other], path, lambda them: shared_sum(them, times, other, runs))


def grown(first: str, rest: list[str], path: Counts, sum_of: Callable[[list[str]], Relation | None]) -> Iterator[Relation]:
    """A sum that begins with one name, and takes on what exceeds most."""
    names, best = [first], sum_of([first])
    while best and len(names) < MOST_TERMS:
        tried = [(it, sum_of([*names, it])) for it in rest if it not in names]
        more = max(((relation.excess(path), relation, it) for it, relation in tried if relation), default=None, key=lambda it: it[0])
        if more is None or more[0] <= best.excess(path):
            break
        names, best = [*names, more[2]], more[1]
    if best and len(names) > 1:
        yield best


def unit_sum(names: list[str], runs: Runs) -> Relation:
    return Relation(tuple((1, it) for it in names), ((max(sum(run[it] for it in names) for run in runs), MAIN),))


def shared_sum(names: list[str], times: int, other: str, runs: Runs) -> Relation | None:
    """The first name so many times, and each other one as many as all runs allow; or None where one comes without what it takes."""
    left, terms = [run[other] for run in runs], []
    for name in names:
        met = [(rest, run[name]) for rest, run in zip(left, runs) if run[name]]
        allowed = min((rest // count for rest, count in met), default=0)
        if not allowed or not terms and allowed < times:
            return None
        terms.append((allowed if terms else times, name))
        left = [rest - terms[-1][0] * run[name] for rest, run in zip(left, runs)]
    return Relation(tuple(terms), ((1, other),))


def candidates(names: list[str], runs: Runs, path: Counts) -> Iterator[Relation]:
    """What the runs kept and the path doesn't, what it breaks most first: of single names and of sums as many as there is room for."""
    found = [*over_main(names, runs), *between(names, runs), *gathered(names, runs), *budgets(names, runs, path)]
    broken = [it for it in dict.fromkeys(found) if it.is_known() and it.excess(path) > 0]
    broken.sort(key=lambda it: -it.excess(path) / (1 + max(value(it.right, run) for run in runs)))
    for is_of_main, is_sum in ((False, False), (False, True), (True, False), (True, True)):
        yield from [it for it in broken if (it.is_of_main(), it.is_sum()) == (is_of_main, is_sum)][:MOST_ASKED // 4]


# Asking

class Asking:
    def __init__(self, program: str, source: bytes, options: list[str], room: str) -> None:
        self.program, self.source, self.options, self.room = program, source, options, Path(room)

    def ask(self, relations: list[Relation]) -> Answered | None:
        """What `compile` makes of the source with these restrictions, or None where it refuses it."""
        lines = "".join(f"\n#pragma flowrestriction {it}" for it in relations)
        with tempfile.TemporaryDirectory(dir=self.room) as room:
            named = [Path(room, it) for it in ("a.c", "a.elf", "a.txt")]
            named[0].write_bytes(self.source + lines.encode() + b"\n")
            try:
                ran = subprocess.run([self.program, "compile", *self.options, "--", *named], stdin=DEVNULL, stdout=PIPE, stderr=DEVNULL,
                                     timeout=SECONDS)
            except (OSError, subprocess.TimeoutExpired):
                return None
            match = re.fullmatch(rb"cycles (\d+) (\w+)\n", ran.stdout)
            if ran.returncode or match[2] == b"empty":
                return None
            return Answered(int(match[1]), counts_in(named[2].read_bytes()) if match[2] == b"greatest" else None)


def counts_in(data: bytes) -> Counts:
    """How often functions and markers come on the path that a report lists."""
    report = reports.read(data)
    counts = defaultdict(Fraction)
    for at, _, number in report.flow:
        counts[at] += Fraction(number, report.unit)
    return {name: sum((counts[at] for at in places), Fraction(0)) for name, places in report.copies}


def best_of(asking: Asking, taken: list[Relation], now: Answered, tried: list[Relation]) -> tuple[Answered, Relation] | None:
    """The restriction that lowers the bound most beside those that are taken, with what it gives; or None where none does by much."""
    with ThreadPoolExecutor(len(sched_getaffinity(0))) as pool:
        answers = [(it, relation) for it, relation in zip(pool.map(lambda it: asking.ask([*taken, it]), tried), tried) if it]
    least = min((it.cycles for it, _ in answers), default=now.cycles)
    if now.cycles - least <= now.cycles // WORTH:
        return None
    # Of those that gain as good as all, the one with the smallest numbers says most of the program.
    near = [it for it in answers if it[0].cycles - least <= (now.cycles - least) // NEAR]
    return min(near, key=lambda it: (it[1].weight(), it[0].cycles))


def proposals(program: str, source: bytes, options: list[str], names: list[str], runs: Runs, room: str) -> tuple[int, list[tuple[str, int]]] | None:
    """The bound of the source, and restrictions with the bound that each gives with those before it; or None where it has none.

    What names are to each other comes before what they are in a run: the one may be so in every run, and the other depends on how
    long the inputs are.
    """
    asking, taken, found = Asking(program, source, options, room), [], []
    first = now = asking.ask([])
    if first is None:
        return None
    while len(found) < MOST_PROPOSED and now.counts is not None:
        tried = list(candidates(names, runs, now.counts))
        best = (best_of(asking, taken, now, [it for it in tried if not it.is_of_main()])
                or best_of(asking, taken, now, [it for it in tried if it.is_of_main()]))
        if best is None:
            break
        now, relation = best
        taken.append(relation)
        found.append((str(relation), now.cycles))
    return first.cycles, found
