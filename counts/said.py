"""What `counts` says of what was seen, with places of the source."""
import os
import re
from collections.abc import Iterator
from typing import NamedTuple

import explain
import findings
from counts.seen import Counting, Endless, Entries, Range, Seen, Stop, is_by_form
from evaluator import tree
from evaluator.facts import Relation
from evaluator.kinds import Undefined
from evaluator.meaning import Broken
from places import Lines, Place, printable


class Written(NamedTuple):
    """How annotations are written."""
    title: str
    bound: str
    restriction: str
    marker: str


PRAGMAS = Written("Pragmas", "#pragma loopbound min {} max {}", "#pragma flowrestriction {}", "#pragma marker {}")
MACROS = Written("Annotations", "LOOPBOUND({}, {})", "RESTRICTION({})", "MARKER({})")
# A line marker of <wcc.h>, by which a source has its macros.
WITH_MACROS = re.compile(rb'^# \d+ "(?:[^"\n]*/)?wcc\.h"', re.M)


class Report:
    """The lines on what was seen, with places of the source."""

    def __init__(self, path: str, source: bytes) -> None:
        self.path, self.lines, self.table = path, Lines(path, source), explain.entries()
        self.files = findings.Files(self.lines, [], [], False)

    def place(self, at: int) -> Place:
        return self.lines.place(at)

    def run(self, name: str, run: Counting, ended: str | Stop) -> Iterator[str]:
        """How a run ended, and the first annotation that it broke."""
        yield f"{printable(name)}: {ended if isinstance(ended, str) else self.stop(ended)}"
        events = [] if isinstance(ended, str) else [(ended, run.calls)]
        for event, calls in ([run.broken] if run.broken else []) + events:
            yield from (f"  {it}" for it in self.event(event, calls))

    @staticmethod
    def stop(event: Stop) -> str:
        return "undefined; counted up to there" if isinstance(event, Undefined) else "not at its end; counted up to there"

    def event(self, event: Stop | Broken, calls: list[tree.Call]) -> Iterator[str]:
        if isinstance(event, Endless):
            headline = f"The run was left here, after {event.after}."
        else:
            key = f"undefined {event.rule}" if isinstance(event, Undefined) else f"broken {'loop' if event.loop else 'restriction'}"
            headline = self.table[key][0]
        place = self.place(event.at)
        yield f"{place}: {headline}"
        yield from place.shown()
        steps = list(zip(["main", *(it.name for it in calls)], calls))
        facts = findings.chain(self.files, steps) + list(findings.how_ended(event)) + list(findings.tested(self.files, event))
        yield from (explain.fact_of(self.table, it) for it in facts)

    def functions(self, seen: Seen) -> Iterator[str]:
        yield from self.counted("Calls of functions in a run", seen.functions)
        yield from self.counted("Markers in a run", seen.markers)

    def counted(self, title: str, named: dict[str, tuple[int, Range]]) -> Iterator[str]:
        rows = [(str(seen), name, self.place(at)) for name, (at, seen) in named.items()]
        wide = max((len(row[0]) for row in rows), default=0)
        if rows:
            yield from ["", f"{title}:"]
        yield from (f"  {count:>{wide}}  {name}  {place}" for count, name, place in rows)

    def loops(self, seen: Seen) -> Iterator[str]:
        if seen.loops:
            yield from ["", "Starts of loops in one entry:"]
        for loop, starts in seen.loops.items():
            place = self.place(loop.at)
            yield f"  {place}: {self.starts(loop, starts)}"
            yield f"  {place.shown()[0]}"

    @staticmethod
    def starts(loop: tree.Loop, seen: Entries) -> str:
        whose = "by its form its bound is" if is_by_form(loop) else "its bound is"
        bound = f"{whose} {span(*loop.limits)}" if loop.limits else "it has no bound"
        if not seen.count:
            return f"never entered; {bound}"
        return f"{seen}, in {seen.count} {'entry' if seen.count == 1 else 'entries'}; {bound}"

    def restrictions(self, seen: Seen) -> Iterator[str]:
        """Of each restriction the run in which it came nearest to what it forbids."""
        shown = [(relation, min(sides, key=lambda it: room(relation, it))) for relation, sides in zip(seen.facts.relations, seen.sides)
                 if sides]
        if shown:
            yield from ["", "Restrictions, in the run in which they came nearest:"]
        for relation, (left, right, name) in shown:
            place = self.place(relation.at)
            yield f"  {place}: {left} {relation.operator} {right}, {nearness(relation, left, right)}, on {printable(name)}"
            yield f"  {place.shown()[0]}"

    def written(self) -> Written:
        """How the source writes annotations: by the macros of <wcc.h> where it has that header."""
        return MACROS if WITH_MACROS.search(self.lines.source) else PRAGMAS

    def pragmas(self, seen: Seen) -> Iterator[str]:
        """The bounds that would say what was seen."""
        bounds = [(self.place(loop.at), bound) for loop, *bound in seen.bounds() if not self.is_given(loop.at)]
        if bounds:
            yield from ["", f"{self.written().title} that say so. They are seen and not proved: another input may break them."]
        yield from (f"  before {place}: {self.written().bound.format(*bound)}" for place, bound in bounds)

    def proposed(self, first: int, found: list[tuple[str, int]]) -> Iterator[str]:
        """The restrictions that would lower the bound, each with the bound that it gives with those before it."""
        if not found:
            return
        yield from ["", f"Restrictions that were kept in these runs and would lower the bound of {first:,} cycles. They are observed, and for you to",
                    "confirm: take none that another input can break. Each line has the bound with those above it:"]
        yield from (f"  {cycles:>13,}  {self.written().restriction.format(text)}" for text, cycles in found)

    def unmarked(self, seen: Seen, runs: int) -> Iterator[str]:
        """What gives restrictions more to say, where loops are entered again and again and no marker stands."""
        if not seen.markers and any(it.count > runs for it in seen.loops.values()):
            yield from ["", f"A marker at a dear place of a loop, as {self.written().marker.format('name')}, gives restrictions more to speak of: docs/PORTING.md",
                        "says how, under \"A budget\"."]

    def is_given(self, at: int) -> bool:
        """Whether this is of <wide.h>, which nobody annotates."""
        return os.path.basename(self.place(at).file.name) == "wide.h"


def span(least: int, most: int) -> str:
    return f"{most}" if least == most else f"{least} to {most}"


def room(relation: Relation, sides: tuple[int, int, str]) -> int:
    """By how much the run keeps a restriction; below 0 it doesn't."""
    left, right, _ = sides
    return {"<=": right - left, ">=": left - right, "=": -abs(left - right)}[relation.operator]


def nearness(relation: Relation, left: int, right: int) -> str:
    spare = room(relation, (left, right, ""))
    return "which breaks it" if spare < 0 else "with nothing to spare" if spare == 0 else f"with {spare} to spare"
