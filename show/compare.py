"""What changed from an older image and report: the bound, and what each function and loop takes."""
from collections import defaultdict
from collections.abc import Iterator
from dataclasses import dataclass
from fractions import Fraction

from bound import Bound, Loop
from text import loop_place, number, table
from writing import Cell, clean
from writing import table as page_table

NOTHING_KNOWN = "One of the two reports lists no path: what functions and loops take isn't known of both."


@dataclass
class Change:
    """What something takes in the older image and now; None where it isn't there."""
    name: str
    before: Fraction | None
    now: Fraction | None

    def by(self) -> Fraction:
        return (self.now or Fraction(0)) - (self.before or Fraction(0))


def signed(value: Fraction) -> str:
    return f"+{number(value)}" if value > 0 else number(value)


def told(value: Fraction | None) -> str:
    return "-" if value is None else number(value)


def headline(older: Bound, bound: Bound) -> str:
    before, now = older.report.cycles, bound.report.cycles
    if before == now:
        return f"The bound is {number(now)} cycles, as before."
    part = f", {abs(now - before) / before * 100:.1f}%" if before else ""
    return f"The bound is {number(now)} cycles, and was {number(before)}: {number(abs(now - before))} {'more' if now > before else 'less'}{part}."


def is_known(older: Bound, bound: Bound) -> bool:
    return older.counts.is_known() and bound.counts.is_known()


def functions(older: Bound, bound: Bound) -> list[Change]:
    """Each function by its name, those first that changed most: all changes together are that of the bound."""
    return changed(cycles_of(older), cycles_of(bound))


def cycles_of(bound: Bound) -> dict[str, Fraction]:
    found: dict[str, Fraction] = defaultdict(Fraction)
    for it in bound.codes:
        found[it.title()] += bound.counts.real(it.cycles)
    return found


def changed(before: dict[str, Fraction], now: dict[str, Fraction]) -> list[Change]:
    names = list(dict.fromkeys([*now, *before]))
    return sorted((Change(it, before.get(it), now.get(it)) for it in names), key=lambda it: -abs(it.by()))


def loops(older: Bound, bound: Bound) -> list[Change]:
    """The loops of each function one beside the other, where both have as many, and else by their numbers."""
    before, now = by_code(older), by_code(bound)
    found = []
    for name in dict.fromkeys([*now, *before]):
        one, other = before.get(name, []), now.get(name, [])
        pairs = list(zip(one, other)) if len(one) == len(other) else by_number(one, other)
        found += [change(older, bound, *pair) for pair in pairs]
    return sorted(found, key=lambda it: -abs(it.by()))


def by_code(bound: Bound) -> dict[str, list[Loop]]:
    found: dict[str, list[Loop]] = defaultdict(list)
    for it in bound.loops:
        found[it.code.title() if it.code else "-"].append(it)
    return found


def by_number(before: list[Loop], now: list[Loop]) -> Iterator[tuple[Loop | None, Loop | None]]:
    one, other = {(it.number, it.factor): it for it in before}, {(it.number, it.factor): it for it in now}
    yield from ((one.get(it), other.get(it)) for it in dict.fromkeys([*other, *one]))


def change(older: Bound, bound: Bound, before: Loop | None, now: Loop | None) -> Change:
    it = now or before
    unrolled = f" by {it.factor}" if it.factor > 1 else ""
    name = f"{it.number}{unrolled} in {it.code.title() if it.code else '-'}" + (f", {loop_place(it)}" if it.part else "")
    return Change(name, real(older, before), real(bound, now))


def real(bound: Bound, loop: Loop | None) -> Fraction | None:
    return None if loop is None else Fraction(loop.inclusive) / bound.counts.unit


# As text and in the page

def summary(older: Bound, bound: Bound) -> Iterator[str]:
    yield from ["", headline(older, bound)]
    if not is_known(older, bound):
        yield NOTHING_KNOWN
        return
    for title, name, changes in parts(older, bound):
        rows = [(it.name, told(it.before), told(it.now), signed(it.by())) for it in changes if it.by()]
        yield from table(f"{title} that take another time; all that is left out takes as long as before", (f"<{name}", "before", "now", "change"), rows)


def parts(older: Bound, bound: Bound) -> list[tuple[str, str, list[Change]]]:
    return [("Functions", "function", functions(older, bound)), ("Loops, with the functions that they call,", "loop", loops(older, bound))]


def page(older: Bound, bound: Bound, image: str) -> Iterator[str]:
    yield "<h2>Changes</h2>"
    yield f"<p>{clean(headline(older, bound))} The older image is <code>{clean(image)}</code>.</p>"
    if not is_known(older, bound):
        yield f'<p class="note">{clean(NOTHING_KNOWN)}</p>'
        return
    for _, name, changes in parts(older, bound):
        rows = [(Cell(clean(it.name)), Cell(told(it.before), it.before or 0), Cell(told(it.now), it.now or 0),
                 Cell(f"<b>{signed(it.by())}</b>", it.by(), "more" if it.by() > 0 else "less")) for it in changes if it.by()]
        if rows:
            yield from page_table((name, "before", "now", "change"), ("left name", "", "", ""), rows, "narrow")
