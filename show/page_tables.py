"""The tables of the page: functions, loops, markers and restrictions."""
from collections.abc import Iterator

import graph
import text
from bound import Bound, Fact, Loop
from functions import Code
from places import Place
from text import Numbers, number
from view import View
from writing import Cell, clean, link, table


def bar(share: float) -> Cell:
    return Cell(f'<div style="width: {min(max(share, 0), 1) * 100:.2f}%"></div>')


def place_cell(view: View, place: Place | None, more: str = "") -> Cell:
    """A place in the source, with a link to its line in the page."""
    if place is None:
        return Cell(more)
    line = view.line_id(str(place.file), place.number)
    said = clean(str(place) + more)
    return Cell(link(line, said) if line else said)


def functions(view: View) -> Iterator[str]:
    bound = view.bound
    yield "<h2>Functions</h2>"
    if not bound.counts.is_known():
        yield '<p class="note">What each takes isn’t known.</p>'
        rows = [(Cell(named(it)), count_cell((it.end - it.first) // 4), place_cell(view, text.function_place(bound, it))) for it in bound.codes]
        yield from table(("function", "instructions", "place"), ("left name", "", "left place"), rows, "narrow")
        return
    yield (f'<p class="note">The share of a function is what its own code takes of {text.whole(bound)}, over all calls {text.on_path(bound)} and without '
           f"what it calls. All shares together are {text.whole(bound)}.{inlined_note(view)}</p>")
    yield from table(("function", "", "share", "cycles", "calls", "with callees", "place"),
                     ("left name", "left bar", "", "", "", "", "left place"), function_rows(view))


def inlined_note(view: View) -> str:
    if not any(places for _, places in view.bound.inlined):
        return ""
    return (" A function that stands in the code of another has a row of its own below it, which is a part of that one’s."
            if view.map else " What a function takes that stands in the code of another is a part of that one’s.")


def function_rows(view: View) -> Iterator[tuple[Cell, ...]]:
    bound, say = view.bound, Numbers(view.bound)
    within = view.inlined()
    for it in text.by_share(bound):
        share = bound.share(it.cycles)
        yield (Cell(named(it)), bar(share), Cell(say.share(it.cycles), it.cycles), Cell(say.of(it.cycles), it.cycles), Cell(say.of(it.calls), it.calls),
               Cell(say.of(it.inclusive), it.inclusive), place_cell(view, text.function_place(bound, it)))
        for name, calls, cycles in within.get(it.first, ()):
            part = bound.source.functions.get(name) if bound.source else None
            known = cycles is not None
            yield (Cell(f"{clean(name)} in {clean(it.title())}", kind="within"), bar(bound.share(cycles) if known else 0),
                   Cell(say.share(cycles) if known else "-", cycles or 0), Cell(say.of(cycles) if known else "-", cycles or 0), Cell(say.of(calls), calls),
                   Cell("", 0), place_cell(view, part.place if part else None))


def named(code: Code) -> str:
    """A function's name in the table, to which its listing leads back."""
    return f'<span id="t-{code.first:08x}">{code_link(code)}</span>'


def code_link(code: Code) -> str:
    return link(f"f-{code.first:08x}", clean(code.title()))


def count_cell(value: int) -> Cell:
    return Cell(number(value), value)


def calls(view: View) -> Iterator[str]:
    picture = graph.Picture(view.bound)
    yield "<h2>Calls</h2>"
    said = f"At each arrow stands how often the call is made {text.on_path(view.bound)}." if view.bound.counts.is_known() else "Who calls whom."
    if picture.left_out:
        said += f" Drawn are the {graph.MOST} functions that take most with what they call; {number(picture.left_out)} more are in the table."
    yield f'<p class="note">{said}</p>'
    yield from graph.drawn(picture)


def loops(view: View) -> Iterator[str]:
    bound = view.bound
    if not bound.loops:
        return
    yield "<h2>Loops</h2>"
    yield ('<p class="note">A start is a visit of the loop’s head; where the loop has its test in front, the last test is one too. The cycles are those '
           "of the loop with the functions that it calls. One more start in an entry would cost so many cycles, where the bound is tight.</p>")
    heads = ("loop", "in", "starts", "entries", "claimed", "bound", "cycles", "share", "one more", "place")
    yield from table(heads, ("left", "left name", "", "", "", "", "", "", "", "left place"), (loop_row(view, it) for it in text.in_order(bound)))


def loop_row(view: View, it: Loop) -> tuple[Cell, ...]:
    bound, say = view.bound, Numbers(view.bound)
    title = link(f"i-{it.header:08x}", f"{it.number}" + (f" by {it.factor}" if it.factor > 1 else ""))
    limits = it.part.limits if it.part else None
    place = place_cell(view, it.part.place, f": {it.part.name}") if it.part else Cell(f"{it.header:08x}")
    return (Cell(title, it.number), Cell(code_link(it.code) if it.code else ""), Cell(say.of(it.starts), it.starts), Cell(say.of(it.entries), it.entries),
            Cell(text.limits_text((it.least, it.most)), it.most), Cell(text.limits_text(limits) if limits else "", limits[1] if limits else 0),
            Cell(say.of(it.inclusive), it.inclusive), Cell(say.share(it.inclusive), it.inclusive), Cell(text.one_more(bound, it.by[1]), it.by[1]), place)


def markers(view: View) -> Iterator[str]:
    bound, say = view.bound, Numbers(view.bound)
    if bound.markers:
        rows = [(Cell(say.of(bound.counts.of(at)), bound.counts.of(at)), Cell(clean(name)), place_cell(view, text.marker_place(bound, name)))
                for name, at in bound.markers]
        yield "<h2>Markers</h2>"
        yield from table(("count", "marker", "place"), ("", "left name", "left place"), rows, "narrow")


def restrictions(view: View) -> Iterator[str]:
    if view.bound.facts:
        yield "<h2>Restrictions</h2>"
        said, counts = text.fact_heads(view.bound)
        yield f'<p class="note">{clean(said[0].upper() + said[1:]).replace("`", "")}.</p>'
        yield from table(("left", "", "right", counts, "one more", "restriction", "place"),
                         ("", "left", "", "left", "", "left name sum", "left place"), (fact_row(view, it) for it in view.bound.facts))


def fact_row(view: View, it: Fact) -> tuple[Cell, ...]:
    left, sign, right, tight, more, said, _ = text.fact_row(view.bound, it)
    return (Cell(left, it.left), Cell(clean(sign)), Cell(right, it.right), Cell(tight), Cell(more, it.by), Cell(clean(said)), place_cell(view, it.place))
