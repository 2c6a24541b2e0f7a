"""What `show` prints: tables of functions, loops, markers and restrictions, and the listing."""
from collections.abc import Iterable, Iterator, Sequence
from fractions import Fraction

from bound import Bound, Code, Fact, Loop, Row
from places import Place
from simulator import reports
from tally import LISTED, WALK

BAR = 30  # characters of a whole bound
BLOCKS = " ▏▎▍▌▋▊▉█"
UNKNOWN = "-"


def number(value: int | Fraction) -> str:
    """A number for people: whole ones as they are, others rounded to what one wants to know of them."""
    if isinstance(value, int) or value.denominator == 1:
        return f"{int(value):,}"
    if abs(value) >= 100:
        return f"{round(value):,}"
    if abs(value) >= Fraction(1, 10):
        return f"{float(value):.1f}"
    return f"{float(value):.3f}" if abs(value) >= Fraction(1, 1000) else "<0.001" if value > 0 else ">-0.001"


def percent(share: float) -> str:
    return f"{share * 100:.1f}%"


def bar(share: float, width: int = BAR) -> str:
    whole, eighths = divmod(round(min(max(share, 0), 1) * width * 8), 8)
    return ("█" * whole + BLOCKS[eighths].strip()).ljust(width)


class Numbers:
    """The counts and cycles of a bound as they are written: a dash, where nothing is known of them."""

    def __init__(self, bound: Bound) -> None:
        self.bound, self.counts = bound, bound.counts

    def of(self, parts: int | Fraction) -> str:
        if not self.counts.is_known():
            return UNKNOWN
        return number(parts if self.counts.unit == 1 else Fraction(parts) / self.counts.unit)

    def share(self, parts: int | Fraction) -> str:
        return percent(self.bound.share(parts)) if self.counts.is_known() else UNKNOWN


# What a bound is

def headline(bound: Bound) -> str:
    cycles = number(bound.report.cycles)
    if bound.kind == reports.GREATEST:
        return f"No run that keeps the claims takes more than {cycles} cycles, and no smaller bound follows from them."
    if bound.kind == reports.EMPTY:
        return "No run keeps the claims: there is no path to show."
    return f"No run that keeps the claims takes more than {cycles} cycles. A smaller bound may follow from them: the search for it was stopped."


def basis(bound: Bound) -> list[str]:
    """What the counts are those of, in sentences, where the report lists no path."""
    if bound.counts.origin == LISTED:
        return []
    if bound.kind == reports.EMPTY:
        return ["So nothing is counted here. " + ("Some of the restrictions below can't hold together with the bounds of the loops."
                                                  if bound.facts else "The bounds of the loops can't hold.")]
    stopped = "a number that was too wide" if bound.kind == reports.WIDE else "its greatest number of steps"
    said = [f"The search stopped at {stopped}, and the report lists no path that takes as many cycles."]
    if bound.counts.origin == WALK:
        total, over = bound.counts.total, bound.counts.total - bound.report.cycles
        said.append("What is counted is the dearest walk at the prices that the report sets on the restrictions: it keeps the bounds of loops and need "
                    f"not keep the restrictions. It takes {number(total)} cycles, "
                    + ("as many as the bound." if not over else f"and the prices take {number(over)} off." if over > 0 else
                       f"and the prices add {number(-over)}."))
    else:
        said.append("How often anything comes can't be told from it: what is known are the bounds of the loops and what one more costs.")
    return said


def on_path(bound: Bound) -> str:
    return "on the walk" if bound.counts.origin == WALK else "on the worst path"


def whole(bound: Bound) -> str:
    return "the walk" if bound.counts.origin == WALK else "the bound"


# Tables

def table(title: str, heads: Sequence[str], rows: Iterable[Sequence[str]]) -> Iterator[str]:
    """Lines in columns: a head that begins with `<` is set to the left."""
    rows = [list(map(str, it)) for it in rows]
    if not rows:
        return
    names = [it.removeprefix("<") for it in heads]
    wide = [max(map(len, column)) for column in zip(names, *rows)]
    yield from ["", f"{title}:"]
    for row in [names, *rows]:
        cells = (cell.ljust(width) if head.startswith("<") else cell.rjust(width) for cell, head, width in zip(row, heads, wide))
        yield ("  " + "  ".join(cells)).rstrip()


def by_share(bound: Bound) -> list[Code]:
    return sorted(bound.codes, key=lambda it: (-it.cycles, it.first))


def place_of(thing: Place | None) -> str:
    return "" if thing is None else str(thing)


def function_place(bound: Bound, code: Code) -> Place | None:
    part = bound.source.functions.get(code.name) if bound.source else None
    return part.place if part else None


def functions(bound: Bound) -> Iterator[str]:
    it = Numbers(bound)
    if not bound.counts.is_known():
        rows = [(code.title(), number((code.end - code.first) // 4), place_of(function_place(bound, code))) for code in bound.codes]
        yield from table("Functions; what each takes isn't known", ("<function", "instructions", "<"), rows)
        return
    rows = [(code.title(), it.share(code.cycles), bar(bound.share(code.cycles)), it.of(code.cycles), it.of(code.calls),
             it.of(code.inclusive), place_of(function_place(bound, code))) for code in by_share(bound)]
    yield from table(f"Functions, by their share of {whole(bound)}",
                     ("<function", "share", "<", "cycles", "calls", "with callees", "<"), rows)


def limits_text(limits: tuple[int, int]) -> str:
    least, most = limits
    return f"{least:,} to {most:,}"


def one_more(bound: Bound, by: int) -> str:
    """What one more costs by a multiplier, or nothing where the claim isn't tight."""
    return number(Fraction(by, bound.report.scale)) if by and bound.kind != reports.EMPTY else UNKNOWN


def loop_place(it: Loop) -> str:
    return f"{it.part.place}: {it.part.name}" if it.part else f"{it.header:08x}"


def loop_rows(bound: Bound) -> Iterator[tuple[str, ...]]:
    say = Numbers(bound)
    for it in in_order(bound):
        unrolled = f" by {it.factor}" if it.factor > 1 else ""
        yield (f"{it.number}{unrolled}", it.code.title() if it.code else "", say.of(it.starts), say.of(it.entries),
               limits_text((it.least, it.most)), limits_text(it.part.limits) if it.part and it.part.limits else "",
               say.of(it.inclusive), say.share(it.inclusive), one_more(bound, it.by[1]), loop_place(it))


def in_order(bound: Bound) -> list[Loop]:
    return sorted(bound.loops, key=lambda it: (it.number, it.header))


LOOP_HEADS = ("loop", "<in", "starts", "entries", "claimed", "bound", "cycles", "share", "one more", "<")


def loops(bound: Bound) -> Iterator[str]:
    yield from table("Loops, with the functions that they call; `one more` start in an entry costs so many cycles", LOOP_HEADS, loop_rows(bound))


def marker_place(bound: Bound, name: str) -> Place | None:
    part = bound.source.markers.get(name) if bound.source else None
    return part.place if part else None


def markers(bound: Bound) -> Iterator[str]:
    it = Numbers(bound)
    rows = [(it.of(bound.counts.of(at)), name, place_of(marker_place(bound, name))) for name, at in bound.markers]
    yield from table(f"Markers, with their counts {on_path(bound)}", ("count", "<marker", "<"), rows)


def fact_row(bound: Bound, it: Fact) -> tuple[str, ...]:
    say = Numbers(bound)
    return (say.of(it.left), it.sign, say.of(it.right), "yes" if it.by else "no", one_more(bound, it.by), it.text, place_of(it.place))


def fact_heads(bound: Bound) -> tuple[str, str]:
    """What is said above restrictions, and above the words that say which of them count."""
    if bound.kind == reports.EMPTY:
        return "those that are at odds can't hold together with the bounds of the loops", "at odds"
    if bound.counts.origin != LISTED:
        return "the bound rests on those that are priced, and `one more` on their right side costs so many cycles", "priced"
    return "where one is tight, `one more` on the right side costs so many cycles", "tight"


def restrictions(bound: Bound) -> Iterator[str]:
    said, counts = fact_heads(bound)
    yield from table(f"Restrictions; {said}", ("left", "<", "right", f"<{counts}", "one more", "<restriction", "<"),
                     (fact_row(bound, it) for it in bound.facts))


# The listing

def visit_text(row: Row) -> str:
    """The cycles of a visit; of a branch those where it isn't taken and where it is."""
    return "/".join(map(str, row.visit)) or UNKNOWN


def label_of(bound: Bound, at: int, name: str) -> str:
    loop = bound.loop_at.get(at)
    place = loop.part.place if loop and loop.part and loop.title() == name else None
    if name.startswith("marker "):
        place = marker_place(bound, name.removeprefix("marker "))
    return f"{name}, {place}" if place else name


def listing(bound: Bound) -> Iterator[str]:
    it = Numbers(bound)
    yield from ["", f"Listing: the address, the instruction, its count {on_path(bound)}, the cycles of one visit (a branch not taken and taken),",
                "those of all visits, and the region it is fetched from:"]
    for code in bound.codes:
        place = function_place(bound, code)
        yield from ["", f"{code.title()}:" + (f"  {place}" if place else "")]
        for row in bound.rows(code):
            yield from (f"  {label_of(bound, row.at, name)}:" for name in bound.labels.get(row.at, ()))
            yield (f"    {row.at:08x}  {row.name:<6} {row.operands:<28} {it.of(row.count):>9} {visit_text(row):>7} "
                   f"{it.of(row.total):>11}  {row.region}")


def summary(bound: Bound) -> Iterator[str]:
    yield headline(bound)
    yield from basis(bound)
    for part in (functions, loops, markers, restrictions):
        yield from part(bound)
