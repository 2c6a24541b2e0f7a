"""The graph of calls as a picture: callers above callees, each box with its share, each arrow with its calls.

Boxes stand in rows that are no wider than the page. An arrow that passes a row goes through a gap between its boxes, and bends only
between two rows: so it passes behind none.
"""
from collections import defaultdict
from collections.abc import Iterator
from dataclasses import dataclass, field

from bound import Bound
from functions import Code
from text import Numbers, percent
from writing import clean

WIDEST = 1120
MOST = 64  # boxes
HEIGHT, GAP_X, GAP_Y, MARGIN = 46, 28, 66, 10
LETTER = 7.6  # the width of one, at most
LABEL_LETTER, LABEL, DEEP = 6.6, 13, 3  # of a label the width of a letter and the height, and how many stand above each other
LEAST_STEP, MOST_ENDS = 38, 12  # between the ends of two arrows, and of how many at one box
LANE, LANES = 4, 5  # between two arrows that pass a gap
SWEEPS = 6


@dataclass(eq=False)
class Box:
    """A function in the picture."""
    code: Code
    width: float
    row: int = 0
    x: float = 0  # of its middle
    callers: list["Arrow"] = field(default_factory=list)
    callees: list["Arrow"] = field(default_factory=list)

    def y(self) -> int:
        return MARGIN + self.row * (HEIGHT + GAP_Y)


@dataclass(eq=False)
class Arrow:
    """From a caller to a callee in a row below; `passed` are its places in the rows between."""
    caller: Box
    callee: Box
    calls: int
    passed: list[float] = field(default_factory=list)
    end: float = 0
    depth: int = 0  # how many labels stand left of its own


class Picture:
    def __init__(self, bound: Bound) -> None:
        self.bound, self.say = bound, Numbers(bound)
        by_weight = sorted(bound.codes, key=lambda it: (-it.inclusive, -it.calls, it.first))
        shown = {it.first for it in [it for it in by_weight if not it.is_other][:MOST]}
        self.left_out = len(bound.codes) - len(shown)
        self.levels = self.levelled(shown)
        self.rows = packed(self.levels)
        for turn in range(SWEEPS):
            order(self.rows, turn % 2 == 0)
        self.route()

    def levelled(self, shown: set[int]) -> list[list[Box]]:
        """The boxes by levels, each below all of its callers, with arrows between them."""
        callers_first = [it for it in self.bound.functions.callees_first() if it.first in shown][::-1]
        boxes: dict[int, Box] = {}
        level: dict[int, int] = {}
        for code in callers_first:
            boxes[code.first] = Box(code, 0)
            level.setdefault(code.first, 0)
            for first in code.callees:
                if first in shown and first not in boxes:
                    level[first] = max(level.get(first, 0), level[code.first] + 1)
        for box in boxes.values():
            for first, calls in box.code.callees.items():
                if level.get(first, 0) > level[box.code.first]:
                    arrow = Arrow(box, boxes[first], calls)
                    box.callees.append(arrow)
                    boxes[first].callers.append(arrow)
        for box in boxes.values():
            box.width = self.width_of(box)
        levels: list[list[Box]] = [[] for _ in range(max(level.values(), default=0) + 1)]
        for box in sorted(boxes.values(), key=lambda it: it.code.first):
            levels[level[box.code.first]].append(box)
        return levels

    def share_text(self, code: Code) -> str:
        if not self.bound.counts.is_known():
            return ""
        own = percent(self.bound.share(code.cycles))
        return own if not code.callees else f"{own}, with callees {percent(self.bound.share(code.inclusive))}"

    def label(self, arrow: Arrow) -> str:
        return f"{self.say.of(arrow.calls)}×" if self.bound.counts.is_known() else ""

    def width_of(self, box: Box) -> float:
        """Room for its texts, and for the arrows that end at it, up to so many."""
        letters = max(len(box.code.title()) + 3, len(self.share_text(box.code)) + 1)
        label = max((len(self.label(it)) for it in box.callers), default=0) * LABEL_LETTER
        step = max(LEAST_STEP, (label + 8) / DEEP)
        return max(letters * LETTER, label + 10, min(len(box.callers), MOST_ENDS) * step)

    # Arrows

    def route(self) -> None:
        """Leads each arrow through the gaps of the rows that it passes, to a place of its own at its box."""
        taken: dict[tuple[int, float], int] = defaultdict(int)
        for box in (box for row in self.rows for box in row):
            for arrow in box.callees:
                x = arrow.caller.x
                for row in range(arrow.caller.row + 1, arrow.callee.row):
                    goal = x + (arrow.callee.x - x) / (arrow.callee.row - row + 1)
                    gap = min(gaps_of(self.rows[row]), key=lambda it: abs(it - goal))
                    lane = taken[row, gap] % LANES
                    taken[row, gap] += 1
                    x = gap + (lane + 1) // 2 * (LANE if lane % 2 else -LANE)
                    arrow.passed.append(x)
        for box in (box for row in self.rows for box in row):
            coming = sorted(box.callers, key=lambda it: (it.passed or [it.caller.x])[-1])
            step = (box.width - 8) / max(1, min(len(coming), MOST_ENDS))
            for index, arrow in enumerate(coming):
                place = index if len(coming) <= MOST_ENDS else 0.5 * (MOST_ENDS - 1)
                arrow.end = box.x + (place - (min(len(coming), MOST_ENDS) - 1) / 2) * step
                arrow.depth = index % DEEP

    def arrows(self) -> Iterator[Arrow]:
        return (arrow for row in self.rows for box in row for arrow in box.callees)


def width_of(row: list[Box]) -> float:
    return sum(it.width + GAP_X for it in row)


def packed(levels: list[list[Box]]) -> list[list[Box]]:
    """Rows that are no wider than the page: what has no room in one stands in further ones below."""
    rows: list[list[Box]] = []
    for level in levels:
        rows.append([])
        for it in level:
            if width_of(rows[-1]) + it.width + GAP_X > WIDEST and rows[-1]:
                rows.append([])
            rows[-1].append(it)
            it.row = len(rows) - 1
    for row in rows:
        spread(row)
    return rows


def order(rows: list[list[Box]], down: bool) -> None:
    """Puts the boxes of each row beside each other near those to which arrows lead."""
    for row in rows if down else rows[::-1]:
        near = {it: [arrow.caller.x for arrow in it.callers] if down else [arrow.callee.x for arrow in it.callees] for it in row}
        row.sort(key=lambda it: sum(near[it]) / len(near[it]) if near[it] else it.x)
        spread(row)


def spread(row: list[Box]) -> None:
    """Puts the boxes of a row beside each other, around the middle."""
    x = -width_of(row) / 2
    for it in row:
        it.x = x + (it.width + GAP_X) / 2
        x += it.width + GAP_X


def gaps_of(row: list[Box]) -> list[float]:
    """The middles of the gaps beside and between the boxes of a row."""
    return [row[0].x - row[0].width / 2 - GAP_X / 2] + [it.x + it.width / 2 + GAP_X / 2 for it in row]


# Drawing

def path_of(arrow: Arrow) -> str:
    """A curve from the foot of the caller through its places in the rows to its end at the head of the callee."""
    x, y = arrow.caller.x, arrow.caller.y() + HEIGHT
    words = [f"M{x:.1f} {y:.1f}"]
    for number, to in enumerate([*arrow.passed, arrow.end], 1):
        top = MARGIN + (arrow.caller.row + number) * (HEIGHT + GAP_Y)
        middle = (y + top) / 2
        words.append(f"C{x:.1f} {middle:.1f} {to:.1f} {middle:.1f} {to:.1f} {top:.1f}")
        x, y = to, top + HEIGHT
        if number <= len(arrow.passed):
            words.append(f"L{x:.1f} {y:.1f}")
    return " ".join(words)


def arrow_of(picture: Picture, arrow: Arrow) -> Iterator[str]:
    is_taken = arrow.calls or not picture.bound.counts.is_known()
    yield f'<path class="{"arrow" if is_taken else "arrow never"}" d="{path_of(arrow)}" marker-end="url(#tip)"/>'
    callers = len(arrow.callee.callers)
    if callers <= MOST_ENDS:
        yield label_at(arrow.end, arrow.callee.y() - 13 - LABEL * arrow.depth, picture.label(arrow))
    elif arrow.depth == 0 and arrow is arrow.callee.callers[0] and picture.bound.counts.is_known():
        yield label_at(arrow.end, arrow.callee.y() - 13, f"{picture.say.of(arrow.callee.code.calls)}× by {callers} callers")


def label_at(x: float, y: float, text: str) -> str:
    return f'<text class="calls" x="{x:.1f}" y="{y}">{text}</text>' if text else ""


def box_of(picture: Picture, box: Box) -> Iterator[str]:
    bound, code = picture.bound, box.code
    left, top, title = box.x - box.width / 2, box.y(), clean(code.title())
    kind = "box" if code.calls or not bound.counts.is_known() else "box never"
    yield f'<a href="#f-{code.first:08x}"><title>{title}: {picture.say.of(code.cycles)} cycles, called {picture.say.of(code.calls)} times</title>'
    yield f'<rect class="{kind}" x="{left:.1f}" y="{top}" width="{box.width:.1f}" height="{HEIGHT}" rx="6"/>'
    yield f'<rect class="part" x="{left + 1:.1f}" y="{top + HEIGHT - 6}" width="{(box.width - 2) * bound.share(code.cycles):.1f}" height="5"/>'
    share = picture.share_text(code)
    yield f'<text class="name" x="{box.x:.1f}" y="{top + (18 if share else 28)}">{title}</text>'
    yield (f'<text class="share" x="{box.x:.1f}" y="{top + 34}">{share}</text>' if share else "") + "</a>"


def drawn(picture: Picture) -> Iterator[str]:
    """The picture, in lines."""
    boxes = [it for row in picture.rows for it in row]
    left = min(it.x - it.width / 2 for it in boxes) - GAP_X - MARGIN
    right = max(it.x + it.width / 2 for it in boxes) + GAP_X + MARGIN
    width, height = right - left, max(it.y() for it in boxes) + HEIGHT + MARGIN
    yield (f'<div class="scroll"><svg xmlns="http://www.w3.org/2000/svg" viewBox="{left:.1f} 0 {width:.1f} {height}" width="{width:.0f}" '
           f'height="{height}" role="img" aria-label="the graph of calls">')
    yield ('<defs><marker id="tip" viewBox="0 0 8 8" refX="8" refY="4" markerWidth="7" markerHeight="7" orient="auto">'
           '<path d="M0 0L8 4L0 8z"/></marker></defs>')
    for arrow in picture.arrows():
        yield from arrow_of(picture, arrow)
    for it in boxes:
        yield from box_of(picture, it)
    yield "</svg></div>"
