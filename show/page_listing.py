"""The listing in the page: each function's instructions, with links to the lines that they come of."""
from collections.abc import Iterator

import text
from bound import Bound, Row
from functions import Code
from text import Numbers, number
from view import View
from writing import clean, link, shade

MOST_ROWS = 30_000  # of all functions together, those that take most first


def shown_codes(bound: Bound) -> list[Code]:
    """The functions that have room in the page, in the order of their addresses."""
    left, found = MOST_ROWS, []
    for code in text.by_share(bound):
        size = (code.end - code.first) // 4
        if size <= left:
            left -= size
            found.append(code)
    return sorted(found, key=lambda it: it.first)


def listing(view: View, rows: dict[int, Row]) -> Iterator[str]:
    bound = view.bound
    yield "<h2>Listing</h2>"
    yield ('<p class="note">The address, the instruction, its count, the cycles of one visit (of a branch not taken and taken), those of all visits, '
           "and the region it is fetched from.</p>")
    codes = shown_codes(bound)
    if len(codes) < len(bound.codes):
        yield (f'<p class="note">{number(len(bound.codes) - len(codes))} functions that take least have no room here: <code>wcc show IMAGE REPORT</code> '
               "prints all.</p>")
    for code in codes:
        yield from function(view, code, rows)


def function(view: View, code: Code, rows: dict[int, Row]) -> Iterator[str]:
    bound, say = view.bound, Numbers(view.bound)
    took = f", {say.of(code.cycles)} cycles, {say.share(code.cycles)}" if bound.counts.is_known() else ""
    place = text.function_place(bound, code)
    line = view.line_id(str(place.file), place.number) if place else None
    back = link(f"t-{code.first:08x}", "table") + (", " + link(line, clean(str(place))) if line else "")
    yield (f'<details><summary id="f-{code.first:08x}"><b>{clean(code.title())}</b>{took} <span class="note">{back}</span></summary>'
           '<div class="scroll"><table class="listing"><tbody>')
    for at in range(code.first, code.end, 4):
        if at in rows:
            for name in bound.labels.get(at, ()):
                yield f'<tr><td class="label" colspan="8">{clean(text.label_of(bound, at, name))}</td></tr>'
            yield instruction(view, rows[at], is_listing=True)
    yield "</tbody></table></div></details>"


def instruction(view: View, it: Row, is_listing: bool = False) -> str:
    """The row of an instruction: in the listing it leads to its line, and under a line to the listing."""
    say, share = Numbers(view.bound), view.bound.share(it.total)
    name, address = f"i-{it.at:08x}", f"{it.at:08x}"
    cells = [f"<td>{address if is_listing else link(name, address)}</td>", f'<td class="left">{it.name}</td>', f'<td class="left">{clean(it.operands)}</td>',
             f"<td>{say.of(it.count)}</td>", f"<td>{text.visit_text(it)}</td>", f"<td>{say.of(it.total)}</td>", f'<td class="left">{it.region}</td>']
    if is_listing:
        cells.append(f'<td class="left">{line_link(view, it.at)}</td>')
    known = f' id="{name}"' if is_listing else ""
    return f"<tr{known}{shade(min(1, share * 8))}>{''.join(cells)}</tr>"


def line_link(view: View, at: int) -> str:
    place = view.line_at(at)
    if place is None:
        return ""
    name = view.line_id(*place)
    said = clean(f"{place[0].rpartition('/')[2]}:{place[1]}")
    return link(name, said) if name else said
