"""How things stand in a page: texts of files are no markup there, and tables have columns that sort."""
from collections.abc import Iterable, Iterator, Sequence
from dataclasses import dataclass
from fractions import Fraction
from html import escape

from places import printable


def clean(text: str) -> str:
    """A text as it is written into a page: signs that can't be printed are question marks there, as they are on a terminal."""
    return escape(printable(text))


def link(to: str, text: str) -> str:
    return f'<a href="#{to}">{text}</a>'


@dataclass(frozen=True)
class Cell:
    """What stands in a cell, ready to be written, and by which number its row is sorted; by the text, where there is none."""
    text: str
    by: int | float | Fraction | None = None
    kind: str = ""


def row(cells: Iterable[Cell], kinds: Iterable[str]) -> str:
    return f"<tr>{''.join(cell_of(cell, kind) for cell, kind in zip(cells, kinds))}</tr>"


def cell_of(cell: Cell, kind: str) -> str:
    kind = f"{kind} {cell.kind}".strip()
    by = "" if cell.by is None else f' data-value="{float(cell.by):.15g}"'
    return f"<td{f' class={chr(34)}{kind}{chr(34)}' if kind else ''}{by}>{cell.text}</td>"


def table(heads: Sequence[str], kinds: Sequence[str], rows: Iterable[Sequence[Cell]], kind: str = "wide") -> Iterator[str]:
    """A table in a box that scrolls; what has a name in its head sorts by it."""
    yield f'<div class="scroll"><table class="{kind}"><thead><tr>'
    yield "".join(f'<th{" class=" + chr(34) + "left" + chr(34) if of else ""}{" data-sorts=" + chr(34) + chr(34) if head else ""}>{head}</th>'
                  for head, of in zip(heads, kinds))
    yield "</tr></thead><tbody>"
    yield from (row(it, kinds) for it in rows)
    yield "</tbody></table></div>"


def shade(share: float) -> str:
    """The strength of the colour behind a line by its part of the whole."""
    return f' style="--part: {0.06 + 0.5 * min(share, 1) ** 0.6:.2f}"' if share > 0 else ""
