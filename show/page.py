"""One page that needs nothing else: tables, the graph of calls, the source with what its lines take, and the listing."""
from collections.abc import Iterator
from pathlib import Path

import compare
import page_tables
import text
from bound import Bound, Row
from page_listing import listing, shown_codes
from page_source import source
from tally import LISTED
from text import number
from view import View
from writing import clean

HERE = Path(__file__).resolve().parent


def rows_of(bound: Bound) -> dict[int, Row]:
    """The rows of the functions that the page lists, by address."""
    return {row.at: row for code in shown_codes(bound) for row in bound.rows(code)}


def head(bound: Bound, image: str) -> Iterator[str]:
    name = clean(image)
    style = (HERE / "page.css").read_text(encoding="utf-8")
    yield (f'<head><meta charset="utf-8"/><meta name="viewport" content="width=device-width, initial-scale=1"/>'
           f"<title>{name}: where the time goes</title><style>\n{style}</style></head>")
    yield "<body>"
    yield f"<h1>{name}</h1>"
    yield f'<p><span class="cycles">{number(bound.report.cycles)}</span> cycles</p>'
    yield f"<p>{clean(text.headline(bound))} <code>wcc check</code> accepted the report.</p>"
    for said in text.basis(bound):
        yield f"<p>{clean(said)}</p>"
    path = ("What is shown is the path of the bound: counts that keep the claims and take as long as the bound. No run need take it. "
            if bound.counts.origin == LISTED else "")
    yield f'<p class="note">{path}The bound is proved; this page is drawn by a tool beside the program, and isn’t.</p>'


def page(view: View, image: str, older: tuple[Bound, str] | None = None) -> str:
    """The page of an image; `older` is what it is compared with, and the name of that image."""
    rows = rows_of(view.bound)
    lines = ["<!DOCTYPE html>", '<html lang="en" xmlns="http://www.w3.org/1999/xhtml">', *head(view.bound, image)]
    if older is not None:
        lines += compare.page(older[0], view.bound, older[1])
    for part in (page_tables.functions, page_tables.calls, page_tables.loops, page_tables.markers, page_tables.restrictions):
        lines += part(view)
    lines += source(view, rows)
    lines += listing(view, rows)
    script = (HERE / "page.js").read_text(encoding="utf-8")
    return "\n".join([*lines, f"<script>\n{script}</script>", "</body>", "</html>", ""])
