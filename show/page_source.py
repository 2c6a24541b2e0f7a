"""The source in the page: each line with what it takes, and its instructions under it."""
from collections.abc import Iterator

import text
from bound import Row
from page_listing import instruction
from text import Numbers, number, percent
from view import File, TextLine, View
from writing import clean, shade


def source(view: View, rows: dict[int, Row]) -> Iterator[str]:
    if not view.files:
        return
    yield "<h2>Source</h2>"
    yield f'<p class="note">{note(view)}</p>'
    for file in view.files:
        if len(view.files) > 1 or view.bound.source.is_prepared:
            yield f"<h3>{clean(file.name)}</h3>"
        yield from (mapped(view, file, rows) if view.map else shaded(view, file))


def note(view: View) -> str:
    if view.map and not view.bound.counts.is_known():
        return "Under each line stand, at a click, its instructions." + clean(view.map.remark())
    if view.map:
        return ("Beside each line stands what its instructions take, and under it, at a click, the instructions. All lines together are "
                f"{text.whole(view.bound)}, but for the start code." + clean(view.map.remark()))
    said = (f"Each line is shaded by what the innermost loop or function around it has of {text.whole(view.bound)}, without the loops and functions "
            "within. So the numbers at the side add up to it, but for the start code. ") if view.bound.counts.is_known() else ""
    return said + "Which instruction comes of which line isn’t known: " + view.missing


def mapped(view: View, file: File, rows: dict[int, Row]) -> Iterator[str]:
    say = Numbers(view.bound)
    yield '<table class="source"><tbody>'
    for line in file.lines:
        places = view.addresses(line)
        cycles = sum(view.bound.counts.cycles.get(at, 0) for at in places)
        share = view.bound.share(cycles)
        said = clean(line.text)
        if places and rows:
            under = "".join(instruction(view, rows[at]) for at in places)
            said = f'<details><summary>{said}</summary><table class="listing"><tbody>{under}</tbody></table></details>'
        yield source_line(line, shade(share), say.of(cycles) if places and view.bound.counts.is_known() else "", percent(share) if cycles else "", said)
    yield "</tbody></table>"


def source_line(line: TextLine, style: str, took: str, share: str, said: str) -> str:
    name = f' id="{line.id}"' if line.id else ""
    return (f'<tr{name}{style}><td class="line">{line.number}</td><td class="took">{took}</td><td class="heat">{share}</td>'
            f'<td class="text">{said}</td></tr>')


def shaded(view: View, file: File) -> Iterator[str]:
    yield '<table class="source"><tbody>'
    for line in file.lines:
        heat = view.heats.get(line.sources[0]) if line.sources else None
        share = view.bound.share(heat.own) if heat else 0
        side = percent(share) if heat and heat.own and heat.is_first else ""
        style = shade(share) + (f' title="{clean(heat.name)}: {number(heat.own // view.bound.counts.unit)} cycles, {percent(share)}"' if share else "")
        yield source_line(line, style, "", side, clean(line.text))
    yield "</tbody></table>"
