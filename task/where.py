"""Where the time of a bound goes: the cycles of each loop without those in it, and of each function without its loops.

These parts don't overlap, and all together are the bound. They are of the flow that the report lists: a report of the kind
`empty`, `wide` or `spent` lists none.
"""
import sys
from collections import defaultdict
from fractions import Fraction
from pathlib import Path
from typing import Any

TOP = Path(__file__).resolve().parent.parent
for folder in ("show", "explain", ""):
    if str(TOP / folder) not in sys.path:
        sys.path.append(str(TOP / folder))
from bound import Bound  # noqa: E402
from simulator import reports  # noqa: E402
from simulator.costs import DEFAULT, costs_of  # noqa: E402
from simulator.images import read_image, region_of  # noqa: E402
from source import Source  # noqa: E402

from task.files import read  # noqa: E402

W = 2


def sizes(image: bytes) -> dict[str, int]:
    """The bytes of an image by what they are: code and constants in flash, what lies in the scratchpad, and variables in RAM."""
    found = {"flash": 0, "spm": 0, "ram": 0}
    for it in read_image(image)[1]:
        if region := region_of(it.start):
            found[region] += it.end - it.start
    return found


def costs_from(table: str | None) -> Any:
    if table is None:
        return DEFAULT
    import tomllib
    return costs_of(tomllib.loads(read(table).decode()))


def places(image: bytes, report: bytes, table: str | None, path: str, prepared: bytes) -> list[dict[str, Any]]:
    """The parts of the bound, the largest first."""
    bound = Bound(image, reports.read(report), costs_from(table), Source(path, prepared))
    parts: dict[Any, Fraction] = defaultdict(Fraction)
    for it in bound.loops:
        parts[("loop", it.number)] += it.own
    for it in bound.codes:
        parts[("function", it.name)] += bound.own_of(it)
    of = {**{("loop", it.number): (it.part, it.code) for it in bound.loops}, **{("function", it.name): (None, it) for it in bound.codes}}
    largest = sorted(parts.items(), key=lambda it: -it[1])
    return [described(bound, *of[key], cycles) for key, cycles in largest if cycles]


def described(bound: Bound, part: Any, code: Any, cycles: Fraction) -> dict[str, Any]:
    title = code.title() if code else "-"
    if part is None:
        part = bound.source.functions.get(code.name)
        what = f"{title}, outside its loops" if any(it.code is code for it in bound.loops) else title
    else:
        what = f"{part.name} in {title}"
    where = {} if part is None else {"file": str(part.place.file), "line": part.place.number}
    return {"cycles": round(bound.counts.real(cycles)), "share": round(float(bound.share(cycles)), 4), "what": what, **where}
