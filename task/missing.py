"""The loops of a source that have no bound, with why their form gives none, and what to write."""
import re
import sys
from pathlib import Path
from typing import Any

TOP = Path(__file__).resolve().parent.parent
for folder in ("explain", ""):
    if str(TOP / folder) not in sys.path:
        sys.path.append(str(TOP / folder))
import explain  # noqa: E402
import findings  # noqa: E402
import forms  # noqa: E402
from evaluator import tree  # noqa: E402
from evaluator.answer import FAULTS, checked  # noqa: E402
from places import Lines  # noqa: E402

# A line marker of <wcc.h>, by which a source has its macros.
WITH_MACROS = re.compile(rb'^# \d+ "(?:[^"\n]*/)?wcc\.h"', re.M)


def bound_line(source: bytes, least: int | str, most: int | str) -> str:
    """A bound as the source writes it."""
    return f"LOOPBOUND({least}, {most})" if WITH_MACROS.search(source) else f"#pragma loopbound min {least} max {most}"


def unbounded(path: str, source: bytes, derive: bool) -> list[dict[str, Any]]:
    """Each loop that has no bound: its place, its line, and why its form gives none."""
    try:
        checker, _ = checked(source, need_bounds=False, derive=derive)
    except FAULTS:
        return []
    lines, table = Lines(path, source), explain.entries()
    files = findings.Files(lines, [], [], derive)
    return [described(files, table, it) for it in tree.nodes_of(checker.unit) if isinstance(it, tree.Loop) and it.limits is None]


def described(files: Any, table: Any, loop: Any) -> dict[str, Any]:
    place = files.lines.place(loop.at)
    found = explain.quietly(lambda: list(findings.dropped(files, loop.at)) or list(forms.unbounded(files.at, findings.unit(files), loop.at))) or []
    return {"file": str(place.file), "line": place.number, "column": place.column if place.is_there else None, "place": str(place),
            "shown": place.shown(), "why": [explain.fact_of(table, it) for it in found if it[0] != "form kind"], "write": bound_line(files.source, 0, "N")}
