"""What the page shows of a source: its lines as they were written, and what each of them takes."""
import re
from bisect import bisect_right
from collections import defaultdict
from dataclasses import dataclass, field
from functools import cached_property

from bound import Bound
from linemap import LineMap
from source import Part

# A line by which a preprocessor says where the next one comes from.
MARKER = re.compile(r"[ \t]*#[ \t]*(?:line[ \t]+)?[0-9]")


@dataclass
class TextLine:
    """A line of a file, with the lines of the source, by their numbers from 0, that came of it."""
    number: int
    text: str
    sources: list[int] = field(default_factory=list)
    id: str = ""


@dataclass
class File:
    name: str
    lines: list[TextLine] = field(default_factory=list)


@dataclass
class Heat:
    """What the innermost function or loop around a line takes, and whether the line is its first."""
    name: str
    own: int
    is_first: bool


class View:
    """A bound with what its page needs. `texts` are the files that line markers name and that may be shown, by name. Where there is no
    map, `missing` says why."""

    def __init__(self, bound: Bound, line_map: LineMap | None = None, missing: str = "", texts: dict[str, list[str]] | None = None) -> None:
        self.bound, self.map, self.missing, self.texts = bound, line_map, missing, texts or {}
        self.files = self.written() if bound.source else []
        self.ids: dict[tuple[str, int], str] = {}
        for number, file in enumerate(self.files):
            for line in file.lines:
                if (file.name, line.number) not in self.ids:
                    line.id = self.ids[file.name, line.number] = f"s-{number}-{line.number}"

    def line_id(self, file: str, number: int) -> str | None:
        return self.ids.get((file, number))

    # Lines

    def written(self) -> list[File]:
        """The files with their lines: as they were before the preprocessor, where that may be read."""
        source = self.bound.source
        files: dict[str, File] = {}
        lines = list(enumerate(source.text_lines()))
        while lines and not lines[-1][1][1].strip():
            lines.pop()
        number_before, is_close, before = None, True, None
        for at, (line, said) in lines:
            name = str(line.file)
            if source.is_prepared and (MARKER.match(said) or name in self.texts):
                continue
            if name != before:
                before, number_before, is_close = name, None, True
            is_blank = not said.strip()
            if source.is_prepared and is_blank and (is_close or line.number == number_before):
                continue
            number_before, is_close = line.number, is_blank or said.lstrip().startswith("#pragma")
            files.setdefault(name, File(name)).lines.append(TextLine(line.number, said, [at]))
        files.update({name: self.own(name) for name in self.shown_texts()})
        return list(files.values())

    def shown_texts(self) -> list[str]:
        """The files that have a function of the source."""
        lines = self.bound.source.lines.lines
        return list(dict.fromkeys(name for it in self.bound.source.functions.values() if (name := str(lines[it.first].file)) in self.texts))

    def own(self, name: str) -> File:
        file = File(name, [TextLine(number, said) for number, said in enumerate(self.texts[name], 1)])
        while file.lines and not file.lines[-1].text.strip():
            file.lines.pop()
        for at, line in enumerate(self.bound.source.lines.lines):
            if str(line.file) == name and 0 < line.number <= len(file.lines):
                file.lines[line.number - 1].sources.append(at)
        return file

    # What lines take

    @cached_property
    def by_line(self) -> dict[int, list[int]]:
        """The addresses of each line of the source."""
        found: dict[int, list[int]] = defaultdict(list)
        for at, line in sorted(self.map.line_of.items()):
            found[line].append(at)
        return found

    def addresses(self, line: TextLine) -> list[int]:
        return [at for it in line.sources for at in self.by_line.get(it, ())]

    @cached_property
    def heats(self) -> dict[int, Heat]:
        """Of each line of the source the innermost function or loop, where instructions can't be told apart by lines."""
        parts = self.parts()
        found: dict[int, Heat] = {}
        open_parts: list[tuple[Part, str, int]] = []
        begins = sorted(parts, key=lambda it: (it[0].first, -it[0].last))
        place, index = 0, 0
        while index < len(begins) or open_parts:
            place = place if open_parts else begins[index][0].first
            while index < len(begins) and begins[index][0].first <= place:
                open_parts.append(begins[index])
                index += 1
            part, name, own = open_parts[-1]
            found[place] = Heat(name, own, place == part.first)
            place += 1
            while open_parts and open_parts[-1][0].last < place:
                open_parts.pop()
        return found

    def parts(self) -> list[tuple[Part, str, int]]:
        """The functions and loops of the source, each with its name and its own cycles."""
        bound = self.bound
        loops: dict[int, int] = defaultdict(int)
        for it in bound.loops:
            loops[it.number] += it.own
        owns = {it.name: bound.own_of(it) for it in bound.codes}
        functions = [(it, it.name, owns.get(it.name, 0)) for it in bound.source.functions.values()]
        return functions + [(it, f"loop {number}", loops[number]) for number, it in enumerate(bound.source.loops, 1)]

    # Functions in the code of others

    def inlined(self) -> dict[int, list[tuple[str, int, int | None]]]:
        """By the first address of a function those that stand in its code: the name, the calls, and the cycles where they are known."""
        bound = self.bound
        found: dict[int, list[tuple[str, int, int | None]]] = defaultdict(list)
        cycles = self.inlined_cycles() if self.map else {}
        for name, places in bound.inlined:
            calls: dict[int, int] = defaultdict(int)
            for at in places:
                if (code := bound.code_of(at)) is not None:
                    calls[code.first] += bound.counts.at.get(at, 0)
            for first, count in calls.items():
                found[first].append((name, count, cycles.get((first, name), 0) if self.map else None))
        for rows in found.values():
            rows.sort(key=lambda it: -(it[2] or 0))
        return found

    def inlined_cycles(self) -> dict[tuple[int, str], int]:
        found: dict[tuple[int, str], int] = defaultdict(int)
        for at, line in self.map.line_of.items():
            code, name = self.bound.code_of(at), self.function_at(line)
            if code is not None and name is not None and name != code.name:
                found[code.first, name] += self.bound.counts.cycles.get(at, 0)
        return found

    @cached_property
    def in_order(self) -> list[Part]:
        return sorted(self.bound.source.functions.values(), key=lambda it: it.first)

    @cached_property
    def first_lines(self) -> list[int]:
        return [it.first for it in self.in_order]

    def function_at(self, line: int) -> str | None:
        index = bisect_right(self.first_lines, line) - 1
        return self.in_order[index].name if index >= 0 and line <= self.in_order[index].last else None

    def line_at(self, at: int) -> tuple[str, int] | None:
        """The file and the line of an address."""
        if self.map is None or at not in self.map.line_of:
            return None
        line = self.bound.source.lines.lines[self.map.line_of[at]]
        return str(line.file), line.number
