"""The text of reports, read and written as docs/FORMATS.md says, and from that page alone."""
import re
from dataclasses import dataclass, field

GREATEST, EMPTY, WIDE, SPENT = "greatest", "empty", "wide", "spent"
LINE, NUMBER = 1, 2  # the faults of a line


class ReportFault(Exception):
    def __init__(self, cause, line):
        super().__init__(f"report-{cause} {line}")
        self.cause, self.line = cause, line


@dataclass
class Report:
    version: int = 1
    cycles: int = 0
    kind: tuple = (GREATEST,)  # the word and its numbers
    copies: list = field(default_factory=list)  # (name, addresses)
    exits: list = field(default_factory=list)  # addresses
    nevers: list = field(default_factory=list)  # (source, factor, address)
    regions: list = field(default_factory=list)  # (first, end, letters)
    loops: list = field(default_factory=list)  # (source, factor, min, max, header, back)
    facts: list = field(default_factory=list)  # (left, sign, right), a side being a list of (number, address)
    never_by: list = field(default_factory=list)  # multipliers
    loop_by: list = field(default_factory=list)  # pairs of multipliers
    fact_by: list = field(default_factory=list)
    columns: list = field(default_factory=list)  # (value, totals)
    scale: int = 1
    potentials: list = field(default_factory=list)  # (address, number)
    unit: int = 0
    flow: list = field(default_factory=list)  # (address, move, number)
    shares: list = field(default_factory=list)  # (name or None, first, end, number)

    def claim_count(self):
        return sum(map(len, (self.exits, self.nevers, self.regions, self.loops, self.facts)))


# The parts of a line. A number has no leading zero, and 0 no sign.
N = r"(0|[1-9][0-9]*)"
Z = r"(0|-?[1-9][0-9]*)"
A = r"([0-9a-f]{8})"
NAME = r"([A-Za-z_][A-Za-z0-9_]*)"
TERM = r"(?:0|[1-9][0-9]*)\*[0-9a-f]{8}"
SUM = rf"(0|{TERM}(?: \+ {TERM})*)"
SET = r"(f?s?r?)"

FORMS = {
    "version": r"version 2",
    "cycles": rf"cycles {N}",
    "kind": rf"kind (?:(greatest|empty)|(wide) {N}|(spent) {N} {N})",
    "copy": rf"copy {NAME}((?: [0-9a-f]{{8}})*)",
    "exit": rf"exit {A}",
    "never": rf"never {N} {N} {A} {Z}",
    "region": rf"region {A} {A} {SET}",
    "loop": rf"loop {N} {N} {N} {N} {A} {A} {Z} {Z}",
    "fact": rf"fact {Z} {SUM} (<=|>=|=) {SUM}",
    "column": rf"column {Z}((?: (?:0|-?[1-9][0-9]*))*)",
    "scale": rf"scale {N}",
    "potential": rf"potential {A} {Z}",
    "unit": rf"unit {N}",
    "flow": rf"flow {A} {N} {N}",
    "share": rf"share (?:{NAME}|-) {A} {A} {N}",
    "end": r"end",
}
FORMS = {word: re.compile(form.encode()) for word, form in FORMS.items()}


def address(text):
    return int(text, 16)


def sum_of(text):
    if text == b"0":
        return []
    pairs = (it.split(b"*") for it in text.split(b" + "))
    return [(int(number), address(at)) for number, at in pairs]


def ascends(numbers):
    return all(a < b for a, b in zip(numbers, numbers[1:]))


class Reader:
    def __init__(self, data):
        *self.lines, rest = data.split(b"\n")
        self.whole, self.cut = rest == b"", rest
        self.at = 0  # how many lines are read

    def fault(self, cause):
        raise ReportFault(cause, self.at)

    def is_next(self, word):
        line = self.lines[self.at] if self.at < len(self.lines) else b""
        return line.split(b" ")[0] == word.encode()

    def line(self, word):
        """The parts of the next line, which must have that form. A line that isn't ended has no form."""
        self.at += 1
        line = self.lines[self.at - 1] if self.at <= len(self.lines) else None
        match = line is not None and FORMS[word].fullmatch(line)
        return match.groups() if match else self.fault(LINE)

    def each(self, word):
        while self.is_next(word):
            yield self.line(word)

    def order(self, fits):
        fits or self.fault(LINE)

    def ranges(self, fits):
        fits or self.fault(NUMBER)

    def end(self):
        self.line("end")
        self.at += 1
        if self.at <= len(self.lines) or not self.whole:
            self.fault(LINE)


def is_below(bits, *numbers):
    return all(abs(it) < 1 << bits for it in numbers)


def read(data):
    """The report of a text, or ReportFault with the first line that fails. Within a line form and order come first."""
    file, report = Reader(data), Report()
    if file.is_next("version"):
        file.line("version")
        report.version = 2
    read_head(file, report)
    read_claims(file, report)
    read_columns(file, report)
    read_certificate(file, report)
    if report.version == 2:
        read_shares(file, report)
    file.end()
    return report


def read_head(file, report):
    report.cycles = int(file.line("cycles")[0])
    file.ranges(is_below(63, report.cycles))
    word, *numbers = (it for it in file.line("kind") if it is not None)
    report.kind = (word.decode(), *map(int, numbers))
    file.ranges(is_below(32, *report.kind[1:]))
    for name, places in file.each("copy"):
        report.copies.append((name.decode(), [address(it) for it in places.split()]))
        file.order(ascends(report.copies[-1][1]))


def read_claims(file, report):
    for (at,) in file.each("exit"):
        report.exits.append(address(at))
        file.order(ascends(report.exits[-2:]))
    for source, factor, at, by in file.each("never"):
        report.nevers.append((int(source), int(factor), address(at)))
        report.never_by.append(int(by))
        file.order(ascends([it[2] for it in report.nevers[-2:]]))
        file.ranges(is_below(32, *report.nevers[-1][:2]) and is_below(120, int(by)))
    reach = 0  # where the lines so far end that hold an address
    for first, end, letters in file.each("region"):
        first, end = address(first), address(end)
        report.regions.append((first, end, letters.decode()))
        file.order(letters and ascends([it[0] for it in report.regions[-2:]]) and (end <= first or first >= reach))
        reach = end if first < end else reach
    for *numbers, header, back, one, other in file.each("loop"):
        report.loops.append((*map(int, numbers), address(header), address(back)))
        report.loop_by.append((int(one), int(other)))
        file.order(ascends([it[4] for it in report.loops[-2:]]))
        file.ranges(is_below(32, *report.loops[-1][:4]) and is_below(120, *report.loop_by[-1]))
    for by, left, sign, right in file.each("fact"):
        report.facts.append((sum_of(left), sign.decode(), sum_of(right)))
        report.fact_by.append(int(by))
        sides = report.facts[-1][0], report.facts[-1][2]
        file.order(all(ascends([at for _, at in side]) for side in sides))
        file.ranges(all(0 < it < 1 << 32 for side in sides for it, _ in side) and is_below(120, int(by)))


def read_columns(file, report):
    for value, totals in file.each("column"):
        report.columns.append((int(value), [int(it) for it in totals.split()]))
        file.order(len(report.columns[-1][1]) == len(report.facts))
        file.ranges(is_below(120, int(value), *report.columns[-1][1]))


def read_certificate(file, report):
    report.scale = int(file.line("scale")[0])
    file.ranges(0 < report.scale <= 1 << 48)
    for at, number in file.each("potential"):
        report.potentials.append((address(at), int(number)))
        file.order(ascends([it[0] for it in report.potentials[-2:]]))
        file.ranges(is_below(120, int(number)))
    report.unit = int(file.line("unit")[0])
    file.ranges(0 < report.unit <= 1 << 48 if report.kind[0] == GREATEST else report.unit == 0)
    if report.unit == 0:
        return
    for at, move, number in file.each("flow"):
        report.flow.append((address(at), int(move), int(number)))
        file.order(ascends([it[:2] for it in report.flow[-2:]]))
        file.ranges(is_below(8, int(move)) and 0 < int(number) < 1 << 120)


def read_shares(file, report):
    if report.kind[0] != GREATEST:
        return
    for name, first, end, number in file.each("share"):
        report.shares.append((name and name.decode(), address(first), address(end), int(number)))
        before = report.shares[-2][2] if len(report.shares) > 1 else 0
        file.order(before <= address(first) < address(end))
        file.ranges(is_below(120, int(number)))


# Writing, in the same order


def sum_text(terms):
    return " + ".join(f"{number}*{at:08x}" for number, at in terms) or "0"


def lines(report):
    if report.version == 2:
        yield "version 2"
    yield f"cycles {report.cycles}"
    yield " ".join(map(str, ("kind", *report.kind)))
    for name, places in report.copies:
        yield " ".join(("copy", name, *(f"{it:08x}" for it in places)))
    for at in report.exits:
        yield f"exit {at:08x}"
    for (source, factor, at), by in zip(report.nevers, report.never_by):
        yield f"never {source} {factor} {at:08x} {by}"
    for first, end, letters in report.regions:
        yield f"region {first:08x} {end:08x} {letters}"
    for (source, factor, least, most, header, back), (one, other) in zip(report.loops, report.loop_by):
        yield f"loop {source} {factor} {least} {most} {header:08x} {back:08x} {one} {other}"
    for (left, sign, right), by in zip(report.facts, report.fact_by):
        yield f"fact {by} {sum_text(left)} {sign} {sum_text(right)}"
    for value, totals in report.columns:
        yield " ".join(map(str, ("column", value, *totals)))
    yield f"scale {report.scale}"
    for at, number in report.potentials:
        yield f"potential {at:08x} {number}"
    yield f"unit {report.unit}"
    for at, move, number in report.flow:
        yield f"flow {at:08x} {move} {number}"
    for name, first, end, number in report.shares if report.version == 2 else ():
        yield f"share {name or '-'} {first:08x} {end:08x} {number}"
    yield "end"


def write(report):
    return "".join(f"{it}\n" for it in lines(report)).encode()
