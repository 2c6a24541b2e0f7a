"""Single changes of a report, with what the checker must say of each: the changes of a case of tests/cases."""
from copy import deepcopy

import certify
import machine
from simulator import reports

from . import finding

GIVEN_IMAGE, GIVEN_REPORT = "a.elf", "a.txt"


def ends(items):
    """The places of the first item and of the last."""
    return sorted({0, len(items) - 1}) if items else []


def changed(report, name, place, item):
    """The report with another item at that place of a list, or without that item."""
    other = deepcopy(report)
    items = getattr(other, name)
    items[place:place + 1] = [] if item is None else [item]
    return other


def with_part(report, name, place, part, number):
    """The report with another number in an item of a list."""
    item = list(getattr(report, name)[place])
    item[part] = number
    return changed(report, name, place, tuple(item))


def field(report, name, value):
    other = deepcopy(report)
    setattr(other, name, value)
    return other


def without_claim(report, name, by, place):
    """The report without a claim and its multipliers."""
    return changed(changed(report, name, place, None), by, place, None)


def of_head(report):
    yield field(report, "cycles", report.cycles + 1)
    if report.cycles:
        yield field(report, "cycles", report.cycles - 1)
    yield field(report, "kind", ("wide", 1))
    yield field(report, "kind", ("empty" if report.kind[0] == reports.GREATEST else "greatest",))
    yield field(report, "scale", 2 * report.scale)
    yield field(report, "scale", 0)
    yield field(report, "unit", report.unit + 1)
    if report.unit:
        yield field(report, "unit", 0)


def of_exits(report):
    for place in ends(report.exits):
        yield changed(report, "exits", place, report.exits[place] - 4)
        yield changed(report, "exits", place, report.exits[place] + 1)
        yield changed(report, "exits", place, None)


def of_nevers(report):
    for place in ends(report.nevers):
        by = report.never_by[place]
        yield changed(report, "never_by", place, by - 1)
        yield changed(report, "never_by", place, -1)
        yield with_part(report, "nevers", place, 2, report.nevers[place][2] + 4)
        yield with_part(report, "nevers", place, 2, report.nevers[place][2] + 2)
        yield without_claim(report, "nevers", "never_by", place)


def of_regions(report):
    for place in ends(report.regions):
        first, _, letters = report.regions[place]
        yield with_part(report, "regions", place, 2, "f" + letters.replace("f", "s", 1) if letters != "s" else "fs")
        yield with_part(report, "regions", place, 1, first)
        yield with_part(report, "regions", place, 0, first + 2)
        yield changed(report, "regions", place, None)


def of_loops(report):
    for place in ends(report.loops):
        _, _, least, most, header, back = report.loops[place]
        one, other = report.loop_by[place]
        yield with_part(report, "loops", place, 2, least + 1)
        yield with_part(report, "loops", place, 3, most + 1)
        yield with_part(report, "loops", place, 3, max(most - 1, 0))
        yield with_part(report, "loops", place, 4, header + 4)
        yield with_part(report, "loops", place, 5, back + 2)
        yield changed(report, "loop_by", place, (-1, other))
        yield changed(report, "loop_by", place, (one, other - 1))
        yield changed(report, "loop_by", place, (one, -1))
        yield without_claim(report, "loops", "loop_by", place)


def of_facts(report):
    for place in ends(report.facts):
        left, sign, right = report.facts[place]
        by = report.fact_by[place]
        for other in (it for it in ("<=", ">=", "=") if it != sign):
            yield with_part(report, "facts", place, 1, other)
        yield changed(report, "fact_by", place, by - 1)
        yield changed(report, "fact_by", place, by + 1)
        yield changed(report, "fact_by", place, -by or (1 if sign == ">=" else -1))
        yield with_part(report, "facts", place, 0, [(left[0][0] + 1, left[0][1]), *left[1:]])
        yield with_part(report, "facts", place, 2, [(right[0][0], right[0][1] + 2), *right[1:]])
        yield without_claim(report, "facts", "fact_by", place)


def of_potentials(report):
    for place in ends(report.potentials):
        at, number = report.potentials[place]
        yield with_part(report, "potentials", place, 1, number - 1)
        yield with_part(report, "potentials", place, 1, number + 1)
        yield with_part(report, "potentials", place, 0, at + 1)
        yield changed(report, "potentials", place, None)
    yield field(report, "potentials", [*report.potentials, (report.potentials[-1][0] + 4, 0)])


def of_flow(report):
    for place in ends(report.flow):
        at, number, part = report.flow[place]
        yield with_part(report, "flow", place, 1, number + 1)
        yield with_part(report, "flow", place, 2, part + 1)
        yield with_part(report, "flow", place, 2, 0)
        yield changed(report, "flow", place, None)
    if report.flow:
        yield field(report, "flow", [*report.flow, (report.flow[-1][0] + 4, 0, 1)])


def of_shares(report):
    for place in ends(report.shares):
        _, first, end, part = report.shares[place]
        yield with_part(report, "shares", place, 0, "other")
        yield with_part(report, "shares", place, 0, None)
        yield with_part(report, "shares", place, 1, first + 4)
        yield with_part(report, "shares", place, 2, end - 4)
        yield with_part(report, "shares", place, 2, first)
        yield with_part(report, "shares", place, 3, part + 1)
        yield changed(report, "shares", place, None)
    if len(report.shares) > 1:
        yield field(report, "shares", report.shares[::-1])
    if report.shares:
        (_, first, _, _), (_, _, end, _) = report.shares[0], report.shares[-1]
        yield field(report, "shares", [(None, first, end, sum(it[3] for it in report.shares))])
    yield field(report, "version", 1)


def of_form(text):
    """Changes of the text itself."""
    lines = text.decode().splitlines(keepends=True)
    exchanged = next(at for at, it in enumerate(lines) if it.startswith("potential"))
    yield text.replace(b"cycles ", b"cycles 0", 1)
    yield text.replace(b"\nexit ", b"\nexit  ", 1)
    yield text.replace(b"\nscale ", b"\nscale +", 1)
    yield text.replace(b"end\n", b"end\nend\n")
    yield text.replace(b"end\n", b"end \n")
    yield text.replace(b"end\n", b"")
    yield "".join([*lines[:exchanged], *lines[exchanged:exchanged + 2][::-1], *lines[exchanged + 2:]]).encode()


PARTS = (of_head, of_exits, of_nevers, of_regions, of_loops, of_facts, of_potentials, of_flow)


def of_other_flows(image, report):
    """The report with the greatest flow of looser claims, which breaks one of its own, or of tighter ones, which is less."""
    if report.kind[0] != reports.GREATEST:
        return
    yield from less(image, report)
    for place in ends(report.nevers):
        yield with_flow(image, report, without_claim(report, "nevers", "never_by", place))
    for place in ends(report.loops):
        yield with_flow(image, report, with_part(report, "loops", place, 3, report.loops[place][3] + 1))
    for place in ends(report.facts):
        _, _, right = report.facts[place]
        try:
            yield with_flow(image, report, without_claim(report, "facts", "fact_by", place))
        except finding.NoBound:  # the fact bounds a loop
            looser = [(right[0][0] + 1, right[0][1]), *right[1:]]
            yield with_flow(image, report, with_part(report, "facts", place, 2, looser))


def less(image, report):
    """The report with a flow that leaves an address out, the first one that can be left out at a loss."""
    for at, _ in report.potentials:
        nevers = {it[2]: it for it in [*report.nevers, (0, 1, at)]}
        tighter = field(report, "nevers", [nevers[it] for it in sorted(nevers)])
        found = with_flow(image, report, tighter)
        if tighter.kind[0] == reports.GREATEST and tighter.cycles < report.cycles:
            yield found
            return


def with_flow(image, report, other):
    """The report with the flow that is found for other claims."""
    finding.certify(*machine.read_image(image), other)
    return field(field(report, "unit", other.unit), "flow", other.flow)


def all_of(image, text):
    """The texts of a report that has one change; of a report of version 2 those of its shares alone."""
    report = reports.read(text)
    parts = (of_shares,) if report.version == 2 else PARTS
    for part in parts:
        yield from map(reports.write, part(report))
    if report.version == 1:
        yield from map(reports.write, of_other_flows(image, report))
        yield from of_form(text)


# As rows of a case


def row(image, text, other):
    """The row of tests/cases that makes the other text of a text. What is replaced is whole lines that stand once."""
    line, status = certify.check_line(image, other)
    before, after = (it.decode().splitlines(keepends=True) for it in (text, other))
    first = next((at for at, (a, b) in enumerate(zip(before, after)) if a != b), min(len(before), len(after)))
    same = 0
    while same < min(len(before), len(after)) - first and before[-1 - same] == after[-1 - same]:
        same += 1
    if first + same == len(before):  # what is put between two lines takes one of them along
        first, same = (first, same - 1) if same else (first - 1, same)
    cut = [it[first:len(it) - same] for it in (before, after)]
    old, new = ("".join(it) for it in cut)
    assert text.decode().count(old) == 1, old
    return f"{status} | {line} | {GIVEN_REPORT} | {escaped(old)} | {escaped(new)}".rstrip()


def escaped(text):
    return text.replace("\n", "\\n")


def put_case(case, image, text):
    """Writes a case whose changes are those of its report."""
    given = case / "given"
    given.mkdir(parents=True, exist_ok=True)
    (given / GIVEN_IMAGE).write_bytes(image)
    (given / GIVEN_REPORT).write_bytes(text)
    line, status = certify.check_line(image, text)
    rows = dict.fromkeys(row(image, text, other) for other in all_of(image, text) if other != text)
    (case / "words").write_text(f"check\n{GIVEN_IMAGE}\n{GIVEN_REPORT}\n")
    (case / "line").write_text(f"{line}\n")
    (case / "status").write_text(f"{status}\n")
    (case / "changes").write_text("".join(f"{it}\n" for it in rows))
