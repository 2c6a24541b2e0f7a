"""Which line of the source each instruction comes of.

`compile` writes no table of lines. But its markers are one: the source is compiled once more with a marker before each statement, and the
report of that image says where they stand. The two images have the same instructions, but for those that markers take and for the
distances that jumps go; so each instruction gets the line of the last marker before it. Where some instructions of a function differ, its
lines are near, and where many do, nothing is said of them.
"""
from collections.abc import Iterator
from contextlib import ExitStack
from dataclasses import dataclass, field
from subprocess import TimeoutExpired

from beside import Pairs, beside
from bound import Bound
from checked import handed, ran
from functions import START, Code, OddReport, ranges_of
from probe import Mark, Probe
from simulator import reports
from simulator.decoder import decode
from simulator.flows import CodeFault, System
from simulator.images import BadImage, X, Segment, read_image

SECONDS, TRIES, MOST_NAMES = 60, 8, 8
SPM = 0x1000_0000, 0x1001_0000


@dataclass
class LineMap:
    """By address the line of the source, as its number from 0; the functions of which it is known nearly, and those of which it isn't."""
    line_of: dict[int, int] = field(default_factory=dict)
    near: list[str] = field(default_factory=list)
    unknown: list[str] = field(default_factory=list)

    def doubt(self) -> int:
        return len(self.near) + 1000 * len(self.unknown)

    def remark(self) -> str:
        """What to say of functions that are other code with markers."""
        near, unknown = (", ".join(it[:MOST_NAMES]) + (", .." if len(it) > MOST_NAMES else "") for it in (self.near, self.unknown))
        return (f" Of {near} the lines are near: with markers some instructions there are others." if near else "") + (
            f" Of {unknown} they aren’t known: with markers it is other code." if unknown else "")


@dataclass
class Probed:
    """The code of a source with markers, and where they stand."""
    codes: dict[str, list[tuple[int, int]]]  # of each function the addresses and words
    marks: dict[int, Mark]  # by addresses


def mapped(program: str, bound: Bound, table: tuple[str, bytes] | None, given: list[str]) -> tuple[LineMap | None, str]:
    """The map, or why there is none. `given` are the words that `compile` was called with beside the files."""
    probe = Probe(bound.source)
    if not probe.fits():
        return None, "the source has too many statements for one marker each."
    best: LineMap | None = None
    for words in tried(bound, given):
        try:
            probed = compiled(program, probe, table, words, bound)
        except TimeoutExpired:
            return best, f"to compile the source with a marker before each statement takes more than {SECONDS} s."
        if probed is None:
            continue
        found = aligned(bound, probed)
        if best is None or found.doubt() < best.doubt():
            best = found
        if not best.doubt():
            break
    if best is None or not best.line_of:
        return None, ("compiled with a marker before each statement, the source makes other code than the image has. Say with which of --inline, "
                      "--unroll, --spm and --derive it was compiled.")
    return best, ""


# With which words

def tried(bound: Bound, given: list[str]) -> Iterator[list[str]]:
    """The words with which the source is compiled: those that were given, or what the image looks like."""
    if given:
        yield from ([*given[:at], "--inline", str(more), *given[at + 2:]] for at, more in inlines(given))
        if "--inline" not in given:
            yield given
        return
    derive = [] if all(it.bound is not None for it in bound.source.loop_statements()) else ["--derive"]
    factor = max((it.factor for it in bound.loops), default=1)
    unroll = ["--unroll", str(factor)] if factor > 1 else []
    placed = sum(it.end - it.start for it in bound.segments if SPM[0] <= it.start < SPM[1])
    spm = [["--spm", str(placed)], ["--spm", "65536"]] if placed else [[]]
    is_inlined = any(places for _, places in bound.inlined) or any(it not in {one.name for one in bound.codes} for it in bound.source.functions)
    inline = [["--inline", str(it)] for it in (200, 300, 10000, 50, 100, 25)] if is_inlined else [[]]
    words = [[*one, *unroll, *other, *derive] for one in inline for other in spm]
    yield from words[:TRIES]


def inlines(given: list[str]) -> Iterator[tuple[int, int]]:
    """Where the words say how large a function may be that is put into others, and how large it may be with its markers."""
    if "--inline" in given:
        at = given.index("--inline")
        number = int(given[at + 1])
        yield from ((at, min(10000, number * part // 8)) for part in (10, 9, 11, 8, 12, 14, 16))


def compiled(program: str, probe: Probe, table: tuple[str, bytes] | None, words: list[str], bound: Bound) -> Probed | None:
    """What becomes of the source with its markers, or None where it is refused."""
    with ExitStack() as stack:
        files = [("", probe.text(with_restrictions="--spm" in words)), ("", b""), ("", b""), *([table] if table else [])]
        names = [stack.enter_context(handed(*it)) for it in files]
        if "" in names:
            return None
        answer = ran(program, ["compile", *names[:3], *words, *(["--table", names[3]] if table else [])], SECONDS)
        if answer.returncode:
            return None
        image, report = (open(name, "rb").read() for name in names[1:3])
    try:
        entry, segments = read_image(image)
        said = reports.read(report)
        codes = ranges_of(said, System(entry, segments, said, bound.costs), segments)
    except (BadImage, CodeFault, OddReport, reports.ReportFault):
        return None
    marks = {at: probe.marks[name] for name, places in said.copies if name in probe.marks for at in places}
    return Probed({it.name: words_of(it, segments) for it in codes if it.name != START}, marks)


def words_of(code: Code, segments: list[Segment]) -> list[tuple[int, int]]:
    segment = next(it for it in segments if it.rights & X and it.holds(code.first, 4))
    places = range(code.first, min(code.end, segment.end - 3), 4)
    return [(at, int.from_bytes(segment.memory[at - segment.start:at - segment.start + 4], "little")) for at in places]


# Two images beside each other

def aligned(bound: Bound, probed: Probed) -> LineMap:
    found = LineMap()
    named = {it.name: bound.source.lines.index_at(it.name_at) for it in bound.source.definitions}
    for code in (it for it in bound.codes if it.name in named):
        own = words_of(code, bound.segments)
        pairs = beside(own, probed.codes.get(code.name, []))
        if pairs is None:
            found.unknown.append(code.name)
            continue
        found.line_of.update(lines_of(pairs[0], probed.marks, Mark(named[code.name], code.name), dict(own)))
        if not pairs[1]:
            found.near.append(code.name)
            fill(found.line_of, code, named[code.name])
    return found


def lines_of(pairs: Pairs, marks: dict[int, Mark], first: Mark, words: dict[int, int]) -> Iterator[tuple[int, int]]:
    """Each address with the line of the last marker before it, and with that of the function where there is none yet.

    Behind a function that stands in the code of another, what called it goes on: where that function ends, or where its returns lead to.
    """
    within, ends = [first], set()
    for own, place in pairs:
        if own in ends and len(within) > 1:
            within.pop()
        if (mark := marks.get(place)) is not None:
            enter(within, mark)
        if own is None:
            continue
        yield own, within[-1].line
        if within[-1].is_return and len(within) > 1:
            ends.add(target_of(own, words[own]))


def enter(within: list[Mark], mark: Mark) -> None:
    """Goes on at a marker: that of a function around, or of one that begins."""
    at = next((index for index, it in enumerate(within) if it.function == mark.function), len(within))
    within[at:] = [mark] if not mark.is_end or at == 0 else []


def target_of(at: int, word: int) -> int | None:
    """Where a jump leads to."""
    parts = decode(word)
    return at + parts[3] if parts is not None and parts[0] == "jump" and parts[2] is None else None


def fill(line_of: dict[int, int], code: Code, line: int) -> None:
    """Gives what does nothing the line of what stands before it."""
    for at in range(code.first, code.end, 4):
        line = line_of.setdefault(at, line)
