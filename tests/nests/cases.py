#!/usr/bin/env python3
"""Writes what crates/path_cases reads and must print: images, claims, loops and functions, with the greatest value of a flow.

    cases.py ../../crates/path_cases      writes stdin and stdout into that folder

The images of the test reports without restrictions come first, with the values that their reports have, but not that of
`far`, whose jump to a lower address is no loop's; then the nests of values.txt. Both values are from the exact linear program
of ../certificates. Behind them stand loops and functions that fit a small image or don't, worked out by hand.
"""
import struct
import sys
from pathlib import Path

HERE = Path(__file__).resolve().parent
sys.path.insert(0, str(HERE.parent))
import machine  # noqa: E402
import nests  # noqa: E402
from simulator import flows, reports  # noqa: E402

REPORTS = ("first", "by_hand", "code", "branches", "calls", "loop", "nested", "never", "regions", "unrolled", "waits",
           "stall", "wide_value_below")
SEED = "wcc"


def words_of(segment):
    """The words of a segment up to its last that is set."""
    memory = bytes(segment.memory)
    whole = memory[:len(memory) // 4 * 4].rstrip(b"\0")
    whole += b"\0" * (-len(whole) % 4)
    return struct.unpack(f"<{len(whole) // 4}I", whole)


def functions_of(system):
    """Each function from its first address up to the next one's, those that it calls first."""
    calls = [it for it in system.moves if it.behind is not None]
    firsts = sorted({system.entry, *(it.to for it in calls)})
    reached = sorted({it.at for it in system.moves})
    ends = dict(zip(firsts, [*firsts[1:], reached[-1] + 4]))
    owner = {at: max(it for it in firsts if it <= at) for at in reached}
    called = {first: {it.to for it in calls if owner[it.at] == first} for first in firsts}
    order = []

    def visit(first):
        if first not in order:
            for it in sorted(called[first]):
                visit(it)
            order.append(first)

    for first in firsts:
        visit(first)
    return [(first, ends[first]) for first in order]


def hexes(numbers):
    return " ".join(f"{it:x}" for it in numbers)


def rows(items):
    return ",".join(map(hexes, items))


def line_of(command, entry, stall, words, exits, nevers, regions, loops, spans, shapes=None):
    """A line of `stdin`. A loop is its least, its most, its header and its jump back; its range is that between these two."""
    sets = [(first, end, sum(bit for letter, bit in zip("fsr", (1, 2, 4)) if letter in letters)) for first, end, letters in regions]
    shapes = [(header, back, header, back) for _, _, header, back in loops] if shapes is None else shapes
    parts = (hexes((entry, stall)), hexes(words), hexes(exits), hexes(nevers), rows(sets), rows(loops), rows(shapes), rows(spans))
    return f"{command} {';'.join(parts)}"


def said(wanted):
    return "empty" if wanted is None else f"greatest {wanted}"


def given(name):
    """The image and the claims of a test report."""
    folder = HERE.parent / "cases" / f"check_{name}"
    report = reports.read((folder / "given" / "a.txt").read_bytes())
    entry, segments = machine.read_image((folder / "given" / "a.elf").read_bytes())
    stall = stall_of(folder)
    system = flows.System(entry, segments, report, machine.DEFAULT.with_stall(stall))
    loops = [it[2:6] for it in report.loops]
    code = next(it for it in segments if it.start == 0)
    assert all(code.holds(it.at, 4) for it in system.moves), "code elsewhere"
    wanted = report.cycles if report.kind[0] == reports.GREATEST else None
    nevers = [it[2] for it in report.nevers]
    line = line_of("search", entry, stall, words_of(code), report.exits, nevers, report.regions, loops, functions_of(system))
    return line, said(wanted)


def stall_of(folder):
    """The wait of a load that the case's table of costs says."""
    for it in folder.glob("given/*.toml"):
        for line in it.read_text().splitlines():
            if line.startswith("stall"):
                return int(line.split("=")[1])
    return 0


def nest(it, line):
    kind = line.split(" ")[1:]
    loops = [(x.least, x.most, x.header, x.back) for x in sorted(it.loops, key=lambda x: x.header)]
    words = line_of("search", it.entry, nests.STALL, it.words, [it.exit], sorted(it.nevers), [], loops, it.spans)
    return words, said(int(kind[1]) if kind[0] == "greatest" else None)


# 00 addi x6, x6, 1; 04 jalr x0, 0(x1), a function; 08 beq x6, x7, 20; 0c beq x6, x7, 12; 10 jal x1, -16; 14 jal x0, -8;
# 18 jal x0, -16; 1c ecall: two loops, the inner one from 12 to 20.
FIT_WORDS = (0x00130313, 0x00008067, 0x00730A63, 0x00730663, 0xFF1FF0EF, 0xFF9FF06F, 0xFF1FF06F, 0x00000073)
CLAIMED = ((8, 24), (12, 20))
NEST = ((8, 24, 8, 24), (12, 20, 12, 20))
FUNCTIONS = ((0, 8), (8, 32))
THIRD = (((8, 24, 8, 32), (12, 20, 12, 20), (28, 32, 28, 32)), ((8, 24, 8, 32), (12, 20, 12, 20), (24, 32, 24, 32)))
FITS = [  # claimed loops, loops with their ranges, functions, and whether they fit
    (CLAIMED, NEST, FUNCTIONS, True),
    # A larger range, and functions that aren't there, in any order.
    (CLAIMED, ((8, 24, 8, 24), (12, 20, 12, 24)), ((64, 72), (0, 8), (40, 44), (8, 32)), True),
    # No loop for a claim.
    (CLAIMED, ((8, 24, 8, 24),), FUNCTIONS, False),
    # Another back jump; a range without its header, without its back jump, that crosses another, and two that are entered
    # elsewhere than at their headers.
    (CLAIMED, ((8, 24, 8, 24), (12, 16, 12, 20)), FUNCTIONS, False),
    (CLAIMED, ((8, 24, 8, 24), (12, 20, 16, 20)), FUNCTIONS, False),
    (CLAIMED, ((8, 24, 8, 20), (12, 20, 12, 20)), FUNCTIONS, False),
    (CLAIMED, ((8, 24, 8, 24), (12, 20, 12, 28)), FUNCTIONS, False),
    (CLAIMED, ((8, 24, 8, 24), (12, 20, 8, 20)), FUNCTIONS, False),
    (CLAIMED, ((8, 24, 4, 24), (12, 20, 12, 20)), FUNCTIONS, False),
    # Functions share an address, leave one out, call one behind them, go on in each other, or are empty.
    (CLAIMED, NEST, ((0, 12), (8, 32)), False),
    (CLAIMED, NEST, ((0, 8), (8, 28)), False),
    (CLAIMED, NEST, ((8, 32), (0, 8)), False),
    (CLAIMED, NEST, ((0, 8), (8, 24), (24, 32)), False),
    (CLAIMED, NEST, ((0, 32),), False),
    (CLAIMED, NEST, ((0, 8), (40, 40), (8, 32)), False),
    # A third loop, whose jump back at 32 is never reached: from the exit, and from the first one's jump back.
    (CLAIMED + ((28, 32),), THIRD[0], FUNCTIONS, True),
    (CLAIMED + ((24, 32),), THIRD[1], FUNCTIONS, False),
]


def fit(claimed, shapes, spans, fits):
    loops = [(1, 4, *it) for it in claimed]
    return line_of("fit", 8, 0, FIT_WORDS, [28], [], [], loops, spans, shapes), "fit" if fits else "don't fit"


def main(words):
    if len(words) != 1:
        sys.exit(__doc__)
    values = (HERE / "values.txt").read_text().splitlines()
    drawn = nests.nests(SEED, len(values))
    cases = [*map(given, REPORTS), *(nest(it, values[number]) for number, it in enumerate(drawn)), *(fit(*it) for it in FITS)]
    for name, lines in zip(("stdin", "stdout"), zip(*cases)):
        Path(words[0], name).write_text("".join(f"{it}\n" for it in lines))


if __name__ == "__main__":
    main(sys.argv[1:])
