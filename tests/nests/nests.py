#!/usr/bin/env python3
"""Makes images of random nests of loops with calls, and finds the greatest value of their flows without wcc.

    nests.py SEED COUNT          prints for each nest the line of its kind and its cycles
    nests.py SEED COUNT FOLDER   and writes NN.elf, NN.claims, NN.nest and NN.line into that folder

SEED is any text; the same seed gives the same nests. NN.claims has claims as certify.py reads them, NN.nest the loops and
the functions as they lie in memory,

    loop HEADER BACK FIRST LAST PARENT      PARENT is the header of the loop around it in its function, or -
    span FIRST END                          a function, those that it calls first

and NN.line `greatest CYCLES` or `empty`, by an exact linear program (../certificates/finding.py).
"""
import itertools
import random
import sys
from dataclasses import dataclass, field
from pathlib import Path

HERE = Path(__file__).resolve().parent
sys.path.insert(0, str(HERE.parent))
import certify  # noqa: E402
import flash  # noqa: E402
import machine  # noqa: E402
from certificates import finding  # noqa: E402
from simulator import reports  # noqa: E402

DEEPEST = 3  # loops in loops
SHALLOWEST = 2
BOUND_MOST = 5  # of MIN and MAX
FUNCTIONS_MOST = 4
PIECES_MOST = 4  # in a block
STALL = 2  # cycles that a load makes the instruction behind it wait

NOP, RETURN, ECALL = 0x0000_0013, 0x0000_8067, 0x0000_0073
PLAIN = {
    "addi": 0x0013_0313,  # addi x6, x6, 1
    "mul": 0x0273_0333,  # mul x6, x6, x7
    "div": 0x0273_4333,  # div x6, x6, x7
    "load": 0x0004_2303,  # lw x6, 0(x8)
    "store": 0x0064_2023,  # sw x6, 0(x8)
}


def jump(rd, offset):
    """JAL: a jump where rd is 0, a call where it is 1."""
    bits = offset & 0x1F_FFFF
    return bits >> 20 << 31 | (bits >> 1 & 0x3FF) << 21 | (bits >> 11 & 1) << 20 | (bits >> 12 & 0xFF) << 12 | rd << 7 | 0x6F


def branch(offset):
    """BEQ x6, x7."""
    bits = offset & 0x1FFF
    fields = bits >> 12 << 31 | (bits >> 5 & 0x3F) << 25 | (bits >> 1 & 0xF) << 8 | (bits >> 11 & 1) << 7
    return fields | 7 << 20 | 6 << 15 | 0x63


@dataclass
class Loop:
    header: int
    least: int
    most: int
    parent: int | None
    back: int = 0
    exits: list = field(default_factory=list)  # branches that leave it
    ends: list = field(default_factory=list)  # branches to its back jump


class Nest:
    """Words that grow, with the loops and the functions that they are."""

    def __init__(self, draw):
        self.draw, self.words = draw, []
        self.loops, self.spans, self.nevers, self.open = [], [], [], []

    def here(self):
        return 4 * len(self.words)

    def put(self, word):
        self.words.append(word)

    def put_later(self):
        """Keeps a word free for a jump or branch that goes on."""
        self.put(NOP)
        return len(self.words) - 1

    def go_here(self, place, make=branch):
        self.words[place] = make(self.here() - 4 * place)

    def some(self):
        """A word that does nothing to the flow; now and then one that claims say is never reached."""
        if self.draw.random() < 0.02:
            self.nevers.append(self.here())
        self.put(PLAIN[self.draw.choice(list(PLAIN))])

    def block(self, calls):
        for _ in range(self.draw.randint(1, PIECES_MOST)):
            self.piece(calls)

    def piece(self, calls):
        kinds = [(self.some, 5), (lambda: self.choice(calls), 2)]
        if len(self.open) < DEEPEST:
            kinds.append((lambda: self.loop(calls), 2))
        if calls:
            kinds.append((lambda: self.call(calls), 2))
        if self.open:
            kinds += [(lambda: self.leave(self.open[-1].exits), 1), (lambda: self.leave(self.open[-1].ends), 1)]
            kinds.append((lambda: self.leave(self.draw.choice(self.open).exits), 1))
        makers, weights = zip(*kinds)
        self.draw.choices(makers, weights)[0]()

    def choice(self, calls):
        """An `if`, with an `else` or without."""
        skips = self.put_later()
        self.some()
        if self.draw.random() < 0.5:
            ends = self.put_later()
            self.go_here(skips)
            self.piece(calls) if self.draw.random() < 0.3 else self.some()
            self.go_here(ends, lambda offset: jump(0, offset))
        else:
            self.go_here(skips)

    def leave(self, branches):
        """A `break` or a `continue`."""
        branches.append(self.put_later())

    def call(self, calls):
        first, _ = self.draw.choice(calls)
        self.put(jump(1, first - self.here()))

    def loop(self, calls):
        most = self.draw.randint(0, BOUND_MOST)
        least = self.draw.randint(0, most or BOUND_MOST)
        around = self.open[-1].header if self.open else None
        loop = Loop(self.here(), least, most, around)
        self.loops.append(loop)
        self.open.append(loop)
        kind = self.draw.random()
        if kind < 0.55:
            self.leave(loop.exits)  # a test before each turn
        else:
            self.some()
        self.block(calls)
        if 0.45 < kind < 0.95:
            self.leave(loop.exits)  # a test behind each turn
        for place in loop.ends:
            self.go_here(place)
        loop.back = self.here()
        self.put(jump(0, loop.header - self.here()))
        self.open.pop()
        for place in loop.exits:
            self.go_here(place)

    def function(self, calls):
        first = self.here()
        self.some()
        self.block(calls)
        self.some()
        return first

    def program(self):
        """Functions that call those before them, and a program behind that ends."""
        for _ in range(self.draw.randint(0, FUNCTIONS_MOST)):
            first = self.function(self.spans)
            self.put(RETURN)
            self.spans.append((first, self.here()))
        self.entry = self.function(self.spans)
        self.exit = self.here()
        self.put(ECALL)
        self.spans.append((self.entry, self.here()))
        return self


def image_of(nest):
    """The words in flash."""
    return flash.image_of(nest.words, nest.entry)


def claims_of(nest):
    yield f"exit {nest.exit:08x}"
    yield from (f"never 0 1 {at:08x}" for at in sorted(nest.nevers))
    for number, it in enumerate(sorted(nest.loops, key=lambda it: it.header)):
        yield f"loop {number} 1 {it.least} {it.most} {it.header:08x} {it.back:08x}"


def nest_of(nest):
    for it in sorted(nest.loops, key=lambda it: it.header):
        parent = "-" if it.parent is None else f"{it.parent:08x}"
        yield f"loop {it.header:08x} {it.back:08x} {it.header:08x} {it.back:08x} {parent}"
    yield from (f"span {first:08x} {end:08x}" for first, end in nest.spans)


def text_of(lines):
    return "".join(f"{it}\n" for it in lines)


def report_of(nest):
    """The report that the exact linear program finds."""
    report = certify.read_claims(text_of(claims_of(nest)))
    finding.certify(*machine.read_image(image_of(nest)), report, machine.DEFAULT.with_stall(STALL))
    return report


def line_of(report):
    return f"greatest {report.cycles}" if report.kind[0] == reports.GREATEST else "empty"


def depth(nest):
    """How many loops are in each other."""
    around = {it.header: it.parent for it in nest.loops}

    def inside(header):
        return 0 if header is None else 1 + inside(around[header])

    return max(map(inside, around), default=0)


def nests(seed, count):
    """That many nests with loops in loops; those of a seed are the first of any greater count."""
    drawn = (Nest(random.Random(f"{seed} {number}")).program() for number in itertools.count())
    return itertools.islice((it for it in drawn if depth(it) >= SHALLOWEST), count)


def main(words):
    if len(words) not in (2, 3):
        sys.exit(__doc__)
    for number, nest in enumerate(nests(words[0], int(words[1]))):
        line = line_of(report_of(nest))
        sizes = f"{len(nest.words)} words, {len(nest.loops)} loops {depth(nest)} deep, {len(nest.spans)} functions"
        print(f"{number:02} {line} ({sizes})", flush=True)
        if len(words) == 3:
            files = {"elf": image_of(nest), "claims": text_of(claims_of(nest)).encode(), "nest": text_of(nest_of(nest)).encode(),
                     "line": f"{line}\n".encode()}
            for name, content in files.items():
                Path(words[2], f"{number:02}.{name}").write_bytes(content)
    return 0


if __name__ == "__main__":
    sys.exit(main(sys.argv[1:]))
