#!/usr/bin/env python3
"""Writes what crates/path_fact_cases reads and must print: nests with restrictions, what flows are worth that pay for them, and
the greatest value of a flow that keeps them.

    prices.py ../../crates/path_fact_cases      writes stdin and stdout into that folder

Restrictions and multipliers are drawn at random for each nest. A flow that pays for restrictions has, in place of its cycles, a
scale times these, less each multiplier times what the restriction's left side exceeds its right one by: an exact linear program
(../certificates/linear.py) finds the greatest such worth over all flows that need not keep the restrictions. A nest is left out
where two flows of that worth differ in their cycles or in what they make of a restriction. Behind them stand lines by hand, some
of which the walks aren't asked for; and nests with restrictions and no multipliers, of which the search finds the greatest value,
or that no flow keeps them (restricted.py).
"""
import random
import sys
from fractions import Fraction
from pathlib import Path

HERE = Path(__file__).resolve().parent
sys.path.insert(0, str(HERE.parent))
import nests  # noqa: E402
from restricted import Restricted, fact, line_of, restricted, said  # noqa: E402

SEED, COUNT, SEARCHED = "prices", 24, 60
MOST_FACTS = 4
SCALES, MOST_MULTIPLIER = (1, 3, 1009, 2**20), 2000


def multiplier(draw, sign):
    number = draw.randint(0, MOST_MULTIPLIER)
    return {"<=": number, ">=": -number, "=": draw.choice((number, -number))}[sign]


def answer(nest, multipliers):
    """What is told of a nest with restrictions, or None where it isn't told by its worth alone."""
    scale, *numbers = multipliers
    prices = nest.prices(scale, numbers)
    worth, _ = nest.best(prices)
    if worth is None:
        return None
    assert worth.denominator == 1, "a flow in parts"
    line = f"worth {worth}"
    if worth >= 0:
        of_flow = []
        for costs in (nest.values, *map(nest.totals, nest.facts)):
            most, _ = nest.best(costs, [(prices, "=", worth)])
            least, _ = nest.best([-it for it in costs], [(prices, "=", worth)])
            if most != -least:
                return None
            of_flow.append(most)
        line += f", value {of_flow[0]}, totals{''.join(f' {it}' for it in of_flow[1:])}"
    return f"{line}, bound {max(worth, Fraction(0)) // scale}"


def drawn(number, nest):
    draw = random.Random(f"{SEED} {number}")
    addresses = list(range(0, nest.here(), 4))
    found = Restricted(nest)
    found.facts = [fact(draw, addresses) for _ in range(draw.randint(1, MOST_FACTS))]
    multipliers = [draw.choice(SCALES), *(multiplier(draw, sign) for _, sign, _ in found.facts)]
    told = answer(found, multipliers)
    return (line_of(nest, found.facts, multipliers), told) if told else None


# 00 addi x6, x6, 1; 04 beq x6, x7, 12; 08 lw x6, 0(x8); 0c jal x0, -8; 10 ecall: a loop from 4 to 12, of 2 to 5 visits.
WORDS = "130313 730663 42303 ff9ff06f 73"
LOOP = "2 5 4 c,"
BY_HAND = [  # facts and multipliers, and what is told where no walk is made
    # No multiplier counts: the longest way, as without facts.
    ("<= 1 8/4 0", "1 0", None),
    # A turn loses, but has to be made once.
    ("<= 1 8/4 0", "1 100", None),
    # It gains more than it costs.
    (">= 1 8/4 0", "1 -100", None),
    ("= 1 8/4 0,<= 400 0/", "7 -3 5", None),
    # A sign that isn't the fact's; too few multipliers, a scale of 0, a large number; a number that is none of a fact.
    ("<= 1 8/4 0", "1 -1", "not asked"),
    (">= 1 8/4 0", "1 1", "not asked"),
    ("<= 1 8/4 0", "1", "not asked"),
    ("<= 1 8/4 0", "0 1", "not asked"),
    ("<= 1 8/4 0", f"1 {2**43 + 1}", "not asked"),
    ("<= 401 8/4 0", "1 1", "not searched"),
    ("<= 1 8/4 0", "-1 1", "no scale"),
    # A search: without a turn more than the least, with parts of one, and where no flow is left.
    ("<= 1 8/1 0", "", None),
    ("= 2 8/7 0", "", None),
    ("<= 1 0/", "", None),
    (">= 1 8/5 0", "", None),
    ("<= 401 8/4 0", "", "not searched"),
]


class ByHand:
    """The loop by hand, as a nest."""

    def __init__(self):
        self.words, self.entry, self.exit, self.nevers = [int(it, 16) for it in WORDS.split()], 0, 16, []
        self.loops, self.spans = [nests.Loop(4, 2, 5, None, 12)], [(0, 20)]


def fact_of(text):
    """A fact as a line has it."""
    def terms(side):
        numbers = [int(it, 16) for it in side.split()]
        return list(zip(numbers[::2], numbers[1::2]))

    sign, sides = text.split(" ", 1)
    left, right = sides.split("/")
    return terms(left), sign, terms(right)


def by_hand(facts, multipliers, told):
    """A line of the loop by hand."""
    if told is None:
        nest = Restricted(ByHand())
        nest.facts = [fact_of(it) for it in facts.split(",")]
        told = answer(nest, [int(it) for it in multipliers.split()]) if multipliers else said(nest.greatest())
        assert told, "two flows of the same worth"
    return f"0;{WORDS};10;;{LOOP};0 14,;{facts};{multipliers}", told


def main(words):
    if len(words) != 1:
        sys.exit(__doc__)
    found = [it for it in (drawn(number, nest) for number, nest in enumerate(nests.nests(SEED, COUNT))) if it]
    searched = ((line_of(it.nest, it.facts), said(it.greatest())) for it in restricted(SEED, SEARCHED))
    cases = [*found, *(by_hand(*it) for it in BY_HAND), *searched]
    for name, lines in zip(("stdin", "stdout"), zip(*cases)):
        Path(words[0], name).write_text("".join(f"{it}\n" for it in lines))


if __name__ == "__main__":
    main(sys.argv[1:])
