"""Inputs that are tried on an image, to see how near its bound is: the simulator counts, and `eval` says whether a run counts at all.

Some inputs are drawn at random, and others change the slowest so far. A run that is undefined or breaks its annotations is none of
which the bound speaks, so it is left out. The same number of tries tries the same inputs.
"""
import re
from collections.abc import Iterator
from concurrent.futures import ThreadPoolExecutor
from pathlib import Path
from random import Random
from typing import NamedTuple

from task.calls import ask

EXIT = re.compile(r"exit -?\d+ cycles (\d+)")
LENGTHS = (0, 1, 2, 8, 32, 64, 200, 256, 800, 1024)
ROUND, KEPT = 32, 8
WHOLE = bytes(range(256))
ALPHABETS = (WHOLE, b"\x00\xff", b"\x00", b"\xff", b"0123456789 \n", bytes(range(128)))


class Tried(NamedTuple):
    cycles: int
    data: bytes


class Tries:
    """`options` are the words of `eval`, and `priced` those of the table."""

    def __init__(self, program: str, image: Path, source: Path, room: Path, options: list[str], priced: list[str]) -> None:
        self.program, self.image, self.source, self.room = program, image, source, room
        self.options, self.priced = options, priced

    def run(self, number: int, data: bytes) -> Tried | None:
        """How long an input takes, or None where the bound doesn't speak of its run."""
        given, put = (self.room / f"{number}.{it}" for it in ("in", "out"))
        given.write_bytes(data)
        ran = EXIT.fullmatch(ask(self.program, "run", self.image, given, put, *self.priced).line)
        is_kept = ran is not None and ask(self.program, "eval", self.source, given, put, *self.options).status == 0
        for it in (given, put):
            it.unlink(missing_ok=True)
        return Tried(int(ran[1]), data) if ran and is_kept else None


def drawn(random: Random) -> bytes:
    return bytes(random.choices(random.choice(ALPHABETS), k=random.choice(LENGTHS)))


def changed(random: Random, data: bytes) -> bytes:
    """An input with some bytes changed, put in, taken out or repeated."""
    made = bytearray(data)
    for _ in range(random.choice((1, 1, 2, 4, 8))):
        at, end = sorted(random.randrange(len(made) + 1) for _ in "12")
        way = random.randrange(4)
        if way == 0 and at < len(made):
            made[at] = random.choice(random.choice(ALPHABETS))
        elif way == 1:
            made[at:at] = random.choices(random.choice(ALPHABETS), k=random.choice((1, 1, 2, 8)))
        elif way == 2:
            del made[at:min(end, at + random.choice((1, 2, 8)))]
        else:
            made[at:at] = made[at:end][:64]
    return bytes(made)


def inputs(random: Random, best: list[Tried], count: int) -> Iterator[bytes]:
    for number in range(count):
        yield changed(random, random.choice(best).data) if best and number % 4 else drawn(random)


def slowest(tries: Tries, count: int, jobs: int) -> tuple[Tried | None, int]:
    """The slowest of so many inputs, and of how many of them the bound speaks."""
    random, best, kept = Random(count), [], 0
    with ThreadPoolExecutor(jobs) as pool:
        for done in range(0, count, ROUND):
            made = list(inputs(random, best, min(ROUND, count - done)))
            found = [it for it in pool.map(tries.run, range(len(made)), made) if it]
            kept += len(found)
            best = sorted({*best, *found}, key=lambda it: (-it.cycles, len(it.data), it.data))[:KEPT]
    return (best[0] if best else None), kept
