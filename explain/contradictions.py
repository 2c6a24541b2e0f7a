"""Which restrictions of a source contradict each other where no run keeps its annotations, and which reports say so."""
import os
import stat
from itertools import islice
from typing import TypeVar

# A report's lines that stand before those of restrictions, and how many are read.
MOST_LINES = 1_000_000
LONGEST = 1 << 16
Restriction = TypeVar("Restriction")


def lines_of(path: str) -> list[bytes]:
    """The first lines of a report; none where it is no plain file that can be read again."""
    if not stat.S_ISREG(os.stat(path).st_mode):
        return []
    with open(path, "rb") as file:
        return list(islice(iter(lambda: file.readline(LONGEST), b""), MOST_LINES))


def multipliers(path: str) -> list[int]:
    """The multipliers of the restrictions in a report, in the order of the source."""
    return [int(it.split(b" ", 2)[1]) for it in lines_of(path) if it.startswith(b"fact ")]


def is_empty(path: str) -> bool:
    """Whether a report says that no run keeps its claims."""
    return b"kind empty\n" in lines_of(path)[:3]


def contradicting(restrictions: list[Restriction], path: str) -> list[Restriction]:
    """Those of the restrictions of a source on which the proof in its report rests that no run keeps them all."""
    numbers = multipliers(path)
    return [it for it, number in zip(restrictions, numbers) if number] if len(numbers) == len(restrictions) else []
