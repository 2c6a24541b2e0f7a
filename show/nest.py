"""Which loop stands in which: the natural loops of a report's `loop` lines, found in one pass from the inner to the outer."""
from collections import defaultdict
from collections.abc import Iterable

from simulator.flows import Move


def following(move: Move) -> int | None:
    """Where a move goes on within its function: behind itself, where it is a call."""
    return move.to if move.behind is None else move.behind


class Order:
    """A walk in depth from the beginnings of functions: each address has the numbers of itself and of the last one below it."""

    def __init__(self, firsts: Iterable[int], moves: dict[int, list[tuple[Move, int]]]) -> None:
        self.number: dict[int, int] = {}
        self.last: dict[int, int] = {}
        self.before: dict[int, list[int]] = defaultdict(list)
        self.moves = moves
        for first in firsts:
            if first in moves and first not in self.number:
                self.walk(first)

    def leaves(self, at: int) -> list[int]:
        found = [following(move) for move, _ in self.moves.get(at, ())]
        return [it for it in found if it is not None and it in self.moves]

    def walk(self, first: int) -> None:
        stack = [self.enter(first)]
        while stack:
            at, left = stack[-1]
            if not left:
                self.last[at] = len(self.number) - 1
                stack.pop()
                continue
            to = left.pop()
            self.before[to].append(at)
            if to not in self.number:
                stack.append(self.enter(to))

    def enter(self, at: int) -> tuple[int, list[int]]:
        self.number[at] = len(self.number)
        return at, self.leaves(at)[::-1]

    def is_below(self, at: int, top: int) -> bool:
        return at in self.number and top in self.number and self.number[top] <= self.number[at] <= self.last[top]


class Nest:
    """Of each address the innermost loop around it, and of each loop the one around it, by their places in a list."""

    def __init__(self, order: Order, ends: list[tuple[int, int]]) -> None:
        self.order, self.ends = order, ends
        self.innermost: dict[int, int] = {}
        self.around: list[int | None] = [None] * len(ends)
        self.joined: dict[int, int] = {}
        # The inner ones first: a header is numbered behind those of the loops around it.
        self.inner_first = sorted(range(len(ends)), key=lambda it: -order.number.get(ends[it][0], -1))
        for index in self.inner_first:
            self.gather(index)

    def head_of(self, at: int) -> int:
        """The header of the outermost loop so far that an address lies in, or the address."""
        top = at
        while (above := self.joined.get(top, top)) != top:
            top = above
        while at != top:
            self.joined[at], at = top, self.joined[at]
        return top

    def gather(self, index: int) -> None:
        """The natural loop: what leads to the back jump without the header."""
        header, back = self.ends[index]
        self.innermost[header] = index
        left = [back] if self.order.is_below(back, header) else []
        while left:
            at = self.head_of(left.pop())
            if at == header or not self.order.is_below(at, header):
                continue
            self.joined[at] = header
            inner = self.innermost.get(at)
            if inner is None:
                self.innermost[at] = index
            else:
                self.around[inner] = index
            left += self.order.before[at]
