"""Where statements and objects end in their source."""
from . import tree
from .parser import Parser
from .tokens import Token


class Spans(Parser):
    """A parser that notes where the last token of each statement and object begins."""

    def __init__(self, tokens: list[Token], end: int) -> None:
        super().__init__(tokens, end)
        self.last: dict[tree.Node, int] = {}

    def noted(self, node: tree.Node) -> tree.Node:
        self.last[node] = self.tokens[self.next - 1].at
        return node

    def statement(self, depth: int) -> tree.Node:
        return self.noted(super().statement(depth))

    def block(self, depth: int) -> tree.Node:
        return self.noted(super().block(depth))

    def object(self, depth: int, name: Token) -> tree.Node:
        return self.noted(super().object(depth, name))


def begin_of(it: tree.Node) -> int:
    """Where a statement begins: a loop at its pragma."""
    return it.bound_at if isinstance(it, tree.Loop) and it.bound_at is not None else it.at
