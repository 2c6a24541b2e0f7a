"""A source with a marker before each statement: what it says is the same, and its report says at which addresses they stand.

A marker is a statement that makes no instruction, or one that does nothing. Each has the line of the statement behind it; behind the
body of a loop stands one more, with the line of what ends a turn, and at the end of a function one with that of its bracket.
"""
from dataclasses import dataclass

from evaluator import tree
from evaluator.facts import marker_name
from evaluator.spans import begin_of
from source import Source

# Statements before which none stands: a marker would keep a jump from being the branch around it.
BARE = (tree.Break, tree.Continue, tree.Empty, tree.Marker)
MOST_MARKERS = 4096
MOST_NODES = 16384
# The first word of a pragma, and one of a pragma that is dropped.
RESTRICTION, DROPPED = b"flowrestriction", b"flowrestrictio_"


@dataclass(frozen=True)
class Mark:
    """The line that a marker stands for, its function, and whether that returns here, or ends here."""
    line: int
    function: str
    is_return: bool = False
    is_end: bool = False


class Probe:
    """Where markers go, in the order of the source, and what each stands for by its name."""

    def __init__(self, source: Source) -> None:
        self.source = source
        self.prefix = unused(source.data)
        self.marks: dict[str, Mark] = {}
        self.texts: list[tuple[int, bytes]] = []
        for function in source.definitions:
            self.function = function.name
            self.items(function.body.items)
            if not function.body.items or not isinstance(function.body.items[-1], tree.Return):
                last = source.last[function.body]
                self.mark(last, Mark(source.lines.index_at(last), function.name, is_end=True))

    def mark(self, place: int, of: Mark, before: bytes = b"") -> None:
        """Puts a marker at a place."""
        name = f"{self.prefix}{len(self.marks)}"
        self.marks[name] = of
        self.texts.append((place, b'\n%s_Pragma("marker %s")\n' % (before, name.encode())))

    def at(self, node: tree.Node) -> Mark:
        return Mark(self.source.lines.index_at(node.at), self.function, isinstance(node, tree.Return))

    def items(self, items: list[tree.Node]) -> None:
        for it in items:
            if isinstance(it, tree.Declaration):
                if any(one.value is not None or one.values is not None for one in it.objects):
                    self.mark(it.at, self.at(it))
            elif isinstance(it, tree.Marker):
                # The source's own: what it takes is its line's.
                self.marks[marker_name(it)] = self.at(it)
            elif not isinstance(it, (tree.Label, tree.Restriction, *BARE)):
                self.statement(it)

    def statement(self, it: tree.Node, wrap: bytes = b"") -> None:
        """A statement among others, or alone where it is wrapped into brackets."""
        if isinstance(it, tree.Block):
            self.items(it.items)
            return
        self.mark(begin_of(it), self.at(it), wrap)
        if isinstance(it, tree.If):
            self.body(it.first)
            if it.second is not None:
                self.body(it.second)
        elif isinstance(it, tree.Loop):
            self.turn(it)
        elif isinstance(it, tree.Switch):
            self.items(it.items)
        if wrap:
            self.texts.append((self.source.last[it] + 1, b"}"))

    def body(self, it: tree.Node) -> None:
        if not isinstance(it, BARE):
            self.statement(it, b"{")

    def turn(self, loop: tree.Loop) -> None:
        """The body of a loop, and behind it what ends a turn."""
        body, last = loop.body, self.source.last[loop.body]
        step = loop.step if isinstance(loop, tree.For) and loop.step is not None else loop.test if isinstance(loop, tree.Do) else loop
        if isinstance(body, tree.Block):
            self.items(body.items)
            self.mark(last, self.at(step))
            return
        self.texts.append((begin_of(body), b"\n{\n"))
        if not isinstance(body, BARE):
            self.statement(body)
        self.mark(last + 1, self.at(step))
        self.texts.append((last + 1, b"}"))

    def text(self, with_restrictions: bool) -> bytes:
        """The source with its markers; without restrictions, which say nothing of code, it is bounded sooner."""
        data = bytearray(self.source.data)
        for _, it in [] if with_restrictions else self.source.restrictions:
            at = data.find(RESTRICTION, it.at)
            data[at:at + len(RESTRICTION)] = DROPPED
        made, at = [], 0
        for place, text in sorted(self.texts, key=lambda it: it[0]):
            made += [data[at:place], text]
            at = place
        return b"".join([*made, data[at:]])

    def fits(self) -> bool:
        """Whether a source may have as many markers and nodes."""
        wraps = sum(text.count(b"}") for _, text in self.texts)
        return len(self.marks) <= MOST_MARKERS and len(self.source.nodes) + len(self.marks) + wraps <= MOST_NODES


def unused(data: bytes) -> str:
    """What names of markers begin with, which no name of the source does."""
    number = 0
    while b"wcc_at%d_" % number in data:
        number += 1
    return f"wcc_at{number}_"
