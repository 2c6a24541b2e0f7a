"""What a source says beside a report: the places of functions, loops, markers and restrictions, and the lines they take."""
from collections.abc import Iterator
from dataclasses import dataclass

from evaluator import tree
from evaluator.answer import MOST_SOURCE, within
from evaluator.facts import Facts, Relation, filling
from evaluator.rules import check
from evaluator.spans import Spans
from evaluator.tokens import tokens_of
from places import Line, Lines, Place

KINDS = {tree.While: "while", tree.Do: "do", tree.For: "for"}


@dataclass
class Part:
    """A function, a loop or a marker: its place, and the first and last line it takes, as numbers in the source from 0."""
    name: str
    place: Place
    first: int
    last: int
    limits: tuple[int, int] | None = None


class Source:
    def __init__(self, path: str, data: bytes) -> None:
        within("source", MOST_SOURCE, data)
        spans = Spans(tokens_of(data), len(data))
        self.path, self.data, self.unit, self.last = path, data, spans.unit(), spans.last
        tree.number_nodes(self.unit)
        facts = Facts(check(self.unit), derive=True).run()
        self.lines = Lines(path, data)
        self.lines.read_up_to(len(data))
        # Whether line markers name files.
        self.is_prepared = any(it.file is not self.lines.lines[0].file for it in self.lines.lines)
        self.nodes = facts.nodes
        self.definitions = [it.node for it in facts.functions]
        self.functions = {it.name: self.part(it.name, it, it.name_at) for it in self.definitions}
        self.markers = {name: self.part(name, it, it.at)
                        for name, it in zip(facts.markers, (it for it in facts.nodes if isinstance(it, tree.Marker)))}
        self.loops = [self.loop(it) for it in self.loop_nodes()]
        self.restrictions: list[tuple[Place, Relation]] = [(self.lines.place(it.at), it) for it in facts.relations]

    def loop_nodes(self) -> list[tree.Node]:
        """The loops as they are numbered, from 1: the filling of a local array is one too."""
        local = (it for function in self.definitions for it in tree.nodes_of(function))
        return [it for it in local if isinstance(it, tree.Loop) or isinstance(it, tree.Object) and filling(it) > 0]

    def loop_statements(self) -> list[tree.Loop]:
        return [it for it in self.nodes if isinstance(it, tree.Loop)]

    def loop(self, node: tree.Node) -> Part:
        if isinstance(node, tree.Loop):
            return self.part(KINDS[type(node)], node, node.at, node.limits)
        return self.part(f"the filling of {node.name}", node, node.at, (filling(node),) * 2)

    def part(self, name: str, node: tree.Node, at: int, limits: tuple[int, int] | None = None) -> Part:
        end = self.last.get(node.body if isinstance(node, tree.Function) else node, at)
        return Part(name, self.lines.place(at), self.lines.index_at(min(at, node.at)), self.lines.index_at(end), limits)

    def text_lines(self) -> Iterator[tuple[Line, str]]:
        """Each line of the source with its text."""
        starts = [it.start for it in self.lines.lines] + [len(self.lines.source)]
        for line, start, end in zip(self.lines.lines, starts, starts[1:]):
            yield line, self.lines.source[start:end].decode(errors="replace").rstrip("\r\n")
