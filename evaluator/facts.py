"""Flow facts: loop bounds, markers and restrictions; recursion; and how often nodes may be executed at most."""
import re
from dataclasses import dataclass

from . import constants, counting, tree
from .rules import Limit, Routine, is_lone_void
from .tokens import Refused, decimal

MOST_STARTS = 2147483647
MOST_FACTOR = 1000000
MOST_TERMS = 64
MOST_EXECUTIONS = (1 << 40) - 1
CUT = (1 << 64) - 1

GAP, SOME_GAP = rb"[ \t]*", rb"[ \t]+"
NUMBER = rb"(?:0|[1-9][0-9]*)"
NAME = rb"[A-Za-z_][A-Za-z_0-9]*"
TERM = NUMBER + GAP + rb"\*" + GAP + NAME
SUM = TERM + rb"(?:" + GAP + rb"\+" + GAP + TERM + rb")*"


def form(*pieces):
    """The pattern of a pragma's text, with blanks around it."""
    return re.compile(GAP + b"".join(pieces) + GAP)


LOOP_BOUND = form(b"loopbound", SOME_GAP, b"min", SOME_GAP, b"(", NUMBER, b")", SOME_GAP, b"max", SOME_GAP, b"(", NUMBER, b")")
MARKER = form(b"marker", SOME_GAP, b"(", NAME, b")")
RESTRICTION = form(b"flowrestriction", SOME_GAP, b"(", SUM, b")", GAP, b"(<=|>=|=)", GAP, b"(", SUM, b")")
TERMS = re.compile(b"(" + NUMBER + b")" + GAP + rb"\*" + GAP + b"(" + NAME + b")")


@dataclass
class Relation:
    """A restriction: each side is a list of (number, name)."""
    at: int
    left: list
    operator: str
    right: list

    def terms(self):
        return self.left + self.right

    def sides(self, counts):
        """The values of its two sides."""
        return [sum(number * counts[name] for number, name in side) for side in (self.left, self.right)]

    def holds(self, counts):
        left, right = self.sides(counts)
        return {"<=": left <= right, ">=": left >= right, "=": left == right}[self.operator]


def terms_of(text):
    return [(decimal(number), name.decode()) for number, name in TERMS.findall(text)]


def marker_name(marker):
    """The name, or None where the pragma is of another form."""
    match = MARKER.fullmatch(marker.text)
    return match.group(1).decode() if match else None


def limits_of(loop):
    """The least and greatest number of body starts, or None where the pragma is of another form."""
    match = LOOP_BOUND.fullmatch(loop.bound)
    if not match:
        return None
    least, most = decimal(match.group(1)), decimal(match.group(2))
    return (least, most) if least <= most <= MOST_STARTS else None


def relation_of(node):
    match = RESTRICTION.fullmatch(node.text)
    if not match:
        return None
    relation = Relation(node.at, terms_of(match.group(1)), match.group(2).decode(), terms_of(match.group(3)))
    too_great = any(number > MOST_FACTOR for number, _ in relation.terms())
    return None if too_great or len(relation.terms()) > MOST_TERMS else relation


def is_endless(loop):
    """Whether no test ends a `while` or `for`: it has none, or a constant one that isn't 0."""
    return loop.test is None or constants.constant_or(loop.test, 0) != 0


def greatest_starts(loop):
    """How often the head of the loop may be started in one entry: once more than the body where its test ends it."""
    most = loop.limits[1]
    return most if isinstance(loop, tree.Do) or is_endless(loop) else most + 1


def filling(node):
    """How many elements of a local array its list leaves over."""
    return node.declared.size - len(node.values) if node.values is not None else 0


class Facts:
    """What the annotations say. Where runs don't need bounds, loops may lack theirs, and nothing limits what is executed. With `derive` a counting
    loop without a pragma has the bounds of its form."""

    def __init__(self, checker, need_bounds=True, derive=False):
        self.checker, self.need_bounds = checker, need_bounds
        self.local = set(checker.locals) if derive else set()
        self.functions = checker.definitions
        self.nodes = list(tree.nodes_of(checker.unit))
        self.markers = []
        self.relations = []

    def run(self):
        self.refuse_recursion()
        self.read()
        if not self.need_bounds:
            return self
        most = self.most(self.checker.routines["main"].node, {}, in_function=False)
        if most > MOST_EXECUTIONS:
            raise Limit("most", min(most, CUT))
        return self

    # Calls

    def refuse_recursion(self):
        graph = {it: self.callees(it.node) for it in self.functions}
        for routine in self.functions:
            if reaches(graph, routine, routine):
                raise Refused("recursion", routine.node.name_at)

    @staticmethod
    def callees(function):
        calls = (it.refers for it in tree.nodes_of(function) if isinstance(it, tree.Call))
        return {it for it in calls if it.node is not None}

    # Pragmas

    def read(self):
        """Notes what the pragmas say; or refuses at the first place at which something is wrong."""
        names = [marker_name(it) for it in self.nodes if isinstance(it, tree.Marker)]
        known = set(names) | {it.name for it in self.functions}
        faults = [it for node in self.nodes for it in self.faults(node, names, known)]
        if faults:
            at, word = min(faults)
            raise Refused(word, at)

    def faults(self, node, names, known):
        if isinstance(node, tree.Loop):
            node.limits = counting.bounds_of(node, self.local) if node.bound is None else limits_of(node)
            if node.limits is None and node.bound is not None:
                yield node.bound_at, "pragma"
            elif node.limits is None and self.need_bounds:
                yield node.at, "bound"
        elif isinstance(node, tree.Marker):
            name = marker_name(node)
            if name is None or names.count(name) > 1 or name in self.checker.routines:
                yield node.at, "pragma"
            self.markers.append(name)
        elif isinstance(node, tree.Restriction):
            relation = relation_of(node)
            if relation is None:
                yield node.at, "pragma"
            else:
                self.relations.append(relation)
                if any(name not in known for _, name in relation.terms()):
                    yield node.at, "name"

    # Executions

    def most(self, node, functions, in_function):
        """How often the nodes below are executed at most. `functions` keeps what is known of functions."""
        def of(part):
            return self.most(part, functions, in_function or isinstance(node, tree.Function)) if part else 0
        if isinstance(node, tree.Loop):
            start = of(node.start) if isinstance(node, tree.For) else 0
            step = of(node.step) if isinstance(node, tree.For) else 0
            return 1 + start + max(1, greatest_starts(node)) * (of(node.test) + of(node.body) + step)
        if isinstance(node, (tree.Function, tree.Prototype)) and is_lone_void(node.params):
            return 1 + (of(node.body) if isinstance(node, tree.Function) else 0)
        own = 1 + sum(of(it) for it in node.parts())
        if isinstance(node, tree.Call) and isinstance(node.refers, Routine) and node.refers.node:
            own += self.most_of_function(node.refers, functions)
        if isinstance(node, tree.Object) and in_function:
            own += 2 * filling(node)
        return own

    def most_of_function(self, routine, functions):
        if routine not in functions:
            functions[routine] = self.most(routine.node, functions, in_function=False)
        return functions[routine]


def reaches(graph, start, goal):
    seen, todo = set(), list(graph[start])
    while todo:
        one = todo.pop()
        if one is goal:
            return True
        if one not in seen:
            seen.add(one)
            todo += graph[one]
    return False
