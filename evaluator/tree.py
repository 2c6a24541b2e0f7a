"""Syntax trees. A node keeps the place of its first token; a loop that of its keyword, and a definition that of its name too.

`order` is a node's number in source order, in which a node comes before its parts. The checker notes on an expression its
type (`kind`) and on a name what it stands for (`refers`).
"""
from dataclasses import dataclass, field


@dataclass(eq=False)
class Node:
    at: int
    order: int = field(default=0, init=False)

    def parts(self):
        """The nodes below this one, in source order."""
        return []


def some(*nodes):
    return [it for it in nodes if it is not None]


@dataclass(eq=False)
class Expr(Node):
    kind: object = field(default=None, init=False)
    refers: object = field(default=None, init=False)


@dataclass(eq=False)
class Number(Expr):
    value: int
    has_u: bool
    has_l: bool


@dataclass(eq=False)
class Character(Expr):
    value: int


@dataclass(eq=False)
class Name(Expr):
    name: str


@dataclass(eq=False)
class Paren(Expr):
    inner: Expr

    def parts(self):
        return [self.inner]


@dataclass(eq=False)
class Index(Expr):
    name: str
    index: Expr

    def parts(self):
        return [self.index]


@dataclass(eq=False)
class Call(Expr):
    name: str
    arguments: list

    def parts(self):
        return self.arguments


@dataclass(eq=False)
class Step(Expr):
    """`++` or `--`, before or behind its operand."""
    operator: str
    operand: Expr
    is_prefix: bool

    def parts(self):
        return [self.operand]


@dataclass(eq=False)
class Prefix(Expr):
    operator: str
    operand: Expr

    def parts(self):
        return [self.operand]


@dataclass(eq=False)
class Cast(Expr):
    specs: list
    operand: Expr

    def parts(self):
        return [self.operand]


@dataclass(eq=False)
class Binary(Expr):
    operator: str
    left: Expr
    right: Expr

    def parts(self):
        return [self.left, self.right]


@dataclass(eq=False)
class Conditional(Expr):
    test: Expr
    first: Expr
    second: Expr

    def parts(self):
        return [self.test, self.first, self.second]


@dataclass(eq=False)
class Assign(Expr):
    operator: str
    target: Expr
    value: Expr

    def parts(self):
        return [self.target, self.value]


@dataclass(eq=False)
class Restriction(Node):
    text: bytes


@dataclass(eq=False)
class Declaration(Node):
    specs: list
    objects: list

    def parts(self):
        return self.objects


@dataclass(eq=False)
class Prototype(Node):
    """A declaration of a function without its body."""
    specs: list
    name: str
    params: list

    def parts(self):
        return self.params


@dataclass(eq=False)
class Object(Node):
    """`is_array` with `size` None is `[]`. At most one of `value` and `values` is given."""
    name: str
    is_array: bool
    size: Expr
    value: Expr
    values: list
    declared: object = field(default=None, init=False)

    def parts(self):
        return some(self.size, self.value) + (self.values or [])


@dataclass(eq=False)
class Param(Node):
    specs: list
    name: str
    is_array: bool
    size: Expr

    def parts(self):
        return some(self.size)


@dataclass(eq=False)
class Function(Node):
    specs: list
    name: str
    name_at: int
    params: list
    body: Node

    def parts(self):
        return self.params + [self.body]


@dataclass(eq=False)
class Label(Node):
    """`case value:`, or `default:` where there is no value."""
    value: Expr
    constant: int = field(default=None, init=False)

    def parts(self):
        return some(self.value)


@dataclass(eq=False)
class Block(Node):
    items: list

    def parts(self):
        return self.items


@dataclass(eq=False)
class Empty(Node):
    pass


@dataclass(eq=False)
class Evaluate(Node):
    value: Expr

    def parts(self):
        return [self.value]


@dataclass(eq=False)
class Marker(Node):
    text: bytes


@dataclass(eq=False)
class If(Node):
    test: Expr
    first: Node
    second: Node

    def parts(self):
        return some(self.test, self.first, self.second)


@dataclass(eq=False)
class Loop(Node):
    """`bound` is the text of the pragma before the loop, at `bound_at`, or None."""
    bound: bytes
    bound_at: int
    limits: tuple = field(default=None, init=False)


@dataclass(eq=False)
class While(Loop):
    test: Expr
    body: Node

    def parts(self):
        return [self.test, self.body]


@dataclass(eq=False)
class Do(Loop):
    body: Node
    test: Expr

    def parts(self):
        return [self.body, self.test]


@dataclass(eq=False)
class For(Loop):
    """`start` is a declaration, an expression or None."""
    start: Node
    test: Expr
    step: Expr
    body: Node

    def parts(self):
        return some(self.start, self.test, self.step, self.body)


@dataclass(eq=False)
class Switch(Node):
    test: Expr
    items: list

    def parts(self):
        return [self.test] + self.items


@dataclass(eq=False)
class Break(Node):
    pass


@dataclass(eq=False)
class Continue(Node):
    pass


@dataclass(eq=False)
class Return(Node):
    value: Expr

    def parts(self):
        return some(self.value)


@dataclass(eq=False)
class Unit(Node):
    items: list

    def parts(self):
        return self.items


def nodes_of(top):
    """The node and all below it, in source order."""
    yield top
    for part in top.parts():
        yield from nodes_of(part)


def number_nodes(top):
    """Numbers the nodes in source order, and returns how many there are."""
    count = 0
    for count, node in enumerate(nodes_of(top), 1):
        node.order = count
    return count


def bare(expr):
    """The expression within its brackets."""
    while isinstance(expr, Paren):
        expr = expr.inner
    return expr
