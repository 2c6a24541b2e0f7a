"""From tokens to the one tree that they spell (C11 6.5 to 6.9).

No token is taken that no tree can have at its place, so a refusal names the first token with which no spelling goes on.
`depth` is the depth at which a node stands; the root's is 1. The height of what is finished is kept beside it, since an
operator puts the operand to its left one node deeper.
"""
from . import tree
from .tokens import Refused

MOST_DEPTH = 256
SPECS = frozenset("static extern inline const void char short int long signed unsigned".split())
ASSIGNS = frozenset("= *= /= %= += -= <<= >>= &= ^= |=".split())
LEVELS = {
    "*": 3, "/": 3, "%": 3, "+": 4, "-": 4, "<<": 5, ">>": 5, "<": 6, ">": 6, "<=": 6, ">=": 6, "==": 7, "!=": 7,
    "&": 8, "^": 9, "|": 10, "&&": 11, "||": 12,
}
# What a refusal says that it wanted, where that is no token of one kind.
TYPE, LOOP, OPERAND = "a type", "a loop", "an operand"
CAST_LEVEL, COND_LEVEL, ASSIGN_LEVEL, COMMA_LEVEL = 2, 13, 14, 15


class TooDeep(Exception):
    """What has begun is deeper than a tree may be, whatever follows."""


class Parsed:
    """A finished expression with the level of its operator and its height."""

    def __init__(self, node, level, height):
        self.node, self.level, self.height = node, level, height


class Parser:
    def __init__(self, tokens, end):
        self.tokens, self.end = tokens, end
        self.next = 0

    # What stands there

    def token(self, ahead=0):
        place = self.next + ahead
        return self.tokens[place] if place < len(self.tokens) else None

    def kind(self, ahead=0):
        token = self.token(ahead)
        return token.kind if token else None

    def at(self):
        return self.token().at if self.token() else self.end

    def refuse(self, wanted):
        raise Refused("syntax", self.at(), wanted)

    def take(self, kind=None):
        if self.token() is None or kind not in (None, self.kind()):
            self.refuse(kind)
        self.next += 1
        return self.tokens[self.next - 1]

    def takes(self, kind):
        """Takes the token if it is of this kind."""
        if self.kind() != kind:
            return False
        self.next += 1
        return True

    @staticmethod
    def reach(depth):
        """A node stands at this depth."""
        if depth > MOST_DEPTH:
            raise TooDeep

    # Declarations

    def unit(self):
        at = self.at()
        items = [self.external(2)]
        while self.token():
            items.append(self.external(2))
        return tree.Unit(at, items)

    def external(self, depth):
        if self.kind() == "flowrestriction":
            return self.restriction(depth)
        return self.declaration(depth, may_define=True)

    def restriction(self, depth):
        token = self.take("flowrestriction")
        self.reach(depth)
        return tree.Restriction(token.at, token.said)

    def specs(self):
        words = []
        while self.kind() in SPECS:
            words.append(self.take().kind)
        if not words:
            self.refuse(TYPE)
        return words

    def declaration(self, depth, may_define=False):
        at = self.at()
        specs = self.specs()
        self.reach(depth)
        name = self.take("name")
        if self.kind() == "(":
            return self.function(depth, at, specs, name, may_define)
        objects = [self.object(depth + 1, name)]
        while self.takes(","):
            objects.append(self.object(depth + 1, self.take("name")))
        self.take(";")
        return tree.Declaration(at, specs, objects)

    def function(self, depth, at, specs, name, may_define):
        self.take("(")
        params = []
        if not self.takes(")"):
            params.append(self.param(depth + 1))
            while self.takes(","):
                params.append(self.param(depth + 1))
            self.take(")")
        if may_define and self.kind() == "{":
            return tree.Function(at, specs, name.said, name.at, params, self.block(depth + 1))
        self.take(";")
        return tree.Prototype(at, specs, name.said, params)

    def param(self, depth):
        at = self.at()
        specs = self.specs()
        self.reach(depth)
        name = self.take().said if self.kind() == "name" else None
        is_array, size = self.size(depth)
        return tree.Param(at, specs, name, is_array, size)

    def size(self, depth):
        if not self.takes("["):
            return False, None
        size = None if self.kind() == "]" else self.cond(depth + 1).node
        self.take("]")
        return True, size

    def object(self, depth, name):
        self.reach(depth)
        is_array, size = self.size(depth)
        value = values = None
        if self.takes("="):
            if self.takes("{"):
                values = self.initial_list(depth)
            else:
                value = self.assign(depth + 1).node
        return tree.Object(name.at, name.said, is_array, size, value, values)

    def initial_list(self, depth):
        values = [self.assign(depth + 1).node]
        while self.takes(","):
            if self.kind() == "}":
                break
            values.append(self.assign(depth + 1).node)
        self.take("}")
        return values

    # Statements

    def block(self, depth):
        at = self.take("{").at
        self.reach(depth)
        return tree.Block(at, self.items(depth, labels=False))

    def items(self, depth, labels):
        """What stands up to the closing brace."""
        items = []
        while not self.takes("}"):
            items.append(self.item(depth + 1, labels))
        return items

    def item(self, depth, labels):
        if labels and self.kind() in ("case", "default"):
            return self.label(depth)
        if self.kind() == "flowrestriction":
            return self.restriction(depth)
        if self.kind() in SPECS:
            return self.declaration(depth)
        return self.statement(depth)

    def label(self, depth):
        token = self.take()
        self.reach(depth)
        value = self.cond(depth + 1).node if token.kind == "case" else None
        self.take(":")
        return tree.Label(token.at, value)

    def statement(self, depth):
        kind = self.kind()
        if kind == "loopbound":
            bound = self.take()
            if self.kind() not in ("while", "do", "for"):
                self.refuse(LOOP)
            return self.loop(depth, bound)
        if kind in ("while", "do", "for"):
            return self.loop(depth, None)
        form = {"{": self.block, ";": self.empty, "marker": self.marker, "if": self.branch, "switch": self.switch,
                "break": self.leave, "continue": self.leave, "return": self.give_back}.get(kind, self.evaluate)
        return form(depth)

    def empty(self, depth):
        at = self.take(";").at
        self.reach(depth)
        return tree.Empty(at)

    def marker(self, depth):
        token = self.take("marker")
        self.reach(depth)
        return tree.Marker(token.at, token.said)

    def test(self, depth):
        """An expression in round brackets that belong to the statement at this depth."""
        self.take("(")
        test = self.expr(depth + 1).node
        self.take(")")
        return test

    def branch(self, depth):
        at = self.take("if").at
        self.reach(depth)
        test = self.test(depth)
        first = self.statement(depth + 1)
        second = self.statement(depth + 1) if self.takes("else") else None
        return tree.If(at, test, first, second)

    def loop(self, depth, bound):
        token = self.take()
        self.reach(depth)
        text, bound_at = (bound.said, bound.at) if bound else (None, None)
        if token.kind == "while":
            return tree.While(token.at, text, bound_at, self.test(depth), self.statement(depth + 1))
        if token.kind == "do":
            body = self.statement(depth + 1)
            self.take("while")
            test = self.test(depth)
            self.take(";")
            return tree.Do(token.at, text, bound_at, body, test)
        self.take("(")
        start = self.for_start(depth + 1)
        test = None if self.kind() == ";" else self.expr(depth + 1).node
        self.take(";")
        step = None if self.kind() == ")" else self.expr(depth + 1).node
        self.take(")")
        return tree.For(token.at, text, bound_at, start, test, step, self.statement(depth + 1))

    def for_start(self, depth):
        if self.kind() in SPECS:
            return self.declaration(depth)
        start = None if self.kind() == ";" else self.expr(depth).node
        self.take(";")
        return start

    def switch(self, depth):
        at = self.take("switch").at
        self.reach(depth)
        test = self.test(depth)
        self.take("{")
        return tree.Switch(at, test, self.items(depth, labels=True))

    def leave(self, depth):
        token = self.take()
        self.reach(depth)
        self.take(";")
        return tree.Break(token.at) if token.kind == "break" else tree.Continue(token.at)

    def give_back(self, depth):
        at = self.take("return").at
        self.reach(depth)
        value = None if self.kind() == ";" else self.expr(depth + 1).node
        self.take(";")
        return tree.Return(at, value)

    def evaluate(self, depth):
        at = self.at()
        value = self.expr(depth + 1).node
        self.take(";")
        return tree.Evaluate(at, value)

    # Expressions, from the weakest operator to the strongest

    def over(self, depth, part):
        """An operator behind a finished part puts it one node deeper."""
        self.reach(depth + part.height)

    def expr(self, depth):
        left = self.assign(depth)
        while self.kind() == ",":
            self.take()
            self.over(depth, left)
            right = self.assign(depth + 1)
            node = tree.Binary(left.node.at, ",", left.node, right.node)
            left = Parsed(node, COMMA_LEVEL, 1 + max(left.height, right.height))
        return left

    def assign(self, depth):
        left = self.cond(depth)
        if self.kind() not in ASSIGNS or left.level > CAST_LEVEL:
            return left
        operator = self.take().kind
        self.over(depth, left)
        right = self.assign(depth + 1)
        node = tree.Assign(left.node.at, operator, left.node, right.node)
        return Parsed(node, ASSIGN_LEVEL, 1 + max(left.height, right.height))

    def cond(self, depth):
        test = self.binary(depth, LEVELS["||"])
        if not self.takes("?"):
            return test
        self.over(depth, test)
        first = self.expr(depth + 1)
        self.take(":")
        second = self.cond(depth + 1)
        node = tree.Conditional(test.node.at, test.node, first.node, second.node)
        return Parsed(node, COND_LEVEL, 1 + max(test.height, first.height, second.height))

    def binary(self, depth, weakest):
        left = self.unary(depth)
        while LEVELS.get(self.kind(), COND_LEVEL) <= weakest:
            operator = self.take().kind
            self.over(depth, left)
            right = self.binary(depth + 1, LEVELS[operator] - 1)
            node = tree.Binary(left.node.at, operator, left.node, right.node)
            left = Parsed(node, LEVELS[operator], 1 + max(left.height, right.height))
        return left

    def unary(self, depth):
        at, kind = self.at(), self.kind()
        if kind in ("++", "--"):
            self.take()
            self.reach(depth)
            operand = self.unary(depth + 1)
            return Parsed(tree.Step(at, kind, operand.node, True), CAST_LEVEL, 1 + operand.height)
        if kind in ("+", "-", "~", "!"):
            self.take()
            self.reach(depth)
            operand = self.unary(depth + 1)
            return Parsed(tree.Prefix(at, kind, operand.node), CAST_LEVEL, 1 + operand.height)
        if kind == "(" and self.kind(1) in SPECS:
            self.take()
            specs = self.specs()
            self.reach(depth)
            self.take(")")
            operand = self.unary(depth + 1)
            return Parsed(tree.Cast(at, specs, operand.node), CAST_LEVEL, 1 + operand.height)
        return self.postfix(depth)

    def postfix(self, depth):
        operand = self.primary(depth)
        while self.kind() in ("++", "--"):
            operator = self.take().kind
            self.over(depth, operand)
            operand = Parsed(tree.Step(operand.node.at, operator, operand.node, False), 1, 1 + operand.height)
        return operand

    def primary(self, depth):
        token = self.token()
        kind = self.kind()
        if kind not in ("number", "character", "name", "("):
            self.refuse(OPERAND)
        self.take()
        self.reach(depth)
        if kind == "number":
            return Parsed(tree.Number(token.at, *token.said), 1, 1)
        if kind == "character":
            return Parsed(tree.Character(token.at, token.said), 1, 1)
        if kind == "(":
            inner = self.expr(depth + 1)
            self.take(")")
            return Parsed(tree.Paren(token.at, inner.node), 1, 1 + inner.height)
        if self.takes("["):
            index = self.expr(depth + 1)
            self.take("]")
            return Parsed(tree.Index(token.at, token.said, index.node), 1, 1 + index.height)
        if self.takes("("):
            return self.call(depth, token)
        return Parsed(tree.Name(token.at, token.said), 1, 1)

    def call(self, depth, token):
        arguments = []
        if not self.takes(")"):
            arguments.append(self.assign(depth + 1))
            while self.takes(","):
                arguments.append(self.assign(depth + 1))
            self.take(")")
        height = 1 + max((it.height for it in arguments), default=0)
        return Parsed(tree.Call(token.at, token.said, [it.node for it in arguments]), 1, height)


def unit_of(tokens, end):
    """The tree of the tokens of a source that has `end` bytes."""
    unit = Parser(tokens, end).unit()
    tree.number_nodes(unit)
    return unit
