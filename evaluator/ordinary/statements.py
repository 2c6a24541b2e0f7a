"""Statements (C11 6.8). A statement's function answers how it ended: None where the run goes on behind it, LEAVE, NEXT or a Back."""
from .. import facts, kinds, tree
from ..kinds import VOID
from ..meaning import LEAVE, NEXT, Back, Broken
from . import types
from .declarations import Declarations
from .types import convert, is_scalar

LOOPS = ("while", "do", "for")


class Block:
    """Steps in order. `path` says where they begin: at a label of a switch, the steps that lead to it from outside to inside."""

    def __init__(self, things, steps):
        self.things, self.steps = things, steps

    def __call__(self, path=(0,)):
        # The objects of a block hold nothing each time that it is entered (C11 6.2.4).
        for thing in self.things:
            thing.cells = [None] * types.cells_of(thing.type)
        first, inner = path[0], path[1:]
        for number in range(first, len(self.steps)):
            ended = self.steps[number](inner) if inner and number == first else self.steps[number]()
            if ended is not None:
                return ended
        return None


class Labels:
    """The labels of a switch: the type of its test, and by value, or None for `default`, the path to what stands behind."""

    def __init__(self, kind):
        self.kind, self.paths, self.path = kind, {}, []


class Statements(Declarations):
    def block(self, labelled=False):
        """Behind the opening brace. Labels stand at the top of the body of a switch and of the blocks there, within one another."""
        self.open()
        block = self.body(labelled)
        self.close()
        return block

    def body(self, labelled=False):
        outer, self.labelled = self.labelled, labelled
        self.local_things.append([])
        steps = []
        while not self.takes("}"):
            if self.labelled and self.kind() in ("case", "default"):
                self.label(len(steps))
                self.labelled = labelled
            elif self.labelled and self.kind() == "{":
                self.switches[-1].path.append(len(steps))
                self.take("{")
                steps.append(self.block(True))
                self.switches[-1].path.pop()
            elif self.begins_type() or self.kind() == "_Static_assert":
                steps += self.declaration()
            elif self.kind() == "flowrestriction":
                self.restriction()
            else:
                steps.append(self.unlabelled())
        self.labelled = outer
        return Block(self.local_things.pop(), steps)

    def unlabelled(self):
        outer, self.labelled = self.labelled, False
        step = self.statement()
        self.labelled = outer
        return step

    def label(self, number):
        """C11 6.8.4.2, paragraph 3: labels are compared in the test's promoted type."""
        at, labels = self.at(), self.switches[-1]
        value = None
        if self.takes("case"):
            value = convert(labels.kind, self.constant_value())
        else:
            self.take("default")
        self.take(":")
        if value in labels.paths:
            self.refuse("a new label is wanted", at, "type")
        labels.paths[value] = (*labels.path, number)

    def restriction(self):
        token = self.take("flowrestriction")
        relation = facts.relation_of(tree.Restriction(token.at, token.said))
        if relation is None:
            self.refuse("a restriction is wanted", token.at, "pragma")
        self.relations.append(relation)

    def statement(self):
        kind = self.kind()
        if kind in LOOPS or kind == "loopbound":
            return self.loop()
        form = {"{": self.inner_block, ";": self.empty, "marker": self.marker, "if": self.branch, "switch": self.switch, "break": self.leave,
                "continue": self.go_on, "return": self.give_back}.get(kind, self.evaluate)
        return form()

    def inner_block(self):
        self.take("{")
        return self.block()

    def empty(self):
        self.take(";")
        return lambda: None

    def marker(self):
        token = self.take("marker")
        name = facts.marker_name(tree.Marker(token.at, token.said))
        if name is None or name in self.marked:
            self.refuse("a marker of a new name is wanted", token.at, "pragma")
        self.marked[name] = token.at
        self.counts[name] = 0

        def run():
            self.counts[name] += 1
        return run

    def evaluate(self):
        drop = self.expression().dropped() or (lambda: None)
        self.take(";")

        def run():
            drop()
        return run

    def test(self):
        self.take("(")
        test = self.scalar(self.expression())
        self.take(")")
        return test

    def branch(self):
        self.take("if")
        test = self.test().value
        first = self.statement()
        second = self.statement() if self.takes("else") else lambda: None
        return lambda: first() if test() else second()

    def leave(self):
        at = self.take("break").at
        if not self.leaving:
            self.refuse("a loop or switch is wanted", at, "type")
        self.take(";")
        return lambda: LEAVE

    def go_on(self):
        at = self.take("continue").at
        if "loop" not in self.leaving:
            self.refuse("a loop is wanted", at, "type")
        self.take(";")
        return lambda: NEXT

    def give_back(self):
        at, result = self.take("return").at, self.routine.result
        if self.takes(";"):
            if result != VOID:
                self.refuse("a value is wanted", at, "type")
            return lambda: Back(None)
        expr = self.expression()
        self.take(";")
        if is_scalar(result):
            value = self.converted(expr, result)
        elif isinstance(result, types.Struct) and expr.type is result:
            value = expr.value
        else:
            self.refuse("a value of the function's type is wanted", at, "type")
        return lambda: Back(value())

    def within(self, what, work):
        self.leaving.append(what)
        done = work()
        self.leaving.pop()
        return done

    # Loops

    def loop(self):
        bound = self.take("loopbound") if self.kind() == "loopbound" else None
        if self.kind() not in LOOPS:
            self.refuse("a loop is wanted")
        token = self.take(self.kind())
        node = tree.Loop(token.at, bound and bound.said, bound and bound.at)
        if bound:
            node.limits = facts.limits_of(node)
            if node.limits is None:
                self.refuse("bounds are wanted", bound.at, "pragma")
        self.open()
        run = {"while": self.while_loop, "do": self.do_loop, "for": self.for_loop}[token.kind](node)
        self.close()
        return run

    def while_loop(self, node):
        test = self.test().value
        body = self.within("loop", self.unlabelled)
        return self.turning(node, test, body, lambda: None, True)

    def do_loop(self, node):
        body = self.within("loop", self.unlabelled)
        self.take("while")
        test = self.test().value
        self.take(";")
        return self.turning(node, test, body, lambda: None, False)

    def for_loop(self, node):
        self.take("(")
        self.local_things.append([])
        start = []
        if self.begins_type():
            start = self.declaration()
        elif not self.takes(";"):
            start = [self.evaluate()]
        things = self.local_things.pop()
        test = lambda: 1
        if not self.takes(";"):
            test = self.scalar(self.expression()).value
            self.take(";")
        step = lambda: None
        if self.kind() != ")":
            step = self.expression().dropped()
        self.take(")")
        body = self.within("loop", self.unlabelled)
        # What the first part declares lives as long as the loop.
        return Block(things, [*start, self.turning(node, test, body, step, True)])

    @staticmethod
    def turning(node, test, body, step, first_tested):
        least, most = node.limits or (0, None)

        def run():
            starts = 0
            while True:
                if (starts or first_tested) and not test():
                    break
                if starts == most:
                    raise Broken(node.at, node, starts)
                starts += 1
                ended = body()
                if ended is LEAVE or isinstance(ended, Back):
                    if starts < least:
                        raise Broken(node.at, node, starts)
                    return None if ended is LEAVE else ended
                step()
            if starts < least:
                raise Broken(node.at, node, starts)
            return None
        return run

    # A switch

    def switch(self):
        self.take("switch")
        test = self.test()
        kind = kinds.promoted(test.type)
        labels = Labels(kind)
        self.switches.append(labels)
        self.take("{")
        body = self.within("switch", lambda: self.block(True))
        self.switches.pop()
        value, paths = self.converted(test, kind), labels.paths

        def run():
            path = paths.get(value(), paths.get(None))
            ended = None if path is None else body(path)
            return None if ended is LEAVE else ended
        return run
