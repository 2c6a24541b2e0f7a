"""What a program does on an input. Each node is turned once into a function that runs it.

Evaluation goes from left to right, and an assignment happens when it is reached. An expression's function answers its
value, or None for the value of a call whose function ended without `return`. A statement's function answers how it ended:
None where the run goes on behind it, LEAVE after `break`, NEXT after `continue`, or a Back with the returned value.
"""
from . import kinds, tree
from .facts import marker_name
from .kinds import INT, Undefined, convert
from .tree import bare

LEAVE, NEXT = "break", "continue"


class Back:
    """The end of a function by `return`."""

    def __init__(self, value):
        self.value = value


class Broken(Exception):
    """A restriction that doesn't hold, or a loop whose bound doesn't, and how often it started its body in the entry at hand."""

    def __init__(self, at, loop=None, starts=0):
        super().__init__(at)
        self.at, self.loop, self.starts = at, loop, starts


def written(cells, index, at):
    """Rule 7 (C11 6.2.4, 6.7.9 paragraph 10; an indeterminate value)."""
    if cells[index] is None:
        raise Undefined(7, at)
    return cells[index]


class Program:
    def __init__(self, checker, facts, data):
        self.data = data
        self.taken = 0
        self.output = bytearray()
        self.counts = {it.name: 0 for it in facts.functions}
        self.counts.update((it, 0) for it in facts.markers)
        self.relations = facts.relations
        # The calls that the run is in, the outermost first.
        self.calls = []
        self.main = checker.routines["main"]
        # The result type of the function at hand.
        self.result = None
        self.bodies = {it: self.function(it) for it in facts.functions}
        self.start = [self.object(it, everywhere=True) for item in checker.unit.items
                      if isinstance(item, tree.Declaration) for it in item.objects]

    def run(self):
        """The value and the output of a run that ends; else Undefined or Broken."""
        for set_up in self.start:
            set_up()
        self.counts["main"] += 1
        ended = self.bodies[self.main]()
        for relation in self.relations:
            self.ends(relation)
        return (ended.value if ended else 0), bytes(self.output)

    # What a run is asked for on its way

    def enters(self, call):
        """The run enters the function that is called."""
        self.counts[call.name] += 1
        self.calls.append(call)

    def starts_body(self, loop, starts):
        """The run is about to start the body of the loop, after so many starts in this entry."""
        if starts == loop.limits[1]:
            raise Broken(loop.at, loop, starts)

    def leaves(self, loop, starts):
        """The run leaves the loop after so many starts in this entry."""
        if starts < loop.limits[0]:
            raise Broken(loop.at, loop, starts)

    def ends(self, relation):
        """The run has ended, and the restriction speaks of it."""
        if not relation.holds(self.counts):
            raise Broken(relation.at)

    # Functions and blocks

    def function(self, routine):
        self.result = routine.result
        return self.block(routine.node.body.items)

    def block(self, items):
        """Runs the items in order; the objects of the block are unwritten each time it is entered (C11 6.2.4)."""
        enter = self.entry(items)
        steps = self.steps(items)

        def run():
            enter()
            for step in steps:
                ended = step()
                if ended is not None:
                    return ended
            return None
        return run

    @staticmethod
    def entry(items):
        """Makes the objects that these items declare unwritten."""
        things = [it.declared for item in items if isinstance(item, tree.Declaration) for it in item.objects]

        def enter():
            for thing in things:
                thing.cells = [None] * (thing.size or 1)
        return enter

    def steps(self, items):
        return [step for item in items for step in self.item(item)]

    def item(self, node):
        if isinstance(node, tree.Declaration):
            return [self.object(it, everywhere=False) for it in node.objects]
        if isinstance(node, (tree.Prototype, tree.Restriction, tree.Label)):
            return []
        return [self.statement(node)]

    def object(self, node, everywhere):
        """Writes what the object begins with. One of file level without an initial value is 0 (C11 6.7.9)."""
        thing = node.declared
        given = node.values if node.values is not None else [node.value] if node.value else []
        values = [self.converted(it, thing.kind) for it in given]
        size = thing.size or 1

        def write():
            if everywhere:
                thing.cells = [None] * size
            for place, value in enumerate(values):
                thing.cells[place] = value()
            if everywhere or node.values is not None:
                thing.cells[len(values):] = [0] * (size - len(values))
        return write

    # Statements

    def statement(self, node):
        return self.statements[type(node)](self, node)

    def inner_block(self, node):
        return self.block(node.items)

    def empty(self, node):
        return lambda: None

    def evaluate(self, node):
        drop = self.dropped(node.value)

        def run():
            drop()
        return run

    def marker(self, node):
        name = marker_name(node)

        def run():
            self.counts[name] += 1
        return run

    def branch(self, node):
        test = self.value(node.test)
        first = self.statement(node.first)
        second = self.statement(node.second) if node.second else lambda: None
        return lambda: first() if test() else second()

    def leave(self, node):
        return lambda: LEAVE

    def go_on(self, node):
        return lambda: NEXT

    def give_back(self, node):
        if node.value is None:
            return lambda: Back(None)
        # The function's result type converts the value (C11 6.8.6.4, paragraph 3).
        value = self.converted(node.value, self.result)
        return lambda: Back(value())

    def while_loop(self, node):
        return self.loop(node, self.value(node.test), lambda: None, first_tested=True)

    def do_loop(self, node):
        return self.loop(node, self.value(node.test), lambda: None, first_tested=False)

    def for_loop(self, node):
        step = self.dropped(node.step) if node.step else lambda: None
        test = self.value(node.test) if node.test else lambda: 1
        run = self.loop(node, test, step, first_tested=True)
        if isinstance(node.start, tree.Expr):
            enter, start = lambda: None, [self.dropped(node.start)]
        else:
            declared = [node.start] if node.start else []
            enter, start = self.entry(declared), self.steps(declared)

        def whole():
            enter()
            for it in start:
                it()
            return run()
        return whole

    def loop(self, node, test, step, first_tested):
        body = self.statement(node.body)

        def run():
            starts = 0
            while True:
                if (starts or first_tested) and not test():
                    break
                self.starts_body(node, starts)
                starts += 1
                ended = body()
                if ended is LEAVE or isinstance(ended, Back):
                    self.leaves(node, starts)
                    return None if ended is LEAVE else ended
                step()
            self.leaves(node, starts)
            return None
        return run

    def switch(self, node):
        """C11 6.8.4.2: the equal label, else `default`, else behind the body."""
        kind = kinds.promoted(node.test.kind)
        test = self.converted(node.test, kind)
        enter = self.entry(node.items)
        steps, places, default = [], {}, None
        for item in node.items:
            if isinstance(item, tree.Label) and item.value is None:
                default = len(steps)
            elif isinstance(item, tree.Label):
                places[item.constant] = len(steps)
            steps += self.item(item)

        def run():
            enter()
            place = places.get(test(), default)
            for it in steps[len(steps) if place is None else place:]:
                ended = it()
                if ended is not None:
                    return None if ended is LEAVE else ended
            return None
        return run

    statements = {
        tree.Block: inner_block, tree.Empty: empty, tree.Evaluate: evaluate, tree.Marker: marker, tree.If: branch,
        tree.While: while_loop, tree.Do: do_loop, tree.For: for_loop, tree.Switch: switch, tree.Break: leave,
        tree.Continue: go_on, tree.Return: give_back,
    }

    # Expressions

    def raw(self, expr, used):
        """The function of an expression. Where the value is dropped, a missing one does no harm."""
        if isinstance(expr, tree.Call):
            return self.call(expr, used)
        if isinstance(expr, tree.Paren):
            return self.raw(expr.inner, used)
        if isinstance(expr, tree.Conditional):
            return self.conditional(expr, used)
        if isinstance(expr, tree.Binary) and expr.operator == ",":
            first, second = self.raw(expr.left, False), self.raw(expr.right, used)
            return lambda: (first(), second())[1]
        if isinstance(expr, tree.Cast) and expr.kind == kinds.VOID:
            return self.raw(expr.operand, False)
        return self.forms[type(expr)](self, expr)

    def value(self, expr):
        return self.raw(expr, True)

    def dropped(self, expr):
        return self.raw(expr, False)

    def converted(self, expr, kind):
        value = self.value(expr)
        if expr.kind == kind:
            return value
        return lambda: convert(kind, value())

    def number(self, expr):
        value = expr.value
        return lambda: value

    def name(self, expr):
        thing, at = expr.refers, expr.at
        return lambda: written(thing.cells, 0, at)

    def place(self, target):
        """The function that finds an object or element, and answers its cells and its number there."""
        target = bare(target)
        thing = target.refers
        if isinstance(target, tree.Name):
            return lambda: (thing.cells, 0)
        index = self.value(target.index)

        def find():
            number = index()
            if not 0 <= number < len(thing.cells):
                raise Undefined(6, target.at, number, len(thing.cells))
            return thing.cells, number
        return find

    def index(self, expr):
        find, at = self.place(expr), expr.at
        return lambda: written(*find(), at)

    def call(self, expr, used):
        routine = expr.refers
        if routine.name == "getchar" and routine.node is None:
            return lambda: self.get()
        if routine.name == "putchar" and routine.node is None:
            value = self.converted(expr.arguments[0], INT)
            return lambda: self.put(value())
        return self.call_defined(expr, routine, used)

    def get(self):
        if self.taken == len(self.data):
            return -1
        self.taken += 1
        return self.data[self.taken - 1]

    def put(self, value):
        self.output.append(value % 256)
        return value % 256

    def call_defined(self, expr, routine, used):
        """Arguments are evaluated in order, then written; an array parameter is the caller's array."""
        arguments = [self.argument(*it) for it in zip(expr.arguments, routine.params)]
        things = routine.things
        must_give = used and routine.result != kinds.VOID

        def run():
            cells = [it() for it in arguments]
            for thing, its_cells in zip(things, cells):
                thing.cells = its_cells
            self.enters(expr)
            ended = self.bodies[routine]()
            self.calls.pop()
            value = ended.value if ended else None
            if must_give and value is None:
                raise Undefined(8, expr.at)
            return value
        return run

    def argument(self, expr, param):
        kind, is_array, _ = param
        if is_array:
            thing = expr.refers
            return lambda: thing.cells
        value = self.converted(expr, kind)
        return lambda: [value()]

    def step(self, expr):
        """`++` and `--`: the sum with 1 in the common type, converted back (C11 6.5.2.4, 6.5.3.1)."""
        find, kind, at = self.place(expr.operand), expr.kind, expr.at
        operator = expr.operator[0]
        is_prefix = expr.is_prefix

        def run():
            cells, number = find()
            old = written(cells, number, at)
            new = convert(kind, kinds.combine(operator, kind, old, INT, 1, at))
            cells[number] = new
            return new if is_prefix else old
        return run

    def prefix(self, expr):
        operator, kind, at = expr.operator, expr.kind, expr.at
        if operator == "!":
            value = self.value(expr.operand)
            return lambda: int(value() == 0)
        value = self.converted(expr.operand, kind)
        return lambda: kinds.prefix(operator, kind, value(), at)

    def cast(self, expr):
        return self.converted(expr.operand, expr.kind)

    def binary(self, expr):
        operator, at = expr.operator, expr.at
        left, right = self.value(expr.left), self.value(expr.right)
        if operator == "&&":
            return lambda: int(bool(left() and right()))
        if operator == "||":
            return lambda: int(bool(left() or right()))
        left_kind, right_kind = expr.left.kind, expr.right.kind

        def run():
            x = left()
            return kinds.combine(operator, left_kind, x, right_kind, right(), at)
        return run

    def conditional(self, expr, used):
        test = self.value(expr.test)
        first, second = self.chosen(expr.first, expr.kind, used), self.chosen(expr.second, expr.kind, used)
        return lambda: first() if test() else second()

    def chosen(self, expr, kind, used):
        return self.converted(expr, kind) if used and kind != kinds.VOID else self.raw(expr, used)

    def assign(self, expr):
        """The place, the right side, then the old value of a compound assignment, and the write (C11 6.5.16)."""
        find, kind, at = self.place(expr.target), expr.kind, expr.at
        if expr.operator == "=":
            value = self.converted(expr.value, kind)

            def run():
                cells, number = find()
                cells[number] = new = value()
                return new
            return run
        operator, right, right_kind = expr.operator[:-1], self.value(expr.value), expr.value.kind

        def run_compound():
            cells, number = find()
            y = right()
            x = written(cells, number, at)
            cells[number] = new = convert(kind, kinds.combine(operator, kind, x, right_kind, y, at))
            return new
        return run_compound

    forms = {tree.Number: number, tree.Character: number, tree.Name: name, tree.Index: index, tree.Step: step,
             tree.Prefix: prefix, tree.Cast: cast, tree.Binary: binary, tree.Assign: assign}
