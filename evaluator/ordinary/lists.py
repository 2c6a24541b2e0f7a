"""What objects begin with: an expression, a string, or a list with designators and brackets left out (C11 6.7.9)."""
from dataclasses import dataclass

from . import types
from .expressions import Expressions
from .types import Array, Struct, is_scalar


@dataclass(eq=False)
class Given:
    """A part of an object that a list gives a value: where it begins, its type, and its expression or a string's bytes."""
    cell: int
    type: object
    expr: object
    bytes: bytes = None


@dataclass(eq=False)
class Level:
    """An array or struct whose parts are being given: the next part's number, and the greatest that one had, and one more."""
    type: object
    cell: int
    next: int = 0
    most: int = 0

    def is_full(self):
        count = types.parts_of(self.type)
        return count is not None and self.next >= count

    def part(self):
        type, cell = types.part_of(self.type, self.next)
        return type, self.cell + cell

    def step(self):
        self.next += 1
        self.most = max(self.most, self.next)


class Lists(Expressions):
    def initial(self, type):
        """The type, with the size that the list gives, and what is given in order."""
        plan = []
        if self.kind() == "string" and is_text(type):
            given = self.text(type, 0)
            return given.type, [given]
        if self.takes("{"):
            return self.listed(type, 0, plan), plan
        self.place_value(type, 0, self.assignment(), plan)
        return type, plan

    def text(self, type, cell):
        at = self.at()
        text = self.string() + b"\0"
        if type.count is not None and len(text) - 1 > type.count:
            self.refuse("a string that fits is wanted", at, "type")
        text = text if type.count is None else text[:type.count].ljust(type.count, b"\0")
        return Given(cell, Array(type.element, len(text)), None, text)

    def place_value(self, type, cell, expr, plan):
        if is_scalar(type):
            plan.append(Given(cell, type, self.scalar(expr)))
        elif isinstance(type, Struct) and expr.type is type:
            plan.append(Given(cell, type, expr))
        else:
            self.refuse("a value of this type is wanted", expr.at, "type")

    def listed(self, type, cell, plan):
        """Behind the opening brace."""
        if is_scalar(type):
            self.place_value(type, cell, self.assignment(), plan)
            self.takes(",")
            self.take("}")
            return type
        if self.kind() == "string" and is_text(type) and self.kind(self.strings_ahead()) == "}":
            given = self.text(type, cell)
            plan.append(given)
            self.take("}")
            return given.type
        if not isinstance(type, Array):
            self.complete(type, self.at())
        levels = [Level(type, cell)]
        while not self.takes("}"):
            self.element(levels, plan)
            if self.kind() != "}":
                self.take(",")
        top = levels[0]
        if isinstance(type, Array) and type.count is None:
            if top.most == 0:
                self.refuse("at least one element is wanted", word="type")
            return Array(type.element, top.most)
        return type

    def strings_ahead(self):
        ahead = 0
        while self.kind(ahead) == "string":
            ahead += 1
        return ahead

    def element(self, levels, plan):
        """One part of a list: that which a designator names, else the next one (paragraphs 17 to 20)."""
        if self.kind() in (".", "["):
            self.designated(levels)
        else:
            while len(levels) > 1 and levels[-1].is_full():
                levels.pop()
            if levels[-1].is_full():
                self.refuse("fewer values are wanted", word="type")
        type, cell = levels[-1].part()
        if self.takes("{"):
            self.listed(type, cell, plan)
        elif self.kind() == "string" and is_text(type):
            plan.append(self.text(type, cell))
        else:
            self.nested(levels, plan)
            return
        levels[-1].step()

    def nested(self, levels, plan):
        """A value without brackets of its own belongs to the first part within that it fits."""
        expr = None
        while True:
            type, cell = levels[-1].part()
            if not is_scalar(type) and self.kind() == "string" and expr is None and is_text(type):
                plan.append(self.text(type, cell))
                break
            if expr is None and (is_scalar(type) or isinstance(type, Struct) or self.kind() != "string"):
                expr = self.assignment()
            if is_scalar(type) or expr is not None and expr.type is type:
                self.place_value(type, cell, expr, plan)
                break
            levels[-1].step()
            levels.append(Level(type, cell))
        levels[-1].step()

    def designated(self, levels):
        del levels[1:]
        levels[0].next = 0
        first = True
        while self.kind() in (".", "["):
            if not first:
                type, cell = levels[-1].part()
                levels[-1].step()
                levels.append(Level(type, cell))
            first = False
            self.designator(levels)
        self.take("=")

    def designator(self, levels):
        level = levels[-1]
        if self.takes("["):
            number = self.constant_value()
            self.take("]")
            count = level.type.count if isinstance(level.type, Array) else 0
            if number < 0 or count is not None and number >= count:
                self.refuse("a number of an element is wanted", word="type")
            level.next = number
            return
        self.take(".")
        name = self.take("name")
        path = level.type.find(name.said) if isinstance(level.type, Struct) and level.type.members else None
        if path is None:
            self.refuse("a member is wanted", name.at, "type")
        for number in path[:-1]:
            level.next = number
            type, cell = level.part()
            level.step()
            level = Level(type, cell)
            levels.append(level)
        level.next = path[-1]

    # Writing

    @staticmethod
    def filler(type, plan):
        """The function that writes what is given into cells, each when it is reached, and 0 into the rest at the end."""
        writes, given = [], set()
        for it in plan:
            size = types.cells_of(it.type)
            given.update(range(it.cell, it.cell + size))
            writes.append((it.cell, size, writer(it)))
        rest = sorted(set(range(types.cells_of(type))) - given)

        def fill(cells):
            for cell, size, value in writes:
                cells[cell:cell + size] = value()
            for cell in rest:
                cells[cell] = 0
        return fill

    def write(self, thing, plan):
        fill = self.filler(thing.type, plan)
        return lambda: fill(thing.cells)

    def literal(self, type):
        """The value of `(type){..}`: new cells each time it is reached (C11 6.5.2.5)."""
        at = self.take("{").at
        plan = []
        type = self.complete(self.listed(type, 0, plan), at)
        fill, size = self.filler(type, plan), types.cells_of(type)

        def make():
            cells = [None] * size
            fill(cells)
            return cells
        return type, make


def writer(given):
    if given.expr is None:
        values = list(given.bytes)
        if given.type.element.signed:
            values = [types.convert(given.type.element, it) for it in values]
        return lambda: values
    value, type = given.expr.value, given.type
    if isinstance(type, Struct):
        return value
    return lambda: [types.convert(type, value())]


def is_text(type):
    return isinstance(type, Array) and is_scalar(type.element) and type.element.bits == 8 and type.element != types.BOOL
