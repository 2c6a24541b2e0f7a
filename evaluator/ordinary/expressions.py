"""Expressions. Each becomes what evaluates it: from left to right, and an assignment happens when it is reached."""
from dataclasses import dataclass

from .. import kinds
from ..kinds import INT, UNSIGNED, VOID, Undefined
from ..parser import ASSIGNS, LEVELS
from . import types
from .cursor import Constant, Cursor, Frozen, Routine, Thing
from .types import POINTER_BYTES, Array, Struct, convert, is_scalar

STRING_WRITTEN = 9


@dataclass(eq=False)
class Expr:
    """`value` answers a number, the cells of a struct, or None of a void expression; `drop` needs none. Where the expression is an
    object, `place` answers the list of cells that has it and the number of its first one; of an array `count` its elements."""
    at: int
    type: object
    value: object
    place: object = None
    const: bool = False
    constant: bool = False
    drop: object = None
    count: object = None
    is_param: bool = False

    def dropped(self):
        return self.drop or self.value


def written(cells, number, at):
    if cells[number] is None:
        raise Undefined(7, at)
    return cells[number]


def stored(cells, number, values, at):
    if isinstance(cells, Frozen):
        raise Undefined(STRING_WRITTEN, at)
    cells[number:number + len(values)] = values


class Expressions(Cursor):
    # What an operand must be

    def scalar(self, expr):
        if not is_scalar(expr.type):
            self.refuse("a number is wanted", expr.at, "type")
        return expr

    def converted(self, expr, kind):
        value = self.scalar(expr).value
        return value if expr.type == kind else lambda: convert(kind, value())

    def changed(self, expr):
        """An object that may be assigned (C11 6.3.2.1)."""
        if expr.place is None or expr.const or types.has_const(expr.type) or isinstance(expr.type, Array):
            self.refuse("an object that may change is wanted", expr.at, "type")
        return expr

    def constant_value(self):
        expr = self.scalar(self.conditional())
        if not expr.constant:
            self.refuse("a constant is wanted", expr.at, "type")
        try:
            return expr.value()
        except Undefined:
            self.refuse("a constant with a value is wanted", expr.at, "type")

    def object_at(self, at, type, place, const, count=None):
        """An object, by the function that finds it."""
        if is_scalar(type):
            return Expr(at, type, lambda: written(*place(), at), place, const)
        if isinstance(type, Struct):
            size = types.cells_of(type)

            def copy():
                cells, number = place()
                return cells[number:number + size]
            return Expr(at, type, copy, place, const)
        return Expr(at, type, None, place, const, count=count or (lambda: type.count))

    # From the weakest operator to the strongest

    def expression(self):
        left = self.assignment()
        while self.takes(","):
            left = self.comma(left, self.assignment())
        return left

    def comma(self, left, right):
        first, second, drop = left.dropped() or (lambda: None), right.value, right.dropped()
        if isinstance(right.type, Array):
            self.refuse("a value is wanted", right.at, "type")
        return Expr(left.at, right.type, lambda: (first(), second())[1], drop=lambda: (first(), drop())[1])

    def assignment(self):
        left = self.conditional()
        if self.kind() not in ASSIGNS:
            return left
        operator = self.take(self.kind()).kind
        right = self.assignment()
        self.changed(left)
        if isinstance(left.type, Struct):
            if operator != "=" or right.type is not left.type:
                self.refuse("a struct of this type is wanted", right.at, "type")
            return Expr(left.at, left.type, self.assigned(left, right.value))
        if operator == "=":
            value = self.converted(right, left.type)
            wrapped = self.assigned(left, lambda: [value()])
            return Expr(left.at, left.type, lambda: wrapped()[0])
        return self.compound(left, operator[:-1], self.scalar(right))

    @staticmethod
    def assigned(left, values):
        place, at = left.place, left.at

        def run():
            cells, number = place()
            new = values()
            stored(cells, number, new, at)
            return new
        return run

    def compound(self, left, operator, right):
        """The place, the right side, the old value, the write (C11 6.5.16.2)."""
        place, kind, at = left.place, self.scalar(left).type, left.at
        value, right_kind = right.value, right.type

        def run():
            cells, number = place()
            y = value()
            x = written(cells, number, at)
            new = convert(kind, combine(operator, kind, x, right_kind, y, at))
            stored(cells, number, [new], at)
            return new
        return Expr(at, kind, run)

    def conditional(self):
        test = self.binary(LEVELS["||"])
        if self.kind() != "?":
            return test
        self.take("?")
        self.scalar(test)
        first = self.expression()
        self.take(":")
        second = self.conditional()
        condition, at = test.value, test.at
        constant = test.constant and first.constant and second.constant
        if is_scalar(first.type) and is_scalar(second.type):
            kind = kinds.common(first.type, second.type)
            one, other = self.converted(first, kind), self.converted(second, kind)
        elif first.type == second.type and not isinstance(first.type, Array):
            kind, one, other = first.type, first.value, second.value
        else:
            self.refuse("two values of one type are wanted", at, "type")
        drops = first.dropped(), second.dropped()
        return Expr(at, kind, lambda: one() if condition() else other(), constant=constant,
                    drop=lambda: drops[0]() if condition() else drops[1]())

    def binary(self, weakest):
        left = self.cast()
        while LEVELS.get(self.kind(), 99) <= weakest:
            operator = self.take(self.kind()).kind
            right = self.binary(LEVELS[operator] - 1)
            left = self.two(operator, self.scalar(left), self.scalar(right))
        return left

    def two(self, operator, left, right):
        at, x, y = left.at, left.value, right.value
        constant = left.constant and right.constant
        if operator == "&&":
            return Expr(at, INT, lambda: int(bool(x() and y())), constant=constant)
        if operator == "||":
            return Expr(at, INT, lambda: int(bool(x() or y())), constant=constant)
        one, other = left.type, right.type

        def run():
            value = x()
            return combine(operator, one, value, other, y(), at)
        return Expr(at, kinds.result_kind(operator, one, other), run, constant=constant)

    def cast(self):
        if not (self.kind() == "(" and self.begins_type(1)):
            return self.unary()
        at = self.take("(").at
        type = self.type_name()
        self.take(")")
        if self.kind() == "{":
            return self.behind(self.compound_literal(at, type))
        operand = self.cast()
        if type == VOID:
            drop = operand.dropped() if operand.value or operand.drop else lambda: None

            def forget():
                drop()
            return Expr(at, VOID, forget)
        if not is_scalar(type):
            self.refuse("a number's type is wanted", at, "type")
        return Expr(at, type, self.converted(operand, type), constant=operand.constant)

    def unary(self):
        kind, at = self.kind(), self.at()
        if kind in ("++", "--"):
            self.take(kind)
            return self.step(at, kind, self.changed(self.unary()), True)
        if kind in ("+", "-", "~", "!"):
            self.take(kind)
            return self.prefix(at, kind, self.scalar(self.cast()))
        if kind in ("sizeof", "_Alignof"):
            return self.size(at, self.take(kind).kind)
        if kind in ("*", "&"):
            self.refuse("a pointer", word="outside")
        return self.behind(self.primary())

    def prefix(self, at, operator, operand):
        value = operand.value
        if operator == "!":
            return Expr(at, INT, lambda: int(value() == 0), constant=operand.constant)
        kind = kinds.promoted(operand.type)
        return Expr(at, kind, lambda: kinds.prefix(operator, kind, convert(kind, value()), at), constant=operand.constant)

    def step(self, at, operator, operand, is_prefix):
        place, kind = operand.place, self.scalar(operand).type

        def run():
            cells, number = place()
            old = written(cells, number, at)
            new = convert(kind, combine(operator[0], kind, old, INT, 1, at))
            stored(cells, number, [new], at)
            return new if is_prefix else old
        return Expr(at, kind, run)

    def size(self, at, word):
        """C11 6.5.3.4: the operand isn't evaluated, so what it calls isn't called."""
        callees = set(self.routine.callees) if self.routine else None
        if self.kind() == "(" and self.begins_type(1):
            self.take("(")
            type = self.type_name()
            self.take(")")
            if self.kind() == "{":
                type = self.behind(self.compound_literal(at, type)).type
            is_param = False
        elif word == "_Alignof":
            self.refuse("a type is wanted")
        else:
            operand = self.unary()
            type, is_param = operand.type, operand.is_param
        if self.routine:
            self.routine.callees = callees
        if not is_param:
            self.complete(type, at)
        bytes = POINTER_BYTES if is_param else types.alignment(type) if word == "_Alignof" else types.bytes_of(type)
        return Expr(at, UNSIGNED, lambda: bytes, constant=True)

    # Operands

    def behind(self, expr):
        """The operators behind an operand (C11 6.5.2)."""
        while True:
            if self.takes("["):
                expr = self.indexed(expr, self.scalar(self.expression()))
                self.take("]")
            elif self.takes("."):
                expr = self.member_of(expr)
            elif self.kind() in ("++", "--"):
                expr = self.step(expr.at, self.take(self.kind()).kind, self.changed(expr), False)
            else:
                return expr

    def indexed(self, array, index):
        if not isinstance(array.type, Array):
            self.refuse("an array is wanted", array.at, "type")
        place, count, number, at = array.place, array.count, index.value, array.at
        element = array.type.element
        size = types.cells_of(element)

        def find():
            # Where the array is comes first, as its own indexes do.
            cells, first = place()
            which, most = number(), count()
            if not 0 <= which < most:
                raise Undefined(6, at, which, most)
            return cells, first + which * size
        return self.object_at(at, element, find, array.const)

    def member_of(self, expr):
        name = self.take("name")
        path = expr.type.find(name.said) if isinstance(expr.type, Struct) and expr.type.members else None
        if path is None:
            self.refuse("a member is wanted", name.at, "type")
        type, const, cell = expr.type, expr.const, 0
        for number in path:
            member = type.members[number]
            type, const, cell = member.type, const or member.const, cell + member.cell
        whole, value = expr.place, expr.value

        def find():
            cells, first = whole() if whole else (value(), 0)
            return cells, first + cell
        found = self.object_at(expr.at, type, find, const)
        if whole is None:
            found.const = True
        return found

    def primary(self):
        token, kind = self.token(), self.kind()
        if kind == "number":
            self.take(kind)
            value, has_u, has_l = token.said
            type = UNSIGNED if has_u or value > INT.greatest() else kinds.LONG if has_l else INT
            return Expr(token.at, type, lambda: value, constant=True)
        if kind == "character":
            self.take(kind)
            return Expr(token.at, INT, lambda: token.said, constant=True)
        if kind == "string":
            cells = Frozen(list(self.string()) + [0])
            return self.object_at(token.at, Array(kinds.CHAR, len(cells)), lambda: (cells, 0), False)
        if kind == "(":
            self.take("(")
            inner = self.expression()
            self.take(")")
            return self.in_brackets(token.at, inner)
        if kind != "name":
            self.refuse("an operand is wanted")
        self.take("name")
        return self.call(token) if self.takes("(") else self.name(token)

    @staticmethod
    def in_brackets(at, inner):
        return Expr(at, *[getattr(inner, it) for it in ("type", "value", "place", "const", "constant", "drop", "count", "is_param")])

    def name(self, token):
        thing, at = self.found(token.said), token.at
        if isinstance(thing, Constant):
            return Expr(at, INT, lambda: thing.value, constant=True)
        if not isinstance(thing, Thing):
            self.refuse("a declared object is wanted", at, "type")
        count = (lambda: thing.count) if thing.is_param else None
        found = self.object_at(at, thing.type, lambda: (thing.cells, thing.base), thing.const, count)
        found.is_param = thing.is_param and isinstance(thing.type, Array)
        return found

    def compound_literal(self, at, type):
        lasting = self.routine is None
        type, make = self.literal(type)
        if lasting:
            self.refuse("a literal stands in a function", at, "outside")
        return self.object_at(at, type, lambda: (make(), 0), False)

    # Calls

    def call(self, token):
        routine, at = self.found(token.said), token.at
        if not isinstance(routine, Routine):
            self.refuse("a declared function is wanted", at, "type")
        arguments = []
        while self.kind() != ")":
            arguments.append(self.assignment())
            if not self.takes(","):
                break
        self.take(")")
        if len(arguments) != len(routine.params):
            self.refuse(f"{len(routine.params)} arguments are wanted", at, "type")
        given = [self.argument(it, *param) for it, param in zip(arguments, routine.params)]
        if self.routine:
            self.routine.callees.add(routine)
        self.called.append((routine, at))
        return Expr(at, routine.result, self.calling(routine, given, at, True), drop=self.calling(routine, given, at, False))

    def argument(self, expr, type, const):
        """The cells, the first one's number and the count of an argument."""
        if isinstance(type, Array):
            if not isinstance(expr.type, Array) or expr.type.element != type.element or expr.const and not const:
                self.refuse("an array of this type is wanted", expr.at, "type")
            place, count = expr.place, expr.count
            return lambda: (*place(), count())
        if isinstance(type, Struct):
            if expr.type is not type:
                self.refuse("a struct of this type is wanted", expr.at, "type")
            return lambda: (list(expr.value()), 0, None)
        value = self.converted(expr, type)
        return lambda: ([value()], 0, None)

    def calling(self, routine, given, at, needed):
        def run():
            places = [it() for it in given]
            if routine.name in self.built_in and routine.things is None:
                return self.built_in[routine.name](*(cells[0] for cells, _, _ in places))
            for thing, place in zip(routine.things, places):
                thing.cells, thing.base, thing.count = place
            self.counts[routine.name] += 1
            ended = routine.body()
            value = ended.value if ended else None
            if needed and value is None and routine.result != VOID:
                raise Undefined(8, at)
            return value
        return run

    def string(self):
        """Strings one behind another are one (C11 5.1.1.2, phase 6)."""
        text = self.take("string").said
        while self.kind() == "string":
            text += self.take("string").said
        return text


def combine(operator, one, x, other, y, at):
    """As the profile's operators; but the bits of a signed value shifted left are kept modulo 2^32, as gcc has it."""
    if operator == "<<":
        kind = kinds.promoted(one)
        if not 0 <= y < 32:
            raise Undefined(4, at, y)
        return convert(kind, x << y)
    return kinds.combine(operator, one, x, other, y, at)
