"""Random programs of the language, each a function of its seed.

A program has no meaning that C leaves open but by an undefined event: each expression is made with the interval in which
its value lies, and with what it reads and writes. So an operation that might be undefined gets operands that are masked
or cast, unless the program dares; and operands that C lets a compiler evaluate in any order don't disturb each other.
All loops count, so their bounds are known; few are false. Restrictions come last, from the counts of a run.

`generate.py SEED SOURCE INPUT` writes the program of a seed.
"""
import random
import re
import sys
from dataclasses import dataclass, field
from pathlib import Path

sys.path.insert(0, str(Path(__file__).resolve().parent.parent.parent))
from evaluator import answer, kinds  # noqa: E402
from evaluator.kinds import CHAR, INT, LONG, SHORT, SIGNED_CHAR, UNSIGNED, UNSIGNED_CHAR, UNSIGNED_LONG, UNSIGNED_SHORT

KINDS = [CHAR, SIGNED_CHAR, UNSIGNED_CHAR, SHORT, UNSIGNED_SHORT, INT, INT, INT, UNSIGNED, UNSIGNED, LONG, UNSIGNED_LONG]
SPELLINGS = {kind: [it for it in kinds.SPELLINGS if kinds.SPELLINGS[it] == kind] for kind in set(KINDS)}
INPUT_OUTPUT = "input and output"
MOST_COST = 20000
LEVELS = {"*": 3, "/": 3, "%": 3, "+": 4, "-": 4, "<<": 5, ">>": 5, "<": 6, ">": 6, "<=": 6, ">=": 6, "==": 7, "!=": 7,
          "&": 8, "^": 9, "|": 10, "&&": 11, "||": 12, "?:": 13, "=": 14, ",": 15}
WEAKEST = 15
COMPOUND = ["+=", "-=", "*=", "/=", "%=", "<<=", ">>=", "&=", "^=", "|="]
ARITHMETIC = ["+", "-", "*", "/", "%", "<<", ">>", "&", "^", "|", "<", ">", "<=", ">=", "==", "!="]


@dataclass(eq=False)
class Variable:
    """`size` is None for a scalar. The interval is the type's, but of a loop's counter, which nothing else writes."""
    name: str
    kind: kinds.Kind
    size: int = None
    is_const: bool = False
    least: int = None
    greatest: int = None
    is_written: bool = True
    is_global: bool = False

    def interval(self):
        return (self.kind.least(), self.kind.greatest()) if self.least is None else (self.least, self.greatest)


@dataclass(eq=False)
class Routine:
    """A function, with what calls of it read and write beside their arguments, and what of its array parameters it writes."""
    name: str
    result: kinds.Kind
    params: list
    reads: set = field(default_factory=set)
    writes: set = field(default_factory=set)
    cost: int = 1


@dataclass
class Made:
    """An expression: its text and level, its type, the interval of its value, what it reads and writes, its cost."""
    text: str
    level: int
    kind: kinds.Kind
    least: int
    greatest: int
    reads: frozenset = frozenset()
    writes: frozenset = frozenset()
    cost: int = 1

    def within(self, kind):
        """Its interval after a conversion."""
        if kind.holds(self.least) and kind.holds(self.greatest):
            return self.least, self.greatest
        return kind.least(), kind.greatest()


def disturb(one, other):
    """Whether the order of two evaluations matters."""
    return bool(one.writes & (other.reads | other.writes) or other.writes & one.reads)


def bits_above(value):
    return (1 << max(value, 0).bit_length()) - 1


class Generator:
    def __init__(self, seed, tag=""):
        self.random = random.Random(seed)
        self.tag = tag
        self.names = 0
        self.lines = []
        self.depth = 0
        self.scopes = [[]]
        self.routines = []
        self.markers = 0
        self.daring = self.chance(0.5)
        # The function at hand, and what the statement at hand stands in.
        self.routine = None
        self.turns = 1
        self.in_loop = self.in_switch = False
        # Of each loop around it, whether something in its body leaves it.
        self.leaves = []

    # Choices

    def chance(self, likely):
        return self.random.random() < likely

    def pick(self, things):
        return self.random.choice(things)

    def number(self, least, greatest):
        return self.random.randint(least, greatest)

    def dares(self, likely=0.15):
        return self.daring and self.chance(likely)

    # Text

    def put(self, text):
        self.lines.append("    " * self.depth + text)

    def pragma(self, text):
        if self.chance(0.5):
            self.lines.append(f"#pragma {text}")
        else:
            self.put(f'_Pragma("{text}")')

    def fresh(self, letter):
        self.names += 1
        return f"{letter}{self.names}{self.tag}"

    def spelling(self, kind):
        words = self.pick(SPELLINGS[kind]).split()
        self.random.shuffle(words)
        return " ".join(words)

    # Numbers

    def literal(self):
        value = self.pick([self.number(0, 9), self.number(0, 255), self.number(0, 70000), 2147483647, 2147483646, 65535,
                           32767, 128, 1 << self.number(0, 30)]) if self.chance(0.5) else self.number(0, 20)
        if self.chance(0.1):
            return self.character()
        if self.chance(0.15):
            value = self.pick([value, 2147483648, 4294967295, 0x80000001])
        suffix, kind = "", INT
        if value > 2147483647 or self.chance(0.15):
            suffix, kind = self.pick(["u", "U"]), UNSIGNED
        if self.chance(0.1):
            suffix, kind = self.pick([suffix + "l", "L" + suffix]), LONG if kind == INT else UNSIGNED_LONG
        form = self.pick(["{}", "{}", "{}", "0x{:x}", "0X{:X}", "0{:o}"])
        return Made(form.format(value) + suffix, 1, kind, value, value)

    def character(self):
        value = self.number(0, 255)
        text = chr(value) if 32 <= value < 127 and chr(value) not in "'\\" else self.pick([f"\\x{value:x}", f"\\{value:03o}"])
        return Made(f"'{text}'", 1, INT, value, value)

    def extreme(self):
        """The greatest or least int."""
        if self.chance(0.5):
            return Made("2147483647", 1, INT, 2147483647, 2147483647)
        return Made("(-2147483647 - 1)", 1, INT, INT.least(), INT.least())

    def constant(self):
        """A constant expression with a defined value."""
        made = self.literal()
        if self.chance(0.3):
            made = self.safe_binary(self.pick(ARITHMETIC), made, self.literal())
        if self.chance(0.2):
            made = self.negated(made)
        if self.chance(0.2):
            made = self.cast(made, self.pick(KINDS))
        return made

    # Operators

    def bracketed(self, made, level):
        """The text where an operand of at most this level stands."""
        if made.level > level or self.chance(0.1):
            return f"({made.text})"
        return made.text

    def joined(self, operator, left, right, kind, least, greatest, level=None):
        level = level or LEVELS[operator]
        text = f"{self.bracketed(left, level)} {operator} {self.bracketed(right, level - 1)}"
        return Made(text, level, kind, least, greatest, left.reads | right.reads, left.writes | right.writes,
                    1 + left.cost + right.cost)

    def masked(self, made, mask):
        """Within 0..mask."""
        greatest = mask if made.least < 0 else min(mask, bits_above(made.greatest))
        mask_made = Made(str(mask), 1, INT, mask, mask)
        return self.joined("&", made, mask_made, kinds.common(made.kind, INT), 0, greatest)

    def cast(self, made, kind):
        least, greatest = made.within(kind)
        return Made(f"({self.spelling(kind)})" + self.bracketed(made, 2), 2, kind, least, greatest, made.reads, made.writes,
                    1 + made.cost)

    def narrowed(self, made, mask):
        """The operand, kept small in one of the ways in which a programmer does it."""
        if 0 <= made.least and made.greatest <= mask:
            return made
        way = self.number(0, 3)
        if way == 0 and mask >= 255:
            return self.cast(made, self.pick([CHAR, UNSIGNED_CHAR]))
        if way == 1:
            divisor = self.number(1, mask)
            bound = Made(str(divisor), 1, INT, divisor, divisor)
            kind = kinds.common(made.kind, INT)
            least = 0 if made.within(kind)[0] >= 0 else 1 - divisor
            return self.masked(self.joined("%", made, bound, kind, least, divisor - 1), mask)
        return self.masked(made, mask)

    def prefixed(self, operator, operand, kind, least, greatest):
        text = self.bracketed(operand, 2)
        space = " " if text[0] in "+-" else ""
        return Made(operator + space + text, 2, kind, least, greatest, operand.reads, operand.writes, 1 + operand.cost)

    def negated(self, made):
        kind = kinds.promoted(made.kind)
        least, greatest = made.within(kind)
        if kind.signed and least == kind.least() and not self.dares():
            made = self.masked(made, 0xFFFF)
            least, greatest = 0, made.greatest
        if not kind.signed and greatest > 0:
            return self.prefixed("-", made, kind, 0, kind.greatest())
        return self.prefixed("-", made, kind, max(-greatest, kind.least()), min(-least, kind.greatest()))

    def unary(self, made):
        kind = kinds.promoted(made.kind)
        operator = self.pick(["-", "-", "+", "~", "!", "cast"])
        if operator == "-":
            return self.negated(made)
        if operator == "cast":
            return self.cast(made, self.pick(KINDS))
        if operator == "!":
            return self.prefixed("!", made, INT, 0, 1)
        if operator == "+":
            return self.prefixed("+", made, kind, *made.within(kind))
        least, greatest = made.within(kind)
        if kind.signed:
            return self.prefixed("~", made, kind, ~greatest, ~least)
        return self.prefixed("~", made, kind, 0, kind.greatest())

    def sums(self, operator, left, right):
        """The interval of a sum, difference or product in the common type, and whether it may leave the type."""
        kind = kinds.common(left.kind, right.kind)
        (a, b), (c, d) = left.within(kind), right.within(kind)
        corners = {"+": [a + c, b + d], "-": [a - d, b - c], "*": [a * c, a * d, b * c, b * d]}[operator]
        least, greatest = min(corners), max(corners)
        if kind.holds(least) and kind.holds(greatest):
            return kind, least, greatest, False
        return kind, kind.least(), kind.greatest(), kind.signed

    def safe_binary(self, operator, left, right):
        """The operator on the operands, or on operands that are kept small so that it is defined."""
        if operator in ("+", "-", "*"):
            if self.dares(0.02):
                right = self.extreme()
            kind, least, greatest, may_leave = self.sums(operator, left, right)
            if may_leave and not self.dares():
                mask = 0x3FF if operator == "*" else 0xFFFFF
                if self.chance(0.3):
                    left = self.cast(left, UNSIGNED)
                else:
                    left, right = self.narrowed(left, mask), self.narrowed(right, mask)
                kind, least, greatest, _ = self.sums(operator, left, right)
            return self.joined(operator, left, right, kind, least, greatest)
        if operator in ("/", "%"):
            return self.division(operator, left, right)
        if operator in ("<<", ">>"):
            return self.shifted(operator, left, right)
        if operator in ("&", "^", "|"):
            return self.bitwise(operator, left, right)
        return self.joined(operator, left, right, INT, 0, 1)

    def division(self, operator, left, right):
        if self.dares(0.02):
            left, right = self.extreme(), self.joined("-", self.masked(right, 1), Made("1", 1, INT, 1, 1), INT, -1, 0)
            return self.joined(operator, left, right, kinds.common(INT, right.kind), INT.least(), INT.greatest())
        kind = kinds.common(left.kind, right.kind)
        least, greatest = right.within(kind)
        if least <= 0 <= greatest and not self.dares(0.05):
            right = self.narrowed(right, 0xFF)
            one = Made("1", 1, INT, 1, 1)
            right = self.joined("+", right, one, kinds.common(right.kind, INT), right.least + 1, right.greatest + 1)
            kind = kinds.common(left.kind, right.kind)
            least, greatest = right.within(kind)
        a, b = left.within(kind)
        if kind.signed and a == kind.least() and least <= -1 <= greatest and not self.dares():
            left = self.narrowed(left, 0xFFFF)
            a, b = left.within(kind)
        if operator == "/":
            bound = max(abs(a), abs(b))
            low, high = (0, b) if a >= 0 and least > 0 else (-bound, bound)
        else:
            bound = max(abs(least), abs(greatest)) - 1
            low, high = (0 if a >= 0 else -bound), bound
        return self.joined(operator, left, right, kind, max(low, kind.least()), min(max(high, 0), kind.greatest()))

    def shifted(self, operator, left, right):
        if not (0 <= right.least and right.greatest < 32) and not self.dares(0.03):
            right = self.masked(right, self.pick([7, 15, 31]))
        kind = kinds.promoted(left.kind)
        least, greatest = left.within(kind)
        if operator == ">>":
            return self.joined(operator, left, right, kind, min(least, 0), max(greatest, 0))
        count = min(max(right.greatest, 0), 31)
        if not kind.signed:
            return self.joined(operator, left, right, kind, 0, kind.greatest())
        if least < 0 or not kind.holds(greatest << count):
            if not self.dares():
                if self.chance(0.5):
                    return self.joined(operator, self.cast(left, UNSIGNED), right, UNSIGNED, 0, UNSIGNED.greatest())
                left, right = self.narrowed(left, 0xFF), self.masked(right, 15)
                left = self.masked(left, 0xFF)
        return self.joined(operator, left, right, kinds.promoted(left.kind), 0, kinds.promoted(left.kind).greatest())

    def bitwise(self, operator, left, right):
        kind = kinds.common(left.kind, right.kind)
        (a, b), (c, d) = left.within(kind), right.within(kind)
        if a >= 0 and c >= 0:
            high = min(bits_above(b), bits_above(d)) if operator == "&" else bits_above(b | d)
            return self.joined(operator, left, right, kind, 0, min(high, kind.greatest()))
        if operator == "&" and (a >= 0 or c >= 0):
            return self.joined(operator, left, right, kind, 0, bits_above(b if a >= 0 else d))
        return self.joined(operator, left, right, kind, kind.least(), kind.greatest())

    # What is visible

    def visible(self):
        """The variables that no inner one hides."""
        found = {}
        for scope in self.scopes:
            for it in scope:
                found[it.name] = it
        return list(found.values())

    def scalars(self, writable=False):
        return [it for it in self.visible() if it.size is None and (it.is_written or writable)
                and not (writable and (it.is_const or it.least is not None))]

    def arrays(self, writable=False):
        return [it for it in self.visible() if it.size is not None and it.is_written and not (writable and it.is_const)]

    def effect_of_read(self, variable):
        if variable.is_global:
            self.routine.reads.add(variable)

    def effect_of_write(self, variable):
        if variable.is_global or variable in self.routine.params:
            self.routine.writes.add(variable)

    # Expressions

    def expression(self, size):
        """An expression of about this many operators."""
        if size <= 0:
            return self.leaf()
        form = self.random.random()
        if form < 0.5:
            return self.binary(size)
        if form < 0.62:
            return self.unary(self.expression(size - 1))
        if form < 0.70:
            return self.logical(size)
        if form < 0.77:
            return self.conditional(size)
        if form < 0.81:
            return self.comma(size)
        if form < 0.88:
            return self.effect(size - 1)
        return self.leaf()

    def pair(self, size):
        """Two operands whose order doesn't matter."""
        left = self.expression(self.number(0, size - 1))
        right = self.expression(size - 1 - self.number(0, size - 1))
        return (left, right) if not disturb(left, right) else (left, self.literal())

    def binary(self, size):
        return self.safe_binary(self.pick(ARITHMETIC), *self.pair(size))

    def logical(self, size):
        left, right = self.expression(size // 2), self.expression(size // 2)
        return self.joined(self.pick(["&&", "||"]), left, right, INT, 0, 1)

    def conditional(self, size):
        test, first, second = (self.expression(size // 3) for _ in range(3))
        kind = kinds.common(first.kind, second.kind)
        (a, b), (c, d) = first.within(kind), second.within(kind)
        text = f"{self.bracketed(test, 12)} ? {self.bracketed(first, WEAKEST)} : {self.bracketed(second, 13)}"
        return Made(text, 13, kind, min(a, c), max(b, d), test.reads | first.reads | second.reads,
                    test.writes | first.writes | second.writes, 1 + test.cost + first.cost + second.cost)

    def comma(self, size):
        left, right = self.expression(size // 2), self.expression(size // 2)
        return self.joined(",", left, right, right.kind, right.least, right.greatest, level=15)

    def leaf(self):
        form = self.random.random()
        if form < 0.25:
            return self.literal()
        if form < 0.40 and self.arrays():
            return self.element(self.pick(self.arrays()))
        scalars = self.scalars(writable=self.dares(0.05))
        return self.reading(self.pick(scalars)) if scalars else self.literal()

    def reading(self, variable):
        self.effect_of_read(variable)
        return Made(variable.name, 1, variable.kind, *variable.interval(), frozenset([variable]))

    def index(self, size):
        """An index of an array of this size."""
        made = self.expression(self.number(0, 1))
        if 0 <= made.least and made.greatest < size or self.dares(0.015):
            return made
        mask = bits_above(size) >> 1
        return self.masked(made, mask) if mask else Made("0", 1, INT, 0, 0)

    def element(self, array):
        self.effect_of_read(array)
        index = self.index(array.size)
        return Made(f"{array.name}[{index.text}]", 1, array.kind, array.kind.least(), array.kind.greatest(),
                    index.reads | {array}, index.writes, 1 + index.cost)

    def target(self):
        """A scalar or an element that may be written, as an expression that reads nothing of it, and its variable."""
        arrays, scalars = self.arrays(writable=True), self.scalars(writable=True)
        if arrays and (self.chance(0.4) or not scalars):
            array = self.pick(arrays)
            index = self.index(array.size)
            made = Made(f"{array.name}[{index.text}]", 1, array.kind, array.kind.least(), array.kind.greatest(),
                        index.reads, index.writes, index.cost)
            return made, array
        if not scalars:
            return None, None
        variable = self.pick(scalars)
        return Made(variable.name, 1, variable.kind, *variable.interval()), variable

    def effect(self, size):
        form = self.random.random()
        if form < 0.35:
            return self.assignment(size) or self.leaf()
        if form < 0.55:
            return self.step() or self.leaf()
        if form < 0.85:
            return self.call(size) or self.leaf()
        return self.input_output(size)

    def input_output(self, size):
        both = frozenset([INPUT_OUTPUT])
        self.routine.writes.add(INPUT_OUTPUT)
        if self.chance(0.4):
            return Made("getchar()", 1, INT, -1, 255, both, both, 3)
        value = self.expression(size)
        if disturb(value, Made("", 1, INT, 0, 0, both, both)):
            value = self.literal()
        return Made(f"putchar({self.bracketed(value, 14)})", 1, INT, 0, 255, value.reads | both, value.writes | both,
                    3 + value.cost)

    def assignment(self, size):
        target, variable = self.target()
        if target is None or variable in target.reads | target.writes:
            return None
        value = self.expression(size)
        if disturb(target, value) or variable in value.writes:
            value = self.literal()
        operator = "="
        if variable.is_written and self.chance(0.7):
            operator, value = self.compound(self.pick(COMPOUND), target, value)
            self.effect_of_read(variable)
        self.effect_of_write(variable)
        # Only what every way through the function passes counts as written.
        if variable.size is None and self.turns == 1 and self.depth <= 1:
            variable.is_written = True
        kind = target.kind
        interval = value.within(kind) if operator == "=" else (kind.least(), kind.greatest())
        text = f"{target.text} {operator} {self.bracketed(value, 14)}"
        return Made(text, 14, kind, *interval, target.reads | value.reads | {variable},
                    target.writes | value.writes | {variable}, 2 + target.cost + value.cost)

    def compound(self, operator, target, value):
        """The operator, or another one, and the value, so that it is defined."""
        bare = operator[:-1]
        kind = kinds.common(target.kind, value.kind)
        if bare in ("+", "-", "*"):
            if self.sums(bare, target, value)[3] and not self.dares():
                value = self.narrowed(value, 0xFF)
                if self.sums(bare, target, value)[3]:
                    return self.pick(["&=", "^=", "|="]), value
        elif bare in ("/", "%"):
            least, greatest = value.within(kind)
            if least <= 0 <= greatest or least <= -1 <= greatest:
                if not self.dares():
                    value = self.joined("|", self.narrowed(value, 0x7F), Made("1", 1, INT, 1, 1), INT, 1, 0x7F)
        elif bare in ("<<", ">>"):
            value = value if self.dares(0.1) else self.masked(value, 7)
            if bare == "<<" and (kinds.promoted(target.kind).bits == 32 and target.kind.signed or target.least < 0):
                if not self.dares():
                    return ">>=", value
        return operator, value

    def step(self):
        target, variable = self.target()
        if target is None or not variable.is_written or variable in target.reads | target.writes:
            return None
        if target.kind in (INT, LONG) and not self.dares(0.5):
            return None
        self.effect_of_read(variable)
        self.effect_of_write(variable)
        operator = self.pick(["++", "--"])
        is_prefix = self.chance(0.5)
        text = operator + target.text if is_prefix else target.text + operator
        kind = target.kind
        return Made(text, 2 if is_prefix else 1, kind, kind.least(), kind.greatest(), target.reads | {variable},
                    target.writes | {variable}, 2 + target.cost)

    def call(self, size, wants_value=True):
        """A call of an earlier function, if one is cheap enough here."""
        fitting = [it for it in self.routines if it.cost * self.turns < MOST_COST // 4
                   and not (wants_value and it.result == kinds.VOID)]
        if not fitting:
            return None
        routine = self.pick(fitting)
        arguments = self.arguments(routine, size // 2)
        if arguments is None:
            return None
        reads, writes = self.touched(routine, arguments)
        text = f"{routine.name}({', '.join(self.bracketed(it, 14) if it.level else it.text for it in arguments)})"
        kind = routine.result
        interval = (0, 0) if kind == kinds.VOID else (kind.least(), kind.greatest())
        return Made(text, 1, kind, *interval, frozenset(reads), frozenset(writes),
                    5 + routine.cost + sum(it.cost for it in arguments))

    def arguments(self, routine, size):
        """Arguments whose order doesn't matter, or None."""
        made = []
        for param in routine.params:
            one = self.expression(size) if param.size is None else self.array_argument(routine, param)
            if one is not None and any(disturb(one, it) or (one.level == 0 and one.text == it.text) for it in made):
                one = self.literal() if param.size is None else None
            if one is None:
                return None
            made.append(one)
        return made

    def array_argument(self, routine, param):
        """The name of an array that the function has no other name for, so that it sees no two names for one element."""
        fitting = [it for it in self.arrays() if it.kind == param.kind and it.size >= param.size
                   and (param.is_const or not it.is_const) and it not in routine.reads | routine.writes]
        if not fitting:
            return None
        array = self.pick(fitting)
        return Made(array.name, 0, array.kind, 0, 0, frozenset([array]))

    def touched(self, routine, arguments):
        """What a call reads and writes, which is noted for the function at hand too."""
        reads = {it for it in routine.reads if it == INPUT_OUTPUT or it.is_global}
        writes = {it for it in routine.writes if it == INPUT_OUTPUT or it.is_global}
        self.routine.reads |= reads
        self.routine.writes |= writes
        for param, argument in zip(routine.params, arguments):
            reads |= argument.reads
            writes |= argument.writes
            if param.size is not None:
                array, = argument.reads
                self.effect_of_read(array)
                if param in routine.writes:
                    writes.add(array)
                    self.effect_of_write(array)
        return reads, writes

    # Statements

    def spend(self, made):
        self.routine.cost += made.cost * self.turns

    def value_text(self, size):
        made = self.expression(size)
        self.spend(made)
        return made.text

    def block(self, count, braces=True):
        """Some statements in braces, with a scope of their own."""
        if braces:
            self.put("{")
        self.depth += 1
        self.scopes.append([])
        for _ in range(count):
            self.statement()
        self.scopes.pop()
        self.depth -= 1
        if braces:
            self.put("}")

    def statement(self):
        forms = [(self.evaluate, 30), (self.declaration, 12), (self.branch, 12), (self.counting_loop, 14), (self.switch, 7),
                 (self.inner_block, 4), (self.marker, 4), (self.leave, 5), (self.give_back, 2), (self.empty, 1),
                 (self.prototype, 1), (self.dropped, 3)]
        if self.depth > 5:
            return self.evaluate()
        form = self.random.choices([it for it, _ in forms], [it for _, it in forms])[0]
        form()

    def evaluate(self):
        made = self.effect(self.number(0, 4)) if self.chance(0.9) else self.expression(3)
        self.spend(made)
        self.put(f"{made.text};")

    def dropped(self):
        made = self.call(2, wants_value=False) or self.expression(2)
        self.spend(made)
        self.put(f"(void){self.bracketed(made, 2)};" if self.chance(0.5) else f"{made.text};")

    def empty(self):
        self.put(";")

    def inner_block(self):
        self.block(self.number(0, 3))

    def marker(self):
        self.markers += 1
        self.pragma(f"marker m{self.markers}")

    def prototype(self):
        if self.routines:
            self.put(self.head(self.pick(self.routines), is_definition=False) + ";")

    def declaration(self):
        kind, name = self.pick(KINDS), self.local_name()
        if self.chance(0.3):
            self.array_declaration(kind, name)
        elif self.chance(0.1):
            self.unwritten(kind, name)
        else:
            self.scalar_declaration(kind, name)

    def local_name(self):
        """A new name, or now and then one that hides another."""
        here = {it.name for it in self.scopes[-1]}
        hidden = [it.name for it in self.visible() if it.name not in here and it.least is None]
        return self.pick(hidden) if hidden and self.chance(0.1) else self.fresh("v")

    def initial_value(self, name, size, others=()):
        """A value that doesn't depend on what the new name hides, nor on the order of the others."""
        made = self.expression(size)
        if any(disturb(made, it) for it in others) or any(
                it != INPUT_OUTPUT and it.name == name for it in made.reads | made.writes):
            made = self.literal()
        self.spend(made)
        return made

    def scalar_declaration(self, kind, name):
        is_const = self.chance(0.1)
        made = self.initial_value(name, 2)
        self.put(f"{'const ' if is_const else ''}{self.spelling(kind)} {name} = {self.bracketed(made, 14)};")
        self.scopes[-1].append(Variable(name, kind, is_const=is_const))

    def unwritten(self, kind, name):
        """A scalar that isn't written at once, and rarely not before it is read."""
        self.put(f"{self.spelling(kind)} {name};")
        is_written = not self.dares(0.2)
        if is_written:
            self.put(f"{name} = {self.bracketed(self.initial_value(name, 1), 14)};")
        self.scopes[-1].append(Variable(name, kind, is_written=is_written))

    def array_declaration(self, kind, name):
        size = self.pick([1, 2, 4, 8, 5, 16])
        if self.chance(0.15):
            return self.filled_array(kind, name, size)
        values = []
        for _ in range(self.number(1, min(size, 4))):
            values.append(self.initial_value(name, 1, values))
        is_const, is_sized = self.chance(0.1), self.chance(0.8)
        self.put(f"{'const ' if is_const else ''}{self.spelling(kind)} {name}[{size if is_sized else ''}] = "
                 f"{{{', '.join(self.bracketed(it, 14) for it in values)}{self.pick(['', ','])}}};")
        self.scopes[-1].append(Variable(name, kind, size if is_sized else len(values), is_const))

    def filled_array(self, kind, name, size):
        """An array without a list, which a loop writes; rarely not all of it."""
        counter = self.fresh("i")
        self.put(f"{self.spelling(kind)} {name}[{size}];")
        self.put(f"int {counter};")
        count = size - (1 if self.dares(0.1) else 0)
        value = self.initial_value(name, 1)
        self.routine.cost += value.cost * size * self.turns
        self.bound(count, count)
        self.put(f"for ({counter} = 0; {counter} < {count}; {counter}++)")
        self.put(f"    {name}[{counter}] = {self.bracketed(value, 14)};")
        self.scopes[-1].append(Variable(name, kind, size))

    def part(self, count):
        """A statement that is a part: a block, or one without declaration."""
        if self.chance(0.8):
            self.block(count)
        else:
            self.depth += 1
            self.evaluate()
            self.depth -= 1

    def branch(self):
        self.put(f"if ({self.value_text(2)})")
        self.part(self.number(0, 3))
        if self.chance(0.4):
            self.put("else")
            self.part(self.number(0, 2))

    def leave(self):
        """`break` or `continue`, behind a test so that what follows is reached too."""
        words = ["break"] if self.in_loop or self.in_switch else []
        words += ["continue"] if self.in_loop else []
        if not words:
            return self.evaluate()
        word = self.pick(words)
        if word == "break" and not self.in_switch:
            self.leaves[-1] = True
        self.put(f"if ({self.value_text(2)})")
        self.put(f"    {word};")

    def give_back(self):
        self.leaves = [True] * len(self.leaves)
        self.put(f"if ({self.value_text(2)})")
        self.put(f"    {self.return_text()}")

    def return_text(self):
        if self.routine.result == kinds.VOID:
            return "return;"
        return f"return {self.value_text(2)};"

    def switch(self):
        test = self.expression(2)
        if self.chance(0.7):
            test = self.masked(test, 3)
        self.spend(test)
        self.put(f"switch ({test.text}) {{")
        outer = self.in_switch
        self.in_switch = True
        self.scopes.append([])
        # Each label has its value in the promoted type, and no two are equal there.
        labels, kind = set(), kinds.promoted(test.kind)
        has_default = False
        for _ in range(self.number(1, 5)):
            made = self.constant_label(kind, labels)
            if made is None and not has_default:
                has_default = True
                self.put("default:")
            elif made is not None:
                self.put(f"case {made}:")
            self.depth += 1
            for _ in range(self.number(0, 2)):
                self.part_of_switch()
            if self.chance(0.6):
                self.put("break;")
            self.depth -= 1
        self.scopes.pop()
        self.in_switch = outer
        # C wants a statement behind a label that ends the body.
        self.put("    ;")
        self.put("}")

    def part_of_switch(self):
        self.pick([self.evaluate, self.evaluate, self.inner_block, self.branch, self.leave, self.marker_in_block])()

    def marker_in_block(self):
        self.put("{")
        self.marker()
        self.put("}")

    def constant_label(self, kind, labels):
        if self.chance(0.2):
            return None
        value = self.pick([0, 1, 2, 3, self.number(-3, 300)])
        if kinds.convert(kind, value) in labels:
            return None
        labels.add(kinds.convert(kind, value))
        if value >= 0:
            return self.pick(["{}", "0x{:x}", "0{:o}", "(int){}", "{} + 0", "1 ? {} : 7"]).format(value)
        return str(value)

    # Loops

    def bound(self, least, most):
        """A true bound: exact or looser; or very rarely a false one."""
        if self.chance(0.2):
            least, most = self.number(0, least), most + self.number(0, 5)
        if self.dares(0.01):
            least, most = self.pick([(min(least, most - 1), most - 1), (least + 1, max(least + 1, most))])
            least, most = max(least, 0), max(most, 0)
        self.pragma(f"loopbound min {least} max {most}")

    def body(self, counter, turns, first=None):
        """The lines of a loop's body, which sees the counter, and whether something in it leaves the loop."""
        outer = self.turns, self.in_loop, self.in_switch
        self.turns, self.in_loop, self.in_switch = self.turns * max(turns, 1), True, False
        self.leaves.append(False)
        self.scopes.append([counter])
        start = len(self.lines)
        self.put("{")
        if first:
            self.put("    " + first)
        self.block(self.number(0, 4), braces=False)
        self.put("}")
        lines = self.lines[start:]
        del self.lines[start:]
        self.scopes.pop()
        self.turns, self.in_loop, self.in_switch = outer
        return lines, self.leaves.pop()

    def counting_loop(self):
        turns = self.number(0, 6) if self.chance(0.8) else self.number(0, 20)
        if self.turns * max(turns, 1) > 200:
            return self.evaluate()
        self.pick([self.for_loop, self.for_loop, self.for_data, self.while_loop, self.do_loop, self.endless_loop])(turns)

    def for_loop(self, turns):
        """Counts by some step, up or down, with one of the eight tests."""
        name = self.fresh("i")
        step = self.number(1, 3)
        first = self.number(-5, 5)
        down = self.chance(0.4)
        end = first - turns * step if down else first + turns * step
        # Behind the last turn the counter is at `end`; a test with `=` stops before it.
        slack = self.number(0, step - 1) if turns else 0
        if self.chance(0.5):
            test = f"{name} > {end + slack}" if down else f"{name} < {end - slack}"
        else:
            test = f"{name} >= {end + 1 + slack}" if down else f"{name} <= {end - 1 - slack}"
        if self.chance(0.1):
            test = f"{name} != {end}"
        sign = "-" if down else "+"
        counting = self.pick([f"{name} {sign}= {step}", f"{name} = {name} {sign} {step}"])
        if step == 1 and self.chance(0.8):
            counting = self.pick([f"{name}{sign * 2}", f"{sign * 2}{name}"])
        more = self.effect(1) if self.chance(0.15) else None
        if more:
            self.routine.cost += more.cost * self.turns * max(turns, 1)
            counting = self.pick([f"{counting}, {self.bracketed(more, 14)}", f"{self.bracketed(more, 14)}, {counting}"])
        # The counter has its bounds in the body.
        low, high = min(first, end), max(first, end)
        declared = self.chance(0.3)
        if not declared:
            self.put(f"int {name};")
        lines, has_left = self.body(Variable(name, INT, least=low, greatest=high), turns)
        self.bound(min(1, turns) if has_left else turns, turns)
        kind = "int " if declared else ""
        self.put(f"for ({kind}{name} = {first}; {test}; {counting})")
        self.lines += lines

    def for_data(self, turns):
        """Its end depends on data, but is at most the mask."""
        mask = bits_above(turns)
        name = self.fresh("i")
        self.put(f"unsigned {name};")
        end = self.masked(self.expression(1), mask)
        if end.writes:
            end = self.masked(self.literal(), mask)
        self.routine.cost += end.cost * self.turns * (mask + 1)
        lines, _ = self.body(Variable(name, UNSIGNED, least=0, greatest=mask), mask)
        self.bound(0, mask)
        self.put(f"for ({name} = 0; {name} < ({end.text}); {name}++)")
        self.lines += lines

    def while_loop(self, turns):
        name = self.fresh("i")
        self.put(f"{self.pick(['int', 'unsigned', 'signed char', 'short'])} {name} = {turns};")
        before = self.chance(0.5)
        # The counter falls in the test or first in the body, so that `continue` does no harm.
        counter = Variable(name, INT, least=-1, greatest=turns, is_written=False)
        lines, has_left = self.body(counter, turns, first=None if before else f"{name}--;")
        self.bound(min(1, turns) if has_left else turns, turns)
        self.put(f"while ({name}--)" if before else f"while ({name})")
        self.lines += lines

    def do_loop(self, turns):
        name = self.fresh("i")
        turns = max(turns, 1)
        self.put(f"int {name} = 0;")
        lines, has_left = self.body(Variable(name, INT, least=0, greatest=turns), turns)
        self.bound(1 if has_left else turns, turns)
        self.put("do")
        self.lines += lines
        self.put(f"while (++{name} < {turns});")

    def endless_loop(self, turns):
        """A loop that its `break` ends, in the start behind the last turn."""
        name = self.fresh("i")
        self.put(f"int {name} = 0;")
        counter = Variable(name, INT, least=0, greatest=turns + 1)
        lines, has_left = self.body(counter, turns + 1, first=f"if ({name}++ == {turns}) break;")
        self.bound(1 if has_left else turns + 1, turns + 1)
        self.put(self.pick(["for (;;)", "while (1)", "for (; 2 - 1;)", f"while ({name} <= {turns})"]))
        self.lines += lines

    # Functions and files

    def head(self, routine, is_definition):
        params = []
        for it in routine.params:
            const = "const " if it.is_const else ""
            size = "" if it.size is None else f"[{self.pick(['', it.size])}]"
            name = it.name if is_definition or self.chance(0.3) else ""
            params.append(f"{const}{self.spelling(it.kind)} {name}{size}".rstrip())
        result = "void" if routine.result == kinds.VOID else self.spelling(routine.result)
        return f"{result} {routine.name}({', '.join(params) or self.pick(['void', ''])})"

    def parameter(self):
        kind = self.pick(KINDS)
        if self.chance(0.3):
            return Variable(self.fresh("p"), self.pick([UNSIGNED_CHAR, INT, SHORT]), self.pick([2, 4]), self.chance(0.4))
        return Variable(self.fresh("p"), kind, is_const=self.chance(0.1))

    def function(self, storage):
        result = kinds.VOID if self.chance(0.2) else self.pick(KINDS)
        routine = Routine(self.fresh("f"), result, [self.parameter() for _ in range(self.number(0, 4))])
        if self.chance(0.3):
            self.put(f"{storage}{self.head(routine, is_definition=False)};")
        self.define(f"{storage}{self.head(routine, is_definition=True)}", routine, self.number(1, 6))
        self.routines.append(routine)

    def define(self, head, routine, count):
        self.routine, self.leaves, self.turns = routine, [], 1
        self.put(head)
        self.put("{")
        self.depth += 1
        self.scopes.append(list(routine.params))
        self.begin()
        for _ in range(count):
            self.statement()
        self.end()
        if routine.name == "main":
            self.show()
        # A function may end without `return`, which is undefined where its value is used.
        if routine.name == "main" or routine.result != kinds.VOID and not self.dares(0.05) or self.chance(0.1):
            self.put(self.return_text())
        self.scopes.pop()
        self.depth -= 1
        self.put("}")
        self.routine = None

    def begin(self):
        """What a function begins with."""

    def end(self):
        """What it ends with."""

    def show(self):
        """Writes what the globals hold at the end."""
        for it in self.scopes[0]:
            if it not in self.visible():
                continue
            place = f"{it.name}[{it.size - 1}]" if it.size else it.name
            self.put(f"putchar({place});")
            self.put(f"putchar({place} >> {self.pick([1, 3, 5, 7])});")

    def global_object(self):
        kind = self.pick(KINDS)
        name = self.fresh("g")
        static, const = self.pick(["", "static "]), "const " if self.chance(0.2) else ""
        size = self.pick([1, 2, 4, 8, 3, 16]) if self.chance(0.5) else None
        text = f"{static}{const}{self.spelling(kind)} {name}"
        if size is not None:
            values = [self.constant() for _ in range(self.number(1, min(size, 5)))]
            initial = f" = {{{', '.join(self.bracketed(it, 13) for it in values)}}}"
            text += f"[{size}]{initial if const or self.chance(0.7) else ''}"
        elif const or self.chance(0.6):
            text += f" = {self.bracketed(self.constant(), 13)}"
        self.put(text + ";")
        self.scopes[0].append(Variable(name, kind, size, bool(const), is_global=True))

    def source(self):
        if self.chance(0.3):
            self.put("int putchar(int);")
        daring, self.daring = self.daring, False
        for _ in range(self.number(2, 8)):
            self.global_object()
        self.daring = daring
        for _ in range(self.number(0, 5)):
            self.function(self.pick(["", "static ", "static inline ", "extern "]))
        self.define("int main(void)", Routine("main", INT, []), self.number(3, 10))
        return "\n".join(self.lines) + "\n"

    def restrictions(self, counts):
        """Relations between counts; true ones, but for a few."""
        names = sorted(it for it in counts if counts[it] < 1000000)
        for _ in range(self.number(0, 3)):
            one, other = self.pick(names), self.pick(names)
            factor = counts[one] // max(counts[other], 1) + 1
            if self.chance(0.02):
                yield f"flowrestriction 1*{one} >= {counts[one] + 1}*main"
            elif self.chance(0.4):
                yield f"flowrestriction {counts[other]}*{one}=0*main+{counts[one]} * {other}"
            else:
                yield f"flowrestriction 1*{one} <= {counts[one]}*main + {factor}*{other}"

    def tight_restrictions(self, counts):
        """Up to eight relations of all operators that these counts keep, most of them without room."""
        names = sorted(it for it in counts if counts[it] < 100000)
        for _ in range(self.number(0, 8)):
            one, other = self.pick(names), self.pick(names)
            a, b, more = self.number(1, 9), self.number(0, 9), self.number(0, 2) * self.number(0, 3)
            kept = a * counts[one] + b * counts[other]
            yield "flowrestriction " + self.pick([
                f"{a}*{one} + {b}*{other} <= {min(kept + more, 1000000)}*main",
                f"{a}*{one} <= {min(a * counts[one] + more, 1000000)}*main",
                f"{a}*{one} + {b}*{other} >= {min(max(kept - more, 0), 1000000)}*main",
                f"{max(counts[other], 1)}*{one} <= {counts[one] + more}*{other}" if counts[other] else f"{a}*{other} <= 0*{one}",
                f"{counts[other]}*{one} = {counts[one]}*{other}",
                f"{a}*{one} = {min(a * counts[one], 1000000)}*main",
            ])


class Crowded(Generator):
    """Each function has 30 variables and more that come from the input and are read at its end, so that they live over all that
    stands between, calls and loops too."""

    def begin(self):
        self.crowd = []
        for _ in range(self.number(30, 44)):
            made = self.beginning()
            self.spend(made)
            kind, name = self.pick(KINDS), self.fresh("c")
            self.put(f"{self.spelling(kind)} {name} = {self.bracketed(made, 14)};")
            variable = Variable(name, kind)
            self.scopes[-1].append(variable)
            self.crowd.append(variable)

    def beginning(self):
        """A byte of the input, or what an operator makes of an earlier variable."""
        if not self.crowd or self.chance(0.3):
            return self.call_of_getchar()
        return self.safe_binary(self.pick("+-*^|"), self.reading(self.pick(self.crowd)), self.literal())

    def call_of_getchar(self):
        both = frozenset([INPUT_OUTPUT])
        self.routine.writes.add(INPUT_OUTPUT)
        return Made("getchar()", 1, INT, -1, 255, both, both, 3)

    def end(self):
        made = self.reading(self.crowd[0])
        for it in self.crowd[1:]:
            made = self.bitwise(self.pick("^|&^"), made, self.reading(it))
        self.spend(made)
        self.put(f"putchar({made.text});")


def made(seed, tag="", kind=Generator):
    """The source and the input of this seed, what its run does, and the restrictions that belong to it."""
    generator = kind(seed, tag)
    source = generator.source().encode()
    data = bytes(generator.number(0, 255) for _ in range(generator.number(0, 40)))
    found = answer(source, data)
    return source, data, found, list(generator.restrictions(found.counts)) if found.counts else []


def with_pragmas(source, restrictions):
    return source + "".join(f"#pragma {it}\n" for it in restrictions).encode()


def program(seed, tag=""):
    """The source and the input of this seed."""
    source, data, _, restrictions = made(seed, tag)
    return with_pragmas(source, restrictions), data


def restricted(seed, kind=Generator):
    """The same with more restrictions, which its run keeps where it ends; what the run does without them; and whether it keeps
    all of them."""
    source, data, found, restrictions = made(seed, kind=kind)
    if found.counts:
        restrictions += Generator(f"restricted {seed}").tight_restrictions(found.counts)
    return with_pragmas(source, restrictions), data, found, all(keeps(found.counts, it) for it in restrictions)


def keeps(counts, restriction):
    """Whether counts keep a restriction."""
    left, sign, right = re.split("(<=|>=|=)", restriction.removeprefix("flowrestriction "))
    one, other = (sum(int(number) * counts[name] for number, name in re.findall(r"(\d+) *\* *(\w+)", it)) for it in (left, right))
    return one <= other if sign == "<=" else one >= other if sign == ">=" else one == other


if __name__ == "__main__":
    for path, content in zip(sys.argv[2:], program(int(sys.argv[1]))):
        Path(path).write_bytes(content)
