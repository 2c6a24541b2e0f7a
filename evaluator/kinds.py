"""The integer types, their conversions and their operators (C11 6.2.5, 6.3.1, 6.5), with the choices of this language.

A value is a Python number in the range of its type. `int` and `long` have 32 bits, and plain `char` has no sign.
"""
from dataclasses import dataclass


@dataclass(frozen=True)
class Kind:
    """An integer type, or void, which has no bits."""
    name: str
    bits: int
    signed: bool
    rank: int

    def least(self):
        return -(1 << self.bits - 1) if self.signed else 0

    def greatest(self):
        return (1 << self.bits - (1 if self.signed else 0)) - 1

    def holds(self, value):
        return self.least() <= value <= self.greatest()


VOID = Kind("void", 0, False, 0)
CHAR = Kind("char", 8, False, 1)
SIGNED_CHAR = Kind("signed char", 8, True, 1)
UNSIGNED_CHAR = Kind("unsigned char", 8, False, 1)
SHORT = Kind("short", 16, True, 2)
UNSIGNED_SHORT = Kind("unsigned short", 16, False, 2)
INT = Kind("int", 32, True, 3)
UNSIGNED = Kind("unsigned int", 32, False, 3)
LONG = Kind("long", 32, True, 4)
UNSIGNED_LONG = Kind("unsigned long", 32, False, 4)

# The words of a type, sorted, and the type (C11 6.7.2, paragraph 2).
SPELLINGS = {
    "void": VOID,
    "char": CHAR, "char signed": SIGNED_CHAR, "char unsigned": UNSIGNED_CHAR,
    "short": SHORT, "int short": SHORT, "short signed": SHORT, "int short signed": SHORT,
    "short unsigned": UNSIGNED_SHORT, "int short unsigned": UNSIGNED_SHORT,
    "int": INT, "signed": INT, "int signed": INT,
    "unsigned": UNSIGNED, "int unsigned": UNSIGNED,
    "long": LONG, "int long": LONG, "long signed": LONG, "int long signed": LONG,
    "long unsigned": UNSIGNED_LONG, "int long unsigned": UNSIGNED_LONG,
}


def spelled(specs):
    """The type that these words spell in any order, beside those that name no type; or None."""
    return SPELLINGS.get(" ".join(sorted(it for it in specs if it not in ("static", "extern", "inline", "const"))))


class Undefined(Exception):
    """What C leaves undefined: the number of the rule, the place of the expression, and the numbers by which it is."""

    def __init__(self, rule, at, *numbers):
        super().__init__(rule, at)
        self.rule, self.at, self.numbers = rule, at, numbers


def convert(kind, value):
    """Modulo 2^n into the range of the type (C11 6.3.1.3, and its implementation's choice)."""
    value &= (1 << kind.bits) - 1
    return value - (1 << kind.bits) if kind.signed and value >> kind.bits - 1 else value


def promoted(kind):
    """C11 6.3.1.1, paragraph 2: int holds all values of each narrower type."""
    return INT if kind.bits < 32 else kind


def common(one, other):
    """C11 6.3.1.8: the greater rank, unsigned at equal rank; and no long of 32 bits holds each unsigned int."""
    one, other = promoted(one), promoted(other)
    if one.rank == other.rank:
        return one if not one.signed else other
    high, low = (one, other) if one.rank > other.rank else (other, one)
    if high.signed and not low.signed:
        return UNSIGNED_LONG
    return high


def fitting(kind, value, at):
    """A result of arithmetic: signed ones must fit (C11 6.5, paragraph 5), unsigned ones wrap (6.2.5, paragraph 9)."""
    if not kind.signed:
        return convert(kind, value)
    if not kind.holds(value):
        raise Undefined(1, at, value, kind.least(), kind.greatest())
    return value


def quotient(x, y):
    """Towards zero (C11 6.5.5, paragraph 6)."""
    return abs(x) // abs(y) * (1 if (x < 0) == (y < 0) else -1)


def divide(kind, x, y, at):
    """The quotient and the remainder. Both are undefined where the quotient is (C11 6.5.5, paragraphs 5 and 6)."""
    if y == 0:
        raise Undefined(2, at)
    q = quotient(x, y)
    if not kind.holds(q):
        raise Undefined(3, at)
    return q, x - q * y


COMPARISONS = {
    "<": lambda x, y: int(x < y), ">": lambda x, y: int(x > y), "<=": lambda x, y: int(x <= y),
    ">=": lambda x, y: int(x >= y), "==": lambda x, y: int(x == y), "!=": lambda x, y: int(x != y),
}
SHIFTS = ("<<", ">>")


def operate(operator, kind, x, y, at):
    """An operator whose operands were converted to their common type."""
    if operator in COMPARISONS:
        return COMPARISONS[operator](x, y)
    if operator == "+":
        return fitting(kind, x + y, at)
    if operator == "-":
        return fitting(kind, x - y, at)
    if operator == "*":
        return fitting(kind, x * y, at)
    if operator == "/":
        return divide(kind, x, y, at)[0]
    if operator == "%":
        return divide(kind, x, y, at)[1]
    if operator == "&":
        return x & y
    if operator == "^":
        return x ^ y
    if operator == "|":
        return x | y
    raise AssertionError(operator)


def shift(operator, kind, x, count, at):
    """C11 6.5.7: the type is that of the promoted left operand, and a right shift of a negative value keeps its sign."""
    if not 0 <= count < 32:
        raise Undefined(4, at, count)
    if operator == ">>":
        return x >> count
    if kind.signed and (x < 0 or not kind.holds(x << count)):
        raise Undefined(5, at)
    return convert(kind, x << count)


def prefix(operator, kind, x, at):
    """`+`, `-` and `~` on a promoted operand (C11 6.5.3.3)."""
    if operator == "+":
        return x
    if operator == "-":
        return fitting(kind, -x, at)
    return convert(kind, ~x)


def result_kind(operator, left, right):
    """The type of a binary operator's result (C11 6.5.5 to 6.5.14)."""
    if operator in COMPARISONS or operator in ("&&", "||"):
        return INT
    if operator in SHIFTS:
        return promoted(left)
    return common(left, right)


def combine(operator, left, x, right, y, at):
    """The value of a binary operator on a value of each type; not of `&&`, `||` and `,`."""
    if operator in SHIFTS:
        return shift(operator, promoted(left), convert(promoted(left), x), convert(promoted(right), y), at)
    kind = common(left, right)
    return operate(operator, kind, convert(kind, x), convert(kind, y), at)
