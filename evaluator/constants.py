"""Constant expressions (C11 6.6): constants, casts and operators, without assignment, call or comma.

The checker has noted the types of casts before.
"""
from . import kinds, tree
from .kinds import INT, LONG, UNSIGNED, VOID


class NotConstant(Exception):
    """The expression is of another form, or its value is undefined."""


def number_kind(number):
    """C11 6.4.4.1, paragraph 5, where int and long have the same 32 bits."""
    if number.has_u or number.value > INT.greatest():
        return UNSIGNED
    return LONG if number.has_l else INT


def cast_kind(cast):
    """The type that was noted on a cast: int where its words are wrong, so that no constant fails for its part's fault."""
    if cast.kind == VOID:
        raise NotConstant
    return cast.kind


def kind_of(expr):
    """The type of a constant expression, all of whose operands must be constants, those that aren't evaluated too."""
    if isinstance(expr, tree.Number):
        return number_kind(expr)
    if isinstance(expr, tree.Character):
        return INT
    if isinstance(expr, tree.Paren):
        return kind_of(expr.inner)
    if isinstance(expr, tree.Cast):
        kind_of(expr.operand)
        return cast_kind(expr)
    if isinstance(expr, tree.Prefix):
        kind = kind_of(expr.operand)
        return INT if expr.operator == "!" else kinds.promoted(kind)
    if isinstance(expr, tree.Binary) and expr.operator != ",":
        return kinds.result_kind(expr.operator, kind_of(expr.left), kind_of(expr.right))
    if isinstance(expr, tree.Conditional):
        kind_of(expr.test)
        return kinds.common(kind_of(expr.first), kind_of(expr.second))
    raise NotConstant


def value_of(expr):
    """The value of an expression that has a type by `kind_of`."""
    kind = kind_of(expr)
    if isinstance(expr, (tree.Number, tree.Character)):
        return expr.value
    if isinstance(expr, tree.Paren):
        return value_of(expr.inner)
    if isinstance(expr, tree.Cast):
        return kinds.convert(kind, value_of(expr.operand))
    if isinstance(expr, tree.Prefix):
        value = value_of(expr.operand)
        if expr.operator == "!":
            return int(value == 0)
        return kinds.prefix(expr.operator, kind, kinds.convert(kind, value), expr.at)
    if isinstance(expr, tree.Conditional):
        chosen = expr.first if value_of(expr.test) else expr.second
        return kinds.convert(kind, value_of(chosen))
    return binary_value(expr)


def binary_value(expr):
    if expr.operator in ("&&", "||"):
        left = value_of(expr.left) != 0
        # What the left operand decides leaves the right one unevaluated (C11 6.5.13, 6.5.14).
        return int(left) if left == (expr.operator == "||") else int(value_of(expr.right) != 0)
    left, right = value_of(expr.left), value_of(expr.right)
    return kinds.combine(expr.operator, kind_of(expr.left), left, kind_of(expr.right), right, expr.at)


def constant(expr):
    """The value of a constant expression; NotConstant where it is none or has no defined value."""
    try:
        return value_of(expr)
    except kinds.Undefined:
        raise NotConstant from None


def constant_or(expr, otherwise):
    try:
        return constant(expr)
    except NotConstant:
        return otherwise
