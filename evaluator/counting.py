"""Counting loops: the bounds that the form of a `for` gives (docs/LANGUAGE.md, "Loops that count")."""
from . import tree
from .constants import NotConstant, constant, kind_of
from .kinds import INT
from .tree import bare

MOST_TURNS = 2147483647
UP, DOWN = ("<", "<="), (">", ">=")


def int_constant(expr):
    """The value of a constant of type int, where it has a defined one; else None."""
    try:
        return constant(expr) if kind_of(expr) == INT else None
    except NotConstant:
        return None


def first_of(start):
    """The object that the first part sets, and the constant; else a pair of None."""
    if isinstance(start, tree.Assign) and start.operator == "=" and isinstance(start.target, tree.Name):
        return start.target.refers, int_constant(start.value)
    if isinstance(start, tree.Declaration) and len(start.objects) == 1 and start.objects[0].value is not None:
        return start.objects[0].declared, int_constant(start.objects[0].value)
    return None, None


def is_counter(thing, local):
    return thing in local and not thing.is_array and not thing.is_const and thing.kind == INT


def is_name(expr, thing):
    return isinstance(expr, tree.Name) and expr.refers is thing


def change_in(node, thing):
    """What below the node assigns or steps the object first, or None."""
    for it in tree.nodes_of(node):
        target = it.target if isinstance(it, tree.Assign) else it.operand if isinstance(it, tree.Step) else None
        if target is not None and is_name(bare(target), thing):
            return it
    return None


def limit_of(test, thing):
    """The operator of the second part and the constant that it compares with, or None."""
    if not isinstance(test, tree.Binary) or test.operator not in UP + DOWN or not is_name(test.left, thing):
        return None
    limit = int_constant(test.right)
    return None if limit is None else (test.operator, limit)


def step_of(step, thing, up):
    """By how much the last part steps the object towards the limit; else None."""
    if isinstance(step, tree.Step) and is_name(step.operand, thing):
        return 1 if step.operator == ("++" if up else "--") else None
    if isinstance(step, tree.Assign) and is_name(step.target, thing) and step.operator == ("+=" if up else "-="):
        by = int_constant(step.value)
        return by if by is not None and by >= 1 else None
    return None


def leaves(node, own=True):
    """Whether a statement may leave the loop around it: by a `return`, or by a `break` of that loop."""
    if isinstance(node, tree.Return):
        return True
    if isinstance(node, tree.Break):
        return own
    within = own and not isinstance(node, (tree.Loop, tree.Switch))
    return any(leaves(it, within) for it in node.parts())


def turns(operator, first, limit, by):
    distance = limit - first if operator in UP else first - limit
    if operator in ("<", ">"):
        return max(0, -(-distance // by))
    return 0 if distance < 0 else distance // by + 1


class NotCounting(Exception):
    """A loop is off the form: `part` says where, `words` more of it."""

    def __init__(self, part, *words):
        super().__init__(part)
        self.part, self.words = part, words


def counted(loop, local):
    """The least and greatest number of body starts of a counting loop. `local` has the objects of functions."""
    if not isinstance(loop, tree.For):
        raise NotCounting("kind")
    thing, first = first_of(loop.start)
    if first is None:
        raise NotCounting("start")
    if not is_counter(thing, local):
        raise NotCounting("counter", thing)
    limit = limit_of(loop.test, thing)
    if limit is None:
        raise NotCounting("test", thing)
    by = step_of(loop.step, thing, limit[0] in UP)
    if by is None:
        raise NotCounting("step", thing, limit[0] in UP)
    change = change_in(loop.body, thing)
    if change is not None:
        raise NotCounting("body", thing, change)
    count = turns(limit[0], first, limit[1], by)
    if count > MOST_TURNS:
        raise NotCounting("turns", count)
    return (min(1, count) if leaves(loop.body) else count), count


def bounds_of(loop, local):
    """The bounds of a counting loop, or None for another one."""
    try:
        return counted(loop, local)
    except NotCounting:
        return None
