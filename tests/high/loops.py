"""How many nodes a source has, and the lines of its loops that try_forms must print, from the source alone.

A loop of the high form counts its starts: a start more than its body's where a test ends it. It is worked out here from
docs/LANGUAGE.md by the syntax tree of the evaluator, and shares nothing with wcc.
"""
import sys
from pathlib import Path

sys.path.insert(0, str(Path(__file__).resolve().parent.parent.parent))
from evaluator import tree  # noqa: E402
from evaluator.facts import Facts, filling, greatest_starts, is_endless  # noqa: E402
from evaluator.parser import unit_of  # noqa: E402
from evaluator.rules import check  # noqa: E402
from evaluator.tokens import tokens_of  # noqa: E402


def is_left(node, own=True):
    """Whether a statement may leave a loop in which it stands: by a `return`, or by a `break` that is the loop's own."""
    if isinstance(node, tree.Return) or isinstance(node, tree.Break) and own:
        return True
    inner = own and not isinstance(node, (tree.Loop, tree.Switch))
    return any(is_left(it, inner) for it in node.parts())


def starts(loop):
    """From how many up to how many times an entry of the loop starts, its last test among the starts."""
    ends_by_test = not isinstance(loop, tree.Do) and not is_endless(loop)
    least = loop.limits[0] + 1 if ends_by_test and not is_left(loop.body) else max(1, loop.limits[0])
    return least, greatest_starts(loop)


def is_filling(node):
    return isinstance(node, tree.Object) and filling(node) > 0


def loops_below(node):
    """The loops in source order, fillings of lists among them."""
    return [it for it in tree.nodes_of(node) if isinstance(it, tree.Loop) or is_filling(it)]


def in_program(node):
    """The loops in the order in which they stand in the program: the head of a `for` comes before its loop."""
    if isinstance(node, tree.For):
        heads = in_program(node.start) if node.start else []
        return [*heads, node, *(it for part in node.parts() if part is not node.start for it in in_program(part))]
    own = [node] if isinstance(node, tree.Loop) or is_filling(node) else []
    return [*own, *(it for part in node.parts() for it in in_program(part))]


def checked(source):
    checker = check(unit_of(tokens_of(source), len(source)))
    Facts(checker).run()
    return checker


def nodes_of(source):
    return sum(1 for _ in tree.nodes_of(unit_of(tokens_of(source), len(source))))


def loops_of(source):
    functions = [it.node for it in checked(source).definitions]
    numbers = {it: number for number, it in enumerate(it for top in functions for it in in_program(top))}
    lines = []
    for old, loop in enumerate(it for top in functions for it in loops_below(top)):
        least, most = (filling(loop),) * 2 if is_filling(loop) else starts(loop)
        lines.append(f"loop {old} is {numbers[loop]} by 1 from {least} to {most}")
    return lines
