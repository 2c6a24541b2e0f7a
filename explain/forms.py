"""Why a loop has no bound by its form: the part of it that isn't that of a loop that counts."""
from collections.abc import Callable, Iterator

from evaluator import counting, tree
from evaluator.rules import Thing, check

# How a place is named; and the words of an entry of texts.txt and what fills it.
Naming = Callable[[int], str]
Words = tuple[str, ...]

# How a loop goes on, by whether it counts upwards.
STEPS = {True: ("++", "+="), False: ("--", "-=")}


def loop_at(unit: tree.Unit, at: int) -> tuple[tree.Loop, set[Thing]]:
    """The loop at a place, and the objects of functions."""
    checker = check(unit)
    loop = next(it for it in tree.nodes_of(checker.unit) if isinstance(it, tree.Loop) and it.at == at)
    return loop, set(checker.locals)


def bounded(unit: tree.Unit, at: int) -> Iterator[Words]:
    """How often the body of the loop at a place starts by its form, if that gives it."""
    bounds = counting.bounds_of(*loop_at(unit, at))
    if bounds:
        yield "by form", " to ".join(str(it) for it in sorted(set(bounds)))


def unbounded(named: Naming, unit: tree.Unit, at: int) -> Iterator[Words]:
    """Which part of the form fails."""
    try:
        counting.counted(*loop_at(unit, at))
    except counting.NotCounting as fault:
        yield FACTS[fault.part](named, *fault.words)


def step(_: Naming, thing: Thing, up: bool) -> Words:
    return "form step", thing.name, *STEPS[up]


def body(named: Naming, thing: Thing, change: tree.Expr) -> Words:
    return "form steps" if isinstance(change, tree.Step) else "form assigns", thing.name, named(change.at)


FACTS: dict[str, Callable[..., Words]] = {
    "kind": lambda _: ("form kind",),
    "start": lambda _: ("form start",),
    "counter": lambda _, thing: ("form counter", thing.name),
    "test": lambda _, thing: ("form test", thing.name),
    "step": step,
    "body": body,
    "turns": lambda _, count: ("form turns", str(count), str(counting.MOST_TURNS)),
}
