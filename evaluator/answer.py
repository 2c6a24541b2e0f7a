"""The line that `eval SOURCE INPUT OUTPUT [--derive]` prints, its exit status, and the bytes of OUTPUT."""
from dataclasses import dataclass

from .facts import Facts
from .kinds import Undefined
from .meaning import Broken, Program
from .parser import MOST_DEPTH, TooDeep, unit_of
from .rules import Limit, RuleFault, check
from .tokens import Refused, tokens_of

MOST_SOURCE = 1048576
MOST_INPUT = 16777216
DONE, REFUSED, LIMIT, STOPPED = 0, 1, 3, 8
FAULTS = (Refused, RuleFault, TooDeep, Limit, Undefined, Broken)


@dataclass
class Answer:
    """`output` is None where no file is written. `counts` are those of a run that ended, by name."""
    line: str
    status: int
    output: bytes = None
    counts: dict = None


def within(word, most, data):
    """A file that is too long is read up to one byte more than its limit."""
    if len(data) > most:
        raise Limit(word, most + 1)


def checked(source, need_bounds=True, derive=False):
    """The checker of a source and its facts, or a fault."""
    within("source", MOST_SOURCE, source)
    checker = check(unit_of(tokens_of(source), len(source)))
    return checker, Facts(checker, need_bounds, derive).run()


def program_of(source, data, kind=Program, derive=False):
    # Both files are read before anything is said of the source.
    within("source", MOST_SOURCE, source)
    within("input", MOST_INPUT, data)
    return kind(*checked(source, derive=derive), data)


def line_of(fault):
    """The line and the status of a fault."""
    if isinstance(fault, Refused):
        return f"refused {fault.word} at {fault.at}", REFUSED
    if isinstance(fault, RuleFault):
        return f"refused type-{fault.code} at {fault.at}", REFUSED
    if isinstance(fault, TooDeep):
        return f"limit depth {MOST_DEPTH + 1}", LIMIT
    if isinstance(fault, Limit):
        return f"limit {fault.word} {fault.found}", LIMIT
    if isinstance(fault, Undefined):
        return f"undefined {fault.rule} at {fault.at}", STOPPED
    return f"broken at {fault.at}", STOPPED


def value_line(value, output):
    return f"value {value} bytes {len(output)}"


def answer(source, data, derive=False):
    try:
        program = program_of(source, data, derive=derive)
        value, output = program.run()
        return Answer(value_line(value, output), DONE, output, program.counts)
    except FAULTS as fault:
        return Answer(*line_of(fault))
