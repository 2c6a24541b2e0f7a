"""What the files of a call show beside its line: the construct that is refused, and facts that the line doesn't say.

A fact is the words of an entry of texts.txt and what fills it. All is worked out by the second evaluator from the same files,
and what it can't be sure of is left out.
"""
import os
import re
import stat
import time
from collections.abc import Callable, Iterable, Iterator
from typing import Any

import constructs
import forms
from contradictions import contradicting
from evaluator import tree
from evaluator.answer import program_of
from evaluator.facts import MOST_STARTS, Facts, greatest_starts, marker_name, relation_of
from evaluator.kinds import Kind, Undefined
from evaluator.meaning import Broken, Program
from evaluator.parser import Parser, TooDeep, unit_of
from evaluator.rules import MOST, Checker, Routine, RuleFault, Thing, check, count_params
from evaluator.tokens import comment_end, tokens_of
from places import Lines
from spot import Spot

# The words of an entry of texts.txt and what fills it: texts, and the parts of a chain under the name of their entry.
Fact = tuple[Any, ...]
# A run is followed for so long, of a processor.
SECONDS = 1.0
# The facts on the numbers by which a run is undefined, by its rules.
NUMBERS = {1: "range", 4: "count", 6: "index"}
BOUND, MARKER = "loopbound", "marker"
STANDARD_INPUT = ("/dev/stdin", "/dev/fd/0", "/proc/self/fd/0")
NO_PLACES = "a pipe or a terminal can't be read at a place, so put its bytes into a file first"
PRAGMA = re.compile(rb'(?:#[ \t]*pragma|_Pragma[ \t]*\([ \t]*")[ \t]*([^ \t"\n\r]+)[ \t]*([^ \t"\n\r]*)')
BOUNDS = re.compile(rb"[ \t]*loopbound[ \t]+min[ \t]+(\w+)[ \t]+max[ \t]+(\w+)[ \t]*")


class Files:
    """The files of a call: the source with its lines, and the names of those that it reads and writes; and whether bounds are derived."""

    def __init__(self, lines: Lines | None, reads: list[str], writes: list[str], derive: bool) -> None:
        self.lines, self.reads, self.writes, self.derive = lines, reads, writes, derive
        self.source = b"" if lines is None else lines.source

    def at(self, place: int) -> str:
        return str(self.lines.place(place))


Finder = Callable[[Files, Any], Iterable[Fact]]


def construct(line: list[str], files: Files, at: int) -> constructs.Construct:
    """The entry of what is refused at a place, or None."""
    return constructs.found(line, files.source, at, Spot)


def facts(line: list[str], files: Files, at: int | None) -> list[Fact]:
    finder = FINDERS.get(" ".join(line[:2])) or FINDERS.get(line[0])
    return list(finder(files, at)) if finder else []


# Calls

def calls_below(function: tree.Node) -> list[tree.Call]:
    return [it for it in tree.nodes_of(function) if isinstance(it, tree.Call) and it.refers.node is not None]


def chain(files: Files, steps: list[tuple[str, tree.Call]]) -> list[Fact]:
    """A fact for a chain of calls: each the name of who calls, and the call."""
    parts = [(caller, call.name, files.at(call.at)) for caller, call in steps]
    return [("chain", ("call", parts))] if parts else []


def cycle(files: Files, at: int) -> list[Fact]:
    """How the function that is named at the place calls itself, by as few calls as can be."""
    checker = check(unit_of(tokens_of(files.source), len(files.source)))
    start = next(it for it in checker.definitions if it.node.name_at == at)
    ways, seen = [(start, [])], set()
    for routine, way in ways:
        for call in calls_below(routine.node):
            steps = way + [(routine.name, call)]
            if call.refers is start:
                return chain(files, steps)
            if call.refers not in seen:
                seen.add(call.refers)
                ways.append((call.refers, steps))
    return []


class Late(Exception):
    """The run takes too long to be followed."""


class Followed(Program):
    """A run that notes the calls that it is in, for some time."""

    def __init__(self, checker: Checker, facts: Facts, data: bytes) -> None:
        self.ends_at = time.process_time() + SECONDS
        super().__init__(checker, facts, data)

    def starts_body(self, loop: tree.Loop, starts: int) -> None:
        self.in_time()
        super().starts_body(loop, starts)

    def enters(self, call: tree.Call) -> None:
        self.in_time()
        super().enters(call)

    def in_time(self) -> None:
        if time.process_time() > self.ends_at:
            raise Late


def input_of(name: str) -> bytes | None:
    """The bytes of an input that can be read again, or None."""
    if not (stat.S_ISREG(os.stat(name).st_mode) or os.path.samefile(name, os.devnull)):
        return None
    with open(name, "rb") as file:
        return file.read()


def run_to(files: Files, at: int) -> Iterator[Fact]:
    """How the run comes to the place where it ends: the calls that it is in."""
    data = input_of(files.reads[1])
    if data is None:
        return
    run = program_of(files.source, data, Followed, files.derive)
    try:
        run.run()
    except (Undefined, Broken) as event:
        if event.at == at:
            callers = ["main", *(it.name for it in run.calls)]
            yield from chain(files, list(zip(callers, run.calls)))
            yield from how_ended(event)
            yield from tested(files, event)
    except Late:
        return


def tested(files: Files, event: Exception) -> Iterator[Fact]:
    """By what a division by zero is asked for, where a header of include/ has it so."""
    if not isinstance(event, Undefined) or event.rule != 2:
        return
    if files.source[:event.at].endswith(b"(void)0 : (void)(") and files.source.startswith(b"1 / 0)", event.at):
        yield ("assertion",)
    elif os.path.basename(files.lines.place(event.at).file.name) == "wide.h":
        yield ("wide",)


def how_ended(event: Exception) -> Iterator[Fact]:
    """The numbers by which a run is undefined, or how often a loop started: as often as it may and once more, or too seldom."""
    if isinstance(event, Undefined) and event.numbers:
        yield NUMBERS[event.rule], *map(str, event.numbers)
    elif isinstance(event, Broken) and event.loop is not None:
        yield "starts" if event.starts == event.loop.limits[1] else "too few", str(event.starts)


# Limits

def named(node: tree.Node) -> tuple[str, int]:
    """The name and the place of a part of file level."""
    if isinstance(node, tree.Function):
        return node.name, node.name_at
    if isinstance(node, tree.Declaration):
        return node.objects[0].name, node.objects[0].at
    return getattr(node, "name", "flowrestriction"), node.at


def unit(files: Files) -> tree.Unit:
    return unit_of(tokens_of(files.source), len(files.source))


def largest_part(files: Files, _: int | None) -> Iterator[Fact]:
    sizes = [(sum(1 for _ in tree.nodes_of(it)), it) for it in unit(files).items]
    size, item = max(sizes, key=lambda it: it[0])
    name, at = named(item)
    yield "largest", name, files.at(at), str(size)


def largest_object(in_function: bool) -> Finder:
    def find(files: Files, _: int | None) -> Iterator[Fact]:
        """The object of the most bytes, at file level or within functions."""
        checker = Checker(unit(files))
        checker.run()
        nodes = [node for item in checker.unit.items if isinstance(item, tree.Function) == in_function
                 for node in tree.nodes_of(item) if isinstance(node, tree.Object)]
        node = max(nodes, key=lambda it: it.declared.bytes())
        yield "largest object", node.name, files.at(node.at), str(node.declared.bytes())
    return find


def too_deep(files: Files, _: int | None) -> Iterator[Fact]:
    parser = Parser(tokens_of(files.source), len(files.source))
    try:
        parser.unit()
    except TooDeep:
        yield "deep", files.at(parser.tokens[parser.next - 1].at)


def heaviest(files: Files, _: int | None) -> Iterator[Fact]:
    """The loops, one in another, in which the most is executed by the bounds."""
    checker = Checker(unit(files))
    checker.run()
    facts = Facts(checker, derive=files.derive)
    facts.refuse_recursion()
    facts.read()
    loops, node, known = [], checker.routines["main"].node, {}
    while node is not None:
        if isinstance(node, tree.Loop):
            loops.append((files.at(node.at), str(node.limits[1])))
        node = max(parts_of(node), key=lambda it: it[0] * facts.most(it[1], known, True), default=(0, None))[1]
    if loops:
        yield "heaviest", ("loop", loops)


def parts_of(node: tree.Node) -> Iterator[tuple[int, tree.Node]]:
    """The parts of a node and the function that it calls, each with how often the node executes it at most."""
    times = max(1, greatest_starts(node)) if isinstance(node, tree.Loop) else 1
    once = [getattr(node, "start", None)]
    if isinstance(node, tree.Call) and node.refers.node is not None:
        yield 1, node.refers.node
    yield from ((1 if it in once else times, it) for it in node.parts())


def many_parameters(files: Files, _: int | None) -> Iterator[Fact]:
    node = next(it for it in tree.nodes_of(unit(files))
                if isinstance(it, (tree.Function, tree.Prototype)) and count_params(it) > MOST["parameters"])
    yield "function", node.name, files.at(node.at)


# Rules

def other_main(files: Files, _: int | None) -> Iterator[Fact]:
    """A `main` of another type."""
    node = next((it for it in unit(files).items if isinstance(it, tree.Function) and it.name == "main"), None)
    if node:
        yield "main", files.at(node.name_at)


def misfit(files: Files, at: int) -> Iterable[Fact]:
    """Why a call doesn't fit: what is called, the number of arguments, or an argument for an array parameter."""
    checker = Checker(unit(files))
    try:
        checker.run()
    except RuleFault as fault:
        order, *_ = min(checker.faults)
        call = next(it for it in tree.nodes_of(checker.unit) if it.order == order)
        return misfit_of(call) if fault.at == at and isinstance(call, tree.Call) else []
    return []


def misfit_of(call: tree.Call) -> Iterator[Fact]:
    routine = call.refers
    if not isinstance(routine, Routine):
        yield "no function", call.name
    elif len(routine.params) != len(call.arguments):
        yield "arguments", call.name, str(len(routine.params)), str(len(call.arguments))
    else:
        wrong = (argument_fault(number, *it) for number, it in enumerate(zip(call.arguments, routine.params), 1))
        yield from [it for it in wrong if it][:1]


def argument_fault(number: int, argument: tree.Expr, param: tuple[Kind, bool, bool]) -> Fact | None:
    """What is wrong with an argument for an array parameter."""
    kind, is_array, is_const = param
    thing = argument.refers if isinstance(argument, tree.Name) else None
    if not is_array:
        return None
    if not (isinstance(thing, Thing) and thing.is_array):
        return "array argument", str(number), kind.name
    if thing.kind != kind:
        return "other array", str(number), thing.kind.name, kind.name
    return ("const array", str(number)) if thing.is_const and not is_const else None


# Pragmas

def differences(one: str, other: str) -> int:
    """How many letters are put in, left out or changed to make one word of another."""
    row = list(range(len(other) + 1))
    for number, letter in enumerate(one, 1):
        before, row[0] = row[0], number
        for place, it in enumerate(other, 1):
            before, row[place] = row[place], min(row[place] + 1, row[place - 1] + 1, before + (letter != it))
    return row[-1]


def is_misspelt(word: str, right: str) -> bool:
    """Whether a word is another one with other capitals or signs between its parts, one letter wrong, or two changed places."""
    plain = re.sub(r"[-_ ]|[:,;(].*", "", word.lower())
    if word == right or len(plain) > len(right) + 1:
        return False
    return differences(plain, right) <= (2 if sorted(plain) == sorted(right) else 1)


def dropped(files: Files, at: int) -> Iterator[Fact]:
    """A pragma right before the loop that was meant as its bound, and is none."""
    spot = Spot(files.source, at)
    if not spot.found:
        return
    for match in pragmas(files.source, spot.token(-1).at if spot.token(-1) else 0, at):
        first, second = (it.decode(errors="replace") for it in match.groups())
        word = next((it for it in (first, f"{first} {second}") if is_misspelt(it, BOUND)), None)
        if word:
            yield "misspelt", word, files.at(match.start()), BOUND


def no_bound(files: Files, at: int) -> Iterable[Fact]:
    """A bound that was dropped; or else what the form of the loop gives, with --derive why it gives nothing."""
    found = list(dropped(files, at))
    if found:
        return found
    return forms.unbounded(files.at, unit(files), at) if files.derive else forms.bounded(unit(files), at)


def pragmas(source: bytes, place: int, end: int) -> Iterator[re.Match[bytes]]:
    """The pragmas between two places, outside of comments."""
    while place < end:
        if source.startswith((b"/*", b"//"), place):
            place = comment_end(source, place) or end
            continue
        match = PRAGMA.match(source, place, end)
        if match:
            yield match
        place = match.end() if match else place + 1


def pragma_fault(files: Files, at: int) -> Iterable[Fact]:
    """What is wrong with a pragma: the numbers of a bound, or the name of a marker."""
    nodes = list(tree.nodes_of(unit(files)))
    loop = next((it for it in nodes if isinstance(it, tree.Loop) and it.bound_at == at), None)
    if loop:
        return bound_fault(loop)
    marker = next((it for it in nodes if isinstance(it, tree.Marker) and it.at == at), None)
    return marker_fault(files, nodes, marker) if marker else []


def bound_fault(loop: tree.Loop) -> Iterator[Fact]:
    match = BOUNDS.fullmatch(loop.bound)
    if not match:
        return
    least, most = (it.decode() for it in match.groups())
    word = next((it for it in (least, most) if not it.isdigit()), None)
    if word is None and int(least[-99:]) > int(most[-99:]):
        yield "above", least, most
    elif word is None and int(most[-99:]) > MOST_STARTS:
        yield "above", most, str(MOST_STARTS)
    elif word and word.isidentifier():
        yield "macro", word


def marker_fault(files: Files, nodes: list[tree.Node], marker: tree.Marker) -> Iterator[Fact]:
    """Another marker, or a function, of the same name."""
    name = marker_name(marker)
    for node in nodes if name else []:
        is_marker = isinstance(node, tree.Marker) and node is not marker and marker_name(node) == name
        is_function = isinstance(node, (tree.Function, tree.Prototype)) and node.name == name
        if is_marker or is_function:
            yield "same name", name, files.at(node.at)
            return


def unknown_name(files: Files, at: int) -> Iterator[Fact]:
    """What a restriction names and nothing is."""
    nodes = list(tree.nodes_of(unit(files)))
    known = {it.name for it in nodes if isinstance(it, tree.Function)}
    known |= {marker_name(it) for it in nodes if isinstance(it, tree.Marker)}
    relation = next(relation_of(it) for it in nodes if isinstance(it, tree.Restriction) and it.at == at)
    unknown = next(name for _, name in relation.terms() if name not in known)
    yield "unknown", unknown
    for match in pragmas(files.source, 0, len(files.source)):
        first, second = (it.decode(errors="replace") for it in match.groups())
        if second == unknown and is_misspelt(first, MARKER):
            yield "misspelt", first, files.at(match.start()), MARKER
            return


def contradictions(files: Files, _: int | None) -> Iterator[Fact]:
    """The restrictions on which it rests that no run keeps the annotations."""
    restrictions = [it for it in tree.nodes_of(unit(files)) if isinstance(it, tree.Restriction)]
    found = contradicting(sorted(restrictions, key=lambda it: it.at), files.writes[1])
    links = [(b" ".join(it.text.split()[1:]).decode(), files.at(it.at)) for it in found]
    yield ("contradict", ("restriction", links)) if links else ("no restriction",)


# Faults of files

def unread(files: Files, _: int | None) -> Iterator[Fact]:
    """The first file that can't be read now, or else the first one that is no file with places to read at."""
    for name in files.reads:
        try:
            if stat.S_ISREG(os.stat(name).st_mode) or os.path.isdir(name):
                with open(name, "rb") as file:
                    file.read(1)
        except OSError as error:
            yield "file", name, error.strerror
            return
    for name in files.reads:
        # The standard input isn't that of the call any more.
        if name in STANDARD_INPUT or stat.S_ISFIFO(os.stat(name).st_mode):
            yield "file", name, NO_PLACES
            return


def why_unwritten(name: str) -> str | None:
    """Why a file can't be written, as far as that is seen without writing; or None."""
    folder = os.path.dirname(name) or "."
    if not name:
        return "the name is empty"
    if os.path.isdir(name):
        return os.strerror(21)
    if not os.path.isdir(folder):
        return os.strerror(20 if os.path.exists(folder) else 2)
    if not os.access(name if os.path.exists(name) else folder, os.W_OK):
        return os.strerror(13)
    return None


def unwritten(files: Files, _: int | None) -> Iterator[Fact]:
    """The first file that can't be written, or the only one that is written."""
    for name in files.writes:
        if reason := why_unwritten(name):
            yield "file", name, reason
            return
    if len(files.writes) == 1:
        yield "file", files.writes[0], "writing it failed"


FINDERS: dict[str, Finder] = {
    "refused type-7": misfit, "refused type-13": other_main, "refused recursion": cycle, "refused bound": no_bound,
    "refused pragma": pragma_fault, "refused name": unknown_name, "undefined": run_to, "broken": run_to,
    "limit depth": too_deep, "limit nodes": largest_part, "limit parameters": many_parameters,
    "limit most": heaviest, "limit globals": largest_object(False), "limit locals": largest_object(True),
    "cycles empty": contradictions, "read fault": unread, "write fault": unwritten,
}
