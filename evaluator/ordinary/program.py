"""A whole source and its run: the line that says how it ended, and the bytes that it put."""
from .. import facts
from ..answer import DONE, LIMIT, MOST_INPUT, MOST_SOURCE, REFUSED, STOPPED, Answer, value_line, within
from ..kinds import INT, Undefined
from ..meaning import Broken
from ..rules import Limit
from ..tokens import Refused
from . import types
from .cursor import Routine
from .statements import Statements
from .words import wide_tokens_of


class Program(Statements):
    def __init__(self, source, data):
        super().__init__(wide_tokens_of(source), len(source))
        self.data, self.taken, self.output = data, 0, bytearray()
        # Calls of functions and markers, by name; and what speaks of them.
        self.counts, self.marked, self.relations = {}, {}, []
        self.built_in = {"getchar": self.get, "putchar": self.put}
        self.routines = {"getchar": Routine("getchar", INT, []), "putchar": Routine("putchar", INT, [(INT, False)])}
        self.scopes[0].update(self.routines)
        # Objects that live as long as the program, with the places of their names; calls; the objects of the blocks at hand.
        self.lasting, self.called, self.local_things = [], [], []
        # What `break` and `continue` may leave, the switches around, and whether a label may stand here.
        self.leaving, self.switches, self.labelled = [], [], False
        self.unit()

    def unit(self):
        while self.kind() is not None:
            if self.kind() == "flowrestriction":
                self.restriction()
            else:
                self.declaration()
        self.checked()

    def checked(self):
        for thing, at in self.lasting:
            self.complete(thing.type, at)
        for routine, at in self.called:
            if routine.things is None and routine.name not in self.built_in:
                self.refuse("a function that is defined is wanted", at, "type")
        main = self.routines.get("main")
        if main is None or main.things is None or main.result != INT or main.params:
            self.refuse("`int main(void)` is wanted", 0, "type")
        for routine in self.routines.values():
            self.counts.setdefault(routine.name, 0)
        for name, at in self.marked.items():
            if name in self.routines:
                self.refuse("a marker of a new name is wanted", at, "pragma")
        for relation in self.relations:
            if any(name not in self.counts for _, name in relation.terms()):
                self.refuse("a name that is counted is wanted", relation.at, "name")
        graph = {it: it.callees for it in self.routines.values()}
        for routine in graph:
            if facts.reaches(graph, routine, routine):
                self.refuse("a function that doesn't call itself is wanted", routine.at, "recursion")

    def run(self):
        for thing, _ in self.lasting:
            thing.cells = [0] * types.cells_of(thing.type)
        for set_up in self.start:
            set_up()
        self.counts["main"] += 1
        ended = self.routines["main"].body()
        for relation in self.relations:
            if not relation.holds(self.counts):
                raise Broken(relation.at)
        return (ended.value if ended else 0), bytes(self.output)

    def get(self):
        if self.taken == len(self.data):
            return -1
        self.taken += 1
        return self.data[self.taken - 1]

    def put(self, value):
        self.output.append(value % 256)
        return value % 256


def program_of(source, data):
    within("source", MOST_SOURCE, source)
    within("input", MOST_INPUT, data)
    return Program(source, data)


def answer(source, data):
    try:
        program = program_of(source, data)
        value, output = program.run()
        return Answer(value_line(value, output), DONE, output, program.counts)
    except Refused as fault:
        return Answer(f"refused {fault.word} at {fault.at}", REFUSED)
    except Limit as fault:
        return Answer(f"limit {fault.word} {fault.found}", LIMIT)
    except Undefined as fault:
        return Answer(f"undefined {fault.rule} at {fault.at}", STOPPED)
    except Broken as fault:
        return Answer(f"broken at {fault.at}", STOPPED)
