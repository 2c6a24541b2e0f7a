"""The rules of types and names. A rule speaks of one node and of the declarations that are visible there.

The faults of all nodes are collected, and the first node in source order counts, with its least code: a node comes before
its parts. No node fails for a fault of its part: a part that fails counts as int, and what can't be judged without it
doesn't fail.
"""
from dataclasses import dataclass, field

from . import constants, kinds, tree
from .constants import NotConstant, constant
from .kinds import INT, VOID
from .tree import bare

MOST_ELEMENTS = 262144
MOST = {"nodes": 16384, "functions": 256, "parameters": 8, "markers": 4096, "restrictions": 32,
        "globals": 262144, "locals": 262144}


class Limit(Exception):
    """A counted quantity passes its number."""

    def __init__(self, word, found):
        super().__init__(word, found)
        self.word, self.found = word, found


class RuleFault(Exception):
    def __init__(self, code, at):
        super().__init__(code, at)
        self.code, self.at = code, at


@dataclass(eq=False)
class Thing:
    """A declared object: of `size` elements if it is an array, else None. An array parameter has the size 0.

    `cells` are its elements, each None until it is written.
    """
    name: str
    kind: kinds.Kind
    is_const: bool
    size: int
    is_param: bool = False
    cells: list = field(default_factory=list)

    @property
    def is_array(self):
        return self.size is not None

    def bytes(self):
        """What it counts for the limits: a scalar 4, an array its bytes, rounded up to a multiple of 4."""
        if self.is_param or not self.is_array:
            return 4
        return (self.size * (self.kind.bits // 8) + 3) // 4 * 4


@dataclass(eq=False)
class Routine:
    """A function. `params` is a list of (type, is it an array, is its array const)."""
    name: str
    result: kinds.Kind
    params: list
    node: tree.Function = None
    things: list = None

    def type(self):
        return self.result, self.params


BUILT_IN = {"getchar": (INT, []), "putchar": (INT, [(INT, False, False)])}


def kind_or_int(specs):
    return kinds.spelled(specs) or INT


def is_lone_void(params):
    return len(params) == 1 and params[0].specs == ["void"] and params[0].name is None and not params[0].is_array


def is_main(item):
    return (isinstance(item, tree.Function) and item.name == "main" and kind_or_int(item.specs) == INT
            and (not item.params or is_lone_void(item.params)))


class Checker:
    def __init__(self, unit):
        self.unit = unit
        self.faults = []
        self.routines = {name: Routine(name, *it) for name, it in BUILT_IN.items()}
        self.scopes = [dict(self.routines)]
        self.definitions = []
        self.globals = []
        self.locals = []
        # The names of the functions that the unit defines, here or further down.
        self.defined = {it.name for it in unit.items if isinstance(it, tree.Function)}
        # What the node at hand stands in. The parameters of a definition stand in no block, but what their sizes are built of does.
        self.in_block = False
        self.result = None
        self.in_loop = self.in_switch = False
        self.switch_kind = None
        self.labels = None

    def fail(self, node, code):
        self.faults.append((node.order, code, node.at))

    def fail_if(self, condition, node, code):
        if condition:
            self.fail(node, code)

    def run(self):
        for item in self.unit.items:
            if isinstance(item, tree.Function):
                self.function(item)
            else:
                self.item(item)
        self.rule_13()
        if self.faults:
            _, code, at = min(self.faults)
            raise RuleFault(code, at)

    def rule_13(self):
        """C11 5.1.2.2.1: `int main(void)` is defined, whatever else is declared by this name."""
        self.fail_if(not any(is_main(it) for it in self.unit.items), self.unit, 13)

    def fails(self, node):
        """Whether a rule was found to fail at this very node."""
        return any(order == node.order for order, _, _ in self.faults)

    # Names

    def find(self, name):
        for scope in reversed(self.scopes):
            if name in scope:
                return scope[name]
        return None

    def specs(self, node, is_function=False):
        """Rule 1 (C11 6.7.1, 6.7.2)."""
        specs = node.specs
        repeated = any(specs.count(it) > 1 for it in ("static", "extern", "inline", "const"))
        misplaced = not is_function and ("extern" in specs or "inline" in specs)
        within = self.in_block and "static" in specs
        self.fail_if(kinds.spelled(specs) is None or repeated or misplaced or within, node, 1)

    # Functions

    def params_type(self, params):
        if is_lone_void(params):
            return []
        return [self.param_type(it) for it in params]

    @staticmethod
    def param_type(param):
        """`const` of a scalar parameter is no part of the function's type (C11 6.7.6.3, paragraph 15)."""
        kind = kind_or_int(param.specs)
        kind = INT if kind == VOID else kind
        return kind, param.is_array, param.is_array and "const" in param.specs

    def routine(self, node):
        """Declares a function: rule 3 (C11 6.7, paragraphs 3 and 4)."""
        new = Routine(node.name, kind_or_int(node.specs), self.params_type(node.params))
        here = self.scopes[-1].get(node.name)
        known = self.routines.setdefault(node.name, new)
        is_object = isinstance(here, Thing)
        is_second = isinstance(node, tree.Function) and (known.node is not None or node.name in BUILT_IN)
        self.fail_if(is_object or known.type() != new.type() or is_second, node, 3)
        if not is_object:
            self.scopes[-1][node.name] = known
        return known

    def function(self, node):
        self.specs(node, is_function=True)
        routine = self.routine(node)
        if routine.node is None and node.name not in BUILT_IN:
            routine.node = node
            self.definitions.append(routine)
        self.scopes.append({})
        names = set()
        things = []
        if not is_lone_void(node.params):
            for param in node.params:
                things += self.param(param, names)
        if routine.node is node:
            routine.things = things
        self.result = kind_or_int(node.specs)
        self.in_block = True
        self.items(node.body.items)
        self.in_block = False
        self.scopes.pop()

    def param(self, param, names):
        """A parameter of a definition: rule 16 (C11 6.9.1, paragraph 5)."""
        self.param_rules(param, in_definition=True)
        if param.name is None:
            self.fail(param, 16)
            return []
        self.fail_if(param.name in names, param, 16)
        names.add(param.name)
        size = 0 if param.is_array else None
        thing = Thing(param.name, kind_or_int(param.specs), "const" in param.specs, size, is_param=True)
        self.scopes[-1][param.name] = thing
        self.locals.append(thing)
        return [thing]

    def param_rules(self, param, in_definition=False):
        self.specs(param)
        self.fail_if(kinds.spelled(param.specs) == VOID, param, 8)
        if param.size is not None:
            outside, self.in_block = self.in_block, self.in_block or in_definition
            self.array_size(param, param.size)
            self.in_block = outside

    def prototype(self, node):
        self.specs(node, is_function=True)
        self.routine(node)
        if not is_lone_void(node.params):
            for param in node.params:
                self.param_rules(param)

    # Objects

    def array_size(self, node, size):
        """Rules 4 and 5 (C11 6.7.6.2): the size, or None where it can't be judged."""
        self.value(size)
        try:
            number = constant(size)
        except NotConstant:
            self.fail(node, 4)
            return None
        if not 1 <= number <= MOST_ELEMENTS:
            self.fail(node, 5)
            return None
        return number

    def declaration(self, node):
        self.specs(node)
        return [self.object(it, node) for it in node.objects]

    def object(self, node, declaration):
        kind = kind_or_int(declaration.specs)
        is_const = "const" in declaration.specs
        self.fail_if(node.name in self.scopes[-1], node, 3)
        self.fail_if(kind == VOID, node, 8)
        size = self.object_size(node)
        thing = Thing(node.name, kind, is_const, size)
        if node.name not in self.scopes[-1]:
            self.scopes[-1][node.name] = thing
        (self.locals if self.in_block else self.globals).append(thing)
        node.declared = thing
        self.initial(node, is_const)
        return thing

    def object_size(self, node):
        """The number of elements, None of a scalar."""
        if not node.is_array:
            return None
        count = len(node.values or [])
        if node.size is not None:
            size = self.array_size(node, node.size)
            self.fail_if(size is not None and count > size, node, 5)
            return size or 1
        self.fail_if(not 1 <= count <= MOST_ELEMENTS, node, 5)
        return count or 1

    def initial(self, node, is_const):
        """Rules 4 and 15 for what an object begins with (C11 6.7.9), and 8 for values that are void."""
        if node.value is None and node.values is None:
            self.fail_if(is_const and self.in_block, node, 15)
            return
        self.fail_if((node.values is not None) != node.is_array, node, 15)
        given = node.values if node.values is not None else [node.value]
        for value in given:
            self.used(node, value)
        if not self.in_block:
            self.fail_if(any(constants.constant_or(it, None) is None for it in given), node, 4)

    # Statements

    def items(self, items):
        return [thing for it in items for thing in self.item(it) or []]

    def item(self, node):
        """Answers the objects that the item declares."""
        if isinstance(node, tree.Declaration):
            return self.declaration(node)
        if isinstance(node, tree.Prototype):
            self.prototype(node)
        elif isinstance(node, tree.Label):
            self.label(node)
        elif not isinstance(node, tree.Restriction):
            self.statement(node)
        return []

    def in_scope(self, work):
        self.scopes.append({})
        work()
        self.scopes.pop()

    def statement(self, node):
        if isinstance(node, tree.Block):
            self.in_scope(lambda: self.items(node.items))
        elif isinstance(node, tree.Evaluate):
            self.value(node.value)
        elif isinstance(node, tree.If):
            self.used(node, node.test)
            self.statement(node.first)
            if node.second:
                self.statement(node.second)
        elif isinstance(node, tree.Loop):
            self.in_scope(lambda: self.loop(node))
        elif isinstance(node, tree.Switch):
            self.switch(node)
        elif isinstance(node, tree.Break):
            self.fail_if(not (self.in_loop or self.in_switch), node, 11)
        elif isinstance(node, tree.Continue):
            self.fail_if(not self.in_loop, node, 11)
        elif isinstance(node, tree.Return):
            self.give_back(node)

    def loop(self, node):
        if isinstance(node, tree.For):
            if isinstance(node.start, tree.Expr):
                self.value(node.start)
            elif node.start:
                self.item(node.start)
            if node.step:
                self.value(node.step)
        if node.test:
            self.used(node, node.test)
        outer = self.in_loop
        self.in_loop = True
        self.statement(node.body)
        self.in_loop = outer

    def switch(self, node):
        outer = self.in_switch, self.switch_kind, self.labels
        kind = self.used(node, node.test)
        self.in_switch, self.switch_kind, self.labels = True, kinds.promoted(kind), set()
        self.in_scope(lambda: self.items(node.items))
        self.in_switch, self.switch_kind, self.labels = outer

    def label(self, node):
        """Rules 4 and 10 (C11 6.8.4.2, paragraph 3): labels are compared in the switch's promoted type."""
        key = "default"
        if node.value is not None:
            self.value(node.value)
            try:
                key = node.constant = kinds.convert(self.switch_kind, constant(node.value))
            except NotConstant:
                self.fail(node, 4)
                return
        self.fail_if(key in self.labels, node, 10)
        self.labels.add(key)

    def give_back(self, node):
        """Rule 12 (C11 6.8.6.4, paragraph 1)."""
        if node.value is not None:
            self.used(node, node.value)
        self.fail_if((node.value is not None) != (self.result != VOID), node, 12)

    # Expressions

    def used(self, node, expr):
        """The type of a part whose value the node uses: rule 8 (C11 6.3.2.2)."""
        kind = self.value(expr)
        if kind == VOID:
            self.fail(node, 8)
            return INT
        return kind

    def value(self, expr):
        """The type of an expression, which is noted on it. One at which a rule fails counts as int."""
        kind = self.forms[type(expr)](self, expr)
        expr.kind = INT if self.fails(expr) else kind
        return expr.kind

    def number(self, expr):
        return constants.number_kind(expr)

    def character(self, expr):
        return INT

    def name(self, expr):
        thing = expr.refers = self.find(expr.name)
        if thing is None:
            self.fail(expr, 2)
        elif isinstance(thing, Routine):
            self.fail(expr, 7)
        elif thing.is_array:
            self.fail(expr, 6)
        else:
            return thing.kind
        return INT

    def paren(self, expr):
        return self.value(expr.inner)

    def index(self, expr):
        self.used(expr, expr.index)
        thing = expr.refers = self.find(expr.name)
        if thing is None:
            self.fail(expr, 2)
        elif isinstance(thing, Routine) or not thing.is_array:
            self.fail(expr, 6)
        else:
            return thing.kind
        return INT

    def call(self, expr):
        """Rules 2, 7 and 14 at the call (C11 6.5.2.2)."""
        routine = expr.refers = self.find(expr.name)
        if not isinstance(routine, Routine):
            self.fail(expr, 2 if routine is None else 7)
            for it in expr.arguments:
                self.used(expr, it)
            return INT
        self.fail_if(expr.name not in self.defined and expr.name not in BUILT_IN, expr, 14)
        self.fail_if(len(expr.arguments) != len(routine.params), expr, 7)
        for place, argument in enumerate(expr.arguments):
            self.argument(expr, argument, routine.params[place] if place < len(routine.params) else None)
        return routine.result

    def argument(self, call, argument, param):
        thing = self.find(argument.name) if isinstance(argument, tree.Name) else None
        if param is None or not param[1]:
            self.used(call, argument)
        elif isinstance(thing, Thing) and thing.is_array:
            argument.refers = thing
            self.fail_if(thing.kind != param[0] or (thing.is_const and not param[2]), call, 7)
        else:
            is_undeclared = isinstance(argument, tree.Name) and thing is None
            self.fail_if(not is_undeclared, call, 7)
            self.used(call, argument)

    def assignable(self, node, target):
        """Rule 9 (C11 6.5.16, paragraph 2; 6.5.2.4; 6.5.3.1); brackets change nothing."""
        kind = self.used(node, target)
        place = bare(target)
        if isinstance(place, tree.Name):
            thing = place.refers
            judged = isinstance(thing, Thing)
            self.fail_if(judged and (thing.is_array or thing.is_const), node, 9)
        elif isinstance(place, tree.Index):
            thing = place.refers
            judged = isinstance(thing, Thing) and thing.is_array
            self.fail_if(judged and thing.is_const, node, 9)
        else:
            self.fail(node, 9)
        return kind

    def step(self, expr):
        return self.assignable(expr, expr.operand)

    def assign(self, expr):
        kind = self.assignable(expr, expr.target)
        self.used(expr, expr.value)
        return kind

    def prefix(self, expr):
        kind = self.used(expr, expr.operand)
        return INT if expr.operator == "!" else kinds.promoted(kind)

    def cast(self, expr):
        self.specs(expr)
        kind = kind_or_int(expr.specs)
        if kind == VOID:
            self.value(expr.operand)
        else:
            self.used(expr, expr.operand)
        return kind

    def binary(self, expr):
        if expr.operator == ",":
            self.value(expr.left)
            return self.value(expr.right)
        left, right = self.used(expr, expr.left), self.used(expr, expr.right)
        return kinds.result_kind(expr.operator, left, right)

    def conditional(self, expr):
        """Both parts may be void; one alone fails rule 8 (C11 6.5.15, paragraph 3)."""
        self.used(expr, expr.test)
        first, second = self.value(expr.first), self.value(expr.second)
        if first == second == VOID:
            return VOID
        if VOID in (first, second):
            self.fail(expr, 8)
            return INT
        return kinds.common(first, second)

    forms = {tree.Number: number, tree.Character: character, tree.Name: name, tree.Paren: paren, tree.Index: index,
             tree.Call: call, tree.Step: step, tree.Prefix: prefix, tree.Cast: cast, tree.Binary: binary,
             tree.Conditional: conditional, tree.Assign: assign}


def within(word, found):
    if found > MOST[word]:
        raise Limit(word, found)


def count_params(node):
    return 0 if is_lone_void(node.params) else len(node.params)


def check(unit):
    """The checker with what it noted; or Limit or RuleFault, in their order."""
    nodes = list(tree.nodes_of(unit))
    within("nodes", len(nodes))
    within("functions", sum(isinstance(it, tree.Function) for it in nodes))
    for node in nodes:
        if isinstance(node, (tree.Function, tree.Prototype)):
            within("parameters", count_params(node))
    within("markers", sum(isinstance(it, tree.Marker) for it in nodes))
    within("restrictions", sum(isinstance(it, tree.Restriction) for it in nodes))
    checker = Checker(unit)
    checker.run()
    within("globals", sum(it.bytes() for it in checker.globals))
    within("locals", sum(it.bytes() for it in checker.locals))
    return checker
