"""Random programs of ordinary C: names of types, enumerations, structs in structs, arrays of arrays, lists with designators and with
brackets left out, static locals, structs as parameters and results, literals, and switches with labels in blocks.

Their values are defined in most runs: indexes and operands are mostly kept in range. What is evaluated within one expression changes
nothing that another part reads, so that every order of evaluation gives the same. Each text has a second form for gcc, in which each
loop with bounds counts its turns and says where they are passed.
"""
import random

SCALARS = ("char", "signed char", "unsigned char", "short", "unsigned short", "int", "unsigned", "long", "unsigned long", "_Bool")
OPERATORS = ("+", "-", "*", "&", "|", "^", "<", ">", "<=", ">=", "==", "!=", "&&", "||", "<<", ">>", "/", "%")


class Scalar:
    def __init__(self, text):
        self.text = text


class Array:
    def __init__(self, element, count):
        self.element, self.count = element, count


class Struct:
    def __init__(self, text, members):
        self.text, self.members = text, members


class Routine:
    def __init__(self, name, result, params):
        self.name, self.result, self.params = name, result, params


class Object:
    def __init__(self, name, type, const=False):
        self.name, self.type, self.const = name, type, const


def alike(one, other):
    if isinstance(one, Array) and isinstance(other, Array):
        return one.count == other.count and alike(one.element, other.element)
    return one is other


class Generator:
    def __init__(self, seed):
        self.random = random.Random(seed)
        self.number, self.loops = 0, 0
        self.lines = []
        self.scalars = [Scalar(it) for it in SCALARS]
        self.structs, self.constants, self.routines = [], [], []
        # What is visible, by scope.
        self.scopes = [[]]

    # Helpers

    def one_in(self, n):
        return self.random.randrange(n) == 0

    def pick(self, things):
        return self.random.choice(things)

    def new(self, prefix):
        self.number += 1
        return f"{prefix}{self.number}"

    def line(self, depth, text, native=None):
        indent = "    " * depth
        self.lines.append((indent + text, indent + (text if native is None else native)))

    def text(self, native=False):
        return "\n".join(it[native] for it in self.lines) + "\n"

    def objects(self):
        return [it for scope in self.scopes for it in scope]

    # Types

    def scalar(self):
        return self.pick(self.scalars)

    def type(self, depth=0):
        kind = self.random.randrange(8)
        if kind == 0 and depth < 2:
            return Array(self.type(depth + 1), self.random.randrange(1, 5))
        if kind in (1, 2) and self.structs:
            return self.pick(self.structs)
        return self.scalar()

    @staticmethod
    def declared(type, name):
        sizes = ""
        while isinstance(type, Array):
            sizes += f"[{type.count}]"
            type = type.element
        return f"{type.text} {name}{sizes}".rstrip()

    def declare_type(self, depth):
        kind = self.random.randrange(4)
        if kind == 0:
            base, name = self.type(), self.new("T")
            self.line(depth, f"typedef {self.declared(base, name)};")
            named = Scalar(name) if isinstance(base, Scalar) else Struct(name, base.members) if isinstance(base, Struct) else None
            (self.structs if isinstance(named, Struct) else self.scalars).append(named) if named else None
        elif kind == 1:
            self.enumeration(depth)
        else:
            self.struct(depth)

    def enumeration(self, depth):
        names, parts = [], []
        for _ in range(self.random.randrange(1, 5)):
            name = self.new("E")
            value = self.pick([None, None, "-1", "5", "'z'", "1 << 4", "sizeof(int) * 3", "(unsigned char)300", *[f"{it} & 63" for it in self.constants[:2]]])
            parts.append(name if value is None else f"{name} = {value}")
            names.append(name)
        tag = self.new("e")
        self.line(depth, f"enum {tag} {{ {', '.join(parts)}{self.pick(['', ','])} }};")
        self.constants += names
        self.scalars.append(Scalar(f"enum {tag}"))

    def struct(self, depth):
        members = [(self.new("m"), self.type()) for _ in range(self.random.randrange(1, 5))]
        inner = "; ".join(self.declared(type, name) for name, type in members)
        if self.one_in(4):
            extra = [(self.new("m"), self.scalar()) for _ in range(2)]
            inner += "; struct { " + "; ".join(self.declared(type, name) for name, type in extra) + "; }"
            members += extra
            # What an unnamed struct has is named as if it stood outside.
        if self.one_in(2):
            tag = self.new("s")
            self.line(depth, f"struct {tag} {{ {inner}; }};")
            self.structs.append(Struct(f"struct {tag}", members))
        else:
            name = self.new("T")
            self.line(depth, f"typedef struct {{ {inner}; }} {name};")
            self.structs.append(Struct(name, members))

    # Expressions that change nothing

    def path(self, name, type, plain=False):
        """A scalar in an object."""
        while not isinstance(type, Scalar):
            if isinstance(type, Array):
                name, type = f"{name}[{self.random.randrange(type.count) if plain else self.index(type.count)}]", type.element
            else:
                member, type = self.pick(type.members)
                name = f"{name}.{member}"
        return name

    def index(self, count):
        if self.one_in(200):
            return str(count)
        if self.one_in(3):
            return f"({self.value(2)}) % {count}u"
        return str(self.random.randrange(count))

    def size(self):
        kind, things = self.random.randrange(4), self.objects()
        if kind == 0 and things:
            return f"sizeof {self.pick(things).name}"
        if kind == 1:
            return f"_Alignof({self.declared(self.type(), '')})"
        if kind == 2:
            return f"sizeof({self.value(3)})"
        return f"sizeof({self.declared(self.type(), '')})"

    def value(self, depth=0):
        things = self.objects()
        kind = self.random.randrange(14) if depth < 3 else self.random.randrange(4)
        if kind <= 1 and things:
            thing = self.pick(things)
            return self.path(thing.name, thing.type)
        if kind == 2:
            return self.pick(self.constants) if self.constants else "7"
        if kind <= 3:
            return self.pick(["0", "1", "2", "3", "10", "100", "255", "65535", "3u", "0x80u", "'a'", self.size()])
        if kind == 4:
            return f"({self.scalar().text})({self.value(depth + 1)})"
        if kind == 5:
            return f"({self.value(depth + 1)} ? {self.value(depth + 1)} : {self.value(depth + 1)})"
        if kind == 6:
            return f"{self.pick('-~!+')}({self.value(depth + 1)} & 1023)"
        if kind == 7 and self.structs and self.one_in(2):
            struct = self.pick(self.structs)
            return self.path(f"({struct.text}){self.braces(struct, depth + 2)}", struct)
        return self.operated(depth)

    def operated(self, depth):
        operator, left, right = self.pick(OPERATORS), self.value(depth + 1), self.value(depth + 1)
        if operator in ("<<", ">>"):
            right = right if self.one_in(60) else f"({right} & 31)"
        elif operator in ("/", "%"):
            right = right if self.one_in(20) else f"({right} & 15 | 1)"
        if operator in ("+", "-", "*", "/", "%") and not self.one_in(40):
            left, right = f"({left} & 1023)", f"({right} & 1023)" if operator in "+-*" else right
        return f"({left} {operator} {right})"

    # Initial values

    def constant(self):
        return self.pick(["0", "1", "-1", "200", "70000", "'x'", "3u", "sizeof(int[3])", *self.constants[:3]])

    def braces(self, type, depth, constant=False):
        """A list, with designators, or with some brackets left out."""
        def leaf():
            return self.constant() if constant else self.value(depth + 1)
        parts = []
        names = [name for name, _ in type.members] if isinstance(type, Struct) else range(type.count)
        inner = [it for _, it in type.members] if isinstance(type, Struct) else [type.element] * type.count
        mode = self.random.randrange(3)
        for name, part in zip(names, inner):
            if mode == 1 and self.one_in(2) or mode == 2 and self.one_in(5):
                if mode == 2:
                    break
                continue
            said = self.flat(part, leaf) if self.one_in(3) and mode == 0 else self.initial(part, depth + 1, constant, leaf)
            parts.append(said if mode != 1 else f".{name} = {said}" if isinstance(type, Struct) else f"[{name}] = {said}")
        return "{" + ", ".join(parts or ["0"]) + self.pick(["", ","]) + "}"

    def flat(self, type, leaf):
        if isinstance(type, Scalar):
            return leaf()
        inner = [it for _, it in type.members] if isinstance(type, Struct) else [type.element] * type.count
        return ", ".join(self.flat(it, leaf) for it in inner)

    def initial(self, type, depth, constant, leaf):
        if isinstance(type, Scalar):
            return leaf()
        if isinstance(type, Array) and isinstance(type.element, Scalar) and type.element.text in ("char", "unsigned char", "signed char") and self.one_in(2):
            return '"' + "abcd"[:self.random.randrange(type.count + 1)] + '"'
        same = [it for it in self.objects() if it.type is type and isinstance(type, Struct)]
        if same and not constant and self.one_in(2):
            return self.pick(same).name
        return self.braces(type, depth, constant)

    def declare_object(self, depth, lasting):
        type = self.type()
        thing = Object(self.new("v"), type, const=self.one_in(8))
        words = ("static " if lasting and (depth or self.one_in(2)) else "") + ("const " if thing.const else self.pick(["", "", "", "volatile "]))
        leaf = self.constant if lasting else self.value
        given = f" = {self.initial(type, 1, lasting, leaf)}" if thing.const or not lasting and not self.one_in(60) or self.one_in(2) else ""
        self.line(depth, f"{words}{self.declared(type, thing.name)}{given};")
        self.scopes[-1].append(thing)

    def declare_text(self, depth):
        """An array whose string or list says how many elements it has."""
        count, name = self.random.randrange(1, 6), self.new("v")
        if self.one_in(2):
            type, given = Array(Scalar("char"), count), '"' + "wxyz"[:count - 1] + '"'
            count = len(given) - 1
        else:
            type, given = Array(self.scalar(), count), "{" + f"[{count - 1}] = {self.constant()}" + "}"
        self.line(depth, f"{'static ' if self.one_in(2) else ''}{type.element.text} {name}[] = {given};")
        self.scopes[-1].append(Object(name, Array(type.element, count)))

    # Statements

    def targets(self):
        return [it for it in self.objects() if not it.const]

    def statement(self, depth):
        kind = self.random.randrange(12)
        targets = self.targets()
        if kind <= 1:
            self.declare_text(depth) if self.one_in(8) else self.declare_object(depth, lasting=self.one_in(4))
        elif kind == 2 and self.one_in(3):
            self.declare_type(depth)
        elif kind <= 4 and targets:
            thing = self.pick(targets)
            target = self.path(thing.name, thing.type)
            self.line(depth, self.pick([f"{target} = {self.value()};", f"{target} = {self.value()};", f"{target} {self.pick('&|^')}= {self.value()};", f"{target}++;", f"--{target};"]))
        elif kind == 5:
            self.copy(depth)
        elif kind == 6 and self.routines:
            self.line(depth, f"putchar((int)({self.call()}) & 255);")
        elif kind == 7 and depth < 4:
            self.line(depth, f"if ({self.value()}) {{")
            self.block(depth)
            self.line(depth, "}")
        elif kind == 8 and depth < 3:
            self.loop(depth)
        elif kind == 9 and depth < 3:
            self.switch(depth)
        else:
            self.line(depth, f"putchar((int)({self.value()}) & 255);")

    def block(self, depth):
        self.scopes.append([])
        kept = list(self.scalars), list(self.structs), list(self.constants)
        for _ in range(self.random.randrange(1, 5)):
            self.statement(depth + 1)
        self.scalars, self.structs, self.constants = kept
        self.scopes.pop()

    def copy(self, depth):
        """One struct assigned to another, from an object, a literal, a call or a choice."""
        things = [it for it in self.targets() if isinstance(it.type, Struct)]
        if not things:
            return
        thing = self.pick(things)
        others = [it.name for it in self.objects() if it.type is thing.type]
        calls = [self.called(it) for it in self.routines if it.result is thing.type]
        literal = f"({thing.type.text}){self.braces(thing.type, 1)}"
        sources = [self.pick(others), literal, f"({self.value()} ? {self.pick(others)} : {self.pick(others)})", *calls]
        self.line(depth, f"{thing.name} = {self.pick(sources)};")

    def loop(self, depth):
        turns, counter = self.random.randrange(0, 5), self.new("i")
        self.loops += 1
        number = self.loops
        least, most = self.pick([(turns, turns)] * 12 + [(0, 9)] * 4 + [(turns + 1, 9), (0, max(0, turns - 1))])
        mark, count = f"/*{number}*/", f"n{number}"
        pragma = f'_Pragma("loopbound min {least} max {most}") {mark}'
        passed = f"if (++{count} > {most}) broken({number});"
        head = {0: f"for (int {counter} = 0; {counter} < {turns}; {counter}++) {{", 1: f"while ({counter}++ < {turns}) {{", 2: "do {"}
        kind = self.random.randrange(3)
        if kind:
            self.line(depth, f"int {counter} = 0;")
        if kind == 2:
            turns_made = max(1, turns)
            least, most = (min(least, turns_made), max(most, 1)) if least <= turns else (turns_made + 1, 9)
            pragma = f'_Pragma("loopbound min {least} max {most}") {mark}'
            passed = f"if (++{count} > {most}) broken({number});"
        self.line(depth, pragma + head[kind], f"int {count} = 0; {head[kind]} {passed}")
        self.scopes.append([Object(counter, Scalar("int"), const=True)])
        self.block(depth)
        if self.one_in(4):
            self.line(depth + 1, f"if ({self.value(2)}) {self.pick(['break', 'continue'])};" if kind != 2 else f"if ({self.value(2)}) break;")
        self.scopes.pop()
        checked = f"if ({count} < {least}) broken({number});"
        if kind == 2:
            self.line(depth, f"}} while (++{counter} < {turns});", f"}} while (++{counter} < {turns}); {checked}")
        else:
            self.line(depth, "}", f"}} {checked}")

    def switch(self, depth):
        """Labels of constants, some in blocks within."""
        self.line(depth, f"switch (({self.value()}) & 7) {{")
        self.scopes.append([])
        labels = self.random.sample(range(8), self.random.randrange(1, 6)) + ["default"] * self.one_in(2)
        self.random.shuffle(labels)
        inner = 0
        for label in labels:
            self.line(depth, "default:" if label == "default" else f"case {label}:")
            if self.one_in(4):
                self.line(depth + 1, "{")
                inner += 1
            self.line(depth + 1, f"putchar((int)({self.value()}) & 255);")
            if self.one_in(2):
                self.line(depth + 1, "break;")
        for _ in range(inner):
            self.line(depth + 1, "}")
        self.scopes.pop()
        self.line(depth, "}")

    # Functions

    def call(self):
        routine = self.pick(self.routines)
        text = self.called(routine)
        # An index beside a call that changes what it reads would have two values.
        return text if isinstance(routine.result, Scalar) else self.path(text, routine.result, plain=True)

    def called(self, routine):
        return f"{routine.name}({', '.join(self.argument(it) for it in routine.params)})"

    def argument(self, type):
        if isinstance(type, Scalar):
            return self.value(1)
        same = [it.name for it in self.objects() if it.type is type]
        if isinstance(type, Struct):
            return self.pick([*same, f"({type.text}){self.braces(type, 1)}"])
        arrays = [path for it in self.targets() for path in self.arrays_in(it.name, it.type, type)]
        return self.pick([*arrays[:6], f"({self.declared(type, '')}){self.braces(type, 1)}"])

    def arrays_in(self, name, type, wanted):
        """The arrays of a type in an object: the object, rows and members."""
        if alike(type, wanted):
            yield name
        elif isinstance(type, Array):
            yield from self.arrays_in(f"{name}[{self.random.randrange(type.count)}]", type.element, wanted)
        elif isinstance(type, Struct):
            for member, inner in type.members:
                yield from self.arrays_in(f"{name}.{member}", inner, wanted)

    def function(self):
        params = [(self.new("p"), self.scalar() if self.one_in(2) else self.type()) for _ in range(self.random.randrange(4))]
        result = self.pick([self.scalar(), *self.structs])
        name = self.new("f")
        self.line(0, f"static {result.text} {name}({', '.join(self.declared(type, it) for it, type in params) or 'void'}) {{")
        self.scopes.append([Object(it, type) for it, type in params if not isinstance(type, Array)])
        arrays = [(it, type) for it, type in params if isinstance(type, Array)]
        if arrays and self.one_in(2):
            self.line(1, f"putchar((int)sizeof {arrays[0][0]});")
        routines, self.routines = self.routines, self.routines[:2]
        kept = list(self.scalars), list(self.structs), list(self.constants)
        self.line(1, "static unsigned char turn; turn++; putchar(turn);")
        for _ in range(self.random.randrange(1, 6)):
            self.statement(1)
        for it, type in arrays:
            # An array parameter is the caller's: its elements are in range by its own count.
            self.line(1, f"putchar((int)({self.path(it, type)}) & 255);")
        self.scalars, self.structs, self.constants = kept
        given = self.value() if isinstance(result, Scalar) else self.pick([f"({result.text}){self.braces(result, 1)}", *[it.name for it in self.objects() if it.type is result]])
        self.line(1, f"return {given};")
        self.line(0, "}")
        self.scopes.pop()
        self.routines = [*routines, Routine(name, result, [type for _, type in params])]

    def program(self):
        for _ in range(self.random.randrange(3, 8)):
            self.declare_type(0)
            self.declare_object(0, lasting=True)
        for _ in range(self.random.randrange(0, 4)):
            self.function()
        self.line(0, "int main(void) {")
        self.scopes.append([])
        for _ in range(self.random.randrange(4, 14)):
            self.statement(1)
        self.line(1, f"return (int)({self.value()});")
        self.line(0, "}")
        return self


def program(seed):
    """The source of a random program, and its form for gcc."""
    made = Generator(f"wide {seed}").program()
    return made.text().encode(), b"void broken(int);\n" + made.text(native=True).encode()
