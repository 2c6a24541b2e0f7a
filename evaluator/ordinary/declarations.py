"""Declarations: the words of types, structs, enumerations, declarators, objects and functions (C11 6.7, 6.9)."""
from .. import kinds
from ..kinds import INT, UNSIGNED, VOID
from . import types
from .cursor import Constant, Named, Routine, Thing
from .lists import Lists
from .types import BOOL, Array, Member, Struct
from .words import QUALIFIERS, SILENT, STORAGE, TYPE_WORDS


class Specified:
    """What the words before the declarators say."""

    def __init__(self):
        self.storage, self.words, self.type, self.const = [], [], None, False


class Declarations(Lists):
    # The words of a type

    def specified(self, storage=True):
        said, at = Specified(), self.at()
        while self.begins_type():
            kind = self.kind()
            if kind in QUALIFIERS:
                said.const |= self.take(kind).kind == "const"
            elif kind in STORAGE | SILENT:
                if not storage:
                    self.refuse("a type alone is wanted")
                said.storage.append(self.take(kind).kind)
            elif kind in TYPE_WORDS:
                if said.type is not None:
                    self.refuse("one type is wanted")
                said.words.append(self.take(kind).kind)
            elif said.type is not None or said.words:
                if kind == "name":
                    break
                self.refuse("one type is wanted")
            else:
                self.other_type(said, kind)
        if len([it for it in said.storage if it in STORAGE]) > 1:
            self.refuse("one word of storage is wanted", at, "type")
        if said.type is None:
            said.type = self.spelled(said.words, at)
        return said

    def spelled(self, words, at):
        type = BOOL if words == ["_Bool"] else None if "_Bool" in words else kinds.spelled(words)
        if type is None:
            self.refuse("a type is wanted", at)
        return type

    def other_type(self, said, kind):
        if kind == "struct":
            said.type = self.struct()
        elif kind == "enum":
            said.type = self.enumeration()
        else:
            named = self.found(self.take("name").said)
            said.type, said.const = named.type, said.const or named.const

    def struct(self):
        """C11 6.7.2.1, 6.7.2.3."""
        self.take("struct")
        tag = self.take("name").said if self.kind() == "name" else None
        if self.kind() != "{":
            return self.tagged(tag)
        struct = self.tags[-1].get(tag) if tag else None
        if struct is None:
            struct = Struct(tag)
        if tag:
            self.tags[-1][tag] = struct
        if not isinstance(struct, Struct) or struct.members is not None:
            self.refuse("a new tag is wanted", word="type")
        self.take("{")
        members = []
        while not self.takes("}"):
            if self.kind() == "_Static_assert":
                self.assertion()
            else:
                self.members(members)
        names = [name for it in members for name in names_of(it)]
        if not members or len(set(names)) != len(names):
            self.refuse("members of different names are wanted", word="type")
        struct.members = members
        return struct

    def tagged(self, tag):
        if tag is None:
            self.refuse("a tag or a list is wanted")
        known = self.tags[-1].get(tag) if self.kind() == ";" else self.found_tag(tag)
        if known is None:
            known = self.tags[-1][tag] = Struct(tag)
        if not isinstance(known, Struct):
            self.refuse("a struct is wanted", word="type")
        return known

    def members(self, members):
        said = self.specified(storage=False)
        if self.takes(";"):
            if not isinstance(said.type, Struct) or said.type.tag:
                self.refuse("a member's name is wanted")
            self.member(members, None, said.type, said.const)
            return
        while True:
            at = self.at()
            name, type = self.declarator(said.type)
            self.member(members, name.said, self.complete(type, at), said.const)
            if not self.takes(","):
                break
        self.take(";")

    @staticmethod
    def member(members, name, type, const):
        cell = members[-1].cell + types.cells_of(members[-1].type) if members else 0
        members.append(Member(name, type, const, cell))

    def enumeration(self):
        """C11 6.7.2.2; as gcc has it, the type is unsigned where no constant is negative."""
        self.take("enum")
        tag = self.take("name").said if self.kind() == "name" else None
        if self.kind() != "{":
            known = self.found_tag(tag) if tag else None
            if known not in (INT, UNSIGNED):
                self.refuse("an enumeration is wanted", word="type")
            return known
        self.take("{")
        value, least = -1, 0
        while True:
            name, value = self.take("name"), value + 1
            if self.takes("="):
                value = self.constant_value()
            if not INT.holds(value):
                self.refuse("an int is wanted", name.at, "type")
            self.declare(name, Constant(value))
            least = min(least, value)
            if not self.takes(",") or self.kind() == "}":
                break
        self.take("}")
        type = INT if least < 0 else UNSIGNED
        if tag:
            if tag in self.tags[-1]:
                self.refuse("a new tag is wanted", word="type")
            self.tags[-1][tag] = type
        return type

    # Declarators

    def declarator(self, type, param=False):
        """The token of a name, or None where a parameter has none, and the name's type."""
        name, sizes = self.direct(param)
        for size in reversed(sizes):
            if isinstance(type, Array) and type.count is None or type == VOID:
                self.refuse("elements whose size is known are wanted", word="type")
            type = Array(type, size)
        return name, type

    def direct(self, param):
        if self.kind() in ("*", "^"):
            self.refuse("a pointer", word="outside")
        if self.kind() == "(" and not (param and self.begins_type(1)):
            self.take("(")
            name, sizes = self.direct(param)
            self.take(")")
        else:
            name = None if param and self.kind() != "name" else self.take("name")
            sizes = []
        while self.takes("["):
            while param and self.kind() in QUALIFIERS | {"static"}:
                self.take(self.kind())
            sizes.append(None if self.kind() == "]" else self.array_size())
            self.take("]")
        return name, sizes

    def array_size(self):
        at = self.at()
        size = self.constant_value()
        if size < 1:
            self.refuse("a size of at least 1 is wanted", at, "type")
        return size

    def type_name(self):
        """A type in round brackets or behind `sizeof` (C11 6.7.7)."""
        said = self.specified(storage=False)
        name, type = self.declarator(said.type, param=True)
        if name is not None:
            self.refuse("a type without a name is wanted")
        return type

    # What is declared

    def declare(self, name, meaning):
        """A name stands for one thing in a scope; of objects and functions repetitions are told apart elsewhere."""
        if name.said in self.scopes[-1]:
            self.refuse("a new name is wanted", name.at, "type")
        self.scopes[-1][name.said] = meaning

    def assertion(self):
        at = self.take("_Static_assert").at
        self.take("(")
        value = self.constant_value()
        self.take(",")
        self.string()
        self.take(")")
        self.take(";")
        if value == 0:
            self.refuse("an assertion that holds is wanted", at, "type")

    def declaration(self):
        """The steps that a declaration takes when it is reached, or a function's definition."""
        if self.kind() == "_Static_assert":
            self.assertion()
            return []
        said = self.specified()
        if self.takes(";"):
            return []
        steps = []
        while True:
            name, type = self.declarator(said.type)
            if "typedef" in said.storage:
                self.type_named(name, type, said)
            elif self.kind() == "(":
                if self.function(name, type):
                    return steps
            else:
                steps += self.object(name, type, said)
            if not self.takes(","):
                break
        self.take(";")
        return steps

    def type_named(self, name, type, said):
        known = self.scopes[-1].get(name.said)
        if isinstance(known, Named) and known.type == type and known.const == said.const:
            return
        self.declare(name, Named(type, said.const))

    # Objects

    def object(self, name, type, said):
        """C11 6.7.9, 6.9.2: `extern`, and at file level repetition, declare one object."""
        if type == VOID:
            self.refuse("an object of no type", name.at, "type")
        lasts = self.in_file() or "static" in said.storage or "extern" in said.storage
        thing = self.thing(name, type, said, lasts)
        if not self.takes("="):
            if not lasts:
                self.complete(thing.type, name.at)
                self.local_things[-1].append(thing)
            return []
        if thing.has_value or "extern" in said.storage:
            self.refuse("one initial value is wanted", name.at, "type")
        thing.has_value = True
        type, plan = self.initial(thing.type)
        thing.type = self.complete(type, name.at)
        if not lasts:
            self.local_things[-1].append(thing)
            return [self.write(thing, plan)]
        if not all(it.expr is None or it.expr.constant for it in plan):
            self.refuse("constants are wanted", name.at, "type")
        self.start.append(self.write(thing, plan))
        return []

    def thing(self, name, type, said, lasts):
        known = self.scopes[-1].get(name.said)
        if known is None and "extern" in said.storage:
            known = self.scopes[0].get(name.said)
        if isinstance(known, Thing) and lasts and (self.in_file() or "extern" in said.storage):
            joined = self.joined(known.type, type)
            if joined is None or known.const != said.const:
                self.refuse("the same type is wanted", name.at, "type")
            known.type = joined
            self.scopes[-1][name.said] = known
            return known
        thing = Thing(name.said, type, said.const, is_static=lasts)
        if name.said in self.scopes[-1]:
            self.refuse("a new name is wanted", name.at, "type")
        self.scopes[-1][name.said] = thing
        if "extern" in said.storage:
            self.scopes[0].setdefault(name.said, thing)
        if lasts:
            self.lasting.append((thing, name.at))
        return thing

    @staticmethod
    def joined(one, other):
        """One type of two declarations of an object."""
        if isinstance(one, Array) and isinstance(other, Array) and one.element == other.element and None in (one.count, other.count):
            return other if one.count is None else one
        return one if one == other else None

    # Functions

    def function(self, name, result):
        """Whether it is a definition."""
        self.open()
        names, params = self.params()
        old = self.scopes[-2].get(name.said) or self.routines.get(name.said)
        new = Routine(name.said, result, params, name.at)
        routine = self.routines.setdefault(name.said, new)
        if isinstance(result, Array) or old is not None and not isinstance(old, Routine) or (routine.result, routine.params) != (result, params):
            self.refuse("the same type is wanted", name.at, "type")
        self.scopes[-2][name.said] = routine
        # An opening brace follows a definition alone, and that stands at file level.
        if self.kind() != "{" or len(self.scopes) != 2:
            self.close()
            return False
        if routine.things is not None or any(it is None for it, _, _ in names) or result != VOID and not types.is_complete(result):
            self.refuse("one definition with named parameters is wanted", name.at, "type")
        routine.at = name.at
        self.defined(routine, names)
        self.close()
        return True

    def params(self):
        self.take("(")
        names, params = [], []
        if self.kind() == "void" and self.kind(1) == ")":
            self.take("void")
        while self.kind() != ")":
            said = self.specified()
            name, type = self.declarator(said.type, param=True)
            if self.kind() == "(" or type == VOID:
                self.refuse("a parameter of a scalar, a struct or an array is wanted")
            names.append((name, said.const, type))
            is_array = isinstance(type, Array)
            params.append((Array(type.element, None) if is_array else type, said.const and is_array))
            if not self.takes(","):
                break
        self.take(")")
        return names, params

    def defined(self, routine, names):
        routine.things = []
        for (name, const, type), (shape, _) in zip(names, routine.params):
            self.complete(type.element if isinstance(type, Array) else type, name.at)
            thing = Thing(name.said, shape, const, is_param=True)
            self.declare(name, thing)
            routine.things.append(thing)
        outer, self.routine = self.routine, routine
        self.take("{")
        routine.body = self.body()
        self.routine = outer


def names_of(member):
    return [member.name] if member.name else [name for it in member.type.members for name in names_of(it)]
