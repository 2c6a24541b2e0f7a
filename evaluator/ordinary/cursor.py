"""What the parts of the reader share: the tokens, the scopes of names and tags, and what a name may stand for."""
from dataclasses import dataclass, field

from ..tokens import Refused
from . import types
from .words import QUALIFIERS, SILENT, STORAGE, TYPE_WORDS

SPECIFIERS = STORAGE | SILENT | QUALIFIERS | TYPE_WORDS | {"struct", "enum"}


@dataclass(eq=False)
class Thing:
    """An object. An array parameter is the caller's array: its cells, where it begins among them, and how many elements it has."""
    name: str
    type: object
    const: bool
    is_param: bool = False
    is_static: bool = False
    has_value: bool = False
    cells: list = None
    base: int = 0
    count: int = None


@dataclass(eq=False)
class Named:
    """A name of a type."""
    type: object
    const: bool


@dataclass(eq=False)
class Constant:
    """A constant of an enumeration."""
    value: int


@dataclass(eq=False)
class Routine:
    """A function. `params` are pairs of a type and whether the elements of an array are const."""
    name: str
    result: object
    params: list
    at: int = 0
    things: list = None
    body: object = None
    callees: set = field(default_factory=set)


class Frozen(list):
    """The cells of a string, which must not be written (C11 6.4.5, paragraph 7)."""


class Cursor:
    def __init__(self, tokens, end):
        self.tokens, self.end = tokens, end
        self.next = 0
        self.scopes, self.tags = [{}], [{}]
        # What sets the objects up that live as long as the program, in order.
        self.start = []
        self.routine = None

    def kind(self, ahead=0):
        place = self.next + ahead
        return self.tokens[place].kind if place < len(self.tokens) else None

    def token(self, ahead=0):
        place = self.next + ahead
        return self.tokens[place] if place < len(self.tokens) else None

    def at(self):
        return self.token().at if self.token() else self.end

    def refuse(self, why, at=None, word="syntax"):
        raise Refused(word, self.at() if at is None else at, why)

    def take(self, kind):
        if self.kind() != kind:
            self.refuse(f"`{kind}` is wanted")
        self.next += 1
        return self.tokens[self.next - 1]

    def takes(self, kind):
        if self.kind() != kind:
            return False
        self.next += 1
        return True

    # Scopes (C11 6.2.1)

    def open(self):
        self.scopes.append({})
        self.tags.append({})

    def close(self):
        self.scopes.pop()
        self.tags.pop()

    def in_file(self):
        return len(self.scopes) == 1

    def found(self, name):
        return next((scope[name] for scope in reversed(self.scopes) if name in scope), None)

    def found_tag(self, name):
        return next((scope[name] for scope in reversed(self.tags) if name in scope), None)

    def begins_type(self, ahead=0):
        token = self.token(ahead)
        if token is None:
            return False
        return token.kind in SPECIFIERS or token.kind == "name" and isinstance(self.found(token.said), Named)

    def complete(self, type, at):
        if not types.is_complete(type):
            self.refuse("a type whose size is known is wanted", at, "type")
        return type
