"""Types: the scalars are the profile's kinds and `_Bool`; arrays and structs are built of them. An object is its cells in order,
one for each scalar in it; of bytes only `sizeof` speaks, by the ABI of RV32 (each scalar aligned to its size)."""
from dataclasses import dataclass

from .. import kinds
from ..kinds import VOID, Kind

BOOL = Kind("_Bool", 8, False, 0)
POINTER_BYTES = 4


@dataclass(frozen=True)
class Array:
    """`count` is None where it isn't known (yet)."""
    element: object
    count: int


@dataclass(eq=False)
class Member:
    """One without a name is a struct whose members are named as if they stood here."""
    name: str
    type: object
    const: bool
    cell: int


class Struct:
    """A struct is the type that its declaration makes, and equal to no other. `members` is None until it is complete."""

    def __init__(self, tag):
        self.tag, self.members = tag, None

    def find(self, name):
        """The numbers of the members that lead to this name, from outside to inside, or None."""
        for number, it in enumerate(self.members):
            if it.name == name:
                return [number]
            inner = it.type.find(name) if it.name is None else None
            if inner is not None:
                return [number] + inner
        return None


def is_scalar(type):
    return isinstance(type, Kind) and type != VOID


def is_complete(type):
    if isinstance(type, Array):
        return type.count is not None and is_complete(type.element)
    if isinstance(type, Struct):
        return type.members is not None
    return type != VOID


def cells_of(type):
    if isinstance(type, Array):
        return type.count * cells_of(type.element)
    if isinstance(type, Struct):
        return sum(cells_of(it.type) for it in type.members)
    return 1


def alignment(type):
    if isinstance(type, Array):
        return alignment(type.element)
    if isinstance(type, Struct):
        return max((alignment(it.type) for it in type.members), default=1)
    return type.bits // 8


def bytes_of(type):
    if isinstance(type, Array):
        return type.count * bytes_of(type.element)
    if isinstance(type, Struct):
        end = 0
        for it in type.members:
            end = rounded(end, alignment(it.type)) + bytes_of(it.type)
        return rounded(end, alignment(type))
    return type.bits // 8


def rounded(number, unit):
    return -(-number // unit) * unit


def has_const(type):
    """Whether a member is const, so that the whole can't be assigned (C11 6.3.2.1, paragraph 1)."""
    if isinstance(type, Array):
        return has_const(type.element)
    return isinstance(type, Struct) and any(it.const or has_const(it.type) for it in type.members)


def parts_of(type):
    """How many elements or members an array or a struct has; None of an array whose size its list says."""
    return type.count if isinstance(type, Array) else len(type.members)


def part_of(type, number):
    """The type of a part, and the cell at which it begins."""
    if isinstance(type, Array):
        return type.element, number * cells_of(type.element)
    member = type.members[number]
    return member.type, member.cell


def convert(kind, value):
    return int(value != 0) if kind == BOOL else kinds.convert(kind, value)
