"""A copy of an image with section headers and symbols, for objdump, nm and gdb. What is loaded is the same."""
import struct
from collections.abc import Iterator
from dataclasses import dataclass
from itertools import groupby

from bound import Bound
from functions import START
from simulator.decoder import decode
from simulator.images import HEADER, LOADED, PROGRAM_HEADER, W, X, program_table, programs, read_image, region_of

PROGRAM, SYMBOLS, STRINGS, NOTHING, ATTRIBUTES = 1, 2, 3, 8, 0x7000_0003  # types of sections
WRITE, ALLOCATED, EXECUTED = 1, 2, 4  # flags of sections
LOCAL, GLOBAL = 0, 1
NO_TYPE, FUNCTION = 0, 2
ARCHITECTURE = b"rv32i2p0_m2p0"
SECTION, SYMBOL = 40, 16  # bytes
ENTRY = "_start"
NO_SECTION = 0xFFF1  # of a symbol that is an absolute address


class OddImage(Exception):
    """An image that is accepted, and that gets no copy, with the reason."""


class Strings:
    """A table of strings, each ended by a zero."""

    def __init__(self) -> None:
        self.data = bytearray(1)

    def put(self, text: str) -> int:
        place = len(self.data)
        self.data += text.encode() + b"\0"
        return place


@dataclass
class Section:
    name: str
    kind: int
    flags: int = 0
    start: int = 0
    offset: int = 0
    size: int = 0
    data: bytes | None = None
    link: int = 0
    info: int = 0
    align: int = 1
    each: int = 0

    def header(self, name: int) -> bytes:
        return struct.pack("<10I", name, self.kind, self.flags, self.start, self.offset, self.size, self.link, self.info,
                           self.align, self.each)


@dataclass
class Symbol:
    name: str
    at: int
    size: int = 0
    kind: int = NO_TYPE
    binding: int = LOCAL


class Sections:
    """The sections of what is loaded; names are those that linkers give, with the region where it isn't the usual one."""
    USUAL = {".text": "flash", ".rodata": "flash", ".data": "ram", ".bss": "ram"}

    def __init__(self, data: bytes) -> None:
        self.seen: dict[str, int] = {}
        self.found = [Section("", 0, align=0)]
        for it in programs(data):
            if it.kind == LOADED and it.size:
                self.found += self.of(it.start, it.offset, it.file_size, it.size, it.rights)

    def of(self, start: int, offset: int, file_size: int, size: int, rights: int) -> Iterator[Section]:
        flags = ALLOCATED | WRITE * bool(rights & W) | EXECUTED * bool(rights & X)
        name = ".text" if rights & X else ".data" if rights & W else ".rodata"
        if file_size:
            yield Section(self.named(name, start), PROGRAM, flags, start, offset, file_size, align=4 if rights & X else 1)
        if size > file_size:
            name = self.named(".bss" if rights & W else name, start + file_size)
            # Of what the file has no bytes of, no place in the file counts.
            yield Section(name, NOTHING, flags, start + file_size, (offset + file_size) % (1 << 32), size - file_size)

    def named(self, name: str, start: int) -> str:
        region = region_of(start)
        name = name if region == self.USUAL[name] else f"{name}.{region}"
        self.seen[name] = self.seen.get(name, -1) + 1
        return f"{name}.{self.seen[name]}" if self.seen[name] else name

    def number_at(self, at: int) -> int:
        return next((number for number, it in enumerate(self.found) if it.kind and it.start <= at < it.start + it.size), NO_SECTION)


def attributes() -> bytes:
    """Which instructions there are, as the tools of RISC-V read it."""
    tag = bytes([5]) + ARCHITECTURE + b"\0"
    inner = bytes([1]) + struct.pack("<I", len(tag) + 5) + tag
    vendor = b"riscv\0"
    return b"A" + struct.pack("<I", len(inner) + len(vendor) + 4) + vendor + inner


def symbols_of(bound: Bound) -> Iterator[Symbol]:
    """A name of a loop or of a further copy has a dot, as none of C has."""
    named = {it.name for it in bound.codes}
    for it in bound.codes:
        name = (ENTRY if ENTRY not in named else ".start") if it.name == START else it.name
        yield Symbol(name, it.first, it.end - it.first, FUNCTION, GLOBAL)
    markers = {name for name, _ in bound.markers}
    for name, places in bound.report.copies:
        for number, at in enumerate((it for it in places if it not in bound.functions.by_first), 1):
            yield Symbol(name if name in markers and number == 1 else f"{name}.{number}", at)
    seen: dict[int, int] = {}
    for it in bound.loops:
        seen[it.number] = seen.get(it.number, 0) + 1
        copy = f".{seen[it.number]}" if seen[it.number] > 1 else ""
        line = f".line{it.part.place.number}" if it.part else ""
        yield Symbol(f"loop.{it.number}{copy}{line}", it.header)


def mapping_of(bound: Bound) -> Iterator[Symbol]:
    """Where code begins, and where data within it."""
    for segment in (it for it in bound.segments if it.rights & X):
        begin = segment.start + -segment.start % 4
        memory = segment.memory[begin - segment.start:]
        words = ((at, word) for at, (word,) in zip(range(begin, segment.end - 3, 4), struct.iter_unpack("<I", memory[:len(memory) // 4 * 4])))
        for is_code, run in groupby(words, key=lambda it: it[0] in bound.counts.at or decode(it[1]) is not None):
            yield Symbol("$x" if is_code else "$d", next(run)[0])


def with_symbols(bound: Bound, data: bytes) -> bytes:
    """The bytes of the copy."""
    table, count = program_table(data)
    if count and table < HEADER and table + PROGRAM_HEADER * count > 0:
        raise OddImage("its program headers lie within the header of the file")
    sections = Sections(data)
    strings, symbols = Strings(), [*mapping_of(bound), *symbols_of(bound)]
    packed = [bytes(SYMBOL)]
    for it in sorted(symbols, key=lambda it: it.binding):
        packed.append(struct.pack("<3I2BH", strings.put(it.name), it.at, it.size, it.binding << 4 | it.kind, 0, sections.number_at(it.at)))
    local = 1 + sum(it.binding == LOCAL for it in symbols)
    number = len(sections.found)
    made = assembled(data, sections.found + [
        Section(".riscv.attributes", ATTRIBUTES, data=attributes()),
        Section(".symtab", SYMBOLS, data=b"".join(packed), link=number + 2, info=local, align=4, each=SYMBOL),
        Section(".strtab", STRINGS, data=bytes(strings.data)), Section(".shstrtab", STRINGS, data=b"")])
    if not is_same_image(data, made):
        raise OddImage("what is loaded of it lies within the header of the file, which changes")
    return made


def assembled(data: bytes, sections: list[Section]) -> bytes:
    """The file with these sections behind its bytes, and a header that says where they are."""
    names = Strings()
    places = [names.put(it.name) if it.name else 0 for it in sections]
    sections[-1].data = bytes(names.data)
    made = bytearray(data)
    for it in sections:
        if it.data is not None:
            made += bytes(-len(made) % max(it.align, 1))
            it.offset, it.size = len(made), len(it.data)
            made += it.data
    made += bytes(-len(made) % 4)
    struct.pack_into("<I", made, 32, len(made))
    struct.pack_into("<3H", made, 46, SECTION, len(sections), len(sections) - 1)
    for place, it in zip(places, sections):
        made += it.header(place)
    return bytes(made)


def is_same_image(one: bytes, other: bytes) -> bool:
    """Whether two files are loaded as the same image."""
    def parts(data: bytes) -> tuple[int, list[tuple[int, int, int, bytes]]]:
        entry, segments = read_image(data)
        return entry, [(it.start, it.end, it.rights, bytes(it.memory)) for it in segments]

    return parts(one) == parts(other)
