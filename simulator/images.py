"""The images of docs/FORMATS.md: the segments of an ELF file, in the regions of docs/MACHINE.md."""
import struct
from collections import namedtuple

SEGMENTS_MOST = 16
X, W, R = 1, 2, 4  # the rights of a segment
REGIONS = {"flash": (0x0000_0000, 8 << 20), "spm": (0x1000_0000, 64 << 10), "ram": (0x2000_0000, 2 << 20)}


HEADER, PROGRAM_HEADER = 52, 32  # bytes
LOADED = 1  # the type of a program header

Program = namedtuple("Program", "kind offset start physical file_size size rights alignment")


class BadImage(Exception):
    """The cause for which a file is no image, and the index of a bad segment, else 0."""

    def __init__(self, cause, index=0):
        super().__init__(f"image-{cause} {index}")
        self.cause, self.index = cause, index


class Segment:
    def __init__(self, start, size, rights, data):
        self.start, self.end, self.rights, self.filled = start, start + size, rights, len(data)
        self.memory = bytearray(data) + bytes(size - len(data))

    def holds(self, address, size):
        return self.start <= address and address + size <= self.end

    def overlaps(self, other):
        return max(self.start, other.start) < min(self.end, other.end)


def region_of(address, size=1):
    """The region that holds all the bytes from the address on, or None."""
    inside = (name for name, (start, room) in REGIONS.items() if start <= address and address + size <= start + room)
    return next(inside, None)


def is_bad(start, file_size, size, rights, ends, length):
    """Judges a segment by itself; its bytes end at that place of a file of that length."""
    region = region_of(start, size) if size else None
    return (file_size > 0 and ends > length or file_size > size or size > 0 and region is None
            or rights & W and rights & X or rights & X and region == "ram" or rights & W and region == "flash")


def program_table(data):
    """Where the program headers of an ELF file begin, and how many there are."""
    table, = struct.unpack_from("<I", data, 28)
    each, count = struct.unpack_from("<2H", data, 42)
    if count and (each != PROGRAM_HEADER or table + PROGRAM_HEADER * count > len(data)):
        raise BadImage(1)
    return table, count


def programs(data):
    """The program headers of an ELF file."""
    table, count = program_table(data)
    return [Program(*struct.unpack_from("<8I", data, table + PROGRAM_HEADER * index)) for index in range(count)]


def read_image(data):
    """The entry and the segments of an ELF image."""
    if len(data) < HEADER or data[:7] != b"\x7fELF\x01\x01\x01":
        raise BadImage(1)
    headers = programs(data)
    kind, machine, _, entry = struct.unpack_from("<2H2I", data, 16)
    if kind != 2 or machine != 243:
        raise BadImage(2)
    segments = []
    for index, it in enumerate(headers):
        if it.kind != LOADED:
            continue
        bad = is_bad(it.start, it.file_size, it.size, it.rights, it.offset + it.file_size, len(data)) or len(segments) == SEGMENTS_MOST
        one = None if bad else Segment(it.start, it.size, it.rights, data[it.offset:it.offset + it.file_size])
        if bad or any(one.overlaps(it) for it in segments):
            raise BadImage(3, index)
        segments.append(one)
    return entry, segments
