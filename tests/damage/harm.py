"""Changes of bytes: of any file, of texts by their words and lines, and of images by their fields."""
import functools
import re
import struct

# Ends of ranges that formats and limits have, one past them, and numbers that no type holds.
ENDS = sorted({base + step for base in (0, 1, 2, 100, 1000, 1 << 7, 1 << 8, 1 << 15, 1 << 16, 1 << 31, 1 << 32, 1 << 48, 1 << 62, 1 << 63, 1 << 64,
                                        1 << 120, 1 << 126, 1 << 127, 1 << 128, 10**12, 10**40) for step in (-1, 0, 1)})
WORD = re.compile(rb"[A-Za-z_0-9]+|[^\sA-Za-z_0-9]")
ADDRESS = re.compile(rb"\b[0-9a-f]{8}\b")
NUMBER = re.compile(rb"(?<![A-Za-z_])\d+")
# The place and the size of each field of the header of a file, and of a program header.
HEADER = ((16, 2), (18, 2), (20, 4), (24, 4), (28, 4), (32, 4), (36, 4), (40, 2), (42, 2), (44, 2), (46, 2), (48, 2), (50, 2))
SEGMENT = tuple((place, 4) for place in range(0, 32, 4))


def slice_of(draw, data, most=200):
    begin = draw.randrange(len(data) + 1)
    return begin, min(len(data), begin + draw.randrange(most))


# Of any bytes.


def cut(draw, data):
    return data[:draw.randrange(len(data) + 1)]


def beheaded(draw, data):
    return data[draw.randrange(len(data) + 1):]


def bit_changed(draw, data):
    at = draw.randrange(max(1, len(data)))
    return data[:at] + bytes([data[at] ^ 1 << draw.randrange(8)]) + data[at + 1:] if data else data


def byte_changed(draw, data):
    at = draw.randrange(len(data) + 1)
    return data[:at] + bytes([draw.choice((0, 9, 10, 13, 32, 34, 127, 128, 255, draw.randrange(256)))]) + data[at + 1:]


def bytes_put_in(draw, data):
    at = draw.randrange(len(data) + 1)
    return data[:at] + bytes(draw.randrange(256) for _ in range(draw.randrange(1, 20))) + data[at:]


def doubled(draw, data):
    begin, end = slice_of(draw, data)
    return data[:end] + data[begin:]


def taken_out(draw, data):
    begin, end = slice_of(draw, data)
    return data[:begin] + data[end:]


def exchanged(draw, data):
    (a, b), (c, d) = sorted((slice_of(draw, data), slice_of(draw, data)))
    b = min(b, c)
    return data[:a] + data[c:d] + data[b:c] + data[a:b] + data[d:]


def repeated(draw, data):
    begin, end = slice_of(draw, data, 40)
    return data[:end] + data[begin:end] * draw.choice((2, 10, 1000)) + data[end:]


def twice(draw, data):
    return data + data


BYTES = (cut, beheaded, bit_changed, byte_changed, bytes_put_in, doubled, taken_out, exchanged, repeated, twice)


# Of texts.


@functools.lru_cache(64)
def spans(pattern, data):
    return [it.span() for it in pattern.finditer(data)]


def number_changed(draw, data):
    found = spans(NUMBER, data)
    if not found:
        return data
    begin, end = draw.choice(found)
    # A long run of digits is as good a number as a small one: Python reads those that it can.
    near = [int(data[begin:end]) + step for step in (-1, 1)] if end - begin < 1000 else []
    return data[:begin] + str(draw.choice([*ENDS, *near])).encode() + data[end:]


def word_taken_out(draw, data):
    begin, end = draw.choice(spans(WORD, data) or [(0, 0)])
    return data[:begin] + data[end:]


def word_doubled(draw, data):
    begin, end = draw.choice(spans(WORD, data) or [(0, 0)])
    return data[:end] + draw.choice((b"", b" ")) + data[begin:]


def words_exchanged(draw, data):
    found = spans(WORD, data)
    if len(found) < 2:
        return data
    (a, b), (c, d) = sorted(draw.sample(found, 2))
    return data[:a] + data[c:d] + data[b:c] + data[a:b] + data[d:]


def word_replaced(draw, data):
    """By another one of the text, which stays where it was."""
    found = spans(WORD, data)
    if len(found) < 2:
        return data
    (a, b), (c, d) = draw.sample(found, 2)
    return data[:a] + data[c:d] + data[b:]


def lines(data):
    return data.splitlines(keepends=True)


def line_taken_out(draw, data):
    rows = lines(data)
    if rows:
        del rows[draw.randrange(len(rows))]
    return b"".join(rows)


def line_doubled(draw, data):
    rows = lines(data)
    if rows:
        at = draw.randrange(len(rows))
        rows.insert(draw.choice((at, draw.randrange(len(rows)))), rows[at])
    return b"".join(rows)


def lines_exchanged(draw, data):
    rows = lines(data)
    if len(rows) > 1:
        a, b = draw.sample(range(len(rows)), 2)
        rows[a], rows[b] = rows[b], rows[a]
    return b"".join(rows)


def address_changed(draw, data):
    """To one near it, to an end of a region, or to another one of the text."""
    found = spans(ADDRESS, data)
    if not found:
        return data
    begin, end = draw.choice(found)
    old = int(data[begin:end], 16)
    new = draw.choice((old - 4, old + 4, old + 1, 0, 0x0FFFFFFC, 0x10000000, 0x80000000, 0xFFFFFFFC, 0xFFFFFFFF, int(data[slice(*draw.choice(found))], 16)))
    return data[:begin] + b"%08x" % (new & 0xFFFFFFFF) + data[end:]


WORDS = (number_changed, number_changed, word_taken_out, word_doubled, words_exchanged, word_replaced, line_taken_out, line_doubled, lines_exchanged)
REPORTS = (*WORDS, address_changed, address_changed)


# Of images.


def fields(data):
    if len(data) < 52:
        return []
    first, count = struct.unpack_from("<I", data, 28)[0], struct.unpack_from("<H", data, 44)[0]
    segments = [first + 32 * it for it in range(count)]
    return [*HEADER, *((at + place, size) for at in segments for place, size in SEGMENT if at + 32 <= len(data))]


def memory_of(data):
    """How many bytes an image wants of the machine's memory, by its program headers."""
    first, count = struct.unpack_from("<I", data, 28)[0], struct.unpack_from("<H", data, 44)[0]
    places = (first + 32 * it for it in range(count))
    return sum(struct.unpack_from("<I", data, at + 20)[0] for at in places if at + 32 <= len(data))


def field_changed(draw, data):
    found = fields(data)
    if not found:
        return data
    at, size = draw.choice(found)
    old, most = int.from_bytes(data[at:at + size], "little"), (1 << 8 * size) - 1
    new = draw.choice((0, 1, most, most >> 1, (most >> 1) + 1, old + 1, old - 1, old + 4, old - 4, old << 1, old >> 1, len(data), len(data) + 1))
    return data[:at] + (new & most).to_bytes(size, "little") + data[at + size:]


def fields_exchanged(draw, data):
    found = [it for it in fields(data) if it[1] == 4]
    if len(found) < 2:
        return data
    (a, _), (b, _) = draw.sample(found, 2)
    made = bytearray(data)
    made[a:a + 4], made[b:b + 4] = data[b:b + 4], data[a:a + 4]
    return bytes(made)


def code_changed(draw, data):
    """A bit of one of the words behind the headers."""
    if len(data) < 120:
        return data
    at = draw.randrange(84, len(data))
    return data[:at] + bytes([data[at] ^ 1 << draw.randrange(8)]) + data[at + 1:]


FIELDS = (field_changed, field_changed, field_changed, fields_exchanged, code_changed, code_changed)


def harmed(draw, data, ways, others):
    """One to three changes, one of them likely, by any of these ways or those of any bytes; and seldom another file altogether."""
    if draw.random() < 0.01:
        return draw.choice(others)
    for _ in range(draw.choice((1, 1, 1, 2, 3))):
        data = draw.choice((*ways, *ways, *BYTES))(draw, data)
    return data


# Of numbers among words.


def number_of_word(draw, text):
    """A number as it may be written, at an end of a range, or no number at all."""
    number = draw.choice((*ENDS, *(it + step for it in (64, 100, 10000, 65536, 1 << 62) for step in (-1, 0, 1)), draw.randrange(120)))
    return draw.choice(("{}", "{}", "{}", "+{}", "00{}", "-{}", "0x{}", "{} ", " {}", "{}.0", "{}e1", "", "+", "++{}", "{}_0", "1{}")).format(number)
