#!/usr/bin/env python3
"""Makes the images that no linker makes, for the cases run_image_..: refused ones, and odd ones that are read.

    odd.py

It writes given/a.elf of each of these cases. The images are kept there, so that only who changes one has to run it. The
code of most exits with 7 after 21 cycles.
"""
import struct
from pathlib import Path

CASES = Path(__file__).resolve().parent.parent / "cases"
X, W, R = 1, 2, 4
FLASH, SPM, RAM = 0x0000_0000, 0x1000_0000, 0x2000_0000
FLASH_END, SPM_END = FLASH + (8 << 20), SPM + (64 << 10)
NOTE = 4  # a type of segment that isn't loaded
EXIT = (0x00000893, 0x00000073)  # x17 is 0, and the value is in x10
ELF = b"\x7fELF"
IDENT = ELF + b"\x01\x01\x01" + bytes(9)


def words(*code):
    return struct.pack(f"<{len(code)}I", *code)


EXIT_7 = words(0x00700513, *EXIT)


def segment(start, data=b"", rights=R, size=None, kind=1, at=None, length=None, rest=(0, 1)):
    """A segment of these bytes. `at` and `length` say of its header another place and number of bytes than they have."""
    return {"start": start, "data": data, "rights": rights, "size": len(data) if size is None else size, "kind": kind,
            "at": at, "length": len(data) if length is None else length, "rest": rest}


CODE = segment(FLASH, EXIT_7, R | X)


def image(*segments, ident=IDENT, kind=2, machine=243, version=1, entry=FLASH, table=52, sections=0, flags=0,
          sizes=(52, 32), count=None, rest=(0, 0, 0), tail=b""):
    """A header, what fills up to the table, the table of headers, and the segments' bytes, one behind the other."""
    count = len(segments) if count is None else count
    fields = (kind, machine, version, entry, table, sections, flags, *sizes, count, *rest)
    header = struct.pack("<16s2H5I6H", ident, *fields)
    data, headers, place = b"", b"", table + 32 * len(segments)
    for it in segments:
        at = place + len(data) if it["at"] is None else it["at"]
        physical, alignment = it["rest"]
        fields = (it["kind"], at, it["start"], physical, it["length"], it["size"], it["rights"], alignment)
        headers += struct.pack("<8I", *fields)
        data += it["data"]
    return header + bytes(max(0, table - 52)) + headers + data + tail


def put(name, data):
    given = CASES / f"run_image_{name}" / "given"
    given.mkdir(parents=True, exist_ok=True)
    (given / "a.elf").write_bytes(data)


GOOD = image(CODE)

# No ELF of 32 bits, or its headers aren't whole: refused image-1.
put("1_empty", b"")
put("1_51_bytes", image(sizes=(52, 0))[:51])
put("1_magic", b"\x7fELf" + GOOD[4:])
put("1_64_bits", image(CODE, ident=ELF + b"\x02\x01\x01" + bytes(9)))
put("1_big_endian", image(CODE, ident=ELF + b"\x01\x02\x01" + bytes(9)))
put("1_version", image(CODE, ident=ELF + b"\x01\x01\x00" + bytes(9)))
put("1_header_size", image(CODE, sizes=(52, 40)))
put("1_headers_pass_end", image(segment(FLASH), count=2, tail=bytes(31)))
put("1_headers_far", image(CODE)[:28] + struct.pack("<I", 0xFFFF_FFFF) + image(CODE)[32:])
put("1_before_2", image(CODE, machine=62, sizes=(52, 40)))

# Not an executable for RISC-V: refused image-2.
put("2_machine", image(CODE, machine=62))
put("2_type", image(CODE, kind=3))
put("2_before_3", image(segment(RAM, EXIT_7, R | X), machine=62))

# A bad segment: refused image-3 at its index.
put("3_bytes_pass_end", image(CODE, segment(RAM, bytes(4), length=5, size=8)))
put("3_bytes_far", image(CODE, segment(RAM, bytes(4), at=0xFFFF_FFFF)))
put("3_more_bytes_than_memory", image(CODE, segment(RAM, bytes(8), size=7)))
put("3_over_flash_end", image(CODE, segment(FLASH_END - 4, bytes(5))))
put("3_over_scratchpad_end", image(CODE, segment(SPM_END - 4, size=5)))
put("3_over_ram_end", image(CODE, segment(RAM + 4, size=2 << 20)))
put("3_before_ram", image(CODE, segment(RAM - 1, bytes(2))))
put("3_in_no_region", image(CODE, segment(0x8000_0000, bytes(4))))
put("3_round_the_end", image(segment(0xFFFF_FFFC, bytes(8)), CODE))
put("3_write_and_execute", image(CODE, segment(SPM, EXIT_7, R | W | X)))
put("3_write_and_execute_empty", image(CODE, segment(SPM, rights=W | X)))
put("3_execute_in_ram", image(CODE, segment(RAM, EXIT_7, R | X)))
put("3_write_in_flash", image(CODE, segment(FLASH + 64, bytes(4), R | W)))
put("3_overlap", image(CODE, segment(FLASH + 11, bytes(1))))
put("3_overlap_around", image(segment(RAM + 8, bytes(4)), segment(RAM, bytes(16)), CODE))
put("3_seventeenth", image(CODE, *(segment(RAM + 4 * it, bytes(4)) for it in range(16))))
put("3_seventeenth_empty", image(CODE, *(segment(RAM) for _ in range(16))))
put("3_index_of_all", image(segment(RAM, bytes(4), kind=NOTE), CODE, segment(FLASH, size=9, kind=0),
                            segment(SPM - 1, size=1)))
put("3_first_of_two", image(CODE, segment(RAM, bytes(8), size=7), segment(RAM, EXIT_7, R | X)))

# Odd, but read.
put("no_segments", image(table=0xFFFF_FFFF, sizes=(52, 0))[:52])
put("other_fields", image(CODE, ident=ELF + b"\x01\x01\x01" + bytes(range(9)), version=9, flags=5, sizes=(0, 32),
                          rest=(40, 7, 6), sections=0xFFFF_FFF0))
put("other_types", image(segment(0x8000_0000, bytes(4), W | X, kind=NOTE, at=0xFFFF_FFFF), CODE,
                         segment(FLASH, bytes(4), kind=0)))
put("other_address_and_alignment", image(segment(FLASH, EXIT_7, R | X, rest=(RAM, 3))))
put("table_elsewhere", image(CODE, table=97, tail=b"behind"))
put("empty_segments", image(CODE, segment(RAM, rights=R | X), segment(FLASH + 4, rights=R | W), segment(0x8000_0000),
                            segment(0xFFFF_FFFF, at=0xFFFF_FFFF)))
# Sixteen segments, the highest first. The code reads the last of them, whose word is 7.
put("sixteen_segments", image(
    segment(SPM, words(0x00802503, *EXIT), R | X), *(segment(FLASH + 64 - 4 * it, words(21 - it)) for it in range(15)),
    entry=SPM))
# A segment is its bytes and then zeros: the whole RAM, of which one byte is given. The code adds 5 to its last word, and
# then sums the first and the last.
put("whole_ram", image(
    segment(FLASH, words(0x200005B7, 0x20200637, 0x0005A503, 0xFFC62683, 0x00568693, 0xFED62E23, 0xFFC62683, 0x00D50533,
                         *EXIT), R | X),
    segment(RAM, b"\x25", R | W, size=2 << 20)))
# Code runs from the last word of flash on.
put("flash_end", image(segment(FLASH_END - 4, words(0x00000013), R | X), entry=FLASH_END - 4))
# Addresses are taken modulo 2^32: with -4 in x5 the code reads the 7 at 24 and jumps to 16.
put("addresses_round_the_end", image(
    segment(FLASH, words(0xFFC00293, 0x01C2A503, 0x01428067, 0, *EXIT, 7), R | X)))
put("jump_before_start", image(segment(FLASH, words(0xFFDFF06F), R | X)))
# A word that lies in two segments lies wholly in none.
put("word_in_two_code_segments", image(segment(FLASH, EXIT_7[:2], R | X), segment(FLASH + 2, EXIT_7[2:], R | X)))
put("word_in_two_data_segments", image(
    segment(FLASH, words(0x200005B7, 0x0005A503, *EXIT), R | X), segment(RAM, bytes(2)), segment(RAM + 2, bytes(2))))
put("entry_odd", image(CODE, entry=1))
put("entry_nowhere", image(CODE, entry=FLASH + 12))
put("code_in_scratchpad", image(segment(SPM, EXIT_7, X), entry=SPM))

# Words without a row, where one field is wrong.
NO_ROW = {
    "jalr_1": 0x00001067, "branch_2": 0x00002063, "branch_3": 0x00003063, "load_6": 0x00006003, "store_3": 0x00003023,
    "slli_20": 0x40001013, "srli_10": 0x20005013, "sll_20": 0x40001033, "and_20": 0x40007033, "add_02": 0x04000033,
    "mul_03": 0x06000033, "opcode": 0x0000001B, "all_bits": 0xFFFFFFFF,
}
for name, word in NO_ROW.items():
    put(f"no_row_{name}", image(segment(FLASH, words(word), R | X)))
