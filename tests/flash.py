"""Images of a few words, as tests need them."""
import struct


def image_of(words, entry=0):
    """An executable of one segment at address 0, to be read and executed."""
    segment = struct.pack(f"<{len(words)}I", *words)
    ident = b"\x7fELF" + bytes([1, 1, 1])  # 32 bits, little-endian, version 1
    header = struct.pack("<16s2H5I6H", ident, 2, 243, 1, entry, 52, 0, 0, 52, 32, 1, 0, 0, 0)
    program_header = struct.pack("<8I", 1, 52 + 32, 0, 0, len(segment), len(segment), 5, 1)
    return header + program_header + segment
