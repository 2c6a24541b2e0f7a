"""The instructions of docs/MACHINE.md: what a word does, and how an assembler writes it."""
from functools import lru_cache

MASK = 0xFFFF_FFFF


def signed(value, bits=32):
    """The number of the low bits in two's complement."""
    value &= (1 << bits) - 1
    return value - (1 << bits) if value >> bits - 1 else value


def quotient(a, b):
    """Division towards zero, and all bits set by zero."""
    if b == 0:
        return -1
    return abs(a) // abs(b) * (1 if (a < 0) == (b < 0) else -1)


def remainder(a, b):
    return a - b * quotient(a, b)


def named(table):
    """The functions of a table from names, in which each bears its name."""
    for name, (_, function) in table.items():
        function.__name__ = name
    return {key: function for key, function in table.values()}


BRANCHES = named({
    "beq": (0, lambda a, b: a == b), "bne": (1, lambda a, b: a != b),
    "blt": (4, lambda a, b: signed(a) < signed(b)), "bge": (5, lambda a, b: signed(a) >= signed(b)),
    "bltu": (6, lambda a, b: a < b), "bgeu": (7, lambda a, b: a >= b),
})
# Bytes, whether a sign is extended, and the name.
LOADS = {0: (1, True, "lb"), 1: (2, True, "lh"), 2: (4, False, "lw"), 4: (1, False, "lbu"), 5: (2, False, "lhu")}
STORES = {0: (1, "sb"), 1: (2, "sh"), 2: (4, "sw")}
# By funct3 and funct7. Values are unsigned; what comes out is taken modulo 2^32.
OPERATIONS = named({
    "add": ((0, 0x00), lambda a, b: a + b), "sub": ((0, 0x20), lambda a, b: a - b),
    "sll": ((1, 0x00), lambda a, b: a << (b & 31)),
    "slt": ((2, 0x00), lambda a, b: signed(a) < signed(b)), "sltu": ((3, 0x00), lambda a, b: a < b),
    "xor": ((4, 0x00), lambda a, b: a ^ b),
    "srl": ((5, 0x00), lambda a, b: a >> (b & 31)), "sra": ((5, 0x20), lambda a, b: signed(a) >> (b & 31)),
    "or": ((6, 0x00), lambda a, b: a | b), "and": ((7, 0x00), lambda a, b: a & b),
})
PRODUCTS = named({
    "mul": (0, lambda a, b: a * b), "mulh": (1, lambda a, b: signed(a) * signed(b) >> 32),
    "mulhsu": (2, lambda a, b: signed(a) * b >> 32), "mulhu": (3, lambda a, b: a * b >> 32),
    "div": (4, lambda a, b: quotient(signed(a), signed(b))), "divu": (5, lambda a, b: quotient(a, b)),
    "rem": (6, lambda a, b: remainder(signed(a), signed(b))), "remu": (7, lambda a, b: remainder(a, b)),
})


@lru_cache(maxsize=None)
def decode(word):
    """What the word does, as a class and what its execution looks at, or None where it has no row."""
    opcode, funct3, funct7 = word & 0x7F, word >> 12 & 7, word >> 25
    rd, rs1, rs2 = word >> 7 & 31, word >> 15 & 31, word >> 20 & 31
    imm_i = signed(word >> 20, 12)
    if word == 0x73:
        return ("ecall",)
    if opcode in (0x37, 0x17):
        return ("upper", rd, opcode == 0x17, word & 0xFFFF_F000)
    if opcode == 0x6F:
        imm_j = word >> 31 << 20 | (word >> 12 & 0xFF) << 12 | (word >> 20 & 1) << 11 | (word >> 21 & 0x3FF) << 1
        return ("jump", rd, None, signed(imm_j, 21))
    if opcode == 0x67 and funct3 == 0:
        return ("jump", rd, rs1, imm_i)
    if opcode == 0x63 and funct3 in BRANCHES:
        imm_b = word >> 31 << 12 | (word >> 7 & 1) << 11 | (word >> 25 & 0x3F) << 5 | (word >> 8 & 0xF) << 1
        return ("branch", BRANCHES[funct3], rs1, rs2, signed(imm_b, 13))
    if opcode == 0x03 and funct3 in LOADS:
        return ("load", rd, rs1, imm_i, *LOADS[funct3])
    if opcode == 0x23 and funct3 in STORES:
        return ("store", rs2, rs1, signed(funct7 << 5 | rd, 12), *STORES[funct3])
    if opcode == 0x13:
        shift = funct3 in (1, 5)
        operation = OPERATIONS.get((funct3, funct7 if shift else 0))
        return operation and ("immediate", operation, rd, rs1, rs2 if shift else imm_i & MASK)
    if opcode == 0x33 and funct7 == 1:
        return ("mul" if funct3 < 4 else "div", PRODUCTS[funct3], rd, rs1, rs2)
    operation = OPERATIONS.get((funct3, funct7))
    return ("alu", operation, rd, rs1, rs2) if opcode == 0x33 and operation else None


def reads(parts):
    """The registers that an instruction reads."""
    match parts:
        case ("immediate", _, _, rs1, _) | ("jump", _, rs1, _) | ("load", _, rs1, *_):
            return {rs1}
        case ("branch", _, rs1, rs2, _) | ("store", rs2, rs1, *_) | ("alu" | "mul" | "div", _, _, rs1, rs2):
            return {rs1, rs2}
        case ("ecall",):
            return {10, 17}
    return set()


def text_of(parts, at):
    """The instruction at an address as an assembler writes it: the name, and what it works on, targets as addresses."""
    match parts:
        case ("immediate", operation, rd, rs1, imm):
            name = {"sltu": "sltiu"}.get(operation.__name__, f"{operation.__name__}i")
            return name, f"x{rd}, x{rs1}, {signed(imm)}"
        case ("alu" | "mul" | "div", operation, rd, rs1, rs2):
            return operation.__name__, f"x{rd}, x{rs1}, x{rs2}"
        case ("branch", test, rs1, rs2, offset):
            return test.__name__, f"x{rs1}, x{rs2}, {at + offset & MASK:08x}"
        case ("load", rd, rs1, imm, *_, name):
            return name, f"x{rd}, {imm}(x{rs1})"
        case ("store", rs2, rs1, imm, _, name):
            return name, f"x{rs2}, {imm}(x{rs1})"
        case ("jump", rd, None, offset):
            return "jal", f"x{rd}, {at + offset & MASK:08x}"
        case ("jump", rd, rs1, offset):
            return "jalr", f"x{rd}, {offset}(x{rs1})"
        case ("upper", rd, relative, imm):
            return "auipc" if relative else "lui", f"x{rd}, 0x{imm >> 12:x}"
        case ("ecall",):
            return "ecall", ""
    return "none", ""
