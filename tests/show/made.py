"""Images and reports that no compiler made: many functions with a loop each, and main, which calls each of them once.

The code is written by hand from docs/MACHINE.md, and the certificate by the rows of docs/CHECKING.md, as that page's second example
has them.
"""
import struct

TURNS = 10
ADDI_1, ADDI_BACK, BEQ_8, JAL_BACK, RETURN = 0x00A00293, 0xFFF28293, 0x00028463, 0xFF9FF06F, 0x00008067
NOP, ECALL, AUIPC_RA, JALR_RA = 0x00000013, 0x00000073, 0x00000097, 0x000080E7
SIMPLE, BRANCH, TAKEN, JUMP, LEAVE = 4, 4, 5, 5, 13  # what moves cost in flash
TURN = SIMPLE + BRANCH + JUMP


class Made:
    """So many functions with so much straight code in each; `image` and `report` are the files."""

    def __init__(self, count, straight):
        self.words, self.potentials, self.flow, self.loops, self.shares = [], [], [], [], []
        firsts, worth = [], []
        for _ in range(count):
            firsts.append(4 * len(self.words))
            worth.append(self.function(straight))
        self.entry = 4 * len(self.words)
        self.bound = self.main(firsts, worth)
        self.image, self.report = self.elf(), self.text()

    def put(self, word, potential, *parts):
        at = 4 * len(self.words)
        self.words.append(word)
        self.potentials.append((at, potential))
        self.flow += [(at, number, part) for number, part in enumerate(parts) if part]
        return at

    def function(self, straight):
        """Straight code, a loop, and the return: what a call takes."""
        first = 4 * len(self.words)
        branch = JUMP + TAKEN
        head = branch + SIMPLE + TURN * (TURNS - 1)
        for number in range(straight + 1):
            self.put(NOP if number < straight else ADDI_1, head + SIMPLE * (straight + 1 - number), 1)
        header = self.put(ADDI_BACK, head, TURNS)
        self.put(BEQ_8, branch, TURNS - 1, 1)
        back = self.put(JAL_BACK, branch - BRANCH, TURNS - 1)
        self.put(RETURN, JUMP, 1)
        self.loops.append(f"loop {len(self.loops) + 1} 1 {TURNS} {TURNS} {header:08x} {back:08x} 0 {TURN}")
        cycles = head + SIMPLE * (straight + 1)
        self.shares.append((f"f{len(self.shares)}", first, 4 * len(self.words), cycles))
        return cycles

    def main(self, firsts, worth):
        first = 4 * len(self.words)
        left = LEAVE + sum(worth) + len(worth) * (SIMPLE + JUMP)
        bound = left
        for to, cycles in zip(firsts, worth):
            offset = to - 4 * len(self.words)
            upper = offset + 0x800 >> 12
            self.put(AUIPC_RA | (upper & 0xFFFFF) << 12, left, 1)
            self.put(JALR_RA | (offset - (upper << 12) & 0xFFF) << 20, left - SIMPLE, 1)
            left -= SIMPLE + JUMP + cycles
        self.exit = self.put(ECALL, left, 1)
        self.shares.append(("-", first, 4 * len(self.words), len(firsts) * (SIMPLE + JUMP) + LEAVE))
        return bound

    def elf(self):
        code = struct.pack(f"<{len(self.words)}I", *self.words)
        head = b"\x7fELF\1\1\1" + bytes(9) + struct.pack("<2H5I6H", 2, 243, 1, self.entry, 52, 0, 0, 52, 32, 1, 0, 0, 0)
        return head + struct.pack("<8I", 1, 84, 0, 0, len(code), len(code), 5, 1) + code

    def text(self, more=()):
        lines = ["version 2", f"cycles {self.bound}", "kind greatest"]
        lines += [f"copy {name} {first:08x}" for name, first, _, _ in self.shares if name != "-"]
        lines += [f"exit {self.exit:08x}", *self.loops, "scale 1"]
        lines += [f"potential {at:08x} {number}" for at, number in self.potentials]
        lines += ["unit 1", *(f"flow {at:08x} {number} {part}" for at, number, part in self.flow)]
        lines += [f"share {name} {first:08x} {end:08x} {cycles}" for name, first, end, cycles in [*self.shares, *more]]
        return "\n".join([*lines, "end", ""]).encode()
