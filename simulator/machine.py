"""The machine of docs/MACHINE.md."""
from .costs import DEFAULT
from .decoder import MASK, decode, reads, signed
from .images import R, W, X, region_of

OUTPUT_MOST = 16_777_216  # bytes
LIMIT = 1_000_000_000  # cycles
DONE, STOPPED = 0, 8  # the statuses of an ending


class Ending(Exception):
    """How a run ends, as the line that is printed and the status."""

    def __init__(self, line, status):
        super().__init__(line)
        self.line, self.status = line, status


class Machine:
    """Each step tests for its trap first, pays then, and changes the state last."""

    def __init__(self, entry, segments, data, limit=LIMIT, costs=DEFAULT):
        self.pc, self.x, self.segments = entry, [0] * 32, segments
        self.data, self.taken, self.output = data, 0, bytearray()
        self.cycles, self.limit, self.costs = 0, limit, costs
        self.loaded = 0  # the register that the step before loaded, or 0
        self.waits = False  # whether the instruction of this step reads it

    def stop(self, word):
        raise Ending(f"{word} at {self.pc:08x} cycles {self.cycles}", STOPPED)

    def trap(self, kind):
        self.stop(f"trap {kind}")

    def segment(self, address, size, right):
        """The segment with that right that holds all these bytes, or None."""
        return next((it for it in self.segments if it.rights & right and it.holds(address, size)), None)

    def pay(self, kind, region=None):
        costs = self.costs
        cost = costs.fetch[region_of(self.pc)] + costs.of[kind] + (costs.access[region] if region else 0) + costs.stall * self.waits
        if self.cycles + cost > self.limit:
            self.stop("limit")
        self.cycles += cost

    def put(self, rd, value):
        if rd:
            self.x[rd] = value & MASK

    def access(self, kind, address, size, right, trap):
        """The segment of an access and the place within it, when the access is paid."""
        if address % size:
            self.trap(5)
        segment = self.segment(address, size, right)
        if segment is None:
            self.trap(trap)
        self.pay(kind, region_of(address))
        return segment, address - segment.start

    def ecall(self):
        service = self.x[17]
        if service > 2:
            self.trap(6)
        if service == 2 and len(self.output) == OUTPUT_MOST:
            self.stop("full")
        self.pay("ecall")
        if service == 0:
            raise Ending(f"exit {signed(self.x[10])} cycles {self.cycles}", DONE)
        if service == 1:
            left = self.taken < len(self.data)
            self.put(10, self.data[self.taken] if left else -1)
            self.taken += left
        else:
            self.put(10, self.x[10] % 256)
            self.output.append(self.x[10])

    def step(self):
        code = None if self.pc % 4 else self.segment(self.pc, 4, X)
        if code is None:
            self.trap(1)
        at = self.pc - code.start
        parts = decode(int.from_bytes(code.memory[at:at + 4], "little"))
        following = self.pc + 4
        self.waits = self.loaded != 0 and self.loaded in reads(parts)
        match parts:
            case None:
                self.trap(2)
            case ("immediate", operation, rd, rs1, imm):
                self.pay("alu")
                self.put(rd, operation(self.x[rs1], imm))
            case ("alu" | "mul" | "div" as kind, operation, rd, rs1, rs2):
                self.pay(kind)
                self.put(rd, operation(self.x[rs1], self.x[rs2]))
            case ("branch", test, rs1, rs2, offset):
                taken = test(self.x[rs1], self.x[rs2])
                self.pay("branch_taken" if taken else "branch")
                following = self.pc + offset if taken else following
            case ("load", rd, rs1, imm, size, extended, _):
                segment, place = self.access("load", self.x[rs1] + imm & MASK, size, R, 3)
                value = int.from_bytes(segment.memory[place:place + size], "little")
                self.put(rd, signed(value, 8 * size) if extended else value)
            case ("store", rs2, rs1, imm, size, _):
                segment, place = self.access("store", self.x[rs1] + imm & MASK, size, W, 4)
                segment.memory[place:place + size] = self.x[rs2].to_bytes(4, "little")[:size]
            case ("jump", rd, rs1, offset):
                self.pay("jump")
                target = self.pc + offset if rs1 is None else self.x[rs1] + offset & ~1
                self.put(rd, following)
                following = target
            case ("upper", rd, relative, imm):
                self.pay("alu")
                self.put(rd, imm + (self.pc if relative else 0))
            case ("ecall",):
                self.ecall()
        self.pc = following & MASK
        self.loaded = parts[1] if parts[0] == "load" else 0


def ending_of(machine):
    try:
        while True:
            machine.step()
    except Ending as ending:
        return ending
