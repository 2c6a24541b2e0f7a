"""Functions of the low form for tests, as the crate `low_lines` reads them, and where their registers live, by trying the ways through the blocks."""


class Function:
    """Its parts, each with what it reads and writes."""

    def __init__(self, size, parameters, blocks):
        self.size, self.parameters, self.blocks = size, parameters, blocks

    def line(self):
        blocks = "; ".join(", ".join(part[0] for part in [*code, end]) for code, end in self.blocks)
        return f"{self.size}; {' '.join(f'r{it}' for it in self.parameters) or 'none'}; {blocks}"

    def is_live(self, register, block, at):
        """Whether some way from there reads it before it is written."""
        left, seen = [(block, at)], set()
        while left:
            block, at = left.pop()
            if block >= len(self.blocks):
                continue
            code, end = self.blocks[block]
            for _, reads, writes in code[at:]:
                if register in reads:
                    return True
                if register == writes:
                    break
            else:
                if register in end[1]:
                    return True
                left += [(it, 0) for it in end[2] if it not in seen]
                seen.update(end[2])
        return False

    def places(self, register):
        if register in self.parameters:
            yield 0
        place = 0
        for number, (code, end) in enumerate(self.blocks):
            for at, (_, _, writes) in enumerate(code):
                if writes == register or self.is_live(register, number, at + 1):
                    yield place
                place += 1
            if any(self.is_live(register, it, 0) for it in end[2]):
                yield place
            place += 1

    def interval(self, register):
        """Its least and its greatest place, or None where it has none."""
        places = list(self.places(register))
        return (places[0], places[-1]) if places else None

    def takes(self):
        """The place of each call, and of what the environment performs, and the register of its value."""
        place = 0
        for code, _ in self.blocks:
            for text, _, writes in code:
                if text.startswith(("call ", "put ", "get ")):
                    yield place, writes
                place += 1
            place += 1

    def calls(self):
        """The place of each call, and the register of its value."""
        place = 0
        for code, _ in self.blocks:
            for text, _, writes in code:
                if text.startswith("call "):
                    yield place, writes
                place += 1
            place += 1


def drawn(draw, registers=6, blocks=7, code=4, callees=1):
    """A function of at most so many registers, blocks and instructions in a block. Its blocks lead anywhere."""
    size, count = draw.randrange(1, registers + 1), draw.randrange(1, blocks + 1)
    register = lambda: draw.randrange(size)
    named = lambda it: f"r{it}"

    def operands(number):
        words = [named(register()) if draw.random() < 0.7 else str(draw.randrange(100)) for _ in range(number)]
        return words, {int(it[1:]) for it in words if it[0] == "r"}

    def address():
        words = [named(register()) if draw.random() < 0.5 else "o", named(register()) if draw.random() < 0.5 else "-"]
        return words, {int(it[1:]) for it in words if it[0] == "r"}

    def call():
        into = None if draw.random() < 0.3 else register()
        words, reads = operands(draw.randrange(4))
        return " ".join(["call", str(draw.randrange(callees)), "-" if into is None else named(into), *words]), reads, into

    def instr():
        kind = draw.choice(("set", "sum", "point", "load", "store", "put", "get", "call"))
        if kind == "call":
            return call()
        if kind == "store":
            (where, reads), (value, more) = address(), operands(1)
            return " ".join([kind, *where, *value]), reads | more, None
        if kind == "put":
            words, reads = operands(1)
            return " ".join([kind, *words]), reads, None
        into = register()
        words, reads = address() if kind in ("point", "load") else operands({"set": 1, "sum": 2, "get": 0}[kind])
        return " ".join([kind, named(into), *words]), reads, into

    def end():
        kind = draw.choice(("jump", "branch", "branch", "return"))
        words, reads = operands({"jump": 0, "branch": 2, "return": 1}[kind])
        to = [draw.randrange(count + (draw.random() < 0.1)) for _ in range({"jump": 1, "branch": 2, "return": 0}[kind])]
        return " ".join([kind, *words, *map(str, to)]), reads, to

    parts = [([instr() for _ in range(draw.randrange(code + 1))], end()) for _ in range(count)]
    return Function(size, [register() for _ in range(draw.randrange(3))], parts)
