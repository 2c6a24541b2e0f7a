"""Images of any size with their reports, and their linear programs: the words of chunk.elf repeated, and an exit behind.

The certificate of one chunk is found exactly, by tests/certify.py. Every chunk has the same one, but that the potentials
of what isn't called are higher by the cycles of all chunks that follow. So a report is written in one pass.
"""
import re
import struct
import sys
from pathlib import Path

HERE = Path(__file__).resolve().parent
sys.path.insert(0, str(HERE.parent / "tests"))
import certify  # noqa: E402
import machine  # noqa: E402
from certificates import finding  # noqa: E402
from simulator import flows, reports  # noqa: E402

TAIL = 8  # bytes of the exit
DATA = 0x2000_0000


class Chunk:
    """The words that are repeated, and the certificate of one of them with the exit behind it."""

    def __init__(self):
        image, claims = (HERE / "chunk.elf").read_bytes(), (HERE / "chunk.claims").read_text()
        entry, segments = machine.read_image(image)
        self.report = certify.read_claims(claims)
        self.report.version = 2
        finding.certify(entry, segments, self.report)
        code = next(it for it in segments if it.rights & machine.X)
        self.data = next(it for it in segments if it.rights & machine.W).memory
        self.code, self.tail = code.memory[:-TAIL], code.memory[-TAIL:]
        self.size = len(self.code)
        self.called = next(range(first, end) for name, first, end, _ in self.report.shares if name)
        potentials = dict(self.report.potentials)
        self.cycles = potentials[0] - potentials[self.size]
        assert self.report.scale == self.report.unit == 1


def image_of(chunk, count):
    """An executable of the chunks and the exit in flash, and the data of one chunk in RAM."""
    code = bytes(chunk.code) * count + bytes(chunk.tail)
    header = struct.pack("<16s2H5I6H", b"\x7fELF\1\1\1", 2, 243, 1, 0, 52, 0, 0, 52, 32, 2, 0, 0, 0)
    place = 52 + 2 * 32
    headers = struct.pack("<8I", 1, place, 0, 0, len(code), len(code), machine.R | machine.X, 1)
    size = len(chunk.data)
    headers += struct.pack("<8I", 1, place + len(code), DATA, DATA, size, size, machine.R | machine.W, 1)
    return header + headers + code + bytes(chunk.data)


def moved(line, base):
    """A line of a chunk's report for the chunk at another place."""
    return re.sub(r"\b[0-9a-f]{8}\b", lambda it: f"{int(it[0], 16) + base:08x}", line)


def lines_of(chunk, count):
    """The lines of the report in their order: each kind for all chunks, and then for the exit where it has some."""
    found, end = {}, chunk.size * count
    for line in reports.lines(chunk.report):
        found.setdefault(line.split(" ")[0], []).append(line)
    bases = range(0, end, chunk.size)
    here = {word: [it for it in found[word] if int(re.search(r"\b[0-9a-f]{8}\b", it)[0], 16) < chunk.size] for word in found
            if word not in ("version", "cycles", "kind", "scale", "unit", "end")}
    behind = {word: [moved(it, end - chunk.size) for it in found[word] if it not in here[word]] for word in here}
    yield from ("version 2", f"cycles {chunk.report.cycles + (count - 1) * chunk.cycles}", "kind greatest")
    for word in ("exit", "never", "region", "loop", "fact"):
        yield from (moved(it, base) for base in bases for it in here[word])
        yield from behind[word]
    yield "scale 1"
    for place, base in enumerate(bases):
        later = (count - 1 - place) * chunk.cycles
        for at, number in chunk.report.potentials:
            if at < chunk.size:
                yield f"potential {at + base:08x} {number + (0 if at in chunk.called else later)}"
    yield from behind["potential"]
    yield "unit 1"
    for base in bases:
        for at, number, part in chunk.report.flow:
            if at < chunk.size:
                yield f"flow {at + base:08x} {number} {part}"
    yield from behind["flow"]
    yield from (moved(it, base) for base in bases for it in here["share"])
    yield from behind["share"]
    yield "end"


def report_of(chunk, count):
    return "".join(f"{it}\n" for it in lines_of(chunk, count)).encode()


def program_of(chunk, count):
    """The linear program whose greatest value the report bounds, in CPLEX's format."""
    report = reports.read(report_of(chunk, count))
    system = flows.System(*machine.read_image(image_of(chunk, count)), report)
    rows, signs = finding.rows_of(system, report)
    entry = finding.places(system).index(system.entry)
    yield "Maximize"
    yield f" cycles: {sum_of((system.cost(it), at) for at, it in enumerate(system.moves))}"
    yield "Subject To"
    for at, (row, sign) in enumerate(zip(rows, signs)):
        yield f" r{at}: {sum_of((number, column) for column, number in row.items() if number)} {sign} {int(at == entry)}"
    yield "End"


def sum_of(terms):
    """The terms, a few on a line."""
    texts = [f"{'-' if number < 0 else '+'} {abs(number)} x{column}" for number, column in terms]
    return "\n  ".join(" ".join(texts[at:at + 8]) for at in range(0, len(texts), 8))
