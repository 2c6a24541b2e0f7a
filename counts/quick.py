"""Runs that the program's own `eval` counts, some twenty times as quick as the second evaluator: by a source that counts itself.

That source does what the given one does, and behind it puts out its counts: how often each function and marker came, and of each loop
how often it was entered, and the fewest and the most starts of its body in one entry. No function calls itself, so that a loop is in one
entry at a time: its starts are taken in when it's entered again, and at the end. Whatever isn't a value to `eval` is left to the second
evaluator: a run that is undefined, breaks an annotation or takes long, and a source that gets too large by what is put in.
"""
import re
import resource
import struct
import subprocess
import tempfile
from pathlib import Path
from subprocess import DEVNULL, PIPE
from typing import NamedTuple

from evaluator import tree
from evaluator.spans import Spans, begin_of
from evaluator.tokens import tokens_of

# The seconds of a processor that such a run has.
SECONDS = 3
# As often a loop without a bound may start, tried in this order: too much for loops in each other, and `eval` refuses it.
STARTS = (1 << 23, 1 << 16, 1 << 12, 1 << 9)
TOO_MUCH = b"limit most "
VALUE = re.compile(rb"value (-?\d+) bytes (\d+)\n")
# What begins with @ is a name that the source hasn't.
HEAD = """static unsigned @calls[{calls}], @entries[{loops}], @starts[{loops}], @fewest[{loops}], @most[{loops}];
static void @take(int at)
{{
    if (@entries[at] == 1u || @starts[at] < @fewest[at]) @fewest[at] = @starts[at];
    if (@starts[at] > @most[at]) @most[at] = @starts[at];
}}
static void @enter(int at)
{{
    if (@entries[at]) @take(at);
    @starts[at] = 0u;
    @entries[at]++;
}}
static void @put(unsigned number)
{{
    putchar((int)(number & 255u));
    putchar((int)(number >> 8 & 255u));
    putchar((int)(number >> 16 & 255u));
    putchar((int)(number >> 24));
}}
"""
TAIL = """
int main(void)
{{
    int value = @main(), at;
    _Pragma("loopbound min {calls} max {calls}")
    for (at = 0; at < {calls}; at++) @put(@calls[at]);
    _Pragma("loopbound min {loops} max {loops}")
    for (at = 0; at < {loops}; at++) {{
        if (@entries[at]) @take(at);
        @put(@entries[at]);
        @put(@fewest[at]);
        @put(@most[at]);
    }}
    return value;
}}
"""
CLOSES, OPENS, NAMES = 0, 1, 2


class Counted(NamedTuple):
    """The line of a run, how often functions and markers came, and of each loop its entries, the fewest and the most starts in one."""
    line: str
    calls: tuple[int, ...]
    loops: list[tuple[int, ...]]


class Counters:
    """What is put into a source, by its places: there what closes comes before what opens, and that before a part of a name."""

    def __init__(self, source: bytes) -> None:
        tokens, number = tokens_of(source), 0
        while b"counted%d_" % number in source:
            number += 1
        self.source, self.prefix = source, f"counted{number}_"
        self.texts: list[tuple[int, int, str]] = []
        spans = Spans(tokens, len(source))
        nodes = list(tree.nodes_of(spans.unit()))
        self.last = spans.last
        self.functions = [it for it in nodes if isinstance(it, tree.Function)]
        self.markers = [it for it in nodes if isinstance(it, tree.Marker)]
        self.loops = [it for it in nodes if isinstance(it, tree.Loop)]
        # Behind a marker alone nothing can be put, since where its pragma ends isn't known.
        parts = [part for it in nodes if isinstance(it, (tree.If, tree.Loop)) for part in it.parts()]
        self.can_count = not any(isinstance(it, tree.Marker) for it in parts)
        for it in tokens:
            if it.kind == "name" and it.said == "main":
                self.put(it.at, "@", NAMES)
        # In the order of the source, so that at one place what is further out opens first.
        called = {it: at for at, it in enumerate([*self.functions, *self.markers])}
        loops = {it: at for at, it in enumerate(self.loops)}
        for it in nodes if self.can_count else []:
            if isinstance(it, tree.Function):
                self.count_function(it, called[it])
            elif isinstance(it, tree.Marker):
                self.put(it.at, f"@calls[{called[it]}]++;\n")
            elif isinstance(it, tree.Loop):
                self.count_loop(it, loops[it])

    def put(self, at: int, text: str, rank: int = OPENS) -> None:
        self.texts.append((at, rank, text))

    def count_function(self, function: tree.Function, number: int) -> None:
        self.put(function.body.at + 1, f"@calls[{number}]++;\n")
        if function.name == "main":
            # What `main` alone may do without.
            self.put(self.last[function.body], "return 0;\n")

    def count_loop(self, loop: tree.Loop, number: int) -> None:
        bound = '_Pragma("loopbound min 0 max $")\n' if loop.bound_at is None else ""
        self.put(begin_of(loop), f"{{@enter({number});\n{bound}")
        self.put(self.last[loop] + 1, "}", CLOSES)
        start = f"@starts[{number}]++;\n"
        if isinstance(loop.body, tree.Block):
            self.put(loop.body.at + 1, start)
        else:
            self.put(begin_of(loop.body), f"{{{start}")
            self.put(self.last[loop.body] + 1, "}", CLOSES)

    def text(self, starts: int) -> bytes:
        """The source that counts, in which loops without a bound may start so often."""
        def own(text: str) -> bytes:
            return text.replace("@", self.prefix).replace("$", str(starts)).encode()

        sizes = {"calls": len(self.functions) + len(self.markers), "loops": max(1, len(self.loops))}
        pieces, at = [own(HEAD.format(**sizes))], 0
        for place, _, text in sorted(self.texts, key=lambda it: it[:2]):
            pieces += [self.source[at:place], own(text)]
            at = place
        return b"".join([*pieces, self.source[at:], own(TAIL.format(**sizes))])


class Quick:
    """Runs of a source by a built wcc."""

    def __init__(self, program: str, source: bytes) -> None:
        self.program, self.counters, self.left = program, Counters(source), [*STARTS]
        if not self.counters.can_count:
            self.left = []

    def run(self, data: bytes) -> Counted | None:
        """What is counted of a run on an input, or None where the second evaluator must tell."""
        while self.left:
            line, output = self.ask(self.counters.text(self.left[0]), data)
            if line.startswith(TOO_MUCH):
                del self.left[0]
                continue
            if line.startswith((b"refused ", b"limit ")):
                self.left = []
            found = VALUE.fullmatch(line)
            return self.read(int(found[1]), output) if found else None
        return None

    def ask(self, source: bytes, data: bytes) -> tuple[bytes, bytes]:
        """The line of `eval` and the output."""
        with tempfile.TemporaryDirectory(prefix="wcc-counts-") as room:
            named = [Path(room, it) for it in ("a.c", "a.in", "a.out")]
            named[0].write_bytes(source)
            named[1].write_bytes(data)
            ran = subprocess.run([self.program, "eval", *named], stdin=DEVNULL, stdout=PIPE, stderr=DEVNULL, preexec_fn=limit)
            return ran.stdout, named[2].read_bytes() if ran.returncode == 0 else b""

    def read(self, value: int, output: bytes) -> Counted:
        calls, loops = len(self.counters.functions) + len(self.counters.markers), max(1, len(self.counters.loops))
        size = 4 * (calls + 3 * loops)
        numbers = struct.unpack(f"<{size // 4}I", output[len(output) - size:])
        threes = [numbers[at:at + 3] for at in range(calls, len(numbers), 3)]
        return Counted(f"value {value} bytes {len(output) - size}", numbers[:calls], threes[:len(self.counters.loops)])


def limit() -> None:
    """Has the system end a run that takes long."""
    resource.setrlimit(resource.RLIMIT_CORE, (0, 0))
    resource.setrlimit(resource.RLIMIT_CPU, (SECONDS, SECONDS))
