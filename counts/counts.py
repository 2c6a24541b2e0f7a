"""Counts what a source does on some inputs: counts.py PROGRAM SOURCE INPUT .., where PROGRAM is a built wcc.

For each loop it says how often its body started in one entry, the fewest and the most; for each function and marker how
often a run came there; and how near the restrictions came. Then come the bounds that would say so, and the restrictions that would
lower the bound of `compile`. All of that was seen on these inputs, and nothing of it is proved. README.md beside this file says more.
"""
import os
import sys

TOP = os.path.dirname(os.path.dirname(os.path.realpath(__file__)))
sys.path[:0] = [TOP, os.path.join(TOP, "explain")]
import guard  # noqa: E402
import tempfile  # noqa: E402
from collections.abc import Iterable  # noqa: E402

import explain  # noqa: E402
from counts.proposals import proposals  # noqa: E402
from counts.said import Report  # noqa: E402
from counts.seen import Seen  # noqa: E402
from counts.writing import Unwritten, with_bounds, write_new, write_own  # noqa: E402
from evaluator import with_deep_stack  # noqa: E402
from evaluator.answer import DONE, FAULTS, MOST_INPUT, MOST_SOURCE, STOPPED, line_of, within  # noqa: E402
from evaluator.rules import MOST  # noqa: E402
from places import printable  # noqa: E402

USAGE, READ_FAULT, WRITE_FAULT = 2, 4, 5
CALLED = "wcc counts SOURCE INPUT .. [--derive] [--table FILE] [--inline N] [--unroll K] [--spm B] [--write [OUT]]"
HELP = [
    "Runs the source on each input, and says how often its loops started in one entry, how often functions and markers came, how",
    "near the restrictions were, which bounds would say so, and which restrictions would lower the bound that `compile` prints.",
    "Loops may lack their bounds. All of it is seen on these inputs alone, and nothing of it is proved.",
    "With --derive loops that count have the bounds of their form. The other options are those of `compile`, for the bounds that it",
    "prints. --write as the last word writes the bounds that were seen into your own files, before the loops that have none; --write",
    "OUT makes a source OUT with them instead.",
    "The status is 0 where each run ended and kept the annotations, 8 where one didn't, 1 where the source is refused, 2 where words",
    "are wrong, 3 and 4 as of `eval`, 5 where something can't be written, and 70 where there is no Python or no program.",
    "counts/README.md shows an example.",
]
OWN = ""
OPTIONS = explain.OPTIONS["compile"]


class Silent(Exception):
    """Standard output can't be written."""


def tell(lines: Iterable[str]) -> None:
    try:
        for line in lines:
            sys.stdout.buffer.write((line + "\n").encode(errors="replace"))
        sys.stdout.buffer.flush()
    except OSError as error:
        # Else Python would write at its end what is left.
        os.dup2(os.open(os.devnull, os.O_WRONLY), sys.stdout.fileno())
        raise Silent from error


class Wrong(Exception):
    """The words aren't those of a call: why, where that can be said."""


class Words:
    """The words of a call: files, and options of `compile`. `out` is None where nothing is written, OWN where that goes into the user's files."""

    def __init__(self, given: list[str]) -> None:
        self.names: list[str] = []
        self.options: list[str] = []
        self.out: str | None = None
        left = [*reversed(given)]
        while left:
            word = left.pop()
            if word in OPTIONS and word not in self.options:
                self.options += [word] if OPTIONS[word] == explain.FLAG else [word, self.value(word, left.pop() if left else None)]
            elif word == "--write" and len(left) <= 1:
                self.out = left.pop() if left else OWN
            elif word.startswith("-"):
                raise Wrong
            else:
                self.names.append(word)
        if len(self.names) < 2 or (self.out or "").startswith("-"):
            raise Wrong

    @staticmethod
    def value(option: str, value: str | None) -> str:
        if wrong := explain.wrong_value(OPTIONS[option], value):
            raise Wrong(f"{option} {wrong}")
        return value


def read(path: str, most: int) -> bytes:
    """A file, or its first bytes, one more than it may have."""
    try:
        with open(path, "rb") as file:
            return file.read(most + 1)
    except (OSError, ValueError) as error:
        raise OSError(0, getattr(error, "strerror", None) or str(error), path) from None


def count(program: str, words: Words) -> int:
    path, *names = words.names
    if words.out and os.path.lexists(words.out):
        tell([f"wcc: `{printable(words.out)}` is there already, and only a new file is written."])
        return USAGE
    try:
        source = read(path, MOST_SOURCE)
        inputs = [(it, read(it, MOST_INPUT)) for it in names]
    except OSError as error:
        tell([f"wcc: `{printable(error.filename)}` can't be read: {error.strerror}."])
        return READ_FAULT
    try:
        within("source", MOST_SOURCE, source)
        for _, data in inputs:
            within("input", MOST_INPUT, data)
        seen = Seen(source, "--derive" in words.options, program)
    except FAULTS as fault:
        line, status = line_of(fault)
        tell([line, *explain.explained(explain.entries(), line, ["eval", path, names[0], ""])])
        return status
    report = Report(path, source)
    status = shown(report, seen, inputs)
    propose(program, words, report, seen, source)
    tell(report.unmarked(seen, len(inputs)))
    return written(words, report, seen, source, status)


def shown(report: Report, seen: Seen, inputs: list[tuple[str, bytes]]) -> int:
    """Says what is seen, input by input, and answers the status."""
    status = DONE
    tell(["Seen on these inputs, and not proved:"])
    for name, data in inputs:
        run, ended = seen.run(name, data)
        tell(report.run(name, run, ended))
        status = STOPPED if run.broken or not isinstance(ended, str) else status
    for part in (report.functions, report.loops, report.restrictions, report.pragmas):
        tell(part(seen))
    return status


def propose(program: str, words: Words, report: Report, seen: Seen, source: bytes) -> None:
    """Says which restrictions would lower the bound, where the source has one."""
    names = [name for at, name in seen.names() if not report.is_given(at)]
    if not names or not seen.runs or len(seen.facts.relations) >= MOST["restrictions"]:
        return
    with tempfile.TemporaryDirectory(prefix="wcc-counts-") as room:
        found = proposals(program, with_bounds(source, seen), words.options, names, seen.runs, room)
    if found is None:
        tell(["", "No restriction is looked for, since `compile` gives no bound: loops that were never entered need one too."])
    else:
        tell(report.proposed(*found))


def written(words: Words, report: Report, seen: Seen, source: bytes, status: int) -> int:
    try:
        if words.out == OWN:
            tell(["", *write_own(report, seen)])
        elif words.out is not None:
            write_new(words.out, with_bounds(source, seen))
    except Unwritten as why:
        tell([f"wcc: {why}."])
        return WRITE_FAULT
    return status


def main(words: list[str]) -> int:
    try:
        if words[1:] in (["--help"], ["-h"]):
            tell([CALLED, *HELP])
            return DONE
        try:
            asked = Words(words[1:])
        except Wrong as why:
            tell([*(f"wcc: {it}." for it in why.args), f"It is called so: {CALLED}"])
            return USAGE
        return with_deep_stack(lambda: count(words[0], asked))
    except Silent:
        return WRITE_FAULT


if __name__ == "__main__":
    guard.run(main)
