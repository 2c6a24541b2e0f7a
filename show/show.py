"""Shows where the time of a bound goes: show.py PROGRAM IMAGE REPORT [OPTION..], where PROGRAM is a built wcc.

It has `wcc check` accept the report, and says then what its flow makes of functions, loops, markers and restrictions, and of each
instruction. It draws a page, writes a copy of the image with symbols, and looks whether a run keeps the claims. Nothing of it is
proved. README.md beside this file says more.
"""
import gc
import os
import signal
import sys
from collections.abc import Callable, Iterable
from pathlib import Path

TOP = Path(__file__).resolve().parent.parent
sys.path[:0] = [str(TOP), str(TOP / "explain"), str(Path(__file__).resolve().parent)]
import guard  # noqa: E402
import compare  # noqa: E402
import elf  # noqa: E402
import explain  # noqa: E402
import follow  # noqa: E402
import linemap  # noqa: E402
import page  # noqa: E402
import text  # noqa: E402
from bound import Bound  # noqa: E402
from checked import NOTHING_AT_HAND, accept  # noqa: E402
from evaluator import with_deep_stack  # noqa: E402
from evaluator.answer import FAULTS, MOST_INPUT, MOST_SOURCE, line_of  # noqa: E402
from files import WRITE_FAULT, Failed, forget, read, write  # noqa: E402
from functions import OddReport  # noqa: E402
from places import Given, printable  # noqa: E402
from simulator import reports  # noqa: E402
from simulator.costs import DEFAULT, Costs, costs_of  # noqa: E402
from source import Source  # noqa: E402
from view import View  # noqa: E402
from words import CALLED, asked_of  # noqa: E402

DONE, REFUSED, NO, STOPPED = 0, 1, 7, 8
MOST_IMAGE, MOST_REPORT, MOST_TABLE = 16777216, 536870912, 65536
HELP = [
    "Shows where the time of a bound goes, once `wcc check` has accepted the report: the functions by their share, the loops with",
    "their turns on the worst path, markers and restrictions, and a listing with counts and cycles. With --source it names lines.",
    "With --html it writes a page with a picture, with --elf a copy of the image with symbols for objdump, nm and gdb, and with",
    "--input it says whether a run on these bytes keeps the claims of the report; the listing is left out then. Nothing of it is",
    "proved. docs/COMMANDS.md says more.",
]


def tell(lines: Iterable[str]) -> None:
    if sys.stdout is None:
        raise Failed(WRITE_FAULT)
    try:
        for line in lines:
            sys.stdout.buffer.write((line + "\n").encode(errors="replace"))
        sys.stdout.buffer.flush()
    except OSError:
        # Else Python would write at its end what is left.
        os.dup2(os.open(os.devnull, os.O_WRONLY), sys.stdout.fileno())
        raise Failed(WRITE_FAULT) from None


def costs_from(table: tuple[str, bytes] | None) -> Costs:
    """The costs of a table that the program has accepted."""
    if table is None:
        return DEFAULT
    try:
        import tomllib
    except ImportError:
        raise Failed(NOTHING_AT_HAND, "wcc: `show` reads tables by Python 3.11 or later, and this is an older one.") from None
    return costs_of(tomllib.loads(table[1].decode()))


def source_from(name: str | None) -> Source | None:
    if name is None:
        return None
    data = read(name, MOST_SOURCE)
    try:
        return Source(name, data)
    except FAULTS as fault:
        line, status = line_of(fault)
        said = explain.quietly(lambda: explain.explained(explain.entries(), line, ["eval", name, "", ""]))
        raise Failed(status, line, *(said or [])) from None


def bound_of(program: str, names: tuple[str, str], table: tuple[str, bytes] | None, source: Source | None) -> tuple[Bound, bytes]:
    """What an image and its report say, once the program has accepted them, and the bytes of the image."""
    image, report = read(names[0], MOST_IMAGE), read(names[1], MOST_REPORT)
    accept(program, [(names[0], image), (names[1], report)], table)
    try:
        return Bound(image, reports.read(report), costs_from(table), source), image
    except OddReport as odd:
        raise Failed(NO, f"wcc: `{printable(names[1])}` can't be shown: {odd}.") from None


def show(program: str, words: list[str]) -> int:
    asked = asked_of(words)
    named = asked.named
    table = (named["--table"], read(named["--table"], MOST_TABLE)) if "--table" in named else None
    bound, image = bound_of(program, (asked.image, asked.report), table, source_from(named.get("--source")))
    older = bound_of(program, asked.older, table, None)[0] if asked.older else None
    given = read(named["--input"], MOST_INPUT) if "--input" in named else None
    copy = copy_of(bound, image, asked.image) if "--elf" in named else None
    if "--html" in named:
        view = view_of(program, bound, table, asked.compiled)
        write(named["--html"], page.page(view, asked.image, (older, asked.older[0]) if older else None).encode(errors="replace"))
    if copy is not None:
        write(named["--elf"], copy)
    tell(text.summary(bound))
    if older is not None:
        tell(compare.summary(older, bound))
    if older is None and not {"--html", "--elf", "--input"} & named.keys():
        tell(text.listing(bound))
    return ran(bound, given) if given is not None else DONE


def view_of(program: str, bound: Bound, table: tuple[str, bytes] | None, compiled: list[str]) -> View:
    if bound.source is None:
        return View(bound)
    return View(bound, *linemap.mapped(program, bound, table, compiled), own_texts(bound.source))


def own_texts(source: Source) -> dict[str, list[str]]:
    """The files that line markers name, where they may be shown: those that `prepare` read for the source."""
    given = Given(source.path)
    names = dict.fromkeys(str(it.file) for it in source.lines.lines)
    return {name: lines for name in names if name != source.lines.path and (lines := given.lines(name))}


def ran(bound: Bound, given: bytes) -> int:
    run = follow.Following(bound, given)
    ending = run.run()
    tell(["", *follow.told(bound, run, ending)])
    return DONE if follow.keeps(bound, run, ending) else STOPPED


def copy_of(bound: Bound, image: bytes, name: str) -> bytes:
    try:
        return elf.with_symbols(bound, image)
    except elf.OddImage as odd:
        raise Failed(REFUSED, f"wcc: `{printable(name)}` gets no copy with sections: {odd}.") from None


# The call

def said(work: Callable[[], int]) -> int:
    """The status of what is done, when the lines on what fails are told."""
    try:
        return work()
    except Failed as failed:
        return said(lambda: tell(failed.lines) or failed.status) if failed.lines else failed.status


def main(words: list[str]) -> int:
    if words in (["--help"], ["-h"]):
        return said(lambda: tell([CALLED, *HELP]) or DONE)
    # What is made is kept to the end, and looking for what isn't takes long.
    gc.disable()
    for number in (signal.SIGTERM, signal.SIGHUP):
        signal.signal(number, lambda it, _: sys.exit(128 + it))
    try:
        return with_deep_stack(lambda: said(lambda: show(words[0], words[1:])))
    finally:
        forget()


if __name__ == "__main__":
    guard.run(main)
