"""Finds the options that give a source the least bound: tune.py PROGRAM SOURCE [OPTION ..], where PROGRAM is a built wcc.

It compiles the source with many options side by side, and builds it with the best. docs/COMMANDS.md says more.
"""
# The part of `signal` that takes no time: while the rest is read there is nothing to clear away.
import _signal
if _signal.getsignal(_signal.SIGINT) == _signal.default_int_handler:
    _signal.signal(_signal.SIGINT, _signal.SIG_DFL)
import os
import re
import shlex
import sys
import tempfile
from contextlib import suppress
from dataclasses import replace
from pathlib import Path
from typing import Any

sys.path[:0] = [str(Path(__file__).resolve().parent.parent), str(Path(__file__).resolve().parent.parent / "explain")]
import guard  # noqa: E402
from task import screen, where  # noqa: E402
from task.build import INTERRUPTED, WRITE_FAULT, ended_by_interrupts  # noqa: E402
from task.calls import RUNNING  # noqa: E402
from task.files import Fault, digest, put, read, why  # noqa: E402
from task.making import Task, bound_of, build, compile_in, failed, prepare, room_for  # noqa: E402
from task.search import Point, Search, Tried, rooms  # noqa: E402
from task.settings import SPM, STATUSES, Parser, Settings, Words, add_shared, given_in, number_in, settings_file  # noqa: E402

ABOUT = ("Compiles SOURCE with many numbers of --inline and --unroll, and with the bytes of scratchpad that are given, keeps what has the "
         "least bound, or with --at-most the least image within it, and builds that as `build` does. An interrupt ends the search, and "
         "the best so far is built. docs/COMMANDS.md says more.")


def parser() -> Parser:
    known = Parser("wcc tune", description=ABOUT, epilog=STATUSES, allow_abbrev=False)
    known.add_argument("source", metavar="SOURCE", help="a C file, or NAME.i, which is taken as it is")
    known.add_argument("--spm", dest="room", metavar="B", action="append", type=number_in(SPM),
                       help="the bytes of scratchpad that there are: less is tried too")
    known.add_argument("--no-derive", dest="derive", action="store_false", default=None, help="want a bound of loops that count, too")
    known.add_argument("--save", action="store_true", help="write the options that were found into NAME.toml beside the source")
    add_shared(known)
    return known


# What is tried

class Trying:
    """Compiles a source with the options of a point, in a room of its own."""

    def __init__(self, program: str, source: Path, settings: Settings, room: Path) -> None:
        self.program, self.source, self.settings, self.room = program, source, settings, room

    def at(self, point: Point) -> Settings:
        return replace(self.settings, inline=point.inline, unroll=point.unroll, spm=point.spm)

    def attempt(self, point: Point) -> Tried | None:
        stem = f"{point.inline}-{point.unroll}-{point.spm}"
        said, _ = compile_in(self.room, self.program, self.source, stem, self.at(point))
        made = [self.room / f"{stem}{it}" for it in (".elf", ".txt")]
        image = read(made[0]) if said.status == 0 else b""
        for it in made:
            it.unlink(missing_ok=True)
        if said.status:
            return None
        sizes = where.sizes(image)
        return Tried(point, *bound_of(said.line), sizes["flash"] + sizes["spm"], digest(image))


def refuse(trying: Trying, task: Task) -> None:
    """Where nothing can be made of the source, says so as `build` does."""
    said, _ = compile_in(trying.room, trying.program, trying.source, "first", trying.at(Point()))
    if said.status:
        build(trying.program, Task(str(task.source), trying.at(Point())))


def options_of(point: Point) -> list[str]:
    """The words that give a point."""
    return Settings(inline=point.inline, unroll=point.unroll, spm=point.spm, derive=False).options()


def show_better(found: Tried, count: int) -> None:
    progress("")
    screen.tell([f"  {found.cycles:>13,}  {found.size:>9,}  {' '.join(options_of(found.point)) or '(none)'}"])


def progress(text: str) -> None:
    """A line on a terminal that is written over."""
    if os.isatty(2) and not screen.IS_PLAIN:
        os.write(2, f"\r\x1b[K{text}".encode())


# What is kept

def saved(path: Path, point: Point) -> None:
    """Writes the numbers into the settings beside the source: into the lines that have them, or behind all others."""
    text = read(path).decode() if path.exists() else ""
    for name in ("inline", "unroll", "spm"):
        line = f"{name} = {getattr(point, name)}"
        pattern = re.compile(rf"^{name}[ \t]*=[ \t]*[0-9_]+", re.M)
        text = pattern.sub(line, text) if pattern.search(text) else f"{text}{line}\n"
    try:
        with tempfile.NamedTemporaryFile(dir=path.parent, prefix=f".{path.name}.", delete=False) as file:
            file.write(text.encode())
        Path(file.name).chmod(0o644)
        put(Path(file.name), path)
    except OSError as error:
        raise Fault(WRITE_FAULT, "write fault", f"wcc: `{path}` isn't written: {why(error)}.") from None


def searched(trying: Trying, settings: Settings, words: Words, given: list[int]) -> tuple[Search, bool]:
    """The search, and whether it was interrupted."""
    is_shown = not (words.json or screen.IS_PLAIN)
    if is_shown:
        screen.tell([f"{'bound':>15}  {'bytes':>9}  options"])
    search = Search(trying.attempt, show_better if is_shown else lambda *_: None, rooms(given), settings.at_most, words.jobs)
    try:
        search.run()
    except KeyboardInterrupt:
        RUNNING.end()
        if search.best is None:
            raise
        return search, True
    return search, False


def tune(program: str, words: Words, given: list[int], is_saved: bool) -> tuple[dict[str, Any], Search]:
    source = words.sources[0]
    settings = words.settings(source)
    task = Task(source, settings)
    read(task.source)
    with room_for(task) as room:
        prepared, lines = prepare(task, room)
        if not screen.IS_PLAIN:
            screen.tell(lines, sys.stderr)
        trying = Trying(program, task.source if task.is_prepared else room / f"{task.stem}.i", settings, room)
        refuse(trying, task)
        search, is_cut = searched(trying, settings, words, given or [settings.spm])
    RUNNING.is_over = False
    best = search.best.point
    if is_saved:
        saved(settings_file(task.source), best)
    record = build(program, Task(source, trying.at(best)))
    return {**record, "said": [], "tried": len(search.tried), "images": len({it.image for it in search.tried.values() if it}),
            "status": INTERRUPTED if is_cut else record["status"]}, search


def closing(words: Words, record: dict[str, Any], point: Point, is_saved: bool) -> list[str]:
    source = words.sources[0]
    others = [it for it in words.options() if not it.startswith("--at-most=")]
    call = " ".join(map(shlex.quote, ["./wcc", "build", source, *others, *options_of(point)]))
    kept = f"They stand in {settings_file(Path(source))} now." if is_saved else f"`--save` keeps them in {settings_file(Path(source))}."
    ended = "Interrupted: the best so far is kept. " if record["status"] == INTERRUPTED else ""
    return [f"  {ended}{record['tried']} tried, {record['images']} images. These words give it; {kept[0].lower() + kept[1:]}", f"    {call}"]


# The call

def told(program: str, given: list[str]) -> int:
    asked = parser().parse_intermixed_args(given)
    words = Words([asked.source], given_in(asked), asked.jobs or len(os.sched_getaffinity(0)), asked.json)
    try:
        record, search = tune(program, words, asked.room or [], asked.save)
    except Fault as fault:
        record = failed(asked.source, fault)
        if not words.json:
            screen.one(record)
            return fault.status
    if words.json:
        screen.as_json([record])
        return record["status"]
    screen.one(record)
    if not screen.IS_PLAIN:
        screen.tell(closing(words, record, search.best.point, asked.save))
    return record["status"]


def main(words: list[str]) -> int:
    ended_by_interrupts()
    try:
        return told(words[0], words[1:])
    except Fault as fault:
        return screen.refused(fault)
    except screen.Unwritten:
        return WRITE_FAULT
    except KeyboardInterrupt:
        return INTERRUPTED


if __name__ == "__main__":
    guard.run(main)
