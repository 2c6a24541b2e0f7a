"""From a source to its image, report and page: what is prepared, compiled, checked and drawn, and the record of it.

The record says what was found, and of what it was made: where that is as it was, nothing is done again.
"""
import json
import os
import sys
import tempfile
from collections.abc import Iterator
from contextlib import contextmanager
from pathlib import Path
from typing import Any

from task.calls import TOP, ask, named, tool
from task.files import Fault, digest, digest_of, held, is_one, locked, place, place_changed, read, why
from task.settings import USAGE, Settings, settings_file

sys.path.append(str(TOP / "explain"))
import explain  # noqa: E402
from places import MARKER, name_in_marker  # noqa: E402

PREPARED = ".i"
# The list of what `prepare` read, by which messages show one's own lines.
LISTED = ".i.files"
MADE = (".elf", ".txt", ".html", ".json")
SLOWEST = ".slowest"
OVER, NOT_YES = 10, 7
# The kinds of reports that list no flow.
WITHOUT_FLOW = ("wide", "spent", "empty")


class Task:
    """A source, what it is built with, and the names of what is made."""

    def __init__(self, source: str, settings: Settings) -> None:
        self.source, self.settings = Path(source), settings
        self.folder, self.stem = Path(settings.out), self.source.stem
        self.is_prepared = self.source.suffix == PREPARED

    def made(self, suffix: str) -> Path:
        return self.folder / f"{self.stem}{suffix}"

    def prepared(self) -> Path:
        return self.source if self.is_prepared else self.made(PREPARED)

    def read_files(self) -> list[Path]:
        table = [] if self.settings.table is None else [Path(self.settings.table)]
        return [self.source, settings_file(self.source), *table]

    def refuse_aliases(self, others: list[Path]) -> None:
        """No file that is made is one that is read."""
        for suffix in (*MADE, SLOWEST, *[PREPARED, LISTED] * (not self.is_prepared)):
            made = self.made(suffix)
            if other := next((it for it in (*self.read_files(), *others) if made.exists() and is_one(made, it)), None):
                raise Fault(USAGE, "usage", f"wcc: `{made}` would be written, and `{other}` is read, which is that file. Nothing is changed.")


@contextmanager
def room_for(task: Task) -> Iterator[Path]:
    """A folder beside what is made, which is gone in the end."""
    try:
        task.folder.mkdir(parents=True, exist_ok=True)
        with tempfile.TemporaryDirectory(prefix=f".{task.stem}.", dir=task.folder) as room:
            yield Path(room)
    except OSError as error:
        raise Fault(5, "write fault", f"wcc: `{task.folder}` can't be written in: {why(error)}.") from None


# Preparing

def prepare(task: Task, room: Path) -> tuple[bytes, list[str]]:
    """The prepared source, and what the preprocessor says."""
    if task.is_prepared:
        return read(task.source), []
    made = room / f"{task.stem}{PREPARED}"
    said = tool("prepare", named(task.source), *task.settings.prepared_with(), "-o", made)
    lines = said.errors.decode(errors="replace").splitlines()
    if said.status:
        raise Fault(said.status, "not prepared", *lines)
    return read(made), lines


def files_of(prepared: bytes) -> list[Path]:
    """The files that line markers name, where they are there."""
    markers = filter(None, (MARKER.match(it) for it in prepared.split(b"\n") if it.startswith(b"#")))
    return [Path(it) for it in sorted({name_in_marker(it[2]) for it in markers if it[2]}) if os.path.isfile(it)]


# The record

def tools_digest() -> str:
    """Of the tools that decide on what is written."""
    paths = sorted(it for folder in ("task", "show", "simulator", "evaluator", "explain") for kind in ("*.py", "*.css", "*.js") for it in (TOP / folder).glob(kind))
    return digest(b"".join(it.read_bytes() for it in paths))


def inputs_of(task: Task, program: str, prepared: bytes) -> dict[str, Any]:
    """What decides on what is made, by digests."""
    files = {str(it): digest_of(it) for it in files_of(prepared)}
    return {"settings": json.loads(json.dumps(task.settings.made_with())), "program": digest_of(program), "tools": tools_digest(),
            "prepared": digest(prepared), "table": digest_of(task.settings.table) if task.settings.table else "", "files": files}


def outputs_of(task: Task) -> dict[str, str]:
    return {it: digest_of(task.made(it)) for it in MADE[:-1]}


def kept(task: Task, inputs: dict[str, Any]) -> dict[str, Any] | None:
    """The record that stands, where it is of these inputs and of what stands."""
    try:
        record = json.loads(task.made(".json").read_bytes())
        is_current = record["inputs"] == inputs and record["outputs"] == outputs_of(task) and record["source"] == str(task.source)
        return {**record, "is_new": False} if is_current else None
    except (OSError, ValueError, KeyError, TypeError):
        return None


# Compiling

def explained(line: str, words: list[str]) -> list[str]:
    return explain.quietly(lambda: explain.explained(explain.entries(), line, words)) or []


def refused(task: Task, said: Any, words: list[str]) -> Fault:
    """What the program refused, as people are told it, with all loops that lack a bound."""
    lines = explained(said.line, words)
    fault = Fault(said.status, said.line, *lines)
    if said.words()[:2] == ["refused", "bound"]:
        fault.loops = missing_loops(words[-3], read(task.prepared()), task.settings.derive)
        fault.said = tuple(missing_lines(task, fault.loops)) if fault.loops else fault.said
    return fault


def missing_loops(path: str, source: bytes, derive: bool) -> list[dict[str, Any]]:
    # It takes its time, and most calls don't need it.
    from evaluator import with_deep_stack
    from task import missing
    return with_deep_stack(lambda: explain.quietly(lambda: missing.unbounded(path, source, derive))) or []


def missing_lines(task: Task, loops: list[dict[str, Any]]) -> Iterator[str]:
    for it in loops:
        yield f"{it['place']}: This loop has no bound."
        yield from it["shown"]
        yield from it["why"]
        yield f"Write right before it: {it['write']}, where N is how often its body starts at most in an entry."
    what = "loop has" if len(loops) == 1 else "loops have"
    yield f"{len(loops)} {what} no bound. `./wcc counts {task.prepared()} INPUT ..` says how often they started on inputs; docs/PORTING.md says how to find a bound."


def compile_in(room: Path, program: str, source: Path, stem: str, settings: Settings) -> Any:
    words = ["compile", *settings.options(), "--", named(source), str(room / f"{stem}.elf"), str(room / f"{stem}.txt")]
    return ask(program, *words), words


def bound_of(line: str) -> tuple[int, str]:
    """The cycles and the kind that `compile` printed."""
    word, cycles, kind = line.split()
    assert word == "cycles"
    return int(cycles), kind


def check(task: Task, program: str, room: Path, cycles: int) -> None:
    """Has the checker accept the report for the image, with the same cycles."""
    words = ["check", *task.settings.priced(), "--", *(str(room / f"{task.stem}{it}") for it in (".elf", ".txt"))]
    said = ask(program, *words)
    if said.status:
        raise Fault(said.status, said.line, *explained(said.line, words))
    if said.words()[:2] != ["yes", str(cycles)]:
        raise Fault(NOT_YES, said.line, f"wcc: the checker says {said.line}, and the compiler {cycles}.")


def draw(task: Task, program: str, room: Path) -> None:
    page = room / f"{task.stem}.html"
    said = tool("show", program, *task.settings.options(), "--source", task.prepared(), "--html", page, "--", task.made(".elf"), task.made(".txt"))
    if said.status:
        raise Fault(said.status, "not drawn", *said.line.splitlines(), *said.errors.decode(errors="replace").splitlines())


# The whole

def build(program: str, task: Task) -> dict[str, Any]:
    """Makes what is not as it should be, and answers the record."""
    read(task.source)
    task.refuse_aliases([])
    with room_for(task) as room:
        prepared, lines = prepare(task, room)
        task.refuse_aliases(files_of(prepared))
        inputs = inputs_of(task, program, prepared)
        record = kept(task, inputs)
        if not task.is_prepared:
            place_changed(room, task.folder, [f"{task.stem}{it}" for it in (PREPARED, LISTED)])
        try:
            record = record or make(program, task, room, prepared, inputs)
        except Fault as fault:
            fault.said = (*lines, *fault.said)
            raise
    record["said"] = [*lines, *record["said"]]
    return judged(record, task.settings.at_most)


def make(program: str, task: Task, room: Path, prepared: bytes, inputs: dict[str, Any]) -> dict[str, Any]:
    said, words = compile_in(room, program, task.prepared(), task.stem, task.settings)
    if said.status:
        raise refused(task, said, words)
    cycles, kind = bound_of(said.line)
    check(task, program, room, cycles)
    image, report = (read(room / f"{task.stem}{it}") for it in (".elf", ".txt"))
    with locked(task.folder), held():
        place(room, task.folder, [f"{task.stem}{it}" for it in (".elf", ".txt")])
    draw(task, program, room)
    place(room, task.folder, [f"{task.stem}.html"])
    sizes, goes = found_in(task, image, report, prepared, kind)
    files = {name: str(task.made(it)) for name, it in zip(("image", "report", "page", "record"), MADE)}
    record = {"source": str(task.source), "status": 0, "line": said.line, "cycles": cycles, "kind": kind,
              "options": task.settings.options(), "bytes": sizes, "places": goes,
              "made": {"prepared": str(task.prepared()), **files}, "said": explained(said.line, words),
              "inputs": inputs, "outputs": outputs_of(task)}
    (room / f"{task.stem}.json").write_text(json.dumps(record, indent=1) + "\n")
    place(room, task.folder, [f"{task.stem}.json"])
    return {**record, "is_new": True}


def found_in(task: Task, image: bytes, report: bytes, prepared: bytes, kind: str) -> tuple[dict[str, int], list[dict[str, Any]]]:
    """The bytes of the image, and where the time of the bound goes."""
    # It takes its time, and a call that does nothing doesn't need it.
    from evaluator import with_deep_stack
    from task import where
    goes = [] if kind in WITHOUT_FLOW else with_deep_stack(
        lambda: where.places(image, report, task.settings.table, str(task.prepared()), prepared))
    return where.sizes(image), goes


def judged(record: dict[str, Any], at_most: int | None) -> dict[str, Any]:
    """With the budget: a bound above it has a status of its own."""
    if at_most is None:
        return record
    is_over = record["cycles"] > at_most
    return {**record, "at_most": at_most, "status": OVER if is_over else 0, "line": record["line"] + f" over {at_most}" * is_over}


def tried(program: str, task: Task, count: int, jobs: int) -> dict[str, Any]:
    """What so many inputs come to on the image; the slowest is written."""
    from task.trying import Tries, slowest
    derive = ["--derive"] * task.settings.derive
    with room_for(task) as room:
        tries = Tries(program, task.made(".elf"), task.prepared(), room, derive, task.settings.priced())
        best, kept = slowest(tries, count, jobs)
        if best is None:
            return {"inputs": count, "kept": kept}
        name = f"{task.stem}{SLOWEST}"
        (room / name).write_bytes(best.data)
        place(room, task.folder, [name])
    return {"inputs": count, "kept": kept, "cycles": best.cycles, "file": str(task.made(SLOWEST))}


def failed(source: str, fault: Fault) -> dict[str, Any]:
    """The record of a call that came to no image."""
    loops = getattr(fault, "loops", [])
    return {"source": source, "status": fault.status, "line": fault.line, "said": list(fault.said),
            "loops": [{name: it[name] for name in ("file", "line", "column", "why", "write")} for it in loops]}
