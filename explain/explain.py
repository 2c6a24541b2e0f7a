"""Says to people what a line of wcc means: `explain.py OUTPUT WORD..`, where the words are those that wcc was called with.

Beside the text of texts.txt it shows the place in the source: the file, line and column that the line markers of a
preprocessed source say, and the source line with a caret; and what findings.py finds out from the files of the call. What
can't be found out is left out, and nothing here fails the call.
"""
import os
import sys

HERE = os.path.dirname(os.path.realpath(__file__))
sys.path[:0] = [HERE, os.path.dirname(HERE)]
import guard  # noqa: E402
import re  # noqa: E402
import stat  # noqa: E402
from collections.abc import Callable, Iterator, Sequence  # noqa: E402
from itertools import takewhile  # noqa: E402
from typing import Any, TypeVar  # noqa: E402

from places import Lines, Place, printable  # noqa: E402

Result = TypeVar("Result")
# The lines below the words of each entry of texts.txt; and a construct, or None, with the facts that the files show.
Table = dict[str, list[str]]
Found = tuple[tuple[str, ...] | None, list[tuple[Any, ...]]]
TEXTS = os.path.join(HERE, "texts.txt")
COMMANDS = ("compile", "run", "eval", "check", "report", "make", "respond")
# Lines of these kinds end with a byte place in the source, unless they speak of another file.
PLACED = ("refused", "undefined", "broken")
ELSEWHERE = ("image-", "report-", "table-", "tasks-")
FROM_SOURCE = ("compile", "eval")
# The options of commands, each with the numbers that it takes, or None where it takes a file's name; flags take nothing.
FLAG = "flag"
Options = dict[str, range | str | None]
OPTIONS: dict[str, Options] = {"compile": {"--spm": range(65537), "--unroll": range(1, 65), "--inline": range(10001), "--table": None, "--derive": FLAG},
           "run": {"--limit": range((1 << 62) + 1), "--table": None}, "eval": {"--derive": FLAG},
           "check": {"--table": None}, "respond": {"--table": None}}
# Which of the files that the words name by their places are read, and which are written.
READ = {"compile": slice(1), "run": slice(2), "eval": slice(2), "check": slice(2), "report": slice(1), "respond": slice(1)}
WRITTEN = {"compile": slice(1, 3), "run": slice(2, 3), "eval": slice(2, 3), "make": slice(1, 4)}
# The greatest number that `make` takes as its first word, from 1 on.
MOST_MADE = 100
MOST_SOURCE = 1048576
# Of a chain of calls or loops so many are shown at each end.
MOST_LINKS = 6


def read_texts() -> str:
    with open(TEXTS, encoding="utf-8") as file:
        return file.read()


def entries() -> Table:
    """The table: the words of each entry, and the lines below it."""
    table, name = {}, None
    for line in read_texts().split("\n"):
        if line.startswith("    "):
            table[name].append(line[4:])
        elif line and not line.startswith("#"):
            name = line
            table[name] = []
    return table


def quietly(work: Callable[[], Result]) -> Result | None:
    """What the work gives, or None where it fails."""
    try:
        return work()
    except (Exception, SystemExit):
        return None


def source_of(path: str) -> bytes | None:
    """The bytes of a source, or None where it is no plain file that can be read again."""
    if not stat.S_ISREG(os.stat(path).st_mode):
        return None
    with open(path, "rb") as file:
        return file.read(MOST_SOURCE + 1)


class Call:
    """A line of wcc and the call that it answers: the lines of the source, if there is one, and the place in it, or None."""

    def __init__(self, line: str, words: list[str]) -> None:
        self.line, self.command = line.split(), words[0] if words else None
        placed, named, _ = parted(OPTIONS.get(self.command, {}), words[1:])
        self.derives = "--derive" in takewhile(lambda it: it != "--", words)
        self.reads = placed[READ.get(self.command, slice(0))] + named
        self.writes = placed[WRITTEN.get(self.command, slice(0))]
        source = quietly(lambda: source_of(placed[0])) if self.command in FROM_SOURCE else None
        self.lines = None if source is None else Lines(placed[0], source)
        self.at = self.place()

    def place(self) -> int | None:
        """The place in the source that the line names."""
        line = self.line
        if self.lines is None or line[0] not in PLACED or line[1].startswith(ELSEWHERE):
            return None
        at = int(line[-1])
        return at if at <= len(self.lines.source) else None

    def asked(self) -> list[str]:
        """The words by which the line is looked up: what is broken, and whether a source ends too early, among them; of a bound its
        kind before its number."""
        line = list(self.line)
        if line[0] == "cycles":
            line[1:] = reversed(line[1:])
        source = b"" if self.at is None else self.lines.source
        if line[0] == "broken":
            is_pragma = source[self.at or 0:].startswith((b"#", b"_Pragma"))
            line.insert(1, "restriction" if is_pragma else "loop")
        if line[:2] == ["refused", "syntax"] and self.at is not None and self.at == len(source):
            line.insert(2, "end")
        return line

    def found_out(self) -> Found | None:
        """The construct at the place, or None, and the facts that the files show; None where nothing can be found out."""
        if self.lines is None and self.line[1:] != ["fault"]:
            return None
        # Both take their time, and other lines need neither.
        from evaluator import with_deep_stack
        import findings
        files = findings.Files(self.lines, self.reads, self.writes, self.derives)

        def both() -> Found:
            construct = quietly(lambda: self.at is not None and findings.construct(self.line, files, self.at))
            return construct or None, quietly(lambda: findings.facts(self.asked(), files, self.at)) or []
        return with_deep_stack(both)


def entry_of(table: Table, line: list[str]) -> tuple[list[str] | None, list[str]]:
    """The longest beginning of a line that the table has, and the words behind it."""
    for count in range(len(line), 0, -1):
        if " ".join(line[:count]) in table:
            return table[" ".join(line[:count])], line[count:]
    return None, []


def filled(text: str, words: Sequence[str]) -> str:
    return re.sub(r"\{([1-9])\}", lambda it: words[int(it[1]) - 1], text)


def chain_of(table: Table, key: str, links: list[tuple[str, ...]]) -> str:
    """A chain of calls or loops, shown at both its ends where it is long."""
    said = [filled(table[f"found {key}"][0], [printable(word) for word in it]) for it in links]
    return ", ".join(said if len(said) <= 2 * MOST_LINKS else said[:MOST_LINKS] + ["..."] + said[-MOST_LINKS:])


def fact_of(table: Table, fact: tuple[Any, ...]) -> str:
    key, *words = fact
    return filled(table[f"found {key}"][0], [printable(it) if isinstance(it, str) else chain_of(table, *it) for it in words])


def construct_of(table: Table, construct: tuple[str, ...]) -> list[str]:
    """The lines of a construct, and the page that says what to write, unless they say all."""
    key, *words = construct
    is_other = f"other {key}" in table
    texts = table[f"other {key}" if is_other else f"construct {key}"]
    return [filled(it, [printable(it) for it in words]) for it in texts] + ([] if is_other else table["construct"])


def included(table: Table, place: Place) -> Iterator[str]:
    """How the file of a place comes into the source."""
    if includers := ", and that at ".join(place.includers()):
        yield filled(table["found included"][0], [includers])
        if place.file.of_system:
            yield table["found system"][0]


def explained(table: Table, line: str, words: list[str]) -> list[str]:
    """What there is to say of a line, but for `usage`."""
    call = Call(line, words)
    if call.line[0] == "response":
        return empties_of(table, words) + overlaps_of(table, words)
    if call.line[0] == "late" and (said := late_of(table, int(call.line[1]), words)):
        return said
    texts, rest = entry_of(table, call.asked())
    if texts is None:
        return []
    construct, facts = quietly(call.found_out) or (None, [])
    said = construct and quietly(lambda: construct_of(table, construct)) or [filled(it, rest) for it in texts]
    facts = [it for it in (quietly(lambda: fact_of(table, fact)) for fact in facts) if it]
    headline, *more = said
    if call.at is None:
        return [f"wcc: {headline}", *facts, *more]
    place = call.lines.place(getattr(construct, "at", call.at))
    return [f"{place}: {headline}", *place.shown(), *included(table, place), *facts, *more]


def cycles_in(path: str) -> int | None:
    """The cycles that a report says, in its first lines, or None."""
    if not stat.S_ISREG(os.stat(path).st_mode):
        return None
    with open(path, "rb") as file:
        match = re.match(rb"(?:version 2\n)?cycles ([0-9]{1,20})\n", file.read(99))
    return int(match[1]) if match else None


def taken(tasks: list[list[str]], number: int) -> str:
    """What the period of a late task is taken by: its own job, and the jobs above it that begin in it."""
    (_, _, period, _, report), above = tasks[number - 1], tasks[:number - 1]
    own, cycles = cycles_in(report), [cycles_in(task[4]) for task in above]
    jobs = [-(-int(period) // int(task[2])) for task in above]
    parts = [f"its own job {own}", *(f"{task[1]} {count} times {it}" for task, count, it in zip(above, jobs, cycles))]
    return f"{', '.join(parts)}: {own + sum(count * it for count, it in zip(jobs, cycles))} cycles"


def list_of(words: list[str]) -> tuple[str, list[str]]:
    """The name of the list of tasks, and its lines; an error where it can't be read again."""
    path = parted(OPTIONS["respond"], words[1:])[0][0]
    return path, [printable(it) for it in source_of(path).decode(errors="replace").split("\n")]


def joined(names: Sequence[str]) -> str:
    """A list of names as people say it, its middle left out where it is long."""
    names = list(names) if len(names) <= 2 * MOST_LINKS else [*names[:MOST_LINKS], "..", *names[-MOST_LINKS:]]
    return names[0] if len(names) == 1 else f"{', '.join(names[:-1])} and {names[-1]}"


def empties_of(table: Table, words: list[str]) -> list[str]:
    """What there is to say of tasks whose reports are empty."""
    from contradictions import is_empty
    tasks = [it.split(" ") for it in list_of(words)[1] if it]
    names = [name for _, name, _, _, report in tasks if quietly(lambda path=report: is_empty(path))]
    return [f"wcc: {filled(table['found empty report'][0], [joined(names)])}"] if names else []


def overlaps_of(table: Table, words: list[str]) -> list[str]:
    """What there is to say of responses: in which regions images lie at the same addresses, and what that means."""
    from overlaps import overlapping, spans_of
    tasks = [it.split(" ") for it in list_of(words)[1] if it]
    images = [quietly(lambda path=path: spans_of(path)) or [] for _, _, _, path, _ in tasks]
    said = [filled(table["found overlap"][0], [joined(regions), joined([tasks[it][1] for it in numbers])])
            for regions, numbers in overlapping(images)]
    return [f"wcc: {it}" for it in said] + table["response"] if said else []


def late_of(table: Table, number: int, words: list[str]) -> list[str] | None:
    """What there is to say of a task that is late, where the list can be read again, or None."""
    try:
        path, lines = list_of(words)
        tasks = [it.split(" ") for it in lines[:number]]
        headline, *more = table["late task"]
        shown = [f"{path}:{number}: {filled(headline, tasks[-1][1:])}", f"{number:5} | {lines[number - 1]}"]
    except (OSError, AttributeError, IndexError):
        return None
    try:
        shown.append(f"      | {taken(tasks, number)}")
    except (OSError, TypeError, ValueError, IndexError, ZeroDivisionError):
        # A report that isn't there any more: what its task takes is left out.
        pass
    return shown + more


def number_of(count: int) -> str:
    return "one file" if count == 1 else f"{count} files"


def wrong_value(numbers: range | None, value: str | None) -> str | None:
    """What is wrong with the value of an option, or None."""
    if value is None or value.startswith("-") and value != "-":
        return "has no value"
    if numbers is not None and not (re.fullmatch(r"\+?[0-9]+", value) and int(value[-99:]) in numbers):
        return f"takes a number from {numbers.start} to {numbers.stop - 1}"
    return None


def parted(options: Options, given: list[str]) -> tuple[list[str], list[str], str | None]:
    """The files that words name by their places, those that options name, and what is wrong with an option, or None."""
    placed, named, seen = [], [], set()
    words = iter(given)
    for word in words:
        if word == "--":
            return placed + list(words), named, None
        if not word.startswith("-") or word == "-":
            placed.append(word)
            continue
        option, behind, value = word.partition("=")
        if option not in options:
            return placed, named, f"has no option `{printable(option)}`"
        if options[option] != FLAG:
            value = value if behind else next(words, None)
            wrong = wrong_value(options[option], value)
        else:
            wrong = "takes no value" if behind else None
        wrong = "stands twice" if option in seen else wrong
        if wrong:
            return placed, named, f"can't be called so: {option} {wrong}"
        seen.add(option)
        named += [value] if options[option] is None else []
    return placed, named, None


def wrong_words(called: str, given: list[str]) -> str:
    """Why a command with the words that it has can't be called so."""
    command, *names = called.split(" [")[0].split()[1:]
    placed, named, wrong = parted(OPTIONS.get(command, {}), given)
    if wrong:
        return f"wcc: `{command}` {wrong}. It is called so:"
    if names[0] == "N":
        number, placed, names = "".join(placed[:1]), placed[1:], names[1:]
        if not (re.fullmatch(r"\+?[0-9]+", number) and 1 <= int(number[-99:]) <= MOST_MADE):
            return f"wcc: `{command}` begins with a number from 1 to {MOST_MADE}. It is called so:"
    if len(placed) != len(names):
        return f"wcc: `{command}` takes {number_of(len(names))} and was given {len(placed)}. It is called so:"
    twice = [it for it in placed + named if (placed + named).count(it) > 1]
    if twice:
        return f"wcc: Two of the files are named `{printable(twice[0])}`. Each needs a name of its own:"
    return "wcc: The name of a file is no UTF-8:"


def usage(table: Table, words: list[str]) -> list[str]:
    """How the command that was asked for is called, or which ones there are."""
    word = words[0] if words else None
    if word in ("help", "--help", "-h"):
        return table[f"help {words[1]}" if words[1:2] and words[1] in COMMANDS else "help"]
    if word in COMMANDS:
        called = table[f"usage {word}"][0]
        return [wrong_words(called, words[1:]), f"  {called}", f"`./wcc help {word}` says more."]
    said = [] if word is None else [f"wcc: `{printable(word)}` is no command."]
    return said + table["help"]


def main(output: str, words: list[str]) -> int:
    table = entries()
    line = output.split("\n")[0]
    said = usage(table, words) if line == "usage" else explained(table, line, words)
    try:
        sys.stdout.buffer.write("".join(f"{it}\n" for it in said).encode(errors="replace"))
        sys.stdout.buffer.flush()
    except OSError:
        return guard.WRITE_FAULT
    return 0


if __name__ == "__main__":
    guard.run(lambda words: main(words[0], words[1:]))
