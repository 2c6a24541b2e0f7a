"""What is damaged, and in which calls: the files of all kinds as they are undamaged, and the calls with the ways of damage."""
import subprocess
import tempfile
from collections import namedtuple
from pathlib import Path
from subprocess import DEVNULL

from harm import FIELDS, REPORTS, WORDS

TESTS = Path(__file__).resolve().parent.parent
CASES = TESTS / "cases"
EXAMPLES = TESTS.parent / "examples"
LIMIT = ("--limit", "2000000")
TABLE = ("--table", "costs.toml")
OLDER = b"an older content\n" * 10
WRITTEN = ("b.c", "b.elf", "b.txt", "b.out", "b.html")
SOURCES = tuple(sorted(it.name for it in EXAMPLES.glob("*.c")))
# The options of `compile`, which take turns over the sources.
OPTIONS = (("--derive",), ("--inline", "200", "--unroll", "4"), ("--spm", "4096"), TABLE, ("--unroll", "64"),
           ("--spm", "65536", "--inline", "10000", "--unroll", "3", "--derive", *TABLE))
# The images and reports that are compiled, each with its source and options.
COMPILED = {
    "first": ("first.c",), "crc16": ("crc16.c",), "pid": ("pid.c",), "matrix": ("matrix.c",), "search": ("search.c",),
    "frame": ("frame.c", "--spm", "4096"), "fir": ("fir.c", "--inline", "200", "--unroll", "4"), "lift": ("lift.c", *TABLE),
    "cruise": ("cruise.c", "--spm", "65536", "--inline", "200", "--unroll", "4"), "empty": ("empty.c",), "wide": ("wide.c",),
}
# Those that stand in cases of the checker: with claims of every kind, of both versions, and with and without a flow.
CHECKED = ("most", "least_shares", "never", "regions_shares", "empty", "far", "sort")
WITH_TABLE = ("lift",)
TASKS = b"".join(b"task %s %d %s.elf %s.txt\n" % (it, period, it, it) for it, period in ((b"first", 4000), (b"crc16", 900000), (b"pid", 3000000)))
# The numbers among words: the option, or the place behind the command, and the range.
NUMBERS = {"--limit": (0, 1 << 62), "--spm": (0, 65536), "--unroll": (1, 64), "--inline": (0, 10000), "make": (1, 100)}

# A call: its words, the file that is damaged or the word before the number that is, the ways, and the tool that answers, if it isn't the
# program itself.
Kind = namedtuple("Kind", "words harms ways tool", defaults=(None,))


def sources():
    """Calls on sources."""
    for number, name in enumerate(SOURCES):
        yield 2, Kind(("compile", name, "b.elf", "b.txt"), name, WORDS)
        yield 2, Kind(("compile", name, "b.elf", "b.txt", *OPTIONS[number % len(OPTIONS)]), name, WORDS)
        yield 2, Kind(("eval", name, "a.in", "b.out"), name, WORDS)
        yield 1, Kind(("eval", name, "a.in", "b.out", "--derive"), name, WORDS)


def images():
    """Calls on images and reports."""
    for name in (*COMPILED, *CHECKED):
        image, report, table = f"{name}.elf", f"{name}.txt", TABLE if name in WITH_TABLE else ()
        yield 4, Kind(("run", image, "a.in", "b.out", *LIMIT), image, FIELDS)
        yield 4, Kind(("check", image, report, *table), image, FIELDS)
        yield 8, Kind(("check", image, report, *table), report, REPORTS)
        yield 3, Kind(("report", report), report, REPORTS)
    yield 4, Kind(("run", "crc16.elf", "a.in", "b.out", *LIMIT), "a.in", WORDS)
    yield 4, Kind(("eval", "crc16.c", "a.in", "b.out"), "a.in", WORDS)


def lists():
    """Calls on tables of costs and lists of tasks, and on the files that a list names."""
    yield 16, Kind(("respond", "tasks"), "tasks", WORDS)
    yield 6, Kind(("respond", "tasks", *TABLE), "costs.toml", WORDS)
    yield 6, Kind(("respond", "tasks"), "crc16.txt", REPORTS)
    yield 6, Kind(("respond", "tasks", *TABLE), "pid.elf", FIELDS)
    yield 20, Kind(("run", "first.elf", "a.in", "b.out", *TABLE, *LIMIT), "costs.toml", WORDS)
    yield 10, Kind(("check", "lift.elf", "lift.txt", *TABLE), "costs.toml", WORDS)
    yield 10, Kind(("compile", "pid.c", "b.elf", "b.txt", *TABLE, "--spm", "1024"), "costs.toml", WORDS)


def numbers():
    """Calls with a number among the words."""
    yield 6, Kind(("run", "crc16.elf", "a.in", "b.out", *LIMIT), "--limit", ())
    for option, value in (("--spm", "4096"), ("--unroll", "4"), ("--inline", "200")):
        yield 6, Kind(("compile", "crc16.c", "b.elf", "b.txt", option, value), option, ())
    yield 3, Kind(("make", "5", "b.c", "b.elf", "b.txt"), "make", ())


def tools():
    """Calls of what stands beside the program and says more to people. They take long."""
    for harms, ways in (("crc16.txt", REPORTS), ("frame.txt", REPORTS), ("pid.elf", FIELDS)):
        name = harms.partition(".")[0]
        yield 0.1, Kind(("show", f"{name}.elf", f"{name}.txt", "--source", f"{name}.c", "--html", "b.html", "--elf", "b.elf"), harms, ways, "show")
    yield 0.1, Kind(("show", "crc16.elf", "crc16.txt", "--source", "crc16.c"), "crc16.c", WORDS, "show")
    yield 0.1, Kind(("show", "first.elf", "first.txt", *TABLE, "--input", "a.in"), "costs.toml", WORDS, "show")
    for name in ("frame.c", "cruise.c", "search.c"):
        yield 0.1, Kind(("compile", name, "b.elf", "b.txt"), name, WORDS, "explain")
        yield 0.1, Kind(("eval", name, "a.in", "b.out"), name, WORDS, "explain")
    yield 0.1, Kind(("check", "pid.elf", "pid.txt"), "pid.txt", REPORTS, "explain")
    yield 0.1, Kind(("respond", "tasks"), "tasks", WORDS, "explain")
    yield 0.05, Kind(("counts", "crc16.c", "a.in"), "crc16.c", WORDS, "counts")
    yield 0.05, Kind(("prepare", "gate.c", "-o", "b.c"), "gate.c", WORDS, "prepare")


KINDS = [it for part in (sources, images, lists, numbers, tools) for it in part()]


def needed(kind):
    """The files that a call reads."""
    listed = [f"{it}.{end}" for it in ("first", "crc16", "pid") for end in ("elf", "txt")] if kind.words[0] == "respond" else []
    return {*kind.words[1:], *listed, *([kind.harms] if kind.harms not in NUMBERS else [])}


def odd_sources(folder):
    """Those that have no run, and a bound that isn't the greatest."""
    yield "empty.c", (CASES / "compile_restricted_empty/given/a.c").read_bytes()
    subprocess.run([CASES / "compile_restricted_wide/make"], cwd=folder, check=True)
    yield "wide.c", (folder / "a.c").read_bytes()


def samples(program):
    """All files as they are undamaged."""
    files = {it: (EXAMPLES / it).read_bytes() for it in (*SOURCES, "costs.toml")}
    files |= {"a.in": bytes(range(1, 100)), "tasks": TASKS}
    for name in CHECKED:
        files |= {f"{name}.{end}": (CASES / f"check_{name}/given/a.{end}").read_bytes() for end in ("elf", "txt")}
    with tempfile.TemporaryDirectory() as folder:
        room = Path(folder)
        files |= odd_sources(room)
        for name, data in files.items():
            (room / name).write_bytes(data)
        for name, (source, *options) in COMPILED.items():
            both = f"{name}.elf", f"{name}.txt"
            subprocess.run([program, "compile", source, *both, *options], cwd=room, stdout=DEVNULL, check=True)
            files |= {it: (room / it).read_bytes() for it in both}
    return files
