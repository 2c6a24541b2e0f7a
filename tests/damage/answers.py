"""What each command may answer, and what must hold of an answer."""
import re

from kinds import NUMBERS, OLDER, TABLE, Kind

REFUSED = r"refused (?:bad|outside|syntax|type-(?:[1-9]|1[0-6])|recursion|pragma|name|bound) at \d+"
PASSED = r"limit (?:depth|nodes|functions|parameters|markers|restrictions|globals|locals|most) \d+"
TABLES = r"refused table-[123] at \d+"
TOO_LONG = r"limit (?:image|report|input|table|tasks|source) \d+"
NO = (r"no (?:image-[123] \d+|report-[12] \d+|claim \d+|code [0-9a-f]{8}|missing [0-9a-f]{8}|sign \d+|wide [0-9a-f]{8}|move [0-9a-f]{8} \d+|value|"
      r"flow [0-9a-f]{8}|unmet \d+|greatest|empty|share [0-9a-f]{8})")
CYCLES = r"cycles \d+ (?:greatest|empty|wide|spent)"
# What each command may print, by its status.
ANSWERS = {
    "compile": {0: CYCLES, 1: f"{REFUSED}|{TABLES}", 3: f"{PASSED}|{TOO_LONG}"},
    "eval": {0: r"value -?\d+ bytes \d+", 1: REFUSED, 3: f"{PASSED}|{TOO_LONG}", 8: r"undefined [1-8] at \d+|broken at \d+"},
    "run": {0: r"exit -?\d+ cycles \d+", 1: rf"refused image-[123] at \d+|{TABLES}", 3: TOO_LONG,
            8: r"trap [1-6] at [0-9a-f]{8} cycles \d+|(?:limit|full) at [0-9a-f]{8} cycles \d+"},
    "check": {0: r"yes \d+(?: greatest)?", 1: TABLES, 3: TOO_LONG, 7: NO},
    "report": {0: rf"{CYCLES}\nloops \d+ facts \d+(?:\nshare \S+ \d+ over \d+)*", 1: r"refused report-[12] at \d+", 3: TOO_LONG},
    "respond": {0: r"response \w+ \d+(?:\nresponse \w+ \d+)*", 1: rf"refused tasks-[12] at \d+|{TABLES}", 3: TOO_LONG, 4: "read fault", 7: NO, 8: r"late \d+"},
    "make": {0: rf"made \d+ bytes\n{CYCLES}\nran \d+ exit -?\d+ bytes \d+"},
    "show": {0: r"[\s\S]*", 1: rf"(?:{REFUSED}|{TABLES})(?:\n[\s\S]*)?", 3: rf"(?:{PASSED}|{TOO_LONG})(?:\n[\s\S]*)?", 7: rf"(?:{NO})(?:\n[\s\S]*)?", 8: r"[\s\S]*"},
    "counts": {0: r"[\s\S]*", 1: rf"{REFUSED}\n[\s\S]*", 3: rf"(?:{PASSED}|{TOO_LONG})\n[\s\S]*", 8: r"[\s\S]*"},
    "prepare": {0: "", 1: ""},
}
# The files that a command writes, and the statuses with which it does.
WRITES = {"compile": (("b.elf", "b.txt"), (0,)), "eval": (("b.out",), (0,)), "run": (("b.out",), (0, 8)),
          "make": (("b.c", "b.elf", "b.txt"), (0,)), "show": (("b.html", "b.elf"), (0,)), "prepare": (("b.c",), (0,))}
# What `prepare` writes beside b.c.
LIST = "b.c.files"
# The lines of a report that say what it claims, and not why.
CLAIM = re.compile(rb"^(?:exit|never|region|loop|fact) .*$", re.M)
LOOP = re.compile(rb"^(loop \S+ \S+ \S+ \S+ \S+ \S+) \S+ \S+$|^fact \S+ ", re.M)


def answer_faults(kind, ended):
    """Whether the status, and with it the line, is one of the command's."""
    wanted = ANSWERS[kind.words[0]]
    if kind.harms in NUMBERS:
        wanted = wanted if is_in_range(kind) else {2: "usage"}
    end = "" if kind.tool == "prepare" else "\n"
    if not re.fullmatch(f"(?:{wanted.get(ended.status, '(?!)')}){end}", ended.out.decode("latin-1")):
        yield f"status {ended.status} and {ended.out[:200]!r}"
    # What the preprocessor says is no matter here.
    if ended.error and (kind.tool != "prepare" or b"Traceback" in ended.error):
        yield f"it said {ended.error[:200]!r}"


def is_in_range(kind):
    least, most = NUMBERS[kind.harms]
    text = kind.words[place_of(kind)]
    return re.fullmatch(r"\+?[0-9]+", text) is not None and least <= int(text) <= most


def place_of(kind):
    """Where among the words the number stands."""
    return kind.words.index(kind.harms) + 1


def file_faults(kind, ended, given):
    """Each file is as it was, but for those that are written with this status."""
    names, when = WRITES.get(kind.words[0], ((), ()))
    written = {*names} & {*kind.words} if ended.status in when else {*()}
    written |= {LIST} if kind.tool == "prepare" and LIST in ended.left and written else {*()}
    for name in given.keys() | ended.left.keys():
        if name in written:
            if ended.left.get(name) in (None, OLDER):
                yield f"{name} was not written"
        elif ended.left.get(name) != given.get(name):
            yield f"{name} was changed"


def too_small(old, new, line):
    """A bound below the greatest can't be accepted of the claims as they were."""
    def claims(report):
        return [LOOP.sub(rb"\1", it) for it in CLAIM.findall(report)]
    greatest = int(re.search(rb"^cycles (\d+)$", old, re.M)[1])
    if b"\nkind greatest\n" in old and claims(old) == claims(new) and int(line.split()[1]) < greatest:
        yield f"{line!r} of the claims as they were, whose greatest is {greatest}"


def unaccepted(call, kind, files, ended):
    """What is compiled is accepted with the cycles that were printed."""
    table = TABLE if "--table" in kind.words else ()
    both = {it: ended.left.get(it, b"") for it in ("b.elf", "b.txt")} | {"costs.toml": files["costs.toml"]}
    out = call(Kind(("check", "b.elf", "b.txt", *table), "b.txt", ()), both).out
    cycles, way = ended.out.decode().split()[1:]
    if out.decode() != f"yes {cycles}{' greatest' * (way == 'greatest')}\n":
        yield f"{ended.out!r}, but check says {out!r}"
