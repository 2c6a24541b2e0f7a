"""The preprocessor at hand: what it is told, and what it may take.

It gets names that are no options and no lists of options, an environment of a few names, the file that is prepared or its bytes, and a
limit on its time, its memory and on what it says.
"""
import os
import re
import resource
import shutil
import stat
import subprocess
import sys
import threading
from pathlib import Path
from subprocess import DEVNULL, PIPE
from typing import IO

from failing import LIMIT, NOTHING_AT_HAND, READ_FAULT, REFUSED, Failed, printable, why

PREPROCESSORS = (("gcc", "-E"), ("clang", "-E"), ("cpp",))
# C11 as the standard says it, on a machine of which nothing is known but that char has no sign.
FLAGS = ("-x", "c", "-std=c11", "-ffreestanding", "-nostdinc", "-undef", "-funsigned-char", "-D__WCC__=1")
# What it needs of the environment. Others name folders of headers, programs and options.
KEPT = ("PATH", "HOME", "TMPDIR", "LD_LIBRARY_PATH")
# The most bytes of the file that is prepared, and of what is made of it; the most seconds, and bytes of memory.
MOST, SECONDS, MEMORY = 16777216, 8, 2 << 30
# What it says of a header that isn't there: the place, and the header.
MISSING = re.compile(rb"^(\S.*?): fatal error: '?([^':\n]+)'?(?:: No such file or directory| file not found)$", re.M)
# A fault as it is said, behind its place, and the lines before one that say where its file is included.
FAULT = re.compile(rb"^\S.*?:\d+:(?:\d+:)? ((?:(?:fatal )?error|warning): .*)$", re.M)
INCLUDED = re.compile(rb"^(?:In file included from | +from )")
INCLUDES = re.compile(rb'^[ \t]*#[ \t]*include[ \t]*[<"]([^>"\n]+)[>"]')
# A name in a rule of make: blanks, `#` and `$` are quoted.
IN_RULE = re.compile(rb"(?:\\[ #]|\$\$|\\(?!\n)|[^ \\\n$]|\$)+")
# A file, as a line marker quotes it, and a line of it.
Position = tuple[bytes, int]
BITS = 31
RANGE = b"an annotation takes numbers from 0 to 2147483647"


class Ended:
    """What the preprocessor made, and said, and whether it says that this is all."""

    def __init__(self, made: bytes, said: bytes, is_whole: bool) -> None:
        self.made, self.said, self.is_whole = made, said, is_whole


def named(path: str) -> str:
    """A folder's name as the preprocessor takes it for one: no option, no list of options, and no folder of a system of its own."""
    return f"./{path}" if path.startswith(("-", "@", "=", "$")) else path


def is_odd(path: str) -> bool:
    """Whether a preprocessor hands parts of the name on, where they are an option or a list of options."""
    return os.path.basename(path).startswith(("-", "@"))


def given_of(path: str) -> bytes | None:
    """The bytes of what is prepared, where it is no plain file that the preprocessor can read by its name, else nothing."""
    try:
        with open(path, "rb") as file:
            found = os.fstat(file.fileno())
            is_plain = stat.S_ISREG(found.st_mode)
            data = file.read(MOST + 1) if not is_plain or is_odd(path) else None
    except (OSError, ValueError) as error:
        raise Failed(READ_FAULT, f"{printable(path)} can't be read: {why(error) if isinstance(error, OSError) else error}") from error
    if (found.st_size if data is None else len(data)) > MOST:
        raise Failed(LIMIT, f"{printable(path)} has more than {MOST} bytes")
    return b'# 1 "%s"\n%s' % (quoted(path), data) if is_plain and data is not None else data


def quoted(path: str) -> bytes:
    """A name as a line marker has it."""
    return re.sub(rb'[\\"]|[^ -~]', lambda it: b"\\%03o" % it[0][0], os.fsencode(path))


def limited() -> None:
    """Limits what is called, and no more than this is limited itself."""
    for kind, most in ((resource.RLIMIT_CPU, SECONDS), (resource.RLIMIT_AS, MEMORY)):
        hard = resource.getrlimit(kind)[1]
        most = most if hard == resource.RLIM_INFINITY else min(most, hard)
        resource.setrlimit(kind, (most, most))


def called(words: list[str], given: bytes | None) -> Ended:
    """Runs a command, which is ended where it takes or makes more than it may."""
    environment = {**{it: os.environ[it] for it in KEPT if it in os.environ}, "LC_ALL": "C"}
    ran = subprocess.Popen(words, stdin=DEVNULL if given is None else PIPE, stdout=PIPE, stderr=PIPE, env=environment, preexec_fn=limited,
                           start_new_session=True)
    parts, is_over = {}, threading.Event()

    def end() -> None:
        is_over.set()
        os.killpg(ran.pid, 9)

    def read(stream: IO[bytes]) -> None:
        parts[stream] = stream.read(MOST + 1)
        if len(parts[stream]) > MOST:
            end()

    def feed() -> None:
        try:
            ran.stdin.write(given)
            ran.stdin.close()
        except OSError:
            pass

    timer = threading.Timer(SECONDS, end)
    others = [threading.Thread(target=read, args=(it,), daemon=True) for it in (ran.stdout, ran.stderr)]
    others += [threading.Thread(target=feed, daemon=True)] if given is not None else []
    try:
        for it in (timer, *others):
            it.start()
        for it in others[:2]:
            it.join()
        ran.wait()
    finally:
        timer.cancel()
        if ran.poll() is None:
            os.killpg(ran.pid, 9)
            ran.wait()
    if is_over.is_set():
        raise Failed(LIMIT, f"{words[0]} takes more than {SECONDS} seconds, or makes more than {MOST} bytes")
    return Ended(parts[ran.stdout], parts[ran.stderr], ran.returncode == 0)


def tell(said: bytes) -> None:
    """Says what the preprocessor says, without what a terminal would take for a command."""
    text = "".join(it if it.isprintable() or it in "\n\t" else "?" for it in said.decode(errors="replace"))
    sys.stderr.write(text)
    sys.stderr.flush()


class Preprocessor:
    """The first that is at hand, and what it's told beside its input. `room` is a folder for what it leaves."""

    def __init__(self, include: Path, folders: list[str], macros: list[str], room: str) -> None:
        at_hand = [words for words in PREPROCESSORS if shutil.which(words[0])]
        if not at_hand:
            raise Failed(NOTHING_AT_HAND, "no preprocessor is on PATH. Install gcc, clang or cpp, as by `apt install gcc`")
        self.words, self.room, self.given, self.path, self.name = [*at_hand[0], *FLAGS], room, None, None, None
        # As the system's own the headers would cut each line with a macro of theirs into pieces.
        self.asked = [*(f"-I{it}" for it in (*folders, include)), *(f"-D{it}" for it in macros)]
        self.rule, self.is_each_told = os.path.join(room, "rule"), False

    def run(self, path: str, given: bytes | None) -> tuple[bytes, bool]:
        """What it makes of a file, or of the bytes that are given in its place, as far as it comes, and whether it says that this is all."""
        self.given, self.path, self.name = given, path, path if given is None else "-"
        if given is not None:
            self.asked = ["-iquote", named(os.path.dirname(path) or "."), *self.asked]
        ran = self.preprocessed()
        is_whole = ran.is_whole
        if MISSING.search(ran.said):
            ran = self.without_headers(ran)
        tell(ran.said if self.is_each_told else told_once(ran.said))
        return ran.made, is_whole

    def preprocessed(self, *words: str) -> Ended:
        Path(self.rule).unlink(missing_ok=True)
        return called([*self.words, *self.asked, "-MD", "-MF", self.rule, "-MT", "x", *words, self.name], self.given)

    def files(self) -> set[bytes]:
        """The names of the files that were read, as line markers have them."""
        found = self.in_rule(Path(self.rule).read_bytes()) if os.path.exists(self.rule) else set()
        return {it for it in {*found, os.fsencode(self.path)} if os.path.isfile(it)}

    @staticmethod
    def in_rule(rule: bytes) -> set[bytes]:
        names = IN_RULE.findall(rule.partition(b":")[2].replace(b"\\\n", b" "))
        return {re.sub(rb"\\([ #])|\$(\$)", lambda it: it[1] or it[2], it) for it in names}

    def without_headers(self, ran: Ended) -> Ended:
        """Tells each header that isn't there, and goes on as if it were empty, so that all else is told too."""
        absent = os.path.join(self.room, "absent")
        os.mkdir(absent)
        # All that are missing at once, as files that are yet to be made.
        rule = called([*self.words, *self.asked, "-M", "-MG", "-MT", "x", self.name], self.given).made
        first = MISSING.search(ran.said)
        names = {first[2]} | {it for it in self.in_rule(rule) if not os.path.lexists(it)}
        missing = [it for it in sorted(names) if made_empty(absent, os.fsdecode(it))]
        again = self.preprocessed("-idirafter", absent)
        places = {**self.places(missing), first[2]: first[1]}
        for name in sorted(missing, key=lambda it: it != first[2]):
            place = places.get(name, os.fsencode(self.name))
            tell(place + b": error: no header " + name + b" is there: see \"The C library\" in docs/PORTING.md, or give its folder by -I\n")
        return again

    def places(self, missing: list[bytes]) -> dict[bytes, bytes]:
        """Where headers are asked for first, in the files that were read."""
        found, wanted = {}, set(missing)
        for path in sorted(self.files()):
            try:
                with open(path, "rb") as file:
                    lines = file.read(MOST).split(b"\n")
            except OSError:
                continue
            for number, line in enumerate(lines, 1):
                if (asked := INCLUDES.match(line)) and asked[1] in wanted:
                    found.setdefault(asked[1], b"%s:%d:%d" % (path, number, asked.start(1)))
        return found

    def values(self, asked: list[tuple[bytes, Position]]) -> list[bytes]:
        """The values of constant expressions, each given with its file and line: the bits that #if sees."""
        tests, bits = [], []
        for text, (file, number) in asked:
            at = b'# %d "%s"' % (number, file)
            # What is negative keeps its sign.
            tests += [at, b"#if (%s) >> %d" % (text, BITS), at, b"#error " + RANGE, b"#endif"]
            bits += [b"value"]
            for bit in reversed(range(BITS)):
                bits += [b"#if (%s) >> %d & 1" % (text, bit), b"1", b"#else", b"0", b"#endif"]
        # What is wrong with one is told once, before its bits are asked for.
        self.evaluated(tests, is_told=True)
        return [b"%d" % int(it, 2) for it in b"".join(self.evaluated(bits).split()).split(b"value")[1:]]

    def evaluated(self, lines: list[bytes], is_told: bool = False) -> bytes:
        """What it makes of lines of its own."""
        ran = called([*self.words, "-P", "-"], b"\n".join(lines) + b"\n")
        if is_told:
            tell(ran.said)
        if not ran.is_whole:
            raise Failed(REFUSED, "an annotation isn't one of constants, as said above")
        return ran.made


def told_once(errors: bytes) -> bytes:
    """What a preprocessor says, each fault where it first is, with the number of its places."""
    found, before, kept = {}, [], None
    for line in errors.splitlines(keepends=True):
        if fault := FAULT.match(line):
            is_new = fault[1] not in found
            kept = found.setdefault(fault[1], [[*before, line], 0])
            kept[1] += 1
            before, kept = [], kept[0] if is_new else None
        elif INCLUDED.match(line):
            before.append(line)
        elif kept is not None:
            kept.append(line)
        elif not found:
            before.append(line)
    return b"".join(counted(lines, places) for lines, places in found.values()) + b"".join(before)


def counted(lines: list[bytes], places: int) -> bytes:
    """The lines of a fault, the first of which that says it with the number of its places."""
    at = next(number for number, line in enumerate(lines) if FAULT.match(line))
    note = b" (%d places)" % places if places > 1 else b""
    return b"".join([*lines[:at], lines[at].rstrip(b"\n") + note + b"\n", *lines[at + 1:]])


def made_empty(folder: str, header: str) -> bool:
    """Makes an empty header within a folder, and answers whether it wasn't there and is now."""
    path = Path(folder, header)
    if ".." in path.parts or not path.is_relative_to(folder):
        return False
    try:
        path.parent.mkdir(parents=True, exist_ok=True)
        path.touch(exist_ok=False)
    except OSError:
        return False
    return True
