"""Where a byte of a source stands, as people name it: the file, line and column that line markers say."""
import os
import re
import stat
from bisect import bisect_right
from collections.abc import Iterator
from pathlib import Path

# How `./wcc prepare` names the folder of its headers in line markers, and where that is here.
OWN_HEADERS, INCLUDE = b"<wcc>/", os.fsencode(Path(__file__).resolve().parent.parent / "include") + b"/"
WIDEST = 100
LONGEST = 1048576
# The beginning of a list of files.
LISTED = re.compile(rb"[0-9a-f]{64}  ")
# Parts of a line that was cut are looked for so many bytes and lines away.
LOOKED_AT, PARTS = 4000, 40

# Pieces of a source in which no other one begins: a line marker begins a line, but for blanks and comments. What isn't
# closed goes on as far as it can, so that no byte is looked at again and again.
PIECE = re.compile(
    rb"""/\*.*?(?:\*/|\Z)|//[^\n]*|\n|#|(?:[^\n/"'#]+|"(?:[^"\\\n]|\\[^\n])*"?|'(?:[^'\\\n]|\\[^\n])*'?|/(?![*/]))+""", re.DOTALL)
MARKER = re.compile(rb'#[ \t]*(?:line[ \t]+)?([0-9]+)(?:[ \t]+"((?:[^"\\\n]|\\[^\n])*)"((?:[ \t]+[1-4])*))?(?![^\s/])')
ESCAPE = re.compile(rb"\\([0-7]{1,3}|.)")
# What a preprocessor adds to a marker: a file begins, which another one includes, and that one goes on.
BEGINS, GOES_ON, OF_SYSTEM = b"1", b"2", b"3"


def printable(text: str) -> str:
    return "".join(it if it.isprintable() or it == "\t" else "?" for it in text)


def name_in_marker(name: bytes) -> str:
    """A file's name as a line marker quotes it: a backslash and octal digits are a byte. A header of include/ is the one of this checkout."""
    def byte(match: re.Match[bytes]) -> bytes:
        return bytes([int(match[1], 8) & 255]) if match[1][:1].isdigit() else match[1]
    name = ESCAPE.sub(byte, name)
    header = name.removeprefix(OWN_HEADERS)
    return (INCLUDE + header if header != name and b"/" not in header else name).decode(errors="replace")


class Line:
    """A line's beginning in the source, its number and its file."""
    __slots__ = ("start", "number", "file")

    def __init__(self, start: int, number: int, file: "File") -> None:
        self.start, self.number, self.file = start, number, file

    def __str__(self) -> str:
        return f"{self.file}:{self.number}"


class File:
    """A file's name, the line that includes it, or None, and whether it is a header of the system."""

    def __init__(self, name: str, includer: Line | None = None, of_system: bool = False) -> None:
        self.name, self.includer, self.of_system = name, includer, of_system

    def __str__(self) -> str:
        return self.name


# The tokens of a line, but for comments, as far as it takes to tell them from each other.
TOKEN = re.compile(r"""/\*.*?(?:\*/|$)|//.*|\w+|"(?:[^"\\]|\\.)*"?|'(?:[^'\\]|\\.)*'?|\S""")
# A pragma on a line of its own, as a macro of <wcc.h> leaves it, and that macro.
MACROS = {"loopbound": "LOOPBOUND", "marker": "MARKER", "flowrestriction": "RESTRICTION"}
OF_MACRO = re.compile(rf"#pragma ({'|'.join(MACROS)})\b")


def tokens_in(line: str) -> list[tuple[int, str]]:
    """The places and texts of the tokens of a line."""
    return [(it.start(), it[0]) for it in TOKEN.finditer(line) if not it[0].startswith(("/*", "//"))]


def plain(name: str | bytes, most: int) -> bytes:
    """What a plain file of at most so many bytes holds, or nothing. The files of the system itself have no size, and aren't read."""
    try:
        with open(name, "rb", opener=lambda path, flags: os.open(path, flags | os.O_NONBLOCK)) as file:
            found = os.fstat(file.fileno())
            return file.read(most) if stat.S_ISREG(found.st_mode) and 0 < found.st_size <= most else b""
    except (OSError, ValueError):
        return b""


def digest_of(data: bytes) -> str:
    import hashlib
    return hashlib.sha256(data).hexdigest()


def list_beside(source: str) -> str:
    """The name of the list of files that were read for a source: `prepare` writes it, in the form of sha256sum."""
    return f"{source}.files"


def may_be_list(path: str) -> bool:
    """Whether a list may be written there: nothing stands there, or an older one."""
    return not os.path.lexists(path) or LISTED.match(plain(path, LONGEST)) is not None


class Given:
    """The files whose lines may be shown beside a source: those that `prepare` read for it, while they are what it read, and the headers
    of include/. A source can name any file in its line markers; so no other one is opened, and none is shown of which the list
    doesn't say what it holds."""

    def __init__(self, source: str) -> None:
        rows = [it.split(b"  ", 1) for it in plain(list_beside(source), LONGEST).split(b"\n")]
        self.digests = {printable(row[1].decode(errors="replace")): (row[1], row[0].decode(errors="replace")) for row in rows if len(row) == 2}

    def lines(self, name: str) -> list[str]:
        """The lines of a file, or none where they may not be shown."""
        path, digest = self.digests.get(name, (None, None))
        is_own = os.path.dirname(name) == os.fsdecode(INCLUDE)[:-1]
        data = plain(path or name, LONGEST) if path or is_own else b""
        if not is_own and digest_of(data) != digest:
            return []
        return [printable(it.rstrip("\r")) for it in data.decode(errors="replace").split("\n")]


def place_before(own: str, line: str, at: int, is_first: bool, is_last: bool) -> int | None:
    """The place in a line before preprocessing of what stands at a place of it behind, of which this may be a first or last part;
    or None where that isn't sure."""
    before, behind = tokens_in(own), tokens_in(line)
    if pragma := OF_MACRO.match(line):
        places = [place for place, text in before if text == MACROS[pragma[1]]]
        if places:
            return places[0] if len(places) == 1 else None
    index = next((number for number, it in enumerate(behind) if it[0] == at), None)
    if index is None:
        return None
    words, others = [it[1] for it in before], [it[1] for it in behind]
    if is_first and words[:index + 1] == others[:index + 1]:
        return before[index][0]
    rest = len(others) - index
    return before[-rest][0] if is_last and words[-rest:] == others[index:] else None


class Lines:
    """The lines of a source. They are read once, as far as places are asked for."""

    def __init__(self, path: str, source: bytes) -> None:
        self.source, self.path = source, printable(path)
        # The lines of the files that line markers name, as far as they were asked for.
        self.files, self.given = {}, Given(path)
        self.lines = [Line(0, 1, File(printable(path)))]
        self.read = 0
        # Whether nothing but blanks and comments stands before what is read on its line.
        self.fresh = True

    def read_up_to(self, at: int) -> None:
        while self.read < at:
            if self.fresh and self.source.startswith(b"#", self.read):
                self.directive()
            else:
                self.piece()

    def piece(self) -> None:
        piece = PIECE.match(self.source, self.read)[0]
        if b"\n" in piece:
            last = self.lines[-1]
            for number, match in enumerate(re.finditer(rb"\n", piece), last.number + 1):
                self.lines.append(Line(self.read + match.end(), number, last.file))
        self.fresh = piece == b"\n" or self.fresh and (piece.isspace() or piece.startswith((b"/*", b"//")))
        self.read += len(piece)

    def directive(self) -> None:
        """A line that begins with `#`. It is the line behind a marker that has its number."""
        end = self.source.find(b"\n", self.read)
        end = len(self.source) if end < 0 else end
        marker = MARKER.match(self.source, self.read, end)
        self.read = min(end + 1, len(self.source))
        if end == len(self.source):
            return
        last = self.lines[-1]
        if not marker:
            self.lines.append(Line(end + 1, last.number + 1, last.file))
            return
        file = last.file if marker[2] is None else self.file(printable(name_in_marker(marker[2])), (marker[3] or b"").split())
        self.lines.append(Line(end + 1, int(marker[1][-18:]), file))

    def file(self, name: str, flags: list[bytes]) -> File:
        """The file that a marker behind the last line names."""
        last = self.lines[-1]
        includer = last.file.includer
        if BEGINS in flags:
            includer = last
        elif GOES_ON in flags:
            while includer is not None and includer.file.name != name:
                includer = includer.file.includer
            includer = includer and includer.file.includer
        return File(name, includer, OF_SYSTEM in flags)

    def line_at(self, at: int) -> Line:
        self.read_up_to(at)
        return self.lines[self.index_at(at)]

    def index_at(self, at: int) -> int:
        return bisect_right(self.lines, at, key=lambda it: it.start) - 1

    def place(self, at: int) -> "Place":
        return Place(self, at)

    def is_end_of_parts(self, line: Line) -> tuple[bool, bool]:
        """Whether a line is the first and the last one of its number, as a preprocessor puts pragmas on lines of their own."""
        self.read_up_to(min(len(self.source), line.start + LOOKED_AT))
        index = self.index_at(line.start)
        near = self.lines[max(0, index - PARTS):index + PARTS]
        parts = [it for it in near if str(it) == str(line) and self.source[it.start:it.start + LOOKED_AT].partition(b"\n")[0].strip()]
        return parts[:1] == [line], parts[-1:] == [line]

    def own_line(self, line: Line) -> str | None:
        """A line as it stands in the file that line markers name, or None where it can't be had."""
        name = line.file.name
        if name == self.path:
            return None
        if name not in self.files:
            self.files[name] = self.given.lines(name)
        lines = self.files[name]
        return lines[line.number - 1] if 0 < line.number <= len(lines) else None

    def is_own(self, name: str) -> bool:
        """Whether a file is the source itself, or one that prepare read for it and that is as it was then."""
        return name == self.path or name in self.given.digests and bool(self.given.lines(name))


class Place:
    """A byte place in a source, as people name it."""

    def __init__(self, lines: Lines, at: int) -> None:
        source = lines.source
        if at == len(source):
            # Behind the end: the end of the last line that has something.
            at = len(source.rstrip())
        line = lines.line_at(at)
        end = source.find(b"\n", line.start)
        text = source[line.start:len(source) if end < 0 else end].rstrip(b"\r")
        before = printable(text[:at - line.start].decode(errors="replace"))
        self.file, self.number, self.column = line.file, line.number, len(before) + 1
        self.line = before + printable(text[at - line.start:].decode(errors="replace"))
        # Whether the column is that of the file, and not only that of the preprocessed line.
        self.is_there = True
        own = lines.own_line(line)
        if own is not None and own != self.line:
            self.go_to(own, *lines.is_end_of_parts(line))

    def go_to(self, own: str, is_first: bool, is_last: bool) -> None:
        """Makes this the place in a line as it was before preprocessing, where that can be found."""
        at = place_before(own, self.line, self.column - 1, is_first, is_last)
        self.is_there = at is not None
        if self.is_there:
            self.line, self.column = own, at + 1

    def __str__(self) -> str:
        return f"{self.file}:{self.number}:{self.column}" if self.is_there else f"{self.file}:{self.number}"

    def includers(self) -> Iterator[str]:
        """The lines that include the file of the place, from the nearest one on: those of files, not of a command."""
        line = self.file.includer
        while line is not None and not line.file.name.startswith("<"):
            yield str(line)
            line = line.file.includer

    def shown(self) -> list[str]:
        """The line, cut where it is long, and a caret below the place."""
        first = max(0, self.column - WIDEST // 2) if len(self.line) > WIDEST else 0
        line, behind = self.line[first:first + WIDEST], len(self.line) > first + WIDEST
        dots = "..." if first else ""
        blanks = "".join("\t" if it == "\t" else " " for it in self.line[first:self.column - 1])
        head = f"{self.number:5} | "
        return [f"{head}{dots}{line}{'...' if behind else ''}", " " * (len(head) - 2) + "| " + " " * len(dots) + blanks + "^"]
