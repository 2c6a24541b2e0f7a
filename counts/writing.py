"""Writes the bounds that were seen: into a new source, or into the files of the user that line markers name."""
import os
import re
import stat
from collections.abc import Iterator
from pathlib import Path

from counts.said import Report
from counts.seen import Seen
from places import Place, printable

# Of a file the bounds of loops, the least and the most, by their lines and columns.
Bounds = dict[tuple[int, int], tuple[int, int]]

MACRO, ALONE, WITHIN = "LOOPBOUND({}, {})", "#pragma loopbound min {} max {}", '_Pragma("loopbound min {} max {}")'
ODD = "surrogateescape"
LOOP = re.compile(r"(?:for|while|do)\b")


class Unwritten(Exception):
    """What is said can't be written, or a file: why."""


def with_bounds(source: bytes, seen: Seen) -> bytes:
    """The source with the bound that was seen of each loop that has none."""
    bounds = sorted((loop.at, f'_Pragma("loopbound min {least} max {most}") '.encode()) for loop, least, most in seen.missing())
    ends = [0, *(at for at, _ in bounds)]
    return b"".join(source[start:at] + bound for start, (at, bound) in zip(ends, bounds)) + source[ends[-1]:]


def write_new(path: str, data: bytes) -> None:
    """Writes a file that isn't there yet, by no name and no link, whole or not at all."""
    try:
        file = open(path, "xb")
        try:
            with file:
                file.write(data)
        except BaseException:
            os.unlink(path)
            raise
    except OSError as error:
        raise Unwritten(f"`{printable(path)}` isn't written: {error.strerror}") from error


def rewrite(path: str, data: bytes) -> None:
    """Writes a file apart, and then puts it in its place, with its rights."""
    path = os.path.realpath(path)
    apart = os.path.join(os.path.dirname(path), f".wcc-{os.getpid()}-{os.urandom(4).hex()}")
    try:
        file = open(apart, "xb")
        try:
            with file:
                file.write(data)
            os.chmod(apart, stat.S_IMODE(os.stat(path).st_mode))
            os.replace(apart, path)
        except BaseException:
            os.unlink(apart)
            raise
    except OSError as error:
        raise Unwritten(f"`{printable(path)}` isn't written: {error.strerror}") from error


# The user's own files

def by_files(report: Report, seen: Seen) -> tuple[dict[str, Bounds], list[Place]]:
    """The bounds by the files that their loops stand in, from line and column; and the places that aren't in such a file.

    The least is 0, which always holds and seldom makes a bound greater.
    """
    files, elsewhere = {}, []
    for loop, _, most in seen.missing():
        place = report.place(loop.at)
        # A source can name any file: only what was prepared from a file is written into it.
        if place.is_there and LOOP.match(place.line[place.column - 1:]) and report.lines.is_own(place.file.name):
            bounds = files.setdefault(place.file.name, {})
            at = place.number, place.column
            bounds[at] = 0, max(most, bounds.get(at, (0, 0))[1])
        else:
            elsewhere.append(place)
    return files, elsewhere


def bounded(text: str, bounds: Bounds, has_macros: bool) -> str:
    """A file's text with these bounds, each on a line of its own before its loop where nothing else stands there."""
    lines = text.split("\n")
    for (number, column), bound in sorted(bounds.items(), reverse=True):
        line = lines[number - 1]
        before = line[:column - 1]
        if not LOOP.match(line[column - 1:]):
            raise Unwritten(f"line {number} isn't as it was prepared any more")
        if before.strip():
            lines[number - 1] = f"{before}{(MACRO if has_macros else WITHIN).format(*bound)} {line[column - 1:]}"
        else:
            lines.insert(number - 1, before + (MACRO if has_macros else ALONE).format(*bound) + '\r' * line.endswith('\r'))
    return "\n".join(lines)


def write_own(report: Report, seen: Seen) -> Iterator[str]:
    """Writes the bounds into the files that the loops stand in, and says so."""
    files, elsewhere = by_files(report, seen)
    has_macros = report.written().bound.startswith("LOOPBOUND")
    made = {}
    for name, bounds in files.items():
        try:
            made[name] = bounded(Path(name).read_bytes().decode(errors=ODD), bounds, has_macros).encode(errors=ODD)
        except (OSError, IndexError) as error:
            raise Unwritten(f"`{printable(name)}` can't be read: {getattr(error, 'strerror', None) or error}") from error
        except Unwritten as why:
            raise Unwritten(f"`{printable(name)}` isn't written: {why}. Prepare it again") from None
    for name, data in made.items():
        rewrite(name, data)
    for name, bounds in files.items():
        yield f"Written into {printable(name)}: {len(bounds)} {'bound' if len(bounds) == 1 else 'bounds'}. Look at each: it is your promise."
    for place in elsewhere:
        yield f"{place}: a macro makes this loop, or its file isn't as it was prepared, so write its bound yourself."
    if not files and not elsewhere:
        yield "No loop that was entered lacks a bound, so nothing is written."
