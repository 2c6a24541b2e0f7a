"""Makes a source of a C file: `./wcc prepare FILE [-I DIR] [-D NAME[=VALUE]] [--every] -o SOURCE`.

It runs the preprocessor at hand with the headers of include/ and none of the system's. Line markers stay. In the annotations
constant expressions become numbers, by the same preprocessor. What is written doesn't depend on where include/ lies. The source
is written whole or not at all; beside it stands a list of the files that were read for it, by which explain/ may show their lines.
"""
import os
import sys

HERE = os.path.dirname(os.path.realpath(__file__))
sys.path[:0] = [HERE, os.path.join(os.path.dirname(HERE), "explain")]
import guard  # noqa: E402
import argparse  # noqa: E402
import re  # noqa: E402
import stat  # noqa: E402
import tempfile  # noqa: E402
from collections.abc import Iterable, Iterator  # noqa: E402
from pathlib import Path  # noqa: E402
from typing import NoReturn  # noqa: E402

from failing import LIMIT, READ_FAULT, REFUSED, WRITE_FAULT, WRONG_WORDS, Failed, printable, why  # noqa: E402
from places import digest_of, list_beside, may_be_list, plain  # noqa: E402
from preprocessing import MOST, Position, Preprocessor, given_of, named  # noqa: E402

TOP = Path(__file__).resolve().parent.parent
sys.path[:0] = [str(TOP / "explain")]
from names import LIBRARY  # noqa: E402

INCLUDE = TOP / "include"
# How line markers of a source name the folder include/, wherever it lies; explain/places.py reads it so.
OWN_HEADERS = b"<wcc>/"
DESCRIPTION = "Makes a source for compile and eval of a C file, by the preprocessor at hand and the headers of include/."
ABOUT = "docs/PORTING.md says what the language leaves out and what to write instead, and what the headers have."

LINE_MARKER = re.compile(rb'# (\d+) "((?:[^"\\]|\\.)*)"')
ESCAPE = re.compile(rb"\\([0-7]{1,3}|.)")
ANNOTATION = re.compile(rb"[ \t]*#[ \t]*pragma[ \t]+(loopbound|flowrestriction)\b(.*)")
BOUND = re.compile(rb"\s*min\s+(\S.*?)\s+max\s+(\S.*?)\s*")
# The parts of a restriction: a name that is counted, with its `*` before and what stands behind; words and other bytes are of the number.
PART = re.compile(rb"\*\s*([A-Za-z_]\w*)\s*(<=|>=|=|\+|$)|\w+|\W")
LONGEST_NUMBER = 4096
PLAIN = re.compile(rb"0|[1-9][0-9]*")
NAME = re.compile(rb"(?<![\w.])[A-Za-z_]\w*")
CHARACTER = re.compile(rb"'(?:[^'\\]|\\.)*'")
TYPES = frozenset(b"void char short int long signed unsigned float double const struct union enum _Bool".split())
# A declaration of a name, on its line.
DECLARED = rb"\b(?:char|short|int|long|signed|unsigned|const)\s+(?:\w+\s*(?:=[^,;]*)?,\s*)*%s\s*[=;,)[]"
# What stands in many programs and isn't in the language, by the part of docs/PORTING.md that says what to write instead.
OUTSIDE = {
    "Names of types": ("typedef",), "enum": ("enum",), "struct": ("struct",), "union and bit-fields": ("union",),
    "float and double": ("float", "double"), "sizeof": ("sizeof",), "goto": ("goto",), "_Bool": ("_Bool",),
    "volatile": ("volatile",), "Functions of any number of arguments": ("...",), "Assembler": ("asm", "__asm", "__asm__"),
    "Words for the compiler": ("register", "restrict", "_Noreturn", "_Alignas", "__attribute__", "__inline", "__inline__"),
}
PART_OF_WORD = {word: part for part, words in OUTSIDE.items() for word in words}
# The same of what isn't a word alone, with what it is called.
FORMS = {
    "string": ("Strings", "a string"), "function": ("Pointers to functions", "a pointer to a function"),
    "pointer": ("Pointers", "a pointer"), "address": ("Pointers", "an address"),
    "matrix": ("Arrays of two dimensions", "an index behind another one"),
    "designator": ("Named places in lists", "a named place in a list"), "floating": ("float and double", "a floating number"),
    "wide": ("long long", "`long long`"),
}
PIECE = re.compile(rb"""
    (?P<string>"(?:[^"\\]|\\.)*") | '(?:[^'\\]|\\.)*' | \.\.\.(?=\s*\))
    | (?P<function>\(\s*\*\s*(?:const\s*)?\w*\s*(?:\[[^][]*\]\s*)?\)\s*\()
    | (?P<pointer>\b(?:void|char|short|int|long|signed|unsigned|const)\s*\*(?!=) | ->)
    | (?P<address>(?:[=(,]|\breturn)\s*&(?!&))
    | (?P<designator>[{,]\s*(?:\[[^][]*\]|\.\s*[A-Za-z_]\w*)\s*=(?!=))
    | (?P<matrix>\]\s*\[)
    | (?P<wide>\blong\s+long\b)
    | (?P<floating>(?<![\w.])(?:(?:[0-9]+\.(?!\.)[0-9]*|\.[0-9]+)(?:[eE][+-]?[0-9]+)?|[0-9]+[eE][+-]?[0-9]+)[fFlL]?)
    | (?P<static>\bstatic\b) | (?P<called>\b[A-Za-z_]\w*(?=\s*\()) | [A-Za-z_]\w* | [{}]""", re.X)
# The macros of <wcc.h>, of which none is left where it is included.
ANNOTATED = (b"LOOPBOUND", b"MARKER", b"RESTRICTION")


def headers() -> str:
    return ", ".join(f"<{it.name}>" for it in sorted(INCLUDE.glob("*.h")))


def name_in_marker(quoted: bytes) -> bytes:
    def byte(match: re.Match[bytes]) -> bytes:
        return bytes([int(match[1], 8) & 255]) if match[1][:1].isdigit() else match[1]
    return ESCAPE.sub(byte, quoted)


def shown(file: bytes, number: int) -> str:
    return f"{printable(os.fsdecode(name_in_marker(file)))}:{number}"


def is_pragma_at(file: bytes, number: int, read: set[bytes]) -> bool:
    """Whether an annotation stands in #pragma in a file that was read, as far as that can be told."""
    name = name_in_marker(file)
    lines = plain(os.fsdecode(name), MOST).split(b"\n") if name in read else []
    return number <= len(lines) and re.match(rb"\s*#\s*pragma\b", lines[number - 1]) is not None


def placed(lines: list[bytes]) -> Iterator[tuple[int, bytes, Position]]:
    """Each line with its index, and the file and the number that the line markers before it say."""
    file, number = b"", 0
    for index, line in enumerate(lines):
        number += 1
        if marker := LINE_MARKER.match(line):
            file, number = marker[2], int(marker[1]) - 1
        else:
            yield index, line, (file, number)


def terms_of(text: bytes) -> list[tuple[bytes, bytes, bytes]] | None:
    """The terms of a restriction, each a number, a name and the sign behind it; or nothing where it's of another form."""
    terms, start, at = [], 0, 0
    while at < len(text):
        part = PART.match(text, at)
        at = part.end()
        if part[1] is not None:
            number = text[start:part.start()].strip()
            if not number:
                return None
            terms.append((number, part[1], part[2]))
            start = at
        elif part[0][:1].isalpha() or part[0][:1] == b"_":
            return None
    return None if text[start:].strip() or not terms else terms


class Annotations:
    """The lines of a preprocessed text, in whose annotations numbers may be expressions."""

    def __init__(self, text: bytes, read: set[bytes]) -> None:
        self.lines, self.asked, self.read = text.split(b"\n"), [], read
        # The parts of each line that has an expression, which are texts and numbers of what is asked.
        self.parts = {}
        for index, line, place in placed(self.lines):
            if annotation := ANNOTATION.fullmatch(line.rstrip(b"\r")):
                self.note(index, annotation[1], annotation[2], place)

    def note(self, index: int, kind: bytes, text: bytes, place: Position) -> None:
        """Keeps what is an expression in an annotation. One of another form is left to the compiler to refuse."""
        if kind == b"loopbound":
            bound = BOUND.fullmatch(text)
            parts = bound and [b"#pragma loopbound min ", bound[1], b" max ", bound[2]]
        else:
            terms = terms_of(text)
            parts = terms and [b"#pragma flowrestriction"]
            for number, name, sign in terms or ():
                parts[-1] += b" "
                parts += [number, b"*%s %s" % (name, sign)]
        if not parts or all(PLAIN.fullmatch(it) for it in parts[1::2]):
            return
        self.parts[index] = [self.ask(it, place) if odd % 2 else it for odd, it in enumerate(parts)]

    def ask(self, text: bytes, place: Position) -> bytes | int:
        """The text where it is a number, and else its place among what is asked."""
        if PLAIN.fullmatch(text):
            return text
        if len(text) > LONGEST_NUMBER:
            raise Failed(REFUSED, f"{shown(*place)}: a number in an annotation has more than {LONGEST_NUMBER} bytes")
        if name := NAME.search(CHARACTER.sub(b"0", text)):
            raise Failed(REFUSED, f"{shown(*place)}: `{name[0].decode(errors='replace')}` is no number. {self.why_none(name[0], place)}")
        self.asked.append((text, place))
        return len(self.asked) - 1

    def why_none(self, name: bytes, place: Position) -> str:
        """Why a name in an annotation has no value."""
        if name in TYPES:
            return "Nothing is cast in an annotation: leave the cast out, or write the number"
        if name == b"sizeof":
            return "Nothing knows sizes where an annotation is computed: write the macro that sizes the array"
        if is_pragma_at(*place, self.read):
            return "In #pragma no macro is replaced: write LOOPBOUND or RESTRICTION of <wcc.h>, which docs/PORTING.md explains"
        if any(re.search(DECLARED % re.escape(name), it) for it in self.lines):
            return "It is an object, of which no preprocessor knows the value, const or not: make it a macro by #define"
        return "It is no macro here: perhaps a -D, a #define or the #include of its header is missing, or stands further down"

    def filled(self, values: list[bytes]) -> bytes:
        """The text, with these values for what is asked."""
        for index, parts in self.parts.items():
            self.lines[index] = b"".join(it if isinstance(it, bytes) else values[it] for it in parts).rstrip()
        return b"\n".join(self.lines)


def with_own_headers(text: bytes) -> bytes:
    """The text, with the headers of include/ named in its line markers as they are in every checkout."""
    folder, lines = os.fsencode(INCLUDE) + b"/", text.split(b"\n")
    for index, line in enumerate(lines):
        if (marker := LINE_MARKER.match(line)) and name_in_marker(marker[2]).startswith(folder):
            name = OWN_HEADERS + name_in_marker(marker[2]).removeprefix(folder)
            lines[index] = b'# %s "%s"%s' % (marker[1], name, line[marker.end():])
    return b"\n".join(lines)


def is_one_file(path: str, other: str | bytes) -> bool:
    try:
        return os.path.samestat(os.stat(path), os.stat(other))
    except OSError:
        return False


def refuse_aliases(source: str, files: Iterable[str | bytes]) -> None:
    """The source may be a device, and none of the files that were read."""
    if not os.path.isfile(source):
        return
    for it in files:
        if is_one_file(source, it):
            raise Failed(WRONG_WORDS, f"{printable(os.fsdecode(it))} and {printable(source)} are one file, which would be lost. Nothing is changed")


def write(path: str, data: bytes) -> None:
    """Writes a file apart and then puts it in its place, with the rights of the one that was there."""
    if os.path.exists(path) and not os.path.isfile(path):
        with open(path, "wb") as device:
            device.write(data)
        return
    path = os.path.realpath(path)
    apart = os.path.join(os.path.dirname(path), f".wcc-{os.getpid()}-{os.urandom(4).hex()}")
    file = open(apart, "xb")
    try:
        with file:
            file.write(data)
            file.flush()
            os.fsync(file.fileno())
        if os.path.exists(path):
            os.chmod(apart, stat.S_IMODE(os.stat(path).st_mode))
        os.replace(apart, path)
    except BaseException:
        os.unlink(apart)
        raise


def write_list(source: str, read: set[bytes]) -> None:
    """Writes beside a source which files were read for it, each with its digest, but for the headers of include/, unless something
    else has that name. Where that can't be, lines of these files aren't shown, and all else is as it is."""
    path = list_beside(source)
    try:
        if not may_be_list(path):
            return
        lines = [f"{digest_of(plain(it, MOST))}  ".encode() + it for it in sorted(read)
                 if b"\n" not in it and b"\\" not in it and os.path.dirname(it) != os.fsencode(INCLUDE)]
        write(path, b"".join(it + b"\n" for it in lines))
    except OSError:
        pass


def outside(text: bytes) -> Iterator[tuple[Position, str, str]]:
    """What isn't in the language: its place, the part of the page that is about it, and what it is called."""
    depth, own = 0, set()
    for _, line, place in placed(text.split(b"\n")):
        for it in PIECE.finditer(line) if not line.lstrip().startswith(b"#") else ():
            kind, word = it.lastgroup, it[0].decode(errors="replace")
            depth += (word == "{") - (word == "}")
            if kind in FORMS:
                yield place, *FORMS[kind]
            elif kind == "static" and depth:
                yield place, "Objects that stay", "a `static` object in a function"
            elif kind == "called" and word in LIBRARY:
                # At file level it is declared, and so one's own.
                own |= set() if depth else {word}
                if word not in own:
                    yield place, "The C library", f"`{word}`"
            elif kind == "called" and it[0] in ANNOTATED:
                yield place, "Annotating", f"`{word}` without `#include <wcc.h>`"
            elif word in PART_OF_WORD:
                yield place, PART_OF_WORD[word], f"`{word}`"
            depth += word.startswith("{") and len(word) > 1


def tell_outside(text: bytes, is_each_told: bool) -> None:
    """Says on standard error what isn't in the language, by the part of the page that is about it: where it stands first and how
    often, or each place."""
    found = {}
    for place, part, what in outside(text):
        found.setdefault((part, what) if not is_each_told else (part, what, place), []).append(place)
    for (part, what, *_), stands in found.items():
        places = f" ({len(stands)} places)" if len(stands) > 1 else ""
        guard.note(f"{shown(*stands[0])}: {what} is outside the language{places}: see \"{part}\" in docs/PORTING.md")


def prepare(asked: argparse.Namespace) -> None:
    given = given_of(asked.file)
    refuse_aliases(asked.source, [asked.file])
    with tempfile.TemporaryDirectory(prefix="wcc-prepare-") as room:
        preprocessor = Preprocessor(INCLUDE, asked.folders, asked.macros, room)
        preprocessor.is_each_told = asked.every
        made, is_whole = preprocessor.run(asked.file, given)
        read = preprocessor.files()
        tell_outside(made, asked.every)
        if not is_whole:
            raise Failed(REFUSED, f"{printable(asked.file)} isn't prepared, for what {preprocessor.words[0]} says above. The headers are "
                                  f"{headers()}; docs/PORTING.md says what to write in place of others")
        text = Annotations(made, read)
        refuse_aliases(asked.source, read)
        data = with_own_headers(text.filled(preprocessor.values(text.asked) if text.asked else []))
    try:
        if not os.path.exists(asked.source) or os.path.isfile(asked.source):
            write_list(asked.source, read)
        write(asked.source, data)
    except OSError as error:
        raise Failed(WRITE_FAULT, f"{printable(asked.source)} can't be written: {why(error)}") from error


def folder_of(text: str) -> str:
    if not text:
        raise argparse.ArgumentTypeError("the name of a folder is empty")
    return named(text)


def macro_of(text: str) -> str:
    if not re.fullmatch(r"[A-Za-z_]\w*(\([^()\n]*\))?(=[^\n]*)?", text):
        raise argparse.ArgumentTypeError("a macro is NAME or NAME=VALUE, on one line")
    return text


class Words(argparse.ArgumentParser):
    """What it says of words goes where nothing of a terminal can be hidden in it."""

    def error(self, message: str) -> NoReturn:
        super().error(printable(message))


def main(words: list[str]) -> int:
    known = Words("wcc prepare", description=DESCRIPTION, epilog=ABOUT, allow_abbrev=False)
    known.add_argument("file", metavar="FILE", help="a C file")
    known.add_argument("-o", dest="source", metavar="SOURCE", required=True, help="the source that is written")
    known.add_argument("-I", dest="folders", metavar="DIR", type=folder_of, action="append", default=[], help="a folder of headers")
    known.add_argument("-D", dest="macros", metavar="NAME[=VALUE]", type=macro_of, action="append", default=[], help="a macro, as 1 without a value")
    known.add_argument("--every", action="store_true", help="tell each place of what is outside the language, and each fault of the preprocessor")
    try:
        prepare(known.parse_args(words))
    except Failed as failed:
        guard.note(f"wcc: {failed}.")
        return failed.status
    return 0


if __name__ == "__main__":
    guard.run(main)
