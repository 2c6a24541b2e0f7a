"""What a source is built with: the words of the call, and before them the settings that stand beside the source in NAME.toml."""
import argparse
from collections.abc import Callable
from dataclasses import asdict, dataclass, field, replace
from pathlib import Path
from typing import Any, NoReturn

from task.files import Fault, read

USAGE, NOTHING_AT_HAND = 2, 70
INLINE, UNROLL, SPM = range(10001), range(1, 65), range(65537)
MOST_CYCLES = 1 << 62


@dataclass(frozen=True)
class Settings:
    """`at_most` is a budget of cycles, and no part of what is built."""
    include: tuple[str, ...] = ()
    define: tuple[str, ...] = ()
    inline: int = 0
    unroll: int = 1
    spm: int = 0
    table: str | None = None
    derive: bool = True
    out: str = "."
    at_most: int | None = None

    def options(self) -> list[str]:
        """The words of the program's `compile`."""
        numbers = (("--inline", self.inline, 0), ("--unroll", self.unroll, 1), ("--spm", self.spm, 0))
        words = [it for name, number, without in numbers if number != without for it in (name, str(number))]
        return [*words, *self.priced(), *["--derive"] * self.derive]

    def priced(self) -> list[str]:
        return [] if self.table is None else ["--table", self.table]

    def prepared_with(self) -> list[str]:
        return [*(f"-I{it}" for it in self.include), *(f"-D{it}" for it in self.define)]

    def made_with(self) -> dict[str, Any]:
        """What decides on the files that are made."""
        return {name: it for name, it in asdict(self).items() if name not in ("at_most", "out")}


@dataclass
class Words:
    """The words of a call: what stands in them goes before what stands beside a source."""
    sources: list[str]
    given: dict[str, Any] = field(default_factory=dict)
    jobs: int = 1
    json: bool = False
    tries: int | None = None

    def settings(self, source: str) -> Settings:
        said = beside(Path(source))
        whole = {**said, **self.given}
        for name in ("include", "define"):
            whole[name] = (*said.get(name, ()), *self.given.get(name, ()))
        return replace(Settings(), **whole)

    def options(self) -> list[str]:
        """The words of these settings, without the sources."""
        given = dict(self.given)
        lists = [f"-I{it}" for it in given.pop("include", ())] + [f"-D{it}" for it in given.pop("define", ())]
        flags = ["--no-derive"] if given.pop("derive", True) is False else []
        flags += [] if self.tries is None else [f"--try={self.tries}"]
        return [*lists, *flags, *(f"--{name.replace('_', '-')}={value}" for name, value in given.items())]


# The settings beside a source

def is_text(value: Any) -> bool:
    return isinstance(value, str) and "\0" not in value


def are_texts(value: Any) -> bool:
    return isinstance(value, list) and all(map(is_text, value))


def within(numbers: range) -> Callable[[Any], bool]:
    return lambda value: type(value) is int and value in numbers


FORMS: dict[str, tuple[Callable[[Any], bool], str]] = {
    "include": (are_texts, 'a list of folders, as ["include"]'),
    "define": (are_texts, 'a list of macros, as ["RATE=100"]'),
    "inline": (within(INLINE), "a number from 0 to 10000"),
    "unroll": (within(UNROLL), "a number from 1 to 64"),
    "spm": (within(SPM), "a number from 0 to 65536"),
    "table": (is_text, "the name of a table of costs"),
    "derive": (lambda value: type(value) is bool, "true or false"),
    "out": (is_text, "the name of a folder"),
    "at-most": (within(range(MOST_CYCLES + 1)), "a number of cycles"),
}
NAMES = {"include", "table", "out"}


def settings_file(source: Path) -> Path:
    return source.with_suffix(".toml")


def beside(source: Path) -> dict[str, Any]:
    """What NAME.toml beside a source says. Names of files in it begin at its folder."""
    path = settings_file(source)
    if not path.is_file():
        return {}
    try:
        import tomllib
    except ImportError:
        raise Fault(NOTHING_AT_HAND, "no toml", f"wcc: settings, as {path}, are read by Python 3.11 or later, and this is an older one.") from None
    try:
        said = tomllib.loads(read(path).decode())
    except (tomllib.TOMLDecodeError, UnicodeDecodeError) as error:
        raise wrong(path, f"is no TOML: {error}") from None
    for name, value in said.items():
        if name not in FORMS:
            raise wrong(path, f"has a setting `{name}`, which there isn't. There are {', '.join(FORMS)}")
        holds, form = FORMS[name]
        if not holds(value):
            raise wrong(path, f"has for `{name}` what is not {form}")
    return {name.replace("-", "_"): found_from(path.parent, name, value) for name, value in said.items()}


def wrong(path: Path, what: str) -> Fault:
    return Fault(USAGE, "usage", f"wcc: {path} {what}.")


def found_from(folder: Path, name: str, value: Any) -> Any:
    if name not in NAMES:
        return tuple(value) if isinstance(value, list) else value
    return tuple(str(folder / it) for it in value) if isinstance(value, list) else str(folder / value)


# The words

class Parser(argparse.ArgumentParser):
    def error(self, message: str) -> NoReturn:
        raise Fault(USAGE, "usage", f"wcc: {message}. It is called so:", f"  {' '.join(self.format_usage().split()[1:])}")


def number_in(numbers: range) -> Callable[[str], int]:
    def number(text: str) -> int:
        if not (text.isascii() and text.isdigit() and int(text[-99:]) in numbers):
            raise argparse.ArgumentTypeError(f"it takes a number from {numbers.start} to {numbers.stop - 1}")
        return int(text)
    return number


STATUSES = ("The status is 0; 1 where the source is refused or not prepared; 2 where words or settings are wrong; 3 where a limit is passed; "
            "4 where a file can't be read; 5 where one can't be written; 6 where memory ran out; 7 where the checker says no; 10 where "
            "the bound is above --at-most; 70 where the program, a preprocessor or Python is missing; 130 after an interrupt.")


def add_shared(known: argparse.ArgumentParser) -> None:
    """The options of all words that build."""
    known.add_argument("-I", dest="include", metavar="DIR", action="append", help="a folder of headers")
    known.add_argument("-D", dest="define", metavar="NAME[=VALUE]", action="append", help="a macro, as 1 without a value")
    known.add_argument("--table", metavar="FILE", help="the costs of the machine, as examples/costs.toml")
    known.add_argument("--at-most", dest="at_most", metavar="CYCLES", type=number_in(range(MOST_CYCLES + 1)),
                       help="a budget: where the bound is above it, the status is 10")
    known.add_argument("--out", metavar="DIR", help="the folder of what is written, in place of the one that one is in")
    known.add_argument("-j", dest="jobs", metavar="N", type=number_in(range(1, 1025)), help="so many at once; as many as processors else")
    known.add_argument("--json", action="store_true", help="print what was found as JSON, for tools")


def given_in(asked: argparse.Namespace) -> dict[str, Any]:
    """The settings that words give."""
    names = {name for name in Settings.__dataclass_fields__ if getattr(asked, name, None) is not None}
    return {name: tuple(value) if isinstance(value := getattr(asked, name), list) else value for name in names}
