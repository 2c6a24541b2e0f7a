"""The words of a call."""
from collections.abc import Iterator
from dataclasses import dataclass, field

from files import USAGE, Failed, refuse_aliases
from places import printable

CALLED = "wcc show IMAGE REPORT [--source SOURCE [WORDS OF COMPILE]] [--table FILE] [--html PAGE] [--elf NAME] [--input FILE] [--compare IMAGE REPORT]"
READ, WRITTEN, COMPARED = ("--source", "--table", "--input"), ("--html", "--elf"), "--compare"
# The words with which a source was compiled, and the least and the greatest number that stands behind them.
COMPILED = {"--spm": (0, 65536), "--unroll": (1, 64), "--inline": (0, 10000)}
DERIVE = "--derive"


@dataclass
class Asked:
    """The names of the image and the report, those behind options, the older two, and the words that `compile` was called with."""
    image: str = ""
    report: str = ""
    named: dict[str, str] = field(default_factory=dict)
    older: tuple[str, str] | None = None
    compiled: list[str] = field(default_factory=list)

    def reads(self) -> list[str]:
        return [self.image, self.report, *(self.older or ()), *(self.named[it] for it in READ if it in self.named)]

    def writes(self) -> list[str]:
        return [self.named[it] for it in WRITTEN if it in self.named]


def usage(what: str) -> Failed:
    return Failed(USAGE, f"wcc: {what}. It is called so:", f"  {CALLED}")


def asked_of(words: list[str]) -> Asked:
    asked, placed, seen = Asked(), [], set()
    left = iter(words)
    for word in left:
        if word == "--":
            placed += left
        elif not word.startswith("-") or word == "-":
            placed.append(word)
        else:
            option, behind, value = word.partition("=")
            if option in seen:
                raise usage(f"{option} stands twice")
            seen.add(option)
            take(asked, option, value if behind else None, left)
    if len(placed) != 2:
        raise usage(f"`show` takes two files and was given {len(placed)}")
    asked.image, asked.report = placed
    refuse_aliases(asked.reads(), asked.writes())
    return asked


def take(asked: Asked, option: str, value: str | None, left: Iterator[str]) -> None:
    """Notes an option, with the value behind `=`, or else with the next words."""
    if option == DERIVE:
        if value is not None:
            raise usage(f"{option} takes no value")
        asked.compiled.append(option)
    elif option == COMPARED:
        asked.older = next_of(option, left) if value is None else value, next_of(option, left)
    elif option in COMPILED:
        asked.compiled += [option, number_of(option, next_of(option, left) if value is None else value)]
    elif option in READ + WRITTEN:
        asked.named[option] = next_of(option, left) if value is None else value
    else:
        raise usage(f"`show` has no option `{printable(option)}`")


def next_of(option: str, left: Iterator[str]) -> str:
    value = next(left, "-?")
    if value.startswith("-") and value != "-":
        raise usage(f"{option} has no value" if option != COMPARED else f"{option} takes two files")
    return value


def number_of(option: str, value: str) -> str:
    least, most = COMPILED[option]
    digits = value.removeprefix("+")
    if not (digits.isascii() and digits.isdigit() and least <= int(digits[-99:]) <= most):
        raise usage(f"{option} takes a number from {least} to {most}")
    return digits
