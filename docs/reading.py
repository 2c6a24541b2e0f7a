"""Which definitions something rests on, one by one: of files of definitions (`specs/*.antt`), and of types that source files declare.

A definition is what stands from its comment to the next one. What it names is looked up as the language does: in its own file, and by
the imports of that file. So a file counts with the lines of those of its definitions that are needed, and no others.
"""
import re
from collections import deque
from dataclasses import dataclass
from functools import cache
from pathlib import Path

import repository

STARTS = re.compile(r"(\s*)(?:(?:abbrev|unfoldable)(?: pub)? ([^\s:(]+)|(?:pub )?(?:record|data) ([^\s:(]+))")
TYPE = re.compile(r"\s*pub (?:struct|enum) (\w+)")
PARTS = re.compile(r"^\s+(?:pub )?([\w«»]+) :", re.M)
IMPORT = re.compile(r"^\s*(?:ghost )?use Rattle\.(\w+)\.specs\.([\w.«»]+?)(?:\.\{(.*)\}| as (\w+))?;?$", re.M)
RUST_IMPORT = re.compile(r"^\s*(?:pub )?use (\w+)(?:::\w+)*::(?:\{([^}]*)\}|(\w+));", re.M)
NAME = re.compile(r"[A-Za-z_«][\w«»']*(?:\.[A-Za-z_«][\w«»]*)*")


@dataclass(eq=False)
class Definition:
    """A definition or a declared type: its name, its file, and its lines without blank ones."""
    name: str
    file: Path
    lines: list
    context: str = ""
    named: list = None

    @property
    def count(self):
        return sum(bool(it.strip()) for it in self.lines)

    @property
    def names(self):
        """What it names, without its comments."""
        text = "\n".join(it for it in self.lines if not it.strip().startswith(("--", "//")))
        return set(NAME.findall(self.context + "\n" + re.sub(r'"(?:[^"\\]|\\.)*"', "", text)))


def with_comment(lines, at):
    """Where the comment of a line begins."""
    while at and lines[at - 1].strip().startswith(("--", "///", "#[")):
        at -= 1
    return at


@cache
def definitions_of(file):
    """The definitions of a file, by their names and by those of their parts."""
    lines = file.read_text().splitlines()
    is_source = file.suffix == ".rt"
    starts = [(with_comment(lines, at), at, found) for at, line in enumerate(lines) if (found := (TYPE if is_source else STARTS).match(line))]
    found, context = {}, ""
    for (begin, at, match), (end, _, _) in zip(starts, [*starts[1:], (len(lines), 0, None)]):
        if is_source:
            end = next((it + 1 for it in range(at, len(lines)) if lines[it].rstrip() in ("}", "    }") or lines[it].rstrip().endswith(";")), end)
        opened = [it for it in lines[:at] if it.startswith("module _")]
        context = opened[-1] if opened and match[0].startswith(" ") else ""
        name = match[1] if is_source else match[2] or match[3]
        own = [it for it in lines[begin:end] if not it.startswith("module _") and it.strip() != "mutual"]
        definition = Definition(name, file, own, context)
        found.setdefault(name, definition)
        if is_source or match[0].lstrip().startswith(("pub", "record", "data")):
            for part in PARTS.findall("\n".join(own)):
                found.setdefault(part, definition)
    return found


@cache
def imported(file):
    """What the names of a file stand for: of each, the crate, the path and the name there; a name alone stands for a whole module."""
    found = {}
    for crate, path, names, alias in IMPORT.findall(file.read_text()):
        for name in [it.strip() for it in names.split(",") if it.strip()]:
            there, _, here = name.partition(" as ")
            found[here or there] = crate, path, there
        if not names:
            found[alias or path.rsplit(".", 1)[-1]] = crate, path, None
    return found


@cache
def sources_in(folder):
    return sorted(folder.glob("src/**/*.rt"))


def type_in(crate, name):
    """The type that a crate's sources declare by this name."""
    return next((definitions_of(file)[name] for file in sources_in(crate.folder) if name in definitions_of(file)), None)


def looked_up(crates, crate, path, name):
    """The definition at a path of a crate, or nothing where it is none of the repository."""
    if crate not in crates:
        return None
    parts = path.split(".")
    if parts[0] == "declared":
        types = [it for it in parts[1:] if it[0].isupper() and it != "TheVariants"]
        wanted = types[-1] if types else name
        file = repository.source_of(crates[crate], parts[1:])
        return definitions_of(file).get(wanted) or type_in(crates[crate], wanted) if wanted else None
    file = repository.specs_of(crates[crate], path)
    return definitions_of(file).get(name) if file and name else None


def named_in_source(crates, definition):
    """The types that a declared type has in its fields."""
    own = crates[definition.file.relative_to(repository.ROOT).parts[1]]
    places = {}
    for crate, many, one in RUST_IMPORT.findall(definition.file.read_text()):
        for name in (many or one).split(","):
            places[name.strip()] = crates.get(crate, own)
    for name in definition.names:
        other = definitions_of(definition.file).get(name) or type_in(places[name], name) if name in places else definitions_of(definition.file).get(name)
        if other and other is not definition:
            yield other


def named_by(crates, definition):
    """The definitions that a definition names, in the order of their files."""
    if definition.named is None:
        found = named_in_source(crates, definition) if definition.file.suffix == ".rt" else named_in_specs(crates, definition)
        definition.named = sorted(set(found), key=lambda it: (str(it.file), it.name))
    return definition.named


def named_in_specs(crates, definition):
    own, others = definitions_of(definition.file), imported(definition.file)
    for name in definition.names:
        head, _, rest = name.partition(".")
        if head in others:
            crate, path, there = others[head]
            found = looked_up(crates, crate, path, there or rest.partition(".")[0])
        else:
            found = own.get(head)
        if found and found is not definition:
            yield found


def reached(crates, roots, stops=lambda it: False):
    """All definitions that the roots rest on, themselves among them, in the order in which they are met; nothing goes through a stop."""
    found, left, seen = [], deque(roots), set()
    while left:
        it = left.popleft()
        if id(it) in seen or stops(it):
            continue
        seen.add(id(it))
        found.append(it)
        left += named_by(crates, it)
    return found


def roots_in(crates, file, names):
    """The definitions that a source file imports by these names."""
    places = imported(file)
    return [looked_up(crates, *places[name]) for name in names]
