"""What the pages and the checks of the house read of the repository: its crates in their groups, their heads, their imports."""
import re
from dataclasses import dataclass, field
from functools import cached_property
from pathlib import Path

ROOT = Path(__file__).resolve().parent.parent
GROUP = re.compile(r"# (\w+)_: (.+?)(?: \(doors (.+)\))?$")
IMPORT = re.compile(r"^\s*(?:ghost )?use Rattle\.(\w+)\.(specs|proofs)\.([\w.«»]+)", re.M)


@dataclass
class Group:
    name: str
    about: str
    doors: list
    crates: list = field(default_factory=list)


@dataclass
class Crate:
    name: str
    group: Group
    names: list

    @property
    def folder(self):
        return ROOT / "crates" / self.name

    @cached_property
    def root(self):
        """The crate's root file."""
        return next(it for it in (self.folder / "src/lib.rt", self.folder / "src/main.rt") if it.exists())

    @property
    def is_program(self):
        return self.root.name == "main.rt"

    @cached_property
    def head(self):
        """The paragraphs of the comment at the head of the root file."""
        lines = [line[3:].removeprefix(" ") for line in self.root.read_text().splitlines() if line.startswith("//!")]
        return [paragraph.strip() for paragraph in "\n".join(lines).split("\n\n")]

    @property
    def sentence(self):
        """What the crate is, in the first sentence of its head."""
        text = " ".join(self.head[0].split())
        return re.split(r"(?<=[.:])\s", text)[0].rstrip(".:")

    @cached_property
    def has_code(self):
        return any(re.search(r"^\s*(pub )?fn ", file.read_text(), re.M) for file in self.folder.glob("src/**/*.rt"))


def read():
    """The groups of crates.txt, and its crates by name."""
    groups, crates = [], {}
    for line in (ROOT / "crates.txt").read_text().splitlines():
        if found := GROUP.match(line):
            groups.append(Group(found[1], found[2], (found[3] or "").split(", ") if found[3] else []))
        elif line.strip() and not line.startswith("#"):
            head, _, names = line.partition(":")
            crate = Crate(head.split()[0], groups[-1], names.split())
            groups[-1].crates.append(crate)
            crates[crate.name] = crate
    return groups, crates


def specs_of(crate, path):
    """The file of a crate that an import names: a file of its specs, or the source file that declares a type."""
    parts = path.strip(".").split(".")
    if parts[0] == "declared":
        return source_of(crate, parts[1:])
    for end in range(len(parts), 0, -1):
        file = crate.folder / "specs" / ("/".join(parts[:end]) + ".antt")
        if file.exists():
            return file
    return None


def source_of(crate, parts):
    for end in range(len(parts), 0, -1):
        file = crate.folder / "src" / ("/".join(parts[:end]) + ".rt")
        if file.exists():
            return file
    return crate.root


def imports(file, crates):
    """The files of definitions that a file names, in the order in which it names them."""
    found = []
    for name, part, path in IMPORT.findall(file.read_text()):
        if part == "specs" and name in crates:
            other = specs_of(crates[name], path)
            if other and other != file and other not in found:
                found.append(other)
    return found


def group_uses(groups, crates):
    """Which groups each group stands on."""
    uses = {group.name: set() for group in groups}
    for crate in crates.values():
        uses[crate.group.name] |= {crates[it].group.name for it in crate.names if it in crates} - {crate.group.name}
    return uses


def below(uses, name, found=None):
    """All groups below one."""
    found = set() if found is None else found
    for it in uses[name]:
        if it not in found:
            found.add(it)
            below(uses, it, found)
    return found
