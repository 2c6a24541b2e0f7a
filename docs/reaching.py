"""Which tests reach a crate: programs of cases, programs of tests, edits, and scripts of tests/."""
import re
from functools import cache

from repository import ROOT

MENTION = re.compile(r"\b(?:try_\w+|[a-z_]+_cases)\b")


def is_test(crate):
    return any("#[test]" in it.read_text() for it in crate.folder.glob("src/**/*.rt"))


def below(crates, name, found=None):
    """All crates that a crate stands on, itself among them."""
    found = set() if found is None else found
    if name in crates and name not in found:
        found.add(name)
        for it in crates[name].names:
            below(crates, it, found)
    return found


@cache
def scripts():
    """The scripts of tests/ and bench/ by the programs that they name. A folder's scripts count as the one that bears its name."""
    found = {}
    for file in sorted([*(ROOT / "tests").glob("*"), *(ROOT / "tests").glob("*/*"), *(ROOT / "bench").glob("*")]):
        parts = file.relative_to(ROOT).parts
        if file.is_file() and file.suffix in ("", ".py") and parts[1] not in ("cases", "edits", "house"):
            name = "/".join(parts[:2])
            for program in MENTION.findall(file.read_text(errors="replace")):
                found.setdefault(program, set()).add(name)
    return found


class Reaching:
    def __init__(self, crates):
        self.crates = crates
        self.tests = [it for it in crates.values() if it.name.startswith("try_") or it.name.endswith("_cases") or is_test(it)]
        self.below = {it.name: below(crates, it.name) for it in [*self.tests, crates["wcc"]]}

    def of(self, crate):
        """The programs and tests that reach a crate: those that name it themselves, and the others."""
        own = [it.name for it in self.tests if crate.name in it.names and it is not crate]
        further = [it.name for it in self.tests if crate.name in self.below[it.name] and it.name not in own and it is not crate]
        return own, further

    def edits(self, crate):
        return tuple(len(list(folder.glob("*.edit"))) for folder in (crate.folder / "must-fail", ROOT / "tests/edits" / crate.name))

    def row(self, crate):
        """A crate's row of the table."""
        own, further = self.of(crate)
        named = sorted({script for it in own or further for script in scripts().get(it, ())})
        what = ", ".join(f"`{it}`" for it in own or further)
        kind, whole = "" if crate.has_code else "no code", "yes" if crate.name in self.below["wcc"] else ""
        edits = " | ".join(str(it or "") for it in self.edits(crate))
        return f"| `{crate.name}` | {kind} | {'' if own or not further else 'through '}{what} | {', '.join(named)} | {whole} | {edits} |"

    def table(self, groups):
        rows = ["| Crate | | Programs of cases and tests | Scripts that run them | In `wcc` | Edits in the gate | by hand |", "|---|---|---|---|---|---|---|"]
        tests = {it.name for it in self.tests}
        return "\n".join(rows + [self.row(it) for group in groups for it in group.crates if it.name not in tests])

    def unreached(self):
        """Crates with code that no test and no program reaches."""
        reached = set().union(*self.below.values())
        return [it.name for it in self.crates.values() if it.has_code and it.name not in reached]
