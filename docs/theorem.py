"""What has to be read to believe the contract of `wcc::wcc`: the definitions behind its clauses, in parts."""
import re
from collections import Counter

import reading
from repository import ROOT

PARTS = ("needed", "language", "restrictions")
ROW = re.compile(r"^\| \*\*(.+?)\*\* \|.*", re.M)
NAMED = re.compile(r"\[`(\w+)`\]\(\.\./(crates/\w+/specs/\w+\.antt)\)")
DOCS = ROOT / "docs"
# What the headline and the clause `built` are in the contract of `wcc::wcc`.
HEADLINE, BUILT = ("IsDone", "asked_by"), ("AreBuilt", "IsWritten")
# The groups that define the C language; what a source without restrictions has nothing of; and the files of commands beside `compile`.
LANGUAGE = ("parse", "types", "facts", "meaning")
RESTRICTIONS = ("IsBoundAlone", "IsWide", "IsSpent")
OTHER_COMMANDS = ("Running", "Evaluating", "Checking", "Reporting", "Responding", "Numbered", "Summaries")


def order_in(crate):
    """The order in which a crate lists its definitions."""
    lib = crate.folder / "specs/Lib.antt"
    names = re.findall(r"^pub mod ([\w.«»]+)", lib.read_text(), re.M) if lib.exists() else []
    return {name: number for number, name in enumerate(names)}


def linked(file, start=DOCS):
    return f"[`{file.name}`]({'../' * len(start.relative_to(ROOT).parts)}{file.relative_to(ROOT)})"


class Reading:
    """What has to be read to believe the contract of `wcc::wcc`, in parts of which none has what an earlier one has."""

    def __init__(self, crates):
        self.crates, top = crates, crates["wcc"].folder / "src/top.rt"
        clauses = [name for name, (crate, _, _) in reading.imported(top).items() if crate in crates]
        whole = self.reached(top, [it for it in clauses if it not in BUILT])
        done = self.reached(top, HEADLINE)
        language = [it for it in done if self.owner(it).group.name in LANGUAGE]
        needed = self.reached(top, HEADLINE, lambda it: it in language or it.name in RESTRICTIONS or it.file.stem in OTHER_COMMANDS)
        restrictions = reading.reached(crates, [it for it in done if it.name in RESTRICTIONS], lambda it: it in needed or it in language)
        self.parts = {"needed": needed, "language": language, "restrictions": restrictions}
        self.parts["others"] = self.without(whole, *self.parts.values())
        self.parts["built"] = self.without(self.reached(top, BUILT), whole)

    def reached(self, top, names, stops=lambda it: False):
        return reading.reached(self.crates, reading.roots_in(self.crates, top, names), stops)

    def owner(self, it):
        return self.crates[it.file.relative_to(ROOT).parts[1]]

    @staticmethod
    def without(definitions, *others):
        left_out = {id(it) for them in others for it in them}
        return [it for it in definitions if id(it) not in left_out]

    def table(self, name):
        """A part crate by crate, from the top down, each file with the lines of what is reached in it."""
        counts, files = Counter(), {}
        for it in self.parts[name]:
            counts[it.file] += it.count
        for file in counts:
            files.setdefault(file.relative_to(ROOT).parts[1], []).append(file)
        rows = [f"{len(self.parts[name]):,} definitions and types, {sum(counts.values()):,} lines, in {len(counts)} files.", "",
                "| Crate | What it is | Files, with the lines to read |", "|---|---|---|"]
        for crate in reversed(self.crates.values()):
            order = order_in(crate)
            if own := sorted(files.get(crate.name, []), key=lambda it: (it.suffix, order.get(it.stem, 0), it.name)):
                rows.append(f"| `{crate.name}` | {crate.sentence} | {', '.join(f'{linked(it)} ({counts[it]})' for it in own)} |")
        return "\n".join(rows)

    def rows(self, page):
        """Of each part of the headline on a page, how many lines the definitions have on which it rests, but for those of other parts."""
        kinds = {id(it): name for name in PARTS for it in self.parts[name]}
        named = {row[1]: [reading.definitions_of(ROOT / link)[name] for name, link in NAMED.findall(row[0])] for row in ROW.finditer(page)}
        lines, seen = ["| The headline | Lines | of C | of restrictions |", "|---|---|---|---|"], set()
        for part, own in named.items():
            others = {id(it) for its in named.values() for it in its} - {id(it) for it in own}
            counts = Counter()
            for it in reading.reached(self.crates, own, lambda it: id(it) in others or id(it) in seen):
                counts[kinds.get(id(it))] += it.count
                seen.add(id(it))
            lines.append(f"| {part} | {' | '.join(f'{counts[it]:,}' for it in PARTS)} |")
        return "\n".join(lines)
