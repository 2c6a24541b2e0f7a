"""Bodies of functions that stand in two crates: more than six lines, the same to the letter but for how far in they begin."""
import re
from collections import defaultdict

LINES = 6
HEAD = re.compile(r"([ \t]*)(?:pub(?:\([^)]*\))? )?fn (\w+)")


def is_open(line, indent):
    """Whether the body of a function begins behind the line."""
    return line == indent + "{" or line.endswith(" {") and not line.strip().startswith(("ensures", "requires"))


def functions(text):
    """Each function of a file with the lines of its body."""
    lines = text.splitlines()
    for number, line in enumerate(lines):
        if head := HEAD.match(line):
            begins = next((at for at in range(number, len(lines)) if is_open(lines[at], head[1]) or lines[at].endswith(("{}", ";"))), None)
            if begins is not None and is_open(lines[begins], head[1]):
                ends = lines.index(head[1] + "}", begins)
                yield head[2], [it.strip() for it in lines[begins + 1 : ends]]


def bodies(texts):
    """The bodies that stand in more than one crate, by the files' crates: each a list of 'CRATE: FUNCTION', in their order."""
    found = defaultdict(list)
    for crate, text in texts:
        for name, body in functions(text):
            if len(body) > LINES:
                found["\n".join(body)].append(f"{crate}: {name}")
    for places in found.values():
        if len({it.split(":")[0] for it in places}) > 1:
            yield sorted(places)
