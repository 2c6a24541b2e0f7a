"""Random programs of the pieces, and files of many kernels, with restrictions that are true of every run."""
import random
import re
from collections import namedtuple
from pathlib import Path

import pieces

HERE = Path(__file__).resolve().parent
ROOT = HERE.parent.parent
MOST = 32  # restrictions of a source
# A text without its restrictions, and these.
Program = namedtuple("Program", "name text facts")

KEYWORDS = set("""break case char const continue default do else extern for if inline int long return short signed static switch
unsigned void while getchar putchar""".split())

# Characters between quotes, and the words of a source.
NAMES = re.compile(r"'(?:\\.|[^'\\])+'|\b([A-Za-z_]\w*)")


def source(program, facts=None):
    """The text with its restrictions, or with these of them."""
    pragmas = "".join(f"#pragma flowrestriction {it}\n" for it in (program.facts if facts is None else facts))
    return (program.text + pragmas).encode()


def read(path):
    """The program of a source."""
    facts, lines = [], []
    for line in path.read_text().splitlines():
        found = re.match(r"\s*#\s*pragma\s+flowrestriction\s+(.*)", line)
        facts.append(found[1].strip()) if found else lines.append(line)
    return Program(path.name, "\n".join(lines) + "\n", facts)


# Random programs


def programs(seed, count):
    return (program(seed, number) for number in range(count))


def program(seed, number):
    draw = random.Random(f"{seed} {number}")
    wanted = draw.choice((1, 2, 3, 4, 6, 8, draw.randint(5, 16), draw.randint(9, 32), 32))
    made = made_pieces(draw, wanted)
    limits = {"bytes": draw.randint(10, 200), "faults": draw.randint(1, 30)}
    facts = [it for piece in made for it in piece.facts] + list(shared(draw, made, limits))
    body, more = calls(draw, [it.name for it in made])
    draw.shuffle(facts)
    facts = (more + facts if draw.random() < 0.5 else facts + more)[:min(wanted, MOST)]
    text = whole(made, body, limits)
    return Program(f"{seed}-{number}", text, facts)


def whole(made, body, limits=()):
    """The text of a program with these pieces, and limits that they share, whose main has this body."""
    objects = "static unsigned table[16];\n" + "".join(f"static unsigned {name} = {limits[name]}u;\n" for name in limits)
    head = "unsigned r = 0u, s = 0u, dear = 0u, x = (unsigned)getchar();"
    return f"{objects}{''.join(it.text for it in made)}int main(void)\n{{ {head}\n{body}\nreturn (int)(x & 255u); }}\n"


def made_pieces(draw, wanted):
    """Pieces with so many restrictions together, of a few kinds or of all."""
    kinds = draw.choice((pieces.KINDS, draw.sample(pieces.KINDS, draw.randint(1, 4))))
    made, count = [], 0
    while count < wanted:
        made.append(draw.choice(kinds)(draw, f"p{len(made)}"))
        count += max(len(made[-1].facts), len(made[-1].shared) > 0 and draw.random() < 0.5)
    return made


def shared(draw, made, limits):
    """Restrictions over the markers that share a limit: over all of them, or also over some."""
    for name, most in limits.items():
        them = [m for piece in made for it, m in piece.shared if it == name]
        if them:
            yield summed(them[:32], most)
            if len(them) > 2 and draw.random() < 0.5:
                yield summed(draw.sample(them, 2), most)


def summed(names, most):
    return f"{' + '.join(f'1*{it}' for it in names)} <= {most}*main"


def calls(draw, names):
    """The body of main: the functions in groups, each in a loop or two, all one behind the other or one of them by choice;
    and what is true of how often they are called."""
    body, facts, left = [], [], list(names)
    while left:
        count = draw.randint(1, min(6, len(left)))
        group, left = left[:count], left[count:]
        turns = draw.choice((1, draw.randint(2, 12), draw.randint(10, 100)))
        text = draw.choice((in_turn, one_of, seldom))(draw, group, turns, facts)
        body.append(pieces.loop(turns, turns, f"for (r = 0u; r < {turns}u; r++)", text))
        if draw.random() < 0.3:
            outer = draw.randint(2, 5)
            body[-1] = pieces.loop(outer, outer, f"for (s = 0u; s < {outer}u; s++)", "dear = 0u;" + body[-1])
            facts[:] = [it for it in facts if not set(re.findall(r"\w+", it)) & set(group)]
    return "".join(body), facts


def in_turn(draw, group, turns, facts):
    return " ".join(f"x = {it}(x);" for it in group)


def one_of(draw, group, turns, facts):
    """A state that says which one is called."""
    if len(group) > 1 and draw.random() < 0.7:
        facts.append(summed(group, turns))
    cases = " ".join(f"case {at}u: x = {it}(x); break;" for at, it in enumerate(group))
    return f"switch (x % {len(group)}u) {{ {cases} }} x = x + 1u;"


def seldom(draw, group, turns, facts):
    """The last ones are called at most so often, all together."""
    most = draw.randint(1, max(turns // 3, 1))
    them = group[-min(len(group), 3):]
    facts.append(summed(them, most))
    rarely = " ".join(f"if ((x & {1 << at}u) && dear < {most}u) {{ dear++; x = {it}(x); }}" for at, it in enumerate(them))
    return " ".join(f"x = {it}(x);" for it in group if it not in them) + rarely


# Files of kernels


def kernel(path, number):
    """The text of a source as one of many in a file, its restrictions and the name of its main, all names with a number behind."""
    facts = []

    def renamed(text):
        return re.sub(NAMES, lambda it: f"{it[0]}_k{number}" if it[1] and it[0] not in KEYWORDS else it[0], text)

    def line(text):
        head = re.match(r"\s*#\s*pragma\s+(\w+)(.*)", text)
        if head is None:
            return renamed(text)
        if head[1] == "flowrestriction":
            facts.append(renamed(head[2].strip()))
            return ""
        return f"#pragma marker {renamed(head[2].strip())}" if head[1] == "marker" else text
    text = re.sub(r"/\*.*?\*/", " ", path.read_text(), flags=re.S)
    text = re.sub(r'_Pragma\s*\(\s*"([^"]*)"\s*\)', r"\n#pragma \1\n", text)
    text = "\n".join(line(it) for it in text.splitlines() if not re.match(r"\s*#\s*(\d|line)", it))
    return text, facts, f"main_k{number}"


def kernel_paths():
    examples = [it for it in sorted((ROOT / "examples").glob("*.c")) if it.name != "first.c"]
    return examples + sorted((HERE / "kernels").glob("*.c"))


def files(seed, count):
    return (file_of_kernels(seed, number) for number in range(count))


def file_of_kernels(seed, number):
    """10 to 29 kernels, one behind the other."""
    draw = random.Random(f"{seed} kernels {number}")
    chosen = draw.sample(kernel_paths(), draw.randint(10, 29))
    return in_a_file(f"{seed}-kernels-{number}", chosen, lambda facts: draw.sample(facts, min(len(facts), MOST)))


def in_a_file(name, paths, choose):
    """A program that calls these kernels one behind the other, with the restrictions of them that are chosen."""
    made = [kernel(path, at) for at, path in enumerate(paths)]
    text = "".join(f"{it[0]}\n" for it in made)
    calls = " ".join(f"x += {name}() & 255;" for _, _, name in made)
    facts = [fact for _, facts, _ in made for fact in facts]
    return Program(name, f"{text}int main(void) {{ int x = 0; {calls} return x; }}\n", choose(facts))
