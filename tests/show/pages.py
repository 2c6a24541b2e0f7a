"""What the page says of lines, of functions in the code of others, of changes, and of reports that list no path."""
import re
from fractions import Fraction
from xml.etree import ElementTree

from room import check, hold

PAGE = "{http://www.w3.org/1999/xhtml}"

# Each statement on a line of its own, in which a number stands that no other line has: so one sees of an instruction whose it is.
NUMBERED = """static int clamp(int v)
{
    if (v > 101)
        return 102;
    return v;
}
static void note(int v)
{
    putchar(v + 9);
}
int main(void)
{
    int i, s = 11;
    #pragma loopbound min 10 max 10
    for (i = 0; i < 10; i++) {
        s = s * 15 + 16;
        s = s + clamp(s);
        if (s > 18)
            s = s ^ 119;
        else
            s = s | 121;
        note(s);
    }
    #pragma loopbound min 1 max 9
    do
        s = s - 125;
    while (s > 126);
    switch (s) {
    case 128:
        s = s ^ 129;
        break;
    default:
        s = s ^ 132;
    }
    return s & 134;
}
"""
# The numbers that stand in `addi`, `andi`, `ori` and `xori` of the code, and the lines that they are of.
OF_LINES = {16: 16, 119: 19, 121: 21, -125: 26, 129: 30, 132: 33, 134: 35}


def page_of(room, *words):
    room.show("a.elf", "a.txt", "--html", "a.html", *words)
    return ElementTree.fromstring(room.read("a.html"))


def text_of(it):
    return "".join(it.itertext())


def instructions(root):
    """The rows of the listing: address, name, operands, count, cycles of a visit, of all, region, line."""
    for it in root.iter(f"{PAGE}tr"):
        if (it.get("id") or "").startswith("i-"):
            yield [text_of(cell) for cell in it]


def table_rows(root, title):
    """The rows of the first table behind a head."""
    body = list(root.find(f"{PAGE}body"))
    at = next((number for number, it in enumerate(body) if it.tag == f"{PAGE}h2" and it.text == title), None)
    hold(at is not None, f"there is no part {title}")
    found = next(it for it in body[at:] if it.get("class") == "scroll" and it.find(f"{PAGE}table") is not None)
    return [[text_of(cell) for cell in row] for row in found.find(f"{PAGE}table/{PAGE}tbody")]


def number(text):
    return int(text.replace(",", ""))


@check
def lines_of_instructions(room):
    """Each number of the source stands in an instruction of its line, inlined and unrolled too, with words and without."""
    for words in ((), ("--inline", "100"), ("--inline", "100", "--unroll", "2")):
        room.make(NUMBERED, *words)
        for given in (words, ()):
            of_numbers(page_of(room, "--source", "a.c", *given), words)


def of_numbers(root, words):
    seen = set()
    for _, name, operands, *_, line in instructions(root):
        value = re.search(r", (-?\d+)$", operands)
        if value and int(value[1]) in OF_LINES and name.endswith("i"):
            wanted = OF_LINES[int(value[1])]
            hold(line == f"a.c:{wanted}", f"with {words} `{name} {operands}` is of line {line}, and should be of {wanted}")
            seen.add(int(value[1]))
    hold(seen == OF_LINES.keys(), f"with {words} only {sorted(seen)} are seen")


@check
def functions_in_others(room):
    """Rows of their own: what they take is a part of what their callers take, and changes with what they do."""
    source = "static int f(int x)\n{\n    return x * 3 / 7 % 5;\n}\nint main(void)\n{\n    int s = getchar();\n    s = f(s);\n    s = f(s + 1);\n    return s & 15;\n}\n"
    room.make(source, "--inline", "100")
    rows = {it[0]: it for it in table_rows(page_of(room, "--source", "a.c", "--inline", "100"), "Functions")}
    hold(rows.keys() == {"main", "f in main", "start code"}, f"the functions are {sorted(rows)}")
    inner, outer = number(rows["f in main"][3]), number(rows["main"][3])
    # Two quotients and two remainders of 34 cycles each beside the fetches: most of the time is theirs.
    hold(4 * 34 < inner < outer and rows["f in main"][4] == "2", f"it takes {inner} of {outer}")


@check
def changes(room):
    room.make("static int f(int x) { return x / 3; }\nint main(void)\n{\n    int i, s = 9;\n    #pragma loopbound min 4 max 4\n    for (i = 0; i < 4; i++) s += f(s);\n    return s & 7;\n}\n")
    for name in ("elf", "txt"):
        room.write(f"old.{name}", room.read(f"a.{name}"))
    same = room.show("a.elf", "a.txt", "--compare", "old.elf", "old.txt")
    before = number(same.split("than ")[1].split(" ")[0])
    hold(f"\nThe bound is {before:,} cycles, as before.\n" in same and "Listing" not in same, f"of the same it says {same}")
    room.make("static int f(int x) { return x + 3; }\nint main(void)\n{\n    int i, s = 9;\n    #pragma loopbound min 4 max 4\n    for (i = 0; i < 4; i++) s += f(s);\n    return s & 7;\n}\n")
    said = room.show("a.elf", "a.txt", "--html", "a.html", "--compare", "old.elf", "old.txt")
    now = number(said.split("than ")[1].split(" ")[0])
    # A quotient is 31 cycles above a sum, beside the constant 3 that it needs in a register.
    hold(f"The bound is {now:,} cycles, and was {before:,}: {before - now:,} less" in said and before - now >= 4 * 31, f"it says {said}")
    rows = table_rows(ElementTree.fromstring(room.read("a.html")), "Changes")
    hold(sum(number(it[3]) for it in rows) == now - before and "f" in {it[0] for it in rows}, f"the changes are {rows}")
    hold(room.call("show", "a.elf", "a.txt", "--compare", "old.elf", "a.txt")[0] == 7, "a report of another image is compared")
    hold(room.call("show", "a.elf", "a.txt", "--compare", "old.elf")[0] == 2, "one file is compared")
    hold(room.call("show", "a.elf", "a.txt", "--compare", "old.elf", "old.txt", "--html", "old.txt")[0] == 2, "what is compared is written over")


@check
def reports_without_a_path(room):
    """The walk at the prices of a report: without restrictions it is a path of the bound, and with them the prices make up for it."""
    for name in ("pid", "frame", "cruise"):
        room.make((room.top / f"examples/{name}.c").read_bytes())
        bound, facts = number_of(room.read("a.txt"), "cycles"), b"\nfact " in room.read("a.txt")
        for kind in ("wide 3", "spent 200 3"):
            room.write("b.txt", without_flow(room.read("a.txt"), kind))
            hold(room.call("check", "a.elf", "b.txt") == (0, f"yes {bound}\n"), f"check doesn't accept the report of {name}")
            said = room.show("a.elf", "b.txt", "--source", "a.c", "--html", "a.html")
            total, prices = walk_of(said)
            hold(total - prices == bound and (facts or prices == 0), f"of {name} it says {said[:600]}")
            rows = table_rows(ElementTree.fromstring(room.read("a.html")), "Functions")
            hold(sum(number(it[3]) for it in rows) == total, f"of {name} the functions don't add up to the walk of {total}")
            hold(("Restrictions; the bound rests on those that are priced" in said) == facts and "  tight" not in said, f"of {name} it calls restrictions tight")
            hold("worst path" not in said and "worst path" not in room.read("a.html").decode(), "it speaks of a worst path")


def number_of(report, word):
    return int(re.search(rf"^{word} (\d+)$".encode(), report, re.M)[1])


def without_flow(report, kind):
    report = re.sub(rb"^kind greatest$", b"kind " + kind.encode(), report, flags=re.M)
    return re.sub(rb"^(flow|share) .*\n", b"", re.sub(rb"^unit \d+$", b"unit 0", report, flags=re.M), flags=re.M)


def walk_of(said):
    found = re.search(r"It takes ([\d,]+) cycles, (?:as many as the bound|and the prices (take|add) ([\d,]+)(?: off)?)\.", said)
    hold(found, f"it says {said[:600]}")
    return number(found[1]), number(found[3] or "0") * (1 if found[2] == "take" else -1)


@check
def certificates_that_are_not_tight(room):
    """A bound that is a cycle too great holds, and no walk takes as long: then nothing is counted."""
    room.make("int main(void) { return 0; }\n")
    report = without_flow(room.read("a.txt"), "wide 3").decode()
    bound = number_of(report.encode(), "cycles")
    report = re.sub(rf"^(potential \w+) {bound}$", rf"\1 {bound + 1}", report, flags=re.M)
    room.write("b.txt", report.replace(f"cycles {bound}", f"cycles {bound + 1}"))
    said = room.show("a.elf", "b.txt", "--html", "a.html")
    hold("How often anything comes can't be told" in said and "0.0%" not in said and "0.0%" not in room.read("a.html").decode(), f"it says {said}")


@check
def nothing_is_counted_where_nothing_runs(room):
    """Two restrictions that can't hold together are named, and no share is told."""
    room.make('#pragma flowrestriction 1*m <= 0*m\n#pragma flowrestriction 1*m >= 1*main\nint main(void)\n{\n    if (getchar() > 0) {\n        _Pragma("marker m") putchar(65);\n    }\n    return 0;\n}\n')
    hold(room.read("a.txt").startswith(b"version 2\ncycles 0\nkind empty\n"), "it isn't empty")
    said = room.show("a.elf", "a.txt", "--source", "a.c", "--html", "a.html")
    page = room.read("a.html").decode()
    hold("%" not in said and "can't hold together" in said and said.count("  yes  ") >= 1, f"it says {said}")
    hold(not re.search(r"\d%<", page) and "worst path" not in page and "path of the bound" not in page, "the page tells shares")


@check
def numbers_for_people(room):
    """No fraction stands in what is said of a flow that has some."""
    room.make((room.top / "examples/frame.c").read_bytes())
    said = room.show("a.elf", "a.txt")
    unit = number_of(room.read("a.txt"), "unit")
    hold(unit > 1 and not re.search(r" \d+/\d+ ", re.sub(r" \d+/\d+  +[\d,.<]+  (flash|RAM|scratchpad)", "", said)), "a fraction stands there")
    share = int(re.search(rb"^share take \w+ \w+ (\d+)$", room.read("a.txt"), re.M)[1])
    hold(f" {round(Fraction(share, unit)):,} " in said, "the share of `take` isn't rounded")


OWN, HEADER = """#include <wcc.h>
#include "part.h"
#define N 8

/* What it does. */
int main(void)
{
    int i, s = 0;

    LOOPBOUND(N, N)
    for (i = 0; i < N; i++)
        s += part(i);   // a comment
    return s & 127;
}
""", "static int part(int x)\n{\n    return x * 3;   /* three times */\n}\n"


@check
def the_text_before_the_preprocessor(room):
    """The lines are those that were written, of the files that `prepare` read, while they are as it read them; of no other file."""
    room.write("a.c", OWN)
    room.write("part.h", HEADER)
    hold(room.call("prepare", "a.c", "-o", "a.i")[0] == 0 and room.call("compile", "a.i", "a.elf", "a.txt")[0] == 0, "it isn't compiled")
    files = written(page_of(room, "--source", "a.i"))
    hold(files == {"a.c": OWN.rstrip("\n").split("\n"), "part.h": HEADER.rstrip("\n").split("\n")}, f"the lines are {files}")
    room.write("part.h", HEADER.replace("three", "four"))
    files = written(page_of(room, "--source", "a.i"))
    hold(files.keys() == {"a.c", "part.h"} and "four" not in str(files) and "three" not in str(files), f"a file that changed is shown: {files}")
    room.write("secret", "a password\n")
    room.write("b.i", '# 1 "secret"\nint main(void) { return 0; }\n')
    hold(room.call("compile", "b.i", "a.elf", "a.txt")[0] == 0, "it isn't compiled")
    page_of(room, "--source", "b.i")
    hold(b"password" not in room.read("a.html"), "a file that a source names is shown")


def written(root):
    """The lines of each file of the page."""
    heads = [text_of(it) for it in root.iter(f"{PAGE}h3")]
    tables = [it for it in root.iter(f"{PAGE}table") if it.get("class") == "source"]
    return {head: [line_text(row) for row in it.find(f"{PAGE}tbody")] for head, it in zip(heads, tables)}


def line_text(row):
    cell = next(it for it in row if it.get("class") == "text")
    said = cell.find(f"{PAGE}details/{PAGE}summary")
    return text_of(cell if said is None else said)
