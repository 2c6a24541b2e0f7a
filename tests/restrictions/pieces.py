"""Functions as users write them, each made at random with its markers and with what is true of their counts whatever the input is.

A piece is a function `unsigned NAME(unsigned x)`, with the objects of file level that it needs in front. Its restrictions are
true by what the code does, however often the function is called: they name main where something is limited over a whole run.
"""
from collections import namedtuple
from math import comb

# The text of a function, its name, its restrictions, and pairs of a limit that all functions share and a marker that counts to it.
Piece = namedtuple("Piece", "text name facts shared", defaults=((),))
# After how many turns something is done.
ROUND = (2, 3, 4, 5, 8, 10, 12, 16, 20, 24, 32, 50, 60, 64, 100)
# Statements on x and a table.
STATEMENTS = ("x = x * {odd}u + {any}u;", "table[x & 15] = x ^ {any}u;", "x = x + table[x >> 3 & 15];", "x = x ^ x >> {shift};",
              "x = x / {by}u + {any}u;", "table[{at}] = table[{at}] + x;")


# Parts of texts


def some(draw, least=1, most=6):
    """Statements that take some time."""
    def one():
        return draw.choice(STATEMENTS).format(odd=2 * draw.randint(1, 500) + 1, any=draw.randint(1, 9999), shift=draw.randint(1, 15),
                                              by=draw.randint(3, 40), at=draw.randint(0, 15))
    return " ".join(one() for _ in range(draw.randint(least, most)))


def marked(name, text):
    return f"\n#pragma marker {name}\n{text}"


def loop(least, most, head, body):
    return f"\n#pragma loopbound min {least} max {most}\n{head} {{ {body} }}\n"


def times(count, body, name="i"):
    return loop(count, count, f"for ({name} = 0; {name} < {count}u; {name}++)", body)


def at_most(count, head, marker, text):
    """A loop whose body is a marker and a text."""
    return loop(0, count, head, marked(marker, text))


def function(name, body, before=""):
    return f"{before}static unsigned {name}(unsigned x)\n{{ unsigned i, j, k, n; i = j = k = n = 0u; {body}\nreturn x; }}\n"


# Pieces


def triangle(draw, name):
    """A loop within a loop that turns as often as the outer one has, of two or three loops."""
    count, m = draw.randint(3, 60), f"{name}_inner"
    if draw.random() < 0.25:
        count = min(count, 20)
        inner = at_most(count - 2, "for (k = 0; k < j; k++)", m, some(draw))
        body, total = loop(0, count - 1, "for (j = 0; j < i; j++)", some(draw, 0, 2) + inner), comb(count, 3)
    else:
        head, least, total = draw.choice((("j = 0; j < i", 0, comb(count, 2)), ("j = 0; j <= i", 1, comb(count + 1, 2)),
                                          (f"j = i; j < {count}u", 1, comb(count + 1, 2))))
        body = loop(least, count - 1 + least, f"for ({head}; j++)", marked(m, some(draw)))
    fact = f"1*{m} {draw.choice(('<=', '<=', '='))} {total}*{name}"
    return Piece(function(name, times(count, some(draw, 0, 3) + body)), name, [fact])


def rare(draw, name):
    """A loop that does something long in each so many turns."""
    count, each, m = draw.randint(8, 200), draw.randint(3, 20), f"{name}_rare"
    long = loop(0, 15, "for (k = 0; k < (x & 15u); k++)", some(draw)) if draw.random() < 0.5 else some(draw, 4, 12)
    body = f"{some(draw)} if (i % {each}u == {each - 1}u) {{ {marked(m, long)} }}"
    return Piece(function(name, times(count, body)), name, [f"1*{m} <= {count // each}*{name}"])


def ticks(draw, name):
    """Something that is done each so many turns, counted on from call to call."""
    count, each, m, step = draw.randint(1, 40), draw.choice(ROUND), f"{name}_due", f"{name}_tick"
    due = f"if (++{name}_at == {each}u) {{ {marked(m, some(draw, 4, 12))} {name}_at = 0u; }}"
    body = marked(step, some(draw, 0, 3)) + due
    return Piece(function(name, times(count, body), f"static unsigned {name}_at;\n"), name, [f"{each}*{m} <= 1*{step}"])


def toggle(draw, name):
    """A state of two values: what shuts comes behind what opens."""
    count, opens, shuts, state = draw.randint(2, 60), f"{name}_opens", f"{name}_shuts", f"{name}_open"
    body = f"""{some(draw, 0, 3)} if ({state}) {{ if (x & 1u) {{ {marked(shuts, some(draw, 2, 10))} {state} = 0u; }} }}
    else if (x & 2u) {{ {marked(opens, some(draw, 2, 10))} {state} = 1u; }}"""
    text = function(name, loop(0, count, f"for (n = x % {count + 1}u; i < n; i++)", body), f"static unsigned {state};\n")
    return Piece(text, name, [f"1*{shuts} <= 1*{opens}", f"1*{opens} <= 1*{shuts} + 1*main"][:draw.randint(1, 2)])


def steps(draw, name):
    """A parser with a state for each part of a frame: each part comes behind the one before."""
    count, parts, state = draw.randint(4, 80), draw.randint(2, 4), f"{name}_state"

    def case(at):
        part = marked(f"{name}_part{at}", some(draw, 1, 8))
        return f"case {at}u: if (x & {1 << at}u) {{ {part} {state} = {(at + 1) % parts}u; }} else {state} = 0u; break;\n"
    body = f"{some(draw, 1, 2)} switch ({state}) {{ {''.join(map(case, range(parts)))} }}"
    facts = [f"1*{name}_part{at} <= 1*{name}_part{at - 1}" for at in range(1, parts)]
    return Piece(function(name, times(count, body), f"static unsigned {state};\n"), name, facts)


def one_of_two(draw, name):
    """Two loops of which one runs, or which share what there is."""
    count, up, down = draw.randint(3, 60), f"{name}_up", f"{name}_down"
    head = "for (i = 0; i < n; i++)"
    apart = f"if (x & 1u) {{ {at_most(count, head, up, some(draw))} n = 0u; }} {at_most(count, head, down, some(draw))}"
    tests = ("n > 0u && (x & 3u)", up), ("n > 0u", down)
    together = "".join(at_most(count, f"while ({test})", m, f"{some(draw)} n--;") for test, m in tests)
    body = f"n = x % {count + 1}u; x = x / 3u; {draw.choice((apart, together))}"
    return Piece(function(name, body), name, [f"1*{up} + 1*{down} <= {count}*{name}"])


def equal(draw, name):
    """Two loops that turn as often as each other."""
    count, one, other, head = draw.randint(2, 50), f"{name}_in", f"{name}_out", "for (i = 0; i < n; i++)"
    body = f"n = x % {count + 1}u; {at_most(count, head, one, some(draw))} {some(draw)} {at_most(count, head, other, some(draw))}"
    return Piece(function(name, body), name, [f"1*{one} = 1*{other}"])


def shares(draw, name):
    """A loop that each time does one of three things, with a credit for the dear and the cheap one."""
    count, dear, big, small = draw.randint(5, 90), draw.randint(2, 7), f"{name}_big", f"{name}_small"
    credit = draw.randint(dear, count * 2)
    body = f"""{some(draw, 0, 2)} if ((x & 3u) == 0u && k >= {dear}u) {{ {marked(big, some(draw, 4, 12))} k = k - {dear}u; }}
    else if ((x & 1u) && k >= 1u) {{ {marked(small, some(draw, 2, 6))} k--; }}"""
    return Piece(function(name, f"k = {credit}u; {times(count, body)}"), name, [f"{dear}*{big} + 1*{small} <= {credit}*{name}"])


def budget(draw, name):
    """A loop that turns at most so often in a whole run, whatever its calls are."""
    each, total, m, left = draw.randint(2, 60), draw.randint(2, 200), f"{name}_turn", f"{name}_left"
    body = at_most(each, f"for (n = x % {each + 1}u; i < n && {left} > 0u; i++)", m, f"{some(draw)} {left}--;")
    return Piece(function(name, body, f"static unsigned {left} = {total}u;\n"), name, [f"1*{m} <= {total}*main"])


def reads(draw, name):
    """Loops that read bytes of a message, of which all functions together read at most so many."""
    each, parts = draw.randint(2, 40), [f"{name}_byte{at}" for at in range(draw.randint(1, 3))]
    body = "".join(at_most(each, f"for (i = 0; i < {each}u && x != {at}u && bytes > 0u; i++)", m,
                           f"x = x + (unsigned)getchar(); bytes--; {some(draw)}") for at, m in enumerate(parts))
    return Piece(function(name, body), name, [], [("bytes", m) for m in parts])


def faulty(draw, name):
    """A loop with something that may go wrong, which is dear, and goes wrong at most so often in all functions together."""
    count, m = draw.randint(3, 60), f"{name}_fault"
    body = f"{some(draw)} if ((x & 7u) == 5u && faults > 0u) {{ {marked(m, some(draw, 5, 14))} faults--; }}"
    return Piece(function(name, times(count, body)), name, [], [("faults", m)])


def searched(draw, name):
    """A loop that its `break` always ends, before its last turn's work."""
    count, m = draw.randint(3, 40), f"{name}_looked"
    body = f"if (i == {count - 1}u || table[i & 15u] == x) break; {marked(m, some(draw))}"
    return Piece(function(name, loop(1, count, f"for (i = 0; i < {count}u; i++)", body)), name, [f"1*{m} <= {count - 1}*{name}"])


KINDS = (triangle, rare, ticks, toggle, steps, one_of_two, equal, shares, budget, reads, faulty, searched)
