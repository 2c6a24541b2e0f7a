"""Programs of which a search for the greatest flow gave up most, when it went on no further than with numbers of 44 bits."""
import random
from pathlib import Path

import pieces
import programs

HERE = Path(__file__).resolve().parent
# The examples of a file of many kernels.
KERNELS = "blocks canframe debounce fft frame gate lift median network slip solve sort thermistor watchdog".split()


def all_of_them():
    yield from (programs.read(it) for it in sorted((HERE / "worked").glob("*.c")))
    yield from (functions(4, which) for which in range(3))
    yield from (functions(count, 0) for count in (12, 16, 32))
    yield kernels(KERNELS, 22)
    yield loops(12)


def functions(count, which):
    """So many functions with a triangle, a rare case or a choice each, called in loops."""
    draw = random.Random(f"functions {count} {which}")
    made = [draw.choice((pieces.triangle, pieces.rare, pieces.shares))(draw, f"f{at}") for at in range(count)]
    calls = "".join(pieces.times(draw.randint(5, 60), f"x = {it.name}(x);", "r") for it in made)
    return programs.Program(f"functions-{count}-{which}", programs.whole(made, calls), [it.facts[0] for it in made])


def kernels(names, count):
    """These kernels of examples/ and kernels/ in a file, with so many of their restrictions."""
    paths = {it.stem: it for it in programs.kernel_paths()}
    return programs.in_a_file(f"kernels-{len(names)}", [paths[it] for it in names], lambda facts: facts[:count])


def loops(count):
    """So many loops, each of which turns less often than its bound says."""
    heads = [f"for (i = 0; i < 40 && i < c{at}; i++)" for at in range(count)]
    body = "".join(pieces.at_most(40, head, f"a{at}", f"x = x * 3u + {at}u;") for at, head in enumerate(heads))
    names = "".join(f", c{at} = getchar() & {2 + at}" for at in range(count))
    return programs.Program(f"loops-{count}", f"int main(void)\n{{ int i{names}; unsigned x = 0u; {body} return (int)(x & 255u); }}\n",
                            [f"1*a{at} <= {2 + at}*main" for at in range(count)])
