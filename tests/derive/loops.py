"""Random `for` loops: half of them of the form of a counting loop, and the others off it in one place.

Each stands in a program that reads its input, so that an input may lead to its `break` or `return`.
"""
from dataclasses import dataclass

LEAST, GREATEST = -2147483648, 2147483647
ENDS = [LEAST, LEAST + 1, -1, 0, 1, GREATEST - 1, GREATEST]
UP = ("<", "<=")
# Loops that turn more often are counted by a quotient.
MOST_COUNTED = 100000


@dataclass
class Loop:
    """`at` is its place in the source. `bounds` is what its form gives, or None where it is off the form at `off`."""
    source: str
    at: int
    bounds: tuple
    off: str = None
    # A loop that may be left is left in its first turn on `early`, and never on `long`.
    early: bytes = b"x"
    long: bytes = b""


def written(rng, value):
    """A constant of type int with this value, in one of many spellings."""
    if value == LEAST:
        return rng.choice(["-2147483647 - 1", "(-2147483647 - 1)", "~2147483647"])
    if value < 0:
        return rng.choice([f"-{-value}", f"(-{-value})", f"0 - {-value}", f"- {-value:#x}", f"(int)-{-value}"])
    plain = [str(value), f"{value:#x}", f"(({value}))", f"+{value}", f"(int){value}u", f"(1 ? {value} : 2)", f"({value} | 0)"]
    if 32 < value < 127 and chr(value) not in "'\\\"":
        plain.append(f"'{chr(value)}'")
    if value in (0, 1):
        plain += [f"({value} && 3)", f"!{1 - value}", f"({value + 4} > 4)"]
    if value < 1 << 20:
        plain += [f"{2 * value} / 2", f"({value} << 0)", f"{value + 7} - 7", f"(short)0 + {value}"]
    return rng.choice(plain)


def numbers(rng):
    """A comparison, a first value, a limit and a step: for few turns, or at the ends of int."""
    operator = rng.choice(["<", "<=", ">", ">="])
    if rng.random() < 0.15:
        return operator, rng.choice(ENDS), rng.choice(ENDS), rng.choice([1, 2, 3, 65536, GREATEST // 2, GREATEST - 1, GREATEST])
    by = rng.choice([1, 1, 1, 2, 3, 5, 7, 100])
    first = rng.randint(-40, 40) if rng.random() < 0.9 else rng.choice([LEAST + 50, GREATEST - 50])
    distance = rng.choice([rng.randint(-5, 5), rng.randint(0, 30 * by), by * rng.randint(0, 30)])
    limit = first + (distance if operator in UP else -distance)
    return operator, first, min(GREATEST, max(LEAST, limit)), by


def count(operator, first, limit, by):
    """How often a number that never overflows passes the test, turn by turn where these aren't too many."""
    if abs(limit - first) // by > MOST_COUNTED:
        distance = limit - first if operator in UP else first - limit
        return max(0, (distance + by - 1) // by if operator in ("<", ">") else distance // by + 1)
    passes = {"<": int.__lt__, "<=": int.__le__, ">": int.__gt__, ">=": int.__ge__}[operator]
    turns = 0
    while passes(first, limit):
        turns += 1
        first += by if operator in UP else -by
    return turns


HARMLESS = [
    "s += {i};", "a[{i} & 7] = {i};", ";", "s = f({i});", "j = ~{i};", "if (s > 3) continue;",
    "{{ int {i} = 3; {i}++; s += {i}; }}", "{{ s--; s += {i} > 2 ? 1 : {i}; }}",
    "switch (s & 3) {{ case 1: break; default: s++; }}",
    '_Pragma("loopbound min 0 max 2") for (j = 0; j < 2; j++) {{ if (j == 1) break; s += {i}; }}',
    '_Pragma("loopbound min 1 max 1") do {{ s++; if (s) continue; }} while (0);',
]
LEAVING = [
    "if (getchar() == 'x') break;", "if (getchar() == 'x') return s;",
    "switch (getchar()) {{ case 'x': return 5; default: ; }}", "{{ if (getchar() >= 0) {{ s++; break; }} }}",
]
CHANGING = [
    "{i} = {i};", "{i}++;", "s = --{i};", "{i} += 0;", "a[({i})++ & 7] = 1;", "if ({i}++ > 5) s++;", "f({i} = 3);",
    '_Pragma("loopbound min 0 max 9") for ({i} = 5; s < 1; s++);', '_Pragma("loopbound min 0 max 9") while (s > 0) {i} -= 1;',
    "switch (s) {{ case 0: {i} = 2; }}", "{{ {{ ({i}) = 1; }} }}", "s = s || ({i} |= 1);",
]


def joined(rng, parts):
    """These statements in some order, as one."""
    rng.shuffle(parts)
    return parts[0] if len(parts) == 1 and rng.random() < 0.5 else "{ " + " ".join(parts) + " }"


def harmless(rng, name, most):
    return [rng.choice(HARMLESS).format(i=name) for _ in range(rng.randint(0, most))]


def step_of(rng, name, operator, by):
    up = operator in UP
    if by == 1 and rng.random() < 0.7:
        return rng.choice([f"{name}++", f"++{name}"] if up else [f"{name}--", f"--{name}"])
    return f"{name} {'+=' if up else '-='} {written(rng, by)}"


def program(kind, name, declared, head, body):
    """A program with one loop, whose head is given; and the loop's place."""
    outside = {it: f"{kind} {name}" if declared == it else "" for it in ("file", "parameter", "local")}
    before = f"int f(int i) {{ i ^= 1; return i & 3; }} {outside['file'] and outside['file'] + ';'}\n"
    before += f"int g({outside['parameter'] or 'void'}) {{ int j = 0, n = 3, a[8]; unsigned s = 0; "
    before += f"{outside['local'] and outside['local'] + '; '}"
    call = "g(1)" if declared == "parameter" else "g()"
    return f"{before}{head} {body} return s + j + n; }}\nint main(void) {{ return {call} & 255; }}\n", len(before)


def counting_loop(rng):
    operator, first, limit, by = numbers(rng)
    name, declared = rng.choice(["i", "i", "k"]), rng.choice(["local", "local", "parameter", "head"])
    kind = rng.choice(["int", "signed", "int signed"])
    start = f"{kind + ' ' if declared == 'head' else ''}{name} = {written(rng, first)}"
    head = f"for ({start}; {name} {operator} {written(rng, limit)}; {step_of(rng, name, operator, by)})"
    leaving = rng.random() < 0.4
    body = joined(rng, harmless(rng, name, 2) or [";"])
    if leaving:
        body = f"{{ {rng.choice(LEAVING).format(i=name)} {body} }}"
    source, at = program(kind, name, declared, head, body)
    turns = count(operator, first, limit, by)
    if turns > GREATEST:
        return Loop(source, at, None, "turns")
    return Loop(source, at, (min(1, turns) if leaving else turns, turns))


def other_loop(rng):
    """A loop that is off the form in one place."""
    operator, first, limit, by = numbers(rng)
    up = operator in UP
    first, limit, step = written(rng, first), written(rng, limit), step_of(rng, "i", operator, by)
    towards, back = ("+=", "-=") if up else ("-=", "+=")
    start, test, body = f"i = {first}", f"i {operator} {limit}", joined(rng, harmless(rng, "i", 2) or [";"])
    kind, declared = "int", "local"
    small = rng.randint(1, 9)
    off = rng.choice(["kind", "object", "start", "test", "step", "body", "value", "type"])
    if off == "kind":
        kind = rng.choice(["long", "unsigned", "char", "short", "signed char", "unsigned short"])
    elif off == "object":
        declared = "file"
    elif off == "start":
        start = rng.choice(["", f"(i) = {first}", f"i = {first}, j = 0", "i = n", f"i += {first}", f"j = {first}", f"(i = {first})",
                            "i = f(1)"])
    elif off == "test":
        test = rng.choice(["", f"({test})", f"(i) {operator} {limit}", f"{limit} {operator} i", f"i != {limit}", f"i {operator} n",
                           f"{test} && 1", f"i + 0 {operator} {limit}", f"j {operator} {limit}", f"!({test})"])
    elif off == "step":
        step = rng.choice(["", f"i{back[0] * 2}", f"{back[0] * 2}i", f"i {towards} 0", f"i {towards} -{small}", f"i {back} {by}",
                           f"i = i {towards[0]} 1", f"(i){towards[0] * 2}", f"{step}, j++", f"i {towards} n", f"j {towards} 1",
                           "i *= 2", f"(i {towards} 1)"])
    elif off == "body":
        body = joined(rng, [rng.choice(CHANGING).format(i="i"), *harmless(rng, "i", 2)])
    elif off == "value":
        start, test = rng.choice([(start, f"i {operator} 1 / 0"), ("i = 2147483647 + 1", test), (start, f"i {operator} 1 << 31"),
                                  (start, f"i {operator} (n, 3)")])
    else:
        other = rng.choice([f"{small}L", f"{small}u", f"(char){small}", f"(short){small}", f"(long){small}", f"{small} + 0u",
                            f"(1 ? {small} : 1L)"])
        start, test, step = rng.choice([(f"i = {other}", test, step), (start, f"i {operator} {other}", step),
                                        (start, test, f"i {towards} {other}")])
    source, at = program(kind, "i", declared, f"for ({start}; {test}; {step})", body)
    return Loop(source, at, None, off)


def loop_of(rng, number):
    return counting_loop(rng) if number % 2 == 0 else other_loop(rng)
