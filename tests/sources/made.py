"""Sources that are made, since they are too large or too many alike: each limit at its number and one past it.

Each row is a name, the line that `eval` must print, the source and the input. The numbers are worked out here by hand.
"""

MAIN = "int main(void) { return 7; }"


def at(number, found, name, source_of, value="value 7 bytes 0"):
    """The source at the limit, and the one past it, whose line is `limit NAME found`."""
    yield f"{name}: {number}", value, source_of(number), b""
    yield f"{name}: one more", f"limit {name} {found}", source_of(number + 1), b""


def padded(length):
    return MAIN + " " * (length - len(MAIN))


def source_length():
    yield from at(1048576, 1048577, "source", padded)
    yield "source: found is one more, however long it is", "limit source 1048577", padded(1048576 + 70000), b""
    yield "source: its length comes before its tokens", "limit source 1048577", "$" * 1048577, b""


def input_length():
    reading = "int main(void) { return getchar(); }"
    yield "input: 16777216", "value 65 bytes 0", reading, b"A" * 16777216
    yield "input: one more", "limit input 16777217", reading, b"A" * 16777217
    yield "input: its length comes before the source's tokens", "limit input 16777217", "$", b"A" * 16777217
    yield "input: the source's length comes first", "limit source 1048577", padded(1048577), b"A" * 16777217


# What stands before, opens, stands within, closes and stands behind, and with how many pairs a tree is 256 nodes deep: the
# unit is the first node, a function the second, its body the third, a statement in it the fourth.
NESTS = [
    ("brackets", "int main(void) { return ", "(", "7", ")", "; }", 251),
    ("signs", "int main(void) { return ", "+ + ", "7", "", "; }", 125),
    ("sums on the left", "int main(void) { return 0", "+ 0", "+ 7", "", "; }", 250),
    ("casts", "int main(void) { return ", "(long)", "7", "", "; }", 251),
    ("calls", "int f(int x) { return x; } int main(void) { return ", "f(", "7", ")", "; }", 251),
    ("choices", "int main(void) { return ", "0 ? 1 : ", "7", "", "; }", 251),
    ("blocks", "int main(void) { ", "{", "return 7;", "}", "}", 251),
    ("tests", "int main(void) { ", "if (1) ", "return 7;", "", "}", 251),
    ("else", "int main(void) { ", "if (0) ; else ", "return 7;", "", "}", 251),
    ("switches", "int main(void) { ", "switch (1) { case 1: ", "return 7;", "}", "}", 251),
    ("array sizes", "int a[", "(", "7", ")", "]; int main(void) { return 7; }", 252),
]


def depth():
    for name, before, opens, within, closes, behind, most in NESTS:
        def nested(count):
            return before + opens * count + within + closes * count + behind
        yield f"depth: {name}, 256 deep", "value 7 bytes 0", nested(most), b""
        yield f"depth: {name}, deeper", "limit depth 257", nested(most + 1), b""
    yield "depth: 300 brackets", "limit depth 257", "int main(void){return " + "(" * 300 + "1" + ")" * 300 + ";}", b""


def nodes():
    # The unit, the function, its parameter, its body, and the statement with its number are six nodes.
    yield from at(16384, 16385, "nodes", lambda count: "int main(void) { " + ";" * (count - 6) + "return 7; }")
    yield ("nodes: they come before functions", "limit nodes 16385",
           "int f(void) {} " * 257 + "int main(void) { " + ";" * (16384 - 257 * 3 - 4 + 1) + "}", b"")
    yield "nodes: they come before types", "limit nodes 16385", "int main(void) { return x; " + ";" * (16385 - 6) + "}", b""
    yield "nodes: of 80,000 names", "limit nodes 160001", "".join(f"int x{number};" for number in range(80000)), b""


def functions():
    def source(count):
        return "".join(f"int f{it}(void) {{ return {it}; }} " for it in range(count - 1)) + MAIN
    yield from at(256, 257, "functions", source)
    yield "functions: declarations don't count", "value 7 bytes 0", "int f(void); " * 300 + MAIN, b""
    yield ("functions: they come before parameters", "limit functions 257",
           "int g(int, int, int, int, int, int, int, int, int); " + source(257), b"")


def parameters():
    def definition(count):
        names = [f"p{it}" for it in range(1, count + 1)]
        return (f"int f({', '.join('int ' + it for it in names)}) {{ return {' + '.join(names)}; }} "
                f"int main(void) {{ return f({', '.join('1' if it == 'p1' else '0' for it in names)}) + 6; }}")
    yield from at(8, 9, "parameters", definition)
    yield from at(8, 9, "parameters", lambda count: f"int f({', '.join(['int'] * count)}); " + MAIN)
    yield "parameters: the first that has too many", "limit parameters 10", (
        f"int f({', '.join(['int'] * 10)}); int g({', '.join(['int'] * 9)}); " + MAIN), b""
    yield "parameters: they come before types", "limit parameters 9", (
        f"int main(void) {{ int f({', '.join(['int'] * 9)}); return x; }}"), b""


def markers():
    yield from at(4096, 4097, "markers", lambda count: "int main(void) { " + "".join(
        f'_Pragma("marker m{it}")\n' for it in range(count)) + "return 7; }")
    yield "markers: they count before their names are looked at", "limit markers 4097", (
        "int main(void) { " + '_Pragma("marker m")\n' * 4097 + "return 7; }"), b""


def restrictions():
    yield from at(32, 33, "restrictions", lambda count: '_Pragma("flowrestriction 1*main = 1*main")\n' * (count - 1)
                  + 'int main(void) { _Pragma("flowrestriction 1*main <= 1*main") return 7; }')
    yield "restrictions: markers come before them", "limit markers 4097", (
        '_Pragma("flowrestriction 1*main = 1*main")\n' * 33 + "int main(void) { " + '_Pragma("marker m")\n' * 4097 + "}"), b""
    terms = " + ".join(["1*main"] * 32)
    yield "restrictions: 64 terms", "value 7 bytes 0", f'_Pragma("flowrestriction {terms} = {terms}") ' + MAIN, b""
    yield "restrictions: 65 terms", "refused pragma at 0", f'_Pragma("flowrestriction {terms} = {terms}+0*main") ' + MAIN, b""


def global_bytes():
    done = "value 7 bytes 0"
    yield "globals: 262144, one array", done, "char a[262144]; " + MAIN, b""
    yield "globals: 262144, an array that is rounded up", done, "char a[262137]; int x; " + MAIN, b""
    yield "globals: a scalar counts 4", "limit globals 262148", "char a[262144]; char x; " + MAIN, b""
    yield "globals: arrays, each rounded up", "limit globals 262148", "short a[131069]; char b[3], c; " + MAIN, b""
    yield "globals: far more", "limit globals 3145728", "int a[262144]; long b[262144]; unsigned c[262144]; " + MAIN, b""
    yield "globals: constants count too", "limit globals 262148", "const char a[262144]; static const int x; " + MAIN, b""
    yield "globals: types come first", "refused type-2 at 39", "int a[262144]; int main(void) { return x; }", b""


def local_bytes():
    done = "value 7 bytes 0"
    yield "locals: 262144", done, "int f(int a[], char c) { char b[262134]; return c; } " + MAIN, b""
    yield "locals: 4 more", "limit locals 262148", "int f(int a[], char c) { char b[262137]; return c; } " + MAIN, b""
    yield ("locals: of all functions and blocks", "limit locals 262148",
           "int f(void) { char b[131072]; { char c[131068]; } return 1; } int main(void) { for (int i;;) ; char c; }", b"")
    yield "locals: parameters of a declaration don't count", done, (
        "int f(int a[262144], int); int g(void) { char b[262144]; return 1; } " + MAIN), b""
    yield "locals: globals come first", "limit globals 262148", "char a[262144], x; int main(void) { char b[262144], y; }", b""
    yield "locals: before recursion and bounds", "limit locals 262148", "int main(void) { char b[262144], y; while (main()); }", b""


STARTS = 1048576


def repeated(piece, before=""):
    """The piece in two loops, each of which starts its body at most 2^20 times."""
    bound = f'_Pragma("loopbound min 0 max {STARTS}") '
    return before + "int main(void) { int x = 0; " + bound + "do " + bound + "do " + piece + " while (0); while (0); return 0; }"


# Pieces and how many nodes they execute at most.
PIECES = [
    ("nothing", ";", 1),
    ("a test", "if (x) ; else ;", 4),
    ("while, at most once", '_Pragma("loopbound min 0 max 0") while (x) ;', 1 + 1 * 2),
    ("while", '_Pragma("loopbound min 0 max 5") while (x) ;', 1 + 6 * 2),
    ("while with a return", '_Pragma("loopbound min 0 max 5") while (x) return 1;', 1 + 6 * 3),
    ("while with a constant test", '_Pragma("loopbound min 0 max 5") while (0) ;', 1 + 6 * 2),
    ("while with a constant test that isn't 0", '_Pragma("loopbound min 0 max 5") while (2 - 1) break;', 1 + 5 * 4),
    ("while that never starts, counted once", '_Pragma("loopbound min 0 max 0") while (1) break;', 1 + 1 * 2),
    ("do", '_Pragma("loopbound min 0 max 5") do ; while (x);', 1 + 5 * 2),
    ("do that never starts, counted once", '_Pragma("loopbound min 0 max 0") do ; while (x);', 1 + 1 * 2),
    ("for", '_Pragma("loopbound min 0 max 5") for (x = 0; x < 3; x++) ;', 1 + 3 + 6 * (3 + 1 + 2)),
    ("for without a test", '_Pragma("loopbound min 0 max 5") for (;;) break;', 1 + 5 * 1),
    ("for with a declaration", '_Pragma("loopbound min 0 max 5") for (int i = 0;;) break;', 1 + 3 + 5 * 1),
    ("an array without rest", "{ int a[2] = {1, 2}; }", 1 + 1 + 1 + 1 + 2),
    ("an array with a rest", "{ int a[10] = {1, 2}; }", 1 + 1 + 1 + 1 + 2 + 2 * 8),
    ("an array without size", "{ int a[] = {1, 2,}; }", 1 + 1 + 1 + 2),
    ("a call of getchar", "getchar();", 2),
    ("a declaration of a function", "{ int f(int); }", 1 + 1 + 1),
    ("a lone void", "{ int f(void); }", 1 + 1),
    ("a switch", "switch (x) { case 1: ; default: ; }", 1 + 1 + 2 + 1 + 1 + 1),
    ("a marker", '_Pragma("marker m")', 1),
    ("a restriction", '{ _Pragma("flowrestriction 1*main = 1*main") }', 2),
    ("brackets", "(x);", 3),
]


def executions():
    # The two loops of `repeated` and what stands beside them: the function, its body, the declaration, its object and its
    # number, the return and its number are 7; the outer loop is 1 and STARTS times the inner one and a test.
    def found(piece):
        return 7 + 1 + STARTS * (1 + STARTS * (piece + 1) + 1)
    for name, piece, count in PIECES:
        yield f"most: {name}", f"limit most {found(count)}", repeated(piece), b""
    function = "int f(int a, int b) { return a; } "
    yield "most: a call", f"limit most {found(4 + 6)}", repeated("f(x, 1);", function), b""
    function = "int f(void) { return 1; } int g(void) { return f() + f(); } "
    yield "most: calls of calls", f"limit most {found(2 + 6 + 2 * 4)}", repeated("g();", function), b""
    # 3 + 2 * 524287 * (1 + 1048577) is 2^40 - 1.
    loops = '_Pragma("loopbound min 0 max 524287") do _Pragma("loopbound min 0 max 1048577") do ; while (0); while (0); '
    yield "most: 1099511627775", "value 0 bytes 0", "int main(void) { " + loops + "}", b""
    yield "most: one more", "limit most 1099511627776", "int main(void) { " + loops + "; }", b""
    greatest = '_Pragma("loopbound min 0 max 2147483647") '
    yield "most: cut at 64 bits", "limit most 18446744073709551615", (
        "int main(void) { " + (greatest + "do ") * 4 + "; " + "while (0); " * 4 + "}"), b""
    yield "most: what main never calls doesn't count", "value 7 bytes 0", (
        "void f(void) { " + (greatest + "do ") * 4 + "; " + "while (0); " * 4 + "} " + MAIN), b""
    yield "most: bounds come before it", "refused bound at 152", (
        "int main(void) { " + (greatest + "do ") * 3 + "while (1) ; " + "while (0); " * 3 + "}"), b""


def long_programs():
    letters = "int main(void){if(getchar()==49){" + "putchar(65);" * 400 + "}}"
    yield "long: not taken", "value 0 bytes 0", letters, b""
    yield "long: taken", "value 0 bytes 400", letters, b"1"
    # 63 functions of 256 nodes each, and main: 16384 nodes in all, and each call stands as deep as a tree goes.
    chain = "int f0(void) { return " + "(" * 251 + "7" + ")" * 251 + "; }\n"
    chain += "".join(f"int f{it}(void) {{ return {'(' * 251}f{it - 1}(){')' * 251}; }}\n" for it in range(1, 63))
    chain += "int main(void) { return " + "(" * 250 + "f62()" + ")" * 250 + "; }"
    yield "deep: the deepest chain of calls", "value 7 bytes 0", chain, b""
    yield "deep: one node more", "limit nodes 16385", chain.replace("f62()", "(f62())"), b""


def long_numbers():
    nines = "9" * 5000
    yield "numbers: five thousand digits", "refused outside at 24", f"int main(void) {{ return {nines}; }}", b""
    yield "numbers: five thousand zeros before a digit", "value 7 bytes 0", f"int main(void) {{ return {'0' * 5000}7; }}", b""
    yield "numbers: five thousand digits in a pragma", "refused pragma at 17", (
        f'int main(void) {{ _Pragma("loopbound min 0 max {nines}") while (0); }}'), b""
    yield "numbers: five thousand digits in a restriction", "refused pragma at 0", (
        f'_Pragma("flowrestriction {nines}*main >= 0*main") {MAIN}'), b""


# Sources of up to a full MiB: what stands before, is repeated and stands behind, and how many nodes there are.
FULL = [
    ("statements", "int f() {", "x;", 524283, "}", 1048569),
    ("empty statements", "int f(){", ";", 1048567, "}", 1048570),
    ("values", "int a[] ={", "1,", 524282, "};", 524285),
    ("arguments", "int x=f(", "1,", 524282, "1);", 524287),
    ("objects", "int ", "a,", 524285, "a;", 524288),
    ("declarations", "    ", "int x;", 174762, "", 349525),
    ("statements in 250 blocks", "int f(){" + "{" * 250, "x;", 524000, "}" * 251, 1048253),
    ("arguments of 250 calls", "int x=" + "f(" * 250, "1,", 523000, "1" + ")" * 250 + ";", 523254),
]
# Tokens and what is none, repeated up to a full MiB, and where no unit goes on.
REPEATED = [("++", 524288, 0), ("a ", 524288, 0), ("#1\n", 349525, 1048575), ("#/**/\n", 174762, 1048572), ("/**/", 262144, 1048576),
            ("'\\x41'", 174762, 0), ('_Pragma("marker m")\n', 52428, 0)]


def full_sources():
    for name, before, part, times, behind, found in FULL:
        yield f"full: {name}", f"limit nodes {found}", before + part * times + behind, b""
    for part, times, place in REPEATED:
        yield f"full: {times} times {part!r}", f"refused syntax at {place}", part * times, b""


def made():
    for rows in (source_length, input_length, depth, nodes, functions, parameters, markers, restrictions, global_bytes,
                 local_bytes, executions, long_programs, long_numbers, full_sources):
        for name, line, source, data in rows():
            yield name, line, source.encode(), data
