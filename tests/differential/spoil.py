"""Random programs with a few random changes, so that most are refused somewhere: each is a function of its seed."""
import random
import re

from generate import program

PIECE = re.compile(
    r"""#pragma[^\n]*|_Pragma\("[^"]*"\)|'(?:\\.|[^'\\])+'|[A-Za-z_]\w*|[0-9]\w*|<<=|>>=|[-+*/%&^|=!<>]=|\+\+|--|&&|\|\||<<|>>|\s+|.""",
    re.DOTALL)
TYPE_WORDS = "static extern inline const void char short int long signed unsigned".split()
OTHER_WORDS = "if else while do for switch case default break continue return".split()
OPERATORS = "+ - * / % << >> < > <= >= == != & ^ | && || ? : = *= /= %= += -= <<= >>= &= ^= |= , ++ -- ! ~ ( ) [ ] { } ;".split()
NUMBERS = ["0", "1", "2", "8", "32", "255", "262144", "262145", "2147483647", "2147483648u", "4294967295", "0xFFFFFFFF", "1l",
           "(1 / 0)", "(1 << 31)", "(1 || 1 / 0)", "(1, 2)", "09", "1.5", "'ab'", "''"]
NAMES = ["nowhere", "main", "getchar", "putchar", "f0"]
ITEMS = ["break;", "continue;", "return;", "return 1;", "int nowhere;", "const int nowhere;", "void nowhere;", "static int nowhere;",
         "int main;", "int f0(void);", "void f0(int);", "long f0();", "f0();", "f0(1);", "1 + f0();", "case 1:", "default:", "case 'a' + 0:",
         "switch (1) { case 1: case 2 - 1: ; }", "int a0[2] = {1, 2, 3};", "int a0[] = {1};", "int a0[];", "int a0[0];", "int s0 = {1};",
         "a0;", "a0[1] = 2;", "a0 = 1;", "1 = 2;", "(void)1;", "(void)1 + 1;", "main();", "(long long)1;", "(int char)1;",
         "while (0) ;", "do ; while (0);", "for (int i = 0; i < 2; i++) ;", "#pragma marker m1", "#pragma marker f0",
         "#pragma flowrestriction 1*m1 <= 1*main", "#pragma flowrestriction 1*nowhere <= 1*main", "#pragma loopbound min 1 max 0",
         "#pragma loopbound min 0 max 3", "#pragma pack(1)", "# 1 \"a.c\"", "#define A 1", "/* a */", "/*", "\"a\";", "{", "}"]


def is_word(piece):
    return piece[:1].isalpha() or piece[:1] == "_"


def is_name(piece):
    return is_word(piece) and piece not in TYPE_WORDS and piece not in OTHER_WORDS and not piece.startswith("_Pragma")


def places(pieces, is_wanted):
    return [at for at, it in enumerate(pieces) if is_wanted(it)]


class Spoiler:
    def __init__(self, chance, source):
        self.chance = chance
        self.pieces = PIECE.findall(source)
        self.names = sorted({it for it in self.pieces if is_name(it)}) + NAMES

    def text(self):
        return "".join(self.pieces)

    def replace(self, is_wanted, others):
        """Puts one of the others in place of some piece of a kind."""
        found = places(self.pieces, is_wanted)
        if found:
            self.pieces[self.chance.choice(found)] = self.chance.choice(others)

    def name(self):
        self.replace(is_name, self.names)

    def number(self):
        self.replace(lambda it: it[:1].isdigit() or it[:1] == "'", NUMBERS + self.names)

    def operator(self):
        self.replace(lambda it: it in OPERATORS, OPERATORS)

    def type_word(self):
        words = TYPE_WORDS + ["", "const const", "long long"] + [f"{it} int" for it in TYPE_WORDS]
        self.replace(lambda it: it in TYPE_WORDS, words)

    def keyword(self):
        self.replace(lambda it: it in OTHER_WORDS, OTHER_WORDS)

    def any_piece(self):
        self.replace(lambda it: not it.isspace(), self.pieces)

    def drop(self):
        self.replace(lambda it: not it.isspace(), [""])

    def byte(self):
        self.replace(lambda it: not it.isspace(), [chr(self.chance.randrange(1, 127))])

    def lines(self, change):
        """Changes the list of lines at one of them."""
        lines = self.text().split("\n")
        change(lines, self.chance.randrange(len(lines)))
        self.pieces = PIECE.findall("\n".join(lines))

    def item(self):
        """An item more, anywhere."""
        self.lines(lambda lines, at: lines.insert(at, self.chance.choice(ITEMS)))

    def line_lost(self):
        self.lines(lambda lines, at: lines.pop(at))

    def line_twice(self):
        self.lines(lambda lines, at: lines.insert(at, lines[at]))

    def lines_swapped(self):
        def swap(lines, at):
            lines[at], lines[at - 1] = lines[at - 1], lines[at]
        self.lines(swap)

    def pragma(self):
        """Changes a byte or a number in a pragma."""
        found = places(self.pieces, lambda it: "pragma" in it.lower())
        if not found:
            return
        at = self.chance.choice(found)
        words = re.findall(r"\w+|\W", self.pieces[at])
        words[self.chance.randrange(len(words))] = self.chance.choice(["", " ", "0", "1", "00", "1000001", "max", "*", "+", "=", "<", "nowhere"])
        self.pieces[at] = "".join(words)


# What is likelier to be a fault of types stands more often.
CHANGES = [Spoiler.name] * 6 + [Spoiler.type_word] * 5 + [Spoiler.item] * 8 + [Spoiler.number] * 4 + [Spoiler.operator] * 2 + [
    Spoiler.keyword, Spoiler.any_piece, Spoiler.drop, Spoiler.byte, Spoiler.line_lost, Spoiler.line_lost, Spoiler.line_twice,
    Spoiler.line_twice, Spoiler.lines_swapped, Spoiler.pragma]


def spoiled(seed):
    """A source and its input."""
    source, data = program(seed)
    chance = random.Random(f"spoiled {seed}")
    spoiler = Spoiler(chance, source.decode())
    for _ in range(chance.randrange(1, 4)):
        chance.choice(CHANGES)(spoiler)
    return spoiler.text().encode(), data
