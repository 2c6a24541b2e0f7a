"""Which construct that the language lacks stands at a place where a source is refused.

Each function answers the words of an entry of texts.txt and what fills it, or None where it can't be sure.
"""
import re
from collections.abc import Callable, Iterator

from evaluator.parser import LOOP, OPERAND, SPECS, TYPE
from evaluator.rules import BUILT_IN
from evaluator.tokens import OUTSIDE_WORDS, PRAGMAS
from names import (ANNOTATIONS, ASSEMBLY, AT_HAND, ATTRIBUTES, COMPILER_WORDS, HEADERS_OF_OTHERS, HEADERS_OF_TYPES,
                   is_compiler_word)
from spot import CLOSING, OPENING, OUTSIDE, Spot

# The words of an entry of texts.txt and what fills it, or None.
Construct = tuple[str, ...] | None

# What stands before a bracket that is none of an expression, and what an operand ends with.
HEADS, OPERANDS = {"if", "while", "for", "switch"}, {"name", ")", "]"}
# What may begin an operand of `*` and `&`.
OBJECTS = {"name", "(", "*", "&", "++", "--"}
QUALIFIERS = {"static", "extern", "inline", "const"}
# What may stand between `asm` and its bracket.
OF_ASSEMBLY = {"volatile", "__volatile__", "__volatile", "goto", "inline", "__inline__"}
KEYWORDS = {"double": "float", "_Imaginary": "_Complex", "_Alignof": "_Alignas"}
FLOATING = re.compile(
    r"(?:(?:[0-9]*\.[0-9]+|[0-9]+\.)(?:[eE][+-]?[0-9]+)?|[0-9]+[eE][+-]?[0-9]+"
    r"|0[xX][0-9a-fA-F]*\.?[0-9a-fA-F]*[pP][+-]?[0-9]+)[fFlLiIjJ]*")
WHOLE = re.compile(r"(0[xX][0-9a-fA-F]+|0[bB][01]+|0[0-7]*|[1-9][0-9]*)([uU]?(?:ll|LL|[lL])?|(?:ll|LL|[lL])[uU])")
DIRECTIVE = re.compile(r"#[ \t]*(\w*)")
DIRECTIVES = set("include include_next import define undef if ifdef ifndef elif elifdef elifndef else endif".split())
DIGRAPHS = {"<:", ":>", "<%", "%>", "%:", "%:%:"}
# Character constants that are outside: escapes of a number have at most 255.
CHARACTERS = [
    ("character value", re.compile(r"'\\(?:x[0-9a-fA-F]+|[0-7]{3})'")),
    ("characters", re.compile(r"'(?:[ -&(-\[\]-~]|\\['\"?\\abfnrtv]){2,}'")),
    ("escape", re.compile(r"'\\[^'\"?\\abfnrtvx0-7uU]'")),
    ("character letter", re.compile(r"'[^\x00-\x7f]'")),
]


class Elsewhere(tuple[str, ...]):
    """The words of an entry and what fills it, of which another place than that of the refusal is shown."""
    at: int

    @classmethod
    def of(cls, spot: Spot, ahead: int, *words: str) -> "Elsewhere":
        construct = cls(words)
        construct.at = spot.token(ahead).at
        return construct


# What is outside by its tokens

def outside(spot: Spot) -> Construct:
    text = spot.text()
    if text in ("#", "##"):
        return ("inner directive", spot.text(1)) if spot.text(1) in DIRECTIVES | {"pragma"} else ("paste",)
    if text.startswith("#"):
        return directive(text)
    if text[:1].isdigit() or text[:1] == "." and text[1:2].isdigit():
        return number(text)
    if text.endswith(("'", '"')):
        return quoted(spot, text)
    if text in (".", "->"):
        is_designator = text == "." and spot.kind(-1) in ("{", ",") and spot.kind(1) == "name" and spot.text(2) in ("=", ".", "[")
        return ("designator",) if is_designator else ("member",)
    if text == "...":
        return dots(spot)
    if text in DIGRAPHS:
        return "digraph", text
    return keyword(spot, text) if text in OUTSIDE_WORDS else None


def directive(text: str) -> Construct:
    word = DIRECTIVE.match(text)[1]
    return ("directive", word) if word in DIRECTIVES else None


def number(text: str) -> Construct:
    if whole := WHOLE.fullmatch(text):
        return whole_number(*whole.groups())
    if FLOATING.fullmatch(text):
        return ("floating constant",)
    return ("octal", text) if re.fullmatch(r"0[0-9]+[uUlL]*", text) else ("no number", text[:40])


def whole_number(digits: str, suffix: str) -> Construct:
    base = {"0x": 16, "0b": 2}.get(digits[:2].lower(), 8 if digits[0] == "0" else 10)
    value = int(digits, base) if len(digits) < 100 else 1 << 64
    if value >= 1 << 32 or "ll" in suffix.lower():
        return ("64-bit constant",)
    return ("binary constant", hex(value)) if base == 2 else ("unsigned constant", digits)


def quoted(spot: Spot, text: str) -> Construct:
    if text[0] in "LuU":
        return ("wide",)
    if text[0] == "'":
        return next(((key,) for key, form in CHARACTERS if form.fullmatch(text)), None)
    if spot.kind(-1) == "extern":
        return ("extern C",)
    called = list(calls_around(spot))
    if ASSEMBLY & set(called):
        return ("asm",)
    if ATTRIBUTES & set(called):
        return ("attribute",)
    return ("static assertion",) if called[:1] == ["static_assert"] else ("string",)


def calls_around(spot: Spot) -> Iterator[str]:
    """The names before the brackets that are open at the place, from the innermost on."""
    opening = 0
    while (opening := spot.opening(opening)) is not None and spot.kind(opening) == "(":
        if called := before_bracket(spot, opening):
            yield called


def before_bracket(spot: Spot, opening: int) -> str | None:
    """The name before an open bracket, or before what may stand between `asm` and its bracket."""
    place = opening - 1
    while spot.text(place) in OF_ASSEMBLY:
        place -= 1
    return spot.text(place) if spot.kind(place) == "name" and (place == opening - 1 or spot.text(place) in ASSEMBLY) else None


def dots(spot: Spot) -> Construct:
    opening = spot.opening(0)
    around = None if opening is None else spot.kind(opening)
    if around == "(" and spot.kind(-1) in (",", "(") and spot.kind(1) == ")":
        return ("variadic",)
    if around == "[" and spot.kind(opening - 1) in ("{", ","):
        return ("designator",)
    ahead = -1
    while spot.kind(ahead) not in (None, ";", ":", "{", "}", "case"):
        ahead -= 1
    return ("case range",) if spot.kind(ahead) == "case" else None


def keyword(spot: Spot, word: str) -> Construct:
    place = -1
    while spot.text(place) in OF_ASSEMBLY:
        place -= 1
    if word in OF_ASSEMBLY and spot.text(place) in ASSEMBLY:
        return ("asm",)
    if word == "struct" and has_bit_field(spot):
        return ("bit-field",)
    return (KEYWORDS.get(word, word),)


def has_bit_field(spot: Spot) -> bool:
    """Whether a member of the structure that begins here has a width."""
    ahead = 2 if spot.kind(1) == "name" else 1
    if spot.kind(ahead) != "{":
        return False
    end = spot.closing(ahead) or ahead
    return any(spot.kind(it) == ":" and spot.kind(it + 2) in (";", ",") for it in range(ahead, end))


# What is outside by its grammar

def syntax(spot: Spot) -> Construct:
    wanted = spot.wanted()
    if wanted is None:
        return None
    if wanted == LOOP:
        return ("bound semicolon",) if spot.kind() == ";" and spot.kind(1) in ("for", "while", "do") else ("lone bound",)
    if spot.kind() in PRAGMAS:
        return ("misplaced " + spot.kind(),)
    if wanted == "{":
        return ("switch",)
    return annotation(spot) or compiler_word(spot) or SIGNS.get(spot.kind(), lambda *_: None)(spot, wanted)


def annotation(spot: Spot) -> Construct:
    """A macro of <wcc.h> without its header, at the place or before it."""
    if spot.text() in ANNOTATIONS:
        return lacking(spot, 0)
    before = -2 if spot.kind(-1) in ("++", "--", "*", "&") else -1
    opening = spot.opening(before) if spot.kind(before) == ")" else None
    return lacking(spot, opening - 1) if opening is not None and spot.text(opening - 1) in ANNOTATIONS else None


def lacking(spot: Spot, ahead: int) -> Elsewhere:
    """A name of a header of include/ that isn't included."""
    return Elsewhere.of(spot, ahead, "lacking header", spot.text(ahead), AT_HAND[spot.text(ahead)])


def compiler_word(spot: Spot) -> Construct:
    """A word of a compiler at the place, before it, or before the brackets around it or before it."""
    heads = [0, -1]
    opening = 0
    while (opening := spot.opening(opening)) is not None and spot.kind(opening) == "(":
        heads.append(opening - 1)
    if spot.kind(-1) == ")":
        heads.append(spot.opening(-1) - 1)
    for name in [spot.text(it) for it in heads if spot.kind(it) == "name"]:
        if name in ATTRIBUTES:
            return ("attribute",)
        if name in ASSEMBLY:
            return ("asm",)
        if name in COMPILER_WORDS or name == "typeof":
            return "compiler word", name
    return None


def star(spot: Spot, wanted: str) -> Construct:
    if spot.kinds(-1, "[", "*", "]"):
        return ("size in brackets",)
    opening = spot.opening(0)
    if opening is not None and spot.opening(opening) is None and spot.text(opening - 1) == "main" and spot.kind(opening) == "(":
        return ("main parameters",)
    is_operator = wanted == OPERAND and spot.kind(1) in OBJECTS
    return ("pointer",) if is_operator or wanted == "name" or spot.kind(-1) in SPECS else None


def ampersand(spot: Spot, wanted: str) -> Construct:
    return ("address",) if wanted == OPERAND and spot.kind(1) in OBJECTS else None


def two_ampersands(spot: Spot, wanted: str) -> Construct:
    return ("goto",) if wanted == OPERAND and spot.kind(1) == "name" and spot.kind(-1) in ("=", "(", ",", "{") else None


def square(spot: Spot, wanted: str) -> Construct:
    before = spot.kind(-1)
    if spot.kind(1) == "[" and (wanted == TYPE or wanted == OPERAND and spot.begins_statement(0)):
        return ("attribute",)
    if wanted == OPERAND:
        return ("designator",) if before in ("{", ",") and spot.in_list() else None
    if before == "]":
        return ("matrix",)
    if before in SPECS:
        closing = spot.closing(0)
        return ("compound literal",) if closing is not None and spot.kinds(closing + 1, ")", "{") else None
    return ("indexed expression",) if before == ")" and not spot.is_declarator(-1) else None


def round_bracket(spot: Spot, wanted: str) -> Construct:
    before = spot.kind(-1)
    if before in SPECS:
        return bracketed_declarator(spot)
    if before == "name" and wanted == ")":
        return ("function pointer",)
    if before == "name" and wanted == ";" and spot.kind(-2) == ",":
        return ("several functions",)
    if before == "]":
        return ("function pointer",)
    if before != ")" or wanted == OPERAND or spot.is_declarator(-1):
        return None
    opening = spot.opening(-1)
    if spot.kind(opening - 1) in HEADS:
        return None
    is_cast = opening == -3 and spot.kind(-2) == "name" and spot.kind(opening - 1) not in OPERANDS
    return cast_to(spot, opening) if is_cast else ("called expression",)


def bracketed_declarator(spot: Spot) -> Construct:
    closing = spot.closing(0)
    if spot.kind(1) == "*" and closing is not None:
        return ("function pointer",) if spot.kind(closing + 1) == "(" else ("pointer",)
    return ("bracketed declarator",) if spot.kinds(1, "name", ")") else None


def cast_to(spot: Spot, opening: int) -> Construct:
    """`(name)` before an operand, which only a cast would be, or before a bracket, which a call could be too."""
    is_type = spot.kind() != "(" or spot.text(opening + 1) in HEADERS_OF_TYPES
    return type_name(spot, opening + 1) if is_type else ("called expression",)


def brace(spot: Spot, wanted: str) -> Construct:
    before = spot.kind(-1)
    if wanted == OPERAND and before == "(":
        return ("statement expression",) if spot.kind(-2) not in HEADS | OPERANDS else None
    if wanted == OPERAND and before in ("{", ",") and spot.in_list():
        return ("nested list",)
    if before != ")":
        return None
    if wanted == OPERAND and spot.kind(spot.opening(-1) + 1) in SPECS:
        return ("compound literal",)
    return ("nested function",) if wanted == ";" and spot.in_block() and spot.is_declarator(-1) else None


def closing_brace(spot: Spot, wanted: str) -> Construct:
    return ("empty list",) if wanted == OPERAND and spot.kinds(-2, "=", "{") else None


def colon(spot: Spot, wanted: str) -> Construct:
    if spot.kind(-1) == "?":
        return ("omitted operand",)
    is_label = wanted == ";" and spot.kind(-1) == "name" and spot.begins_statement(-1)
    return ("label",) if is_label and spot.kind(1) != ":" else None


def semicolon(spot: Spot, wanted: str) -> Construct:
    return ("lone semicolon",) if wanted == TYPE and spot.opening(0) is None else None


def comma(spot: Spot, wanted: str) -> Construct:
    return ("several functions",) if wanted == ";" and spot.kind(-1) == ")" and spot.is_declarator(-1) else None


def equals(spot: Spot, wanted: str) -> Construct:
    """`T *p = e`, where `T` is no type: read as a product, to which nothing is assigned."""
    is_pointer = spot.kinds(-3, "name", "*", "name") and spot.begins_statement(-3)
    return type_name(spot, -3) if wanted == ";" and is_pointer else None


def specs_word(spot: Spot, wanted: str) -> Construct:
    """`a[static 3]`, and `T *const p` where `T` is no type."""
    if wanted == OPERAND and spot.kind(-1) == "[":
        return ("size in brackets",)
    return type_name(spot, -2) if spot.kinds(-2, "name", "*") and spot.begins_statement(-2) else None


def closing_round(spot: Spot, wanted: str) -> Construct:
    """`(T *)e`, where `T` is no type."""
    is_group = spot.kinds(-3, "(", "name", "*") and spot.kind(-4) not in HEADS | OPERANDS
    return type_name(spot, -2) if is_group and spot.kind(1) in ("name", "(", "&", "number") else None


def label_word(spot: Spot, wanted: str) -> Construct:
    if wanted != OPERAND or not spot.begins_statement(0):
        return None
    return ("nested label",) if spot.in_switch() else ("lone label",)


def name(spot: Spot, wanted: str) -> Construct:
    if wanted == TYPE:
        return param_name(spot) if spot.opening(0) is not None else outer_name(spot)
    return behind_name(spot, wanted)


def outer_name(spot: Spot) -> Construct:
    """A name with which an item of file level begins."""
    if spot.kind(1) in ("name", "*"):
        return type_name(spot, 0)
    if spot.kind(1) in SPECS:
        return "unknown word", spot.text()
    if spot.kind(1) in ("=", "[", ","):
        return "implicit int", spot.text()
    closing = spot.closing(1) if spot.kind(1) == "(" else None
    if closing is None:
        return None
    behind = spot.declarations(closing + 1)
    if spot.kind(behind) == "{" and spot.kind(behind - 1) in (")", ";"):
        return "implicit int", spot.text()
    return ("unknown word", spot.text()) if behind > closing + 1 else None


def param_name(spot: Spot) -> Construct:
    """A name where a parameter's type must stand."""
    if spot.kind(1) in ("name", "*") or spot.kind(1) in SPECS:
        return type_name(spot, 0)
    if spot.kind(1) == "[":
        return "implicit int", spot.text()
    opening = spot.opening(0)
    closing = spot.closing(opening)
    if closing is None or spot.kind(1) not in (",", ")"):
        return None
    behind = spot.kind(closing + 1)
    if behind == "{":
        return "implicit int", spot.text()
    if behind == ";":
        return type_name(spot, 0)
    are_names = all(spot.kind(it) in ("name", ",") for it in range(opening + 1, closing))
    return ("old definition",) if are_names and (behind == "name" or behind in SPECS) else None


def behind_name(spot: Spot, wanted: str) -> Construct:
    """A name behind another one, which only a type's name could be; or behind a name in brackets, as behind a cast."""
    if spot.kind(-1) == "name" and spot.on_one_line(-1, 0):
        if spot.begins_statement(-1) or spot.kind(-2) in QUALIFIERS and only_qualifiers(spot):
            return type_name(spot, -1)
    return operand_behind(spot, wanted)


def operand_behind(spot: Spot, wanted: str) -> Construct:
    is_cast = wanted != OPERAND and spot.kinds(-3, "(", "name", ")") and spot.kind(-4) not in HEADS | OPERANDS
    return cast_to(spot, -3) if is_cast else None


def only_qualifiers(spot: Spot) -> bool:
    """Whether the words before the name before the place name no type."""
    ahead = -2
    while spot.kind(ahead) in QUALIFIERS:
        ahead -= 1
    return spot.kind(ahead) not in SPECS


def type_name(spot: Spot, ahead: int) -> Construct:
    """A name where only that of a type could stand. One that stands before is that of an object or a function."""
    text = spot.text(ahead)
    if text in AT_HAND:
        return lacking(spot, ahead)
    if text in HEADERS_OF_TYPES:
        return Elsewhere.of(spot, ahead, "header type", text, HEADERS_OF_TYPES[text])
    return None if text in BUILT_IN or spot.stands_before(ahead) else Elsewhere.of(spot, ahead, "type name", text)


SIGNS = {"*": star, "&": ampersand, "&&": two_ampersands, "[": square, "(": round_bracket, ")": closing_round,
         "{": brace, "}": closing_brace, ":": colon, ";": semicolon, ",": comma, "=": equals, "name": name,
         "case": label_word, "default": label_word,
         **dict.fromkeys(("number", "character", "~", "!"), operand_behind), **dict.fromkeys(SPECS, specs_word)}


# What is outside by its types and names

def typed(spot: Spot, rule: int) -> Construct:
    return RULES.get(rule, lambda _: None)(spot)


def words_of_type(spot: Spot) -> Construct:
    """Rule 1: words that spell no type, or stand where they may not."""
    is_cast = spot.kind() == "("
    words, behind = spot.specs(1 if is_cast else 0)
    if words.count("long") > 1:
        return ("long long",)
    if words and not set(words) - QUALIFIERS:
        return ("implicit int", spot.text(behind)) if spot.kind(behind) == "name" else None
    around = spot.opening(0)
    is_object = spot.kind(behind) == "name" and spot.kind(behind + 1) != "("
    in_head = around is not None and spot.kind(around) == "(" and spot.kind(around - 1) != "for"
    if is_cast or not is_object or in_head or len(words) > len(set(words)):
        return None
    if "static" in words and around is not None:
        return ("static local",)
    return ("extern object",) if "extern" in words else None


def undeclared(spot: Spot) -> Construct:
    """Rule 2: a name that isn't declared."""
    text = spot.text()
    if spot.kind() != "name":
        return None
    if text in ATTRIBUTES or text in ASSEMBLY:
        return ("attribute",) if text in ATTRIBUTES else ("asm",)
    if is_compiler_word(text):
        return "compiler word", text
    marked = next(calls_around(spot), None)
    if marked in ANNOTATIONS:
        return "lacking header", marked, AT_HAND[marked]
    if text in AT_HAND:
        return lacking(spot, 0)
    if text in HEADERS_OF_TYPES:
        return "header type", text, HEADERS_OF_TYPES[text]
    if text in HEADERS_OF_OTHERS:
        return "header name", text, HEADERS_OF_OTHERS[text]
    is_pointer = spot.kinds(0, "name", "*", "name") and spot.kind(3) in (";", ",") and spot.begins_statement(0)
    return ("type name", text) if is_pointer else None


def not_constant(spot: Spot) -> Construct:
    """Rule 4: a name stands in what must be constant: in an array's size, in a label, or in a value at file level."""
    if spot.kind() == "case":
        ahead = 1
        while spot.kind(ahead) not in (None, ":", ";", "name"):
            ahead += 1
        return ("constant name", spot.text(ahead)) if spot.kind(ahead) == "name" else far_shift(spot, 0, ahead)
    ahead = 0 if spot.kind() == "name" else spot.specs(0)[1]
    is_local = spot.in_block() or spot.kind() != "name"
    behind = ahead + 1
    if spot.kind(behind) == "[":
        behind = (spot.closing(behind) or behind) + 1
    if not is_local:
        while spot.kind(behind) not in (None, ",", ";"):
            behind = (spot.closing(behind) or behind) + 1 if spot.kind(behind) in ("{", "(") else behind + 1
    names = [it for it in range(ahead + 1, behind) if spot.kind(it) == "name"]
    if not names:
        return far_shift(spot, ahead, behind)
    if spot.text(names[0]) in AT_HAND and not spot.stands_before(names[0]):
        return lacking(spot, names[0])
    return ("variable array",) if is_local else ("constant name", spot.text(names[0]))


def far_shift(spot: Spot, first: int, behind: int) -> Construct:
    """A shift of a number between two distances, whose value is no int."""
    for ahead in range(first, behind):
        if spot.kinds(ahead, "number", "<<", "number"):
            (value, *suffixes), (count, *_) = spot.token(ahead).said, spot.token(ahead + 2).said
            if not suffixes[0] and count < 32 and value < 1 << 31 <= value << count:
                number = spot.source[spot.token(ahead).at:spot.token(ahead + 1).at].decode(errors="replace").strip()
                return Elsewhere.of(spot, ahead, "far shift", number, str(count))
    return None


def second_declaration(spot: Spot) -> Construct:
    """Rule 3 at an object of file level that was declared with the same words."""
    words, seen, depth = [], [], 0
    for place, it in enumerate(spot.tokens[:spot.index + 1]):
        depth += (it.kind in OPENING) - (it.kind in CLOSING)
        if not depth and it.kind in (";", "}"):
            words = []
        elif not depth and it.kind in SPECS:
            words.append(it.kind)
        elif not depth and it.kind == "name" and it.said == spot.text() and spot.kind(place - spot.index + 1) != "(":
            if place == spot.index:
                return ("second declaration", spot.text()) if words in seen else None
            seen.append(list(words))
    return None


def array_value(spot: Spot) -> Construct:
    """Rule 6 at an array's name, and not at an index of what is no array."""
    return ("array value",) if spot.kind() == "name" and spot.kind(1) != "[" else None


def function_value(spot: Spot) -> Construct:
    """Rule 7 at a function's name that isn't called."""
    return ("function pointer",) if spot.kind() == "name" and spot.kind(1) != "(" else None


RULES = {1: words_of_type, 2: undeclared, 3: second_declaration, 4: not_constant, 6: array_value, 7: function_value}


# What no token begins with

def bad(source: bytes, at: int) -> Construct:
    """A byte or a piece with which no token begins."""
    rest = source[at:at + 200]
    if rest.startswith(b"\xef\xbb\xbf") and not at:
        return ("byte order mark",)
    if rest.startswith(b"/*"):
        return ("open comment",)
    if rest.startswith((b'"', b"'")):
        return ("empty character",) if rest.startswith(b"''") else ("open quote",)
    if re.match(rb"\\[ \t\r]*\n", rest):
        return ("joined line",)
    if rest.startswith(b"_Pragma"):
        return ("pragma operator",)
    return ("other letter",) if rest[:1] >= b"\x80" else ("dollar",) if rest.startswith(b"$") else None


def found(line: list[str], source: bytes, at: int, spot: Callable[[bytes, int], Spot]) -> Construct:
    """The construct that a line of refusal speaks of, or None. `spot` makes the tokens around the place."""
    if line[1] == "bad":
        return bad(source, at)
    here = spot(source, at)
    if not here.found:
        return None
    if line[1] == "outside":
        return outside(here)
    if line[1] == "syntax":
        return syntax(here)
    return typed(here, int(line[1][5:])) if line[1].startswith("type-") else None
