"""From bytes to tokens: the longest piece is taken at each place (C11 6.4, paragraph 4)."""
import re
from typing import NamedTuple

KEYWORDS = frozenset(
    "break case char const continue default do else extern for if inline int long return short signed static switch "
    "unsigned void while".split())
OUTSIDE_WORDS = frozenset(
    "auto double enum float goto register restrict sizeof struct typedef union volatile _Alignas _Alignof _Atomic _Bool "
    "_Complex _Generic _Imaginary _Noreturn _Static_assert _Thread_local".split())
SIGNS = frozenset(
    "[ ] ( ) { } ++ -- & * + - ~ ! / % << >> < > <= >= == != ^ | && || ? : ; = *= /= %= += -= <<= >>= &= ^= |= ,".split())
OUTSIDE_SIGNS = frozenset(". -> ... # ## <: :> <% %> %: %:%:".split())
SIGN = re.compile(b"|".join(re.escape(it.encode()) for it in sorted(SIGNS | OUTSIDE_SIGNS, key=len, reverse=True)))
PRAGMAS = ("loopbound", "marker", "flowrestriction")

BLANKS = b"\t\n\v\f\r "
BLANK = re.compile(rb"[\t\n\v\f\r ]+")
WORD = re.compile(rb"[A-Za-z_][A-Za-z_0-9]*")
NUMBER = re.compile(rb"\.?[0-9](?:[eEpP][+-]|[A-Za-z_0-9.])*")
INTEGER = re.compile(rb"(0[xX][0-9a-fA-F]+|0[0-7]*|[1-9][0-9]*)([uU]?[lL]?|[lL][uU])")
# A backslash takes the next byte with it, but no line end.
CHARACTER = re.compile(rb"'((?:[^'\\\n]|\\[^\n])*)'")
DIRECTIVE_PRAGMA = re.compile(rb"pragma(?![A-Za-z_0-9])")
STRING = re.compile(rb'"((?:[^"\\\n]|\\[^\n])*)"')
ESCAPES = {b"'": 39, b'"': 34, b"?": 63, b"\\": 92, b"a": 7, b"b": 8, b"f": 12, b"n": 10, b"r": 13, b"t": 9, b"v": 11}


class Refused(Exception):
    """A source that is refused: the word of the line that says so, the place, and for `syntax` what may stand there."""

    def __init__(self, word, at, wanted=None):
        super().__init__(word, at)
        self.word, self.at, self.wanted = word, at, wanted


class Token(NamedTuple):
    """`kind` is a keyword, a sign, a pragma's first word, or one of name, number and character."""
    kind: str
    at: int
    said: object = None


def decimal(text):
    """The value of decimal digits without a leading zero; of very many of them, some value that is beyond all limits."""
    return int(text) if len(text) < 40 else 10**40


def number_of(text, at):
    """A number token says its value and whether it has the suffixes u and l (C11 6.4.4.1)."""
    match = INTEGER.fullmatch(text)
    if not match:
        raise Refused("outside", at)
    digits, suffix = match.group(1), match.group(2).lower()
    base = 16 if digits[:2].lower() == b"0x" else 8 if digits[:1] == b"0" else 10
    value = decimal(digits) if base == 10 else int(digits, base)
    if value > (2**31 - 1 if base == 10 and b"u" not in suffix else 2**32 - 1):
        raise Refused("outside", at)
    return Token("number", at, (value, b"u" in suffix, b"l" in suffix))


def character_value(text):
    """The value of what stands between the quotes, or None (C11 6.4.4.4)."""
    if len(text) == 1:
        return text[0] if 0x20 <= text[0] <= 0x7E else None
    if text[:1] != b"\\":
        return None
    if text[1:] in ESCAPES:
        return ESCAPES[text[1:]]
    if re.fullmatch(rb"[0-7]{1,3}", text[1:]):
        value = int(text[1:], 8)
    elif re.fullmatch(rb"x[0-9a-fA-F]+", text[1:]):
        value = int(text[2:], 16)
    else:
        return None
    return value if value < 256 else None


def pragma_token(text, at):
    """The token of a pragma of ours; one of another tool is dropped."""
    words = re.split(rb"[ \t]+", text.strip(b" \t"))
    return Token(words[0].decode(), at, text) if words[0].decode("latin-1") in PRAGMAS else None


class Lexer:
    def __init__(self, source):
        self.source = source
        self.place = 0
        self.tokens = []
        # Whether nothing but blanks and comments stands before this place on its line.
        self.fresh = True

    def run(self):
        while self.place < len(self.source):
            self.piece()
        return self.tokens

    def piece(self):
        at, source = self.place, self.source
        byte = source[at:at + 1]
        if byte in BLANKS:
            blanks = BLANK.match(source, at)
            self.place = blanks.end()
            self.fresh = self.fresh or b"\n" in blanks.group()
        elif byte == b"/" and source.startswith((b"/*", b"//"), at):
            self.comment()
        elif byte == b"#" and self.fresh:
            self.directive()
        else:
            self.fresh = False
            self.token()

    def comment(self):
        end = comment_end(self.source, self.place)
        if end is None:
            raise Refused("bad", self.place)
        # A comment is one blank, also where it holds line ends: it leaves `fresh` as it is (C11 5.1.1.2, phase 3).
        self.place = end

    def directive(self):
        """A line that begins with a number sign (C11 6.10)."""
        at = self.place
        end = self.source.find(b"\n", at)
        end = len(self.source) if end < 0 else end
        word = gap_end(self.source, at + 1, end)
        self.place = end
        self.fresh = False
        pragma = DIRECTIVE_PRAGMA.match(self.source, word, end)
        if pragma:
            text = self.source[pragma.end():end]
            self.keep(pragma_token(text[:-1] if text.endswith(b"\r") else text, at))
        elif not (word == end or self.source[word:word + 1].isdigit() or self.source.startswith(b"line", word, end)):
            raise Refused("outside", at)

    def token(self):
        at, source = self.place, self.source
        if word := WORD.match(source, at):
            return self.word(word.group())
        if number := NUMBER.match(source, at):
            self.place = number.end()
            return self.keep(number_of(number.group(), at))
        if source[at:at + 1] == b"'":
            return self.character()
        if source[at:at + 1] == b'"':
            raise Refused("outside" if STRING.match(source, at) else "bad", at)
        return self.sign()

    def word(self, text):
        at = self.place
        self.place += len(text)
        if text in (b"L", b"u", b"U", b"u8") and self.source[self.place:self.place + 1] in (b"'", b'"'):
            raise Refused("outside", at)
        word = text.decode()
        if word == "_Pragma":
            return self.pragma_operator(at)
        if word in OUTSIDE_WORDS:
            raise Refused("outside", at)
        self.keep(Token(word, at) if word in KEYWORDS else Token("name", at, word))

    def pragma_operator(self, at):
        """`_Pragma`, and a string in round brackets (C11 6.10.9)."""
        place = gap_end(self.source, self.place)
        if self.source[place:place + 1] != b"(":
            raise Refused("bad", at)
        string = STRING.match(self.source, gap_end(self.source, place + 1))
        if not string:
            raise Refused("bad", at)
        place = gap_end(self.source, string.end())
        if self.source[place:place + 1] != b")":
            raise Refused("bad", at)
        self.place = place + 1
        self.keep(pragma_token(string.group(1), at))

    def character(self):
        at = self.place
        match = CHARACTER.match(self.source, at)
        if not match or not match.group(1):
            raise Refused("bad", at)
        value = character_value(match.group(1))
        if value is None:
            raise Refused("outside", at)
        self.place = match.end()
        self.keep(Token("character", at, value))

    def sign(self):
        at = self.place
        sign = SIGN.match(self.source, at)
        if not sign:
            raise Refused("bad", at)
        text = sign.group().decode()
        if text in OUTSIDE_SIGNS:
            raise Refused("outside", at)
        self.place = sign.end()
        self.keep(Token(text, at))

    def keep(self, token):
        if token:
            self.tokens.append(token)


def comment_end(source, at, before=None):
    """Where the comment that begins there ends, or None: in the source up to `before`."""
    before = len(source) if before is None else before
    if source.startswith(b"//", at):
        end = source.find(b"\n", at, before)
        return before if end < 0 else end
    end = source.find(b"*/", at + 2, before)
    return None if end < 0 else end + 2


def gap_end(source, at, end=None):
    """Where the blanks and whole comments that begin there end, before `end`."""
    end = len(source) if end is None else end
    while at < end:
        if source[at:at + 1] in BLANKS:
            at += 1
        elif source.startswith((b"/*", b"//"), at) and comment_end(source, at, end) is not None:
            at = comment_end(source, at, end)
        else:
            break
    return at


def tokens_of(source):
    return Lexer(source).run()
