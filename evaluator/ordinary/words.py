"""The tokens: those of the profile, further keywords, strings, and the full stop."""
import re

from ..tokens import ESCAPES, STRING, Lexer, Refused, Token

STORAGE = frozenset("static extern typedef auto register".split())
SILENT = frozenset("inline _Noreturn".split())
QUALIFIERS = frozenset("const volatile restrict".split())
TYPE_WORDS = frozenset("void char short int long signed unsigned _Bool".split())
FURTHER = frozenset("auto enum register restrict sizeof struct typedef volatile _Alignof _Bool _Noreturn _Static_assert".split())
PIECE = re.compile(rb"\\(x[0-9a-fA-F]+|[0-7]{1,3}|.)|([^\\])", re.DOTALL)


class WideLexer(Lexer):
    def word(self, text):
        if text.decode() in FURTHER:
            self.place += len(text)
            return self.keep(Token(text.decode(), self.place - len(text)))
        return super().word(text)

    def sign(self):
        source, at = self.source, self.place
        if source[at:at + 1] == b"." and source[at:at + 3] != b"...":
            self.place += 1
            return self.keep(Token(".", at))
        return super().sign()

    def token(self):
        if string := STRING.match(self.source, self.place):
            at, self.place = self.place, string.end()
            return self.keep(Token("string", at, string_bytes(string.group(1), at)))
        return super().token()


def string_bytes(text, at):
    """What a string says, without the 0 at its end (C11 6.4.5)."""
    return bytes(byte_of(*it.groups(), at) for it in PIECE.finditer(text))


def byte_of(escape, plain, at):
    if plain is not None:
        return plain[0]
    if escape in ESCAPES:
        return ESCAPES[escape]
    if escape[:1] == b"x" and len(escape) > 1:
        value = int(escape[1:], 16)
    elif escape.isdigit():
        value = int(escape, 8)
    else:
        value = 256
    if value > 255:
        raise Refused("outside", at, "an escape of one byte")
    return value


def wide_tokens_of(source):
    return WideLexer(source).run()
