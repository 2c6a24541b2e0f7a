"""The tokens around a place of a source, those that the language lacks among them."""
import re
from bisect import bisect_left

from evaluator.parser import SPECS, Parser
from evaluator.tokens import Lexer, Refused, Token

# So far behind a place it is looked.
BEHIND = 20000
OUTSIDE = "outside"
# How far a piece reaches that no token of the language is.
REACH = re.compile(
    rb"""(?:u8|[LuU])?(?:"(?:[^"\\\n]|\\[^\n])*"?|'(?:[^'\\\n]|\\[^\n])*'?)|->|\.\.\.|##|%:%:|<:|:>|<%|%>|%:|/\*.*|.""", re.DOTALL)
OPENING, CLOSING = "([{", ")]}"


class Pieces(Lexer):
    """Goes on behind what is refused, which becomes a token with its text."""

    def up_to(self, end: int) -> list[Token]:
        while self.place < min(end, len(self.source)):
            try:
                self.piece()
            except Refused as fault:
                self.place = max(self.place, REACH.match(self.source, fault.at).end())
                self.tokens.append(Token(OUTSIDE, fault.at, self.source[fault.at:self.place]))
        return self.tokens


class Spot:
    """The token at a place, and those around it by their distance."""

    def __init__(self, source: bytes, at: int) -> None:
        self.source = source
        self.tokens = Pieces(source).up_to(at + BEHIND)
        self.index = bisect_left(self.tokens, at, key=lambda it: it.at)
        self.found = self.index < len(self.tokens) and self.tokens[self.index].at == at

    def token(self, ahead: int = 0) -> Token | None:
        place = self.index + ahead
        return self.tokens[place] if 0 <= place < len(self.tokens) else None

    def kind(self, ahead: int = 0) -> str | None:
        token = self.token(ahead)
        return token.kind if token else None

    def text(self, ahead: int = 0) -> str:
        """What a name or a piece outside says; of other tokens, what they are."""
        token = self.token(ahead)
        if token is None:
            return ""
        if token.kind == OUTSIDE:
            return token.said.decode(errors="replace")
        return token.said if token.kind == "name" else token.kind

    def kinds(self, first: int, *wanted: str) -> bool:
        """Whether the tokens from this distance on are these."""
        return all(self.kind(first + number) == it for number, it in enumerate(wanted))

    def stands_before(self, ahead: int) -> bool:
        """Whether the name at this distance stands somewhere before."""
        return any(it.said == self.text(ahead) for it in self.tokens[:self.index + ahead] if it.kind == "name")

    def on_one_line(self, one: int, other: int) -> bool:
        return b"\n" not in self.source[self.token(one).at:self.token(other).at]

    def opening(self, ahead: int) -> int | None:
        """The distance of the innermost bracket that is open before this one, or None."""
        depth = 0
        for place in range(self.index + ahead - 1, -1, -1):
            kind = self.tokens[place].kind
            if kind in CLOSING:
                depth += 1
            elif kind in OPENING:
                if not depth:
                    return place - self.index
                depth -= 1
        return None

    def closing(self, ahead: int) -> int | None:
        """The distance of the bracket that closes the one at this distance, or None where it isn't seen."""
        depth = 0
        for place in range(self.index + ahead, len(self.tokens)):
            kind = self.tokens[place].kind
            depth += (kind in OPENING) - (kind in CLOSING)
            if not depth:
                return place - self.index
        return None

    def in_block(self) -> bool:
        kinds = [it.kind for it in self.tokens[:self.index]]
        return kinds.count("{") > kinds.count("}")

    def in_switch(self) -> bool:
        """Whether the place stands within the braces of a switch."""
        opening = 0
        while (opening := self.opening(opening)) is not None:
            head = self.opening(opening - 1) if self.kinds(opening - 1, ")", "{") else None
            if head is not None and self.kind(head - 1) == "switch":
                return True
        return False

    def specs(self, ahead: int) -> tuple[list[str], int]:
        """The words of a declaration from this distance on, and the distance behind them."""
        words = []
        while self.kind(ahead) in SPECS:
            words.append(self.kind(ahead))
            ahead += 1
        return words, ahead

    def declarations(self, ahead: int) -> int:
        """The distance behind declarations without initial values, of no more than words, names and arrays."""
        if self.kind(ahead) not in SPECS:
            return ahead
        while self.kind(ahead) in SPECS or self.kind(ahead) in ("name", ",", ";", "*", "[", "]", "number"):
            ahead += 1
        return ahead

    def is_declarator(self, ahead: int) -> bool:
        """Whether the bracket that closes at this distance holds the parameters of a declared function."""
        opening = self.opening(ahead)
        return opening is not None and self.kind(opening - 1) == "name" and self.kind(opening - 2) in SPECS

    def begins_statement(self, ahead: int) -> bool:
        """Whether a statement or a declaration begins at this distance, where what stands before it is a program's beginning."""
        around, before = self.opening(ahead), self.kind(ahead - 1)
        if around is not None and (self.kind(around) != "{" or self.kind(around - 1) == "="):
            return around == ahead - 1 and self.kind(around - 1) == "for"
        if before in (None, ";", "{", "}", "else", "do", "marker", "flowrestriction"):
            return True
        if before == ":":
            return self.kind(ahead - 2) == "default" or self.kind(ahead - 3) == "case"
        if before == ")":
            opening = self.opening(ahead - 1)
            return opening is not None and self.kind(opening - 1) in ("if", "while", "for")
        return False

    def in_list(self) -> bool:
        """Whether the place stands directly within the braces of an initial value."""
        opening = self.opening(0)
        return opening is not None and self.kinds(opening - 1, "=", "{")

    def wanted(self) -> str | None:
        """What the grammar wants at the place, or None where it isn't here that the grammar is left."""
        try:
            Parser(self.tokens[:self.index + 1], len(self.source)).unit()
        except Refused as fault:
            return fault.wanted if fault.at == self.tokens[self.index].at else None
        return None
