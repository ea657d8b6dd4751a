"""The names of a source: where each is declared, where it means that, and what it is. A source with faults, as it is
while one types, has as many names as can be found."""
from __future__ import annotations

import re
from dataclasses import dataclass, field

from silc.explaining.text import RESERVED

TOKEN = re.compile(r"/\*.*?(?:\*/|\Z)|\d+(?:\.\d+)?|[A-Za-z_]\w*|->|\.\.|::|\|\||<<|>>|<=|>=|==|!=|@@|[^\s\w]", re.S)
TABLE, FUNCTION, PARAMETER, RESULT, LOCAL, INDEX = "table", "function", "parameter", "result", "local", "index"


@dataclass(frozen=True)
class Token:
    text: str
    start: int

    @property
    def end(self) -> int:
        return self.start + len(self.text)

    def is_name(self) -> bool:
        return bool(re.fullmatch(r"[A-Za-z_]\w*", self.text)) and self.text not in RESERVED


@dataclass
class Symbol:
    """A name that is declared: its token, where it may be used, its dims, and its type or its head as text."""
    kind: str
    token: Token
    scope: tuple[int, int]
    dims: list[int] = field(default_factory=list)
    of: str = ""
    owner: Symbol | None = None

    @property
    def name(self) -> str:
        return self.token.text

    def elements(self) -> int:
        count = 1
        for dim in self.dims:
            count *= dim
        return count

    def told(self) -> str:
        """What it is, in a line."""
        dims = "".join(f"[{dim}]" for dim in self.dims)
        if self.kind == FUNCTION:
            return f"func {self.name}{self.of}"
        if self.kind == INDEX:
            return f"{self.name} : {self.of} (index of a loop)"
        count = self.elements()
        of = f" of {self.owner.name}" if self.owner else ""
        return f"{self.name}{dims} : {self.of} ({self.kind}{of}, {count} element{'' if count == 1 else 's'})"


def tokens_of(text: str) -> list[Token]:
    return [Token(found[0], found.start()) for found in TOKEN.finditer(text) if not found[0].startswith("/*")]


class Names:
    """All names of a source."""

    def __init__(self, text: str) -> None:
        self.text, self.tokens, self.symbols, self.at = text, tokens_of(text), [], 0
        while self.at < len(self.tokens):
            if self.next_is("const"):
                self.declared(TABLE, (0, len(text)), None)
            elif self.next_is("func"):
                self.function()
            else:
                self.at += 1

    # Reading

    def peek(self, ahead: int = 0) -> str:
        return self.tokens[self.at + ahead].text if self.at + ahead < len(self.tokens) else ""

    def next_is(self, word: str) -> bool:
        if self.peek() == word:
            self.at += 1
            return True
        return False

    def is_name(self) -> bool:
        return self.at < len(self.tokens) and self.tokens[self.at].is_name()

    def between(self, first: int, last: int) -> str:
        """The text from one token to another."""
        inside = self.tokens[first:last]
        return " ".join(self.text[inside[0].start : inside[-1].end].split()) if inside else ""

    def one(self, kind: str, scope: tuple[int, int], owner: Symbol | None) -> Symbol | None:
        """A name with its dims, if there is one."""
        if not self.is_name():
            return None
        symbol = Symbol(kind, self.tokens[self.at], scope, owner=owner)
        self.symbols.append(symbol)
        self.at += 1
        while self.next_is("["):
            symbol.dims += [int(self.peek())] if self.peek().isdigit() else []
            while self.at < len(self.tokens) and not self.next_is("]"):
                self.at += 1
        return symbol

    def declared(self, kind: str, scope: tuple[int, int], owner: Symbol | None) -> None:
        """Names with one type after them, up to it."""
        made = [self.one(kind, scope, owner)]
        while self.next_is(","):
            made.append(self.one(kind, scope, owner))
        if self.next_is(":"):
            first = self.at
            while self.peek() and self.peek() not in (";", ")", "=", "begin") and not (
                    self.peek() == "," and self.peek(-1) in (">", "bool")):
                self.at += 1
            for symbol in filter(None, made):
                symbol.of = self.between(first, self.at)

    def list_of(self, kind: str, scope: tuple[int, int], owner: Symbol | None) -> None:
        """Declarations in parentheses, or one."""
        is_list = self.next_is("(")
        self.declared(kind, scope, owner)
        while is_list and self.next_is(","):
            self.declared(kind, scope, owner)
        if is_list:
            self.next_is(")")

    def function(self) -> None:
        function = self.one(FUNCTION, (0, len(self.text)), None)
        if function is None:
            return
        head = self.at
        scope = (function.token.start, self.end_of_function())
        self.list_of(PARAMETER, scope, function)
        self.list_of(RESULT, scope, function)
        function.of = self.between(head, self.at)
        while self.at < len(self.tokens) and self.tokens[self.at].start < scope[1]:
            if self.next_is("var"):
                self.declared(LOCAL, scope, function)
            elif self.peek() == "(" and self.peek(2) == ":" and self.tokens[self.at + 1].is_name():
                self.loop(function)
            else:
                self.at += 1

    def end_of_function(self) -> int:
        """Where the next function or table begins, or the text ends."""
        return next((token.start for token in self.tokens[self.at :] if token.text in ("func", "const")),
                    len(self.text))

    def loop(self, function: Symbol) -> None:
        index, first = self.tokens[self.at + 1], self.at + 3
        last = next((k for k in range(first, len(self.tokens)) if self.tokens[k].text == ")"
                     and self.tokens[k + 1 : k + 2] and self.tokens[k + 1].text == "::"), first)
        self.symbols.append(Symbol(INDEX, index, (index.start, self.end_of_loop(last)), of=self.between(first, last),
                                   owner=function))
        self.at = max(last, first)

    def end_of_loop(self, at: int) -> int:
        """Where the `end` stands that ends a loop."""
        depth = 0
        for token in self.tokens[at:]:
            depth += (token.text == "begin") - (token.text == "end")
            if depth == 0 and token.text == "end":
                return token.end
        return len(self.text)

    # Questions

    def token_at(self, offset: int) -> Token | None:
        return next((token for token in self.tokens if token.is_name() and token.start <= offset <= token.end), None)

    def in_scope(self, offset: int) -> list[Symbol]:
        """What may be named at a place, the innermost first."""
        found = [symbol for symbol in self.symbols if symbol.scope[0] <= offset <= symbol.scope[1]]
        return sorted(found, key=lambda symbol: symbol.scope[1] - symbol.scope[0])

    def symbol_of(self, token: Token) -> Symbol | None:
        """What a token names: itself where it is declared, or the innermost of its name."""
        own = (symbol for symbol in self.symbols if symbol.token == token)
        return next(own, None) or next((symbol for symbol in self.in_scope(token.start) if symbol.name == token.text),
                                       None)

    def places_of(self, symbol: Symbol) -> list[Token]:
        """All tokens that name a symbol."""
        return [token for token in self.tokens if token.text == symbol.name and token.is_name()
                and self.symbol_of(token) is symbol]
