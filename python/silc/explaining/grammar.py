"""The tree of a source by the grammar of docs/LANGUAGE.md, or the token at which it ends, and what was wanted there."""
from __future__ import annotations

from collections.abc import Callable
from dataclasses import dataclass, field
from typing import Any, NoReturn, TypeVar

from silc.explaining.text import Token
from silc.sure import sure

Thing = TypeVar("Thing")

COMPARISONS = ("<", "<=", "==", "!=", ">", ">=")
END = Token("end", "", -1, -1)


class Unexpected(Exception):
    """A token with which no program goes on: its position among the tokens, and what was wanted."""

    def __init__(self, position: int, wanted: str) -> None:
        super().__init__(wanted)
        self.position, self.wanted = position, wanted


@dataclass(slots=True)
class Node:
    """A part of the tree: its kind, the place that faults name, and the places where it begins and ends."""
    kind: str
    at: int
    start: int
    end: int
    name: str = ""
    parts: list[Node] = field(default_factory=list)
    subs: list[Node] = field(default_factory=list)
    amount: Node | None = None
    type: Type | None = None
    value: Any = None

    def cast(self) -> Type:
        """The type of a cast."""
        return sure(self.type)

    def by(self) -> Node:
        """The manifest number of a delay, of a shift or of an initial value."""
        return sure(self.amount)


@dataclass
class Type:
    """A type as the source has it; the width of `bool` is None."""
    width: int | None
    places: int
    text: str
    start: int
    end: int

    def shape(self) -> tuple[int | None, int]:
        return self.width, self.places

    def bits(self) -> int:
        """The width of the words of numbers."""
        return sure(self.width)


@dataclass
class Decl:
    name: str
    at: int
    end: int
    dims: list[int]
    type: Type
    # parameter, result, local or table
    role: str = "local"


@dataclass
class Table:
    name: str
    at: int
    end: int
    decl: Decl
    words: list[Node]


@dataclass
class Func:
    name: str
    at: int
    end: int
    params: list[Decl]
    results: list[Decl]
    locals: list[Decl]
    items: list[Node]

    def decls(self) -> list[Decl]:
        return [*self.params, *self.results, *self.locals]


class Parser:
    """A list of tokens, and the position up to which they are read."""

    def __init__(self, tokens: list[Token]) -> None:
        self.tokens, self.at = tokens, 0

    def token(self, ahead: int = 0) -> Token:
        position = self.at + ahead
        return self.tokens[position] if position < len(self.tokens) else END

    def is_next(self, text: str) -> bool:
        return self.token().text == text and self.token().kind != "end"

    def skip(self, text: str) -> bool:
        if self.is_next(text):
            self.at += 1
            return True
        return False

    def fail(self, wanted: str) -> NoReturn:
        raise Unexpected(self.at, wanted)

    def expect(self, text: str, wanted: str | None = None) -> Token:
        if not self.is_next(text):
            self.fail(wanted or f"`{text}`")
        self.at += 1
        return self.tokens[self.at - 1]

    def take(self, kind: str, wanted: str) -> Token:
        if self.token().kind != kind:
            self.fail(wanted)
        self.at += 1
        return self.tokens[self.at - 1]

    def last(self) -> int:
        return self.tokens[self.at - 1].end

    def many(self, one: Callable[[], Thing]) -> list[Thing]:
        made = [one()]
        while self.skip(","):
            made.append(one())
        return made

    # declarations

    def program(self) -> list[Table | Func]:
        tops: list[Table | Func] = []
        while self.token().kind != "end":
            if self.is_next("const"):
                tops.append(self.table())
            elif self.is_next("func"):
                tops.append(self.func())
            else:
                self.fail("`const` or `func`")
        return tops

    def table(self) -> Table:
        self.expect("const")
        name, dims = self.declared()
        self.expect(":")
        if self.is_next("bool"):
            self.fail("a type `fix<W,F>`, since tables have numbers")
        decl = Decl(name.text, name.start, name.end, dims, self.fix(), "table")
        self.expect("=")
        if self.skip("("):
            words = self.many(self.signed)
            self.expect(")", "`,` or `)`")
        else:
            words = [self.signed()]
        self.expect(";")
        return Table(name.text, name.start, name.end, decl, words)

    def func(self) -> Func:
        self.expect("func")
        name = self.take("name", "the name of the function")
        self.expect("(")
        params = self.many(lambda: self.decl("parameter"))
        self.expect(")", "`,` or `)`")
        if self.skip("("):
            results = self.many(lambda: self.decl("result"))
            self.expect(")", "`,` or `)`")
        else:
            results = [self.decl("result")]
        self.expect("=")
        self.expect("begin")
        local = []
        while self.skip("var"):
            names = self.many(self.declared)
            self.expect(":", "`,` or `:` and the type")
            of = self.type()
            self.expect(";")
            local += [Decl(name_.text, name_.start, name_.end, dims, of) for name_, dims in names]
        items = self.items()
        self.expect(";", "`;` after `end`")
        return Func(name.text, name.start, name.end, params, results, local, items)

    def declared(self) -> tuple[Token, list[int]]:
        name = self.take("name", "a name")
        dims: list[int] = []
        while len(dims) < 2 and self.skip("["):
            dims.append(int(self.whole("the number of elements").text))
            self.expect("]")
        return name, dims

    def decl(self, role: str) -> Decl:
        name, dims = self.declared()
        self.expect(":", "`:` and the type")
        return Decl(name.text, name.start, name.end, dims, self.type(), role)

    def whole(self, wanted: str) -> Token:
        if self.token().kind != "number" or "." in self.token().text:
            self.fail(wanted)
        self.at += 1
        return self.tokens[self.at - 1]

    def type(self) -> Type:
        token = self.token()
        if self.skip("bool"):
            return Type(None, 0, "bool", token.start, token.end)
        return self.fix()

    def fix(self) -> Type:
        start = self.expect("fix", "a type").start
        self.expect("<")
        width = int(self.whole("the bits of a word").text)
        self.expect(",", "`,` and the bits after the point")
        places = int(self.whole("the bits after the point").text)
        mode = ""
        if self.skip(","):
            mode = "," + self.mode()
        self.expect(">")
        return Type(width, places, f"fix<{width},{places}{mode}>", start, self.last())

    def mode(self) -> str:
        if not any(self.is_next(word) for word in ("trunc", "round", "sat")):
            self.fail("`trunc`, `round` or `sat`")
        word = self.token().text
        self.at += 1
        if word != "round" or not self.skip(","):
            return word
        self.expect("sat", "`sat`")
        return "round,sat"

    def signed(self) -> Node:
        start = self.token().start
        sign = self.skip("-")
        number = self.take("number", "a number")
        return Node("number", start, start, number.end, value=("-" if sign else "") + number.text)

    # items

    def items(self) -> list[Node]:
        made = []
        while not self.skip("end"):
            if self.token().kind not in ("name",) and not self.is_next("("):
                self.fail("an equation, a loop or `end`")
            made.append(self.item())
        return made

    def item(self) -> Node:
        start = self.token().start
        if self.is_next("(") and self.token(1).kind == "name" and self.token(2).text == ":":
            return self.loop(start)
        if self.skip("("):
            targets = self.many(self.target)
            self.expect(")", "`,` or `)`")
            self.expect("=")
            return self.call(start, targets)
        target = self.target()
        if self.skip("@@"):
            back = self.manifest_primary()
            self.expect("=")
            truth = self.is_next("true") or self.is_next("false")
            value = self.truth() if truth else self.signed()
            self.expect(";")
            return Node("initial", target.at, start, self.last(), parts=[target], amount=back, value=value)
        self.expect("=", "`=`" if target.subs else "`=` or a subscript")
        if self.token().kind == "name" and self.token(1).text == "(":
            return self.call(start, [target])
        value = self.expression()
        self.expect(";", "an operator or `;`")
        return Node("equation", target.at, start, self.last(), parts=[target, value])

    def loop(self, start: int) -> Node:
        self.expect("(")
        index = self.take("name", "the index of the loop")
        self.expect(":")
        low = self.manifest()
        self.expect("..")
        high = self.manifest()
        self.expect(")")
        self.expect("::")
        self.expect("begin")
        items = self.items()
        self.expect(";", "`;` after `end`")
        return Node("loop", start, start, self.last(), index.text, items, [low, high], value=index)

    def call(self, start: int, targets: list[Node]) -> Node:
        name = self.take("name", "the name of a function")
        self.expect("(")
        arguments = self.many(self.expression)
        self.expect(")", "`,` or `)`")
        self.expect(";")
        return Node("call", name.start, start, self.last(), name.text, arguments, targets, value=name)

    def target(self) -> Node:
        name = self.take("name", "the name of a signal")
        subs = self.subscripts()
        return Node("target", name.start, name.start, self.last(), name.text, subs=subs)

    def subscripts(self) -> list[Node]:
        made: list[Node] = []
        while len(made) < 2 and self.skip("["):
            made.append(self.manifest())
            self.expect("]")
        return made

    # manifest numbers

    def manifest(self) -> Node:
        return self.chain("manifest", self.term, "+", "-")

    def term(self) -> Node:
        return self.chain("manifest", self.factor, "*")

    def factor(self) -> Node:
        start = self.token().start
        if self.skip("-"):
            inside = self.factor()
            return Node("minus", start, start, inside.end, parts=[inside])
        return self.manifest_primary()

    def manifest_primary(self) -> Node:
        token = self.token()
        if self.skip("("):
            inside = self.manifest()
            self.expect(")")
            return inside
        if token.kind == "name":
            self.at += 1
            return Node("index", token.start, token.start, token.end, token.text)
        token = self.whole("a whole number, a loop's index, or these in parentheses")
        return Node("whole", token.start, token.start, token.end, value=int(token.text))

    # expressions

    def joined(self, kind: str, left: Node, part: Callable[[], Node]) -> Node:
        operator = self.token()
        self.at += 1
        right = part()
        return Node(kind, operator.start, left.start, self.last(), operator.text, [left, right])

    def chain(self, kind: str, part: Callable[[], Node], *operators: str) -> Node:
        """Parts that some operators join, from the left."""
        left = part()
        while any(map(self.is_next, operators)):
            left = self.joined(kind, left, part)
        return left

    def expression(self) -> Node:
        return self.chain("logic", self.conjunction, "|")

    def conjunction(self) -> Node:
        return self.chain("logic", self.comparison, "&")

    def comparison(self) -> Node:
        left = self.sum()
        if self.token().text in COMPARISONS:
            left = self.joined("comparison", left, self.sum)
        return left

    def sum(self) -> Node:
        return self.chain("sum", self.product, "+", "-")

    def product(self) -> Node:
        return self.chain("product", self.shift, "*")

    def shift(self) -> Node:
        left = self.unary()
        while self.is_next("<<") or self.is_next(">>"):
            operator = self.token()
            self.at += 1
            amount = self.manifest_primary()
            left = Node("shift", operator.start, left.start, self.last(), operator.text, [left], amount=amount)
        return left

    def unary(self) -> Node:
        token = self.token()
        if token.text == "-" and self.token(1).kind == "number":
            return self.signed()
        if token.text in ("-", "!"):
            self.at += 1
            inside = self.unary()
            return Node("negation" if token.text == "-" else "not", token.start, token.start, inside.end, token.text,
                        [inside])
        return self.primary()

    def primary(self) -> Node:
        token = self.token()
        if token.kind == "number":
            return self.signed()
        if token.text in ("true", "false"):
            return self.truth()
        if token.text == "fix":
            of = self.fix()
            inside = self.in_parentheses()
            return Node("cast", token.start, token.start, self.last(), parts=[inside], type=of)
        if token.text == "(":
            inside = self.in_parentheses()
            inside.start, inside.end = token.start, self.last()
            return inside
        if token.text == "if":
            return self.choice()
        if token.kind != "name":
            self.fail("an expression")
        self.at += 1
        subs, back = self.subscripts(), None
        if self.skip("@"):
            back = self.manifest_primary()
        return Node("read", token.start, token.start, self.last(), token.text, subs=subs, amount=back)

    def truth(self) -> Node:
        token = self.token()
        self.at += 1
        return Node("truth", token.start, token.start, token.end, value=token.text)

    def in_parentheses(self) -> Node:
        self.expect("(")
        inside = self.expression()
        self.expect(")", "an operator or `)`")
        return inside

    def choice(self) -> Node:
        start = self.expect("if").start
        condition = self.expression()
        self.expect("->", "an operator or `->` and the value")
        parts = [condition, self.expression()]
        while True:
            self.expect("||", "an operator or `||` and the value in the other case")
            value = self.expression()
            if not self.skip("->"):
                self.expect("fi", "an operator, `->` or `fi`")
                return Node("choice", start, start, self.last(), parts=[*parts, value])
            parts += [value, self.expression()]


def parsed(tokens: list[Token]) -> list[Table | Func]:
    """The tables and functions of a source, in order. Raises Unexpected where its tokens are no program."""
    return Parser(tokens).program()
