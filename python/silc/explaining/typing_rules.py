"""The typing table of docs/LANGUAGE.md: the first fault of types, with what is wanted and why."""
import math
from collections.abc import Iterator
from dataclasses import dataclass
from decimal import Context, Decimal
from fractions import Fraction

from silc.explaining.grammar import Decl, Func, Node, Type
from silc.explaining.program import Source
from silc.sure import sure

BOOL = Type(None, 0, "bool", 0, 0)
MOST_BITS = 40
# The digits of an exact number of 40 bits, and more.
DIGITS = 60
MISMATCH, NEEDS_CAST, LITERAL, NOT_BOOL = "Mismatch", "NeedsCast", "Literal", "NotBool"


@dataclass
class Wanted:
    """A type that is wanted, and why: a clause, with the place where that is said."""
    type: Type
    why: str
    at: int | None = None


@dataclass
class Fault:
    kind: str
    node: Node
    wanted: Wanted | None
    found: Type | None = None

    def asked(self) -> Wanted:
        """The type that is wanted, where one is."""
        return sure(self.wanted)


class Typing:
    """The faults of types of a source, in their order."""

    def __init__(self, source: Source) -> None:
        self.source = source
        self.func: Func | None = None

    def first(self) -> Fault | None:
        return next(self.all(), None)

    def all(self) -> Iterator[Fault]:
        for top in self.source.tops:
            if isinstance(top, Func):
                self.func = top
                for item in top.items:
                    yield from self.item(item)
            else:
                wanted = self.declared(top.decl)
                for word in top.words:
                    yield from self.check(word, wanted)

    def declared(self, decl: Decl) -> Wanted:
        line = self.source.line(decl.at)
        return Wanted(decl.type, f"`{decl.name}` is declared `{decl.type.text}` in line {line}", decl.at)

    def decl(self, name: str) -> Decl:
        return self.source.declared(sure(self.func), name)

    def item(self, item: Node) -> Iterator[Fault]:
        if item.kind == "loop":
            for inner in item.parts:
                yield from self.item(inner)
        elif item.kind == "initial":
            yield from self.check(item.value, self.declared(self.decl(item.parts[0].name)))
        elif item.kind == "equation":
            yield from self.check(item.parts[1], self.declared(self.decl(item.parts[0].name)))
        else:
            callee = self.source.funcs[item.name]
            for decl, argument in zip(callee.params, item.parts):
                yield from self.check(argument, self.declared(decl))
            for decl, target in zip(callee.results, item.subs):
                yield from self.name(target, self.declared(decl))

    def name(self, node: Node, wanted: Wanted) -> Iterator[Fault]:
        found = self.decl(node.name).type
        if found.shape() != wanted.type.shape():
            yield Fault(NOT_BOOL if wanted.type.width is None else MISMATCH, node, wanted, found)

    def own(self, node: Node) -> Type | None:
        """The type that an expression has by itself, or None."""
        if node.kind == "read":
            return self.decl(node.name).type
        if node.kind == "cast":
            return node.type
        if node.kind in ("negation", "shift"):
            return self.own(node.parts[0])
        if node.kind == "sum":
            return self.own(node.parts[0]) or self.own(node.parts[1])
        if node.kind == "choice":
            values = [*node.parts[1:-1:2], node.parts[-1]]
            return next(filter(None, map(self.own, values)), None)
        return None if node.kind in ("number", "product") else BOOL

    def check(self, node: Node, wanted: Wanted) -> Iterator[Fault]:
        is_bool = wanted.type.width is None
        kind = node.kind
        if kind == "read":
            yield from self.name(node, wanted)
        elif kind == "choice":
            yield from self.choice(node, wanted)
        elif kind in ("truth", "comparison", "logic", "not"):
            if not is_bool:
                yield Fault(MISMATCH, node, wanted, BOOL)
            yield from self.truth(node)
        elif is_bool:
            yield Fault(NOT_BOOL, node, wanted, self.own(node))
        elif kind == "number":
            if not fits(node.value, wanted.type):
                yield Fault(LITERAL, node, wanted)
        elif kind == "product":
            yield from self.sides(node, f"the factors of `{self.source.shown(node)}`", each=True)
        elif kind == "cast":
            yield from self.cast(node, wanted)
        else:
            for part in node.parts:
                yield from self.check(part, wanted)

    def choice(self, node: Node, wanted: Wanted) -> Iterator[Fault]:
        truth = Wanted(BOOL, "a condition is a truth value")
        for number, part in enumerate(node.parts):
            is_condition = number % 2 == 0 and number < len(node.parts) - 1
            yield from self.check(part, truth if is_condition else wanted)

    def truth(self, node: Node) -> Iterator[Fault]:
        """The parts of an expression that is a truth value."""
        if node.kind == "comparison":
            yield from self.sides(node, f"the sides of `{self.source.shown(node)}`", each=False)
        elif node.kind != "truth":
            wanted = Wanted(BOOL,
                            f"`{node.name}` joins truth values" if node.kind == "logic" else "`!` turns a truth value")
            for part in node.parts:
                yield from self.check(part, wanted)

    def sides(self, node: Node, what: str, each: bool) -> Iterator[Fault]:
        """The factors of a product, each with a type of its own, or the sides of a comparison, which share one."""
        left, right = node.parts
        types = [self.own(left), self.own(right)]
        if each:
            wanted = [types[0] or (types[1] if left.kind == "number" else None),
                      types[1] or (types[0] if right.kind == "number" else None)]
        else:
            wanted = [types[0] or types[1]] * 2
        for of in wanted:
            if of is None:
                yield Fault(NEEDS_CAST, node, None)
            elif of.width is None:
                yield Fault(MISMATCH, node, None, BOOL)
        known = [of for of in wanted if of]
        if len(known) < len(wanted):
            return
        for part, of, own in zip(node.parts, known, types):
            why = f"{what} are of one type, and `{self.source.shown(left)}` is `{of.text}`"
            if own is None and types[0] is None:
                why = f"{what} are of one type, and `{self.source.shown(right)}` is `{of.text}`"
            yield from self.check(part, Wanted(of, why))

    def cast(self, node: Node, wanted: Wanted) -> Iterator[Fault]:
        of = node.cast()
        if of.shape() != wanted.type.shape():
            yield Fault(MISMATCH, node, wanted, of)
        own = self.own(node.parts[0])
        if own and own.width is None:
            yield Fault(MISMATCH, node, wanted, BOOL)
        yield from self.check(node.parts[0], Wanted(own or of, f"the cast has the type `{of.text}`"))


def fits(number: str, of: Type) -> bool:
    """Whether the nearest raw word of a number is in the range of a type."""
    raw = math.floor(Fraction(number) * 2**of.places + Fraction(1, 2))
    return -(2 ** (of.bits() - 1)) <= raw <= 2 ** (of.bits() - 1) - 1


def decimal(raw: int, places: int) -> str:
    """The exact number of a raw word."""
    exact = Context(prec=DIGITS).divide(Decimal(raw), Decimal(2**places))
    text = format(exact, "f")
    return text.rstrip("0").rstrip(".") if "." in text else text


def range_of(of: Type) -> tuple[str, str]:
    """The least and the greatest number of a type."""
    return decimal(-(2 ** (of.bits() - 1)), of.places), decimal(2 ** (of.bits() - 1) - 1, of.places)
