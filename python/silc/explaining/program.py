"""A source as a program: what stands where in its tree, what names mean, manifest numbers, and the elements."""
import math
from collections.abc import Iterator, Sequence
from dataclasses import dataclass, field
from typing import Literal, TypeAlias

from silc.explaining.grammar import Decl, Func, Node, Table, Unexpected, parsed
from silc.explaining.text import Span, Text, Token, tokens_of
from silc.sure import sure

# The values of the indices of the loops around a place.
Indices: TypeAlias = dict[str, int]
# The elements of each signal of an instance, by their numbers.
Signals: TypeAlias = dict[str, list[int]]

LEAST, GREATEST = -(2**31), 2**31 - 1
LOAD = 8192
# What a manifest number stands for, by its role.
WHERE = {"subscript": "a subscript", "delay": "a delay", "amount": "the amount of a shift",
         "bound": "the bound of a loop", "initial": "the sample of an initial value"}
OPERATORS = ("sum", "product", "comparison", "logic", "negation", "not", "shift", "cast")


@dataclass
class Context:
    """A node of the tree, what it is there, and what is around it."""
    node: Node
    role: str
    func: Func
    loops: list[Node]
    item: Node
    parent: Node | None = None


class Source:
    """A source with its tokens and, where they are one, its program."""

    def __init__(self, text: Text) -> None:
        self.text = text
        self.tokens, self.bad_place = tokens_of(text.chars)
        self.tops, self.unexpected = [], None
        if self.bad_place is None:
            try:
                self.tops = parsed(self.tokens)
            except Unexpected as fault:
                self.unexpected = fault
        self.tables = {top.name: top for top in reversed(self.tops) if isinstance(top, Table)}
        self.funcs = {top.name: top for top in reversed(self.tops) if isinstance(top, Func)}

    def shown(self, node: Node) -> str:
        """The text of a part of the source, in one line."""
        return " ".join(self.text.chars[node.start:node.end].split())

    def token_at(self, place: int) -> Token | None:
        return next((token for token in self.tokens if token.start <= place < token.end), None)

    def line(self, place: int) -> int:
        return self.text.line_of(place)

    def name_span(self, thing: Decl | Table | Func) -> Span:
        """The place of a declared name."""
        return self.text.span(thing.at, thing.end)

    def node_span(self, node: Node) -> Span:
        return self.text.span(node.start, node.end)

    def at_span(self, place: int) -> Span:
        """The place of the token that begins there."""
        token = self.token_at(place)
        return self.text.span(place, token.end if token else place + 1)

    def decl(self, func: Func, name: str) -> Decl | None:
        """What the name of a signal or a table means in a function."""
        for decl in func.decls():
            if decl.name == name:
                return decl
        return self.tables[name].decl if name in self.tables else None

    def declared(self, func: Func, name: str) -> Decl:
        """What the name of a signal or a table means in a function, where it means something."""
        return sure(self.decl(func, name))

    def function_at(self, place: int) -> Func | None:
        """The function in whose text a place is; nothing before the first one."""
        before = [top for top in self.tops if isinstance(top, Func) and top.at <= place]
        return max(before, key=lambda func: func.at) if before else None

    def function(self, place: int) -> Func:
        """The function in whose text a place is."""
        return sure(self.function_at(place))

    def contexts(self, func: Func | None) -> Iterator[Context]:
        """All nodes of a function, each before its parts."""
        if func:
            for item in func.items:
                yield from contexts_of(item, func, [])

    def at(self, place: int, *roles: str) -> Context | None:
        """What stands at a place of the source, in one of these roles."""
        for context in self.contexts(self.function_at(place)):
            if context.node.at == place and context.role in roles and context.node.kind != "initial":
                return context
        return None

    def there(self, place: int, *roles: str) -> Context:
        """What stands at a place of the source, where something does in one of these roles."""
        return sure(self.at(place, *roles))


def contexts_of(item: Node, func: Func, loops: list[Node]) -> Iterator[Context]:
    def manifest(node: Node, role: str, parent: Node) -> Iterator[Context]:
        yield Context(node, role, func, loops, item, parent)
        for part in node.parts:
            yield from manifest(part, role, parent)

    def expression(node: Node, parent: Node | None) -> Iterator[Context]:
        yield Context(node, "expression", func, loops, item, parent)
        for sub in node.subs:
            yield from manifest(sub, "subscript", node)
        if node.amount:
            yield from manifest(node.amount, "delay" if node.kind == "read" else "amount", node)
        for part in node.parts:
            yield from expression(part, node)

    def target(node: Node) -> Iterator[Context]:
        yield Context(node, "target", func, loops, item)
        for sub in node.subs:
            yield from manifest(sub, "subscript", node)

    yield Context(item, item.kind, func, loops, item)
    if item.kind == "loop":
        for bound in item.subs:
            yield from manifest(bound, "bound", item)
        for inner in item.parts:
            yield from contexts_of(inner, func, [*loops, item])
    elif item.kind == "initial":
        yield from target(item.parts[0])
        yield from manifest(item.by(), "initial", item)
        yield Context(item.value, "expression", func, loops, item, item)
    elif item.kind == "equation":
        yield from target(item.parts[0])
        yield from expression(item.parts[1], None)
    else:
        for place in item.subs:
            yield from target(place)
        for argument in item.parts:
            yield from expression(argument, item)


class Overflow(Exception):
    """A manifest number that is out of its range."""

    def __init__(self, value: int) -> None:
        super().__init__(value)
        self.value = value


def manifest(node: Node, indices: Indices) -> int:
    """The value of a manifest number. Raises Overflow where it is out of range on the way, KeyError where a name is
    none."""
    if node.kind == "whole":
        value = node.value
    elif node.kind == "index":
        value = indices[node.name]
    elif node.kind == "minus":
        value = -manifest(node.parts[0], indices)
    else:
        left, right = (manifest(part, indices) for part in node.parts)
        value = {"+": left + right, "-": left - right, "*": left * right}[node.name]
    if not LEAST <= value <= GREATEST:
        raise Overflow(value)
    return value


def turns_of(items: Sequence[Node], indices: Indices | None = None) -> Iterator[tuple[Node, Indices]]:
    """The items in the order of expansion, each with the values of the indices around it; a loop before its turns."""
    indices = indices or {}
    for item in items:
        yield item, indices
        if item.kind == "loop":
            low, high = (manifest(bound, indices) for bound in item.subs)
            for turn in range(low, high + 1):
                yield from turns_of(item.parts, {**indices, item.name: turn})


def offset(dims: Sequence[int], subs: Sequence[Node], indices: Indices) -> int:
    """The row-major place of subscripts."""
    place = 0
    for dim, sub in zip(dims, subs):
        place = place * dim + manifest(sub, indices)
    return place


def subscripts(dims: Sequence[int], place: int) -> str:
    made: list[str] = []
    for dim in reversed(dims):
        made.insert(0, f"[{place % dim}]")
        place //= dim
    return "".join(made)


def element_name(decl: Decl, place: int) -> str:
    return decl.name + subscripts(decl.dims, place)


def targets_of(item: Node) -> list[Node]:
    return item.parts[:1] if item.kind in ("equation", "initial") else item.subs if item.kind == "call" else []


def definitions(source: Source, func: Func) -> Iterator[tuple[Decl, int, Node, Indices, Node]]:
    """What defines the elements of a function, in order: the declaration, the place in it, the target and the
    indices."""
    for item, indices in turns_of(func.items):
        if item.kind not in ("equation", "call"):
            continue
        for target in targets_of(item):
            decl = source.decl(func, target.name)
            if decl is None or decl.role == "table":
                continue
            bare = decl.dims and not target.subs
            places = range(math.prod(decl.dims)) if bare else [offset(decl.dims, target.subs, indices)]
            for place in places:
                yield decl, place, target, indices, item


def with_indices(indices: Indices) -> str:
    """The values of indices in words."""
    return ", ".join(f"`{name}` = {value}" for name, value in indices.items())


def weight_of(node: Node) -> int:
    """How many operators, casts and conditions an expression has."""
    own = 1 if node.kind in OPERATORS else len(node.parts) // 2 if node.kind == "choice" else 0
    return own + sum(weight_of(part) for part in node.parts)


def every_item(items: Sequence[Node], loops: tuple[Node, ...] = ()) -> Iterator[tuple[Node, tuple[Node, ...]]]:
    for item in items:
        yield item, loops
        if item.kind == "loop":
            yield from every_item(item.parts, (*loops, item))


def calls_of(func: Func) -> list[Node]:
    return [item for item, _ in every_item(func.items) if item.kind == "call"]


def turns(loop: Node, indices: Indices | None = None) -> range | Literal[True]:
    """The values that a loop's index takes, or True where they depend on other indices."""
    try:
        low, high = (manifest(bound, indices or {}) for bound in loop.subs)
    except KeyError:
        return True
    return range(low, high + 1)


# Elements


@dataclass
class Element:
    """A scalar signal of an instance, what defines it, and the elements that it reads without a delay."""
    func: Func
    decl: Decl
    place: int
    calls: tuple[Node, ...]
    at: int = 0
    reads: list[int] = field(default_factory=list)
    # Whether its reads stand in an expression, where they may have a delay.
    can_wait: bool = False

    def name(self) -> str:
        return element_name(self.decl, self.place)


class Expansion:
    """The elements of a program without a fault of its names, elements and types, in the order of expansion."""

    def __init__(self, source: Source) -> None:
        self.source = source
        self.elements: list[Element] = []
        main = source.funcs["main"]
        signals = self.enter(main, ())
        self.expand(main, signals, ())

    def enter(self, func: Func, calls: tuple[Node, ...]) -> Signals:
        signals: Signals = {}
        for decl in func.decls():
            signals[decl.name] = []
            for place in range(math.prod(decl.dims)):
                signals[decl.name].append(len(self.elements))
                self.elements.append(Element(func, decl, place, calls, decl.at))
        return signals

    def expand(self, func: Func, signals: Signals, calls: tuple[Node, ...]) -> None:
        for item, indices in turns_of(func.items):
            if item.kind == "equation":
                target, value = item.parts
                dims = self.source.declared(func, target.name).dims
                self.define(signals[target.name][offset(dims, target.subs, indices)], target.at,
                            list(self.reads(func, signals, value, indices)), True)
            elif item.kind == "call":
                self.call(func, signals, item, indices, calls)

    def define(self, number: int, at: int, reads: list[int], can_wait: bool) -> None:
        element = self.elements[number]
        element.at, element.reads, element.can_wait = at, reads, can_wait

    def call(self, func: Func, signals: Signals, item: Node, indices: Indices, calls: tuple[Node, ...]) -> None:
        callee, within = self.source.funcs[item.name], (*calls, item)
        inner = self.enter(callee, within)
        for decl, argument in zip(callee.params, item.parts):
            for place, number in enumerate(inner[decl.name]):
                bare = decl.dims and argument.kind == "read"
                reads = signals.get(argument.name, [])[place:place + 1] if bare else \
                    list(self.reads(func, signals, argument, indices))
                self.define(number, item.at, reads, not bare)
        for decl, target in zip(callee.results, item.subs):
            own = self.source.declared(func, target.name)
            for place, number in enumerate(inner[decl.name]):
                to = place if decl.dims else offset(own.dims, target.subs, indices)
                self.define(signals[target.name][to], target.at, [number], False)
        self.expand(callee, inner, within)

    def reads(self, func: Func, signals: Signals, node: Node, indices: Indices) -> Iterator[int]:
        if node.kind == "read":
            if node.name in signals and not (node.amount and manifest(node.amount, indices)):
                dims = self.source.declared(func, node.name).dims
                yield signals[node.name][offset(dims, node.subs, indices)]
        for part in node.parts:
            yield from self.reads(func, signals, part, indices)

    def loop_through(self, first: int) -> list[int]:
        """The shortest chain of elements from one to itself, each of which reads the next without a delay."""
        came, waiting = {}, [first]
        for number in waiting:
            for read in self.elements[number].reads:
                if read not in came:
                    came[read] = number
                    waiting.append(read)
            if first in came:
                break
        if first not in came:
            return []
        chain, number = [first], came[first]
        while number != first:
            chain.insert(0, number)
            number = came[number]
        return [first, *chain[:-1]]
