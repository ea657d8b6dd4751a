"""The elements of a program with what defines each, and the exact words of those that no element's past comes back
to."""
import heapq
import math
from collections.abc import Callable, Iterator
from dataclasses import dataclass, field
from typing import Any, TypeAlias

from silc.explaining.grammar import Func, Node, Type
from silc.explaining.program import Source, manifest, offset, turns_of
from silc.explaining.typing_rules import BOOL, Typing

from silc.checking.numbers import raw_of
from silc.sure import sure

# What gives the value of an element with a delay.
Read: TypeAlias = "Callable[[int, int], Value]"
# Elements, lower ranks first, each with how many samples ago; and the words of elements so many samples ago.
Cone: TypeAlias = list[tuple[int, list[int]]]
Words: TypeAlias = dict[tuple[int, int], int]

INPUT, SAME, WORD, VALUE = "input", "same", "word", "value"
# How a value is used: what it is beyond its word is lost, is kept, or is as the element itself is used.
LOST, KEPT, ROOT = "lost", "kept", "root"


class TooLong(Exception):
    """More work than the user waits for."""


@dataclass
class Scope:
    """Where an expression stands: a function, the elements of its signals, and the values of the indices."""
    func: Func
    signals: dict[str, range]
    indices: dict[str, int] = field(default_factory=dict)


@dataclass
class Element:
    """A scalar signal of an instance, and what defines it: another element, a word, or an expression with its item."""
    type: Type
    kind: str = INPUT
    other: int = 0
    node: Node | None = None
    item: Node | None = None
    scope: Scope | None = None
    # The elements that it reads, each with its delay.
    reads: list[tuple[int, int]] = field(default_factory=list)

    def expression(self) -> tuple[Node, Scope]:
        """The expression that defines it, and where that stands."""
        return sure(self.node), sure(self.scope)


@dataclass(frozen=True)
class Value:
    """A word, what it would be if sums never wrapped, and whether a word was lost on the way here."""
    word: int
    exact: int
    is_lost: bool = False

    def taken(self) -> bool:
        """Whether a word is lost where this is used by its word alone."""
        return self.is_lost or self.exact != self.word


def modes_of(of: Type) -> list[str]:
    return of.text.rstrip(">").split(",")[2:]


def saturates(of: Type) -> bool:
    return "sat" in modes_of(of)


def fitted(exact: int, of: Type) -> int:
    """A whole number brought to the width of a type by its overflow mode."""
    half = 1 << (of.bits() - 1)
    if saturates(of):
        return min(max(exact, -half), half - 1)
    return (exact + half) % (2 * half) - half


def dropped(exact: int, bits: int, of: Type) -> int:
    """A whole number without its last bits, by the mode of a type; with more where there are less than none."""
    if bits <= 0:
        return exact << -bits
    return (exact + (1 << (bits - 1) if "round" in modes_of(of) else 0)) >> bits


class Elements:
    """The elements of a program without a fault."""

    def __init__(self, source: Source, most_steps: int) -> None:
        self.source, self.typing, self.steps = source, Typing(source), most_steps
        self.elements: list[Element] = []
        self.raws: dict[str, list[int]] = {}
        main = source.funcs["main"]
        self.main = Scope(main, self.enter(main))
        self.results = [number for decl in main.results for number in self.main.signals[decl.name]]
        self.expand(main, self.main.signals)
        for element in self.elements:
            if element.kind == VALUE:
                element.reads = [*self.reads(*element.expression())]
            elif element.kind == SAME:
                element.reads = [(element.other, 0)]
        self.order = self.in_order()
        self.varying = self.of_inputs()

    def spend(self, steps: int = 1) -> None:
        self.steps -= steps
        if self.steps < 0:
            raise TooLong

    # What defines each

    def enter(self, func: Func) -> dict[str, range]:
        signals: dict[str, range] = {}
        for decl in func.decls():
            first, count = len(self.elements), math.prod(decl.dims)
            self.spend(count)
            self.elements += [Element(decl.type) for _ in range(count)]
            signals[decl.name] = range(first, first + count)
        return signals

    def expand(self, func: Func, signals: dict[str, range]) -> None:
        for item, indices in turns_of(func.items):
            self.spend()
            scope = Scope(func, signals, indices)
            if item.kind == "equation":
                target, node = item.parts
                self.define(self.place(target, scope), VALUE, node=node, item=item, scope=scope)
            elif item.kind == "call":
                self.call(item, scope)

    def define(self, number: int, kind: str, **by: Any) -> None:
        element = self.elements[number]
        element.kind = kind
        for key, value in by.items():
            setattr(element, key, value)

    def call(self, item: Node, scope: Scope) -> None:
        callee = self.source.funcs[item.name]
        inner = self.enter(callee)
        for decl, argument in zip(callee.params, item.parts):
            for place, number in enumerate(inner[decl.name]):
                if not decl.dims:
                    self.define(number, VALUE, node=argument, item=item, scope=scope)
                elif argument.name in scope.signals:
                    self.define(number, SAME, other=scope.signals[argument.name][place])
                else:
                    self.define(number, WORD, other=self.table(argument.name)[place])
        for decl, target in zip(callee.results, item.subs):
            places = scope.signals[target.name] if decl.dims else [self.place(target, scope)]
            for number, other in zip(places, inner[decl.name]):
                self.define(number, SAME, other=other)
        self.expand(callee, inner)

    def place(self, node: Node, scope: Scope) -> int:
        decl = self.source.declared(scope.func, node.name)
        return scope.signals[node.name][offset(decl.dims, node.subs, scope.indices)]

    def table(self, name: str) -> list[int]:
        """The raw words of a table."""
        if name not in self.raws:
            table = self.source.tables[name]
            self.raws[name] = [raw_of(word.value, table.decl.type) for word in table.words]
        return self.raws[name]

    def reads(self, node: Node, scope: Scope) -> Iterator[tuple[int, int]]:
        """The elements that an expression reads, each with its delay."""
        self.spend()
        if node.kind == "read" and node.name in scope.signals:
            yield self.place(node, scope), manifest(node.amount, scope.indices) if node.amount else 0
        for part in node.parts:
            yield from self.reads(part, scope)

    def in_order(self) -> dict[int, int]:
        """A rank for each element that no past comes back to: it reads elements of lower ranks alone."""
        waiting = [len({other for other, _ in element.reads}) for element in self.elements]
        readers: dict[int, list[int]] = {}
        for number, element in enumerate(self.elements):
            for other in {other for other, _ in element.reads}:
                readers.setdefault(other, []).append(number)
        ready = [number for number, count in enumerate(waiting) if count == 0]
        ranks: dict[int, int] = {}
        for number in ready:
            ranks[number] = len(ranks)
            for reader in readers.get(number, ()):
                waiting[reader] -= 1
                if waiting[reader] == 0:
                    ready.append(reader)
        return ranks

    def of_inputs(self) -> set[int]:
        """The elements with a rank whose values depend on an input."""
        made = set()
        for number in self.order:
            element = self.elements[number]
            if element.kind == INPUT or any(other in made for other, _ in element.reads):
                made.add(number)
        return made

    # Types

    def own(self, node: Node, scope: Scope) -> Type | None:
        self.typing.func = scope.func
        return self.typing.own(node)

    def sides(self, node: Node, scope: Scope) -> list[Type]:
        """The types of the factors of a product, or of the sides of a comparison."""
        left, right = (self.own(part, scope) for part in node.parts)
        either = sure(left or right)
        return [left or either, right or either] if node.kind == "product" else [either] * 2

    def is_kept(self, own: Type, cast: Type) -> bool:
        """Whether a cast has no more bits before the point than what it converts, so that it takes a wrapped word as it
        is."""
        return not saturates(cast) and cast.bits() - cast.places <= own.bits() - own.places

    def parts(self, node: Node, wanted: Type, scope: Scope, use: str) -> list[tuple]:
        """The parts of an expression, each with the type against which it is valued, and how its value is used."""
        if node.kind == "sum":
            return [(part, wanted, LOST if saturates(wanted) else KEPT) for part in node.parts]
        if node.kind == "negation" or node.kind == "shift" and node.name == "<<":
            return [(node.parts[0], wanted, LOST if saturates(wanted) else use)]
        if node.kind == "shift":
            return [(node.parts[0], wanted, LOST)]
        if node.kind in ("product", "comparison"):
            return [(part, of, LOST) for part, of in zip(node.parts, self.sides(node, scope))]
        if node.kind == "cast":
            own = self.own(node.parts[0], scope)
            of = node.cast()
            return [(node.parts[0], own or of, use if not own or self.is_kept(own, of) else LOST)]
        if node.kind == "choice":
            return [(part, BOOL if at % 2 == 0 and at < len(node.parts) - 1 else wanted,
                     LOST if at % 2 == 0 and at < len(node.parts) - 1 else use) for at, part in enumerate(node.parts)]
        return [(part, BOOL, LOST) for part in node.parts]

    def uses(self, node: Node, wanted: Type, scope: Scope, use: str) -> Iterator[tuple[Node, Type, str]]:
        """All parts of an expression, with the type against which each is valued, and how its value is used."""
        self.spend()
        yield node, wanted, use
        for part, of, by in self.parts(node, wanted, scope, use):
            yield from self.uses(part, of, scope, by)

    # Words

    def value(self, node: Node, wanted: Type, scope: Scope, read: Read) -> Value:
        """The value of an expression, where `read` gives that of an element and a delay."""
        self.spend()
        if node.kind == "read":
            if node.name not in scope.signals:
                decl = self.source.declared(scope.func, node.name)
                raw = self.table(node.name)[offset(decl.dims, node.subs, scope.indices)]
                return Value(raw, raw)
            return read(self.place(node, scope), manifest(node.amount, scope.indices) if node.amount else 0)
        if node.kind == "number":
            raw = raw_of(node.value, wanted)
            return Value(raw, raw)
        if node.kind == "truth":
            return Value(int(node.value == "true"), int(node.value == "true"))
        if node.kind == "choice":
            return self.chosen(node, wanted, scope, read)
        values = [self.value(part, of, scope, read) for part, of, _ in self.parts(node, wanted, scope, LOST)]
        if node.kind in ("comparison", "logic", "not"):
            return truth(node, values)
        if node.kind == "sum" or node.kind == "negation" or node.kind == "shift":
            return self.summed(node, wanted, scope, values)
        if node.kind == "product":
            left, right = self.sides(node, scope)
            exact = dropped(values[0].word * values[1].word, left.places + right.places - wanted.places, wanted)
            return Value(fitted(exact, wanted), exact, any(value.taken() for value in values))
        return self.converted(node, scope, values[0])

    def chosen(self, node: Node, wanted: Type, scope: Scope, read: Read) -> Value:
        is_lost = False
        for at in range(0, len(node.parts) - 1, 2):
            condition = self.value(node.parts[at], BOOL, scope, read)
            is_lost = is_lost or condition.is_lost
            if condition.word:
                found = self.value(node.parts[at + 1], wanted, scope, read)
                break
        else:
            found = self.value(node.parts[-1], wanted, scope, read)
        return Value(found.word, found.exact, found.is_lost or is_lost)

    def summed(self, node: Node, wanted: Type, scope: Scope, values: list[Value]) -> Value:
        """The value of a sum, a difference, a negation or a shift."""
        amount = manifest(node.by(), scope.indices) if node.kind == "shift" else 0
        if node.name == ">>":
            word = dropped(values[0].word, amount, wanted)
            return Value(word, word, values[0].taken())

        def made(parts: list[int]) -> int:
            if node.kind == "sum":
                return parts[0] + parts[1] if node.name == "+" else parts[0] - parts[1]
            return parts[0] << amount if node.kind == "shift" else -parts[0]

        word = fitted(made([value.word for value in values]), wanted)
        if saturates(wanted):
            return Value(word, word, any(value.taken() for value in values))
        return Value(word, made([value.exact for value in values]), any(value.is_lost for value in values))

    def converted(self, node: Node, scope: Scope, value: Value) -> Value:
        own = self.own(node.parts[0], scope)
        if not own:
            return value
        of = node.cast()
        bits = own.places - of.places
        exact = dropped(value.word, bits, of)
        word = fitted(exact, of)
        if self.is_kept(own, of):
            return Value(word, dropped(value.exact, bits, of), value.is_lost)
        return Value(word, word if saturates(of) else exact, value.taken())

    # Where an expression reads back to

    def cone(self, node: Node, scope: Scope) -> Cone | None:
        """The elements from which an expression has its value, lower ranks first, each with how many samples ago;
        nothing where the past of one comes back to it."""
        ages: dict[int, set[int]] = {}
        waiting: list[tuple[int, int]] = []
        for number, age in self.reads(node, scope):
            if number not in self.order:
                return None
            if number not in ages:
                heapq.heappush(waiting, (-self.order[number], number))
            ages.setdefault(number, set()).add(age)
        made = []
        while waiting:
            _, number = heapq.heappop(waiting)
            made.append((number, sorted(ages[number])))
            for other, delay in self.elements[number].reads:
                if other not in ages:
                    heapq.heappush(waiting, (-self.order[other], other))
                self.spend(len(ages[number]))
                ages.setdefault(other, set()).update(age + delay for age in ages[number])
        return made[::-1]

    def run(self, cone: Cone, words: Words) -> dict[tuple[int, int], Value]:
        """The values of the elements of a cone, by element and age, where `words` has those of the inputs."""
        values: dict[tuple[int, int], Value] = {}

        def before(age: int) -> Read:
            return lambda other, delay: values[other, age + delay]
        for number, ages in cone:
            element = self.elements[number]
            for age in ages:
                if element.kind == INPUT:
                    word = words[number, age]
                    values[number, age] = Value(word, word)
                elif element.kind == WORD:
                    values[number, age] = Value(element.other, element.other)
                elif element.kind == SAME:
                    values[number, age] = values[element.other, age]
                else:
                    node, scope = element.expression()
                    values[number, age] = self.value(node, element.type, scope, before(age))
        return values


def truth(node: Node, values: list[Value]) -> Value:
    """The value of a comparison or of logic."""
    left, right = values[0].word, values[-1].word
    word = {"<": left < right, "<=": left <= right, "==": left == right, "!=": left != right, ">": left > right,
            ">=": left >= right, "&": left & right, "|": left | right, "!": 1 - left}[node.name]
    return Value(int(word), int(word), any(value.taken() for value in values))
