"""Sums that pass the range of a type that wraps, each with inputs for which it certainly does."""
import re
from collections.abc import Iterator

from silc.explaining.grammar import Node, Type
from silc.explaining.program import Source, manifest, with_indices
from silc.explaining.refusals import language
from silc.explaining.report import Report
from silc.explaining.typing_rules import decimal, range_of

from silc.checking.elements import (INPUT, LOST, ROOT, SAME, VALUE, Cone, Element, Elements, Scope, TooLong, Value,
                                    Words, saturates)
from silc.sure import NotThere, sure

# A comment with which a wrap is meant.
MEANT = re.compile(r"/\*\s*wraps\b.*?\*/", re.S)
COMMENT = re.compile(r"/\*.*?\*/", re.S)
MOST_STEPS, MOST_SHOWN = 150_000, 60

# By how much something changes with elements, each by its number and its age.
Weights = dict[tuple[int, int], float]


class Sums:
    """The sums and products of a program, and what is told of them."""

    def __init__(self, source: Source) -> None:
        self.source, self.meant = source, meant_lines(source)
        self.found: dict[int, Report] = {}
        self.elements = Elements(source, MOST_STEPS)
        self.lost = self.lost_elements()

    def lost_elements(self) -> set[int]:
        """The elements of which something reads the word alone, so that what wrapped is lost."""
        lost = set(self.elements.results)
        named: dict[int, list[int]] = {}
        for number, element in enumerate(self.elements.elements):
            if element.kind == SAME:
                named.setdefault(number, []).append(element.other)
            elif element.kind == VALUE:
                whole, scope = element.expression()
                for node, _, use in self.elements.uses(whole, element.type, scope, ROOT):
                    if node.kind == "read" and node.name in scope.signals and use in (LOST, ROOT):
                        other = self.elements.place(node, scope)
                        lost.add(other) if use == LOST else named.setdefault(number, []).append(other)
        waiting = [*lost]
        while waiting:
            for other in named.get(waiting.pop(), ()):
                if other not in lost:
                    lost.add(other)
                    waiting.append(other)
        return lost

    def reports(self) -> list[Report]:
        for number, element in enumerate(self.elements.elements):
            if element.kind == VALUE and not self.is_meant(item := sure(element.item)):
                whole, scope = element.expression()
                for node, wanted, use in self.elements.uses(whole, element.type, scope, ROOT):
                    is_lost = use == LOST or use == ROOT and number in self.lost
                    if is_lost and node.kind in ("sum",
                                                 "product") and node.start not in self.found and not saturates(wanted):
                        self.judge(node, wanted, scope, item)
        return [*self.found.values()]

    def is_meant(self, item: Node) -> bool:
        lines = range(self.source.line(item.start), self.source.line(item.end - 1) + 1)
        return any(line in self.meant for line in lines)

    def judge(self, node: Node, wanted: Type, scope: Scope, item: Node) -> None:
        """Keeps the report on a sum, where inputs are found with which it passes its type."""
        cone = self.elements.cone(node, scope)
        if not cone:
            return
        weights = self.weights(node, wanted, scope, cone)
        if not self.is_doubtful(node, wanted, scope, weights):
            return
        half = 1 << (wanted.bits() - 1)
        reached = [value.exact for words in self.trials(cone, weights)
                   if not (value := self.with_inputs(node, wanted, scope, cone, words)).is_lost
                   and abs(value.exact) > half]
        if reached:
            self.found[node.start] = self.report(node, wanted, scope, item, max(reached, key=abs))

    def with_inputs(self, node: Node, wanted: Type, scope: Scope, cone: Cone, words: Words) -> Value:
        values = self.elements.run(cone, words)
        return self.elements.value(node, wanted, scope, lambda number, age: values[number, age])

    # What is tried

    def is_doubtful(self, node: Node, wanted: Type, scope: Scope, weights: dict) -> bool:
        """Whether the loss is likely not meant: of two words or more, or of one with a factor above 1. A word and a
        constant are a counter or an offset."""
        if node.kind == "product":
            return any(not self.varies(part, scope) for part in node.parts)
        terms = sum(self.varies(part, scope) for part in flattened(node))
        return terms > 1 or len(weights) > 1 or any(abs(weight) > 1 for weight in weights.values())

    def varies(self, node: Node, scope: Scope) -> bool:
        """Whether the value of an expression depends on an input."""
        return any(number in self.elements.varying for number, _ in self.elements.reads(node, scope))

    def trials(self, cone: Cone, weights: Weights) -> Iterator[Words]:
        """The words of the inputs that are tried: at the ends of their ranges, by the signs of their weights, or all
        alike."""
        inputs = {(number, age): ends_of(self.elements.elements[number].type) for number, ages in cone for age in ages
                  if self.elements.elements[number].kind == INPUT}
        seen = []
        ups = {key for key, weight in weights.items() if weight > 0}
        for choice in (lambda key: key in ups, lambda key: key not in ups, lambda _: True, lambda _: False):
            words = {key: ends[choice(key)] for key, ends in inputs.items()}
            if words not in seen:
                seen.append(words)
                yield words

    def weights(self, node: Node, wanted: Type, scope: Scope, cone: Cone) -> Weights:
        """By how much the value changes with each input, by element and age; what is no line has no weights."""
        made: Weights = {}
        forms: dict[int, Weights] = {}
        for place, weight in self.form(node, wanted, scope).items():
            made[place] = made.get(place, 0) + weight
        for number, ages in reversed(cone):
            element = self.elements.elements[number]
            if element.kind == INPUT:
                continue
            for age in ages:
                weight = made.pop((number, age), 0)
                if number not in forms:
                    forms[number] = self.form_of(element)
                for (other, delay), factor in forms[number].items() if weight else ():
                    self.elements.spend()
                    made[other, age + delay] = made.get((other, age + delay), 0) + weight * factor
        return made

    def form_of(self, element: Element) -> Weights:
        """An element as a sum of elements with factors."""
        if element.kind == SAME:
            return {(element.other, 0): 1.0}
        if element.kind != VALUE:
            return {}
        node, scope = element.expression()
        return self.form(node, element.type, scope)

    def form(self, node: Node, wanted: Type, scope: Scope) -> Weights:
        """An expression as a sum of elements with factors, by element and delay; what is none is left out."""
        made: Weights = {}
        for (number, age), weight in self.terms(node, wanted, scope, 1.0):
            made[number, age] = made.get((number, age), 0) + weight
        return made

    def terms(self, node: Node, wanted: Type, scope: Scope, weight: float) -> Iterator[tuple[tuple[int, int], float]]:
        self.elements.spend()
        if node.kind == "read":
            yield from (((number, age), weight) for number, age in self.elements.reads(node, scope))
        elif node.kind == "product":
            for part, other, of, other_of in self.factors(node, scope):
                if not [*self.elements.reads(other, scope)]:
                    factor = self.elements.value(other, other_of, scope, nothing_read).word / 2**other_of.places
                    yield from self.terms(part, of, scope, weight * factor)
        elif node.kind in ("sum", "negation", "shift", "cast"):
            for at, (part, of, _) in enumerate(self.elements.parts(node, wanted, scope, LOST)):
                is_turned = node.kind == "negation" or node.name == "-" and node.kind == "sum" and at == 1
                yield from self.terms(part, of, scope, -weight if is_turned else weight * self.shift_of(node, scope))

    def factors(self, node: Node, scope: Scope) -> tuple[tuple[Node, Node, Type, Type], tuple[Node, Node, Type, Type]]:
        """Each factor of a product with the other one, and their types."""
        left, right = node.parts
        of, other_of = self.elements.sides(node, scope)
        return (left, right, of, other_of), (right, left, other_of, of)

    def shift_of(self, node: Node, scope: Scope) -> float:
        if node.kind != "shift":
            return 1.0
        amount = manifest(node.by(), scope.indices)
        return 2.0 ** (amount if node.name == "<<" else -amount)

    # What is told

    def report(self, node: Node, wanted: Type, scope: Scope, item: Node, exact: int) -> Report:
        shown, (least, most) = self.source.shown(node), range_of(wanted)
        shown = shown if len(shown) <= MOST_SHOWN else shown[:MOST_SHOWN].rstrip() + " .."
        turn = f", where {with_indices(scope.indices)}" if scope.indices else ""
        end = f"above {most}" if exact > 0 else f"below {least}"
        return Report(f"`{shown}` reaches {decimal(exact, wanted.places)} with inputs at the ends of their "
                      f"ranges{turn}, and "
                      f"`{wanted.text}` wraps {end}",
                      "write `/* wraps */` behind it where that is meant; or give it a type with more bits before the "
                      "point, or one that saturates.", language("Widths, points and rounding"),
                      self.source.node_span(node)) \
            .by(self.source.text.edit(item.end, item.end, " /* wraps */"))


def nothing_read(number: int, age: int) -> Value:
    """The value of an element where an expression reads none."""
    raise NotThere(f"the element {number} is read, {age} samples ago")


def flattened(node: Node) -> list[Node]:
    """The terms of a chain of sums."""
    return [term for part in node.parts for term in flattened(part)] if node.kind == "sum" else [node]


def ends_of(of: Type) -> tuple[int, int]:
    return (0, 1) if of.width is None else (-(1 << (of.width - 1)), (1 << (of.width - 1)) - 1)


def meant_lines(source: Source) -> set[int]:
    """The lines with a comment that says that a wrap is meant, and the lines after those that have nothing else."""
    chars, made = source.text.chars, set()
    for comment in COMMENT.finditer(chars):
        if MEANT.fullmatch(comment[0]):
            first, last = source.line(comment.start()), source.line(comment.end() - 1)
            made.add(first)
            if not chars[source.text.starts[first - 1]:comment.start()].strip():
                made.add(last + 1)
    return made


def wrapping_sums(source: Source) -> list[Report]:
    """The sums that certainly pass their types with some inputs, as far as these are found in the time there is."""
    sums = None
    try:
        sums = Sums(source)
        return sums.reports()
    except (TooLong, RecursionError):
        return [*sums.found.values()] if sums else []
