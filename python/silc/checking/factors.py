"""Products whose factors stand the other way round than those of other products, so that a port of a multiplier takes
wider words than it has to."""
from __future__ import annotations

from collections.abc import Iterable, Iterator
from dataclasses import dataclass

from silc.explaining.grammar import Node, Type
from silc.explaining.program import Source
from silc.explaining.report import Report

from silc.checking.elements import ROOT, SAME, VALUE, WORD, Elements, Scope, TooLong, Value
from silc.sure import sure

MOST_STEPS, MOST_SHOWN = 150_000, 60
HARDWARE = 'docs/HARDWARE.md, "What a plan costs"'
PORTS = ("first", "second")
# Factors that can change places as they are written.
PLAIN = ("read", "number")


@dataclass
class Product:
    """A product of the source, with the bits that its factors have at most, over all calls and turns."""
    node: Node
    bits: tuple[int, int]


def bits_of(raw: int) -> int:
    """The bits of a word in two's complement."""
    return max(raw, ~raw).bit_length() + 1


def constant_word(elements: Elements, node: Node, of: Type, scope: Scope) -> int | None:
    """The word of a factor that is a number, or names one."""
    if node.kind == "number" or node.kind == "read" and node.name not in scope.signals:
        # A number reads no element.
        return elements.value(node, of, scope, lambda *_: Value(0, 0)).word
    if node.kind != "read" or node.amount:
        return None
    element = elements.elements[elements.place(node, scope)]
    while element.kind == SAME:
        element = elements.elements[element.other]
    return element.other if element.kind == WORD else None


def factor_bits(elements: Elements, node: Node, of: Type, scope: Scope) -> int:
    """The bits of a factor: those of the word of a constant, else those of its type."""
    word = constant_word(elements, node, of, scope)
    return bits_of(word) if word is not None else sure(of.width)


def needed(elements: Elements) -> set[int]:
    """The elements that an output comes from. Nothing is computed for the others."""
    made, waiting = set(elements.results), [*elements.results]
    while waiting:
        for other, _ in elements.elements[waiting.pop()].reads:
            if other not in made:
                made.add(other)
                waiting.append(other)
    return made


def products_of(source: Source) -> list[Product]:
    """The products of a source without a fault, by their places."""
    elements = Elements(source, MOST_STEPS)
    made: dict[int, Product] = {}
    for number in sorted(needed(elements)):
        element = elements.elements[number]
        if element.kind == VALUE:
            scope = sure(element.scope)
            for node, _, _ in elements.uses(sure(element.node), element.type, scope, ROOT):
                if node.kind == "product":
                    sides = zip(node.parts, elements.sides(node, scope))
                    bits = [factor_bits(elements, part, of, scope) for part, of in sides]
                    own = made.setdefault(node.start, Product(node, (0, 0)))
                    own.bits = (max(own.bits[0], bits[0]), max(own.bits[1], bits[1]))
    return [made[start] for start in sorted(made)]


def turned(products: Iterable[Product]) -> tuple[list[Product], int, int, int] | None:
    """The products to turn, the port that gets narrower, and its bits before and then; nothing where the ports are as
    narrow as they can be with all products on one multiplier."""
    products = [*products]
    if not products:
        return None
    wide, narrow = max(max(one.bits) for one in products), max(min(one.bits) for one in products)
    now = [max(one.bits[port] for one in products) for port in (0, 1)]
    if sum(now) <= wide + narrow:
        return None
    ways = [([one for one in products if one.bits[port] > narrow], port) for port in (1, 0)]
    to_turn, port = min(ways, key=lambda way: len(way[0]))
    return to_turn, port, now[port], narrow


def exchangeable(source: Source) -> Iterator[Report]:
    """The products whose factors are to be exchanged, all of them together."""
    found = turned(products_of(source))
    if not found:
        return
    to_turn, port, before, behind = found
    others = len(to_turn) - 1
    beside = f", and those of {others} other product{'s' if others > 1 else ''}" if others else ""
    for one in to_turn:
        left, right = one.node.parts
        shown = source.shown(one.node)
        shown = shown if len(shown) <= MOST_SHOWN else shown[:MOST_SHOWN].rstrip() + " .."
        report = Report(f"`{shown}` brings words of {one.bits[port]} bits to the {PORTS[port]} port of a multiplier; "
                        f"with its factors exchanged{beside}, that port takes {behind} bits at most, and not {before}",
                        "exchange its factors: a port is as wide as the widest word that comes to it.", HARDWARE,
                        source.node_span(one.node))
        if left.kind in PLAIN and right.kind in PLAIN:
            text = source.text.chars
            report.by(source.text.edit(left.start, left.end, text[right.start:right.end]),
                      source.text.edit(right.start, right.end, text[left.start:left.end]))
        yield report


def wide_ports(source: Source) -> list[Report]:
    """The products whose factors are to be exchanged, where that is found in the time there is."""
    try:
        return [*exchangeable(source)]
    except (TooLong, RecursionError):
        return []
