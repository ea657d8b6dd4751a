"""The numbers of a source, each with the type in which it stands and its raw word there."""
import math
from collections.abc import Iterator
from fractions import Fraction

from silc.explaining.grammar import Func, Node, Table, Type
from silc.explaining.program import Source
from silc.explaining.refusals import language
from silc.explaining.report import Report
from silc.explaining.typing_rules import Fault, Typing, Wanted, decimal

# So many digits a number may have that is written in a source.
MOST_DIGITS = 18
# For each comparison of a word with a number: whether the number's word, on the side to which it was rounded, is told
# wrong.
WRONG_BELOW, WRONG_ABOVE = ("<", ">="), ("<=", ">")
OTHER = {"<": "<=", "<=": "<", ">": ">=", ">=": ">"}
MIRRORED = {"<": ">", ">": "<", "<=": ">=", ">=": "<="}


class Numbers(Typing):
    """The numbers of a source and their types, by their places, as far as the typing rules tell them."""

    def __init__(self, source: Source) -> None:
        super().__init__(source)
        self.types: dict[int, Type] = {}
        self.nodes: dict[int, Node] = {}
        for top in source.tops:
            if isinstance(top, Func):
                self.func = top
                for item in top.items:
                    self.take(self.item(item))
            else:
                self.func = None
                self.take(self.words(top))

    @staticmethod
    def take(faults: Iterator[Fault]) -> None:
        """Goes over an item: its types are noted on the way to its faults."""
        try:
            for _ in faults:
                pass
        except (AttributeError, KeyError, TypeError):
            # An item with a fault of names has no types.
            pass

    def words(self, table: Table) -> Iterator[Fault]:
        for word in table.words:
            yield from self.check(word, self.declared(table.decl))

    def check(self, node: Node, wanted: Wanted) -> Iterator[Fault]:
        if node.kind == "number" and wanted.type.width is not None:
            self.types[node.start], self.nodes[node.start] = wanted.type, node
        yield from super().check(node, wanted)


def exact_raw(number: str, of: Type) -> Fraction:
    """A number in units of the last bit of a type."""
    return Fraction(number) * 2**of.places


def raw_of(number: str, of: Type) -> int:
    """The nearest raw word of a number, up from the middle."""
    return math.floor(exact_raw(number, of) + Fraction(1, 2))


def told_number(number: str, of: Type) -> str:
    """What a number is in its type."""
    raw = raw_of(number, of)
    is_exact = exact_raw(number, of) == raw
    return f"{number} in {of.text}: the raw word {raw}" + ("" if is_exact else f", which is {decimal(raw, of.places)}")


def rounded_numbers(source: Source) -> list[Report]:
    """The numbers that are rounded to the other side of what they are compared with."""
    types, made = Numbers(source).types, []
    for func in source.funcs.values():
        for context in source.contexts(func):
            if context.node.kind == "comparison":
                made += [report for part in context.node.parts if part.kind == "number" and part.start in types
                         and (report := rounded(source, context.node, part, types[part.start]))]
    return made


def rounded(source: Source, comparison: Node, number: Node, of: Type) -> Report | None:
    """The report on a number that is compared with a word, where the word that it becomes is told wrong."""
    exact, raw = exact_raw(number.value, of), raw_of(number.value, of)
    is_left = number is comparison.parts[0]
    operator = MIRRORED.get(comparison.name, comparison.name) if is_left else comparison.name
    if raw == exact:
        return None
    word, shown = decimal(raw, of.places), source.shown(comparison)
    rule, span = language("Widths, points and rounding"), source.node_span(number)
    if operator in ("==", "!="):
        return unequal(source, number, of, word, shown)
    if operator not in (WRONG_BELOW if raw < exact else WRONG_ABOVE):
        return None
    side, told = "below" if raw < exact else "above", "false" if operator in ("<", ">") else "true"
    text, other = source.text, OTHER[comparison.name]
    return Report(f"{number.value} becomes {word} in `{of.text}`, which is {side} it, and `{shown}` is {told} for that "
                  f"word", f"write `{other}`, which tells it right.", rule, span) \
        .by(text.edit(comparison.at, comparison.at + len(comparison.name), other))


def unequal(source: Source, number: Node, of: Type, word: str, shown: str) -> Report:
    """The report on a number that no word is equal to."""
    report = Report(f"no word of `{of.text}` is {number.value}: `{shown}` compares with {word}",
                    f"write {word} where that is meant.", language("Widths, points and rounding"),
                    source.node_span(number))
    is_short = sum(character.isdigit() for character in word) <= MOST_DIGITS
    return report.by(source.text.edit(number.start, number.end, word)) if is_short else report
