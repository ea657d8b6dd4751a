"""What no input and no rounding can pass in a cascade, by certified sums of magnitudes of its responses, from its
words."""
from dataclasses import dataclass
from fractions import Fraction
from typing import TYPE_CHECKING

from silc.designing.certified import System, norms
from silc.designing.forms import INPUT, OUTPUT
from silc.designing.systems import Term

if TYPE_CHECKING:
    from silc.designing.scaling import Cascade, Shapes


@dataclass(frozen=True)
class Certificate:
    """How much of its range each section uses at most, and the greatest sum of all errors of rounding in the output.
    Where no bound was found in the time, it is how much some input uses at least, but for rounding, and of the errors
    nothing."""
    uses: tuple
    rounding: Fraction
    is_bound: bool


@dataclass(frozen=True)
class Node:
    """A signal of the cascade: its section, its terms as (node, delay, factor), which of them are products that are
    taken off, and whether it is a word of the signals."""
    section: int
    terms: tuple
    taken_off: tuple
    is_rounded: bool


def nodes_of(cascade: "Cascade") -> list[Node]:
    """The signals of a cascade in the order of their evaluation, behind its input, which is the first."""
    nodes, before = [Node(-1, (), (), False)], 0
    for number, (words, _) in enumerate(cascade.made):
        places = {INPUT: before}
        equations = words.equations(cascade.shapes.coefficient)
        for equation in equations:
            places[equation.signal] = len(nodes) + len(places) - 1
        for equation in equations:
            terms = tuple((places[term.signal], term.delay, Fraction(term.factor)) for term in equation.terms)
            taken_off = tuple(term.is_taken_off for term in equation.terms)
            nodes.append(Node(number, terms, taken_off, equation.is_rounded))
        before = places[OUTPUT]
    return nodes


def errors_of(shapes: "Shapes", nodes: list[Node]) -> dict[int, float]:
    """The greatest error that comes in at each signal, the input among them."""
    return {0: shapes.input_error()} | {number: shapes.error(len(node.terms)) for number, node in enumerate(nodes)
                                        if node.is_rounded}


def certified(cascade: "Cascade", seconds: float) -> Certificate:
    """The certificate of a cascade, or the best that is known of it after so many seconds."""
    shapes, nodes = cascade.shapes, nodes_of(cascade)
    errors = errors_of(shapes, nodes)
    sources = [number for number, error in errors.items() if error or not number]
    made = norms(System([node.terms for node in nodes]), [[(number, 0, Fraction(1))] for number in sources], seconds)
    is_bound = all(norm.is_bound for reached in made for norm in reached.values())
    sums = [{number: norm.total if is_bound else norm.summed for number, norm in reached.items()} for reached in made]
    full, limit = Fraction(shapes.input.value(-shapes.input.least)), Fraction(shapes.limit())
    if not is_bound:
        full, errors = Fraction(shapes.input.value(shapes.input.greatest)), dict.fromkeys(errors, 0)

    def error(number: int) -> Fraction:
        return sum((Fraction(errors[source]) * reached.get(number, 0) for source, reached in zip(sources, sums)),
                   Fraction(0))
    uses = [Fraction(0)] * len(cascade.made)
    for number, node in enumerate(nodes):
        if node.is_rounded:
            uses[node.section] = max(uses[node.section], (full * sums[0].get(number, 0) + error(number)) / limit)
    return Certificate(tuple(uses), error(len(nodes) - 1), is_bound)


def certified_rounding(cascade: "Cascade", seconds: float) -> Certificate:
    """The same where signals may pass their range: a certificate of the errors of rounding alone. The response to each
    of them in the output is that to the output in the system whose terms go the other way."""
    nodes = nodes_of(cascade)
    turned: list[list[Term]] = [[] for _ in nodes]
    for number, node in enumerate(nodes):
        for other, delay, factor in node.terms:
            turned[other].append((number, delay, factor))
    reached, = norms(System(turned), [[(len(nodes) - 1, 0, Fraction(1))]], seconds)
    errors = errors_of(cascade.shapes, nodes)
    is_bound = all(norm.is_bound for norm in reached.values())
    rounding = sum((Fraction(error) * reached[number].total for number, error in errors.items()
                    if error and number in reached), Fraction(0))
    return Certificate((), rounding if is_bound else Fraction(0), is_bound)
