"""The noise that is expected of the roundings of a filter, as an estimate: each error as white noise, even over a step,
that knows nothing of the signal and of the errors of other products, through the norm of its response in the output."""
import math
from collections.abc import Hashable, Iterable, Sequence
from dataclasses import dataclass
from typing import TYPE_CHECKING

from silc.designing.certificates import nodes_of
from silc.designing.shapes import Shape
from silc.designing.systems import Term

if TYPE_CHECKING:
    from silc.designing.scaling import Cascade, Rounding, Shapes

# The states' responses are added up in so many doublings at most, or until what is added is this share of the whole.
DOUBLINGS, LITTLE = 64, 1e-13


@dataclass(frozen=True)
class Moments:
    """The mean and the variance of an error."""
    mean: float = 0.0
    variance: float = 0.0

    def opposite(self) -> "Moments":
        return Moments(-self.mean, self.variance)


def moments_of(rounding: "Rounding", bits: int, step: float) -> Moments:
    """The moments of the error by which so many bits fall off, each word of which is as likely as another."""
    if bits <= 0:
        return Moments()
    least = 2.0**-bits
    even = step * step * (1 - least * least) / 12
    if rounding.value == "nearest":
        return Moments(step * least / 2, even)
    if rounding.value == "down":
        return Moments(-step * (1 - least) / 2, even)
    # Toward zero the error goes down where the signal is above 0, and up where it is below, here as if that were by
    # chance.
    return Moments(0.0, step * step * (1 - least) * (2 - least) / 6)


def zeros_behind(word: int) -> int:
    """How many bits of a word are 0 at its end."""
    return (word & -word).bit_length() - 1


@dataclass(frozen=True)
class Product:
    """A word of a coefficient times a node's word some samples ago, with the sign that it has in a sum. One that is
    taken off is rounded with the other sign."""
    word: int
    node: int
    delay: int
    is_taken_off: bool = False


class Errors:
    """The errors of a filter: for each what makes it, with its variance and with the kicks by which it comes in, as
    (node, sample, sign); and the mean of the errors that come into each node. One product that is rounded, or cut off,
    at two places makes one error, with the sign that it has there."""

    def __init__(self, shapes: "Shapes"):
        self.shapes = shapes
        self.kicks: dict[Hashable, list[tuple[int, int, int]]] = {}
        self.variances: dict[Hashable, float] = {}
        self.means: dict[int, float] = {}

    def add(self, cause: Hashable, node: int, delay: int, sign: int, moments: Moments) -> None:
        if moments.variance:
            self.kicks.setdefault(cause, []).append((node, delay, sign))
            self.variances[cause] = moments.variance
            self.means[node] = self.means.get(node, 0.0) + moments.mean

    def add_product(self, node: int, product: Product, what: str, moments: Moments) -> None:
        self.add((what, product.node, abs(product.word)), node, product.delay, 1 if product.word > 0 else -1, moments)

    def add_sum(self, node: int, products: Iterable[Product]) -> None:
        """The errors of a sum of products that is brought to a word of the signals."""
        shapes, fall = self.shapes, self.shapes.exact_places() - self.shapes.sum.places
        cut, finest = shapes.sum.places - shapes.signal.places, []
        for product in products:
            if product.word:
                zeros = zeros_behind(product.word) - fall
                moments = moments_of(shapes.of_products, -zeros, shapes.sum.step)
                self.add_product(node, product, "product", moments.opposite() if product.is_taken_off else moments)
                finest += [(cut - max(0, zeros), product)] if zeros < cut else []
        bits = max((bits for bits, _ in finest), default=0)
        if len(finest) == 1:
            self.add_product(node, finest[0][1], "sum", moments_of(shapes.rounding, bits, shapes.signal.step))
        else:
            self.add(("sum", node), node, 0, 1, moments_of(shapes.rounding, bits, shapes.signal.step))

    def add_input(self) -> None:
        shapes = self.shapes
        rounding = type(shapes.rounding)("nearest" if shapes.has_headroom() else "down")
        self.add("input", 0, 0, 1, moments_of(rounding, shapes.input.places - shapes.signal.places, shapes.signal.step))

    def power(self, system: "StateSpace") -> float:
        """The power of all of them at the last node of a system."""
        form, row = system.summed()
        noise = sum(self.variances[cause] * system.energy(kicks, form) for cause, kicks in self.kicks.items())
        mean = sum(mean * system.total(node, row) for node, mean in self.means.items())
        return noise + mean * mean


# A node, and how many samples ago.
State = tuple[int, int]


class StateSpace:
    """A linear system over its delayed words: what each is at the next sample, and what the last node is, by those and
    by what is put into a node."""

    def __init__(self, nodes: Sequence[Sequence[Term]]):
        delays: dict[int, int] = {}
        for other, delay, _ in (term for terms in nodes for term in terms):
            delays[other] = max(delays.get(other, 0), delay)
        self.states = [(node, back) for node, delay in sorted(delays.items()) for back in range(1, delay + 1)]
        self.nodes = [[(other, delay, float(factor)) for other, delay, factor in terms] for terms in nodes]
        columns = [self.after({state: 1.0}, {}) for state in self.states]
        self.turn = [[column[0][row] for column in columns] for row in range(len(self.states))]
        self.put = [column[1] for column in columns]

    def after(self, states: dict[State, float], kicked: dict[int, float]) -> tuple[list[float], float]:
        """The states at the next sample and the last node, where some states are not 0 and something is put into
        nodes."""
        words: list[float] = []
        for number, terms in enumerate(self.nodes):
            words.append(kicked.get(number, 0.0) + sum(
                factor * (states.get((other, delay), 0.0) if delay else words[other])
                for other, delay, factor in terms))
        following = [words[node] if back == 1 else states.get((node, back - 1), 0.0) for node, back in self.states]
        return following, words[-1]

    def summed(self) -> tuple[list[list[float]], list[float]]:
        """The sum of squares of the last node over all samples as a form of the states, and its sum as a row of
        them."""
        size = range(len(self.states))
        turn, row = self.turn, list(self.put)
        form = [[self.put[i] * self.put[j] for j in size] for i in size]
        for _ in range(DOUBLINGS):
            columns = list(zip(*turn))
            half = [[dot(line, column) for column in columns] for line in form]
            added = [[dot(column, line) for line in zip(*half)] for column in columns]
            form = [[a + b for a, b in zip(*lines)] for lines in zip(form, added)]
            row = [a + dot(row, column) for a, column in zip(row, columns)]
            if max((added[k][k] for k in size), default=0.0) <= LITTLE * max((form[k][k] for k in size), default=0.0):
                break
            turn = [[dot(line, column) for column in columns] for line in turn]
        return form, row

    def energy(self, kicks: Sequence[tuple[int, int, int]], form: list[list[float]]) -> float:
        """The sum of squares of the response to kicks."""
        first, last = min(sample for _, sample, _ in kicks), max(sample for _, sample, _ in kicks)
        states: dict[State, float] = {}
        made = 0.0
        for now in range(first, last + 1):
            following, output = self.after(states, {node: sign for node, sample, sign in kicks if sample == now})
            states, made = dict(zip(self.states, following)), made + output * output
        column = list(states.values())
        return made + dot(column, [dot(line, column) for line in form])

    def total(self, kicked: int, row: list[float]) -> float:
        """The sum of the response to 1 that is put into a node."""
        states, now = self.after({}, {kicked: 1.0})
        return now + dot(row, states)


def dot(row: Iterable[float], column: Iterable[float]) -> float:
    return sum(a * b for a, b in zip(row, column))


def decibels_of(power: float, shape: Shape) -> float | None:
    """A power beside that of the least word of a shape, as tools/noise has it; nothing where there is none."""
    full = shape.step * -shape.least
    return 10 * math.log10(power / full**2) if power else None


def noise_of_cascade(cascade: "Cascade") -> float | None:
    """The expected noise of all roundings of a cascade at its output, in decibels of full scale."""
    shapes, nodes = cascade.shapes, nodes_of(cascade)
    errors = Errors(shapes)
    errors.add_input()
    for number, node in enumerate(nodes):
        if node.is_rounded:
            errors.add_sum(number, [Product(int(factor * 2**shapes.coefficient.places), other, delay, is_taken_off)
                                    for (other, delay, factor), is_taken_off in zip(node.terms, node.taken_off)])
    return decibels_of(errors.power(StateSpace([node.terms for node in nodes])), shapes.signal)


def noise_of_taps(words: Sequence[int], shapes: "Shapes") -> float | None:
    """The expected noise of the roundings of taps, in decibels of full scale."""
    errors = Errors(shapes)
    errors.add_sum(1, [Product(word, 0, delay) for delay, word in enumerate(words)])
    return decibels_of(errors.power(StateSpace([(), ()])), shapes.signal)
