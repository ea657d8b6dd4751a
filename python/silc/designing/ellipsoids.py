"""A bound of what a short loop still answers, from the state in which it is: by the sum of squares with a weight.

With a weight w > 1, sum |c A^t x| is at most the root of sum w^-2t times that of sum (c A'^t x)^2 (Cauchy and Schwarz),
where A' = w A. The second sum is c X c* for the X with X = A' X A'* + x x* (a star transposes). Such an X is found by
doubling, without proof, and then checked in whole numbers: where X - A' X A'* - x x* is positive semidefinite and A' is
stable, c X c* is no less than the sum. A' is stable where Y - A' Y A'* is positive definite for a positive definite Y.
So nothing rests on how X, Y and the weight were found. For one real pole the bound is exact, for two complex ones it is
11 % too great.
"""
import math
from collections.abc import Callable, Iterable
from fractions import Fraction

from silc.designing.systems import System

# The places of the numbers by which X and Y are found, of those of Y, and of the share of Y that is added to X.
PLACES, Y_PLACES, ROOM = 256, 64, 120
# A power of A is over with a norm below 2^-OVER, and grows without end above 2^GROWN; so many squarings are tried.
OVER, GROWN, MOST_SQUARINGS, WEIGHT_PLACES, ROOT_PLACES = 100, 200, 44, 64, 128
MOST_STATES = 40

Matrix = list[list[int]]
Pending = dict[tuple[int, int], Fraction]


class NoBound(ValueError):
    """Why there is no bound of this kind."""


def times(a: Matrix, b: Matrix, places: int = 0) -> Matrix:
    """The product, of numbers with so many places."""
    columns = list(zip(*b))
    return [[sum([x * y for x, y in zip(row, column) if x and y]) >> places for column in columns] for row in a]


def around(a: Matrix, x: Matrix, places: int = 0) -> Matrix:
    """a x a*."""
    return times(times(a, x, places), transposed(a), places)


def each(change: Callable[..., int], *matrices: Matrix) -> Matrix:
    """The matrix of what a change makes of the numbers that stand at one place."""
    return [[change(*numbers) for numbers in zip(*rows)] for rows in zip(*matrices)]


def unit(size: int) -> Matrix:
    return [[int(row == column) for column in range(size)] for row in range(size)]


def transposed(a: Matrix) -> Matrix:
    return [list(column) for column in zip(*a)]


def magnitude(row: list[int]) -> int:
    """The sum of the magnitudes of a row."""
    return sum([abs(number) for number in row])


def size_of(a: Matrix) -> int:
    """The greatest sum of magnitudes of a row."""
    return max((magnitude(row) for row in a), default=0)


def is_dominant(a: Matrix) -> bool:
    """Whether each number on the diagonal is no less than the magnitudes beside it together: then a symmetric matrix is
    positive semidefinite."""
    return all(2 * row[k] >= magnitude(row) for k, row in enumerate(a))


def is_positive(a: Matrix) -> bool:
    """Whether a symmetric matrix is positive definite: all its leading minors are (Bareiss)."""
    rows, last = [list(row) for row in a], 1
    for k, pivots in enumerate(rows):
        if pivots[k] <= 0:
            return False
        for row in rows[k + 1 :]:
            row[k + 1 :] = [(row[j] * pivots[k] - row[k] * pivots[j]) // last for j in range(k + 1, len(rows))]
        last = pivots[k]
    return True


def squarings(a: Matrix) -> list[Matrix]:
    """The powers 1, 2, 4, .. of a matrix, until one is nearly 0."""
    made = [a]
    while size_of(made[-1]) >> PLACES - OVER:
        if len(made) > MOST_SQUARINGS or size_of(made[-1]) >> PLACES + GROWN:
            raise NoBound("the powers do not die out")
        made.append(times(made[-1], made[-1], PLACES))
    return made


def weight_of(a: Matrix) -> int:
    """A weight by which the powers of a matrix still die out, by about the root of its decay."""
    powers = squarings(a)
    last = size_of(powers[-1])
    decay = (PLACES * math.log(2) - math.log(last)) / (1 << len(powers) - 1) if last else math.inf
    return (1 << WEIGHT_PLACES) + int(math.expm1(min(decay / 2, 0.5)) * (1 << WEIGHT_PLACES))


def root_of(square: Fraction) -> Fraction:
    """The root, rounded up."""
    return Fraction(math.isqrt(math.ceil(square * (1 << 2 * ROOT_PLACES))) + 1, 1 << ROOT_PLACES)


class States:
    """What comes into some nodes, now and later, as a state: how it changes in a sample, and which words it gives."""

    def __init__(self, system: System, ranks: Iterable[int], pending: Iterable[tuple[int, int]]) -> None:
        inside, self.system = set(ranks), system
        self.edges = {rank: [edge for edge in system.edges[rank] if edge.target in inside] for rank in sorted(inside)}
        lengths: dict[int, int] = {}
        ends = [(edge.target, edge.delay - 1) for edges in self.edges.values() for edge in edges]
        for rank, offset in [*pending, *ends]:
            lengths[rank] = max(lengths.get(rank, 0), offset + 1)
        self.names = [(rank, offset) for rank, length in sorted(lengths.items()) for offset in range(length)]

    def words(self, kicked: int) -> dict[int, Fraction]:
        """The words of all nodes in the sample in which 1 comes into one of them."""
        made = {kicked: Fraction(1)}
        for rank, edges in self.edges.items():
            for edge in edges if rank in made else ():
                if not edge.delay:
                    made[edge.target] = made.get(edge.target, Fraction(0)) + made[rank] * self.system.factor(edge)
        return made

    def change(self, name: tuple[int, int], words: dict[int, Fraction]) -> dict[tuple[int, int], Fraction]:
        """What a state becomes in a sample in which it gives these words."""
        rank, offset = name
        made = {(rank, offset - 1): Fraction(1)} if offset else {}
        for other, word in words.items():
            for edge in self.edges[other]:
                if edge.delay:
                    place = edge.target, edge.delay - 1
                    made[place] = made.get(place, Fraction(0)) + word * self.system.factor(edge)
        return made


class Ellipsoid:
    """The weight and the Y by which tails are bounded, for some states. Raises `NoBound`."""

    def __init__(self, states: States) -> None:
        if len(states.names) > MOST_STATES:
            raise NoBound(f"there are more than {MOST_STATES} states")
        self.names = states.names
        self.gives = [{} if offset else states.words(rank) for rank, offset in self.names]
        changes = [states.change(name, words) for name, words in zip(self.names, self.gives)]
        most = max([value.denominator for change in changes for value in change.values()], default=1).bit_length() - 1
        whole = [[int(change.get(name, 0) * (1 << most)) for change in changes] for name in self.names]
        self.weight = weight_of(self.in_places(whole, most))
        self.exact, self.places = each(lambda x: x * self.weight, whole), most + WEIGHT_PLACES
        self.powers = squarings(self.in_places(self.exact, self.places))
        identity = unit(len(whole))
        self.room = each(lambda x: x >> PLACES - Y_PLACES, self.summed(each(lambda x: x << PLACES, identity)))
        rest = each(lambda x, one: 2 * x - (one << Y_PLACES + 2 * self.places), self.rest(self.room), identity)
        if not is_dominant(rest) or not is_positive(self.room):
            raise NoBound("it is not shown that the powers die out")

    @staticmethod
    def in_places(a: Matrix, places: int) -> Matrix:
        """A matrix of numbers with so many places, with PLACES."""
        return each(lambda x: x << PLACES - places if places < PLACES else x >> places - PLACES, a)

    def summed(self, x: Matrix) -> Matrix:
        """The sum of A'^t x A'*^t over all t, nearly; symmetric, as the checks need it."""
        for power in self.powers:
            x = each(int.__add__, x, around(power, x, PLACES))
        return each(lambda a, b: a + b >> 1, x, transposed(x))

    def rest(self, x: Matrix) -> Matrix:
        """x - A' x A'*, exactly, with twice the places of A' behind those of x."""
        return each(lambda a, b: (a << 2 * self.places) - b, x, around(self.exact, x))

    def tails(self, pending: Pending) -> dict[int, Fraction]:
        """Of each node that is reached a bound of the sum of its magnitudes, from a state on."""
        most = max(abs(word) for word in pending.values())
        scale = Fraction(2) ** (most.denominator.bit_length() - most.numerator.bit_length())
        state = [pending.get(name, Fraction(0)) * scale for name in self.names]
        places = max(x.denominator for x in state).bit_length() - 1
        whole = [int(x * (1 << places)) for x in state]
        square, behind = [[a * b for b in whole] for a in whole], PLACES + 2 * self.places - 2 * places
        if behind < 0:
            raise NoBound("the state has too many places")
        start = each(lambda a: a << PLACES >> 2 * places, square)
        x = each(lambda a, b: a + (b << PLACES - Y_PLACES >> ROOM), self.summed(start), self.room)
        if not is_dominant(each(lambda a, b: a - (b << behind), self.rest(x), square)):
            raise NoBound("the sum of squares is not shown")
        return {rank: root_of(value * self.sum_of_weights()) / scale for rank, value in self.squares(x).items()}

    @property
    def decay(self) -> float:
        """By about how much the logarithm of a state falls in a sample."""
        return 2 * math.log1p(self.weight / (1 << WEIGHT_PLACES) - 1)

    def sum_of_weights(self) -> Fraction:
        """The sum of w^-2t."""
        square = Fraction(self.weight, 1 << WEIGHT_PLACES) ** 2
        return square / (square - 1)

    def squares(self, x: Matrix) -> dict[int, Fraction]:
        """c x c* of each node."""
        rows: dict[int, list[tuple[int, Fraction]]] = {}
        for number, words in enumerate(self.gives):
            for rank, word in words.items():
                rows.setdefault(rank, []).append((number, word))
        return {rank: sum((a * b * Fraction(x[i][j], 1 << PLACES) for i, a in row for j, b in row), Fraction(0))
                for rank, row in rows.items()}
