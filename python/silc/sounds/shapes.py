"""The words of fixed-point types, and how those of one become those of another."""
from collections.abc import Sequence

from silc.designing.shapes import numbers_of

WIDEST = 40


class Shape:
    """The words of fix<W,F>."""

    def __init__(self, width: int, places: int):
        self.width, self.places = width, places
        self.low, self.high = -(1 << (width - 1)), (1 << (width - 1)) - 1

    def __str__(self) -> str:
        return f"fix<{self.width},{self.places}>"

    def has(self, word: int) -> bool:
        return self.low <= word <= self.high

    def has_all(self, words: Sequence[int]) -> bool:
        return not words or self.low <= min(words) and max(words) <= self.high

    def nearest(self, given: Sequence[int], other: "Shape") -> Sequence[int]:
        """The nearest words to those of another shape, up from the middle, in the range or not."""
        fewer = other.places - self.places
        if fewer > 0:
            half = 1 << (fewer - 1)
            return [(word + half) >> fewer for word in given]
        return [word << -fewer for word in given] if fewer else given

    def takes(self, given: Sequence[int], other: "Shape") -> bool:
        """Whether each of these words of another shape has one here: the least and the greatest have, as those
        between."""
        return not given or self.has_all(self.nearest([min(given), max(given)], other))

    def takes_every(self, other: "Shape") -> bool:
        """Whether each word that another shape can have has one here."""
        return self.takes((other.low, other.high), other)

    def word(self, given: int, other: "Shape", row: int) -> int:
        """The nearest word to one of another shape, which stands in a row."""
        made, = self.nearest([given], other)
        if not self.has(made):
            raise ValueError(f"row {row}: {given} of {other} is {made} in {self}, which is out of its range")
        return made


def pcm_shape(width: int) -> Shape:
    """The words of a WAV file are fractions from -1 on and below 1."""
    return Shape(width, width - 1)


def shape_of(words: str) -> Shape:
    return Shape(*numbers_of(words))
