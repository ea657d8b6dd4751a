"""Shapes of words, fix<W,F>, and the words that numbers become in them."""
import math
import re
from dataclasses import dataclass
from fractions import Fraction

WIDEST = 40
# A source's number has this many digits at most.
MOST_DIGITS = 18


@dataclass(frozen=True)
class Shape:
    """The words of fix<W,F>: W bits, F of them after the point."""
    width: int
    places: int

    def __str__(self) -> str:
        return f"fix<{self.width},{self.places}>"

    @property
    def whole_bits(self) -> int:
        """The bits before the point, the sign among them."""
        return self.width - self.places

    @property
    def least(self) -> int:
        return -(1 << (self.width - 1))

    @property
    def greatest(self) -> int:
        return (1 << (self.width - 1)) - 1

    @property
    def step(self) -> float:
        """The value of the last bit."""
        return 2.0**-self.places

    def has(self, word: int) -> bool:
        return self.least <= word <= self.greatest

    def value(self, word: int) -> float:
        return word * self.step

    def nearest(self, value: float | Fraction) -> int:
        """The word that a source's number becomes: the nearest one, and up from the middle."""
        return math.floor(Fraction(value) * 2**self.places + Fraction(1, 2))

    def text(self, word: int) -> str:
        """The shortest decimal number that becomes this word."""
        exact = Fraction(word, 2**self.places)
        for digits in range(1, MOST_DIGITS):
            scaled = exact * 10**digits
            near = math.floor(abs(scaled) + Fraction(1, 2))
            signed = -near if word < 0 else near
            if self.nearest(Fraction(signed, 10**digits)) == word:
                return decimal(signed, digits)
        raise ValueError(f"{self} has words that no number of {MOST_DIGITS} digits becomes")


def decimal(number: int, digits: int) -> str:
    """A number of so many digits after the point."""
    text = f"{abs(number):0{digits + 1}d}"
    return ("-" if number < 0 else "") + f"{text[:-digits]}.{text[-digits:]}"


def numbers_of(words: str) -> tuple[int, int]:
    """The bits of a word, and those after its point, that `W,F` names."""
    found = re.fullmatch(r"(\d{1,2}),(\d{1,2})", words)
    if not found:
        raise ValueError(f"{words} is no shape W,F")
    width, places = map(int, found.groups())
    if not 1 <= width <= WIDEST or places > width:
        raise ValueError(
            f"fix<{width},{places}> is no type: it has 1 to {WIDEST} bits, and at most all after the point")
    return width, places


def shape_of(words: str) -> Shape:
    """The shape that `W,F` names."""
    return Shape(*numbers_of(words))


def bits_of(least: int, greatest: int) -> int:
    """The bits that words from the least to the greatest need in two's complement."""
    return 1 + max(greatest, -least - 1, 0).bit_length()
