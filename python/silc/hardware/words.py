"""Ranges of words, and the bits that hold them."""
from __future__ import annotations

from collections.abc import Iterable
from dataclasses import dataclass


@dataclass(frozen=True)
class Range:
    """The words from low to high."""
    low: int
    high: int

    def with_(self, other: Range | None) -> Range:
        """The least range that has both."""
        return Range(min(self.low, other.low), max(self.high, other.high)) if other else self

    def has(self, word: int) -> bool:
        return self.low <= word <= self.high

    def covers(self, other: Range) -> bool:
        return self.has(other.low) and self.has(other.high)

    def is_signed(self) -> bool:
        return self.low < 0

    def bits(self) -> int:
        """How many bits hold each of the words, in two's complement where some are negative."""
        most = max(self.high, ~self.low if self.low < 0 else 0)
        return max(1, most.bit_length() + self.is_signed())

    def cut(self, bits: int) -> Range:
        """These words, or where they have more bits than so many, what is left of them in these."""
        return self if self.bits() <= bits else of_width(bits)

    def signed_bits(self) -> int:
        """How many bits hold each of the words in two's complement."""
        return self.bits() + (not self.is_signed())


TRUTH = Range(0, 1)


def of_width(width: int) -> Range:
    """The words of a signal of this width; 0 is a truth value."""
    return Range(-(1 << (width - 1)), (1 << (width - 1)) - 1) if width else TRUTH


def of_words(words: Iterable[int]) -> Range:
    words = list(words)
    return Range(min(words), max(words))


def index_bits(count: int) -> int:
    """How many bits number this many things. One thing is numbered too."""
    return max(1, (count - 1).bit_length())
