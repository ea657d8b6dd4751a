"""Responses of a linear system to impulses, sample by sample in whole numbers, and what is in flight at their end.

A word is a whole number of units of 2^-places, cut toward 0 where it has more places. That is an error of less than a
unit and acts as one more input of the node, and `cuts` counts them. So the response that is summed here is the exact
one of the kicks and of these inputs together.
"""
from collections.abc import Iterable
from fractions import Fraction

from silc.designing.systems import System

# A kick: what is put into a node at a sample.
Kick = tuple[int, int, Fraction]


class Response:
    """The response to kicks (rank, sample, amount) up to a sample, as sums of its positive words and of its negative
    ones."""

    def __init__(self, system: System, kicks: Iterable[Kick], places: int):
        self.system, self.places, self.time = system, places, 0
        size = len(system)
        self.positive, self.negative, self.cuts = [0] * size, [0] * size, [0] * size
        self.coming: dict[int, list[int]] = {}
        for rank, sample, amount in kicks:
            number = amount * (1 << places + system.shift[rank])
            if number.denominator > 1:
                raise ValueError("a kick has more places than the words")
            self.coming.setdefault(sample, [0] * size)[rank] += int(number)

    @property
    def is_over(self) -> bool:
        """Whether nothing is in flight."""
        return not self.coming

    def advance(self, end: int) -> None:
        """Goes on up to the sample `end`, or to that after which nothing comes."""
        coming = self.coming
        for n in range(self.time, end):
            words = coming.pop(n, None)
            if words is not None:
                self.step(n, words)
            elif not coming:
                break
        self.time = end

    def step(self, n: int, words: list[int]) -> None:
        """Evaluates the nodes at a sample, of which `words` has what comes into them."""
        coming, system = self.coming, self.system
        now, later, shift, masks = system.now, system.later, system.shift, system.masks
        for rank, total in enumerate(words):
            if not total:
                continue
            places = shift[rank]
            if total > 0:
                word = total >> places
                self.positive[rank] += word
            else:
                word = -(-total >> places)
                self.negative[rank] -= word
            if total & masks[rank]:
                self.cuts[rank] += 1
            words[rank] = word
            for target, number in now[rank]:
                words[target] += number * word
            for delay, target, number in later[rank]:
                there = coming.get(n + delay)
                if there is None:
                    there = coming[n + delay] = [0] * len(now)
                there[target] += number * word

    def run(self, end: int, watched: int) -> list[int]:
        """The words of one node up to a sample."""
        made = [0] * (end - self.time)
        for n in range(self.time, end):
            words = self.coming.pop(n, None)
            if words is not None:
                self.step(n, words)
                made[n - end] = words[watched]
        self.time = end
        return made

    def flying(self) -> dict[int, tuple[int, int]]:
        """What comes into each node after the last sample above 0 and below it, in units of 2^-places over its
        denominator."""
        made: dict[int, tuple[int, int]] = {}
        for words in self.coming.values():
            for rank, total in enumerate(words):
                if total:
                    above, below = made.get(rank, (0, 0))
                    made[rank] = (above + total, below) if total > 0 else (above, below - total)
        return made

    def in_flight(self) -> dict[tuple[int, int], Fraction]:
        """What comes into each node after the last sample, by the node and how many samples after it."""
        made = {}
        for sample, words in self.coming.items():
            for rank, total in enumerate(words):
                if total:
                    made[rank, sample - self.time] = Fraction(total, 1 << self.places + self.system.shift[rank])
        return made
