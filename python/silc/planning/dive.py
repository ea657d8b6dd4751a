"""Dives: nodes get their cycles one after another, and after each the windows of all others are narrowed.

So most of what would be in the way of a node is seen before it is placed, and a dive seldom has to go back. Where it
has to, the node weighs more, and is placed earlier by the dives that follow.
"""
from __future__ import annotations

import time
from collections.abc import Callable
from random import Random

from silc.planning.narrow import Narrowed
from silc.planning.windows import TooShort

# The node that is next, the least first, by its window and some chance.
Order = Callable[[int, int, float], tuple[float, ...]]
# After so many cycles that were wrong a dive begins anew, in another order.
MOST_WRONG = 60
# So many cycles sooner a node is taken for each cycle of it that was wrong.
WEIGHT = 0.5
NOISE = (0.5, 1.0, 2.0, 4.0, 8.0, 16.0)


def soonest(first: int, last: int, chance: float) -> tuple[float, ...]:
    return first, last + chance


def latest(first: int, last: int, chance: float) -> tuple[float, ...]:
    return -last, -first - chance


def narrowest(first: int, last: int, chance: float) -> tuple[float, ...]:
    return last - first + chance, first


def urgent(first: int, last: int, chance: float) -> tuple[float, ...]:
    return last + chance, first


# Each order; that of the latest begins at the end of the sample.
ORDERS: tuple[Order, ...] = (soonest, latest, narrowest, urgent)


class Dive:
    """One dive. It may be gone on with until it is over, with a cycle for each node or without."""

    def __init__(self, narrowed: Narrowed, weight: list[int], rng: Random, turn: int) -> None:
        """The weights of the nodes grow."""
        self.narrowed, self.weight = narrowed, weight
        self.first, self.last = narrowed.windows()
        self.order = ORDERS[turn % len(ORDERS)]
        noise = 0.0 if turn < len(ORDERS) else rng.choice(NOISE)
        self.chance = [noise * rng.random() - WEIGHT * weight for weight in self.weight]
        # What was there before each choice.
        self.before: list[tuple[list[int], list[int], int]] = []
        self.wrong, self.is_over = 0, False

    def go_on(self, until: float) -> list[int] | None:
        """Goes on up to a time. The cycles, or nothing so far."""
        while not self.is_over and time.monotonic() < until:
            open_nodes = [v for v, (begin, end) in enumerate(zip(self.first, self.last)) if begin < end]
            if not open_nodes:
                self.is_over = True
                return self.first
            v = min(open_nodes, key=lambda v: self.order(self.first[v], self.last[v], self.chance[v]))
            self.before.append((self.first[:], self.last[:], v))
            cycle = self.last[v] if self.order is latest else self.first[v]
            if not self.stands(v, cycle, cycle):
                self.weight[v] += 1
                self.go_back()
        return None

    def stands(self, v: int, begin: int, end: int) -> bool:
        """Gives a node a window, and says whether each other keeps one."""
        self.first[v], self.last[v] = begin, end
        try:
            self.narrowed.settle(self.first, self.last, [v])
        except TooShort:
            return False
        return True

    def go_back(self) -> None:
        """Takes back the last choices that leave a window empty, each without the cycle that was chosen."""
        while self.before and self.wrong < MOST_WRONG:
            self.wrong += 1
            self.first, self.last, v = self.before.pop()
            begin, end = self.first[v], self.last[v]
            if self.stands(v, *((begin, end - 1) if self.order is latest else (begin + 1, end))):
                return
        self.is_over = True
