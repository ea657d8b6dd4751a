"""What each element of a program needs on samples, and where it wraps or saturates: by its exact words, which nothing
brings to a width, beside those that it has."""
import re
import sys
import time
from collections.abc import Iterable, Sequence

from silc.designing.flat import FlatElement, flat_of
from silc.designing.programs import Unrun, evaluated
from silc.designing.unbounded import Passed, Run, own_run, unbounded_run
from silc.sure import sure

WRAPS, SATURATES, FOLLOWS, INSIDE, MEANT = "wraps", "saturates", "follows", "overflows inside", "meant to wrap"
# As many samples are gone over at a time.
BLOCK = 4096
SECONDS_BETWEEN = 5


def is_named(name: str, pattern: str) -> bool:
    """Whether a pattern names an element, or the array that it is in. `*` in it stands for anything."""
    wanted = ".*".join(map(re.escape, pattern.split("*")))
    return re.fullmatch(rf"{wanted}(\[\d+\])*", name) is not None


def numbers_named(elements: Sequence[FlatElement], patterns: Iterable[str]) -> frozenset[int]:
    """The elements that are meant to wrap. `ValueError` tells a pattern that names none."""
    made = set()
    for pattern in patterns:
        named = [number for number, each in enumerate(elements) if each.shape and is_named(each.name, pattern)]
        if not named:
            raise ValueError(f"no element of numbers is called {pattern}")
        made.update(named)
    return frozenset(made)


class Places:
    """The samples at which something happens: the first of them, from 1, and how many there are."""

    def __init__(self) -> None:
        self.first: int | None = None
        self.count = 0

    def add(self, start: int, places: list[int]) -> None:
        if places and self.first is None:
            self.first = start + places[0] + 1
        self.count += len(places)

    def said(self, kind: str, is_counted: bool) -> str:
        return f"{kind} at sample {self.first}" + (f", {self.count} in all" if is_counted else "")


class Tally:
    """What became of an element so far, by its own words and the exact ones."""

    def __init__(self, number: int, each: FlatElement) -> None:
        self.number, self.name, self.shape, self.reads = number, each.name, each.shape, each.reads()
        # Of its own words so far the first one, and of the exact ones the least and the greatest.
        self.own: int | None = None
        self.least: int | None = None
        self.greatest: int | None = None
        self.is_changing, self.kind = False, WRAPS
        self.passing, self.inside, self.others, self.meant = Places(), Places(), Places(), Places()

    def add(self, own: Run, exact: Run, start: int) -> None:
        """Adds a block of samples of a run of the program and of one with exact words."""
        words, others = exact.block(self.number), own.block(self.number)
        self.least = min(words) if self.least is None else min(self.least, *words)
        self.greatest = max(words) if self.greatest is None else max(self.greatest, *words)
        self.own = others[0] if self.own is None else self.own
        self.is_changing |= words != others or others.count(self.own) < len(others)
        if words != others:
            self.differ(words, others, own, exact, start)
        if before := exact.exact.get(self.number):
            self.meant.add(start, [n for n, word in enumerate(before) if not sure(self.shape).has(word)])

    def differ(self, words: list[int], others: list[int], own: Run, exact: Run, start: int) -> None:
        places = [n for n, (word, other) in enumerate(zip(words, others)) if word != other]
        passing = [n for n in places if self.shape and not self.shape.has(words[n])]
        if self.shape and passing and self.passing.first is None:
            nearest = max(self.shape.least, min(self.shape.greatest, words[passing[0]]))
            self.kind = SATURATES if others[passing[0]] == nearest else WRAPS
        self.passing.add(start, passing)
        self.others.add(start, places)
        self.inside.add(start, [n for n in places if self.is_from_itself(own, exact, n)])

    def is_from_itself(self, own: Run, exact: Run, n: int) -> bool:
        """Whether all that the element reads for a sample is exact."""
        return all(own.words[read][n + own.before[read] - delay] == exact.words[read][n + exact.before[read] - delay]
                   for read, delay in self.reads)

    def said(self, is_counted: bool) -> str:
        kinds = {self.kind: self.passing, INSIDE: self.inside, FOLLOWS: self.others, MEANT: self.meant}
        return next((places.said(kind, is_counted or kind is MEANT) for kind, places in kinds.items() if places.count),
                    "")


def among_loops(elements: Sequence[FlatElement]) -> set[int]:
    """The elements that depend on themselves by some delays, and those on the way from one such loop to another."""
    left = set(range(len(elements)))
    reads = {number: {read for read, _ in each.reads()} for number, each in enumerate(elements)}
    while True:
        read = set().union(*(reads[number] for number in left))
        kept = {number for number in left & read if reads[number] & left}
        if kept == left:
            return left
        left = kept


def levels_of(source: str, rows: Sequence[tuple[int, ...]], patterns: Iterable[str]) -> tuple[list[Tally], bool]:
    """The tallies of all elements of a program, and whether an overflow may have come back by feedback."""
    put, flat = evaluated(source, rows), flat_of(source)
    elements = flat.elements
    own, exact = own_run(elements), unbounded_run(elements, numbers_named(elements, patterns))
    tallies, began = [Tally(number, each) for number, each in enumerate(elements)], time.monotonic()
    for start in range(0, len(rows), BLOCK):
        for run in (own, exact):
            run.over(rows[start : start + BLOCK])
        if list(zip(*map(own.block, flat.outputs))) != put[start : start + BLOCK]:
            raise Unrun("its words are not the rows of silc eval, which is a fault of this tool")
        for tally in tallies:
            tally.add(own, exact, start)
        began = tell(began, start, len(rows))
    return tallies, any(tallies[number].others.count for number in among_loops(elements))


def passing_samples(source: str, rows: Sequence[tuple[int, ...]], put: Sequence[tuple[int, ...]]) -> int | None:
    """At how many samples the rows of a program are others than without wraps and saturation; nothing where a word
    without them grows too large."""
    flat, count = flat_of(source), 0
    exact = unbounded_run(flat.elements, frozenset())
    try:
        for start in range(0, len(rows), BLOCK):
            exact.over(rows[start : start + BLOCK])
            columns = zip(*map(exact.block, flat.outputs))
            count += sum(row != other for row, other in zip(put[start : start + BLOCK], columns))
    except Passed:
        return None
    return count


def tell(began: float, start: int, count: int) -> float:
    """Says how far it is, where it was not said for some seconds; gives the time of the last that was said."""
    if time.monotonic() < began + SECONDS_BETWEEN:
        return began
    print(f"ranges: {min(start + BLOCK, count)} of {count} samples", file=sys.stderr, flush=True)
    return time.monotonic()
