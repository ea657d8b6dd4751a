"""Rows that show whether two filters are the same where nothing is known of either: rest, impulses, steps, and rows
that a seed gives."""
from collections.abc import Iterator
from random import Random
from typing import NamedTuple

# Rows of raw words.
Rows = list[list[int]]


class Excitation(NamedTuple):
    """Rows, and how they are named."""
    name: str
    rows: Rows


def range_of(width: int) -> tuple[int, int]:
    """The least and the greatest word of an input of so many bits, or of a truth value, which has width 0."""
    return (0, 1) if width == 0 else (-(1 << width - 1), (1 << width - 1) - 1)


def impulses(widths: list[int], count: int) -> Iterator[Excitation]:
    """A greatest and a least word at each input, in row 0 alone."""
    for number, width in enumerate(widths):
        for word in sorted(set(range_of(width)), reverse=True):
            if word:
                row = [word if other == number else 0 for other in range(len(widths))]
                yield Excitation(f"an impulse of {word} at input {number}",
                                 [row, *([0] * len(widths) for _ in range(count - 1))])


def steps(widths: list[int], count: int) -> Iterator[Excitation]:
    """The greatest words in all rows, the least ones, and both in turn."""
    least, greatest = ([range_of(width)[end] for width in widths] for end in (0, 1))
    yield Excitation("the greatest words", [list(greatest) for _ in range(count)])
    yield Excitation("the least words", [list(least) for _ in range(count)])
    yield Excitation("greatest and least words in turn",
                     [list(least if number % 2 else greatest) for number in range(count)])


def pseudorandom(widths: list[int], count: int, seed: int) -> Excitation:
    """Words over their whole ranges, each as often as any other."""
    rng = Random(seed)
    return Excitation(f"random words of seed {seed}",
                      [[rng.randint(*range_of(width)) for width in widths] for _ in range(count)])


def excitations(widths: list[int], count: int, seeds: int) -> Iterator[Excitation]:
    """All of them: so many rows each, and random ones of as many seeds."""
    yield Excitation("zeros", [[0] * len(widths) for _ in range(count)])
    yield from impulses(widths, count)
    yield from steps(widths, count)
    for seed in range(seeds):
        yield pseudorandom(widths, count, seed)


def text_of(rows: Rows) -> bytes:
    """The rows as a sample file."""
    return "".join(",".join(map(str, row)) + "\n" for row in rows).encode()
