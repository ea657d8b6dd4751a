"""Control words on the serial line of a board's top: the bytes by which a host writes them.

A byte has eight bits on the line, the lowest first, behind a start bit and before one stop bit. 0ddddddd brings seven
bits of a word, the highest first; 10rrrrrr makes what came the next control word r; and 11000000 hands all next words
to the core, from one row on.
"""
from __future__ import annotations

from collections.abc import Iterable, Iterator, Mapping

# So many control words have a number, and a shift register has so many bits at least.
MOST_WORDS, LEAST_BITS = 64, 8
DIGIT, WRITE, HAND_ON = 7, 0x80, 0xC0
# The bits of a byte on the line: a start bit, eight of its own, and a stop bit.
LINE_BITS = 10


def digits_of(word: int, bits: int) -> list[int]:
    """The bytes that bring a word of so many bits, in two's complement."""
    count = max(1, -(-bits // DIGIT))
    mask = (1 << DIGIT) - 1
    return [word >> DIGIT * place & mask for place in reversed(range(count))]


def bytes_of(words: Mapping[int, int], bits: Mapping[int, int]) -> bytes:
    """The bytes that write some control words, by their numbers, each of so many bits, all from one row on."""
    made: list[int] = []
    for number, word in words.items():
        if not 0 <= number < MOST_WORDS:
            raise ValueError(f"{number} is no number of a control word")
        made += [*digits_of(word, bits[number]), WRITE + number]
    return bytes([*made, HAND_ON])


def changes(rows: Iterable[tuple[int, ...]], before: tuple[int, ...]) -> Iterator[tuple[int, dict[int, int]]]:
    """The rows whose control words are others than before, each with those that changed."""
    for place, row in enumerate(rows):
        made = {number: word for number, (word, last) in enumerate(zip(row, before)) if word != last}
        if made:
            yield place, made
        before = row
