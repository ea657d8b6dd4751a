"""Random sample files, in the ways in which rows may be written, and ones that are no rows."""
from random import Random
from typing import TypeAlias

from silc.fuzzing import damage
from silc.fuzzing.expressions import Type


# Rows of raw words.
Rows: TypeAlias = list[list[int]]


def word_of(rng: Random, type_: Type) -> int:
    near = [type_.least, type_.greatest, 0, 1 if type_.greatest else 0, rng.randint(type_.least, type_.greatest)]
    return rng.choice(near + [rng.randint(type_.least, type_.greatest)] * 3)


def rows_of(rng: Random, channels: list[Type], most: int = 24) -> Rows:
    return [[word_of(rng, type_) for type_ in channels] for _ in range(rng.choice([0, 1, 2, most, most]))]


def spelled(rng: Random, word: int, is_plain: bool) -> str:
    """A word in decimal; else perhaps with zeros in front, or as -0."""
    if is_plain or rng.random() < 0.8:
        return str(word)
    if word == 0:
        return rng.choice(["-0", "00", "-000"])
    return ("-" if word < 0 else "") + "0" * rng.choice([1, 2, 30]) + str(abs(word))


def text_of(rng: Random, rows: Rows, is_plain: bool = False) -> bytes:
    """A sample file of the rows."""
    is_plain = is_plain or rng.random() < 0.5
    lines = [",".join(spelled(rng, word, is_plain) for word in row) for row in rows]
    ends = ["\n"] if is_plain else ["\n", "\r\n"]
    text = "".join(line + rng.choice(ends) for line in lines)
    return (text if is_plain or rng.random() < 0.7 else text.removesuffix("\n").removesuffix("\r")).encode()


def plain(rows: Rows) -> bytes:
    """The rows as they are written."""
    return "".join(",".join(map(str, row)) + "\n" for row in rows).encode()


def out_of_range(rng: Random, data: bytes, channels: list[Type]) -> bytes:
    """The file with a word in the place of another that is just out of the range of a channel."""
    type_ = rng.choice(channels)
    lines = data.splitlines(keepends=True)
    if not lines:
        return b"\n"
    at = rng.randrange(len(lines))
    words = lines[at].strip().split(b",")
    words[rng.randrange(len(words))] = str(rng.choice([type_.least - 1, type_.greatest + 1, 2 ** 63,
                                                       10 ** 30])).encode()
    lines[at] = b",".join(words) + b"\n"
    return b"".join(lines)


def damaged(rng: Random, data: bytes, channels: list[Type]) -> bytes:
    ways = [damage.of_bytes, damage.of_bytes, damage.of_numbers, damage.of_lines,
            lambda rng, data: out_of_range(rng, data, channels)]
    return rng.choice(ways)(rng, data)
