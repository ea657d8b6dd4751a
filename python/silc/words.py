"""Words and rows: the types of ports, rows of raw words as the text of sample files (docs/SAMPLES.md), and real
numbers.

Rows are given as a NumPy array or as a list, and come back as what was given. A program with one input word takes rows
of the shape (n,) or (n, 1), one with k words (n, k); rows of one output word have the shape (n,), those of k words (n,
k). In lists a row of several words is a tuple.
"""
from __future__ import annotations

import json
import math
import operator
import struct
from collections.abc import Iterable, Iterator, Sequence
from dataclasses import dataclass
from functools import cache, cached_property
from itertools import chain
from typing import Any

from silc.designing.shapes import Shape

# A NumPy array or a list of rows.
Rows = Any
# As many rows become text at a time, and so many bytes of text become rows. The steps of NumPy are long enough that
# their beginnings do not count, and short enough that a thread that waits for the interpreter has it soon.
ROWS_AT_A_TIME, BYTES_AT_A_TIME = 1 << 15, 1 << 17
# So many digits of a number are written at once. A row of fewer than three digits would have others under them.
AT_ONCE, FEWEST = 4, 3
LEAST = -(1 << 63)


@dataclass(frozen=True, repr=False)
class Type:
    """The type of a word: fix<W,F> with how a sum is brought to it, or bool, which has no shape."""
    shape: Shape | None
    mode: str = "trunc"

    def __str__(self) -> str:
        if self.shape is None:
            return "bool"
        mode = "" if self.mode == "trunc" else f",{self.mode}"
        return f"fix<{self.shape.width},{self.shape.places}{mode}>"

    __repr__ = __str__

    @cached_property
    def raw(self) -> tuple[int, int]:
        """The least and the greatest raw word."""
        return (self.shape.least, self.shape.greatest) if self.shape else (0, 1)

    @cached_property
    def step(self) -> float:
        """The value of the raw word 1."""
        return float(self.shape.step) if self.shape else 1.0

    @property
    def real(self) -> tuple[float, float]:
        """The least and the greatest value."""
        least, greatest = self.raw
        return least * self.step, greatest * self.step

    def quantised(self, value: float) -> int:
        """The raw word next to a value, up from the middle; the least or the greatest where the value is beyond
        these."""
        least, greatest = self.raw
        return min(max(math.floor(value / self.step + 0.5), least), greatest)

    def as_json(self) -> dict[str, Any]:
        return {"type": str(self), "raw": list(self.raw), "real": list(self.real)}


@dataclass(frozen=True, repr=False)
class Port:
    """A word of a row: its name, as `x` or `x[2]`, and its type."""
    name: str
    type: Type

    def __str__(self) -> str:
        return f"{self.name} : {self.type}"

    __repr__ = __str__

    @property
    def raw(self) -> tuple[int, int]:
        """The least and the greatest raw word."""
        return self.type.raw

    @property
    def real(self) -> tuple[float, float]:
        """The least and the greatest value."""
        return self.type.real

    def as_json(self) -> dict[str, Any]:
        return {"name": self.name, **self.type.as_json()}


def numpy() -> Any:
    """The module NumPy, or nothing where it is not there."""
    try:
        import numpy as found
    except ImportError:
        return None
    return found


def is_array(rows: Rows) -> bool:
    """Whether rows are an array, or what NumPy makes one of."""
    return hasattr(rows, "__array__")


def check_columns(rows: Rows, columns: int) -> Rows:
    """An array of the shape (n, columns); `ValueError` where the rows have another one."""
    made = numpy().asarray(rows)
    if made.ndim == 1 and columns == 1:
        return made.reshape(-1, 1)
    if made.ndim != 2 or made.shape[1] != columns:
        raise ValueError(
            f"rows of the shape {made.shape} are given, and ({'n,' if columns == 1 else f'n, {columns}'}) is wanted")
    return made


def flat_list(rows: Iterable[Any], columns: int) -> list[int]:
    """The words of a list of rows in order; `TypeError` for what is no whole number."""
    listed = list(rows)
    kinds = set(map(type, listed))
    if kinds <= {int, bool}:
        if columns != 1 and listed:
            raise ValueError(f"the row {listed[0]!r} has one word, and {columns} are wanted")
        return listed
    if any(issubclass(kind, Sequence) for kind in kinds):
        for row in listed:
            if len(row) != columns:
                raise ValueError(f"the row {row!r} has {len(row)} words, and {columns} are wanted")
        listed = list(chain.from_iterable(listed))
    return list(map(operator.index, listed))


def words_of_list(rows: Sequence[Any], columns: int) -> Any:
    """The words of a list of rows in order, as an array of int64 where NumPy is there and one holds them. `struct`
    takes whole numbers of 64 bits alone, and tells in half the time of `flat_list`, which judges all others."""
    try:
        flat = rows if columns == 1 else list(chain.from_iterable(rows))
        packed = struct.pack(f"{len(flat)}q", *flat)
        is_plain = columns == 1 or set(map(len, rows)) == {columns}
    except (TypeError, struct.error):
        is_plain = False
    if not is_plain:
        return flat_list(rows, columns)
    module = numpy()
    return module.frombuffer(packed, dtype=module.int64) if module else flat


def text_of_words(words: Sequence[int], columns: int) -> bytes:
    """Words in order as the text of rows."""
    line = b",".join([b"%d"] * columns) + b"\n"
    return line * (len(words) // columns) % tuple(words)


@cache
def digits_of_numbers() -> Any:
    """The digits of each number of `AT_ONCE` of them, as a word of 32 bits."""
    text = "".join(f"{number:0{AT_ONCE}d}" for number in range(10**AT_ONCE))
    return numpy().frombuffer(text.encode("ascii"), dtype=numpy().uint32).copy()


def aligned_text(words: Any, columns: int) -> bytes:
    """The words of an array of int64 as the text of rows, all with as many digits: leading zeros are digits, and one
    stands in the place of a sign."""
    module, count = numpy(), len(words)
    most, is_signed = module.abs(words), bool((words < 0).any())
    digits = max(len(str(most.max())), FEWEST)
    width = is_signed + digits + 1
    # What stands before the first row is written to, and is none of it.
    room = module.empty(AT_ONCE - 1 + count * width, dtype=module.uint8)
    parts: list[Any] = []
    while digits > AT_ONCE * (len(parts) + 1):
        above = most // 10**AT_ONCE
        parts.append(most - above * 10**AT_ONCE)
        most = above
    # The highest digits come first, since what they write beside them is written again.
    for place, part in reversed([*enumerate([*parts, most])]):
        end = AT_ONCE - 1 + width - 1 - AT_ONCE * place
        module.ndarray(count, module.uint32, room, end - AT_ONCE, (width,))[...] = digits_of_numbers()[part]
    lines = room[AT_ONCE - 1:].reshape(count // columns, columns, width)
    if is_signed:
        lines[:, :, 0] = module.where(words < 0, ord("-"), ord("0")).reshape(-1, columns)
    lines[:, :, -1] = ord(",")
    lines[:, -1, -1] = ord("\n")
    return lines.tobytes()


def words_at(rows: Rows, columns: int) -> Iterator[Any]:
    """The words of rows in order, some rows at a time, as an array of int64 where one holds them, else as a list.
    `TypeError` where a word is no whole number."""
    if not is_array(rows):
        for start in range(0, len(rows), ROWS_AT_A_TIME):
            yield words_of_list(rows[start:start + ROWS_AT_A_TIME], columns)
        return
    whole = check_columns(rows, columns)
    if whole.dtype.kind not in "iub":
        raise TypeError(f"rows of {whole.dtype} are given, and raw words are whole numbers; real=True takes others")
    for start in range(0, len(whole), ROWS_AT_A_TIME):
        some = whole[start:start + ROWS_AT_A_TIME].ravel()
        yield some.tolist() if some.dtype == numpy().uint64 else some.astype(numpy().int64, copy=False)


def pieces_of(rows: Rows, columns: int) -> Iterator[bytes]:
    """A text of rows of so many words, some rows at a time, in which words may have leading zeros."""
    for words in words_at(rows, columns):
        if is_array(words) and words.min() > LEAST:
            yield aligned_text(words, columns)
        else:
            yield text_of_words(words, columns)


def text_of(rows: Rows, columns: int) -> bytes:
    """The text of rows of so many words, as a sample file has them that is written."""
    return b"".join(text_of_words(words.tolist() if is_array(words) else words, columns)
                    for words in words_at(rows, columns))


def numbers_in(text: str) -> list[int]:
    """The numbers between commas and ends of lines, by a reader that is fast, and has no leading zeros."""
    try:
        return json.loads(f"[{text}]".replace("\n", ","))
    except ValueError:
        return [int(word) for word in text.replace("\n", ",").split(",")]


class Reader:
    """Text of rows that a program writes, which becomes words, as an array or as a list."""

    def __init__(self, columns: int, wants_array: bool) -> None:
        self.columns, self.numpy, self.wants_array = columns, numpy(), wants_array
        self.left: list[bytes] = []
        self.size = 0
        # The words so far: arrays, or a list.
        self.parts: list[Any] = []
        self.flat: list[Any] = []

    def add(self, piece: bytes) -> None:
        """Takes a piece of text, wherever it is cut."""
        self.left.append(piece)
        self.size += len(piece)
        if self.size >= BYTES_AT_A_TIME:
            self.turn()

    def turn(self) -> None:
        """Turns the whole lines so far into words."""
        text = b"".join(self.left)
        end = text.rfind(b"\n") + 1
        if end and self.wants_array:
            self.parts.append(self.array_of(text[:end]))
        elif end:
            self.flat += self.array_of(text[:end]).tolist() if self.numpy else \
                numbers_in(text[:end - 1].decode("ascii"))
        self.left, self.size = [text[end:]], len(text) - end

    def array_of(self, text: bytes) -> Any:
        """The words of whole lines. A blank between two of them is any white space."""
        return self.numpy.fromstring(text if self.columns == 1 else text.replace(b",", b" "), dtype=self.numpy.int64,
                                     sep=" ")

    def rows(self) -> Rows:
        """All rows so far; the text has to end with a whole line."""
        self.turn()
        if self.wants_array:
            parts, self.parts = self.parts, []
            whole = self.numpy.concatenate(parts) if parts else self.numpy.empty(0, dtype=self.numpy.int64)
            return whole if self.columns == 1 else whole.reshape(-1, self.columns)
        flat, self.flat = self.flat, []
        return flat if self.columns == 1 else list(zip(*[iter(flat)] * self.columns))


def rows_of(text: bytes, columns: int, wants_array: bool) -> Rows:
    """The rows of a text that a program has written, as an array or as a list."""
    reader = Reader(columns, wants_array)
    reader.add(text)
    return reader.rows()


def quantised(rows: Rows, types: Sequence[Type]) -> Rows:
    """Rows of real numbers as rows of raw words: the next word, up from the middle, and the last of the range beyond
    it."""
    if is_array(rows):
        module, array = numpy(), check_columns(rows, len(types))
        steps = module.array([of.step for of in types])
        least, greatest = module.array([of.raw for of in types]).T
        return module.clip(module.floor(array / steps + 0.5), least, greatest).astype(module.int64)
    if len(types) == 1:
        return [types[0].quantised(row if isinstance(row, (int, float)) else row[0]) for row in rows]
    return [tuple(of.quantised(value) for of, value in zip(types, row, strict=True)) for row in rows]


def scaled(rows: Rows, types: Sequence[Type]) -> Rows:
    """Rows of raw words as rows of values."""
    if is_array(rows):
        steps = numpy().array([of.step for of in types])
        return rows * (steps[0] if rows.ndim == 1 else steps)
    steps = [of.step for of in types]
    if len(steps) == 1:
        step, = steps
        return [row * step for row in rows]
    return [tuple(word * step for step, word in zip(steps, row, strict=True)) for row in rows]


def tuples(rows: Rows, columns: int) -> list[tuple[int, ...]]:
    """Rows as a list of tuples, one for each row, of any count of words."""
    if is_array(rows):
        return list(map(tuple, check_columns(rows, columns).tolist()))
    flat = flat_list(rows, columns)
    return list(zip(*[iter(flat)] * columns))
