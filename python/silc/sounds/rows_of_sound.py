"""The rows of a sound."""
import re
from collections.abc import Iterator, Sequence
from typing import IO

from silc.sounds.shapes import WIDEST, Shape, pcm_shape
from silc.sounds.streams import skip
from silc.sounds.wav import head_of, samples_of, words_in

# A column of the rows: a channel by its number, or a word that is the same in each row.
COLUMN = re.compile(r"([1-9]\d?)|=(-?\d{1,13})")


class Columns:
    """What the rows have, column by column: channels by their numbers from 1 on, and texts that stand for
    themselves."""

    def __init__(self, parts: list):
        self.parts = parts
        self.channels = [part for part in parts if isinstance(part, int)]

    def line(self) -> str:
        """The format of a row, for the words of its channels."""
        return ",".join("%d" if isinstance(part, int) else part for part in self.parts) + "\n"

    def of(self, words: Sequence[int], count: int) -> Sequence[int]:
        """The words of the channels that the rows have, from those of all channels."""
        if self.channels == list(range(1, count + 1)):
            return words
        made = [0] * (len(words) // count * len(self.channels))
        for place, channel in enumerate(self.channels):
            made[place :: len(self.channels)] = words[channel - 1 :: count]
        return made


def columns_of(text: str) -> Columns:
    parts = []
    for part in text.split(","):
        found = COLUMN.fullmatch(part)
        word = int(found[2] or 0) if found else 0
        if not found or not -(1 << (WIDEST - 1)) <= word < 1 << (WIDEST - 1):
            raise ValueError(f"{part} is no column, as 1 for a channel or =100 for a word of {WIDEST} bits at most")
        parts.append(int(found[1]) if found[1] else str(word))
    if not any(isinstance(part, int) for part in parts):
        raise ValueError(f"{text} has no channel")
    return Columns(parts)


class Rows:
    """The rows of a sound, in blocks."""

    def __init__(self, shape: Shape, columns: Columns | None = None):
        self.shape, self.columns, self.row = shape, columns, 0

    def parts(self, source: IO[bytes]) -> Iterator[bytes]:
        count, width, length = head_of(source)
        columns = self.columns or Columns(list(range(1, count + 1)))
        if max(columns.channels) > count:
            raise ValueError(f"column {max(columns.channels)}, and the sound has {count} channel" + "s" * (count > 1))
        for data in samples_of(source, length, count * width // 8):
            yield from self.printed(columns.of(words_in(data, width), count), columns, pcm_shape(width))
        skip(source)

    def printed(self, words: Sequence[int], columns: Columns, own: Shape) -> Iterator[bytes]:
        """The rows of a block. Those before a word that is refused come first."""
        in_row = len(columns.channels)
        wrong = None
        if not self.shape.takes_every(own) and not self.shape.takes(words, own):
            wrong = next(word for word in enumerate(words) if not self.shape.takes([word[1]], own))
            words = words[: wrong[0] // in_row * in_row]
        if words:
            count = len(words) // in_row
            yield (columns.line() * count % tuple(self.shape.nearest(words, own))).encode()
            self.row += count
        if wrong:
            self.shape.word(wrong[1], own, self.row + 1)
