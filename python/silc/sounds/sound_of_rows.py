"""The sound of rows."""
import re
import struct
from collections.abc import Iterator, Sequence
from typing import IO

from silc.sounds.shapes import Shape, pcm_shape
from silc.sounds.streams import PIECE, pieces
from silc.sounds.wav import CHANNELS, head_with, samples_in
from silc.words import numbers_in

ROW = re.compile(rb"-?[0-9]+(?:,-?[0-9]+)*")
# What a row has between its commas and its end.
IN_WORDS = b"-0123456789"


def blocks_of(source: IO[bytes]) -> Iterator[bytes]:
    """The lines, as many at once as are there. The last one may lack its end."""
    rest = b""
    for piece in pieces(source):
        lines, end, rest = (rest + piece).rpartition(b"\n")
        if end:
            yield lines + end
        if len(rest) > PIECE:
            raise ValueError(f"a line of more than {PIECE} bytes")
    if rest:
        yield rest + b"\n"


def channels_of(text: str) -> list[int]:
    """The columns of rows that are the channels, from 1 on."""
    if not re.fullmatch(r"[1-9]\d{0,3}(,[1-9]\d{0,3})?", text):
        raise ValueError(f"{text} is not one or two columns, as 2 or 1,3")
    return [int(word) for word in text.split(",")]


class Sound:
    """The sound of rows. How many words these have, and so how many channels it has, is known once there is a row."""

    def __init__(self, shape: Shape, rate: int, width: int, columns: list[int] | None = None):
        self.shape, self.rate, self.own, self.columns = shape, rate, pcm_shape(width), columns
        self.row = 0
        self.count: int | None = None
        # The ends of the range that have to be looked at: what is beyond the others has no sample either.
        beyond = self.own.nearest([shape.low - 1, shape.high + 1], shape)
        self.ends = [end for end, word in zip((min, max), beyond) if self.own.has(word)]

    def parts(self, source: IO[bytes]) -> Iterator[bytes]:
        for block in blocks_of(source):
            made = self.of_block(block)
            yield from self.line_by_line(block) if made is None else [made]

    def of_block(self, block: bytes) -> bytes | None:
        """The samples of rows, all at once, or nothing where one of them may be none."""
        text = block.replace(b"\r\n", b"\n")
        between = text.translate(None, IN_WORDS)
        count = self.count or between.index(b"\n") + 1
        rows = len(between) // count
        if between != (b"," * (count - 1) + b"\n") * rows or max(self.taken(count)) > count:
            return None
        try:
            words = numbers_in(text[:-1].decode())
            given = self.channels(words, count)
            made = samples_in(self.own.nearest(given, self.shape), self.own.width)
        except (ValueError, struct.error):
            return None
        if len(words) != rows * count or not all(self.shape.has(end(given)) for end in self.ends):
            return None
        self.count, self.row = count, self.row + rows
        return made

    def taken(self, count: int) -> Sequence[int]:
        """The columns that become channels, of so many. Without a choice all do, and there are no more than
        channels."""
        return self.columns or range(1, count + 1 if count <= len(CHANNELS) else count + 2)

    def channels(self, words: list[int], count: int) -> list[int]:
        """The words of the channels, row by row, from those of all columns."""
        if not self.columns:
            return words
        made = [0] * (len(words) // count * len(self.columns))
        for place, column in enumerate(self.columns):
            made[place :: len(self.columns)] = words[column - 1 :: count]
        return made

    def line_by_line(self, block: bytes) -> Iterator[bytes]:
        """The samples of rows up to one that is refused, and then why."""
        made: list[bytes] = []
        refused: ValueError | None = None
        try:
            for line in block[:-1].split(b"\n"):
                self.row += 1
                words = self.words(line.removesuffix(b"\r"))
                made.append(samples_in([self.own.word(word, self.shape, self.row) for word in words], self.own.width))
        except ValueError as fault:
            refused = fault
        if made:
            yield b"".join(made)
        if refused:
            raise refused

    def words(self, line: bytes) -> list[int]:
        """The words of a row that become samples."""
        what = "a row of words" if self.columns else "one or two words"
        if not ROW.fullmatch(line) or not self.columns and line.count(b",") >= len(CHANNELS):
            raise ValueError(f"row {self.row}: {line.decode(errors='replace')!r} is not {what}")
        words = [int(word) for word in line.split(b",")]
        count = self.count = self.count or len(words)
        if len(words) != count:
            raise ValueError(f"row {self.row} has {len(words)} words, and row 1 has {count}")
        last = max(self.taken(count))
        if last > count:
            raise ValueError(f"column {last}, and row {self.row} has {count} word" + "s" * (count > 1))
        words = self.channels(words, count)
        if not self.shape.has_all(words):
            raise ValueError(f"row {self.row}: {line.decode()} is out of the range of {self.shape}")
        return words

    def head(self, length: int) -> bytes:
        """What stands before so many bytes of samples."""
        return head_with(len(self.columns or ()) or self.count or CHANNELS[0], self.own.width, self.rate, length)
