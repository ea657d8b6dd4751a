"""Texts that are made of parts of files: where each character is from."""
from __future__ import annotations

from bisect import bisect_right
from collections.abc import Iterable, Iterator
from dataclasses import dataclass
from itertools import accumulate

from silc.linking.places import File


@dataclass(frozen=True)
class Piece:
    """A part of a file as it stands there, from one place to another, or a text in the place of that. What is of no
    file is added."""
    text: str
    file: File | None = None
    at: int = 0
    end: int = 0

    def is_kept(self) -> bool:
        return self.file is not None and self.text == self.file.text[self.at:self.end]

    def part(self, start: int, end: int) -> Piece:
        """A part of it. Of a text that stands in the place of another each part stands there."""
        if not self.is_kept():
            return Piece(self.text[start:end], self.file, self.at, self.end)
        return Piece(self.text[start:end], self.file, self.at + start, self.at + end)


@dataclass(frozen=True)
class Origin:
    """Where a part of a text is from: the file and the places in it, and whether it stands there letter by letter."""
    file: File
    at: int
    end: int
    is_kept: bool


class Traced:
    """A text by its pieces."""

    def __init__(self, pieces: Iterable[Piece] = ()) -> None:
        self.pieces = [piece for piece in pieces if piece.text]
        self.text = "".join(piece.text for piece in self.pieces)
        self.starts = list(accumulate((len(piece.text) for piece in self.pieces), initial=0))[:-1]

    def __len__(self) -> int:
        return len(self.text)

    def within(self, start: int, end: int) -> Iterator[Piece]:
        """The pieces from one place to another."""
        first = max(bisect_right(self.starts, start) - 1, 0)
        for began, piece in zip(self.starts[first:], self.pieces[first:]):
            if began >= end:
                return
            low, high = max(start - began, 0), min(end - began, len(piece.text))
            if low < high:
                yield piece.part(low, high)

    def written(self, start: int, end: int, text: str) -> Piece:
        """A text in the place of what stands from one place to another."""
        origin = self.origin(start, end)
        return Piece(text, origin.file, origin.at, origin.end) if origin else Piece(text)

    def origin(self, start: int, end: int) -> Origin | None:
        """Where a part is from: of parts of several files the first, and of one that is added what stands before it."""
        stop = max(end, start + 1)
        found = [piece for piece in self.within(start, stop) if piece.file]
        if not found or found[0].file is None:
            return self.before(start)
        file, own = found[0].file, [piece for piece in found if piece.file is found[0].file]
        first, last = own[0].at, max(piece.end for piece in own)
        is_kept = all(piece.is_kept() for piece in own) and last - first == stop - start
        return Origin(file, first, first if end == start and is_kept else last, is_kept)

    def before(self, place: int) -> Origin | None:
        """Where what stands before a place ends in its file."""
        ends = (piece for began, piece in zip(reversed(self.starts), reversed(self.pieces)) if piece.file
                and began < place)
        piece = next(ends, None)
        return Origin(piece.file, piece.end, piece.end, False) if piece and piece.file else None

    def place_of(self, file: File, at: int) -> int | None:
        """The first place of the text that is from a place of a file, or nothing where none is."""
        for began, piece in zip(self.starts, self.pieces):
            if piece.file is file and (piece.at <= at < piece.end or piece.at == at):
                return began + (at - piece.at if piece.is_kept() else 0)
        return None


def joined(parts: Iterable[Traced | str], between: str = "") -> Traced:
    """Texts one after another; those without pieces are added."""
    pieces: list[Piece] = []
    for number, part in enumerate(parts):
        if number and between:
            pieces.append(Piece(between))
        pieces += part.pieces if isinstance(part, Traced) else [Piece(part)]
    return Traced(pieces)


def of_file(file: File, start: int, end: int) -> Traced:
    """A part of a file as it stands there."""
    return Traced([Piece(file.text[start:end], file, start, end)])
