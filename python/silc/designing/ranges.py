"""How much of its range each element uses: on samples, or on any input."""
from collections.abc import Iterable, Sequence
from dataclasses import dataclass
from typing import Any

from silc.designing.overflows import levels_of
from silc.designing.shapes import Shape, bits_of
from silc.designing.worst import Worst, worst_of

# Words from here on are told roughly.
LONGEST = 10**20


@dataclass
class Range:
    """An element with the least and the greatest word that it has or needs, the bits that these need, and what there is
    to say of it."""
    name: str
    shape: Shape
    least: int
    greatest: int
    needed: int
    said: str

    @property
    def left(self) -> int:
        """The bits of its type that it does not need."""
        return self.shape.width - self.needed

    @property
    def share(self) -> float:
        """How much of the range is used."""
        return max(self.greatest / self.shape.greatest if self.shape.greatest else 1.0, self.least / self.shape.least)

    def row(self) -> tuple[str, ...]:
        """Its line of a table."""
        value = self.shape.value
        return (self.name, str(self.shape), f"{said_of_word(self.least)} .. {said_of_word(self.greatest)}",
                f"{value(self.least):.6g} .. {value(self.greatest):.6g}", str(self.needed), str(self.left),
                f"{100 * self.share:.1f}%", self.said)

    def as_json(self) -> dict[str, Any]:
        """What is known of it, as docs/PYTHON.md has it."""
        return {"name": self.name, "type": str(self.shape), "raw": [self.least, self.greatest],
                "real": [self.shape.value(self.least), self.shape.value(self.greatest)], "bits": self.needed,
                "left": self.left, "share": self.share, "said": self.said}


def said_of_word(word: int) -> str:
    """A word, or about how great it is where it has very many digits."""
    return str(word) if abs(word) < LONGEST else f"{word:.6e}"


def range_over(each: Any, said: str) -> Range:
    """The range from the least to the greatest word of an element."""
    return Range(each.name, each.shape, each.least, each.greatest, bits_of(each.least, each.greatest), said)


def ranges_on(source: str, rows: Sequence[tuple[int, ...]], wraps: Iterable[str] = (),
              is_all: bool = False) -> tuple[list[Range], bool]:
    """The ranges of all elements over the rows, but of those that never change without `is_all`, and whether an
    overflow may have come back by feedback."""
    levels, is_fed_back = levels_of(source, rows, wraps)
    return [range_over(each, each.said(not is_fed_back)) for each in levels
            if each.shape and (is_all or each.is_changing)], is_fed_back


def ranges_in(bounds: Iterable[Any], is_all: bool = False) -> list[Range]:
    """The ranges that bounds are, but of elements that never move without `is_all`."""
    return [range_over(bound, bound.said) for bound in bounds if is_all or bound.is_moved and not bound.is_nothing()]


def bounds_within(source: str, seconds: float, is_all: bool = False) -> list[Range]:
    """The bounds of all elements on any input, as tight as they become in so many seconds."""
    worst: Worst = worst_of(source, seconds)
    return ranges_in(worst.bounds(), is_all)
