"""Cycles as columns, broken into lines of columns that are as wide as a screen."""
from collections.abc import Collection

from silc.pictures.picture import BLACK, BLUE, FAINT, GREY, MARGIN, Picture

WIDTH, NAMES = 1104, 84
LEFT = MARGIN + NAMES
HEAD, FOOT, BETWEEN = 44, 34, 18
# The width of a column where there are many, and how high the numbers above a line are, with those of its periods.
NARROW, LABELS = 23, 32


def parts_around(circle: int, first: int, last: int) -> list[tuple[int, int]]:
    """The cycles from first to last on a circle, as ranges of its cycles from 0 on."""
    start, length = first % circle, last - first
    if start + length < circle:
        return [(start, start + length)]
    return [(start, circle - 1), (0, start + length - circle)]


class Columns:
    """Some cycles, so many of them in a line. A line in which nothing happens is left out."""

    def __init__(self, cycles: int, in_line: int, used: Collection[int]) -> None:
        self.cycles, self.in_line, self.step = cycles, min(in_line, cycles), WIDTH / in_line
        starts = range(0, cycles, self.in_line)
        self.lines = [start for start in starts if any(start <= cycle < start + self.in_line for cycle in used)]
        self.width = MARGIN + LEFT + round(self.in_line * self.step)

    def end(self, start: int) -> int:
        return min(start + self.in_line, self.cycles)

    def x(self, start: int, cycle: int) -> float:
        """The left side of a cycle in the line that begins with `start`."""
        return LEFT + (cycle - start) * self.step

    def part(self, start: int, first: int, last: int) -> tuple[float, float] | None:
        """The left side and the width of what a line has of the cycles from first to last, or nothing."""
        low, high = max(first, start), min(last + 1, self.end(start))
        return (self.x(start, low), (high - low) * self.step) if low < high else None

    def omitted(self) -> str:
        """What is left out, in words."""
        left = [start for start in range(0, self.cycles, self.in_line) if start not in self.lines]
        ranges: list[list[int]] = []
        for start in left:
            if ranges and ranges[-1][1] == start:
                ranges[-1][1] = self.end(start)
            else:
                ranges.append([start, self.end(start)])
        parts = [f"{low} to {high - 1}" for low, high in ranges]
        return f"nothing in the cycles {' and '.join(parts)}" if parts else ""

    def draw_grid(self, picture: Picture, start: int, top: float, bottom: float, marks: Collection[int] = ()) -> None:
        """The numbers of the cycles above a line, and a faint line beside each of them; a mark is a stronger one."""
        every = -(-24 // int(self.step))
        for cycle in range(start, self.end(start) + 1):
            x, is_mark = self.x(start, cycle), cycle in marks
            picture.line(x, top, x, bottom, GREY if is_mark else FAINT, 2 if is_mark else 1)
            if cycle < self.end(start) and (cycle - start) % every == 0:
                picture.text(x + self.step / 2, top - 5, str(cycle), 10, BLACK)
        picture.text(LEFT - 8, top - 5, "cycle", 10, BLACK, "end")

    def draw_periods(self, picture: Picture, start: int, top: float, period: int, name: str) -> None:
        """The number of each period above its first cycle in a line."""
        for cycle in range(start, self.end(start)):
            if cycle % period == 0 or cycle == start:
                picture.text(self.x(start, cycle), top - 20, f"{name} {cycle // period}", 10, BLUE, "start")
