"""Words over the samples: a panel for each column of rows, with an axis by its words, or by those of columns that are
like it."""
from collections.abc import Sequence
from typing import TypeAlias

from silc.pictures.axes import numbers_over, numbers_within, runs_within, step_for
from silc.pictures.picture import BLACK, BLUE, FAINT, MARGIN, ORANGE, Picture

# A column of rows: its name, and its words.
Column: TypeAlias = tuple[str, Sequence[int]]

WIDTH, PANEL, LEFT, TOP, SPACE, FOOT = 760, 130, 96, 40, 44, 34
# How many samples have their number at the axis at most, and into how many steps an axis of words goes.
TICKS, MOST = 14, 5
# Columns have one axis whose magnitudes differ by so many bits at most.
NEAR = 3
COLOURS = (BLACK, ORANGE, BLUE)


def columns_of(text: str, names: list[str]) -> list[Column]:
    """The columns of rows, each with its name."""
    rows = []
    for number, line in enumerate(text.split(), 1):
        try:
            rows.append([int(word) for word in line.split(",")])
        except ValueError as fault:
            raise ValueError(f"line {number}: {fault}") from fault
        if len(rows[-1]) != len(names):
            raise ValueError(f"line {number} has {len(rows[-1])} words, and there are {len(names)} names")
    if not rows:
        raise ValueError("there are no rows")
    return list(zip(names, zip(*rows)))


def groups_of(columns: Sequence[Column]) -> list[list[int]]:
    """The columns by their magnitudes, those together that are to be compared: none has more than NEAR bits less than
    the greatest of its group."""
    bits = [max(max(words), ~min(words)).bit_length() for _, words in columns]
    groups: list[list[int]] = []
    for number in sorted(range(len(columns)), key=lambda number: -bits[number]):
        if groups and bits[groups[-1][0]] - bits[number] <= NEAR:
            groups[-1].append(number)
        else:
            groups.append([number])
    return groups


def axes_of(columns: Sequence[Column]) -> list[list[int]]:
    """The numbers at the axis of each column: those of a group have one axis, from their least to their greatest
    word."""
    made: dict[int, list[int]] = {}
    for group in groups_of(columns):
        words = [word for number in group for word in columns[number][1]]
        made |= dict.fromkeys(group, numbers_over(min(words), max(words), MOST, 1))
    return [made[number] for number in range(len(columns))]


def step_of(count: int) -> int:
    """How far the numbers of the samples are apart."""
    digit, power = step_for(count, TICKS, 1)
    return digit * 10**power


class Panel:
    """Where a sample and a word of one column stand, between the ends of its axis."""

    def __init__(self, number: int, count: int, ends: tuple[float, float]) -> None:
        self.top, self.count, (self.low, self.high) = TOP + number * (PANEL + SPACE), count, ends

    def x(self, sample: int) -> float:
        return LEFT + WIDTH * sample / max(1, self.count - 1)

    def y(self, word: float) -> float:
        return self.top + PANEL * (self.high - word) / (self.high - self.low)

    def draw(self, picture: Picture, name: str, words: Sequence[int], numbers: Sequence[int], colour: str) -> None:
        for sample in range(0, self.count, step_of(self.count)):
            picture.line(self.x(sample), self.top, self.x(sample), self.top + PANEL, FAINT, 1)
            picture.text(self.x(sample), self.top + PANEL + 14, str(sample), 10)
        for word in numbers:
            picture.line(LEFT, self.y(word), LEFT + WIDTH, self.y(word), FAINT, 1)
            picture.text(LEFT - 8, self.y(word) + 4, str(word), 10, BLACK, "end")
        picture.text(LEFT, self.top - 6, name, 12, BLACK, "start")
        points = [(self.x(sample), self.y(word)) for sample, word in enumerate(words)]
        runs = runs_within(points, self.top, self.top + PANEL) if len(points) > 1 else [points]
        picture.curves(runs, colour, 1.2, "", name)


def draw_words(*columns: Column, range: tuple[float, float] | None = None) -> str:
    """A picture of columns, each a name and its words, with the axes that the words have, or one axis for all."""
    count = max(len(words) for _, words in columns)
    axes: list[tuple[list[int], tuple[float, float]]] = [(own, (own[0], own[-1])) for own in axes_of(columns)]
    if range:
        axes = [([int(word) for word in numbers_within(*range, MOST) if word == int(word)], range)] * len(columns)
    height = TOP + len(columns) * (PANEL + SPACE) - SPACE + FOOT + MARGIN
    picture = Picture(LEFT + WIDTH + MARGIN, height, "words over the samples")
    for number, ((name, words), (numbers, ends)) in enumerate(zip(columns, axes)):
        Panel(number, count, ends).draw(picture, name, words, numbers, COLOURS[number % len(COLOURS)])
    picture.text(LEFT + WIDTH / 2, height - MARGIN + 4, "sample", 11)
    return picture.whole()
