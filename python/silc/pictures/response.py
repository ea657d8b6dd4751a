"""The magnitude of a filter over the frequency: of its rows on an impulse, and of its design in real numbers."""
import cmath
import math
from collections.abc import Callable, Sequence
from typing import TypeAlias

from silc.pictures.axes import logarithmic, numbers_over, numbers_within, runs_within
from silc.pictures.picture import BLACK, BLUE, FAINT, MARGIN, ORANGE, Picture

# The coefficients of a section: of its numerator, and of its denominator from a0 = 1 on.
Section: TypeAlias = tuple[list[float], list[float]]
# What a curve has at a share of the sample rate, in decibels.
Curve: TypeAlias = Callable[[float], float]
# The least and the greatest number of an axis.
Ends: TypeAlias = tuple[float, float]

WIDTH, HEIGHT, LEFT, TOP = 760, 380, 84, 56
# The axis of frequencies, in shares of the sample rate: it ends at HIGHEST, and begins below FIRST where a curve is not
# level there, further down than LOWEST only where there are rows enough. It is searched at so many places a decade.
LOWEST, FIRST, HIGHEST, POINTS, SEARCHED = 0.001, 0.01, 0.5, 600, 12
# How many decibels are still level, and which share of all that are shown.
LEVEL, LEVEL_SHARE = 0.05, 0.01
# The axis of decibels: how far down it goes below the greatest magnitude, and over how many decibels it goes at least.
DEPTH, LEAST_SPAN = 100, 1
# The share of a step of the axis by which a curve may go beyond its end, as by its width.
BEYOND = 0.02
# How many numbers stand at an axis.
FEWEST, MOST = 4, 10
SHARES, HERTZ = "frequency, as a share of the sample rate", "frequency in hertz, at {rate:g} samples a second"
LEAST = 1e-12


def words_of(text: str, unit: float) -> list[float]:
    """The first words of rows, as shares of the word that stands for a gain of 1."""
    if unit == 0:
        raise ValueError("UNIT is 0")
    made = []
    for number, line in enumerate(text.split(), 1):
        try:
            made.append(int(line.split(",")[0]) / unit)
        except ValueError as fault:
            raise ValueError(f"line {number}: {fault}") from fault
    if not made:
        raise ValueError("there are no rows")
    return made


def section_of(place: int, words: str) -> Section:
    """The coefficients b0,b1,..;a1,a2,.. of a section, whose a0 is 1."""
    b, _, a = words.partition(";")
    if not b:
        raise ValueError(f"section {place} has no b0")
    numbers = [[float(number) for number in part.split(",")] if part else [] for part in (b, a)]
    return numbers[0], [1.0, *numbers[1]]


def decibels(number: complex) -> float:
    return 20 * math.log10(max(abs(number), LEAST))


def value(coefficients: Sequence[float], share: float) -> complex:
    """A polynomial of the delay, at a share of the sample rate."""
    turn, made = cmath.exp(-2j * math.pi * share), 0j
    for coefficient in reversed(coefficients):
        made = made * turn + coefficient
    return made


def designed(sections: list[Section], share: float) -> float:
    return math.prod(abs(value(b, share)) / max(abs(value(a, share)), LEAST) for b, a in sections)


def rate_of(words: str) -> float:
    """The samples a second that are given after --rate."""
    rate = float(words)
    if not 0 < rate < math.inf:
        raise ValueError(f"{words} is no rate")
    return rate


class Axes:
    """Where a share of the sample rate and a number of decibels stand. The numbers are in hertz where there is a
    rate."""

    def __init__(self, shares: Ends, levels: Ends, numbers: list[float], rate: float | None) -> None:
        (self.first, self.last), (self.lowest, self.highest), self.levels = shares, levels, numbers
        self.rate = rate or 1
        self.words = HERTZ.format(rate=rate) if rate else SHARES

    def x(self, share: float) -> float:
        return LEFT + WIDTH * math.log(share / self.first) / math.log(self.last / self.first)

    def y(self, decibels: float) -> float:
        return TOP + HEIGHT * (self.highest - decibels) / (self.highest - self.lowest)

    def frequencies(self) -> list[float]:
        """The numbers at the axis of frequencies, over less than a decade in equal steps."""
        ends = self.first * self.rate, self.last * self.rate
        numbers = logarithmic(*ends)
        return numbers if len(numbers) >= FEWEST else numbers_within(*ends, MOST)

    def draw(self, picture: Picture) -> None:
        for frequency in self.frequencies():
            x = self.x(frequency / self.rate)
            picture.line(x, TOP, x, TOP + HEIGHT, FAINT, 1)
            picture.text(x, TOP + HEIGHT + 16, f"{frequency:g}", 10)
        for level in self.levels:
            picture.line(LEFT, self.y(level), LEFT + WIDTH, self.y(level), FAINT, 1)
            picture.text(LEFT - 8, self.y(level) + 4, f"{level:g}", 10, BLACK, "end")
        picture.text(LEFT + WIDTH / 2, TOP + HEIGHT + 36, self.words, 11)
        picture.text(LEFT - 8, TOP - 14, "dB", 11, BLACK, "end")

    def draw_curve(self, picture: Picture, points: list[tuple[float, float]], colour: str, width: float, dashes: str,
                   words: str) -> None:
        """A curve through shares and levels, as far as it is between the ends of the axis."""
        placed = [(self.x(share), self.y(level)) for share, level in points]
        picture.curves(runs_within(placed, TOP - 1, TOP + HEIGHT + 1), colour, width, dashes, words)


def first_share(curves: list[Curve], count: int, rate: float) -> float:
    """Where the axis of frequencies begins: where all curves are level up to there, but no further down than `count`
    rows tell, and at least a decade and a half below its end."""
    lowest = min(LOWEST, 1 / count)
    places = range(math.ceil(SEARCHED * math.log10(HIGHEST / lowest)) + 1)
    shares = [lowest * (HIGHEST / lowest) ** (place / places[-1]) for place in places]
    levels = [[curve(share) for share in shares] for curve in curves]
    high, low = max(max(own) for own in levels), min(min(own) for own in levels)
    floor = high - DEPTH
    near = max(LEVEL, (high - max(floor, low)) * LEVEL_SHARE)
    level = next((share for place, share in enumerate(shares) if any(
        abs(max(own[place], floor) - max(own[0], floor)) > near for own in levels)), HIGHEST)
    numbers = [number / rate for number in logarithmic(lowest * rate, FIRST * rate)]
    return max([number for number in numbers if number <= level / 2], default=numbers[0])


def levels_over(levels: list[float]) -> list[float]:
    """The numbers at the axis of decibels."""
    high = max(levels)
    low = max(min(levels), high - DEPTH)
    short = max(0, LEAST_SPAN - (high - low)) / 2
    return numbers_over(low - short, high + short, MOST, 0, BEYOND)


def shares_of(frequencies: Ends, rate: float) -> Ends:
    """The ends of the axis of frequencies that is asked for, as shares of the sample rate."""
    first, last = (frequency / rate for frequency in frequencies)
    if not 0 < first or last > HIGHEST:
        raise ValueError(f"frequencies are above 0 and up to half of the rate, {HIGHEST * rate:g}")
    return first, last


def draw_response(text: str, unit: str, *sections: str, rate: float | None = None, frequencies: Ends | None = None,
                  db: Ends | None = None) -> str:
    """A picture of the rows on an impulse, and of the design by its sections, between the frequencies and the levels in
    decibels that are asked for, or those that the curves have."""
    impulse = words_of(text, float(unit))
    filters = [section_of(place, words) for place, words in enumerate(sections, 1)]
    drawn: list[tuple[Curve, str, float, str, str]] = [
        (lambda share: decibels(value(impulse, share)), ORANGE, 3, "", f"the {len(impulse)} rows on an impulse")]
    if filters:
        drawn.append((lambda share: decibels(designed(filters, share)), BLUE, 1.5, "6 4", "the design in real numbers"))
    curves = [curve for curve, *_ in drawn]
    ends = shares_of(frequencies, rate or 1) if frequencies else (first_share(curves, len(impulse), rate or 1), HIGHEST)
    shares = [ends[0] * (ends[1] / ends[0]) ** (k / POINTS) for k in range(POINTS + 1)]
    points = [[(share, curve(share)) for share in shares] for curve in curves]
    levels = numbers_within(*db, MOST) if db else levels_over([level for own in points for _, level in own])
    axes = Axes(ends, db or (levels[0], levels[-1]), levels, rate)
    picture = Picture(LEFT + WIDTH + MARGIN, TOP + HEIGHT + 56, "magnitude over frequency")
    axes.draw(picture)
    for number, (own, (_, colour, width, dashes, words)) in enumerate(zip(points, drawn)):
        axes.draw_curve(picture, own, colour, width, dashes, words)
        x = LEFT + 240 * number
        picture.curve([(x, 24), (x + 34, 24)], colour, width, dashes)
        picture.text(x + 42, 28, words, 12, BLACK, "start")
    return picture.whole()
