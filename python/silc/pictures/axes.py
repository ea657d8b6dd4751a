"""Round numbers for axes, by the data that they have to show."""
import math
from collections.abc import Iterator, Sequence

# The first digits of the steps between numbers.
DIGITS = (1, 2, 5)
PLACES = range(-6, 16)
# The share of a step by which a sum of floating point may be beside a number.
NOTHING = 1e-9


def step_for(span: float, most: int, least: float = 0) -> tuple[int, int]:
    """The least step, as its digit and its power of ten, by which a span has so many steps at most."""
    steps = ((digit, power) for power in PLACES for digit in DIGITS)
    return next((digit, power) for digit, power in steps
                if digit * 10.0**power >= least and span <= most * digit * 10.0**power * (1 + NOTHING))


def numbers_over(low: float, high: float, most: int, least: float = 0, beyond: float = NOTHING) -> list:
    """Round numbers from one at or below `low` to one at or above `high`, about so many steps of at least `least`. What
    is beyond an end by such a share of a step is not counted."""
    digit, power = step_for(high - low, most, least)
    scale = 10.0**-power / digit
    first, last = math.floor(low * scale + beyond), math.ceil(high * scale - beyond)
    return [number_of(place * digit, power) for place in range(first, max(last, first + 1) + 1)]


def numbers_within(low: float, high: float, most: int) -> list:
    """Round numbers that are no less than `low` and no more than `high`."""
    return [number for number in numbers_over(low, high, most) if low <= number <= high]


def number_of(digits: int, power: int) -> int | float:
    """Some digits with a power of ten, exactly where they are a whole number."""
    return digits * 10**power if power >= 0 else digits / 10**-power


def logarithmic(low: float, high: float) -> list[float]:
    """The numbers 1, 2 and 5, times a power of ten, from the one to the other."""
    powers = range(math.floor(math.log10(low)), math.ceil(math.log10(high)) + 1)
    numbers = [float(f"{digit}e{power}") for power in powers for digit in DIGITS]
    return [number for number in numbers if low <= number <= high]


def range_of(words: str, what: str) -> tuple[float, float]:
    """The ends LOW,HIGH of an axis that is asked for."""
    try:
        low, high = map(float, words.split(","))
    except ValueError:
        low = high = 0.0
    if not low < high or math.inf in (-low, high):
        raise ValueError(f"{words} is no {what} LOW,HIGH, as -12,6")
    return low, high


def runs_within(points: Sequence[tuple[float, float]], top: float,
                bottom: float) -> Iterator[list[tuple[float, float]]]:
    """The parts of a curve that are between the heights `top` and `bottom`, each with where it crosses them."""
    run: list[tuple[float, float]] = []
    for (x1, y1), (x2, y2) in zip(points, points[1:]):
        ends = crossed(y1, y2, top, bottom)
        if ends is None:
            if run:
                yield run
            run = []
            continue
        first, last = ((x1 + (x2 - x1) * share, y1 + (y2 - y1) * share) for share in ends)
        run = [*run, last] if run and ends[0] == 0 else [first, last]
        if ends[1] < 1:
            yield run
            run = []
    if run:
        yield run


def crossed(y1: float, y2: float, top: float, bottom: float) -> tuple[float, float] | None:
    """Which part of a line from one height to another is between two, as shares of it."""
    if y1 == y2:
        return (0, 1) if top <= y1 <= bottom else None
    one, other = sorted(((top - y1) / (y2 - y1), (bottom - y1) / (y2 - y1)))
    first, last = max(0, one), min(1, other)
    return (first, last) if first < last else None
