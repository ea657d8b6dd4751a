"""Spectra as powers over the frequency: of a signal and of its error."""
import math
from collections.abc import Sequence

from silc.pictures.picture import BLACK, BLUE, FAINT, MARGIN, ORANGE, Picture

WIDTH, HEIGHT, LEFT, TOP, STEP, LEAST = 760, 360, 84, 56, 20, 1e-30
TICKS = (0, 0.1, 0.2, 0.3, 0.4, 0.5)


def decibels(power: float) -> float:
    return 10 * math.log10(max(power, LEAST))


def draw_spectra(signal: Sequence[float], error: Sequence[float], unit: str) -> str:
    """A picture of two lists of powers over 0 to half of the rate; `unit` is what 0 dB is."""
    levels = [[decibels(power) for power in powers] for powers in (signal, error)]
    top = STEP * math.ceil(max(max(own) for own in levels) / STEP)
    bottom = STEP * math.floor(max(min(levels[1]), top - 200) / STEP)
    picture = Picture(LEFT + WIDTH + MARGIN, TOP + HEIGHT + 56, "spectra of the output and of its error")
    for share in TICKS:
        x = LEFT + WIDTH * share / TICKS[-1]
        picture.line(x, TOP, x, TOP + HEIGHT, FAINT, 1)
        picture.text(x, TOP + HEIGHT + 16, f"{share:g}", 10)
    for level in range(bottom, top + 1, STEP):
        y = TOP + HEIGHT * (top - level) / (top - bottom)
        picture.line(LEFT, y, LEFT + WIDTH, y, FAINT, 1)
        picture.text(LEFT - 8, y + 4, str(level), 10, BLACK, "end")
    picture.text(LEFT + WIDTH / 2, TOP + HEIGHT + 36, "frequency, as a share of the sample rate", 11)
    picture.text(LEFT - 8, TOP - 14, "dB", 11, BLACK, "end")
    for number, (own, colour, words) in enumerate(zip(levels, (BLUE, ORANGE), (f"the output ({unit})", "its error"))):
        points = [(LEFT + WIDTH * k / (len(own) - 1),
                   TOP + HEIGHT * (top - min(max(level, bottom), top)) / (top - bottom))
                  for k, level in enumerate(own)]
        picture.curve(points, colour, 1.5, "", words)
        picture.curve([(LEFT + 300 * number, 24), (LEFT + 300 * number + 34, 24)], colour, 2)
        picture.text(LEFT + 300 * number + 42, 28, words, 12, BLACK, "start")
    return picture.whole()
