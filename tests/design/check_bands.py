#!/usr/bin/env python3
"""Whether what tools/design orders by hertz and decibels is what its formulas say: each kind of band, crossovers, a CIC
filter with its compensating filter, half-band filters by 2 and 4, a limiter, dither and two channels.

usage: tests/design/check_bands.py [NAME ..]

Of each the rows of `silc eval` are compared with a model in whole numbers, their spectrum on an impulse with the
response that is asked, and no word may pass its range by any input (`tools/ranges --worst`). It runs the built `silc`
and `silc_show`, or those that `SILC` and `SILC_SHOW` name.
"""
import cmath
import math
import random
import sys
from collections.abc import Iterator, Sequence
from fractions import Fraction

import band_models as models
from band_models import RATE, Gain, Type

from silc.commands import design
from silc.designing.programs import evaluated
from silc.designing.spectra import fft
from silc.designing.worst import AT_LEAST, INSIDE, PASSES_RANGE, worst_of

Rows = Sequence[tuple[int, ...]]
SHAPES = "--rate 48000 --shape 24,22 --input 16,15 --signal 32"
RATES = "--rate 48000 --shape 18,16 --input 16,15 --signal 20"
INPUT, AMPLITUDE, LENGTH, ROWS, SECONDS = Type("fix<16,15>"), 16384, 8192, 60, 1.0
# A response may be off by so many decibels, and by such a share of its top, where words are rounded; weightings up to a
# frequency.
OFF, SHARE, WEIGHTED, HIGHEST = 0.02, 1e-3, 0.6, 8000
# What comes into the pass band of a half-band filter with 60 dB, or stands above it; how many rows a response of one
# goes on.
STOPPED, TAIL = -58.0, 128
# What the compensating filters here leave of the droop, in decibels.
DROOP = 0.05
TEETH = 100
# A bound is too great by less than this (docs/DESIGN.md). What tools/design certifies itself just fills a range.
LOOSE = 1e-3

A_POLES = (20.598997, 20.598997, 107.65265, 737.86223, 12194.217, 12194.217)
C_POLES = (20.598997, 20.598997, 12194.217, 12194.217)
# Each band with the gain that is asked of it.
BANDS = {
    "peak,1000,3,0.7": models.gain_of("peak", 1000, 3, 0.7),
    "peak,200,-9,2": models.gain_of("peak", 200, -9, 2),
    "lowshelf,100,-2": models.shelf_of("lowshelf", 100, -2),
    "highshelf,8000,4,0.9": models.gain_of("highshelf", 8000, 4, 0.9),
    "lowpass,3000": models.quality_of("lowpass", 3000, math.sqrt(0.5)),
    "highpass,80,1.2": models.quality_of("highpass", 80, 1.2),
    "bandpass,1000,2": models.quality_of("bandpass", 1000, 2),
    "notch,400,4": models.quality_of("notch", 400, 4),
    "allpass,700": models.quality_of("allpass", 700, math.sqrt(0.5)),
    "onepole,2000": models.one_pole(2000),
    "dcblock,20": models.first_order(20, True),
    "aweight": models.analogue(A_POLES, 4),
    "cweight": models.analogue(C_POLES, 2),
}


def made(words: str) -> str:
    return design.source_of(design.options_of(words.split()))[0]


def samples(width: int = 1) -> Rows:
    """Rows of the ends of the range, of small and of random words."""
    dice = random.Random(1)
    ends = [(32767,) * width] * 8 + [(-32768,) * width] * 8
    return ends + [tuple(dice.choice((dice.randint(-32768, 32767), dice.randint(-3, 3))) for _ in range(width))
                   for _ in range(ROWS - len(ends))]


def spectrum(values: Sequence[float]) -> list[float]:
    """The magnitudes at the shares k / len of the rate, k up to a half."""
    return [abs(x) for x in fft(values)[: len(values) // 2 + 1]]


def values_of(rows: Rows, places: int) -> list[float]:
    """The words of rows one after another, as values beside an impulse."""
    return [word / 2**places / (AMPLITUDE / 2**15) for row in rows for word in row]


def decibels(number: complex) -> float:
    return 20 * math.log10(max(abs(number), 1e-12))


# What is wrong


def row_faults(source: str, given: Rows, wanted: Rows) -> Iterator[str]:
    got = evaluated(source, given)
    wrong = next((n for n, (own, other) in enumerate(zip(got, wanted)) if own != other), None)
    if wrong is not None or len(got) != len(wanted):
        place = wrong if wrong is not None else len(wanted)
        yield f"row {place} is {got[place:place + 1]}, and its model has {wanted[place:place + 1]}"


def response_faults(name: str, magnitudes: Sequence[float], gain: Gain, off: float = OFF,
                    highest: float = RATE / 2) -> Iterator[str]:
    """Where magnitudes are not the gain that is asked, at a hundred frequencies."""
    count = len(magnitudes) - 1
    shares = sorted({round(count ** (k / TEETH)) for k in range(TEETH)} - {0, count})
    asked = {k: abs(gain(k / (2 * count))) for k in shares if k * RATE / (2 * count) <= highest}
    top = max(asked.values())
    for k, level in asked.items():
        if abs(magnitudes[k] - level) > SHARE * top + level * (10 ** (off / 20) - 1):
            yield (f"{name}: {decibels(magnitudes[k]):.3f} dB at {k * RATE / (2 * count):.0f} Hz, "
                   f"and {decibels(level):.3f} is asked")


def down_gain(source: str, words: int, places: int) -> Gain:
    """The gain of what makes one word of a row, over the share of the rate that comes in."""
    columns = []
    for place in range(words):
        rows = [tuple(AMPLITUDE * (k == place) for k in range(words)), *[(0,) * words] * (TAIL - 1)]
        columns.append(values_of(evaluated(source, rows), places))

    def gain(share: float) -> float:
        turn = cmath.exp(2j * math.pi * share)
        return abs(sum(turn**place * sum(value * turn ** (-words * k) for k, value in enumerate(column))
                       for place, column in enumerate(columns)))
    return gain


def down_faults(gain: Gain, words: int, edge: float, off: float, stopped: float | None = None) -> Iterator[str]:
    """A pass band up to an edge, a share of the rate that comes in, and what is to be lost of what comes into it."""
    for k in range(1, 21):
        share = edge * k / 20
        if abs(decibels(gain(share))) > off:
            yield f"{decibels(gain(share)):.3f} dB at {share:.4f} of the rate"
        for band in range(1, words // 2 + 1) if stopped is not None else ():
            if decibels(gain(band / words - share)) > stopped:
                yield f"{decibels(gain(band / words - share)):.1f} dB at {band / words - share:.4f} of the rate"


def worst_faults(source: str, is_linear: bool = True) -> Iterator[str]:
    """What may pass its range by some input, by more than a bound is too great."""
    for bound in worst_of(source, SECONDS).bounds():
        passes = PASSES_RANGE in bound.said and bound.share() > 1 + LOOSE or INSIDE in bound.said
        if AT_LEAST in bound.said or is_linear and passes:
            yield f"{bound.name} is between {bound.least} and {bound.greatest}: {bound.said}"


def words_of(values: Sequence[Fraction], of: Type) -> list[int]:
    return [of.word(value) for value in values]


def impulse(width: int = 1) -> Rows:
    return [(AMPLITUDE,) + (0,) * (width - 1)] + [(0,) * width] * (LENGTH // width - 1)


def inputs(rows: Rows) -> list[Fraction]:
    return [INPUT.value(word) for row in rows for word in row]


# The designs


def band_faults(band: str, gain: Gain) -> Iterator[str]:
    source = made(f"bands --band {band} {SHAPES}")
    of = models.declared(source, "main", "y")
    given = samples()
    yield from row_faults(source, given, [(word,) for word in words_of(models.bands_rows(source, inputs(given)), of)])
    is_weighting = band.endswith("weight")
    yield from response_faults(band, spectrum(values_of(evaluated(source, impulse()), of.places)), gain,
                               WEIGHTED if is_weighting else OFF, HIGHEST if is_weighting else RATE / 2)
    yield from worst_faults(source)


def crossover_faults(hertz: float, order: int) -> Iterator[str]:
    source = made(f"crossover {hertz} {order} {SHAPES}")
    of = models.declared(source, "main", "low")
    count = max(1, order // 4)
    given = samples()
    low = models.cascade_rows(source, inputs(given), range(1, 2 * count + 1))
    turned = models.cascade_rows(source, inputs(given), range(2 * count + 1, 3 * count + 1))
    yield from row_faults(source, given, [(of.word(a), of.word(b - a)) for a, b in zip(low, turned)])
    rows = evaluated(source, impulse())
    for place, name in enumerate(("low", "high")):
        values = values_of([(row[place],) for row in rows], of.places)
        yield from response_faults(name, spectrum(values), models.riley(hertz, order, bool(place)))
    whole = values_of([(sum(row),) for row in rows], of.places)
    yield from response_faults("both", spectrum(whole), lambda share: 1.0)
    yield from worst_faults(source)


def stereo_faults() -> Iterator[str]:
    source = made(f"bands --band peak,1000,3,0.7 --band lowshelf,100,-2 --stereo {SHAPES}")
    of = models.declared(source, "main", "left_out")
    given = samples(2)
    columns = [words_of(models.bands_rows(source, [INPUT.value(word) for word in column]), of)
               for column in zip(*given)]
    yield from row_faults(source, given, list(zip(*columns)))
    yield from worst_faults(source)


def tail_faults() -> Iterator[str]:
    """A band, the limiter and dither, for two channels."""
    source = made("bands --band peak,1000,12,0.7 --limit --dither 16,15 --stereo --rate 48000 --shape 24,21 --input "
                  "16,15 --signal 24")
    before, after = models.declared(source, "dither", "x"), Type("fix<16,15,round,sat>")
    given = samples(2)
    noise = list(zip(*models.noise_of(len(given), before.places - after.places, 2)))
    columns = []
    for column, own in zip(zip(*given), noise):
        values = models.limited(source, models.bands_rows(source, [INPUT.value(word) for word in column]))
        columns.append(words_of(models.dithered(values, own, before, after), after))
    yield from row_faults(source, given, list(zip(*columns)))
    yield from worst_faults(source, is_linear=False)


def live_faults(bands: str, tail: str, width: int) -> Iterator[str]:
    """A chain whose coefficients a host changes: sets that are written and taken, words that no band takes, and random
    indices and values."""
    source = made(f"bands {bands} --live {tail} --rate 48000 --shape 20,18 --input 16,15 --signal 24,19")
    dice, count = random.Random(7), bands.count("--band")
    written = [(index, dice.randint(-1 << 17, (1 << 17) - 1)) for index in (0, 1, 2, 3, 4, 5, 3, -1, 4, 4 + count, 0)]
    own = samples(width)
    controls = [*written, *((dice.choice((dice.randint(0, 5 + count), dice.randint(-128, 127))),
                             dice.randint(-1 << 17, (1 << 17) - 1)) for _ in range(len(own) - len(written)))]
    columns = [[INPUT.value(word) for word in column] for column in zip(*own)]
    made_of = models.live_rows(source, columns, controls)
    of = Type("fix<16,15,round,sat>")
    if "--limit" in tail:
        made_of, of = [models.limited(source, values) for values in made_of], models.declared(source, "soft_limit", "y")
    rows = list(zip(*(words_of(values, of) for values in made_of)))
    yield from row_faults(source, [(*row, *control) for row, control in zip(own, controls)], rows)


def cic_faults(words: int, stages: int, edge: float) -> Iterator[str]:
    source = made(f"cic {words} {stages} --taps 15 --edge {edge} {RATES}")
    handed, of = models.declared(source, "cic", "y"), models.declared(source, "main", "y")
    total = models.declared(source, "compensator", "s")
    growth, given = (words**stages - 1).bit_length(), samples(words)
    box = models.convolved(models.boxcars(words, stages), inputs(given))[words - 1::words]
    rounded = Type(f"fix<{handed.width},{handed.places},round>")
    low = [rounded.through(value / 2**growth) for value in box]
    taps = models.tables_of(source)["h"]
    sums = [sum(total.through(tap * low[n - k]) for k, tap in enumerate(taps) if n >= k) for n in range(len(low))]
    final = Type(f"fix<{of.width},{of.places},round>")
    yield from row_faults(source, given, [(final.word(value),) for value in sums])
    yield from down_faults(down_gain(source, words, of.places), words, edge / RATE, DROOP)
    yield from worst_faults(source)


def half_band_faults(way: str, factor: int, edge: float) -> Iterator[str]:
    source = made(f"halfband {way} {factor} --edge {edge} --attenuation 60 {RATES}")
    is_up, stages = way == "up", factor.bit_length() - 1
    given = samples(1 if is_up else factor)
    values, tables = inputs(given), models.tables_of(source)
    for number in range(1, stages + 1):
        of = models.declared(source, f"stage{number}", "y")
        values = models.half_rows(tables[f"h{number}"], values, models.declared(source, f"stage{number}", "sum"),
                                  Type(f"fix<{of.width},{of.places},round>"), is_up)
    rows = words_of(values, of)
    wide = factor if is_up else 1
    yield from row_faults(source, given, [tuple(rows[n:n + wide]) for n in range(0, len(rows), wide)])
    if is_up:
        made_of = spectrum([value / factor
                            for value in values_of(evaluated(source, impulse()[: LENGTH // factor]), of.places)])
        yield from band_edge_faults(made_of, edge / (RATE * factor), 1 / factor - edge / (RATE * factor))
    else:
        yield from down_faults(down_gain(source, factor, of.places), factor, edge / RATE, OFF, STOPPED)
    yield from worst_faults(source)


def band_edge_faults(magnitudes: Sequence[float], edge: float, stop: float) -> Iterator[str]:
    """A pass band up to an edge, and a stop band from another on, as shares of the rate."""
    count = 2 * (len(magnitudes) - 1)
    for k, magnitude in enumerate(magnitudes):
        level = decibels(magnitude)
        if k / count <= edge and abs(level) > OFF or k / count >= stop and level > STOPPED:
            yield f"{level:.3f} dB at {k / count:.4f} of the rate"


CASES = {band: lambda band=band, gain=gain: band_faults(band, gain) for band, gain in BANDS.items()}
CASES |= {f"crossover {order}": lambda order=order: crossover_faults(2000, order) for order in (2, 4, 8)}
CASES |= {f"cic {words} {stages}": lambda words=words, stages=stages, edge=edge: cic_faults(words, stages, edge)
          for words, stages, edge in ((4, 3, 4000), (5, 2, 3000), (2, 1, 8000))}
CASES |= {f"halfband {way} {factor}": lambda way=way, factor=factor, edge=edge: half_band_faults(way, factor, edge)
          for way, factor, edge in (("down", 2, 9000), ("down", 4, 4000), ("up", 2, 18000), ("up", 4, 18000))}
CASES |= {"stereo": stereo_faults, "limiter and dither": tail_faults,
          "live": lambda: live_faults("--band peak,1000,3,0.7", "", 1),
          "live, two channels": lambda: live_faults("--band lowshelf,100,-2 --band dcblock,20", "--stereo", 2),
          "live, with a limiter": lambda: live_faults("--band notch,400,4 --band peak,90,6,2", "--limit --stereo", 2)}


def main(names: Sequence[str]) -> int:
    failed = 0
    for name in names or CASES:
        faults = list(CASES[name]())
        failed += bool(faults)
        for fault in faults[:3]:
            print(f"{name}: {fault}")
    print(f"design: of {len(names or CASES)} filters that are ordered by hertz and decibels {failed} are not what is "
          "asked")
    return 1 if failed else 0


if __name__ == "__main__":
    sys.exit(main(sys.argv[1:]))
