"""Models of what tools/design orders by hertz and decibels: the response that is asked, in real numbers, and the rows
of a source with its own coefficients, in whole numbers. Nothing of silc is in them."""
import cmath
import math
import re
from collections.abc import Callable, Iterator, Sequence
from fractions import Fraction
from typing import TypeAlias

# A number without rounding, the gain of a filter over the share of the rate, and the tables of a source by their names.
Exact: TypeAlias = Fraction | int
Gain: TypeAlias = Callable[[float], complex]
Tables: TypeAlias = dict[str, list[Fraction]]

RATE = 48000
Gain = Callable[[float], complex]
Values = list[Fraction]
TABLE = re.compile(r"const (\w+)(?:\[\d+\])? : fix<(\d+),(\d+)> = ([^;]*);")
TYPE = re.compile(r"fix<(\d+),(\d+)((?:,\w+)*)>")


# Fixed point


def fitted(number: int, width: int, mode: str) -> int:
    """A whole number as a word, wrapped or the nearest one."""
    half = 1 << (width - 1)
    return max(-half, min(half - 1, number)) if "sat" in mode else (number + half) % (2 * half) - half


class Type:
    """fix<W,F,mode>."""

    def __init__(self, text: str) -> None:
        found = TYPE.fullmatch(text)
        assert found, text
        width, places, mode = found.groups()
        self.width, self.places, self.mode = int(width), int(places), mode

    def word(self, value: Fraction) -> int:
        """The word that an exact number becomes."""
        scaled = value * 2**self.places
        whole = math.floor(scaled + Fraction(1, 2)) if "round" in self.mode else math.floor(scaled)
        return fitted(whole, self.width, self.mode)

    def value(self, word: int) -> Fraction:
        return Fraction(word, 2**self.places)

    def through(self, value: Fraction) -> Fraction:
        """The number that is left of an exact one."""
        return self.value(self.word(value))


def tables_of(source: str) -> dict[str, Values]:
    """The tables of a source as exact numbers of their types."""
    made = {}
    for name, width, places, text in TABLE.findall(source):
        of = Type(f"fix<{width},{places},round>")
        made[name] = [of.through(Fraction(number)) for number in re.findall(r"-?[\d.]+", text)]
    return made


def is_declared(source: str, function: str, name: str) -> bool:
    """Whether a function declares a name."""
    return found_in(source, function, name) is not None


def declared(source: str, function: str, name: str) -> Type:
    """The type with which a function declares a name, as parameter, result or signal."""
    found = found_in(source, function, name)
    assert found, name
    return Type(found[1])


def found_in(source: str, function: str, name: str) -> "re.Match[str] | None":
    """Where a function declares a name, with the text of its type."""
    body = source[source.index(f"func {function}("):]
    return re.search(rf"\b{name}(?:\[\d+\])*(?:, \w+(?:\[\d+\])*)* : ({TYPE.pattern})", body[: body.index("end;\n")])


# Responses


def at(b: Sequence[float], a: Sequence[float], share: float) -> complex:
    turn = cmath.exp(-2j * math.pi * share)
    return sum(x * turn**k for k, x in enumerate(b)) / sum(x * turn**k for k, x in enumerate(a))


def cookbook(kind: str, hertz: float, db: float = 0.0,
             q: float = math.sqrt(0.5)) -> tuple[Sequence[float], Sequence[float]]:
    """b and a of a kind, as W3C's note on the audio cookbook has them."""
    w, big = 2 * math.pi * hertz / RATE, 10 ** (db / 40)
    cos, alpha = math.cos(w), math.sin(w) / (2 * q)
    root = 2 * math.sqrt(big) * alpha
    poles = (1 + alpha, -2 * cos, 1 - alpha)
    return {
        "peak": ((1 + alpha * big, -2 * cos, 1 - alpha * big), (1 + alpha / big, -2 * cos, 1 - alpha / big)),
        "lowshelf": ((big * (big + 1 - (big - 1) * cos + root), 2 * big * (big - 1 - (big + 1) * cos),
                      big * (big + 1 - (big - 1) * cos - root)),
                     (big + 1 + (big - 1) * cos + root, -2 * (big - 1 + (big + 1) * cos),
                      big + 1 + (big - 1) * cos - root)),
        "highshelf": ((big * (big + 1 + (big - 1) * cos + root), -2 * big * (big - 1 + (big + 1) * cos),
                       big * (big + 1 + (big - 1) * cos - root)),
                      (big + 1 - (big - 1) * cos + root, 2 * (big - 1 - (big + 1) * cos),
                       big + 1 - (big - 1) * cos - root)),
        "lowpass": (((1 - cos) / 2, 1 - cos, (1 - cos) / 2), poles),
        "highpass": (((1 + cos) / 2, -(1 + cos), (1 + cos) / 2), poles),
        "bandpass": ((alpha, 0, -alpha), poles),
        "notch": ((1, -2 * cos, 1), poles),
        "allpass": ((1 - alpha, -2 * cos, 1 + alpha), poles),
    }[kind]


def gain_of(kind: str, *numbers: float) -> Gain:
    """The gain of a kind of the cookbook over the share of the rate."""
    b, a = cookbook(kind, *numbers)
    return lambda share: at(b, a, share)


def shelf_of(kind: str, hertz: float, db: float) -> Gain:
    return gain_of(kind, hertz, db, math.sqrt(0.5))


def quality_of(kind: str, hertz: float, q: float) -> Gain:
    return gain_of(kind, hertz, 0.0, q)


def analogue(poles: Sequence[float], zeros: int, reference: float = 1000.0) -> Gain:
    """The magnitude of poles in hertz, with some zeros at 0 Hz, 1 at a reference."""
    def gain(hertz: float) -> float:
        return hertz**zeros / math.prod(math.hypot(hertz, pole) for pole in poles)
    return lambda share: gain(share * RATE) / gain(reference)


def first_order(hertz: float, is_high: bool) -> Gain:
    """The analogue filter of the first order, warped as the bilinear transform does."""
    def gain(share: float) -> float:
        ratio = math.tan(math.pi * share) / math.tan(math.pi * hertz / RATE)
        return (ratio if is_high else 1.0) / math.hypot(1, ratio)
    return gain


def one_pole(hertz: float) -> Gain:
    """The low-pass y = a x + (1 - a) y@1 that has half of the power at a frequency, found by halving."""
    def power(share: float, a: float) -> float:
        return a * a / abs(1 - (1 - a) * cmath.exp(-2j * math.pi * share)) ** 2
    low, high = 0.0, 1.0
    for _ in range(60):
        middle = (low + high) / 2
        low, high = (middle, high) if power(hertz / RATE, middle) < 0.5 else (low, middle)
    return lambda share: math.sqrt(power(share, low))


def riley(hertz: float, order: int, is_high: bool) -> Gain:
    """The magnitude of a crossover of Linkwitz and Riley: that of Butterworth of half of the order, squared."""
    def gain(share: float) -> float:
        ratio = math.tan(math.pi * share) / math.tan(math.pi * hertz / RATE)
        power = ratio**order
        return (power if is_high else 1.0) / (1 + power)
    return gain


# Rows


def section_rows(b: Values, a: Values, values: Values, total: Type, signal: Type) -> Values:
    """A section over exact numbers: each product goes through the type of the sum, and the sum through that of the
    signals."""
    x, y, made = [Fraction(0)] * 2, [Fraction(0)] * 2, []
    for now in values:
        products = [total.through(b[0] * now)] + [total.through(k * old) for k, old in zip(b[1:], x)]
        back = [total.through(k * old) for k, old in zip(a, y)]
        own = signal.through(total.through(Fraction(sum(products) - sum(back))))
        made.append(own)
        x, y = [now, x[0]], [own, y[0]]
    return made


def cascade_rows(source: str, values: Values, numbers: Sequence[int]) -> Values:
    """Sections by their numbers, one behind the other."""
    tables = tables_of(source)
    for number in numbers:
        b, a = tables[f"b{number}"], tables[f"a{number}"]
        name = "biquad" if len(a) == 2 else "first_order"
        result = declared(source, name, "y")
        total = declared(source, name, "sum") if is_declared(source, name, "sum") else result
        values = section_rows(b, a, values, total, Type(f"fix<{result.width},{result.places},round>"))
    return values


def live_rows(source: str, channels: Sequence[Values], controls: Sequence[tuple[int, int]]) -> list[Values]:
    """All sections of a source whose coefficients a host changes by an index and a value in each sample, over the
    values of some channels: those of each at the end."""
    of, signal = declared(source, "main", "value"), declared(source, "biquad", "y")
    words = {name: Type(f"fix<{of.width},{of.places},round>").through(Fraction(number))
             for name, number in re.findall(r"([ab]\d+\[\d\])@@1 = (-?[\d.]+);", source)}
    count = len({name[1:].partition("[")[0] for name in words})
    bands = [[words.get(name, Fraction(0)) for name in
              (*(f"b{n}[{k}]" for k in range(3)), *(f"a{n}[{k}]" for k in range(2)))] for n in range(1, count + 1)]
    coming, past = [Fraction(0)] * 5, [[[Fraction(0)] * 4 for _ in bands] for _ in channels]
    made: list[Values] = [[] for _ in channels]
    for n, (index, word) in enumerate(controls):
        if 0 <= index < 5:
            coming[index] = of.value(word)
        elif 5 <= index < 5 + count:
            bands[index - 5] = [*coming]
        for own, values, out in zip(past, channels, made):
            x = values[n]
            for (b0, b1, b2, a1, a2), old in zip(bands, own):
                total = Fraction(0)
                terms = ((1, b0, x), (1, b1, old[0]), (1, b2, old[1]), (-1, a1, old[2]), (-1, a2, old[3]))
                for sign, k, word_of in terms:
                    total = signal.through(total + sign * signal.through(k * word_of))
                old[:] = [x, old[0], total, old[2]]
                x = total
            out.append(x)
    return made


def bands_rows(source: str, values: Values) -> Values:
    """All sections of a source."""
    return cascade_rows(source, values, range(1, len([name for name in tables_of(source) if name.startswith("a")]) + 1))


def limited(source: str, values: Values) -> Values:
    """The soft limiter over exact numbers."""
    cubic = tables_of(source)["cubic"][0]
    square, gain, out = (declared(source, "soft_limit", name) for name in ("square", "gain", "y"))
    made = []
    for value in values:
        v = max(Fraction(-3, 2), min(Fraction(3, 2), value))
        made.append(out.through(v * gain.through(1 - gain.through(cubic * square.through(v * v)))))
    return made


def noise_of(count: int, bits: int, channels: int) -> Iterator[list[int]]:
    """The words of noise of each channel: b[n] = b[n-31] xor b[n-28], as many bits of it for a channel in each
    sample."""
    state = [1] + [0] * 30
    while len(state) < 31 + count * bits * channels:
        state.append(state[-31] ^ state[-28])
    for sample in range(count):
        own = state[31 + sample * bits * channels: 31 + (sample + 1) * bits * channels]
        yield [sum(bit << k for k, bit in enumerate(own[channel * bits:(channel + 1) * bits]))
               for channel in range(channels)]


def dithered(values: Values, noise: Sequence[int], before: Type, after: Type) -> Values:
    """Exact numbers brought to a type, with the difference of two words of noise in a row, in last bits of theirs."""
    made, last = [], 0
    for value, word in zip(values, noise):
        made.append(after.through(value + before.value(word - last)))
        last = word
    return made


def convolved(taps: Sequence[int], values: Values) -> Values:
    """The words of a filter with a finite answer, exact."""
    return [Fraction(sum(tap * values[n - k] for k, tap in enumerate(taps) if n >= k)) for n in range(len(values))]


def boxcars(words: int, stages: int) -> list[int]:
    """The taps of as many sums over so many words."""
    taps = [1]
    for _ in range(stages):
        taps = [sum(taps[n - k] for k in range(words) if 0 <= n - k < len(taps)) for n in range(len(taps) + words - 1)]
    return taps


def half_taps(side: Values) -> Values:
    """All taps of a half-band filter, of those up to the middle that are not 0."""
    half = [tap for pair in zip(side, [Fraction(0)] * len(side)) for tap in pair][:-1]
    return [*half, Fraction(1, 2), *half[::-1]]


def half_rows(side: Values, values: Values, total: Type, signal: Type, is_up: bool) -> Values:
    """A half-band filter over words of the lower rate up to the higher, or the other way."""
    if is_up:
        values = [word for value in values for word in (value, Fraction(0))]
        side = [tap / 2 for tap in side]
    taps = [tap * (2 if is_up else 1) for tap in half_taps(side)]
    middle, made = len(taps) // 2, []
    for n in range(0 if is_up else 1, len(values), 1 if is_up else 2):
        past = [values[n - k] if n >= k else Fraction(0) for k in range(len(taps))]
        products = [total.through(taps[k] * (past[k] + past[-1 - k])) for k in range(0, middle, 2)]
        products.append(total.through(taps[middle] * past[middle]))
        made.append(signal.through(Fraction(sum(products))))
    return made
