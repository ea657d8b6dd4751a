"""Filters between two rates: a CIC filter with the filter that makes up for its droop, and half-band filters by 2 and
4."""
from __future__ import annotations

import math
from collections.abc import Callable, Sequence
from dataclasses import dataclass, replace

from silc.designing import expected, scaling, writing
from silc.designing.filters import decibels, fir_response
from silc.designing.finished import Wanted, said_of_noise, said_of_norm, shapes_of
from silc.designing.scaling import Shapes
from silc.designing.shapes import WIDEST, Shape

# What is said of a response is looked for at so many frequencies, and computed in floating point.
FREQUENCIES = 400
MOST_WORDS, MOST_STAGES, MOST_TAPS = 16, 6, 63


class Unmade(ValueError):
    """Why a filter between two rates can't be made."""


def highest(level: Callable[[float], float], low: float, high: float) -> float:
    """The highest of levels between two frequencies."""
    return max(level(low + (high - low) * k / FREQUENCIES) for k in range(FREQUENCIES + 1))


# CIC


@dataclass(frozen=True)
class Cic:
    """Boxcars of so many words, so many of them in a row, down to one word."""
    words: int
    stages: int

    def growth(self) -> int:
        """The bits that its sums have more than its words."""
        return int(self.words**self.stages - 1).bit_length()

    def gain(self, share: float) -> float:
        """Its magnitude at a share of the rate that comes in, 1 at 0 Hz."""
        if not share:
            return 1.0
        return abs(math.sin(math.pi * self.words * share) / (self.words * math.sin(math.pi * share))) ** self.stages


def solved(rows: list[list[float]], right: list[float]) -> list[float]:
    """The solution of as many linear equations as unknowns, by Gauss."""
    rows = [[*row, value] for row, value in zip(rows, right)]
    size = len(rows)
    for place in range(size):
        pivot = max((abs(rows[row][place]), row) for row in range(place, size))[1]
        rows[place], rows[pivot] = rows[pivot], rows[place]
        for row in range(place + 1, size):
            factor = rows[row][place] / rows[place][place]
            rows[row] = [a - factor * b for a, b in zip(rows[row], rows[place])]
    made = [0.0] * size
    for place in reversed(range(size)):
        made[place] = (rows[place][size]
                       - sum(rows[place][k] * made[k] for k in range(place + 1, size))) / rows[place][place]
    return made


# Beside the pass band the squares of the error count so much less.
BESIDE = 1e-4


def compensating_taps(cic: Cic, count: int, edge: float) -> list[float]:
    """An odd number of taps with linear phase, at the rate that goes out, with the least squares of the error up to an
    edge, a share of that rate."""
    half = count // 2
    size = half + 1
    normal, right = [[0.0] * size for _ in range(size)], [0.0] * size
    for k in range(FREQUENCIES + 1):
        share = 0.5 * k / FREQUENCIES
        weight = 1.0 if share <= edge else BESIDE
        wanted, gain = 1 / cic.gain(min(share, edge) / cic.words), [math.cos(2 * math.pi * m * share)
                                                                    for m in range(size)]
        for m in range(size):
            right[m] += weight * gain[m] * wanted
            for other in range(size):
                normal[m][other] += weight * gain[m] * gain[other]
    made = solved(normal, right)
    return [made[abs(k - half)] / (1 if k == half else 2) for k in range(count)]


def cic_lines(cic: Cic, count: int) -> list[str]:
    """The equations of all boxcars: each is a sum from the row's first word and one to the last word of the row
    before."""
    last = cic.words - 1
    lines = [f"(r : 0 .. {last}) :: begin", f"  box[0][r] = {{word}}(x[r]) >> {cic.growth()};", "end;"]
    if cic.stages > 1:
        lines += [f"(n : 0 .. {cic.stages - 2}) :: begin",
                  f"  first[n][0] = box[n][0];  rest[n][{last - 1}] = box[n][{last}];",
                  f"  (r : 1 .. {last}) :: begin", "    first[n][r] = first[n][r-1] + box[n][r];",
                  "    box[n+1][r-1] = first[n][r-1] + rest[n][r-1]@1;", "  end;",
                  f"  box[n+1][{last}] = first[n][{last}];"]
        if last > 1:
            lines += [f"  (r : 1 .. {last - 1}) :: begin",
                      f"    rest[n][{last - 1}-r] = rest[n][{last}-r] + box[n][{last}-r];", "  end;"]
        lines.append("end;")
    words = " + ".join(f"box[{cic.stages - 1}][{r}]" for r in range(cic.words))
    return [*lines, f"y = {{out}}({words});"]


def cic_function(cic: Cic, before: Shape, after: Shape) -> str:
    """The function of a CIC filter."""
    growth, last = cic.growth(), cic.words - 1
    word = Shape(before.width + growth, before.places + growth)
    out = f"fix<{after.width},{after.places},round>" if after.places < word.places else str(after)
    variables = f"  var box[{cic.stages}][{cic.words}] : {word};\n"
    if cic.stages > 1:
        variables += f"  var first[{cic.stages - 1}][{cic.words}], rest[{cic.stages - 1}][{last}] : {word};\n"
    body = "".join(f"  {line.format(word=word, out=out)}\n" for line in cic_lines(cic, last))
    said = [f"A CIC filter: {writing.counted(cic.stages, 'sum')} over {cic.words} words, one after another, all "
            f"together "
            f"divided by 2^{growth}. They begin anew with each row, so that no integrator runs on and nothing wraps."]
    return (f"{writing.comment(said)}func cic(x[{cic.words}] : {before}) y : {after} =\nbegin\n{variables}{body}end;\n")


# So many bits more than its input has the word that a CIC filter hands on.
BITS_MORE = 4


def cic_source(wanted: Wanted, cic: Cic, count: int, edge: float) -> tuple[str, bool]:
    """The source of a CIC filter and its compensating filter of some taps, up to an edge, a share of the rate that goes
    out."""
    before, growth = wanted.input, cic.growth()
    if before.width + growth > WIDEST:
        raise Unmade(f"the sums of {cic.stages} stages over {cic.words} words have {growth} bits more than {before}, "
                     f"and a "
                     f"word has {WIDEST} at most")
    more = min(BITS_MORE, growth)
    handed = Shape(before.width + more, before.places + more)
    made = [tap * 2.0**growth / cic.words**cic.stages for tap in compensating_taps(cic, count, edge)]
    open_shapes = replace(shapes_of(wanted), input=handed)
    words, shapes, share = scaling.fitting_taps(made, open_shapes, wanted.norm, not wanted.has_places)
    taps = [wanted.shape.value(word) * cic.words**cic.stages / 2.0**growth for word in words]

    def level(share: float) -> float:
        return decibels(fir_response(taps, share) * cic.gain(share / cic.words))
    aliases = max(highest(level, k - edge, min(k + edge, cic.words / 2)) for k in range(1, cic.words // 2 + 1))
    said = [f"{wanted.title}, with {count} taps behind it.", f"Asked: {wanted.asked}",
            f"Made: coefficients in {wanted.shape}, the output in {shapes.signal}, "
            f"{said_of_norm(wanted.norm, share, True)}. "
            + said_of_noise(shapes.rounding, expected.noise_of_taps(words, shapes)),
            f"Response: in the pass band between {-highest(lambda share: -level(share), 0, edge):.3f} and "
            f"{highest(level, 0, edge):.3f} dB, and what comes into it from above is at {aliases:.1f} dB or less, at "
            f"{FREQUENCIES} frequencies."]
    main = (f"func main(x[{cic.words}] : {before}) y : {shapes.signal} =\nbegin\n  var low : {handed};\n"
            "  low = cic(x);\n  y = compensator(low);\nend;\n")
    parts = [cic_function(cic, before, handed), writing.fir_function("compensator", shapes, words), main]
    return f"{writing.comment(said)}{writing.array('h', wanted.shape, words)}\n" + "\n".join(parts), True


# Half-band filters


def bessel(x: float) -> float:
    """The modified Bessel function of order 0."""
    total = term = 1.0
    k = 1
    while term > total * 1e-17:
        term *= (x / (2 * k)) ** 2
        total, k = total + term, k + 1
    return total


def half_band(edge: float, attenuation: float) -> list[float]:
    """The taps of a half-band filter under a window of Kaiser, those up to the middle that are not 0: the pass band
    ends at an edge, a share of the higher rate, and the stop band begins as far on the other side of a quarter."""
    width = 2 * math.pi * (0.5 - 2 * edge)
    count = max(1, math.ceil(((attenuation - 7.95) / (2.285 * width) + 2) / 4))
    if 4 * count - 1 > MOST_TAPS * 2:
        raise Unmade(f"it needs {4 * count - 1} taps, and {MOST_TAPS * 2} are the most: a lower edge or less "
                     f"attenuation needs "
                     "fewer")
    above = attenuation - 21
    beta = 0.1102 * (attenuation - 8.7) if attenuation > 50 else 0.5842 * above**0.4 + 0.07886 * above
    made = []
    for k in range(count):
        place = 2 * (count - k) - 1
        window = bessel(beta * math.sqrt(1 - (place / (2 * count)) ** 2)) / bessel(beta)
        made.append(math.sin(math.pi * place / 2) / (math.pi * place) * window)
    return made


def whole(taps: Sequence[float]) -> list[float]:
    """All taps of a half-band filter."""
    side = [tap for pair in zip(taps, [0.0] * len(taps)) for tap in pair][:-1]
    return [*side, 0.5, *side[::-1]]


@dataclass(frozen=True)
class HalfBand:
    """A stage: whether it goes up, the words of a row that come in, its taps as words, and its shapes."""
    is_up: bool
    inputs: int
    words: tuple[int, ...]
    shapes: Shapes

    def outputs(self) -> int:
        return self.inputs * 2 if self.is_up else self.inputs // 2

    def taps(self) -> list[float]:
        """All taps, as they were made, without the gain of 2 of what goes up."""
        gain = 2 if self.is_up else 1
        return whole([self.shapes.coefficient.value(word) / gain for word in self.words])

    def word(self, place: int, age: int) -> str:
        """The word so many words before one of the row."""
        turns, own = divmod(place - age, self.inputs)
        name = f"x[{own}]" if self.inputs > 1 else "x"
        return name + (f"@{-turns}" if turns else "")

    def pair(self) -> Shape:
        """The shape of the sum of two words that have the same tap."""
        return Shape(self.shapes.input.width + 1, self.shapes.input.places)

    def sum_lines(self, number: int, place: int, step: int) -> list[str]:
        """The equations of the sum of an output, with taps that are so many words of a row apart."""
        last, pair = 2 * len(self.words) - 1, self.pair()
        made = [f"pair[{number}][{k}] = {pair}({self.word(place, step * k)}) + "
                f"{pair}({self.word(place, step * (last - k))});"
                for k in range(len(self.words))]
        middle = "" if self.is_up else f"({self.shapes.sum}({self.word(place, last)}) >> 1) + "
        products = " + ".join(f"h[{k}] * pair[{number}][{k}]" for k in range(len(self.words)))
        return [*made, f"sum[{number}] = {middle}{products};"]

    def sums(self) -> int:
        """How many outputs are sums: of what goes up every second one is a word that came in."""
        return self.inputs if self.is_up else self.outputs()

    def lines(self) -> list[str]:
        """The equations of all outputs."""
        names = [f"y[{output}]" for output in range(self.outputs())] if self.outputs() > 1 else ["y"]
        made = []
        for number in range(self.sums()):
            place, step, own = (number, 1, 2 * number) if self.is_up else (2 * number + 1, 2, number)
            made += self.sum_lines(number, place, step)
            total = f"sum[{number}]"
            made.append(
                f"{names[own]} = {total if self.shapes.is_one_word() else writing.rounded(self.shapes, total)};")
            if self.is_up:
                word = self.word(number, len(self.words) - 1)
                made.append(f"{names[own + 1]} = {writing.input_signal(self.shapes, word)};")
        return made

    def text(self, name: str, table: str) -> str:
        """The function of the stage."""
        body = "".join(f"{writing.wrapped(line.split(), '  ')}\n" for line in self.lines())
        said = f"A half-band filter that goes {'up' if self.is_up else 'down'} by 2, with the taps of {table}"
        said = f"{said}. {writing.said_of_rounding(self.shapes, len(self.words))}."
        return (f"{writing.comment([said])}func {name}(x{dims(self.inputs)} : {self.shapes.input}, "
                f"h[{len(self.words)}] : {self.shapes.coefficient}) y{dims(self.outputs())} : {self.shapes.signal} =\n"
                f"begin\n"
                f"  var pair[{self.sums()}][{len(self.words)}] : {self.pair()};\n"
                f"  var sum[{self.sums()}] : {writing.sum_type(self.shapes)};\n{body}end;\n")


def dims(count: int) -> str:
    """The dims of so many words."""
    return f"[{count}]" if count > 1 else ""


def stage_of(wanted: Wanted, before: Shape, edge: float, attenuation: float, is_up: bool, inputs: int) -> HalfBand:
    """A stage on words of a shape."""
    taps = [tap * (2 if is_up else 1) for tap in half_band(edge, attenuation)]
    # What the words of one output come to, in the order of the samples that they are taken from.
    phase = [*taps, *taps[::-1]] if is_up else whole(taps)
    shapes = replace(shapes_of(wanted), input=before)
    _, fitted, _ = scaling.fitting_taps(phase, shapes, wanted.norm, not wanted.has_places)
    if fitted.sum.places <= before.places or before.width == WIDEST:
        raise Unmade(f"words of {before} leave no place for sums that are wider")
    return HalfBand(is_up, inputs, tuple(scaling.words_in(taps, wanted.shape)), fitted)


def stages_of(wanted: Wanted, factor: int, edge: float, attenuation: float, is_up: bool) -> list[HalfBand]:
    """The stages of a factor of 2 or 4; `edge` is a share of the lower rate."""
    count = factor.bit_length() - 1
    # What a stage's higher rate is of the lower rate of all.
    rates = [2 ** (k + 1) for k in range(count)] if is_up else [2 ** (count - k) for k in range(count)]
    made, before = [], wanted.input
    for rate in rates:
        made.append(stage_of(wanted, before, edge / rate, attenuation, is_up, rate // 2 if is_up else rate))
        before = made[-1].shapes.signal
    return made


def gain_of(stages: Sequence[HalfBand], share: float) -> float:
    """The gain of all stages at a share of the lower rate, 1 at 0 Hz."""
    made = 1.0
    for stage in stages:
        made *= abs(fir_response(stage.taps(), share / (stage.outputs() if stage.is_up else stage.inputs)))
    return made


def half_band_source(wanted: Wanted, factor: int, edge: float, attenuation: float, is_up: bool) -> tuple[str, bool]:
    """The source of half-band filters that go down, or up, by 2 or 4."""
    stages = stages_of(wanted, factor, edge, attenuation, is_up)

    def level(share: float) -> float:
        return decibels(gain_of(stages, share))
    images = max(highest(level, k - edge, min(k + edge, factor / 2)) for k in range(1, factor // 2 + 1))
    signal = stages[-1].shapes.signal
    said = [f"{wanted.title}, in {writing.counted(len(stages), 'stage')}.", f"Asked: {wanted.asked}",
            f"Made: coefficients in {wanted.shape}, the output in {signal}: no input makes a signal overflow.",
            f"Response: in the pass band between {-highest(lambda share: -level(share), 0, edge):.3f} and "
            f"{highest(level, 0, edge):.3f} dB, and "
            f"{'its images are' if is_up else 'what comes into it from above is'} at "
            f"{images:.1f} dB or less, at {FREQUENCIES} frequencies."]
    tables = "".join(writing.array(f"h{number}", wanted.shape, stage.words) for number, stage in enumerate(stages, 1))
    texts = [stage.text(f"stage{number}", f"h{number}") for number, stage in enumerate(stages, 1)]
    return f"{writing.comment(said)}{tables}\n" + "\n".join([*texts, main_function(wanted.input, stages)]), True


def main_function(before: Shape, stages: Sequence[HalfBand]) -> str:
    """The function that calls the stages, one after another."""
    names = [*(f"v{number}" for number in range(1, len(stages))), "y"]
    variables = "".join(f"  var {name}{dims(stage.outputs())} : {stage.shapes.signal};\n"
                        for name, stage in zip(names, stages[:-1]))
    calls = "".join(f"  {name} = stage{number}({own}, h{number});\n"
                    for number, (name, own) in enumerate(zip(names, ["x", *names]), 1))
    last = stages[-1]
    return (f"func main(x{dims(stages[0].inputs)} : {before}) y{dims(last.outputs())} : {last.shapes.signal} =\nbegin\n"
            f"{variables}{calls}end;\n")
