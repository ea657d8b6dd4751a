"""Scaling of a cascade: the gain of each section by a norm, with room for the sum of all quantisation errors. The scale
is found by responses in floating point, up to some length; what is said of it is certified from the words that it
leaves."""
import math
import time
from collections.abc import Callable, Sequence
from dataclasses import dataclass, replace
from enum import Enum
from fractions import Fraction

from silc.designing import forms
from silc.designing.certificates import Certificate, certified, certified_rounding
from silc.designing.filters import Section
from silc.designing.forms import OUTPUT, Equation, Form, run
from silc.designing.shapes import Shape
from silc.designing.spectra import magnitudes

# A response is over where it is this share of its beginning; so many samples are looked at, at least and at most.
OVER, LEAST_LENGTH, MOST_LENGTH = 1e-7, 64, 60_000
# What is added to a norm for what is left out of it, as far as it is looked at.
MARGIN = 1 + 1e-6
# At how many frequencies a peak is looked for, and how much it may pass the greatest of these.
PEAK_BINS, PEAK_MARGIN = 2048, 1.001
# Sums of products have so many bits, or as many as the signals where these have more.
SUM_BITS = 32
# How often a section is made a little smaller, since its words are greater than its numbers; and how often all are,
# since their responses are longer than what was looked at, each time with so much room beside what is certified.
TRIES, ROUNDS, ROOM = 60, 6, 1 + 1e-6


class Norm(Enum):
    """By which size of a response a signal is kept in its range."""
    SUM = "l1"
    ROOT = "l2"
    PEAK = "peak"
    NONE = "none"


class Rounding(Enum):
    """What happens to the bits that fall off."""
    NEAREST = "nearest"
    DOWN = "down"
    ZERO = "zero"

    def error(self) -> float:
        """The greatest error in units of the last bit."""
        return 0.5 if self is Rounding.NEAREST else 1.0


class Unscaled(ValueError):
    """Why a filter has no place in the shapes."""


@dataclass(frozen=True)
class Shapes:
    """The shapes of a design: of the coefficients, of the input, of the signals, and of what the coefficients
    multiply."""
    coefficient: Shape
    input: Shape
    signal: Shape
    rounding: Rounding
    is_of_input: bool = False

    def exact_places(self) -> int:
        """The places of a product."""
        return (self.input if self.is_of_input else self.signal).places + self.coefficient.places

    @property
    def of_products(self) -> Rounding:
        """How a product is rounded that has no place in the sum."""
        is_down = self.is_one_word() and self.rounding is Rounding.DOWN
        return Rounding.DOWN if is_down else Rounding.NEAREST

    def is_one_word(self) -> bool:
        """Whether a sum is a word of the signals itself, so that nothing is rounded after it."""
        return self.sum == self.signal

    @property
    def sum(self) -> Shape:
        """The shape of the sums of products, which has the range of the signals at least."""
        width = max(SUM_BITS, self.signal.width)
        return Shape(width, min(self.exact_places(), width - self.signal.whole_bits, width - 1))

    def is_exact(self) -> bool:
        """Whether no product is rounded before the sum is."""
        return self.sum.places == self.exact_places()

    def error(self, products: int) -> float:
        """The greatest error of a signal that is made of so many products."""
        cut = self.rounding.error() * self.signal.step if self.sum.places > self.signal.places else 0.0
        return cut + (0.0 if self.is_exact() else products * self.of_products.error() * self.sum.step)

    def check(self) -> None:
        """Raises what can't be done in these shapes."""
        if self.rounding is Rounding.ZERO and self.is_one_word() and not self.is_exact():
            raise Unscaled(f"--rounding zero is that of a sum which is wider than the signals, and with signals of "
                           f"{self.signal.width} bits each product is rounded by itself: nearest and down do that")

    def input_error(self) -> float:
        """The greatest error of the input as a signal."""
        if self.signal.places >= self.input.places:
            return 0.0
        return self.signal.step * (0.5 if self.has_headroom() else 1.0)

    def has_headroom(self) -> bool:
        """Whether the signals have a greater range than the input, so that rounding up stays in it."""
        return self.signal.whole_bits > self.input.whole_bits

    def limit(self) -> float:
        """The greatest value that a signal may have."""
        return self.signal.value(self.signal.greatest)


@dataclass
class Allowance:
    """How many seconds are left in which bounds may be looked for."""
    seconds: float

    def spent_on(self, work: Callable[[float], Certificate]) -> Certificate:
        """What a work gives that takes a part of them."""
        began = time.monotonic()
        made = work(max(0.0, self.seconds))
        self.seconds -= time.monotonic() - began
        return made


@dataclass(frozen=True)
class Words:
    """A section's coefficients as words: those of a direct form, or of a lattice."""
    form: Form
    b: tuple[int, ...] = ()
    a: tuple[int, ...] = ()
    gain: int = 0
    k: tuple[int, ...] = ()
    v: tuple[int, ...] = ()

    def equations(self, shape: Shape) -> list[Equation]:
        def real(words: Sequence[int]) -> list[float]:
            return [shape.value(word) for word in words]
        if self.form is Form.LATTICE:
            return forms.lattice(shape.value(self.gain), real(self.k), real(self.v))
        return forms.direct(real(self.b), real(self.a))

    def section(self, shape: Shape, place: str) -> Section:
        """The section that they are."""
        if self.form is not Form.LATTICE:
            b, a = ([shape.value(word) for word in words] for words in (self.b, self.a))
            return Section((*b, *[0.0] * (3 - len(b))), (*a, *[0.0] * (2 - len(a))), place)
        k = [shape.value(word) for word in self.k]
        numerator = forms.numerator([shape.value(word) for word in self.v], k)
        return Section(tuple(shape.value(self.gain) * x for x in numerator), forms.denominator(k), place)


def words_of(form: Form, section: Section, gain: float, scale: float, shape: Shape, named: str) -> Words:
    """A section's coefficients as words of the shape: its numerator times `scale`, behind a gain where it is a
    lattice."""
    def words(names: Sequence[str], numbers: Sequence[float]) -> tuple[int, ...]:
        made = tuple(shape.nearest(number) for number in numbers)
        for name, number, word in zip(names, numbers, made):
            if not shape.has(word):
                raise Unscaled(f"{named}: {no_place(name, number, shape)}")
        return made
    order = section.order()
    if form is not Form.LATTICE:
        return Words(form, b=words(("b0", "b1", "b2"), [scale * x for x in section.b[: order + 1]]),
                     a=words(("a1", "a2"), section.a[:order]))
    k = words(("k1", "k2"), forms.reflections(section.a))
    rounded = [shape.value(word) for word in k]
    v = forms.ladder([scale * x for x in section.b], rounded)
    return Words(form, gain=words(("the gain",), [gain])[0], k=k, v=words(("v0", "v1", "v2"), v))


def no_place(name: str, number: float, shape: Shape) -> str:
    """That a coefficient has no place in a shape, and the nearest shape in which it has one."""
    said = f"{name} is {number:.6g}, which has no place in {shape}"
    wider = (Shape(shape.width, places) for places in range(shape.places - 1, -1, -1))
    better = next((other for other in wider if other.has(other.nearest(number))), None)
    return f"{said}; {better} has one" if better else said


def length_for(section: Section) -> int:
    """After how many samples a response of this section is over."""
    radius = min(section.radius(), 1 - 1e-12)
    wanted = LEAST_LENGTH if radius < 1e-3 else math.log(OVER) / math.log(radius) * 1.2
    return int(min(max(wanted, LEAST_LENGTH), MOST_LENGTH))


def norm_of(norm: Norm, samples: Sequence[float]) -> float:
    """The size of a response by a norm, and a little for what is left out of it."""
    if norm is Norm.ROOT:
        return math.sqrt(sum(x * x for x in samples)) * MARGIN
    if norm is Norm.PEAK:
        return max(magnitudes(samples, PEAK_BINS)) * PEAK_MARGIN
    return sum([abs(sample) for sample in samples]) * MARGIN


@dataclass
class Source:
    """What goes into a section: the greatest size of a signal or an error, and its response up to there."""
    weight: float
    response: list[float]
    is_signal: bool


@dataclass
class Measure:
    """Of each rounded signal of a section how great what goes in makes it, and its errors; and what goes on from
    there."""
    driven: dict[str, float]
    own: dict[str, float]
    sources: list[Source]

    def most(self, limit: float, names: Sequence[str]) -> float:
        """By which factor the signals may be greater."""
        return min((limit - self.own[name]) / self.driven[name] for name in names)

    def use(self, limit: float) -> float:
        """The share of their range that the signals may use."""
        return max((self.driven[name] + self.own[name]) / limit for name in self.driven)


class Cascade:
    """The sections that are scaled so far, and what goes on from the last of them. `tighter` says for each section by
    how much less than its range it may use."""

    certificate: Certificate

    def __init__(self, shapes: Shapes, norm: Norm, length: int, tighter: list[float]) -> None:
        self.shapes, self.norm, self.length, self.tighter = shapes, norm, length, tighter
        full = shapes.input.value(-shapes.input.least)
        self.made: list[tuple[Words, Section]] = []
        self.used: list[float] = []
        self.sources = [Source(full, [1.0], True)]
        if shapes.input_error():
            self.sources.append(Source(shapes.input_error(), [1.0], False))

    def measure(self, equations: Sequence[Equation]) -> Measure:
        """How great the signals of a section are by the norm, and what all errors up to it and in it add to them."""
        names = [equation.signal for equation in equations if equation.is_rounded]
        measure = Measure(dict.fromkeys(names, 0.0), dict.fromkeys(names, 0.0), [])
        for source in self.sources:
            signals = run(equations, source.response, length=self.length)
            measure.sources.append(replace(source, response=signals[OUTPUT]))
            for name in names:
                norm = self.norm if source.is_signal and self.norm is not Norm.NONE else Norm.SUM
                measure.driven[name] += source.weight * norm_of(norm, signals[name])
        for equation in equations:
            error = self.shapes.error(len(equation.terms))
            if equation.is_rounded and error:
                signals = run(equations, kicked=equation.signal, length=self.length)
                measure.sources.append(Source(error, signals[OUTPUT], False))
                for name in names:
                    measure.own[name] += error * norm_of(Norm.SUM, signals[name])
        return measure

    def add(self, words: Words, place: str, measure: Measure) -> None:
        """Adds a section: what goes in goes through it, and so do its own errors."""
        self.used.append(measure.use(self.shapes.limit()))
        self.sources = measure.sources
        self.made.append((words, words.section(self.shapes.coefficient, place)))

    def limit(self) -> float:
        """The greatest value that a signal of the next section may have."""
        return self.shapes.limit() / self.tighter[len(self.made)]

    def certify(self, allowance: Allowance) -> bool:
        """Certifies what the sections use; says whether none passes its range, or where that is not asked for."""
        certify = certified if self.norm is Norm.SUM else certified_rounding
        self.certificate = allowance.spent_on(lambda seconds: certify(self, seconds))
        return self.norm is not Norm.SUM or max(self.certificate.uses) <= 1

    def tightened(self) -> list[float]:
        """By how much less than their range the sections may use, since these were longer than what was looked at."""
        return [tight * max(1.0, float(use) / own * ROOM) if use > 1 else tight
                for tight, use, own in zip(self.tighter, self.certificate.uses, self.used)]

    def share(self) -> float | Fraction:
        """The share of their range that the signals use at most, by the norm."""
        return max(self.certificate.uses if self.norm is Norm.SUM else self.used)


# Sections, one after another


class Scaler:
    """Makes the words of sections so that each signal just fits."""

    def __init__(self, cascade: Cascade, form: Form) -> None:
        self.cascade, self.form, self.shape = cascade, form, cascade.shapes.coefficient

    def rounded(self, numbers: Sequence[float]) -> list[float]:
        return [self.shape.value(self.shape.nearest(number)) for number in numbers]

    def most(self, equations: Sequence[Equation], names: Sequence[str], numbers: Sequence[float],
             section: Section) -> float:
        """By how much the signals may be greater, or less where the numbers times it have no place; 1 without a
        norm."""
        top = self.shape.value(self.shape.greatest) / max(abs(number) for number in numbers)
        if self.cascade.norm is Norm.NONE:
            return min(1.0, top)
        most = self.cascade.measure(equations).most(self.cascade.limit(), names)
        if most <= 0:
            raise Unscaled(f"{section.place}: the errors of rounding alone fill the range of the signals")
        return min(most, top)

    def gain(self, section: Section) -> float:
        """The gain before a lattice: as great as the signals in it allow."""
        if self.form is not Form.LATTICE:
            return 1.0
        k = self.rounded(forms.reflections(section.a))
        plain = forms.lattice(1.0, k, forms.ladder(section.b, k))
        most = self.most(plain, [equation.signal for equation in plain if equation.signal != OUTPUT], [1.0], section)
        return self.shape.value(math.floor(most / self.shape.step))

    def scale(self, section: Section, gain: float) -> float:
        """By how much a section's numerator may be multiplied, behind its gain."""
        if self.form is Form.LATTICE:
            k = self.rounded(forms.reflections(section.a))
            numbers = forms.ladder(section.b, k)
            return self.most(forms.lattice(gain, k, numbers), [OUTPUT], numbers, section)
        return self.most(forms.direct(section.b, self.rounded(section.a)), [OUTPUT], section.b, section)

    def add(self, section: Section, named: str, rest: float | None = None) -> float:
        """Adds a section with a scale of its own, or with what is left of the gain; returns what the scale was."""
        gain = self.gain(section)
        scale = self.scale(section, gain) if rest is None else rest / gain
        for _ in range(TRIES):
            words = words_of(self.form, section, gain, scale, self.shape, named)
            check_poles(words.section(self.shape, section.place), named)
            measure = self.cascade.measure(words.equations(self.shape))
            if measure.use(self.cascade.limit()) <= 1 or self.cascade.norm is Norm.NONE:
                self.cascade.add(words, section.place, measure)
                return scale * gain
            if rest is not None:
                raise Overflowing(f"{named}: its signal may pass the range of {self.cascade.shapes.signal}")
            scale *= 1 - self.shape.step / max(abs(number) for number in section.b) / abs(scale)
        raise Unscaled(f"{named}: no scale keeps it in the range of {self.cascade.shapes.signal}")


def check_poles(section: Section, named: str) -> None:
    if not section.is_stable():
        raise Unscaled(f"{named}: the poles of its rounded coefficients leave the unit circle, "
                       f"{section.radius():.6f} from its centre")


class Overflowing(Unscaled):
    """The signals need a greater range."""


def cascade_of(gain: float, sections: Sequence[Section], shapes: Shapes, norm: Norm, form: Form,
               allowance: Allowance) -> Cascade:
    """The sections as words, scaled, over signals of these shapes, with a certificate of what they use."""
    shapes.check()
    if norm is not Norm.NONE and shapes.signal.whole_bits < shapes.input.whole_bits:
        raise Unscaled(f"the input has a greater range than {shapes.signal}")
    length, tighter = min(max(map(length_for, sections)), MOST_LENGTH), [1.0] * len(sections)
    for _ in range(ROUNDS):
        cascade = scaled(gain, sections, Cascade(shapes, norm, length, tighter), form)
        if cascade.certify(allowance):
            return cascade
        tighter = cascade.tightened()
    raise Unscaled(f"no scale was found that keeps the signals in {shapes.signal}")


def scaled(gain: float, sections: Sequence[Section], cascade: Cascade, form: Form) -> Cascade:
    """The cascade with all sections."""
    scaler, rest = Scaler(cascade, form), gain
    for number, section in enumerate(sections, 1):
        named = f"{section.place}: section {number}"
        rest /= scaler.add(section, named, rest if number == len(sections) else None)
    return cascade


def impulse_response(gain: float, sections: Sequence[Section], length: int) -> list[float]:
    samples = [gain]
    for section in sections:
        samples = run(forms.direct(section.b, section.a), samples, length=length)[OUTPUT]
    return samples


def most_places(gain: float, sections: Sequence[Section], shapes: Shapes, norm: Norm) -> int:
    """With how many places the input and the output have a place in the signals, but for errors of rounding."""
    width = shapes.signal.width
    most = min(width - shapes.input.whole_bits, width - 1)
    if norm is Norm.NONE:
        return most
    length = min(max(map(length_for, sections)), MOST_LENGTH)
    reached = norm_of(norm, impulse_response(gain, sections, length)) * shapes.input.value(-shapes.input.least)
    return min(most, width - 1 - math.ceil(math.log2(reached)))


def fitting_cascade(gain: float, sections: Sequence[Section], shapes: Shapes, norm: Norm, form: Form,
                    allowance: Allowance) -> Cascade:
    """The same, over signals with as many places as keep them in their range."""
    last = Unscaled(f"the output has no place in {shapes.signal.width} bits")
    for places in range(most_places(gain, sections, shapes, norm), -1, -1):
        try:
            fitted = replace(shapes, signal=Shape(shapes.signal.width, places))
            return cascade_of(gain, sections, fitted, norm, form, allowance)
        except Overflowing as why:
            last = why
    raise last


# FIR filters


def fitting_taps(taps: Sequence[float], shapes: Shapes, norm: Norm,
                 is_open: bool) -> tuple[list[int], Shapes, Fraction]:
    """The taps as words, the shapes, and how much of its range the output may use. Where they are open, it has as many
    places as the norm allows."""
    words = words_in(taps, shapes.coefficient)
    reached = size_of(words, shapes, norm)
    for places in range(shapes.signal.width - 1, -1, -1) if is_open else [shapes.signal.places]:
        fitted = replace(shapes, signal=Shape(shapes.signal.width, places), is_of_input=True)
        most, limit = reached + Fraction(fitted.error(len(words))), Fraction(fitted.limit())
        if most <= limit and (norm is not Norm.NONE or not is_open or places <= shapes.input.places):
            fitted.check()
            return words, fitted, most / limit
    raise Unscaled(f"the output may reach {float(reached):.6g}, which has no place in "
                   f"{f'{shapes.signal.width} bits' if is_open else shapes.signal}")


def size_of(words: list[int], shapes: Shapes, norm: Norm) -> Fraction:
    """How great the output of taps gets by a norm: by the sum of magnitudes just so much."""
    full = Fraction(shapes.input.value(-shapes.input.least))
    if norm is Norm.NONE:
        return Fraction(0)
    if norm is Norm.SUM:
        return sum([abs(word) for word in words]) * Fraction(shapes.coefficient.step) * full
    return Fraction(norm_of(norm, [shapes.coefficient.value(word) for word in words])) * full


def words_in(taps: Sequence[float], shape: Shape) -> list[int]:
    made = [shape.nearest(tap) for tap in taps]
    for number, (tap, word) in enumerate(zip(taps, made)):
        if not shape.has(word):
            raise Unscaled(no_place(f"tap {number}", tap, shape))
    return made
