"""Crossovers of Linkwitz and Riley: a low-pass and what an allpass has more than it, so that the two add up to the
allpass."""
from __future__ import annotations

import math
from dataclasses import dataclass, replace
from fractions import Fraction

from silc import design
from silc.designing import writing
from silc.designing.certificates import Certificate, certified
from silc.designing.filters import Section
from silc.designing.finished import SHARE_PLACES, Wanted, shapes_of, upward_in
from silc.designing.scaling import Allowance, Cascade, Norm, Shapes, Unscaled, cascade_of, most_places
from silc.designing.shapes import Shape

# The qualities of the sections of half of the order, of Butterworth; of order 2 it is a section of the first order.
QUALITIES = {2: (), 4: (math.sqrt(0.5),), 8: tuple(0.5 / math.cos(math.pi * k / 8) for k in (1, 3))}
ORDERS = tuple(QUALITIES)


def half(hertz: float, order: int, rate: float) -> list[Section]:
    """A low-pass of Butterworth of half of the order."""
    if not QUALITIES[order]:
        turn = math.tan(design.angle_of(hertz, rate) / 2)
        share = turn / (1 + turn)
        return [Section((share, share, 0.0), ((turn - 1) / (turn + 1), 0.0), "the crossover")]
    made = [design.lowpass(hertz, q=quality, rate=rate).sections[0] for quality in QUALITIES[order]]
    return [replace(section, place="the crossover") for section in made]


def turned(section: Section) -> Section:
    """The allpass with the poles of a section."""
    a1, a2 = section.a
    return replace(section, b=(a2, a1, 1.0) if section.order() == 2 else (a1, 1.0, 0.0))


@dataclass(frozen=True)
class Branch:
    """A branch of a crossover with what it uses of its range."""
    cascade: Cascade
    certificate: Certificate

    def use(self) -> Fraction:
        return max(self.certificate.uses)


def branch_of(sections: list[Section], shapes: Shapes, wanted: Wanted, allowance: Allowance) -> Branch:
    """A branch just as its sections are, without a scale, and a certificate of how much of the range they use."""
    cascade = cascade_of(1.0, sections, shapes, Norm.NONE, wanted.form, allowance)
    return Branch(cascade, allowance.spent_on(lambda seconds: certified(cascade, seconds)))


def fitting_branches(low: list[Section], turn: list[Section], wanted: Wanted) -> tuple[Branch, Branch, Fraction]:
    """Both branches over signals in which they, and their difference, have a place; and how much of the range that
    uses."""
    shapes, allowance = shapes_of(wanted), Allowance(wanted.seconds)
    most = most_places(1.0, turn, shapes, Norm.SUM)
    for places in [shapes.signal.places] if wanted.has_places else range(most, -1, -1):
        fitted = replace(shapes, signal=Shape(shapes.signal.width, places))
        both = [branch_of(sections, fitted, wanted, allowance) for sections in (low, turn)]
        use = both[0].use() + both[1].use()
        if use <= 1:
            return both[0], both[1], use
    raise Unscaled(
        f"the crossover has no place in {shapes.signal if wanted.has_places else f'{shapes.signal.width} bits'}")


def crossover_function(low: Cascade, turn: Cascade) -> str:
    """The function of a crossover; the tables of the low-pass stand before those of the allpass."""
    shapes, count, all_ = low.shapes, len(low.made), len(turn.made)
    calls = [writing.called(number, words) for number, (words, _) in enumerate(low.made, 1)]
    lines = [f"s[0] = {writing.input_signal(shapes)};", *calls, "t[0] = s[0];"]
    for number, (words, _) in enumerate(turn.made, 1):
        own = writing.called(number + count, words).partition("=")[2]
        own = own.replace(f"s[{number + count - 1}]", f"t[{number - 1}]")
        lines.append(f"t[{number}] ={own}")
    lines += [f"low = s[{count}];", f"high = t[{all_}] - s[{count}];"]
    return (f"/* A low-pass, and what the allpass t has more than it: low + high is the allpass, to the last bit. */\n"
            f"func crossover(x : {shapes.input}) (low : {shapes.signal}, high : {shapes.signal}) =\nbegin\n"
            f"  var s[{count + 1}], t[{all_ + 1}] : {shapes.signal};\n" + "".join(f"  {line}\n" for line in lines)
            + "end;\n")


def main_function(shapes: Shapes, is_stereo: bool) -> str:
    """The function that calls the crossover for each channel."""
    names = [("left", "left_low", "left_high"),
             ("right", "right_low", "right_high")] if is_stereo else [("x", "low", "high")]
    inputs = ", ".join(f"{own} : {shapes.input}" for own, _, _ in names)
    results = ", ".join(f"{name} : {shapes.signal}" for _, *outs in names for name in outs)
    calls = "".join(f"  ({low}, {high}) = crossover({own});\n" for own, low, high in names)
    return f"func main({inputs}) ({results}) =\nbegin\n{calls}end;\n"


def crossover_source(wanted: Wanted, hertz: float, order: int, rate: float, is_stereo: bool) -> tuple[str, bool]:
    """The source of a crossover, and whether all that its comment says is certified."""
    own = half(hertz, order, rate)
    low, turn, use = fitting_branches(own + own, [turned(section) for section in own], wanted)
    shapes, is_bound = low.cascade.shapes, low.certificate.is_bound and turn.certificate.is_bound
    ensured = "no input makes one overflow" if is_bound else "and no bound was found, so an input may make one overflow"
    high = "what is above it, with the other sign where it meets the low-pass" if order == 2 else "what is above it"
    said = [f"{wanted.title}: the first output is below {hertz:g} Hz, the second {high}.", f"Asked: {wanted.asked}",
            f"Made: coefficients in {wanted.shape}, signals in {shapes.signal}, without a scale, up to "
            f"{upward_in(use, SHARE_PLACES)} of their range: {ensured}. Both outputs together are an allpass."]
    words = [made for branch in (low, turn) for made, _ in branch.cascade.made]
    tables = "".join(writing.tables_of(number, made, wanted.shape) for number, made in enumerate(words, 1))
    parts = [writing.section_functions(words, wanted.form, shapes), crossover_function(low.cascade, turn.cascade),
             main_function(shapes, is_stereo)]
    return f"{writing.comment(said)}{tables}\n" + "\n".join(parts), is_bound
