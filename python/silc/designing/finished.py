"""The source of a filter with the comment that says what was asked, what was made of it, and how far the response
moved."""
import math
from dataclasses import dataclass
from enum import Enum
from fractions import Fraction

from silc.designing import expected, scaling, writing
from silc.designing.filters import Move, Section, fir_response, moved, paired, response, shares_for
from silc.designing.forms import Form
from silc.designing.scaling import Allowance, Norm, Rounding, Shapes
from silc.designing.shapes import Shape

# How far the response moved is said up to these, in decibels, upward.
PASS_STEP, STOP_STEP = 1e-3, 1e-1
# What is certified is said up to these, upward: shares of a range, and last bits.
SHARE_PLACES, BIT_PLACES = 3, 1


class Order(Enum):
    """In which order sections follow one another: poles nearest to the unit circle last, first, or as they are
    given."""
    UP = "up"
    DOWN = "down"
    GIVEN = "given"


@dataclass(frozen=True)
class Wanted:
    """What is wanted of a filter: the words for it, the shapes of its coefficients, of the input and of the signals,
    whose places may be open, and how it is scaled, computed, rounded and put in order."""
    title: str
    asked: str
    shape: Shape
    input: Shape
    signal: Shape | None = None
    has_places: bool = False
    norm: Norm = Norm.SUM
    form: Form = Form.DIRECT
    rounding: Rounding = Rounding.NEAREST
    order: Order = Order.UP
    single: bool = False
    seconds: float = 60.0


def upward(number: float, step: float) -> str:
    """A number in steps, upward, as text."""
    places = round(-math.log10(step))
    return f"{math.ceil(number / step + 0.5) * step:.{places}f}"


def said_of_move(move: Move) -> str:
    said = f"Response: it moved by at most {upward(move.pass_band, PASS_STEP)} dB in the pass band"
    if move.stop_band is not None:
        said += f", and in the stop band by at most {upward(move.stop_band, STOP_STEP)} dB of the greatest gain"
    if move.asked is not None and move.made is not None:
        said += f". The highest side lobe is {move.made:.1f} dB, and {move.asked:.1f} dB were asked"
    return said + "."


def upward_in(number: Fraction, places: int) -> str:
    """A fraction with so many decimal places, upward."""
    scaled = math.ceil(number * 10**places)
    return f"{scaled // 10**places}.{scaled % 10**places:0{places}d}"


def downward_in(number: Fraction, places: int) -> str:
    scaled = math.floor(number * 10**places)
    return f"{scaled // 10**places}.{scaled % 10**places:0{places}d}"


def said_of_norm(norm: Norm, share: float | Fraction, is_bound: bool) -> str:
    if norm is Norm.NONE:
        return "not scaled, so they may overflow"
    if norm is Norm.SUM and not is_bound:
        return (f"scaled by {norm.value}, by some input at least {downward_in(Fraction(share), SHARE_PLACES)} of their "
                f"range, and no "
                "bound was found, so an input may make one overflow")
    ensured = {Norm.SUM: "no input makes one overflow", Norm.ROOT: "an input may make one overflow",
               Norm.PEAK: "no tone makes one overflow"}[norm]
    estimated = "" if norm is Norm.SUM else ", as an estimate"
    return (f"scaled by {norm.value}, up to {upward_in(Fraction(share), SHARE_PLACES)} of their range{estimated}: "
            f"{ensured}")


def said_of_rounding(cascade: scaling.Cascade) -> str:
    """What all roundings together do to the output."""
    shapes, certificate = cascade.shapes, cascade.certificate
    bits = certificate.rounding / Fraction(shapes.signal.step)
    said = (f"All errors of rounding together are at most {upward_in(bits, BIT_PLACES)} of the output's last bit."
            if certificate.is_bound else "No bound was found of all errors of rounding together.")
    return f"{said} {said_of_noise(shapes.rounding, expected.noise_of_cascade(cascade))}"


def said_of_noise(rounding: Rounding, level: float | None) -> str:
    if level is None:
        return "Nothing is rounded."
    if rounding is Rounding.ZERO:
        return "The noise of rounding toward zero goes with the signal, and is not estimated."
    return f"The noise of rounding is expected at {level:.1f} dB of full scale, which is an estimate."


def shapes_of(wanted: Wanted) -> Shapes:
    signal = wanted.signal or Shape(wanted.input.width, 0)
    return Shapes(wanted.shape, wanted.input, signal, wanted.rounding)


def order_of(sections: list[Section], wanted: Wanted) -> tuple[float, list[Section]]:
    """The gain and the sections in their order."""
    if wanted.order is Order.GIVEN:
        return 1.0, sections
    gain, made = paired(sections, wanted.single)
    return gain, made if wanted.order is Order.DOWN else made[::-1]


def made_cascade(wanted: Wanted, sections: list[Section]) -> tuple[scaling.Cascade, list[str]]:
    """The cascade of sections, scaled, and what its comment says."""
    gain, ordered = order_of(sections, wanted)
    scale = scaling.fitting_cascade if not wanted.has_places else scaling.cascade_of
    cascade = scale(gain, ordered, shapes_of(wanted), wanted.norm, wanted.form, Allowance(wanted.seconds))
    made = [section for _, section in cascade.made]
    shares = shares_for([*sections, *made])
    move = moved([abs(response(sections, share)) for share in shares], [abs(response(made, share)) for share in shares])
    return cascade, [
        f"{wanted.title}, as {writing.counted(len(made), 'section')} in {writing.FORM_NAMES[wanted.form]}.",
        f"Asked: {wanted.asked}",
        f"Made: coefficients in {wanted.shape}, signals in {cascade.shapes.signal}, "
        f"{said_of_norm(wanted.norm, cascade.share(), cascade.certificate.is_bound)}. {said_of_rounding(cascade)}",
        said_of_move(move)]


def sections_source(wanted: Wanted, sections: list[Section]) -> tuple[str, bool]:
    """The source of a cascade of sections, and whether all that its comment says is certified."""
    cascade, said = made_cascade(wanted, sections)
    return writing.cascade_source(said, cascade, wanted.form), cascade.certificate.is_bound


def taps_source(wanted: Wanted, taps: list[float]) -> tuple[str, bool]:
    """The source of a FIR filter, and whether all that its comment says is certified, as it is."""
    words, shapes, share = scaling.fitting_taps(taps, shapes_of(wanted), wanted.norm, not wanted.has_places)
    made, shares = [wanted.shape.value(word) for word in words], shares_for()
    move = moved([abs(fir_response(taps, share)) for share in shares],
                 [abs(fir_response(made, share)) for share in shares])
    said = [f"{wanted.title}, with {len(taps)} taps.", f"Asked: {wanted.asked}",
            f"Made: coefficients in {wanted.shape}, the output in {shapes.signal}, "
            f"{said_of_norm(wanted.norm, share, True)}. "
            + said_of_noise(shapes.rounding, expected.noise_of_taps(words, shapes)), said_of_move(move)]
    return writing.fir_source(said, shapes, words), True
