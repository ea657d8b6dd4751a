"""Filters by their numbers in hertz and decibels, made sources with words of so many bits.

    silc.design.peak(1000, db=3, q=0.7, rate=48000).source(shape=(24, 23))

The designs of one section are those of an equaliser: the bilinear transform of analogue prototypes, with the frequency
where it is asked. `iir`, `kaiser` and `remez` are SciPy's, where that is there.
"""
from __future__ import annotations

import math
from collections.abc import Sequence
from dataclasses import dataclass, replace
from typing import Any

from silc.designing import scipy_designs
from silc.designing.filters import Section, decibels, fir_response, response
from silc.designing.finished import Order, Wanted, sections_source, taps_source
from silc.designing.forms import Form
from silc.designing.scaling import Norm, Rounding
from silc.designing.shapes import WIDEST, Shape

# A shape as (width, places), as (24, 23) for fix<24,23>.
ShapeWords = tuple[int, int]
PLACE = "silc.design"


@dataclass(frozen=True)
class Design:
    """A filter in real numbers: sections of the second order, or taps. `asked` is how it was asked for."""
    asked: str
    rate: float
    sections: tuple[Section, ...] = ()
    taps: tuple[float, ...] = ()

    def then(self, other: Design) -> Design:
        """This filter and another one behind it."""
        if self.taps or other.taps:
            raise ValueError("filters of taps do not follow one another")
        return replace(self, asked=f"{self.asked} and {other.asked}", sections=self.sections + other.sections)

    def gain(self, frequency: float) -> complex:
        """The gain at a frequency in hertz."""
        share = frequency / self.rate
        return complex(fir_response(self.taps, share) if self.taps else response(self.sections, share))

    def decibels(self, frequency: float) -> float:
        """The magnitude at a frequency in hertz, in decibels."""
        return float(decibels(self.gain(frequency)))

    def source(self, shape: ShapeWords = (24, 23), coefficients: ShapeWords | None = None,
               signals: ShapeWords | None = None,
               norm: str = "l1", form: str = "df1", rounding: str = "nearest", order: str = "up", single: bool = False,
               seconds: float = 60.0, **programs: Any) -> Any:
        """The filter as a `Source`, scaled so that no signal passes its range (tools/design says how).

        `shape` is that of the input, `signals` that of the signals: of the same width and as many places as the norm
        allows where it is not given. `coefficients` are as wide as the input, with as many places as the largest one
        leaves, where they are not given. `norm` is l1, l2, peak or none, `form` df1, df2t or lattice, `rounding`
        nearest, down or zero.
        """
        from silc.source import Source
        return Source(text=self.text(shape, coefficients, signals, norm, form, rounding, order, single, seconds),
                      **programs)

    def text(self, shape: ShapeWords = (24, 23), coefficients: ShapeWords | None = None,
             signals: ShapeWords | None = None,
             norm: str = "l1", form: str = "df1", rounding: str = "nearest", order: str = "up", single: bool = False,
             seconds: float = 60.0) -> str:
        """The text of that source."""
        wanted = Wanted(f"A filter at {self.rate:,g} samples a second", self.asked,
                        Shape(*coefficients) if coefficients else self.fitting(shape[0]), Shape(*shape),
                        Shape(*signals) if signals else Shape(shape[0], 0), signals is not None, Norm(norm), Form(form),
                        Rounding(rounding), Order(order), single, seconds)
        made, _ = taps_source(wanted, list(self.taps)) if self.taps else sections_source(wanted, list(self.sections))
        return made

    def fitting(self, width: int) -> Shape:
        """The shape of so many bits that has all coefficients, with room for the scale of a section."""
        numbers = self.taps or [number for section in self.sections for number in (*section.b, *section.a)]
        largest = max((abs(number) for number in numbers), default=1.0)
        whole = max(1, math.frexp(largest)[1] + 1)
        return Shape(min(width, WIDEST), max(0, min(width, WIDEST) - whole))


def cookbook(asked: str, rate: float, b: Sequence[float], a: Sequence[float]) -> Design:
    """A design of one section, whose a0 need not be 1."""
    a0 = a[0]
    return Design(asked, rate, (Section((b[0] / a0, b[1] / a0, b[2] / a0), (a[1] / a0, a[2] / a0), PLACE),))


def angle_of(frequency: float, rate: float) -> float:
    """The angle of a frequency on the unit circle."""
    if not 0 < frequency < rate / 2:
        raise ValueError(f"the frequency {frequency:g} Hz is not between 0 and {rate / 2:g} Hz, half of the rate")
    return 2 * math.pi * frequency / rate


def peak(frequency: float, *, db: float, q: float, rate: float) -> Design:
    """A peak of `db` decibels at a frequency in hertz, with the quality `q`; a dip where `db` is below 0."""
    angle, amount = angle_of(frequency, rate), 10 ** (db / 40)
    alpha, cosine = math.sin(angle) / (2 * q), math.cos(angle)
    return cookbook(f"a peak of {db:g} dB at {frequency:g} Hz with the quality {q:g}", rate,
                    (1 + alpha * amount, -2 * cosine, 1 - alpha * amount),
                    (1 + alpha / amount, -2 * cosine, 1 - alpha / amount))


def shelf(frequency: float, db: float, q: float, rate: float, sign: int) -> tuple[list[float], list[float]]:
    """The coefficients of a shelf below (`sign` 1) or above (-1) a frequency."""
    angle, amount = angle_of(frequency, rate), 10 ** (db / 40)
    cosine, root = math.cos(angle), 2 * math.sqrt(amount) * math.sin(angle) / (2 * q)
    up, down = amount + 1, amount - 1
    return ([amount * (up - sign * down * cosine + root), sign * 2 * amount * (down - sign * up * cosine),
             amount * (up - sign * down * cosine - root)],
            [up + sign * down * cosine + root, -sign * 2 * (down + sign * up * cosine),
             up + sign * down * cosine - root])


def low_shelf(frequency: float, *, db: float, q: float = math.sqrt(0.5), rate: float) -> Design:
    """A shelf of `db` decibels below a frequency in hertz."""
    return cookbook(f"a shelf of {db:g} dB below {frequency:g} Hz with the quality {q:g}", rate,
                    *shelf(frequency, db, q, rate, 1))


def high_shelf(frequency: float, *, db: float, q: float = math.sqrt(0.5), rate: float) -> Design:
    """A shelf of `db` decibels above a frequency in hertz."""
    return cookbook(f"a shelf of {db:g} dB above {frequency:g} Hz with the quality {q:g}", rate,
                    *shelf(frequency, db, q, rate, -1))


def lowpass(frequency: float, *, q: float = math.sqrt(0.5), rate: float) -> Design:
    """A low-pass of the second order, with its edge at a frequency in hertz."""
    angle = angle_of(frequency, rate)
    alpha, cosine = math.sin(angle) / (2 * q), math.cos(angle)
    return cookbook(f"a low-pass at {frequency:g} Hz with the quality {q:g}", rate,
                    ((1 - cosine) / 2, 1 - cosine, (1 - cosine) / 2), (1 + alpha, -2 * cosine, 1 - alpha))


def highpass(frequency: float, *, q: float = math.sqrt(0.5), rate: float) -> Design:
    """A high-pass of the second order, with its edge at a frequency in hertz."""
    angle = angle_of(frequency, rate)
    alpha, cosine = math.sin(angle) / (2 * q), math.cos(angle)
    return cookbook(f"a high-pass at {frequency:g} Hz with the quality {q:g}", rate,
                    ((1 + cosine) / 2, -1 - cosine, (1 + cosine) / 2), (1 + alpha, -2 * cosine, 1 - alpha))


def notch(frequency: float, *, q: float, rate: float) -> Design:
    """A notch at a frequency in hertz, where nothing passes."""
    angle = angle_of(frequency, rate)
    alpha, cosine = math.sin(angle) / (2 * q), math.cos(angle)
    return cookbook(f"a notch at {frequency:g} Hz with the quality {q:g}", rate,
                    (1, -2 * cosine, 1), (1 + alpha, -2 * cosine, 1 - alpha))


def bandpass(frequency: float, *, q: float, rate: float) -> Design:
    """A band-pass round a frequency in hertz, where it has 0 dB."""
    angle = angle_of(frequency, rate)
    alpha, cosine = math.sin(angle) / (2 * q), math.cos(angle)
    return cookbook(f"a band-pass at {frequency:g} Hz with the quality {q:g}", rate,
                    (alpha, 0, -alpha), (1 + alpha, -2 * cosine, 1 - alpha))


def allpass(frequency: float, *, q: float = math.sqrt(0.5), rate: float) -> Design:
    """An allpass of the second order, which turns the phase by half a turn at a frequency in hertz."""
    angle = angle_of(frequency, rate)
    alpha, cosine = math.sin(angle) / (2 * q), math.cos(angle)
    return cookbook(f"an allpass at {frequency:g} Hz with the quality {q:g}", rate,
                    (1 - alpha, -2 * cosine, 1 + alpha), (1 + alpha, -2 * cosine, 1 - alpha))


def first_order(asked: str, rate: float, b: tuple[float, float], a1: float) -> Design:
    """A design of one section of the first order."""
    return Design(asked, rate, (Section((*b, 0.0), (a1, 0.0), PLACE),))


def one_pole(frequency: float, *, rate: float) -> Design:
    """A low-pass with one pole and no zero, y = a x + (1 - a) y@1, with -3 dB at a frequency in hertz."""
    rise = 1 - math.cos(angle_of(frequency, rate))
    share = math.sqrt(rise * rise + 2 * rise) - rise
    return first_order(f"one pole at {frequency:g} Hz", rate, (share, 0.0), share - 1)


def dc_block(frequency: float, *, rate: float) -> Design:
    """A high-pass of the first order with nothing at 0 Hz and -3 dB at a frequency in hertz."""
    turn = math.tan(angle_of(frequency, rate) / 2)
    return first_order(f"a DC block at {frequency:g} Hz", rate, (1 / (1 + turn), -1 / (1 + turn)),
                       (turn - 1) / (turn + 1))


# The poles of the weightings of IEC 61672 in hertz: those of A and C below, with zeros at 0 Hz, and the double one
# above.
A_POLES, C_POLES = (20.598997, 20.598997, 107.65265, 737.86223), (20.598997, 20.598997)
HIGH_POLE, REFERENCE = 12194.217, 1000.0


def matched_pole(frequency: float, rate: float) -> Design:
    """A low-pass of the first order whose pole is that of the analogue one, with its magnitude at 0 Hz and at half of
    the rate, where the bilinear transform has a zero."""
    pole = math.exp(-2 * math.pi * frequency / rate)
    low, high = 1 - pole, (1 + pole) / math.hypot(1, rate / 2 / frequency)
    return first_order(f"a pole at {frequency:g} Hz", rate, ((low + high) / 2, (low - high) / 2), -pole)


def weighting(name: str, poles: Sequence[float], rate: float) -> Design:
    """A weighting of sound levels, with 0 dB at 1,000 Hz."""
    angle_of(REFERENCE, rate)
    made = [*(dc_block(pole, rate=rate) for pole in poles), *[matched_pole(HIGH_POLE, rate)] * 2]
    *before, last = (section for design in made for section in design.sections)
    gain = abs(response((*before, last), REFERENCE / rate))
    b0, b1, b2 = (x / gain for x in last.b)
    return Design(f"the {name}-weighting of IEC 61672", rate, (*before, replace(last, b=(b0, b1, b2))))


def a_weighting(*, rate: float) -> Design:
    """The A-weighting of sound levels."""
    return weighting("A", A_POLES, rate)


def c_weighting(*, rate: float) -> Design:
    """The C-weighting of sound levels."""
    return weighting("C", C_POLES, rate)


def sections(rows: Sequence[Sequence[float]], *, rate: float) -> Design:
    """Sections as rows `b0 b1 b2 a0 a1 a2`, as SciPy has them."""
    made = [Section((b0 / a0, b1 / a0, b2 / a0), (a1 / a0, a2 / a0), PLACE) for b0, b1, b2, a0, a1, a2 in rows]
    return Design(f"{len(made)} sections", rate, tuple(made))


def taps(numbers: Sequence[float], *, rate: float) -> Design:
    """A filter by its taps."""
    return Design(f"{len(numbers)} taps", rate, taps=tuple(map(float, numbers)))


def iir(kind: str, order: int, band: str, edges: Sequence[float], *, rate: float, ripple: float | None = None,
        attenuation: float | None = None) -> Design:
    """Sections by SciPy: `kind` is butter, cheby1, cheby2, ellip or bessel, `band` lowpass, highpass, bandpass or
    bandstop, and `edges` are in hertz. `Lacking` says how SciPy is installed where it is not there."""
    made = scipy_designs.designed(design="iir", order=order, edges=list(edges), band=band, kind=kind, ripple=ripple,
                                  attenuation=attenuation, rate=rate)
    return replace(sections(made, rate=rate), asked=f"{kind} {order} {band} {' '.join(f'{edge:g}' for edge in edges)}")


def kaiser(band: str, edges: Sequence[float], *, rate: float, attenuation: float, width: float | None = None,
           count: int | None = None) -> Design:
    """Taps by SciPy, with a window of Kaiser: `width` is that of a transition in hertz, or `count` how many taps there
    are."""
    made = scipy_designs.designed(design="kaiser", edges=list(edges), band=band, taps=count, width=width,
                                  attenuation=attenuation, rate=rate)
    return replace(taps(made, rate=rate), asked=f"kaiser {band} {' '.join(f'{edge:g}' for edge in edges)}")


def remez(edges: Sequence[float], gains: Sequence[float], *, rate: float, count: int,
          weights: Sequence[float] | None = None) -> Design:
    """Taps by SciPy's remez: pairs of edges in hertz, and a gain for each pair."""
    made = scipy_designs.designed(design="remez", taps=count, bands=list(edges), gains=list(gains),
                                  weights=list(weights) if weights else None, rate=rate)
    return replace(taps(made, rate=rate), asked=f"remez {' '.join(f'{edge:g}' for edge in edges)}")
