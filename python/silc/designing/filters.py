"""Filters in real numbers: sections with their poles and zeros, responses over the frequency, and how far one moved."""
import cmath
import math
from collections.abc import Iterable, Sequence
from dataclasses import dataclass
from typing import TypeAlias

# What one or two roots are the zeros of: the coefficients from that of z^0 on.
Polynomial: TypeAlias = tuple[float, float, float]

LEAST = 1e-12
# A pass band ends this far below the greatest gain, and a stop band begins there, in decibels.
PASS, STOP = 3.1, 20.0
LINEAR, LOGARITHMIC, LOWEST = 1000, 300, 1e-4
# Frequencies round a pole, in shares of its distance from the unit circle.
ROUND_A_POLE = [k / 8 for k in range(-24, 25)]
# Two numbers are conjugates, or one is real, up to this.
CLOSE = 1e-7


def decibels(gain: complex) -> float:
    return 20 * math.log10(max(abs(gain), LEAST))


@dataclass(frozen=True)
class Section:
    """(b0 + b1 z^-1 + b2 z^-2) / (1 + a1 z^-1 + a2 z^-2), and where it came from."""
    b: tuple[float, ...]
    a: tuple[float, ...]
    place: str = ""

    def order(self) -> int:
        return 2 if self.b[2] or self.a[1] else 1

    def poles(self) -> list[complex]:
        return roots(1.0, *self.a)

    def radius(self) -> float:
        """The distance of its poles from the centre."""
        return max(abs(pole) for pole in self.poles())

    def is_stable(self) -> bool:
        a1, a2 = self.a
        return abs(a2) < 1 and abs(a1) < 1 + a2

    def at(self, share: float) -> complex:
        turn = cmath.exp(-2j * math.pi * share)
        (b0, b1, b2), (a1, a2) = self.b, self.a
        return (b0 + turn * (b1 + turn * b2)) / (1 + turn * (a1 + turn * a2))


def roots(a: float, b: float, c: float) -> list[complex]:
    """Both roots of a z^2 + b z + c, without loss where they differ in size."""
    middle = cmath.sqrt(b * b - 4 * a * c)
    sum_ = -(b + middle) if abs(b + middle) >= abs(b - middle) else -(b - middle)
    if sum_ == 0:
        return [0j, 0j]
    return [complex(sum_ / (2 * a)), complex(2 * c / sum_)]


# Pairs of poles and zeros


def is_real(root: complex) -> bool:
    return abs(root.imag) < CLOSE


def mates(first: complex, others: list[complex]) -> list[complex]:
    """Those of which one goes with a root: for a real one the other real ones, else those near its conjugate."""
    if is_real(first):
        return [root for root in others if is_real(root)]
    return [root for root in others if abs(root - first.conjugate()) < CLOSE] or \
        [min(others, key=lambda root: abs(root - first.conjugate()))]


def pair_near(place: complex, usable: list[complex]) -> list[complex]:
    """The root that is nearest to a place, with its conjugate or, if it is real, with the nearest other real one."""
    first = min(usable, key=lambda root: abs(root - place))
    others = list(usable)
    others.remove(first)
    return [first, min(mates(first, others), key=lambda root: abs(root - place))]


def zeros_near(place: complex, zeros: list[complex], count: int) -> list[complex]:
    """One or two of the zeros, near to a place. One real zero that is alone is left for a pole that is alone."""
    real = [zero for zero in zeros if is_real(zero)]
    if count == 1:
        return [min(real, key=lambda zero: abs(zero - place))]
    return pair_near(place, zeros if len(real) != 1 else [zero for zero in zeros if not is_real(zero)])


def polynomial(roots_of: Sequence[complex]) -> Polynomial:
    """The coefficients of (1 - r z^-1) for one or two roots."""
    if len(roots_of) == 1:
        return 1.0, -roots_of[0].real, 0.0
    first, second = roots_of
    return 1.0, -(first + second).real, (first * second).real


def without_cancelled(poles: list[complex], zeros: list[complex]) -> tuple[list[complex], list[complex]]:
    """The poles and zeros without those at the centre that cancel one another."""
    poles, zeros = sorted(poles, key=abs), sorted(zeros, key=abs)
    count = min(sum(abs(root) < CLOSE for root in roots_of) for roots_of in (poles, zeros))
    return poles[count:], zeros[count:]


def poles_of_next(poles: list[complex], zeros: list[complex], are_real_single: bool) -> list[complex]:
    """The poles nearest to the unit circle: a pair, or a real one alone."""
    worst = max(poles, key=lambda pole: (abs(pole), -abs(pole.imag), pole.imag))
    real = sum(map(is_real, poles))
    if is_real(worst) and (real == 1 or are_real_single and any(map(is_real, zeros))):
        return [worst]
    return pair_near(worst, poles)


def paired(sections: list[Section], are_real_single: bool = False) -> tuple[float, list[Section]]:
    """The gain, and sections with b0 = 1: the poles nearest to the unit circle first, each pair with the zeros nearest
    to it.

    With `are_real_single` each real pole has a section of the first order. A section without b0 stays as it is, and so
    do all others then.
    """
    if any(section.b[0] == 0 for section in sections):
        return 1.0, sections
    poles, zeros = without_cancelled([pole for section in sections for pole in section.poles()],
                                     [zero for section in sections for zero in roots(*section.b)])
    made = []
    while poles:
        own = poles_of_next(poles, zeros, are_real_single)
        near = zeros_near(own[0], zeros, len(own))
        for root in own:
            poles.remove(root)
        for root in near:
            zeros.remove(root)
        made.append(Section(polynomial(near), polynomial(own)[1:], place_of(own[0], sections)))
    gain = math.prod(section.b[0] for section in sections)
    return gain, made or [Section((1.0, 0.0, 0.0), (0.0, 0.0), sections[0].place)]


def place_of(pole: complex, sections: Sequence[Section]) -> str:
    """Where the section came from that has this pole."""
    return min(sections, key=lambda section: min(abs(pole - own) for own in section.poles())).place


# Responses


def response(sections: Sequence[Section], share: float) -> complex:
    product = 1.0 + 0j
    for section in sections:
        product *= section.at(share)
    return product


def fir_response(taps: Sequence[float], share: float) -> complex:
    turn, made = cmath.exp(-2j * math.pi * share), 0j
    for tap in reversed(taps):
        made = made * turn + tap
    return made


def shares_for(sections: Sequence[Section] = ()) -> list[float]:
    """Frequencies, as shares of the sample rate, at which responses are compared."""
    made = {k / (2 * LINEAR) for k in range(LINEAR + 1)}
    made |= {LOWEST * (0.5 / LOWEST) ** (k / LOGARITHMIC) for k in range(LOGARITHMIC)}
    for pole in (pole for section in sections for pole in section.poles()):
        angle, distance = abs(cmath.phase(pole)) / (2 * math.pi), (1 - abs(pole)) / (2 * math.pi)
        made |= {angle + distance * k for k in ROUND_A_POLE}
    return sorted(share for share in made if 0 <= share <= 0.5)


@dataclass(frozen=True)
class Move:
    """How far a response moved, in decibels: in the pass band as a ratio of magnitudes, in the stop band as a
    difference beside the greatest gain; and the highest side lobe there, asked and made. `None` is what there is
    not."""
    pass_band: float
    stop_band: float | None
    asked: float | None
    made: float | None


def lobes(levels: Sequence[float], places: Iterable[int]) -> float | None:
    """The highest of the levels that are higher than those beside them, among some places."""
    inner = [k for k in places if 0 < k < len(levels) - 1 and levels[k - 1] < levels[k] > levels[k + 1]]
    return max((levels[k] for k in inner), default=None)


def moved(asked: Sequence[float], made: Sequence[float]) -> Move:
    """The move from magnitudes that are asked to those that are made, at the same frequencies."""
    top = max(asked)
    before, after = ([decibels(gain / top) for gain in gains] for gains in (asked, made))
    passing = [abs(m - a) for a, m in zip(before, after) if a >= -PASS]
    stopped = [k for k, level in enumerate(before) if level <= -STOP]
    worst = max((abs(asked[k] - made[k]) / top for k in stopped), default=None)
    return Move(max(passing), None if worst is None else decibels(worst), lobes(before, stopped), lobes(after, stopped))
