"""The forms of a section: its equations in the order of their evaluation, which signals are rounded, and its words."""
from collections.abc import Sequence
from dataclasses import dataclass
from enum import Enum

INPUT, OUTPUT = "x", "y"


class Form(Enum):
    """Which equations compute a section."""
    DIRECT = "df1"
    TRANSPOSED = "df2t"
    LATTICE = "lattice"


@dataclass(frozen=True)
class Term:
    """A coefficient times a signal some samples ago. One that is taken off has a factor with the other sign than the
    product in the source."""
    factor: float
    signal: str
    delay: int = 0
    is_taken_off: bool = False


@dataclass(frozen=True)
class Equation:
    """A signal as a sum of terms. A rounded one is a word of the signals' shape and may not overflow."""
    signal: str
    terms: tuple[Term, ...]
    is_rounded: bool = True


def direct(b: Sequence[float], a: Sequence[float]) -> list[Equation]:
    """Direct form I. The transposed direct form II rounds at the same place and has the same words."""
    feed = [Term(factor, INPUT, delay) for delay, factor in enumerate(b)]
    back = [Term(-factor, OUTPUT, delay, True) for delay, factor in enumerate(a, 1)]
    return [Equation(OUTPUT, tuple(feed + back))]


def lattice(gain: float, k: Sequence[float], v: Sequence[float]) -> list[Equation]:
    """The two-multiplier lattice with reflection coefficients k1, k2, a ladder v0, v1, v2 and a gain before it."""
    top = len(k)
    made = []
    for m in range(top, 0, -1):
        before = Term(gain, INPUT) if m == top else Term(1.0, f"f{m}")
        made.append(Equation(f"f{m - 1}", (before, Term(-k[m - 1], back(m - 1), 1, True))))
    made += [Equation(f"g{m}", (Term(k[m - 1], f"f{m - 1}"), Term(1.0, back(m - 1), 1))) for m in range(1, top + 1)]
    return [*made, Equation(OUTPUT, tuple(Term(factor, back(m)) for m, factor in enumerate(v)))]


def back(m: int) -> str:
    """The backward signal m of a lattice; the one of order 0 is the forward one."""
    return f"g{m}" if m else "f0"


def reflections(a: Sequence[float]) -> list[float]:
    """The reflection coefficients k1, k2 of 1 + a1 z^-1 + a2 z^-2, or k1 of the first order."""
    a1, a2 = a
    return [a1 / (1 + a2), a2] if a2 else [a1]


def ladder(b: Sequence[float], k: Sequence[float]) -> list[float]:
    """The taps of the ladder that give the numerator b over the lattice of k."""
    if len(k) == 1:
        return [b[0] - b[1] * k[0], b[1]]
    k1, k2 = k
    a1 = k1 * (1 + k2)
    v2 = b[2]
    v1 = b[1] - v2 * a1
    return [b[0] - v2 * k2 - v1 * k1, v1, v2]


def numerator(v: Sequence[float], k: Sequence[float]) -> tuple[float, float, float]:
    """The numerator that a ladder gives over a lattice: the other way round."""
    if len(k) == 1:
        return v[0] + v[1] * k[0], v[1], 0.0
    k1, k2 = k
    return v[0] + v[1] * k1 + v[2] * k2, v[1] + v[2] * k1 * (1 + k2), v[2]


def denominator(k: Sequence[float]) -> tuple[float, float]:
    """a1, a2 of a lattice."""
    return (k[0] * (1 + k[1]), k[1]) if len(k) == 2 else (k[0], 0.0)


def run(equations: Sequence[Equation], samples: Sequence[float] = (), kicked: str | None = None,
        length: int | None = None) -> dict[str, list[float]]:
    """All signals of a section over samples, or after a kick of 1 at one of them, in real numbers."""
    length = len(samples) if length is None else length
    # Zeros stand before the first sample, and what a delay reads of a signal is so many places before its end.
    before = max(term.delay for equation in equations for term in equation.terms)
    signals = {equation.signal: [0.0] * before for equation in equations}
    signals[INPUT] = [0.0] * before + list(samples) + [0.0] * (length - len(samples))
    work = [(signals[equation.signal],
             [(term.factor, signals[term.signal], before - term.delay) for term in equation.terms])
            for equation in equations]
    kicks = [1.0 if equation.signal == kicked else 0.0 for equation in equations]
    for n in range(length):
        for (own, terms), kick in zip(work, kicks):
            total = 0.0 if n else kick
            for factor, signal, place in terms:
                total += factor * signal[n + place]
            own.append(total)
    return {name: signal[before:] for name, signal in signals.items()}
