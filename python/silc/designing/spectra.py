"""Spectra of samples by the fast Fourier transform, and of long rows of them by the mean over windows (Welch)."""
import cmath
import math
from collections.abc import Sequence

HALF = 2


def fft(samples: Sequence[complex]) -> list[complex]:
    """The discrete Fourier transform of 2^k samples."""
    length = len(samples)
    if length == 1:
        return list(samples)
    even, odd = fft(samples[::2]), fft(samples[1::2])
    turns = [cmath.exp(-2j * math.pi * k / length) * x for k, x in enumerate(odd)]
    return [a + b for a, b in zip(even, turns)] + [a - b for a, b in zip(even, turns)]


def magnitudes(response: Sequence[float], least: int) -> list[float]:
    """The magnitudes of a response over 0 to half of the rate, at `least` frequencies or more."""
    size = 1 << (max(len(response), 2 * least) - 1).bit_length()
    spectrum = fft([*response, *[0.0] * (size - len(response))])
    return [abs(x) for x in spectrum[: size // 2 + 1]]


def welch(samples: Sequence[float], size: int) -> list[float]:
    """The power in each of size / 2 + 1 bins, whose sum is about the mean square: windows of Hann that overlap by half,
    or one over all samples where these are fewer."""
    length = min(size, len(samples))
    window = [0.5 - 0.5 * math.cos(2 * math.pi * (n + 0.5) / length) for n in range(length)]
    scale = 1 / (size * sum(w * w for w in window))
    starts = range(0, len(samples) - length + 1, size // HALF)
    powers = [0.0] * (size // 2 + 1)
    for start in starts:
        part = [w * x for w, x in zip(window, samples[start : start + length])]
        for k, x in enumerate(fft([*part, *[0.0] * (size - length)])[: size // 2 + 1]):
            powers[k] += abs(x) ** 2 * scale * (1 if k in (0, size // 2) else 2)
    return [power / len(starts) for power in powers]
