"""The response of a filter to an impulse, and its magnitude over frequency."""
from __future__ import annotations

import math
from typing import Any

from silc.designing.spectra import magnitudes
from silc.pictures.response import draw_response

LEAST = 1e-12


class Response:
    """A response to an impulse: `impulse` has a value for each sample, as shares of that of the input. `magnitudes` are
    those at `frequencies`, from 0 to half of the sample rate as shares of it, or in hertz where a rate is given. In a
    notebook it is the picture of the magnitude."""

    def __init__(self, words: list[int], unit: float, rate: float | None = None) -> None:
        self.words, self.unit, self.rate = words, unit, rate
        self.impulse: list[float] = [word / unit for word in words]
        self.magnitudes: list[float] = magnitudes(self.impulse, len(words) // 2)
        count = len(self.magnitudes) - 1
        self.frequencies: list[float] = [(rate or 1) * place / (2 * count) for place in range(count + 1)]

    @property
    def decibels(self) -> list[float]:
        """The magnitudes in decibels, those below 1e-12 as -240."""
        return [20 * math.log10(max(magnitude, LEAST)) for magnitude in self.magnitudes]

    def at(self, frequency: float) -> float:
        """The magnitude in decibels at the nearest of the frequencies."""
        place = round(frequency / self.frequencies[-1] * (len(self.frequencies) - 1))
        return self.decibels[place]

    def __repr__(self) -> str:
        return f"<Response of {len(self.words)} samples: {max(self.decibels):.2f} dB at most>"

    def as_json(self) -> dict[str, Any]:
        return {"impulse": self.impulse, "frequencies": self.frequencies, "decibels": self.decibels}

    def _repr_svg_(self) -> str:
        """The picture of the magnitude over frequency."""
        rows = "".join(f"{word}\n" for word in self.words)
        return draw_response(rows, str(self.unit), rate=self.rate) + "\n"
