"""Designs a filter by SciPy. It is run by a Python that has it: words as JSON on standard input, coefficients as JSON
back.

The exit status is 3 where this Python has no SciPy.
"""
import json
import sys
from collections.abc import Callable
from typing import Any

LACKING = 3

try:
    from scipy import signal
except ImportError:
    sys.exit(LACKING)


def iir(order: int, edges: list[float], band: str, kind: str, ripple: float, attenuation: float,
        rate: float) -> list[list[float]]:
    made = signal.iirfilter(order, edges if len(edges) > 1 else edges[0], rp=ripple, rs=attenuation, btype=band,
                            ftype=kind, fs=rate, output="sos")
    return made.tolist()


def kaiser(edges: list[float], band: str, taps: int | None, width: float, attenuation: float,
           rate: float) -> list[float]:
    if taps is None:
        taps, beta = signal.kaiserord(attenuation, width / (rate / 2))
        # A filter that passes half of the rate has an odd number of taps.
        taps |= band in ("highpass", "bandstop")
    else:
        beta = signal.kaiser_beta(attenuation)
    return signal.firwin(taps, edges, window=("kaiser", beta), pass_zero=band, fs=rate).tolist()


def remez(taps: int, bands: list[float], gains: list[float], weights: list[float] | None, rate: float) -> list[float]:
    return signal.remez(taps, bands, gains, weight=weights, fs=rate).tolist()


DESIGNS: dict[str, Callable[..., Any]] = {"iir": iir, "kaiser": kaiser, "remez": remez}


def made(asked: dict[str, Any]) -> Any:
    """The coefficients that a design asks for; of several designs those of each."""
    if "several" in asked:
        return [made(one) for one in asked["several"]]
    return DESIGNS[asked.pop("design")](**asked)


if __name__ == "__main__":
    try:
        print(json.dumps({"made": made(json.load(sys.stdin))}))
    except (ValueError, TypeError) as fault:
        print(json.dumps({"fault": str(fault)}))
