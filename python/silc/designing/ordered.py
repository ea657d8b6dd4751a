"""The designs of `tools/design` that are ordered by hertz and decibels alone, without another program: chains of bands,
crossovers, CIC filters and half-band filters."""
from __future__ import annotations

import argparse
from collections.abc import Callable, Sequence

from silc.designing import bands, chains, crossovers, multirate
from silc.designing.chains import Tail
from silc.designing.finished import Wanted
from silc.designing.multirate import Cic
from silc.designing.writing import counted

Made = tuple[str, bool]


class Misordered(ValueError):
    """What is wrong with an order."""


def listed(asked: Sequence[str]) -> str:
    return "; ".join(asked)


def at_rate(options: argparse.Namespace) -> str:
    return f" at {options.rate:,g} samples a second"


def number(word: str) -> float:
    try:
        return float(word)
    except ValueError:
        raise Misordered(f"{word} is no number") from None


def whole_number(word: str, least: int, most: int, what: str) -> int:
    if not word.isdecimal() or not least <= int(word) <= most:
        raise Misordered(f"{word} is no number of {what} from {least} to {most}")
    return int(word)


def words_for(options: argparse.Namespace, names: str) -> list[str]:
    """The words of a design, as many as it has names."""
    if len(options.words) != len(names.split()):
        raise Misordered(
            f"{options.design} takes {names or 'no words'}, and there are {counted(len(options.words), 'word')}")
    return list(options.words)


def edge_of(options: argparse.Namespace, lower: float) -> float:
    """The end of the pass band as a share of the lower rate."""
    if options.edge is None:
        raise Misordered(f"{options.design} needs --edge HZ, where the pass band ends")
    if not 0 < options.edge < lower / 2:
        raise Misordered(f"the edge {options.edge:g} Hz is not between 0 and {lower / 2:g} Hz, half of the lower rate")
    return float(options.edge / lower)


# The designs


def chain(options: argparse.Namespace, wanted_as: Callable[[str], Wanted]) -> Made:
    words_for(options, "")
    asked, sections = bands.bands_of(options.band or [], options.rate)
    tail = Tail(options.limit, options.dither, options.stereo, options.live)
    parts = [*asked, *["a soft limiter"] * tail.is_limited, *[f"dither to {tail.dither}"] * bool(tail.dither)]
    return chains.chain_source(wanted_as(f"A chain{at_rate(options)}: {listed(parts)}"), sections, tail)


def crossover(options: argparse.Namespace, wanted_as: Callable[[str], Wanted]) -> Made:
    hertz, order = words_for(options, "HZ ORDER")
    if order not in map(str, crossovers.ORDERS):
        raise Misordered(f"{order} is no order of a crossover: it is one of {', '.join(map(str, crossovers.ORDERS))}")
    title = f"A crossover of Linkwitz and Riley, of the order {order},{at_rate(options)}"
    return crossovers.crossover_source(wanted_as(title), number(hertz), int(order), options.rate, options.stereo)


def cic(options: argparse.Namespace, wanted_as: Callable[[str], Wanted]) -> Made:
    words, stages = words_for(options, "WORDS STAGES")
    made = Cic(whole_number(words, 2, multirate.MOST_WORDS, "words"),
               whole_number(stages, 1, multirate.MOST_STAGES, "stages"))
    if options.taps is None or not 1 <= options.taps <= multirate.MOST_TAPS or options.taps % 2 == 0:
        raise Misordered(f"cic needs --taps N, an odd number up to {multirate.MOST_TAPS}")
    edge = edge_of(options, options.rate / made.words)
    title = (f"A CIC filter from {options.rate:,g} samples a second down to one of {made.words}, "
             f"{counted(made.stages, 'stage')}")
    return multirate.cic_source(wanted_as(title), made, options.taps, edge)


# Below this a window of Kaiser is a rectangle.
LEAST_ATTENUATION, MOST_ATTENUATION = 21, 160


def half_band(options: argparse.Namespace, wanted_as: Callable[[str], Wanted]) -> Made:
    way, factor = words_for(options, "down|up 2|4")
    if way not in ("down", "up") or factor not in ("2", "4"):
        raise Misordered(f"halfband goes down or up, by 2 or 4, and not {way} {factor}")
    if options.attenuation is None or not LEAST_ATTENUATION < options.attenuation <= MOST_ATTENUATION:
        raise Misordered(f"halfband needs --attenuation DB, above {LEAST_ATTENUATION} and up to {MOST_ATTENUATION}")
    is_up = way == "up"
    edge = edge_of(options, options.rate if is_up else options.rate / int(factor))
    title = f"A half-band filter from {options.rate:,g} samples a second {way} by {factor}"
    return multirate.half_band_source(wanted_as(title), int(factor), edge, options.attenuation, is_up)


DESIGNS = {"bands": chain, "crossover": crossover, "cic": cic, "halfband": half_band}
# Which of them, and of the others, take an option that not all take.
OTHERS = ("sos", "fir", "iir")
FOR = {"band": ("bands",), "limit": ("bands",), "dither": ("bands",), "stereo": ("bands", "crossover"),
       "live": ("bands",), "turn": ("bands",), "serial": ("bands",),
       "edge": ("cic", "halfband"),
       "form": ("sos", "iir", "bands", "crossover"), "norm": (*OTHERS, "bands", "cic"),
       "order": ("sos", "iir", "bands"),
       "single": ("sos", "iir", "bands"), "taps": ("fir", "cic"), "attenuation": ("iir", "fir", "halfband"),
       "ripple": ("iir",), "width": ("fir",), "gains": ("fir",), "weights": ("fir",)}


def check_options(design: str, given: set[str]) -> None:
    """Raises where an option is given that a design does not take."""
    for option, designs in FOR.items():
        if option in given and design not in designs and (design in DESIGNS or not set(designs) & set(OTHERS)):
            raise Misordered(f"--{option} is for {', '.join(name for name in designs)}, and not for {design}")


def ordered_source(options: argparse.Namespace, wanted_as: Callable[[str], Wanted]) -> Made:
    """The source of what is ordered, and whether all that its comment says is certified."""
    return DESIGNS[options.design](options, wanted_as)
