"""Writes the source of a filter: from coefficients that a design program printed, or from a specification, by SciPy.

usage: tools/design sos FILE ..                         second-order sections, a row `b0 b1 b2 a0 a1 a2` each
       tools/design fir FILE ..                         taps, one a line
       tools/design iir KIND ORDER BAND HZ [HZ] ..      KIND butter, cheby1, cheby2, ellip or bessel
       tools/design fir kaiser BAND HZ [HZ] ..          a window of Kaiser: --attenuation, and --width or --taps
       tools/design fir remez HZ HZ HZ HZ .. ..         edges of bands: --taps, --gains, --weights
       tools/design bands [--band BAND ..] [--live] [--limit] [--dither W,F] [--stereo] ..    one behind the other
       tools/design bands --band BAND .. --turn N [--serial] ..    what a host writes to change section N of a live one
       tools/design crossover HZ 2|4|8 [--stereo] ..    of Linkwitz and Riley, of that order
       tools/design cic WORDS STAGES --taps N --edge HZ ..          down to one of so many words
       tools/design halfband down|up 2|4 --edge HZ --attenuation DB ..

BAND is lowpass, highpass, bandpass or bandstop for iir and kaiser. Files are as SciPy, Octave and MATLAB print them.
The source is printed, or written to --out FILE. The comment at its top says what was asked, what was made of it, and
how far the response moved: in the pass band, which ends 3 dB below the greatest gain, and in the stop band, which
begins 20 dB below it.

The last four need no SciPy. A band of a chain is one of
  peak,HZ,DB,Q  lowshelf,HZ,DB[,Q]  highshelf,HZ,DB[,Q]  lowpass,HZ[,Q]  highpass,HZ[,Q]  bandpass,HZ,Q  notch,HZ,Q
  allpass,HZ[,Q]  onepole,HZ  dcblock,HZ  aweight  cweight
by the formulas of the audio cookbook where it has them. Bands stay in their order, each with its own sections (--order
up pairs poles and zeros anew). Behind them --limit is a soft limiter, whose output is below 1, and --dither W,F brings
the words to fix<W,F> with noise. With --stereo two channels go through the same functions.

With --live a host changes the coefficients while the filter runs, by two control words, an index and a value: those of
--band are what they are at the start, and --signal W,F gives the places too. Its words saturate, and nothing is
certified of them. --turn N prints, a row each, the control words by which a host makes section N of such a chain what
--band says, and the next ones what further bands say; with --serial as bytes for the serial line of tools/board.

Sections are paired (the poles nearest to the unit circle with the zeros nearest to them), put in order, and scaled one
after another by a norm of the response from the input to each signal, so that the signal's range is just not passed: by
l1, with room for the sum of all quantisation errors, it never is; by l2 or peak rarely, or never by a tone, which is an
estimate. The gain of the whole stays. It is refused with a line, and nothing is made, where a coefficient has no place
in its shape, or where rounded poles leave the unit circle.

What the comment says of l1 and of the greatest error is a bound that is proved of the words, rounded up. Where none is
found within --seconds S (60 unless it is said; of the search for bounds alone, and not of that for a scale), the source
is made, its comment says `at least`, and the exit status is 3. The noise of rounding is what is expected: an
estimate."""
import argparse
import math
import sys
from pathlib import Path

from silc.commands import ended
from silc.designing import bands, ordered, scipy_designs
from silc.designing.coefficients import sections_in, taps_in
from silc.designing.filters import Section
from silc.designing.finished import Order, Wanted, sections_source, taps_source
from silc.designing.forms import Form
from silc.designing.live import INDEX, turns_of
from silc.designing.programs import fall_silent
from silc.designing.scaling import Norm, Rounding
from silc.designing.scipy_designs import Lacking
from silc.designing.shapes import Shape, shape_of
from silc.designing.writing import counted
from silc.hardware.control import bytes_of
from silc.made_files import FORCE, MadeFiles, add_force

KINDS = ("butter", "cheby1", "cheby2", "ellip", "bessel")
BANDS = {"lowpass": 1, "highpass": 1, "bandpass": 2, "bandstop": 2}
MOST_ORDER = 24
SCIPY_PLACE = "SciPy"
UNCERTIFIED = 3


class Undesigned(ValueError):
    """Why there is no source."""


# What is asked


def shape_word(word: str) -> Shape:
    try:
        return shape_of(word)
    except ValueError as fault:
        raise argparse.ArgumentTypeError(str(fault)) from fault


def signal_word(word: str) -> tuple[Shape, bool]:
    """The shape of the signals, and whether their places are given, or their width alone."""
    return shape_word(word if "," in word else f"{word},0"), "," in word


def options_of(words: list[str]) -> argparse.Namespace:
    parser = argparse.ArgumentParser(prog="design", usage=__doc__.partition("usage: ")[2].partition("\n\n")[0],
                                     description=__doc__.partition("\n\n")[0], allow_abbrev=False)
    parser.add_argument("design", choices=("sos", "fir", "iir", *ordered.DESIGNS))
    parser.add_argument("words", nargs="*")
    parser.add_argument("--shape", type=shape_word, required=True, metavar="W,F", help="of the coefficients")
    parser.add_argument("--input", type=shape_word, required=True, metavar="W,F", help="of the input")
    parser.add_argument("--signal", type=signal_word, metavar="W[,F]",
                        help="of the signals; without F as many places as the norm allows, without it as wide as the "
                             "input")
    parser.add_argument("--norm", type=Norm, choices=list(Norm), default=Norm.SUM, metavar="l1|l2|peak|none")
    parser.add_argument("--form", type=Form, choices=list(Form), default=Form.DIRECT, metavar="df1|df2t|lattice")
    parser.add_argument("--rounding", type=Rounding, choices=list(Rounding), default=Rounding.NEAREST,
                        metavar="nearest|down|zero")
    parser.add_argument("--order", choices=[order.value for order in Order],
                        help="poles nearest to the unit circle last, first, or sections just as they are given")
    parser.add_argument("--single", action="store_true", help="a section of the first order for each real pole")
    parser.add_argument("--rate", type=float, metavar="HZ")
    parser.add_argument("--ripple", type=float, metavar="DB", help="in the pass band (cheby1, ellip)")
    parser.add_argument("--attenuation", type=float, metavar="DB", help="in the stop band (cheby2, ellip, kaiser)")
    parser.add_argument("--width", type=float, metavar="HZ", help="between pass band and stop band (kaiser)")
    parser.add_argument("--taps", type=int, metavar="N")
    parser.add_argument("--gains", type=float, nargs="+", metavar="G")
    parser.add_argument("--weights", type=float, nargs="+", metavar="W")
    parser.add_argument("--band", action="append", metavar="KIND,..", help="a band of a chain")
    parser.add_argument("--limit", action="store_true", help="a soft limiter behind the bands")
    parser.add_argument("--dither", type=shape_word, metavar="W,F",
                        help="to words of this shape, with noise, at the end")
    parser.add_argument("--stereo", action="store_true", help="two channels")
    parser.add_argument("--live", action="store_true", help="coefficients that a host changes")
    parser.add_argument("--turn", type=int, metavar="N", help="the control words that change section N of a live chain")
    parser.add_argument("--serial", action="store_true", help="as bytes for a board's serial line")
    parser.add_argument("--edge", type=float, metavar="HZ", help="where the pass band ends (cic, halfband)")
    parser.add_argument("--seconds", type=seconds_word, default=60.0, metavar="S",
                        help="within which bounds are to be found")
    parser.add_argument("--out", metavar="FILE")
    add_force(parser)
    options = parser.parse_intermixed_args(words)
    options.signal, options.has_places = options.signal or (None, False)
    options.given = {word.partition("=")[0].removeprefix("--") for word in words if word.startswith("--")}
    is_ordered = options.design in ordered.DESIGNS
    options.order = options.order or (Order.GIVEN if is_ordered else Order.UP).value
    asked = [word for word in words_without(words, "--out") if word != FORCE]
    options.asked = " ".join(["tools/design", *asked])
    return options


def seconds_word(word: str) -> float:
    seconds = float(word)
    if not 0 < seconds < math.inf:
        raise argparse.ArgumentTypeError(f"{word} is no time")
    return seconds


def words_without(words: list[str], option: str) -> list[str]:
    """The words of a command, without an option and its value, each time that it is there."""
    before = ["", *words]
    return [word for word, last in zip(words, before) if option not in (word, last)
            and not word.startswith(f"{option}=")]


# From a specification


def number(word: str) -> float:
    try:
        return float(word)
    except ValueError as fault:
        raise Undesigned(f"{word} is no number") from fault


def rate_of(options: argparse.Namespace) -> float:
    if not options.rate or options.rate <= 0:
        raise Undesigned("a specification in hertz needs --rate HZ, the samples a second")
    return options.rate


def edges_of(band: str, words: list[str], options: argparse.Namespace) -> list[float]:
    """The edges of a band in hertz."""
    if band not in BANDS:
        raise Undesigned(f"{band} is no band: it is one of {', '.join(BANDS)}")
    edges, rate = [number(word) for word in words], rate_of(options)
    if len(edges) != BANDS[band]:
        raise Undesigned(f"{band} has {counted(BANDS[band], 'edge')}, and there are {len(edges)}")
    for edge in edges:
        if not 0 < edge < rate / 2:
            raise Undesigned(f"the edge {edge:g} Hz is not between 0 and {rate / 2:g} Hz, half of the rate")
    if edges != sorted(set(edges)):
        raise Undesigned("the edges are not in rising order")
    return edges


def iir(options: argparse.Namespace) -> list[Section]:
    """Sections by SciPy."""
    kind, order, band, *words = [*options.words, "", "", ""][:max(3, len(options.words))]
    if kind not in KINDS:
        raise Undesigned(f"{kind} is no kind: it is one of {', '.join(KINDS)}")
    if not order.isdecimal() or not 1 <= int(order) <= MOST_ORDER:
        raise Undesigned(f"the order {order} is no whole number from 1 to {MOST_ORDER}")
    for option, kinds in (("ripple", ("cheby1", "ellip")), ("attenuation", ("cheby2", "ellip"))):
        if kind in kinds and not getattr(options, option):
            raise Undesigned(f"{kind} needs --{option} DB")
    made = scipy_designs.designed(design="iir", order=int(order), edges=edges_of(band, words, options), band=band,
                                  kind=kind,
                                  ripple=options.ripple, attenuation=options.attenuation, rate=rate_of(options))
    return [Section(tuple(b), (a1, a2), SCIPY_PLACE) for *b, _, a1, a2 in made]


def kaiser(options: argparse.Namespace) -> list[float]:
    band, *words = options.words[1:] or [""]
    if not options.attenuation or not (options.width or options.taps):
        raise Undesigned("kaiser needs --attenuation DB, and --width HZ or --taps N")
    return scipy_designs.designed(design="kaiser", edges=edges_of(band, words, options), band=band, taps=options.taps,
                                  width=options.width, attenuation=options.attenuation, rate=rate_of(options))


def remez(options: argparse.Namespace) -> list[float]:
    edges, rate = [number(word) for word in options.words[1:]], rate_of(options)
    if len(edges) % 2 or not edges or edges != sorted(edges) or edges[-1] > rate / 2:
        raise Undesigned(f"remez needs pairs of edges in rising order, up to {rate / 2:g} Hz, half of the rate")
    if not options.taps or not options.gains or len(options.gains) != len(edges) // 2:
        raise Undesigned("remez needs --taps N, and --gains with one gain for each pair of edges")
    return scipy_designs.designed(design="remez", taps=options.taps, bands=edges, gains=options.gains,
                                  weights=options.weights, rate=rate)


def taps_of(options: argparse.Namespace) -> list[float]:
    if options.words[0] == "kaiser":
        return kaiser(options)
    if options.words[0] == "remez":
        return remez(options)
    return taps_in(one_file(options))


def one_file(options: argparse.Namespace) -> str:
    if len(options.words) != 1:
        raise Undesigned(f"{options.design} takes one file of coefficients, and there are {len(options.words)} words")
    return options.words[0]


# What is made


def wanted_of(options: argparse.Namespace, title: str) -> Wanted:
    """What is wanted of the filter, which the title says in words."""
    return Wanted(title, options.asked, options.shape, options.input, options.signal, options.has_places,
                  options.norm, options.form, options.rounding, Order(options.order), options.single, options.seconds)


def what_it_is(options: argparse.Namespace) -> str:
    """The filter in words."""
    at = f" at {options.rate:,g} samples a second" if options.rate else ""
    if not files_of(options):
        return f"A filter by SciPy: {' '.join(options.words)}{at}"
    return f"The filter of {Path(options.words[0]).name}{at}"


def source_of(options: argparse.Namespace) -> tuple[str, bool]:
    """The source, and whether all that it says is certified."""
    ordered.check_options(options.design, options.given)
    if options.design in ordered.DESIGNS:
        rate_of(options)
        return ordered.ordered_source(options, lambda title: wanted_of(options, title))
    if not options.words:
        raise Undesigned(f"{options.design} of what? `tools/design --help` says it")
    wanted = wanted_of(options, what_it_is(options))
    if options.design == "fir":
        return taps_source(wanted, taps_of(options))
    return sections_source(wanted, iir(options) if options.design == "iir" else sections_in(one_file(options)))


def turn_of(options: argparse.Namespace) -> str | bytes:
    """The control words that change a live chain, as rows or as bytes."""
    if options.live or options.limit or options.dither or options.stereo or options.turn < 1:
        raise Undesigned("--turn N, from 1 on, is for bands alone, without --live, --limit, --dither and --stereo")
    _, sections = bands.bands_of(options.band or [], rate_of(options))
    rows = turns_of(sections, options.turn, options.shape)
    if not options.serial:
        return "".join(f"{index},{value}\n" for index, value in rows)
    bits = {0: INDEX.width, 1: options.shape.width}
    return b"".join(bytes_of({0: index, 1: value}, bits) for index, value in rows)


def put(options: argparse.Namespace, files: MadeFiles, made: str | bytes) -> None:
    """Prints what was made, or writes it."""
    if options.out:
        files.write(options.out, made)
    elif isinstance(made, bytes):
        sys.stdout.buffer.write(made)
        sys.stdout.buffer.flush()
    else:
        sys.stdout.write(made)
        sys.stdout.flush()


def files_of(options: argparse.Namespace) -> list[str]:
    """The files of coefficients, which are read."""
    are_files = options.design in ("sos", "fir") and options.words[:1] not in (["kaiser"], ["remez"])
    return options.words if are_files else []


def make(options: argparse.Namespace) -> int:
    files = MadeFiles(files_of(options), options.force)
    files.look_at(options.out)
    if options.serial and options.turn is None:
        raise Undesigned("--serial goes with --turn N")
    if options.turn is not None:
        ordered.check_options(options.design, options.given)
        put(options, files, turn_of(options))
        return 0
    source, is_certified = source_of(options)
    put(options, files, source)
    if is_certified:
        return 0
    print(f"design: no bound was found within {options.seconds:g} s; --seconds gives more time", file=sys.stderr)
    return UNCERTIFIED


def main(words: list[str]) -> int:
    options = options_of(words)
    try:
        return ended("design", lambda: make(options), ValueError, Lacking)
    except BrokenPipeError:
        fall_silent()
        return 0
