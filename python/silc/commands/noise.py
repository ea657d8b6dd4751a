"""Says how far the output of a source is from what it should be, and whether it falls silent.

usage: tools/noise [--library FOLDER ..] SRC SAMPLES --against REFERENCE [--picture FILE [--force]]
       tools/noise [--library FOLDER ..] SRC --zero-input N [--impulse WORD]

REFERENCE has a row of real numbers for each sample, or is a second source (its name ends with .sil), with finer shapes
say, so that the noise of one `round` is seen by itself. For each output word: signal to noise in decibels, and the
noise in decibels of full scale, which is the power of the least word; the mean error and the greatest one in last bits,
and the power of the error in eight bands, in decibels of full scale.

With --zero-input the first input has an impulse, WORD or its greatest word, and then N zeros. It is said whether the
output dies out, and with what period it does not. A state of the program that comes back says what it does forever. One
without state, which reads nothing with a delay, is done with the impulse. The rows are those of `silc eval`, and of
`silc_show values`.

A source that begins with `use` or `let` is linked first, as tools/link does it, with blocks of each FOLDER before those
of library/, and so is REFERENCE; faults are told at the places of its own file or of a block's.
"""
import argparse
import math

from silc.commands import add_library, measured, positive
from silc.designing.noise import Noise, Silence, noises, silence_after
from silc.designing.samples import samples_in
from silc.designing.sources import words_of_main
from silc.linking.opening import plain
from silc.made_files import MadeFiles, add_force
from silc.pictures.spectrum import draw_spectra

# As many words of a limit cycle are shown.
SHOWN = 16


def decibels(number: float) -> str:
    return f"{number:.1f} dB" if math.isfinite(number) else "nothing" if number < 0 else "no error"


def show(noise: Noise, number: int, count: int) -> None:
    named = f"output {number}: " if count > 1 else ""
    step = noise.shape.step
    beside = f", noise {decibels(noise.level())} of full scale" if noise.error else ""
    print(f"{named}signal to noise {decibels(noise.ratio())}{beside}")
    print(f"{named}error in last bits of {noise.shape}: mean {noise.mean / step:.3f}, greatest {noise.peak / step:.3f} "
          f"at sample {noise.peak_at + 1}")
    for low, high, level in noise.bands() if noise.error else ():
        print(f"{named}error from {low:.4f} to {high:.4f} of the rate: {decibels(level)} of full scale")


def compare(options: argparse.Namespace) -> None:
    source, blocks = plain(options.source, options.library)
    files = MadeFiles([options.source, *blocks, options.samples, options.against], options.force)
    files.look_at(options.picture)
    rows = samples_in(options.samples, words_of_main(source)[0])
    found = noises(source, rows, options.against, options.library)
    if not found:
        raise ValueError("no output is a number")
    for number, noise in enumerate(found):
        show(noise, number, len(found))
    if options.picture:
        first, full = found[0], (found[0].shape.step * -found[0].shape.least) ** 2
        signal, error = ([power / full for power in spectrum]
                         for spectrum in (first.signal_spectrum, first.error_spectrum))
        files.write(options.picture, draw_spectra(signal, error, "0 dB is full scale") + "\n")


def falls_silent(options: argparse.Namespace) -> None:
    source, _ = plain(options.source, options.library)
    shape = words_of_main(source)[0][0]
    word = options.impulse if options.impulse is not None else shape.greatest if shape else 1
    if not (shape.has(word) if shape else word in (0, 1)):
        raise ValueError(f"{word} is no word of {shape or 'bool'}")
    print(said_of_silence(silence_after(source, word, options.zero_input), word, options.zero_input))


def said_of_silence(silence: Silence, word: int, length: int) -> str:
    """What the output does after an impulse."""
    words = " ".join(",".join(map(str, row)) for row in silence.words[:SHOWN])
    if not silence.has_state:
        return f"it has no state, and after an impulse of {word} its output is constant: from sample 2 on it is {words}"
    if silence.start is None or silence.period is None:
        return f"after an impulse of {word} it neither dies out nor repeats within {length} samples"
    if silence.dies_out():
        return f"after an impulse of {word} it dies out: from sample {silence.last + 2} on it is 0"
    before = f"after an impulse of {word} it does not die out: from sample {silence.start + 3} on"
    if silence.period == 1:
        return f"{before} its output is constant, {words} forever"
    return (f"{before} it repeats every {silence.period} samples forever: "
            f"{words}{' ..' if silence.period > SHOWN else ''}")


def options_of(words: list[str]) -> argparse.Namespace:
    parser = argparse.ArgumentParser(prog="noise", usage=__doc__.partition("usage: ")[2].partition("\n\n")[0],
                                     description=__doc__.partition("\n\n")[0], allow_abbrev=False)
    parser.add_argument("source", metavar="SRC")
    parser.add_argument("samples", metavar="SAMPLES", nargs="?")
    parser.add_argument("--against", metavar="REFERENCE")
    parser.add_argument("--picture", metavar="FILE")
    parser.add_argument("--zero-input", metavar="N", type=positive)
    parser.add_argument("--impulse", metavar="WORD", type=int)
    add_library(parser)
    add_force(parser)
    options = parser.parse_args(words)
    if bool(options.samples) != bool(options.against) or bool(options.samples) == bool(options.zero_input):
        parser.error("it takes SAMPLES and --against REFERENCE, or else --zero-input N")
    if options.zero_input and options.picture or options.samples and options.impulse is not None:
        parser.error("--picture goes with SAMPLES, and --impulse with --zero-input")
    return options


def main(words: list[str]) -> int:
    options = options_of(words)
    files = [str(file) for file in (options.samples, options.against) if file]
    return measured("noise", lambda: falls_silent(options) if options.zero_input else compare(options),
                    options.source, files)
