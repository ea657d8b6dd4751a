"""Turns sounds into rows of raw words, as `silc eval` and `silc sim` read them, and rows into sounds.

usage: tools/rows from-wav [--columns C,..] WAV W,F
                              prints a row a sample, with a word of fix<W,F> a channel
       tools/rows to-wav [--columns C[,C]] [--bits 16|24|32] [--force] ROWS W,F RATE WAV
                              makes a WAV file of rows with one or two words, at RATE samples a second

A WAV file that is read has one or two channels of 16, 24 or 32 bits, PCM, whose words are taken for fix<16,15>,
fix<24,23> or fix<32,31>; one that is made has 16 bits, or as many as --bits says. Bits that a shape has not are
rounded, to the nearest word and up from the middle. A word that is out of the range is no word: it is refused with its
row, and nothing is printed or made.

By --columns the rows of from-wav have these columns: a channel by its number, or a word by =WORD, which is the same in
each row and is printed as it is. So `--columns 1,=100,2` is for a program with a parameter between the left and the
right sample. Of to-wav they are the columns of the rows that become the channels, from 1 on: `--columns 3` makes a
sound of the third word of each row. What is in the other columns need not be of the shape.

WAV and ROWS may be `-`, the standard input, and the WAV that is made the standard output. What comes from standard
input is turned as it comes, and what was made of it is handed on before more is waited for, in the same little memory
however much it is: then what stands before a fault is printed or made. A sound whose head has no length, as one that
comes out of a pipe, goes on to its end, and one that is made into a pipe has such a head.

A WAV file is there once it is whole. It does not replace ROWS, nor, without --force, a file that no tool made.
"""
import argparse
import signal
import sys
from collections.abc import Iterator
from contextlib import AbstractContextManager
from itertools import chain
from typing import IO

from silc.made_files import MadeFiles, add_force, is_stream
from silc.sounds.rows_of_sound import Rows, columns_of
from silc.sounds.shapes import shape_of
from silc.sounds.sound_of_rows import Sound, channels_of
from silc.sounds.streams import STANDARD, handed_on, opened, put
from silc.sounds.wav import NO_LENGTH, WIDTHS

STANDARD_INPUT = "/dev/stdin"
HIGHEST_RATE = 1 << 30
# The signals after which a sound that was made up to there is whole.
ENDINGS = (signal.SIGTERM, signal.SIGHUP)


def from_wav(options: argparse.Namespace) -> None:
    rows = Rows(shape_of(options.shape), columns_of(options.columns) if options.columns else None)
    with opened(options.file, "rb") as source, opened(STANDARD, "wb") as out:
        for part in handed_on(rows.parts(source), options.file):
            put(out, part)


def rate_of(word: str) -> int:
    if not word.isdecimal() or not 0 < int(word) < HIGHEST_RATE:
        raise ValueError(f"{word} is no rate")
    return int(word)


def to_wav(options: argparse.Namespace) -> None:
    columns = channels_of(options.columns) if options.columns else None
    sound = Sound(shape_of(options.shape), rate_of(options.rate), options.bits, columns)
    is_standard = options.file == STANDARD
    files = MadeFiles([STANDARD_INPUT if is_standard else options.file], options.force)
    if options.made != STANDARD:
        files.look_at(options.made)
    for ending in ENDINGS if is_standard else ():
        signal.signal(ending, lambda number, _: sys.exit(128 + number))
    with opened(options.file, "rb") as source:
        parts = handed_on(sound.parts(source), options.file)
        first = next(parts, b"")
        with output(files, options.made) as out:
            stopped = put_sound(sound, first, parts, out, NO_LENGTH if is_standard else len(first),
                                may_go_back(options.made))
    if stopped:
        raise stopped


def output(files: MadeFiles, made: str) -> AbstractContextManager[IO[bytes]]:
    if made == STANDARD:
        return opened(STANDARD, "wb")
    return files.opened(made)


def may_go_back(made: str) -> bool:
    """Whether the length of a sound can be put into its head at the end."""
    return made != STANDARD and not is_stream(made)


def put_sound(sound: Sound, first: bytes, parts: Iterator[bytes], out: IO[bytes], length: int,
              is_head_mended: bool) -> BaseException | None:
    """Writes a sound as its parts come. Gives what stopped these, after which the sound is whole up to there."""
    put(out, sound.head(length))
    written, stopped = 0, None
    try:
        for part in chain([first], parts):
            put(out, part)
            written += len(part)
    except BaseException as fault:
        stopped = fault
    if stopped and not is_head_mended:
        return stopped
    put(out, b"\0" * (written % 2))
    if is_head_mended and length != written:
        out.seek(0)
        put(out, sound.head(written))
    return stopped


def options_of(words: list[str]) -> argparse.Namespace:
    parser = argparse.ArgumentParser(prog="rows", usage=__doc__.partition("usage: ")[2].partition("\n\n")[0],
                                     description=__doc__, formatter_class=argparse.RawDescriptionHelpFormatter)
    commands = parser.add_subparsers(required=True)
    reading, making = (commands.add_parser(name, usage=parser.usage, description=__doc__, allow_abbrev=False,
                                           formatter_class=parser.formatter_class) for name in ("from-wav", "to-wav"))
    for command in (reading, making):
        command.add_argument("--columns", metavar="C")
        command.add_argument("file")
        command.add_argument("shape", metavar="W,F")
    reading.set_defaults(command=from_wav)
    making.add_argument("--bits", type=int, choices=WIDTHS, default=WIDTHS[0])
    add_force(making)
    making.add_argument("rate", metavar="RATE")
    making.add_argument("made", metavar="WAV")
    making.set_defaults(command=to_wav)
    return parser.parse_args(words)


def main(words: list[str]) -> int:
    options = options_of(words)
    sys.set_int_max_str_digits(0)
    try:
        options.command(options)
    except (OSError, ValueError) as fault:
        print(f"rows: {' '.join(words)}: {fault}", file=sys.stderr)
        return 1
    return 0
