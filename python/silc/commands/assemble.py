"""Makes microcode of a listing that is written or mended by hand, and prints such a listing of microcode.

usage: tools/assemble LISTING OUT [--version 1|2] [--force]
       tools/assemble --listing MIC

A listing is what `silc list` prints, behind a heading with the hardware and with what its registers and cells start
with: docs/MICROCODE.md, "Written by hand". Comments begin with #, blank lines are skipped, and the lines of a microword
may come in any order. OUT is the microcode file in version 2, or in version 1. --listing prints the listing of a
microcode file, of which LISTING and OUT are one another's inverse.

A listing with a fault is refused by its first one, as LISTING:LINE:COLUMN and what is wrong there, and OUT is not made.
Whether microcode does what was meant, and without a conflict of the hardware, is seen where `silc sim` runs it.
"""
import argparse
import sys
import time
from pathlib import Path

from silc.commands import ended
from silc.made_files import MadeFiles, NotMade, add_force
from silc.micro_file import NEWEST, VERSIONS, BadImage, bytes_of, image_of
from silc.micro_file.listing import BadListing, image_of_listing, listing_of, text_of

# What `silc` takes for microcode.
MOST_BYTES = 64 << 20
SECONDS_BETWEEN = 5


class Refused(Exception):
    """Why nothing is made."""


def assembled(file: str, version: int) -> bytes:
    """The microcode of a listing. Of a long one it is said how far it is read."""
    last = time.monotonic()

    def told(number: int) -> None:
        nonlocal last
        if time.monotonic() - last > SECONDS_BETWEEN:
            last = time.monotonic()
            print(f"assemble: line {number}", file=sys.stderr, flush=True)

    try:
        image = image_of_listing(text_of(Path(file).read_bytes()), told)
    except BadListing as fault:
        raise Refused(f"{file}:{fault}") from fault
    data = bytes_of(image, version)
    if len(data) > MOST_BYTES:
        raise Refused(f"{file}: in version {version} it has {len(data)} bytes, and `silc` takes {MOST_BYTES} at most")
    return data


def listed(file: str) -> str:
    """The listing of microcode."""
    try:
        return listing_of(image_of(Path(file).read_bytes()))
    except BadImage as fault:
        raise Refused(f"{file}: {fault.refusal()}") from fault


def options_of(words: list[str]) -> argparse.Namespace:
    usage = __doc__.partition("usage: ")[2].partition("\n\n")[0]
    parser = argparse.ArgumentParser(prog="assemble", usage=usage, description=__doc__,
                                     formatter_class=argparse.RawDescriptionHelpFormatter)
    parser.add_argument("text", metavar="LISTING", nargs="?")
    parser.add_argument("out", metavar="OUT", nargs="?")
    parser.add_argument("--listing", metavar="MIC")
    parser.add_argument("--version", type=int, choices=VERSIONS)
    add_force(parser)
    options = parser.parse_args(words)
    if options.listing is not None and (options.text is not None or options.version is not None or options.force):
        parser.error("--listing MIC stands alone")
    if options.listing is None and options.out is None:
        parser.error("LISTING and OUT are wanted, or --listing MIC")
    return options


def run(options: argparse.Namespace) -> None:
    if options.listing is not None:
        MadeFiles().write("/dev/stdout", listed(options.listing))
        return
    files = MadeFiles(inputs=[options.text], is_forced=options.force)
    files.look_at(options.out)
    files.write(options.out, assembled(options.text, options.version or NEWEST))


def main(words: list[str]) -> int:
    options = options_of(words)
    return ended("assemble", lambda: run(options), Refused, NotMade)
