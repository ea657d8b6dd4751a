"""Makes a waveform of a run of microcode, for GTKWave, Surfer and whatever else reads VCD.

usage: tools/vcd [--force] MIC DP SAMPLES OUT [FROM TO]

OUT has, for each cycle of the run of MIC over SAMPLES, what each unit of the datapath file DP begins and what result
it drives, the word of each bus, each register, each output latch, and each cell that is written. A unit of time is a
cycle, and what is written at the end of a cycle is there from the next one on. `strobe` is 1 in the first cycle of a
sample, `sample` and `word` are the numbers of the sample and of the microword. The operation of a unit is a text, and
`opcode` its number in microcode files. A run ends at a conflict, which is a text as well. Words are in two's
complement: show them as signed numbers. docs/MACHINE.md, "A trace", says more.

With FROM and TO it has the cycles from FROM on and before TO, as `silc_show trace` prints them. Registers, latches and
cells have at FROM what the cycles before left there, so these are run too.

OUT is there once it is whole. It replaces no input, nor, without --force, a file that no tool made. It builds nothing:
it runs the `silc_show` that is built, or the one that `SILC_SHOW` names in the environment.
"""
import argparse
import shutil
import subprocess
import sys
import tempfile
import time
from collections.abc import Iterable, Iterator
from io import BufferedReader, TextIOWrapper
from pathlib import Path
from typing import cast

from silc.commands import ended
from silc.hardware.datapath import names_of_file
from silc.hardware.netlist import NoCore
from silc.made_files import MadeFiles, NotMade, add_force
from silc.micro_file import BadImage, image_of
from silc.micro_file.image import Image
from silc.programs import SHOW, is_program
from silc.tracing.trace import BadSamples, Cycle, NoTrace, Reader, blocks_of
from silc.tracing.waveform import Waveform, head_of

SECONDS_BETWEEN = 5
PIECE = 1 << 18


def say(text: object) -> None:
    print(f"vcd: {text}", file=sys.stderr, flush=True)


def image_in(file: str) -> Image:
    try:
        return image_of(Path(file).read_bytes())
    except BadImage as why:
        raise NoTrace(f"{file}: {why}") from why


def told(fault: list[str]) -> str:
    """A fault of samples in words."""
    if fault[1] == "line":
        return f"line {fault[2]} is no row of the input words, by byte {fault[4]}"
    return "it is too long" if fault[1] == "TooLong" else " ".join(fault)


def pieces_of(words: list) -> Iterator[str]:
    """What silc_show prints, as it comes."""
    show = SHOW.place()
    if not is_program(show):
        raise NoTrace(f"there is no program {show}; `tools/build silc_show` builds it")
    with tempfile.TemporaryFile("w+") as said:
        with subprocess.Popen([show, *words], stdin=subprocess.DEVNULL, stdout=subprocess.PIPE, stderr=said) as running:
            try:
                stream = cast(BufferedReader, running.stdout)
                while piece := stream.read1(PIECE):
                    yield piece.decode()
            except BaseException:
                running.terminate()
                raise
        said.seek(0)
        if running.returncode:
            raise NoTrace(said.read().strip() or f"silc_show ended with {running.returncode}")


def put_cycles(waveform: Waveform, pieces: Iterable[str], first: int, count: int) -> Cycle | None:
    """Shows the cycles from the first one on, and says how far it is of so many. Gives the last one."""
    reader, cycles, last, said = Reader(), [], None, time.monotonic()
    for blocks in blocks_of(pieces):
        cycles = list(reader.cycles(blocks))
        last = cycles[-1] if cycles else last
        if waveform.began is None:
            early = [cycle for cycle in cycles if cycle[0] < first]
            waveform.pass_by(early)
            cycles = cycles[len(early):]
            if cycles:
                waveform.begin(first)
        waveform.add(cycles)
        if last and time.monotonic() - said > SECONDS_BETWEEN:
            said = time.monotonic()
            say(f"cycle {last[0]} of {count}")
    waveform.end()
    return last


def rows_in(file: str) -> int:
    return len(Path(file).read_bytes().splitlines())


def extent(cycle: Cycle | None, first: int) -> tuple[int, str]:
    """How many cycles are shown, and how the run ends."""
    number, _, layout, _ = cycle or (-1, None, None, None)
    conflict = layout and layout.conflict
    count = number + (not conflict)
    if number < first and (cycle or first):
        end = f"ends in cycle {count} by a conflict: {conflict}" if conflict else f"has {count} cycles"
        raise NoTrace(f"there is no cycle {first}: the run {end}")
    return count - first, f", and then a conflict: {conflict}" if conflict else ""


def make(options: argparse.Namespace) -> str:
    """Makes the waveform, and says what it holds."""
    files = MadeFiles([options.microcode, options.datapath, options.samples], options.force)
    image = image_in(options.microcode)
    names = names_of_file(options.datapath, image)
    count, first = rows_in(options.samples) * image.period, options.first or 0
    words = ["trace", options.microcode, options.samples, *([] if options.to is None else ["0", str(options.to)])]
    files.look_at(options.out)
    with tempfile.TemporaryFile() as kept:
        changes = TextIOWrapper(kept)
        waveform = Waveform(image, names, changes)
        last = put_cycles(waveform, pieces_of(words), first, count if options.to is None else min(count, options.to))
        shown, end = extent(last, first)
        changes.flush()
        kept.seek(0)
        with files.opened(options.out) as file:
            file.write("".join(f"{line}\n" for line in head_of(waveform)).encode())
            shutil.copyfileobj(kept, file, PIECE)
    since = f" from {first} on" if options.to is not None else ""
    return f"{shown} cycles{since}, {len(waveform.signals.by_key)} signals{end}"


def options_of(words: list[str]) -> argparse.Namespace:
    parser = argparse.ArgumentParser(prog="vcd", usage=__doc__.partition("usage: ")[2].partition("\n")[0],
                                     description=__doc__,
                                     formatter_class=argparse.RawDescriptionHelpFormatter, allow_abbrev=False)
    add_force(parser)
    for name, shown in (("microcode", "MIC"), ("datapath", "DP"), ("samples", "SAMPLES"), ("out", "OUT")):
        parser.add_argument(name, metavar=shown)
    parser.add_argument("first", metavar="FROM", type=int, nargs="?")
    parser.add_argument("to", metavar="TO", type=int, nargs="?")
    options = parser.parse_args(words)
    if options.first is not None and (options.to is None or not 0 <= options.first < options.to):
        parser.error("FROM and TO are cycles, and FROM is before TO")
    return options


def put(options: argparse.Namespace) -> None:
    try:
        print(make(options))
    except BadSamples as fault:
        raise NoTrace(f"{options.samples}: {told(str(fault).split())}") from fault


def main(words: list[str]) -> int:
    options = options_of(words)
    return ended("vcd", lambda: put(options), NoCore, NoTrace, NotMade)
