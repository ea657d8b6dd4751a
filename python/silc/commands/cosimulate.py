"""Runs a microcode file on samples twice, in hardware that tools/verilog makes of it and by `silc sim`, and compares
the rows. Of a net file it compares the rows of the cores that queues join with those of its programs.

usage: tools/cosimulate MIC SAMPLES [--datapath DP] [--with icarus|verilator] [--full] [--wait N]
                        [--vcd FILE [--force]]
       tools/cosimulate --stages S SRC DP SAMPLES [--with icarus|verilator] [--wait N] [--vcd FILE [--force]]
       tools/cosimulate NET SAMPLES [--with icarus|verilator] [--wait N] [--vcd FILE [--force]]

The bench of the core runs under Icarus, or under Verilator, which takes longer to build and is some hundred times as
fast. Rows are compared as they come. The first difference is told with its sample, its cycle, and the units that write
the latch of the output word in that sample. --wait N lets both sides of the core wait up to N clocks at random, N up to
100000. --vcd makes a file of the core's waveforms, of all of the run, also where rows differ; a FILE that is there and
that no tool made is left alone but with --force. The exit status is 0 where all rows are equal, and 1 otherwise. It
builds nothing: it runs the `silc` that is built, or the one that `SILC` names in the environment.

With --stages the hardware has S samples of a source in flight, as tools/verilog --stages makes it, and the rows are
compared with those of `silc pipe`.

NET is a file that ends in .toml (docs/NETS.md). Its rows are those of `silc eval` of each program over what its wires
bring, and those of `silc net`, where the program has that command. With --wait each row waits in each queue too.
"""
import argparse
import re
import shutil
import subprocess
import sys
import tempfile
import time
from argparse import Namespace
from collections.abc import Callable, Iterable, Iterator, Sequence
from itertools import zip_longest
from pathlib import Path

from silc.commands import ended
from silc.commands.verilog import check_inputs, guarded_in
from silc.hardware.datapath import names_of, numbered
from silc.hardware.netlist import NoCore
from silc.made_files import MadeFiles, NotMade, add_force
from silc.micro_file import image_of
from silc.micro_file.image import Image
from silc.nets import Net, NetFault, Row, is_net
from silc.pictures.plan import STAGES
from silc.programs import SILC, NoProgram, command, is_program, with_package
from silc.refused import Refused

NAME, WAVES = "core", "waves.vcd"
DONE, NO_WORDS, CONFLICT = 0, 2, 12
SECONDS_BETWEEN = 5
# For how many clocks a side of the core waits at most.
MOST_WAIT = 100_000
# The programs of each simulator, and what installs them.
SIMULATORS = {"icarus": (("iverilog", "vvp"), "iverilog"),
              "verilator": (("verilator", "make", "g++"), "verilator g++ make")}


class Apart(Exception):
    """Why the two are not compared, or how they differ."""


def say(text: object) -> None:
    print(f"cosimulate: {text}", file=sys.stderr, flush=True)


def run(words: Sequence[str | Path], folder: Path, what: str) -> None:
    """Runs a command in silence, or says what it said."""
    done = subprocess.run(words, cwd=folder, stdin=subprocess.DEVNULL, capture_output=True, text=True)
    if done.returncode:
        raise Apart(f"{what} ended with {done.returncode}: {(done.stdout + done.stderr).strip()[-500:]}")


def made(options: Namespace, folder: Path) -> None:
    """Makes the core, or hands on why there is none."""
    words = [*command("verilog"), *options.inputs, folder, "--name", NAME]
    words += ["--stages", str(options.stages)] if options.stages else []
    words += ["--datapath", options.datapath] if options.datapath else []
    words += ["--full"] if options.full else []
    done = subprocess.run(words, capture_output=True, text=True, env=with_package() | {"XDG_STATE_HOME": str(folder)})
    if done.returncode:
        raise Apart(done.stderr.strip().removeprefix("verilog: "))


def check_programs(simulator: str) -> None:
    programs, packages = SIMULATORS[simulator]
    lacking = [program for program in programs if not shutil.which(program)]
    if lacking:
        raise Apart(f"there is no {lacking[0]}; apt-get install {packages}")


def bench_of(options: Namespace, folder: Path) -> list[str | Path]:
    """Builds the bench, and returns the words that run it."""
    sources = sorted(file.name for file in folder.glob("*.v"))
    sources += ["-DSILC_WAITS"] if is_net(options.microcode) else []
    if options.simulator == "icarus":
        run(["iverilog", "-g2005", "-o", "bench", *sources], folder, "Icarus")
        return ["vvp", "-n", "bench"]
    say("Verilator builds the bench")
    run(["verilator", "--binary", "--timing", "-Wno-fatal", "-O3", *(["--trace"] if options.vcd else []),
         "--top-module", f"{NAME}_tb", "-o", "bench", *sources], folder, "Verilator")
    return [folder / "obj_dir" / "bench"]


def simulated(options: Namespace, folder: Path) -> tuple[list[str] | None, int | None]:
    """The rows of `silc sim` or `silc pipe`, and the cycle of an address that is outside of its memory, if there is
    one."""
    silc = SILC.place()
    if not is_program(silc):
        raise Apart(f"there is no program {silc}; `./silc build` builds it")
    out = folder / "rows"
    words = ["pipe", *options.inputs, str(options.stages)] if options.stages else ["sim", *options.inputs]
    done = subprocess.run([silc, *words, options.samples, out], capture_output=True, text=True)
    said = done.stderr.strip().removeprefix("silc: ")
    if done.returncode == DONE:
        return out.read_text().splitlines(), None
    if done.returncode == CONFLICT:
        return None, int(said.partition("cycle ")[2].partition(":")[0])
    raise Apart(f"silc: {said}")


def writers_of(image: Image, word: int, names: list[str]) -> Iterator[tuple[int, str]]:
    """Each cycle of the circle at whose end an output unit writes the latch of this word, with the unit's name."""
    for cycle, row in enumerate(image.words):
        for issue in row.issues.values():
            if issue.operation == "output" and issue.argument == word:
                yield (cycle + image.units[issue.unit].latency - 1) % image.circle(), names[issue.unit]


def difference(image: Image, names: list[str], sample: int, expected: str, got: str) -> str:
    """Where the row of a sample is another than expected."""
    pairs = zip_longest(expected.split(","), got.split(","))
    word = next(place for place, (one, other) in enumerate(pairs) if one != other)
    first = sample * image.period % image.circle()
    units = {name for cycle, name in writers_of(image, word, names) if first <= cycle < first + image.period}
    cycles = sorted(sample * image.period + cycle - first for cycle, _ in writers_of(image, word, names)
                    if first <= cycle < first + image.period)
    by = "not written in this sample"
    if cycles:
        by = f"written by {', '.join(sorted(units))} at the end of cycle {cycles[-1]}"
    return f"sample {sample}: expected {expected}, the core put {got}; its word {word} is {by}"


def compare(said: Iterable[str], expected: list[str] | None,
            differs: Callable[[int, str, str], str]) -> tuple[int, int | None]:
    """Compares the rows that a bench prints with those expected, as they come. Returns the count and the cycle of a
    fault."""
    count, fault, last = 0, None, time.monotonic()
    for line in said:
        word, _, rest = line.strip().partition(" ")
        if word == "row" and not rest.endswith("expected"):
            if expected is not None and (count >= len(expected) or expected[count] != rest):
                raise Apart(differs(count, expected[count] if count < len(expected) else "no row", rest))
            count += 1
        elif word == "fault":
            fault = int(rest.rpartition(" ")[2])
        elif word == "no":
            raise Apart(f"the core stands still after {count} rows")
        if time.monotonic() - last > SECONDS_BETWEEN:
            last = time.monotonic()
            say(f"{count} rows are equal so far" if expected is not None else f"{count} rows")
    return count, fault


def watched(words: Sequence[str | Path], folder: Path, expected: list[str] | None,
            differs: Callable[[int, str, str], str], has_waves: bool) -> tuple[int, int | None]:
    """Runs a bench and compares its rows. Where they differ it is ended, or where it makes a waveform runs to its
    end."""
    with subprocess.Popen(words, cwd=folder, stdin=subprocess.DEVNULL, stdout=subprocess.PIPE, text=True) as bench:
        try:
            return compare(bench.stdout or [], expected, differs)
        except Apart:
            if has_waves:
                say("the rows differ; the bench runs on for its waveform")
                for _ in bench.stdout or []:
                    pass
            raise
        finally:
            bench.terminate()


def put_waves(files: MadeFiles, made_here: Path, name: str | None) -> None:
    """Makes the file of waveforms of that which the bench made."""
    if name is not None and made_here.exists():
        with files.opened(name) as file, open(made_here, "rb") as source:
            shutil.copyfileobj(source, file)


def judged(options: Namespace, folder: Path, files: MadeFiles, expected: list[str] | None,
           differs: Callable[[int, str, str], str]) -> tuple[int, int | None]:
    """Builds the bench of what was made and compares its rows. Returns their count and the cycle of a fault."""
    check_programs(options.simulator)
    words = [*bench_of(options, folder), f"+samples={Path(options.samples).resolve()}", "+rows_alone=1",
             *(f"+{side}_wait={options.wait}" for side in ("in", "out", "queue"))]
    words += [f"+vcd={folder / WAVES}"] if options.vcd else []
    try:
        return watched(words, folder, expected, differs, bool(options.vcd))
    finally:
        put_waves(files, folder / WAVES, options.vcd)


def rows_by_net(options: Namespace, folder: Path) -> list[str] | None:
    """The lines of `silc net`, or nothing where the program has no such command."""
    out = folder / "rows"
    done = subprocess.run([SILC.place(), "net", options.microcode, options.samples, out], capture_output=True,
                          text=True)
    if done.returncode == NO_WORDS:
        say("this silc has no command net: the rows of its programs alone are compared")
        return None
    if done.returncode != DONE:
        raise Apart(f"silc: {done.stderr.strip().removeprefix('silc: ')}")
    return out.read_text().splitlines()


def net_difference(net: Net, sample: int, expected: str, got: str) -> str:
    """Where the row of a sample is another than that of the net's programs."""
    pairs = zip_longest(expected.split(","), got.split(","))
    word = next(place for place, (one, other) in enumerate(pairs) if one != other)
    named = net.outputs[word].name if word < len(net.outputs) else "none"
    return f"sample {sample}: expected {expected}, the cores put {got}; its word {word} is {named}"


def rows_in(net: Net, samples: str) -> list[Row]:
    try:
        return net.rows_of(Path(samples).read_text())
    except ValueError as why:
        raise Apart(why) from why


def cosimulate_net(options: Namespace, folder: Path) -> str:
    net = Net(options.microcode)
    files = MadeFiles(inputs=[options.microcode, options.samples, *net.files()], is_forced=options.force)
    files.look_at(options.vcd)
    expected = [",".join(map(str, row)) for row in net.evaluate(rows_in(net, options.samples))]
    if rows_by_net(options, folder) not in (None, expected):
        raise Apart("silc net puts other rows than its programs do")
    made(options, folder)
    count, _ = judged(options, folder, files, expected, lambda *place: net_difference(net, *place))
    if count < len(expected):
        raise Apart(f"the cores put {count} rows, and {len(expected)} are expected")
    return f"{count} rows are equal"


def cosimulate(options: Namespace, folder: Path) -> str:
    if is_net(options.microcode):
        return cosimulate_net(options, folder)
    files = MadeFiles(inputs=[*options.inputs, options.samples, options.datapath], is_forced=options.force)
    files.look_at(options.vcd)
    expected, conflict = simulated(options, folder)
    made(options, folder)
    image, names = hardware_of(options)
    count, fault = judged(options, folder, files, expected, lambda *place: difference(image, names, *place))
    if fault != conflict:
        raise Apart(f"silc's address fault is at cycle {conflict}, and the core's at {fault}")
    if expected is not None and count < len(expected):
        raise Apart(f"the core put {count} rows, and {len(expected)} are expected")
    if fault is not None:
        return f"both stop at cycle {fault}, where an address is outside of its memory"
    return f"{count} rows are equal"


def hardware_of(options: argparse.Namespace) -> tuple[Image, list[str]]:
    """The image that the core runs, and the names of its units."""
    if options.stages:
        source, datapath = options.inputs
        image = guarded_in(source, datapath, options.stages).image
    else:
        image, datapath = image_of(Path(options.microcode).read_bytes()), options.datapath
    return image, (names_of(Path(datapath).read_text(), image) if datapath else numbered(image)).units


def wait_of(word: str) -> int:
    if not re.fullmatch("[0-9]{1,7}", word) or int(word) > MOST_WAIT:
        raise argparse.ArgumentTypeError(f"{word} is no number of clocks from 0 to {MOST_WAIT}")
    return int(word)


def options_of(words: list[str]) -> argparse.Namespace:
    parser = argparse.ArgumentParser(prog="cosimulate", usage=__doc__.partition("usage: ")[2].partition("\n\n")[0],
                                     description=__doc__, formatter_class=argparse.RawDescriptionHelpFormatter)
    parser.add_argument("inputs", metavar="MIC|NET", nargs="+")
    parser.add_argument("--stages", metavar="S", type=int, choices=STAGES)
    parser.add_argument("--datapath", metavar="DP")
    parser.add_argument("--with", dest="simulator", choices=SIMULATORS, default="icarus")
    parser.add_argument("--full", action="store_true")
    parser.add_argument("--wait", metavar="N", type=wait_of, default=0)
    parser.add_argument("--vcd", metavar="FILE")
    add_force(parser)
    options = parser.parse_intermixed_args(words)
    *options.inputs, options.samples = options.inputs
    check_inputs(parser, options, "SAMPLES")
    if options.force and options.vcd is None:
        parser.error("--force is for --vcd")
    return options


def run_both(options: argparse.Namespace) -> None:
    with tempfile.TemporaryDirectory(prefix="silc-core-") as folder:
        print(cosimulate(options, Path(folder)))


def main(words: list[str]) -> int:
    options = options_of(words)
    return ended("cosimulate", lambda: run_both(options), Apart, NoCore, NotMade, NetFault, NoProgram, Refused)
