"""Says what hardware the core of a microcode file takes: cells, flip-flops, block memories, multipliers and clock. Of a
net file it says what all its cores and queues take together.

usage: tools/synthesize MIC [--datapath DP] [--for ice40|xilinx|ecp5] [--dsp] [--full | --large] [--no-restart]
                        [--route] [--part up5k|hx8k] [--rate HZ] [--json]
       tools/synthesize NET [--for ice40|xilinx|ecp5] [--dsp] [--no-restart] [--route] [--part up5k|hx8k] [--json]

NET is a file that ends in .toml (docs/NETS.md). Yosys synthesizes the core, or the net of cores, that tools/verilog
makes. --dsp uses the multipliers that an ice40 up5k has; the others have some always. --route places and routes for an
ice40 by nextpnr, and says at which clock the core runs: for the part that --part names, else for an hx8k, with --dsp
for an up5k. A part is routed with its multipliers, where it has some. What the core takes is printed before it is
routed; where a number is above what the part has, that is said, and nothing is routed. Where the package has fewer pins
than the core, the words of its rows come and go through shift registers, which is said too.

Before that it says which memories the core has, of more than four words, and how many bits each. First words that are
not all 0, those of `@@` in a source, stand in a second memory too, from which a reset brings them back: --no-restart
spares it, as RESTART of 0 does (docs/HARDWARE.md, "Reset"). --large puts long delays into the large memories of an
up5k. With --part it says what of all that the part has the core takes.

With --rate HZ, samples a second, it says which clock that takes: a sample takes as many clocks as the period of the
microcode has cycles. Where the core's is less, the exit status is 3, and a line says through what its longest path
goes, and which latency or split would make it shorter: that is an estimate from the path's names, and has to be tried.
The clock is an estimate of one placement: nextpnr's, or, since that takes multipliers for ones with registers,
icetime's where the core has some.

With --json the numbers come as one line of JSON. It writes no file but in a folder of its own, which goes away.
"""
import argparse
import json
import re
import subprocess
import sys
import tempfile
from dataclasses import dataclass
from pathlib import Path

from silc.commands import ended
from silc.hardware import pins
from silc.hardware.datapath import names_of, numbered
from silc.hardware.fpga import LARGE, MULTIPLIERS, PARTS, Fpga
from silc.hardware.memories import memories_in, told
from silc.hardware.netlist import NoCore
from silc.hardware.paths import Unit, path_of, remedies
from silc.hardware.routing import Unrouted, need, routed, run
from silc.micro_file import BadImage, image_of
from silc.nets import is_net
from silc.programs import command, with_package

NAME, SHARED, MEGA, SHORT = "core", "silc_parts.v", 1e6, 3
RESTART = "parameter RESTART"
# For each family the command of Yosys, and which cells count for what. What no pattern has is no cell of the logic.
FAMILIES = {
    "ice40": ("synth_ice40",
              {"logic cells": r"SB_LUT4", "flip-flops": r"SB_DFF\w*", "block memories": r"SB_RAM40\w*",
               "multipliers": r"SB_MAC16", LARGE: r"SB_SPRAM256\w*"}),
    "xilinx": ("synth_xilinx", {"logic cells": r"LUT\d|CARRY4|MUXF\d", "flip-flops": r"FD[RSCP]E(_1)?",
                                "memories in cells": r"RAM\d+[MX]\w*", "block memories": r"RAMB\d+\w*",
                                "multipliers": r"DSP48\w*"}),
    "ecp5": ("synth_ecp5", {"logic cells": r"LUT4|CCU2C|PFUMX|L6MUX21", "flip-flops": r"TRELLIS_FF",
                            "memories in cells": r"TRELLIS_DPR16X4", "block memories": r"DP16KD|PDPW16KD",
                            "multipliers": r"MULT18X18D"}),
}


class Unmade(Exception):
    """Why there are no numbers."""


def check_programs(options: argparse.Namespace) -> None:
    need("yosys")
    for flag in ("route", "dsp", "part", "large"):
        if getattr(options, flag) and options.family != "ice40":
            raise Unmade(f"--{flag} is for ice40")
    if options.route:
        need("nextpnr-ice40")
    if options.dsp and options.part and not PARTS[options.part].has_multipliers():
        raise Unmade(f"--dsp: an {options.part} has no multipliers")
    if options.large and options.part and not PARTS[options.part].large_memories:
        raise Unmade(f"--large: an {options.part} has no large memories")
    if options.rate is not None and not options.route:
        raise Unmade("--rate HZ goes with --route")


def part_of(options: argparse.Namespace) -> Fpga:
    """The part for which a core is routed."""
    return PARTS[options.part or ("up5k" if options.dsp or options.large else "hx8k")]


def make_core(options: argparse.Namespace, folder: Path) -> None:
    words = [*command("verilog"), options.microcode, folder, "--name", NAME]
    words += ["--datapath", options.datapath] if options.datapath else []
    words += [f"--{flag}" for flag in ("full", "large") if getattr(options, flag)]
    done = subprocess.run(words, capture_output=True, text=True, env=with_package() | {"XDG_STATE_HOME": str(folder)})
    if done.returncode:
        raise Unmade(done.stderr.strip().removeprefix("verilog: "))
    if not options.restart:
        module = folder / f"{NAME}.v"
        module.write_text(module.read_text().replace(f"{RESTART} = 1", f"{RESTART} = 0"))


def synthesized(options: argparse.Namespace, folder: Path, top: str) -> dict[str, int]:
    """How many cells of each type the core takes, in the module `top`. The parts wait for their parameters."""
    has_multipliers = options.dsp or options.part and PARTS[options.part].has_multipliers()
    command = FAMILIES[options.family][0] + (" -dsp" if has_multipliers else "")
    sources = " ".join(sorted({file.name for file in folder.glob("*.v")} - {SHARED, f"{NAME}_tb.v"}))
    script = (f"read_verilog -defer {SHARED}; read_verilog -defer {sources}; {command} -top {top}; "
              f"write_json {NAME}.json; tee -q -o stat.txt stat")
    run(["yosys", "-q", "-p", script], folder, "Yosys")
    last = (folder / "stat.txt").read_text().rpartition("Number of cells:")[2]
    return {name: int(count) for name, count in re.findall(r"^\s+(\w+)\s+(\d+)$", last, re.M)}


def counted(family: str, cells: dict[str, int]) -> dict[str, int]:
    """The numbers for each kind of cell."""
    return {kind: sum(count for name, count in cells.items() if re.fullmatch(pattern, name))
            for kind, pattern in FAMILIES[family][1].items()}


# Places and routes


@dataclass(frozen=True)
class Core:
    """What is known of the core beside its Verilog: its period, its units, and its ports."""
    period: int
    units: list[Unit]
    ports: list[pins.Port]


def core_in(options: argparse.Namespace, folder: Path) -> Core:
    """What there is to know of the core that was made in a folder. Of a net that is its ports."""
    ports = pins.ports_of((folder / f"{NAME}.v").read_text())
    if is_net(options.microcode):
        return Core(0, [], ports)
    try:
        image = image_of(Path(options.microcode).read_bytes())
        names = names_of(Path(options.datapath).read_text(), image) if options.datapath else numbered(image)
    except (BadImage, NoCore) as why:
        raise Unmade(f"{options.microcode}: {why}") from None
    units = [Unit(name, unit.kind, unit.latency) for name, unit in zip(names.units, image.units)]
    return Core(image.period, units, ports)


def top_for(options: argparse.Namespace, folder: Path, core: Core) -> str:
    """The module that is synthesized: the core itself, or one round it where its ports have more pins than the part."""
    part = part_of(options)
    taken = pins.pins_of(core.ports)
    if not options.route or taken <= part.pins:
        return NAME
    (folder / f"{pins.NAME}.v").write_text(pins.wrapped(NAME, core.ports))
    tell(options, f"{taken} pins do not fit the {part.pins} of an {part.name}: rows come and go through shift "
                  "registers, which are counted with the core")
    return pins.NAME


def tell(options: argparse.Namespace, line: str) -> None:
    """Prints a line at once; where the numbers are JSON, on standard error."""
    print(line, file=sys.stderr if options.json else sys.stdout, flush=True)


def tell_memories(options: argparse.Namespace, folder: Path) -> None:
    """Says which memories the core in a folder has."""
    if not options.json:
        for line in told(memories_in(folder, NAME), options.restart, options.large):
            print(line, flush=True)


def shown(options: argparse.Namespace, numbers: dict[str, float]) -> str:
    return f"{options.family}: " + ", ".join(f"{count} {kind}" for kind, count in numbers.items()
                                             if count or kind != LARGE)


def check_fit(options: argparse.Namespace, numbers: dict[str, float]) -> None:
    part = part_of(options)
    misfit = part.misfit(numbers)
    if misfit:
        has_other = part.large_memories and not options.large and numbers["block memories"] > part.block_memories
        more = f"; --large puts long delays into its {part.large_memories} large memories" if has_other else ""
        raise Unmade(misfit + more)
    if not options.json:
        print(part.verdict(numbers), flush=True)


def route(options: argparse.Namespace, folder: Path, core: Core, numbers: dict[str, float]) -> int:
    """Adds the clock to the numbers, and says what it is beside the one that the rate takes. Gives the exit status."""
    part = part_of(options)
    needed = options.rate * core.period / MEGA if options.rate else None
    made = routed(NAME, folder, part, needed, bool(numbers.get(MULTIPLIERS)))
    clock = numbers["MHz"] = made.clock
    if not needed:
        return 0
    numbers["needed MHz"] = round(needed, 6)
    takes = f"{options.rate:,g} samples a second take {needed:.2f} MHz, {core.period} clocks a sample"
    if clock >= needed:
        tell(options, f"{part.name}: {takes}, and it runs at {clock:.2f}")
        return 0
    path = path_of(made.names, core.units)
    tell(options, f"{part.name}: {takes}, and it runs at {clock:.2f} alone; the longest path goes through {path}")
    for remedy in remedies(path):
        tell(options, f"  {remedy}")
    return SHORT


def options_of(words: list[str]) -> argparse.Namespace:
    parser = argparse.ArgumentParser(prog="synthesize", usage=__doc__.partition("usage: ")[2].partition("\n\n")[0],
                                     description=__doc__, formatter_class=argparse.RawDescriptionHelpFormatter)
    parser.add_argument("microcode", metavar="MIC|NET")
    parser.add_argument("--datapath", metavar="DP")
    parser.add_argument("--for", dest="family", choices=FAMILIES, default="ice40")
    parser.add_argument("--part", type=part_word, choices=PARTS)
    parser.add_argument("--rate", metavar="HZ", type=rate_word)
    for flag in ("--dsp", "--full", "--large", "--route", "--json"):
        parser.add_argument(flag, action="store_true")
    parser.add_argument("--no-restart", dest="restart", action="store_false")
    options = parser.parse_args(words)
    if is_net(options.microcode) and (options.datapath is not None or options.full or options.large):
        parser.error("--datapath, --full and --large are for microcode: a net file names the datapaths, and its cores "
                     "have one program")
    if options.full and options.large:
        parser.error("--large is for a core of one program alone, and --full for any")
    if options.large and not options.restart:
        parser.error("--large: a reset fills large memories, so that --no-restart can't be")
    if is_net(options.microcode) and options.rate is not None:
        parser.error("--rate is for microcode: of a net the slowest core counts")
    return options


def part_word(word: str) -> str:
    if word not in PARTS:
        raise argparse.ArgumentTypeError(f"{word} is no part that is known; there are {' and '.join(PARTS)}")
    return word


def rate_word(word: str) -> float:
    rate = float(word)
    if not 0 < rate < MEGA * MEGA:
        raise argparse.ArgumentTypeError(f"{word} is no rate")
    return rate


def put(options: argparse.Namespace) -> int:
    """Prints the numbers. Gives the exit status."""
    check_programs(options)
    status = 0
    with tempfile.TemporaryDirectory(prefix="silc-core-") as name:
        folder = Path(name)
        make_core(options, folder)
        core = core_in(options, folder) if options.route else None
        if not is_net(options.microcode):
            tell_memories(options, folder)
        numbers: dict[str, float] = dict(counted(options.family, synthesized(
            options, folder, top_for(options, folder, core) if core else NAME)))
        if not options.json:
            print(shown(options, numbers), flush=True)
        if options.part or core:
            check_fit(options, numbers)
        if core:
            status = route(options, folder, core, numbers)
    if options.json:
        print(json.dumps(numbers))
    elif core:
        print(f"{part_of(options).name}: {numbers['MHz']} MHz")
    return status


def main(words: list[str]) -> int:
    options = options_of(words)
    return ended("synthesize", lambda: put(options), Unmade, Unrouted)
