#!/usr/bin/env python3
"""Whether cores come onto the two parts: a bitstream for each board, what tools/synthesize says of a rate that is
served and of one that is not and of pins that do not fit, and whether the pins of the boards are pins of their parts,
by the tables of icebox.

usage: tests/hardware/check_routes.py

It runs the built `silc`, or the one that `SILC` names. Without Yosys, nextpnr and icestorm it is skipped, and ends with
77. docs/BOARD.md, which tests/check_board.py runs, has a core with multipliers.
"""
import json
import os
import re
import shutil
import subprocess
import sys
import tempfile
from collections.abc import Iterator
from pathlib import Path
from typing import TypeAlias

from silc.hardware.boards import BOARDS, LINES, Board
from silc.hardware.fpga import PARTS

# Where a pin is on the chip: a column, a row, and which of two it is there.
Place: TypeAlias = tuple[int, int, int]

ROOT = Path(__file__).resolve().parent.parent.parent
SILC = Path(os.environ.get("SILC", ROOT / "crates" / "silc_main" / "out" / "silc_main")).resolve()
SKIPPED = 77
NEEDED = {"yosys": "yosys", "nextpnr-ice40": "nextpnr-ice40", "icepack": "fpga-icestorm"}
DATAPATH = ROOT / "examples" / "goertzel" / "one_multiplier.toml"
# Left and right exchanged, and four words of 16 bits in and one out.
SWAP = "func main(a : fix<16,15>, b : fix<16,15>) (c : fix<16,15>, d : fix<16,15>) = begin c = b; d = a >> 1; end;"
MANY = "func main(x[4] : fix<16,15>) y : fix<16,15> = begin y = x[0] + x[3]; end;"
# Of each run of tools/synthesize the exit status and what it says.
PINS = 4 * 16 + 16 + 8
RUNS = (
    ("many --part up5k --route --rate 48000", 0,
     (f"{PINS} pins do not fit the 39 of an up5k: rows come and go through shift registers, which are counted with the "
      "core", "up5k: it fits, with ", "up5k: 48,000 samples a second take ", "up5k: ")),
    ("swap --part hx8k --route --rate 100000000", 3, ("alone; the longest path goes through ",)),
    ("swap --large --part hx8k", 1, ("synthesize: --large: an hx8k has no large memories",)),
    ("swap --part hx8k --dsp", 1, ("synthesize: --dsp: an hx8k has no multipliers",)),
)
# What stands before all else in a bitstream of an iCE40, behind a comment (Project IceStorm).
PREAMBLE = bytes.fromhex("7eaa997e")
# How icebox calls a part's package, and its part.
TABLES = {"up5k": ("5k-sg48", "5k"), "hx8k": ("8k-ct256", "8k")}
ICEBOX = "share/fpga-icestorm/python", "share/icebox", "bin"
# The pins of a package and the places of a chip's clocks, by icebox, whose modules are in a folder of their own.
PRINT_TABLES = """import icebox, json, sys
print(json.dumps([icebox.pinloc_db[sys.argv[1]], icebox.padin_pio_db[sys.argv[2]]]))"""


def ran(*words: str | Path, room: Path) -> "subprocess.CompletedProcess[str]":
    return subprocess.run(words, cwd=room, stdin=subprocess.DEVNULL, capture_output=True, text=True,
                          env=os.environ | {"SILC": str(SILC), "XDG_STATE_HOME": str(room)})


def compile_all(room: Path) -> None:
    for name, source in (("swap", SWAP), ("many", MANY)):
        (room / f"{name}.sil").write_text(source)
        done = ran(SILC, "compile", f"{name}.sil", DATAPATH, f"{name}.mic", room=room)
        if done.returncode:
            raise ValueError(f"{name}: {done.stderr.strip()}")


def synthesis_faults(room: Path) -> Iterator[str]:
    for words, status, said in RUNS:
        core, *options = words.split()
        done = ran(ROOT / "tools" / "synthesize", f"{core}.mic", *options, room=room)
        if done.returncode != status or any(line not in done.stdout + done.stderr for line in said):
            yield f"synthesize {words}: it ended with {done.returncode}: {done.stdout}{done.stderr}"


def build_faults(room: Path) -> Iterator[str]:
    """A bitstream for each board, as its programmer takes it."""
    for name, board in BOARDS.items():
        done = ran(ROOT / "tools" / "board", name, "swap.mic", name, "--build", room=room)
        file = room / name / "board.bin"
        said = re.search(r"(\d+) of (\d+) logic cells; it runs at up to ([\d.]+) MHz, and the board has 12\n",
                         done.stdout)
        if done.returncode or not said or not file.is_file() or PREAMBLE not in file.read_bytes()[:64]:
            yield f"{name}: no bitstream: {done.returncode} {done.stdout}{done.stderr}"
        elif int(said[2]) != board.fpga.logic_cells or float(said[3]) < 12:
            yield f"{name}: {said[0]}"


def icebox_pins(board: Board) -> tuple[dict[str, Place], list[Place]] | None:
    """Where the pins of a board's part are on its chip, and which places are those of clocks, where icebox is there."""
    program = shutil.which("icepack")
    top = Path(program).resolve().parent.parent if program else Path()
    folder = next((top / name for name in ICEBOX if (top / name / "icebox.py").is_file()), None)
    if not folder:
        return None
    package, chip = TABLES[board.fpga.name]
    said = subprocess.run([sys.executable, "-c", PRINT_TABLES, package, chip], env=os.environ | {
        "PYTHONPATH": str(folder)}, capture_output=True, text=True, check=True).stdout
    pins, clocks = json.loads(said)
    return {pin: (x, y, z) for pin, x, y, z in pins}, [(x, y, z) for x, y, z in clocks]


def pin_faults(board: Board) -> Iterator[str]:
    tables = icebox_pins(board)
    if tables is None:
        return
    places, clocks = tables
    used = [*board.pins.values(), board.serial, *([board.button] if board.button else [])]
    if len(places) != board.fpga.pins or len(set(used)) != len(used) or not set(used) <= set(places):
        yield f"{board.name}: of {used} some are no pins of the part, or are there twice"
    elif places[board.pins["clk"]] not in clocks:
        yield f"{board.name}: the clock is no pin of a clock"
    # What boards.py says of the breakout board: the lines of its codec are in bank 3, which is at the left edge.
    lines = [board.pins[f"{end}_{line}"] for end in ("dac", "adc") for line in LINES]
    if board.fpga.name == "hx8k" and any(places[pin][0] for pin in lines):
        yield f"{board.name}: of {lines} some are not in bank 3"


def main() -> int:
    for program, package in NEEDED.items():
        if not shutil.which(program):
            print(f"routes: skipped: there is no {program}; apt-get install {package}")
            return SKIPPED
    with tempfile.TemporaryDirectory(prefix="silc-routes-") as folder:
        room = Path(folder)
        compile_all(room)
        faults = [fault for board in BOARDS.values() for fault in pin_faults(board)]
        faults += [*synthesis_faults(room), *build_faults(room)]
    for fault in faults:
        print(fault)
    print(f"routes: {len(BOARDS)} boards on {len(PARTS)} parts, {len(faults)} faults")
    return 1 if faults else 0


if __name__ == "__main__":
    sys.exit(main())
