#!/usr/bin/env python3
"""Whether tools/board makes tops that play: rows that go through the lines of each board, as master and as slave, with
words of 16, 24 and 32 bits, come back as `silc sim` puts them; what it refuses; whether a program that is lacking is
named with its package, and of what does not fit the number that is over. Bitstreams are for check_routes.py.

usage: tests/hardware/check_boards.py

It runs the built `silc`, or the one that `SILC` names. Without Icarus it is skipped, and ends with 77.
"""
import os
import random
import shutil
import subprocess
import sys
import tempfile
from collections.abc import Iterator
from pathlib import Path

from silc import programs

ROOT = Path(__file__).resolve().parent.parent.parent
SILC = Path(programs.SILC.place())
SKIPPED, ROWS = 77, 20
EQUALISER = ("equaliser", "one_multiplier")
# A microcode of two words of each, left and right exchanged, and one of four words.
SWAP = "func main(a : fix<16,15>, b : fix<16,15>) (c : fix<16,15>, d : fix<16,15>) = begin c = b; d = a >> 1; end;"
MANY = "func main(x[4] : fix<16,15>) y : fix<16,15> = begin y = x[0] + x[3]; end;"
TRUTH = "func main(x : bool) y : bool = begin y = !x; end;"
# Two channels with a volume and a switch that a host sets, and one channel with a volume.
KNOBS = """func main(a : fix<16,15>, b : fix<16,15>, loud : fix<10,8>, turned : bool) (c : fix<16,15>, d : fix<16,15>) =
begin c = fix<16,15,sat>(loud * if turned -> b || a fi); d = fix<16,15,sat>(loud * if turned -> a || b fi); end;"""
VOLUME = "func main(a : fix<16,15>, loud : fix<10,8>) c : fix<16,15> = begin c = fix<16,15,sat>(loud * a); end;"
# Of each play the board, the core, its options, and what it says behind the rows.
PLAYS = (
    ("icebreaker", "equaliser", "--bits 32", "the core has 232 clocks to spare in each frame"),
    ("icebreaker", "swap", "", "clocks to spare in each frame"),
    ("hx8k", "swap", "--slave --rate 48000 --bits 24", "clocks to spare in each frame"),
    ("hx8k", "equaliser", "--slave --rate 44100 --bits 16", "clocks to spare in each frame"),
)
# The same with control words, by the rows at which they change, and so many changes.
CONTROLS = (
    ("icebreaker", "knobs", "--control 2 --baud 1000000", {0: (256, 0), 5: (-100, 1), 6: (511, 1), 12: (1, 0)}),
    ("hx8k", "volume", "--control 1 --baud 500000 --slave --rate 48000 --bits 24", {2: (300,), 11: (-512,)}),
)
REFUSED = (
    ("hx8k equaliser --rate 48000",
     "as a master an hx8k has 46,875 samples a second, 256 clocks each, and not 48,000; "
     "as a slave it takes the codec's"),
    ("hx8k equaliser --slave --rate 96000",
     "as a slave an hx8k reads up to 57,692 samples a second, with 64 bits a frame"),
    ("hx8k equaliser --slave --rate 1000000",
     "1,000,000 samples a second leave 12.0 clocks of 12 MHz for each, and the core takes 24"),
    ("icebreaker many",
     "a row of the core has 4 words in and 1 out; a board takes two of each, left and right, "
     "or one of each, for a core for each channel; --control N makes the last N words in control words"),
    ("icebreaker many --control 2",
     "a row of the core has 2 words in beside 2 control words and 1 out; a board takes two of each, left and right, "
     "or one of each, for a core for each channel"),
    ("hx8k many --control 3 --baud 2000000",
     "--baud 2000000: an hx8k reads up to 1,500,000 bits a second, of a whole number of clocks up to 2%"),
    ("hx8k equaliser --large", "--large: an hx8k has no large memories"),
    # Without a datapath a unit has its number; its memory has 32 cells of 32 bits.
    ("icebreaker equaliser --large", "no memory can be a large one: 5 has 1,024 bits, and less than 16,384 are better "
     "in block memories"),
    ("icebreaker truth", "an input of the core is a truth value, and no word of audio"),
    ("icebreaker equaliser --output 20", "--output 20: an output of the core has 32 bits"),
    ("icebreaker equaliser --name board", "the core would be called board, as the top is; --name gives another"),
)
# A program in the place of Yosys, of which a core has so many multipliers, and one in that of nextpnr that packs more
# cells than there are.
YOSYS = """
echo '{{"modules": {{"board": {{"cells": {{{cells}}}}}}}}}' >board.json
printf 'Number of cells: 1\\n  SB_MAC16  {count}\\n' >stat.txt
"""
NEXTPNR = """
echo "Info:          ICESTORM_LC:  5300/ 5280   100%" >&2
echo "Info:         ICESTORM_RAM:     1/   30     3%" >&2
echo "ERROR: Unable to place cell 'x', no Bels remaining of type 'ICESTORM_LC'" >&2
exit 1
"""
# Commands, the multipliers of their core, and which number is over.
MISFITS = (
    ("board icebreaker swap.mic unmade --build", 9, "it takes 9 multipliers, and an up5k has 8"),
    ("board hx8k swap.mic unmade --build", 1, "it takes 1 multipliers, and an hx8k has 0"),
    ("board icebreaker swap.mic unmade --build", 8, "placed, it takes 5300 logic cells, and an up5k has 5280"),
    ("synthesize swap.mic --part up5k", 9, "it takes 9 multipliers, and an up5k has 8"),
    ("synthesize swap.mic --part up5k --route", 8, "placed, it takes 5300 logic cells, and an up5k has 5280"),
)
# Commands, which programs are there for them, which one is lacking, and its package of Debian.
LACKING = (
    ("board icebreaker swap.mic unmade --build", "", "yosys", "yosys"),
    ("board icebreaker swap.mic unmade --build", "yosys", "nextpnr-ice40", "nextpnr-ice40"),
    ("board hx8k swap.mic unmade --build", "yosys nextpnr-ice40", "icepack", "fpga-icestorm"),
    ("board hx8k swap.mic unmade --samples rows", "", "iverilog", "iverilog"),
    ("synthesize swap.mic --part up5k", "", "yosys", "yosys"),
    ("synthesize swap.mic --part hx8k --route", "yosys", "nextpnr-ice40", "nextpnr-ice40"),
    ("explore --pool --out unmade --area ice40 swap.sil x.ranges", "", "yosys", "yosys"),
    ("explore --pool --out unmade --area ice40 --clock 8000 swap.sil x.ranges", "yosys", "nextpnr-ice40",
     "nextpnr-ice40"),
)


def ran(*words: str | Path, room: Path) -> "subprocess.CompletedProcess[str]":
    return subprocess.run(words, cwd=room, stdin=subprocess.DEVNULL, capture_output=True, text=True,
                          env=os.environ | {"SILC": str(SILC), "XDG_STATE_HOME": str(room)})


def compile_all(room: Path) -> None:
    """The microcode of the equaliser, and of the small ones over that of another example."""
    example = ROOT / "examples" / EQUALISER[0]
    named = {EQUALISER[0]: (example / f"{EQUALISER[0]}.sil", example / f"{EQUALISER[1]}.toml")}
    for name, text in (("swap", SWAP), ("many", MANY), ("truth", TRUTH), ("knobs", KNOBS), ("volume", VOLUME)):
        (room / f"{name}.sil").write_text(text)
        example = "parametric" if name in ("knobs", "volume") else "goertzel"
        named[name] = room / f"{name}.sil", ROOT / "examples" / example / "one_multiplier.toml"
    for name, (source, datapath) in named.items():
        done = ran(SILC, "compile", source, datapath, f"{name}.mic", room=room)
        if done.returncode:
            raise ValueError(f"{name}: {done.stderr.strip()}")


def board(name: str, core: str, options: str, room: Path, out: str) -> "subprocess.CompletedProcess[str]":
    return ran(ROOT / "tools" / "board", name, f"{core}.mic", out, *options.split(), room=room)


def play_faults(room: Path) -> Iterator[str]:
    dice = random.Random(3)
    (room / "rows").write_text("".join(f"{dice.randint(-32768, 32767)},{dice.randint(-32768, 32767)}\n"
                                       for _ in range(ROWS)))
    for number, (name, core, options, said) in enumerate(PLAYS):
        done = board(name, core, f"{options} --samples rows", room, f"play{number}")
        if (done.returncode or f"{ROWS} rows came back as silc sim puts them" not in done.stdout
                or said not in done.stdout):
            yield f"{name} {core} {options}: {done.stdout}{done.stderr}"


def control_faults(room: Path) -> Iterator[str]:
    """Plays in which control words change."""
    dice = random.Random(5)
    for number, (name, core, options, steps) in enumerate(CONTROLS):
        words, lines = (0,) * len(next(iter(steps.values()))), []
        for row in range(ROWS):
            words = steps.get(row, words)
            lines.append((dice.randint(-32768, 32767), dice.randint(-32768, 32767), *words))
        (room / "turned").write_text("".join(f"{','.join(map(str, line))}\n" for line in lines))
        done = board(name, core, f"{options} --samples turned", room, f"control{number}")
        said = f"rows came back as silc sim puts them, while control words changed in {len(steps)} of them"
        if done.returncode or said not in done.stdout:
            yield f"{name} {core} {options}: {done.stdout}{done.stderr}"


def refusal_faults(room: Path) -> Iterator[str]:
    for words, said in REFUSED:
        name, core, *options = words.split()
        done = board(name, core, " ".join(options), room, "refused")
        if done.returncode != 1 or done.stderr != f"board: {said}\n" or (room / "refused").exists():
            yield f"{words}: it ended with {done.returncode}: {done.stderr}"
    top = room / "play0" / "board.v"
    top.write_text("mine\n")
    done = board("icebreaker", "equaliser", "", room, "play0")
    if done.returncode != 1 or top.read_text() != "mine\n":
        yield f"a file of the user's: {done.stderr}"


def played(words: str, programs: dict[str, str], room: Path) -> "subprocess.CompletedProcess[str]":
    """How a tool ends where no programs of the host are there but these, by their names and their scripts."""
    folder = room / "there"
    shutil.rmtree(folder, ignore_errors=True)
    folder.mkdir()
    for program, script in programs.items():
        (folder / program).write_text(f"#!/bin/sh\n{script}")
        (folder / program).chmod(0o755)
    tool, *options = words.split()
    return subprocess.run([sys.executable, ROOT / "tools" / tool, *options], cwd=room, stdin=subprocess.DEVNULL,
                          capture_output=True, text=True,
                          env=os.environ | {"SILC": str(SILC), "XDG_STATE_HOME": str(room), "PATH": str(folder)})


def lacking_faults(room: Path) -> Iterator[str]:
    """Where one of its programs is not there, each tool says in one line what installs it, and makes nothing."""
    (room / "x.ranges").write_text("")
    for words, there, lacks, package in LACKING:
        done = played(words, dict.fromkeys(there.split(), ""), room)
        wanted = f"{words.partition(' ')[0]}: there is no {lacks}; apt-get install {package}\n"
        if (done.returncode, done.stderr, done.stdout) != (1, wanted, "") or (room / "unmade").exists():
            yield f"{words}, with {there or 'nothing'}: it ended with {done.returncode}: {done.stdout}{done.stderr}"


def misfit_faults(room: Path) -> Iterator[str]:
    """Of what does not fit a part each tool says which number is over, and makes nothing. Scripts play Yosys, nextpnr
    and icetime."""
    for words, multipliers, said in MISFITS:
        cells = ", ".join(f'"m{k}": {{"type": "SB_MAC16"}}' for k in range(multipliers))
        yosys = YOSYS.format(cells=cells, count=multipliers)
        done = played(words, {"yosys": yosys, "nextpnr-ice40": NEXTPNR, "icetime": "", "icepack": ""}, room)
        if (done.returncode, done.stderr) != (1, f"{words.partition(' ')[0]}: it does not fit: {said}\n") or \
                (room / "unmade").exists():
            yield f"{words}: it ended with {done.returncode}: {done.stderr}"


def main() -> int:
    if not shutil.which("iverilog"):
        print("boards: skipped: there is no iverilog; apt-get install iverilog")
        return SKIPPED
    with tempfile.TemporaryDirectory(prefix="silc-boards-") as folder:
        room = Path(folder)
        compile_all(room)
        faults = [*play_faults(room), *control_faults(room), *refusal_faults(room), *lacking_faults(room),
                  *misfit_faults(room)]
    for fault in faults:
        print(fault)
    print(f"boards: {len(PLAYS) + len(CONTROLS)} plays and {len(REFUSED) + 1 + len(LACKING) + len(MISFITS)} refusals, "
          f"{len(faults)} faults")
    return 1 if faults else 0


if __name__ == "__main__":
    sys.exit(main())
