"""Makes a top for a board round the core of a microcode file: serial audio in and out, a reset, a clock, and the pins.

usage: tools/board NAME MIC FOLDER [--datapath DP] [--name CORE] [--bits N] [--slave] [--rate HZ] [--output W]
                   [--control N [--baud B]] [--large] [--samples S] [--build] [--force]

NAME is icebreaker (an iCE40 up5k, with a Pmod I2S2) or hx8k (Lattice's breakout board of that part); the file of pins
that is made says where they are from. FOLDER gets the core as tools/verilog makes it, silc_i2s.v, board.v with the
pins, board.pcf, and codec_tb.v, a bench that plays a codec. A row of the core has a left and a right word in and out;
of a core with one word of each there are two, one for each channel.

--bits N is how many bits a word on the lines has, 16 (the default) to 32, each sent with its sign first: a shorter word
of the core is sent with zeros below, and of a longer one the lowest bits are not. The top is the master, which gives
the clocks, or with --slave takes SCLK and LRCK. --rate HZ is how many samples come in a second: as a master those that
the board's clock gives, 256 clocks each; where the core is too slow for it, or the clock for the lines, it is refused.
--output W says how many bits an output word has, where its port has fewer.

With --control N the last N words of a row in are control words, which a host writes by the serial line of the board's
USB port, at B bits a second (115,200): silc_uart.v says by which bytes. All are 0 first, and those that are written
together come in one row.

--large puts long delays into the large memories of an up5k, as tools/verilog has it.

With --samples S, rows of a left and a right word of the core, the bench plays them through the top under Icarus, and
the rows that come back are compared with those of `silc sim`; it says how many clocks the core has to spare in each
frame. Behind the two words of a row stand its control words; where they change, the bench sends those that did once
that row was taken, and `silc sim` runs the rows as the core took them. With --build, Yosys, nextpnr and icepack make
board.bin in FOLDER; where the part has too little of something or its clock is too slow for the board's, that is said
and nothing is made at all. Each file is there whole or not at all. Where one of these names is a file that no tool
made, none is written but with --force.
"""
import argparse
import json
import tempfile
from collections import Counter
from pathlib import Path

from silc.commands import ended
from silc.commands.synthesize import counted
from silc.commands.verilog import checked_in, name_for, names_in
from silc.hardware.board_play import Playing, play, sources
from silc.hardware.board_text import (BAUD, CODEC, FRAME_CLOCKS, LEAST_BITS, MOST_BITS, SERIAL, TOP, UART, Audio,
                                      NoBoard, check_core, check_rate, check_serial, codec_text, master_rate,
                                      module_text, top_text)
from silc.hardware.boards import BOARDS, MASTER, SLAVE, Board, constraints
from silc.hardware.core_files import PARTS, files_of
from silc.hardware.fpga import MULTIPLIERS
from silc.hardware.large import make_large
from silc.hardware.netlist import Core, NoCore, core_for_image
from silc.hardware.routing import need, routed, run
from silc.made_files import MadeFiles, NotMade, add_force
from silc.programs import NoProgram

BUILD, PLAY = ("yosys", "nextpnr-ice40", "icepack"), ("iverilog", "vvp")
BITSTREAM = f"{TOP}.bin"


# The top


def core_of(options: argparse.Namespace, board: Board, audio: Audio) -> tuple[Core, dict[str, str]]:
    """The core, and all files of the top by their names."""
    name, image = name_for(options), checked_in(options.microcode)
    if name in (TOP, CODEC):
        raise NoBoard(f"the core would be called {name}, as the top is; --name gives another")
    image, core = core_for_image(image, name, names_in(options.datapath, image))
    if options.large and not board.fpga.large_memories:
        raise NoBoard(f"--large: an {board.fpga.name} has no large memories")
    if options.large:
        make_large(image, core)
    check_core(core, audio.controls)
    check_rate(board, audio, core.period)
    check_serial(board, audio)
    texts = files_of(image, core)
    texts |= {module: module_text(module) for module in [SERIAL, *[UART] * bool(audio.controls)]}
    texts |= {f"{TOP}.v": top_text(board, core, audio), f"{TOP}.pcf": constraints(board, bool(audio.controls)),
              f"{CODEC}.v": codec_text(board, audio)}
    return core, texts


# The bitstream


def cells_in(netlist: str) -> dict[str, int]:
    """How many cells of each kind a top takes, by the netlist that Yosys wrote."""
    module = json.loads(netlist)["modules"][TOP]
    return counted("ice40", Counter(cell["type"] for cell in module["cells"].values()))


def built(board: Board, core: Core, audio: Audio, texts: dict[str, str]) -> tuple[bytes, str]:
    """The bitstream, and what nextpnr says of cells and clock."""
    with tempfile.TemporaryDirectory(prefix="silc-board-") as name:
        folder = Path(name)
        for file, text in texts.items():
            (folder / file).write_text(text)
        dsp = " -dsp" if board.fpga.has_multipliers() else ""
        modules = " ".join(name for name in sources(core, audio) if name in (PARTS.name, SERIAL, UART))
        run(["yosys", "-q", "-p", f"read_verilog -defer {modules}; read_verilog {core.name}.v {TOP}.v; "
             f"synth_ice40{dsp} -top {TOP} -json {TOP}.json"], folder, "Yosys")
        cells = cells_in((folder / f"{TOP}.json").read_text())
        misfit = board.fpga.misfit(cells)
        if misfit:
            raise NoBoard(misfit)
        made = routed(TOP, folder, board.fpga, board.hertz / 1e6, bool(cells[MULTIPLIERS]), f"{TOP}.pcf")
        if made.clock * 1e6 < board.hertz:
            raise NoBoard(f"it runs at {made.clock:g} MHz, and the board has {board.hertz / 1e6:g}; "
                          "`silc synthesize --route --rate` says which path is too long")
        run(["icepack", f"{TOP}.asc", BITSTREAM], folder, "icepack")
        said = (f"{made.cells[0]} of {made.cells[1]} logic cells; it runs at up to {made.clock:g} MHz, "
                f"and the board has {board.hertz / 1e6:g}")
        return (folder / BITSTREAM).read_bytes(), said


def make(options: argparse.Namespace) -> None:
    board = BOARDS[options.board]
    audio = Audio(options.bits, SLAVE if options.slave else MASTER, options.rate or master_rate(board), options.output,
                  options.control, options.baud)
    need(*(BUILD if options.build else ()), *(PLAY if options.samples else ()))
    files = MadeFiles(inputs=[options.microcode, options.datapath, options.samples], is_forced=options.force)
    core, texts = core_of(options, board, audio)
    said = [play(Playing(core, audio, options.microcode), options.samples, texts)] if options.samples else []
    made: dict[str, str | bytes] = dict(texts)
    if options.build:
        made[BITSTREAM], build_said = built(board, core, audio, texts)
        said.append(build_said)
    files.write_folder(options.folder, made)
    clocks = FRAME_CLOCKS if audio.is_master() else int(board.hertz / audio.rate)
    print(f"{options.folder}/{TOP}.v: {audio.role}, {audio.rate:,g} samples a second of {audio.bits} bits, "
          f"{clocks} clocks each, of which the core takes {core.period}")
    for line in said:
        print(line)


def bits_word(word: str) -> int:
    if not word.isdecimal() or not LEAST_BITS <= int(word) <= MOST_BITS:
        raise argparse.ArgumentTypeError(f"{word} is no number of bits from {LEAST_BITS} to {MOST_BITS}")
    return int(word)


def options_of(words: list[str]) -> argparse.Namespace:
    parser = argparse.ArgumentParser(prog="board", usage=__doc__.partition("usage: ")[2].partition("\n\n")[0],
                                     description=__doc__, formatter_class=argparse.RawDescriptionHelpFormatter)
    parser.add_argument("board", metavar="NAME", type=board_word, choices=BOARDS)
    parser.add_argument("microcode", metavar="MIC")
    parser.add_argument("folder", metavar="FOLDER")
    parser.add_argument("--datapath", metavar="DP")
    parser.add_argument("--name", metavar="CORE")
    parser.add_argument("--bits", metavar="N", type=bits_word, default=LEAST_BITS)
    parser.add_argument("--slave", action="store_true")
    parser.add_argument("--rate", metavar="HZ", type=rate_word)
    parser.add_argument("--output", metavar="W", type=int)
    parser.add_argument("--control", metavar="N", type=count_word, default=0)
    parser.add_argument("--baud", metavar="B", type=count_word, default=BAUD)
    parser.add_argument("--samples", metavar="S")
    parser.add_argument("--large", action="store_true")
    parser.add_argument("--build", action="store_true")
    add_force(parser)
    return parser.parse_args(words)


def board_word(word: str) -> str:
    if word not in BOARDS:
        raise argparse.ArgumentTypeError(f"{word} is no board that is known; there are {' and '.join(BOARDS)}")
    return word


def count_word(word: str) -> int:
    if not word.isdecimal() or not 0 < int(word) < 1e9:
        raise argparse.ArgumentTypeError(f"{word} is no number above 0")
    return int(word)


def rate_word(word: str) -> float:
    rate = float(word)
    if not 0 < rate < 1e9:
        raise argparse.ArgumentTypeError(f"{word} is no rate")
    return rate


def main(words: list[str]) -> int:
    options = options_of(words)
    return ended("board", lambda: make(options), NoBoard, NoCore, NotMade, NoProgram)
