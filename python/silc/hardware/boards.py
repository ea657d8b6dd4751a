"""The boards for which tools/board makes a top: their part, their clock and their pins, and where these are from."""
from __future__ import annotations

from collections.abc import Mapping
from dataclasses import dataclass

from .fpga import PARTS, Fpga

# The ports of a top. As a master it gives the clocks of the codec, as a slave it takes SCLK and LRCK.
MASTER, SLAVE = "master", "slave"
LINES = ("mclk", "lrck", "sclk", "data")


@dataclass(frozen=True)
class Board:
    """A board. `pins` has those of the clock, of the lights and of the codec's lines to it and from it; `button` is one
    that is low where it is pressed, and `serial` the one at which bytes from its USB port come, of which `serial_says`
    says where it is from. `is_light_low` says whether lights are on where their pin is low."""
    name: str
    says: str
    fpga: Fpga
    hertz: int
    pins: Mapping[str, str]
    button: str | None
    is_light_low: bool
    serial: str
    serial_says: str


BOARDS = {
    "icebreaker": Board(
        "icebreaker", "iCEBreaker with a Pmod I2S2 at PMOD 1A, its jumper at SLV for a master here. The pins are those "
        "of the board's own icebreaker.pcf (github.com/icebreaker-fpga/icebreaker) and of the Pmod's page.",
        PARTS["up5k"], 12_000_000,
        {"clk": "35", "lost": "11", "running": "37",
         "dac_mclk": "4", "dac_lrck": "2", "dac_sclk": "47", "dac_data": "45",
         "adc_mclk": "3", "adc_lrck": "48", "adc_sclk": "46", "adc_data": "44"}, "10", True,
        "6", "The serial line is that of the board's USB port, RX of the same icebreaker.pcf."),
    "hx8k": Board(
        "hx8k", "Lattice's breakout board iCE40HX8K-B-EVN with a codec at eight pins of one's choice. The clock and "
        "the lights are those of Project IceStorm's hx8kboard.pcf; the codec's are balls of the package CT256 in bank "
        "3, chosen here: compare them with the board's schematic before anything is plugged in.",
        PARTS["hx8k"], 12_000_000,
        {"clk": "J3", "lost": "B5", "running": "B4",
         "dac_mclk": "B1", "dac_lrck": "B2", "dac_sclk": "C1", "dac_data": "C2",
         "adc_mclk": "D1", "adc_lrck": "D2", "adc_sclk": "E2", "adc_data": "F1"}, None, False,
        "B10", "The serial line is that of the board's USB port, RS232_Rx_TTL of its guide (Lattice's EB85): compare "
        "it too."),
}


def constraints(board: Board, has_serial: bool = False) -> str:
    """The file of pins for nextpnr."""
    pins = dict(board.pins) | ({"button_n": board.button} if board.button else {})
    pins |= {"serial": board.serial} if has_serial else {}
    lines = [f"# {board.says}", *[f"# {board.serial_says}"] * has_serial,
             *(f"set_io {port} {pin}" for port, pin in pins.items())]
    return "".join(f"{line}\n" for line in lines)
