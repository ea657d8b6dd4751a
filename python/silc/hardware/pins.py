"""A core's ports, and a module round it that needs few pins: the words of its rows come and go through shift
registers."""
from __future__ import annotations

import re
from dataclasses import dataclass

PORT = re.compile(r"^    (input|output) (?:wire|reg) (?:\[(\d+):0\] )?(\w+),?$", re.MULTILINE)
ROW = re.compile(r"(in|out)_\d+")
NAME = "shifted"


@dataclass(frozen=True)
class Port:
    """A port of a core, with so many bits."""
    direction: str
    bits: int
    name: str


def ports_of(verilog: str) -> list[Port]:
    """The ports of a core's module, by its text."""
    head = verilog[: verilog.index("\n);")]
    return [Port(direction, int(last or 0) + 1, name) for direction, last, name in PORT.findall(head)]


def pins_of(ports: list[Port]) -> int:
    """How many pins the ports take."""
    return sum(port.bits for port in ports)


def row_ports(ports: list[Port], direction: str) -> list[Port]:
    """The ports of the words of a row."""
    return [port for port in ports if port.direction == direction and ROW.fullmatch(port.name)]


def joined(ports: list[Port]) -> str:
    return "{" + ", ".join(f"w_{port.name}" for port in ports) + "}"


def shift_register(ports: list[Port], direction: str) -> list[str]:
    """The register through which the words of a row come, or go, a bit at a clock."""
    own = row_ports(ports, direction)
    bits, wires = pins_of(own), [f"    wire [{port.bits - 1}:0] w_{port.name};" for port in own]
    if direction == "input":
        return [*wires, f"    reg [{bits - 1}:0] row_in;", f"    assign {joined(own)} = row_in;",
                f"    always @(posedge clk) if (shift) row_in <= {{row_in[{bits - 2}:0], bit_in}};"]
    return [*wires, f"    reg [{bits - 1}:0] row_out;", f"    assign bit_out = row_out[{bits - 1}];",
            f"    always @(posedge clk) row_out <= out_valid && out_ready ? {joined(own)} : "
            f"{{row_out[{bits - 2}:0], 1'b0}};"]


def wrapped(core: str, ports: list[Port]) -> str:
    """The text of the module round a core."""
    others = [port for port in ports if not ROW.fullmatch(port.name)]
    given = ", ".join(f".{port.name}({'w_' * bool(ROW.fullmatch(port.name))}{port.name})" for port in ports)
    heads = [*(f"    {port.direction} wire {port.name}" for port in others), "    input wire shift",
             "    input wire bit_in", "    output wire bit_out"]
    lines = [*shift_register(ports, "input"), *shift_register(ports, "output"), f"    {core} core ({given});"]
    return f"module {NAME} (\n" + ",\n".join(heads) + "\n);\n" + "\n".join(lines) + "\nendmodule\n"
