"""Datapath files with a period of 4,096 cycles: one for large plans, and ones with as many units and buses as there may
be."""
from collections.abc import Iterable

ADDERS, MULTIPLIERS, REGISTERS, CELLS = 4, 2, 256, 4096
LONGEST_HOLD = 3
MOST_UNITS = 32
HEAD = "period = 4096\nword = 16\nhold = {hold}\n"


def quoted(names: Iterable[str]) -> str:
    return ", ".join(f'"{name}"' for name in names)


def unit(name: str, kind: str, *lines: str) -> str:
    return "\n".join(("[[unit]]", f'name = "{name}"', f'kind = "{kind}"', *lines, ""))


def bus(name: str, drivers: Iterable[str], ports: Iterable[str]) -> str:
    return f'[[bus]]\nname = "{name}"\nfrom = [{quoted(drivers)}]\nto = [{quoted(ports)}]\n'


def datapath(hold: int) -> str:
    """Each unit but the acu can be written to all register files, but for the addresses of the memory."""
    adders = [f"add{number}" for number in range(ADDERS)]
    multipliers = [f"mul{number}" for number in range(MULTIPLIERS)]
    files = f"files = [{REGISTERS}, {REGISTERS}]"
    units = [unit("inp", "in"), unit("rom", "rom"), unit("outp", "out", "files = [16]"),
             unit("mem", "ram", files, f"cells = {CELLS}"), unit("adr", "acu", 'ram = "mem"')]
    units += [unit(name, "alu", files) for name in adders]
    units += [unit(name, "mul", "latency = 3", "gap = 3", files) for name in multipliers]
    ports = [*(f"{name}.{port}" for name in adders + multipliers for port in (0, 1)), "mem.1", "outp.0"]
    buses = [bus(f"of_{name}", [name], ports) for name in ["inp", "rom", *adders, *multipliers, "mem"]]
    return "\n".join((HEAD.format(hold=hold), *units, *buses, bus("of_adr", ["adr"], ["mem.0"])))


def most_units() -> tuple[list[str], list[str], list[str]]:
    """The units of a datapath with 32 of them, each kind among them; the 26 that add and multiply; ports of all of
    them."""
    files = f"files = [{REGISTERS}, {REGISTERS}]"
    units = [unit("inp", "in"), unit("rom", "rom"), unit("outp", "out", "files = [16]"),
             unit("mem", "ram", files, "cells = 65536"), unit("adr", "acu", 'ram = "mem"'),
             unit("pick", "sel", f"files = [{REGISTERS}, {REGISTERS}, {REGISTERS}]")]
    more = [f"unit{number}" for number in range(MOST_UNITS - len(units))]
    for number, name in enumerate(more):
        units.append(unit(name, *(("mul", "latency = 8", "gap = 8") if number % 2 else ("alu",)), files))
    ports = [f"{name}.{port}" for name in more for port in (0, 1)]
    return units, more, [*ports, "pick.0", "pick.1", "pick.2", "mem.1", "outp.0"]


def four_buses(hold: int = 0) -> str:
    """32 units, of which each drives each of four buses to each port: 232 entries of `to`, of 256 that there may be."""
    units, more, ports = most_units()
    drivers = ["inp", "rom", "mem", "adr", "pick", *more]
    buses = [bus(f"b{number}", drivers, [*ports, "mem.0"]) for number in range(4)]
    return "\n".join((HEAD.format(hold=hold), *units, *buses))


def one_bus(hold: int = 0) -> str:
    """32 units on one bus, which carries all words."""
    units, more, ports = most_units()
    only = bus("b0", ["inp", "rom", "mem", "adr", "pick", *more], [*ports, "mem.0"])
    return "\n".join((HEAD.format(hold=hold), *units, only))


def most_buses(hold: int = 0) -> str:
    """32 units and 32 buses, each driven by every unit to eight ports: 256 entries of `to`."""
    units, more, ports = most_units()
    drivers = ["inp", "rom", "mem", "adr", "pick", *more]
    ports = [*ports, "mem.0"]
    some = [[ports[(8 * number + place) % len(ports)] for place in range(8)] for number in range(32)]
    buses = [bus(f"b{number}", drivers, to) for number, to in enumerate(some)]
    return "\n".join((HEAD.format(hold=hold), *units, *buses))
