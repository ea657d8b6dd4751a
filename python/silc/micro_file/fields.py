"""The fields of microcode files: one table of both versions, a row a field, in the order of docs/MICROCODE.md. Which
fields follow one another is said once for both by `hardware` and `issues`, and of microwords by `byte_words` and
`bit_words`."""
from dataclasses import dataclass
from typing import Generic, NamedTuple, TypeVar

from .image import (MODES, MOST_BUSES, MOST_CELLS, MOST_LATENCY, MOST_MOVES, MOST_PERIOD, MOST_REGISTERS, MOST_UNITS,
                    MOST_WIDTH, MOST_WORDS, RAW, SHIFTS, UNROLLS)
from .operations import CALLED, KINDS, OF_KIND, OPCODE, PORTS, number_bits

Value = TypeVar("Value")


class Bits(NamedTuple):
    """How a version has a number: in so many bits, less what is taken from it, in two's complement or with no sign."""
    size: int
    less: int = 0
    is_signed: bool = False


class Codes(NamedTuple):
    """How a version has one of some values: in so many bits, by these numbers or by the place of the value among them,
    and what is told of others in the place of the least and the greatest."""
    size: int
    numbers: tuple[int, ...] = ()
    allowed: str = ""


class Row(NamedTuple):
    """A number: its name, in which `{0}` and on stand for the place and `{less}` for what a version takes from it, the
    least and the greatest, how each version has it, or None, and what it may be, where that says more than the
    range."""
    name: str
    low: int
    high: int
    version1: Bits | None
    version2: Bits | None
    allowed: str = ""

    def is_in(self, version: int) -> bool:
        return (self.version1 if version == 1 else self.version2) is not None

    def bits(self, version: int) -> Bits:
        found = self.version1 if version == 1 else self.version2
        if found is None:
            raise ValueError(f"version {version} has no field for {self.name}")
        return found


@dataclass(frozen=True)
class Choice(Generic[Value]):
    """One of some values, whose place among them is its number where a version gives no other."""
    name: str
    values: tuple[Value, ...]
    version1: Codes
    version2: Codes

    def codes(self, version: int) -> Codes:
        return self.version1 if version == 1 else self.version2


BYTE, WORD, NOTHING, FLAG = Bits(8), Bits(64, is_signed=True), Bits(0), Bits(1)
RAW_WORD, CYCLES, NUMBER, REGISTER = Bits(40, is_signed=True), Bits(3, less=1), Bits(5), Bits(8)
SIGNED_BYTE, COUNT = Bits(8, is_signed=True), Bits(16)
# Of the operations that have one.
ARGUMENT_BITS = {"input": Bits(4), "output": Bits(4), "const": RAW_WORD, "addr": Bits(16)}
LEAST, MOST = SHIFTS
MOST_PORTS = max(PORTS.values())

# What each version begins with
LETTERS = Row("the magic", 0, (1 << 32) - 1, Bits(32), Bits(32))
VERSION = Row("the version", 0, (1 << 8) - 1, BYTE, BYTE)

# The hardware
PERIOD = Row("the period{less}", 1, MOST_PERIOD, COUNT, Bits(12, less=1))
UNROLL = Choice("the unroll factor", UNROLLS, Codes(8, UNROLLS, "1, 2 or 4"), Codes(2, (), "0, 1 or 2, for 1, 2 and 4"))
INPUTS = Row("the number of input words{less}", 1, MOST_WORDS, BYTE, Bits(4, less=1))
INPUT_WIDTH = Row("the width of input word {0}", 0, MOST_WIDTH, BYTE, Bits(6))
OUTPUTS = Row("the number of output words{less}", 1, MOST_WORDS, BYTE, Bits(4, less=1))
UNITS = Row("the number of units{less}", 1, MOST_UNITS, BYTE, Bits(5, less=1))
KIND = Choice("the kind of unit {0}", KINDS, Codes(8), Codes(3))
LATENCY = Row("the latency of unit {0}{less}", 1, MOST_LATENCY, BYTE, CYCLES)
GAP = Row("the gap of unit {0}{less}", 1, MOST_LATENCY, BYTE, CYCLES)
REGISTERS = Row("the registers at port {1} of unit {0}{less}", 1, MOST_REGISTERS, COUNT, Bits(8, less=1))
CELLS = Row("the cells of unit {0}{less}", 1, MOST_CELLS, Bits(32), Bits(16, less=1))
PRELOAD = Row("the preload flag {0}", 0, 1, None, FLAG)
FIRST_REGISTER = Row("the first word at port {1} of unit {0} in register {2}", *RAW, WORD, RAW_WORD)
FIRST_CELL = Row("the first word of unit {0} in cell {1}", *RAW, WORD, RAW_WORD)
RAM = Row("the ram of unit {0}", 0, (1 << 8) - 1, BYTE, NUMBER, "the number of a ram")
BUSES = Row("the number of buses{less}", 1, MOST_BUSES, BYTE, Bits(5, less=1))

# An issue. What an operation does not have is 0 in version 1.
OPERATION = {kind: Choice("the operation {0}", names,
                          Codes(8, tuple(OPCODE[name] for name in names),
                                "an operation of unit {1}, whose kind is " + kind),
                          Codes(number_bits(kind))) for kind, names in OF_KIND.items()}
SHIFT = Row("the shift{less} {0}", LEAST, MOST, SIGNED_BYTE, Bits(7, less=LEAST))
MODE = Choice("the mode {0}", MODES, Codes(8), Codes(2))
WIDTH = Row("the width{less} {0}", 1, MOST_WIDTH, BYTE, Bits(6, less=1))
NO_SHIFT = Row("the shift {0}", 0, 0, SIGNED_BYTE, NOTHING)
NO_MODE = Row("the mode {0}", 0, 0, BYTE, NOTHING)
NO_WIDTH = Row("the width {0}", 0, 0, BYTE, NOTHING)
ARGUMENT = {name: Row("the argument {0}", *RAW, WORD, ARGUMENT_BITS.get(name, NOTHING)) for name in CALLED}
READ = Row("the register {0} at port {1}", 0, MOST_REGISTERS - 1, BYTE, REGISTER)
NOT_READ = Row("the register {0} at port {1}", 0, 0, BYTE, NOTHING)

# A microword: in version 1 lists behind how long they are, in version 2 a flag for all that there could be
ISSUES = Row("the number of issues {0}", 0, MOST_UNITS, BYTE, None)
ISSUE_UNIT = Row("the unit of an issue {0}", 0, MOST_UNITS - 1, BYTE, None)
ISSUE_FLAG = Row("the issue flag of unit {1} {0}", 0, 1, None, FLAG)
ENABLES = Row("the number of drives {0}", 0, MOST_MOVES, COUNT, None)
ENABLE_UNIT = Row("the unit of a drive {0}", 0, MOST_UNITS - 1, BYTE, None)
ENABLE_BUS = Row("the bus of a drive {0}", 0, MOST_BUSES - 1, BYTE, None)
ENABLE_FLAG = Row("the enable flag of unit {1} and bus {2} {0}", 0, 1, None, FLAG)
TAKES = Row("the number of takes {0}", 0, MOST_MOVES, COUNT, None)
TAKE_UNIT = Row("the unit of a take {0}", 0, MOST_UNITS - 1, BYTE, None)
TAKE_PORT = Row("the port of a take {0}", 0, MOST_PORTS - 1, BYTE, None, "a port of unit {1}")
TAKE_FLAG = Row("the take flag {0}", 0, 1, None, FLAG)
TAKE_BUS = Row("the bus of a take {0}", 0, MOST_BUSES - 1, BYTE, NUMBER)
TAKE_REGISTER = Row("the register of a take {0}", 0, MOST_REGISTERS - 1, BYTE, REGISTER)


def called(name: str, place: tuple[object, ...], less: int = 0) -> str:
    """The name of a field at a place, where so much is taken from its number."""
    taken = f" less {less}" if less > 0 else f" plus {-less}" if less < 0 else ""
    return name.format(*place, less=taken)
