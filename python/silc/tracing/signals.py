"""The signals of a run of microcode, with the names of its datapath."""
from dataclasses import dataclass
from typing import Any, TypeAlias

from silc.hardware.datapath import Names
from silc.micro_file.image import Image

# What a signal shows: of the run, or with their numbers of a unit, of a bus, of a register or of a cell.
Key: TypeAlias = str | tuple[Any, ...]

# Each word fits: inputs, constants and results have at most 40 bits, and addresses fewer.
WORD_BITS = 40
OPCODE_BITS = 5
SAMPLE_BITS = 48
# A run has at most 4 times 4096 words.
NUMBER_BITS = 14
# The bits of a value that is not there, and the text.
NOTHING = "z"
NO_TEXT = "-"
FIRST_CODE, LAST_CODE = 33, 126


@dataclass(frozen=True)
class Signal:
    """A signal: the scopes that it stands in, its name, its bits (None: it is a text), and its code in the file."""
    scopes: tuple[str, ...]
    name: str
    bits: int | None
    code: str

    def change(self, value: Any) -> str:
        """The line by which it has a value from now on. None stands for no value."""
        if self.bits is None:
            return f"s{value or NO_TEXT} {self.code}"
        digits = NOTHING if value is None else format(value % (1 << self.bits), "b")
        return f"{digits}{self.code}" if self.bits == 1 else f"b{digits} {self.code}"

    def declared(self) -> str:
        """Its type, size, code and name."""
        if self.bits is None:
            return f"$var string 1 {self.code} {self.name} $end"
        span = f" [{self.bits - 1}:0]" if self.bits > 1 else ""
        return f"$var wire {self.bits} {self.code} {self.name}{span} $end"


def code_of(number: int) -> str:
    """The code of a signal: a word of printable characters."""
    count = LAST_CODE - FIRST_CODE + 1
    text = chr(FIRST_CODE + number % count)
    while number >= count:
        number = number // count - 1
        text = chr(FIRST_CODE + number % count) + text
    return text


class Signals:
    """The signals of a run by what they show, in the order in which they were added."""

    def __init__(self, image: Image, names: Names) -> None:
        self.by_key: dict[Key, Signal] = {}
        self.units = names.units
        self.add("strobe", (), "strobe", 1)
        self.add("sample", (), "sample", SAMPLE_BITS)
        self.add("word", (), "word", NUMBER_BITS)
        self.add("conflict", (), "conflict", None)
        for unit, (name, described) in enumerate(zip(names.units, image.units)):
            self.add_unit(unit, ("units", name), described.files)
        for bus, name in enumerate(names.buses):
            self.add(("bus", bus), ("buses",), name, WORD_BITS)
        for output in range(image.outputs):
            self.add(("latch", output), ("latches",), f"out{output}", WORD_BITS)

    def add_unit(self, unit: int, scopes: tuple[str, ...], files: list[list[int]]) -> None:
        self.add(("operation", unit), scopes, "operation", None)
        self.add(("opcode", unit), scopes, "opcode", OPCODE_BITS)
        self.add(("result", unit), scopes, "result", WORD_BITS)
        for port, file in enumerate(files):
            for register in range(len(file)):
                self.add(("register", unit, port, register), (*scopes, f"port{port}"), f"r{register}", WORD_BITS)

    def add(self, key: Key, scopes: tuple[str, ...], name: str, bits: int | None) -> Signal:
        self.by_key[key] = Signal(scopes, name, bits, code_of(len(self.by_key)))
        return self.by_key[key]

    def of(self, key: Key) -> Signal:
        """The signal of a key; that of a cell is added when it is first asked for."""
        if key not in self.by_key and isinstance(key, tuple) and key[0] == "cell":
            _, ram, cell = key
            return self.add(key, ("units", self.units[ram], "cells"), f"c{cell}", WORD_BITS)
        return self.by_key[key]


def first_value(image: Image, key: Key) -> int | None:
    """What a signal shows before the first cycle."""
    kind, *numbers = (key,) if isinstance(key, str) else key
    if kind == "register":
        unit, port, register = numbers
        return image.units[unit].files[port][register]
    if kind == "cell":
        ram, cell = numbers
        return image.units[ram].cells[cell]
    return 0 if kind in ("latch", "strobe", "sample", "word") else None
