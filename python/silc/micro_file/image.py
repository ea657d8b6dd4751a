"""What a microcode file holds, and the ranges of it that docs/MICROCODE.md has."""
from dataclasses import dataclass, field
from typing import NamedTuple

from .operations import WITH_ARGUMENT, WITHOUT_RESULT, reads

MAGIC, VERSIONS = b"SILM", (1, 2)
MOST_PERIOD, UNROLLS, MOST_WORDS, MOST_WIDTH = 4096, (1, 2, 4), 16, 40
MOST_UNITS, MOST_BUSES, MOST_LATENCY, MOST_REGISTERS, MOST_CELLS = 32, 32, 8, 256, 65536
MOST_MOVES, MOST_OFFSET = 1024, 65535
SHIFTS, MODES = (-40, 80), ("trunc", "round", "sat", "round,sat")
ROUNDING, SATURATING = ("round", "round,sat"), ("sat", "round,sat")
RAW = (-(1 << 39), (1 << 39) - 1)


class Format(NamedTuple):
    """What the exact result of an operation is brought to."""
    shift: int
    mode: str
    width: int


class Take(NamedTuple):
    """A register that takes what a bus carries."""
    unit: int
    port: int
    bus: int
    register: int


@dataclass(frozen=True)
class Issue:
    unit: int
    operation: str
    format: Format | None
    argument: int
    registers: tuple[int, ...]

    def operands(self) -> list[tuple[int, int]]:
        """The port and the register of each operand that is read."""
        return list(enumerate(self.registers))[: reads(self.operation)]

    def gives(self) -> bool:
        return self.operation not in WITHOUT_RESULT

    def text(self) -> str:
        """The operation with its argument, where it has one."""
        return f"{self.operation} {self.argument}" if self.operation in WITH_ARGUMENT else self.operation


@dataclass
class Word:
    """A microword: issues by their units, (unit, bus) pairs that are enabled, takes. Each list rises."""
    issues: dict[int, Issue] = field(default_factory=dict)
    enables: list[tuple[int, int]] = field(default_factory=list)
    takes: list[Take] = field(default_factory=list)

    def drivers(self, bus: int) -> list[int]:
        return [unit for unit, driven in self.enables if driven == bus]

    def listed(self) -> list[str]:
        """Its lines of the listing that docs/MICROCODE.md describes."""
        return [*(issue_line(issue) for _, issue in sorted(self.issues.items())),
                *(f"drive {unit} {bus}" for unit, bus in self.enables),
                *(f"take {unit}.{port} bus {bus} reg {register}" for unit, port, bus, register in self.takes)]


def issue_line(issue: Issue) -> str:
    line = f"issue {issue.unit} {issue.text()}"
    if issue.format:
        line += f" fmt {issue.format.shift} {issue.format.mode} {issue.format.width}"
    return line + (f" regs {' '.join(map(str, issue.registers))}" if issue.registers else "")


@dataclass
class Unit:
    """A unit, with the words that its registers and cells start with. An acu has the number of its ram."""
    kind: str
    latency: int
    gap: int
    files: list[list[int]]
    cells: list[int] = field(default_factory=list)
    ram: int | None = None


@dataclass
class Image:
    period: int
    unroll: int
    inputs: list[int]
    outputs: int
    units: list[Unit]
    buses: int
    words: list[Word]

    def circle(self) -> int:
        return self.period * self.unroll

    def issue_for_result(self, cycle: int, unit: int) -> Issue | None:
        """The issue whose result the unit has in this cycle of a circle that has gone on for ever, or nothing."""
        return self.words[(cycle - self.units[unit].latency + 1) % self.circle()].issues.get(unit)

    def listing(self) -> str:
        """The text that `silc list` prints of it."""
        lines = [f"period {self.period} unroll {self.unroll} inputs {len(self.inputs)} outputs {self.outputs} "
                 f"units {len(self.units)} buses {self.buses}"]
        for number, word in enumerate(self.words):
            listed = word.listed()
            lines += [f"word {number}", *listed] if listed else []
        return "\n".join(lines) + "\n"


def argument_range(operation: str, image: Image) -> tuple[int, int]:
    """The least and the greatest argument that an operation may have."""
    return {"input": (0, len(image.inputs) - 1), "output": (0, image.outputs - 1), "const": RAW,
            "addr": (0, MOST_OFFSET)}.get(operation, (0, 0))
