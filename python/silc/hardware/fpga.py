"""The FPGAs for which cores are placed and routed: what each has, and which number of a core is over that."""
from __future__ import annotations

from collections.abc import Mapping
from dataclasses import dataclass

LOGIC, FLOPS, MEMORIES, MULTIPLIERS = "logic cells", "flip-flops", "block memories", "multipliers"
LARGE = "large memories"
MISFIT = "it does not fit: "


@dataclass(frozen=True)
class Fpga:
    """A part: how nextpnr calls it, the pins of its package, and what it has of each kind. A logic cell is a table and
    a flip-flop. A block memory has 4,096 bits; the large ones have 256 Kbit."""
    name: str
    words: tuple[str, ...]
    pins: int
    logic_cells: int
    block_memories: int
    multipliers: int
    large_memories: int

    def capacity(self) -> dict[str, int]:
        """What there is of each kind that synthesis counts."""
        return {LOGIC: self.logic_cells, FLOPS: self.logic_cells, MEMORIES: self.block_memories,
                MULTIPLIERS: self.multipliers, LARGE: self.large_memories}

    def over(self, counts: Mapping[str, float]) -> list[str]:
        """Which numbers of a core are above those of the part."""
        return [f"{counts[kind]} {kind}, and an {self.name} has {most}" for kind, most in self.capacity().items()
                if counts.get(kind, 0) > most]

    def misfit(self, counts: Mapping[str, float]) -> str | None:
        """Which numbers of a core are over, as a line, or nothing where it fits."""
        over = self.over(counts)
        return f"{MISFIT}it takes {'; '.join(over)}" if over else None

    def verdict(self, counts: Mapping[str, float]) -> str:
        """What a core takes of all that there is."""
        taken = [f"{counts[kind]} of {most} {kind}" for kind, most in self.capacity().items()
                 if most and kind in counts]
        return f"{self.name}: it fits, with {', '.join(taken)}"

    def has_multipliers(self) -> bool:
        return self.multipliers > 0


# By the data sheets of Lattice: iCE40 UltraPlus (FPGA-DS-02008) in SG48, iCE40 LP/HX (FPGA-DS-02029) in CT256.
PARTS = {
    "up5k": Fpga("up5k", ("--up5k", "--package", "sg48"), 39, 5280, 30, 8, 4),
    "hx8k": Fpga("hx8k", ("--hx8k", "--package", "ct256"), 206, 7680, 32, 0, 0),
}
