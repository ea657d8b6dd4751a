"""The memories of a core that was made in a folder, as its map tells them."""
from __future__ import annotations

import re
from collections.abc import Iterator, Sequence
from dataclasses import dataclass
from pathlib import Path
from typing import TYPE_CHECKING

if TYPE_CHECKING:
    from .columns import Program
    from .netlist import Core

# A register file of up to so many words is flip-flops.
SMALL = 4
ROWS = re.compile(r"^core \w+: \d+ cycles a sample, (\d+) rows of (\d+) bits$", re.MULTILINE)
FILE = re.compile(r"^file (\w+): (\d+) words, -?\d+ to -?\d+ in (\d+) bits", re.MULTILINE)
PROGRAM = "the microprogram"


@dataclass(frozen=True)
class Memory:
    """A memory: its words, the bits of each, and whether its first words are kept in a second one too."""
    name: str
    words: int
    width: int
    is_kept: bool = False

    def bits(self) -> int:
        return self.words * self.width

    def text(self) -> str:
        return f"{self.name} {self.words:,} x {self.width}"


def memories_in(folder: Path, name: str) -> list[Memory]:
    """The memories of a core, the greatest first. A file of a few words counts where its first words are kept."""
    text = (folder / f"{name}.map").read_text()
    rows, width = map(int, ROWS.findall(text)[0])
    made = [Memory(PROGRAM, rows, width)]
    for own, words, bits in FILE.findall(text):
        made.append(Memory(own, int(words), int(bits), (folder / f"{name}_{own}.hex").exists()))
    return sorted(made, key=lambda one: -one.bits())


def memories_of(core: Core, program: Program) -> list[Memory]:
    """The memories of a core, the greatest first."""
    made = [Memory(PROGRAM, core.rows, program.width),
            *(Memory(name, file.size, file.words.bits(), any(file.first)) for name, file in core.memories())]
    return sorted(made, key=lambda one: -one.bits())


def told(memories: Sequence[Memory], has_restart: bool, is_filled: bool) -> Iterator[str]:
    """What is said of memories, of a core with a restart or without, or of one whose memories have to be filled."""
    large = [one for one in memories if one.words > SMALL or one.name == PROGRAM]
    yield f"memories: {', '.join(one.text() for one in large)}: {sum(one.bits() for one in large):,} bits"
    kept = [one for one in memories if one.is_kept]
    if kept and has_restart:
        spared = "" if is_filled else "; --no-restart spares it"
        yield (f"first words in a second memory, for a restart: {', '.join(one.text() for one in kept)}: "
               f"{sum(one.bits() for one in kept):,} bits{spared}")
