"""How many bits each register file of a core has, and which operand needs them: a file is as wide as the widest word
that comes into it."""
from __future__ import annotations

from dataclasses import dataclass

from silc.micro_file.image import Image

from .netlist import Core, File, Part, result_of
from .words import Range, of_words


@dataclass(frozen=True)
class Source:
    """What comes into a file: words, and the unit and the cycle of a sample in which they are begun. The words that a
    file holds first have no unit."""
    words: Range
    unit: int | None = None
    cycle: int = 0


@dataclass(frozen=True)
class Port:
    """A port of a unit with its file, and what comes into it, the widest first."""
    part: Part
    port: int
    file: File
    sources: tuple[Source, ...]

    @property
    def name(self) -> str:
        return f"{self.part.name}.{self.port}"

    def bits(self) -> int:
        return self.file.words.bits()

    def otherwise(self) -> int:
        """The bits that it had without its widest source."""
        made: Range | None = None
        for one in self.sources[1:]:
            made = one.words.with_(made)
        return made.bits() if made else 0


def sources_of(image: Image, core: Core) -> dict[tuple[int, int], dict[tuple[int, int], Source]]:
    """For each unit and port what comes into its file, by the unit and the cycle that begin it."""
    made: dict[tuple[int, int], dict[tuple[int, int], Source]] = {}
    for cycle, word in enumerate(image.words):
        driver = {bus: unit for unit, bus in word.enables}
        for take in word.takes:
            unit = driver[take.bus]
            begun = (cycle - image.units[unit].latency + 1) % image.circle()
            words = result_of(image, core, image.words[begun].issues[unit])
            own = made.setdefault((take.unit, take.port), {})
            own[unit, begun % image.period] = Source(words, unit, begun % image.period)
    return made


def ports_of(image: Image, core: Core) -> list[Port]:
    """The ports of a core that have a file, in the order of the units."""
    taken, made = sources_of(image, core), []
    for number, part in core.parts.items():
        for port, file in part.files.items():
            sources = list(taken.get((number, port), {}).values())
            if any(file.first) or not sources:
                sources.append(Source(of_words(file.first)))
            made.append(Port(part, port, file, tuple(sorted(
                sources, key=lambda one: (-one.words.signed_bits(), one.unit is None, one.cycle)))))
    return made
