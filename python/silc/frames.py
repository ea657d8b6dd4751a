"""Microcode whose samples are frames: several samples of a source in one of the machine (docs/RATES.md)."""
from __future__ import annotations

from collections.abc import Collection, Sequence
from typing import TYPE_CHECKING

from silc.microcode import Microcode, Origin
from silc.refused import File, explained
from silc.running import STDOUT, ran
from silc.words import Port

if TYPE_CHECKING:
    from silc.source import Source


def listed(words: Collection[int]) -> str:
    """The numbers of slow words as the command has them."""
    return ",".join(map(str, sorted(set(words)))) or "-"


def frame_ports(ports: Sequence[Port], phases: int, slow: Collection[int]) -> list[Port]:
    """The words of a row of frames: a slow word once, and any other one for each sample, as `x.0` and `x.1`."""
    return [Port(port.name if number in slow or phases == 1 else f"{port.name}.{phase}", port.type)
            for number, port in enumerate(ports) for phase in range(1 if number in slow else phases)]


def framed(source: Source, name: str, datapath: bytes, phases: int, down: Collection[int],
           up: Collection[int]) -> Microcode:
    """The microcode of a source that runs so many times in each sample of the machine."""
    rates = [str(phases), listed(down), listed(up)]
    answer = ran(source.silc, ["frame", source.content, datapath, *rates, STDOUT])
    if answer.status:
        files = {"SRC": File(source.name, source.content), "DP": File(name, datapath)}
        raise explained("frame", files, ["SRC", "DP", *rates, "OUT"], answer.status, answer.said, source.silc,
                        source.told) from None
    origin = Origin(frame_ports(source.inputs, phases, up), frame_ports(source.outputs, phases, down), datapath)
    return Microcode(answer.out, origin=origin, silc=source.silc)
