"""Microcode: the image of a plan, run cycle by cycle, listed, and made a core in Verilog."""
from __future__ import annotations

import os
import re
from dataclasses import dataclass
from functools import cached_property
from typing import TYPE_CHECKING, Any, NoReturn

from silc.hardware.core_files import files_of
from silc.hardware.datapath import names_of, numbered
from silc.hardware.hazards import first_hazard
from silc.hardware.netlist import NoCore, core_for_datapath, core_for_image
from silc.made_files import MadeFiles
from silc.micro_file import image_of
from silc.micro_file.image import MOST_WORDS, Image
from silc.programs import PACKAGE, SILC
from silc.refused import ROWS, File, explained
from silc.running import STDIN, STDOUT, Ended, Word, placed, ran, streamed
from silc.words import Port, Reader, Rows, Type, is_array, pieces_of, quantised, scaled, text_of

if TYPE_CHECKING:
    from silc.plan import Plan

UNNAMED = "microcode.mic"


@dataclass(frozen=True)
class Origin:
    """What microcode was compiled of: the words of its rows, and the datapath file."""
    inputs: list[Port]
    outputs: list[Port]
    datapath: bytes


class Microcode:
    """A microcode file of either version: `file` is its name, or `data` its bytes. `Refused` tells the first field that
    is not allowed. `origin` has the words of its rows, where that is known: of what a plan or `Source.frame` has
    made."""

    def __init__(self, data: bytes | None = None, *, file: str | os.PathLike[str] | None = None,
                 plan: Plan | None = None,
                 origin: Origin | None = None, silc: str | os.PathLike[str] | None = None) -> None:
        if (file is None) == (data is None):
            raise TypeError("microcode has a file, or its bytes")
        if file is not None:
            with open(file, "rb") as held:
                data = held.read()
        assert data is not None
        self.data: bytes = data
        self.name = os.fspath(file) if file is not None else UNNAMED
        self.plan = plan
        self.origin = Origin(plan.source.inputs, plan.source.outputs, plan.content) if plan else origin
        self.silc = plan.source.silc if plan else SILC.found(silc)
        if self.origin is None:
            self.listing()

    def __bytes__(self) -> bytes:
        return self.data

    def __repr__(self) -> str:
        return f"<Microcode {self.name}: {len(self.data)} bytes>"

    @cached_property
    def image(self) -> Image:
        """The hardware and the microwords, field by field."""
        return image_of(self.data)

    def run(self, x: Rows, real: bool = False) -> Rows:
        """The output rows of the machine, cycle by cycle, on rows as `Source.evaluate` has them. Values (`real`) are
        known of microcode that a plan or a source has made. `Refused` tells the first conflict of the hardware."""
        if real and self.origin is None:
            raise TypeError("values are known of microcode that a plan or a source has made")
        given = quantised(x, self._types("inputs")) if real else x
        columns, reader = len(self.image.inputs), Reader(self.image.outputs, is_array(given))
        command: list[Word] = ["sim", self.data, STDIN, STDOUT]
        try:
            for piece in streamed(self.silc, command, pieces_of(given, columns)):
                reader.add(piece)
        except Ended as why:
            text = text_of(given, columns)
            why = placed(self.silc, command, why, text)
            self._refuse("sim", ["MIC", "SAMPLES", "OUT"], why.status, why.said, text)
        rows = reader.rows()
        return scaled(rows, self._types("outputs")) if real else rows

    def listing(self) -> str:
        """The text of `silc list`: a line for each issue, drive and take."""
        answer = ran(self.silc, ["list", self.data])
        if answer.status:
            self._refuse("list", ["MIC"], answer.status, answer.said)
        return answer.out.decode()

    def write(self, file: str | os.PathLike[str], force: bool = False) -> None:
        """Writes the bytes to a file, which is there whole or not at all. One that no tool made is written over with
        `force` alone (silc.made_files)."""
        MadeFiles(is_forced=force).write(file, self.data)

    def verilog(self, folder: str | os.PathLike[str], name: str = "core", full: tuple[int, int] | bool = False,
                force: bool = False) -> list[str]:
        """Makes the files of a core in Verilog in a folder, and gives their names (docs/HARDWARE.md). With `full` the
        core has all of the datapath, so many input and output words, or those of this microcode; `NoCore` says why
        there is none."""
        texts = core_texts(self.data, name, self.origin.datapath.decode() if self.origin else None, full)
        MadeFiles(is_forced=force).write_folder(folder, texts)
        return sorted(texts)

    def as_json(self) -> dict[str, Any]:
        """The image as docs/PYTHON.md has it."""
        return image_as_json(self.image)

    def _types(self, ports: str) -> list[Type]:
        assert self.origin
        return [port.type for port in getattr(self.origin, ports)]

    def _refuse(self, command: str, words: list[str], status: int, said: str, samples: bytes = b"") -> NoReturn:
        files = {"MIC": File(self.name, self.data), "SAMPLES": File(ROWS, samples)}
        raise explained(command, files, words, status, said, self.silc) from None


def reserved_words() -> list[str]:
    """The words of Verilog that are no name of a module."""
    with open(os.path.join(PACKAGE, "hardware", "reserved.txt"), encoding="ascii") as file:
        return file.read().split()


def checked_image(data: bytes) -> Image:
    """The image of microcode that runs without a conflict; `NoCore` tells the first one, `BadImage` the first bad
    field."""
    image = image_of(data)
    hazard = first_hazard(image)
    if hazard:
        cycle, kind, place = hazard
        raise NoCore(f"conflict at cycle {cycle}: {kind} {place}")
    return image


def check_name(name: str) -> None:
    """`NoCore` where a module can't have the name."""
    if not re.fullmatch(r"[A-Za-z][A-Za-z0-9_]*", name) or name in reserved_words() or name.startswith("silc_"):
        raise NoCore(f"{name} is no name for a module")


def core_texts(data: bytes, name: str, datapath: str | None, full: tuple[int, int] | bool = False) -> dict[str, str]:
    """The text of each file of a core by its name."""
    check_name(name)
    image = checked_image(data)
    names = names_of(datapath, image) if datapath is not None else numbered(image)
    if not full:
        return dict(files_of(*core_for_image(image, name, names)))
    if names.ends is None:
        raise NoCore("a full core needs a datapath")
    counts = (len(image.inputs), image.outputs) if full is True else full
    check_counts(counts, image)
    return dict(files_of(image, core_for_datapath(image, name, names, *counts)))


def check_counts(counts: tuple[int, int], image: Image) -> None:
    """`NoCore` where a full core can't have so many input and output words."""
    if not all(1 <= count <= MOST_WORDS for count in counts):
        raise NoCore(f"two numbers from 1 to {MOST_WORDS} are wanted")
    if counts[0] < len(image.inputs) or counts[1] < image.outputs:
        raise NoCore(f"the microcode has {len(image.inputs)} input and {image.outputs} output words")


def image_as_json(image: Image) -> dict[str, Any]:
    """The image as docs/PYTHON.md has it."""
    return {"period": image.period, "unroll": image.unroll, "inputs": image.inputs, "outputs": image.outputs,
            "buses": image.buses,
            "units": [{"kind": unit.kind, "latency": unit.latency, "gap": unit.gap, "files": unit.files,
                       "cells": unit.cells, "ram": unit.ram} for unit in image.units],
            "words": [{"issues": [{"unit": issue.unit, "operation": issue.operation,
                                   "format": issue.format and issue.format._asdict(), "argument": issue.argument,
                                   "registers": list(issue.registers)} for _, issue in sorted(word.issues.items())],
                       "enables": [{"unit": unit, "bus": bus} for unit, bus in word.enables],
                       "takes": [take._asdict() for take in word.takes]} for word in image.words]}
