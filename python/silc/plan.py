"""Plans: what each unit, bus and register of a datapath does in each cycle (docs/PLANNING.md)."""
from __future__ import annotations

import os
import tomllib
from collections.abc import Mapping
from functools import cached_property
from typing import TYPE_CHECKING, Any, NoReturn

from silc.exploring.trades import registers_by_file
from silc.exploring.template import text_of as text_of_datapath
from silc.pictures.lifetimes import draw_lifetimes, lives_of
from silc.pictures.plan import Node, plan_of
from silc.pictures.schedule import draw_schedule
from silc.programs import SHOW
from silc.refused import File, explained
from silc.running import STDOUT, ran

if TYPE_CHECKING:
    from silc.microcode import Microcode
    from silc.source import Source

UNNAMED = "datapath.toml"


def datapath_of(datapath: str | os.PathLike[str] | Mapping[str, Any] | None,
                text: str | bytes | None) -> tuple[str, bytes]:
    """The name and the content of a datapath file, of its file, its tree or its text."""
    if (datapath is None) == (text is None):
        raise TypeError("a plan has a datapath, or its text")
    if text is not None:
        return UNNAMED, text if isinstance(text, bytes) else text.encode()
    if isinstance(datapath, Mapping):
        return UNNAMED, text_of_datapath(dict(datapath)).encode()
    assert datapath is not None
    with open(datapath, "rb") as file:
        return os.fspath(datapath), file.read()


class Lifetime:
    """A word in a register: the operation that makes it, of which sample of the circle, and the cycles from its write
    to its last read, counted from the start of the circle."""

    def __init__(self, life: Any) -> None:
        self.node: int = life.node.number
        self.sample: int = life.sample
        self.file: str = life.file
        self.register: int = life.register
        self.written: int = life.written
        self.reads: list[int] = life.reads

    def __repr__(self) -> str:
        return (f"<Lifetime of node {self.node} in {self.file}[{self.register}]: cycles {self.written} to "
                f"{self.reads[-1]}>")

    def as_json(self) -> dict[str, Any]:
        return vars(self)


class Plan:
    """The plan of a source over a datapath. In a notebook it is the picture of its schedule."""

    def __init__(self, source: Source, name: str, datapath: bytes) -> None:
        self.source, self.name, self.content = source, name, datapath
        answer = ran(source.silc, ["schedule", source.content, datapath])
        if answer.status:
            self._refuse("schedule", ["SRC", "DP"], answer.status, answer.said)
        self.text: str = answer.out.decode()
        self.datapath: dict[str, Any] = tomllib.loads(datapath.decode("utf-8-sig"))
        self._plan = plan_of(self.text, self.datapath)

    @property
    def period(self) -> int:
        """The cycles of a sample."""
        return self._plan.period

    @property
    def unroll(self) -> int:
        """The samples of the circle in which the microprogram begins anew."""
        return self._plan.unroll

    @property
    def operations(self) -> list[Node]:
        """The operations by their numbers: each with its cycle, unit, operands, and where its result goes."""
        return self._plan.nodes

    @property
    def registers(self) -> dict[str, int]:
        """How many registers the plan takes of each register file, by `unit.port`."""
        return registers_by_file(self._plan)

    @property
    def lifetimes(self) -> list[Lifetime]:
        """The words in registers, over the circle of samples."""
        return [Lifetime(life) for life in lives_of(self._plan)]

    @cached_property
    def microcode(self) -> Microcode:
        """The microcode of the plan, as `silc compile` writes it."""
        from silc.microcode import Microcode
        answer = ran(self.source.silc, ["compile", self.source.content, self.content, STDOUT])
        if answer.status:
            self._refuse("compile", ["SRC", "DP", "OUT"], answer.status, answer.said)
        return Microcode(answer.out, plan=self)

    def as_json(self) -> dict[str, Any]:
        """The plan as docs/PYTHON.md has it."""
        return plan_as_json(self._plan)

    def lifetimes_svg(self) -> str:
        """The picture of the lifetimes: registers over cycles."""
        return draw_lifetimes(self._plan, self.datapath) + "\n"

    def _repr_svg_(self) -> str:
        """The picture of the schedule, with the element of each operation where `silc_show` is there."""
        return draw_schedule(self._plan, self.datapath, self._origins()) + "\n"

    def __repr__(self) -> str:
        return (f"<Plan of {self.source.name} over {self.name}: {len(self.operations)} operations in {self.period} "
                f"cycles>")

    def _origins(self) -> dict[int, Any] | None:
        from silc.explaining.hardware import nodes_of
        if not SHOW.is_there():
            return None
        nodes = nodes_of(ran(SHOW.place(), ["origins", self.source.content, self.content]).out.decode("latin-1"))
        told = self.source.told
        return {node.number: told.node(node) if told else node for node in nodes} or None

    def _refuse(self, command: str, words: list[str], status: int, said: str) -> NoReturn:
        files = {"SRC": File(self.source.name, self.source.content), "DP": File(self.name, self.content)}
        raise explained(command, files, words, status, said, self.source.silc, self.source.told) from None


def plan_as_json(plan: Any) -> dict[str, Any]:
    """A plan that was read of a text of `silc schedule`, as docs/PYTHON.md has it."""
    return {"period": plan.period, "unroll": plan.unroll, "registers": registers_by_file(plan),
            "operations": [{"node": node.number, "cycle": node.cycle, "unit": node.unit, "operation": node.op,
                            "argument": node.argument, "width": node.width,
                            "operands": [{"node": number, "delay": delay} for number, delay in node.operands],
                            "transfers": [vars(transfer) for transfer in node.transfers]} for node in plan.nodes]}
