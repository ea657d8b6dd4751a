#!/usr/bin/env python3
"""Whether the checker of plans takes what silc plans, and refuses each fact that is broken by hand, in its line.

usage: tests/plan/check_planted.py

The plans are those of docs/pictures, whose texts silc made, over the datapaths of their examples: with their buses and
registers, and as nodes, cycles and units alone. Of a few plans one fact is broken at a time. It runs no program.
"""
from __future__ import annotations

import re
import sys
import tomllib
from collections.abc import Callable
from dataclasses import dataclass
from pathlib import Path
from typing import Any

from silc.planning.check import NoPlan, check

ROOT = Path(__file__).resolve().parent.parent.parent
PICTURES, EXAMPLES = ROOT / "docs" / "pictures", ROOT / "examples"
HEAD = re.compile(r"period (\d+)(?: stages (\d+))?")
OVER_STAGES = "_stages"
# A check that tries less than this has lost its plans.
LEAST_TAKEN = 18

# A delay of one sample, over the processor of the reverberator with one more memory.
DELAY, BESIDE = "reverb_delay", [{"name": "mem2", "kind": "ram", "files": [4, 4], "cells": 64},
                                 {"name": "adr2", "kind": "acu", "ram": "mem2"}]
OF_DELAY = """period 4 stages 2 unroll 1 nodes 7
node 0 cycle 0 unit inp op input 0 to mem.1 bus data regs 0
node 1 cycle 3 unit adr op addr 0 to mem.0 bus place regs 0
node 2 cycle 4 unit mem op store 1 0
node 3 cycle 0 unit adr op addr 1 to mem.0 bus place regs 0
node 4 cycle 1 unit mem op load 3 to alu.0 bus data regs 0
node 5 cycle 2 unit alu op pass 4 fmt 0 trunc 16 to outp.0 bus sum regs 0
node 6 cycle 4 unit outp op output 0 5
"""

Edit = Callable[[list[str]], list[str]]
Hardware = Callable[[dict[str, Any]], dict[str, Any]]


@dataclass
class Plan:
    """A plan of silc, with its datapath in its period."""
    name: str
    text: str
    datapath: dict[str, Any]
    stages: int


@dataclass
class Planted:
    """A plan with one fact broken, and the line and the words by which it is refused."""
    plan: str
    line: int
    what: str
    edit: Edit
    hardware: Hardware = dict
    is_bare: bool = False


def plans() -> dict[str, Plan]:
    made = {}
    for file in sorted(PICTURES.glob("*.schedule")):
        name = file.stem
        datapaths = sorted((EXAMPLES / name.removesuffix(OVER_STAGES)).glob("*.toml"))
        if datapaths:
            text = file.read_text()
            found = HEAD.match(text)
            assert found, f"{file} has no head"
            tree = tomllib.loads(datapaths[0].read_text()) | {"period": int(found[1])}
            made[name] = Plan(name, text, tree, int(found[2] or 1))
    reverb = made["reverb"].datapath
    made[DELAY] = Plan(DELAY, OF_DELAY, reverb | {"period": 4, "unit": [*reverb["unit"], *BESIDE]}, 2)
    return made


def bare(lines: list[str]) -> list[str]:
    """Nodes, cycles and units alone, without a head."""
    return [" ".join(line.split()[:6]) for line in lines if line.startswith("node ")]


def line_with(old: str, new: str, line: int) -> Edit:
    """Other words in a line, which is counted from 1."""
    def edit(lines: list[str]) -> list[str]:
        assert old in lines[line - 1], f"line {line} has no {old}"
        return [*lines[:line - 1], lines[line - 1].replace(old, new, 1), *lines[line:]]
    return edit


def without(line: int) -> Edit:
    return lambda lines: lines[:line - 1] + lines[line:]


def with_line(line: int, text: str) -> Edit:
    return lambda lines: [*lines[:line - 1], text, *lines[line - 1:]]


def unit_with(name: str, **values: Any) -> Hardware:
    """A datapath in which a unit has other values."""
    def edit(tree: dict[str, Any]) -> dict[str, Any]:
        return tree | {"unit": [unit | values if unit["name"] == name else unit for unit in tree["unit"]]}
    return edit


def without_route(bus: str, file: str) -> Hardware:
    def edit(tree: dict[str, Any]) -> dict[str, Any]:
        return tree | {"bus": [table | {"to": [to for to in table["to"] if to != file]} if table["name"] == bus
                               else table for table in tree["bus"]]}
    return edit


def driven_by(bus: str, units: list[str]) -> Hardware:
    """A datapath in which a bus alone takes the results of some units."""
    def edit(tree: dict[str, Any]) -> dict[str, Any]:
        return tree | {"bus": [table | {"from": [*table["from"], *units] if table["name"] == bus
                                        else [unit for unit in table["from"] if unit not in units]}
                               for table in tree["bus"]]}
    return edit


def same(lines: list[str]) -> list[str]:
    return lines


# Line N + 2 has node N, behind the head; of a bare plan line N + 1.
PLANTED = [
    Planted("biquads", 4, "node 1 is there in line 3", with_line(4, "node 1 cycle 1 unit alu")),
    Planted("biquads", 84, "node 40 is missing", without(41), is_bare=True),
    Planted("biquads", 1, "the source has 84 nodes", line_with("nodes 84", "nodes 83", 1)),
    Planted("biquads", 86, "there is no node 84", lambda lines: [*lines, "node 84 cycle 0 unit alu"]),
    Planted("biquads", 3, "it is no node", line_with("node 1 cycle", "node 1 at", 3)),
    Planted("biquads", 3, "it is no node", line_with("cycle 1 ", "cycle -1 ", 3)),
    Planted("biquads", 1, "the period of the datapath is 27", line_with("period 27", "period 26", 1)),
    Planted("reverb_stages", 1, "it is not over 2 stages", line_with("stages 2", "stages 3", 1)),
    Planted("biquads", 1, "the unroll factor is 1", line_with("unroll 1", "unroll 2", 1)),
    Planted("biquads", 3, "there is no unit adder", line_with("unit alu", "unit adder", 3)),
    Planted("biquads", 3, "mul is no alu", line_with("unit alu", "unit mul", 3)),
    Planted("biquads", 3, "node 1 is op pass 0 fmt 1 round 16", line_with("fmt 1", "fmt 0", 3)),
    Planted("reverb", 52, "past the last, 27", line_with("cycle 27", "cycle 28", 52)),
    Planted("reverb_stages", 2, "not in the first period", line_with("cycle 0", "cycle 24", 2)),
    Planted("reverb_stages", 52, "not in the last period", line_with("cycle 27", "cycle 23", 52)),
    Planted("biquads", 3, "operand 0 of node 1 is there from cycle 1", line_with("cycle 1", "cycle 0", 3)),
    Planted("biquads", 2, "node 0 is read from alu.0", line_with(" to alu.0 bus data regs 0", "", 2)),
    Planted("biquads", 7, "no bus is free for node 6 to mul.1", same, driven_by("data", ["alu"]), is_bare=True),
    Planted("biquads", 2, "bus coef does not lead from inp to alu.0", line_with("bus data", "bus coef", 2)),
    Planted("increment_stages", 3, "no bus leads from rom to add.1", same, without_route("b0", "add.1")),
    Planted("increment_stages", 2, "no bus leads from rom to add.1", same, without_route("b0", "add.1"), True),
    Planted("increment", 2, "no bus is free for node 1 to add.1", line_with("cycle 1", "cycle 0", 2), is_bare=True),
    Planted("biquads", 71, "no cell 17", same, unit_with("mem", cells=17)),
    Planted("reverb_stages", 12, "no cell", same, unit_with("mem", cells=1010)),
    Planted("reverb_stages", 1, "the unroll factor", line_with("unroll 1", "unroll 4", 1)),
    Planted("reverb_stages", 4, "register 2 of alu.0 has the word",
            line_with("alu.0 bus sum regs 1", "alu.0 bus sum regs 2", 4)),
    Planted("reverb_stages", 45, "rom is busy with node 43", line_with("cycle 1", "cycle 3", 45), is_bare=True),
    Planted("reverb_stages", 42, "rom is busy with node 6", line_with("cycle 11", "cycle 24", 42), is_bare=True),
    Planted("reverb_stages", 45, "node 7 is written into alu.1", line_with("cycle 1", "cycle 4", 45), is_bare=True),
    Planted("biquads", 22, "mul is busy with node 20", same, unit_with("mul", gap=2), is_bare=True),
    Planted("biquads", 21, "mul is not free again", same, unit_with("mul", gap=28), is_bare=True),
    Planted(DELAY, 5, "loads the word of 1 samples ago, which node 2 stores by cycle 6",
            line_with("cycle 4", "cycle 6", 3), is_bare=True),
    Planted(DELAY, 4, "adr2 does not address mem", line_with("adr", "adr2", 4), is_bare=True),
    Planted(DELAY, 5, "the line of node 4 is in mem", line_with("mem", "mem2", 5), is_bare=True),
    Planted(DELAY, 5, "operand 3 of node 4 is there from cycle 1", line_with("cycle 1", "cycle 0", 5), is_bare=True),
    Planted("biquads", 3, "file full alu.0 at node 1", line_with("alu.0 bus sum regs 0", "alu.0 bus sum regs 1", 3)),
    Planted("reverb_stages", 3, "node 1 has 1 copies", line_with("regs 0", "regs 0,1", 3)),
]


def refusal(text: str, nodes: str, datapath: dict[str, Any], stages: int) -> tuple[int, str] | None:
    try:
        check(text, nodes, datapath, stages)
    except NoPlan as why:
        return why.line, why.what
    return None


def fault_of(planted: Planted, plan: Plan) -> str | None:
    lines = plan.text.splitlines()
    edited = planted.edit(bare(lines) if planted.is_bare else lines)
    text = "".join(f"{line}\n" for line in edited)
    said = refusal(text, plan.text, planted.hardware(plan.datapath), plan.stages)
    wanted = planted.line, planted.what
    if said is None or said[0] != planted.line or planted.what not in said[1]:
        return f"{planted.plan}: {said} in the place of {wanted}"
    return None


def main(words: list[str]) -> int:
    if words:
        print(__doc__, file=sys.stderr)
        return 2
    there, faults, taken = plans(), [], 0
    for plan in there.values():
        for text in (plan.text, "".join(f"{line}\n" for line in bare(plan.text.splitlines()))):
            said = refusal(text, plan.text, plan.datapath, plan.stages)
            faults += [f"{plan.name}: {said}"] if said else []
            taken += said is None
    faults += [fault for planted in PLANTED if (fault := fault_of(planted, there[planted.plan]))]
    faults += [f"{taken} plans are too few"] if taken < LEAST_TAKEN else []
    for fault in faults:
        print(fault)
    print(f"plan: {taken} plans are taken, {len(PLANTED)} planted mistakes, {len(faults)} faults")
    return 1 if faults else 0


if __name__ == "__main__":
    sys.exit(main(sys.argv[1:]))
