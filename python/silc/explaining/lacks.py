"""What a source lacks on a datapath, found by planning it on others: the period, the registers of a file."""
import tempfile
import tomllib
from collections.abc import Callable, Iterator
from pathlib import Path

from silc.explaining.changes import Key
from silc.explaining.text import Text
from silc.explaining.toml_places import Tree
from silc.exploring.template import text_of
from silc.exploring.trades import cells_of, cycles_of
from silc.pictures.plan import Node, Plan, plan_of

LONGEST, MOST_REGISTERS, MOST_CELLS = 4096, 256, 65536
# So many periods are tried one by one.
MOST_LONGER = 32
PLANNED, BAD_DATAPATH, NO_PERIOD, FULL = 0, 5, 8, 9


class Trial:
    """A source and a datapath, and how `silc schedule` answers for others like it."""

    def __init__(self, plan: Callable[[Path], tuple[int, str]], tree: Tree, say: Callable[[str], None]) -> None:
        self.plan, self.tree, self.say = plan, tree, say

    def answer(self, tree: Tree) -> tuple[int, str]:
        """The exit status of the plan on a datapath, and what silc says."""
        with tempfile.TemporaryDirectory(prefix="silc-explain-") as folder:
            file = Path(folder, "datapath.toml")
            file.write_text(text_of(tree))
            return self.plan(file)

    def at_period(self, period: int) -> tuple[int, str]:
        return self.answer(self.tree | {"period": period})

    def cells(self) -> tuple[int, int] | None:
        """How many cells there are, and how many the delay lines take in all; nothing where there is no plan with
        more."""
        units = [unit | {"cells": MOST_CELLS} if unit["kind"] == "ram" else unit for unit in roomy(self.tree)["unit"]]
        status, said = self.answer(self.tree | {"unit": units, "period": LONGEST})
        if status != PLANNED:
            return None
        return sum(unit.get("cells", 0) for unit in self.tree["unit"]), cells_of(plan_of(said, self.tree))

    def least_period(self) -> tuple[int, int, str] | None:
        """The least period in which each node has its cycle, with what silc says then; nothing where none is long
        enough."""
        given = self.tree["period"]
        self.say(f"looking for the least period, above {given} and up to {LONGEST}")
        # With large files there is a plan where all nodes have their cycles, and its length says where to look.
        status, said = self.answer(roomy(self.tree) | {"period": LONGEST})
        if status == NO_PERIOD:
            return None
        low, high, answer = given, LONGEST, (status, said)
        if status == PLANNED:
            # A node's cycle does not depend on the period but by its end, so the plan's length is the least period.
            high = cycles_of(plan_of(said, self.tree))
            return high, *self.at_period(high)
        while low + 1 < high:
            middle = (low + high) // 2
            tried = self.at_period(middle)
            self.say(f"a period of {middle} is {'too short' if tried[0] == NO_PERIOD else 'long enough'}")
            if tried[0] == NO_PERIOD:
                low = middle
            else:
                high, answer = middle, tried
        return high, *answer

    def longer_period(self) -> int | None:
        """The next period in which each node has its cycle, of those that are tried. A plan over stages may be there in
        one period and not in a longer one, so they are tried one by one."""
        given = self.tree["period"]
        longer = range(given + 1, min(given + MOST_LONGER, LONGEST) + 1)
        return next((period for period in longer if self.at_period(period)[0] != NO_PERIOD), None)

    def registers_for(self, port: str) -> dict[str, int] | None:
        """How many registers a full file needs, and those of the other files that are full too: each is filled by
        itself."""
        needs = self.registers(self.tree)
        return needs if needs and port in needs else None

    def registers(self, tree: Tree) -> dict[str, int] | None:
        """How many registers the full files of a datapath need, by their ports; nothing where no file can have as
        many."""
        status, said = self.answer(roomy(tree))
        if status != PLANNED:
            return None
        plan, needs = plan_of(said, tree), {}
        for unit in tree["unit"]:
            for number, size in enumerate(unit.get("files", [])):
                name = f"{unit['name']}.{number}"
                needed = registers_in(plan, name)
                if needed > size:
                    needs[name] = needed
        return needs


def roomy(tree: Tree) -> Tree:
    """A datapath with as many registers in each file as there can be."""
    return tree | {"unit": [unit | {"files": [MOST_REGISTERS] * len(unit["files"])} if "files" in unit else unit
                            for unit in tree["unit"]]}


def wider_files(tree: Tree, needs: dict[str, int]) -> Iterator[Key]:
    """The changes by which files have as many registers as are needed."""
    for number, unit in enumerate(tree["unit"]):
        files = unit.get("files", [])
        wanted = [needs.get(f"{unit['name']}.{port}", size) for port, size in enumerate(files)]
        if wanted != files:
            yield Key("unit", number, "files", wanted)


def registers_in(plan: Plan, port: str) -> int:
    """How many registers a plan takes at a port."""
    return max((1 + max(transfer.registers) for node in plan.nodes for transfer in node.transfers
                if transfer.file == port),
               default=0)


def loads_of(plan: Plan, tree: Tree) -> tuple[dict[str, int], dict[str, int]]:
    """How many cycles of a sample each bus and each unit is taken: the bus for a word each, the unit for its gap
    each."""
    gaps = {unit["name"]: unit.get("gap", 1) for unit in tree["unit"]}
    buses: dict[str, set[int]] = {bus["name"]: set() for bus in tree["bus"]}
    units = dict.fromkeys(gaps, 0)
    for node in plan.nodes:
        units[node.unit] += gaps[node.unit]
        for transfer in node.transfers:
            buses[transfer.bus].add(plan.written(node))
    return {name: len(cycles) for name, cycles in buses.items()}, units


def longest_chain(plan: Plan) -> tuple[list[int], int]:
    """The nodes of the longest chain of operations that wait for one another in one sample, and how many cycles it
    takes."""
    height: dict[int, int] = {}
    after: dict[int, Node | None] = {}
    readers: dict[int, list[Node]] = {node.number: [] for node in plan.nodes}
    for node in plan.nodes:
        for read, delay in node.operands:
            if delay == 0:
                readers[read].append(node)
    for node in sorted(plan.nodes, key=lambda node: -node.cycle):
        best = max(readers[node.number], key=lambda reader: height[reader.number], default=None)
        after[node.number] = best
        height[node.number] = plan.latency[node.unit] + (height[best.number] if best else 0)
    first = max(plan.nodes, key=lambda node: (height[node.number], -node.number))
    chain, number = list[int](), first.number
    while True:
        chain.append(number)
        following = after[number]
        if following is None:
            break
        number = following.number
    return chain, height[first.number]


def tree_of(text: Text) -> Tree:
    return tomllib.loads(text.data.decode("utf-8-sig"))
