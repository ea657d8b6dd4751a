"""What no plan over stages can have less of: the cycles of a period, by what units do and by loops through delays."""
from collections import Counter
from collections.abc import Iterator
from typing import Any

from silc.micro_file.operations import KIND_OF
from silc.pictures.plan import Plan


def by_units(plan: Plan, datapath: dict[str, Any]) -> int:
    """The cycles in which the units of a kind can begin all its operations, of the kind that needs most."""
    gaps: dict[str, list[int]] = {}
    for unit in datapath["unit"]:
        gaps.setdefault(unit["kind"], []).append(unit.get("gap", 1))
    counts = Counter(KIND_OF[node.op] for node in plan.nodes)
    return max(cycles_for(count, gaps[kind]) for kind, count in counts.items())


def cycles_for(count: int, gaps: list[int]) -> int:
    """The fewest cycles in which units with these gaps begin so many operations."""
    cycles = 1
    while sum(cycles // gap for gap in gaps) < count:
        cycles += 1
    return cycles


def loads_of(plan: Plan) -> Iterator[tuple[int, int, int]]:
    """Each load with the store of its word and how many samples before that is stored."""
    def offset(number: int) -> int:
        address = plan.nodes[plan.nodes[number].operands[0][0]].argument
        assert address is not None
        return address

    stores = [node for node in plan.nodes if node.op == "store"]
    for load in plan.nodes:
        if load.op == "load":
            _, store = max((offset(store.number), store.number) for store in stores
                           if store.unit == load.unit and offset(store.number) <= offset(load.number))
            yield load.number, store, offset(load.number) - offset(store)


def by_loops(plan: Plan) -> int:
    """The cycles that the slowest loop takes for each sample of its delays, and 0 where there is no loop: an operation
    of it begins once the one before has ended, and a word is loaded so many periods after the sample in which it is
    stored."""
    waits = [(read, node.number, plan.latency[plan.nodes[read].unit], delay) for node in plan.nodes
             for read, delay in node.operands]
    waits += [(store, load, plan.latency[plan.nodes[store].unit], delay) for load, store, delay in loads_of(plan)]

    def is_too_short(period: int) -> bool:
        """Whether a loop takes more cycles than there are: then the times at which its operations begin never
        settle."""
        begins = [0] * len(plan.nodes)
        for _ in range(len(plan.nodes) + 1):
            is_settled = True
            for read, reader, latency, delay in waits:
                least = begins[read] + latency - delay * period
                if least > begins[reader]:
                    begins[reader], is_settled = least, False
            if is_settled:
                return False
        return True

    low, high = -1, sum(plan.latency[node.unit] for node in plan.nodes)
    while low + 1 < high:
        middle = (low + high) // 2
        low, high = (middle, high) if is_too_short(middle) else (low, middle)
    return high
