"""The table of an exploration: what each combination costs, or why it does not fit, and which are on the Pareto
front."""
import csv
import io
from collections.abc import Iterable, Sequence
from dataclasses import dataclass
from fractions import Fraction
from pathlib import Path
from typing import Any, TypeAlias

from silc.exploring.bits import Held
from silc.exploring.template import Choice, Fitting, fitted
from silc.hardware.words import Range
from silc.pictures.plan import Plan, plan_of
from silc.sure import sure

# The costs of a combination, which are compared one by one.
Costs: TypeAlias = tuple[float, ...]

PERIOD, STAGES = "period", "stages"
COSTS = (PERIOD, "units", "buses", "register_bits", "cell_bits")
MEASURES = ("units", "buses", "registers", "register_bits", "cell_bits", "taken", "cells", "cycles")
VERDICT = ("answer", "front", "made_from")
LAST = [*MEASURES, *VERDICT]
# What a table has too where sources are judged on samples.
JUDGED = ("noise", "wraps")
FITS, ON_FRONT = "fits", "yes"
# The columns of a clock beside what a core takes, and how those rows are marked that do not reach it or have no place.
CLOCK, NEEDED, MARK = "MHz", "needed MHz", "clock"
# The columns of a better plan.
PLANNED_PERIOD, LEAST = "best period", "least"
TOO_SLOW, MISFITS = "too slow", "does not fit"
OTHERWISE = "name another one by --out, or write over it by --force"


@dataclass(frozen=True)
class Area:
    """What the core of a combination takes of an FPGA, by the kinds of its cells; where it is routed, the clock at
    which it runs and the one that the rate takes, in MHz. `misfit` says what the part has too little of; then nothing
    else is known."""
    cells: dict[str, int]
    clock: float | None = None
    needed: float | None = None
    misfit: str = ""

    def mark(self) -> str:
        """How a row is marked that can't be built for its rate."""
        if self.misfit:
            return MISFITS
        return TOO_SLOW if self.clock is not None and self.needed is not None and self.clock < self.needed else ""

    def cell(self, column: str) -> float | str:
        """What stands in a column of the table."""
        own = {CLOCK: self.clock, NEEDED: self.needed, MARK: self.mark()}
        value = own[column] if column in own else self.cells.get(column)
        return "" if value is None else value


@dataclass
class Trade:
    """A combination: the number of each range, what its hardware has, what its plan takes of it, and what silc
    answers."""
    choice: Choice
    period: int
    units: int
    buses: int
    registers: int | None
    register_bits: int | None = None
    cell_bits: int | None = None
    taken: int | None = None
    cells: int | None = None
    cycles: int | None = None
    answer: str = FITS
    is_on_front: bool = False
    noise: float | None = None
    wraps: int | None = None
    area: Area | None = None
    # The period of a better plan, where one was searched for, and whether it is known to be the least.
    planned: int | None = None
    is_least: bool = False

    def fits(self) -> bool:
        return self.answer == FITS

    def costs(self) -> Costs:
        """The costs, and with them the noise where there is one."""
        return tuple(getattr(self, cost) for cost in COSTS) + (() if self.noise is None else (self.noise,))

    def stages(self) -> int:
        """How many stages it is planned over; 0 where it is a plan of `silc schedule`."""
        return int(self.choice.get(STAGES, 0))

    def weighed(self) -> tuple[float, ...]:
        """The costs, and as the last one the stages."""
        return (*self.costs(), self.stages())


def registers_in(datapath: dict[str, Any]) -> int | None:
    """How many registers the files of a datapath have; nothing where a file is to fit a plan. A file whose size is no
    number has none."""
    sizes = [size for unit in datapath["unit"] for size in list_in(unit, "files")]
    if any(isinstance(size, Fitting) for size in sizes):
        return None
    return sum(size for size in sizes if isinstance(size, int))


def list_in(part: dict[str, Any], key: str) -> list[Any]:
    return part[key] if isinstance(part.get(key), list) else []


def registers_by_file(plan: Plan) -> dict[str, int]:
    """How many registers a plan takes of each file that it uses: those up to the last one."""
    count: dict[str, int] = {}
    for node in plan.nodes:
        for transfer in node.transfers:
            count[transfer.file] = max(count.get(transfer.file, 0), *(register + 1 for register in transfer.registers))
    return count


def registers_of(plan: Plan) -> int:
    """How many registers a plan takes in all."""
    return sum(registers_by_file(plan).values())


def cells_of(plan: Plan) -> int:
    """How many cells a plan takes: in each ram those up to the last one, with one for each further sample in flight."""
    last: dict[str, int] = {}
    for node in plan.nodes:
        if node.op in ("load", "store"):
            (address, _), *_ = node.operands
            last[node.unit] = max(last.get(node.unit, 0), sure(plan.nodes[address].argument))
    return sum(cell + plan.stages for cell in last.values())


def cycles_of(plan: Plan) -> int:
    """How many cycles pass until the last result is there."""
    return max((plan.written(node) + 1 for node in plan.nodes), default=0)


def trade_of(choice: Choice, datapath: dict[str, Any], status: int, said: str,
             inputs: Sequence[Range] = ()) -> Trade:
    """What silc says of a combination, as a row of the table. The words of the program's inputs are those of the
    datapath where they are not given."""
    trade = Trade(choice, datapath[PERIOD], len(datapath["unit"]), len(datapath["bus"]), registers_in(datapath))
    if status:
        trade.answer = said.strip().removeprefix("silc: ")
        return trade
    plan = plan_of(said, datapath)
    fitting = fitted(datapath, registers_by_file(plan))
    held = Held(plan, fitting, inputs)
    trade.registers, trade.register_bits, trade.cell_bits = registers_in(
        fitting), held.register_bits(), held.cell_bits()
    trade.taken, trade.cells, trade.cycles = registers_of(plan), cells_of(plan), cycles_of(plan)
    return trade


def is_better(costs: Costs, others: Costs) -> bool:
    return costs != others and all(cost <= other for cost, other in zip(costs, others))


def mark_front(trades: Iterable[Trade]) -> list[Trade]:
    """Marks those that fit and that no other betters: none has less of one cost and no more of the others."""
    front: list[Trade] = []
    for trade in sorted((trade for trade in trades if trade.fits()), key=Trade.weighed):
        # Costs that are no more, one by one, come no later in this order.
        trade.is_on_front = not any(is_better(other.weighed(), trade.weighed()) for other in front)
        if trade.is_on_front:
            front.append(trade)
    return front


def rows_of(text: str) -> tuple[list[str], list[list[str]]]:
    """The names of the columns of a table and its rows, but for a last one that was cut off."""
    names, *rows = list(csv.reader(line for line in text.splitlines(True) if line.endswith("\n"))) or [[]]
    for number, row in enumerate(rows, 2):
        if len(row) != len(names):
            raise ValueError(f"line {number} has {len(row)} cells, and the first one {len(names)}")
    return names, rows


def number_in(cell: str) -> int | Fraction:
    """The number of a range, which may be a fraction."""
    return Fraction(cell) if "/" in cell else int(cell)


def trade_in(names: list[str], row: list[str]) -> Trade:
    """The combination of a row."""
    cells = dict(zip(names, row))
    choice = {name: number_in(cell) for name, cell in cells.items() if name not in (*MEASURES, *JUDGED, *VERDICT)}
    noise, wraps = (cells.get(name) or None for name in JUDGED)
    trade = Trade(choice, int(cells[PERIOD]), int(cells["units"]), int(cells["buses"]), None, answer=cells["answer"],
                  is_on_front=cells["front"] == ON_FRONT, noise=float(noise) if noise else None,
                  wraps=int(wraps) if wraps else None)
    for name in MEASURES:
        setattr(trade, name, int(cells[name]) if cells[name] else None)
    return trade


def trades_of(text: str) -> list[Trade]:
    """The combinations in the text of a table."""
    names, rows = rows_of(text)
    kept = [name for name in names if name not in JUDGED]
    if names[:1] != [PERIOD] or kept[-len(LAST) :] != LAST:
        raise ValueError("it is no table of tools/explore")
    return [trade_in(names, row) for row in rows]


def line_of(cells: Iterable[object]) -> str:
    text = io.StringIO()
    csv.writer(text, lineterminator="\n").writerow(cells)
    return text.getvalue()


class Table:
    """The CSV file of an exploration. It is also the state from which one goes on that was stopped."""

    def __init__(self, file: str | Path, ranges: Iterable[str], made_from: str, is_judged: bool = False) -> None:
        self.file, self.made_from = Path(file), made_from
        judged = JUDGED if is_judged else ()
        self.head = [PERIOD, *(name for name in ranges if name != PERIOD), *MEASURES, *judged, *VERDICT]
        if len(set(self.head)) < len(self.head):
            raise ValueError(f"no range may be called {' or '.join([*LAST, *JUDGED])}")

    def line(self, trade: Trade) -> str:
        cells = {name: getattr(trade, name) for name in (*MEASURES, *JUDGED)} | trade.choice
        cells |= {PERIOD: trade.period, "answer": trade.answer, "front": ON_FRONT if trade.is_on_front else "",
                  "made_from": self.made_from}
        return line_of(cells[name] for name in self.head)

    def read(self) -> list[Trade]:
        """The combinations that are in the file."""
        if not self.file.exists():
            return []
        names, rows = rows_of(self.file.read_text())
        if names != self.head:
            raise ValueError(f"it is not the table of this template; {OTHERWISE}")
        if any(row[-1] != self.made_from for row in rows):
            raise ValueError(f"its rows are of another source or template; {OTHERWISE}")
        return [trade_in(names, row) for row in rows]

    def text(self, trades: Iterable[Trade]) -> str:
        """What the whole file has."""
        return line_of(self.head) + "".join(map(self.line, trades))
