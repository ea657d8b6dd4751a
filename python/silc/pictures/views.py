"""What a picture shows of a plan: one sample, the stages of all samples in flight in one period, or some samples
unfolded."""
from dataclasses import dataclass

from silc.micro_file.operations import KIND_OF
from silc.pictures.columns import NARROW, parts_around
from silc.pictures.picture import AMBER, COLUMN, FILLS, GREEN, PAPER, SKY, YELLOW
from silc.pictures.plan import Node, Plan, Transfer

# How many samples are unfolded.
SAMPLES = 3
# The colours of stages, of which there are four at most, or of samples.
COLOURS = (SKY, AMBER, GREEN, YELLOW)


@dataclass
class Bar:
    """An operation over the cycles of its latency, and the columns that these are."""
    node: Node
    first: int
    last: int
    parts: list[tuple[int, int]]
    fill: str
    note: str = ""

    def when(self) -> str:
        return f"cycle {self.first}" if self.last == self.first else f"cycles {self.first} to {self.last}"

    def columns(self) -> set[int]:
        return {column for first, last in self.parts for column in range(first, last + 1)}


@dataclass
class Result:
    """A result on a bus, and the destinations that take it there."""
    node: Node
    bus: str
    cycle: int
    column: int
    taken: list[Transfer]
    fill: str
    note: str = ""


@dataclass
class View:
    """What is drawn: how many columns, how wide, what is in them, and what colours mean."""
    said: str
    columns: int
    width: int
    bars: list[Bar]
    results: list[Result]
    key: list[tuple[str, str]]
    # The numbers of the periods above the columns, where there are several.
    period: int | None = None


def transfers_of(node: Node) -> dict[str, list[Transfer]]:
    """By bus the transfers of a node's result."""
    made: dict[str, list[Transfer]] = {}
    for transfer in node.transfers:
        made.setdefault(transfer.bus, []).append(transfer)
    return made


def as_planned(plan: Plan) -> View:
    """One sample, with a colour for each kind of units."""
    bars = [Bar(node, node.cycle, plan.written(node), [(node.cycle, plan.written(node))], FILLS[KIND_OF[node.op]])
            for node in plan.nodes]
    results = [Result(node, bus, plan.written(node), plan.written(node), taken, PAPER)
               for node in plan.nodes for bus, taken in transfers_of(node).items()]
    said = f"period {plan.period}, unroll {plan.unroll}, {len(plan.nodes)} nodes"
    return View(said, plan.period, COLUMN, bars, results, [(FILLS["alu"], "")])


def folded(plan: Plan) -> View:
    """One period, in which each stage is of another sample, with a colour for each stage."""
    bars, results = [], []
    for node in plan.nodes:
        first, last = node.cycle, plan.written(node)
        stage, written = plan.stage(first), plan.stage(last)
        bars.append(Bar(node, first, last, parts_around(plan.period, first, last), COLOURS[stage], f", stage {stage}"))
        results += [Result(node, bus, last, last % plan.period, taken, COLOURS[written], f", stage {written}")
                    for bus, taken in transfers_of(node).items()]
    said = f"period {plan.period}, stages {plan.stages}, unroll {plan.unroll}, {len(plan.nodes)} nodes"
    key = [(COLOURS[stage], f"stage {stage}") for stage in range(plan.stages)]
    return View(said, plan.period, COLUMN, bars, results, key)


def unfolded(plan: Plan) -> View:
    """The first samples, each over its stages from its own period on, with a colour for each sample."""
    bars, results = [], []
    for sample in range(SAMPLES):
        note, shift = f", sample {sample}", sample * plan.period
        for node in plan.nodes:
            first, last = node.cycle + shift, plan.written(node) + shift
            bars.append(Bar(node, first, last, [(first, last)], COLOURS[sample], note))
            results += [Result(node, bus, last, last, taken, COLOURS[sample], note)
                        for bus, taken in transfers_of(node).items()]
    said = f"period {plan.period}, stages {plan.stages}, {SAMPLES} samples of {len(plan.nodes)} nodes"
    key = [(COLOURS[sample], f"sample {sample}") for sample in range(SAMPLES)]
    return View(said, (SAMPLES - 1 + plan.stages) * plan.period, NARROW, bars, results, key, plan.period)


def view_of(plan: Plan) -> View:
    """What a plan's own picture shows."""
    return as_planned(plan) if plan.stages == 1 else folded(plan)
