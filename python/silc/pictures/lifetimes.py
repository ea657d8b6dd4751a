"""The lifetimes of a plan, on the circle of its samples, unrolled: which word each register has in which cycle, when it
is written, and when it is read."""
from typing import Any

from silc.pictures.columns import BETWEEN, FOOT, HEAD, LABELS, LEFT, NAMES, NARROW, WIDTH, Columns, parts_around
from silc.pictures.picture import AMBER, BLACK, BLUE, MARGIN, ORANGE, SKY, Picture, fitting, size_in
from silc.pictures.plan import Node, Plan, readings

BAR, ROW, FILE_GAP = 20, 23, 10
# The colours of even and of odd nodes, a shade for each sample.
SHADES = ((SKY, "#7fbbe3", "#e1f1fb", "#559fd0"), (AMBER, "#dc9440", "#fbe6cb", "#b97a33"))
POINTER, DOT = 8, 2.2
KEY = 20
# The width that the key takes, without samples and with them.
LEAST_WIDTH, WITH_SAMPLES = 620, 868


class Life:
    """One word in one register, on the circle of samples: the sample in whose period it is written, which is its own
    where samples do not overlap, and the cycles of its write and of its reads."""

    def __init__(self, node: Node, sample: int, file: str, register: int, written: int, reads: list[int],
                 turn: str) -> None:
        self.node, self.sample, self.file, self.register, self.turn = node, sample, file, register, turn
        self.written, self.reads = written, reads
        self.first, self.last = written + 1, max(reads)

    def words(self) -> str:
        return f"node {self.node.number} of {self.turn} {self.sample}"

    def colour(self) -> str:
        return SHADES[self.node.number % 2][self.sample]

    def label(self, unroll: int) -> str:
        """What its bar says: the node, and the sample where there are several."""
        return f"{self.node.number}" if unroll == 1 else f"{self.node.number}/{self.sample}"

    def parts(self, circle: int) -> list[tuple[int, int]]:
        """The cycles from 0 to the end of the circle that it takes, as ranges."""
        return parts_around(circle, self.first, self.last)


def turn_of(plan: Plan) -> str:
    """What a turn of the period is called: a sample, but where samples overlap."""
    return "sample" if plan.stages == 1 else "period"


def lives_of(plan: Plan) -> list[Life]:
    lives, read_in = [], readings(plan)
    for node in plan.nodes:
        written = plan.written(node)
        for transfer in node.transfers:
            for sample in range(plan.unroll):
                shift = (sample - plan.stage(written)) * plan.period
                register = transfer.registers[sample % len(transfer.registers)]
                reads = sorted(cycle + shift for cycle in read_in[node.number, transfer.file])
                lives.append(Life(node, sample, transfer.file, register, written + shift, reads, turn_of(plan)))
    return lives


def files_of(plan: Plan, datapath: dict[str, Any] | None) -> list[tuple[str, int]]:
    """The register files in use, each with how many registers it needs, in the order of the datapath or by name."""
    count: dict[str, int] = {}
    for node in plan.nodes:
        for transfer in node.transfers:
            count[transfer.file] = max(count.get(transfer.file, 0), *(register + 1 for register in transfer.registers))
    if datapath is None:
        return sorted(count.items())
    ports = [f"{unit['name']}.{port}" for unit in datapath["unit"] for port in range(len(unit.get("files", [])))]
    return [(file, count[file]) for file in ports if file in count]


def draw_rows(picture: Picture, y: float, files: list[tuple[str, int]]) -> dict[tuple[str, int], float]:
    """The names of files and registers beside a line, from y on; of each register the y of its row."""
    rows = {}
    for file, count in files:
        picture.text(MARGIN, y + BAR / 2 + 4, fitting(file, NAMES - 24, 12), 12, BLUE, "start")
        for register in range(count):
            picture.text(LEFT - 8, y + BAR / 2 + 4, str(register), 10, BLACK, "end")
            rows[file, register] = y
            y += ROW
        y += FILE_GAP
    return rows


def draw_lives(picture: Picture, columns: Columns, start: int, rows: dict[tuple[str, int], float], lives: list[Life],
               unroll: int) -> None:
    for life in lives:
        for first, last in life.parts(columns.cycles):
            part = columns.part(start, first, last)
            if part:
                (x, width), y = part, rows[life.file, life.register]
                picture.box(x + 1, y, width - 2, BAR, life.colour(),
                            title=f"{life.words()} in {life.file} register {life.register}, "
                                  f"cycles {life.first} to {life.last}")
                label = life.label(unroll)
                picture.text(x + width / 2, y + BAR / 2 + 1, label, size_in(label, width - 6, 10))


def draw_marks(picture: Picture, columns: Columns, start: int, rows: dict[tuple[str, int], float],
               lives: list[Life]) -> None:
    """The write of each word, at the end of its cycle, and each of its reads."""
    for life in lives:
        y, where = rows[life.file, life.register], f"{life.file} register {life.register}"
        written = columns.part(start, life.written, life.written)
        if written:
            x, width = written
            picture.pointer(x + width, y + (BAR - POINTER) / 2, POINTER, ORANGE,
                            f"{life.words()} goes into {where} in cycle {life.written}")
        for read in life.reads:
            part = columns.part(start, read % columns.cycles, read % columns.cycles)
            if part:
                x, width = part
                picture.dot(x + width / 2, y + BAR - 4, BLUE, DOT,
                            f"{life.words()} is read from {where} in cycle {read}")


def draw_key(picture: Picture, y: float, plan: Plan) -> None:
    x = MARGIN
    for colour in (shade for shades in SHADES for shade in shades[:plan.unroll]):
        picture.box(x, y, 16, 14, colour)
        x += 18
    words = "a node's word in a register, from the cycle after its write to its last read"
    samples = f"; 2/1 is node 2 of {turn_of(plan)} 1" if plan.unroll > 1 else ""
    picture.text(x + 6, y + 11, words + samples, 11, BLACK, "start")
    picture.pointer(MARGIN + 16, y + 24, POINTER, ORANGE, "a write")
    picture.text(MARGIN + 24, y + 32, "it is written at the end of this cycle", 11, BLACK, "start")
    picture.dot(MARGIN + 280, y + 28, BLUE, DOT)
    picture.text(MARGIN + 290, y + 32, "it is read in this cycle", 11, BLACK, "start")


def draw_lifetimes(plan: Plan, datapath: dict[str, Any] | None = None) -> str:
    lives, files, circle = lives_of(plan), files_of(plan, datapath), plan.period * plan.unroll
    used = {cycle for life in lives for first, last in life.parts(circle) for cycle in range(first, last + 1)}
    columns = Columns(circle, WIDTH // NARROW, used | {life.written for life in lives})
    height = sum(count * ROW + FILE_GAP for _, count in files)
    ends = HEAD + len(columns.lines) * (LABELS + height + BETWEEN)
    said = f"period {plan.period}, unroll {plan.unroll}"
    width = max(columns.width, LEAST_WIDTH if plan.unroll == 1 else WITH_SAMPLES)
    picture = Picture(width, ends + FOOT + KEY, f"lifetimes: {said}")
    picture.text(MARGIN, 28, "; ".join(filter(None, [said, columns.omitted()])), 13, BLACK, "start")
    y = HEAD + LABELS
    for start in columns.lines:
        columns.draw_periods(picture, start, y, plan.period, turn_of(plan))
        columns.draw_grid(picture, start, y, y + height - FILE_GAP, range(0, circle + 1, plan.period))
        rows = draw_rows(picture, y, files)
        draw_lives(picture, columns, start, rows, lives, plan.unroll)
        draw_marks(picture, columns, start, rows, lives)
        y += LABELS + height + BETWEEN
    draw_key(picture, ends, plan)
    return picture.whole()
