"""The schedule of a plan: which unit does what in which cycle, and what goes over which bus."""
from typing import Any, TypeAlias

from silc.explaining.hardware import Node as NodeOfSource
from silc.pictures.columns import BETWEEN, FOOT, HEAD, LABELS, LEFT, NAMES, WIDTH, Columns
from silc.pictures.picture import BLACK, BLUE, COLUMN, MARGIN, PAPER, Picture, fitting, size_in
from silc.pictures.plan import Plan
from silc.pictures.views import Bar, Result, View, unfolded, view_of

Origins: TypeAlias = dict[int, NodeOfSource]

BAR, LOW_BAR, BETWEEN_LANES, TRANSFER, DESTINATION = 30, 18, 4, 16, 11
# A bar is higher by this where the element of its node stands in it.
ELEMENT = 11
# How wide a letter of the table is, about.
LETTER = 6
# The table of nodes: its rows, and where its columns begin and end.
ROW, TABLE_LEFT, LINE_RIGHT, ELEMENT_LEFT, OPERATION_LEFT, TABLE_WIDTH = 14, 34, 66, 84, 214, 330
# The room for the numbers of cycles above a line.
NUMBERS = 20
# The key: how wide what a colour means is, where its second square stands, and the width that it takes.
KEY, SECOND, KEY_LINE, LEAST_WIDTH = 84, 310, 20, 680


class Lanes:
    """Where bars have room: of each the lane of its unit, and of each unit how many lanes it has."""

    def __init__(self, bars: list[Bar], units: list[str]) -> None:
        self.of_bar: dict[int, int] = {}
        taken: dict[str, list[set[int]]] = {unit: [] for unit in units}
        for number, bar in sorted(enumerate(bars), key=lambda numbered: numbered[1].parts[0]):
            lanes, columns = taken[bar.node.unit], bar.columns()
            place = next((k for k, others in enumerate(lanes) if not others & columns), len(lanes))
            lanes[place : place + 1] = [columns.union(*lanes[place : place + 1])]
            self.of_bar[number] = place
        self.of_unit = {unit: max(1, len(lanes)) for unit, lanes in taken.items()}


class Rows:
    """Where the rows of one line of columns stand: those of the units, and below them those of the buses."""

    def __init__(self, top: float, lanes: Lanes, buses: list[str], results: list[Result], columns: Columns, start: int,
                 bar: float) -> None:
        self.top, self.bar, y = top, bar, top
        self.unit: dict[str, float] = {}
        self.bus: dict[str, tuple[float, float]] = {}
        for unit, count in lanes.of_unit.items():
            self.unit[unit] = y
            y += count * self.lane()
        y += 8
        for bus in buses:
            counts = [named(columns, result) for result in results
                      if result.bus == bus and start <= result.column < columns.end(start)]
            height = TRANSFER + DESTINATION * max(counts, default=0)
            self.bus[bus] = (y, height)
            y += height + 3
        self.bottom = y

    def lane(self) -> float:
        return self.bar + BETWEEN_LANES


def is_wide(columns: Columns) -> bool:
    """Whether a column has room for more than the number of a node."""
    return columns.step >= COLUMN


def named(columns: Columns, result: Result) -> int:
    """How many destinations of a result are named."""
    return len(result.taken) if is_wide(columns) else 0


def short(file: str, width: float, size: float) -> str:
    """The name of a port, with its number in any case."""
    unit, _, port = file.rpartition(".")
    return fitting(unit, width - 1.5 * size, size) + "." + port


def draw_nodes(picture: Picture, bars: list[Bar], columns: Columns, start: int, rows: Rows, lanes: Lanes,
               origins: Origins) -> None:
    for number, bar in enumerate(bars):
        node, origin = bar.node, origins.get(bar.node.number)
        where = f"; {origin.element} in line {origin.where()}" if origin else ""
        for x, width in filter(None, (columns.part(start, *part) for part in bar.parts)):
            y = rows.unit[node.unit] + lanes.of_bar[number] * rows.lane() + 2
            picture.box(x + 1, y, width - 2, rows.bar, bar.fill,
                        title=f"node {node.number}: {node.words()}, on {node.unit} in {bar.when()}{bar.note}{where}")
            picture.text(x + width / 2, y + 14, str(node.number), size_in(str(node.number), width - 2, 12))
            if is_wide(columns):
                picture.text(x + width / 2, y + 25, node.op, 9)
                if origin:
                    picture.text(x + width / 2, y + 36, fitting(origin.element, width - 4, 9), 9)


def draw_transfers(picture: Picture, results: list[Result], columns: Columns, start: int, rows: Rows) -> None:
    for result in results:
        part = columns.part(start, result.column, result.column)
        if part:
            (x, width), node, count = part, result.node, named(columns, result)
            y, height = rows.bus[result.bus]
            files = ", ".join(f"{to.file} register {','.join(map(str, to.registers))}" for to in result.taken)
            picture.box(x + 1, y, width - 2, TRANSFER - 2 + DESTINATION * count, result.fill, BLUE,
                        title=f"node {node.number} over {result.bus} in cycle {result.cycle} to {files}{result.note}")
            picture.text(x + width / 2, y + 12, str(node.number), size_in(str(node.number), width - 2, 11))
            for k, transfer in enumerate(result.taken[:count]):
                picture.text(x + width / 2, y + 12 + DESTINATION * (k + 1), short(transfer.file, width - 4, 9), 9, BLUE)


def draw_names(picture: Picture, rows: Rows, lanes: Lanes) -> None:
    for unit, y in rows.unit.items():
        picture.text(LEFT - 8, y + lanes.of_unit[unit] * rows.lane() / 2 + 4, fitting(unit, NAMES - 8, 12), 12, BLACK,
                     "end")
    for bus, (y, height) in rows.bus.items():
        picture.text(LEFT - 8, y + height / 2 + 4, fitting(bus, NAMES - 8, 12), 12, BLUE, "end")


def extra_of(origins: Origins) -> int:
    """How much wider the column of lines is than that of numbers alone, for lines with the file of a block."""
    files = [len(origin.where()) for origin in origins.values() if origin.file]
    return max(files, default=0) * LETTER


def draw_table(picture: Picture, plan: Plan, origins: Origins, left: float) -> None:
    """The nodes in a table: the line and the element that each comes from, and what it does."""
    y, extra = HEAD + ROW, extra_of(origins)
    for column, words, anchor in ((TABLE_LEFT, "node", "end"), (LINE_RIGHT + extra, "line", "end"),
                                  (ELEMENT_LEFT + extra, "element", "start"),
                                  (OPERATION_LEFT + extra, "operation", "start")):
        picture.text(left + column, y, words, 10, BLUE, anchor)
    for node in plan.nodes:
        y += ROW
        origin = origins[node.number]
        picture.text(left + TABLE_LEFT, y, str(node.number), 10, BLACK, "end")
        picture.text(left + LINE_RIGHT + extra, y, origin.where(), 10, BLACK, "end")
        picture.text(left + extra + ELEMENT_LEFT, y, fitting(origin.element, OPERATION_LEFT - ELEMENT_LEFT - 4, 10), 10,
                     BLACK, "start")
        picture.text(left + extra + OPERATION_LEFT, y, fitting(node.words(), TABLE_WIDTH - OPERATION_LEFT, 10), 10,
                     BLACK, "start")


def draw_key(picture: Picture, view: View, y: float, has_ports: bool) -> None:
    """What the boxes mean, and below that their colours where these tell stages or samples apart."""
    (fill, name), *_ = view.key
    result = "a result on a bus" + ", and the ports that take it" * has_ports
    picture.box(MARGIN, y, 16, 14, PAPER if name else fill)
    picture.text(MARGIN + 24, y + 11, "an operation, over the cycles of its latency", 11, BLACK, "start")
    picture.box(MARGIN + SECOND, y, 16, 14, PAPER, BLUE)
    picture.text(MARGIN + SECOND + 24, y + 11, result, 11, BLACK, "start")
    for place, (fill, name) in enumerate(view.key if name else ()):
        picture.box(MARGIN + place * KEY, y + KEY_LINE, 16, 14, fill)
        picture.text(MARGIN + place * KEY + 24, y + KEY_LINE + 11, name, 11, BLACK, "start")


def hardware_of(plan: Plan, datapath: dict[str, Any] | None) -> tuple[list[str], list[str]]:
    """The units and the buses of a datapath file, or else those that a plan names."""
    if datapath:
        return [unit["name"] for unit in datapath["unit"]], [bus["name"] for bus in datapath["bus"]]
    return (list(dict.fromkeys(node.unit for node in plan.nodes)),
            list(dict.fromkeys(transfer.bus for node in plan.nodes for transfer in node.transfers)))


class Lines:
    """The lines of columns of a view, one below the other."""

    def __init__(self, view: View, units: list[str], buses: list[str], has_elements: bool) -> None:
        self.view, self.lanes = view, Lanes(view.bars, units)
        self.columns = Columns(view.columns, WIDTH // view.width, set().union(*(bar.columns() for bar in view.bars)))
        bar = BAR + ELEMENT * has_elements if is_wide(self.columns) else LOW_BAR
        self.rows: dict[int, Rows] = {}
        self.bottom: float = HEAD
        for start in self.columns.lines:
            top = self.bottom + (LABELS if view.period else NUMBERS)
            self.rows[start] = Rows(top, self.lanes, buses, view.results, self.columns, start, bar)
            self.bottom = self.rows[start].bottom + BETWEEN

    def draw(self, picture: Picture, origins: Origins) -> None:
        view, columns = self.view, self.columns
        marks = range(0, view.columns + 1, view.period) if view.period else ()
        for start, rows in self.rows.items():
            if view.period:
                columns.draw_periods(picture, start, rows.top, view.period, "period")
            columns.draw_grid(picture, start, rows.top, rows.bottom, marks)
            draw_names(picture, rows, self.lanes)
            draw_nodes(picture, view.bars, columns, start, rows, self.lanes, origins)
            draw_transfers(picture, view.results, columns, start, rows)


def draw_view(view: View, plan: Plan, datapath: dict[str, Any] | None, origins: Origins) -> str:
    lines = Lines(view, *hardware_of(plan, datapath), bool(origins))
    left = max(lines.columns.width, LEAST_WIDTH)
    width, bottom = left + (TABLE_WIDTH + extra_of(origins) if origins
                            else 0), lines.bottom + FOOT + KEY_LINE * (len(view.key) > 1)
    height = max(bottom, HEAD + ROW * (len(plan.nodes) + 2)) if origins else bottom
    picture = Picture(width, height, f"schedule: {view.said}")
    picture.text(MARGIN, 28, "; ".join(filter(None, [view.said, lines.columns.omitted()])), 13, BLACK, "start")
    lines.draw(picture, origins)
    draw_key(picture, view, lines.bottom, is_wide(lines.columns))
    if origins:
        draw_table(picture, plan, origins, left)
    return picture.whole()


def draw_schedule(plan: Plan, datapath: dict[str, Any] | None = None,
                  origins: Origins | None = None) -> str:
    """The picture of a plan, on the units of a datapath file; over several stages these are folded into one period.
    With the origins of its nodes it has their elements and a table."""
    return draw_view(view_of(plan), plan, datapath, origins or {})


def draw_unfolded(plan: Plan, datapath: dict[str, Any] | None = None) -> str:
    """The picture of some samples of a plan, each a period later than the one before."""
    return draw_view(unfolded(plan), plan, datapath, {})
