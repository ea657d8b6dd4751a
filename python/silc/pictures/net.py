"""The processors of a net from left to right, with the words that each takes and puts, and below them the queues."""
import tomllib
from dataclasses import dataclass
from pathlib import Path

from silc.nets import Net
from silc.pictures.picture import AMBER, BLACK, BLUE, CHARACTER, MARGIN, ORANGE, SKY, YELLOW, Picture

TOP, HEAD, LINE, PAD, TEXT = 56, 58, 17, 10, 11
LEAST_WIDTH, LEAST_GAP, LANE, STEP, ARROW = 120, 40, 34, 14, 34
# A queue is drawn with so many places at most, and the number of a longer one stands beside it.
CELL, MOST_CELLS, NUMBER = 9, 8, 20


class Box:
    """A processor, or the net's row: its head, the words that it takes, each behind its wire, and those that it
    puts."""

    def __init__(self, name: str, notes: list[str], taken: list[str], put: list[str], fill: str) -> None:
        self.name, self.notes, self.taken, self.put, self.fill = name, notes, taken, put, fill
        self.width = max(LEAST_WIDTH, 2 * PAD + max(map(width_of, [name, *taken, *put])))
        self.height = HEAD + (len(taken) + len(put)) * LINE + (2 * PAD if taken else PAD)
        self.x = 0.0


@dataclass(frozen=True)
class Lane:
    """What leads from one box to another: the names of the words that are read there, and whether it is a queue."""
    start: int
    end: int
    words: str
    is_queue: bool


def width_of(text: str) -> float:
    return len(text) * CHARACTER * TEXT


def boxes_of(net: Net) -> list[Box]:
    """The net's row, and then the processors."""
    boxes = [Box("the net's row", [], [], [f"in.{word}  {of}" for word, of in enumerate(net.types)], YELLOW)]
    for number, (processor, ports) in enumerate(zip(net.file.processors, net.ports)):
        period = tomllib.loads(Path(net.placed(processor.dp)).read_text())["period"]
        boxes.append(Box(f"{number}  {Path(processor.src).name}",
                         [Path(processor.dp).name, f"{period} cycles a sample"],
                         [f"{wire}  {port}" for wire, port in zip(processor.feed, ports.inputs)],
                         [f"{number}.{word}  {port}" for word, port in enumerate(ports.outputs)], AMBER))
    return boxes


def lanes_of(net: Net) -> list[Lane]:
    """The ways of the net's row, and then the queues. The net's row is box 0."""
    def words(reader: int, producer: int | None) -> str:
        names = [f"in.{word}" for word in range(net.file.inputs)] if producer is None else \
            [port.name for port in net.ports[producer].outputs]
        wires = [wire for wire in net.file.processors[reader].feed if wire.processor == producer]
        return ", ".join(dict.fromkeys(names[wire.word] for wire in wires))

    rows = [Lane(0, reader + 1, words(reader, None), False) for reader in range(len(net.ports)) if words(reader, None)]
    return rows + [Lane(producer + 1, reader + 1, words(reader, producer), True)
                   for producer, reader in net.file.queues()]


def queue_width(net: Net, lane: Lane) -> float:
    cells = min(net.file.capacity, MOST_CELLS) * CELL if lane.is_queue else 0
    return cells + (NUMBER if cells and net.file.capacity > MOST_CELLS else 0)


def rows_for(lanes: list[Lane]) -> dict[Lane, int]:
    """The row of each lane: the first one in which those before it leave room."""
    rows: list[list[Lane]] = []
    placed = {}
    for lane in lanes:
        free = (row for row, others in enumerate(rows)
                if all(lane.start >= one.end or lane.end <= one.start for one in others))
        row = next(free, len(rows))
        if row == len(rows):
            rows.append([])
        rows[row].append(lane)
        placed[lane] = row
    return placed


def draw_box(picture: Picture, box: Box, height: float) -> None:
    picture.box(box.x, TOP, box.width, height, box.fill)
    picture.text(box.x + box.width / 2, TOP + 19, box.name, 13)
    for row, note in enumerate(box.notes):
        picture.text(box.x + box.width / 2, TOP + 34 + 13 * row, note, 10)
    y = TOP + HEAD + LINE - 4
    for texts, colour in ((box.taken, BLUE), (box.put, ORANGE)):
        for text in texts:
            picture.text(box.x + PAD, y, text, TEXT, colour, "start")
            y += LINE
        y += PAD if texts else 0


def draw_queue(picture: Picture, x: float, y: float, capacity: int) -> None:
    """A queue whose last place ends at x."""
    cells = min(capacity, MOST_CELLS)
    for cell in range(cells):
        picture.box(x - (cell + 1) * CELL, y - CELL, CELL, 2 * CELL, SKY, BLACK, f"a queue of {capacity} rows")
    if capacity > MOST_CELLS:
        picture.text(x - cells * CELL - 4, y - 6, str(capacity), 10, BLACK, "end")


def draw_lanes(picture: Picture, net: Net, boxes: list[Box], foot: float) -> None:
    lanes = lanes_of(net)
    for lane, row in rows_for(lanes).items():
        y = foot + LANE * (row + 1)
        start, end = boxes[lane.start], boxes[lane.end]
        x1 = start.x + start.width - PAD - STEP * [one for one in lanes if one.start == lane.start].index(lane)
        x2 = end.x + PAD + STEP * [one for one in lanes if one.end == lane.end].index(lane)
        picture.line(x1, foot, x1, y, ORANGE)
        picture.line(x1, y, x2, y)
        picture.line(x2, y, x2, foot, BLUE)
        picture.dot(x1, y, ORANGE)
        picture.arrow(x2, foot + 1, False, BLUE)
        if lane.is_queue:
            draw_queue(picture, end.x + PAD - STEP / 2, y, net.file.capacity)
        picture.text(x1 + 8, y - 6, lane.words, TEXT, BLACK, "start")


def draw_key(picture: Picture, y: float) -> None:
    x = float(MARGIN)
    for colour, words in ((BLUE, "words that a processor takes, each behind its wire"), (ORANGE, "words that it puts")):
        picture.dot(x + 4, y - 4, colour)
        picture.text(x + 16, y, words, TEXT, BLACK, "start")
        x += 36 + width_of(words)
    picture.box(x, y - 4 - CELL, CELL, 2 * CELL, SKY)
    picture.text(x + 16, y, "a place of a queue, for a row", TEXT, BLACK, "start")


def place(net: Net, boxes: list[Box]) -> float:
    """Sets the boxes side by side, as far apart as the words between neighbours need. Gives the right side of the
    last."""
    between = [width_of(lane.words) + queue_width(net, lane) for lane in lanes_of(net) if lane.end == lane.start + 1]
    gap, x = max([LEAST_GAP, *between]), float(MARGIN)
    for box in boxes:
        box.x = x
        x += box.width + gap
    return x - gap


def draw_net(net: Net) -> str:
    boxes, lanes = boxes_of(net), lanes_of(net)
    right, height = place(net, boxes), max(box.height for box in boxes)
    foot = TOP + height
    key = foot + LANE * (max(rows_for(lanes).values()) + 1) + 44
    out = "the rows of the net"
    picture = Picture(right + PAD + width_of(out) + MARGIN, key + 24, "net")
    rows = "a row" if net.file.capacity == 1 else f"{net.file.capacity} rows"
    picture.text(MARGIN, 28, f"{Path(net.name).name}: each queue has room for {rows}", 13, BLACK, "start")
    draw_lanes(picture, net, boxes, foot)
    for box in boxes:
        draw_box(picture, box, height)
    picture.line(right, TOP + height / 2, right + ARROW, TOP + height / 2, ORANGE)
    picture.pointer(right + ARROW + 4, TOP + height / 2 - 5, 10, ORANGE, out)
    picture.text(right + PAD, TOP + height / 2 - 10, out, TEXT, BLACK, "start")
    draw_key(picture, key)
    return picture.whole()
