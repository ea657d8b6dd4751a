"""The crates of crates.txt from the lowest on the left to the programs on the right, and what stands on what."""
from collections.abc import Iterator
from typing import TypeAlias

from silc.crates import Crates as Edges
from silc.crates import dependencies
from silc.pictures.picture import AMBER, BLACK, BLUE, GREEN, MARGIN, SKY, YELLOW, Picture

# What stands in a column: a crate, or where an edge goes by between the columns of its two crates.
Point: TypeAlias = str | tuple[tuple[str, str], int]

BOX, ROW, STEP, TEXT, CHARACTER = 22, 34, 160, 11, 6.9
SWEEPS, POINTS = 24, 12
# What a crate is coloured by: the first of its parts that stands on these, or it is one of them.
GROUPS = [({"silc_main", "silc_tests", "silc_show", "silc"}, SKY, "the commands"),
          ({"planner", "plan_core", "microcode_asm", "plan_soundness"}, GREEN, "plans"),
          ({"micro_image"}, YELLOW, "the machine"),
          ({"silage_lex", "fault_order"}, AMBER, "sources")]
PLAIN = "#ffffff"


def reached(crates: Edges) -> dict[str, set[str]]:
    """All crates below each one."""
    below: dict[str, set[str]] = {}
    for name in crates:
        below[name] = set(crates[name]).union(*(below[other] for other in crates[name]))
    return below


def direct(crates: Edges) -> Edges:
    """What each crate stands on, without what follows from the rest."""
    below = reached(crates)
    return {name: [other for other in others if not any(other in below[more] for more in others)]
            for name, others in crates.items()}


def columns_of(edges: Edges) -> dict[str, int]:
    """The column of each crate: as far to the right as what stands on it allows."""
    first: dict[str, int] = {}
    for name, others in edges.items():
        first[name] = 1 + max((first[other] for other in others), default=-1)
    last = max(first.values())
    column: dict[str, int] = {}
    for name in reversed(edges):
        above = [column[other] for other in edges if name in edges[other]]
        column[name] = min(above) - 1 if above else last
    return column


def chains_of(edges: Edges, column: dict[str, int]) -> Iterator[list[Point]]:
    """Each edge as the points that it goes through, one a column. Points between crates are pairs with the column."""
    for name, others in edges.items():
        for other in others:
            between = [((other, name), at) for at in range(column[other] + 1, column[name])]
            yield [other, *between, name]


def first_column(chain: list[Point], column: dict[str, int]) -> int:
    """The column of the crate that a chain begins with."""
    return column[str(chain[0])]


def ordered(chains: list[list[Point]], column: dict[str, int]) -> dict[int, list[Point]]:
    """The points of each column from top to bottom, with few crossings: each near the middle of its neighbours."""
    found: dict[int, dict[Point, None]] = {}
    for chain in chains:
        for at, point in enumerate(chain, first_column(chain, column)):
            found.setdefault(at, {}).setdefault(point)
    rows = {at: list(points) for at, points in sorted(found.items())}
    beside: dict[tuple[Point, int], list[Point]] = {}
    for chain in chains:
        for one, other in zip(chain, chain[1:]):
            beside.setdefault((other, -1), []).append(one)
            beside.setdefault((one, 1), []).append(other)
    for sweep in range(SWEEPS):
        way = -1 if sweep % 2 == 0 else 1
        for at in sorted(rows, reverse=way == 1):
            place = {point: (row + 0.5) / len(rows[at + way]) for row, point in enumerate(rows.get(at + way, []))}
            own = {point: (row + 0.5) / len(rows[at]) for row, point in enumerate(rows[at])}
            middle = {point: sum((place[other] for other in beside.get((point, way), [])), 0.0) for point in rows[at]}
            count = {point: len(beside.get((point, way), [])) for point in rows[at]}
            rows[at].sort(key=lambda point: middle[point] / count[point] if count[point] else own[point])
    return rows


def colour_of(name: str, below: dict[str, set[str]]) -> str:
    for members, colour, _ in GROUPS:
        if members & (below[name] | {name}) and (colour != SKY or name in members):
            return colour
    return PLAIN


def smooth(points: list[tuple[float, float]]) -> list[tuple[float, float]]:
    """A curve through points that leaves and reaches each of them level."""
    made = []
    for (x1, y1), (x2, y2) in zip(points, points[1:]):
        for step in range(POINTS + 1):
            t = step / POINTS
            made.append((x1 + (x2 - x1) * t, y1 + (y2 - y1) * t * t * (3 - 2 * t)))
    return made


def draw_crates(text: str) -> str:
    crates = dependencies(text)
    edges, below = direct(crates), reached(crates)
    column = columns_of(edges)
    chains = list(chains_of(edges, column))
    rows = ordered(chains, column)
    most = max(len(points) for points in rows.values())
    height, width = most * ROW, (max(rows) + 1) * STEP
    place = {(at, point): (MARGIN + at * STEP, MARGIN + (row + 0.5) * height / len(points))
             for at, points in rows.items() for row, point in enumerate(points)}
    picture = Picture(width + MARGIN, height + 2 * MARGIN + ROW, "the crates, and what stands on what")
    for chain in chains:
        points = [place[at, point] for at, point in enumerate(chain, first_column(chain, column))]
        ends = [(points[0][0] + BOX + CHARACTER * len(chain[0]), points[0][1]), *points[1:]]
        picture.curve(smooth(ends), BLUE, 1, title=f"{chain[-1]} stands on {chain[0]}")
    for name, at in column.items():
        x, y = place[at, name]
        picture.box(x, y - BOX / 2, BOX + CHARACTER * len(name), BOX, colour_of(name, below))
        picture.text(x + BOX / 2, y + 4, name, TEXT, BLACK, "start")
    for number, (_, colour, words) in enumerate(GROUPS):
        x, y = MARGIN + number * STEP, height + 2 * MARGIN
        picture.box(x, y, BOX, BOX / 2, colour)
        picture.text(x + BOX + 8, y + BOX / 2, words, TEXT, BLACK, "start")
    return picture.whole()
