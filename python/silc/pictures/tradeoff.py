"""The trade-off of an exploration: bits of registers over the period, a panel for each number of units and of stages, a
colour for each number of buses."""
import math
from collections.abc import Callable

from silc.exploring.trades import MISFITS, Trade
from silc.pictures.axes import numbers_over
from silc.pictures.picture import BLACK, BLUE, FAINT, GREY, MARGIN, ORANGE, PAPER, Picture
from silc.sure import sure

PANEL, TALL, LEFT, BETWEEN, HEAD, FOOT, ACROSS = 300, 230, 44, 70, 96, 50, 3
COLOURS = (BLUE, ORANGE, "#009e73", "#cc79a7", "#e69f00", "#56b4e9", BLACK)
MARKS = 6
DOT, FRONT_DOT, MISS_DOT = 1.6, 4.5, 2.5
KEY = 92
WIDE, MEGA = 560, 1e6


def marks_of(low: float, high: float) -> list[int]:
    """Round numbers over an axis, a few of them."""
    return numbers_over(low, high, MARKS, 1)


class Panel:
    """A pair of axes, the same in all panels."""

    def __init__(self, number: int, periods: list[int], registers: list[int]) -> None:
        self.left = MARGIN + LEFT + number % ACROSS * (PANEL + BETWEEN)
        self.top = HEAD + number // ACROSS * (TALL + HEAD)
        self.periods, self.registers = periods, registers

    def x(self, period: float) -> float:
        return self.left + (period - self.periods[0]) * PANEL / max(1, self.periods[-1] - self.periods[0])

    def y(self, registers: float) -> float:
        return self.top + TALL - (registers - self.registers[0]) * TALL / max(1, self.registers[-1] - self.registers[0])

    def draw(self, picture: Picture, title: str) -> None:
        picture.text(self.left, self.top - 28, title, 12, BLACK, "start")
        picture.text(self.left - 8, self.top - 10, "bits of registers", 10, BLACK, "start")
        picture.text(self.left + PANEL, self.top + TALL + 30, "cycles of a period", 10, BLACK, "end")
        for period in self.periods:
            picture.line(self.x(period), self.top, self.x(period), self.top + TALL, FAINT, 1)
            picture.text(self.x(period), self.top + TALL + 15, str(period), 10)
        for registers in self.registers:
            picture.line(self.left, self.y(registers), self.left + PANEL, self.y(registers), FAINT, 1)
            picture.text(self.left - 6, self.y(registers) + 4, str(registers), 10, BLACK, "end")


def staircase(panel: Panel, trades: list[Trade]) -> list[tuple[float, float]]:
    """The line below which no combination is: the least bits of registers that are enough in each period."""
    least: int | None = None
    points: list[tuple[float, float]] = []
    for period, bits in sorted((trade.period, sure(trade.register_bits)) for trade in trades):
        if least is None or bits < least:
            points += [] if least is None else [(panel.x(period), panel.y(least))]
            least = bits
            points.append((panel.x(period), panel.y(least)))
    return [*points, (panel.left + PANEL, panel.y(sure(least)))]


def said_of(trade: Trade) -> str:
    """A combination in words: its costs and the number of each range."""
    ranges = ", ".join(f"{name} {number}" for name, number in trade.choice.items() if name != "period")
    return (f"period {trade.period}, {trade.units} units, {trade.buses} buses, {trade.registers} registers "
            f"of {trade.register_bits} bits, memories of {trade.cell_bits} bits"
            + (f": {ranges}" if ranges else ""))


def draw_panel(picture: Picture, panel: Panel, trades: list[Trade], colours: dict[int, str]) -> None:
    """The points of one number of units, with those of fewer buses above the others, and those of the front larger."""
    for buses in sorted({trade.buses for trade in trades}, reverse=True):
        picture.curve(staircase(panel, [trade for trade in trades if trade.buses == buses]), colours[buses], 1.5)
    shown = {}
    for trade in sorted(trades, key=lambda trade: (trade.is_on_front, -trade.buses)):
        shown[trade.period, trade.register_bits, trade.buses, trade.is_on_front] = trade
    for trade in shown.values():
        is_large = trade.is_on_front
        picture.dot(panel.x(trade.period), panel.y(sure(trade.register_bits)), colours[trade.buses],
                    FRONT_DOT if is_large else DOT, said_of(trade) if is_large else "")


def panel_of(trade: Trade) -> tuple[int, int]:
    """What a panel is for: a number of units, and of stages where there are some."""
    return trade.units, trade.stages()


def title_of(units: int, stages: int) -> str:
    return f"{units} units" + (f", {stages} stage{'s' if stages > 1 else ''}" if stages else "")


def draw_tradeoff(trades: list[Trade]) -> str:
    fit = [trade for trade in trades if trade.fits()]
    said = f"{len(trades)} combinations, of which {len(fit)} fit"
    numbers = sorted(set(map(panel_of, trades)))
    periods = marks_of(min((trade.period for trade in fit), default=0), max((trade.period for trade in fit), default=1))
    bits = [sure(trade.register_bits) for trade in fit]
    registers = marks_of(min(bits, default=0), max(bits, default=1))
    lines = -(-len(numbers) // ACROSS)
    colours = colours_of(trades)
    width = 2 * MARGIN + LEFT + min(len(numbers), ACROSS) * (PANEL + BETWEEN) - BETWEEN
    picture = Picture(max(width, 620), HEAD + lines * (TALL + HEAD) - HEAD // 2 + FOOT, f"trade-off: {said}")
    picture.text(MARGIN, 28, said, 13, BLACK, "start")
    for number, shown in enumerate(numbers):
        of_panel = [trade for trade in trades if panel_of(trade) == shown]
        fitting = [trade for trade in of_panel if trade.fits()]
        panel = Panel(number, periods, registers)
        panel.draw(picture, f"{title_of(*shown)}: {len(fitting)} fit, {len(of_panel) - len(fitting)} do not")
        draw_panel(picture, panel, fitting, colours)
    draw_key(picture, colours, HEAD + lines * (TALL + HEAD) - HEAD // 2 + 20, any(stages for _, stages in numbers))
    return picture.whole()


def draw_key(picture: Picture, colours: dict[int, str], y: float, has_stages: bool) -> None:
    for number, (buses, colour) in enumerate(colours.items()):
        picture.dot(MARGIN + 6 + number * KEY, y - 4, colour)
        picture.text(MARGIN + 16 + number * KEY, y, f"{buses} buses", 11, BLACK, "start")
    picture.text(MARGIN + 16 + len(colours) * KEY, y, "(the fewest that fit at a place)", 11, BLACK, "start")
    picture.dot(MARGIN + 6, y + 16, GREY, FRONT_DOT)
    costs = "buses, bits or stages" if has_stages else "buses or bits"
    words = f"on the Pareto front: no other has less of period, units, {costs} and no more of the rest"
    picture.text(MARGIN + 16, y + 20, words, 11, BLACK, "start")


def draw_noise(trades: list[Trade]) -> str:
    """The noise of the combinations that fit over the bits of their registers, a colour for each number of buses."""
    fit = [trade for trade in trades if trade.fits() and trade.noise is not None]
    said = f"{len(trades)} combinations, of which {len(fit)} fit: noise beside the signal in dB, over bits of registers"
    bits = [sure(trade.register_bits) for trade in fit]
    registers = marks_of(min(bits, default=0), max(bits, default=1))
    noises = [trade.noise for trade in fit if trade.noise is not None]
    levels = marks_of(math.floor(min(noises, default=-1)), math.ceil(max(noises, default=0)))
    picture = Picture(2 * MARGIN + LEFT + WIDE, HEAD + TALL + FOOT, said)
    picture.text(MARGIN, 28, said, 13, BLACK, "start")
    colours = colours_of(trades)
    place = axes_over(picture, registers, levels)
    for trade in sorted(fit, key=lambda trade: trade.is_on_front):
        words = f"{trade.noise:.1f} dB, {said_of(trade)}" if trade.is_on_front else ""
        radius = FRONT_DOT if trade.is_on_front else DOT
        picture.dot(*place(sure(trade.register_bits), sure(trade.noise)), colours[trade.buses], radius, words)
    draw_buses(picture, colours)
    return picture.whole()


def draw_clock(front: list[Trade], rate: float) -> str:
    """The clock that the core of each combination on the front reaches over its period, a colour for each number of
    buses, and the line of the clock that so many samples a second take. A dot in grey is a core that is too slow, one
    at the foot a core that does not fit its part."""
    cores = [(trade, trade.area) for trade in front if trade.area]
    slow = sum(bool(area.mark()) for _, area in cores)
    said = (f"{len(cores)} cores on the front, of which {len(cores) - slow} serve {rate:,.10g} samples a second: "
            "MHz over cycles of a period")
    periods = marks_of(min((trade.period for trade in front), default=0), max((trade.period for trade in front),
                                                                              default=1))
    needed = [rate * period / MEGA for period in (periods[0], periods[-1])]
    clocks = marks_of(0, max([needed[1], *(area.clock or 0 for _, area in cores)]))
    picture = Picture(2 * MARGIN + LEFT + WIDE, HEAD + TALL + FOOT, said)
    picture.text(MARGIN, 28, said, 13, BLACK, "start")
    place = axes_over(picture, periods, clocks)
    picture.curve([place(period, clock) for period, clock in zip((periods[0], periods[-1]), needed)], ORANGE, 1.5,
                  title=f"{rate:,.10g} samples a second")
    colours = colours_of(front)
    for trade, area in cores:
        mark = area.mark()
        at = f"{area.clock:g} of {area.needed:g} MHz, " if area.clock is not None and area.needed is not None else ""
        picture.dot(*place(trade.period, area.clock or 0), GREY if mark else colours[trade.buses], FRONT_DOT,
                    f"{mark + ': ' if mark else ''}{at}{said_of(trade)}")
        if mark and mark != MISFITS:
            picture.dot(*place(trade.period, area.clock or 0), PAPER, MISS_DOT)
    draw_buses(picture, colours)
    picture.dot(MARGIN + 6 + len(colours) * KEY, 48, GREY, FRONT_DOT)
    picture.dot(MARGIN + 6 + len(colours) * KEY, 48, PAPER, MISS_DOT)
    picture.text(MARGIN + 16 + len(colours) * KEY, 52, "too slow, below the line; at the foot what does not fit", 11,
                 BLACK, "start")
    return picture.whole()


def colours_of(trades: list[Trade]) -> dict[int, str]:
    """A colour for each number of buses."""
    return {buses: COLOURS[k % len(COLOURS)] for k, buses in enumerate(sorted({trade.buses for trade in trades}))}


def draw_buses(picture: Picture, colours: dict[int, str]) -> None:
    """What each colour says."""
    for number, (buses, colour) in enumerate(colours.items()):
        picture.dot(MARGIN + 6 + number * KEY, 48, colour)
        picture.text(MARGIN + 16 + number * KEY, 52, f"{buses} buses", 11, BLACK, "start")


def axes_over(picture: Picture, across: list[int], levels: list[int]) -> Callable[[float, float], tuple[float, float]]:
    """The axes of a picture, and where a number across and a level stand."""
    left, top = MARGIN + LEFT, HEAD

    def place(number: float, level: float) -> tuple[float, float]:
        return (left + (number - across[0]) * WIDE / max(1, across[-1] - across[0]),
                top + (levels[-1] - level) * TALL / max(1, levels[-1] - levels[0]))

    for number in across:
        picture.line(place(number, levels[0])[0], top, place(number, levels[0])[0], top + TALL, FAINT, 1)
        picture.text(place(number, levels[0])[0], top + TALL + 15, str(number), 10)
    for level in levels:
        picture.line(left, place(across[0], level)[1], left + WIDE, place(across[0], level)[1], FAINT, 1)
        picture.text(left - 6, place(across[0], level)[1] + 4, str(level), 10, BLACK, "end")
    return place
