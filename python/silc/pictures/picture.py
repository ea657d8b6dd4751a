"""An SVG picture that is made line by line, and its colours."""
from collections.abc import Iterable
from html import escape
from typing import TypeAlias

# Points of a curve.
Points: TypeAlias = Iterable[tuple[float, float]]

# Colours that a colour-blind reader can tell apart (those of Okabe and Ito, and tints of them).
BLACK, BLUE, ORANGE, GREY, FAINT, PAPER = "#222222", "#0072b2", "#d55e00", "#999999", "#dddddd", "#ffffff"
SKY, YELLOW, AMBER, GREEN = "#b5dcf5", "#f8f2a8", "#f3bd77", "#8ccbb2"
FILLS = {"in": SKY, "out": SKY, "rom": YELLOW, "alu": AMBER, "mul": AMBER, "sel": AMBER, "ram": GREEN, "acu": GREEN}
FONT = "font-family='DejaVu Sans, Arial, sans-serif'"
COLUMN, MARGIN, GAP, LABELS = 46, 24, 22, 64
# How wide a character is at most in the mean, as a share of the size of its text.
CHARACTER = 0.62


def fitting(words: str, width: float, size: float) -> str:
    """The words, or so much of their beginning as fits into a width."""
    most = max(1, int(width / (CHARACTER * size)))
    return words if len(words) <= most else words[: most - 1] + "…"


def size_in(words: str, width: float, most: int) -> int:
    """The size at which the words fit into a width, up to the most that is wanted."""
    return min(most, int(width / (CHARACTER * len(words))))


class Picture:
    """An SVG picture that is made line by line."""

    def __init__(self, width: float, height: float, title: str) -> None:
        size = f"width='{width}' height='{height}'"
        self.lines = [f"<svg xmlns='http://www.w3.org/2000/svg' viewBox='0 0 {width} {height}' {size}>",
                      f"<title>{escape(title)}</title>", f"<rect {size} fill='{PAPER}'/>"]

    def text(self, x: float, y: float, words: str, size: float = 12, colour: str = BLACK,
             anchor: str = "middle") -> None:
        self.lines.append(f"<text x='{x:g}' y='{y:g}' font-size='{size}' fill='{colour}' text-anchor='{anchor}' {FONT}>"
                          f"{escape(words)}</text>")

    def box(self, x: float, y: float, width: float, height: float, fill: str, colour: str = BLACK,
            title: str = "") -> None:
        named = f"><title>{escape(title)}</title></rect>" if title else "/>"
        self.lines.append(f"<rect x='{x:g}' y='{y:g}' width='{width:g}' height='{height:g}' rx='3' fill='{fill}' "
                          f"stroke='{colour}'{named}")

    def line(self, x1: float, y1: float, x2: float, y2: float, colour: str = BLACK, width: float = 1.5) -> None:
        self.lines.append(f"<line x1='{x1:g}' y1='{y1:g}' x2='{x2:g}' y2='{y2:g}' stroke='{colour}' "
                          f"stroke-width='{width}'/>")

    def curve(self, points: Points, colour: str, width: float, dashes: str = "", title: str = "") -> None:
        self.curves([points], colour, width, dashes, title)

    def curves(self, runs: Iterable[Points], colour: str, width: float, dashes: str = "", title: str = "") -> None:
        """A curve in parts, with nothing between them."""
        path = " ".join("M" + " L".join(f"{x:.1f} {y:.1f}" for x, y in points) for points in runs)
        named = f"><title>{escape(title)}</title></path>" if title else "/>"
        self.lines.append(f"<path d='{path}' fill='none' stroke='{colour}' stroke-width='{width}' "
                          f"stroke-dasharray='{dashes or 'none'}'{named}")

    def dot(self, x: float, y: float, colour: str, radius: float = 4, title: str = "") -> None:
        named = f"><title>{escape(title)}</title></circle>" if title else "/>"
        self.lines.append(f"<circle cx='{x:g}' cy='{y:g}' r='{radius}' fill='{colour}'{named}")

    def arrow(self, x: float, y: float, down: bool, colour: str) -> None:
        tip, base = (y, y - 7) if down else (y, y + 7)
        self.lines.append(f"<path d='M{x - 4:g} {base:g} L{x + 4:g} {base:g} L{x:g} {tip:g} Z' fill='{colour}'/>")

    def pointer(self, x: float, y: float, height: float, colour: str, title: str) -> None:
        """A triangle whose tip points to the right, to x, in the middle of the height."""
        self.lines.append(f"<path d='M{x - 5:g} {y:g} L{x - 5:g} {y + height:g} L{x:g} {y + height / 2:g} Z' "
                          f"fill='{colour}'>"
                          f"<title>{escape(title)}</title></path>")

    def whole(self) -> str:
        return "\n".join([*self.lines, "</svg>"])
