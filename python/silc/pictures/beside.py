"""Two pictures side by side in one."""
import re

from silc.pictures.picture import PAPER

SIZE = re.compile(r"<svg xmlns='[^']*' viewBox='0 0 (\S+) (\S+)' width='[^']*' height='[^']*'>")


def size_of(picture: str) -> tuple[float, float]:
    found = SIZE.match(picture)
    if not found:
        raise ValueError("it is no picture of a width and a height")
    return float(found[1]), float(found[2])


def beside(left: str, right: str) -> str:
    """A picture of two, each as it is by itself."""
    (width, height), (more, other) = size_of(left), size_of(right)
    size = f"width='{width + more:g}' height='{max(height, other):g}'"
    return "\n".join([f"<svg xmlns='http://www.w3.org/2000/svg' viewBox='0 0 {width + more:g} {max(height, other):g}' "
                      f"{size}>", f"<rect {size} fill='{PAPER}'/>", left,
                      right.replace("<svg ", f"<svg x='{width:g}' ", 1), "</svg>"])
