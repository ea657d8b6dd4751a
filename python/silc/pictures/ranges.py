"""The bits of each element as a bar: those that its words needed, and those that it has."""
from collections.abc import Sequence

from silc.pictures.picture import AMBER, BLACK, BLUE, FAINT, MARGIN, ORANGE, Picture

NAMES, BIT, TALL, HEAD, WORDS = 190, 16, 20, 70, 170
# A bar ends here, however many bits are needed.
MOST_BITS = 64


def draw_ranges(elements: Sequence[tuple[str, int, int, str]]) -> str:
    """A picture of elements, each a name, the bits that it has and needed, and words beside it."""
    most = min(MOST_BITS, max(max(bits, needed) for _, bits, needed, _ in elements))
    width, height = MARGIN + NAMES + BIT * most + WORDS + MARGIN, HEAD + TALL * len(elements) + MARGIN
    picture = Picture(width, height, "bits that the elements have and need")
    left = MARGIN + NAMES
    picture.text(MARGIN, 28, "bits that each element has, and of these (filled) those that its words need", 13, BLACK,
                 "start")
    for bit in range(0, most + 1, 4):
        picture.line(left + BIT * bit, HEAD - 8, left + BIT * bit, height - MARGIN, FAINT, 1)
        picture.text(left + BIT * bit, HEAD - 14, str(bit), 10)
    for number, (name, bits, needed, words) in enumerate(elements):
        y = HEAD + TALL * number
        picture.text(left - 8, y + 13, name, 11, BLACK, "end")
        colour = ORANGE if needed > bits else AMBER
        picture.box(left, y + 2, BIT * min(needed, most), TALL - 6, colour, "none", f"{name} needs {needed} bits")
        picture.line(left + BIT * bits, y, left + BIT * bits, y + TALL - 2, BLUE, 2.5)
        picture.text(left + BIT * most + 10, y + 13, words, 10, BLACK, "start")
    return picture.whole()
