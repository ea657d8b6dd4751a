"""Sources as texts: their types, and the same source with other ones."""
import re
from collections.abc import Callable, Iterator

from silc.designing.shapes import WIDEST, Shape

COMMENT = re.compile(r"/\*.*?(?:\*/|\Z)", re.S)
TYPE = re.compile(r"\bfix(\s*)<(\s*)(\d+)(\s*),(\s*)(\d+)")
MAIN = re.compile(r"\bfunc\s+main\s*\((.*?)\)\s*(\(.*?\)|[^=]*)=\s*begin\b", re.S)
DECLARED = re.compile(r"\w+\s*((?:\[\s*\d+\s*\]\s*)*):\s*(?:fix\s*<\s*(\d+)\s*,\s*(\d+)[^>]*>|bool)")


def outside_comments(source: str, change: Callable[[str], str]) -> str:
    """The source with a change to what is no comment."""
    parts, place = [], 0
    for comment in COMMENT.finditer(source):
        parts += [change(source[place : comment.start()]), comment[0]]
        place = comment.end()
    return "".join([*parts, change(source[place:])])


def with_types(source: str, changed: Callable[[Shape], Shape]) -> str:
    """The source with the shape that `changed` makes of each shape in it."""
    def replaced(found: re.Match[str]) -> str:
        first, second, width, third, fourth, places = found.groups()
        shape = changed(Shape(int(width), int(places)))
        return f"fix{first}<{second}{shape.width}{third},{fourth}{shape.places}"
    return outside_comments(source, lambda text: TYPE.sub(replaced, text))


def widened(source: str) -> str:
    """The same program with words of the greatest width."""
    return with_types(source, lambda shape: Shape(WIDEST, shape.places))


def words_of_main(source: str) -> tuple[list[Shape | None], list[Shape | None]]:
    """The shape of each input word and of each output word of `main`, `None` for a truth value."""
    found = MAIN.search(COMMENT.sub(" ", source))
    if not found:
        raise ValueError("it has no main")
    inputs, outputs = found.groups()
    return list(words_declared(inputs)), list(words_declared(outputs))


def words_declared(text: str) -> Iterator[Shape | None]:
    for dims, width, places in DECLARED.findall(text):
        count = 1
        for dim in re.findall(r"\d+", dims):
            count *= int(dim)
        yield from [Shape(int(width), int(places)) if width else None] * count
