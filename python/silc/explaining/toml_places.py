"""Where the keys and values of a TOML text stand, a key on a line."""
import re
from dataclasses import dataclass
from typing import Any, TypeAlias

# A TOML file as Python reads it, or a table of one.
Tree: TypeAlias = dict[str, Any]
# Which table of a file: its name, and its number among those of this name.
TablePlace: TypeAlias = tuple[str, int]
# From which character to which.
Extent: TypeAlias = tuple[int, int]
# A text among the values of a key: at how many equal ones it comes, and the text.
Item: TypeAlias = tuple[int, str]

HEADER = re.compile(r"[ \t]*\[\[?[ \t]*([\w\".]+)[ \t]*\]\]?")
# The mark of UTF-8, a character for each byte.
BYTE_ORDER_MARK = "\xef\xbb\xbf"
ENTRY = re.compile(r"[ \t]*(\"[^\"\n]*\"|'[^'\n]*'|[\w-]+)[ \t]*=[ \t]*")


@dataclass
class Place:
    """Where an entry stands: its key, and its value up to the next entry."""
    key: Extent
    value: Extent


class Places:
    """The entries of each table, and the headers of the tables, by the places of their characters."""

    def __init__(self, chars: str) -> None:
        self.chars = chars
        self.entries: dict[tuple[TablePlace, str], Place] = {}
        self.headers: dict[TablePlace, Extent] = {}
        self.start = len(BYTE_ORDER_MARK) if chars.startswith(BYTE_ORDER_MARK) else 0
        starts = [self.start, *(found.end() for found in re.finditer("\n", chars))]
        table: TablePlace = ("top", 0)
        counts: dict[str, int] = {}
        marks: list[tuple[int, tuple[TablePlace, re.Match[str]] | None]] = []
        for start in starts:
            header, entry = HEADER.match(chars, start), ENTRY.match(chars, start)
            if header and not entry:
                name = header[1].strip('"')
                table = name, counts.get(name, 0)
                counts[name] = table[1] + 1
                self.headers[table] = header.start(), header.end()
                marks.append((start, None))
            elif entry:
                marks.append((start, (table, entry)))
        for (_, made), (end, _) in zip(marks, [*marks[1:], (len(chars), None)]):
            if made:
                table, entry = made
                value = re.sub(r"\s+$", "", re.sub(r"(?m)[ \t]*#[^\"'\n]*$", lambda c: " " * len(c[0]),
                                                   chars[entry.end():end]))
                self.entries[table, entry[1].strip("\"'")] = Place(entry.span(1),
                                                                   (entry.end(), entry.end() + len(value)))

    def key(self, table: TablePlace, key: str) -> Extent | None:
        place = self.entries.get((table, key))
        return place.key if place else self.headers.get((key, 0)) or self.headers.get(table)

    def elsewhere(self, key: str, table: TablePlace) -> list[tuple[TablePlace, Extent]]:
        """The tables other than one in which a key stands, each with its place."""
        return [(other, place.key) for (other, name), place in self.entries.items() if name == key and other != table]

    def value(self, table: TablePlace, key: str, item: Item | None = None) -> Extent | None:
        """The place of a value, or of one text in it."""
        place = self.entries.get((table, key))
        if place is None:
            return self.headers.get(table)
        if item is not None:
            number, text = item
            found = [m.span() for m in re.finditer(re.escape(f'"{text}"') + "|" + re.escape(f"'{text}'"),
                                                   self.chars[:place.value[1]])
                     if m.start() >= place.value[0]]
            if found:
                return found[min(number, len(found) - 1)]
        return place.value
