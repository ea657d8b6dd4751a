"""Changes of a datapath: in words, on what was read of its file, and as edits of the file's text."""
import itertools
import json
from collections.abc import Iterable, Sequence
from dataclasses import dataclass
from typing import Any, TypeAlias

from silc.explaining.report import listed
from silc.explaining.text import Edit, Text
from silc.explaining.toml_places import Places, Tree

TOP = "top"


def shown(value: object) -> str:
    """A value as TOML has it."""
    return json.dumps(value)


@dataclass(frozen=True)
class Key:
    """A value that is written for a key of a table."""
    kind: str
    number: int
    key: str
    value: object

    def words(self, tree: Tree) -> str:
        line = f"`{self.key} = {shown(self.value)}`"
        return line if self.kind == TOP else f"{line} for `{tree[self.kind][self.number]['name']}`"

    def made(self, tree: Tree) -> Tree:
        if self.kind == TOP:
            return {self.key: self.value} | tree | {self.key: self.value}
        return tree | {self.kind: [table | {self.key: self.value} if number == self.number else table
                                   for number, table in enumerate(tree[self.kind])]}

    def edits(self, tree: Tree, text: Text, places: Places) -> list[Edit] | None:
        table = (self.kind, self.number)
        entry = places.entries.get((table, self.key))
        if entry:
            start, end = entry.value
            return [text.edit(start, end, shown(self.value))]
        is_there = self.key in (tree if self.kind == TOP else tree[self.kind][self.number])
        if is_there or self.kind != TOP:
            return None
        return [text.edit(places.start, places.start, f"{self.key} = {shown(self.value)}\n")]


@dataclass(frozen=True)
class Ends:
    """Units or ports that a bus gets too."""
    bus: int
    key: str
    ends: tuple[str, ...]

    def words(self, _: object) -> str:
        return f"{listed(f'`{shown(end)}`' for end in self.ends)} to `{self.key}`"

    def made(self, tree: Tree) -> Tree:
        listing = tree["bus"][self.bus][self.key]
        return Key("bus", self.bus, self.key, [*listing, *self.ends]).made(tree)

    def edits(self, tree: Tree, text: Text, places: Places) -> list[Edit] | None:
        entry = places.entries.get((("bus", self.bus), self.key))
        if entry is None:
            return None
        start, end = entry.value
        said = text.chars[start:end]
        inside = said.removesuffix("]").rstrip()
        if "#" in said or not said.endswith("]") or inside.endswith(","):
            whole = Key("bus", self.bus, self.key, [*tree["bus"][self.bus][self.key], *self.ends])
            return whole.edits(tree, text, places)
        lead = "" if inside == "[" else ", "
        return [text.edit(start + len(inside), start + len(inside), lead + ", ".join(map(shown, self.ends)))]


@dataclass(frozen=True)
class Table:
    """A unit or a bus that is added, as pairs of a key and a value."""
    kind: str
    keys: tuple[tuple[str, Any], ...]

    def words(self, _: object) -> str:
        return ", ".join([f"`[[{self.kind}]]`", *(f"`{key} = {shown(value)}`" for key, value in self.keys)])

    def made(self, tree: Tree) -> Tree:
        return tree | {self.kind: [*tree[self.kind], {key: list(value) if isinstance(value, tuple) else value
                                                      for key, value in self.keys}]}

    def edits(self, _: object, text: Text, places: Places) -> list[Edit] | None:
        if (self.kind, 0) not in places.headers:
            return None
        end = len(text.chars)
        lead = "" if text.chars.endswith("\n") else "\n"
        lines = [f"[[{self.kind}]]", *(f"{key} = {shown(value)}" for key, value in self.keys)]
        return [text.edit(end, end, lead + "\n".join(lines) + "\n")]


# A change of a datapath.
Change: TypeAlias = Key | Ends | Table


def made(changes: Iterable[Change], tree: Tree) -> Tree:
    """The datapath with some changes."""
    for change in changes:
        tree = change.made(tree)
    return tree


def merged(changes: Iterable[Change], tree: Tree) -> list[Change]:
    """The changes with one for all ends that a bus gets, and with those of a bus that is added in its table."""
    count = len(tree["bus"])
    tables: list[Key | Table] = []
    ends: dict[tuple[int, str], list[str]] = {}
    for change in changes:
        if isinstance(change, Ends):
            ends.setdefault((change.bus, change.key), []).extend(change.ends)
        else:
            tables.append(change)
    buses = itertools.count(count)
    whole: list[Key | Table] = []
    for change in tables:
        if isinstance(change, Table) and change.kind == "bus":
            number = next(buses)
            change = Table("bus",
                           tuple((key, (*value, *ends.pop((number, key), ())) if key in ("from", "to") else value)
                                 for key, value in change.keys))
        whole.append(change)
    return [*whole, *(Ends(bus, key, tuple(added)) for (bus, key), added in ends.items())]


def told(changes: Sequence[Change], tree: Tree) -> str:
    """The changes as a clause: what is added, and what is written."""
    tables = [change.words(tree) for change in changes if isinstance(change, Table)]
    keys = [change.words(tree) for change in changes if isinstance(change, Key)]
    buses: dict[int, list[str]] = {}
    for change in changes:
        if isinstance(change, Ends):
            buses.setdefault(change.bus, []).append(change.words(tree))
    ends = [f"{listed(words)} of the bus `{tree['bus'][bus]['name']}`" for bus, words in buses.items()]
    clauses = ["add " + "; ".join(tables)] if tables else []
    clauses += ["add " + ", ".join(ends)] if ends else []
    clauses += ["write " + listed(keys)] if keys else []
    return "; and ".join(clauses)


def edits_of(changes: Iterable[Change], tree: Tree, text: Text, places: Places) -> list[Edit]:
    """The changes as edits of the file; none where its tables are written in another way than a key a line."""
    edits: list[Edit] = []
    for change in changes:
        found = change.edits(tree, text, places)
        if found is None:
            return []
        edits += found
    # What is added at the end of the file is one edit, since several at one place have no order.
    last = [edit for edit in edits if edit.length == 0 and edit.text.lstrip("\n").startswith("[[")]
    rest = [edit for edit in edits if edit not in last]
    if not last:
        return rest
    first = last[0]
    text_of_all = first.text + "".join(edit.text.lstrip("\n") for edit in last[1:])
    return [*rest, type(first)(first.file, first.line, first.column, 0, text_of_all)]
