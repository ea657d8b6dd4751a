"""One plain source of a source that uses blocks.

A block is put in once for each set of its numbers. Where the source itself gives it a name it has that; else it is
called by the rule BLOCK_NAMEnumber_.., as onepole_W16_F15. What else is in a block's file has the name FUNCTION_NAME.
Where such a name is taken, _2, _3 .. stands behind it, and so it is with a signal of a block that has the name of a
function or a table.
"""
from __future__ import annotations

import re
from collections.abc import Iterable, Iterator, Mapping, Sequence
from contextlib import contextmanager
from dataclasses import dataclass, field
from difflib import get_close_matches
from fractions import Fraction
from hashlib import sha256
from pathlib import PurePath

from silc.linking.blocks import ENDING, Block, Library, Source, Use, told
from silc.linking.numbers import Numbers, shown
from silc.linking.places import COMMENT, KEYWORDS, NAME, File, Unlinked, blanked
from silc.linking.traced import Piece, Traced, joined, of_file

DIGITS = 16
MAIN = "main"
# What stands between the parts of a linked source.
BETWEEN = "\n"
MARK = re.compile(r"/\* from (?P<file>\S+):(?P<line>\d+): .* \*/")
HEAD = re.compile(r"/\* linked from (?P<files>.*?); do not edit \*/ ?")
SAFE = re.compile(r"[^\w.+-]", re.A)


@dataclass(frozen=True)
class Setting:
    """A block with its numbers."""
    block: Block
    given: tuple[tuple[str, Fraction], ...]

    def numbers(self) -> dict[str, Fraction]:
        return dict(self.given)

    def rule_name(self) -> str:
        """The name that it has where nobody names it."""
        numbers = [name + shown(number).replace("-", "m").replace(".", "p") for name, number in self.given]
        return "_".join([self.block.name, *numbers])

    def __str__(self) -> str:
        return f"{self.block.name}<{told(self.numbers())}>" if self.given else self.block.name


@dataclass
class Placed:
    """A setting in a linked source: the names of its file that have others there, what it uses under which name, and
    the `use` of the source that brought it in."""
    setting: Setting
    name: str
    uses: Mapping[str, Setting]
    by: Use
    renamed: dict[str, str] = field(default_factory=dict)


@dataclass(frozen=True)
class Part:
    """A function or a table of a block in a linked source: where the comment before it begins, and where it does
    itself."""
    marked_at: int
    at: int
    placed: Placed


@dataclass(frozen=True)
class Linked:
    """A linked source: its text, the source that it is of, the numbers of that, and the parts of blocks in it."""
    traced: Traced
    source: Source
    numbers: Numbers
    parts: Sequence[Part]
    # What else is called in it: the second name of a block with the same numbers, and a block that is taken by itself.
    same: Mapping[str, str]

    @property
    def text(self) -> str:
        return self.traced.text

    @property
    def main(self) -> File:
        return self.source.file

    @property
    def blocks(self) -> list[Block]:
        """The blocks in it, each once."""
        return blocks_of(part.placed for part in self.parts)

    def part_at(self, place: int) -> Part | None:
        """The part of a block that a place of the text is in; nothing where it is in the source itself."""
        return next((part for part in reversed(self.parts) if part.at <= place), None)


class Linker:
    """Links one source."""

    def __init__(self, library: Library, main: Source, numbers: Numbers | None = None) -> None:
        self.library, self.main = library, main
        self.numbers = main.numbers(numbers)
        self.placed: dict[Setting, Placed] = {}
        self.uses: dict[str, Setting] = {}
        for use in main.uses:
            with led_by(use):
                self.uses[use.name] = self.setting_of(main, use, self.numbers, (), use)
        for use in main.uses:
            if use.name in KEYWORDS or main.declares(use.name):
                raise main.file.fault(use.at, f"{use.name} is the name of a function or a table of this file")
        self.taken = main.file.names() | {use.name for use in main.uses}
        self.same: dict[str, str] = {}
        self.name_all()

    # Which blocks with which numbers

    def setting_of(self, source: Source, use: Use, numbers: Numbers, chain: tuple[str, ...], by: Use) -> Setting:
        """The setting of a `use`, which one of the source led to. What it uses itself is placed before it."""
        block = self.block_of(source, use, chain)
        given = {name: source.number(text, numbers, use.at) for name, text in use.given.items()}
        for name in given:
            if all(let.name != name for let in block.lets):
                has = ", ".join(let.name for let in block.lets) or "none"
                raise source.file.fault(use.at, f"the block {use.block} has no number {name}; its own are {has}")
        setting = Setting(block, tuple(values_in(source, use, block, given).items()))
        if setting not in self.placed:
            uses = {inner.name: self.setting_of(block, inner, setting.numbers(), (*chain, use.block), by)
                    for inner in block.uses}
            self.placed[setting] = Placed(setting, "", uses, by)
        return setting

    def block_of(self, source: Source, use: Use, chain: tuple[str, ...]) -> Block:
        if use.block in chain:
            way = " -> ".join([*chain[chain.index(use.block):], use.block])
            raise source.file.fault(use.at, f"the block {use.block} uses itself: {way}")
        block = self.library.block(use.block)
        if block is None:
            near = get_close_matches(use.block, self.library.names(), n=3)
            raise source.file.fault(use.at, f"there is no block {use.block}"
                                    + (f"; near it: {', '.join(near)}" if near else ""))
        return block

    # Names

    def name_all(self) -> None:
        for use in self.main.uses:
            place = self.placed[self.uses[use.name]]
            place.name = place.name or use.name
            if place.name != use.name:
                self.same[use.name] = place.name
        for place in self.placed.values():
            place.name = place.name or self.fresh(place.setting.rule_name())
        for place in self.placed.values():
            self.name_own(place)
        top = {declared.name for declared in self.main.declared} | {use.name for use in self.main.uses}
        top |= {name for place in self.placed.values() for name in self.tops(place)}
        for place in self.placed.values():
            self.name_signals(place, top)

    def fresh(self, name: str) -> str:
        """The name, or the first behind it with a number that is free, which is then taken."""
        made = first_free(name, self.taken)
        self.taken.add(made)
        return made

    def name_own(self, place: Placed) -> None:
        block = place.setting.block
        for declared in block.declared:
            if declared.name == block.name:
                place.renamed[declared.name] = place.name
            elif declared.name != MAIN:
                place.renamed[declared.name] = self.fresh(f"{place.name}_{declared.name}")
        for name, setting in place.uses.items():
            if block.declares(name):
                at = next(use.at for use in block.uses if use.name == name)
                raise block.file.fault(at, f"{name} is the name of a function or a table of this file")
            place.renamed[name] = self.placed[setting].name

    def tops(self, place: Placed) -> list[str]:
        """The names of functions and tables that a block brings."""
        return [place.renamed[declared.name] for declared in place.setting.block.declared if declared.name != MAIN]

    def name_signals(self, place: Placed, top: set[str]) -> None:
        own = place.setting.block.file.names()
        for name in sorted((own & top) - set(place.renamed)):
            place.renamed[name] = first_free(name, own | top | set(place.renamed.values()))

    # Text

    def linked(self) -> Linked:
        files = [self.main.file, *(block.file for block in blocks_of(self.placed.values()))]
        texts = [joined([head_of(files), self.main_text()])]
        parts, length = [], len(texts[0])
        for place in self.placed.values():
            for mark, text in self.texts(place):
                length += len(BETWEEN)
                parts.append(Part(length, length + len(mark), place))
                texts.append(joined([mark, text]))
                length += len(texts[-1])
        return Linked(joined(texts, BETWEEN), self.main, self.numbers, parts, self.same)

    def main_text(self) -> Traced:
        """The source itself, each line where it was, with its head as comments and numbers in the place of braces."""
        file, parts, at = self.main.file, [], 0
        for statement in self.main.head:
            comment = commented(file.text[statement.at:statement.end])
            parts += [of_file(file, at, statement.at), Traced([Piece(comment, file, statement.at, statement.end)])]
            at = statement.end
        body = self.main.filled(self.main.body, len(file.text), self.numbers)
        text = joined([*parts, with_names(body, self.same)])
        return text if text.text.endswith("\n") else joined([text, "\n"])

    def texts(self, place: Placed) -> Iterator[tuple[str, Traced]]:
        """The functions and tables of a block, each with a comment of where it is from."""
        block = place.setting.block
        for declared in block.declared:
            if declared.name != MAIN:
                mark = f"/* from {base_of(block.file)}:{block.file.line_of(declared.at)}: {place.setting} */\n"
                with led_by(place.by):
                    text = block.filled(declared.at, declared.end, place.setting.numbers())
                yield mark, joined([with_names(text, place.renamed), "\n"])


@contextmanager
def led_by(use: Use) -> Iterator[None]:
    """A fault in this keeps where the `use` of the source stands that led to it."""
    try:
        yield
    except Unlinked as fault:
        fault.by = use.at
        raise


def blocks_of(placed: Iterable[Placed]) -> list[Block]:
    """The blocks of settings, each once, by their names."""
    blocks = {place.setting.block.name: place.setting.block for place in placed}
    return [blocks[name] for name in sorted(blocks)]


def values_in(source: Source, use: Use, block: Block, given: Numbers) -> dict[str, Fraction]:
    """The numbers of a block. One that is out of its range is told where it is used."""
    try:
        return block.numbers(given)
    except Unlinked as fault:
        raise source.file.fault(use.at, f"{use.block}: {fault.text} ({base_of(block.file)}:{fault.line})") from fault


def first_free(name: str, taken: set[str]) -> str:
    number = 2
    made = name
    while made in taken or made in KEYWORDS:
        made, number = f"{name}_{number}", number + 1
    return made


def commented(text: str) -> str:
    """A statement of the head as a comment, on as many lines."""
    return f"/* {COMMENT.sub('', text)} */" if "\n" not in text else "\n" * text.count("\n")


def with_names(text: Traced, names: Mapping[str, str]) -> Traced:
    """The text with other names outside its comments."""
    pieces, at = [], 0
    for found in NAME.finditer(blanked(text.text)):
        if found[0] in names:
            pieces += [*text.within(at, found.start()), text.written(*found.span(), names[found[0]])]
            at = found.end()
    return Traced([*pieces, *text.within(at, len(text))])


def base_of(file: File) -> str:
    """The name of a file without its folder, as a word of a comment."""
    return SAFE.sub("_", PurePath(file.name).name)


def sum_of(file: File) -> str:
    return sha256(file.content).hexdigest()[:DIGITS]


def head_of(files: Sequence[File]) -> str:
    return f"/* linked from {', '.join(f'{base_of(file)} {sum_of(file)}' for file in files)}; do not edit */ "


def link(library: Library, main: Source, numbers: Numbers | None = None) -> Linked:
    """The plain source of one that uses blocks, or `Unlinked`."""
    return Linker(library, main, numbers).linked()


def alone(library: Library, setting: Setting) -> Linked:
    """A block by itself as a program: its own `main`, by which it is tried, or its function in the place of one."""
    block = setting.block
    linker = Linker(library, block, setting.numbers())
    if not block.has_main():
        linker.same[block.name] = MAIN
    return linker.linked()


def place_of(text: str, line: int, main: str) -> tuple[str, int]:
    """The file and the line that a line of a linked source is from."""
    found = main, line
    for number, one in enumerate(text.split("\n")[:line], 1):
        mark = MARK.fullmatch(one)
        if mark:
            found = mark["file"], int(mark["line"]) + line - number - 1
    return found


__all__ = ["ENDING", "Linked", "Linker", "Setting", "alone", "link", "place_of"]
