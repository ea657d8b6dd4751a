"""Sources with a head of `let` and `use`, and the library of such files that are blocks."""
from __future__ import annotations

import re
from collections.abc import Iterator, Mapping, Sequence
from dataclasses import dataclass
from fractions import Fraction
from pathlib import Path

from silc.linking.numbers import NoNumber, Numbers, Range, number_of, parts_of, shown, written
from silc.linking.places import KEYWORDS, NAME, STATEMENT, File, Unlinked, file_at
from silc.linking.traced import Piece, Traced
from silc.programs import in_checkout

LET = re.compile(r"\s*(?P<name>\w+)\s*=\s*(?P<number>.*?)(?:\s+in\s(?P<range>.*))?", re.S | re.A)
USE = re.compile(r"\s*(?P<block>\w+)\s*(?:<(?P<given>[^<>]*)>)?\s*(?:\bas\s+(?P<name>\w+))?\s*", re.S | re.A)
GIVEN = re.compile(r"\s*(?P<name>\w+)\s*=(?P<number>.*)", re.S | re.A)
DECLARATION = re.compile(r"\b(?P<word>func|const)\s+(?P<name>\w+)", re.A)
BRACES = re.compile(r"\{([^{}]*)\}")
DOC = re.compile(r"[ \t]*/\*\s*(.*?)\s*\*/")
ENDING = ".sil"


@dataclass(frozen=True)
class Let:
    """A name for a number: its text, the text of its range where it has one, its line of doc, and where it stands."""
    name: str
    number: str
    range: str | None
    doc: str
    at: int


@dataclass(frozen=True)
class Use:
    """A block under a name, the text of each of its numbers, and where it stands and ends."""
    block: str
    given: Mapping[str, str]
    name: str
    at: int
    end: int


@dataclass(frozen=True)
class Declared:
    """A function or a table of a file, from its word to its end."""
    name: str
    at: int
    end: int
    is_function: bool


@dataclass(frozen=True)
class Statement:
    """A line of the head: where it begins and ends."""
    at: int
    end: int


class Source:
    """A file with a head of `let` and `use`."""

    def __init__(self, file: File) -> None:
        self.file = file
        self.lets: list[Let] = []
        self.uses: list[Use] = []
        self.head: list[Statement] = []
        at = 0
        while found := STATEMENT.match(file.code, at):
            at = self.read(found)
        self.body = at
        self.declared = list(declared_in(file, at))

    def read(self, found: re.Match[str]) -> int:
        """Reads a statement, and gives the place behind it."""
        start = found.start("word")
        if not found["end"]:
            raise self.file.fault(start, f"`;` is missing after this {found['word']}")
        self.head.append(Statement(start, found.end()))
        if found["word"] == "let":
            self.lets.append(self.let(found["rest"], start, found.end()))
        else:
            self.uses.append(self.use(found["rest"], start, found.end()))
        return found.end()

    def let(self, text: str, at: int, end: int) -> Let:
        found = LET.fullmatch(text)
        if not found or not found["number"]:
            raise self.file.fault(at, "this is no `let NAME = NUMBER;` or `let NAME = NUMBER in RANGE;`")
        if any(let.name == found["name"] for let in self.lets):
            raise self.file.fault(at, f"two numbers have the name {found['name']}")
        doc = DOC.match(self.file.text, end)
        return Let(found["name"], found["number"].strip(), found["range"] and found["range"].strip(),
                   " ".join(doc[1].split()) if doc else "", at)

    def use(self, text: str, at: int, end: int) -> Use:
        found = USE.fullmatch(text)
        if not found:
            raise self.file.fault(at, "this is no `use BLOCK;` or `use BLOCK<NAME=NUMBER, ..> as NAME;`")
        name = found["name"] or found["block"]
        if name in KEYWORDS or not NAME.fullmatch(name):
            raise self.file.fault(at, f"{name} is no name for a function")
        if any(use.name == name for use in self.uses):
            raise self.file.fault(at, f"two blocks have the name {name}")
        return Use(found["block"], self.given(found["given"], at), name, at, end)

    def given(self, text: str | None, at: int) -> dict[str, str]:
        made: dict[str, str] = {}
        for part in parts_of(text) if text and text.strip() else []:
            found = GIVEN.fullmatch(part)
            if not found:
                raise self.file.fault(at, f"`{part.strip()}` is no `NAME=NUMBER`")
            if found["name"] in made:
                raise self.file.fault(at, f"{found['name']} is given twice")
            made[found["name"]] = found["number"].strip()
        return made

    def declares(self, name: str) -> bool:
        return any(declared.name == name for declared in self.declared)

    def numbers(self, given: Numbers | None = None) -> dict[str, Fraction]:
        """The number of each `let`: the given one, or else its own."""
        numbers: dict[str, Fraction] = {}
        for let in self.lets:
            number = given[let.name] if given and let.name in given else self.number(let.number, numbers, let.at)
            self.look_at(let, number, numbers)
            numbers[let.name] = number
        return numbers

    def look_at(self, let: Let, number: Fraction, numbers: Numbers) -> None:
        allowed = self.range(let, numbers)
        if allowed is not None and number not in allowed:
            raise self.file.fault(let.at, f"{let.name} = {shown(number)} is not in {allowed}")

    def range(self, let: Let, numbers: Numbers) -> Range | None:
        try:
            return Range(let.range, numbers) if let.range else None
        except NoNumber as fault:
            raise self.file.fault(let.at, f"the range of {let.name}: {fault}") from fault

    def number(self, text: str, numbers: Numbers, at: int) -> Fraction:
        try:
            return number_of(text, numbers)
        except NoNumber as fault:
            raise self.file.fault(at, f"`{text}`: {fault}") from fault

    def filled(self, start: int, end: int, numbers: Numbers) -> Traced:
        """A part of the text with numbers in the place of braces, but for comments, and each line where it was."""
        pieces, at = [], start
        for found in BRACES.finditer(self.file.code, start, end):
            try:
                number = written(found[1], numbers)
            except NoNumber as fault:
                raise self.file.fault(found.start(), f"`{found[0]}`: {fault}", found.end()) from fault
            pieces += [Piece(self.file.text[at:found.start()], self.file, at, found.start()),
                       Piece(number + "\n" * found[0].count("\n"), self.file, found.start(), found.end())]
            at = found.end()
        return Traced([*pieces, Piece(self.file.text[at:end], self.file, at, end)])


def declared_in(file: File, at: int) -> Iterator[Declared]:
    """The functions and tables of a file. Their words begin nothing else."""
    found = list(DECLARATION.finditer(file.code, at))
    for this, end in zip(found, [*(other.start() for other in found[1:]), len(file.code)]):
        whole = this.start() + len(file.code[this.start():end].rstrip())
        yield Declared(this["name"], this.start(), whole, this["word"] == "func")


class Block(Source):
    """A source whose function of its own name is put into others."""

    def __init__(self, name: str, file: File) -> None:
        super().__init__(file)
        self.name = name
        if not any(declared.name == name and declared.is_function for declared in self.declared):
            raise file.fault(0, f"it has no function that is called {name}")

    def has_main(self) -> bool:
        return self.declares("main")

    def corners(self) -> list[dict[str, Fraction]]:
        """The numbers at all ends of all ranges, a range after the other, as its ends may depend on those before."""
        made: list[dict[str, Fraction]] = [{}]
        for let in self.lets:
            made = [numbers | {let.name: end} for numbers in made for end in self.ends(let, numbers)]
        return list({tuple(numbers.items()): numbers for numbers in made}.values())

    def ends(self, let: Let, numbers: Numbers) -> list[Fraction]:
        allowed = self.range(let, numbers)
        if allowed is None:
            return [self.number(let.number, numbers, let.at)]
        ends = allowed.ends()
        if not ends:
            raise self.file.fault(let.at, f"{let.name} has no number where {told(numbers)}")
        return ends


def told(numbers: Numbers) -> str:
    """Numbers with their names, as a `use` gives them."""
    return ", ".join(f"{name}={shown(number)}" for name, number in numbers.items())


class Library:
    """The folders in which blocks are looked for, one after another. What an editor has of a file, by its whole name,
    counts before what is there."""

    def __init__(self, folders: Sequence[str | Path] = (), has_own: bool = True,
                 edited: Mapping[Path, bytes] | None = None) -> None:
        self.folders = [Path(folder) for folder in folders] + ([Path(in_checkout("library"))] if has_own else [])
        self.edited = edited or {}
        self.blocks: dict[str, Block] = {}

    def names(self) -> list[str]:
        return sorted({file.stem for folder in self.folders for file in folder.glob(f"*{ENDING}")})

    def block(self, name: str) -> Block | None:
        """The block of a name, or nothing."""
        if name not in self.blocks:
            path = next((path for path in self.paths(name) if path.is_file()), None)
            if path is None:
                return None
            self.blocks[name] = Block(name, self.file(path))
        return self.blocks[name]

    def file(self, path: Path) -> File:
        content = self.edited.get(path.resolve()) if self.edited else None
        return file_at(path) if content is None else File(str(path), content)

    def paths(self, name: str) -> list[Path]:
        return [folder / f"{name}{ENDING}" for folder in self.folders]


__all__ = ["Block", "Declared", "Let", "Library", "Source", "Unlinked", "Use", "told"]
