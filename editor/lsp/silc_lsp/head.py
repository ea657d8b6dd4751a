"""The head of a source that is to be linked, its lines `let` and `use`, and the numbers in braces behind it: what
stands at a place, and what may be written there. Places are those of bytes. A head is read as far as one has typed
it."""
import re
from collections.abc import Iterator
from dataclasses import dataclass

from silc.linking.blocks import BRACES, GIVEN, Block, Let, Library, Source, Use
from silc.linking.numbers import NoNumber, number_of, shown
from silc.linking.places import COMMENT, NAME, STATEMENT, File, Unlinked, blanked

# What one is typing, up to the place: a block, one of its numbers, the number of one, a name in braces.
IN_BLOCK = re.compile(r"\s*use\s+\w*", re.A)
IN_GIVEN = re.compile(r"\s*use\s+(?P<block>\w+)\s*<(?P<given>(?:[^=;]*=[^,;]*,)*)\s*\w*", re.A)
IN_NUMBER = re.compile(r"\s*(?:use\s+\w+\s*<[^;]*=|let\s+\w+\s*=)[^,;>]*", re.A)
IN_BRACES = re.compile(r".*\{[^{}]*", re.S)
OF_BLOCK = re.compile(r"\s*use\s+(?P<block>\w+)", re.A)


@dataclass(frozen=True)
class Named:
    """What is said of a part of the text: a line of code, and a sentence on it; and where that is declared."""
    start: int
    end: int
    code: str
    doc: str = ""
    file: File | None = None
    at: int = 0


@dataclass(frozen=True)
class Offer:
    """What may be written at a place: a block, or a number."""
    name: str
    detail: str
    doc: str
    is_block: bool = False


def doc_of(block: Block) -> str:
    """The first paragraph of the comment that a block begins with, in a line."""
    found = COMMENT.match(block.file.text)
    text = found[0].removeprefix("/*").removesuffix("*/") if found else ""
    return " ".join(re.split(r"\n\s*\n", text)[0].split())


def call_of(block: Block) -> str:
    """The head of a block's function, as it is written."""
    declared = next(one for one in block.declared if one.name == block.name)
    return " ".join(re.split(r"=\s*begin\b", block.file.text[declared.at:declared.end])[0].split())


def let_told(let: Let) -> str:
    return f"let {let.name} = {let.number}" + (f" in {let.range}" if let.range else "")


class Head:
    """The head of a source and its braces."""

    def __init__(self, file: File, library: Library) -> None:
        self.file, self.library = file, library
        try:
            self.source: Source | None = Source(file)
        except Unlinked:
            # As it is while one types.
            self.source = None

    def block(self, name: str) -> Block | None:
        try:
            return self.library.block(name)
        except (Unlinked, OSError):
            return None

    # What stands there

    def told(self, at: int) -> Named | None:
        """What is said of the name at a place."""
        found = next((found for found in NAME.finditer(self.file.code) if found.start() <= at <= found.end()), None)
        if self.source is None or found is None:
            return None
        for use in self.source.uses:
            if use.at <= found.start() < use.end:
                return self.told_in_use(use, found)
        if found.start() < self.source.body or self.is_in_braces(found.start()):
            return self.told_number(self.source, found)
        return None

    def is_in_braces(self, at: int) -> bool:
        return any(found.start() < at < found.end() for found in BRACES.finditer(self.file.code))

    def told_in_use(self, use: Use, found: re.Match[str]) -> Named | None:
        """What is said of a name in a `use`: the block, one of its numbers, or a number of the source."""
        block = self.block(use.block)
        before = self.file.code[use.at:found.start()]
        if block is None or before.strip() == "":
            return None
        if before.strip() == "use" or re.search(r"\bas\s+\Z", before):
            at = next(one.at for one in block.declared if one.name == block.name)
            return Named(*found.span(), call_of(block), doc_of(block), block.file, at)
        let = next((let for let in block.lets if let.name == found[0]), None)
        if let and re.match(r"\s*=", self.file.code[found.end():]):
            return Named(*found.span(), let_told(let), let.doc, block.file, let.at)
        return self.told_number(self.source, found)

    def told_number(self, source: Source, found: re.Match[str]) -> Named | None:
        """What is said of the name of a number: its value, and where it is said how it is made."""
        let = next((let for let in source.lets if let.name == found[0]), None)
        if let is None:
            return None
        try:
            value = shown(source.numbers()[let.name])
        except (Unlinked, NoNumber):
            value = let.number
        code = f"{let.name} = {value}" + ("" if value == let.number else f" = {let.number}")
        return Named(*found.span(), code + (f" in {let.range}" if let.range else ""), let.doc, source.file, let.at)

    # What may be written there

    def offers(self, at: int) -> list[Offer] | None:
        """What may be written at a place; nothing where it is neither in the head nor in braces."""
        code = blanked(self.file.text[:at])
        head = self.head_before(code)
        if head is None:
            return list(self.numbers()) if IN_BRACES.fullmatch(code) else None
        if IN_BLOCK.fullmatch(head):
            return list(self.blocks())
        given = IN_GIVEN.fullmatch(head)
        if given:
            return list(self.givens(given["block"], given["given"]))
        return list(self.numbers()) if IN_NUMBER.fullmatch(head) else []

    def head_before(self, code: str) -> str | None:
        """The line of the head that one is typing at the end of a text, or nothing where that is behind the head."""
        at = 0
        while (found := STATEMENT.match(code, at)) and found["end"]:
            at = found.end()
        rest = code[at:]
        return rest if re.match(r"\s*(?:let|use)\b", rest) else None

    def blocks(self) -> Iterator[Offer]:
        for name in self.library.names():
            block = self.block(name)
            if block:
                yield Offer(name, call_of(block), doc_of(block), True)

    def givens(self, name: str, text: str) -> Iterator[Offer]:
        """The numbers of a block that are not given yet."""
        given = {found["name"] for part in text.split(",") if (found := GIVEN.fullmatch(part))}
        block = self.block(name)
        for let in block.lets if block else ():
            if let.name not in given:
                yield Offer(let.name, let_told(let), let.doc)

    def numbers(self) -> Iterator[Offer]:
        """The numbers of the source, which may not be whole yet."""
        numbers: dict = {}
        for found in re.finditer(r"\blet\s+(\w+)\s*=\s*([^;{}]*?)(?:\s+in\s[^;]*)?;", self.file.code, re.A):
            try:
                numbers[found[1]] = number_of(found[2], numbers)
                yield Offer(found[1], f"{found[1]} = {shown(numbers[found[1]])}", "")
            except NoNumber:
                yield Offer(found[1], f"{found[1]} = {found[2]}", "")
