"""A source as its names are read: as it stands there, or as it is linked, with places in both."""
from pathlib import Path

from silc.explaining.text import Text
from silc.linking.places import File
from silc.linking.told import Told
from silc_lsp.document import Document
from silc_lsp.head import doc_of
from silc_lsp.names import FUNCTION, Names, Symbol, Token


class View:
    """A source that is read as it stands there."""

    def __init__(self, uri: str, document: Document):
        self.uri, self.document, self.names = uri, document, Names(document.text)

    def offset(self, at: int) -> int | None:
        """The place in what is read of a place of the document."""
        return at

    def place(self, start: int, end: int) -> dict:
        """A part of what is read, as the protocol has it."""
        return {"uri": self.uri, "range": self.document.range(start, end)}

    def of(self, token: Token) -> dict:
        return self.place(token.start, token.end)

    def source_text(self) -> Text:
        """What is read, as the tools read it."""
        return self.document.source_text()

    def byte(self, offset: int | None) -> int | None:
        """The byte of what is read at a place of it."""
        return None if offset is None else document_bytes(self.document, offset)

    def byte_place(self, start: int, end: int) -> dict:
        """The range between two bytes of what is read."""
        return byte_range(self.document, start, end)

    def words(self, text: str) -> str:
        """What is said of a name, as the document has it."""
        return text

    def told(self, symbol: Symbol, token: Token) -> str:
        """What the name at a token is."""
        return symbol.told()

    def doc(self, symbol: Symbol) -> str:
        """The sentence on a block, where a name is one."""
        return ""

    def is_own(self, symbol: Symbol) -> bool:
        """Whether a name is declared in the document."""
        return True

    def is_named(self, symbol: Symbol) -> bool:
        """Whether the document may name what is declared for all."""
        return True

    def same(self) -> list[str]:
        """Names of the document for functions that have another one too."""
        return []


class LinkedView(View):
    """A source that is read as it is linked."""

    def __init__(self, uri: str, document: Document, told: Told):
        self.uri, self.document, self.read = uri, document, told
        self.linked = told.linked
        self.names = Names(self.linked.text)
        self.uses = {use.name for use in self.linked.source.uses}

    def offset(self, at: int) -> int | None:
        place = document_bytes(self.document, at)
        found = self.linked.traced.place_of(self.linked.main, place)
        if found is None and place:
            before = self.linked.traced.place_of(self.linked.main, place - 1)
            return None if before is None else before + 1
        return found

    def place(self, start: int, end: int) -> dict:
        origin = self.linked.traced.origin(start, end)
        if origin is None or origin.file is self.linked.main:
            first, last = (origin.at, origin.end) if origin else (0, 0)
            return {"uri": self.uri, "range": byte_range(self.document, first, last)}
        return place_in(origin.file, origin.at, origin.end)

    def source_text(self) -> Text:
        return self.read.text

    def byte(self, offset: int | None) -> int | None:
        return offset

    def byte_place(self, start: int, end: int) -> dict:
        return self.place(start, end)["range"]

    def words(self, text: str) -> str:
        return unicode_of(self.read.own_names(text, None))

    def told(self, symbol: Symbol, token: Token) -> str:
        origin = self.linked.traced.origin(token.start, token.end)
        own = origin.file.text[origin.at:origin.end] if origin and symbol.kind == FUNCTION else symbol.name
        return unicode_of(symbol.told().replace(symbol.name, own, 1))

    def doc(self, symbol: Symbol) -> str:
        part = self.linked.part_at(symbol.token.start)
        return doc_of(part.placed.setting.block) if part and symbol.name == part.placed.name else ""

    def is_own(self, symbol: Symbol) -> bool:
        return self.linked.part_at(symbol.token.start) is None

    def is_named(self, symbol: Symbol) -> bool:
        return self.is_own(symbol) or symbol.name in self.uses

    def same(self) -> list[str]:
        return [name for name in self.linked.same if name in self.uses]


def document_bytes(document: Document, at: int) -> int:
    """The number of the byte at a place of a document."""
    return len(document.text[:at].encode(errors="replace"))


def byte_range(document: Document, start: int, end: int) -> dict:
    """The range between two bytes of a document."""
    content = document.text.encode(errors="replace")
    return document.range(*(len(content[:place].decode(errors="replace")) for place in (start, end)))


def place_in(file: File, start: int, end: int) -> dict:
    """A place of a file that is not the document's."""
    document = Document(file.content.decode(errors="replace"))
    return {"uri": Path(file.name).resolve().as_uri(), "range": byte_range(document, start, end)}


def unicode_of(text: str) -> str:
    """The letters of a text that has one for each byte; of one that has others itself."""
    try:
        return text.encode("latin-1").decode()
    except UnicodeError:
        return text
