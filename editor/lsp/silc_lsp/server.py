"""The sources and datapath files that an editor has open, and the answers to what it asks."""
import queue
import subprocess
import sys
from pathlib import Path
from typing import Any
from urllib.parse import unquote, urlparse

from silc.checking.every import every_fault
from silc.checking.findings import Finding
from silc.checking.first import Unchecked
from silc.checking.numbers import Numbers, told_number
from silc.checking.warn import warnings_of
from silc.explaining.program import Source
from silc.explaining.text import KEYWORDS
from silc.linking.blocks import Library
from silc.linking.places import File, Unlinked, has_head
from silc.linking.told import Found, Told, found_unlinked, told_of
from silc_lsp import names as kinds
from silc_lsp.calls import signature
from silc_lsp.document import Document, is_unused, whole
from silc_lsp.head import Head, Named
from silc_lsp.layout import Refused, laid_out
from silc_lsp.names import Names
from silc_lsp.programs import datapath_fault, datapath_of, is_datapath, plan_of
from silc_lsp.protocol import (INTERNAL_ERROR, INVALID_PARAMS, INVALID_REQUEST, METHOD_NOT_FOUND, PARSE_ERROR,
                               REQUEST_FAILED, BadMessage, Connection, Inbox)
from silc_lsp.views import LinkedView, View, byte_range, document_bytes, place_in, unicode_of

FULL_TEXT, ERROR, WARNING, HINT, UNNECESSARY = 1, 1, 2, 4, 1
QUICK_FIX = "quickfix"
# The protocol's numbers of kinds, of symbols and of what completes a name.
SYMBOL_KINDS = {kinds.TABLE: 14, kinds.FUNCTION: 12, kinds.PARAMETER: 13, kinds.RESULT: 13, kinds.LOCAL: 13,
                kinds.INDEX: 13}
COMPLETION_KINDS = {kinds.FUNCTION: 3, kinds.TABLE: 21}
VARIABLE, MODULE, VALUE, KEYWORD = 6, 9, 12, 14
# How a completion was asked for: by a character after which the head of a source may go on.
BY_CHARACTER, CHARACTERS = 2, ["<", "{", " "]
CAPABILITIES = {"textDocumentSync": FULL_TEXT, "hoverProvider": True, "definitionProvider": True,
                "referencesProvider": True,
                "documentSymbolProvider": True, "completionProvider": {"triggerCharacters": CHARACTERS},
                "documentFormattingProvider": True,
                "signatureHelpProvider": {"triggerCharacters": ["(", ","]},
                "codeActionProvider": {"codeActionKinds": [QUICK_FIX]}}


class Failed(Exception):
    """Why a request is refused, as the user is to read it."""


class Server:
    """The documents that an editor has open. Those that have to be looked at anew wait until no message does."""

    def __init__(self, connection: Connection) -> None:
        self.connection, self.documents, self.datapath, self.folders = connection, {}, None, []
        # The blocks that a document uses, by their files.
        self.used = {}
        self.waiting, self.taken, self.named, self.marked = {}, {}, {}, {}
        self.is_shut, self.inbox = False, None
        self.requests = {"initialize": self.initialize, "shutdown": self.shutdown,
                         "textDocument/hover": self.hover, "textDocument/definition": self.definition,
                         "textDocument/references": self.references, "textDocument/documentSymbol": self.outline,
                         "textDocument/completion": self.completion, "textDocument/formatting": self.formatting,
                         "textDocument/signatureHelp": self.signature_help,
                         "textDocument/codeAction": self.code_actions}
        self.notifications = {"textDocument/didOpen": self.opened, "textDocument/didChange": self.changed,
                              "textDocument/didClose": self.closed, "workspace/didChangeConfiguration": self.configured}

    def run(self) -> int:
        """Answers messages until the editor says `exit`; the exit status."""
        self.inbox = Inbox(self.connection)
        while True:
            try:
                message = self.inbox.next(can_wait=not self.waiting)
            except queue.Empty:
                self.check(next(iter(self.waiting)))
                continue
            if message is None or isinstance(message, dict) and message.get("method") == "exit":
                return 0 if self.is_shut or message is None else 1
            self.take(message)

    def take(self, message: Any) -> None:
        if isinstance(message, BadMessage):
            self.connection.refuse(None, PARSE_ERROR, str(message))
        elif not isinstance(message, dict):
            self.connection.refuse(None, INVALID_REQUEST, "a message is an object")
        elif not isinstance(message.get("method"), str):
            if "result" not in message and "error" not in message:
                self.connection.refuse(message.get("id"), INVALID_REQUEST, "a request has a method")
        elif "id" in message:
            self.answer(message, message["method"])
        elif message["method"] in self.notifications:
            try:
                self.notifications[message["method"]](message.get("params") or {})
            except Exception as fault:
                # One message that is wrong ends no session.
                print(f"silc-lsp: {message['method']}: {fault!r}", file=sys.stderr, flush=True)

    def answer(self, message: dict, method: str) -> None:
        number = message["id"]
        if method not in self.requests:
            self.connection.refuse(number, METHOD_NOT_FOUND, f"no request is called {method}")
            return
        try:
            self.connection.answer(message, self.requests[method](message.get("params") or {}))
        except Failed as why:
            self.connection.refuse(number, REQUEST_FAILED, str(why))
        except (KeyError, TypeError, IndexError, AttributeError) as fault:
            self.connection.refuse(number, INVALID_PARAMS, repr(fault))
        except Exception as fault:
            self.connection.refuse(number, INTERNAL_ERROR, repr(fault))

    def initialize(self, params: dict) -> dict:
        options = params.get("initializationOptions") or {}
        self.datapath, self.folders = options.get("datapath"), folders_in(options)
        return {"capabilities": CAPABILITIES, "serverInfo": {"name": "silc-lsp"}}

    def shutdown(self, _params: dict) -> None:
        self.is_shut = True

    # Documents

    def opened(self, params: dict) -> None:
        document = params["textDocument"]
        self.put(document["uri"], Document(document["text"], document.get("version")))

    def changed(self, params: dict) -> None:
        uri = params["textDocument"]["uri"]
        self.taken[uri] = self.taken.get(uri, 0) + 1
        self.put(uri, Document(params["contentChanges"][-1]["text"], params["textDocument"].get("version")))

    def closed(self, params: dict) -> None:
        uri = params["textDocument"]["uri"]
        self.documents.pop(uri, None)
        self.waiting.pop(uri, None)
        self.used.pop(uri, None)
        self.publish(uri, None, [])
        other = self.named.pop(uri, None)
        if other and other not in self.documents and other not in self.named.values():
            self.publish_file(other, [])

    def configured(self, params: dict) -> None:
        settings = (params.get("settings") or {}).get("silc") or {}
        self.datapath = settings.get("datapath", self.datapath)
        self.folders = folders_in(settings) if "library" in settings else self.folders
        self.waiting |= dict.fromkeys(self.documents)

    def put(self, uri: str, document: Document) -> None:
        self.documents[uri] = document
        self.waiting[uri] = None
        file = path_of(uri).resolve()
        self.waiting |= dict.fromkeys(user for user, files in self.used.items() if file in files)

    def is_stale(self, uri: str) -> bool:
        """Whether a newer change of a document has come than the one that it has."""
        return self.inbox.changes.get(uri, 0) > self.taken.get(uri, 0)

    def check(self, uri: str) -> None:
        """Looks at a document, and tells the editor what is found in it, unless it is older than the newest."""
        del self.waiting[uri]
        document = self.documents[uri]
        if self.is_stale(uri):
            return
        try:
            is_toml = path_of(uri).suffix == ".toml"
            marks = self.marks_of_datapath(uri, document) if is_toml else self.marks_of(uri, document)
        except Exception as fault:
            marks = [mark(document.range(0, 0), ERROR, f"it could not be checked: {fault}")]
        if not self.is_stale(uri):
            self.publish(uri, document.version, marks)

    def publish(self, uri: str, version: int | None, marks: list) -> None:
        self.connection.notify("textDocument/publishDiagnostics",
                               {"uri": uri, "diagnostics": marks} | ({} if version is None else {"version": version}))

    def publish_file(self, uri: str, marks: list) -> None:
        """Tells what is found in a file that is not open, where it is not as before."""
        if marks != self.marked.get(uri, []):
            self.publish(uri, None, marks)
        self.marked[uri] = marks

    def marks_of(self, uri: str, document: Document) -> list[dict]:
        """The faults of a source, or else its warnings and its plan."""
        try:
            told = self.linked(uri, document)
        except Unlinked as fault:
            document.findings = []
            return [unlinked_mark(uri, document, fault)]
        self.used[uri] = {Path(block.file.name).resolve() for block in told.linked.blocks} if told else set()
        text = told.text if told else document.source_text()
        faults = every_fault(text, lambda: self.is_stale(uri))
        findings = faults if faults or self.is_stale(uri) else warnings_of(text)
        found = [told.found(one) if told else Found("", one) for one in findings]
        document.findings = [one.finding for one in found if one.placed is None]
        marks = [marked(document, one.finding) if one.placed is None else block_mark(document, told, one)
                 for one in found]
        return [*marks, *self.plans(uri, document, bool(faults), told)]

    def library(self, uri: str) -> Library:
        """The blocks that a document may use, with those that are open as they are in the editor."""
        edited = {path_of(other).resolve(): document.text.encode(errors="replace")
                  for other, document in self.documents.items()}
        return Library([path_of(uri).parent / folder for folder in self.folders], edited=edited)

    def linked(self, uri: str, document: Document) -> Told | None:
        """A document as it is linked, or nothing of a plain source. Raises `Unlinked`."""
        return told_of(str(path_of(uri)), document.text.encode(errors="replace"), self.library(uri))

    def view(self, params: dict) -> View:
        """The document that is asked about, as its names are read: as it stands there, where it can't be linked."""
        uri = params["textDocument"]["uri"]
        document = self.documents[uri]
        try:
            told = self.linked(uri, document)
        except Unlinked:
            told = None
        return LinkedView(uri, document, told) if told else View(uri, document)

    def head(self, uri: str, document: Document) -> Head | None:
        """The head of a source that is to be linked."""
        if not has_head(document.text):
            return None
        return Head(File(str(path_of(uri)), document.text.encode(errors="replace")), self.library(uri))

    def plans(self, uri: str, document: Document, has_fault: bool, told: Told | None) -> list[dict]:
        """What the plan over the datapath of a source is, at its `main`. The fault of that file is told at its
        place."""
        datapath = datapath_of(document.text, self.datapath, path_of(uri).parent)
        if datapath is None:
            self.named.pop(uri, None)
            return []
        other, content = self.datapath_text(datapath)
        self.named[uri] = other
        if other not in self.documents:
            self.publish_file(other, self.marks_of_datapath(other, Document(content)))
        main = next((symbol for symbol in Names(document.text).symbols
                     if symbol.kind == kinds.FUNCTION and symbol.name == "main"), None)
        if has_fault or main is None or self.is_stale(uri):
            return []
        return [mark(document.range(main.token.start, main.token.end), HINT,
                     plan_of(document.text, datapath, content, told))]

    def datapath_text(self, datapath: Path) -> tuple[str, str]:
        """The name of a datapath file to the editor, and its text as it is there, or as it was saved."""
        for uri, document in self.documents.items():
            if path_of(uri).resolve() == datapath:
                return uri, document.text
        return datapath.as_uri(), datapath.read_bytes().decode(errors="replace")

    def marks_of_datapath(self, uri: str, document: Document) -> list[dict]:
        """The fault of a datapath file. The sources that name it are looked at too."""
        if uri in self.documents:
            self.waiting |= dict.fromkeys(source for source, other in self.named.items() if other == uri)
        if uri not in self.named.values() and not is_datapath(document.text):
            return []
        found = datapath_fault(document.text)
        return [marked(document, found)] if found else []

    # Questions

    def at(self, params: dict) -> tuple:
        """The document as it is read, the place there that is asked about, and the token at it with what it names."""
        view = self.view(params)
        offset = view.offset(view.document.offset(params["position"]))
        token = None if offset is None else view.names.token_at(offset)
        return view, offset, token, view.names.symbol_of(token) if token else None

    def told_in_head(self, params: dict) -> Named | None:
        """What is said of a name of the head or in braces."""
        uri = params["textDocument"]["uri"]
        document = self.documents[uri]
        head = self.head(uri, document)
        return head.told(document_bytes(document, document.offset(params["position"]))) if head else None

    def hover(self, params: dict) -> dict | None:
        named = self.told_in_head(params)
        if named:
            document = self.documents[params["textDocument"]["uri"]]
            return hovered(named.code, byte_range(document, named.start, named.end), named.doc)
        view, offset, token, symbol = self.at(params)
        if symbol:
            return hovered(view.told(symbol, token), view.of(token)["range"], view.doc(symbol))
        return number_at(view, offset)

    def definition(self, params: dict) -> dict | None:
        named = self.told_in_head(params)
        if named and named.file:
            return self.head_place(params, named.file, named.at)
        view, _, _, symbol = self.at(params)
        return view.of(symbol.token) if symbol else None

    def head_place(self, params: dict, file: File, at: int) -> dict:
        """Where a name of the head is declared: in the document, or in a block."""
        uri = params["textDocument"]["uri"]
        if file.name != str(path_of(uri)):
            return place_in(file, at, at)
        return {"uri": uri, "range": byte_range(self.documents[uri], at, at)}

    def references(self, params: dict) -> list[dict]:
        view, _, _, symbol = self.at(params)
        places = view.names.places_of(symbol) if symbol else []
        with_own = (params.get("context") or {}).get("includeDeclaration", True)
        return [view.of(token) for token in places if with_own or token != symbol.token]

    def outline(self, params: dict) -> list[dict]:
        view = self.view(params)
        return [outlined(view, symbol, [inner for inner in view.names.symbols if inner.owner is symbol])
                for symbol in view.names.symbols if symbol.owner is None and view.is_own(symbol)]

    def completion(self, params: dict) -> list[dict]:
        uri = params["textDocument"]["uri"]
        document = self.documents[uri]
        at = document.offset(params["position"])
        head = self.head(uri, document)
        offers = head.offers(document_bytes(document, at)) if head else None
        if offers is not None:
            return [{"label": offer.name, "detail": offer.detail, "documentation": unicode_of(offer.doc),
                     "kind": MODULE if offer.is_block else VALUE} for offer in offers]
        if (params.get("context") or {}).get("triggerKind") == BY_CHARACTER:
            return []
        view, found = self.view(params), {}
        offset = view.offset(at)
        for symbol in view.names.in_scope(offset) if offset is not None else ():
            if symbol.owner or view.is_named(symbol):
                found.setdefault(symbol.name, {"label": symbol.name, "detail": view.words(symbol.told()),
                                               "kind": COMPLETION_KINDS.get(symbol.kind, VARIABLE)})
        same = ({"label": name, "kind": COMPLETION_KINDS[kinds.FUNCTION]} for name in view.same())
        return [*found.values(), *same, *({"label": word, "kind": KEYWORD} for word in KEYWORDS)]

    def signature_help(self, params: dict) -> dict | None:
        view = self.view(params)
        offset = view.offset(view.document.offset(params["position"]))
        return signature(view.names, offset) if offset is not None else None

    def formatting(self, params: dict) -> list[dict]:
        document = self.documents[params["textDocument"]["uri"]]
        try:
            text = laid_out(document.text)
        except Refused as why:
            raise Failed(str(why)) from why
        return [] if text == document.text else [{"range": whole(document), "newText": text}]

    def code_actions(self, params: dict) -> list[dict]:
        """The cures of the faults and warnings of a place."""
        uri = params["textDocument"]["uri"]
        if uri in self.waiting:
            self.check(uri)
        document, made = self.documents[uri], []
        first, last = (document.offset(params["range"][end]) for end in ("start", "end"))
        for found in document.findings:
            place = document.range_of(found)
            if found.edits and document.offset(place["start"]) <= last and first <= document.offset(place["end"]) \
                    and self.helps(uri, document, found):
                made.append(action(uri, document, found))
        return made

    def helps(self, uri: str, document: Document, found: Finding) -> bool:
        """Whether the cure of a finding takes it away, which is tried once."""
        if found not in document.cured:
            try:
                after = self.found_after(uri, Document(document.edited(document.edits_of(found))), found.is_warning)
            except (Unchecked, Unlinked, OSError, subprocess.SubprocessError):
                return False
            before = sum(other.text == found.text for other in document.findings)
            is_less = sum(other.text == found.text for other in after) < before
            document.cured[found] = is_less and not (found.is_warning and any(not other.is_warning for other in after))
        return document.cured[found]

    def found_after(self, uri: str, cured: Document, is_warning: bool) -> list[Finding]:
        """What is found in a document after an edit: its faults, and where there are none and a warning was cured its
        warnings."""
        told = self.linked(uri, cured)
        text = told.text if told else cured.source_text()
        after = every_fault(text)
        after = after if after or not is_warning else warnings_of(text)
        return [told.found(one).finding for one in after] if told else after


def folders_in(settings: dict) -> list[str]:
    """The folders of blocks in the settings of an editor: one, or a list of them."""
    folders = settings.get("library") or []
    return [folders] if isinstance(folders, str) else [str(folder) for folder in folders]


def path_of(uri: str) -> Path:
    return Path(unquote(urlparse(uri).path))


def mark(place: dict, severity: int, words: str) -> dict:
    return {"range": place, "severity": severity, "source": "silc", "message": words}


def marked(document: Document, found: Finding) -> dict:
    """A finding as the protocol has it."""
    made = mark(document.range_of(found), WARNING if found.is_warning else ERROR, found.text)
    return made | {"tags": [UNNECESSARY]} if is_unused(found) else made


def action(uri: str, document: Document, found: Finding) -> dict:
    """The cure of a finding as the protocol has it."""
    edits = [{"range": document.range(start, end), "newText": text} for start, end, text in document.edits_of(found)]
    return {"title": found.cure.rstrip("."), "kind": QUICK_FIX, "diagnostics": [marked(document, found)],
            "isPreferred": not found.is_warning, "edit": {"changes": {uri: edits}}}


def hovered(code: str, place: dict, doc: str = "") -> dict:
    """A line of code and a sentence on it, as the protocol has them."""
    value = f"```silc\n{code}\n```" + (f"\n{unicode_of(doc)}" if doc else "")
    return {"contents": {"kind": "markdown", "value": value}, "range": place}


def unlinked_mark(uri: str, document: Document, fault: Unlinked) -> dict:
    """A fault of the linker, at its place, or where the block is used that has it."""
    found = found_unlinked(fault)
    if fault.file == str(path_of(uri)):
        return marked(document, found.finding)
    place = document.range(0, 0) if fault.by is None else use_range(document, fault.by)
    return led_mark(place, ERROR, found)


def block_mark(document: Document, told: Told, found: Found) -> dict:
    """What is found in a block, where the source uses it."""
    return led_mark(use_range(document, found.placed.by.at), WARNING if found.finding.is_warning else ERROR, found)


def use_range(document: Document, at: int) -> dict:
    """The `use` that begins at a byte of a document."""
    content = document.text.encode(errors="replace")
    return byte_range(document, at, content.index(b";", at) + 1)


def led_mark(place: dict, severity: int, found: Found) -> dict:
    """What is found in another file, at the place that led there, with its own place beside it."""
    there = found.finding
    where = f"{Path(found.file).name}:{there.line}:{there.column}: "
    start, end = ({"line": there.line - 1, "character": column - 1} for column in (there.column, there.end))
    related = {"location": {"uri": Path(found.file).resolve().as_uri(), "range": {"start": start, "end": end}},
               "message": there.text}
    return mark(place, severity, where + there.text) | {"relatedInformation": [related]}


def number_at(view: View, offset: int | None) -> dict | None:
    """What is said of the number at a place: what it is in its type."""
    text, place = view.source_text(), view.byte(offset)
    if place is None:
        return None
    numbers = Numbers(Source(text))
    for start, node in numbers.nodes.items():
        if start <= place <= node.end:
            return hovered(told_number(node.value, numbers.types[start]), view.byte_place(start, node.end))
    return None


def outlined(view: View, symbol: kinds.Symbol, inner: list) -> dict:
    end = symbol.token.end if not inner else max(each.scope[1] for each in inner)
    return {"name": view.words(symbol.name), "detail": view.words(symbol.told()), "kind": SYMBOL_KINDS[symbol.kind],
            "range": view.place(symbol.token.start, end)["range"], "selectionRange": view.of(symbol.token)["range"],
            "children": [outlined(view, each, []) for each in inner]}
