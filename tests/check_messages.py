#!/usr/bin/env python3
"""What the language server answers to messages, right and wrong ones, and which of many changes it looks at.

usage: tests/check_messages.py

It runs the built `silc` and `silc_show`, or those that `SILC` and `SILC_SHOW` name.
"""
import json
import queue
import re
import subprocess
import sys
import tempfile
import threading
import time
from collections.abc import Callable, Iterator
from pathlib import Path
from typing import Any, TypeAlias

# What an answer is, the answer, and what it has to be.
Answers: TypeAlias = Iterator[tuple[str, Any, Any]]

ROOT = Path(__file__).resolve().parent.parent
SERVER = ROOT / "editor" / "lsp" / "silc-lsp"
SECONDS, CHANGES = 60, 50
# So many of the changes at most are looked at.
MOST_LOOKS = 10
DIAGNOSTICS = "textDocument/publishDiagnostics"
# A comment with a letter of two units in UTF-16 and four bytes, so that all places after it are told apart.
SOURCE = """/* 𝄞 */ func low(x : fix<16,15>, gain : fix<16,15>) y : fix<16,15> =
begin
  y = gain * x; /* kept */
end;
func main(x : fix<16,15>) y : fix<16,15,sat> =
begin
      var t : fix<16,15>;
  t = low(fix<16,15>(x * 0.3), 0.25);
    y = t + x   *   -0.3; /* both
  lines */
end;
"""
LAID_OUT = SOURCE.replace("      var", "  var").replace("    y = t + x   *   -", "  y = t + x * -")
WORD = "func main(x : fix<8,0>) y : fix<8,0> ="
FAULTS = f"{WORD}\nbegin\n  var t : fix<8,0>;\n  t = a;\n  y = t + b\nend;\n"
DATAPATH = """period = 4
word = 8
[[unit]]
name = "in"
kind = "input"
[[bus]]
name = "b"
from = ["in"]
to = []
"""


class Client:
    """An editor: it sends messages and keeps what comes back."""

    def __init__(self) -> None:
        self.process = subprocess.Popen([sys.executable, SERVER], stdin=subprocess.PIPE, stdout=subprocess.PIPE)
        self.number, self.came, self.told = 0, queue.Queue(), []
        threading.Thread(target=self.listen, daemon=True).start()

    def listen(self) -> None:
        while header := self.process.stdout.readline():
            self.process.stdout.readline()
            body = self.process.stdout.read(int(header.split(b":")[1]))
            self.came.put((time.monotonic(), json.loads(body)))

    def bytes(self, data: bytes) -> None:
        self.process.stdin.write(data)
        self.process.stdin.flush()

    def send(self, **message: Any) -> None:
        body = json.dumps({"jsonrpc": "2.0", **message}).encode()
        self.bytes(b"Content-Length: %d\r\n\r\n%s" % (len(body), body))

    def tell(self, method: str, **params: Any) -> None:
        self.send(method=method, params=params)

    def wait(self, is_it: Callable[[dict[str, Any]], bool]) -> tuple[float, dict]:
        """The next message that is meant, with when it came. All that come before it are kept."""
        until = time.monotonic() + SECONDS
        while time.monotonic() < until and (self.process.poll() is None or not self.came.empty()):
            try:
                at, message = self.came.get(timeout=0.1)
            except queue.Empty:
                continue
            self.told.append((at, message))
            if is_it(message):
                return at, message
        sys.exit(f"messages: the server {'does not answer' if self.process.poll() is None else 'has ended'}")

    def ask(self, method: str, **params: Any) -> Any:
        self.number += 1
        number = self.number
        self.send(id=number, method=method, params=params)
        message = self.wait(lambda one: one.get("id") == number)[1]
        return message["result"] if "result" in message else message["error"]

    def open(self, uri: str, text: str, version: int = 1) -> None:
        self.tell("textDocument/didOpen",
                  textDocument={"uri": uri, "languageId": "silc", "version": version, "text": text})

    def change(self, uri: str, text: str, version: int) -> None:
        self.tell("textDocument/didChange", textDocument={"uri": uri, "version": version},
                  contentChanges=[{"text": text}])

    def marks(self, uri: str, version: int | None = None) -> list[dict]:
        """The next marks of a document."""
        return self.wait(lambda one: one.get("method") == DIAGNOSTICS and one["params"]["uri"] == uri
                         and version in (None, one["params"].get("version")))[1]["params"]["diagnostics"]


def place(text: str, words: str, after: int = 0) -> dict:
    """The position of a text in a source, some characters after its beginning."""
    before = text[:text.index(words) + after]
    line = before.rpartition("\n")[2]
    return {"line": before.count("\n"), "character": len(line.encode("utf-16-le")) // 2}


def shown(marks: list[dict]) -> list[tuple]:
    return [(*mark["range"]["start"].values(), mark["severity"], mark["message"]) for mark in marks]


def edited(text: str, edits: list[dict]) -> str:
    """A text after the edits of the protocol. Its lines have no letters of two units."""
    starts = [0, *(found.end() for found in re.finditer("\n", text))]
    for edit in sorted(edits, key=lambda one: [*one["range"]["start"].values()], reverse=True):
        start, end = (starts[min(edit["range"][which]["line"], len(starts) - 1)] + edit["range"][which]["character"]
                      for which in ("start", "end"))
        text = text[:start] + edit["newText"] + text[end:]
    return text


def wrong_messages(client: Client) -> Answers:
    """What is no message is told as that, and the next one is answered."""
    def code(message: dict[str, Any]) -> Any:
        return message.get("error", {}).get("code") if message.get("id") is None and "method" not in message else None

    for name, data, expected in (
            ("a body that is no JSON", b"Content-Length: 5\r\n\r\nhello", -32700),
            ("a body that is no UTF-8", b"Content-Length: 2\r\n\r\n\xff\xfe", -32700),
            ("a length that is none", b"Content-Length: five\r\n\r\n{\"id\": 1}", -32700),
            ("a header without a length", b"Content-Type: text\r\n\r\n", -32700),
            ("a length that is too great", b"Content-Length: 99999999999\r\n\r\n", -32700),
            ("a length of many digits", b"Content-Length: " + b"9" * 5000 + b"\r\n\r\n", -32700),
            ("nothing as a body", b"Content-Length: 4\r\n\r\nnull", -32700),
            ("a list", b"Content-Length: 2\r\n\r\n[]", -32600)):
        client.bytes(data)
        yield name, code(client.wait(lambda one: code(one) is not None)[1]), expected
        yield f"a request after {name}", client.ask("no/such")["code"], -32601
    yield "a request without its words", client.ask("textDocument/hover")["code"], -32602
    client.tell("textDocument/didChange", textDocument=3)
    yield "a request after a change of nothing", client.ask("no/such")["code"], -32601


def many_changes(client: Client, uri: str) -> Answers:
    """Of changes in a row the newest is looked at, and requests between them are answered by the text that is there
    then."""
    client.open(uri, f"{WORD} begin y = x; end;")
    yield "opened without a fault", client.marks(uri), []
    first, number = len(client.told), client.number + 1
    for version in range(2, CHANGES + 2):
        client.change(uri, f"func main(v{version} : fix<8,0>) y : fix<8,0> = begin y = z{version}; end;", version)
        if version == CHANGES // 2:
            client.send(id=number, method="textDocument/documentSymbol", params={"textDocument": {"uri": uri}})
    client.number = number
    marks = client.marks(uri, CHANGES + 1)
    came = [message for _, message in client.told[first:]]
    looks = [message for message in came if message.get("method") == DIAGNOSTICS]
    answers = [message for message in came if message.get("id") == number]
    yield "the newest is looked at", [mark["message"] for mark in marks], [f"nothing here is called `z{CHANGES + 1}`"]
    yield f"{CHANGES} changes are {len(looks)} looks", len(looks) <= MOST_LOOKS, True
    inner = [symbol["name"] for symbol in answers[0]["result"][0]["children"]] if answers else []
    yield "a question in between", inner, [f"v{CHANGES // 2}", "y"]


def questions(client: Client, uri: str) -> Answers:
    """Layout, calls, numbers, faults and cures."""
    document = {"uri": uri}
    client.open(uri, SOURCE)
    yield "a source without doubts", client.marks(uri), []
    yield "laid out", edited(SOURCE, client.ask("textDocument/formatting", textDocument=document, options={})), LAID_OUT
    for name, words, after, active in (("first argument", "low(fix<", 4, 0), ("in a cast of it", "(x * 0.3)", 2, 0),
                                       ("second argument", ", 0.25)", 2, 1)):
        help_ = client.ask("textDocument/signatureHelp", textDocument=document, position=place(SOURCE, words, after))
        signature = {"label": "func low(x : fix<16,15>, gain : fix<16,15>) y : fix<16,15>",
                     "parameters": [{"label": "x : fix<16,15>"}, {"label": "gain : fix<16,15>"}]}
        yield f"parameters, {name}", help_, {"signatures": [signature], "activeSignature": 0, "activeParameter": active}
    yield "no call", client.ask("textDocument/signatureHelp", textDocument=document,
                                position=place(SOURCE, "t + x")), None
    # 0.3 * 32768 = 9830.4; -9830.4 is nearest to -9830.
    for words, told in (("0.3)", "0.3 in fix<16,15>: the raw word 9830, which is 0.29998779296875"),
                        ("0.25)", "0.25 in fix<16,15>: the raw word 8192"),
                        ("-0.3;", "-0.3 in fix<16,15>: the raw word -9830, which is -0.29998779296875")):
        hover = client.ask("textDocument/hover", textDocument=document, position=place(SOURCE, words, 1))
        yield f"number {words}", hover and hover["contents"]["value"], f"```silc\n{told}\n```"
    client.change(uri, FAULTS, 2)
    yield "all faults", shown(client.marks(uri)), [
        (3, 6, 1, "nothing here is called `a`"), (4, 6 + 5, 1, "a `;` is missing after `b`"), ]
    yield "a fault has no layout", client.ask("textDocument/formatting", textDocument=document,
                                              options={}).get("code"), -32803
    at = place(FAULTS, "\nend")
    actions = client.ask("textDocument/codeAction", textDocument=document, range={"start": at, "end": at}, context={})
    yield "the cure", [(one["title"], edited(FAULTS, one["edit"]["changes"][uri])) for one in actions], [
        ("write `;` after `b`", FAULTS.replace("+ b\n", "+ b;\n"))]
    doubtful = f"{WORD} begin var t : fix<8,0>; t = 1; y = x + x@1; end;"
    client.change(uri, doubtful, 3)
    marks = client.marks(uri)
    yield "warnings", shown(marks), [(0, 49, 2, "`t` is never read"), (0, 74, 2, (
        "`x + x@1` reaches -256 with inputs at the ends of their ranges, and `fix<8,0>` wraps below -128"))]
    yield "what may be taken away", [mark.get("tags") for mark in marks], [[1], None]
    actions = client.ask("textDocument/codeAction", textDocument=document, range=marks[1]["range"], context={})
    yield "a wrap that is meant", [edited(doubtful, one["edit"]["changes"][uri]) for one in actions], [
        doubtful.replace("x@1;", "x@1; /* wraps */")]


def in_the_midst(client: Client, room: Path) -> Answers:
    """A document that is closed before it is looked at, and one whose cures are asked for directly after a change."""
    uri, other = (room / "closed.sil").as_uri(), (room / "asked.sil").as_uri()
    first = len(client.told)
    client.open(uri, f"{WORD} begin y = z; end;")
    client.tell("textDocument/didClose", textDocument={"uri": uri})
    client.open(other, FAULTS)
    client.marks(other)
    marks = [message["params"]["diagnostics"] for _, message in client.told[first:]
             if message.get("method") == DIAGNOSTICS and message["params"]["uri"] == uri]
    yield "closed before it is looked at", marks[-1:], [[]]
    text = f"{WORD} begin y = x end;"
    client.change(other, text, 2)
    at = place(text, " end")
    actions = client.ask("textDocument/codeAction", textDocument={"uri": other}, range={"start": at, "end": at},
                         context={})
    yield "the cure of the newest", [edited(text, one["edit"]["changes"][other]) for one in actions], [
        text.replace("x end", "x; end")]


def datapaths(client: Client, room: Path) -> Answers:
    """The fault of a datapath file that a source names, saved or open, and of one that is open by itself."""
    room = room / "a b"
    room.mkdir()
    file, other = room / "some.toml", room / "other.toml"
    uri, source, alone = file.as_uri(), (room / "named.sil").as_uri(), other.as_uri()
    file.write_text(DATAPATH)
    client.open(source, f"/* datapath: some.toml */ {WORD} begin y = x; end;")
    bad_kind = (4, 7, 1, "no kind is called `input`")
    yield "a file that a source names", shown(client.marks(uri)), [bad_kind]
    yield "the source says it too", [mark["severity"] for mark in client.marks(source)], [4]
    client.open(uri, DATAPATH.replace("period", "perid"))
    yield "the file in the editor", shown(client.marks(uri)), [(0, 0, 1, "the top table has no key `perid`")]
    client.open(alone, "[[unit]]\nname = 3\n")
    yield "a file by itself", [mark["severity"] for mark in client.marks(alone)], [1]
    client.change(alone, "[package]\nname = 3\n", 2)
    yield "a file of something else", client.marks(alone), []


def main() -> int:
    answers = []
    with tempfile.TemporaryDirectory(prefix="silc-messages-") as folder:
        room = Path(folder).resolve()
        client = Client()
        client.ask("initialize", capabilities={})
        for part in (wrong_messages(client), many_changes(client, (room / "many.sil").as_uri()),
                     questions(client, (room / "some.sil").as_uri()), in_the_midst(client, room),
                     datapaths(client, room)):
            answers += part
        client.ask("shutdown")
        client.tell("exit")
        answers.append(("it ends", client.process.wait(SECONDS), 0))
    wrong = [(name, got, expected) for name, got, expected in answers if got != expected]
    for name, got, expected in wrong:
        print(f"messages: {name}: {got} in the place of {expected}")
    print(f"messages: {len(answers)} answers, {len(wrong)} faults")
    return 1 if wrong else 0


if __name__ == "__main__":
    sys.exit(main())
